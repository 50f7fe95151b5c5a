"""The command line: `python -m jasminedome` and load, shell, serve, backup, dump, reindex, log or replica."""

from __future__ import annotations

import argparse
import os
import sys
from typing import Callable, List, Optional, Tuple

from . import copying, log_commands, shell
from .errors import JasminedomeError
from .http import command
from .loading import EVERY, Loaded, load
from .plans import ASKED, CENTS, SKIP
from .sources import FORMS, STANDARD_INPUT
from .summaries import plan_lines, refused_lines, repeated_lines
from .terminal import Bar, shown
from .version import __version__

REFUSED = 1
FAILED = 2
INTERRUPTED = 130


def main(arguments: Optional[List[str]] = None) -> int:
    """Does what the arguments say; answers the exit status: 0, 1 where something was refused, 2 where it wasn't done."""
    asked = _parser().parse_args(arguments)
    is_shell = asked.command == "shell"
    try:
        run: Callable[[argparse.Namespace], int] = asked.run
        return run(asked)
    except BrokenPipeError:
        # Whoever read the output has seen enough of it.
        os.dup2(os.open(os.devnull, os.O_WRONLY), sys.stdout.fileno())
        return 0
    except (JasminedomeError, OSError) as error:
        for line in str(error).split("\n"):
            print(f"jasminedome: {shown(line)}", file=sys.stderr)
        return FAILED
    except KeyboardInterrupt:
        goes_on = "what was committed stays, and the same command goes on from there"
        left = "what wasn't committed is gone" if is_shell else goes_on
        print(f"\njasminedome: interrupted; {left}", file=sys.stderr)
        return INTERRUPTED


def _parser() -> argparse.ArgumentParser:
    about = "Load a catalogue from a file, look into it, serve it, and copy it."
    parser = argparse.ArgumentParser("jasminedome", description=about)
    parser.add_argument("--version", action="version", version=f"%(prog)s {__version__}")
    commands = parser.add_subparsers(dest="command", required=True)
    loading = commands.add_parser(
        "load",
        help="put the items of a file into a folder, and commit them",
        description="Puts the items of FILE into a folder, which is made where there is none, and commits them.",
    )
    _add_load(loading)
    _add_folder_load(loading)
    loading.set_defaults(run=_load)
    shelled = commands.add_parser("shell", help="ask a folder's catalogue", description="Asks the catalogue of a folder.")
    shelled.add_argument("folder", metavar="F", help="where the catalogue is kept")
    shelled.set_defaults(run=lambda asked: shell.run(asked.folder, asked.program))
    serving = commands.add_parser("serve", help="answer over HTTP", description="Serves a catalogue over HTTP, as JSON.")
    command.add_arguments(serving)
    serving.set_defaults(run=command.serve)
    logs = "a log of writes in PostgreSQL, which replicas apply"
    logged = commands.add_parser("log", help=f"make, fill and look after {logs}", description=f"{logs}.")
    log_commands.add_log(logged, _add_load)
    logged.set_defaults(run=log_commands.run_log)
    replica = commands.add_parser("replica", help="apply a log, and answer readers", description="Applies a log, and answers.")
    log_commands.add_replica(replica)
    replica.set_defaults(run=log_commands.run_replica)
    for each in (loading, shelled, serving, replica, *copying.add_commands(commands)):
        each.add_argument("--program", metavar="PATH", help="the program; else JASMINEDOME_PROGRAM, else catalogue on the PATH")
    return parser


def _add_load(parser: argparse.ArgumentParser) -> None:
    parser.add_argument(
        "file",
        metavar="FILE",
        help="lines of JSON (.jsonl), an array of JSON (.json), or a table with a line of names (.csv, .tsv), any of them "
        f"packed (.gz); {STANDARD_INPUT} for standard input",
    )
    parser.add_argument(
        "--field",
        action="append",
        default=[],
        type=_field,
        metavar="NAME:KIND",
        help=f"what a column is: {', '.join(ASKED[:-2])}; {CENTS} for prices such as 19.99, which become a number; or "
        f"{SKIP} to leave it out; the others go by their values",
    )
    parser.add_argument("--id", metavar="NAME", help="the column that tells items apart, where that isn't id")
    parser.add_argument("--format", choices=FORMS, help="what the file is, where its name doesn't tell")
    parser.add_argument("--encoding", metavar="NAME", help="what it is written in, where that isn't UTF-8: latin-1, say")


def _add_folder_load(parser: argparse.ArgumentParser) -> None:
    parser.add_argument("--folder", required=True, metavar="F", help="where the catalogue is kept")
    parser.add_argument("--every", type=int, default=EVERY, metavar="N", help="items between two commits (%(default)s)")


def _field(text: str) -> Tuple[str, str]:
    name, colon, kind = text.rpartition(":")
    if not colon or not name or kind not in ASKED:
        raise argparse.ArgumentTypeError(f"{text!r} isn't NAME:KIND, with {', '.join(ASKED[:-1])} or {SKIP}")
    return name, kind


def _load(asked: argparse.Namespace) -> int:
    bar = Bar(sys.stderr)
    try:
        told = load(
            asked.file, asked.folder, dict(asked.field), asked.id, asked.program, bar.show, asked.format, asked.encoding,
            asked.every,
        )  # fmt: skip
    finally:
        bar.end()
    name = "standard input" if asked.file == STANDARD_INPUT else os.path.basename(asked.file)
    for line in _summary(told, name, asked.folder):
        print(shown(line))
    return REFUSED if told.refused else 0


def _summary(told: Loaded, name: str, folder: str) -> List[str]:
    count = told.accepted + len(told.refused)
    speed = told.accepted / told.seconds if told.seconds else 0
    kept = f"commit {told.commit:,} of {folder}" if told.commit is not None else "so nothing was committed"
    lines = [f"{name}: {told.accepted:,} of {count:,} items put in {told.seconds:.1f} s ({speed:,.0f} a second), {kept}"]
    lines += plan_lines(told.plan)
    if told.skipped:
        lines.append(f"went on behind row {told.skipped:,}, up to which a load that was stopped had committed")
    return lines + repeated_lines(told.repeated, told.repeats) + refused_lines(told.refused)


if __name__ == "__main__":
    sys.exit(main())
