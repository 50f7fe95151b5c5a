"""The command line of logs and replicas: `python -m jasminedome log ..` and `python -m jasminedome replica ..`.

What needs psycopg2 is imported by the command that was said, so that the others don't need it.
"""

from __future__ import annotations

import argparse
import asyncio
import importlib
import logging
import signal
import sys
from pathlib import Path
from typing import TYPE_CHECKING, Any, Callable, List, Tuple

from .errors import UsageError
from .plans import KINDS
from .summaries import plan_lines, refused_lines, repeated_lines
from .terminal import Bar, shown, table

if TYPE_CHECKING:
    from .replicas.log import Log

_COLUMNS = ("replica", "address", "version", "at", "behind", "token", "base", "ready", "told")

UNLIKE = 1
"""The exit status where something was refused, or replicas differ."""


def add_log(parser: argparse.ArgumentParser, add_load: Callable[[argparse.ArgumentParser], None]) -> None:
    """Adds the commands of `log`; `add_load` adds what says what a file's columns are."""
    commands = parser.add_subparsers(dest="log_command", required=True)
    create = _command(commands, "create", _create, "make an empty log: a schema of PostgreSQL")
    create.add_argument("--field", action="append", default=[], type=_field, metavar="NAME:KIND", help=", ".join(KINDS))
    create.add_argument("--most-lead", type=int, metavar="N", help="batches by which writers may be ahead of replicas")
    loading = _command(commands, "load", _load, "append the items of a file")
    add_load(loading)
    loading.add_argument("--again", action="store_true", help="append it anew, though the same file was loaded before")
    _command(commands, "status", _status, "tell how the log and its replicas stand")
    cut = _command(commands, "cut", _cut, "delete old batches that no replica needs")
    cut.add_argument("--days", type=float, default=7.0, help="how old they have to be: above the longest retry (%(default)s)")
    audit = _command(commands, "audit", _audit, "hold the log against its seals, and replicas against each other")
    audit.add_argument("--patience", type=float, default=120.0, metavar="SECONDS", help="for replicas' digests (%(default)s)")
    skip = _command(commands, "skip", _skip, "have every replica leave out a line that ends the program")
    skip.add_argument("position", type=int, help="of its batch")
    skip.add_argument("line", type=int, help="its place in the batch, from 0")
    skip.add_argument("--reason", required=True)
    forget = _command(commands, "forget", _forget, "forget a replica that won't come back, which a cut waits for")
    forget.add_argument("replica", help="its name, as status tells it")


def add_replica(parser: argparse.ArgumentParser) -> None:
    """Adds the arguments of `replica`."""
    _add_log_name(parser)
    parser.add_argument("--folder", required=True, type=Path, metavar="F", help="its own, made where there is none")
    parser.add_argument("--listen", required=True, metavar="ADDRESS", help="HOST:PORT, or the path of a socket")
    parser.add_argument("--address", help="where readers find it, if that isn't where it listens")
    parser.add_argument("--replica", metavar="NAME", help="what it is called; else its address")
    parser.add_argument("--source", metavar="ADDRESS", help="of the replica whose base is taken where the folder is empty")
    parser.add_argument("--pulse", type=_pulse, metavar="VIEWS,ANCHORS", help="how often marks are due (1s,30s), or off")
    parser.add_argument("--every", type=_every, metavar="WRITES,SECONDS", help="when a base is due (20000,10)")
    parser.add_argument("--newest", action="store_true", help="begin at the newest base, and leave older tokens to others")


def run_log(asked: argparse.Namespace) -> int:
    """Does a command of `log`; answers the exit status. Raises JasminedomeError and OSError."""
    _need_psycopg2()
    from .replicas.log import Log

    with Log(asked.dsn, asked.name) as log:
        status: int = asked.do(log, asked)
        return status


def run_replica(asked: argparse.Namespace) -> int:
    """Runs a replica until it is interrupted or terminated. Raises JasminedomeError and OSError."""
    _need_psycopg2()
    from .replicas.applying import Every
    from .replicas.following import Pulse
    from .replicas.replica import Settings, serve

    logging.basicConfig(stream=sys.stderr, level=logging.INFO, format="%(asctime)s %(levelname)s %(message)s")
    address = asked.address or asked.listen
    pulse = Pulse() if asked.pulse is None else Pulse(*asked.pulse) if asked.pulse else None
    every = Every() if asked.every is None else Every(*asked.every)
    settings = Settings(
        asked.dsn, asked.name, asked.folder, asked.listen, address, asked.replica or address, asked.program, asked.source,
        not asked.newest, every, pulse,
    )  # fmt: skip

    async def run() -> None:
        stopped = asyncio.Event()
        for number in (signal.SIGINT, signal.SIGTERM):
            asyncio.get_running_loop().add_signal_handler(number, stopped.set)
        await serve(settings, stopped)

    asyncio.run(run())
    return 0


def _need_psycopg2() -> None:
    try:
        importlib.import_module(".replicas", __package__)
    except ImportError as error:
        raise UsageError(str(error)) from None


def _command(
    commands: "argparse._SubParsersAction[argparse.ArgumentParser]", name: str, do: Callable[["Log", Any], int], what: str
) -> argparse.ArgumentParser:
    parser = commands.add_parser(name, help=what, description=f"{what[0].upper()}{what[1:]}.")
    _add_log_name(parser)
    parser.set_defaults(do=do)
    return parser


def _add_log_name(parser: argparse.ArgumentParser) -> None:
    parser.add_argument("--dsn", required=True, help="where PostgreSQL is, as libpq has it: 'host=.. dbname=.. user=..'")
    parser.add_argument("--name", default="shop", help="the log, a schema of PostgreSQL (%(default)s)")


def _field(said: str) -> Tuple[str, str]:
    name, _, kind = said.rpartition(":")
    if not name or kind not in KINDS:
        raise argparse.ArgumentTypeError(f"{said!r} isn't NAME:KIND, with {', '.join(KINDS)}")
    return name, kind


def _pulse(said: str) -> List[str]:
    words = [] if said == "off" else said.split(",")
    if len(words) not in (0, 2, 3) or not all(words):
        raise argparse.ArgumentTypeError(f"{said!r} isn't VIEWS,ANCHORS or VIEWS,ANCHORS,DIGESTS: 1s,30s,1h")
    return words


def _every(said: str) -> Tuple[int, float]:
    writes, _, seconds = said.partition(",")
    try:
        return int(writes), float(seconds)
    except ValueError:
        raise argparse.ArgumentTypeError(f"{said!r} isn't WRITES,SECONDS") from None


def _create(log: "Log", asked: argparse.Namespace) -> int:
    from .replicas.log import MOST_LEAD, Log

    lead = MOST_LEAD if asked.most_lead is None else asked.most_lead
    made = Log.create(asked.dsn, dict(asked.field), asked.name, most_lead=lead)
    with made:
        head = made.head()
    print(f"the log {asked.name} of {len(head.fields)} fields is made, under the rules {head.rules}")
    return 0


def _load(log: "Log", asked: argparse.Namespace) -> int:
    from .replicas.loading import load

    bar = Bar(sys.stderr)
    try:
        told = load(
            asked.file, log, dict(asked.field), asked.id, bar.show, asked.format, asked.encoding, again=asked.again
        )  # fmt: skip
    finally:
        bar.end()
    speed = told.count / told.seconds if told.seconds else 0
    took = f"in {told.seconds:.1f} s ({speed:,.0f} a second)"
    print(f"{told.count:,} items appended {took}, up to {told.position:,} of {log.name}")
    if told.before:
        print(f"{told.before:,} of them were there before: --again appends them anew")
    for line in (*plan_lines(told.plan), *repeated_lines(told.repeated, told.repeats), *refused_lines(told.refused)):
        print(shown(line))
    if not told.is_told:
        print("no replica has applied all of it yet, so more may be refused: log status tells how far they are")
    return UNLIKE if told.refused else 0


def _status(log: "Log", asked: argparse.Namespace) -> int:
    head = log.head()
    print(f"log {log.name}, {head.id}: at {head.position:,}, cut up to {head.cut:,}, rules {head.rules}")
    print("fields: " + ", ".join(f"{name} {kind}" for name, kind in head.fields.items()))
    rows = [
        [
            each.name, each.address, each.version, f"{each.position:,}", f"{head.position - each.position:,}",
            f"{each.token:,}", f"{each.base:,}", "yes" if each.is_ready else "no", f"{each.age:.1f} s ago",
        ]
        for each in log.replicas()
    ]  # fmt: skip
    for line in table(_COLUMNS, rows, is_cut=False):
        print(line)
    if not rows:
        print("no replica has told of itself yet")
    return 0


def _cut(log: "Log", asked: argparse.Namespace) -> int:
    print(f"cut up to {log.cut(asked.days):,}; the log is at {log.head().position:,}")
    return 0


def _audit(log: "Log", asked: argparse.Namespace) -> int:
    from .replicas.auditing import audit

    told = audit(log, asked.patience)
    print(f"{told.batches:,} batches, {told.first:,} to {told.last:,}: {told.fault or 'each has its seal'}")
    for name, digest in sorted(told.digests.items()):
        print(f"{shown(name)} shows {digest[:16]} at {told.last:,}")
    for name in told.silent:
        print(f"{shown(name)} has told nothing of {told.last:,}")
    is_well = told.fault is None and len(set(told.digests.values())) <= 1 and not told.silent
    verdict = "all replicas show the same" if told.digests else "no replica was heard"
    print(verdict if is_well else "NOT ALL IS WELL")
    return 0 if is_well else UNLIKE


def _skip(log: "Log", asked: argparse.Namespace) -> int:
    log.skip(asked.position, asked.line, asked.reason)
    print(f"every replica leaves out line {asked.line} of {asked.position:,}")
    return 0


def _forget(log: "Log", asked: argparse.Namespace) -> int:
    is_gone = log.forget(asked.replica)
    print(f"{asked.replica} is forgotten" if is_gone else f"no replica is called {asked.replica}")
    return 0 if is_gone else UNLIKE
