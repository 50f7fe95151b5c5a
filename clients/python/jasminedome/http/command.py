"""The command `python -m jasminedome serve`."""

from __future__ import annotations

import argparse
import contextlib
import logging
import os
import sys
import time
from pathlib import Path
from typing import Dict, List, Optional, Tuple

from ..catalogue import Catalogue
from ..errors import FolderInUse, UsageError
from ..folders import fields_of
from ..journal import Journal
from ..plans import KINDS
from ..starting import MOST_THREADS
from . import MISSING, Folding, Keys, Service, Settings, make_app
from .calls import CatalogueCalls, ReaderCalls

ENDED = 3
"""The exit status where the program ended by itself, or no replica was there in time: to start again may help."""

_TIMEOUT = 30.0  # seconds
_PATIENCE = 3.0  # seconds in which a folder has to be free
_READ_KEY, _WRITE_KEY = "JASMINEDOME_READ_KEY", "JASMINEDOME_WRITE_KEY"


def add_arguments(parser: argparse.ArgumentParser) -> None:
    """What may be said behind `serve`."""
    plain = Settings()
    parser.add_argument("--folder", metavar="F", help="where the catalogue is kept, made where there is none; else in memory")
    parser.add_argument("--listen", default="127.0.0.1:8080", metavar="HOST:PORT", help="where it is served (%(default)s)")
    parser.add_argument(
        "--field", "--fields", action="append", default=[], type=_fields, metavar="NAME:KIND,..",
        help=f"the fields of a catalogue that is new, with {', '.join(KINDS)}; a folder with a commit says its own",
    )  # fmt: skip
    parser.add_argument("--words", type=_names, metavar="FIELD,..", help="where words are looked for; else in all text fields")
    parser.add_argument(
        "--fold", type=_folding, metavar="FIELD=FIELD,..",
        help="a text field that the service fills with the words of others, in small letters and without accents",
    )  # fmt: skip
    about = "in place of a folder: the log in PostgreSQL that is written, as libpq has it"
    parser.add_argument("--log", metavar="DSN", help=about)
    parser.add_argument("--name", default="shop", help="of that log (%(default)s)")
    parser.add_argument(
        "--replicas", type=_names, metavar="ADDRESS,..",
        help="the replicas that are read, with --log or alone; else those that the log knows",
    )  # fmt: skip
    about = "a folder for a journal: what was answered outlives a kill, commit or not"
    parser.add_argument("--journal", metavar="F", help=about)
    about = f"how many threads of the program answer, 1 to {MOST_THREADS}; else one line after another"
    parser.add_argument("--threads", type=int, metavar="N", help=about)
    numbers = {
        "--show-every": (plain.show_every, "S", "least seconds between two views"),
        "--commit-every": (plain.commit_every, "S", "seconds in which a write is committed"),
        "--timeout": (_TIMEOUT, "S", "seconds for one answer of the program"),
        "--most-body": (plain.most_body, "BYTES", "of a request"),
        "--most-bulk": (plain.most_bulk, "BYTES", "of lines of items"),
    }
    for option, (value, metavar, about) in numbers.items():
        parser.add_argument(option, type=type(value), default=value, metavar=metavar, help=f"{about} (%(default)s)")
    for right, name in (("reading", _READ_KEY), ("writing", _WRITE_KEY)):
        option = f"--{'read' if right == 'reading' else 'write'}-key-file"
        parser.add_argument(option, metavar="PATH", help=f"a file with the key for {right}; else {name} of the environment")
    parser.add_argument("--without-keys", action="store_true", help="let whoever reaches it write, from other machines too")


def serve(asked: argparse.Namespace) -> int:
    """Serves until it is told to stop; answers the exit status. Raises UsageError, OSError, and what `Catalogue` raises."""
    try:
        from . import serving
    except ImportError as error:
        raise UsageError(f"{MISSING} ({error})") from None
    logging.basicConfig(format="%(asctime)s %(levelname)s %(name)s: %(message)s", level=logging.WARNING)
    keys = Keys(_key(asked.read_key_file, _READ_KEY), _key(asked.write_key_file, _WRITE_KEY), asked.without_keys)
    settings = Settings(
        show_every=asked.show_every, commit_every=asked.commit_every, words=asked.words, folding=asked.fold,
        most_body=asked.most_body, most_bulk=asked.most_bulk,
    )  # fmt: skip
    with contextlib.ExitStack() as stack:
        listening = stack.enter_context(contextlib.closing(serving.bound(*serving.address(asked.listen))))
        is_read_alone = asked.replicas is not None and asked.log is None
        if not is_read_alone and keys.write is None and not asked.without_keys and not serving.is_local(listening):
            raise UsageError(f"other machines reach {asked.listen}: name a key for writing, or say --without-keys")
        try:
            catalogue = _catalogue(asked, stack)
        except _NotThere as error:
            print(f"jasminedome: {error}", file=sys.stderr)
            return ENDED
        service = stack.enter_context(Service(catalogue, settings))

        def tell() -> None:
            print(f"{_count(service):,} items, open on {serving.origin(listening)}", flush=True)

        is_told = serving.run(make_app(service, keys), service, listening, tell)
    return 0 if is_told else ENDED


class _NotThere(Exception):
    """Neither replicas nor a log that one needs were there in time."""


def _catalogue(asked: argparse.Namespace, stack: contextlib.ExitStack) -> ReaderCalls:
    """What is served. Raises UsageError for arguments that don't fit together, and _NotThere."""
    if asked.log is None and asked.replicas is None:
        return _opened(asked, stack)
    if asked.folder is not None or asked.journal is not None or asked.threads is not None or asked.field:
        raise UsageError("replicas have folders, threads and fields of their own: leave --folder, --journal, --threads and --field out")
    try:
        from ..replicas import Log, LoggedCatalogue, LogUnreachable, NoReplica, Shelves
    except ImportError as error:
        raise UsageError(str(error)) from None
    end = time.monotonic() + asked.timeout
    try:
        log = None if asked.log is None else stack.enter_context(Log(asked.log, asked.name, patience=asked.timeout))
        shelves = stack.enter_context(Shelves(log if asked.replicas is None and log is not None else asked.replicas))
        catalogue: ReaderCalls = shelves
        if log is not None:
            catalogue = LoggedCatalogue(log, shelves, asked.timeout)
        while True:
            try:
                catalogue.open().close()
                return catalogue
            except NoReplica:
                if time.monotonic() > end:
                    raise
    except (NoReplica, LogUnreachable) as error:
        raise _NotThere(str(error)) from None


def _opened(asked: argparse.Namespace, stack: contextlib.ExitStack) -> CatalogueCalls:
    """The catalogue of the folder, or of memory, with its journal. Raises UsageError where nothing says its fields."""
    told = {name: kind for each in asked.field for name, kind in each}
    if asked.folder is not None:
        Path(asked.folder).mkdir(parents=True, exist_ok=True)
    fields = (fields_of(asked.folder) if asked.folder is not None else None) or told
    if not fields:
        raise UsageError("a new catalogue needs fields: --field title:text,brand:facet, say")
    if told and told != fields:
        raise UsageError(f"the folder has the fields {fields}: leave --field out, or name just these")
    catalogue = stack.enter_context(_started(fields, asked))
    if asked.journal is None:
        return catalogue
    journal = stack.enter_context(Journal(catalogue, asked.journal))
    if journal.replayed:
        writes = "write" if journal.replayed == 1 else "writes"
        print(f"{journal.replayed:,} {writes} said again from {asked.journal}", flush=True)
        journal.commit("said again")
    return journal


def _started(fields: Dict[str, str], asked: argparse.Namespace) -> Catalogue:
    """The catalogue, as soon as nobody has its folder: a program whose parent was killed has it a moment longer."""
    end = time.monotonic() + _PATIENCE
    while True:
        try:
            return Catalogue(fields, asked.folder, program=asked.program, timeout=asked.timeout, threads=asked.threads)
        except FolderInUse:
            if time.monotonic() > end:
                raise
            time.sleep(0.1)


def _count(service: Service) -> int:
    return service.view().find(count=0).total


def _key(path: Optional[str], name: str) -> Optional[str]:
    found = os.environ.get(name) if path is None else Path(path).read_text(encoding="utf-8").strip()
    return found or None


def _fields(text: str) -> List[Tuple[str, str]]:
    found: Dict[str, str] = {}
    for each in text.split(","):
        name, _, kind = each.strip().partition(":")
        if not name or kind not in KINDS:
            raise argparse.ArgumentTypeError(f"{each!r} isn't NAME:KIND, with {', '.join(KINDS)}")
        found[name] = kind
    return list(found.items())


def _names(text: str) -> Tuple[str, ...]:
    return tuple(each.strip() for each in text.split(",") if each.strip())


def _folding(text: str) -> Folding:
    field, equals, of = text.partition("=")
    if not equals:
        raise argparse.ArgumentTypeError(f"{text!r} isn't FIELD=FIELD,..")
    return Folding(field.strip(), _names(of))
