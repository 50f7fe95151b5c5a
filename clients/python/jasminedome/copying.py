"""The commands backup, dump and reindex: a folder's catalogue into something else."""

from __future__ import annotations

import argparse
import sys
from typing import Any, Dict, Mapping, Optional

from .backups import backup
from .catalogue import Catalogue
from .dumps import sources
from .errors import UsageError
from .folders import fields_of
from .plans import KINDS, SKIP
from .reindexing import fitted, reindex
from .terminal import Bar, shown
from .typed import searchable

_SHOWN = 20  # refused items that are told one by one


def add_commands(commands: "argparse._SubParsersAction[argparse.ArgumentParser]") -> "list[argparse.ArgumentParser]":
    """Adds the commands; answers their parsers."""
    about = {"backup": "Copies F's newest commit into the new folder TO.", "dump": "Writes F's items to standard output."}
    backing = commands.add_parser("backup", help="copy the newest commit", description=about["backup"])
    dumping = commands.add_parser("dump", help="write all items as lines of JSON", description=about["dump"])
    dumping.add_argument("--query", default="*:*", metavar="QUERY", help="which items; else all")
    moving = commands.add_parser(
        "reindex", help="put all items into a new folder with other fields",
        description="Puts the items of F into the new folder TO, under fields that are F's own but for what --field says.",
    )  # fmt: skip
    for parser, run in ((backing, _backup), (dumping, _dump), (moving, _reindex)):
        parser.add_argument("folder", metavar="F", help="where the catalogue is kept; no other program may have it meanwhile")
        parser.set_defaults(run=run)
    for parser in (backing, moving):
        parser.add_argument("to", metavar="TO", help="a folder that isn't there yet")
    moving.add_argument(
        "--field", action="append", default=[], metavar="NAME:KIND",
        help=f"a field that is new or of another kind: {', '.join(KINDS)}; or {SKIP}, to leave it out. May be given many times",
    )  # fmt: skip
    moving.add_argument("--fold", metavar="FIELD=FIELD,..", help="fill a text field with the folded words of others")
    return [backing, dumping, moving]


def _backup(asked: argparse.Namespace) -> int:
    with Catalogue(_fields(asked.folder), asked.folder, program=asked.program) as shop:
        print(f"commit {backup(shop, asked.to):,} of {asked.folder} copied into {asked.to}")
    return 0


def _dump(asked: argparse.Namespace) -> int:
    with Catalogue(_fields(asked.folder), asked.folder, program=asked.program) as shop, shop.open() as view:
        for _, source in sources(view, asked.query):
            sys.stdout.write(source + "\n")
    return 0


def _reindex(asked: argparse.Namespace) -> int:
    fields = dict(_fields(asked.folder))
    for each in asked.field:
        name, _, kind = each.rpartition(":")
        if not name or kind not in (*KINDS, SKIP):
            raise UsageError(f"{each!r:.200} isn't NAME:KIND, with {', '.join(KINDS)} or {SKIP}")
        fields.pop(name, None)
        fields.update({name: kind} if kind != SKIP else {})
    field, of = _fold(asked.fold, fields)

    def change(item: Dict[str, Any]) -> Mapping[str, Any]:
        made = fitted(item, fields)
        return {**made, field: searchable(item, of)} if field is not None else made

    bar = Bar(sys.stderr)
    try:
        told = reindex(asked.folder, asked.to, fields, change, asked.program, lambda done: bar.show(done, 0, 0))
    finally:
        bar.end()
    print(f"{told.accepted:,} of {told.accepted + len(told.refused):,} items of {asked.folder} put into {asked.to}")
    for each in told.refused[:_SHOWN]:
        print(shown(f"  item {each.index + 1:,}: {each.error}"))
    return 1 if told.refused else 0


def _fold(text: Optional[str], fields: Mapping[str, str]) -> "tuple[Optional[str], tuple[str, ...]]":
    if text is None:
        return None, ()
    field, equals, of = text.partition("=")
    if not equals or fields.get(field) != "text":
        raise UsageError(f"--fold {text!r:.200} isn't FIELD=FIELD,.., with a text field in front")
    return field, tuple(of.split(","))


def _fields(folder: str) -> Mapping[str, str]:
    found = fields_of(folder)
    if found is None:
        raise UsageError(f"{folder} holds no catalogue: python -m jasminedome load puts one there")
    return found
