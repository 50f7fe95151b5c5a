"""A shell over a folder: queries are typed as they are, and whatever else there is begins with a dot."""

from __future__ import annotations

import json
import os
import re
import sys
from typing import Callable, Dict, Iterator, List, Optional, TextIO, Tuple

from .answers import Page
from .catalogue import Catalogue
from .errors import BadQuery, JasminedomeError, ProgramEnded, Refusal, UsageError
from .folders import fields_of
from .keys import keys
from .starting import Command, Folder
from .terminal import shown, table
from .view import View

HELP = """\
A query names a field, a colon and a value: title:red, price:[10 TO 20], brand:ac*. Several of them find what has any
of these; +title:red +title:shoe finds what has both, and -title:boot leaves out. *:* matches everything.
A query shows its first page. Reads are of one view, which holds still until .refresh.
  .next                 the next page of the last query
  .sort +FIELD|-FIELD   sort by a number or keyword field, rising or falling; .sort alone: the order of addition
  .count N              items on a page, 1 to 1,000
  .facets FIELD [QUERY] the commonest labels of a facet field
  .get ID               an item as it was put
  .put JSON             put an item
  .delete ID            take an item out
  .deletewhere QUERY    take out all that a query matches
  .refresh              see what was written
  .commit [TEXT]        keep what was written
  .fields  .stat  .files  .merge  .sweep
  .quit                 or the end of the input"""


_HELP_WORDS = ("help", "?", "h", "/help", "\\h", "\\?")
_QUIT_WORDS = ("quit", "exit", "bye", ":q", "\\q", "q")
_WORD = re.compile(r"[A-Za-z0-9\u0080-\U0010ffff]+")


class Quit(Exception):
    """The shell is to end."""


class Shell:
    """A dialogue with one catalogue: `say` takes a line, and writes what is answered to `out`."""

    def __init__(self, shop: Catalogue, fields: Dict[str, str], out: TextIO) -> None:
        self._shop = shop
        self._fields = fields
        self._out = out
        self._view = self._opened()
        self._sort: Optional[str] = None
        self._count = 20
        self._query: Optional[str] = None
        self._after: Optional[int] = None
        self.uncommitted = 0
        self._commands: Dict[str, Callable[[str], None]] = {
            "next": self._next,
            "sort": self._sort_by,
            "count": self._count_by,
            "facets": self._facets,
            "get": self._get,
            "put": lambda text: self._wrote(self._shop.put(text)),
            "delete": lambda text: self._wrote(self._shop.delete(text)),
            "deletewhere": lambda text: self._wrote(self._shop.delete_where(text)),
            "refresh": self._refresh,
            "commit": self._commit,
            "fields": lambda _: self._tell(*(f"{name} {kind}" for name, kind in self._fields.items())),
            "stat": self._stat,
            "files": lambda _: self._tell(*self._view.files()),
            "merge": lambda _: self._tell(f"{self._shop.merge()} merges ended"),
            "sweep": lambda _: self._tell(f"{self._shop.sweep()} files deleted"),
            "help": lambda _: self._tell(HELP),
            "quit": self._quit,
        }

    @property
    def words(self) -> List[str]:
        """What a line may begin with: commands, and fields with their colon."""
        return [*(f".{name}" for name in self._commands), *(f"{name}:" for name in self._fields)]

    @property
    def prompt(self) -> str:
        """What stands before the next line: the token of the view."""
        return f"{self._view.token:,}> "

    def say(self, line: str) -> bool:
        """Does what the line says; False where it was refused. Raises Quit, and ProgramEnded."""
        text = line.strip()
        try:
            if text.startswith("."):
                self._command(*_parted(text[1:]))
            elif text:
                self._find(text)
        except ProgramEnded:
            raise
        except BadQuery as error:
            self._tell(*(self._advice(text) or _pointed(text, error)))
            return False
        except JasminedomeError as error:
            self._tell(f"refused: {error}" if isinstance(error, Refusal) else str(error))
            return False
        return True

    def _advice(self, text: str) -> List[str]:
        """What to type in place of words that name no field; nothing where they name one, or stand behind a dot."""
        if text.startswith(".") or ":" in text:
            return []
        if text in _HELP_WORDS:
            return HELP.split("\n")
        if text in _QUIT_WORDS:
            return [".quit ends this"]
        if text.partition(" ")[0].lower() in self._commands:
            return [f"commands begin with a dot: .{text}"]
        field = next((name for name, kind in self._fields.items() if kind == "text"), None)
        words = _WORD.findall(text)
        if field is None or not words:
            return [f"a query names a field and a colon ({', '.join(self._fields)}); .help tells more"]
        query = " ".join(f"+{field}:{word}" for word in words) if len(words) > 1 else f"{field}:{words[0]}"
        return [f"a query names a field: {query}", f"the fields are {', '.join(self._fields)}; .help tells more"]

    def _command(self, name: str, rest: str) -> None:
        if name not in self._commands:
            raise UsageError(f"there is no .{name} (.help)")
        self._commands[name](rest)

    def _find(self, query: str) -> None:
        page = self._view.find(query, self._sort, None, self._count)
        self._query, self._after = query, None
        self._show(page)

    def _next(self, _: str) -> None:
        if self._query is None or self._after is None:
            raise UsageError("there is no next page")
        self._show(self._view.find(self._query, self._sort, self._after, self._count))

    def _show(self, page: Page) -> None:
        if page.hits:
            items = zip(page, self._view.get_many(page))
            rows = [[hit.id, *(_cell((item or {}).get(name)) for name in self._fields)] for hit, item in items]
            self._table(["id", *self._fields], rows)
        self._after = page.hits[-1].number if len(page.hits) == self._count else None
        more = ", .next shows more" if self._after is not None else ""
        self._tell(f"{len(page.hits):,} shown, {page.total:,} found{more}")

    def _sort_by(self, text: str) -> None:
        self._view.find(sort=text or None, count=0)
        self._sort, self._after = text or None, None

    def _count_by(self, text: str) -> None:
        if not text.isdigit() or not 1 <= int(text) <= 1000:
            raise UsageError("a page has 1 to 1,000 items")
        self._count, self._after = int(text), None

    def _facets(self, text: str) -> None:
        field, query = _parted(text)
        told = self._view.facets(field, query or "*:*")
        self._table(["count", field], [[f"{each.count:,}", each.label] for each in told.counts])
        self._tell(f"{len(told.counts):,} labels shown, {told.labels:,} found on {told.matching:,} items")

    def _get(self, text: str) -> None:
        source = self._view.source(text)
        self._tell("there is no such item" if source is None else shown(source))

    def _wrote(self, number: int) -> None:
        self.uncommitted += 1
        self._tell(f"write {number:,}: .refresh shows it, .commit keeps it")

    def _opened(self) -> View:
        self._shop.refresh()
        return self._shop.open()

    def _refresh(self, _: str) -> None:
        self._view.close()
        self._view = self._opened()
        self._query = self._after = None

    def _commit(self, text: str) -> None:
        generation = self._shop.commit(text)
        self.uncommitted = 0
        self._tell(f"commit {generation:,}")

    def _stat(self, _: str) -> None:
        stat = self._shop.stat()
        self._tell(
            f"{stat.writes:,} writes, {stat.buffered:,} of them waiting, {self.uncommitted:,} not committed",
            f"{len(stat.segments):,} segments with {stat.rows:,} rows, {stat.live:,} of them live",
            f"{stat.recorded:,} views recorded, {stat.cached:,} sets cached, {stat.pending:,} files to be deleted",
        )

    def _quit(self, _: str) -> None:
        raise Quit

    def _table(self, header: List[str], rows: List[List[str]]) -> None:
        self._tell(*table(header, rows, is_cut=self._out.isatty()))

    def _tell(self, *lines: str) -> None:
        for line in lines:
            self._out.write(line + "\n")
        self._out.flush()


def run(folder: Folder, program: Optional[Command] = None) -> int:
    """Talks over the folder with whoever is at standard input; answers the exit status, 1 where something was refused.

    Raises UsageError where the folder has no commit, OSError, and what `Catalogue` raises.
    """
    fields = fields_of(folder)
    if fields is None:
        raise UsageError(f"{os.fspath(folder)} holds no catalogue: python -m jasminedome load puts one there")
    is_dialogue = sys.stdin.isatty()
    refused = False
    with Catalogue(fields, folder, program=program) as shop:
        shell = Shell(shop, fields, sys.stdout)
        if is_dialogue:
            print(f"{_found(shop)} in {os.fspath(folder)}. A query finds, .help tells more.")
        try:
            for line in _lines(shell, is_dialogue):
                try:
                    refused |= not shell.say(line)
                except KeyboardInterrupt:
                    if not is_dialogue:
                        raise
                    print("\ninterrupted: what was said may be done yet")
        except Quit:
            pass
        if shell.uncommitted:
            print(f"{shell.uncommitted:,} writes weren't committed, and are gone", file=sys.stderr)
    return 1 if refused and not is_dialogue else 0


def _found(shop: Catalogue) -> str:
    with shop.open() as view:
        return f"{view.find(count=0).total:,} items"


def _lines(shell: Shell, is_dialogue: bool) -> Iterator[str]:
    if not is_dialogue:
        yield from sys.stdin
        return
    with keys(lambda: shell.words):
        while True:
            try:
                line = input(shell.prompt)
                if line.strip() in (".quit", ".q", ".exit") and not _is_sure(shell):
                    continue
            except KeyboardInterrupt:
                print()
                continue
            except EOFError:
                print()
                return
            yield line


def _is_sure(shell: Shell) -> bool:
    if not shell.uncommitted:
        return True
    return input(f"{shell.uncommitted:,} writes aren't committed. Drop them? [y/N] ").strip().lower() in ("y", "yes")


def _parted(text: str) -> Tuple[str, str]:
    head, _, rest = text.partition(" ")
    return head, rest.strip()


def _pointed(text: str, error: BadQuery) -> List[str]:
    """The line, and a sign below the place of the fault in the query that it ends with."""
    if error.place is None:
        return [str(error)]
    query = text.split(" ", {".facets": 2, ".deletewhere": 1}.get(text.split(" ")[0], 0))[-1].strip()
    before = query.encode()[: error.place].decode(errors="replace")
    return [shown(query), " " * len(shown(before)) + "^ here it is no query any more"]


def _cell(value: object) -> str:
    if value is None:
        return ""
    if isinstance(value, list):
        return ", ".join(map(str, value))
    return value if isinstance(value, str) else json.dumps(value)
