"""Where rows come from: a file or standard input, packed by gzip or not, in one of some forms and encodings."""

from __future__ import annotations

import codecs
import contextlib
import gzip
import hashlib
import io
import os
import shutil
import sys
import tempfile
import zlib
from pathlib import Path
from typing import Any, BinaryIO, Iterator, Optional, Union

from .closing import Closing
from .errors import UsageError
from .lines import text

STANDARD_INPUT = "-"
"""In place of a path: what is read from standard input."""

FORMS = ("jsonl", "json", "csv", "tsv")
"""Lines of JSON, one array of JSON, and tables whose cells are parted by commas (or semicolons) or by tabs."""

_BY_SUFFIX = {".jsonl": "jsonl", ".ndjson": "jsonl", ".json": "json", ".csv": "csv", ".tsv": "tsv", ".tab": "tsv"}
_GZIP = b"\x1f\x8b"
_BLOCK = 1 << 20
_SNIFFED = 4_096  # bytes that tell a form


class Source(Closing):
    """A text that is read from its beginning as often as is asked for. `read` of its `size` bytes were read last."""

    def __init__(
        self, path: Union[str, "os.PathLike[str]"], form: Optional[str] = None, encoding: Optional[str] = None
    ) -> None:
        """Raises UsageError for a form or encoding that isn't known, or a name that tells none; OSError where there is
        no such file.
        """
        if not isinstance(path, (str, os.PathLike)) or not os.fspath(path):
            raise UsageError(f"{path!r:.200} is no path of a file")
        if form is not None and form not in FORMS:
            raise UsageError(f"{form!r:.200} is no form: {', '.join(FORMS)}")
        self._path = Path(path) if os.fspath(path) != STANDARD_INPUT else None
        self._kept = None if self._path else _kept_input()
        self.name = self._path.name if self._path else "standard input"
        with self._bytes() as file:
            begun = file.read(4)
            self.size = file.seek(0, os.SEEK_END)
        self._is_packed = begun.startswith(_GZIP)
        self._file: Optional[BinaryIO] = None
        self._read = 0
        self.encoding = self._marked_encoding() if encoding is None else _known(encoding)
        self.form = form or self._told_form()

    def close(self) -> None:
        """Lets go what was kept of standard input."""
        if self._kept is not None:
            self._kept.close()

    @property
    def read(self) -> int:
        """How many of the bytes the newest iteration has read."""
        if self._file is not None and not self._file.closed:
            self._read = self._file.tell()
        return self._read

    def lines(self) -> Iterator[str]:
        """The lines, each with its line feed. What isn't of the encoding stays in them as what no line can carry.

        Raises UsageError where the file isn't packed as it should be, or can't be of the encoding at all; OSError.
        """
        with self._bytes() as file, _packed_well(self.name):
            self._file = file
            unpacked: Any = gzip.GzipFile(fileobj=file) if self._is_packed else file
            decoded = io.TextIOWrapper(unpacked, self.encoding, "surrogateescape", newline="\n")
            try:
                for number, line in enumerate(decoded):
                    yield line if number else line[line.startswith("\ufeff") :]
            except UnicodeError as error:
                raise UsageError(f"{self.name} isn't {self.encoding}: {error}") from None
            finally:
                self._read = file.tell()
                with contextlib.suppress(ValueError):
                    decoded.detach()

    def digest(self) -> str:
        """A text that other bytes don't have."""
        told = hashlib.blake2b(digest_size=16)
        with self._bytes() as file:
            for block in iter(lambda: file.read(_BLOCK), b""):
                told.update(block)
        return told.hexdigest()

    @contextlib.contextmanager
    def _bytes(self) -> Iterator[BinaryIO]:
        if self._path is not None:
            with self._path.open("rb") as file:
                yield file
        else:
            assert self._kept is not None
            self._kept.seek(0)
            yield self._kept

    def _head(self) -> bytes:
        with self._bytes() as file, _packed_well(self.name):
            return gzip.GzipFile(fileobj=file).read(_SNIFFED) if self._is_packed else file.read(_SNIFFED)

    def _marked_encoding(self) -> str:
        marks = (codecs.BOM_UTF16_LE, codecs.BOM_UTF16_BE)
        return "utf-16" if self._head().startswith(marks) else "utf-8"

    def _told_form(self) -> str:
        if self._path is not None:
            suffixes = [each.lower() for each in self._path.suffixes]
            suffix = (suffixes[:-1] if suffixes[-1:] == [".gz"] else suffixes)[-1:]
            form = _BY_SUFFIX.get(suffix[0]) if suffix else None
            if form is None:
                raise UsageError(f"{self.name}: its name ends in none of {', '.join(_BY_SUFFIX)}: --format says what it is")
            return form
        begun = self._head().decode(self.encoding, "replace").lstrip("\ufeff \t\r\n")
        return {"{": "jsonl", "[": "json"}.get(begun[:1], "csv")


@contextlib.contextmanager
def _packed_well(name: str) -> Iterator[None]:
    try:
        yield
    except (gzip.BadGzipFile, EOFError, zlib.error) as error:
        raise UsageError(f"{name} isn't packed as gzip packs: {error}") from None


def _known(encoding: str) -> str:
    try:
        return codecs.lookup(text(encoding, "the encoding")).name
    except (LookupError, ValueError):
        raise UsageError(f"{encoding!r} is no encoding") from None


def _kept_input() -> BinaryIO:
    """All of standard input, so that it can be read more than once."""
    kept = tempfile.TemporaryFile()
    shutil.copyfileobj(getattr(sys.stdin, "buffer", sys.stdin), kept)
    return kept  # type: ignore[return-value]
