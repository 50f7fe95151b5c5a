"""What a terminal shows: a bar for what goes on, and a table for what was found."""

from __future__ import annotations

import shutil
import time
import unicodedata
from typing import List, Sequence, TextIO

_REST = 0.1  # seconds between two pictures of a bar
_BAR = 24
_MOST = 40  # columns of one cell
_GAP = "  "


class Bar:
    """A progress bar on one line, for a terminal; anywhere else it shows nothing."""

    def __init__(self, stream: TextIO) -> None:
        self._stream = stream
        self._shows = stream.isatty()
        self._begun = time.monotonic()
        self._drawn = 0.0

    def show(self, items: int, read: int, size: int) -> None:
        """Draws so many items and so many of the bytes, where the last picture is old enough."""
        now = time.monotonic()
        if not items:
            self._begun = now  # of what is told as so many a second, the look at the columns is no part
        if not self._shows or now - self._drawn < _REST:
            return
        self._drawn = now
        share = min(1.0, read / size) if size else 1.0
        full = int(share * _BAR)
        told = f"{items:,} items, {items / (now - self._begun):,.0f} a second" if items else "looking at the columns"
        text = f"[{'#' * full}{'.' * (_BAR - full)}] {share:4.0%}  {told}"
        self._draw(text[: shutil.get_terminal_size().columns - 1])

    def end(self) -> None:
        """Takes the bar away."""
        if self._shows:
            self._draw("")

    def _draw(self, text: str) -> None:
        self._stream.write(f"\r\x1b[K{text}")
        self._stream.flush()


def shown(text: str) -> str:
    """The text with nothing in it that would move or color a terminal: such characters are spelled out."""
    return "".join(each if each.isprintable() else repr(each)[1:-1] for each in text)


def table(header: Sequence[str], rows: Sequence[Sequence[str]], is_cut: bool = True) -> List[str]:
    """Lines of columns: a head, a rule, the rows. For a terminal (`is_cut`) what is too long ends in an ellipsis."""
    cells = [[_cut(shown(cell), _MOST) if is_cut else shown(cell) for cell in row] for row in (header, *rows)]
    widths = [max(map(_width, column)) for column in zip(*cells)]
    cells.insert(1, ["-" * width for width in widths])
    lines = [_GAP.join(map(_padded, row, widths)).rstrip() for row in cells]
    most = shutil.get_terminal_size().columns
    return [_cut(line, most) for line in lines] if is_cut else lines


def _width(text: str) -> int:
    return sum(0 if unicodedata.combining(each) else 1 + (unicodedata.east_asian_width(each) in "WF") for each in text)


def _padded(text: str, width: int) -> str:
    return text + " " * (width - _width(text))


def _cut(text: str, most: int) -> str:
    if _width(text) <= most:
        return text
    while _width(text) > most - 1:
        text = text[:-1]
    return text + "…"
