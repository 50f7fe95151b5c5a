"""Where the words that a visitor typed stand in a text."""

from __future__ import annotations

from html import escape
from typing import List, Tuple

from .typed import WORD, folded, folded_words


def marks(text: str, typed: str) -> List[Tuple[int, int]]:
    """The words of the text that were typed, each as the index of its first character and the one behind its last.

    Letters count as `jasminedome.folded` has them; of a word that begins with the last one typed all is marked.
    """
    wanted = folded_words(typed)
    if not wanted:
        return []
    begun = wanted[-1] if WORD.match(typed[-1:]) else None
    found = []
    for match in WORD.finditer(text):
        word = folded(match.group())
        if word in wanted or (begun is not None and word.startswith(begun)):
            found.append(match.span())
    return found


def highlighted(text: str, typed: str, before: str = "<mark>", after: str = "</mark>") -> str:
    """The text as HTML, with `before` and `after` around each word that was typed, and all else escaped."""
    parts, at = [], 0
    for begin, end in marks(text, typed):
        parts += [escape(text[at:begin]), before, escape(text[begin:end]), after]
        at = end
    return "".join([*parts, escape(text[at:])])
