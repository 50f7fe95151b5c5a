"""What a visitor typed, as a query: small and large letters and accents are alike, and the last word may be a beginning.

The program takes A and a for one letter, and no others: `É` isn't `é` there, nor `e`. So a catalogue may have a text field
beside the others that holds their words folded (`searchable` makes its value), in which folded words are looked for. In
fields that aren't folded a word is looked for as it was typed, in small letters, and folded.
"""

from __future__ import annotations

import re
import unicodedata
from typing import Iterable, List, Mapping, Sequence

from .errors import UsageError
from .lines import text as _a_text
from .query import Query, all_of, any_of, prefix, term

WORD = re.compile(r"[A-Za-z0-9\u0080-\U0010ffff]+")
"""A word, as the program cuts them."""

_MOST_WORDS = 12
_MOST_CLAUSES = 40  # of the 64 that a query may have; the others are for what stands beside the words
_WHOLE = str.maketrans({"ø": "o", "đ": "d", "ð": "d", "ł": "l", "æ": "ae", "œ": "oe", "þ": "th", "ı": "i"})


def folded(text: str) -> str:
    """The text in small letters and without accents: "L'Étoile" becomes "l'etoile", "Søndre" "sondre"."""
    parts = unicodedata.normalize("NFKD", _a_text(text, "the text").casefold())
    return "".join(each for each in parts if not unicodedata.combining(each)).translate(_WHOLE)


def folded_words(text: str) -> List[str]:
    """The different words of a text, folded, in order."""
    return list(dict.fromkeys(WORD.findall(folded(text))))


def searchable(item: Mapping[str, object], fields: Iterable[str]) -> str:
    """The folded words of these fields of an item, each once, for a text field in which visitors' words are looked for.

    Of a list, those of its texts; of what is neither a text nor a list, none.
    """
    texts: List[str] = []
    for name in fields:
        value = item.get(name)
        values = value if isinstance(value, list) else [value]
        texts += [each for each in values if isinstance(each, str)]
    return " ".join(folded_words(" ".join(texts)))


def typed(text: str, fields: Sequence[str], is_folded: bool = False, is_begun: bool = True) -> Query:
    """Items that have every word of the text in some of the fields; every item where the text has no word.

    `is_folded` says that the fields hold folded words. With `is_begun` a word that begins with the last one does, as
    long as its writer may go on: not where a space follows it. At most 12 words are looked for, and fewer where there
    are many fields, since a query has at most 64 clauses. Raises UsageError where there are no fields, or one has no name.
    """
    if isinstance(fields, str) or not fields:
        raise UsageError(f"{fields!r:.200} are no fields to look in")
    words = folded_words(text) if is_folded else list(dict.fromkeys(WORD.findall(_a_text(text, "what was typed"))))
    open_word = words[-1] if is_begun and words and WORD.match(text[-1:]) else None
    parts: List[Query] = []
    left = _MOST_CLAUSES
    for word in words[:_MOST_WORDS]:
        spellings = [word] if is_folded else _spellings(word)
        left -= len(spellings) * len(fields) + 1
        if left < 0 and parts:
            break
        make = prefix if word == open_word else term
        parts.append(any_of(*(make(name, each) for name in fields for each in spellings)))
    return all_of(*parts)


def _spellings(word: str) -> List[str]:
    if word.isascii():
        return [word.lower()]
    ways = (word, word.lower(), folded(word))
    return list(dict.fromkeys(way for way in ways if WORD.fullmatch(way)))
