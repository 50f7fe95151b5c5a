#!/usr/bin/env python3
"""Days of items and queries of values that look thrown, the same at each run, in the form of tests/days; run by itself it prints
them.

Items stand in segments of 1 to 5,000 rows, as they were put, as a commit that is opened again, and merged into one segment. What
a query has to find is worked out here by a look at each item: beside each test stands what it says of an item's values, so no text
of a query is read. tests/days.py serves these days with the others.
"""

import json
import re

# The members that an item may have: each as its text, and its value.
BRANDS = (None, "ac", "acme", "bo", "bolt", "zed")
COLORS = (None, (), ("red",), ("red", "blue"), ("blue", "blue"), ("rose", "black", "red"))
PRICES = (None, -3, 0, 1, 2, 2**63 - 1)
TITLES = (None, "", "Garden shovel", "gar gar", "red shoe", "shoe, garden; shoe")


def has_brand(low="", high="~"):
    return lambda item: item["brand"] is not None and low <= item["brand"] <= high


def has_price(low=-(2**63), high=2**63 - 1):
    return lambda item: item["price"] is not None and low <= item["price"] <= high


def begins(name, text):
    """Whether some text that the item has in the field begins so."""
    return lambda item: any(it.startswith(text) for it in texts_in(item, name))


def has(name, text):
    return lambda item: text in texts_in(item, name)


def texts_in(item, name):
    """The words, the keyword or the labels that the item has in the field."""
    value = item[name]
    if not value:
        return ()
    return re.findall("[a-z]+", value.lower()) if name == "title" else (value,) if name == "brand" else value


TESTS = (
    ("*:*", lambda _: True),
    ("brand:ac", has("brand", "ac")),
    ("brand:b*", begins("brand", "b")),
    ("brand:none", lambda _: False),
    ("brand:[ac TO bo]", has_brand("ac", "bo")),
    ("brand:[acme TO *]", has_brand("acme")),
    ("brand:[* TO acme]", has_brand(high="acme")),
    ("brand:[bolt TO ac]", lambda _: False),
    ("price:0", has_price(0, 0)),
    ("price:[0 TO 2]", has_price(0, 2)),
    ("price:[* TO 0]", has_price(high=0)),
    ("price:[1 TO *]", has_price(1)),
    ("price:[2 TO 1]", lambda _: False),
    ("color:red", has("color", "red")),
    ("color:blue", has("color", "blue")),
    ("color:r*", begins("color", "r")),
    ("color:b*", begins("color", "b")),
    ("color:green", lambda _: False),
    ("title:garden", has("title", "garden")),
    ("title:gar", has("title", "gar")),
    ("title:gar*", begins("title", "gar")),
    ("title:sho*", begins("title", "sho")),
)
SIGNS = ("", "", "+", "-")
# How many rows there are, and how many queries are asked.
SIZES = ((1, 40), (63, 40), (64, 40), (65, 40), (128, 40), (1_000, 60), (5_000, 15))
# So many items that wait become a segment, and so many rows a step of a merge passes.
WAITING, STEP = 1_024, 256
PAGE = 1_000


class Dice:
    """Numbers that look thrown."""

    def __init__(self, seed):
        self.state = seed

    def pick(self, values):
        """One of the values."""
        self.state = (self.state * 6_364_136_223_846_793_005 + 1_442_695_040_888_963_407) % 2**64
        return values[(self.state >> 33) % len(values)]

    def item(self, number):
        return {"id": f"i{number:04}", "brand": self.pick(BRANDS), "color": self.pick(COLORS), "price": self.pick(PRICES), "title": self.pick(TITLES)}

    def clauses(self):
        """One to three clauses, none of them a group: their texts, and of each its sign and its test."""
        picked = [(self.pick(SIGNS), *self.pick(TESTS)) for _ in range(self.pick((1, 2, 3)))]
        return " ".join(sign + text for sign, text, _ in picked), [(sign, test) for sign, _, test in picked]

    def query(self):
        """Clauses, then a group of clauses, and a clause behind it: the text, and whether an item is a hit."""
        before, first = self.clauses()
        sign, (inside, grouped), last = self.pick(("", "+", "-")), self.clauses(), self.pick(("", "+", "-"))
        text, test = self.pick(TESTS)
        return f"{before} {sign}({inside}) {last}{text}", matched([*first, (sign, matched(grouped)), (last, test)])


def matched(clauses):
    """Whether each clause with a plus matches, none with a minus, and some that has no minus."""

    def is_hit(item):
        told = [(sign, test(item)) for sign, test in clauses]
        return all(is_so != (sign == "-") for sign, is_so in told if sign) and any(is_so for sign, is_so in told if sign != "-")

    return is_hit


def text_of(item):
    """The item's JSON."""
    return json.dumps({name: value for name, value in item.items() if value is not None}, separators=(",", ":"))


def asked(token, items, queries):
    """All hits of each query, in order of addition, page by page; and the first by falling price."""
    for query, hits in queries:
        for at in range(0, max(1, len(hits)), PAGE):
            shown = hits[at : at + PAGE]
            yield f"> 1 FIND {token} {PAGE} . {hits[at - 1] if at else '.'} {query}"
            yield f"1 OK {len(shown)} {len(hits)}"
            yield from (f"1 {number} {items[number - 1]['id']} ." for number in shown)
        price = {number: items[number - 1]["price"] for number in hits}
        dearest = sorted(hits, key=lambda number: (price[number] is None, -(price[number] or 0), number))[:9]
        yield f"> 1 FIND {token} 9 -price . {query}"
        yield f"1 OK {len(dearest)} {len(hits)}"
        yield from (f"1 {number} {items[number - 1]['id']} {'.' if price[number] is None else price[number]}" for number in dearest)


def opened(token):
    """A view of the table of so many writes."""
    for line in ("REFRESH", "OPEN"):
        yield from (f"> 1 {line}", f"1 OK {token}")


def merged(count, segments):
    """All segments are merged into one, and a write of no item gives the table a new token."""
    yield from ("> 0 FORCE", f"0 OK begun {segments}")
    for passed in range(STEP, count + STEP, STEP):
        yield from ("> 0 MERGE", f"0 OK copied {min(passed, count)}")
    yield from ("> 0 MERGE", "0 OK done", "> 1 DEL none", f"1 OK {count + 1}", *opened(count + 1))


def day(size, queries):
    """So many items, in a folder, and so many queries: as the items were put, opened again, and merged where that is due."""
    dice = Dice(size)
    items = [dice.item(number) for number in range(size)]
    thrown = []
    for query, is_hit in [dice.query() for _ in range(queries)]:
        thrown.append((query, [number for number, item in enumerate(items, 1) if is_hit(item)]))
    segments = -(-size // WAITING)
    yield f"== thrown queries find what they say of {size} thrown items"
    yield "$ run shop"
    for number, item in enumerate(items, 1):
        yield from (f"> 1 PUT {text_of(item)}", f"1 OK {number}")
    yield from opened(size)
    yield from asked(size, items, thrown)
    yield from ("> 1 COMMIT", "1 OK 1", "$ run shop")
    yield from ('@ SCHEMA 2 1 {"brand":"keyword","color":"facet","price":"number","title":"text"}', f"OK {size}")
    yield from ("> 1 OPEN", f"1 OK {size}")
    yield from asked(size, items, thrown)
    if segments > 1:
        yield from merged(size, segments)
        yield from asked(size + 1, items, thrown)
        yield from ("> 1 COMMIT", "1 OK 2", "$ run shop")
        yield from ('@ SCHEMA 2 1 {"brand":"keyword","color":"facet","price":"number","title":"text"}', f"OK {size + 1}")
        yield from ("> 1 OPEN", f"1 OK {size + 1}")
        yield from asked(size + 1, items, thrown)


def text():
    """The days."""
    return "\n".join("\n".join([*day(*size), ""]) for size in SIZES)


if __name__ == "__main__":
    print(text(), end="")
