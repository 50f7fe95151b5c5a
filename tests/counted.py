#!/usr/bin/env python3
"""Days of counts and pages over rows that are cut into segments in several ways, in the form of tests/days; run by itself it
prints them.

What a count has to answer stands beside it, as a person worked it out, and is the same however the rows are cut: without sets of
rows at hand, with sets for some of the segments, and for all. tests/days.py serves these days with the others.
"""

import json

# Rows, each as whether it lives in the end, and its item. One that dies is deleted, or written again, once its segment stands.
COLORED = (
    (True, '{"id":"a","color":["red","blue"]}'),
    (True, '{"id":"b","color":["red"]}'),
    (True, '{"id":"c","color":["blue","blue"]}'),
    (True, '{"id":"d"}'),
)
# The four items after one more that took the place of `a`, and a delete of `b`.
REPLACED = (
    (False, '{"id":"a","color":["red","blue"]}'),
    (False, '{"id":"b","color":["red"]}'),
    (True, '{"id":"c","color":["blue","blue"]}'),
    (True, '{"id":"d"}'),
    (True, '{"id":"a","color":["red"]}'),
)
# Nine items with one color, one with another, and two that were killed: all hits are most rows of a segment, and one color's are
# few.
MOSTLY_RED = (
    (True, '{"id":"a","color":["red"]}'),
    (True, '{"id":"b","color":["red"]}'),
    (False, '{"id":"c","color":["red","green"]}'),
    (True, '{"id":"l"}'),
    (True, '{"id":"d","color":["red"]}'),
    (True, '{"id":"e","color":["red"]}'),
    (True, '{"id":"f","color":["red","blue"]}'),
    (True, '{"id":"g","color":["red"]}'),
    (True, '{"id":"h","color":["red"]}'),
    (True, '{"id":"i","color":["red"]}'),
    (False, '{"id":"j","color":["blue"]}'),
    (True, '{"id":"k","color":["red"]}'),
)
# The first two are dead, of the next three one is, and of the last four all but one. Some have two colors, some have none.
MOSTLY_DEAD = (
    (False, '{"id":"a","color":["red","blue"]}'),
    (False, '{"id":"b"}'),
    (True, '{"id":"c","color":["red","blue"]}'),
    (False, '{"id":"d","color":["blue","green"]}'),
    (True, '{"id":"e"}'),
    (False, '{"id":"f","color":["red"]}'),
    (True, '{"id":"g","color":["red","white"]}'),
    (False, '{"id":"h","color":["white","green"]}'),
    (False, '{"id":"i"}'),
)
# Labels that stand at another place in each segment, and one of a dead row alone.
PLACED = (
    (True, '{"id":"a","color":["red","blue"]}'),
    (False, '{"id":"b","color":["green"]}'),
    (True, '{"id":"c","color":["red","amber"]}'),
    (True, '{"id":"d"}'),
    (True, '{"id":"e","color":["blue"]}'),
)
# Where the segments of four rows end: one, two, and each row in one of its own.
CUTS = ((4,), (1, 4), (3, 4), (1, 2, 3, 4))
# What a case shows, its rows, each way to cut them, and counts: how many labels at most, the dimension, the query, and what is
# answered, as the hits that have a label, the labels that are met, and the first counts.
COUNTED = (
    (
        "an item counts once for each of its labels",
        COLORED,
        CUTS,
        (
            (9, "color", "*:*", "3 2: 2 blue, 2 red"),
            (2, "color", "*:*", "3 2: 2 blue, 2 red"),
            (1, "color", "*:*", "3 2: 2 blue"),
            (0, "color", "*:*", "3 2"),
            (9, "color", "-color:red", "0 0"),
            (9, "color", "*:* -color:red", "1 1: 1 blue"),
            (9, "color", "color:red", "2 2: 2 red, 1 blue"),
            (1, "color", "color:red", "2 2: 2 red"),
            (9, "color", "price:1", "0 0"),
        ),
    ),
    (
        "the dimension is judged before the count",
        COLORED,
        ((2, 4),),
        (
            (9, "brand", "*:*", "NO 29"),
            (9, "price", "*:*", "NO 29"),
            (9, "title", "*:*", "NO 29"),
            (9, "id", "*:*", "NO 29"),
            (9, "size", "*:*", "NO 29"),
            (9, "colo", "*:*", "NO 29"),
            (1_001, "brand", "*:*", "NO 29"),
            (1_001, "color", "*:*", "NO 25"),
            (9_223_372_036_854_775_807, "color", "price:1", "NO 25"),
            (1_000, "color", "*:*", "3 2: 2 blue, 2 red"),
        ),
    ),
    (
        "a dead row is not counted",
        REPLACED,
        ((4, 5), (2, 5),),
        (
            (9, "color", "*:*", "2 2: 1 blue, 1 red"),
            (0, "color", "*:*", "2 2"),
            (1_001, "color", "*:*", "NO 25"),
            (9, "color", "color:red", "1 1: 1 red"),
            (9, "color", "color:red color:blue", "2 2: 1 blue, 1 red"),
        ),
    ),
    (
        "a label of dead rows alone is not met",
        (
            (True, '{"id":"a","color":["red"]}'),
            (False, '{"id":"b","color":["blue"]}'),
        ),
        ((2,), (1, 2),),
        (
            (9, "color", "*:*", "1 1: 1 red"),
            (9, "color", "color:blue", "0 0"),
        ),
    ),
    (
        "ties go by the bytes of labels",
        (
            (True, '{"id":"a","color":["é","b","z"],"price":1}'),
            (True, '{"id":"b","color":["a","z"],"price":2}'),
            (True, '{"id":"c","color":["B","ab"],"price":3}'),
            (True, '{"id":"d","color":["z","ab","A"],"price":4}'),
        ),
        CUTS,
        (
            (9, "color", "*:*", "4 7: 3 z, 2 ab, 1 A, 1 B, 1 a, 1 b, 1 é"),
            (4, "color", "*:*", "4 7: 3 z, 2 ab, 1 A, 1 B"),
            (9, "color", "price:[1 TO 2]", "2 4: 2 z, 1 a, 1 b, 1 é"),
            (9, "color", "price:3", "1 2: 1 B, 1 ab"),
            (1, "color", "price:[3 TO *]", "2 4: 2 ab"),
        ),
    ),
    (
        "a view without segments has no labels",
        (),
        ((),),
        (
            (9, "color", "*:*", "0 0"),
            (1_000, "color", "*:*", "0 0"),
            (1_001, "color", "*:*", "NO 25"),
            (1_001, "brand", "*:*", "NO 29"),
        ),
    ),
    (
        "a view of dead rows has no labels",
        (
            (False, '{"id":"a","color":["red"]}'),
        ),
        ((1,),),
        (
            (9, "color", "*:*", "0 0"),
            (1_000, "color", "*:*", "0 0"),
            (1_001, "color", "*:*", "NO 25"),
            (1_001, "brand", "*:*", "NO 29"),
        ),
    ),
    (
        "most rows and few rows are counted alike",
        MOSTLY_RED,
        ((12,), (4, 12), (11, 12),),
        (
            (9, "color", "*:*", "9 2: 9 red, 1 blue"),
            (9, "color", "color:red", "9 2: 9 red, 1 blue"),
            (9, "color", "color:blue", "1 2: 1 blue, 1 red"),
            (9, "color", "*:* -color:blue", "8 1: 8 red"),
            (9, "color", "*:* -color:red", "0 0"),
        ),
    ),
    (
        # The third segment has no label, and the first one that no live row has.
        "labels have their places among those of all segments",
        PLACED,
        ((2, 3, 4, 5), (5,),),
        (
            (9, "color", "*:*", "3 3: 2 blue, 2 red, 1 amber"),
            (1, "color", "*:*", "3 3: 2 blue"),
            (9, "color", "color:blue", "2 2: 2 blue, 1 red"),
            (9, "color", "color:amber", "1 2: 1 amber, 1 red"),
            (9, "color", "color:green", "0 0"),
        ),
    ),
    (
        "everything is counted alike when it is asked again",
        MOSTLY_DEAD,
        ((9,), (2, 5, 9), (1, 2, 3, 4, 5, 6, 7, 8, 9),),
        (
            (9, "color", "*:*", "2 3: 2 red, 1 blue, 1 white"),
            (9, "color", "*:*", "2 3: 2 red, 1 blue, 1 white"),
            (9, "color", "color:blue", "1 2: 1 blue, 1 red"),
            (1, "color", "+*:*", "2 3: 2 red"),
            (9, "color", "*:* -color:blue", "1 2: 1 red, 1 white"),
            (0, "color", "*:*", "2 3"),
            (9, "color", "-*:*", "0 0"),
        ),
    ),
)
# Rows in four segments, some of them dead, and the ids of the hits of queries by falling price.
PRICED = (
    (False, '{"id":"a","price":9,"color":["red"]}'),
    (True, '{"id":"b","price":2,"color":["red"]}'),
    (True, '{"id":"c","price":3}'),
    (True, '{"id":"a","price":4,"color":["blue","red"]}'),
    (False, '{"id":"e","price":5,"color":["red"]}'),
    (True, '{"id":"f","price":6,"color":["blue"]}'),
    (False, '{"id":"g","price":7,"color":["red"]}'),
)
PRICED_ENDS = (2, 3, 5, 7)
HITS = (
    ("color:red", "a b"),
    ("*:*", "f a c b"),
    ("*:* -color:red", "f c"),
    ("price:[3 TO 6]", "f a c"),
    ("price:[7 TO *]", ""),
)
SET_MADE = ("> 0 WARM", "0 OK begun", "> 0 WARM", "0 OK stored")


def written(rows, ends):
    """Session 1 writes the rows, of which segments end at these places, and opens the table in which the dead ones are dead."""
    ids = [json.loads(item)["id"] for _, item in rows]
    for at, (_, item) in enumerate(rows, 1):
        yield from (f"> 1 PUT {item}", f"1 OK {at}")
        if at in ends:
            yield from ("> 1 REFRESH", f"1 OK {at}")
    dead = [id for at, (id, (lives, _)) in enumerate(zip(ids, rows), 1) if not lives and id not in ids[at:]]
    for number, id in enumerate(dead, len(rows) + 1):
        yield from (f"> 1 DEL {id}", f"1 OK {number}")
    for line in ("REFRESH", "OPEN"):
        yield from (f"> 1 {line}", f"1 OK {token_of(rows)}")


def token_of(rows):
    """How many writes these are: each row, and each delete."""
    ids = [json.loads(item)["id"] for _, item in rows]
    return len(rows) + sum(not lives and id not in ids[at:] for at, (id, (lives, _)) in enumerate(zip(ids, rows), 1))


def counted(rows, counts):
    """Of each count: its query, whether it is answered, and the line with its reply."""
    for count, dimension, query, answer in counts:
        head, _, labels = answer.partition(": ")
        is_answered = not head.startswith("NO")
        reply = [f"1 OK {head}" if is_answered else f"1 {head}", *(f"1 {label}" for label in labels.split(", ") if label)]
        yield query, is_answered, [f"> 1 FACETS {token_of(rows)} {dimension} {count} {query}", *reply]


def found():
    """The same of each page of hits."""
    items = {it["id"]: (number, it["price"]) for number, (lives, text) in enumerate(PRICED, 1) if lives for it in [json.loads(text)]}
    for query, ids in HITS:
        hits = [f"1 {items[id][0]} {id} {items[id][1]}" for id in ids.split()]
        yield query, True, [f"> 1 FIND {token_of(PRICED)} 9 -price . {query}", f"1 OK {len(hits)} {len(hits)}", *hits]


def with_sets(asked, segments):
    """All that is asked without sets of rows; then for each query that was answered a set is made for each segment, and behind each
    of them the query is asked again; and then all, with all sets."""
    asked = list(asked)
    everything = [line for _, _, lines in asked for line in lines]
    yield from everything
    for query in dict.fromkeys(query for query, is_answered, _ in asked if is_answered):
        for _ in range(segments):
            yield from SET_MADE
            yield from (line for other, _, lines in asked if other == query for line in lines)
    yield from everything
    yield from ("> 0 WARM", "0 OK idle")


def in_cuts(cases, replies):
    """The days of the cases, each in all of its cuts, without sets at hand and with them."""
    for title, rows, cuts, asked in cases:
        for ends in cuts:
            cut = f", in segments that end at {', '.join(map(str, ends))}" if ends else ""
            yield from (f"== {title}{cut}", *written(rows, ends), *with_sets(replies(rows, asked), len(ends)), "")


def text():
    """The days."""
    pages = with_sets(found(), len(PRICED_ENDS))
    return "\n".join([*in_cuts(COUNTED, counted), "== dead rows of a set are no hits", *written(PRICED, PRICED_ENDS), *pages]) + "\n"


if __name__ == "__main__":
    print(text(), end="")
