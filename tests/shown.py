#!/usr/bin/env python3
"""Days of pages over rows that are cut into segments, in the form of tests/days; run by itself it prints them.

First come FINDs with what a person worked out that they show, over rows that are cut in several ways, without sets of rows at hand,
with sets for some of the segments, and for all; and queries with whether they match an item, which waits or stands in a segment.
Then pages by price, by brand and in order of addition over 150 rows in three segments, of which many tie, stand at an end of the
integers, have no value, or are dead; behind rows of each segment, dead ones, and one that isn't there. What these have to show is
worked out here, by a look at each row: beside each query stands what it says of a row, so no text of a query is read. tests/days.py
serves these days with the others.
"""

import json

from counted import SET_MADE, in_cuts, token_of, written

# Rows, each as whether it lives in the end, and its item. One that dies is deleted, or written again, once its segment stands.
# Four items, of which two have one price and one has none, and two that are deleted.
PRICED = (
    (True, '{"id":"a","price":7}'),
    (True, '{"id":"b"}'),
    (True, '{"id":"c","price":7}'),
    (True, '{"id":"d","price":2}'),
    (False, '{"id":"e","price":3}'),
    (False, '{"id":"f","price":7}'),
)
# The four items, each but one behind an older row of its id.
REPLACED = (
    (False, '{"id":"a","price":2}'),
    (True, '{"id":"a","price":7}'),
    (False, '{"id":"c","price":1}'),
    (True, '{"id":"b"}'),
    (False, '{"id":"d","price":7}'),
    (True, '{"id":"c","price":7}'),
    (True, '{"id":"d","price":2}'),
)
# Ids of 39, 40, 41 and 64 bytes: a page holds the first two in its entries, and the others in memory of their own.
LONG = tuple(letter * length for letter, length in (("a", 39), ("b", 40), ("c", 41), ("d", 64)))
LONG_IDS = tuple((True, f'{{"id":"{id}","price":{9 - at}}}') for at, id in enumerate(LONG))
WORDED = (
    (True, '{"id":"a","title":"Red-Shoe 42é","brand":"Acme"}'),
    (True, '{"id":"b","title":"shoes","brand":"Zed"}'),
    (False, '{"id":"c","title":"red shoes 42","brand":"Bo"}'),
)
SIGNED = (
    (True, '{"id":"a","brand":"x","price":-3}'),
    (True, '{"id":"b","brand":"y"}'),
    (False, '{"id":"c","brand":"z","price":-4}'),
)
# What a case shows, its rows, each way to cut them, and FINDs: how many hits at most, the sort, the mark, the query, and what is
# answered, as how many are shown, how many hits there are, and each that is shown.
FOUND = (
    (
        "a page shows the key that it is sorted by",
        ((True, '{"id":"a","price":5,"color":["red"]}'),),
        ((1,),),
        ((10, "+price", ".", "*:*", "1 1: 1 a 5"),),
    ),
    (
        "ties go by number and a missing value is last",
        PRICED,
        ((1, 3, 6), (6,)),
        (
            (9, "+price", ".", "*:*", "4 4: 4 d 2, 1 a 7, 3 c 7, 2 b ."),
            (9, "-price", ".", "*:*", "4 4: 1 a 7, 3 c 7, 4 d 2, 2 b ."),
            (0, ".", ".", "*:*", "0 4"),
            (1_000, ".", ".", "price:2", "1 1: 4 d ."),
            (1_001, ".", ".", "*:*", "NO 25"),
            (9, "+title", ".", "*:*", "NO 28"),
            (9, "+id", ".", "*:*", "NO 28"),
            (9, "+size", ".", "*:*", "NO 28"),
        ),
    ),
    (
        "a mark is any record and the total counts all",
        PRICED,
        ((3, 4, 6), (2, 6)),
        (
            (2, "+price", ".", "*:*", "2 4: 4 d 2, 1 a 7"),
            (2, "+price", 1, "*:*", "2 4: 3 c 7, 2 b ."),
            (2, "+price", 2, "*:*", "0 4"),
            (2, "+price", 99, "*:*", "NO 23"),
            (9, "+price", 4, "price:7", "2 2: 1 a 7, 3 c 7"),
            (9, ".", 2, "*:*", "2 4: 3 c ., 4 d ."),
            (9, ".", 5, "*:*", "NO 23"),
            (9, "+price", 6, "*:*", "NO 23"),
        ),
    ),
    (
        "an older row of an id is not shown",
        REPLACED,
        ((1, 3, 6, 7), (2, 7)),
        (
            (9, "+price", ".", "*:*", "4 4: 7 d 2, 2 a 7, 6 c 7, 4 b ."),
            (9, "-price", ".", "*:*", "4 4: 2 a 7, 6 c 7, 7 d 2, 4 b ."),
            (0, ".", ".", "*:*", "0 4"),
            (1_000, ".", ".", "price:2", "1 1: 7 d ."),
            (2, "+price", ".", "*:*", "2 4: 7 d 2, 2 a 7"),
            (2, "+price", 2, "*:*", "2 4: 6 c 7, 4 b ."),
            (2, "+price", 4, "*:*", "0 4"),
            (9, "+price", 7, "price:7", "2 2: 2 a 7, 6 c 7"),
            (9, ".", 4, "*:*", "2 4: 6 c ., 7 d ."),
            (1, ".", 4, "*:*", "1 4: 6 c ."),
            (9, ".", 1, "*:*", "NO 23"),
            (9, "-price", 5, "*:*", "NO 23"),
            (1_001, "+title", 1, "*:*", "NO 25"),
            (9, "+title", 1, "*:*", "NO 28"),
        ),
    ),
    (
        "long ids are shown as short ones are",
        LONG_IDS,
        ((3, 4), (4,)),
        (
            (9, ".", ".", "*:*", f"4 4: 1 {LONG[0]} ., 2 {LONG[1]} ., 3 {LONG[2]} ., 4 {LONG[3]} ."),
            (9, "+price", ".", "*:*", f"4 4: 4 {LONG[3]} 6, 3 {LONG[2]} 7, 2 {LONG[1]} 8, 1 {LONG[0]} 9"),
        ),
    ),
    (
        "words are lowered and kept whole",
        WORDED,
        ((1, 3), (3,)),
        (
            (9, ".", ".", "title:RED", "1 1: 1 a ."),
            (9, ".", ".", "title:sho*", "2 2: 1 a ., 2 b ."),
            (9, ".", ".", "title:42", "0 0"),
            (9, ".", ".", "+brand:[B TO *] title:red", "1 1: 2 b ."),
            (9, "-brand", ".", "*:*", "2 2: 2 b =Zed, 1 a =Acme"),
        ),
    ),
    (
        "clauses are musts, must nots and shoulds",
        SIGNED,
        ((1, 2, 3), (3,)),
        (
            (9, ".", ".", "price:[* TO 0]", "1 1: 1 a ."),
            (9, ".", ".", "*:* -(-brand:x)", "2 2: 1 a ., 2 b ."),
            (9, ".", ".", "(-brand:y)", "0 0"),
            (9, ".", ".", "price:[3 TO -3]", "0 0"),
            (9, "+price", ".", "*:*", "2 2: 1 a -3, 2 b ."),
        ),
    ),
    (
        "a query may have 64 clauses and 8 groups",
        ((True, '{"id":"a"}'), (False, '{"id":"b"}')),
        ((2,),),
        (
            (9, ".", ".", " ".join(["*:*"] * 64), "1 1: 1 a ."),
            (9, ".", ".", "((((((((*:*))))))))", "1 1: 1 a ."),
        ),
    ),
    (
        "a view without segments shows nothing",
        (),
        ((),),
        (
            (10, ".", ".", "*:*", "0 0"),
            (1_001, "+title", 5, "*:*", "NO 25"),
            (9, "+title", 5, "*:*", "NO 28"),
            (9, "+price", 5, "*:*", "NO 23"),
        ),
    ),
    (
        "a view of dead rows shows nothing",
        ((False, '{"id":"a","price":1}'),),
        ((1,),),
        (
            (10, ".", ".", "*:*", "0 0"),
            (1_001, "+title", 1, "*:*", "NO 25"),
            (9, "+title", 1, "*:*", "NO 28"),
            (9, "+price", 1, "*:*", "NO 23"),
        ),
    ),
    (
        "a view shows the rows that took the place of dead ones",
        (
            (False, '{"id":"a"}'),
            (False, '{"id":"b"}'),
            (True, '{"id":"b","price":7}'),
            (True, '{"id":"c"}'),
        ),
        ((2, 4),),
        ((9, ".", ".", "*:*", "2 2: 3 b ., 4 c ."),),
    ),
)


def found(rows, finds):
    """Of each FIND: its query, whether it is answered, and the line with its reply."""
    for count, sort, mark, query, answer in finds:
        head, _, hits = answer.partition(": ")
        is_answered = not head.startswith("NO")
        reply = [f"1 OK {head}" if is_answered else f"1 {head}", *(f"1 {hit}" for hit in hits.split(", ") if hit)]
        yield query, is_answered, [f"> 1 FIND {token_of(rows)} {count} {sort} {mark} {query}", *reply]


# What queries say of an item.

SHOVEL = '{"id":"1","brand":"acme","color":["red","blue"],"price":20,"title":"Garden Shovel"}'
# Its brand is `a"b\c`, and it has a label of one backslash.
ESCAPED = r'{"id":"1","brand":"a\"b\\c","color":["\\","red"],"price":7,"title":"Garden"}'
# An item, and queries with whether they match it.
ASKED = (
    (
        "a query says what an item has",
        SHOVEL,
        (
            ("*:*", True),
            ("brand:acme", True),
            ("brand:[ac TO b]", True),
            ("brand:[b TO *]", False),
            (r'brand:"ac\"me"', False),
            ("color:red", True),
            ("color:gr*", False),
            ("price:20", True),
            ("price:-20", False),
            ("price:[* TO 19]", False),
            ("price:[20 TO 20]", True),
            ("title:SHOVEL", True),
            ("title:Sho*", True),
            ("+brand:acme -color:blue", False),
            ("+brand:acme color:green", True),
            ("color:green price:20", True),
            ("-color:green", False),
            ("+(color:green color:red) +price:[10 TO 500] title:sho*", True),
        ),
    ),
    (
        "a query has escaped values, and as many clauses and groups as may be",
        ESCAPED,
        (
            (r'brand:"a\"b\\c"', True),
            (r'brand:"a\"b*"', False),
            (r'brand:["a\"b\\c" TO "a\"b\\c"]', True),
            (r'brand:["a\"b\\d" TO *]', False),
            (r'color:"\\"', True),
            (r'color:"\\\\"', False),
            ('price:"007"', True),
            ("((((((((price:7))))))))", True),
            ("((((((((price:8))))))))", False),
            ("price:8 " * 63 + "price:7", True),
            ("price:8 " * 63 + "price:9", False),
            ("+price:7 " * 63 + "+title:garden", True),
            ("+price:7 " * 63 + "-title:garden", False),
        ),
    ),
)


def asked_of(text, queries):
    """Each query is put to the item in a segment; and takes it out where it matches, as it waits and as it stands in a segment."""
    yield from written(((True, text),), (1,))
    for query, is_hit in queries:
        yield from (f"> 1 FIND 1 9 . . {query}", *(("1 OK 1 1", "1 1 1 .") if is_hit else ("1 OK 0 0",)))
    writes = 1
    for waits in (True, False):
        for query, is_hit in queries:
            left = "0 0" if is_hit else "0 1"
            yield from (f"> 1 PUT {text}", f"1 OK {writes + 1}")
            if not waits:
                yield from ("> 1 REFRESH", f"1 OK {writes + 1}")
            yield from (f"> 1 DELW {query}", f"1 OK {writes + 2}")
            writes += 2
            yield from ("> 1 REFRESH", f"1 OK {writes}", "> 1 OPEN", f"1 OK {writes}")
            yield from (f"> 1 FIND {writes} 0 . . *:*", f"1 OK {left}", f"> 1 CLOSE {writes}", f"1 OK {writes}")


# Pages that are walked.

COUNT = 150
ENDS = (70, 140, 150)
# No mark, rows of each segment, of which every third is dead where rows are, beside the 64th too, and one that isn't there.
MARKS = (None, 1, 2, 3, 35, 64, 65, 70, 71, 72, 148, 151)
LEAST, GREATEST = -(2**63), 2**63 - 1
FIVE = ({}, {"price": 5, "brand": "cord"}, {"price": -1, "brand": "acme"}, {"price": 0, "brand": "bolt"}, {"price": 44, "brand": "east"}, {"price": 43, "brand": "dune"})
WORDS = (
    {"title": "cap"},
    {"title": "Red cap", "price": 5, "brand": "cord"},
    {"title": "a red hat", "price": -1, "brand": "acme"},
    {"title": "red", "price": 0, "color": ("blue", "red")},
    {"title": "red, red", "price": 44, "brand": "acme"},
    {"title": "redder", "price": 43, "brand": "dune"},
)
AT_THE_ENDS = ({"price": LEAST, "brand": "a"}, {"price": GREATEST, "brand": "zzz"}, {})


def all_live(_):
    return True


def but_every_third(number):
    return number % 3 != 0


# What a day shows, what the row of a number has, and whether it lives. Of two rows with brands the one with the greater price has
# the greater brand, but for those with titles.
WALKED = (
    ("many rows of one value go by their numbers", lambda _: {"price": 7, "brand": "acme"}, all_live),
    ("numbers stand at the ends of the integers", lambda number: AT_THE_ENDS[number % 3], all_live),
    ("rows without values go by their numbers", lambda _: {}, all_live),
    ("dead rows are passed and are no marks", lambda number: FIVE[number % 6], but_every_third),
    ("of dead rows alone none is shown", lambda number: FIVE[number % 6], lambda _: False),
    ("a range has few of the rows or none", lambda number: {"price": number}, but_every_third),
    # Every third row of the first segment is dead, all of the second are, and none of the third.
    ("the rows of a word are shown where they live", lambda number: WORDS[number % 6], lambda number: number > 140 or number <= 70 and number % 3 != 0),
)


def has_price(low, high):
    """Whether a row has a price from the one up to the other."""
    return lambda row: low <= row.get("price", LEAST - 1) <= high


def has_word(word):
    return lambda row: word in row.get("title", "").lower().replace(",", "").split()


def has_brand(low, high="~"):
    return lambda row: "brand" in row and low <= row["brand"] <= high


def any_row(_):
    return True


# How many hits are shown at most, of which query, and whether a row is a hit.
FINDS = (
    (1, "*:*", any_row),
    (3, "*:*", any_row),
    (0, "*:*", any_row),
    (1, "price:[0 TO *]", has_price(0, GREATEST)),
    (1, "price:[* TO 7]", has_price(LEAST, 7)),
    (0, "price:[0 TO *]", has_price(0, GREATEST)),
    (3, "price:[64 TO 66]", has_price(64, 66)),
    (2, "price:70", has_price(70, 70)),
    (2, "price:[9 TO 3]", has_price(9, 3)),
    (2, f"price:[{LEAST} TO -1]", has_price(LEAST, -1)),
    (2, f"price:[1 TO {GREATEST}]", has_price(1, GREATEST)),
    (2, f"price:[{LEAST + 1} TO {GREATEST - 1}]", has_price(LEAST + 1, GREATEST - 1)),
    (1, "brand:[b TO *]", has_brand("b")),
    (1, "price:[43 TO *]", has_price(43, GREATEST)),
    (2, "+price:[43 TO *] +*:*", has_price(43, GREATEST)),
    (0, "+price:[43 TO *] +*:*", has_price(43, GREATEST)),
    (1, "brand:acme", has_brand("acme", "acme")),
    (3, "title:red", has_word("red")),
    (60, "title:cap", has_word("cap")),
    (2, "color:blue", lambda row: "blue" in row.get("color", ())),
    (1, "title:blue", has_word("blue")),
)
SORTS = ("+price", "-price", "+brand", "-brand", ".")


def item(number, row):
    """The text of an item with what the row has."""
    return json.dumps({"id": f"i{number}", **row}, separators=(",", ":"))


def ordered(rows, sort):
    """The numbers of these rows in the order of the sort: those without a value last, and ties by number."""
    numbers = sorted(rows)
    if sort == ".":
        return numbers
    some = sorted((it for it in numbers if sort[1:] in rows[it]), key=lambda it: rows[it][sort[1:]], reverse=sort[0] == "-")
    return some + [it for it in numbers if sort[1:] not in rows[it]]


def key_shown(row, sort):
    value = row.get(sort[1:]) if sort != "." else None
    return "." if value is None else f"={value}" if isinstance(value, str) else value


def walked(rows, sort, hits, count):
    """The reply to a FIND behind each mark, over these rows, which live, of which those of these numbers are hits."""
    order = ordered(rows, sort)
    for mark in MARKS:
        if mark is not None and mark not in rows:
            yield mark, ["1 NO 23"]
            continue
        behind = order if mark is None else order[order.index(mark) + 1 :]
        shown = [number for number in behind if number in hits][:count]
        entries = (f"1 {number} i{number} {key_shown(rows[number], sort)}" for number in shown)
        yield mark, [f"1 OK {len(shown)} {len(hits)}", *entries]


def walks(values, lives):
    """The day of these rows: each query in each sort behind each mark, without sets at hand, and with one for each segment."""
    rows = {number: values(number) for number in range(1, COUNT + 1)}
    puts = [(lives(number), item(number, row)) for number, row in rows.items()]
    live = {number: row for number, row in rows.items() if lives(number)}
    yield from written(puts, ENDS)
    token, warmed = token_of(puts), set()
    for count, query, accepts in FINDS:
        hits = {number for number, row in live.items() if accepts(row)}
        lines = []
        for sort in SORTS:
            for mark, reply in walked(live, sort, hits, count):
                lines += [f"> 1 FIND {token} {count} {sort} {'.' if mark is None else mark} {query}", *reply]
        yield from lines
        if query not in warmed:
            yield from SET_MADE * len(ENDS)
            yield from lines
        warmed.add(query)


def text():
    """The days."""
    lines = list(in_cuts(FOUND, found))
    for title, item_text, queries in ASKED:
        lines += [f"== {title}", *asked_of(item_text, queries), ""]
    for title, values, lives in WALKED:
        lines += [f"== {title}", *walks(values, lives), ""]
    return "\n".join(lines[:-1]) + "\n"


if __name__ == "__main__":
    print(text(), end="")
