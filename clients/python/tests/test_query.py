"""What is built is read as it was meant, and as nothing else."""

import random
import unittest

import query_grammar
import support  # before the package: it finds it

from jasminedome import (
    EVERYTHING,
    NOTHING,
    BadQuery,
    UsageError,
    all_of,
    any_of,
    between,
    none_of,
    prefix,
    quote,
    term,
    words,
)

CHARACTERS = [chr(code) for code in range(256) if chr(code) != "\n"] + ["€", "\u2028", "\U0010ffff"]
NASTY = ["", '"', "\\", '\\"', '"\\', '" *:* "', ") brand:x (", "*:*", "-brand:x", "+*:*", "a TO b", "] *", "* TO *", "\r", " "]
FAULTS = [
    ("", 0),
    ("+ *:*", 1),
    ("foo:1", 0),
    ('title:"red shoe"', 6),
    ("price:5x", 6),
    ("price:+5", 6),
    ("price:5*", 6),
    ("*:* )", 4),
    ("(*:*", 4),
    ("()", 1),
    (")", 0),
    ("*:", 0),
    ("+", 1),
    ("*:* -", 5),
    ("price:[1 TO 2", 6),
    ("title:[a TO b]", 6),
    ("color:[a TO b]", 6),
    ("brand:a(", 7),
    ("brand:", 6),
    ("brand:*", 6),
    ('brand:"a\\b"', 6),
    ('brand:"a"*', 9),
    ("brand", 0),
    ("id:a", 0),
    ("é", 0),
    (" ".join(["*:*"] * 65), 256),
    ("(" * 9, 8),
]


def read(query):
    return query_grammar.parse(support.FIELDS, query.text.encode())


def texts():
    for each in CHARACTERS:
        yield from (each, each * 2, "a" + each, each + "a", '"' + each, each + '"', "\\" + each, each + "\\", each + " *:*")
    yield from NASTY


class Built(unittest.TestCase):
    def test_a_value_is_only_ever_a_value(self):
        for text in texts():
            with self.subTest(text=text):
                data = text.encode()
                for field in ("brand", "color"):
                    own = ("is", field, data)
                    self.assertEqual(read(term(field, text)), [("", own)])
                    self.assertEqual(read(all_of(term(field, text), EVERYTHING)), [("+", own), ("+", ("all",))])
                    self.assertEqual(read(any_of(EVERYTHING, term(field, text))), [("", ("all",)), ("", own)])
                    self.assertEqual(read(none_of(term(field, text))), [("", ("all",)), ("-", own)])
                self.assertEqual(read(between("brand", text, None)), [("", ("between", "brand", data, None))])
                self.assertEqual(read(between("brand", None, text)), [("", ("between", "brand", None, data))])
                self.assertEqual(read(between("brand", text, text)), [("", ("between", "brand", data, data))])

    def test_a_prefix_is_a_prefix_or_refused(self):
        refused = set()
        for text in texts():
            try:
                query = prefix("brand", text)
            except UsageError:
                refused.add(text)
            else:
                self.assertEqual(read(query), [("", ("begins", "brand", text.encode()))])
        self.assertEqual({text for text in refused if len(text) == 1}, set(' ()[]"*\\'))

    def test_words_are_cut_as_the_program_cuts(self):
        for text in [*texts(), "Red-Shoe 42é", "ÉCLAIR", "a a a"]:
            found = {asked[2].lower() for _, asked in read(words("title", text)) if asked != ("all",)}
            self.assertEqual(found, query_grammar.words(text.encode()))

    def test_numbers(self):
        self.assertEqual(read(term("price", -5)), [("", ("is", "price", b"-5"))])
        self.assertEqual(read(between("price", -(2**63), 2**63 - 1))[0][1][2:], (b"%d" % -(2**63), b"%d" % (2**63 - 1)))
        with self.assertRaises(query_grammar.Fault) as caught:
            read(term("price", "1 TO 5"))
        self.assertEqual(caught.exception.place, 6)

    def test_what_no_line_can_carry_is_refused(self):
        for text in ("\n", "a\nb", "\ud800"):
            for build in (quote, lambda t: term("brand", t), lambda t: prefix("brand", t), lambda t: between("brand", t)):
                self.assertRaises(UsageError, build, text)
        for name in ("", "Brand", "id", "a b", "a:b", "brand:x *", "é", "a\n", "_a", "a" * 33):
            self.assertRaises(UsageError, term, name, "x")
            self.assertRaises(UsageError, prefix, name, "x")
            self.assertRaises(UsageError, words, name, "x")
            self.assertRaises(UsageError, between, name)
        for value in (True, 1.5, None, b"x"):
            self.assertRaises(UsageError, term, "brand", value)
        for join in (all_of, any_of, none_of):
            self.assertRaises(UsageError, join, "*:*")
            self.assertRaises(UsageError, join, EVERYTHING, "*:*")

    def test_trees_match_what_their_parts_match(self):
        chance = random.Random(7)
        items = [
            {"brand": brand, "price": price, "color": color}
            for brand in (None, "a", "b ", 'c"')
            for price in (None, -1, 2)
            for color in (None, ["a"], ["a", "*:*"])
        ]
        for _ in range(500):
            query, accepts = self.tree(chance, 3)
            clauses = read(query)
            for item in items:
                self.assertEqual(query_grammar.matches(support.FIELDS, clauses, item), accepts(item), query.text)

    def tree(self, chance, depth):
        """A random query, and a test of items that was made beside it."""
        if depth == 0 or chance.random() < 0.3:
            return chance.choice(
                [
                    (EVERYTHING, lambda item: True),
                    (NOTHING, lambda item: False),
                    (term("brand", 'c"'), lambda item: item["brand"] == 'c"'),
                    (term("color", "*:*"), lambda item: "*:*" in (item["color"] or ())),
                    (prefix("brand", "b"), lambda item: item["brand"] == "b "),
                    (between("price", 0), lambda item: item["price"] == 2),
                    (between("brand", "a", "b "), lambda item: item["brand"] in ("a", "b ")),
                ]
            )
        parts = [self.tree(chance, depth - 1) for _ in range(chance.randrange(4))]
        queries, tests = [part[0] for part in parts], [part[1] for part in parts]
        return chance.choice(
            [
                (all_of(*queries), lambda item: all(test(item) for test in tests)),
                (any_of(*queries), lambda item: any(test(item) for test in tests)),
                (none_of(*queries), lambda item: not any(test(item) for test in tests)),
            ]
        )


class Faults(support.ShopTest):
    def test_each_fault_has_its_place(self):
        with self.shop.open() as view:
            for text, place in FAULTS:
                with self.subTest(text=text):
                    with self.assertRaises(query_grammar.Fault) as told:
                        query_grammar.parse(support.FIELDS, text.encode())
                    self.assertEqual(told.exception.place, place)
                    with self.assertRaises(BadQuery) as caught:
                        view.find(text)
                    self.assertEqual((caught.exception.number, caught.exception.place), (24, place))

    def test_what_a_visitor_types_finds_itself_and_nothing_else(self):
        typed = list(dict.fromkeys(texts()))
        can_stand = [text for text in typed if not query_grammar.CONTROL.search(text)]
        self.shop.put_many({"id": f"x{index}", "brand": text, "title": text} for index, text in enumerate(can_stand))
        self.shop.refresh()
        places = {text: f"x{index}" for index, text in enumerate(can_stand)}
        held = [query_grammar.words(text.encode()) for text in can_stand]
        with self.shop.open() as view:
            for text in typed if support.REAL else typed[::7]:
                with self.subTest(text=text):
                    found = view.find(all_of(term("brand", text), EVERYTHING)).hits
                    self.assertEqual([hit.id for hit in found], [places[text]] if text in places else [])
                    wanted = query_grammar.words(text.encode())
                    has_all = sum(wanted <= each for each in held)
                    self.assertEqual(view.find(words("title", text), count=0).total, has_all)


if __name__ == "__main__":
    unittest.main()
