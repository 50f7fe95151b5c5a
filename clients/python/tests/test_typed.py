"""What visitors type: folded words, the last one as a beginning, marks in a text, and bars of numbers; many writes at once."""

import unittest

import support  # first: it finds the package

import jasminedome
from jasminedome import (
    Bar, Refusal, UsageError, even_edges, folded, highlighted, histogram, marks, searchable, typed,
)  # fmt: skip
from jasminedome.http import Folding, Keys, Settings
from jasminedome.http.settings import READ, WRITE


class Folded(unittest.TestCase):
    def test_letters(self):
        for text, wanted in (
            ("L'Étoile", "l'etoile"), ("Søndre Łódź", "sondre lodz"), ("STRASSE", "strasse"), ("Straße", "strasse"),
            ("ＡＢＣ ﬁn", "abc fin"), ("Ελλάδα", "ελλαδα"), ("日本", "日本"), ("", ""), ("İstanbul ısı", "istanbul isi"),
        ):  # fmt: skip
            self.assertEqual(folded(text), wanted)
            self.assertEqual(folded(folded(text)), folded(text))

    def test_an_items_words(self):
        item = {"id": "a", "title": "Été, été & Pluie", "color": ["Bleu", 5, "été"], "price": 5, "brand": None}
        self.assertEqual(searchable(item, ["title", "color", "price", "brand", "none"]), "ete pluie bleu")


class Typed(support.ShopTest):
    def setUp(self):
        super().setUp()
        titles = ["Red running shoe", "Étui d'été rouge", "Red boot", "shoe tree"]
        self.shop.put_many({"id": str(n), "title": title, "brand": "Søndre"} for n, title in enumerate(titles))
        self.shop.refresh()
        self.view = self.shop.open()

    def found(self, text, fields=("title",), **options):
        return [hit.id for hit in self.view.find(typed(text, fields, **options))]

    def test_every_word_and_the_last_as_a_beginning(self):
        for text, ids in (
            ("red sh", ["0"]), ("RED", ["0", "2"]), ("re", ["0", "2"]), ("re ", []), ("sho red", []), ("shoe", ["0", "3"]),
            ("", ["0", "1", "2", "3"]), ("  ", ["0", "1", "2", "3"]), ("(red) \"boot\" *", ["2"]), ("Étui", ["1"]),
            ("d'été", ["1"]), ("ÉTUI", ["1"]), ("étui", []), ("x\ny", []),
        ):  # fmt: skip
            self.assertEqual(self.found(text), ids, text)
        self.assertEqual(self.found("sho", is_begun=False), [])
        self.assertEqual(self.found("søn sho", ("title", "brand")), [])
        self.assertEqual(self.found("Søndre sho", ("title", "brand")), ["0", "3"])

    def test_the_longest_text_is_a_query(self):
        long = " ".join(f"Été{n}" for n in range(500))
        for fields in (["title"], ["title", "brand"], ["title", "brand", "color"] * 4):
            self.assertEqual(self.found(long, fields), [])
            page = self.view.find(jasminedome.all_of(typed(long, fields), *[jasminedome.term("brand", "x")] * 20))
            self.assertEqual(page.total, 0)

    def test_what_are_no_fields(self):
        for fields in ("title", [], ["Title"], [5]):
            self.assertRaises(UsageError, typed, "a", fields)
        self.assertRaises(UsageError, typed, 5, ["title"])
        self.assertRaises(UsageError, folded, None)


class Highlights(unittest.TestCase):
    def test_marks(self):
        self.assertEqual(marks("Red shoes, RED <b>shoe</b>", "red sho"), [(0, 3), (4, 9), (11, 14), (18, 22)])
        self.assertEqual(highlighted("Red <shoe> & Été", "ETE shoe "), "Red &lt;<mark>shoe</mark>&gt; &amp; <mark>Été</mark>")
        self.assertEqual(highlighted("shoes", "shoe "), "shoes")
        self.assertEqual(highlighted("<i>", ""), "&lt;i&gt;")
        self.assertEqual(highlighted("a shoe", "shoe", "[", "]"), "a [shoe]")


class Histograms(support.ShopTest):
    def test_bars(self):
        self.shop.put_many({"id": str(n), "price": n, "brand": "Zed" if n % 2 else "Acme"} for n in range(-5, 25))
        self.shop.put({"id": "none"})
        self.shop.refresh()
        with self.shop.open() as view:
            told = histogram(view, "price", [0, 10, 20])
            self.assertEqual(told, (Bar(None, 0, 5), Bar(0, 10, 10), Bar(10, 20, 10), Bar(20, None, 5)))
            told = histogram(view, "price", even_edges(0, 20, 2), jasminedome.term("brand", "Zed"))
            self.assertEqual([bar.count for bar in told], [3, 5, 5, 2])
            for edges in ([], [5, 5], [5, 1], [1.5], [True], "12", list(range(200)), [2**70]):
                self.assertRaises(UsageError, histogram, view, "price", edges)
            self.assertRaises(jasminedome.BadQuery, histogram, view, "title", [1])
        self.assertEqual(even_edges(0, 100, 3), (0, 33, 66, 100))
        self.assertRaises(UsageError, even_edges, 0, 2, 5)


class SayMany(support.ShopTest):
    def test_each_is_answered_in_order(self):
        lines = [f'PUT {{"id":"item-{n}","price":{n}}}' for n in range(1_500)]
        others = ["DEL item-3", 'PUT {"id":"a","price":"x"}', "DELW price:[0 TO 9]", "DELW (", "PUT {"]
        told = self.shop.say_many([*lines, *others])
        self.assertEqual(told[:1_501], list(range(1, 1_502)))
        self.assertEqual([each.number if isinstance(each, Refusal) else each for each in told[1_501:]], [13, 1_502, 24, 11])
        self.assertEqual(self.shop.stat().writes, 1_502)
        self.assertEqual(self.shop.say_many([]), [])

    def test_nothing_goes_out_where_one_is_no_write(self):
        for wrong in ("REFRESH", "PUT", "put {}", "DEL a\nREFRESH", 5, "PUT " + "x" * 10_000, "PUT \udc80"):
            self.assertRaises(UsageError, self.shop.say_many, ["DEL a", wrong])
        self.assertEqual(self.shop.stat().writes, 0)


class Set(unittest.TestCase):
    def test_settings_have_bounds(self):
        for name, value in (
            ("show_every", -1), ("commit_every", "5"), ("most_views", 61), ("most_views", 0), ("most_body", 0), ("readers", 0),
            ("oldest", True),
        ):  # fmt: skip
            self.assertRaises(UsageError, Settings, **{name: value})
        fields = {"title": "text", "brand": "facet", "price": "number", "words": "text"}
        self.assertEqual(Settings().searched(fields), ("title", "words"))
        self.assertEqual(Settings(words=("brand",)).searched(fields), ("brand",))
        self.assertEqual(Settings(folding=Folding("words", ("title",))).searched(fields), ("words",))
        for wrong in (
            {"words": ("none",)}, {"words": ("price",)}, {"folding": Folding("brand", ("title",))},
            {"folding": Folding("words", ())}, {"folding": Folding("words", ("price",))},
            {"folding": Folding("words", ("words",))},
        ):  # fmt: skip
            self.assertRaises(UsageError, Settings(**wrong).searched, fields)

    def test_keys(self):
        keys = Keys("read-key", "write-key")
        shown = {"Bearer read-key": (200, 403), "bearer write-key": (200, 200)}
        nobody = {header: (401, 401) for header in ("", "Bearer", "Bearer ", "Bearer x", "read-key", "Basic read-key")}
        for header, statuses in {**shown, **nobody}.items():
            self.assertEqual((keys.status(READ, header), keys.status(WRITE, header)), statuses, header)
        self.assertEqual((Keys().status(READ, ""), Keys().status(WRITE, "")), (200, 200))
        self.assertEqual((Keys(write="write-key").status(READ, ""), Keys(write="write-key").status(WRITE, "")), (200, 401))
        for key in ("short", "with space ", "é" * 9, ""):
            self.assertRaises(UsageError, Keys, None, key)
        self.assertNotIn("read-key", repr(keys))

    def test_names_under_which_may_be_written(self):
        for host in ("127.0.0.1:8080", "localhost", "localhost:80", "[::1]:8080", "10.0.0.5"):
            self.assertTrue(Keys().allows_name(WRITE, host), host)
        for host in ("shop.example", "127.0.0.1.shop.example:80", "", "localhost.shop.example", "[x]:1", "x127.0.0.1"):
            self.assertFalse(Keys().allows_name(WRITE, host), host)
            for keys, right in ((Keys(), READ), (Keys(write="write-key"), WRITE), (Keys(by_any_name=True), WRITE)):
                self.assertTrue(keys.allows_name(right, host), host)


if __name__ == "__main__":
    unittest.main()
