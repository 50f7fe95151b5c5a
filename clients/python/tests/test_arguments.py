"""Arguments of every wrong type: whatever is raised is of this package, and nothing is taken for a text that is none."""

import asyncio
import datetime
import decimal
import pickle
import threading
import types
import unittest

import support  # first: it finds the package

import jasminedome
from jasminedome import (
    EVERYTHING,
    BadQuery,
    Catalogue,
    Hit,
    JasminedomeError,
    ProgramEnded,
    Refusal,
    Timeout,
    UsageError,
    all_of,
    any_of,
    between,
    fields_of,
    none_of,
    prefix,
    quote,
    term,
    words,
)

ODD = [None, 5, 1.5, True, b"x", [], {}, ("a",), {"a"}, object(), str, decimal.Decimal(5), datetime.date(2020, 1, 1)]


class Arguments(support.ShopTest):
    def wrong(self, call, *arguments, **named):
        with self.assertRaises(UsageError, msg=f"{arguments!r} {named!r}"):
            call(*arguments, **named)

    def test_what_is_no_text_is_none(self):
        view = self.shop.open()
        for odd in ODD:
            with self.subTest(odd=odd):
                for call in (self.shop.delete, self.shop.delete_where, self.shop.commit, self.shop.ask):
                    self.wrong(call, odd)
                for call in (view.get, view.source, view.find, quote, fields_of):
                    self.wrong(call, odd)
                self.wrong(list, view.pages(odd))
                self.wrong(words, "title", odd)
                self.wrong(view.facets, odd)
                self.wrong(view.facets, "color", odd)
                self.wrong(prefix, "brand", odd)
                for build in (term, prefix, words):
                    self.wrong(build, odd, "a")
                self.wrong(between, odd)
                for join in (all_of, any_of, none_of):
                    self.wrong(join, odd)
        self.assertEqual(self.shop.stat().writes, 0)

    def test_what_is_no_number(self):
        view = self.shop.open()
        for odd in [*ODD, "5", -1, 2**63]:
            if odd == 5 and not isinstance(odd, (bool, decimal.Decimal)):
                continue
            with self.subTest(odd=odd):
                for call in (self.shop.prune, self.shop.note):
                    self.wrong(call, odd)
                self.wrong(view.find, count=odd)
                self.wrong(view.facets, "color", count=odd)
                if odd is not None:
                    self.wrong(view.find, after=odd)
                    self.wrong(view.find, sort=odd)
                    self.wrong(self.shop.open, odd)

    def test_items(self):
        for odd in (None, 5, 1.5, True, b"{}", [1], ("a",), {"a"}, object(), {("a",): 1}, {"id": {1}}):
            with self.subTest(odd=odd):
                self.wrong(self.shop.put, odd)
                told = self.shop.put_many([{"id": "a"}, odd, {"id": "b"}])
                self.assertEqual([(each.index, type(each.error)) for each in told.refused], [(1, UsageError)])
        for odd in (None, 5, "text", b"text", {"id": "a"}):
            self.wrong(self.shop.put_many, odd)
        self.wrong(self.shop.put_many, [], progress=5)
        before = self.shop.stat().writes
        self.assertEqual(self.shop.put(types.MappingProxyType({"id": "m"})), before + 1)
        self.assertEqual(self.shop.put_many([types.MappingProxyType({"id": "m"})]).last, before + 2)

    def test_catalogues(self):
        command = support.REAL or support.FAKE
        for fields in (None, 5, ["title"], "title", {"a": str}, {5: "text"}, {"a": None}, [("a", "text")]):
            self.wrong(Catalogue, fields, program=command)
        for folder in (5, "", b"shop", ["shop"], "a\0b"):
            self.wrong(Catalogue, {}, folder, program=command)
        for program in (5, [], [""], "", [5], {"a"}, b"x"):
            self.wrong(Catalogue, {}, program=program)
        for program in ("/nonexistent", "/tmp", "a\0b", ["/bin/true"], ["/bin/cat"]):
            with self.assertRaises(JasminedomeError):
                Catalogue({}, program=program)

    def test_whatever_is_refused_says_why(self):
        for item, why in (
            ({"id": "a", "price": "x"}, 'price is "x"'),
            ({"id": "a", "size": 5}, "size is no field"),
            ({"price": 5}, "there is no id"),
            ({"id": "a b"}, 'id is "a b"'),
            ({"id": "a", "color": ["ok", ""]}, 'color has a label that is ""'),
            ({"id": "a", "color": ["x"] * 65}, "color has 65 labels, and may have 64"),
            ({"id": "a", "brand": "é" * 65}, "brand has 130 bytes, and may have 128"),
            ('{"id":"a","brand":5}', "brand is 5"),
        ):
            with self.subTest(item=item):
                with self.assertRaises(Refusal) as caught:
                    self.shop.put(item)
                self.assertEqual(caught.exception.detail, why)
                self.assertTrue(str(caught.exception).endswith(f": {why}"))
                (refused,) = self.shop.put_many([item]).refused
                self.assertEqual(str(refused.error), str(caught.exception))


class Exceptions(unittest.TestCase):
    def test_they_come_whole_out_of_a_pickle(self):
        errors = [kind(None, 3, "why") for kind in jasminedome.REFUSALS.values()]
        errors += [Refusal(99, None), ProgramEnded(3, "x"), ProgramEnded(None), Timeout(2.5, True), UsageError("u")]
        errors += [jasminedome.BadReply("b"), jasminedome.FolderInUse(30, None, "shop"), BadQuery(24, 7)]
        for error in errors:
            with self.subTest(error=error):
                again = pickle.loads(pickle.dumps(error))
                self.assertIs(type(again), type(error))
                for name in ("number", "place", "detail", "status", "said", "seconds", "was_sent", "args"):
                    self.assertEqual(getattr(again, name, None), getattr(error, name, None))
                self.assertEqual(str(again), str(error))


class More(support.ShopTest):
    """What is asked in one write, and what reads more easily."""

    def setUp(self):
        super().setUp()
        self.shop.put_many({"id": f"x{n}", "price": n, "color": [("red", "blue")[n % 2]]} for n in range(1_200))
        self.shop.refresh()

    def test_items_of_a_page(self):
        with self.shop.open() as view:
            page = view.find(count=1_000)
            self.assertEqual([item["price"] for item in view.get_many(page)], list(range(1_000)))
            self.assertEqual((len(page), next(iter(page)).id), (1_000, "x0"))
            self.assertEqual((bool(page), bool(view.find("price:-1"))), (True, False))
            self.assertEqual(view.get_many(["x7", "none", Hit(1, "x9", None)]), [view.get("x7"), None, view.get("x9")])
            self.assertEqual(view.get_many([]), [])
            self.assertRaises(jasminedome.BadId, view.get_many, ["x1", "a b", "x2"])
            for odd in ("x1", None, {"x1": 1}, [None]):
                self.assertRaises(UsageError, view.get_many, odd)
            self.assertEqual(view.get("x1")["price"], 1)

    def test_facets_of_several_fields(self):
        with self.shop.open() as view:
            told = view.facets_many(["color", "color"], "price:[0 TO 4]", 1)
            self.assertEqual(told, {"color": view.facets("color", "price:[0 TO 4]", 1)})
            self.assertEqual(told["color"].counts, (jasminedome.FacetCount("red", 3),))
            self.assertRaises(jasminedome.NotFacet, view.facets_many, ["color", "brand"])
            self.assertEqual(view.facets_many([]), {})

    def test_queries_by_signs(self):
        red, dear = term("color", "red"), between("price", 1_000)
        self.assertEqual((red & dear, red | dear, ~red), (all_of(red, dear), any_of(red, dear), none_of(red)))
        with self.shop.open() as view:
            self.assertEqual(view.find(~red & ~dear, count=0).total, 500)
        for odd in ODD:
            with self.assertRaises(TypeError):
                red & odd
        self.assertEqual(EVERYTHING & EVERYTHING, all_of(EVERYTHING, EVERYTHING))

    def test_asyncio(self):
        async def main():
            async with support.shop() as shop:
                await asyncio.to_thread(shop.put, {"id": "a"})
                await asyncio.to_thread(shop.refresh)
                async with await asyncio.to_thread(shop.open) as view:
                    told = await asyncio.gather(*(asyncio.to_thread(view.get, "a") for _ in range(50)))
            return shop, told

        shop, told = asyncio.run(main())
        self.assertEqual(told, [{"id": "a"}] * 50)
        self.assertRaises(UsageError, shop.refresh)

    def test_what_is_logged(self):
        with self.assertLogs("jasminedome", "DEBUG") as caught:
            support.shop().close()
        self.assertRegex(caught.output[0], "^DEBUG:jasminedome:started .* as process [0-9]+$")
        self.assertRegex(repr(self.shop), r"^<Catalogue in memory, process [0-9]+>$")


class Sessions(support.ShopTest):
    def test_forgotten_views_give_their_sessions_back(self):
        most = jasminedome.sessions.MAX_SESSION
        views = []
        with self.assertRaises(UsageError):
            while True:
                views.append(self.shop.open())
        self.assertEqual(len(views), most)
        views.clear()
        told = []
        thread = threading.Thread(target=lambda: told.append(self.shop.put({"id": "a"})))
        thread.start()
        thread.join()
        self.assertEqual(told, [1])
        for _ in range(3):
            self.shop.open().close()
        self.assertEqual(self.shop.put({"id": "a"}), 2)


if __name__ == "__main__":
    unittest.main()
