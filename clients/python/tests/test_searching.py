"""How many writes to the program a search takes, and what it tells of them."""

import threading
import unittest
from unittest import mock

import support  # first: it finds the package

import jasminedome
from jasminedome import BadId, BadQuery, NotFacet, UsageError, facets_of, item_of, page_of, source_of, total_of
from jasminedome.http import Service

COLORS = ("red", "blue", "grey", "pink")
EDGES = [100, 200]


class Written(support.ShopTest):
    def setUp(self):
        super().setUp()
        self.shop.put_many({"id": f"x{n}", "price": n, "color": [COLORS[n % 3]], "title": f"A shoe {n}"} for n in range(300))
        self.shop.put({"id": "rare", "price": 5, "color": ["pink"], "title": "A boot"})
        self.shop.refresh()

    def writes(self, call):
        """How many writes to the program a call makes in this thread, and what it answers."""
        program, me, sent = self.shop._program, threading.get_ident(), []
        note = lambda *said: (sent.append(threading.get_ident()), unpatched(*said))[1]  # noqa: E731
        unpatched = program.send
        with mock.patch.object(program, "send", note):
            told = call()
        return sent.count(me), told


class Searches(Written):
    def setUp(self):
        super().setUp()
        self.service = Service(self.shop)
        self.addCleanup(self.service.close)
        self.view = self.service.view()

    def search(self, **asked):
        search = self.service.search_of(asked)
        return self.writes(lambda: search.answer(self.view))

    def test_a_page_with_items_counts_and_bars_takes_two(self):
        asked = {"words": "sho", "sort": "-price", "count": 24, "facets": ["color"], "histograms": {"price": EDGES}}
        count, told = self.search(**asked, highlight=["title"])
        self.assertEqual((count, told["total"], len(told["hits"])), (2, 300, 24))
        first = told["hits"][0]
        self.assertEqual((first["item"]["id"], first["highlights"]), ("x299", {"title": "A <mark>shoe</mark> 299"}))
        self.assertEqual([each["count"] for each in told["facets"]["color"]["counts"]], [100] * 3)
        self.assertEqual([each["count"] for each in told["histograms"]["price"]], [100] * 3)
        self.assertEqual(self.search(**asked, items=False)[0], 1)
        self.assertEqual(self.search(words="nothing", facets=["color"])[0], 1)

    def test_filters_and_labels_that_few_have_are_in_these_two(self):
        filters = {"color": ["pink", "none", "pink"], "price": {"to": 150}}
        count, told = self.search(filters=filters, facets=["color"], labels=2, histograms={"price": EDGES})
        self.assertEqual((count, [hit["id"] for hit in told["hits"]]), (2, ["rare"]))
        counts = {each["label"]: each["count"] for each in told["facets"]["color"]["counts"]}
        self.assertEqual(counts, {"red": 51, "blue": 50, "pink": 1, "none": 0})
        self.assertEqual(told["facets"]["color"]["labels"], 4)

    def test_whoever_counts_much_lets_others_in_between(self):
        count, told = self.search(items=False, count=0, histograms={"price": list(range(1, 101))})
        self.assertEqual(count, 2)
        self.assertEqual([each["count"] for each in told["histograms"]["price"]], [1, *[1] * 4, 2, *[1] * 94, 200])


class Questions(Written):
    def test_many_go_out_in_one_write_and_each_has_its_answer(self):
        query = "price:[0 TO 9]"
        with self.shop.open() as view:
            page = view.find(query, "-price", count=5)
            asked = [page_of(query, "-price", count=5), total_of(query), facets_of("color", query, 2)]
            asked += [item_of("x7"), source_of("x7"), item_of("none"), item_of(page.hits[0])]
            count, told = self.writes(lambda: view.answers(*asked))
            wanted = [page, 11, view.facets("color", query, 2), view.get("x7"), view.source("x7"), None, view.get("x9")]
            self.assertEqual((count, told), (1, wanted))
            self.assertEqual(self.writes(view.answers), (0, []))
            self.assertEqual(self.writes(lambda: jasminedome.histogram(view, "price", EDGES))[0], 1)

    def test_the_first_refusal_is_told(self):
        with self.shop.open() as view:
            for asked, error in (
                ((page_of(), page_of("("), facets_of("price")), BadQuery), ((facets_of("price"), page_of("(")), NotFacet),
                ((item_of("x1"), item_of("")), BadId),
            ):  # fmt: skip
                self.assertRaises(error, view.answers, *asked)
            self.assertEqual(view.find(count=0).total, 301)
        for odd in (lambda: page_of(sort="price"), lambda: facets_of("Price"), lambda: item_of(5), lambda: total_of(None)):
            self.assertRaises(UsageError, odd)


if __name__ == "__main__":
    unittest.main()
