"""Each call, by what the program answers."""

import unittest

import support  # first: it finds the package

import jasminedome
from jasminedome import FacetCount, Hit, Page, UsageError, any_of, between, term
from jasminedome.putting import Load, item_text


class Writes(support.ShopTest):
    def test_writes_are_numbered(self):
        self.assertEqual(self.shop.opened_at, 0)
        self.assertEqual(self.shop.put({"id": "a", "price": 5, "brand": "Æ \u2028"}), 1)
        self.assertEqual(self.shop.put('{"id":"b"}'), 2)
        self.assertEqual(self.shop.delete("a"), 3)
        self.assertEqual(self.shop.delete("none"), 4)
        self.assertEqual(self.shop.refresh(), 4)

    def test_refused_items(self):
        refused = [
            ({"id": "a", "price": 5.5}, jasminedome.WrongKind),
            ({"id": "a", "size": 1}, jasminedome.UnknownField),
            ({"id": ""}, jasminedome.BadId),
            ({"id": "x" * 65}, jasminedome.BadId),
            ("[1]", jasminedome.WrongKind),
            ("{", jasminedome.BadJson),
            ({"id": "a", "brand": "x" * 129}, jasminedome.TooLarge),
            ({"id": "a", "title": "x" * 8_500}, jasminedome.TooLarge),
            ({"id": "a", "title": "x" * 10_000}, UsageError),
            ({"id": "a", "price": float("nan")}, UsageError),
            ({"id": "a", "price": {1}}, UsageError),
            ('{"id":\n"a"}', UsageError),
            ({"id": "\ud800"}, UsageError),
        ]
        for item, error in refused:
            with self.subTest(item=str(item)[:60]):
                self.assertRaises(error, self.shop.put, item)
        self.assertEqual(self.shop.put({"id": "a"}), 1)
        told = self.shop.put_many([{"id": "b"}, *(item for item, _ in refused), {"id": "c"}])
        self.assertEqual((told.accepted, told.last), (2, 3))
        self.assertEqual([each.index for each in told.refused], list(range(1, len(refused) + 1)))
        self.assertEqual([type(each.error) for each in told.refused], [error for _, error in refused])

    def test_put_many(self):
        answered = []
        items = ({"id": f"x{n}"} if n % 100 else {"id": ""} for n in range(3_000))
        told = self.shop.put_many(items, answered.append)
        self.assertEqual((told.accepted, told.last, len(told.refused)), (2_970, 2_970, 30))
        self.assertEqual([each.index for each in told.refused], list(range(0, 3_000, 100)))
        self.assertEqual(answered, sorted(answered))
        self.assertEqual(answered[-1], 3_000)
        self.assertEqual(self.shop.put_many([]), jasminedome.PutMany(0, None, ()))
        self.assertEqual(self.shop.put_many([{"id": "\n", "price": {1}}] * 600).accepted, 0)
        self.assertEqual(self.shop.refresh(), 2_970)

    def test_a_batch_that_is_made_in_one_go_has_the_lines_of_its_items(self):
        odd = ["\u2028", "\x85", "é" * 600, "\r", "\n", "\t\x1c", '"\\', "\U0010ffff"]
        items = [{"id": f"x{n}", "title": text, "color": [], "price": None} for n, text in enumerate(odd)]
        items += ['{"id":"raw"}', '  {"id":\t"spaced"}  ', "", "[]", {}]
        for count in (len(items), 1):
            for at in range(0, len(items), count):
                some = list(enumerate(items[at : at + count]))
                told, sent = Load(7, support.FIELDS).lines(some)
                self.assertEqual(sent, some)
                wanted = [item if isinstance(item, str) else item_text(item) for item in items[at : at + count]]
                self.assertEqual(told, b"".join(b"7 PUT " + text.encode() + b"\n" for text in wanted))
        for wrong in ("a\nb", "a\r", {"id": "\ud800"}, {"id": {1}}, "x" * 9_995):
            for place in (0, 1, 2):
                some = ['{"id":"a"}', '{"id":"b"}']
                some.insert(place, wrong)
                told, sent = Load(7, support.FIELDS).lines(list(enumerate(some)))
                self.assertEqual(told, b'7 PUT {"id":"a"}\n7 PUT {"id":"b"}\n')
                self.assertEqual([index for index, _ in sent], [index for index in range(3) if index != place])

    def test_an_iterator_that_fails_leaves_a_catalogue_that_works(self):
        def items():
            yield from ({"id": f"x{n}"} for n in range(2_000))
            raise KeyError("no more")

        self.assertRaises(KeyError, self.shop.put_many, items())
        self.assertGreater(self.shop.put({"id": "a"}), 0)

    def test_delete_where(self):
        self.shop.put_many([{"id": "a", "price": 1}, {"id": "b", "price": 2}, {"id": "c"}])
        self.assertEqual(self.shop.delete_where(between("price", 2, None)), 4)
        self.assertRaises(jasminedome.BadQuery, self.shop.delete_where, "price:x")
        self.shop.refresh()
        with self.shop.open() as view:
            self.assertEqual([hit.id for hit in view.find().hits], ["a", "c"])


class Views(support.ShopTest):
    def setUp(self):
        super().setUp()
        self.shop.put({"id": "a", "price": 7, "brand": "x y", "color": ["red", "blue"]})
        self.shop.put({"id": "b", "color": ["red"]})
        self.shop.put({"id": "c", "price": 7, "brand": "=", "title": "Red-Shoe 42é"})
        self.shop.put({"id": "d", "price": -2, "brand": "."})
        self.shop.refresh()

    def test_find(self):
        with self.shop.open() as view:
            self.assertEqual(view.token, 4)
            self.assertEqual(view.find(count=1), Page(4, (Hit(1, "a", None),)))
            rising = (Hit(4, "d", -2), Hit(1, "a", 7), Hit(3, "c", 7), Hit(2, "b", None))
            self.assertEqual(view.find(sort="+price"), Page(4, rising))
            falling = (Hit(1, "a", 7), Hit(3, "c", 7), Hit(4, "d", -2), Hit(2, "b", None))
            self.assertEqual(view.find(sort="-price"), Page(4, falling))
            self.assertEqual(view.find(sort="+price", after=1).hits, rising[2:])
            self.assertEqual([hit.key for hit in view.find(sort="+brand").hits], [".", "=", "x y", None])
            self.assertEqual(view.find(any_of(term("brand", "x y"), term("title", "RED"))).total, 2)
            self.assertEqual(view.find(count=0), Page(4, ()))

    def test_refused_reads(self):
        view = self.shop.open()
        self.assertRaises(jasminedome.TooMany, view.find, count=1_001)
        self.assertRaises(jasminedome.NotSortable, view.find, sort="+title")
        self.assertRaises(jasminedome.BadMark, view.find, after=99)
        self.assertRaises(jasminedome.TokenGone, self.shop.open, 3)
        for wrong in ({"sort": "price"}, {"sort": "+a . *:*"}, {"after": -1}, {"after": "1"}, {"count": True}):
            self.assertRaises(UsageError, view.find, **wrong)
        self.assertRaises(UsageError, view.find, "*:*\n0 STAT")
        self.assertRaises(UsageError, view.find, 'brand:"a"\r')
        self.assertRaises(UsageError, self.shop.delete, "a\n1 DEL b")
        self.assertRaises(UsageError, self.shop.open, "4")
        view.close()
        view.close()
        self.assertRaises(UsageError, view.find)

    def test_pages_stand_still(self):
        self.shop.put_many({"id": f"x{n}", "price": n % 7} for n in range(95))
        self.shop.refresh()
        with self.shop.open() as view:
            whole = view.find(sort="-price", count=1_000).hits
            pages = view.pages(sort="-price", count=10)
            turned = list(next(pages).hits)
            self.shop.put_many({"id": f"x{n}", "price": 9} for n in range(95))
            self.shop.refresh()
            for page in pages:
                self.assertEqual(page.total, 99)
                turned.extend(page.hits)
            self.assertEqual(tuple(turned), whole)
            self.assertEqual(list(view.pages("brand:nobody")), [])
            self.assertEqual([len(page.hits) for page in view.pages(count=33)], [33, 33, 33])
            self.assertRaises(UsageError, view.pages, count=0)

    def test_a_view_holds_what_it_saw(self):
        old = self.shop.open()
        self.shop.delete("a")
        self.shop.refresh()
        new = self.shop.open()
        self.assertEqual((old.find().total, new.find().total), (4, 3))
        again = self.shop.open(old.token)
        old.close()
        self.assertEqual(again.find().total, 4)

    def test_facets(self):
        with self.shop.open() as view:
            self.assertEqual(view.facets("color").counts, (FacetCount("red", 2), FacetCount("blue", 1)))
            self.assertEqual((view.facets("color", "*:*", 1).labels, view.facets("color").matching), (2, 2))
            self.assertEqual(view.facets("color", count=1).counts, (FacetCount("red", 2),))
            self.assertRaises(jasminedome.NotFacet, view.facets, "brand")
            self.assertRaises(UsageError, view.facets, "color 9 *:*")

    def test_stored_items(self):
        with self.shop.open() as view:
            self.assertEqual(view.get("b"), {"id": "b", "color": ["red"]})
            self.assertEqual(view.source("b"), '{"id":"b","color":["red"]}')
            self.assertIsNone(view.get("z"))
            self.assertRaises(jasminedome.BadId, view.get, "a b")

    def test_files(self):
        with self.shop.open() as view:
            self.assertIn("_1.seg", view.files())

    def test_prune(self):
        self.assertEqual(self.shop.prune(1), 1)
        self.assertRaises(jasminedome.TokenGone, self.shop.open, 0)

    def test_64_held_tokens(self):
        views = [self.shop.open(0), self.shop.open()]
        for n in range(62):
            self.shop.put({"id": "a", "price": n})
            self.shop.refresh()
            views.append(self.shop.open())
        self.shop.put({"id": "a"})
        self.assertRaises(jasminedome.AllHeld, self.shop.refresh)
        views.pop(5)  # forgotten
        self.assertEqual(self.shop.refresh(), 67)


class Upkeep(support.ShopTest):
    def test_commits(self):
        self.assertEqual(self.shop.commit("spring"), 1)
        self.assertEqual(self.shop.note(1), "spring")
        self.assertRaises(jasminedome.TooLarge, self.shop.commit, "x" * 257)
        self.assertRaises(jasminedome.WrongKind, self.shop.commit, "\t")
        with self.shop.snapshot() as kept:
            self.assertEqual(kept.generation, 1)
            self.assertIn("segments_1", kept.files)
            self.assertEqual(self.shop.commit(), 2)
            self.assertEqual((self.shop.note(1), self.shop.note(2)), ("spring", ""))
        self.shop.commit()
        self.assertRaises(jasminedome.NoCommit, self.shop.note, 1)

    def test_no_commit_no_snapshot(self):
        with self.assertRaises(jasminedome.NoCommit):
            with self.shop.snapshot():
                self.fail("there is no commit")

    def test_upkeep(self):
        stat = self.shop.stat()
        self.assertEqual((stat.writes, stat.recorded, stat.segments), (0, 1, ()))
        self.assertFalse(self.shop.force())
        self.shop.put({"id": "a"})
        self.shop.refresh()
        self.assertEqual(self.shop.stat().segments, (jasminedome.SegmentStat(1, 1, 1),))
        self.assertEqual((self.shop.merge(), self.shop.warm(), self.shop.sweep()), (0, 0, 0))

    def test_sets_are_made_for_queries_that_were_asked(self):
        self.shop.put({"id": "a", "price": 1, "color": ["red"]})
        self.shop.refresh()
        with self.shop.open() as view:
            pages = [view.find("price:1"), view.find("price:1"), view.find("price:2")]
            counts = view.facets("color", "price:[1 TO 3]")
            self.assertEqual((self.shop.stat().cached, self.shop.warm(), self.shop.stat().cached), (0, 3, 3))
            self.assertEqual(self.shop.warm(), 0)
            self.assertEqual([view.find("price:1"), view.find("price:1"), view.find("price:2")], pages)
            self.assertEqual(view.facets("color", "price:[1 TO 3]"), counts)

    def test_segments_that_no_merge_takes_are_forced_into_one(self):
        stat = "0 OK 30000 0 30 1 0 0\n" + "\n".join(f"0 {n} {1_024 if n % 10 else 784} 1" for n in range(1, 31))
        replies = ["0 OK idle", stat, "0 OK begun 30", "0 OK copied 30000", "0 OK done", "0 OK 60"]
        replies += ["0 OK 30000 0 1 1 0 0\n0 31 30000 1"]
        with support.scripted(*replies, least=1000) as shop:
            self.assertEqual(shop.upkeep().segments, (jasminedome.SegmentStat(31, 30_000, 1),))
        with support.scripted("0 OK idle", stat, "0 OK idle", "0 OK 0", stat, least=1000) as shop:
            self.assertEqual(len(shop.upkeep().segments), 30)  # the program forces no more than so many rows
        few = "0 OK 30000 0 18 1 0 0\n" + "\n".join(f"0 {n} {1_024 if n % 10 else 784} 1" for n in range(1, 19))
        with support.scripted("0 OK idle", few, "0 OK 5", few, least=1000) as shop:
            self.assertEqual(len(shop.upkeep().segments), 18)  # nine of each of two levels

    @unittest.skipUnless(support.REAL, "the stand-in has no segments")
    def test_segments_of_full_buffers_and_of_refreshes_are_merged(self):
        for least, is_merged in ((1_000, False), (1_024, True)):
            with self.subTest(least=least), support.shop(least=least) as shop:
                for turn in range(4):
                    shop.put_many({"id": f"x{turn}-{n}", "price": n} for n in range(10_000))
                    shop.refresh()
                    shop.prune(1)
                    shop.merge()
                self.assertEqual(len(shop.stat().segments) <= 27, is_merged)
                stat = shop.upkeep()
                self.assertLessEqual(len(stat.segments), 27)
                self.assertEqual(stat.live, 40_000)
                with shop.open() as view:
                    self.assertEqual(view.find(count=0).total, 40_000)

    def test_the_default_is_a_full_buffer(self):
        with support.scripted() as shop:
            self.assertEqual((shop._factor, shop._least), (10, 1_024))

    def test_warming_ends_where_more_sets_are_missing_than_are_kept(self):
        with support.scripted(*(["0 OK begun", "0 OK warmed 256", "0 OK stored"] * 65)) as shop:
            self.assertEqual(shop.warm(), 64)
            self.assertEqual(shop.ask("WARM", session=0), ["begun"])


class Schemas(unittest.TestCase):
    def test_refused_schemas(self):
        program = support.REAL or support.FAKE
        for fields in ({"a": "int"}, {"id": "text"}, {"A": "text"}):
            self.assertRaises(jasminedome.WrongKind, jasminedome.Catalogue, fields, program=program)
        self.assertRaises(jasminedome.BadLine, jasminedome.Catalogue, {}, factor=1, program=program)
        self.assertRaises(jasminedome.BadLine, jasminedome.Catalogue, {}, least=0, program=program)
        self.assertRaises(UsageError, jasminedome.Catalogue, {"a": "text"}, factor="2", program=program)


if __name__ == "__main__":
    unittest.main()
