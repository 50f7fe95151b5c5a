"""Readers of replicas: the calls of a view, wherever they are answered."""

import contextlib
import threading
import time
import unittest
import unittest.mock

import replicated  # first: it finds the package
from replicated import FAKE, FLAKY, PROGRAM, puts
from serving import eventually

import jasminedome
from jasminedome.replicas import Mark, NoReplica, Shelves, TokenLost
from jasminedome.replicas.shelves import ShelfView


class Reads(replicated.LogTest):
    def test_a_view_answers_as_that_of_a_catalogue(self):
        one = self.node("one")
        writes = puts(*range(300))
        shelves = self.shelves(one)
        view = shelves.open(after=self.log.append(writes, Mark.ANCHOR))
        with jasminedome.Catalogue(replicated.FIELDS, program=PROGRAM) as shop:
            shop.put_many([write[len("PUT ") :] for write in writes])
            shop.refresh()
            with shop.open() as held:
                calls = (
                    lambda view: view.find(jasminedome.term("color", "red"), "+price", count=50),
                    lambda view: view.find("*:*", "-brand", after=7),
                    lambda view: [page.hits for page in view.pages(count=70)],
                    lambda view: view.facets("color", count=3),
                    lambda view: view.facets_many(["color"], "price:[10 TO 1000]"),
                    lambda view: (view.get("item0000003"), view.source("item0000004"), view.get("none")),
                    lambda view: view.get_many(view.find(count=100)),
                    lambda view: view.get_many([]),
                )
                for number, call in enumerate(calls):
                    with self.subTest(call=number):
                        self.assertEqual(call(view), call(held))
        for call, error in (
            (lambda: view.find("("), jasminedome.BadQuery),
            (lambda: view.find(count=1_001), jasminedome.TooMany),
            (lambda: view.find(after=10**6), jasminedome.BadMark),
            (lambda: view.find(sort="+title"), jasminedome.NotSortable),
            (lambda: view.facets("price"), jasminedome.NotFacet),
            (lambda: view.get(""), jasminedome.BadId),
            (lambda: view.find("a\nb"), jasminedome.UsageError),
            (lambda: view.get(5), jasminedome.UsageError),
        ):
            self.assertRaises(error, call)
        self.assertEqual(shelves.fields, replicated.FIELDS)
        view.close()
        self.assertEqual(view.find().total, 300)  # nothing of a visitor is held, so nothing is closed

    def test_what_is_opened(self):
        one = self.node("one")
        anchor = self.log.append(puts(1), Mark.ANCHOR)
        newest = self.log.append(puts(2), Mark.VIEW)
        one.wait(newest)
        shelves = self.shelves(one)
        self.assertEqual((shelves.open().position, shelves.open(is_lasting=False).position), (anchor, newest))
        self.assertEqual([shelves.open(after=each).position for each in (anchor, newest)], [anchor, newest])
        self.assertEqual(shelves.open(after=anchor, is_lasting=False).position, newest)
        stamp = shelves.open().token
        self.assertEqual([shelves.open(each).token for each in (stamp, 1, "1")], [stamp] * 3)
        self.assertEqual(shelves.newest()[:2], (anchor, 1))
        for token in ("1 2", "a\nb", -1, 1.5):
            self.assertRaises(jasminedome.UsageError, shelves.open, token)
        with shelves.open() as view:
            self.assertEqual(view.find().total, 1)

    def test_a_lost_token_is_told_at_once(self):
        one, two = self.node("one"), self.node("two")
        for number in range(12):
            position = self.log.append(puts(number), Mark.VIEW)
        for node in (one, two):
            node.wait(position)
        shelves = self.shelves(one, two, patience=20)
        begun = time.monotonic()
        with self.assertRaises(TokenLost) as caught:
            shelves.open(2)
        self.assertIsInstance(caught.exception, jasminedome.TokenGone)
        view = ShelfView(shelves, "2")
        some = (lambda: view.facets("color"), lambda: view.get("item0000001"), lambda: view.get_many(["a", "b"]))
        for call in (view.find, *some):
            with self.assertRaisesRegex(TokenLost, "no replica has the token.*: 2"):
                call()
        self.assertLess(time.monotonic() - begun, 5)
        self.assertEqual(shelves.open(5).find().total, 5)

    def test_a_token_that_comes_back_is_waited_for(self):
        one = self.node("one")
        one.wait(self.log.append(puts(1), Mark.ANCHOR))
        with self.assertRaises(NoReplica):
            self.shelves(one, patience=0.3).open(after=10**6)
        view = self.shelves(one, patience=20).open()
        one.kill()
        starter = threading.Timer(0.3, one.start)
        starter.start()
        self.assertEqual(view.find().total, 1)
        starter.join()

    def test_a_replica_in_trouble_of_its_own_is_passed_over(self):
        with unittest.mock.patch.dict("os.environ", {"FLAKY_READS": "1"}):
            one = self.node("one", program=FLAKY)
        two = self.node("two", program=FAKE)
        position = self.log.append(puts(1), Mark.ANCHOR)
        for node in (one, two):
            node.wait(position)
        view = self.shelves(one, two).open()
        self.assertEqual([view.find().total for _ in range(6)], [1] * 6)
        with self.assertRaises(jasminedome.OutOfMemory):
            self.shelves(one, patience=0.2).open().find()

    def test_the_log_knows_its_replicas(self):
        path = str(self.room / "one.sock")
        one = self.node("one", listen=path)
        one.wait(self.log.append(puts(1), Mark.ANCHOR))
        self.assertTrue(eventually(self.log.replicas))  # it has told of itself
        with Shelves(self.log) as shelves:
            self.assertEqual((shelves.addresses, shelves.open().find().total), ([path], 1))
            self.assertEqual(list(shelves.status()), [path])
            shelves._looked_at -= 60
            self.cluster.stop()
            begun = time.monotonic()
            self.assertEqual(shelves.open().find().total, 1)  # nobody waits for PostgreSQL
            self.assertLess(time.monotonic() - begun, 2)
            self.cluster.start()
        for addresses in ([], "shop:1", ["shop"]):
            self.assertRaises(jasminedome.UsageError, Shelves, addresses)

    def test_many_threads_share_shelves(self):
        one, two = self.node("one"), self.node("two")
        position = self.log.append(puts(*range(50)), Mark.ANCHOR)
        for node in (one, two):
            node.wait(position)
        shelves = self.shelves(one, two)
        view = shelves.open()
        told = []

        def read():
            for number in range(40):
                told.append(view.get(f"item{number:07d}")["id"] == f"item{number:07d}" and view.find(count=3).total == 50)

        threads = [threading.Thread(target=read) for _ in range(8)]
        for thread in threads:
            thread.start()
        for thread in threads:
            thread.join()
        self.assertEqual((len(told), set(told)), (320, {True}))


class Nobody(unittest.TestCase):
    def test_where_nobody_listens(self):
        with contextlib.closing(Shelves(["127.0.0.1:9", "/no/such/socket"], patience=0.2)) as shelves:
            for call in (shelves.open, lambda: shelves.open(5), lambda: shelves.open(after=5), lambda: shelves.fields):
                self.assertRaises(NoReplica, call)
            self.assertRaises(NoReplica, ShelfView(shelves, "5").find)


if __name__ == "__main__":
    unittest.main()
