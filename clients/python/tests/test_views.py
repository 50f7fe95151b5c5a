"""How long a visitor's view is kept: by age, by use, and by whether anybody has its token; and a service's upkeep."""

import threading
import time
import unittest
from unittest import mock

import support  # first: it finds the package
from serving import eventually

import jasminedome
from jasminedome import TokenGone, UsageError
from jasminedome.http import Gone, Problem, Service, Settings, Views
from jasminedome.http.problems import problem_of

ITEM = {"id": "boot-1", "price": 8_900}
OLDEST = 3_600.0


class Clock:
    """A clock that stands still until it is put forward."""

    def __init__(self):
        self.now = 1_000.0

    def __call__(self):
        return self.now


class Kept(support.ShopTest):
    """The views alone, under a clock of the test's own."""

    def setUp(self):
        super().setUp()
        self.clock = Clock()

    def views(self, every=5.0, most=4, catalogue=None):
        return Views(catalogue or self.shop, every, most, OLDEST, self.clock)

    def save(self, views, seconds):
        self.shop.put(ITEM)
        self.clock.now += seconds
        return views.make()

    def is_kept(self, views, token):
        try:
            return views.get(views.stamp(token)) is not None
        except Gone:
            return False

    def test_views_are_made_at_most_once_in_so_many_seconds(self):
        views = self.views()
        made = [self.save(views, 1) for _ in range(20)]
        self.assertEqual([index for index, is_made in enumerate(made, 1) if is_made], [5, 10, 15, 20])
        self.assertEqual(views.newest, views.stamp(20))
        self.assertEqual(views.wait(), 5)

    def test_a_visitors_view_outlives_those_that_nobody_has(self):
        views = self.views()
        given = views.get(views.stamp(0))
        for _ in range(200):
            self.assertTrue(self.save(views, 5))
        self.assertIs(views.get(views.stamp(0)), given)
        self.assertEqual(given.find(count=0).total, 0)
        self.assertEqual(len(views), 4)
        self.assertEqual(self.shop.prune(1), 0)

    def test_the_view_that_was_used_least_recently_goes_first(self):
        views = self.views()
        for _ in range(3):
            self.clock.now += 1
            views.get()
            self.save(views, 5)
        self.clock.now += 1
        views.get(views.stamp(0))  # its visitor comes back
        views.get(views.stamp(3))
        self.save(views, 5)
        self.assertEqual([token for token in range(5) if self.is_kept(views, token)], [0, 2, 3, 4])
        with self.assertRaises(Gone) as caught:
            views.get(views.stamp(1))
        self.assertEqual((caught.exception.status, caught.exception.more), (410, {"newest": views.stamp(4)}))

    def test_a_view_that_nobody_uses_goes_by_its_age(self):
        views = self.views(most=50)
        views.get(views.stamp(0))
        self.save(views, OLDEST / 2)
        views.get(views.stamp(1))
        self.save(views, OLDEST / 2 + 1)
        self.assertEqual([token for token in range(3) if self.is_kept(views, token)], [1, 2])
        self.clock.now += 2 * OLDEST
        self.assertTrue(self.is_kept(views, 2))  # the newest stays

    def test_no_visitor_waits_while_a_view_is_made(self):
        views = self.views(every=0.0)
        with views._making:
            thread = threading.Thread(target=views.get, args=(views.stamp(0),))
            thread.start()
            thread.join(5)
            self.assertFalse(thread.is_alive())

    def test_views_that_are_still_read_from_dont_stop_new_ones(self):
        views = self.views(every=0.0, most=56)
        held = []
        for _ in range(150):  # whoever reads on from a view that went holds it
            self.save(views, 1)
            held += [views.current()] if len(held) < 40 else []
        self.assertEqual(views.newest, views.stamp(150))
        self.assertEqual([view.find(count=0).total for view in held], [1] * 40)
        self.assertLessEqual(len(views), 24)  # 64 are recorded, of which these have 40

    def test_a_token_of_another_run_is_gone(self):
        first, second = self.views(), self.views()
        self.assertRaises(Gone, second.get, first.newest)
        for stamp in ("0", "-", "0-", "00-" + second.newest[2:], second.newest + "\n", "٠" + second.newest[1:]):
            self.assertRaises(Gone, second.get, stamp)
        self.assertEqual(second.gone, 7)

    def test_a_token_that_is_a_text_is_opened_wherever_it_was_given(self):
        views = self.views(every=0.0, catalogue=Shelves(self.shop))
        self.assertEqual(views.newest, "at-0")
        self.shop.put(ITEM), self.shop.refresh(), views.make()
        self.shop.put({"id": "b"}), self.shop.refresh()  # by another process, say
        self.assertEqual((views.newest, views.get("at-2").find(count=0).total), ("at-1", 2))
        self.assertIs(views.get("at-2"), views.get("at-2"))
        for stamp in ("at-9", "x" * 500, "at-\n"):
            self.assertRaises(Gone, views.get, stamp)


class Shelves:
    """A catalogue that is read alone, and whose tokens are texts, as one over replicas has them."""

    def __init__(self, shop):
        self._shop = shop
        self.fields = shop.fields

    def open(self, token=None):
        return Shelved(self._shop.open(None if token is None else int(token[3:])))


class Shelved:
    """A view of it."""

    def __init__(self, view):
        self.token = f"at-{view.token}"
        for name in ("find", "answers", "get_many", "source", "close"):
            setattr(self, name, getattr(view, name))


class ReadAlone(support.ShopTest):
    """A service over a catalogue that others write, show and commit."""

    def serve(self, **options):
        service = Service(Shelves(self.shop), Settings(show_every=0.05), **options)
        self.addCleanup(service.close)
        return service

    def test_it_follows_what_others_show(self):
        service = self.serve()
        self.shop.put({"id": "a", "title": "Shoe"}), self.shop.refresh()
        eventually(lambda: service.views.newest == "at-1")
        found = service.search({"words": "sho", "facets": ["color"]}, "at-1")
        self.assertEqual((found["token"], found["total"], found["hits"][0]["item"]), ("at-1", 1, {"id": "a", "title": "Shoe"}))
        self.assertIsNone(service.stat())

    def test_it_is_neither_written_nor_committed(self):
        service = self.serve()
        calls = [
            lambda: service.put(ITEM), lambda: service.delete("a"), lambda: service.delete_where({"query": "*:*"}),
            lambda: service.write_many([ITEM]), service.commit, service.keep, service.show,
        ]  # fmt: skip
        for call in calls:
            with self.assertRaises(Problem) as caught:
                call()
            self.assertEqual(caught.exception.status, 409)
        self.assertEqual(self.shop.stat().writes, 0)

    def test_a_writer_may_stand_beside_it(self):
        service = self.serve(writer=self.shop)
        self.assertEqual(service.put(ITEM), 1)
        self.assertEqual(service.write_many([{"delete": "boot-1"}, {"id": "a", "price": "x"}])[0], 2)
        self.shop.refresh()
        eventually(lambda: service.views.newest == "at-2")

    def test_an_end_of_those_who_answer_is_told_and_lived_through(self):
        service = self.serve()
        with mock.patch.object(Shelves, "open", side_effect=jasminedome.JasminedomeError("no replica")):
            with self.assertLogs("jasminedome.http"):
                eventually(lambda: service.failures)
            self.assertRaises(jasminedome.JasminedomeError, service.view, "at-7")
        self.shop.put(ITEM), self.shop.refresh()
        eventually(lambda: service.views.newest == "at-1")
        self.assertEqual(problem_of(jasminedome.JasminedomeError("no replica")).status, 503)


class Upkeep(support.ShopTest):
    """A service's own thread."""

    def serve(self, **settings):
        service = Service(self.shop, Settings(**settings))
        self.addCleanup(service.close)
        return service

    def test_what_is_written_is_shown_and_committed_in_time(self):
        service = self.serve(show_every=0.05, commit_every=0.3)
        begun = time.monotonic()
        service.put(ITEM)
        eventually(lambda: service.view().find(count=0).total == 1)
        eventually(lambda: service.committed)
        self.assertGreater(time.monotonic() - begun, 0.25)
        self.assertLess(time.monotonic() - begun, 8)

    def test_a_close_commits_what_was_written_and_nothing_else(self):
        for is_written, commits in ((False, 0), (True, 1)):
            service = self.serve(commit_every=900)
            with mock.patch.object(self.shop, "commit", wraps=self.shop.commit) as commit:
                if is_written:
                    service.put(ITEM)
                service.close(), service.close()
            self.assertEqual(commit.call_count, commits)
            self.assertFalse(service.is_open)

    def test_a_refused_write_is_no_write(self):
        service = self.serve(commit_every=900)
        self.assertRaises(jasminedome.WrongKind, service.put, {"id": "a", "price": "x"})
        self.assertRaises(UsageError, service.put, {"id": "a", "price": {1}})
        self.assertIsNone(service._uncommitted)

    def test_a_commit_that_fails_is_made_again(self):
        service = self.serve(show_every=0.05, commit_every=0.05)
        fails = [jasminedome.DeviceFailed(), jasminedome.DeviceFailed()]
        own = self.shop.commit

        def commit(text=""):
            if fails:
                raise fails.pop()
            return own(text)

        with mock.patch.object(self.shop, "commit", commit), self.assertLogs("jasminedome.http"):
            service.put(ITEM)
            eventually(lambda: service.committed)
        self.assertEqual((fails, service.failures), ([], 2))
        self.assertTrue(service.is_open)

    def test_a_view_that_cant_be_made_is_made_again(self):
        service = self.serve(show_every=0.05)
        fails = [jasminedome.OutOfMemory()]
        own = self.shop.refresh

        def refresh():
            if fails:
                raise fails.pop()
            return own()

        with mock.patch.object(self.shop, "refresh", refresh), self.assertLogs("jasminedome.http"):
            service.put(ITEM)
            eventually(lambda: service.view().find(count=0).total == 1)

    def test_many_who_wait_wait_together(self):
        service = self.serve(show_every=0.4, commit_every=900)
        begun, told = time.monotonic(), []

        def write(n):
            number = service.put({"id": f"item-{n}"})
            service.keep()
            told.append(service.view(service.show()).token >= number)

        with mock.patch.object(self.shop, "commit", wraps=self.shop.commit) as commit:
            commit.side_effect = lambda text="": time.sleep(0.05) or mock.DEFAULT  # a disk that is slow
            threads = [threading.Thread(target=write, args=(n,)) for n in range(12)]
            for thread in threads:
                thread.start()
            for thread in threads:
                thread.join(20)
        self.assertEqual(told, [True] * 12)
        self.assertLess(time.monotonic() - begun, 12 * 0.4)
        self.assertLess(commit.call_count, 12)

    def test_show_waits_until_a_view_may_be_made(self):
        service = self.serve(show_every=0.3)
        service.put(ITEM)
        stamp = service.show()
        self.assertEqual(service.view(stamp).find(count=0).total, 1)
        for asked in ({}, {"count": 5}, {"query": "*:*", "sort": "+price"}, [], None):
            self.assertRaises(Problem, service.delete_where, asked)
        service.delete_where({"query": "*:*"})
        self.assertEqual(service.view(service.show()).find(count=0).total, 0)
        self.assertRaises(TokenGone, self.shop.open, 77)


if __name__ == "__main__":
    unittest.main()
