"""The child and its lines: ends, refusals, many threads, forgotten views, speed."""

import gc
import itertools
import os
import signal
import sys
import threading
import time
import unittest

import support  # first: it finds the package

import jasminedome
from jasminedome import BadReply, ProgramEnded, UsageError


class Replies(unittest.TestCase):
    def test_each_refusal_has_its_class(self):
        numbers = sorted(jasminedome.REFUSALS)
        self.assertEqual(numbers, [*range(10, 17), *range(20, 32), 40])
        for number in numbers:
            place = 7 if number == 24 else None
            with support.scripted(f"1 NO {number}" + ("" if place is None else " 7")) as shop:
                with self.assertRaises(jasminedome.REFUSALS[number]) as caught:
                    shop.refresh()
            error = caught.exception
            self.assertEqual((type(error), error.number, error.place), (jasminedome.REFUSALS[number], number, place))
            self.assertIn(error.text, str(error))

    def test_unknown_refusals_and_unread_lines(self):
        with support.scripted("1 NO 99", "? NO 10") as shop:
            with self.assertRaises(jasminedome.Refusal) as caught:
                shop.refresh()
            self.assertEqual((type(caught.exception), caught.exception.number), (jasminedome.Refusal, 99))
            self.assertRaises(jasminedome.BadLine, shop.refresh)

    def test_a_reply_that_is_none(self):
        for reply in ("2 OK 1", "1 MAYBE", "1 NO", "1 NO x", "", "1 OKAY", "\udcff"):
            with support.scripted(reply, "1 OK 2") as shop:
                with self.subTest(reply=reply):
                    self.assertRaises((BadReply, ProgramEnded), shop.refresh)
                    self.assertRaises((BadReply, ProgramEnded), shop.refresh)
        for reply in ("1 OK x", "1 OK ", "1 OK 1 2"):
            with support.scripted(reply) as shop:
                self.assertRaises(BadReply, shop.open)
        finds = ("1 OK x 1", "1 OK 1 x\n1 1 a .", "1 OK 1 1\n1 1 a", "1 OK 1 1\n2 1 a .", "1 OK -1 1")
        for replies in (*((find,) for find in finds), ()):
            with support.scripted("1 OK 1", *replies) as shop, shop.open() as view:
                self.assertRaises((BadReply, ProgramEnded), view.find)

    def test_a_reply_in_pieces(self):
        code = "import os,sys,time\n"
        code += "for piece in (b'O', b'K 0', b'\\n', None, b'1', b' OK 5', b'\\n', None, b'1 OK 6\\n', None):\n"
        code += "    os.write(1, piece) if piece else os.read(0, 1000)\n    time.sleep(0.02)\n"
        with jasminedome.Catalogue({}, program=[sys.executable, "-c", "import os; os.read(0, 1000)\n" + code]) as shop:
            self.assertEqual((shop.refresh(), shop.refresh()), (5, 6))

    def test_a_reply_that_nobody_asked_for(self):
        code = "import os\nos.read(0, 1000)\nos.write(1, b'OK 0\\n1 OK 5\\n')\nwhile os.read(0, 1000): pass"
        with self.assertRaises(BadReply):
            with jasminedome.Catalogue({}, program=[sys.executable, "-c", code]) as shop:
                shop._program._reader.join(10)
                shop.refresh()


class Ends(unittest.TestCase):
    def test_a_program_that_is_none(self):
        self.assertRaises(ProgramEnded, jasminedome.Catalogue, {}, program="/no/such/program")
        with self.assertRaises(ProgramEnded) as caught:
            jasminedome.Catalogue({}, program=[sys.executable, "-c", "import sys; sys.exit('usage: none')"])
        self.assertEqual((caught.exception.status, caught.exception.said), (1, "usage: none"))

    def test_a_child_killed_between_calls(self):
        with support.shop() as shop:
            view = shop.open()
            os.kill(shop.pid, signal.SIGKILL)
            with self.assertRaises(ProgramEnded):
                while True:
                    shop.put({"id": "a"})
            with self.assertRaises(ProgramEnded) as caught:
                view.find()
            self.assertEqual(caught.exception.status, -signal.SIGKILL)
            self.assertRaises(ProgramEnded, shop.put_many, [{"id": "a"}] * 2_000)
            view.close()

    def test_a_child_killed_in_mid_call(self):
        code = "import sys,time\nsys.stdin.readline()\nprint('OK 0', flush=True)\nsys.stdin.readline()\ntime.sleep(600)"
        with jasminedome.Catalogue({}, program=[sys.executable, "-c", code]) as shop:
            errors = []
            calls = [lambda: shop.put({"id": "a"}), lambda: shop.put_many([{"id": "a" * 60}] * 100_000), shop.open]
            self.killed_under(shop, [threading.Thread(target=self.catch, args=(call, errors)) for call in calls])
        self.assertEqual([type(error) for error in errors], [ProgramEnded] * 3)

    def test_a_child_killed_under_eight_threads(self):
        with support.shop() as shop:
            errors = []
            begun = threading.Barrier(9)

            def call():
                begun.wait()
                while True:
                    shop.put({"id": "a", "price": 1})
                    shop.refresh()
                    with shop.open() as view:
                        view.find(sort="+price")

            self.killed_under(shop, [threading.Thread(target=self.catch, args=(call, errors)) for _ in range(8)], begun.wait)
        self.assertEqual([(type(error), error.status) for error in errors], [(ProgramEnded, -signal.SIGKILL)] * 8)

    def killed_under(self, shop, threads, wait=lambda: None):
        """Kills the program while threads are at it, each of which has to end then."""
        for thread in threads:
            thread.start()
        wait()
        time.sleep(0.3)
        os.kill(shop.pid, signal.SIGKILL)
        for thread in threads:
            thread.join(20)
            self.assertFalse(thread.is_alive())

    def catch(self, call, errors):
        try:
            call()
        except jasminedome.JasminedomeError as error:
            errors.append(error)

    def test_closed(self):
        shop = support.shop()
        view = shop.open()
        shop.close()
        shop.close()
        self.assertRaises(UsageError, shop.refresh)
        self.assertRaises(UsageError, view.find)
        view.close()

    def test_a_forgotten_catalogue_ends_its_program(self):
        shop = support.shop()
        child = shop._program._child
        del shop
        gc.collect()
        self.assertEqual(child.wait(10), 0)


class Threads(support.ShopTest):
    def test_forgotten_views_are_closed(self):
        for n in range(200):
            self.shop.put({"id": "a", "price": n})
            self.shop.refresh()
            self.shop.open().find()
        sessions = self.shop._sessions
        self.assertLess(next(sessions._fresh), 10)

    def test_sessions_end(self):
        self.shop._sessions._fresh = itertools.count(9_990)
        views = []
        with self.assertRaises(UsageError):
            while True:
                views.append(self.shop.open())
        self.assertEqual(len(views), 10)
        views.pop().close()
        self.shop.open().close()

    def test_sessions_of_threads_that_ended_are_free(self):
        for _ in range(20):
            thread = threading.Thread(target=self.shop.refresh)
            thread.start()
            thread.join()
        self.assertLess(next(self.shop._sessions._fresh), 5)


class Speed(unittest.TestCase):
    def test_put_many_keeps_the_pipe_full(self):
        items = [{"id": f"item-{n}", "title": "Red running shoe", "brand": "Acme", "price": n} for n in range(50_000)]
        with jasminedome.Catalogue(support.FIELDS, program=[*support.FAKE, "swift"]) as shop:
            began, spent = time.perf_counter(), time.process_time()
            told = shop.put_many(items)
            spent, took = time.process_time() - spent, time.perf_counter() - began
        self.assertEqual(told.accepted, len(items))
        told_spent, told_took = f"{len(items) / spent:,.0f}", f"{len(items) / took:,.0f}"
        print(f"\nput_many: {told_spent} items a second of the client's processor, {told_took} by the clock")
        self.assertLess(spent, 5, "seconds of processor for 50,000 items: ten times what they take")


if __name__ == "__main__":
    unittest.main()
