"""The journal: what was answered outlives a kill, in order and once, whatever a crash cut short."""

import os
import signal
import threading
import time
import unittest
from pathlib import Path
from unittest import mock

import support  # first: it finds the package
from serving import PYTHON, WANTING, Server

import jasminedome
from jasminedome import Journal, UsageError
from jasminedome.errors import Damaged, DeviceFailed, FolderInUse, OutOfMemory, Timeout


class JournalTest(support.FileTest):
    def setUp(self):
        super().setUp()
        self.folder.mkdir(parents=True)
        self.kept = self.room / "journal"

    def open(self, **options):
        shop = jasminedome.Catalogue(support.FIELDS, self.folder, program=support.PROGRAM, **options)
        self.addCleanup(shop.close)
        return shop

    def journal(self):
        shop = self.open()
        try:
            journal = Journal(shop, self.kept)
        except BaseException:
            shop.close()
            raise
        self.addCleanup(journal.close)
        return journal

    def kill(self, journal):
        """Ends the program as a kill does; nothing more is written."""
        journal.close()
        os.kill(journal._catalogue.pid, signal.SIGKILL)
        journal._catalogue.close()

    def shown(self, journal):
        journal.refresh()
        with journal.open() as view:
            return [(hit.id, hit.key) for hit in view.find(sort="+price")]

    def files(self):
        return sorted(path.name for path in self.kept.iterdir())


class Replayed(JournalTest):
    def test_what_wasnt_committed_is_said_again(self):
        journal = self.journal()
        self.assertEqual([journal.put({"id": each, "price": n}) for n, each in enumerate("abcd")], [1, 2, 3, 4])
        self.assertRaises(jasminedome.WrongKind, journal.put, {"id": "e", "price": "x"})
        journal.delete("b")
        journal.commit("half")
        self.assertEqual((journal.put({"id": "a", "price": 9}), journal.delete_where("price:3")), (6, 7))
        self.kill(journal)
        journal = self.journal()
        self.assertEqual((journal.replayed, journal.stat().writes), (2, 7))
        self.assertEqual(self.shown(journal), [("c", 2), ("a", 9)])
        self.kill(journal)
        journal = self.journal()  # and again, since nothing was committed meanwhile
        self.assertEqual((journal.replayed, self.shown(journal)), (2, [("c", 2), ("a", 9)]))
        journal.commit()
        self.kill(journal)
        self.assertEqual(self.journal().replayed, 0)

    def test_a_commit_lets_the_lines_before_it_go(self):
        journal = self.journal()
        for n in range(3):
            journal.say_many([f'PUT {{"id":"item-{m}","price":{n}}}' for m in range(700)])
            journal.commit(f"turn {n}")
            self.assertEqual(self.files(), [f"{700 * (n + 1):020}.journal"])
        with journal.snapshot() as kept:
            self.assertRegex(journal._catalogue.note(kept.generation), r"^turn 2 \[journal [0-9a-f]{16} 2100\]$")

    def test_every_write_of_many_threads_comes_back_in_order(self):
        journal = self.journal()

        def write(price):
            for n in range(20):
                journal.put({"id": f"item-{n}", "price": price})

        threads = [threading.Thread(target=write, args=(price,)) for price in range(6)]
        for thread in threads:
            thread.start()
        for thread in threads:
            thread.join()
        before = self.shown(journal)
        self.kill(journal)
        journal = self.journal()
        self.assertEqual((journal.replayed, self.shown(journal)), (120, before))

    def test_those_who_wait_for_the_disk_wait_together(self):
        journal = self.journal()
        journal.put({"id": "first"})  # so that there is a file
        syncs = []

        def sync(_):
            syncs.append(time.sleep(0.02))

        with mock.patch("os.fdatasync", sync):
            threads = [threading.Thread(target=lambda n=n: journal.put({"id": f"item-{n}", "price": n})) for n in range(30)]
            for thread in threads:
                thread.start()
            for thread in threads:
                thread.join()
        self.assertLess(len(syncs), 25)
        before = self.shown(journal)
        self.kill(journal)
        journal = self.journal()
        self.assertEqual((journal.replayed, self.shown(journal)), (31, before))

    def test_one_that_is_refused_refuses_no_other(self):
        journal = self.journal()
        told = []
        items = [{"id": f"item-{n}", "price": n if n % 3 else "x"} for n in range(30)]

        def write(item):
            try:
                told.append(journal.put(item))
            except jasminedome.WrongKind as error:
                told.append(error.detail)

        threads = [threading.Thread(target=write, args=(item,)) for item in items]
        for thread in threads:
            thread.start()
        for thread in threads:
            thread.join()
        self.assertEqual(sorted(each for each in told if isinstance(each, int)), list(range(1, 21)))
        self.assertEqual([each for each in told if not isinstance(each, int)], ['price is "x"'] * 10)

    def test_an_interrupt_leaves_nobody_waiting(self):
        journal = self.journal()
        with mock.patch.object(journal._catalogue, "say_many", side_effect=KeyboardInterrupt):
            self.assertRaises(KeyboardInterrupt, journal.put, {"id": "a"})
        self.assertEqual(journal.put({"id": "b"}), 1)
        self.kill(journal)
        self.assertEqual(sorted(id for id, _ in self.shown(self.journal())), ["a", "b"])  # of a nobody knows

    def test_a_loaded_folder_gets_a_journal(self):
        with self.open() as shop:
            shop.put({"id": "a", "price": 1})
            shop.commit("load")
        journal = self.journal()
        journal.put({"id": "b", "price": 2})
        self.kill(journal)
        self.assertEqual(self.shown(self.journal()), [("a", 1), ("b", 2)])


class Cut(JournalTest):
    """What a crash may leave, or somebody made of the files."""

    def written(self, *ids):
        journal = self.journal()
        for each in ids:
            journal.put({"id": each, "price": 1})
        self.kill(journal)
        return self.kept / self.files()[-1]

    def test_a_line_that_was_cut_short_was_never_answered(self):
        file = self.written("a", "b")
        whole = file.read_bytes()
        last = whole.rindex(b"\n", 0, -1) + 1
        for size in range(last, len(whole)):
            file.write_bytes(whole[:size])
            journal = self.journal()
            self.assertEqual((journal.replayed, self.shown(journal)), (1, [("a", 1)]), size)
            self.assertEqual(journal.put({"id": "c", "price": 1}), 2)
            self.kill(journal)
            self.assertEqual(file.read_bytes()[:last], whole[:last])
        for rest in (b"\0" * 70, whole[last:][::-1]):
            file.write_bytes(whole[:last] + rest)
            journal = self.journal()
            self.assertEqual(journal.replayed, 1)
            self.kill(journal)

    def test_damage_is_told(self):
        file = self.written("a", "b")
        whole = file.read_bytes()
        for place in (0, 25, whole.index(b"PUT"), whole.index(b"\n") + 1):
            file.write_bytes(whole[:place] + b"?" + whole[place + 1 :])
            self.assertRaises(Damaged, self.journal)
        file.write_bytes(whole)
        self.assertEqual(self.journal().replayed, 2)

    def test_a_file_that_is_missing_is_told(self):
        file = self.written("a")
        journal = self.journal()
        journal.commit()
        journal.put({"id": "b"})
        self.kill(journal)
        newest = self.kept / self.files()[-1]
        newest.rename(newest.with_name(f"{7:020}.journal"))
        self.assertRaises(Damaged, self.journal)
        self.assertFalse(file.exists())

    def test_a_journal_of_another_folder_is_refused(self):
        self.written("a")
        journal = self.journal()
        journal.commit()
        journal.put({"id": "b"})
        self.kill(journal)
        self.folder = self.room / "another"
        self.folder.mkdir()
        with self.assertRaisesRegex(UsageError, "the folder has none"):
            self.journal()
        with self.open() as shop:
            shop.put({"id": "z"})
            shop.commit("x [journal 0123456789abcdef 1]")
        with self.assertRaisesRegex(UsageError, "isn't that of"):
            self.journal()

    def test_a_commit_past_the_journal_is_told(self):
        self.written("a")
        with self.open() as shop:
            shop.put({"id": "b"})
            shop.commit("load items.csv")
        with self.assertRaisesRegex(UsageError, "made past the journal"):
            self.journal()

    def test_a_journal_that_was_lost_begins_where_the_commit_ends(self):
        journal = self.journal()
        journal.put({"id": "a"}), journal.commit()
        self.kill(journal)
        for path in self.kept.iterdir():
            path.unlink()
        journal = self.journal()
        journal.put({"id": "b"})
        self.assertEqual(self.files(), [f"{1:020}.journal"])


class Refused(JournalTest):
    def test_what_failed_by_chance_isnt_said_again(self):
        journal = self.journal()
        shop = journal._catalogue
        with mock.patch.object(shop, "say_many", side_effect=lambda lines: [OutOfMemory() for _ in lines]):
            self.assertRaises(OutOfMemory, journal.put, {"id": "a"})
        with mock.patch.object(shop, "say_many", side_effect=Timeout(1.0, was_sent=False)):
            self.assertRaises(Timeout, journal.put, {"id": "b"})
        with mock.patch.object(shop, "say_many", side_effect=Timeout(1.0, was_sent=True)):
            self.assertRaises(Timeout, journal.put, {"id": "c"})
        journal.put({"id": "d", "price": 1})
        self.kill(journal)
        journal = self.journal()
        self.assertEqual(sorted(id for id, _ in self.shown(journal)), ["c", "d"])

    def test_a_journal_whose_disk_fails_takes_no_more(self):
        journal = self.journal()
        with mock.patch("os.fdatasync", side_effect=OSError("no disk")):
            self.assertRaises(DeviceFailed, journal.put, {"id": "a"})
        self.assertRaises(DeviceFailed, journal.put, {"id": "b"})
        self.assertEqual(journal.stat().writes, 0)

    def test_what_cant_be_said_has_no_place(self):
        journal = self.journal()
        for said in ("COMMIT", 'PUT {"id":"a"}\nCOMMIT', "PUT " + "x" * 10_000, 5, "DEL a\r"):
            self.assertRaises(UsageError, journal.say_many, [said])
        self.assertEqual(self.files(), [])

    def test_where_a_journal_cant_be(self):
        with jasminedome.Catalogue(support.FIELDS, program=support.PROGRAM) as shop:
            self.assertRaises(UsageError, Journal, shop, self.kept)
        shop = self.open()
        self.assertRaises(UsageError, Journal, shop, self.folder)
        self.assertRaises(UsageError, Journal, shop, 5)
        with Journal(shop, self.kept):
            self.assertRaises(FolderInUse, Journal, shop, self.kept)
        Journal(shop, self.kept).close()


@unittest.skipUnless(PYTHON, WANTING)
class Served(JournalTest):
    def test_a_service_that_is_killed_loses_nothing_that_it_answered(self):
        said = ["--folder", self.folder, "--journal", self.kept, "--commit-every", "900"]
        server = Server(*said)
        self.addCleanup(server.stop)
        for n in range(30):
            server.put({"id": f"item-{n}", "price": n}, show=False)
        bulk = '{"id":"bulk","price":77}\n{"delete":"item-3"}\n'
        status, told = server.ask("POST", "/items", bulk, content_type="application/x-ndjson")
        self.assertEqual((status, [each["write"] for each in told]), (200, [31, 32]))
        server.stop(signal.SIGKILL)  # its program sees the end of its input, and has the folder until then
        server = Server(*said, fields=True)
        self.addCleanup(server.stop)
        self.assertEqual(server.said, f"32 writes said again from {self.kept}\n")
        found = server.search(sort="-price", count=100)
        self.assertEqual((found["total"], found["hits"][0]["id"]), (30, "bulk"))
        self.assertRegex(" ".join(path.name for path in self.kept.iterdir()), r"^0{18}32\.journal$")  # they are committed now
        self.assertEqual(server.stop(), 0)
        self.assertEqual(len(list(Path(self.kept).iterdir())), 1)


if __name__ == "__main__":
    unittest.main()
