"""The log: each batch once, in one order, and what it takes no more."""

import random
import threading
import time
import unittest
from concurrent.futures import ThreadPoolExecutor

import replicated  # first: it finds the package

import jasminedome
from jasminedome.replicas import (
    Delete,
    DeleteWhere,
    Log,
    LogBehind,
    LogRefused,
    LogUnreachable,
    Mark,
    NotTold,
    Put,
    WrongBatch,
)
from jasminedome.replicas.batches import MAX_WRITE, next_seal
from jasminedome.replicas.gathering import Gathering

TOLD = "INSERT INTO replica VALUES (%s, 'nowhere:1', '0.1.0', %s, 0, 0, %s, %s)"


class Appends(replicated.LogTest):
    def test_a_key_is_appended_once(self):
        told = [self.log.append(["DEL a"], key="k"), self.log.append(["DEL a"], key="k"), self.log.append(["DEL b"])]
        self.assertEqual(told, [1, 1, 2])
        for writes, mark in ((["DEL c"], Mark.NOTHING), (["DEL a"], Mark.VIEW), ([], Mark.NOTHING)):
            with self.assertRaisesRegex(WrongBatch, "used for another"):
                self.log.append(writes, mark, key="k")
        self.assertEqual(self.log.head().position, 2)

    def test_what_no_log_may_hold(self):
        long = "DEL " + "x" * (MAX_WRITE - 4)
        self.assertEqual(self.log.append([long]), 1)
        unfit = ["REFRESH", "PUT {}\nDEL a", "DEL a\r", "DEL a\0", long + "x", "1 PUT {}", "PUT", "DEL \udcff", 5, None]
        for write in unfit:
            with self.subTest(write=write), self.assertRaises(jasminedome.UsageError):
                self.log.append([write])
        with self.assertRaisesRegex(WrongBatch, "bytes, and may have"):
            self.log.append([long] * 110)
        with self.assertRaises(jasminedome.UsageError):
            self.log.put({"id": "a", "price": object()})
        self.assertEqual(self.log.head().position, 1)

    def test_writes_and_their_lines(self):
        with self.log.batch(key="k", show=True) as batch:
            batch.put({"id": "a", "price": 1})
            batch.delete("b")
            batch.delete_where(jasminedome.term("brand", "c"))
        self.assertEqual(batch.position, 1)
        with self.assertRaises(RuntimeError), self.log.batch() as left:
            left.put({"id": "never"})
            raise RuntimeError
        self.log.append([Put('{"id":"d"}'), Delete("e"), DeleteWhere("*:*")])
        self.assertEqual([self.log.put({"id": "f"}), self.log.delete("g"), self.log.delete_where("*:*", show=True)], [3, 4, 5])
        self.assertEqual([self.log.refresh(), self.log.refresh(keep=True)], [6, 7])
        lines = [batch.writes for batch in self.log.batches(0, 10)]
        first = ['PUT {"id":"a","price":1}', "DEL b", 'DELW brand:"c"']
        self.assertEqual(lines[:2], [first, ['PUT {"id":"d"}', "DEL e", "DELW *:*"]])
        marks = [batch.mark for batch in self.log.batches(0, 10)]
        self.assertEqual(marks, [Mark.VIEW, *[Mark.NOTHING] * 3, Mark.VIEW, Mark.VIEW, Mark.ANCHOR])

    def test_many_items_go_on_under_a_key(self):
        items = [{"id": f"item{number}"} for number in range(1_234)]
        self.assertEqual(self.log.put_many(items, key="list"), 3)
        self.assertEqual(self.log.put_many(items, key="list"), 3)
        self.assertEqual([len(batch.writes) for batch in self.log.batches(0, 10)], [500, 500, 234])
        self.assertEqual(self.log.put_many([]), 0)
        self.assertRaises(jasminedome.UsageError, self.log.put_many, {"id": "a"})

    def test_order_has_no_gap_beside_rollbacks(self):
        import psycopg2

        seen, is_over = [], threading.Event()

        def write(writer):
            connection, chance = psycopg2.connect(self.dsn), random.Random(writer)
            for number in range(40):
                self.log.append_in(connection, [f"DEL {writer}"], key=f"{writer} {number}")
                if chance.random() < 0.3:
                    connection.rollback()
                else:
                    connection.commit()
            connection.close()

        def read():
            with Log(self.dsn, self.name) as log:
                while not is_over.is_set():
                    seen.extend(batch.position for batch in log.batches(seen[-1] if seen else 0, 100))

        with ThreadPoolExecutor(9) as threads:
            reader = threads.submit(read)
            try:
                list(threads.map(write, range(8)))
                time.sleep(0.3)
            finally:
                is_over.set()
            reader.result()
        head = self.log.head()
        self.assertEqual(seen, list(range(1, head.position + 1)))
        seal = head.cut_seal
        for batch in self.log.batches(0, 1_000):
            seal = next_seal(seal, batch.mark, batch.lines)
            self.assertEqual(seal, batch.seal)
        self.assertEqual(seal, head.seal)

    def test_threads_gather_and_each_gets_its_own(self):
        def write(writer):
            for number in range(20):
                position = self.log.append([f"DEL {writer}-{number}"], key=f"{writer} {number}")
                told[writer, number] = position
            with self.assertRaises(WrongBatch):
                self.log.append(["DEL other"], key=f"{writer} 0")

        told = {}
        with ThreadPoolExecutor(8) as threads:
            list(threads.map(write, range(8)))
        lines = {batch.position: batch.lines for batch in self.log.batches(0, 1_000)}
        self.assertEqual(sorted(told.values()), list(range(1, 161)))
        for (writer, number), position in told.items():
            self.assertEqual(lines[position], f"DEL {writer}-{number}")

    def test_an_append_goes_with_the_transaction_of_others(self):
        import psycopg2

        connection = psycopg2.connect(self.dsn)
        self.addCleanup(connection.close)
        with connection.cursor() as cursor:
            for ends, count in ((connection.rollback, 0), (connection.commit, 1)):
                cursor.execute("CREATE TEMP TABLE IF NOT EXISTS price (id text)")
                cursor.execute("INSERT INTO price VALUES ('a')")
                self.assertEqual(self.log.append_in(connection, [Put({"id": "a"})]), 1)
                cursor.execute("SELECT current_setting('search_path')")
                self.assertEqual(cursor.fetchone()[0], '"$user", public')
                ends()
                self.assertEqual(self.log.head().position, count)
        with self.assertRaises(WrongBatch):
            self.log.append_in(connection, ["REFRESH"])

    def test_an_append_that_a_crash_may_lose_is_refused(self):
        import psycopg2

        connection = psycopg2.connect(self.dsn, options="-c synchronous_commit=off")
        self.addCleanup(connection.close)
        with self.assertRaisesRegex(psycopg2.Error, "synchronous_commit"):
            self.log.append_in(connection, ["DEL a"])
        self.assertEqual(self.log.head().position, 0)

    def test_a_log_that_is_none(self):
        with self.assertRaises(LogRefused):
            Log.create(self.dsn, {}, self.name)
        with Log(self.dsn, "nothing") as log, self.assertRaises(LogRefused):
            log.put({"id": "a"})
        with Log("host=127.0.0.1 port=9", self.name, patience=0.1) as log, self.assertRaises(LogUnreachable):
            log.put({"id": "a"})
        for name in ("Shop", "1", "a b", "a;b", "", None, "pg_shop"):
            self.assertRaises(jasminedome.UsageError, Log, self.dsn, name)

    def test_fields_and_rules_begin_the_chain(self):
        head = self.log.head()
        self.assertEqual((head.fields, head.rules, head.position), (replicated.FIELDS, "0.1", 0))
        other = replicated.log_of(self.dsn, f"{self.name}b")
        self.assertNotEqual(other.head().seal, head.seal)
        other.close()


class Bounds(replicated.LogTest):
    def test_writers_wait_for_the_slowest_replica(self):
        self.ask("UPDATE head SET most_lead = 5")
        self.log.patience = 0.3
        self.ask(TOLD, "slow", 0, 0, True)
        self.ask(TOLD, "beginning", 0, 0, False)
        for number in range(5):
            self.log.append([f"DEL {number}"])
        with self.assertRaisesRegex(LogBehind, "the slowest replica at 0"):
            self.log.append(["DEL a"], key="late")
        self.assertEqual(self.log.refresh(), 6)
        self.log.patience = 10
        timer = threading.Timer(0.3, self.ask, ["UPDATE replica SET position = 5 WHERE name = 'slow'"])
        timer.start()
        self.assertEqual(self.log.append(["DEL a"], key="late"), 7)
        timer.join()
        self.ask("UPDATE replica SET position = 0, at = at - interval '2 minutes'")
        self.assertEqual([self.log.append(["DEL b"]) for _ in range(6)][-1], 13)

    def test_a_cut_spares_what_is_young_or_needed(self):
        for number in range(10):
            self.log.append([f"DEL {number}"], key=f"k{number}")
        self.ask("UPDATE batch SET at = at - interval '8 days' WHERE position <= 8")
        self.assertEqual(self.log.cut(7), 0)  # no replica has told of a base yet
        self.ask(TOLD, "one", 9, 9, True)
        self.ask(TOLD, "gone", 9, 3, True)
        self.assertEqual(self.log.cut(7), 2)
        self.assertTrue(self.log.forget("gone"))
        self.assertFalse(self.log.forget("gone"))
        self.assertEqual(self.log.cut(7), 8)
        head = self.log.head()
        self.assertEqual((head.cut, head.position), (8, 10))
        self.assertEqual(next_seal(head.cut_seal, Mark.NOTHING, "DEL 8"), self.log.batches(8, 1)[0].seal)
        self.assertEqual(self.log.append(["DEL 9"], key="k9"), 10)

    def test_no_line_is_left_out_that_a_replica_has_applied(self):
        self.log.append(["DEL a", "DEL b"])
        for position, line in ((1, 2), (2, 0), (1, -1)):
            with self.assertRaises(jasminedome.UsageError):
                self.log.skip(position, line, "wrong")
        self.ask(TOLD, "one", 0, 0, True)
        self.log.skip(1, 1, "it ends the program")
        self.assertEqual(self.log.batches(0, 1)[0].skipped, {1})
        self.ask("UPDATE replica SET position = 1")
        with self.assertRaisesRegex(WrongBatch, "one has applied 1"):
            self.log.skip(1, 0, "too late")

    def test_an_outcome_waits_for_a_replica(self):
        self.log.append(["DEL a", "PUT {}", "DEL b"])
        with self.assertRaises(NotTold):
            self.log.outcome(1, patience=0.1)
        self.ask("INSERT INTO refused VALUES (1, 1, 14)")
        self.ask(TOLD, "one", 1, 0, True)
        told = self.log.outcome(1)
        self.assertEqual((told.accepted, list(told.refused)), (2, [1]))
        self.assertIsInstance(told.refused[1], jasminedome.BadId)
        self.ask("UPDATE replica SET position = 9")
        self.assertRaises(jasminedome.UsageError, self.log.outcome, 5)


class Gathered(unittest.TestCase):
    def test_an_interrupt_leaves_the_others_to_another_thread(self):
        begun, is_free, asked = threading.Event(), threading.Event(), []

        def work(given):
            asked.append(list(given))
            begun.set()
            is_free.wait(10)
            if "interrupted" in given:
                raise KeyboardInterrupt
            return [each.upper() for each in given]

        gathering = Gathering(work, 10, WrongBatch)
        told = {}

        def call(name):
            try:
                told[name] = gathering.do(name)
            except KeyboardInterrupt:
                told[name] = None

        threads = [threading.Thread(target=call, args=(name,)) for name in ("first", "interrupted", "other")]
        threads[0].start()
        begun.wait(10)
        for thread in threads[1:]:
            thread.start()
        while len(gathering._waiting) < 2:
            time.sleep(0.001)
        is_free.set()
        for thread in threads:
            thread.join(10)
            self.assertFalse(thread.is_alive())
        self.assertEqual(told["first"], "FIRST")
        self.assertEqual({told["interrupted"], told["other"]} - {"OTHER"}, {None})
        self.assertEqual(asked[0], ["first"])


if __name__ == "__main__":
    unittest.main()
