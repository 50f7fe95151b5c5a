"""Replicas of one log: they show the same, whoever is killed, and stop where they can't."""

import os
import random
import re
import signal
import sys
import threading
import time
import unittest
import unittest.mock

import replicated  # first: it finds the package
from replicated import FAKE, FLAKY, PROGRAM, dump, puts

import jasminedome
from jasminedome.replicas import Delete, Mark, NoReplica, Put, Skipped, TokenLost
from jasminedome.replicas.digests import outvoted

SOON = "20,0.1"  # a base behind 20 writes, or 0.1 seconds


class Alike(replicated.LogTest):
    def test_a_page_outlives_its_replica(self):
        one, two = self.node("one", every=SOON), self.node("two", every=SOON)
        for number in range(20):
            writes = [*puts(*range(number * 20, number * 20 + 20)), 'PUT {"id":"x","price":"cheap"}']
            position = self.log.append(writes, Mark.ANCHOR)
        told = [node.wait(position) for node in (one, two)]
        tokens = told[0]["tokens"]
        self.assertEqual((told[1]["tokens"], len(tokens), tokens[-1]), (tokens, 20, 400))
        self.assert_alike((one, two), tokens[::6])
        view = self.shelves(one, two).open(tokens[3])
        pages = view.pages(sort="+price", count=10)
        seen = [next(pages) for _ in range(3)]
        self.log.append(["DELW *:*"], Mark.VIEW)
        one.kill()
        seen += pages
        self.assertEqual(sum(map(len, seen)), 80)
        self.assertEqual(seen, list(self.shelves(two).open(tokens[3]).pages(sort="+price", count=10)))
        one.start()
        self.assertEqual(one.wait(position + 1)["tokens"], two.wait(position + 1)["tokens"])
        self.assert_alike((one, two), tokens[3:9:2])

    def test_what_a_writer_wrote_can_be_read(self):
        one, two = self.node("one"), self.node("two")
        shelves = self.shelves(one, two)
        with self.log.batch(show=True) as batch:
            batch.put({"id": "mine", "price": 5})
        view = shelves.open(after=batch.position, on=2)
        self.assertEqual((view.get("mine"), view.position), ({"id": "mine", "price": 5}, batch.position))
        position = self.log.append([Delete("mine")], Mark.ANCHOR)
        self.assertIsNone(shelves.open(after=position).get("mine"))
        self.assertEqual(view.get("mine"), {"id": "mine", "price": 5})
        self.assertEqual(shelves.open().position, position)
        told = self.log.outcome(self.log.append([Put({"id": "a"}), Put({"id": "", "price": "cheap"})]))
        self.assertEqual((told.accepted, type(told.refused[1])), (1, jasminedome.BadId))

    def test_postgresql_is_stopped_and_started(self):
        one = self.node("one")
        token = one.wait(self.log.append(puts(1), Mark.ANCHOR))["newest"]["stamp"]
        shelves = self.shelves(one)
        self.cluster.stop()
        starter = threading.Timer(0.5, self.cluster.start)
        starter.start()
        self.assertEqual(shelves.open(token).find().total, 1)
        position = self.log.append(puts(2), Mark.ANCHOR, key="over")
        starter.join()
        self.assertEqual(self.log.append(puts(2, rng=random.Random(0)), Mark.ANCHOR, key="other"), position + 1)
        self.assertEqual(one.wait(position + 1)["newest"]["token"], 3)

    def test_marks_come_by_themselves_and_once(self):
        nodes = [self.node(name, pulse="0.2s,1s,1h") for name in ("one", "two", "three")]
        for node in nodes:
            node.status()
        count, until = 0, time.monotonic() + 2.5
        while time.monotonic() < until:
            position = self.log.append(puts(count))
            count += 1
            time.sleep(0.02)
        for node in nodes:
            node.wait(position)
        time.sleep(1.5)
        marks = [mark for (mark,) in self.ask("SELECT mark::text FROM batch WHERE mark <> '-' ORDER BY position")]
        self.assertEqual([node.status()["anchor"]["token"] for node in nodes], [count] * 3)
        anchors = [mark for mark in marks if mark != "r"]
        self.assertTrue(2 <= len(anchors) <= 5 and 6 <= len(marks) <= 18, marks)
        self.assertEqual(anchors, ["d", *["a"] * (len(anchors) - 1)])
        head = self.log.head().position
        time.sleep(0.8)
        self.assertEqual(self.log.head().position, head)  # a quiet shop gets none

    def test_the_window_is_a_function_of_the_log(self):
        one, two = self.node("one"), self.node("two")
        for node in (one, two):
            node.until("is_ready")
        chance = random.Random(1)
        for number in range(250):
            writes = puts(number) if chance.random() < 0.8 else []
            position = self.log.append(writes, chance.choice([Mark.NOTHING, Mark.VIEW, Mark.ANCHOR]))
        position = self.log.refresh()
        tokens = one.wait(position)["tokens"]
        self.assertEqual(two.wait(position)["tokens"], tokens)
        self.assertTrue(40 < len(tokens) <= 56, tokens)
        for node in (one, two):
            node.kill()
        self.assertEqual([node.start().wait(position)["tokens"] for node in (one, two)], [tokens] * 2)


class Troubles(replicated.LogTest):
    def test_a_lost_end_is_noticed(self):
        one = self.node("one", every="1,0.1")
        self.log.append(puts(1), Mark.ANCHOR)
        head = self.log.head()
        stamp = one.wait(self.log.append(puts(2), Mark.ANCHOR))["newest"]["stamp"]
        self.assertEqual(self.shelves(one).open(stamp).find().total, 2)
        self.ask("DELETE FROM batch WHERE position = 2")
        self.ask("UPDATE head SET position = 1, seal = %s", head.seal)
        self.log.append(puts(3), Mark.ANCHOR)
        self.assertRegex(one.until("failed"), "LogDiffers: at 2 the log has")
        two = self.node("two")
        two.wait(2)
        self.assertEqual(self.shelves(two).open(2).find().total, 2)  # 2 is a token there too, but of another past
        with self.assertRaises(TokenLost):
            self.shelves(two, patience=0.2).open(stamp)
        self.assertRaises(NoReplica, self.shelves(one, patience=0.2).open)
        one.stop()
        one.start()  # its base lies behind the end that the log has
        self.assertRegex(one.until("failed"), "LogDiffers: the base at 2 has another past")

    def test_a_folder_of_another_log_is_refused(self):
        one = self.node("one", every="1,0.1")
        one.wait(self.log.append(puts(1), Mark.ANCHOR))
        one.until("bases")
        one.kill()
        self.ask("UPDATE head SET id = '0123456789abcdef'")
        one.start()
        self.assertRegex(one.until("failed"), "of another log")

    def test_other_rules_are_refused(self):
        self.ask("UPDATE head SET rules = '7.5'")
        one = self.node("one")
        self.assertRegex(one.until("failed"), r"rules 7\.5, and the program [0-9.]+ of 0\.1")

    def test_changed_bytes_are_noticed(self):
        self.log.append(puts(1), Mark.ANCHOR)
        self.ask("UPDATE batch SET lines = 'DEL other'")
        self.assertRegex(self.node("one").until("failed"), "bytes aren't those of its seal")

    def test_a_refusal_of_one_replica_alone_leaves_no_trace(self):
        with unittest.mock.patch.dict(os.environ, {"FLAKY": "0.003", "FLAKY_ONCE": str(self.room / "once")}):
            one = self.node("one", program=FLAKY, every=SOON)
        two = self.node("two", program=FAKE)
        for number in range(50):
            position = self.log.append(puts(*range(number * 5, number * 5 + 5)), Mark.ANCHOR)
        told = [node.wait(position, 60) for node in (one, two)]
        self.assertEqual([each["newest"]["token"] for each in told], [250, 250])
        self.assertGreater(told[0]["starts"], 1)
        self.assertEqual(told[0]["tokens"], told[1]["tokens"])
        self.assert_alike((one, two), told[0]["tokens"][::10])

    def test_a_line_that_ends_every_program_is_left_out(self):
        one, two = self.node("one", program=FLAKY), self.node("two", program=FLAKY)
        before = self.log.append(puts(1, 2), Mark.ANCHOR)
        deadly = self.log.append([*puts(3), 'PUT {"id":"deadly"}', *puts(4)], Mark.ANCHOR)
        self.assertEqual([node.until("stuck") for node in (one, two)], [[deadly, 1]] * 2)
        self.assertRegex(one.said.read_text(), f"ends at line 1 of {deadly}")
        self.log.skip(deadly, 1, "it ends the program")
        told = [node.until_it("is free", lambda told: told["shown"] == deadly and not told["stuck"]) for node in (one, two)]
        self.assertEqual([(each["newest"]["token"], each["trouble"]) for each in told], [(4, None)] * 2)
        self.assert_alike((one, two), told[0]["tokens"])
        outcome = self.log.outcome(deadly)
        self.assertEqual((outcome.accepted, type(outcome.refused[1])), (2, Skipped))
        self.assertEqual(told[0]["tokens"], [2, 4], before)

    def test_a_replica_that_hangs_is_passed_over(self):
        one, two = self.node("one"), self.node("two")
        position = self.log.append(puts(1), Mark.ANCHOR)
        token = [node.wait(position) for node in (one, two)][0]["newest"]["stamp"]
        shelves = self.shelves(one, two, silence=0.3)
        view = shelves.open(token)
        one.process.send_signal(signal.SIGSTOP)
        begun = time.monotonic()
        for _ in range(50):
            self.assertEqual(view.find().total, 1)
        took = time.monotonic() - begun
        one.process.send_signal(signal.SIGCONT)
        self.assertLess(took, 1.5)
        self.assertEqual(shelves.moved, 1)

    def test_one_that_shows_something_else_stops(self):
        nodes = [self.node(name) for name in ("one", "two", "three")]
        position = self.log.append(puts(*range(10)), Mark.ANCHOR)
        for node in nodes:
            node.wait(position)
        self.ask("INSERT INTO view VALUES (%s, 999, '0', 'another')", position + 1)
        self.log.append(puts(10), Mark.VIEW)
        for node in nodes:
            self.assertRegex(node.until("failed"), "Diverged: at 2 this is at")

    def test_a_digest_is_a_matter_of_most(self):
        told = {"one": "a", "two": "a", "three": "b"}
        self.assertEqual([outvoted(name, told) for name in (*told, "none")], [False, False, True, False])
        self.assertFalse(outvoted("one", {"one": "a", "two": "b"}))
        self.assertFalse(outvoted("one", {"one": "a"}))


class Folders(replicated.LogTest):
    def test_a_cut_and_a_replica_that_begins_from_another(self):
        one = self.node("one", every="10,0.1")
        for number in range(110):
            position = self.log.append(puts(number), Mark.ANCHOR)
            time.sleep(0.005)
        told = one.wait(position)
        window = [row[0] for row in self.ask("SELECT position FROM batch WHERE mark = 'a' ORDER BY position DESC LIMIT 48")]
        until = time.monotonic() + 20
        while self.log.cut(0) == 0 and time.monotonic() < until:
            time.sleep(0.1)
        cut = self.log.head().cut
        self.assertTrue(0 < cut < min(window), (cut, min(window)))
        two = self.node("two")
        self.assertEqual(two.wait(position)["tokens"], told["tokens"])
        self.assert_alike((one, two), told["tokens"][::20])
        for node in (one, two):
            node.kill()
        self.assertRegex(self.node("three").until("failed"), "was cut up to")
        for node in (one, two):
            self.assertEqual(node.start().wait(position)["tokens"], told["tokens"])

    def test_no_cut_takes_what_brings_a_token_back(self):
        one = self.node("one", every="20,60")
        for number in range(3):
            self.log.append(puts(number), Mark.ANCHOR)
        position = self.log.append(puts(*range(3, 30)), Mark.ANCHOR)
        told = one.until_it("has a base", lambda told: told["bases"] == [position])
        self.log.append(puts(0))
        one.until_it("has told", lambda _: any(each.position == position + 1 for each in self.log.replicas()))
        self.assertEqual((self.log.replicas()[0].base, self.log.cut(0)), (0, 0))
        one.kill()
        self.assertEqual(one.start().wait(position)["tokens"], told["tokens"])

    def test_a_damaged_base_is_put_aside(self):
        one = self.node("one", every="1,0", newest=True)
        for number in range(6):
            position = self.log.append(puts(*range(number * 5, number * 5 + 5)), Mark.ANCHOR)
            told = one.until_it("has its base", lambda told: position in told["bases"])
        before = dump(one.address, told["newest"]["token"])
        self.assertGreater(len(told["bases"]), 2)
        one.kill()
        last, middle = [one.folder / f"base-{each}" for each in told["bases"][-1:-3:-1]]
        cut_short(sorted(last.glob("segments_*"))[-1])
        if PROGRAM != FAKE:
            cut_short(sorted(middle.glob("_*.seg"))[0])
        one.start()
        after = one.wait(position)
        self.assertEqual(dump(one.address, after["newest"]["token"]), before)
        self.assertLess(len(after["tokens"]), len(told["tokens"]))  # those before the base are left to others
        self.assertEqual(len(list(one.folder.glob("bad-*"))), 1 if PROGRAM == FAKE else 2)

    def test_a_folder_has_one_replica(self):
        one = self.node("one")
        one.wait(self.log.append(puts(1), Mark.ANCHOR))
        other = replicated.Node(self.dsn, self.name, self.room, "one").start()
        self.assertEqual(other.process.wait(20), 2)
        self.assertIn("another program works over the folder", other.said.read_text())
        self.assertIn("by another replica", other.said.read_text())

    def test_a_program_and_its_successor_never_both_run(self):
        one = self.node("one", program=[sys.executable, str(replicated.HERE / "lingering.py"), *PROGRAM])
        position = self.log.append(puts(1), Mark.ANCHOR)
        orphan = one.wait(position)["process"]
        one.kill()
        one.start()
        two = one.wait(position)["process"]
        self.assertNotEqual(two, orphan)
        spans = [line.split() for line in (one.folder.parent / "spans").read_text().splitlines()]
        self.assertEqual([what for what, _ in spans], ["begun", "ended", "begun"])

    def test_a_killed_program_comes_back(self):
        one = self.node("one", every=SOON)
        for number in range(10):
            position = self.log.append(puts(number), Mark.ANCHOR)
        tokens = one.wait(position)["tokens"]
        self.assertTrue(one.kill_program())
        position = self.log.append(puts(10), Mark.ANCHOR)
        told = one.wait(position)
        self.assertEqual((told["tokens"], told["starts"]), ([*tokens, 11], 2))


def cut_short(file):
    data = file.read_bytes()
    file.unlink()  # its bytes are shared with other bases
    file.write_bytes(data[: len(data) // 2])


if __name__ == "__main__":
    unittest.main()
