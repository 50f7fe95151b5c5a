"""The parts of replicas, each by itself and without PostgreSQL."""

import asyncio
import contextlib
import socket
import sys
import tempfile
import unittest
import unittest.mock
from pathlib import Path

import replicated  # first: it finds the package
from replicated import FAKE

import jasminedome
from jasminedome.errors import BadReply, ProgramEnded, WrongKind
from jasminedome.replicas.bases import MOST, Bases, Note
from jasminedome.replicas.batches import Batch, Mark
from jasminedome.replicas.digests import AUDITOR, digest_of
from jasminedome.replicas.engine import Engine, read_lines, read_ok
from jasminedome.replicas.errors import LogDiffers, Tainted
from jasminedome.replicas.front import Front
from jasminedome.replicas.replica import _chosen
from jasminedome.replicas.rules import own_rules, program_version, rules_of
from jasminedome.replicas.sending import AHEAD, CHUNK, Ended, Sending
from jasminedome.replicas.window import Window
from jasminedome.replicas.wire import GONE, Wire, endpoint

SCHEMA = 'SCHEMA 10 1024 {"color":"facet","price":"number"}'


def mark(position, kind=Mark.VIEW):
    return Batch(position, kind, "", bytes([position % 256]) * 32)


def scripted(code):
    """A program that answers the schema, and then does as the code says."""
    begun = "import os, sys, time\nos.read(0, 1000)\nos.write(1, b'OK 0\\n')\n"
    return [sys.executable, "-c", begun + code]


class Windows(unittest.TestCase):
    def test_it_holds_the_newest_marks_and_anchors(self):
        window = Window()
        self.assertEqual((window.newest, window.anchor, window.first, window.held), (None, None, None, []))
        gone = []
        for position in range(1, 201):
            gone += window.add(mark(position, Mark.ANCHOR if position % 2 else Mark.VIEW), position * 10)
        anchors = [position * 10 for position in range(105, 200, 2)]
        newest = [position * 10 for position in range(193, 201)]
        self.assertEqual(window.held, sorted({*anchors, *newest}))
        self.assertEqual(sorted([*gone, *window.held]), [position * 10 for position in range(1, 201)])
        self.assertEqual((window.first, window.newest.position, window.anchor.position), (105, 200, 199))
        self.assertLess(len(window.held), 64)

    def test_a_stamp_names_the_past_of_its_mark(self):
        window = Window()
        for position in (1, 2, 3):
            window.add(mark(position), 5)
        self.assertEqual(window.tokens[b"5"], b"5")
        self.assertEqual(window.tokens[b"5-020202020202"], b"5")
        self.assertNotIn(b"5-040404040404", window.tokens)
        self.assertEqual(window.named(b"5").position, 3)
        self.assertEqual(window.named(b"5-010101010101").position, 1)
        self.assertIsNone(window.named(b"6"))
        gone = [token for position in range(4, 12) for token in window.add(mark(position), 6)]
        self.assertEqual((gone, window.held, set(window.tokens.values())), ([5], [6], {b"6"}))


class Choices(unittest.TestCase):
    def test_where_a_replica_begins(self):
        for bases, wanted, cut, chosen in (
            ([], [], 0, None),
            ([], [7], 0, None),
            ([5, 9], [], 0, 9),
            ([5, 9], [7, 8], 0, 5),
            ([5, 7, 9], [7, 8], 0, 7),
            ([9], [7, 8], 0, None),  # all of it from the log's beginning
            ([9, 12], [7, 8], 3, 9),  # what is left of it
        ):
            with self.subTest(bases=bases, wanted=wanted, cut=cut):
                self.assertEqual(_chosen(bases, wanted, cut), chosen)

    def test_rules_are_those_of_a_minor_version(self):
        self.assertEqual([rules_of(version) for version in ("0.1.0", "0.1.17", "2.0.0-rc1")], ["0.1", "0.1", "2.0"])
        told = [sys.executable, "-c", "print('jasminedome 3.2.1')"]
        silent = [sys.executable, "-c", "import sys; print('usage: catalogue'); sys.exit(1)"]
        self.assertEqual(program_version(told), "3.2.1")
        for command in (silent, ["/no/such/program"], FAKE):
            self.assertEqual(rules_of(program_version(command)), own_rules())

    def test_addresses(self):
        self.assertEqual(endpoint("shop-1:7101"), ("shop-1", 7101))
        self.assertEqual(endpoint("[::1]:7101"), ("::1", 7101))
        self.assertEqual(endpoint("/run/shop.sock"), "/run/shop.sock")
        for address in ("shop-1", ":7101", "shop-1:x", "shop-1:70000", 7101, None):
            self.assertRaises(jasminedome.UsageError, endpoint, address)


class Folders(unittest.TestCase):
    def setUp(self):
        room = tempfile.TemporaryDirectory()
        self.addCleanup(room.cleanup)
        self.room = Path(room.name)
        self.bases = Bases(self.room / "one")
        self.addCleanup(self.bases.close)

    def keep(self, *positions):
        for position in positions:
            file = self.bases.live / f"file_{position}"
            file.write_text(str(position))
            self.bases.keep(position, [file.name])

    def test_a_base_outlives_the_room_of_its_program(self):
        self.keep(5)
        self.bases.fill_live(None, 1)
        self.assertEqual(list(self.bases.live.iterdir()), [])
        self.bases.fill_live(5, 1)
        self.assertEqual([file.read_text() for file in self.bases.live.iterdir()], ["5"])

    def test_a_room_in_use_is_left_alone(self):
        import fcntl
        import os

        self.keep(5)
        lock = os.open(self.bases.live, os.O_RDONLY)
        fcntl.flock(lock, fcntl.LOCK_EX)
        with self.assertRaisesRegex(jasminedome.FolderInUse, "a replica that is gone"):
            self.bases.fill_live(5, 0.1)
        self.assertEqual([file.name for file in self.bases.live.iterdir()], ["file_5"])
        os.close(lock)
        self.bases.fill_live(5, 0.1)

    def test_which_bases_are_dropped(self):
        self.keep(*range(10, 100, 10))
        self.bases.drop(35)
        kept = self.bases.positions()
        self.assertEqual((kept[0], kept[-1], len(kept)), (30, 90, MOST))
        self.bases.drop(1_000)
        self.assertEqual(self.bases.positions(), [90])

    def test_a_base_is_sent_whole(self):
        others = [Bases(self.room / name) for name in ("two", "three")]
        for each in others:
            self.addCleanup(each.close)
        with self.bases.packed() as file:
            self.assertIsNone(others[0].unpack(file))
        self.keep(5, 6)
        three = others[1]
        with self.bases.packed() as file:
            self.assertEqual(three.unpack(file), 5)
        self.assertEqual((self.room / "three" / "base-5" / "file_5").read_text(), "5")
        self.assertEqual(three.positions(), [5])

    def test_what_is_no_base_is_not_taken(self):
        import io
        import tarfile

        for name, kind in (("../evil", tarfile.REGTYPE), ("base-5/../../evil", tarfile.REGTYPE), ("base-5/a", tarfile.SYMTYPE)):
            file = io.BytesIO()
            with tarfile.open(fileobj=file, mode="w") as tar:
                info = tarfile.TarInfo(name)
                info.type = kind
                tar.addfile(info)
            file.seek(0)
            with self.subTest(name=name), self.assertRaises(LogDiffers):
                self.bases.unpack(file)
        self.assertEqual(self.bases.positions(), [])

    def test_notes(self):
        note = Note("0123456789abcdef", 7, bytes(range(32)), 99)
        self.assertEqual(Note.read(str(note)), note)
        self.assertLess(len(str(note)), 128)
        for text in ("", "spring", str(note) + " ", str(note).replace(" 7 ", " 07 ")):
            self.assertIsNone(Note.read(text))


class Engines(unittest.IsolatedAsyncioTestCase):
    async def start(self, command):
        engine = await Engine.start(command, SCHEMA)
        self.addAsyncCleanup(engine.close)
        return engine

    async def test_replies_are_cut_as_they_come(self):
        pieces = ["2 OK 2 5\n2 1 a .\n", "2 7 b", " .\n2 NO 23\n1 OK 1\n1 O", "K 2\n2 OK 0 0\n"]
        code = "os.read(0, 1000)\nfor piece in %r:\n    os.write(1, piece.encode()); time.sleep(0.03)\n" % pieces
        code += "os.read(0, 1000)"
        engine = await self.start(scripted(code))

        def find():
            return engine.ask(b"2 FIND ..", b"2 OK ", lambda told: int(told.split(b" ")[0]))

        told = await asyncio.gather(find(), find(), engine.say(b"1 DEL a\n1 DEL b\n", 2), find())
        self.assertEqual(told, [b"2 OK 2 5\n2 1 a .\n2 7 b .\n", b"2 NO 23\n", b"1 OK 1\n1 OK 2\n", b"2 OK 0 0\n"])
        self.assertEqual(read_lines(told[0], b"2 OK "), ["2 5", "1 a .", "7 b ."])
        with self.assertRaises(jasminedome.BadMark):
            read_ok(told[1], b"2 OK ")

    async def test_a_program_that_ends_fails_everything_that_waits(self):
        engine = await self.start(scripted("os.read(0, 1000)\nos.write(1, b'1 OK 1\\n')\nsys.exit('it is over')"))
        first, second = engine.ask(b"1 DEL a", b""), engine.ask(b"1 DEL b", b"")
        self.assertEqual(await first, b"1 OK 1\n")
        with self.assertRaisesRegex(ProgramEnded, "status 1: it is over"):
            await second
        with self.assertRaises(ProgramEnded):
            await engine.ask(b"1 DEL c", b"")

    async def test_a_reply_that_is_none_ends_the_program(self):
        for said in ("2 OK x\n", "1 OK 1\n9 OK 9\n"):
            engine = await self.start(scripted(f"os.read(0, 1000)\nos.write(1, {said.encode()!r})\nos.read(0, 1)"))
            told = engine.ask(b"2 FIND ..", b"2 OK ", lambda told: int(told))
            with contextlib.suppress(BadReply):
                await told
            with self.assertRaises(BadReply):
                await engine.ask(b"2 FIND ..", b"2 OK ")

    async def test_a_program_that_is_none(self):
        with self.assertRaises(ProgramEnded):
            await Engine.start(["/no/such/program"], SCHEMA)
        with self.assertRaises(WrongKind):
            await Engine.start(FAKE, 'SCHEMA 10 1024 {"id":"text"}')

    async def test_one_that_doesn_t_end_is_killed(self):
        engine = await self.start(scripted("import signal\nwhile True: time.sleep(1)"))
        with unittest.mock.patch("jasminedome.replicas.engine._PATIENCE", 0.1):
            await engine.close()

    async def test_writes_are_judged_in_their_order(self):
        engine = await self.start(FAKE)
        sending = Sending(engine, 0, 0)
        lines = "\n".join(['PUT {"id":"a"}', "PUT {", "DEL a", 'PUT {"id":"b","price":"cheap"}', "DELW (", "DEL b"])
        await sending.add(Batch(7, Mark.NOTHING, lines, b"", frozenset({2})), False)
        await sending.settle()
        self.assertEqual(sending.count, 2)
        self.assertEqual(sending.refused, [(7, 2, 0), (7, 1, 11), (7, 3, 13), (7, 4, 24)])
        other = Sending(await self.start(FAKE), 0, 0)
        await other.add(Batch(7, Mark.NOTHING, lines, b"", frozenset({2})), True)
        self.assertEqual((other.count, other.refusals), (sending.count, sending.refusals))

    async def test_an_answer_that_others_don_t_give_taints(self):
        for reply in ("1 NO 40", "1 NO 30", "1 NO 16", "1 OK 2", "1 OK", "? NO 10", "", "1 NO", "2 OK 1"):
            engine = await self.start(scripted(f"os.read(0, 1000)\nos.write(1, {reply.encode()!r} + b'\\n')\nos.read(0, 1)"))
            sending = Sending(engine, 0, 0)
            await sending.add(Batch(1, Mark.NOTHING, "DEL a", b""), False)
            with self.subTest(reply=reply), self.assertRaises(Tainted):
                await sending.settle()

    async def test_the_line_that_ends_it_is_told(self):
        engine = await self.start(scripted("os.read(0, 1000)\nos.write(1, b'1 OK 1\\n')\nos.read(0, 1000)"))
        sending = Sending(engine, 0, 0)
        with self.assertRaises(Ended) as caught:
            await sending.add(Batch(3, Mark.NOTHING, "DEL a\nDEL b\nDEL c", b""), True)
        self.assertEqual((caught.exception.first, caught.exception.last), ((3, 1), (3, 1)))

    async def test_no_more_goes_ahead_than_is_said(self):
        engine = await self.start(scripted("time.sleep(600)"))
        sending = Sending(engine, 0, 0)
        batch = Batch(1, Mark.NOTHING, "\n".join(["DEL a"] * CHUNK * (AHEAD + 1)), b"")
        with self.assertRaises(asyncio.TimeoutError):
            await asyncio.wait_for(sending.add(batch, False), 0.2)
        self.assertEqual(len(sending._waiting), AHEAD - 1)
        engine.kill()

    async def test_a_digest_sees_texts_orders_and_counts(self):
        seen = set()
        texts = ('{"id":"a","price":1}', '{"id":"a", "price":1}', '{"id":"a","price":2}', '{"id":"a","color":["b"]}')
        for items in (*((text,) for text in texts), ()):
            engine = await self.start(FAKE)
            for item in items:
                await engine.ask(b"1 PUT %b" % item.encode(), b"")
            await engine.ask(b"1 REFRESH", b"")
            await engine.ask(b"%d OPEN %d" % (AUDITOR, len(items)), b"")
            seen.add(await digest_of(engine, len(items), {"color": "facet", "price": "number"}))
        self.assertEqual(len(seen), 5)


class Stalled:
    """A program that answers nothing."""

    def relay(self, *_):
        pass


class FakeReplica:
    """A replica's side of its readers, over a program alone."""

    def __init__(self, engine):
        self.engine = engine
        self.window = Window()

    def status(self):
        return {"position": 0}


class Fronts(unittest.IsolatedAsyncioTestCase):
    async def asyncSetUp(self):
        engine = await Engine.start(FAKE, SCHEMA)
        self.addAsyncCleanup(engine.close)
        lines = [*(f'1 PUT {{"id":"item{n}","color":["red"]}}' for n in range(50)), "1 REFRESH", "2 OPEN 50"]
        for line in lines:
            await engine.ask(line.encode(), b"")
        self.replica = FakeReplica(engine)
        self.fronts = set()
        self.replica.window.add(mark(9), 50)
        self.server = await asyncio.get_running_loop().create_server(lambda: Front(self.replica, self.fronts), "127.0.0.1", 0)
        self.addCleanup(self.server.close)
        self.address = "127.0.0.1:%d" % self.server.sockets[0].getsockname()[1]

    async def ask(self, *lines):
        def work():
            with contextlib.closing(Wire(self.address)) as wire:
                return wire.ask([line + b"\n" for line in lines], 10)

        return await asyncio.to_thread(work)

    async def test_reads_go_through_and_keep_their_order(self):
        told = await self.ask(
            b"FIND 50 1 . . *:*", b"STATUS", b"FIND 51 1 . . *:*", b"FACETS 50-090909090909 color 5 *:*", b"GET 50 item7",
            b"HAS 50", b"HAS 51", b"FIND 50 1 . . (", b"FIND 50-0a0a0a0a0a0a 1 . . *:*", b"GET 50 none", b"FIND 50 0 . . *:*",
        )  # fmt: skip
        self.assertEqual(
            told,
            [
                b"2 OK 1 50\n2 1 item0 .\n", b'{"position": 0}\n', GONE, b"2 OK 50 1\n2 50 red\n",
                b'2 OK {"id":"item7","color":["red"]}\n', b"OK 50-090909090909\n", GONE, b"2 NO 24 1\n", GONE, b"2 OK .\n",
                b"2 OK 0 50\n",
            ],
        )  # fmt: skip

    async def test_nothing_but_reads_goes_through(self):
        writes = (b"PUT {}", b"1 DEL a", b"DELW *:*", b"CLOSE 50", b"", b"FIND", b"FIND 50", b"STATUS x", b"BASE x")
        self.assertEqual(set(await self.ask(*writes, b"FACETS 50 color x *:*")), {b"2 NO 10\n"})
        self.assertEqual((await self.ask(b"FIND 50 0 . . *:*"))[0], b"2 OK 0 50\n")

    async def test_many_lines_ahead_are_answered_in_their_order(self):
        lines = [b"GET 50 item%d" % (number % 50) for number in range(500)]
        told = await self.ask(*lines)
        self.assertEqual(told, [b'2 OK {"id":"item%d","color":["red"]}\n' % (number % 50) for number in range(500)])
        with socket.create_connection(endpoint(self.address)) as wire:  # all at once, whatever the other side would like
            await asyncio.to_thread(wire.sendall, b"".join(line + b"\n" for line in lines))
            read = await asyncio.to_thread(read_to, wire, sum(len(each) + len(b"%d\n" % len(each)) for each in told))
        self.assertEqual(read, b"".join(b"%d\n%b" % (len(each), each) for each in told))

    async def test_no_more_is_taken_than_is_answered(self):
        self.replica.engine = Stalled()
        with socket.create_connection(endpoint(self.address)) as wire:
            wire.setblocking(False)
            line, sent = b"GET 50 " + b"x" * 60 + b"\n", 0
            for _ in range(50):
                with contextlib.suppress(BlockingIOError):
                    sent += wire.send(line * 5_000)
                await asyncio.sleep(0.01)
            (front,) = self.fronts
            self.assertGreater(sent // len(line), 20_000)
            self.assertLess(len(front._slots), 10_000)
            front.close()

    async def test_a_line_without_an_end_is_no_line(self):
        with socket.create_connection(endpoint(self.address)) as wire:
            with contextlib.suppress(ConnectionError):
                await asyncio.to_thread(wire.sendall, b"x" * 100_000)
                self.assertEqual(await asyncio.to_thread(wire.recv, 1), b"")

    async def test_a_program_that_is_gone_has_no_tokens(self):
        self.replica.engine.kill()
        self.assertEqual(await self.ask(b"FIND 50 1 . . *:*", b"GET 50 item1"), [GONE, GONE])
        self.replica.engine = None
        self.assertEqual(await self.ask(b"FIND 50 1 . . *:*"), [GONE])


def read_to(wire, size):
    data = b""
    while len(data) < size:
        some = wire.recv(65_536)
        if not some:
            break
        data += some
    return data


if __name__ == "__main__":
    unittest.main()
