"""Each refusal of the protocol, brought about, and the exception that comes of it."""

import shutil
import sys
import tempfile
import unittest
from pathlib import Path

import support  # before the package: it finds it

import jasminedome
from jasminedome import Refusal
from jasminedome.replies import Replies

SNAPSHOTS = 65_535
MEMORY = 24 << 20  # bytes of a program that is to get no more of it
REAL_ALONE = unittest.skipUnless(support.REAL, "the stand-in has no files and no memory that can be wanting")


class Refused(support.ShopTest):
    """Every number but 30, 31 and 40, which are the folder's and the system's."""

    def refused(self, kind, call, *arguments, place=None, **named):
        with self.assertRaises(Refusal) as caught:
            call(*arguments, **named)
        error = caught.exception
        self.assertIs(type(error), kind)
        self.assertEqual((error.number, error.place), (kind.number, place))
        self.assertIn(kind.text, str(error))
        self.assertIn(str(kind.number), str(error))

    def test_lines(self):
        for line in ("NONSENSE", "FIND", "FIND 0 1 . .", "OPEN 01", "PUT", "", "MERGE", "STAT", "SWEEP"):
            with self.subTest(line=line):
                self.refused(jasminedome.BadLine, self.shop.ask, line)

    def test_items(self):
        put = self.shop.put
        self.refused(jasminedome.BadJson, put, "{")
        self.refused(jasminedome.UnknownField, put, {"id": "a", "size": 1})
        for item in ({"id": "a", "price": 1.5}, {"id": "a", "color": "red"}, {"id": "a", "brand": "\t"}, "[]"):
            self.refused(jasminedome.WrongKind, put, item)
        for item in ({}, {"id": ""}, {"id": "a b"}, {"id": "é"}, {"id": "x" * 65}, {"id": 5}):
            self.refused(jasminedome.BadId, put, item)
        for item in ({"brand": "x" * 129}, {"color": ["x"] * 65}, {"color": ["x" * 129]}, {"title": "x" * 8_192}):
            self.refused(jasminedome.TooLarge, put, {"id": "a", **item})
        self.refused(jasminedome.BadId, self.shop.delete, "a b")
        self.refused(jasminedome.BadQuery, self.shop.delete_where, "price:x", place=6)
        self.assertEqual(self.shop.refresh(), 0)

    def test_views(self):
        self.refused(jasminedome.NotHeld, self.shop.ask, "CLOSE 0")
        self.refused(jasminedome.NotHeld, self.shop.ask, "FILES t 0")
        self.refused(jasminedome.TokenGone, self.shop.open, 7)
        with self.shop.open() as view:
            self.refused(jasminedome.BadMark, view.find, after=7)
            self.refused(jasminedome.BadQuery, view.find, "*:* é", place=4)
            self.refused(jasminedome.BadQuery, view.facets, "color", "(", place=1)
            self.refused(jasminedome.TooMany, view.find, count=1_001)
            self.refused(jasminedome.TooMany, view.facets, "color", count=1_001)
            self.refused(jasminedome.NotSortable, view.find, sort="+color")
            self.refused(jasminedome.NotSortable, view.find, sort="+nothing")
            self.refused(jasminedome.NotFacet, view.facets, "brand")
            self.refused(jasminedome.BadId, view.get, "")

    def test_held_tokens(self):
        views = [self.shop.open()]
        for n in range(63):
            self.shop.put({"id": "a"})
            self.shop.refresh()
            views.append(self.shop.open())
        self.shop.put({"id": "a"})
        self.refused(jasminedome.AllHeld, self.shop.refresh)
        views.pop().close()
        self.assertEqual(self.shop.refresh(), 64)

    def test_commits(self):
        with self.assertRaises(jasminedome.NoCommit):
            with self.shop.snapshot():
                self.fail("there is no commit yet")
        self.refused(jasminedome.NoCommit, self.shop.note, 1)
        self.refused(jasminedome.NoCommit, self.shop.ask, "FILES g 1")
        self.refused(jasminedome.NoSnapshot, self.shop.ask, "UNSNAP 1")
        self.refused(jasminedome.TooLarge, self.shop.commit, "é" * 129)
        self.refused(jasminedome.WrongKind, self.shop.commit, "\x7f")

    def test_numbers_that_are_used_up(self):
        self.shop.commit()
        session = self.shop._sessions.own()
        replies = Replies(SNAPSHOTS, session)
        self.shop._program.send(b"%d SNAP\n" % session * SNAPSHOTS, replies)
        self.assertEqual(set(replies.wait()), {b"%d OK 1" % session})
        with self.assertRaises(jasminedome.NumberSpent):
            with self.shop.snapshot():
                self.fail("a snapshot too many was taken")

    def test_every_number_is_brought_about(self):
        source = Path(__file__).read_text()
        for number, kind in jasminedome.REFUSALS.items():
            with self.subTest(number=number):
                self.assertIn(f"jasminedome.{kind.__name__}", source)


class Folders(unittest.TestCase):
    def setUp(self):
        self.folder = Path(tempfile.mkdtemp())
        self.addCleanup(shutil.rmtree, self.folder, ignore_errors=True)

    def test_no_folder(self):
        for folder in (self.folder / "nowhere", Path(__file__)):
            with self.assertRaises(jasminedome.DeviceFailed):
                support.shop(folder=folder)

    def test_what_is_told_of_a_folder(self):
        for folder, why in ((self.folder / "nowhere", "isn't there"), (Path(__file__), "is no folder")):
            with self.assertRaises(jasminedome.DeviceFailed) as caught:
                support.shop(folder=folder)
            self.assertEqual(caught.exception.detail, f"{folder} {why}")
        with self.assertRaises(jasminedome.WrongKind) as caught:
            jasminedome.Catalogue({"title": "prose"}, self.folder, program=support.PROGRAM)
        self.assertIn(str(self.folder), str(caught.exception))
        self.assertIn("prose", str(caught.exception))

    def test_a_folder_in_use(self):
        code = "import sys\nsys.stdin.readline()\nprint('NO 30')\nsys.exit('[ERROR catalogue] %s')"
        for said, kind in (("folder in use", jasminedome.FolderInUse), ("schema refused", jasminedome.DeviceFailed)):
            with self.assertRaises(jasminedome.DeviceFailed) as caught:
                support.shop(folder=self.folder, program=[sys.executable, "-c", code % said])
            self.assertIs(type(caught.exception), kind)
            self.assertIn(str(self.folder), str(caught.exception))

    def test_a_folder_that_is_gone(self):
        with support.shop(folder=self.folder) as shop:
            shop.put({"id": "a"})
            shutil.rmtree(self.folder)
            self.assertRaises(jasminedome.DeviceFailed, shop.commit)

    def test_another_schema(self):
        with support.shop(folder=self.folder) as shop:
            shop.put({"id": "a"})
            shop.commit()
        program = support.REAL or support.FAKE
        with self.assertRaises(jasminedome.WrongKind):
            jasminedome.Catalogue({"title": "text"}, self.folder, program=program)

    @REAL_ALONE
    def test_damaged_files(self):
        with support.shop(folder=self.folder) as shop:
            shop.put({"id": "a", "title": "Red shoe"})
            shop.commit()
            with shop.open(shop.refresh()) as view:
                (stored,) = self.folder.glob("*.sto")
                stored.write_bytes(stored.read_bytes()[:-1])
                self.assertRaises(jasminedome.Damaged, view.get, "a")
        with self.assertRaises(jasminedome.Damaged):
            support.shop(folder=self.folder)
        (commit,) = self.folder.glob("segments_*")
        commit.write_bytes(b"CSGM")
        with self.assertRaises(jasminedome.Damaged):
            support.shop(folder=self.folder)


class Memory(unittest.TestCase):
    @REAL_ALONE
    def test_a_program_that_gets_no_more_memory(self):
        code = "import os,resource,sys\nresource.setrlimit(resource.RLIMIT_AS, (int(sys.argv[1]),) * 2)\n"
        code += "os.execvp(sys.argv[2], sys.argv[2:])"
        program = [sys.executable, "-c", code, str(MEMORY), *support.REAL]
        with jasminedome.Catalogue(support.FIELDS, program=program) as shop:
            accepted, refused = 0, ()
            while not refused:
                self.assertLess(accepted * 8_000, MEMORY, "more was put than there is memory")
                told = shop.put_many({"id": f"item-{accepted + n}", "title": "x" * 8_000} for n in range(100))
                accepted, refused = accepted + told.accepted, told.refused
            self.assertEqual({type(each.error) for each in refused}, {jasminedome.OutOfMemory})
            self.assertGreater(accepted, 0)
            self.assertEqual(shop.delete("item-0"), accepted + 1)  # takes no memory, and the program is still there


if __name__ == "__main__":
    unittest.main()
