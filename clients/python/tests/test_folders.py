"""What outlives the program: a folder that is opened again, and what its newest commit says of its fields."""

import os
import shutil
import signal
import tempfile
import unittest
from pathlib import Path

import support  # before the package: it finds it

import jasminedome
from jasminedome import between, fields_of
from jasminedome.folders import text_of

# The example of a commit's file in docs/FORMATS.md.
COMMIT = bytes.fromhex(
    "4353474d 02 0000000000000001 0000000000000001 0000000000000002 00000006 737072696e67"
    "00000002 00000005 636f6c6f72 04 00000005 7072696365 03 00000001 0000000000000001 0000000000000000"
)


class FolderTest(unittest.TestCase):
    def setUp(self):
        self.folder = Path(tempfile.mkdtemp())
        self.addCleanup(shutil.rmtree, self.folder)


class OpenedAgain(FolderTest):
    def test_what_was_committed_is_there(self):
        items = [{"id": f"item-{n}", "price": n, "color": ["red"][: n % 2], "title": f"Shoe {n}"} for n in range(3_000)]
        with support.shop(folder=self.folder) as shop:
            shop.put_many(items)
            shop.delete_where(between("price", 1_000, 1_999))
            self.assertEqual(shop.commit("spring"), 1)
            shop.put({"id": "lost"})
        with support.shop(folder=self.folder) as shop:
            self.assertEqual(shop.opened_at, 3_001)
            self.assertEqual(shop.note(1), "spring")
            with shop.open() as view:
                self.assertEqual(view.token, 3_001)
                hits = [hit for page in view.pages(sort="-price", count=700) for hit in page.hits]
                wanted = [item for item in reversed(items) if not 1_000 <= item["price"] < 2_000]
                self.assertEqual([(hit.id, hit.key) for hit in hits], [(item["id"], item["price"]) for item in wanted])
                self.assertEqual(view.get("item-77"), items[77])
                self.assertIsNone(view.get("lost"))
                self.assertEqual(view.facets("color").counts, (jasminedome.FacetCount("red", 1_000),))
            self.assertEqual(shop.put({"id": "next"}), 3_002)
            self.assertEqual(shop.commit(), 2)
        with support.shop(folder=self.folder) as shop, shop.open() as view:
            self.assertEqual(view.find(count=0).total, 2_001)

    def test_a_killed_program_leaves_what_was_committed(self):
        with support.shop(folder=self.folder) as shop:
            shop.put({"id": "kept"})
            shop.commit()
            shop.put({"id": "lost"})
            shop.refresh()
            os.kill(shop.pid, signal.SIGKILL)
        with support.shop(folder=self.folder) as shop, shop.open() as view:
            self.assertEqual([hit.id for hit in view.find().hits], ["kept"])

    def test_a_snapshot_is_a_backup_that_opens(self):
        copy = Path(tempfile.mkdtemp())
        self.addCleanup(shutil.rmtree, copy)
        with support.shop(folder=self.folder) as shop:
            shop.put_many({"id": f"item-{n}", "price": n} for n in range(1_500))
            shop.commit("backup")
            with shop.snapshot() as kept:
                shop.delete_where("*:*")
                shop.commit()
                shop.sweep()
                self.assertEqual(list(kept.files), sorted(kept.files))
                self.assertIn("segments_1", kept.files)
                for name in kept.files:
                    shutil.copy(self.folder / name, copy)
        with support.shop(folder=copy) as shop, shop.open() as view:
            self.assertEqual(view.find("price:[5 TO 9]").total, 5)


class Fields(FolderTest):
    def test_fields_of_the_newest_commit(self):
        self.assertIsNone(fields_of(self.folder))
        with support.shop(folder=self.folder) as shop:
            self.assertIsNone(fields_of(self.folder))
            for text in ("", "spring", "é" * 128):
                shop.put({"id": "a"})
                shop.commit(text)
                self.assertEqual(fields_of(self.folder), support.FIELDS)
        self.assertRaises(OSError, fields_of, self.folder / "nowhere")

    def test_text_of_the_newest_commit(self):
        self.assertIsNone(text_of(self.folder))
        with support.shop(folder=self.folder) as shop:
            for text in ("spring", "", "Größe 42"):
                shop.commit(text)
                self.assertEqual(text_of(self.folder), text)
        (self.folder / "segments_9").write_bytes(b"CSGM")
        self.assertRaises(jasminedome.Damaged, text_of, self.folder)

    def test_files_that_are_none(self):
        (self.folder / "segments_1").write_bytes(COMMIT)
        for name in ("segments_", "segments_02", "segments_x", "segments_٣", "segments_3.tmp"):
            (self.folder / name).write_bytes(b"")
        self.assertEqual(fields_of(self.folder), {"color": "facet", "price": "number"})
        newer = COMMIT[:12] + bytes([10]) + COMMIT[13:].replace(b"color", b"shade")
        (self.folder / "segments_10").write_bytes(newer)
        self.assertEqual(fields_of(self.folder), {"shade": "facet", "price": "number"})
        (self.folder / "segments_10").unlink()
        fields_end = 63
        for size in range(fields_end):
            (self.folder / "segments_1").write_bytes(COMMIT[:size])
            self.assertRaises(jasminedome.Damaged, fields_of, self.folder)
        for place, byte in ((0, 0), (4, 3), (12, 2), (29, 255), (39, 255), (43, 255), (44, 0xFF), (52, 5)):
            (self.folder / "segments_1").write_bytes(COMMIT[:place] + bytes([byte]) + COMMIT[place + 1 :])
            with self.subTest(place=place):
                self.assertRaises(jasminedome.Damaged, fields_of, self.folder)


if __name__ == "__main__":
    unittest.main()
