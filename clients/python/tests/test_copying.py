"""Backups, dumps, and a catalogue under other fields, by calls and by commands."""

import json
import unittest

import support  # first: it finds the package

import jasminedome
from jasminedome import UsageError, backup, dump, fitted, reindex, tar_of

ITEMS = [
    {"id": "a", "title": "Été shoe", "brand": "Acme", "color": ["red", "blue"], "price": 5},
    {"id": "b", "title": "12", "brand": "Zed", "price": -7},
    {"id": "c"},
]


class CopyTest(support.CommandTest):
    def setUp(self):
        super().setUp()
        self.folder.mkdir(parents=True)
        with self.open() as shop:
            shop.put_many(ITEMS)
            shop.commit("three")
            shop.put({"id": "d"})  # which isn't committed

    def open(self, folder=None):
        return jasminedome.Catalogue(support.FIELDS, folder or self.folder, program=support.PROGRAM)


class Backups(CopyTest):
    def test_a_copy_opens_while_the_shop_goes_on(self):
        to = self.room / "copy"
        with self.open() as shop:
            shop.put({"id": "late"})
            self.assertEqual(backup(shop, to), 1)
            self.assertRaises(UsageError, backup, shop, to)
            shop.commit("later")
            data = b"".join(tar_of(shop))
            for generation in (1, 2):  # no snapshot was left
                self.assertRaises((jasminedome.NoSnapshot, jasminedome.NoCommit), shop.ask, f"UNSNAP {generation}")
        names = support.untar(data, self.room / "second")
        self.assertEqual(names[-1], "segments_2")  # the commit's own file comes last
        for folder, ids in ((to, ["a", "b", "c"]), (self.room / "second", ["a", "b", "c", "late"])):
            with self.open(folder) as shop, shop.open() as view:
                self.assertEqual([item["id"] for item in dump(view)], ids)

    def test_a_tar_that_isnt_read_to_its_end_gives_the_snapshot_back(self):
        with self.open() as shop:
            pieces = tar_of(shop)
            next(pieces)
            shop.put({"id": "x"}), shop.commit(), shop.sweep()
            pieces.close()
            with shop.snapshot() as kept:
                self.assertEqual(kept.generation, 2)
            self.assertRaises(jasminedome.NoSnapshot, shop.ask, "UNSNAP 1")

    def test_without_a_folder_or_a_commit_there_is_none(self):
        with jasminedome.Catalogue(support.FIELDS, program=support.PROGRAM) as shop:
            self.assertRaises(UsageError, backup, shop, self.room / "copy")
            self.assertRaises(UsageError, next, tar_of(shop))
        (self.room / "empty").mkdir()
        with self.open(self.room / "empty") as shop:
            self.assertRaises(jasminedome.NoCommit, backup, shop, self.room / "copy")
        self.assertFalse((self.room / "copy").exists())

    def test_by_a_command(self):
        status, out, _ = self.run_main("backup", self.folder, self.room / "copy")
        self.assertEqual((status, out), (0, f"commit 1 of {self.folder} copied into {self.room / 'copy'}\n"))
        self.assertEqual(self.run_main("backup", self.folder, self.room / "copy")[0], 2)
        self.assertEqual(self.run_main("backup", self.room, self.room / "other")[0], 2)


class Dumps(CopyTest):
    def test_every_item_as_it_was_put(self):
        status, out, _ = self.run_main("dump", self.folder)
        self.assertEqual((status, [json.loads(line) for line in out.splitlines()]), (0, ITEMS))
        self.assertEqual(self.run_main("dump", self.folder, "--query", "brand:Zed")[1], out.splitlines()[1] + "\n")
        self.assertEqual(self.run_main("dump", self.folder, "--query", "nofield:x")[0], 2)

    def test_more_than_a_page(self):
        with self.open() as shop:
            shop.put_many({"id": f"item-{n}", "price": n} for n in range(1_203))
            shop.refresh()
            with shop.open() as view:
                self.assertEqual([item["price"] for item in dump(view, "price:[0 TO *]")][1:], list(range(1_203)))

    def test_a_dump_loads_again(self):
        file = self.file("dumped.jsonl", self.run_main("dump", self.folder)[1])
        self.assertEqual(self.run_main("load", file, "--folder", self.room / "again")[0], 0)
        self.assertEqual(self.run_main("dump", self.room / "again")[1].splitlines()[2], '{"id":"c"}')


class Reindexed(CopyTest):
    def test_values_go_into_fields_of_another_kind(self):
        fields = {"title": "number", "brand": "facet", "color": "text", "price": "keyword"}
        self.assertEqual(fitted(ITEMS[1], fields), {"id": "b", "title": 12, "brand": ["Zed"], "price": "-7"})
        self.assertEqual(fitted(ITEMS[0], {"color": "text"}), {"id": "a", "color": "red blue"})
        self.assertEqual(fitted({"id": "a", "price": None, "x": 1}, fields), {"id": "a", "price": None})

    def test_into_a_new_folder_by_a_change(self):
        new = self.room / "new-one"
        told = reindex(
            self.folder, new, {"words": "text"}, lambda item: {"id": item["id"], "words": "w"} if item["id"] != "b" else None,
            program=support.PROGRAM,
        )  # fmt: skip
        self.assertEqual((told.accepted, told.refused), (2, ()))
        self.assertEqual(jasminedome.fields_of(new), {"words": "text"})
        self.assertRaises(UsageError, reindex, self.folder, new, {"words": "text"}, program=support.PROGRAM)
        self.assertEqual(len(self.items()), 3)

    def test_by_a_command(self):
        new = self.room / "new-one"
        said = ["--field", "brand:facet", "--field", "price:skip", "--field", "words:text", "--fold", "words=title,brand"]
        status, out, err = self.run_main("reindex", self.folder, new, *said)
        self.assertEqual((status, out), (0, f"3 of 3 items of {self.folder} put into {new}\n"), err)
        self.assertEqual(jasminedome.fields_of(new), {"brand": "facet", "color": "facet", "title": "text", "words": "text"})
        first = json.loads(self.run_main("dump", new)[1].splitlines()[0])
        wanted = {"id": "a", "title": "Été shoe", "brand": ["Acme"], "color": ["red", "blue"], "words": "ete shoe acme"}
        self.assertEqual(first, wanted)
        status, out, _ = self.run_main("reindex", self.folder, self.room / "third", "--field", "title:number")
        self.assertEqual(status, 1)
        self.assertIn('item 1: a value has the wrong kind, or the schema is wrong (refusal 13): title is "Été shoe"', out)
        for wrong in (["--field", "title"], ["--field", "title:cents"], ["--fold", "brand=title"]):
            self.assertEqual(self.run_main("reindex", self.folder, self.room / "fourth", *wrong)[0], 2)


if __name__ == "__main__":
    unittest.main()
