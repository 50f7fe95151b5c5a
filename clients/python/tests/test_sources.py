"""What the loader takes and asks: forms, encodings, columns that aren't plain, ids that come again, and stopped loads."""

import contextlib
import gzip
import io
import json
import os
import signal
import sys
import unittest
from types import SimpleNamespace
from unittest import mock

from support import PROGRAM, CommandTest, FileTest  # before the package: it finds it

import jasminedome
from jasminedome import JasminedomeError, UsageError, fields_of
from jasminedome.loading import hundredths, load
from jasminedome.sources import Source

TABLE = "id,title,price\n1,Red shoe,5\n2,Größe,6\n"
ITEMS = [{"id": "1", "title": "Red shoe", "price": 5}, {"id": "2", "title": "Größe", "price": 6}]


class Forms(FileTest):
    def loaded(self, name, content, **options):
        told = self.load(name, content, **options)
        self.assertEqual(told.refused, ())
        return self.items()

    def test_packed_files(self):
        self.assertEqual(self.loaded("a.csv.gz", gzip.compress(TABLE.encode())), ITEMS)
        lines = "".join(json.dumps(item) + "\n" for item in ITEMS)
        self.folder = self.room / "second"
        self.assertEqual(self.loaded("A.JSONL.GZ", gzip.compress(lines.encode())), ITEMS)
        for content in (b"\x1f\x8bnone", gzip.compress(TABLE.encode())[:-9]):
            self.assertRaises(UsageError, self.load, "b.csv.gz", content)

    def test_tables_by_tabs(self):
        self.assertEqual(self.loaded("a.tsv", TABLE.replace(",", "\t").replace("Red", "Red, or")), [
            {"id": "1", "title": "Red, or shoe", "price": 5}, ITEMS[1]
        ])  # fmt: skip

    def test_an_array_of_json(self):
        for text in (json.dumps(ITEMS), json.dumps(ITEMS, indent=1), f" [\r\n{json.dumps(ITEMS)[1:-1]}]\n\n"):
            with self.subTest(text=text):
                self.folder = self.room / str(len(text))
                self.assertEqual(self.loaded("a.json", text), ITEMS)
        rows = list(self.table("b.json", '\ufeff[{"id":"a"},\n\n {"id":\n"b"},5 , "x"]').rows())
        self.assertEqual(rows, [(1, '{"id":"a"}'), (3, '{"id": "b"}'), (4, "5"), (4, '"x"')])
        self.assertEqual(list(self.table("c.json", " [ ] ").rows()), [])
        for text in ("", "{}", "[", "[1", "[1,]", "[1] x", "[1 2]", "[,]", "[" * 100_000):
            with self.subTest(text=text[:9]):
                self.assertRaises(UsageError, list, self.table("d.json", text).rows())

    def test_standard_input(self):
        for number, text in enumerate((TABLE, "".join(json.dumps(item) + "\n" for item in ITEMS), json.dumps(ITEMS))):
            for data in (text.encode(), gzip.compress(text.encode())):
                self.folder = self.room / f"{number} {len(data)}"
                with mock.patch.object(sys, "stdin", SimpleNamespace(buffer=io.BytesIO(data))):
                    load("-", self.folder, program=PROGRAM)
                self.assertEqual(self.items(), ITEMS)

    def test_encodings(self):
        for number, encoding in enumerate(("latin-1", "cp1252", "utf-16", "utf-8-sig")):
            self.folder = self.room / str(number)
            self.assertEqual(self.loaded("a.csv", TABLE.encode(encoding), encoding=encoding), ITEMS)
        self.folder = self.room / "marked"
        self.assertEqual(self.loaded("a.csv", TABLE.encode("utf-16")), ITEMS)
        self.assertRaises(UsageError, self.load, "a.csv", TABLE, encoding="klingon")
        self.assertRaises(UsageError, self.load, "a.csv", b"\xff\xfei\x00d\x00,", encoding="utf-16")

    def test_what_no_name_tells(self):
        for wrong in ({}, {"form": "xml"}):
            self.assertRaises(UsageError, self.load, "items", TABLE, **wrong)
        self.assertEqual(self.loaded("items", TABLE, form="csv"), ITEMS)
        source = Source(self.file("a.csv", TABLE))
        self.assertEqual((source.read, source.size), (0, len(TABLE.encode())))
        list(source.lines())
        self.assertEqual(source.read, source.size)

    def test_arguments_of_a_wrong_type(self):
        path = self.file("a.csv", TABLE)
        for odd in (5, b"x", [], {"a"}, object()):
            for wrong in ({"fields": odd}, {"fields": {"price": odd}}, {"id_column": odd}, {"form": odd}, {"encoding": odd}):
                self.assertRaises(UsageError, load, path, self.folder, program=PROGRAM, **wrong)
            self.assertRaises(UsageError, load, odd, self.folder, program=PROGRAM)
            self.assertRaises(UsageError, load, path, odd, program=PROGRAM)
        self.assertRaises(UsageError, load, None, self.folder)
        self.assertRaises(UsageError, load, path, None)
        self.assertFalse(self.folder.exists())

    def test_cells_are_stripped(self):
        self.assertEqual(self.loaded("a.csv", " id ,\ttitle , price\n 1 , Red shoe  , 5\n2,Größe,\t6 \n"), ITEMS)
        told = self.load("b.csv", "id,title,\n3,x,\n4,y,z\n")
        self.assertEqual([each.line for each in told.refused], [3])  # a cell under no name


class Columns(FileTest):
    def asked(self, content, name="a.csv", **options):
        with self.assertRaises(UsageError) as caught:
            self.load(name, content, **options)
        self.assertFalse(self.folder.exists(), "what is asked about isn't loaded")
        return str(caught.exception)

    def test_one_cell_of_many_is_no_number(self):
        cells = "".join(f"{n},{n}\n" for n in range(5_000))
        content = "id,price\n" + cells.replace("99,99\n", "99,19.99\n", 1).replace("4000,4000\n", "4000,cheap\n")
        told = self.asked(content)
        self.assertIn("price: 4,998 of 5,000 values are integers, and 2 aren't; the first is '19.99' in line 101.", told)
        for way in ("'price:cents'", "'price:number'", "'price:text'", "'price:skip'"):
            self.assertIn(way, told)
        loaded = self.load("a.csv", content, fields={"price": "number"})
        refused = [(each.line, each.detail) for each in loaded.refused]
        self.assertEqual(refused, [(101, 'price is "19.99"'), (4_002, 'price is "cheap"')])

    def test_what_is_asked_names_each_column(self):
        told = self.asked("id,size,price,n\n1,38,1.50,1\n2,39,2.75,2\n3,XL,3.00,3\n")
        self.assertEqual(len(told.splitlines()), 2)
        self.assertIn("size: 2 of 3 values are integers, and 1 isn't; the first is 'XL' in line 4.", told)
        self.assertIn("price: 0 of 3 values are integers, and 3 aren't; the first is '1.50' in line 2.", told)
        self.assertNotIn("'size:cents'", told)
        self.assertNotIn("'price:number'", told)
        told = self.asked('{"id":"a","price":5}\n{"id":"b","price":5.25}\n', name="a.jsonl")
        self.assertIn("price: 1 of 2 values are integers, and 1 isn't; the first is '5.25' in line 2.", told)

    def test_what_is_plain_is_not_asked(self):
        self.load("a.csv", "id,size,title\n1,38,x\n2,M,5\n3,XL,y\n4,L,z\n")
        self.assertEqual(fields_of(self.folder), {"size": "text", "title": "text"})
        told = self.load("b.csv", "id,size,title\n1,38,x\n2,40,5\n3,XL,y\n")
        self.assertEqual((told.accepted, told.refused), (3, ()))  # the folder says what it is

    def test_cents(self):
        content = "id;price\n1;19.99\n2;19\n3;-0,5\n4; 1234567.5 \n5;cheap\n6;1.999\n7;\n"
        told = self.load("a.csv", content, fields={"price": "cents"})
        self.assertEqual(told.plan.fields, {"price": "number"})
        refused = [(each.line, each.detail) for each in told.refused]
        self.assertEqual(refused, [(6, 'price is "cheap"'), (7, 'price is "1.999"')])
        prices = [1_999, 1_900, -50, 123_456_750, None]
        self.assertEqual([item.get("price") for item in self.items()], prices)
        lines = '{"id":"a","price":19.99}\n{"id":"b","price":5}\n{"id":"c","price":"0.10"}\n{"id":"d","price":null}\n'
        told = self.load("b.jsonl", lines, fields={"price": "cents"})
        self.assertEqual((told.accepted, told.refused), (4, ()))
        self.assertEqual([item["price"] for item in self.items()[5:]], [1_999, 500, 10, None])

    def test_hundredths(self):
        for value, wanted in (
            ("0.07", 7), ("-0.07", -7), ("12,3", 1_230), (0.29, 29), (1.1, 110), (7, 700), ("007", 700), (1e3, 100_000),
            ("1.234", "1.234"), ("", ""), (True, True), (None, None), ("1.5 EUR", "1.5 EUR"), (0.001, 0.001), ([], []),
        ):  # fmt: skip
            told = hundredths(value)
            self.assertEqual((told, type(told)), (wanted, type(wanted)))

    def test_ids_that_come_again(self):
        told = self.load("a.csv", "id,title\na,1st\nb,x\na,2nd\na,3rd\n", fields={"title": "text"})
        self.assertEqual((told.accepted, told.repeated, told.repeats), (4, 2, (("a", 2, 4), ("a", 2, 5))))
        self.assertEqual(self.items(), [{"id": "b", "title": "x"}, {"id": "a", "title": "3rd"}])
        told = self.load("b.jsonl", '{"id":7}\n{"id":"7"}\n{"id":"8"}', )
        self.assertEqual(told.repeats, (("7", 1, 2),))
        told = self.load("c.csv", "sku,id,title\n1,x,a\n2,x,b\n1,x,c\n", fields={"id": "skip"}, id_column="sku")
        self.assertEqual(told.repeats, (("1", 2, 4),))


class Stopped(FileTest):
    """A load that is stopped goes on from its last commit."""

    def content(self, count=2_500):
        return "id,n\n" + "".join(f"x{n},{n}\n" if n % 400 else f"a b,{n}\n" for n in range(count))

    def stopped(self, at, **options):
        def stop(answered, _, __):
            if answered >= at:
                raise KeyboardInterrupt

        with self.assertRaises(KeyboardInterrupt):
            self.load("a.csv", self.content(), every=700, progress=stop, **options)

    def test_it_goes_on(self):
        self.stopped(1_800)
        held = self.items()
        self.assertEqual(len(held), 1_400 - 4)
        told = self.load("a.csv", self.content(), every=700)
        self.assertEqual((told.skipped, told.accepted), (1_400, 1_097))
        self.assertEqual([each.line for each in told.refused], [1_602, 2_002, 2_402])
        self.assertEqual([item["n"] for item in self.items()], [n for n in range(2_500) if n % 400])
        told = self.load("a.csv", self.content(), every=700)
        self.assertEqual((told.skipped, told.accepted), (0, 2_493))  # it was ended, so this is a load anew

    def test_another_file_is_no_part_of_it(self):
        self.stopped(1_800)
        told = self.load("a.csv", self.content() + "y,5\n", every=700)
        self.assertEqual((told.skipped, told.accepted), (0, 2_494))

    def test_other_fields_are_no_part_of_it(self):
        self.stopped(1_800, fields={"n": "number", "more": "text"})
        told = self.load("a.csv", self.content(), fields={"n": "skip"}, every=700)
        self.assertEqual(told.skipped, 0)

    def test_a_program_that_dies(self):
        opened = []

        def opening(*arguments, **named):
            opened.append(jasminedome.Catalogue(*arguments, **named))
            return opened[0]

        def kill(answered, _, __):
            # It may be told once more of what was answered before the end.
            if answered >= 1_000:
                with contextlib.suppress(ProcessLookupError):
                    os.kill(opened[0].pid, signal.SIGKILL)

        with mock.patch("jasminedome.loading.Catalogue", opening), self.assertRaises(JasminedomeError):
            self.load("a.csv", self.content(), every=700, progress=kill)
        self.assertEqual(self.load("a.csv", self.content(), every=700).skipped, 700)

    def test_a_file_of_just_so_many_items(self):
        told = self.load("a.csv", "id,n\na,1\nb,2\n", every=2)
        self.assertEqual((told.accepted, told.commit), (2, 2))
        self.assertEqual(len(self.items()), 2)
        for every in (0, -1, "5", None):
            self.assertRaises(UsageError, self.load, "a.csv", "id\n", every=every)


class Said(CommandTest):
    """What the command line says of it."""

    def test_questions_and_repeats(self):
        path = self.file("a.csv", "id,price\na,5\nb,7\nc,1.50\n")
        status, out, err = self.run_main("load", path, "--folder", self.folder)
        self.assertEqual((status, out), (2, ""))
        self.assertRegex(err, r"^jasminedome: price: 2 of 3 values are integers, and 1 isn't; the first is '1.50' in line 4\.")
        status, out, err = self.run_main("load", path, "--folder", self.folder, "--field", "price:cents")
        self.assertEqual((status, err), (0, ""))
        path = self.file("b.csv", "id,price\n" + "a,1\n" * 10)
        status, out, _ = self.run_main("load", path, "--folder", self.folder)
        self.assertIn("9 ids come again, and the last of each counts:\n  line 3: a, as in line 2\n", out)
        self.assertIn("  line 7: a, as in line 2\n  and 4 more\n", out)

    def test_an_interrupt_says_what_is_kept(self):
        path = self.file("a.csv", "id\na\n")
        with mock.patch.object(jasminedome.__main__, "load", side_effect=KeyboardInterrupt):
            status, _, err = self.run_main("load", path, "--folder", self.folder)
        self.assertEqual(status, 130)
        self.assertIn("what was committed stays, and the same command goes on from there", err)

    def test_what_isnt_utf_8_is_told_with_the_way_out(self):
        path = self.file("a.csv", TABLE.encode("latin-1"))
        status, out, _ = self.run_main("load", path, "--folder", self.folder)
        self.assertEqual(status, 1)
        self.assertIn("--encoding: latin-1", out)
        status, out, _ = self.run_main("load", path, "--folder", self.folder, "--encoding", "latin-1", "--every", "1")
        self.assertEqual(status, 0)

    def test_formats_and_versions(self):
        path = self.file("items", TABLE)
        status, out, _ = self.run_main("load", path, "--folder", self.folder, "--format", "csv")
        self.assertEqual(status, 0)
        status, out, _ = self.run_main("--version")
        self.assertEqual((status, out), (0, f"jasminedome {jasminedome.__version__}\n"))


if __name__ == "__main__":
    unittest.main()
