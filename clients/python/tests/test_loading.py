"""Files of items: what is read of them, what the fields become, and what `python -m jasminedome load` says."""

import io
import json
import unittest

from support import PROGRAM, CommandTest, FileTest  # before the package: it finds it

import jasminedome
from jasminedome import UsageError, fields_of
from jasminedome.plans import Plan, planned
from jasminedome.sources import Source
from jasminedome.tables import Column
from jasminedome.terminal import Bar, shown, table

class Tables(FileTest):
    def test_json_rows(self):
        rows = list(self.table("a.jsonl", '\ufeff{"id":"a"}\r\n\n  {"id":"b"} \nx').rows())
        self.assertEqual(rows, [(1, '{"id":"a"}'), (3, '{"id":"b"}'), (4, "x")])
        self.assertEqual(list(self.table("b.jsonl", "").rows()), [])

    def test_cell_rows(self):
        for delimiter in ",;\t":
            text = '\ufeffid,title\r\na,"two\nlines, ""quoted"""\r\n\r\n,\r\nb\r\nc,d,e\r\nf,g,,\r\n"x"y,1\r\nh,i'
            rows = list(self.table("a.csv", text.replace(",", delimiter)).rows())
            told = [(line, row if isinstance(row, dict) else type(row)) for line, row in rows]
            quoted = 'two\nlines, "quoted"'.replace(",", delimiter)
            wanted = [(2, {"id": "a", "title": quoted}), (6, {"id": "b"}), (7, UsageError)]
            wanted += [(8, {"id": "f", "title": "g"}), (9, UsageError), (10, {"id": "h", "title": "i"})]
            self.assertEqual(told, wanted)

    def test_files_that_are_none(self):
        self.assertRaises(UsageError, Source, self.file("a.txt", ""))
        self.assertRaises(OSError, Source, self.room / "b.csv")
        self.assertRaises(UsageError, list, self.table("c.csv", "a,a\n1,2\n").rows())
        self.assertEqual(list(self.table("d.csv", "").rows()), [])

    def test_columns(self):
        lines = [{"id": 1, "n": 5, "f": ["x"], "t": "5", "m": 1, "o": 1.5, "e": None}, {"id": "a", "n": None, "m": "x"}]
        lines += [{"m": 2}, [1], "x"]
        columns = self.table("a.jsonl", "\n".join(map(json.dumps, lines)) + "\n{").columns()
        kinds = {name: column.kind for name, column in columns.items()}
        self.assertEqual(
            kinds, {"id": "number", "n": "number", "f": "facet", "t": "text", "m": "number", "o": "text"}
        )
        columns = self.table("a.csv", "id,n,z,t,e,big\n1,-5,007,5,,9223372036854775808\n2,0,7,x,,1").columns()
        kinds = {name: column.kind for name, column in columns.items()}
        self.assertEqual(kinds, {"id": "number", "n": "number", "z": "text", "t": "text", "e": "text", "big": "text"})


class Plans(unittest.TestCase):
    def column(self, **counts):
        column = Column()
        column.counts.update(counts)
        return column

    def test_kinds_that_were_asked_go_first(self):
        columns = {"ID": self.column(text=1), "Big Price (EUR)": self.column(digits=2), "2nd": self.column(text=1)}
        names = {"Big Price (EUR)": "big_price_eur", "2nd": "nd"}
        self.assertEqual(planned(columns, {}, None), Plan({"big_price_eur": "number", "nd": "text"}, "ID", names))
        told = planned(columns, {"big_price_eur": "keyword", "2nd": "facet", "later": "number"}, None)
        self.assertEqual(told.fields, {"big_price_eur": "keyword", "later": "number", "nd": "facet"})
        told = planned(columns, {"2nd": "skip", "ID": "skip"}, None, "Big Price (EUR)")
        self.assertEqual(told.id_column, "Big Price (EUR)")

    def test_a_folder_keeps_its_fields(self):
        columns = {"id": self.column(text=1), "price": self.column(text=1)}
        existing = {"price": "number", "title": "text"}
        self.assertEqual(planned(columns, {}, existing).fields, existing)
        self.assertEqual(planned(columns, {"price": "number"}, existing).fields, existing)
        for asked in ({"price": "text"}, {"size": "text"}):
            self.assertRaises(UsageError, planned, columns, asked, existing)
        self.assertRaises(UsageError, planned, {**columns, "size": Column()}, {}, existing)
        self.assertEqual(planned({**columns, "size": Column()}, {"size": "skip"}, existing).fields, existing)

    def test_what_can_be_no_catalogue(self):
        one = self.column(text=1)
        wrong = [
            ({"sku": one}, {}, None, None),
            ({"sku": one}, {}, None, "id"),
            ({"id": one, "a b": one, "a-b": one}, {}, None, None),
            ({"id": one, "Id": one}, {}, None, None),
            ({"id": one, "5": one}, {}, None, None),
            ({"id": one}, {"a": "int"}, None, None),
            ({"id": one, **{f"f{n}": one for n in range(33)}}, {}, None, None),
        ]
        for arguments in wrong:
            with self.subTest(arguments=arguments):
                self.assertRaises(UsageError, planned, *arguments)


class Loads(FileTest):
    def test_lines_of_json_go_byte_by_byte(self):
        told = self.load("a.jsonl", '{"id":"a",  "price":5}\n{"id":"b","price":"x","title":"\\u00e9"}\n{"id":"b"')
        self.assertEqual((told.accepted, told.commit, told.plan.fields), (1, 1, {"price": "number", "title": "text"}))
        refused = [(each.line, type(each.error)) for each in told.refused]
        self.assertEqual(refused, [(2, jasminedome.WrongKind), (3, jasminedome.BadJson)])
        self.assertEqual(told.refused[0].detail, 'price is "x"')
        fields = fields_of(self.folder)
        with jasminedome.Catalogue(fields, self.folder, program=PROGRAM) as shop, shop.open() as view:
            self.assertEqual(view.source("a"), '{"id":"a",  "price":5}')
            self.assertEqual(shop.note(1), "load a.jsonl")

    def test_lines_of_json_that_are_made_items(self):
        lines = [{"id": 7, "Name": "Shoe", "junk": {}}, {"id": True}, [], {"id": "b", "Name": None, "junk": 5}]
        told = self.load("a.jsonl", "\n".join(map(json.dumps, lines)) + "\n{", fields={"junk": "skip"})
        self.assertEqual([each.line for each in told.refused], [2, 3, 5])
        self.assertEqual(self.items(), [{"id": "7", "name": "Shoe"}, {"id": "b", "name": None}])

    def test_tables(self):
        text = "sku,Title,price,color\n1,Red shoe,5,red | blue\n2,,,|\n3,x,y,\n4,x,1,a,b\n,x,1,\n"
        told = self.load("a.csv", text, fields={"color": "facet", "price": "number"}, id_column="sku")
        self.assertEqual([each.line for each in told.refused], [4, 5, 6])
        self.assertEqual([each.detail for each in told.refused], ['price is "y"', "", "id is null"])
        wanted = [{"id": "1", "title": "Red shoe", "price": 5, "color": ["red", "blue"]}, {"id": "2", "color": []}]
        self.assertEqual(self.items(), wanted)

    def test_a_second_file_goes_into_the_same_folder(self):
        self.load("a.csv", "id,price\na,1\nb,2\n")
        told = self.load("b.jsonl", '{"id":"b","price":3}\n{"id":"c"}')
        self.assertEqual((told.accepted, told.commit), (2, 2))
        self.assertEqual(self.items(), [{"id": "a", "price": 1}, {"id": "b", "price": 3}, {"id": "c"}])

    def test_where_nothing_is_put_nothing_is_committed(self):
        told = self.load("a.jsonl", '{"id":"a b"}\n')
        self.assertEqual((told.accepted, told.commit, len(told.refused)), (0, None, 1))
        self.assertIsNone(fields_of(self.folder))

    def test_what_is_no_text(self):
        told = self.load("a.jsonl", b'{"id":"a","title":"\xff"}\n{"id":"b"}\n')
        self.assertEqual([(each.line, type(each.error)) for each in told.refused], [(1, UsageError)])
        told = self.load("b.csv", b"id,title\na,\xff\nb,\x00\n")
        self.assertEqual([each.line for each in told.refused][:1], [2])

    def test_many_items_and_progress(self):
        calls = []
        lines = "".join(f'{{"id":"x{n}","price":{n}}}\n' if n % 3_000 else "{\n" for n in range(15_000))
        told = self.load("a.jsonl", lines, progress=lambda *call: calls.append(call))
        self.assertEqual(told.accepted, 14_995)
        self.assertEqual([each.line for each in told.refused], [1, 3_001, 6_001, 9_001, 12_001])
        self.assertEqual(calls[-1], (15_000, len(lines), len(lines)))
        with jasminedome.Catalogue(fields_of(self.folder), self.folder, program=PROGRAM) as shop:
            self.assertLess(len(shop.stat().segments), 10, "ten segments of a size are merged into one")
        answered = [items for items, _, _ in calls]
        self.assertEqual(answered, sorted(answered))


class CommandLine(CommandTest):
    def test_load(self):
        path = self.file("a.csv", "id,price\na,1\nb,2\n")
        status, out, err = self.run_main("load", path, "--folder", self.folder)
        self.assertEqual((status, err), (0, ""))
        told = r"\Aa\.csv: 2 of 2 items put in [0-9.]+ s \([0-9,]+ a second\), commit 1 of .*\n"
        self.assertRegex(out, told + r"fields: price number\n\Z")

    def test_a_summary_of_what_was_refused(self):
        path = self.file("a.jsonl", "".join('{"id":"a b"}\n' if n % 2 else '{"id":"c","N":1}\n' for n in range(60)))
        status, out, _ = self.run_main("load", path, "--folder", self.folder, "--field", "n:text")
        self.assertEqual(status, 1)
        self.assertIn("60 refused:\n  line 1: ", out)
        self.assertIn("line 2: the id is missing or has the wrong form (refusal 14): id is \"a b\"\n", out)
        self.assertIn("line 1: a value has the wrong kind, or the schema is wrong (refusal 13): n is 1\n", out)
        self.assertIn("  and 40 more; in all:\n  30 times: ", out)
        self.assertIn("so nothing was committed", out)
        self.assertNotIn("line 21:", out)

    def test_what_cannot_be_done(self):
        path = self.file("a.csv", "id,price\na,1\n")
        for arguments in (
            ("load", self.room / "none.csv", "--folder", self.folder),
            ("load", path, "--folder", path),
            ("load", path, "--folder", self.folder, "--id", "sku"),
            ("load", path, "--folder", self.folder, "--field", "price"),
            ("load", path, "--folder", self.folder, "--field", "price:int"),
            ("load", path, "--folder", self.folder, "--program", "/no/such/program"),
            ("load", path),
            ("shell", self.room),
            ("shell", self.room / "nowhere"),
            ("find",),
            (),
        ):
            with self.subTest(arguments=arguments):
                status, out, err = self.run_main(*arguments)
                self.assertEqual((status, out), (2, ""))
                self.assertTrue(err)

    def test_shell(self):
        path = self.file("a.jsonl", "".join(f'{{"id":"x{n}","price":{n},"color":["c{n % 3}"]}}\n' for n in range(30)))
        self.run_main("load", path, "--folder", self.folder)
        said = "\n".join(
            [
                ".sort -price", ".count 2", "price:[0 TO 3]", ".next", ".next", ".next", "", ".facets color price:[0 TO 3]",
                ".get x5", ".get none", '.put {"id":"new","price":50}', "price:50", ".refresh", "price:50", ".delete x0",
                ".deletewhere color:c1", ".commit spring", ".fields", ".stat", ".merge", ".sweep", ".files", ".help", ".sort",
            ]
        )
        status, out, err = self.run_main("shell", self.folder, said=said)
        self.assertEqual((status, err), (1, ""))  # there was no fourth page
        table = "id  color  price\n--  -----  -----\nx3  c0     3\nx2  c2     2\n"
        self.assertIn(table + "2 shown, 4 found, .next shows more\n", out)
        self.assertIn("x1  c1     1\nx0  c0     0\n2 shown, 4 found, .next shows more\n", out)
        self.assertIn("0 shown, 4 found\n", out)
        self.assertIn("count  color\n-----  -----\n2      c0\n1      c1\n1      c2\n3 labels shown, 3 found on 4 items\n", out)
        self.assertIn('{"id":"x5","price":5,"color":["c2"]}\nthere is no such item\nwrite 31: ', out)
        self.assertIn("0 shown, 0 found\nid ", out)  # the view holds still, until .refresh
        self.assertIn("commit 2\ncolor facet\nprice number\n33 writes, 0 of them waiting, 0 not committed\n", out)
        fields = fields_of(self.folder)
        with jasminedome.Catalogue(fields, self.folder, program=PROGRAM) as shop, shop.open() as view:
            self.assertEqual(view.find(count=0).total, 20)

    def test_shell_tells_what_is_wrong(self):
        self.run_main("load", self.file("a.jsonl", '{"id":"a","title":"x"}'), "--folder", self.folder)
        said = 'title:é "\n.facets title (\n.nonsense\n.count 0\n.sort +title\n.sort title\n.put {\n.put {"id":"b"}\n'
        said += ".quit\n.get a"
        status, out, err = self.run_main("shell", self.folder, said=said)
        self.assertEqual(status, 1)
        self.assertIn('title:é "\n        ^ here', out)
        self.assertIn("(\n ^ here", out)
        self.assertIn("there is no .nonsense (.help)", out)
        self.assertIn("refused: the field can't be sorted by (refusal 28)", out)
        self.assertIn("refused: the text is no JSON (refusal 11)", out)
        self.assertEqual(err, "1 writes weren't committed, and are gone\n")


class Terminals(unittest.TestCase):
    def test_a_bar_shows_on_a_terminal_alone(self):
        for is_terminal in (True, False):
            stream = io.StringIO()
            stream.isatty = lambda is_terminal=is_terminal: is_terminal
            bar = Bar(stream)
            bar.show(500, 50, 100)
            bar.show(501, 51, 100)  # too soon for another picture
            bar.end()
            if is_terminal:
                self.assertRegex(stream.getvalue(), r"\A\r\x1b\[K\[#{12}\.{12}\]  50%  500 items, [0-9,]+ a second\r\x1b\[K\Z")
            else:
                self.assertEqual(stream.getvalue(), "")

    def test_nothing_moves_the_terminal(self):
        self.assertEqual(shown("a\x1b[2Jé\n\u202e"), "a\\x1b[2Jé\\n\\u202e")
        self.assertEqual(table(["id"], [["\x1b"], ["字"]]), ["id", "----", "\\x1b", "字"])
        (_, _, line) = table(["id"], [["x" * 100]])
        self.assertEqual(line, "x" * 39 + "…")


if __name__ == "__main__":
    unittest.main()
