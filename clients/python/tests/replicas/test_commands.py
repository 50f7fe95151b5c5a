"""The commands `log` and `replica`, as somebody says them."""

import contextlib
import io
import os
import signal
import subprocess
import sys

import replicated  # first: it finds the package
from replicated import PACKAGE, puts

from jasminedome import __main__
from jasminedome.replicas import Log, Mark


class Commands(replicated.LogTest):
    def run_it(self, *words):
        """The exit status of a command, and what it says."""
        out, err = io.StringIO(), io.StringIO()
        with contextlib.redirect_stdout(out), contextlib.redirect_stderr(err):
            try:
                status = __main__.main([str(word) for word in words])
            except SystemExit as ended:
                status = ended.code
        return status, out.getvalue(), err.getvalue()

    def log_it(self, command, *words, name=None):
        return self.run_it("log", command, "--dsn", self.dsn, "--name", name or self.name, *words)

    def test_a_log_is_made_filled_and_looked_after(self):
        name = f"{self.name}x"
        self.addCleanup(self.ask, f"DROP SCHEMA IF EXISTS {name} CASCADE")
        fields = [f"--field={field}:{kind}" for field, kind in replicated.FIELDS.items()]
        status, out, err = self.log_it("create", *fields, "--most-lead", 50, name=name)
        self.assertEqual((status, out, err), (0, f"the log {name} of 4 fields is made, under the rules 0.1\n", ""))
        status, out, err = self.log_it("create", *fields, name=name)
        self.assertEqual((status, out), (2, ""))
        self.assertRegex(err, "^jasminedome: .*already exists")
        with Log(self.dsn, name) as log:
            self.assertEqual((log.fields, log.head().most_lead), (replicated.FIELDS, 50))
        one = replicated.Node(self.dsn, name, self.room, "one", pulse="0.1s,0.2s").start()
        self.nodes.append(one)
        file = self.room / "items.csv"
        rows = [f"shoe-{number},Shoe {number},{number}.50" for number in range(1_200)]
        file.write_text("\n".join(["id,title,price", *rows, "x y,Bad id,5.00", "long," + "x" * 12_000 + ",1.00"]))
        status, out, err = self.log_it("load", file, "--field", "price:cents", name=name)
        self.assertEqual((status, err), (1, ""))
        self.assertRegex(out, r"^1,201 items appended .* up to \d+ of ")
        self.assertIn("fields: brand keyword, color facet, price number, title text\n2 refused:\n", out)
        self.assertRegex(out, r"line 1,202: the id is missing.*\n +line 1,203: .*bytes, and may have")
        status, out, err = self.log_it("load", file, "--field", "price:cents", name=name)
        self.assertIn("1,201 of them were there before", out)
        view = self.shelves(one).open()
        self.assertEqual((view.find().total, view.get("shoe-7")["price"]), (1_200, 750))
        status, out, err = self.log_it("load", file, "--field", "price:cents", "--again", name=name)
        self.assertNotIn("there before", out)
        status, out, err = self.log_it("status", name=name)
        self.assertEqual((status, err), (0, ""))
        self.assertRegex(out, r"^log .*: at \d+, cut up to 0, rules 0\.1\nfields: brand keyword")
        self.assertRegex(out, r"\none +127\.0\.0\.1:\d+ +0\.1\.\d")

    def test_an_audit(self):
        nodes = [self.node(name) for name in ("one", "two")]
        position = self.log.append(puts(*range(20)), Mark.ANCHOR)
        for node in nodes:
            node.wait(position)
        status, out, err = self.log_it("audit", "--patience", 20)
        self.assertEqual((status, err), (0, ""))
        shown = "one shows ([0-9a-f]{16}) at 2\ntwo shows \\1 at 2\nall replicas show the same\n$"
        self.assertRegex(out, f"^2 batches, 1 to 2: each has its seal\n{shown}")
        self.ask("UPDATE batch SET lines = 'DEL a' WHERE position = 1")
        nodes[1].process.send_signal(signal.SIGSTOP)
        status, out, err = self.log_it("audit", "--patience", 1)
        nodes[1].process.send_signal(signal.SIGCONT)
        self.assertEqual(status, 1)
        self.assertRegex(out, "batch 1 isn't what its seal says\n(?s:.*)two has told nothing of 3\nNOT ALL IS WELL\n$")

    def test_what_an_operator_does(self):
        for number in range(5):
            self.log.append([f"DEL {number}"])
        self.ask("INSERT INTO replica VALUES ('gone', 'nowhere:1', '0.1.0', 3, 0, 0, 3, true)")
        self.assertEqual(self.log_it("cut", "--days", 0)[:2], (0, "cut up to 2; the log is at 5\n"))
        told = self.log_it("skip", 5, 0, "--reason", "it ends the program")
        self.assertEqual(told[:2], (0, "every replica leaves out line 0 of 5\n"))
        status, out, err = self.log_it("skip", 3, 0, "--reason", "late")
        self.assertEqual((status, out, err), (2, "", "jasminedome: the replica gone has applied 3 already\n"))
        self.assertEqual(self.log_it("forget", "gone")[:2], (0, "gone is forgotten\n"))
        self.assertEqual(self.log_it("forget", "gone")[:2], (1, "no replica is called gone\n"))
        self.assertIn("no replica has told of itself yet", self.log_it("status")[1])

    def test_a_replica_ends_in_order(self):
        one = self.node("one", every="1,0.1")
        one.wait(self.log.append(puts(1), Mark.ANCHOR))
        program = one.until("process")
        for number in (signal.SIGTERM, signal.SIGINT):
            one.process.send_signal(number)
            self.assertEqual(one.process.wait(20), 0)
            self.assertFalse(os.path.exists(f"/proc/{program}"))
            program = one.start().until("process")
        self.cluster.stop()
        try:
            one.process.send_signal(signal.SIGTERM)
            self.assertEqual(one.process.wait(20), 0)  # it doesn't wait for PostgreSQL
        finally:
            self.cluster.start()

    def test_words_that_are_none(self):
        for words in (
            ["log", "create", "--dsn", "x", "--field", "price:cents"],
            ["replica", "--dsn", "x", "--folder", "y", "--listen", "z:1", "--pulse", "1s"],
            ["replica", "--dsn", "x", "--folder", "y", "--listen", "z:1", "--every", "5"],
            ["replica", "--dsn", "x", "--folder", self.room / "y", "--listen", "nowhere"],
            ["log", "status", "--dsn", "x", "--name", "Shop"],
        ):
            with self.subTest(words=words):
                self.assertEqual(self.run_it(*words)[0], 2)

    def test_without_psycopg2(self):
        (self.room / "psycopg2.py").write_text("raise ImportError")
        environment = {**os.environ, "PYTHONPATH": os.pathsep.join([str(self.room), str(PACKAGE)])}
        for words in (["log", "status", "--dsn", "x"], ["replica", "--dsn", "x", "--folder", "y", "--listen", "z:1"]):
            command = [sys.executable, "-m", "jasminedome", *words]
            told = subprocess.run(command, env=environment, stdout=subprocess.PIPE, stderr=subprocess.PIPE, text=True)
            self.assertEqual((told.returncode, told.stdout), (2, ""))
            self.assertIn("pip install 'jasminedome[postgres]'", told.stderr)
        command = [sys.executable, "-m", "jasminedome", "--version"]
        self.assertEqual(subprocess.run(command, env=environment, stdout=subprocess.DEVNULL).returncode, 0)
