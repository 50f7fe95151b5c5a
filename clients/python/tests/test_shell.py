"""The dialogue: what it says to who types something else than a query, its keys, and what goes into a pipe."""

import contextlib
import io
import os
import shlex
import subprocess
import sys
import unittest
from pathlib import Path
from types import SimpleNamespace
from unittest import mock

from support import HERE, PROGRAM, CommandTest  # before the package: it finds it

from jasminedome import keys, shell
from jasminedome.keys import Completer, history_file
from jasminedome.shell import HELP, Shell

LONG = "A very long title that no terminal of eighty columns could ever show on one single line of it, with more behind"


class Dialogue(CommandTest):
    def setUp(self):
        super().setUp()
        lines = f'{{"id":"a","title":"Red shoe","price":5,"note":"n"}}\n{{"id":"b","title":"{LONG}","price":7}}\n'
        self.run_main("load", self.file("a.jsonl", lines), "--folder", self.folder, "--field", "price:number")

    def said(self, *lines):
        status, out, err = self.run_main("shell", self.folder, said="\n".join(lines))
        self.assertEqual(err, "")
        return status, out

    def test_words_are_answered_with_what_to_type(self):
        status, out = self.said("red shoe")
        self.assertEqual(status, 1)
        self.assertIn("a query names a field: +note:red +note:shoe\nthe fields are note, price, title; .help tells more\n", out)
        status, out = self.said("+title:red +title:shoe")
        self.assertEqual(status, 0)
        self.assertIn("1 shown, 1 found", out)
        for typed, told in (
            ("shoe", "a query names a field: note:shoe\n"),
            ('"', "a query names a field and a colon (note, price, title); .help tells more\n"),
            ("stat", "commands begin with a dot: .stat\n"),
            ("facets title", "commands begin with a dot: .facets title\n"),
            ("quit", ".quit ends this\n"),
            ("title:", "title:\n      ^ here it is no query any more\n"),
            (".facets note red shoe", "red shoe\n^ here it is no query any more\n"),
        ):
            with self.subTest(typed=typed):
                status, out = self.said(typed)
                self.assertEqual(status, 1)
                self.assertTrue(out.startswith(told), out)

    def test_help_is_help(self):
        for typed in ("help", "?", ".help"):
            self.assertIn(HELP, self.said(typed)[1])

    def test_output_to_a_pipe_is_whole(self):
        for columns in ("40", "200"):
            with mock.patch.dict(os.environ, {"COLUMNS": columns}):
                out = self.said("*:*")[1]
            self.assertIn(LONG, out)
            self.assertNotIn("…", out)

    def test_output_to_a_terminal_fits(self):
        out = io.StringIO()
        out.isatty = lambda: True
        with shell.Catalogue({"note": "text", "price": "number", "title": "text"}, self.folder, program=PROGRAM) as shop:
            with mock.patch.dict(os.environ, {"COLUMNS": "50"}):
                Shell(shop, shop.fields, out).say("*:*")
        self.assertIn("…", out.getvalue())
        self.assertLessEqual(max(map(len, out.getvalue().splitlines())), 50)

    def test_an_interrupt_ends_a_line_and_not_the_dialogue(self):
        out = io.StringIO()
        with contextlib.ExitStack() as patches:
            patches.enter_context(mock.patch.dict(os.environ, {"XDG_STATE_HOME": str(self.room)}))
            patches.enter_context(mock.patch.object(sys, "stdin", SimpleNamespace(isatty=lambda: True)))
            patches.enter_context(mock.patch("builtins.input", side_effect=["*:*", "*:*", ".quit"]))
            patches.enter_context(mock.patch.object(Shell, "say", side_effect=[KeyboardInterrupt, True, shell.Quit]))
            patches.enter_context(contextlib.redirect_stdout(out))
            self.assertEqual(shell.run(self.folder, PROGRAM), 0)
        self.assertIn("interrupted: what was said may be done yet", out.getvalue())

    def test_a_reader_that_goes_away(self):
        command = [sys.executable, "-m", "jasminedome", "shell", str(self.folder)]
        environment = {**os.environ, "PYTHONPATH": str(HERE.parent), "JASMINEDOME_PROGRAM": shlex.join(PROGRAM)}
        child = subprocess.Popen(
            command, stdin=subprocess.PIPE, stdout=subprocess.PIPE, stderr=subprocess.PIPE, text=True, env=environment
        )
        child.stdout.close()
        _, err = child.communicate("*:*\n" * 100, timeout=30)
        self.assertEqual((child.returncode, err), (0, ""))


class Keys(unittest.TestCase):
    def found(self, line, word):
        words = [".facets", ".fields", ".find", ".sort", "price:", "title:", "tint:"]
        return Completer(lambda: words, lambda: line).found(word)

    def test_completion(self):
        self.assertEqual(self.found("", ""), [".facets ", ".fields ", ".find ", ".sort ", "price:", "title:", "tint:"])
        self.assertEqual(self.found(".fi", ".fi"), [".fields ", ".find "])
        self.assertEqual(self.found("ti", "ti"), ["title:", "tint:"])
        self.assertEqual(self.found("+price:5 +ti", "ti"), ["title:", "tint:"])
        self.assertEqual(self.found(".facets ti", "ti"), ["title ", "tint "])
        self.assertEqual(self.found(".facets title ti", "ti"), ["title:", "tint:"])
        self.assertEqual(self.found("title:red .so", ".so"), [])
        complete = Completer(lambda: ["title:", "tint:"], lambda: "ti")
        self.assertEqual([complete("ti", state) for state in range(3)], ["title:", "tint:", None])

    def test_a_history_outlives_the_dialogue(self):
        with mock.patch.dict(os.environ, {"XDG_STATE_HOME": "/some/where"}):
            self.assertEqual(history_file(), Path("/some/where/jasminedome/history"))
        with mock.patch.dict(os.environ, {"HOME": "/home/x", "XDG_STATE_HOME": ""}):
            self.assertEqual(history_file(), Path("/home/x/.local/state/jasminedome/history"))

    def test_a_dialogue_at_a_terminal(self):
        try:
            import pty
            import readline  # noqa: F401
        except ImportError:
            self.skipTest("there is no readline")
        import tempfile

        with tempfile.TemporaryDirectory() as room:
            code = "from jasminedome.keys import keys\nwith keys(lambda: ['.facets', 'title:']):\n"
            code += "    print('said', input('> '))"
            ours, theirs = pty.openpty()
            environment = {**os.environ, "PYTHONPATH": str(HERE.parent), "XDG_STATE_HOME": room, "TERM": "dumb"}
            child = subprocess.Popen([sys.executable, "-c", code], stdin=theirs, stdout=theirs, stderr=theirs, env=environment)
            os.close(theirs)
            os.write(ours, b"tit\tred\n")
            shown = b""
            with self.assertRaises(OSError):  # the end of the terminal
                while True:
                    shown += os.read(ours, 1_000)
            os.close(ours)
            self.assertEqual(child.wait(20), 0)
            self.assertIn(b"said title:red", shown)
            self.assertIn("title:red", (Path(room) / "jasminedome" / "history").read_text())


if __name__ == "__main__":
    unittest.main()
