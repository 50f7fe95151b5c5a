"""What `serve` is told, and what it makes of it before it serves."""

import argparse
import contextlib
import io
import unittest
from unittest import mock

import support  # first: it finds the package

import jasminedome
from jasminedome import UsageError, __main__
from jasminedome.errors import FolderInUse
from jasminedome.http import Folding, command

FIELDS = [f"{name}:{kind}" for name, kind in support.FIELDS.items()]


class Opened(support.FileTest):
    def opened(self, *arguments):
        """The catalogue that such a command serves."""
        program = mock.patch.dict("os.environ", JASMINEDOME_PROGRAM=" ".join(support.PROGRAM))
        asked = __main__._parser().parse_args(["serve", *map(str, arguments)])
        with program, contextlib.ExitStack() as stack:
            catalogue = command._opened(asked, stack)
            self.addCleanup(stack.pop_all().close)
        return catalogue

    def test_in_memory_and_in_a_folder_that_is_made(self):
        for where in ([], ["--folder", self.folder]):
            catalogue = self.opened("--field", FIELDS[0], "--fields", ",".join(FIELDS[1:]), *where)
            self.assertEqual(catalogue.fields, support.FIELDS)
            self.assertEqual(catalogue.timeout, 30.0)
        self.assertTrue(self.folder.is_dir())

    def test_threads_of_the_program_answer(self):
        for where in ([], ["--folder", self.folder]):
            catalogue = self.opened("--field", FIELDS[0], "--threads", "2", *where)
            self.assertEqual(catalogue.threads, 2)
            self.assertEqual(catalogue.put({"id": "a"}), 1)
            catalogue.refresh()
            with catalogue.open() as view:
                self.assertEqual(view.find().total, 1)
            catalogue.close()
        self.assertRaises(UsageError, self.opened, "--field", FIELDS[0], "--threads", "65")

    def test_a_folder_says_its_own_fields(self):
        with self.opened("--folder", self.folder, "--field", FIELDS[0]) as catalogue:
            catalogue.commit()
        with self.opened("--folder", self.folder) as catalogue:
            self.assertEqual(catalogue.fields, {"brand": "keyword"})
        with self.assertRaisesRegex(UsageError, "leave --field out"):
            self.opened("--folder", self.folder, "--field", "other:text")

    def test_what_is_new_needs_fields(self):
        for where in ([], ["--folder", self.folder]):
            with self.assertRaisesRegex(UsageError, "a new catalogue needs fields"):
                self.opened(*where)
        with self.assertRaisesRegex(UsageError, "a journal needs a folder"):
            self.opened("--field", FIELDS[0], "--journal", self.room / "journal")

    @unittest.skipUnless(support.REAL, "the stand-in locks no folder")
    def test_a_folder_that_somebody_has_is_waited_for_and_no_longer_than_that(self):
        said = ["--folder", self.folder, "--field", FIELDS[0]]
        first = self.opened(*said)
        with mock.patch.object(command, "_PATIENCE", 0.2):
            self.assertRaises(FolderInUse, self.opened, *said)
        with mock.patch.object(command.time, "sleep", side_effect=lambda _: first.close()):
            self.opened(*said)


class Told(unittest.TestCase):
    def test_arguments_that_are_none(self):
        parse = __main__._parser().parse_args
        self.assertEqual(parse(["serve", "--fold", "words=title, brand"]).fold, Folding("words", ("title", "brand")))
        self.assertEqual(parse(["serve", "--words", "title,brand"]).words, ("title", "brand"))
        fields = (["--field", "title"], ["--field", "title:cents"], ["--fold", "words"])
        for wrong in (*fields, ["--show-every", "x"], ["--port", "5"]):
            with self.assertRaises(SystemExit), contextlib.redirect_stderr(io.StringIO()):
                parse(["serve", *wrong])

    def test_keys_come_from_a_file_or_the_environment(self):
        self.assertIsNone(command._key(None, "NO_SUCH_KEY"))
        with mock.patch.dict("os.environ", A_KEY="of-the-environment"):
            self.assertEqual(command._key(None, "A_KEY"), "of-the-environment")
        self.assertRaises(OSError, command._key, "/no/such/file", "A_KEY")

    def test_what_is_wanting_is_told(self):
        with wanting("uvicorn", "starlette"), self.assertRaisesRegex(UsageError, "apt-get install python3-starlette"):
            command.serve(argparse.Namespace())
        with wanting("starlette"), jasminedome.Catalogue(support.FIELDS, program=support.PROGRAM) as shop:
            with jasminedome.http.Service(shop) as service, self.assertRaisesRegex(UsageError, "needs Starlette"):
                jasminedome.http.make_app(service)


@contextlib.contextmanager
def wanting(*libraries):
    """As if these weren't installed, also where what rests on them was imported before."""
    resting = ("serving", "app")
    away = dict.fromkeys((*libraries, *(f"jasminedome.http.{name}" for name in resting)))
    with contextlib.ExitStack() as stack:
        stack.enter_context(mock.patch.dict("sys.modules", away))
        for name in resting:
            if hasattr(jasminedome.http, name):
                stack.callback(setattr, jasminedome.http, name, getattr(jasminedome.http, name))
                delattr(jasminedome.http, name)
        yield


if __name__ == "__main__":
    unittest.main()
