"""Which program the tests start, and what they share. JASMINEDOME_PROGRAM names the real one; else it is the fake."""

import contextlib
import io
import os
import shlex
import shutil
import sys
import tarfile
import tempfile
import unittest
from pathlib import Path
from unittest import mock

HERE = Path(__file__).resolve().parent
sys.path.insert(0, str(HERE.parent))

import jasminedome  # noqa: E402
from jasminedome import __main__, fields_of  # noqa: E402
from jasminedome.loading import load  # noqa: E402
from jasminedome.sources import Source  # noqa: E402
from jasminedome.tables import Table  # noqa: E402

FAKE = [sys.executable, str(HERE / "fake_catalogue.py")]
REAL = shlex.split(os.environ.get("JASMINEDOME_PROGRAM", ""))
PROGRAM = REAL or FAKE
FIELDS = {"brand": "keyword", "color": "facet", "price": "number", "title": "text"}


def shop(program=PROGRAM, **options):
    """A catalogue with the fields of the tests."""
    return jasminedome.Catalogue(FIELDS, program=program, **options)


def scripted(*replies, **options):
    """A program that answers the schema, and then these replies, one for each line that it reads, and ends."""
    code = "import sys\nsys.stdin.readline()\nprint('OK 0', flush=True)\n"
    code += f"for reply in {replies!r}:\n    sys.stdin.readline()\n    print(reply, flush=True)\n"
    return jasminedome.Catalogue(FIELDS, program=[sys.executable, "-c", code], **options)


def untar(data, folder):
    """Makes a folder of the files of a tar; answers their names, in order."""
    folder.mkdir()
    with tarfile.open(fileobj=io.BytesIO(data)) as tar:
        for member in tar.getmembers():
            (folder / member.name).write_bytes(tar.extractfile(member).read())
        return tar.getnames()


class ShopTest(unittest.TestCase):
    """A test with a catalogue of its own, `self.shop`."""

    def setUp(self):
        self.shop = shop()
        self.addCleanup(self.shop.close)


class FileTest(unittest.TestCase):
    """A test with a room for files, and a folder that isn't made yet."""

    def setUp(self):
        self.room = Path(tempfile.mkdtemp())
        self.addCleanup(shutil.rmtree, self.room)
        self.folder = self.room / "new" / "folder"

    def file(self, name, content):
        path = self.room / name
        path.write_bytes(content if isinstance(content, bytes) else content.encode())
        return path

    def table(self, name, content, **options):
        return Table(Source(self.file(name, content), **options))

    def load(self, name, content, **options):
        return load(self.file(name, content), self.folder, program=PROGRAM, **options)

    def items(self):
        """Every item of the folder as it is stored, in the order of addition."""
        with jasminedome.Catalogue(fields_of(self.folder), self.folder, program=PROGRAM) as shop, shop.open() as view:
            return [view.get(hit.id) for page in view.pages(count=1_000) for hit in page.hits]


class CommandTest(FileTest):
    """A test that says a command."""

    def run_main(self, *arguments, said=""):
        out, err = io.StringIO(), io.StringIO()
        environment = {"JASMINEDOME_PROGRAM": shlex.join(PROGRAM)}
        streams = [contextlib.redirect_stdout(out), contextlib.redirect_stderr(err)]
        with mock.patch.dict(os.environ, environment), mock.patch.object(sys, "stdin", io.StringIO(said)):
            with streams[0], streams[1]:
                try:
                    status = __main__.main([str(each) for each in arguments])
                except SystemExit as ended:
                    status = ended.code
        return status, out.getvalue(), err.getvalue()
