"""That the package installs without a network, whole, and is the same package then."""

import gzip
import importlib.util
import os
import shutil
import subprocess
import sys
import tempfile
import unittest
import zipfile
from pathlib import Path
from unittest import mock

import support  # first: it finds the package

import jasminedome

PACKAGE = support.HERE.parent
HAS_PIP = importlib.util.find_spec("pip") is not None

sys.path.insert(0, str(PACKAGE / "backend"))
import jasminedome_build  # noqa: E402

RELEASE = jasminedome_build.release() if jasminedome_build.runs_here() else None


class Wheels(unittest.TestCase):
    def setUp(self):
        room = tempfile.TemporaryDirectory()
        self.addCleanup(room.cleanup)
        self.room = Path(room.name)

    def test_a_wheel_has_every_module_and_no_more(self):
        name = jasminedome_build.build_wheel(str(self.room))
        self.assertEqual(name, f"jasminedome-{jasminedome.__version__}-{jasminedome_build.tag(RELEASE)}.whl")
        first = (self.room / name).read_bytes()
        with zipfile.ZipFile(self.room / name) as wheel:
            self.assertIsNone(wheel.testzip())
            names = {each for each in wheel.namelist() if ".dist-info" not in each}
            record = wheel.read(f"jasminedome-{jasminedome.__version__}.dist-info/RECORD").decode().splitlines()
            self.assertEqual({line.split(",")[0] for line in record}, set(wheel.namelist()))
            inside = [each for each in wheel.infolist() if "/bin/" in each.filename]
            programs = {each.filename: each.external_attr >> 16 & 0o777 for each in inside}
            told = wheel.read(f"jasminedome-{jasminedome.__version__}.dist-info/METADATA").decode()
        modules = [path.relative_to(PACKAGE).as_posix() for path in (PACKAGE / "jasminedome").rglob("*")]
        sources = {each for each in modules if each.endswith((".py", ".sql", ".typed"))}
        released = {f"jasminedome/bin/{each}" for each in jasminedome_build.PROGRAMS} if RELEASE else set()
        self.assertEqual((names, programs), (sources | released, {each: 0o755 for each in released}))
        self.assertIn("Requires-Dist: starlette>=0.26; extra == 'http'\n", told)
        self.assertIn("Requires-Dist: uvicorn>=0.17; extra == 'http'\n", told)
        self.assertIn("Requires-Dist: psycopg2>=2.9; extra == 'postgres'\n", told)
        self.assertIn("jasminedome/replicas/schema.sql", names)
        jasminedome_build.build_wheel(str(self.room))
        self.assertEqual((self.room / name).read_bytes(), first)

    @unittest.skipUnless(RELEASE, "there is no release for this machine")
    def test_a_wheel_takes_no_program_but_that_of_the_manifest(self):
        folder = self.room / "release"
        shutil.copytree(RELEASE, folder, ignore=shutil.ignore_patterns("out"))
        self.assertEqual([name for name, _ in jasminedome_build.programs(folder)], list(jasminedome_build.PROGRAMS))
        manifest = (folder / "manifest.txt").read_text()
        (folder / "manifest.txt").write_text(manifest.replace(f"version {jasminedome.__version__}", "version 9.9.9"))
        with self.assertRaisesRegex(ValueError, "9.9.9"):
            list(jasminedome_build.programs(folder))
        (folder / "manifest.txt").write_text(manifest)
        (folder / "catalogue.gz").write_bytes(gzip.compress(b"another program"))
        with self.assertRaisesRegex(ValueError, "isn't the program"):
            list(jasminedome_build.programs(folder))
        with mock.patch.object(jasminedome_build.platform, "machine", return_value="riscv64"):
            self.assertTrue(jasminedome_build.build_wheel(str(self.room)).endswith("-py3-none-any.whl"))

    def test_the_sources_make_the_same_wheel(self):
        name = jasminedome_build.build_sdist(str(self.room))
        self.assertEqual(name, f"jasminedome-{jasminedome.__version__}.tar.gz")
        subprocess.run(["tar", "xzf", name], cwd=self.room, check=True)
        backend = self.room / name[: -len(".tar.gz")] / "backend"
        code = "import sys, jasminedome_build\nprint(jasminedome_build.build_wheel(sys.argv[1]))"
        told = subprocess.check_output([sys.executable, "-c", code, str(self.room)], cwd=backend, text=True).strip()
        again = (self.room / told).read_bytes()
        jasminedome_build.build_wheel(str(self.room))
        self.assertEqual((self.room / told).read_bytes(), again)

    @unittest.skipUnless(HAS_PIP, "there is no pip")
    def test_pip_installs_it_without_a_network(self):
        before = sources_of(PACKAGE)
        target = self.room / "site"
        dead = "http://127.0.0.1:9"
        offline = {**os.environ, "PIP_ROOT_USER_ACTION": "ignore", "http_proxy": dead, "https_proxy": dead}
        command = [sys.executable, "-m", "pip", "install", "--no-index", "--quiet", "--disable-pip-version-check"]
        subprocess.run([*command, "--target", str(target), str(PACKAGE)], check=True, env=offline)
        self.assertEqual(sources_of(PACKAGE), before)
        clean = {**offline, "PYTHONPATH": str(target)}
        clean.pop("JASMINEDOME_PROGRAM", None)

        def said(*words):
            return subprocess.check_output([sys.executable, *words], env=clean, cwd=self.room, text=True).split()

        code = "import jasminedome, importlib.metadata as m\nprint(jasminedome.__file__, m.version('jasminedome'))"
        self.assertEqual(said("-c", code), [str(target / "jasminedome" / "__init__.py"), jasminedome.__version__])
        self.assertEqual(said("-m", "jasminedome", "--version"), ["jasminedome", jasminedome.__version__])
        if RELEASE:  # the program is inside
            code = "from jasminedome import Catalogue\nwith Catalogue({'title': 'text'}) as shop: print(shop.put({'id': 'a'}))"
            self.assertEqual(said("-c", code), ["1"])


def sources_of(folder):
    """The files of a folder, but what Python and mypy keep of them."""
    return sorted(path for path in folder.rglob("*") if not {"__pycache__", "out"} & set(path.parts))


if __name__ == "__main__":
    unittest.main()
