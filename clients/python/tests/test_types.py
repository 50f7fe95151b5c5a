"""That the package's types fit together, as mypy reads them, and that wrong calls are told: those of wrong_calls.py."""

import shutil
import subprocess
import sys
import unittest

import support

PACKAGE = support.HERE.parent
MYPY = shutil.which("mypy")


class Types(unittest.TestCase):
    @unittest.skipUnless(MYPY, "there is no mypy: apt-get install mypy")
    def test_the_types_fit(self):
        told = subprocess.run([MYPY, "--config-file", "pyproject.toml"], cwd=PACKAGE, stdout=subprocess.PIPE, text=True)
        self.assertEqual(told.returncode, 0, told.stdout)

    def test_the_package_says_that_it_has_types(self):
        self.assertTrue((PACKAGE / "jasminedome" / "py.typed").is_file(), sys.path)


if __name__ == "__main__":
    unittest.main()
