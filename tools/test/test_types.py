"""The scripts as mypy and pyflakes see them. Where these can't be had, tools/check says loudly that they were not run."""
import os
import tempfile
import unittest

from common import TOP, ended
from gate import packages

TOOLS = os.path.join(TOP, "tools")
MYPY, PYFLAKES = {"mypy": "mypy"}, {"pyflakes3": "pyflakes3"}
TYPED = ("texts", "deploying", "laboratory", "reasons", "words", "gate", "opening", "reports", "expecting", "exchange", "watching", "rolling")  # the packages with types
SCRIPTS = ("crates",)  # the scripts with types that are in no package
UNTRIED = "Whether the types of the scripts fit, and whether they name what isn't there, was not tried."


def needed(programs):
    """Installs programs, or skips the test, loudly."""
    if not packages.installed(programs, "tools"):
        why = packages.absent(programs)
        packages.not_run("tools", why, UNTRIED)
        raise unittest.SkipTest(why)


def is_python(path):
    """Whether a file is a script in Python."""
    if path.endswith(".py"):
        return True
    with open(path, "rb") as file:
        return file.readline() == b"#!/usr/bin/env python3\n"


def scripts():
    """Each script of the repository."""
    folders = [os.path.join(TOP, name) for name in ("tools", "bench", "examples")]
    paths = [os.path.join(at, name) for folder in folders for at, _, names in os.walk(folder) for name in names]
    return sorted(path for path in paths if "__pycache__" not in path and is_python(path))


class Types(unittest.TestCase):
    def test_mypy(self):
        needed(MYPY)
        with tempfile.TemporaryDirectory() as cache:
            words = [word for name in TYPED for word in ("-p", name)]
            for these in words, SCRIPTS:
                status, said, wrong = ended(["mypy", "--config-file", "mypy.ini", "--cache-dir", cache, *these], cwd=TOOLS, timeout=600)
                self.assertEqual((status, wrong), (0, ""), said)

    def test_pyflakes(self):
        needed(PYFLAKES)
        self.assertEqual(ended(["pyflakes3", *scripts()], timeout=600), (0, "", ""))


if __name__ == "__main__":
    unittest.main()
