"""What the tests of the files of routers share: an example, and a run of tools/deploy."""
import io
import os
import shutil
import sys
import tempfile
import unittest
from contextlib import redirect_stderr, redirect_stdout

sys.dont_write_bytecode = True
HERE = os.path.dirname(os.path.abspath(__file__))
TOP = os.path.dirname(os.path.dirname(HERE))
sys.path[:0] = [os.path.join(TOP, "tools"), HERE]

from deploying.command import main  # noqa: E402

EXAMPLE = os.path.join(TOP, "examples", "two-exits")
TOPOLOGY, MAPS, ADDRESSES, DEPLOYED = (os.path.join(EXAMPLE, name) for name in ("topology.json", "routemap.stdout", "addresses.json", "deployed"))
# The addresses of two links, as ADDRESSES has them.
SHORT, ODD = '"addresses":["10.0.0.0","10.0.0.1"]', '"addresses":["198.51.100.2","198.51.100.1"]'


def text_of(path):
    with open(path, encoding="utf-8") as file:
        return file.read()


def put(folder, name, text):
    with open(os.path.join(folder, name), "w", encoding="utf-8") as file:
        file.write(text)


def deploy(*words):
    """The status, the output and the error output of a run."""
    out, err = io.StringIO(), io.StringIO()
    with redirect_stdout(out), redirect_stderr(err):
        status = main(list(words), "usage\n")
    return status, out.getvalue(), err.getvalue()


class InFolder(unittest.TestCase):
    """Tests that write into a folder of their own."""

    maxDiff = None

    def setUp(self):
        self.folder = tempfile.mkdtemp()
        self.addCleanup(shutil.rmtree, self.folder)
