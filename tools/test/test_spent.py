"""tools/spent adds up what the processes of a run use, by what they are run for."""
import os
import subprocess
import sys
import tempfile
import unittest
from unittest import mock

from common import TOP, ended, tool

TOOL = os.path.join(TOP, "tools", "spent")
PARTS = ["the proofs of crates", "the tests", "the wrong edits", "all else", "together"]


class WhatIsSpent(unittest.TestCase):
    def setUp(self):
        self.spent = tool("spent")

    def test_processes_are_added_up(self):
        # each process by its parent, its ticks and when it began: 1 is this run, 9 none of its own
        looks = [
            {1: (0, 900, 10), 2: (1, 100, 20), 3: (2, 200, 30), 9: (0, 800, 5)},
            # 3 goes on, 4 is new, and the number of 2, which has ended, is given again
            {1: (0, 950, 10), 2: (1, 50, 40), 3: (1, 300, 30), 4: (3, 400, 35), 9: (0, 900, 5)},
        ]
        purposes = {2: (self.spent.PROOF, "low"), 3: (self.spent.EDITS, "low"), 4: None, 9: (self.spent.PROOF, "other")}
        found = self.spent.Spent()
        with mock.patch.object(self.spent, "processes", side_effect=looks), mock.patch.object(self.spent, "purpose", side_effect=purposes.get):
            found.look(1)
            found.look(1)
        ticks = {it: took * self.spent.TICKS for it, took in found.seconds().items()}
        self.assertEqual(ticks, {(self.spent.PROOF, "low"): 150, (self.spent.EDITS, "low"): 300})

    @unittest.skipUnless(os.path.isdir("/proc/self"), "it needs Linux")
    def test_purposes(self):
        with tempfile.TemporaryDirectory(prefix="rt-edit-") as room:
            for folder, words, wanted in (
                (TOP, ["--crate-name", "low"], (self.spent.PROOF, "low")),
                (TOP, ["--crate-name", "low", "--test"], (self.spent.TESTS, "low")),
                (room, ["--crate-name", "low"], (self.spent.EDITS, "low")),
                (TOP, [], None),
                (TOP, ["--crate-name"], None),
            ):
                # it says that it has begun, and lives until its input ends
                code = "import sys\nprint('begun', flush=True)\nsys.stdin.read()"
                with subprocess.Popen([sys.executable, "-c", code, *words], cwd=folder, stdin=subprocess.PIPE, stdout=subprocess.PIPE) as ran:
                    self.assertEqual(ran.stdout.readline(), b"begun\n")
                    self.assertEqual(self.spent.purpose(ran.pid), wanted)
                    self.assertIn(ran.pid, self.spent.below(os.getpid(), self.spent.processes()))
        self.assertIsNone(self.spent.purpose(ran.pid))

    @unittest.skipUnless(os.path.isdir("/proc/self"), "it needs Linux")
    def test_run(self):
        status, out, err = ended([TOOL, "sh", "-c", "echo said; exit 3"])
        self.assertEqual((status, err), (3, "said\n"))
        self.assertEqual([line.split(maxsplit=2)[1:] for line in out.splitlines()], [["min", part] for part in PARTS])

    def test_most_expensive_first(self):
        seconds = {(self.spent.PROOF, "low"): 30, (self.spent.PROOF, "high"): 60, (self.spent.EDITS, "low"): 30}
        self.assertEqual(self.spent.shown(seconds, 150), [
            "    1.5 min  the proofs of crates", "    0.0 min  the tests", "    0.5 min  the wrong edits", "    0.5 min  all else",
            "    2.5 min  together", "   60.0 s    the proofs of crates: high", "   30.0 s    the proofs of crates: low",
            "   30.0 s    the wrong edits: low",
        ])

    @unittest.skipUnless(os.path.isdir("/proc/self"), "it needs Linux")
    def test_no_such_command(self):
        self.assertEqual(ended([TOOL, "./no-such-command"]), (1, "", "tools/spent: ./no-such-command: No such file or directory\n"))


if __name__ == "__main__":
    unittest.main()
