"""What the gate's scripts share: runs that ended as wanted, in a file, and the runs of the lab."""
import os
import tempfile
import unittest

from common import TOP, ended
from gate.kept import Kept, checksum
from gate.lab_runs import MORE, RUNS, Right, Rolled


class Runs(unittest.TestCase):
    def setUp(self):
        room = tempfile.TemporaryDirectory()
        self.addCleanup(room.cleanup)
        self.folder = os.path.join(room.name, "folder")
        os.makedirs(os.path.join(self.folder, "below"))
        self.write("one", "1")
        self.file = os.path.join(room.name, "kept")

    def write(self, name, text):
        with open(os.path.join(self.folder, name), "w", encoding="utf-8") as file:
            file.write(text)

    def test_checksum(self):
        """Whatever changes in a file or a folder changes it, but not what no run depends on."""
        program = os.path.join(self.folder, "one")
        seen = [checksum([program, self.folder])]
        for name, text in ("one", "2"), ("below/two", "1"), ("three", ""):
            self.write(name, text)
            seen.append(checksum([program, self.folder]))
        os.rename(os.path.join(self.folder, "three"), os.path.join(self.folder, "four"))
        seen.append(checksum([program, self.folder]))
        self.assertEqual(len(set(seen)), 5)
        os.mkdir(os.path.join(self.folder, "__pycache__"))
        self.write("__pycache__/one", "1")
        self.assertEqual(checksum([program, self.folder]), seen[-1])

    def test_kept(self):
        """What ended as wanted stays, for the same files alone."""
        self.assertFalse(Kept(self.file).has("rollout", "aa"))
        kept = Kept(self.file)
        kept.add("rollout", "aa")
        kept.add("watch", "aa")
        for each in kept, Kept(self.file):
            self.assertEqual([each.has("rollout", "aa"), each.has("watch", "aa"), each.has("rollout", "bb")], [True, True, False])
        none = Kept(None)
        none.add("rollout", "aa")
        self.assertFalse(Kept(None).has("rollout", "aa"))

    def test_runs_of_the_lab(self):
        """Each has a name of its own, and names files that are there."""
        names = [run.name for run in RUNS + MORE]
        self.assertEqual(len(set(names)), len(names))
        for run in RUNS + MORE:
            files = [f"{name}.json" for name in ("topology", *getattr(run, "scenarios", ()))]
            files += [f"{run.policy}.propane"] if isinstance(run, (Right, Rolled)) else []
            here = os.path.join(TOP, "examples", run.example)
            self.assertEqual([name for name in files if not os.path.exists(os.path.join(here, name))], [], run.name)

    def test_words(self):
        """A name that is none ends it before anything runs."""
        for words in ["no-such-run"], ["--kept", self.file, "no-such-run"]:
            status, out, said = ended([os.path.join(TOP, "tools", "lab-check"), *words])
            self.assertEqual((status, out, said.splitlines()[-1].split()[:4]), (1, "", ["NAME", "is", "one", "of"]))


if __name__ == "__main__":
    unittest.main()
