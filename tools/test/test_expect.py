"""tools/expect: lines that hold and lines that don't, worked by hand on the two exits, and texts that are wrong."""
import os
import tempfile
import unittest
import xml.etree.ElementTree

from common import PROGRAM, TOP, ended
from expecting.text import read_expectations
from texts.faults import Fault
from texts.topology import Topology

EXAMPLE = os.path.join(TOP, "examples", "two-exits")
TWO = [os.path.join(EXAMPLE, name) for name in ("topology.json", "policy.propane")]
# A line, and what is said of it: nothing where it holds.
LINES = [
    ("R1 rank 1", ""),
    ("R1 and R2 reach under any 1 link", ""),
    ("R1 R2 rank 2 or better under any 1 link but link R1 R2", ""),
    ("R2 rank 1 under any 1 link but link R1 P1", "with link R1 R2 down, R2 has rank 2"),
    ("R2 reaches under any 2 failures but R2", "with link R1 R2 and link R2 P2 down, R2 has no route"),
    ("path R1 R2 P2 where link R1 P1 dead", ""),
    ("path R1 R2 P2", "R1 goes R1 P1, of rank 1"),
    ("R1 avoids P2 under any 1 failure but link R1 P1", ""),
    ("R1 avoids P2 under any 1 link", "with link R1 P1 down, R1 goes R1 R2 P2, of rank 2"),
    ("R2 passes R1 and P1", ""),
    ("R2 passes R1 where P1 silent at R1", "R2 goes R2 P2, of rank 2"),
    ("R1 and R2 reach nothing where P1 and P2 silent", ""),
    ("R1 reaches nothing where R1 dead", ""),
    ("R1 rank 1 where R2 dead", ""),
    ("203.0.113.0/24: R1 rank 2 where P1 silent", ""),
    ("R1 rank 2 203.0.113.0/24", "R1 goes R1 P1, of rank 1"),
    ("P1 is not offered", "the policy claims no session of P1, so the program says nothing of it"),
]
INSIDE = "originate 10.0.1.0/24 at R2;\n10.0.1.0/24 => not enter(P2);\n"
OFFERS = [
    ("10.0.1.0/24: P1 is offered", ""),
    ("10.0.1.0/24: P1 is offered under any 1 link but link R1 P1", "with link R1 R2 down, P1 is offered nothing"),
    ("10.0.1.0/24: P1 rank 1 under any 1 router", ""),
    ("10.0.1.0/24: R2 reaches", ""),
    ("10.0.1.0/24: P1 passes R1 and R2", ""),
]
WRONG = [
    ("R1 rank 1", "line 1: no prefix: none is named"),
    ("10.0.0.0/8: R9 rank 1", "line 1: no name of the topology: R9"),
    ("10.0.0.0/8:\nR1 flies", "line 2: what is claimed? flies"),
    ("10.0.0.0/8: R1 rank first", "no number: first"),
    ("10.0.0.0/8: R1 reach under any 9 links", "up to 4 links, routers or failures: 9 links"),
    ("10.0.0.0/8: R1 reach under any 1 link but link R1 P2", "no link: R1 P2"),
    ("10.0.0.0/8: P1 reaches", "a peer reaches nothing"),
    ("10.0.0.0/8: R1 is offered", "no peer: R1"),
    ("10.0.0.0/8: R1 reach where R1 silent", "only a peer is silent: R1"),
    ("10.0.0.0/8: R1 reach where R1 gone", "`dead` in the place of gone"),
    ("10.0.0.0/8: R1 reach at last", "what is that? at last"),
    ("10.0.0.0/8: R1 reach 10.0.0.0/8 11.0.0.0/8", "more than one prefix"),
    ("10.0.0.1/8:", "no prefix: 10.0.0.1/8"),
]


class Expect(unittest.TestCase):
    def setUp(self):
        room = tempfile.TemporaryDirectory()
        self.addCleanup(room.cleanup)
        self.folder = room.name

    def write(self, name, text):
        path = os.path.join(self.folder, name)
        with open(path, "w", encoding="utf-8") as file:
            file.write(text)
        return path

    def expect(self, text, policy=TWO[1]):
        words = [os.path.join(TOP, "tools", "expect"), "--junit", os.path.join(self.folder, "xml"), TWO[0], policy, self.write("expect", text)]
        return ended(words, env={**os.environ, "PROGRAM": PROGRAM})

    def judged(self, lines, policy=TWO[1], head=""):
        """The status, and that each line is told to hold or fails as it is to."""
        status, out, said = self.expect(head + "".join(f"{line}\n" for line, _ in lines), policy)
        self.assertEqual(said, "")
        told, last = {}, ""
        for line in out.splitlines()[:-1]:
            if line.startswith(" "):
                told[last] = line.strip()
            else:
                last = line.partition(": ")[2].partition(" (")[0]
                told[last] = ""
                self.assertEqual(line.startswith("holds "), dict(lines)[last] == "", line)
        self.assertEqual(told, dict(lines))
        return status, out.splitlines()[-1]

    def test_lines(self):
        head = "# on the two exits\n198.51.100.0/24:   # this one\n\n"
        status, last = self.judged(LINES, head=head)
        self.assertEqual(status, 1)
        self.assertTrue(last.startswith(f"expectations {len(LINES)} failed {sum(bool(said) for _, said in LINES)}: asked replay "))
        suite = xml.etree.ElementTree.parse(os.path.join(self.folder, "xml")).getroot()
        self.assertEqual([case.get("name") for case in suite], [line for line, _ in LINES])
        self.assertEqual([case[0].get("message") if len(case) else "" for case in suite], [said for _, said in LINES])
        self.assertEqual(self.judged([line for line in LINES if not line[1]], head=head)[0], 0)

    def test_offers(self):
        self.assertEqual(self.judged(OFFERS, self.write("policy", INSIDE))[0], 1)

    def test_few_runs(self):
        """What is asked of ranks under each single failure takes one run."""
        _, last = self.judged([("R1 and R2 rank 2 or better under any 1 link but link R1 R2", "")], head="198.51.100.0/24:\n")
        self.assertEqual(last, "expectations 1 failed 0: asked replay 1 whatif 1")

    def test_few_runs_of_paths(self):
        """What is asked of paths takes a run for each failure that moves a route: in the diamond those of D and A, not those of B and C."""
        here = os.path.join(TOP, "examples", "diamond")
        words = [os.path.join(TOP, "tools", "expect"), *(os.path.join(here, name) for name in ("topology.json", "policy.propane"))]
        status, out, said = ended([*words, self.write("expect", "10.0.1.0/24: C avoids P1 under any 1 router\n")], env={**os.environ, "PROGRAM": PROGRAM})
        self.assertEqual((status, said), (0, ""))
        self.assertEqual(out.splitlines()[-1], "expectations 1 failed 0: asked replay 3 whatif 1")

    def test_wrong(self):
        with open(TWO[0], encoding="utf-8") as file:
            topology = Topology(file.read())
        for text, why in WRONG:
            with self.subTest(why):
                with self.assertRaises(Fault) as caught:
                    read_expectations(text, topology)
                self.assertIn(why, str(caught.exception))
        status, out, said = self.expect("R1 rank 1")
        self.assertEqual((status, out, said), (2, "", "expect: line 1: no prefix: none is named\n"))

    def test_refused(self):
        policy = self.write("policy", "true => exit(P1) from R1, R2, nobody;\n")
        status, out, said = self.expect("10.0.0.0/8: R1 rank 1\n", policy)
        self.assertEqual((status, out, said), (2, "", "expect: the program says: policy 5 unknown at 1:31\n"))


if __name__ == "__main__":
    unittest.main()
