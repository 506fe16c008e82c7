"""tools/shown: what the pages show is what the program writes; how a page is read, and the lines on what differs."""
import os
import tempfile
import unittest

from common import PROGRAM, TOP, ended, tool

SHOWN = tool("shown")
TOOL = os.path.join(TOP, "tools", "shown")
REPLAY = "../../propane replay topology.json policy.propane dead-link.json"
REPORT = ["prefix 198.51.100.0/24", "class 1", "router R1 rank 2 path R1 R2 P2", "router R2 rank 2 path R2 P2"]


def block(*lines):
    """An indented block."""
    return "".join(f"    {line}\n" if line else "\n" for line in lines) + "\n"


GO = block("cd examples/two-exits")
RUN = block("cd examples/two-exits", REPLAY)
NOTED = "<!-- written by: cd examples/two-exits; " + REPLAY + " -->\n\n"
FILE = "The policy ([policy.propane](examples/two-exits/policy.propane)):\n\n"
RULE = "true => exit(P1 >> P2);"
REFUSED = "propane: refused 6 no-evidence case 1 router W first W X D second W X D"

SCENARIO = ['{"prefix": "198.51.100.0/24",', ' "dead": [],', ' "dead_links": [["R1", "P1"]],', ' "silent": []}']

SAID = "The commands can be pasted into\none shell.\n\n"
INSIDE = block("../../propane replay topology.json policy.propane dead-link.json", "", *REPORT)
SAMPLE = block("cd ../sample", "../../propane version > version.txt") + "Then:\n\n"

# Pages in which all is as it is shown, and what is wrong in others.
RIGHT = [
    "",
    "No block, but `../../propane gone`.\n",
    RUN + block(*REPORT),
    block("cd examples/two-exits", REPLAY, "", *REPORT),
    "```\ncd examples/two-exits\n" + REPLAY + "\n```\n\n```\n" + "\n".join(REPORT) + "\n```\n",
    RUN + block("..", *REPORT[2:]),
    RUN + block(*REPORT[:2], ".."),
    RUN + block("..", REPORT[1], "..", REPORT[3], ".."),
    RUN + block(".."),
    RUN + "It writes:\n\n" + block("anything"),
    RUN + "With `" + REPLAY + "` it writes:\n\n" + block(*REPORT),
    NOTED + block(*REPORT),
    block("cd examples/two-exits", REPLAY + " > report.txt", "cat report.txt", "", *REPORT),
    block("cd examples/two-exits", REPLAY[:-len("dead-link.json")] + "\\", "  dead-link.json", "", *REPORT),
    GO + block(REPLAY) + block(*REPORT) + block("./propane version") + block(".."),
    block("cd examples/waypoint-ring", "../../propane compile topology.json policy.propane", "", REFUSED),
    block("./propane replay TOPO POLICY SCENARIO"),
    block("tools/lab [--frr ROUTERS] TOPO POLICY [SCENARIO ..]"),
    "<!-- not run: it takes long -->\n\n" + block("./propane prove"),
    "<!-- not run: it takes long -->\n\n" + block("cd examples/two-exits", "./propane prove") + block(REPLAY) + block(*REPORT),
    "`./propane replay TOPO POLICY SCENARIO` writes:\n\n" + block("a report"),
    FILE + block(RULE),
    FILE.replace("policy.propane", "dead-link.json") + block(*SCENARIO),
    "All of it ([two-exits](examples/two-exits)):\n\n" + block("a picture"),
    SAID + GO + "It holds:\n\n" + INSIDE + "Then:\n\n" + SAMPLE + block("cat version.txt", "../../propane version", "", ".."),
    SAID + block("./propane version", "", "..") + "Then:\n\n" + RUN + block(*REPORT),
    SAID + block("cd examples/two-exits", "MODE=replay", REPLAY.replace("replay", "$MODE")) + block(*REPORT),
    SAID + "<!-- not run: it takes long -->\n\n" + block("cd examples/two-exits", "./propane prove") + "Then:\n\n" + INSIDE,
    SAID + RUN + block(*REPORT) + NOTED + block(*REPORT),
]
WRONG = [
    (RUN + block(*REPORT[:3], "router R2 rank 2 path R2 P1"), "P:7: is shown: router R2 rank 2 path R2 P1; is written: router R2 rank 2 path R2 P2"),
    (RUN + block(*REPORT[:3]), "P:7: no more is shown; is written: router R2 rank 2 path R2 P2"),
    (RUN + block(*REPORT, "router R3 none"), "P:8: is shown: router R3 none; is written: no more"),
    (RUN + block(*REPORT[1:]), "P:4: is shown: class 1; is written: prefix 198.51.100.0/24"),
    (RUN + block("..", REPORT[1], "class 2"), "P:5: is shown: class 1; is written: router R1 rank 2 path R1 R2 P2"),
    (RUN + block("..", REPORT[1], "class 2", ".."), "P:6: is shown: class 2; is written: router R1 rank 2 path R1 R2 P2"),
    (RUN + block("..", REPORT[3], "..", REPORT[1], ".."), "P:7: is shown: class 1; is written: no more"),
    (NOTED + block("prefix 10.0.0.0/8", ".."), "P:3: is shown: prefix 10.0.0.0/8; is written: prefix 198.51.100.0/24"),
    (block("cd examples/gone", REPLAY), "P:1: no folder examples/gone"),
    (block("cd examples/two-exits", REPLAY + "x"), f"P:1: {REPLAY}x: ends with status 4: propane: cannot read dead-link.jsonx"),
    (block("./propane prove"), "P:1: ./propane prove: ends with status 2: propane: usage: "),
    (block("no-such-program", "./propane version"), "P:1: no-such-program: ends with status 127: "),
    (FILE + block("true => exit(P1);"), "P:3: is shown: true => exit(P1);"),
    (FILE.replace("(examples", "(gone") + block(RULE), "P:3: no file gone/two-exits/policy.propane"),
    (SAID + RUN + block(*REPORT) + "Then:\n\n" + block("./propane version"), "P:14: ./propane version: ends with status 127: "),
    (SAID + RUN + block(*REPORT[:3]), "P:10: no more is shown; is written: router R2 rank 2 path R2 P2"),
    (SAID + GO + "Again:\n\n" + GO, "P:8: cd examples/two-exits: ends with status 2: "),
    (SAID + block("./propane version", "exit 3"), "P:4: exit 3: has not ended"),
]


class Pages(unittest.TestCase):
    @classmethod
    def setUpClass(cls):
        cls.room = tempfile.TemporaryDirectory()
        cls.addClassCleanup(cls.room.cleanup)
        SHOWN.prepare(cls.room.name)

    def test_pages(self):
        status, out, err = ended([TOOL], env=dict(os.environ, PROGRAM=PROGRAM), timeout=1200)
        self.assertEqual((status, err), (0, ""), f"\n{out}")

    def test_right(self):
        for row, text in enumerate(RIGHT):
            with self.subTest(row):
                self.assertEqual(SHOWN.faults_in("P", text, self.room.name, PROGRAM), [])

    def test_wrong(self):
        for row, (text, line) in enumerate(WRONG):
            with self.subTest(row):
                found = SHOWN.faults_in("P", text, self.room.name, PROGRAM)
                self.assertEqual([it[: len(line)] for it in found], [line])

    def test_runs_once_each(self):
        counts = [len(list(SHOWN.all_shown(text))) for text in RIGHT[:6]]
        self.assertEqual(counts, [0, 0, 1, 1, 1, 1])

    def test_no_page(self):
        self.assertEqual(ended([TOOL, "NONE.md"], env=dict(os.environ, PROGRAM=PROGRAM))[0], 1)


if __name__ == "__main__":
    unittest.main()
