"""tools/why and tools/picture: the repairs that documents name are among those that are printed; pictures are as wanted byte for byte.

The program is the proved one, or the one that the variable PROGRAM names. Repairs are compared with locations in the place of groups.
"""
import json
import os
import re
import shutil
import signal
import subprocess
import sys
import tempfile
import time
import unittest
from concurrent.futures import ThreadPoolExecutor

TOP = os.path.dirname(os.path.dirname(os.path.dirname(os.path.abspath(__file__))))
PROGRAM = os.path.abspath(os.environ.get("PROGRAM", os.path.join(TOP, "crates", "propane_cli", "out", "propane_cli")))
ENVIRONMENT = dict(os.environ, PROGRAM=PROGRAM, WHY_SECONDS="3000")
sys.dont_write_bytecode = True
sys.path[:0] = [os.path.join(TOP, "tools"), os.path.join(TOP, "tools", "test")]
from compared import comparing  # noqa: E402
from reasons import picture  # noqa: E402
from refused import TRIALS  # noqa: E402
from texts import policy  # noqa: E402

FIRST = 3  # repairs that a reader looks at
HEAD, FAR, NEAR = "10.1.0.0/16 => ", "{ IPLS, CHIN, ATLA, NYCM, WASH }", "{ STTL, SNVA, LOSA, DNVR, HSTN }"
# The folder, the topology and the policy, and the statements that are named in its place.
REPAIRS = [
    ("waypoint-ring", "topology", "policy", ["10.0.1.0/24 => through(W) >> any from W;"]),
    ("cookbook", "abilene", "halves-first",
     ["true => (exit(West) and avoid(EASTERN)) or (exit(East) and avoid(WESTERN)) >> exit(West, East);"]),
    ("cookbook", "abilene", "backup-first", [HEAD + "not link({ HSTN, ATLA }, { HSTN, ATLA }) >> any;"]),
    ("cookbook", "abilene", "region-first",
     [HEAD + "notransit(SOUTH) from STTL, SNVA, LOSA, DNVR, KSCY, IPLS, CHIN, NYCM, SOUTH;",
      HEAD + "avoid(SOUTH) from STTL, SNVA, LOSA, DNVR, KSCY, IPLS, CHIN, NYCM;"]),
    ("cookbook", "abilene", "one-first", [HEAD + "through(KSCY) and avoid(HSTN) from STTL;"]),
    ("cookbook", "abilene", "one-second", [HEAD + "through(KSCY) and avoid(HSTN) from STTL;"]),
    ("cookbook", "abilene", "some-first", [HEAD + "through(KSCY) and avoid(HSTN) from STTL, SNVA, LOSA, DNVR;"]),
    ("cookbook", "abilene", "all-first",
     [HEAD + f"through(KSCY) and not link({NEAR}, {FAR}) and not link({FAR[:-2]}, KSCY }}, {NEAR}) from {NEAR[2:-2]}, KSCY;"]),
    ("cookbook", "abilene", "fixed-first",
     [HEAD + "path(STTL, DNVR, KSCY, IPLS, ATLA, WASH) >> any from STTL;",
      HEAD + "path(STTL, DNVR, KSCY, IPLS, ATLA, WASH) or path(DNVR, KSCY, IPLS, ATLA, WASH) >> any from STTL, DNVR;"]),
    ("cookbook", "abilene", "drop-second", ["10.0.0.0/8 le 32 => drop;"]),
    ("cookbook", "abilene", "offers-first", [HEAD + "not enter(Campus) or avoid(ATLA);"]),
    ("cookbook", "leaves", "leaves-second", ["10.0.0.0/16 le 24 => internal and notransit(LEAVES);"]),
    ("cookbook", "leaves", "spine-first", ["10.0.4.0/24 => notransit(L1, L2, L3, L4) and (through(S1) >> any);"]),
    ("cookbook", "abilene", "drain-first",
     ["true => notransit(KSCY) and exit(West >> East) >> exit(West, East);", "true => exit(West >> East) and (notransit(KSCY) >> any);"]),
    ("cookbook", "abilene", "points", [HEAD + "avoid(HSTN) >> any from STTL;",
                                       HEAD + "path(STTL, DNVR, KSCY, HSTN, ATLA, WASH) >> path(STTL, SNVA, LOSA, HSTN, ATLA, WASH) >> any from STTL;"]),
]
TWO_BAD = """# Two statements that can't be kept, and two that can.
originate 10.1.0.0/16 at WASH;
originate 10.2.0.0/16 at LOSA;
10.2.0.0/16 => internal;
10.1.0.0/16 => through(KSCY) # the filter
  from STTL;
10.9.0.0/16 le 24 => drop from
  DNVR;
true => exit(West >> East);
"""
TWO_TOLD = [
    "Statement 2, line 5, can't be kept:",
    "    10.1.0.0/16 => through(KSCY) from STTL;",
    "The program says: refused 5 mixed-source case 1 router STTL with STTL DNVR KSCY HSTN ATLA WASH without STTL SNVA LOSA HSTN ATLA WASH",
    "Case 1 is 10.1.0.0/16, originated at WASH.",
    "Statement 3, line 7, can't be kept:",
    "    10.9.0.0/16 le 24 => drop from DNVR;",
    "The program says: refused 4 source-without-path case 3 router DNVR",
    "Case 3 is what peers announce of 10.9.0.0/16 le 24.",
]

def ended(tool, *words, **how):
    """How a run of a tool ends: its status, its output and its error output."""
    how = {"stdin": subprocess.DEVNULL, "stdout": subprocess.PIPE, "stderr": subprocess.PIPE, "text": True, "timeout": 3600,
           "env": ENVIRONMENT} | how
    ran = subprocess.run([os.path.join(TOP, "tools", tool), *words], **how)
    return ran.returncode, ran.stdout, ran.stderr


def example(folder, name):
    return os.path.join(TOP, "examples", folder, name)


def text_of(path):
    with open(path, encoding="utf-8") as file:
        return file.read()


def plain(cut, expression):
    """An expression with locations in the place of names."""
    if isinstance(expression, policy.Call):
        return expression.word, tuple(map(cut.locations, expression.arguments))
    parts = (expression.inner,) if isinstance(expression, policy.Not) else expression.parts
    return expression.binds, tuple(plain(cut, part) for part in parts)


def meaning(text, groups):
    """A statement with locations in the place of names, so that it can be compared with another one."""
    cut = policy.cut((groups + text).encode())
    statement = cut.statements[-1]
    return statement.patterns, plain(cut, statement.expression), statement.sources and cut.locations(statement.sources)


def printed(out):
    """The repairs that are printed."""
    told = out.partition("\nRepairs: ")[2].splitlines()
    return [line[4:] for line in told if line[:3].strip().isdigit() and line.endswith(";")]


def explained(row):
    folder, topology, name, _ = row
    return ended("why", example(folder, topology + ".json"), example(folder, name + ".propane"))


class Why(unittest.TestCase):
    def setUp(self):
        room = tempfile.TemporaryDirectory(prefix="why test ")
        self.addCleanup(room.cleanup)
        self.folder = room.name

    def test_repairs_of_examples(self):
        with ThreadPoolExecutor(os.cpu_count()) as pool:
            for row, (status, out, err) in zip(REPAIRS, pool.map(explained, REPAIRS)):
                folder, _, name, named = row
                groups = "".join(line for line in text_of(example(folder, name + ".propane")).splitlines(True) if line.startswith("define "))
                found = [meaning(text, groups) for text in printed(out)]
                with self.subTest(name):
                    self.assertEqual((status, err), (0, ""))
                    for text in named:
                        self.assertIn(meaning(text, groups), found, text)

    def test_first_tries_have_a_repair_that_does_what_was_wanted(self):
        with ThreadPoolExecutor(2) as pool:
            for trial, (status, out, err) in zip(TRIALS, pool.map(self.tried, TRIALS)):
                with self.subTest(trial.name):
                    self.assertEqual((status, err), (0, ""))
                    found, wanted = ([meaning(text, trial.above) for text in texts] for texts in (printed(out), trial.wanted))
                    self.assertTrue(any(each in wanted for each in found[:FIRST]), out)
                    repairs = out.partition("\nRepairs: ")[2]
                    told = re.split(r"\n *[0-9]+ (?=10\.|true)", repairs)[1:]
                    self.assertEqual(len(told), len(found), out)
                    self.assertTrue(all(" newly allowed" in each for each in told), out)
                    self.assertNotRegex(told[0], r"^[^\n]* >> any[^\n]*\n(?: {8}[^\n]*\n)* {8}newly allowed for")

    def tried(self, trial):
        """What is said of a trial."""
        paths = [os.path.join(self.folder, trial.name + ending) for ending in (".json", ".propane")]
        for path, text in zip(paths, (trial.topology(), trial.above + trial.tried + "\n")):
            with open(path, "w", encoding="utf-8") as file:
                file.write(text)
        return ended("why", *paths)

    def test_each_bad_statement_is_told(self):
        path = os.path.join(self.folder, "two bad.propane")
        with open(path, "w", encoding="utf-8") as file:
            file.write(TWO_BAD)
        status, out, err = ended("why", example("cookbook", "abilene.json"), path)
        self.assertEqual((status, err), (0, ""))
        self.assertEqual([line for line in out.splitlines() if line in TWO_TOLD], TWO_TOLD)
        self.assertEqual(out.count("can't be kept:"), 2)

    def test_what_is_told_of_the_ring(self):
        folder = "waypoint-ring"
        told = dict(ENVIRONMENT, PROGRAM=comparing(self.folder))
        out = ended("why", example(folder, "topology.json"), example(folder, "policy.propane"), env=told)[1]
        self.assertEqual(out, text_of(example(folder, "why.txt")))

    def test_records_say_what_lines_say(self):
        folder, told = "waypoint-ring", dict(ENVIRONMENT, PROGRAM=comparing(self.folder))
        status, out, err = ended("why", "--records", example(folder, "topology.json"), example(folder, "policy.propane"), env=told)
        refused, repairs = map(json.loads, out.splitlines())
        self.assertEqual((status, err, refused["kind"], repairs["kind"]), (0, "", "refused", "repairs"))
        lines = text_of(example(folder, "why.txt")).splitlines()
        said = [*refused["says"], *repairs["notes"], repairs["head"], *[line for each in repairs["repairs"] for line in each["costs"]],
                *[each["text"] for each in repairs["repairs"]], *refused["picture"], refused["refusal"]]
        for line in said:
            self.assertTrue(any(each.strip().endswith(line.strip()) for each in lines), line)

    def test_what_is_no_refusal(self):
        topology, text = example("two-exits", "topology.json"), example("two-exits", "policy.propane")
        absent, silent = os.path.join(self.folder, "absent"), dict(ENVIRONMENT, PROGRAM=os.path.join(self.folder, "absent"))
        self.assertEqual(ended("why", topology, text), (0, "The policy is accepted: each of its statements can be kept.\n", ""))
        self.assertEqual(ended("why"), (2, "", "usage: why [--records] TOPO POLICY\n"))
        self.assertEqual(ended("why", topology, absent), (4, "", f"propane: cannot read {absent}\n"))
        self.assertEqual(ended("why", topology, self.folder), (4, "", f"propane: cannot read {self.folder}\n"))
        self.assertEqual(ended("why", text, topology), (3, "", "propane: topology 1 not-json\n"))
        self.assertEqual(ended("why", topology, text, env=silent)[:2], (127, ""))
        with open("/dev/full", "wb") as full:
            self.assertEqual(ended("why", topology, text, stdout=full), (5, None, ""))

    def test_a_signal_leaves_nothing(self):
        words = [os.path.join(TOP, "tools", "why"), example("cookbook", "abilene.json"), example("cookbook", "all-first.propane")]
        with subprocess.Popen(words, stdin=subprocess.DEVNULL, stdout=subprocess.PIPE, stderr=subprocess.PIPE,
                              env=dict(ENVIRONMENT, TMPDIR=self.folder)) as why:
            # (Python tries first whether it may write there, by a file of another name.)
            while not any(each.startswith("why.") for each in os.listdir(self.folder)) and why.poll() is None:
                time.sleep(0.01)
            why.send_signal(signal.SIGTERM)
            err = why.communicate(timeout=60)[1]
        self.assertEqual((why.returncode, err, os.listdir(self.folder)), (128 + signal.SIGTERM, b"", []))


class Picture(unittest.TestCase):
    def test_two_exits(self):
        texts = [example("two-exits", name) for name in ("topology.json", "replay.stdout", "dead-link.json")]
        self.assertEqual(ended("picture", texts[0]), (0, text_of(example("two-exits", "network.dot")), ""))
        self.assertEqual(ended("picture", *texts), (0, text_of(example("two-exits", "replay.dot")), ""))

    def test_the_picture_of_the_readme(self):
        texts = [example("cookbook", name) for name in ("abilene.json", "exits-world-west-silent.stdout", "world-west-silent.json")]
        self.assertEqual(ended("picture", *texts), (0, text_of(example("cookbook", "exits-world-west-silent.dot")), ""))

    def test_several_next_hops(self):
        texts = [example("diamond", name) for name in ("topology.json", "multipath.stdout")]
        self.assertEqual(ended("picture", *texts), (0, text_of(example("diamond", "multipath.dot")), ""))
        arrows = [line for line in text_of(example("diamond", "multipath.dot")).splitlines() if line.startswith('  "C" -> ')]
        self.assertEqual(len(arrows), 2)

    def test_every_report_of_examples(self):
        folder = os.path.join(TOP, "examples")
        names = [os.path.join(at, name) for at, _, found in os.walk(folder) for name in found if name.endswith(".args")]
        drawn = 0
        for name in sorted(names):
            words = text_of(name).split()
            if words[0] in ("replay", "trace", "audit", "multipath") and not os.path.exists(name[:-5] + ".status"):
                text = picture.text_for([os.path.join(os.path.dirname(name), words[1]), name[:-5] + ".stdout"])
                self.assertEqual((text.splitlines()[0], text.splitlines()[-1]), ("digraph network {", "}"), name)
                drawn += 1
        self.assertGreater(drawn, 50)

    def test_what_is_no_picture(self):
        topology, text = example("two-exits", "topology.json"), example("two-exits", "policy.propane")
        self.assertEqual(ended("picture")[:2], (2, ""))
        self.assertEqual(ended("picture", text)[:2], (3, ""))
        self.assertEqual(ended("picture", topology, text)[:2], (3, ""))
        self.assertEqual(ended("picture", topology, example("cookbook", "exits-world.stdout"))[:2], (3, ""))
        self.assertEqual(ended("picture", topology, example("two-exits", "replay.stdout"), topology)[:2], (3, ""))
        self.assertEqual(ended("picture", os.path.join(text, "absent"))[:2], (4, ""))

    @unittest.skipUnless(shutil.which("dot"), "Graphviz isn't there")
    def test_svg(self):
        status, out, err = ended("picture", "--svg", example("two-exits", "topology.json"))
        self.assertEqual((status, err), (0, ""))
        self.assertIn("<svg", out)


if __name__ == "__main__":
    unittest.main()
