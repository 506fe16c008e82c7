"""tools/believed lists what a definition reaches, each definition behind those that it uses."""
import os
import re
import unittest

from common import TOP, ended, tool

TOOL = os.path.join(TOP, "tools", "believed")
BELIEVED = tool("believed")
KIT = BELIEVED.kit()
SOURCES = BELIEVED.Sources(TOP, KIT)
COUNTS = r"\d+ definitions?, \d+ lines? in \d+ files?"


def kit_is_told():
    """Whether the kit is the one that CONTRIBUTING names, with which PROOFS counts."""
    with open(os.path.join(TOP, "docs", "CONTRIBUTING.md"), encoding="utf-8") as file:
        told = re.search(r"the last proof was made with `([\w-]+)`", file.read())
    return KIT is not None and ended(["rt", "version"])[1].split()[:1] == [told.group(1)]


KIT_IS_TOLD = kit_is_told()


def reached(name):
    """The definitions that a definition reaches."""
    return SOURCES.reached(SOURCES.find(name))


class Believed(unittest.TestCase):
    def test_list(self):
        status, out, err = ended([TOOL, "outcome_base.IsRight"])
        self.assertEqual((status, err), (0, ""))
        rows = [line.split() for line in out.splitlines()[:-1]]
        names = [row[0] for row in rows]
        self.assertEqual(names[-1], "IsRight")
        for early, late in (("PlainNet", "is_router"), ("meets", "rank_of"), ("IsStable", "IsRight"), ("IsRightBy", "IsRightOutcome")):
            self.assertLess(names.index(early), names.index(late))
        for name, lines, path in rows:
            with open(os.path.join(TOP, path), encoding="utf-8") as file:
                self.assertRegex(file.read(), rf"\b{name}\b")
            self.assertGreater(int(lines), 0)
        self.assertFalse([path for _, _, path in rows if "/graph_base/" in path or "/evidence" in path])

    def test_counts_of_the_documents(self):
        with open(os.path.join(TOP, "docs", "PROOFS.md"), encoding="utf-8") as file:
            told = re.findall(rf"`(\w+\.\w+)`: ({COUNTS})(?:; ({COUNTS}) in crates of the kit)?", file.read())
        self.assertTrue(told)
        for name, own, of_kit in told:
            found = reached(name)
            self.assertEqual(own, BELIEVED.counts([it for it in found if it.is_own]), name)
            # another kit may define JSON in another way
            if KIT_IS_TOLD:
                there = [it for it in found if not it.is_own]
                self.assertEqual(of_kit, BELIEVED.counts(there) if there else "", name)

    def test_claim_is_short(self):
        # all that is reached, in crates of the kit, too
        most = {"outcome_base.IsRight": 380, "claim_law.KeepsPolicy": 420, "propane_run.CompilesRight": 965, "propane_run.ChecksRight": 965, "claim_law.IsKeptAtWork": 1120}
        self.assertEqual(set(most), set(BELIEVED.HEADLINE))
        for name in BELIEVED.HEADLINE:
            self.assertLessEqual(BELIEVED.lines_in(reached(name)), most[name], name)

    def test_headline_reaches_no_motion(self):
        names = {it.name for it in reached("propane_run.CompilesRight")}
        self.assertFalse(names & {"IsKeptAtWork", "IsKeptInMotion", "Motion", "World", "SpreadsPackets", "CarriesPackets"})

    @unittest.skipUnless(KIT, "no kit is found")
    def test_of_the_kit(self):
        self.assertEqual({it.name for it in reached("propane_run.CompilesRight") if not it.is_own}, {"code_unit"})
        self.assertLessEqual({"read", "of_json", "value", "tokens", "content", "number_of"}, {it.name for it in reached("topology.IsTopologyOf") if not it.is_own})
        self.assertFalse([it for it in reached("outcome_base.IsRight") if not it.is_own])

    def test_names(self):
        self.assertEqual(ended([TOOL, "NoSuchDefinition"])[::2], (1, "tools/believed: no definition NoSuchDefinition\n"))


if __name__ == "__main__":
    unittest.main()
