"""tools/named: what the pages name is there, and a name that is gone has a line."""
import os
import re
import unittest

from common import TOP, ended, tool

NAMED = tool("named")
TOOL = os.path.join(TOP, "tools", "named")

# What is there, and what isn't, each in a line of a page at the top.
THERE = [
    "[a](README.md) [b](docs/PROOFS.md#the-claim) [c](https://example.net/none) [d](#here)",
    "`docs/PROOFS.md` `examples/two-exits` `tools/believed` `crates/propane_cli` `/etc/none` `10.0.0.0/8` `a b/c`",
    "`outcome_base/specs/Right` `specs/Right` `policy_base/src/call.rt` `src/pages` `propane_run/proofs/ByCommand`",
    "`propane_run::run` `topology::names::names_that_are_read_are_lawful` `Survivors::carries` `outcome_base.IsRight`",
    "`location_names`: `neighbour_sets` (`sets`), `is_near`; `gone`",
    "`policy_parser::read_policy` (`read`, `depth`), the clauses `right` and `promised`, and the clause `ends`",
    "`IsRightBy` `dead_links` `serde_json` `SNVA` `X` `first`",
]
GONE = [
    ("[a](docs/NONE.md)", "no file docs/NONE.md"),
    ("[a](docs/PROOFS.md#no-claim)", "no heading #no-claim in docs/PROOFS.md"),
    ("[a](#there)", "no heading #there in BAD.md"),
    ("`docs/NONE.md`", "no file docs/NONE.md"),
    ("`outcome_base/specs/Wrong`", "no specs/Wrong in crate outcome_base"),
    ("`outcome_gone/specs/Right`", "no crate outcome_gone"),
    ("`specs/Wrong`", "no specs/Wrong in any crate"),
    ("`propane_run::walk`", "no walk in propane_run"),
    ("`propane_gone::run`", "no crate or name propane_gone"),
    ("`EventFault::gone`", "no gone in event_base"),
    ("`outcome_base.IsWrong`", "no IsWrong in outcome_base"),
    ("`location_names`: `neighbour_sets` (`gone`), `is_near`", "no gone in location_names"),
    ("`location_names`: `neighbour_sets`, `is_far`", "no is_far in location_names"),
    ("`policy_parser::read_policy` (`depth`, `width`)", "no width in policy_parser"),
    ("the clauses `right` and `wrong`", "no clause wrong"),
    ("`IsWrongBy`", "no IsWrongBy"),
    ("`gone_links`", "no gone_links"),
    ("| Crate | Holds |\n|---|---|\n| `net_base` | a |\n| `nets` | b |", "no crate nets"),
    ("| Crate | Promises | Names |\n|---|---|---|\n| [`net_base`](docs) | a | `Net` (`new`), `nets` |", "no nets in net_base"),
    ("| Script | For |\n|---|---|\n| `believed`, `doubted` | a |", "no tools/doubted"),
]


# Where the kit of the last proof is named, and what stands in front of it.
KITS = [
    ("README.md", "Proved with `"),
    ("CHANGELOG.md", "proved with the kit `"),
    ("docs/CONTRIBUTING.md", "the last proof was made with `"),
    ("crates/help_texts/src/pages/program.rt", "\nkit "),
    ("tools/test/runs/helped.py", "\nkit "),
]


class Names(unittest.TestCase):
    def setUp(self):
        # a page may name its own headings
        self.page = os.path.join(TOP, "BAD.md")
        self.assertFalse(os.path.exists(self.page))

    def faults(self, text):
        text = "# Here\n\n" + text + "\n"
        with open(self.page, "w", encoding="utf-8") as file:
            file.write(text)
        self.addCleanup(lambda: os.path.exists(self.page) and os.remove(self.page))
        return NAMED.faults("BAD.md", text)

    def test_pages(self):
        found = [line for page in NAMED.all_pages() for line in NAMED.faults(page, NAMED.text_of(page))]
        self.assertFalse(found, "\n" + "\n".join(found))

    def test_script(self):
        page = os.path.join("docs", "REFUSALS.md")
        self.assertEqual(ended([TOOL, os.path.join(TOP, page)]), (0, "tools/named: 1 pages, all that they name is there\n", ""))
        self.assertEqual(ended([TOOL, "NONE.md"])[0], 1)

    def test_there(self):
        for text in THERE:
            with self.subTest(text):
                self.assertEqual(self.faults(text), [])

    def test_gone(self):
        for text, line in GONE:
            with self.subTest(text):
                found = self.faults(text)
                self.assertIn(f"BAD.md:{2 + len(text.splitlines())}: {line}", found)

    def test_blocks_name_nothing(self):
        self.assertEqual(self.faults("    `docs/NONE.md`\n\n```\n`IsWrongBy`\n```"), [])

    def test_one_kit_is_named(self):
        """What names the kit of the last proof names one."""
        told = {}
        for path, text in KITS:
            with open(os.path.join(TOP, path), encoding="utf-8") as file:
                told[path] = re.search(text + r"(rattle-kit-\w+)", file.read()).group(1)
        self.assertEqual(len(set(told.values())), 1, told)


if __name__ == "__main__":
    unittest.main()
