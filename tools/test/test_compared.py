"""What the scripts make of a comparison: the reader of its text, and the recorded texts beside those of the program."""
from __future__ import annotations

import os
import tempfile
import unittest

from common import PROGRAM, ended
from compared import ROWS, comparing, is_known, row_of
from reasons.comparing import Compared as Told
from reasons.network import Network
from serving import text_of
from texts.comparison import Change, Differs, Named, Origins, Row, comparison_of, named
from texts.topology import Topology

# What is said of the recorded comparisons, as of a repair.
SENTENCES = {
    "the same": ["newly allowed: nothing that was forbidden", "taken away: nothing that was allowed", "order changed: nowhere"],
    "swapped": [
        "newly allowed: nothing that was forbidden",
        "taken away: nothing that was allowed",
        "order changed for all routers: STTL SNVA West was better than STTL DNVR KSCY IPLS CHIN NYCM East, and is worse than it now",
    ],
    "avoided": [
        "newly allowed: nothing that was forbidden",
        "taken away from all routers but KSCY: LOSA HSTN KSCY DNVR SNVA West (rank 1); LOSA HSTN KSCY IPLS CHIN NYCM East (rank 2); and 1 more",
        "taken away from KSCY: every path, as KSCY DNVR SNVA West (rank 1)",
        "order changed: nowhere",
        "carried no more by KSCY",
    ],
    "a region softened": [
        "newly allowed for all routers, and all sessions but ATLA to Campus: STTL SNVA LOSA HSTN ATLA WASH (rank 2)",
        "newly allowed for ATLA to Campus: Campus ATLA WASH (rank 2)",
        "taken away: nothing that was allowed",
        "order changed: nowhere",
    ],
    "opened": [
        "newly allowed for all sessions (10.0.1.0/24 to 10.0.4.0/24): W1 S1 L1 (rank 1)",
        "newly allowed for all routers (10.0.0.0/16 le 32): L1 S1 W1 (rank 1)",
        "taken away: nothing that was allowed",
        "order changed: nowhere",
        "carried newly by all routers (10.0.0.0/16 le 32)",
    ],
}


class Compared(unittest.TestCase):
    def test_recorded_texts_are_written_where_they_are_asked_for(self) -> None:
        with tempfile.TemporaryDirectory() as folder:
            programs = [comparing(folder), *([PROGRAM] if is_known() else [])]
            new = os.path.join(folder, "new")
            for row in ROWS:
                with open(new, "w", encoding="utf-8") as file:
                    file.write(row.new())
                for program in programs:
                    self.assertEqual(ended([program, "compare", row.topology(), row.old_file(), new]), (0, row.text, ""), (row.name, program))

    def test_reader(self) -> None:
        found = comparison_of(row_of("a region softened").text)
        row = Row(None, 2, ("Campus", "ATLA", "WASH"), True)
        differs = Differs(words=("claimed",), sessions=Named(False, ("ATLA Campus",)), rows=[row])
        self.assertEqual((found.cases, found.changed, found.changes[0].differs[1]), (1, 1, differs))
        self.assertEqual(found.changes[0].differs[0].sessions, Named(True, ("ATLA Campus",)))
        moved = comparison_of(row_of("a second origin").text).changes[0]
        self.assertEqual(moved.origins, [Origins("kept", Named(False, ("L4",))), Origins("gained", Named(False, ("L3",)))])
        opened = comparison_of(row_of("opened").text).changes
        self.assertEqual([each.prefixes for each in opened], [["10.0.1.0/24 to 10.0.4.0/24"], ["10.0.0.0/16 le 32"]])
        self.assertEqual([[held.word for held in each.carriers] for each in opened], [[], ["gained"]])
        self.assertEqual(comparison_of(row_of("the same").text).changes, [])

    def test_lists(self) -> None:
        """Names that are words of the text are names in a list."""
        for line, wanted in [
            ("routers but all", Named(False, ("but", "all"))),
            ("all routers", Named(True, ())),
            ("all routers but sessions routers", Named(True, ("sessions", "routers"))),
            ("sessions R1 P1, all but", Named(False, ("R1 P1", "all but"))),
            ("all sessions but routers P", Named(True, ("routers P",))),
        ]:
            self.assertEqual(named(line), wanted, line)
        self.assertEqual(Named(True, ("B",)).among("ABC"), ["A", "C"])
        self.assertEqual(Named(False, ("B",)).among("ABC"), ["B"])

    def test_parts(self) -> None:
        text = "change statement none now 2\nprefix 10.0.0.0/8\norigins peers\ndiffers lost gained\nbut 10.0.1.0/24\nbut 10.0.3.0/24 to 10.0.4.0/24\n" \
               "routers A\nrank none now 2 walk A B A P\ncases 3 changed 1\n"
        walk = Row(None, 2, ("A", "B", "A", "P"), False)
        differs = Differs(["but 10.0.1.0/24", "but 10.0.3.0/24 to 10.0.4.0/24"], Named(False, ("A",)), None, ("lost", "gained"), [walk])
        self.assertEqual(comparison_of(text).changes, [Change(None, 2, ["10.0.0.0/8"], [Origins("", None)], [differs])])


class Sentences(unittest.TestCase):
    """What tools/why says of a repair by `compare`."""

    def told(self, name: str, *free: str, has_order: bool = True) -> Told:
        row = row_of(name)
        return Told(comparison_of(row.text), Network.of(Topology(text_of(row.topology()))), has_order, frozenset(free))

    def test_sentences(self) -> None:
        for name, wanted in SENTENCES.items():
            self.assertEqual(self.told(name).lines(), wanted, name)

    def test_routers_that_are_no_sources_any_more_lose_nothing(self) -> None:
        for free, wanted in [
            ((), "taken away from all routers but W: every path, as Y W X D (rank 1)"),
            (("X",), "taken away from Y: every path, as Y W X D (rank 1)"),
            (("X", "Y"), "taken away: nothing that was allowed"),
        ]:
            self.assertEqual(self.told("ring, fewer sources", *free).lines()[1], wanted)

    def test_walks_that_come_to_a_router_twice(self) -> None:
        self.assertIn("order changed for X: X W Y D was as good as X W X D (it comes to a router twice), and is better than it now",
                      self.told("ring, one way", "Y").lines())

    def test_without_order(self) -> None:
        """Of what is liked alike instead the ranks say nothing."""
        self.assertEqual(self.told("avoided", has_order=False).lines()[2:], ["taken away from KSCY: every path, as KSCY DNVR SNVA West", "carried no more by KSCY"])

    def test_who_newly_has_a_path(self) -> None:
        told = self.told("a region softened")
        self.assertEqual((len(told.freed()), told.count()), (10 + 4, 2))
        self.assertEqual((self.told("avoided").freed(), self.told("avoided").count()), (set(), 0))


if __name__ == "__main__":
    unittest.main()
