"""The readers of tools/reasons and tools/texts find in each form of line what the table of lines.py says. tools/page-check tries the page's reader."""
from __future__ import annotations

import os
import re
import unittest
from typing import Any

from common import TOP
from lines import NAMES, Row, rows
from reasons import costs
from reasons.cases import TO
from reasons.network import Network
from reasons.picture import Report
from texts.comparison import Change, Named, comparison_of

NETWORK = Network(NAMES[:3], NAMES[3:], ())
PAGE = os.path.join(TOP, "docs", "FORMATS.md")


def stands(state: str, rank: int) -> str:
    return f"rank {rank}" if state == "rank" else state


class Lines(unittest.TestCase):
    def test_reports(self) -> None:
        for row in rows("report"):
            report, paths = Report(row.text(), NETWORK), costs.paths_in(row.text())
            with self.subTest(row.line):
                self.assertEqual(report.prefix, row.says.get("prefix", ""))
                routers, sessions = row.says.get("routers", []), row.says.get("sessions", [])
                self.assertEqual(report.routers, {name: (stands(state, rank), tuple(path)) for name, state, rank, path in routers})
                self.assertEqual(report.sessions, {(name, peer): (stands(state, rank), tuple(path)) for name, peer, state, rank, path in sessions})
                wanted = {name: tuple(path) for name, _, _, path in routers if path}
                self.assertEqual(paths, wanted | {name + TO + peer: tuple(path) for name, peer, _, _, path in sessions if path})

    def test_promises(self) -> None:
        for row in rows("promises"):
            wanted = {name + (TO + peer if peer else ""): rank for name, peer, rank in row.says.get("sources", [])}
            self.assertEqual(costs.promised_in(row.text(), 2), wanted, row.line)

    def test_cuts(self) -> None:
        for row in rows("cuts"):
            count, lost = costs.cuts_in(f"{row.text()}cuts 9 changed 1\n")
            with self.subTest(row.line):
                self.assertEqual(count, "5" if "last" in row.says else "9")
                self.assertEqual([name.replace(TO, "–") for names in lost.values() for name in names], row.says.get("lost", []))

    def test_comparisons(self) -> None:
        """A line says what is found with it and isn't found without it."""
        for row in rows("compared"):
            end = "" if "last" in row.says else "cases 9 changed 9\n"
            found, before = compared(row.text() + end), compared(f"{row.before}cases 9 changed 9\n")
            self.assertEqual({name: each for name, each in found.items() if each != before[name]}, row.says, row.line)

    def test_each_form_of_the_page_has_a_row(self) -> None:
        """FORMATS names each form of a report and of promises in a table; names and numbers there stand for any."""
        with open(PAGE, encoding="utf-8") as file:
            page = file.read()
        for reader, head in (("report", "The report of an outcome"), ("promises", "Promises"), ("free", "What is free"),
                             ("spread", "Where packets go"), ("waits", "What waits")):
            table = page.partition(f"\n## {head}\n")[2].partition("\n## ")[0]
            cells = re.findall(r"^\| ((?:`[^`]+`(?:, )?)+)[^|]*\|", table, re.M)
            for form in re.findall(r"`([^`]+)`", " ".join(cells)):
                form = form.removesuffix(" ..")
                self.assertTrue(any(is_of(row, form) for row in rows(reader)) or form in ("prefix P", "class N"), (reader, form))


def compared(text: str) -> dict[str, Any]:
    """What the reader of comparisons finds in the last change, and in the places that were begun last."""
    found = comparison_of(text)
    change = found.changes[-1] if found.changes else Change(None, None)
    places = [*change.differs, *change.carriers][-1:]

    def named(held: Named | None) -> list[Any] | None:
        return [held.are_all, list(held.names)] if held else None

    return {
        "changes": [[each.old, each.new] for each in found.changes], "prefixes": change.prefixes,
        "origins": [[each.word, named(each.routers)] for each in change.origins], "differs": [list(each.words) for each in change.differs],
        "part": [line for each in places for line in each.part], "routers": next((named(each.routers) for each in places), None),
        "sessions": next((named(each.sessions) for each in places), None),
        "rows": [[row.old, row.new, row.is_path, list(row.walk)] for each in change.differs for row in each.rows],
        "carriers": [each.word for each in change.carriers], "last": [found.cases, found.changed],
    }


def is_of(row: Row, form: str) -> bool:
    """Whether a row's line has a form of the page: a word in capitals there stands for one word, PATTERN also for one with `le` and a length
    behind it, the last for any, and `..` for more of them."""
    words = {"PATTERN": r" \S+(?: le \d+)?", "..": r"(?: \S+)*"}
    pattern = "".join(words.get(word, r" \S+" if word.isupper() else re.escape(f" {word}")) for word in form.split())
    return re.fullmatch(pattern + (r"(?: \S+)*" if form.split()[-1].isupper() else ""), f" {row.line}") is not None


if __name__ == "__main__":
    unittest.main()
