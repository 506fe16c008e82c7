"""The view Compare shows what the program says of the file's policy and the edited one, and draws the walks that show it."""
from __future__ import annotations

import tempfile
from typing import Any

from compared import ROWS, Row, comparing, row_of
from paging import ABILENE, RING, WAYS, Paged
from serving import Served, contrary, text_of

# What stands in the view, as lists of texts: for each change its heading, its statements by their signs, and the rest in its order.
SHOWN = """[...document.querySelectorAll('#view .change')].map(c=>({
prefixes:c.querySelector('h3').textContent,
statements:[...c.querySelectorAll('.statements > *')].map(e=>e.textContent),
said:[...c.querySelectorAll('p.text')].map(e=>e.textContent),
who:[...c.querySelectorAll('.differs')].map(e=>[e.querySelector('b').textContent,[...e.querySelectorAll('.chip')].map(w=>w.textContent)]),
walks:[...c.querySelectorAll('.walk')].map(e=>[...e.querySelectorAll('.chip')].map(w=>w.textContent).concat(e.querySelector('.what').textContent))}))"""
WORDS = {
    "lost": "some walks are taken away", "gained": "further walks are allowed", "reordered": "walks stand in another order",
    "unclaimed": "no walk is allowed any more", "claimed": "walks are allowed, and none was",
    "replaced": "other walks are allowed, and none of the old ones",
}
ORIGINS = {"lost ": "No origins any more", "kept ": "Origins still", "gained ": "New origins", "": "Origins"}
CARRIERS = {"lost": "Carry it no more", "gained": "Carry it now, and didn't"}
PRESSED = "[...document.querySelectorAll('.walk[aria-pressed=true]')].map(e=>e.id)"


def who(line: str) -> str:
    """Routers or sessions as the page has them."""
    if " but " not in line and line.startswith("all "):
        return line
    front, _, names = line.rpartition(" but ") if line.startswith("all ") else ("", "", line.split(" ", 1)[1])
    told = [" at ".join(pair.split(" ")[::-1]) for pair in names.split(", ")] if "sessions" in line else names.split(" ")
    return (f"{front} but " if front else "") + ", ".join(told)


def rank(word: str) -> str:
    return "forbidden" if word == "none" else f"rank {word}"


def shown(report: str) -> list[dict[str, Any]]:
    """What the page is to show of a report but for the statements, made of the program's lines in another way: one change after another."""
    found = []
    for part in report.partition("cases ")[0].split("change statement ")[1:]:
        head, *lines = part.splitlines()
        old, now = (f"statement {word}" if word != "none" else "no statement" for word in head.split(" now "))
        prefixes = [line[7:].replace("0.0.0.0/0 le 32", "any other prefix") for line in lines if line.startswith("prefix ")]
        change: dict[str, Any] = {"prefixes": ", ".join(prefixes), "said": [f"{old}, now {now}"], "who": [], "walks": []}
        for at, line in enumerate(lines):
            word, _, rest = line.partition(" ")
            names = [who(each) for each in lines[at + 1:at + 3] if each.startswith(("routers ", "sessions ", "all "))]
            if word == "origins":
                front = next(each for each in ORIGINS if rest.startswith(each))
                of = rest.removeprefix(front)
                change["said"].append(f"{ORIGINS[front]}: {of if of == 'peers' else who(of)}.")
            elif word == "differs":
                change["who"].append([", and ".join(names), [WORDS[each] for each in rest.split(" ")]])
            elif word == "carriers":
                change["said"].append(f"{CARRIERS[rest]}: {names[0]}.")
            elif word == "rank":
                was, _, is_now, kind, *walk = rest.split(" ")
                change["walks"].append([rank(was), rank(is_now), *(["comes to a router twice"] if kind == "walk" else []), " → ".join(walk)])
        found.append(change)
    return found


class Compare(Paged):
    def setUp(self) -> None:
        room = tempfile.TemporaryDirectory()
        self.addCleanup(room.cleanup)
        self.room = room.name

    def edited(self, row: Row) -> Served:
        """The page in this view, with the edited policy of a row."""
        served = self.open(row.topology(), row.old_file(), program=comparing(self.room))
        self.click("[data-mode=compare]")
        self.assertIn("Edit the policy", self.said("#view"))
        self.write(row.new())
        return served

    def test_shown_is_what_the_program_says(self) -> None:
        for row in ROWS:
            with self.subTest(row.name), tempfile.TemporaryDirectory() as self.room:
                served = self.edited(row)
                report = served.ask("compare", row.old(), row.new())["output"]
                self.assertEqual(report, row.text)
                page = self.browser.eval(SHOWN)
                for change in page:
                    del change["statements"]
                self.assertEqual(page, shown(str(report)))

    def test_statements_stand_beside_each_other(self) -> None:
        row = row_of("opened")
        self.edited(row)
        old, new = (next(line for line in text.splitlines() if line.startswith("10.0.0.0/16")) for text in (row.old(), row.new()))
        self.assertEqual([change["statements"] for change in self.browser.eval(SHOWN)], [[f"- {old}", f"+ {new}"]] * 2)
        with tempfile.TemporaryDirectory() as self.room:
            self.edited(row_of("a second origin"))
        self.assertEqual([change["statements"] for change in self.browser.eval(SHOWN)], [[f"  {old}"]])

    def test_a_click_draws_a_walk(self) -> None:
        self.edited(row_of("swapped"))
        self.assertEqual(self.browser.eval("document.querySelectorAll('.n-arrow.old').length"), 11)
        for at, walk in enumerate((["STTL", "SNVA", "West"], ["STTL", "DNVR", "KSCY", "IPLS", "CHIN", "NYCM", "East"])):
            self.click(f"#walk-0-0-{at}")
            self.assertEqual(self.browser.eval(WAYS), [f"{one}>{two}" for one, two in zip(walk, walk[1:])])
            self.assertEqual(self.browser.eval(PRESSED), [f"walk-0-0-{at}"])
            self.assertIn(", ".join(walk), self.said("#live"))
        self.browser.hover("[data-node=CHIN]")
        self.assertFalse(self.browser.eval("document.querySelector('.network svg').classList.contains('dimmed')"))
        self.click("#walk-0-0-1")
        self.assertEqual((len(self.browser.eval(WAYS)), self.browser.eval(PRESSED)), (22, []))

    def test_a_walk_that_comes_to_a_router_twice(self) -> None:
        self.open(*RING, program=comparing(self.room))
        self.write(row_of("ring, one way").new())
        self.click("[data-mode=compare]")
        self.click("#walk-0-0-1")
        self.assertEqual(self.browser.eval(WAYS), ["X>W", "W>X", "X>D"])
        self.assertIn("comes to a router twice", self.said("#walk-0-0-1"))

    def test_refused_policies_are_compared(self) -> None:
        """Neither is accepted, and no prefix can be chosen: there are no routes, and a comparison there is."""
        row = row_of("ring, nothing carried")
        self.open(*RING, program=comparing(self.room))
        self.click("[data-mode=compare]")
        self.write(row.new())
        self.assertEqual([change["walks"] for change in self.browser.eval(SHOWN)], [shown(row.text)[0]["walks"]])
        self.assertIn("isn't accepted: it has no routes", self.said("#view"))

    def test_another_text_is_compared_anew(self) -> None:
        row = row_of("swapped")
        self.edited(row)
        self.click("#walk-0-0-0")
        self.write(row_of("avoided").new())
        self.assertEqual(self.browser.eval(PRESSED), [])
        self.assertEqual(len(self.browser.eval(SHOWN)[0]["walks"]), 4)
        self.write(row_of("the same").new())
        self.assertIn("both permit the same walks in the same order", self.said("#view"))
        self.click("#revert")
        self.assertEqual(self.policy(), text_of(ABILENE[1]))
        self.assertIn("Edit the policy", self.said("#view"))

    def test_routes_against_the_file(self) -> None:
        self.edited(row_of("swapped"))
        self.assertIn("Routes, against the file's11 changes", self.said("#view"))
        self.assertIn("Under one more failure", self.said("#view"))

    def test_what_is_refused_is_told(self) -> None:
        line = "propane: refused 9 too-many-pairs statement 1 now 1"
        served = self.open(*ABILENE, program=contrary(self.room, "compare", f"echo '{line}' >&2; exit 1"))
        self.click("[data-mode=compare]")
        self.write(row_of("swapped").new())
        said = self.said("#view")
        self.assertIn("There is no comparison: refused 9 too-many-pairs statement 1 now 1", said)
        self.assertIn("more than 1,048,576 steps", said)
        self.assertIn("11 changes", said)
        self.assertEqual(served.ask("compare", row_of("swapped").old(), row_of("swapped").new())["place"], {"from": 0, "to": 34})
