"""What the views show is what the program says, and a click does what it says."""
from __future__ import annotations

import json
import re

from paging import ABILENE, CLOS, FABRIC, TWO_EXITS, WAYS, Paged, shown
from serving import Served, text_of


class Routes(Paged):
    def test_routes_are_those_of_replay(self) -> None:
        served, policy = self.open(*ABILENE), text_of(ABILENE[1])
        self.assertEqual(self.report(), shown(self.program(served, "replay", policy, "203.0.113.0/24")))
        self.assertEqual(len(self.browser.eval(WAYS)), 11)
        self.link("DNVR", "SNVA")
        now = shown(self.program(served, "replay", policy, "203.0.113.0/24", cut=[["SNVA", "DNVR"]]))
        self.assertEqual(self.report(), now)
        self.assertEqual(sorted(self.browser.eval(WAYS)), sorted(">".join(str(row[3]).split()[:2]) for row in now[0] if row[3]))
        self.assertIn("DNVR", self.said("#failures"))
        self.assertIn("5 changes", self.said("#view"))
        self.assertIn("5 changes", self.said("#live"))

    def test_a_link_makes_the_same_again(self) -> None:
        served, policy = self.open(*ABILENE), text_of(ABILENE[1])
        for place in "[data-node=KSCY]", "[data-node=West]":
            self.click(place)
        self.link("DNVR", "SNVA")
        now = shown(self.program(served, "replay", policy, "203.0.113.0/24", ["KSCY"], [["SNVA", "DNVR"]], [["SNVA", "West"]]))
        self.assertEqual(self.report(), now)
        address = self.browser.eval("location.href")
        self.browser.go("about:blank")
        self.browser.go(address)
        self.browser.wait("!!globalThis.propane&&!!propane.answers.report")
        self.rest()
        self.assertEqual(self.report(), now)
        self.click("#failures .chip")
        self.assertNotIn("KSCY ✕", self.said("#failures"))
        self.browser.key("z", "KeyZ", modifiers=2)
        self.rest()
        self.assertIn("KSCY ✕", self.said("#failures"))

    def test_hover_tells_path_and_block(self) -> None:
        served = self.open(*ABILENE)
        self.browser.hover("[data-node=CHIN]")
        self.assertIn("CHIN → IPLS → KSCY → DNVR → SNVA → West", self.said("#inspector"))
        self.assertEqual(self.browser.eval("document.querySelectorAll('.n-arrow.on').length"), 5)
        self.browser.click("details.config summary")
        block = self.browser.wait("document.querySelector('#inspector pre')?.textContent")
        self.assertIn(block, served.ask("compile", text_of(ABILENE[1]))["output"])
        self.assertTrue(block.startswith("router CHIN ") and block.endswith("\nend"))

    def test_promises_choose_a_prefix(self) -> None:
        served = self.open(*FABRIC)
        self.click(".promise[data-cases*=' 3 ']")
        self.assertEqual(self.browser.eval("document.querySelector('#prefix').value"), "203.0.113.0/24")
        self.assertEqual(self.report(), shown(self.program(served, "replay", text_of(FABRIC[1]), "203.0.113.0/24")))
        self.assertIn("end(L1 >> L3)", self.marked("chosen"))


class OtherViews(Paged):
    def test_what_if_and_free_are_the_programs(self) -> None:
        served, policy = self.open(*ABILENE), text_of(ABILENE[1])
        self.click("[data-mode=whatif]")
        told = self.program(served, "whatif", policy, "203.0.113.0/24")
        moves = {(*words[2:-4],): words[-3] for words in map(str.split, told.splitlines()) if words[0] == "cut"}
        page = dict(self.browser.eval("propane.view().held.whatif.cuts.map(c=>[c.id,c.moves])"))
        self.assertEqual({"~".join(sorted(names)): int(count) for names, count in moves.items()}, page)
        self.assertEqual(self.said('[data-link="SNVA~West"] .n-count'), "11")
        self.click("[data-mode=free]")
        told = self.program(served, "drain", policy, "203.0.113.0/24")
        free = {"~".join(sorted(line.split()[2:])) for line in told.splitlines() if re.match("free (link|router) ", line)}
        self.assertEqual(set(self.browser.eval("[...propane.view().held.free.free]")), free)

    def test_spread_is_the_programs(self) -> None:
        served, policy = self.open(*CLOS), text_of(CLOS[1])
        self.click("[data-mode=spread]")
        told = self.program(served, "multipath", policy, self.chosen("prefix"))
        wanted = {(words[1], name) for words in map(str.split, told.splitlines()) if "next" in words for name in words[words.index("next") + 1:]}
        arrows = self.browser.eval(WAYS)
        self.assertEqual(sorted(arrows), sorted(f"{name}>{after}" for name, after in wanted))
        self.assertEqual(len([way for way in arrows if way.startswith("L2>")]), 2)
        self.browser.hover("[data-node=L2]")
        self.assertEqual(self.browser.eval("document.querySelectorAll('.n-arrow.on').length"), 4)
        self.assertIn("Its packets go to S1, S2, and have 2 hops in all.", self.said("#inspector"))

    def test_steps_lead_to_rest(self) -> None:
        served, policy = self.open(*TWO_EXITS), text_of(TWO_EXITS[1])
        self.click("[data-mode=steps]")
        delivered = 0
        while self.browser.eval("propane.answers.report.quiet") is False:
            self.click("#next")
            delivered += 1
            self.assertLess(delivered, 30)
        prefix = self.chosen("prefix")
        self.assertEqual(self.report(), shown(self.program(served, "replay", policy, prefix)))
        self.assertEqual(self.browser.eval("propane.answers.report.events.size"), 0)  # each could happen
        self.link("R1", "P1")
        self.assertIn("directions with messages that wait" if self.waiting() != 1 else "1 direction", self.said("#view"))
        self.assertTrue(self.waiting())
        self.waits_as_told(served, policy)
        self.click("#rest")
        self.assertEqual(self.report(), shown(self.program(served, "replay", policy, prefix, cut=[["R1", "P1"]])))
        events = json.dumps({"prefix": prefix, "events": self.chosen("events")})
        said = str(served.ask("settle", policy, events, "test")["output"])
        self.assertEqual(f"rounds {self.browser.eval('propane.answers.report.rounds')}\n", said.splitlines(True)[0])

    def waits_as_told(self, served: Served, policy: str) -> None:
        """The rows of the list are the program's messages, by their directions, the first of each first."""
        events = json.dumps({"prefix": self.chosen("prefix"), "events": self.chosen("events")})
        told: dict[str, list[str]] = {}
        for words in map(str.split, str(served.ask("waiting", policy, events, "test")["output"]).splitlines()[:-1]):
            told.setdefault(f"{words[1]} → {words[2]}", []).append(" → ".join(words[4:]) or "withdraw")
        rows = self.browser.eval("[...document.querySelectorAll('#view > .item[data-way]')].map(e=>[...e.children].map(c=>c.textContent))")
        self.assertEqual(rows, [[way, ", then ".join(said)] for way, said in told.items()])

    def test_messages_are_those_of_waiting(self) -> None:
        served, policy = self.open(*TWO_EXITS), text_of(TWO_EXITS[1])
        self.click("[data-mode=steps]")
        self.waits_as_told(served, policy)
        for first, second in ("P1", "R1"), ("P2", "R2"):
            self.click(f"#view [data-way='{first}>{second}']")
        for _ in range(2):
            self.link("R1", "P1")
        self.waits_as_told(served, policy)
        self.assertIn("R1 → P1, then withdraw", self.said("#view"))
        self.click("#view [data-way='P1>R1']")
        self.waits_as_told(served, policy)
        self.assertIn("R1 → P1, then withdraw, then R1 → P1", self.said("#view"))
        self.assertEqual(self.browser.eval("document.querySelector('[data-link=\"R1~R2\"] .n-count').textContent.replace(/[^0-9]/g, '')"), "3")

    def waiting(self) -> int:
        """In how many directions messages wait, as the page says it."""
        return self.browser.eval("propane.view().held.waiting.length")

    def test_one_round(self) -> None:
        self.open(*TWO_EXITS)
        self.click("[data-mode=steps]")
        for _ in range(20):
            if not self.waiting():
                break
            self.click("#round")
        self.assertTrue(self.browser.eval("propane.answers.report.quiet"))

