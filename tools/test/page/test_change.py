"""The view of a change shows the stages that the program writes, and the routes before and after."""
from __future__ import annotations

import os
import shutil
import subprocess
import tempfile

from common import PROGRAM
from paging import ABILENE, RING, Paged
from serving import Served, contrary, example, text_of

SWAPPED = text_of(example("cookbook", "exits-swapped.propane"))
STAGES = ("old", "one", "two", "new")
LOADS = "[...document.querySelectorAll('.load')].map(e=>e.textContent)"
FRAMED = "[...document.querySelectorAll('.g-node.loads')].map(e=>e.dataset.node)"
OLD_WAYS = "[...document.querySelectorAll('.n-arrow.old')].map(e=>e.dataset.way)"
BLOCK = "[...document.querySelectorAll('#stage-block > *')].map(e=>[e.tagName,e.textContent])"
BESIDE = {"INS": "+ ", "DEL": "- ", "SPAN": "  "}
SEEN = """[...document.querySelectorAll('.modes button, .stages button')].every(e=>{const r=e.getBoundingClientRect(),
o=e.parentElement.getBoundingClientRect();return o.left<=r.left&&r.right<=o.right+1&&e.scrollWidth<=e.clientWidth})"""


class Change(Paged):
    def setUp(self) -> None:
        room = tempfile.TemporaryDirectory()
        self.addCleanup(room.cleanup)
        self.room = room.name

    def stages(self, policy: str) -> list[dict[str, list[str]]]:
        """The blocks of the four configurations as the program writes them into files."""
        files = {name: os.path.join(self.room, name) for name in ("policy", *STAGES)}

        def write(name: str, *words: str) -> None:
            with open(files[name], "w", encoding="utf-8") as file:
                subprocess.run([PROGRAM, *words], stdout=file, check=True)

        with open(files["policy"], "w", encoding="utf-8") as file:
            file.write(policy)
        write("old", "compile", *ABILENE)
        write("new", "renew", ABILENE[0], files["policy"], files["old"])
        for number, stage in ("1", "one"), ("2", "two"):
            write(stage, "between", files["old"], files["new"], number)
        found = []
        for stage in STAGES:
            parts = [part.splitlines() for part in text_of(files[stage])[:-5].split("\nend\n")]
            parts[0] = [line for line in parts[0] if not line.startswith(("propane-config ", "class "))]
            found.append({part[0].split()[1]: [*part, "end"] for part in parts})
        return found

    def edited(self, policy: str = SWAPPED, words: tuple[str, ...] = (), **how: str) -> Served:
        """The page in this view, with another policy than the one that runs."""
        served = self.open(*ABILENE, words=words, **how)
        self.click("[data-mode=change]")
        self.assertIn("Edit the policy", self.said("#view"))
        self.write(policy)
        return served

    def test_who_loads_in_each_stage(self) -> None:
        self.edited()
        stages = self.stages(SWAPPED)
        for before, after, stage, word in zip(stages, stages[1:], STAGES[1:], ("still", "moves", "still")):
            self.click(f"#stage-{stage}")
            loads = [name for name, block in after.items() if before[name] != block]
            self.assertEqual(self.browser.eval(LOADS), loads)
            self.assertEqual(sorted(self.browser.eval(FRAMED)), sorted(loads))
            self.assertTrue(self.said(f"#stage-{stage}").endswith(f"{len(loads)} to load{word}"), self.said(f"#stage-{stage}"))
            self.assertEqual(self.browser.eval("[...document.querySelectorAll('[id^=stage-][aria-pressed=true]')].map(e=>e.id)"), [f"stage-{stage}"])
        self.click("#stage-old")
        self.assertEqual((self.browser.eval(LOADS), self.browser.eval(FRAMED)), ([], []))

    def test_a_block_has_its_added_and_taken_lines(self) -> None:
        self.edited()
        stages = self.stages(SWAPPED)
        self.click("#stage-two")
        self.click("#load-SNVA")
        self.browser.wait(f"({BLOCK}).length>0")
        self.assertEqual(self.chosen("pinned"), "SNVA")
        self.assertEqual([tag for tag, _ in self.browser.eval(BLOCK)], ["SPAN", "DEL", "INS"])
        self.click("#whole-block")
        for before, after, stage in zip([stages[0], *stages], stages, STAGES):
            self.click(f"#stage-{stage}")
            rows = self.browser.eval(BLOCK)
            self.assertEqual([(tag, text[:2]) for tag, text in rows], [(tag, BESIDE[tag]) for tag, _ in rows])
            self.assertEqual([text[2:] for tag, text in rows if tag != "INS"], before["SNVA"])
            self.assertEqual([text[2:] for tag, text in rows if tag != "DEL"], after["SNVA"])

    def test_routes_before_and_after(self) -> None:
        served = self.edited()
        self.link("DNVR", "SNVA")
        reports = [self.program(served, "replay", policy, "203.0.113.0/24", cut=[["SNVA", "DNVR"]]) for policy in (text_of(ABILENE[1]), SWAPPED)]
        paths = [{line.split()[1]: line.split(" path ")[1] for line in report.splitlines() if line.startswith("router ")} for report in reports]
        moved = [name for name, path in paths[0].items() if paths[1][name] != path]
        self.assertEqual(sorted(self.browser.eval(OLD_WAYS)), sorted(">".join(paths[0][name].split()[:2]) for name in moved))
        self.assertIn(f"{len(moved)} paths change", self.said("#view"))
        self.click("#revert")
        self.assertIn("Edit the policy", self.said("#view"))
        self.assertEqual(self.browser.eval(OLD_WAYS), [])

    def test_by_keys_and_as_a_link(self) -> None:
        self.edited()
        self.browser.eval("document.querySelector('#stage-two').focus()")
        self.browser.key("Enter", text="\r")
        self.rest()
        self.assertEqual(self.browser.eval("document.activeElement.id"), "stage-two")
        self.assertIn("Routes go over to the new policy", self.said("#live"))
        self.browser.key("Tab")
        self.browser.key("Tab")
        self.browser.key("Enter", text="\r")
        self.rest()
        self.assertEqual(self.browser.eval("document.activeElement.id"), f"load-{self.chosen('pinned')}")
        self.assertIn("has something to load", self.browser.eval("document.querySelector('.g-node.loads').getAttribute('aria-label')"))
        self.assertTrue(self.browser.eval(SEEN))
        self.browser.eval("globalThis.propane=undefined;location.reload()")
        self.browser.wait("!!globalThis.propane&&!!propane.answers.report")
        self.rest()
        self.assertEqual((self.chosen("stage"), len(self.browser.eval(LOADS))), ("two", 4))

    def test_what_is_in_the_way(self) -> None:
        self.edited(program=contrary(self.room, "between", "echo 'low pref 7'; exit 7"))
        self.assertEqual(self.said("#verdict"), "accepted")
        for line in "There are no stages from the policy that runs to this one:", "low pref 7", "docs/FORMATS.md, \"What is in the way\"":
            self.assertIn(line, self.said("#says"))
        self.assertIn("There are no stages to show", self.said("#view"))
        self.click("[data-mode=routes]")
        self.assertEqual(self.said("#says"), "")

    def test_no_answer_is_no_verdict(self) -> None:
        self.edited(program=contrary(self.room, "between", "exit 6"))
        self.assertIn("There is no answer:", self.said("#says"))
        self.assertNotIn("from the policy that runs", self.said("#says"))

    def test_refused_policies(self) -> None:
        self.edited("true => exit(West) and start(SNVA) and through(;")
        self.assertEqual(self.said("#verdict"), "not a policy yet")
        self.assertIn("The edited policy isn't accepted.", self.said("#view"))
        self.open(*RING)
        self.click("[data-mode=change]")
        self.write(text_of(RING[1]).replace("any;", "any from W;"))
        self.browser.wait("document.querySelector('#verdict').textContent==='accepted'")
        self.rest()
        self.assertIn("The policy that runs isn't accepted:", self.said("#says"))

    def test_what_is_saved_runs(self) -> None:
        path = shutil.copy(ABILENE[1], self.room)
        self.open(ABILENE[0], path, words=("--save",))
        self.click("[data-mode=change]")
        self.write(SWAPPED)
        self.browser.wait(f"({LOADS}).length===11")
        self.browser.click("#menu summary")
        self.browser.click("#menu-items button")
        self.browser.wait("document.querySelector('#view').textContent.includes('Edit the policy')")
        with open(path, "w", encoding="utf-8") as file:  # by another program: this isn't what runs
            file.write(text_of(ABILENE[1]))
        self.browser.wait(f"({LOADS}).length===11")
