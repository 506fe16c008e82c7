"""How the page looks and is used: by keys, by a screen reader, in the dark, with many routers; and what is saved of it."""
from __future__ import annotations

import json
import os
import re
import subprocess
import sys
import tempfile
import unittest
import xml.etree.ElementTree as tree

from common import TOP
from paging import ABILENE, Paged

sys.path.insert(0, os.path.join(TOP, "tools"))
from opening.files import page_files  # noqa: E402

BOXES = """[...document.querySelectorAll('.g-node rect.body')].map(e=>{const r=e.getBoundingClientRect();return [r.x,r.y,r.right,r.bottom]})"""
FRAME = "(()=>{const r=document.querySelector('#network').getBoundingClientRect();return [r.x,r.y,r.right,r.bottom]})()"
CATCH = """(()=>{globalThis.saved=[];const made=URL.createObjectURL;
URL.createObjectURL=b=>{b.text().then(t=>saved.push(t));return made(b)};HTMLAnchorElement.prototype.click=()=>{}})()"""
NAMED = ("button", "textbox", "combobox", "application", "region", "listbox", "option")


class Hands(Paged):
    def test_by_keys_alone(self) -> None:
        self.open(*ABILENE)
        self.browser.eval("document.querySelector('.g-node[tabindex=\"0\"]').focus()")
        name = self.browser.eval("document.activeElement.dataset.node")
        self.browser.key("ArrowRight")
        other = self.browser.eval("document.activeElement.dataset.node")
        self.assertTrue(other and other != name)
        self.browser.key("Enter", text="\r")
        self.rest()
        self.assertEqual(self.chosen("dead"), [other])
        self.assertIn(f"{other} failed", self.said("#live"))
        self.assertIn("dead", self.browser.eval(f"document.querySelector('[data-node={other}]').getAttribute('aria-label')"))
        self.browser.key("l", "KeyL")
        self.browser.key("Enter", text="\r")
        self.rest()
        self.assertEqual(len(self.chosen("cut")), 1)

    def test_by_a_screen_reader(self) -> None:
        """A reader clicks without a pointer; each thing that can be used has a name."""
        self.open(*ABILENE)
        self.browser.eval("document.querySelector('[data-node=DNVR]').dispatchEvent(new MouseEvent('click',{bubbles:true}))")
        self.browser.eval("document.querySelector('[data-link=\"SNVA~STTL\"]').dispatchEvent(new MouseEvent('click',{bubbles:true}))")
        self.rest()
        self.assertEqual((self.chosen("dead"), self.chosen("cut")), (["DNVR"], ["SNVA~STTL"]))
        nodes = self.browser.ask("Accessibility.getFullAXTree")["nodes"]
        bad = [node["nodeId"] for node in nodes if not node.get("ignored") and node.get("role", {}).get("value") in NAMED
               and not node.get("name", {}).get("value")]
        self.assertEqual(bad, [])

    def test_drag_keeps_the_place(self) -> None:
        self.open(*ABILENE)
        self.browser.drag("[data-node=HSTN]", 30, -60)
        self.assertEqual(self.chosen("dead"), [])
        at = self.chosen("moved.HSTN")
        self.browser.eval("globalThis.propane=undefined;location.reload()")
        self.browser.wait("!!globalThis.propane&&!!propane.answers.report")
        self.assertEqual(self.chosen("moved.HSTN"), at)

    def test_pin(self) -> None:
        self.open(*ABILENE)
        self.browser.click("[data-node=HSTN]", modifiers=8)
        self.assertEqual((self.chosen("pinned"), self.chosen("dead")), ("HSTN", []))

    def test_what_is_saved(self) -> None:
        self.open(*ABILENE)
        self.browser.eval(CATCH)
        for said in "Picture (SVG)", "Scenario", "Configuration":
            self.browser.eval(f"[...document.querySelectorAll('#menu-items button')].find(e=>e.textContent==={json.dumps(said)}).click()")
            self.browser.wait("saved.length>0", 20)
            held = self.browser.eval("saved.pop()")
            if said == "Scenario":
                self.assertEqual(json.loads(held), {"prefix": "203.0.113.0/24", "dead": [], "dead_links": [], "silent": []})
            elif said == "Configuration":
                self.assertTrue(held.startswith("propane-config 2\n") and held.endswith("end\n"))
            else:
                names = [each.text for each in tree.fromstring(held).iter("{http://www.w3.org/2000/svg}text")]
                self.assertIn("CHIN", names)
                self.assertNotIn("var(", held)


class Dark(Paged):
    is_dark = True

    def test_theme(self) -> None:
        self.open(*ABILENE)
        self.assertEqual(self.browser.eval("document.documentElement.dataset.theme"), "dark")
        self.click("#theme")
        self.assertEqual(self.browser.eval("document.documentElement.dataset.theme"), "light")


class Many(Paged):
    def test_a_hundred_routers(self) -> None:
        room = tempfile.TemporaryDirectory()
        self.addCleanup(room.cleanup)
        subprocess.run([os.path.join(TOP, "bench", "make"), "leaf-spine-96", room.name], check=True, stdout=subprocess.DEVNULL)
        self.open(*[os.path.join(room.name, name) for name in ("topology.json", "policy.propane")])
        boxes, frame = self.browser.eval(BOXES), self.browser.eval(FRAME)
        self.assertEqual(len(boxes), 102)
        for place, (x, y, u, v) in enumerate(boxes):
            self.assertTrue(frame[0] <= x and frame[1] <= y and u <= frame[2] and v <= frame[3], (place, x, y, u, v))
            for other in boxes[place + 1:]:
                self.assertFalse(x < other[2] and other[0] < u and y < other[3] and other[1] < v, (place, other))
        sizes = self.browser.eval("[...document.querySelectorAll('.g-node text.name')].map(e=>e.getBoundingClientRect().height)")
        self.assertGreater(min(sizes), 9)  # still to be read


def light(colour: str) -> float:
    """The relative luminance of WCAG 2.1."""
    if len(colour) == 4:
        colour = "#" + "".join(2 * digit for digit in colour[1:])
    parts = [int(colour[at:at + 2], 16) / 255 for at in (1, 3, 5)]
    red, green, blue = (part / 12.92 if part <= 0.04045 else ((part + 0.055) / 1.055) ** 2.4 for part in parts)
    return 0.2126 * red + 0.7152 * green + 0.0722 * blue


def contrast(one: str, other: str) -> float:
    low, high = sorted((light(one), light(other)))
    return (high + 0.05) / (low + 0.05)


LETTERS = [("ink", "panel"), ("ink", "ground"), ("soft", "panel"), ("soft", "ground"), ("word", "panel"), ("figure", "panel"),
           ("sign", "panel"), ("comment", "panel"), ("good", "good-fill"), ("fault", "bad-fill"), ("warn", "warn-fill"), ("panel", "accent")]
STANDINGS = ("rank1", "rank2", "rank3", "rank4", "origin", "transit", "none", "dead")


class Colours(unittest.TestCase):
    def test_letters_stand_out(self) -> None:
        """The contrast of WCAG 2.1, AA: 4.5 for letters, in both themes."""
        style = "".join(page_files()[name][1].decode() for name in ("style.css", "forms.css"))
        for theme in ":root", ':root[data-theme="dark"]':
            blocks = re.findall(rf"^{re.escape(theme)} \{{([^}}]*)\}}", style, re.M)
            held = dict(re.findall(r"--([a-z0-9-]+): (#[0-9a-f]{3,6})", "".join(blocks)))
            pairs = LETTERS + [(name, f"{name}-fill") for name in STANDINGS] + [("ink", f"{name}-fill") for name in STANDINGS[:4]]
            self.assertEqual({pair: contrast(held[pair[0]], held[pair[1]]) for pair in pairs
                              if contrast(held[pair[0]], held[pair[1]]) < 4.5}, {}, theme)
