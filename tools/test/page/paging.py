"""What the tests of the page share: a browser for a class of tests, and how a user and a reader of the program's lines see the page."""
from __future__ import annotations

import json
import time
import unittest
from typing import Any

from browser import Browser
from serving import Served, example

ABILENE = example("cookbook", "abilene.json"), example("cookbook", "exits.propane")
TWO_EXITS = example("two-exits", "topology.json"), example("two-exits", "policy.propane")
RING = example("waypoint-ring", "topology.json"), example("waypoint-ring", "policy.propane")
CLOS = example("fabric", "topology.json"), example("fabric", "policy.propane")
FABRIC = example("data-centre", "topology.json"), example("data-centre", "policy.propane")
WAITS = "!!document.querySelector('.network.waits')"
READY = f"!!globalThis.propane&&(!!propane.answers.report||!!propane.answers.fault)&&!{WAITS}"
PAUSE = 0.2  # seconds after which a key has become a question
REPORT = """(()=>{const r=propane.answers.report;return r&&JSON.stringify([[...r.routers].map(([n,s])=>[n,s.state,s.rank,s.path.join(' ')]),
r.sessions.map(s=>[s.router,s.peer,s.rank,s.path.join(' ')])])})()"""
WAYS = "[...document.querySelectorAll('.n-arrow')].map(e=>e.dataset.way)"


def shown(report: str) -> list[list[list[object]]]:
    """What the page has read of a report, made of the program's lines in another way."""
    routers: list[list[object]] = []
    sessions: list[list[object]] = []
    for words in map(str.split, report.splitlines()):
        path = " ".join(words[words.index("path") + 1:]) if "path" in words else ""
        if words[0] == "router":
            routers.append([words[1], words[2], int(words[3]) if words[2] == "rank" else 0, path])
        elif words[0] == "session":
            sessions.append([words[1], words[2], int(words[4]) if words[3] == "rank" else 0, path])
    return [routers, sessions]


class Paged(unittest.TestCase):
    """Tests in one browser. Each fails where the page logs an error, too."""

    browser: Browser
    is_dark = False

    @classmethod
    def setUpClass(cls) -> None:
        cls.browser = Browser(is_dark=cls.is_dark)
        cls.addClassCleanup(cls.browser.close)

    def tearDown(self) -> None:
        faults = list(self.browser.faults)
        self.browser.go("about:blank")
        self.browser.wait("location.href==='about:blank'")  # before the server ends
        self.assertEqual(faults, [])

    def open(self, *names: str, link: str = "", words: tuple[str, ...] = (), **how: str) -> Served:
        """Serves files, and opens their page."""
        served = Served(*words, *names, **how)
        self.addCleanup(served.end)
        self.browser.faults.clear()
        self.browser.go(served.address + link)
        self.browser.wait(READY)
        return served

    def rest(self) -> None:
        """Waits until all is answered."""
        time.sleep(PAUSE)
        self.browser.wait(f"!{WAITS}")

    def click(self, selector: str) -> None:
        self.browser.click(selector)
        self.rest()

    def link(self, first: str, second: str) -> None:
        """Clicks a link in its middle."""
        self.click(f'[data-link="{min(first, second)}~{max(first, second)}"] .n-link')

    def write(self, policy: str) -> None:
        """Puts another text into the field."""
        self.browser.eval("(()=>{const f=document.querySelector('textarea');f.focus();f.select()})()")
        self.browser.type(policy)
        self.rest()

    def letters(self, text: str) -> None:
        """Types a text, one letter after another."""
        for letter in text:
            self.browser.key(letter, text=letter)

    def said(self, selector: str) -> str:
        return self.browser.eval(f"document.querySelector({json.dumps(selector)}).textContent")

    def marked(self, kind: str, between: str = "") -> str:
        """What is marked in the policy."""
        return self.browser.eval(f"[...document.querySelectorAll('.m-{kind}')].map(e=>e.textContent).join({json.dumps(between)})")

    def policy(self) -> str:
        return self.browser.eval("document.querySelector('textarea').value")

    def report(self) -> list[list[list[object]]]:
        """How routers and offers stand, as the page has read it."""
        return json.loads(self.browser.wait(REPORT))

    def chosen(self, name: str) -> Any:
        return self.browser.eval(f"(v=>v instanceof Set?[...v]:v)(propane.chosen.{name})")

    def program(self, served: Served, command: str, policy: str, prefix: str, dead: list[str] | None = None,
                cut: list[list[str]] | None = None, silent: list[list[str]] | None = None) -> str:
        """What the program says of a scenario."""
        scenario = json.dumps({"prefix": prefix, "dead": dead or [], "dead_links": cut or [], "silent": silent or []})
        told = served.ask(command, policy, scenario, "test")
        self.assertEqual(told["status"], 0, told)
        return str(told["output"])
