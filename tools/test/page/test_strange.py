"""Texts and addresses that mean harm, and what the page may fetch."""
from __future__ import annotations

import base64
import json
import os
import tempfile

from paging import ABILENE, Paged

NAME = "<img src=x onerror=document.title=1>"
TOPOLOGIES = (
    '{"routers":[', '{"routers":1,"peers":[],"links":[]}', "[]", '{"routers":[],"peers":[],"links":[]}', "null",
    json.dumps({"routers": [{"name": NAME, "asn": 1, "id": NAME}], "peers": [], "links": [[NAME, NAME]]}),
)
LINKS = ({"p": 1, "d": "x", "c": [1, "a~b"], "x": {"R": [1]}, "m": "zz", "e": [[1]]}, {"t": "<b>"}, {"d": ["nobody"], "q": "nobody"}, 7,
         {"x": {"__proto__": [1, 2]}, "h": "<i>"}, None)


class Strange(Paged):
    def test_strange_topologies(self) -> None:
        room = tempfile.TemporaryDirectory()
        self.addCleanup(room.cleanup)
        for number, held in enumerate(TOPOLOGIES):
            topology = os.path.join(room.name, f"{number}.json")
            with open(topology, "w", encoding="utf-8") as file:
                file.write(held)
            self.open(topology, ABILENE[1])
            self.assertEqual(self.browser.eval("document.querySelectorAll('img').length"), 0)
            self.assertNotEqual(self.browser.eval("document.title"), "1")
            self.assertNotEqual(self.said("#verdict"), "accepted")
            self.assertEqual(self.browser.faults, [], held)

    def test_strange_links(self) -> None:
        for value in LINKS:
            packed = base64.urlsafe_b64encode(json.dumps(value).encode()).decode().rstrip("=")
            self.open(*ABILENE, link="#" + packed)
            self.assertEqual(self.browser.faults, [], value)
        self.open(*ABILENE, link="#%%%")

    def test_nothing_is_fetched_elsewhere(self) -> None:
        served = self.open(*ABILENE)
        self.browser.eval("fetch('http://127.0.0.1:1/').catch(()=>0)")  # the page's own rules forbid it
        self.assertTrue(any("Content Security Policy" in fault for fault in self.browser.faults))
        self.browser.faults.clear()
        found = self.browser.eval("performance.getEntriesByType('resource').map(e=>e.name)")
        self.assertTrue(found and all(each.startswith((served.address, "data:", "http://127.0.0.1:1/")) for each in found), found)
