"""What fails, and for which prefix that is asked: the text SCENARIO."""
from __future__ import annotations

import json
from collections.abc import Iterable
from dataclasses import dataclass, replace
from typing import Any

from .faults import Fault
from .json_text import Object, json_value, keyed

# The keys of a scenario, and what stands under each.
KEYS = {"prefix": "a text", "dead": "an array of names", "dead_links": "an array of pairs of names", "silent": "an array of pairs of names"}
Pairs = frozenset[frozenset[str]]


@dataclass(frozen=True)
class Scenario:
    """Sites that are dead, and links by their ends: those that are dead, and those over which a peer is silent. It may have a name."""

    prefix: str
    dead: frozenset[str] = frozenset()
    dead_links: Pairs = frozenset()
    silent: Pairs = frozenset()
    name: str = ""

    def fails_as(self, other: Scenario) -> bool:
        """Whether the same fails in both."""
        return (self.dead, self.dead_links, self.silent) == (other.dead, other.dead_links, other.silent)

    def of(self, prefix: str) -> Scenario:
        """The same failures, asked for another prefix."""
        return replace(self, prefix=prefix)

    def text(self) -> str:
        """The scenario as `propane` reads it."""
        return json.dumps({"prefix": self.prefix, "dead": sorted(self.dead), "dead_links": ordered(self.dead_links),
                           "silent": ordered(self.silent)})

    def names(self) -> frozenset[str]:
        """All sites that it names."""
        return self.dead.union(*self.dead_links, *self.silent)


def pairs(links: Iterable[Iterable[str]]) -> Pairs:
    """Links without the order of their ends."""
    return frozenset(frozenset(link) for link in links)


def ordered(links: Pairs) -> list[list[str]]:
    """Links in the order of their names."""
    return sorted(sorted(link) for link in links)


def read_scenario(text: str, name: str = "") -> Scenario:
    """The scenario of a text. Whether it names what is there, the program says."""
    value = keyed(json_value(text, "scenario", Object), set(KEYS), set(), "scenario")
    if not isinstance(value["prefix"], str) or not is_texts(value["dead"]):
        raise Fault("scenario: no text under `prefix`, or no array of texts under `dead`")
    for key in ("dead_links", "silent"):
        if not isinstance(value[key], list) or not all(is_texts(pair) and len(pair) == 2 for pair in value[key]):
            raise Fault(f"scenario: no array of pairs of texts under `{key}`")
    return Scenario(value["prefix"], frozenset(value["dead"]), pairs(value["dead_links"]), pairs(value["silent"]), name)


def is_texts(value: Any) -> bool:
    """Whether a value is an array of texts."""
    return isinstance(value, list) and all(isinstance(each, str) for each in value)
