"""The text of expectations, read line by line. docs/PIPELINE.md has the grammar.

    # what leaves for the world
    198.51.100.0/24:
    R1 and R2 reach under any 1 router
    R1 rank 1
    path R1 R2 P2 where P1 silent
    10.1.0.0/16: R3 avoids W under any 2 links but R1 R3
    P1 is offered 10.1.0.0/16
"""
from __future__ import annotations

import re
from collections.abc import Callable
from dataclasses import dataclass

from texts.faults import Fault
from texts.prefixes import is_prefix
from texts.scenario import Pairs, Scenario, pairs
from texts.topology import Topology

from .claims import Avoids, Claim, Goes, HasRank, IsOffered, Passes, Reaches

KINDS = {"link": {"link"}, "links": {"link"}, "router": {"router"}, "routers": {"router"}, "failure": {"link", "router"},
         "failures": {"link", "router"}}
MOST_FAILURES = 4
NUMBER = re.compile(r"[1-9][0-9]{0,4}")


@dataclass(frozen=True)
class Under:
    """Up to so many failures besides, of links, of routers or of both; those that name one of `spared` don't count."""

    most: int = 0
    kinds: frozenset[str] = frozenset()
    spared: frozenset[frozenset[str]] = frozenset()


@dataclass(frozen=True)
class Expectation:
    """A line: its number and its words, of whom it is, what is claimed, and under which failures."""

    line: int
    text: str
    subjects: tuple[str, ...]
    claim: Claim
    base: Scenario
    under: Under


class Line:
    """Takes one word of a line after another."""

    def __init__(self, text: str, topology: Topology) -> None:
        self.words, self.topology = text.replace(",", " ").split(), topology

    def comes(self, *wanted: str) -> bool:
        """Takes these words, if they come next."""
        if self.words[:len(wanted)] != list(wanted):
            return False
        del self.words[:len(wanted)]
        return True

    def names(self, is_right: Callable[[str], bool] | None = None, what: str = "name of the topology") -> tuple[str, ...]:
        """Names with or without `and` between them, one at least."""
        found: list[str] = []
        while self.words and self.words[0] in self.topology.sites:
            found.append(self.words.pop(0))
            if self.words[:1] == ["and"] and self.words[1:2] and self.words[1] in self.topology.sites:
                self.words.pop(0)
        if not found or is_right and not all(map(is_right, found)):
            raise Fault(f"no {what}: {' '.join(found) or ' '.join(self.words[:1]) or 'the line ends'}")
        return tuple(found)

    def number(self) -> int:
        word = self.words.pop(0) if self.words else "the line ends"
        if not NUMBER.fullmatch(word):
            raise Fault(f"no number: {word}")
        return int(word)

    def link(self) -> frozenset[str]:
        """Two names that are linked."""
        ends = frozenset(self.words[:2])
        if ends not in [frozenset(link) for link in self.topology.links]:
            raise Fault(f"no link: {' '.join(self.words[:2])}")
        del self.words[:2]
        return ends

    def is_router(self, name: str) -> bool:
        return not self.topology.sites[name].is_peer

    def is_peer(self, name: str) -> bool:
        return self.topology.sites[name].is_peer


def claim_of(line: Line) -> tuple[tuple[str, ...], Claim]:
    """Whom a line is about, and what it claims."""
    if line.comes("path"):
        walk = line.names()
        return walk[:1], Goes(walk)
    subjects = line.names()
    for words, is_offered in ((("is", "offered"), True), (("are", "offered"), True), (("is", "not", "offered"), False),
                              (("are", "not", "offered"), False)):
        if line.comes(*words):
            if not all(map(line.is_peer, subjects)):
                raise Fault(f"no peer: {' '.join(subjects)}")
            return subjects, IsOffered(is_offered)
    if line.comes("rank"):
        return subjects, HasRank(line.number(), line.comes("or", "better"))
    if line.comes("avoids") or line.comes("avoid"):
        return subjects, Avoids(line.names())
    if line.comes("passes") or line.comes("pass"):
        return subjects, Passes(line.names())
    if line.comes("reaches") or line.comes("reach"):
        if not all(map(line.is_router, subjects)):
            raise Fault("a peer reaches nothing by this network's routes: say `is offered`")
        return subjects, Reaches(not line.comes("nothing"))
    raise Fault(f"what is claimed? {' '.join(line.words[:1]) or 'the line ends'}: rank, reach, avoid, pass, or is offered")


def under_of(line: Line) -> Under:
    """`under any N links`, with `but NAMES` behind it, where that comes."""
    if not line.comes("under", "any"):
        return Under()
    most = line.number()
    kind = line.words.pop(0) if line.words else "the line ends"
    if kind not in KINDS or most > MOST_FAILURES:
        raise Fault(f"up to {MOST_FAILURES} links, routers or failures: {most} {kind}")
    spared: set[frozenset[str]] = set()
    if line.comes("but"):
        while line.comes("link"):
            spared.add(line.link())
            line.comes("and")
        if line.words and line.words[0] in line.topology.sites:
            spared |= {frozenset([name]) for name in line.names(line.is_router, "router")}
    return Under(most, frozenset(KINDS[kind]), frozenset(spared))


def base_of(line: Line, prefix: str) -> Scenario:
    """`where NAME dead`, `where link A B dead`, `where P silent` or `where P silent at R`, joined by `and`."""
    dead: set[str] = set()
    links: Pairs = frozenset()
    silent: Pairs = frozenset()
    if line.comes("where"):
        while True:
            if line.comes("link"):
                links |= {line.link()}
                line.comes("is")
                need(line, "dead")
            else:
                names = line.names()
                line.comes("is") or line.comes("are")
                if line.comes("silent"):
                    silent |= silent_of(line, names)
                else:
                    need(line, "dead")
                    dead |= set(names)
            if not line.comes("and"):
                break
    return Scenario(prefix, frozenset(dead), links, silent)


def silent_of(line: Line, peers: tuple[str, ...]) -> Pairs:
    """The sessions over which peers are silent: all, or those to the routers behind `at`."""
    if not all(map(line.is_peer, peers)):
        raise Fault(f"only a peer is silent: {' '.join(peers)}")
    routers = line.names(line.is_router, "router") if line.comes("at") else ()
    sessions = pairs((peer, other.name) for peer in peers for other in line.topology.neighbours(peer) if not routers or other.name in routers)
    if not sessions:
        raise Fault(f"no session: {' '.join(peers)} at {' '.join(routers)}")
    return sessions


def need(line: Line, word: str) -> None:
    if not line.comes(word):
        raise Fault(f"`{word}` in the place of {' '.join(line.words[:1]) or 'the end'}")


def expectation_of(number: int, text: str, prefix: str, topology: Topology) -> Expectation:
    """What a line expects. A prefix at its front or in it counts for it alone; else that of an earlier line `PREFIX:` does."""
    words = text.split()
    if words[0].endswith(":"):
        prefix, words = words[0][:-1], words[1:]
    inside = [word for word in words if is_prefix(word)]
    if len(inside) > 1:
        raise Fault(f"more than one prefix: {' '.join(inside)}")
    prefix = inside[0] if inside else prefix
    if not is_prefix(prefix):
        raise Fault(f"no prefix: {prefix or 'none is named'}")
    line = Line(" ".join(word for word in words if word not in inside), topology)
    subjects, claim = claim_of(line)
    under = under_of(line)
    base = base_of(line, prefix)
    under = under_of(line) if not under.most else under
    if line.words:
        raise Fault(f"what is that? {' '.join(line.words)}")
    return Expectation(number, text, subjects, claim, base, under)


def read_expectations(text: str, topology: Topology) -> list[Expectation]:
    """The expectations of a text, in its order."""
    found, prefix = [], ""
    for number, whole in enumerate(text.splitlines(), 1):
        line = whole.partition("#")[0].strip()
        try:
            if line.endswith(":") and len(line.split()) == 1:
                prefix = line[:-1]
                if not is_prefix(prefix):
                    raise Fault(f"no prefix: {prefix}")
            elif line:
                found.append(expectation_of(number, line, prefix, topology))
        except Fault as fault:
            raise Fault(f"line {number}: {fault}") from None
    return found
