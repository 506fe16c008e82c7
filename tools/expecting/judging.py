"""Goes over the failures of an expectation, and asks no more than it has to.

One `whatif` tells the ranks under every single cut. So what is expected of ranks alone takes one run for all failures of one thing, and
one run more for each thing where two may fail. What is expected of paths takes a `replay` where a cut moves a route: where `whatif`
says that all other routers keep theirs, nothing more is asked.
"""
from __future__ import annotations

import itertools
import math
from collections.abc import Iterator, Mapping, Sequence
from dataclasses import dataclass

from texts.scenario import Scenario
from texts.topology import Topology

from .answers import Answers, Failure, Source, and_fails
from .claims import Held, IsOffered
from .text import Expectation

Sources = dict[str, list[Source]]  # for each subject the lines of a report that speak of it
AT_ONCE = 256  # scenarios that are asked for before their answers are judged


@dataclass(frozen=True)
class Verdict:
    """Whether an expectation holds: how many sets of failures it is over, and where it doesn't hold what fails and what is said then."""

    expectation: Expectation
    tried: int
    failures: tuple[Failure, ...] = ()
    said: str = ""

    @property
    def holds(self) -> bool:
        return not self.said


def things(expectation: Expectation, topology: Topology) -> list[Failure]:
    """What may fail besides, in the order of the topology: links, then routers."""
    under, base = expectation.under, expectation.base
    found: list[Failure] = []
    if "link" in under.kinds:
        found += [frozenset(link) for link in topology.links if frozenset(link) not in under.spared | base.dead_links]
    if "router" in under.kinds:
        found += [site.name for site in topology.routers if frozenset([site.name]) not in under.spared and site.name not in base.dead]
    return found


def name_of(failure: Failure, topology: Topology) -> str:
    return failure if isinstance(failure, str) else "link " + " ".join(sorted(failure, key=topology.place.__getitem__))


def tried(count: int, most: int) -> int:
    """How many sets of up to so many of so many things there are."""
    return sum(math.comb(count, size) for size in range(most + 1))


def sets(count: int, most: int) -> Iterator[tuple[int, ...]]:
    """The sets of places of up to so many things, the smaller ones first."""
    for size in range(most + 1):
        yield from itertools.combinations(range(count), size)


def scenario_of(base: Scenario, failures: Sequence[Failure]) -> Scenario:
    for failure in failures:
        base = and_fails(base, failure)
    return base


class Judge:
    """Judges expectations on one network and policy."""

    def __init__(self, topology: Topology, answers: Answers) -> None:
        self.topology, self.answers = topology, answers

    def sources(self, expectation: Expectation) -> Sources:
        """For each subject the lines of a report that speak of it: a router's, or those of a peer's sessions."""
        def lines(name: str) -> list[Source]:
            site = self.topology.sites[name]
            return [(router.name, name) for router in self.topology.neighbours(name)] if site.is_peer else [name]
        return {name: lines(name) for name in expectation.subjects}

    def wrong(self, expectation: Expectation, sources: Sources, held: Mapping[Source, Held], dead: frozenset[str]) -> str:
        """What is wrong with these subjects where reports say this; nothing where all is as expected. Of what is down nothing is expected."""
        for name, lines in sources.items():
            told = {line: held[line] for line in lines if line in held}
            if name in dead or all(isinstance(line, tuple) and line[0] in dead for line in lines):
                continue
            if not told:
                return f"the policy claims no session of {name}, so the program says nothing of it"
            fault = self.fault(expectation, name, told)
            if fault:
                return fault
        return ""

    @staticmethod
    def fault(expectation: Expectation, name: str, told: dict[Source, Held]) -> str:
        claim = expectation.claim
        if isinstance(claim, IsOffered):
            offered = [(line, held) for line, held in told.items() if held.state != "none"]
            if bool(offered) == claim.is_offered:
                return ""
            return f"{name} is offered {' '.join(offered[0][1].path) or 'a path'}" if offered else f"{name} is offered nothing"
        for line, held in told.items():
            if isinstance(line, tuple) and held.state == "none":
                continue  # a session over which nothing is offered leads nowhere
            if not claim.holds(held):
                return held.said(name if line == name else f"{name} over {line[0]}")
        return ""

    def verdict(self, expectation: Expectation) -> Verdict:
        """Whether an expectation holds, or the first failures under which it doesn't."""
        failing = things(expectation, self.topology)
        count = tried(len(failing), expectation.under.most)
        self.answers.outcomes_of([expectation.base])
        found = self.wrong(expectation, self.sources(expectation), self.answers.outcomes[expectation.base], expectation.base.dead)
        if found:
            return Verdict(expectation, count, (), found)
        below = sets(len(failing), expectation.under.most - 1)
        while some := list(itertools.islice(below, AT_ONCE)):
            for failures, said in self.beyond(expectation, failing, some):
                return Verdict(expectation, count, failures, said)
        return Verdict(expectation, count)

    def beyond(self, expectation: Expectation, failing: list[Failure], some: list[tuple[int, ...]]) -> Iterator[tuple[tuple[Failure, ...], str]]:
        """Where an expectation doesn't hold if one thing more fails than in one of these sets, of those that come later in the order.

        Where no rank of a subject changes with that, it holds as it did before."""
        sources = self.sources(expectation)
        # An offer also goes with its session. A session without one leads nowhere, so of its path nothing is wrong then.
        is_of_routes = expectation.claim.needs_path or all(isinstance(line, str) for lines in sources.values() for line in lines)
        scenarios = {places: scenario_of(expectation.base, [failing[place] for place in places]) for places in some}
        self.answers.cuts_of(scenarios.values())
        next_ones: list[tuple[tuple[Failure, ...], Scenario]] = []
        for places, scenario in scenarios.items():
            cuts = self.answers.cuts[scenario]
            are_told = all(line in cuts.base for lines in sources.values() for line in lines)
            for place in range(places[-1] + 1 if places else 0, len(failing)):
                row = cuts.rows.get(failing[place])
                if row is None or is_of_routes and not row.moves:
                    continue  # nothing changes that is asked for
                failures = tuple(failing[each] for each in (*places, place))
                if expectation.claim.needs_path or not are_told:
                    next_ones.append((failures, and_fails(scenario, failing[place])))
                    continue
                touched = {name: lines for name, lines in sources.items() if any(line in row.ranks for line in lines)}
                ranks = {line: row.ranks.get(line, cuts.base[line]) for lines in touched.values() for line in lines}
                held = {line: Held("none" if rank is None else "rank", rank) for line, rank in ranks.items()}
                said = self.wrong(expectation, touched, held, scenario_of(expectation.base, failures).dead)
                if said:
                    yield failures, said
        for at in range(0, len(next_ones), AT_ONCE):
            part = next_ones[at:at + AT_ONCE]
            self.answers.outcomes_of(scenario for _, scenario in part)
            for failures, scenario in part:
                said = self.wrong(expectation, sources, self.answers.outcomes[scenario], scenario.dead)
                if said:
                    yield failures, said
