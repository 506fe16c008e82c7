"""The scenarios of a run, one after another: what fails is made, and all questions are asked.

What differs is asked again until the patience of the run ends, so that a slow machine fails none. A wrong file goes on differing.
"""
from __future__ import annotations

import os
import random
import time
from collections.abc import Iterable
from dataclasses import dataclass, field, replace

from texts.scenario import Scenario

from . import packets
from .network import Network
from .questions import Answer, Texts, compare
from .restless import stir

FIRST = "1"  # place of a scenario
UNSEEN = 0.5  # seconds in which the kernels of both ends see that a link is gone


@dataclass(frozen=True)
class Trials:
    """A network that runs, the texts that it is compared with, a folder for what is recorded, for how long what differs may change, and for
    how many seconds there is no rest before something else fails."""

    network: Network
    texts: Texts
    folder: str
    patience: float
    restless: float = 0
    chance: random.Random = field(default_factory=lambda: random.Random(1))

    def spreads(self) -> bool:
        """Whether packets may be spread over several next hops."""
        return self.network.inputs.described.choices.paths > 1

    def examined(self, scenario: Scenario, place: str) -> Answer:
        """What differs in a scenario once nothing moves any more. Daemons may be slow: what differs is asked again for a while."""
        network = self.network
        if self.restless and (place == FIRST or not scenario.fails_as(network.now)):
            say(f"changes without rest: {stir(network, self.restless, self.chance)}")
        end = time.monotonic() + self.patience
        if not scenario.fails_as(network.now):
            network.make(scenario)
        unquiet = [] if network.is_quiet else network.settle(end)
        answer = self.asked(scenario, place)
        while (unquiet or answer.faults) and time.monotonic() < end:
            unquiet = network.settle(end)
            answer = self.asked(scenario, place)
        answer.faults[:0] = unquiet
        return answer

    def asked(self, scenario: Scenario, place: str) -> Answer:
        """What differs now. Packets are sent where nothing else differs."""
        answer = compare(self.network, self.texts, self.network.asked(scenario), os.path.join(self.folder, place))
        if self.spreads() and not answer.faults:
            flows = self.follow(answer, scenario.prefix)
            answer.faults += packets.spread_faults(flows, answer.hops, self.network.inputs.described.choices.paths)
        return answer

    def follow(self, answer: Answer, prefix: str, gone: frozenset[str] = frozenset()) -> list[packets.Flow]:
        """Sends packets, and adds to an answer what is wrong with their ways."""
        address = packets.target(self.network, prefix)
        flows = packets.ways(self.network, answer.hops, address) if address else []
        answer.flows += len(flows)
        answer.faults += packets.way_faults(flows, answer.hops, self.network.live_peers(), gone)
        return flows

    def unseen(self, answer: Answer, prefix: str, link: frozenset[str]) -> Answer:
        """A link fails before any daemon hears of it: kernels leave its ends out, and packets take the ways that are left."""
        found = Answer([], hops=answer.hops)
        for daemon in self.network.daemons.values():
            daemon.hold()
        self.network.set_link(link, "down")
        try:
            time.sleep(UNSEEN)
            self.follow(found, prefix, link)
        finally:
            self.network.set_link(link, "up")
            for daemon in self.network.daemons.values():
                daemon.go_on()
            self.network.is_quiet = False
        return found


def shared_link(answer: Answer) -> frozenset[str] | None:
    """A link of a router that has several next hops, to one of these."""
    return next((frozenset((name, min(hops))) for name, hops in answer.hops.items() if hops and len(hops) > 1), None)


def say(line: str) -> None:
    print(line, flush=True)


def tell(scenario: Scenario, answer: Answer, began: float) -> None:
    """The lines on what was asked."""
    flows = f" flows {answer.flows}" if answer.flows else ""
    say(f"{scenario.name}, {scenario.prefix}: paths {answer.paths} offers {answer.offers} next hops {answer.next_hops}{flows}: "
        f"{'DIFFERS' if answer.faults else 'agrees'} ({time.monotonic() - began:.1f} s)")
    for fault in answer.faults:
        say(f"  {fault}")


def differing(answers: Iterable[Answer]) -> int:
    """How many answers differ."""
    return sum(bool(answer.faults) for answer in answers)


def run_scenarios(trials: Trials, scenarios: Iterable[Scenario], stop: int | None) -> list[Answer]:
    """Makes the failures of each scenario, and tells what comes of it, until `stop` have differed. Returns the answers.

    Where packets are spread, the first scenario in which a router shares them has one more link fail before anybody reacts.
    """
    answers: list[Answer] = []
    has_repaired = not trials.spreads()
    for place, scenario in enumerate(scenarios, 1):
        if stop and differing(answers) >= stop:
            say(f"stopped: {stop} differ")
            break
        began = time.monotonic()
        answers.append(trials.examined(scenario, str(place)))
        tell(scenario, answers[-1], began)
        link = None if has_repaired or answers[-1].faults else shared_link(answers[-1])
        if link:
            has_repaired = True
            answers += repaired(trials, scenario, answers[-1], link, f"{place}-repaired")
    return answers


def repaired(trials: Trials, scenario: Scenario, answer: Answer, link: frozenset[str], place: str) -> list[Answer]:
    """What packets do while a link is gone and nobody has reacted, and what all is once it is back."""
    began, ends = time.monotonic(), " ".join(sorted(link))
    gone = trials.unseen(answer, scenario.prefix, link)
    tell(replace(scenario, name=f"{scenario.name}, then link {ends} fails and no router reacts"), gone, began)
    began = time.monotonic()
    back = trials.examined(scenario, place)
    tell(replace(scenario, name=f"{scenario.name}, then link {ends} is back"), back, began)
    return [gone, back]
