"""What was recorded of a network at one moment. Two recordings that are equal are taken for one moment."""
from __future__ import annotations

import itertools
import os
import time
from collections.abc import Iterator, Sequence
from concurrent.futures import ThreadPoolExecutor
from dataclasses import dataclass

from texts.recorded import DEAD, ENDINGS, Unknown
from texts.recorded import tables as tables_of
from texts.scenario import Pairs, Scenario
from texts.topology import Topology

from .routers import Router, Silent

PAUSE = 1.0  # seconds between two recordings that are to be equal
LEAST = 5  # recordings before a network counts as one that doesn't rest, however long they take
AT_ONCE = 32


@dataclass(frozen=True)
class Heard:
    """What one router answered: its established sessions, and for each prefix its route and who announces one. Or why it said nothing."""

    sessions: frozenset[int] = frozenset()
    routes: tuple[str, ...] = ()
    announcers: tuple[frozenset[int], ...] = ()
    why: str = ""


@dataclass(frozen=True)
class Moment:
    """What is down, who is silent for each prefix, and the tables of each prefix or, in their place, why there are none."""

    dead: frozenset[str]
    dead_links: Pairs
    mute: dict[str, str]
    silent: dict[str, Pairs]
    tables: dict[str, str]
    faults: dict[str, str]

    def scenario(self, prefix: str) -> Scenario:
        return Scenario(prefix, self.dead, self.dead_links, self.silent[prefix])


def heard(router: Router, prefixes: Sequence[str]) -> Heard:
    """Asks a router for all that is recorded of it."""
    try:
        sessions = frozenset(router.established())
        return Heard(sessions, tuple(map(router.route, prefixes)), tuple(frozenset(router.heard_of(prefix)) for prefix in prefixes))
    except Silent as why:
        return Heard(why=str(why) or "no answer")


class Recorder:
    """Records a network."""

    def __init__(self, network: Topology, routers: Sequence[Router], prefixes: Sequence[str], folder: str) -> None:
        self.network, self.routers, self.prefixes, self.folder = network, routers, prefixes, folder

    def moment(self, ends: float) -> Moment | None:
        """The first moment that is recorded twice; None where none is before the time is up, and in some recordings at least."""
        before = self.recorded()
        for count in itertools.count(2):
            time.sleep(PAUSE)
            now = self.recorded()
            if now == before:
                return now
            if time.monotonic() > ends and count >= LEAST:
                break
            before = now
        return None

    def recorded(self) -> Moment:
        """One recording."""
        with ThreadPoolExecutor(AT_ONCE) as pool:
            told = dict(zip([router.name for router in self.routers], pool.map(lambda router: heard(router, self.prefixes), self.routers)))
        up = {frozenset(ends) for ends in self.established(told)}
        quiet = {name for name, each in told.items() if each.why}
        dead = frozenset(name for name in quiet if not any(name in ends for ends in up))
        asked = {router.name for router in self.routers} - quiet
        links = {frozenset(link) for link in self.network.links if not dead & set(link) and asked & set(link)}
        tables, faults, silent = {}, {}, {}
        for place, prefix in enumerate(self.prefixes):
            silent[prefix] = frozenset(self.silent(told, up, place))
            tables[prefix], faults[prefix] = self.table(told, dead, place)
        return Moment(dead, frozenset(links - up), {name: told[name].why for name in quiet - dead}, silent, tables, faults)

    def established(self, told: dict[str, Heard]) -> Iterator[tuple[str, str]]:
        """The links over which a session is established, as all that answer say of their ends."""
        asn = {site.name: site.asn for site in self.network.sites.values()}
        for one, two in self.network.links:
            says = [asn[other] in told[name].sessions for name, other in ((one, two), (two, one)) if name in told and not told[name].why]
            if says and all(says):
                yield one, two

    def silent(self, told: dict[str, Heard], up: set[frozenset[str]], place: int) -> Iterator[frozenset[str]]:
        """The established sessions of peers over which the router has no route of the peer's."""
        for one, two in self.network.links:
            for router, peer in ((one, two), (two, one)):
                is_asked = self.network.sites[peer].is_peer and frozenset((one, two)) in up and not told[router].why
                if is_asked and self.network.sites[peer].asn not in told[router].announcers[place]:
                    yield frozenset((one, two))

    def table(self, told: dict[str, Heard], dead: frozenset[str], place: int) -> tuple[str, str]:
        """The tables of a prefix, and what is said where there are none."""
        folder = os.path.join(self.folder, str(place))
        os.makedirs(folder, exist_ok=True)
        for router in self.routers:
            for ending in ENDINGS:
                if os.path.exists(path := os.path.join(folder, router.name + ending)):
                    os.remove(path)
            if told[router.name].why and router.name not in dead:
                return "", f"{router.name} doesn't answer"
            ending, text = (DEAD, "") if router.name in dead else (router.ending, told[router.name].routes[place])
            with open(os.path.join(folder, router.name + ending), "w", encoding="utf-8") as file:
                file.write(text)
        try:
            return f"{tables_of(self.network, folder)}\n", ""
        except Unknown as why:
            return "", str(why)
