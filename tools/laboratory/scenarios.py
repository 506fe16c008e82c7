"""What fails, and for which prefix that is asked."""
from __future__ import annotations

import os
from collections.abc import Iterable

from deploying.maps import Maps, Row, permits
from texts.prefixes import DOCUMENTS
from texts.scenario import Scenario, pairs, read_scenario
from texts.topology import Topology

from .commands import propane, read


def scenario_of(topology: str, policy: str, path: str) -> Scenario:
    """The scenario of a file, once propane has read it."""
    propane("replay", topology, policy, path)
    return read_scenario(read(path), os.path.basename(path).removesuffix(".json"))


def single_failures(topology: Topology, prefixes: Iterable[str]) -> list[Scenario]:
    """Nothing fails, and then each link, each router and each session of a peer, one after another."""
    cases = [Scenario("", name="nothing fails")]
    cases += [Scenario("", dead_links=pairs([link]), name=f"link {' '.join(link)} dead") for link in topology.links]
    cases += [Scenario("", dead=frozenset([router.name]), name=f"router {router.name} dead") for router in topology.routers]
    cases += [Scenario("", silent=pairs([link]), name=f"session {' '.join(link)} silent")
              for link in topology.links if topology.is_to_a_peer(link)]
    return [case.of(prefix) for case in cases for prefix in prefixes]


def asked_prefixes(maps: Maps) -> list[str]:
    """A prefix of each list of the maps: one that is originated, where there is one, and else one that it permits."""
    own = {network.number: network.prefix for router in maps.routers.values() for network in router.networks}
    found = [own.get(number) or permitted(rows) for number, rows in sorted(maps.lists.items())]
    return [prefix for prefix in dict.fromkeys(found) if prefix]


def permitted(rows: list[Row]) -> str | None:
    """A prefix that a list permits: a pattern's own, or one of those that are kept for documents; None where none is."""
    own = [row.prefix for row in rows if row.word == "permit" and row.prefix != "0.0.0.0/0"]
    return next((prefix for prefix in (*own, *DOCUMENTS, "0.0.0.0/0") if permits(rows, prefix)), None)
