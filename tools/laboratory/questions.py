"""Whether what the routers do is what propane says."""
from __future__ import annotations

import os
from collections.abc import Collection, Iterator, Mapping
from dataclasses import dataclass, field
from typing import Optional, Union

from deploying.plans import Ties
from texts import recorded
from texts.scenario import Scenario

from .commands import propane, write
from .network import Network
from .peers import WRONG

Path = Union[list[str], str]  # or the word in its place
Offers = dict[tuple[str, str], list[str]]  # by router and peer
Hops = dict[str, Optional[frozenset[str]]]  # by router: nobody where it is an origin, None where it has no route


@dataclass(frozen=True)
class Texts:
    """The files that propane reads: the inputs, and what it wrote of them."""

    topology: str
    policy: str
    config: str
    evidence: str
    maps: str

    @staticmethod
    def made(topology: str, policy: str, folder: str) -> Texts:
        found = Texts(topology, policy, *(os.path.join(folder, name) for name in ("config", "evidence", "maps")))
        for command, path in (("compile", found.config), ("evidence", found.evidence), ("routemap", found.maps)):
            write(path, propane(command, topology, policy))
        return found


@dataclass
class Answer:
    """What doesn't agree, as lines, and how much was asked. `hops` has the next hops that each router may use."""

    faults: list[str]
    paths: int = 0
    offers: int = 0
    next_hops: int = 0
    hops: Hops = field(default_factory=dict)
    flows: int = 0


def compare(network: Network, texts: Texts, scenario: Scenario, folder: str) -> Answer:
    """Compares the network as it is now with what propane says of a scenario. What was compared stands in the folder."""
    network.record(folder, scenario.prefix)
    path, tables = os.path.join(folder, "scenario.json"), os.path.join(folder, "tables.json")
    write(path, scenario.text())
    told, faults = held_by(network, texts, path, tables, folder)
    paths, offers = told_by(told)
    peers = [(peer, router.name) for peer in network.live_peers() for router in network.topology.neighbours(peer)]
    hops = next_hops(network, texts, paths, path)
    faults += [*peer_faults(network, offers, peers, scenario.prefix), *kernel_faults(network, hops, scenario.prefix), *network.unanswered()]
    return Answer(faults, len(paths), len(peers), len(network.sending_routers()), hops)


def held_by(network: Network, texts: Texts, scenario: str, tables: str, folder: str) -> tuple[str, list[str]]:
    """What all is to be, and what an audit finds wrong with the routes that were recorded in the folder.

    Where ties are broken as the program's reports have it, all is to be as a replay tells. Else any stable outcome is right: the one
    that the audit tells, if it is one."""
    replay = propane("replay", texts.topology, texts.policy, scenario)
    write(os.path.join(folder, "replay.txt"), replay)
    try:
        write(tables, recorded.tables(network.topology, folder))
    except recorded.Unknown as why:
        return replay, [f"tables: {why}"]
    audit = propane("audit", texts.topology, texts.policy, texts.config, texts.evidence, scenario, tables, status=(0, 7))
    write(os.path.join(folder, "audit.txt"), audit)
    verdict, _, outcome = audit.partition("\n")
    if verdict == "stable" and network.inputs.described.choices.ties is Ties.OLDEST:
        return outcome, []
    return replay, list(different(replay, audit))


def next_hops(network: Network, texts: Texts, paths: Mapping[str, Path], scenario: str) -> Hops:
    """The next hops that each router may use: the second place of its path, or all of its multipath set."""
    hops: Hops = {name: frozenset(path[1:2]) if isinstance(path, list) else frozenset() if path == "origin" else None
                  for name, path in paths.items()}
    if network.inputs.described.choices.paths == 1:
        return hops
    told = propane("multipath", texts.topology, texts.policy, scenario)
    write(os.path.join(os.path.dirname(scenario), "multipath.txt"), told)
    for words in map(str.split, told.splitlines()):
        if words[0] == "router" and "next" in words[2:]:
            hops[words[1]] = frozenset(words[words.index("next", 2) + 1:])
    return hops


def told_by(replay: str) -> tuple[dict[str, Path], Offers]:
    """For each router its path, or the word in its place; and for each router and peer the path that is offered."""
    paths: dict[str, Path] = {}
    offers: Offers = {}
    for line in replay.splitlines():
        words = line.split(" ")
        path = words[words.index("path") + 1:] if "path" in words else None
        if words[0] == "router":
            paths[words[1]] = path or words[2]
        elif words[0] == "session" and path:
            offers[words[1], words[2]] = path
    return paths, offers


def different(replay: str, audit: str) -> Iterator[str]:
    """What an audit says, where that isn't that the routes are stable and are those of a replay."""
    wanted, found = replay.splitlines(), audit.splitlines()
    if found[:1] != ["stable"]:
        yield from (f"audit: {line}" for line in found)
        return
    yield from (f"replay: {line}" for line in wanted if line not in found)
    yield from (f"audit: {line}" for line in found[1:] if line not in wanted)


def peer_faults(network: Network, offers: Offers, peers: Collection[tuple[str, str]], prefix: str) -> Iterator[str]:
    """A peer has heard of a router just where its session is told to be offered a path, and nothing but what a peer may see."""
    heard = {peer: network.peers[peer].heard(prefix) for peer in network.live_peers()}
    yield from (f"peer {peer} has heard{what}" for peer in heard for what in network.peers[peer].noted(WRONG))
    for peer, router in peers:
        is_offered, told = (router, peer) in offers, heard[peer].get(router)
        if is_offered != bool(told):
            yield f"peer {peer} hears {f'the path {told[0]}' if told else 'nothing'} of {router}"
        elif told:
            shown = [network.addresses.public_as or network.topology.sites[router].asn]
            if told != (shown, []):
                yield f"peer {peer} hears of {router} the path {told[0]} {' '.join(told[1])}, and is to hear {shown} alone"


def kernel_faults(network: Network, hops: Hops, prefix: str) -> Iterator[str]:
    """The kernel of a router sends to all next hops that it may use, or to as many as its file allows."""
    most = network.inputs.described.choices.paths
    for name in network.sending_routers():
        found, wanted = network.next_hops(name, prefix), hops[name]
        fits = found is not None and wanted is not None and found <= wanted and len(found) == min(most, len(wanted))
        if not fits and (found is not None or wanted is not None):
            yield f"kernel of {name} sends to {hops_text(found)}, and is to send to {hops_text(wanted)}"


def hops_text(hops: frozenset[str] | None) -> str:
    """Next hops in a message."""
    return "None" if hops is None else " ".join(sorted(hops)) or "own"
