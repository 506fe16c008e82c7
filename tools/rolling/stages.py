"""The four configurations of a rollout, in a folder, and what each router has of them.

`old` runs now. `one` has the lines of both with the old starts, `two` those with the new ones, and `new` is the new policy's alone. A
start is an own network, or an entry by which something is taken from a peer.
"""
from __future__ import annotations

import os
from collections.abc import Callable, Iterator
from dataclasses import dataclass
from enum import Enum

from deploying.addresses import Addresses
from deploying.folders import BIRD, FRR, Daemon, Described
from deploying.map_reader import read_maps
from deploying.maps import Entry, Lists, Maps, RouterMaps
from deploying.plans import Choices, Plan, Ties
from texts.files import read_text, write_private
from texts.policy import cut
from texts.topology import Site, Topology


class Stage(Enum):
    """A stage, by the name of its folder."""

    OLD = "old"
    ONE = "one"
    TWO = "two"
    NEW = "new"

    @property
    def place(self) -> int:
        return list(Stage).index(self)

    def near(self) -> Iterator[Stage]:
        """The stages from which a network may go here."""
        return (other for other in Stage if abs(other.place - self.place) == 1)

    @property
    def side(self) -> Stage:
        """Whose routes there are at rest: the old policy's, or the new one's."""
        return Stage.OLD if self in (Stage.OLD, Stage.ONE) else Stage.NEW


def is_still(one: Stage, two: Stage) -> bool:
    """Whether no route changes and no message is sent from the one to the other."""
    return one.side is two.side


Program = Callable[..., tuple[int, str]]  # runs the program: how it ends, and what it writes


def write_plan(program: Program, topology: str, policies: tuple[str, str], config: str, evidence: str, folder: str) -> None:
    """Writes all that a rollout needs into a folder: policies, configurations, evidence and maps of the stages."""

    def file(stage: Stage, name: str) -> str:
        os.makedirs(os.path.join(folder, stage.value), exist_ok=True)
        return os.path.join(folder, stage.value, name)

    def put(stage: Stage, name: str, text: str) -> None:
        write_private(file(stage, name), text)

    old, new = policies
    for stage, policy in ((Stage.OLD, old), (Stage.NEW, new)):
        put(stage, "policy", read_text(policy))
    put(Stage.OLD, "config", read_text(config))
    put(Stage.OLD, "evidence", read_text(evidence))
    put(Stage.NEW, "config", program("renew", topology, new, config, evidence)[1])
    put(Stage.NEW, "evidence", program("renewal", topology, new, config, evidence)[1])
    for stage, number in ((Stage.ONE, "1"), (Stage.TWO, "2")):
        put(stage, "config", program("between", config, file(Stage.NEW, "config"), number)[1])
    for stage in Stage:
        put(stage, "maps", program("maps", file(stage, "config"))[1])


def told_plan(topology: Topology, folder: str) -> Iterator[str]:
    """A line for each step of a rollout: the routers that have something to load, as their maps do something else."""
    maps = {stage: read_maps(topology, read_text(os.path.join(folder, stage.value, "maps"))) for stage in Stage}
    does = {stage: {name: meaning_of(each.lists, own) for name, own in each.routers.items()} for stage, each in maps.items()}
    for one, two in zip(list(Stage), list(Stage)[1:]):
        names = [router.name for router in topology.routers if does[one][router.name] != does[two][router.name]]
        yield f"{one.value} to {two.value}: {len(names)} of {len(topology.routers)} routers to load: {' '.join(names) or 'none'}"


@dataclass(frozen=True)
class Rollout:
    """The maps of each stage, and how files are written of them; `folder` is where the texts are."""

    folder: str
    topology: Topology
    addresses: Addresses
    maps: dict[Stage, Maps]
    choices: dict[Stage, Choices]

    @staticmethod
    def read(folder: str, topology: Topology, addresses: Addresses, paths: int, ties: Ties) -> Rollout:
        """The rollout of a folder, whose files say `paths` and `ties` besides."""

        def text(stage: Stage, name: str) -> str:
            return read_text(os.path.join(folder, stage.value, name))

        choices = {stage: Choices.of(paths, ties, cut(text(stage.side, "policy").encode()), topology, staged=True) for stage in Stage}
        return Rollout(folder, topology, addresses, {stage: read_maps(topology, text(stage, "maps")) for stage in Stage}, choices)

    def text(self, stage: Stage, name: str) -> str:
        """The path of a text of a stage."""
        return os.path.join(self.folder, stage.value, name)

    def plan(self, stage: Stage, router: Site) -> Plan:
        """All that a router's file says in a stage."""
        return Described(self.topology, self.addresses, self.choices[stage]).plan(self.maps[stage], router)

    def meaning(self, stage: Stage, name: str) -> Meaning:
        """What a router does in a stage."""
        return meaning_of(self.maps[stage].lists, self.maps[stage].routers[name])

    def at(self, name: str, said: Meaning) -> frozenset[Stage]:
        """The stages in which a router does this."""
        return frozenset(stage for stage in Stage if self.meaning(stage, name) == said)


Meaning = tuple[tuple[object, ...], ...]


def meaning_of(lists: Lists, maps: RouterMaps) -> Meaning:
    """What maps do, whatever numbers their lists have: two such maps need not be loaded in place of each other."""

    def said(entry: Entry) -> tuple[object, ...]:
        return (tuple(lists.get(entry.number, ())), entry.match, entry.put, entry.preference)

    networks = tuple(sorted((own.prefix, own.tag) for own in maps.networks))
    return (networks, *((name, tuple(map(said, block.takes)), tuple(map(said, block.sends))) for name, block in sorted(maps.blocks.items())))


def daemon_of(kind: str) -> Daemon:
    """How files of a daemon are written and read."""
    return {"bird": BIRD, "frr": FRR}[kind]
