"""Route maps as values, and the text that `propane routemap` writes of them."""
from __future__ import annotations

import ipaddress
from collections.abc import Iterable
from dataclasses import dataclass, field
from typing import NamedTuple

from texts.faults import Fault
from texts.prefixes import covers, length_of
from texts.topology import Topology


class Tag(NamedTuple):
    """A large community whose middle part is 0 (RFC 8092): what a route has passed."""

    asn: int
    value: int

    def __str__(self) -> str:
        return f"{self.asn}:0:{self.value}"


class Row(NamedTuple):
    """A line of a list: `deny` or `permit`, for a prefix and its longer ones up to a length."""

    word: str
    prefix: str
    longest: int

    @staticmethod
    def of(word: str, prefix: str, longest: str | None = None) -> Row:
        """A row as texts say it, where the prefix alone is told by no longest length."""
        return Row(word, prefix, length_of(prefix) if longest is None else int(longest))

    def pattern(self) -> str:
        """The prefixes that it is for, as texts say them."""
        return self.prefix if self.longest == length_of(self.prefix) else f"{self.prefix} le {self.longest}"


Lists = dict[int, list[Row]]  # by number


class Entry(NamedTuple):
    """An entry over the list of a number: the tag that it asks for, and what it gives; None of what it doesn't state."""

    number: int
    match: Tag | None = None
    put: Tag | None = None
    preference: int | None = None

    def __str__(self) -> str:
        match = f" match {self.match}" if self.match else ""
        return f"list {self.number}{match}" + (f" set {self.put} pref {self.preference}" if self.put else "")


class Network(NamedTuple):
    """A route of a router's own: its prefix, the list that is to permit it, its tag."""

    prefix: str
    number: int
    tag: Tag


@dataclass
class Block:
    """What a router takes from a neighbour and what it sends to it: entries, in their order."""

    takes: list[Entry] = field(default_factory=list)
    sends: list[Entry] = field(default_factory=list)


@dataclass
class RouterMaps:
    """The networks of a router, and its blocks by neighbour."""

    networks: list[Network] = field(default_factory=list)
    blocks: dict[str, Block] = field(default_factory=dict)


@dataclass
class Maps:
    """Lists of rows by number, and the maps of each router by name."""

    lists: Lists = field(default_factory=dict)
    routers: dict[str, RouterMaps] = field(default_factory=dict)


def permits(rows: Iterable[Row], prefix: str) -> bool:
    """Whether the first row that has the prefix is a `permit`."""
    return next((row.word == "permit" for row in rows if covers(row.prefix, row.longest, prefix)), False)


def parted(number: int, rows: list[Row]) -> tuple[list[Row], list[Row]]:
    """What a list denies and what it permits. The `deny` rows of a configuration's maps come first, so two sets say such a list."""
    words = [row.word for row in rows]
    if words != sorted(words):
        raise Fault(f"maps: list {number} denies behind what it permits: these aren't the maps of a configuration")
    place = words.count("deny")
    return rows[:place], rows[place:]


def in_order(networks: Iterable[Network]) -> list[Network]:
    """Networks in the order of a text: by list, then by the bits of the prefix, then by its length."""
    return sorted(networks, key=lambda network: (network.number, ipaddress.IPv4Network(network.prefix)))


def maps_text(topology: Topology, maps: Maps) -> str:
    """The text of maps, as `propane routemap` would write it."""
    lines = ["propane-maps 1"]
    lines += [f"list {number} {row.word} {row.pattern()}" for number, rows in sorted(maps.lists.items()) for row in rows]
    for router in topology.routers:
        mine = maps.routers[router.name]
        lines.append(f"router {router.name} asn {router.asn} id {router.id}")
        lines += [f"network {network.prefix} list {network.number} set {network.tag}" for network in in_order(mine.networks)]
        for site in topology.neighbours(router.name):
            block = mine.blocks[site.name]
            lines.append(f"{'peer' if site.is_peer else 'neighbor'} {site.name} asn {site.asn}")
            lines += [f"in {10 * place} {entry}" for place, entry in enumerate(block.takes, 1)]
            lines += [f"out {10 * place} {entry}" for place, entry in enumerate(block.sends, 1)]
        lines.append("end")
    return "\n".join(lines) + "\n"
