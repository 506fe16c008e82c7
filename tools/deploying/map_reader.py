"""Reads the text of route maps. `propane checkmap` has the last word on such texts."""
from __future__ import annotations

import ipaddress
import re

from texts.faults import Fault
from texts.json_text import shown
from texts.prefixes import is_prefix, length_of
from texts.topology import MOST_NUMBER, Topology

from .maps import Block, Entry, Maps, Network, Row, RouterMaps, Tag

NUMBER = r"(0|[1-9]\d{0,9})"
TAG = rf"{NUMBER}:0:{NUMBER}"
PREFIX = r"(\d+\.\d+\.\d+\.\d+/(?:0|[1-9]\d?))"
FORMS = {
    "list": rf"list {NUMBER} (deny|permit) {PREFIX}(?: le {NUMBER})?",
    "router": rf"router (\S+) asn {NUMBER} id (\S+)",
    "network": rf"network {PREFIX} list {NUMBER} set {TAG}",
    "block": rf"(neighbor|peer) (\S+) asn {NUMBER}",
    "in": rf"in {NUMBER} list {NUMBER}(?: match {TAG})? set {TAG} pref {NUMBER}",
    "out": rf"out {NUMBER} list {NUMBER} match {TAG}",
    "end": r"end",
}
LINES = {kind: re.compile(form, re.ASCII) for kind, form in FORMS.items()}
FOLLOWS = {"list": "top", "router": "top", "network": "router", "block": "router block", "in": "block", "out": "block",
           "end": "router block"}


def read_maps(topology: Topology, text: str) -> Maps:
    """The maps of a text: those of each router of the topology, with a block for each of its links."""
    lines = text.split("\n")
    if lines[0] != "propane-maps 1":
        raise Fault("maps: line 1: not `propane-maps 1`")
    if lines.pop():
        raise Fault("maps: the last line has no end")
    reader = MapReader(topology)
    for number, line in enumerate(lines[1:], 2):
        try:
            reader.take(line)
        except Fault as fault:
            raise Fault(f"maps: line {number}: {fault}") from fault
    reader.end()
    return reader.maps


class MapReader:
    """Takes the lines one after another; `level` is what is open: `top`, a `router`, or a `block` of one."""

    def __init__(self, topology: Topology) -> None:
        self.topology, self.maps, self.level = topology, Maps(), "top"
        self.name, self.router, self.block = "", RouterMaps(), Block()
        self.own: set[str] = set()

    def take(self, line: str) -> None:
        for kind, form in LINES.items():
            found = form.fullmatch(line)
            if found and self.level in FOLLOWS[kind].split():
                getattr(self, f"take_{kind}")(*found.groups())
                return
        raise Fault(f"no line of maps, or not in its place: {shown(line)}")

    def take_list(self, number: str, word: str, prefix: str, longest: str | None) -> None:
        lists = self.maps.lists
        if self.maps.routers or int(number) not in (len(lists), len(lists) + 1) or number == "0":
            raise Fault(f"list {number} isn't the next")
        row = Row.of(word, lawful_prefix(prefix), longest)
        if not length_of(prefix) <= row.longest <= 32:
            raise Fault(f"no length up to which {prefix} has longer ones: {row.longest}")
        lists.setdefault(int(number), []).append(row)

    def take_router(self, name: str, asn: str, identifier: str) -> None:
        site = self.topology.sites.get(name)
        if not site or site.is_peer or (site.asn, site.id) != (int(asn), identifier):
            raise Fault(f"the topology has no router {name} asn {asn} id {identifier}")
        if name in self.maps.routers:
            raise Fault(f"the router {name} stands twice")
        self.level, self.name, self.router, self.own = "router", name, RouterMaps(), set()
        self.maps.routers[name] = self.router

    def take_network(self, prefix: str, number: str, asn: str, value: str) -> None:
        first = ipaddress.IPv4Network(lawful_prefix(prefix)).network_address
        if first.is_loopback or first.is_multicast or prefix == "255.255.255.255/32":
            raise Fault(f"routers carry no route to {prefix}")
        if prefix in self.own:
            raise Fault(f"the network {prefix} stands twice")
        self.own.add(prefix)
        self.router.networks.append(Network(prefix, self.listed(number), tag_of(asn, value)))

    def take_block(self, word: str, name: str, asn: str) -> None:
        site = self.topology.sites.get(name)
        if not site or (site.asn, site.is_peer) != (int(asn), word == "peer"):
            raise Fault(f"the topology has no {word} {name} asn {asn}")
        if name in self.router.blocks:
            raise Fault(f"the {word} {name} stands twice")
        self.level, self.block = "block", Block()
        self.router.blocks[name] = self.block

    def take_in(self, place: str, number: str, asn: str | None, value: str | None, put_asn: str, put_value: str, preference: str) -> None:
        match = tag_of(asn, value) if asn and value else None
        self.add(self.block.takes, place, Entry(self.listed(number), match, tag_of(put_asn, put_value), in_range(preference)))

    def take_out(self, place: str, number: str, asn: str, value: str) -> None:
        self.add(self.block.sends, place, Entry(self.listed(number), tag_of(asn, value)))

    def add(self, entries: list[Entry], place: str, entry: Entry) -> None:
        wanted = 10 * (len(entries) + 1)
        if int(place) != wanted:
            raise Fault(f"the next entry is {wanted}, and not {place}")
        entries.append(entry)

    def take_end(self) -> None:
        near = [site.name for site in self.topology.neighbours(self.name)]
        for name in near + list(self.router.blocks):
            if (name in near) != (name in self.router.blocks):
                raise Fault(f"router {self.name} has no {'block' if name in near else 'link'} of {name}")
        self.level = "top"

    def listed(self, number: str) -> int:
        if int(number) not in self.maps.lists:
            raise Fault(f"there is no list {number}")
        return int(number)

    def end(self) -> None:
        if self.level != "top":
            raise Fault(f"maps: the router {self.name} has no end")
        for router in self.topology.routers:
            if router.name not in self.maps.routers:
                raise Fault(f"maps: no router {router.name}")


def lawful_prefix(text: str) -> str:
    if not is_prefix(text):
        raise Fault(f"no prefix: {text}")
    return text


def in_range(number: str) -> int:
    if int(number) > MOST_NUMBER:
        raise Fault(f"a number is at most {MOST_NUMBER}, and not {number}")
    return int(number)


def tag_of(asn: str, value: str) -> Tag:
    return Tag(in_range(asn), in_range(value))
