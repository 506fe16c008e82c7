"""Where the sessions of a network run: the text ADDRESSES, read strictly.

    {"public_as": 64496,
     "links": [{"ends": ["R1", "R2"], "addresses": ["10.0.0.0", "10.0.0.1"]},
               {"ends": ["R1", "P1"], "addresses": ["198.51.100.2", "198.51.100.1"], "password": "a-secret"}]}

One entry a link of the topology. docs/DEPLOY.md has all keys.
"""
from __future__ import annotations

import ipaddress
import re
from collections.abc import Mapping
from dataclasses import dataclass, field
from typing import Any

from texts.faults import Fault
from texts.json_text import Object, json_value, keyed, shown
from texts.prefixes import length_of
from texts.topology import MOST_NUMBER, Link, Topology, address, is_private

RESERVED = (0, 23456, 65535, MOST_NUMBER)  # RFC 7607, 6793, 7300
INTERFACE = re.compile(r"[A-Za-z][A-Za-z0-9_.:@-]{0,14}", re.ASCII)
PASSWORD = re.compile(r"[A-Za-z0-9._~+/=:,;@%^*-]{1,80}", re.ASCII)


@dataclass(frozen=True)
class Wire:
    """Where the session of a link runs: an address or an interface for each end by name, and what both ends do."""

    addresses: Mapping[str, str]
    interfaces: Mapping[str, str]
    password: str | None = None
    hops: int = 1
    ttl_security: bool = False
    hold: int | None = None
    bfd: bool = False
    shut: bool = False
    longest: int | None = None  # length of a prefix that is taken from a peer
    most_prefixes: int | None = None  # that are taken from a peer
    link_locals: Mapping[str, str] = field(default_factory=dict)  # of the interfaces, where they are told

    def takes(self, prefix: str) -> bool:
        """Whether a prefix isn't too long to be taken from the peer."""
        return self.longest is None or length_of(prefix) <= self.longest


@dataclass(frozen=True)
class Cache:
    """Where a cache of RPKI's says which AS numbers may originate a prefix (RFC 8210)."""

    address: str
    port: int


OF_ENTRY = {"addresses", "interfaces", "link_locals", "password", "hops", "ttl_security", "hold", "bfd", "shut", "longest", "most_prefixes"}


class Addresses:
    """The wires of a network by their ends, the AS number by which its peers know it, and its cache of RPKI's; None of what isn't told."""

    def __init__(self, text: str, topology: Topology) -> None:
        self.topology = topology
        self.wires: dict[frozenset[str], Wire] = {}
        self.owners: dict[str | tuple[str, str], str] = {}
        value = keyed(json_value(text, "addresses", Object), {"links"}, {"public_as", "rpki"}, "addresses")
        if not isinstance(value["links"], list):
            raise Fault("addresses: `links` is no array")
        self.public_as = self.public_number(value["public_as"]) if "public_as" in value else None
        self.rpki = cache(value["rpki"]) if "rpki" in value else None
        wanted = {frozenset(link): link for link in topology.links}
        for place, entry in enumerate(value["links"], 1):
            try:
                self.add(entry, wanted)
            except Fault as fault:
                raise Fault(f"addresses: links place {place}: {fault}") from fault
        for ends, link in wanted.items():
            if ends not in self.wires:
                raise Fault(f"addresses: no entry for the link {' '.join(link)}")

    def public_number(self, number: Any) -> int:
        if type(number) is not int or not 0 < number < MOST_NUMBER or number in RESERVED or is_private(number):
            raise Fault(f"addresses: public_as: no AS number that peers may know: {shown(number)}")
        if number in (site.asn for site in self.topology.sites.values()):
            raise Fault(f"addresses: public_as: {number} is a number of the topology")
        return number

    def add(self, entry: Any, wanted: Mapping[frozenset[str], Link]) -> None:
        entry = keyed(entry, {"ends"}, OF_ENTRY, "entry")
        ends = two_texts(entry, "ends")
        link = frozenset(ends)
        if link not in wanted:
            raise Fault(f"no link of the topology: {shown(ends)}")
        if link in self.wires:
            raise Fault(f"the link {' '.join(ends)} has an entry already")
        if ("addresses" in entry) == ("interfaces" in entry):
            raise Fault("an entry has either `addresses` or `interfaces`")
        if "link_locals" in entry and "interfaces" not in entry:
            raise Fault("`link_locals` are for a session over `interfaces`")
        addresses, interfaces = self.taken(entry, ends, "addresses"), self.taken(entry, ends, "interfaces")
        link_locals = dict(zip(ends, map(link_local, two_texts(entry, "link_locals")))) if "link_locals" in entry else {}
        hops = whole(entry, "hops", 1, 254, 1)
        if hops > 1 and interfaces:
            raise Fault("`hops`: a session over interfaces has one")
        for key in ("longest", "most_prefixes"):
            if key in entry and not self.topology.is_to_a_peer(link):
                raise Fault(f"`{key}` is for a link with a peer")
        self.wires[link] = Wire(addresses, interfaces, password(entry), hops, flag(entry, "ttl_security"),
                                whole(entry, "hold", 3, 65535, None), flag(entry, "bfd"), flag(entry, "shut"),
                                whole(entry, "longest", 1, 31, None), whole(entry, "most_prefixes", 1, MOST_NUMBER, None), link_locals)

    def taken(self, entry: Object, ends: list[str], key: str) -> dict[str, str]:
        """The addresses or the interfaces of an entry by the ends that have them from now on, or none."""
        if key not in entry:
            return {}
        found = dict(zip(ends, two_texts(entry, key)))
        for end, text in found.items():
            (self.take_address if key == "addresses" else self.take_interface)(end, text)
        return found

    def take_address(self, end: str, text: str) -> None:
        """An address belongs to one end. The same end may use it on more links, as on a shared network or a loopback."""
        found = ipaddress.IPv4Address(address(text, "`addresses`"))
        if found.is_unspecified or found.is_loopback or found.is_multicast or found.is_reserved:
            raise Fault(f"`addresses`: no address of a router: {text}")
        if self.owners.setdefault(text, end) != end:
            raise Fault(f"`addresses`: {text} is the address of {self.owners[text]} already")

    def take_interface(self, end: str, text: str) -> None:
        if not INTERFACE.fullmatch(text):
            raise Fault(f"`interfaces`: no name of an interface: {shown(text)}")
        if (end, text) in self.owners:
            raise Fault(f"`interfaces`: {end} has another link over {text}")
        self.owners[end, text] = end

    def wire(self, one: str, two: str) -> Wire:
        return self.wires[frozenset((one, two))]


def cache(value: Any) -> Cache:
    """The cache of RPKI's that all routers ask."""
    try:
        value = keyed(value, {"address"}, {"port"}, "rpki")
        return Cache(address(value["address"], "rpki: address"), whole(value, "port", 1, 65535, 323))
    except Fault as fault:
        raise Fault(f"addresses: {fault}") from fault


def two_texts(entry: Object, key: str) -> list[str]:
    value = entry[key]
    if not isinstance(value, list) or len(value) != 2 or not all(isinstance(part, str) for part in value):
        raise Fault(f"`{key}` is no array of two texts")
    if value[0] == value[1] and key != "interfaces":
        raise Fault(f"`{key}` has one text twice: {shown(value[0])}")
    return value


def link_local(text: str) -> str:
    """A link-local address of IPv6, in the one form that it has (RFC 5952)."""
    try:
        found = ipaddress.IPv6Address(text)
    except ValueError:
        found = ipaddress.IPv6Address("::")
    if not found.is_link_local or str(found) != text:
        raise Fault(f"`link_locals`: no link-local address: {shown(text)}")
    return text


def whole(entry: Object, key: str, low: int, high: int, otherwise: Any) -> Any:
    """The whole number under a key, or another value where none is."""
    if key not in entry:
        return otherwise
    if type(entry[key]) is not int or not low <= entry[key] <= high:
        raise Fault(f"`{key}` is no number from {low} to {high}: {shown(entry[key])}")
    return entry[key]


def password(entry: Object) -> str | None:
    """A password in letters that mean themselves in the files of both daemons. It isn't shown."""
    if "password" not in entry:
        return None
    if not isinstance(entry["password"], str) or not PASSWORD.fullmatch(entry["password"]):
        raise Fault("`password` is no text of 1 to 80 letters, digits and signs of ._~+/=:,;@%^*-")
    return entry["password"]


def flag(entry: Object, key: str) -> bool:
    if not isinstance(entry.get(key, False), bool):
        raise Fault(f"`{key}` is neither true nor false")
    return entry.get(key, False)
