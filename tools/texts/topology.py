"""The network of a topology text: routers, peers, and the links between them."""
from __future__ import annotations

import ipaddress
import re
from dataclasses import dataclass
from typing import Any

from .faults import Fault
from .json_text import json_value, shown

NAME = re.compile(r"[A-Za-z][A-Za-z0-9_.-]{0,31}", re.ASCII)
MOST_NUMBER = 4_294_967_295  # the greatest number of four octets
PRIVATE = (64512, 65534), (4_200_000_000, 4_294_967_294)  # RFC 6996
Link = tuple[str, str]


def is_private(number: int) -> bool:
    """Whether an AS number is for private use."""
    return any(low <= number <= high for low, high in PRIVATE)


@dataclass(frozen=True)
class Site:
    """A router or a peer, with its AS number and its BGP identifier."""

    name: str
    asn: int
    id: str
    is_peer: bool


class Topology:
    """Sites by name, in order of location: routers, then peers. Links are pairs of names, as the text has them.

    `propane` judges topologies; here a text is refused where what is made of it could say something else.
    """

    def __init__(self, text: str | bytes) -> None:
        value = json_value(text if isinstance(text, str) else decoded(text), "topology")
        self.sites: dict[str, Site] = {}
        self.links: list[Link] = []
        self._taken: set[int | str | frozenset[str]] = set()
        for kind in ("routers", "peers"):
            for place, entry in enumerate(part(value, kind), 1):
                self._add_site(entry, kind == "peers", f"topology: {kind} place {place}")
        for place, ends in enumerate(part(value, "links"), 1):
            self._add_link(ends, f"topology: links place {place}")
        self.place = {name: place for place, name in enumerate(self.sites)}
        self.routers = [site for site in self.sites.values() if not site.is_peer]
        self.peers = [site for site in self.sites.values() if site.is_peer]
        self._near: dict[str, list[str]] = {name: [] for name in self.sites}
        for one, two in self.links:
            self._near[one].append(two)
            self._near[two].append(one)

    def _add_site(self, entry: Any, is_peer: bool, where: str) -> None:
        if not isinstance(entry, dict) or set(entry) != {"name", "asn", "id"}:
            raise Fault(f"{where}: no object of name, asn and id")
        name, asn = entry["name"], entry["asn"]
        if not isinstance(name, str) or not NAME.fullmatch(name):
            raise Fault(f"{where}: no name: {shown(name)}")
        if name in self.sites:
            raise Fault(f"{where}: {name} is there already")
        if type(asn) is not int or not 0 < asn < MOST_NUMBER or not is_peer and not is_private(asn):
            raise Fault(f"{where}: no AS number of a {'peer' if is_peer else 'router'}: {shown(asn)}")
        site = Site(name, asn, address(entry["id"], f"{where}: id"), is_peer)
        if {site.asn, site.id} & self._taken:
            raise Fault(f"{where}: another has the AS number or the identifier of {name}")
        self._taken |= {site.asn, site.id}
        self.sites[name] = site

    def _add_link(self, ends: Any, where: str) -> None:
        if not isinstance(ends, list) or len(ends) != 2 or not all(isinstance(end, str) and end in self.sites for end in ends):
            raise Fault(f"{where}: no two names of the topology")
        if ends[0] == ends[1] or all(self.sites[end].is_peer for end in ends):
            raise Fault(f"{where}: a link joins two routers, or a router and a peer")
        if frozenset(ends) in self._taken:
            raise Fault(f"{where}: the link is there already")
        self._taken.add(frozenset(ends))
        self.links.append((ends[0], ends[1]))

    def neighbours(self, name: str) -> list[Site]:
        """The sites with which a site is linked, in order of location."""
        return [self.sites[other] for other in sorted(self._near[name], key=self.place.__getitem__)]

    def router_numbers(self) -> list[int]:
        """The AS numbers of the routers."""
        return [router.asn for router in self.routers]

    def is_to_a_peer(self, link: Link | frozenset[str]) -> bool:
        """Whether one end of a link is a peer."""
        return any(self.sites[end].is_peer for end in link)


def decoded(text: bytes) -> str:
    """Bytes as a text, where they are UTF-8."""
    try:
        return text.decode("utf-8")
    except UnicodeDecodeError as error:
        raise Fault(f"topology: not UTF-8 at byte {error.start}") from error


def part(value: Any, key: str) -> list[Any]:
    """The array under a key of the topology."""
    found = value.get(key) if isinstance(value, dict) else None
    if not isinstance(found, list):
        raise Fault(f"topology: no array `{key}`")
    return found


def address(text: Any, where: str) -> str:
    """An IPv4 address in the one form that it has."""
    try:
        return str(ipaddress.IPv4Address(text if isinstance(text, str) else ""))
    except ValueError as error:
        raise Fault(f"{where}: no IPv4 address: {shown(text)}") from error
