"""Packets of many flows, and the way that each takes.

A flow is a datagram of UDP from a port of its own. What leaves each router, and over which interface, is seen there; so the way of a
flow is put together router by router. Nobody answers.

Answers would tell less: nobody has a way back to a router's own address, and `traceroute` would see one flow.
"""
from __future__ import annotations

import contextlib
import ipaddress
import select
import socket
import struct
import time
from collections.abc import Collection, Iterator, Mapping
from dataclasses import dataclass

from . import spaces
from .network import Network
from .questions import Hops, hops_text

FLOWS = 48  # from each router
FIRST, TOWARDS = 20_000, 33_434  # the port of the first flow, and that to which all go
ALL, OUTGOING = 3, 4  # every protocol, and a packet that leaves (packet(7))
LONG = 5  # seconds for which packets may be under way
QUIET = 0.2  # seconds without one after which none is
ROOM = 1 << 22  # bytes of packets that may wait to be seen


@dataclass(frozen=True)
class Flow:
    """A flow: where it begins, and the places that it comes to, in their order."""

    router: str
    way: tuple[str, ...]


def target(network: Network, prefix: str) -> str | None:
    """An address of a prefix that is in no longer one of the network, and is nobody's."""
    own = {own.prefix for maps in network.inputs.maps.routers.values() for own in maps.networks}
    inner = [ipaddress.IPv4Network(other) for other in own.union(network.announced) - {prefix}]
    outer = ipaddress.IPv4Network(prefix)
    taken = {address for wire in network.addresses.wires.values() for address in wire.addresses.values()}
    inner = [other for other in inner if other.subnet_of(outer)]
    for place in range(outer.num_addresses - 1, max(-1, outer.num_addresses - 65_536), -1):
        address = outer[place]
        if str(address) not in taken and not any(address in other for other in inner):
            return str(address)
    return None


def ways(network: Network, hops: Hops, address: str) -> list[Flow]:
    """Sends flows to an address from each router that has next hops, and follows each."""
    sources = [name for name in network.live_routers() if hops.get(name)]
    seen: dict[int, dict[str, str]] = {}  # by the port of the flow: who has sent it on, and to whom
    with contextlib.ExitStack() as stack:
        watched = {stack.enter_context(watch(router)): router for router in network.live_routers()}
        for place, source in enumerate(sources):
            send(source, address, FIRST + place * FLOWS)
        for router, interface, port in leaving(watched, address):
            seen.setdefault(port, {})[router] = network.behind(router, interface)
    return [Flow(source, way_of(source, seen.get(FIRST + place * FLOWS + flow, {})))
            for place, source in enumerate(sources) for flow in range(FLOWS)]


def watch(site: str) -> socket.socket:
    """A socket that sees what passes a site."""
    with spaces.inside(site):
        found = socket.socket(socket.AF_PACKET, socket.SOCK_DGRAM, socket.htons(ALL))
    found.setsockopt(socket.SOL_SOCKET, socket.SO_RCVBUF, ROOM)
    found.setblocking(False)
    return found


def send(site: str, address: str, first: int) -> None:
    """Sends a datagram of each flow from a site. What has no way isn't sent, and isn't seen."""
    for port in range(first, first + FLOWS):
        with spaces.inside(site), socket.socket(socket.AF_INET, socket.SOCK_DGRAM) as flow, contextlib.suppress(OSError):
            flow.bind(("", port))
            flow.sendto(b"flow", (address, TOWARDS))


def leaving(watched: Mapping[socket.socket, str], address: str) -> Iterator[tuple[str, str, int]]:
    """Who sends on, over which interface and of which flow, until nothing more comes."""
    end, wanted = time.monotonic() + LONG, socket.inet_aton(address)
    while time.monotonic() < end:
        ready, _, _ = select.select(list(watched), [], [], QUIET)
        if not ready:
            return
        for found in ready:
            packet, (interface, _, kind, *_) = found.recvfrom(256)
            port = port_of(packet, wanted) if kind == OUTGOING else None
            if port is not None:
                yield watched[found], interface, port


def port_of(packet: bytes, address: bytes) -> int | None:
    """The port from which a datagram comes, where it is one of ours."""
    if len(packet) < 28 or packet[0] >> 4 != 4 or packet[9] != socket.IPPROTO_UDP or packet[16:20] != address:
        return None
    length = 4 * (packet[0] & 15)
    port, towards = struct.unpack_from("!HH", packet, length)
    return int(port) if towards == TOWARDS else None


def way_of(source: str, steps: Mapping[str, str]) -> tuple[str, ...]:
    """The places to which steps lead, or as many as there are routers, where they lead in a circle."""
    way = [source]
    while way[-1] in steps and len(way) <= len(steps) + 1:
        way.append(steps[way[-1]])
    return tuple(way)


def way_faults(flows: Collection[Flow], hops: Hops, peers: Collection[str], gone: frozenset[str] = frozenset()) -> Iterator[str]:
    """What is wrong with the ways of flows: each goes from a router to one of its next hops, over no link that is gone, and ends at a
    peer or at an origin; or at a router that has no next hop left."""

    def left(router: str) -> frozenset[str]:
        return frozenset(other for other in hops.get(router) or () if {router, other} != gone)

    for way in dict.fromkeys(flow.way for flow in flows):
        last = way[-1]
        wrong = next((step for step in zip(way, way[1:]) if step[1] not in left(step[0])), None)
        if wrong:
            yield f"packets go {' '.join(way)}: {wrong[0]} is to send to {hops_text(left(wrong[0]))}"
        elif last not in peers and hops.get(last) is None:
            yield f"packets go {' '.join(way)}: {last} has no route"
        elif last not in peers and left(last):
            yield f"packets go {' '.join(way)} and no further: {last} is to send to {hops_text(left(last))}"


def spread_faults(flows: Collection[Flow], hops: Hops, most: int) -> Iterator[str]:
    """Routers that may use several next hops, and use one for all flows that begin there."""
    for router in dict.fromkeys(flow.router for flow in flows):
        used = {flow.way[1] for flow in flows if flow.router == router and len(flow.way) > 1}
        if min(most, len(hops.get(router) or ())) > 1 and len(used) == 1:
            yield f"all packets of {router} go to {' '.join(used)}, and {hops_text(hops[router])} are to share them"
