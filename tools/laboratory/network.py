"""The sites of a network as namespaces, its links, and what fails now."""
from __future__ import annotations

import ipaddress
import json
import os
import time
from collections.abc import Iterable, Iterator, Mapping
from concurrent.futures import ThreadPoolExecutor
from dataclasses import dataclass, replace
from typing import Any

from deploying.folders import Described
from deploying.maps import Maps
from deploying.plans import session_of
from texts.scenario import Scenario
from texts.topology import Site

from . import spaces
from .commands import Broken, ran, write
from .daemons import Bird, Daemon, Frr, OpenBgpd
from .origins import Origins
from .peers import numbers_behind, peer_text

# What the system of a router does with packets: it hands them on, spreads flows by their ports, and leaves a next hop out at once that
# nobody is behind.
ROUTING = {"ip_forward": 1, "fib_multipath_hash_policy": 1, "conf/all/ignore_routes_with_linkdown": 1, "conf/all/rp_filter": 0,
           "conf/default/rp_filter": 0}
CALM = 2  # seconds without a change that count as quiet
POLL = 0.5
AT_ONCE = 8  # daemons that are begun at once


def hardware(link_local: str) -> str:
    """The hardware address of which the kernel makes a link-local address (RFC 4291, appendix A). FRR sends packets there, and asks nobody."""
    octets = ipaddress.IPv6Address(link_local).packed[8:]
    if octets[3:5] != b"\xff\xfe":
        raise Broken(f"{link_local} isn't made of a hardware address, and FRR sends packets to the one that a link-local address is made of")
    return ":".join(f"{octet:02x}" for octet in (octets[0] ^ 2, *octets[1:3], *octets[5:]))


@dataclass(frozen=True)
class Inputs:
    """A network with its maps, and the file that each router loads, by name."""

    described: Described
    maps: Maps
    files: dict[str, str]


class Network:
    """A namespace and a daemon for each site, called as the site is. `now` says what fails, `is_quiet` that quiet has come since.

    `kinds` says which daemon each router runs.
    """

    def __init__(self, inputs: Inputs, kinds: Mapping[str, str], prefixes: Iterable[str], folder: str) -> None:
        self.inputs, self.folder = inputs, folder
        self.topology, self.addresses = inputs.described.topology, inputs.described.addresses
        own = {network.prefix for router in inputs.maps.routers.values() for network in router.networks}
        self.announced = sorted(set(prefixes) - own)
        self.routers = {site.name: self.daemon(site, kinds[site.name]) for site in self.topology.routers}
        self.peers = {site.name: Bird(site.name, os.path.join(folder, site.name)) for site in self.topology.peers}
        self.daemons: Mapping[str, Daemon] = {**self.routers, **self.peers}
        self.now, self.is_quiet = Scenario("", dead=frozenset(self.topology.sites)), False
        self.prepends = dict.fromkeys(self.peers, 0)  # how often a peer puts its own number in front once more

    def daemon(self, site: Site, kind: str) -> Bird | Frr | OpenBgpd:
        folder = os.path.join(self.folder, site.name)
        if kind == "bird":
            return Bird(site.name, folder)
        if kind == "openbgpd":
            return OpenBgpd(site.name, folder)
        sessions = [session_of(self.addresses, site, other) for other in self.topology.neighbours(site.name)]
        return Frr(site.name, folder, {session.interface or session.theirs or "": session.neighbour.name for session in sessions})

    # ---- links

    def interface(self, site: str, other: str) -> str:
        """The name of a site's interface on a link."""
        return self.addresses.wire(site, other).interfaces.get(site) or f"to{self.topology.place[other]}"

    def lay(self) -> None:
        for space, kind in self.topology.sites.items():
            ran("ip", "netns", "add", space)
            ran("ip", "-n", space, "link", "set", "lo", "up")
            with spaces.inside(space):
                spaces.set_up({} if kind.is_peer else ROUTING)
        for one, two in self.topology.links:
            ran("ip", "link", "add", "name", self.interface(one, two), "netns", one, "type", "veth",
                "peer", "name", self.interface(two, one), "netns", two)
            for site, other in ((one, two), (two, one)):
                at, inner = self.addresses.wire(one, two).addresses, self.addresses.wire(one, two).link_locals
                if inner:
                    ran("ip", "-n", site, "link", "set", self.interface(site, other), "address", hardware(inner[site]))
                if at:
                    ran("ip", "-n", site, "addr", "add", at[site], "peer", at[other], "dev", self.interface(site, other))
                ran("ip", "-n", site, "link", "set", self.interface(site, other), "up")
        for router in self.topology.routers:
            if any(router.name in wire.interfaces for wire in self.addresses.wires.values()) and router.id not in self.addresses.owners:
                ran("ip", "-n", router.name, "addr", "add", f"{router.id}/32", "dev", "lo")  # from which its own packets come
        if self.addresses.rpki:
            right, _ = numbers_behind(self.topology, self.addresses)
            Origins(self.addresses.rpki, [router.name for router in self.topology.routers], self.announced, right)

    def set_link(self, link: frozenset[str], word: str) -> None:
        """One end goes `up` or `down`; the other one sees whether somebody is there."""
        one, two = sorted(link)
        ran("ip", "-n", one, "link", "set", self.interface(one, two), word)

    def asked(self, scenario: Scenario) -> Scenario:
        """A scenario as the program is asked for it: a session that is shut is a dead link, and over a session that takes no prefix of this
        length a peer is silent."""
        wires = self.addresses.wires.items()
        shut = frozenset(link for link, wire in wires if wire.shut)
        long = frozenset(link for link, wire in wires if not wire.takes(scenario.prefix))
        return replace(scenario, dead_links=scenario.dead_links | shut, silent=scenario.silent | long)

    # ---- failures

    def make(self, scenario: Scenario) -> None:
        """Goes from what fails now to what is to fail."""
        before, self.now, self.is_quiet = self.now, scenario, False
        for name in sorted(scenario.dead - before.dead):
            self.daemons[name].stop()
        for link in before.dead_links ^ scenario.dead_links:
            self.set_link(link, "down" if link in scenario.dead_links else "up")
        with ThreadPoolExecutor(AT_ONCE) as pool:
            list(pool.map(self.start, [site for site in self.topology.sites.values() if site.name in before.dead - scenario.dead]))
        for peer in self.topology.peers:
            if peer.name not in before.dead | scenario.dead and any(peer.name in link for link in before.silent ^ scenario.silent):
                self.peers[peer.name].configure(self.peer_file(peer))

    def start(self, site: Site) -> None:
        self.daemons[site.name].start(self.peer_file(site) if site.is_peer else self.router_file(site.name))

    def router_file(self, name: str) -> str:
        """What a router loads. Where a session has several hops, BIRD looks for the way to its end among its own routes."""
        file = self.inputs.files[name]
        is_far = any(name in link and wire.hops > 1 for link, wire in self.addresses.wires.items())
        if not is_far or not isinstance(self.daemons[name], Bird):
            return file
        longer = os.path.join(self.folder, name + ".bird.conf")
        write(longer, f'include "{file}";\nprotocol direct {{ ipv4; }}\n')
        return longer

    def peer_file(self, site: Site) -> str:
        file = os.path.join(self.folder, site.name + ".peer.conf")
        write(file, peer_text(self.topology, self.inputs.maps, self.addresses, site, self.announced, self.now.silent,
                              self.prepends[site.name]))
        return file

    def alive(self) -> list[str]:
        return [name for name in self.topology.sites if name not in self.now.dead]

    def live_routers(self) -> list[str]:
        return [router.name for router in self.topology.routers if router.name not in self.now.dead]

    def sending_routers(self) -> list[str]:
        """The live routers whose daemons tell the kernel where to send packets."""
        return [name for name in self.live_routers() if self.routers[name].tells_kernel]

    def live_peers(self) -> list[str]:
        return [peer.name for peer in self.topology.peers if peer.name not in self.now.dead]

    def wanted(self) -> dict[str, set[str]]:
        """Between whom there are to be sessions."""
        live = [link for link in self.topology.links if frozenset(link) not in self.now.dead_links and not set(link) & self.now.dead]
        return {name: {other for link in live if name in link for other in link if other != name} for name in self.alive()}

    def settle(self, end: float) -> list[str]:
        """Waits until the sessions are those that can be, and no message has come or gone for some time; not beyond a moment.

        Returns faults."""
        wanted, since, self.is_quiet = self.wanted(), time.monotonic(), False
        last: list[Any] | None = None
        while True:
            told = {name: self.daemons[name].sessions() for name in self.alive()}
            up, moves = {name: up for name, (up, _) in told.items()}, [moves for _, moves in told.values()]
            now = time.monotonic()
            if up != wanted or moves != last:
                last, since = moves, now
            if now - since >= CALM:
                self.is_quiet = True
                return []
            if now > end:
                late = [f"{name}-{other}" for name in wanted for other in sorted(wanted[name] ^ up[name])]
                return [f"not quiet; sessions that aren't as wanted: {' '.join(late) or 'none'}"]
            time.sleep(POLL)

    # ---- what is seen

    def unanswered(self) -> Iterator[str]:
        """The live sessions with BFD over which a router is answered by nobody."""
        for router in self.topology.routers:
            others = [other for other in self.topology.neighbours(router.name) if self.addresses.wire(router.name, other.name).bfd]
            if router.name in self.now.dead or not others:
                continue
            up = self.routers[router.name].answering()
            for other in others:
                session = session_of(self.addresses, router, other)
                lives = other.name not in self.now.dead and frozenset((router.name, other.name)) not in self.now.dead_links
                if lives and (session.interface or session.theirs) not in up:
                    yield f"BFD of {router.name} has no answer of {other.name}"

    def record(self, folder: str, prefix: str) -> None:
        """What the routers answer, as tools/tables takes it. Of a dead one, BIRD's answer that there is no route."""
        os.makedirs(folder, exist_ok=True)
        for router in self.topology.routers:
            daemon, is_dead = self.daemons[router.name], router.name in self.now.dead
            ending, answer = (".bird", "Network not found\n") if is_dead else (daemon.ending, daemon.answer(prefix))
            write(os.path.join(folder, router.name + ending), answer)

    def next_hops(self, router: str, prefix: str) -> frozenset[str] | None:
        """To whom the kernel of a router sends: neighbours, nobody where it keeps what comes, None where it has no route."""
        routes: list[dict[str, Any]] = json.loads(ran("ip", "-n", router, "-json", "route", "show", "exact", prefix) or "[]")
        if not routes:
            return None
        best = min(routes, key=lambda route: int(route.get("metric", 0)))
        hops = [hop for hop in best.get("nexthops", [best]) if not {"dead", "linkdown"} & set(hop.get("flags", []))]
        return frozenset(self.behind(router, hop["dev"]) for hop in hops if hop.get("dev", "lo") != "lo")

    def behind(self, router: str, interface: str) -> str:
        """The neighbour behind an interface of a router; the interface, where none is."""
        others = {self.interface(router, site.name): site.name for site in self.topology.neighbours(router)}
        return others.get(interface, interface)
