"""What the peers of a network say: BIRD's files of peers that mean no good.

Their paths go on behind them. They announce with the network's own tags, with the marks that OpenBGPD's files make for themselves, and
with communities that routers act upon by themselves (graceful shutdown, blackhole, no export), claim the network's own prefixes, and
hand on what they hear. Over a silent session they announce nothing, or a path with another router's number on it, which is to be
refused; where a cache of RPKI's is asked, they announce an origin that it says is wrong. And they note, whenever it comes, what no
peer is ever to hear: another prefix than the network's own, a path of more than one number, a community.
"""
from __future__ import annotations

import itertools
from collections.abc import Sequence

from deploying.addresses import Addresses
from deploying.maps import Maps, Tag
from deploying.plans import Session, session_of
from texts.scenario import Pairs
from texts.topology import Site, Topology

from .commands import Broken

MOST_TAGS = 20
WRONG = "wrongly heard"  # what a peer notes of a route that it should never have heard


def peer_text(topology: Topology, maps: Maps, addresses: Addresses, site: Site, announced: Sequence[str], silent: Pairs,
              prepends: int = 0) -> str:
    """The file of a peer that announces these prefixes, but over the links `silent`, with its own number in front so many times more."""
    claimed = sorted({network.prefix for router in maps.routers.values() for network in router.networks})
    parts = ["log stderr all;", f"router id {site.id};", "protocol device {}", "protocol bfd {}",
             static_text("announced", announced, "ipv4;"), static_text("claimed", claimed, "ipv4 { preference 1; };"), heard_text(claimed)]
    for router in topology.neighbours(site.name):
        session = session_of(addresses, site, router)
        if not session.mine:
            raise Broken(f"the peer {site.name} needs addresses: its daemon is BIRD")
        is_silent, (behind, unknown) = frozenset((site.name, router.name)) in silent, numbers_behind(topology, addresses)
        silence = silence_of(topology, router) if is_silent and not addresses.rpki else ""
        numbers = [unknown if is_silent and addresses.rpki else behind, *[site.asn] * prepends]
        parts += [filter_text(router.name, known_tags(maps), sorted(maps.lists)[:MOST_TAGS], silence, numbers),
                  protocol_text(session, addresses.public_as or router.asn)]
    return "\n".join(parts) + "\n"


def heard_text(own: Sequence[str]) -> str:
    others = f"net !~ [ {', '.join(own)} ]" if own else "true"
    return "\n".join(["filter heard {",
                      f"  if {others} || bgp_path.len != 1 || bgp_community.len > 0 || bgp_ext_community.len > 0"
                      " || bgp_large_community.len > 0",
                      f"    then print \"{WRONG} \", net, \" by the path \", bgp_path;", "  accept;", "}"])


def static_text(name: str, prefixes: Sequence[str], channel: str) -> str:
    return f"protocol static {name} {{ {channel} {''.join(f'route {prefix} unreachable; ' for prefix in prefixes)}}}"


def known_tags(maps: Maps) -> list[Tag]:
    """Some of the tags that routers give."""
    blocks = [block for router in maps.routers.values() for block in router.blocks.values()]
    return sorted({entry.put for block in blocks for entry in block.takes if entry.put})[:MOST_TAGS]


def silence_of(topology: Topology, router: Site) -> str:
    """Towards every second router nothing, and towards the others a path with the number of the router that follows them."""
    place, numbers = topology.place[router.name], topology.router_numbers()
    return "reject;" if place % 2 else f"bgp_path.prepend({numbers[(place + 1) % len(numbers)]});"


def numbers_behind(topology: Topology, addresses: Addresses) -> tuple[int, int]:
    """Two AS numbers that none of the network has: what peers announce begins at the first, and at the second where that is wrong."""
    taken = {site.asn for site in topology.sites.values()} | {addresses.public_as}
    first, second = itertools.islice((number for number in itertools.count(3356) if number not in taken), 2)
    return first, second


def filter_text(name: str, tags: Sequence[Tag], lists: Sequence[int], silence: str, behind: Sequence[int]) -> str:
    lines = [f"filter 'out:{name}' {{",
             *(f"  if proto = \"announced\" then bgp_path.prepend({number});" for number in behind),
             f"  if proto = \"announced\" then {silence}" if silence else "",
             "  bgp_community.add((65535, 0)); bgp_community.add((65535, 666)); bgp_community.add((65535, 65281));",
             "  bgp_ext_community.add((rt, 1, 2)); bgp_med = 7; bgp_origin = ORIGIN_INCOMPLETE;",
             *(f"  bgp_large_community.add(({tag.asn}, 0, {tag.value}));" for tag in tags),
             *(f"  bgp_community.add(({number >> 16}, {number & 65535}));" for number in lists), "  accept;", "}"]
    return "\n".join(filter(None, lines))


def protocol_text(session: Session, asn: int) -> str:
    name, wire = session.neighbour.name, session.wire
    lines = [f"protocol bgp 'bgp:{name}' {{", f"  local {session.mine} as {session.asn}; neighbor {session.theirs} as {asn};",
             f"  multihop {wire.hops};" if wire.hops > 1 else "  check link on;", "  ttl security on;" if wire.ttl_security else "",
             "  bfd on;" if wire.bfd else "", f"  password \"{wire.password}\";" if wire.password else "",
             f"  hold time {wire.hold};" if wire.hold else "",
             "  connect delay time 1; connect retry time 2; error wait time 2, 4;",
             f"  ipv4 {{ import filter heard; export filter 'out:{name}'; }};", "}"]
    return "\n".join(filter(None, lines))
