"""The file of a plan for FRR, as vtysh loads it: line by line, so the maps of a session stand before it, and what it announces last.

In a staged file the names of maps and of their lists end in a sum of what they all say. So maps of another file can stand beside them,
unused until each is whole, and a session goes over to its new map by one line. docs/DEPLOY.md says what each line is for.

A row that FRR would drop stands in a list of its own, under a name with its place. A remark would do as well, but its length has a bound,
and a list that is read back has to be the one that was written, row by row.
"""
from __future__ import annotations

import hashlib
from collections.abc import Iterator

from texts.faults import Fault

from .addresses import RESERVED
from .maps import Entry, Network, Row, Tag
from .plans import USED, Plan, Session, Ties

ENDING = ".frr.conf"
LAST = 65535  # the greatest number of an entry

OWN_NUMBERS = "! The AS numbers by which the network is known. A path of a peer that has one comes from here."
ORIGINS = "! Which AS numbers may originate a prefix. While the cache doesn't answer, nothing is known to be wrong."
DROPPED = "! What these networks don't deliver is dropped, and isn't sent back outside."
WASH = (" set community none", " set extcommunity none", " set metric 0", " set origin igp")
ASKS_POLICY = " bgp ebgp-requires-policy"
DUPLICATES = " no bgp suppress-duplicates"
ROUTER = (" no bgp default ipv4-unicast", " bgp graceful-restart-disable")
UNTIMED = "bgp route-map delay-timer 0"  # nothing is judged anew while a map is being written
LOWEST_FIRST = " bgp bestpath compare-routerid"
UNCHECKED = " no bgp network import-check"
RELAXED = " bgp bestpath as-path multipath-relax"
UNGROUPED = "no zebra nexthop kernel enable"


def frr_text(plan: Plan) -> str:
    ending = mark(plan)
    parts = [[f"! {plan.site.name}, AS {plan.site.asn}: the route maps of the network's policy, written by tools/deploy.",
              "frr defaults traditional", *([UNGROUPED] if plan.paths > 1 else []), *([UNTIMED] if plan.staged else [])]]
    parts += judging_parts(plan, ending)
    parts.append([*(f"! {line}" for line in USED[plan.ties]), *router_lines(plan, ending)])
    return "\n!\n".join("\n".join(part) for part in parts) + "\n"


def mark(plan: Plan) -> str:
    """How the names of a file's lists and maps end: in a sum of all that these say, behind a colon, which no other name has. Or not at all."""
    said = "\n".join(line for part in judging_parts(plan, "") for line in part) if plan.staged else ""
    return f":{hashlib.sha256(said.encode()).hexdigest()[:8]}" if plan.staged else ""


def judging_parts(plan: Plan, ending: str) -> list[list[str]]:
    """All by which routes are judged, in an order in which nothing is named before it's there."""
    parts = [[DROPPED, *(f"ip route {prefix} blackhole 254" for prefix in plan.originated())]] if plan.originated() else []
    parts += [list_lines(number, rows, ending) for number, rows in sorted(plan.lists.items())]
    parts.append([OWN_NUMBERS, *number_lines(plan.own_numbers)])
    parts.append([f"bgp large-community-list standard {tag_name(tag)} seq 5 permit {tag}" for tag in matched(plan)])
    parts += [network_lines(network, ending) for network in plan.networks]
    parts.append([f"ip prefix-list longer-{longest} seq 5 permit 0.0.0.0/0 ge {longest + 1}" for longest in longest_taken(plan)])
    if plan.rpki:
        parts.append([ORIGINS, "rpki", f" rpki cache {plan.rpki.address} {plan.rpki.port} preference 1", "exit"])
    for session in plan.sessions:
        parts += map_parts(session, plan, ending)
    return [part for part in parts if part]


def list_lines(number: int, rows: list[Row], ending: str) -> list[str]:
    """FRR keeps no row twice in a list: one that stands before already gets a list of its own, for who reads the file back."""
    seen: set[Row] = set()
    lines = []
    for place, row in enumerate(rows, 1):
        again = f"-again-{place}" if row in seen else ""
        seen.add(row)
        lines.append(f"ip prefix-list list-{number}{again}{ending} seq {5 * place} {row.word} {row.pattern()}")
    return lines


def number_lines(numbers: list[int]) -> Iterator[str]:
    """Each line is one test of a path, so several numbers stand in a line, and not so many that it grows too long."""
    for place, start in enumerate(range(0, len(numbers), 40), 1):
        yield f"bgp as-path access-list own-numbers seq {5 * place} permit _({'|'.join(map(str, numbers[start:start + 40]))})_"


def matched(plan: Plan) -> list[Tag]:
    return sorted({entry.match for block in plan.blocks.values() for entry in block.takes + block.sends if entry.match})


def tag_name(tag: Tag) -> str:
    return f"tag-{tag.asn}-{tag.value}"


def network_lines(network: Network, ending: str) -> list[str]:
    return [f"route-map own-{network.prefix}{ending} permit 10", f" match ip address prefix-list list-{network.number}{ending}",
            f" set large-community {network.tag}", "exit"]


def longest_taken(plan: Plan) -> list[int]:
    """The lengths of the longest prefixes that are taken from peers."""
    return sorted({session.wire.longest for session in plan.sessions if session.wire.longest})


def refusals(session: Session, plan: Plan, ending: str) -> Iterator[list[str]]:
    """The entries in front of those of the maps, which only refuse."""
    name, wire = session.neighbour.name + ending, session.wire
    if wire.shut:
        yield from ([f"route-map {word}-{name} deny 1", "exit"] for word in ("in", "out"))
    if session.neighbour.is_peer:
        yield [f"route-map in-{name} deny 5", " match as-path own-numbers", "exit"]
        if wire.longest:
            yield [f"route-map in-{name} deny 6", f" match ip address prefix-list longer-{wire.longest}", "exit"]
        if plan.is_asked(session):
            yield [f"route-map in-{name} deny 7", " match rpki invalid", "exit"]


def map_parts(session: Session, plan: Plan, ending: str) -> Iterator[list[str]]:
    """The two route maps of a session, an entry a part. Each ends in a refusal."""
    name, is_peer, block = session.neighbour.name + ending, session.neighbour.is_peer, plan.block(session)
    yield from refusals(session, plan, ending)
    for word, entries, more in (("in", block.takes, WASH if is_peer else ()), ("out", block.sends, ())):
        if 10 * len(entries) >= LAST:
            raise Fault(f"maps: the {word} entries of {session.neighbour.name}: FRR numbers entries up to {LAST}, so there may be {LAST // 10}")
        for place, entry in enumerate(entries, 1):
            yield [f"route-map {word}-{name} permit {10 * place}", *entry_lines(entry, ending), *more, "exit"]
        yield [f"route-map {word}-{name} deny {LAST}", "exit"]


def entry_lines(entry: Entry, ending: str) -> Iterator[str]:
    yield f" match ip address prefix-list list-{entry.number}{ending}"
    if entry.match:
        yield f" match large-community {tag_name(entry.match)}"
    if entry.put:
        yield f" set large-community {entry.put}"
        yield f" set local-preference {entry.preference}"


def router_lines(plan: Plan, ending: str) -> Iterator[str]:
    yield from (f"router bgp {plan.site.asn}", f" bgp router-id {plan.site.id}", ASKS_POLICY, *([] if plan.staged else [DUPLICATES]), *ROUTER,
                *([LOWEST_FIRST] if plan.ties is Ties.LOWEST else []), UNCHECKED, *([RELAXED] if plan.paths > 1 else []))
    for session in plan.sessions:
        yield from neighbour_lines(session, plan)
    yield from (" !", " address-family ipv4 unicast")
    yield from announced_lines(plan, ending)
    for session in plan.sessions:
        yield from family_lines(session, ending)
    yield from (f"  maximum-paths {plan.paths}", " exit-address-family", "exit")


def announced_lines(plan: Plan, ending: str) -> Iterator[str]:
    """What the router originates."""
    yield from (f"  network {network.prefix} route-map own-{network.prefix}{ending}" for network in plan.networks)
    yield from (f"  network {prefix}" for prefix in plan.unsent)


def used_lines(session: Session, ending: str) -> Iterator[str]:
    """By which maps a session takes and sends."""
    yield from (f"  neighbor {place_of(session)} route-map {word}-{session.neighbour.name}{ending} {word}" for word in ("in", "out"))


def neighbour_lines(session: Session, plan: Plan) -> Iterator[str]:
    at, other, wire = place_of(session), session.neighbour, session.wire
    if other.asn in RESERVED:
        raise Fault(f"topology: FRR has no session with the AS number of {other.name}")
    yield f" neighbor {at}{' interface' if session.interface else ''} remote-as {other.asn}"
    if session.asn != plan.site.asn:
        yield f" neighbor {at} local-as {session.asn} no-prepend replace-as"
    yield f" neighbor {at} description {other.name}"
    if wire.password:
        yield f" neighbor {at} password {wire.password}"
    if wire.bfd:
        yield f" neighbor {at} bfd"
    if wire.ttl_security:
        yield f" neighbor {at} ttl-security hops {wire.hops}"
    elif wire.hops > 1:
        yield f" neighbor {at} ebgp-multihop {wire.hops}"
    yield f" neighbor {at} enforce-first-as"
    if session.mine and not session.interface:
        yield f" neighbor {at} update-source {session.mine}"
    if wire.hold:
        yield f" neighbor {at} timers {wire.hold // 3} {wire.hold}"
    yield f" neighbor {at} timers connect 5"


def family_lines(session: Session, ending: str) -> Iterator[str]:
    """What is announced comes last, when all else of the session is said."""
    at = place_of(session)
    yield f"  neighbor {at} activate"
    yield f"  neighbor {at} next-hop-self"
    if session.neighbour.is_peer:
        yield f"  neighbor {at} remove-private-AS all"
        yield f"  no neighbor {at} send-community all"
    else:
        yield f"  neighbor {at} send-community large"
    if session.wire.most_prefixes:
        yield f"  neighbor {at} maximum-prefix {session.wire.most_prefixes}"
    if ending:
        yield f"  neighbor {at} soft-reconfiguration inbound"
    yield from used_lines(session, ending)


def place_of(session: Session) -> str | None:
    return session.interface or session.theirs
