"""The file of a plan for OpenBGPD: `bgpctl reload` loads it whole or not at all.

Of its rules the first with `quick` that has a route decides, and each `match` before it has marked the route. docs/DEPLOY.md says what
each line is for, and what OpenBGPD can't say: that is refused.

Routes of a list with exceptions are marked with a community of the file's own. A rule asks for a set, and never for what isn't in one. To
write out what is left of a list without its exceptions would take up to 64 prefixes for each of them. Nobody can forge a mark, since all
communities are washed off before, and peers of the lab try.

What OpenBGPD can't say is refused entry by entry: a file that sent peers private AS numbers, or left an entry out, would be one for
another policy.
"""
from __future__ import annotations

from collections.abc import Iterator, Sequence

from texts.faults import Fault

from .maps import Entry, Lists, Network, Row, Tag, parted, permits
from .plans import USED, Plan, Session, Ties

ENDING = ".openbgpd.conf"
RESERVED = 23456  # RFC 6793; OpenBGPD has no session with it
LONGEST_PASSWORD = 79
OWN_FIRST = 2 ** 32 - 1  # the local preference of the router's own networks

HEAD = """\
# {name}, AS {asn}: the route maps of the network's policy, written by tools/deploy.
AS {asn}
router-id {id}
connect-retry 5
# {used[0]}
# {used[1]}
rde route-age {age}
"""
OWN_NUMBERS = "# The AS numbers by which the network is known. A path of a peer that has one comes from here."
ORIGINS = "# Which AS numbers may originate a prefix. While the cache doesn't answer, nothing is known to be wrong."
WASH = """\
# What a neighbour says of its route besides the path and the tag counts for nothing here.
match from any set { community delete *:*, ext-community delete * *, metric 0, origin igp }"""
MARKS = "# Until it is taken or sent, a route carries the number of each list with exceptions that it is in."
UNMARKED, UNTAGGED, UNSAID = "community delete *:*", "large-community delete *:*:*", "ext-community delete * *"
SHUT = "# The session is shut: nothing is taken and nothing is sent."


def openbgpd_text(plan: Plan) -> str:
    if plan.paths > 1:
        raise Fault(f"--paths: OpenBGPD sends packets over one next hop: {plan.site.name}")
    parts = [HEAD.format(name=plan.site.name, asn=plan.site.asn, id=plan.site.id, used=USED[plan.ties],
                         age="evaluate" if plan.ties is Ties.OLDEST else "ignore")]
    parts.append(f"{OWN_NUMBERS}\nas-set \"own-numbers\" {set_text(list(map(str, plan.own_numbers)))}\n")
    parts += [list_text(number, rows) for number, rows in sorted(plan.lists.items())]
    if plan.rpki:
        parts.append(f"{ORIGINS}\nrtr {plan.rpki.address} {{\n  port {plan.rpki.port}\n}}\n")
    if plan.originated():
        parts.append("\n".join(network_lines(plan)) + "\n")
    parts += ["\n".join(neighbour_lines(session, plan)) + "\n" for session in plan.sessions]
    parts.append("\n".join(mark_lines(plan.lists)) + "\n")
    parts += ["\n".join((*takes_lines(session, plan), *sends_lines(session, plan))) + "\n" for session in plan.sessions]
    return "\n".join(parts)


def set_text(elements: Sequence[str]) -> str:
    short = f"{{ {', '.join(elements)} }}"
    return short if len(short) <= 80 else "{\n  " + ",\n  ".join(elements) + "\n}"


def list_text(number: int, rows: list[Row]) -> str:
    """Two sets say a list: what it permits, and less what."""
    denied, permitted = parted(number, rows)
    text = prefix_set(f"list-{number}", permitted)
    return text + (prefix_set(f"list-{number}-less", denied) if denied else "")


def prefix_set(name: str, rows: Sequence[Row]) -> str:
    return f"prefix-set \"{name}\" {set_text([row.pattern().replace(' le ', ' maxlen ') for row in rows])}\n"


# ---- networks


def network_lines(plan: Plan) -> Iterator[str]:
    """The router's own networks: a set for those of one list and one tag, so that who reads the file back knows the list."""
    groups: dict[tuple[int, Tag], list[Network]] = {}
    for network in plan.networks:
        if not permits(plan.lists[network.number], network.prefix):
            raise Fault(f"maps: router {plan.site.name}: list {network.number} doesn't permit the network {network.prefix}")
        groups.setdefault((network.number, network.tag), []).append(network)
    names = [f"own-{number}-{place}" for place, (number, _) in enumerate(groups, 1)]
    for name, networks in zip(names, groups.values()):
        yield prefix_set(name, [Row.of("permit", network.prefix) for network in networks]).rstrip("\n")
    for name, (_, tag) in zip(names, groups):
        yield f"network prefix-set \"{name}\" set {{ localpref {OWN_FIRST}, large-community {tag} }}"
    yield from (f"network {prefix} set localpref {OWN_FIRST}" for prefix in plan.unsent)


# ---- sessions


def neighbour_lines(session: Session, plan: Plan) -> Iterator[str]:
    other, wire = session.neighbour, session.wire
    refuse_session(session, plan)
    yield from (f"neighbor {session.theirs} {{", f"  descr \"{other.name}\"", f"  remote-as {other.asn}")
    if session.asn != plan.site.asn:
        yield f"  local-as {session.asn}"
    yield f"  local-address {session.mine}"
    if wire.hops > 1:
        yield f"  multihop {wire.hops}"
    if wire.ttl_security:
        yield "  ttl-security yes"
    if wire.hold:
        yield f"  holdtime {wire.hold}"
    if wire.most_prefixes:
        yield f"  max-prefix {wire.most_prefixes}"
    if wire.password:
        yield f"  tcp md5sig password \"{wire.password}\""
    yield from ("  enforce neighbor-as yes", "  enforce local-as yes", "  announce restart no", "}")


def refuse_session(session: Session, plan: Plan) -> None:
    """What OpenBGPD can't say of a session."""
    link, wire = f"addresses: the link {plan.site.name} {session.neighbour.name}", session.wire
    if session.neighbour.asn == RESERVED:
        raise Fault(f"topology: OpenBGPD has no session with the AS number of {session.neighbour.name}")
    if wire.interfaces:
        raise Fault(f"{link} has no addresses: OpenBGPD sends no route of IPv4 over a session of IPv6")
    if wire.bfd:
        raise Fault(f"{link}: `bfd`: OpenBGPD has none")
    if wire.password and len(wire.password) > LONGEST_PASSWORD:
        raise Fault(f"{link}: `password`: OpenBGPD takes {LONGEST_PASSWORD} letters")


# ---- rules


def is_marked(lists: Lists, number: int) -> bool:
    """Whether a list has exceptions. No rule asks that a route is not in a set, so a mark says it."""
    return any(row.word == "deny" for row in lists[number])


def mark(number: int) -> str:
    """The community that says that a route is in a list. None comes from elsewhere: all are washed off before."""
    return f"community {number >> 16}:{number & 65535}"


def mark_lines(lists: Lists) -> Iterator[str]:
    yield from WASH.split("\n")
    marked = [number for number in sorted(lists) if is_marked(lists, number)]
    if marked:
        yield MARKS
    for way in ("from", "to"):
        for number in marked:
            yield f"match {way} any prefix-set \"list-{number}\" set {mark(number)}"
            yield f"match {way} any prefix-set \"list-{number}-less\" set {mark(number).replace(' ', ' delete ')}"


def matching(plan: Plan, entry: Entry) -> str:
    listed = mark(entry.number) if is_marked(plan.lists, entry.number) else f"prefix-set \"list-{entry.number}\""
    return listed + (f" large-community {entry.match}" if entry.match else "")


def takes_lines(session: Session, plan: Plan) -> Iterator[str]:
    at, wire = f"from {session.theirs}", session.wire
    yield f"# What is taken from {session.neighbour.name}, and what is sent to it."
    if wire.shut:
        yield from (SHUT, f"deny quick {at}")
    if session.neighbour.is_peer:
        yield f"deny quick {at} AS as-set \"own-numbers\""
        if wire.longest:
            yield f"deny quick {at} prefix 0.0.0.0/0 prefixlen > {wire.longest}"
        if plan.is_asked(session):
            yield f"deny quick {at} ovs invalid"
    seen = set()
    for place, entry in enumerate(plan.block(session).takes, 1):
        if (entry.number, entry.match) in seen:
            raise unsaid(session, plan, "in", place, entry, "OpenBGPD makes one rule of it and of one before that asks for the same")
        seen.add((entry.number, entry.match))
        given = f"{UNMARKED}, {UNTAGGED}, large-community {entry.put}, localpref {entry.preference}"
        yield f"allow quick {at} {matching(plan, entry)} set {{ {given} }}"
    yield f"deny quick {at}"


def sends_lines(session: Session, plan: Plan) -> Iterator[str]:
    at, is_peer = f"to {session.theirs}", session.neighbour.is_peer
    if session.wire.shut:
        yield f"deny quick {at}"
    taken = {entry.put for block in plan.blocks.values() for entry in block.takes}
    for place, entry in enumerate(plan.block(session).sends, 1):
        if is_peer and entry.match in taken:
            raise unsaid(session, plan, "out", place, entry,
                         "OpenBGPD can't take private AS numbers out of a path, and the peer would see them")
        given = f"{UNMARKED}, {UNTAGGED}, {UNSAID}, nexthop self" if is_peer else f"{UNMARKED}, nexthop self"
        yield f"allow quick {at} {matching(plan, entry)} set {{ {given} }}"
    yield f"deny quick {at}"


def unsaid(session: Session, plan: Plan, word: str, place: int, entry: Entry, why: str) -> Fault:
    """The fault on an entry that OpenBGPD can't say, with its line of the maps."""
    other = session.neighbour
    at = f"router {plan.site.name} {'peer' if other.is_peer else 'neighbor'} {other.name}"
    return Fault(f"maps: {at}: {word} {10 * place} {entry}: {why}")
