"""The file of a plan for BIRD 2: `birdc configure` loads it whole or not at all.

Names have a colon, which no name of a topology has, so none is that of another thing. docs/DEPLOY.md says what each line is for.
"""
from __future__ import annotations

from collections.abc import Iterator

from texts.faults import Fault

from .maps import Entry, Row, Tag, parted
from .plans import USED, Plan, Session, Ties

ENDING = ".bird.conf"

HEAD = """\
# {name}, AS {asn}: the route maps of the network's policy, written by tools/deploy.
router id {id};

protocol device 'own:device' {{
}}

# What BGP finds goes to the kernel. The router's own networks are there too, behind all other routes to them: what they don't
# deliver is dropped, and isn't sent back outside.
protocol kernel 'own:kernel' {{
  metric 0;{merging}
  ipv4 {{
    import none;
    export filter {{
      if proto = "own:static" then krt_metric = 4294967295; else krt_metric = 32;
      accept;
    }};
  }};
}}

# The AS numbers by which the network is known. A path of a peer that has one comes from here.
define own_numbers = [ {own_numbers} ];

# The route has this tag alone from here on.
function mark(lc passed)
{{
  bgp_large_community.empty;
  bgp_large_community.add(passed);
}}

# What a peer says of its route besides the path counts for nothing here.
function wash()
{{
  bgp_community.empty;
  bgp_ext_community.empty;
  bgp_large_community.empty;
  bgp_origin = ORIGIN_IGP;
  unset(bgp_med);
}}

# A peer is told nothing of what is said of the route inside, nor the private numbers.
function bare()
{{
  bgp_community.empty;
  bgp_ext_community.empty;
  bgp_large_community.empty;
  bgp_path.delete([ 64512..65534, 4200000000..4294967294 ]);
}}
"""

TEMPLATE = """\
# {used[0]}
# {used[1]}
template bgp 'own:session' {{
  med metric off;
  igp metric off;
  prefer older {older};
  enforce first as on;
  graceful restart off;
  long lived graceful restart off;
  connect delay time 1;
  connect retry time 5;
  error wait time 5, 60;
}}
"""


RPKI = """\
# Which AS numbers may originate a prefix. While the cache doesn't answer, nothing is known to be wrong.
roa4 table 'own:origins';
protocol rpki 'own:rpki' {{
  roa4 {{ table 'own:origins'; }};
  remote {address} port {port};
}}
"""
RADV = """\
# FRR finds who is behind an interface by what is told there of routers. This one offers no way to anywhere.
protocol radv 'own:radv' {"""
TOLD_SOON = "{ min ra interval 3; max ra interval 4; default lifetime 0; }"
BFD = """\
# Tells soon that nobody is there.
protocol bfd 'own:bfd' {
}
"""
SHUT = ("  # The session is shut: nothing is taken and nothing is sent.", "  reject;")


def bird_text(plan: Plan) -> str:
    parts = [HEAD.format(name=plan.site.name, asn=plan.site.asn, id=plan.site.id, own_numbers=", ".join(map(str, plan.own_numbers)),
                         merging=f"\n  merge paths on limit {plan.paths};" if plan.paths > 1 else "")]
    parts += [list_text(number, rows) for number, rows in sorted(plan.lists.items())]
    if plan.originated():
        parts.append(networks_text(plan))
    if plan.rpki:
        parts.append(RPKI.format(address=plan.rpki.address, port=plan.rpki.port))
    if any(session.interface for session in plan.sessions):
        over = [each.interface for each in plan.sessions if each.interface]
        parts.append("\n".join([RADV, *(f"  interface \"{interface}\" {TOLD_SOON};" for interface in over), "}\n"]))
    if any(session.wire.bfd for session in plan.sessions):
        parts.append(BFD)
    parts.append(TEMPLATE.format(used=USED[plan.ties], older="on" if plan.ties is Ties.OLDEST else "off"))
    parts += [session_text(session, plan) for session in plan.sessions]
    return "\n".join(parts)


def list_text(number: int, rows: list[Row]) -> str:
    """Two sets say a list: what it permits, and less what."""
    denied, permitted = (list(map(pattern, part)) for part in parted(number, rows))
    text = f"define list{number} = {set_text(permitted)};\n"
    return text + (f"define list{number}_less = {set_text(denied)};\n" if denied else "")


def pattern(row: Row) -> str:
    prefix, _, longest = row.pattern().partition(" le ")
    return f"{prefix}{{{prefix.partition('/')[2]},{longest}}}" if longest else prefix


def set_text(patterns: list[str]) -> str:
    short = f"[ {', '.join(patterns)} ]"
    return short if len(short) <= 80 else "[\n    " + ",\n    ".join(patterns) + "\n  ]"


def tag_text(tag: Tag | None) -> str:
    return f"({tag.asn}, 0, {tag.value})" if tag else ""


def listed(plan: Plan, number: int) -> str:
    less = any(row.word == "deny" for row in plan.lists[number])
    return f"net ~ list{number}" + (f" && net !~ list{number}_less" if less else "")


def matching(plan: Plan, entry: Entry) -> str:
    return listed(plan, entry.number) + (f" && {tag_text(entry.match)} ~ bgp_large_community" if entry.match else "")


def networks_text(plan: Plan) -> str:
    lines = ["filter 'own:networks'", "{"]
    lines += [f"  if net = {network.prefix} && {listed(plan, network.number)} then {{ mark({tag_text(network.tag)}); accept; }}"
              for network in plan.networks]
    lines += [f"  if net = {prefix} then accept;" for prefix in plan.unsent]
    lines += ["  reject;", "}", "", "protocol static 'own:static' {", "  ipv4 { import filter 'own:networks'; };"]
    lines += [f"  route {prefix} unreachable;" for prefix in plan.originated()]
    return "\n".join(lines) + "\n}\n"


def session_text(session: Session, plan: Plan) -> str:
    if not session.mine:
        raise Fault(f"addresses: the link {plan.site.name} {session.neighbour.name} has no addresses: "
                    "a session over interfaces needs `link_locals` for BIRD")
    return "\n".join([*takes_lines(session, plan), *sends_lines(session, plan), *protocol_lines(session)]) + "\n"


def takes_lines(session: Session, plan: Plan) -> Iterator[str]:
    yield from (f"filter 'in:{session.neighbour.name}'", "{")
    if session.wire.shut:
        yield from SHUT
    if session.neighbour.is_peer:
        yield "  if bgp_path ~ own_numbers then reject;"
        if session.wire.longest:
            yield f"  if net.len > {session.wire.longest} then reject;"
        if plan.is_asked(session):
            yield "  if roa_check('own:origins', net, bgp_path.last_nonaggregated) = ROA_INVALID then reject;"
        yield "  wash();"
    for entry in plan.block(session).takes:
        yield f"  if {matching(plan, entry)} then {{ mark({tag_text(entry.put)}); bgp_local_pref = {entry.preference}; accept; }}"
    yield from ("  reject;", "}", "")


def sends_lines(session: Session, plan: Plan) -> Iterator[str]:
    word = "{ bare(); accept; }" if session.neighbour.is_peer else "accept;"
    yield from (f"filter 'out:{session.neighbour.name}'", "{")
    if session.wire.shut:
        yield from SHUT
    for entry in plan.block(session).sends:
        yield f"  if {matching(plan, entry)} then {word}"
    yield from ("  reject;", "}", "")


def protocol_lines(session: Session) -> Iterator[str]:
    name, wire = session.neighbour.name, session.wire
    yield f"protocol bgp 'bgp:{name}' from 'own:session' {{"
    yield f"  local {session.mine} as {session.asn};"
    at = f"%'{session.interface}'" if session.interface else ""
    yield f"  neighbor {session.theirs}{at} as {session.neighbour.asn};"
    yield f"  multihop {wire.hops};" if wire.hops > 1 else "  check link on;"
    if wire.ttl_security:
        yield "  ttl security on;"
    if wire.bfd:
        yield "  bfd on;"
    if wire.password:
        yield f"  password \"{wire.password}\";"
    if wire.hold:
        yield f"  hold time {wire.hold};"
    yield "  ipv4 {"
    yield f"    import filter 'in:{name}';"
    yield f"    export filter 'out:{name}';"
    if wire.most_prefixes:
        yield f"    import limit {wire.most_prefixes} action disable;"
    if session.interface:
        yield "    extended next hop on;"
    yield from ("    next hop self;", "  };", "}")
