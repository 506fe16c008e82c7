"""The runs of tools/lab in the gate, and those that take longer: on which example, with which daemons and scenarios, and what is to come of
each.
"""
from __future__ import annotations

from dataclasses import dataclass
from typing import Union

SEVERAL = 16  # next hops of the runs in which packets are spread
WASHED = "community delete *:*, large-community delete *:*:*"  # what OpenBGPD's rules take off what they take


@dataclass(frozen=True)
class Right:
    """A run in which all is to agree: an example, which of its routers run FRR and which OpenBGPD, and its scenarios, or none for all single
    failures.

    `addresses` is the name of the example's addresses, `paths` how many next hops there may be, and `policy` the name of its policy. Where
    routes may tie by age, all moves for `restless` seconds before something else fails, and any stable outcome is right."""

    name: str
    example: str
    frr: str
    scenarios: tuple[str, ...] = ()
    paths: int = 1
    addresses: str = "addresses"
    restless: int = 0
    openbgpd: str = ""
    policy: str = "policy"


@dataclass(frozen=True)
class Watched:
    """A run of tools/watch on a network to which things are done, each of which it is to tell."""

    name: str
    example: str = "two-exits"


@dataclass(frozen=True)
class Rolled:
    """A change of policy while the network runs: an example, which of its routers run FRR, the name of the new policy, and what fails on the
    way back, or none for all single failures.

    In the stages that are loaded, texts may stand in the place of others in all maps of these stages, and the two in the middle may be
    exchanged; `told` is then what the lab is to tell."""

    name: str
    example: str
    frr: str
    policy: str
    scenarios: tuple[str, ...] = ()
    told: str = ""
    old: str = ""
    new: str = ""
    is_exchanged: bool = False


@dataclass(frozen=True)
class Wrong:
    """A run with one wrong line in a router's file: a text of the file, what stands in its place, and what the lab is to tell."""

    name: str
    example: str
    router: str
    old: str
    new: str
    told: str
    scenarios: tuple[str, ...]
    daemon: str = "bird"
    paths: int = 1


Run = Union[Right, Watched, Rolled, Wrong]

# The longest first, so that none of them is left over at the end.
RUNS: list[Run] = [
    Rolled("rollout-eight-routers", "data-centre", "half", "changed", ("l2-s1-cut", "west-silent")),
    Watched("watch"),
    Right("restless", "data-centre", "half", ("no-failure", "l2-s1-cut", "west-silent"), restless=8),
    Right("three-daemons", "data-centre", "L2,S1,B1", ("no-failure", "l2-s1-cut", "west-silent", "l1-dead", "no-failure"), openbgpd="L1,L3,S2"),
    Right("eight-routers", "data-centre", "half", ("no-failure", "l2-s1-cut", "west-silent", "l1-dead", "no-failure")),
    Right("two-exits", "two-exits", "half"),
    Right("several-paths", "ring", "half", ("west-lost", "west", "servers"), SEVERAL),
    Rolled("rollout", "two-exits", "half", "swapped"),
    Rolled("rollout-reused-tag", "two-exits", "half", "swapped", (), "unstable router R2", "64513:0:3", "64513:0:2"),
    Rolled("rollout-wrong-order", "two-exits", "half", "swapped", (), "UPDATEs were sent, and none is to be", is_exchanged=True),
    Right("over-interfaces", "ring", "half", ("servers", "west-lost"), SEVERAL, "link-local"),
    Right("operators-lines", "two-exits", "half", ("no-failure", "p1-silent"), 1, "operated"),
    Right("operators-lines-frr", "two-exits", "R1", ("no-failure", "p1-silent"), 1, "operated"),
    Right("shut-session", "two-exits", "half", ("no-failure",), 1, "shut"),
    Right("openbgpd", "two-exits", "", ("no-failure", "p1-silent"), openbgpd="all"),
    Right("operators-lines-openbgpd", "two-exits", "R2", ("no-failure", "p1-silent"), 1, "openbgpd", openbgpd="R1"),
    Right("unused-origins", "ring", "B", ("held", "held-without-a", "held"), openbgpd="D", policy="held"),
    Right("shut-session-openbgpd", "two-exits", "R2", ("no-failure",), 1, "shut", openbgpd="R1"),
    Wrong("bird-own-numbers", "ring", "A", "  if bgp_path ~ own_numbers then reject;\n", "", "unstable router A", ("west-lost",)),
    Wrong("bird-communities-taken", "ring", "A", "  wash();\n", "", "router D rank", ("west",)),
    Wrong("bird-communities-told", "ring", "A", "  bgp_large_community.empty;\n  bgp_path", "  bgp_path", "West hears of A", ("servers",)),
    Wrong("bird-private-numbers", "ring", "A", "  bgp_path.delete(", "  if false then bgp_path.delete(", "West hears of A", ("servers",)),
    Wrong("bird-tag", "ring", "A", "(4200000004, 0, 1) ~ bgp_large_community then { mark((4200000001, 0, 1))",
          "(4200000004, 0, 1) ~ bgp_large_community then { mark((4200000001, 0, 9))", "unstable router A", ("servers",)),
    Wrong("bird-network", "ring", "C", "  route 203.0.113.0/24 unreachable;\n", "", "unstable router C own", ("servers",)),
    Wrong("bird-kernel", "ring", "A", "      accept;\n    };\n  };", "      reject;\n    };\n  };", "kernel of A", ("servers",)),
    Wrong("bird-transit", "two-exits", "R1", "filter 'out:P1'\n{\n  reject;", "filter 'out:P1'\n{\n  accept;", "peer P1 has heard", ("p1-silent",)),
    Wrong("bird-older-first", "data-centre", "L3", "prefer older off", "prefer older on", "router L3 rank 1 path L3 S1",
          ("l3-s1-cut", "no-failure")),
    Wrong("bird-link-unchecked", "data-centre", "S1", "64514;\n  check link on", "64514;\n  check link off", "S1-L3", ("l3-s1-cut",)),
    Wrong("frr-own-numbers", "ring", "A", "permit _(4200000001|4200000002|", "permit _(4200000001|", "unstable router A", ("west-lost",), "frr"),
    Wrong("frr-communities-taken", "ring", "B", " set community none\n", "", "router C", ("west",), "frr"),
    Wrong("frr-communities-told", "ring", "B", "  no neighbor 192.0.2.133 send-community all\n", "", "West hears of B", ("servers",), "frr"),
    Wrong("frr-private-numbers", "ring", "B", "  neighbor 192.0.2.133 remove-private-AS all\n", "", "West hears of B", ("servers",), "frr"),
    Wrong("frr-tags-unsent", "ring", "B", "  neighbor 10.0.0.3 send", "  no neighbor 10.0.0.3 send", "router C", ("west",), "frr"),
    Wrong("frr-preference", "ring", "B", "1-4\n set large-community 4200000002:0:4\n set local-preference 101",
          "1-4\n set large-community 4200000002:0:4\n set local-preference 102", "unstable router B", ("west",), "frr"),
    Wrong("frr-network", "ring", "D", "ip route 203.0.113.0/24 blackhole 254\n", "", "kernel of D", ("servers",), "frr"),
    Wrong("frr-transit", "two-exits", "R2", "route-map out-P2 deny", "route-map out-P2 permit", "peer P2 has heard", ("no-failure",), "frr"),
    Wrong("frr-older-first", "data-centre", "L2", " bgp bestpath compare-routerid\n", "", "router L2 rank 1 path L2 S1",
          ("l2-s1-cut", "no-failure"), "frr"),
    Wrong("openbgpd-own-numbers", "two-exits", "R1", "deny quick from 198.51.100.1 AS as-set \"own-numbers\"\n", "", "unstable router R1",
          ("p1-silent",), "openbgpd"),
    Wrong("openbgpd-tag", "two-exits", "R1", "large-community 64512:0:2, localpref 100", "large-community 64512:0:9, localpref 100",
          "unstable router R1", ("p1-silent",), "openbgpd"),
    Wrong("openbgpd-preference", "data-centre", "L3", f"64516:0:1 set {{ {WASHED}, large-community 64514:0:1, localpref 100",
          f"64516:0:1 set {{ {WASHED}, large-community 64514:0:1, localpref 102", "unstable router L3", ("no-failure",), "openbgpd"),
    Wrong("openbgpd-communities-told", "ring", "D", "large-community delete *:*:*, ext-community delete * *, nexthop self }\ndeny quick to 192",
          "ext-community delete * *, nexthop self }\ndeny quick to 192", "peer Shop has heard", ("servers",), "openbgpd"),
    Wrong("openbgpd-network", "ring", "D", "network prefix-set \"own-1-1\"", "network prefix-set \"own-2-2\"", "unstable router D own",
          ("servers",), "openbgpd"),
    Wrong("openbgpd-transit", "two-exits", "R1", "deny quick to 198.51.100.1", "allow quick to 198.51.100.1", "peer P1 has heard",
          ("p1-silent",), "openbgpd"),
    Wrong("openbgpd-older-first", "data-centre", "L3", "rde route-age ignore", "rde route-age evaluate", "router L3 rank 1 path L3 S1",
          ("s1-dead", "no-failure"), "openbgpd"),
    Wrong("openbgpd-exceptions", "abilene", "SNVA", "match from any prefix-set \"list-4-less\" set community delete 0:4\n", "",
          "unstable router SNVA", ("customer-line",), "openbgpd"),
    Wrong("bird-unmerged", "ring", "A", "  merge paths on limit 16;\n", "", "kernel of A sends to", ("west-lost",), paths=SEVERAL),
    Wrong("bird-lengths-left-out", "ring", "A", "  med metric off;\n", "  med metric off;\n  path metric off;\n", "kernel of A sends to",
          ("west",), paths=SEVERAL),
    Wrong("frr-unrelaxed", "ring", "A", " bgp bestpath as-path multipath-relax\n", "", "kernel of A sends to", ("west-lost",), "frr",
          SEVERAL),
    Wrong("frr-one-path", "ring", "A", "  maximum-paths 16\n", "  maximum-paths 1\n", "kernel of A sends to", ("west-lost",), "frr",
          SEVERAL),
]
THREE = {"data-centre": ("L2,S1,B1", "L1,L3,S2"), "ring": ("A", "C,D"), "two-exits": ("R1", "R2")}  # who runs FRR, and who OpenBGPD
# What takes longer; changes of policy on each daemon; and each example with addresses, on each daemon and half and half, in all its single failures.
MORE: list[Run] = [
    Wrong("frr-grouped", "ring", "A", "no zebra nexthop kernel enable\n", "", "kernel of A sends to D,", ("west-lost",), "frr", SEVERAL),
    *(Rolled(f"rollout-{example}-{frr or 'bird'}", example, frr, policy)
      for example, policy in (("two-exits", "swapped"), ("data-centre", "changed")) for frr in ("", "all", "half")),
    *(Right(f"restless-{example}-{frr or 'bird'}", example, frr, (), restless=20)
      for example in ("data-centre", "ring", "two-exits") for frr in ("", "all", "half")),
    Right("two-exits-openbgpd", "two-exits", "", (), addresses="openbgpd", openbgpd="all"),
    Right("abilene-openbgpd", "abilene", "", (), openbgpd="all"),
    Right("abilene-three", "abilene", "third", (), openbgpd="third"),
    *(Right(f"{'restless-' if restless else ''}{example}-three", example, frr, (), openbgpd=openbgpd, restless=restless)
      for example, (frr, openbgpd) in THREE.items() for restless in (0, 20)),
    *(Right(f"{example}-{frr or 'bird'}-{paths}", example, frr, (), paths)
      for example in ("data-centre", "ring", "two-exits") for frr in ("", "all", "half") for paths in (1, SEVERAL)),
]
