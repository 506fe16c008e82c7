"""All that one router's file says, whichever daemon loads it.

A tag is a large community (RFC 8092) with the middle part 0 on the routers too, so what routers show is read as it is. Ties go by
identifier, whichever route came first, as in `replay`. The proof leaves ties free, and rest needs only that they are broken steadily.
Files with another rule keep the policy too; then what is recorded can be judged, but not compared with `replay`.

Tags are numbered anew by each compilation, so a router must not read those of a neighbour with older files: unless its configuration was
made to take over from the old one (`renew`), a changed policy is loaded with new passwords. Numbers of editions in the tags would do as
well, but would be one more thing that each reader of recorded routes has to know.

Origins at which no path ends are told by the policy. The maps don't name them, and `evidence` and `promises` name no origin of a prefix
that no statement governs. An `originate` item does, in the operator's own words. What the policy says isn't judged: a network of the maps
that it doesn't have ends the run.
"""
from __future__ import annotations

from collections.abc import Mapping, Sequence
from dataclasses import dataclass, field
from enum import Enum

from texts.faults import Fault
from texts.policy import Policy
from texts.prefixes import in_order
from texts.topology import Site, Topology

from .addresses import Addresses, Cache, Wire
from .maps import Block, Lists, Maps, Network


@dataclass(frozen=True)
class Session:
    """A session as one end sees it: its own AS number and address, or interface, on it, and the other end's address.

    Of a session over interfaces the addresses are link-local ones, where these are told.
    """

    neighbour: Site
    asn: int
    mine: str | None
    theirs: str | None
    interface: str | None
    wire: Wire


class Ties(Enum):
    """Which of the routes that tie in preference and in length a router uses: the one of the neighbour with the lowest identifier, as the
    program's reports have it, or the oldest one, as most routers do by themselves."""

    LOWEST = "lowest"
    OLDEST = "oldest"


# What a file says of the route that is used, in two lines.
USED = {
    Ties.LOWEST: ("Of the routes of the highest preference the one with the shortest path is used, and of these the one of the neighbour with the",
                  "lowest identifier. A session that is lost takes its routes with it at once."),
    Ties.OLDEST: ("Of the routes of the highest preference the one with the shortest path is used, and of these the oldest one.",
                  "A session that is lost takes its routes with it at once."),
}


@dataclass(frozen=True)
class Choices:
    """What all files of a network say besides maps and addresses.

    `paths` is the most next hops that packets to a prefix are spread over, `ties` which of several routes is used. `originated` has
    the prefixes that each router originates, where they are told: the maps say nothing of an origin at which no path of the policy
    ends. Files are `staged` where a running daemon may take other ones of their kind, without a session going down.
    """

    paths: int = 1
    ties: Ties = Ties.LOWEST
    originated: Mapping[str, Sequence[str]] = field(default_factory=dict)
    staged: bool = False

    @staticmethod
    def of(paths: int, ties: Ties, policy: Policy | None, topology: Topology, staged: bool = False) -> Choices:
        """These, where a policy may be given."""
        return Choices(paths, ties, policy.originated(router.name for router in topology.routers) if policy else {}, staged)


@dataclass
class Plan:
    """A router with its lists, its networks, its sessions in order of location, and for each neighbour what is taken and sent.

    `unsent` are prefixes that it originates and tells nobody. `own_numbers` are the AS numbers by which the network is known, inside and
    outside. `paths` is the most next hops of a route, and `ties` says which route is used of those that tie. `staged` is as in `Choices`.
    """

    site: Site
    lists: Lists
    networks: list[Network]
    unsent: list[str]
    sessions: list[Session]
    blocks: Mapping[str, Block]
    own_numbers: list[int]
    paths: int
    ties: Ties
    rpki: Cache | None
    staged: bool

    def is_asked(self, session: Session) -> bool:
        """Whether the cache of RPKI's is asked for what is taken over a session."""
        return bool(self.rpki and session.neighbour.is_peer)

    def originated(self) -> list[str]:
        """All prefixes that it originates."""
        return [network.prefix for network in self.networks] + self.unsent

    def block(self, session: Session) -> Block:
        return self.blocks[session.neighbour.name]


def session_of(addresses: Addresses, site: Site, other: Site) -> Session:
    wire = addresses.wire(site.name, other.name)
    asn = addresses.public_as if other.is_peer and addresses.public_as else site.asn
    addresses_of = wire.link_locals if wire.interfaces else wire.addresses
    return Session(other, asn, addresses_of.get(site.name), addresses_of.get(other.name), wire.interfaces.get(site.name), wire)


def own_numbers(topology: Topology, addresses: Addresses) -> list[int]:
    return topology.router_numbers() + ([addresses.public_as] if addresses.public_as else [])


def unsent_of(router: str, networks: Sequence[Network], choices: Choices) -> list[str]:
    """The prefixes that a router originates and of which its maps say nothing."""
    told = choices.originated.get(router)
    if told is None:
        return []
    sent = {network.prefix for network in networks}
    for prefix in sorted(sent - set(told)):
        raise Fault(f"policy: {router} doesn't originate {prefix}, of which its maps say that it does")
    return in_order(prefix for prefix in told if prefix not in sent)


def plan_of(topology: Topology, maps: Maps, addresses: Addresses, choices: Choices, site: Site) -> Plan:
    """The plan of a router."""
    mine = maps.routers[site.name]
    sessions = [session_of(addresses, site, other) for other in topology.neighbours(site.name)]
    return Plan(site, maps.lists, mine.networks, unsent_of(site.name, mine.networks, choices), sessions, mine.blocks,
                own_numbers(topology, addresses), choices.paths, choices.ties, addresses.rpki, choices.staged)
