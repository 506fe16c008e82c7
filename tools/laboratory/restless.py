"""A network that isn't left in peace before it is asked: links fail and come back, sessions of peers fall silent, peers change their paths.

Routers of FRR send late meanwhile, and take many messages at once (RFC 4271, 9.2.1.1: MinRouteAdvertisementInterval). What all this
ends in is one of the outcomes that `propane audit` calls stable, and no peer hears at any time what none may hear.
"""
from __future__ import annotations

import random
import time

from texts.scenario import Scenario, pairs

from .daemons import Frr
from .network import Network

MOST_CUTS, MOST_PREPENDS = 2, 4
PAUSES = 0.1, 1.5  # seconds between two changes
SLOW_LINES = ("advertisement-interval 2",)  # of each neighbour, in seconds
BATCHES = ("coalesce-time 1500", "read-quanta 10", "write-quanta 64")


def slow_down(network: Network) -> None:
    """Has each router of FRR send late, and choose over many messages at once."""
    for name, daemon in network.daemons.items():
        if isinstance(daemon, Frr):
            lines = [*(f"neighbor {at} {line}" for at in daemon.names for line in SLOW_LINES), *BATCHES]
            asn = network.topology.sites[name].asn
            daemon.vtysh(*(word for line in ("configure terminal", f"router bgp {asn}", *lines) for word in ("-c", line)))


def stir(network: Network, seconds: float, chance: random.Random) -> int:
    """Changes what fails and what peers say for so long, never waiting for rest. Returns how many changes were made."""
    end, changes = time.monotonic() + seconds, 0
    while time.monotonic() < end:
        network.make(failing(network, chance))
        for peer in network.live_peers():
            network.prepends[peer] = chance.randrange(MOST_PREPENDS)
            network.peers[peer].configure(network.peer_file(network.topology.sites[peer]))
        changes += 1
        time.sleep(chance.uniform(*PAUSES))
    return changes


def failing(network: Network, chance: random.Random) -> Scenario:
    """Some links that are cut, and perhaps a session over which a peer is silent."""
    links, sessions = network.topology.links, [link for link in network.topology.links if network.topology.is_to_a_peer(link)]
    cuts = chance.sample(links, min(len(links), chance.randrange(MOST_CUTS + 1)))
    silent = chance.sample(sessions, min(len(sessions), chance.randrange(2)))
    return Scenario("", dead_links=pairs(cuts), silent=pairs(silent))
