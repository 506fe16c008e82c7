"""Addresses for the links of a network, given out in order from one block: the text ADDRESSES."""
from __future__ import annotations

import ipaddress
import json

from texts.faults import Fault
from texts.prefixes import is_prefix
from texts.topology import Topology


def numbered(topology: Topology, block: str) -> str:
    """Two addresses for each link in the order of the topology, as a network of two (RFC 3021): the same for the same texts."""
    if not is_prefix(block):
        raise Fault(f"--number: no prefix: {block}")
    room = ipaddress.IPv4Network(block)
    if room.num_addresses < 2 * len(topology.links):
        raise Fault(f"--number: {block} has {room.num_addresses} addresses, and {len(topology.links)} links need {2 * len(topology.links)}")
    first = room.network_address
    entries = [{"ends": link, "addresses": [str(first + 2 * place), str(first + 2 * place + 1)]} for place, link in enumerate(topology.links)]
    return '{"links":[' + ",".join(f"\n  {json.dumps(entry)}" for entry in entries) + "]}\n"
