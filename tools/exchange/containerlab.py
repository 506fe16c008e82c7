"""The file of a network in containerlab: read as far as its plain form goes, and written for routers that run FRR."""
from __future__ import annotations

import json
from typing import Any

from deploying.addresses import Addresses
from texts.faults import Fault
from texts.topology import Site, Topology

from . import plain_yaml
from .graph import Graph

OUTSIDE = ("host", "mgmt-net", "macvlan")  # what stands in the place of a node that is none
IMAGE = "quay.io/frrouting/frr:10.2.1"
DAEMONS = "zebra=yes\nbgpd=yes\nstaticd=yes\nvtysh_enable=yes\nzebra_options=\"-A 127.0.0.1\"\nbgpd_options=\"-A 127.0.0.1\"\n"


def part(value: Any, key: str, kind: type) -> Any:
    found = value.get(key) if isinstance(value, dict) else None
    if found == "" or found is None:
        found = kind()
    if not isinstance(found, kind):
        raise Fault(f"containerlab: `{key}` isn't of its form")
    return found


def read(text: str) -> Graph:
    """The graph of a file: its nodes with their labels, and the links of its endpoints."""
    topology = part(plain_yaml.read(text), "topology", dict)
    graph = Graph()
    for name, node in part(topology, "nodes", dict).items():
        attributes = {key: value for key, value in (node or {}).items() if isinstance(value, str)} if isinstance(node, dict) else {}
        labels = part(node, "labels", dict) if isinstance(node, dict) else {}
        graph.node(name, attributes | {key: value for key, value in labels.items() if isinstance(value, str)})
    for place, link in enumerate(part(topology, "links", list), 1):
        names = ends_of(link)
        unknown = [name for name in names if name not in graph.nodes]
        if len(names) == 1 or any(name in OUTSIDE for name in unknown):
            graph.others.append(f"link {place} is left out: it leads to no other node")
        elif not names:
            raise Fault(f"containerlab: link {place}: no two endpoints")
        elif unknown:
            raise Fault(f"containerlab: link {place}: no node {unknown[0]}")
        else:
            graph.link(*names)
    return graph


def ends_of(link: Any) -> list[str]:
    """The nodes at the ends of a link: each end is a text `NODE:INTERFACE`, or in the long form an object. A link that leads elsewhere has
    one `endpoint`."""
    if not isinstance(link, dict):
        return []
    ends = [link["endpoint"]] if "endpoint" in link else part(link, "endpoints", list)
    names = [end.partition(":")[0] if isinstance(end, str) else part(end, "node", str) for end in ends]
    return names if all(names) and len(names) == (1 if "endpoint" in link else 2) else []


def interfaces(topology: Topology, addresses: Addresses) -> dict[tuple[str, str], str]:
    """The interface of each end of each link: the one that ADDRESSES names, or eth1, eth2 and so on at each site."""
    found, counts = {}, dict.fromkeys(topology.sites, 0)
    for one, two in topology.links:
        for site, other in ((one, two), (two, one)):
            counts[site] += 1
            found[site, other] = addresses.wire(one, two).interfaces.get(site) or f"eth{counts[site]}"
    return found


def node_lines(topology: Topology, addresses: Addresses, site: Site, names: dict[tuple[str, str], str], folder: str) -> list[str]:
    lines = [f"    {json.dumps(site.name)}:", "      kind: linux", f"      image: {IMAGE}", "      labels:", f"        asn: {site.asn}",
             f"        id: {site.id}"]
    if site.is_peer:
        lines.append("        peer: true")
    else:
        lines += ["      binds:", f"        - {json.dumps(f'{folder}/daemons:/etc/frr/daemons')}",
                  f"        - {json.dumps(f'{folder}/{site.name}.frr.conf:/etc/frr/frr.conf')}"]
    commands = []
    for other in topology.neighbours(site.name):
        at = addresses.wire(site.name, other.name).addresses
        if at:
            commands.append(f"ip addr add {at[site.name]} peer {at[other.name]} dev {names[site.name, other.name]}")
    return lines + (["      exec:", *(f"        - {json.dumps(command)}" for command in commands)] if commands else [])


def text_of(topology: Topology, addresses: Addresses, folder: str) -> str:
    """The file for a network whose routers load the files that tools/deploy wrote for FRR. Peers get their addresses alone."""
    names = interfaces(topology, addresses)
    lines = ["# Written by tools/export. The routers run the files of tools/deploy; what the peers run is theirs.",
             "name: propane", "topology:", "  nodes:"]
    for site in topology.sites.values():
        lines += node_lines(topology, addresses, site, names, folder)
    lines.append("  links:")
    for one, two in topology.links:
        lines.append(f"    - endpoints: [{json.dumps(f'{one}:{names[one, two]}')}, {json.dumps(f'{two}:{names[two, one]}')}]")
    return "\n".join(lines) + "\n"
