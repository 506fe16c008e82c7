"""A topology of a graph: lawful names, AS numbers and identifiers, given out in order where there are none."""
from __future__ import annotations

import fnmatch
import ipaddress
import json
import re
import unicodedata
from collections.abc import Iterator, Sequence
from dataclasses import dataclass

from texts.faults import Fault
from texts.tokens import WORDS
from texts.topology import MOST_NUMBER, NAME, is_private

from .graph import Graph

ROUTER_NUMBERS = (range(64512, 65535),)  # for private use (RFC 6996)
PEER_NUMBERS = (range(64496, 64512), range(65536, MOST_NUMBER))  # the first ones are for documents (RFC 5398)
FIRST_ID = ipaddress.IPv4Address("10.255.0.1")
NUMBER_KEYS, ID_KEYS, PEER_KEYS = ("asn", "as", "as_number"), ("id", "router_id", "router-id"), ("peer", "external", "role", "type")
MOST_ROUTERS, MOST_PEERS, MOST_LINKS, MOST_NAME = 512, 256, 8192, 32


@dataclass(frozen=True)
class Lawful:
    """The text of a topology, and what became of what stood there: a line for each name that had to change, and each link left out."""

    text: str
    changes: list[str]


def lawful_name(name: str, taken: set[str]) -> str:
    """A lawful name that looks like a given one, and that no other has."""
    plain = unicodedata.normalize("NFKD", name.replace("ß", "ss")).encode("ascii", "ignore").decode()
    made = re.sub(r"[^A-Za-z0-9_.-]+", "-", plain).strip("-")
    made = (made if made[:1].isalpha() else f"N{made}")[:MOST_NAME]
    number, found = 1, made
    while found in taken or found in WORDS:
        number += 1
        end = f"-{number}"
        found = made[:MOST_NAME - len(end)] + end
    return found


def names_of(graph: Graph) -> dict[str, str]:
    """The lawful name of each node. A name that is lawful stays, so those come first."""
    found = {name: name for name in graph.nodes if NAME.fullmatch(name) and name not in WORDS}
    taken = set(found.values())
    for name in graph.nodes:
        if name not in found:
            found[name] = lawful_name(name, taken)
            taken.add(found[name])
    return found


def first_of(attributes: dict[str, str], keys: Sequence[str]) -> str:
    """What stands under the first of these keys that is there, whatever their capitals."""
    small = {key.lower(): value for key, value in attributes.items()}
    return next((small[key] for key in keys if small.get(key)), "")


def is_peer(name: str, attributes: dict[str, str], patterns: Sequence[str]) -> bool:
    """Whether a node is a peer: by its name, by a word beside it, or by an AS number that isn't private."""
    said = first_of(attributes, PEER_KEYS).lower()
    asn = first_of(attributes, NUMBER_KEYS)
    return any(fnmatch.fnmatchcase(name, pattern) for pattern in patterns) or said in ("true", "yes", "1", "peer", "external") \
        or asn.isdigit() and not is_private(int(asn))


def numbers(taken: set[int], is_peers: bool) -> Iterator[int]:
    """AS numbers that aren't taken, in order."""
    spans: tuple[range, ...] = PEER_NUMBERS if is_peers else ROUTER_NUMBERS
    return (number for span in spans for number in span if number not in taken)


def identifiers(taken: set[str]) -> Iterator[str]:
    return (found for place in range(2**16) if (found := str(FIRST_ID + place)) not in taken)


def is_address(text: str) -> bool:
    try:
        return str(ipaddress.IPv4Address(text)) == text != "0.0.0.0"
    except ValueError:
        return False


def links_of(graph: Graph, names: dict[str, str], peers: set[str], changes: list[str]) -> list[list[str]]:
    """The links between different sites, each once. What is left out is told."""
    found: list[list[str]] = []
    seen = set()
    for one, two in graph.links:
        pair = frozenset((one, two))
        if one == two or pair <= peers or pair in seen:
            why = "joins a site to itself" if one == two else "joins two peers" if pair <= peers else "is there already"
            changes.append(f"link {names[one]} {names[two]} is left out: it {why}")
        else:
            found.append([names[one], names[two]])
        seen.add(pair)
    return found


def topology_of(graph: Graph, patterns: Sequence[str]) -> Lawful:
    """The topology of a graph. `patterns` name peers besides, as a shell names files."""
    names = names_of(graph)
    changes = [f"name {name!r} is now {lawful}" for name, lawful in names.items() if name != lawful] + graph.others
    peers = {name for name, attributes in graph.nodes.items() if is_peer(name, attributes, patterns)}
    links = links_of(graph, names, peers, changes)
    for kind, count, most in (("routers", len(graph.nodes) - len(peers), MOST_ROUTERS), ("peers", len(peers), MOST_PEERS),
                              ("links", len(links), MOST_LINKS)):
        if count > most:
            raise Fault(f"{count} {kind}, and a topology has at most {most}")
    asns = {name: first_of(attributes, NUMBER_KEYS) for name, attributes in graph.nodes.items()}
    ids = {name: first_of(attributes, ID_KEYS) for name, attributes in graph.nodes.items()}
    known = [int(asn) for asn in asns.values() if asn.isdigit()]
    taken, taken_ids = set(known), {each for each in ids.values() if is_address(each)}
    counters: dict[bool, Iterator[int]] = {is_peers: numbers(taken, is_peers) for is_peers in (False, True)}
    free = identifiers(taken_ids)
    sites: dict[bool, list[dict[str, object]]] = {False: [], True: []}
    for name in graph.nodes:
        side = name in peers
        asn = int(asns[name]) if asns[name].isdigit() and (side or is_private(int(asns[name]))) else next(counters[side])
        sites[side].append({"name": names[name], "asn": asn, "id": ids[name] if is_address(ids[name]) else next(free)})
    return Lawful(text_of(sites[False], sites[True], links), changes)


def text_of(routers: list[dict[str, object]], peers: list[dict[str, object]], links: list[list[str]]) -> str:
    """The text of a topology, a line a site or link."""
    lists: dict[str, Sequence[object]] = {"routers": routers, "peers": peers, "links": links}
    parts = [f'"{key}":[{",".join(chr(10) + "  " + json.dumps(item) for item in items)}]' for key, items in lists.items()]
    return "{" + ",\n ".join(parts) + "}\n"
