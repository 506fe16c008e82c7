"""What routers answer of a route, as it was recorded, and the tables that are made of it: tools/tables says which files it takes.

An answer that isn't recognised whole is no answer.
"""
from __future__ import annotations

import json
import os
import re
from collections.abc import Callable, Collection, Mapping, Sequence
from dataclasses import dataclass
from typing import Any, TypeVar, Union

from .topology import MOST_NUMBER, Site, Topology

NUMBER = r"(?:0|[1-9][0-9]{0,9})"
# What birdc says before its answer.
GREETING = re.compile(r"BIRD [\w.~+-]+ ready\.|Access restricted")
# A route as BIRD shows it: the prefix, the way it is sent, its protocol, `*` where it is the best one, its preference, its origin.
ROUTE = re.compile(r"(?P<prefix>[0-9.]+/[0-9]+) +[a-z]+ \[[^]]*\](?P<best> \*)? \([^)]*\)(?: \[[^]]*\])?")
TABLE = re.compile(r"Table \S+:")
ATTRIBUTE = re.compile(r"\t(?P<name>Type|BGP\.\w+):(?P<value>.*)")
LARGE = re.compile(rf"\(({NUMBER}), ({NUMBER}), ({NUMBER})\)")


class Unknown(Exception):
    """An answer, a file or a text that isn't one of those that are read; it says why."""


Place = Union[int, str]  # a number on an AS path; what else stands there stays a text
Community = tuple[int, ...]
Kind = TypeVar("Kind")


@dataclass(frozen=True)
class Route:
    """A recorded route: its prefix, its AS path, its local preference and its large communities."""

    prefix: str
    path: Sequence[Place]
    preference: int
    communities: Sequence[Community]


def number(text: str) -> int:
    """The number that a text spells."""
    if not re.fullmatch(NUMBER, text) or int(text) > MOST_NUMBER:
        raise Unknown(f"{text!r} is no number of four octets")
    return int(text)


def is_number(value: object) -> bool:
    """Whether a value of JSON is a number of four octets."""
    return isinstance(value, int) and not isinstance(value, bool) and 0 <= value <= MOST_NUMBER


def numbers_of(path: str) -> list[Place]:
    """The numbers of an AS path as BIRD and OpenBGPD show it. A set of them, {1 2}, has no place on a path, and stays a text."""
    return [number(part) if part.isdigit() else part for part in re.findall(r"\{[^}]*\}|\S+", path)]


# ---- BIRD


def attributes(lines: Sequence[str]) -> dict[str, str]:
    """The attributes of BIRD's route that are read here; what else stands in the lines behind a route is passed over."""
    found: dict[str, str] = {}
    for line in lines:
        if not line.startswith("\t"):
            raise Unknown(f"BIRD doesn't say {line!r} of one route")
        held = ATTRIBUTE.fullmatch(line)
        if held and held["name"] in found:
            raise Unknown(f"{held['name']} stands twice")
        if held:
            found[held["name"]] = held["value"].strip()
    return found


def from_bird(text: str) -> Route | None:
    """The route that BIRD shows; None where it says that it has none."""
    lines = text.splitlines()
    while lines and GREETING.fullmatch(lines[0]):
        lines.pop(0)
    if lines == ["Network not found"]:
        return None
    if lines and TABLE.fullmatch(lines[0]):
        lines.pop(0)
    route = ROUTE.fullmatch(lines[0]) if lines else None
    if not route or not route["best"]:
        raise Unknown("that is no answer of BIRD 2 with one best route, nor `Network not found`")
    held = attributes(lines[1:])
    if "Type" not in held:
        raise Unknown("BIRD's route has no Type: ask for `all`")
    tags = held.get("BGP.large_community", "")
    if LARGE.sub("", tags).strip():
        raise Unknown(f"no large communities: {tags!r}")
    communities = [tuple(map(number, tag)) for tag in LARGE.findall(tags)]
    if held["Type"].split()[:1] != ["BGP"]:
        if "BGP.as_path" in held:
            raise Unknown("a route that isn't of BGP has an AS path")
        return Route(route["prefix"], [], 0, communities)
    for name in "BGP.as_path", "BGP.local_pref":
        if not held.get(name):
            raise Unknown(f"BIRD's route has no {name}")
    return Route(route["prefix"], numbers_of(held["BGP.as_path"]), number(held["BGP.local_pref"]), communities)


# ---- FRR and OpenBGPD, whose answers are JSON


def part(value: Mapping[str, Any], name: str, kind: type[Kind], missing: Kind | None = None, daemon: str = "FRR") -> Kind:
    """A member of an object of JSON that has to be of a kind; what is given for missing where it may be missing and is."""
    held = value.get(name, missing)
    if not isinstance(held, kind) or isinstance(held, bool) and kind is not bool:
        raise Unknown(f"{daemon}'s answer has no {name} that is read here")
    return held


def answer_of(text: str, daemon: str) -> dict[str, Any]:
    """The object of an answer."""
    try:
        answer = json.loads(text)
    except (ValueError, RecursionError):
        raise Unknown(f"that is no JSON, as {daemon}'s answer is") from None
    if not isinstance(answer, dict):
        raise Unknown(f"{daemon}'s answer is an object")
    return answer


def tags_of(tags: Sequence[object], daemon: str) -> list[Community]:
    """The large communities that an answer shows."""
    texts = [tag for tag in tags if isinstance(tag, str) and tag.count(":") == 2]
    if len(texts) < len(tags):
        raise Unknown(f"{daemon}'s answer has large communities that aren't read here")
    return [tuple(map(number, text.split(":"))) for text in texts]


def segments(path: Mapping[str, Any]) -> list[Place]:
    """The numbers of FRR's AS path. Only a sequence is read as such: of another segment its word stays."""
    found: list[Place] = []
    for segment in part(path, "segments", list):
        if not isinstance(segment, dict):
            raise Unknown("a segment of FRR's AS path is no object")
        numbers, kind = part(segment, "list", list), part(segment, "type", str)
        if not numbers or not all(map(is_number, numbers)):
            raise Unknown("a segment of FRR's AS path has no numbers")
        found += numbers if kind == "as-sequence" else [kind]
    return found


def from_frr(text: str) -> Route | None:
    """The route that FRR shows; None where it says that it has none."""
    answer = answer_of(text, "FRR")
    if answer == {}:
        return None
    best = []
    for path in part(answer, "paths", list):
        if not isinstance(path, dict):
            raise Unknown("a path of FRR's answer is no object")
        if part(part(path, "bestpath", dict, {}), "overall", bool, False):
            best.append(path)
    if len(best) != 1:
        raise Unknown(f"FRR's answer has {len(best)} best paths")
    preference = part(best[0], "locPrf", int, 100)  # it leaves out one that no route map set
    if not is_number(preference):
        raise Unknown(f"no local preference: {preference}")
    tags = part(part(best[0], "largeCommunity", dict, {"list": []}), "list", list)
    return Route(part(answer, "prefix", str), segments(part(best[0], "aspath", dict)), preference, tags_of(tags, "FRR"))


def from_openbgpd(text: str) -> Route | None:
    """The route that OpenBGPD shows; None where it says that it has none."""
    answer = answer_of(text, "OpenBGPD")
    if answer == {}:
        return None
    shown = part(answer, "rib", list, daemon="OpenBGPD")
    best = [route for route in shown if isinstance(route, dict) and route.get("best") is True]
    if len(best) != 1 or len(shown) != 1:
        raise Unknown(f"OpenBGPD's answer has {len(shown)} routes, and {len(best)} best ones: ask for `selected`")
    prefix, path = (part(best[0], name, str, daemon="OpenBGPD") for name in ("prefix", "aspath"))
    preference, tags = part(best[0], "localpref", int, daemon="OpenBGPD"), part(best[0], "large_communities", list, [], "OpenBGPD")
    if not is_number(preference):
        raise Unknown(f"no local preference: {preference}")
    return Route(prefix, numbers_of(path), preference, tags_of(tags, "OpenBGPD"))


# ---- tables


def entry(router: Site, names: Mapping[Place, str], peers: Collection[str], route: Route | None) -> dict[str, Any] | None:
    """What a router holds, as tables say it."""
    if route is None:
        return None
    path = [router.name]
    for asn in route.path:
        if asn not in names:
            raise Unknown(f"no AS number of the topology: {asn}")
        path.append(names[asn])
        if names[asn] in peers:
            break  # what stands behind a peer is the peer's
    tags = [[asn, value] for asn, middle, value in route.communities if asn == router.asn and middle == 0]
    if len(tags) > 1:
        raise Unknown(f"more than one tag: {tags}")
    own = len(path) == 1
    return {"path": path, "pref": 0 if own else route.preference, "tag": tags[0] if tags else [0, 0]}


READERS: dict[str, Callable[[str], Route | None]] = {".bird": from_bird, ".frr": from_frr, ".openbgpd": from_openbgpd}
DEAD = ".dead"  # the ending of the file of a router that doesn't answer
ENDINGS = (*READERS, DEAD)


def recorded(router: Site, folder: str) -> Route | None:
    """The route that was recorded of a router; None where it has none."""
    files = {ending: os.path.join(folder, router.name + ending) for ending in ENDINGS}
    there = [ending for ending, file in files.items() if os.path.lexists(file)]
    if len(there) != 1:
        said = " and ".join(router.name + ending for ending in there)
        raise Unknown(f"both {said} are there" if there else "no file .bird, .frr, .openbgpd or .dead")
    with open(files[there[0]], "rb") as file:
        text = file.read()
    if there == [DEAD]:
        if text:
            raise Unknown("a file .dead is empty")
        return None
    try:
        return READERS[there[0]](text.decode("utf-8"))
    except UnicodeDecodeError:
        raise Unknown("the answer isn't UTF-8") from None


def tables(topology: Topology, folder: str) -> str:
    """The text of the tables of a network, of the answers in a folder."""
    names: dict[Place, str] = {site.asn: site.name for site in topology.sites.values()}
    peers = {site.name for site in topology.peers}
    known = {router.name + ending for router in topology.routers for ending in ENDINGS}
    for file in sorted(os.listdir(folder)):
        if file.endswith(ENDINGS) and file not in known:
            raise Unknown(f"{file}: the topology has no such router")
    entries: list[str] = []
    prefix: str | None = None
    for router in topology.routers:
        try:
            route = recorded(router, folder)
            if route and prefix not in (None, route.prefix):
                raise Unknown(f"the route is of {route.prefix}, and others are of {prefix}")
            prefix = route.prefix if route else prefix
            entries.append(json.dumps(entry(router, names, peers, route), separators=(",", ":")))
        except (Unknown, OSError) as why:
            raise Unknown(f"{router.name}: {why}") from None
    return '{"routes":[\n' + ",\n".join(entries) + "]}"
