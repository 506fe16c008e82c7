"""How each router is asked: the text ROUTERS, and what the daemons answer of their sessions.

    {"R1": {"bird": ["ssh", "R1", "birdc"], "get": ["ssh", "R1", "cat /etc/bird/bird.conf"], "put": ["ssh", "R1", "cat > /etc/bird/bird.conf"]},
     "R2": {"frr": ["ssh", "R2", "vtysh"], "put": ["ssh", "R2", "cat > /etc/frr/frr.conf"]},
     "R3": {"openbgpd": ["ssh", "R3", "bgpctl"]}}

`get` and `put` are how the file is had and put with which a router begins; who only watches needs neither.
"""
from __future__ import annotations

import json
import os
import re
import shlex
import subprocess
from dataclasses import dataclass
from typing import Any

from texts.faults import Fault
from texts.json_text import Object, json_value, keyed
from texts.topology import Topology

SLOW = 20  # seconds after which a router counts as one that doesn't answer
HEAD = re.compile(r"\S+\s+BGP\s")
AS_NUMBER = re.compile(r"\s*Neighbor AS:\s+([0-9]+)\s*")
STATE = re.compile(r"\s*BGP state:\s+(\w+)\s*")


class Silent(Exception):
    """A router doesn't answer, or not as its daemon would."""


@dataclass(frozen=True)
class Router:
    """A router, its daemon (`bird`, `frr` or `openbgpd`), and the words that ask it; what is asked comes behind them. `get` and `put` may be empty."""

    name: str
    daemon: str
    words: tuple[str, ...]
    get: tuple[str, ...] = ()
    put: tuple[str, ...] = ()

    @property
    def ending(self) -> str:
        """That of its answers, as tools/tables wants them."""
        return f".{self.daemon}"

    def ask(self, question: str) -> str:
        """The answer to a question. A shell far away takes words apart, so it gets them quoted."""
        asked = ["-c", question] if self.daemon == "frr" else question.split()
        is_far = os.path.basename(self.words[0]) == "ssh"
        words = [*self.words, *(map(shlex.quote, asked) if is_far else asked)]
        try:
            ran = subprocess.run(words, stdin=subprocess.DEVNULL, capture_output=True, timeout=SLOW)
        except (OSError, subprocess.TimeoutExpired) as why:
            raise Silent(str(why)) from None
        answer = ran.stdout.decode("utf-8", "replace")
        if ran.returncode and not (self.daemon == "bird" and "Network not found" in answer):
            raise Silent(ran.stderr.decode("utf-8", "replace").strip() or f"status {ran.returncode}")
        return answer

    def route(self, prefix: str) -> str:
        """What is recorded of its route to a prefix."""
        if self.daemon == "bird":
            return self.ask(f"show route {prefix} all primary")
        if self.daemon == "openbgpd":
            return self.ask(f"-j show rib selected detail {prefix}")
        return self.ask(f"show bgp ipv4 unicast {prefix} bestpath json")

    def heard_of(self, prefix: str) -> set[int]:
        """The first AS number of each route that it has for a prefix: the neighbours that announce one that it takes."""
        if self.daemon == "bird":
            paths = re.findall(r"BGP\.as_path:\s*([0-9]+)", self.ask(f"show route {prefix} all"))
            return set(map(int, paths))
        if self.daemon == "openbgpd":
            routes = json_of(self.ask(f"-j show rib detail {prefix}")).get("rib", [])
            paths = [str(route.get("aspath", "")).split() for route in routes if isinstance(route, dict)]
            return {int(path[0]) for path in paths if path and path[0].isdigit()}
        value = json_of(self.ask(f"show bgp ipv4 unicast {prefix} json"))
        found = set()
        for path in value.get("paths", []):
            segments = path.get("aspath", {}).get("segments", []) if isinstance(path, dict) else []
            if segments and segments[0].get("list"):
                found.add(segments[0]["list"][0])
        return found

    def established(self) -> set[int]:
        """The AS numbers of the neighbours with which a session is established."""
        if self.daemon == "bird":
            return established_in(self.ask("show protocols all"))
        if self.daemon == "openbgpd":
            neighbours = json_of(self.ask("-j show neighbor")).get("neighbors", [])
            return {int(each["remote_as"]) for each in neighbours if isinstance(each, dict) and each.get("state") == "Established"}
        value = json_of(self.ask("show bgp ipv4 unicast summary json"))
        peers = value.get("ipv4Unicast", value).get("peers", {})
        return {peer["remoteAs"] for peer in peers.values() if isinstance(peer, dict) and peer.get("state") == "Established"}


def json_of(text: str) -> dict[str, Any]:
    """The object of an answer of FRR or OpenBGPD."""
    try:
        value = json.loads(text)
    except ValueError:
        value = None
    if not isinstance(value, dict):
        raise Silent("that is no object of JSON, as the daemon's answer is")
    return value


def established_in(text: str) -> set[int]:
    """The AS numbers of the established sessions in BIRD's answer to `show protocols all`."""
    found: set[int] = set()
    state = ""
    for line in text.splitlines():
        if HEAD.match(line):
            state = ""
        elif told := STATE.fullmatch(line):
            state = told[1]
        elif (told := AS_NUMBER.fullmatch(line)) and state == "Established":
            found.add(int(told[1]))
    return found


def read_routers(text: str, topology: Topology) -> list[Router]:
    """The routers of a text, one for each of the topology, in its order."""
    value = keyed(json_value(text, "routers", Object), {site.name for site in topology.routers}, set(), "routers")
    found = []
    for name in (site.name for site in topology.routers):
        entry = value[name]
        kinds = [key for key in entry if key in ("bird", "frr", "openbgpd")] if isinstance(entry, dict) else []
        if len(kinds) != 1 or not set(entry) <= {kinds[0], "get", "put"}:
            raise Fault(f"routers: {name}: an object of `bird`, `frr` or `openbgpd`, and perhaps `get` and `put`")
        for key, words in entry.items():
            if not isinstance(words, list) or not words or not all(isinstance(word, str) and word for word in words):
                raise Fault(f"routers: {name}: `{key}` is an array of the words of a command")
        get, put = (tuple(entry.get(key, ())) for key in ("get", "put"))
        found.append(Router(name, kinds[0], tuple(entry[kinds[0]]), get, put))
    return found
