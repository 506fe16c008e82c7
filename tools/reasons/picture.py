"""Writes a network in Graphviz's language, with the paths of a report where one is given."""
from __future__ import annotations

import os
import re
import shutil
import subprocess
import sys
from collections.abc import Iterator, Mapping, Sequence

from texts.faults import Ended, Fault
from texts.files import read_bytes
from texts.scenario import Pairs, read_scenario
from texts.statuses import BAD_INPUT, DONE, NO_PROGRAM, USAGE, WRITE_FAULT
from texts.topology import Topology

from .forms import BY_NAME, LINES, form_of
from .network import Network, Walk

PLAIN = "#ffffff", "#66727f"  # the fill and the edge of what no report speaks of
LINK = "#8c97a5"
LETTERS = "Helvetica"
LINE = re.compile(r"(?:router (?P<router>\S+)|session (?P<via>\S+) (?P<peer>\S+)) "
                  r"(?:(?P<word>dead|origin|none)|(?:rank (?P<rank>[0-9]{1,20})|transit) "
                  r"(?:path (?P<path>\S+(?: \S+)*)|hops [0-9]{1,20}(?: next (?P<next>\S+(?: \S+)*))?))")
Failures = tuple[frozenset[str], Pairs, Pairs]
NOTHING: Failures = frozenset(), frozenset(), frozenset()
HEADS = re.compile(r"prefix [0-9./]+|(class|quiet|event|rounds|deliveries|idle) .+|stable")


class Report:
    """What a report tells: of each router and each session how it stands, and by which path; or, as `multipath` does, to which next hops."""

    def __init__(self, text: str, network: Network) -> None:
        self.prefix = ""
        self.routers: dict[str, tuple[str, Walk]] = {}
        self.sessions: dict[tuple[str, str], tuple[str, Walk]] = {}
        # each step to a next hop with its line and how it stands: a router's, and a peer's into what it is offered
        self.ways: dict[Walk, tuple[str, str]] = {}
        for number, line in enumerate(text.splitlines(), 1):
            found = LINE.fullmatch(line)
            if found:
                nexts = (found["next"] or "").split()
                names = [name for name in (found["router"], found["via"], found["peer"]) if name] + (found["path"] or "").split() + nexts
                if not all(name in network.place for name in names):
                    raise Fault(f"line {number} of the report names what isn't in the topology")
                stands = found["word"] or (f"rank {found['rank']}" if found["rank"] else "transit")
                path = tuple((found["path"] or "").split())
                if found["router"]:
                    self.routers[found["router"]] = stands, path
                    self.ways |= {(found["router"], name): ("hop", stands) for name in nexts or path[1:2]}
                else:
                    self.sessions[found["via"], found["peer"]] = stands, path
                    self.ways |= {(found["peer"], found["via"]): ("offer", stands)} if not found["word"] else {}
            elif not HEADS.fullmatch(line):
                raise Fault(f"line {number} of the report is none of replay, trace, settle, audit or multipath")
            elif line.startswith("prefix "):
                self.prefix = line[7:]

    def offers(self, peer: str) -> list[tuple[str, str]]:
        """How the peer stands at each of its routers, best first."""
        found = [(stands, via) for (via, other), (stands, _) in self.sessions.items() if other == peer]
        return sorted(found, key=lambda each: (each[0] == "none", len(each[0]), each[0]))


def failures(text: bytes, network: Network) -> Failures:
    """What a scenario says is down: locations, and links and sessions as pairs without an order."""
    try:
        found = read_scenario(text.decode())
        if found.names() <= set(network.place):
            return found.dead, found.dead_links, found.silent
    except (Fault, UnicodeDecodeError):
        pass
    raise Fault("the scenario isn't one of this topology")


def quoted(text: str) -> str:
    """A text as a string of the language. No name has a quote or a backslash, and nothing else here has."""
    return '"' + text.replace("\n", "\\n") + '"'


def attributes(**given: str) -> str:
    return "[" + ", ".join(f"{key}={quoted(value)}" for key, value in given.items()) + "]"


def colours(stands: str) -> tuple[str, str]:
    """The fill and the edge of what stands so."""
    form = form_of(stands)
    return form.light if form else PLAIN


def node(name: str, is_peer: bool, said: Sequence[str], stands: str) -> str:
    """A router, or a peer with a dashed edge."""
    fill, edge = colours(stands)
    dead = {"fontcolor": edge} if stands == "dead" else {}
    style = "filled,dashed" if is_peer else "filled,rounded"
    label = "\n".join([name, *said])
    return f"  {quoted(name)} {attributes(label=label, style=style, fillcolor=fill, color=edge, **dead)};"


def line(first: str, second: str, kind: str, colour: str = LINK, **more: str) -> str:
    """A line of a kind between two locations. Graphviz knows no lengths of dashes but two."""
    form = LINES[kind]
    style = {"style": "dotted" if form.dashes[0] < 3 else "dashed"} if form.dashes else {}
    return f"  {quoted(first)} -> {quoted(second)} {attributes(color=colour, penwidth=str(form.width), **style, **more)};"


def link(first: str, second: str, steps: Mapping[Walk, tuple[str, str]], down: Failures) -> Iterator[str]:
    """The lines of a link: what has failed, else an arrow for each way that is taken, else the link itself."""
    dead, cut, silent = down
    pair, edge = frozenset((first, second)), BY_NAME["dead"].light[1]
    taken = [way for way in ((first, second), (second, first)) if way in steps]
    if pair in cut or pair & dead:
        yield line(first, second, "gone" if pair in cut else "off", edge, dir="none")
    elif taken:
        for way in taken:
            kind, stands = steps[way]
            yield line(*way, kind, colours(stands)[1])
    else:
        yield line(first, second, "link", dir="none", **({"label": "silent"} if pair in silent else {}))


def drawing(network: Network, report: Report | None = None, down: Failures = NOTHING) -> Iterator[str]:
    """The lines of the picture: locations in the order of the topology, then links in that of the text."""
    dead, cut, silent = down
    stands = {name: said for name, (said, _) in report.routers.items()} if report else {}
    dead = dead | {name for name, said in stands.items() if said == "dead"}
    steps = report.ways if report else {}
    yield "digraph network {"
    said = {"label": report.prefix if report else "", "labelloc": "t", "fontname": LETTERS}
    yield f"  graph {attributes(layout='neato', overlap='false', splines='true', sep='+12', **said)};"
    yield f"  node {attributes(shape='box', fontname=LETTERS, fontsize='11')};"
    yield f"  edge {attributes(len='1.4', fontname=LETTERS, fontsize='9')};"
    for name in network.routers:
        yield node(name, False, [stands[name]] if name in stands else [], "dead" if name in dead else stands.get(name, ""))
    for name in network.peers:
        offers = report.offers(name) if report else []
        stand = "dead" if name in dead else offers[0][0] if offers else ""
        yield node(name, True, [f"{how} over {via}" for how, via in offers], stand)
    for first, second in network.links:
        yield from link(first, second, steps, (dead, cut, silent))
    yield "}"


def text_for(words: Sequence[str]) -> str:
    """The picture that the words ask for."""
    try:
        network = Network.of(Topology(read_bytes(words[0])))
    except Fault as fault:
        raise Fault(f"no topology: {words[0]}") from fault
    report = Report(read_bytes(words[1]).decode("utf-8", "replace"), network) if words[1:] else None
    down = failures(read_bytes(words[2]), network) if words[2:] else NOTHING
    return "\n".join(drawing(network, report, down)) + "\n"


def laid_out(text: str) -> str:
    """The picture as SVG."""
    if not shutil.which("dot"):
        raise Ended(NO_PROGRAM, "picture: Graphviz's command dot isn't on the path; without --svg its text is written")
    ran = subprocess.run(["dot", "-Tsvg"], input=text.encode(), capture_output=True)
    if ran.returncode:
        raise Ended(NO_PROGRAM, f"picture: dot ended with status {ran.returncode}: {ran.stderr.decode('utf-8', 'replace').strip()}")
    return ran.stdout.decode("utf-8", "replace")


def outcome(arguments: Sequence[str], usage: str) -> tuple[int, str]:
    """The status, and a line where there is a fault."""
    words = [word for word in arguments if word != "--svg"]
    if not 1 <= len(words) <= 3 or len(arguments) - len(words) > 1:
        return USAGE, usage
    try:
        text = text_for(words)
        text = laid_out(text) if "--svg" in arguments else text
    except Fault as fault:
        return BAD_INPUT, f"picture: {fault}"
    except Ended as ended:
        return ended.status, ended.line
    try:
        sys.stdout.write(text)
        sys.stdout.flush()
    except OSError:
        os.dup2(os.open(os.devnull, os.O_WRONLY), sys.stdout.fileno())
        return WRITE_FAULT, ""
    return DONE, ""


def main(arguments: Sequence[str], usage: str) -> int:
    """What tools/picture does; gives the status."""
    if sys.stdout is None:
        return WRITE_FAULT
    status, line = outcome(arguments, usage)
    if line and sys.stderr is not None:
        print(line, file=sys.stderr)
    return status
