"""What taking a session out of service does, as the program says it: the words of tools/shut.

A session is shut by a line in the file that refuses, and not by a community or a lower preference. Refusing is a dead link, which the
claim covers at every moment. A lower preference would be another configuration.
"""
from __future__ import annotations

import os
import subprocess
import sys
import tempfile
from collections.abc import Iterator, Sequence
from dataclasses import replace

from reasons.program import found
from texts.faults import Ended, Fault
from texts.files import read_bytes, read_text
from texts.scenario import Scenario, pairs, read_scenario
from texts.statuses import BAD_INPUT, DONE, READ_FAULT, USAGE, WRITE_FAULT
from texts.topology import Topology

FIRST = """\
1. Write `"shut":true` into the entry of this link in ADDRESSES, and with tools/deploy the files of {routers}. Load them without a
   restart:"""
BIRD = "   {router} on BIRD: birdc configure"
OPENBGPD = "   {router} on OpenBGPD: bgpctl reload"
FRR = "   {router} on FRR: vtysh -c 'configure terminal' -c 'route-map in-{other} deny 1' -c 'route-map out-{other} deny 1'"
LAST = """\
2. Wait until no message moves, and some seconds for packets that are under way.
3. End the session: the link may be worked on.
4. Afterwards write the files without `shut`, and load them: on BIRD and OpenBGPD as above, on FRR with
   `no route-map .. deny 1`."""


class Asked:
    """The program with one network and policy."""

    def __init__(self, topology: str, policy: str) -> None:
        self.program, self.texts = found(), (topology, policy)

    def told(self, command: str, scenario: Scenario) -> list[str]:
        """The lines of a report of a scenario."""
        with tempfile.TemporaryDirectory(prefix="shut.") as folder:
            path = os.path.join(folder, "scenario.json")
            with open(path, "w", encoding="utf-8") as file:
                file.write(scenario.text())
            ran = subprocess.run([self.program, command, *self.texts, path], stdin=subprocess.DEVNULL, capture_output=True, check=False)
        if ran.returncode != DONE:
            raise Ended(abs(ran.returncode), ran.stderr.decode("utf-8", "replace").rstrip("\n"))
        return ran.stdout.decode().splitlines()


def is_named(lines: Sequence[str], word: str, ends: Sequence[str]) -> bool:
    """Whether a report has a line with this word on a link."""
    return any(f"{word} {one} {two}" in lines for one, two in (ends, ends[::-1]))


def lines_of(asked: Asked, topology: Topology, scenario: Scenario, ends: Sequence[str]) -> Iterator[str]:
    """All that is told."""
    link = pairs([ends])
    kind = "session" if topology.is_to_a_peer(frozenset(ends)) else "link"
    is_free = is_named(asked.told("drain", scenario), "free link", ends)
    is_idle = is_named(asked.told("multipath", scenario), "idle link", ends)
    before, after = (asked.told("replay", each) for each in (scenario, replace(scenario, dead_links=scenario.dead_links | link)))
    yield f"{kind} {' '.join(ends)}, {scenario.prefix}"
    yield f"drain: {'free: its failure moves no path' if is_free else 'not free: paths move'}"
    yield f"multipath: {'idle: no packet goes over it' if is_idle else 'packets go over it, where routers spread them'}"
    yield from (f"now: {line}" for line in before if line not in after)
    yield from (f"then: {line}" for line in after if line not in before)
    yield ""
    yield from steps(topology, ends)


def steps(topology: Topology, ends: Sequence[str]) -> Iterator[str]:
    """What is to be done, at each router that is an end."""
    routers = [(one, two) for one, two in (ends, ends[::-1]) if not topology.sites[one].is_peer]
    yield FIRST.format(routers=" and ".join(router for router, _ in routers))
    for router, other in routers:
        yield BIRD.format(router=router)
        yield OPENBGPD.format(router=router)
        yield FRR.format(router=router, other=other)
    yield LAST


def run(words: Sequence[str]) -> None:
    """Writes what is told."""
    topology, scenario = Topology(read_bytes(words[0])), read_scenario(read_text(words[2]))
    ends = words[3:]
    if frozenset(ends) not in pairs(topology.links):
        raise Fault(f"no link of the topology: {' '.join(ends)}")
    if frozenset(ends) in scenario.dead_links or scenario.dead.intersection(ends):
        raise Fault(f"the link is dead already: {' '.join(ends)}")
    told = "".join(f"{line}\n" for line in lines_of(Asked(words[0], words[1]), topology, scenario, ends))
    try:
        sys.stdout.write(told)
        sys.stdout.flush()
    except OSError as error:
        os.dup2(os.open(os.devnull, os.O_WRONLY), sys.stdout.fileno())  # Python would try once more as it ends
        raise Ended(WRITE_FAULT) from error


def main(words: Sequence[str], usage: str) -> int:
    """Runs the words. Returns the status; what is wrong is a line on the error output."""
    if len(words) != 5:
        sys.stderr.write(usage)
        return USAGE
    try:
        run(words)
        return DONE
    except Fault as fault:
        status, line = BAD_INPUT, f"shut: {fault}"
    except Ended as ended:
        status, line = ended.status, ended.line
    except OSError as error:
        status, line = READ_FAULT, f"shut: {error.filename}: {error.strerror}"
    sys.stderr.write(f"{line}\n" if line else "")
    return status
