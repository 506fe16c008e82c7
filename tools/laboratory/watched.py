"""tools/watch on real daemons: whether it tells each thing that is done to a network, in time, and nothing while all is well."""
from __future__ import annotations

import json
import os
import signal
import subprocess
import sys
import time
from collections.abc import Callable, Sequence
from typing import Any

from deploying.addresses import Addresses
from deploying.folders import Described
from deploying.map_reader import read_maps
from deploying.plans import Choices
from texts.faults import Fault
from texts.scenario import Scenario, pairs
from texts.topology import Topology

from . import enclosure
from .command import AGREES, BROKEN, DIFFERS, NOTHING, deployed
from .commands import TOOLS, Broken, propane, ran, read, write
from .daemons import Bird
from .network import Inputs, Network

EVERY = 5  # seconds from one round to the next
IN_TIME = 300  # seconds within which a change is to be told where much else goes on; else it is a round
PREFIX = "198.51.100.0/24"


class Watching:
    """A run of tools/watch, and the lines that it has printed."""

    def __init__(self, texts: Sequence[str], routers: dict[str, Any], folder: str) -> None:
        self.log, self.seen, self.faults = os.path.join(folder, "watch.log"), 0, list[str]()
        write(os.path.join(folder, "routers.json"), json.dumps(routers))
        words = [os.path.join(TOOLS, "watch"), "--every", str(EVERY), "--prefix", PREFIX, *texts, os.path.join(folder, "routers.json")]
        with open(self.log, "w", encoding="utf-8") as log:
            self.process = subprocess.Popen([sys.executable, *words], stdin=subprocess.DEVNULL, stdout=log, stderr=log)

    def lines(self) -> list[str]:
        """What was printed since this was asked last, without the times."""
        found = [line.partition(" ")[2] for line in read(self.log).splitlines()]
        new, self.seen = found[self.seen:], len(found)
        return new

    def expect(self, what: str, *wanted: str) -> None:
        """These lines come, in any order, within the time; how long that took is told."""
        began, told = time.monotonic(), list[str]()
        while not set(wanted) <= set(told) and time.monotonic() < began + IN_TIME + EVERY:
            if self.process.poll() is not None:
                raise Broken(f"tools/watch has ended: {read(self.log)}")
            time.sleep(0.5)
            told += self.lines()
        lacking = [line for line in wanted if line not in told]
        said = f"told in {time.monotonic() - began:.0f} s" if not lacking else f"NOT TOLD: {'; '.join(lacking)} among {'; '.join(told)}"
        print(f"{what}: {said}", flush=True)
        self.faults += lacking

    def calm(self) -> None:
        """Nothing is told for three rounds."""
        time.sleep(EVERY)
        self.lines()
        time.sleep(3 * EVERY)
        told = self.lines()
        print(f"all is well: {'nothing told' if not told else 'TOLD: ' + '; '.join(told)}", flush=True)
        self.faults += told

    def end(self) -> None:
        self.process.send_signal(signal.SIGINT)
        self.process.wait()


def deafen(network: Network, one: str, two: str, is_deaf: bool) -> None:
    """What two sites send each other is lost, though their sessions stay up for a while; or it comes again."""
    for site, other in ((one, two), (two, one)):
        words = ["ip", "-n", site, "neigh", "replace" if is_deaf else "del", network.addresses.wire(one, two).addresses[other],
                 "dev", network.interface(site, other)]
        ran(*words, *(["lladdr", "02:00:00:00:00:ff", "nud", "permanent"] if is_deaf else []))


def edited(network: Network, old: str, new: str) -> Callable[[], None]:
    """Loads R1's file with another text in it. Gives what undoes that."""
    file, found = network.inputs.files["R1"], network.daemons["R1"]
    if not isinstance(found, Bird):
        raise Broken("R1 runs no BIRD")
    daemon, text = found, read(file)
    if old not in text:
        raise Broken(f"R1's file has no {old}")
    write(file, text.replace(old, new))
    daemon.configure(file)

    def undo() -> None:
        write(file, text)
        daemon.configure(file)

    return undo


def play(network: Network, watching: Watching) -> None:
    """Does one thing after another to the network, and undoes it."""
    router = f"{PREFIX} router"
    watching.expect("the beginning", f"{PREFIX}: stable", f"{router} R1: rank 1 path R1 P1", f"{router} R2: rank 1 path R2 R1 P1")
    watching.calm()
    network.make(Scenario("", dead_links=pairs([("R1", "P1")])))
    watching.expect("a link breaks", "session R1 P1: is down", f"{router} R1: rank 2 path R1 R2 P2, was rank 1 path R1 P1")
    network.make(NOTHING)
    watching.expect("it comes up again", "session R1 P1: is up", f"{router} R1: rank 1 path R1 P1, was rank 2 path R1 R2 P2")
    undo = edited(network, "bgp_local_pref = 101", "bgp_local_pref = 103")
    watching.expect("a preference is edited", f"{PREFIX}: unstable router R1 not-given, was stable")
    undo()
    watching.expect("it is as before", f"{PREFIX}: stable, was unstable router R1 not-given")
    deafen(network, "R1", "R2", True)
    network.make(Scenario("", silent=pairs([("R1", "P1")])))
    watching.expect("a router holds an old route", f"{PREFIX}: unstable router R2 not-given, was stable")
    network.make(NOTHING)
    deafen(network, "R1", "R2", False)
    watching.expect("it hears again", f"{PREFIX}: stable, was unstable router R2 not-given")
    watching.calm()


def run(example: str, folder: str) -> int:
    texts = [os.path.join(example, name) for name in ("topology.json", "policy.propane")]
    topology = Topology(read(texts[0]))
    maps = read_maps(topology, propane("routemap", *texts))
    addresses = Addresses(read(os.path.join(example, "addresses.json")), topology)
    inputs, kinds = Inputs(Described(topology, addresses, Choices()), maps, {}), {"R1": "bird", "R2": "frr"}
    deployed(inputs, kinds, None, os.path.join(folder, "deployed"))
    network = Network(inputs, kinds, [PREFIX], os.path.join(folder, "run"))
    network.lay()
    network.make(NOTHING)
    network.settle(time.monotonic() + 120)
    vtysh = ["vtysh", "--vty_socket", network.daemons["R2"].folder, "--config_dir", network.daemons["R2"].folder]
    watching = Watching(texts, {"R1": {"bird": ["birdc", "-s", network.daemons["R1"].path("bird.ctl")]}, "R2": {"frr": vtysh}}, folder)
    try:
        play(network, watching)
    finally:
        watching.end()
    print(f"watch: {'all told' if not watching.faults else f'{len(watching.faults)} lines not as wanted'}")
    return DIFFERS if watching.faults else AGREES


def main(usage: str) -> int:
    """Runs the lab in namespaces of its own. Returns the status."""
    example = os.path.join(os.path.dirname(TOOLS), "examples", "two-exits")
    try:
        if not enclosure.is_inside():
            return enclosure.run_inside(enclosure.command())
        enclosure.furnish()
        return run(example, enclosure.HERE)
    except (Broken, Fault, enclosure.Stopped, OSError) as error:
        sys.stderr.write(f"{usage.splitlines()[0]}: {error}\n")
        return BROKEN
