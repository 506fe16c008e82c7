"""A change of policy on a network that runs: tools/lab --rollout.

From the old policy to the new one and back. On the way there nothing fails: where nothing may change, no UPDATE leaves any site, and of
the packets that are sent all the time none is lost whose way stays. On the way back each link, each router and each session of a peer
fails while a router is loaded. All the time, what routers hold is asked again and again: each route is to be one that the lines of one policy make.
At the end of each stage the network is asked all that the lab asks of a network at rest.
"""
from __future__ import annotations

import contextlib
import json
import os
import shutil
import threading
import time
from collections.abc import Iterator, Sequence
from dataclasses import dataclass, field
from typing import Any

from deploying.maps import Tag
from rolling.loading import keep, load
from rolling.stages import Rollout, Stage, is_still
from rolling.walking import tag_along
from texts.recorded import Unknown, tables
from texts.scenario import Scenario
from watching.routers import Router

from .commands import Broken
from .daemons import Bird
from .network import Network
from .packets import target
from .probes import Probes
from .questions import Texts, compare
from .trials import say
from .wire import Wire

NOTHING = Scenario("")
FIRST = 30_000  # the first port from which packets are sent
LOOK = 0.5  # seconds between two looks at what is held
HALF_WAY = 0.4  # seconds after a failure in which nobody has settled yet
THERE = (Stage.ONE, Stage.TWO, Stage.NEW)
BACK = (Stage.TWO, Stage.ONE, Stage.OLD)


@dataclass
class Rolling:
    """A network, its rollout, the texts of both sides, and what was found wrong."""

    network: Network
    rollout: Rollout
    sides: dict[Stage, Texts]
    prefixes: Sequence[str]
    folder: str
    patience: float
    faults: list[str] = field(default_factory=list)
    held: int = 0

    def fault(self, line: str) -> None:
        if line not in self.faults:
            self.faults.append(line)
            say(f"  {line}")

    def router(self, name: str) -> Router:
        """How a router is asked and loaded here."""
        daemon, file = self.network.daemons[name], self.network.inputs.files[name]
        get, put = ("cat", file), ("sh", "-c", f"cat > '{file}'")
        if isinstance(daemon, Bird):
            return Router(name, "bird", ("birdc", "-s", daemon.path("bird.ctl")), get, put)
        return Router(name, "frr", ("vtysh", "--vty_socket", daemon.folder, "--config_dir", daemon.folder), get, put)

    # ---- what is seen

    def tables(self, prefix: str, folder: str) -> dict[str, Any]:
        """The route of each router; none where an answer isn't one, as that of a daemon that just begins."""
        shutil.rmtree(folder, ignore_errors=True)
        self.network.record(folder, prefix)
        try:
            found: dict[str, Any] = json.loads(tables(self.network.topology, folder))
        except Unknown:
            return {}
        return found

    def paths(self) -> dict[tuple[str, str], tuple[str, ...]]:
        """The path of each router to each prefix, where it has one."""
        found = {}
        for prefix in self.prefixes:
            for name, route in routes_of(self.tables(prefix, os.path.join(self.folder, "paths"))):
                found[prefix, name] = tuple(route["path"])
        return found

    def look(self, goes_on: threading.Event) -> None:
        """Asks for what is held, again and again. A daemon that begins or ends just then gives no answer."""
        while goes_on.is_set():
            for prefix in self.prefixes:
                with contextlib.suppress(OSError, Broken):
                    for name, route in routes_of(self.tables(prefix, os.path.join(self.folder, "held"))):
                        self.judge(prefix, name, route)
            time.sleep(LOOK)

    def judge(self, prefix: str, name: str, route: dict[str, Any]) -> None:
        """A route that is held is one that the lines of one policy make."""
        self.held += 1
        path, tag = route["path"], Tag(*route["tag"])
        if all(tag_along(self.rollout.maps[side], prefix, path) != tag for side in (Stage.OLD, Stage.NEW)):
            self.fault(f"{name} holds the route {' '.join(path)} with the tag {tag} to {prefix}, which neither policy's lines make")

    def settled(self, stage: Stage, scenario: Scenario = NOTHING) -> None:
        """Asks all of the network at rest."""
        for line in self.network.settle(time.monotonic() + self.patience):
            self.fault(f"{stage.value}: {line}")
        for prefix in self.prefixes:
            answer = compare(self.network, self.sides[stage.side], self.network.asked(scenario.of(prefix)), os.path.join(self.folder, "asked"))
            for line in answer.faults:
                self.fault(f"{stage.value}, {prefix}: {line}")

    # ---- what is done

    def take(self, name: str, stage: Stage, is_quiet: bool) -> None:
        """A router is loaded; one that is dead finds the file when it comes back."""
        plan = self.rollout.plan(stage, self.network.topology.sites[name])
        if name in self.network.now.dead:
            keep(self.router(name), plan)
        else:
            load(self.router(name), plan, asks_again=not is_quiet)

    def calm(self, before: Stage, stage: Stage) -> None:
        """Loads a stage while nothing else happens."""
        was, still = self.paths(), is_still(before, stage)
        wire = Wire(self.network.topology.sites)
        probes = {prefix: probes for prefix in self.prefixes if (probes := self.probes(prefix, was))}
        for name in [router.name for router in self.network.topology.routers]:
            self.take(name, stage, still)
        self.settled(stage)
        said = wire.total()
        wire.end()
        now = self.paths()
        lost = {(prefix, name): number for prefix, each in probes.items() for name, number in each.lost().items()}
        if still:
            for place in sorted(set(was) | set(now)):
                if was.get(place) != now.get(place):
                    self.fault(f"{stage.value}: {place[1]} goes another way to {place[0]}: {' '.join(now.get(place, ()))}")
            if said:
                self.fault(f"{stage.value}: {said} UPDATEs were sent, and none is to be")
        for place, number in lost.items():
            if number and was.get(place) == now.get(place):
                self.fault(f"{stage.value}: {number} packets of {place[1]} to {place[0]} are lost, though its way stays")
        changed = sum(was.get(place) != now.get(place) for place in set(was) | set(now))
        sent = sum(sum(each.sent.values()) for each in probes.values())
        say(f"{before.value} to {stage.value}: updates {said} ways that change {changed} packets {sent} lost {sum(lost.values())}")

    def probes(self, prefix: str, paths: dict[tuple[str, str], tuple[str, ...]]) -> Probes | None:
        """Packets to a prefix from each router that isn't an origin of it by either policy."""
        address = target(self.network, prefix)
        own = {name for side in (Stage.OLD, Stage.NEW) for name, maps in self.rollout.maps[side].routers.items()
               if any(network.prefix == prefix for network in maps.networks)}
        sources = [name for name in self.network.live_routers() if name not in own and (prefix, name) in paths]
        first = FIRST + self.prefixes.index(prefix) * len(self.network.topology.sites)
        return Probes(sources, [*own, *self.network.live_peers()], address, first) if address and sources else None

    def restless(self, before: Stage, stage: Stage, failures: Sequence[Scenario]) -> None:
        """Loads a stage while one thing after another fails."""
        names = [router.name for router in self.network.topology.routers]
        for place, name in enumerate(names):
            for failure in failures[place::len(names)] or [NOTHING]:
                if not failure.fails_as(self.network.now):
                    self.network.make(failure)
                    time.sleep(HALF_WAY)
            self.take(name, stage, is_still(before, stage))
        self.network.make(NOTHING)
        self.settled(stage)
        say(f"{before.value} to {stage.value} while links, routers and sessions fail: {'as it is to be' if not self.faults else 'differs'}")


def routes_of(tables: dict[str, Any]) -> Iterator[tuple[str, dict[str, Any]]]:
    """The routers that hold a route that isn't their own without a tag."""
    for route in tables.get("routes", []):
        if route and (len(route["path"]) > 1 or route["tag"] != [0, 0]):
            yield route["path"][0], route


def roll(rolling: Rolling, failures: Sequence[Scenario]) -> int:
    """There in peace, and back while all fails in turn. Returns how many things were wrong."""
    rolling.settled(Stage.OLD)
    goes_on = threading.Event()
    goes_on.set()
    looking = threading.Thread(target=rolling.look, args=[goes_on], daemon=True)
    looking.start()
    try:
        for before, stage in zip((Stage.OLD, *THERE), THERE):
            rolling.calm(before, stage)
        for place, (before, stage) in enumerate(zip((Stage.NEW, *BACK), BACK)):
            rolling.restless(before, stage, failures[place::len(BACK)])
    finally:
        goes_on.clear()
        looking.join()
    say(f"routes that were held {rolling.held} differing {len(rolling.faults)}")
    return len(rolling.faults)
