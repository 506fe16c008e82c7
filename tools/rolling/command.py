"""The words of tools/rollout, the order of the stages, and what is asked in between."""
from __future__ import annotations

import sys
import tempfile
import time
from collections.abc import Sequence
from dataclasses import dataclass

from deploying.addresses import Addresses
from deploying.command import Options, options_of
from laboratory.scenarios import asked_prefixes
from reasons.program import found
from texts.faults import Ended, Fault
from texts.files import read_text
from texts.statuses import BAD_INPUT, CHECK_FAILS, DONE, READ_FAULT, USAGE
from texts.topology import Site, Topology

from watching.audits import Auditor, asked
from watching.moment import Moment, Recorder
from watching.routers import Router, Silent, read_routers
from watching.told import facts_of

from .loading import Unloaded, load, running
from .stages import Rollout, Stage, is_still, told_plan, write_plan

PATIENCE = 300  # seconds in which a network comes to rest


class Stopped(Exception):
    """A rollout doesn't go on: what was seen isn't what is to be."""


@dataclass(frozen=True)
class Change:
    """A rollout on a running network: its texts, the sites of its routers, and how each router is asked."""

    rollout: Rollout
    routers: dict[str, Router]
    recorder: Recorder
    auditors: dict[Stage, Auditor]

    def site(self, name: str) -> Site:
        return self.rollout.topology.sites[name]

    # ---- what is seen

    def stages(self, name: str) -> frozenset[Stage]:
        """The stages that a router may be said to run."""
        plan = self.rollout.plan(Stage.OLD, self.site(name))
        seen = running(self.routers[name], plan)
        if seen.faults:
            raise Stopped(f"{name} runs no staged file of tools/deploy: {seen.faults[0]}")
        return self.rollout.at(name, seen.meaning)

    def moment(self) -> Moment:
        """The network at rest."""
        moment = self.recorder.moment(time.monotonic() + PATIENCE)
        if moment is None:
            raise Stopped(f"the network doesn't rest within {PATIENCE} seconds")
        return moment

    def audit(self, side: Stage, moment: Moment) -> None:
        """Looks whether the routes are those of a policy."""
        for prefix, verdict in self.auditors[side].verdicts(moment, self.recorder.prefixes).items():
            if not verdict.is_stable:
                raise Stopped(f"{prefix}: by the {side.value} policy: {verdict.line}")

    def same(self, before: Moment, name: str) -> None:
        """Looks whether nothing has changed since a moment."""
        now = self.moment()
        was, has = (facts_of(moment, {}, self.rollout.topology) for moment in (before, now))
        for thing in sorted(set(was) | set(has)):
            if was.get(thing) != has.get(thing):
                raise Stopped(f"{name} was loaded, and then {thing} {has.get(thing, 'is as it is to be')}")
        for prefix in self.recorder.prefixes:
            if before.tables[prefix] != now.tables[prefix]:
                raise Stopped(f"{name} was loaded, and then routes to {prefix} changed, though none is to")

    # ---- what is done

    def begin(self, to: Stage, names: Sequence[str]) -> tuple[Stage, list[str]]:
        """Where the network is, and who is to be loaded; none is where a router is further away than one stage."""
        at = {name: self.stages(name) for name in self.routers}
        for start in (to, *to.near()):
            if all(stages & {start, to} for stages in at.values()):
                return start, [name for name in names if to not in at[name]]
        told = ", ".join(f"{name} {' '.join(sorted(stage.value for stage in stages)) or 'none'}" for name, stages in at.items())
        raise Stopped(f"to go to {to.value}, all are to run {' or '.join(stage.value for stage in to.near())}, or it: {told}")

    def go(self, to: Stage, names: Sequence[str]) -> None:
        """Loads a stage at these routers, one after another."""
        start, waiting = self.begin(to, names)
        before = self.moment()
        if waiting:
            self.audit(start.side, before)
        for name in waiting:
            plan = self.rollout.plan(to, self.site(name))
            load(self.routers[name], plan, asks_again=not is_still(start, to))
            if to not in self.stages(name):
                raise Stopped(f"{name} doesn't run {to.value}, though it was loaded")
            say(f"{name}: runs {to.value}")
            if is_still(start, to):
                self.same(before, name)
        if all(to in self.stages(name) for name in self.routers):
            self.audit(to.side, self.moment())
            say(f"all run {to.value}, and rest in the {to.side.value} policy's outcome")


def say(line: str) -> None:
    print(line, flush=True)


def change_of(words: Sequence[str], options: Options, folder: str) -> Change:
    """The change of TOPO ADDRESSES ROUTERS FOLDER."""
    topology = Topology(read_text(words[0]))
    rollout = Rollout.read(words[3], topology, Addresses(read_text(words[1]), topology), options.paths, options.ties)
    routers = read_routers(read_text(words[2]), topology)
    prefixes = list(dict.fromkeys(prefix for stage in (Stage.OLD, Stage.NEW) for prefix in asked_prefixes(rollout.maps[stage])))
    recorder = Recorder(topology, routers, prefixes, folder)
    auditors = {side: Auditor(found(), [words[0], *(rollout.text(side, name) for name in ("policy", "config", "evidence"))], folder)
                for side in (Stage.OLD, Stage.NEW)}
    return Change(rollout, {router.name: router for router in routers}, recorder, auditors)


def run(given: Sequence[str], usage: str) -> int:
    words, options = options_of(list(given)) or ([], Options())
    stages = {stage.value: stage for stage in Stage}
    if len(words) == 7 and words[0] == "--plan":
        program, (topology, old, new, config, evidence, folder) = found(), words[1:]
        write_plan(lambda *asks: asked(program, *asks), topology, (old, new), config, evidence, folder)
        for line in told_plan(Topology(read_text(topology)), folder):
            say(line)
        return DONE
    is_shown, is_moved = len(words) == 5 and words[0] == "--show", len(words) >= 6 and words[0] == "--to" and words[1] in stages
    if not is_shown and not is_moved:
        sys.stderr.write(usage)
        return USAGE
    with tempfile.TemporaryDirectory(prefix="propane-rollout-") as room:
        change = change_of(words[1:] if is_shown else words[2:], options, room)
        if is_shown:
            for name in change.routers:
                runs = sorted((stage.value for stage in change.stages(name)), key=list(stages).index)
                say(f"{name}: runs {' '.join(runs) or 'none of the stages'}")
            return DONE
        names = list(words[6:]) or list(change.routers)
        for name in names:
            if name not in change.routers:
                raise Fault(f"no router of the topology: {name}")
        change.go(stages[words[1]], names)
    return DONE


def main(words: Sequence[str], usage: str) -> int:
    """Runs the words. Returns the status; what is wrong is a line on the error output."""
    try:
        return run(words, usage)
    except (Stopped, Unloaded, Silent) as why:
        status, line = CHECK_FAILS, f"rollout: stopped: {why}"
    except Fault as fault:
        status, line = BAD_INPUT, f"rollout: {fault}"
    except Ended as ended:
        status, line = ended.status, ended.line
    except OSError as error:
        status, line = READ_FAULT, f"rollout: {error.filename}: {error.strerror}"
    sys.stderr.write(f"{line}\n" if line else "")
    return status
