"""How a router takes the file of another stage while its sessions stay up.

BIRD takes a file whole or not at all: `configure soft` changes what is done from then on and asks nobody for anything. FRR takes it
line by line, so new lists and maps get names of their own, and stand unused until each is whole. Then each session goes over to its
new map by one line, and at last the old names go. So there is no moment at which half an entry acts.
"""
from __future__ import annotations

import re
import subprocess
from collections.abc import Collection, Iterable, Iterator
from dataclasses import dataclass

from deploying import frr
from deploying.folders import hidden
from deploying.frr_reader import paths
from deploying.plans import Plan
from texts.faults import Fault
from watching.routers import Router, Silent

from .stages import Meaning, daemon_of, meaning_of

SLOW = 300  # seconds that a load may take
OWN_MAP = re.compile(r"route-map ((?:in|out|own)-\S+) (?:deny|permit) \d+")
OWN_LIST = re.compile(r"ip prefix-list (list-\S+) seq .*")
OWN_TAG = re.compile(r"bgp large-community-list standard (tag-\d+-\d+) seq .*")
OWN_DROP = re.compile(r"ip route \S+ blackhole 254")
OWN_NETWORK = re.compile(r"network (\S+)(?: route-map own-\S+)?")


class Unloaded(Exception):
    """A router didn't take a file, or what it runs then isn't that file."""


@dataclass(frozen=True)
class Running:
    """What a router runs: a text, and what it means."""

    text: str
    meaning: Meaning
    faults: tuple[str, ...]


def running(router: Router, plan: Plan) -> Running:
    """Asks a router for what it runs, and looks whether that is as `tools/deploy --staged` would write it of the maps in it."""
    if router.daemon not in ("bird", "frr"):
        raise Fault(f"routers: {router.name}: a rollout is for BIRD and FRR")
    text = router.ask("show running-config") if router.daemon == "frr" else asked_of(need(router.get, router.name, "get"))
    daemon = daemon_of(router.daemon)
    lists, maps, unread = daemon.read(text)
    own = Plan(plan.site, lists, maps.networks, plan.unsent, plan.sessions, maps.blocks, plan.own_numbers, plan.paths, plan.ties, plan.rpki, True)
    missing = [name for name in plan.blocks if name not in maps.blocks]
    faults = [f"no maps of {name}" for name in missing] or list(unread) or list(daemon.differences(text, daemon.text_of(own)))
    return Running(text, meaning_of(lists, maps), tuple(map(hidden, faults)))


def load(router: Router, plan: Plan, asks_again: bool) -> None:
    """Has a router take the file of a plan. `asks_again`: neighbours are asked for their routes once more, which new entries may take."""
    if router.daemon == "bird":
        load_bird(router, plan, asks_again)
    else:
        load_frr(router, plan)


def load_bird(router: Router, plan: Plan, asks_again: bool) -> None:
    keep(router, plan)
    said = router.ask("configure soft")
    if "Reconfigur" not in said:
        raise Unloaded(f"{router.name}: {said.strip()}")
    if asks_again:
        for session in plan.sessions:
            router.ask(f'reload in "bgp:{session.neighbour.name}"')
        if plan.originated():
            router.ask('reload in "own:static"')


def load_frr(router: Router, plan: Plan) -> None:
    lines = list(frr_lines(plan, router.ask("show running-config")))
    said = asked_of(router.words, "".join(f"{line}\n" for line in lines))
    wrong = [line for line in said.splitlines() if line.lstrip().startswith("%") or "Unknown command" in line]
    if wrong:
        raise Unloaded(f"{router.name}: {wrong[0].strip()}")
    keep(router, plan)


def keep(router: Router, plan: Plan) -> None:
    """Puts the file of a plan where the router has the one with which it begins."""
    asked_of(need(router.put, router.name, "put"), daemon_of(router.daemon).text_of(plan))


def frr_lines(plan: Plan, text: str) -> Iterator[str]:
    """The lines that take FRR from what it runs to a plan."""
    has = dict.fromkeys(path for _, path in paths(text))
    yield "configure terminal"
    yield from new_lines(plan, has)
    yield from turned_lines(plan, has)
    yield from old_lines(plan, has)
    yield "end"


def new_lines(plan: Plan, has: Collection[tuple[str, ...]]) -> Iterator[str]:
    """Lists and maps, whole, as far as they aren't there: nothing uses them yet."""
    for part in frr.judging_parts(plan, frr.mark(plan)):
        if not all(path in has for _, path in paths("\n".join(part))):
            yield from (line for line in part if not line.startswith("!"))


def turned_lines(plan: Plan, has: Iterable[tuple[str, ...]]) -> Iterator[str]:
    """What is announced, and each session goes over to its new maps."""
    family = (f"router bgp {plan.site.asn}", "address-family ipv4 unicast")
    wanted = plan.originated()
    yield from (family[0], f" {family[1]}")
    for path in has:
        network = OWN_NETWORK.fullmatch(path[-1])
        if path[:2] == family and network and network[1] not in wanted:
            yield f"  no network {network[1]}"
    yield from frr.announced_lines(plan, frr.mark(plan))
    for session in plan.sessions:
        yield from frr.used_lines(session, frr.mark(plan))
    yield from (" exit-address-family", "exit")


def old_lines(plan: Plan, has: Iterable[tuple[str, ...]]) -> Iterator[str]:
    """What nothing uses any more goes."""
    wanted = {path for part in frr.judging_parts(plan, frr.mark(plan)) for _, path in paths("\n".join(part))}
    heads = {path[0] for path in wanted}
    gone: dict[str, None] = {}
    for path in has:
        if len(path) == 1 and path[0] not in heads:
            for form, words in ((OWN_MAP, "no route-map"), (OWN_LIST, "no ip prefix-list"), (OWN_TAG, "no bgp large-community-list standard")):
                found = form.fullmatch(path[0])
                if found:
                    gone[f"{words} {found[1]}"] = None
            if OWN_DROP.fullmatch(path[0]):
                gone[f"no {path[0]}"] = None
    yield from sorted(gone, key=lambda line: not line.startswith("no route-map"))


def asked_of(words: tuple[str, ...], given: str | None = None) -> str:
    """Runs the words of a router, which may read something."""
    try:
        stdin = None if given is not None else subprocess.DEVNULL
        ran = subprocess.run(words, input=given, stdin=stdin, capture_output=True, text=True, timeout=SLOW)
    except (OSError, subprocess.TimeoutExpired) as why:
        raise Silent(str(why)) from None
    if ran.returncode:
        raise Silent(ran.stderr.strip() or f"status {ran.returncode}")
    return ran.stdout


def need(words: tuple[str, ...], name: str, key: str) -> tuple[str, ...]:
    """Words that a rollout can't do without."""
    if not words:
        raise Fault(f"routers: {name}: a rollout needs `{key}`")
    return words
