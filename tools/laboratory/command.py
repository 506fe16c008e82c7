"""The words of tools/lab, and its report."""
from __future__ import annotations

import argparse
import ipaddress
import itertools
import json
import os
import shutil
import sys
import time
from collections.abc import Callable, Mapping, Sequence
from typing import Any

from deploying import folders
from deploying.addresses import Addresses
from deploying.command import MOST_PATHS, RULES
from deploying.map_reader import read_maps
from deploying.maps import maps_text
from deploying.plans import Choices, Ties
from rolling.stages import Rollout, Stage, write_plan
from texts.faults import Fault
from texts.helping import asked_as_option, folded, form
from texts.policy import cut
from texts.scenario import Scenario
from texts.topology import Topology

from . import enclosure
from .commands import TOOLS, Broken, propane, ran, read, write
from .network import Inputs, Network
from .questions import Texts
from .restless import slow_down
from .rollouts import Rolling, roll
from .scenarios import asked_prefixes, scenario_of, single_failures
from .trials import Trials, differing, run_scenarios, say

AGREES, DIFFERS, BROKEN = 0, 1, 2
HOLD = 12  # seconds
ENDED = (".ctl", ".vty", ".api", ".pid")  # what says nothing once the daemons are gone
NOTHING = Scenario("")
CHECKED_BY = {"bird": ("bird", "-p", "-c"), "frr": ("vtysh", "-C", "-f"), "openbgpd": ("bgpd", "-n", "-f")}


def words_of(arguments: Sequence[str], usage: str) -> argparse.Namespace:
    parser = argparse.ArgumentParser(prog="tools/lab", description=folded(usage), formatter_class=form)
    parser.add_argument("--frr", default="", metavar="ROUTERS", help="routers that run FRR: names by commas, `third`, `half` or `all`")
    parser.add_argument("--openbgpd", default="", metavar="ROUTERS", help="routers that run OpenBGPD: names by commas, `third` or `all`")
    parser.add_argument("--addresses", metavar="FILE", help="addresses as tools/deploy takes them; else some are made")
    parser.add_argument("--files", metavar="FOLDER", help="files of routers to be run in place of those of tools/deploy")
    parser.add_argument("--patience", type=float, default=180, metavar="SECONDS",
                        help="for which a network that isn't quiet, or differs, may still change (180)")
    parser.add_argument("--keep", metavar="FOLDER", help="a folder for all that is written, recorded and logged")
    parser.add_argument("--paths", type=number_up_to(MOST_PATHS), default=1, metavar="N",
                        help="next hops over which packets are spread, as tools/deploy takes it (1)")
    parser.add_argument("--ties", choices=RULES, default=RULES[0],
                        help="which of several routes a router uses, as tools/deploy takes it; with `oldest` any stable outcome is right")
    parser.add_argument("--stop", type=number_up_to(1_000_000), metavar="N", help="end once N scenarios have differed")
    parser.add_argument("--restless", type=number_up_to(3600), default=0, metavar="SECONDS",
                        help="for which all moves before each scenario: links, sessions, what peers say; takes `--ties oldest`")
    parser.add_argument("--rollout", metavar="NEW-POLICY", help="go from the policy to this one and back, stage by stage, while the network runs")
    parser.add_argument("--stages", metavar="FOLDER", help="stages to be loaded in place of those that propane writes (tools/rollout)")
    for word in ("topology", "policy"):
        parser.add_argument(word)
    parser.add_argument("scenarios", nargs="*", metavar="scenario")
    words = parser.parse_args(asked_as_option(arguments))
    if words.paths > 1 and words.ties != RULES[0]:
        parser.error("--paths: propane tells the next hops of the outcome in which the lowest identifier decides")
    if words.restless and words.ties == RULES[0]:
        parser.error("--restless: peers make their paths longer, so which of several routes is used isn't as propane tells")
    if (words.rollout or words.stages) and (words.files or words.restless):
        parser.error("--rollout: a change of policy takes no files and no `--restless`")
    named = words.topology, words.policy, *words.scenarios, words.addresses, words.files, words.keep, words.rollout, words.stages
    for path in (*named, TOOLS, os.environ.get("PROGRAM")):
        if path and os.path.realpath(path).startswith("/run/"):
            parser.error(f"{path}: the lab has a /run of its own")
    return words


def number_up_to(most: int) -> Callable[[str], int]:
    """Reads a whole number from 1 on."""

    def number(text: str) -> int:
        if not text.isascii() or not text.isdigit() or not 1 <= int(text) <= most:
            raise argparse.ArgumentTypeError(f"no number from 1 to {most}: {text}")
        return int(text)

    return number


def made_addresses(topology: Topology, kinds: Mapping[str, str]) -> str:
    """Addresses for a network that has none, and a public number that none of its sites has (RFC 5398).

    OpenBGPD sees only by the hold time that a link is gone."""
    taken, start = {site.asn for site in topology.sites.values()}, ipaddress.IPv4Address("172.16.0.0")
    more: dict[str, Any] = {"hold": HOLD} if "openbgpd" in kinds.values() else {}
    links = [{"ends": link, "addresses": [str(start + 2 * place), str(start + 2 * place + 1)], **more}
             for place, link in enumerate(topology.links)]
    return json.dumps({"public_as": next(number for number in itertools.count(65536) if number not in taken), "links": links})


def kinds_of(topology: Topology, frr: str, openbgpd: str, files: str | None) -> dict[str, str]:
    """Which daemon each router runs: BIRD, or the one for which it is named; but where a file is given, as its ending says."""
    names = [router.name for router in topology.routers]
    kinds = dict.fromkeys(names, "bird")
    for kind, word, third in (("frr", frr, names[1::3]), ("openbgpd", openbgpd, names[2::3])):
        for name in {"all": names, "half": names[1::2], "third": third}.get(word) or [name for name in word.split(",") if name]:
            if name not in names:
                raise Fault(f"--{kind}: no router of the topology: {name}")
            if kinds[name] != "bird":
                raise Fault(f"--{kind}: the router {name} is to run another daemon, too")
            kinds[name] = kind
    given = os.listdir(files) if files else []
    return {name: next((kind for kind, daemon in folders.DAEMONS.items() if name + daemon.ending in given), kinds[name]) for name in names}


def deployed(inputs: Inputs, kinds: Mapping[str, str], given: str | None, folder: str) -> None:
    """Puts the file of each router into the folder: the given one, or the one that is written for it; `inputs.files` tells which.

    Each is tried by its daemon's own check."""
    for router in inputs.described.topology.routers:
        daemon = folders.DAEMONS[kinds[router.name]]
        file = os.path.join(folder, router.name + daemon.ending)
        folders.write_files(daemon, inputs.described, inputs.maps, folder, [router.name])
        if given and os.path.exists(os.path.join(given, router.name + daemon.ending)):
            shutil.copyfile(os.path.join(given, router.name + daemon.ending), file)
        ran(*CHECKED_BY[kinds[router.name]], file)
        inputs.files[router.name] = file


def loaded(texts: Texts, network: Network, folder: str) -> str:
    """What is to be said of the maps as they stand on the routers: the verdict of checkmap, or what drifted."""
    os.makedirs(folder, exist_ok=True)
    for name, file in network.inputs.files.items():
        write(os.path.join(folder, os.path.basename(file)), network.daemons[name].loaded(file))
    try:
        text = maps_text(network.topology, folders.read_back(network.inputs.described, folder))
    except (folders.Drift, Fault) as drift:
        return "\n  ".join(["differ", *str(drift).splitlines()])
    write(os.path.join(folder, "maps"), text)
    return propane("checkmap", texts.config, os.path.join(folder, "maps"), status=(0, 7)).strip()


def run(words: argparse.Namespace, folder: str) -> int:
    texts = Texts.made(os.path.abspath(words.topology), os.path.abspath(words.policy), folder)
    topology = Topology(read(texts.topology))
    maps = read_maps(topology, read(texts.maps))
    kinds = kinds_of(topology, words.frr, words.openbgpd, words.files)
    if "openbgpd" in kinds.values() and not enclosure.is_root():
        raise Broken("OpenBGPD needs a lab that root runs: it gives up root in a way that a user's namespaces don't allow")
    addresses = Addresses(read(words.addresses) if words.addresses else made_addresses(topology, kinds), topology)
    if words.rollout or words.stages:
        return rolled(words, texts, topology, addresses, kinds, folder)
    scenarios = [scenario_of(texts.topology, texts.policy, path) for path in words.scenarios] \
        or single_failures(topology, asked_prefixes(maps))
    choices = Choices.of(words.paths, Ties(words.ties), cut(read(texts.policy).encode()), topology)
    inputs = Inputs(folders.Described(topology, addresses, choices), maps, {})
    deployed(inputs, kinds, words.files, os.path.join(folder, "deployed"))
    network = Network(inputs, kinds, [scenario.prefix for scenario in scenarios], os.path.join(folder, "run"))
    others = ", ".join(f"{name} {list(kinds.values()).count(kind)}" for kind, name in (("frr", "FRR"), ("openbgpd", "OpenBGPD")))
    say(f"routers {len(topology.routers)}, of them {others}, peers {len(topology.peers)}, links {len(topology.links)}")
    network.lay()
    network.make(NOTHING)
    network.settle(time.monotonic() + words.patience)
    verdict = loaded(texts, network, os.path.join(folder, "loaded"))
    say(f"maps as they stand on the routers: {verdict}")
    if words.restless:
        slow_down(network)
    answers = run_scenarios(Trials(network, texts, folder, words.patience, words.restless), scenarios, words.stop)
    sums = {part: sum(getattr(answer, part.replace(" ", "_")) for answer in answers) for part in ("paths", "offers", "next hops", "flows")}
    said = " ".join(f"{part} {number}" for part, number in sums.items() if part != "flows" or words.paths > 1)
    say(f"scenarios {len(answers)} {said} differing {differing(answers)}")
    return AGREES if verdict == "same" and not differing(answers) else DIFFERS


def rolled(words: argparse.Namespace, texts: Texts, topology: Topology, addresses: Addresses, kinds: Mapping[str, str], folder: str) -> int:
    """A change of policy on the network while it runs."""
    if "openbgpd" in kinds.values():
        raise Fault("--rollout: OpenBGPD has no staged files")
    plan = words.stages or os.path.join(folder, "plan")
    if words.rollout and not words.stages:
        policies = (texts.policy, os.path.abspath(words.rollout))
        write_plan(lambda *asked: (0, propane(*asked)), texts.topology, policies, texts.config, texts.evidence, plan)
    rollout = Rollout.read(plan, topology, addresses, words.paths, Ties(words.ties))
    inputs = Inputs(folders.Described(topology, addresses, rollout.choices[Stage.OLD]), rollout.maps[Stage.OLD], {})
    deployed(inputs, kinds, None, os.path.join(folder, "deployed"))
    named = [scenario_of(texts.topology, texts.policy, path) for path in words.scenarios]
    prefixes = [scenario.prefix for scenario in named] or [prefix for side in (Stage.OLD, Stage.NEW) for prefix in asked_prefixes(rollout.maps[side])]
    asked = list(dict.fromkeys(prefixes))
    own = {network.prefix for side in rollout.maps.values() for maps in side.routers.values() for network in maps.networks}
    network = Network(inputs, kinds, [prefix for prefix in asked if prefix not in own], os.path.join(folder, "run"))
    of_frr = list(kinds.values()).count("frr")
    said = f"routers {len(topology.routers)}, of them FRR {of_frr}, peers {len(topology.peers)}, links {len(topology.links)}"
    say(f"{said}, prefixes {len(asked)}")
    network.lay()
    network.make(NOTHING)
    names = ("policy", "config", "evidence", "maps")
    sides = {side: Texts(texts.topology, *(rollout.text(side, name) for name in names)) for side in (Stage.OLD, Stage.NEW)}
    rolling = Rolling(network, rollout, sides, asked, folder, words.patience)
    return DIFFERS if roll(rolling, named or single_failures(topology, [""])[1:]) else AGREES


def kept(folder: str, into: str) -> None:
    """Copies all that a lab has written. There are passwords in it, so nobody but its owner is to read it; what else is there stays."""
    os.umask(0o077)
    for at, _, names in os.walk(folder):
        there = os.path.join(into, os.path.relpath(at, folder))
        os.makedirs(there, exist_ok=True)
        for name in names:
            if not name.endswith(ENDED):
                shutil.copyfile(os.path.join(at, name), os.path.join(there, name))
                os.chmod(os.path.join(there, name), 0o600)


def main(arguments: Sequence[str], usage: str) -> int:
    """Runs the lab in namespaces of its own. Returns the status."""
    words = words_of(arguments, usage)
    try:
        if not enclosure.is_inside():
            return enclosure.run_inside(enclosure.command())
        enclosure.furnish()
        try:
            return run(words, enclosure.HERE)
        finally:
            if words.keep:
                kept(enclosure.HERE, words.keep)
    except (Broken, Fault, enclosure.Stopped, OSError) as error:
        sys.stderr.write(f"lab: {error}\n")
        return BROKEN
