"""The files of routers in a folder: written, and read back as maps, or as what drifted.

A file is read back by writing it again: maps are taken from the lines that are known, the file of these maps is written, and both are
compared. So no grammar of BIRD, FRR or OpenBGPD is needed, and whatever else is in a file is reported.
"""
from __future__ import annotations

import os
import re
from collections.abc import Callable, Iterable, Iterator, Sequence
from dataclasses import dataclass

from texts.faults import Fault
from texts.files import read_text, write_private
from texts.prefixes import is_prefix
from texts.topology import Site, Topology

from . import bird, frr, openbgpd
from .addresses import Addresses
from .bird_reader import read_bird
from .frr_reader import frr_differences, read_frr
from .maps import Lists, Maps, RouterMaps, in_order
from .openbgpd_reader import read_openbgpd
from .ordered import differences
from .plans import Choices, Plan, plan_of


class Drift(Exception):
    """Files aren't what would be written for their routers: a line a difference."""


@dataclass(frozen=True)
class Daemon:
    """How the files of a daemon are called, written and read."""

    ending: str
    text_of: Callable[[Plan], str]
    read: Callable[[str], tuple[Lists, RouterMaps, Sequence[str]]]
    differences: Callable[[str, str], Iterable[str]]


@dataclass(frozen=True)
class Described:
    """A network, where its sessions run, and what all its files say besides."""

    topology: Topology
    addresses: Addresses
    choices: Choices = Choices()

    def plan(self, maps: Maps, router: Site) -> Plan:
        """All that a router's file says."""
        return plan_of(self.topology, maps, self.addresses, self.choices, router)


BIRD = Daemon(bird.ENDING, bird.bird_text, read_bird, differences)
FRR = Daemon(frr.ENDING, frr.frr_text, read_frr, frr_differences)
OPENBGPD = Daemon(openbgpd.ENDING, openbgpd.openbgpd_text, read_openbgpd, differences)
DAEMONS = {"bird": BIRD, "frr": FRR, "openbgpd": OPENBGPD}


def write_files(daemon: Daemon, network: Described, maps: Maps, folder: str, names: Sequence[str]) -> None:
    """Writes the files of these routers, or of all. All texts are made before the first file is written."""
    for name in names:
        if name not in maps.routers:
            raise Fault(f"no router of the topology: {name}")
    wanted = [router for router in network.topology.routers if not names or router.name in names]
    texts = {router.name + daemon.ending: daemon.text_of(network.plan(maps, router)) for router in wanted}
    os.makedirs(folder, exist_ok=True)
    for name, text in texts.items():
        write_private(os.path.join(folder, name), text)


def read_back(network: Described, folder: str) -> Maps:
    """The maps of the files. They are written anew, and nothing else may stand in the files, but for what isn't of BGP in FRR's."""
    topology = network.topology
    files = {router.name: file_of(folder, router.name) for router in topology.routers}
    read = {name: daemon.read(text) for name, (daemon, _, text) in files.items()}
    maps = Maps(next((lists for lists, *_ in read.values()), {}), {name: mine for name, (_, mine, _) in read.items()})
    for mine in maps.routers.values():
        mine.networks = in_order(own for own in mine.networks if is_prefix(own.prefix))
    drift = []
    for router in topology.routers:
        (daemon, name, text), (lists, _, unread) = files[router.name], read[router.name]
        found = unread or list(lacking(topology, maps, router.name, lists)) \
            or list(daemon.differences(text, daemon.text_of(network.plan(maps, router))))
        drift += [f"{router.name}: {name}: {hidden(line)}" for line in found]
    if drift:
        raise Drift("\n".join(drift))
    return maps


def file_of(folder: str, router: str) -> tuple[Daemon, str, str]:
    found = [(daemon, router + daemon.ending) for daemon in DAEMONS.values() if os.path.exists(os.path.join(folder, router + daemon.ending))]
    if len(found) != 1:
        raise Fault(f"{folder}: {'two files' if found else 'no file'} of the router {router}")
    daemon, name = found[0]
    return daemon, name, read_text(os.path.join(folder, name))


def lacking(topology: Topology, maps: Maps, router: str, lists: Lists) -> Iterator[str]:
    """What a router's maps lack, so that no file can be written of them."""
    for number in sorted(set(lists) | set(maps.lists)):
        if lists.get(number) != maps.lists.get(number):
            yield f"list {number} isn't that of {topology.routers[0].name}"
    mine = maps.routers[router]
    for site in topology.neighbours(router):
        if site.name not in mine.blocks:
            yield f"no maps of {site.name}"
            continue
        block = mine.blocks[site.name]
        for number in sorted({entry.number for entry in block.takes + block.sends} - set(maps.lists)):
            yield f"an entry of {site.name} is over the list {number}, which isn't there"
    for network in mine.networks:
        if network.number not in maps.lists:
            yield f"the network {network.prefix} is over the list {network.number}, which isn't there"


def hidden(line: str) -> str:
    """A difference without the passwords that it may show."""
    return re.sub(r"(password )(?:\"[^\"]*\"|[^\s\"]\S*?(?=:? |$))", r"\1..", line)
