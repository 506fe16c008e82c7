"""The words of tools/import and tools/export, and how they end."""
from __future__ import annotations

import os
import sys
from collections.abc import Callable

from deploying.addresses import Addresses
from texts.faults import Fault
from texts.files import read_text
from texts.statuses import BAD_INPUT, DONE, READ_FAULT, USAGE
from texts.topology import Topology

from . import containerlab, graphml, graphviz, links_table
from .graph import Graph
from .lawful import topology_of

READERS: dict[str, Callable[[str], Graph]] = {
    ".dot": graphviz.read, ".gv": graphviz.read, ".graphml": graphml.read, ".csv": links_table.read, ".tsv": links_table.read,
    ".yml": containerlab.read, ".yaml": containerlab.read,
}


def imported(words: list[str], usage: str) -> int:
    """tools/import [--peer PATTERN].. FILE"""
    patterns = []
    while words[:1] == ["--peer"] and len(words) > 1:
        patterns.append(words[1])
        words = words[2:]
    if len(words) != 1 or words[0].startswith("-"):
        sys.stderr.write(usage)
        return USAGE
    reader = READERS.get(os.path.splitext(words[0])[1].lower())
    if not reader:
        raise Fault(f"{words[0]}: the ending says of which form a text is: {' '.join(READERS)}")
    try:
        made = topology_of(reader(read_text(words[0])), patterns)
    except Fault as fault:
        raise Fault(f"{words[0]}: {fault}") from None
    sys.stdout.write(made.text)
    sys.stderr.write("".join(f"import: {line}\n" for line in made.changes))
    return DONE


def exported(words: list[str], usage: str) -> int:
    """tools/export TOPO ADDRESSES FOLDER"""
    if len(words) != 3 or words[0].startswith("-"):
        sys.stderr.write(usage)
        return USAGE
    topology = Topology(read_text(words[0]))
    addresses = Addresses(read_text(words[1]), topology)
    for router in topology.routers:
        if not os.path.isfile(os.path.join(words[2], f"{router.name}.frr.conf")):
            raise Fault(f"{words[2]}: no file {router.name}.frr.conf: tools/deploy --frr writes it")
    with open(os.path.join(words[2], "daemons"), "w", encoding="utf-8") as file:
        file.write(containerlab.DAEMONS)
    sys.stdout.write(containerlab.text_of(topology, addresses, words[2]))
    return DONE


def main(work: Callable[[list[str], str], int], name: str, words: list[str], usage: str) -> int:
    """Does the work of a script. Returns the status; what is wrong goes to the error output."""
    try:
        return work(words, usage)
    except Fault as fault:
        status, said = BAD_INPUT, str(fault)
    except OSError as error:
        status, said = READ_FAULT, f"{error.filename}: {error.strerror}"
    sys.stderr.write(f"{name}: {said}\n")
    return status
