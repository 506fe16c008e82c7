"""The words of tools/deploy, and how it ends."""
from __future__ import annotations

import re
import sys
from dataclasses import dataclass, replace

from texts.faults import Fault
from texts.files import read_text
from texts.policy import cut
from texts.statuses import BAD_INPUT, CHECK_FAILS, DONE, READ_FAULT, USAGE
from texts.topology import Topology

from .addresses import Addresses
from .folders import DAEMONS, Described, Drift, read_back, write_files
from .map_reader import read_maps
from .maps import maps_text
from .numbering import numbered
from .plans import Choices, Ties

MOST_PATHS = 255  # BIRD takes no more, and FRR doesn't tell 256
RULES = [rule.value for rule in Ties]


@dataclass(frozen=True)
class Options:
    """The options: the most next hops, which of several routes is used, the file of the policy, and whether files are staged."""

    paths: int = 1
    ties: Ties = Ties.LOWEST
    policy: str | None = None
    staged: bool = False


def options_of(words: list[str]) -> tuple[list[str], Options] | None:
    """The words without the options behind the first, and these; None where an option isn't as it should be."""
    words, found = list(words), Options()
    while words[1:2] in (["--paths"], ["--ties"], ["--policy"], ["--staged"]):
        option = words.pop(1)
        if option == "--staged":
            found = replace(found, staged=True)
            continue
        value = words.pop(1) if words[1:] else ""
        if option == "--policy" and value:
            found = replace(found, policy=value)
        elif option == "--ties" and value in RULES:
            found = replace(found, ties=Ties(value))
        elif option == "--paths" and re.fullmatch("[1-9][0-9]{0,2}", value) and int(value) <= MOST_PATHS:
            found = replace(found, paths=int(value))
        else:
            return None
    return words, found


def described(topology_file: str, addresses_file: str, options: Options) -> Described:
    """The network of these files."""
    topology = Topology(read_text(topology_file))
    policy = cut(read_text(options.policy).encode()) if options.policy else None
    choices = Choices.of(options.paths, options.ties, policy, topology, options.staged)
    return Described(topology, Addresses(read_text(addresses_file), topology), choices)


def run(given: list[str], usage: str) -> int:
    found = options_of(given)
    words, options = found or ([], Options())
    if len(words) == 4 and words[0] == "--read":
        network = described(words[1], words[2], options)
        sys.stdout.write(maps_text(network.topology, read_back(network, words[3])))
    elif len(words) == 3 and words[0] == "--number":
        sys.stdout.write(numbered(Topology(read_text(words[2])), words[1]))
    elif len(words) >= 5 and words[0].startswith("--") and words[0][2:] in DAEMONS:
        topology = Topology(read_text(words[1]))
        maps = read_maps(topology, read_text(words[2]))
        write_files(DAEMONS[words[0][2:]], described(words[1], words[3], options), maps, words[4], words[5:])
    else:
        sys.stderr.write(usage)
        return USAGE
    return DONE


def main(words: list[str], usage: str) -> int:
    """Runs the words. Returns the status; what is wrong goes to the error output, a line each."""
    try:
        return run(words, usage)
    except Drift as drift:
        status, said = CHECK_FAILS, str(drift)
    except Fault as fault:
        status, said = BAD_INPUT, str(fault)
    except OSError as error:
        status, said = READ_FAULT, f"{error.filename}: {error.strerror}"
    sys.stderr.write("".join(f"deploy: {line}\n" for line in said.splitlines()))
    return status
