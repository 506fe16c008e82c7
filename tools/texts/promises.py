"""What `promises` says of each case. In its text cases that say the same stand together; here each stands alone.

Of the routers that a line names those are left out, in a case, that are its origins there; and an origin is unused in the cases of which
it is one.
"""
from __future__ import annotations

import re
from collections.abc import Sequence
from dataclasses import dataclass, field

WORD = re.compile(r"[^ ]+(?: le [0-9]+(?:,[^ ]+)?)*")  # a word of a `prefix` line: its patterns stand behind commas
Session = tuple[str, str]


@dataclass
class Promised:
    """A case: its number, its statement, its prefixes or patterns and its origins; who has which best rank; and who has none."""

    number: int
    statement: int
    prefixes: list[str]
    origins: list[str]
    routers: dict[str, int] = field(default_factory=dict)
    sessions: dict[Session, int] = field(default_factory=dict)
    unclaimed: list[str] = field(default_factory=list)
    unclaimed_sessions: list[Session] = field(default_factory=list)
    peers: list[str] = field(default_factory=list)
    transit: list[str] = field(default_factory=list)
    covered: bool = False
    unused: list[str] = field(default_factory=list)


@dataclass
class Promises:
    """What a policy promises: its cases by number, the alternative of each rank of each statement, and the lines behind the cases."""

    cases: list[Promised]
    ranks: dict[int, list[str]]
    behind: list[str]


def pairs(names: Sequence[str]) -> list[Session]:
    """Sessions, each a router and a peer."""
    return list(zip(names[::2], names[1::2]))


def told(case: Promised, line: str) -> None:
    """Notes what a line of its group says of a case."""
    words = line.split(" ")
    kind, what = words[0], words[1] if len(words) > 1 else ""
    rank = int(words[-1]) if kind == "source" else 0
    names = words[2:-2] if kind == "source" else words[2:]
    routers = [name for name in names if name not in case.origins]
    if kind == "source" and what == "router":
        case.routers |= dict.fromkeys(routers, rank)
    elif kind == "source":
        case.sessions |= dict.fromkeys(pairs(names), rank)
    elif kind == "unclaimed" and what == "router":
        case.unclaimed += routers
    elif kind == "unclaimed" and what == "session":
        case.unclaimed_sessions += pairs(names)
    elif kind == "unclaimed":
        case.peers += names
    elif kind == "transit":
        case.transit += routers
    elif kind == "covered":
        case.covered = True
    elif kind == "unused":
        case.unused += [name for name in names if name in case.origins]


def group_of(lines: Sequence[str]) -> list[Promised]:
    """The cases of a group, by its lines."""
    numbers, statement = lines[0].removeprefix("case ").split(" statement ")
    cases = [Promised(int(number), int(statement), [], []) for number in numbers.split(" ")]
    for line in lines[1:]:
        kind, _, rest = line.partition(" ")
        if kind == "prefix":
            for case, word in zip(cases, WORD.findall(rest)):
                case.prefixes += word.split(",")
        elif kind == "origin":
            for case, word in zip(cases, rest.split(" ")):
                case.origins += word.split(",")
        else:
            for case in cases:
                told(case, line)
    return cases


def promises_of(text: str) -> Promises:
    """What a text of `promises` says, each case alone, by number."""
    lines = text.splitlines()
    ends = [place for place, line in enumerate(lines) if re.match("statement |case |uncarried |open |apart |cases ", line)] + [len(lines)]
    found = Promises([], {}, [])
    for place, end in zip(ends, ends[1:]):
        first = lines[place]
        if first.startswith("statement "):
            found.ranks[int(first.split(" ")[1])] = [line.split(" ", 2)[2] for line in lines[place + 1:end]]
        elif first.startswith("case "):
            found.cases += group_of(lines[place:end])
        else:
            found.behind.append(first)
    found.cases.sort(key=lambda case: case.number)
    return found
