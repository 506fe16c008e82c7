"""What `compare` says of two policies: what changes for which prefixes and for whom, with walks that show it.

The first word of a line says what the line tells. So a router may be called `all`, `but` or `peers`.
"""
from __future__ import annotations

from collections.abc import Iterable, Iterator
from dataclasses import dataclass, field
from typing import Optional

Rank = Optional[int]  # none where a walk isn't permitted
Walk = tuple[str, ...]


@dataclass(frozen=True)
class Named:
    """Routers, or sessions: these, or all but these."""

    are_all: bool
    names: tuple[str, ...]  # a session is its router, a space and its peer

    def among(self, every: Iterable[str]) -> list[str]:
        """Those of these that are meant."""
        return [name for name in every if (name in self.names) != self.are_all]


@dataclass(frozen=True)
class Row:
    """A walk, with its rank in either policy. No router is in a path twice."""

    old: Rank
    new: Rank
    walk: Walk
    is_path: bool


@dataclass
class Places:
    """Routers and sessions of which something is told, and for which prefixes of their change alone: as the line `only ..` or `but ..` says."""

    part: list[str] = field(default_factory=list)
    routers: Named | None = None
    sessions: Named | None = None


@dataclass
class Differs(Places):
    """Places that differ by the same words, and the rows that are shown of them."""

    words: tuple[str, ...] = ()
    rows: list[Row] = field(default_factory=list)


@dataclass
class Carriers(Places):
    """Routers over which walks go that one policy alone permits: the old one where they are lost, the new one where they are gained."""

    word: str = ""


@dataclass(frozen=True)
class Origins:
    """Origins that stay where the word is empty; else those that are lost, kept or gained. They are the peers where no routers are named."""

    word: str
    routers: Named | None


@dataclass
class Change:
    """Prefixes for which two policies differ alike: their statements, by numbers from 1, and what differs."""

    old: int | None
    new: int | None
    prefixes: list[str] = field(default_factory=list)  # as their lines have them
    origins: list[Origins] = field(default_factory=list)
    differs: list[Differs] = field(default_factory=list)
    carriers: list[Carriers] = field(default_factory=list)


@dataclass
class Comparison:
    """What two policies change: the changes, how many pairs of cases there are, and how many of them differ."""

    changes: list[Change] = field(default_factory=list)
    cases: int = 0
    changed: int = 0


def number(word: str) -> int | None:
    """A number from 1, or none."""
    return None if word == "none" else int(word)


def kind_of(line: str) -> str:
    """Whether a line names routers or sessions."""
    first, _, rest = line.partition(" ")
    return rest.split(" ")[0] if first == "all" else first


def named(line: str) -> Named:
    """The routers or sessions of a line: `routers R ..`, `all routers`, `all routers but R ..`, and so for sessions."""
    are_all = line.startswith("all ")
    names = line.split(" ", 3)[3:] if are_all else line.split(" ", 1)[1:]
    return Named(are_all, tuple(names[0].split(", " if kind_of(line) == "sessions" else " ")) if names else ())


def origins(words: str) -> Origins:
    """What stands behind `origins`."""
    first, _, rest = words.partition(" ")
    word, of = (first, rest) if first in ("lost", "kept", "gained") else ("", words)
    return Origins(word, None if of == "peers" else named(of))


def row(words: str) -> Row:
    """What stands behind `rank`."""
    old, _, new, kind, *walk = words.split(" ")
    return Row(number(old), number(new), tuple(walk), kind == "path")


def changes(lines: Iterable[str]) -> Iterator[Change]:
    """The changes of the lines before the last one."""
    change, places = Change(None, None), Places()
    for line in lines:
        word, _, rest = line.partition(" ")
        if word == "change":
            _, old, _, new = rest.split(" ")
            change = Change(number(old), number(new))
            yield change
        elif word == "prefix":
            change.prefixes.append(rest)
        elif word == "origins":
            change.origins.append(origins(rest))
        elif word == "differs":
            places = Differs(words=tuple(rest.split(" ")))
            change.differs.append(places)
        elif word == "carriers":
            places = Carriers(word=rest)
            change.carriers.append(places)
        elif word in ("only", "but"):
            places.part.append(line)
        elif word == "rank" and isinstance(places, Differs):
            places.rows.append(row(rest))
        elif kind_of(line) == "sessions":
            places.sessions = named(line)
        else:
            places.routers = named(line)


def comparison_of(text: str) -> Comparison:
    """What a text of `compare` says."""
    *lines, last = text.splitlines()
    words = last.split(" ")
    return Comparison(list(changes(lines)), int(words[1]), int(words[3]))
