"""What is expected of a router or a peer, and what is wrong with what the program says of it."""
from __future__ import annotations

from dataclasses import dataclass
from typing import Union

Walk = tuple[str, ...]


@dataclass(frozen=True)
class Held:
    """What a report says of a router, or of a session of a peer: its state as the report has it, its rank and its path where it has one."""

    state: str
    rank: int | None = None
    path: Walk = ()

    def said(self, who: str) -> str:
        """In words, for people."""
        if self.path:
            return f"{who} goes {' '.join(self.path)}" + (f", of rank {self.rank}" if self.rank is not None else "")
        if self.state == "rank":
            return f"{who} has rank {self.rank}"
        return {"none": f"{who} has no route", "origin": f"{who} is an origin", "dead": f"{who} is down"}[self.state]


@dataclass(frozen=True)
class HasRank:
    """A rank, or one that is as good."""

    rank: int
    or_better: bool = False
    needs_path = False

    def holds(self, held: Held) -> bool:
        return held.rank is not None and (held.rank <= self.rank if self.or_better else held.rank == self.rank)


@dataclass(frozen=True)
class Reaches:
    """A route, or none. An origin has one."""

    has_route: bool = True
    needs_path = False

    def holds(self, held: Held) -> bool:
        return self.has_route == (held.state != "none")


@dataclass(frozen=True)
class Avoids:
    """A path that meets none of these. Who has no route meets nobody."""

    names: Walk
    needs_path = True

    def holds(self, held: Held) -> bool:
        return not set(self.names) & set(held.path)


@dataclass(frozen=True)
class Passes:
    """A path that meets each of these."""

    names: Walk
    needs_path = True

    def holds(self, held: Held) -> bool:
        return set(self.names) <= set(held.path)


@dataclass(frozen=True)
class Goes:
    """Just this path."""

    walk: Walk
    needs_path = True

    def holds(self, held: Held) -> bool:
        return held.path == self.walk


@dataclass(frozen=True)
class IsOffered:
    """Of a peer: some router offers it a path, or none does."""

    is_offered: bool = True
    needs_path = False

    def holds(self, held: Held) -> bool:
        return self.is_offered == (held.state != "none")


Claim = Union[HasRank, Reaches, Avoids, Passes, Goes, IsOffered]
