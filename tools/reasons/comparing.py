"""What a repair newly allows, what it takes away, and what it likes in another order: all of it from `compare`, in sentences.

`compare` tells of walks, and a walk may come to a router twice. So "nothing" is said of all walks, and a walk that comes to a router
twice is told as one. Routers that a repair makes no sources any more are told elsewhere, and so left out of what is taken away.
"""
from __future__ import annotations

from collections.abc import Callable, Collection, Iterator, Sequence
from dataclasses import dataclass
from itertools import combinations

from texts.comparison import Change, Comparison, Differs, Named, Places, Rank, Row

from .cases import TO
from .network import Network
from .words import listed, shown

MOST_NAMED = 12
MOST_TOLD = 2  # walks, and kinds of places, of which one sentence each is said
KINDS = "routers", "sessions"
AS_GOOD = "as good as"
NEWLY, TAKEN, ORDER = "newly allowed for", "taken away from", "order changed for"
UNKNOWN = "newly allowed: that isn't known"


def named(names: Collection[str]) -> str:
    """Names, the first ones of many."""
    some = list(names)
    return listed(some if len(some) <= MOST_NAMED else [*some[:MOST_NAMED], f"{len(some) - MOST_NAMED} more"])


def session(name: str) -> str:
    """A session as it is told: its router, TO and its peer."""
    return TO.join(name.split(" "))


@dataclass(frozen=True)
class Compared:
    """A comparison of a statement as it was with its repair, on a network. Without order it is of walks alone: what was ranked was too
    large to be compared, and all that it permits was liked alike instead. `free` has routers that are no sources any more."""

    comparison: Comparison
    network: Network
    has_order: bool
    free: frozenset[str]

    def places(self, change: Change, places: Places) -> list[str]:
        """The routers and sessions of which something is told. What is an origin is none of them."""
        near, peers, every = self.network.near, self.network.ends, self.network.routers
        origins = {name for each in change.origins if each.routers for name in each.routers.among(every)}
        routers = places.routers.among(name for name in every if name not in origins) if places.routers else []
        sessions = [f"{router} {peer}" for router in every for peer in near[router] if peer in peers]
        return routers + [session(each) for each in places.sessions.among(sessions)] if places.sessions else routers

    def lines(self) -> list[str]:
        """The sentences."""
        newly = [*self.told(NEWLY, self.newly)] or ["newly allowed: nothing that was forbidden"]
        taken = [*self.told(TAKEN, self.taken)] or ["taken away: nothing that was allowed"]
        order = ([*self.told(ORDER, reordered)] or ["order changed: nowhere"]) if self.has_order else []
        return [*newly, *taken, *order, *self.carried()]

    def told(self, front: str, says: Callable[[Differs], str]) -> Iterator[str]:
        """A sentence for each kind of places of which there is something to say, for the first ones of many."""
        found = [f"{front} {who}{self.of(change, each)}: {said}" for change in self.comparison.changes for each in change.differs
                 if (said := says(each)) and (who := self.who(change, each, front == TAKEN))]
        yield from found[:MOST_TOLD]
        if len(found) > MOST_TOLD:
            yield f"{front} others, too, which `compare` tells: {len(found) - MOST_TOLD} more"

    def of(self, change: Change, places: Places) -> str:
        """Of which prefixes it is told, where not of all that the repair changes."""
        part = places.part or (change.prefixes if len(self.comparison.changes) > 1 else [])
        return f" ({', '.join(part[:MOST_TOLD])}{', ..' if len(part) > MOST_TOLD else ''})" if part else ""

    def who(self, change: Change, places: Places, is_taken: bool) -> str:
        """The routers and sessions in words. Of what is taken away those are left out that are no sources any more."""
        every = self.places(change, places)
        if not is_taken or self.free.isdisjoint(every):
            return ", and ".join(words_of(kind, held) for kind in KINDS if (held := getattr(places, kind)))
        return named([name for name in every if name not in self.free])

    @staticmethod
    def newly(differs: Differs) -> str:
        """The walks that the repair alone permits."""
        return walks_of([(row, row.new) for row in differs.rows if row.old is None])

    def taken(self, differs: Differs) -> str:
        """The walks that the statement as it was alone permits."""
        told = walks_of([(row, row.old if self.has_order else None) for row in differs.rows if row.new is None])
        return f"every path, as {told}" if told and "unclaimed" in differs.words else told

    def carried(self) -> Iterator[str]:
        """Who carries the prefixes that didn't, and who doesn't any more."""
        for change in self.comparison.changes:
            for each in change.carriers:
                word = "carried newly by" if each.word == "gained" else "carried no more by"
                yield f"{word} {words_of('routers', each.routers) if each.routers else ''}{self.of(change, each)}"

    def freed(self) -> set[str]:
        """The places that newly have a path."""
        return {name for change in self.comparison.changes for each in change.differs
                if any(map(is_new_path, each.rows)) for name in self.places(change, each)}

    def count(self) -> int:
        """How many newly allowed paths are shown."""
        return sum(is_new_path(row) for change in self.comparison.changes for each in change.differs for row in each.rows)


def is_new_path(row: Row) -> bool:
    """Whether a path is permitted that wasn't."""
    return row.old is None and row.is_path


def words_of(kind: str, held: Named) -> str:
    """Routers or sessions in words."""
    names = [session(name) for name in held.names] if kind == "sessions" else list(held.names)
    if held.are_all:
        return f"all {kind}" + (f" but {named(names)}" if names else "")
    return named(names)


def walks_of(rows: Sequence[tuple[Row, Rank]]) -> str:
    """Walks in words, each with its rank where that is known: the first ones of many."""
    told = [walk_of(row, rank) for row, rank in rows[:MOST_TOLD]]
    return "; ".join(told) + (f"; and {len(rows) - MOST_TOLD} more" if len(rows) > MOST_TOLD else "")


def walk_of(row: Row, rank: Rank = None) -> str:
    """A walk in words."""
    more = [f"rank {rank}"] * bool(rank) + ["it comes to a router twice"] * (not row.is_path)
    return shown(row.walk) + (f" ({'; '.join(more)})" if more else "")


def reordered(differs: Differs) -> str:
    """Two walks that stand in another order. Paths come first, and then those of which the one was better and the other is."""
    rows = [row for row in differs.rows if row.old is not None and row.new is not None]
    found = [(standing(one.old, other.old), standing(one.new, other.new), one, other) for one, other in combinations(rows, 2)]
    clashing = [each for each in found if each[0] != each[1]]
    clashing.sort(key=lambda each: (not (each[2].is_path and each[3].is_path), AS_GOOD in each[:2]))
    for was, now, one, other in clashing[:1]:
        return f"{walk_of(one)} was {was} {walk_of(other)}, and is {now} it now"
    return ""


def standing(one: Rank, other: Rank) -> str:
    """How a walk with one rank stands to a walk with another one."""
    return AS_GOOD if one == other else "better than" if (one or 0) < (other or 0) else "worse than"
