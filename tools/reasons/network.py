"""The network of a topology text: who is linked with whom, and what stands beside a router or a link.

"Beside" guesses at repairs and proves nothing: whatever is made of it is tried by the program.
"""
from __future__ import annotations

from collections import deque
from collections.abc import Collection, Iterable, Set

from texts.topology import Link, Topology

MOST_TRIED = 50  # beginnings of paths that are followed for each path that is wanted
Walk = tuple[str, ...]


class Network:
    """Routers and peers in the order of the text, and their links. Paths pass routers alone: a peer only ends one."""

    def __init__(self, routers: Walk, peers: Walk, links: tuple[Link, ...]) -> None:
        self.routers, self.peers, self.links = routers, peers, links
        self.locations, self.ends = routers + peers, frozenset(peers)
        self.place = {name: place for place, name in enumerate(self.locations)}
        self.near: dict[str, list[str]] = {name: [] for name in self.locations}
        for first, second in links:
            self.near[first].append(second)
            self.near[second].append(first)
        for around in self.near.values():
            around.sort(key=self.place.__getitem__)

    @staticmethod
    def of(topology: Topology) -> Network:
        """The network of a topology."""
        routers, peers = (tuple(site.name for site in sites) for sites in (topology.routers, topology.peers))
        return Network(routers, peers, tuple(topology.links))

    def ordered(self, names: Iterable[str]) -> Walk:
        return tuple(sorted(names, key=lambda name: self.place.get(name, -1)))  # `any` is none

    def twins(self, router: str) -> Walk:
        """The routers with the same neighbours as this one, itself among them."""
        around = set(self.near[router])
        return tuple(each for each in self.routers if set(self.near[each]) == around)

    def reached(self, begin: Iterable[str], gone: Collection[str] = (), closed: Collection[Link] = ()) -> dict[str, str | None]:
        """The locations that `begin` reaches, each with the one before it, past no location of `gone` and by no step of `closed`."""
        before: dict[str, str | None] = {name: None for name in begin if name not in gone}
        waiting = deque(before)
        while waiting:
            here = waiting.popleft()
            if here in self.ends and before[here] is not None:
                continue
            for there in self.near[here]:
                if there not in before and there not in gone and (here, there) not in closed:
                    before[there] = here
                    waiting.append(there)
        return before

    def walk(self, begin: Iterable[str], targets: Collection[str], gone: Collection[str] = (), closed: Collection[Link] = ()) -> Walk:
        """A shortest path from one of `begin` to one of `targets`, or none."""
        before = self.reached(begin, gone, closed)
        path: list[str] = []
        here = next((name for name in before if name in targets), None)
        while here is not None:
            path.append(here)
            here = before[here]
        return tuple(path[::-1])

    def paths(self, begin: Iterable[str], targets: Collection[str], most: int) -> tuple[list[Walk], bool]:
        """Paths that begin with these locations and end at a target, the shortest first, and whether these are all. They pass no target."""
        waiting = deque([tuple(begin)])
        found: list[Walk] = []
        for _ in range(most * MOST_TRIED):
            if not waiting or len(found) == most:
                break
            path = waiting.popleft()
            if path[-1] in targets and len(path) > 1:
                found.append(path)
            else:
                waiting.extend((*path, name) for name in self.near[path[-1]]
                               if name not in path and (name not in self.ends or name in targets))
        return found, not waiting

    def routers_beside(self, passed: Set[str], begin: Collection[str], targets: Collection[str]) -> list[str]:
        """The single routers that a path from `begin` to the targets has to meet where `passed` is gone, those linked with it first."""
        inner = [name for name in self.walk(begin, targets, passed) if name not in targets and name not in begin and name not in self.ends]
        parting = [name for name in inner if not self.walk(begin, targets, frozenset(passed) | {name})]
        return sorted(parting, key=lambda name: passed.isdisjoint(self.near[name]))

    def links_beside(self, used: Iterable[Link], begin: Iterable[str], targets: Collection[str]) -> list[Link]:
        """The single links that a path from `begin` to the targets has to meet where those of `used` are gone."""
        closed = both_ways(used)
        path = self.walk(begin, targets, closed=closed)
        return [step for step in zip(path, path[1:]) if not self.walk(begin, targets, closed=closed | both_ways([step]))]

    def sides(self, passed: Iterable[str], begin: Iterable[str], targets: Collection[str]) -> tuple[Walk, Walk]:
        """The routers before and behind a waypoint. Between them, where the waypoint is gone, are as few links as can part `begin` from
        the targets, and those nearest the targets."""
        gone = frozenset(passed)
        carried: set[Link] = set()  # the steps that carry a path, each link one
        while path := self.walk(begin, targets, gone, carried):
            for step in zip(path, path[1:]):
                if step[::-1] in carried:
                    carried.discard(step[::-1])
                else:
                    carried.add(step)
        far = self.reached(self.ordered(targets), gone, {step[::-1] for step in carried})
        before = tuple(name for name in self.routers if name not in far and name not in gone)
        return before, tuple(name for name in self.routers if name in far)


def both_ways(links: Iterable[Link]) -> set[Link]:
    return {step for one, two in links for step in ((one, two), (two, one))}
