"""What a repair gives up and what it newly allows, as far as the program tells it.

`given_up` alone is called from outside. It asks `promises` for the best rank of each claimed source, `replay` for the path that each
then has and which rank that path had in the statement as it was, `impact` for what single cuts take away, and `compare` for what else
is permitted or stands in another order (`comparing`).

What the statement could give as it was is said of paths. A walk may visit a router twice, so the best rank of a walk is only a bound. It
is shown where a loop-free path has it, or where all paths were tried.
"""
from __future__ import annotations

import re
from collections.abc import Callable, Iterable, Mapping, Sequence
from dataclasses import dataclass
from typing import Optional

from texts.cases import Case
from texts.comparison import comparison_of
from texts.policy import RANKED, Call, Expression, Joined, Policy, Statement
from texts.promises import promises_of

from . import comparing
from .cases import TO, Ranks, examples
from .comparing import Compared, named
from .expressions import flat
from .network import Network, Walk
from .program import Program
from .words import listed, shown

MOST_PATHS = 400  # paths whose ranks are asked at once
TRIED_PATHS = (1, 4, 40)  # paths of a source, one after another
NOT_ALLOWED, NO_PATH = 0, None
Cuts = dict[str, list[str]]  # with whom each leaves without a path
UNKNOWN = "what it gives up isn't known: the program tells nothing of it"
ANY = Call("any")


@dataclass(frozen=True)
class Price:
    """What a repaired statement gives up: how much, for an order (nothing where that isn't known), and in lines.

    It is poor where it gives rank 1 to nobody, or no path to a source that had one.
    """

    much: tuple[int, ...]
    lines: list[str]
    is_poor: bool = False


GivenUp = Callable[[Statement], Price]


def promised_in(promises: str, number: int) -> dict[str, int]:
    """What is promised in the case of this number: the best rank of each claimed source while nothing fails."""
    case = next((case for case in promises_of(promises).cases if case.number == number), None)
    return case.routers | {via + TO + peer: rank for (via, peer), rank in case.sessions.items()} if case else {}


def paths_in(report: str) -> dict[str, Walk]:
    """The paths that routers take, and those that they offer peers."""
    found = re.findall(r"^(?:router (\S+)|session (\S+) (\S+)) (?:rank \d+|transit) path (.*)$", report, re.MULTILINE)
    return {router or via + TO + peer: tuple(path.split(" ")) for router, via, peer, path in found}


def cuts_in(impact: str) -> tuple[str, Cuts]:
    """How many single cuts there are, and those that leave another router than the one that is cut without a path, with whom."""
    found: Cuts = {}
    cut = ""
    for words in map(str.split, impact.splitlines()):
        if words[0] == "cut":
            cut = " ".join(words[1:4 if words[1] == "link" else 3])
        elif words[0] == "cuts":
            return words[1], found
        elif cut and words[-1] == "none" and cut != f"router {words[1]}":
            found.setdefault(cut, []).append(TO.join(words[1:-1]))
    return "0", found


def groups_of(values: Mapping[str, int]) -> list[tuple[int, list[str]]]:
    """The sources of each value, the least values first."""
    groups: dict[int, list[str]] = {}
    for source, value in values.items():
        groups.setdefault(value, []).append(source)
    return sorted(groups.items())


def asked_sources(policy: Policy, network: Network, case: Case, statement: Statement) -> list[str]:
    """The routers and sessions that a statement is for."""
    named = statement.sources
    claimed = frozenset(network.locations) if named is None or "any" in named else policy.locations(named)
    routers = [name for name in network.routers if name in claimed and name not in case.origins]
    sessions = [] if case.external else [(router, peer) for router in network.routers for peer in network.near[router]
                                         if peer in claimed and peer in network.peers]
    return routers + [router + TO + peer for router, peer in sessions]


def opens(before: Expression, after: Expression) -> bool:
    """Whether a repair lets any path do where the statement didn't."""
    return ends_with_any(after) and not ends_with_any(before)


def ends_with_any(expression: Expression) -> bool:
    return isinstance(expression, Joined) and expression.binds == RANKED and expression.parts[-1] == ANY


class Asked:
    """What a statement as it was asks for in a case: the best rank of a path from each source, as far as that is known."""

    def __init__(self, program: Program, policy: Policy, network: Network, case: Case, statement: Statement) -> None:
        self.program, self.policy, self.case, self.statement = program, policy, case, statement
        self.ranks = Ranks(program, policy, network, case, statement.expression)
        self.known: dict[Walk, set[int]] = {}  # the ranks of paths that were asked
        self.sources = sources = asked_sources(policy, network, case, statement)
        walks = self.ranks.best(sources)
        named = statement.sources is not None and "any" not in statement.sources
        self.asked = [source for source in sources if named or walks.get(source, True)]
        self.best = self.best_of(network, walks)

    def best_of(self, network: Network, walks: Mapping[str, int | None]) -> dict[str, int]:
        """A walk may visit a router twice and a path not. So paths are tried, until one has the best rank of a walk or all were tried."""
        sources = [source for source in self.asked if walks.get(source)]
        left = list(sources)
        best: dict[str, int] = {}
        for most in TRIED_PATHS:
            found = {source: network.paths(source.split(TO)[::-1], self.case.origins, most) for source in left}
            ranks = self.ranks_of([path for paths, _ in found.values() for path in paths][:MOST_PATHS])
            for source, (paths, are_all) in found.items():
                rank = min((rank for path in paths for rank in ranks.get(path, ())), default=None)
                known = are_all and all(path in ranks for path in paths)
                if rank and (known or rank == walks[source]):
                    best[source] = rank
                if known or source in best:
                    left.remove(source)
        return {source: best[source] for source in sources if source in best}

    def ranks_of(self, paths: Iterable[Walk]) -> dict[Walk, set[int]]:
        """The ranks of these paths, as far as they are known; each is asked once."""
        self.known.update(self.ranks.of([path for path in dict.fromkeys(paths) if path not in self.known]))
        return self.known

    def outcome(self, text: bytes) -> tuple[dict[str, int], tuple[str, Cuts], dict[str, Walk]] | None:
        """What `promises`, `impact` and `replay` say of a policy, for a prefix of the case; None where no prefix of it is known."""
        for prefix in examples(self.case, self.statement):
            impact = self.program.told("impact", text, prefix)
            if f"\nclass {self.case.number}\n" in impact:
                promised = promised_in(self.program.told("promises", text), self.case.number)
                return promised, cuts_in(impact), paths_in(self.program.replay(text, prefix))
        return None

    def freed(self, after: Statement) -> list[str]:
        """The routers that are no sources any more by a repaired statement."""
        asked = asked_sources(self.policy, self.ranks.network, self.case, after)
        return [source for source in self.sources if source not in asked and TO not in source]

    def compared(self, after: Statement) -> Compared | None:
        """What `compare` says of a repaired statement. Where this one is too large to be compared, what it permits is, all of it liked
        alike. None where the program tells nothing."""
        alike = self.statement.having(expression=flat(self.statement.expression))
        repaired = self.program.kept("repaired.propane", self.policy.alone(after))
        for before in (self.statement, alike):
            said = self.program.told("compare", self.policy.alone(before), repaired)
            if said:
                return Compared(comparison_of(said), self.ranks.network, before is self.statement, frozenset(self.freed(after)))
        return None

    def given_up(self, after: Statement) -> Price:
        """What a repaired statement gives up."""
        outcome, compared = self.outcome(self.policy.alone(after)), self.compared(after)
        changed = compared.lines() if compared else [comparing.UNKNOWN]
        if not outcome:
            return Price((), [UNKNOWN, *changed])
        base, (count, cuts), paths = outcome
        known = self.ranks_of(paths.values())
        lines = [f"promised rank {rank}: {named(sources)}" for rank, sources in groups_of(base)]
        unpromised = [source for source in self.asked if source not in base]
        free = self.freed(after)
        held = [source for source in unpromised if source not in free]
        if held:
            lines.append(f"promised nothing: {named(held)}")
        if free:
            lines.append(f"no longer sources, free to use what they carry: {named(free)}")
        lines += changed
        lost: dict[tuple[int, Optional[int]], list[str]] = {}
        for source, best in self.best.items():
            path = paths.get(source)
            got = min(known[path], default=NOT_ALLOWED) if path in known else NO_PATH if path is None else best
            if got != best and (source in base or TO not in source):
                lost.setdefault((best, got), []).append(source)
        got_one = [source for source in self.sources if source not in self.best and not known.get(paths.get(source, ()), {0})]
        if got_one:
            lines.append(f"no path as written, now has one: {listed([f'{source} by {shown(paths[source])}' for source in got_one[:2]])}"
                         f"{f', and {len(got_one) - 2} more' if len(got_one) > 2 else ''}")
        for change, sources in sorted(lost.items(), key=str):
            lines.append(lost_line(*change, sources, paths))
        if cuts:
            some = [f"{cut} for {named(sources)}" for cut, sources in list(cuts.items())[:2]]
            lines.append(f"no path after {len(cuts)} of {count} single cuts: {'; '.join(some)}{'; ..' if len(cuts) > 2 else ''}")
        worse = sum(len(sources) * (1 if got else 2) for (_, got), sources in lost.items())
        newly, count_of_paths = (compared.freed(), compared.count()) if compared else (set(), 0)
        much = (int(bool(newly) and opens(self.statement.expression, after.expression)), len(unpromised) + worse + len(newly),
                len(unpromised), count_of_paths, len(cuts))
        return Price(much, lines, self.is_poor(base, lost))

    def is_poor(self, base: Mapping[str, int], lost: Mapping[tuple[int, Optional[int]], Sequence[str]]) -> bool:
        """Whether rank 1 is given to nobody, or a source that had a path has none."""
        first = [source for source, rank in self.best.items() if rank == 1]
        spared = [source for source in first if not any(source in sources for (best, _), sources in lost.items() if best == 1)]
        return any(got is NO_PATH for _, got in lost) or bool(first) and (1 not in base.values() or not spared)


def lost_line(best: int, got: int | None, sources: Sequence[str], paths: Mapping[str, Walk]) -> str:
    if got is NO_PATH:
        return f"rank {best} as written, now no path: {named(sources)}"
    if got == NOT_ALLOWED:
        some = [f"{source} by {shown(paths[source])}" for source in sources[:2]]
        return f"rank {best} as written, now a path that it doesn't allow: {len(sources)}, as {listed(some)}"
    return f"rank {best} as written, now rank {got} of it: {named(sources)}"


def given_up(program: Program, policy: Policy, network: Network, case: Case, before: Statement) -> GivenUp:
    """What tells of each repaired statement what it gives up of `before`."""
    return Asked(program, policy, network, case, before).given_up
