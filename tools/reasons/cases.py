"""Asks the program for the cases of a policy, and for the ranks that walks have by an expression.

Ranks of walks are asked of `lint`. The statement `EXPRESSION and path(WALK)` permits that walk alone, so exactly those of its
alternatives that aren't the walk's rank are unreached. With further places `any` in front it permits the walks that end in this way. One
text asks for many walks, each by a statement for a prefix of its own. This works where the policy is refused, and `impact` and `replay`
say nothing.
"""
from __future__ import annotations

import re
from collections.abc import Collection, Iterable, Sequence
from dataclasses import dataclass

from texts import cases
from texts.cases import Case
from texts.policy import BOTH, EITHER, Call, Expression, Policy, Statement, joined
from texts.prefixes import DOCUMENTS, covers, length_of

from .expressions import count
from .network import Network, Walk
from .program import Program

MOST_CALLS, MOST_RANKS, MOST_PLACES = 256, 64, 256  # of a statement, and of a path
MOST_ASKED = 200  # statements of one question
STEPS = 8  # how far walks are followed on
ANYWHERE = ("any",)
TO = " to "  # a session is told as its router, this and its peer


def told(case: Case, statement: Statement) -> str:
    """The prefixes of a case in words."""
    if case.external:
        return "all that peers announce" if statement.patterns == ("true",) else f"what peers announce of {' or '.join(statement.patterns)}"
    some = ", ".join(case.prefixes[:8]) + (f" and {len(case.prefixes) - 8} more" if len(case.prefixes) > 8 else "")
    return f"{some}, originated at {', '.join(case.origins)}"


def cases_of(program: Program, policy: Policy, network: Network) -> list[Case]:
    """The cases of a policy."""
    return cases.cases_of(policy, network.locations, lambda text: program.needed("evidence", text))


def contains(pattern: str, prefix: str) -> bool:
    """Whether a pattern has a prefix."""
    base, _, upto = pattern.partition(" le ")
    return covers(base, int(upto) if upto else length_of(base), prefix)


def examples(case: Case, statement: Statement) -> tuple[str, ...]:
    """Prefixes of which one should be in the case."""
    if not case.external:
        return case.prefixes[:1]
    patterns = ["0.0.0.0/0 le 32" if each == "true" else each for each in statement.patterns]
    found = [prefix for prefix in DOCUMENTS if any(contains(each, prefix) for each in patterns)]
    for each in patterns[:8]:
        base, _, upto = each.partition(" le ")
        found += [base] + ([f"{base.partition('/')[0]}/{upto}"] if upto else [])
    return tuple(dict.fromkeys(found))


# ---- ranks


@dataclass(frozen=True)
class Ranks:
    """Asks which ranks walks of a case have by an expression. `lint` says which no walk has."""

    program: Program
    policy: Policy
    network: Network
    case: Case
    expression: Expression

    def asked(self, limits: Sequence[Expression]) -> bytes:
        """A policy with a statement for each limit on walks, each for a prefix of its own from the origins of the case."""
        groups = self.policy.groups.items()
        lines = [f"define {name} = {{ {', '.join(self.network.ordered(inside))} }};" for name, inside in groups]
        for number, limit in enumerate(limits):
            prefix = f"10.0.{number}.0/24"
            if not self.case.external:
                lines.append(f"originate {prefix} at {', '.join(self.case.origins)};")
            lines.append(f"{prefix} => {joined(BOTH, self.expression, limit).spelled()};")
        return ("\n".join(lines) + "\n").encode()

    def within(self, limits: Sequence[Expression]) -> list[set[int]]:
        """The ranks that walks have within each limit; nothing where the program can't say."""
        called, alternatives = count(self.expression)
        if not limits or called + max(count(each)[0] for each in limits) > MOST_CALLS or alternatives > MOST_RANKS:
            return []
        found: list[set[int]] = []
        for first in range(0, len(limits), MOST_ASKED):
            some = limits[first:first + MOST_ASKED]
            said = self.program.told("lint", self.asked(some))
            if not said:
                return []
            never = set(re.findall(r"^unreached statement (\d+) alternative (\d+)$", said, re.MULTILINE))
            found += [{rank for rank in range(1, alternatives + 1) if (str(number), str(rank)) not in never}
                      for number in range(1, len(some) + 1)]
        return found

    def of(self, walks: Iterable[Walk], steps: int = 0) -> dict[Walk, set[int]]:
        """The ranks that each walk has, or, with steps, those of the walks that end with it and have at most so many steps before it."""
        walks = [walk for walk in walks if 2 <= len(walk) <= MOST_PLACES - steps]
        return dict(zip(walks, self.within([ending(walk, steps) for walk in walks])))

    def best(self, sources: Collection[str]) -> dict[str, int | None]:
        """The best rank that a walk from each source has, a router or a session; none where it has none."""
        found = self.within([beginning(source) for source in sources])
        return {source: min(ranks, default=None) for source, ranks in zip(sources, found)}

    def completed(self, head: Walk, tail: Walk, wanted: set[int]) -> Walk | None:
        """A shortest walk with this head and this tail that has a rank of `wanted`, or none."""
        places = [one(head) + (ANYWHERE,) * more + one(tail) for more in range(STEPS + 1)]
        found = self.within([Call("path", each) for each in places if len(each) <= MOST_PLACES])
        more = next((more for more, ranks in enumerate(found) if ranks & wanted), None)
        for left in reversed(range(more or 0)):
            near = self.network.near[tail[0]][:MOST_ASKED]
            found = self.within([Call("path", one(head) + (ANYWHERE,) * left + one((name, *tail))) for name in near])
            front = next((name for name, ranks in zip(near, found) if ranks & wanted), None)
            if front is None:
                return None
            tail = (front, *tail)
        return None if more is None else (*head, *tail)


def one(walk: Walk) -> tuple[Walk, ...]:
    return tuple((name,) for name in walk)


def ending(walk: Walk, steps: int) -> Expression:
    """The walks that end with this one and have at most so many steps before it."""
    return joined(EITHER, *[Call("path", (ANYWHERE,) * more + one(walk)) for more in range(steps + 1)])


def beginning(source: str) -> Expression:
    """The walks from a router, or those that a router offers a peer."""
    router, _, peer = source.partition(TO)
    return joined(BOTH, Call("start", ((peer,),)), Call("link", ((peer,), (router,)))) if peer else Call("start", ((router,),))
