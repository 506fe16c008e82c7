"""What makers of repairs are given, and the words for what they do: the habits of docs/LANGUAGE.md."""
from __future__ import annotations

from collections.abc import Callable, Generator, Iterable
from dataclasses import dataclass
from typing import Optional

from texts.policy import Call, Expression, Names, Policy, Statement

from .expressions import sites
from .network import Network
from .refusals import Refusal

# What a maker is sent back: nothing where the statement compiles, else what gives its refusal.
Sent = Optional[Callable[[], Refusal]]
Maker = Generator[tuple[str, Statement], Sent, None]
ANY = Call("any")
MOST_BESIDE = 4  # places beside a waypoint or a link that are tried
MOST_NAMES = 64  # names that a printed `from` may have
MOST_STEPS = 8  # sources that are left out one after another
MOST_MORE = 3  # routers that are kept from carrying one after another
MOST_SETS = 6  # sets of routers that are kept from carrying
KEPT_AWAY = "say what to keep away from, not what to pass (habit 2)"
CLOSED = "close the way round (habit 3)"
ONE_WAY = "allow one way from the near side to the far side (habit 3)"
NO_WAY_BACK = "forbid the way back (habit 3)"
NO_CARRYING = "let these routers carry nothing for others (habit 3)"
FAR_END = "put the far end first (habit 5)"
UNRANKED_REST = "rank nothing among the rest (habits 1 and 5)"
PATHS_NOT_SOURCES = "rank where paths go, not who asks (habit 4)"
CARRY_NOTHING = "forbid what is carried for others, and not what begins or ends there (habit 2)"
FEWER = "promise it to fewer sources (habit 6)"
NO_NAMES = "name no sources, so that those without a path are passed over (habit 6)"
ONE_SOURCE = "fix the paths of one source (habit 4)"
FOLLOWED = "let each source follow the path that it carries for another (habit 4)"
ANY_OTHER = "let any other path do where none of these is left"
ALIKE = "like alike what is ranked (habit 1)"


@dataclass(frozen=True)
class Setting:
    """A refused statement where it stands: the policy, the network, the locations at which its paths end, and the refusal."""

    policy: Policy
    network: Network
    statement: Statement
    targets: frozenset[str]
    single: bool  # whether the statement has one case
    refusal: Refusal

    def having(self, expression: Expression, sources: Names | None = ()) -> Statement:
        changes = {} if sources == () else {"sources": sources}
        return self.statement.having(expression=expression, **changes)

    def names(self, locations: Iterable[str]) -> Names:
        """Names for these locations, in their order."""
        return self.policy.shortest(self.network.ordered(locations))

    def beginnings(self) -> list[list[str]]:
        """The routers from which the refusal shows ways: its own, and those that are promised something."""
        lines = self.refusal.lines
        found = [line.router for line in lines if line.reason in ("rank", "listener", "no-step")] + [self.refusal.router]
        routers = [name for name in dict.fromkeys(found) if name in self.network.routers and name not in self.targets]
        return [[name] for name in routers]

    def claimed(self) -> Names:
        """The locations that the statement is for. An origin of its only case is no source."""
        named = self.statement.sources
        found = frozenset(self.network.locations) if named is None or "any" in named else self.policy.locations(named)
        return self.network.ordered(found - self.targets if self.single else found)

    def named_sources(self) -> frozenset[str]:
        """The sources that the statement itself names, by `from`, `start` or the first place of a path, and not by a group."""
        starts = [names for call in every_call(self.statement.expression) if call.word == "start" for names in call.arguments]
        firsts = [call.arguments[0] for call in every_call(self.statement.expression) if call.word == "path"]
        named = frozenset(name for names in (*starts, *firsts, self.statement.sources or ()) for name in names)
        return named - frozenset(self.policy.groups)

    def named_groups(self) -> frozenset[str]:
        """The groups that the statement names."""
        names = [name for call in every_call(self.statement.expression) for argument in call.arguments for name in argument]
        return frozenset(names + list(self.statement.sources or ())) & frozenset(self.policy.groups)

    def tier(self, router: str) -> frozenset[str]:
        """The routers with the same routers around them as this one, apart from one another; itself among them."""
        ends = self.network.ends
        around = set(self.network.near[router]) - ends
        return frozenset(each for each in self.network.routers
                         if each == router or set(self.network.near[each]) - ends - {router} == around - {each})


def every_call(expression: Expression) -> list[Call]:
    return [part for part, _ in sites(expression) if isinstance(part, Call)]


def one(setting: Setting, word: str, location: str) -> Call:
    return Call(word, (setting.names([location]),))
