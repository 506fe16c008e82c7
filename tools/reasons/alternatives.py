"""Repairs of a statement that ranks one kind of thing: waypoints, links, or sources by region. As those of repairs.py they are guesses.

A walk that comes back meets every `through` and every `link` on its way. So these repairs say what each alternative keeps away from, or
keep routers from carrying, so that no walk comes back.
"""
from __future__ import annotations

from collections.abc import Iterable, Iterator

from texts.policy import BOTH, EITHER, RANKED, Call, Expression, Joined, Names, Not, joined

from .cases import MOST_RANKS
from .expressions import Put, calls, count, flat, sites
from .setting import ANY, KEPT_AWAY, MOST_NAMES, MOST_SETS, NO_CARRYING, PATHS_NOT_SOURCES, Maker, Setting

Locations = frozenset[str]
Links = tuple[tuple[str, str], ...]


def alternatives(expression: Expression) -> list[Expression]:
    """The alternatives of an expression, the best first, each without a rank; the expression itself where they are too many."""
    if count(expression)[1] > MOST_RANKS:
        return [expression]
    if isinstance(expression, Call):
        if expression.word in ("link", "path") or len(expression.arguments) < 2:
            return [expression]
        return [Call(expression.word, (names,)) for names in expression.arguments]
    if not isinstance(expression, Joined) or expression.binds == EITHER:
        return [expression]
    if expression.binds == RANKED:
        return [each for part in expression.parts for each in alternatives(part)]
    found: list[list[Expression]] = [[]]
    for part in expression.parts:
        found = [[*before, each] for before in found for each in alternatives(part)]
    return [joined(BOTH, *each) for each in found]


def ranked_calls(setting: Setting, word: str) -> Iterator[tuple[list[Call], list[Expression], Put]]:
    """Each place where calls of this word alone are ranked, or one stands alone: the calls, what is ranked behind them, and the place."""
    inside: list[Expression] = []
    for part, put in sites(setting.statement.expression):
        if part in inside or not isinstance(part, (Call, Joined)) or isinstance(part, Joined) and part.binds != RANKED:
            continue
        every = alternatives(part)
        many = next((k for k, each in enumerate(every) if not isinstance(each, Call) or each.word != word), len(every))
        found = [each for each in every[:many] if isinstance(each, Call)]
        if found:
            inside += part.parts if isinstance(part, Joined) else ()
            yield found, every[many:], put


# ---- waypoints


def others_away(setting: Setting) -> Maker:
    """For `through(X)`: keep away from the other members of the tier or group of X, or from those that are ranked behind it."""
    for found, rest, put in ranked_calls(setting, "through"):
        passed = [setting.policy.locations(call.arguments[0]) for call in found]
        for others in other_members(setting, passed):
            for word in "avoid", "notransit":
                yield KEPT_AWAY, setting.having(put(away_from(setting, word, passed, others, rest)))


def other_members(setting: Setting, passed: list[Locations]) -> list[Locations]:
    """Sets with the waypoints' fellows: those that are ranked behind the first, the tier of a single one, each group with all of them."""
    every = frozenset().union(*passed)
    groups = [names for names in setting.policy.groups.values() if every <= names and names.isdisjoint(setting.network.ends)]
    tiers = [setting.tier(name) for name in setting.network.ordered(every) if name in setting.network.near and name not in setting.network.ends]
    sets = [frozenset().union(*tiers), *groups, every]
    return [names for names in dict.fromkeys(each - setting.targets for each in sets) if names - passed[0]]


def away_from(setting: Setting, word: str, passed: list[Locations], others: Locations, rest: list[Expression]) -> Expression:
    """The alternatives of waypoints, each as what it keeps away from; behind them what was ranked behind, or any path."""
    parts: list[Expression] = []
    for each in passed:
        others -= each
        if others:
            parts.append(Call(word, (setting.names(others),)))
    return joined(RANKED, *parts, *(rest or [ANY]))


# ---- links


def others_unused(setting: Setting) -> Maker:
    """For `link(A, B)`: keep off the links that are ranked behind it, or the others between the groups of A and of B."""
    for found, rest, put in ranked_calls(setting, "link"):
        used = [links_of(setting, call) for call in found]
        if not all(used) or sum(map(len, used)) > MOST_NAMES:
            continue
        if len(used) > 1:
            behind = [tuple(step for links in used[k + 1:] for step in links) for k in range(len(used) - 1)]
            yield KEPT_AWAY, setting.having(put(joined(RANKED, *map(unused, behind), *(rest or [ANY]))))
            yield KEPT_AWAY, setting.having(put(joined(RANKED, *map(unused, behind), found[-1], *rest)))
        for links in other_crossings(setting, used[0]):
            yield KEPT_AWAY, setting.having(put(joined(RANKED, unused(links), *(found[1:] + rest or [ANY]))))
            yield KEPT_AWAY, setting.having(put(unused(links)))


def links_of(setting: Setting, call: Call) -> Links:
    """The links that a call names, from its first end to its second."""
    ends = [setting.policy.locations(names) for names in call.arguments]
    near = setting.network.near
    return tuple((one, two) for one in setting.network.locations for two in near[one]
                 if (one in ends[0] or "any" in ends[0]) and (two in ends[-1] or "any" in ends[-1]))


def unused(links: Iterable[tuple[str, str]]) -> Expression:
    """The paths that use none of these links, in either direction."""
    return joined(BOTH, *[Not(Call("link", (step, step))) for step in links])


def other_crossings(setting: Setting, used: Links) -> list[Links]:
    """The other links between a group of the link's one end and a group of its other end."""
    found: list[Links] = []
    groups = list(setting.policy.groups.values())
    for one, two in used[:1]:
        for near in groups:
            for far in groups:
                if one in near and two in far and near.isdisjoint(far):
                    links = tuple((a, b) for a, b in setting.network.links if (a in near and b in far or b in near and a in far)
                                  and (a, b) not in used and (b, a) not in used)
                    found += [links] if links else []
    return found


# ---- sources


def regions_first(setting: Setting) -> Maker:
    """Sources that are ranked one behind another: what each likes best stands together, kept away from where the others begin."""
    expression = setting.statement.expression
    if not isinstance(expression, Joined) or expression.binds != RANKED:
        return
    begun = [(start_of(part), part) for part in expression.parts]
    sources = list(dict.fromkeys(setting.policy.locations(names) for names, _ in begun if names))
    if len(sources) < 2:
        return
    every: Locations = frozenset().union(*sources)
    firsts: list[Expression] = []
    later: list[Expression] = []
    for inside in sources:
        own = [without_start(part) for names, part in begun if names and setting.policy.locations(names) == inside]
        best, *less = [each for part in own for each in alternatives(part)]
        firsts.append(joined(BOTH, best, Call("avoid", (setting.names(every - inside),))))
        later += [best, *less]
    tail = [part for names, part in begun if not names]
    yield PATHS_NOT_SOURCES, setting.having(joined(RANKED, joined(EITHER, *firsts), *(tail or [all_of(later)])))


def start_of(expression: Expression) -> Names:
    """The sources of an `and` with one `start`, else none."""
    parts = expression.parts if isinstance(expression, Joined) and expression.binds == BOTH else ()
    found = [part.arguments[0] for part in parts if isinstance(part, Call) and part.word == "start" and len(part.arguments) == 1]
    return found[0] if len(found) == 1 and len(parts) > 1 else ()


def without_start(expression: Expression) -> Expression:
    parts = expression.parts if isinstance(expression, Joined) else ()
    return joined(BOTH, *[part for part in parts if not (isinstance(part, Call) and part.word == "start")])


def all_of(parts: list[Expression]) -> Expression:
    """All these paths, liked alike."""
    words = {part.word if isinstance(part, Call) else "" for part in parts}
    if len(words) == 1 and words <= {"exit", "enter", "end"}:
        return flat(Call(words.pop(), tuple(part.arguments[0] for part in parts if isinstance(part, Call))))
    return joined(EITHER, *dict.fromkeys(map(flat, parts)))


# ---- routers that carry nothing


def sets_carry_nothing(setting: Setting) -> Maker:
    """Each group that the statement doesn't name may carry nothing, or each tier; then the sources that it names, where they begin."""
    for names in list(dict.fromkeys(quiet_sets(setting)))[:MOST_SETS]:
        notransit = Call("notransit", (setting.names(names),))
        yield NO_CARRYING, setting.having(joined(BOTH, notransit, setting.statement.expression))


def quiet_sets(setting: Setting) -> Iterator[Locations]:
    network, every = setting.network, frozenset(setting.network.routers)
    sources = [setting.policy.locations(call.arguments[0]) for call, _ in calls(setting.statement.expression, "start")]
    if setting.statement.sources is not None:
        sources.append(setting.policy.locations(setting.statement.sources))
    groups = [names for name, names in setting.policy.groups.items() if name not in setting.named_groups()]
    tiers = [tier for tier in map(setting.tier, network.routers) if len(tier - setting.targets) > 1]
    for names in *sources, *groups, *tiers:
        if names & every and names <= every and names != every:
            yield names
