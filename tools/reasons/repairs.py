"""Repairs of a statement that can't be kept, as the habits of docs/LANGUAGE.md say them. They are guesses: each has to be tried.

A maker takes a setting and yields what a statement could read in place of the refused one, as pairs of what was done and the
statement. What it is sent back gives the refusal of that statement, or is none where it compiles.
"""
from __future__ import annotations

from collections.abc import Collection, Iterable, Iterator

from texts.policy import BOTH, EITHER, RANKED, Call, Expression, Joined, Not, Statement, joined

from .alternatives import others_away, others_unused, regions_first, sets_carry_nothing
from .expressions import Put, calls, flat, ranks, sites
from .refusals import BETWEEN
from .setting import (ALIKE, ANY, ANY_OTHER, CARRY_NOTHING, CLOSED, FAR_END, FEWER, FOLLOWED, KEPT_AWAY, MOST_BESIDE, MOST_MORE,
                      MOST_NAMES, MOST_STEPS, NO_NAMES, NO_WAY_BACK, ONE_SOURCE, ONE_WAY, PATHS_NOT_SOURCES, UNRANKED_REST, Maker,
                      Setting, one)


# ---- waypoints


def waypoints(setting: Setting) -> Iterator[tuple[Call, Put, frozenset[str], list[str]]]:
    """Each `through`, with the locations that it likes best, and the routers beside those that a path past them has to meet."""
    for call, put in calls(setting.statement.expression, "through"):
        passed = setting.policy.locations(call.arguments[0])
        beside = []
        for begin in setting.beginnings():
            if not passed.intersection(begin):
                beside += setting.network.routers_beside(passed, begin, setting.targets)
        shown = [name for walk in setting.refusal.walks() for name in walk[1:-1] if not passed.intersection(walk)]
        beside += [name for name in shown if name in setting.network.routers]
        yield call, put, passed, [name for name in dict.fromkeys(beside) if name not in setting.targets][:MOST_BESIDE]


def kept_away(setting: Setting) -> Maker:
    """What stands beside a waypoint is avoided; or it alone may use itself, where that isn't enough or leaves it without a path."""
    for call, put, _, beside in waypoints(setting):
        for name in beside:
            for word in "avoid", "notransit":
                away = one(setting, word, name)
                refused = yield KEPT_AWAY, setting.having(put(away if len(call.arguments) == 1 else joined(RANKED, away, ANY)))
                if not refused and name not in setting.claimed():
                    break


def closed_way_round(setting: Setting) -> Maker:
    """The waypoint stays, and what stands beside it is kept away from; then only for those who have to pass it."""
    for call, put, passed, beside in waypoints(setting):
        for name in beside:
            both = joined(BOTH, call, one(setting, "avoid", name))
            near = before_waypoint(setting, passed | {name})
            for expression in in_its_place(setting, call, both), put(both):
                refused = yield CLOSED, setting.having(expression)
                if refused and near:
                    refused = yield f"{CLOSED}, and {FEWER}", setting.having(expression, setting.names(near))
                if not refused:
                    break


def in_its_place(setting: Setting, call: Call, new: Expression) -> Expression:
    """The expression with `new` in place of the call and of what it keeps away from in the same `and`."""
    for part, put in sites(setting.statement.expression):
        if isinstance(part, Joined) and part.binds == BOTH and call in part.parts:
            rest = [each for each in part.parts if not (isinstance(each, Call) and each.word in ("avoid", "notransit"))]
            return put(joined(BOTH, *[new if each == call else each for each in rest]))
    return next(put for part, put in sites(setting.statement.expression) if part is call)(new)


def before_waypoint(setting: Setting, gone: Collection[str]) -> list[str]:
    """The sources that have no path past these locations."""
    reaching = setting.network.reached([name for name in setting.targets if name not in gone], gone)
    return [name for name in setting.network.routers if name not in reaching and name not in gone]


def one_way(setting: Setting) -> Maker:
    """Near, waypoint, far: the steps round the waypoint and those that come back are forbidden."""
    for call, put, passed, _ in waypoints(setting):
        for begin in setting.beginnings():
            if passed.intersection(begin) or not passed.isdisjoint(setting.targets):
                continue
            near, far = (setting.names(side) for side in setting.network.sides(passed, begin, setting.targets))
            middle = setting.network.ordered(passed)
            if not near or not far or len(near + far) > MOST_NAMES:
                continue
            rounds = Not(Call("link", (near, far))), Not(Call("link", (far + middle, near)))
            yield ONE_WAY, setting.having(put(joined(BOTH, call, *rounds)), near + setting.names(middle))


def no_way_back(setting: Setting) -> Maker:
    """Routers are kept from carrying: those like the one where the circle closes, or one more with each refusal."""
    router = setting.refusal.router
    if setting.refusal.word not in BETWEEN or router not in setting.network.routers:
        return

    def without(names: Iterable[str]) -> Statement:
        return setting.having(joined(BOTH, Call("notransit", (setting.names(names),)), setting.statement.expression))

    groups = [names for names in setting.policy.groups.values() if router in names and names.isdisjoint(setting.network.ends)]
    twins = frozenset(setting.network.twins(router))
    for names in [twins] * (len(twins - setting.targets) > 1) + groups:
        if not (yield NO_WAY_BACK, without(names)):
            return
    more = {router}
    for _ in range(MOST_MORE):
        refused = yield NO_WAY_BACK, without(more)
        router = refused().router if refused else ""
        if router in more or router not in setting.network.routers:
            return
        more.add(router)


# ---- links, exits and sources


def kept_off_links(setting: Setting) -> Maker:
    for call, put in calls(setting.statement.expression, "link"):
        ends = [setting.policy.locations(names) for names in call.arguments]
        used = {(first, second) for first in ends[0] for second in ends[-1]}
        beside = []
        for begin in setting.beginnings():
            beside += setting.network.links_beside(used, begin, setting.targets)
        for step in list(dict.fromkeys(beside))[:MOST_BESIDE]:
            yield KEPT_AWAY, setting.having(put(Not(Call("link", (step, step)))))


def far_end_first(setting: Setting) -> Maker:
    for part, put in sites(setting.statement.expression):
        if isinstance(part, Joined) and part.binds == BOTH and ranks(part):
            yield FAR_END, setting.having(put(Joined(part.parts[::-1], BOTH)))


def unranked_rest(setting: Setting) -> Maker:
    for part, put in sites(setting.statement.expression):
        if not isinstance(part, Joined) or part.binds != BOTH:
            continue
        for k, choice in enumerate(part.parts):
            if isinstance(choice, Joined) and choice.binds == RANKED and choice.parts[-1] == ANY:
                others = part.parts[:k] + part.parts[k + 1:]
                best = joined(RANKED, *choice.parts[:-1])
                yield UNRANKED_REST, setting.having(put(joined(RANKED, joined(BOTH, best, *others), flat(joined(BOTH, *others)))))


def paths_not_sources(setting: Setting) -> Maker:
    """`start` in each part of an `or` becomes `avoid` of where the other parts begin, or of all other routers."""
    starts = [setting.policy.locations(call.arguments[0]) for call, _ in calls(setting.statement.expression, "start")]
    if not starts:
        return

    def changed(expression: Expression) -> Expression:
        if isinstance(expression, Joined) and expression.binds == BOTH:
            mine = [part for part in expression.parts if isinstance(part, Call) and part.word == "start" and len(part.arguments) == 1]
            if len(mine) == 1:
                inside = setting.policy.locations(mine[0].arguments[0])
                others = frozenset().union(*starts) - inside or frozenset(setting.network.routers) - inside
                rest = [part for part in expression.parts if part is not mine[0]]
                return joined(BOTH, *rest, Call("avoid", (setting.names(others),))) if others else expression
        if isinstance(expression, Joined):
            return joined(expression.binds, *map(changed, expression.parts))
        return expression

    yield PATHS_NOT_SOURCES, setting.having(changed(setting.statement.expression))


def carry_nothing(setting: Setting) -> Maker:
    for call, put in calls(setting.statement.expression, "avoid"):
        expression = put(Call("notransit", call.arguments))
        refused = yield CARRY_NOTHING, setting.having(expression)
        if refused and refused().word == "source-without-path":
            yield f"{CARRY_NOTHING}, and {NO_NAMES}", setting.having(expression, None)


# ---- sources


def fewer_sources(setting: Setting) -> Maker:
    """Sources are left out: first all that needn't pass a waypoint, then those that the refusals name, one after another."""
    for _, _, passed, _ in waypoints(setting):
        away = [call.arguments[0] for call, _ in calls(setting.statement.expression, "avoid")]
        gone = passed.union(*map(setting.policy.locations, away))
        near = [name for name in before_waypoint(setting, gone) if name in setting.claimed()]
        for names in near, [*near, *passed]:
            if near:
                yield FEWER, setting.having(setting.statement.expression, setting.names(names))
    left, refusal = list(setting.claimed()), setting.refusal
    for _ in range(MOST_STEPS):
        promised = [line.router for line in refusal.lines if line.reason == "rank"] if refusal.word == "no-evidence" else []
        out = next((name for name in promised + [refusal.router] if name in left), None)
        if out is None:
            return
        left.remove(out)
        if not left or len(left) > MOST_NAMES:
            return
        refused = yield FEWER, setting.having(setting.statement.expression, setting.names(left))
        if not refused:
            return
        refusal = refused()


def no_names(setting: Setting) -> Maker:
    if setting.statement.sources is not None and setting.refusal.word == "source-without-path":
        yield NO_NAMES, setting.having(setting.statement.expression, None)


def one_source(setting: Setting) -> Maker:
    """One side of an `or` is left out; or the two ways that a router ranks become fixed paths, for it alone, if the statement names it."""
    for part, put in sites(setting.statement.expression):
        if isinstance(part, Joined) and part.binds == EITHER:
            for k in range(len(part.parts)):
                kept = joined(EITHER, *part.parts[:k], *part.parts[k + 1:])
                begins = [call.arguments[0] for call, _ in calls(kept, "path")]
                names = tuple(dict.fromkeys(name for each in begins for name in each))
                if names and "any" not in names:
                    yield ONE_SOURCE, setting.having(put(kept), names)
                    yield ONE_SOURCE, setting.having(setting.statement.expression, names)
    for line in setting.refusal.lines:
        are_paths = all(len(set(walk)) == len(walk) > 1 for walk in (line.first, line.second))
        if line.router in setting.named_sources() and line.reason == "rank" and are_paths:
            fixed = [Call("path", tuple((name,) for name in walk)) for walk in (line.second, line.first)]
            yield ONE_SOURCE, setting.having(joined(RANKED, *fixed, ANY), (line.router,))


def followed(setting: Setting) -> Maker:
    """A fixed path that another one passes at its beginning becomes the rest of that other one."""
    paths = [(call, put) for call, put in calls(setting.statement.expression, "path")]
    for call, put in paths:
        for other, _ in paths:
            if call != other and call.arguments[0] in other.arguments[1:-1]:
                yield FOLLOWED, setting.having(put(Call("path", other.arguments[other.arguments.index(call.arguments[0]):])))


# ---- the rest


def any_other(setting: Setting) -> Maker:
    expression = setting.statement.expression
    if not (isinstance(expression, Joined) and expression.binds == RANKED and expression.parts[-1] == ANY):
        yield ANY_OTHER, setting.having(joined(RANKED, expression, ANY))


def alike(setting: Setting) -> Maker:
    for part, put in sites(setting.statement.expression):
        if isinstance(part, Call) and ranks(part):
            yield ALIKE, setting.having(put(flat(part)))


MAKERS = (regions_first, others_away, others_unused, paths_not_sources, unranked_rest, far_end_first, carry_nothing, kept_off_links,
          kept_away, sets_carry_nothing, closed_way_round, one_way, no_way_back, no_names, fewer_sources, followed, one_source, any_other,
          alike)
