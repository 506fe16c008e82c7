"""What expressions are made of: their parts, their choices, and how many calls and alternatives they have."""
from __future__ import annotations

import math
from collections.abc import Callable, Iterable, Iterator

from texts.policy import BOTH, EITHER, PATHS, RANKED, Call, Expression, Joined, Not, joined

Put = Callable[[Expression], Expression]  # puts another part in the place of one


def sites(expression: Expression) -> Iterator[tuple[Expression, Put]]:
    """Each part of an expression, with what puts another one in its place."""
    yield expression, lambda new: new
    if isinstance(expression, Not):
        for part, put in sites(expression.inner):
            yield part, denied(put)
    elif isinstance(expression, Joined):
        for k, each in enumerate(expression.parts):
            front, back = expression.parts[:k], expression.parts[k + 1:]
            for part, put in sites(each):
                yield part, between(expression.binds, front, put, back)


def denied(put: Put) -> Put:
    """Puts a part in its place under a `not`."""
    return lambda new: Not(put(new))


def between(binds: int, front: Iterable[Expression], put: Put, back: Iterable[Expression]) -> Put:
    """Puts a part in its place between others."""
    return lambda new: joined(binds, *front, put(new), *back)


def calls(expression: Expression, word: str) -> list[tuple[Call, Put]]:
    return [(part, put) for part, put in sites(expression) if isinstance(part, Call) and part.word == word]


def ranks(expression: Expression) -> bool:
    """Whether a choice stands somewhere in an expression."""
    if isinstance(expression, Call):
        return expression.word not in PATHS and len(expression.arguments) > 1
    if isinstance(expression, Not):
        return ranks(expression.inner)
    return expression.binds == RANKED or any(map(ranks, expression.parts))


def is_lawful(expression: Expression) -> bool:
    """Whether no choice stands under an `or` or a `not`, where it has no order."""
    if isinstance(expression, Call):
        return True
    if isinstance(expression, Not):
        return not ranks(expression.inner)
    return all(map(is_lawful, expression.parts)) and not (expression.binds == EITHER and any(map(ranks, expression.parts)))


def flat(expression: Expression) -> Expression:
    """The same paths, all liked alike."""
    if isinstance(expression, Call):
        if expression.word in PATHS or len(expression.arguments) < 2:
            return expression
        names = tuple(dict.fromkeys(name for each in expression.arguments for name in each))
        return Call(expression.word, (("any",) if "any" in names else names,))
    if isinstance(expression, Not):
        return expression
    return joined(EITHER if expression.binds == RANKED else expression.binds, *map(flat, expression.parts))


def count(expression: Expression) -> tuple[int, int]:
    """How many calls an expression has, and how many alternatives it stands for."""
    if isinstance(expression, Call):
        return 1, 1 if expression.word in PATHS else max(1, len(expression.arguments))
    if isinstance(expression, Not):
        return count(expression.inner)[0], 1
    called, alternatives = zip(*map(count, expression.parts))
    if expression.binds == BOTH:
        return sum(called), math.prod(alternatives)
    return sum(called), sum(alternatives) if expression.binds == RANKED else 1
