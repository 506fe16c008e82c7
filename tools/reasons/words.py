"""Tells a refusal in words. Each sentence says one line that `explain` wrote; the rest is what the program was asked besides."""
from __future__ import annotations

import textwrap
from collections.abc import Callable, Iterable, Mapping
from typing import Any

from .network import Walk
from .refusals import Line, Refusal
from .sketch import sketch

MOST_LINES = 12  # lines of a refutation that are told
MEANINGS = {
    "too-many-ranks": "The statement stands for more than 64 alternatives. `and` multiplies those of its sides.",
    "too-many-states": "There are more than 4,096 nodes. A node is a router, with what is left of each alternative.",
    "too-many-steps": "The cases up to this one have more than 131,072 steps from a node to the next.",
    "source-without-path": "`from` names {router}. No path that the statement permits begins there, even with nothing dead.",
    "mixed-source": "{router} may use {first}. It may not use {second}. But others may need {router} to carry that one: a longer walk "
                    "that the statement permits ends with it. {router} has one route. It can't do both.",
    "no-evidence": "A router likes its routes by numbers. No numbers meet these rules at once:",
}


def listed(words: Iterable[object], last: str = "and") -> str:
    found = list(map(str, words))
    return f" {last} ".join([", ".join(found[:-1]), found[-1]] if len(found) > 1 else found)


def shown(walk: Walk) -> str:
    return " ".join(walk)


class Ways:
    """The nodes that a refusal names, each with a mark. `shows` has, for a line with a loop, a walk that comes over the neighbour
    and one that doesn't, with the ranks of the way; and for a mixed source the walk that needs it."""

    def __init__(self, walks: Iterable[Walk], shows: Mapping[Any, Any] | None = None) -> None:
        self.walks, self.shows = list(walks), dict(shows or {})
        self.marks = {walk: f"[{number}]" for number, walk in enumerate(self.walks, 1)}

    def __call__(self, walk: Walk) -> str:
        return f"{shown(walk)} {self.marks[walk]}" if walk in self.marks else shown(walk)


def better_one(line: Line, way: Ways) -> str:
    if line.first == line.second:
        return f"{line.router} would have to like {way(line.second)} better than itself. No number does"
    return f"{line.router} has to like {way(line.second)} better than {way(line.first)}"


def loop(line: Line, way: Ways) -> str:
    """What a line says whose first way may have come over the neighbour."""
    router, other = line.router, line.other
    over, past = way.shows.get(line, (None, None))
    second = f"{alike(over, way)} has come over {other}" if over else f"Another one may have come over {other}"
    if past:
        begins = (f"{router} can't tell apart the routes that look like {way(line.first)}. {alike(past, way)} hasn't come over {other}, and "
                  f"{other} takes it. {second}, along {way(line.along)}.")
    else:
        begins = f"A route of {router} that looks like {way(line.first)} may have come over {other}, along {way(line.along)}."
        begins += f" One that has is {alike(over, way)}." if over else ""
    left = (f"{other} takes nothing of that back. It is left with {way(line.along)}. As said above, it may not like that as well as what "
            f"{router} gives it of {way(line.second)}.")
    return f"{begins} {left} So {better_one(line, way)}."


def alike(walk: Walk, way: Ways) -> str:
    return way(walk) if walk in way.marks else f"{shown(walk)} (same ranks)"


def sentence(line: Line, way: Ways) -> str:
    """What one line says, in words."""
    if line.reason == "loop":
        return loop(line, way)
    router, other = line.router, line.other
    because: dict[str, Callable[[], str]] = {
        "rank": lambda: f"It is promised the best rank that is left. Their ranks are {line.ranks[1]} and {line.ranks[0]}",
        "no-step": lambda: f"With the first {router} gives {other} a route. With the second it gives none",
        "step": lambda: f"With either {router} gives {other} a route. As said above, {other} may not be given the worse one",
        "listener": lambda: f"With the first {router} offers {other} a route. With the second it offers none, or one of a worse rank",
    }
    return f"{better_one(line, way)}. {because[line.reason]()}."


def closing(refusal: Refusal, way: Ways) -> str:
    """What closes the circle."""
    first, second, router = way(refusal.first), way(refusal.second), refusal.router
    if refusal.first != refusal.second:
        return f"That closes the circle. {router} would have to like {first} better than {second}, and {second} better than {first}."
    return f"That closes the circle. {router} has one number for all routes that look like {first}. None serves."


def told(refusal: Refusal, way: Ways) -> list[str]:
    """The sentences of a refusal, by number where it has a refutation."""
    named = {"router": refusal.router, "first": way(refusal.first), "second": way(refusal.second)}
    sentences = [MEANINGS[refusal.word].format(**named)] if refusal.word in MEANINGS else []
    if refusal in way.shows:
        sentences.append(f"Such a walk is {shown(way.shows[refusal])}.")
    for number, line in enumerate(refusal.lines[:MOST_LINES], 1):
        sentences.append(f"{number}. {sentence(line, way)}")
    if len(refusal.lines) > MOST_LINES:
        sentences.append(f"And {len(refusal.lines) - MOST_LINES} lines more, which `explain` writes.")
    elif refusal.lines:
        sentences.append(closing(refusal, way))
    return [line for each in sentences for line in wrapped(each)]


def wrapped(text: str) -> list[str]:
    """A sentence in lines of at most 100 columns, where no word is longer."""
    indent = "   " if text[:1].isdigit() else ""
    return textwrap.wrap(text, 100, subsequent_indent=indent, break_long_words=False, break_on_hyphens=False)


def pictured(ways: Ways, now: Mapping[Walk, set[int]], later: Mapping[Walk, set[int]]) -> tuple[list[str], list[str]]:
    """The picture of the nodes, and what each is worth: `now` its rank, `later` those of the walks that end with it."""
    legend = []
    for walk in ways.walks:
        ranks = [f"rank {listed(sorted(now[walk]), 'or')}" if now[walk] else "no rank"] if walk in now else []
        ranks += [f"further on {listed(sorted(later[walk]), 'or') or 'none'}"] if walk in later else []
        legend.append(f"{ways.marks[walk]} {shown(walk)}" + (f": {', '.join(ranks)}" if ranks else ""))
    return sketch(ways.walks, ways.marks), legend
