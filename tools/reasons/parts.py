"""What tools/why tells, in parts: lines are made of them, or a line of JSON each, which the page of tools/open takes."""
from __future__ import annotations

import json
from collections.abc import Iterable, Iterator
from dataclasses import asdict, dataclass
from itertools import groupby
from typing import Union


@dataclass(frozen=True)
class Accepted:
    """The policy is accepted."""

    def lines(self) -> Iterator[str]:
        yield "The policy is accepted: each of its statements can be kept."


@dataclass(frozen=True)
class Together:
    """The policy is refused, and none of its statements by itself: the program's line, and what it means."""

    refusal: str
    says: list[str]

    def lines(self) -> Iterator[str]:
        yield f"The program says: {self.refusal}"
        yield from self.says
        yield "Each statement can be kept by itself: it is all of them together that pass the limit."


@dataclass(frozen=True)
class Refused:
    """A statement that can't be kept: the program's line, the case that it names, why in words, and the nodes as a picture."""

    statement: int
    line: int
    text: str
    refusal: str
    case: str
    says: list[str]
    picture: list[str]
    legend: list[str]

    def lines(self) -> Iterator[str]:
        yield from (f"Statement {self.statement}, line {self.line}, can't be kept:", "", f"    {self.text}", "")
        yield from (f"The program says: {self.refusal}", f"{self.case}.", "")
        yield from self.says
        if self.picture:
            yield from ("", "These ways, drawn from the origin on. Each has its rank, and the ranks of longer ways that end with it:", "")
            yield from (f"    {line}" for line in self.picture)
            yield ""
            yield from (f"    {line}" for line in self.legend)


@dataclass(frozen=True)
class Repair:
    """A statement that compiles in the other's place: what was done to it, its text, and what it gives up."""

    habit: str
    text: str
    costs: list[str]


@dataclass(frozen=True)
class Repairs:
    """The repairs of a statement that compile, those of one habit together; how many were tried; for which case alone costs are told."""

    statement: int
    tried: int
    is_late: bool
    case: int | None
    repairs: list[Repair]
    left_out: int  # repairs that compile and are worth little

    def head(self) -> str:
        """How many were tried, and how many compile."""
        compile_ = f"{len(self.repairs) + self.left_out} compile; those first that give up least" if self.repairs else "none compiles"
        return f"Repairs: {self.tried} tried, {compile_}.{' The time is up.' if self.is_late else ''}"

    def notes(self) -> list[str]:
        """What is to be known of them."""
        alone = [f"Ranks, paths and cuts are told for case {self.case} alone."] if self.repairs and self.case else []
        poor = [f"Left out, as rank 1 goes to nobody or a source loses its path: {self.left_out}."] if self.left_out else []
        return [*poor, "docs/LANGUAGE.md has the habits, and docs/COOKBOOK.md more forms.", *alone]

    def lines(self) -> Iterator[str]:
        yield from ("", self.head(), *self.notes())
        number = 0
        for habit, found in groupby(self.repairs, lambda repair: repair.habit):
            yield from ("", f"To {habit}:")
            for repair in found:
                number += 1
                yield from ("", f"{number:3} {repair.text}")
                yield from (f"        {line}" for line in repair.costs)


Part = Union[Accepted, Together, Refused, Repairs]


def lines_of(parts: Iterable[Part]) -> Iterator[str]:
    """All parts as lines. An empty one parts two statements."""
    is_first = True
    for part in parts:
        if isinstance(part, Refused) and not is_first:
            yield ""
        yield from part.lines()
        is_first = False


def records_of(parts: Iterable[Part]) -> Iterator[str]:
    """Each part as a line of JSON: its fields, its kind, and for repairs what stands above them."""
    for part in parts:
        above = {"head": part.head(), "notes": part.notes()} if isinstance(part, Repairs) else {}
        yield json.dumps({"kind": type(part).__name__.lower(), **asdict(part), **above})
