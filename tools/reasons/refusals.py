"""Reads what `explain` writes: the line of a refusal, and the lines of its refutation."""
from __future__ import annotations

from collections.abc import Sequence
from dataclasses import dataclass

from texts.faults import Fault

from .network import Walk

ACCEPTED = "accepted"
BETWEEN = {"mixed-source": "without", "no-evidence": "second"}  # the word between the two walks of a refusal that names some
PARTS = {"rank": 3, "no-step": 2, "step": 2, "listener": 2}  # how many words a reason has that doesn't end in a walk


@dataclass(frozen=True)
class Line:
    """One line of a refutation: by it the first node at the router may not be held as high as the second."""

    round: int
    router: str
    first: Walk
    second: Walk
    reason: str  # one of PARTS, or loop
    other: str = ""  # the neighbour Z, or the peer P
    along: Walk = ()  # the walk of a loop
    ranks: tuple[int, ...] = ()  # of the first and of the second

    def ways(self) -> list[Walk]:
        """The nodes that the line names, each by its walk."""
        return [self.first, self.second] + ([self.along] if self.along else [])


@dataclass(frozen=True)
class Refusal:
    """A refusal: its line, and what that names. The two walks are those behind `with` and `without`, or `first` and `second`."""

    text: str
    word: str
    case: int
    router: str
    first: Walk
    second: Walk
    lines: tuple[Line, ...]

    def walks(self) -> list[Walk]:
        """Each walk that is named, once, in the order of the lines."""
        found = [walk for line in self.lines for walk in line.ways()] + [walk for walk in (self.first, self.second) if walk]
        return list(dict.fromkeys(found))


def parted(words: Sequence[str], word: str, router: str) -> tuple[Walk, Walk]:
    """The words before and behind this one. Walks may name a router like the word: both walks begin with this router."""
    at = next(k for k in range(1, len(words) - 1) if words[k] == word and words[k + 1] == router)
    return tuple(words[:at]), tuple(words[at + 1:])


def line_of(text: str) -> Line:
    """`round N router R first WALK second WALK REASON`."""
    words = text.split(" ")
    number, router = int(words[1]), words[3]
    first, rest = parted(words[5:], "second", router)
    for reason, length in PARTS.items():
        if len(rest) > length and rest[-length] == reason:
            if reason == "rank":
                return Line(number, router, first, rest[:-length], reason, ranks=(int(rest[-2]), int(rest[-1])))
            return Line(number, router, first, rest[:-length], reason, rest[-1])
    at = next(k for k in range(1, len(rest) - 3) if rest[k] == "loop" and rest[k + 2] == "via" and rest[k + 3] == rest[k + 1])
    return Line(number, router, first, rest[:at], "loop", rest[at + 1], rest[at + 3:])


def refusal_of(text: str) -> Refusal | None:
    """What `explain` says: none where it accepts."""
    head, *rest = text.splitlines() or [""]
    if head == ACCEPTED:
        return None
    try:
        words = head.split(" ")
        word = words[2]
        case = int(words[4]) if words[3:4] == ["case"] else 0
        router = words[6] if words[5:6] == ["router"] else ""
        walks = parted(words[8:], BETWEEN[word], router) if word in BETWEEN else ((), ())
        return Refusal(head, word, case, router, *walks, tuple(map(line_of, rest)))
    except (ValueError, IndexError, KeyError, StopIteration) as fault:
        raise Fault(text) from fault
