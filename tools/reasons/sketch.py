"""Draws walks as text: a tree that grows from the origins on, with a mark behind each place where a walk ends."""

from __future__ import annotations

from collections.abc import Iterable, Mapping

from .network import Walk


class Branch:
    """A location in the tree: what follows it, and the mark of the walk that ends there."""

    def __init__(self, name: str) -> None:
        self.name, self.mark = name, ""
        self.next: dict[str, Branch] = {}


def tree_of(walks: Iterable[Walk], marks: Mapping[Walk, str]) -> Branch:
    top = Branch("")
    for walk in walks:
        here = top
        for name in reversed(walk):
            here = here.next.setdefault(name, Branch(name))
        here.mark = marks[walk]
    return top


def drawn(branch: Branch) -> list[str]:
    """The lines of a tree; what doesn't branch stands on one line."""
    label = [f"{branch.name} {branch.mark}".strip()]
    while len(branch.next) == 1:
        branch = next(iter(branch.next.values()))
        label.append(f"{branch.name} {branch.mark}".strip())
    front, blocks = " --- ".join(label), [drawn(each) for each in branch.next.values()]
    lines: list[str] = []
    for number, block in enumerate(blocks):
        for row, text in enumerate(block):
            join = "+- " if row == 0 else "|  " if number + 1 < len(blocks) else "   "
            lines.append((front + " -" if not lines else " " * (len(front) + 2)) + join + text)
    return lines or [front]


def sketch(walks: Iterable[Walk], marks: Mapping[Walk, str]) -> list[str]:
    """The walks as a picture. Each is written from its source to its origin, and drawn from there."""
    return [line for each in tree_of(walks, marks).next.values() for line in drawn(each)]
