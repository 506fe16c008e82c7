"""What is said behind the program's line, as a record: lines for a terminal are made of it, and the page of tools/open takes its parts."""
from __future__ import annotations

import os
from collections.abc import Sequence
from dataclasses import dataclass, replace

from texts.policy import Statement

from .places import Text, plain

HERE = os.path.dirname(os.path.dirname(os.path.abspath(__file__)))


def documents() -> str:
    """The folder of the documents, in a checkout or where they are installed."""
    for path in os.path.join(HERE, "..", "docs"), os.path.join(HERE, "..", "..", "share", "doc", "propane"):
        if os.path.isdir(path):
            return min(os.path.relpath(path), os.path.realpath(path), key=len)
    return "docs"


@dataclass(frozen=True)
class Hint:
    """Sentences on a fault; its place in a text, where it has one; names that may have been meant there; and where more is said.

    The place is in bytes, as the program counts. `page` is one of the documents, and `part` a part of it.
    """

    says: tuple[str, ...] = ()
    text: Text | None = None
    at: int = 0
    length: int = 0
    near: tuple[str, ...] = ()
    page: str = ""
    part: str = ""

    def seeing(self, page: str, part: str = "") -> Hint:
        """The same, and where more is said."""
        return replace(self, page=page, part=part)

    def lines(self) -> list[str]:
        """The lines behind the program's own: the place, each sentence, the page. Near names go with the first sentence."""
        near = f" Near it: {', '.join(map(plain, self.near))}." if self.near else ""
        says = [f"  {says}{'' if number else near}" for number, says in enumerate(self.says)]
        where = f"  See {plain(os.path.join(documents(), self.page))}" + (f', "{self.part}".' if self.part else ".")
        return [*(self.text.shown(self.at, self.length) if self.text else []), *says, *([where] if self.page else [])]


NOTHING = Hint()


def said(*says: str, near: Sequence[str] = ()) -> Hint:
    """Sentences without a place."""
    return Hint(tuple(each for each in says if each), near=tuple(near))


def said_at(text: Text, at: int, length: int, *says: str, near: Sequence[str] = ()) -> Hint:
    """Sentences on a place of a text."""
    return Hint(tuple(each for each in says if each), text, at, length, tuple(near))


def said_of(text: Text, statement: Statement, *says: str) -> Hint:
    """Sentences on a statement of a text."""
    return said_at(text, statement.begins, (statement.ends or len(text.bytes)) - statement.begins, *says)
