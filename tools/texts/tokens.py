"""The tokens of a policy text, with their places in bytes, as the program counts."""
from __future__ import annotations

import re
from collections.abc import Iterable, Iterator
from typing import NamedTuple

# The words of the language: a token that spells one is no name.
WORDS = ("define originate at from true or and not le any drop internal avoid through notransit start end link path exit enter").split()
TOKEN = re.compile(rb"(?P<blank>[ \t\r\n]+|#[^\n]*)|(?P<name>[A-Za-z][A-Za-z0-9_.-]*)|(?P<figure>[0-9][0-9./]*)|(?P<sign>=>|>>|[={}(),;])")


class Token(NamedTuple):
    """A token: its kind (word, name, figure, sign, or other where it is none), its text and its place."""

    kind: str
    text: str
    at: int


def tokens(text: bytes) -> list[Token]:
    """The tokens of a text. A byte that means nothing is one by itself."""
    found, at = [], 0
    while at < len(text):
        held = TOKEN.match(text, at)
        end = held.end() if held else at + 1
        if not held or held.lastgroup != "blank":
            said = text[at:end].decode("utf-8", "replace")
            kind = held.lastgroup or "" if held else "other"
            found.append(Token("word" if kind == "name" and said in WORDS else kind, said, at))
        at = end
    return found


def items(found: Iterable[Token]) -> Iterator[list[Token]]:
    """The tokens of each item, without the `;` behind it."""
    item: list[Token] = []
    for token in found:
        if token.text == ";":
            if item:
                yield item
            item = []
        else:
            item.append(token)
    if item:
        yield item
