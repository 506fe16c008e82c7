"""Cuts the text of a policy into its items, and its expressions into their parts.

Only texts that the program has read are cut, so nothing here judges one: what has no meaning is a fault. Brackets are at most 64 deep
in such a text, so the reading of an expression may recurse.
"""
from __future__ import annotations

from collections.abc import Iterable, Mapping
from dataclasses import dataclass, replace
from typing import Any, Union

from .faults import Fault
from .tokens import Token, tokens

PATHS = ("link", "path")  # the calls whose arguments are places, one location each
PLAIN = ("any", "drop", "internal")  # the calls that take none
RANKED, EITHER, BOTH, NOT, ATOM = range(5)  # how tightly an expression binds
Names = tuple[str, ...]


@dataclass(frozen=True)
class Call:
    """`word(..)`. The arguments are the alternatives of a set, or the places of a path; each is the names that stand there."""

    word: str
    arguments: tuple[Names, ...] = ()
    binds = ATOM

    def spelled(self) -> str:
        if self.word in PLAIN:
            return self.word
        between = ", " if self.word in PATHS else " >> "
        place = one_place if self.word in PATHS else ", ".join
        return f"{self.word}({between.join(place(names) for names in self.arguments)})"


@dataclass(frozen=True)
class Not:
    """What doesn't hold."""

    inner: Expression
    binds = NOT

    def spelled(self) -> str:
        return "not " + (self.inner.spelled() if isinstance(self.inner, Call) else f"({self.inner.spelled()})")


@dataclass(frozen=True)
class Joined:
    """Expressions joined by `>>`, `or` or `and`, from left to right."""

    parts: tuple[Expression, ...]
    binds: int

    def spelled(self) -> str:
        word = {RANKED: " >> ", EITHER: " or ", BOTH: " and "}[self.binds]
        return word.join(part.spelled() if part.binds > self.binds else f"({part.spelled()})" for part in self.parts)


Expression = Union[Call, Not, Joined]


@dataclass(frozen=True)
class Origin:
    """A prefix that is originated, and the names behind `at`."""

    prefix: str
    names: Names


@dataclass(frozen=True)
class Statement:
    """A statement: what it governs, its expression, whom it is for (None where no `from` stands), and its place in the text."""

    number: int
    line: int
    begins: int
    ends: int
    patterns: Names
    expression: Expression
    sources: Names | None

    def spelled(self) -> str:
        sources = "" if self.sources is None else f" from {', '.join(self.sources)}"
        return f"{' or '.join(self.patterns)} => {self.expression.spelled()}{sources};"

    def having(self, **changes: Any) -> Statement:
        """The same statement with other parts."""
        return replace(self, **changes)

    def dropping(self) -> Statement:
        """The statement that drops what this one governs."""
        return self.having(expression=Call("drop"), sources=None)


def joined(binds: int, *parts: Expression) -> Expression:
    """The parts joined, where there are several."""
    flat = [each for part in parts for each in (part.parts if isinstance(part, Joined) and part.binds == binds else (part,))]
    return flat[0] if len(flat) == 1 else Joined(tuple(flat), binds)


def one_place(names: Names) -> str:
    """A place of a path, as it is spelled."""
    return names[0] if len(names) == 1 else "{ " + ", ".join(names) + " }"


class Reader:
    """Takes one token after another."""

    def __init__(self, text: bytes) -> None:
        self.tokens, self.at = tokens(text), 0
        for token in self.tokens:
            if token.kind == "other":
                raise Fault(f"policy: at byte {token.at}")

    def here(self) -> Token | None:
        """The token that comes next, None at the end."""
        return self.tokens[self.at] if self.at < len(self.tokens) else None

    def next(self) -> str:
        """The text of the token that comes next, none at the end."""
        token = self.here()
        return token.text if token else ""

    def take(self, wanted: str | None = None) -> str:
        word = self.next()
        if not word or wanted not in (None, word):
            raise Fault(f"policy: {wanted or 'a word'} in the place of {word or 'the end'}")
        self.at += 1
        return word

    def passes(self, word: str) -> bool:
        """Whether this word comes next; then it is taken."""
        if self.next() != word:
            return False
        self.at += 1
        return True

    def names(self) -> Names:
        found = [self.take()]
        while self.passes(","):
            found.append(self.take())
        return tuple(found)

    def place(self) -> Names:
        if not self.passes("{"):
            return (self.take(),)
        found = self.names()
        self.take("}")
        return found

    def call(self, word: str) -> Call:
        if word in PLAIN:
            return Call(word)
        self.take("(")
        read, between = (self.place, ",") if word in PATHS else (self.names, ">>")
        arguments = [read()]
        while self.passes(between):
            arguments.append(read())
        self.take(")")
        return Call(word, tuple(arguments))

    def atom(self) -> Expression:
        if self.passes("not"):
            return Not(self.atom())
        if not self.passes("("):
            return self.call(self.take())
        inner = self.expression()
        self.take(")")
        return inner

    def expression(self, binds: int = RANKED) -> Expression:
        """What is joined by operators that bind at least as tightly."""
        if binds == NOT:
            return self.atom()
        word = {RANKED: ">>", EITHER: "or", BOTH: "and"}[binds]
        parts = [self.expression(binds + 1)]
        while self.passes(word):
            parts.append(self.expression(binds + 1))
        return parts[0] if len(parts) == 1 else Joined(tuple(parts), binds)

    def patterns(self) -> Names:
        found: list[str] = []
        while not found or self.passes("or"):
            found.append(self.take())
            if self.passes("le"):
                found[-1] += " le " + self.take()
        self.take("=>")
        return tuple(found)


@dataclass(frozen=True)
class Policy:
    """A policy: its text, its groups by name, what it originates, and its statements."""

    text: bytes
    groups: Mapping[str, frozenset[str]]
    origins: tuple[Origin, ...]
    statements: tuple[Statement, ...]

    def locations(self, names: Iterable[str]) -> frozenset[str]:
        """The locations that the names of a list stand for; `any` stands for itself."""
        return frozenset(each for name in names for each in self.groups.get(name, (name,)))

    def originated(self, routers: Iterable[str]) -> dict[str, list[str]]:
        """The prefixes that each router originates, as the items of the text say it."""
        found: dict[str, list[str]] = {name: [] for name in routers}
        for origin in self.origins:
            at = self.locations(origin.names)
            for name in found if "any" in at else [name for name in found if name in at]:
                found[name].append(origin.prefix)
        return found

    def shortest(self, names: Names) -> Names:
        """Names for these locations, in their order: the group that has just these, where there is one."""
        for name, inside in self.groups.items():
            if len(names) > 1 and inside == frozenset(names):
                return (name,)
        return tuple(names)

    def with_statements(self, kept: Mapping[int, Statement]) -> bytes:
        """The text in which each statement reads as it stands in `kept`, by its number, and each other one drops what it governs.

        So every prefix keeps its statement, its case and the case's number, and only the kept ones can be refused.
        """
        pieces, at = [], 0
        for each in self.statements:
            pieces += [self.text[at:each.begins], kept.get(each.number, each.dropping()).spelled().encode()]
            at = each.ends
        return b"".join(pieces) + self.text[at:]

    def alone(self, statement: Statement) -> bytes:
        """The text in which every other statement drops what it governs."""
        return self.with_statements({statement.number: statement})


def cut(text: bytes) -> Policy:
    """The policy that a text spells."""
    reader = Reader(text)
    groups: dict[str, frozenset[str]] = {}
    origins: list[Origin] = []
    statements: list[Statement] = []
    line, upto = 1, 0
    while (first := reader.here()) is not None:
        if reader.passes("define"):
            name = reader.take()
            reader.take("=")
            names = reader.place()
            groups[name] = frozenset(each for word in names for each in groups.get(word, (word,)))
        elif reader.passes("originate"):
            prefix = reader.take()
            reader.take("at")
            origins.append(Origin(prefix, reader.names()))
        else:
            patterns, expression = reader.patterns(), reader.expression()
            sources = reader.names() if reader.passes("from") else None
            line, upto = line + text.count(b"\n", upto, first.at), first.at
            end = reader.here()
            ends = end.at + 1 if end else 0
            statements.append(Statement(len(statements) + 1, line, first.at, ends, patterns, expression, sources))
        reader.take(";")
    return Policy(text, groups, tuple(origins), tuple(statements))
