"""Graphviz: the nodes and edges of a graph, and the attributes of its nodes. What says only how it is drawn is passed over."""
from __future__ import annotations

import html
import itertools
import re

from texts.faults import Fault

from .graph import Graph

TOKEN = re.compile(r"""\s+|//[^\n]*|\#[^\n]*|/\*.*?\*/|(?P<edge>--|->)|(?P<sign>[{}\[\];,=:])
    |(?P<quoted>"(?:[^"\\]|\\.)*")|(?P<word>-?(?:[0-9]+(?:\.[0-9]*)?|\.[0-9]+)|[A-Za-z_\x80-\U0010ffff][\w\x80-\U0010ffff]*)""",
                   re.VERBOSE | re.DOTALL)
DRAWN = ("graph", "node", "edge")  # what stands behind these is of all that follow


class Reader:
    """Takes one token after another."""

    def __init__(self, text: str) -> None:
        self.graph, self.tokens, self.at = Graph(), list[tuple[str, str]](), 0
        place = 0
        while place < len(text):
            found = TOKEN.match(text, place)
            if not found:
                raise Fault(f"line {text.count(chr(10), 0, place) + 1}: Graphviz has no {text[place]!r} there")
            if found.lastgroup:
                self.tokens.append((found.lastgroup, found[0]))
            place = found.end()

    def here(self) -> tuple[str, str]:
        return self.tokens[self.at] if self.at < len(self.tokens) else ("end", "the end")

    def comes(self, text: str) -> bool:
        """Takes this sign or word, if it comes next."""
        if self.here()[1].lower() != text or self.here()[0] == "quoted":
            return False
        self.at += 1
        return True

    def take(self, text: str) -> None:
        if not self.comes(text):
            raise Fault(f"Graphviz: `{text}` in the place of {self.here()[1]}")

    def name(self) -> str:
        """A word, or a text in quotes, with what a port adds left out."""
        kind, text = self.here()
        if kind not in ("word", "quoted"):
            raise Fault(f"Graphviz: a name in the place of {text}")
        self.at += 1
        while self.here()[1] == ":":
            self.at += 2
        return html.unescape(re.sub(r"\\(.)", r"\1", text[1:-1])) if kind == "quoted" else text

    def attributes(self) -> dict[str, str]:
        """What stands in brackets, if that comes next."""
        found: dict[str, str] = {}
        while self.comes("["):
            while not self.comes("]"):
                key = self.name()
                found[key] = self.name() if self.comes("=") else "true"
                self.comes(",") or self.comes(";")
        return found

    def is_drawn(self) -> bool:
        """Takes what is of all that follow, or of the group itself, if that comes next."""
        kind, text = self.here()
        if kind == "word" and text.lower() in DRAWN and self.tokens[self.at + 1:self.at + 2] != [("sign", "=")]:
            self.at += 1
            self.attributes()
        elif kind in ("word", "quoted") and self.tokens[self.at + 1:self.at + 2] == [("sign", "=")]:
            self.at += 2
            self.name()
        else:
            return False
        return True

    def end(self) -> list[str]:
        """The end of an edge: a node, or a group with all nodes in it."""
        if self.comes("subgraph") and self.here()[0] in ("word", "quoted"):
            self.name()
            if self.here()[1] != "{":
                return []
        if self.comes("{"):
            return self.statements()
        name = self.name()
        self.graph.node(name)
        return [name]

    def statement(self) -> list[str]:
        """A node, a group, edges, or what says how it is drawn; gives the nodes in it. An edge between groups links each pair."""
        if self.is_drawn():
            return []
        is_node, ends = self.here()[1] != "{" and self.here()[1].lower() != "subgraph", [self.end()]
        while self.here()[0] == "edge":
            self.at += 1
            ends.append(self.end())
        attributes = self.attributes()
        if is_node and len(ends) == 1:
            self.graph.node(ends[0][0], attributes)
        for ones, twos in zip(ends, ends[1:]):
            for one, two in itertools.product(ones, twos):
                self.graph.link(one, two)
        return [name for names in ends for name in names]

    def statements(self) -> list[str]:
        """What stands up to the brace that closes; gives the nodes in it, each once."""
        found: dict[str, None] = {}
        while not self.comes("}"):
            if self.here()[0] == "end":
                raise Fault("Graphviz: the text ends within braces")
            if not self.comes(";"):
                found |= dict.fromkeys(self.statement())
        return list(found)


def read(text: str) -> Graph:
    """The graph of a text of Graphviz."""
    reader = Reader(text)
    reader.comes("strict")
    if not reader.comes("graph") and not reader.comes("digraph"):
        raise Fault(f"Graphviz: `graph` in the place of {reader.here()[1]}")
    if reader.here()[1] != "{":
        reader.name()
    reader.take("{")
    try:
        reader.statements()
    except RecursionError:
        raise Fault("Graphviz: too many braces are open at once") from None
    return reader.graph
