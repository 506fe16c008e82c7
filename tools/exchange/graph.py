"""A graph as it was read: nodes in their order, each with what stands beside it, and links."""
from __future__ import annotations

from collections.abc import Mapping
from dataclasses import dataclass, field


@dataclass
class Graph:
    """Nodes by name with their attributes, and links by the names of their ends, in the order of the text; and a line on
    each row that is none of these."""

    nodes: dict[str, dict[str, str]] = field(default_factory=dict)
    links: list[tuple[str, str]] = field(default_factory=list)
    others: list[str] = field(default_factory=list)

    def node(self, name: str, attributes: Mapping[str, str] | None = None) -> None:
        """Adds a node, or to what stands beside it."""
        self.nodes.setdefault(name, {}).update(attributes or {})

    def link(self, one: str, two: str) -> None:
        """Adds a link, with its ends where they are new."""
        self.node(one)
        self.node(two)
        self.links.append((one, two))
