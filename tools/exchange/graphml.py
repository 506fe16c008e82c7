"""GraphML: nodes and edges, and the data of nodes by their names. A node is called by its `label` or `name`, or else by its id."""
from __future__ import annotations

from xml.etree import ElementTree

from texts.faults import Fault

from .graph import Graph


def read(text: str) -> Graph:
    """The graph of a text of GraphML."""
    try:
        top = ElementTree.fromstring(text)
    except ElementTree.ParseError as error:
        raise Fault(f"GraphML: not XML: {error}") from None
    space = top.tag.partition("}")[0] + "}" if top.tag.startswith("{") else ""
    if top.tag != f"{space}graphml":
        raise Fault("GraphML: the text isn't of that form")
    keys = {key.get("id", ""): key.get("attr.name", "") for key in top.iter(f"{space}key")}
    graph, names = Graph(), dict[str, str]()
    for node in top.iter(f"{space}node"):
        data = {keys.get(each.get("key", ""), each.get("key", "")): (each.text or "").strip() for each in node.iter(f"{space}data")}
        name = data.get("label") or data.get("name") or node.get("id") or ""
        if name in graph.nodes:
            name = f"{name} {node.get('id', '')}"  # places with one name for two nodes
        names[node.get("id", "")] = name
        graph.node(name, data)
    for edge in top.iter(f"{space}edge"):
        ends = [names.get(edge.get(end, ""), "") for end in ("source", "target")]
        if not all(ends):
            raise Fault(f"GraphML: an edge to no node: {edge.get('source')} {edge.get('target')}")
        graph.link(*ends)
    return graph
