"""A table of links: each row has the names of two ends in its first columns. A row of one name is a node without a link."""
from __future__ import annotations

import csv
import io
import re

from texts.faults import Fault

from .graph import Graph

# Words at the head of a column, as far as they have letters and digits.
HEADS = {"a", "b", "z", "aend", "bend", "zend", "from", "to", "source", "target", "src", "dst", "destination", "node1", "node2", "end1", "end2",
         "nodea", "nodeb", "devicea", "deviceb", "local", "remote", "localdevice", "remotedevice", "sourcenode", "targetnode"}


def read(text: str) -> Graph:
    """The graph of a table. Commas, semicolons or tabs part its columns. A first row of words such as `source` and `target` is its head,
    which is told."""
    first = text.partition("\n")[0]
    sign = max(",;\t", key=first.count)
    graph = Graph()
    for place, row in enumerate(csv.reader(io.StringIO(text), delimiter=sign), 1):
        ends = [cell.strip() for cell in row[:2]]
        if not any(ends):
            continue
        if place == 1 and all(re.sub("[^a-z0-9]", "", end.lower()) in HEADS for end in ends):
            graph.others.append(f"row 1 is taken for the head of the table: {' '.join(ends)}")
            continue
        if not ends[0]:
            raise Fault(f"row {place}: no name in the first column")
        if len(ends) < 2 or not ends[1]:
            graph.node(ends[0])
        else:
            graph.link(ends[0], ends[1])
    return graph
