"""Topologies from what people have, and for what they have: tools/import and tools/export.

    graph       what is read: nodes, links, and what stands beside a node
    graphviz, graphml, links_table, containerlab   one reader for each form of a text
    plain_yaml  YAML as far as its plain form goes
    lawful      a topology of a graph: lawful names, AS numbers and identifiers
    command     the words of both, and how they end
"""
