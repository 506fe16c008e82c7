"""tools/import, tools/export and tools/deploy --number: topologies that the program reads, of what people have, and back."""
import json
import os
import tempfile
import unittest

from common import PROGRAM, TOP, ended
from exchange import plain_yaml
from texts.faults import Fault

TOOLS = os.path.join(TOP, "tools")
EXAMPLE = os.path.join(TOP, "examples", "import")
TWO_EXITS = os.path.join(TOP, "examples", "two-exits")
# Each example: its words, the routers with their AS numbers, the peers, the links, and what is told of changes.
EXAMPLES = [
    (["backbone.dot"], {"Zurich": 64512, "Bern": 64513, "Genf": 64514}, {"Provider": 64500},
     ["Zurich Bern", "Bern Genf", "Genf Zurich", "Zurich Provider", "Genf Provider"], "import: name 'Zürich' is now Zurich\n"),
    (["--peer", "ISP*", "links.csv"], {"core-1": 64512, "core-2": 64513, "edge-1": 64514}, {"ISP-A": 64496},
     ["core-1 core-2", "core-1 edge-1", "core-2 edge-1", "edge-1 ISP-A"],
     "import: name 'edge 1' is now edge-1\nimport: row 1 is taken for the head of the table: source target\n"
     "import: link core-1 core-2 is left out: it is there already\n"),
    (["lab.clab.yml"], {"r1": 64600, "r2": 64512}, {"isp": 64496}, ["r1 r2", "r2 isp"], ""),
    (["ring.graphml"], {"Oslo": 64512, "Bergen": 64513}, {"Carrier": 3356}, ["Oslo Bergen", "Bergen Carrier"], ""),
]
# Texts by their ending, and what is said of each.
WRONG = [
    ("x.dot", "table { }", "Graphviz: `graph` in the place of table"),
    ("x.dot", "graph { a -- b", "Graphviz: the text ends within braces"),
    ("x.dot", "graph { {a b} -- }", "Graphviz: a name in the place of }"),
    ("x.dot", "graph { a ! b }", "line 1: Graphviz has no '!' there"),
    ("x.dot", "graph " + "{" * 5000, "too many braces are open at once"),
    ("x.graphml", "<graph/>", "GraphML: the text isn't of that form"),
    ("x.graphml", "<graphml", "GraphML: not XML"),
    ("x.graphml", "<graphml><graph><node id='a'/><edge source='a' target='b'/></graph></graphml>", "an edge to no node: a b"),
    ("x.csv", ",b\n", "row 1: no name in the first column"),
    ("x.yml", "topology:\n  nodes: &all\n", "line 2: that isn't plain YAML: &all"),
    ("x.yml", "topology:\n  links:\n    - endpoints: [a:1]\n", "link 1: no two endpoints"),
    ("x.yml", "topology:\n\tnodes:\n", "line 2: YAML is indented by blanks"),
    ("x.txt", "", "the ending says of which form a text is"),
    ("x.csv", "".join(f"a{n},b{n}\n" for n in range(300)), "600 routers, and a topology has at most 512"),
]
# Texts by their ending, the links that are read, and what is told of what is left out.
FORMS = [
    ("x.gv", 'graph { rankdir=LR; "x" = y; s1 -- {t1 t2 -- t3}; {s1; s2} -- {l1 l2} -- subgraph q { e }; subgraph q; graph [a=b]; f [c=d] }',
     ["t2 t3", "s1 t1", "s1 t2", "s1 t3", "s1 l1", "s1 l2", "s2 l1", "s2 l2", "l1 e", "l2 e"], ""),
    ("x.csv", "A-End;Z-End;Speed\na;b;10\n", ["a b"], "import: row 1 is taken for the head of the table: A-End Z-End\n"),
    ("x.yml", "topology:\n  nodes:\n    a:\n    b:\n  links:\n    - type: veth\n      endpoints:\n        - node: a\n          interface: eth1\n"
     "        - {node: b, interface: eth1}\n    - type: host\n      endpoint:\n        node: a\n"
     "    - endpoints: [b:eth2, mgmt-net:b-eth2]\n",
     ["a b"], "import: link 2 is left out: it leads to no other node\nimport: link 3 is left out: it leads to no other node\n"),
]
YAML = [
    ("a: 1\nb:\n- x\n- y: 'it''s'\n  z: \"q\"\nc: [1, {d: e}, \"f, g\"]\n", {"a": "1", "b": ["x", {"y": "it's", "z": "q"}], "c": ["1", {"d": "e"}, "f, g"]}),
    ("- - nothing\n", None),
    ("a:\n  b: # a comment\n    - c#d\n", {"a": {"b": ["c#d"]}}),
    ("\"a b\": {}\nc:\n", {"a b": {}, "c": ""}),
    ("a:\n    b: 1\n  c: 2\n", None),
    ("a: [1\n", None),
]


class Exchange(unittest.TestCase):
    def setUp(self):
        room = tempfile.TemporaryDirectory()
        self.addCleanup(room.cleanup)
        self.folder = room.name

    def write(self, name, text):
        path = os.path.join(self.folder, name)
        with open(path, "w", encoding="utf-8") as file:
            file.write(text)
        return path

    def tool(self, name, *words, cwd=None):
        return ended([os.path.join(TOOLS, name), *words], cwd=cwd or self.folder)

    def test_examples(self):
        for words, routers, peers, links, told in EXAMPLES:
            with self.subTest(words[-1]):
                status, text, said = self.tool("import", *words, cwd=EXAMPLE)
                made = json.loads(text)
                self.assertEqual((status, said), (0, told))
                self.assertEqual([{site["name"]: site["asn"] for site in made[key]} for key in ("routers", "peers")], [routers, peers])
                self.assertEqual([" ".join(link) for link in made["links"]], links)
                names = [self.write("topology.json", text), self.write("policy.propane", "true => any;\n")]
                self.assertEqual(ended([PROGRAM, "lint", *names]), (0, "findings 0\n", ""))

    def test_forms(self):
        """What a form may have besides: edges between groups, the head of a table, links in the long form, and links to elsewhere."""
        for name, text, links, told in FORMS:
            with self.subTest(name):
                status, out, said = self.tool("import", self.write(name, text))
                self.assertEqual((status, said), (0, told))
                self.assertEqual([" ".join(link) for link in json.loads(out)["links"]], links)

    def test_names(self):
        """Whatever the names are, the program takes what becomes of them; one that is lawful stays."""
        names = ["link", "link-2", "a b", "a-b", "9", "x" * 40, "x" * 41, "é", "*", "a.b_c-d"]
        status, text, _ = self.tool("import", self.write("names.csv", "".join(f"{name};\n" for name in names)))
        made = [site["name"] for site in json.loads(text)["routers"]]
        self.assertEqual((status, made), (0, ["link-3", "link-2", "a-b-2", "a-b", "N9", "x" * 32, "x" * 30 + "-2", "e", "N", "a.b_c-d"]))
        names = [self.write("topology.json", text), self.write("policy.propane", "")]
        self.assertEqual(ended([PROGRAM, "lint", *names])[0], 0)

    def test_wrong(self):
        for name, text, why in WRONG:
            with self.subTest(why):
                status, out, said = self.tool("import", self.write(name, text))
                self.assertEqual((status, out), (3, ""), said)
                self.assertIn(why, said)
        self.assertEqual(self.tool("import", "none.csv")[0], 4)
        self.assertEqual(self.tool("import")[0], 2)

    def test_plain_yaml(self):
        for text, value in YAML:
            with self.subTest(text):
                if value is None and not text.startswith("- -"):
                    self.assertRaises(Fault, plain_yaml.read, text)
                elif value is not None:
                    self.assertEqual(plain_yaml.read(text), value)

    def test_numbers(self):
        topology = os.path.join(TWO_EXITS, "topology.json")
        status, text, said = self.tool("deploy", "--number", "10.0.0.0/29", topology)
        self.assertEqual((status, said), (0, ""))
        self.assertEqual([(entry["ends"], entry["addresses"]) for entry in json.loads(text)["links"]],
                         [(["R1", "R2"], ["10.0.0.0", "10.0.0.1"]), (["R1", "P1"], ["10.0.0.2", "10.0.0.3"]),
                          (["R2", "P2"], ["10.0.0.4", "10.0.0.5"])])
        for block, why in ("10.0.0.0/30", "has 4 addresses, and 3 links need 6"), ("10.0.0.1/8", "no prefix"), ("all", "no prefix"):
            self.assertIn(why, self.tool("deploy", "--number", block, topology)[2])

    def test_export(self):
        """What is exported is read again as the network that it was, and names the files that the routers load."""
        topology, policy = (os.path.join(TWO_EXITS, name) for name in ("topology.json", "policy.propane"))
        maps = self.write("maps", ended([PROGRAM, "routemap", topology, policy])[1])
        addresses = self.write("addresses.json", self.tool("deploy", "--number", "10.0.0.0/24", topology)[1])
        self.assertIn("no file R1.frr.conf", self.tool("export", topology, addresses, self.folder)[2])
        self.assertEqual(self.tool("deploy", "--frr", topology, maps, addresses, "frr")[0], 0)
        status, text, said = self.tool("export", topology, addresses, "frr")
        self.assertEqual((status, said), (0, ""))
        for part in ("- \"frr/R1.frr.conf:/etc/frr/frr.conf\"", "ip addr add 10.0.0.0 peer 10.0.0.1 dev eth1",
                     "- endpoints: [\"R1:eth1\", \"R2:eth1\"]"):
            self.assertIn(part, text)
        self.assertTrue(os.path.isfile(os.path.join(self.folder, "frr", "daemons")))
        status, again, _ = self.tool("import", self.write("lab.clab.yml", text))
        with open(topology, encoding="utf-8") as file:
            self.assertEqual((status, json.loads(again)), (0, json.load(file)))


if __name__ == "__main__":
    unittest.main()
