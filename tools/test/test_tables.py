"""tools/tables: which answers are read, as what, and the line with which it ends where one isn't."""
import json
import os
import tempfile
import unittest

from common import TOP, ended, tool

TABLES = tool("tables")
EXAMPLE = os.path.join(TOP, "examples", "two-exits")
BIRD = """BIRD 2.0.12 ready.
Table master4:
198.51.100.0/24      unicast [R2 08:42:06.223 from 192.0.2.102] * (100/?) [AS3356i]
\tdev lo
\tType: BGP univ
\tBGP.origin: IGP
\tBGP.as_path: 64513 1002 3356
\tBGP.next_hop: 192.0.2.103
\tBGP.local_pref: 100
\tBGP.large_community: (64512, 0, 2)
"""
OWN = "198.51.100.0/24      blackhole [own 08:41:12.001] * (200)\n\tType: static univ\n\tBGP.large_community: (64512, 0, 1)\n"
PLAIN = {"aspath": {"segments": [{"type": "as-sequence", "list": [64513, 1002]}]}, "bestpath": {"overall": True}}
OPEN = {"prefix": "198.51.100.0/24", "aspath": "64513 1002 3356", "best": True, "localpref": 100, "large_communities": ["64512:0:2"]}
ROUTE = '{"path":["R1","R2","P2"],"pref":100,"tag":[64512,2]}'

# What is recorded of R1, R2 being dead, and the entry of R1.
READ = [
    (".bird", BIRD, ROUTE),
    (".bird", BIRD.replace("BIRD 2.0.12 ready.\n", "BIRD 2.0.12 ready.\nAccess restricted\n"), ROUTE),
    (".bird", BIRD.split("\n", 2)[2], ROUTE),
    (".bird", BIRD.replace("3356\n", "3356 {174 701}\n", 1), ROUTE),
    (".bird", BIRD.replace("(64512, 0, 2)", "(64513, 0, 2) (64512, 1, 2)"), ROUTE.replace("[64512,2]", "[0,0]")),
    (".bird", "BIRD 2.0.12 ready.\nNetwork not found\n", "null"),
    (".bird", OWN, '{"path":["R1"],"pref":0,"tag":[64512,1]}'),
    (".frr", "{}\n", "null"),
    (".frr", PLAIN | {"locPrf": 7}, '{"path":["R1","R2","P2"],"pref":7,"tag":[0,0]}'),
    (".frr", PLAIN | {"largeCommunity": {"list": ["64512:0:9"]}}, '{"path":["R1","R2","P2"],"pref":100,"tag":[64512,9]}'),
    (".frr", PLAIN | {"aspath": {"segments": [], "length": 0}}, '{"path":["R1"],"pref":0,"tag":[0,0]}'),
    (".openbgpd", "{\n\n}\n", "null"),
    (".openbgpd", OPEN, ROUTE),
    (".openbgpd", OPEN | {"aspath": "64513 1002 { 174 701 }"}, ROUTE),
    (".openbgpd", OPEN | {"aspath": "", "localpref": 4294967295}, '{"path":["R1"],"pref":0,"tag":[64512,2]}'),
    (".openbgpd", {name: OPEN[name] for name in OPEN if name != "large_communities"}, ROUTE.replace("[64512,2]", "[0,0]")),
    (".dead", "", "null"),
]
# What isn't an answer, and why.
REFUSED = [
    (".bird", "", "that is no answer of BIRD 2 with one best route, nor `Network not found`"),
    (".bird", "syntax error, unexpected CF_SYM_UNDEFINED\n", "that is no answer of BIRD 2 with one best route, nor `Network not found`"),
    (".bird", "BIRD 2.0.12 ready.\n", "that is no answer of BIRD 2 with one best route, nor `Network not found`"),
    (".bird", BIRD.replace(" * ", " "), "that is no answer of BIRD 2 with one best route, nor `Network not found`"),
    (".bird", "Network not found\n" + BIRD, "that is no answer of BIRD 2 with one best route, nor `Network not found`"),
    (".bird", BIRD + "Table other:\n", "BIRD doesn't say 'Table other:' of one route"),
    (".bird", BIRD.split("\tdev")[0], "BIRD's route has no Type: ask for `all`"),
    (".bird", BIRD.replace("BGP.as_path", "bgp_path"), "BIRD's route has no BGP.as_path"),
    (".bird", BIRD.replace("64513 1002 3356", ""), "BIRD's route has no BGP.as_path"),
    (".bird", BIRD.replace("\tBGP.local_pref: 100\n", ""), "BIRD's route has no BGP.local_pref"),
    (".bird", BIRD.replace("local_pref: 100", "local_pref: 4294967296"), "'4294967296' is no number of four octets"),
    (".bird", BIRD.replace("(64512, 0, 2)", "(64512, 0, 2) .."), "no large communities: '(64512, 0, 2) ..'"),
    (".bird", BIRD.replace("(64512, 0, 2)", "(64512, 0, 2) (64512, 0, 3)"), "more than one tag: [[64512, 2], [64512, 3]]"),
    (".bird", BIRD.replace("64513 1002", "64999 1002"), "no AS number of the topology: 64999"),
    (".bird", BIRD.replace("64513 1002", "{64513 1002}"), "no AS number of the topology: {64513 1002}"),
    (".bird", BIRD + "\tBGP.as_path: 64513\n", "BGP.as_path stands twice"),
    (".bird", OWN + "\tBGP.as_path: 64513\n", "a route that isn't of BGP has an AS path"),
    (".bird", b"\xff", "the answer isn't UTF-8"),
    (".frr", "% Network not in table\n", "that is no JSON, as FRR's answer is"),
    (".frr", "[" * 100_000, "that is no JSON, as FRR's answer is"),
    (".frr", "[]", "FRR's answer is an object"),
    (".frr", '{"routes":1}', "FRR's answer has no paths that is read here"),
    (".frr", '{"paths":[]}', "FRR's answer has 0 best paths"),
    (".frr", PLAIN | {"bestpath": {"overall": 1}}, "FRR's answer has no overall that is read here"),
    (".frr", PLAIN | {"bestpath": {}}, "FRR's answer has 0 best paths"),
    (".frr", PLAIN | {"aspath": {}}, "FRR's answer has no segments that is read here"),
    (".frr", PLAIN | {"aspath": {"segments": [{"type": "as-sequence", "list": []}]}}, "a segment of FRR's AS path has no numbers"),
    (".frr", PLAIN | {"aspath": {"segments": [{"type": "as-set", "list": [64513]}]}}, "no AS number of the topology: as-set"),
    (".frr", PLAIN | {"locPrf": True}, "FRR's answer has no locPrf that is read here"),
    (".frr", PLAIN | {"locPrf": -1}, "no local preference: -1"),
    (".frr", PLAIN | {"largeCommunity": {"list": ["64512:0"]}}, "FRR's answer has large communities that aren't read here"),
    (".frr", PLAIN | {"largeCommunity": {"list": ["64512:0:x"]}}, "'x' is no number of four octets"),
    (".openbgpd", "unknown argument: selected\n", "that is no JSON, as OpenBGPD's answer is"),
    (".openbgpd", "[]", "OpenBGPD's answer is an object"),
    (".openbgpd", '{"neighbors":[]}', "OpenBGPD's answer has no rib that is read here"),
    (".openbgpd", '{"rib":[]}', "OpenBGPD's answer has 0 routes, and 0 best ones: ask for `selected`"),
    (".openbgpd", OPEN | {"best": 1}, "OpenBGPD's answer has 1 routes, and 0 best ones: ask for `selected`"),
    (".openbgpd", OPEN | {"aspath": None}, "OpenBGPD's answer has no aspath that is read here"),
    (".openbgpd", OPEN | {"aspath": "64999"}, "no AS number of the topology: 64999"),
    (".openbgpd", OPEN | {"localpref": -1}, "no local preference: -1"),
    (".openbgpd", OPEN | {"large_communities": ["64512:0"]}, "OpenBGPD's answer has large communities that aren't read here"),
    (".dead", "down\n", "a file .dead is empty"),
]


def made(topology, folder):
    """What tools/tables writes, or the line with which it ends."""
    try:
        return TABLES.tables(TABLES.network(topology), folder), ""
    except (TABLES.Unknown, OSError) as why:
        return "", f"{why}"


class Tables(unittest.TestCase):
    topology = os.path.join(EXAMPLE, "topology.json")

    def setUp(self):
        room = tempfile.TemporaryDirectory()
        self.addCleanup(room.cleanup)
        self.folder = room.name

    def record(self, name, answer):
        """Writes an answer; one path of FRR, and one route of OpenBGPD, as the whole answer."""
        if isinstance(answer, dict):
            answer = json.dumps({"rib": [answer]} if name.endswith(".openbgpd") else {"prefix": "198.51.100.0/24", "paths": [answer]})
        with open(os.path.join(self.folder, name), "wb") as file:
            file.write(answer if isinstance(answer, bytes) else answer.encode())

    def test_script(self):
        with open(os.path.join(EXAMPLE, "tables.json"), encoding="utf-8") as file:
            wanted = file.read()
        words = [os.path.join(TOP, "tools", "tables"), self.topology]
        self.assertEqual(ended([*words, os.path.join(EXAMPLE, "recorded")]), (0, wanted, ""))
        self.assertEqual(ended([*words, self.folder]), (1, "", "tables: R1: no file .bird, .frr, .openbgpd or .dead\n"))
        with open("/dev/full", "wb") as full:
            status, _, said = ended([*words, os.path.join(EXAMPLE, "recorded")], stdout=full)
        self.assertEqual((status, said), (1, "tables: No space left on device\n"))
        self.assertEqual(ended(words)[0], 1)

    def test_answers(self):
        self.record("R2.dead", "")
        for row, (ending, answer, wanted) in enumerate(READ):
            with self.subTest(row):
                self.record("R1" + ending, answer)
                self.assertEqual(made(self.topology, self.folder), (f'{{"routes":[\n{wanted},\nnull]}}', ""))
                os.remove(os.path.join(self.folder, "R1" + ending))

    def test_no_answers(self):
        self.record("R2.dead", "")
        for row, (ending, answer, why) in enumerate(REFUSED):
            with self.subTest(row):
                self.record("R1" + ending, answer)
                self.assertEqual(made(self.topology, self.folder), ("", f"R1: {why}"))
                os.remove(os.path.join(self.folder, "R1" + ending))

    def test_files(self):
        self.record("R1.bird", BIRD)
        self.assertEqual(made(self.topology, self.folder), ("", "R2: no file .bird, .frr, .openbgpd or .dead"))
        self.record("R2.frr", "{}")
        self.record("R2.bird", "Network not found\n")
        self.assertEqual(made(self.topology, self.folder), ("", "R2: both R2.bird and R2.frr are there"))
        os.remove(os.path.join(self.folder, "R2.bird"))
        self.record("r1.bird", BIRD)
        self.assertEqual(made(self.topology, self.folder), ("", "r1.bird: the topology has no such router"))
        os.remove(os.path.join(self.folder, "r1.bird"))
        self.record("R2.frr", json.dumps({"prefix": "10.0.0.0/8", "paths": [PLAIN]}))
        said = "R2: the route is of 10.0.0.0/8, and others are of 198.51.100.0/24"
        self.assertEqual(made(self.topology, self.folder), ("", said))
        os.remove(os.path.join(self.folder, "R2.frr"))
        os.mkdir(os.path.join(self.folder, "R2.frr"))
        self.assertRegex(made(self.topology, self.folder)[1], r"^R2: \[Errno \d+\] ")

    def test_topologies(self):
        here = os.path.join(self.folder, "topology")
        site = '{"name":"R1","asn":64512,"id":"10.0.0.1"}'
        wrong = "", "[]", "{}", '{"routers":[1],"peers":[]}', '{"routers":[{"name":"../R","asn":1}],"peers":[]}', '{"routers":5,"peers":[]}'
        for text in *wrong, f'{{"routers":[{site},{site}],"peers":[]}}':
            with self.subTest(text):
                self.record("topology", text)
                self.assertIn(f"{here}: no topology", made(here, self.folder)[1])
        self.assertIn("No such file", made(os.path.join(self.folder, "absent"), self.folder)[1])
        self.assertIn("No such file", made(self.topology, os.path.join(self.folder, "absent"))[1])
