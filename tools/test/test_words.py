"""tools/words: what stands behind the program's line, for every fault of topologies and policies and some of each other text."""
import os
import pty
import re
import sys
import tempfile
import unittest
from unittest import mock

from common import PROGRAM, TOP, ended
from compared import comparing, row_of
from texts import json_places
from words.hints import hints_for, places_for
from words.requests import ordinal

NET = """{"links":[["A","B"],["B","ISP"]],
 "peers":[{"asn":1001,"id":"10.255.2.1","name":"ISP"}],
 "routers":[{"asn":64512,"id":"10.255.0.1","name":"A"},
            {"asn":64513,"id":"10.255.0.2","name":"B"}]}
"""
POLICY = "originate 10.0.1.0/24 at A;\n10.0.1.0/24 => any;\ntrue => exit(ISP);\n"


# What `lint` finds where a statement for all prefixes, with a rank that no path has, stands above one for a single prefix.
FOUND = ["unused group G", "covered statement 2", "unreached statement 1 alternative 2"]


def many(kind, count):
    """A topology of one kind of things, too many."""
    sites = ",".join(f'{{"asn":{64512 + k},"id":"10.1.{k // 256}.{k % 256 + 0 or 1}","name":"R{k}"}}' for k in range(count))
    links = ",".join('["A","B"]' for _ in range(count))
    parts = {"routers": "[]", "peers": "[]", "links": "[]"} | {kind: f"[{links if kind == 'links' else sites}]"}
    return "{" + ",\n".join(f'"{key}":{part}' for key, part in parts.items()) + "}"


# A topology, the program's line, the place that is shown, what is marked there, and words that are said.
TOPOLOGIES = [
    ("", "topology 1 not-json", "1:1", "", "The file is empty."),
    (NET[:-3], "topology 1 not-json", "4:55", "", "The text ends here"),
    (NET.replace('"10.255.0.1"', "10.255.0.1"), "topology 1 not-json", "3:37", ".", "`,` or `}` goes on here"),
    (NET.replace('["B","ISP"]]', '["B","ISP"],]'), "topology 1 not-json", "1:33", "]", "no comma stands before a closing bracket."),
    (NET.replace('"A"', "'A'", 1), "topology 1 not-json", "1:12", "'", "JSON has double quotes alone."),
    ("# net\n" + NET, "topology 1 not-json", "1:1", "#", "JSON has no comments."),
    ("\ufeff" + NET, "topology 1 not-json", "1:1", "?", "byte order mark"),
    (NET.replace('"B"', '"\udcff"', 1), "topology 1 not-json", "1:17", "\ufffd", "aren't UTF-8"),
    ("[" * 200, "topology 1 not-json", "1:128", "[", "at most 127 brackets"),
    ("[1]", "topology 2 shape top", "1:1", "[1]", "A topology is an object"),
    (NET.replace('"links"', '"edges"'), "topology 2 shape top", "1:1", None, "no key `links`"),
    (NET[:-2] + ',"sites":1}', "topology 2 shape top", "4:57", '"sites"', "and no other"),
    (NET.replace(NET[NET.index('[{"asn":64512'):-2], "{}"), "topology 2 shape routers", "3:12", "{}", "under `routers` is an array"),
    (NET.replace('"id":"10.255.0.1","name":"A"', '"name":"A"'), "topology 2 shape id", "3:13", None, "The entry has no `id`"),
    (NET.replace("10.255.0.1", "10.255.0.01"), "topology 2 shape id", "3:31", '"10.255.0.01"', "without leading zeros"),
    (NET.replace("64512", '"64512"'), "topology 2 shape asn", "3:20", '"64512"', "a whole number"),
    (NET.replace('"name":"A"', '"name":7'), "topology 2 shape name", "3:51", "7", "a text"),
    (NET.replace('"name":"A"', '"name":"A","site":1'), "topology 2 shape entry", "3:55", '"site"', "and no other"),
    (NET.replace('["A","B"]', '["A","B","C"]'), "topology 2 shape entry", "1:11", '["A","B","C"]', "an array of two names"),
    (NET.replace('[{"asn":1001', '[5,{"asn":1001'), "topology 2 shape entry", "2:11", "5", "An entry is an object"),
    (many("routers", 513), "topology 3 too-many routers 513", "1:2", '"routers"', "At most 512 routers"),
    (many("peers", 257), "topology 3 too-many peers 257", "2:1", '"peers"', "At most 256 peers"),
    (many("links", 8193), "topology 3 too-many links 8193", "3:1", '"links"', "At most 8192 links"),
    (NET.replace('"name":"B"', '"name":"link"'), "topology 4 name routers place 2", "4:51", '"link"', "no word of the policy language"),
    (NET.replace('"name":"ISP"', '"name":"1SP"'), "topology 4 name peers place 1", "2:48", '"1SP"', "A name is a letter"),
    (NET.replace('"name":"B"', '"name":"A"'), "topology 5 twice A", "4:51", '"A"', "first in line 3"),
    (NET.replace("64513", "3356"), "topology 6 as-range B", "4:20", "3356", "A router's AS number is private"),
    (NET.replace("1001", "65535"), "topology 6 as-range ISP", "2:18", "65535", "A peer's AS number"),
    (NET.replace("64513", "64512"), "topology 7 as-twice A B", "4:20", "64512", "first in line 3"),
    (NET.replace("10.255.2.1", "10.255.0.2"), "topology 8 id-twice B ISP", "2:28", None, "first in line 4"),
    (NET.replace('["B","ISP"]', '["B","Isp"]'), "topology 9 unknown-end place 2", "1:26", '"Isp"', "Near it: ISP."),
    (NET.replace('["A","B"]', '["A","B"],["B","A"]'), "topology 10 link-twice place 2", "1:21", '["B","A"]', "stands in line 1"),
    (NET.replace('["A","B"]', '["B","B"]'), "topology 11 self-link place 1", "1:11", '["B","B"]', "joins two locations"),
    (NET.replace('["B","ISP"]]', '["ISP","P2"]]').replace('"name":"ISP"}', '"name":"ISP"},{"asn":1002,"id":"10.255.2.2","name":"P2"}'),
     "topology 12 peer-link place 2", "1:21", '["ISP","P2"]', "a router and a peer"),
]
DEEP = "true => " + "(" * 65 + "any" + ")" * 65 + ";"
# A policy on NET, and the same.
POLICIES = [
    (b"true => any; \xff\n", "policy 1 not-text", "1:14", "\ufffd", "save the file as UTF-8"),
    ("true => any && internal;", "policy 2 token at 1:13", "1:13", "&&", "`and` joins two conditions."),
    ("true => any || internal;", "policy 2 token at 1:13", "1:13", "||", "`or` joins two alternatives."),
    ("true -> any;", "policy 2 token at 1:6", "1:6", "->", "`=>` stands between prefixes and paths"),
    ("true => !any;", "policy 2 token at 1:9", "1:9", "!", "`not` stands before"),
    ("true => any > drop;", "policy 2 token at 1:13", "1:13", ">", "`>>` stands between"),
    ("2001:db8::/32 => any;", "policy 2 token at 1:5", "1:5", ":", "IPv6"),
    ("true => path(A, .*, B);", "policy 2 token at 1:17", "1:17", ".", "no regular expressions"),
    ('true => avoid("A");', "policy 2 token at 1:15", "1:15", '"', "without quotes"),
    ("// all\ntrue => any;", "policy 2 token at 1:1", "1:1", "//", "A comment runs from `#`"),
    ("true => avoid(Ä);", "policy 2 token at 1:15", "1:15", None, "ASCII"),
    (f"true => avoid({'A' * 33});", "policy 2 token at 1:15", "1:15", "A" * 33, "33 bytes"),
    (DEEP, "policy 3 deep at 1:73", "1:73", "(", "64 brackets are open"),
    ("true => any", "policy 4 syntax at 1:12", "1:12", "", "an item ends with `;`"),
    ("true => (any;", "policy 4 syntax at 1:13", "1:13", ";", "A bracket is still open."),
    ("10.0.0.0/8 ge 16 => any;", "policy 4 syntax at 1:12", "1:12", "ge", "There is no `ge`"),
    ("10.0.0.0/8, 10.0.1.0/24 => any;", "policy 4 syntax at 1:11", "1:11", ",", "`or` joins the patterns"),
    ("10.0.0.0/8 = any;", "policy 4 syntax at 1:12", "1:12", "=", "`=>` stands between"),
    ("true => trough(A);", "policy 4 syntax at 1:9", "1:9", "trough", "Near it: through"),
    ("true => via(A);", "policy 4 syntax at 1:9", "1:9", "via", "`through(S)`"),
    ("true => not not any;", "policy 4 syntax at 1:13", "1:13", "not", "`not (not any)`"),
    ("true => any\ntrue => drop;", "policy 4 syntax at 2:1", "2:1", "true", "between names. Before it stands `any`, in line 1."),
    ("true => any\noriginate 10.0.1.0/24 at A;", "policy 4 syntax at 2:1", "2:1", "originate", "mostly `;`"),
    ("define X = {};", "policy 4 syntax at 1:13", "1:13", "}", "An empty list"),
    ("true => exit(isp);", "policy 5 unknown at 1:14", "1:14", "isp", "Near it: ISP."),
    ("true => avoid(X);\ndefine X = { A };", "policy 5 unknown at 1:15", "1:15", "X", "defined below, in line 2"),
    ("define CORE = { A };\ntrue => avoid(CORES);", "policy 5 unknown at 2:15", "2:15", "CORES", "Near it: CORE."),
    ("define A = { B };", "policy 6 twice at 1:8", "1:8", "A", "has a location A"),
    ("define X = { B };\ndefine X = { A };", "policy 6 twice at 2:8", "2:8", "X", "defined in line 1"),
    ("10.0.1.1/24 => any;", "policy 7 prefix-bad at 1:1", "1:1", "10.0.1.1/24", "10.0.1.0/24 has this one in it"),
    ("10.0.1/24 => any;", "policy 7 prefix-bad at 1:1", "1:1", "10.0.1/24", "four numbers from 0 to 255"),
    ("10.0.256.0/24 => any;", "policy 7 prefix-bad at 1:1", "1:1", "10.0.256.0/24", "from 0 to 255"),
    ("10.0.0.0/33 => any;", "policy 7 prefix-bad at 1:1", "1:1", "10.0.0.0/33", "from 0 to 32"),
    ("10.0.0.0/08 => any;", "policy 7 prefix-bad at 1:1", "1:1", "10.0.0.0/08", "leading zero"),
    ("10.0.0.0/24 le 16 => any;", "policy 7 prefix-bad at 1:16", "1:16", "16", "Behind `le`"),
    ("true => any or (internal >> any);", "policy 8 rank-under at 1:26", "1:26", ">>", "write the alternatives out"),
    ("originate 10.0.1.0/24 at ISP;", "policy 9 origin-peer at 1:26", "1:26", "ISP", "ISP is a peer"),
    ("define X = { A, ISP };\noriginate 10.0.1.0/24 at X;", "policy 9 origin-peer at 2:26", "2:26", "X", "The group X has a peer"),
    ("originate 10.0.1.0/24 at A;\noriginate 10.0.1.0/24 at B;", "policy 10 origin-twice at 2:11", "2:11", "10.0.1.0/24", "line 1"),
    ("".join(f"define G{k} = {{ A }};\n" for k in range(257)), "policy 11 too-many definitions 257", None, None, "at most 256 groups"),
    ("true => any;\n" * 257, "policy 11 too-many statements 257", None, None, "at most 256 statements"),
    (" or ".join(["10.0.0.0/8"] * 16385) + " => any;", "policy 11 too-many patterns 16385", None, None, "at most 16,384 patterns"),
    ("".join(f"originate 10.{k >> 8}.{k & 255}.0/24 at A;\n" for k in range(4097)), "policy 11 too-many prefixes 4097", None, None, "4,096"),
    ("true => " + " or ".join(["any"] * 257) + ";", "policy 11 too-many calls 257", None, None, "at most 256 calls"),
    ("true => path(" + ",".join(["A"] * 257) + ");", "policy 11 too-many places 257", None, None, "at most 256 places"),
]
# Policies on NET that are refused: the program's line, the place of the statement, and words.
REFUSED = [
    ("originate 10.0.1.0/24 at A;\n10.0.1.0/24 => drop from B;", "refused 4 source-without-path case 1 router B", "2:1",
     ["Case 1: this statement, for 10.0.1.0/24, from A.", "`from` names B"]),
    ("originate 10.0.1.0/24 at A;\ntrue => any;\n  true => any;\n", None, None, []),
    ("originate 10.0.1.0/24 at B;\n10.0.1.0/24 => any;\n\n  true => drop from A;", "refused 4 source-without-path case 2 router A", "4:3",
     ["Case 2: this statement, for all that the peers announce"]),
    ("true => " + " and ".join(["(any >> drop)"] * 7) + ";", "refused 1 too-many-ranks case 1 number 128", "1:1", ["128 alternatives"]),
]
SCENARIO = '{"prefix":"10.0.1.0/24",\n"dead":[],"dead_links":[],"silent":[]}'
EVENTS = '{"prefix":"10.0.1.0/24",\n"events":[["deliver","A","B"]]}'
TABLES = '{"routes":[null,\nnull]}'
# Of each other text: its command, the words before it and behind it, the text, the program's line, the place and words.
OTHERS = [
    ("replay", SCENARIO.replace("{", "", 1), "scenario 1 not-json", "1:9", "nothing may follow"),
    ("replay", SCENARIO.replace("silent", "quiet"), "scenario 2 shape top", "2:27", "and no other"),
    ("replay", SCENARIO.replace('"dead":[]', '"dead":[1]'), "scenario 2 shape dead", "2:8", "an array of names"),
    ("replay", SCENARIO.replace('"dead":[]', '"dead":["a"]'), "scenario 3 unknown dead", "2:9", "Near it: A."),
    ("replay", SCENARIO.replace('_links":[]', '_links":[["A","ISP"]]'), "scenario 4 no-link place 1", "2:25", "no such link"),
    ("replay", SCENARIO.replace('"silent":[]', '"silent":[["A","B"]]'), "scenario 5 not-peer-link place 1", "2:37", "a router and a peer"),
    ("replay", SCENARIO.replace("1.0/24", "1.0"), "scenario 6 bad-prefix", "1:11", "That is no prefix."),
    ("trace", "[", "events 1 not-json", "1:2", "still open"),
    ("trace", EVENTS.replace("deliver", "delivers"), "events 2 shape place 1", "2:11", "Near it: deliver"),
    ("trace", EVENTS.replace(',"B"', ""), "events 2 shape place 1", "2:11", "two names"),
    ("trace", "{}", "events 2 shape place 0", "1:1", "exactly the keys"),
    ("trace", EVENTS.replace('"B"', '"C"'), "events 4 unknown place 1", "2:26", "no router and no peer"),
    ("trace", EVENTS.replace("10.0.1", "10.0"), "events 5 bad-prefix", "1:11", "That is no prefix."),
]


def numbers(page, row):
    """The numbers of faults that a document tells."""
    with open(os.path.join(TOP, "docs", page), encoding="utf-8") as file:
        return set(re.findall(row, file.read(), re.MULTILINE))


def marked(lines):
    """The place that the lines show, and what is marked there."""
    for place, line in enumerate(lines):
        if line.strip().strip("^").strip() == "|" and "^" in line:
            front = line.index("^")
            return lines[place - 2].strip().rsplit(":", 2)[1:], lines[place - 1][front:front + line.count("^")]
    return None, None


class Words(unittest.TestCase):
    def setUp(self):
        room = tempfile.TemporaryDirectory()
        self.addCleanup(room.cleanup)
        self.addCleanup(os.chdir, os.getcwd())
        os.chdir(room.name)
        self.write("net.json", NET)
        self.write("policy", POLICY)

    def write(self, name, text):
        with open(name, "wb") as file:
            file.write(text if isinstance(text, bytes) else text.encode("utf-8", "surrogateescape"))

    def said(self, *words):
        """The status of a run, its line without `propane: `, and the lines behind it."""
        status, _, line = ended([PROGRAM, *words], text=False)
        lines = hints_for(PROGRAM, status, line, list(words))
        self.assertTrue(all(letter.isprintable() for each in lines for letter in each))
        self.assertTrue(all(len(each) <= 80 for each in lines))
        return status, line.decode().removeprefix("propane: ").rstrip("\n"), lines

    def ask(self, row, place, mark, wanted):
        found, held = marked(row)
        self.assertEqual(found, place.split(":") if place else None, row)
        if mark is not None:
            self.assertEqual(held.rstrip(), mark, row)
        self.assertIn(wanted, " ".join(" ".join(row).split()))

    def test_topologies(self):
        for row, (text, line, place, mark, wanted) in enumerate(TOPOLOGIES):
            with self.subTest(row, line=line):
                self.write("topology", text)
                status, told, lines = self.said("compile", "topology", "policy")
                self.assertEqual((status, told), (3, line))
                self.ask(lines, place, mark, wanted)
        self.assertEqual({line.split()[1] for _, line, *_ in TOPOLOGIES}, numbers("FORMATS.md", r"`propane: topology (\d+) "))

    def test_policies(self):
        for row, (text, line, place, mark, wanted) in enumerate(POLICIES):
            with self.subTest(row, line=line):
                self.write("policy", text)
                status, told, lines = self.said("compile", "net.json", "policy")
                self.assertEqual((status, told), (3, line))
                self.ask(lines, place, mark, wanted)
        self.assertEqual({line.split()[1] for _, line, *_ in POLICIES}, numbers("LANGUAGE.md", r"^\| `(\d+) "))

    def test_refusals(self):
        for row, (text, line, place, wanted) in enumerate(REFUSED):
            with self.subTest(row):
                self.write("policy", text)
                status, told, lines = self.said("compile", "net.json", "policy")
                self.assertEqual((status, told), (1, line) if line else (0, ""))
                for words in wanted:
                    self.ask(lines, place, None, words)
                self.assertFalse(lines if not line else [])

    def test_examples(self):
        ring = os.path.join(TOP, "examples", "waypoint-ring")
        status, _, lines = self.said("compile", os.path.join(ring, "topology.json"), os.path.join(ring, "policy.propane"))
        self.assertEqual(status, 1)
        self.ask(lines, "3:1", None, "Case 1: this statement, for 10.0.1.0/24, from D.")
        self.assertTrue(lines[-1].endswith('REFUSALS.md, "Why a router can\'t".'), lines[-1])

    def test_findings(self):
        """Behind a report of `lint` each statement that it names is shown once, with what is found of it."""
        self.write("text", "define G = {A};\ntrue => exit(ISP) >> exit(A);\n10.0.1.0/24 => any;\n")
        status, report, _ = ended([PROGRAM, "lint", "net.json", "text"], text=False)
        self.assertEqual((status, report.decode().split("\n")[:-2]), (0, FOUND))
        lines = places_for(report, ["lint", "net.json", "text"])
        self.assertEqual(lines, [
            "  text:2:1",
            "    2 | true => exit(ISP) >> exit(A);",
            "      | ^^^^^^^^^^^^^^^^^^^^^^^^^^^^^",
            "  Statement 1. No path that it permits has rank 2.",
            "  text:3:1",
            "    3 | 10.0.1.0/24 => any;",
            "      | ^^^^^^^^^^^^^^^^^^^",
            "  Statement 2. Earlier statements govern each prefix that its patterns contain.",
        ])
        for words in ["lint", "net.json"], ["compile", "net.json", "text"], ["lint", "net.json", "none"]:
            self.assertEqual(places_for(report, words), [])
        self.assertEqual(places_for(b"covered statement 3\nfindings 1\n", ["lint", "net.json", "text"]), [])
        run = [sys.executable, os.path.join(TOP, "tools", "front"), PROGRAM, "lint", "net.json", "text"]
        for hints, said in ("on", "".join(f"{line}\n" for line in lines)), ("off", ""):
            found = ended(run, text=False, env={**os.environ, "PROPANE_HINTS": hints})
            self.assertEqual((found[0], found[1], found[2].decode()), (0, report, said))

    def compared(self, name):
        """Writes the texts of a recorded comparison as files, in several lines; gives the words that compare them, and the report."""
        row = row_of(name)
        self.write("old", row.old())
        self.write("new", row.new())
        return ["compare", row.topology(), "old", "new"], row.text.encode()

    def test_comparisons(self):
        """Behind a report of `compare` the two statements of each change are shown, each pair once, with what its words say."""
        words, report = self.compared("shorter")
        wanted = [
            "  old:6:1",
            "    6 | 10.0.0.0/16 le 32 => internal and notransit(LEAVES);",
            "      | ^^^^^^^^^^^^^^^^^^^^^^^^^^^^^^^^^^^^^^^^^^^^^^^^^^^^",
            "  Statement 1, old.",
            "  new:7:1",
            "    7 | true => exit(W1 >> W2) and notransit(LEAVES);",
            "      | ^^^^^^^^^^^^^^^^^^^^^^^^^^^^^^^^^^^^^^^^^^^^^",
            "  Statement 2, new.",
            "  `claimed`: the new policy permits walks there, and the old one none.",
            "  `carriers gained`: walks go over these now, and none did.",
        ]
        self.assertEqual(places_for(report, words), wanted)
        program = comparing(os.getcwd())
        run = [os.path.join(TOP, "tools", "run"), program, *words]
        for on, said in ("on", "".join(f"{line}\n" for line in wanted)), ("off", ""):
            self.assertEqual(ended(run, env={**os.environ, "PROPANE_HINTS": on}), (0, report.decode(), said))
        for name, count in ("the same", 0), ("opened", 1), ("swapped", 1):
            words, report = self.compared(name)
            self.assertEqual(sum(line.startswith("  Statement") for line in places_for(report, words)), 2 * count, name)
        for words in ["compare", "net.json", "old"], ["compare", "net.json", "old", "none"], ["lint", "net.json", "old", "new"]:
            self.assertEqual(places_for(report, words), [])

    def test_comparisons_with_no_statement(self):
        """A statement of several lines is shown by its first; where none governs the prefixes, that is said."""
        self.write("old", "")
        self.write("new", "true =>\n  exit(ISP);\n")
        report = b"change statement none now 1\nprefix 0.0.0.0/0 le 32\norigins lost peers\ndiffers lost\nrouters A\nrank 1 now none walk A B A ISP\ncases 1 changed 1\n"
        self.assertEqual(places_for(report, ["compare", "net.json", "old", "new"]), [
            "  No statement of old governs these prefixes.",
            "  new:1:1",
            "    1 | true =>",
            "      | ^^^^^^^",
            "  Statement 1, new.",
            "  `lost`: the old policy permits walks there that the new one forbids.",
            "  `origins`: other locations originate the prefix now.",
            "  `walk`: a walk that comes to a router twice. Where it stands, a path may have",
            "  these ranks or none.",
        ])
        self.assertEqual(places_for(report.replace(b"now 1", b"now 2", 1), ["compare", "net.json", "old", "new"]), [])

    def test_faults_of_two_policies(self):
        """A fault or a refusal is shown in the policy that the program's line names."""
        self.write("old", "originate 10.0.1.0/24 at A;\n10.0.1.0/24 => exit(Isp);\n")
        self.write("new", "\n10.0.1.0/24 => avoid(a);\ntrue => any;\n")
        asked = {"compare": ["TOPO", "OLD", "NEW"]}
        for status, line, place, wanted in [
            (3, "old policy 5 unknown at 2:21", "old:2:21", "Near it: ISP."),
            (3, "new policy 5 unknown at 2:22", "new:2:22", "Near it: A."),
            (1, "old refused 1 too-many-ranks case 1 number 81", "old:2:1", "Case 1: this statement, for 10.0.1.0/24, from A. The statement stands for 81"),
            (1, "new refused 2 too-many-states case 1", "new:2:1", "this statement, for all that the peers announce"),
            (1, "refused 9 too-many-pairs statement 1 now 2", "new:3:1", "Statement 2, new. It is compared with statement 1, at old:2:1."),
            (1, "refused 9 too-many-pairs statement 1 now none", "old:2:1", "Statement 1, old, is compared with none."),
            (1, "refused 9 too-many-pairs statement none now 1", "new:2:1", "Statement 1, new."),
            (1, "refused 9 too-many-pairs statement 3 now 1", None, "1,048,576 steps"),
        ]:
            with self.subTest(line), mock.patch("words.hints.usage", lambda _: asked):
                lines = hints_for(PROGRAM, status, f"propane: {line}\n".encode(), ["compare", "net.json", "old", "new"])
                self.assertEqual([each.strip() for each in lines if each.strip() == place], [place] if place else [], lines)
                self.assertIn(wanted, " ".join(" ".join(lines).split()))
                self.assertIn("LANGUAGE.md" if status == 3 else "REFUSALS.md", " ".join(lines))
        with mock.patch("words.hints.usage", lambda _: asked):
            said = hints_for(PROGRAM, 3, b"propane: topology 1 not-json\n", ["compare", "old", "net.json", "new"])
        self.assertEqual(said[0], "  old and net.json stand in each other's place: change them round.")

    def test_other_texts(self):
        for row, (command, text, line, place, wanted) in enumerate(OTHERS):
            with self.subTest(row, line=line):
                self.write("text", text)
                status, told, lines = self.said(command, "net.json", "policy", "text")
                self.assertEqual((status, told), (3, line))
                self.ask(lines, place, None, wanted)

    def test_texts_of_lines(self):
        _, text, _ = ended([PROGRAM, "compile", "net.json", "policy"])
        _, evidence, _ = ended([PROGRAM, "evidence", "net.json", "policy"])
        self.write("evidence", evidence)
        for number, changed, place in (1, text.replace("2", "1", 1), "1:1"), (2, text.replace("router A", "A"), None), \
                (5, text.replace("pref 100", "pref 0100", 1), None), (6, text[:-1], None):
            with self.subTest(number):
                self.write("config", changed)
                status, told, lines = self.said("check", "net.json", "policy", "config", "evidence")
                self.assertEqual((status, told.split()[:2]), (3, ["config", str(number)]))
                self.assertEqual(marked(lines)[0], place.split(":") if place else [told.split()[-1], "1"] if number != 6 else None)
        self.write("tables", TABLES)
        self.write("scenario", SCENARIO)
        self.write("config", text)
        words = ["net.json", "policy", "config", "evidence", "scenario", "tables"]
        entry = '\n{"path":["C"],"pref":1,"tag":[0,0]}'
        for changed, line, place in [
            ("{}", "tables 2 shape place 0", "1:1"),
            (TABLES.replace("null,", "5,"), "tables 2 shape place 1", "1:12"),
            ('{"routes":[]}', "tables 3 count 0", None),
            (TABLES.replace("\nnull", entry), "tables 4 unknown place 2", "2:10"),
            (TABLES.replace("\nnull", entry.replace("C", "A")), "tables 5 holder place 2", "2:9"),
        ]:
            with self.subTest(line):
                self.write("tables", changed)
                status, told, lines = self.said("audit", *words)
                self.assertEqual((status, told), (3, line))
                self.ask(lines, place, None, "")

    def test_places_of_texts(self):
        _, _, lines = self.said("compile", "policy", "net.json")
        said = ["  policy and net.json stand in each other's place: change them round.", "  The words of compile are TOPO POLICY."]
        self.assertEqual(lines, said)
        _, _, lines = self.said("compile", "policy", "policy")
        self.assertEqual(lines[0], "  policy looks like a policy, and a topology is wanted in its place.")

    def test_words(self):
        for words, wanted in [
            (["complie", "a", "b"], "There is no command complie. Near it: compile"),
            (["compile", "a"], "compile takes 2 words: TOPO POLICY; 1 is given."),
            (["impact", "net.json", "policy", "10.0.0.1/24"], "10.0.0.1/24 is no prefix. A bit is set behind the first 24: 10.0.0.0/24 has"),
            (["impact", "net.json", "policy", "2001:db8::/32"], "IPv6"),
            (["sample", "97"], "97 is no number from 2 to 96."),
        ]:
            with self.subTest(words):
                status, line, lines = self.said(*words)
                self.assertEqual((status, line[:7]), (2, "usage: "))
                self.assertIn(wanted, lines[0])
        for word, wanted in ("net.jsn", "There is no such file. Near it: net.json."), (".", ". is a folder."):
            status, _, lines = self.said("compile", word, "policy")
            self.assertEqual((status, lines), (4, [f"  {wanted}"]))

    def test_places_are_counted(self):
        wanted = ["first", "second", "third", "4th", "11th", "12th", "13th", "21st", "22nd", "23rd", "24th", "111th", "121st"]
        self.assertEqual([ordinal(number) for number in (1, 2, 3, 4, 11, 12, 13, 21, 22, 23, 24, 111, 121)], wanted)

    def test_where_they_stand(self):
        """Only on a terminal, or where the variable says so; the line, the status and the output stay."""
        run, words = os.path.join(TOP, "tools", "run"), ["compile", "net.json", "polic"]
        plain = ended([PROGRAM, *words])
        clean = {key: value for key, value in os.environ.items() if key != "PROPANE_HINTS"}
        self.assertEqual(ended([run, PROGRAM, *words], env=clean), plain)
        status, out, line = ended([run, PROGRAM, *words], env=clean | {"PROPANE_HINTS": "on"})
        said = plain[2] + "  There is no such file. Near it: policy.\n"
        self.assertEqual((status, out, line), (*plain[:2], said))
        for variable, is_told in ({}, True), ({"PROPANE_HINTS": "off"}, False):
            ours, theirs = pty.openpty()
            status, out, _ = ended([run, PROGRAM, *words], env=clean | variable, stderr=theirs)
            os.close(theirs)
            said = os.read(ours, 10_000).decode()
            os.close(ours)
            self.assertEqual((status, out), plain[:2])
            self.assertTrue(said.startswith(plain[2].rstrip("\n")))
            self.assertEqual("Near it" in said, is_told)

    def test_texts_that_are_long(self):
        """A place in a long line is shown with what is around it."""
        self.write("topology", NET.replace("\n", "").replace('"B"]', '"B\x1b[31m"]'.replace("\x1b", "\\u001b"), 1) + " " * 500 + "x")
        _, told, lines = self.said("compile", "topology", "policy")
        self.assertEqual(told, "topology 1 not-json")
        self.assertEqual(marked(lines)[1], "x")
        self.assertTrue(all(len(line) <= 80 for line in lines[1:3]))
        self.write("topology", "{\x1b[31m")
        _, _, lines = self.said("compile", "topology", "policy")
        self.assertEqual(lines[1], "    1 | {?[31m")


class JsonPlaces(unittest.TestCase):
    def test_first_byte(self):
        for text, at in [
            (b"", 0), (b" ", 1), (b"{}", None), (b"[1,]", 3), (b'{"a" 1}', 5), (b'{"a":1,}', 7), (b"[01]", 2), (b'["\\x"]', 2),
            (b'"\n"', 1), (b"nul", 0), (b"1 2", 2), (b'["\\ud800"]', 1), (b'["\xc3"]', 2), (b"[1e999]", 1), (b"[}", 1),
            (b"[" * 127 + b"]" * 127, None),
        ]:
            with self.subTest(text):
                try:
                    json_places.read(text)
                    found = None
                except json_places.NotJson as wrong:
                    found = wrong.at
                self.assertEqual(found, at)

    def test_values(self):
        text = b' {"a": [1, "b\\n"], "a" : {"c": -1}, "d": 18446744073709551616}'
        value = json_places.read(text)
        self.assertEqual((value.start, value.end, sorted(value.held)), (1, len(text), ["a", "d"]))
        self.assertEqual(text[value.held["a"].start:value.held["a"].end], b'{"c": -1}')
        self.assertEqual((value.held["a"].held["c"].held, value.held["d"].held), (None, None))
