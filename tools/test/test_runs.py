"""Whole runs: the tables of runs/, each limit and one past it, every beginning of a configuration, and long lists of events."""
import importlib
import json
import os
import pkgutil
import tempfile
import unittest

import runs
from common import PROGRAM, ended
from runs import ANY_PATH, BAD_INPUT, CHECK_FAILS, DONE, ENTER, EXITS, LAWFUL, READ_FAULT, REFUSED
from runs.networks import EIGHT, TRIANGLE, TWO_EXITS, TWO_ROUTERS, TWO_ROUTERS_CONFIG, TWO_ROUTERS_CONFIG_1

NAMES = ["first", "second", "third", "fourth", "fifth", "sixth"]
ALL = "define ALL = { R1, R2, R3, R4, R5, R6, R7, R8 };\n"
DEEPEST = "originate 10.0.1.0/24 at R1; true => " + "not (" * 64 + "not any" + " or any" * 255 + ")" * 64 + ";"


def prefixes(count, at, first=0):
    """So many prefixes, each originated at these routers."""
    return "".join(f"originate 10.{k // 256}.{k % 256}.0/24 at {at};\n" for k in range(first, first + count))


def definitions(count):
    return "".join(f"define G{k} = {{ R1 }};\n" for k in range(count))


# A policy on eight routers, and its line. Without one it is lawful.
LIMITS = [
    ("256 definitions", definitions(256), ""),
    ("257 definitions", definitions(257), "propane: policy 11 too-many definitions 257\n"),
    ("256 statements", "true => any;" * 256, ""),
    ("257 statements", "true => any;" * 257, "propane: policy 11 too-many statements 257\n"),
    ("16384 patterns", "1.0.0.0/8" + " or 1.0.0.0/8" * 16383 + " => any;", ""),
    ("16385 patterns", "1.0.0.0/8" + " or 1.0.0.0/8" * 16384 + " => any;", "propane: policy 11 too-many patterns 16385\n"),
    ("4096 prefixes", prefixes(4096, "R1"), ""),
    ("4097 prefixes", prefixes(4097, "R1"), "propane: policy 11 too-many prefixes 4097\n"),
    ("16384 origins", ALL + prefixes(2047, "ALL") + prefixes(1, "ALL, R1", 2047), ""),
    ("16385 origins", ALL + prefixes(2048, "ALL") + prefixes(1, "R1", 2048), "propane: policy 11 too-many origins 16385\n"),
    ("256 calls", "true => any" + " or any" * 255 + ";", ""),
    ("a million calls", "true => any" + " or any" * 999_999 + ";", "propane: policy 11 too-many calls 1000000\n"),
    ("256 places", "true => path(any" + ",any" * 255 + ");", ""),
    ("257 places", "true => path(any" + ",any" * 256 + ");", "propane: policy 11 too-many places 257\n"),
    ("64 levels", "true => " + "(" * 64 + "any" + ")" * 64 + ";", ""),
    ("65 levels", "true => " + "(" * 65, "propane: policy 3 deep at 1:73\n"),
    ("the deepest expression: 65 times `not`, 255 times `or`, and a call", DEEPEST, ""),
]


def topology(routers, links):
    return json.dumps({"links": links, "peers": [], "routers": routers})


def routers(count):
    """So many routers R0, R1 and so on."""
    return [{"asn": 64512 + k, "id": f"10.255.{(k + 1) // 256}.{(k + 1) % 256}", "name": f"R{k}"} for k in range(count)]


def mesh(count):
    """So many routers, each linked with each."""
    return topology(routers(count), [[f"R{a}", f"R{b}"] for b in range(count) for a in range(b)])


def ways(count):
    """As many alternatives, each through another router."""
    return "originate 10.0.0.0/24 at R0; true => " + " >> ".join(f"through(R{k + 1})" for k in range(count)) + ";"


def through_each(first, last):
    """All of these routers, in any order."""
    return "originate 10.0.0.0/24 at R0; true => " + " and ".join(f"through(R{k})" for k in range(first, last + 1)) + ";"


class Play:
    """Events of which some are chosen, the last ones, with which the failures are those of the scenario, and deliveries over each
    session that is then live, both ways."""

    def __init__(self, texts, prefix, some, last, deliveries, **failures):
        self.texts, self.prefix, self.some, self.last, self.deliveries = texts, prefix, some, last, deliveries
        self.scenario = {"prefix": prefix, "dead": [], "dead_links": [], "silent": []} | failures

    def events(self, seed):
        """120 chosen events, then the last ones, and then more deliveries than messages wait."""
        chosen = []
        for _ in range(120):
            seed = (seed * 1_664_525 + 1_013_904_223) % 2**32
            chosen.append(self.some[seed // 65_536 % 16])
        return {"prefix": self.prefix, "events": [event.split() for event in chosen + self.last + self.deliveries * 60]}


PLAYS = {
    "three routers, and a link that stays down": Play(
        [TRIANGLE, ANY_PATH], "10.0.1.0/24",
        ["deliver A B", "deliver B A", "deliver A C", "deliver C A", "deliver B C", "deliver C B", "link_down A B", "link_up B A",
         "link_down C B", "link_up B C", "router_down A", "router_up A", "router_down C", "router_up C", "link_down A C", "link_up C A"],
        ["router_up A", "router_up C", "link_up A B", "link_up B C", "link_down A C"],
        ["deliver A B", "deliver B A", "deliver B C", "deliver C B"],
        dead_links=[["A", "C"]]),
    "ranked exits, and a peer that stays silent": Play(
        [TWO_EXITS, EXITS], "198.51.100.0/24",
        ["deliver P1 R1", "deliver R1 R2", "deliver R2 R1", "deliver P2 R2", "deliver R1 R2", "deliver R2 R1", "peer_silent R1 P1",
         "peer_speak R1 P1", "link_down R1 R2", "link_up R2 R1", "link_down P1 R1", "link_up P1 R1", "router_down R2", "router_up R2",
         "router_down R1", "router_up R1"],
        ["router_up R1", "router_up R2", "link_up R1 R2", "link_up R1 P1", "peer_silent R1 P1"],
        ["deliver P1 R1", "deliver P2 R2", "deliver R1 R2", "deliver R2 R1"],
        silent=[["P1", "R1"]]),
    "a session that is entered, and a link that stays down": Play(
        [TWO_EXITS, ENTER], "10.0.1.0/24",
        ["deliver R2 R1", "deliver R1 P1", "deliver R1 R2", "deliver R2 P2", "link_down R1 P1", "link_up R1 P1", "link_down R1 R2",
         "link_up R1 R2", "router_down R1", "router_up R1", "router_down R2", "router_up R2", "deliver R2 R1", "deliver R1 P1",
         "link_down R2 P2", "link_up P2 R2"],
        ["router_up R1", "router_up R2", "link_up R1 R2", "link_up R1 P1", "link_down R2 P2"],
        ["deliver R2 R1", "deliver R1 P1", "deliver R1 R2"],
        dead_links=[["P2", "R2"]]),
}


class Runs(unittest.TestCase):
    def setUp(self):
        room = tempfile.TemporaryDirectory(prefix="propane test ")
        self.addCleanup(room.cleanup)
        self.folder = room.name

    def ended(self, words, texts):
        """How a run over these texts ends. The names of the texts stand behind the first word."""
        for name, text in zip(NAMES, texts):
            with open(os.path.join(self.folder, name), "wb") as file:
                file.write(text if isinstance(text, bytes) else text.encode())
        return ended([PROGRAM, *words[:1], *NAMES[:len(texts)], *words[1:]], cwd=self.folder)

    def comes_to(self, words, texts, status, told):
        end = self.ended(words, texts)
        if status is LAWFUL:
            self.assertIn(end[0], (DONE, REFUSED), end[2])
        else:
            self.assertEqual(end, (status, told, "") if status in (DONE, CHECK_FAILS) else (status, "", told))

    def test_tables(self):
        tables = {module.name for module in pkgutil.iter_modules(runs.__path__)} - {"networks"}
        for table in sorted(tables):
            for name, words, texts, status, told in importlib.import_module("runs." + table).ROWS:
                with self.subTest(f"{table}: {name}"):
                    self.comes_to(words, texts, status, told)

    def test_limits_of_policies(self):
        for name, policy, line in LIMITS:
            with self.subTest(name):
                self.comes_to(["compile"], [EIGHT, policy], BAD_INPUT if line else LAWFUL, line)

    def test_limits_of_topologies(self):
        self.comes_to(["compile"], [topology(routers(512), []), ""], LAWFUL, "")
        line = "propane: topology 3 too-many routers 513\n"
        self.comes_to(["compile"], [topology(routers(513), []), ""], BAD_INPUT, line)
        self.comes_to(["compile"], [" " * 33_554_433, ANY_PATH], BAD_INPUT, "propane: too long first\n")

    def test_limits_of_cases(self):
        self.comes_to(["compile"], [mesh(21), ways(8)], REFUSED, "propane: refused 2 too-many-states case 1\n")
        policy = "".join(f"originate 10.0.{k}.0/24 at R{k}; " for k in range(17)) + "true => any;"
        self.comes_to(["compile"], [mesh(90), policy], REFUSED, "propane: refused 3 too-many-steps case 17\n")

    def test_limit_of_pairs(self):
        """Routers of which one policy remembers seven, and the other six others: 974,863 steps, and with a router more 1,167,376."""
        told = """\
change statement 1 now 1
prefix 10.0.0.0/24
origins routers R0
differs lost gained
all routers
rank 1 now none path R1 R7 R6 R5 R4 R3 R2 R0
rank none now 1 path R1 R13 R12 R11 R10 R9 R8 R0
cases 1 changed 1
"""
        self.comes_to(["compare"], [mesh(16), through_each(1, 7), through_each(8, 13)], DONE, told)
        self.comes_to(["compare"], [mesh(17), through_each(1, 7), through_each(8, 13)], REFUSED, "propane: refused 9 too-many-pairs statement 1 now 1\n")

    def test_limit_of_maps(self):
        classes = "".join(f"class {k + 1} 0.0.0.0/0 le 32\n" for k in range(1414))
        line = "propane: refused 8 too-many-lines number 1000406\n"
        self.comes_to(["checkmap"], ["propane-config 2\n" + classes, "propane-maps 1\n"], REFUSED, line)

    def test_limit_of_events(self):
        def deliveries(count):
            return json.dumps({"prefix": "10.0.1.0/24", "events": [["deliver", "B", "A"]] * count})

        told = "".join(f"event {k + 1} nothing-waits\n" for k in range(65_536))
        told += "quiet no\nprefix 10.0.1.0/24\nclass 1\nrouter A origin\nrouter B none\n"
        self.comes_to(["trace"], [TWO_ROUTERS, ANY_PATH, deliveries(65_536)], DONE, told)
        self.comes_to(["waiting"], [TWO_ROUTERS, ANY_PATH, deliveries(65_536)], DONE, "waits A B path A\nquiet no\n")
        for command in "trace", "waiting":
            self.comes_to([command], [TWO_ROUTERS, ANY_PATH, deliveries(65_537)], BAD_INPUT, "propane: events 3 too-many 65537\n")

    def test_fronts_of_a_configuration(self):
        # Those that are texts, by their lengths in the first edition, and those of the second edition's text that are written of them.
        migrated = {17: 17, 37: 37, 151: 155, 250: 258}
        self.assertEqual((len(TWO_ROUTERS_CONFIG_1), len(TWO_ROUTERS_CONFIG)), (250, 258))

        def fault(length):
            return "propane: config 1 version\n" if length < 17 else "propane: config 6 unfinished\n"

        for length in range(251):
            status, told = BAD_INPUT, fault(length)
            if length in migrated:
                status, told = DONE, TWO_ROUTERS_CONFIG[:migrated[length]]
            self.comes_to(["migrate"], [TWO_ROUTERS_CONFIG_1[:length]], status, told)
        for length in range(259):
            told = "propane: maps 1 version\n" if length in migrated.values() else fault(length)
            self.comes_to(["checkmap"], [TWO_ROUTERS_CONFIG[:length], "propane-maps 2\n"], BAD_INPUT, told)

    def test_bytes_that_are_no_text(self):
        self.comes_to(["compile"], [TWO_EXITS, b"\xff"], BAD_INPUT, "propane: policy 1 not-text\n")
        texts = [b"propane-config 2\n\xff\n", "propane-maps 1\n"]
        self.comes_to(["checkmap"], texts, BAD_INPUT, "propane: config 2 line line 2\n")

    def test_a_name_that_is_not_there(self):
        self.comes_to(["compile", "absent"], [TWO_ROUTERS], READ_FAULT, "propane: cannot read absent\n")

    def test_quiet_ends_are_replays(self):
        """Where no message waits in the end, `trace` tells what `replay` does."""
        for name, play in PLAYS.items():
            for seed in (1, 2, 3):
                with self.subTest(name, seed=seed):
                    replayed = self.ended(["replay"], [*play.texts, json.dumps(play.scenario)])
                    traced = self.ended(["trace"], [*play.texts, json.dumps(play.events(seed))])
                    self.assertEqual((replayed[0], traced[0]), (DONE, DONE))
                    self.assertTrue(traced[1].endswith("quiet yes\n" + replayed[1]))
