"""tools/texts: what its readers take, and what they refuse."""
import os
import unittest

from common import PROGRAM, TOP, ended
from texts.cases import cases_of
from texts.faults import Fault
from texts.policy import cut
from texts.prefixes import covers, prefix_of
from texts.promises import Promised, promises_of
from texts.scenario import Scenario, pairs, read_scenario
from texts.topology import Topology

EXAMPLES = os.path.join(TOP, "examples")
SCENARIO = '{"prefix":"10.0.1.0/24","dead":["R1"],"dead_links":[["R2","R1"]],"silent":[["R1","P1"]]}'


PROMISES = """\
statement 1
rank 1 exit(P1) and avoid(R2)
rank 2 any
case 1 3 statement 1
prefix 10.0.1.0/24,10.0.4.0/24 10.0.3.0/24
origin R1 R2,R3
source router R1 R2 rank 1
source router R4 rank 2
source session R1 P1 R2 P1 rank 1
unclaimed router R3 R5
unclaimed session R4 P2
transit router R5
unused origin R3
statement 2
rank 1 drop
case 2 statement 2
prefix 10.0.0.0/8 le 24,192.0.2.0/24
origin peers
unclaimed router R1 R2
unclaimed peer P1 P2
case 4 statement 2
prefix 0.0.0.0/0 le 32
origin peers
covered
uncarried 10.0.9.0/24 10.0.8.0/24
apart statement 1 alternatives 1 2
cases 4 unclaimed 9 transit 2 covered 1 unused 1 uncarried 2 open 0 apart 1
"""


def text_of(*names):
    with open(os.path.join(EXAMPLES, *names), "rb") as file:
        return file.read()


class Texts(unittest.TestCase):
    def test_scenarios(self):
        found = read_scenario(SCENARIO, "both")
        self.assertEqual(found, Scenario("10.0.1.0/24", frozenset(["R1"]), pairs([("R1", "R2")]), pairs([("P1", "R1")]), "both"))
        self.assertEqual(read_scenario(found.text(), "both"), found)
        self.assertEqual(found.names(), {"R1", "R2", "P1"})
        self.assertTrue(found.fails_as(found.of("10.0.2.0/24")))
        for old, new in ('"R1"]', '5]'), (',"silent"', ',"quiet"'), ('["R2","R1"]', '["R2"]'), ('"10.0.1.0/24"', "7"), ("{", '{"dead":[],'), ("{", "[{"):
            with self.subTest(new), self.assertRaises(Fault):
                read_scenario(SCENARIO.replace(old, new, 1))

    def test_promises_of_each_case_alone(self):
        """Of the routers that a line names those are left out that are origins of the case, and an origin is unused where it is one."""
        found = promises_of(PROMISES)
        sessions = {"sessions": {("R1", "P1"): 1, ("R2", "P1"): 1}, "unclaimed_sessions": [("R4", "P2")], "transit": ["R5"]}
        self.assertEqual(found.cases, [
            Promised(1, 1, ["10.0.1.0/24", "10.0.4.0/24"], ["R1"], routers={"R2": 1, "R4": 2}, unclaimed=["R3", "R5"], **sessions),
            Promised(2, 2, ["10.0.0.0/8 le 24", "192.0.2.0/24"], ["peers"], unclaimed=["R1", "R2"], peers=["P1", "P2"]),
            Promised(3, 1, ["10.0.3.0/24"], ["R2", "R3"], routers={"R1": 1, "R4": 2}, unclaimed=["R5"], unused=["R3"], **sessions),
            Promised(4, 2, ["0.0.0.0/0 le 32"], ["peers"], covered=True),
        ])
        self.assertEqual(found.ranks, {1: ["exit(P1) and avoid(R2)", "any"], 2: ["drop"]})
        self.assertEqual(found.behind, PROMISES.splitlines()[-3:])

    def test_prefixes(self):
        for text in "10.0.0.0/8", "0.0.0.0/0", "255.255.255.255/32", "192.0.2.128/25":
            self.assertEqual(str(prefix_of(text)), text)
        for text in "10.0.0.1/8", "10.0.0.0/33", "10.0.0.0/08", "10.0.0/8", "256.0.0.0/8", "10.0.0.0", "::/0", "1" * 5000 + ".0.0.0/8":
            self.assertIsNone(prefix_of(text))
        self.assertEqual([covers("10.0.0.0/8", 24, text) for text in ("10.1.0.0/16", "10.0.0.0/8", "10.0.0.0/25", "11.0.0.0/16")],
                         [True, True, False, False])

    def test_policies_are_spelled_as_they_were(self):
        """A policy whose statements are spelled from their parts is accepted as it was, with the same configuration."""
        for example in "two-exits", "ring", "data-centre":
            path, text = os.path.join(EXAMPLES, example, "topology.json"), text_of(example, "policy.propane")
            policy = cut(text)
            spelled = policy.with_statements({each.number: each for each in policy.statements})
            self.assertEqual(cut(spelled).with_statements({each.number: each for each in cut(spelled).statements}), spelled)
            wanted = ended([PROGRAM, "compile", path, os.path.join(EXAMPLES, example, "policy.propane")])
            self.assertEqual(ended([PROGRAM, "compile", path, "/dev/stdin"], stdin=None, input=spelled.decode()), wanted)

    def test_cases_are_those_of_the_program(self):
        """Cases told of a policy that drops all are those of the policy's own evidence."""
        for example in "two-exits", "ring", "data-centre":
            path = os.path.join(EXAMPLES, example, "topology.json")
            names = list(Topology(text_of(example, "topology.json")).sites)

            def evidence(text):
                return ended([PROGRAM, "evidence", path, "/dev/stdin"], stdin=None, input=text.decode())[1]

            policy = cut(text_of(example, "policy.propane"))
            wanted = cases_of(policy, names, lambda _: evidence(policy.text))
            self.assertEqual(cases_of(policy, names, evidence), wanted)
            self.assertTrue(wanted)
            with self.assertRaises(Fault):
                cases_of(policy, names, lambda _: "")


if __name__ == "__main__":
    unittest.main()
