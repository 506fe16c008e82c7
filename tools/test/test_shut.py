"""tools/shut: what taking a session out of service does, as a program tells it that stands in for ours."""
import os
import tempfile
import unittest

from common import ended
from deployed import EXAMPLE, TOP, TOPOLOGY, put

# A program that tells of a link what a test wants.
STAND_IN = """#!/bin/sh
case $1 in
drain) printf 'prefix P\\nfree link R2 P2\\nfree 1 of 5\\n' ;;
multipath) printf 'prefix P\\nidle link R2 P2\\nidle 1 of 3\\n' ;;
replay) grep -q '"dead_links": .."P1", "R1"' "$4" && echo 'router R1 rank 2 path R1 R2 P2' || echo 'router R1 rank 1 path R1 P1' ;;
*) exit 2 ;;
esac
"""


class Shutting(unittest.TestCase):
    def setUp(self):
        room = tempfile.TemporaryDirectory()
        self.addCleanup(room.cleanup)
        self.program = os.path.join(room.name, "program")
        put(room.name, "program", STAND_IN)
        os.chmod(self.program, 0o755)

    def shut(self, *ends):
        words = [os.path.join(TOP, "tools", "shut"), TOPOLOGY, os.path.join(EXAMPLE, "policy.propane"), os.path.join(EXAMPLE, "no-failure.json")]
        return ended([*words, *ends], env=os.environ | {"PROGRAM": self.program})

    def test_what_the_program_says_of_a_session(self):
        status, said, wrong = self.shut("R1", "P1")
        self.assertEqual((status, wrong), (0, ""))
        self.assertEqual(said.splitlines()[:5], [
            "session R1 P1, 198.51.100.0/24", "drain: not free: paths move", "multipath: packets go over it, where routers spread them",
            "now: router R1 rank 1 path R1 P1", "then: router R1 rank 2 path R1 R2 P2"])
        self.assertIn("   R1 on FRR: vtysh -c 'configure terminal' -c 'route-map in-P1 deny 1' -c 'route-map out-P1 deny 1'\n", said)
        self.assertNotIn("P1 on", said)
        status, said, wrong = self.shut("P2", "R2")
        self.assertEqual(said.splitlines()[:4], [
            "session P2 R2, 198.51.100.0/24", "drain: free: its failure moves no path", "multipath: idle: no packet goes over it", ""])

    def test_what_is_no_session(self):
        self.assertEqual(self.shut("R1", "P2"), (3, "", "shut: no link of the topology: R1 P2\n"))
        self.assertEqual(self.shut("R1")[0], 2)
        self.program = os.path.join(self.program, "absent")
        self.assertEqual(self.shut("R1", "P1")[0], 127)


if __name__ == "__main__":
    unittest.main()
