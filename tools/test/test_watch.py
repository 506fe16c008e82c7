"""tools/watch over recorded answers: each change of a network is told once, and nothing while all stays as it is."""
import json
import os
import tempfile
import unittest
from unittest import mock

from common import PROGRAM, TOP
from texts.topology import Topology
from watching import moment as moments
from watching.audits import Auditor
from watching.command import Watcher
from watching.moment import Recorder
from watching.routers import read_routers

EXAMPLE = os.path.join(TOP, "examples", "two-exits")
PREFIX = "198.51.100.0/24"
# A router as a program: it answers what stands in the files of its folder, under the words of the question.
FAKE = """#!/bin/sh
[ "$2" != -c ] || set -- "$1" $3
folder=$1
shift
file=$folder/$(echo "$*" | tr ' /' '__')
[ -e "$file" ] || { echo "no answer" >&2; exit 1; }
cat "$file"
"""


def bird_sessions(up):
    return "BIRD 2.0.12 ready.\n" + "".join(
        f"bgp_{asn} BGP        ---        up     12:00:00.000  {'Established' if is_up else 'Active'}\n"
        f"  BGP state:          {'Established' if is_up else 'Active'}\n    Neighbor AS:      {asn}\n    Local AS:         1\n"
        for asn, is_up in up.items())


def bird_route(path, pref, tag):
    return (f"Table master4:\n{PREFIX}      unicast [bgp:X 12:00:00.000] * (100) [AS{path[-1]}i]\n\tType: BGP univ\n\tBGP.origin: IGP\n"
            f"\tBGP.as_path: {' '.join(map(str, path))}\n\tBGP.local_pref: {pref}\n\tBGP.large_community: ({tag[0]}, 0, {tag[1]})\n")


def frr_route(path, pref, tag, best=True):
    held = {"aspath": {"segments": [{"type": "as-sequence", "list": path}]}, "locPrf": pref, "largeCommunity": {"list": [f"{tag[0]}:0:{tag[1]}"]}}
    return json.dumps({"prefix": PREFIX, "paths": [held | ({"bestpath": {"overall": True}} if best else {})]})


class Watch(unittest.TestCase):
    def setUp(self):
        room = tempfile.TemporaryDirectory()
        self.addCleanup(room.cleanup)
        self.folder = room.name
        self.enterContext(mock.patch.object(moments, "PAUSE", 0.0))
        fake = os.path.join(self.folder, "fake")
        with open(fake, "w", encoding="utf-8") as file:
            file.write(FAKE)
        os.chmod(fake, 0o755)
        topology, policy = (os.path.join(EXAMPLE, name) for name in ("topology.json", "policy.propane"))
        with open(topology, encoding="utf-8") as file:
            network = Topology(file.read())
        work = os.path.join(self.folder, "work")
        os.mkdir(work)

        def watcher(daemon):
            words = {"R1": {"bird": [fake, self.home("R1")]}, "R2": {daemon: [fake, self.home("R2")]}}
            return Watcher(network, Recorder(network, read_routers(json.dumps(words), network), [PREFIX], work),
                           Auditor.compiled(PROGRAM, topology, policy, work))

        self.watcher, self.with_openbgpd = watcher("frr"), watcher("openbgpd")
        self.well()

    def home(self, router):
        os.makedirs(os.path.join(self.folder, router), exist_ok=True)
        return os.path.join(self.folder, router)

    def answer(self, router, question, text):
        with open(os.path.join(self.home(router), question.replace(" ", "_").replace("/", "_")), "w", encoding="utf-8") as file:
            file.write(text)

    def r1(self, sessions, path, pref, tag):
        self.answer("R1", "show protocols all", bird_sessions(sessions))
        self.answer("R1", f"show route {PREFIX} all primary", bird_route(path, pref, tag))
        self.answer("R1", f"show route {PREFIX} all", bird_route(path, pref, tag))

    def r2(self, sessions, path, pref, tag):
        peers = {str(asn): {"remoteAs": asn, "state": "Established" if is_up else "Idle"} for asn, is_up in sessions.items()}
        self.answer("R2", "show bgp ipv4 unicast summary json", json.dumps({"ipv4Unicast": {"peers": peers}}))
        self.answer("R2", f"show bgp ipv4 unicast {PREFIX} bestpath json", frr_route(path, pref, tag))
        heard = {"prefix": PREFIX, "paths": [{"aspath": {"segments": [{"type": "as-sequence", "list": each}]}} for each in (path, [1002])]}
        self.answer("R2", f"show bgp ipv4 unicast {PREFIX} json", json.dumps(heard))

    def r2_as_openbgpd(self, sessions, path, pref, tag):
        peers = [{"remote_as": str(asn), "state": "Established" if is_up else "Active"} for asn, is_up in sessions.items()]
        self.answer("R2", "-j show neighbor", json.dumps({"neighbors": peers}))
        best = {"prefix": PREFIX, "aspath": " ".join(map(str, path)), "best": True, "localpref": pref, "large_communities": [f"{tag[0]}:0:{tag[1]}"]}
        self.answer("R2", f"-j show rib selected detail {PREFIX}", json.dumps({"rib": [best]}))
        self.answer("R2", f"-j show rib detail {PREFIX}", json.dumps({"rib": [best, {"prefix": PREFIX, "aspath": "1002"}]}))

    def well(self):
        self.r1({64513: True, 1001: True}, [1001], 101, (64512, 1))
        self.r2({64512: True, 1002: True}, [64512, 1001], 101, (64513, 2))

    def test_changes(self):
        rounds = self.watcher.round
        self.assertEqual(rounds(5), [f"{PREFIX}: stable", f"{PREFIX} router R1: rank 1 path R1 P1", f"{PREFIX} router R2: rank 1 path R2 R1 P1"])
        self.assertTrue(self.watcher.is_stable)
        self.assertIn('propane_rank{prefix="198.51.100.0/24",router="R2"} 1\n', self.watcher.metrics)
        self.assertEqual((rounds(5), rounds(5)), ([], []))

        # The link R1-P1 breaks, and both go another way.
        self.r1({64513: True, 1001: False}, [64513, 1002], 100, (64512, 2))
        self.r2({64512: True, 1002: True}, [1002], 100, (64513, 1))
        self.assertEqual(rounds(5), ["session R1 P1: is down", f"{PREFIX} router R1: rank 2 path R1 R2 P2, was rank 1 path R1 P1",
                                     f"{PREFIX} router R2: rank 2 path R2 P2, was rank 1 path R2 R1 P1"])
        self.assertIn('propane_session_up{one="R1",two="P1"} 0\n', self.watcher.metrics)
        self.well()
        self.assertEqual(rounds(5)[0], "session R1 P1: is up")

        # Somebody edits a preference at R2.
        self.r2({64512: True, 1002: True}, [64512, 1001], 99, (64513, 2))
        self.assertEqual(rounds(5), [f"{PREFIX}: unstable router R2 not-given, was stable"])
        self.assertIn('propane_stable{prefix="198.51.100.0/24"} 0\n', self.watcher.metrics)
        self.assertEqual(rounds(5), [])
        self.well()
        self.assertEqual(rounds(5), [f"{PREFIX}: stable, was unstable router R2 not-given"])

        # R2 holds an old route: it leaves through P2, though R1 has its way back.
        self.r2({64512: True, 1002: True}, [1002], 100, (64513, 1))
        self.assertEqual(rounds(5), [f"{PREFIX}: unstable router R2 better R1 pref 101, was stable"])
        self.well()
        rounds(5)

        # R1 doesn't answer, and R2 has a session with it.
        for name in os.listdir(self.home("R1")):
            os.remove(os.path.join(self.home("R1"), name))
        self.assertEqual(rounds(5), ["router R1: doesn't answer", f"{PREFIX}: not audited: R1 doesn't answer, was stable"])
        self.assertIn('propane_router_up{router="R1"} 0\n', self.watcher.metrics)
        # It is down, once R2 has no session with it either.
        self.r2({64512: False, 1002: True}, [1002], 100, (64513, 1))
        self.assertEqual(rounds(5), ["router R1: is down, was doesn't answer", f"{PREFIX}: stable, was not audited: R1 doesn't answer",
                                     f"{PREFIX} router R1: dead, was rank 1 path R1 P1", f"{PREFIX} router R2: rank 2 path R2 P2, was rank 1 path R2 R1 P1"])

    def test_openbgpd(self):
        rounds = self.with_openbgpd.round
        self.r2_as_openbgpd({64512: True, 1002: True}, [64512, 1001], 101, (64513, 2))
        self.assertEqual(rounds(5), [f"{PREFIX}: stable", f"{PREFIX} router R1: rank 1 path R1 P1", f"{PREFIX} router R2: rank 1 path R2 R1 P1"])
        self.r2_as_openbgpd({64512: True, 1002: True}, [64512, 1001], 99, (64513, 2))
        self.assertEqual(rounds(5), [f"{PREFIX}: unstable router R2 not-given, was stable"])
        self.r2_as_openbgpd({64512: True, 1002: False}, [64512, 1001], 101, (64513, 2))
        self.assertEqual(rounds(5), ["session R2 P2: is down", f"{PREFIX}: stable, was unstable router R2 not-given"])
        self.answer("R2", "-j show neighbor", "bgpctl: connect: no such file\n")
        self.assertEqual(rounds(5)[0], "router R2: doesn't answer")
        self.r1({64513: False, 1001: True}, [1001], 101, (64512, 1))
        self.assertEqual(rounds(5)[:2], ["router R2: is down, was doesn't answer", f"{PREFIX}: stable, was not audited: R2 doesn't answer"])

    def test_silent(self):
        """A peer that announces nothing is told."""
        self.watcher.round(5)
        self.r1({64513: True, 1001: True}, [64513, 1002], 100, (64512, 2))
        self.r2({64512: True, 1002: True}, [1002], 100, (64513, 1))
        self.assertEqual(self.watcher.round(5), [
            f"{PREFIX} router R1: rank 2 path R1 R2 P2, was rank 1 path R1 P1",
            f"{PREFIX} router R2: rank 2 path R2 P2, was rank 1 path R2 R1 P1", f"{PREFIX} session R1 P1: is silent"])


if __name__ == "__main__":
    unittest.main()
