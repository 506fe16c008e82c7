"""A change of policy on a running network, without daemons: what a router is told and in which order, and what is seen on the wire."""
import os
import sys
import tempfile
import unittest
from unittest import mock

sys.dont_write_bytecode = True
HERE = os.path.dirname(os.path.abspath(__file__))
TOP = os.path.dirname(os.path.dirname(HERE))
sys.path[:0] = [os.path.join(TOP, "tools"), HERE]

from deploying import frr  # noqa: E402
from deploying.addresses import Addresses  # noqa: E402
from deploying.folders import Described  # noqa: E402
from deploying.frr_reader import frr_differences  # noqa: E402
from deploying.map_reader import read_maps  # noqa: E402
from deploying.maps import Tag  # noqa: E402
from deploying.plans import Choices  # noqa: E402
from laboratory.wire import updates  # noqa: E402
from rolling.command import Change, Stopped  # noqa: E402
from rolling.loading import frr_lines  # noqa: E402
from rolling.stages import Rollout, Stage, is_still, meaning_of  # noqa: E402
from rolling.walking import tag_along  # noqa: E402
from texts.files import read_text  # noqa: E402
from texts.topology import Topology  # noqa: E402

EXAMPLE = os.path.join(TOP, "examples", "two-exits")


def example(name):
    return read_text(os.path.join(EXAMPLE, name))


TOPOLOGY = Topology(example("topology.json"))
ADDRESSES = Addresses(example("addresses.json"), TOPOLOGY)
OLD = example("routemap.stdout")
# The same maps with other tags and preferences.
NEW = OLD.replace(":0:1", ":0:3").replace(":0:2", ":0:4").replace("pref 10", "pref 20")


def plan_of(text, name="R1", staged=True):
    return Described(TOPOLOGY, ADDRESSES, Choices(staged=staged)).plan(read_maps(TOPOLOGY, text), TOPOLOGY.sites[name])


class Loading(unittest.TestCase):
    def lines(self, text=None):
        return list(frr_lines(plan_of(NEW), text or frr.frr_text(plan_of(OLD))))

    def test_a_map_is_whole_before_a_session_uses_it(self):
        lines, mark = self.lines(), frr.mark(plan_of(NEW))
        used = next(place for place, line in enumerate(lines) if line.lstrip().startswith("neighbor"))
        written = [place for place, line in enumerate(lines) if line.startswith(("route-map", "ip prefix-list", "bgp large", " match", " set"))]
        self.assertLess(max(written), used)
        self.assertTrue(all(mark in line for line in lines if "route-map in-" in line and not line.startswith("no ")))

    def test_old_names_go_once_nothing_uses_them(self):
        lines, mark = self.lines(), frr.mark(plan_of(OLD))
        gone = [place for place, line in enumerate(lines) if line.startswith("no ")]
        used = [place for place, line in enumerate(lines) if line.lstrip().startswith("neighbor")]
        self.assertLess(max(used), min(gone))
        self.assertEqual({line.split()[-1] for line in lines if line.startswith("no route-map")}, {f"{word}-{name}{mark}" for word in ("in", "out") for name in ("R2", "P1")})
        self.assertTrue(all(mark not in line for line in lines if not line.startswith("no ")))

    def test_what_is_there_is_not_written_again(self):
        text = frr.frr_text(plan_of(NEW))
        self.assertEqual([line for line in self.lines(text) if line.startswith(("route-map", "ip ", "no ", "bgp "))], [])

    def test_a_load_that_was_cut_off_goes_on(self):
        lines, head = self.lines(), f"route-map in-R2{frr.mark(plan_of(NEW))} permit 10"
        begun = frr.frr_text(plan_of(OLD)) + "".join(f"{line}\n" for line in lines[1:lines.index(head) + 2])
        self.assertIn(head, self.lines(begun))

    def test_names_tell_what_maps_say(self):
        self.assertEqual(frr.mark(plan_of(OLD)), frr.mark(plan_of(OLD)))
        self.assertNotEqual(frr.mark(plan_of(OLD)), frr.mark(plan_of(NEW)))
        self.assertEqual(frr.mark(plan_of(OLD, staged=False)), "")

    def test_a_staged_file_is_read_back(self):
        text = frr.frr_text(plan_of(OLD))
        self.assertEqual(list(frr_differences(text, text)), [])
        self.assertIn("soft-reconfiguration inbound", text)
        self.assertNotIn("no bgp suppress-duplicates", text)


class Stages(unittest.TestCase):
    def setUp(self):
        room = tempfile.TemporaryDirectory()
        self.addCleanup(room.cleanup)
        for stage, text in zip(Stage, (OLD, OLD, NEW, NEW)):
            os.mkdir(os.path.join(room.name, stage.value))
            for name, said in (("maps", text), ("policy", example("policy.propane"))):
                with open(os.path.join(room.name, stage.value, name), "w", encoding="utf-8") as file:
                    file.write(said)
        self.rollout = Rollout.read(room.name, TOPOLOGY, ADDRESSES, 1, Choices().ties)

    def test_what_is_still(self):
        self.assertEqual([is_still(*pair) for pair in ((Stage.OLD, Stage.ONE), (Stage.ONE, Stage.TWO), (Stage.TWO, Stage.NEW))], [True, False, True])

    def test_maps_mean_the_same_whatever_numbers_lists_have(self):
        maps = read_maps(TOPOLOGY, OLD)
        renumbered = read_maps(TOPOLOGY, OLD.replace("list 1 ", "list 2 ").replace("propane-maps 1\n", "propane-maps 1\nlist 1 permit 192.0.2.0/24\n"))
        for name in ("R1", "R2"):
            self.assertEqual(meaning_of(maps.lists, maps.routers[name]), meaning_of(renumbered.lists, renumbered.routers[name]))
        self.assertEqual(self.rollout.at("R1", self.rollout.meaning(Stage.OLD, "R1")), {Stage.OLD, Stage.ONE})

    def test_stages_come_in_their_order(self):
        change = Change(self.rollout, dict.fromkeys(("R1", "R2")), None, {})
        for at, to, wanted in [
            ((Stage.OLD, Stage.OLD), Stage.ONE, (Stage.OLD, ["R1", "R2"])), ((Stage.OLD, Stage.ONE), Stage.ONE, (Stage.OLD, ["R1"])),
            ((Stage.ONE, Stage.TWO), Stage.ONE, (Stage.TWO, ["R2"])), ((Stage.NEW, Stage.NEW), Stage.NEW, (Stage.NEW, [])),
        ]:
            with mock.patch.object(Change, "stages", lambda _, name: frozenset([dict(zip(("R1", "R2"), at))[name]])):
                self.assertEqual(change.begin(to, ["R1", "R2"]), wanted)
        with mock.patch.object(Change, "stages", lambda _, name: frozenset([Stage.OLD])):
            with self.assertRaisesRegex(Stopped, "to go to two, all are to run one or new, or it: R1 old, R2 old"):
                change.begin(Stage.TWO, ["R1", "R2"])


class Seeing(unittest.TestCase):
    def test_routes_that_lines_make(self):
        maps = read_maps(TOPOLOGY, OLD)
        for path, tag in ((["R1", "P1"], Tag(64512, 1)), (["R2", "R1", "P1"], Tag(64513, 2)), (["R2", "P2"], Tag(64513, 1)), (["R1", "R2", "R1", "P1"], Tag(64512, 1))):
            self.assertEqual(tag_along(maps, "198.51.100.0/24", path), tag)
        self.assertIsNone(tag_along(read_maps(TOPOLOGY, NEW), "198.51.100.0/24", ["R2"]))

    def test_updates_on_the_wire(self):
        def packet(said, port=179):
            return b"\x45" + bytes(8) + b"\x06" + bytes(10) + (40000).to_bytes(2, "big") + port.to_bytes(2, "big") + bytes(8) + b"\x50" + bytes(7) + said

        def message(length, kind):
            return b"\xff" * 16 + length.to_bytes(2, "big") + bytes([kind]) + bytes(length - 19)

        for said, wanted in ((b"", []), (message(19, 4), []), (message(23, 2), []), (message(50, 2), [50]), (message(19, 4) + message(60, 2) + message(70, 2), [60, 70]),
                             (message(80, 2)[:40], [80])):
            self.assertEqual(list(updates(packet(said))), wanted)
        self.assertEqual(list(updates(packet(message(50, 2), 22))), [])


if __name__ == "__main__":
    unittest.main()
