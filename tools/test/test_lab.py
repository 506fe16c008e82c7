"""tools/lab without daemons: what fails and is asked, what is sent and seen, and how reports are compared."""
import io
import json
import os
import stat
import tempfile
import unittest
from contextlib import redirect_stderr
from types import SimpleNamespace
from unittest import mock

from deployed import TOP, TOPOLOGY, put, text_of

from deploying.maps import Row
from laboratory import origins, packets, trials
from laboratory.command import kept, kinds_of, words_of
from laboratory.commands import Broken
from laboratory.daemons import Bird
from laboratory.network import hardware
from laboratory.questions import Answer, different, told_by
from laboratory.scenarios import permitted, single_failures
from texts.faults import Fault
from texts.scenario import Scenario
from texts.topology import Topology


class Asking(unittest.TestCase):
    def test_single_failures(self):
        found = single_failures(Topology(text_of(TOPOLOGY)), ["198.51.100.0/24"])
        self.assertEqual([scenario.name for scenario in found],
                         ["nothing fails", "link R1 R2 dead", "link R1 P1 dead", "link R2 P2 dead", "router R1 dead", "router R2 dead",
                          "session R1 P1 silent", "session R2 P2 silent"])
        self.assertEqual(json.loads(found[2].text()),
                         {"prefix": "198.51.100.0/24", "dead": [], "dead_links": [["P1", "R1"]], "silent": []})

    def test_a_prefix_of_a_list(self):
        everything = Row("permit", "0.0.0.0/0", 32)
        self.assertEqual(permitted([everything]), "198.51.100.0/24")
        self.assertEqual(permitted([Row("deny", "198.51.100.0/24", 32), everything]), "203.0.113.0/24")
        self.assertEqual(permitted([Row("permit", "10.0.0.0/8", 24), everything]), "10.0.0.0/8")
        self.assertIsNone(permitted([Row("deny", "10.0.0.0/8", 32), Row("permit", "10.1.0.0/16", 16)]))

    def test_ways_of_packets(self):
        """A diamond: C shares what it sends to D over A and B."""
        hops = {"C": frozenset("AB"), "A": frozenset("D"), "B": frozenset("D"), "D": frozenset(), "E": None}

        def faults(*ways, gone=frozenset()):
            return list(packets.way_faults([packets.Flow(way[0], tuple(way)) for way in ways], hops, ["P"], gone))

        self.assertEqual(faults("CAD", "CBD", "AD"), [])
        self.assertEqual(faults("CAB"), ["packets go C A B: A is to send to D"])
        self.assertEqual(faults("CA"), ["packets go C A and no further: A is to send to D"])
        self.assertEqual(faults("CE"), ["packets go C E: C is to send to A B"])
        cut = frozenset("AD")
        self.assertEqual(faults("CBD", "CA", "A", gone=cut), [])
        self.assertEqual(faults("CAD", gone=cut), ["packets go C A D: A is to send to own"])
        self.assertEqual(faults("C", gone=frozenset("AC")), ["packets go C and no further: C is to send to B"])
        flows = [packets.Flow("C", ("C", "A", "D"))] * 3
        self.assertEqual(list(packets.spread_faults(flows, hops, 16)), ["all packets of C go to A, and A B are to share them"])
        self.assertEqual(list(packets.spread_faults(flows, hops, 1)), [])
        self.assertEqual(list(packets.spread_faults([*flows, packets.Flow("C", ("C", "B", "D"))], hops, 16)), [])
        self.assertEqual(packets.way_of("A", {"A": "B", "B": "A"}), ("A", "B", "A", "B"))
        self.assertEqual(trials.shared_link(Answer([], hops=hops)), frozenset("AC"))

    def test_what_is_sent_and_seen(self):
        header = b"\x45" + bytes(8) + b"\x11" + bytes(2) + b"\x0a\x00\x00\x01" + b"\x0a\x00\x01\xff"
        datagram = header + (20_001).to_bytes(2, "big") + (33_434).to_bytes(2, "big") + bytes(4)
        address = b"\x0a\x00\x01\xff"
        self.assertEqual(packets.port_of(datagram, address), 20_001)
        for other in (datagram[:-1], b"\x60" + datagram[1:], datagram.replace(b"\x82\x9a", b"\x82\x9b"),
                      datagram.replace(address, b"\x0a\x00\x01\xfe")):
            self.assertIsNone(packets.port_of(other, address))

    def test_hardware_of_a_link_local_address(self):
        self.assertEqual(hardware("fe80::ff:fe00:1"), "02:00:00:00:00:01")
        self.assertEqual(hardware("fe80::5054:ff:fe12:3456"), "52:54:00:12:34:56")
        with self.assertRaises(Broken):
            hardware("fe80::1")

    def test_what_a_cache_answers(self):
        """RFC 8210: a response, a prefix, and the end of it."""
        self.assertEqual(origins.answer(1, ["10.0.1.0/24"], 3356).hex(),
                         "0103000100000008" "010400000000001401181800" "0a000100" "00000d1c"
                         "0107000100000018" "00000001" "00000e10" "00000258" "00001c20")
        self.assertEqual(origins.answer(0, [], 1).hex(), "0003000100000008" "000700010000000c" "00000001")

    def test_what_bird_says(self):
        """The lines of one answer, as birdc shows them: BIRD's own client knows by the codes where it ends."""
        with tempfile.TemporaryDirectory() as folder:
            bird = Bird("R1", folder)
            for said, shown in (("0001 BIRD 2.0.12 ready.\n", ["BIRD 2.0.12 ready."]), ("8001 Network not found\n", ["Network not found"]),
                                ("1007-10.0.1.0/24 unicast [own]\n \tType: static\n1012-\tBGP.origin: IGP  \n0000 \n1007-next\n",
                                 ["10.0.1.0/24 unicast [own]", "\tType: static", "\tBGP.origin: IGP  "])):
                self.assertEqual(list(bird.said(io.StringIO(said))), shown)
            with self.assertRaises(Broken):
                list(bird.said(io.StringIO("1007-10.0.1.0/24 unicast [own]\n")))

    def test_what_is_kept_is_its_owners(self):
        with tempfile.TemporaryDirectory() as folder:
            before = os.path.join(folder, "lab", "deployed")
            os.makedirs(before)
            put(before, "R1.bird.conf", "password")
            put(before, "bird.ctl", "")
            into = os.path.join(folder, "kept")
            mask = os.umask(0)
            try:
                kept(os.path.join(folder, "lab"), into)
            finally:
                os.umask(mask)
            modes = {name: stat.S_IMODE(os.stat(os.path.join(into, name)).st_mode) for name in ("", "deployed", "deployed/R1.bird.conf")}
            self.assertEqual(modes, {"": 0o700, "deployed": 0o700, "deployed/R1.bird.conf": 0o600})
            self.assertEqual(os.listdir(os.path.join(into, "deployed")), ["R1.bird.conf"])

    def test_which_daemons_run(self):
        topology = Topology(text_of(os.path.join(TOP, "examples", "ring", "topology.json")))
        for frr, openbgpd_routers, wanted in (("", "", "bird bird bird bird"), ("half", "", "bird frr bird frr"),
                                              ("third", "third", "bird frr openbgpd bird"), ("A", "C,D", "frr bird openbgpd openbgpd")):
            self.assertEqual(list(kinds_of(topology, frr, openbgpd_routers, None).values()), wanted.split())
        with tempfile.TemporaryDirectory() as folder:
            put(folder, "A.openbgpd.conf", "")
            put(folder, "C.bird.conf", "")
            self.assertEqual(list(kinds_of(topology, "all", "", folder).values()), "openbgpd frr bird frr".split())
        for words, fault in ((("X", ""), "--frr: no router of the topology: X"), (("", "West"), "--openbgpd: no router of the topology: West"),
                             (("half", "B"), "--openbgpd: the router B is to run another daemon, too")):
            with self.assertRaises(Fault) as told:
                kinds_of(topology, *words, None)
            self.assertEqual(str(told.exception), fault)

    def test_when_all_moves_without_rest(self):
        """At the beginning, and before something else fails: not for each prefix that is asked for."""
        choices = SimpleNamespace(paths=1)
        network = SimpleNamespace(now=Scenario(""), is_quiet=True, asked=lambda scenario: scenario,
                                  inputs=SimpleNamespace(described=SimpleNamespace(choices=choices)))
        network.make = lambda scenario: setattr(network, "now", scenario)
        moved = []
        cases = [Scenario(prefix, frozenset(dead)) for dead in ("", "A") for prefix in ("10.0.1.0/24", "10.0.2.0/24")]
        with mock.patch.multiple(trials, stir=lambda *_: moved.append(network.now), compare=lambda *_: Answer([]), say=lambda _: None):
            answers = trials.run_scenarios(trials.Trials(network, None, "", 1, 5), cases, None)
        self.assertEqual((len(answers), len(moved)), (4, 2))

    def test_words_of_the_lab(self):
        with redirect_stderr(io.StringIO()) as said:
            for words in (["--paths", "256", "a", "b"], ["--stop", "0", "a", "b"], ["/run/a", "b"]):
                with self.assertRaises(SystemExit):
                    words_of(words, "usage")
        self.assertIn("no number from 1 to 255: 256", said.getvalue())
        self.assertIn("the lab has a /run of its own", said.getvalue())

    def test_reports_are_compared(self):
        replay = "prefix P\nclass 1\nrouter R1 rank 1 path R1 R2\nrouter R2 origin\nrouter R3 none\n" \
            "session R1 P1 rank 1 path P1 R1 R2\nsession R3 P1 none\n"
        self.assertEqual(told_by(replay), ({"R1": ["R1", "R2"], "R2": "origin", "R3": "none"}, {("R1", "P1"): ["P1", "R1", "R2"]}))
        self.assertEqual(list(different(replay, "stable\n" + replay)), [])
        self.assertEqual(list(different(replay, "unstable router R1 missing R2\n")), ["audit: unstable router R1 missing R2"])
        self.assertEqual(list(different(replay, "stable\n" + replay.replace("R3 none", "R3 rank 2 path R3 R2", 1))),
                         ["replay: router R3 none", "audit: router R3 rank 2 path R3 R2"])


if __name__ == "__main__":
    unittest.main()
