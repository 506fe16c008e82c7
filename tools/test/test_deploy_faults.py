"""tools/deploy: what is refused of its texts and words, and where."""
import os
import unittest

from deployed import ADDRESSES, MAPS, ODD, SHORT, TOPOLOGY, InFolder, deploy, put, text_of

LINKS = '{"ends":["R1","R2"],"addresses":["10.0.0.0","10.0.0.1"]}'

# What stands in ADDRESSES, what is to stand in its place, and the fault.
ADDRESS_FAULTS = [
    ("{", "", "line 1 column 12: not JSON: Extra data"),
    ('{"public_as"', "[" * 100000 + '{"public_as"', "too many arrays and objects are open at once"),
    (":64496", ":NaN", "not JSON: NaN is no number of JSON"),
    ("64496", "64512", "public_as: no AS number that peers may know: 64512"),
    ("64496", "65535", "public_as: no AS number that peers may know: 65535"),
    ("64496", "true", "public_as: no AS number that peers may know: true"),
    ("64496", "1001", "public_as: 1001 is a number of the topology"),
    ('"public_as"', '"public_asn"', 'no key that it may have: "public_asn"'),
    ('"public_as":64496', '"links":[]', 'the key "links" stands twice'),
    ('"links":[', '"links":3,"more":[', 'no key that it may have: "more"'),
    (LINKS + ",", "", "no entry for the link R1 R2"),
    (LINKS, "7", "links place 1: entry: no object"),
    (LINKS, "{}", "links place 1: entry: the key `ends` is missing"),
    (SHORT, SHORT + ',"mtu":9000', 'links place 1: entry: no key that it may have: "mtu"'),
    (SHORT, SHORT + "," + SHORT, 'links place 1: entry: the key "addresses" stands twice'),
    (SHORT, '"hops":1', "links place 1: an entry has either `addresses` or `interfaces`"),
    (SHORT, SHORT + ',"interfaces":["a","b"]', "links place 1: an entry has either `addresses` or `interfaces`"),
    (SHORT, '"interfaces":["a","b c"]', 'links place 1: `interfaces`: no name of an interface: "b c"'),
    (SHORT, '"interfaces":["a","b"],"hops":2', "links place 1: `hops`: a session over interfaces has one"),
    (SHORT, SHORT + ',"link_locals":["fe80::1","fe80::2"]', "links place 1: `link_locals` are for a session over `interfaces`"),
    (SHORT, '"interfaces":["a","b"],"link_locals":["fe80::1","10.0.0.1"]', 'links place 1: `link_locals`: no link-local address: "10.0.0.1"'),
    (SHORT, '"interfaces":["a","b"],"link_locals":["fe80::1","fe80::0:2"]', 'links place 1: `link_locals`: no link-local address: "fe80::0:2"'),
    (SHORT, '"addresses":["10.0.0.0"]', "links place 1: `addresses` is no array of two texts"),
    (SHORT, '"addresses":["10.0.0.0","10.0.0.0"]', 'links place 1: `addresses` has one text twice: "10.0.0.0"'),
    (SHORT, '"addresses":["10.0.0.0","10.0.0.01"]', 'links place 1: `addresses`: no IPv4 address: "10.0.0.01"'),
    (SHORT, '"addresses":["10.0.0.0","fe80::1"]', 'links place 1: `addresses`: no IPv4 address: "fe80::1"'),
    (SHORT, '"addresses":["10.0.0.0","127.0.0.1"]', "links place 1: `addresses`: no address of a router: 127.0.0.1"),
    (SHORT, SHORT + ',"password":"a b"', "links place 1: `password` is no text of 1 to 80 letters, digits and signs of ._~+/=:,;@%^*-"),
    (SHORT, SHORT + ',"hops":0', "links place 1: `hops` is no number from 1 to 254: 0"),
    (SHORT, SHORT + ',"hold":1.5', "links place 1: `hold` is no number from 3 to 65535: 1.5"),
    (SHORT, SHORT + ',"ttl_security":1', "links place 1: `ttl_security` is neither true nor false"),
    (ODD, '"addresses":["198.51.100.2","10.0.0.0"]', "links place 2: `addresses`: 10.0.0.0 is the address of R1 already"),
    (SHORT, SHORT + ',"bfd":1', "links place 1: `bfd` is neither true nor false"),
    (SHORT, SHORT + ',"shut":"yes"', "links place 1: `shut` is neither true nor false"),
    (SHORT, SHORT + ',"longest":24', "links place 1: `longest` is for a link with a peer"),
    (SHORT, SHORT + ',"most_prefixes":24', "links place 1: `most_prefixes` is for a link with a peer"),
    (ODD, ODD + ',"longest":32', "links place 2: `longest` is no number from 1 to 31: 32"),
    (ODD, ODD + ',"most_prefixes":0', "links place 2: `most_prefixes` is no number from 1 to 4294967295: 0"),
    ('"public_as"', '"rpki":7,"public_as"', "rpki: no object"),
    ('"public_as"', '"rpki":{"address":"192.0.2"},"public_as"', 'rpki: address: no IPv4 address: "192.0.2"'),
    ('"public_as"', '"rpki":{"address":"192.0.2.9","port":0},"public_as"', "addresses: `port` is no number from 1 to 65535: 0"),
    ('["R1","P1"]', '["R1","P2"]', 'links place 2: no link of the topology: ["R1", "P2"]'),
    ('["R1","P1"]', '["R2","R1"]', "links place 2: the link R2 R1 has an entry already"),
    ('["R1","P1"]', '["R1","R1"]', 'links place 2: `ends` has one text twice: "R1"'),
]
# The same of the maps,
MAP_FAULTS = [
    ("propane-maps 1", "propane-maps 2", "line 1: not `propane-maps 1`"),
    ("list 1 permit", "list 2 permit", "line 2: list 2 isn't the next"),
    ("0.0.0.0/0 le 32", "0.0.0.0/0 le 33", "line 2: no length up to which 0.0.0.0/0 has longer ones: 33"),
    ("0.0.0.0/0 le 32", "10.0.0.1/8", "line 2: no prefix: 10.0.0.1/8"),
    ("router R1 asn 64512", "router R1 asn 64514", "line 3: the topology has no router R1 asn 64514 id 10.255.0.1"),
    ("neighbor R2 asn 64513\n", "", 'line 4: no line of maps, or not in its place: "in 10 list 1 match 64513:0:1 set 64512:0:2 pref 100"'),
    ("peer P1 asn 1001", "peer P2 asn 1002", "line 11: router R1 has no block of P1"),
    ("in 20 list 1 match 64513", "in 30 list 1 match 64513", "line 6: the next entry is 20, and not 30"),
    ("out 20 list 1 match 64512", "out 20 list 2 match 64512", "line 8: there is no list 2"),
    ("pref 101\nout", "pref 4294967296\nout", "line 6: a number is at most 4294967295, and not 4294967296"),
    ("match 64512:0:1\nout", "match 64512:1:1\nout", 'line 7: no line of maps, or not in its place: "out 10 list 1 match 64512:1:1"'),
    ("end\n", "", 'line 11: no line of maps, or not in its place: "router R2 asn 64513 id 10.255.0.2"'),
]
# and of the topology.
TOPOLOGY_FAULTS = [
    ('"links":', '"lines":', "no array `links`"),
    ('"name":"R1"', '"name":"../R1"', 'routers place 1: no name: "../R1"'),
    ('"name":"R2"', '"name":"R1"', "routers place 2: R1 is there already"),
    ("64513", "64512", "routers place 2: another has the AS number or the identifier of R2"),
    ("64513", "5", "routers place 2: no AS number of a router: 5"),
    ('"10.255.0.2"', '"10.255.0"', 'routers place 2: id: no IPv4 address: "10.255.0"'),
    ('["R2","P2"]', '["P1","P2"]', "links place 3: a link joins two routers, or a router and a peer"),
    ('["R2","P2"]', '["R2","R1"]', "links place 3: the link is there already"),
]


class Faults(InFolder):
    def refused(self, place, faults, kind):
        for old, new, fault in faults:
            with self.subTest(kind=kind, fault=fault):
                files = [TOPOLOGY, MAPS, ADDRESSES]
                text = text_of(files[place])
                self.assertIn(old, text)
                put(self.folder, "text", text.replace(old, new, 1))
                files[place] = os.path.join(self.folder, "text")
                folder = os.path.join(self.folder, "none")
                said = deploy("--bird", *files, folder)
                self.assertEqual((said[0], said[1]), (3, ""))
                self.assertTrue(said[2].startswith(f"deploy: {kind}: ") and said[2].endswith(f"{fault}\n") and said[2].count("\n") == 1, said[2])
                self.assertFalse(os.path.exists(folder))

    def test_faults_of_addresses_have_places(self):
        self.refused(2, ADDRESS_FAULTS, "addresses")

    def test_faults_of_maps_have_lines(self):
        self.refused(1, MAP_FAULTS, "maps")

    def test_faults_of_topologies_have_places(self):
        self.refused(0, TOPOLOGY_FAULTS, "topology")

    def test_words_and_files(self):
        self.assertEqual(deploy(), (2, "", "usage\n"))
        self.assertEqual(deploy("--bird", TOPOLOGY, MAPS, ADDRESSES), (2, "", "usage\n"))
        self.assertEqual(deploy("--bird", "no-file", MAPS, ADDRESSES, self.folder), (4, "", "deploy: no-file: No such file or directory\n"))
        with open(os.path.join(self.folder, "text"), "wb") as file:
            file.write(b"{\xff}")
        text = os.path.join(self.folder, "text")
        self.assertEqual(deploy("--bird", text, MAPS, ADDRESSES, self.folder), (3, "", f"deploy: {text}: not UTF-8 at byte 1\n"))


if __name__ == "__main__":
    unittest.main()
