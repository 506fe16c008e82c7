"""tools/deploy without daemons: what an operator adds to the files, and what OpenBGPD can't say."""
import os
import tempfile
import unittest

from deployed import ADDRESSES, MAPS, ODD, SHORT, TOPOLOGY, InFolder, deploy, put, text_of

from deploying import openbgpd, openbgpd_reader

# Lines of R1's file for optional keys, by daemon.
BIRD_ADDED = [
    "roa4 table 'own:origins';", "  remote 192.0.2.9 port 3323;", "protocol bfd 'own:bfd' {", "  bfd on;", "  if net.len > 24 then reject;",
    "  if roa_check('own:origins', net, bgp_path.last_nonaggregated) = ROA_INVALID then reject;", "    import limit 1000 action disable;",
    "  # The session is shut: nothing is taken and nothing is sent.",
]
FRR_ADDED = [
    " rpki cache 192.0.2.9 3323 preference 1", "ip prefix-list longer-24 seq 5 permit 0.0.0.0/0 ge 25", "route-map in-P1 deny 1",
    "route-map out-P1 deny 1", "route-map in-P1 deny 6", " match ip address prefix-list longer-24", "route-map in-P1 deny 7", " match rpki invalid",
    " neighbor 10.0.0.1 bfd", "  neighbor 198.51.100.1 maximum-prefix 1000",
]
OPENBGPD_ADDED = [
    "rtr 192.0.2.9 {", "  port 3323", "  multihop 3", "  ttl-security yes", "  holdtime 30", "  max-prefix 1000",
    "deny quick from 198.51.100.1 prefix 0.0.0.0/0 prefixlen > 24", "deny quick from 198.51.100.1 ovs invalid", "deny quick from 198.51.100.1",
    "deny quick to 198.51.100.1",
]
# What OpenBGPD can't say: what stands in the maps or in ADDRESSES, what is to stand in its place, options, and the fault.
UNSAID = [
    (ADDRESSES, SHORT, SHORT + ',"bfd":true', (), "addresses: the link R1 R2: `bfd`: OpenBGPD has none"),
    (ADDRESSES, SHORT, '"interfaces":["a","b"],"link_locals":["fe80::1","fe80::2"]', (),
     "addresses: the link R1 R2 has no addresses: OpenBGPD sends no route of IPv4 over a session of IPv6"),
    (ADDRESSES, '"a-secret"', f'"{"a" * 80}"', (), "addresses: the link R1 P1: `password`: OpenBGPD takes 79 letters"),
    (MAPS, "", "", ("--paths", "2"), "--paths: OpenBGPD sends packets over one next hop: R1"),
    (MAPS, "in 10 list 1 set 64512:0:1 pref 101\n", "in 10 list 1 set 64512:0:1 pref 101\nout 10 list 1 match 64512:0:2\n", (),
     "maps: router R1 peer P1: out 10 list 1 match 64512:0:2: OpenBGPD can't take private AS numbers out of a path, and the peer would see them"),
    (MAPS, "in 20 list 1 match 64513:0:2", "in 20 list 1 match 64513:0:1", (),
     "maps: router R1 neighbor R2: in 20 list 1 match 64513:0:1 set 64512:0:1 pref 101: "
     "OpenBGPD makes one rule of it and of one before that asks for the same"),
    (MAPS, "router R1 asn 64512 id 10.255.0.1\n", "router R1 asn 64512 id 10.255.0.1\nnetwork 10.0.0.0/8 list 1 set 64512:0:7\n", (),
     "maps: router R1: list 1 doesn't permit the network 10.0.0.0/8"),
    (MAPS, "list 1 permit 0.0.0.0/0 le 32\n", "list 1 permit 0.0.0.0/0 le 32\nlist 1 deny 10.0.0.0/8\n", (),
     "maps: list 1 denies behind what it permits: these aren't the maps of a configuration"),
]


class Options(InFolder):
    def test_what_an_operator_adds(self):
        """Each optional key has its lines in the files of both daemons, is read back, and leaves the maps as they are."""
        text = text_of(ADDRESSES).replace('{"public_as"', '{"rpki":{"address":"192.0.2.9","port":3323},"public_as"', 1)
        text = text.replace(SHORT, SHORT + ',"bfd":true', 1).replace(ODD, ODD + ',"longest":24,"most_prefixes":1000,"shut":true', 1)
        put(self.folder, "addresses", text)
        addresses = os.path.join(self.folder, "addresses")
        for kind, ending, wanted in (("--bird", "bird", BIRD_ADDED), ("--frr", "frr", FRR_ADDED)):
            folder = tempfile.mkdtemp(dir=self.folder)
            self.assertEqual(deploy(kind, TOPOLOGY, MAPS, addresses, folder), (0, "", ""))
            found = text_of(os.path.join(folder, f"R1.{ending}.conf")).splitlines()
            self.assertEqual([line for line in wanted if line in found], wanted)
            self.assertEqual(deploy("--read", TOPOLOGY, addresses, folder), (0, text_of(MAPS), ""))
            status, _, said = deploy("--read", TOPOLOGY, ADDRESSES, folder)
            self.assertEqual(status, 7)
            if kind == "--frr":
                self.assertIn("route-map in-P1 deny 1: isn't as written", said)

    def test_what_an_operator_adds_to_openbgpd(self):
        text = text_of(ADDRESSES).replace('{"public_as"', '{"rpki":{"address":"192.0.2.9","port":3323},"public_as"', 1)
        text = text.replace(SHORT, SHORT + ',"hops":3,"ttl_security":true,"hold":30', 1)
        put(self.folder, "addresses", text.replace(ODD, ODD + ',"longest":24,"most_prefixes":1000,"shut":true', 1))
        addresses, folder = os.path.join(self.folder, "addresses"), os.path.join(self.folder, "files")
        self.assertEqual(deploy("--openbgpd", TOPOLOGY, MAPS, addresses, folder), (0, "", ""))
        found = text_of(os.path.join(folder, "R1.openbgpd.conf")).splitlines()
        self.assertEqual([line for line in OPENBGPD_ADDED if line in found], OPENBGPD_ADDED)
        self.assertEqual(deploy("--read", TOPOLOGY, addresses, folder), (0, text_of(MAPS), ""))
        self.assertEqual(deploy("--read", TOPOLOGY, ADDRESSES, folder)[0], 7)

    def test_what_openbgpd_cannot_say(self):
        for changed, old, new, options, fault in UNSAID:
            with self.subTest(fault=fault):
                put(self.folder, "text", text_of(changed).replace(old, new, 1))
                files = [os.path.join(self.folder, "text") if file == changed else file for file in (MAPS, ADDRESSES)]
                if fault.startswith("maps: router R1: list 1 doesn't"):
                    put(self.folder, "text", text_of(files[0]).replace("permit 0.0.0.0/0 le 32", "permit 10.0.0.0/16", 1))
                folder = os.path.join(self.folder, "none")
                self.assertEqual(deploy("--openbgpd", *options, TOPOLOGY, *files, folder), (3, "", f"deploy: {fault}\n"))
                self.assertFalse(os.path.exists(folder))

    def test_lists_with_exceptions_of_openbgpd(self):
        """A mark says that a route is in the list and not among what it denies; it is told by number also where that is great."""
        text = text_of(MAPS).replace("list 1 permit 0.0.0.0/0 le 32\n", "list 1 permit 10.0.0.0/8\n" +
                                     "list 2 deny 10.0.0.0/8\nlist 2 permit 0.0.0.0/0 le 32\n", 1)
        put(self.folder, "maps", text.replace("in 20 list 1 match 64513:0:2", "in 20 list 2 match 64513:0:2", 1))
        maps, folder = os.path.join(self.folder, "maps"), os.path.join(self.folder, "files")
        self.assertEqual(deploy("--openbgpd", TOPOLOGY, maps, ADDRESSES, folder), (0, "", ""))
        found = text_of(os.path.join(folder, "R1.openbgpd.conf"))
        for way in ("from", "to"):
            self.assertIn(f'match {way} any prefix-set "list-2" set community 0:2\n'
                          f'match {way} any prefix-set "list-2-less" set community delete 0:2\n', found)
        self.assertIn("allow quick from 10.0.0.1 community 0:2 large-community 64513:0:2 set {", found)
        self.assertEqual(deploy("--read", TOPOLOGY, ADDRESSES, folder), (0, text_of(maps), ""))
        self.assertEqual(openbgpd.mark(70_000), "community 1:4464")
        self.assertEqual(openbgpd_reader.list_of(None, "1", "4464"), 70_000)


if __name__ == "__main__":
    unittest.main()
