"""tools/deploy without daemons: what is written and read back, and what has drifted."""
import os
import shutil
import stat
import tempfile
import unittest

from deployed import ADDRESSES, DEPLOYED, HERE, MAPS, TOP, TOPOLOGY, InFolder, deploy, put, text_of

# A file, what stands in it and what is to stand there, and what is told of it.
DRIFT = [
    ("R1.bird.conf", "next hop self;", "next hop keep;", "R1: R1.bird.conf: line 86: next hop keep;: would be: next hop self;"),
    ("R1.bird.conf", "  wash();\n", "", "R1: R1.bird.conf: line 93: if net ~ list1 then { mark((64512, 0, 1)); bgp_local_pref = 101; accept; }: "
     "would be: wash();"),
    ("R1.bird.conf", "a-secret", "other", "R1: R1.bird.conf: line 107: password ..;: would be: password ..;"),
    ("R1.bird.conf", "filter 'in:R2'", "filter 'in:R3'", "R1: R1.bird.conf: line 65: filter 'in:R3': would be: filter 'in:R2'"),
    ("R1.frr.conf", "a-secret", "o:t;h:", "R1: R1.frr.conf: line 82: neighbor 198.51.100.1 password ..: isn't as written, below router bgp 64512\n"
     "R1: R1.frr.conf: a line is missing, below router bgp 64512: neighbor 198.51.100.1 password .."),
    ("R2.frr.conf", " bgp bestpath compare-routerid\n", "",
     "R2: R2.frr.conf: a line is missing, below router bgp 64513: bgp bestpath compare-routerid"),
    ("R2.frr.conf", "neighbor 10.0.0.0 activate", "neighbor 10.0.0.9 activate",
     "R2: R2.frr.conf: line 88: neighbor 10.0.0.9 activate: isn't as written, below address-family ipv4 unicast\n"
     "R2: R2.frr.conf: a line is missing, below address-family ipv4 unicast: neighbor 10.0.0.0 activate"),
    ("R2.frr.conf", " exit-address-family\nexit\n", "neighbor 10.0.0.0 allowas-in\n",
     "R2: R2.frr.conf: line 100: neighbor 10.0.0.0 allowas-in: isn't as written"),
    ("R2.frr.conf", "frr defaults traditional\n", "frr defaults traditional\nno route-map in-P2\n",
     "R2: R2.frr.conf: line 3: no route-map in-P2: isn't as written"),
    ("R2.frr.conf", "route-map in-R1 deny 65535", "route-map in-R1 permit 65535",
     "R2: R2.frr.conf: line 28: route-map in-R1 permit 65535: no entry as it would be written"),
    ("R2.frr.conf", " set local-preference 100\nexit\n!\nroute-map in-R1 deny", "exit\n!\nroute-map in-R1 deny",
     "R2: R2.frr.conf: line 21: route-map in-R1 permit 20: no entry as it would be written"),
    ("R2.frr.conf", "list-1 seq 5 permit 0.0.0.0/0", "list-1 seq 5 permit 10.0.0.0/8", "R2: R2.frr.conf: list 1 isn't that of R1"),
    ("R1.openbgpd.conf", "rde route-age ignore", "rde route-age evaluate",
     "R1: R1.openbgpd.conf: line 7: rde route-age evaluate: would be: rde route-age ignore"),
    ("R1.openbgpd.conf", "metric 0, ", "",
     "R1: R1.openbgpd.conf: line 35: match from any set { community delete *:*, ext-community delete * *, origin igp }: "
     "would be: match from any set { community delete *:*, ext-community delete * *, metric 0, origin igp }"),
    ("R1.openbgpd.conf", "a-secret", "other", "R1: R1.openbgpd.conf: line 28: tcp md5sig password ..: would be: tcp md5sig password .."),
    ("R1.openbgpd.conf", 'descr "R2"', 'descr "R3"', "R1: R1.openbgpd.conf: no maps of R2"),
    ("R1.openbgpd.conf", "deny quick from 10.0.0.1\n", "allow quick from 10.0.0.1\n",
     "R1: R1.openbgpd.conf: line 40: allow quick from 10.0.0.1: would be: deny quick from 10.0.0.1"),
    ("R1.openbgpd.conf", "deny quick to 198.51.100.1\n", "deny quick to 198.51.100.1\nallow from any\n",
     "R1: R1.openbgpd.conf: line 50: allow from any: would be: the end"),
    ("R1.openbgpd.conf", "prefix-set \"list-1\" large-community 64513:0:2", "prefix-set \"list-2\" large-community 64513:0:2",
     "R1: R1.openbgpd.conf: an entry of R2 is over the list 2, which isn't there"),
    ("R1.openbgpd.conf", "0.0.0.0/0 maxlen 32", "0.0.0.0/0 maxlen 24", "R2: R2.frr.conf: list 1 isn't that of R1"),
]


class Deploying(InFolder):
    def test_files_are_written_byte_for_byte(self):
        for kind in ("bird", "frr", "openbgpd"):
            self.assertEqual(deploy(f"--{kind}", TOPOLOGY, MAPS, ADDRESSES, self.folder), (0, "", ""))
            for router in ("R1", "R2"):
                name = f"{router}.{kind}.conf"
                self.assertEqual(text_of(os.path.join(self.folder, name)), text_of(os.path.join(DEPLOYED, name)))
                self.assertEqual(stat.S_IMODE(os.stat(os.path.join(self.folder, name)).st_mode), 0o600)

    def test_only_named_routers_are_written(self):
        self.assertEqual(deploy("--frr", TOPOLOGY, MAPS, ADDRESSES, self.folder, "R2"), (0, "", ""))
        self.assertEqual(os.listdir(self.folder), ["R2.frr.conf"])
        self.assertEqual(deploy("--frr", TOPOLOGY, MAPS, ADDRESSES, self.folder, "P1"), (3, "", "deploy: no router of the topology: P1\n"))

    def test_files_are_read_back_as_their_maps(self):
        kinds = ("bird", "frr", "openbgpd")
        for files in ((f"R1.{one}.conf", f"R2.{two}.conf") for one in kinds for two in kinds):
            folder = tempfile.mkdtemp(dir=self.folder)
            for name in files:
                shutil.copy(os.path.join(DEPLOYED, name), folder)
            self.assertEqual(deploy("--read", TOPOLOGY, ADDRESSES, folder), (0, text_of(MAPS), ""))

    def test_the_running_configuration_of_frr_is_read_back(self):
        self.assertEqual(deploy("--read", TOPOLOGY, ADDRESSES, os.path.join(HERE, "running")), (0, text_of(MAPS), ""))

    def test_other_examples_are_read_back(self):
        for example, own in (("ring", ("C", "D")), ("data-centre", ("L1", "L2", "L3", "S1", "S2"))):
            words = [os.path.join(TOP, "examples", example, name) for name in ("topology.json", "routemap.stdout", "addresses.json")]
            for kind in ("--bird", "--frr"):
                folder = tempfile.mkdtemp(dir=self.folder)
                self.assertEqual(deploy(kind, *words, folder), (0, "", ""))
                self.assertEqual(deploy("--read", words[0], words[2], folder), (0, text_of(words[1]), ""))
            for router in own:  # of these no peer is told what came from another router
                os.remove(os.path.join(folder, f"{router}.frr.conf"))
            self.assertEqual(deploy("--openbgpd", *words, folder, *own), (0, "", ""))
            self.assertEqual(deploy("--read", words[0], words[2], folder), (0, text_of(words[1]), ""))

    def test_ties_by_age(self):
        for kind, gone, wanted in (("frr", " bgp bestpath compare-routerid", ()), ("bird", "  prefer older off;", ("  prefer older on;",)),
                                   ("openbgpd", "rde route-age ignore", ("rde route-age evaluate",))):
            folder = tempfile.mkdtemp(dir=self.folder)
            self.assertEqual(deploy(f"--{kind}", "--ties", "oldest", TOPOLOGY, MAPS, ADDRESSES, folder), (0, "", ""))
            found = text_of(os.path.join(folder, f"R1.{kind}.conf")).splitlines()
            self.assertNotIn(gone, found)
            self.assertEqual([line for line in wanted if line in found], list(wanted))
            self.assertEqual(deploy("--read", "--ties", "oldest", TOPOLOGY, ADDRESSES, folder), (0, text_of(MAPS), ""))
            self.assertEqual(deploy("--read", TOPOLOGY, ADDRESSES, folder)[0], 7)
        self.assertEqual(deploy("--frr", "--ties", "newest", TOPOLOGY, MAPS, ADDRESSES, self.folder), (2, "", "usage\n"))

    def test_sessions_over_interfaces(self):
        """FRR finds the neighbour by itself; BIRD is told its link-local address."""
        words = [os.path.join(TOP, "examples", "ring", name) for name in ("topology.json", "routemap.stdout", "link-local.json")]
        for kind, ending, wanted in (("--frr", "frr", [" neighbor swp1 interface remote-as 4200000002"]),
                                     ("--bird", "bird", ["  local fe80::ff:fe00:1 as 4200000001;", "  neighbor fe80::ff:fe00:2%'swp1' as 4200000002;",
                                                         "    extended next hop on;", "protocol radv 'own:radv' {"])):
            folder = tempfile.mkdtemp(dir=self.folder)
            self.assertEqual(deploy(kind, *words, folder), (0, "", ""))
            found = text_of(os.path.join(folder, f"A.{ending}.conf")).splitlines()
            self.assertEqual([line for line in wanted if line in found], wanted)
            self.assertEqual(deploy("--read", words[0], words[2], folder), (0, text_of(words[1]), ""))

    def test_sessions_over_interfaces_alone_are_for_frr(self):
        words = [os.path.join(TOP, "examples", "ring", name) for name in ("topology.json", "routemap.stdout", "unnumbered.json")]
        self.assertEqual(deploy("--frr", *words, self.folder), (0, "", ""))
        self.assertIn(" neighbor swp1 interface remote-as 4200000002\n", text_of(os.path.join(self.folder, "A.frr.conf")))
        self.assertEqual(deploy("--bird", *words, self.folder)[0], 3)

    def test_changed_entries_are_other_maps(self):
        for name, old, new in (("R1.bird.conf", "bgp_local_pref = 100", "bgp_local_pref = 99"), ("R1.frr.conf", "preference 100", "preference 99"),
                               ("R1.openbgpd.conf", "localpref 100 ", "localpref 99 ")):
            folder = tempfile.mkdtemp(dir=self.folder)
            put(folder, name, text_of(os.path.join(DEPLOYED, name)).replace(old, new, 1))
            shutil.copy(os.path.join(DEPLOYED, "R2.frr.conf"), folder)
            self.assertEqual(deploy("--read", TOPOLOGY, ADDRESSES, folder), (0, text_of(MAPS).replace("pref 100", "pref 99", 1), ""))

    def test_drift_is_told_by_router_and_line(self):
        for name, old, new, told in DRIFT:
            with self.subTest(name=name, new=new):
                folder = tempfile.mkdtemp(dir=self.folder)
                for file in (name if name.startswith("R1") else "R1.bird.conf", "R2.frr.conf"):
                    text = text_of(os.path.join(DEPLOYED, file))
                    put(folder, file, text.replace(old, new, 1) if file == name else text)
                status, said, lines = deploy("--read", TOPOLOGY, ADDRESSES, folder)
                self.assertEqual((status, said), (7, ""))
                self.assertTrue(lines.startswith("".join(f"deploy: {line}\n" for line in told.split("\n"))[:-1]), lines)

    def test_lines_of_the_router_itself_are_no_drift_of_frr(self):
        more = "hostname R2\ninterface eth0\n ip address 10.0.0.1/31\nexit\nip route 192.0.2.0/24 10.0.0.0\nroute-map mine permit 10\nexit\n"
        put(self.folder, "R2.frr.conf", more + text_of(os.path.join(DEPLOYED, "R2.frr.conf")))
        shutil.copy(os.path.join(DEPLOYED, "R1.frr.conf"), self.folder)
        self.assertEqual(deploy("--read", TOPOLOGY, ADDRESSES, self.folder), (0, text_of(MAPS), ""))

    def test_several_paths(self):
        """What spreads packets stands in the files, is read back with the same words, and is drift with others."""
        for kind, name, lines in (("--bird", "R1.bird.conf", ["  merge paths on limit 16;"]),
                                  ("--frr", "R1.frr.conf", ["no zebra nexthop kernel enable", " bgp bestpath as-path multipath-relax",
                                                            "  maximum-paths 16"])):
            folder = tempfile.mkdtemp(dir=self.folder)
            self.assertEqual(deploy(kind, "--paths", "16", TOPOLOGY, MAPS, ADDRESSES, folder), (0, "", ""))
            text = text_of(os.path.join(folder, name)).splitlines()
            self.assertEqual([line for line in lines if line in text], lines)
            self.assertEqual(deploy("--read", "--paths", "16", TOPOLOGY, ADDRESSES, folder), (0, text_of(MAPS), ""))
            self.assertEqual(deploy("--read", TOPOLOGY, ADDRESSES, folder)[:2], (7, ""))
            self.assertEqual(deploy("--read", "--paths", "2", TOPOLOGY, ADDRESSES, folder)[:2], (7, ""))
            one = tempfile.mkdtemp(dir=self.folder)
            self.assertEqual(deploy(kind, "--paths", "1", TOPOLOGY, MAPS, ADDRESSES, one), (0, "", ""))
            self.assertEqual(deploy("--read", TOPOLOGY, ADDRESSES, one), (0, text_of(MAPS), ""))
        for words in (["--paths"], ["--paths", "0"], ["--paths", "256"], ["--paths", "x"], ["--policy"]):
            self.assertEqual(deploy("--bird", *words, TOPOLOGY, MAPS, ADDRESSES, self.folder), (2, "", "usage\n"))

    def test_an_origin_at_which_no_path_ends(self):
        """It holds its prefix without a tag, where the policy is given, and the maps are the same."""
        maps, policy = os.path.join(self.folder, "maps"), os.path.join(self.folder, "policy")
        lines = text_of(MAPS).replace("list 1 permit 0.0.0.0/0 le 32\n", "list 1 permit 10.0.1.0/24\nlist 2 permit 0.0.0.0/0 le 32\n", 1)
        lines = lines.replace("list 1 match", "list 2 match").replace("list 1 set", "list 2 set")
        text = lines.replace("id 10.255.0.1\n", "id 10.255.0.1\nnetwork 10.0.1.0/24 list 1 set 64512:0:7\n", 1)
        put(self.folder, "maps", text)
        put(self.folder, "policy", "define BOTH = { R1, R2 };\noriginate 10.0.1.0/24 at BOTH;\n10.0.1.0/24 => end(R1);\n")
        for kind, ending, wanted in (("--bird", "bird", ["  if net = 10.0.1.0/24 then accept;", "  route 10.0.1.0/24 unreachable;"]),
                                     ("--frr", "frr", ["  network 10.0.1.0/24", "ip route 10.0.1.0/24 blackhole 254"]),
                                     ("--openbgpd", "openbgpd", ["network 10.0.1.0/24 set localpref 4294967295"])):
            folder = tempfile.mkdtemp(dir=self.folder)
            self.assertEqual(deploy(kind, "--policy", policy, TOPOLOGY, maps, ADDRESSES, folder), (0, "", ""))
            found = text_of(os.path.join(folder, f"R2.{ending}.conf")).splitlines()
            self.assertEqual([line for line in wanted if line in found], wanted)
            self.assertEqual(deploy("--read", "--policy", policy, TOPOLOGY, ADDRESSES, folder), (0, text, ""))
            self.assertEqual(deploy("--read", TOPOLOGY, ADDRESSES, folder)[0], 7)
        put(self.folder, "policy", "originate 10.0.1.0/24 at R2;\n10.0.1.0/24 => any;\n")
        self.assertEqual(deploy("--bird", "--policy", policy, TOPOLOGY, maps, ADDRESSES, self.folder),
                         (3, "", "deploy: policy: R1 doesn't originate 10.0.1.0/24, of which its maps say that it does\n"))

    def test_a_row_that_stands_twice(self):
        """FRR drops the second one of a list, so it gets a list of its own, and is read back at its place."""
        text = text_of(MAPS).replace("list 1 permit", "list 1 deny 10.0.0.0/8\nlist 1 deny 10.0.0.0/8\n"
                                     "list 1 permit 10.0.0.0/8 le 9\nlist 1 permit", 1)
        text = text.replace("list 1 permit 0.0.0.0/0 le 32\n", "list 1 permit 0.0.0.0/0 le 32\nlist 1 permit 10.0.0.0/8 le 9\n", 1)
        put(self.folder, "maps", text)
        maps = os.path.join(self.folder, "maps")
        for kind in ("--bird", "--openbgpd", "--frr"):
            folder = tempfile.mkdtemp(dir=self.folder)
            self.assertEqual(deploy(kind, TOPOLOGY, maps, ADDRESSES, folder), (0, "", ""))
            self.assertEqual(deploy("--read", TOPOLOGY, ADDRESSES, folder), (0, text, ""))
        rows = [line for line in text_of(os.path.join(folder, "R1.frr.conf")).splitlines() if line.startswith("ip prefix-list ")]
        self.assertEqual(rows, [
            "ip prefix-list list-1 seq 5 deny 10.0.0.0/8", "ip prefix-list list-1-again-2 seq 10 deny 10.0.0.0/8",
            "ip prefix-list list-1 seq 15 permit 10.0.0.0/8 le 9", "ip prefix-list list-1 seq 20 permit 0.0.0.0/0 le 32",
            "ip prefix-list list-1-again-5 seq 25 permit 10.0.0.0/8 le 9"])

    def test_a_router_has_one_file(self):
        shutil.copy(os.path.join(DEPLOYED, "R1.frr.conf"), self.folder)
        self.assertEqual(deploy("--read", TOPOLOGY, ADDRESSES, self.folder), (3, "", f"deploy: {self.folder}: no file of the router R2\n"))
        shutil.copy(os.path.join(DEPLOYED, "R1.bird.conf"), self.folder)
        self.assertEqual(deploy("--read", TOPOLOGY, ADDRESSES, self.folder), (3, "", f"deploy: {self.folder}: two files of the router R1\n"))


if __name__ == "__main__":
    unittest.main()
