"""Route maps: those of what is compiled, and whether maps are those of a configuration."""
from runs import ANY_PATH, DONE, REFUSED, BAD_INPUT, CHECK_FAILS
from runs.networks import TWO_EXITS, TWO_ROUTERS, TWO_ROUTERS_CONFIG

TWO_ROUTERS_MAPS = """\
propane-maps 1
list 1 permit 10.0.1.0/24
router A asn 64512 id 10.255.0.1
network 10.0.1.0/24 list 1 set 64512:0:1
neighbor B asn 64513
out 10 list 1 match 64512:0:1
end
router B asn 64513 id 10.255.0.2
neighbor A asn 64512
in 10 list 1 match 64512:0:1 set 64513:0:1 pref 100
end
"""

ROWS = [
    ("two routers", ["routemap"], [TWO_ROUTERS, ANY_PATH], DONE, TWO_ROUTERS_MAPS),
    ("a class within another one is denied by the list of the second", ["routemap"],
     [TWO_EXITS, "originate 10.0.1.0/24 at R2; 10.0.1.0/24 => any; true => exit(P1);"],
     DONE, """\
propane-maps 1
list 1 permit 10.0.1.0/24
list 2 deny 10.0.1.0/24
list 2 permit 0.0.0.0/0 le 32
router R1 asn 64512 id 10.255.0.1
neighbor R2 asn 64513
in 10 list 1 match 64513:0:1 set 64512:0:1 pref 100
in 20 list 2 match 64513:0:2 set 64512:0:2 pref 100
out 10 list 2 match 64512:0:2
peer P1 asn 1001
in 10 list 2 set 64512:0:2 pref 100
out 10 list 1 match 64512:0:1
end
router R2 asn 64513 id 10.255.0.2
network 10.0.1.0/24 list 1 set 64513:0:1
neighbor R1 asn 64512
in 10 list 2 match 64512:0:2 set 64513:0:2 pref 100
out 10 list 1 match 64513:0:1
out 20 list 2 match 64513:0:2
peer P2 asn 1002
out 10 list 1 match 64513:0:1
end
"""),
    ("72 alternatives", ["routemap"],
     [TWO_ROUTERS, ("originate 10.0.1.0/24 at A; 10.0.1.0/24 => end(A >> B >> A >> B >> A >> B >> A >> B >> A) and end(A >> B >> A >> B >> A >> B >> A >> B);")],
     REFUSED, "propane: refused 1 too-many-ranks case 1 number 72\n"),
    ("the maps of two routers", ["checkmap"], [TWO_ROUTERS_CONFIG, TWO_ROUTERS_MAPS], DONE, "same\n"),
    ("a preference of 101", ["checkmap"], [TWO_ROUTERS_CONFIG, """\
propane-maps 1
list 1 permit 10.0.1.0/24
router A asn 64512 id 10.255.0.1
network 10.0.1.0/24 list 1 set 64512:0:1
neighbor B asn 64513
out 10 list 1 match 64512:0:1
end
router B asn 64513 id 10.255.0.2
neighbor A asn 64512
in 10 list 1 match 64512:0:1 set 64513:0:1 pref 101
end
"""], CHECK_FAILS, "differs line 10\n"),
    ("an entry that begins with 20", ["checkmap"], [TWO_ROUTERS_CONFIG, """\
propane-maps 1
list 1 permit 10.0.1.0/24
router A asn 64512 id 10.255.0.1
network 10.0.1.0/24 list 1 set 64512:0:1
neighbor B asn 64513
out 10 list 1 match 64512:0:1
end
router B asn 64513 id 10.255.0.2
neighbor A asn 64512
in 20 list 1 match 64512:0:1 set 64513:0:1 pref 100
end
"""], BAD_INPUT, "propane: maps 3 order line 10\n"),
    ("a permit that is a deny", ["checkmap"], [TWO_ROUTERS_CONFIG, """\
propane-maps 1
list 1 deny 10.0.1.0/24
router A asn 64512 id 10.255.0.1
network 10.0.1.0/24 list 1 set 64512:0:1
neighbor B asn 64513
out 10 list 1 match 64512:0:1
end
router B asn 64513 id 10.255.0.2
neighbor A asn 64512
in 10 list 1 match 64512:0:1 set 64513:0:1 pref 100
end
"""], CHECK_FAILS, "differs line 2\n"),
    ("maps that end before the others do", ["checkmap"], [TWO_ROUTERS_CONFIG, """\
propane-maps 1
list 1 permit 10.0.1.0/24
"""], CHECK_FAILS, "differs line 3\n"),
    ("maps that go on behind the others", ["checkmap"], ["""\
propane-config 2
class 1 10.0.1.0/24
""", """\
propane-maps 1
list 1 permit 10.0.1.0/24
list 2 permit 10.0.2.0/24
"""], CHECK_FAILS, "differs line 3\n"),
    ("the configuration is judged first", ["checkmap"],
     ["propane-config 1\n", "propane-maps 2\n"],
     BAD_INPUT, "propane: config 1 version\n"),
    ("maps of another version", ["checkmap"], ["propane-config 2\n", "propane-maps 2\n"], BAD_INPUT, "propane: maps 1 version\n"),
    ("the maps of a configuration", ["maps"], [TWO_ROUTERS_CONFIG], DONE, TWO_ROUTERS_MAPS),
    ("the maps of a configuration that nobody compiled: tags and preferences of its own", ["maps"], ["""\
propane-config 2
class 1 10.0.1.0/24, 10.0.2.0/24 le 28
class 2 0.0.0.0/0 le 32
router A asn 64512 id 10.255.0.1
originate 1 10.0.1.0/24 tag 64512:0:7
session B asn 64513
import 2 tag 64513:0:9 set 64512:0:8 pref 300
export 1 tag 64512:0:7
peer P asn 1001
export 1 tag 64512:0:7
end
"""], DONE, """\
propane-maps 1
list 1 permit 10.0.1.0/24
list 1 permit 10.0.2.0/24 le 28
list 2 deny 10.0.1.0/24
list 2 deny 10.0.2.0/24 le 28
list 2 permit 0.0.0.0/0 le 32
router A asn 64512 id 10.255.0.1
network 10.0.1.0/24 list 1 set 64512:0:7
neighbor B asn 64513
in 10 list 2 match 64513:0:9 set 64512:0:8 pref 300
out 10 list 1 match 64512:0:7
peer P asn 1001
out 10 list 1 match 64512:0:7
end
"""),
    ("the maps of no configuration", ["maps"], ["propane-config 2\n"], DONE, "propane-maps 1\n"),
    ("a configuration of the first edition", ["maps"], ["propane-config 1\n"], BAD_INPUT, "propane: config 1 version\n"),
    ("a block that isn't closed", ["maps"], ["propane-config 2\nrouter A asn 64512 id 10.255.0.1\n"], BAD_INPUT, "propane: config 6 unfinished\n"),
    ("1,414 classes that overlap", ["maps"],
     ["propane-config 2\n" + "".join(f"class {n} 0.0.0.0/0 le 32\n" for n in range(1, 1415))], REFUSED, "propane: refused 8 too-many-lines number 1000406\n"),
]
