"""Configurations that may take over from old ones, and the evidence for them."""
from runs import ANY_PATH, BAD_INPUT, DONE, EXITS, REFUSED
from runs.networks import TWO_EXITS, TWO_ROUTERS, TWO_ROUTERS_CONFIG, TWO_ROUTERS_EVIDENCE, WAYPOINT_RING

NOTHING = "propane-config 2\n"

RENEWED_CONFIG = """\
propane-config 2
class 1 10.0.1.0/24
router A asn 64512 id 10.255.0.1
originate 1 10.0.1.0/24 tag 64512:0:2
session B asn 64513
export 1 tag 64512:0:2
end
router B asn 64513 id 10.255.0.2
session A asn 64512
import 1 tag 64512:0:2 set 64513:0:2 pref 200
end
"""

RENEWED_EVIDENCE = ('{"cases":[{"external":false,"nodes":[[0,0,0,200,64512,2],[1,0,1,200,64513,2]],"origins":[0],'
                    '"prefixes":["10.0.1.0/24"],"starts":[0],"statement":1,"steps":[[0,1]]}],"version":1}\n')

# Of another network: R1 has the tags 1 and 3, R2 has 2, and no preference is above 7. Router 64999 is none of R1 and R2.
SCATTERED = """\
propane-config 2
class 1 0.0.0.0/0 le 32
router X asn 64999 id 10.255.0.9
session Y asn 64512
import 1 tag 64512:0:1 set 64999:0:1 pref 7
export 1 tag 64999:0:2
session Z asn 64513
import 1 tag 64513:0:2 set 64999:0:4 pref 0
peer P asn 1001
import 1 set 64512:0:3 pref 3
end
"""

# Two prefixes at the first router, and one at each.
BOTH_AT_A = "originate 10.0.1.0/24 at A; originate 10.0.2.0/24 at A; true => any;"
ONE_AT_EACH = "originate 10.0.1.0/24 at A; originate 10.0.2.0/24 at B; true => any;"

BOTH_AT_A_CONFIG = (TWO_ROUTERS_CONFIG.replace("class 1 10.0.1.0/24", "class 1 10.0.1.0/24, 10.0.2.0/24")
                    .replace("originate 1 10.0.1.0/24 tag 64512:0:1\n", "originate 1 10.0.1.0/24 tag 64512:0:1\noriginate 1 10.0.2.0/24 tag 64512:0:1\n"))
BOTH_AT_A_EVIDENCE = TWO_ROUTERS_EVIDENCE.replace('"10.0.1.0/24"', '"10.0.1.0/24","10.0.2.0/24"')

ONE_AT_EACH_CONFIG = """\
propane-config 2
class 1 10.0.1.0/24
class 2 10.0.2.0/24
router A asn 64512 id 10.255.0.1
originate 1 10.0.1.0/24 tag 64512:0:1
session B asn 64513
import 2 tag 64513:0:3 set 64512:0:3 pref 200
export 1 tag 64512:0:1
end
router B asn 64513 id 10.255.0.2
originate 2 10.0.2.0/24 tag 64513:0:3
session A asn 64512
import 1 tag 64512:0:1 set 64513:0:1 pref 100
export 2 tag 64513:0:3
end
"""

ONE_AT_EACH_EVIDENCE = ('{"cases":[{"external":false,"nodes":[[0,0,0,100,64512,1],[1,0,1,100,64513,1]],"origins":[0],'
                        '"prefixes":["10.0.1.0/24"],"starts":[0],"statement":1,"steps":[[0,1]]},'
                        '{"external":false,"nodes":[[1,0,0,200,64513,3],[0,0,1,200,64512,3]],"origins":[1],'
                        '"prefixes":["10.0.2.0/24"],"starts":[0],"statement":1,"steps":[[0,1]]}],"version":1}\n')


def topped(pref: int) -> str:
    """The configuration of two routers, with this preference."""
    return TWO_ROUTERS_CONFIG.replace("pref 100", f"pref {pref}")


ROWS = [
    ("the next tags, and preferences above 100", ["renew"], [TWO_ROUTERS, ANY_PATH, TWO_ROUTERS_CONFIG], DONE, RENEWED_CONFIG),
    ("their evidence", ["renewal"], [TWO_ROUTERS, ANY_PATH, TWO_ROUTERS_CONFIG], DONE, RENEWED_EVIDENCE),
    ("which passes", ["check"], [TWO_ROUTERS, ANY_PATH, RENEWED_CONFIG, RENEWED_EVIDENCE], DONE, "holds\n"),
    ("after the next rollout the first tags come back", ["renew"], [TWO_ROUTERS, ANY_PATH, RENEWED_CONFIG], DONE,
     TWO_ROUTERS_CONFIG.replace("pref 100", "pref 300")),
    ("where nothing is taken, as is compiled", ["renew"], [TWO_ROUTERS, ANY_PATH, NOTHING], DONE, TWO_ROUTERS_CONFIG),
    ("and its evidence", ["renewal"], [TWO_ROUTERS, ANY_PATH, NOTHING], DONE, TWO_ROUTERS_EVIDENCE),
    ("the least tags that are free at each router, after a configuration of another network", ["renew"], [TWO_EXITS, EXITS, SCATTERED], DONE, """\
propane-config 2
class 1 0.0.0.0/0 le 32
router R1 asn 64512 id 10.255.0.1
session R2 asn 64513
import 1 tag 64513:0:1 set 64512:0:4 pref 107
import 1 tag 64513:0:3 set 64512:0:2 pref 108
export 1 tag 64512:0:2
export 1 tag 64512:0:4
peer P1 asn 1001
import 1 set 64512:0:2 pref 108
end
router R2 asn 64513 id 10.255.0.2
session R1 asn 64512
import 1 tag 64512:0:2 set 64513:0:3 pref 108
import 1 tag 64512:0:4 set 64513:0:1 pref 107
export 1 tag 64513:0:1
export 1 tag 64513:0:3
peer P2 asn 1002
import 1 set 64513:0:1 pref 107
end
"""),
    ("the greatest preference that leaves room", ["renew"], [TWO_ROUTERS, ANY_PATH, topped(4294967195)], DONE,
     RENEWED_CONFIG.replace("pref 200", "pref 4294967295")),
    ("one more", ["renew"], [TWO_ROUTERS, ANY_PATH, topped(4294967196)], REFUSED, "propane: refused 10 preferences-run-out pref 4294967196\n"),
    ("the same of the evidence", ["renewal"], [TWO_ROUTERS, ANY_PATH, topped(4294967295)], REFUSED,
     "propane: refused 10 preferences-run-out pref 4294967295\n"),
    ("nothing needs a preference where nothing is originated", ["renew"], [TWO_ROUTERS, "true => any;", topped(4294967295)], DONE, """\
propane-config 2
router A asn 64512 id 10.255.0.1
session B asn 64513
end
router B asn 64513 id 10.255.0.2
session A asn 64512
end
"""),
    ("a policy is refused before preferences run out", ["renew"],
     [WAYPOINT_RING, "originate 10.0.1.0/24 at D; 10.0.1.0/24 => through(W) >> any;", topped(4294967295)],
     REFUSED, "propane: refused 6 no-evidence case 1 router W first W X D second W X D\n"),
    ("a fault of the old configuration comes before a refusal", ["renew"],
     [WAYPOINT_RING, "originate 10.0.1.0/24 at D; 10.0.1.0/24 => through(W) >> any;", "propane-config 1\n"],
     BAD_INPUT, "propane: config 1 version\n"),
    ("and after one of the policy", ["renewal"], [TWO_ROUTERS, "true => any", "propane-config 1\n"],
     BAD_INPUT, "propane: policy 4 syntax at 1:12\n"),
    ("a block that isn't closed", ["renewal"], [TWO_ROUTERS, ANY_PATH, "propane-config 2\nrouter A asn 64512 id 10.255.0.1\n"],
     BAD_INPUT, "propane: config 6 unfinished\n"),
    ("with the evidence of the old configuration the same policy stays", ["renew"],
     [TWO_ROUTERS, ANY_PATH, TWO_ROUTERS_CONFIG, TWO_ROUTERS_EVIDENCE], DONE, TWO_ROUTERS_CONFIG),
    ("and its evidence", ["renewal"], [TWO_ROUTERS, ANY_PATH, TWO_ROUTERS_CONFIG, TWO_ROUTERS_EVIDENCE], DONE, TWO_ROUTERS_EVIDENCE),
    ("also where its preferences are above those of compile by as much", ["renew"],
     [TWO_ROUTERS, ANY_PATH, RENEWED_CONFIG, RENEWED_EVIDENCE], DONE, RENEWED_CONFIG),
    ("what stays doesn't come above what it was", ["renewal"], [TWO_ROUTERS, ANY_PATH, RENEWED_CONFIG, RENEWED_EVIDENCE], DONE, RENEWED_EVIDENCE),
    ("a class with one more prefix stays", ["renew"], [TWO_ROUTERS, BOTH_AT_A, TWO_ROUTERS_CONFIG, TWO_ROUTERS_EVIDENCE], DONE, BOTH_AT_A_CONFIG),
    ("and its evidence, but for the prefix", ["renewal"], [TWO_ROUTERS, BOTH_AT_A, TWO_ROUTERS_CONFIG, TWO_ROUTERS_EVIDENCE], DONE, BOTH_AT_A_EVIDENCE),
    ("stages lead there", ["between", "2"], [TWO_ROUTERS_CONFIG, BOTH_AT_A_CONFIG], DONE, """\
propane-config 2
class 1 10.0.1.0/24
class 2 10.0.2.0/24
router A asn 64512 id 10.255.0.1
originate 1 10.0.1.0/24 tag 64512:0:1
originate 2 10.0.2.0/24 tag 64512:0:1
session B asn 64513
export 1 tag 64512:0:1
export 2 tag 64512:0:1
end
router B asn 64513 id 10.255.0.2
session A asn 64512
import 1 tag 64512:0:1 set 64513:0:1 pref 100
import 2 tag 64512:0:1 set 64513:0:1 pref 100
end
"""),
    ("so does one with a prefix less", ["renew"], [TWO_ROUTERS, ANY_PATH, BOTH_AT_A_CONFIG, BOTH_AT_A_EVIDENCE], DONE, TWO_ROUTERS_CONFIG),
    ("of two statements for what was one, the last one stays", ["renewal"],
     [TWO_ROUTERS, f"{BOTH_AT_A.removesuffix(' true => any;')} 10.0.1.0/24 => any; true => any;", BOTH_AT_A_CONFIG, BOTH_AT_A_EVIDENCE], DONE,
     '{"cases":[{"external":false,"nodes":[[0,0,0,200,64512,2],[1,0,1,200,64513,2]],"origins":[0],"prefixes":["10.0.1.0/24"],"starts":[0],'
     '"statement":1,"steps":[[0,1]]},{"external":false,"nodes":[[0,0,0,100,64512,1],[1,0,1,100,64513,1]],"origins":[0],'
     '"prefixes":["10.0.2.0/24"],"starts":[0],"statement":2,"steps":[[0,1]]}],"version":1}\n'),
    ("a class beside what stays is renewed", ["renew"], [TWO_ROUTERS, ONE_AT_EACH, TWO_ROUTERS_CONFIG, TWO_ROUTERS_EVIDENCE], DONE, ONE_AT_EACH_CONFIG),
    ("and its evidence, beside that of what stays", ["renewal"], [TWO_ROUTERS, ONE_AT_EACH, TWO_ROUTERS_CONFIG, TWO_ROUTERS_EVIDENCE], DONE,
     ONE_AT_EACH_EVIDENCE),
    ("a class that gets a prefix of another one doesn't stay", ["renew"], [TWO_ROUTERS, BOTH_AT_A, ONE_AT_EACH_CONFIG, ONE_AT_EACH_EVIDENCE], DONE, """\
propane-config 2
class 1 10.0.1.0/24, 10.0.2.0/24
router A asn 64512 id 10.255.0.1
originate 1 10.0.1.0/24 tag 64512:0:2
originate 1 10.0.2.0/24 tag 64512:0:2
session B asn 64513
export 1 tag 64512:0:2
end
router B asn 64513 id 10.255.0.2
session A asn 64512
import 1 tag 64512:0:2 set 64513:0:2 pref 300
end
"""),
    ("an old configuration's evidence in which a preference is another", ["renewal"],
     [TWO_ROUTERS, ANY_PATH, topped(7), TWO_ROUTERS_EVIDENCE], REFUSED, "propane: refused 11 other-evidence\n"),
    ("evidence with the tags of another router", ["renew"],
     [TWO_ROUTERS, ANY_PATH, TWO_ROUTERS_CONFIG, TWO_ROUTERS_EVIDENCE.replace("64513", "64512")], REFUSED, "propane: refused 11 other-evidence\n"),
    ("evidence of what came before", ["renew"], [TWO_ROUTERS, ANY_PATH, RENEWED_CONFIG, TWO_ROUTERS_EVIDENCE], REFUSED,
     "propane: refused 11 other-evidence\n"),
    ("a fault of the evidence comes after one of the configuration", ["renew"], [TWO_ROUTERS, ANY_PATH, "propane-config 1\n", "{"], BAD_INPUT,
     "propane: config 1 version\n"),
    ("and before a refusal", ["renewal"], [WAYPOINT_RING, "originate 10.0.1.0/24 at D; 10.0.1.0/24 => through(W) >> any;", NOTHING, "{"], BAD_INPUT,
     "propane: evidence 1 not-json\n"),
]
