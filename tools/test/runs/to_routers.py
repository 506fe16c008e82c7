"""Evidence for prefixes that a router originates, and what `check` says of it."""
from runs import ANY_PATH, DONE, CHECK_FAILS
from runs.networks import CHAIN, TRIANGLE, TRIANGLE_CONFIG, TWO_ROUTERS, TWO_ROUTERS_CONFIG, TWO_ROUTERS_EVIDENCE, WAYPOINT_RING

# The configuration of no router. Only the last rule asks for another one.
NO_ROUTER = "propane-config 2\n"

A_ROUTER_TOO_MANY = """\
propane-config 2
class 1 10.0.1.0/24
router A asn 64512 id 10.255.0.1
originate 1 10.0.1.0/24 tag 64512:0:1
session B asn 64513
export 1 tag 64512:0:1
end
router B asn 64513 id 10.255.0.2
session A asn 64512
import 1 tag 64512:0:1 set 64513:0:1 pref 100
end
router C asn 64514 id 10.255.0.3
end
"""

NUMBER_OF_B = """\
{"cases":[{"external":false,"nodes":[[0,0,0,100,64512,1],[1,0,1,101,64513,1]],
"origins":[0],"prefixes":["10.0.1.0/24"],"starts":[0],"statement":1,"steps":[[0,1]]}],"version":1}"""

NUMBER_OF_A = """\
{"cases":[{"external":false,"nodes":[[0,0,0,7,64512,1],[1,0,1,100,64513,1]],
"origins":[0],"prefixes":["10.0.1.0/24"],"starts":[0],"statement":1,"steps":[[0,1]]}],"version":1}"""

LAST_TAGS = """\
{"cases":[{"external":false,"nodes":[[0,0,0,100,64512,65536],[1,0,1,100,64513,4294967295]],
"origins":[0],"prefixes":["10.0.1.0/24"],"starts":[0],"statement":1,"steps":[[0,1]]}],"version":1}"""

LAST_TAGS_CONFIG = """\
propane-config 2
class 1 10.0.1.0/24
router A asn 64512 id 10.255.0.1
originate 1 10.0.1.0/24 tag 64512:0:65536
session B asn 64513
export 1 tag 64512:0:65536
end
router B asn 64513 id 10.255.0.2
session A asn 64512
import 1 tag 64512:0:65536 set 64513:0:4294967295 pref 100
end
"""

TAG_OF_NO_VALUE = """\
{"cases":[{"external":false,"nodes":[[0,0,0,100,64512,1],[1,0,1,100,64513,0]],
"origins":[0],"prefixes":["10.0.1.0/24"],"starts":[0],"statement":1,"steps":[[0,1]]}],"version":1}"""

TAG_OF_A = """\
{"cases":[{"external":false,"nodes":[[0,0,0,100,64512,1],[1,0,1,100,64512,2]],
"origins":[0],"prefixes":["10.0.1.0/24"],"starts":[0],"statement":1,"steps":[[0,1]]}],"version":1}"""

# Two nodes at B and at C, by whether a walk has come straight from A.
FINER = """\
{"cases":[{"external":false,"nodes":[[0,0,0,100,64512,1],[1,0,1,100,64513,1],
[2,0,1,100,64514,1],[1,0,1,100,64513,2],[2,0,1,100,64514,2]],"origins":[0],"prefixes":["10.0.1.0/24"],
"starts":[0],"statement":1,"steps":[[0,1],[0,2],[1,4],[2,3],[3,4],[4,3]]}],"version":1}"""

FINER_CONFIG = """\
propane-config 2
class 1 10.0.1.0/24
router A asn 64512 id 10.255.0.1
originate 1 10.0.1.0/24 tag 64512:0:1
session B asn 64513
export 1 tag 64512:0:1
session C asn 64514
export 1 tag 64512:0:1
end
router B asn 64513 id 10.255.0.2
session A asn 64512
import 1 tag 64512:0:1 set 64513:0:1 pref 100
session C asn 64514
import 1 tag 64514:0:1 set 64513:0:2 pref 100
import 1 tag 64514:0:2 set 64513:0:2 pref 100
export 1 tag 64513:0:1
export 1 tag 64513:0:2
end
router C asn 64514 id 10.255.0.3
session A asn 64512
import 1 tag 64512:0:1 set 64514:0:1 pref 100
session B asn 64513
import 1 tag 64513:0:1 set 64514:0:2 pref 100
import 1 tag 64513:0:2 set 64514:0:2 pref 100
export 1 tag 64514:0:1
export 1 tag 64514:0:2
end
"""

# One node for X, before W was passed and after.
COARSER = """\
{"cases":[{"external":false,"nodes":[[0,0,0,100,64512,1],[1,0,1,100,64513,1],
[2,0,1,100,64514,1]],"origins":[0],"prefixes":["10.0.1.0/24"],"starts":[0],"statement":1,
"steps":[[0,1],[1,2],[2,1]]}],"version":1}"""

COARSER_CONFIG = """\
propane-config 2
class 1 10.0.1.0/24
router D asn 64512 id 10.255.0.1
originate 1 10.0.1.0/24 tag 64512:0:1
session X asn 64513
export 1 tag 64512:0:1
end
router X asn 64513 id 10.255.0.2
session D asn 64512
import 1 tag 64512:0:1 set 64513:0:1 pref 100
session W asn 64514
import 1 tag 64514:0:1 set 64513:0:1 pref 100
export 1 tag 64513:0:1
end
router W asn 64514 id 10.255.0.3
session X asn 64513
import 1 tag 64513:0:1 set 64514:0:1 pref 100
export 1 tag 64514:0:1
end
"""

# X has a rank only where W was passed.
UNRANKED = """\
{"cases":[{"external":false,"nodes":[[0,0,0,100,64512,1],[1,0,0,100,64513,1],
[2,0,1,100,64514,1],[1,0,1,100,64513,2]],"origins":[0],"prefixes":["10.0.1.0/24"],"starts":[0],"statement":1,
"steps":[[0,1],[1,2],[2,3],[3,2]]}],"version":1}"""

ONE_NUMBER = """\
{"cases":[{"external":false,"nodes":[[0,0,0,100,64512,1],[1,0,2,100,64513,1],
[3,0,2,100,64515,1],[2,0,1,100,64514,1],[1,0,1,100,64513,2],[3,0,1,100,64515,2]],"origins":[0],
"prefixes":["10.0.1.0/24"],"starts":[0],"statement":1,
"steps":[[0,1],[0,2],[1,3],[2,3],[3,4],[3,5],[4,3],[5,3]]}],"version":1}"""

NUMBERS_BY_RANK = """\
{"cases":[{"external":false,"nodes":[[0,0,0,100,64512,1],[1,0,2,100,64513,1],
[3,0,2,100,64515,1],[2,0,1,101,64514,1],[1,0,1,101,64513,2],[3,0,1,101,64515,2]],"origins":[0],
"prefixes":["10.0.1.0/24"],"starts":[0],"statement":1,
"steps":[[0,1],[0,2],[1,3],[2,3],[3,4],[3,5],[4,3],[5,3]]}],"version":1}"""

ROWS = [
    ("as compiled", ["check"], [TWO_ROUTERS, ANY_PATH, TWO_ROUTERS_CONFIG, TWO_ROUTERS_EVIDENCE], DONE, "holds\n"),
    ("the number of a start", ["check"], [TWO_ROUTERS, ANY_PATH, TWO_ROUTERS_CONFIG, NUMBER_OF_A], DONE, "holds\n"),
    ("tags of more than two octets", ["check"], [TWO_ROUTERS, ANY_PATH, LAST_TAGS_CONFIG, LAST_TAGS], DONE, "holds\n"),
    ("a tag without a value", ["check"],
     [TWO_ROUTERS, ANY_PATH, NO_ROUTER, TAG_OF_NO_VALUE],
     CHECK_FAILS, "fails 9 tags case 1 first 1 second 0 line 0\n"),
    ("the tag of another router", ["check"],
     [TWO_ROUTERS, ANY_PATH, NO_ROUTER, TAG_OF_A],
     CHECK_FAILS, "fails 9 tags case 1 first 1 second 0 line 0\n"),
    ("a number that the configuration has not", ["check"],
     [TWO_ROUTERS, ANY_PATH, TWO_ROUTERS_CONFIG, NUMBER_OF_B],
     CHECK_FAILS, "fails 10 config-differs case 0 first 1 second 0 line 10\n"),
    ("a router too many", ["check"],
     [TWO_ROUTERS, ANY_PATH, A_ROUTER_TOO_MANY, TWO_ROUTERS_EVIDENCE],
     CHECK_FAILS, "fails 10 config-differs case 0 first 0 second 0 line 12\n"),
    ("finer", ["check"], [TRIANGLE, ANY_PATH, FINER_CONFIG, FINER], DONE, "holds\n"),
    ("finer than the configuration", ["check"],
     [TRIANGLE, ANY_PATH, TRIANGLE_CONFIG, FINER],
     CHECK_FAILS, "fails 10 config-differs case 0 first 1 second 0 line 14\n"),
    ("coarser", ["check"],
     [CHAIN, "originate 10.0.1.0/24 at D; 10.0.1.0/24 => any >> through(W);", COARSER_CONFIG, COARSER],
     DONE, "holds\n"),
    ("unranked", ["check"],
     [CHAIN, "originate 10.0.1.0/24 at D; 10.0.1.0/24 => through(W);", NO_ROUTER, UNRANKED],
     CHECK_FAILS, "fails 4 mixed case 1 first 1 second 0 line 0\n"),
    ("one number", ["check"],
     [WAYPOINT_RING, "originate 10.0.1.0/24 at D; 10.0.1.0/24 => through(W) >> any;", NO_ROUTER, ONE_NUMBER],
     CHECK_FAILS, "fails 5 pref-rank case 1 first 1 second 4 line 0\n"),
    ("numbers by rank", ["check"],
     [WAYPOINT_RING, "originate 10.0.1.0/24 at D; 10.0.1.0/24 => through(W) >> any;", NO_ROUTER, NUMBERS_BY_RANK],
     CHECK_FAILS, "fails 7 pref-loop case 1 first 3 second 3 line 0\n"),
]
