"""Evidence for two cases, and what `check` says of it: which rule is told first, and of which case."""
from runs import DONE, CHECK_FAILS
from runs.networks import TWO_ROUTERS

# The configuration of no router. Only the last rule asks for another one.
NO_ROUTER = "propane-config 2\n"

CONFIG = """\
propane-config 2
class 1 10.0.1.0/24
class 2 10.0.2.0/24
router A asn 64512 id 10.255.0.1
originate 1 10.0.1.0/24 tag 64512:0:1
session B asn 64513
import 2 tag 64513:0:2 set 64512:0:2 pref 100
export 1 tag 64512:0:1
end
router B asn 64513 id 10.255.0.2
originate 2 10.0.2.0/24 tag 64513:0:2
session A asn 64512
import 1 tag 64512:0:1 set 64513:0:1 pref 100
export 2 tag 64513:0:2
end
"""

EVIDENCE = """\
{"cases":[{"external":false,"nodes":[[0,0,0,100,64512,1],[1,0,1,100,64513,1]],"origins":[0],"prefixes":["10.0.1.0/24"],
"starts":[0],"statement":1,"steps":[[0,1]]},
{"external":false,"nodes":[[1,0,0,100,64513,2],[0,0,1,100,64512,2]],"origins":[1],"prefixes":["10.0.2.0/24"],
"starts":[0],"statement":1,"steps":[[0,1]]}],"version":1}"""

# The second rank in the first case, no step in the second one.
RANK_THEN_STEP = """\
{"cases":[{"external":false,"nodes":[[0,0,0,100,64512,1],[1,0,2,100,64513,1]],"origins":[0],"prefixes":["10.0.1.0/24"],
"starts":[0],"statement":1,"steps":[[0,1]]},
{"external":false,"nodes":[[1,0,0,100,64513,2],[0,0,1,100,64512,2]],"origins":[1],"prefixes":["10.0.2.0/24"],
"starts":[0],"statement":1,"steps":[]}],"version":1}"""

RANKS_OF_BOTH = """\
{"cases":[{"external":false,"nodes":[[0,0,0,100,64512,1],[1,0,2,100,64513,1]],"origins":[0],"prefixes":["10.0.1.0/24"],
"starts":[0],"statement":1,"steps":[[0,1]]},
{"external":false,"nodes":[[1,0,0,100,64513,2],[0,0,2,100,64512,2]],"origins":[1],"prefixes":["10.0.2.0/24"],
"starts":[0],"statement":1,"steps":[[0,1]]}],"version":1}"""

RANK_OF_THE_SECOND = """\
{"cases":[{"external":false,"nodes":[[0,0,0,100,64512,1],[1,0,1,100,64513,1]],"origins":[0],"prefixes":["10.0.1.0/24"],
"starts":[0],"statement":1,"steps":[[0,1]]},
{"external":false,"nodes":[[1,0,0,100,64513,2],[0,0,2,100,64512,2]],"origins":[1],"prefixes":["10.0.2.0/24"],
"starts":[0],"statement":1,"steps":[[0,1]]}],"version":1}"""

TAG_OF_THE_FIRST = """\
{"cases":[{"external":false,"nodes":[[0,0,0,100,64512,1],[1,0,1,100,64513,1]],"origins":[0],"prefixes":["10.0.1.0/24"],
"starts":[0],"statement":1,"steps":[[0,1]]},
{"external":false,"nodes":[[1,0,0,100,64513,2],[0,0,1,100,64512,1]],"origins":[1],"prefixes":["10.0.2.0/24"],
"starts":[0],"statement":1,"steps":[[0,1]]}],"version":1}"""

EXCHANGED = """\
{"cases":[{"external":false,"nodes":[[1,0,0,100,64513,2],[0,0,1,100,64512,2]],"origins":[1],"prefixes":["10.0.2.0/24"],
"starts":[0],"statement":1,"steps":[[0,1]]},
{"external":false,"nodes":[[0,0,0,100,64512,1],[1,0,1,100,64513,1]],"origins":[0],"prefixes":["10.0.1.0/24"],
"starts":[0],"statement":1,"steps":[[0,1]]}],"version":1}"""

ROWS = [
    ("as compiled", ["check"],
     [TWO_ROUTERS, "originate 10.0.1.0/24 at A; originate 10.0.2.0/24 at B; true => any;", CONFIG, EVIDENCE],
     DONE, "holds\n"),
    ("an earlier rule in a later case", ["check"],
     [TWO_ROUTERS, "originate 10.0.1.0/24 at A; originate 10.0.2.0/24 at B; true => any;", NO_ROUTER, RANK_THEN_STEP],
     CHECK_FAILS, "fails 2 walks case 2 first 0 second 0 line 0\n"),
    ("one rule in both cases", ["check"],
     [TWO_ROUTERS, "originate 10.0.1.0/24 at A; originate 10.0.2.0/24 at B; true => any;", NO_ROUTER, RANKS_OF_BOTH],
     CHECK_FAILS, "fails 3 ranks case 1 first 1 second 0 line 0\n"),
    ("one rule in the second case", ["check"],
     [TWO_ROUTERS, "originate 10.0.1.0/24 at A; originate 10.0.2.0/24 at B; true => any;", NO_ROUTER, RANK_OF_THE_SECOND],
     CHECK_FAILS, "fails 3 ranks case 2 first 1 second 0 line 0\n"),
    ("a tag of an earlier case", ["check"],
     [TWO_ROUTERS, "originate 10.0.1.0/24 at A; originate 10.0.2.0/24 at B; true => any;", NO_ROUTER, TAG_OF_THE_FIRST],
     CHECK_FAILS, "fails 9 tags case 2 first 1 second 0 line 0\n"),
    ("cases exchanged", ["check"],
     [TWO_ROUTERS, "originate 10.0.1.0/24 at A; originate 10.0.2.0/24 at B; true => any;", NO_ROUTER, EXCHANGED],
     CHECK_FAILS, "fails 1 cases case 1 first 0 second 0 line 0\n"),
]
