"""Evidence for prefixes that peers announce, and for one that a peer hears, and what `check` says of it."""
from runs import EXITS, DONE, CHECK_FAILS
from runs.networks import EXCHANGED_EVIDENCE, RING_WITH_A_PEER, TWO_EXITS, TWO_EXITS_CONFIG, TWO_EXITS_EVIDENCE

# The configuration of no router. Only the last rule asks for another one.
NO_ROUTER = "propane-config 2\n"

NUMBERS_OF_PEERS = """\
{"cases":[{"external":true,"nodes":[[2,0,0,7,0,0],[3,0,0,4294967295,0,0],
[0,0,1,101,64512,1],[1,0,2,100,64513,1],[1,0,1,101,64513,2],[0,0,2,100,64512,2]],"origins":[2,3],"prefixes":[],
"starts":[0,1],"statement":1,"steps":[[0,2],[1,3],[2,4],[3,5],[4,2],[5,3]]}],"version":1}"""

NO_CASES = '{"cases":[],"version":1}'

A_CASE_TOO_MANY = """\
{"cases":[{"external":true,"nodes":[[2,0,0,0,0,0],[3,0,0,0,0,0],
[0,0,1,101,64512,1],[1,0,2,100,64513,1],[1,0,1,101,64513,2],[0,0,2,100,64512,2]],"origins":[2,3],"prefixes":[],
"starts":[0,1],"statement":1,"steps":[[0,2],[1,3],[2,4],[3,5],[4,2],[5,3]]},
{"external":true,"nodes":[],"origins":[2,3],"prefixes":[],"starts":[],"statement":1,"steps":[]}],"version":1}"""

# Without the step from R1 to R2 over which the second exit is used.
STEP_LEFT_OUT = """\
{"cases":[{"external":true,"nodes":[[2,0,0,0,0,0],[3,0,0,0,0,0],
[0,0,1,101,64512,1],[1,0,2,100,64513,1],[1,0,1,101,64513,2],[0,0,2,100,64512,2]],"origins":[2,3],"prefixes":[],
"starts":[0,1],"statement":1,"steps":[[0,2],[1,3],[2,4],[3,5],[4,2]]}],"version":1}"""

# The second exit has the first rank too.
RANKS_ALIKE = """\
{"cases":[{"external":true,"nodes":[[2,0,0,0,0,0],[3,0,0,0,0,0],
[0,0,1,101,64512,1],[1,0,1,100,64513,1],[1,0,1,101,64513,2],[0,0,1,100,64512,2]],"origins":[2,3],"prefixes":[],
"starts":[0,1],"statement":1,"steps":[[0,2],[1,3],[2,4],[3,5],[4,2],[5,3]]}],"version":1}"""

# The peer P2 begins twice.
START_TWICE = """\
{"cases":[{"external":true,"nodes":[[2,0,0,0,0,0],[3,0,0,0,0,0],
[0,0,1,101,64512,1],[1,0,2,100,64513,1],[1,0,1,101,64513,2],[0,0,2,100,64512,2]],"origins":[2,3],"prefixes":[],
"starts":[0,1,1],"statement":1,"steps":[[0,2],[1,3],[2,4],[3,5],[4,2],[5,3]]}],"version":1}"""

STEP_TWICE = """\
{"cases":[{"external":true,"nodes":[[2,0,0,0,0,0],[3,0,0,0,0,0],
[0,0,1,101,64512,1],[1,0,2,100,64513,1],[1,0,1,101,64513,2],[0,0,2,100,64512,2]],"origins":[2,3],"prefixes":[],
"starts":[0,1],"statement":1,"steps":[[0,2],[0,2],[1,3],[2,4],[3,5],[4,2],[5,3]]}],"version":1}"""

# R2 counts as a peer that hears.
ROUTER_THAT_HEARS = """\
{"cases":[{"external":true,"nodes":[[2,0,0,0,0,0],[3,0,0,0,0,0],
[0,0,1,101,64512,1],[1,0,2,100,64513,1],[1,1,1,101,64513,2],[0,0,2,100,64512,2]],"origins":[2,3],"prefixes":[],
"starts":[0,1],"statement":1,"steps":[[0,2],[1,3],[2,4],[3,5],[4,2],[5,3]]}],"version":1}"""

# No step leads to the last node.
UNREACHED = """\
{"cases":[{"external":true,"nodes":[[2,0,0,0,0,0],[3,0,0,0,0,0],
[0,0,1,101,64512,1],[1,0,2,100,64513,1],[1,0,1,101,64513,2],[0,0,2,100,64512,2],[1,0,1,101,64513,3]],"origins":[2,3],
"prefixes":[],"starts":[0,1],"statement":1,"steps":[[0,2],[1,3],[2,4],[3,5],[4,2],[5,3]]}],"version":1}"""

RANK_AT_AN_ORIGIN = """\
{"cases":[{"external":true,"nodes":[[2,0,0,0,0,0],[3,0,2,0,0,0],
[0,0,1,101,64512,1],[1,0,2,100,64513,1],[1,0,1,101,64513,2],[0,0,2,100,64512,2]],"origins":[2,3],"prefixes":[],
"starts":[0,1],"statement":1,"steps":[[0,2],[1,3],[2,4],[3,5],[4,2],[5,3]]}],"version":1}"""

# One node of R1 stands for both exits.
JOINED_ACROSS_RANKS = """\
{"cases":[{"external":true,"nodes":[[2,0,0,0,0,0],[3,0,0,0,0,0],
[0,0,1,101,64512,1],[1,0,2,100,64513,1],[1,0,1,101,64513,2]],"origins":[2,3],"prefixes":[],
"starts":[0,1],"statement":1,"steps":[[0,2],[1,3],[2,4],[3,2],[4,2]]}],"version":1}"""

TAG_TWICE = """\
{"cases":[{"external":true,"nodes":[[2,0,0,0,0,0],[3,0,0,0,0,0],
[0,0,1,101,64512,1],[1,0,2,100,64513,1],[1,0,1,101,64513,1],[0,0,2,100,64512,2]],"origins":[2,3],"prefixes":[],
"starts":[0,1],"statement":1,"steps":[[0,2],[1,3],[2,4],[3,5],[4,2],[5,3]]}],"version":1}"""

TAG_AT_A_PEER = """\
{"cases":[{"external":true,"nodes":[[2,0,0,0,0,0],[3,0,0,0,1002,1],
[0,0,1,101,64512,1],[1,0,2,100,64513,1],[1,0,1,101,64513,2],[0,0,2,100,64512,2]],"origins":[2,3],"prefixes":[],
"starts":[0,1],"statement":1,"steps":[[0,2],[1,3],[2,4],[3,5],[4,2],[5,3]]}],"version":1}"""

# R2, which is no source, stands by the second exit where R1 stands by the first one.
EXCHANGED_BEHIND = """\
{"cases":[{"external":true,"nodes":[[2,0,0,0,0,0],[3,0,0,0,0,0],
[0,0,1,101,64512,1],[1,0,0,101,64513,1],[1,0,0,100,64513,2],[0,0,2,100,64512,2]],"origins":[2,3],"prefixes":[],
"starts":[0,1],"statement":1,"steps":[[0,2],[1,3],[2,4],[3,5],[4,2],[5,3]]}],"version":1}"""

# P hears two nodes of D, that over X with the second rank, and both have one number.
HEARD_ALIKE = """\
{"cases":[{"external":false,"nodes":[[2,0,0,100,64514,1],[1,0,0,100,64513,1],
[3,0,0,100,64515,1],[0,0,0,100,64512,1],[0,0,0,100,64512,2],[3,0,0,100,64515,2],[4,1,2,0,0,0],[4,1,1,0,0,0]],
"origins":[2],"prefixes":["10.0.1.0/24"],"starts":[0],"statement":1,
"steps":[[0,1],[0,2],[1,3],[2,4],[3,1],[3,5],[3,6],[4,1],[4,2],[4,7],[5,3]]}],"version":1}"""

ROWS = [
    ("as compiled", ["check"], [TWO_EXITS, EXITS, TWO_EXITS_CONFIG, TWO_EXITS_EVIDENCE], DONE, "holds\n"),
    ("numbers of peers", ["check"], [TWO_EXITS, EXITS, TWO_EXITS_CONFIG, NUMBERS_OF_PEERS], DONE, "holds\n"),
    ("no cases", ["check"], [TWO_EXITS, EXITS, NO_ROUTER, NO_CASES], CHECK_FAILS, "fails 1 cases case 1 first 0 second 0 line 0\n"),
    ("a case too many", ["check"],
     [TWO_EXITS, EXITS, NO_ROUTER, A_CASE_TOO_MANY],
     CHECK_FAILS, "fails 1 cases case 2 first 0 second 0 line 0\n"),
    ("a step left out", ["check"],
     [TWO_EXITS, EXITS, NO_ROUTER, STEP_LEFT_OUT],
     CHECK_FAILS, "fails 2 walks case 1 first 0 second 0 line 0\n"),
    ("a start twice", ["check"], [TWO_EXITS, EXITS, NO_ROUTER, START_TWICE], CHECK_FAILS, "fails 2 walks case 1 first 0 second 0 line 0\n"),
    ("a step twice", ["check"], [TWO_EXITS, EXITS, NO_ROUTER, STEP_TWICE], CHECK_FAILS, "fails 2 walks case 1 first 0 second 0 line 0\n"),
    ("a router that hears", ["check"],
     [TWO_EXITS, EXITS, NO_ROUTER, ROUTER_THAT_HEARS],
     CHECK_FAILS, "fails 2 walks case 1 first 0 second 0 line 0\n"),
    ("a node that nothing reaches", ["check"],
     [TWO_EXITS, EXITS, NO_ROUTER, UNREACHED],
     CHECK_FAILS, "fails 2 walks case 1 first 0 second 0 line 0\n"),
    ("a rank at an origin", ["check"],
     [TWO_EXITS, EXITS, NO_ROUTER, RANK_AT_AN_ORIGIN],
     CHECK_FAILS, "fails 3 ranks case 1 first 1 second 0 line 0\n"),
    ("joined across ranks", ["check"],
     [TWO_EXITS, EXITS, NO_ROUTER, JOINED_ACROSS_RANKS],
     CHECK_FAILS, "fails 3 ranks case 1 first 2 second 0 line 0\n"),
    ("ranks alike", ["check"], [TWO_EXITS, EXITS, NO_ROUTER, RANKS_ALIKE], CHECK_FAILS, "fails 3 ranks case 1 first 3 second 0 line 0\n"),
    ("numbers exchanged", ["check"],
     [TWO_EXITS, EXITS, NO_ROUTER, EXCHANGED_EVIDENCE],
     CHECK_FAILS, "fails 5 pref-rank case 1 first 5 second 2 line 0\n"),
    ("a tag twice", ["check"], [TWO_EXITS, EXITS, NO_ROUTER, TAG_TWICE], CHECK_FAILS, "fails 9 tags case 1 first 4 second 0 line 0\n"),
    ("a tag at a peer", ["check"],
     [TWO_EXITS, EXITS, NO_ROUTER, TAG_AT_A_PEER],
     CHECK_FAILS, "fails 9 tags case 1 first 1 second 0 line 0\n"),
    ("no configuration", ["check"],
     [TWO_EXITS, EXITS, NO_ROUTER, TWO_EXITS_EVIDENCE],
     CHECK_FAILS, "fails 10 config-differs case 0 first 0 second 0 line 2\n"),
    ("numbers exchanged behind a source", ["check"],
     [TWO_EXITS, "true => exit(P1 >> P2) from R1;", NO_ROUTER, EXCHANGED_BEHIND],
     CHECK_FAILS, "fails 6 pref-step case 1 first 2 second 5 line 0\n"),
    ("heard alike", ["check"],
     [RING_WITH_A_PEER, "originate 10.0.1.0/24 at W; 10.0.1.0/24 => avoid(X) >> any from P;", NO_ROUTER, HEARD_ALIKE],
     CHECK_FAILS, "fails 8 pref-listener case 1 first 3 second 4 line 0\n"),
]
