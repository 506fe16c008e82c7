"""Recorded tables, and what `audit` says of them."""
from runs import ANY_PATH, EXITS, DONE, BAD_INPUT, CHECK_FAILS
from runs.networks import (
    TRIANGLE, TRIANGLE_CONFIG, TRIANGLE_EVIDENCE, TWO_EXITS, TWO_EXITS_CONFIG, TWO_EXITS_EVIDENCE, TWO_ROUTERS, TWO_ROUTERS_CONFIG,
)

CUT_LINK = '{"prefix":"10.0.1.0/24","dead":[],"dead_links":[["A","C"]],"silent":[]}'

# No failure, for a prefix at A.
NOTHING_FAILS = '{"prefix":"10.0.1.0/24","dead":[],"dead_links":[],"silent":[]}'

OVER_THE_SECOND_EXIT = '{"routes":[{"path":["R1","R2","P2"],"pref":100,"tag":[64512,2]},{"path":["R2","P2"],"pref":100,"tag":[64513,1]}]}'

OVER_B = ('{"routes":[{"path":["A"],"pref":0,"tag":[64512,1]},{"path":["B","A"],"pref":100,"tag":[64513,1]},{"path":["C","B",'
           '"A"],"pref":100,"tag":[64514,1]}]}')

STABLE_OVER_B = """\
stable
prefix 10.0.1.0/24
class 1
router A origin
router B rank 1 path B A
router C rank 1 path C B A
"""

ROWS = [
    ("a way around a dead link", ["audit"],
     [TRIANGLE, ANY_PATH, TRIANGLE_CONFIG, TRIANGLE_EVIDENCE, CUT_LINK, OVER_B],
     DONE, STABLE_OVER_B),
    ("a tie, where C takes the longer of two routes with one preference", ["audit"],
     [TRIANGLE, ANY_PATH, TRIANGLE_CONFIG, TRIANGLE_EVIDENCE, NOTHING_FAILS, OVER_B],
     DONE, STABLE_OVER_B),
    ("the second exit, where the first is silent", ["audit"],
     [TWO_EXITS, EXITS, TWO_EXITS_CONFIG, TWO_EXITS_EVIDENCE, '{"prefix":"198.51.100.0/24","dead":[],"dead_links":[],"silent":[["R1","P1"]]}', OVER_THE_SECOND_EXIT],
     DONE, """\
stable
prefix 198.51.100.0/24
class 1
router R1 rank 2 path R1 R2 P2
router R2 rank 2 path R2 P2
"""),
    ("the second exit, where the first can be had", ["audit"],
     [TWO_EXITS, EXITS, TWO_EXITS_CONFIG, TWO_EXITS_EVIDENCE, '{"prefix":"198.51.100.0/24","dead":[],"dead_links":[],"silent":[]}', OVER_THE_SECOND_EXIT],
     CHECK_FAILS, "unstable router R1 better P1 pref 101\n"),
    ("a prefix of no class, of which nobody has a route", ["audit"],
     [TRIANGLE, ANY_PATH, TRIANGLE_CONFIG, TRIANGLE_EVIDENCE, '{"prefix":"10.9.0.0/16","dead":[],"dead_links":[],"silent":[]}', '{"routes":[null,null,null]}'],
     DONE, """\
stable
prefix 10.9.0.0/16
class none
router A none
router B none
router C none
"""),
    ("no route, where two neighbours give one", ["audit"],
     [TRIANGLE, ANY_PATH, TRIANGLE_CONFIG, TRIANGLE_EVIDENCE, NOTHING_FAILS, '{"routes":[{"path":["A"],"pref":0,"tag":[64512,1]},{"path":["B","A"],"pref":100,"tag":[64513,1]},null]}'],
     CHECK_FAILS, "unstable router C missing A\n"),
    ("no route, where the neighbour over the live link gives one", ["audit"],
     [TRIANGLE, ANY_PATH, TRIANGLE_CONFIG, TRIANGLE_EVIDENCE, CUT_LINK, '{"routes":[{"path":["A"],"pref":0,"tag":[64512,1]},{"path":["B","A"],"pref":100,"tag":[64513,1]},null]}'],
     CHECK_FAILS, "unstable router C missing B\n"),
    ("a route over a dead link", ["audit"],
     [TRIANGLE, ANY_PATH, TRIANGLE_CONFIG, TRIANGLE_EVIDENCE, CUT_LINK, ('{"routes":[{"path":["A"],"pref":0,"tag":[64512,1]},{"path":["B","A"],"pref":100,"tag":[64513,1]},{"path":["C","A"],'
       '"pref":100,"tag":[64514,1]}]}')],
     CHECK_FAILS, "unstable router C not-given\n"),
    ("another preference at B, and a dead router with a route", ["audit"],
     [TRIANGLE, ANY_PATH, TRIANGLE_CONFIG, TRIANGLE_EVIDENCE,
      '{"prefix":"10.0.1.0/24","dead":["C"],"dead_links":[],"silent":[]}',
      ('{"routes":[{"path":["A"],"pref":0,"tag":[64512,1]},{"path":["B","A"],"pref":99,"tag":[64513,1]},{"path":["C","B",'
       '"A"],"pref":100,"tag":[64514,1]}]}')],
     CHECK_FAILS, "unstable router B not-given\n"),
    ("a dead router with a route", ["audit"],
     [TRIANGLE, ANY_PATH, TRIANGLE_CONFIG, TRIANGLE_EVIDENCE, '{"prefix":"10.0.1.0/24","dead":["B"],"dead_links":[],"silent":[]}', OVER_B],
     CHECK_FAILS, "unstable router B dead\n"),
    ("an origin without its tag", ["audit"],
     [TRIANGLE, ANY_PATH, TRIANGLE_CONFIG, TRIANGLE_EVIDENCE, CUT_LINK, '{"routes":[{"path":["A"],"pref":0,"tag":[0,0]},{"path":["B","A"],"pref":100,"tag":[64513,1]},null]}'],
     CHECK_FAILS, "unstable router A own\n"),
    ("an entry that is no route, and too many entries", ["audit"],
     [TRIANGLE, ANY_PATH, TRIANGLE_CONFIG, TRIANGLE_EVIDENCE, CUT_LINK, '{"routes":[null,5,null,null]}'],
     BAD_INPUT, "propane: tables 2 shape place 2\n"),
    ("an entry too few", ["audit"],
     [TRIANGLE, ANY_PATH, TRIANGLE_CONFIG, TRIANGLE_EVIDENCE, CUT_LINK, '{"routes":[null,null]}'],
     BAD_INPUT, "propane: tables 3 count 2\n"),
    ("a name that isn't in the network", ["audit"],
     [TRIANGLE, ANY_PATH, TRIANGLE_CONFIG, TRIANGLE_EVIDENCE, CUT_LINK, '{"routes":[null,null,{"path":["C","D"],"pref":100,"tag":[0,0]}]}'],
     BAD_INPUT, "propane: tables 4 unknown place 3\n"),
    ("the route of another router", ["audit"],
     [TRIANGLE, ANY_PATH, TRIANGLE_CONFIG, TRIANGLE_EVIDENCE, CUT_LINK, '{"routes":[null,{"path":["A"],"pref":100,"tag":[0,0]},null]}'],
     BAD_INPUT, "propane: tables 5 holder place 2\n"),
    ("a scenario with a fault, and tables with one", ["audit"],
     [TRIANGLE, ANY_PATH, TRIANGLE_CONFIG, TRIANGLE_EVIDENCE, "{}", "{}"],
     BAD_INPUT, "propane: scenario 2 shape top\n"),
    ("evidence is judged first", ["audit"],
     [TWO_ROUTERS, ANY_PATH, TWO_ROUTERS_CONFIG, '{"cases":[],"version":1}', NOTHING_FAILS, '{"routes":[null,null]}'],
     CHECK_FAILS, "fails 1 cases case 1 first 0 second 0 line 0\n"),
]
