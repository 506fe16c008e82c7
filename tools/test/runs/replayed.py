"""Scenarios of failures, and what `replay` says of them."""
from runs import ANY_PATH, ENTER, EXITS, DONE, REFUSED, BAD_INPUT
from runs.networks import RING, RING_TURNED, TRIANGLE, TWO_EXITS, TWO_ROUTERS, TWO_SPINES, TWO_WAYS

ANY_PATH_TO_D = "originate 10.0.1.0/24 at D; 10.0.1.0/24 => any;"

A_PATH_AND_ITS_FALLBACK = "originate 10.0.1.0/24 at D; 10.0.1.0/24 => path(A, B, C, D) >> path(A, E, D) from A;"

ROWS = [
    ("a dead link, and a way around it", ["replay"],
     [TRIANGLE, ANY_PATH, '{"prefix":"10.0.1.0/24","dead":[],"dead_links":[["A","C"]],"silent":[]}'],
     DONE, """\
prefix 10.0.1.0/24
class 1
router A origin
router B rank 1 path B A
router C rank 1 path C B A
"""),
    ("a silent session, and the second exit", ["replay"],
     [TWO_EXITS, EXITS, '{"prefix":"198.51.100.0/24","dead":[],"dead_links":[],"silent":[["R1","P1"]]}'],
     DONE, """\
prefix 198.51.100.0/24
class 1
router R1 rank 2 path R1 R2 P2
router R2 rank 2 path R2 P2
"""),
    ("a detour that is ranked second", ["replay"],
     [RING, "originate 10.0.1.0/24 at D; 10.0.1.0/24 => avoid(X) >> any;", '{"prefix":"10.0.1.0/24","dead":[],"dead_links":[["D","B"]],"silent":[]}'],
     DONE, """\
prefix 10.0.1.0/24
class 1
router D origin
router B rank 2 path B X C D
router X rank 2 path X C D
router C rank 1 path C D
"""),
    ("a fallback, and a router without a route", ["replay"],
     [TWO_WAYS, A_PATH_AND_ITS_FALLBACK, '{"prefix":"10.0.1.0/24","dead":[],"dead_links":[["B","C"]],"silent":[]}'],
     DONE, """\
prefix 10.0.1.0/24
class 1
router A rank 2 path A E D
router B none
router C transit path C D
router D origin
router E transit path E D
"""),
    ("a prefix that no statement governs", ["replay"],
     [TWO_ROUTERS, "originate 10.0.1.0/24 at A; originate 10.0.9.0/24 at A; 10.0.1.0/24 => any;", '{"prefix":"10.0.9.0/24","dead":[],"dead_links":[],"silent":[]}'],
     DONE, """\
prefix 10.0.9.0/24
class none
router A origin
router B none
"""),
    ("a dead spine", ["replay"],
     [TWO_SPINES, "originate 10.0.1.0/24 at T1; 10.0.1.0/24 => through(S1, S2) and notransit(T1, T3, T4) from T3, T4;", '{"prefix":"10.0.1.0/24","dead":["S1"],"dead_links":[],"silent":[]}'],
     DONE, """\
prefix 10.0.1.0/24
class 1
router T1 origin
router A1 transit path A1 T1
router S1 dead
router S2 transit path S2 A1 T1
router A2 transit path A2 S2 A1 T1
router T3 rank 1 path T3 A2 S2 A1 T1
router T4 rank 1 path T4 A2 S2 A1 T1
"""),
    ("a session that is offered a path", ["replay"],
     [TWO_EXITS, ENTER, '{"prefix":"10.0.1.0/24","dead":[],"dead_links":[],"silent":[]}'],
     DONE, """\
prefix 10.0.1.0/24
class 1
router R1 transit path R1 R2
router R2 origin
session R1 P1 rank 1 path P1 R1 R2
"""),
    ("a dead link that is named three times, twice turned", ["replay"],
     [TRIANGLE, ANY_PATH, '{"prefix":"10.0.1.0/24","dead":[],"dead_links":[["C","A"],["A","C"],["C","A"]],"silent":[]}'],
     DONE, """\
prefix 10.0.1.0/24
class 1
router A origin
router B rank 1 path B A
router C rank 1 path C B A
"""),
    ("a dead origin", ["replay"], [TRIANGLE, ANY_PATH, '{"prefix":"10.0.1.0/24","dead":["A"],"dead_links":[],"silent":[]}'], DONE, """\
prefix 10.0.1.0/24
class 1
router A dead
router B none
router C none
"""),
    ("a dead peer", ["replay"], [TWO_EXITS, EXITS, '{"prefix":"198.51.100.0/24","dead":["P1"],"dead_links":[],"silent":[]}'], DONE, """\
prefix 198.51.100.0/24
class 1
router R1 rank 2 path R1 R2 P2
router R2 rank 2 path R2 P2
"""),
    ("a silent session with its peer first", ["replay"],
     [TWO_EXITS, EXITS, '{"prefix":"198.51.100.0/24","dead":[],"dead_links":[],"silent":[["P1","R1"]]}'],
     DONE, """\
prefix 198.51.100.0/24
class 1
router R1 rank 2 path R1 R2 P2
router R2 rank 2 path R2 P2
"""),
    ("two ways that tie", ["replay"], [RING, ANY_PATH_TO_D, '{"prefix":"10.0.1.0/24","dead":[],"dead_links":[],"silent":[]}'], DONE, """\
prefix 10.0.1.0/24
class 1
router D origin
router B rank 1 path B D
router X rank 1 path X B D
router C rank 1 path C D
"""),
    ("two ways that tie, where the other neighbour has the lower identifier", ["replay"],
     [RING_TURNED, ANY_PATH_TO_D, '{"prefix":"10.0.1.0/24","dead":[],"dead_links":[],"silent":[]}'],
     DONE, """\
prefix 10.0.1.0/24
class 1
router D origin
router B rank 1 path B D
router X rank 1 path X C D
router C rank 1 path C D
"""),
    ("a policy that is refused", ["replay"],
     [TWO_ROUTERS, "originate 10.0.1.0/24 at A; 10.0.1.0/24 => drop from B;", '{"prefix":"10.0.1.0/24","dead":[],"dead_links":[],"silent":[]}'],
     REFUSED, "propane: refused 4 source-without-path case 1 router B\n"),
    ("a name that isn't in the network", ["replay"],
     [TRIANGLE, ANY_PATH, '{"prefix":"10.0.1.0/24","dead":[],"dead_links":[["A","Q"]],"silent":[]}'],
     BAD_INPUT, "propane: scenario 3 unknown dead_links\n"),
    ("a pair that is no link", ["replay"],
     [TWO_WAYS, A_PATH_AND_ITS_FALLBACK, '{"prefix":"10.0.1.0/24","dead":[],"dead_links":[["A","D"]],"silent":[]}'],
     BAD_INPUT, "propane: scenario 4 no-link place 1\n"),
    ("a silent session of two routers", ["replay"],
     [TWO_EXITS, EXITS, '{"prefix":"10.0.1.0/24","dead":[],"dead_links":[],"silent":[["R1","R2"]]}'],
     BAD_INPUT, "propane: scenario 5 not-peer-link place 1\n"),
    ("the shorter of two routes with one preference", ["replay"],
     [TRIANGLE, ANY_PATH, '{"prefix":"10.0.1.0/24","dead":[],"dead_links":[],"silent":[]}'],
     DONE, """\
prefix 10.0.1.0/24
class 1
router A origin
router B rank 1 path B A
router C rank 1 path C A
"""),
    ("a path that is asked for", ["replay"],
     [TWO_WAYS, A_PATH_AND_ITS_FALLBACK, '{"prefix":"10.0.1.0/24","dead":[],"dead_links":[],"silent":[]}'],
     DONE, """\
prefix 10.0.1.0/24
class 1
router A rank 1 path A B C D
router B transit path B C D
router C transit path C D
router D origin
router E transit path E D
"""),
]
