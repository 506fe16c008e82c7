"""What `drain`, `settle` and `whatif` say of a third text."""
from runs import ANY_PATH, EXITS, DONE, BAD_INPUT
from runs.networks import DIAMOND, TRIANGLE, TWO_EXITS, TWO_ROUTERS

ROWS = [
    ("nothing has failed: the way round carries nothing", ["drain"],
     [TRIANGLE, ANY_PATH, '{"prefix":"10.0.1.0/24","dead":[],"dead_links":[],"silent":[]}'],
     DONE, """\
prefix 10.0.1.0/24
class 1
free link B C
free router B
free router C
free 3 of 6
"""),
    ("what is dead isn't counted", ["drain"],
     [TRIANGLE, ANY_PATH, '{"prefix":"10.0.1.0/24","dead":["C"],"dead_links":[],"silent":[]}'],
     DONE, """\
prefix 10.0.1.0/24
class 1
free router B
free 1 of 3
"""),
    ("a scenario that names nobody", ["drain"],
     [TRIANGLE, ANY_PATH, '{"prefix":"10.0.1.0/24","dead":["Q"],"dead_links":[],"silent":[]}'],
     BAD_INPUT, "propane: scenario 3 unknown dead\n"),
    ("the opening of two routers", ["settle"], [TWO_ROUTERS, ANY_PATH, '{"prefix":"10.0.1.0/24","events":[]}'], DONE, """\
rounds 1
deliveries 1
prefix 10.0.1.0/24
class 1
router A origin
router B rank 1 path B A
"""),
    ("the opening of a triangle", ["settle"], [TRIANGLE, ANY_PATH, '{"prefix":"10.0.1.0/24","events":[]}'], DONE, """\
rounds 2
deliveries 4
prefix 10.0.1.0/24
class 1
router A origin
router B rank 1 path B A
router C rank 1 path C A
"""),
    ("a peer that fell silent, and an event that can't happen", ["settle"],
     [TWO_EXITS, EXITS, '{"prefix":"198.51.100.0/24","events":[["deliver","R1","R2"],["peer_silent","R1","P1"]]}'],
     DONE, """\
event 1 nothing-waits
rounds 4
deliveries 11
prefix 198.51.100.0/24
class 1
router R1 rank 2 path R1 R2 P2
router R2 rank 2 path R2 P2
"""),
    ("two exits, one of them silent", ["whatif"],
     [TWO_EXITS, EXITS, '{"prefix":"198.51.100.0/24","dead":[],"dead_links":[],"silent":[["R1","P1"]]}'],
     DONE, """\
prefix 198.51.100.0/24
class 1
base router R1 rank 2
base router R2 rank 2
cut link R1 R2 moves 1 shifts 1
router R1 none
cut link R2 P2 moves 2 shifts 2
router R1 none
router R2 none
cut router R1 moves 0 shifts 0
router R1 none
cut router R2 moves 1 shifts 1
router R1 none
router R2 none
cuts 5 changed 4
"""),
    ("a source that is dead already", ["whatif"],
     [TRIANGLE, ANY_PATH, '{"prefix":"10.0.1.0/24","dead":["C"],"dead_links":[],"silent":[]}'],
     DONE, """\
prefix 10.0.1.0/24
class 1
base router B rank 1
base router C none
cut link A B moves 1 shifts 1
router B none
cut router A moves 1 shifts 1
router B none
cut router B moves 0 shifts 0
router B none
cuts 3 changed 3
"""),
    ("a cut that moves a route, and changes no rank", ["whatif"],
     [TRIANGLE, ANY_PATH, '{"prefix":"10.0.1.0/24","dead":[],"dead_links":[],"silent":[]}'],
     DONE, """\
prefix 10.0.1.0/24
class 1
base router B rank 1
base router C rank 1
cut link A B moves 1 shifts 1
cut link A C moves 1 shifts 1
cut router A moves 2 shifts 2
router B none
router C none
cut router B moves 0 shifts 0
router B none
cut router C moves 0 shifts 0
router C none
cuts 6 changed 5
"""),
    ("cuts that move no route, and take a next hop", ["whatif"],
     [DIAMOND, "originate 10.0.1.0/24 at D; true => any;", '{"prefix":"10.0.1.0/24","dead":[],"dead_links":[],"silent":[]}'],
     DONE, """\
prefix 10.0.1.0/24
class 1
base router A rank 1
base router B rank 1
base router C rank 1
base session C P1 rank 1
cut link D A moves 2 shifts 2
cut link D B moves 1 shifts 2
cut link A C moves 1 shifts 1
cut link B C moves 0 shifts 1
cut link C P1 moves 0 shifts 0
session C P1 none
cut router D moves 3 shifts 3
router A none
router B none
router C none
session C P1 none
cut router A moves 1 shifts 1
router A none
cut router B moves 0 shifts 1
router B none
cut router C moves 0 shifts 0
router C none
session C P1 none
cuts 9 changed 9
"""),
]
