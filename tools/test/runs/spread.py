"""What `multipath` says of a scenario: where packets go if routers spread them over routes that tie."""
from runs import ANY_PATH, BAD_INPUT, DONE, EXITS, REFUSED
from runs.networks import DIAMOND, FABRIC, TRIANGLE, TWO_EXITS, TWO_ROUTERS

DIAMOND_POLICY = "originate 10.0.1.0/24 at D; true => any;"

NO_PATH = "originate 10.0.1.0/24 at A; 10.0.1.0/24 => drop from B;"

EITHER_EXIT = "true => exit(P1) or exit(P2);"

# No leaf carries what isn't its own.
NO_VALLEY = "originate 10.0.1.0/24 at L1; 10.0.1.0/24 => notransit(L1, L2, L3, L4);"


def scenario(prefix="10.0.1.0/24", dead="", dead_links="", silent=""):
    """The text of a scenario, with the insides of its arrays."""
    return f'{{"prefix":"{prefix}","dead":[{dead}],"dead_links":[{dead_links}],"silent":[{silent}]}}'


ROWS = [
    ("two routes tie, and a peer is offered the path of one", ["multipath"], [DIAMOND, DIAMOND_POLICY, scenario()], DONE, """\
prefix 10.0.1.0/24
class 1
router D origin
router A rank 1 hops 1 next D
router B rank 1 hops 1 next D
router C rank 1 hops 2 next A B
session C P1 rank 1 hops 3
idle 0 of 5
"""),
    ("nothing comes to C", ["multipath"], [DIAMOND, DIAMOND_POLICY, scenario(dead='"A","B"')], DONE, """\
prefix 10.0.1.0/24
class 1
router D origin
router A dead
router B dead
router C none
session C P1 none
idle link C P1
idle 1 of 1
"""),
    ("what a peer alone announces is sent to it, and to no peer", ["multipath"], [DIAMOND, DIAMOND_POLICY, scenario("192.0.2.0/24")], DONE, """\
prefix 192.0.2.0/24
class 2
router D rank 1 hops 3 next A B
router A rank 1 hops 2 next C
router B rank 1 hops 2 next C
router C rank 1 hops 1 next P1
idle 0 of 5
"""),
    ("a longer path is in no set", ["multipath"], [TRIANGLE, ANY_PATH, scenario()], DONE, """\
prefix 10.0.1.0/24
class 1
router A origin
router B rank 1 hops 1 next A
router C rank 1 hops 1 next A
idle link B C
idle 1 of 3
"""),
    ("a router is dead", ["multipath"], [TRIANGLE, ANY_PATH, scenario(dead='"B"')], DONE, """\
prefix 10.0.1.0/24
class 1
router A origin
router B dead
router C rank 1 hops 1 next A
idle 0 of 1
"""),
    ("the origin is dead", ["multipath"], [TRIANGLE, ANY_PATH, scenario(dead='"A"')], DONE, """\
prefix 10.0.1.0/24
class 1
router A dead
router B none
router C none
idle link B C
idle 1 of 1
"""),
    ("a prefix that is carried nowhere", ["multipath"], [TRIANGLE, ANY_PATH, scenario("192.0.2.0/24")], DONE, """\
prefix 192.0.2.0/24
class none
router A none
router B none
router C none
idle link A B
idle link A C
idle link B C
idle 3 of 3
"""),
    ("a router that nobody claims", ["multipath"],
     [TRIANGLE, "originate 10.0.1.0/24 at A; 10.0.1.0/24 => any from C;", scenario(dead_links='["A","C"]')], DONE, """\
prefix 10.0.1.0/24
class 1
router A origin
router B transit hops 1 next A
router C rank 1 hops 2 next B
idle 0 of 2
"""),
    ("four leaves and two spines", ["multipath"], [FABRIC, NO_VALLEY, scenario()], DONE, """\
prefix 10.0.1.0/24
class 1
router L1 origin
router L2 rank 1 hops 2 next S1 S2
router L3 rank 1 hops 2 next S1 S2
router L4 rank 1 hops 2 next S1 S2
router S1 rank 1 hops 1 next L1
router S2 rank 1 hops 1 next L1
idle 0 of 8
"""),
    ("a link of the origin is cut, and valleys are forbidden", ["multipath"], [FABRIC, NO_VALLEY, scenario(dead_links='["S1","L1"]')], DONE, """\
prefix 10.0.1.0/24
class 1
router L1 origin
router L2 rank 1 hops 2 next S2
router L3 rank 1 hops 2 next S2
router L4 rank 1 hops 2 next S2
router S1 none
router S2 rank 1 hops 1 next L1
idle link L2 S1
idle link L3 S1
idle link L4 S1
idle 3 of 7
"""),
    ("a link of the origin is cut, and any path will do: the spine sends down again", ["multipath"],
     [FABRIC, "originate 10.0.1.0/24 at L1; 10.0.1.0/24 => any;", scenario(dead_links='["S1","L1"]')], DONE, """\
prefix 10.0.1.0/24
class 1
router L1 origin
router L2 rank 1 hops 2 next S2
router L3 rank 1 hops 2 next S2
router L4 rank 1 hops 2 next S2
router S1 rank 1 hops 3 next L2 L3 L4
router S2 rank 1 hops 1 next L1
idle 0 of 7
"""),
    ("one spine is preferred", ["multipath"],
     [FABRIC, "originate 10.0.1.0/24 at L1; 10.0.1.0/24 => notransit(L1, L2, L3, L4) and (through(S1) >> any);", scenario()], DONE, """\
prefix 10.0.1.0/24
class 1
router L1 origin
router L2 rank 1 hops 2 next S1
router L3 rank 1 hops 2 next S1
router L4 rank 1 hops 2 next S1
router S1 rank 1 hops 1 next L1
router S2 rank 2 hops 1 next L1
idle link L2 S2
idle link L3 S2
idle link L4 S2
idle 3 of 8
"""),
    ("two exits of one rank", ["multipath"], [TWO_EXITS, EITHER_EXIT, scenario("198.51.100.0/24")], DONE, """\
prefix 198.51.100.0/24
class 1
router R1 rank 1 hops 1 next P1
router R2 rank 1 hops 1 next P2
idle link R1 R2
idle 1 of 3
"""),
    ("one of them is silent", ["multipath"], [TWO_EXITS, EITHER_EXIT, scenario("198.51.100.0/24", silent='["R1","P1"]')], DONE, """\
prefix 198.51.100.0/24
class 1
router R1 rank 1 hops 2 next R2
router R2 rank 1 hops 1 next P2
idle link R1 P1
idle 1 of 3
"""),
    ("two exits of two ranks", ["multipath"], [TWO_EXITS, EXITS, scenario("198.51.100.0/24")], DONE, """\
prefix 198.51.100.0/24
class 1
router R1 rank 1 hops 1 next P1
router R2 rank 1 hops 2 next R1
idle link R2 P2
idle 1 of 3
"""),
    ("a scenario that names nobody", ["multipath"], [TRIANGLE, ANY_PATH, scenario(dead='"Q"')],
     BAD_INPUT, "propane: scenario 3 unknown dead\n"),
    ("a policy that is refused", ["multipath"], [TWO_ROUTERS, NO_PATH, scenario()],
     REFUSED, "propane: refused 4 source-without-path case 1 router B\n"),
    ("its scenario is judged first", ["multipath"], [TWO_ROUTERS, NO_PATH, "{}"], BAD_INPUT, "propane: scenario 2 shape top\n"),
]
