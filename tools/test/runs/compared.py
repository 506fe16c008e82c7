"""Policies that are compared: what a new one changes beside an old one, and which fault or limit comes first. examples/compare has more."""
from runs import BAD_INPUT, DONE, EXITS, REFUSED
from runs.networks import TRIANGLE, TWO_EXITS, TWO_ROUTERS

EACH_ITS_OWN = "originate 10.0.1.0/24 at A; originate 10.0.2.0/24 at B; originate 10.0.3.0/24 at C; "
NINE = "A >> B >> A >> B >> A >> B >> A >> B >> A"
RANKED = f"originate 10.0.1.0/24 at A; 10.0.1.0/24 => end({NINE}) and end({NINE});"  # 81 alternatives

ROWS = [
    ("nothing is said in either", ["compare"], [TWO_EXITS, "", ""], DONE, "cases 0 changed 0\n"),
    ("alternatives that nothing meets, and one twice", ["compare"],
     [TWO_EXITS, EXITS, "true => drop >> exit(P1) >> exit(P1) >> exit(P2);"],
     DONE, "cases 1 changed 0\n"),
    ("no statement, and one that drops", ["compare"], [TWO_EXITS, "", "true => drop;"], DONE, "cases 1 changed 0\n"),
    ("what was better is as good", ["compare"], [TWO_EXITS, EXITS, "true => exit(P1, P2);"],
     DONE, """\
change statement 1 now 1
prefix 0.0.0.0/0 le 32
origins peers
differs reordered
all routers
rank 1 now 1 path R1 P1
rank 2 now 1 path R1 R2 P2
cases 1 changed 1
"""),
    ("one of three prefixes", ["compare"], [TRIANGLE, EACH_ITS_OWN + "true => any;", EACH_ITS_OWN + "true => not (end(B) and link(A, B));"],
     DONE, """\
change statement 1 now 1
prefix 10.0.1.0/24 to 10.0.3.0/24
origins all routers
differs lost
only 10.0.2.0/24
all routers
rank 1 now none path A B
cases 3 changed 1
"""),
    ("all prefixes but one of three", ["compare"], [TRIANGLE, EACH_ITS_OWN + "true => any;", EACH_ITS_OWN + "true => end(B) or path(any, any);"],
     DONE, """\
change statement 1 now 1
prefix 10.0.1.0/24 to 10.0.3.0/24
origins all routers
differs lost
but 10.0.2.0/24
all routers
rank 1 now none path B C A
cases 3 changed 2
"""),
    ("prefixes that don't follow one another in the text, and a further one", ["compare"],
     [TRIANGLE, "originate 10.0.3.0/24 at A; originate 10.0.1.0/24 at A; originate 10.0.2.0/24 at A; true => any;",
      "originate 10.0.4.0/24 at A; originate 10.0.1.0/24 at A; originate 10.0.2.0/24 at A; originate 10.0.3.0/24 at A; true => path(any, any);"],
     DONE, """\
change statement 1 now 1
prefix 10.0.3.0/24
prefix 10.0.1.0/24 to 10.0.2.0/24
origins routers A
differs lost
all routers
rank 1 now none path B C A
change statement 1 now 1
prefix 10.0.4.0/24
origins gained routers A
differs claimed
all routers
rank none now 1 path B A
carriers gained
all routers
cases 2 changed 2
"""),
    ("another origin of a prefix that nothing governs", ["compare"], [TWO_ROUTERS, "originate 10.0.1.0/24 at A;", "originate 10.0.1.0/24 at B;"],
     DONE, """\
change statement none now none
prefix 10.0.1.0/24
origins lost routers A
origins gained routers B
cases 1 changed 1
"""),
    ("an origin is taken away, and peers are believed", ["compare"],
     [TWO_EXITS, "originate 10.0.1.0/24 at R2; true => any;", "true => any;"],
     DONE, """\
change statement 1 now 1
prefix 10.0.1.0/24
origins lost routers R2
origins gained peers
differs replaced
all routers
rank 1 now none path R1 R2
rank none now 1 path R1 P1
differs unclaimed
all sessions
rank 1 now none path P1 R1 R2
cases 2 changed 1
"""),
    ("two patterns leave prefixes to the next statement", ["compare"],
     [TWO_EXITS, "10.0.0.0/8 le 24 or 10.1.0.0/16 le 32 => any; true => exit(P1);", "10.0.0.0/8 le 16 => any; true => exit(P1);"],
     DONE, """\
change statement 1 now 2
prefix 10.0.0.0/8 le 24 as 10.0.0.0/17
prefix 10.1.0.0/16 le 32 as 10.1.0.0/25
origins peers
differs lost
all routers
rank 1 now none path R1 R2 P2
cases 3 changed 1
"""),
    ("a session alone, and all that peers announce", ["compare"],
     [TWO_EXITS, "originate 10.0.1.0/24 at R2; true => any;", "originate 10.0.1.0/24 at R2; true => enter(R1);"],
     DONE, """\
change statement 1 now 1
prefix 10.0.1.0/24
origins routers R2
differs unclaimed
all routers
sessions R2 P2
rank 1 now none path R1 R2
change statement 1 now 1
prefix 0.0.0.0/0 le 32
origins peers
differs unclaimed
all routers
rank 1 now none path R1 P1
carriers lost
all routers
cases 2 changed 2
"""),
    ("refused by compile, and compared", ["compare"], [TWO_EXITS, "true => drop from R1;", "true => drop;"], DONE, "cases 1 changed 0\n"),
    ("the topology is judged first", ["compare"], ["", "true", "true"], BAD_INPUT, "propane: topology 1 not-json\n"),
    ("the old policy is judged before the new one", ["compare"], [TWO_EXITS, "true => exit(P3);", "true"],
     BAD_INPUT, "propane: old policy 5 unknown at 1:14\n"),
    ("the new policy has a fault", ["compare"], [TWO_EXITS, EXITS, "true => exit(P3);"], BAD_INPUT, "propane: new policy 5 unknown at 1:14\n"),
    ("a fault comes before a limit", ["compare"], [TWO_ROUTERS, RANKED, "true => exit(P3);"], BAD_INPUT, "propane: new policy 5 unknown at 1:14\n"),
    ("the old policy has 81 alternatives", ["compare"], [TWO_ROUTERS, RANKED, RANKED],
     REFUSED, "propane: old refused 1 too-many-ranks case 1 number 81\n"),
    ("the new policy has 81 alternatives", ["compare"], [TWO_ROUTERS, "", RANKED],
     REFUSED, "propane: new refused 1 too-many-ranks case 1 number 81\n"),
]
