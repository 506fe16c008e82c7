"""What single cuts change: what `impact` writes of each policy and prefix."""
from runs import ANY_PATH, ENTER, DONE, REFUSED, USAGE
from runs.networks import TRIANGLE, TWO_EXITS, TWO_WAYS
from runs.helped import USAGE_LINE

LONG_THEN_SHORT = "originate 10.0.1.0/24 at D; 10.0.1.0/24 => path(A, B, C, D) >> path(A, E, D) from A;"

ROWS = [
    ("each router of a triangle has two ways", ["impact", "10.0.1.0/24"], [TRIANGLE, ANY_PATH], DONE, """\
prefix 10.0.1.0/24
class 1
base router B rank 1
base router C rank 1
cut router A
router B none
router C none
cut router B
router B none
cut router C
router C none
cuts 6 changed 3
"""),
    ("a long way, and a short one that is ranked second", ["impact", "10.0.1.0/24"], [TWO_WAYS, LONG_THEN_SHORT], DONE, """\
prefix 10.0.1.0/24
class 1
base router A rank 1
cut link A B
router A rank 2
cut link B C
router A rank 2
cut link C D
router A rank 2
cut router A
router A none
cut router B
router A rank 2
cut router C
router A rank 2
cut router D
router A none
cuts 10 changed 7
"""),
    ("a prefix that nothing governs", ["impact", "10.9.0.0/16"], [TRIANGLE, ANY_PATH], DONE, """\
prefix 10.9.0.0/16
class none
cuts 6 changed 0
"""),
    ("a session over which a peer enters", ["impact", "10.0.1.0/24"], [TWO_EXITS, ENTER], DONE, """\
prefix 10.0.1.0/24
class 1
base session R1 P1 rank 1
cut link R1 R2
session R1 P1 none
cut link R1 P1
session R1 P1 none
cut router R1
session R1 P1 none
cut router R2
session R1 P1 none
cuts 5 changed 4
"""),
    ("a policy that is refused", ["impact", "10.0.1.0/24"],
     [TRIANGLE, "originate 10.0.1.0/24 at A; 10.0.1.0/24 => drop from B;"],
     REFUSED, "propane: refused 4 source-without-path case 1 router B\n"),
    ("a word that is no prefix", ["impact", "10.0.1.0/33"], [TRIANGLE, ANY_PATH], USAGE, USAGE_LINE),
]
