"""What policies promise: cases that stand together, what each rank is, and what counts."""
from runs import DONE, EXITS
from runs.networks import LINE, TRIANGLE, TWO_EXITS

RACKS = "originate 10.0.1.0/24 at A; originate 10.0.2.0/24 at B; originate 10.0.3.0/24 at A, C; originate 10.0.4.0/24 at A; "

ROWS = [
    ("cases that say the same stand together, each with its prefixes and its origins", ["promises"], [TRIANGLE, RACKS + "10.0.0.0/8 le 24 => any;"],
     DONE, """\
statement 1
rank 1 any
case 1 2 3 statement 1
prefix 10.0.1.0/24,10.0.4.0/24 10.0.2.0/24 10.0.3.0/24
origin A B A,C
source router A B C rank 1
cases 3 unclaimed 0 transit 0 covered 0 unused 0 uncarried 0 open 0 apart 0
"""),
    ("cases that say otherwise don't", ["promises"],
     [TRIANGLE, "originate 10.0.1.0/24 at B; originate 10.0.2.0/24 at A; originate 10.0.3.0/24 at C; 10.0.0.0/8 le 24 => end(A) >> any;"],
     DONE, """\
statement 1
rank 1 end(A)
rank 2 any
case 1 3 statement 1
prefix 10.0.1.0/24 10.0.3.0/24
origin B C
source router A B C rank 2
case 2 statement 1
prefix 10.0.2.0/24
origin A
source router B C rank 1
apart statement 1 alternatives 1 2
cases 3 unclaimed 0 transit 0 covered 0 unused 0 uncarried 0 open 0 apart 1
"""),
    ("nor do those of several statements, which come in their order", ["promises"],
     [TRIANGLE, RACKS + "10.0.2.0/24 or 10.0.3.0/24 => any; 10.0.0.0/8 le 24 => any;"],
     DONE, """\
statement 1
rank 1 any
case 2 3 statement 1
prefix 10.0.2.0/24 10.0.3.0/24
origin B A,C
source router A B C rank 1
statement 2
rank 1 any
case 1 statement 2
prefix 10.0.1.0/24,10.0.4.0/24
origin A
source router B C rank 1
cases 3 unclaimed 0 transit 0 covered 0 unused 0 uncarried 0 open 0 apart 0
"""),
    ("an origin that is used in one case and not in another", ["promises"],
     [LINE, "originate 10.0.4.0/24 at A; originate 10.0.5.0/24 at A, D; 10.0.0.0/8 le 24 => end(A);"],
     DONE, """\
statement 1
rank 1 end(A)
case 1 statement 1
prefix 10.0.4.0/24
origin A
source router D C rank 1
case 2 statement 1
prefix 10.0.5.0/24
origin A,D
unclaimed router C
unused origin A D
cases 2 unclaimed 1 transit 0 covered 0 unused 2 uncarried 0 open 0 apart 0
"""),
    ("the alternative of each rank, without `define` and in as few brackets as it needs", ["promises"],
     [TRIANGLE, "define U = { A, B, C }; originate 10.0.1.0/24 at A;"
      " 10.0.1.0/24 => (end(A >> B) >> through(U)) and (avoid(C, B) or not (drop and link(any, {A, B})));"],
     DONE, """\
statement 1
rank 1 end(A) and (avoid(B, C) or not (drop and link(any, { A, B })))
rank 2 end(B) and (avoid(B, C) or not (drop and link(any, { A, B })))
rank 3 through(any) and (avoid(B, C) or not (drop and link(any, { A, B })))
case 1 statement 1
prefix 10.0.1.0/24
origin A
source router B C rank 1
cases 1 unclaimed 0 transit 0 covered 0 unused 0 uncarried 0 open 0 apart 0
"""),
    ("exits that are swapped don't read alike", ["promises"], [TWO_EXITS, EXITS.replace("P1 >> P2", "P2 >> P1")],
     DONE, """\
statement 1
rank 1 exit(P2)
rank 2 exit(P1)
case 1 statement 1
prefix 0.0.0.0/0 le 32
origin peers
source router R1 R2 rank 1
cases 1 unclaimed 0 transit 0 covered 0 unused 0 uncarried 0 open 0 apart 0
"""),
    ("sessions don't count where no peer could be claimed", ["promises"], [TWO_EXITS, "originate 10.0.1.0/24 at R1; 10.0.1.0/24 => internal;"],
     DONE, """\
statement 1
rank 1 internal
case 1 statement 1
prefix 10.0.1.0/24
origin R1
source router R2 rank 1
unclaimed session R1 P1 R2 P2
cases 1 unclaimed 0 transit 0 covered 0 unused 0 uncarried 0 open 0 apart 0
"""),
    ("they do where `from` names a peer", ["promises"], [TWO_EXITS, "originate 10.0.1.0/24 at R1; 10.0.1.0/24 => internal from R2, P1;"],
     DONE, """\
statement 1
rank 1 internal
case 1 statement 1
prefix 10.0.1.0/24
origin R1
source router R2 rank 1
unclaimed session R1 P1 R2 P2
cases 1 unclaimed 2 transit 0 covered 0 unused 0 uncarried 0 open 0 apart 0
"""),
    ("and where some session is claimed", ["promises"], [TWO_EXITS, "originate 10.0.1.0/24 at R1; 10.0.1.0/24 => enter(P1);"],
     DONE, """\
statement 1
rank 1 enter(P1)
case 1 statement 1
prefix 10.0.1.0/24
origin R1
source session R1 P1 rank 1
unclaimed router R2
unclaimed session R2 P2
cases 1 unclaimed 2 transit 0 covered 0 unused 0 uncarried 0 open 0 apart 0
"""),
    ("prefixes that no statement governs, on one line", ["promises"], [TRIANGLE, RACKS + "10.0.2.0/24 => any;"],
     DONE, """\
statement 1
rank 1 any
case 1 statement 1
prefix 10.0.2.0/24
origin B
source router A C rank 1
uncarried 10.0.1.0/24 10.0.3.0/24 10.0.4.0/24
cases 1 unclaimed 0 transit 0 covered 0 unused 0 uncarried 3 open 0 apart 0
"""),
    ("what peers are believed in inside the own space, a line for each case", ["promises"],
     [TWO_EXITS, "originate 10.0.1.0/24 at R1; originate 10.0.2.0/24 at R2; 10.0.1.0/24 or 10.0.2.0/24 => internal;"
      " 10.0.2.128/25 or 10.0.2.0/26 le 28 => exit(P1); true => exit(P2);"],
     DONE, """\
statement 1
rank 1 internal
case 1 2 statement 1
prefix 10.0.1.0/24 10.0.2.0/24
origin R1 R2
source router R1 R2 rank 1
unclaimed session R1 P1 R2 P2
statement 2
rank 1 exit(P1)
case 3 statement 2
prefix 10.0.2.128/25,10.0.2.0/26 le 28
origin peers
source router R1 R2 rank 1
statement 3
rank 1 exit(P2)
case 4 statement 3
prefix 0.0.0.0/0 le 32
origin peers
source router R1 R2 rank 1
open 10.0.2.128/25 in 10.0.2.0/24, 10.0.2.0/26 le 28 in 10.0.2.0/24 case 3
open 10.0.1.0/24 le 32, 10.0.2.0/24 le 32 case 4
cases 4 unclaimed 0 transit 0 covered 0 unused 0 uncarried 0 open 4 apart 0
"""),
]
