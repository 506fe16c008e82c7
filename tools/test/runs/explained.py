"""Policies that are explained: what each comes to on the output, with status 0."""
from runs import ANY_PATH, DONE, BAD_INPUT
from runs.networks import CHAIN, PEER_BETWEEN, TRIANGLE, TWO_ROUTERS, TWO_SPINES, WAYPOINT_RING

ROWS = [
    ("a policy that is accepted", ["explain"], [TWO_ROUTERS, ANY_PATH], DONE, "accepted\n"),
    ("only the waypoint itself is promised its path", ["explain"],
     [WAYPOINT_RING, "originate 10.0.1.0/24 at D; 10.0.1.0/24 => through(W) >> any from W;"],
     DONE, "accepted\n"),
    ("a source that is named, and no path at all", ["explain"],
     [TWO_ROUTERS, "originate 10.0.1.0/24 at A; 10.0.1.0/24 => drop from B;"],
     DONE, "refused 4 source-without-path case 1 router B\n"),
    ("a source with a ranked way and one without a rank that others need", ["explain"],
     [TWO_SPINES, "originate 10.0.1.0/24 at T1; 10.0.1.0/24 => through(S1, S2);"],
     DONE, "refused 5 mixed-source case 1 router A1 with A1 S1 A1 T1 without A1 T1\n"),
    ("whoever waits for the waypoint waits for the other", ["explain"],
     [WAYPOINT_RING, "originate 10.0.1.0/24 at D; 10.0.1.0/24 => through(W) >> any;"],
     DONE, """\
refused 6 no-evidence case 1 router W first W X D second W X D
round 1 router X first X D second X W X D rank 2 1
round 2 router W first W X D second W X D loop X via X D
"""),
    ("the way to the waypoint leads through the one that would use it", ["explain"],
     [CHAIN, "originate 10.0.1.0/24 at D; 10.0.1.0/24 => through(W) >> any;"],
     DONE, """\
refused 6 no-evidence case 1 router W first W X D second W X D
round 1 router X first X D second X W X D rank 2 1
round 2 router W first W X D second W X D loop X via X D
"""),
    ("the better way steps to a router to which the other doesn't", ["explain"],
     [TRIANGLE, "originate 10.0.1.0/24 at B; 10.0.1.0/24 => avoid(A) >> link(A, B);"],
     DONE, """\
refused 6 no-evidence case 1 router C first C B second C A B
round 1 router C first C B second C A B no-step A
round 1 router C first C A B second C B rank 2 1
"""),
    ("both ways step to a router that ranks the other one best", ["explain"],
     [TRIANGLE, "originate 10.0.1.0/24 at B; 10.0.1.0/24 => not through(A) >> link(A, B) >> any;"],
     DONE, """\
refused 6 no-evidence case 1 router C first C B second C A B
round 1 router A first A C B second A B rank 3 2
round 1 router C first C A B second C B rank 2 1
round 2 router C first C B second C A B step A
"""),
    ("of two ways the better one leaves a neighbour with less", ["explain"],
     [WAYPOINT_RING, "originate 10.0.1.0/24 at D; 10.0.1.0/24 => avoid(W) >> through(Y) >> any;"],
     DONE, """\
refused 6 no-evidence case 1 router X first X D second X W Y D
round 1 router X first X W Y D second X D rank 2 1
round 1 router W first W X D second W Y D rank 3 2
round 2 router X first X D second X W Y D step W
"""),
    ("only the way back is heard by the peer", ["explain"],
     [PEER_BETWEEN, "originate 10.0.1.0/24 at B; 10.0.1.0/24 => through(A) from P1;"],
     DONE, """\
refused 6 no-evidence case 1 router A first A C B second A C B
round 1 router C first C B second C A C B listener P1
round 2 router A first A C B second A C B loop C via C B
"""),
    ("an input that is no policy", ["explain"],
     [TWO_ROUTERS, "originate 10.0.1.0/24 at A"],
     BAD_INPUT, "propane: policy 4 syntax at 1:27\n"),
]
