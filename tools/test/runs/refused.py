"""Policies that are refused, and the line that each comes to."""
from runs import REFUSED
from runs.networks import CHAIN, TWO_ROUTERS, TWO_SPINES, WAYPOINT_RING

ROWS = [
    ("72 alternatives", ["compile"],
     [TWO_ROUTERS, ("originate 10.0.1.0/24 at A; 10.0.1.0/24 => end(A >> B >> A >> B >> A >> B >> A >> B >> A) and end(A >> B >> A >> B >> A >> B >> A >> B);")],
     REFUSED, "propane: refused 1 too-many-ranks case 1 number 72\n"),
    ("a source that is named, and no path at all", ["compile"],
     [TWO_ROUTERS, "originate 10.0.1.0/24 at A; 10.0.1.0/24 => drop from B;"],
     REFUSED, "propane: refused 4 source-without-path case 1 router B\n"),
    ("a source with a ranked way and one without a rank that others need", ["compile"],
     [TWO_SPINES, "originate 10.0.1.0/24 at T1; 10.0.1.0/24 => through(S1, S2);"],
     REFUSED, "propane: refused 5 mixed-source case 1 router A1 with A1 S1 A1 T1 without A1 T1\n"),
    ("whoever waits for the waypoint waits for the other", ["compile"],
     [WAYPOINT_RING, "originate 10.0.1.0/24 at D; 10.0.1.0/24 => through(W) >> any;"],
     REFUSED, "propane: refused 6 no-evidence case 1 router W first W X D second W X D\n"),
    ("the way to the waypoint leads through the one that would use it", ["compile"],
     [CHAIN, "originate 10.0.1.0/24 at D; 10.0.1.0/24 => through(W) >> any;"],
     REFUSED, "propane: refused 6 no-evidence case 1 router W first W X D second W X D\n"),
]
