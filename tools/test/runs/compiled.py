"""Policies that are compiled, and the configuration and the evidence that each comes to."""
from runs import ANY_PATH, ENTER, EXITS, DONE
from runs.networks import (
    ENTERED_CONFIG, LINE, LINE_CONFIG, RING, RING_CONFIG, TRIANGLE, TWO_EXITS, TWO_EXITS_CONFIG, TWO_EXITS_EVIDENCE, TWO_ROUTERS,
    TWO_ROUTERS_CONFIG, TWO_ROUTERS_EVIDENCE, TWO_SPINES, TWO_SPINES_CONFIG, TWO_WAYS, TWO_WAYS_CONFIG, WIDE,
)

DROP_CONFIG = """\
propane-config 2
class 1 10.0.1.0/24
router A asn 64512 id 10.255.0.1
session B asn 64513
end
router B asn 64513 id 10.255.0.2
session A asn 64512
end
"""

WIDE_CONFIG = """\
propane-config 2
class 1 10.0.1.0/24
class 2 0.0.0.0/0 le 32
router A asn 4200000000 id 10.255.0.1
originate 1 10.0.1.0/24 tag 4200000000:0:1
session B asn 4294967294
import 2 tag 4294967294:0:2 set 4200000000:0:2 pref 100
export 1 tag 4200000000:0:1
export 2 tag 4200000000:0:2
end
router B asn 4294967294 id 10.255.0.2
session A asn 4200000000
import 1 tag 4200000000:0:1 set 4294967294:0:1 pref 100
import 2 tag 4200000000:0:2 set 4294967294:0:2 pref 100
export 2 tag 4294967294:0:2
peer P asn 65536
import 2 set 4294967294:0:2 pref 100
export 1 tag 4294967294:0:1
end
"""

SPINES_EVIDENCE = ('{"cases":[{"external":false,"nodes":[[0,0,0,100,64512,1],[1,0,0,100,64513,1],[2,0,0,100,64514,1],[3,0,0,100,64515,'
                    '1],[4,0,0,100,64516,1],[5,0,1,100,64517,1],[6,0,1,100,64518,1]],"origins":[0],"prefixes":["10.0.1.0/24"],'
                    '"starts":[0],"statement":1,"steps":[[0,1],[1,2],[1,3],[2,1],[2,4],[3,1],[3,4],[4,2],[4,3],[4,5],[4,6]]}],'
                    '"version":1}\n')

LAST_EVIDENCE = ('{"cases":[{"external":false,"nodes":[[0,0,0,100,64512,1],[1,0,0,100,64513,1],[2,0,1,100,64514,1]],"origins":[0],'
                  '"prefixes":["10.0.1.0/24"],"starts":[0],"statement":1,"steps":[[0,1],[0,2],[1,2],[2,1]]}],"version":1}\n')

RING_EVIDENCE = ('{"cases":[{"external":false,"nodes":[[0,0,0,100,64512,1],[1,0,1,101,64513,1],[3,0,1,101,64515,1],[2,0,2,100,64514,'
                  '1],[1,0,2,100,64513,2],[3,0,2,100,64515,2]],"origins":[0],"prefixes":["10.0.1.0/24"],"starts":[0],"statement":1,'
                  '"steps":[[0,1],[0,2],[1,3],[2,3],[3,4],[3,5],[4,3],[5,3]]}],"version":1}\n')

ROWS = [
    ("any path", ["compile"], [TWO_ROUTERS, ANY_PATH], DONE, TWO_ROUTERS_CONFIG),
    ("two ranked exits: each router has a node for its own exit and one for the other", ["compile"],
     [TWO_EXITS, EXITS],
     DONE, TWO_EXITS_CONFIG),
    ("a detour that is ranked second", ["compile"],
     [RING, "originate 10.0.1.0/24 at D; 10.0.1.0/24 => avoid(X) >> any;"],
     DONE, RING_CONFIG),
    ("a path and its fallback, for one source", ["compile"],
     [TWO_WAYS, "originate 10.0.1.0/24 at D; 10.0.1.0/24 => path(A, B, C, D) >> path(A, E, D) from A;"],
     DONE, TWO_WAYS_CONFIG),
    ("no path at all", ["compile"], [TWO_ROUTERS, "originate 10.0.1.0/24 at A; 10.0.1.0/24 => drop;"], DONE, DROP_CONFIG),
    ("a prefix that no statement governs changes nothing", ["compile"],
     [TWO_ROUTERS, "originate 10.0.1.0/24 at A; originate 10.0.9.0/24 at A; 10.0.1.0/24 => any;"],
     DONE, TWO_ROUTERS_CONFIG),
    ("no way through the leaves: A1 has one tag, whichever way a route came", ["compile"],
     [TWO_SPINES, "originate 10.0.1.0/24 at T1; 10.0.1.0/24 => through(S1, S2) and notransit(T1, T3, T4) from T3, T4;"],
     DONE, TWO_SPINES_CONFIG),
    ("two ranked origins, of which neither is on the way to the other", ["compile"],
     [LINE, "originate 10.0.5.0/24 at A, D; 10.0.5.0/24 => end(A >> D);"],
     DONE, LINE_CONFIG),
    ("a peer that may enter at one router", ["compile"], [TWO_EXITS, ENTER], DONE, ENTERED_CONFIG),
    ("numbers of four octets", ["compile"], [WIDE, "originate 10.0.1.0/24 at A; 10.0.1.0/24 => any; true => any;"], DONE, WIDE_CONFIG),
    ("no network and no policy", ["compile"], ['{"links":[],"peers":[],"routers":[]}', ""], DONE, "propane-config 2\n"),
    ("the evidence for any path", ["evidence"], [TWO_ROUTERS, ANY_PATH], DONE, TWO_ROUTERS_EVIDENCE),
    ("the evidence for two ranked exits", ["evidence"], [TWO_EXITS, EXITS], DONE, TWO_EXITS_EVIDENCE),
    ("no way through the leaves: both nodes of A1 lead on alike, and are one", ["evidence"],
     [TWO_SPINES, "originate 10.0.1.0/24 at T1; 10.0.1.0/24 => through(S1, S2) and notransit(T1, T3, T4) from T3, T4;"],
     DONE, SPINES_EVIDENCE),
    ("a path that is ranked last: the nodes of B lead on alike, since those of C do", ["evidence"],
     [TRIANGLE, "originate 10.0.1.0/24 at A; 10.0.1.0/24 => any >> path(C, B, A) from C;"],
     DONE, LAST_EVIDENCE),
    ("a detour: the nodes of a router lead on alike, but for their ranks", ["evidence"],
     [RING, "originate 10.0.1.0/24 at D; 10.0.1.0/24 => avoid(X) >> any;"],
     DONE, RING_EVIDENCE),
]
