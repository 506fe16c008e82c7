"""Texts of small networks, with policies, configurations and evidence for them. Routers have the AS numbers from 64512 on, peers those from 1001 on."""

# Routers A and B, linked.
TWO_ROUTERS = """\
{"routers":[{"name":"A","asn":64512,"id":"10.255.0.1"},
{"name":"B","asn":64513,"id":"10.255.0.2"}],
"peers":[],
"links":[["A","B"]]}"""

# Linked routers R1 and R2, with the peer P1 at the first and P2 at the second.
TWO_EXITS = """\
{"routers":[{"name":"R1","asn":64512,"id":"10.255.0.1"},
{"name":"R2","asn":64513,"id":"10.255.0.2"}],
"peers":[{"name":"P1","asn":1001,"id":"192.0.2.1"},
{"name":"P2","asn":1002,"id":"192.0.2.2"}],
"links":[["R1","R2"],["R1","P1"],["R2","P2"]]}"""

# Routers A, B and C, each linked with each.
TRIANGLE = """\
{"routers":[{"name":"A","asn":64512,"id":"10.255.0.1"},
{"name":"B","asn":64513,"id":"10.255.0.2"},
{"name":"C","asn":64514,"id":"10.255.0.3"}],
"peers":[],
"links":[["A","B"],["A","C"],["B","C"]]}"""

# Routers D, B, X and C in a ring.
RING = """\
{"routers":[{"name":"D","asn":64512,"id":"10.255.0.1"},
{"name":"B","asn":64513,"id":"10.255.0.2"},
{"name":"X","asn":64514,"id":"10.255.0.3"},
{"name":"C","asn":64515,"id":"10.255.0.4"}],
"peers":[],
"links":[["D","B"],["B","X"],["X","C"],["C","D"]]}"""

# The ring of D, B, X and C, where C has the lower identifier of X's neighbours.
RING_TURNED = """\
{"routers":[{"name":"D","asn":64512,"id":"10.255.0.1"},
{"name":"B","asn":64513,"id":"10.255.0.4"},
{"name":"X","asn":64514,"id":"10.255.0.3"},
{"name":"C","asn":64515,"id":"10.255.0.2"}],
"peers":[],
"links":[["D","B"],["B","X"],["X","C"],["C","D"]]}"""

# Routers D, X, W and Y in a ring.
WAYPOINT_RING = """\
{"routers":[{"name":"D","asn":64512,"id":"10.255.0.1"},
{"name":"X","asn":64513,"id":"10.255.0.2"},
{"name":"W","asn":64514,"id":"10.255.0.3"},
{"name":"Y","asn":64515,"id":"10.255.0.4"}],
"peers":[],
"links":[["D","X"],["X","W"],["W","Y"],["Y","D"]]}"""

# Routers D, X, W and Y in a ring, and a peer P at D.
RING_WITH_A_PEER = """\
{"routers":[{"name":"D","asn":64512,"id":"10.255.0.1"},
{"name":"X","asn":64513,"id":"10.255.0.2"},
{"name":"W","asn":64514,"id":"10.255.0.3"},
{"name":"Y","asn":64515,"id":"10.255.0.4"}],
"peers":[{"name":"P","asn":1001,"id":"192.0.2.1"}],
"links":[["D","X"],["X","W"],["W","Y"],["Y","D"],["D","P"]]}"""

# Routers D, X and W in a row.
CHAIN = """\
{"routers":[{"name":"D","asn":64512,"id":"10.255.0.1"},
{"name":"X","asn":64513,"id":"10.255.0.2"},
{"name":"W","asn":64514,"id":"10.255.0.3"}],
"peers":[],
"links":[["D","X"],["X","W"]]}"""

# Routers A, D and C in a row.
LINE = """\
{"routers":[{"name":"A","asn":64512,"id":"10.255.0.1"},
{"name":"D","asn":64513,"id":"10.255.0.2"},
{"name":"C","asn":64514,"id":"10.255.0.3"}],
"peers":[],
"links":[["A","D"],["D","C"]]}"""

# Routers A, B, C and D in a row, a peer P at A and a peer Q at D.
ROW_BETWEEN_PEERS = """\
{"routers":[{"name":"A","asn":64512,"id":"10.255.0.1"},
{"name":"B","asn":64513,"id":"10.255.0.2"},
{"name":"C","asn":64514,"id":"10.255.0.3"},
{"name":"D","asn":64515,"id":"10.255.0.4"}],
"peers":[{"name":"P","asn":1001,"id":"192.0.2.1"},
{"name":"Q","asn":1002,"id":"192.0.2.2"}],
"links":[["A","B"],["A","P"],["B","C"],["C","D"],["D","Q"]]}"""

# Routers A to E: a long way and a short one from A to D.
TWO_WAYS = """\
{"routers":[{"name":"A","asn":64512,"id":"10.255.0.1"},
{"name":"B","asn":64513,"id":"10.255.0.2"},
{"name":"C","asn":64514,"id":"10.255.0.3"},
{"name":"D","asn":64515,"id":"10.255.0.4"},
{"name":"E","asn":64516,"id":"10.255.0.5"}],
"peers":[],
"links":[["A","B"],["B","C"],["C","D"],["A","E"],["E","D"]]}"""

# Routers T1, A1, S1, S2, A2, T3 and T4: two ways over the middle.
TWO_SPINES = """\
{"routers":[{"name":"T1","asn":64512,"id":"10.255.0.1"},
{"name":"A1","asn":64513,"id":"10.255.0.2"},
{"name":"S1","asn":64514,"id":"10.255.0.3"},
{"name":"S2","asn":64515,"id":"10.255.0.4"},
{"name":"A2","asn":64516,"id":"10.255.0.5"},
{"name":"T3","asn":64517,"id":"10.255.0.6"},
{"name":"T4","asn":64518,"id":"10.255.0.7"}],
"peers":[],
"links":[["T1","A1"],["A1","S1"],["A1","S2"],["S1","A2"],["S2","A2"],["A2","T3"],["A2","T4"]]}"""

# Routers D, A, B and C: two ways from D to C, with the peer P1 at C.
DIAMOND = """\
{"routers":[{"name":"D","asn":64512,"id":"10.255.0.1"},
{"name":"A","asn":64513,"id":"10.255.0.2"},
{"name":"B","asn":64514,"id":"10.255.0.3"},
{"name":"C","asn":64515,"id":"10.255.0.4"}],
"peers":[{"name":"P1","asn":1001,"id":"192.0.2.1"}],
"links":[["D","A"],["D","B"],["A","C"],["B","C"],["C","P1"]]}"""

# Leaves L1 to L4, each linked with the spines S1 and S2.
FABRIC = """\
{"routers":[{"name":"L1","asn":64512,"id":"10.255.0.1"},
{"name":"L2","asn":64513,"id":"10.255.0.2"},
{"name":"L3","asn":64514,"id":"10.255.0.3"},
{"name":"L4","asn":64515,"id":"10.255.0.4"},
{"name":"S1","asn":64516,"id":"10.255.1.1"},
{"name":"S2","asn":64517,"id":"10.255.1.2"}],
"peers":[],
"links":[["L1","S1"],["L1","S2"],["L2","S1"],["L2","S2"],["L3","S1"],["L3","S2"],["L4","S1"],["L4","S2"]]}"""

# Routers R1 to R8 without links.
EIGHT = """\
{"routers":[{"name":"R1","asn":64512,"id":"10.255.0.1"},
{"name":"R2","asn":64513,"id":"10.255.0.2"},
{"name":"R3","asn":64514,"id":"10.255.0.3"},
{"name":"R4","asn":64515,"id":"10.255.0.4"},
{"name":"R5","asn":64516,"id":"10.255.0.5"},
{"name":"R6","asn":64517,"id":"10.255.0.6"},
{"name":"R7","asn":64518,"id":"10.255.0.7"},
{"name":"R8","asn":64519,"id":"10.255.0.8"}],
"peers":[],
"links":[]}"""

# Numbers of four octets: a router with a private one, and a peer with one.
WIDE = """\
{"routers":[{"name":"A","asn":4200000000,"id":"10.255.0.1"},
{"name":"B","asn":4294967294,"id":"10.255.0.2"}],
"peers":[{"name":"P","asn":65536,"id":"192.0.2.1"}],
"links":[["A","B"],["B","P"]]}"""

# Routers A and B at C, and a peer P1 at C.
PEER_BETWEEN = """\
{"routers":[{"name":"A","asn":64512,"id":"10.255.0.1"},
{"name":"B","asn":64513,"id":"10.255.0.2"},
{"name":"C","asn":64514,"id":"10.255.0.3"}],
"peers":[{"name":"P1","asn":1001,"id":"192.0.2.1"}],
"links":[["A","C"],["B","C"],["C","P1"]]}"""

# Two routers, where B has the way to A's prefix.
TWO_ROUTERS_CONFIG = """\
propane-config 2
class 1 10.0.1.0/24
router A asn 64512 id 10.255.0.1
originate 1 10.0.1.0/24 tag 64512:0:1
session B asn 64513
export 1 tag 64512:0:1
end
router B asn 64513 id 10.255.0.2
session A asn 64512
import 1 tag 64512:0:1 set 64513:0:1 pref 100
end
"""

# The same configuration as a text of the first edition.
TWO_ROUTERS_CONFIG_1 = """\
propane-config 1
class 1 10.0.1.0/24
router A asn 64512 id 10.255.0.1
originate 1 10.0.1.0/24 tag 64512:1
session B asn 64513
export 1 tag 64512:1
end
router B asn 64513 id 10.255.0.2
session A asn 64512
import 1 tag 64512:1 set 64513:1 pref 100
end
"""

# Two exits, of which P1 is preferred.
TWO_EXITS_CONFIG = """\
propane-config 2
class 1 0.0.0.0/0 le 32
router R1 asn 64512 id 10.255.0.1
session R2 asn 64513
import 1 tag 64513:0:1 set 64512:0:2 pref 100
import 1 tag 64513:0:2 set 64512:0:1 pref 101
export 1 tag 64512:0:1
export 1 tag 64512:0:2
peer P1 asn 1001
import 1 set 64512:0:1 pref 101
end
router R2 asn 64513 id 10.255.0.2
session R1 asn 64512
import 1 tag 64512:0:1 set 64513:0:2 pref 101
import 1 tag 64512:0:2 set 64513:0:1 pref 100
export 1 tag 64513:0:1
export 1 tag 64513:0:2
peer P2 asn 1002
import 1 set 64513:0:1 pref 100
end
"""

# Two exits, where P1 may enter to R2's prefix.
ENTERED_CONFIG = """\
propane-config 2
class 1 10.0.1.0/24
router R1 asn 64512 id 10.255.0.1
session R2 asn 64513
import 1 tag 64513:0:1 set 64512:0:1 pref 100
peer P1 asn 1001
export 1 tag 64512:0:1
end
router R2 asn 64513 id 10.255.0.2
originate 1 10.0.1.0/24 tag 64513:0:1
session R1 asn 64512
export 1 tag 64513:0:1
peer P2 asn 1002
end
"""

# The triangle, where all have a way to A's prefix.
TRIANGLE_CONFIG = """\
propane-config 2
class 1 10.0.1.0/24
router A asn 64512 id 10.255.0.1
originate 1 10.0.1.0/24 tag 64512:0:1
session B asn 64513
export 1 tag 64512:0:1
session C asn 64514
export 1 tag 64512:0:1
end
router B asn 64513 id 10.255.0.2
session A asn 64512
import 1 tag 64512:0:1 set 64513:0:1 pref 100
session C asn 64514
import 1 tag 64514:0:1 set 64513:0:1 pref 100
export 1 tag 64513:0:1
end
router C asn 64514 id 10.255.0.3
session A asn 64512
import 1 tag 64512:0:1 set 64514:0:1 pref 100
session B asn 64513
import 1 tag 64513:0:1 set 64514:0:1 pref 100
export 1 tag 64514:0:1
end
"""

# The ring, where a way over X is a detour.
RING_CONFIG = """\
propane-config 2
class 1 10.0.1.0/24
router D asn 64512 id 10.255.0.1
originate 1 10.0.1.0/24 tag 64512:0:1
session B asn 64513
export 1 tag 64512:0:1
session C asn 64515
export 1 tag 64512:0:1
end
router B asn 64513 id 10.255.0.2
session D asn 64512
import 1 tag 64512:0:1 set 64513:0:1 pref 101
session X asn 64514
import 1 tag 64514:0:1 set 64513:0:2 pref 100
export 1 tag 64513:0:1
export 1 tag 64513:0:2
end
router X asn 64514 id 10.255.0.3
session B asn 64513
import 1 tag 64513:0:1 set 64514:0:1 pref 100
import 1 tag 64513:0:2 set 64514:0:1 pref 100
export 1 tag 64514:0:1
session C asn 64515
import 1 tag 64515:0:1 set 64514:0:1 pref 100
import 1 tag 64515:0:2 set 64514:0:1 pref 100
export 1 tag 64514:0:1
end
router C asn 64515 id 10.255.0.4
session D asn 64512
import 1 tag 64512:0:1 set 64515:0:1 pref 101
session X asn 64514
import 1 tag 64514:0:1 set 64515:0:2 pref 100
export 1 tag 64515:0:1
export 1 tag 64515:0:2
end
"""

# Two ways, where A prefers the long one.
TWO_WAYS_CONFIG = """\
propane-config 2
class 1 10.0.1.0/24
router A asn 64512 id 10.255.0.1
session B asn 64513
import 1 tag 64513:0:1 set 64512:0:2 pref 101
session E asn 64516
import 1 tag 64516:0:1 set 64512:0:1 pref 100
end
router B asn 64513 id 10.255.0.2
session A asn 64512
export 1 tag 64513:0:1
session C asn 64514
import 1 tag 64514:0:1 set 64513:0:1 pref 100
end
router C asn 64514 id 10.255.0.3
session B asn 64513
export 1 tag 64514:0:1
session D asn 64515
import 1 tag 64515:0:1 set 64514:0:1 pref 100
end
router D asn 64515 id 10.255.0.4
originate 1 10.0.1.0/24 tag 64515:0:1
session C asn 64514
export 1 tag 64515:0:1
session E asn 64516
export 1 tag 64515:0:1
end
router E asn 64516 id 10.255.0.5
session A asn 64512
export 1 tag 64516:0:1
session D asn 64515
import 1 tag 64515:0:1 set 64516:0:1 pref 100
end
"""

# The two spines, without a way through the leaves.
TWO_SPINES_CONFIG = """\
propane-config 2
class 1 10.0.1.0/24
router T1 asn 64512 id 10.255.0.1
originate 1 10.0.1.0/24 tag 64512:0:1
session A1 asn 64513
export 1 tag 64512:0:1
end
router A1 asn 64513 id 10.255.0.2
session T1 asn 64512
import 1 tag 64512:0:1 set 64513:0:1 pref 100
session S1 asn 64514
import 1 tag 64514:0:1 set 64513:0:1 pref 100
export 1 tag 64513:0:1
session S2 asn 64515
import 1 tag 64515:0:1 set 64513:0:1 pref 100
export 1 tag 64513:0:1
end
router S1 asn 64514 id 10.255.0.3
session A1 asn 64513
import 1 tag 64513:0:1 set 64514:0:1 pref 100
export 1 tag 64514:0:1
session A2 asn 64516
import 1 tag 64516:0:1 set 64514:0:1 pref 100
export 1 tag 64514:0:1
end
router S2 asn 64515 id 10.255.0.4
session A1 asn 64513
import 1 tag 64513:0:1 set 64515:0:1 pref 100
export 1 tag 64515:0:1
session A2 asn 64516
import 1 tag 64516:0:1 set 64515:0:1 pref 100
export 1 tag 64515:0:1
end
router A2 asn 64516 id 10.255.0.5
session S1 asn 64514
import 1 tag 64514:0:1 set 64516:0:1 pref 100
export 1 tag 64516:0:1
session S2 asn 64515
import 1 tag 64515:0:1 set 64516:0:1 pref 100
export 1 tag 64516:0:1
session T3 asn 64517
export 1 tag 64516:0:1
session T4 asn 64518
export 1 tag 64516:0:1
end
router T3 asn 64517 id 10.255.0.6
session A2 asn 64516
import 1 tag 64516:0:1 set 64517:0:1 pref 100
end
router T4 asn 64518 id 10.255.0.7
session A2 asn 64516
import 1 tag 64516:0:1 set 64518:0:1 pref 100
end
"""

# The row, where D alone announces.
LINE_CONFIG = """\
propane-config 2
class 1 10.0.5.0/24
router A asn 64512 id 10.255.0.1
session D asn 64513
end
router D asn 64513 id 10.255.0.2
originate 1 10.0.5.0/24 tag 64513:0:1
session A asn 64512
session C asn 64514
export 1 tag 64513:0:1
end
router C asn 64514 id 10.255.0.3
session D asn 64513
import 1 tag 64513:0:1 set 64514:0:1 pref 100
end
"""

# The evidence for the configuration of two routers.
TWO_ROUTERS_EVIDENCE = ('{"cases":[{"external":false,"nodes":[[0,0,0,100,64512,1],[1,0,1,100,64513,1]],"origins":[0],'
                        '"prefixes":["10.0.1.0/24"],"starts":[0],"statement":1,"steps":[[0,1]]}],"version":1}\n')

# The evidence for two exits, of which P1 is preferred.
TWO_EXITS_EVIDENCE = ('{"cases":[{"external":true,"nodes":[[2,0,0,0,0,0],[3,0,0,0,0,0],[0,0,1,101,64512,1],[1,0,2,100,64513,1],[1,0,1,101,'
                      '64513,2],[0,0,2,100,64512,2]],"origins":[2,3],"prefixes":[],"starts":[0,1],"statement":1,"steps":[[0,2],[1,3],[2,4],'
                      '[3,5],[4,2],[5,3]]}],"version":1}\n')

# The same, where the preference numbers are exchanged.
EXCHANGED_EVIDENCE = ('{"cases":[{"external":true,"nodes":[[2,0,0,0,0,0],[3,0,0,0,0,0],[0,0,1,100,64512,1],[1,0,2,100,64513,1],[1,0,1,101,'
                      '64513,2],[0,0,2,101,64512,2]],"origins":[2,3],"prefixes":[],"starts":[0,1],"statement":1,"steps":[[0,2],[1,3],[2,4],'
                      '[3,5],[4,2],[5,3]]}],"version":1}\n')

# The evidence for the triangle.
TRIANGLE_EVIDENCE = ('{"cases":[{"external":false,"nodes":[[0,0,0,100,64512,1],[1,0,1,100,64513,1],[2,0,1,100,64514,1]],"origins":[0],'
                     '"prefixes":["10.0.1.0/24"],"starts":[0],"statement":1,"steps":[[0,1],[0,2],[1,2],[2,1]]}],"version":1}\n')
