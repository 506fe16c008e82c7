"""Events, and what `waiting` says of them."""
from runs import ANY_PATH, BAD_INPUT, DONE, ENTER, EXITS, REFUSED
from runs.networks import TRIANGLE, TWO_EXITS, WAYPOINT_RING

# The routers of TRIANGLE in another order: so its links come as C B, C A, B A.
TURNED = """\
{"routers":[{"name":"C","asn":64514,"id":"10.255.0.3"},
{"name":"B","asn":64513,"id":"10.255.0.2"},
{"name":"A","asn":64512,"id":"10.255.0.1"}],
"peers":[],
"links":[["A","B"],["A","C"],["B","C"]]}"""

ROWS = [
    ("the opening: an origin has told its neighbours", ["waiting"],
     [TRIANGLE, ANY_PATH, '{"prefix":"10.0.1.0/24","events":[]}'],
     DONE, """\
waits A B path A
waits A C path A
quiet no
"""),
    ("three messages in one direction, the first one first", ["waiting"],
     [TWO_EXITS, EXITS, ('{"prefix":"198.51.100.0/24","events":[["deliver","P2","R2"],["deliver","P1","R1"],["peer_silent","R1","P1"],'
       '["deliver","P1","R1"],["peer_speak","R1","P1"],["deliver","P1","R1"]]}')],
     DONE, """\
waits R1 R2 path R1 P1
waits R1 R2 withdraw
waits R1 R2 path R1 P1
waits R2 R1 path R2 P2
quiet no
"""),
    ("a link both ways: from its first end, and then back", ["waiting"],
     [TRIANGLE, ANY_PATH, '{"prefix":"10.0.1.0/24","events":[["deliver","A","B"],["deliver","A","C"]]}'],
     DONE, """\
waits B C path B A
waits C B path C A
quiet no
"""),
    ("links by the locations of their ends", ["waiting"],
     [TURNED, ANY_PATH, '{"prefix":"10.0.1.0/24","events":[["deliver","A","B"],["link_down","A","B"],["link_up","A","B"]]}'],
     DONE, """\
waits B C path B A
waits B C withdraw
waits A C path A
waits A B path A
quiet no
"""),
    ("what is delivered doesn't wait any more", ["waiting"],
     [TRIANGLE, ANY_PATH, '{"prefix":"10.0.1.0/24","events":[["deliver","A","B"],["deliver","A","C"],["deliver","B","C"]]}'],
     DONE, """\
waits C B path C A
quiet no
"""),
    ("no message waits", ["waiting"],
     [TRIANGLE, ANY_PATH, '{"prefix":"10.0.1.0/24","events":[["link_down","A","C"],["deliver","A","B"],["deliver","B","C"],["deliver","C","B"]]}'],
     DONE, """\
quiet yes
"""),
    ("events that are refused are passed over, and not told", ["waiting"],
     [TRIANGLE, ANY_PATH, '{"prefix":"10.0.1.0/24","events":[["deliver","B","C"],["link_down","A","B"],["link_down","A","B"],["link_up","B","B"]]}'],
     DONE, """\
waits A C path A
quiet no
"""),
    ("a router that goes and comes: its neighbours tell it anew", ["waiting"],
     [TWO_EXITS, EXITS, ('{"prefix":"198.51.100.0/24","events":[["deliver","P1","R1"],["deliver","R1","R2"],["router_down","R1"],["deliver",'
       '"P2","R2"],["router_up","R1"]]}')],
     DONE, """\
waits R2 R1 path R2 P2
waits P1 R1 path P1
quiet no
"""),
    ("what is on its way to a peer", ["waiting"],
     [TWO_EXITS, ENTER, '{"prefix":"10.0.1.0/24","events":[["deliver","R2","R1"]]}'],
     DONE, """\
waits R1 P1 path R1 R2
quiet no
"""),
    ("a prefix that no statement governs: the peers announce it", ["waiting"],
     [TWO_EXITS, "originate 10.0.1.0/24 at R2; 10.0.1.0/24 => any;", '{"prefix":"198.51.100.0/24","events":[]}'],
     DONE, """\
waits P1 R1 path P1
waits P2 R2 path P2
quiet no
"""),
    ("an event without a second name, before a bad prefix", ["waiting"],
     [TRIANGLE, ANY_PATH, '{"prefix":"x","events":[["deliver","A"]]}'],
     BAD_INPUT, "propane: events 2 shape place 1\n"),
    ("a name that the network hasn't", ["waiting"],
     [TRIANGLE, ANY_PATH, '{"prefix":"10.0.1.0/24","events":[["deliver","A","B"],["router_down","D"]]}'],
     BAD_INPUT, "propane: events 4 unknown place 2\n"),
    ("a policy that is refused", ["waiting"],
     [WAYPOINT_RING, "originate 10.0.1.0/24 at D; 10.0.1.0/24 => through(W) >> any;", '{"prefix":"10.0.1.0/24","events":[]}'],
     REFUSED, "propane: refused 6 no-evidence case 1 router W first W X D second W X D\n"),
]
