"""Events, and what `trace` says of them."""
from runs import ANY_PATH, ENTER, EXITS, DONE, BAD_INPUT
from runs.networks import TRIANGLE, TWO_EXITS

ROWS = [
    ("a link that goes down before the other router has heard", ["trace"],
     [TRIANGLE, ANY_PATH, ('{"prefix":"10.0.1.0/24","events":[["deliver","A","B"],["deliver","A","C"],["link_down","A","C"],["deliver","B","C"],'
       '["deliver","C","B"],["deliver","C","B"],["deliver","C","B"],["deliver","A","B"]]}')],
     DONE, """\
event 8 nothing-waits
quiet yes
prefix 10.0.1.0/24
class 1
router A origin
router B rank 1 path B A
router C rank 1 path C B A
"""),
    ("the same end by fewer events", ["trace"],
     [TRIANGLE, ANY_PATH, '{"prefix":"10.0.1.0/24","events":[["link_down","A","C"],["deliver","A","B"],["deliver","B","C"],["deliver","C","B"]]}'],
     DONE, """\
quiet yes
prefix 10.0.1.0/24
class 1
router A origin
router B rank 1 path B A
router C rank 1 path C B A
"""),
    ("three events that are refused, and a message that waits", ["trace"],
     [TRIANGLE, ANY_PATH, '{"prefix":"10.0.1.0/24","events":[["deliver","B","C"],["link_down","A","B"],["link_down","A","B"],["link_up","B","B"]]}'],
     DONE, """\
event 1 nothing-waits
event 3 not-up
event 4 no-link
quiet no
prefix 10.0.1.0/24
class 1
router A origin
router B none
router C none
"""),
    ("a link that comes up while it is up", ["trace"],
     [TRIANGLE, ANY_PATH, ('{"prefix":"10.0.1.0/24","events":[["link_down","A","C"],["deliver","A","B"],["deliver","B","C"],["link_up","B","C"],'
       '["deliver","C","B"]]}')],
     DONE, """\
event 4 not-down
quiet yes
prefix 10.0.1.0/24
class 1
router A origin
router B rank 1 path B A
router C rank 1 path C B A
"""),
    ("a link and a peer that go and come, and exits ranked", ["trace"],
     [TWO_EXITS, EXITS, ('{"prefix":"198.51.100.0/24","events":[["link_down","R1","P1"],["peer_silent","R1","P1"],["peer_speak","R1","P1"],'
       '["link_up","P1","R1"],["deliver","P1","R1"],["deliver","P2","R2"],["deliver","R1","R2"]]}')],
     DONE, """\
quiet no
prefix 198.51.100.0/24
class 1
router R1 rank 1 path R1 P1
router R2 rank 1 path R2 R1 P1
"""),
    ("a router that goes and comes, before all is heard", ["trace"],
     [TWO_EXITS, EXITS, ('{"prefix":"198.51.100.0/24","events":[["deliver","P1","R1"],["deliver","R1","R2"],["router_down","R1"],["deliver",'
       '"P2","R2"],["router_up","R1"],["deliver","P1","R1"],["deliver","R2","R1"],["deliver","R2","R1"],["deliver","R1",'
       '"R2"],["deliver","R1","R2"]]}')],
     DONE, """\
event 8 nothing-waits
event 10 nothing-waits
quiet no
prefix 198.51.100.0/24
class 1
router R1 rank 1 path R1 P1
router R2 rank 1 path R2 R1 P1
"""),
    ("a router that goes and comes, to the end", ["trace"],
     [TWO_EXITS, EXITS, ('{"prefix":"198.51.100.0/24","events":[["deliver","P1","R1"],["deliver","P2","R2"],["deliver","R1","R2"],["deliver",'
       '"R2","R1"],["router_down","R1"],["deliver","R2","P2"],["router_up","R1"],["deliver","P1","R1"],["deliver","R2",'
       '"R1"],["deliver","R1","R2"],["deliver","R2","R1"],["deliver","R1","R2"],["deliver","R2","R1"],["deliver","R2","P2"],'
       '["deliver","R1","P1"],["deliver","R2","P2"],["deliver","R1","P1"]]}')],
     DONE, """\
event 6 nothing-waits
event 12 nothing-waits
event 13 nothing-waits
event 14 nothing-waits
event 15 nothing-waits
event 16 nothing-waits
event 17 nothing-waits
quiet yes
prefix 198.51.100.0/24
class 1
router R1 rank 1 path R1 P1
router R2 rank 1 path R2 R1 P1
"""),
    ("a session that is entered: what its peer heard", ["trace"],
     [TWO_EXITS, ENTER, '{"prefix":"10.0.1.0/24","events":[["deliver","R2","R1"],["deliver","R1","P1"]]}'],
     DONE, """\
quiet yes
prefix 10.0.1.0/24
class 1
router R1 transit path R1 R2
router R2 origin
session R1 P1 rank 1 path P1 R1 R2
"""),
    ("a prefix that no statement governs: the peers announce it", ["trace"],
     [TWO_EXITS, "originate 10.0.1.0/24 at R2; 10.0.1.0/24 => any;", '{"prefix":"198.51.100.0/24","events":[]}'],
     DONE, """\
quiet no
prefix 198.51.100.0/24
class none
router R1 none
router R2 none
"""),
    ("every word of a refused event", ["trace"],
     [TWO_EXITS, EXITS, ('{"prefix":"198.51.100.0/24","events":[["router_down","P1"],["peer_silent","P1","R1"],["link_down","R1","P2"],'
       '["deliver","R1","R2"],["peer_speak","R1","P1"],["peer_silent","R1","P1"],["peer_silent","R1","P1"],["router_up",'
       '"R1"],["link_up","R1","R2"],["deliver","R1","P2"]]}')],
     DONE, """\
event 1 no-link
event 2 no-link
event 3 no-link
event 4 nothing-waits
event 5 not-down
event 7 not-up
event 8 not-down
event 9 not-down
event 10 no-link
quiet no
prefix 198.51.100.0/24
class 1
router R1 none
router R2 none
"""),
    ("an event without names", ["trace"],
     [TWO_EXITS, EXITS, '{"prefix":"x","events":[["deliver","Q","R2"],["deliver"]]}'],
     BAD_INPUT, "propane: events 2 shape place 2\n"),
    ("an unknown name before a bad prefix", ["trace"],
     [TWO_EXITS, EXITS, '{"prefix":"x","events":[["deliver","Q","R2"]]}'],
     BAD_INPUT, "propane: events 4 unknown place 1\n"),
    ("a link to a router that isn't in the network", ["trace"],
     [TRIANGLE, ANY_PATH, ('{"prefix":"10.0.1.0/24","events":[["link_down","A","C"],["deliver","A","B"],["deliver","B","C"],["link_up","B","D"],'
       '["deliver","C","B"]]}')],
     BAD_INPUT, "propane: events 4 unknown place 4\n"),
    ("a prefix with a bit past its length", ["trace"],
     [TWO_EXITS, EXITS, '{"prefix":"10.0.0.1/24","events":[]}'],
     BAD_INPUT, "propane: events 5 bad-prefix\n"),
]
