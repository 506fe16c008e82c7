"""Texts of events: which are read, and the faults of the others."""
from runs import EXITS, DONE, BAD_INPUT
from runs.networks import TWO_EXITS

ROWS = [
    ("no events", ["trace"], [TWO_EXITS, EXITS, '{"prefix":"10.0.1.0/24","events":[]}'], DONE, """\
quiet no
prefix 10.0.1.0/24
class 1
router R1 none
router R2 none
"""),
    ("each word, another order, a key twice", ["trace"],
     [TWO_EXITS, EXITS, ('{"events":0,"events":[["deliver","P1","R1"],["link_down","R2","R1"],["link_up","R1","R2"],["router_down","R2"],'
       '["router_up","R2"],["peer_speak","R2","P2"],["peer_silent","R2","P2"]],"prefix":"0.0.0.0/0"} ')],
     DONE, """\
event 6 not-down
quiet no
prefix 0.0.0.0/0
class 1
router R1 rank 1 path R1 P1
router R2 none
"""),
    ("what can't happen", ["trace"],
     [TWO_EXITS, EXITS, ('{"prefix":"10.0.1.0/24","events":[["link_down","P1","P2"],["link_up","R1","R1"],["router_down","P1"],["peer_speak",'
       '"P1","R1"]]}')],
     DONE, """\
event 1 no-link
event 2 no-link
event 3 no-link
event 4 no-link
quiet no
prefix 10.0.1.0/24
class 1
router R1 none
router R2 none
"""),
    ("a word with a letter written as its number", ["trace"],
     [TWO_EXITS, EXITS, '{"prefix":"10.0.1.0/24","events":[["\\u0064eliver","P1","R1"]]}'],
     DONE, """\
quiet no
prefix 10.0.1.0/24
class 1
router R1 rank 1 path R1 P1
router R2 none
"""),
    ("cut off", ["trace"], [TWO_EXITS, EXITS, '{"prefix":"10.0.1.0/24","events":[]'], BAD_INPUT, "propane: events 1 not-json\n"),
    ("an array", ["trace"], [TWO_EXITS, EXITS, "[]"], BAD_INPUT, "propane: events 2 shape place 0\n"),
    ("a key too few", ["trace"], [TWO_EXITS, EXITS, '{"prefix":"10.0.1.0/24"}'], BAD_INPUT, "propane: events 2 shape place 0\n"),
    ("a further key", ["trace"],
     [TWO_EXITS, EXITS, '{"prefix":"10.0.1.0/24","events":[],"more":0}'],
     BAD_INPUT, "propane: events 2 shape place 0\n"),
    ("a number for the prefix, and an event that is none", ["trace"],
     [TWO_EXITS, EXITS, '{"prefix":0,"events":[0]}'],
     BAD_INPUT, "propane: events 2 shape place 0\n"),
    ("an object for the events", ["trace"],
     [TWO_EXITS, EXITS, '{"prefix":"","events":{}}'],
     BAD_INPUT, "propane: events 2 shape place 0\n"),
    ("a text for an event", ["trace"],
     [TWO_EXITS, EXITS, '{"prefix":"","events":["router_up"]}'],
     BAD_INPUT, "propane: events 2 shape place 1\n"),
    ("an empty event", ["trace"], [TWO_EXITS, EXITS, '{"prefix":"","events":[[]]}'], BAD_INPUT, "propane: events 2 shape place 1\n"),
    ("a capital", ["trace"],
     [TWO_EXITS, EXITS, '{"prefix":"","events":[["Deliver","P1","R1"]]}'],
     BAD_INPUT, "propane: events 2 shape place 1\n"),
    ("a name too many", ["trace"],
     [TWO_EXITS, EXITS, '{"prefix":"","events":[["router_up","R1"],["deliver","P1","R1","R2"]]}'],
     BAD_INPUT, "propane: events 2 shape place 2\n"),
    ("a name too few", ["trace"],
     [TWO_EXITS, EXITS, '{"prefix":"","events":[["link_down","P1"]]}'],
     BAD_INPUT, "propane: events 2 shape place 1\n"),
    ("two names for a router", ["trace"],
     [TWO_EXITS, EXITS, '{"prefix":"","events":[["router_down","R1","R2"]]}'],
     BAD_INPUT, "propane: events 2 shape place 1\n"),
    ("a number for a name", ["trace"],
     [TWO_EXITS, EXITS, '{"prefix":"","events":[["router_down","R1"],["link_up","R1","R2"],["link_up","R1",2]]}'],
     BAD_INPUT, "propane: events 2 shape place 3\n"),
    ("an unknown name, and then an unknown word", ["trace"],
     [TWO_EXITS, EXITS, '{"prefix":"","events":[["router_down","Q"],["reboot","R1"]]}'],
     BAD_INPUT, "propane: events 2 shape place 2\n"),
    ("an unknown name first", ["trace"],
     [TWO_EXITS, EXITS, '{"prefix":"x","events":[["router_down","R1"],["deliver","Q","R1"],["router_down","q"]]}'],
     BAD_INPUT, "propane: events 4 unknown place 2\n"),
    ("an unknown name second", ["trace"],
     [TWO_EXITS, EXITS, '{"prefix":"x","events":[["peer_silent","R1","p1"]]}'],
     BAD_INPUT, "propane: events 4 unknown place 1\n"),
    ("a text that can be no name", ["trace"],
     [TWO_EXITS, EXITS, '{"prefix":"10.0.1.0/24","events":[["router_up","1x"]]}'],
     BAD_INPUT, "propane: events 4 unknown place 1\n"),
    ("a bit past the length", ["trace"],
     [TWO_EXITS, EXITS, '{"prefix":"10.0.1.1/24","events":[]}'],
     BAD_INPUT, "propane: events 5 bad-prefix\n"),
    ("no prefix at all", ["trace"],
     [TWO_EXITS, EXITS, '{"prefix":"","events":[["router_up","P1"]]}'],
     BAD_INPUT, "propane: events 5 bad-prefix\n"),
]
