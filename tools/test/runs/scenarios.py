"""Texts of scenarios: which are read, and the faults of the others."""
from runs import EXITS, DONE, BAD_INPUT
from runs.networks import TWO_EXITS

ROWS = [
    ("no failures", ["replay"], [TWO_EXITS, EXITS, '{"prefix":"10.0.1.0/24","dead":[],"dead_links":[],"silent":[]}'], DONE, """\
prefix 10.0.1.0/24
class 1
router R1 rank 1 path R1 P1
router R2 rank 1 path R2 R1 P1
"""),
    ("another order, a key twice, names and pairs twice", ["replay"],
     [TWO_EXITS, EXITS, ('{"silent":[["P1","R1"],["R1","P1"]],"dead":[0],"dead":["R1","R1","P2"],"prefix":"0.0.0.0/0","dead_links":[["R2",'
       '"R1"],["R1","R2"]]} ')],
     DONE, """\
prefix 0.0.0.0/0
class 1
router R1 dead
router R2 none
"""),
    ("cut off", ["replay"],
     [TWO_EXITS, EXITS, '{"prefix":"10.0.1.0/24","dead":[],"dead_links":[],"silent":[]'],
     BAD_INPUT, "propane: scenario 1 not-json\n"),
    ("an array", ["replay"], [TWO_EXITS, EXITS, "[]"], BAD_INPUT, "propane: scenario 2 shape top\n"),
    ("a key too few", ["replay"],
     [TWO_EXITS, EXITS, '{"prefix":"10.0.1.0/24","dead":[],"dead_links":[]}'],
     BAD_INPUT, "propane: scenario 2 shape top\n"),
    ("a further key", ["replay"],
     [TWO_EXITS, EXITS, '{"prefix":0,"dead":[],"dead_links":[],"silent":[],"more":0}'],
     BAD_INPUT, "propane: scenario 2 shape top\n"),
    ("a number for the prefix and for the dead", ["replay"],
     [TWO_EXITS, EXITS, '{"prefix":0,"dead":0,"dead_links":[],"silent":[]}'],
     BAD_INPUT, "propane: scenario 2 shape prefix\n"),
    ("a number among the dead", ["replay"],
     [TWO_EXITS, EXITS, '{"prefix":"","dead":["R1",1],"dead_links":0,"silent":[]}'],
     BAD_INPUT, "propane: scenario 2 shape dead\n"),
    ("a link of three ends", ["replay"],
     [TWO_EXITS, EXITS, '{"prefix":"","dead":[],"dead_links":[["R1","R2","R1"]],"silent":0}'],
     BAD_INPUT, "propane: scenario 2 shape dead_links\n"),
    ("a silent name", ["replay"],
     [TWO_EXITS, EXITS, '{"prefix":"","dead":[""],"dead_links":[],"silent":["P1"]}'],
     BAD_INPUT, "propane: scenario 2 shape silent\n"),
    ("names that are unknown in each field", ["replay"],
     [TWO_EXITS, EXITS, '{"prefix":"","dead":["R1","1x"],"dead_links":[["R1","Q"]],"silent":[["Q","P1"]]}'],
     BAD_INPUT, "propane: scenario 3 unknown dead\n"),
    ("an end and a silent name that are unknown", ["replay"],
     [TWO_EXITS, EXITS, '{"prefix":"","dead":[],"dead_links":[["P1","P1"],["Q","R1"]],"silent":[["Q","P1"]]}'],
     BAD_INPUT, "propane: scenario 3 unknown dead_links\n"),
    ("a silent name that is unknown behind a link that isn't there", ["replay"],
     [TWO_EXITS, EXITS, '{"prefix":"","dead":[],"dead_links":[["P1","R2"]],"silent":[["P1","r1"]]}'],
     BAD_INPUT, "propane: scenario 3 unknown silent\n"),
    ("a link that isn't there, second", ["replay"],
     [TWO_EXITS, EXITS, '{"prefix":"","dead":[],"dead_links":[["P1","R1"],["P1","R2"]],"silent":[["P1","P2"]]}'],
     BAD_INPUT, "propane: scenario 4 no-link place 2\n"),
    ("a name twice in a pair, and a bad prefix", ["replay"],
     [TWO_EXITS, EXITS, '{"prefix":"x","dead":[],"dead_links":[["R1","R1"]],"silent":[]}'],
     BAD_INPUT, "propane: scenario 4 no-link place 1\n"),
    ("a silent pair of routers", ["replay"],
     [TWO_EXITS, EXITS, '{"prefix":"x","dead":[],"dead_links":[],"silent":[["R1","R2"]]}'],
     BAD_INPUT, "propane: scenario 5 not-peer-link place 1\n"),
    ("a silent pair that is no link, third", ["replay"],
     [TWO_EXITS, EXITS, '{"prefix":"x","dead":[],"dead_links":[],"silent":[["R1","P1"],["P1","R1"],["R1","P2"]]}'],
     BAD_INPUT, "propane: scenario 5 not-peer-link place 3\n"),
    ("a bit past the length", ["replay"],
     [TWO_EXITS, EXITS, '{"prefix":"10.0.1.1/24","dead":[],"dead_links":[],"silent":[]}'],
     BAD_INPUT, "propane: scenario 6 bad-prefix\n"),
    ("an octet of three figures with a zero", ["replay"],
     [TWO_EXITS, EXITS, '{"prefix":"10.000.1.0/24","dead":["P2"],"dead_links":[],"silent":[]}'],
     BAD_INPUT, "propane: scenario 6 bad-prefix\n"),
    ("a name with a letter written as its number", ["replay"],
     [TWO_EXITS, EXITS, '{"prefix":"10.0.1.0/24","dead":["\\u0052\\u0031"],"dead_links":[],"silent":[]}'],
     DONE, """\
prefix 10.0.1.0/24
class 1
router R1 dead
router R2 rank 2 path R2 P2
"""),
]
