"""Policies that are linted: the findings of each, or the limit that it passes."""
from runs import ANY_PATH, DONE, REFUSED
from runs.networks import LINE, TWO_EXITS, TWO_ROUTERS

ROWS = [
    ("a group, a statement and alternatives that never matter", ["lint"],
     [LINE, "define U = { C }; originate 10.0.5.0/24 at A, D; 10.0.5.0/24 => end(A >> D) >> drop; 10.0.5.0/24 => any;"],
     DONE, """\
unused group U
covered statement 2
idle statement 2
unreached statement 1 alternative 1
unreached statement 1 alternative 3
findings 5
"""),
    ("patterns that cover another one together", ["lint"],
     [TWO_EXITS, "10.0.0.0/8 or 10.0.0.0/9 le 32 or 10.128.0.0/9 le 32 => any; 10.0.0.0/8 le 32 => drop;"],
     DONE, """\
covered statement 2
unreached statement 2 alternative 1
findings 2
"""),
    ("all but the prefix itself is covered", ["lint"],
     [TWO_EXITS, "10.0.0.0/9 le 32 or 10.128.0.0/9 le 32 => any; 10.0.0.0/8 le 32 => drop;"],
     DONE, """\
unreached statement 2 alternative 1
findings 1
"""),
    ("nothing is found", ["lint"], [TWO_ROUTERS, ANY_PATH], DONE, "findings 0\n"),
    ("72 alternatives", ["lint"],
     [TWO_ROUTERS, ("originate 10.0.1.0/24 at A; 10.0.1.0/24 => end(A >> B >> A >> B >> A >> B >> A >> B >> A) and end(A >> B >> A >> B >> A >> B >> A >> B);")],
     REFUSED, "propane: refused 1 too-many-ranks case 1 number 72\n"),
]
