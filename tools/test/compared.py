"""Policies that are compared, each pair with what `compare` writes of it; and a program that writes just that of them.

With it the scripts are tried on comparisons whose text is known. Where PROGRAM has the command, a test asks it for the same texts.
"""
from __future__ import annotations

import os
from dataclasses import dataclass

from common import PROGRAM, ended
from serving import contrary, example, text_of

ABILENE, LEAVES, RING = "cookbook/abilene", "cookbook/leaves", "waypoint-ring/topology"


@dataclass(frozen=True)
class Row:
    """A pair of policies on a network: the old one is of examples/, and the new one has one part in the place of another."""

    name: str
    network: str
    policy: str
    part: str
    instead: str
    text: str

    def topology(self) -> str:
        return example(*f"{self.network}.json".split("/"))

    def old_file(self) -> str:
        return example(*f"{self.policy}.propane".split("/"))

    def old(self) -> str:
        return text_of(self.old_file())

    def new(self) -> str:
        assert self.part in self.old(), self.name
        return self.old().replace(self.part, self.instead)


RINGED = "10.0.1.0/24 => through(W) >> any;"
TOLD_OF_RING = """change statement 1 now 1
prefix 10.0.1.0/24
origins routers D
"""
ROWS = (
    Row("the same", ABILENE, "cookbook/exits", "exit(West >> East >> any)", "(exit(West) >> exit(East) >> any)", "cases 1 changed 0\n"),
    Row("swapped", ABILENE, "cookbook/exits", "West >> East", "East >> West", """change statement 1 now 1
prefix 0.0.0.0/0 le 32
origins peers
differs reordered
all routers
rank 1 now 2 path STTL SNVA West
rank 2 now 1 path STTL DNVR KSCY IPLS CHIN NYCM East
cases 1 changed 1
"""),
    Row("avoided", ABILENE, "cookbook/exits", "exit(West >> East >> any)", "exit(West >> East >> any) and avoid(KSCY)", """change statement 1 now 1
prefix 0.0.0.0/0 le 32
origins peers
differs lost
all routers but KSCY
rank 1 now none path LOSA HSTN KSCY DNVR SNVA West
rank 2 now none path LOSA HSTN KSCY IPLS CHIN NYCM East
rank 3 now none path LOSA HSTN KSCY IPLS Campus
differs unclaimed
routers KSCY
rank 1 now none path KSCY DNVR SNVA West
carriers lost
routers KSCY
cases 1 changed 1
"""),
    Row("a region softened", ABILENE, "cookbook/region", "notransit(SOUTH);", "notransit(SOUTH) >> any;", """change statement 1 now 1
prefix 10.1.0.0/16
origins routers WASH
differs gained
all routers
all sessions but ATLA Campus
rank none now 2 path STTL SNVA LOSA HSTN ATLA WASH
differs claimed
sessions ATLA Campus
rank none now 2 path Campus ATLA WASH
cases 1 changed 1
"""),
    Row("shorter", LEAVES, "cookbook/leaves", "le 32", "le 24", """change statement 1 now 2
prefix 10.0.0.0/16 le 32 as 10.0.0.0/25
origins peers
differs claimed
all routers but S2
rank none now 1 path L1 S1 W1
differs claimed
routers S2
rank none now 2 path S2 W2
carriers gained
all routers
cases 7 changed 1
"""),
    Row("opened", LEAVES, "cookbook/leaves", "internal and ", "", """change statement 1 now 1
prefix 10.0.1.0/24 to 10.0.4.0/24
origins all routers but S1 S2
differs claimed
all sessions
rank none now 1 path W1 S1 L1
change statement 1 now 1
prefix 10.0.0.0/16 le 32
origins peers
differs claimed
all routers
rank none now 1 path L1 S1 W1
carriers gained
all routers
cases 6 changed 5
"""),
    Row("a second origin", LEAVES, "cookbook/leaves", "at L4;", "at L4, L3;", """change statement 1 now 1
prefix 10.0.4.0/24
origins kept routers L4
origins gained routers L3
differs gained
all routers
rank none now 1 path L1 S1 L3
cases 6 changed 1
"""),
    Row("ring, nothing carried", RING, "waypoint-ring/policy", RINGED, "10.0.1.0/24 => notransit(X, Y) and (through(W) >> any);",
        TOLD_OF_RING + """differs lost
all routers but W
rank 1 now none path Y W X D
differs unclaimed
routers W
rank 1 now none path W X D
carriers lost
routers W
cases 1 changed 1
"""),
    Row("ring, one way", RING, "waypoint-ring/policy", RINGED,
        "10.0.1.0/24 => through(W) and not link(X, { D, Y }) and not link({ D, Y, W }, X) >> any from X, W;", TOLD_OF_RING + """differs reordered
routers X
rank 1 now 1 path X W Y D
rank 1 now 2 walk X W X D
rank 2 now 2 path X D
differs reordered
routers W
rank 1 now 1 path W Y D
rank 1 now 2 path W X D
differs unclaimed
routers Y
rank 1 now none path Y W X D
cases 1 changed 1
"""),
    Row("ring, no way back", RING, "waypoint-ring/policy", RINGED, "10.0.1.0/24 => notransit(W) and (through(W) >> any);", TOLD_OF_RING + """differs lost
all routers
rank 1 now none path Y W X D
cases 1 changed 1
"""),
    Row("ring, fewer sources", RING, "waypoint-ring/policy", RINGED, "10.0.1.0/24 => through(W) >> any from W;", TOLD_OF_RING + """differs unclaimed
all routers but W
rank 1 now none path Y W X D
cases 1 changed 1
"""),
)
LOOKED_UP = """for row in '%s'/*/; do
    cmp -s "$2" "$row/topology" && cmp -s "$3" "$row/old" && cmp -s "$4" "$row/new" && exec cat "$row/told"
done
echo 'propane: usage: compare TOPO OLD NEW' >&2
exit 2
"""


def row_of(name: str) -> Row:
    return next(row for row in ROWS if row.name == name)


def comparing(folder: str) -> str:
    """A program in a folder that writes the texts of the rows where it is asked for them, and is PROGRAM in all but comparing."""
    rows = os.path.join(folder, "rows")
    for number, row in enumerate(ROWS):
        path = os.path.join(rows, str(number))
        os.makedirs(path)
        for name, text in ("topology", text_of(row.topology())), ("old", row.old()), ("new", row.new()), ("told", row.text):
            with open(os.path.join(path, name), "w", encoding="utf-8") as file:
                file.write(text)
    return contrary(folder, "compare", LOOKED_UP % rows)


def is_known() -> bool:
    """Whether PROGRAM has the command."""
    return "compare TOPO OLD NEW" in ended([PROGRAM])[2]
