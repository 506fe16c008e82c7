"""The forms of the lines that commands write, each with what a reader is to find in it: one table, to which the reader of the page of
tools/open (opening/web/read.js) and those of tools/reasons and tools/texts are held. docs/FORMATS.md has the forms.
"""
from __future__ import annotations

from dataclasses import dataclass, field
from typing import Any

CASE = "case 2 5 statement 3\nprefix 10.0.1.0/24,10.0.2.0/24 10.0.5.0/24\norigin R3 R2,R3\n"  # of which readers show the first
CUT_LINK, CUT_ROUTER = "cut link R1 P1 moves 2 shifts 3\n", "cut router R2 moves 0 shifts 1\n"
CHANGE = "change statement 1 now 2\n"
DIFFERS = CHANGE + "prefix 10.0.1.0/24\norigins peers\ndiffers lost\n"
COUNTED = "cases 1 unclaimed 0 transit 0 covered 0 unused 0 uncarried 0 open 0 apart 0"  # the last line of promises
NAMES = ("R1", "R2", "R3", "P1", "P2")  # routers and peers of the lines


@dataclass(frozen=True)
class Row:
    """A line of a reader's text, the lines that stand before it, and what the reader finds: by name, as JSON."""

    reader: str
    line: str
    says: dict[str, Any] = field(default_factory=dict)
    before: str = ""

    def text(self) -> str:
        return f"{self.before}{self.line}\n"


def router(name: str, state: str, rank: int = 0, path: str = "") -> dict[str, Any]:
    return {"routers": [[name, state, rank, path.split()]]}


def session(name: str, peer: str, state: str, rank: int = 0, path: str = "") -> dict[str, Any]:
    return {"sessions": [[name, peer, state, rank, path.split()]]}


def sends(name: str, state: str, rank: int = 0, hops: int = 0, after: str = "") -> dict[str, Any]:
    return {"routers": [[name, state, rank, hops, after.split()]]}


ROWS = (
    Row("report", "prefix 198.51.100.0/24", {"prefix": "198.51.100.0/24"}),
    Row("report", "class 1", {"class": "1"}),
    Row("report", "class none", {"class": "none"}),
    Row("report", "event 3 not-up", {"events": [[3, "not-up"]]}),
    Row("report", "quiet yes", {"quiet": True}),
    Row("report", "quiet no", {"quiet": False}),
    Row("report", "rounds 3", {"rounds": 3}),
    Row("report", "deliveries 4", {"deliveries": 4}),
    Row("report", "router R1 dead", router("R1", "dead")),
    Row("report", "router R1 origin", router("R1", "origin")),
    Row("report", "router R1 none", router("R1", "none")),
    Row("report", "router R1 rank 12 path R1 R2 P2", router("R1", "rank", 12, "R1 R2 P2")),
    Row("report", "router R1 transit path R1 R2", router("R1", "transit", 0, "R1 R2")),
    Row("report", "session R1 P1 rank 1 path P1 R1 R2", session("R1", "P1", "rank", 1, "P1 R1 R2")),
    Row("report", "session R1 P1 none", session("R1", "P1", "none")),
    Row("promises", "statement 3", {"ranks": [[3, []]]}, CASE),
    Row("promises", "rank 2 exit(P1) and avoid(R2)", {"ranks": [[3, ["exit(P1) and avoid(R2)"]]]}, "statement 3\n"),
    Row("promises", "case 2 statement 3", {"cases": [[2, 3]]}),
    Row("promises", "case 2 4 statement 3", {"cases": [[2, 3], [4, 3]]}),
    Row("promises", "prefix 10.0.0.0/8 le 24", {"prefixes": ["10.0.0.0/8 le 24"]}, "case 2 statement 3\n"),
    Row("promises", "prefix 10.0.1.0/24,10.0.0.0/8 le 24,10.0.2.0/24", {"prefixes": ["10.0.1.0/24", "10.0.0.0/8 le 24", "10.0.2.0/24"]},
        "case 2 statement 3\n"),
    Row("promises", "prefix 10.0.1.0/24 10.0.0.0/8 le 24", {"prefixes": ["10.0.1.0/24"]}, "case 2 4 statement 3\n"),
    Row("promises", "origin R3", {"origins": ["R3"]}, "case 2 statement 3\n"),
    Row("promises", "origin R3,R1 R2", {"origins": ["R3", "R1"]}, "case 2 4 statement 3\n"),
    Row("promises", "origin peers", {"origins": ["peers"]}, "case 2 statement 3\n"),
    Row("promises", "source router R1 rank 2", {"sources": [["R1", "", 2]]}, CASE),
    Row("promises", "source router R1 R2 R3 rank 2", {"sources": [["R1", "", 2], ["R2", "", 2]]}, CASE),
    Row("promises", "source session R1 P1 rank 1", {"sources": [["R1", "P1", 1]]}, CASE),
    Row("promises", "source session R1 P1 R3 P2 rank 1", {"sources": [["R1", "P1", 1], ["R3", "P2", 1]]}, CASE),
    Row("promises", "unclaimed router R1 R2 R3", {"unclaimed": ["router R1", "router R2"]}, CASE),
    Row("promises", "unclaimed session R1 P2 R3 P2", {"unclaimed": ["session R1 P2", "session R3 P2"]}, CASE),
    Row("promises", "unclaimed peer P1 P2", {"unclaimed": ["peer P1", "peer P2"]}, CASE),
    Row("promises", "transit router R2 R3", {"transit": ["R2"]}, CASE),
    Row("promises", "covered", {"covered": [2]}, CASE),
    Row("promises", "unused origin R2 R3", {"unused": ["R3"]}, CASE),
    Row("promises", "uncarried 10.0.9.0/24 10.0.8.0/24", {"uncarried": ["10.0.9.0/24", "10.0.8.0/24"]}, CASE),
    Row("promises", "open 10.0.9.0/28 in 10.0.9.0/24 case 2", {"open": [["10.0.9.0/28", "10.0.9.0/24", 2]]}, CASE),
    Row("promises", "open 10.0.9.0/24 le 32 case 2", {"open": [["10.0.9.0/24 le 32", "10.0.9.0/24", 2]]}, CASE),
    Row("promises", "open 10.0.8.0/24 le 32, 10.0.9.0/26 le 28 in 10.0.9.0/24, 10.0.9.64/27 in 10.0.9.0/24, 10.0.7.0/24 le 25 case 2",
        {"open": [["10.0.8.0/24 le 32", "10.0.8.0/24", 2], ["10.0.9.0/26 le 28", "10.0.9.0/24", 2], ["10.0.9.64/27", "10.0.9.0/24", 2],
                  ["10.0.7.0/24 le 25", "10.0.7.0/24", 2]]}, CASE),
    Row("promises", "apart statement 3 alternatives 1 2", {"apart": [[3, 1, 2]]}, CASE),
    Row("promises", COUNTED, {"last": COUNTED}, CASE),
    Row("cuts", "base router R1 rank 2"),
    Row("cuts", "base session R1 P1 none"),
    Row("cuts", "cut link R1 P1 moves 2 shifts 3", {"cut": ["link", "P1~R1", 2, 3]}),
    Row("cuts", "cut link R1 P1", {"cut": ["link", "P1~R1", 0, 0]}),
    Row("cuts", "cut router R2 moves 0 shifts 1", {"cut": ["router", "R2", 0, 1]}),
    Row("cuts", "router R1 rank 3", {"worse": [["R1", 3]]}, CUT_LINK),
    Row("cuts", "session R1 P1 rank 2", {"worse": [["R1–P1", 2]]}, CUT_LINK),
    Row("cuts", "router R1 none", {"lost": ["R1"]}, CUT_LINK),
    Row("cuts", "session R1 P1 none", {"lost": ["R1–P1"]}, CUT_LINK),
    Row("cuts", "router R2 none", {}, CUT_ROUTER),  # a router that is cut has lost nothing by it
    Row("cuts", "router R1 none", {"lost": ["R1"]}, CUT_ROUTER),
    Row("cuts", "cuts 5 changed 4", {"last": "cuts 5 changed 4"}),
    Row("free", "free link R2 R1", {"free": ["R1~R2"]}),
    Row("free", "free router R3", {"free": ["R3"]}),
    Row("free", "free 2 of 6", {"last": "free 2 of 6"}),
    Row("spread", "prefix 198.51.100.0/24"),
    Row("spread", "class 1"),
    Row("spread", "router R1 dead", sends("R1", "dead")),
    Row("spread", "router R1 origin", sends("R1", "origin")),
    Row("spread", "router R1 none", sends("R1", "none")),
    Row("spread", "router R1 rank 12 hops 2 next R2 R3", sends("R1", "rank", 12, 2, "R2 R3")),
    Row("spread", "router R1 transit hops 1 next R2 R3", sends("R1", "transit", 0, 1, "R2 R3")),
    Row("spread", "session R1 P1 rank 1 hops 3", {"sessions": [["R1", "P1", "rank", 1, 3, []]]}),
    Row("spread", "session R1 P1 none", {"sessions": [["R1", "P1", "none", 0, 0, []]]}),
    Row("spread", "idle link R2 R1", {"idle": ["R1~R2"]}),
    Row("spread", "idle 1 of 5", {"last": "idle 1 of 5"}),
    Row("waits", "waits R1 R2 path R1 R3 P1", {"waits": [["R1", "R2", [["R1", "R3", "P1"]]]]}),
    Row("waits", "waits R1 R2 withdraw", {"waits": [["R1", "R2", [None]]]}),
    Row("waits", "waits R1 R2 withdraw", {"waits": [["R1", "R2", [["R1", "P1"], None]]]}, "waits R1 R2 path R1 P1\n"),
    Row("waits", "waits R2 R1 withdraw", {"waits": [["R1", "R2", [["R1", "P1"]]], ["R2", "R1", [None]]]}, "waits R1 R2 path R1 P1\n"),
    Row("waits", "quiet no"),
    Row("waits", "quiet yes"),
    Row("compared", "change statement 1 now none", {"changes": [[1, None]]}),
    Row("compared", "change statement none now 3", {"changes": [[None, 3]]}),
    Row("compared", "prefix 10.0.1.0/24", {"prefixes": ["10.0.1.0/24"]}, CHANGE),
    Row("compared", "prefix 10.0.1.0/24 to 10.0.4.0/24", {"prefixes": ["10.0.1.0/24 to 10.0.4.0/24"]}, CHANGE),
    Row("compared", "prefix 10.0.0.0/8 le 24 as 10.0.0.0/10", {"prefixes": ["10.0.0.0/8 le 24 as 10.0.0.0/10"]}, CHANGE),
    Row("compared", "origins peers", {"origins": [["", None]]}, CHANGE),
    Row("compared", "origins routers R1 R2", {"origins": [["", [False, ["R1", "R2"]]]]}, CHANGE),
    Row("compared", "origins lost peers", {"origins": [["lost", None]]}, CHANGE),
    Row("compared", "origins kept all routers", {"origins": [["kept", [True, []]]]}, CHANGE),
    Row("compared", "origins gained all routers but R3", {"origins": [["gained", [True, ["R3"]]]]}, CHANGE),
    Row("compared", "differs lost reordered", {"differs": [["lost", "reordered"]]}, CHANGE),
    Row("compared", "only 10.0.1.0/24", {"part": ["only 10.0.1.0/24"]}, DIFFERS),
    Row("compared", "but 10.0.1.0/24 to 10.0.2.0/24", {"part": ["but 10.0.1.0/24 to 10.0.2.0/24"]}, DIFFERS),
    Row("compared", "routers R1 R2", {"routers": [False, ["R1", "R2"]]}, DIFFERS),
    Row("compared", "all routers", {"routers": [True, []]}, DIFFERS),
    Row("compared", "all routers but R1 R2", {"routers": [True, ["R1", "R2"]]}, DIFFERS),
    Row("compared", "sessions R1 P1, R2 P2", {"sessions": [False, ["R1 P1", "R2 P2"]]}, DIFFERS),
    Row("compared", "all sessions", {"sessions": [True, []]}, DIFFERS),
    Row("compared", "all sessions but R1 P1, R2 P2", {"sessions": [True, ["R1 P1", "R2 P2"]]}, DIFFERS),
    Row("compared", "rank 1 now none path R1 R2 P1", {"rows": [[1, None, True, ["R1", "R2", "P1"]]]}, DIFFERS),
    Row("compared", "rank none now 12 walk R1 R2 R1 P1", {"rows": [[None, 12, False, ["R1", "R2", "R1", "P1"]]]}, DIFFERS),
    Row("compared", "carriers lost", {"carriers": ["lost"]}, DIFFERS),
    Row("compared", "routers R1 R2", {"routers": [False, ["R1", "R2"]]}, DIFFERS + "carriers gained\n"),
    Row("compared", "cases 7 changed 1", {"last": [7, 1]}, DIFFERS),
)


def rows(reader: str) -> list[Row]:
    return [row for row in ROWS if row.reader == reader]
