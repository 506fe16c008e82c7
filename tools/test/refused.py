"""Policies as people write them at the first try, each refused, with the repairs that do what was wanted.

A network is its links; a name that begins with `@` there is a peer. A wanted repair is compared with locations in the place of groups.
"""
from __future__ import annotations

import json
from dataclasses import dataclass

REGIONS = "N1-N2 N2-N3 N3-N1 S1-S2 S2-S3 S3-S1 N1-S1 N3-S3 N2-@P1 S2-@P2"
BRANCHES = "C1-C2 B1-C1 B1-C2 B2-C1 B2-C2 C1-@ISP B1-@Local"
HOME = "A-B B-C C-A HOME-A HOME-B C-@ISP"
HUBS = "H1-H2 S1-H1 S1-H2 S2-H1 S2-H2 S3-H1 S3-H2 S4-H1 S4-H2"
SPINES = " ".join(f"L{leaf}-S{spine}" for leaf in range(1, 5) for spine in range(1, 4))
PAIR = " ".join(f"L{leaf}-S{spine}" for leaf in range(1, 5) for spine in range(1, 3))
RING = "R1-R2 R2-R3 R3-R4 R4-R5 R5-R6 R6-R1 R4-@Cust"
FILTERS = "E1-F1 E1-F2 E2-F1 E2-F2 F1-C1 F1-C2 F2-C1 F2-C2 C1-C2 E1-@ISP"
ABILENE = ("STTL-DNVR STTL-SNVA SNVA-DNVR SNVA-LOSA DNVR-KSCY LOSA-HSTN KSCY-HSTN KSCY-IPLS HSTN-ATLA IPLS-CHIN IPLS-ATLA CHIN-NYCM "
           "NYCM-WASH ATLA-WASH SNVA-@West NYCM-@East IPLS-@Campus ATLA-@Campus")
NORTH_SOUTH = "define NORTH = { N1, N2, N3 };\ndefine SOUTH = { S1, S2, S3 };\n"
LEAVES = "define LEAVES = { L1, L2, L3, L4 };\n"


@dataclass(frozen=True)
class Trial:
    """What was tried: its name, the network, what stands above the statement, the statement, and what would do."""

    name: str
    network: str
    above: str
    tried: str
    wanted: tuple[str, ...]

    def topology(self) -> str:
        """The text of the network: routers in the order of their links, then peers."""
        links = [link.split("-") for link in self.network.split()]
        names = list(dict.fromkeys(name for link in links for name in link))
        routers, peers = ([name for name in names if name.startswith("@") == is_peer] for is_peer in (False, True))
        sites = [{"name": name.lstrip("@"), "asn": (1001 if name.startswith("@") else 64512) + at, "id": f"10.255.0.{at + 1}"}
                 for at, name in enumerate(routers + peers)]
        ends = [[name.lstrip("@") for name in link] for link in links]
        return json.dumps({"routers": sites[:len(routers)], "peers": sites[len(routers):], "links": ends})


TRIALS = (
    Trial("start by region", REGIONS, NORTH_SOUTH,
          "true => start(NORTH) and exit(P1) >> start(SOUTH) and exit(P2) >> exit(P1, P2);",
          ("true => exit(P1) and avoid(SOUTH) or exit(P2) and avoid(NORTH) >> exit(P1, P2);",)),
    Trial("breakout", BRANCHES, "",
          "true => start(B1) and exit(Local) >> exit(ISP);",
          ("true => notransit(B1) and (start(B1) and exit(Local) >> exit(ISP));",
           "true => notransit(B1, B2) and (start(B1) and exit(Local) >> exit(ISP));",
           "true => start(B1) and exit(Local) >> notransit(B1) and exit(ISP);")),
    Trial("a home with a backup", HOME, "",
          "true => link(HOME, A) >> link(HOME, B) from HOME;",
          ("true => not link({ B, HOME }, { B, HOME }) >> any from HOME;", "true => not link(HOME, B) >> link(HOME, B) from HOME;",
           "true => not link({ B, HOME }, { B, HOME }) >> link(HOME, B) from HOME;",
           "true => notransit(HOME) and (link(HOME, A) >> link(HOME, B)) from HOME;")),
    Trial("hub and spoke by hub", HUBS, "define SPOKES = { S1, S2, S3, S4 };\noriginate 10.0.4.0/24 at S4;\n",
          "10.0.4.0/24 => through(H1 >> H2);",
          ("10.0.4.0/24 => avoid(H2) >> through(H2);", "10.0.4.0/24 => avoid(H2) >> any;",
           "10.0.4.0/24 => notransit(SPOKES) and (avoid(H2) >> any);", "10.0.4.0/24 => notransit(SPOKES) and (avoid(H2) >> through(H2));")),
    Trial("a crossing by region", REGIONS, NORTH_SOUTH + "originate 10.2.0.0/16 at S2;\n",
          "10.2.0.0/16 => link(N1, S1) >> link(N3, S3) from NORTH;",
          ("10.2.0.0/16 => not link({ N3, S3 }, { N3, S3 }) >> any from NORTH;", "10.2.0.0/16 => not link(N3, S3) >> any from NORTH;",
           "10.2.0.0/16 => not link({ N3, S3 }, { N3, S3 }) >> link(N3, S3) from NORTH;",
           "10.2.0.0/16 => not link(N3, S3) >> link(N3, S3) from NORTH;")),
    Trial("spines ranked by through", SPINES, "originate 10.0.4.0/24 at L4;\n",
          "10.0.4.0/24 => through(S1) >> through(S2) >> any;",
          ("10.0.4.0/24 => notransit(L1, L2, L3, L4) and (through(S1) >> through(S2) >> any);",
           "10.0.4.0/24 => avoid(S2, S3) >> avoid(S3) >> any;")),
    Trial("a drained router with a customer behind it", ABILENE, "",
          "true => notransit(IPLS) and exit(West >> East) >> exit(West >> East) >> exit(Campus);",
          ("true => notransit(IPLS) and exit(West >> East) >> exit(West, East) >> exit(Campus);",
           "true => notransit(IPLS) and exit(West >> East) >> exit(West, East, Campus);")),
    Trial("a ring by direction", RING, "originate 10.0.1.0/24 at R1;\n",
          "10.0.1.0/24 => link(R3, R2) >> link(R5, R6) from R3, R4, R5;",
          ("10.0.1.0/24 => not link({ R5, R6 }, { R5, R6 }) >> any from R3, R4, R5;",
           "10.0.1.0/24 => not link({ R5, R6 }, { R5, R6 }) >> link(R5, R6) from R3, R4, R5;",
           "10.0.1.0/24 => not link(R5, R6) >> link(R5, R6) from R3, R4, R5;",
           "10.0.1.0/24 => avoid(R6) >> any from R3, R4, R5;", "10.0.1.0/24 => avoid(R6) >> through(R6) from R3, R4, R5;")),
    Trial("two providers by network", REGIONS, NORTH_SOUTH,
          "true => start(NORTH) and exit(P1 >> P2) >> start(SOUTH) and exit(P2 >> P1);",
          ("true => exit(P1) and avoid(SOUTH) or exit(P2) and avoid(NORTH) >> exit(P1, P2);",)),
    Trial("one filter before the other", FILTERS, "originate 10.1.0.0/16 at C1;\n",
          "10.1.0.0/16 => through(F1 >> F2) from E1, E2;",
          ("10.1.0.0/16 => avoid(F2) >> any from E1, E2;", "10.1.0.0/16 => avoid(F2) >> through(F2) from E1, E2;")),
    Trial("a customer that is offered one side", RING, "originate 10.0.1.0/24 at R1;\n",
          "10.0.1.0/24 => not enter(Cust) or through(R2);",
          ("10.0.1.0/24 => not enter(Cust) or avoid(R6);", "10.0.1.0/24 => not enter(Cust) or avoid(R5);",
           "10.0.1.0/24 => not enter(Cust) or avoid(R5, R6);")),
    Trial("out of a region", REGIONS, NORTH_SOUTH + "originate 10.1.0.0/16 at N2;\n",
          "10.1.0.0/16 => avoid(SOUTH) from NORTH, SOUTH;",
          ("10.1.0.0/16 => avoid(SOUTH) from NORTH;", "10.1.0.0/16 => avoid(SOUTH) from N1, N3;",
           "10.1.0.0/16 => notransit(SOUTH);")),
    Trial("some leaves over each spine", PAIR, LEAVES + "originate 10.0.4.0/24 at L4;\n",
          "10.0.4.0/24 => start(L1, L2) and through(S1) or start(L3) and through(S2) >> any;",
          ("10.0.4.0/24 => notransit(LEAVES) and (start(L1, L2) and through(S1) or start(L3) and through(S2) >> any);",)),
    Trial("one of two lines to the east", ABILENE, "originate 10.1.0.0/16 at WASH;\n",
          "10.1.0.0/16 => link(DNVR, KSCY) >> link(LOSA, HSTN) from STTL, SNVA;",
          ("10.1.0.0/16 => not link({ LOSA, HSTN }, { LOSA, HSTN }) >> any from STTL, SNVA;",
           "10.1.0.0/16 => not link({ LOSA, HSTN }, { LOSA, HSTN }) >> link(LOSA, HSTN) from STTL, SNVA;",
           "10.1.0.0/16 => not link(LOSA, HSTN) >> link(LOSA, HSTN) from STTL, SNVA;")),
)
