"""Stages between two configurations, and what is in the way of them."""
from runs import BAD_INPUT, CHECK_FAILS, DONE, REFUSED
from runs.networks import TWO_ROUTERS_CONFIG

# A router A that originates a prefix and hears others from a peer, and one beside it.
OLD = """\
propane-config 2
class 1 10.0.1.0/24
class 2 0.0.0.0/0 le 32
router A asn 64512 id 10.255.0.1
originate 1 10.0.1.0/24 tag 64512:0:1
session B asn 64513
export 1 tag 64512:0:1
export 2 tag 64512:0:2
peer P asn 1001
import 2 set 64512:0:2 pref 100
end
router B asn 64513 id 10.255.0.2
session A asn 64512
import 1 tag 64512:0:1 set 64513:0:1 pref 100
import 2 tag 64512:0:2 set 64513:0:2 pref 100
end
"""

# One more prefix of B. The classes of OLD are the same, with other numbers.
ONE_MORE = """\
propane-config 2
class 1 10.0.1.0/24
class 2 10.0.2.0/24
class 3 0.0.0.0/0 le 32
router A asn 64512 id 10.255.0.1
originate 1 10.0.1.0/24 tag 64512:0:1
session B asn 64513
import 2 tag 64513:0:3 set 64512:0:3 pref 101
export 1 tag 64512:0:1
export 3 tag 64512:0:2
peer P asn 1001
import 3 set 64512:0:2 pref 100
end
router B asn 64513 id 10.255.0.2
originate 2 10.0.2.0/24 tag 64513:0:3
session A asn 64512
import 1 tag 64512:0:1 set 64513:0:1 pref 100
import 3 tag 64512:0:2 set 64513:0:2 pref 100
export 2 tag 64513:0:3
end
"""

# What was external at 10.0.2.0/24 is now B's own. Only there both have lines.
ONE_MORE_1 = """\
propane-config 2
class 1 10.0.1.0/24
class 2 10.0.2.0/24
class 3 0.0.0.0/0 le 32
router A asn 64512 id 10.255.0.1
originate 1 10.0.1.0/24 tag 64512:0:1
session B asn 64513
import 2 tag 64513:0:3 set 64512:0:3 pref 101
export 1 tag 64512:0:1
export 2 tag 64512:0:2
export 3 tag 64512:0:2
peer P asn 1001
import 2 set 64512:0:2 pref 100
import 3 set 64512:0:2 pref 100
end
router B asn 64513 id 10.255.0.2
session A asn 64512
import 1 tag 64512:0:1 set 64513:0:1 pref 100
import 2 tag 64512:0:2 set 64513:0:2 pref 100
import 3 tag 64512:0:2 set 64513:0:2 pref 100
export 2 tag 64513:0:3
end
"""

ONE_MORE_2 = """\
propane-config 2
class 1 10.0.1.0/24
class 2 10.0.2.0/24
class 3 0.0.0.0/0 le 32
router A asn 64512 id 10.255.0.1
originate 1 10.0.1.0/24 tag 64512:0:1
session B asn 64513
import 2 tag 64513:0:3 set 64512:0:3 pref 101
export 1 tag 64512:0:1
export 2 tag 64512:0:2
export 3 tag 64512:0:2
peer P asn 1001
import 3 set 64512:0:2 pref 100
end
router B asn 64513 id 10.255.0.2
originate 2 10.0.2.0/24 tag 64513:0:3
session A asn 64512
import 1 tag 64512:0:1 set 64513:0:1 pref 100
import 2 tag 64512:0:2 set 64513:0:2 pref 100
import 3 tag 64512:0:2 set 64513:0:2 pref 100
export 2 tag 64513:0:3
end
"""

# One class with 1,000 lines, beside 1,000 classes inside it: 1,001 pairs, each with a line of its own and 1,000 others.
LONG = ("propane-config 2\nclass 1 0.0.0.0/0 le 32\nrouter A asn 64512 id 10.255.0.1\nsession B asn 64513\n"
        + "".join(f"export 1 tag 64512:0:{n}\n" for n in range(1, 1001)) + "end\n")
MANY = ("propane-config 2\n" + "".join(f"class {n} 10.0.{n // 256}.{n % 256}/32\n" for n in range(1, 1001))
        + "router A asn 64512 id 10.255.0.1\nsession B asn 64513\nend\n")

ROWS = [
    ("a configuration and itself", ["between", "1"], [TWO_ROUTERS_CONFIG, TWO_ROUTERS_CONFIG], DONE, TWO_ROUTERS_CONFIG),
    ("the other stage is the same", ["between", "2"], [TWO_ROUTERS_CONFIG, TWO_ROUTERS_CONFIG], DONE, TWO_ROUTERS_CONFIG),
    ("one more prefix, with the old starts", ["between", "1"], [OLD, ONE_MORE], DONE, ONE_MORE_1),
    ("and with the new ones", ["between", "2"], [OLD, ONE_MORE], DONE, ONE_MORE_2),
    ("nothing beside nothing", ["between", "1"], ["propane-config 2\n", "propane-config 2\n"], DONE, "propane-config 2\n"),
    ("a tag that stands in both, where both have lines", ["between", "1"], [OLD, ONE_MORE.replace("64513:0:3", "64513:0:2")],
     CHECK_FAILS, "shared tag 64513:0:2\n"),
    ("the least of two", ["between", "2"], [OLD, ONE_MORE.replace("64513:0:3", "64513:0:2").replace("set 64512:0:3", "set 64512:0:2")],
     CHECK_FAILS, "shared tag 64512:0:2\n"),
    ("a tag that stands in both, in classes that share no prefix", ["between", "1"], [OLD, ONE_MORE.replace("64513:0:3", "64513:0:1")],
     DONE, ONE_MORE_1.replace("64513:0:3", "64513:0:1")),
    ("a preference that isn't above", ["between", "1"], [OLD, ONE_MORE.replace("pref 101", "pref 100")], CHECK_FAILS, "low pref 100\n"),
    ("a tag is told before a preference", ["between", "1"],
     [OLD, ONE_MORE.replace("64513:0:3", "64513:0:2").replace("pref 101", "pref 100")], CHECK_FAILS, "shared tag 64513:0:2\n"),
    ("a router less", ["between", "1"], [OLD, OLD[:OLD.index("router B")]], CHECK_FAILS, "unlike router 2\n"),
    ("another identifier", ["between", "1"], [OLD, OLD.replace("10.255.0.1", "10.255.0.9")], CHECK_FAILS, "unlike router 1\n"),
    ("a neighbour less", ["between", "2"], [OLD, OLD.replace("peer P asn 1001\nimport 2 set 64512:0:2 pref 100\n", "")], CHECK_FAILS,
     "unlike router 1\n"),
    ("too many lines", ["between", "1"], [LONG, MANY], REFUSED, "propane: refused 8 too-many-lines number 1002001\n"),
    ("the old one's first edition", ["between", "1"], ["propane-config 1\n", "propane-maps 1\n"], BAD_INPUT, "propane: before config 1 version\n"),
    ("a line of the new one", ["between", "1"], [OLD, OLD.replace("export 1", "exports 1")], BAD_INPUT, "propane: after config 2 line line 7\n"),
]
