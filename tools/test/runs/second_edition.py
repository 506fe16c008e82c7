"""Texts of configurations of the second edition, which `checkmap` reads before the maps: their faults, and one without."""
from runs import BAD_INPUT, CHECK_FAILS
from runs.networks import TWO_ROUTERS_CONFIG_1

NO_MAPS = "propane-maps 1\n"

# The ends of the ranges.
WIDEST = """\
propane-config 2
class 1 10.0.1.0/24
router A asn 4200000000 id 10.255.0.1
originate 1 10.0.1.0/24 tag 4200000000:0:1
session B asn 4294967294
export 1 tag 4200000000:0:1
peer P asn 65536
import 1 set 4294967294:0:4294967295 pref 4294967295
end
router B asn 4294967294 id 10.255.0.2
session A asn 65534
import 1 tag 64512:0:65536 set 65534:0:65535 pref 0
peer Q asn 4294967294
peer R asn 65534
end
"""

ROWS = [
    ("no form", ["checkmap"], ["""\
propane-config 2

""", NO_MAPS], BAD_INPUT, "propane: config 2 line line 2\n"),
    ("two spaces", ["checkmap"], ["""\
propane-config 2
router  A asn 64512 id 1.1.1.1
""", NO_MAPS], BAD_INPUT, "propane: config 2 line line 2\n"),
    ("an identifier of zeros", ["checkmap"], ["""\
propane-config 2
router A asn 64512 id 0.0.0.0
""", NO_MAPS], BAD_INPUT, "propane: config 2 line line 2\n"),
    ("a reserved word", ["checkmap"], ["""\
propane-config 2
router any asn 64512 id 1.1.1.1
""", NO_MAPS], BAD_INPUT, "propane: config 2 line line 2\n"),
    ("a pattern up to its own length", ["checkmap"], ["""\
propane-config 2
class 1 10.0.0.0/8 le 8
""", NO_MAPS], BAD_INPUT, "propane: config 2 line line 2\n"),
    ("a comma without a space", ["checkmap"], ["""\
propane-config 2
class 1 10.0.0.0/8,11.0.0.0/8
""", NO_MAPS], BAD_INPUT, "propane: config 2 line line 2\n"),
    ("a leading zero", ["checkmap"], ["""\
propane-config 2
class 01 10.0.0.0/8
""", NO_MAPS], BAD_INPUT, "propane: config 5 number line 2\n"),
    ("the number of a peer", ["checkmap"], ["""\
propane-config 2
router A asn 7 id 1.1.1.1
""", NO_MAPS], BAD_INPUT, "propane: config 5 number line 2\n"),
    ("a class that is not the next", ["checkmap"], ["""\
propane-config 2
class 2 10.0.0.0/8
""", NO_MAPS], BAD_INPUT, "propane: config 3 order line 2\n"),
    ("a class that is far too large", ["checkmap"], ["""\
propane-config 2
class 99999999999 10.0.0.0/8
""", NO_MAPS], BAD_INPUT, "propane: config 3 order line 2\n"),
    ("a router within a router", ["checkmap"], ["""\
propane-config 2
router A asn 64512 id 1.1.1.1
router A asn 64512 id 1.1.1.1
""", NO_MAPS], BAD_INPUT, "propane: config 3 order line 3\n"),
    ("an identifier twice", ["checkmap"], ["""\
propane-config 2
router A asn 64512 id 1.1.1.1
end
router B asn 64513 id 1.1.1.1
""", NO_MAPS], BAD_INPUT, "propane: config 4 twice line 4\n"),
    ("a neighbour twice", ["checkmap"], ["""\
propane-config 2
router A asn 64512 id 1.1.1.1
session B asn 64513
peer B asn 7
""", NO_MAPS], BAD_INPUT, "propane: config 4 twice line 4\n"),
    ("a block that is open", ["checkmap"], ["""\
propane-config 2
router A asn 64512 id 1.1.1.1
""", NO_MAPS], BAD_INPUT, "propane: config 6 unfinished\n"),
    ("a line that is open", ["checkmap"], ["""\
propane-config 2
router A asn 64512 id 1.1.1.1
end""", NO_MAPS], BAD_INPUT, "propane: config 6 unfinished\n"),
    ("a number before an order", ["checkmap"], ["""\
propane-config 2
export 1 tag 64512:0:1
""", NO_MAPS], BAD_INPUT, "propane: config 5 number line 2\n"),
    ("a large preference", ["checkmap"], ["""\
propane-config 2
class 1 10.0.0.0/8
import 1 set 64512:0:1 pref 4294967296
""", NO_MAPS], BAD_INPUT, "propane: config 5 number line 3\n"),
    ("a form before a number", ["checkmap"], ["""\
propane-config 2
import 01 set 64512:1:0 pref x
""", NO_MAPS], BAD_INPUT, "propane: config 2 line line 2\n"),
    ("an export twice", ["checkmap"], ["""\
propane-config 2
class 1 10.0.0.0/8
router A asn 64512 id 1.1.1.1
peer P asn 7
export 1 tag 64512:0:1
export 1 tag 64512:0:1
""", NO_MAPS], BAD_INPUT, "propane: config 3 order line 6\n"),
    ("a tag in the block of a peer", ["checkmap"], ["""\
propane-config 2
class 1 10.0.0.0/8
router A asn 64512 id 1.1.1.1
peer P asn 7
import 1 tag 64512:0:1 set 64512:0:1 pref 1
""", NO_MAPS], BAD_INPUT, "propane: config 3 order line 5\n"),
    ("a tag of two numbers", ["checkmap"], ["""\
propane-config 2
class 1 10.0.0.0/8
export 1 tag 64512:1
""", NO_MAPS], BAD_INPUT, "propane: config 2 line line 3\n"),
    ("a tag of four numbers", ["checkmap"], ["""\
propane-config 2
class 1 10.0.0.0/8
export 1 tag 64512:0:1:1
""", NO_MAPS], BAD_INPUT, "propane: config 2 line line 3\n"),
    ("another number in the middle", ["checkmap"], ["""\
propane-config 2
class 1 10.0.0.0/8
export 1 tag 64512:1:1
""", NO_MAPS], BAD_INPUT, "propane: config 5 number line 3\n"),
    ("two zeros in the middle", ["checkmap"], ["""\
propane-config 2
class 1 10.0.0.0/8
export 1 tag 64512:00:1
""", NO_MAPS], BAD_INPUT, "propane: config 5 number line 3\n"),
    ("nothing in the middle", ["checkmap"], ["""\
propane-config 2
class 1 10.0.0.0/8
export 1 tag 64512::1
""", NO_MAPS], BAD_INPUT, "propane: config 2 line line 3\n"),
    ("no value", ["checkmap"], ["""\
propane-config 2
class 1 10.0.0.0/8
export 1 tag 64512:0:0
""", NO_MAPS], BAD_INPUT, "propane: config 5 number line 3\n"),
    ("a value of 33 bits", ["checkmap"], ["""\
propane-config 2
class 1 10.0.0.0/8
export 1 tag 64512:0:4294967296
""", NO_MAPS], BAD_INPUT, "propane: config 5 number line 3\n"),
    ("a router with the last number of two octets", ["checkmap"], ["""\
propane-config 2
router A asn 65535 id 1.1.1.1
""", NO_MAPS], BAD_INPUT, "propane: config 5 number line 2\n"),
    ("a router below the private numbers of four octets", ["checkmap"], ["""\
propane-config 2
router A asn 4199999999 id 1.1.1.1
""", NO_MAPS], BAD_INPUT, "propane: config 5 number line 2\n"),
    ("a router with the last number", ["checkmap"], ["""\
propane-config 2
router A asn 4294967295 id 1.1.1.1
""", NO_MAPS], BAD_INPUT, "propane: config 5 number line 2\n"),
    ("a peer with the last number of two octets", ["checkmap"], ["""\
propane-config 2
router A asn 64512 id 1.1.1.1
peer P asn 65535
""", NO_MAPS], BAD_INPUT, "propane: config 5 number line 3\n"),
    ("a peer with the last number", ["checkmap"], ["""\
propane-config 2
router A asn 64512 id 1.1.1.1
peer P asn 4294967295
""", NO_MAPS], BAD_INPUT, "propane: config 5 number line 3\n"),
    ("a first line that is open", ["checkmap"], ["propane-config 2", NO_MAPS], BAD_INPUT, "propane: config 1 version\n"),
    ("the first edition", ["checkmap"], [TWO_ROUTERS_CONFIG_1, NO_MAPS], BAD_INPUT, "propane: config 1 version\n"),
    ("an edition to come", ["checkmap"], ["propane-config 3\n", NO_MAPS], BAD_INPUT, "propane: config 1 version\n"),
    ("the ends of the ranges", ["checkmap"], [WIDEST, NO_MAPS], CHECK_FAILS, "differs line 2\n"),
]
