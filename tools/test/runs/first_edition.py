"""Texts of configurations of the first edition, which `migrate` reads: their faults, and one without."""
from runs import DONE, BAD_INPUT

WITH_A_PEER_1 = """\
propane-config 1
class 1 10.0.1.0/24
router A asn 64512 id 10.255.0.1
originate 1 10.0.1.0/24 tag 64512:1
session B asn 64513
export 1 tag 64512:1
end
router B asn 64513 id 10.255.0.2
session A asn 64512
import 1 tag 64512:1 set 64513:1 pref 100
peer P asn 7
import 1 set 64513:2 pref 0
export 1 tag 64513:1
end
"""

WITH_A_PEER = """\
propane-config 2
class 1 10.0.1.0/24
router A asn 64512 id 10.255.0.1
originate 1 10.0.1.0/24 tag 64512:0:1
session B asn 64513
export 1 tag 64512:0:1
end
router B asn 64513 id 10.255.0.2
session A asn 64512
import 1 tag 64512:0:1 set 64513:0:1 pref 100
peer P asn 7
import 1 set 64513:0:2 pref 0
export 1 tag 64513:0:1
end
"""

ROWS = [
    ("no form", ["migrate"], ["""\
propane-config 1

"""], BAD_INPUT, "propane: config 2 line line 2\n"),
    ("two spaces", ["migrate"], ["""\
propane-config 1
router  A asn 64512 id 1.1.1.1
"""], BAD_INPUT, "propane: config 2 line line 2\n"),
    ("an identifier of zeros", ["migrate"], ["""\
propane-config 1
router A asn 64512 id 0.0.0.0
"""], BAD_INPUT, "propane: config 2 line line 2\n"),
    ("a reserved word", ["migrate"], ["""\
propane-config 1
router any asn 64512 id 1.1.1.1
"""], BAD_INPUT, "propane: config 2 line line 2\n"),
    ("a pattern up to its own length", ["migrate"], ["""\
propane-config 1
class 1 10.0.0.0/8 le 8
"""], BAD_INPUT, "propane: config 2 line line 2\n"),
    ("a comma without a space", ["migrate"], ["""\
propane-config 1
class 1 10.0.0.0/8,11.0.0.0/8
"""], BAD_INPUT, "propane: config 2 line line 2\n"),
    ("a leading zero", ["migrate"], ["""\
propane-config 1
class 01 10.0.0.0/8
"""], BAD_INPUT, "propane: config 5 number line 2\n"),
    ("the number of a peer", ["migrate"], ["""\
propane-config 1
router A asn 7 id 1.1.1.1
"""], BAD_INPUT, "propane: config 5 number line 2\n"),
    ("a class that is not the next", ["migrate"], ["""\
propane-config 1
class 2 10.0.0.0/8
"""], BAD_INPUT, "propane: config 3 order line 2\n"),
    ("a class that is far too large", ["migrate"], ["""\
propane-config 1
class 99999999999 10.0.0.0/8
"""], BAD_INPUT, "propane: config 3 order line 2\n"),
    ("a router within a router", ["migrate"], ["""\
propane-config 1
router A asn 64512 id 1.1.1.1
router A asn 64512 id 1.1.1.1
"""], BAD_INPUT, "propane: config 3 order line 3\n"),
    ("an identifier twice", ["migrate"], ["""\
propane-config 1
router A asn 64512 id 1.1.1.1
end
router B asn 64513 id 1.1.1.1
"""], BAD_INPUT, "propane: config 4 twice line 4\n"),
    ("a neighbour twice", ["migrate"], ["""\
propane-config 1
router A asn 64512 id 1.1.1.1
session B asn 64513
peer B asn 7
"""], BAD_INPUT, "propane: config 4 twice line 4\n"),
    ("a block that is open", ["migrate"], ["""\
propane-config 1
router A asn 64512 id 1.1.1.1
"""], BAD_INPUT, "propane: config 6 unfinished\n"),
    ("a line that is open", ["migrate"], ["""\
propane-config 1
router A asn 64512 id 1.1.1.1
end"""], BAD_INPUT, "propane: config 6 unfinished\n"),
    ("a number before an order", ["migrate"], ["""\
propane-config 1
export 1 tag 64512:1
"""], BAD_INPUT, "propane: config 5 number line 2\n"),
    ("a large preference", ["migrate"], ["""\
propane-config 1
class 1 10.0.0.0/8
import 1 set 64512:1 pref 4294967296
"""], BAD_INPUT, "propane: config 5 number line 3\n"),
    ("a form before a number", ["migrate"], ["""\
propane-config 1
import 01 set 64512:0 pref x
"""], BAD_INPUT, "propane: config 2 line line 2\n"),
    ("an export twice", ["migrate"], ["""\
propane-config 1
class 1 10.0.0.0/8
router A asn 64512 id 1.1.1.1
peer P asn 7
export 1 tag 64512:1
export 1 tag 64512:1
"""], BAD_INPUT, "propane: config 3 order line 6\n"),
    ("a tag in the block of a peer", ["migrate"], ["""\
propane-config 1
class 1 10.0.0.0/8
router A asn 64512 id 1.1.1.1
peer P asn 7
import 1 tag 64512:1 set 64512:1 pref 1
"""], BAD_INPUT, "propane: config 3 order line 5\n"),
    ("a tag of three numbers", ["migrate"], ["""\
propane-config 1
class 1 10.0.0.0/8
export 1 tag 64512:0:1
"""], BAD_INPUT, "propane: config 2 line line 3\n"),
    ("a value of three octets", ["migrate"], ["""\
propane-config 1
class 1 10.0.0.0/8
export 1 tag 64512:65536
"""], BAD_INPUT, "propane: config 5 number line 3\n"),
    ("a router's number of four octets", ["migrate"], ["""\
propane-config 1
router A asn 4200000000 id 1.1.1.1
"""], BAD_INPUT, "propane: config 5 number line 2\n"),
    ("a tag's number of four octets", ["migrate"], ["""\
propane-config 1
class 1 10.0.0.0/8
export 1 tag 4200000000:1
"""], BAD_INPUT, "propane: config 5 number line 3\n"),
    ("a peer's number of three octets", ["migrate"], ["""\
propane-config 1
router A asn 64512 id 1.1.1.1
peer P asn 65536
"""], BAD_INPUT, "propane: config 5 number line 3\n"),
    ("a first line that is open", ["migrate"], ["propane-config 1"], BAD_INPUT, "propane: config 1 version\n"),
    ("a peer among the neighbours", ["migrate"], [WITH_A_PEER_1], DONE, WITH_A_PEER),
]
