"""Configurations with their evidence, and what `check` says of them."""
from runs import ANY_PATH, EXITS, DONE, BAD_INPUT, CHECK_FAILS
from runs.networks import EXCHANGED_EVIDENCE, TWO_EXITS, TWO_ROUTERS, TWO_ROUTERS_CONFIG, TWO_ROUTERS_EVIDENCE

LEADING_ZERO = """\
propane-config 2
class 1 10.0.1.0/24
router A asn 64512 id 10.255.0.1
originate 1 10.0.1.0/24 tag 64512:0:1
session B asn 64513
export 1 tag 64512:0:1
end
router B asn 64513 id 10.255.0.2
session A asn 64512
import 1 tag 64512:0:1 set 64513:0:1 pref 0100
end
"""

CUT = ('{"cases":[{"external":false,"nodes":[[0,0,0,100,64512,1],[1,0,1,100,64513,1]],"origins":[0],'
        '"prefixes":["10.0.1.0/24"],"starts":[0],"statement":1,"steps":[[0,1]]}],"version":1')

ANOTHER_PREFERENCE = ('{"cases":[{"external":false,"nodes":[[0,0,0,100,64512,1],[1,0,1,101,64513,1]],"origins":[0],'
                       '"prefixes":["10.0.1.0/24"],"starts":[0],"statement":1,"steps":[[0,1]]}],"version":1}\n')

START_PAST_THE_LIST = ('{"cases":[{"external":false,"nodes":[[0,0,0,100,64512,1],[1,0,1,100,64513,1]],"origins":[0],'
                        '"prefixes":["10.0.1.0/24"],"starts":[4294967295],"statement":1,"steps":[[0,1]]}],"version":1}\n')

START_OF_33_BITS = ('{"cases":[{"external":false,"nodes":[[0,0,0,100,64512,1],[1,0,1,100,64513,1]],"origins":[0],'
                     '"prefixes":["10.0.1.0/24"],"starts":[4294967296],"statement":1,"steps":[[0,1]]}],"version":1}\n')

EXCHANGED_CONFIG = """\
propane-config 2
class 1 0.0.0.0/0 le 32
router R1 asn 64512 id 10.255.0.1
session R2 asn 64513
import 1 tag 64513:0:1 set 64512:0:2 pref 101
import 1 tag 64513:0:2 set 64512:0:1 pref 100
export 1 tag 64512:0:1
export 1 tag 64512:0:2
peer P1 asn 1001
import 1 set 64512:0:1 pref 100
end
router R2 asn 64513 id 10.255.0.2
session R1 asn 64512
import 1 tag 64512:0:1 set 64513:0:2 pref 101
import 1 tag 64512:0:2 set 64513:0:1 pref 100
export 1 tag 64513:0:1
export 1 tag 64513:0:2
peer P2 asn 1002
import 1 set 64513:0:1 pref 100
end
"""

ROWS = [
    ("what is compiled holds", ["check"], [TWO_ROUTERS, ANY_PATH, TWO_ROUTERS_CONFIG, TWO_ROUTERS_EVIDENCE], DONE, "holds\n"),
    ("exchanged numbers", ["check"],
     [TWO_EXITS, EXITS, EXCHANGED_CONFIG, EXCHANGED_EVIDENCE],
     CHECK_FAILS, "fails 5 pref-rank case 1 first 5 second 2 line 0\n"),
    ("a preference with a leading zero", ["check"],
     [TWO_ROUTERS, ANY_PATH, LEADING_ZERO, TWO_ROUTERS_EVIDENCE],
     BAD_INPUT, "propane: config 5 number line 10\n"),
    ("evidence that is cut off", ["check"], [TWO_ROUTERS, ANY_PATH, TWO_ROUTERS_CONFIG, CUT], BAD_INPUT, "propane: evidence 1 not-json\n"),
    ("the greatest start", ["check"],
     [TWO_ROUTERS, ANY_PATH, TWO_ROUTERS_CONFIG, START_PAST_THE_LIST],
     BAD_INPUT, "propane: evidence 4 place\n"),
    ("a start that is greater than that", ["check"],
     [TWO_ROUTERS, ANY_PATH, TWO_ROUTERS_CONFIG, START_OF_33_BITS],
     BAD_INPUT, "propane: evidence 3 number starts\n"),
    ("evidence of another version", ["check"],
     [TWO_ROUTERS, ANY_PATH, TWO_ROUTERS_CONFIG, '{"cases":[],"version":2}'],
     BAD_INPUT, "propane: evidence 5 version\n"),
    ("another preference in the evidence alone", ["check"],
     [TWO_ROUTERS, ANY_PATH, TWO_ROUTERS_CONFIG, ANOTHER_PREFERENCE],
     CHECK_FAILS, "fails 10 config-differs case 0 first 1 second 0 line 10\n"),
]
