"""Configurations of the first edition that are migrated."""
from runs import DONE, BAD_INPUT
from runs.networks import TWO_ROUTERS_CONFIG, TWO_ROUTERS_CONFIG_1

ROWS = [
    ("two routers", ["migrate"], [TWO_ROUTERS_CONFIG_1], DONE, TWO_ROUTERS_CONFIG),
    ("what was migrated", ["migrate"], [TWO_ROUTERS_CONFIG], BAD_INPUT, "propane: config 1 version\n"),
    ("a tag of the second edition", ["migrate"], ["""\
propane-config 1
class 1 10.0.1.0/24
router A asn 64512 id 10.255.0.1
originate 1 10.0.1.0/24 tag 64512:0:1
end
"""], BAD_INPUT, "propane: config 2 line line 4\n"),
    ("an AS number of the second edition", ["migrate"], ["""\
propane-config 1
router A asn 4200000000 id 10.255.0.1
end
"""], BAD_INPUT, "propane: config 5 number line 2\n"),
    ("no line but the first", ["migrate"], ["propane-config 1\n"], DONE, "propane-config 2\n"),
]
