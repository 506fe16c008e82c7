"""Samples, and the summary that each comes to."""
from runs import DONE, USAGE
from runs.helped import USAGE_LINE

TWO = """\
sample 2
routers 6
peers 2
links 10
cases 3
nodes 24
steps 26
preferences 2
holds
"""

NINETY_SIX = """\
sample 96
routers 100
peers 2
links 386
cases 97
nodes 9988
steps 37250
preferences 2
holds
"""

ROWS = [
    ("2", ["sample", "2"], [], DONE, TWO),
    ("96", ["sample", "96"], [], DONE, NINETY_SIX),
    ("1", ["sample", "1"], [], USAGE, USAGE_LINE),
    ("97", ["sample", "97"], [], USAGE, USAGE_LINE),
    ("02", ["sample", "02"], [], USAGE, USAGE_LINE),
]
