"""What the program says of itself."""
from runs import ANY_PATH, DONE, USAGE, BAD_INPUT
from runs.networks import TWO_ROUTERS

# The words of each command.
USAGE_LINE = ("propane: usage: compile TOPO POLICY, evidence TOPO POLICY, check TOPO POLICY CONFIG EVIDENCE, explain TOPO POLICY,"
          " replay TOPO POLICY SCENARIO, trace TOPO POLICY EVENTS, sample N, migrate CONFIG, impact TOPO POLICY PREFIX,"
          " routemap TOPO POLICY, checkmap CONFIG MAPS, lint TOPO POLICY, audit TOPO POLICY CONFIG EVIDENCE SCENARIO TABLES,"
          " help [COMMAND], version, drain TOPO POLICY SCENARIO, settle TOPO POLICY EVENTS, promises TOPO POLICY,"
          " whatif TOPO POLICY SCENARIO, multipath TOPO POLICY SCENARIO, maps CONFIG, between BEFORE AFTER STAGE,"
          " renew TOPO POLICY CONFIG [EVIDENCE], renewal TOPO POLICY CONFIG [EVIDENCE], waiting TOPO POLICY EVENTS,"
          " compare TOPO OLD NEW\n")

VERSION = """\
propane 2.0.0
kit rattle-kit-13f
"""

VERSION_PAGE = """\
usage: propane version

Writes the name of the program and its version, and in a second line the kit
with which its sources were last proved. The word --version means the same as
version.

reads
  nothing

writes
  output        two lines

status
  0  the lines are written
  5  the output cannot be written whole
  6  memory is refused; nothing is written

example
  propane version
"""

ROWS = [
    ("the version", ["version"], [], DONE, VERSION),
    ("asked for as elsewhere", ["--version"], [], DONE, VERSION),
    ("the page of a command", ["help", "version"], [], DONE, VERSION_PAGE),
    ("after --help", ["--help", "version"], [], DONE, VERSION_PAGE),
    ("after -h", ["-h", "version"], [], DONE, VERSION_PAGE),
    ("a word that is no command", ["help", "nonsense"], [], USAGE, USAGE_LINE),
    ("another word for help is none", ["help", "--help"], [], USAGE, USAGE_LINE),
    ("a word after version", ["version", "help"], [], USAGE, USAGE_LINE),
    ("no word", [], [], USAGE, USAGE_LINE),
    ("one text is missing", ["compile"], [TWO_ROUTERS], USAGE, USAGE_LINE),
    ("another command", ["compiles"], [TWO_ROUTERS, ANY_PATH], USAGE, USAGE_LINE),
    ("the names are exchanged", ["compile"], [ANY_PATH, TWO_ROUTERS], BAD_INPUT, "propane: topology 1 not-json\n"),
]
