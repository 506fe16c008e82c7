"""Each line that a report may have, by command. docs/FORMATS.md says what the lines say."""
from __future__ import annotations

from .lines import Form

OUTCOME = """
prefix     prefix {prefix^}
class      class {class?}
router     router {router} {state=dead|origin|none}
router     router {router} {state=rank} {rank#} path {path*}
router     router {router} {state=transit} path {path*}
session    session {router} {peer} {state=rank} {rank#} path {path*}
session    session {router} {peer} {state=none}
"""
SPREAD = """
prefix     prefix {prefix^}
class      class {class?}
router     router {router} {state=dead|origin|none}
router     router {router} {state=rank} {rank#} hops {hops#} next {next*}
router     router {router} {state=transit} hops {hops#} next {next*}
session    session {router} {peer} {state=rank} {rank#} hops {hops#}
session    session {router} {peer} {state=none}
idle       idle link {link&}
count      idle {idle#} of {of#}
"""
HAPPENED = """
event      event {event#} {fault=nothing-waits|not-up|not-down|no-link}
"""
VERDICT = """
holds      holds
fails      fails {rule#} {word} case {case#} first {first#} second {second#} line {line#}
"""
CUTS = """
prefix     prefix {prefix^}
class      class {class?}
base       base router {router} {rank!}
base       base session {router} {peer} {rank!}
cut        cut link {link&}
cut        cut router {router}
cut        cut link {link&} moves {moves#} shifts {shifts#}
cut        cut router {router} moves {moves#} shifts {shifts#}
router     router {router} {rank!}
session    session {router} {peer} {rank!}
cuts       cuts {cuts#} changed {changed#}
"""
REFUSALS = """
refused    refused {refusal#} {word} case {case#} number {number}
refused    refused {refusal#} {word} case {case#}
refused    refused {refusal#} {word} case {case#} router {router}
refused    refused {refusal#} {word} case {case#} router {router} with {with*} without {without*}
refused    refused {refusal#} {word} case {case#} router {router} first {first*} second {second*}
round      round {round#} router {router} first {first*} second {second*} {reason=rank} {worse#} {better#}
round      round {round#} router {router} first {first*} second {second*} {reason=no-step|step} {to}
round      round {round#} router {router} first {first*} second {second*} {reason=loop} {to} via {via*}
round      round {round#} router {router} first {first*} second {second*} {reason=listener} {to}
"""
WAITS = """
waits      waits {from} {to} path {path*}
waits      waits {from} {to} withdraw
"""
PROMISES = """
statement  statement {statement#}
rank       rank {rank#} {alternative$}
case       case {cases+} statement {statement#}
prefix     prefix {prefixes,}
origin     origin {origins,}
source     source router {routers*} rank {rank#}
source     source session {sessions%} rank {rank#}
unclaimed  unclaimed router {routers*}
unclaimed  unclaimed session {sessions%}
unclaimed  unclaimed peer {peers*}
transit    transit router {routers*}
covered    covered
unused     unused origin {routers*}
uncarried  uncarried {prefixes*}
open       open {parts/} case {case#}
apart      apart statement {statement#} alternatives {better#} {worse#}
cases      cases {cases#} unclaimed {unclaimed#} transit {transit#} covered {covered#} unused {unused#} uncarried {uncarried#} open {open#} apart {apart#}
"""
FINDINGS = """
unused     unused group {group}
covered    covered statement {statement#}
idle       idle statement {statement#}
unreached  unreached statement {statement#} alternative {alternative#}
findings   findings {findings#}
"""
COMPARED = """
change     change statement {old?} now {new?}
prefix     prefix {prefix^}
prefix     prefix {prefix^} as {least}
prefix     prefix {first} to {last}
origins    origins {of=peers}
origins    origins {of=routers} {routers*}
origins    origins {of=all} routers
origins    origins {of=all} routers but {but*}
origins    origins {in=lost|kept|gained} {of=peers}
origins    origins {in=lost|kept|gained} {of=routers} {routers*}
origins    origins {in=lost|kept|gained} {of=all} routers
origins    origins {in=lost|kept|gained} {of=all} routers but {but*}
differs    differs {words*}
part       {part=only|but} {prefix}
part       {part=only|but} {first} to {last}
routers    routers {routers*}
sessions   sessions {sessions@}
all        all {of=routers|sessions}
all        all {of=routers} but {but*}
all        all {of=sessions} but {but@}
row        rank {old?} now {new?} {state=path|walk} {walk*}
carriers   carriers {in=lost|gained}
cases      cases {cases#} changed {changed#}
"""
AUDITED = """
stable     stable
unstable   unstable router {router} {fault=dead|own|not-given}
unstable   unstable router {router} {fault=better} {neighbour} pref {pref#}
unstable   unstable router {router} {fault=missing} {neighbour}
"""
FREE = """
prefix     prefix {prefix^}
class      class {class?}
free       free link {link&}
free       free router {router}
count      free {free#} of {of#}
"""
SUMMARY = """
sample     sample {leaves#}
routers    routers {routers#}
peers      peers {peers#}
links      links {links#}
cases      cases {cases#}
nodes      nodes {nodes#}
steps      steps {steps#}
preferences  preferences {preferences#}
holds      holds
"""
LINES = {
    "replay": OUTCOME,
    "trace": HAPPENED + "quiet  quiet {quiet~}\n" + OUTCOME,
    "settle": HAPPENED + "rounds  rounds {rounds#}\ndeliveries  deliveries {deliveries#}\n" + OUTCOME,
    "waiting": WAITS + "quiet  quiet {quiet~}\n",
    "promises": PROMISES,
    "whatif": CUTS,
    "impact": CUTS,
    "drain": FREE,
    "multipath": SPREAD,
    "lint": FINDINGS,
    "compare": COMPARED,
    "audit": VERDICT + AUDITED + OUTCOME,
    "check": VERDICT,
    "checkmap": "same  same\ndiffers  differs line {line#}\n",
    "explain": "accepted  accepted\n" + REFUSALS,
    "sample": SUMMARY,
    "version": "propane  propane {version}\nkit  kit {kit}\n",
}
# The format of a report, where it is no longer the first one.
LATER = {"promises": 2, "whatif": 2}
# The lines below which others stand, up to the next of their kind or the line that ends the report.
ABOVE = {"promises": ("case", frozenset({"statement", "uncarried", "open", "apart", "cases"})), "whatif": ("cut", frozenset({"cuts"})),
         "impact": ("cut", frozenset({"cuts"})), "compare": ("change", frozenset({"cases"}))}
NONE_ABOVE: tuple[str, frozenset[str]] = ("", frozenset())
# What the other commands write is no report: a configuration, evidence, maps or a page of help.
NO_REPORTS = {"compile", "evidence", "migrate", "routemap", "help", "maps", "between", "renew", "renewal"}


def format_of(command: str) -> int:
    """Which format of its report a command writes."""
    return LATER.get(command, 1)


def forms_of(command: str) -> list[Form]:
    """The forms of the lines of a command's report; none where it isn't known."""
    return [Form(*line.split(None, 1)) for line in LINES.get(command, "").splitlines() if line]
