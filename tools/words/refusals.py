"""What a refusal means, and of which statement it speaks."""
from __future__ import annotations

import os
import subprocess
import tempfile
from collections.abc import Callable, Sequence

from texts.cases import Case, cases_of
from texts.faults import Fault
from texts.policy import Statement, cut

from .places import Text, plain
from .said import Hint, said, said_of

# Two sentences each; {0}, {1} .. are what the program's line tells behind the case.
MEANING = {
    "too-many-ranks": ["The statement stands for {0} alternatives, and 64 are the most.",
        "`and` multiplies those of its sides: rank less, or join alternatives that you like equally by `or`."],
    "too-many-states": ["The case has more than 4,096 nodes, each a router with what its path has passed.",
        "Split the statement by prefix, or ask for fewer waypoints at once."],
    "too-many-steps": ["Up to this case there are more than 131,072 steps from one node to the next.",
        "Govern prefixes with the same origins by one statement, or restrict paths by `internal` or `notransit`."],
    "source-without-path": ["`from` names {0}, and no path of the statement starts there, even with nothing dead.",
        "Take it out of `from`, or allow a path from it."],
    "mixed-source": ["{0} may use the first walk and not the second, but others need it to carry the second.",
        "Allow the second walk there, or say by `from` that {0} is no source."],
    "no-evidence": ["No preferences meet the compiler's rules: of the nodes at {0} to which the walks lead, no order will do.",
        "`explain` shows line by line which nodes are in each other's way; rank fewer things, or rank them alike at all routers."],
    "too-many-lines": ["The text would have {0} lines, and 1,000,000 are the most.", "Fewer patterns that overlap make fewer lines."],
    "too-many-pairs": ["Up to these two statements there are more than 1,048,576 steps in which walks of the one or the other go on.",
        "Split a statement by prefix, or make one change after the other and compare each."],
    "other-evidence": ["With what would stay by this evidence, nothing could take over. This is known of other configurations' evidence alone.",
        "Name the evidence that was written for this configuration by `evidence` or `renewal`, or none."],
}


def evidence_by(program: str, topology: str) -> Callable[[bytes], str]:
    """Asks the program for the evidence of a policy on a topology."""

    def asked(policy: bytes) -> str:
        with tempfile.TemporaryDirectory(prefix="propane.") as folder:
            path = os.path.join(folder, "policy.propane")
            with open(path, "wb") as file:
                file.write(policy)
            ran = subprocess.run([program, "evidence", topology, path], stdin=subprocess.DEVNULL, capture_output=True, timeout=60,
                                 check=False)
        return ran.stdout.decode("utf-8", "replace")

    return asked


def case_at(text: Text, number: int, sites: Sequence[str], evidence_of: Callable[[bytes], str]) -> tuple[Case, Statement] | None:
    """The case of a number with its statement, where the program tells it."""
    try:
        policy = cut(text.bytes)
        case = cases_of(policy, sites, evidence_of)[number - 1]
        return case, policy.statements[case.statement - 1]
    except (Fault, IndexError, OSError, subprocess.TimeoutExpired):
        return None


def told_of(case: Case) -> str:
    """What a case is of, in words."""
    if case.external:
        return "all that the peers announce and it governs"
    more = f" and {len(case.prefixes) - 3} more" if len(case.prefixes) > 3 else ""
    others = " and others" if len(case.origins) > 3 else ""
    return ", ".join(case.prefixes[:3]) + more + f", from {plain(', '.join(case.origins[:3]))}" + others


def hint(word: str, values: Sequence[str], found: Callable[[int], tuple[Case, Statement] | None], text: Text | None) -> Hint:
    """What is said behind `propane: refused NUMBER WORD ..`. `found` gives the case of a number, with its statement."""
    told = [value for value in values if value not in ("case", "number", "router")]
    number = int(told.pop(0)) if values[:1] == ["case"] else None
    says = [plain(each.format(*told)) for each in MEANING.get(word, [])]
    case = found(number) if number and text else None
    if not case or not text:
        return said(*says)
    return said_of(text, case[1], f"Case {number}: this statement, for {told_of(case[0])}.", *says)
