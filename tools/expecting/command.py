"""The words of tools/expect, and how it ends."""
from __future__ import annotations

import os
import sys
import tempfile
import time

from reasons.program import found
from texts.faults import Ended, Fault
from texts.files import read_text
from texts.topology import Topology

from .answers import Answers
from .judging import Judge
from .text import read_expectations
from .told import junit, line_of

HOLD, FAIL, NOT_JUDGED = 0, 1, 2


def run(words: list[str], usage: str) -> int:
    report = None
    if words[:1] == ["--junit"] and len(words) == 5:
        report, words = words[1], words[2:]
    if len(words) != 3 or words[0].startswith("-"):
        sys.stderr.write(usage)
        return NOT_JUDGED
    began = time.monotonic()
    topology = Topology(read_text(words[0]))
    expectations = read_expectations(read_text(words[2]), topology)
    with tempfile.TemporaryDirectory(prefix="propane-expect-") as folder:
        answers = Answers(found(), os.path.abspath(words[0]), os.path.abspath(words[1]), folder)
        judge, verdicts = Judge(topology, answers), []
        for expectation in expectations:
            verdicts.append(judge.verdict(expectation))
            print(line_of(verdicts[-1], topology), flush=True)
    failed = sum(not verdict.holds for verdict in verdicts)
    print(f"expectations {len(verdicts)} failed {failed}: asked replay {len(answers.outcomes)} whatif {len(answers.cuts)}")
    if report is not None:
        with open(report, "w", encoding="utf-8") as file:
            file.write(junit(words[2], verdicts, topology, time.monotonic() - began))
    return FAIL if failed else HOLD


def main(words: list[str], usage: str) -> int:
    """Judges the expectations of the words. Returns the status; what can't be judged is said on the error output."""
    try:
        return run(words, usage)
    except Ended as ended:
        said = ended.line.removeprefix("propane: ") or f"the program ended with status {ended.status}"
        sys.stderr.write(f"expect: the program says: {said}\n")
    except (Fault, OSError) as fault:
        sys.stderr.write(f"expect: {fault}\n")
    return NOT_JUDGED
