"""Where the statements stand that `lint` names, and what is found of each."""
from __future__ import annotations

import re
from collections.abc import Sequence

from texts.faults import Fault
from texts.policy import cut

from .places import Text
from .said import Hint, said_of

# What each line of a report says of its statement; {0} is a rank.
MEANING = {
    "covered": "Earlier statements govern each prefix that its patterns contain.",
    "idle": "No case has it, so nothing is compiled of it.",
    "unreached": "No path that it permits has rank {0}.",
}
LINE = re.compile(r"(covered|idle|unreached) statement (\d+)(?: alternative (\d+))?")


def of_statements(report: str) -> dict[int, list[str]]:
    """What a report says of each statement that it names, by its number from 1, in the order of the text."""
    found: dict[int, list[str]] = {}
    for line in report.splitlines():
        named = LINE.fullmatch(line)
        if named:
            found.setdefault(int(named[2]), []).append(MEANING[named[1]].format(named[3]))
    return dict(sorted(found.items()))


def hints(report: str, text: Text) -> Sequence[Hint]:
    """The place of each statement that a report names, with what is found of it; none where the policy can't be cut here."""
    try:
        statements = cut(text.bytes).statements
    except Fault:
        return []
    shown = []
    for number, says in of_statements(report).items():
        if number <= len(statements):
            shown.append(said_of(text, statements[number - 1], f"Statement {number}. {says[0]}", *says[1:]))
    return shown
