"""What the program says of a moment: `audit` for each prefix."""
from __future__ import annotations

import os
import subprocess
from collections.abc import Sequence
from dataclasses import dataclass, field

from reports.document import document_of
from reports.lines import Fields
from texts.faults import Ended
from texts.statuses import CHECK_FAILS, DONE, NO_PROGRAM

from .moment import Moment


@dataclass(frozen=True)
class Verdict:
    """The first line of an audit, or why there was none, and the lines of the report where the routes are stable."""

    line: str
    is_stable: bool = False
    report: tuple[str, ...] = ()
    fields: tuple[Fields, ...] = field(default=(), compare=False)


def asked(program: str, *words: str) -> tuple[int, str]:
    """How the program ends where it says something, and what it says."""
    try:
        ran = subprocess.run([program, *words], stdin=subprocess.DEVNULL, capture_output=True, text=True)
    except OSError as why:
        raise Ended(NO_PROGRAM, f"the program can't be run: {why.strerror}") from None
    if ran.returncode not in (DONE, CHECK_FAILS):
        raise Ended(ran.returncode if ran.returncode > 0 else NO_PROGRAM, ran.stderr.rstrip("\n"))
    return ran.returncode, ran.stdout


class Auditor:
    """Audits moments of a network: the files of its topology, policy, configuration and evidence. In the folder is what is asked."""

    def __init__(self, program: str, texts: Sequence[str], folder: str) -> None:
        self.program, self.texts, self.folder = program, texts, folder

    @staticmethod
    def compiled(program: str, topology: str, policy: str, folder: str) -> Auditor:
        """One for what is compiled of a policy."""
        auditor = Auditor(program, (), folder)
        made = [auditor.write(name, asked(program, command, topology, policy)[1]) for command, name in (("compile", "config"), ("evidence", "evidence.json"))]
        return Auditor(program, (topology, policy, *made), folder)

    def write(self, name: str, text: str) -> str:
        path = os.path.join(self.folder, name)
        with open(path, "w", encoding="utf-8") as file:
            file.write(text)
        return path

    def verdicts(self, moment: Moment, prefixes: Sequence[str]) -> dict[str, Verdict]:
        """The verdict on each prefix."""
        return {prefix: self.verdict(moment, prefix) for prefix in prefixes}

    def verdict(self, moment: Moment, prefix: str) -> Verdict:
        if moment.faults[prefix]:
            return Verdict(f"not audited: {moment.faults[prefix]}")
        scenario = self.write("scenario.json", moment.scenario(prefix).text())
        status, text = asked(self.program, "audit", *self.texts, scenario, self.write("tables.json", moment.tables[prefix]))
        first, *report = text.splitlines()
        return Verdict(first, status == DONE, tuple(report), tuple(document_of("audit", status, text)["lines"]))
