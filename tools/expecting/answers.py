"""What the program says of a policy: the outcome of a scenario (`replay`), and the ranks under each single cut (`whatif`).

Each question is asked once. Several runs go on at a time, as many as there are processors.
"""
from __future__ import annotations

import os
import subprocess
import tempfile
from collections.abc import Iterable
from concurrent.futures import ThreadPoolExecutor
from dataclasses import dataclass
from typing import Union

from reports.document import document_of
from reports.lines import Fields
from texts.faults import Ended
from texts.scenario import Scenario
from texts.statuses import DONE, NO_PROGRAM

from .claims import Held

Failure = Union[str, frozenset[str]]  # a router, or a link by its ends
Source = Union[str, tuple[str, str]]  # a router, or a session of a router and a peer


@dataclass(frozen=True)
class Row:
    """What a cut changes: whether some other router gets another route, and the ranks that are other ones."""

    moves: bool
    ranks: dict[Source, int | None]


@dataclass(frozen=True)
class Cuts:
    """What `whatif` says of a scenario: the rank of each claimed source, and a row for each cut that changes something."""

    base: dict[Source, int | None]
    rows: dict[Failure, Row]


def source_of(line: Fields) -> Source:
    return (line["router"], line["peer"]) if "peer" in line else line["router"]


def and_fails(scenario: Scenario, failure: Failure) -> Scenario:
    """A scenario in which something fails besides."""
    if isinstance(failure, str):
        return Scenario(scenario.prefix, scenario.dead | {failure}, scenario.dead_links, scenario.silent)
    return Scenario(scenario.prefix, scenario.dead, scenario.dead_links | {failure}, scenario.silent)


def lines_of(command: str, report: str) -> list[Fields]:
    """The lines of a report."""
    lines: list[Fields] = document_of(command, DONE, report)["lines"]
    return lines


class Answers:
    """Asks the program, and remembers what it said."""

    def __init__(self, program: str, topology: str, policy: str, folder: str) -> None:
        self.words, self.folder = [program, topology, policy], folder
        self.outcomes: dict[Scenario, dict[Source, Held]] = {}
        self.cuts: dict[Scenario, Cuts] = {}
        self.known: dict[str, tuple[Source, Held] | None] = {}  # what a line says: most reports have most lines in common

    def ask(self, command: str, scenario: Scenario) -> str:
        """A command's report on a scenario."""
        file, path = tempfile.mkstemp(dir=self.folder)
        with os.fdopen(file, "w", encoding="utf-8") as text:
            text.write(scenario.text())
        try:
            program, *texts = self.words
            ran = subprocess.run([program, command, *texts, path], stdin=subprocess.DEVNULL, capture_output=True)
        except OSError as fault:
            raise Ended(NO_PROGRAM, f"the program can't be run: {fault.strerror}") from fault
        finally:
            os.remove(path)
        if ran.returncode != DONE:
            raise Ended(ran.returncode if ran.returncode > 0 else NO_PROGRAM, ran.stderr.decode("utf-8", "replace").rstrip("\n"))
        return ran.stdout.decode()

    def held(self, line: str) -> tuple[Source, Held] | None:
        """What a line of `replay` says of a router, or of a session, if it does."""
        if line not in self.known:
            found: Fields = lines_of("replay", line)[0]
            says = found["kind"] in ("router", "session")
            self.known[line] = (source_of(found), Held(found["state"], found.get("rank"), tuple(found.get("path", ())))) if says else None
        return self.known[line]

    def outcomes_of(self, scenarios: Iterable[Scenario]) -> None:
        """Asks for the outcomes of scenarios that weren't asked for yet."""
        new = [each for each in dict.fromkeys(scenarios) if each not in self.outcomes]
        with ThreadPoolExecutor(os.cpu_count()) as pool:
            for scenario, report in zip(new, pool.map(lambda each: self.ask("replay", each), new)):
                self.outcomes[scenario] = dict(filter(None, map(self.held, report.splitlines())))

    def cuts_of(self, scenarios: Iterable[Scenario]) -> None:
        """Asks for the ranks under each cut beside scenarios that weren't asked for yet."""
        new = [each for each in dict.fromkeys(scenarios) if each not in self.cuts]
        with ThreadPoolExecutor(os.cpu_count()) as pool:
            for scenario, report in zip(new, pool.map(lambda each: self.ask("whatif", each), new)):
                lines = lines_of("whatif", report)
                base = {source_of(line): line["rank"] for line in lines if line["kind"] == "base"}
                rows = {frozenset(line["link"]) if "link" in line else line["router"]:
                        Row(line["moves"] > 0, {source_of(row): row["rank"] for row in line["lines"]})
                        for line in lines if line["kind"] == "cut"}
                self.cuts[scenario] = Cuts(base, rows)
