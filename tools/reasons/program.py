"""Runs the program on texts in a folder of its own, within a number of tries and a time."""
from __future__ import annotations

import os
import subprocess
import sys
import time
from dataclasses import dataclass

from texts.faults import Ended
from texts.scenario import Scenario
from texts.statuses import DONE, NO_PROGRAM

TOP = os.path.dirname(os.path.dirname(os.path.dirname(os.path.abspath(__file__))))
PROVED = os.path.join(TOP, "crates", "propane_cli", "out", "propane_cli")


class TimeUp(Exception):
    """Neither time nor tries are left."""


@dataclass(frozen=True)
class Run:
    """How the program has ended: its status, and what it wrote to its outputs."""

    status: int
    out: str
    err: str


def found() -> str:
    """The program that the variable PROGRAM names; else the one that tools/program chooses, where that is there, or the proved one."""
    named = os.environ.get("PROGRAM", "")
    chooser = os.path.join(TOP, "tools", "program")
    if not named and os.access(chooser, os.X_OK):
        named = subprocess.run([chooser], stdin=subprocess.DEVNULL, stdout=subprocess.PIPE).stdout.decode().rstrip("\n")
    named = os.path.abspath(named or PROVED)
    if not os.access(named, os.X_OK) or os.path.isdir(named):
        raise Ended(NO_PROGRAM, "the program isn't built here yet: ./propane prove proves and builds it, or PROGRAM names another one")
    return named


class Progress:
    """One line on the error output that says what is being done, where that is a terminal."""

    def __init__(self, name: str) -> None:
        self.name = name
        self.shown = sys.stderr is not None and sys.stderr.isatty() and os.environ.get("TERM", "dumb") != "dumb"

    def say(self, what: str) -> None:
        if self.shown and sys.stderr is not None:
            columns = os.get_terminal_size(sys.stderr.fileno()).columns or 80
            sys.stderr.write("\r\x1b[K" + f"{self.name}: {what}"[:columns - 1])
            sys.stderr.flush()

    def clear(self) -> None:
        if self.shown and sys.stderr is not None:
            sys.stderr.write("\r\x1b[K")
            sys.stderr.flush()


class Program:
    """The program with one topology. `tries` is how many policies may still be tried, and `seconds` how long all may take."""

    def __init__(self, path: str, folder: str, topology: bytes, tries: int, seconds: float, progress: Progress) -> None:
        self.path, self.folder, self.tries, self.progress = path, folder, tries, progress
        self.seconds, self.ends = seconds, time.monotonic() + seconds
        self.topology_text, self.topology = topology, self.kept("topology.json", topology)

    def kept(self, name: str, text: bytes) -> str:
        path = os.path.join(self.folder, name)
        with open(path, "wb") as file:
            file.write(text)
        return path

    def left(self) -> float:
        """The seconds that are left."""
        return self.ends - time.monotonic()

    def part_left(self) -> float:
        """The part of the time that is left."""
        return self.left() / self.seconds

    def run(self, command: str, policy: bytes, *words: str) -> Run:
        """How the program ends for a policy's text; further words that aren't texts come last."""
        if self.left() <= 0:
            raise TimeUp
        names = [self.topology, self.kept("policy.propane", policy), *words]
        try:
            ran = subprocess.run([self.path, command, *names], cwd=self.folder, stdin=subprocess.DEVNULL,
                                 capture_output=True, timeout=self.left())
        except subprocess.TimeoutExpired as late:
            raise TimeUp from late
        except OSError as fault:
            raise Ended(NO_PROGRAM, f"the program can't be run: {fault.strerror}: {self.path}") from fault
        return Run(ran.returncode, ran.stdout.decode("utf-8", "replace"), ran.stderr.decode("utf-8", "replace"))

    def told(self, command: str, policy: bytes, *words: str) -> str:
        """What the program writes to its output, and nothing where it ends otherwise than well."""
        ran = self.run(command, policy, *words)
        return ran.out if ran.status == DONE else ""

    def needed(self, command: str, policy: bytes) -> str:
        """What the program writes to its output, where nothing can be told without it."""
        ran = self.run(command, policy)
        if ran.status != DONE:
            raise Ended(ran.status if ran.status > 0 else NO_PROGRAM, ran.err.rstrip("\n") or f"the program ended with status {ran.status}")
        return ran.out

    def replay(self, policy: bytes, prefix: str) -> str:
        """The report of the settled outcome without failures."""
        return self.told("replay", policy, self.kept("scenario.json", Scenario(prefix).text().encode()))

    def compiles(self, policy: bytes) -> bool:
        """Whether a policy compiles, which is one of the tries."""
        if self.tries <= 0:
            raise TimeUp
        self.tries -= 1
        return self.run("compile", policy).status == DONE
