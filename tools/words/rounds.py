"""How far a `settle` is, for people, while it runs.

A round delivers what waits when it begins (docs/FORMATS.md), and `waiting` says what that is. So each round is asked of the program, with
the deliveries of those before it as further events, until they are more than a text may hold. Nothing is said of the rounds behind.
"""
from __future__ import annotations

import contextlib
import json
import os
import subprocess
import tempfile
import threading
import time
from collections.abc import Iterator, Sequence

from reasons.program import Progress
from texts.statuses import DONE

MOST_EVENTS = 65_536  # that a text may hold
EVERY = 1.0  # seconds from one line to the next
Way = tuple[str, str]  # from where to where a message waits


class Rounds:
    """The rounds behind the events of a text, one after the other, and what is known of them in words."""

    def __init__(self, program: str, texts: Sequence[str], folder: str) -> None:
        topology, policy, self.events = texts
        self.path = os.path.join(folder, "events.json")
        self.words = [program, "waiting", topology, policy, self.path]
        self.lock, self.is_ended = threading.Lock(), False
        self.child: subprocess.Popen[bytes] | None = None
        self.known = ""

    def begin(self) -> subprocess.Popen[bytes] | None:
        """Asks the program what waits, but not once this is ended."""
        with self.lock:
            if not self.is_ended:
                self.child = subprocess.Popen(self.words, stdin=subprocess.DEVNULL, stdout=subprocess.PIPE, stderr=subprocess.DEVNULL)
            return None if self.is_ended else self.child

    def waiting(self) -> list[Way] | None:
        """Where each message waits, in the order in which a round delivers them; None where the program doesn't tell."""
        child = self.begin()
        lines = [line.split() for line in child.communicate()[0].decode("utf-8", "replace").splitlines()] if child else []
        return [(words[1], words[2]) for words in lines if words[0] == "waits"] if child and child.returncode == DONE else None

    def each(self) -> Iterator[list[Way]]:
        """What waits behind the events, then behind one round more, and so on."""
        with open(self.events, encoding="utf-8") as file:
            text = json.load(file)
        while len(text["events"]) <= MOST_EVENTS:
            with open(self.path, "w", encoding="utf-8") as file:
                json.dump(text, file)
            ways = self.waiting()
            if ways is None:
                return
            yield ways
            text["events"] += [["deliver", *way] for way in ways]

    def ask(self) -> None:
        """Asks for round after round, until no message waits."""
        delivered = 0
        with contextlib.suppress(OSError, ValueError, LookupError, TypeError):  # of a text that is none the program itself tells
            for number, ways in enumerate(self.each()):
                first = f"; {counted(number, 'round')}, {counted(delivered, 'message')}" if number else ""
                self.known = f"{first}; {counted(len(ways), 'message')} waiting"
                if not ways:
                    return
                delivered += len(ways)

    def end(self) -> None:
        """Ends the program that is asked."""
        with self.lock:
            self.is_ended = True
            if self.child is not None and self.child.poll() is None:
                self.child.kill()


class Shown:
    """A line on the terminal that is written anew each second, while the program runs with the words `PROGRAM settle TOPO POLICY EVENTS`.
    It begins when the program has run for a second."""

    def __init__(self, words: Sequence[str]) -> None:
        program, _, *texts = words
        self.progress, self.began, self.over = Progress("settle"), time.monotonic() - EVERY, threading.Event()
        self.folder = tempfile.TemporaryDirectory(prefix="propane-settle.")
        # What isn't a file, as a pipe, can be read once, and that is the program's.
        is_asked = self.progress.shown and len(texts) == 3 and all(map(os.path.isfile, texts))
        self.rounds = Rounds(program, texts, self.folder.name) if is_asked else None
        self.threads = [threading.Thread(target=self.show)] + ([threading.Thread(target=self.rounds.ask)] if self.rounds else [])

    def show(self) -> None:
        """Writes the line until all is over, or the terminal is gone."""
        with contextlib.suppress(OSError):
            while not self.over.is_set():
                self.progress.say(counted(round(time.monotonic() - self.began), "second") + (self.rounds.known if self.rounds else ""))
                self.over.wait(EVERY)
            self.progress.clear()

    def __enter__(self) -> None:
        for thread in self.threads:
            thread.start()

    def __exit__(self, *why: object) -> None:
        self.over.set()
        if self.rounds:
            self.rounds.end()
        for thread in self.threads:
            thread.join()
        self.folder.cleanup()


def counted(number: int, what: str) -> str:
    """A number of things."""
    return f"{number:,} {what}{'' if number == 1 else 's'}"
