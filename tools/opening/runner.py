"""Runs the program, and tools/why, for the page: a few at a time, each within a time and a part of memory.

Each run has a folder of its own in the folder of the server, which is there from the first run on. Folders and texts are made while a
lock is held and only until the end begins. So at the end nothing is made any more, and one thread takes away all that was made, whatever
the others are at.
"""
from __future__ import annotations

import contextlib
import hashlib
import os
import resource
import shutil
import signal
import subprocess
import tempfile
import threading
import time
from collections import OrderedDict
from collections.abc import Callable, Iterator
from dataclasses import dataclass

# What may be asked by itself, and the name of the third text that each reads. Besides, `renew`, `between` and `maps` are run for the
# stages of a change (`changing`), and tools/why. Everything else isn't run.
COMMANDS = {
    "explain": "", "promises": "", "lint": "", "compile": "", "evidence": "", "routemap": "",
    "replay": "scenario.json", "whatif": "scenario.json", "drain": "scenario.json", "multipath": "scenario.json", "trace": "events.json",
    "settle": "events.json", "waiting": "events.json", "compare": "edited.propane",
}
SECONDS, WHY_SECONDS = 60, 60
LAST_SECONDS = 5  # at the end, for processes that were killed to be gone
AT_ONCE = max(2, min(4, (os.cpu_count() or 2) - 1))
MEMORY = 4 << 30
KEPT_BYTES = 64 << 20
UNPROVED = ".unproved."  # in the name of a build without proof (tools/program)
STOPPED = -1  # a newer question has taken the place of this one, or the time was up


Texts = dict[str, bytes]  # what a run reads, each by the name of its file


def key_of(words: list[str], texts: Texts) -> bytes:
    """What stands for a question in those that were answered."""
    held = hashlib.sha256(repr(words).encode())
    for text in texts.values():
        held.update(hashlib.sha256(text).digest())
    return held.digest()


@dataclass(frozen=True)
class Answer:
    """How a run has ended: its status, or STOPPED, and what it wrote."""

    status: int
    output: bytes = b""
    error: bytes = b""

    def size(self) -> int:
        return len(self.output) + len(self.error) + 200


class Kept:
    """Answers that were given, the ones used last, as far as they fit."""

    def __init__(self, most: int) -> None:
        self.most, self.bytes = most, 0
        self.held: OrderedDict[bytes, Answer] = OrderedDict()
        self.lock = threading.Lock()

    def get(self, key: bytes) -> Answer | None:
        with self.lock:
            if key in self.held:
                self.held.move_to_end(key)
            return self.held.get(key)

    def put(self, key: bytes, answer: Answer) -> None:
        with self.lock:
            if key in self.held or answer.size() > self.most // 2:
                return
            self.held[key] = answer
            self.bytes += answer.size()
            while self.bytes > self.most:
                self.bytes -= self.held.popitem(last=False)[1].size()


def limited() -> None:
    """Gives a process that begins a part of the memory."""
    resource.setrlimit(resource.RLIMIT_AS, (MEMORY, MEMORY))


def version_of(program: str, begins: Callable[[], None] | None = None) -> str:
    """What the program says of itself; nothing where it doesn't run so. A build without proof asks for terabytes that it never uses."""
    try:
        ran = subprocess.run([program, "version"], stdin=subprocess.DEVNULL, capture_output=True, timeout=SECONDS, preexec_fn=begins)
    except (OSError, subprocess.SubprocessError):
        return ""
    return "" if ran.returncode else " ".join(ran.stdout.decode("utf-8", "replace").split())


def taken_away(folder: str, until: float) -> None:
    """Takes a folder away with all that is in it. What was killed in the middle of a call may still put something there, so this tries
    again, but not for ever."""
    while True:
        shutil.rmtree(folder, ignore_errors=True)
        if not os.path.lexists(folder) or time.monotonic() > until:
            return
        time.sleep(0.01)


class Turn:
    """A question that is being asked in a lane, its folder, and the process that answers it once that is begun."""

    def __init__(self, lane: str) -> None:
        self.lane = lane
        self.child: subprocess.Popen[bytes] | None = None
        self.folder = ""

    def end(self) -> None:
        """Ends the process with what it started: it leads a group of its own."""
        if self.child is not None and self.child.poll() is None:
            with contextlib.suppress(OSError):
                os.killpg(self.child.pid, signal.SIGKILL)


class Runner:
    """Runs what is asked of one topology. A question has a lane; a newer one in the same lane ends the one before it."""

    def __init__(self, program: str, why: str, topology: bytes) -> None:
        self.program, self.why_script, self.topology = program, why, topology
        self.kept, self.places = Kept(KEPT_BYTES), threading.Semaphore(AT_ONCE)
        self.lock, self.lanes, self.running, self.is_closed = threading.Lock(), dict[str, Turn](), set[Turn](), False
        self.folder = ""  # of all runs, once there is one
        self.version = version_of(program, limited)
        self.is_limited = self.version != ""
        if not self.is_limited:
            self.version = version_of(program)
        self.is_proved = self.is_limited and UNPROVED not in os.path.basename(program)

    def ask(self, command: str, policy: str, third: str, lane: str) -> Answer:
        """What a command says of a policy."""
        name = COMMANDS[command]
        with self.turn(lane) as turn:
            return self.of_texts(turn, command, self.policy_texts(policy) | ({name: third.encode()} if name else {}))

    def policy_texts(self, policy: str) -> Texts:
        """The topology and a policy."""
        return {"topology.json": self.topology, "policy.propane": policy.encode()}

    def of_texts(self, turn: Turn, command: str, texts: Texts, *more: str) -> Answer:
        """What a command says of texts, which are its words in their order, and of more words behind them."""
        return self.answer(turn, [self.program, command, *texts, *more], texts, SECONDS, {})

    def why(self, policy: str, lane: str) -> Answer:
        """What tools/why says of a refused policy."""
        texts, more = self.policy_texts(policy), {"PROGRAM": self.program, "WHY_SECONDS": str(WHY_SECONDS)}
        with self.turn(lane) as turn:
            return self.answer(turn, [self.why_script, "--records", *texts], texts, WHY_SECONDS + 10, more)

    def answer(self, turn: Turn, words: list[str], texts: Texts, seconds: int, environment: dict[str, str]) -> Answer:
        """The answer that was given before, or that of a run."""
        key = key_of(words, texts)
        found = self.kept.get(key)
        if found is None:
            found = self.run(turn, words, texts, seconds, environment)
            if found.status >= 0:
                self.kept.put(key, found)
        return found

    @contextlib.contextmanager
    def turn(self, lane: str) -> Iterator[Turn]:
        """The turn of a new question in a lane, or of several, one after another. What was asked there before is ended."""
        turn = Turn(lane)
        with self.lock:
            if lane in self.lanes:
                self.lanes[lane].end()
            self.lanes[lane] = turn
        try:
            yield turn
        finally:
            with self.lock:
                if self.lanes.get(lane) is turn:
                    del self.lanes[lane]

    def run(self, turn: Turn, words: list[str], texts: Texts, seconds: int, environment: dict[str, str]) -> Answer:
        """Runs words in a folder with these texts."""
        with self.places:
            try:
                child = self.begun(turn, words, texts, environment)
                return Answer(STOPPED) if child is None else self.told(turn, child, seconds)
            finally:
                self.ended(turn)

    def begun(self, turn: Turn, words: list[str], texts: Texts, environment: dict[str, str]) -> subprocess.Popen[bytes] | None:
        """The process that answers, in a folder with these texts; none where a newer question came meanwhile, or the end."""
        with self.lock:
            if self.is_closed or self.lanes.get(turn.lane) is not turn:
                return None
            self.running.add(turn)
            self.folder = self.folder or tempfile.mkdtemp(prefix="propane-open.")
            turn.folder = tempfile.mkdtemp(dir=self.folder)
            for name, text in texts.items():
                with open(os.path.join(turn.folder, name), "xb") as file:
                    file.write(text)
            own = {**os.environ, **environment, "TMPDIR": turn.folder}
            turn.child = subprocess.Popen(words, cwd=turn.folder, env=own, stdin=subprocess.DEVNULL, stdout=subprocess.PIPE,
                                          stderr=subprocess.PIPE, start_new_session=True)
        if words[0] == self.program and self.is_limited:
            with contextlib.suppress(OSError, ValueError):
                resource.prlimit(turn.child.pid, resource.RLIMIT_AS, (MEMORY, MEMORY))
        return turn.child

    def told(self, turn: Turn, child: subprocess.Popen[bytes], seconds: int) -> Answer:
        """What the process that answers says, within so many seconds."""
        try:
            output, error = child.communicate(timeout=seconds)
        except subprocess.TimeoutExpired:
            turn.end()
            child.communicate()
            return Answer(STOPPED, error=f"no answer in {seconds} seconds".encode())
        if child.returncode >= 0:
            return Answer(child.returncode, output, error)
        ended = f"the program was ended by signal {-child.returncode}" if self.is_last(turn) else ""
        return Answer(STOPPED, error=ended.encode())

    def ended(self, turn: Turn) -> None:
        """Takes the folder of a run away, which at the end of all is left to `close`."""
        if turn.folder and not self.is_closed:
            taken_away(turn.folder, 0)
        with self.lock:
            self.running.discard(turn)

    def is_last(self, turn: Turn) -> bool:
        """Whether no newer question of the lane, and no end, has come meanwhile."""
        with self.lock:
            return self.lanes.get(turn.lane) is turn and not self.is_closed

    def close(self) -> None:
        """Ends all that is asked, and takes away all that was made for it. It waits a few seconds at most, whatever is asked."""
        with self.lock:
            self.is_closed = True
            running, until = list(self.running), time.monotonic() + LAST_SECONDS
        for turn in running:
            turn.end()
        for turn in running:
            if turn.child is not None:
                with contextlib.suppress(subprocess.TimeoutExpired):
                    turn.child.wait(max(0.0, until - time.monotonic()))
        if self.folder:
            taken_away(self.folder, until)
