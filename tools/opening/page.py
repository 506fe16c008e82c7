"""What the page asks, and what it is told: the program's answers, and where in the policy they speak of something."""
from __future__ import annotations

import json
import re
import secrets
from collections.abc import Callable
from functools import partial

from reasons.forms import FORMS
from rolling.stages import Stage
from texts.statuses import BAD_INPUT, CHECK_FAILS, DONE, REFUSED
from texts.tokens import WORDS
from words.places import Text

from . import changing, places
from .files import MOST_BYTES, Changed, PageFiles, PolicyFile, Unsaved
from .runner import COMMANDS, Runner

MOST_WORD = 100  # letters of a name, a lane or a mark
# The words of the language behind which a bracket opens.
CALLS = ("avoid", "through", "notransit", "start", "end", "link", "path", "exit", "enter")

Told = dict[str, object]


class Stopped(Exception):
    """The request ends with this status."""

    def __init__(self, status: int, line: str = "") -> None:
        super().__init__(line)
        self.status, self.line = status, line


def text_in(value: Told, key: str, most: int = MOST_BYTES) -> str:
    """A text of what was sent."""
    text = value[key]
    if not isinstance(text, str) or len(text) > most:
        raise ValueError(key)
    text.encode()  # a lone surrogate is no text
    return text


def block(output: str, router: str) -> str:
    """The lines of one router's block of a configuration."""
    found = re.search(rf"^router {re.escape(router)} .*?^end$", output, re.M | re.S)
    return found[0] if found else ""


class Page:
    """One page: the program with its topology, the policy's file, and the files of the page itself."""

    def __init__(self, runner: Runner, names: list[str], policy: PolicyFile, files: PageFiles, may_save: bool) -> None:
        self.runner, self.names, self.policy, self.files, self.may_save = runner, names, policy, files, may_save
        self.secret = secrets.token_urlsafe(24)
        self.parts: dict[str, Callable[[Told], Told]] = {"ask": self.ask, "why": self.why, "change": self.change, "file": self.file}
        if may_save:
            self.parts["save"] = self.save

    def start(self) -> Told:
        """What the page begins with: the texts as they are now, and what it needs to show them."""
        text, seen = self.policy.now()
        return {
            "topology": self.runner.topology.decode("utf-8", "replace"), "policy": text, "seen": seen, "runs": self.policy.runs,
            "names": self.names,
            "version": self.runner.version, "proved": self.runner.is_proved, "save": self.may_save,
            "forms": [{"name": form.name, "said": form.said} for form in FORMS],
            "words": {"calls": CALLS, "plain": [word for word in WORDS if word not in CALLS]},
        }

    def asked(self, part: str, value: object) -> Told:
        """What is told of a question."""
        if not isinstance(value, dict):
            raise ValueError(part)
        if part not in self.parts:
            raise Stopped(404)
        return self.parts[part](value)

    @staticmethod
    def lane(value: Told, command: str) -> str:
        return f"{text_in(value, 'tab', MOST_WORD)} {text_in(value, 'lane', MOST_WORD)} {command}"

    def ask(self, value: Told) -> Told:
        """What a command says, and where in the policy that is."""
        command, policy = text_in(value, "command", MOST_WORD), text_in(value, "policy")
        if command not in COMMANDS:
            raise Stopped(404)
        third = text_in(value, "third") if COMMANDS[command] else ""
        lane = self.lane(value, command)
        answer = self.runner.ask(command, policy, third, lane)
        output, error = answer.output.decode("utf-8", "replace"), answer.error.decode("utf-8", "replace").rstrip("\n")
        told: Told = {"status": answer.status, "output": output, "error": error.removeprefix("propane: ")}
        if answer.status in (REFUSED, BAD_INPUT):
            told |= places.of_fault(self.runner, command, answer, self.texts(command, policy, third), lane)
        if command == "lint" and answer.status == DONE:
            told["findings"] = places.findings(policy, output)
        if command == "compare" and answer.status == DONE:
            told["statements"] = places.compared(policy, third)
        if command == "promises" and answer.status in (DONE, REFUSED):
            told["outline"] = places.outline(policy)
        if command == "compile" and isinstance(value.get("router"), str):
            told["output"] = block(output, str(value["router"]))
        return told

    def texts(self, command: str, policy: str, third: str) -> dict[int, Text]:
        """The texts of a command, each by its place among the words."""
        texts = {0: Text(self.names[0], self.runner.topology), 1: Text(self.names[1], policy.encode())}
        return texts | ({2: Text(COMMANDS[command], third.encode())} if COMMANDS[command] else {})

    def why(self, value: Told) -> Told:
        """Why a policy is refused, statement by statement, with the repairs that compile."""
        answer = self.runner.why(text_in(value, "policy"), self.lane(value, "why"))
        return {"status": answer.status, "parts": [json.loads(line) for line in answer.output.decode("utf-8", "replace").splitlines()]}

    def change(self, value: Told) -> Told:
        """The steps from one policy to another, and the block of a router in each stage where one is named."""
        before, policy, lane = text_in(value, "before"), text_in(value, "policy"), self.lane(value, "change")
        try:
            texts, maps = self.stages(before, policy, lane)
        except changing.Unwritten as fault:
            return self.unchanged(fault, lane)
        router = value.get("router")
        return {"status": DONE, "steps": changing.steps(maps)} | (
            {"blocks": changing.block_lines(texts, router)} if isinstance(router, str) else {})

    def stages(self, before: str, policy: str, lane: str) -> tuple[dict[Stage, str], dict[Stage, str]]:
        """The configurations of a change, and their maps. All of it is one question, which a newer one in its lane ends."""
        with self.runner.turn(lane) as turn:
            return changing.configurations(partial(self.runner.of_texts, turn), self.runner.topology, before.encode(), policy.encode())

    def unchanged(self, fault: changing.Unwritten, lane: str) -> Told:
        """Why there are no stages."""
        answer, command = fault.answer, fault.command
        line = (answer.output if answer.status == CHECK_FAILS else answer.error).decode("utf-8", "replace").rstrip("\n")
        told: Told = {"status": answer.status, "command": command, "error": line.removeprefix("propane: ")}
        if answer.status in (REFUSED, BAD_INPUT, CHECK_FAILS):
            texts = {place: Text(name, held) for place, (name, held) in enumerate(fault.texts.items())}
            told |= places.of_fault(self.runner, command, answer, texts, lane)
        return told

    def file(self, value: Told) -> Told:
        """The policy as its file has it now, where that isn't what was seen, and the one that runs."""
        text, now = self.policy.now()
        return {"status": 0, "seen": now} | ({} if text_in(value, "seen", MOST_WORD) == now else {"policy": text, "runs": self.policy.runs})

    def save(self, value: Told) -> Told:
        """Puts the policy in its file's place, where the file is as the page has seen it."""
        try:
            return {"status": 0, "seen": self.policy.save(text_in(value, "policy"), text_in(value, "seen", MOST_WORD))}
        except Changed:
            raise Stopped(409, "changed") from None
        except Unsaved:
            raise Stopped(500, "unwritten") from None
