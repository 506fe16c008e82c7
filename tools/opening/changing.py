"""A change of policy, as a running network takes it: the configurations of its stages, who has something to load in each, and what a
router's block gains and loses there.

The configurations are the program's: what `compile` writes of the policy that runs, what `renew` writes of the new one with the evidence of
the old, and what `between` writes of these two. Here their texts are compared, block by block and line by line. Who has something to load is
told by what `maps` writes of them: a class may stay that has another number.
"""
from __future__ import annotations

import re
from collections import defaultdict
from collections.abc import Callable, Iterator
from dataclasses import dataclass
from itertools import pairwise

from rolling.stages import Stage, is_still
from texts.statuses import DONE

from .runner import Answer, Texts

Ask = Callable[..., Answer]  # asks the program: a command, its texts by their names, and more words
Told = dict[str, object]
Line = tuple[str, str]  # a sign (added, taken away or kept), and what the line says
ADDED, GONE, KEPT = "+", "-", " "
NUMBERS = {Stage.ONE: "1", Stage.TWO: "2"}  # of the stages that `between` writes


@dataclass
class Unwritten(Exception):
    """A command didn't write its configuration: how it ended, and the texts that it read."""

    command: str
    answer: Answer
    texts: Texts


def configurations(ask: Ask, topology: bytes, before: bytes, after: bytes) -> tuple[dict[Stage, str], dict[Stage, str]]:
    """The configuration of each stage, from one policy to another, and its maps."""

    def written(command: str, texts: Texts, *more: str) -> bytes:
        answer = ask(command, texts, *more)
        if answer.status != DONE:
            raise Unwritten(command, answer, texts)
        return answer.output

    running = {"topology.json": topology, "policy.propane": before}
    old, evidence = written("compile", running), written("evidence", running)
    new = written("renew", {"topology.json": topology, "policy.propane": after, "config.txt": old, "evidence.json": evidence})
    between = {stage: written("between", {"before.txt": old, "after.txt": new}, number) for stage, number in NUMBERS.items()}
    texts = {Stage.OLD: old} | between | {Stage.NEW: new}
    maps = {stage: written("maps", {"config.txt": text}) for stage, text in texts.items()}
    return {stage: text.decode() for stage, text in texts.items()}, {stage: text.decode() for stage, text in maps.items()}


def blocks(configuration: str) -> dict[str, str]:
    """The block of each router, from its first line to the line `end`. Before the first one are lines without the word `router`."""
    parts = (part[part.index("router "):] for part in configuration.split("\nend\n")[:-1])
    return {part.split(" ", 2)[1]: f"{part}\nend" for part in parts}


def meanings(maps: str) -> dict[str, str]:
    """What the maps of each router do, with its lists in place of their numbers."""
    lists = defaultdict[str, list[str]](list)
    for line in maps.splitlines():
        if line.startswith("list "):
            _, number, row = line.split(" ", 2)
            lists[number].append(row)

    def spelled(found: re.Match[str]) -> str:
        return f" list {lists[found[1]]}"

    return {name: re.sub(r" list (\d+)", spelled, block) for name, block in blocks(maps).items()}


def steps(maps: dict[Stage, str]) -> list[Told]:
    """Each step from a stage to the next: which routers have something to load, as their maps do another thing, and whether nothing moves."""
    held = {stage: meanings(text) for stage, text in maps.items()}

    def loading(before: Stage, after: Stage) -> list[str]:
        return [name for name, block in held[after].items() if held[before].get(name) != block]

    return [{"to": after.value, "still": is_still(before, after), "load": loading(before, after)} for before, after in pairwise(maps)]


def placed(block: str) -> Iterator[Line]:
    """Each line of a block behind the line of the neighbour that it is of, so that none occurs twice."""
    of = ""
    for line in block.splitlines():
        if line.startswith(("session ", "peer ")):
            of = line
        yield of, line


def compared(before: str, after: str) -> list[Line]:
    """The lines of a block, and where they stood those that are taken away. What is kept has the same order in both."""
    old, new = list(placed(before)), list(placed(after))
    were, are = frozenset(old), frozenset(new)
    found, at = list[Line](), 0
    for each in new:
        while at < len(old) and old[at] not in are:
            found.append((GONE, old[at][1]))
            at += 1
        is_kept = each in were
        at += is_kept
        found.append((KEPT if is_kept else ADDED, each[1]))
    return found + [(GONE, line) for _, line in old[at:]]


def block_lines(texts: dict[Stage, str], router: str) -> dict[str, list[Line]]:
    """The block of a router in each stage, with the lines that the step to it adds and takes away."""
    held = [blocks(text).get(router, "") for text in texts.values()]
    return {stage.value: compared(before, after) for stage, before, after in zip(texts, [held[0], *held], held)}
