"""Where in the policy's text an answer speaks of something, in the units in which a page counts letters; and what is said of it."""
from __future__ import annotations

import contextlib
import re
from collections.abc import Iterable, Mapping

from texts.faults import Fault
from texts.policy import Statement, cut
from texts.tokens import items, tokens
from words import hints
from words.places import MOST, Text
from words.said import NOTHING, Hint

from .runner import COMMANDS, Answer, Runner

Place = dict[str, int]
Told = dict[str, object]
KINDS: dict[str, list[str]] = {"": [], "scenario.json": ["SCENARIO"], "events.json": ["EVENTS"]}  # of a command's third text
OTHERS = {  # the texts of commands that don't begin with a topology and one policy, or that aren't asked alone
    "compare": ["TOPO", "OLD", "NEW"], "renew": ["TOPO", "POLICY", "CONFIG", "EVIDENCE"], "between": ["BEFORE", "AFTER"], "maps": ["CONFIG"],
}
EDITED = {"POLICY", "NEW"}  # the kinds of a text that stands in the page's field
FINDING = re.compile(r"(?:unused group (?P<group>\S+)|(?:covered|idle|unreached) statement (?P<statement>[0-9]+)(?: alternative [0-9]+)?)")


def units_at(held: bytes, places: Iterable[int]) -> Mapping[int, int]:
    """Places in bytes as a page counts them: in units of UTF-16."""
    found: dict[int, int] = {}
    before, units = 0, 0
    for place in sorted(set(places)):
        units += len(held[before:place].decode("utf-8", "replace").encode("utf-16-le")) // 2
        found[place] = units
        before = place
    return found


def marked(held: bytes, begins: int, ends: int) -> Place:
    """A part of a text that is to be marked."""
    at = units_at(held, (begins, ends))
    return {"from": at[begins], "to": at[ends]}


# ---- faults and refusals


def place_of(hint: Hint, held: bytes) -> Place:
    """The place of which something is said. What is said of the end of a text is marked at its last letter."""
    last = len(held.rstrip())
    begins = min(hint.at, max(0, last - 1))
    return marked(held, begins, max(begins + 1, min(hint.at + hint.length, last)) if held else 0)


def kinds_of(command: str) -> list[str]:
    """What the texts of a command are, as the usage line has it."""
    return OTHERS[command] if command in OTHERS else ["TOPO", "POLICY", *KINDS[COMMANDS[command]]]


def hint_on(runner: Runner, command: str, answer: Answer, texts: Mapping[int, Text], lane: str) -> Hint:
    """The words for people behind the program's line; none where this can't tell them, or a text is long."""
    line = answer.error.decode("utf-8", "replace").rstrip("\n")
    kinds = kinds_of(command)

    def evidence_of(policy: bytes) -> str:
        return runner.ask("evidence", policy.decode("utf-8", "replace"), "", f"{lane} case").output.decode("utf-8", "replace")

    if all(len(text.bytes) <= MOST for text in texts.values()):
        with contextlib.suppress(Fault, LookupError, ValueError, TypeError, StopIteration, RecursionError):
            return hints.of_texts(answer.status, line, command, kinds, texts, evidence_of)
    return NOTHING


def of_fault(runner: Runner, command: str, answer: Answer, texts: Mapping[int, Text], lane: str) -> Told:
    """What is said of a fault or a refusal: sentences, near names, where in another text it is, and a page that says more; and its place
    in the policy, where the second text is one, or none."""
    hint = hint_on(runner, command, answer, texts, lane)
    policy = next((text for place, text in texts.items() if text is hint.text and kinds_of(command)[place] in EDITED), None)
    where = hint.text.place(hint.at) if hint.text and not policy else ""
    words = {"says": hint.says, "near": hint.near, "where": where, "page": hint.page, "part": hint.part}
    return {"words": words, "place": place_of(hint, policy.bytes) if policy else None}


# ---- statements and findings


def statements_of(held: bytes) -> tuple[Statement, ...]:
    """The statements of a text that the program has read; none where this reads it otherwise."""
    try:
        return cut(held).statements
    except (Fault, RecursionError):
        return ()


def outline(policy: str) -> Told:
    """Where the statements of a text stand, and which prefixes it originates."""
    held = policy.encode()
    statements, item_list = statements_of(held), items(tokens(held))
    at = units_at(held, [place for each in statements for place in (each.begins, each.ends)])
    return {
        "statements": [{"number": each.number, "from": at[each.begins], "to": at[each.ends]} for each in statements],
        "originates": [item[1].text for item in item_list if item[0].text == "originate" and len(item) > 1],
    }


def compared(old: str, new: str) -> Told:
    """The statements of two policies as they stand in their texts, each with its line."""
    def told(held: bytes) -> list[Told]:
        return [{"line": each.line, "text": held[each.begins:each.ends or len(held)].decode()} for each in statements_of(held)]

    return {"old": told(old.encode()), "new": told(new.encode())}


def findings(policy: str, output: str) -> list[Told]:
    """The findings of lint, each with its place: the name of a group, or a statement."""
    held = policy.encode()
    found: list[Told] = []
    statements = {str(each.number): (each.begins, each.ends) for each in statements_of(held)}
    names = [item[1] for item in items(tokens(held)) if item[0].text == "define" and len(item) > 1]
    groups = {name.text: (name.at, name.at + len(name.text)) for name in names}
    for line in output.splitlines():
        said = FINDING.fullmatch(line)
        if said:
            place = groups.get(said["group"]) if said["group"] else statements.get(said["statement"])
            found.append({"line": line, "place": marked(held, *place) if place else None})
    return found
