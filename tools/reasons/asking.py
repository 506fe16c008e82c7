"""The way of tools/why: which statements are refused, why, and which repairs compile.

A statement is compiled by itself by letting all others drop what they govern. So each prefix keeps its statement, its case and the case's
number, and what is refused is refused because of this statement. Where each is accepted in this way and the policy isn't, all together go
beyond the limit on steps.

Two walks of a refusal that read alike lead to one node, and both are shown: what differs is the routes at that node, where one has come
over the neighbour and another hasn't. It is asked whether their ranks are the same, but not whether they lead to one node.
"""
from __future__ import annotations

import functools
import os
import re
import sys
import tempfile
from collections.abc import Callable, Iterable, Iterator
from dataclasses import dataclass
from typing import Any

from texts import policy
from texts.cases import Case
from texts.faults import Ended, Fault
from texts.files import read_bytes
from texts.policy import Policy, Statement
from texts.statuses import BAD_INPUT, DONE, USAGE, WRITE_FAULT
from texts.topology import Topology

from . import cases, costs, expressions, program as programs, refusals, repairs, words
from .network import Network
from .parts import Accepted, Part, Refused, Repair, Repairs, Together, lines_of, records_of
from .program import Program, Progress, TimeUp
from .refusals import Refusal
from .setting import Maker, Sent, Setting

TRIES = 50
SECONDS = 300  # or those of the variable WHY_SECONDS
FOR_REPAIRS, FOR_COSTS = 0.7, 0.3  # the parts of the time that are kept for repairs, and for what they give up
NO_TIME = "what it gives up isn't known: the time is up"
RECORDS = "--records"
Kept = tuple[str, Statement]  # a repair that compiles: what was done, and the statement
Priced = tuple[costs.Price, Repair]
Walk = tuple[str, ...]


@dataclass(frozen=True)
class RefusedCase:
    """A statement that can't be kept, and the first case of it that is refused; `is_single` where it has no other."""

    program: Program
    cut: Policy
    net: Network
    statement: Statement
    case: Case
    refusal: Refusal
    is_single: bool


def refused_in(program: Program, cut: Policy, statement: Statement) -> Refusal | None:
    """How a statement is refused where all others drop what they govern; none where it isn't."""
    return refusals.refusal_of(program.needed("explain", cut.alone(statement)))


def refused_as(program: Program, setting: Setting, statement: Statement) -> Refusal:
    """How a repair is refused. Where its text breaks a rule, that is told as the refusal that it was to mend."""
    try:
        return refused_in(program, setting.policy, statement) or setting.refusal
    except Ended:
        return setting.refusal


def candidates(setting: Setting, kept: Iterable[str], refused: Callable[[Statement], Refusal]) -> Iterator[Kept]:
    """What the makers yield, in turns, each statement once. `kept` has the texts of those that compiled meanwhile."""
    seen = {setting.statement.spelled()}
    waiting: list[tuple[Maker, Sent]] = [(make(setting), None) for make in repairs.MAKERS]
    while waiting:
        maker, sent = waiting.pop(0)
        try:
            habit, statement = maker.send(sent)
            while statement.spelled() in seen or not expressions.is_lawful(statement.expression):
                habit, statement = maker.send(None if statement.spelled() in kept else lambda: setting.refusal)
        except StopIteration:
            continue
        seen.add(statement.spelled())
        yield habit, statement
        waiting.append((maker, None if statement.spelled() in kept else functools.partial(refused, statement)))


def tried(program: Program, setting: Setting, budget: int) -> tuple[list[Kept], int]:
    """The repairs that compile, and how many were tried: as long as tries are left, and time for what the repairs give up."""
    kept: dict[str, Kept] = {}
    begun = program.tries
    try:
        for habit, statement in candidates(setting, kept, lambda statement: refused_as(program, setting, statement)):
            count, text = begun - program.tries, statement.spelled()
            if count >= budget or program.part_left() < FOR_COSTS:
                break
            program.progress.say(f"statement {setting.statement.number}, try {count + 1} of at most {budget}: {text}")
            if program.compiles(setting.policy.alone(statement)):
                kept[text] = habit, statement
    except TimeUp:
        pass
    return list(kept.values()), begun - program.tries


def like(ranks: cases.Ranks, walk: Walk | None, shown: Walk, steps: int) -> bool:
    """Whether a walk has the ranks of the one that is shown, and longer walks that end with either have the same."""
    return walk is not None and all(len({frozenset(found) for found in ranks.of([walk, shown], more).values()}) == 1 for more in (0, steps))


def has_time(program: Program) -> bool:
    """Whether more may be asked than what is needed."""
    return program.part_left() > FOR_REPAIRS


def shows_of(ranks: cases.Ranks, refusal: Refusal, now: dict[Walk, set[int]]) -> dict[Any, Any]:
    """Walks that show what lines say: a loop's that comes over the neighbour and one that doesn't; the one that needs a mixed source."""
    shows: dict[Any, Any] = {}
    if refusal.word == "mixed-source" and has_time(ranks.program):
        walk = ranks.completed((), refusal.second, set(range(1, cases.MOST_RANKS + 1)))
        shows = {refusal: walk} if walk else {}
    for line in refusal.lines[:words.MOST_LINES]:
        if line.reason == "loop" and now.get(line.first) and has_time(ranks.program):
            over = ranks.completed((line.router,), line.along, now[line.first])
            past = line.first if line.other not in line.first else \
                ranks.network.walk([line.router], ranks.case.origins, {line.other}) or None
            steps = cases.STEPS // 2
            shows[line] = (over if like(ranks, over, line.first, steps) else None,
                           past if line.first == line.second and like(ranks, past, line.first, steps) else None)
    return shows


def ways_told(ranks: cases.Ranks, refusal: Refusal) -> tuple[words.Ways, tuple[list[str], list[str]]]:
    """The nodes, with walks that show what the lines say, and their picture."""
    walks = refusal.walks()[:2 * words.MOST_LINES]
    now, steps = ranks.of(walks), cases.STEPS
    later: dict[Walk, set[int]] = {}
    while walks and not later and steps >= 2 and has_time(ranks.program):
        later, steps = ranks.of(walks, steps), steps // 2
    ways = words.Ways(walks, shows_of(ranks, refusal, now))
    return ways, words.pictured(ways, now, later)


def why_of(case: RefusedCase) -> Refused:
    """Why a statement can't be kept."""
    statement, refusal = case.statement, case.refusal
    case.program.progress.say(f"statement {statement.number}, its nodes")
    ways, (picture, legend) = ways_told(cases.Ranks(case.program, case.cut, case.net, case.case, statement.expression), refusal)
    told = f"Case {case.case.number} is {cases.told(case.case, statement)}"
    return Refused(statement.number, statement.line, statement.spelled(), refusal.text, told, words.told(refusal, ways), picture, legend)


def priced(case: RefusedCase, kept: Iterable[Kept]) -> tuple[list[Repair], int]:
    """The repairs by what was done, those first that give up least; each with what it gives up. And how many poor ones are left out,
    which are all told where there are no others."""
    program, number = case.program, case.statement.number
    try:
        given_up = costs.given_up(program, case.cut, case.net, case.case, case.statement)
    except TimeUp:
        given_up = None
    found: list[Priced] = []
    for habit, changed in kept:
        program.progress.say(f"statement {number}, what is given up: {changed.spelled()}")
        try:
            price = given_up(changed) if given_up else costs.Price((), [NO_TIME])
        except TimeUp:
            price = costs.Price((), [NO_TIME])
        found.append((price, Repair(habit, changed.spelled(), price.lines)))
    told = [each for each in found if not each[0].is_poor] or found
    groups: dict[str, list[Priced]] = {}
    for each in sorted(told, key=by_cost):
        groups.setdefault(each[1].habit, []).append(each)
    return [repair for some in groups.values() for _, repair in some], len(found) - len(told)


def by_cost(priced_one: Priced) -> tuple[bool, tuple[int, ...]]:
    """The order of repairs: those last of which it isn't known what they give up."""
    much = priced_one[0].much
    return not much, much


def repairs_of(case: RefusedCase, budget: int) -> Repairs:
    """The repairs of a statement."""
    setting = Setting(case.cut, case.net, case.statement, frozenset(case.case.origins), case.is_single, case.refusal)
    kept, count = tried(case.program, setting, budget)
    is_late = case.program.part_left() < FOR_COSTS
    found, left_out = priced(case, kept)
    return Repairs(case.statement.number, count, is_late, None if case.is_single else case.case.number, found, left_out)


def refused_cases(program: Program, text: bytes) -> list[RefusedCase]:
    """The statements that can't be kept, each by itself."""
    cut, net = policy.cut(text), Network.of(Topology(program.topology_text))
    found_cases, refused = cases.cases_of(program, cut, net), []
    for statement in cut.statements:
        own = [case for case in found_cases if case.statement == statement.number]
        program.progress.say(f"statement {statement.number} of {len(cut.statements)} by itself")
        refusal = refused_in(program, cut, statement) if own else None
        if refusal is not None:
            case = next(case for case in own if case.number == refusal.case)
            refused.append(RefusedCase(program, cut, net, statement, case, refusal, len(own) == 1))
    return refused


def parts_of(program: Program, text: bytes) -> Iterator[Part]:
    """All that is told of a policy, each part as soon as it is known."""
    whole = refusals.refusal_of(program.needed("explain", text))
    if whole is None:
        yield Accepted()
        return
    refused = refused_cases(program, text)
    if not refused:
        yield Together(whole.text, words.told(whole, words.Ways([])))
    for number, case in enumerate(refused):
        yield why_of(case)
        yield repairs_of(case, program.tries // (len(refused) - number))


class Unwritten(Exception):
    """The output takes nothing more."""


def written(lines: Iterable[str], progress: Progress) -> None:
    """Writes each line as soon as it is known."""
    for line in lines:
        progress.clear()
        try:
            sys.stdout.write(line + "\n")
            sys.stdout.flush()
        except OSError as fault:
            os.dup2(os.open(os.devnull, os.O_WRONLY), sys.stdout.fileno())
            raise Unwritten from fault


def seconds() -> int:
    """How long all may take."""
    given = os.environ.get("WHY_SECONDS", "")
    return int(given) if re.fullmatch(r"[1-9][0-9]{0,6}", given) else SECONDS


def outcome(arguments: list[str], usage: str, progress: Progress) -> tuple[int, str]:
    """Tells why a policy is refused; the status, and a line where there is a fault."""
    made, names = (records_of, arguments[1:]) if arguments[:1] == [RECORDS] else (lines_of, arguments)
    if len(names) != 2:
        return USAGE, usage
    try:
        path, (topology, text) = programs.found(), map(read_bytes, names)
        with tempfile.TemporaryDirectory(prefix="why.") as folder:
            written(made(parts_of(Program(path, folder, topology, TRIES, seconds(), progress), text)), progress)
    except Ended as ended:
        return ended.status, ended.line
    except Fault as fault:
        return BAD_INPUT, f"why: this script reads a text otherwise than the program: {fault}"
    except TimeUp:
        return DONE, f"why: stopped after {seconds()} seconds; more isn't known"
    except Unwritten:
        return WRITE_FAULT, ""
    return DONE, ""


def main(arguments: list[str], usage: str) -> int:
    """What tools/why does; gives the status."""
    if sys.stdout is None:
        return WRITE_FAULT
    progress = Progress("why")
    try:
        status, line = outcome(arguments, usage, progress)
    finally:
        progress.clear()
    if line and sys.stderr is not None:
        print(line, file=sys.stderr)
    return status
