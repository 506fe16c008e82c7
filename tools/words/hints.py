"""Words for people behind the program's line: what it means, where that is, and what may be done."""
from __future__ import annotations

import functools
import json
import os
import re
import stat
import subprocess
import textwrap
from collections.abc import Callable, Iterable, Mapping, Sequence

from texts import scenario
from texts.cases import Case
from texts.policy import Statement
from texts.prefixes import is_prefix
from texts.statuses import BAD_INPUT, CHECK_FAILS, NO_MEMORY, READ_FAULT, REFUSED, USAGE, WRITE_FAULT

from . import changes, findings, policies, refusals, requests, topologies
from .near import near
from .places import Text, plain, text_of
from .said import NOTHING, Hint, said

WIDTH = 80
# What the fault of a text is called, and the word that names such a text in the usage line.
KINDS = {
    "topology": "TOPO", "policy": "POLICY", "config": "CONFIG", "evidence": "EVIDENCE", "scenario": "SCENARIO", "events": "EVENTS",
    "tables": "TABLES", "maps": "MAPS", "before config": "BEFORE", "after config": "AFTER", "old policy": "OLD", "new policy": "NEW",
}
CALLED = {
    "TOPO": "a topology", "POLICY": "a policy", "CONFIG": "a configuration", "EVIDENCE": "evidence", "SCENARIO": "a scenario",
    "EVENTS": "events", "TABLES": "tables", "MAPS": "route maps",
    "BEFORE": "a configuration", "AFTER": "a configuration", "OLD": "a policy", "NEW": "a policy",
}
JSON_KEYS = {
    "TOPO": {"routers", "peers", "links"}, "EVIDENCE": {"cases", "version"}, "EVENTS": {"prefix", "events"}, "TABLES": {"routes"},
    "SCENARIO": set(scenario.KEYS),
}


@functools.lru_cache(maxsize=None)
def usage(program: str) -> dict[str, list[str]]:
    """The words of each command, as the usage line of the program has them."""
    ran = subprocess.run([program], stdin=subprocess.DEVNULL, capture_output=True, timeout=60)
    line = ran.stderr.decode("utf-8", "replace").strip().removeprefix("propane: usage: ")
    found = {}
    for form in line.split(", "):
        command, *words = form.split()
        found[command] = words
    return found


def is_free(kind: str) -> bool:
    """Whether a word may be left out, as in `help [COMMAND]` and `renew TOPO POLICY CONFIG [EVIDENCE]`."""
    return kind.startswith("[")


def kind_of(text: Text) -> str | None:
    """The kind of text that a file seems to hold, None where it isn't told."""
    held = text.bytes
    for kind, front in ("CONFIG", b"propane-config "), ("MAPS", b"propane-maps "):
        if held.startswith(front):
            return kind
    if held.lstrip()[:1] in (b"{", b"["):
        try:
            keys = set(json.loads(held))
        except (ValueError, TypeError, RecursionError):
            keys = {key.decode() for key in re.findall(rb'"(\w+)"\s*:', held)}
        fits = [kind for kind, wanted in JSON_KEYS.items() if wanted <= keys]
        return fits[0] if fits else None
    return "POLICY" if re.search(rb"=>|\b(define|originate)\b", held) else None


def changed_round(command: str, kinds: Sequence[str], texts: Mapping[int, Text]) -> Hint | None:
    """What is to be said where texts stand in each other's place."""
    seems = {place: kind_of(text) for place, text in texts.items()}
    wrong = {place: kind for place, kind in seems.items() if kind and CALLED[kind] != CALLED[kinds[place]]}
    words = f"The words of {command} are {' '.join(kinds)}."
    if len(wrong) > 1 and sorted(CALLED[kind] for kind in wrong.values()) == sorted(CALLED[kinds[place]] for place in wrong):
        names = " and ".join(texts[place].name() for place in wrong)
        return said(f"{names} stand in each other's place: change them round.", words)
    for place, kind in wrong.items():
        return said(f"{texts[place].name()} looks like {CALLED[kind]}, and {CALLED[kinds[place]]} is wanted in its place.", words)
    return None


def no_command(word: str, known: Mapping[str, Sequence[str]]) -> Hint:
    """A word that is no command."""
    return said(f"There is no command {plain(word)}.", near=near(word, known))


def usage_hint(program: str, words: Sequence[str]) -> Hint:
    """Words that are no command."""
    known = usage(program)
    if not words:
        return said("`propane help` lists the commands." if "help" in known else "There is no command.")
    command, given = words[0], words[1:]
    if command not in known:
        return no_command(command, known)
    kinds = known[command]
    if not len([kind for kind in kinds if not is_free(kind)]) <= len(given) <= len(kinds):
        takes = f"{len(kinds)} word{'' if len(kinds) == 1 else 's'}: {' '.join(kinds)}" if kinds else "no words"
        return said(f"{command} takes {takes}; {len(given)} {'is' if len(given) == 1 else 'are'} given.")
    for kind, word in zip(kinds, given):
        if kind == "PREFIX" and not is_prefix(word):
            return said(f"{plain(word)} is no prefix. {policies.prefix_words(word)}")
        if kind == "STAGE" and word not in ("1", "2"):
            return said(f"{plain(word)} is no stage: 1 or 2.")
        if command == "sample" and kind == "N":
            return said(f"{plain(word)} is no number from 2 to 96.")
        if kind == "[COMMAND]" and word not in known:
            return no_command(word, known)
    return NOTHING


def unread(word: str) -> Hint:
    """Why a file can't be read."""
    try:
        if stat.S_ISDIR(os.stat(word).st_mode):
            return said(f"{plain(word)} is a folder.")
        return NOTHING if os.access(word, os.R_OK) else said("The file mayn't be read.")
    except FileNotFoundError:
        folder, name = os.path.split(word)
        names = os.listdir(folder or ".") if os.path.isdir(folder or ".") else []
        return said("There is no such file.", near=near(name, names))
    except (OSError, ValueError) as why:
        return said(f"{getattr(why, 'strerror', why)}.")


def bad_input(line: str, command: str, kinds: Sequence[str], texts: Mapping[int, Text]) -> Hint:
    """The fault of a text."""
    found = re.fullmatch(r"propane: ((?:before |after |old |new )?\w+) \d+ ([\w-]+)(?: (.*))?", line)
    if not found:
        return said("A text has at most 33,554,432 bytes.") if line.startswith("propane: too long ") else NOTHING
    of, word, values = found[1], found[2], (found[3] or "").split()
    place = next((place for place, kind in enumerate(kinds) if kind == KINDS.get(of) and place in texts), None)
    swapped = changed_round(command, kinds, texts)
    if swapped or place is None:
        return swapped or NOTHING
    text = texts[place]
    if of == "topology":
        return topologies.hint(text, word, values).seeing("FORMATS.md", "Topology text")
    routers, peers = sites(kinds, texts) or ([], [])
    if CALLED[KINDS[of]] == "a policy":
        return policies.hint(text, word, values, routers, peers).seeing("LANGUAGE.md", "What may be wrong")
    return requests.hint(of, text, word, values, [*routers, *peers]).seeing("FORMATS.md")


def sites(kinds: Sequence[str], texts: Mapping[int, Text]) -> tuple[list[str], list[str]] | None:
    """The names of the routers and of the peers of the topology, None where none is read here."""
    for place, text in texts.items():
        if kinds[place] == "TOPO":
            return topologies.network(text)
    return None


def refused(line: str, kinds: Sequence[str], texts: Mapping[int, Text], evidence_of: Callable[[bytes], str]) -> Hint:
    """A refusal of a policy, or of two that are compared."""
    found = re.fullmatch(r"propane: (?:(old|new) )?refused \d+ ([\w-]+)(?: (.*))?", line)
    if not found:
        return NOTHING
    word, values, held = found[2], (found[3] or "").split(), {kinds[place]: text for place, text in texts.items()}
    if word == "too-many-pairs" and {"OLD", "NEW"} <= held.keys():
        return changes.pairs_hint(values, held["OLD"], held["NEW"], *refusals.MEANING[word]).seeing("REFUSALS.md", "The refusals")
    policy, known = held.get((found[1] or "policy").upper()), sites(kinds, texts)

    def case_of(number: int) -> tuple[Case, Statement] | None:
        return refusals.case_at(policy, number, [*known[0], *known[1]], evidence_of) if policy and known else None

    return refusals.hint(word, values, case_of, policy).seeing("REFUSALS.md", "Why a router can't" if word == "no-evidence" else "The refusals")


def says_no(command: str) -> Hint:
    """A verdict that the output tells."""
    page = {"audit": ("AUDIT.md", ""), "checkmap": ("FORMATS.md", "The verdict on maps"), "between": ("FORMATS.md", "What is in the way")}
    return NOTHING.seeing(*page.get(command, ("EVIDENCE.md", "The ten rules")))


def of_texts(status: int, line: str, command: str, kinds: Sequence[str], texts: Mapping[int, Text],
             evidence_of: Callable[[bytes], str]) -> Hint:
    """What is said of the texts of a command, each by its place among the words. `evidence_of` asks the program for evidence."""
    if status == CHECK_FAILS:
        return says_no(command)
    return bad_input(line, command, kinds, texts) if status == BAD_INPUT else refused(line, kinds, texts, evidence_of)


def told(program: str, status: int, output: bytes, words: Sequence[str]) -> Hint:
    """What is said behind the program's line."""
    line = output.decode("utf-8", "surrogateescape").rstrip("\n")
    if status == USAGE:
        return usage_hint(program, words)
    if status == READ_FAULT:
        return unread(line.removeprefix("propane: cannot read "))
    if status == WRITE_FAULT:
        return said("The output wasn't taken whole: what was written of it isn't to be used.")
    if status == NO_MEMORY:
        return said("Memory was refused, and nothing was written.")
    if status not in (REFUSED, BAD_INPUT, CHECK_FAILS):
        return NOTHING
    command, kinds = words[0], [kind.strip("[]") for kind in usage(program).get(words[0], [])]
    if status == CHECK_FAILS:
        return says_no(command)
    found = {place: text_of(word) for place, (kind, word) in enumerate(zip(kinds, words[1:])) if kind in CALLED}
    texts = {place: text for place, text in found.items() if text}
    topology = next((text.word for place, text in texts.items() if kinds[place] == "TOPO"), "")
    return of_texts(status, line, command, kinds, texts, refusals.evidence_by(program, topology))


def narrow(line: str) -> list[str]:
    """A line, or several of at most 80 columns; the lines of texts stay as they are."""
    if len(line) <= WIDTH or re.match(r" *\d* \| ", line):
        return [line]
    return textwrap.wrap(line.strip(), WIDTH, initial_indent="  ", subsequent_indent="  ", break_long_words=False, break_on_hyphens=False)


def hints_for(program: str, status: int, output: bytes, words: Sequence[str]) -> list[str]:
    """The lines that stand behind the program's own."""
    return [each for line in told(program, status, output, words).lines() for each in narrow(line)]


def places_for(report: bytes, words: Sequence[str]) -> list[str]:
    """The lines that stand behind a report of `lint` or `compare`: where the statements stand that it names. None behind other reports."""
    said, texts = report.decode("utf-8", "replace"), [text for text in map(text_of, words[2:]) if text]
    found: Iterable[Hint] = ()
    if words[:1] == ["lint"] and len(texts) == 1:
        found = findings.hints(said, *texts)
    elif words[:1] == ["compare"] and len(texts) == 2:
        found = changes.hints(said, *texts)
    return [each for hint in found for line in hint.lines() for each in narrow(line)]
