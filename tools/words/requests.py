"""What is wrong in the other texts, by the fault that the program tells: scenarios, events, tables, evidence, and texts of lines."""
from __future__ import annotations

from collections.abc import Callable, Collection, Iterator, Sequence

from texts import json_places, scenario
from texts.json_places import Value

from .near import near
from .places import Text
from .policies import prefix_words
from .said import NOTHING, Hint, said, said_at
from .topologies import at, not_json

EVENTS = {"deliver": 2, "link_down": 2, "link_up": 2, "router_down": 1, "router_up": 1, "peer_speak": 2, "peer_silent": 2}
NO_PREFIX = "That is no prefix. "
NO_SITE = "That is no router and no peer of the topology."


def texts_in(value: Value) -> Iterator[Value]:
    """All texts of a value, one after another."""
    waiting = [value]
    while waiting:
        value = waiting.pop()
        if value.kind == "string":
            yield value
        elif value.kind == "array":
            waiting += reversed(value.held)


def unknown(text: Text, value: Value, known: Collection[str]) -> Hint:
    """The first text of a value that is no name."""
    for held in texts_in(value):
        if held.held not in known:
            return at(text, held, NO_SITE, near=near(held.held, known))
    return NOTHING


def no_prefix(text: Text, value: Value) -> Hint:
    """A text that is no prefix."""
    return at(text, value, NO_PREFIX + prefix_words(value.held))


def keys_hint(text: Text, value: Value, keys: Sequence[str]) -> Hint:
    """An object that lacks a key, or has one too many."""
    if value.kind == "object":
        for key, place in value.keys.items():
            if key not in keys:
                return at(text, place, f"The object has the keys {', '.join(keys)}, and no other.")
    return at(text, value, f"The text is an object with exactly the keys {', '.join(keys)}.")


# ---- scenarios


def scenario_shape(text: Text, value: Value, values: Sequence[str], _: Collection[str]) -> Hint:
    """What hasn't the shape of a scenario."""
    if values[0] == "top":
        return keys_hint(text, value, list(scenario.KEYS))
    return at(text, value.held[values[0]], f"What stands under `{values[0]}` is {scenario.KEYS[values[0]]}.")


def no_link(text: Text, value: Value, key: str, place: str, says: str) -> Hint:
    """A pair that is no link, or none of a peer."""
    return at(text, value.held[key].held[int(place) - 1], says)


NO_PEER_LINK = "The topology has no such link of a router and a peer."
Says = Callable[[Text, Value, Sequence[str], Collection[str]], Hint]
SCENARIO: dict[str, Says] = {
    "shape": scenario_shape,
    "unknown": lambda text, value, values, known: unknown(text, value.held[values[0]], known),
    "no-link": lambda text, value, values, _: no_link(text, value, "dead_links", values[1], "The topology has no such link."),
    "not-peer-link": lambda text, value, values, _: no_link(text, value, "silent", values[1], NO_PEER_LINK),
    "bad-prefix": lambda text, value, *_: no_prefix(text, value.held["prefix"]),
}


# ---- events


def event_of(value: Value, values: Sequence[str]) -> Value:
    """The event whose place the program tells."""
    event: Value = value.held["events"].held[int(values[-1]) - 1]
    return event


def event_shape(text: Text, value: Value, values: Sequence[str], _: Collection[str]) -> Hint:
    """What hasn't the shape of events."""
    if not int(values[-1]):
        return keys_hint(text, value, ["prefix", "events"])
    event = event_of(value, values)
    words = event.texts()
    if words and words[0] in EVENTS:
        return at(text, event, f"Behind `{words[0]}` stand{'s one name' if EVENTS[words[0]] == 1 else ' two names'}.")
    return at(text, event, "An event is an array of a word and names.", near=near(words[0], EVENTS) if words else [])


def unknown_in_event(text: Text, value: Value, values: Sequence[str], known: Collection[str]) -> Hint:
    """An event with a name of nothing."""
    named = next(held for held in event_of(value, values).held[1:] if held.held not in known)
    return at(text, named, NO_SITE, near=near(named.held, known))


EVENT_TEXT: dict[str, Says] = {
    "shape": event_shape,
    "too-many": lambda _, __, values, ___: said(f"At most 65,536 events are read, and there are {values[0]}."),
    "unknown": unknown_in_event,
    "bad-prefix": lambda text, value, *_: no_prefix(text, value.held["prefix"]),
}


# ---- tables


def entry_of(value: Value, values: Sequence[str]) -> Value:
    """The entry whose place the program tells."""
    entry: Value = value.held["routes"].held[int(values[1]) - 1]
    return entry


def table_shape(text: Text, value: Value, values: Sequence[str], _: Collection[str]) -> Hint:
    """What hasn't the shape of tables."""
    if not int(values[1]):
        return keys_hint(text, value, ["routes"])
    return at(text, entry_of(value, values), "An entry is null, or an object with exactly the keys `path`, `pref` and `tag`.")


def holder(text: Text, value: Value, values: Sequence[str], _: Collection[str]) -> Hint:
    """A path that doesn't begin with its router."""
    says = f"The path begins with the router itself, the {ordinal(int(values[1]))} of the topology."
    return at(text, entry_of(value, values).held["path"], says)


def ordinal(number: int) -> str:
    """A number as what it counts to: first, second, third, 4th, .. 21st, .."""
    if number <= 3:
        return ("first", "second", "third")[number - 1]
    ending = "th" if number // 10 % 10 == 1 else {1: "st", 2: "nd", 3: "rd"}.get(number % 10, "th")
    return f"{number}{ending}"


TABLES: dict[str, Says] = {
    "shape": table_shape,
    "count": lambda _, __, values, ___: said(f"There is one entry a router, in the order of the topology; {values[0]} are there."),
    "unknown": lambda text, value, values, known: unknown(text, entry_of(value, values).held["path"], known),
    "holder": holder,
}


# ---- all of them

# What is said of each text of JSON, by the word of its fault; where nothing stands, nothing is said.
JSON_TEXTS: dict[str, dict[str, Says]] = {"scenario": SCENARIO, "events": EVENT_TEXT, "tables": TABLES, "evidence": {}}
LINES = {
    "line": "The line has none of the forms of such a text.",
    "order": "Such a line may not stand here, or its number isn't the next, or it doesn't ascend.",
    "twice": "A name, an AS number or an id stood in an earlier line of its kind.",
    "number": "A number has a leading zero, or is out of its range.",
}


def hint(kind: str, text: Text, word: str, values: Sequence[str], known: Collection[str]) -> Hint:
    """What is said behind `propane: KIND NUMBER WORD ..`, for the texts that are neither topologies nor policies."""
    if kind not in JSON_TEXTS:
        return of_lines(text, word, values)
    if word == "not-json":
        return not_json(text)
    says = JSON_TEXTS[kind].get(word)
    return says(text, json_places.read(text.bytes), values, known) if says else NOTHING


def of_lines(text: Text, word: str, values: Sequence[str]) -> Hint:
    """A configuration or route maps."""
    if word == "version":
        migrate = "`propane migrate CONFIG` writes it as it is read now." if text.bytes.startswith(b"propane-config 1\n") else ""
        return said_at(text, 0, max(1, text.bytes.find(b"\n")), "The first line is that of another kind or edition of text.", migrate)
    if word == "unfinished":
        return said(f"The text {text.name()} ends in the midst of a line or of a router's block.")
    place = text.line_start(int(values[1])) or 0
    return said_at(text, place, max(1, text.bytes.find(b"\n", place) - place), LINES[word])
