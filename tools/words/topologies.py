"""What is wrong in a topology, by the fault that the program tells: the place, and words."""
from __future__ import annotations

import re
from collections.abc import Callable, Sequence

from texts import json_places
from texts.json_places import Value

from .near import near
from .places import Text
from .said import NOTHING, Hint, said_at

MOST = {"routers": 512, "peers": 256, "links": 8192}
RANGES = {
    "routers": "A router's AS number is private: 64512 to 65534, or 4200000000 to 4294967294.",
    "peers": "A peer's AS number is 1 to 65534, or 65536 to 4294967294.",
}
NAME = "A name is a letter, then letters, digits, `_`, `-` and `.`: at most 32 bytes of ASCII, and no word of the policy language."
ID = "An id is a text of four numbers from 0 to 255 joined by dots, without leading zeros, and not 0.0.0.0."
WANTED = {
    "name": "An entry has a `name`, which is a text.",
    "asn": "An entry has an `asn`, which is a whole number, as 64512: no text, no sign, no fraction.",
    "id": ID,
}


def is_id(text: str) -> bool:
    """Whether a text is an id."""
    parts = text.split(".")
    fit = len(parts) == 4 and all(re.fullmatch("0|[1-9][0-9]{0,2}", part) and int(part) < 256 for part in parts)
    return fit and text != "0.0.0.0"


def not_json(text: Text) -> Hint:
    """The first byte at which a text isn't JSON."""
    try:
        json_places.read(text.bytes)
    except json_places.NotJson as wrong:
        return shown_not_json(text, wrong)
    return NOTHING


def shown_not_json(text: Text, wrong: json_places.NotJson) -> Hint:
    """Shows that byte, with what is mostly meant by such a one."""
    rest = text.bytes[wrong.at:wrong.at + 2]
    if not text.bytes.strip():
        says = "The file is empty."
    elif wrong.at == len(text.bytes):
        says = "The text ends here, and something is still open."
    elif text.bytes.startswith(b"\xef\xbb\xbf"):
        says = "The text begins with a byte order mark: save it without one."
    elif rest[:1] == b"'":
        says = "JSON has double quotes alone."
    elif rest[:1] in b"}]" and text.bytes[:wrong.at].rstrip()[-1:] == b",":
        says = "In JSON no comma stands before a closing bracket."
    elif rest[:1] == b"#" or rest in (b"//", b"/*"):
        says = "JSON has no comments."
    else:
        says = f"That isn't JSON: {wrong.why}."
    return said_at(text, wrong.at, 1, says)


def fits(key: str, held: Value) -> bool:
    """Whether a value is of the kind that stands under a key of an entry."""
    if key == "asn":
        return held.kind == "number" and held.held is not None
    return held.kind == "string" and (key == "name" or is_id(held.held))


def entry_fault(entry: Value) -> tuple[str, Value, str] | None:
    """The first part of an entry of routers or peers that isn't as it should be: its word, its place and words."""
    if entry.kind != "object":
        return "entry", entry, "An entry is an object with the keys `name`, `asn` and `id`."
    for key in "name", "asn", "id":
        held = entry.held.get(key)
        if held is None or not fits(key, held):
            lacks = f"The entry has no `{key}`. " if held is None else ""
            return key, held or entry, lacks + WANTED[key]
    for key, place in entry.keys.items():
        if key not in WANTED:
            return "entry", place, "An entry has the keys `name`, `asn` and `id`, and no other."
    return None


def shape_fault(value: Value) -> tuple[str, Value, str] | None:
    """The first part of a topology that hasn't its shape: its word, its place and words."""
    if value.kind != "object":
        return "top", value, "A topology is an object with the keys `routers`, `peers` and `links`."
    lacks = [key for key in MOST if key not in value.held]
    if lacks:
        return "top", value, f"The topology has no key `{lacks[0]}`; where there are none, write `\"{lacks[0]}\":[]`."
    for key, place in value.keys.items():
        if key not in MOST:
            return "top", place, "A topology has the keys `routers`, `peers` and `links`, and no other."
    for kind in MOST:
        if value.held[kind].kind != "array":
            return kind, value.held[kind], f"What stands under `{kind}` is an array."
        for entry in value.held[kind].held:
            if kind == "links":
                if len(entry.texts()) != 2 or len(entry.held) != 2:
                    return "entry", entry, "A link is an array of two names."
            else:
                wrong = entry_fault(entry)
                if wrong:
                    return wrong
    return None


def sites(value: Value) -> list[tuple[str, Value]]:
    """The entries of a topology that has its shape, each with its kind."""
    return [(kind, entry) for kind in ("routers", "peers") for entry in value.held[kind].held]


def names(value: Value) -> list[str]:
    """The names of the routers and peers."""
    return [entry.held["name"].held for _, entry in sites(value)]


def network(text: Text) -> tuple[list[str], list[str]]:
    """The names of the routers and of the peers of a topology that was read."""
    value = json_places.read(text.bytes)
    routers, peers = ([entry.held["name"].held for entry in value.held[kind].held] for kind in ("routers", "peers"))
    return routers, peers


def at(text: Text, place: Value, *says: str, near: Sequence[str] = ()) -> Hint:
    """Sentences on a value."""
    return said_at(text, place.start, place.end - place.start, *says, near=near)


def twice(text: Text, value: Value, key: str, values: Sequence[str]) -> Hint:
    """The first two entries of which a key is the same, where their names, or the later one's alone, are these."""
    first: dict[object, Value] = {}
    for _, entry in sites(value):
        held = entry.held[key]
        if held.held in first and [each.held["name"].held for each in (first[held.held], entry)][-len(values):] == list(values):
            return at(text, held, f"It stands first in line {text.line(first[held.held].held[key].start)}.")
        first.setdefault(held.held, entry)
    return NOTHING


def shape(text: Text, value: Value, values: Sequence[str]) -> Hint:
    """What hasn't the shape of a topology, where that is what the program tells."""
    wrong = shape_fault(value)
    return at(text, *wrong[1:]) if wrong and list(values) == [wrong[0]] else NOTHING


def too_many(text: Text, value: Value, values: Sequence[str]) -> Hint:
    kind = values[0]
    return at(text, value.keys[kind], f"At most {MOST[kind]} {kind} are read, and there are {values[1]}.")


def bad_name(text: Text, value: Value, values: Sequence[str]) -> Hint:
    return at(text, value.held[values[0]].held[int(values[2]) - 1].held["name"], NAME)


def as_range(text: Text, value: Value, values: Sequence[str]) -> Hint:
    kind, entry = next((kind, entry) for kind, entry in sites(value) if entry.held["name"].held == values[0])
    return at(text, entry.held["asn"], RANGES[kind])


def link_of(value: Value, values: Sequence[str]) -> tuple[Value, list[Value]]:
    """The link of a place, and those before it."""
    links, place = value.held["links"].held, int(values[1])
    return links[place - 1], links[:place - 1]


def unknown_end(text: Text, value: Value, values: Sequence[str]) -> Hint:
    known = names(value)
    wrong = next(end for end in link_of(value, values)[0].held if end.held not in known)
    return at(text, wrong, "That is no router and no peer of the topology.", near=near(wrong.held, known))


def link_twice(text: Text, value: Value, values: Sequence[str]) -> Hint:
    link, before = link_of(value, values)
    earlier = next(other for other in before if sorted(other.texts()) == sorted(link.texts()))
    return at(text, link, f"The same link stands in line {text.line(earlier.start)}. A link stands once, for both directions.")


# What is said of each fault of a topology that is JSON, by its word.
SAYS: dict[str, Callable[[Text, Value, Sequence[str]], Hint]] = {
    "shape": shape,
    "too-many": too_many,
    "name": bad_name,
    "twice": lambda text, value, values: twice(text, value, "name", values),
    "as-range": as_range,
    "as-twice": lambda text, value, values: twice(text, value, "asn", values),
    "id-twice": lambda text, value, values: twice(text, value, "id", values),
    "unknown-end": unknown_end,
    "link-twice": link_twice,
    "self-link": lambda text, value, values: at(text, link_of(value, values)[0], "A link joins two locations."),
    "peer-link": lambda text, value, values: at(text, link_of(value, values)[0], "A link joins two routers, or a router and a peer."),
}


def hint(text: Text, word: str, values: Sequence[str]) -> Hint:
    """What is said behind `propane: topology NUMBER WORD ..`."""
    if word == "not-json":
        return not_json(text)
    return SAYS[word](text, json_places.read(text.bytes), values)
