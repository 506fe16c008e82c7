"""Reads a file of FRR back, or what `show running-config` writes, which has another order.

As for BIRD: the lists and the maps of a router, as far as the file is as written, and where it isn't. How names end in a staged file
says nothing of its own.
"""
from __future__ import annotations

import re
from collections.abc import Iterator, Mapping, Sequence

from .maps import Block, Entry, Lists, Network, Row, RouterMaps, Tag

NUMBER = r"(\d{1,10})"
PREFIX = r"(\d+\.\d+\.\d+\.\d+/\d\d?)"
TAG = rf"{NUMBER}:0:{NUMBER}"
NAME = re.compile(r"\b((?:list-\d+(?:-again-\d+)?|(?:in|out|own)-[^\s:]+)):[0-9a-f]{8}(?=\s|$)", re.MULTILINE)
ROW = re.compile(rf"ip prefix-list list-{NUMBER}(?:-again-\d+)? seq {NUMBER} (deny|permit) {PREFIX}(?: le (\d\d?))?")
TAG_LIST = re.compile(rf"bgp large-community-list standard (\S+) seq \d+ permit {TAG}")
MAP = re.compile(rf"route-map (in|out|own)-(\S+) (permit|deny) {NUMBER}")
# The names that are written here, and what undoes them: other lines of a file are the router's own,
OURS = re.compile(r"(?:no )?(?:router bgp |ip prefix-list (?:list-\d|longer-)|bgp as-path access-list own-numbers |"
                  r"bgp large-community-list standard tag-|route-map (?:in|out|own)-)")
# but for those that mean something below one of ours alone: FRR may take them as standing there, whatever their indent.
LOOSE = re.compile(r"(?:no )?(?:neighbor|network|address-family|maximum-paths|redistribute|aggregate-address|match|set|call|on-match|"
                   r"continue|bgp (?!as-path |community-list |large-community-list |extcommunity-list |route-map ))")
# What FRR does anyway, with the version from which on `show running-config` doesn't tell it; tried on 8.4.4 alone.
UNTOLD = ((8, re.compile(r"bgp ebgp-requires-policy|neighbor \S+ send-community large")),
          (10, re.compile(r"neighbor \S+ enforce-first-as")))


def read_frr(text: str) -> tuple[Lists, RouterMaps, list[str]]:
    below: dict[str, list[str]] = {}
    numbers: dict[str, int] = {}
    for number, path in paths(NAME.sub(r"\1", text)):
        below.setdefault(path[0], []).extend(path[1:2])
        numbers.setdefault(path[0], number)
    maps, unread = read_maps(below)
    return read_lists(below), maps, [f"line {numbers[head]}: {head}: no entry as it would be written" for head in unread]


def paths(text: str) -> Iterator[tuple[int, tuple[str, ...]]]:
    """Each line that says something, with its number and behind those that it is indented under, as FRR itself writes."""
    above: list[str] = []
    for number, line in enumerate(text.splitlines(), 1):
        words = line.strip()
        if words and not words.startswith("!"):
            above = above[:len(line) - len(line.lstrip())]
            if words not in ("exit", "exit-address-family", "end"):
                above = [*above, words]
                yield number, tuple(above)


def read_lists(below: Mapping[str, Sequence[str]]) -> Lists:
    found = [match.groups() for match in map(ROW.fullmatch, below) if match]
    lists: Lists = {}
    for number, _, word, prefix, longest in sorted(found, key=lambda row: (int(row[0]), int(row[1]))):
        lists.setdefault(int(number), []).append(Row.of(word, prefix, longest))
    return lists


def read_maps(below: Mapping[str, Sequence[str]]) -> tuple[RouterMaps, list[str]]:
    """The maps, and the heads of the entries that aren't whole."""
    tags = {match[1]: Tag(int(match[2]), int(match[3])) for match in map(TAG_LIST.fullmatch, below) if match}
    maps, unread = RouterMaps(), []
    found = [match for match in map(MAP.fullmatch, below) if match]
    for match in sorted(found, key=lambda match: int(match[4])):
        kind, name, word, _ = match.groups()
        block = maps.blocks.setdefault(name, Block()) if kind != "own" else Block()
        if word == "deny":
            continue
        entry = read_entry(kind, below[match[0]], tags)
        if entry is None:
            unread.append(match[0])
        elif kind == "own" and entry.put:
            maps.networks.append(Network(name, entry.number, entry.put))
        else:
            (block.takes if kind == "in" else block.sends).append(entry)
    return maps, unread


def read_entry(kind: str, lines: Sequence[str], tags: Mapping[str, Tag]) -> Entry | None:
    """The entry of these lines, where they say all that one of its kind says."""
    words = dict(line.rpartition(" ")[::2] for line in lines)
    number = re.fullmatch(f"list-{NUMBER}", words.get("match ip address prefix-list", ""))
    match = tags.get(words.get("match large-community", ""))
    put = re.fullmatch(TAG, words.get("set large-community", ""))
    preference = re.fullmatch(NUMBER, words.get("set local-preference", ""))
    has = {"in": put and preference, "out": match, "own": put}
    if not number or not has[kind]:
        return None
    return Entry(int(number[1]), match, Tag(int(put[1]), int(put[2])) if put else None, int(preference[1]) if preference else None)


def frr_differences(text: str, wanted: str) -> Iterator[str]:
    """The lines that are too many, and those that are missing."""
    has, wants = {path: number for number, path in paths(text)}, {path: None for _, path in paths(wanted)}
    version = re.search(r"^frr version (\d+)", text, re.MULTILINE)
    untold = [form for since, form in UNTOLD if version and int(version[1]) >= since]
    for path, number in has.items():
        if path not in wants and (OURS.match(path[0]) or LOOSE.match(path[0])):
            yield f"line {number}: {path[-1]}: isn't as written{below(path)}"
    for path in wants:
        if path not in has and not any(form.fullmatch(path[-1]) for form in untold):
            yield f"a line is missing{below(path)}: {path[-1]}"


def below(path: tuple[str, ...]) -> str:
    return f", below {path[-2]}" if len(path) > 1 else ""
