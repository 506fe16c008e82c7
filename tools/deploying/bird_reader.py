"""Reads a file of BIRD 2 back: the lists and the maps of a router, as far as the file is as written, and where it isn't."""
from __future__ import annotations

import re
from collections.abc import Iterable, Iterator

from .maps import Block, Entry, Lists, Network, Row, RouterMaps, Tag
from .ordered import lines

NUMBER = r"(\d{1,10})"
PREFIX = r"(\d+\.\d+\.\d+\.\d+/\d\d?)"
TAG = rf"\({NUMBER}, 0, {NUMBER}\)"
LISTED = rf"net ~ list{NUMBER}(?: && net !~ list\d+_less)?"
LIST = re.compile(rf"define list{NUMBER}(_less)? = \[(.*)")
PATTERN = re.compile(rf"{PREFIX}(?:\{{\d+,(\d\d?)\}})?")
FILTER = re.compile(r"filter '(in|out):(\S+)'")
NETWORK = re.compile(rf"if net = {PREFIX} && {LISTED} then \{{ mark\({TAG}\); accept; \}}")
TAKE = re.compile(rf"if {LISTED}(?: && {TAG} ~ bgp_large_community)? then \{{ mark\({TAG}\); bgp_local_pref = {NUMBER}; accept; \}}")
SEND = re.compile(rf"if {LISTED} && {TAG} ~ bgp_large_community then (?:accept;|\{{ bare\(\); accept; \}})")


def read_bird(text: str) -> tuple[Lists, RouterMaps, list[str]]:
    told = [line for _, line in lines(text)]
    return read_lists(told), read_maps(told), []  # a line that isn't read is the first that differs


def read_lists(told: Iterable[str]) -> Lists:
    """Lists begin in a line, and may go on in further ones."""
    denied: Lists = {}
    permitted: Lists = {}
    word, rows = "", None
    for line in told:
        head = LIST.fullmatch(line)
        if head:
            word, line = "deny" if head[2] else "permit", head[3]
            rows = (denied if head[2] else permitted).setdefault(int(head[1]), [])
        if rows is not None:
            rows += [Row.of(word, prefix, longest or None) for prefix, longest in PATTERN.findall(line)]
        if line.endswith("];"):
            rows = None
    return {number: denied.get(number, []) + rows for number, rows in permitted.items()}


def read_maps(told: Iterable[str]) -> RouterMaps:
    """The networks of all lines, and the entries of those that follow the head of a filter."""
    maps, kind = RouterMaps(), ""
    entries: list[Entry] | None = None
    for line in told:
        head, network = FILTER.fullmatch(line), NETWORK.fullmatch(line)
        if head:
            block = maps.blocks.setdefault(head[2], Block())
            kind, entries = head[1], block.takes if head[1] == "in" else block.sends
        elif line == "}":
            entries = None
        elif network:
            maps.networks.append(Network(network[1], int(network[2]), tag(network[3], network[4])))
        elif entries is not None:
            entries += read_entry(kind, line)
    return maps


def read_entry(kind: str, line: str) -> Iterator[Entry]:
    """The entry of a line, if it is one."""
    found = (TAKE if kind == "in" else SEND).fullmatch(line)
    if found and kind == "in":
        number, asn, value, put_asn, put_value, preference = found.groups()
        yield Entry(int(number), tag(asn, value) if asn else None, tag(put_asn, put_value), int(preference))
    elif found:
        yield Entry(int(found[1]), tag(found[2], found[3]))


def tag(asn: str, value: str) -> Tag:
    return Tag(int(asn), int(value))
