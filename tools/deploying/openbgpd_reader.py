"""Reads a file of OpenBGPD back: the lists and the maps of a router, as far as the file is as written."""
from __future__ import annotations

import re
from collections.abc import Iterable, Iterator

from .maps import Block, Entry, Lists, Network, Row, RouterMaps, Tag
from .ordered import lines

NUMBER = r"(\d{1,10})"
TAG = rf"{NUMBER}:0:{NUMBER}"
LISTED = rf"(?:prefix-set \"list-{NUMBER}\"|community {NUMBER}:{NUMBER})"
SET = re.compile(r"prefix-set \"([\w-]+)\" \{(.*)")
PATTERN = re.compile(r"(\d+\.\d+\.\d+\.\d+/\d\d?)(?: maxlen (\d\d?))?")
LIST_NAME = re.compile(rf"list-{NUMBER}(-less)?")
NETWORK = re.compile(rf"network prefix-set \"(own-{NUMBER}-\d+)\" set \{{ localpref \d+, large-community {TAG} \}}")
NEIGHBOUR = re.compile(r"neighbor (\S+) \{")
NAME = re.compile(r"descr \"(\S+)\"")
TAKE = re.compile(rf"allow quick from (\S+) {LISTED}(?: large-community {TAG})? set "
                  rf"\{{ .*, large-community {TAG}, localpref {NUMBER} \}}")
SEND = re.compile(rf"allow quick to (\S+) {LISTED} large-community {TAG} set \{{ .* \}}")


def read_openbgpd(text: str) -> tuple[Lists, RouterMaps, list[str]]:
    told = [line for _, line in lines(text)]
    sets = read_sets(told)
    return lists_of(sets), read_maps(told, sets), []  # a line that isn't read is the first that differs


def read_sets(told: Iterable[str]) -> dict[str, list[tuple[str, str | None]]]:
    """The patterns of each set of prefixes. A set begins in a line, and may go on in further ones."""
    sets: dict[str, list[tuple[str, str | None]]] = {}
    rows = None
    for line in told:
        if head := SET.fullmatch(line):
            rows, line = sets.setdefault(head[1], []), head[2]
        if rows is not None:
            rows += [(prefix, longest or None) for prefix, longest in PATTERN.findall(line)]
        if line.endswith("}"):
            rows = None
    return sets


def lists_of(sets: dict[str, list[tuple[str, str | None]]]) -> Lists:
    lists: Lists = {}
    for word, ending in (("deny", "-less"), ("permit", None)):
        for name, patterns in sets.items():
            found = LIST_NAME.fullmatch(name)
            if found and found[2] == ending:
                lists.setdefault(int(found[1]), []).extend(Row.of(word, *pattern) for pattern in patterns)
    return lists


def read_maps(told: Iterable[str], sets: dict[str, list[tuple[str, str | None]]]) -> RouterMaps:
    """The networks, and the entries of the rules of each neighbour, by the name that stands with its address."""
    maps, address = RouterMaps(), ""
    blocks: dict[str, Block] = {}
    for line in told:
        if network := NETWORK.fullmatch(line):
            tag, number = Tag(int(network[3]), int(network[4])), int(network[2])
            maps.networks += [Network(prefix, number, tag) for prefix, _ in sets.get(network[1], [])]
        elif neighbour := NEIGHBOUR.fullmatch(line):
            address = neighbour[1]
        elif name := NAME.fullmatch(line):
            blocks[address] = maps.blocks.setdefault(name[1], Block())
        for at, is_taken, entry in read_entry(line):
            if at in blocks:
                (blocks[at].takes if is_taken else blocks[at].sends).append(entry)
    return maps


def read_entry(line: str) -> Iterator[tuple[str, bool, Entry]]:
    """The entry of a line, if it is one: the neighbour's address, whether it is of what is taken, and what it says."""
    if take := TAKE.fullmatch(line):
        at, number, high, low, asn, value, put_asn, put_value, preference = take.groups()
        match = Tag(int(asn), int(value)) if asn else None
        yield at, True, Entry(list_of(number, high, low), match, Tag(int(put_asn), int(put_value)), int(preference))
    elif send := SEND.fullmatch(line):
        at, number, high, low, asn, value = send.groups()
        yield at, False, Entry(list_of(number, high, low), Tag(int(asn), int(value)))


def list_of(number: str | None, high: str, low: str) -> int:
    """The number of a list, which its name or its mark says."""
    return int(number) if number else (int(high) << 16) + int(low)
