"""IPv4 prefixes, in the one form in which the program's texts have them."""
from __future__ import annotations

import ipaddress
import re
from collections.abc import Iterable
from typing import NamedTuple

FIGURE = "([0-9]{1,1000})"  # Python reads no number of any length
PREFIX = re.compile(rf"{FIGURE}\.{FIGURE}\.{FIGURE}\.{FIGURE}/{FIGURE}")
DOCUMENTS = ("198.51.100.0/24", "203.0.113.0/24", "192.0.2.0/24")  # RFC 5737: nobody announces them


class Prefix(NamedTuple):
    """The bits of a prefix and their number. As a text it is written as the program writes it."""

    bits: int
    length: int

    def __str__(self) -> str:
        return ".".join(str(self.bits >> 8 * (3 - place) & 255) for place in range(4)) + f"/{self.length}"


def prefix_of(text: str) -> Prefix | None:
    """The prefix of a text, None where it is none."""
    found = PREFIX.fullmatch(text)
    if not found or any(len(part) > 1 and part[0] == "0" for part in found.groups()):
        return None
    *parts, length = map(int, found.groups())
    if max(parts) > 255 or length > 32:
        return None
    bits = sum(part << 8 * (3 - place) for place, part in enumerate(parts))
    return None if bits & (2**32 - 1 >> length) else Prefix(bits, length)


def in_order(prefixes: Iterable[str]) -> list[str]:
    """Prefixes by their bits, and then by their length."""
    return sorted(prefixes, key=ipaddress.IPv4Network)


def is_prefix(text: str) -> bool:
    """Whether a text is a prefix as the program writes it."""
    return prefix_of(text) is not None


def length_of(prefix: str) -> int:
    """The length of a prefix."""
    return int(prefix.partition("/")[2])


def covers(prefix: str, longest: int, asked: str) -> bool:
    """Whether a pattern, a prefix with its longer ones up to a length, has a prefix."""
    inner = ipaddress.IPv4Network(asked)
    return inner.prefixlen <= longest and inner.subnet_of(ipaddress.IPv4Network(prefix))
