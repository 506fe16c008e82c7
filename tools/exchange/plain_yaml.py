"""YAML as far as its plain form goes: mappings and lists by indentation, or in brackets on one line; scalars are texts.

Anchors, tags, texts over several lines and documents one after another are refused, not guessed at.
"""
from __future__ import annotations

import re
from typing import Any, NamedTuple

from texts.faults import Fault

KEY = re.compile(r"""(?P<key>"(?:[^"\\]|\\.)*"|'(?:[^']|'')*'|[^\s\[\]{},#&*!|>'"%@`-][^#:,\[\]{}]*|-[^\s#:,\[\]{}]+)\s*:(?:\s+|$)""")
SCALAR = re.compile(r"""\s*("(?:[^"\\]|\\.)*"|'(?:[^']|'')*'|[^\s\[\]{},"'][^\[\]{},]*|)\s*""")
MOST_DEEP = 50


class Line(NamedTuple):
    """A line that says something: its number, how far it is indented, and what stands there."""

    number: int
    indent: int
    text: str


def without_comment(text: str) -> str:
    """A line without a comment, which begins with `#` behind a blank, outside of quotes."""
    quote = ""
    for place, sign in enumerate(text):
        if quote:
            quote = "" if sign == quote else quote
        elif sign in "\"'" and (place == 0 or text[place - 1] in " [{,:"):
            quote = sign
        elif sign == "#" and (place == 0 or text[place - 1] in " \t"):
            return text[:place]
    return text


def lines_of(text: str) -> list[Line]:
    found = []
    for number, whole in enumerate(text.splitlines(), 1):
        line = without_comment(whole).rstrip()
        if line.strip() in ("", "---"):
            continue
        if "\t" in line[:len(line) - len(line.lstrip())]:
            raise Fault(f"line {number}: YAML is indented by blanks")
        found.append(Line(number, len(line) - len(line.lstrip()), line.strip()))
    return found


def scalar(text: str, number: int) -> str:
    """A text, with or without quotes."""
    if text[:1] in "&*!|>%@`" and text:
        raise Fault(f"line {number}: that isn't plain YAML: {text}")
    if text[:1] == '"':
        return re.sub(r"\\(.)", r"\1", text[1:-1])
    return text[1:-1].replace("''", "'") if text[:1] == "'" else text


class Flow:
    """A value in brackets on one line."""

    def __init__(self, text: str, number: int) -> None:
        self.text, self.number, self.at = text, number, 0

    def value(self, depth: int = 0) -> Any:
        if depth > MOST_DEEP:
            raise Fault(f"line {self.number}: too many brackets are open at once")
        self.at += len(self.text[self.at:]) - len(self.text[self.at:].lstrip())
        sign = self.text[self.at:self.at + 1]
        if sign not in ("[", "{"):
            found = SCALAR.match(self.text, self.at)
            self.at = found.end() if found else self.at
            return scalar(found[1].strip() if found else "", self.number)
        self.at += 1
        items: list[Any] = []
        pairs: dict[str, Any] = {}
        close = "]" if sign == "[" else "}"
        while True:
            self.at += len(self.text[self.at:]) - len(self.text[self.at:].lstrip())
            if self.text[self.at:self.at + 1] == close:
                self.at += 1
                return items if sign == "[" else pairs
            if sign == "{":
                key = KEY.match(self.text, self.at)
                if not key:
                    raise Fault(f"line {self.number}: no key: {self.text[self.at:]}")
                self.at = key.end()
                pairs[scalar(key["key"].strip(), self.number)] = self.value(depth + 1)
            else:
                items.append(self.value(depth + 1))
            self.at += len(self.text[self.at:]) - len(self.text[self.at:].lstrip())
            if self.text[self.at:self.at + 1] == ",":
                self.at += 1
            elif self.text[self.at:self.at + 1] != close:
                raise Fault(f"line {self.number}: `,` or `{close}` goes on there: {self.text[self.at:]}")


class Reader:
    """Goes through the lines of a text."""

    def __init__(self, text: str) -> None:
        self.lines, self.at = lines_of(text), 0

    def here(self) -> Line | None:
        return self.lines[self.at] if self.at < len(self.lines) else None

    def inline(self, text: str, line: Line, depth: int) -> Any:
        """What stands behind a key or a dash: a value on the same line, or what is indented below."""
        if text:
            if text[0] not in "[{":
                return scalar(text, line.number)
            flow = Flow(text, line.number)
            found = flow.value()
            if flow.text[flow.at:].strip():
                raise Fault(f"line {line.number}: what is that? {flow.text[flow.at:].strip()}")
            return found
        below = self.here()
        is_list_here = below and below.indent == line.indent and below.text.startswith("- ")
        return self.block(below.indent, depth + 1) if below and (below.indent > line.indent or is_list_here) else ""

    def block(self, indent: int, depth: int = 0) -> Any:
        """The mapping or the list of the lines that are indented so."""
        first = self.here()
        if not first or depth > MOST_DEEP:
            raise Fault("the text ends too early" if not first else f"line {first.number}: indented too often")
        is_list = first.text.startswith("- ") or first.text == "-"
        items: list[Any] = []
        pairs: dict[str, Any] = {}
        while (line := self.here()) and line.indent == indent and (line.text.startswith("- ") or line.text == "-") == is_list:
            if is_list:
                rest = line.text[1:].strip()
                if KEY.match(rest) and rest[:1] not in "[{":  # a mapping that begins behind the dash
                    self.lines[self.at] = Line(line.number, indent + len(line.text) - len(rest), rest)
                    items.append(self.block(self.lines[self.at].indent, depth + 1))
                else:
                    self.at += 1
                    items.append(self.inline(rest, line, depth))
                continue
            key = KEY.match(line.text)
            if not key:
                raise Fault(f"line {line.number}: no key with a colon: {line.text}")
            self.at += 1
            pairs[scalar(key["key"].strip(), line.number)] = self.inline(line.text[key.end():].strip(), line, depth)
        if (line := self.here()) and line.indent > indent:
            raise Fault(f"line {line.number}: indented more than the lines before")
        return items if is_list else pairs


def read(text: str) -> Any:
    """The value of a text."""
    reader = Reader(text)
    first = reader.here()
    if not first:
        raise Fault("the text is empty")
    value = reader.block(first.indent)
    if left := reader.here():
        raise Fault(f"line {left.number}: what is that? {left.text}")
    return value
