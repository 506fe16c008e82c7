"""A text of JSON with the places of its values, and the first byte at which a text is no JSON, as the program reads it."""
from __future__ import annotations

import json
import re
from typing import Any

MOST_OPEN = 127
MOST_WHOLE = 2**64 - 1
SPACE = re.compile(rb"[ \t\n\r]*")
NUMBER = re.compile(rb"-?(?:0|[1-9][0-9]*)(?:\.[0-9]+)?(?:[eE][+-]?[0-9]+)?")
STRING = re.compile(rb'"(?:[^"\\\x00-\x1f]+|\\["\\/bfnrt]|\\u[0-9a-fA-F]{4})*')
WORD = re.compile(rb"true|false|null")
OPENS = {b"{": "object", b"[": "array"}
CLOSES = {"object": b"}", "array": b"]"}


class NotJson(Exception):
    """The text is no JSON from a byte on; it says what would go on there, or what is wrong."""

    def __init__(self, at: int, why: str) -> None:
        super().__init__(why)
        self.at, self.why = at, why


class Value:
    """A value: its kind (object, array, string, number or word), what it holds, and where it stands.

    An array holds its values, an object the last value of each key, a string its text, a number what is whole of it or None.
    """

    def __init__(self, kind: str, start: int) -> None:
        self.kind, self.start, self.end = kind, start, start
        self.held: Any = None
        self.keys: dict[str, Value] = {}

    def texts(self) -> list[str]:
        """The texts of an array that are such."""
        return [each.held for each in self.held if each.kind == "string"] if self.kind == "array" else []


def after(form: re.Pattern[bytes], text: bytes, at: int) -> int:
    """The place behind what has a form at a place; that place, where nothing has it."""
    found = form.match(text, at)
    return found.end() if found else at


def string_at(text: bytes, at: int) -> Value:
    """The string that begins at a place."""
    value = Value("string", at)
    end = after(STRING, text, at)
    if text[end:end + 1] != b'"':
        if text[end:end + 1] == b"\\":
            raise NotJson(end, "an escape is one of \\\" \\\\ \\/ \\b \\f \\n \\r \\t \\uXXXX")
        raise NotJson(end, "a string ends on its line with a double quote" if end < len(text) else "the text ends in a string")
    value.end = end + 1
    value.held = json.loads(text[at:value.end].decode())
    if any("\ud800" <= letter <= "\udfff" for letter in value.held):
        raise NotJson(at, "\\u escapes from d800 to dfff stand in pairs")
    return value


def plain_at(text: bytes, at: int) -> Value:
    """The string, number or word that begins at a place."""
    if text[at:at + 1] == b'"':
        return string_at(text, at)
    for kind, form in ("number", NUMBER), ("word", WORD):
        found = form.match(text, at)
        if found:
            value = Value(kind, at)
            value.end = found.end()
            if kind == "number":
                if abs(float(found[0])) == float("inf"):
                    raise NotJson(at, "the number is too large")
                digits = found[0].isdigit() and len(found[0]) <= 20 and int(found[0])
                value.held = digits if digits is not False and digits <= MOST_WHOLE else None
            else:
                value.held = found[0].decode()
            return value
    raise NotJson(at, "a value begins with `{`, `[`, a double quote, a digit, `-`, or is true, false or null")


class Parser:
    """Goes through a text from value to value: the arrays and objects that are open, and the keys whose values are still to come."""

    def __init__(self, text: bytes) -> None:
        self.text, self.at = text, after(SPACE, text, 0)
        self.open: list[Value] = []
        self.keys: list[Value] = []

    def whole(self) -> Value:
        """The value of the text."""
        done = self.value()
        while self.open:
            around = self.open[-1]
            put(around, done, self.keys)
            sign = self.text[self.at:self.at + 1]
            if sign == CLOSES[around.kind]:
                done = self.closed()
            elif sign == b",":
                self.at = after(SPACE, self.text, self.at + 1)
                if around.kind == "object":
                    self.key()
                done = self.value()
            else:
                raise NotJson(self.at, f"`,` or `{CLOSES[around.kind].decode()}` goes on here")
        if self.at < len(self.text):
            raise NotJson(self.at, "nothing may follow the value")
        return done

    def value(self) -> Value:
        """The next value that is whole, as deep as arrays and objects are opened before it."""
        while (kind := OPENS.get(self.text[self.at:self.at + 1])) is not None:
            if len(self.open) == MOST_OPEN:
                raise NotJson(self.at, f"at most {MOST_OPEN} brackets may be open")
            value = Value(kind, self.at)
            value.held = {} if kind == "object" else []
            self.open.append(value)
            self.at = after(SPACE, self.text, self.at + 1)
            if self.text[self.at:self.at + 1] == CLOSES[kind]:
                return self.closed()
            if kind == "object":
                self.key()
        done = plain_at(self.text, self.at)
        self.at = after(SPACE, self.text, done.end)
        return done

    def closed(self) -> Value:
        """The array or object that a bracket closes."""
        done = self.open.pop()
        done.end = self.at + 1
        self.at = after(SPACE, self.text, self.at + 1)
        return done

    def key(self) -> None:
        """Reads a key with its colon."""
        if self.text[self.at:self.at + 1] != b'"':
            raise NotJson(self.at, "a key is a text in double quotes")
        key = string_at(self.text, self.at)
        self.at = after(SPACE, self.text, key.end)
        if self.text[self.at:self.at + 1] != b":":
            raise NotJson(self.at, "`:` stands behind a key")
        self.keys.append(key)
        self.at = after(SPACE, self.text, self.at + 1)


def put(around: Value, value: Value, keys: list[Value]) -> None:
    """Puts a value into the array or object around it."""
    if around.kind == "array":
        around.held.append(value)
    else:
        key = keys.pop()
        around.held[key.held] = value
        around.keys[key.held] = key


def read(text: bytes) -> Value:
    """The value of a text, or NotJson with the first byte that isn't JSON."""
    front = text
    try:
        text.decode("utf-8")
    except UnicodeDecodeError as wrong:
        front = text[:wrong.start]
    try:
        value = Parser(front).whole()
    except NotJson as wrong:
        if front is text or wrong.at < len(front):
            raise
    else:
        if front is text:
            return value
    raise NotJson(len(front), "the bytes aren't UTF-8")
