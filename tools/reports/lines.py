"""One form of a line, such as `router {router} rank {rank} path {path}`: what it makes of a line, and the line that it makes of that.

    {name}      a word of the line
    {number#}   a whole number
    {class?}    a whole number, or null for `none`
    {rank!}     a whole number for `rank N`, or null for `none`
    {quiet~}    true for `yes`, false for `no`
    {link&}     an array of two words
    {path*}     an array of one word or more; in a form with several the first ones are the shortest that fit
    {cases+}    an array of whole numbers
    {names,}    an array, with an array for each word: its parts, which stand behind commas; a part may be a prefix with ` le N`
    {pairs%}    an array of arrays of two words; {pairs@} the same, with commas between in the line
    {parts/}    an array of arrays of a pattern and the prefix that it is inside of, with commas between; the prefix stands there where it
                isn't the pattern's own
    {rest$}     the rest of the line
    {prefix^}   a prefix, with ` le N` behind it where that stands there
    {state=a|b} one of these words
"""
from __future__ import annotations

import re
from typing import Any, NamedTuple

FIELD = re.compile(r"\{([a-z]+)([#?!~&*^+,%@$/]|=[a-z|-]+)?\}")
NUMBER = "0|[1-9][0-9]*"
PART = r"[^\s,]+(?: le [0-9]+)?"
WORD = f"{PART}(?:,{PART})*"
OPEN = rf"{PART}(?: in [^\s,]+)?"
PATTERNS = {"": r"\S+", "#": NUMBER, "?": f"none|{NUMBER}", "!": f"none|rank (?:{NUMBER})", "~": "yes|no", "&": r"\S+ \S+",
            "*": r"\S+(?: \S+)*?", "^": r"\S+(?: le [0-9]+)?", "+": f"(?:{NUMBER})(?: (?:{NUMBER}))*", ",": rf"{WORD}(?: {WORD})*",
            "%": r"\S+ \S+(?: \S+ \S+)*?", "@": r"\S+ [^\s,]+(?:, \S+ [^\s,]+)*", "$": ".+", "/": f"{OPEN}(?:, {OPEN})*"}
Fields = dict[str, Any]


class Field(NamedTuple):
    """A part of a line that has a name. `sort` is the sign behind it, and `choice` the words of which it is one."""

    name: str
    sort: str
    choice: tuple[str, ...]

    def shown(self) -> str:
        return "{" + self.name + ("=" + r"\|".join(self.choice) if self.choice else "") + "}"

    def pattern(self) -> str:
        return f"(?P<{self.name}>{'|'.join(map(re.escape, self.choice)) or PATTERNS[self.sort]})"

    def read(self, text: str) -> Any:
        """The value that a part of a line spells."""
        if self.sort in ("&", "*", "+", "%"):
            words = text.split(" ")
            if self.sort == "%":
                return [list(pair) for pair in zip(words[::2], words[1::2])]
            return [int(word) for word in words] if self.sort == "+" else words
        if self.sort == "@":
            return [pair.split(" ") for pair in text.split(", ")]
        if self.sort == "/":
            return [part_of(part) for part in text.split(", ")]
        if self.sort == ",":
            return [word.split(",") for word in re.findall(WORD, text)]
        if self.sort == "~":
            return text == "yes"
        if self.sort in ("?", "!") and text == "none":
            return None
        return int(text.removeprefix("rank ")) if self.sort in ("#", "?", "!") else text

    def write(self, value: Any) -> str:
        """The part of a line that spells a value."""
        if self.sort in ("&", "*", "+"):
            return " ".join(map(str, value))
        if self.sort == "/":
            return ", ".join(pattern if pattern.split(" ")[0] == prefix else f"{pattern} in {prefix}" for pattern, prefix in value)
        if self.sort in (",", "%"):
            return " ".join(("," if self.sort == "," else " ").join(each) for each in value)
        if self.sort == "@":
            return ", ".join(map(" ".join, value))
        if self.sort == "~":
            return "yes" if value else "no"
        if value is None:
            return "none"
        return f"rank {value}" if self.sort == "!" else str(value)

    def schema(self) -> Fields:
        """What a value may be, as JSON Schema says it."""
        if self.choice:
            return {"enum": list(self.choice)}
        if self.sort in ("&", "*"):
            size = {"minItems": 2, "maxItems": 2} if self.sort == "&" else {"minItems": 1}
            return {"type": "array", "items": {"type": "string"}} | size
        if self.sort in ("+", ",", "%", "@", "/"):
            pair = {"minItems": 2, "maxItems": 2} if self.sort in ("%", "@", "/") else {"minItems": 1}
            item = {"type": "integer", "minimum": 1} if self.sort == "+" else {"type": "array", "items": {"type": "string"}} | pair
            return {"type": "array", "items": item, "minItems": 1}
        if self.sort in ("#", "?", "!"):
            return {"type": "integer" if self.sort == "#" else ["integer", "null"], "minimum": 0}
        return {"type": "boolean" if self.sort == "~" else "string"}


class Form:
    """A form of a line, and the kind of line that it is."""

    def __init__(self, kind: str, text: str) -> None:
        self.kind, self.text = kind, text
        self.parts: list[str | Field] = []
        at = 0
        for found in FIELD.finditer(text):
            sort = found[2] or ""
            self.parts += [text[at:found.start()], Field(found[1], "" if sort.startswith("=") else sort, choice_of(sort))]
            at = found.end()
        self.parts.append(text[at:])
        self.fields = [part for part in self.parts if isinstance(part, Field)]
        self.keys = {"kind", *(field.name for field in self.fields)}
        self.pattern = re.compile("".join(part.pattern() if isinstance(part, Field) else re.escape(part) for part in self.parts))

    def shown(self) -> str:
        """The form as a cell of a table has it, without the signs that say how a part is read."""
        return "".join(part.shown() if isinstance(part, Field) else part for part in self.parts)

    def read(self, line: str) -> Fields | None:
        """The line as JSON; None where it isn't of this form."""
        found = self.pattern.fullmatch(line)
        if not found:
            return None
        return {"kind": self.kind} | {field.name: field.read(found[field.name]) for field in self.fields}

    def write(self, fields: Fields) -> str | None:
        """The line of what was read; None where that isn't of this form."""
        if fields["kind"] != self.kind or fields.keys() - {"lines"} != self.keys:
            return None
        line = "".join(part.write(fields[part.name]) if isinstance(part, Field) else part for part in self.parts)
        return line if self.pattern.fullmatch(line) else None


def part_of(text: str) -> list[str]:
    """A pattern, and the prefix that it is inside of: its own, where no other stands there."""
    pattern, _, prefix = text.partition(" in ")
    return [pattern, prefix or pattern.split(" ")[0]]


def choice_of(sort: str) -> tuple[str, ...]:
    """The words of which a field is one, where it is such."""
    return tuple(sort[1:].split("|")) if sort.startswith("=") else ()
