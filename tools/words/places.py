"""Texts with their places, and how a place is shown: file, line and column, the line, and a caret below the place."""
from __future__ import annotations

import os
import stat

# Bytes: a longer text isn't gone through for a hint.
MOST = 1_048_576
# Letters of a line that are shown.
WIDTH = 70


def plain(text: str) -> str:
    """A text that harms no terminal."""
    return "".join(letter if letter.isprintable() else "?" for letter in text)


class Text:
    """A text that a word of the command names, and its bytes."""

    def __init__(self, word: str, held: bytes) -> None:
        self.word, self.bytes = word, held

    def name(self) -> str:
        """The word, as it is shown."""
        return plain(self.word)

    def line(self, at: int) -> int:
        """The number of the line of a place, from 1."""
        return self.bytes.count(b"\n", 0, at) + 1

    def place(self, at: int) -> str:
        """FILE:LINE:COLUMN, the column in bytes from 1, as the program counts."""
        column = at - self.bytes.rfind(b"\n", 0, at)
        return f"{self.name()}:{self.line(at)}:{column}"

    def line_start(self, number: int) -> int | None:
        """The place at which a line begins, None where the text has fewer."""
        at = 0
        for _ in range(number - 1):
            at = self.bytes.find(b"\n", at) + 1
            if not at:
                return None
        return at if at <= len(self.bytes) else None

    def shown(self, at: int, length: int = 1) -> list[str]:
        """The lines that show a place."""
        begins = self.bytes.rfind(b"\n", 0, at) + 1
        ends = self.bytes.find(b"\n", at)
        ends = len(self.bytes) if ends < 0 else ends
        front = self.bytes[begins:at].decode("utf-8", "replace").replace("\t", " ")
        rest = self.bytes[at:ends].decode("utf-8", "replace").replace("\t", " ").rstrip("\r")
        marked = max(1, min(len(self.bytes[at:min(at + length, ends)].decode("utf-8", "replace")), WIDTH))
        if len(front) + len(rest) > WIDTH:
            cut = len(front) - WIDTH // 2
            if cut > 2:
                front = ".." + front[cut + 2:]
            if len(front) + len(rest) > WIDTH:
                rest = rest[:WIDTH - len(front) - 2] + ".."
        marked = max(1, min(marked, len(rest)))
        number = f"{self.line(at):5}"
        return [
            f"  {self.place(at)}",
            f"{number} | {plain(front + rest)}",
            f"{' ' * len(number)} | {' ' * len(front)}{'^' * marked}",
        ]


def text_of(word: str) -> Text | None:
    """The text of a file, none where it is no file of an ordinary size."""
    try:
        found = os.stat(word)
        if stat.S_ISREG(found.st_mode) and found.st_size <= MOST:
            with open(word, "rb") as file:
                return Text(word, file.read())
    except (OSError, ValueError):
        pass
    return None
