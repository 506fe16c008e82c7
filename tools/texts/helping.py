"""What a script says of itself where it is asked for help: its own words, in lines that fit a terminal."""
from __future__ import annotations

import argparse
import re
import sys
import textwrap
from collections.abc import Iterator, Sequence

ASKED = ["--help"], ["-h"], ["help"]
WIDTH, WIDEST_NAME = 80, 28
COLUMNS = re.compile(r"(?P<name> +\S(?:.*?\S)?)(?P<gap> {2,})(?P<what>\S.*)")


def answer_help(words: Sequence[str], text: str) -> None:
    """Writes the text and ends with status 0, where the words ask for help and for nothing else."""
    if list(words) in ASKED:
        sys.stdout.write(folded(text))
        sys.exit(0)


def form(prog: str) -> argparse.HelpFormatter:
    """The form of the help of a script whose words argparse reads."""
    return argparse.RawDescriptionHelpFormatter(prog, width=WIDTH)


def asked_as_option(words: Sequence[str]) -> Sequence[str]:
    """The words as argparse knows them: the word `help` alone asks for help, too."""
    return ["--help"] if list(words) in ASKED else words


def folded(text: str) -> str:
    """The text in lines of at most 80 columns. Paragraphs are filled; indented lines stay lines, each continued further in."""
    return "\n".join(line for part in parts(text.strip("\n").split("\n")) for line in filled(part)) + "\n"


def parts(lines: Sequence[str]) -> Iterator[list[str]]:
    """A paragraph, an indented line with those that continue it, or an empty line: each by itself."""
    part: list[str] = []
    for line in lines:
        first = part[0] if part else ""
        continues = bool(line.strip() and first.strip()) and (indent(line) > indent(first) if indent(first) else not indent(line))
        if not continues and part:
            yield part
            part = []
        part.append(line)
    if part:
        yield part


def indent(line: str) -> int:
    return len(line) - len(line.lstrip())


def filled(part: Sequence[str]) -> list[str]:
    """The lines of one part."""
    first, *more = part
    if not first.strip():
        return [""]
    if not indent(first):
        return textwrap.wrap(" ".join(part), WIDTH, break_long_words=False, break_on_hyphens=False)
    columns = COLUMNS.fullmatch(first)
    if not columns:
        return wrapped(" ".join(line.strip() for line in part), first[:indent(first)], " " * (indent(first) + 4))
    name, what = columns["name"], " ".join([columns["what"], *(line.strip() for line in more)])
    start = len(name) + len(columns["gap"])
    if start <= WIDEST_NAME:
        return wrapped(what, name.ljust(start), " " * start)
    return wrapped(name.strip(), name[:indent(name)], " " * (indent(name) + 4)) + wrapped(what, " " * (indent(name) + 8), " " * (indent(name) + 8))


def wrapped(text: str, first: str, other: str) -> list[str]:
    return textwrap.wrap(text, WIDTH, initial_indent=first, subsequent_indent=other, break_long_words=False, break_on_hyphens=False)
