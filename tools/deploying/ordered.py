"""Files in which the order counts, as those of BIRD and OpenBGPD: the lines that say something, and the first that is another one."""
from __future__ import annotations

import itertools
from collections.abc import Iterator


def lines(text: str) -> list[tuple[int, str]]:
    """The lines that say something, with their numbers: comments and blank ones don't."""
    found = ((number, line.strip()) for number, line in enumerate(text.splitlines(), 1))
    return [(number, line) for number, line in found if line and not line.startswith("#")]


def differences(text: str, wanted: str) -> Iterator[str]:
    """The first line that isn't as it would be written: what follows it says nothing of its own."""
    for (_, line), (number, other) in itertools.zip_longest(lines(wanted), lines(text), fillvalue=(None, None)):
        if line != other:
            yield f"line {number}: {other}: would be: {line or 'the end'}" if number else f"the end: would be: {line}"
            return
