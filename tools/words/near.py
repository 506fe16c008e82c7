"""Words that are near another one."""
from __future__ import annotations

import difflib
from collections.abc import Iterable


def near(word: str, known: Iterable[str]) -> list[str]:
    """Up to three known words that are near a word, those that differ in capitals alone first."""
    names = list(known)
    alike = [each for each in names if each.lower() == word.lower() and each != word]
    return (alike + [each for each in difflib.get_close_matches(word, names, 3, 0.6) if each not in alike and each != word])[:3]
