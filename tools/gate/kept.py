"""Runs that ended as wanted, in a file: a long list of runs may be broken off, and goes on another day.

A line of the file is a checksum and the name of a run. The checksum is of all files that the run depends on, so a run counts as done
only while none of them has changed.
"""
from __future__ import annotations

import hashlib
import os
import threading
from collections.abc import Iterable, Iterator

PASSED_OVER = {"__pycache__", "test"}  # folders on which no run depends


def files_below(path: str) -> Iterator[str]:
    """A file itself, or the files of a folder, in an order of their own."""
    if os.path.isfile(path):
        yield path
    for at, folders, names in os.walk(path):
        folders[:] = sorted(set(folders) - PASSED_OVER)
        yield from (os.path.join(at, name) for name in sorted(names))


def checksum(paths: Iterable[str]) -> str:
    """A checksum of files, and of all that is in folders."""
    total = hashlib.sha256()
    for path in paths:
        for file in files_below(path):
            with open(file, "rb") as content:
                total.update(f"{os.path.relpath(file, path)}\0{hashlib.sha256(content.read()).hexdigest()}\n".encode())
    return total.hexdigest()


class Kept:
    """The runs that ended as wanted, in a file; where no file is named, none is kept."""

    def __init__(self, path: str | None) -> None:
        self.path, self.lock = path, threading.Lock()
        self.lines: set[str] = set()
        if path and os.path.exists(path):
            with open(path, encoding="utf-8") as file:
                self.lines = set(file.read().splitlines())

    def has(self, name: str, of: str) -> bool:
        """Whether a run ended as wanted, with the files of this checksum."""
        return f"{of} {name}" in self.lines

    def add(self, name: str, of: str) -> None:
        """A run has ended as wanted."""
        with self.lock:
            self.lines.add(f"{of} {name}")
            if self.path:
                with open(self.path, "a", encoding="utf-8") as file:
                    file.write(f"{of} {name}\n")
