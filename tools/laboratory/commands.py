"""Runs other programs, and waits, never without a bound."""
from __future__ import annotations

import functools
import os
import subprocess
import time
from collections.abc import Callable, Collection

from reasons.program import found
from texts.faults import Ended

TOOLS = os.path.dirname(os.path.dirname(os.path.abspath(__file__)))
SLOW = 300  # seconds after which a program that answers at once elsewhere counts as stuck


class Broken(Exception):
    """The lab itself fails: the message says what of it."""


def ran(*words: str, status: Collection[int] = (0,)) -> str:
    """What a program writes to its output, where it ends with one of these statuses."""
    try:
        done = subprocess.run(words, stdin=subprocess.DEVNULL, capture_output=True, text=True, check=False, timeout=SLOW)
    except FileNotFoundError as error:
        raise Broken(f"{words[0]}: not found") from error
    except subprocess.TimeoutExpired as error:
        raise Broken(f"{' '.join(words)}: not done within {SLOW} seconds") from error
    if done.returncode not in status:
        raise Broken(f"{' '.join(words)}: status {done.returncode}: {done.stderr}{done.stdout}".strip())
    return done.stdout


@functools.cache
def program() -> str:
    """The program that the variable PROGRAM names, or that ./propane runs. It is looked for once, since the lab asks it often."""
    try:
        return found()
    except Ended as ended:
        raise Broken(ended.line) from ended


def propane(*words: str, status: Collection[int] = (0,)) -> str:
    """Runs the program."""
    return ran(program(), *words, status=status)


def until(happened: Callable[[], bool], what: str, limit: float = SLOW) -> None:
    """Waits until something has happened."""
    end = time.monotonic() + limit
    while not happened():
        if time.monotonic() > end:
            raise Broken(f"{what} within {limit} seconds")
        time.sleep(0.05)


def read(path: str) -> str:
    with open(path, encoding="utf-8") as file:
        return file.read()


def write(path: str, text: str) -> None:
    with open(path, "w", encoding="utf-8") as file:
        file.write(text)
