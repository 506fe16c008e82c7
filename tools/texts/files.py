"""Files read and written."""
from __future__ import annotations

import os

from .faults import Ended, Fault
from .statuses import BAD_INPUT, READ_FAULT

MOST_BYTES = 33_554_432  # of a text that the program reads


def read_text(path: str) -> str:
    """The text of a file; bytes that are no UTF-8 are a fault."""
    try:
        with open(path, encoding="utf-8") as file:
            return file.read()
    except UnicodeDecodeError as error:
        raise Fault(f"{path}: not UTF-8 at byte {error.start}") from error


def read_bytes(path: str) -> bytes:
    """The bytes of a text. What can't be read ends the run as it ends the program, with the same line."""
    try:
        with open(path, "rb") as file:
            text = file.read(MOST_BYTES + 1)
    except (OSError, ValueError) as fault:
        raise Ended(READ_FAULT, f"propane: cannot read {path}") from fault
    if len(text) > MOST_BYTES:
        raise Ended(BAD_INPUT, f"propane: too long {path}")
    return text


def write_private(path: str, text: str) -> None:
    """Files may have passwords in them, so nobody but their owner is to read them, whatever stood there before."""
    beside = f"{path}.new"
    with open(beside, "w", encoding="utf-8", opener=lambda name, flags: os.open(name, flags, 0o600)) as file:
        os.fchmod(file.fileno(), 0o600)
        file.write(text)
    os.replace(beside, path)
