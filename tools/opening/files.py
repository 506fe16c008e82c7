"""The files of tools/open: those of the page, which are read once, and the policy's, which is followed and may be saved."""
from __future__ import annotations

import contextlib
import hashlib
import os
import stat
import tempfile
import threading

from reasons.forms import style

MOST_BYTES = 4 << 20  # of a policy that the page takes
KINDS = {".html": "text/html; charset=utf-8", ".css": "text/css; charset=utf-8", ".js": "text/javascript; charset=utf-8"}
WEB = os.path.join(os.path.dirname(os.path.abspath(__file__)), "web")

PageFiles = dict[str, tuple[str, bytes]]


def page_files() -> PageFiles:
    """The files of the page by their names, each with its kind. No request's path ever names a file."""
    found: PageFiles = {"forms.css": (KINDS[".css"], style().encode())}
    for name in sorted(os.listdir(WEB)):
        kind = KINDS.get(os.path.splitext(name)[1])
        if kind:
            with open(os.path.join(WEB, name), "rb") as file:
                found[name] = kind, file.read()
    return found


def mark(held: bytes) -> str:
    """What stands for a text in questions whether it is still the same."""
    return hashlib.sha256(held).hexdigest()


class Changed(Exception):
    """The file isn't as the page has seen it."""


class Unsaved(Exception):
    """The file can't be written."""


class PolicyFile:
    """The policy's file, with the text that it had when it was last read here. `runs` is the text that it had when the page was begun, or
    that the page has saved last: the policy that the network runs, as far as this can know."""

    def __init__(self, path: str, text: str) -> None:
        self.path, self.text, self.seen, self.runs = os.path.abspath(path), text, mark(text.encode()), text
        self.lock = threading.Lock()

    def now(self) -> tuple[str, str]:
        """The text as it is now, with its mark. What is no file any more, or no text, or too long, keeps what it had."""
        with self.lock, contextlib.suppress(OSError, UnicodeDecodeError):
            if stat.S_ISREG(os.stat(self.path).st_mode):  # a pipe was read once
                with open(self.path, "rb") as file:
                    held = file.read(MOST_BYTES + 1)
                if len(held) <= MOST_BYTES:
                    self.text, self.seen = held.decode(), mark(held)
        return self.text, self.seen

    def save(self, text: str, seen: str) -> str:
        """Puts a text in the file's place in one step, where the file is as the page has seen it; gives the new mark."""
        if self.now()[1] != seen:
            raise Changed
        with self.lock:
            try:
                self.replace(text.encode())
            except OSError as fault:
                raise Unsaved from fault
            self.text, self.seen, self.runs = text, mark(text.encode()), text
            return self.seen

    def replace(self, held: bytes) -> None:
        """A new file beside the old one, with its rights, takes its place."""
        target = os.path.realpath(self.path)
        folder, name = os.path.split(target)
        handle, path = tempfile.mkstemp(prefix=f".{name}.", dir=folder)
        try:
            with os.fdopen(handle, "wb") as file:
                os.fchmod(file.fileno(), stat.S_IMODE(os.stat(target).st_mode))
                file.write(held)
                file.flush()
                os.fsync(file.fileno())
            os.replace(path, target)
        except OSError:
            os.unlink(path)
            raise
