"""The way of tools/open: reads the two texts, serves the page, and ends with an interrupt."""
from __future__ import annotations

import contextlib
import os
import signal
import socket
import sys
import tempfile
import threading
import webbrowser
from collections.abc import Iterator
from typing import NoReturn

from reasons.program import found
from texts.faults import Ended
from texts.files import read_bytes
from texts.statuses import BAD_INPUT, DONE, USAGE, WRITE_FAULT

from .files import PolicyFile, page_files
from .page import Page
from .runner import Runner
from .server import Server

TOOLS = os.path.dirname(os.path.dirname(os.path.abspath(__file__)))
WISHES = {"--save", "--browser"}
GO = ('<!doctype html><meta charset="utf-8"><meta name="referrer" content="no-referrer">'
      '<meta http-equiv="refresh" content="0;url={0}"><a href="{0}">the page</a>\n')


def page_of(names: list[str], may_save: bool) -> Page:
    """The page of two files."""
    program, topology = found(), read_bytes(names[0])
    try:
        policy = read_bytes(names[1]).decode()
    except UnicodeDecodeError:
        raise Ended(BAD_INPUT, "propane: policy 1 not-text") from None
    runner = Runner(program, os.path.join(TOOLS, "why"), topology)
    return Page(runner, [os.path.basename(name) for name in names], PolicyFile(names[1], policy), page_files(), may_save)


@contextlib.contextmanager
def shown(address: str) -> Iterator[None]:
    """Opens the address in a browser, by a file of one's own: words of a command line can be read by other users."""
    with tempfile.TemporaryDirectory(prefix="propane-open.") as folder:
        path = os.path.join(folder, "go.html")
        with open(path, "x", encoding="utf-8") as file:
            file.write(GO.format(address))
        webbrowser.open(f"file://{path}")
        yield


def sleep() -> NoReturn:
    """Sleeps until a signal ends the page. The system may let any thread hear it, and Python then acts in this one, but wakes it by a
    byte alone: a mere pause would go on. Where another thread takes its turn just then, Python may miss it once, so it looks every second."""
    ear, mouth = socket.socketpair()
    ear.settimeout(1)
    mouth.setblocking(False)
    signal.set_wakeup_fd(mouth.fileno())
    while True:
        with contextlib.suppress(TimeoutError):
            ear.recv(1)


def serve(page: Page, server: Server, wishes: set[str]) -> None:
    """Says the address, and serves until a signal ends the script."""
    address = f"http://{server.host}/{page.secret}/"
    print(f"The page is at {address}\nWho knows this address can use it; an interrupt (Ctrl-C) ends it.", flush=True)
    if not page.runner.is_proved:
        print("The program is built without proof and slow on large networks; ./propane prove proves it and builds it fast.", flush=True)
    with shown(address) if "--browser" in wishes else contextlib.nullcontext():
        threading.Thread(target=server.serve_forever, args=(0.2,), daemon=True).start()
        sleep()


def main(arguments: list[str], usage: str) -> int:
    """What tools/open does; gives the status."""
    wishes, names = {word for word in arguments if word.startswith("--")}, [word for word in arguments if not word.startswith("--")]
    if not wishes <= WISHES or len(names) != 2:
        print(usage, file=sys.stderr)
        return USAGE
    try:
        page = page_of(names, "--save" in wishes)
    except Ended as ended:
        print(ended.line, file=sys.stderr)
        return ended.status
    try:
        with Server(page) as server, contextlib.closing(page.runner):
            serve(page, server, wishes)
    except OSError:
        return WRITE_FAULT
    return DONE
