"""A server of tools/open for the tests, begun as a user would, and ended."""
from __future__ import annotations

import http.client
import json
import os
import re
import signal
import subprocess

from common import PROGRAM, TOP

OPEN = os.path.join(TOP, "tools", "open")
WITH_US = ("setpriv", "--pdeathsig", "TERM")  # what is begun so ends with the tests, however these end


def example(*parts: str) -> str:
    return os.path.join(TOP, "examples", *parts)


def text_of(path: str) -> str:
    with open(path, encoding="utf-8") as file:
        return file.read()


CONTRARY = """#!/bin/sh
[ "$1" = %s ] || exec %s "$@"
%s
"""


def contrary(folder: str, command: str, script: str) -> str:
    """A program in a folder that does one command otherwise, as a script says."""
    path = os.path.join(folder, "contrary")
    with open(path, "w", encoding="utf-8") as file:
        file.write(CONTRARY % (command, PROGRAM, script))
    os.chmod(path, 0o755)
    return path


def heard() -> None:
    """An interrupt is heard even where the tests run in the background of a shell, which lets it be ignored."""
    signal.signal(signal.SIGINT, signal.default_int_handler)


class Served:
    """A server of two files, with the words of the command line before them. What it makes for a while is in `room`."""

    def __init__(self, *words: str, program: str = PROGRAM, room: str = "") -> None:
        own = {"PROGRAM": program} | ({"TMPDIR": room} if room else {})
        self.child = subprocess.Popen([*WITH_US, OPEN, *words], stdin=subprocess.DEVNULL, stdout=subprocess.PIPE, stderr=subprocess.PIPE, text=True,
                                      env=os.environ | own, preexec_fn=heard)
        line = self.child.stdout.readline()
        found = re.search(r"http://(127\.0\.0\.1:([0-9]+))/([A-Za-z0-9_-]+)/", line)
        if not found:
            self.child.kill()
            raise AssertionError(f"no address: {line!r} {self.child.communicate()!r}")
        self.address, self.host, self.port, self.secret = found[0], found[1], int(found[2]), found[3]

    def __enter__(self) -> Served:
        return self

    def __exit__(self, *_: object) -> None:
        self.end()

    def end(self, number: int = signal.SIGINT) -> tuple[int, str]:
        """Interrupts it; gives its status and its error output."""
        if self.child.poll() is None:
            self.child.send_signal(number)
        _, said = self.child.communicate(timeout=120)
        return self.child.returncode, said

    def request(self, method: str = "GET", path: str = "", body: object = None, **headers: str | None) -> tuple[int, dict[str, str], bytes]:
        """The status, the headers and the body of an answer to what the page itself could send, but for the headers given."""
        sent = {"Host": self.host} | ({"Origin": f"http://{self.host}", "Content-Type": "application/json"} if method == "POST" else {})
        held = body if body is None or isinstance(body, bytes) else json.dumps(body).encode()
        if held is not None:
            sent["Content-Length"] = str(len(held))
        sent |= {name.replace("_", "-"): value for name, value in headers.items()}
        line = http.client.HTTPConnection("127.0.0.1", self.port, timeout=300)
        line.putrequest(method, path if path.startswith("/") else f"/{self.secret}/{path}", skip_host=True, skip_accept_encoding=True)
        for name, value in sent.items():
            if value is not None:
                line.putheader(name, value)
        line.endheaders(held)
        said = line.getresponse()
        told = said.status, dict(said.getheaders()), said.read()
        line.close()
        return told

    def post(self, part: str, **body: object) -> tuple[int, dict[str, object]]:
        """The status and the value of an answer to a question of the page."""
        status, _, said = self.request("POST", part, {"tab": "t", "lane": "t", **body})
        return status, json.loads(said) if status == 200 else {}

    def ask(self, command: str, policy: str, third: str | None = None, lane: str = "t") -> dict[str, object]:
        """What is told of a command."""
        status, told = self.post("ask", command=command, policy=policy, lane=lane, **({} if third is None else {"third": third}))
        assert status == 200, status
        return told
