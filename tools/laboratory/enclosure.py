"""The namespaces in which a run of the lab stands: of processes, mounts and networks, seen by nobody else.

The lab's process is the first one of its namespace of processes: once it ends, the kernel ends all others there, and the networks
and mounts go with the last of them. It ends with the command that waits for it outside, which hands on what ends it; and where
that command is killed outright, the kernel kills the lab.
"""
from __future__ import annotations

import os
import shutil
import signal
import subprocess
import sys
from typing import Any, NoReturn

from .commands import Broken, ran, read, write

HERE = "/run/lab"  # in memory, which the lab alone sees
OPENBGPD = "/run/openbgpd"  # what OpenBGPD's processes see as all files
ENTERED = "LAB_ENTERED"
USERS = {"frr": "frr:x:0:0::/:/bin/false", "_openbgpd": f"_openbgpd:x:0:0::{OPENBGPD}:/bin/false"}
GROUPS = {"frr": "frr:x:0:", "frrvty": "frrvty:x:0:frr", "_openbgpd": "_openbgpd:x:0:"}
PATIENCE = 15  # seconds that the lab has for ending by itself
ENDING = (signal.SIGINT, signal.SIGTERM, signal.SIGHUP, signal.SIGQUIT)


class Stopped(Exception):
    """Somebody wants the lab to end."""


def is_inside() -> bool:
    """Whether this is the first process of namespaces that a lab has made; a variable alone may come from anywhere."""
    return ENTERED in os.environ and os.getpid() == 1


def is_root() -> bool:
    """Whether root has made the lab."""
    return os.environ.get(ENTERED) == "root"


def run_inside(words: list[str]) -> int:
    """Runs a command in namespaces of its own, where it is root. Returns its status, or 128 and the number of what ended it."""
    for program in ("setpriv", "unshare", "mount", "ip"):
        if not shutil.which(program):
            raise Broken(f"{program}: not found")
    user = ["--map-root-user"] if os.geteuid() else []
    ended: list[int] = []
    for number in ENDING:
        signal.signal(number, lambda number, _: ended.append(number))
    process = subprocess.Popen(
        ["setpriv", "--pdeathsig", "KILL", "unshare", *user, "--net", "--mount", "--pid", "--fork", "--kill-child", "--mount-proc", *words],
        stdin=subprocess.DEVNULL, start_new_session=True, env=os.environ | {ENTERED: "user" if user else "root"})
    while True:
        try:
            return process.wait(0.2)
        except subprocess.TimeoutExpired:
            if ended:
                return end(process, ended)


def end(process: subprocess.Popen[bytes], ended: list[int]) -> int:
    """Hands on what is to end a process, and kills it where it doesn't end, or where somebody insists."""
    os.killpg(process.pid, signal.SIGTERM)
    for _ in range(5 * PATIENCE):
        try:
            process.wait(0.2)
            break
        except subprocess.TimeoutExpired:
            if len(ended) > 1:
                break
    process.kill()
    process.wait()
    return 128 + ended[0]


def furnish() -> None:
    """The lab's own folder, and what ends the lab. Where there is no user but root, daemons take root for their own; a user that a
    daemon's package hasn't made is root as well."""

    def stop(number: int, _: Any) -> NoReturn:
        raise Stopped(signal.Signals(number).name)

    for number in ENDING:
        signal.signal(number, stop)
    ran("mount", "-t", "tmpfs", "lab", "/run")
    os.makedirs(HERE)
    os.makedirs(OPENBGPD)
    for name, ours in (("passwd", USERS), ("group", GROUPS)):
        lines = {line.split(":")[0]: line for line in read(f"/etc/{name}").splitlines()}
        lines = ours | lines if is_root() else lines | ours
        write(f"/run/{name}", "\n".join(lines.values()) + "\n")
        ran("mount", "--bind", f"/run/{name}", f"/etc/{name}")


def command() -> list[str]:
    """The words by which this command is run again."""
    return [sys.executable, *sys.argv]
