"""Programs of Debian's that the gate needs, installed where that may be done."""
from __future__ import annotations

import os
import shutil
import subprocess
from collections.abc import Mapping

LIMIT = 900  # seconds after which an installation is ended
Programs = Mapping[str, str]  # the package of each program, by the program's name or path; or of a file that a program loads, by its path


def lacking(programs: Programs) -> list[str]:
    """The packages of the programs that aren't installed."""
    folders = [*os.get_exec_path(), "/usr/sbin", "/sbin"]
    there = {name for name in programs if os.path.isabs(name) and os.path.exists(name)
             or any(os.access(os.path.join(folder, name), os.X_OK) for folder in folders)}
    return sorted({package for name, package in programs.items() if name not in there})


def installed(programs: Programs, who: str) -> bool:
    """Whether the programs are there. Their packages are installed first, if this is root on a Debian; `who` says so."""
    packages = lacking(programs)
    if packages and os.geteuid() == 0 and shutil.which("apt-get"):
        print(f"{who}: installing {' '.join(packages)}", flush=True)
        for words in (["update", "-qq"], ["install", "-y", "-qq", "--no-install-recommends", *packages]):
            try:
                subprocess.run(["apt-get", *words], stdin=subprocess.DEVNULL, stdout=subprocess.DEVNULL, stderr=subprocess.DEVNULL,
                               timeout=LIMIT, check=False, env=os.environ | {"DEBIAN_FRONTEND": "noninteractive"})
            except subprocess.TimeoutExpired:
                break
    return not lacking(programs)


def absent(programs: Programs) -> str:
    """What is said of programs that can't be had."""
    return f"{' and '.join(lacking(programs))} isn't installed, and can't be"


def not_run(who: str, why: str, untried: str) -> None:
    """Says loudly that a part of the gate wasn't run."""
    print(f"\n{'*' * 100}\n{who}: NOT RUN: {why}.\n{untried}\n{'*' * 100}", flush=True)
