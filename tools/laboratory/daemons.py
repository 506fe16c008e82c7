"""BIRD, FRR and OpenBGPD in the namespace of a site: begun, asked, ended."""
from __future__ import annotations

import contextlib
import json
import os
import re
import shutil
import signal
import socket
import subprocess
from collections.abc import Iterator
from typing import Any, TextIO

from .commands import SLOW, Broken, ran, read, until, write

FRR = os.environ.get("FRR_DAEMONS", "/usr/lib/frr")


class Daemon:
    """The processes of a site, with a folder for their files.

    `ending` is that of recorded answers, `forget` what the kernel is told to flush once the processes are gone, and `tells_kernel`
    whether it puts its routes there.
    """

    ending: str
    forget: tuple[tuple[str, ...], ...]
    tells_kernel = True

    def __init__(self, space: str, folder: str) -> None:
        self.space, self.folder = space, folder
        self.running: list[subprocess.Popen[bytes]] = []
        os.makedirs(folder, exist_ok=True)

    def path(self, name: str) -> str:
        return os.path.join(self.folder, name)

    def spawn(self, name: str, there: str, *words: str) -> None:
        """Begins a process, and waits until it has made the file `there`. What is to end the lab isn't meant for it."""
        log = self.path(f"{name}.log")
        with open(log, "a", encoding="utf-8") as file:
            process = subprocess.Popen(["ip", "netns", "exec", self.space, *words], stdin=subprocess.DEVNULL, stdout=file, stderr=file,
                                       cwd=self.folder, start_new_session=True)
        self.running.append(process)

        def has_begun() -> bool:
            if process.poll() is not None:
                raise Broken(f"{self.space}: {name} has ended: {read(log)}")
            return os.path.exists(self.path(there))

        until(has_begun, f"{self.space}: {name} makes no {there}")

    def stop(self) -> None:
        """Ends all at once, as a crash would; the kernel keeps nothing of what it was told."""
        self.signal(signal.SIGKILL)
        for process in self.running:
            process.wait()
        self.running = []
        for words in self.forget:
            ran("ip", "-n", self.space, words[0], "flush", *words[1:])

    def signal(self, number: int) -> None:
        """Sends a signal to the processes, and to those that they have made."""
        for process in self.running:
            if process.poll() is None:
                os.killpg(process.pid, number)

    def hold(self) -> None:
        """Nothing that is told reaches the processes until they go on."""
        self.signal(signal.SIGSTOP)

    def go_on(self) -> None:
        """Ends a hold."""
        self.signal(signal.SIGCONT)

    def start(self, file: str) -> None:
        """Begins with a file as the configuration."""
        raise NotImplementedError

    def answer(self, prefix: str) -> str:
        """What is recorded of the route to a prefix."""
        raise NotImplementedError

    def sessions(self) -> tuple[set[str], list[Any]]:
        """The neighbours with which a session is established, and what changes whenever a message comes or goes."""
        raise NotImplementedError

    def answering(self) -> set[str]:
        """The addresses and interfaces at which BFD says that somebody answers."""
        raise NotImplementedError

    def loaded(self, file: str) -> str:
        """The configuration that runs."""
        raise NotImplementedError


class Bird(Daemon):
    """BIRD 2, with a file as its configuration."""

    ending = ".bird"
    forget = (("route", "proto", "bird"),)

    def start(self, file: str) -> None:
        with contextlib.suppress(FileNotFoundError):
            os.unlink(self.path("bird.ctl"))
        self.spawn("bird", "bird.ctl", "bird", "-f", "-c", file, "-s", self.path("bird.ctl"), "-P", self.path("bird.pid"))

    def ask(self, *words: str) -> str:
        """What BIRD answers, as birdc shows it, on the socket over which birdc asks: birdc itself takes far longer to begin."""
        with socket.socket(socket.AF_UNIX) as daemon:
            daemon.settimeout(SLOW)
            daemon.connect(self.path("bird.ctl"))
            with daemon.makefile("rw", encoding="utf-8", errors="replace", newline="\n") as lines:
                shown = [*self.said(lines)]
                lines.write(" ".join(words) + "\n")
                lines.flush()
                shown += self.said(lines)
        return "".join(f"{line}\n" for line in shown)

    def said(self, lines: TextIO) -> Iterator[str]:
        """The lines of one thing that BIRD says. Each has a code of four digits in front, or a blank where the one before has the same code;
        behind the code of the last one stands a blank, and 0000 has nothing to show."""
        for line in (each.rstrip("\n") for each in lines):
            if line.startswith(" "):
                yield line[1:]
                continue
            if not line.startswith("0000"):
                yield line[5:]
            if line[4:5] != "-":
                return
        raise Broken(f"{self.space}: BIRD says no more")

    def configure(self, file: str) -> None:
        said = self.ask("configure", f'"{file}"')
        if "Reconfigur" not in said:
            raise Broken(f"{self.space}: {said}")

    def answer(self, prefix: str) -> str:
        return self.ask("show", "route", prefix, "all", "primary")

    def sessions(self) -> tuple[set[str], list[Any]]:
        up: set[str] = set()
        moves: list[Any] = []
        for line in self.ask("show", "protocols", "all").splitlines():
            words = line.split()
            if words and words[0].startswith("bgp:"):
                moves.append((words[0], words[3]))
                if "Established" in words:
                    up.add(words[0].removeprefix("bgp:"))
            elif words[1:2] in (["updates:"], ["withdraws:"]):
                moves.append(tuple(words))
        return up, moves

    def answering(self) -> set[str]:
        rows = map(str.split, self.ask("show", "bfd", "sessions").splitlines())
        return {word for words in rows if words[2:3] == ["Up"] for word in words[:2]}

    def heard(self, prefix: str) -> dict[str, tuple[list[int], list[str]]]:
        """What a peer has heard: by router, the AS path and the lines of communities that came with it."""
        found: dict[str, tuple[list[int], list[str]]] = {}
        at: tuple[list[int], list[str]] | None = None
        for line in self.ask("show", "route", prefix, "all").splitlines():
            entry = re.search(r"\[(\S+) .*\]", line) if not line.startswith("\t") else None
            name, _, value = line.strip().partition(":")
            if entry:
                at = found.setdefault(entry[1].removeprefix("bgp:"), ([], [])) if entry[1].startswith("bgp:") else None
            elif at and name == "BGP.as_path":
                at[0].extend(map(int, re.findall(r"\d+", value)))
            elif at and "communit" in name and value.strip():
                at[1].append(line.strip())
        return found

    def noted(self, words: str) -> list[str]:
        """What stands behind these words in the log, each once."""
        return list(dict.fromkeys(line.partition(words)[2] for line in read(self.path("bird.log")).splitlines() if words in line))

    def loaded(self, file: str) -> str:
        return read(file)


class Frr(Daemon):
    """The daemons of FRR that BGP needs. `names` has the neighbour's name for each address or interface of a session."""

    ending = ".frr"
    # zebra's routes go with its next hops, where it has put these into the kernel, and else stay
    forget = (("nexthop",), ("route", "proto", "bgp"), ("route", "proto", "static"))

    def __init__(self, space: str, folder: str, names: dict[str, str]) -> None:
        super().__init__(space, folder)
        self.names = names

    def start(self, file: str) -> None:
        for name in os.listdir(self.folder):
            if not name.endswith(".log"):
                os.unlink(self.path(name))
        shutil.copyfile(file, self.path("frr.conf"))
        write(self.path("vtysh.conf"), "")
        for path in (self.folder, self.path("frr.conf")):
            shutil.chown(path, "frr", "frr")
        asked = ["-M", "rpki"] if "\nrpki\n" in read(file) else []
        for name in ("mgmtd", "zebra", "staticd", "bfdd", "bgpd"):  # mgmtd came with FRR 9
            if os.path.exists(f"{FRR}/{name}"):
                more = {"bgpd": asked, "bfdd": ["--bfdctl", self.path("bfdd.api")]}.get(name, [])
                self.spawn(name, f"{name}.vty", f"{FRR}/{name}", *more, "-u", "frr", "-g", "frr", "-i", self.path(f"{name}.pid"),
                           "-z", self.path("zserv.api"), "--vty_socket", self.folder, "-P", "0", "--log", "stdout")
        self.vtysh("-b")

    def vtysh(self, *words: str) -> str:
        return ran("vtysh", "--vty_socket", self.folder, "--config_dir", self.folder, *words)

    def ask(self, command: str, name: str = "bgpd") -> str:
        """What a daemon answers, on the socket over which vtysh asks: vtysh itself takes a hundred times as long to begin."""
        with socket.socket(socket.AF_UNIX) as daemon:
            daemon.settimeout(SLOW)
            daemon.connect(self.path(f"{name}.vty"))
            self.said(daemon, "enable")
            return self.said(daemon, command)

    def said(self, daemon: socket.socket, command: str) -> str:
        """The answer to a command. It ends in three zeros and a status."""
        answer = b""
        daemon.sendall(command.encode() + b"\0")
        while answer[-4:-1] != b"\0\0\0":
            piece = daemon.recv(65536)
            if not piece:
                raise Broken(f"{self.space}: a daemon says no more to: {command}")
            answer += piece
        return answer[:-4].decode()

    def answer(self, prefix: str) -> str:
        return self.ask(f"show bgp ipv4 unicast {prefix} bestpath json")

    def sessions(self) -> tuple[set[str], list[Any]]:
        value = json.loads(self.ask("show bgp ipv4 unicast summary json"))
        peers = value.get("ipv4Unicast", value).get("peers", {})
        keys = "state", "pfxRcd", "pfxSnt", "inq", "outq", "connectionsEstablished", "tableVersion"
        moves = [value.get("tableVersion"), *((at, *map(peer.get, keys)) for at, peer in peers.items())]
        return {self.names[at] for at, peer in peers.items() if peer["state"] == "Established"}, moves

    def answering(self) -> set[str]:
        peers = json.loads(self.ask("show bfd peers json", "bfdd"))
        return {peer[key] for peer in peers if peer.get("status") == "up" for key in ("peer", "interface") if key in peer}

    def loaded(self, _: str) -> str:
        return self.vtysh("-c", "show running-config")


class OpenBgpd(Daemon):
    """OpenBGPD, with a file as its configuration. As Debian has it, it leaves the kernel's routes alone."""

    ending = ".openbgpd"
    forget = ()
    tells_kernel = False

    def start(self, file: str) -> None:
        with contextlib.suppress(FileNotFoundError):
            os.unlink(self.path("bgpd.ctl"))
        longer = self.path("bgpd.conf")
        write(longer, f'socket "{self.path("bgpd.ctl")}"\ninclude "{file}"\n')
        os.chmod(longer, 0o600)
        self.spawn("bgpd", "bgpd.ctl", "bgpd", "-d", "-v", "-f", longer)

    def ask(self, *words: str) -> str:
        return ran("bgpctl", "-j", "-s", self.path("bgpd.ctl"), *words)

    def answer(self, prefix: str) -> str:
        return self.ask("show", "rib", "selected", "detail", prefix)

    def sessions(self) -> tuple[set[str], list[Any]]:
        neighbours = json.loads(self.ask("show", "neighbor")).get("neighbors", [])
        moves = [(each["description"], each["state"], each["stats"]["update"]) for each in neighbours]
        return {each["description"] for each in neighbours if each["state"] == "Established"}, moves

    def answering(self) -> set[str]:
        return set()

    def loaded(self, file: str) -> str:
        return read(file)
