"""Packets that are sent the whole time, and how many of them get lost."""
from __future__ import annotations

import contextlib
import select
import socket
import threading
import time
from collections import Counter
from collections.abc import Mapping, Sequence

from . import spaces
from .packets import TOWARDS, port_of, watch

PAUSE = 0.1  # seconds between two packets of a source
UNDER_WAY = 1.0  # seconds for which a packet may be under way
INCOMING = 0  # a packet for this host, or to be handed on by it (packet(7))


class Probes:
    """Sends from each source, from a port of its own, and sees which packets come to one of the ends: a number in each tells it from the
    others."""

    def __init__(self, sources: Sequence[str], ends: Sequence[str], address: str, first: int) -> None:
        self.sources, self.address, self.first = list(sources), address, first
        self.watched = {watch(end): end for end in ends}
        self.sent: Counter[str] = Counter()
        self.come: dict[int, set[int]] = {place: set() for place in range(len(self.sources))}
        self.goes_on = True
        self.threads = [threading.Thread(target=work, daemon=True) for work in (self.send, self.listen)]
        for thread in self.threads:
            thread.start()

    def send(self) -> None:
        with contextlib.ExitStack() as stack:
            flows = []
            for place, source in enumerate(self.sources):
                with spaces.inside(source):
                    flows.append(stack.enter_context(socket.socket(socket.AF_INET, socket.SOCK_DGRAM)))
                flows[-1].bind(("", self.first + place))
            while self.goes_on:
                for source, flow in zip(self.sources, flows):
                    self.sent[source] += 1
                    with contextlib.suppress(OSError):
                        flow.sendto(self.sent[source].to_bytes(4, "big"), (self.address, TOWARDS))
                time.sleep(PAUSE)

    def listen(self) -> None:
        wanted, end = socket.inet_aton(self.address), 0.0
        while self.goes_on or time.monotonic() < end:
            end = end if not self.goes_on else time.monotonic() + UNDER_WAY
            ready, _, _ = select.select(list(self.watched), [], [], 0.1)
            for found in ready:
                packet, (_, _, kind, *_) = found.recvfrom(256)
                port = port_of(packet, wanted)
                if port is not None and kind == INCOMING and port - self.first in self.come and len(packet) >= 32:
                    self.come[port - self.first].add(int.from_bytes(packet[28:32], "big"))

    def lost(self) -> Mapping[str, int]:
        """How many packets of each source came nowhere. Sends no more."""
        self.goes_on = False
        for thread in self.threads:
            thread.join()
        for found in self.watched:
            found.close()
        return {source: self.sent[source] - len(self.come[place]) for place, source in enumerate(self.sources)}
