"""What BGP says on the wire: how many UPDATE messages leave each site (RFC 4271, 4.3)."""
from __future__ import annotations

import contextlib
import select
import socket
import threading
from collections import Counter
from collections.abc import Iterable, Iterator

from .packets import OUTGOING, watch

PORT, UPDATE = 179, 2
MARKER = b"\xff" * 16
EMPTY = 23  # the length of a message that says nothing but that all was said


class Wire:
    """Counts, from its beginning to its end, what leaves each of some sites."""

    def __init__(self, sites: Iterable[str]) -> None:
        self.watched = {watch(site): site for site in sites}
        self.seen: Counter[str] = Counter()
        self.goes_on = True
        self.thread = threading.Thread(target=self.listen, daemon=True)
        self.thread.start()

    def listen(self) -> None:
        while self.goes_on:
            ready, _, _ = select.select(list(self.watched), [], [], 0.2)
            for found in ready:
                with contextlib.suppress(OSError):
                    packet, (_, _, kind, *_) = found.recvfrom(65536)
                    self.seen[self.watched[found]] += sum(1 for _ in updates(packet)) if kind == OUTGOING else 0

    def total(self) -> int:
        """How many there were so far."""
        return sum(self.seen.values())

    def end(self) -> None:
        self.goes_on = False
        self.thread.join()
        for found in self.watched:
            found.close()


def updates(packet: bytes) -> Iterator[int]:
    """The lengths of the UPDATE messages that begin in a packet of BGP and say something. Over IPv4 or IPv6."""
    if not packet:
        return
    version, start = packet[0] >> 4, 0
    if version == 4 and len(packet) > 9 and packet[9] == socket.IPPROTO_TCP:
        start = 4 * (packet[0] & 15)
    elif version == 6 and len(packet) > 6 and packet[6] == socket.IPPROTO_TCP:
        start = 40
    if not start or len(packet) < start + 13 or PORT not in (int.from_bytes(packet[at:at + 2], "big") for at in (start, start + 2)):
        return
    said = packet[start + 4 * (packet[start + 12] >> 4):]
    at = said.find(MARKER)
    while 0 <= at and at + 19 <= len(said):
        length, kind = int.from_bytes(said[at + 16:at + 18], "big"), said[at + 18]
        if kind == UPDATE and length > EMPTY:
            yield length
        at = said.find(MARKER, at + max(length, 19))
