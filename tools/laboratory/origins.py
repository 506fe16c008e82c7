"""A cache of RPKI's for the lab: it tells routers that one AS number alone may originate what peers announce (RFC 8210)."""
from __future__ import annotations

import contextlib
import ipaddress
import selectors
import socket
import struct
import threading
from collections.abc import Iterable

from deploying.addresses import Cache

from . import spaces
from .commands import ran

SERIAL_QUERY, RESET_QUERY, RESPONSE, PREFIX, END, ERROR = 1, 2, 3, 4, 7, 10
HEADER = struct.Struct("!BBHI")
TIMES = (3600, 600, 7200)  # seconds: refresh, retry and expire
FLAG_ANNOUNCED = 1


def answer(version: int, prefixes: Iterable[str], asn: int) -> bytes:
    """All that the cache knows, as the answer to a query of this version."""
    parts = [HEADER.pack(version, RESPONSE, 1, 8)]
    for prefix in prefixes:
        inner = ipaddress.IPv4Network(prefix)
        parts.append(HEADER.pack(version, PREFIX, 0, 20) + struct.pack("!BBBB", FLAG_ANNOUNCED, inner.prefixlen, inner.prefixlen, 0)
                     + inner.network_address.packed + struct.pack("!I", asn))
    end = struct.pack("!I", 1) + (struct.pack("!III", *TIMES) if version else b"")
    return b"".join(parts) + HEADER.pack(version, END, 1, 8 + len(end)) + end


class Origins:
    """The cache, at one address in the network of each router."""

    def __init__(self, cache: Cache, sites: Iterable[str], prefixes: Iterable[str], asn: int) -> None:
        self.prefixes, self.asn, self.waiting = list(prefixes), asn, selectors.DefaultSelector()
        for site in sites:
            ran("ip", "-n", site, "addr", "add", f"{cache.address}/32", "dev", "lo")
            with spaces.inside(site):
                heard = socket.create_server((cache.address, cache.port))
            self.waiting.register(heard, selectors.EVENT_READ, self.accept)
        threading.Thread(target=self.serve, daemon=True).start()

    def serve(self) -> None:
        """Answers for as long as the lab runs."""
        while True:
            for key, _ in self.waiting.select():
                key.data(key.fileobj)

    def accept(self, heard: socket.socket) -> None:
        """Takes a router that asks."""
        asks, _ = heard.accept()
        self.waiting.register(asks, selectors.EVENT_READ, self.answer)

    def answer(self, asks: socket.socket) -> None:
        """Answers a query. A query of this lab's routers comes in one piece."""
        with contextlib.suppress(OSError):
            query = asks.recv(4096)
            if len(query) >= HEADER.size and query[1] in (SERIAL_QUERY, RESET_QUERY):
                asks.sendall(answer(min(query[0], 1), self.prefixes, self.asn))
            if query:
                return
        self.waiting.unregister(asks)
        asks.close()
