"""The namespaces of networks of the sites, entered by the lab itself."""
from __future__ import annotations

import contextlib
import ctypes
import os
from collections.abc import Iterator, Mapping

from .commands import Broken

NETWORKS = "/run/netns"
OF_NETWORKS = 0x40000000  # CLONE_NEWNET
SETTINGS = "/proc/sys/net/ipv4"
LIBRARY = ctypes.CDLL(None, use_errno=True)


def enter(file: int) -> None:
    """Enters the namespace of an open file, with this thread alone."""
    if LIBRARY.setns(file, OF_NETWORKS):
        raise Broken(f"no namespace can be entered: {os.strerror(ctypes.get_errno())}")


@contextlib.contextmanager
def inside(site: str) -> Iterator[None]:
    """The network of a site is this thread's. Sockets that are made here stay there."""
    with open("/proc/thread-self/ns/net", "rb") as own, open(os.path.join(NETWORKS, site), "rb") as there:
        enter(there.fileno())
        try:
            yield
        finally:
            enter(own.fileno())


def set_up(settings: Mapping[str, int]) -> None:
    """Sets what the kernel does in the network that is entered."""
    for name, value in settings.items():
        try:
            with open(os.path.join(SETTINGS, name), "w", encoding="utf-8") as file:
                file.write(str(value))
        except OSError as error:
            raise Broken(f"{name} can't be set: {error.strerror}") from error
