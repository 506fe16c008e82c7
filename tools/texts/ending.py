"""How a script ends that is ended from outside: by an interrupt, or by what a system sends to all that it stops."""
from __future__ import annotations

import signal
from types import FrameType
from typing import NoReturn

from .statuses import BY_SIGNAL

FATAL = (signal.SIGINT, signal.SIGTERM, signal.SIGHUP)


def heed_signals(status: int | None = None) -> None:
    """From here on a signal ends the script with this status, or else with the one that says which signal it was. Nothing stands on the
    error output then, folders that were made for a while go, and no further signal keeps them from it."""

    def stop(number: int, _: FrameType | None) -> NoReturn:
        for each in FATAL:
            signal.signal(each, signal.SIG_IGN)
        raise SystemExit(BY_SIGNAL + number if status is None else status)

    for number in FATAL:
        if signal.getsignal(number) != signal.SIG_IGN:
            signal.signal(number, stop)
