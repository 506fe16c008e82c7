"""Whole runs of the program, as tables: each module has a list ROWS, but for `networks`, which has the texts that several share.

A row is its name; its words without those that name its texts, which stand behind the first; its texts; the status; and what is told:
on the output where the run is done or a check fails, else on the error output. Wanted values are worked by hand.
"""
from texts.statuses import BAD_INPUT, CHECK_FAILS, DONE, READ_FAULT, REFUSED, USAGE

__all__ = ["BAD_INPUT", "CHECK_FAILS", "DONE", "READ_FAULT", "REFUSED", "USAGE"]

LAWFUL = None  # done or refused, whatever is told

ANY_PATH = "originate 10.0.1.0/24 at A; 10.0.1.0/24 => any;"

EXITS = "true => exit(P1 >> P2);"

ENTER = "originate 10.0.1.0/24 at R2; 10.0.1.0/24 => enter(R1);"
