"""The words of tools/watch, and its rounds."""
from __future__ import annotations

import argparse
import os
import sys
import tempfile
import time
from collections.abc import Sequence

from deploying.map_reader import read_maps
from laboratory.scenarios import asked_prefixes
from reasons.program import found
from texts.faults import Ended, Fault
from texts.files import read_text
from texts.helping import asked_as_option, folded, form
from texts.prefixes import is_prefix
from texts.statuses import BAD_INPUT, DONE, READ_FAULT
from texts.topology import Topology

from .audits import Auditor, asked
from .moment import Recorder
from .routers import read_routers
from .told import Facts, changes, facts_of, kept, metrics, put

UNSTABLE = 1


def words_of(arguments: Sequence[str], usage: str) -> argparse.Namespace:
    parser = argparse.ArgumentParser(prog="tools/watch", description=folded(usage), formatter_class=form)
    parser.add_argument("--every", type=float, default=60, metavar="SECONDS", help="from one round to the next (60)")
    parser.add_argument("--once", action="store_true", help="one round; the status is 0 where all is stable, and else 1")
    parser.add_argument("--metrics", metavar="FILE", help="for Prometheus' text-file collector")
    parser.add_argument("--prefix", action="append", default=[], metavar="PREFIX", help="may come again; else one of each class")
    for word in ("topology", "policy", "routers"):
        parser.add_argument(word)
    words = parser.parse_args(asked_as_option(arguments))
    for prefix in words.prefix:
        if not is_prefix(prefix):
            parser.error(f"no prefix: {prefix}")
    return words


def say(line: str, is_alone: bool) -> None:
    """Prints a line: with the time, where more rounds come."""
    print(line if is_alone else f"{time.strftime('%Y-%m-%dT%H:%M:%S')} {line}", flush=True)


class Watcher:
    """Goes round the network, and remembers what was seen before."""

    def __init__(self, topology: Topology, recorder: Recorder, auditor: Auditor) -> None:
        self.topology, self.recorder, self.auditor = topology, recorder, auditor
        self.before: Facts = {}
        self.is_stable, self.metrics = False, ""

    def round(self, seconds: float) -> list[str]:
        """One round, which may take so long: the lines of what has changed."""
        moment = self.recorder.moment(time.monotonic() + seconds)
        verdicts = self.auditor.verdicts(moment, self.recorder.prefixes) if moment else {}
        now = facts_of(moment, verdicts, self.topology) if moment else {**self.before, "network": "doesn't rest"}
        lines = list(changes(self.before, now))
        self.before = kept(self.before, now)
        self.is_stable = moment is not None and all(verdict.is_stable for verdict in verdicts.values())
        self.metrics = metrics(moment, verdicts, self.topology)
        return lines


def watch(words: argparse.Namespace, folder: str) -> int:
    topology = Topology(read_text(words.topology))
    routers = read_routers(read_text(words.routers), topology)
    program, texts = found(), [os.path.abspath(words.topology), os.path.abspath(words.policy)]
    auditor = Auditor.compiled(program, texts[0], texts[1], folder)
    prefixes = words.prefix or asked_prefixes(read_maps(topology, asked(program, "routemap", *texts)[1]))
    recorder = Recorder(topology, routers, prefixes, folder)
    say(f"watches routers {len(routers)} prefixes {len(prefixes)}: {' '.join(prefixes)}", words.once)
    watcher = Watcher(topology, recorder, auditor)
    while True:
        began = time.monotonic()
        for line in watcher.round(words.every):
            say(line, words.once)
        if words.metrics:
            put(words.metrics, watcher.metrics)
        if words.once:
            return DONE if watcher.is_stable else UNSTABLE
        time.sleep(max(0.0, began + words.every - time.monotonic()))


def main(arguments: Sequence[str], usage: str) -> int:
    """Watches until a signal ends the script, or for one round. Returns the status."""
    words = words_of(arguments, usage)
    try:
        with tempfile.TemporaryDirectory(prefix="propane-watch-") as folder:
            return watch(words, folder)
    except Ended as ended:
        sys.stderr.write(f"watch: the program says: {ended.line.removeprefix('propane: ')}\n")
        return ended.status
    except Fault as fault:
        sys.stderr.write(f"watch: {fault}\n")
        return BAD_INPUT
    except OSError as why:
        sys.stderr.write(f"watch: {why.filename}: {why.strerror}\n")
        return READ_FAULT
