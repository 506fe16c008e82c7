"""How scripts end that are ended from outside: with nothing on the error output, and with no folder left."""
from __future__ import annotations

import os
import signal
import subprocess
import tempfile
import time
import unittest

from common import PROGRAM, TOP, tool

FATAL = (signal.SIGINT, signal.SIGTERM, signal.SIGHUP)
EXAMPLES = os.path.join(TOP, "examples")
TWO = [os.path.join(EXAMPLES, "two-exits", name) for name in ("topology.json", "policy.propane")]
PIPELINE = os.path.join(EXAMPLES, "pipeline")
# A program that is at work for a while on each command but those that it is to have done at once.
SLOW = """#!/bin/sh
case " $DONE " in *" $1 "*) exec "$SLOWED" "$@" ;; esac
: > "$BEGUN"
exec sleep 2
"""


class Ending(unittest.TestCase):
    def setUp(self) -> None:
        room = tempfile.TemporaryDirectory(prefix="propane test ")
        self.addCleanup(room.cleanup)
        self.begun, self.made, slow = (os.path.join(room.name, name) for name in ("begun", "made", "slow"))
        os.mkdir(self.made)
        with open(slow, "w", encoding="utf-8") as file:
            file.write(SLOW)
        os.chmod(slow, 0o755)
        self.environment = os.environ | {"PROGRAM": slow, "SLOWED": PROGRAM, "BEGUN": self.begun, "TMPDIR": self.made}

    def ended(self, number: int, done: str, name: str, *words: str) -> tuple[int, str]:
        """The status of a script to which a signal comes while it waits for the program, and what stands on its error output."""
        if os.path.exists(self.begun):
            os.remove(self.begun)
        with subprocess.Popen([os.path.join(TOP, "tools", name), *words], env=self.environment | {"DONE": done}, stdin=subprocess.DEVNULL,
                              stdout=subprocess.DEVNULL, stderr=subprocess.PIPE, text=True, cwd=PIPELINE,
                              preexec_fn=lambda: signal.signal(signal.SIGINT, signal.SIG_DFL)) as script:
            ends = time.monotonic() + 60
            while not os.path.exists(self.begun) and time.monotonic() < ends:
                time.sleep(0.01)
            self.assertIsNone(script.poll())
            script.send_signal(number)
            _, said = script.communicate(timeout=60)
        self.assertEqual(os.listdir(self.made), [])
        return script.returncode, said

    def test_scripts(self) -> None:
        """What waits for the program's answers ends with the signal's number."""
        scenario = os.path.join(EXAMPLES, "two-exits", "no-failure.json")
        for number in FATAL:
            for words in (("expect", *TWO, "expected.txt"), ("why", *TWO), ("shut", *TWO, scenario, "R1", "P1")):
                with self.subTest(words[0], number=number):
                    self.assertEqual(self.ended(number, "", *words), (128 + number, ""))

    def test_what_runs_until_it_is_ended(self) -> None:
        """The page, before it is shown, and a watched network: to be ended is how these end well."""
        topology = os.path.join(os.path.dirname(self.made), "topology.json")
        with open(topology, "w", encoding="utf-8") as file:
            subprocess.run([os.path.join(TOP, "tools", "import"), os.path.join(PIPELINE, "network.dot")], stdout=file, check=True)
        for number in FATAL:
            with self.subTest(number):
                self.assertEqual(self.ended(number, "", "open", *TWO), (0, ""))
                self.assertEqual(self.ended(number, "compile evidence routemap", "watch", topology, "proposed.propane", "routers.json"), (0, ""))

    def test_further_signals(self) -> None:
        """What cleans up isn't disturbed, and what is ignored from the beginning on stays so."""
        before = {number: signal.getsignal(number) for number in FATAL}
        try:
            signal.signal(signal.SIGHUP, signal.SIG_IGN)
            tool("expect")
            os.kill(os.getpid(), signal.SIGHUP)
            with self.assertRaises(SystemExit) as ended:
                os.kill(os.getpid(), signal.SIGTERM)
            self.assertEqual(ended.exception.code, 128 + signal.SIGTERM)
            for number in FATAL:
                os.kill(os.getpid(), number)
        finally:
            for number, how in before.items():
                signal.signal(number, how)


if __name__ == "__main__":
    unittest.main()
