"""What a terminal shows while `settle` runs: how long it takes, and what the program says of the first rounds."""
import os
import pty
import signal
import subprocess
import tempfile
import time
import unittest

from common import PROGRAM, TOP, ended

RUN = os.path.join(TOP, "tools", "run")
EXAMPLE = os.path.join(TOP, "examples", "two-exits")
WORDS = ["settle", *(os.path.join(EXAMPLE, name) for name in ("topology.json", "policy.propane", "flap-begins.json"))]
OVER = "\r\x1b[K"  # what comes before a line that is written over
# The program, whose `settle` takes some seconds more, or two more than it takes until `waiting` has told that no message waits.
SLOW = """#!/bin/sh
case $1,$MORE in
settle,rest) until [ -e "$TMPDIR/quiet" ]; do sleep 0.1; done; sleep 2; rm "$TMPDIR/quiet" ;;
settle,*) sleep "$MORE" ;;
waiting,rest) "$SLOWED" "$@" > "$TMPDIR/said" && cat "$TMPDIR/said" && ! grep -q "^quiet yes" "$TMPDIR/said" || touch "$TMPDIR/quiet"
    rm "$TMPDIR/said"; exit ;;
esac
exec "$SLOWED" "$@"
"""


class Settling(unittest.TestCase):
    def setUp(self):
        room = tempfile.TemporaryDirectory(prefix="propane test ")
        self.addCleanup(room.cleanup)
        self.folder = room.name
        self.program, self.temporary = os.path.join(self.folder, "slow"), os.path.join(self.folder, "tmp")
        os.mkdir(self.temporary)
        with open(self.program, "w", encoding="utf-8") as file:
            file.write(SLOW)
        os.chmod(self.program, 0o755)
        clean = {key: value for key, value in os.environ.items() if key != "PROPANE_HINTS"}
        self.environment = clean | {"TERM": "xterm", "SLOWED": PROGRAM, "MORE": "rest", "TMPDIR": self.temporary}

    def shown(self, *words, after=None, **environment):
        """The status of a run, what it wrote, and what the terminal showed; after some seconds an interrupt comes, or none."""
        ours, theirs = pty.openpty()
        begun = {"stdin": subprocess.DEVNULL, "stdout": subprocess.PIPE, "stderr": theirs, "start_new_session": True, "text": True}
        with subprocess.Popen([RUN, self.program, *words], env=self.environment | environment,
                              preexec_fn=lambda: signal.signal(signal.SIGINT, signal.SIG_DFL), **begun) as running:
            os.close(theirs)
            if after:
                time.sleep(after)
                os.killpg(running.pid, signal.SIGINT)  # as a terminal does
            out, _ = running.communicate(timeout=120)
        said = b""
        while True:
            try:
                said += os.read(ours, 10_000)
            except OSError:  # all is read
                break
        os.close(ours)
        self.assertEqual(os.listdir(self.temporary), [])
        return running.returncode, out, said.decode().split(OVER)

    def test_rounds(self):
        """The rounds are those that the program tells in the end; the line is gone before the report comes."""
        plain = ended([PROGRAM, *WORDS])
        status, out, said = self.shown(*WORDS)
        self.assertEqual((status, out, ""), plain)
        self.assertEqual((said[0], said[-1]), ("", ""))
        self.assertEqual(said[1], "settle: 1 second")
        self.assertRegex(said[-2], r"^settle: \d+ seconds; 3 rounds, 3 messages; 0 messages waiting$")
        self.assertIn("rounds 3\ndeliveries 3\n", out)
        file = os.path.join(self.folder, "report")
        status, out, said = self.shown("--output", file, *WORDS)
        self.assertEqual((status, out, said[1]), (0, "", "settle: 1 second"))
        with open(file, encoding="utf-8") as report:
            self.assertEqual(report.read(), plain[1])

    def test_other_runs(self):
        """Nothing is shown of a run that is short, of another command, without a terminal that can, and where no words are wanted."""
        for words, environment in (WORDS, {"MORE": "0"}), (WORDS, {"TERM": "dumb"}), (WORDS, {"PROPANE_HINTS": "off"}):
            with self.subTest(environment):
                self.assertEqual(self.shown(*words, **{"MORE": "1.5"} | environment), (0, ended([PROGRAM, *words])[1], [""]))
        status, _, said = self.shown(*WORDS[:3], os.path.join(self.folder, "absent"), MORE="0")
        self.assertEqual((status, said[-1].split("\r\n")[0]), (4, f"propane: cannot read {self.folder}/absent"))

    def test_interrupt(self):
        """An interrupt ends it, and nothing of it is left."""
        began = time.monotonic()
        status, out, said = self.shown(*WORDS, after=2.5, MORE="60")
        self.assertEqual((status, out, said[-1]), (-signal.SIGINT, "", ""))
        self.assertLess(time.monotonic() - began, 30)
