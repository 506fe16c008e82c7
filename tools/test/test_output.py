"""--output FILE: a new file takes FILE's place on status 0 alone; whatever else happens FILE stays, and nothing is left beside it."""
import os
import signal
import stat
import subprocess
import tempfile
import time
import unittest

from common import PROGRAM, TOP, ended

RUN = os.path.join(TOP, "tools", "run")
EXAMPLE = os.path.join(TOP, "examples", "two-exits")
TWO = [os.path.join(EXAMPLE, "topology.json"), os.path.join(EXAMPLE, "policy.propane")]


def hear_all():
    """A process that begins here hears each signal, also where these tests run without, as below nohup."""
    for number in signal.SIGTERM, signal.SIGINT, signal.SIGHUP:
        signal.signal(number, signal.SIG_DFL)


class Output(unittest.TestCase):
    def setUp(self):
        room = tempfile.TemporaryDirectory(prefix="propane test ")
        self.addCleanup(room.cleanup)
        self.folder = room.name
        self.file = os.path.join(self.folder, "live config.txt")
        with open(os.path.join(EXAMPLE, "compile.stdout"), encoding="utf-8") as file:
            self.wanted = file.read()

    def run_to(self, file, *words, program=PROGRAM, **how):
        return ended([RUN, program, "--output", file, *words], **how)

    def held(self):
        with open(self.file, encoding="utf-8") as file:
            return file.read()

    def stub(self, text):
        """A program of our own."""
        path = os.path.join(self.folder, "stub")
        with open(path, "w", encoding="utf-8") as file:
            file.write("#!/bin/sh\n" + text)
        os.chmod(path, 0o755)
        return path

    def test_written(self):
        self.assertEqual(self.run_to(self.file, "compile", *TWO), (0, "", ""))
        self.assertEqual(self.held(), self.wanted)
        mask = os.umask(0o022)
        os.umask(mask)
        self.assertEqual(stat.S_IMODE(os.stat(self.file).st_mode), 0o666 & ~mask)
        os.chmod(self.file, 0o640)
        link = os.path.join(self.folder, "link")
        os.symlink(self.file, link)
        self.assertEqual(self.run_to(link, "routemap", *TWO), (0, "", ""))
        self.assertTrue(os.path.islink(link) and self.held().startswith("propane-maps 1\n"))
        self.assertEqual(stat.S_IMODE(os.stat(self.file).st_mode), 0o640)
        self.assertEqual(self.run_to("new", "compile", *TWO, cwd=self.folder), (0, "", ""))
        self.assertEqual(sorted(os.listdir(self.folder)), ["link", "live config.txt", "new"])

    def test_kept(self):
        """What isn't status 0 leaves the file as it was; a verdict comes to the standard output."""
        for before in None, "as it was\n":
            if before:
                with open(self.file, "w", encoding="utf-8") as file:
                    file.write(before)
            ring = os.path.join(TOP, "examples", "waypoint-ring")
            status, out, line = self.run_to(self.file, "compile", os.path.join(ring, "topology.json"), os.path.join(ring, "policy.propane"))
            self.assertEqual((status, out, line[:24]), (1, "", "propane: refused 6 no-ev"))
            self.assertEqual(self.run_to(self.file, "compile", *reversed(TWO)), (3, "", "propane: topology 1 not-json\n"))
            verdict = ["check", *TWO, os.path.join(EXAMPLE, "edited-config.txt"), os.path.join(EXAMPLE, "evidence.stdout")]
            self.assertEqual(self.run_to(self.file, *verdict), (7, "fails 10 config-differs case 0 first 1 second 0 line 14\n", ""))
            self.assertEqual(self.run_to(self.file, "compile", *TWO, program=self.stub("echo half; exit 5"))[0], 5)
            self.assertEqual(self.run_to(self.file, "x", program=self.stub("echo half; kill -9 $$"))[0], 137)
            self.assertEqual(self.run_to(self.file, "x", program=os.path.join(self.folder, "absent"))[0], 126)
            if before:
                self.assertEqual(self.held(), before)
            os.remove(os.path.join(self.folder, "stub"))
            self.assertEqual(os.listdir(self.folder), ["live config.txt"] if before else [])

    def test_no_file(self):
        """What can't be such a file is told, and nothing runs."""
        absent = os.path.join(self.folder, "absent", "file")
        for file in self.folder, absent, "/dev/null", "/dev/full", "", "a" * 5000:
            with self.subTest(file[:40]):
                status, out, line = self.run_to(file, "compile", *TWO)
                self.assertEqual((status, out), (5, ""))
                self.assertRegex(line, "^propane: cannot write ")
        self.assertEqual(ended([RUN, PROGRAM, "--output", self.file]), (2, "", "propane: usage: --output FILE COMMAND WORD ..\n"))
        self.assertEqual(os.listdir(self.folder), [])

    def test_broken_off(self):
        """A signal goes on to the program, and what was begun is taken away."""
        program = self.stub("echo half; echo $$ > pid; exec sleep 60")
        for number in signal.SIGTERM, signal.SIGINT, signal.SIGHUP:
            with self.subTest(number):
                with subprocess.Popen([RUN, program, "--output", self.file, "x"], cwd=self.folder, stdin=subprocess.DEVNULL,
                                      preexec_fn=hear_all) as running:
                    pid = os.path.join(self.folder, "pid")
                    ends = time.monotonic() + 60
                    while not (os.path.exists(pid) and os.path.getsize(pid)) and time.monotonic() < ends:
                        time.sleep(0.01)
                    running.send_signal(number)
                    self.assertEqual(running.wait(60), -number)
                with open(pid, encoding="utf-8") as file:
                    self.assertFalse(os.path.exists(f"/proc/{file.read().strip()}"))
                os.remove(pid)
                self.assertEqual(os.listdir(self.folder), ["stub"])

    def test_for_people(self):
        """Where there are words for people a signal goes on to the program, too; and only words need Python."""
        program = self.stub("echo half; echo line >&2; echo $$ > pid; exec sleep 60")
        for number in signal.SIGTERM, signal.SIGINT, signal.SIGHUP:
            with self.subTest(number):
                how = {"cwd": self.folder, "stdin": subprocess.DEVNULL, "stdout": subprocess.PIPE, "stderr": subprocess.PIPE}
                with subprocess.Popen([RUN, program, "x"], env={**os.environ, "PROPANE_HINTS": "on"}, preexec_fn=hear_all, **how) as running:
                    pid = os.path.join(self.folder, "pid")
                    ends = time.monotonic() + 60
                    while not (os.path.exists(pid) and os.path.getsize(pid)) and time.monotonic() < ends:
                        time.sleep(0.01)
                    running.send_signal(number)
                    self.assertEqual((running.communicate(timeout=60), running.returncode), ((b"half\n", b"line\n"), -number))
                with open(pid, encoding="utf-8") as file:
                    self.assertFalse(os.path.exists(f"/proc/{file.read().strip()}"))
                os.remove(pid)
        os.rename(self.stub('echo asked >> "$LOG"'), os.path.join(self.folder, "python3"))
        log = os.path.join(self.folder, "log")
        people = {**os.environ, "PROPANE_HINTS": "on", "PATH": self.folder + os.pathsep + os.environ["PATH"], "LOG": log}
        self.assertEqual(ended([RUN, PROGRAM, "compile", *TWO], env=people), (0, self.wanted, ""))
        self.assertFalse(os.path.exists(log))
        self.assertEqual(ended([RUN, PROGRAM, "compile", *reversed(TWO)], env=people), (3, "", "propane: topology 1 not-json\n"))
        self.assertTrue(os.path.exists(log))
        self.assertEqual(ended([RUN, self.stub("cat; exit 3"), "x"], env=people, input="read\n", stdin=None), (3, "read\n", ""))
        for closed, wanted in (">&-", (5, "", "")), ("<&-", (0, self.wanted, "")), ("2>&-", (0, self.wanted, "")):
            words = ["sh", "-c", f'exec "$@" {closed}', "sh", RUN, PROGRAM, "compile", *TWO]
            self.assertEqual(ended(words, env=people), wanted, closed)

    def test_plain(self):
        """Without it the program stands in the place of the script, and its outputs are its own."""
        self.assertEqual(ended([RUN, PROGRAM, "compile", *TWO]), (0, self.wanted, ""))
        for hints in "on", "off":
            with open("/dev/full", "wb") as full:
                ran = ended([RUN, PROGRAM, "compile", *TWO], stdout=full, env={**os.environ, "PROPANE_HINTS": hints})
            said = "  The output wasn't taken whole: what was written of it isn't to be used.\n"
            self.assertEqual((ran[0], ran[2]), (5, said if hints == "on" else ""))
            unread, pipe = os.pipe()
            os.close(unread)
            for words in [], ["nothing"]:
                self.assertEqual(ended([RUN, PROGRAM, *words], stderr=pipe, env={**os.environ, "PROPANE_HINTS": hints})[0], 5)
            os.close(pipe)
