"""tools/open without a browser: what its server answers, to whom, and what it refuses. tools/page-check tries the page in a browser.

The table of docs/PAGE.md names these tests: each row of what the page is guarded against has one.
"""
from __future__ import annotations

import contextlib
import ctypes
import http.client
import json
import os
import shutil
import signal
import socket
import stat
import subprocess
import tempfile
import threading
import time
import unittest
from collections.abc import Callable
from concurrent.futures import ThreadPoolExecutor
from unittest import mock

from common import ended
from compared import comparing, row_of
from opening import runner
from opening.runner import AT_ONCE
from serving import OPEN, Served, contrary, example, text_of

TOPO, POLICY = example("two-exits", "topology.json"), example("two-exits", "policy.propane")
RING = example("waypoint-ring", "topology.json"), example("waypoint-ring", "policy.propane")
FABRIC = example("data-centre", "topology.json"), example("data-centre", "policy.propane")
SCENARIO = json.dumps({"prefix": "198.51.100.0/24", "dead": [], "dead_links": [["R1", "P1"]], "silent": []})
FLAPS = [["link_down", "R1", "R2"], ["link_up", "R1", "R2"]] * 30_000  # that take a while


def settling(events: list[list[str]]) -> str:
    return json.dumps({"prefix": "10.0.0.0/8", "events": events})


def until(what: Callable[[], object], seconds: float = 60) -> object:
    """Waits until something is so; what it then is."""
    ends = time.monotonic() + seconds
    while not (found := what()) and time.monotonic() < ends:
        time.sleep(0.01)
    return found


def at_work(served: Served) -> set[str]:
    """The processes that a server has begun and that run."""
    found = set()
    for name in filter(str.isdigit, os.listdir("/proc")):
        with contextlib.suppress(OSError), open(f"/proc/{name}/stat", encoding="utf-8", errors="replace") as file:
            state, parent = file.read().rpartition(")")[2].split()[:2]
            if int(parent) == served.child.pid and state != "Z":
                found.add(name)
    return found


def is_open(line: socket.socket) -> bool:
    """Whether the other side has neither closed a connection nor said anything."""
    line.setblocking(False)
    try:
        line.recv(1)
    except BlockingIOError:
        return True
    except OSError:
        pass
    return False


def quietly(call: Callable[[], object]) -> threading.Thread:
    """Begins what may end in any way, since the server does."""
    def tried() -> None:
        with contextlib.suppress(OSError, AssertionError, ValueError, http.client.HTTPException):
            call()

    begun = threading.Thread(target=tried, daemon=True)
    begun.start()
    return begun


class Answers(unittest.TestCase):
    """What is told is the program's, with the place of which it speaks."""

    def test_answers_are_the_programs(self) -> None:
        with Served(TOPO, POLICY) as served:
            told = served.ask("replay", text_of(POLICY), SCENARIO)
            self.assertEqual((told["status"], told["output"]), (0, text_of(example("two-exits", "replay.stdout"))))
            self.assertEqual(served.ask("promises", text_of(POLICY))["output"], text_of(example("two-exits", "promises.stdout")))
            start = json.loads(served.request("GET", "start")[2])
            self.assertEqual((start["topology"], start["policy"], start["save"]), (text_of(TOPO), text_of(POLICY), False))

    def test_fault_has_its_place_and_near_names(self) -> None:
        with Served(TOPO, POLICY) as served:
            told = served.ask("promises", "# ü😀\ntrue => exit(P1 >> p2);\n")
            self.assertEqual((told["status"], told["error"]), (3, "policy 5 unknown at 2:20"))
            self.assertEqual(told["place"], {"from": 25, "to": 27})  # UTF-16 units
            self.assertEqual(told["words"]["near"], ["P2"])
            self.assertTrue(any("no location `p2`" in line for line in told["words"]["says"]), told["words"])

    def test_fault_of_the_topology_is_told_with_its_place(self) -> None:
        with tempfile.TemporaryDirectory() as folder:
            topology = os.path.join(folder, "net.json")
            with open(topology, "w", encoding="utf-8") as file:
                file.write(text_of(TOPO).replace('"R1","R2"', '"R1","r2"'))
            with Served(topology, POLICY) as served:
                told = served.ask("promises", text_of(POLICY))
                self.assertEqual((told["error"], told["place"]), ("topology 9 unknown-end place 1", None))
                self.assertEqual((told["words"]["where"], told["words"]["near"]), ("net.json:1:17", ["R2"]))

    def test_refusal_has_its_statement_and_repairs(self) -> None:
        with Served(*RING) as served:
            policy = text_of(RING[1])
            told = served.ask("promises", policy)
            self.assertEqual(told["status"], 1)
            self.assertEqual(policy[told["place"]["from"]:told["place"]["to"]], "10.0.1.0/24 => through(W) >> any;")
            parts = served.post("why", policy=policy)[1]["parts"]
            repairs = next(each["repairs"] for each in parts if each["kind"] == "repairs")
            self.assertIn("10.0.1.0/24 => through(W) >> any from W;", [each["text"] for each in repairs])
            place = told["outline"]["statements"][0]
            for each in repairs:
                repaired = policy[:place["from"]] + each["text"] + policy[place["to"]:]
                self.assertEqual(served.ask("explain", repaired)["output"], "accepted\n")

    def test_lint_has_places(self) -> None:
        with Served(example("lint", "topology.json"), example("lint", "policy.propane")) as served:
            policy = text_of(example("lint", "policy.propane"))
            found = served.ask("lint", policy)["findings"]
            self.assertEqual([each["line"] for each in found], text_of(example("lint", "lint.stdout")).splitlines()[:-1])
            self.assertEqual(policy[found[0]["place"]["from"]:found[0]["place"]["to"]], "U")

    def test_two_policies_are_compared(self) -> None:
        """The file's and the edited one, each with its statements; what is wrong in the edited one is marked, and in the other is told."""
        row = row_of("shorter")
        with tempfile.TemporaryDirectory() as folder, Served(row.topology(), row.old_file(), program=comparing(folder)) as served:
            told = served.ask("compare", row.old(), row.new())
            self.assertEqual((told["status"], told["output"]), (0, row.text))
            own = "10.0.0.0/16 le {} => internal and notransit(LEAVES);"
            self.assertEqual([told["statements"][which][0] for which in ("old", "new")], [{"line": 6, "text": own.format(n)} for n in (32, 24)])
        policy, edited = text_of(POLICY), "# ü😀\ntrue => exit(P1 >> p2);\n"
        for which, place, where in ("new", {"from": 25, "to": 27}, ""), ("old", None, "policy.propane:2:20"):
            with tempfile.TemporaryDirectory() as folder:
                script = f"echo 'propane: {which} policy 5 unknown at 2:20' >&2; exit 3"
                with Served(TOPO, POLICY, program=contrary(folder, "compare", script)) as served:
                    told = served.ask("compare", *((policy, edited) if which == "new" else (edited, policy)))
                    self.assertEqual((told["status"], told["place"], told["words"]["where"]), (3, place, where))
                    self.assertEqual(told["words"]["near"], ["P2"])

    def test_a_router_has_its_block(self) -> None:
        with Served(TOPO, POLICY) as served:
            told = served.post("ask", command="compile", policy=text_of(POLICY), router="R2")[1]["output"]
            self.assertTrue(told.startswith("router R2 asn 64513 ") and told.endswith("\nend") and "R1 asn 64512 id" not in told, told)


class Guarded(unittest.TestCase):
    """Who may ask, how much, and which files."""

    @classmethod
    def setUpClass(cls) -> None:
        cls.served, cls.policy = Served(TOPO, POLICY), text_of(POLICY)

    @classmethod
    def tearDownClass(cls) -> None:
        status, said = cls.served.end()
        assert (status, said) == (0, ""), (status, said)

    def status(self, *words: object, **more: str | None) -> int:
        return self.served.request(*words, **more)[0]

    def test_only_this_machine(self) -> None:
        found = subprocess.run(["hostname", "-I"], capture_output=True, text=True).stdout.split()
        for address in (each for each in found if not each.startswith("127.")):
            with self.assertRaises(OSError):
                socket.create_connection((address, self.served.port), timeout=2)

    def test_nothing_without_the_secret(self) -> None:
        secret = self.served.secret
        for path in "/", "/start", "/index.html", f"/{secret}", f"/{secret[:-1]}/", f"/{secret}x/", "/favicon.ico":
            self.assertEqual(self.status("GET", path), 404, path)
        self.assertEqual(self.status("POST", "/wrong/ask", {}), 404)
        self.assertGreaterEqual(len(secret), 32)

    def test_rebinding(self) -> None:
        port = self.served.port
        for host in "localhost", f"localhost:{port}", "evil.example", f"evil.example:{port}", "127.0.0.1", None:
            self.assertEqual(self.status("GET", "", Host=host), 421, host)
            self.assertEqual(self.status("POST", "ask", {}, Host=host), 421, host)

    def test_other_pages(self) -> None:
        ask = {"command": "promises", "policy": self.policy, "tab": "t", "lane": "t"}
        self.assertEqual(self.status("POST", "ask", ask), 200)
        for origin in (None, "null", "http://evil.example", "http://localhost", f"http://127.0.0.1:{self.served.port + 1}",
                       f"https://{self.served.host}"):
            self.assertEqual(self.status("POST", "ask", ask, Origin=origin), 403, origin)
        for kind in None, "text/plain", "application/x-www-form-urlencoded", "multipart/form-data":
            self.assertEqual(self.status("POST", "ask", ask, Content_Type=kind), 403, kind)
        for site in "cross-site", "same-site":
            self.assertEqual(self.status("POST", "ask", ask, Sec_Fetch_Site=site), 403)
            self.assertEqual(self.status("GET", "start", Sec_Fetch_Site=site), 403)

    def test_rules_for_browsers(self) -> None:
        headers = self.served.request("GET", "")[1]
        self.assertNotIn("Access-Control-Allow-Origin", headers)
        self.assertEqual(headers["Content-Security-Policy"].split("; ")[0], "default-src 'none'")
        self.assertIn("frame-ancestors 'none'", headers["Content-Security-Policy"])
        self.assertIn("require-trusted-types-for 'script'", headers["Content-Security-Policy"])
        wanted = {"Referrer-Policy": "no-referrer", "Cache-Control": "no-store", "Cross-Origin-Resource-Policy": "same-origin",
                  "X-Content-Type-Options": "nosniff"}
        self.assertEqual({name: headers[name] for name in wanted}, wanted)

    def test_no_other_file(self) -> None:
        for path in ("../open", "..%2fopen", "%2e%2e/open", "/etc/passwd", "./index.html", "main.js/", "main.js?x", "a/b", "command.py",
                     "open", "\\..\\x"):
            self.assertEqual(self.status("GET", f"/{self.served.secret}/{path}"), 404, path)
        self.assertEqual([self.status("GET", name) for name in ("main.js", "style.css", "forms.css", "index.html")], [200] * 4)

    def test_bad_requests(self) -> None:
        for body in (b"", b"{", b"[]", b"[" * 100_000, b'{"command":1}', b'{"command":"compile"}', b"\xff",
                     b'{"command":"compile","policy":"\\ud800","tab":"","lane":""}'):
            self.assertEqual(self.status("POST", "ask", body), 400, body[:40])
        for command in "sample", "check", "audit", "help", "--output", "; true", "../x", "":
            self.assertEqual(self.served.post("ask", command=command, policy="")[0], 404, command)
        self.assertEqual(self.served.post("save", policy="", seen="")[0], 404)  # without --save
        for method in "PUT", "DELETE", "OPTIONS", "TRACE", "CONNECT":
            self.assertEqual(self.status(method, ""), 501, method)

    def test_large_bodies(self) -> None:
        self.assertEqual(self.status("POST", "ask", b"", Content_Length=str(10**8)), 413)
        self.assertEqual(self.status("POST", "ask", b"", Content_Length="-1"), 411)
        self.assertEqual(self.status("POST", "ask", b"0\r\n\r\n", Content_Length="5", Transfer_Encoding="chunked"), 411)
        self.assertEqual(self.status("GET", "/" + "a" * 70_000), 414)

    def test_strange_policies_harm_nothing(self) -> None:
        for policy in "\0", "\x1b[2J", "(" * 5000, "true => " + "not (" * 3000, "x" * 1_000_000, "\u2028;", "$(touch x)`id`":
            self.assertEqual(self.served.ask("promises", policy)["status"], 3, policy[:20])

    def test_slow_clients_do_not_stop_others(self) -> None:
        held = [socket.create_connection(("127.0.0.1", self.served.port)) for _ in range(20)]
        for line in held:
            line.sendall(b"POST / HTTP/1.1\r\nHost: ")
        self.assertEqual(self.status("GET", "start"), 200)
        self.assertTrue(any(map(is_open, held)))  # the server hasn't waited for their end
        for line in held:
            line.close()

    def test_too_many_connections_are_closed(self) -> None:
        held = [socket.create_connection(("127.0.0.1", self.served.port)) for _ in range(80)]
        time.sleep(0.5)
        closed = 0
        for line in held:
            line.settimeout(0.05)
            try:
                closed += line.recv(1) == b""
            except (TimeoutError, ConnectionError) as why:
                closed += isinstance(why, ConnectionError)
        self.assertGreaterEqual(closed, 20)
        for line in held:
            line.close()

        def answers() -> bool:
            with contextlib.suppress(OSError):
                return self.status("GET", "start") == 200
            return False

        self.assertTrue(until(answers, 10))

    def test_many_at_once(self) -> None:
        def asked(place: int) -> object:
            return self.served.ask("replay", self.policy, SCENARIO.replace("198.51.100", f"198.51.{place}"), f"lane{place}")["status"]

        with ThreadPoolExecutor(24) as pool:
            self.assertEqual(set(pool.map(asked, range(24))), {0})


class Files(unittest.TestCase):
    """Nothing is written, but POLICY where that is wished."""

    def setUp(self) -> None:
        room = tempfile.TemporaryDirectory()
        self.addCleanup(room.cleanup)
        self.folder, self.file = room.name, shutil.copy(POLICY, room.name)

    def test_save(self) -> None:
        os.chmod(self.file, 0o640)
        with Served("--save", TOPO, self.file) as served:
            seen = json.loads(served.request("GET", "start")[2])["seen"]
            status, told = served.post("save", policy="true => any;\n", seen=seen)
            self.assertEqual((status, text_of(self.file), stat.S_IMODE(os.stat(self.file).st_mode)), (200, "true => any;\n", 0o640))
            self.assertEqual(served.post("save", policy="true => drop;\n", seen=seen)[0], 409)  # seen before that
            with open(self.file, "w", encoding="utf-8") as file:
                file.write("# by another\n")
            self.assertEqual(served.post("save", policy="true => drop;\n", seen=told["seen"])[0], 409)
            self.assertEqual(text_of(self.file), "# by another\n")
            self.assertEqual(served.post("file", seen=told["seen"])[1]["policy"], "# by another\n")
            self.assertEqual(os.listdir(self.folder), ["policy.propane"])

    def test_without_save_nothing_is_written(self) -> None:
        with Served(TOPO, self.file) as served:
            self.assertEqual(served.post("save", policy="", seen="")[0], 404)
            os.remove(self.file)  # what was read is kept
            self.assertEqual(json.loads(served.request("GET", "start")[2])["policy"], text_of(POLICY))
        self.assertEqual(os.listdir(self.folder), [])


class Ends(unittest.TestCase):
    """An interrupt ends all, and leaves nothing."""

    def setUp(self) -> None:
        room = tempfile.TemporaryDirectory()
        self.addCleanup(room.cleanup)
        self.room = room.name

    def test_ends_cleanly_while_at_work(self) -> None:
        policy = text_of(FABRIC[1])
        for number in signal.SIGINT, signal.SIGTERM, signal.SIGHUP:
            served = Served(*FABRIC, room=self.room)
            for place in range(12):
                scenario = json.dumps({"prefix": f"10.0.{place}.0/24", "dead": [], "dead_links": [], "silent": []})
                quietly(lambda third=scenario, lane=f"lane{place}", one=served: one.ask("whatif", policy, third, lane))
            if not until(lambda one=served: at_work(one)):
                served.end()
                self.skipTest("the program answers before it is seen at work")
            self.assertEqual(served.end(number), (0, ""))
            self.assertEqual(os.listdir(self.room), [])

    def stuck(self) -> Served:
        """A server whose questions are all at work for good, or wait. Each has left so much behind that to take it away takes a while."""
        program, marks = os.path.join(self.room, "program"), os.path.join(self.room, "marks")
        with open(program, "x", encoding="utf-8") as file:
            file.write(f'#!/bin/sh\n[ "$1" != version ] || exec echo stuck\nseq 20000 | xargs touch\n: > "{marks}/$$"\nexec sleep 1000\n')
        os.chmod(program, 0o700)
        for name in "marks", "server":
            os.mkdir(os.path.join(self.room, name))
        served = Served(TOPO, POLICY, program=program, room=os.path.join(self.room, "server"))
        for place in range(AT_ONCE + 3):
            quietly(lambda lane=f"lane{place}": served.ask("promises", lane, None, lane))
        self.assertTrue(until(lambda: len(os.listdir(marks)) == AT_ONCE))
        return served

    def test_an_interrupt_leaves_no_folder(self) -> None:
        self.assertEqual(self.stuck().end(), (0, ""))
        self.assertEqual(os.listdir(os.path.join(self.room, "server")), [])

    def test_each_thread_may_hear_the_interrupt(self) -> None:
        """The system chooses the thread that hears it; here it is one that serves, while the first one sleeps."""
        for number in signal.SIGINT, signal.SIGTERM, signal.SIGHUP:
            served = Served(TOPO, POLICY, room=self.room)
            served.request()
            first, *others = sorted(map(int, os.listdir(f"/proc/{served.child.pid}/task")))
            self.assertEqual((first, ctypes.CDLL(None).tgkill(served.child.pid, others[0], number)), (served.child.pid, 0))
            self.assertEqual((served.child.wait(60), served.end(), os.listdir(self.room)), (0, (0, ""), []))

    def test_further_interrupts_change_nothing(self) -> None:
        served = self.stuck()
        while served.child.poll() is None:
            served.child.send_signal(signal.SIGINT)
            time.sleep(0.001)
        self.assertEqual(served.end(), (0, ""))
        self.assertEqual(os.listdir(os.path.join(self.room, "server")), [])

    def test_the_end_waits_for_nothing_that_does_not_end(self) -> None:
        with mock.patch.object(runner, "LAST_SECONDS", 0.3), mock.patch.object(runner.Turn, "end", lambda turn: None):
            held = runner.Runner(shutil.which("sleep") or "", "", b"")

            def stay() -> None:
                with held.turn("lane") as turn:
                    held.answer(turn, ["sleep", "1000"], {}, 1000, {})

            asked = quietly(stay)
            self.assertTrue(until(lambda: any(turn.child for turn in held.running)))
            held.close()
        self.assertTrue(asked.is_alive())
        self.assertFalse(os.path.lexists(held.folder))
        for turn in list(held.running):
            turn.end()

    def test_nothing_goes_on_behind_it(self) -> None:
        served = Served(TOPO, POLICY)
        quietly(lambda: served.ask("settle", text_of(POLICY), settling(FLAPS)))
        mine = until(lambda: at_work(served))
        self.assertTrue(mine)
        self.assertEqual(served.end(), (0, ""))
        self.assertTrue(until(lambda: not any(os.path.exists(f"/proc/{name}") for name in mine), 2))

    def test_a_newer_question_ends_the_one_before(self) -> None:
        with Served(TOPO, POLICY) as served:
            policy, told = text_of(POLICY), {}
            slow = threading.Thread(target=lambda: told.update(served.ask("settle", policy, settling(FLAPS), "one")))
            slow.start()
            self.assertTrue(until(lambda: at_work(served)))
            self.assertEqual(served.ask("settle", policy, settling([]), "one")["status"], 0)
            slow.join(60)
            self.assertEqual(told["status"], -1)

    def test_words(self) -> None:
        for words, wanted in (((), 2), (("x",), 2), (("--odd", TOPO, POLICY), 2), ((TOPO, "/no/such"), 4), ((POLICY, OPEN, "x"), 2)):
            status, out, err = ended([OPEN, *words])
            self.assertEqual((status, out, err.count("\n")), (wanted, "", 1), (words, err))


if __name__ == "__main__":
    unittest.main()
