"""The stages of a change as the server of tools/open tells them, beside what the program and tools/rollout write in files."""
from __future__ import annotations

import json
import os
import shutil
import subprocess
import tempfile
import time
import unittest
from concurrent.futures import ThreadPoolExecutor

from common import PROGRAM, TOP
from serving import Served, contrary, example, text_of

ROLLOUT = os.path.join(TOP, "tools", "rollout")
BACKBONE = example("cookbook", "abilene.json")
LEAVES = example("cookbook", "leaves.json")
EXITS, SWAPPED, DRAIN = (example("cookbook", f"{name}.propane") for name in ("exits", "exits-swapped", "drain"))
SPINE, RACK = (example("cookbook", f"{name}.propane") for name in ("spine", "spine-rack"))
STAGES = ("old", "one", "two", "new")


def written(*words: str) -> str:
    """What the program writes."""
    return subprocess.run([PROGRAM, *words], capture_output=True, text=True, check=True).stdout


class Changing(unittest.TestCase):
    """Each test has a folder of its own."""

    def setUp(self) -> None:
        room = tempfile.TemporaryDirectory()
        self.addCleanup(room.cleanup)
        self.room = room.name

    def file(self, name: str, text: str = "") -> str:
        """The path of a file, with this text if there is one."""
        path = os.path.join(self.room, name)
        if text:
            with open(path, "w", encoding="utf-8") as file:
                file.write(text)
        return path

    def change(self, served: Served, before: str, policy: str, **more: str) -> dict[str, object]:
        status, told = served.post("change", before=text_of(before), policy=text_of(policy), **more)
        self.assertEqual(status, 200)
        return told


class Steps(Changing):
    def planned(self, topology: str, before: str, policy: str) -> list[str]:
        """The lines of tools/rollout, which compares what route maps do; and the stages in the folder of the test."""
        config, evidence = (self.file(command, written(command, topology, before)) for command in ("compile", "evidence"))
        words = [ROLLOUT, "--plan", topology, before, policy, config, evidence, self.file("plan")]
        return subprocess.run(words, capture_output=True, text=True, check=True, env=os.environ | {"PROGRAM": PROGRAM}).stdout.splitlines()

    def test_who_loads_is_as_rollout_plans(self) -> None:
        for topology, before, policy in ((BACKBONE, EXITS, SWAPPED), (BACKBONE, SWAPPED, DRAIN), (LEAVES, SPINE, RACK)):
            with Served(topology, before) as served:
                told = self.change(served, before, policy)
            routers = len(json.loads(text_of(topology))["routers"])
            lines = [f"{start} to {step['to']}: {len(step['load'])} of {routers} routers to load: {' '.join(step['load']) or 'none'}"
                     for start, step in zip(STAGES, told["steps"])]
            self.assertEqual(lines, self.planned(topology, before, policy))
            self.assertEqual([step["still"] for step in told["steps"]], [True, False, True])

    def test_the_same_policy_moves_nobody(self) -> None:
        with Served(BACKBONE, EXITS) as served:
            told = self.change(served, EXITS, EXITS, router="SNVA")
            self.assertEqual([line for _, line in told["blocks"]["old"]], self.block("compile", written("compile", BACKBONE, EXITS), "SNVA"))

    @staticmethod
    def block(name: str, text: str, router: str) -> list[str]:
        found = text[text.index(f"\nrouter {router} ") + 1:]
        return found[:found.index("\nend\n") + 4].splitlines()

    def test_blocks_are_those_of_the_stages(self) -> None:
        self.planned(BACKBONE, EXITS, DRAIN)
        texts = {stage: text_of(self.file(os.path.join("plan", stage, "config"))) for stage in STAGES}
        with Served(BACKBONE, EXITS) as served:
            for router in "SNVA", "KSCY":
                told = self.change(served, EXITS, DRAIN, router=router)["blocks"]
                for before, after in zip(("old", *STAGES), STAGES):
                    self.assertEqual([line for sign, line in told[after] if sign != "+"], self.block(before, texts[before], router))
                    self.assertEqual([line for sign, line in told[after] if sign != "-"], self.block(after, texts[after], router))
            self.assertEqual(set(self.change(served, EXITS, DRAIN, router="nobody")["blocks"]), set(STAGES))

    def test_what_is_asked_is_whole(self) -> None:
        with Served(BACKBONE, EXITS) as served:
            for body in {"policy": "true => any;"}, {"before": "true => any;"}, {"before": 1, "policy": ""}:
                self.assertEqual(served.post("change", **body)[0], 400, body)


class Refused(Changing):
    def test_a_refused_policy_is_told_as_any(self) -> None:
        topology, policy = example("waypoint-ring", "topology.json"), example("waypoint-ring", "policy.propane")
        with Served(topology, policy) as served:
            asked = served.ask("promises", text_of(policy))
            told = served.post("change", before="true => any;", policy=text_of(policy))[1]
            self.assertEqual(told, {name: asked[name] for name in ("status", "error", "words", "place")} | {"command": "renew"})
            self.assertEqual(told["status"], 1)
            told = served.post("change", before=text_of(policy), policy="true => any;")[1]
            self.assertEqual((told["status"], told["command"]), (1, "compile"))

    def test_what_is_in_the_way_is_told(self) -> None:
        program = contrary(self.room, "between", "echo 'low pref 7'; exit 7")
        with Served(BACKBONE, EXITS, program=program) as served:
            told = self.change(served, EXITS, SWAPPED)
        self.assertEqual((told["status"], told["command"], told["error"], told["place"]), (7, "between", "low pref 7", None))
        self.assertEqual((told["words"]["page"], told["words"]["part"]), ("FORMATS.md", "What is in the way"))
        self.assertNotIn("steps", told)

    def test_refusals_of_stages_are_told(self) -> None:
        for command, line in ("renew", "refused 10 preferences-run-out pref 4294967295"), ("between", "refused 8 too-many-lines number 1000001"):
            program = contrary(self.room, command, f"echo 'propane: {line}' >&2; exit 1")
            with Served(BACKBONE, EXITS, program=program) as served:
                told = self.change(served, EXITS, SWAPPED)
            self.assertEqual((told["status"], told["command"], told["error"]), (1, command, line))


class Lanes(Changing):
    def test_a_newer_change_ends_the_one_before(self) -> None:
        begun = self.file("begun")
        program = contrary(self.room, "renew", f'grep -q slow policy.propane && touch {begun} && sleep 600; exec {PROGRAM} "$@"')
        with Served(BACKBONE, EXITS, program=program) as served, ThreadPoolExecutor(1) as pool:
            first = pool.submit(served.post, "change", before=text_of(EXITS), policy="# slow\n" + text_of(SWAPPED))
            while not os.path.exists(begun):
                time.sleep(0.01)
            self.assertEqual(self.change(served, EXITS, SWAPPED)["status"], 0)
            self.assertEqual(first.result()[1]["status"], -1)


class Runs(Changing):
    """Which policy runs, as far as the page can know."""

    def test_the_policy_that_runs(self) -> None:
        path = shutil.copy(EXITS, self.room)
        with Served("--save", BACKBONE, path) as served:
            self.file(os.path.basename(path), "true => any;\n")  # by another program
            start = json.loads(served.request("GET", "start")[2])
            self.assertEqual((start["policy"], start["runs"]), ("true => any;\n", text_of(EXITS)))
            told = served.post("file", seen="")[1]
            self.assertEqual((told["policy"], told["runs"]), ("true => any;\n", text_of(EXITS)))
            self.assertEqual(served.post("save", policy=text_of(SWAPPED), seen=told["seen"])[0], 200)
            self.assertEqual(json.loads(served.request("GET", "start")[2])["runs"], text_of(SWAPPED))


if __name__ == "__main__":
    unittest.main()
