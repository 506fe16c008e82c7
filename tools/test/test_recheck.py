"""tools/recheck judges as `check` does: the rows of runs/, each example, each limit of a text, and some hundred networks by chance."""
import contextlib
import importlib
import io
import json
import os
import pkgutil
import random
import tempfile
import unittest
from unittest import mock

import runs
from common import PROGRAM, TOP, ended, example_folders, tool
from made import Made
from test_runs import EIGHT, LIMITS

NAMES = ["topology", "policy", "config", "evidence"]
EXAMPLES = os.path.join(TOP, "examples")
NO_CASES = '{"cases":[],"version":1}'


def examples() -> list:
    """The topology and the policy of each policy of examples/, as texts."""
    found = []
    for folder in example_folders():
        for name in sorted(os.listdir(os.path.join(EXAMPLES, folder))):
            if name.endswith(".propane"):
                own = os.path.join(EXAMPLES, folder, name.replace(".propane", ".topology.json"))
                topology = own if os.path.exists(own) else os.path.join(EXAMPLES, folder, "topology.json")
                if os.path.exists(topology):
                    found.append((f"{folder}/{name}", *(open(path, encoding="utf-8").read() for path in (topology, os.path.join(EXAMPLES, folder, name)))))
    return found


def changed_number(text: str, chance: random.Random) -> str:
    """Evidence in which one number, mark or prefix is another one."""
    evidence, spots = json.loads(text), []

    def gather(value, keys):
        if isinstance(value, (list, dict)):
            for key, part in value.items() if isinstance(value, dict) else enumerate(value):
                gather(part, [*keys, key])
        else:
            spots.append(keys)

    gather(evidence, [])
    *keys, last = chance.choice(spots)
    at = evidence
    for key in keys:
        at = at[key]
    if isinstance(at[last], bool):
        at[last] = not at[last]
    elif isinstance(at[last], int):
        at[last] = max(0, at[last] + chance.choice((-2, -1, 1, 2, chance.randint(-5, 5))))
    else:
        at[last] = "192.0.2.0/24"
    return json.dumps(evidence)


def changed_list(text: str, chance: random.Random) -> str:
    """Evidence in which one item of a list is gone, stands twice, or stands elsewhere."""
    evidence, lists = json.loads(text), []

    def gather(value):
        if isinstance(value, list) and value:
            lists.append(value)
        for part in value.values() if isinstance(value, dict) else value if isinstance(value, list) else ():
            gather(part)

    gather(evidence)
    for items in [chance.choice(lists)] if lists else []:
        here = chance.randrange(len(items))
        match chance.randrange(3):
            case 0:
                del items[here]
            case 1:
                items.insert(chance.randrange(len(items) + 1), items[here])
            case 2:
                items.insert(chance.randrange(len(items)), items.pop(here))
    return json.dumps(evidence)


def changed_digit(text: str, chance: random.Random) -> str:
    """A configuration in which one digit is another one."""
    place = chance.choice([place for place, char in enumerate(text) if char.isdigit()])
    return text[:place] + str(chance.randrange(10)) + text[place + 1:]


class Recheck(unittest.TestCase):
    def setUp(self):
        room = tempfile.TemporaryDirectory()
        self.addCleanup(room.cleanup)
        self.names = [os.path.join(room.name, name) for name in NAMES]
        self.recheck = tool("recheck")
        self.agreed = {}

    def write(self, texts):
        for name, text in zip(self.names, texts):
            with open(name, "wb") as file:
                file.write(text if isinstance(text, bytes) else text.encode())

    def program(self, command, texts):
        self.write(texts)
        return ended([PROGRAM, command, *self.names[:len(texts)]])

    def judged(self, texts):
        """How tools/recheck ends."""
        self.write(texts)
        told = io.StringIO()
        with mock.patch("sys.argv", ["recheck", *self.names]), contextlib.redirect_stdout(told), contextlib.redirect_stderr(io.StringIO()):
            return self.recheck.main(), told.getvalue()

    def agrees(self, texts):
        """`check` and tools/recheck end alike; of a configuration that breaks a rule of its form they need only both not say `holds`."""
        status, told, fault = self.program("check", texts)
        again = self.judged(texts)
        if fault.startswith("propane: config "):
            self.assertIn(again[0], (3, 7), fault)
        else:
            self.assertEqual(again, (status, told), fault)
        word = told.split(" case ")[0].strip() or fault.split()[1]
        self.agreed[word] = self.agreed.get(word, 0) + 1

    def test_it_is_short(self):
        with open(os.path.join(TOP, "tools", "recheck"), encoding="utf-8") as file:
            self.assertLessEqual(len(file.readlines()), 400)

    def test_rows(self):
        for table in sorted({module.name for module in pkgutil.iter_modules(runs.__path__)} - {"networks"}):
            for name, words, texts, *_ in importlib.import_module("runs." + table).ROWS:
                if words == ["check"] and len(texts) == 4:
                    with self.subTest(f"{table}: {name}"):
                        self.agrees(texts)
        fail = {word.split()[1] for word in self.agreed if word.startswith("fails")}
        self.assertEqual(fail, {str(rule) for rule in range(1, 11)}, "each rule fails in some row")

    def test_examples(self):
        for name, topology, policy in examples():
            written = [self.program(command, [topology, policy]) for command in ("compile", "evidence")]
            with self.subTest(name):
                if written[0][0] == 0:
                    self.agrees([topology, policy, *(told for _, told, _ in written)])
        self.assertGreater(self.agreed["holds"], 15)

    def test_limits_of_policies(self):
        for name, policy, line in LIMITS:
            with self.subTest(name):
                self.agrees([EIGHT, policy, "propane-config 2\n", NO_CASES])

    def test_limits_of_cases(self):
        ranks = "true => " + " >> ".join(["any"] * 65) + ";"
        case = '{"cases":[{"external":true,"nodes":[],"origins":[2,3],"prefixes":[],"starts":[],"statement":1,"steps":[]}],"version":1}'
        with open(os.path.join(EXAMPLES, "two-exits", "topology.json"), encoding="utf-8") as file:
            network = file.read()
        for policy in (ranks, ranks.replace("any >> ", "", 1), "true => " + " and ".join(["(any >> any)"] * 7) + ";"):
            self.agrees([network, policy, "propane-config 2\n", case])
        self.assertEqual(self.agreed, {"fails 1 cases": 2, "fails 2 walks": 1})

    def test_made_by_chance(self):
        for number in range(120):
            made, chance = Made(number), random.Random(number)
            texts = [made.topology(), made.policy()]
            written = [self.program(command, texts) for command in ("compile", "evidence")]
            if any(status for status, _, _ in written):
                continue
            config, evidence = (told for _, told, _ in written)
            with self.subTest(number, policy=texts[1]):
                self.agrees([*texts, config, evidence])
                for change in (changed_number, changed_number, changed_list):
                    self.agrees([*texts, config, change(evidence, chance)])
                self.agrees([*texts, changed_digit(config, chance), evidence])
        self.assertGreater(self.agreed["holds"], 60)
        self.assertGreater(sum(self.agreed[word] for word in self.agreed if word.startswith("fails")), 120)
