"""What ./propane and the scripts say of themselves where somebody asks for help, in one of the ways in which people do."""
import os
import unittest

from common import PROGRAM, TOP, ended

TOOLS = os.path.join(TOP, "tools")
SCRIPTS = ("deploy", "expect", "export", "import", "lab", "open", "picture", "recheck", "rollout", "shut", "tables", "watch", "why")
WIDTH = 80


def run(*words):
    """How tools/run ends, which ./propane and an installed propane are."""
    return ended([os.path.join(TOOLS, "run"), PROGRAM, *words], env={**os.environ, "PROPANE_HINTS": "off"})


class Help(unittest.TestCase):
    def test_scripts(self):
        for name in SCRIPTS:
            told = [ended([os.path.join(TOOLS, name), word]) for word in ("--help", "-h", "help")]
            self.assertEqual({(status, said) for status, _, said in told}, {(0, "")}, name)
            self.assertEqual(len({text for _, text, _ in told}), 1, name)
            self.assertEqual([line for line in told[0][1].splitlines() if len(line) > WIDTH], [], name)

    def test_all(self):
        own, (status, text, said) = ended([PROGRAM, "help"])[1], run("help")
        self.assertEqual((status, said), (0, ""))
        self.assertTrue(text.startswith(own))
        listed = [line.split()[0] for line in text[len(own):].splitlines() if line.startswith("  ")]
        self.assertEqual(sorted(listed), sorted(f"tools/{name}" for name in SCRIPTS))
        self.assertEqual([line for line in text.splitlines() if len(line) > WIDTH], [])
        for words, wanted in (((), (2, "", text)), (("--help",), (0, text, "")), (("-h",), (0, text, ""))):
            self.assertEqual(run(*words), wanted)

    def test_one(self):
        for words in (("compile", "--help"), ("compile", "-h")):
            self.assertEqual(run(*words), ended([PROGRAM, "help", "compile"]))
        for words in (("help", "deploy"), ("deploy", "--help")):
            self.assertEqual(run(*words), ended([os.path.join(TOOLS, "deploy"), "--help"]))

    def test_none(self):
        """What is no command is the program's to tell."""
        for words in (("help", "nothing"), ("help", "run"), ("help", "../run"), ("nothing", "--help")):
            self.assertEqual(run(*words), ended([PROGRAM, "help", words[words[0] == "help"]]))


if __name__ == "__main__":
    unittest.main()
