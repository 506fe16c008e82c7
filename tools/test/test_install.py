"""tools/install in a clean folder: what is installed runs there, is what the program says of itself, and goes again."""
import os
import re
import shutil
import subprocess
import tempfile
import unittest
import urllib.request
import xml.etree.ElementTree as tree

from common import PROGRAM, TOP, ended

EXAMPLE, PROPOSAL = (os.path.join(TOP, "examples", name) for name in ("two-exits", "pipeline"))
TWO = [os.path.join(EXAMPLE, "topology.json"), os.path.join(EXAMPLE, "policy.propane")]
SYNTAX = "share/vim/vimfiles"
POLICY = "# a comment\ndefine EDGE-1 = { E1, E2 };\n10.0.1.0/24 => avoid(any.1) and not exit(P >> Q);\n"


def joined(text):
    """A text without what depends on where its lines end."""
    return re.sub(r"-? +", " ", " ".join(re.sub("-", "- ", text).split()))


def pipelines():
    """The pipelines of docs/PIPELINE.md: the name of each file, and the lines that it has a shell run."""
    with open(os.path.join(TOP, "docs", "PIPELINE.md"), encoding="utf-8") as page:
        blocks = re.findall(r"^```yaml\n# (\S+)\n(.*?)^```$", page.read(), re.DOTALL | re.MULTILINE)
    return {name: re.findall(r"^ +(?:- )?(?:run: )?(propane.*)$", text, re.MULTILINE) for name, text in blocks}


class Install(unittest.TestCase):
    @classmethod
    def setUpClass(cls):
        cls.room = tempfile.TemporaryDirectory(prefix="propane test ")
        cls.addClassCleanup(cls.room.cleanup)
        cls.prefix = os.path.join(cls.room.name, "a prefix")
        cls.said = cls.install(cls.prefix)
        cls.commands = ended([PROGRAM])[2].strip().removeprefix("propane: usage: ").split(", ")

    @staticmethod
    def install(*words):
        return ended([os.path.join(TOP, "tools", "install"), *words], env={**os.environ, "PROGRAM": PROGRAM})

    def read(self, path):
        with open(os.path.join(self.prefix, path), encoding="utf-8") as file:
            return file.read()

    def skip_without(self, program):
        if not shutil.which(program):
            self.skipTest(f"{program} isn't here")

    def test_program(self):
        self.assertEqual((self.said[0], self.said[2]), (0, ""))
        link = os.path.join(self.room.name, "link")
        os.symlink(os.path.join(self.prefix, "bin", "propane"), link)
        with open(os.path.join(EXAMPLE, "compile.stdout"), encoding="utf-8") as file:
            wanted = file.read()
        environment = {"PATH": os.environ["PATH"], "PROPANE_HINTS": "off"}
        self.assertEqual(ended([link, "compile", *TWO], env=environment, cwd="/"), (0, wanted, ""))
        target = os.path.join(self.room.name, "target")
        self.assertEqual(ended([link, "--output", target, "compile", *TWO], env=environment), (0, "", ""))
        self.assertEqual(self.read(target), wanted)
        status, _, said = ended([link, "compile", *reversed(TWO)], env=environment | {"PROPANE_HINTS": "on"})
        self.assertEqual(status, 3)
        self.assertIn("change them round", " ".join(said.split()))
        _, _, said = ended([link, "compile", TWO[0], os.path.join(EXAMPLE, "compile.stdout")], env=environment | {"PROPANE_HINTS": "on"})
        self.assertIn("looks like a configuration", " ".join(said.split()))
        self.assertFalse(os.path.exists(os.path.join(self.prefix, "lib", "propane", "words", "__pycache__")))

    def test_scripts(self):
        """The scripts run with the installed program, and the program says whether it is proved."""
        environment = {"PATH": os.environ["PATH"]}
        status, said, _ = ended([os.path.join(self.prefix, "bin", "propane"), "proved"], env=environment)
        self.assertIn(said.partition(":")[0].split(" with ")[0], ("proved", "not proved", "not known"))
        self.assertEqual(status == 0, said.startswith("proved"))
        self.assertIn(said, self.said[1])
        with open(os.path.join(EXAMPLE, "promises.stdout"), encoding="utf-8") as file:
            wanted = len(file.read().splitlines())
        status, said, _ = ended([os.path.join(self.prefix, "bin", "propane"), "--json", "promises", *TWO], env=environment)
        self.assertEqual((status, said.count('"kind"')), (0, wanted))
        recheck = [os.path.join(self.prefix, "bin", "propane-recheck"), *TWO]
        texts = [os.path.join(EXAMPLE, name) for name in ("compile.stdout", "evidence.stdout")]
        self.assertEqual(ended([*recheck, *texts], env=environment), (0, "holds\n", ""))
        self.assertEqual(ended([os.path.join(self.prefix, "bin", "propane-shut"), "--help"], env=environment)[0], 0)
        expected = os.path.join(self.room.name, "expected")
        with open(expected, "w", encoding="utf-8") as file:
            file.write("198.51.100.0/24: R1 rank 1\n")
        status, said, _ = ended([os.path.join(self.prefix, "bin", "propane-expect"), *TWO, expected], env=environment)
        self.assertEqual((status, said.splitlines()[-1]), (0, "expectations 1 failed 0: asked replay 1 whatif 0"))

    def test_pipelines(self):
        """What the pipelines of PIPELINE run takes the proposed policy and stops at today's; the installation stands elsewhere meanwhile, as
        in an image."""
        moved = shutil.copytree(self.prefix, os.path.join(self.room.name, "an image"))
        environment = {"PATH": os.path.join(moved, "bin") + os.pathsep + os.environ["PATH"]}
        _, topology, _ = ended(["propane-import", os.path.join(PROPOSAL, "network.dot")], env=environment)
        self.assertEqual(sorted(pipelines()), [".github/workflows/policy.yml", ".gitlab-ci.yml"])
        for name, lines in pipelines().items():
            self.assertEqual([line.split()[0] for line in lines], ["propane-expect", "propane", "propane", "propane-recheck"], name)
            for policy, wanted, failures in ("proposed.propane", 0, "0"), ("policy.propane", 1, "2"):
                with self.subTest(name, policy=policy), tempfile.TemporaryDirectory() as checkout:
                    with open(os.path.join(checkout, "topology.json"), "w", encoding="utf-8") as file:
                        file.write(topology)
                    shutil.copy(os.path.join(PROPOSAL, policy), os.path.join(checkout, "policy.propane"))
                    shutil.copy(os.path.join(PROPOSAL, "expected.txt"), checkout)
                    status, said, _ = ended(["sh", "-e", "-c", "\n".join(lines)], cwd=checkout, env=environment)
                    suite = tree.parse(os.path.join(checkout, "expected.xml")).getroot()
                    self.assertEqual((status, suite.get("tests"), suite.get("failures")), (wanted, "3", failures), said)
                    self.assertEqual(said.endswith("\nholds\n"), not wanted, said)

    def test_page(self):
        """The page of a network is served by what is installed, until it is ended."""
        words = [os.path.join(self.prefix, "bin", "propane"), "open", *TWO]
        with subprocess.Popen(words, stdin=subprocess.DEVNULL, stdout=subprocess.PIPE, env={"PATH": os.environ["PATH"]}, text=True) as page:
            try:
                address = page.stdout.readline().split()[-1]
                for name in "", "main.js", "forms.css":
                    with urllib.request.urlopen(address + name, timeout=60) as answer:
                        self.assertEqual(answer.status, 200)
            finally:
                page.terminate()
                page.stdout.read()
        self.assertEqual(page.returncode, 0)

    def test_links(self):
        """Each link of an installed page leads to what is installed."""
        documents, dead, count = os.path.join(self.prefix, "share/doc/propane"), [], 0
        for at, _, names in os.walk(documents):
            for name in names:
                if name.endswith(".md"):
                    with open(os.path.join(at, name), encoding="utf-8") as file:
                        links = re.findall(r"\]\(([^)#\s]+)(?:#[^)]*)?\)", re.sub(r"```.*?```|`[^`]*`", "", file.read(), flags=re.DOTALL))
                    count += len(links)
                    dead += [f"{name}: {link}" for link in links if ":" not in link and not os.path.exists(os.path.join(at, link))]
        self.assertEqual(dead, [])
        self.assertGreater(count, 200)

    def test_manual(self):
        page = self.read("share/man/man1/propane.1")
        self.assertNotIn("@", page)
        for form in self.commands:
            self.assertIn("\n.SS " + form.replace("-", "\\-") + "\n", page)
            told = ended([PROGRAM, "help", form.split()[0]])[1]
            self.assertTrue(all(len(line) <= 80 for line in told.splitlines()))
        self.assertTrue(all(len(line) <= 80 for line in ended([PROGRAM, "--help"])[1].splitlines()))
        self.skip_without("groff")
        with open(os.path.join(self.prefix, "share/man/man1/propane.1"), "rb") as file:
            status, text, said = ended(["groff", "-man", "-ww", "-Tascii", "-P-cbou", "-rLL=80n", "-rHY=0"], stdin=file)
        self.assertEqual((status, said), (0, ""))
        for form in self.commands:
            for part in ended([PROGRAM, "help", form.split()[0]])[1].partition("\nreads\n")[0].split("\n\n")[1:]:
                self.assertIn(joined(part), joined(text))

    def test_pages(self):
        told = ended([PROGRAM, "help"])
        for word in ("--help", "-h"):
            self.assertEqual(ended([PROGRAM, word]), told)
        lines = told[1].partition("\n\ncommands\n")[2].splitlines()
        self.assertGreaterEqual(len(lines), len(self.commands))
        for form, line in zip(self.commands, lines):
            with self.subTest(form):
                word = form.split()[0]
                self.assertEqual(line.split()[0], word)
                page = ended([PROGRAM, "help", word])[1]
                self.assertTrue(page.startswith(f"usage: propane {form}\n\n"))
                self.assertRegex(page, r"(?s)\n\nreads\n  .*\n\nwrites\n  .*\n\nstatus\n  .*\n\nexample\n  ")

    def test_bash(self):
        file = os.path.join(self.prefix, "share/bash-completion/completions/propane")
        every = sorted(form.split()[0] for form in self.commands)
        for line, wanted in [
            ("propane ''", sorted([*every, "--output", "--json"])), ("propane compi", ["compile"]), ("propane --json whati", ["whatif"]), ("propane help au", ["audit"]),
            ("propane compile ''", []), ("propane --output file che", ["check", "checkmap"]), ("propane --output ''", []),
        ]:
            with self.subTest(line):
                asked = f"COMP_WORDS=({line}); COMP_CWORD=$((${{#COMP_WORDS[@]}} - 1))"
                script = f'source "$1"; {asked}; _propane; printf "%s\\n" "${{COMPREPLY[@]}}"'
                status, out, said = ended(["bash", "--norc", "-c", script, "bash", file])
                self.assertEqual((status, sorted(out.split()), said), (0, wanted, ""))

    def test_zsh(self):
        self.skip_without("zsh")
        file = os.path.join(self.prefix, "share/zsh/site-functions/_propane")
        every = sorted(form.split()[0] for form in self.commands)
        for line, wanted in [
            ("propane ''", sorted([*every, "--output", "--json"])), ("propane help ''", every), ("propane --json ''", every), ("propane compile ''", ["files"]),
            ("propane --output ''", ["files"]), ("propane --output file ''", every), ("propane help x ''", ["files"]),
        ]:
            with self.subTest(line):
                ours = "_describe() { print -l ${${(P)2}%%:*} }; _files() { print files }"
                script = f'{ours}; words=({line}); CURRENT=$#words; source "$1"'
                status, out, said = ended(["zsh", "-f", "-c", script, "zsh", file])
                self.assertEqual((status, sorted(out.split()), said), (0, wanted, ""))

    def test_vim(self):
        with open(os.path.join(TOP, "docs", "LANGUAGE.md"), encoding="utf-8") as file:
            words = re.search(r"These words are the language's own and name nothing: `([^`]*)`", file.read())[1].split()
        text = self.read(f"{SYNTAX}/syntax/propane.vim")
        found = [word for line in re.findall(r"syntax keyword propane(?:Item|Operator|Call|Constant) (.*)", text) for word in line.split()]
        self.assertEqual(sorted(found), sorted(words))
        self.skip_without("vim")
        if "+syntax" not in ended(["vim", "--version"])[1]:
            self.skipTest("this Vim has no syntax")
        policy, seen = os.path.join(self.room.name, "text.propane"), os.path.join(self.room.name, "seen")
        with open(policy, "w", encoding="utf-8") as file:
            file.write(POLICY)
        places = [(1, 3, "Comment"), (2, 1, "Item"), (2, 8, ""), (3, 1, "Figure"), (3, 13, "Arrow"), (3, 16, "Call"), (3, 22, ""),
                  (3, 29, "Operator"), (3, 33, "Operator"), (3, 37, "Call"), (3, 44, "Arrow")]
        asked = ", ".join(f"synIDattr(synID({line}, {column}, 1), 'name')" for line, column, _ in places)
        orders = [
            f"let &runtimepath = '{self.prefix}/{SYNTAX},' . &runtimepath", "filetype on", "syntax on",
            "edit " + policy.replace(" ", "\\ "), f"call writefile([{asked}], '{seen}')", "qall!",
        ]
        ended(["vim", "-u", "NONE", "-i", "NONE", "-N", "-n", "-es", *(word for order in orders for word in ("-c", order))])
        self.assertEqual(self.read(seen).split("\n")[:-1], [f"propane{word}" if word else "" for _, _, word in places])

    def test_again_and_away(self):
        prefix = os.path.join(self.room.name, "other")
        os.makedirs(os.path.join(prefix, "bin"))
        for path in "bin/other", "bin/propane":
            with open(os.path.join(prefix, path), "w", encoding="utf-8") as file:
                file.write("theirs\n")
        status, out, said = self.install(prefix)
        self.assertEqual((status, out), (1, ""))
        self.assertIn("isn't of an earlier installation", said)
        self.assertEqual(sorted(os.listdir(os.path.join(prefix, "bin"))), ["other", "propane"])
        os.remove(os.path.join(prefix, "bin", "propane"))
        for _ in range(2):
            self.assertEqual(self.install(prefix)[0], 0)
        with open(os.path.join(prefix, "lib", "propane", "installed"), encoding="utf-8") as file:
            listed = file.read().split()
        there = [os.path.relpath(os.path.join(at, name), prefix) for at, _, names in os.walk(prefix) for name in names]
        self.assertEqual(sorted(there), sorted([*listed, "bin/other"]))
        self.assertEqual(self.install("--remove", prefix), (0, "", ""))
        self.assertEqual([os.path.relpath(at, prefix) for at, _, _ in os.walk(prefix)], [".", "bin"])
        self.assertEqual(os.listdir(os.path.join(prefix, "bin")), ["other"])
        self.assertEqual(self.install("--remove", prefix)[0], 1)
        self.assertEqual(self.install()[0], 1)
