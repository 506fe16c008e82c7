"""The pages of docs/cookbook: what their tables say of a run is what the run is to write, and what they quote stands in the file."""
import glob
import os
import re
import unittest

from common import TOP

EXAMPLE = os.path.join(TOP, "examples", "cookbook")
LINK = re.compile(r"\[([^\]]*)\]\(\.\./\.\./examples/cookbook/([^)]+)\)")
CODE = re.compile(r"`([^`]+)`")


def text_of(path):
    with open(path, encoding="utf-8") as file:
        return file.read()


def run_of(name):
    """The lines that a run of the example is to write."""
    return text_of(os.path.join(EXAMPLE, name)).splitlines()


def tables(page):
    """The tables of a page's text, each as its rows of cells; the second row, of dashes, is left out."""
    for block in re.findall(r"(?:^\|.*\n)+", page, re.MULTILINE):
        rows = [[cell.strip() for cell in line[1:-1].split("|")] for line in block.splitlines()]
        yield [rows[0], *rows[2:]]


def cell_of(said):
    """What a line of a report says of a router or a session, as a cell of a table says it."""
    if said[0] == "rank":
        return f"{said[1]}: {' '.join(said[3:])}"
    return f"transit: {' '.join(said[2:])}" if said[0] == "transit" else said[0]


def outcome(lines):
    """What the lines of a report say, cell by cell."""
    found = {}
    for kind, *words in map(str.split, lines):
        if kind in ("router", "session"):
            names = 1 if kind == "router" else 2
            found[" to ".join(words[:names])] = cell_of(words[names:])
    return found


def has(text, pieces):
    """Whether these pieces stand in a text one after another, however its words are spaced."""
    text, at = " ".join(text.split()), 0
    for piece in map(str.strip, pieces):
        at = text.find(piece, at)
        if at < 0:
            return False
        at += len(piece)
    return True


class Cookbook(unittest.TestCase):
    def setUp(self):
        self.pages = {os.path.basename(path): text_of(path) for path in sorted(glob.glob(os.path.join(TOP, "docs", "cookbook", "*.md")))}

    def test_replays(self):
        """Each column of a table of replays is the run to which its heading leads, and says all of it."""
        count = 0
        for page, (heading, *rows) in [(page, table) for page, text in self.pages.items() for table in tables(text)]:
            for place, cell in enumerate(heading):
                link = LINK.fullmatch(cell)
                if link:
                    with self.subTest(page, run=link[2]):
                        self.assertEqual({row[0]: row[place] for row in rows if row[place]}, outcome(run_of(link[2])))
                        count += 1
        self.assertGreater(count, 50)

    def test_quotes(self):
        """A link whose words are code quotes its file: a part of a policy, or a line that a run is to write."""
        links = [(page, CODE.fullmatch(words), path) for page, text in self.pages.items() for words, path in LINK.findall(text)]
        quotes = [(page, code[1], path) for page, code, path in links if code]
        for page, quote, path in quotes:
            with self.subTest(page, path=path):
                self.assertTrue(has(text_of(os.path.join(EXAMPLE, path)), quote.split("..")), quote)
        self.assertGreater(len(quotes), 40)

    def test_each_policy_has_a_recipe(self):
        told = "".join([*self.pages.values(), text_of(os.path.join(TOP, "docs", "COOKBOOK.md"))])
        for path in glob.glob(os.path.join(EXAMPLE, "*.propane")):
            with self.subTest(os.path.basename(path)):
                self.assertIn(f"examples/cookbook/{os.path.basename(path)})", told)


if __name__ == "__main__":
    unittest.main()
