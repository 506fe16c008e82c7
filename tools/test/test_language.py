"""The words of the policy language: each list of them outside the proved crate `policy_words` is that crate's."""
import os
import re
import unittest

from common import TOP, tool
from made import SET_CALLS
from opening.page import CALLS
from texts.tokens import WORDS

# A word of the crate's list, and how a word is spelled.
LISTED = re.compile(r"((?:Word|CallWord|SetCall)::\w+)(?=[,)\n])")
SPELLED = re.compile(r'((?:Word|CallWord|SetCall)::\w+) => b"(\w+)"')


def read(*parts: str) -> str:
    """A file of the repository."""
    with open(os.path.join(TOP, *parts), encoding="utf-8") as file:
        return file.read()


class TestLanguage(unittest.TestCase):
    """The words by what they are: `Word` for items and operators, `CallWord` for calls, `SetCall` for calls of one set."""

    def setUp(self) -> None:
        source = read("crates", "policy_words", "src", "word.rt")
        listed = source[source.index("pub const WORDS"):source.index("];")]
        spelled = dict(SPELLED.findall(source))
        self.assertEqual(sorted(LISTED.findall(listed)), sorted(spelled))
        self.words = sorted(spelled.values())
        self.of_one_set = sorted(text for name, text in spelled.items() if name.startswith("SetCall::"))
        self.calls = sorted(text for name, text in spelled.items() if not name.startswith("Word::"))
        self.with_sets = sorted(set(self.calls) - {"any", "drop", "internal"})

    def test_the_list_is_read(self) -> None:
        self.assertEqual(len(self.words), len(set(self.words)))
        self.assertLess(set(self.of_one_set), set(self.with_sets))
        self.assertLess(set(self.calls), set(self.words))
        self.assertLessEqual({"define", "or", "any", "avoid"}, set(self.words))

    def test_scripts(self) -> None:
        recheck = tool("recheck")
        self.assertEqual(sorted(WORDS), self.words)
        self.assertEqual(sorted(recheck.OWN_WORDS), self.words)
        self.assertEqual(sorted(recheck.SET_CALLS), self.of_one_set)
        self.assertEqual(sorted(SET_CALLS), self.of_one_set)
        self.assertEqual(sorted(CALLS), self.with_sets)

    def test_editor(self) -> None:
        lines = re.findall(r"^syntax keyword (\w+) (.*)$", read("tools", "share", "propane.vim"), re.MULTILINE)
        groups = {group: words.split() for group, words in lines}
        del groups["propaneTodo"]
        self.assertEqual(sorted(groups["propaneCall"]), self.calls)
        self.assertEqual(sorted(word for words in groups.values() for word in words), self.words)

    def test_pages(self) -> None:
        for page in "LANGUAGE.md", "FORMATS.md":
            told = re.findall(r"`(define originate [^`]*)`", read("docs", page))
            self.assertEqual([sorted(each.split()) for each in told], [self.words], page)


if __name__ == "__main__":
    unittest.main()
