"""tools/crates: the tables of docs/ARCHITECTURE.md are made of the heads of the crates, and a head of another form is told."""
import unittest

from common import tool

CRATES = tool("crates")
HEAD = """//! Routes as lists: what they hold. There is no code
//! here.
//!
//! Why so.
//!
//! {}
//!
//! It knows nothing of maps, and of texts.

pub mod a;
"""

# Who needs a crate, by its head and in its row.
USERS = [
    ("Compiling doesn't need it.", "Not for `compile`."),
    ("`lint` alone needs it.", "For `lint` alone."),
    ("`check` and `audit` alone need it.", "For `check` and `audit` alone."),
    ("No command needs it yet.", "For no command."),
    ("No command needs it: it says what is shown.", "For no command."),
    ("Routes are short.", ""),
]

# Heads of another form, and what is told of them.
UNFIT = [
    ("", "the last paragraph of its head doesn't begin `It knows nothing of `"),
    ("//! Routes.\n", "the last paragraph of its head doesn't begin `It knows nothing of `"),
    ("//! Routes.\n//!\n//! It knows nothing of maps. It never did.\n", "the last paragraph of its head has several sentences"),
    ("//! Routes. Lists. Maps.\n//!\n//! It knows nothing of maps.\n", "the first paragraph of its head has more than two sentences"),
    (f"//! Routes{' that go on' * 10}.\n//!\n//! It knows nothing of maps.\n", "its head needs more than 30 words to say what it holds"),
    ("//! Routes | lists.\n//!\n//! It knows nothing of maps.\n", "a mark of tables in its head"),
]


class Crates(unittest.TestCase):
    def test_page(self):
        """The page is what the script makes, so each crate has one row and each head has its form."""
        old = CRATES.text_of("docs/ARCHITECTURE.md")
        self.assertTrue(CRATES.page(old) == old, "tools/crates writes another docs/ARCHITECTURE.md: run it")

    def test_groups(self):
        """Every folder of crates/ is in one group."""
        named = [crate for _, crates in CRATES.groups() for crate in crates]
        self.assertEqual(sorted(named), sorted(CRATES.os.listdir(CRATES.os.path.join(CRATES.TOP, "crates"))))

    def test_rows(self):
        for sentence, wanted in USERS:
            with self.subTest(sentence):
                head = CRATES.head_of("routes", "crates/routes/src/lib.rt", HEAD.format(sentence))
                holds = f"Routes as lists. {wanted}".strip()
                self.assertEqual(head.row(), f"| [`routes`](../crates/routes/src/lib.rt) | {holds} | maps, and of texts |\n")

    def test_unfit_heads(self):
        for text, why in UNFIT:
            with self.subTest(text):
                with self.assertRaises(CRATES.Unfit) as raised:
                    CRATES.head_of("routes", "crates/routes/src/lib.rt", text)
                self.assertEqual(str(raised.exception), f"routes: {why}")

    def test_pages_without_a_place(self):
        for text in ("# Architecture\n", CRATES.BEGIN, CRATES.BEGIN * 2 + CRATES.END):
            with self.subTest(text):
                self.assertRaises(CRATES.Unfit, CRATES.page, text)


if __name__ == "__main__":
    unittest.main()
