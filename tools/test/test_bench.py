"""bench/run --against: both programs run, and a line says how long each takes and whether they come to the same. Nothing is timed."""
import os
import unittest

from common import PROGRAM, TOP, ended

RUN = os.path.join(TOP, "bench", "run")


class Bench(unittest.TestCase):
    def against(self, *words):
        return ended([RUN, "--against", *words], env={**os.environ, "PROGRAM": PROGRAM}, timeout=600)

    def test_against(self):
        for other, said in (PROGRAM, "alike"), ("true", "DIFFERS: 0 and 0"), ("sh -c 'exit 3'", "DIFFERS: 0 and 3"):
            with self.subTest(other):
                status, out, wrong = self.against(other, "leaf-spine-2")
                self.assertEqual((status, wrong), (0, ""))
                head, line, last = out.splitlines()
                self.assertEqual(head.split(), ["case", "seconds", "MiB", "other", "MiB", "ratio", "size", "outputs"])
                self.assertRegex(line, r"^leaf-spine-2 +[0-9.]+ +[0-9]+ +[0-9.]+ +[0-9]+ +(?:[0-9.]+|-)  6 routers, 10 links, 3 cases, ")
                self.assertTrue(line.endswith(said), line)
                self.assertRegex(last, "^1 alike: [0-9.]+ times as long in the mean; more than 1.5 times: " if said == "alike" else "^no case ")

    def test_no_other(self):
        for words in ([], [""], ["no-such-program"]):
            self.assertEqual(self.against(*words)[0], 1)


if __name__ == "__main__":
    unittest.main()
