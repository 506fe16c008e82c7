"""The policy: what is said of it at its places, repairs and names by a click, completion, and the file."""
from __future__ import annotations

import shutil
import tempfile

from paging import ABILENE, RING, WAYS, Paged, shown
from serving import text_of

SAME = """(()=>{const f=document.querySelector('textarea'),p=document.querySelector('.editor pre'),
lines=[...p.children].map(e=>e.textContent.replaceAll('\\u200b',''));
return [f.value===lines.join('\\n'),f.scrollHeight<=p.offsetHeight+1||f.scrollHeight===f.clientHeight,f.clientWidth===p.clientWidth]})()"""
OFFERED = "[...document.querySelectorAll('.completions:not([hidden]) li')].map(e=>e.firstChild.textContent)"


class Policy(Paged):
    def test_faults_stand_at_their_place(self) -> None:
        self.open(*ABILENE)
        self.write("# é😀\ntrue => exit(West >> Eest);\n")
        self.assertEqual(self.marked("fault", "|"), "Eest")
        self.assertIn("policy 5 unknown at 2:22", self.said("#says"))
        self.assertEqual(self.said("#verdict"), "not a policy yet")
        self.assertEqual(self.browser.eval(WAYS), [])  # no routes of another policy
        self.write("true => exit(West >> East);\n")
        self.assertEqual(self.said("#verdict"), "accepted")
        self.assertEqual(len(self.browser.eval(WAYS)), 11)
        self.assertEqual(self.marked("fault"), "")

    def test_a_near_name_is_taken_by_a_click(self) -> None:
        self.open(*ABILENE)
        self.write("# é😀\ntrue => exit(West >> Eest);\n")
        near = self.browser.eval("[...document.querySelectorAll('.near-name')].map(e=>e.textContent)")
        self.assertIn("East", near)
        self.click(f".near-name:nth-of-type({near.index('East') + 1})")
        self.assertEqual(self.policy(), "# é😀\ntrue => exit(West >> East);\n")
        self.assertEqual(self.said("#verdict"), "accepted")
        self.write("tru => any;\n")
        self.click(".near-name")
        self.assertEqual(self.policy(), "true => any;\n")

    def test_completion(self) -> None:
        self.open(*ABILENE)
        self.write("define WESTERN = { SNVA };\ntrue => ")
        self.letters("ex")
        self.assertEqual(self.browser.wait(OFFERED), ["exit"])
        self.browser.key("Tab")
        self.letters("We")
        self.assertEqual(self.browser.wait(OFFERED), ["West", "WESTERN"])
        self.browser.key("ArrowDown")
        self.browser.key("ArrowDown")
        self.browser.key("Enter", text="\r")
        self.letters(", W")
        self.browser.key("Escape")
        self.assertEqual(self.browser.eval(OFFERED), [])
        self.assertEqual(self.browser.eval("document.activeElement.tagName"), "TEXTAREA")
        self.letters("est")
        self.assertEqual(self.browser.eval(OFFERED), [])  # the whole name stands there
        self.letters("); # dr")
        self.assertEqual(self.browser.eval(OFFERED), [])  # a comment
        self.assertEqual(self.policy(), "define WESTERN = { SNVA };\ntrue => exit(WESTERN, West); # dr")
        self.browser.key("Escape")
        self.assertNotEqual(self.browser.eval("document.activeElement.tagName"), "TEXTAREA")

    def test_text_and_colours_lie_on_each_other(self) -> None:
        self.open(*ABILENE)
        self.write("define LONG = { " + ", ".join(["SNVA", "STTL", "LOSA"] * 12) + " };\n\ttrue => any;\n\n# end")
        self.assertEqual(self.browser.eval(SAME), [True, True, True])

    def test_refusal_is_mended_by_a_click(self) -> None:
        served = self.open(*RING)
        self.assertEqual(self.said("#verdict"), "refused")
        self.assertEqual(self.marked("fault"), "10.0.1.0/24 => through(W) >> any;")
        self.browser.wait("!!document.querySelector('.apply')", 120)
        self.assertIn("would have to like", self.said(".picture"))
        repair = self.said(".repair code")
        self.click(".apply")
        self.assertIn(repair, self.policy())
        self.assertEqual(self.said("#verdict"), "accepted")
        self.assertEqual(self.report(), shown(self.program(served, "replay", self.policy(), "10.0.1.0/24")))


class File(Paged):
    def setUp(self) -> None:
        room = tempfile.TemporaryDirectory()
        self.addCleanup(room.cleanup)
        self.file = shutil.copy(ABILENE[1], room.name)

    def save(self, text: str) -> None:
        """Another program writes the file."""
        with open(self.file, "w", encoding="utf-8") as file:
            file.write(text)

    def test_the_file_is_followed(self) -> None:
        self.open(ABILENE[0], self.file)
        self.save("true => exit(East);\n")
        self.browser.wait("document.querySelector('textarea').value==='true => exit(East);\\n'", 10)
        self.rest()
        self.assertEqual({str(row[3]).split()[-1] for row in self.report()[0]}, {"East"})
        self.write("true => any;\n")
        self.save("true => exit(West);\n")
        self.browser.wait("!document.querySelector('#changed').hidden", 10)
        self.assertEqual(self.policy(), "true => any;\n")
        self.click("#reload")
        self.assertEqual(self.policy(), "true => exit(West);\n")

    def test_an_edit_is_saved(self) -> None:
        self.open(ABILENE[0], self.file, words=("--save",))
        self.write("true => exit(East);\n")
        self.browser.click("#menu summary")
        self.browser.click("#menu-items button")
        self.browser.wait("document.querySelector('#toast').textContent==='saved'")
        self.assertEqual(text_of(self.file), "true => exit(East);\n")
        self.assertTrue(self.browser.eval("document.querySelector('#edited').hidden"))
