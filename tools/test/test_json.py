"""Reports as JSON: each line of each report of examples/ is carried and can be written back, and a document is as the schema says."""
import json
import os
import tempfile
import unittest

from common import PROGRAM, TOP, ended, example_folders
from compared import ROWS
from reports.document import document_of, json_of, schema_text, text_of
from reports.forms import LINES, NO_REPORTS, forms_of

RUN = os.path.join(TOP, "tools", "run")
EXAMPLES = os.path.join(TOP, "examples")
PAGE = os.path.join(TOP, "docs", "JSON.md")


def reports():
    """The reports of examples/, and recorded comparisons: what each is called, its command, its status and its text."""
    yield from ((row.name, "compare", 0, row.text) for row in ROWS)
    for folder in example_folders():
        for name in sorted(os.listdir(os.path.join(EXAMPLES, folder))):
            path = os.path.join(EXAMPLES, folder, name.removesuffix(".stdout"))
            if name.endswith(".stdout"):
                command = read(f"{path}.args").split("\n")[0] if os.path.exists(f"{path}.args") else name.removesuffix(".stdout")
                if command not in NO_REPORTS:
                    yield f"{folder}/{name}", command, 7 if os.path.exists(f"{path}.status") else 0, read(f"{path}.stdout")


def read(path):
    with open(path, encoding="utf-8") as file:
        return file.read()


def is_of(value, shape, top):
    """Whether a value is as a schema says, as far as the one in docs/ goes."""
    if "$ref" in shape:
        return is_of(value, top["$defs"]["line"], top)
    if "anyOf" in shape:
        return any(is_of(value, each, top) for each in shape["anyOf"])
    if "const" in shape or "enum" in shape:
        return value in shape.get("enum", [shape.get("const")])
    kinds = shape["type"] if isinstance(shape["type"], list) else [shape["type"]]
    kind = {dict: "object", list: "array", str: "string", bool: "boolean", int: "integer", type(None): "null"}[type(value)]
    if kind not in kinds:
        return False
    if kind == "object":
        return set(value) == set(shape["required"]) and all(is_of(each, shape["properties"][key], top) for key, each in value.items())
    if kind == "array":
        is_long_enough = shape.get("minItems", 0) <= len(value) <= shape.get("maxItems", len(value))
        return is_long_enough and all(is_of(each, shape["items"], top) for each in value)
    return True


def all_lines(lines):
    for line in lines:
        yield line
        yield from all_lines(line.get("lines", []))


class Json(unittest.TestCase):
    def test_examples(self):
        """Each line is carried in a form of its own, and is written back."""
        schema, seen = json.loads(read(os.path.join(TOP, "docs", "report.schema.json"))), set()
        for name, command, status, text in reports():
            with self.subTest(name):
                document = json.loads(json_of(command, status, text))
                self.assertEqual(text_of(document), text)
                self.assertEqual(document, {
                    "propane": 1, "command": command, "format": 2 if command in ("promises", "whatif") else 1, "status": status, "lines": document["lines"]})
                self.assertNotIn("text", [line["kind"] for line in all_lines(document["lines"])])
                self.assertTrue(is_of(document, schema, schema))
                seen.add(command)
        self.assertEqual(set(LINES) - seen - {"version"}, set())

    def test_each_form(self):
        """Each form reads a line that it writes, and no other form of the command takes it for its own."""
        values = {"": "R", "#": 7, "?": 7, "!": 7, "~": True, "&": ["A", "B"], "*": ["A", "B", "C"], "^": "10.0.0.0/8 le 24",
                  "+": [1, 12], ",": [["10.0.0.0/8 le 24", "10.0.1.0/24"], ["A"]], "%": [["A", "B"], ["C", "D"]], "@": [["A", "B"], ["C", "D"]], "$": "exit(A) and not (drop)",
                  "/": [["10.0.0.0/8 le 24", "10.0.0.0/8"], ["10.0.1.0/25 le 32", "10.0.1.0/24"], ["10.0.2.0/26", "10.0.2.0/24"]]}
        for command in LINES:
            for form in forms_of(command):
                fields = {"kind": form.kind} | {field.name: field.choice[-1] if field.choice else values[field.sort] for field in form.fields}
                line = form.write(fields)
                self.assertIsNotNone(line, form.text)
                lines = [each for each in all_lines(document_of(command, 0, f"{line}\n")["lines"])]
                self.assertEqual([{key: value for key, value in each.items() if key != "lines"} for each in lines], [fields])
                self.assertEqual(text_of(document_of(command, 0, f"{line}\n")), f"{line}\n")

    def test_unknown_lines(self):
        for command in ("replay", "to-come"):
            document = document_of(command, 0, "a line to come\n")
            self.assertEqual(document["lines"], [{"kind": "text", "text": "a line to come"}])
            self.assertEqual(text_of(document), "a line to come\n")

    def test_page(self):
        """The page has each form, and the schema in docs/ is the one of the forms."""
        page = read(PAGE)
        self.assertEqual(read(os.path.join(TOP, "docs", "report.schema.json")), schema_text())
        for command in LINES:
            for form in forms_of(command):
                self.assertIn(f"| `{form.kind}` | `{form.shown()}` |", page, command)

    def test_runs(self):
        folder = os.path.join(EXAMPLES, "two-exits")
        words = ["topology.json", "policy.propane"]
        text = read(os.path.join(folder, "promises.stdout"))
        self.assertEqual(ended([RUN, PROGRAM, "--json", "promises", *words], cwd=folder), (0, json_of("promises", 0, text), ""))
        status, out, said = ended([RUN, PROGRAM, "--json", "check", *words, "edited-config.txt", "evidence.stdout"], cwd=folder)
        self.assertEqual((status, json.loads(out)["lines"][0]["line"], said), (7, 14, ""))
        with tempfile.TemporaryDirectory() as room:
            target = os.path.join(room, "report")
            for options in (["--output", target, "--json"], ["--json", "--output", target]):
                self.assertEqual(ended([RUN, PROGRAM, *options, "promises", *words], cwd=folder), (0, "", ""))
                self.assertEqual(read(target), json_of("promises", 0, text))
                self.assertEqual(os.listdir(room), ["report"])
                os.remove(target)

    def test_no_reports(self):
        line = "propane: usage: --json COMMAND WORD .., where COMMAND writes a report\n"
        for words in ([], ["compile", "t", "p"], ["help"]):
            self.assertEqual(ended([RUN, PROGRAM, "--json", *words]), (2, "", line))
        self.assertEqual(ended([RUN, PROGRAM, "--json", "replay", "none", "p", "s"]), (4, "", "propane: cannot read none\n"))
        self.assertEqual(ended([RUN, PROGRAM, "--json", "nothing"])[0], 2)
        with open("/dev/full", "w", encoding="utf-8") as full:
            self.assertEqual(ended([RUN, PROGRAM, "--json", "version"], stdout=full)[0], 5)


if __name__ == "__main__":
    unittest.main()
