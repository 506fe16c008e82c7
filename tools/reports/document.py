"""A whole report as JSON, and the text that it was.

A line of a form that isn't known here is carried as it stands, as {"kind": "text", "text": "..."}: so what a later version of the
program writes is carried too.
"""
from __future__ import annotations

import json
from typing import Any

from .forms import ABOVE, LINES, NONE_ABOVE, format_of, forms_of
from .lines import Fields

EDITION = 1  # of the form of these documents


def document_of(command: str, status: int, text: str) -> Fields:
    """The report of a command that ended with a status."""
    forms = forms_of(command)
    upper, ends = ABOVE.get(command, NONE_ABOVE)
    lines: list[Fields] = []
    below = lines
    for line in text.splitlines():
        found: Fields = next((read for form in forms if (read := form.read(line)) is not None), {"kind": "text", "text": line})
        if found["kind"] == upper or found["kind"] in ends:
            below = lines
        below.append(found)
        if found["kind"] == upper:
            below = []
            found["lines"] = below
    return {"propane": EDITION, "command": command, "format": format_of(command), "status": status, "lines": lines}


def json_of(command: str, status: int, text: str) -> str:
    """The document as a text of JSON, with a line for each line of the report that stands below no other."""
    document = document_of(command, status, text)
    lines = document.pop("lines")
    head = json.dumps(document, separators=(",", ":"))[:-1]
    return head + ',"lines":[' + ",".join(f"\n{json.dumps(line, separators=(',', ':'), ensure_ascii=False)}" for line in lines) + "\n]}\n"


def text_of(document: Fields) -> str:
    """The text of which a document was made."""
    forms = forms_of(document["command"])

    def written(fields: Fields) -> str:
        line = fields["text"] if fields["kind"] == "text" else next(said for form in forms if (said := form.write(fields)) is not None)
        return f"{line}\n" + "".join(map(written, fields.get("lines", [])))

    return "".join(map(written, document["lines"]))


def schema_text() -> str:
    """The schema as docs/report.schema.json has it: a line for each form of a line."""
    whole = schema()
    shapes = whole.pop("$defs")["line"]["anyOf"]
    head = json.dumps(whole, indent=1)[:-2]
    return head + ',\n "$defs": {"line": {"anyOf": [\n' + ",\n".join(f"  {json.dumps(shape)}" for shape in shapes) + "\n ]}}\n}\n"


def schema() -> Fields:
    """The documents as JSON Schema (draft 2020-12) says them."""
    kinds: dict[str, list[Fields]] = {}
    for command in LINES:
        upper = ABOVE.get(command, NONE_ABOVE)[0]
        for form in forms_of(command):
            properties: dict[str, Any] = {"kind": {"const": form.kind}} | {field.name: field.schema() for field in form.fields}
            if form.kind == upper:
                properties["lines"] = {"type": "array", "items": {"$ref": "#/$defs/line"}}
            shape = {"type": "object", "properties": properties, "required": list(properties), "additionalProperties": False}
            if shape not in kinds.setdefault(form.kind, []):
                kinds[form.kind].append(shape)
    text = {"type": "object", "properties": {"kind": {"const": "text"}, "text": {"type": "string"}}, "required": ["kind", "text"],
            "additionalProperties": False}
    return {
        "$schema": "https://json-schema.org/draft/2020-12/schema",
        "title": "A report of propane, as propane --json writes it",
        "type": "object",
        "properties": {
            "propane": {"const": EDITION},
            "command": {"type": "string"},
            "format": {"type": "integer", "minimum": 1},
            "status": {"enum": [0, 7]},
            "lines": {"type": "array", "items": {"$ref": "#/$defs/line"}},
        },
        "required": ["propane", "command", "format", "status", "lines"],
        "additionalProperties": False,
        "$defs": {"line": {"anyOf": [shape for kind in sorted(kinds) for shape in kinds[kind]] + [text]}},
    }
