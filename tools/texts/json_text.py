"""Values of JSON texts, and objects that are read strictly."""
from __future__ import annotations

import json
from collections.abc import Callable, Set
from typing import Any

from .faults import Fault

Pairs = list[tuple[str, Any]]


class Object(dict[str, Any]):
    """An object of JSON that remembers a key that stands in it twice."""

    def __init__(self, pairs: Pairs) -> None:
        super().__init__(pairs)
        keys = [key for key, _ in pairs]
        self.twice = next((key for key in keys if keys.count(key) > 1), None) if len(self) < len(keys) else None


def json_value(text: str, what: str, object_of: Callable[[Pairs], Any] = dict) -> Any:
    """The value of a JSON text. `object_of` makes an object of its pairs of a key and a value."""

    def no_number(word: str) -> None:
        raise ValueError(f"{word} is no number of JSON")

    try:
        return json.loads(text, object_pairs_hook=object_of, parse_constant=no_number)
    except RecursionError:
        raise Fault(f"{what}: too many arrays and objects are open at once") from None
    except json.JSONDecodeError as error:
        raise Fault(f"{what}: line {error.lineno} column {error.colno}: not JSON: {error.msg}") from error
    except ValueError as error:
        raise Fault(f"{what}: not JSON: {error}") from error


def keyed(value: Any, needed: Set[str], allowed: Set[str], what: str) -> Object:
    """An object with these keys, each of them once."""
    if not isinstance(value, Object):
        raise Fault(f"{what}: no object")
    if value.twice is not None:
        raise Fault(f"{what}: the key {shown(value.twice)} stands twice")
    for key in sorted(needed - set(value)):
        raise Fault(f"{what}: the key `{key}` is missing")
    for key in sorted(set(value) - needed - allowed):
        raise Fault(f"{what}: no key that it may have: {shown(key)}")
    return value


def shown(value: Any) -> str:
    """A value of a text in a message, cut short: one line of printable characters, whatever was written."""
    text = json.dumps(value)
    return text if len(text) <= 60 else text[:57] + "..."
