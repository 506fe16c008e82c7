"""The cases of a policy, as the program counts them.

They rest on what governs a prefix and not on the expressions. So `propane evidence` tells them of a policy all of whose statements
drop what they govern, which no policy is refused for.
"""
from __future__ import annotations

import json
from collections.abc import Callable, Sequence
from dataclasses import dataclass
from typing import Any

from .faults import Fault
from .policy import Policy


@dataclass(frozen=True)
class Case:
    """A case: its number, its statement's, its prefixes, and where its paths end. An external case has none of the prefixes told."""

    number: int
    statement: int
    prefixes: tuple[str, ...]
    origins: tuple[str, ...]
    external: bool


def case_of(number: int, held: Any, locations: Sequence[str]) -> Case:
    """A case as evidence has it."""
    origins = tuple(locations[place] for place in held["origins"])
    return Case(number, held["statement"], tuple(held["prefixes"]), origins, held["external"])


def cases_of(policy: Policy, locations: Sequence[str], evidence_of: Callable[[bytes], str]) -> list[Case]:
    """The cases of a policy. `evidence_of` gives what `propane evidence` writes of the text of one."""
    try:
        evidence = json.loads(evidence_of(policy.with_statements({})))
        return [case_of(number, each, locations) for number, each in enumerate(evidence["cases"], 1)]
    except (ValueError, KeyError, TypeError, IndexError) as error:
        raise Fault(f"evidence: not as it would be written: {error}") from error
