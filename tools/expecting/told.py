"""What is printed of expectations, and the file for readers of JUnit's form."""
from __future__ import annotations

from collections.abc import Sequence
from xml.sax.saxutils import quoteattr

from texts.topology import Topology

from .judging import Verdict, name_of


def where(verdict: Verdict, topology: Topology) -> str:
    """Under which failures, in words."""
    failing = " and ".join(name_of(failure, topology) for failure in verdict.failures)
    return f"with {failing} down, " if failing else ""


def line_of(verdict: Verdict, topology: Topology) -> str:
    head = f"line {verdict.expectation.line}: {verdict.expectation.text}"
    over = f" ({verdict.tried} sets of failures)" if verdict.expectation.under.most else ""
    return f"holds {head}{over}" if verdict.holds else f"FAILS {head}\n      {where(verdict, topology)}{verdict.said}"


def junit(name: str, verdicts: Sequence[Verdict], topology: Topology, seconds: float) -> str:
    """The verdicts as a suite of tests, as JUnit writes them and pipelines read them."""
    failed = sum(not verdict.holds for verdict in verdicts)
    lines = ['<?xml version="1.0" encoding="UTF-8"?>',
             f'<testsuite name={quoteattr(name)} tests="{len(verdicts)}" failures="{failed}" errors="0" time="{seconds:.3f}">']
    for verdict in verdicts:
        head = f"<testcase classname={quoteattr(f'{name}:{verdict.expectation.line}')} name={quoteattr(verdict.expectation.text)}"
        said = quoteattr(where(verdict, topology) + verdict.said)
        lines.append(f"  {head}/>" if verdict.holds else f"  {head}><failure message={said}/></testcase>")
    return "\n".join([*lines, "</testsuite>", ""])
