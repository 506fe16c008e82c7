"""Where the statements stand whose changes `compare` tells, each as it was and as it is, and what the words of its report say."""
from __future__ import annotations

from collections.abc import Iterator, Sequence

from texts.comparison import Change, comparison_of
from texts.faults import Fault
from texts.policy import Statement, cut

from .places import Text
from .said import Hint, said, said_of

# What each word says of the routers and sessions below it. The names are those of the report.
MEANING = {
    "lost": "`lost`: the old policy permits walks there that the new one forbids.",
    "gained": "`gained`: the new policy permits walks there that the old one forbids.",
    "reordered": "`reordered`: both permit walks there that stand in another order now.",
    "unclaimed": "`unclaimed`: the old policy permits walks there, and the new one none.",
    "claimed": "`claimed`: the new policy permits walks there, and the old one none.",
    "replaced": "`replaced`: both permit walks there, and no walk is permitted by both.",
    "origins": "`origins`: other locations originate the prefix now.",
    "carriers lost": "`carriers lost`: no walk goes over these any more.",
    "carriers gained": "`carriers gained`: walks go over these now, and none did.",
    "walk": "`walk`: a walk that comes to a router twice. Where it stands, a path may have these ranks or none.",
}


def words_of(change: Change) -> Iterator[str]:
    """The words that a change has in the report, as they are told here."""
    for differs in change.differs:
        yield from differs.words
        yield from ["walk"] if any(not row.is_path for row in differs.rows) else []
    yield from ["origins"] if any(each.word for each in change.origins) else []
    yield from (f"carriers {each.word}" for each in change.carriers)


def meanings(changes: Sequence[Change]) -> list[str]:
    """What the words of changes say, each once."""
    found = {word for change in changes for word in words_of(change)}
    return [says for word, says in MEANING.items() if word in found]


def statements_of(text: Text) -> tuple[Statement, ...]:
    """The statements of a text that the program has read; none where it can't be cut here."""
    try:
        return cut(text.bytes).statements
    except Fault:
        return ()


def placed(text: Text, statements: Sequence[Statement], number: int | None, which: str, *says: str) -> Hint:
    """A statement of one of the two policies at its place, with further sentences; or that none governs the prefixes."""
    if number is None:
        return said(f"No statement of {text.name()} governs these prefixes.", *says)
    return said_of(text, statements[number - 1], f"Statement {number}, {which}.", *says)


def hints(report: str, old: Text, new: Text) -> Iterator[Hint]:
    """The two statements of each change at their places, each pair once, with what the words of its changes say."""
    pairs: dict[tuple[int | None, int | None], list[Change]] = {}
    for change in comparison_of(report).changes:
        pairs.setdefault((change.old, change.new), []).append(change)
    before, after = statements_of(old), statements_of(new)
    for (was, now), changes in pairs.items():
        if (was or 0) <= len(before) and (now or 0) <= len(after):
            yield placed(old, before, was, "old")
            yield placed(new, after, now, "new", *meanings(changes))


def pairs_hint(values: Sequence[str], old: Text, new: Text, *says: str) -> Hint:
    """What is said behind `refused 9 too-many-pairs statement S now S'`: the new statement at its place, and where the old one stands."""
    was, now = (None if word == "none" else int(word) for word in (values[1], values[3]))
    before, after = statements_of(old), statements_of(new)
    if (was or 0) > len(before) or (now or 0) > len(after):
        return said(*says)
    first = f"It is compared with statement {was}, at {old.place(before[was - 1].begins)}." if was else ""
    if now:
        return said_of(new, after[now - 1], f"Statement {now}, new.", first, *says)
    return said_of(old, before[was - 1], f"Statement {was}, old, is compared with none.", *says) if was else said(*says)
