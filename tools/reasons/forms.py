"""How a network is drawn, for tools/picture and for the page of tools/open: one table of colours by how a router stands."""
from __future__ import annotations

from dataclasses import dataclass


@dataclass(frozen=True)
class Form:
    """A way to stand: its name, its words in a legend, and its colours on a light ground and on a dark one, a fill and an edge each.

    The edge is the colour of letters, too: on its fill it has the contrast that WCAG 2.1 asks for letters (AA, 4.5).
    """

    name: str
    said: str
    light: tuple[str, str]
    dark: tuple[str, str]


@dataclass(frozen=True)
class Line:
    """How a line between two locations is drawn: what it says, the lengths of its dashes and gaps in pixels (none: it is whole), its width."""

    said: str
    dashes: tuple[int, ...] = ()
    width: float = 1.6


FORMS = (
    Form("origin", "origin", ("#d7e4fb", "#2456b8"), ("#1b3059", "#86aefc")),
    Form("rank1", "rank 1", ("#d5efe2", "#0f6b45"), ("#143a2c", "#4cc793")),
    Form("rank2", "rank 2", ("#fbe9c4", "#845200"), ("#3d2f11", "#e8b04a")),
    Form("rank3", "rank 3", ("#fcdcc9", "#a8380b"), ("#43230f", "#ff935c")),
    Form("rank4", "rank 4 and worse", ("#f6d5e8", "#9c2a72"), ("#40182f", "#ee86c4")),
    Form("transit", "transit", ("#e6e9ed", "#525d6a"), ("#29323d", "#98a4b2")),
    Form("none", "no route", ("#fff4f3", "#b3261e"), ("#2d1919", "#ff8078")),
    Form("dead", "dead", ("#eceef1", "#626c79"), ("#1f262f", "#8591a0")),
)
BY_NAME = {form.name: form for form in FORMS}
LINES = {
    "link": Line("a link"),
    "gone": Line("a dead link", (5, 5)),
    "off": Line("a link with a dead end", (2, 5)),
    "hop": Line("the way to the next hop", width=3),
    "offer": Line("what a peer is offered", (7, 4), 2),
}
WORST = 4  # ranks that are worse are drawn as this one


def form_of(stands: str) -> Form | None:
    """The form of what a report says of a router: `rank 2`, `transit`, `origin`, `none` or `dead`; none for other words."""
    word, _, rank = stands.partition(" ")
    return BY_NAME.get(f"rank{min(int(rank), WORST)}" if word == "rank" else word)


def style() -> str:
    """The tables as a style sheet: a fill and an edge for each form, in both themes; dashes and a width for each line."""
    def block(selector: str, colours: list[tuple[str, tuple[str, str]]]) -> str:
        rows = "".join(f"  --{name}-fill: {fill}; --{name}: {edge};\n" for name, (fill, edge) in colours)
        return f"{selector} {{\n{rows}}}\n"

    lines = "".join(f"  --{name}-dashes: {' '.join(map(str, line.dashes)) or 'none'}; --{name}-width: {line.width};\n"
                    for name, line in LINES.items())
    return (block(":root", [(form.name, form.light) for form in FORMS])
            + block(':root[data-theme="dark"]', [(form.name, form.dark) for form in FORMS]) + f":root {{\n{lines}}}\n")
