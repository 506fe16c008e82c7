"""What is wrong in a policy, by the fault that the program tells: the place, and words."""
from __future__ import annotations

from collections.abc import Callable, Iterator, Sequence

from texts.prefixes import PREFIX, Prefix
from texts.tokens import WORDS, Token, items, tokens

from .near import near
from .places import Text
from .said import NOTHING, Hint, said, said_at

SIGNS = {
    "&": "`and` joins two conditions.",
    "|": "`or` joins two alternatives.",
    "!": "`not` stands before what isn't to hold.",
    "-": "`=>` stands between prefixes and paths, and `>>` between a better path and a worse one. In a name `-` stands behind a letter.",
    ">": "`>>` stands between a better path and a worse one, and `=>` between prefixes and paths.",
    "<": "`le` gives the greatest length of a prefix; the better path stands on the left of `>>`.",
    "*": "`any` stands for any path and for all locations; there are no regular expressions.",
    ".": "`any` stands for any path and for all locations; there are no regular expressions.",
    "[": "Locations stand in round brackets behind a call, and in braces in a list.",
    "]": "Locations stand in round brackets behind a call, and in braces in a list.",
    ":": "Prefixes are IPv4: an IPv6 prefix isn't read. Items have no colon.",
    '"': "Names stand without quotes.",
    "'": "Names stand without quotes.",
    "/": "A comment runs from `#` to the end of its line.",
    "_": "A name begins with a letter.",
    "+": "`or` joins two patterns or two paths.",
}
# What others write, and what stands for it here.
OTHER_WORDS = {
    "ge": "There is no `ge`: `PREFIX le N` has the prefixes from the prefix's own length to N.",
    "via": "`through(S)` is a path that meets some location of S.",
    "waypoint": "`through(S)` is a path that meets some location of S.",
    "deny": "`drop` is no path.",
    "block": "`drop` is no path.",
    "permit": "`any` is any path.",
    "all": "`any` is any path or any location, and `true` all prefixes.",
    "else": "`a >> b`: `a` is better, and `b` will do where no path of `a` is left.",
    "prefer": "`a >> b`: `a` is better, and `b` will do where no path of `a` is left.",
}
MOST = {
    "definitions": "256 groups", "statements": "256 statements", "patterns": "16,384 patterns over all statements",
    "prefixes": "4,096 originate items", "origins": "16,384 pairs of a prefix and a router that originates it",
    "calls": "256 calls in a statement", "places": "256 places in a path",
}


def at_token(text: Text, token: Token, *says: str, near: Sequence[str] = ()) -> Hint:
    """Sentences on a token."""
    return said_at(text, token.at, len(token.text.encode()), *says, near=near)


def token_at(text: Text, place: int) -> tuple[Token | None, Token | None]:
    """The token at a place, and the one before it; None where there is none."""
    before = None
    for token in tokens(text.bytes):
        if token.at == place:
            return token, before
        before = token
    return None, before


def told_at(text: Text, place: int) -> Token:
    """The token at a place that the program tells."""
    return next(token for token in tokens(text.bytes) if token.at == place)


def named(text: Text, word: str) -> Iterator[Token]:
    """What stands behind each `define`, or behind each `originate`."""
    return (item[1] for item in items(tokens(text.bytes)) if item[0].text == word and len(item) > 1)


def sign_hint(text: Text, place: int) -> Hint:
    """A byte that means nothing, or a word that is too long."""
    token, _ = token_at(text, place)
    if token and token.kind == "name":
        return said_at(text, place, len(token.text), f"The name has {len(token.text)} bytes, and 32 are the most.")
    said = text.bytes[place:place + 1].decode("ascii", "replace")
    pair = text.bytes[place:place + 2].decode("ascii", "replace")
    length = 2 if pair in ("&&", "||", "->", "!=", "//", "/*") else 1
    if text.bytes[place] > 127:
        return said_at(text, place, 1, "Only a comment may hold letters that aren't ASCII.")
    return said_at(text, place, length, SIGNS.get(said, "That sign means nothing in a policy."))


def syntax_hint(text: Text, place: int) -> Hint:
    """A token with which no policy goes on."""
    token, before = token_at(text, place)
    if not token:
        still = "A bracket is still open." if is_open(text, place) else ""
        return said_at(text, place, 1, "The text ends here, and an item ends with `;`.", still)
    says, close = [], near(token.text, WORDS) if token.kind == "name" and token.text.lower() not in OTHER_WORDS else []
    if token.text.lower() in OTHER_WORDS:
        says.append(OTHER_WORDS[token.text.lower()])
    elif token.text == "=" and before and (before.kind == "figure" or before.text == "true"):
        says.append("`=>` stands between prefixes and paths.")
    elif token.text == "," and before and before.kind == "figure":
        says.append("`or` joins the patterns of a statement.")
    elif token.text == ">>" and before and (before.kind == "figure" or before.text == "true"):
        says.append("`=>` stands between prefixes and paths.")
    elif close:
        says.append(f"`{token.text}` is no word of the language.")
    elif token.text == "not":
        says.append("`not` stands before a call or a bracket, as `not (not any)`.")
    elif token.text in ("}", ")"):
        says.append("An empty list, a comma too many, or another bracket is still open.")
    elif token.text == ";" and is_open(text, place):
        says.append("A bracket is still open.")
    elif before and (before.kind in ("name", "word", "figure") or before.text in (")", "}")):
        says.append("Something is missing before it: mostly `;` at the end of an item, or `,` between names.")
    if before:
        says.append(f"Before it stands `{before.text}`, in line {text.line(before.at)}.")
    return at_token(text, token, *says, near=close)


def is_open(text: Text, place: int) -> bool:
    """Whether a bracket of the item is open at a place."""
    depth = 0
    for token in tokens(text.bytes[:place]):
        depth = 0 if token.text == ";" else depth + (token.text in ("(", "{")) - (token.text in (")", "}"))
    return depth > 0


def unknown_hint(text: Text, place: int, locations: Sequence[str]) -> Hint:
    """A name that is no location and no group above."""
    token, groups = told_at(text, place), list(named(text, "define"))
    below = next((name for name in groups if name.at > place and name.text == token.text), None)
    if below:
        return at_token(text, token, f"The group is defined below, in line {text.line(below.at)}: move its `define` up.")
    above = dict.fromkeys(name.text for name in groups if name.at < place)
    says = f"There is no location `{token.text}` in the topology, and no group of that name above."
    return at_token(text, token, says, near=near(token.text, [*locations, *above]))


def twice_hint(text: Text, place: int, locations: Sequence[str]) -> Hint:
    """A group whose name is taken."""
    token = told_at(text, place)
    if token.text in locations:
        return at_token(text, token, f"The topology has a location {token.text}: a group has another name.")
    first = next(name for name in named(text, "define") if name.text == token.text)
    return at_token(text, token, f"A group of that name is defined in line {text.line(first.at)}.")


def prefix_words(said: str) -> str:
    """Why a text is no prefix, and the one that it may have meant."""
    if ":" in said:
        return "That looks like IPv6: prefixes are IPv4."
    found = PREFIX.fullmatch(said)
    if not found:
        return "A prefix is four numbers from 0 to 255 joined by dots, then `/` and a length from 0 to 32, as 10.0.1.0/24."
    *parts, length = found.groups()
    if any(len(part) > 1 and part[0] == "0" for part in [*parts, length]):
        return "A number has a leading zero."
    if max(map(int, parts)) > 255:
        return "The four numbers are from 0 to 255."
    if int(length) > 32:
        return "The length is from 0 to 32."
    bits = sum(int(part) << 8 * (3 - place) for place, part in enumerate(parts))
    meant = bits >> 32 - int(length) << 32 - int(length)
    return f"A bit is set behind the first {length}: {Prefix(meant, int(length))} has this one in it." if bits != meant else ""


def prefix_hint(text: Text, place: int) -> Hint:
    """What is no prefix, or no length."""
    token, before = told_at(text, place), token_at(text, place)[1]
    if before and before.text == "le":
        return at_token(text, token, "Behind `le` stands a number from the prefix's own length to 32.")
    return at_token(text, token, prefix_words(token.text))


def origin_hint(text: Text, place: int, peers: Sequence[str]) -> Hint:
    """An origin that is a peer."""
    token = told_at(text, place)
    says = f"{token.text} is a peer" if token.text in peers else f"The group {token.text} has a peer"
    return at_token(text, token, f"{says}. Peers announce by themselves: only routers stand behind `at`.")


def originated_hint(text: Text, place: int) -> Hint:
    """A prefix that is originated twice."""
    token = told_at(text, place)
    first = next(prefix for prefix in named(text, "originate") if prefix.text == token.text)
    return at_token(text, token, f"It is originated in line {text.line(first.at)}: put all its routers into that item.")


def not_text_hint(text: Text) -> Hint:
    """Bytes that aren't UTF-8."""
    try:
        text.bytes.decode("utf-8")
    except UnicodeDecodeError as wrong:
        return said_at(text, wrong.start, 1, "The bytes aren't UTF-8: save the file as UTF-8. Outside of comments ASCII is enough.")
    return NOTHING


UNORDERED = "Under `or` and `not` a choice has no order: write the alternatives out, as `a or c >> b or c`."
# What is said of each fault that has a place in the text, by its word.
SAYS: dict[str, Callable[[Text, int, Sequence[str], Sequence[str]], Hint]] = {
    "token": lambda text, place, *_: sign_hint(text, place),
    "deep": lambda text, place, *_: said_at(text, place, 1, "64 brackets are open: write the expression flatter."),
    "syntax": lambda text, place, *_: syntax_hint(text, place),
    "unknown": lambda text, place, routers, peers: unknown_hint(text, place, [*routers, *peers]),
    "twice": lambda text, place, routers, peers: twice_hint(text, place, [*routers, *peers]),
    "prefix-bad": lambda text, place, *_: prefix_hint(text, place),
    "rank-under": lambda text, place, *_: said_at(text, place, 2, UNORDERED),
    "origin-peer": lambda text, place, _, peers: origin_hint(text, place, peers),
    "origin-twice": lambda text, place, *_: originated_hint(text, place),
}


def hint(text: Text, word: str, values: Sequence[str], routers: Sequence[str], peers: Sequence[str]) -> Hint:
    """What is said behind `propane: policy NUMBER WORD ..`."""
    if word == "not-text":
        return not_text_hint(text)
    if word == "too-many":
        return said(f"{values[1]} are too many: at most {MOST[values[0]]} are read. Split the policy, or use a group.")
    line, column = map(int, values[1].split(":"))
    begins = text.line_start(line)
    return NOTHING if begins is None else SAYS[word](text, begins + column - 1, routers, peers)
