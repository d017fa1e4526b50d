"""Whether the tokens of a text have a tree, plainly: the grammar is read from the text of docs/grammar.md, and a list of tokens
is followed through it in all ways at once. It serves to check the parsers, and the table of cases, on short texts.

A list of tokens begins one that has a tree exactly where some way through the grammar takes them all, since each left side
derives something. So the first token that no way takes is the fault's, and where all are taken and no way is at its end it
is the end of the text.
"""
import functools
import pathlib
import re

import plain_tokens

# ---- the grammar, from its text

TEXT = (pathlib.Path(__file__).resolve().parent.parent / "docs" / "grammar.md").read_text()
NOTHING = ("nothing",)
CLASSES = {"id", "number", "hexadecimal", "string", "elementary", "Pragma", "Note", "End"}


def then(a, b):
    return b if a == NOTHING else a if b == NOTHING else ("then", a, b)


def read_grammar(text):
    """The right side of each left side. A part is the name of a side, a class of tokens or a quoted word, all of them texts;
    or nothing, one part and then another, one of two, or any number of one."""
    marks = re.findall(r'"[^"]+"|\w+|[{}()\[\]|=]', text)
    at = 0

    def one():
        nonlocal at
        mark, at = marks[at], at + 1
        if mark in "{([":
            inner = either()
            assert marks[at] == {"{": "}", "(": ")", "[": "]"}[mark], marks[at - 9:at + 1]
            at += 1
            return {"{": ("many", inner), "(": inner, "[": ("or", NOTHING, inner)}[mark]
        assert mark not in "})]|=", marks[at - 9:at + 1]
        return mark

    def row():
        part = NOTHING
        while at < len(marks) and marks[at] not in "})]|" and marks[at + 1:at + 2] != ["="]:
            part = then(part, one())
        return part

    def either():
        nonlocal at
        part = row()
        while marks[at:at + 1] == ["|"]:
            at += 1
            part = ("or", part, row())
        return part

    sides = {}
    while at < len(marks):
        side, at = marks[at], at + 2
        assert marks[at - 1] == "=" and side not in sides, side
        sides[side] = either()
    return sides


SIDES = read_grammar(TEXT.split("```")[1])
QUOTED = set(re.findall(r'"([^"]+)"', TEXT.split("```")[1]))
NAMES = {"error", "revert", "value"}
RESERVED = set(re.search(r"the reserved words `([^`]*)`", TEXT).group(1).split())
ELEMENTARY = {"bool", "uint", "int"} | {kind + str(bits) for kind in ("uint", "int") for bits in range(8, 257, 8)}


def symbols(part):
    return {part} if isinstance(part, str) else {s for inner in part[1:] for s in symbols(inner)}


def derives_something(part, known):
    if isinstance(part, str):
        return part not in SIDES or part in known
    return part[0] in ("nothing", "many") or {"then": all, "or": any}[part[0]](derives_something(p, known) for p in part[1:])


def check_grammar():
    used = {s for part in SIDES.values() for s in symbols(part)}
    assert {s for s in used if s[0] != '"' and s not in SIDES} == CLASSES and set(SIDES) - used == {"Unit"}
    known = set()
    while more := {s for s in SIDES if s not in known and derives_something(SIDES[s], known)}:
        known |= more
    assert known == set(SIDES)


check_grammar()


def classes(kind, text):
    """What a token may stand for: a name such as `value` is also the quoted word."""
    if kind == "Word" and text not in QUOTED:
        return ("elementary",) if text in ELEMENTARY else () if text in RESERVED else ("id",)
    if kind in ("Word", "Punct"):
        return (f'"{text}"', "id") if text in NAMES else (f'"{text}"',)
    return ({"Number": "number", "Hex": "hexadecimal", "Str": "string"}.get(kind, kind),)


# ---- ways through the grammar

@functools.cache
def may_end(part):
    """Whether the part derives no token at all."""
    if isinstance(part, str):
        return part in SIDES and may_end(SIDES[part])
    return part[0] in ("nothing", "many") or {"then": all, "or": any}[part[0]](may_end(p) for p in part[1:])


@functools.cache
def ways(part):
    """The sides and classes that the part may begin with, each with what then follows in it. A side that derives no token
    may also be passed over."""
    if isinstance(part, str):
        return frozenset({(part, NOTHING)})
    if part[0] == "then":
        first = frozenset((symbol, then(rest, part[2])) for symbol, rest in ways(part[1]))
        return first | ways(part[2]) if may_end(part[1]) else first
    if part[0] == "or":
        return ways(part[1]) | ways(part[2])
    return frozenset((symbol, then(rest, part)) for symbol, rest in ways(part[1])) if part[0] == "many" else frozenset()


class State:
    """A left side and what is to come of it."""

    def __init__(self, side, rest):
        self.side, self.rest, self.ends = side, rest, may_end(rest)

    @functools.cached_property
    def steps(self):
        return [(symbol, state(self.side, rest)) for symbol, rest in ways(self.rest)]


@functools.cache
def state(side, rest):
    return State(side, rest)


class Point:
    """What stands behind some tokens: the sides that have begun, each with its state and the point where it began. `waiting`
    has them by the side or class that they may go on with, and `whole` tells whether the tokens have a tree."""

    def __init__(self, begun):
        self.waiting, self.whole = {}, False
        found = dict.fromkeys(begun)
        todo = list(found)
        while todo:
            now, origin = todo.pop()
            more = []
            if now.ends and origin is None:
                self.whole = True
            elif now.ends and origin is not self:
                more += origin.waiting.get(now.side, ())
            for symbol, after in now.steps:
                if symbol in SIDES and symbol not in self.waiting:
                    more.append((state(symbol, SIDES[symbol]), self))
                self.waiting.setdefault(symbol, []).append((after, origin))
            for item in more:
                if item not in found:
                    found[item] = None
                    todo.append(item)


START = Point([(state(None, "Unit"), None)])


@functools.lru_cache(maxsize=4000)
def next_point(point, token_classes):
    begun = [item for c in token_classes for item in point.waiting.get(c, ())]
    return Point(begun) if begun else None


def fault(tokens, end):
    """The offset of the fault of these tokens in a text that ends at `end`, or None where they have a tree."""
    point = START
    for kind, text, at in tokens:
        point = next_point(point, classes(kind, text))
        if point is None:
            return at
    return None if point.whole else end


# ---- texts

@functools.cache
def outcome(piece):
    found = plain_tokens.outcomes(piece)
    assert len(found) == 1, (piece, found)
    return found[0]


def tokens_of(pieces):
    """The tokens of the text that these pieces make, or its first fault, as plain_tokens.py gives them. Each piece is read by
    itself, which takes much less time than the whole; so each has to end where a token or a comment can't go on."""
    found, at = [], 0
    for piece in pieces:
        kind, what, *offset = outcome(piece)
        if kind == "fault":
            return kind, what, at + offset[0]
        found += [(token, text, at + offset) for token, text, offset in what]
        at += len(piece)
    return "tokens", found


def pieces_of(text):
    """Pieces of a text: the text itself where it may have a comment, a string or a pragma, and else its parts between blanks."""
    return [text] if set(text) & set("/'\"") or "pragma" in text else re.findall(r"\S+\s*|\s+", text)


def error_line(text, kind, offset):
    before = text[:offset]
    return "error %d:%d %s" % (before.count("\n") + 1, len(before) - before.rfind("\n"), kind)


def due(pieces):
    """The error line that is due for the text, which has no left-out token, isn't too deep and isn't of the first form."""
    text = "".join(pieces)
    kind, what, *offset = tokens_of(pieces)
    if kind == "fault":
        return error_line(text, what, offset[0])
    at = fault(what, len(text))
    return "error 1:1 Unbuilt" if at is None else error_line(text, "Syntax", at)
