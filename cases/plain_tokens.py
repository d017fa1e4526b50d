"""The tokens of a text, plainly and slowly: all ways to write a text as pieces are tried, as the definitions of
crates/sv_lex/specs say, without a scanner. It serves to check the definitions, and the program, on small texts.

A piece is a space, a comment or a token. Which bytes may be one, and what may follow it, is told by `fits`. A text has a list
of tokens where it is pieces that fit; it has a first fault where pieces fit before a place at which none can stand.
"""
import re

MARKS = ("( ) [ ] { } ; , . ? : => = == != < > <= >= + - * / % ** ++ -- += -= *= /= %= && || ! "
         "& | ^ ~ << >> >>> &= |= ^= <<= >>= >>>=").split()
WORD = re.compile(r"[A-Za-z$_][A-Za-z0-9$_]*\Z")
DECIMAL = re.compile(r"(0|[1-9](_?[0-9])*)(e[0-9][0-9]?)?\Z")
HEX = re.compile(r"0x[0-9A-Fa-f](_?[0-9A-Fa-f])*\Z")
PRAGMA = re.compile(r"pragma(?![A-Za-z0-9$_])[^;]*\Z", re.S)
ANNOTATION = re.compile(r"@notice([ \t]+)(invariant|precondition|postcondition)[ \t]", re.S)


def is_string(text):
    if len(text) < 2 or text[0] not in "'\"" or text[-1] != text[0]:
        return False
    plain = "[ -!#-\\[\\]-~]" if text[0] == '"' else "[ -&(-\\[\\]-~]"
    unit = plain + r"|\\[nrt\\'\"]|\\x[0-9A-Fa-f]{2}|\\u[0-9A-Fa-f]{4}"
    return re.match("(?:%s)*\\Z" % unit, text[1:-1]) is not None


def begins_string(text):
    """Whether something can follow that makes a string: the ends of all escapes are tried."""
    return text != "" and text[0] in "'\"" and any(
        is_string(text + more + text[0]) for more in ("", "n", "0", "00", "000", "0000", "x00", "u0000")
    ) or is_string(text)


def word_follows(rest):
    return re.match("[A-Za-z0-9$_]", rest) is not None


def kinds(text):
    """The kinds of piece that these bytes can be."""
    if len(text) == 1 and text in " \t\r\n":
        yield "space"
    if text.startswith("//") and "\n" not in text:
        yield "line comment"
    if len(text) >= 4 and text.startswith("/*") and text.endswith("*/") and "*/" not in text[2:-2]:
        yield "block comment"
    if WORD.match(text) and text != "pragma":
        yield "Word"
    if DECIMAL.match(text):
        yield "Number"
    if HEX.match(text):
        yield "Hex"
    if is_string(text):
        yield "Str"
    if text in MARKS:
        yield "Punct"
    if PRAGMA.match(text):
        yield "Pragma"


def fits(kind, text, rest):
    if kind == "line comment":
        return rest == "" or rest[0] == "\n"
    if kind in ("Word", "Number", "Hex"):
        return not word_follows(rest)
    if kind == "Pragma":
        return rest.startswith(";")
    if kind == "Punct":
        return not any((text + rest).startswith(m) and len(m) > len(text) for m in MARKS + ["//", "/*"])
    return True


def pieces_at(text):
    """All pieces that the text can begin with."""
    for end in range(1, len(text) + 1):
        for kind in kinds(text[:end]):
            if fits(kind, text[:end], text[end:]):
                yield kind, text[:end]


def stuck(text):
    """The flaws that the text can begin with: kind, and how far behind its beginning."""
    found = []
    if text == "":
        return found
    if not (re.match("[ \t\r\n\"'A-Za-z$_0-9]", text) or any(m[0] == text[0] for m in MARKS)):
        found.append(("Char", 0))
    numerals = [n for n in range(1, len(text) + 1) if DECIMAL.match(text[:n]) or HEX.match(text[:n])]
    if numerals and word_follows(text[max(numerals):]):
        found.append(("Char", max(numerals)))
    for n in range(1, len(text) + 1):
        if begins_string(text[:n]) and not is_string(text[:n]):
            if n == len(text) or text[n] == "\n":
                found.append(("Unclosed", 0))
            elif not begins_string(text[:n + 1]):
                found.append(("Char", 0))
    if text.startswith("/*") and "*/" not in text[2:]:
        found.append(("Unclosed", 0))
    if re.match("pragma(?![A-Za-z0-9$_])", text) and ";" not in text:
        found.append(("Unclosed", 0))
    return found


def splits(text):
    """All lists of pieces that fit, with the rest that follows them."""
    todo, done = [([], text)], []
    while todo:
        pieces, rest = todo.pop()
        done.append((pieces, rest))
        todo += [(pieces + [p], rest[len(p[1]):]) for p in pieces_at(rest)]
    return done


def documentation(piece):
    """The lines of documentation that a comment has, and whether stars may stand before them."""
    kind, text = piece
    if kind == "line comment" and text.startswith("///") and not text.startswith("////"):
        return [text[3:]], False
    if kind == "block comment" and text.startswith("/**") and text != "/**/":
        return text[3:-2].split("\n"), True
    return [], False


def opening(line, starred):
    lead = re.match(r"[ \t]*\**[ \t]*" if starred else r"[ \t]*", line).group()
    found = ANNOTATION.match(line[len(lead):])
    return found and (len(lead) + found.start(2), found.group(2), len(lead) + found.end())


def among(at, pieces):
    tokens = []
    for kind, text in pieces:
        if kind not in ("space", "line comment", "block comment"):
            tokens.append((kind, text, at))
        at += len(text)
    return tokens


def line_outcomes(at, line, starred):
    found = opening(line, starred)
    if not found:
        return [("tokens", [])]
    word_at, word, content_at = found
    outcomes = []
    for pieces, rest in splits(line[content_at:]):
        here = at + content_at + sum(len(p[1]) for p in pieces)
        if rest == "":
            tokens = [("Note", word, at + word_at)] + among(at + content_at, pieces) + [("End", "", at + len(line))]
            outcomes.append(("tokens", tokens))
        outcomes += [("fault", kind, here + n) for kind, n in stuck(rest)]
    return outcomes


def in_a_row(steps):
    """The outcomes of one thing after another: all their tokens, or the first fault behind those that have tokens."""
    lists, faults = [[]], []
    for step in steps:
        if lists:
            faults += [o for o in step if o[0] == "fault"]
        lists = [before + o[1] for before in lists for o in step if o[0] == "tokens"]
    return [("tokens", tokens) for tokens in lists], faults


def piece_outcomes(at, piece):
    lines, starred = documentation(piece)
    steps, line_at = [[("tokens", among(at, [piece]))]], at + 3
    for line in lines:
        steps.append(line_outcomes(line_at, line, starred))
        line_at += len(line) + 1
    lists, faults = in_a_row(steps)
    return lists + faults


def outcomes(text):
    """Everything that the definitions say of a text: its lists of tokens, and its first faults."""
    found = []
    for pieces, rest in splits(text):
        steps, at = [], 0
        for piece in pieces:
            steps.append(piece_outcomes(at, piece))
            at += len(piece[1])
        lists, _ = in_a_row(steps)
        if steps and in_a_row(steps[:-1])[0]:
            found += [o for o in steps[-1] if o[0] == "fault"]
        if lists and rest == "":
            found += lists
        elif lists:
            found += [("fault", kind, at + n) for kind, n in stuck(rest)]
    return found
