"""Large texts, each with what is due for it, worked out as the text is made.

The contracts have 200 functions, 60 variables and 10 invariants. Each invariant is over six variables of its own, `a + b + c == d + e + f`,
and each function adds numbers to variables. So an invariant is true at a function's end exactly where the function adds as much to
its left side as to its right, and the first that isn't is told.
"""
FUNCTIONS, INVARIANTS, SIDE = 200, 10, 3


def name(first, number):
    """A name of five letters."""
    letters = ""
    for _ in range(4):
        letters = chr(ord("a") + number % 26) + letters
        number //= 26
    return first + letters


def sides(invariant):
    """The variables on the left and on the right of an invariant."""
    numbers = range(2 * SIDE * invariant, 2 * SIDE * (invariant + 1))
    names = [name("v", number) for number in numbers]
    return names[:SIDE], names[SIDE:]


def amounts(function):
    """What a function adds to each variable that it changes, in order: to both sides of up to eight invariants."""
    acts = []
    for step in range(1 + function % 8):
        left, right = sides((function + 3 * step) % INVARIANTS)
        amount = (function + 1) ** 7 * 10**step % 10**18
        acts += [(left[function % SIDE], amount), (right[step % SIDE], amount)]
    return acts


def broken(function):
    """What a function adds where each third of them adds one too much in its last act."""
    acts = amounts(function)
    if function % 3 == 0:
        variable, amount = acts.pop()
        acts.append((variable, amount + 1))
    return acts


def verdict(acts):
    """The verdict of a function that adds these amounts."""
    for number in range(INVARIANTS):
        left, right = sides(number)
        added = sum(amount for variable, amount in acts if variable in left)
        if added != sum(amount for variable, amount in acts if variable in right):
            return f"unproved invariant {number + 1} at end"
    return f"verified {INVARIANTS}"


def contract(acts_of):
    lines = [f"/// @notice invariant {' + '.join(left)} == {' + '.join(right)}" for left, right in map(sides, range(INVARIANTS))]
    lines += ["contract Large {"] + [f"    uint256 {name('v', number)};" for number in range(2 * SIDE * INVARIANTS)]
    for function in range(FUNCTIONS):
        acts = " ".join(f"{variable} = {variable} + {amount};" for variable, amount in acts_of(function))
        lines.append(f"    function {name('f', function)}() public {{ {acts} }}")
    return "\n".join([*lines, "}", ""]).encode()


def report(acts_of):
    told = [("constructor", [])] + [(name("f", function), acts_of(function)) for function in range(FUNCTIONS)] + [("(gift)", [])]
    verdicts = [(function, verdict(acts)) for function, acts in told]
    holds = all(said.startswith("verified") for _, said in verdicts)
    lines = [f"Large.{function}: {said}" for function, said in verdicts] + [f"Large: {'holds' if holds else 'unheld'}"]
    return "\n".join([*lines, ""]).encode(), 0 if holds else 1


def long_tokens(end):
    """A text of tokens of 100,000 bytes and more, up to where `end` stands, and the place there."""
    text = "/*" + "*" * 200_000 + "*/ contract " + "N" * 150_000 + " { string constant " + "s" * 100_000 + ' = "' + "x" * 250_000 + '"; uint256 n = ' + "9" * 120_000
    return (text + end).encode(), f"1:{len(text) + 1}"


def cases():
    """Each text with its name, what is due for it and the status."""
    yield "200 functions that keep 10 invariants over 60 variables", contract(amounts), *report(amounts)
    yield "200 functions of which each third breaks an invariant", contract(broken), *report(broken)
    text, place = long_tokens("} ")
    yield "long tokens and no semicolon", text, f"error {place} Syntax\n".encode(), 2
    text, place = long_tokens("#")
    yield "long tokens and a wrong byte", text, f"error {place} Char\n".encode(), 2
    text, _ = long_tokens("; }")
    yield "long tokens in a tree", text, b"error 1:1 Unbuilt\n", 2
