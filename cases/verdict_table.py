"""Contracts of two variables with a function `f`, worked by hand: the notes, the acts, and what is said of the constructor, of `f`, of `(gift)` and of the contract."""

EQUAL = "/// @notice invariant a == b\n"
HELD = ("verified 1", "verified 1", "verified 1", "holds")

TABLE = [
    (EQUAL, "a = a + 1; b = b + 1;", *HELD),
    (EQUAL, "a = a + 1;", "verified 1", "unproved invariant 1 at end", "verified 1", "unheld"),
    (EQUAL, "a = b; b = a;", *HELD),
    (EQUAL, "b = 3; a = b + 0;", *HELD),
    ("", "a = a + 1;", "verified 0", "verified 0", "verified 0", "holds"),
    (EQUAL + "/// @notice invariant a == b + 1\n", "b = a;", "unproved invariant 2 at end", "unproved invariant 2 at end", "verified 2", "unheld"),
    (EQUAL, "a = a + 1; require(a == b);", *HELD),
    (EQUAL, "require(b == a + 1); a = a + 1;", *HELD),
    (EQUAL, "require(a == b + 1); a = a + 1;", "verified 1", "unproved invariant 1 at end", "verified 1", "unheld"),
]


def cases():
    """Each text with its name, what is due for it and the status."""
    for notes, acts, constructor, function, gift, last in TABLE:
        text = f"{notes}contract C {{ uint256 a; uint256 b; function f() public {{ {acts} }} }}"
        due = f"C.constructor: {constructor}\nC.f: {function}\nC.(gift): {gift}\nC: {last}\n"
        yield f"{notes}{acts}", text.encode(), due.encode(), 0 if last == "holds" else 1
