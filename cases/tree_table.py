"""Texts and the line that is due for each, worked by hand from docs/grammar.md: which texts have a tree, and where the others
can't go on. The mark `^` is no part of a text. It stands before the first token such that the tokens up to it, and it, begin no
text with a tree; and at the end of the text where all its tokens begin one. A text without a mark has a tree. None of these is
of the first form, so `error 1:1 Unbuilt` is due."""

NOTE = "/// @notice invariant a\n"
PRE = "/// @notice precondition a\n"

# whole texts
UNITS = [
    # a unit
    ("no tokens", ""),
    ("comments alone", "// a\n/* b */"),
    ("each thing that a unit has", "pragma a; contract C1 {} interface I {} struct S { T a; } enum E { A } event F(); error G(); T constant a = 1;"),
    ("a pragma behind a contract", "contract C1 {} pragma a;"),
    ("a pragma in a contract", "contract C1 { ^pragma a; }"),
    ("a semicolon in a unit", "^;"),
    ("a function in a unit", "^function f() external {}"),
    ("a brace too many", "contract C1 {} ^}"),
    ("a statement in a unit", "a ^= 1;"),
    ("a name alone", "a^"),
    # constants of a file
    ("constants of a file", "uint256 constant a = 1; A.B[2] constant b = c; string constant d = 'e';"),
    ("a constant of a type named error, and one named error", "error constant e = 1; T constant error = 2;"),
    ("a variable of a file", "uint256 ^a = 1;"),
    ("a variable of a file of a type named error", "error e^;"),
    ("a constant of a file without a value", "uint256 constant a^;"),
    ("a constant of a file that ends in its value", "uint256 constant a = 1 +^"),
    # contracts
    ("an abstract contract", "abstract contract C1 {}"),
    ("notes before contracts", NOTE + PRE + "contract C1 {} " + NOTE + "abstract contract D {}"),
    ("contracts named error, revert and value", "contract error {} contract revert is value {} contract value {}"),
    ("an interface with bases", "interface I is J, K { function f(uint256 a) external returns (bool); }"),
    ("bases with and without arguments", "contract C1 is A, B(), C(1, a), D({x: 1}) {}"),
    ("a contract without a name", "contract ^{}"),
    ("a contract named by a unit", "contract ^days {}"),
    ("a contract without a body", "contract C1^;"),
    ("an abstract interface", "abstract ^interface I {}"),
    ("bases that end in a comma", "contract C1 is A, ^{}"),
    ("a base with a dot", "contract C1 is A^.B {}"),
    ("a note before an interface", NOTE + "^interface I {}"),
    ("a note before a struct", NOTE + "^struct S { T a; }"),
    ("a note behind abstract", "abstract /// @notice ^invariant a\ncontract C1 {}"),
    ("a contract in a contract", "contract C1 { ^contract D {} }"),
    # the end of the text
    ("the end behind a contract's name", "contract C1^"),
    ("the end in a contract, behind a line", "contract C1 {\n    uint256 a;\n^"),
    ("the end in a contract, behind a comment", "contract C1 { // }^"),
    ("the end behind a note", NOTE + "^"),
    ("the end of a note at the end", "/// @notice invariant a^"),
    ("the end in a note at the end", "/// @notice invariant a ==^"),
    ("the end in an event", "event E(T indexed^"),
    ("the end in parameters", "contract C1 { function f(T^"),
    ("the end in a function's words", "contract C1 { function f() public override^"),
    ("the end in a function", "contract C1 { function f() external {^"),
    ("the end behind an if", "contract C1 { function f() external { if (a)^"),
    ("the end in a for", "contract C1 { function f() external { for (;^"),
    ("the end in a tuple", "contract C1 { function f() external { (a,^"),
    ("the end in the values of a return", "contract C1 { function f() external { return (a,^"),
    ("the end behind revert and a name", "contract C1 { function f() external { revert E^"),
    ("the end in a choice", "contract C1 { T a = b ?^"),
    ("the end behind new", "contract C1 { T a = new^"),
    ("the end behind 61 of 62 blocks", "contract C1 { function f() external { " + "{" * 62 + "}" * 61 + " } }^"),
    # notes in block comments
    ("notes in a block comment", "/** @notice invariant a\n  * @notice precondition b */ contract C1 {}"),
    ("a note that ends at its line", "/** @notice invariant a ==^\n  * @notice precondition b */ contract C1 {}"),
    ("a note that ends at its comment", "/** @notice invariant a + ^*/ contract C1 {}"),
]

# the expression of a note before a contract
NOTES = [
    ("an invariant", "a == __verifier_sum_uint(b) // as it stands"),
    ("an invariant without an expression", "^"),
    ("an invariant that ends early", "a ==^"),
    ("an invariant that goes on on the next line", "a ==^\n/// b"),
    ("an invariant of two expressions", "a ^b"),
    ("an invariant that assigns", "a ^= b"),
    ("a declaration in a note", "uint256 ^a"),
]

# what a contract has
PARTS = [
    # variables
    ("each word of a variable", "T public private internal constant immutable override override(A, B) a = 1;"),
    ("each plain type", "bool a; uint b; int c; uint8 d; int256 e; address f; address payable g; string h; T i; T.U j; mapping(A => B) k;"),
    ("array types", "uint256[] a; T.U[2][b + 1] c; mapping(A => T[])[] d;"),
    ("mappings with names", "mapping(address a => mapping(A => T.U b) c) m;"),
    ("a type named uint264", "uint264 a;"),
    ("variables named error, revert and value", "T error; T revert; T value;"),
    ("a variable without a semicolon", "uint256 a^"),
    ("a variable without a name", "uint256 ^;"),
    ("a variable named by a keyword", "uint256 ^type;"),
    ("a variable named by an elementary type", "uint256 ^int8;"),
    ("a variable with a location", "T ^memory a;"),
    ("a word behind a variable's name", "T a ^public;"),
    ("two variables in one declaration", "T a^, b;"),
    ("a length that isn't closed", "T[2 ^a;"),
    ("a type of three names", "T.U^.V a;"),
    ("a dot behind an elementary type", "uint256^.T a;"),
    ("a mapping without an arrow", "mapping(A^, B) m;"),
    ("a mapping to nothing", "mapping(A => ^) m;"),
    # structs, enums, events, errors
    ("structs", "struct S { T a; } struct U { mapping(A => B.C) a; S[] b; }"),
    ("a struct without fields", "struct S {^}"),
    ("a semicolon behind a struct", "struct S { T a; }^;"),
    ("a field without a semicolon", "struct S { T a^ }"),
    ("enums", "enum E { A } enum F { A, error, value }"),
    ("an enum that ends in a comma", "enum E { A, ^}"),
    ("events", "event E(); event F(T indexed a, address, T.U indexed, string b) anonymous;"),
    ("an event's parameter with a location", "event E(string ^memory a);"),
    ("indexed behind a name", "event E(T a ^indexed);"),
    ("an event without a semicolon", "event E()^"),
    ("errors", "error E(); error F(T a, address, T.U b); error error(error error);"),
    ("variables of a type named error", "error e; error[2] public f = g; error.E h;"),
    ("an error's parameter that is indexed", "error E(T ^indexed a);"),
    ("an error without a name", "error ^();"),
    ("an error with a block", "error E ^{}"),
    # functions
    ("each word of a function", "function f() public private internal external pure view payable virtual override override(A, B) m n(1) error {}"),
    ("parameters and results", "function f(T, T storage a, string calldata, mapping(A => B) storage c) returns (T, bool memory, T.U calldata d) {}"),
    ("no results in brackets", "function f() returns () {}"),
    ("a function with notes and no body", PRE + PRE + "function f() external;"),
    ("functions named error, revert and value", "function error() {} function revert() {} function value() {}"),
    ("a function without body or semicolon", "function f() external^"),
    ("a function with a body and a semicolon", "function f() external {}^;"),
    ("a function without a name", "function ^() external payable {}"),
    ("a function named by a keyword", "function ^receive() external payable {}"),
    ("a word behind the results", "function f() returns (T) ^public {}"),
    ("a function that is constant", "function f() ^constant {}"),
    ("a modifier of another contract", "function f() A^.m {}"),
    ("parameters that end in a comma", "function f(T a, ^) {}"),
    ("a parameter with two names", "function f(T a ^b) {}"),
    ("an empty override", "function f() override(^) {}"),
    ("an override of a member", "function f() override(A^.B) {}"),
    # constructors, receive, fallback, modifiers
    ("constructors", "constructor(T a) public payable A(a) B m {} " + NOTE + "constructor() {}"),
    ("a constructor without a body", "constructor()^;"),
    ("a constructor with results", "constructor() ^returns (T) {}"),
    ("receive and fallback", "receive() external payable {} " + PRE + "fallback() external m(1) override {}"),
    ("a receive with a parameter", "receive(^T a) external payable {}"),
    ("a fallback with results", "fallback() external ^returns (T) {}"),
    ("modifiers", "modifier m { _; } modifier n() virtual { _; } modifier o(T a, T memory b) override(A) override virtual { _; }"),
    ("a modifier that is public", "modifier m() ^public { _; }"),
    # notes that have no place, and what else has none
    ("a note before a variable", NOTE + "^T a;"),
    ("a note before a modifier", NOTE + "^modifier m { _; }"),
    ("a note at the end of a contract", NOTE + "^"),
    ("a statement in a contract", "a ^= 1;"),
    ("a block in a contract", "^{}"),
]

# statements of a function
STATEMENTS = [
    ("a function without statements", ""),
    ("blocks", "{} {{} a;} unchecked { a++; unchecked {} }"),
    ("unchecked without a block", "unchecked ^a++;"),
    ("a semicolon in a block", "^;"),
    ("a missing semicolon before a brace", "a = 1^"),
    ("a missing semicolon before a statement", "a = 1 ^b = 2;"),
    # if
    ("ifs with and without braces", "if (a) {} if (a) b; if (a) {} else {} if (a) b; else c; if (a) T memory b; else uint256 c = 1;"),
    ("a chain of else if", "if (a) {} else if (b) c; else if (d) {} else e;"),
    ("an else without an if", "^else {}"),
    ("an else behind an else", "if (a) {} else {} ^else {}"),
    ("an if as a body", "if (a) ^if (b) c;"),
    ("a loop as a body", "if (a) {} else ^for (;;) {}"),
    ("unchecked as a body", "if (a) ^unchecked {}"),
    ("a body without a semicolon", "if (a) b ^else c;"),
    ("a semicolon as a body", "if (a)^;"),
    ("an if without brackets", "if ^a {}"),
    ("a condition that declares", "if (uint256 ^a) {}"),
    # loops
    ("whiles", "while (a) {} while (a) b; " + NOTE + NOTE + "while (c) {}"),
    ("a note before a statement", NOTE + "^b = 1;"),
    ("a note behind while", "while /// @notice ^invariant a\n(b) {}"),
    ("a note at the end of a block", NOTE + "^"),
    ("fors with all parts, with none, and with two", "for (T i = 0; i < n; i++) {} for (;;) a; for (; b; c = d) {} for (delete a; ; delete c) {} for (a; b; ) {}"),
    ("a for with notes", NOTE + NOTE + "for (T memory i; i < n; i += 2) a;"),
    ("a for with two first parts", "for (i = 0^, j = 0; ; ) {}"),
    ("a for with one semicolon", "for (i = 0; i < n^) {}"),
    ("a for that begins with a tuple", "for ((a^, b) = c; ; ) {}"),
    ("a for whose condition assigns", "for (; a ^= b; ) {}"),
    ("a for that ends with a declaration", "for (;; T ^i) {}"),
    # simple statements
    ("break, continue and the placeholder", "break; continue; _;"),
    ("emits", "emit E(); emit E(a, 1); emit E({x: a}); emit error();"),
    ("an emit without brackets", "emit E^;"),
    ("an emit of a member", "emit A^.E();"),
    ("reverts with an error", "revert E(); revert E(a); revert E({x: 1}); revert revert();"),
    ("revert as a name", "revert(); revert('a'); revert (E()); revert; revert = 1; revert.a++;"),
    ("revert as a type", "revert x; revert x = 1; revert[2] memory y; revert.E z;"),
    ("a revert with a member", "revert A^.E();"),
    ("a revert that goes on", "revert E()^.a;"),
    ("returns", "return; return a; return (a); return (a) + b; return (a, b); return (a, b + 1, (c));"),
    ("a return of two values without brackets", "return a^, b;"),
    ("a return of empty brackets", "return (^);"),
    ("a return of values that end in a comma", "return (a, ^);"),
    ("a return of values that go on", "return (a, b) ^+ c;"),
    ("a return of values in two brackets", "return ((a^, b));"),
    # declarations, and expressions that begin like them
    ("declarations", "uint256 a; T a = 1; T.U[] storage a; address payable a; string calldata a; mapping(A => B) storage a = b;"),
    ("elementary types as values", "uint256; uint256[1]; address; payable;"),
    ("an array type alone", "uint256[]^;"),
    ("string alone", "string^;"),
    ("an array type and an index", "a[1] b; a[1] = b; a[1]; a[1][2] memory b; a[1][2].b = c; a[] b;"),
    ("a type of two names and a member", "a.b c; a.b = c; a.b; a.b(); a.b[1] c; a.b[1] = c; a.b.c = d;"),
    ("an array type that is assigned", "a[] ^= b;"),
    ("a member of an index as a type", "a[1].b ^c;"),
    ("a type of three names in a function", "a.b.c ^d;"),
    ("a call as a type", "a() ^b;"),
    ("a name in brackets as a type", "(a) ^b;"),
    ("a declaration with two names", "T a ^b;"),
    ("a declaration that adds", "T a ^+= 1;"),
    ("a declaration without a value", "T a = ^;"),
    ("an error in a function", "error E^(T a);"),
    ("a struct in a function", "^struct S { T a; }"),
    # tuples, and expressions in brackets
    ("tuples of names and declarations", "(a, b) = c; (T a, T memory b) = c; (a.b c, d[1] storage e, f) = c; (error e, value) = c;"),
    ("tuples with empty slots", "(T a, ) = b; (, a) = b; (, ) = b; (, , a, ) = b;"),
    ("expressions in brackets", "(a) = 1; (a)[1] = b; (a).b(); (a)++; (a ? b : c).d += e;"),
    ("a tuple of one slot", "(T a^) = b;"),
    ("a tuple without slots", "(^) = a;"),
    ("a tuple of members", "(a.b^, c) = d;"),
    ("a tuple of elements", "(a[1]^, b) = c;"),
    ("a tuple in brackets", "((a^, b)) = c;"),
    ("a tuple that isn't assigned", "(a, b)^;"),
    ("a tuple as a value", "(a, b) = (c^, d);"),
    # actions
    ("assignments and deletes", "a = 1; a += 1; a -= 1; a *= 1; a /= 1; a %= 1; a + b = c; delete a; delete a[1].b;"),
    ("an assignment in an assignment", "a = b ^= c;"),
    ("an assignment in brackets", "a = (b ^= c);"),
    ("an assignment without a value", "a += ^;"),
    ("a delete of nothing", "delete ^;"),
    ("a delete as a value", "a = ^delete b;"),
    ("a brace behind a name", "a {^ b; }"),
]

# the value of a variable
EXPRESSIONS = [
    # operators
    ("each binary operator", "a || b && c == d != e < f > g <= h >= i + j - k * l / m % n ** o"),
    ("unary operators", "-a - -b * !!c / ++d + --e++ - - ! ++ -- f[1].g"),
    ("choices in choices", "a ? b ? c : d : e ? f : g || h"),
    ("powers", "a ** b ** c[1] * d++ ** (-e) ** 2"),
    ("a minus before the base of a power", "-a ^** b"),
    ("a negation before the base of a power", "a * !b.c ^** d"),
    ("a minus before an exponent", "a ** ^-b"),
    ("an operator without its right side", "a + ^"),
    ("an operator without its left side", "^* a"),
    ("two operators in a row", "a + ^* b"),
    ("two minuses without a blank", "a--^b"),
    ("a choice without its colon", "a ? b^"),
    ("a choice of nothing", "a ? ^: b"),
    # suffixes and arguments
    ("suffixes", "a[1].b(c, d){value: 1}()++--.e[2] + 3.f + f{value: a}{value: b ? c : d}"),
    ("value, error and revert as names", "value + value(error)[revert].value.error.revert{value: value}({value: value, error: revert})"),
    ("named arguments", "f({}) + g({a: 1}) + h({a: 1, b: c ? d : e})"),
    ("an empty index", "a[^]"),
    ("a bracket that isn't closed", "a[1^"),
    ("a dot without a name", "a.^"),
    ("a keyword as a member", "a.^days"),
    ("a fraction", "1.^5"),
    ("arguments that end in a comma", "f(1, ^)"),
    ("a named argument without a colon", "f({a ^1})"),
    ("a named argument without a value", "f({a: ^})"),
    ("named arguments that end in a comma", "f({a: 1, ^})"),
    ("named arguments without the last bracket", "f({a: 1}^"),
    ("a named argument behind another", "f(1, ^{a: 2})"),
    ("gas for a call", "f{^gas: 1}()"),
    ("value and gas for a call", "f{value: 1^, gas: 2}()"),
    # atoms
    ("literals", "1 + 1_0e18 + 0x1_F + 'a' + \"b\" + true + false"),
    ("units", "1 wei + 1 gwei + 1 ether + 1 seconds + 1 minutes + 1 hours + 1e2 days + 1 weeks"),
    ("types and names as values", "uint256(a) + address(b) + payable(c) + T.U(d) + this.e + super.f() + _a + $"),
    ("types of a type", "type(uint256).max + type(T.U) + type(mapping(A => B)[]).a + type(address payable)"),
    ("new with each type", "new A() + new A.B(1) + new T[][](2) + new string(3) + new address payable[2][](4) + new mapping(A => B)[](5) + new A"),
    ("new with what follows its type", "new A{value: 1}(2) + new a.b.c(3)[4] + new a[1].b[2] + new uint256.c++"),
    ("a unit behind a hexadecimal number", "0x1 ^days"),
    ("two units", "1 days ^hours"),
    ("a unit that there isn't", "1 ^years"),
    ("two strings in a row", "'a' ^'b'"),
    ("string as a value", "^string(a)"),
    ("the type of a sum", "type(a ^+ b)"),
    ("new of a number", "new ^1"),
    ("an empty index behind a member of what is new", "new a.b.c[^]"),
    ("an empty index behind what is new", "new a[](1)[^]"),
    ("empty brackets", "(^)"),
    ("a bracket too many", "(a)^)"),
    ("a list as a value", "^[1, 2]"),
    ("a keyword as a value", "^memory"),
    ("a reserved word as a value", "^var"),
    ("an underscore as a value", "^_"),
]

# values that go deep, or are long
LONG = [
    ("63 brackets in a brace", "(" * 63 + "1" + ")" * 63),
    ("63 brackets of which one isn't closed", "(" * 63 + "1" + ")" * 62 + "^"),
    ("63 indexes", "a[" * 63 + "1" + "]" * 63),
    ("63 news", "new a[" * 63 + "1" + "]" * 63),
    ("63 news of which the last is empty", "new a[" * 62 + "new^" + "]" * 62),
    ("990 unary operators", "- ! " * 495 + "a"),
    ("990 unary operators without an operand", "- ! " * 495 + "^"),
    ("480 powers and a sum", "a ** " * 480 + "a + -a ^** a"),
    ("240 choices", "a ? a : " * 240 + "a"),
    ("240 choices without the last colon", "a ? a : " * 240 + "a ? a^"),
]

# statements that go deep
DEEP = [
    ("62 blocks in two braces", "{" * 62 + "}" * 62),
    ("61 ifs in two braces", "if (a) {" * 61 + "b;" + "}" * 61 + " else c;"),
    ("62 brackets behind a name", "a[" * 62 + "1" + "]" * 62 + " b; " + "a[" * 62 + "1" + "]" * 62 + " = b;"),
    ("1,000 times else if", "if (a) b; " + "else if (a) b; " * 1000 + "else c; ^else d;"),
    ("62 mappings", "mapping(A => " * 62 + "B" + ")" * 62 + " storage a;"),
]


def row(name, text):
    """The row's name, its text without the mark, and its line."""
    front, mark, rest = text.partition("^")
    if not mark:
        return name, text.encode(), "error 1:1 Unbuilt"
    front += rest[:len(rest) - len(rest.lstrip(" "))]
    line, column = front.count("\n") + 1, len(front) - front.rfind("\n")
    return name, text.replace("^", "").encode(), f"error {line}:{column} Syntax"


def within(before, behind, rows):
    return [row(name, before + text + behind) for name, text in rows]


# refusals that count before these
EARLIER = [
    ("a wrong byte behind a token that can't stand", b"; 08", "error 1:4 Char"),
    ("a left-out word behind a token that can't stand", b"; library", "error 1:3 Out"),
    ("a left-out operator in what has no tree", b"contract C1 { T a = 1 & 2 3; }", "error 1:23 Out"),
    ("depth behind a token that can't stand", b"; " + b"(" * 65, "error 1:67 Deep"),
    ("the depth of a bracket that has a place", b"contract C1 { T a = " + b"(" * 64 + b"1" + b")" * 64 + b"; }", "error 1:84 Deep"),
    ("1,001 tokens that have a tree", b"contract C1 { T a = " + b"- " * 996 + b"1; }", "error 1:2014 Deep"),
]

# name, text, the line without its newline
CASES = (
    within("", "", UNITS)
    + within("/// @notice invariant ", "\ncontract C1 {}", NOTES)
    + within("contract C1 { ", " }", PARTS)
    + within("contract C1 { function f() external { ", " } }", STATEMENTS + DEEP)
    + within("contract C1 { T a = ", "; }", EXPRESSIONS + LONG)
    + EARLIER
)
