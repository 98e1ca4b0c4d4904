#!/usr/bin/env python3
"""Compares which units are read as C with what gcc says of them.

It makes 500 units: small C files that are right, some in which a typedef name stands as the name of an object or the other
way round, and such files with one token left out, put twice, put in the place of another, put between two or moved, or with
one place written as a rule of the list below has it. It asks `gcc -fsyntax-only -std=c11 -pedantic-errors` and the program
`crates/ct_show` whether each is a unit, and prints how many answers agree, how many units differ by each rule of the list
below, and each unit that differs by none of them, or is taken where a rule refuses it; the status is then 1. Of gcc's errors
those count that speak of the grammar: the others, as of undeclared names and of types, are of what comes behind it. Without
gcc it says so and ends with 0. It is no test of `rt ci`.

Taken here, and refused by gcc:
- an empty initialiser: `{ }`;
- a lone semicolon: `;` as an external declaration;
- a label before a declaration, where C11 has statements alone;
- a label before a closing brace, that of a `switch`;
- a storage class in a type name or a member, which is a matter of types here;
- a definition of what is no function: the grammar of C11 takes it, and a constraint refuses it (6.9.1p2).

Refused here, and read by gcc:
- a declaration without a type word, as `static x;`, which C11 6.7.2p2 refuses, too;
- a member without declarator, that of a struct without tag among them;
- a bit-field;
- a star alone in brackets;
- a qualifier or `static` in brackets;
- a list of names for parameters;
- a label other than case and default;
- a label outside the braces of a switch: `case` and `default` stand right in them alone;
- a switch without braces.

Refused here by what they stand with, and read by gcc:
- a typedef among parameters, whose name is then one of a type, where gcc has an object;
- an assignment to what is no unary expression, as `x + y = 1`, which C11 6.5.16 refuses, too;
- a step before what is no unary expression, as `++(int)x`, which C11 6.5.3 refuses, too.

Compound literals, several designators in one item and the words of the left-out part of the language (`float`, `union`,
`goto` and others) are in no unit."""
import os
import random
import re
import shutil
import subprocess
import sys
import tempfile

CASES = 500
GRAMMAR = re.compile(
    r"^expected|at end of input|stray|two or more data types|both .* and .* in declaration specifiers|"
    r"duplicate '(signed|unsigned|short)'|is too long|'else' without|extra semicolon in struct|unknown type name|"
    r"struct has no members|no semicolon at end of struct|empty enum|forward parameter declarations|nested functions|"
    r"braced-groups|omitting the (middle term|string)|address of a label|obsolete use of designated initializer"
)


def balanced(opened, closed):
    """The pattern of what stands between two marks, in which they come in pairs."""
    other = f"[^{opened}{closed}]"
    inside = f"{other}*"
    for _ in range(10):
        inside = f"(?:{other}|{opened}{inside}{closed})*"
    return inside


ROUND = r"\( " + balanced(r"\(", r"\)") + r"\)"
BLOCK = r"(?:[;{}:]|\belse|\bdo|\b(?:if|while|for) " + ROUND + r") \{" + balanced(r"\{", r"\}")
STORAGE = r"(?:typedef|extern|static)\b"
# What is taken here and refused by gcc, by its messages.
TAKEN = [
    ("an empty initialiser", r"empty initializer braces"),
    ("a lone semicolon", r"does not allow extra ';' outside of a function"),
    ("a label before a declaration", r"a label can only be part of a statement"),
    ("a label before a closing brace", r"label at end of compound statement"),
]
# The same, by the unit's text, where gcc's message has no word for it.
TAKEN_TEXT = [
    ("a storage class in a type name or a member", rf"\bstruct (?:\w+ )?\{{[^{{}}]*\b{STORAGE}|\( (?:\w+ )*{STORAGE}[^(),;=]*\)"),
    ("a definition of what is no function", r"(?:^|[;}] )(?:\w+ )*(?:int|t) (?:\* )*\w+ \{"),
]
# What is refused here and read by gcc, by its messages, warnings among them.
REFUSED = [
    ("a declaration without a type word", r"has no type or storage class|type defaults to|(?<!in )empty declaration"),
    ("a member without declarator", r"declaration does not declare anything"),
    ("a star alone in brackets", r"'\[\*\]' not allowed"),
    ("a list of names for parameters", r"parameter names \(without types\)|old-style parameter declarations"),
    ("a label other than case and default", r"label '\w+' defined but not used|duplicate label"),
    ("a label outside the braces of a switch", r"(?:case|'default') label not within a switch"),
]
# The same, by the unit's text, where gcc says nothing.
REFUSED_TEXT = [
    ("a member without declarator", r"[;{] struct \{[^{}]*\} ; [^{}]*\}"),
    ("a qualifier or `static` in brackets", r"\[ (?:const|static)\b"),
    ("a bit-field", r"\bstruct (?:\w+ )?\{[^{}]*:"),
    ("a label outside the braces of a switch", rf"(?:\)|\belse|\bdo) (?:case|default)\b|{BLOCK}\b(?:case|default)\b"),
    ("a switch without braces", rf"\bswitch {ROUND} (?!\{{)"),
]
# What may be refused here and is read by gcc: its messages do not tell `x + y = 1` from `(x + y) = 1`.
PERHAPS = [
    ("a typedef among parameters", r"storage class specified for parameter"),
    ("an assignment to what is no unary expression", r"lvalue required as left operand of assignment"),
    ("a step before what is no unary expression", r"lvalue required as (?:in|de)crement operand"),
]
WORDS = (
    "int if else ( ) { } ; , * + = x 1 return case struct [ ] sizeof "
    "t t do while switch default -> . : & ++ static typedef const"
).split()

# What stands in units, and what is put in its place so that a rule is touched.
SLIPS = [
    ("{ 1 , 2 , }", "{ }"),
    ("* w = & s ;", "* w = & s ; ;"),
    ("struct p { int m", "struct p { static int m"),
    ("int m , n ;", "int m , n ; int ;"),
    ("int m , n ;", "struct { int m , n ; } ;"),
    ("int m , n ;", "int m : 3 , n ;"),
    ("int g = 1", "static g = 1"),
    ("int f (", "f ("),
    ("int f (", "int v [ * ] ; int f ("),
    ("int f (", "int v ( int i [ static 3 ] ) ; int f ("),
    ("int f (", "int v ( x , y ) ; int f ("),
    ("int f (", "int v { return 1 ; } int f ("),
    ("int f (", "int v ( int typedef i ) { return i ; } int f ("),
] + [
    ("int f (", f"int v ( int i ) {{ {body} }} int f (")
    for body in [
        "switch ( i ) { case 1 : int j = 1 ; return j ; }",
        "switch ( i ) { case 1 : t * j ; return 1 ; }",
        "switch ( i ) { case 1 : return i ; default : }",
        "return ( static int ) i ;",
        "return sizeof ( t static * ) ;",
        "const j = 1 ; return j ;",
        "i : return i ;",
        "switch ( i ) { { case 1 : return i ; } }",
        "switch ( i ) { if ( i ) default : return i ; }",
        "case 1 : return i ;",
        "switch ( i ) case 1 : return i ;",
        "switch ( i ) ; return i ;",
        "i + g = 1 ; return i ;",
        "++ ( int ) i ; return i ;",
    ]
]

# What is right whether `t` is a typedef name or not, where it is one alone, and where it is none alone.
VALUES = (
    ["sizeof ( t )", "sizeof ( t ) * x", "sizeof ( t ) - 1", "( t ) - x", "( t ) + 1", "( t ) * w", "( t ) & x", "( t ) ( x )"],
    ["( t ) x", "( t ) 1", "( t ) ~ x", "( t ) sizeof x", "* ( t * ) w", "sizeof ( t * )", "( const t ) x", "sizeof ( t ( t ) )"],
    ["t", "t * x", "x * t", "( t , x )", "t ++", "- t", "sizeof t", "( t * x )", "a [ t ]"],
)
PARTS = (
    ["t * x ;", "t ( z ) ;", "t ( * z ) ;", "t * * z ;", "t * z [ 3 ] ;", "t ( z ) [ 2 ] ;"],
    ["t z ;", "t z = 1 ;", "const t z = 2 ;", "t const * z ;", "t * const z = & g ;", "t * z = & g ;", "t z [ 2 ] = { [ 1 ] = 2 } ;"],
    ["t = 2 ;", "t ++ ;", "t * 2 ;", "x + t ;", "t , x ;", "( t ) ;", "t + 1 ;", "t * z + 1 ;", "if ( x ) t * z ;"],
)
# What an inner block begins with, and whether `t` is a typedef name behind it: where it was one, and where it was none.
INNER = [
    ("int t = 1 ;", False, False),
    ("int t = sizeof ( t ) ;", False, False),
    ("int z = 1 , t = z ;", False, False),
    ("enum { t } z = t ;", False, False),
    ("typedef char t ;", True, True),
    ("typedef int u ; u z = ( u ) - x ; u * q = & z ;", True, False),
    ("struct t { int t ; } o = { . t = 1 } ;", True, False),
]
OBJECTS = [
    "enum e { A , B = 2 } ;",
    "extern t h ( void ) ;",
    "static const unsigned long k = 3 ;",
    "int ( * q ) ( int , char * ) ;",
    "struct p d = { . m = 1 , . n = 2 } ;",
    "int b [ 3 ] = { [ 1 ] = 2 , 3 } ;",
    "int b [ 2 ] = { 1 } ;",
]
PARAMETERS = [("int x , t y", True), ("int x , t y", True), ("int x , int t", False), ("t x , t t", False)]


def of_name(rand, choices, named):
    """One of the choices for what `t` is, and now and then one for what it is not."""
    if rand.randrange(2):
        return rand.choice(choices[0]).split()
    return rand.choice(choices[1 if named != (rand.randrange(12) == 0) else 2]).split()


def expression(rand, depth, named):
    """An expression, where it is said whether `t` is a typedef name."""
    choice = rand.randrange(15 if depth else 3)
    if choice == 0:
        return [str(rand.randrange(9))]
    if choice < 3:
        return [rand.choice(["x", "y", "g"])]
    inner = expression(rand, depth - 1, named)
    if choice == 3:
        return ["("] + inner + [")"]
    if choice == 4:
        return [rand.choice(["-", "~", "!", "+"])] + ["("] + inner + [")"]
    if choice == 5:
        return ["a", "["] + inner + ["]"]
    if choice == 6:
        return rand.choice([["s", ".", "m"], ["w", "->", "m"]])
    if choice == 7:
        return ["f", "("] + inner + [","] + expression(rand, depth - 1, named) + [")"]
    if choice == 8:
        return ["(", "int", ")"] + ["("] + inner + [")"]
    if choice == 9:
        return ["sizeof", "(", rand.choice(["int", "t", "x"]), ")"]
    if choice == 10:
        return ["("] + inner + ["?"] + expression(rand, depth - 1, named) + [":"] + expression(rand, depth - 1, named) + [")"]
    if choice < 13:
        return of_name(rand, VALUES, named)
    operator = rand.choice(["+", "-", "*", "<", "==", "&", "|", "&&", "||", "<<"])
    return inner + [operator] + expression(rand, depth - 1, named)


def statement(rand, depth, named):
    choice = rand.randrange(13 if depth else 4)
    value = expression(rand, 2, named)
    if choice == 0:
        return ["x", rand.choice(["=", "+=", "-="])] + value + [";"]
    if choice == 1:
        return value + [";"]
    if choice == 2:
        return [";"]
    if choice == 3:
        return ["return"] + value + [";"]
    if choice == 4:
        return ["{"] + inner_block(rand, depth - 1, named) + ["}"]
    if choice == 5:
        return ["for", "(", "int", "t", "=", "0", ";", "t", "<", "3", ";", "t", "++", ")"] + statement(rand, depth - 1, False)
    inner = statement(rand, depth - 1, named)
    if choice == 6:
        return ["if", "("] + value + [")"] + inner
    if choice == 7:
        return ["if", "("] + value + [")", "{"] + inner + ["}", "else"] + statement(rand, depth - 1, named)
    if choice == 8:
        return ["while", "("] + value + [")", "{"] + inner + ["break", ";", "}"]
    if choice == 9:
        return ["do"] + inner + ["while", "("] + value + [")", ";"]
    if choice == 10:
        return ["for", "(", "int", "i", "=", "0", ";", "i", "<", "3", ";", "i", "++", ")"] + inner
    if choice == 11:
        return ["switch", "("] + value + [")", "{", "case", "1", ":"] + inner + ["default", ":"] + inner + ["}"]
    return ["{", "int", "y", "="] + value + [";"] + inner + ["}"]


def part(rand, depth, named):
    """A part of a block: a declaration or a statement, and now and then what is one or the other by what `t` is."""
    return of_name(rand, PARTS, named) if rand.randrange(3) == 0 else statement(rand, depth, named)


def inner_block(rand, depth, named):
    """What stands in a block in which `t` may mean another thing than around it."""
    words, where_named, else_named = rand.choice(INNER)
    within = where_named if named else else_named
    words = words.split()
    for _ in range(rand.randrange(1, 3)):
        words = words + part(rand, depth, within)
    return words


def unit(rand):
    words = "typedef int t ; struct p { int m , n ; } s , * w = & s ; int g = 1 , y , z , a [ 3 ] = { 1 , 2 , } ;".split()
    words += rand.choice(OBJECTS).split()
    parameters, named = rand.choice(PARAMETERS)
    words += f"int f ( {parameters} ) {{".split()
    for _ in range(rand.randrange(1, 4)):
        words += part(rand, 2, named)
    return words + ["return", "x", ";", "}"]


def spoilt(rand, words):
    """The words with one mistake, or none."""
    place = rand.randrange(len(words))
    choice = rand.randrange(10)
    if choice < 2:
        return words
    if choice == 2:
        return words[:place] + words[place + 1 :]
    if choice == 3:
        return words[: place + 1] + words[place:]
    if choice == 4:
        return words[:place] + [rand.choice(WORDS)] + words[place + 1 :]
    if choice == 5:
        return words[:place] + [rand.choice(WORDS)] + words[place:]
    if choice == 6:
        return words[:place] + words[place + 1 : place + 2] + words[place : place + 1] + words[place + 2 :]
    text = " ".join(words)
    right, by_rule = rand.choice([slip for slip in SLIPS if slip[0] in text])
    return text.replace(right, by_rule, 1).split()


def units():
    rand = random.Random(20251201)
    return [" ".join(spoilt(rand, unit(rand))) for _ in range(CASES)]


def messages(gcc, work, text):
    """What gcc says of the text: its errors, and all that it says."""
    path = os.path.join(work, "m.c")
    with open(path, "w") as file:
        file.write(text + "\n")
    command = [gcc, "-fsyntax-only", "-std=c11", "-pedantic-errors", "-Wunused-label", path]
    run = subprocess.run(command, capture_output=True, text=True, check=False, env={**os.environ, "LC_ALL": "C"})
    lines = re.findall(r"^\S*: (error|warning): (.*)$", run.stderr, re.M)
    return [line for kind, line in lines if kind == "error"], [line for _, line in lines]


def matching(rules, lines):
    return [name for name, pattern in rules if any(re.search(pattern, line) for line in lines)]


def compare(gcc, work, text, ours):
    """Whether an answer agrees with gcc's, differs by rules, or is wrong; and these rules."""
    errors, said = messages(gcc, work, text)
    taken = matching(TAKEN, errors)
    others = [line for line in errors if GRAMMAR.search(line) and not matching(TAKEN, [line])]
    refused = matching(REFUSED, said) + matching(REFUSED_TEXT, [text])
    if ours and others:
        taken = matching(TAKEN_TEXT, [text])
        return ("apart" if taken else "wrong"), taken
    if ours:
        return ("wrong" if refused else "apart" if taken else "agree"), taken
    if others:
        return "agree", []
    # No more than what is taken here displeases gcc, so a rule must say why it is refused here.
    refused += matching(PERHAPS, said)
    return ("wrong" if not refused else "agree" if taken else "apart"), refused


def by_tables(program, work, texts):
    path = os.path.join(work, "cases.txt")
    write_cases(path, texts)
    return answers(subprocess.run([program, "show", "trees", path], capture_output=True, text=True, check=True).stdout)


def write_cases(path, texts):
    with open(path, "w") as file:
        for number, text in enumerate(texts):
            file.write(f"== {number}\n? show count\n {text}\n")


def answers(printed):
    return [not line.endswith("Syntax") for line in printed.splitlines()]


def report(gcc, texts, all_ours):
    """Prints what differs, and gives the status."""
    counts = {name: 0 for name, _ in TAKEN + TAKEN_TEXT + REFUSED + REFUSED_TEXT + PERHAPS}
    ends = {"agree": 0, "apart": 0, "wrong": 0}
    with tempfile.TemporaryDirectory() as work:
        for text, ours in zip(texts, all_ours, strict=True):
            end, rules = compare(gcc, work, text, ours)
            ends[end] += 1
            if end == "wrong":
                print(f"{text}\n{'taken' if ours else 'refused'} here; gcc: {messages(gcc, work, text)[0]}\n")
            if end == "apart":
                for name in set(rules):
                    counts[name] += 1
    print(f"{ends['agree']} of {len(texts)} agree with {gcc}, and {ends['apart']} differ by these rules:")
    for name, count in counts.items():
        print(f"{count:5} {name}")
    return 1 if ends["wrong"] else 0


def main():
    gcc = shutil.which("gcc")
    if gcc is None:
        print("no gcc is here: nothing was compared")
        return 0
    folder = os.path.join(os.path.dirname(os.path.dirname(os.path.abspath(__file__))), "crates", "ct_show")
    subprocess.run(["rt", "run"], cwd=folder, check=True, stdin=subprocess.DEVNULL, capture_output=True)
    texts = units()
    with tempfile.TemporaryDirectory() as work:
        ours = by_tables(os.path.join(folder, "out", "ct_show"), work, texts)
    return report(gcc, texts, ours)


if __name__ == "__main__":
    sys.exit(main())
