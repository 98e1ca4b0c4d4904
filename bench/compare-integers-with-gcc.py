#!/usr/bin/env python3
"""Compares layouts, conversions, promotions and arithmetic of integers with those of compiled C.

It makes 2,000 different questions for `crates/ct_show`: all promotions, the common kinds of all pairs, and drawn ones on
conversions, operators and layouts of structs, also within one another. gcc compiles the same expressions and structs, which
print what they come to. Where an operator has a fault here, C leaves its value open: such questions come on top, and for
them the rule of C11 6.5 is computed on whole numbers instead. It prints how many of both agree, and ends with status 1
where one does not. Without gcc it says so and ends with 0. It is no test of `rt ci`."""
import os
import random
import re
import shutil
import subprocess
import sys
import tempfile

CASES = 2000
KINDS = {
    "_Bool": (0, 1),
    "char": (-(2**7), 2**7 - 1),
    "signed-char": (-(2**7), 2**7 - 1),
    "unsigned-char": (0, 2**8 - 1),
    "short": (-(2**15), 2**15 - 1),
    "unsigned-short": (0, 2**16 - 1),
    "int": (-(2**31), 2**31 - 1),
    "unsigned-int": (0, 2**32 - 1),
    "long": (-(2**63), 2**63 - 1),
    "unsigned-long": (0, 2**64 - 1),
    "long-long": (-(2**63), 2**63 - 1),
    "unsigned-long-long": (0, 2**64 - 1),
}
WIDE = [kind for kind in KINDS if KINDS[kind][1] >= 2**31 - 1]
BINARY = ["*", "/", "%", "+", "-", "<<", ">>", "<", ">", "<=", ">=", "==", "!=", "&", "^", "|"]
PRINT_KIND = "_Generic({}, " + ", ".join(f'{kind.replace("-", " ")}: "{kind}"' for kind in KINDS) + ")"


def c_name(kind):
    return "void *" if kind == "pointer" else kind.replace("-", " ")


def number_in(rand, kind):
    """A number of a kind, often one at an end of some kind."""
    least, greatest = KINDS[kind]
    ends = [end + step for pair in KINDS.values() for end in pair for step in (-1, 0, 1)]
    fitting = [number for number in ends + [0, 1, -1, 2, 3, 7] if least <= number <= greatest]
    return rand.choice(fitting) if rand.randrange(3) else rand.randint(least, greatest)


def literal(number, kind):
    """A number in the words of C, of this kind."""
    if number >= 0:
        return f"(({c_name(kind)}){number}ULL)"
    return f"(({c_name(kind)})(-{-number - 1}LL - 1))"


def fault(operator, kind, left, right):
    """The fault of an operator by C11 6.5p5, 6.5.5p5, 6.5.7p3 and p4, or None."""
    least, greatest = KINDS[kind]
    width = (greatest - least).bit_length()
    if operator in ("/", "%"):
        if right == 0:
            return "DivideByZero"
        return "SignedOverflow" if left == least < 0 and right == -1 else None
    if operator in ("<<", ">>"):
        if not 0 <= right < width:
            return "ShiftRange"
        return "ShiftRange" if operator == "<<" and least < 0 and (left < 0 or left << right > greatest) else None
    if operator in ("+", "-", "*") and least < 0:
        value = {"+": left + right, "-": left - right, "*": left * right}[operator]
        return None if least <= value <= greatest else "SignedOverflow"
    return None


def number_text(expression, signed):
    return f'printf("{"%lld" if signed else "%llu"}", ({"long long" if signed else "unsigned long long"}){expression});'


def declared(word, name):
    """The declaration of a member of this type: the last length of a word is the outermost array's."""
    kind, *lengths = word.split("*")
    of_struct = re.fullmatch(r"struct(\d+)", kind)
    return f'{f"struct s{of_struct[1]}" if of_struct else c_name(kind)} {name}{"".join(f"[{n}]" for n in reversed(lengths))};'


def members(rand, structs):
    names = list(KINDS) + ["pointer"] + [f"struct{i}" for i in range(structs)] * 4
    lengths = ["", "", f"*{rand.randint(1, 9)}", f"*{rand.randint(1, 4)}*{rand.randint(1, 4)}"]
    return [rand.choice(names) + rand.choice(lengths) for _ in range(rand.randint(1, 6))]


def layout_code(structs):
    bodies = [" ".join(declared(word, f"m{place}") for place, word in enumerate(words)) for words in structs]
    text = " ".join(f"struct s{i} {{ {body} }};" for i, body in enumerate(bodies))
    last = f"struct s{len(structs) - 1}"
    parts = [f"sizeof({last})", f"_Alignof({last})"] + [f"offsetof({last}, m{i})" for i in range(len(structs[-1]))]
    prints = ' printf(" "); '.join(f'printf("%zu", {part});' for part in parts)
    return "{ " + text + " " + prints + " }"


def promotions():
    for kind in KINDS:
        yield f"promote {kind}", f'printf("%s", {PRINT_KIND.format(f"+({c_name(kind)})0")});', None
    for a in KINDS:
        for b in KINDS:
            expression = f"({c_name(a)})0 + ({c_name(b)})0"
            yield f"common {a} {b}", f'printf("%s", {PRINT_KIND.format(expression)});', None


def drawn(rand):
    """A question, and the code that prints its answer, or the answer itself where there is no code."""
    choice = rand.randrange(8)
    if choice < 3:
        kind, to = rand.choice(["long", "unsigned-long"]), rand.choice(list(KINDS))
        number = number_in(rand, kind)
        return f"convert {number} {to}", number_text(f"({c_name(to)}){literal(number, kind)}", KINDS[to][0] < 0), None
    if choice == 3:
        structs = [members(rand, i) for i in range(rand.randint(1, 3))]
        return "layout " + " ; ".join(" ".join(words) for words in structs), layout_code(structs), None
    kind = rand.choice(WIDE)
    left = number_in(rand, kind)
    signed = KINDS[kind][0] < 0
    if choice == 4:
        operator = rand.choice("+-~!")
        asked = f"unary {operator} {kind} {left}"
        if operator == "-" and signed and left == KINDS[kind][0]:
            return asked, None, "SignedOverflow"
        return asked, number_text(f"({operator}{literal(left, kind)})", signed), None
    operator = rand.choice(BINARY)
    right = rand.randint(-2, 66) if operator in ("<<", ">>") else number_in(rand, kind)
    asked = f"binary {operator} {kind} {left} {right}"
    found = fault(operator, kind, left, right)
    if found:
        return asked, None, found
    right_kind = "int" if operator in ("<<", ">>") else kind
    return asked, number_text(f"({literal(left, kind)} {operator} {literal(right, right_kind)})", signed), None


def questions(rand):
    """As many different questions with code as are wanted, and those without that came up between them."""
    asked = {question: (code, answer) for question, code, answer in promotions()}
    while sum(code is not None for code, _ in asked.values()) < CASES:
        question, code, answer = drawn(rand)
        asked[question] = (code, answer)
    return [(question, code, answer) for question, (code, answer) in asked.items()]


def by_gcc(gcc, work, codes):
    lines = "".join(f'    {code} printf("\\n");\n' for code in codes)
    path = os.path.join(work, "cases.c")
    with open(path, "w") as file:
        file.write("#include <stddef.h>\n#include <stdio.h>\nint main(void)\n{\n" + lines + "    return 0;\n}\n")
    program = os.path.join(work, "cases")
    subprocess.run([gcc, "-std=c11", "-O0", "-w", "-o", program, path], check=True)
    return subprocess.run([program], check=True, capture_output=True, text=True).stdout.splitlines()


def answers(program, work, asked):
    """What `ct_show` answers to the questions, layouts apart from the others, each behind its question."""
    found = {}
    for subject in ("integers", "layouts"):
        path = os.path.join(work, subject + ".txt")
        mine = [it for it in asked if it.startswith("layout ") == (subject == "layouts")]
        with open(path, "w") as file:
            file.write("".join(f"== {it}\n" for it in mine))
        shown = subprocess.run([program, "show", subject, path], check=True, capture_output=True, text=True).stdout
        found.update(zip(mine, shown.splitlines()))
    return [found[it] for it in asked]


def main():
    gcc = shutil.which("gcc")
    if gcc is None:
        print("no gcc is here: nothing was compared")
        return 0
    folder = os.path.join(os.path.dirname(os.path.dirname(os.path.abspath(__file__))), "crates", "ct_show")
    subprocess.run(["rt", "run"], cwd=folder, check=True, stdin=subprocess.DEVNULL, capture_output=True)
    rand = random.Random(20251201)
    cases = questions(rand)
    with tempfile.TemporaryDirectory() as work:
        printed = iter(by_gcc(gcc, work, [code for _, code, _ in cases if code]))
        wanted = [next(printed) if code else answer for _, code, answer in cases]
        program = os.path.join(folder, "out", "ct_show")
        lines = answers(program, work, [asked for asked, _, _ in cases])
    agree = {True: 0, False: 0}
    for line, (asked, code, _), answer in zip(lines, cases, wanted):
        if line == f"{asked}: {answer}":
            agree[code is not None] += 1
        else:
            print(f"{line}, and not {answer}")
    faults = len(cases) - CASES
    print(f"{agree[True]} of {CASES} agree with {gcc}, and {agree[False]} of {faults} faults with the rules of C11")
    return 0 if len(lines) == len(cases) and sum(agree.values()) == len(cases) else 1


if __name__ == "__main__":
    sys.exit(main())
