#!/usr/bin/env python3
"""Compares what generated macros become with what the C preprocessor of the machine makes of them.

It makes 2,000 texts of a few definitions and calls, half of them with blanks only where two names or numbers meet, lets `cpp -P` and
`crates/ct_show` preprocess each, and compares the tokens, or that both refuse. In half of the texts a string is made of what
calls become, so that white space is compared, too. It prints how many texts agree by each of its rules, and each
text that agrees by none, and ends with status 1 where there is one. Without cpp it says so and ends with 0. It is no test of
`rt ci`.

The rules: `as cpp`; `as clang`, a text in which cpp and clang differ, and this project is as clang; and `none`.

Not made are texts in which the two differ by this project's own rules: a directive ends the text before it, so no call
goes on behind one; the line of a name in an argument is its own, and with cpp that of the call's end; and cpp drops the
comma of `, ## __VA_ARGS__` without arguments, as an extension of its own."""
import os
import random
import re
import shutil
import subprocess
import sys
import tempfile

CASES = 2000
STRINGS = "#define S(...) #__VA_ARGS__\n#define X(...) S(__VA_ARGS__)\n"
MACROS = ["f", "g", "h", "k"]
NAMES = ["x", "y", "z"]
MARKS = ["+", "-", "*", "<", "=", ".", "&", "|", "[", "]"]
TOKEN = re.compile(
    r"""\.?[0-9](?:[eEpP][+-]|[A-Za-z0-9_.])*|[A-Za-z_][A-Za-z0-9_]*|"(?:\\.|[^"\\])*"|'(?:\\.|[^'\\])*'"""
    r"""|%:%:|\.\.\.|<<=|>>=|->|\+\+|--|<<|>>|<=|>=|==|!=|&&|\|\||[-*/%+&^|]=|\#\#|<:|:>|<%|%>|%:|\S""",
    re.X,
)


def joined(words, blank):
    """The words with this between them, or a blank where two would be one name or number."""
    text = ""
    for word in words:
        text += (" " if re.search(r"\w$", text) and re.match(r"\w", word) else blank if text else "") + word
    return text


def plain(rand, names):
    """A token that is no operator of a replacement list."""
    choice = rand.randrange(10)
    if choice < 5:
        return rand.choice(names)
    if choice < 7:
        return rand.choice(["1", "2", "0x3", "4e"])
    return rand.choice(MARKS)


def call(rand, names, takes, depth, blank):
    """A text that calls a macro, mostly with as many arguments as it takes, or a few plain tokens."""
    if depth == 0 or not takes or rand.randrange(3) == 0:
        return joined([plain(rand, names) for _ in range(rand.randrange(3))], blank)
    name = rand.choice(list(takes))
    count = rand.randrange(1, 4) if takes[name] is None or rand.randrange(20) == 0 else takes[name]
    arguments = [call(rand, names, takes, depth - 1, blank) for _ in range(count)]
    return name + rand.choice(["", "", blank]) + "(" + ("," + rand.choice(["", blank])).join(arguments) + ")"


def body(rand, names, takes, parameters, blank):
    """A replacement list."""
    words = []
    for _ in range(rand.randrange(6)):
        choice = rand.randrange(12)
        if choice == 0 and parameters:
            words.append("#" + rand.choice(parameters))
        elif choice == 1 and words and words[-1] != "##":
            words += ["##", rand.choice(parameters + ["x", "1"])]
        elif choice < 5 and parameters:
            words.append(rand.choice(parameters))
        elif choice == 5:
            words.append(call(rand, names + parameters, takes, 1, blank))
        else:
            words.append(plain(rand, names))
    return joined(words, blank)


def definition(rand, name, takes, parameters, blank):
    """A definition; a macro without parameter list has None."""
    listed = "" if parameters is None else "(" + ", ".join(parameters).replace("__VA_ARGS__", "...") + ")"
    return f"#define {name}{listed} {body(rand, NAMES + MACROS, takes, parameters or [], blank)}".rstrip()


def case(rand, blank, strings):
    """A few definitions, and a text, with a blank between all tokens or only where two would be one, which is made a string or not."""
    lists = [None, [], ["a"], ["a"], ["a", "b"], ["a", "b"], ["__VA_ARGS__"]]
    macros = {name: rand.choice(lists) for name in rand.sample(MACROS, rand.randrange(2, 5))}
    takes = {
        name: None if "__VA_ARGS__" in parameters else len(parameters)
        for name, parameters in macros.items()
        if parameters is not None
    }
    lines = [definition(rand, name, takes, parameters, blank) for name, parameters in macros.items()]
    lines.append(definition(rand, rand.choice(NAMES), takes, None, blank))
    words = joined([call(rand, NAMES + MACROS, takes, 2, blank) for _ in range(rand.randrange(1, 4))], blank)
    if strings:
        words = f"X({words})"
    return (STRINGS if strings else "") + "\n".join(lines + [words]) + "\n"


def by_command(command, work, text):
    """The tokens by a command such as cpp, or None where it refuses."""
    path = os.path.join(work, "m.c")
    with open(path, "w") as file:
        file.write(text)
    run = subprocess.run(
        command + ["-P", "-undef", "-nostdinc", "-std=c11", path], capture_output=True, text=True, check=False
    )
    return None if run.returncode else TOKEN.findall(run.stdout)


def by_tables(program, work, texts):
    """The tokens of each text, or None where it is refused."""
    path = os.path.join(work, "cases.txt")
    with open(path, "w") as file:
        for number, text in enumerate(texts):
            file.write(f"== {number}\n{text}")
    run = subprocess.run([program, "show", "units", path], capture_output=True, text=True, check=True)
    answers = [line.split(":", 1)[1].strip() for line in run.stdout.splitlines()]
    return [None if answer.startswith("m.c:") else TOKEN.findall(answer) for answer in answers]


def rule_of(cpp, clang, work, text, ours):
    """The rule by which the tokens of a text agree, and those of cpp."""
    theirs = by_command([cpp], work, text)
    if ours == theirs:
        return "as cpp", theirs
    if clang is not None and ours == by_command([clang, "-E"], work, text):
        return "as clang", theirs
    return "none", theirs


def main():
    cpp = shutil.which("cpp")
    if cpp is None:
        print("no cpp is here: nothing was compared")
        return 0
    home = os.path.dirname(os.path.dirname(os.path.abspath(__file__)))
    folder = os.path.join(home, "crates", "ct_show")
    program = os.path.join(folder, "out", "ct_show")
    subprocess.run(["rt", "run"], cwd=folder, check=True, stdin=subprocess.DEVNULL, capture_output=True)
    rand = random.Random(20251201)
    texts = [case(rand, [" ", ""][number % 2], number % 4 > 1) for number in range(CASES)]
    clang = shutil.which("clang")
    counts = {"as cpp": 0, "as clang": 0, "none": 0}
    with tempfile.TemporaryDirectory() as work:
        for text, ours in zip(texts, by_tables(program, work, texts)):
            rule, theirs = rule_of(cpp, clang, work, text, ours)
            counts[rule] += 1
            if rule == "none":
                print(f"{text}here: {ours}\ncpp:  {theirs}\n")
    print(", ".join(f"{rule}: {count}" for rule, count in counts.items()) + f" of {CASES}, with {cpp} and {clang}")
    return 0 if counts["none"] == 0 else 1


if __name__ == "__main__":
    sys.exit(main())
