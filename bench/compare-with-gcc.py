#!/usr/bin/env python3
"""Compares the values of generated expressions and loops with those of compiled C.

It makes 500 functions of the form that a test file may have, none of which has a fault, lets gcc compile them and
print their values, writes a project whose tests expect these values, and runs the built program over it. It prints
how many agree, and ends with status 1 where one does not. Without gcc it says so and ends with 0. It is no test of
`rt ci`."""
import os
import random
import shutil
import subprocess
import sys
import tempfile

CASES = 500
PER_FILE = 250
MOST = 2**31 - 1
LEAST = -(2**31)


class Fault(Exception):
    """A value that is no `int`."""


def kept(value):
    if not LEAST <= value <= MOST:
        raise Fault
    return value


def expression(rand, names, depth):
    """A text and what it is worth, given what variables hold."""
    choice = rand.randrange(6 if depth else 2)
    if choice == 0 or (choice == 1 and not names):
        number = rand.choice([0, 1, 2, 3, 7, 100, 65535, MOST, rand.randrange(MOST)])
        return str(number), lambda state: number
    if choice == 1:
        name = rand.choice(names)
        return name, lambda state: state[name]
    left_text, left = expression(rand, names, depth - 1)
    right_text, right = expression(rand, names, depth - 1)
    if choice == 2:
        return f"({left_text} < {right_text})", lambda state: int(left(state) < right(state))
    if choice == 3:
        return f"({left_text} - {right_text})", lambda state: kept(left(state) - right(state))
    if choice == 4:
        return f"({left_text} - {right_text} + 1)", lambda state: kept(kept(left(state) - right(state)) + 1)
    return f"({left_text} + ({right_text}))", lambda state: kept(left(state) + right(state))


def case(rand, number):
    """A function without parameters, and its value."""
    names, state, lines = [], {}, []
    for name in "abc":
        text, value = expression(rand, names, 3)
        state[name] = kept(value(state))
        lines.append(f"    int {name} = {text};")
        names.append(name)
    turns = rand.randrange(12)
    step_text, step = expression(rand, names + ["i"], 2)
    condition_text, condition = expression(rand, names + ["i"], 2)
    lines += [
        "    int i = 0;",
        f"    while (i < {turns})",
        "    {",
        f"        int a = {step_text.replace('a', 'c')};",
        f"        if ({condition_text})",
        "            b = b - a;",
        "        else",
        "            c = c + a;",
        "        i = i + 1;",
        "    }",
    ]
    state["i"] = 0
    while state["i"] < turns:
        outer = state["a"]
        state["a"] = state["c"]
        inner = kept(step(state))
        state["a"] = inner
        if condition(state):
            state["b"] = kept(state["b"] - inner)
        else:
            state["c"] = kept(state["c"] + inner)
        state["a"] = outer
        state["i"] += 1
    end_text, end = expression(rand, names, 3)
    kept(end(state))
    lines.append(f"    return {end_text};")
    return f"static int case_{number}(void)\n{{\n" + "\n".join(lines) + "\n}\n"


def cases():
    rand = random.Random(20)
    made = []
    while len(made) < CASES:
        try:
            made.append(case(rand, len(made)))
        except Fault:
            pass
    return made


def literal(value):
    """A number in the words of a test file."""
    if value >= 0:
        return str(value)
    if value == LEAST:
        return f"0 - {MOST} - 1"
    return f"0 - {-value}"


def values_by_gcc(gcc, work, functions):
    prints = "".join(f'    printf("%d\\n", case_{i}());\n' for i in range(len(functions)))
    source = "#include <stdio.h>\n" + "".join(functions) + "int main(void)\n{\n" + prints + "    return 0;\n}\n"
    path = os.path.join(work, "cases.c")
    with open(path, "w") as file:
        file.write(source)
    program = os.path.join(work, "cases")
    subprocess.run([gcc, "-std=c11", "-O0", "-w", "-o", program, path], check=True)
    return [int(line) for line in subprocess.run([program], check=True, capture_output=True, text=True).stdout.split()]


def main():
    gcc = shutil.which("gcc")
    if gcc is None:
        print("no gcc is here: nothing was compared")
        return 0
    home = os.path.dirname(os.path.dirname(os.path.abspath(__file__)))
    functions = cases()
    with tempfile.TemporaryDirectory() as work:
        values = values_by_gcc(gcc, work, functions)
        project = os.path.join(work, "project")
        os.makedirs(os.path.join(project, "test"))
        open(os.path.join(project, "project.yml"), "w").close()
        for start in range(0, CASES, PER_FILE):
            with open(os.path.join(project, "test", f"test_{start}.c"), "w") as file:
                file.write('#include "unity.h"\n')
                for i in range(start, min(start + PER_FILE, CASES)):
                    file.write(functions[i])
                    file.write(f"void test_{i}(void) {{ TEST_ASSERT_EQUAL_INT({literal(values[i])}, case_{i}()); }}\n")
        run = subprocess.run([os.path.join(home, "ceedling"), "test:all"], cwd=project, capture_output=True, text=True)
    lines = run.stdout.splitlines()
    agree = sum(line.endswith(":PASS") for line in lines)
    for line in lines:
        if ":FAIL:" in line or line.startswith("ERROR"):
            print(line)
    print(f"{agree} of {CASES} agree with {gcc}")
    return 0 if agree == CASES else 1


if __name__ == "__main__":
    sys.exit(main())
