#!/bin/bash
# Makes units of some 10,000, 40,000 and 160,000 tokens (globals, prototypes, and functions with loops, calls of functions
# before them, typedef names, enumeration constants, structs and switches), runs `crates/ct_show` over each,
# which parses it and prints its tree, and prints the seconds and how many times as long each takes as the one before. Each
# printed text must have all tokens of its unit, and 4 times the tokens may take at most 5 times as long: else the status is
# 1. It is a benchmark and no test.
set -eu
home=$(CDPATH= cd -- "$(dirname -- "$0")/.." && pwd -P)
work=$(mktemp -d)
trap 'rm -rf "$work"' EXIT
folder=$home/crates/ct_show
(cd "$folder" && rt run </dev/null >/dev/null)
program=$folder/out/ct_show
. "$home/bench/fastest.sh"

# What stands at the head of a unit: 32 tokens.
head='typedef unsigned int level_t;
enum mode { mode_off, mode_low, mode_high };
struct lamp { level_t level; enum mode mode; struct lamp *next; };'
head_tokens=32
part_tokens=147

# A unit of so many functions, each with its globals and its prototype: 147 tokens for each.
unit() {
    printf '== %s functions\n%s\n' "$1" "$head"
    awk -v n="$1" 'BEGIN {
        for (i = 0; i < n; i++) {
            before = i ? i - 1 : 0
            printf "static int limit_%d = %d;\n", i, i
            printf "static const level_t steps_%d[4] = { 1, 2, 3, %d };\n", i, i
            printf "int part_%d(struct lamp *lamp, level_t count);\n\n", i
            printf "int part_%d(struct lamp *lamp, level_t count)\n{\n", i
            printf "    int sum = limit_%d;\n", i
            print "    for (level_t at = 0; at < count; at++)\n    {"
            printf "        if (lamp->mode == mode_low && at < 4)\n            sum += (int)steps_%d[at] * 2;\n", i
            printf "        else\n            sum -= part_%d(lamp->next, (level_t)1);\n    }\n", int(i / 2)
            print "    switch (sum)\n    {\n    case 0:"
            print "        return limit_0;\n    default:\n        break;\n    }"
            printf "    while (sum > 100)\n        sum = sum / 2;\n"
            printf "    return sum > limit_%d ? sum : -1;\n}\n\n", before
        }
    }'
}

status=0
last=
for functions in 68 272 1088; do
    unit "$functions" >"$work/unit"
    seconds=$(fastest "$program" show "printed text" "$work/unit")
    tokens=$((head_tokens + functions * part_tokens))
    printed=$(sed "1s/^$functions functions: //" "$work/printed" | wc -w)
    if [ "$printed" -ne "$tokens" ]; then
        echo "of $tokens tokens $printed were printed"
        status=1
    fi
    if [ -z "$last" ]; then
        echo "$tokens tokens: $seconds s"
    else
        awk -v t="$tokens" -v s="$seconds" -v l="$last" \
            'BEGIN { printf "%d tokens: %s s, %.1f times as long as the one before\n", t, s, s / l; exit s > 5 * l }' || status=1
    fi
    last=$seconds
done
exit $status
