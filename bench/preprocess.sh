#!/bin/bash
# Makes texts of a quarter of a size and of the whole (1 MiB of plain text, 1 MiB of nested conditionals, 885,000 tokens put
# by a macro that doubles), runs `crates/ct_show` over each, and prints the seconds and how many times as long the
# whole takes as the quarter. 4 times the work may take at most 5 times as long: else the status is 1. It is a benchmark and
# no test.
set -eu
home=$(CDPATH= cd -- "$(dirname -- "$0")/.." && pwd -P)
work=$(mktemp -d)
trap 'rm -rf "$work"' EXIT
folder=$home/crates/ct_show
(cd "$folder" && rt run </dev/null >/dev/null)
program=$folder/out/ct_show
. "$home/bench/fastest.sh"

sample() {
    printf '== %s\n? show count\n' "$1"
}

# Lines of 64 bytes.
plain() {
    sample plain
    awk -v n="$(($1 * 4096))" 'BEGIN { for (i = 0; i < n; i++) printf "int value_%05d = (a + b) * 3 - c[4] / d->e; /* some comment */\n", i % 100000 }'
}

# Conditionals of up to 32 in one another, of which every other group is read.
conditionals() {
    sample conditionals
    awk -v n="$(($1 * 2688))" 'BEGIN {
        for (i = 0; i < n; i++) {
            if (i % 64 < 32) printf "#if %d + 1 > %d && !defined NAME_%02d\n", i % 64, i % 64, i % 64
            else printf "#else\n#error never read, and it has as many words as it takes to make a long line\n#endif\nint value_%05d = (a + b) * 3 - c[4] / d->e; int other_%05d = 0;\n", i % 100000, i % 100000
        }
    }'
}

# A name that stands for the one before twice, and so on: 24,574 tokens are put for a line.
doubling() {
    sample doubling
    awk -v n="$(($1 * 9))" 'BEGIN {
        print "#define a0 x"
        for (i = 1; i < 14; i++) printf "#define a%d a%d a%d\n", i, i - 1, i - 1
        for (i = 0; i < n; i++) print "a13"
    }'
}

status=0
for kind in plain conditionals doubling; do
    "$kind" 1 >"$work/quarter"
    "$kind" 4 >"$work/whole"
    quarter=$(fastest "$program" show units "$work/quarter")
    whole=$(fastest "$program" show units "$work/whole")
    cat "$work/printed"
    awk -v k="$kind" -v a="$quarter" -v b="$whole" 'BEGIN { printf "%s: %s s and %s s, %.1f times\n", k, a, b, b / a; exit b > 5 * a }' || status=1
done
exit $status
