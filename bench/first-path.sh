#!/bin/bash
# Makes projects of 1, 4 and 16 test files of 1,000 tests each, runs the built program over each, and prints the
# seconds and how many times as long each takes as the one before. 16 times the work may take at most 20 times
# as long as once: else the status is 1. It is a benchmark and no test.
set -eu
. "$(dirname -- "$0")/timing.sh"

make_project() {
    mkdir -p "$work/$1/test"
    : >"$work/$1/project.yml"
    for file in $(seq "$1"); do
        awk -v file="$file" 'BEGIN {
            print "#include \"unity.h\""
            for (i = 1; i <= 1000; i++)
                printf "void test_%d_%d(void)\n{\n    TEST_ASSERT_EQUAL_INT(%d, %d);\n}\n", file, i, i, i
        }' >"$work/$1/test/test_$file.c"
    done
}

time_each make_project "test files" 20 1 4 16
