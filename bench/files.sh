#!/bin/bash
# Makes projects of 100, 400 and 1,600 files in nested folders (sources, headers and test files with one test each),
# runs the built program over each, and prints the seconds and how many times as long each takes as the one before.
# 16 times the files may take at most 24 times as long: else the status is 1. It is a benchmark and no test.
set -eu
. "$(dirname -- "$0")/timing.sh"

# Of ten files four are tests, three are sources and three are headers; twenty files of a kind lie in one folder,
# and five folders in one.
make_project() {
    mkdir -p "$work/$1"
    : >"$work/$1/project.yml"
    awk -v files="$1" -v root="$work/$1" '
        function folder_of(group, number,   part, path) {
            part = int(number / 20)
            path = root "/" group "/part" int(part / 5) "/folder" part
            if (!(path in made)) { system("mkdir -p " path); made[path] = 1 }
            return path
        }
        BEGIN {
            for (i = 0; i < files; i++) {
                kind = i % 10
                if (kind < 4) {
                    path = folder_of("test", tests++) "/test_" i ".c"
                    printf "#include \"unity.h\"\nvoid test_%d(void)\n{\n    TEST_ASSERT_EQUAL_INT(%d, %d);\n}\n", i, i, i >path
                } else if (kind < 7) {
                    path = folder_of("src", sources++) "/lamp_" i ".c"
                    printf "int lamp_%d(void)\n{\n    return %d;\n}\n", i, i >path
                } else {
                    path = folder_of("src", headers++) "/lamp_" i ".h"
                    printf "int lamp_%d(void);\n", i >path
                }
                close(path)
            }
        }'
}

time_each make_project files 24 100 400 1600
