# What the benchmarks share; to be read by a script of bash with `.`. It builds the program, where that is needed, and
# sets `home` (this repository), `work` (a folder that goes away at the end) and `program`.
home=$(CDPATH= cd -- "$(dirname -- "$0")/.." && pwd -P)
work=$(mktemp -d)
trap 'rm -rf "$work"' EXIT
(cd "$work" && "$home/ceedling" >/dev/null) || [ $? -eq 64 ]
program=$home/crates/ct_cli/out/ct_cli

. "$home/bench/fastest.sh"

# seconds_of FOLDER: the seconds of the fastest of five runs of the program itself over a project, without the script
# that looks for newer sources.
seconds_of() {
    (cd "$1" && fastest "$program" test:all)
}

# time_each MAKER WHAT MOST SIZE..: MAKER makes the project of a size in $work/SIZE; prints the seconds of each, and
# how many times as long it takes as the one before and as the first. The status is 1 where the last takes more than
# MOST times as long as the first.
time_each() {
    local maker=$1 what=$2 most=$3 first= last= seconds size
    shift 3
    for size in "$@"; do
        "$maker" "$size"
        seconds=$(seconds_of "$work/$size")
        if [ -z "$first" ]; then
            first=$seconds
            echo "$size $what: $seconds s"
        else
            awk -v n="$size" -v w="$what" -v s="$seconds" -v l="$last" -v o="$first" \
                'BEGIN { printf "%d %s: %s s, %.1f times the size before, %.1f times the first\n", n, w, s, s / l, s / o }'
        fi
        last=$seconds
    done
    awk -v s="$last" -v o="$first" -v m="$most" 'BEGIN { exit s > m * o }' || {
        echo "the last takes more than $most times as long as the first"
        return 1
    }
}
