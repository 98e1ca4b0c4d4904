# What all benchmarks share; to be read by a script of bash with `.`. `work` must be a folder.

# fastest WORD..: the seconds of the fastest of five runs of a command, which leaves what it prints in $work/printed. Its
# status does not count.
fastest() {
    local best= start end
    for _ in 1 2 3 4 5; do
        start=$(date +%s.%N)
        "$@" >"$work/printed" || true
        end=$(date +%s.%N)
        best=$(awk -v a="$start" -v b="$end" -v c="$best" 'BEGIN { t = b - a; if (c != "" && c < t) t = c; printf "%.3f", t }')
    done
    echo "$best"
}
