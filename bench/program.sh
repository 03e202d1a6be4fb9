#!/usr/bin/env bash
# Times `btreearc build` on 1000, 100000 and 1000000 lines `4*i+1 10*i`, and `btreearc check` and `btreearc list` on the archive of the last. It prints for
# each the median of five measures: nanoseconds an entry, MB a second of what is read, and the most memory of a run. The time has the start of the process
# in it, some milliseconds, which is most of it on few lines.
#
#     bench/program.sh [PROGRAM]
#
# PROGRAM is the built program, if not crates/btreearc/out/btreearc. MEASURES sets the number of measures.
set -euo pipefail
export LC_ALL=C

fail() {
    echo "bench: $*" >&2
    exit 1
}

program=${1:-$(dirname "${BASH_SOURCE[0]}")/../crates/btreearc/out/btreearc}
measures=${MEASURES:-5}
[[ $measures =~ ^[1-9][0-9]*$ ]] || fail "MEASURES is no number above 0: $measures"
[[ -n ${EPOCHREALTIME:-} ]] || fail "bash 5 or later is needed"
[[ -f $program && -x $program ]] || fail "no program at $program (make program builds it)"
program=$(cd "$(dirname "$program")" && pwd)/$(basename "$program")

work=$(mktemp -d)
trap 'rm -rf "$work"' EXIT

# so many entries, one a line
lines() {
    awk -v count="$1" 'BEGIN { for (i = 0; i < count; i++) printf "%d %d\n", 4 * i + 1, 10 * i }'
}

# the most memory of a run in kB, where the system tells it
memory() {
    local command=$1 input=$2
    if [[ -x /usr/bin/time ]]; then
        /usr/bin/time -f %M "$program" "$command" < "$input" 2>&1 > /dev/null
    else
        echo '?'
    fi
}

# a command's median of the measures, on an input of so many entries
report() {
    local command=$1 input=$2 entries=$3 begin end m
    for ((m = 0; m < measures; m++)); do
        begin=$EPOCHREALTIME
        "$program" "$command" < "$input" > "$work/output" || fail "$command ended with status $?"
        end=$EPOCHREALTIME
        awk -v begin="$begin" -v end="$end" 'BEGIN { printf "%.6f\n", end - begin }'
    done > "$work/times"
    sort -n "$work/times" | awk -v command="$command" -v bytes="$(wc -c < "$input")" -v entries="$entries" -v memory="$(memory "$command" "$input")" '
        { times[NR] = $1 }
        END {
            middle = int((NR + 1) / 2)
            median = NR % 2 ? times[middle] : (times[middle] + times[middle + 1]) / 2
            printf "%-5s  %7d entries  %8.1f ns an entry  %7.1f MB/s  %s kB  (median of %d)\n", command, entries, median * 1e9 / entries, bytes / median / 1e6, memory, NR
        }'
}

for count in 1000 100000 1000000; do
    lines "$count" > "$work/lines"
    report build "$work/lines" "$count"
done
cp "$work/output" "$work/archive"
report check "$work/archive" 1000000
report list "$work/archive" 1000000
cmp -s "$work/lines" "$work/output" || fail "list doesn't give back the lines that were built"
