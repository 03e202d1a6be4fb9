#!/usr/bin/env bash
# Times the building of maps of 1000000 and of 10000000 numbers to a file, each written while it is built, and prints the file's size and the most memory of the
# run.
#
#     bench/file.sh [PROGRAM]
#
# PROGRAM is the built bench, if not crates/bench/out/bench.
set -euo pipefail
export LC_ALL=C

program=${1:-$(dirname "${BASH_SOURCE[0]}")/../crates/bench/out/bench}
[[ -f $program && -x $program ]] || {
    echo "bench: no program at $program (make maps builds it)" >&2
    exit 1
}

work=$(mktemp -d)
trap 'rm -rf "$work"' EXIT

for count in 1000000 10000000; do
    if [[ -x /usr/bin/time ]]; then
        /usr/bin/time -f %M -o "$work/memory" "$program" "$count" "$work/archive" > "$work/told"
    else
        "$program" "$count" "$work/archive" > "$work/told"
        echo '?' > "$work/memory"
    fi
    echo "$(< "$work/told"), $(wc -c < "$work/archive") bytes, $(< "$work/memory") kB of memory"
done
