#!/usr/bin/env bash
# Times one lookup in a file of ten million numbers, 103 MB, that isn't in memory: of the whole file, validated and not, and of the file as a source.
#
#     bench/cold.sh [PROGRAM [BENCH]]
#
# PROGRAM is the built btreearc and BENCH the built bench, if not those in crates.
set -euo pipefail
export LC_ALL=C

crates=$(dirname "${BASH_SOURCE[0]}")/../crates
program=${1:-$crates/btreearc/out/btreearc} bench=${2:-$crates/bench/out/bench}

work=$(mktemp -d)
trap 'rm -rf "$work"' EXIT

awk 'BEGIN { for (i = 1; i <= 10000000; i++) print i, i % 1000 }' | "$program" build > "$work/archive"
sync "$work/archive"
for way in validated unverified source; do
    for run in 1 2 3; do
        # The kernel drops what it holds of the file.
        dd if="$work/archive" iflag=nocache count=0 status=none
        "$bench" look "$way" "$work/archive" 7654321
    done
done
