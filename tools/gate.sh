#!/usr/bin/env bash
# The merge gate: the documents, the index of contracts, the reference and the header for C, against the repository, and the documents' pages
# against each other; what makes a line of the record of refused wrong bodies invalid; the impls that a script writes; rt ci; then the wrong bodies
# in the folders `wrong` of the crates, by the record and a sample that is tried again; then what must not compile; then the programs as processes
# of their own, as each of two compilers built them; then the growths of memory of such processes, each refused in turn; and last the bindings in C,
# Rust and Python, and the installed library. The last line is rt ci's, 'N passed, M failed', in which the documents, their pages, the index, the
# reference, each wrong body, each function that must not compile, the processes, the growths and each language count as one. The status is 0 where
# nothing failed. RT is rt's command, if not rt.
set -euo pipefail
cd "$(dirname "${BASH_SOURCE[0]}")/.."
read -ra rt <<< "${RT:-rt}"

log=$(mktemp)
trap 'rm -f "$log"' EXIT

# Runs the rest of the line, and adds the two numbers of its last line to what has passed and failed.
passed=0 failed=0
count() {
    local form=$1 status=0
    "${@:2}" 2>&1 | tee "$log" || status=$?
    if [[ $(tail -n 1 "$log") =~ ^$form$ ]]; then
        passed=$((passed + BASH_REMATCH[1])) failed=$((failed + BASH_REMATCH[2]))
        ((status == 0 || BASH_REMATCH[2] > 0)) || failed=$((failed + 1))
    else
        echo "tools/gate.sh: $2 ended without its line, with status $status" >&2
        failed=$((failed + 1))
    fi
}
count '([0-9]+) passed, ([0-9]+) failed' tools/docs.py
count '([0-9]+) passed, ([0-9]+) failed' tools/alike.py
count '([0-9]+) passed, ([0-9]+) failed' tools/index.py --check
count '([0-9]+) passed, ([0-9]+) failed' tools/reference.py --check
count '([0-9]+) passed, ([0-9]+) failed' tools/header.py
count '([0-9]+) passed, ([0-9]+) failed' tools/record_test.py
count '([0-9]+) passed, ([0-9]+) failed' tools/archived_test.py
count '([0-9]+) passed, ([0-9]+) failed' "${rt[@]}" ci
count '([0-9]+) refused, ([0-9]+) not' tools/edits.py --gate --after-ci
count '([0-9]+) passed, ([0-9]+) failed' tools/must_not_compile.py

# rt ci sets aside what was built before, and leaves what it has built itself. It may have no second one to leave.
program=crates/btreearc/out/btreearc
well=1
tools/processes.sh "$program" || well=0
[[ ! -f $program.by-rattle ]] || tools/processes.sh "$program.by-rattle" || well=0
passed=$((passed + well)) failed=$((failed + 1 - well))

program_of_texts=crates/btreekv/out/btreekv
well=1
tools/texts.sh "$program_of_texts" || well=0
[[ ! -f $program_of_texts.by-rattle ]] || tools/texts.sh "$program_of_texts.by-rattle" || well=0
passed=$((passed + well)) failed=$((failed + 1 - well))

calls=crates/failures/out/failures
well=1
tools/growths.py "$calls" "$program" || well=0
[[ ! -f $calls.by-rattle || ! -f $program.by-rattle ]] ||
    tools/growths.py "$calls.by-rattle" "$program.by-rattle" || well=0
passed=$((passed + well)) failed=$((failed + 1 - well))

# rt ci checks the static library's crate and builds no library of it, so this has rt build it, over the libraries that rt ci has left.
count '([0-9]+) passed, ([0-9]+) failed' tools/bindings.sh --after-ci

echo "$passed passed, $failed failed"
((failed == 0))
