#!/usr/bin/env bash
# Proves and builds the program crates/NAME and the libraries below it, lowest first, and runs it on no input.
#
#     tools/program.sh NAME [ARGUMENT..]
#
# A crate that is proved anew gets a line as that begins, one now and then, and one at its end, all on standard error;
# of one that hasn't changed nothing is said. What rt says is shown where it fails. RT is rt's command, if not rt.
set -euo pipefail
cd "$(dirname "${BASH_SOURCE[0]}")/.."
read -ra rt <<< "${RT:-rt}"

(($# > 0)) || { echo "usage: tools/program.sh NAME [ARGUMENT..]" >&2; exit 2; }
program=$1
shift

# a job for each processor, four at most, since each takes up to 2 GB
jobs=$(nproc)
jobs=$((jobs > 4 ? 4 : jobs))

log=$(mktemp)
trap 'rm -f "$log"' EXIT

# what each crate of crates.txt stands on
declare -A uses
while IFS= read -r line; do
    line=${line%%#*}
    [[ $line == *:* ]] || continue
    read -ra words <<< "${line%%:*}"
    uses[${words[0]}]=${line#*:}
done < crates.txt
[[ -v uses[$program] ]] || { echo "tools/program.sh: crates.txt has no line for $program" >&2; exit 2; }

# the repository's libraries below a crate, each after those that it uses
declare -A found
order=()
add_below() {
    local crate
    for crate in ${uses[$1]}; do
        [[ -v uses[$crate] && ! -v found[$crate] ]] || continue
        found[$crate]=1
        add_below "$crate"
        order+=("$crate")
    done
}
add_below "$program"
order+=("$program")

# Reads what rt says while it works on a crate, keeps it in the log, and says how far it is.
follow() {
    local title=$1 start=$SECONDS told=$SECONDS begun="" far="" line
    while true; do
        if IFS= read -r -t 1 line; then
            printf '%s\n' "$line" >> "$log"
            case $line in
                "so far: 0 of "[0-9]*" functions checked"*)
                    far=${line#so far: 0 of }
                    far=", ${far%% *} functions to check"
                    ;;
                "so far: "[0-9]*" functions checked"*)
                    far=${line#so far: }
                    far=", ${far%% functions*} functions checked"
                    ;;
                "logic=proved functions="*)
                    far=${line#logic=proved functions=}
                    echo "$title: proved, ${far%% *} functions in $((SECONDS - start)) s" >&2
                    begun=1 far=""
                    ;;
                "rt: waiting "* | "rt: the check was killed"*) echo "$title: ${line#rt: }" >&2 ;;
            esac
        elif (($? <= 128)); then
            return
        fi
        if [[ -z $begun ]] && ((SECONDS - start >= 3)); then
            echo "$title: proving" >&2
            begun=1
        elif [[ -n $begun ]] && ((SECONDS - told >= 20)); then
            echo "$title: $((SECONDS - start)) s so far$far" >&2
        else
            continue
        fi
        told=$SECONDS
    done
}

failed() {
    grep -v -e ': proved$' -e '^statements ' "$log" >&2 || true
    echo "tools/program.sh: $1 isn't proved or didn't run, status $2" >&2
    exit "$2"
}

count=0
for crate in "${order[@]}"; do
    count=$((count + 1))
    title="[$count of ${#order[@]}] $crate"
    cd "crates/$crate"
    : > "$log"
    if [[ $crate == "$program" ]]; then
        "${rt[@]}" run --jobs "$jobs" -- "$@" < /dev/null 2>&1 > /dev/null | follow "$title" || failed "$crate" $?
    else
        "${rt[@]}" lib --jobs "$jobs" < /dev/null 2>&1 | follow "$title" || failed "$crate" $?
    fi
    cd ../..
done
