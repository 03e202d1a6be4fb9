#!/usr/bin/env bash
# Has btreearc build an archive of two lines and list it again, prints both, and compares them. The program runs by rt try, which compiles
# it with checks and without its proof. RT is rt's command, if not rt.
#
#     tools/run.sh
set -euo pipefail
export LC_ALL=C
cd "$(dirname "${BASH_SOURCE[0]}")/../crates/btreearc"
read -ra rt <<< "${RT:-rt}"

work=$(mktemp -d)
trap 'rm -rf "$work"' EXIT

failed() {
    cat "$work/said" >&2
    echo "tools/run.sh: $*" >&2
    exit 1
}

# rt compiles the program once for both commands, and wants both inputs before: what is listed is what must be built.
zeros='\0\0\0\0'
mkdir "$work/cases"
printf '7 11\n8 12\n' > "$work/lines"
{
    printf 'rkyvbt\1\0\20\0\0\0[u32 -> u32 / 5]\0\0\0\0'"$zeros"
    printf '\7\0\0\0\10\0\0\0'"$zeros$zeros$zeros"'\13\0\0\0\14\0\0\0'"$zeros$zeros$zeros"'\2\0\0\0\320\377\377\377\2\0\0\0'
} > "$work/archive"
cp "$work/lines" "$work/cases/build"
cp "$work/archive" "$work/cases/list"
echo build > "$work/cases/build.args"
echo list > "$work/cases/list.args"

echo "btreearc is compiled, which takes half a minute" >&2
status=0
"${rt[@]}" try --cases "$work/cases" < /dev/null > "$work/written" 2> "$work/said" || status=$?
((status == 0)) || failed "rt try ended with status $status"
for command in build list; do
    grep -q "^case=$command run=ended status=0 " "$work/said" || failed "$command didn't succeed"
done

# What each command wrote stands behind its head, and rt ends it with a line feed if it has none.
heads=$(grep -abo -e '^== build$' -e '^== list$' "$work/written") || failed "rt try named no output"
[[ $heads =~ ^0:==\ build$'\n'([0-9]+):==\ list$ ]] || failed "rt try named other outputs"
tail -c +10 "$work/written" | head -c $((BASH_REMATCH[1] - 10)) > "$work/built"
tail -c +$((BASH_REMATCH[1] + 9)) "$work/written" > "$work/listed"

echo "archive of 7 11 and 8 12:"
od -A d -t x1 -v "$work/built"
echo "listed again:"
cat "$work/listed"
cmp "$work/built" "$work/archive"
cmp "$work/listed" "$work/lines"
echo "btreearc ran without its proof, which make test checks and make programs builds on"
