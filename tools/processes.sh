#!/usr/bin/env bash
# Runs the built program as a process of its own, and compares its status, its standard output and its line on standard
# error with what each case names. Then it has more than 1 MB of lines built and listed through pipes, and a value set; and a million
# lines built within 32 megabytes. The drawings of the format and of a lookup must be those of its archives. It needs Python.
#
#     tools/processes.sh [PROGRAM]
#
# PROGRAM is the built program, if not crates/btreearc/out/btreearc. The status is 0 where all is as it must be.
set -euo pipefail
export LC_ALL=C

tools=$(cd "$(dirname "${BASH_SOURCE[0]}")" && pwd)
program=${1:-$tools/../crates/btreearc/out/btreearc}
[[ -f $program && -x $program ]] || { echo "processes: no program at $program" >&2; exit 1; }
program=$(cd "$(dirname "$program")" && pwd)/$(basename "$program")

work=$(mktemp -d)
trap 'rm -rf "$work"' EXIT
failed=0

fail() {
    echo "processes: $*" >&2
    failed=1
}

# A case: the status, the line on standard error, standard input and output with escapes, and the words.
ends() {
    local status=$1 line=$2 input=$3 output=$4 got=0
    shift 4
    printf '%b' "$input" > "$work/input"
    printf '%b' "$output" > "$work/output"
    printf '%s' "${line:+$line$'\n'}" > "$work/line"
    "$program" "$@" < "$work/input" > "$work/written" 2> "$work/said" || got=$?
    [[ $got == "$status" ]] || fail "words ${*@Q}: status $got, not $status"
    cmp -s "$work/written" "$work/output" || fail "words ${*@Q}: another standard output"
    cmp -s "$work/said" "$work/line" || fail "words ${*@Q}: on standard error: $(cat "$work/said")"
}

# The bytes of the archive that is built of these lines, as escapes.
archive_of() {
    printf '%b' "$1" | "$program" build | od -An -v -t x1 | tr -d '\n' | sed 's/ /\\x/g'
}

usage='usage: btreearc build [untyped] | list | get KEY | range LOW HIGH | check | set KEY VALUE | build-strict [untyped] | check-strict | migrate'
header='rkyvbt\x01\x00\x10\x00\x00\x00[u32 -> u32 / 5]\x00\x00\x00\x00'
none='\x00\x00\x00\x00'
one='\x01\x00\x00\x00'
empty="$one$none"
keys="\x07\x00\x00\x00$none$none$none$none"
values="\x0b\x00\x00\x00$none$none$none$none"
root="\xd0\xff\xff\xff$one"
seven="$none$keys$values$one$root"
two="$none$one\x02\x00\x00\x00$none$none$none\x0a\x00\x00\x00\x14\x00\x00\x00$none$none$none\x02\x00\x00\x00"
two+='\xd0\xff\xff\xff\x02\x00\x00\x00'
greatest="$none\xff\xff\xff\xff$none$none$none$none\xff\xff\xff\xff$none$none$none$none$one$root"
three=$(archive_of '1 10\n2 20\n9 90\n')
unordered=$(archive_of '3 30\n1 10\n2 20\n')
repeated=$(archive_of '1 10\n1 20\n')
last="$none$one$none$none$none$none\x14\x00\x00\x00$none$none$none$none$one$root"
sorted="$none$one\x02\x00\x00\x00\x03\x00\x00\x00$none$none\x0a\x00\x00\x00\x14\x00\x00\x00\x1e\x00\x00\x00$none$none"
sorted+='\x03\x00\x00\x00\xd0\xff\xff\xff\x03\x00\x00\x00'
six=$(archive_of '1 10\n2 20\n3 30\n4 40\n5 50\n6 60\n')

#    status  line on standard error                           input            output                      words
ends 0       ''                                               ''               "$header$empty"  build
ends 0       ''                                               '7 11\n'         "$header$seven"  build
ends 0       ''                                               '0000000007 11'  "$header$seven"  build
ends 0       ''                                               '1 10\n2 20\n'   "$header$two"  build
ends 0       ''                                               '4294967295 4294967295'  "$header$greatest"  build
ends 0       ''                                               ''               "$empty"                    build untyped
ends 0       ''                                               '7 11\n'         "$seven"                    build untyped
ends 0       ''                                               '1 10\n2 20\n'   "$two"                      build-strict untyped
ends 0       ''                                               "$header$seven"  '7 11\n'                    list
ends 0       ''                                               "$header$two"    'ok 2 entries\n'            check
ends 0       ''                                               "$header$two"    'ok 2 entries\n'            check-strict
ends 0       ''                                               "$header$seven"  '11\n'                      get 7
ends 0       ''                                               "$header$two"    '2 20\n'                    range 2 9
ends 0       ''                                               "$header$seven"  "$header${seven/x0b/x0d}"   set 7 13
ends 0       ''                                               "$empty"         ''                          list
ends 0       ''                                               '\xff\xff\xff\xff\x00\x00\x00\x00'  ''       list
ends 0       ''                                               "$seven"         '7 11\n'                    list
ends 0       ''                                               "$two"           '1 10\n2 20\n'              list
ends 0       ''                                               "$greatest"      '4294967295 4294967295\n'   list
ends 0       ''                                               "$empty"         'ok 0 entries\n'            check
ends 0       ''                                               "$seven"         'ok 1 entries\n'            check
ends 0       ''                                               "$two"           'ok 2 entries\n'            check
ends 1       ''                                               "$empty"         ''                          get 1
ends 0       ''                                               "$seven"         '11\n'                      get 7
ends 0       ''                                               "$two"           '20\n'                      get 2
ends 0       ''                                               "$two"           '10\n'                      get 0000000001
ends 1       ''                                               "$two"           ''                          get 3
ends 1       ''                                               "$two"           ''                          get 0
ends 0       ''                                               "$unordered"     '30\n'                      get 3
ends 1       ''                                               "$unordered"     ''                          get 1
ends 0       ''                                               "$two"           '2 20\n'                    range 2 9
ends 0       ''                                               "$three"         '2 20\n9 90\n'              range 2 9
ends 0       ''                                               "$three"         '1 10\n'                    range 1 1
ends 0       ''                                               "$three"         '1 10\n2 20\n'              range 0 2
ends 0       ''                                               "$three"         '2 20\n'                    range 0000000002 8
ends 0       ''                                               "$three"         ''                          range 3 8
ends 0       ''                                               "$three"         ''                          range 10 4294967295
ends 0       ''                                               "$three"         '1 10\n2 20\n9 90\n'        range 0 4294967295
ends 0       ''                                               "$three"         ''                          range 9 2
ends 0       ''                                               "$three"         ''                          range 4294967295 0
ends 0       ''                                               "$empty"         ''                          range 0 4294967295
ends 0       ''                                               "$seven"         "${seven/x0b/x0d}"          set 7 13
ends 1       ''                                               "$three"         ''                          set 3 99
ends 1       ''                                               "$two"           ''                          set 0 99
ends 1       ''                                               "$two"           ''                          set 10 99
ends 1       ''                                               "$unordered"     ''                          set 1 99
ends 1       ''                                               "$empty"         ''                          set 1 99
ends 0       ''                                               ''               "$header$empty"  build-strict
ends 0       ''                                               '1 10\n2 20\n'   "$header$two"  build-strict
ends 0       ''                                               '1 10\n2 20\n3 30\n4 40\n5 50\n6 60'  "$six"   build-strict
ends 0       ''                                               "$empty"         'ok 0 entries\n'            check-strict
ends 0       ''                                               "$two"           'ok 2 entries\n'            check-strict
ends 0       ''                                               "$sorted"        'ok 3 entries\n'            check-strict
ends 0       ''                                               "$empty"         "$empty"                    migrate
ends 0       ''                                               "$unordered"     "$header$sorted"  migrate
ends 0       ''                                               "$sorted"        "$sorted"                   migrate
ends 0       ''                                               "$repeated"      "$header$last"  migrate
ends 0       ''                                               "$six"           "$six"                      migrate
ends 2       'btreearc: not built: entry 1 is out of order'   '2 20\n1 10\n'   ''                          build-strict
ends 2       'btreearc: not built: entry 1 is out of order'   '1 10\n1 20\n'   ''                          build-strict
ends 2       'btreearc: not built: entry 2 is out of order'   '1 1\n3 3\n2 2'  ''                          build-strict
ends 2       'btreearc: refused: entry 1 is out of order'     "$unordered"     ''                          check-strict
ends 2       'btreearc: refused: entry 1 is out of order'     "$repeated"      ''                          check-strict
ends 2       'btreearc: refused: position 0 is out of range'  ''               ''                          check-strict
ends 2       'btreearc: refused: position 0 is out of range'  ''               ''                          migrate
ends 2       'btreearc: line 2: not KEY VALUE'                '1 2\nx'         ''                          build-strict
ends 2       'btreearc: line 2: not KEY VALUE'                '1 2\n3'         ''                          build
ends 2       'btreearc: line 2: not KEY VALUE'                '1 2\n\n3 4\n'   ''                          build
ends 2       'btreearc: line 3: not KEY VALUE'                '1 2\n3 4\n5\n7 8\n9 10\n11 12\n'  ''        build
ends 2       'btreearc: refused: position 0 is out of range'  ''               ''                          list
ends 2       'btreearc: refused: position 0 is out of range'  ''               ''                          check
ends 2       'btreearc: refused: position 0 is out of range'  ''               ''                          get 7
ends 2       'btreearc: refused: position 0 is out of range'  ''               ''                          range 1 2
ends 2       'btreearc: refused: position 0 is out of range'  ''               ''                          set 2 99
ends 2       'btreearc: refused: position 0 is out of range'  "$none\x07\x00\x00"  ''                      list
ends 2       'btreearc: refused: position 1 is misaligned'    "$none\x07$none"     ''                      list
ends 2       'btreearc: refused: position 1 is out of range'  "$one$one"       ''                          list
ends 2       'btreearc: refused: position -48 is out of range'  "$root"        ''                          list
ends 2       "$usage"                                         ''               ''
ends 2       "$usage"                                         '1 2\n'          ''                          ''
ends 2       "$usage"                                         '1 2\n'          ''                          Build
ends 2       "$usage"                                         '1 2\n'          ''                          build 1
ends 2       "$usage"                                         '1 2\n'          ''                          build untyped untyped
ends 2       "$usage"                                         "$seven"         ''                          list untyped
ends 2       "$usage"                                         "$empty"         ''                          lists
ends 2       "$usage"                                         "$empty"         ''                          list list
ends 2       "$usage"                                         "$seven"         ''                          check ''
ends 2       "$usage"                                         "$seven"         ''                          get
ends 2       "$usage"                                         "$seven"         ''                          get 7 7
ends 2       "$usage"                                         "$three"         ''                          range
ends 2       "$usage"                                         "$three"         ''                          range 2
ends 2       "$usage"                                         "$three"         ''                          range 1 2 3
ends 2       "$usage"                                         "$three"         ''                          ranges 1 2
ends 2       "$usage"                                         "$three"         ''                          set
ends 2       "$usage"                                         "$three"         ''                          set 2
ends 2       "$usage"                                         "$three"         ''                          set 2 99 3
ends 2       "$usage"                                         "$three"         ''                          sets 2 99
ends 2       "$usage"                                         "$three"         ''                          migrate 1
ends 2       "$usage"                                         "$three"         ''                          check-strict 1
ends 2       "$usage"                                         "$empty"         ''                          $'\xff'

# A header of another type or another version is refused by its name.
foreign='rkyvbt\x01\x00\x12\x00\x00\x00[text -> text / 5]\x00\x00'
for words in list check 'get 7' 'range 1 9' 'set 7 99' check-strict migrate; do
    read -ra words <<< "$words"
    ends 2 'btreearc: refused: the bytes are of type [text -> text / 5], not [u32 -> u32 / 5]' "$foreign$seven" '' "${words[@]}"
    ends 2 'btreearc: refused: the type header has version 2, not 1' "${header/x01/x02}$seven" '' "${words[@]}"
done

for word in '' x 1x -1 +1 ' 1' '2 ' 4294967296 00000000001; do
    ends 2 "$usage" "$seven" '' get "$word"
    ends 2 "$usage" "$seven" '' range "$word" 2
    ends 2 "$usage" "$seven" '' range 1 "$word"
    ends 2 "$usage" "$seven" '' set "$word" 99
    ends 2 "$usage" "$seven" '' set 7 "$word"
done

for lines in '1 x' '4294967296 1' '1 4294967296' '00000000001 2' '1  2' '1 2\r\n' '\n1 2\n' '1 2 \n'; do
    ends 2 'btreearc: line 1: not KEY VALUE' "$lines" '' build
done

# The archive of 7 and 11 with its kind, its leaf's length, its map's length or its map's pointer changed, and moved.
for words in list check 'set 7 99'; do
    read -ra words <<< "$words"
    ends 2 'btreearc: refused: position 0 holds kind 2, which is no node' \
        "\x02\x00\x00\x00$keys$values$one$root" '' "${words[@]}"
    ends 2 'btreearc: refused: Invalid length in B-tree node: len 6 was greater than maximum 5' \
        "$none$keys$values\x06\x00\x00\x00$root" '' "${words[@]}"
    ends 2 'btreearc: refused: B-tree map claimed to have 2 entries, but actually had 1' \
        "$none$keys$values$one\xd0\xff\xff\xff\x02\x00\x00\x00" '' "${words[@]}"
    ends 2 'btreearc: refused: position 1 is out of range' "$none$keys$values$one\xd1\xff\xff\xff$one" '' "${words[@]}"
    ends 2 'btreearc: refused: position 2 is misaligned' \
        "$none$keys$values$one\xd0\xff\xff\xff\xce\xff\xff\xff$one" '' "${words[@]}"
done

# A case: what is listed of the three entries where a value was set.
sets() {
    local lines=$1
    shift
    printf '%b' "$three" | "$program" set "$@" | "$program" list > "$work/listed"
    printf '%b' "$lines" | cmp -s - "$work/listed" || fail "list doesn't give the value that set ${*@Q} has written"
}

sets '1 10\n2 99\n9 90\n' 2 99
sets '1 0\n2 20\n9 90\n' 0000000001 0
sets '1 10\n2 20\n9 4294967295\n' 9 4294967295
sets '1 10\n2 20\n9 16909060\n' 9 16909060
sets '1 10\n2 20\n9 90\n' 2 0000000020
sets '1 256\n2 20\n9 90\n' 1 256

# A case: the status, the line on standard error, and a command over streams that are set up already.
streams() {
    local status=$1 line=$2 got=0
    shift 2
    printf '%s' "${line:+$line$'\n'}" > "$work/line"
    "$program" "$@" 2> "$work/said" || got=$?
    [[ $got == "$status" ]] || fail "words ${*@Q} over other streams: status $got, not $status"
    cmp -s "$work/said" "$work/line" || fail "words ${*@Q} over other streams: on standard error: $(cat "$work/said")"
}

# A directory as input, a full device as output, and a pipe that nobody reads as output.
commands=('build' 'list' 'check' 'get 2' 'range 1 9' 'set 2 99' 'build-strict' 'check-strict' 'migrate')
mkfifo "$work/pipe"
for words in "${commands[@]}"; do
    read -ra words <<< "$words"
    if [[ ${words[0]} == build* ]]; then printf '7 11\n'; else printf '%b' "$three"; fi > "$work/input"
    streams 2 'btreearc: input failed' "${words[@]}" < "$work" > "$work/written"
    [[ ! -s $work/written ]] || fail "words ${words[*]@Q} over a directory: something is written"
    streams 2 'btreearc: output failed' "${words[@]}" < "$work/input" > /dev/full
    exec 3<> "$work/pipe" 4> "$work/pipe" 3>&-
    streams 2 'btreearc: output failed' "${words[@]}" < "$work/input" >&4
    exec 4>&-
done

# What writes nothing doesn't fail there.
printf '%b' "$empty" > "$work/input"
streams 0 '' list < "$work/input" > /dev/full
streams 1 '' get 1 < "$work/input" > /dev/full
streams 2 'btreearc: line 1: not KEY VALUE' build <<< 'x' > /dev/full

# Archives of one level to three. Of the last, 7 entries in more than one node are a range, and each value is set.
awk 'BEGIN { for (i = 1; i <= 215; i++) print i, 10 * i }' > "$work/tens"
for count in 1 5 6 17 36 215; do
    head -n "$count" "$work/tens" > "$work/lines"
    "$program" build < "$work/lines" > "$work/archive"
    "$program" list < "$work/archive" | cmp -s - "$work/lines" || fail "list doesn't give back $count lines"
    [[ $("$program" check < "$work/archive") == "ok $count entries" ]] || fail "check doesn't count $count entries"
    [[ $("$program" get "$count" < "$work/archive") == "${count}0" ]] || fail "get doesn't find the last of $count"
done
"$program" range 99 105 < "$work/archive" | cmp -s - <(sed -n 99,105p "$work/tens") || fail "range 99 105 of 215 entries"
for ((key = 1; key <= 215; key++)); do
    "$program" set "$key" 7 < "$work/archive" > "$work/edited"
    mv "$work/edited" "$work/archive"
done
"$program" list < "$work/archive" | cmp -s - <(awk '{ print $1, 7 }' "$work/tens") || fail "set doesn't reach each of 215"

awk 'BEGIN { for (i = 0; i < 100000; i++) printf "%d %d\n", 4 * i + 1, 10 * i }' > "$work/lines"
(($(wc -c < "$work/lines") > 1048576)) || fail "the lines are no more than 1 MB"
"$program" build < "$work/lines" | "$program" list | cmp -s - "$work/lines" ||
    fail "list doesn't give back the lines that were built"

# A million lines, which are more than are held in memory, give one archive by a pipe and as standard input: that of these bytes, as it was
# built in memory. No more than 32 megabytes are resident. After an error nothing is written, and no file is left.
cat > "$work/resident.py" <<'E'
import resource, subprocess, sys
status = subprocess.run(sys.argv[2:], stdin=sys.stdin, stdout=sys.stdout).returncode
peak = resource.getrusage(resource.RUSAGE_CHILDREN).ru_maxrss
if peak > int(sys.argv[1]):
    print(f"resident: {peak} kilobytes", file=sys.stderr)
sys.exit(status)
E
mkdir "$work/spool"
export TMPDIR=$work/spool
resident() { python3 "$work/resident.py" 32768 "$program" "$@"; }
awk 'BEGIN { for (i = 0; i < 1000000; i++) printf "%d %d\n", 4 * i + 1, 10 * i }' > "$work/million"
resident build < "$work/million" > "$work/large" 2> "$work/said" || fail "a million lines: not built"
sum=078210dc9da914477e430f99de770f3abdbe8653ebc42cb1b82839136eb32099
[[ $(tail -c +33 "$work/large" | sha256sum) == "$sum  -" ]] || fail "a million lines: another archive"
[[ $(resident build untyped < "$work/million" 2>> "$work/said" | sha256sum) == "$sum  -" ]] || fail "a million lines: another untyped archive"
cat "$work/million" | resident build 2>> "$work/said" | cmp -s - "$work/large" || fail "a million lines by a pipe: another archive"
resident build-strict < "$work/million" 2>> "$work/said" | cmp -s - "$work/large" || fail "a million lines: another strict archive"
cat "$work/million" | resident build-strict 2>> "$work/said" | cmp -s - "$work/large" ||
    fail "a million lines by a pipe: another strict archive"
"$program" list < "$work/large" | cmp -s - "$work/million" || fail "a million lines: listed otherwise"
# lines of 4 bytes, of which the most entries are held in memory
awk 'BEGIN { for (i = 0; i < 1048575; i++) print "1 1" }' | resident build 2>> "$work/said" > "$work/large" || fail "short lines: not built"
[[ $("$program" check < "$work/large") == 'ok 1048575 entries' ]] || fail "short lines: another count"
[[ ! -s $work/said ]] || fail "a million lines: on standard error: $(cat "$work/said")"
unbuilt() {
    local got=0
    "$program" "${@:2}" > "$work/written" 2> "$work/said" || got=$?
    [[ $got == 2 && $(cat "$work/said") == "$1" && ! -s $work/written ]] || fail "words ${*@Q}: status $got: $(cat "$work/said")"
}
{ cat "$work/million"; printf '1 2 3\n'; } > "$work/bad"
unbuilt 'btreearc: line 1000001: not KEY VALUE' build < "$work/bad"
unbuilt 'btreearc: line 1000001: not KEY VALUE' build-strict < "$work/bad"
unbuilt 'btreearc: line 1000001: not KEY VALUE' build < <(cat "$work/bad")
{ cat "$work/million"; printf '3999997 1'; } > "$work/bad"
unbuilt 'btreearc: not built: entry 1000000 is out of order' build-strict < "$work/bad"
unbuilt 'btreearc: not built: entry 1000000 is out of order' build-strict < <(cat "$work/bad")
{ printf '2 1\n'; cat "$work/million"; printf 'x'; } > "$work/bad"
unbuilt 'btreearc: line 1000002: not KEY VALUE' build-strict < "$work/bad"
TMPDIR=$work/absent unbuilt 'btreearc: input failed' build < "$work/bad"
if [[ -e /dev/full ]]; then
    streams 2 'btreearc: output failed' build < "$work/million" > /dev/full
fi
[[ -z $(ls "$work/spool") ]] || fail "a temporary file is left: $(ls "$work/spool")"

awk 'BEGIN { for (i = 1; i <= 17; i++) print i, 10 * i }' | "$program" build untyped | "$tools/drawing.py" |
    cmp -s - "$tools/../docs/format.svg" || fail "docs/format.svg isn't the drawing of 17 entries; run make drawing"
awk 'BEGIN { for (i = 1; i <= 215; i++) print i, 10 * i }' | "$program" build untyped | "$tools/drawing.py" 100 |
    cmp -s - "$tools/../docs/lookup.svg" || fail "docs/lookup.svg isn't the drawing of 215 entries; run make drawing"

((failed)) || echo "processes: $program ends as it must"
exit "$failed"
