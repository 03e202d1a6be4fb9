#!/usr/bin/env bash
# Measures tasks of btreekv beside what a user would pick instead: the same pairs of texts in sqlite3 (a table with a primary key), in cdb and in LMDB,
# as far as they are there. A time is the least of several runs, and the memory is that of one more run. What a program writes is compared with what
# the first one wrote, and the script stops if it differs. It writes the table, and the plot with gnuplot, into bench/README.md.
#
#     bench/peers.sh [COUNT] [PROGRAM]
#
# COUNT is the number of pairs, if not 1000000. PROGRAM is the built program, if not crates/btreekv/out/btreekv. It needs GNU time. RUNS and BUILDS set
# the number of runs of a task that reads, and of one that writes a file, if not 5 and 3.
set -euo pipefail
export LC_ALL=C
cd "$(dirname "${BASH_SOURCE[0]}")/.."

stop() {
    echo "peers: $*" >&2
    exit 1
}

count=${1:-1000000} program=${2:-crates/btreekv/out/btreekv} runs=${RUNS:-5} builds=${BUILDS:-3}
[[ $count =~ ^[1-9][0-9]{3,8}$ ]] || stop "COUNT is no number of 4 to 9 digits: $count"
[[ $runs =~ ^[1-9][0-9]*$ && $builds =~ ^[1-9][0-9]*$ ]] || stop "RUNS or BUILDS is no number above 0: $runs, $builds"
[[ -f $program && -x $program ]] || stop "no program at $program (make programs builds it)"
[[ -x /usr/bin/time ]] || stop "GNU time isn't installed"
program=$(realpath "$program")
singles=50
work=$(mktemp -d)
trap 'rm -rf "$work"' EXIT

# The inputs. The order of the unsorted lines, and of the keys to look up, is one of random numbers.
seq -f '%.0f' 1 "$count" | awk '{ printf "key %09d\tvalue of %.0f\n", $1, $1 * 7919 }' > "$work/lines"
awk 'BEGIN { srand(1) } { printf "%.9f\t%s\n", rand(), $0 }' "$work/lines" | sort | cut -f 2- > "$work/unsorted"
head -n 100000 "$work/unsorted" | cut -f 1 > "$work/keys"
mapfile -t keys < <(head -n "$singles" "$work/keys")
low=$(printf 'key %09d' $((count / 2 - 499))) high=$(printf 'key %09d' $((count / 2 + 500)))
prefix=${low%???}
# Three of four changes put a value, two of these for a key that isn't there, and each fourth deletes a key.
awk -F '\t' -v step=$((count / 1000)) 'NR % step == 0 && n < 1000 { n++; print n % 4 == 0 ? $1 : $1 (n % 2 ? "x" : "") "\tnew " n }' \
    "$work/lines" > "$work/changes"

# What sqlite3 and cdb read, in their own forms.
awk -F '\t' 'BEGIN { print "begin;" }
    NF == 1 { printf "delete from pairs where key = \047%s\047;\n", $1 }
    NF == 2 { printf "insert or replace into pairs values (\047%s\047, \047%s\047);\n", $1, $2 }
    END { print "commit;" }' "$work/changes" > "$work/statements"
for lines in lines unsorted; do
    awk -F '\t' '{ printf "+%d,%d:%s->%s\n", length($1), length($2), $1, $2 } END { print "" }' "$work/$lines" > "$work/$lines.records"
done

# A function TASK_PEER does a task: it reads the file $old and writes its output, or writes the file $new. A task without a function is a dash in the
# table. Before each program stand the words in measured.
measured=()

sorted_btreekv() { "${measured[@]}" "$program" build --strict -o "$new" "$work/lines"; }
unsorted_btreekv() { "${measured[@]}" "$program" build --sort -o "$new" "$work/unsorted"; }
piped_btreekv() { "${measured[@]}" sort "$work/unsorted" | "${measured[@]}" "$program" build --strict -o "$new"; }
update_btreekv() { "${measured[@]}" "$program" update -o "$new" "$old" "$work/changes"; }
list_btreekv() { "${measured[@]}" "$program" list "$old"; }
get_btreekv() { "${measured[@]}" "$program" get "$@" "$key" "$old"; }
many_btreekv() { "${measured[@]}" "$program" get "$@" --keys-from "$work/keys" "$old"; }
stream_btreekv() { "${measured[@]}" "$program" get "$@" --keys-from - "$old" < "$work/keys"; }
range_btreekv() { "${measured[@]}" "$program" range "$@" "$low" "$high" "$old"; }
prefix_btreekv() { "${measured[@]}" "$program" prefix "$@" "$prefix" "$old"; }

get_validated() { get_btreekv --validate; }
many_validated() { many_btreekv --validate; }
stream_validated() { stream_btreekv --validate; }
range_validated() { range_btreekv --validate; }
prefix_validated() { prefix_btreekv --validate; }

in_sqlite() { "${measured[@]}" sqlite3 "$1" '.mode tabs' "${@:2}"; }
into_sqlite() { in_sqlite "$new" 'create table pairs (key text primary key, value text) without rowid' ".import $1 pairs"; }
many_of_sqlite() {
    in_sqlite "$old" 'create temp table asked (key text)' ".import $1 asked" 'select key, value from asked cross join pairs using (key)'
}
sorted_sqlite() { into_sqlite "$work/lines"; }
unsorted_sqlite() { into_sqlite "$work/unsorted"; }
piped_sqlite() { "${measured[@]}" sort "$work/unsorted" | into_sqlite /dev/stdin; }
update_sqlite() {
    cp "$old" "$new"
    "${measured[@]}" sqlite3 "$new" < "$work/statements"
}
list_sqlite() { in_sqlite "$old" 'select key, value from pairs order by key'; }
get_sqlite() { in_sqlite "$old" "select value from pairs where key = '$key'"; }
many_sqlite() { many_of_sqlite "$work/keys"; }
stream_sqlite() { many_of_sqlite /dev/stdin < "$work/keys"; }
range_sqlite() { in_sqlite "$old" "select key, value from pairs where key between '$low' and '$high' order by key"; }
prefix_sqlite() { in_sqlite "$old" "select key, value from pairs where key >= '$prefix' and key < '$prefix~' order by key"; }

sorted_cdb() { "${measured[@]}" cdb -c "$new" "$work/lines.records"; }
unsorted_cdb() { "${measured[@]}" cdb -c "$new" "$work/unsorted.records"; }
# A record begins with the lengths of its key and value, as in +13,10:key 000000001->value of 1.
update_cdb() {
    "${measured[@]}" cdb -d "$old" | awk '
        NR == FNR { changed[$1] = 1; if (NF == 2) printf "+%d,%d:%s->%s\n", length($1), length($2), $1, $2; next }
        !(substr($0, length($2) + length($3) + 4, $2) in changed)' FS='\t' "$work/changes" FS='[+,:]' - | "${measured[@]}" cdb -c "$new"
}
list_cdb() { "${measured[@]}" cdb -d "$old"; }
get_cdb() { "${measured[@]}" cdb -q -m "$old" "$key"; }
# The lines of such records, by keys.
plain_cdb() {
    awk -F '[+,:]' 'NF { at = length($2) + length($3) + 4; print substr($0, at, $2) "\t" substr($0, at + $2 + 2, $3) }' | sort
}

# LMDB has no program that looks keys up, so Python does.
cat > "$work/peer.py" << 'PYTHON'
import itertools, lmdb, sys

task, path, *words = sys.argv[1:]
words = [word.encode() for word in words]
writes = task in ("append", "put", "update")


def lines():
    return (line.rstrip(b"\n") for line in sys.stdin.buffer)


def write(entries):
    sys.stdout.buffer.writelines(b"%b\t%b\n" % entry for entry in entries)


with lmdb.open(path, subdir=False, map_size=1 << 36, readonly=not writes) as base, base.begin(write=writes) as pairs:
    cursor = pairs.cursor()
    if task in ("append", "put"):
        cursor.putmulti((tuple(line.split(b"\t", 1)) for line in lines()), append=task == "append")
    elif task == "update":
        for key, tab, value in (line.partition(b"\t") for line in lines()):
            pairs.put(key, value) if tab else pairs.delete(key)
    elif task == "list":
        write(cursor)
    elif task == "get":
        print(pairs.get(words[0]).decode())
    elif task == "many":
        write(cursor.getmulti(lines()))
    elif cursor.set_range(words[0]):
        last = (lambda key: key <= words[1]) if task == "range" else (lambda key: key.startswith(words[0]))
        write(itertools.takewhile(lambda entry: last(entry[0]), cursor))
PYTHON
python=
for candidate in python3 /usr/bin/python3; do
    [[ -n $python ]] || python=$("$candidate" -c 'import lmdb, sys; print(sys.executable)' 2> /dev/null) || true
done
in_lmdb() { "${measured[@]}" "$python" "$work/peer.py" "$@"; }
sorted_lmdb() { in_lmdb append "$new" < "$work/lines"; }
unsorted_lmdb() { in_lmdb put "$new" < "$work/unsorted"; }
piped_lmdb() { "${measured[@]}" sort "$work/unsorted" | in_lmdb append "$new"; }
update_lmdb() {
    cp "$old" "$new"
    in_lmdb update "$new" < "$work/changes"
}
list_lmdb() { in_lmdb list "$old"; }
get_lmdb() { in_lmdb get "$old" "$key"; }
many_lmdb() { in_lmdb many "$old" < "$work/keys"; }
stream_lmdb() { many_lmdb; }
range_lmdb() { in_lmdb range "$old" "$low" "$high"; }
prefix_lmdb() { in_lmdb prefix "$old" "$prefix"; }

peers=(btreekv validated) versions=() left_out=()
declare -A names=([btreekv]=btreekv [validated]='btreekv --validate' [sqlite]=sqlite3 [cdb]=cdb [lmdb]='LMDB, by Python')
if command -v sqlite3 > /dev/null; then
    peers+=(sqlite) versions+=("sqlite3 $(sqlite3 --version | cut -d ' ' -f 1)")
else
    left_out+=(sqlite3)
fi
if command -v cdb > /dev/null; then
    peers+=(cdb) versions+=("cdb $(cdb -h | sed -n 's/.*version \([0-9.]*[0-9]\).*/\1/p')")
else
    left_out+=(cdb)
fi
if [[ -n $python ]]; then
    peers+=(lmdb)
    versions+=("$("$python" -c 'import lmdb, sys; print("LMDB", ".".join(map(str, lmdb.version())), "by Python", sys.version.split()[0])')")
else
    left_out+=(LMDB)
fi

# One run of a task, and its microseconds in took.
once() {
    local start
    rm -f "$new" "$new-lock"
    sync -f "$work"
    start=${EPOCHREALTIME/./}
    if [[ $task == get ]]; then
        for key in "${keys[@]}"; do "get_$peer"; done
    else
        "${task}_$peer"
    fi > "$work/told"
    took=$((${EPOCHREALTIME/./} - start))
}

# What the last run told, or the entries of the file that it wrote.
told() { if [[ -f $new ]]; then old=$new "list_$peer"; else cat "$work/told"; fi; }

# The least microseconds of so many runs of a task, in least, and the most megabytes of one process of one more run, in memory.
declare -A least memory
measure() {
    local task=$1 peer=$2 times=$3 cell=$1.$2 old new took run
    old=$work/old.${peer/validated/btreekv} new=$work/new.$task.$peer
    for ((run = 0; run < times; run++)); do
        once
        if [[ -z ${least[$cell]:-} ]] || ((took < least[$cell])); then least[$cell]=$took; fi
    done
    rm -f "$work/memory"
    measured=(/usr/bin/time -a -o "$work/memory" -f %M)
    once
    measured=()
    memory[$cell]=$(sort -n "$work/memory" | awk 'END { printf "%.1f", $1 * 1.024 / 1000 }')
    if [[ $peer == cdb && $task != get ]]; then told | plain_cdb; else told; fi > "$work/plain"
    [[ -f $work/expected.$task ]] || cp "$work/plain" "$work/expected.$task"
    if [[ ! -s $work/plain ]] || ! cmp -s "$work/plain" "$work/expected.$task"; then stop "what $task of ${names[$peer]} wrote is not what it should be"; fi
    if [[ $task == sorted ]]; then mv "$new" "$old"; fi
}

# A row of the table for a task, and one of a panel of the plot: the panel, how often the task is done in a run and how often it is run, and its names in
# the plot and in the table.
row() {
    local task=$1 panel=$2 calls=$3 times=$4 short=$5 label=$6 peer cell
    for peer in "${peers[@]}"; do
        if declare -F "${task}_$peer" > /dev/null; then
            echo "peers: $task of ${names[$peer]}" >&2
            measure "$task" "$peer" "$times"
        fi
    done
    {
        printf '| %s |' "$label"
        for peer in "${peers[@]}"; do
            cell=$task.$peer
            awk -v took="${least[$cell]:-}" -v calls="$calls" -v memory="${memory[$cell]:-}" 'BEGIN {
                if (took == "") { printf " – |"; exit }
                took /= calls * 1000
                printf took < 10 ? " %.2f ms" : took < 100 ? " %.1f ms" : " %.0f ms", took
                printf memory < 10 ? ", %.1f MB |" : ", %.0f MB |", memory
            }'
        done
        echo
    } >> "$work/table"
    {
        printf '"%s"' "$short"
        for peer in "${peers[@]}"; do
            cell=$task.$peer
            awk -v took="${least[$cell]:-}" -v calls="$calls" 'BEGIN { if (took == "") printf "\t-"; else printf "\t%.4f", took / calls / 1000 }'
        done
        echo
    } >> "$work/$panel"
}

# A row with the bytes of the files.
sizes() {
    local label=$1 file=$2 peer size
    printf '| %s |' "$label"
    for peer in "${peers[@]}"; do
        size=–
        [[ ! -f $file.$peer ]] || size=$(stat -c %s "$file.$peer" | sed -e :a -e 's/\([0-9]\)\([0-9]\{3\}\)\( \|$\)/\1 \2\3/' -e ta)
        printf ' %s |' "$size"
    done
    echo
}

for task in sorted unsorted piped list; do ln "$work/lines" "$work/expected.$task"; done
{
    printf '| |'
    for peer in "${peers[@]}"; do printf ' %s |' "${names[$peer]}"; done
    printf '\n|---|'
    for peer in "${peers[@]}"; do printf -- '---|'; done
    echo
} > "$work/table"
for panel in lookups builds; do
    printf 'task' > "$work/$panel"
    for peer in "${peers[@]}"; do printf '\t"%s"' "${names[$peer]}"; done >> "$work/$panel"
    echo >> "$work/$panel"
done
gets=$(wc -l < "$work/keys") changes=$(wc -l < "$work/changes")
row sorted builds 1 "$builds" 'sorted lines' 'build from sorted lines'
row unsorted builds 1 "$builds" 'unsorted lines' 'build from unsorted lines'
row piped builds 1 "$builds" 'sort, then build' '`sort` of these, and a build of what it writes'
row update builds 1 "$builds" "$changes changes" "update by $changes changes, into a new file"
row list builds 1 "$runs" 'list of all' 'list of all entries'
row get lookups "$singles" "$runs" 'one get' 'one get'
row many lookups 1 "$runs" "$gets gets" "$gets gets in one process"
row stream lookups 1 "$runs" "$gets gets,\\nkeys piped" 'the same, keys from standard input'
row range lookups 1 "$runs" 'range' 'range of 1000 entries'
row prefix lookups 1 "$runs" 'prefix' "$(grep -c "^$prefix" "$work/lines") keys by a prefix"
if [[ -n $python ]]; then
    start=${EPOCHREALTIME/./}
    for _ in "${keys[@]}"; do "$python" -c 'import lmdb'; done
    started=$(((${EPOCHREALTIME/./} - start) / singles / 1000))
fi
sizes 'bytes of the file' "$work/old" >> "$work/table"
sizes 'bytes of the file of unsorted lines' "$work/new.unsorted" >> "$work/table"

# The words by which gnuplot plots the columns of a panel that have a number.
columns() {
    local panel=$1 column between=
    for ((column = 2; column <= ${#peers[@]} + 1; column++)); do
        if awk -F '\t' -v column="$column" 'NR > 1 && $column != "-" { found = 1 } END { exit !found }' "$work/$panel"; then
            printf "%s'%s' using %d:xtic(1) linetype %d" "$between" "$work/$panel" "$column" $((column - 1))
            between=', '
        fi
    done
}

plot=
if command -v gnuplot > /dev/null; then
    gnuplot << PLOT
set terminal svg size 900,800 font 'sans-serif,14' background 'white'
set output 'bench/peers.svg'
set datafile separator '\t'
set datafile missing '-'
set style data histograms
set style histogram clustered gap 1.5
set style fill solid noborder
set logscale y
set format y '%g'
set yrange [0.1:]
set grid ytics
set tics nomirror
set xtics scale 0
set key autotitle columnheader outside top center horizontal
set ylabel 'milliseconds'
set linetype 1 linecolor rgb '#0072b2'
set linetype 2 linecolor rgb '#56b4e9'
set linetype 3 linecolor rgb '#d55e00'
set linetype 4 linecolor rgb '#009e73'
set linetype 5 linecolor rgb '#999999'
set multiplot layout 2,1
set title 'Lookups'
plot $(columns lookups)
set key off
set title 'Builds, updates and lists'
plot $(columns builds)
PLOT
    plot='![Milliseconds of each task](peers.svg)'
fi

# Words of a list, with commas between.
listed() {
    printf '%s' "$1"
    shift
    if (($#)); then printf ', %s' "$@"; fi
}

{
    cat << PAGE
## Beside other files of keys and values

\`bench/peers.sh\` measured this and wrote it, in one run on a machine with $(nproc) processors under a load of $(cut -d ' ' -f 1 /proc/loadavg).
The input has $count lines of a key and a value, $(stat -c %s "$work/lines" | awk '{ printf "%.1f", $1 / 1e6 }') MB.
PAGE
    if ((${#versions[@]})); then printf 'Beside `btreekv` stand %s, with their default settings.\n' "$(listed "${versions[@]}")"; fi
    if ((${#left_out[@]})); then printf 'Left out, because it is not installed: %s.\n' "$(listed "${left_out[@]}")"; fi
    cat << 'PAGE'

An update by `btreekv` and by cdb writes a new file. sqlite3 and LMDB change a copy here, and could change the file itself.
The old file of cdb is dumped, and `awk` puts the changes in. A dash means that a program has no such command.
For many keys of a file `btreekv` reads all of the archive into memory. Of keys from standard input it reads blocks, and keeps 8 MB of them.
A lookup validates what it takes. A range and a prefix validate what they write, and the way to it.
`list` validates all of the archive first, and so does a lookup with `--validate`.

PAGE
    cat << PAGE
A time is the least of $runs runs, or of $builds if a file is written. \`sort\` uses several processors.
Each get is a process of its own, and the time is the mean of $singles.
PAGE
    if [[ -n $python ]]; then printf 'Of each time of LMDB, %s ms are the start of Python.\n' "$started"; fi
    cat << 'PAGE'
Memory is the most that one process of a further run had resident. That of LMDB counts the pages of its file that it mapped and read.
All but cdb sync the files that they write. cdb's records, and the statements of sqlite3's update, were written beforehand.

PAGE
    cat "$work/table"
    if [[ -n $plot ]]; then printf '\n%s\n' "$plot"; fi
} > "$work/section"

# The section goes to the end of the page.
{
    printf '%s\n\n' "$(awk '/^## / { skipped = $0 == "## Beside other files of keys and values" } !skipped' bench/README.md)"
    cat "$work/section"
} > "$work/page"
cp "$work/page" bench/README.md
