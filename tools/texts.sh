#!/usr/bin/env bash
# Runs the built program btreekv as a process of its own, and compares its status, its standard output and its line on standard error
# with what each case names; then it has 20000 lines built, listed, looked up and explained, as tools/explained.py explains them. It needs
# Python.
#
#     tools/texts.sh [PROGRAM]
#
# PROGRAM is the built program, if not crates/btreekv/out/btreekv. The status is 0 where all is as it must be.
set -euo pipefail
export LC_ALL=C

tools=$(cd "$(dirname "${BASH_SOURCE[0]}")" && pwd)
program=${1:-$tools/../crates/btreekv/out/btreekv}
[[ -f $program && -x $program ]] || { echo "texts: no program at $program" >&2; exit 1; }
program=$(cd "$(dirname "$program")" && pwd)/$(basename "$program")

work=$(mktemp -d)
trap 'rm -rf "$work"' EXIT
cd "$work"
# clap names a program in its texts as the file is named that was run
ln -s "$program" btreekv
program=$work/btreekv
failed=0

fail() {
    echo "texts: $*" >&2
    failed=1
}

# A case: the status, the first line on standard error, standard input and output with escapes, and the words.
ends() {
    local status=$1 line=$2 got=0
    printf '%b' "$3" > input
    printf '%b' "$4" > output
    shift 4
    "$program" "$@" < input > written 2> said || got=$?
    [[ $got == "$status" ]] || fail "words ${*@Q}: status $got, not $status"
    cmp -s written output || fail "words ${*@Q}: another standard output"
    [[ $(head -n 1 said) == "$line" ]] || fail "words ${*@Q}: on standard error: $(cat said)"
}

# The archive that is built of these lines, as escapes.
archive_of() {
    printf '%b' "$1" | "$program" build "${@:2}" | od -An -v -t x1 | tr -d '\n' | sed 's/ /\\x/g'
}

header='rkyvbt\x01\x00\x12\x00\x00\x00[text -> text / 5]\x00\x00'
bare='\x01\x00\x00\x00\x00\x00\x00\x00'
empty=$header$bare
three=$(archive_of 'apple\tred\nfig\tblue and green\npear\tyellow\n')
unordered=$(archive_of 'b\t1\na\t2\nb\t3\n')
sorted=$(archive_of 'a\t2\nb\t3\n')
long=$(archive_of '\xc3\xa4\t\xf0\x9d\x84\x9e\n')
nothing='00000000  72 6b 79 76 62 74 01 00  header of a typed file\n00000008  12 00 00 00              the name of the type has 18 bytes\n'
nothing+='0000000c  5b 74 65 78 74 20 2d 3e  the name of the type\n00000014  20 74 65 78 74 20 2f 20  \n0000001c  35 5d                    \n'
nothing+='0000001e  00 00                    unused\n00000020  01 00 00 00              root node: there is none\n00000024  00 00 00 00              0 entries in the map\n'
fruit=$(archive_of 'a\t1\nab\t2\nabc\t3\nb\t4\n')
quoted=$(archive_of 'q"\x08\x0c\r\x01\tx\ty\\\\\x1f\x7f\xc3\xa4\n')

# The lines of stat, of these numbers.
names=(entries levels 'least levels' 'inner nodes' leaves 'fill percent' 'inner node bytes' 'leaf bytes' 'key bytes' 'value bytes' 'map bytes'
    'unused bytes' bytes)
figures() { for name in "${names[@]}"; do printf '%s %s\\n' "$name" "$1"; shift; done; }

#    status  line on standard error                input                       output                        words
ends 0 ''                                          ''                          "$empty"                      build
ends 0 ''                                          'a\t2\nb\t3'                "$sorted"                     build
ends 0 ''                                          'a\t2\nb\t3\n'              "$sorted"                     build --strict
ends 0 ''                                          'b\t1\na\t2\nb\t3\n'        "$sorted"                     build --sort
ends 2 'btreekv: not built: entry 1 is out of order' 'b\t1\na\t2\n'            ''                            build --strict
ends 2 'btreekv: not built: entry 1 is out of order' 'b\t1\nb\t2\n'            ''                            build --strict
ends 2 'btreekv: line 1: not KEY TAB VALUE'        'a\n'                       ''                            build
ends 2 'btreekv: line 2: not KEY TAB VALUE'        'a\tb\n\nc\td\n'            ''                            build
ends 2 'btreekv: line 2: byte 1 is not UTF-8'      'a\tb\n\xff\td\n'           ''                            build
ends 2 'btreekv: line 1: byte 3 is not UTF-8'      'a\t\xff\n'                 ''                            build
ends 2 'btreekv: line 2: byte 4 is not UTF-8'      'a\tb\nc\td\xe2\x82\n'      ''                            build --sort
ends 2 'btreekv: line 1: byte 3 is not UTF-8'      '\xc3\xa4\xff\n'            ''                            build --strict
ends 0 ''                                          "$empty"                    ''                            list
ends 0 ''                                          "$three"                    'apple\tred\nfig\tblue and green\npear\tyellow\n' list
ends 0 ''                                          "$unordered"                'b\t1\na\t2\nb\t3\n'          list
ends 0 ''                                          "$long"                     '\xc3\xa4\t\xf0\x9d\x84\x9e\n' list
ends 0 ''                                          "$(archive_of '\t\n')"      '\t\n'                        list
ends 0 ''                                          "$(archive_of 'a\tb\tc\n')" 'a\tb\tc\n'                   list
ends 0 ''                                          "$empty"                    'ok 0 entries\n'              check
ends 0 ''                                          "$unordered"                'ok 3 entries\n'              check
ends 0 ''                                          "$three"                    'ok 3 entries\n'              check --strict
ends 2 'btreekv: refused: entry 1 is out of order' "$unordered"                ''                            check --strict
ends 0 ''                                          "$three"                    'blue and green\n'            get fig
ends 0 ''                                          "$(archive_of '-k\tv\n')"   'v\n'                         get -k
ends 1 ''                                          "$three"                    ''                            get banana
ends 1 ''                                          "$three"                    ''                            get ''
ends 0 ''                                          "$three"                    'apple\tred\nfig\tblue and green\n' range a fig
ends 0 ''                                          "$three"                    'fig\tblue and green\n'       range b ofen
ends 0 ''                                          "$three"                    ''                            range z a
ends 0 ''                                          "$fruit"                    'ab\t2\nabc\t3\n'            prefix ab
ends 0 ''                                          "$fruit"                    'a\t1\nab\t2\nabc\t3\nb\t4\n' prefix ''
ends 0 ''                                          "$fruit"                    ''                            prefix abcd
ends 0 ''                                          "$fruit"                    ''                            prefix c
ends 0 ''                                          "$long"                     '\xc3\xa4\t\xf0\x9d\x84\x9e\n' prefix ä
ends 0 ''                                          "$three"                    'apple\tred\n'                first
ends 0 ''                                          "$unordered"                'b\t1\n'                    first
ends 0 ''                                          "$long"                     '\xc3\xa4\t\xf0\x9d\x84\x9e\n' first
ends 1 ''                                          "$empty"                    ''                            first
ends 1 ''                                          "$empty"                    ''                            first --ndjson
ends 0 ''                                          "$three"                    'pear\tyellow\n'              last
ends 0 ''                                          "$unordered"                'b\t3\n'                    last
ends 0 ''                                          "$long"                     '\xc3\xa4\t\xf0\x9d\x84\x9e\n' last
ends 1 ''                                          "$empty"                    ''                            last
ends 1 ''                                          "$empty"                    ''                            last --null
ends 0 ''                                          "$empty"                    "$(figures 0 0 0 0 0 0 0 0 0 0 8 32 40)" stat
ends 0 ''                                          "$three"                    "$(figures 3 1 1 0 1 60 0 88 12 23 8 33 164)" stat
ends 0 ''                                          "$empty"                    '{}\n'                        list --json
ends 0 ''                                          "$three"                    '{"apple":"red","fig":"blue and green","pear":"yellow"}\n' list --json
ends 0 ''                                          "$unordered"                '{"b":"1","a":"2","b":"3"}\n' list --json
ends 0 ''                                          "$quoted"                   '{"q\\"\\b\\f\\r\\u0001":"x\\ty\\\\\\\\\\u001f\x7f\xc3\xa4"}\n' list --json
ends 0 ''                                          "$three"                    '"blue and green"\n'          get --json fig
ends 1 ''                                          "$three"                    ''                            get --json banana
ends 0 ''                                          "$empty"                    "$nothing"                    explain
ends 2 'btreekv: refused: position 0 is out of range' ''                       ''                            explain
ends 2 'btreekv: refused: position 0 is out of range' ''                       ''                            list
ends 2 'btreekv: refused: position 0 is out of range' 'abc'                    ''                            get a
ends 2 'btreekv: refused: position 0 is out of range' 'abc'                    ''                            first
ends 2 'btreekv: refused: position 0 is out of range' 'abc'                    ''                            last
ends 2 'btreekv: input failed: absent: No such file or directory (os error 2)' '' ''                     list absent
ends 2 'btreekv: input failed: .: Is a directory (os error 21)' '' ''                                    check .
ends 2 "error: 'btreekv' requires a subcommand but one was not provided" ''    ''
ends 2 "error: unrecognized subcommand 'lists'"    ''                          ''                            lists
ends 2 "error: the argument '--sort' cannot be used with '--strict'" ''        ''                            build --sort --strict

# maps of other types than texts: their header names the types, or the words do
numbers=$(archive_of '10\tten\n9\tnine\n10\tTEN\n' --types u32:text)
untyped=$(archive_of '10\tten\n9\tnine\n10\tTEN\n' --types u32:text --untyped)
ends 0 ''                                          "$numbers"                  '9\tnine\n10\tTEN\n'        list
ends 0 ''                                          "$untyped"                  '9\tnine\n10\tTEN\n'        list --types u32:text
ends 0 ''                                          "$numbers"                  '{"9":"nine","10":"TEN"}\n'  list --json
ends 0 ''                                          "$numbers"                  '{"key":"9","value":"nine"}\n{"key":"10","value":"TEN"}\n' list --ndjson
ends 0 ''                                          "$numbers"                  'key,value\n9,nine\n10,TEN\n' list --csv
ends 0 ''                                          "$numbers"                  'ok 2 entries\n'              check
ends 0 ''                                          "$numbers"                  'ok 2 entries\n'              check --strict
ends 0 ''                                          "$numbers"                  '9\tnine\n'                   first
ends 0 ''                                          "$numbers"                  'TEN\n'                       get 10
ends 1 ''                                          "$numbers"                  ''                            get 11
ends 0 ''                                          "$numbers"                  '10\tTEN\n'                   range 10 4294967295
ends 0 ''                                          "$numbers"                  '10\tTEN\n'                   last
ends 0 ''                                          "$untyped"                  '{"key":"10","value":"TEN"}\n' last --ndjson --types u32:text
ends 1 ''                                          "$(archive_of '' --types u32:text)" ''                      last
ends 0 ''                                          "$numbers"                  "$(archive_of '9\tnine\n10\tzehn\n' --types u32:text)" set 10 zehn
ends 0 ''                                          "$numbers"                  "$(archive_of '8\teight\n9\tnine\n10\tTEN\n' --types u32:text)" set 8 eight
ends 0 ''                                          "$untyped"                  "$(archive_of '9\tnine\n10\tTEN\n11\t\n' --types u32:text --untyped)" set --types u32:text 11 ''
ends 2 'btreekv: 010 is no u32'                    "$numbers"                  ''                            set 010 ten
ends 2 'btreekv: x is no u32'                      "$(archive_of 'a\t1\n' --types text:u32)" ''                set b x
ends 2 'btreekv: refused: the bytes are of type [u32 -> text / 5], not [text -> text / 5]' "$numbers" ''     set --types text:text 1 2
ends 2 'btreekv: 4294967296 is no u32'             "$numbers"                  ''                            get 4294967296
ends 2 'btreekv: 09 is no u32'                     "$numbers"                  ''                            range 09 10
ends 2 'btreekv: ten is no u32'                    "$numbers"                  ''                            range 9 ten
ends 0 ''                                          'a\t1\nb\t2\n'              "$(archive_of 'b\t2\na\t1\n' --types text:u32)" build --strict --types text:u32
ends 2 'btreekv: not built: entry 1 is out of order' '10\ta\n9\tb\n'         ''                            build --strict --types u32:text
ends 2 'btreekv: entry 2: the key is no u32'       '1\ta\n01\tb\n'            ''                            build --types u32:text
ends 2 'btreekv: entry 1: the value is no u32'     'a\t-1\nb\tx\n'            ''                            build --types text:u32
ends 2 'btreekv: line 2: not KEY TAB VALUE'        '1\ta\n2\n'                 ''                            build --types u32:text
ends 2 'btreekv: refused: the bytes are of type [u32 -> text / 5], not [text -> u32 / 5]' "$numbers" ''      list --types text:u32
ends 0 ''                                          "$numbers"                  '10\tTEN\n'                 prefix 1
ends 2 'btreekv: refused: the bytes are of type [u32 -> text / 5], not [text -> text / 5]' "$numbers" ''     stat
ends 2 'btreekv: u32 are no types KEY:VALUE (see btreekv help build)' '' ''                            build --types u32
ends 2 'btreekv: u32:number are no types KEY:VALUE (see btreekv help build)' '' ''                            build --types u32:number
ends 0 ''                                          'b\t1\na\t2\n'              "$(archive_of 'a\t2\nb\t1\n')" build --types text:text

# options, pairs and triples
options=$(archive_of '10\t7\n9\t\n' --types 'u32:option(u64)')
stops=$(archive_of 'b\t45,Bern, Wankdorf\na\t30,\n' --types 'text:(u32, text)')
months=$(archive_of '2026,10\t155\n2026,9\t1\n' --types '(u32, u32):u64')
days=$(archive_of '2026,10,1\tThursday\n2026,9,30\tWednesday\n' --types '(u32, u32, u32):text')
ends 0 ''                                          "$options"                  '9\t\n10\t7\n'             list
ends 0 ''                                          "$options"                  '{"9":"","10":"7"}\n'        list --json
ends 0 ''                                          "$options"                  '\n'                         get 9
ends 0 ''                                          "$options"                  '7\n'                        get 10
ends 0 ''                                          "$options"                  "$(archive_of '9\t0\n10\t7\n' --types 'u32:option(u64)')" set 9 0
ends 2 'btreekv: none is no option(u64)'           "$options"                  ''                           set 9 none
ends 2 'btreekv: refused: the bytes are of type [u32 -> option(u64) / 5], not [text -> text / 5]' "$options" '' stat
ends 2 'btreekv: refused: the bytes are of type [u32 -> option(u64) / 5], not [u32 -> u64 / 5]' "$options" '' list --types u32:u64
ends 0 ''                                          "$stops"                    'a\t30,\nb\t45,Bern, Wankdorf\n' list
ends 0 ''                                          "$stops"                    '45,Bern, Wankdorf\n'        get b
ends 2 'btreekv: 45 is no (u32, text)'             "$stops"                    ''                           set b 45
ends 0 ''                                          "$months"                   '2026,9\t1\n2026,10\t155\n' list
ends 0 ''                                          "$months"                   '2026,10\t155\n'            last
ends 0 ''                                          "$months"                   '2026,9\t1\n'               range 2025,12 2026,9
ends 2 'btreekv: 2026, 9 is no (u32, u32)'         "$months"                   ''                           get '2026, 9'
ends 2 'btreekv: entry 2: the key is no (u32, u32)' '1,2\t3\n1\t2\n'          ''                           build --types '(u32, u32):u32'
ends 2 'btreekv: entry 1: the value is no option(i64)' '1\t-0\n'              ''                           build --types 'u32:option(i64)'
ends 0 ''                                          "$days"                     'Thursday\n'                get 2026,10,1
ends 0 ''                                          "$days"                     '2026,9,30\tWednesday\n'   prefix 2026,9
ends 2 'btreekv: 2026,10 is no (u32, u32, u32)'    "$days"                     ''                           get 2026,10
ends 2 'btreekv: 2026,10,1,0 is no (u32, u32, u32)' "$days"                    ''                           get 2026,10,1,0
ends 2 'btreekv: u16:option(u32) are no types KEY:VALUE (see btreekv help build)' '' ''                           build --types 'u16:option(u32)'

# each type that the program has maps of: the lesser of two entries comes first. A type with parts goes with a common type, and an option is
# no key
plain=(u8 u16 u32 u64 i32 i64 text bytes)
numbered=('option(u32)' 'option(u64)' 'option(i64)')
tuples=('(u32, u32)' '(u64, u64)' '(u32, text)' '(u32, u32, u32)' '(u64, u64, u64)')
declare -A low=([i32]=-10 [i64]=-10 [text]=10 [bytes]=0f ['option(u32)']='' ['option(u64)']='' ['option(i64)']=-3 ['(u32, u32)']=9,10 ['(u64, u64)']=9,10 ['(u32, text)']=9,b ['(u32, u32, u32)']=9,9,10 ['(u64, u64, u64)']=9,9,10)
declare -A high=([i32]=-9 [i64]=9 [text]=9 [bytes]=1e ['option(u32)']=0 ['option(u64)']=4 ['option(i64)']=5 ['(u32, u32)']=10,9 ['(u64, u64)']=10,9 ['(u32, text)']=10,a ['(u32, u32, u32)']=9,10,9 ['(u64, u64, u64)']=9,10,9)
# whether the program has maps of two types
go_together() {
    [[ $1 == option* ]] && return 1
    [[ $2 == *'('* && $1 != u32 && $1 != u64 && $1 != text ]] && return 1
    [[ $1 == '('* && $2 != u32 && $2 != u64 && $2 != text ]] && return 1
    return 0
}
for key in "${plain[@]}" "${tuples[@]}" "${numbered[@]}"; do
    "$program" help build | sed '1,/^Types/d; /^$/,$d' | grep -qwF -e "$key" || fail "help of build: no type $key"
    for value in "${plain[@]}" "${numbered[@]}" "${tuples[@]}"; do
        if ! go_together "$key" "$value"; then
            ends 2 "btreekv: $key:$value are no types KEY:VALUE (see btreekv help build)" '' '' build --types "$key:$value"
            continue
        fi
        first="${low[$key]-9}\t${high[$value]-200}\n"
        second="${high[$key]-10}\t${low[$value]-7}\n"
        archive=$(archive_of "$second$first" --types "$key:$value")
        ends 0 '' "$archive" "$first$second" list
        ends 0 '' "$archive" 'ok 2 entries\n' check --strict --types "$key:$value"
    done
done

# forms: each line that --escape writes is read back, and so is each entry that --null writes
odd='{"key":"a\\tb","value":"c\\nd\\\\e"}'
tabs='a\\tb\tc\\nd\\\\e\n'
archive_in() { printf '%b' "$1" | "$program" build --sort "${@:2}" | od -An -v -t x1 | tr -d '\n' | sed 's/ /\\x/g'; }
escaped=$(archive_in "$tabs" --escape)
nulled=$(archive_in 'b\tc\nd\0a\te\0' --null)
ends 0 ''                                          "$escaped"                  "$tabs"                       list --escape
ends 0 ''                                          "$escaped"                  'a\tb\tc\nd\\e\n'            list
ends 0 ''                                          "$escaped"                  "$odd\n"                      list --ndjson
ends 0 ''                                          "$escaped"                  'c\\nd\\\\e\n'                get --escape $'a\tb'
ends 0 ''                                          "$escaped"                  "$tabs"                       range --escape a b
ends 0 ''                                          "$escaped"                  "$tabs"                       prefix --escape a
ends 0 ''                                          "$escaped"                  'a\tb\tc\nd\\e\0'            prefix --null a
ends 0 ''                                          "$nulled"                   'a\te\0b\tc\nd\0'            list --null
ends 0 ''                                          "$nulled"                   'c\nd\0'                     get --null b
ends 0 ''                                          "$three"                    '{"key":"fig","value":"blue and green"}\n' range --ndjson b ofen
ends 0 ''                                          "$three"                    '{"key":"pear","value":"yellow"}\n' prefix --ndjson p
ends 0 ''                                          "$escaped"                  "$tabs"                       first --escape
ends 0 ''                                          "$nulled"                   'a\te\0'                     first --null
ends 0 ''                                          "$three"                    '{"key":"apple","value":"red"}\n' first --ndjson
ends 0 ''                                          "$escaped"                  "$tabs"                       last --escape
ends 0 ''                                          "$nulled"                   'b\tc\nd\0'                  last --null
ends 0 ''                                          "$three"                    '{"key":"pear","value":"yellow"}\n' last --ndjson
ends 0 ''                                          "$empty"                    ''                            list --ndjson
ends 0 ''                                          'a\tb'                      "$(archive_of 'a\tb\n')"     build --sort --escape
ends 0 ''                                          'b\t1\0a\t2\0b\t3'         "$sorted"                     build --sort --null
ends 2 'btreekv: entry 2: not KEY TAB VALUE with escapes' 'a\tb\na\tb\\q\n'   ''                            build --sort --escape
ends 2 'btreekv: entry 1: not KEY TAB VALUE with escapes' 'a\tb\tc\n'         ''                            build --sort --escape
ends 2 'btreekv: entry 1: not KEY TAB VALUE with escapes' 'a\tb\\'            ''                            build --sort --escape
ends 2 'btreekv: entry 2: not KEY TAB VALUE with escapes' 'a\tb\0c'           ''                            build --sort --null
ends 2 'error: the following required arguments were not provided:' ''        ''                            build --escape
ends 2 "error: the argument '--escape' cannot be used with '--null'" ''       ''                            list --escape --null
ends 2 "error: the argument '--json' cannot be used with '--ndjson'" ''       ''                            list --json --ndjson
ends 2 "error: the argument '--escape' cannot be used with '--null'" ''       ''                            first --escape --null
ends 2 "error: the argument '--escape' cannot be used with '--null'" ''       ''                            last --escape --null

# JSON lines: those of list are read back, and others with two members that are strings
ends 0 ''                                          ''                          "$empty"                      build --ndjson
ends 0 ''                                          "$odd\n"                   "$escaped"                    build --ndjson
ends 0 ''                                          "$odd"                      "$escaped"                    build --ndjson
ends 0 ''                                          '{"key":"b","value":"3"}\n {"value" : "2", "key":"\\u0061"} \r\n' "$sorted" build --ndjson
ends 0 ''                                          '{"key":"b","value":"1"}\n{"key":"a","value":"2"}\n{"key":"b","value":"3"}\n' "$sorted" build --ndjson
ends 0 ''                                          '{"key":"\\ud834\\udd1e","value":"\xc3\xa4"}' "$(archive_of '\xf0\x9d\x84\x9e\t\xc3\xa4\n')" build --ndjson
ends 2 'btreekv: entry 2: not a JSON object of key and value' '{"key":"a","value":"b"}\n\n'                ''  build --ndjson
ends 2 'btreekv: entry 1: not a JSON object of key and value' '{"key":"a","value":1}\n'                    ''  build --ndjson
ends 2 'btreekv: entry 1: not a JSON object of key and value' '{"key":"a"}\n'                              ''  build --ndjson
ends 2 'btreekv: entry 1: not a JSON object of key and value' '{"key":"a","value":"b","more":"c"}\n'       ''  build --ndjson
ends 2 'btreekv: entry 1: not a JSON object of key and value' '["key","a"]\n'                              ''  build --ndjson
ends 2 'btreekv: entry 1: not a JSON object of key and value' '{"key":"\\ud834","value":"b"}\n'            ''  build --ndjson
ends 2 'btreekv: entry 1: not a JSON object of key and value' '{"key":"\xff","value":"b"}\n'               ''  build --ndjson
ends 2 "error: the argument '--strict' cannot be used with '--ndjson'" '' ''                                    build --strict --ndjson

# CSV and TSV: the first record is a header, and each has two fields
ends 0 ''                                          ''                          "$empty"                      build --csv
ends 0 ''                                          'key,value\n'               "$empty"                      build --csv
ends 0 ''                                          'a,b'                       "$empty"                      build --csv
ends 0 ''                                          'k,v\nb,3\na,2\n'           "$sorted"                     build --csv
ends 0 ''                                          'k,v\nb,1\na,2\nb,3'        "$sorted"                     build --csv
ends 0 ''                                          'k,v\nb,3\na,2\n'           "$sorted"                     build --sort --csv
ends 0 ''                                          'k,v\r\nb,3\r\na,2\r\n'     "$sorted"                     build --csv
ends 0 ''                                          'k,v\rb,3\ra,2\r'           "$sorted"                     build --csv
ends 0 ''                                          '\n\nk,v\n\nb,3\n\r\na,2\n\n' "$sorted"                   build --csv
ends 0 ''                                          '\xef\xbb\xbfk,v\nb,3\na,2\n' "$sorted"                   build --csv
ends 0 ''                                          '"k\n1","v,"\n"b","3"\n"a",2\n' "$sorted"                 build --csv
ends 0 ''                                          'k\tv\nb\t3\na\t2\n'        "$sorted"                     build --tsv
ends 0 ''                                          '"k\t1"\tv\n"b"\t"3"\na\t"2"' "$sorted"                   build --tsv
ends 0 ''                                          'k,v\n"",\n'                "$(archive_of '\t\n')"        build --csv
ends 0 ''                                          'k,v\n a, "b"\n'            "$(archive_of ' a\t "b"\n')"  build --csv
ends 0 ''                                          'k,v\na"b,"c"d\n'           "$(archive_of 'a"b\tcd\n')"   build --csv
ends 0 ''                                          'k,v\na,"b""c'              "$(archive_of 'a\tb"c\n')"    build --csv
ends 0 ''                                          'k\tv\na,b\tc,"d"\n'        "$(archive_of 'a,b\tc,"d"\n')" build --tsv
ends 0 ''                                          'k,v\n"a\tb","c\nd\\e"\n'   "$escaped"                    build --csv
ends 2 'btreekv: record 1: not two fields of UTF-8' 'a\n'                      ''                            build --csv
ends 2 'btreekv: record 1: not two fields of UTF-8' 'a,b,c\nd,e\n'             ''                            build --csv
ends 2 'btreekv: record 1: not two fields of UTF-8' 'a\xff,b\nc,d\n'           ''                            build --csv
ends 2 'btreekv: record 2: not two fields of UTF-8' 'k,v\na\n'                 ''                            build --csv
ends 2 'btreekv: record 3: not two fields of UTF-8' 'k,v\na,"\n\n"\nb,c,\n'    ''                            build --csv
ends 2 'btreekv: record 2: not two fields of UTF-8' 'k,v\na,b\xe2\x82\n'       ''                            build --csv
ends 2 'btreekv: record 2: not two fields of UTF-8' 'k,v\n\xff,b\na\n'         ''                            build --csv
ends 2 'btreekv: record 2: not two fields of UTF-8' 'k,v\n"a,b\nc,d\n'         ''                            build --csv
ends 2 'btreekv: record 1: not two fields of UTF-8' 'k,v\na,b\n'               ''                            build --tsv
ends 2 'btreekv: record 2: not two fields of UTF-8' 'k\tv\na\tb\tc\n'          ''                            build --tsv
ends 0 ''                                          "$empty"                    'key,value\n'                 list --csv
ends 0 ''                                          "$empty"                    'key\tvalue\n'                list --tsv
ends 0 ''                                          "$unordered"                'key,value\nb,1\na,2\nb,3\n'  list --csv
ends 0 ''                                          "$unordered"                'key\tvalue\nb\t1\na\t2\nb\t3\n' list --tsv
ends 0 ''                                          "$escaped"                  'key,value\na\tb,"c\nd\\e"\n' list --csv
ends 0 ''                                          "$escaped"                  'key\tvalue\n"a\tb"\t"c\nd\\e"\n' list --tsv
commas=$(archive_of '\t\na,b\t"c"\r\n')
ends 0 ''                                          "$commas"                   'key,value\n,\n"a,b","""c""\r"\n' list --csv
ends 0 ''                                          "$commas"                   'key\tvalue\n\t\na,b\t"""c""\r"\n' list --tsv
ends 2 'btreekv: refused: position 0 is out of range' 'abc'                    ''                            list --csv
ends 2 "error: the argument '--csv' cannot be used with '--tsv'" ''            ''                            list --csv --tsv
ends 2 "error: the argument '--csv' cannot be used with '--tsv'" ''            ''                            build --csv --tsv
ends 2 "error: the argument '--csv' cannot be used with '--strict'" ''         ''                            build --csv --strict
for word in ndjson json escape null; do
    ends 2 "error: the argument '--csv' cannot be used with '--$word'" '' ''   build --sort --csv "--$word"
    ends 2 "error: the argument '--tsv' cannot be used with '--$word'" '' ''   list --tsv "--$word"
done
printf 'k,v\na\n' > rows.csv
ends 2 'btreekv: record 2 of rows.csv: not two fields of UTF-8' '' ''          build --csv rows.csv
ends 2 'btreekv: input failed: .: Is a directory (os error 21)' '' ''          build --csv .

# What Python's module for CSV writes is read as the same entries, and it reads the same entries of what is written.
cat > tables.py <<'E'
import csv, io, json, random, subprocess, sys
def run(*words, given=b""):
    done = subprocess.run([sys.argv[1], *words], input=given, capture_output=True)
    if done.returncode or done.stderr:
        sys.exit(f"tables: {words}: status {done.returncode}: {done.stderr}")
    return done.stdout
def text_of(rows, **how):
    text = io.StringIO(newline="")
    csv.writer(text, **how).writerows(rows)
    return text.getvalue().encode()
chance = random.Random(1180)
parts = ['"', ",", "\t", "\n", "\r", "\r\n", "\\", " ", "a", "b", "\0", "#", ";", "\ufeff", "\u00e4", "\U0001d11e", '""', "'"]
for _ in range(60):
    texts = ["".join(chance.choices(parts, k=chance.randrange(5))) for _ in range(2 * chance.randrange(12))]
    rows = [["key", "value"], *map(list, zip(texts[::2], texts[1::2]))]
    entries = sorted(dict(rows[1:]).items(), key=lambda it: it[0].encode())
    archive = run("build", "--ndjson", given="".join(json.dumps({"key": k, "value": v}) + "\n" for k, v in entries).encode())
    for flag, mark in ("--csv", ","), ("--tsv", "\t"):
        for how in ({"lineterminator": "\r\n"}, {"quoting": csv.QUOTE_ALL, "lineterminator": "\n"}):
            if run("build", flag, given=text_of(rows, delimiter=mark, **how)) != archive:
                sys.exit(f"tables: {flag}: other entries than {rows}")
        written = run("list", flag, given=archive)
        if [*csv.reader(io.StringIO(written.decode(), newline=""), delimiter=mark)] != [rows[0], *map(list, entries)]:
            sys.exit(f"tables: {flag}: {written} of {entries}")
        if b"\r" not in written and written != text_of([rows[0], *entries], delimiter=mark, lineterminator="\n"):
            sys.exit(f"tables: {flag}: other quotes: {written}")
        if run("build", flag, given=written) != archive:
            sys.exit(f"tables: {flag}: another archive of {written}")
E
python3 tables.py "$program" 2> said || fail "$(cat said)"

# JSON objects: one that list writes is read back if its keys increase, and of equal keys the last value counts
no_object='btreekv: input is no JSON object of strings'
ends 0 ''                                          '{}'                        "$empty"                      build --json
ends 0 ''                                          '{"apple":"red","fig":"blue and green","pear":"yellow"}\n' "$three" build --json
ends 0 ''                                          ' { "b" : "3",\n"\\u0061":\t"2" }\r\n' "$sorted"        build --json
ends 0 ''                                          '{"b":"1","a":"2","b":"3"}\n' "$sorted"                   build --json
ends 0 ''                                          '{"b":1,"a":"2","b":"3"}'   "$sorted"                     build --json
ends 0 ''                                          '{"a\\tb":"c\\nd\\\\e"}'   "$escaped"                   build --json
ends 0 ''                                          '{"\\ud834\\udd1e":"\xc3\xa4"}' "$(archive_of '\xf0\x9d\x84\x9e\t\xc3\xa4\n')" build --json
for text in '' '[]' '"a"' 'null' '{"a":1}' '{"a":"b","c":{}}' '{"a":"b"' '{"a":"b"}{}' '{a:"b"}' '{"\\ud834":"b"}' '{"a":"\xff"}'; do
    ends 2 "$no_object" "$text" '' build --json
done
ends 2 "error: the argument '--json' cannot be used with '--strict'" ''        ''                            build --json --strict
ends 2 "error: the argument '--json' cannot be used with '--ndjson'" ''        ''                            build --json --ndjson
ends 2 "error: the argument '--json' cannot be used with '--escape'" ''        ''                            build --json --sort --escape
printf '%s' '{"b":"1","a":"2","b":"3"}' > object
printf '[]' > array
ends 0 ''                                          ''                          "$sorted"                     build --json object
ends 2 "$no_object: array"                         ''                          ''                            build --json array
ends 2 'btreekv: input failed: absent: No such file or directory (os error 2)' '' ''                           build --json absent

# typed files and others: the tree is the same, and a header of another type or version is refused
untyped=$(archive_of 'a\t2\nb\t3\n' --untyped)
[[ $sorted == "$(printf '%b' "$header" | od -An -v -t x1 | tr -d '\n' | sed 's/ /\\x/g')$untyped" ]] || fail "a typed file isn't the header and the archive"
ends 0 ''                                          ''                          "$bare"                       build --untyped
ends 0 ''                                          'a\t2\nb\t3\n'              "$untyped"                    build --untyped
ends 0 ''                                          'a\t2\nb\t3\n'              "$untyped"                    build --untyped --strict
ends 0 ''                                          'b\t3\na\t2\n'              "$untyped"                    build --untyped --sort
ends 0 ''                                          '{"key":"b","value":"3"}\n{"key":"a","value":"2"}\n' "$untyped" build --untyped --ndjson
ends 0 ''                                          'k,v\nb,3\na,2\n'           "$untyped"                    build --untyped --csv
ends 0 ''                                          "$untyped"                  'key\tvalue\na\t2\nb\t3\n'    list --tsv
ends 0 ''                                          '{"b":"3","a":"2"}'         "$untyped"                    build --untyped --json
ends 0 ''                                          "$untyped"                  'a\t2\nb\t3\n'              list
ends 0 ''                                          "$untyped"                  'ok 2 entries\n'              check --strict
ends 0 ''                                          "$untyped"                  '3\n'                         get b
foreign='rkyvbt\x01\x00\x11\x00\x00\x00[u32 -> bool / 5]\x00\x00\x00'$untyped
later='rkyvbt\x02\x00'$untyped
for words in list 'list --json' 'list --csv' check 'check --strict' stat explain first last 'get a' 'range a b' 'prefix a' 'set a b'; do
    read -ra words <<< "$words"
    ends 2 'btreekv: refused: the bytes are of type [u32 -> bool / 5], not [text -> text / 5]' "$foreign" '' "${words[@]}"
    ends 2 'btreekv: refused: the type header has version 2, not 1' "$later" '' "${words[@]}"
done

# carriage returns are part of the values, and a warning says so if each line has one
ends 0 'btreekv: warning: each line ends with CR LF, and the CR is part of the value' 'a\tb\r\n' "$(archive_of 'a\tb\r\n' 2> crs)" build
ends 0 ''                                          'a\tb\r\nc\td\n'            "$(archive_of 'a\tb\r\nc\td\n')" build

# the version, and help with examples
ends 0 ''                                          ''                          'btreekv 0.1.0\n'             --version
for command in '' build set list first last get; do
    "$program" $command --help > written 2> said && grep -q '^Examples:$' written && [[ ! -s said ]] || fail "help of '$command': $(cat said)"
done

# by name
printf '%b' "$three" > archive
ends 0 '' '' 'ok 3 entries\n' check archive
ends 0 '' '' 'yellow\n' get pear archive
ends 0 '' '' '"blue and green"\n' get --json fig archive
ends 1 '' '' '' get banana archive
ends 0 'btreekv: 118 of 164 bytes read' '' 'blue and green\n' get --stats fig archive
ends 1 'btreekv: 104 of 164 bytes read' '' '' get --stats banana archive
ends 0 'btreekv: 164 of 164 bytes read' '' 'yellow\n' get --stats --validate pear archive
ends 0 'btreekv: 164 of 164 bytes read' "$three" 'yellow\n' get --stats pear
ends 2 'btreekv: input failed: absent: No such file or directory (os error 2)' '' '' get pear absent
ends 2 'btreekv: input failed: .: Is a directory (os error 21)' '' '' get pear .
ends 2 'btreekv: input failed: .: Is a directory (os error 21)' '' '' get --validate pear .
printf 'abc' > short
ends 2 'btreekv: refused: short: position 0 is out of range' '' '' get pear short
ends 2 'btreekv: refused: short: position 0 is out of range' '' '' check short
ends 0 '' '' '00000044  leaf of 3 entries\n          key 0 is less: apple\n          key 1 is equal: fig\n          its value: blue and green\n' explain --key fig archive
ends 1 '' '' "00000044  leaf of 3 entries\n          key 0 is less: apple\n          key 1 is greater: fig\n          the key isn't there\n" explain --key banana archive
ends 1 '' "$empty" '' explain --key a
ends 0 '' "$escaped" '00000028  leaf of 1 entries\n          key 0 is equal: a\\tb\n          its value: c\\nd\\\\e\n' explain --key $'a\tb'
ends 2 'btreekv: refused: short: position 0 is out of range' '' '' explain --key pear short
ends 0 '' '' 'apple\tred\nfig\tblue and green\n' range apple fig archive
ends 0 '' '' 'fig\tblue and green\n' prefix f archive
ends 0 '' '' '{"key":"pear","value":"yellow"}\n' prefix --ndjson p archive
ends 0 '' '' '' range z a archive
ends 0 '' '' 'apple\tred\n' first archive
ends 0 '' '' '{"key":"apple","value":"red"}\n' first --ndjson archive
ends 0 'btreekv: 192 of 164 bytes read' '' 'apple\tred\n' first --stats archive
ends 0 'btreekv: 164 of 164 bytes read' '' 'apple\tred\n' first --stats --validate archive
ends 0 'btreekv: 164 of 164 bytes read' "$three" 'apple\tred\n' first --stats
ends 0 '' '' 'pear\tyellow\n' last archive
ends 0 '' '' '{"key":"pear","value":"yellow"}\n' last --ndjson archive
ends 0 'btreekv: 194 of 164 bytes read' '' 'pear\tyellow\n' last --stats archive
ends 0 'btreekv: 164 of 164 bytes read' '' 'pear\tyellow\n' last --stats --validate archive
ends 0 'btreekv: 164 of 164 bytes read' "$three" 'pear\tyellow\n' last --stats
ends 0 'btreekv: 164 of 164 bytes read' '' 'fig\tblue and green\n' range --stats --validate b ofen archive
ends 0 'btreekv: 164 of 164 bytes read' "$three" 'fig\tblue and green\n' prefix --stats f
ends 2 'btreekv: refused: short: position 0 is out of range' '' '' first short
ends 2 'btreekv: refused: short: position 0 is out of range' '' '' last short
ends 2 'btreekv: refused: short: position 0 is out of range' '' '' range a z short
ends 2 'btreekv: refused: short: position 0 is out of range' '' '' prefix a short
ends 2 'btreekv: input failed: absent: No such file or directory (os error 2)' '' '' first absent
ends 2 'btreekv: input failed: .: Is a directory (os error 21)' '' '' first .
ends 2 'btreekv: input failed: absent: No such file or directory (os error 2)' '' '' last absent
ends 2 'btreekv: input failed: .: Is a directory (os error 21)' '' '' last .
ends 2 'btreekv: input failed: absent: No such file or directory (os error 2)' '' '' range a z absent
ends 2 'btreekv: input failed: .: Is a directory (os error 21)' '' '' prefix a .
truncate -s 4294967296 huge
ends 2 'btreekv: refused: huge: buffer is longer than 4294967295 bytes' '' '' get pear huge
ends 2 'btreekv: refused: huge: buffer is longer than 4294967295 bytes' '' '' first huge
ends 2 'btreekv: refused: huge: buffer is longer than 4294967295 bytes' '' '' last huge
ends 2 'btreekv: refused: huge: buffer is longer than 4294967295 bytes' '' '' prefix pear huge
rm huge

# maps of other types: of options and pairs all of a file is read, and of others a part
printf '%b' "$numbers" > numbers
printf '%b' "$options" > options
printf '%b' "$months" > months
size=$(stat -c %s options)
ends 0 "btreekv: $size of $size bytes read" '' '7\n' get --stats 10 options
ends 0 '' '' '10\tTEN\n' prefix 1 numbers
ends 0 '' '' '2026,9\t1\n' first months
ends 0 '' '' '2026,9\t1\n' range 2025,12 2026,9 months
ends 0 '' '' '2026,10\t155\n' prefix 2026,1 months
ends 1 '' '' '10\tTEN\n' get 10 11 numbers
ends 2 'btreekv: 010 is no u32' '' '' get 9 010 numbers
ends 2 "btreekv: several keys aren't looked up in a map of type [u32 -> option(u64) / 5]" '' '' get 9 10 options
ends 0 '' '9\t\n10\n' "$(archive_of '9\t\n' --types 'u32:option(u64)')" update options
ends 2 'btreekv: line 1: the value is no option(u64)' '9\tx\n' '' update options
ends 2 'btreekv: line 1: the key is no (u32, u32)' '9\tx\n' '' update months

# Many keys: a line for each that is found, in their order.
printf 'pear\n\nbanana\nfig\npear' > keys
found='pear\tyellow\nfig\tblue and green\npear\tyellow\n'
ends 1 '' '' "$found" get --keys-from keys archive
ends 1 '' 'pear\n\nbanana\nfig\npear' "$found" get --keys-from - archive
ends 1 '' 'pear\n\nbanana\nfig\npear' "$found" get --keys-from - --validate archive
ends 0 'btreekv: 118 of 164 bytes read' 'fig\n' 'fig\tblue and green\n' get --stats --keys-from - archive
ends 0 '' '' '' get --keys-from - archive
ends 2 'btreekv: line 2: byte 2 is not UTF-8' 'fig\nf\xff\n' '' get --keys-from - archive
ends 2 'btreekv: refused: short: position 0 is out of range' 'fig\n' '' get --keys-from - short
ends 2 'btreekv: input failed: absent: No such file or directory (os error 2)' '' '' get --keys-from absent archive
ends 2 'btreekv: input failed: absent: No such file or directory (os error 2)' '' '' get --keys-from keys absent
ends 2 "error: the argument '--keys-from <KEYS>' cannot be used with '[FILE]'" '' '' get --keys-from keys pear archive
ends 2 "error: the argument '--json' cannot be used with '--keys-from <KEYS>'" '' '' get --json --keys-from keys archive
# so are three words or more, of which the last is the file
ends 1 '' '' "$found" get pear '' banana fig pear archive
ends 0 '' '' 'fig\tblue and green\napple\tred\n' get fig apple archive
ends 0 '' '' 'fig\tblue and green\napple\tred\n' get --validate fig apple archive
ends 1 '' '' '' get banana cherry archive
ends 0 'btreekv: 236 of 164 bytes read' '' 'fig\tblue and green\nfig\tblue and green\n' get --stats fig fig archive
ends 0 'btreekv: 232 of 164 bytes read' '' 'fig\tblue and green\npear\tyellow\n' get --stats --validate fig pear archive
ends 1 '' "$three" 'pear\tyellow\n' get pear fi /dev/stdin
ends 1 '' '' 'pear\tyellow\n' get -- -k pear archive
ends 2 'btreekv: refused: short: position 0 is out of range' '' '' get fig pear short
ends 2 'btreekv: input failed: absent: No such file or directory (os error 2)' '' '' get fig pear absent
ends 2 "error: the argument '--json' cannot be used with '[MORE]...'" '' '' get --json fig pear archive
ends 2 "error: the argument '--escape' cannot be used with '[MORE]...'" '' '' get --escape fig pear archive
ends 2 "error: the argument '--null' cannot be used with '[MORE]...'" '' '' get --null fig pear archive

# an input that is named - is standard input, and such an output standard output; another file of this name is ./-
printf 'pear\n' > deletion
printf '10\n' > tens
fewer=$(archive_of 'apple\tred\nfig\tblue and green\n')
ends 0 '' "$three" 'ok 3 entries\n' check -
ends 0 '' "$three" 'apple\tred\nfig\tblue and green\npear\tyellow\n' list -
ends 0 '' 'apple\tred\nfig\tblue and green\n' "$fewer" build --strict -o - -
ends 0 'btreekv: 164 of 164 bytes read' "$three" 'yellow\n' get --stats pear -
ends 1 '' "$three" "$found" get pear '' banana fig pear -
ends 1 '' "$three" "$found" get --keys-from keys -
ends 0 '' "$numbers" '9\tnine\n10\tTEN\n' get --types u32:text 9 10 -
ends 0 '' "$three" 'apple\tred\n' first -
ends 0 '' "$three" 'fig\tblue and green\n' prefix f -
ends 0 '' "$numbers" '10\tTEN\n' last -
ends 0 '' "$three" "$(archive_of 'apple\tred\nfig\t1\npear\tyellow\n')" set fig 1 -
ends 0 '' 'pear\n' "$fewer" update -o - archive -
ends 0 '' "$three" "$fewer" update - deletion
ends 0 '' "$fewer" "$three" merge - archive
ends 0 '' "$fewer" "$three" merge archive -
ends 0 '' "$fewer" 'pear\n' diff archive -
ends 0 '' "$fewer" 'pear\tyellow\n' diff - archive
ends 0 '' "$numbers" '' diff --types u32:text numbers -
ends 0 '' "$numbers" '' diff - numbers
ends 0 '' "$numbers" "$numbers" merge - numbers
ends 0 '' "$numbers" "$(archive_of '9\tnine\n' --types u32:text)" update - tens
ends 0 '' "$numbers" '10\tTEN\n' get --keys-from tens -
ends 1 '' "$numbers" '9\tnine\n' get 11 9 -
ends 2 'btreekv: x is no u32' "$numbers" '' get 9 x -
ends 2 "btreekv: several keys aren't looked up in a map of type [u32 -> option(u64) / 5]" "$options" '' get 9 10 -
"$program" merge <(cat numbers) numbers 2> said | cmp -s - numbers || fail "merge of a pipe by name: $(cat said)"
"$program" get 10 9 <(cat numbers) 2> said | cmp -s - <(printf '10\tTEN\n9\tnine\n') || fail "several keys in a pipe by name: $(cat said)"
ends 1 '' "$three" "00000044  leaf of 3 entries\n          key 0 is less: apple\n          key 1 is greater: fig\n          the key isn't there\n" explain --key banana -
ends 2 'btreekv: refused: position 0 is out of range' 'abc' '' check -
ends 2 'btreekv: refused: position 0 is out of range' 'abc' '' get a b -
ends 2 'btreekv: refused: position 0 is out of range' 'abc' '' merge archive -
ends 2 'btreekv: refused: position 0 is out of range' 'abc' '' get --types u32:text 1 2 -
ends 2 'btreekv: not written: -: it is no regular file' "$three" '' set --in-place pear 1 -
for words in 'merge - -' 'merge archive - -' 'update -' 'update - -' 'diff - -' 'get --keys-from - -'; do
    ends 2 'btreekv: two inputs are standard input' "$three" '' $words
done
"$program" top 1 - < archive > written 2> said && "$program" top 1 archive | cmp -s - written || fail "top of standard input: $(cat said)"
cp archive ./-
ends 0 '' '' 'ok 3 entries\n' check ./-
ends 2 'btreekv: refused: position 0 is out of range' 'abc' '' check -
rm ./-

# A look-up in a file, which isn't read whole, ends as one in standard input, which is: the words of get before the file, and the file.
alike() {
    local got=0 whole=0 file=${*: -1} words=("${@:1:$#-1}")
    "$program" get "${words[@]}" "$file" > written 2> said || got=$?
    "$program" get "${words[@]}" < "$file" > output 2> heard || whole=$?
    sed "s/^btreekv: refused: $file: /btreekv: refused: /" said > told
    [[ $got == "$whole" ]] && cmp -s written output && cmp -s told heard || fail "get ${*@Q}: status $got, not $whole: $(cat said)"
}
printf '%b' "$unordered" > unordered
printf '%b' "$empty" > none
ends 0 '' '' 'b\t1\n' first unordered
ends 0 '' '' 'b\t3\n' last unordered
ends 1 'btreekv: 8 of 40 bytes read' '' '' last --stats none
ends 1 'btreekv: 40 of 40 bytes read' '' '' last --stats --validate none
ends 1 'btreekv: 8 of 40 bytes read' '' '' first --stats none
ends 1 'btreekv: 40 of 40 bytes read' '' '' first --stats --validate none
for key in '' a b c; do
    alike "$key" unordered
    alike --json "$key" none
done
# texts that are longer than the buffer which a look-up has at first
python3 -c 'print("a" * 70000 + "\t" + "v" * 300000 + "\nb\tw")' | "$program" build > wide
for key in "$(python3 -c 'print("a" * 70000)')" "$(python3 -c 'print("a" * 70001)')" b; do alike "$key" wide; done

seq -f 'key %06g' 1 20000 | awk '{ print $0 "\tvalue of " $0 }' > many
"$program" build --strict many > archive || fail "20000 lines: not built"
"$program" list archive | cmp -s - many || fail "20000 lines: listed otherwise"
[[ $("$program" get 'key 012345' archive) == 'value of key 012345' ]] || fail "20000 lines: another value"
while read -r line; do
    alike "$line" archive
    alike "$line+" archive
done < <(shuf -n 20 --random-source=many many | cut -f 1)
shuf --random-source=many many > mixed
cut -f 1 mixed | "$program" get --keys-from - archive | cmp -s - mixed || fail "20000 lines: other lines of all keys"
[[ $("$program" range 'key 019999' z archive | wc -l) == 2 ]] || fail "20000 lines: another range"
[[ $("$program" prefix 'key 0123' archive | wc -l) == 100 ]] || fail "20000 lines: another prefix"
[[ $("$program" first archive) == $'key 000001\tvalue of key 000001' ]] || fail "20000 lines: another first entry"
[[ $("$program" last archive) == $'key 020000\tvalue of key 020000' ]] || fail "20000 lines: another last entry"
head -n 500 mixed | cut -f 1 | tr '\n' '\0' | xargs -0 sh -c '"$0" get "$@" archive' "$program" | cmp -s - <(head -n 500 mixed) || fail "20000 lines: other lines of 500 words"
"$program" first wide | cmp -s - <("$program" list wide | head -n 1) || fail "long texts: another first entry"
python3 -c 'print("b\tw\n" + "z" * 70000 + "\t" + "v" * 300000)' | "$program" build > wide_last
"$program" last wide_last | cmp -s - <("$program" list wide_last | tail -n 1) || fail "long texts: another last entry"
"$program" explain archive > explained || fail "20000 lines: not explained"
# The figures are those of the lines of explain.
cat > counted.py <<'E'
import re, sys
count = dict.fromkeys(["inner node", "leaf", "key", "value", "unused", "entries"], 0)
kind, levels, below = "", {}, []
for line in open("explained", encoding="utf-8"):
    line = line.rstrip("\n")
    at, size, meaning = int(line[:8], 16), len(line[10:33].split()), line[35:]
    if meaning:
        kind = meaning
    if kind in ("inner node", "leaf"):
        node, below = at, []
        count[kind] += 1
        levels[node] = 1
    if found := re.match(r"child \d+: it is at (\w+)", kind):
        levels[node] = max(levels[node], 1 + levels[int(found[1], 16)])
    if found := re.match(r"(key|value) \d+ of the node", kind):
        count[found[1]] += size
    if found := re.match(r"(\d+) entries in the map", kind):
        count["entries"] = int(found[1])
print(count["entries"], levels[node], count["inner node"], count["leaf"], count["key"], count["value"])
E
"$program" stat archive > written
[[ $(for name in "${names[@]:0:2}" "${names[@]:3:2}" "${names[@]:8:2}"; do sed -n "s/^$name //p" written; done | tr '\n' ' ') == "$(python3 counted.py) " ]] \
    || fail "20000 lines: other figures: $(cat written)"
awk '/^(entries|levels|least|fill|inner nodes|leaves)/ { next } /^bytes/ { all = $NF; next } { sum += $NF } END { exit sum != all }' written \
    || fail "20000 lines: the bytes are no sum"
[[ $(sed -n 's/^least levels //p' written) == 6 ]] || fail "20000 lines: other least levels"
"$tools/explained.py" < archive | cmp -s - explained || fail "20000 lines: explained otherwise"
# The way of a lookup, as it is known from the lines of explain.
while read -r key; do
    { "$program" explain --key "$key" archive || (($? == 1)); } | cmp -s - <("$tools/explained.py" "$key" < archive) || fail "20000 lines: another way to $key"
done < <(shuf -n 20 --random-source=many many | cut -f 1; printf '%s\n' 'key' 'key 000001' 'key 010000+' 'key 020000' 'z')
for count in 0 1 5 6 7 17 35 36 41 215; do
    head -n "$count" many | "$program" build > few
    "$program" explain few | cmp -s - <("$tools/explained.py" < few) || fail "$count lines: explained otherwise"
done
"$program" list --json archive > object
python3 -c 'import json; print(*(f"{k}\t{v}" for k, v in json.load(open("object")).items()), sep="\n")' | cmp -s - many || fail "20000 lines: another object"
shuf --random-source=many many | "$program" build --sort | cmp -s - archive || fail "20000 lines: sorted otherwise"
"$program" build --json object | cmp -s - archive || fail "20000 lines: another archive of the object"
"$program" list --ndjson archive | "$program" build --ndjson | cmp -s - archive || fail "20000 lines: another archive of JSON lines"
"$program" list --csv archive | "$program" build --csv | cmp -s - archive || fail "20000 lines: another archive of CSV"
"$program" list --tsv archive | "$program" build --tsv | cmp -s - archive || fail "20000 lines: another archive of TSV"

# A file with an error that the look-up doesn't meet, and that it meets
cp archive damaged
printf '\xff' | dd of=damaged bs=1 seek=32 conv=notrunc 2> said
ends 0 '' '' 'value of key 012345\n' get 'key 012345' damaged
ends 2 'btreekv: refused: damaged: entry at position 184 is bad' '' '' get --validate 'key 012345' damaged
ends 2 'btreekv: refused: damaged: entry at position 184 is bad' '' '' get 'key 000001' damaged
ends 0 '' '' 'key 012345\tvalue of key 012345\nkey 012346\tvalue of key 012346\n' range 'key 012345' 'key 012346' damaged
ends 2 'btreekv: refused: damaged: entry at position 184 is bad' '' '' range --validate 'key 012345' 'key 012346' damaged
ends 2 'btreekv: refused: damaged: entry at position 184 is bad' '' '' range 'key 000001' 'key 012346' damaged
ends 2 'btreekv: refused: damaged: entry at position 184 is bad' '' '' prefix 'key 00000' damaged
ends 2 'btreekv: refused: damaged: entry at position 184 is bad' '' '' first damaged
ends 0 '' '' 'key 020000\tvalue of key 020000\n' last damaged
ends 2 'btreekv: refused: damaged: entry at position 184 is bad' '' '' last --validate damaged
python3 -c '
held = open("archive", "rb").read()
at = held.rindex(b"value of key 020000")
open("damaged", "wb").write(held[:at] + b"\xff" + held[at + 1 :])
'
ends 0 '' '' 'key 000001\tvalue of key 000001\n' first damaged
"$program" first --validate damaged > written 2> said && fail "a damaged value: not refused"
[[ $(cat said) == 'btreekv: refused: damaged: entry at position '*' is bad' && ! -s written ]] || fail "a damaged value: $(cat said)"
"$program" last damaged > written 2> said && fail "a damaged last value: not refused"
[[ $(cat said) == 'btreekv: refused: damaged: entry at position '*' is bad' && ! -s written ]] || fail "a damaged last value: $(cat said)"

# Any bytes are looked up in, or refused. Where all are valid the values are alike, and so are the lines of a range and of a prefix if the
# keys increase.
head -n 215 many | "$program" build > few
cat > damaged.py <<'E'
import random, subprocess, sys
program = sys.argv[1]
chance = random.Random(61)
sound = open("few", "rb").read()
kinds = set()
for _ in range(300):
    held = bytearray(sound)
    for _ in range(chance.randrange(1, 4)):
        held[chance.choice([chance.randrange(len(held)), len(held) - 1 - chance.randrange(400)])] = chance.randrange(256)
    open("damaged", "wb").write(held)
    key = f"key {chance.randrange(217):06}"
    is_strict = subprocess.run([program, "check", "--strict", "damaged"], capture_output=True).returncode == 0
    for command, *words in (["get", key], ["range", key, "key 0001"], ["prefix", key[:-1]], ["first"], ["last"]):
        parts, whole = (subprocess.run([program, command, *flags, *words, "damaged"], capture_output=True) for flags in ([], ["--validate"]))
        kinds.add((command, parts.returncode, whole.returncode))
        is_line = parts.stderr.startswith(b"btreekv: refused: damaged: ") and parts.stderr.count(b"\n") == 1
        is_refused = parts.returncode == 2 and not parts.stdout and is_line
        if not is_refused and (parts.returncode not in (0, 1) or parts.stderr):
            sys.exit(f"damaged: {command}: status {parts.returncode}: {parts.stderr}")
        if whole.returncode != 2 and (is_strict or command in ("get", "first", "last")) and (parts.returncode, parts.stdout) != (whole.returncode, whole.stdout):
            sys.exit(f"damaged: {command} {words}: {parts.stdout} and {whole.stdout}")
for command in ("get", "range", "prefix", "first", "last"):
    if not {(command, 0, 0), (command, 0, 2), (command, 2, 2)} <= kinds:
        sys.exit(f"damaged: {command}: only {kinds}")
E
python3 damaged.py "$program" 2> said || fail "$(cat said)"

# A million lines, which are more than are held in memory, give one archive by a pipe, from a file and from what can't seek; and so they
# are built in memory. No more than 32 megabytes are resident. After an error nothing is written.
cat > resident.py <<'E'
import os, resource, subprocess, sys
status = subprocess.run(sys.argv[2:], stdin=sys.stdin, stdout=sys.stdout, close_fds=False).returncode
peak = resource.getrusage(resource.RUSAGE_CHILDREN).ru_maxrss
if peak > int(sys.argv[1]):
    print(f"resident: {peak} kilobytes", file=sys.stderr)
sys.exit(status)
E
mkdir spool
export TMPDIR=$work/spool
resident() { python3 resident.py 32768 "$program" "$@"; }
seq 1000000 1999999 | awk '{ print $0 "\tvalue of " $0 }' > million
resident build million > large 2> said || fail "a million lines: not built"
cat million | resident build 2>> said | cmp -s - large || fail "a million lines by a pipe: another archive"
resident build < million 2>> said | cmp -s - large || fail "a million lines as standard input: another archive"
resident build --strict <(cat million) 2>> said | cmp -s - large || fail "a million lines of a pipe by name: another archive"
"$program" build --sort million | cmp -s - large || fail "a million lines: another archive than of the sorted ones"
# What list and check hold is the file, and at most 8 megabytes more.
held=$(($(stat -c %s large) / 1024 + 8192))
python3 resident.py $held "$program" list large 2>> said | cmp -s - million || fail "a million lines: listed otherwise"
python3 resident.py $held "$program" list --json large 2>> said | tail -c 32 | grep -q '^.*,"1999999":"value of 1999999"}$' ||
    fail "a million lines: another JSON object"
python3 resident.py $held "$program" list --tsv large 2>> said | cmp -s - <(printf 'key\tvalue\n' && cat million) ||
    fail "a million lines: another table"
[[ $(python3 resident.py $held "$program" check --strict large 2>> said) == 'ok 1000000 entries' ]] || fail "a million lines: not checked"
[[ $(python3 resident.py $held "$program" explain large 2>> said | tail -n 1) == *'  1000000 entries in the map' ]] || fail "a million lines: not explained"
# And so do list, range, prefix and check of a map of other types.
"$program" build --types u32:text million > numbered
held=$(($(stat -c %s numbered) / 1024 + 8192))
python3 resident.py $held "$program" list numbered 2>> said | cmp -s - million || fail "a million numbers: listed otherwise"
python3 resident.py $held "$program" list --json numbered 2>> said | tail -c 32 | grep -q '^.*,"1999999":"value of 1999999"}$' ||
    fail "a million numbers: another JSON object"
python3 resident.py $held "$program" list --tsv numbered 2>> said | cmp -s - <(printf 'key\tvalue\n' && cat million) ||
    fail "a million numbers: another table"
python3 resident.py $held "$program" range --validate 1000001 1999999 numbered 2>> said | cmp -s - <(tail -n +2 million) ||
    fail "a million numbers: another range"
python3 resident.py $held "$program" prefix 1 numbered 2>> said | cmp -s - million || fail "a million numbers: other entries with a prefix"
[[ $(python3 resident.py $held "$program" check --strict numbered 2>> said) == 'ok 1000000 entries' ]] || fail "a million numbers: not checked"
[[ ! -s said ]] || fail "a million lines: on standard error: $(cat said)"
[[ $(resident get --stats 1500000 large 2> said) == 'value of 1500000' ]] || fail "a million lines: another value: $(cat said)"
read -r _ count of size words < said
[[ $of == of && $size == "$(stat -c %s large)" && $words == 'bytes read' && $count -lt 4096 ]] || fail "a million lines: a look-up: $(cat said)"
[[ $(resident first --stats large 2> said) == $'1000000\tvalue of 1000000' ]] || fail "a million lines: another first entry: $(cat said)"
read -r _ count of size words < said
[[ $of == of && $words == 'bytes read' && $count -lt 4096 ]] || fail "a million lines: the first entry: $(cat said)"
[[ $(resident last --stats large 2> said) == $'1999999\tvalue of 1999999' ]] || fail "a million lines: another last entry: $(cat said)"
read -r _ count of size words < said
[[ $of == of && $words == 'bytes read' && $count -lt 4096 ]] || fail "a million lines: the last entry: $(cat said)"
cmp -s <(resident range --stats 1500000 1500099 large 2> said) <(sed -n '500001,500100p' million) || fail "a million lines: another range: $(cat said)"
read -r _ count of size words < said
[[ $of == of && $words == 'bytes read' && $count -lt 32768 ]] || fail "a million lines: a range: $(cat said)"
unbuilt() {
    local got=0
    "$program" build "${@:2}" > written 2> said || got=$?
    [[ $got == 2 && $(cat said) == "$1" && ! -s written ]] || fail "words ${*@Q}: status $got: $(cat said)"
}
{ cat million; printf 'no entry\n'; } > bad
unbuilt 'btreekv: line 1000001 of bad: not KEY TAB VALUE' bad
unbuilt 'btreekv: line 1000001 of bad: not KEY TAB VALUE' --strict bad
unbuilt 'btreekv: line 1000001: not KEY TAB VALUE' < bad
{ cat million; printf '1999999\tagain'; } > bad
unbuilt 'btreekv: not built: bad: entry 1000000 is out of order' --strict bad
unbuilt 'btreekv: not built: entry 1000000 is out of order' --strict < bad
{ cat million; printf '1999999\tag\xc3'; } > bad
unbuilt 'btreekv: line 1000001 of bad: byte 11 is not UTF-8' bad
unbuilt 'btreekv: line 1000001: byte 11 is not UTF-8' < <(cat bad)
unbuilt 'btreekv: line 1000001: byte 11 is not UTF-8' --sort < <(cat bad)
unbuilt 'btreekv: input failed: absent: No such file or directory (os error 2)' absent
unbuilt 'btreekv: input failed: .: Is a directory (os error 21)' .
TMPDIR=$work/absent unbuilt 'btreekv: input failed' < bad
[[ -z $(ls spool) ]] || fail "a temporary file is left: $(ls spool)"

# without the memory for an archive, and with a word that isn't UTF-8
(ulimit -v 32768 && exec "$program" list large) > written 2> said && fail "list without memory: status 0"
[[ $(cat said) == 'btreekv: out of memory' && ! -s written ]] || fail "list without memory: $(cat said)"
ends 2 'btreekv: arguments failed' '' '' get $'\xff'

# Updates, merges and differences. What is expected is computed in Python, by a dict, and built from its lines. The tree is the smallest,
# so archives of one list have the same bytes.
cat > dict.py <<'E'
import sys
def entries(path):
    return dict(line.split("\t", 1) for line in open(path, encoding="utf-8").read().split("\n")[:-1])
words = sys.argv[1:]
if words[0] == "update":
    new = entries(words[1])
    for line in sys.stdin.read().split("\n"):
        key, tab, value = line.partition("\t")
        if tab:
            new[key] = value
        elif line:
            new.pop(key, None)
else:
    new = {}
    for path in words[1:]:
        new.update(entries(path))
sys.stdout.write("".join(f"{key}\t{new[key]}\n" for key in sorted(new, key=str.encode)))
E

# A case of an update: the lines of the old archive and of the changes with escapes, and words of update.
updates() {
    printf '%b' "$1" > old.lines
    printf '%b' "$2" > changes
    "$program" build --strict old.lines > old
    python3 dict.py update old.lines < changes > new.lines
    "$program" build --strict new.lines > expected
    "$program" update "${@:3}" old changes > written 2> said || fail "update ${2@Q}: $(cat said)"
    cmp -s written expected || fail "update ${2@Q}: another archive"
    [[ ! -s said ]] || fail "update ${2@Q}: on standard error: $(cat said)"
    "$program" update "${@:3}" old < changes | cmp -s - expected || fail "update ${2@Q}: another archive of standard input"
    "$program" diff old expected > changes
    "$program" update old changes | cmp -s - expected || fail "update ${2@Q}: another archive by the difference"
    "$program" diff expected expected | cmp -s - /dev/null || fail "update ${2@Q}: a difference of an archive from itself"
}
fruits='apple\tred\nfig\tblue\npear\tyellow\n'
updates ''        ''
updates ''        'a\t1\nb\nc\t3\n'
updates "$fruits" ''
updates "$fruits" 'a\tfirst\n'
updates "$fruits" 'banana\tyellow'
updates "$fruits" 'quince\tlast\n'
updates "$fruits" 'fig\tgreen\n'
updates "$fruits" 'fig\tblue\n'
updates "$fruits" 'fig\t\n'
updates "$fruits" 'fig\n'
updates "$fruits" 'apple\nfig\npear\n'
updates "$fruits" 'a\nbanana\nzebra\n'
updates "$fruits" 'a\t1\napple\nbanana\t2\nfig\tgreen\npear\nquince\t3'
updates "$fruits" 'fig\tone\ttwo\n'
updates "$fruits" 'pear\t1\nfig\t2\npear\napple\t4\nfig\t5\n' --sort
updates "$fruits" 'fig\nfig\t1\n' --sort
updates "$fruits" 'fig\t1\nfig\n' --sort
updates "$fruits" 'zoo\t1\na\t2\n' --sort
updates '\xc3\xa4\t1\n' '\xc3\xa4\t2\n\xf0\x9d\x84\x9e\t3\n'

# an empty line deletes the empty key; and lines that diff prints
printf '\tv\na\t1\nb\t2\n' | "$program" build > old
printf '\n' | "$program" update old | "$program" list | cmp -s - <(printf 'a\t1\nb\t2\n') || fail "the empty key is not deleted"
printf 'a\t1\nb\t3\nc\t4\n' | "$program" build > new
"$program" diff old new | cmp -s - <(printf '\nb\t3\nc\t4\n') || fail "diff: other lines"

# A case of an entry that is set, as an update by its line sets it: the lines of the archive with escapes, the key and the value.
sets() {
    printf '%b' "$1" | "$program" build --strict > old
    printf '%s\t%s\n' "$2" "$3" | "$program" update old > expected
    "$program" set "${@:2}" old > written 2> said || fail "set ${*:2}: $(cat said)"
    cmp -s written expected && [[ ! -s said ]] || fail "set ${*:2}: another archive"
    "$program" set "${@:2}" < old | cmp -s - expected || fail "set ${*:2}: another archive of standard input"
}
sets '' a 1
for key in fig banana a zoo '' -k; do
    sets "$fruits" "$key" blue
    sets "$fruits" "$key" ''
    sets "$fruits" "$key" --value
done
[[ $("$program" set $'a\tb' $'c\nd\\e' none | od -An -v -t x1 | tr -d '\n' | sed 's/ /\\x/g') == "$escaped" ]] || fail "set: another tab or line feed"
"$program" set 'key 012345' other archive -o changed || fail "20000 lines: not set"
"$program" list changed | cmp -s - <(sed 's/^\(key 012345\t\).*/\1other/' many) || fail "20000 lines: set otherwise"
printf '\tv\na\t1\nb\t2\n' | "$program" build > old

# A case of an error: the message, standard input with escapes, and the words. Nothing is written.
refuses() {
    local got=0
    printf '%b' "$2" | "$program" "${@:3}" > written 2> said || got=$?
    [[ $got == 2 && $(head -n 1 said) == "$1" && ! -s written ]] || fail "words ${*:3}: status $got: $(cat said)"
}
printf 'b\t1\na\t2\n' | "$program" build > unsorted
printf 'abc' > short
refuses 'btreekv: line 2: out of order' 'b\t1\na\t2\nc\t3\n' update old
refuses 'btreekv: line 3: out of order' 'b\nc\nb\nd\n' update old
refuses 'btreekv: line 4: out of order' 'a\nb\nc\nb\n' update old
refuses 'btreekv: line 2: out of order' 'b\t1\nb\t2\n' update old
refuses 'btreekv: line 1: byte 1 is not UTF-8' '\xff\na\n' update old
refuses 'btreekv: line 2: byte 3 is not UTF-8' 'a\nb\t\xff\nc\n' update --sort old
printf 'b\t1\na\t2\n' > lines
refuses 'btreekv: line 2 of lines: out of order' '' update old lines
printf 'b\xff\n' > lines
refuses 'btreekv: line 1 of lines: byte 2 is not UTF-8' '' update old lines
refuses 'btreekv: refused: unsorted: entry 1 is out of order' '' update unsorted
refuses 'btreekv: refused: short: position 0 is out of range' '' update short
refuses 'btreekv: refused: unsorted: entry 1 is out of order' '' set a b unsorted
refuses 'btreekv: refused: short: position 0 is out of range' '' set a b short
refuses 'btreekv: refused: position 0 is out of range' 'abc' set a b
refuses 'error: the following required arguments were not provided:' '' set a
refuses 'btreekv: refused: unsorted: entry 1 is out of order' '' diff old unsorted
refuses 'btreekv: refused: unsorted: entry 1 is out of order' '' diff unsorted short
refuses 'btreekv: refused: unsorted: entry 1 is out of order' '' merge old new unsorted short
refuses 'btreekv: refused: short: position 0 is out of range' '' merge short unsorted
refuses 'btreekv: refused: unsorted: entry 1 is out of order' '' merge old unsorted
for words in 'merge old absent' 'update absent' 'update old absent' 'set a b absent' 'diff absent old'; do
    read -ra words <<< "$words"
    refuses 'btreekv: input failed: absent: No such file or directory (os error 2)' '' "${words[@]}"
done
refuses 'error: the following required arguments were not provided:' '' merge old

# headers: a new file has one if the first old one has, and a foreign one is refused by its name
printf '%b' "$foreign" > foreign
printf '%b' "$later" > later
"$program" build --untyped old.lines > bare
"$program" build old.lines > typed
printf 'zebra\tblack\n' > changes
cat old.lines changes | "$program" build --sort --untyped > expected
"$program" update bare changes | cmp -s - expected || fail "update of an untyped file: another one"
"$program" set zebra black bare | cmp -s - expected || fail "set of an untyped file: another one"
"$program" build changes > more
"$program" merge bare more | cmp -s - expected || fail "merge of an untyped file: another one"
cat old.lines changes | "$program" build --sort > expected
"$program" update typed changes | cmp -s - expected || fail "update of a typed file: another one"
"$program" set zebra black typed | cmp -s - expected || fail "set of a typed file: another one"
"$program" build --untyped changes > more
"$program" merge typed more | cmp -s - expected || fail "merge of a typed file: another one"
"$program" diff bare typed | cmp -s - /dev/null || fail "diff of a typed file: other lines"
for name in foreign later; do
    why='the type header has version 2, not 1'
    [[ $name == later ]] || why='the bytes are of type [u32 -> bool / 5], not [text -> text / 5]'
    for words in "get a $name" "get --validate a $name" "get --keys-from keys $name" "update $name changes" "merge $name typed" "merge typed $name" \
        "diff $name typed" "diff typed $name" "top 1 $name" "first $name" "first --validate $name" "last $name" "get a b $name" "set a b $name"; do
        read -ra words <<< "$words"
        refuses "btreekv: refused: $name: $why" '' "${words[@]}"
    done
done

# merges
printf 'a\t1\nc\t1\ne\t1\n' > first.lines
printf 'b\t2\nc\t2\nd\t2\n' > second.lines
printf 'c\t3\nd\t3\nf\t3\n' > third.lines
printf '' > none.lines
for name in first second third none; do "$program" build "$name.lines" > "$name"; done
merges() {
    python3 dict.py merge "${@/%/.lines}" | "$program" build > expected
    "$program" merge "$@" | cmp -s - expected || fail "merge $*: another archive"
}
merges first second
merges second first
merges first second third
merges third second first
merges third second first second none
merges none none
merges none first

# merges of other types than texts, by a header or by words; what is expected is built of all lines
printf '9\tnine\n10\tten\n' > tens.lines
printf '10\tTEN\n200\ttwo hundred\n' > hundreds.lines
for name in tens hundreds; do "$program" build --types u32:text "$name.lines" > "$name"; "$program" build --types u32:text --untyped "$name.lines" > "bare_$name"; done
cat tens.lines hundreds.lines | "$program" build --types u32:text > expected
"$program" merge tens hundreds | cmp -s - expected || fail "merge of numbers: another archive"
"$program" merge tens bare_hundreds -o merged && cmp -s merged expected || fail "merge of numbers: another file"
"$program" merge --types u32:text tens hundreds | cmp -s - expected || fail "merge of numbers by words: another archive"
"$program" merge tens tens | cmp -s - tens || fail "merge of numbers with themselves: another archive"
cat hundreds.lines tens.lines | "$program" build --types u32:text --untyped > expected
"$program" merge --types u32:text bare_hundreds tens | cmp -s - expected || fail "merge of numbers without a header: another archive"
refuses 'btreekv: refused: old: the bytes are of type [text -> text / 5], not [u32 -> text / 5]' '' merge tens hundreds old
refuses 'btreekv: refused: short: position 0 is out of range' '' merge tens short hundreds
refuses 'btreekv: refused: tens: the bytes are of type [u32 -> text / 5], not [text -> text / 5]' '' merge old tens
refuses 'btreekv: input failed: absent: No such file or directory (os error 2)' '' merge tens absent
"$program" set 9 NINE tens -o tens && "$program" get 9 tens | cmp -s - <(echo NINE) || fail "a set number: another value"
refuses 'btreekv: ten is no u32' '' set ten 10 tens
"$program" get 10 200 hundreds | cmp -s - hundreds.lines || fail "get of two numbers: another text"

# values in place: one value's bytes are others, and what is expected is built of other lines
printf 'apple\t3\nfig\t4294967295\npear\t5\n' > counts.lines
for type in u8 u16 u32 u64 i32 i64; do
    sed 's/4294967295/7/' counts.lines | "$program" build --types text:$type > counts
    sed 's/4294967295/7/; s/pear\t5/pear\t127/' counts.lines | "$program" build --types text:$type > expected
    "$program" set --in-place pear 127 counts > written 2> said || fail "set --in-place of $type: $(cat said)"
    cmp -s counts expected && [[ ! -s written && ! -s said ]] || fail "set --in-place of $type: another file"
done
for type in i32 i64; do
    printf 'a\t-1\nb\t2\n' | "$program" build --types text:$type > counts
    printf 'a\t-1\nb\t-2147483648\n' | "$program" build --types text:$type > expected
    "$program" set --in-place b -2147483648 counts && cmp -s counts expected || fail "set --in-place of $type: another file"
done
"$program" build --types text:u32 --untyped counts.lines > bare_counts
sed 's/fig\t.*/fig\t0/' counts.lines | "$program" build --types text:u32 --untyped > expected
"$program" set --in-place --types text:u32 fig 0 bare_counts && cmp -s bare_counts expected || fail "set --in-place without a header: another file"
awk 'BEGIN { for (i = 0; i < 20000; i++) printf "%d\t%d\n", i, 3 * i }' | "$program" build --types u32:u64 > many_counts
awk 'BEGIN { for (i = 0; i < 20000; i++) printf "%d\t%s\n", i, i == 12345 ? "18446744073709551615" : 3 * i }' | "$program" build --types u32:u64 > expected
cp -p many_counts linked_counts; chmod 640 linked_counts; ln linked_counts other_counts
"$program" set 12345 18446744073709551615 --in-place linked_counts && cmp -s other_counts expected || fail "set --in-place of 20000 numbers: another file"
[[ $(stat -c %a linked_counts) == 640 ]] || fail "set --in-place: another mode"
"$program" build --types text:u32 counts.lines > counts
keeps() {
    local line=$1 status=$2 file=$3; shift 3; cp "$file" before
    "$program" set --in-place "$@" > written 2> said && fail "set --in-place $*: status 0"
    [[ $? == "$status" ]] || fail "set --in-place $*: another status"
    [[ $(cat said) == "$line" && ! -s written ]] || fail "set --in-place $*: $(cat said)"
    cmp -s "$file" before || fail "set --in-place $*: another file"
}
"$program" build counts.lines > count_texts
keeps 'btreekv: not written: counts: no entry has the key lime' 1 counts lime 1 counts
keeps 'btreekv: 4294967296 is no u32' 2 counts pear 4294967296 counts
keeps 'btreekv: 05 is no u32' 2 counts pear 05 counts
keeps 'btreekv: x is no u32' 2 many_counts x 5 many_counts
keeps 'btreekv: not written: count_texts: the values are no numbers' 2 count_texts pear 5 count_texts
keeps 'btreekv: not written: bare_counts: the values are no numbers' 2 bare_counts pear 5 bare_counts
keeps 'btreekv: not written: tens: the values are no numbers' 2 tens 9 5 tens
keeps 'btreekv: refused: counts: the bytes are of type [text -> u32 / 5], not [text -> u64 / 5]' 2 counts --types text:u64 pear 5 counts
keeps 'btreekv: x:u64 are no types KEY:VALUE (see btreekv help build)' 2 counts --types x:u64 pear 5 counts
refuses 'btreekv: input failed: absent: No such file or directory (os error 2)' '' set --in-place a 1 absent
refuses 'btreekv: input failed: .: Is a directory (os error 21)' '' set --in-place a 1 .
refuses 'btreekv: not written: /dev/null: it is no regular file' '' set --in-place a 1 /dev/null
refuses 'error: the following required arguments were not provided:' '' set --in-place a 1
refuses "error: the argument '--in-place' cannot be used with '--output <OUTPUT>'" '' set --in-place a 1 counts -o counts
# look-ups in maps of other types read a part of a regular file. What is expected is picked of the lines.
awk 'BEGIN { for (i = 3; i < 60000; i += 3) printf "%d\tvalue %d\n", i, i }' > threes.lines
"$program" build --types u32:text threes.lines > threes
"$program" build --types u32:text --untyped threes.lines > bare_threes
picks() {
    awk -F '\t' "$1" threes.lines > expected; shift
    "$program" "$@" > found || fail "$*: status $?"
    cmp -s found expected || fail "$*: another text"
}
for file in threes --types\ u32:text\ bare_threes; do
    # the words of the types are two
    picks '$1 == 30000 { print $2 }' get 30000 $file
    picks '$1 == 3' first $file
    picks '$1 == 59997' last $file
    picks '$1 >= 29999 && $1 <= 30100' range 29999 30100 $file
    picks '$1 == 59997' range 59995 4294967295 $file
    picks '$1 == 3 || $1 == 30000' get 3 30000 $file
    picks '$1 == 3 || $1 == 30000' get --validate 3 30000 $file
    "$program" get 30001 $file > found && fail "get of no key in $file: status 0"
    test -s found && fail "get of no key in $file: a text"
done
cut -f 1 threes.lines > keys
picks 1 get --keys-from keys threes
picks 1 get --keys-from - threes < keys
printf '3\n03\n' > bad_keys
refuses 'btreekv: line 2 of bad_keys: the key is no u32' '' get --keys-from bad_keys threes
refuses 'btreekv: 03 is no u32' '' get 3 03 threes
refuses 'btreekv: 03 is no u32' '' get 03 threes
refuses 'btreekv: 03 is no u32' '' range 03 4 threes
refuses 'btreekv: x is no u32' '' range 3 x threes
refuses 'btreekv: refused: threes: the bytes are of type [u32 -> text / 5], not [text -> u32 / 5]' '' get --types text:u32 3 threes
refuses 'btreekv: refused: threes: the bytes are of type [u32 -> text / 5], not [text -> u32 / 5]' '' get --types text:u32 3 6 threes
"$program" get --stats 30000 threes 2>&1 > found | grep -Eq "^btreekv: [0-9]{1,4} of $(stat -c %s threes) bytes read\$" || fail "get --stats of a number: more than 9999 bytes, or no line"
# an error that isn't on the way is found by --validate alone
{ head -c 200 threes | tail -c 100 | tr '\0-\377' '\377'; } > bytes
cp threes broken; dd if=bytes of=broken bs=1 seek=200 conv=notrunc 2> dd.log
"$program" last broken | cmp -s - <(tail -n 1 threes.lines) || fail "last of a broken file: another entry"
"$program" last --validate broken > found 2> errors && fail "last --validate of a broken file: status 0"
grep -q '^btreekv: refused: broken: ' errors || fail "last --validate of a broken file: another line"

# updates of other types than texts, by a header or by words; what is expected is built of the lines that are left
printf '9\tnine\n10\tten\n100\thundred\n' | "$program" build --types u32:text -o counted
"$program" list counted | "$program" build --types u32:text --untyped > bare_counted
printf '9\n10\tTEN\n11\televen\n200\n' > counted.changes
printf '10\tTEN\n11\televen\n100\thundred\n' | "$program" build --types u32:text > expected
"$program" update counted counted.changes | cmp -s - expected || fail "update of numbers: another archive"
"$program" update counted < counted.changes | cmp -s - expected || fail "update of numbers by standard input: another archive"
"$program" update counted -o recounted counted.changes && cmp -s recounted expected || fail "update of numbers: another file"
"$program" update --types u32:text counted counted.changes | cmp -s - expected || fail "update of numbers by words: another archive"
"$program" list expected | "$program" build --types u32:text --untyped > bare_expected
"$program" update --types u32:text bare_counted counted.changes | cmp -s - bare_expected || fail "update of numbers without a header: another archive"
printf '11\tx\n10\n9\n10\tTEN\n11\televen\n' > unsorted.changes
"$program" update --sort counted unsorted.changes | cmp -s - expected || fail "sorted update of numbers: another archive"
"$program" update counted /dev/null | cmp -s - counted || fail "update of numbers by no lines: another archive"
refuses 'btreekv: line 2 of unsorted.changes: out of order' '' update counted unsorted.changes
refuses 'btreekv: line 2: out of order' '10\tx\n10\ty\n' update counted
refuses 'btreekv: line 1: the key is no u32' 'ten\n10\n' update counted
refuses 'btreekv: line 2: the key is no u32' '9\n010\tten\n' update --sort counted
refuses 'btreekv: line 2: byte 4 is not UTF-8' '9\n10\t\xff\n' update counted
printf 'a\t1\nb\t2\n' | "$program" build --types text:u32 -o counts
refuses 'btreekv: line 2: the value is no u32' 'a\nb\ttwo\n' update counts
refuses 'btreekv: refused: short: position 0 is out of range' '' update --types u32:text short counted.changes
refuses 'btreekv: refused: counts: the bytes are of type [text -> u32 / 5], not [u32 -> text / 5]' '' update --types u32:text counts counted.changes

# differences of other types than texts, by a header or by words; an update by them gives the new archive
"$program" diff counted expected > differing.lines
cmp -s differing.lines <(printf '9\n10\tTEN\n11\televen\n') || fail "diff of numbers: other lines"
"$program" update counted differing.lines | cmp -s - expected || fail "diff of numbers: another archive by it"
"$program" diff expected counted | cmp -s - <(printf '9\tnine\n10\tten\n11\n') || fail "diff of numbers the other way: other lines"
"$program" diff counted counted | cmp -s - /dev/null || fail "diff of numbers from themselves: lines"
"$program" diff --types u32:text bare_counted bare_expected | cmp -s - differing.lines || fail "diff of numbers without a header: other lines"
"$program" diff counted bare_expected | cmp -s - differing.lines || fail "diff of numbers by the header of the first: other lines"
"$program" diff --types u32:text bare_counted expected | cmp -s - differing.lines || fail "diff of numbers by words: other lines"
printf '' | "$program" build --types u32:text -o uncounted
"$program" diff uncounted counted | cmp -s - <("$program" list counted) || fail "diff of no numbers: other lines"
"$program" diff counted uncounted | cmp -s - <(printf '9\n10\n100\n') || fail "diff to no numbers: other lines"
printf '00ff\t-1\nff\t2\n' | "$program" build --types bytes:i64 -o before_bytes
printf '00ff\t1\n0a\t-3\n' | "$program" build --types bytes:i64 -o after_bytes
"$program" diff before_bytes after_bytes | cmp -s - <(printf '00ff\t1\n0a\t-3\nff\n') || fail "diff of byte strings: other lines"
"$program" diff --base64 before_bytes after_bytes | cmp -s - <(printf 'AP8=\t1\nCg==\t-3\n/w==\n') || fail "diff of byte strings in base64: other lines"
refuses 'btreekv: refused: counts: the bytes are of type [text -> u32 / 5], not [u32 -> text / 5]' '' diff counted counts
refuses 'btreekv: refused: counted: the bytes are of type [u32 -> text / 5], not [text -> u32 / 5]' '' diff --types text:u32 counted short
refuses 'btreekv: refused: short: position 0 is out of range' '' diff counted short
refuses 'btreekv: refused: short: position 0 is out of range' '' diff --types u32:text short short
refuses 'btreekv: input failed: absent: No such file or directory (os error 2)' '' diff counted absent
refuses 'btreekv: input failed: absent: No such file or directory (os error 2)' '' diff --types u32:text absent counted

# keys of numbers whose texts begin with a text
"$program" prefix 10 counted | cmp -s - <(printf '10\tten\n100\thundred\n') || fail "prefix of numbers: other entries"
"$program" prefix 1 < counted | cmp -s - <(printf '10\tten\n100\thundred\n') || fail "prefix of numbers by standard input: other entries"
"$program" prefix --types u32:text --ndjson 9 bare_counted | cmp -s - <(printf '{"key":"9","value":"nine"}\n') || fail "prefix of numbers by words: other entries"
"$program" prefix 2 counted | cmp -s - /dev/null || fail "prefix of no numbers: entries"

# 20000 entries, and some 3000 changes
awk 'NR % 7 == 3 { print $0 " again" } NR % 11 == 5 { print substr($0, 1, 10) } NR % 13 == 1 { print substr($0, 1, 9) "\tnew" }' many \
    | sort -s -t $'\t' -k 1,1 | awk -F '\t' '$1 != last { print; last = $1 }' > changes
python3 dict.py update many < changes | "$program" build --strict > expected
"$program" update archive changes -o changed || fail "20000 lines: not updated"
cmp -s changed expected || fail "20000 lines: updated otherwise"
"$program" diff archive changed | "$program" update archive | cmp -s - changed || fail "20000 lines: another difference"
tac changes | "$program" update --sort archive | cmp -s - changed || fail "20000 lines: sorted otherwise"

# Sidecars: the bytes that the package for Python writes. Its module of sidecars needs no shared library.
cat > topped.py <<'E'
import pathlib, sys, types
folder = pathlib.Path(sys.argv[1]) / "bindings" / "python" / "rkyv_btree"
package = types.ModuleType("rkyv_btree")
package.__path__, package.Type, package.Key, package.Error = [str(folder)], str, str, ValueError
package._types_of = lambda key_type, value_type: (9, key_type, value_type)
sys.modules["rkyv_btree"] = package
from rkyv_btree.top import top_of
sys.stdout.buffer.write(top_of(open(sys.argv[3], "rb").read(), "text", "text", int(sys.argv[2])))
E
tops() {
    python3 topped.py "$tools/.." "$1" "$2" > expected
    "$program" top "$1" "$2" > written 2> said || fail "top $1 $2: $(cat said)"
    cmp -s written expected && [[ ! -s said ]] || fail "top $1 $2: other bytes"
    "$program" top "$1" -o topped "$2" && cmp -s topped expected || fail "top $1 -o: other bytes"
}
printf '\tv\na\t\n' | "$program" build > hollow
for levels in 1 2 3 6 32; do
    for file in none hollow unordered few wide archive; do tops "$levels" "$file"; done
done
refuses 'btreekv: refused: short: position 0 is out of range' '' top 1 short
refuses 'btreekv: input failed: absent: No such file or directory (os error 2)' '' top 1 absent
refuses "error: invalid value '0' for '<LEVELS>': 0 is not in 1..=32" '' top 0 archive
refuses "error: invalid value '33' for '<LEVELS>': 33 is not in 1..=32" '' top 33 archive
refuses 'error: the following required arguments were not provided:' '' top 1

# Files that are written: an old one is replaced and keeps its mode, an input may be the output, and an error changes nothing.
mkdir files
printf 'old' > files/out
chmod 640 files/out
"$program" build -o files/out many || fail "-o: not built"
cmp -s files/out archive && [[ $(stat -c %a files/out) == 640 ]] || fail "-o: another file or mode"
(umask 027 && "$program" build --output files/new many)
cmp -s files/new archive && [[ $(stat -c %a files/new) == 640 ]] || fail "-o: another new file or mode"
"$program" update files/out changes -o files/out && cmp -s files/out changed || fail "-o: an input that is the output"
"$program" merge files/out first -o files/out && "$program" merge changed first | cmp -s - files/out || fail "-o: merged into an input"
"$program" list files/out > listed
"$program" build --sort listed -o listed && cmp -s listed files/out || fail "-o: lines that are replaced by their archive"
ln -s out files/link
cp files/out files/set && "$program" set a b files/set -o files/set && [[ $("$program" get a files/set) == b ]] || fail "-o: an archive that is set"
rm files/set
"$program" build many -o files/link && [[ -L files/link ]] && cmp -s files/out archive || fail "-o: a link"
"$program" build many -o /dev/stdout | cat | cmp -s - archive || fail "-o: a pipe"
refuses 'btreekv: line 1: not KEY TAB VALUE' 'no entry\n' build -o files/out
refuses 'btreekv: not built: entry 1 is out of order' 'b\t1\na\t1\n' build --strict -o files/out
refuses 'btreekv: line 2: out of order' 'b\na\n' update archive -o files/out
refuses 'btreekv: output failed: absent/out: No such file or directory (os error 2)' '' update archive -o absent/out
refuses 'btreekv: output failed: absent/out: No such file or directory (os error 2)' '' set a b archive -o absent/out
refuses "$no_object" '[]' build --json -o files/out
refuses 'btreekv: output failed: files: Is a directory (os error 21)' '' build -o files
if [[ $(id -u) != 0 ]]; then
    chmod 500 files
    refuses 'btreekv: output failed: files/out: Permission denied (os error 13)' '' build -o files/out
    refuses 'btreekv: output failed: files/other: Permission denied (os error 13)' '' build -o files/other
    chmod 700 files
fi
if [[ -e /dev/full ]]; then
    refuses 'btreekv: output failed: /dev/full: No space left on device (os error 28)' '' update archive -o /dev/full
fi
cmp -s files/out archive || fail "-o: another file after an error"
[[ $(ls -A files | tr '\n' ' ') == 'link new out ' ]] || fail "-o: left in the folder: $(ls -A files)"

# An input that is standard output is refused, and stays as it is.
printf 'b\t1\n' > both.lines
"$program" build both.lines > both
ln both twin
cp both kept
cp both.lines kept.lines
same() {
    local got=0 line=$1 output=$2
    "$program" "${@:3}" >> "$output" 2> said || got=$?
    [[ $got == 2 && $(cat said) == "$line" ]] && cmp -s both kept && cmp -s both.lines kept.lines || fail "words ${*:3} to $output: status $got: $(cat said)"
}
same 'btreekv: input is output: both' both list both
same 'btreekv: input is output: both' twin list both
same 'btreekv: input is output: twin' both check twin
same 'btreekv: input is output: both' both get b both
same 'btreekv: input is output: both' both first both
same 'btreekv: input is output: both' both last both
same 'btreekv: input is output: both' both get a b both
same 'btreekv: input is output: both' both set b 2 both
same 'btreekv: input is output: both' both get --keys-from keys both
same 'btreekv: input is output: both' both get --validate b both
same 'btreekv: input is output: both' both top 1 both
same 'btreekv: input is output: both' both merge first both
same 'btreekv: input is output: both' both diff first both
same 'btreekv: input is output: both.lines' both.lines build both.lines
same 'btreekv: input is output: both.lines' both.lines build --sort both.lines
same 'btreekv: input is output: both.lines' both.lines update both both.lines
same 'btreekv: input is output: both.lines' both.lines get --keys-from both.lines first
same 'btreekv: input is output' both list < both
same 'btreekv: input is output' both set b 2 < both
same 'btreekv: input is output' both.lines build < both.lines
"$program" list both > /dev/stdout | cmp -s - both.lines || fail "a pipe is taken for an input"
"$program" update both both.lines -o both >> both 2> said && cmp -s both kept || fail "an input that -o names: $(cat said)"

# a kill at any moment leaves the old file or the new one
cat > killed.py <<'E'
import random, signal, subprocess, sys, time
program, old, new, out = sys.argv[1:5]
words = sys.argv[5:]
read = lambda path: open(path, "rb").read()
begun = time.monotonic()
subprocess.run([program, *words], check=True)
whole = time.monotonic() - begun
moments = random.Random(58)
seen = set()
for _ in range(24):
    with open(out, "wb") as file:
        file.write(read(old))
    child = subprocess.Popen([program, *words])
    time.sleep(moments.random() * whole * 1.2)
    child.send_signal(signal.SIGKILL)
    child.wait()
    held = read(out)
    if held not in (read(old), read(new)):
        sys.exit("killed: another file")
    seen.add(held == read(new))
if False not in seen:
    sys.exit("killed: no run was killed in time")
E
python3 killed.py "$program" archive large files/out build -o files/out million 2> said || fail "$(cat said)"
printf '1500000\n' > changes
"$program" update large changes > expected
python3 killed.py "$program" archive expected files/out update -o files/out large changes 2> said || fail "$(cat said)"

# after a second of reading, standard error says how much was read if it is a terminal, and only then
python3 -c '
import os, pty, subprocess, sys, time
ours, theirs = pty.openpty()
archive = open("archive", "rb").read()
child = subprocess.Popen([sys.argv[1], "check"], stdin=subprocess.PIPE, stdout=subprocess.DEVNULL, stderr=theirs)
child.stdin.write(archive[:8])
child.stdin.flush()
time.sleep(1.3)
child.stdin.write(archive[8:])
child.stdin.close()
sys.exit(child.wait() != 0 or b" bytes read" not in os.read(ours, 1000))
' "$program" || fail "a terminal: no line says how much was read"
{ head -c 8 archive; sleep 1.3; tail -c +9 archive; } | "$program" check > written 2> said
[[ $(cat written) == 'ok 20000 entries' && ! -s said ]] || fail "no terminal: on standard error: $(cat said)"

# The recipes of the manual: each line after `$ ` is run by a shell, and prints the lines that follow it.
mkdir recipes bin
ln -s "$program" bin/btreekv
cat > recipes.py <<'E'
import os, re, subprocess, sys
page, bin_folder = sys.argv[1:]
env = {**os.environ, "PATH": bin_folder + ":" + os.environ["PATH"]}
commands = 0
for block in re.findall(r"^```console\n(.*?)^```$", open(page, encoding="utf-8").read(), re.M | re.S):
    for step in re.split(r"^\$ ", block, flags=re.M)[1:]:
        command, _, wanted = step.partition("\n")
        run = subprocess.run(["bash", "-c", command], cwd="recipes", env=env, stdout=subprocess.PIPE, stderr=subprocess.STDOUT)
        if run.stdout.decode() != wanted:
            sys.exit(f"a recipe prints something else: {command}\n{run.stdout.decode()}")
        commands += 1
if commands < 20:
    sys.exit(f"only {commands} commands of recipes")
E
python3 recipes.py "$tools/../docs/BTREEKV.md" "$work/bin" 2> said || fail "$(cat said)"

# a reader that goes away ends the program with the status of SIGPIPE, and no line
leaves() {
    local got=0
    { "$program" "$@" 2> said || echo $? > status; } | head -n 1 > written
    got=$(cat status)
    [[ $got == 141 && ! -s said ]] || fail "words ${*@Q}: a reader that goes away: status $got: $(cat said)"
}
for words in 'list large' 'list --ndjson large' 'list --json large' 'list --csv large' 'range 1 2 large' 'prefix 1 large' 'build million' 'diff none large'; do
    read -ra words <<< "$words"
    leaves "${words[@]}"
done

if [[ -e /dev/full ]]; then
    got=0
    "$program" list archive > /dev/full 2> said || got=$?
    [[ $got == 2 && $(cat said) == 'btreekv: output failed: No space left on device (os error 28)' ]] || fail "a full device: status $got: $(cat said)"
    got=0
    "$program" get --stats 1500000 large > /dev/full 2> said || got=$?
    [[ $got == 2 && $(cat said) == 'btreekv: output failed: No space left on device (os error 28)' ]] || fail "a look-up to a full device: status $got: $(cat said)"
    got=0
    "$program" build million > /dev/full 2> said || got=$?
    [[ $got == 2 && $(cat said) == 'btreekv: output failed: No space left on device (os error 28)' ]] || fail "a million lines to a full device: status $got: $(cat said)"
fi

# What bash completes: the commands of the help, and of each command the flags of its help.
source "$tools/../completions/btreekv"
completes() {
    COMP_WORDS=(btreekv "$@") COMP_CWORD=$# COMPREPLY=()
    _btreekv
    printf '%s\n' "${COMPREPLY[@]}" | sort
}
mapfile -t commands < <("$program" help | sed -n '/^Commands:/,/^$/s/^  \([a-z]*\) .*/\1/p')
((${#commands[@]} > 10)) || fail "completion: the help has ${#commands[@]} commands"
cmp -s <(printf '%s\n' "${commands[@]}" --help --version | sort) <(completes '') || fail "completion: other commands than those of the help"
for command in "${commands[@]}"; do
    [[ $command != help ]] || continue
    cmp -s <("$program" help "$command" | grep -o '^ *\(-., \)\?--[a-z0-9-]*' | grep -o -e '--.*' | sort) <(completes "$command" -) ||
        fail "completion of $command: other flags than those of its help"
done
[[ $(completes list arch) == archive ]] || fail "completion: no file"

exit "$failed"
