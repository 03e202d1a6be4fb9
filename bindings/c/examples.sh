#!/usr/bin/env bash
# Runs the two examples on archives that the test has written into the folder.
set -euo pipefail
cd "$1"
[[ $(./lookup texts.archive "key 00007") == "value 7" ]]
[[ $(./lookup texts.archive --from "key 00998") == $'key 00998\tvalue 998\nkey 00999\tvalue 999' ]]
[[ $(./lookup texts.archive --unvalidated "key 00007") == "value 7" ]]
for way in "" --unvalidated; do
    status=0
    ./lookup texts.archive $way "key 7" || status=$?
    [[ $status == 1 ]]
done
for words in "key --from" "key --unvalidated" --from --unvalidated "--strict key" "--from key 00998"; do
    status=0
    ./lookup texts.archive $words > listed 2> said || status=$?
    [[ $status == 2 && ! -s listed && $(cat said) == usage:* ]]
done
status=0
./lookup numbers.archive x 2> said || status=$?
[[ $status == 2 && $(cat said) == "lookup: the bytes are of type [u32 -> u32 / 5], not [text -> text / 5]" ]]
tail -c +33 texts.archive > untyped.archive
[[ $(./lookup untyped.archive "key 00007") == "value 7" ]]
./edit numbers.archive 14 4711
status=0
./edit numbers.archive 15 4711 || status=$?
[[ $status == 1 ]]
status=0
./edit numbers.archive 14 4294967296 2> said || status=$?
[[ $status == 2 && $(cat said) == "edit: the values of the map aren't such numbers" ]]
