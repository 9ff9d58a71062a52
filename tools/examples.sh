#!/usr/bin/env bash
# Runs each session examples/NAME.fed, also with its journals in a folder, from which it then goes on, and compares what it prints with
# examples/NAME.out. It checks the tools on them too. It is no part of the gate.
#
# usage: tools/examples.sh
#
# The built program runs them where there is one, and threads.run besides; else one `rt try` runs the sessions from the source, without proof, and
# none in a folder. The status is 0 where each session printed exactly what stands beside it, no journal in a folder is damaged, the tables stay behind a resume, the threads left
# the tables that are due, and the tools did as they should.
set -o pipefail
top=$(cd -- "$(dirname -- "${BASH_SOURCE[0]}")/.." && pwd) || exit 2
crate=$top/crates/mdbfed
room=$(mktemp -d) || exit 2
trap 'rm -rf -- "$room"' EXIT
failed=0

"$top/tools/check.py" || failed=1

mkdir "$room/cases" || exit 2
for session in "$top"/examples/*.fed; do
    name=$(basename -- "$session" .fed)
    cp -- "$session" "$room/cases/$name"
    cp -- "${session%.fed}.out" "$room/cases/$name.stdout" || exit 2
done

if [ ! -x "$crate/out/mdbfed" ]; then
    echo "examples: not built here; running the source without proof, and threads.run not at all" >&2
    (cd "$crate" && rt try --cases "$room/cases" -- replay) || failed=1
    exit "$failed"
fi
for wanted in "$room/cases"/*.stdout; do
    name=$(basename -- "$wanted" .stdout)
    "$crate/out/mdbfed" replay < "$room/cases/$name" | diff -u --label "$name, wanted" --label "$name, printed" "$wanted" - || failed=1
    mkdir "$room/journals" || exit 2
    "$crate/out/mdbfed" store "$room/journals" < "$room/cases/$name" | diff -u --label "$name, wanted" --label "$name, stored" "$wanted" - || failed=1
    "$top/tools/journal.py" "$room/journals" > "$room/records" || { echo "$name: a journal in its folder is damaged or to doubt"; failed=1; }
    "$crate/out/mdbfed" resume "$room/journals" > "$room/resumed" || { echo "$name: it doesn't go on from its folder"; failed=1; }
    diff -u --label "$name, tables wanted" --label "$name, tables behind a resume" <(grep '^table' "$wanted") <(grep '^table' "$room/resumed") || failed=1
    rm -r -- "$room/journals"
done

# What the threads print isn't the same each time, but the tables are, and all rest at the end.
threads=$top/examples/threads.run
"$crate/out/mdbfed" run < "$threads" > "$room/threads" || failed=1
grep '^table ' "$room/threads" | diff -u --label "threads, wanted" --label "threads, printed" \
    <(printf 'table %s\n' '1 1=1101' '2 1=1011' '3 1=1110') - || failed=1
"$top/tools/standing.py" "$threads" "$room/threads" end | grep -q '^all rest: ' || { echo "threads: not all rest at the end"; failed=1; }
[ "$failed" = 0 ] && echo "examples: all print what stands beside them"
exit "$failed"
