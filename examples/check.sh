#!/usr/bin/env bash
# Runs the program that `rt ci` built on real folders, and compares what it writes and how it ends.
# Silent where all is as it must be.
set -u
cd "$(dirname "${BASH_SOURCE[0]}")" || exit 2
examples=$PWD
program=$examples/../crates/deltamerge/out/deltamerge
folder=$(mktemp -d) || exit 2
trap 'rm -rf "$folder"' EXIT
cd "$folder" || exit 2
failed=0

differs() { # what was tried, what came
    echo "check.sh: $1: $2" >&2
    failed=1
}

# what is tried, the script, the text and the status that it must give
runs() {
    local text
    text=$("$program" <<<"$2")
    local status=$?
    [[ $text == "$3" && $status == "$4" ]] || differs "$1" "status $status, written: $text"
}

log=_delta_log/00000000000000000000.json
cp -r "$examples/sales" sales
runs 'the example' "$(<"$examples/show.sql")" "$(<"$examples/show.expected")" 0
runs 'the example of SELECT' "$(<"$examples/select.sql")" "$(<"$examples/select.expected")" 0
runs 'the example of DELETE' "$(<"$examples/delete.sql")" "$(<"$examples/delete.expected")" 0
runs 'the example of CREATE TABLE' "$(<"$examples/create.sql")" "$(<"$examples/create.expected")" 1
runs 'rows of a version before a DELETE' 'SHOW ROWS sales VERSION AS OF 0;' "$(tail -n 6 "$examples/show.expected")" 0

cp -r "$examples/sales" gone && rm gone/*east/*
path=region=south%20east/part-00001-0c7e9a42-71d5-4b38-8e0f-2f9a6c4d1b73.c000.parquet
runs 'rows of a file that is gone' 'SHOW ROWS gone;' "refused 1: O12 $path" 1
runs 'DELETE of a file that is gone' 'DELETE FROM gone;' "refused 1: O12 $path" 1
cp -r "$examples/sales" cut && truncate -s -1 cut/*east/*
runs 'rows of a file that is cut' 'SHOW ROWS cut;' "refused 1: O13 $path" 1

runs 'no table' 'SHOW FILES t;' 'refused 1: O1' 1
echo >plain
runs 'a plain file for a table' 'SHOW FILES plain;' 'refused 1: O1' 1
mkdir logless && echo >logless/_delta_log
runs 'a plain file for a log folder' 'SHOW FILES logless;' 'refused 1: O1' 1
mkdir -p "folders/$log"
runs 'a folder among commit files' 'SHOW FILES folders;' 'refused 1: O1' 1
mkdir -p bytes/_delta_log && : >"bytes/$log" && : >$'bytes/_delta_log/\xff'
runs 'a name that is no UTF-8' 'SHOW FILES bytes;' '' 4

"$program" <<<'SHOW FILES t;' >&-
status=$?
[[ $status == 5 ]] || differs 'a closed standard output' "status $status"
"$program" word >written </dev/null
status=$?
[[ $status == 2 && $(<written) == usage:* ]] || differs 'a word' "status $status"

# Two programs at once: each adds a version, or finds that the other one did.
cp -r "$examples/sales" both
"$program" <<<'DELETE FROM both;' >first &
"$program" <<<'DELETE FROM both;' >second
wait
added=$(cat first second | grep -c '^version [34]$')
taken=$(cat first second | grep -c '^refused 1: S17 3$')
commits=$(find both/_delta_log -name '*.json' | wc -l)
[[ $((added + taken)) == 2 && $added -ge 1 && $commits == $((3 + added)) ]] ||
    differs 'two programs at once' "$(cat first second), and $commits commit files"

exit "$failed"
