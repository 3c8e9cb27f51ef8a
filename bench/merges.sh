#!/usr/bin/env bash
# Merges 1,000,000 rows in ten runs, each a file, to files of 65,536 rows: ours, which reads them and judges each row,
# then merges and writes (`timed-merge` of pm_cases_codecs); the plain floor, which does the same to these very files
# by C written for this one schema (merge_floor.c), and tests nothing; the same with the tests that ours makes of a
# file; the same where a row is written by one copy of its bytes, and nothing is tested; and RocksDB's compaction of
# the same rows from ten files of level 0 (rocks_compact.c). Ours and the floors have their files in memory, RocksDB in /dev/shm. Five
# times each in turn, with each key in one run (`spread`) and with all keys in each run (`same`). It prints the least
# time of each, and how many times theirs ours takes, and fails where ours and a floor come to other files. The gate
# never runs it. It wants a C compiler; without RocksDB (in Debian librocksdb-dev) it leaves that out. docs/COST.md
# has what it printed.
#
# usage: bench/merges.sh [PROGRAM [ROWS [RUNS]]]
#   PROGRAM is that of pm_cases_codecs; without one it is built
set -eu
top=$(dirname -- "$(dirname -- "$(readlink -f -- "$0")")")
program=${1:-$top/crates/pm_cases_codecs/out/pm_cases_codecs}
rows=${2:-1000000}
runs=${3:-10}
work=$(mktemp -d /dev/shm/merges.XXXXXX)
trap 'rm -rf "$work"' EXIT
[ $# -gt 0 ] || (cd "$top/crates/pm_cases_codecs" && rt run </dev/null >"$work/first")
cc -O2 -o "$work/floor" "$top/bench/merge_floor.c"
cc -O2 -o "$work/rocks" "$top/bench/rocks_compact.c" -lrocksdb 2>"$work/no-rocks" || echo "RocksDB isn't there"

# The milliseconds after a word, the least of the lines of a file; with no such line, a dash.
least() {
    grep -o "$2 [0-9]* ms" "$work/$1" 2>"$work/none" | sort -n -k 2 | awk 'NR == 1 {t = $2} END {print NR ? t : "-"}'
}
ratio() { awk -v ours="$1" -v theirs="$2" 'BEGIN {if (theirs > 0) printf "%.2f", ours / theirs; else print "-"}'; }
# The sums of what came out, as both programs print them.
sums() { sed 's/.*ms[,;] //' "$work/$1" | sort -u; }

for shape in spread same; do
    for _ in 1 2 3 4 5; do
        printf 'timed-merge\t%s\t%s\t%s\n' "$rows" "$runs" "$shape" | "$program" >>"$work/ours.$shape"
        "$work/floor" "$rows" "$runs" "$shape" >>"$work/plain.$shape"
        "$work/floor" "$rows" "$runs" "$shape" tested >>"$work/tested.$shape"
        "$work/floor" "$rows" "$runs" "$shape" copied >>"$work/copied.$shape"
        if [ -x "$work/rocks" ]; then
            "$work/rocks" "$rows" "$runs" "$shape" "$work/table" >>"$work/rocks.$shape"
            rm -r "$work/table"
        fi
    done
    cat "$work/ours.$shape" "$work/plain.$shape" "$work/tested.$shape" "$work/copied.$shape" >"$work/all.$shape"
    if [ "$(sums "all.$shape" | wc -l)" != 1 ]; then
        echo "$shape: other files came out" >&2
        cat "$work/all.$shape" >&2
        exit 1
    fi
    ours=$(awk '{match($0, /read [0-9]+/); r = substr($0, RSTART + 5, RLENGTH - 5)
                 match($0, /rewritten [0-9]+/); t = r + substr($0, RSTART + 10, RLENGTH - 10)
                 if (NR == 1 || t < least) least = t} END {print least}' "$work/ours.$shape")
    echo "$shape: $(sums "ours.$shape")"
    echo "  ours $ours ms, of which read $(least "ours.$shape" read), rewritten $(least "ours.$shape" rewritten)"
    for what in plain tested copied rocks; do
        clock=$(least "$what.$shape" merged)
        echo "  $what $clock ms, processor $(least "$what.$shape" processor) ms: $(ratio "$ours" "$clock")"
    done
done
