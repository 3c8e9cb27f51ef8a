#!/usr/bin/env bash
# Scans a table of 1,000,000 rows in 10 runs, and the same rows in a table of sqlite3, five times each in turn, from files
# that were just read. Each run is one `write`; the keys are dealt to the runs in turn, so each reaches over all keys. A
# write takes at most 100,000 rows. sqlite3 prints them once as the lines of a scan, which have to be the same, and once in
# its own form. It prints the least time of each and the most memory of each. The gate never runs it. It wants sqlite3 and
# GNU time, and the program to be built by ./paimon. docs/COST.md has what it printed.
#
# usage: bench/scan.sh [ROWS [RUNS [PROGRAM]]]
set -eu
rows=${1:-1000000}
runs=${2:-10}
top=$(dirname -- "$(dirname -- "$(readlink -f -- "$0")")")
program=${3:-$top/crates/paimon/out/ready/paimon}
work=$(mktemp -d /dev/shm/scan.XXXXXX)
trap 'rm -rf "$work"' EXIT
# The keys below $rows that a run has, as lines of this form.
keys() { awk -v n="$rows" -v from="$1" -v by="$2" -v form="$3\n" 'BEGIN { for (k = from; k < n; k += by) printf form, k, k * 7919 % 10000 }'; }
"$program" "$work/table" create <"$top/examples/table.json"
for ((run = 0; run < runs; run++)); do
    keys "$run" "$runs" '["+I",%d,"value %d"]' | "$program" "$work/table" write
done
keys 0 1 '%d,value %d' >"$work/table.csv"
sqlite3 "$work/rows.db" "create table t (id integer primary key, v text)" ".mode csv" ".import $work/table.csv t"
timed() {
    name=$1
    shift
    command time -f "$name %e s %M kB" -a -o "$work/times" "$@" >"$work/$name"
}
for _ in 1 2 3 4 5; do
    timed paimon "$program" "$work/table" scan
    timed sqlite3-lines sqlite3 "$work/rows.db" "select json_array('+I', id, v) from t order by id"
    timed sqlite3-rows sqlite3 "$work/rows.db" "select id, v from t order by id"
done
cmp "$work/paimon" "$work/sqlite3-lines"
for name in paimon sqlite3-lines sqlite3-rows; do
    grep "^$name " "$work/times" | sort -n -k 2 |
        awk -v n="$rows" 'NR == 1 {t = $2} $4 > m {m = $4} END {print $1 ": " n " rows in " t " s, at most " m " kB"}'
done
