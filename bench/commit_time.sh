#!/usr/bin/env bash
# Commits one row with one process each, by our program and by sqlite3 in turn, which has a table of the same two
# columns in a database with a write-ahead log (WAL, synchronous=FULL). First as fast as it goes, so that the folder
# changed within the last second; then after a second's pause each. It prints the median time of each and the ratio, and
# with strace how many syncs one more commit of each makes. At most 1.5 times sqlite3's time is wanted. The gate never
# runs it. It wants sqlite3, and the program to be built by ./paimon. docs/COST.md has what it printed.
#
# usage: bench/commit_time.sh [PROGRAM [COMMITS [PAUSED [FOLDER]]]]     the tables are made in FOLDER, else in TMPDIR
set -eu
top=$(dirname -- "$(dirname -- "$(readlink -f -- "$0")")")
program=${1:-$top/crates/paimon/out/ready/paimon}
commits=${2:-200}
paused=${3:-20}
work=$(mktemp -d "${4:-${TMPDIR:-/tmp}}/commit_time.XXXXXX")
trap 'rm -rf "$work"' EXIT
table=$work/table
key=0

ours() { "${@}" "$program" "$table" write <"$work/row" >"$work/out"; }
theirs() { "${@}" sqlite3 "$work/rows.db" "pragma synchronous = full" "insert into t values ($key, 'value $key')"; }

# Both commit the next row; what each took goes to a file, in microseconds.
commit() {
    local begun middle
    key=$((key + 1))
    printf '["+I",%d,"value %d"]\n' "$key" "$key" >"$work/row"
    begun=${EPOCHREALTIME/./}
    ours
    middle=${EPOCHREALTIME/./}
    theirs
    echo "$((middle - begun)) $((${EPOCHREALTIME/./} - middle))" >>"$work/times"
}

median() { cut -d ' ' -f "$1" "$work/times" | sort -n | awk '{ t[NR] = $1 } END { print t[int((NR + 1) / 2)] }'; }

tell() {
    local mine their
    mine=$(median 1)
    their=$(median 2)
    awk -v name="$1" -v n="$(wc -l <"$work/times")" -v mine="$mine" -v their="$their" 'BEGIN {
        printf "%s: %d commits each, the median %.1f ms and with sqlite3 %.1f ms: %.2f times\n", name, n,
            mine / 1000, their / 1000, mine / their }'
    rm "$work/times"
}

# How many syncs one more commit of each makes.
syncs() {
    command -v strace >/dev/null || return 0
    key=$((key + 1))
    printf '["+I",%d,"value %d"]\n' "$key" "$key" >"$work/row"
    ours strace -f -qq -o "$work/ours" -e trace=fsync,fdatasync
    theirs strace -f -qq -o "$work/theirs" -e trace=fsync,fdatasync
    echo "$1: $(grep -c sync "$work/ours") syncs, and with sqlite3 $(grep -c sync "$work/theirs")"
}

"$program" "$table" create <"$top/examples/table.json" >"$work/out"
sqlite3 "$work/rows.db" "pragma journal_mode = wal" "create table t (id integer primary key, v text)" >"$work/out"
for ((n = 0; n < commits; n++)); do commit; done
tell "without a pause"
syncs "without a pause"
for ((n = 0; n < paused; n++)); do
    sleep 1.1
    commit
done
tell "after a pause"
sleep 1.1
syncs "after a pause"
[ "$("$program" "$table" scan | wc -l)" -eq "$key" ] || { echo "rows are missing" && exit 1; }
found=$(sqlite3 "$work/rows.db" "select count(*) from t")
[ "$found" -eq "$key" ] || { echo "rows are missing in sqlite3" && exit 1; }
