#!/usr/bin/env bash
# Writes 100,000 rows of 36 bytes a line in one commit to a new table, by our program and by a C program over sqlite3 in
# turn (sqlite_rows.c: write-ahead log, synchronous=FULL, one transaction), ten times each: with keys that rise, with the
# same keys shuffled, and with 950 keys that take all rows. It prints the least processor time of a row (user and system),
# how many times theirs ours takes, and the most memory beside the bytes of the input. At most 1.0 of sqlite3's processor
# time, 1.5 microseconds a row and three times the input are wanted. The gate never runs it. It wants GNU time, a C
# compiler and sqlite3's header (in Debian libsqlite3-dev), and the program to be built by ./paimon. docs/COST.md has what
# it printed.
#
# usage: bench/write_rows.sh [PROGRAM [ROWS [FOLDER]]]     the tables are made in FOLDER, else in TMPDIR
set -eu
top=$(dirname -- "$(dirname -- "$(readlink -f -- "$0")")")
program=${1:-$top/crates/paimon/out/ready/paimon}
rows=${2:-100000}
work=$(mktemp -d "${3:-${TMPDIR:-/tmp}}/write_rows.XXXXXX")
trap 'rm -rf "$work"' EXIT
cc -O2 -o "$work/sqlite_rows" "$top/bench/sqlite_rows.c" -lsqlite3

line='printf "[\"+I\",%d,\"value %011d\"]\n"'
awk -v n="$rows" "BEGIN { for (k = 0; k < n; k++) $line, 10000000 + k, k * 7919 % 10000 }" >"$work/rising"
shuf --random-source=<(yes) "$work/rising" >"$work/shuffled"
awk -v n="$rows" "BEGIN { for (k = 0; k < n; k++) $line, 10000000 + k * 7919 % 950, k }" >"$work/repeated"

# Runs a command on an input, and notes its processor time, user and system, in milliseconds' parts of a second.
clocked() {
    local TIMEFORMAT='%3U %3S'
    { time "${@:3}" <"$2" >"$work/out" 2>"$work/err"; } 2>>"$1"
}
# The least processor time of a series in microseconds.
least() { awk '{ t = ($1 + $2) * 1e6; if (NR == 1 || t < least) least = t } END { printf "%d", least }' "$1"; }
# A new table of each.
afresh() {
    rm -rf "$work/table" "$work"/rows.db*
    "$program" "$work/table" create <"$top/examples/table.json" >"$work/out"
}
# What was printed last is this.
printed() { [ "$(<"$work/out")" = "$1" ] || { echo "it printed $(<"$work/out") $(<"$work/err")" && exit 1; }; }

for shape in rising shuffled repeated; do
    for _ in 1 2 3 4 5 6 7 8 9 10; do
        afresh
        clocked "$work/ours.$shape" "$work/$shape" "$program" "$work/table" write
        printed "snapshot 1"
        clocked "$work/theirs.$shape" "$work/$shape" "$work/sqlite_rows" "$work/rows.db"
        printed "$rows rows"
    done
    afresh
    command time -f %M -o "$work/memory" "$program" "$work/table" write <"$work/$shape" >"$work/out"
    command time -f %M -o "$work/other" "$work/sqlite_rows" "$work/rows.db" <"$work/$shape" >"$work/out"
    awk -v name="$shape" -v rows="$rows" -v ours="$(least "$work/ours.$shape")" \
        -v theirs="$(least "$work/theirs.$shape")" -v memory="$(<"$work/memory")" -v other="$(<"$work/other")" \
        -v bytes="$(stat -c %s "$work/$shape")" 'BEGIN {
        printf "%s: %.2f microseconds a row, sqlite3 %.2f: %.2f times; %d kB for %d kB of input, sqlite3 %d kB\n",
            name, ours / rows, theirs / rows, ours / theirs, memory, bytes / 1024, other }'
done
