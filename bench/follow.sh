#!/usr/bin/env bash
# What a table costs that tells its input, and how quickly it is followed. First it commits one row with one process
# each to a table that tells its input and to one that doesn't, in turn, and prints the median time of each, the bytes
# that a commit adds, the most memory of a write, and with strace how many syncs one more commit makes. Then the same of
# commits of 100,000 rows. Then it follows a table of 1,000 snapshots of one row, and one of ten snapshots of 100,000
# rows, five times each in turn with sqlite3, which prints the same lines of a table of changes by its key: the least
# time of each, the lines a second and the most memory, and the calls of the store by the rules of docs/COST.md, which
# it computes and doesn't count. The gate never runs it. It wants sqlite3 and GNU time, and the program to be built by
# ./paimon. docs/COST.md has what it printed.
#
# usage: bench/follow.sh [PROGRAM [COMMITS [BATCHES [ROWS [FOLDER]]]]]   the tables are made in FOLDER, else in TMPDIR
set -eu
top=$(dirname -- "$(dirname -- "$(readlink -f -- "$0")")")
program=${1:-$top/crates/paimon/out/ready/paimon}
commits=${2:-1000}
batches=${3:-10}
rows=${4:-100000}
work=$(mktemp -d "${5:-${TMPDIR:-/tmp}}/follow.XXXXXX")
trap 'rm -rf "$work"' EXIT

bytes() { du -sb --apparent-size "$1" | cut -f 1; }
median() { sort -n "$1" | awk '{ t[NR] = $1 } END { printf "%.1f", t[int((NR + 1) / 2)] / 1000 }'; }

# New tables of that name: one tells its input, the other doesn't.
create() {
    "$program" "$work/told.$1" create <"$top/examples/input.json" >"$work/out"
    "$program" "$work/plain.$1" create <"$top/examples/table.json" >"$work/out"
}

# Commits the rows of a file to both tables of that name; what each took goes to a file, in microseconds.
commit() {
    local table begun
    for table in told plain; do
        begun=${EPOCHREALTIME/./}
        command time -f %M -a -o "$work/$table.$1.memory" "$program" "$work/$table.$1" write <"$2" >"$work/out"
        echo $((${EPOCHREALTIME/./} - begun)) >>"$work/$table.$1.times"
        [ "$(<"$work/out")" = "snapshot $3" ] || { echo "commit $3 printed $(<"$work/out")" && exit 1; }
    done
}

# How many syncs a commit of one more row makes, on a copy of each table of that name.
syncs() {
    local table
    command -v strace >/dev/null || return 0
    for table in told plain; do
        cp -a "$work/$table.$1" "$work/copy"
        sync
        strace -f -qq -o "$work/trace" -e trace=fsync,fdatasync "$program" "$work/copy" write <"$work/row" >"$work/out"
        rm -rf "$work/copy"
        grep -c sync "$work/trace" || :
    done | paste -sd ' ' | sed 's/\(.*\) \(.*\)/one more commit of a row: \1 syncs, without the changelog \2/'
}

# Tells of the commits of both tables of that name.
tell() {
    local count of=$2 table
    count=$(wc -l <"$work/told.$1.times")
    echo "$count commits of $of rows: the median $(median "$work/told.$1.times") ms, without the changelog" \
        "$(median "$work/plain.$1.times") ms; $(($(bytes "$work/told.$1") / count)) bytes each, without" \
        "$(($(bytes "$work/plain.$1") / count)); at most $(sort -n "$work/told.$1.memory" | tail -1) kB, without" \
        "$(sort -n "$work/plain.$1.memory" | tail -1) kB"
}

# The changes of a table as sqlite3 has them: of each snapshot a line without a kind, and its rows.
changes() {
    awk -v snapshots="$1" -v rows="$2" 'BEGIN {
        for (s = 1; s <= snapshots; s++) {
            printf "%d,-1,,,\n", s
            for (k = 0; k < rows; k++) printf "%d,%d,+I,%d,value %d\n", s, k, (s - 1) * rows + k, k * 7919 % 10000
        }
    }' >"$work/changes.csv"
    sqlite3 "$work/$3.db" ".mode csv" \
        "create table c (s integer, k integer, kind text, id integer, v text, primary key (s, k)) without rowid" \
        ".import $work/changes.csv c"
}

# A batch of so many rows, from that key on.
batch() {
    awk -v from="$1" -v n="$2" 'BEGIN {
        for (k = 0; k < n; k++) printf "[\"+I\",%d,\"value %d\"]\n", from + k, k * 7919 % 10000
    }'
}

# Runs a command that prints frames, and notes its time and memory.
timed() {
    command time -f "%e %M" -a -o "$work/$1" "${@:2}" >"$work/$1.out"
}

# Follows the table of that name from its first snapshot on, beside sqlite3, and tells of it.
follow() {
    local lines name query
    query="select case kind when '' then json_object('snapshot', s) else json_array(kind, id, v) end"
    query="$query from c order by s, k"
    for _ in 1 2 3 4 5; do
        timed "paimon.$1" "$program" "$work/told.$1" follow --from 1
        timed "sqlite3.$1" sqlite3 "$work/$1.db" "$query"
    done
    cmp "$work/paimon.$1.out" "$work/sqlite3.$1.out"
    lines=$(wc -l <"$work/paimon.$1.out")
    for name in paimon sqlite3; do
        sort -n "$work/$name.$1" | awk -v name="$name" -v lines="$lines" -v snapshots="$2" '
            NR == 1 { t = $1 } $2 > m { m = $2 }
            END { printf "%s: %d lines of %d snapshots in %.2f s, %d lines a second, at most %d kB\n",
                name, lines, snapshots, t, lines / (t > 0 ? t : 0.01), m }'
    done
    echo "by the rules $((4 + 4 * $2)) calls of the store, 4 of each frame"
}

create one
for ((n = 1; n <= commits; n++)); do
    batch $((n - 1)) 1 >"$work/row"
    commit one "$work/row" "$n"
done
tell one 1
syncs one
create many
for ((n = 1; n <= batches; n++)); do
    batch $(((n - 1) * rows)) "$rows" >"$work/batch"
    commit many "$work/batch" "$n"
done
tell many "$rows"
changes "$commits" 1 one
follow one "$commits"
changes "$batches" "$rows" many
follow many "$batches"
