#!/usr/bin/env bash
# What groups cost. It writes the same rows as one batch to new tables with 1, 16 and 256 buckets and with 10 and 1,000
# partitions: the median time of five writes, each to a copy of a table that has one commit, the files that one makes,
# and with strace its syncs. Then it scans tables of as many rows as asked for in 1 and 16 buckets and in ten partitions,
# in turn: the least time of five and the most memory, and judges that all print the same rows. The gate never runs it.
# It wants GNU time, and the program to be built by ./paimon and to make tables of many groups.
#
# usage: bench/groups.sh [PROGRAM [ROWS [SCANNED [FOLDER]]]]   the tables are made in FOLDER, else in TMPDIR
set -eu
top=$(dirname -- "$(dirname -- "$(readlink -f -- "$0")")")
program=${1:-$top/crates/paimon/out/ready/paimon}
rows=${2:-100000}
scanned=${3:-1000000}
work=$(mktemp -d "${4:-${TMPDIR:-/tmp}}/groups.XXXXXX")
trap 'rm -rf "$work"' EXIT

fail() {
    echo "$*" >&2
    exit 1
}

files() { find "$1" -type f ! -name '.*' ! -path '*/.*' | wc -l; }
median() { sort -n | awk '{ a[NR] = $1 } END { printf "%.0f\n", a[int((NR + 1) / 2)] }'; }

# The draft of a table: so many buckets, and a column that cuts it in partitions or doesn't.
draft() {
    local partition='' key='"id"'
    [ "$2" -eq 1 ] || { partition=',"partitionKeys":["p"]' && key='"p","id"'; }
    printf '{"fields":[{"name":"p","type":"INT NOT NULL"},{"name":"id","type":"BIGINT NOT NULL"},{"name":"v","type":"STRING"}],"primaryKeys":[%s],"options":{"bucket":"%d"}%s}\n' \
        "$key" "$1" "$partition"
}

# So many rows, from that key on, in so many partitions.
batch() {
    awk -v from="$1" -v n="$2" -v parts="$3" 'BEGIN {
        for (k = 0; k < n; k++) printf "[\"+I\",%d,%d,\"value %d\"]\n", (from + k) % parts, from + k, k * 7919 % 10000
    }'
}

# Makes a table of one commit of one row.
make() {
    draft "$2" "$3" | "$program" "$work/$1" create >"$work/out" || fail "create ended with $?"
    batch 0 1 "$3" | "$program" "$work/$1" write >"$work/out" || fail "write ended with $?"
}

# Five writes of the rows, each to a copy: a line of what one took and made.
write() {
    local n begun before
    make "$1" "$2" "$3"
    batch 1 "$rows" "$3" >"$work/rows"
    before=$(files "$work/$1")
    for n in 1 2 3 4 5; do
        rm -rf "$work/copy"
        cp -a "$work/$1" "$work/copy"
        sync -f "$work"
        begun=${EPOCHREALTIME/./}
        "$program" "$work/copy" write <"$work/rows" >"$work/out" || fail "write ended with $?: $(<"$work/out")"
        echo $(((${EPOCHREALTIME/./} - begun) / 1000))
    done >"$work/times"
    local made=$(($(files "$work/copy") - before)) syncs='-'
    if command -v strace >/dev/null; then
        rm -rf "$work/copy"
        cp -a "$work/$1" "$work/copy"
        strace -f -o "$work/calls" -e trace=fsync,fdatasync "$program" "$work/copy" write <"$work/rows" >"$work/out"
        syncs=$(grep -c 'sync(.*= 0' "$work/calls" || :)
    fi
    echo "write of $rows rows, $2 buckets, $3 partitions: $(median <"$work/times") ms, $made files, $syncs syncs"
}

# Makes a table of many rows in ten commits.
fill() {
    local n
    draft "$2" "$3" | "$program" "$work/$1" create >"$work/out"
    for n in 0 1 2 3 4 5 6 7 8 9; do
        batch $((n * scanned / 10)) $((scanned / 10)) 10 | "$program" "$work/$1" write >"$work/out" || fail "write ended with $?"
    done
}

# A scan of a table: its microseconds and its kilobytes go to a file, and its rows are judged.
scan() {
    local begun=${EPOCHREALTIME/./}
    command time -f %M -o "$work/memory" "$program" "$work/$1" scan >"$work/$1.rows"
    echo "$((${EPOCHREALTIME/./} - begun)) $(<"$work/memory")" >>"$work/$1.times"
}

write one 1 1
write sixteen 16 1
write many 256 1
write parts 1 10
write thousand 1 1000
fill plain 1 1
fill buckets 16 1
fill partitions 1 10
for n in 1 2 3 4 5; do
    scan plain
    scan buckets
    scan partitions
done
sort "$work/plain.rows" >"$work/rows"
for table in plain buckets partitions; do
    sort "$work/$table.rows" | cmp - "$work/rows" || fail "a scan of $table prints other rows"
    sort -n "$work/$table.times" | awk -v t="$table" -v n="$scanned" 'NR == 1 { us = $1 }
        { if ($2 > most) most = $2 } END { printf "scan of %d rows, %s: %.0f ms, %.1f MB\n", n, t, us / 1000, most / 1000 }'
done
