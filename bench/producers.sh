#!/usr/bin/env bash
# What compactions cost that tell what they change. For tables of each number of ROWS, whose rows are one run at the
# highest level, it writes NEW rows more and compacts, five times on a copy each, and prints the least time and the most
# memory, the calls of the store by the rules of docs/COST.md, which it computes and doesn't count, and with strace the
# data files that were opened and the bytes that were read:
#   - `compact` of a table with the producer `lookup`, where the new rows have keys that reach over the whole table
#     (`spread`), that lie side by side in it (`near`), and that are behind it (`behind`);
#   - `compact --full` of a table with the producer `full-compaction`, of one with `lookup` and of one without a
#     producer, of the spread rows.
# It ends with 1 where a frame hasn't the lines that the rows make, or a scan shows other rows than before. The gate
# never runs it. It wants GNU time, and the program to be built by ./paimon. docs/COST.md has what it printed.
#
# usage: bench/producers.sh [PROGRAM [NEW [FOLDER [ROWS ..]]]]     the tables are made in FOLDER, else in TMPDIR
set -eu
top=$(dirname -- "$(dirname -- "$(readlink -f -- "$0")")")
program=${1:-$top/crates/paimon/out/ready/paimon}
new=${2:-1000}
work=$(mktemp -d "${3:-${TMPDIR:-/tmp}}/producers.XXXXXX")
trap 'rm -rf "$work"' EXIT
shift $(($# < 3 ? $# : 3))
[ $# -gt 0 ] || set -- 1000000 100000

fail() {
    echo "$*" >&2
    exit 1
}

# The draft of a table with that producer.
draft() {
    sed 's/}$/,"options":{"changelog-producer":"'"$1"'"}}/' "$top/examples/table.json"
}

# So many rows, from that key on, each so far from the one before; the text has this word.
rows() {
    awk -v n="$1" -v from="$2" -v step="$3" -v word="$4" 'BEGIN {
        for (k = 0; k < n; k++) printf "[\"+I\",%d,\"%s %d\"]\n", from + k * step, word, k * 7919 % 10000
    }'
}

# A table of that producer with so many rows, in one run at the highest level.
load() {
    local table=$work/$1 count=$2 from
    draft "$1" | "$program" "$table" create >"$work/out"
    for ((from = 0; from < count; from += 100000)); do
        rows $((count - from < 100000 ? count - from : 100000)) "$from" 1 value >"$work/batch"
        "$program" "$table" write <"$work/batch" >"$work/out"
    done
    "$program" "$table" compact --full >"$work/out"
}

# A copy of a table, with the rows of that shape written to it.
prepare() {
    rm -rf "$work/copy"
    cp -a "$work/$1" "$work/copy"
    "$program" "$work/copy" write <"$work/new.$2" >"$work/out"
    sync
}

# Notes the time and the memory of one compaction of a copy, and judges what it told and what the table shows.
compact() {
    local producer=$1 shape=$2 lines=$3 begun latest
    shift 3
    prepare "$producer" "$shape"
    "$program" "$work/copy" scan >"$work/before"
    begun=${EPOCHREALTIME/./}
    command time -f %M -a -o "$work/memory" "$program" "$work/copy" compact "$@" >"$work/out"
    echo $((${EPOCHREALTIME/./} - begun)) >>"$work/times"
    latest=$(sed -n 's/^snapshot \([0-9]*\)$/\1/p' "$work/out")
    [ -n "$latest" ] || fail "the compaction printed $(<"$work/out")"
    "$program" "$work/copy" scan | cmp -s - "$work/before" || fail "a scan shows other rows than before"
    [ "$producer" = none ] || "$program" "$work/copy" follow --from "$latest" >"$work/frames"
    [ "$producer" = none ] || [ "$(wc -l <"$work/frames")" = "$lines" ] ||
        fail "the frame has $(wc -l <"$work/frames") lines, not $lines"
}

# The calls of the last compaction, which read all live data files: those of the table and the new one.
calls() {
    local latest made told=3
    latest=$(sed -n 's/^snapshot \([0-9]*\)$/\1/p' "$work/out")
    made=$(find "$work/copy/bucket-0" -name 'data-*' -newer "$work/before" | wc -l)
    [ "$1" = none ] && told=0
    echo $((11 + latest - 1 + files + 1 + made + told))
}

# What strace sees of one more compaction: files that are opened in the bucket, and bytes that are read.
traced() {
    command -v strace >/dev/null || return 0
    prepare "$1" "$2"
    strace -f -qq -o "$work/trace" -e trace=openat,read,pread64 "$program" "$work/copy" compact "${@:3}" >"$work/out"
    awk '/openat\(/ && /data-[^"]*\.avro"/ && / = [0-9]+$/ && !/O_CREAT/ { files++ }
        /(read|pread64)\(/ && / = [0-9]+$/ { bytes += $NF }
        END { printf ", %d opens of data files, %d bytes read", files, bytes }' "$work/trace"
}

# Five compactions of copies of a table: their least time and most memory.
measure() {
    local said=$1 producer=$2 shape=$3 lines=$4
    shift 4
    rm -f "$work/times" "$work/memory"
    for _ in 1 2 3 4 5; do compact "$producer" "$shape" "$lines" "$@"; done
    echo "  $said: $(sort -n "$work/times" | awk 'NR == 1 { printf "%.1f", $1 / 1000 }') ms, at most" \
        "$(sort -n "$work/memory" | tail -1) kB, $(calls "$producer") calls$(traced "$producer" "$shape" "$@")"
}

for count in "$@"; do
    rows "$new" 0 $((count / new > 0 ? count / new : 1)) new >"$work/new.spread"
    rows "$new" $((count / 2)) 1 new >"$work/new.near"
    rows "$new" "$count" 1 new >"$work/new.behind"
    for producer in lookup full-compaction none; do
        rm -rf "${work:?}/$producer"
        load "$producer" "$count"
    done
    files=$(((count + 65535) / 65536))
    echo "$new rows more in a table of $count rows, in $files data files"
    measure "compact, lookup, spread keys" lookup spread $((2 * new + 1))
    measure "compact, lookup, near keys" lookup near $((2 * new + 1))
    measure "compact, lookup, keys behind all" lookup behind $((new + 1))
    measure "compact --full, full-compaction" full-compaction spread $((2 * new + 1)) --full
    measure "compact --full, lookup" lookup spread $((2 * new + 1)) --full
    measure "compact --full, no producer" none spread 0 --full
done
