#!/usr/bin/env bash
# Compacts tables on a real folder, and prints what that costs.
#   - A table of ROWS rows in COMMITS commits, with a `compact` after each tenth: the bytes of the data files that the
#     writes made and of those that the compactions made, and the two together by the first, which is the write
#     amplification; beside RocksDB's universal compaction, run after each tenth too (rocks_universal.c), and LevelDB's,
#     which comes as it finds due (level_compact.cc), of the same rows without compression. Twice: with each key in one
#     commit (`spread`), and with the same keys in all (`same`).
#   - The same table without a compaction: a scan, a `compact --full`, and a scan again, which has to print the same:
#     seconds, rows a second and memory of each.
#   - SMALL commits of one row, with a `compact` after each thirtieth: the median time of a commit and of a compaction in
#     each tenth part of them, so that it shows whether it grows; and the same with an `expire` after each hundredth that
#     keeps the newest snapshot, and what else is of that very millisecond.
# It ends with 1 where a scan prints other rows than were written. The gate never runs it. It wants GNU time, the program
# to be built by ./paimon, and that it knows `compact`; without RocksDB or LevelDB (in Debian librocksdb-dev and
# libleveldb-dev) it leaves that out. docs/COST.md has what it printed.
#
# usage: bench/compact.sh [PROGRAM [ROWS [COMMITS [SMALL [FOLDER]]]]]     the tables are made in FOLDER, else in TMPDIR
set -eu
top=$(dirname -- "$(dirname -- "$(readlink -f -- "$0")")")
program=${1:-$top/crates/paimon/out/ready/paimon}
rows=${2:-1000000}
commits=${3:-100}
small=${4:-20000}
work=$(mktemp -d "${5:-${TMPDIR:-/tmp}}/compact.XXXXXX")
trap 'rm -rf "$work"' EXIT
each=10 # commits to a compaction of the large table
few=30  # commits to a compaction of the small one

fail() {
    echo "$*" >&2
    exit 1
}

"$program" "$work/none" compact 2>"$work/said" || [ "$(<"$work/said")" = "E9 no table" ] || fail "the program doesn't know compact: $(<"$work/said")"
cc -O2 -o "$work/rocks" "$top/bench/rocks_universal.c" -lrocksdb 2>"$work/no-rocks" || echo "RocksDB isn't there"
c++ -O2 -o "$work/level" "$top/bench/level_compact.cc" -lleveldb 2>"$work/no-level" || echo "LevelDB isn't there"

# The bytes of the files of a folder, 0 where it isn't there.
bytes() { { find "$1" -type f -printf '%s\n' 2>/dev/null || true; } | awk '{ n += $1 } END { printf "%d\n", n }'; }

# Files of row lines, one for each commit. A prime number deals the keys out, so each commit reaches over all of them.
deal() {
    local shape=$1
    awk -v rows="$rows" -v commits="$commits" -v shape="$shape" -v out="$work/batch" 'BEGIN {
        size = int(rows / commits)
        for (n = 0; n < commits; n++) {
            file = sprintf("%s.%05d", out, n)
            printf "" >file
            for (k = n * size; k < (n + 1) * size; k++) {
                key = shape == "spread" ? k * 7919 % (size * commits) : k % size
                printf "[\"+I\",%d,\"value %d\"]\n", key, k * 7919 % 10000 >file
            }
            close(file)
        }
    }'
}

# The rows that a scan has to print: of each key the last one.
wanted() { cat "$work"/batch.* | awk -F '[,]' '{ last[$2] = $0 } END { for (key in last) print last[key] }' | sort -t , -k 2 -n; }

judge() { "$program" "$1" scan | cmp - "$work/wanted" || fail "$2: a scan prints other rows than were written"; }

# Runs a command, and prints its seconds, its rows a second and its memory.
timed() {
    local name=$1 count=$2
    shift 2
    command time -f "%e %M" -o "$work/time" "$@" >"$work/answer"
    awk -v name="$name" -v n="$count" '{ printf "  %s: %.2f s, %d rows a second, %d kB\n", name, $1, n / ($1 > 0 ? $1 : 0.01), $2 }' "$work/time"
}

# Prints a write amplification, of the bytes that were written first and those that were written again.
amplified() { awk -v name="$1" -v first="$2" -v again="$3" 'BEGIN { printf "  %s: %d bytes, and %d by compactions: amplification %.2f\n", name, first, again, (first + again) / first }'; }

# The table with a compaction after each tenth commit, and beside it the others'.
compacted() {
    local table=$work/table again=0 taken=0 n=0 before begun batch
    "$program" "$table" create <"$top/examples/table.json" >"$work/answer"
    begun=${EPOCHREALTIME/./}
    for batch in "$work"/batch.*; do
        "$program" "$table" write <"$batch" >"$work/answer"
        n=$((n + 1))
        [ $((n % each)) -eq 0 ] || continue
        before=$(bytes "$table/bucket-0")
        "$program" "$table" compact >"$work/answer"
        [ "$(<"$work/answer")" = "nothing to compact" ] || taken=$((taken + 1))
        again=$((again + $(bytes "$table/bucket-0") - before))
    done
    amplified "ours, $taken compactions in $(((${EPOCHREALTIME/./} - begun) / 1000)) ms with the writes" \
        $(($(bytes "$table/bucket-0") - again)) "$again"
    echo "  all files: $(bytes "$table") bytes, $(find "$table" -type f | wc -l) files"
    judge "$table" "after the compactions"
    timed "a compact --full of what these left" "$rows" "$program" "$table" compact --full
    judge "$table" "after a compact --full"
    rm -rf "$table"
    if [ -x "$work/rocks" ]; then
        # shellcheck disable=SC2046
        amplified "RocksDB, universal" $("$work/rocks" "$work/db" "$each" "$work"/batch.*)
        rm -rf "$work/db"
    fi
    if [ -x "$work/level" ]; then
        # shellcheck disable=SC2046
        amplified "LevelDB" $("$work/level" "$work/db" "$work"/batch.*)
        rm -rf "$work/db"
    fi
}

# The same table without a compaction until all is written.
in_full() {
    local table=$work/table batch
    "$program" "$table" create <"$top/examples/table.json" >"$work/answer"
    for batch in "$work"/batch.*; do "$program" "$table" write <"$batch" >"$work/answer"; done
    timed "scan of $commits runs" "$rows" "$program" "$table" scan
    cmp "$work/answer" "$work/wanted" || fail "a scan prints other rows than were written"
    timed "compact --full" "$rows" "$program" "$table" compact --full
    timed "scan after it" "$(wc -l <"$work/wanted")" "$program" "$table" scan
    cmp "$work/answer" "$work/wanted" || fail "a scan prints other rows after a compaction"
    rm -rf "$table"
}

# One command of many, and what it took, in microseconds.
took() {
    local part=$1 what=$2 begun=${EPOCHREALTIME/./}
    shift 2
    "$program" "$@" <"$work/row" >"$work/answer" || fail "$what ended with $?"
    echo "$part $what $((${EPOCHREALTIME/./} - begun))" >>"$work/took"
}

# Many small commits, with expiries after each so many or with none.
grow() {
    local table=$work/small n part=$(((small + 9) / 10)) expired=$1
    rm -rf "$table" "$work/took"
    "$program" "$table" create <"$top/examples/table.json" >"$work/answer"
    for ((n = 1; n <= small; n++)); do
        printf '["+I",%d,"value %d"]\n' $((n % 1000)) "$n" >"$work/row"
        took $(((n - 1) / part)) write "$table" write
        [ $((n % few)) -ne 0 ] || took $(((n - 1) / part)) compact "$table" compact
        [ "$expired" -eq 0 ] || [ $((n % expired)) -ne 0 ] ||
            took $(((n - 1) / part)) expire "$table" expire --min 1 --millis 0
    done
    echo "$small commits of one row, a compact after each ${few}th, an expire after each ${expired}th: the medians of each tenth part, in ms"
    for what in write compact expire; do
        printf '  %s:' "$what"
        for ((n = 0; n < 10; n++)); do
            awk -v part="$n" -v what="$what" '$1 == part && $2 == what { print $3 }' "$work/took" | sort -n |
                awk '{ t[NR] = $1 } END { if (NR) printf " %.1f", t[int((NR + 1) / 2)] / 1000; else printf " -" }'
        done
        echo
    done
    echo "  all files: $(bytes "$table") bytes, $(find "$table" -type f | wc -l) files"
    "$program" "$table" scan >"$work/answer"
    for ((n = small > 1000 ? small - 999 : 1; n <= small; n++)); do printf '["+I",%d,"value %d"]\n' $((n % 1000)) "$n"; done |
        sort -t , -k 2 -n | cmp - "$work/answer" || fail "a scan prints other rows than were written"
}

for shape in spread same; do
    rm -f "$work"/batch.*
    deal "$shape"
    wanted >"$work/wanted"
    echo "$shape: $rows rows in $commits commits, $(wc -l <"$work/wanted") keys"
    compacted
    in_full
done
grow 0
grow 100
