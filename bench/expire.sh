#!/usr/bin/env bash
# What an expiry costs. It makes four tables: a thousand commits of one row, the same of a table that tells its input,
# ten commits of 100,000 rows, and these with a full compaction behind each fifth one, so that data files go. Of each it
# has all snapshots but the newest expire, three times, each on a copy to which one more row was committed: the least
# time, the most memory, the files and bytes before and after; then on the last copy an expiry for which nothing is to
# go, and a commit before and after. With strace it counts, on one more copy, the syncs, the removes and the opens. The
# calls of the store by the rules of docs/COST.md it computes and doesn't count. It judges that an expiry prints what it
# keeps, and that a scan prints the same before and after. The gate never runs it. It wants GNU time, and the program to
# be built by ./paimon and to know `expire`.
#
# usage: bench/expire.sh [PROGRAM [COMMITS [BATCHES [ROWS [FOLDER]]]]]   the tables are made in FOLDER, else in TMPDIR
set -eu
top=$(dirname -- "$(dirname -- "$(readlink -f -- "$0")")")
program=${1:-$top/crates/paimon/out/ready/paimon}
commits=${2:-1000}
batches=${3:-10}
rows=${4:-100000}
work=$(mktemp -d "${5:-${TMPDIR:-/tmp}}/expire.XXXXXX")
trap 'rm -rf "$work"' EXIT

fail() {
    echo "$*" >&2
    exit 1
}

"$program" "$work/none" expire 2>"$work/said" || [ "$(<"$work/said")" = "E9 no table" ] ||
    fail "the program doesn't know expire: $(<"$work/said")"

files() { find "$1" -type f ! -name '.*' ! -path '*/.*' | wc -l; }
bytes() { find "$1" -type f ! -name '.*' ! -path '*/.*' -printf '%s\n' | awk '{ n += $1 } END { printf "%d\n", n }'; }
removed() { grep -cE 'unlink(at)?\(.*= 0' "$1" || :; }

# A batch of so many rows, from that key on.
batch() {
    awk -v from="$1" -v n="$2" 'BEGIN {
        for (k = 0; k < n; k++) printf "[\"+I\",%d,\"value %d\"]\n", from + k, k * 7919 % 10000
    }'
}

# Makes a table of a draft by so many commits of so many rows, with a full compaction behind each so many, if any.
make() {
    local n
    "$program" "$work/$1" create <"$top/examples/$2.json" >"$work/out"
    for ((n = 0; n < $3; n++)); do
        batch $((n * $4)) "$4" | "$program" "$work/$1" write >"$work/out"
        [ "$5" -eq 0 ] || [ $(((n + 1) % $5)) -ne 0 ] || "$program" "$work/$1" compact --full >"$work/out"
    done
}

# Copies a table, and commits one more row to the copy: so its folders are sealed, as those of a table in use.
copy() {
    rm -rf "$work/copy"
    cp -a "$work/$1" "$work/copy"
    echo '["+I",-1,"more"]' | "$program" "$work/copy" write >"$work/out"
    newest=$(sed 's/snapshot //' "$work/out")
    sync -f "$work"
}

# How many milliseconds a command takes on the copy.
milliseconds() {
    local begun=${EPOCHREALTIME/./}
    "$program" "$work/copy" "$@" >"$work/out" 2>&1 || fail "$* on a copy ended with $?: $(<"$work/out")"
    awk -v t="$((${EPOCHREALTIME/./} - begun))" 'BEGIN { printf "%.1f\n", t / 1000 }'
}

# One expiry of a copy of a table: a line with its seconds and its memory goes to a file.
expire() {
    copy "$1"
    "$program" "$work/copy" scan >"$work/before"
    before="$(files "$work/copy") files of $(bytes "$work/copy") bytes"
    commit=$(echo '["+I",-1,"more"]' | milliseconds write)
    newest=$((newest + 1))
    local begun=${EPOCHREALTIME/./}
    command time -f %M -o "$work/memory" "$program" "$work/copy" expire --min 1 --max 1 --millis 0 >"$work/out"
    echo "$((${EPOCHREALTIME/./} - begun)) $(<"$work/memory")" >>"$work/$1.times"
    [ "$(<"$work/out")" = "kept $newest $newest" ] || fail "an expiry of $1 printed $(<"$work/out")"
    "$program" "$work/copy" scan | cmp - "$work/before" || fail "a scan of $1 prints other rows after an expiry"
    after="$(files "$work/copy") files of $(bytes "$work/copy") bytes"
}

# Tells of an expiry of a table, whose snapshots are told as so many.
tell() {
    local n nothing later
    for n in 1 2 3; do expire "$1"; done
    nothing=$(milliseconds expire --min 1 --max 1 --millis 0)
    later=$(echo '["+I",-1,"more"]' | milliseconds write)
    sort -n "$work/$1.times" | awk -v name="$1" -v snapshots="$newest" '
        NR == 1 { t = $1 } $2 > m { m = $2 }
        END { printf "%s: all but the newest of %d snapshots in %.1f ms, at most %d kB\n",
            name, snapshots, t / 1000, m }'
    echo "    before $before, after $after; a commit of a row took $commit ms, and then $later ms"
    echo "    where nothing is to go it took $nothing ms"
    trace "$1"
}

# How many syncs, removes and opens an expiry makes, and its calls of the store by the rules.
trace() {
    command -v strace >/dev/null || return 0
    copy "$1"
    strace -f -qq -o "$work/trace" -e trace=fsync,fdatasync,unlink,unlinkat,open,openat \
        "$program" "$work/copy" expire --min 1 --max 1 --millis 0 >"$work/out"
    echo "    $(grep -cE 'fsync\(|fdatasync\(' "$work/trace") syncs, $(removed "$work/trace") removes," \
        "$(grep -c 'open' "$work/trace") opens"
}

# The calls of the store by the rules, of so many snapshots of commits alone, whose manifests are merged at thirty.
rules() {
    awk -v n="$1" -v told="$2" 'BEGIN {
        calls = 7 + n
        removes = 1
        for (s = 1; s <= n; s++) {
            if (m >= 30) removes += m
            m = m >= 30 ? 2 : m + 1
            calls += 3 + m + (told ? 2 : 0)
            if (s < n) removes += told ? 6 : 3
        }
        printf "    by the rules %d calls of the store, %d of them removes\n", calls + removes, removes
    }'
}

make one table "$commits" 1 0
tell one
rules $((commits + 1)) 0
make one.told input "$commits" 1 0
tell one.told
rules $((commits + 1)) 1
make many table "$batches" "$rows" 0
tell many
make many.compacted table "$batches" "$rows" 5
tell many.compacted
