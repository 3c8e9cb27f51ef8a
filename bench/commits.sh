#!/usr/bin/env bash
# Commits one row a thousand times to one table, on a real folder, and tells of commits 1, 200 and 1000: the least time of
# five, each on a copy of the folder as it stood before; with strace also how many syncs and how many system calls one
# takes there; and how many calls of the store, live files and manifests that is by the rules of docs/COST.md, which it
# computes and doesn't count. Then it loads 1,000,000 rows into another table, in batches of 100,000, and prints the time, the rows a second and
# the most memory of one write; where sqlite3 is there, beside as many imports of the same rows into its table. The gate
# never runs it. It wants GNU time, and the program to be built by ./paimon.
#
# usage: bench/commits.sh [PROGRAM [COMMITS [ROWS [BATCH [FOLDER]]]]]     the folder is where the tables are made, else TMPDIR
set -eu
top=$(dirname -- "$(dirname -- "$(readlink -f -- "$0")")")
program=${1:-$top/crates/paimon/out/ready/paimon}
commits=${2:-1000}
rows=${3:-1000000}
batch=${4:-100000}
work=$(mktemp -d "${5:-${TMPDIR:-/tmp}}/commits.XXXXXX")
trap 'rm -rf "$work"' EXIT
table=$work/table

row() { printf '["+I",%d,"value %d"]\n' "$1" "$1"; }
millis() { echo $(($(date +%s%N) / 1000000)); }

# How many calls of the store the next commit makes, alone: two for the schema, one for the names in use, the listing of
# the snapshots, the newest and its two lists, its manifests, four creates, or five where manifests are merged, and the
# publish. Before the first commit the origin is read in the place of the snapshot, and nothing else of it.
calls() {
    local manifests=$1
    if [ "$2" -eq 1 ]; then
        echo 10
    else
        echo $((12 + manifests + (manifests >= 30)))
    fi
}

# The manifests of the newest snapshot before a commit: one more a commit, and two after thirty became one.
manifests() {
    local n=0 k
    for ((k = 1; k < $1; k++)); do n=$((n >= 30 ? 2 : n + 1)); done
    echo "$n"
}

# Tells of the next commit, of that number, from copies of the folder.
tell() {
    local number=$1 least=999999999 begun took files found
    found=$(manifests "$number")
    for _ in 1 2 3 4 5; do
        cp -a "$table" "$work/copy"
        sync "$work/copy" 2>/dev/null || sync
        sleep 1.2 # a folder that changed within the last second is synced once more before each answer
        begun=$(millis)
        row "$number" | "$program" "$work/copy" write >"$work/out"
        took=$(($(millis) - begun))
        [ "$took" -ge "$least" ] || least=$took
        [ "$(<"$work/out")" = "snapshot $number" ] || { echo "commit $number printed $(<"$work/out")" && exit 1; }
        rm -rf "$work/copy"
    done
    files=$((number - 1))
    echo "commit $number: $least ms, over $files live files and $found manifests: $(calls "$found" "$number") calls of the store"
    command -v strace >/dev/null || return 0
    cp -a "$table" "$work/copy"
    sync
    sleep 1.2
    row "$number" | strace -f -qq -o "$work/trace" "$program" "$work/copy" write >"$work/out"
    rm -rf "$work/copy"
    echo "commit $number: $(grep -c 'sync(' "$work/trace") syncs, $(grep -c 'rename' "$work/trace") renames, $(wc -l <"$work/trace") system calls"
}

"$program" "$table" create <"$top/examples/table.json" >"$work/out"
begun=$(millis)
spent=0
for ((n = 1; n <= commits; n++)); do
    case $n in
    1 | 200 | 1000)
        pause=$(millis)
        tell "$n"
        spent=$((spent + $(millis) - pause))
        ;;
    esac
    row "$n" | "$program" "$table" write >"$work/out"
done
took=$(($(millis) - begun - spent))
[ "$(<"$work/out")" = "snapshot $commits" ] || { echo "the last commit printed $(<"$work/out")" && exit 1; }
[ "$("$program" "$table" scan | wc -l)" -eq "$commits" ] || { echo "rows are missing" && exit 1; }
echo "$commits commits of one row: $took ms, $(find "$table" -type f | wc -l) files of $(du -sb "$table" | cut -f 1) bytes"

big=$work/big
"$program" "$big" create <"$top/examples/table.json" >"$work/out"
: >"$work/times"
for ((from = 0; from < rows; from += batch)); do
    awk -v from="$from" -v to=$((from + batch < rows ? from + batch : rows)) \
        'BEGIN { for (k = from; k < to; k++) printf "[\"+I\",%d,\"value %d\"]\n", k, k * 7919 % 10000 }' >"$work/batch.$from"
done
begun=$(millis)
for ((from = 0; from < rows; from += batch)); do
    command time -f "%M" -a -o "$work/times" "$program" "$big" write <"$work/batch.$from" >"$work/out"
done
took=$(($(millis) - begun))
echo "$rows rows in batches of $batch: $took ms, $((rows * 1000 / (took > 0 ? took : 1))) rows a second, at most $(sort -n "$work/times" | tail -1) kB"
[ "$("$program" "$big" scan | wc -l)" -eq "$rows" ] || { echo "rows are missing" && exit 1; }
command -v sqlite3 >/dev/null || exit 0
for ((from = 0; from < rows; from += batch)); do
    sed 's/^\["+I",\([0-9]*\),"\(.*\)"\]$/\1,\2/' "$work/batch.$from" >"$work/csv.$from"
done
sqlite3 "$work/rows.db" "create table t (id integer primary key, v text)"
begun=$(millis)
for ((from = 0; from < rows; from += batch)); do
    sqlite3 "$work/rows.db" "pragma synchronous = full" ".mode csv" ".import $work/csv.$from t" >/dev/null
done
echo "the same in sqlite3, an import for each batch: $(($(millis) - begun)) ms"
