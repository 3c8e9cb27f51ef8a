#!/usr/bin/env bash
# Starts writers on one table, three at once, and kills each of them at a random moment. It promises, of a table that
# killed writers leave:
#   - it still reads, and has only rows that a writer was given, none twice;
#   - each acknowledged row is there, that is each whose `snapshot <id>` was printed, and no id was printed twice;
#   - the ids of its snapshots rise by one from 1, and each id that was printed is among them;
#   - one more write leaves no file that was being written.
# Files that a killed writer had put in place, and no snapshot names, stay: it prints how many. It ends with 1 where a
# promise fails. The gate never runs it.
#
# usage: bench/kill_writers.sh [PROGRAM [WRITERS]]     without a program: the one that ./paimon builds; 2000 writers
set -u
top=$(dirname -- "$(dirname -- "$(readlink -f -- "$0")")")
work=$(mktemp -d) || exit 1
trap 'rm -rf "$work"' EXIT
if [ $# -eq 0 ]; then
    "$top/paimon" "$work/none" create <"$top/examples/table.json" >"$work/first" || exit 1
fi
program=${1:-$top/crates/paimon/out/ready/paimon}
writers=${2:-2000}
table=$work/table
bad=0
: >"$work/ids"

broken() {
    echo "BROKEN: $*"
    bad=1
}

row() { printf '["+I",%d,"w%d"]\n' "$1" "$1"; }

# The milliseconds in which one write ends at present. A writer is killed up to half as much later.
span() {
    local begun=$(($(date +%s%N) / 1000000))
    row 0 | "$program" "$table" write >>"$work/out.0" || broken "a writer that wasn't killed ended with $?"
    echo $((($(date +%s%N) / 1000000 - begun) * 3 / 2 + 2))
}

"$program" "$table" create <"$top/examples/table.json" >"$work/created" || exit 1
begun=$(date +%s)
for ((n = 1; n <= writers; n += 3)); do
    [ $((n % 100)) -ne 1 ] || most=$(span)
    pids=()
    for ((i = n; i < n + 3; i++)); do
        "$program" "$table" write < <(row "$i") >"$work/out.$i" 2>"$work/err.$i" &
        pids+=($!)
    done
    for pid in "${pids[@]}"; do
        sleep "$(printf '%d.%03d' $((RANDOM % most / 1000)) $((RANDOM % most % 1000)))"
        kill -9 "$pid" 2>/dev/null
    done
    wait "${pids[@]}" 2>/dev/null
done 2>/dev/null
last=$((n - 1))

# Files of the folder that are being written.
begun_files() { find "$table/.new" -type f 2>/dev/null; }

left=$(begun_files | wc -l)
row 0 | "$program" "$table" write >>"$work/out.0" || broken "the last write ended with $?"
still=$(begun_files | wc -l)
[ "$still" -eq 0 ] || broken "files are left that were being written: $still"
"$program" "$table" scan >"$work/read" || broken "the table doesn't read: status $?"
for ((i = 0; i <= last; i++)); do row "$i"; done | sort >"$work/given"
sort "$work/read" >"$work/rows"
[ -z "$(comm -23 "$work/rows" "$work/given")" ] || broken "the table has rows that nobody wrote"
[ -z "$(uniq -d "$work/rows")" ] || broken "the table has a row twice"
for ((i = 1; i <= last; i++)); do
    { IFS= read -r line <"$work/out.$i" && [[ $line == 'snapshot '* ]]; } || continue
    echo "${line#snapshot }" >>"$work/ids"
    grep -qxF "$(row "$i")" "$work/rows" || broken "row $i was acknowledged and is gone"
done
acknowledged=$(wc -l <"$work/ids")
sed -n 's/^snapshot //p' "$work/out.0" >>"$work/ids"
[ -z "$(sort "$work/ids" | uniq -d)" ] || broken "an id was printed twice"
"$program" "$table" snapshots >"$work/snapshots" || broken "the snapshots can't be listed: status $?"
sed 's/^\[\([0-9]*\),.*/\1/' "$work/snapshots" >"$work/there"
seq "$(wc -l <"$work/there")" | cmp -s - "$work/there" || broken "the ids of the snapshots don't rise by one from 1"
[ -z "$(sort "$work/ids" | comm -23 - <(sort "$work/there"))" ] || broken "an id was printed that no snapshot has"

strays=$(($(find "$table/bucket-0" -type f | wc -l) - $(wc -l <"$work/there")))
echo "$last writers killed in $(($(date +%s) - begun)) s: $acknowledged acknowledged, $(wc -l <"$work/there") snapshots, $(wc -l <"$work/rows") rows in the table"
echo "$left files that were being written before the last write, $still after it; $strays data files that no snapshot names"
[ "$bad" -eq 0 ] && echo "every promise was kept"
exit "$bad"
