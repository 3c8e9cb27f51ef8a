#!/usr/bin/env bash
# Has 8 processes write to one table at once for a minute, each one command after another, with a row of its own each time,
# and two compact it meanwhile, where the program knows `compact`: every other time in full. It promises:
#   - each command that ended with 0 has its row in the table, once, and each that ended with 14 (contended) hasn't, and
#     names eleven ids;
#   - each compaction that ended with 0 committed a snapshot, or found nothing to compact; each other one was contended, or
#     another compaction took its files (15);
#   - none ended with 5 (the store failed), nor with anything else;
#   - no snapshot's id was printed twice, the ids that were printed are those from 1 on, without a gap, and `snapshots`
#     lists just these, those of the compactions as such.
# It ends with 1 where a promise fails. The gate never runs it. docs/DEVELOPING.md has what it printed.
#
# usage: bench/many_writers.sh [PROGRAM [SECONDS [WRITERS [COMPACTORS]]]]     without a program: the one that ./paimon builds
set -u
top=$(dirname -- "$(dirname -- "$(readlink -f -- "$0")")")
work=$(mktemp -d) || exit 1
trap 'rm -rf "$work"' EXIT
if [ $# -eq 0 ]; then
    "$top/paimon" "$work/none" create <"$top/examples/table.json" >"$work/first" || exit 1
fi
program=${1:-$top/crates/paimon/out/ready/paimon}
seconds=${2:-60}
writers=${3:-8}
compactors=${4:-2}
table=$work/table
bad=0
committed=0
contended=0
compacted=0
spared=0
taken=0

broken() {
    echo "BROKEN: $*"
    bad=1
}

row() { printf '["+I",%d,"w%d"]\n' "$1" "$1"; }

# writes rows of its own until the time is over; a line for each command: its key, its status, what it printed or said
write_rows() {
    local key=$1
    while [ "$(date +%s)" -lt "$end" ]; do
        local said status
        said=$(row "$key" | "$program" "$table" write 2>&1)
        status=$?
        printf '%d\t%d\t%s\n' "$key" "$status" "$said"
        key=$((key + writers))
    done
}

# compacts until the time is over; a line for each command: its status, what it printed or said
compact_runs() {
    local full=
    while [ "$(date +%s)" -lt "$end" ]; do
        local said status
        # shellcheck disable=SC2086
        said=$("$program" "$table" compact $full 2>&1)
        status=$?
        printf '%d\t%s\n' "$status" "$said"
        [ -z "$full" ] && full=--full || full=
    done
}

"$program" "$work/nothing" compact 2>"$work/said"
[ "$(<"$work/said")" = "E9 no table" ] || compactors=0
"$program" "$table" create <"$top/examples/table.json" >"$work/created" || exit 1
: >"$work/ids.unsorted"
: >"$work/compactions.unsorted"
end=$(($(date +%s) + seconds))
for ((w = 0; w < writers; w++)); do
    write_rows "$w" >"$work/log.$w" &
done
for ((c = 0; c < compactors; c++)); do
    compact_runs >"$work/compact.$c" &
done
wait

"$program" "$table" scan >"$work/read" || broken "the table doesn't read: status $?"
[ -z "$(sort "$work/read" | uniq -d)" ] || broken "a row stands twice"
while IFS=$'\t' read -r key status said; do
    is_there=no
    ! grep -qxF "$(row "$key")" "$work/read" || is_there=yes
    case $status in
    0)
        committed=$((committed + 1))
        [ "$is_there" = yes ] || broken "the write of $key ended with 0, and its row isn't there"
        printf '%s\n' "${said#snapshot }" >>"$work/ids.unsorted"
        ;;
    14)
        contended=$((contended + 1))
        [ "$is_there" = no ] || broken "the write of $key was contended, and its row is there"
        [ "$(wc -w <<<"$said")" -eq 13 ] || broken "the write of $key was contended, and said: $said"
        ;;
    *) broken "the write of $key ended with $status: $said" ;;
    esac
done < <(cat "$work"/log.*)
[ "$(wc -l <"$work/read")" -eq "$committed" ] || broken "the table has other rows than those of the commits"
while IFS=$'\t' read -r status said; do
    case $status,$said in
    0,"snapshot "*)
        compacted=$((compacted + 1))
        printf '%s\n' "${said#snapshot }" >>"$work/compactions.unsorted"
        ;;
    0,"nothing to compact") spared=$((spared + 1)) ;;
    14,*)
        contended=$((contended + 1))
        [ "$(wc -w <<<"$said")" -eq 13 ] || broken "a compaction was contended, and said: $said"
        ;;
    15,"E15 taken data-"*) taken=$((taken + 1)) ;;
    *) broken "a compaction ended with $status: $said" ;;
    esac
done < <([ "$compactors" -eq 0 ] || cat "$work"/compact.*)
sort -n "$work/ids.unsorted" "$work/compactions.unsorted" >"$work/ids"
sort -n "$work/compactions.unsorted" >"$work/compactions"
[ -z "$(uniq -d "$work/ids")" ] || broken "an id was printed twice"
newest=$((committed + compacted))
seq "$newest" | cmp -s - "$work/ids" || broken "the ids that were printed aren't those from 1 to $newest"
"$program" "$table" snapshots >"$work/snapshots" || broken "the snapshots can't be listed: status $?"
sed 's/^\[\([0-9]*\),.*/\1/' "$work/snapshots" | cmp -s - "$work/ids" ||
    broken "the snapshots that are there aren't those whose ids were printed"
sed -n 's/^\[\([0-9]*\),"COMPACT",.*/\1/p' "$work/snapshots" | cmp -s - "$work/compactions" ||
    broken "the compactions that are there aren't those whose ids were printed"

echo "$writers writers and $compactors compactors in $seconds s: $committed writes committed, $contended commands contended"
[ "$compactors" -eq 0 ] ||
    echo "$compacted compactions committed, $spared found nothing to compact, $taken found their files taken"
[ "$bad" -eq 0 ] && echo "every promise was kept"
exit "$bad"
