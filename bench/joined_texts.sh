#!/usr/bin/env bash
# Counts the instructions of one `write` of rows of one key whose texts `listagg` joins, for some counts of rows. They
# are about linear in the rows where no text is copied whole for each. The gate never runs it. It wants valgrind, and the
# program to be built by ./paimon. docs/COST.md has what it printed.
#
# usage: bench/joined_texts.sh [PROGRAM [ROWS..]]
set -eu
top=$(dirname -- "$(dirname -- "$(readlink -f -- "$0")")")
program=${1:-$top/crates/paimon/out/ready/paimon}
[ $# -gt 0 ] && shift
[ $# -gt 0 ] || set -- 10000 20000 40000
work=$(mktemp -d /dev/shm/joined.XXXXXX)
trap 'rm -rf "$work"' EXIT
fields='[{"name":"id","type":"BIGINT NOT NULL"},{"name":"v","type":"STRING"}]'
options='{"merge-engine":"aggregation","fields.v.aggregate-function":"listagg"}'
draft="{\"fields\":$fields,\"primaryKeys\":[\"id\"],\"options\":$options}"
for rows in "$@"; do
    echo "$draft" | "$program" "$work/table-$rows" create >"$work/said"
    awk -v n="$rows" 'BEGIN { for (i = 0; i < n; i++) printf "[\"+I\",1,\"value%05d\"]\n", i }' >"$work/rows"
    valgrind --tool=callgrind --callgrind-out-file=/dev/null "$program" "$work/table-$rows" write <"$work/rows" \
        2>"$work/counted" >"$work/said"
    awk -v n="$rows" '/Collected/ { printf "%d rows: %.0f million instructions\n", n, $NF / 1e6 }' "$work/counted"
done
