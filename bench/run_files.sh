#!/usr/bin/env bash
# Writes 1,000,000 rows of a BIGINT and a short STRING as files of a run, in memory, and reads them again, beside avro-c on
# the same records, written to one file in memory, in the same run: five times each in turn. It prints the least time of
# each, the rows a second, and the most memory that ours took, with the rows that it was given. The gate never runs it. It
# wants avro-c (in Debian libavro-dev), a C compiler and GNU time. docs/COST.md has what it printed.
#
# usage: bench/run_files.sh
set -eu
top=$(dirname -- "$(dirname -- "$(readlink -f -- "$0")")")
work=$(mktemp -d /dev/shm/run_files.XXXXXX)
trap 'rm -rf "$work"' EXIT
(cd "$top/crates/pm_cases_codecs" && rt run </dev/null >"$work/first")
cc -O2 -o "$work/avro_c" "$top/bench/avro_c.c" -lavro
for _ in 1 2 3 4 5; do
    printf 'timed-run\t1000000\n' |
        command time -f 'memory %M kB' "$top/crates/pm_cases_codecs/out/pm_cases_codecs" >>"$work/ours.txt" 2>>"$work/memory.txt"
    "$work/avro_c" "$work/rows.avro" >>"$work/avro_c.txt"
    rm "$work/rows.avro"
done
for who in ours avro_c; do
    for what in written read; do
        grep -o "$what [0-9]* ms" "$work/$who.txt" | sort -n -k 2 | head -1 |
            awk -v who="$who" '{printf "%s: %s in %s ms, %.0f rows a second\n", who, $1, $2, 1e9 / $2}'
    done
done
sort -n -k 2 "$work/memory.txt" | tail -1
