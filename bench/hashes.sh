#!/usr/bin/env bash
# Hashes 1,000,000 numbers as keys, ten rounds on lanes and ten one by one, five times in the same run. It prints the
# least time of each and their ratio. The gate never runs it. docs/COST.md has what it printed.
#
# usage: bench/hashes.sh
set -eu
top=$(dirname -- "$(dirname -- "$(readlink -f -- "$0")")")
work=$(mktemp -d /dev/shm/hashes.XXXXXX)
trap 'rm -rf "$work"' EXIT
(cd "$top/crates/pm_cases_groups" && rt run </dev/null >"$work/first")
for _ in 1 2 3 4 5; do
    printf 'timed-hashes\t1000000\t10\n' | "$top/crates/pm_cases_groups/out/pm_cases_groups" >>"$work/times.txt"
done
for what in lanes plain; do
    grep -o "$what [0-9]* ms" "$work/times.txt" | sort -n -k 2 | head -1
done | awk '{print; ms[NR] = $2} END {if (ms[1] > 0) printf "ratio %.1f\n", ms[2] / ms[1]}'
