#!/usr/bin/env bash
# Prints the longest chain of crates that wait for each other, by the seconds of processor that docs/DEVELOPING.md has
# of their proofs, with the levels that the crates stand in: a crate stands one level above the highest that it needs.
# The gate can't be quicker than this chain, however many processors there are. It ends with 1 where the chain takes
# more than 20 minutes, or there are more than ten levels. The gate never runs it.
#
# usage: bench/longest_chain.sh
set -u
top=$(dirname -- "$(dirname -- "$(readlink -f -- "$0")")")
awk -F '|' '
    FNR == 1 { file++ }
    file == 1 && $2 ~ /^ `[a-z_]+` $/ && $4 ~ /^ [0-9]+ $/ { name = $2; gsub(/[ `]/, "", name); seconds[name] = $4 + 0 }
    file == 2 {
        sub(/#.*/, "")
        if (split($0, halves, ":") < 2) next
        split(halves[1], words, " ")
        below[words[1]] = halves[2]
    }
    function measure(crate,  i, n, needed, before) {
        if (crate in level) return
        n = split(below[crate], needed, " ")
        for (i = 1; i <= n; i++) {
            if (!(needed[i] in below)) continue
            measure(needed[i])
            if (level[needed[i]] > level[crate]) level[crate] = level[needed[i]]
            if (waits[needed[i]] > before) { before = waits[needed[i]]; last[crate] = needed[i] }
        }
        level[crate]++
        waits[crate] = before + (crate in seconds ? seconds[crate] : 0)
    }
    END {
        for (crate in below) {
            measure(crate)
            if (!(crate in seconds)) { print "not in the table: " crate; bad = 1 }
            if (waits[crate] > waits[top]) top = crate
            if (level[crate] > levels) levels = level[crate]
        }
        for (crate = top; crate != ""; crate = last[crate])
            print sprintf("%6d s  %s, level %d", seconds[crate], crate, level[crate])
        printf "%d levels; the longest chain takes %.1f minutes\n", levels, waits[top] / 60
        exit bad || levels > 10 || waits[top] > 1200
    }' "$top/docs/DEVELOPING.md" "$top/crates.txt"
