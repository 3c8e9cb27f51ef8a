#!/usr/bin/env bash
# Tries the wrong bodies that the gate doesn't: the edits of crates/NAME/wrong, in a copy of the checkout, where they
# stand in the place of the edits that the gate tries. It prints a line for each, with the first obligation that stays
# open. It ends with 1 where one isn't refused, can't be applied or read, or is refused only because a proof names what
# it took away, and where any wasn't tried. What is refused goes into bench/tried.txt (bench/tried.py). Built libraries
# are taken over; the others are built in the copy, which takes long. The gate never runs it.
#
# usage: bench/wrong_bodies.sh [CRATE..]     without a crate: each that has wrong bodies
set -uo pipefail
top=$(dirname -- "$(dirname -- "$(readlink -f -- "$0")")")
work=$(mktemp -d "${TMPDIR:-/tmp}/wrong_bodies.XXXXXX") || exit 1
trap 'rm -rf "$work"' EXIT
cd "$top" || exit 1

fail() {
    echo "wrong_bodies: $*" >&2
    exit 1
}

crates=("$@")
[ $# -gt 0 ] || for folder in crates/*/wrong; do
    crate=${folder%/wrong}
    crates+=("${crate#crates/}")
done
tar --exclude='crates/*/out/incremental' --exclude='crates/*/must-fail' -cf - crates crates.txt HANDLES |
    tar -C "$work" -xf - || fail "the checkout can't be copied to $work"
: >"$work/tried"
for crate in "${crates[@]}"; do
    [ -n "$(find "$work/crates/$crate/wrong" -name '*.edit' 2>/dev/null)" ] || fail "$crate has no wrong bodies"
    (cd "$work/crates/$crate/wrong" && printf "$crate/%s\n" *.edit) >>"$work/tried"
    mv "$work/crates/$crate/wrong" "$work/crates/$crate/must-fail"
done

(cd "$work" && rt must-fail "${crates[@]}" 2>&1) | tee "$work/said"
python3 bench/tried.py record "$work/said" || fail "bench/tried.txt can't be written"
bad=0
while read -r edit; do
    said=$(grep -F -- "must-fail $edit: " "$work/said")
    case $said in
    *"only because a proof file names"*) echo "SHOWS LITTLE: $edit" && bad=1 ;;
    *": refused, as it must be"*) ;;
    '') echo "NOT TRIED: $edit" && bad=1 ;;
    *) echo "NOT REFUSED: $edit" && bad=1 ;;
    esac
done <"$work/tried"
[ $bad -eq 0 ] && echo "all $(wc -l <"$work/tried") wrong bodies are refused"
exit $bad
