#!/bin/sh
# Gives the changes of a table to a command: in each run those since the run before, as `follow` prints them, on the
# command's standard input. The file NEXT keeps the id of the next snapshot; where it isn't there the first one is 1. It
# is replaced once the command has ended with 0. So no frame is left out, and where a run is stopped between the two the
# next one gives the same frames once more. Let one run at a time use NEXT, as by flock.
#
# usage: examples/consume.sh FOLDER NEXT COMMAND [WORD ..]     with the program ./paimon, or PAIMON
set -eu
folder=$1
next=$2
shift 2
from=1
[ ! -e "$next" ] || read -r from <"$next" || [ -n "$from" ]
"${PAIMON:-./paimon}" "$folder" follow --from "$from" >"$next.frames"
last=$(sed -n 's/^{"snapshot":\([0-9]*\)}$/\1/p' "$next.frames" | tail -n 1)
[ -n "$last" ] || exit 0
"$@" <"$next.frames"
echo $((last + 1)) >"$next.new"
mv "$next.new" "$next"
