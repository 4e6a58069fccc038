#!/bin/sh
# Makes a long run of each example runtime, cuts a window out of its middle, and prints what limits it: long.sh [ROWS]
#
# Each run has ROWS rows, 1000000 if not given; that in Python has a tenth, since it takes longer. It needs cc, rustc and python3, a runtime whose
# compiler is missing is left out, and the program boc, which is bin/boc here or what BOC names.
set -eu
rows=${1:-1000000}
here=$(cd "$(dirname "$0")" && pwd)
boc=${BOC:-$here/../../bin/boc}
folder=$(mktemp -d)
trap 'rm -rf "$folder"' EXIT

# Seconds and parts of them, where the system has them.
now() { date +%s.%N; }

# show NAME ROWS COMMAND ..: the run of a command, and what limits its rows in the middle.
show() {
    name=$1 count=$2
    shift 2
    began=$(now)
    "$@" 4 --long "$count" --names "$folder/names" > "$folder/stream"
    ran=$(now)
    "$boc" cut --from "$((count / 2))" --rows 20000 --names "$folder/names" --out-names "$folder/window.names" "$folder/stream" > "$folder/window"
    cut=$(now)
    "$boc" why --typical --names "$folder/window.names" "$folder/window" > "$folder/why"
    why=$(now)
    printf '%s: %s lines, ' "$name" "$(wc -l < "$folder/stream")"
    printf '%s %s %s %s\n' "$began" "$ran" "$cut" "$why" | awk '{ printf "the run %.1f s, cut %.1f s, why %.1f s\n", $2 - $1, $3 - $2, $4 - $3 }'
    sed -n '/^candidates/,+1p' "$folder/why"
}

if command -v cc > "$folder/found"; then
    cc -O2 -pthread -I "$here/../../recorders" "$here/heat.c" -o "$folder/heat"
    show heat.c "$rows" "$folder/heat"
fi
if command -v rustc > "$folder/found"; then
    rustc --edition 2021 -O "$here/bank.rs" -o "$folder/bank"
    show bank.rs "$rows" "$folder/bank"
fi
show philosophers.py "$((rows / 10))" python3 "$here/philosophers.py"
