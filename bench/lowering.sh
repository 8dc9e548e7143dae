#!/bin/sh
# Measures how long a unit takes to be read and judged (`c_parser`, `c_types`), and how long and how much memory it takes
# until it is lowered too (`lowering`) and its code has run.
#
# The texts are the units of bench/made_text.py that keep the limit of the weight. Each is given to the program `front_rows`
# as a row: as one of `programs.rows`, whose run has one turn, so that hardly anything runs, and as one of `measures.rows`,
# for which it is read and judged alone.
#
# usage: bench/lowering.sh [KIND..]      (all kinds of units for the lowering where none are given)
set -eu
top=$(cd "$(dirname "$0")/.." && pwd)
work=$(mktemp -d /tmp/lowering_speed.XXXXXX)
trap 'rm -rf "$work"' EXIT

(cd "$top/crates/front_rows" && rt run > "$work/log" 2>&1) || { cat "$work/log"; exit 1; }

# Runs the program on one row, made of the text and an end, in a file of this name, and says what that took.
measure() {
    python3 - "$work/text.c" "$2" "$work/$3" <<'PY'
import sys
text = open(sys.argv[1]).read().rstrip("\n")
if sys.argv[3].endswith("measures.rows"):
    text = text.replace("\\", "\\\\")
open(sys.argv[3], "w").write(text + sys.argv[2].encode().decode("unicode_escape"))
PY
    /usr/bin/time -f "$1: %e s, %M KiB" -o "$work/took" "$top/crates/front_rows/out/front_rows" "$work/$3" > "$work/out" 2>&1 \
        || true
    tail -n 1 "$work/took"
}

[ $# -gt 0 ] || set -- long one labels deep high locals
for kind; do
    python3 "$top/bench/made_text.py" "$kind" "$work/text.c"
    echo "$kind: $(wc -c < "$work/text.c") bytes"
    measure "  read and judged" " =>\n" measures.rows
    grep -o 'weight [0-9]*' "$work/out" | head -n 1
    measure "  lowered and run" "\nturns 1 =>\n" programs.rows
    tail -n 3 "$work/out" | cut -c 1-100
done
