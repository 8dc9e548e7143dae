#!/bin/sh
# Measures how long a text takes to be read (`c_parser`) and to be judged (`c_types`), and how much memory.
#
# The texts are the units of bench/made_text.py. Each is given to the program `front_rows` as a row, once with a stray
# bracket at its end, so that it is read and has no tree, and once as it is; the rest of the time is the typing, with the
# weight and the data size.
#
# usage: bench/typing.sh [KIND..]      (all kinds of units where none are given)
set -eu
top=$(cd "$(dirname "$0")/.." && pwd)
work=$(mktemp -d /tmp/typing_speed.XXXXXX)
trap 'rm -rf "$work"' EXIT

(cd "$top/crates/front_rows" && rt run > "$work/log" 2>&1) || { cat "$work/log"; exit 1; }

# Runs the program on one row, a text with an end, and says what that took.
measure() {
    python3 - "$2" "$3" "$work/measures.rows" <<'PY'
import sys
text = open(sys.argv[1]).read().rstrip("\n") + sys.argv[2]
open(sys.argv[3], "w").write(text.replace("\\", "\\\\") + " =>\n")
PY
    /usr/bin/time -f "$1: %e s, %M KiB" -o "$work/took" "$top/crates/front_rows/out/front_rows" "$work/measures.rows" \
        > "$work/out" 2>&1 || true
    tail -n 1 "$work/took"
}

[ $# -gt 0 ] || set -- unit names objects scopes members items cases
for kind; do
    python3 "$top/bench/made_text.py" "$kind" "$work/text.c"
    echo "$kind: $(wc -c < "$work/text.c") bytes"
    measure "  read" "$work/text.c" " )"
    measure "  read and judged" "$work/text.c" ""
    grep -o 'weight .*' "$work/out" | head -c 60 || head -c 200 "$work/out"
    echo
done
