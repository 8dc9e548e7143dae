#!/bin/sh
# Measures how long `msc print` takes to read texts of about 4 MiB, and how much memory, beside
# `gcc -fsyntax-only` on the same texts. Run by hand: bench/parser.sh
#
# A stray bracket ends each text, so that all of it is read, and no tree is printed.
set -eu
top=$(cd "$(dirname "$0")/.." && pwd)
work=$(mktemp -d /tmp/parse_speed.XXXXXX)
trap 'rm -rf "$work"' EXIT

# Runs the words that follow the name of the measured program, and says what they took.
measure() {
    name=$1
    shift
    /usr/bin/time -f "$name: %e s, %M KiB" -o "$work/took" "$@" > "$work/out" 2>&1 || true
    tail -n 1 "$work/took"
    head -c 200 "$work/out" | head -n 1
}

"$top/msc" exec /dev/null > "$work/out" 2>&1 || true    # has the compiler built
for kind in ordinary operators commas statements brackets typedefs; do
    python3 "$top/bench/made_text.py" "$kind" "$work/$kind.c"
    echo "$kind: $(wc -c < "$work/$kind.c") bytes"
    measure "  gcc" timeout 20 gcc -std=c99 -w -fsyntax-only "$work/$kind.c"
    echo ')' >> "$work/$kind.c"
    measure "  msc" "$top/msc" print "$work/$kind.c" --pass tree
done
