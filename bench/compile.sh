#!/bin/sh
# Measures the whole compiler (`msc build`, as the gate built it) beside other compilers of C, and its images beside code
# for the same processor.
#
# The time and the greatest memory of compiling two texts of bench/made_text.py, `generated` (2,000 small functions) and
# `long` (4 MiB of ordinary C), by `msc build`, `tcc -c`, `gcc -O0 -c` and `alpha-linux-gnu-gcc -O0 -c`, the best of three;
# then what bench/steps.py says of the images.
#
# usage: bench/compile.sh      (needs ./msc to be built, tcc, gcc, alpha-linux-gnu-gcc with its libc, qemu-alpha, GNU time)
set -eu
top=$(cd "$(dirname "$0")/.." && pwd)
work=$(mktemp -d /tmp/compile_speed.XXXXXX)
trap 'rm -rf "$work"' EXIT
msc="$top/crates/msc/out/msc"

# The best of three calls of a command: seconds and KiB.
measure() {
    name=$1
    shift
    for _ in 1 2 3; do
        /usr/bin/time -f "%e %M" -a -o "$work/took" "$@" > "$work/out" 2> "$work/err" || { echo "$name: failed"; return; }
    done
    sort -n "$work/took" | head -n 1 | { read -r seconds memory; echo "  $name: $seconds s, $memory KiB"; }
    rm "$work/took"
}

for kind in generated long; do
    python3 "$top/bench/made_text.py" "$kind" "$work/text.c"
    echo "$kind: $(wc -c < "$work/text.c") bytes"
    measure "msc build" "$msc" build "$work/text.c"
    measure "tcc" tcc -w -c -o "$work/text.o" "$work/text.c"
    measure "gcc -O0" gcc -std=gnu99 -w -O0 -c -o "$work/text.o" "$work/text.c"
    measure "alpha-linux-gnu-gcc -O0" alpha-linux-gnu-gcc -std=gnu99 -w -O0 -c -o "$work/text.o" "$work/text.c"
done

"$top/bench/steps.py" "$msc"
