#!/usr/bin/env python3
"""A model of the generator of C texts apart from its code, and rows of texts by it.

usage: gen_model.py SEED SIZE    the text
       gen_model.py --run SEED SIZE    x behind each round, the byte that the text puts, and its status
       gen_model.py --texts    rows: a seed and a size with the text
       gen_model.py --sums    rows: a seed and a size with the length of the text and its checksum FNV-1a of 64 bits
       gen_model.py --programs    rows: a seed and a size with how the program of the text runs
       gen_model.py --calls    rows: a seed and a size with what `run` and `vm` answer for the text

A seed and a size give one line for each function and one for `main`. Two numbers are drawn for each function, by a
linear congruence of 32 bits that begins with the seed: the upper 8 bits of the first, and one more, are its factor, and
the upper 16 bits of the second its mask.
"""
import sys
from itertools import islice

FUNCTION = (
    "unsigned f{number}(unsigned a,unsigned b)"
    "{{unsigned c;unsigned d;c=a*{factor}+b;d=a^{mask};if(c<d){{c=c+d;}}else{{c=c-b;}}return c^d;}}\n"
)
MAIN = "int main(void){{unsigned x;int i;x=1;for(i=0;i<4;i++){{{calls}}}putchar(x&127);return x>>25;}}\n"
WORD = 1 << 32


def draws(seed):
    """The numbers that are drawn from a seed, without end."""
    while True:
        seed = (seed * 1664525 + 1013904223) % WORD
        yield seed


def functions(seed, size):
    """The factor and the mask of each function."""
    drawn = list(islice(draws(seed), 2 * size))
    return [(1 + factor // (1 << 24), mask // (1 << 16)) for factor, mask in zip(drawn[::2], drawn[1::2])]


def text(seed, size):
    lines = [
        FUNCTION.format(number=number, factor=factor, mask=mask)
        for number, (factor, mask) in enumerate(functions(seed, size))
    ]
    calls = "".join(f"x=f{number}(x,i);" for number in range(size))
    return "".join(lines) + MAIN.format(calls=calls)


def run(seed, size):
    """The value of x behind each round, the byte that the text puts, and its status."""
    x, rounds = 1, []
    for i in range(4):
        for factor, mask in functions(seed, size):
            c, d = (x * factor + i) % WORD, x ^ mask
            c = (c + d if c < d else c - i) % WORD
            x = c ^ d
        rounds.append(x)
    return rounds, x & 127, x >> 25


def checksum(data):
    total = 0xCBF29CE484222325
    for byte in data:
        total = ((total ^ byte) * 0x100000001B3) % (1 << 64)
    return total


WHOLE = [(0, 0), (0, 1), (1, 1), (4294967295, 1), (0, 2), (1999, 3), (3141592653, 11)]
# seeds at the edges of their range, and sizes at which a number gets a digit more, up to the greatest of a command
SEEDS = [0, 1, 2, 7, 1999, 65535, 65536, 123456789, 2147483647, 2147483648, 3141592653, 4294967294, 4294967295]
SIZES = [1, 2, 3, 9, 10, 11, 60, 99, 100, 101, 300, 999, 1000, 1001, 1999, 2000]


def text_rows():
    for seed, size in WHOLE:
        print(f"{seed} {size} =>")
        for line in text(seed, size).splitlines():
            print(f"  {line}")


def sum_rows():
    pairs = {(SEEDS[at % len(SEEDS)], size) for at, size in enumerate(SIZES)}
    pairs |= {(SEEDS[(5 * at + 3) % len(SEEDS)], size) for at, size in enumerate(SIZES)}
    pairs |= {(seed, 25) for seed in SEEDS} | {(0, 2000), (1, 2000), (4294967295, 2000)}
    for seed, size in sorted(pairs, key=lambda pair: (pair[1], pair[0])):
        data = text(seed, size).encode()
        print(f"{seed} {size} => {len(data)} {checksum(data):016x}")


# 300 texts with up to 20 functions, and seeds over all of their range
RUNS = [(k * 2654435761 % WORD, 1 + k % 20) for k in range(300)]


def escaped(byte):
    return chr(byte) if chr(byte).isalnum() else f"\\x{byte:02x}"


def program_rows():
    for seed, size in RUNS:
        _, byte, status = run(seed, size)
        print(f"{seed} {size} =>\n  Ended {{ status: {status} }}\n  out {escaped(byte)}")


def call_rows():
    for seed, size in RUNS:
        _, byte, status = run(seed, size)
        answer = f'  Ran {{ status: {status} }}, status {status}, out "{escaped(byte)}"'
        print(f"{seed} {size} =>\n{answer}\n{answer}")


def main(words):
    if words == ["--texts"]:
        text_rows()
    elif words == ["--sums"]:
        sum_rows()
    elif words == ["--programs"]:
        program_rows()
    elif words == ["--calls"]:
        call_rows()
    elif len(words) == 2 and all(word.isdigit() for word in words):
        sys.stdout.write(text(int(words[0]), int(words[1])))
    elif len(words) == 3 and words[0] == "--run" and all(word.isdigit() for word in words[1:]):
        print(*run(int(words[1]), int(words[2])))
    else:
        sys.exit(__doc__)


main(sys.argv[1:])
