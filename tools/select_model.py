"""Selects programs by a model apart from the compiler's.

usage: tools/select_model.py < FILE

FILE is `crates/back_rows/data/selected.rows`. It is printed again with what the model says is due of each row, so that
nothing has changed where the rows are right. The model is the table of `docs/selection.md`; constants are made as the
model in `tools/alpha_constants.py` has them.
"""
import re
import sys

from alpha_constants import MASK, shortest

CHECKED = {"s32": "l/v", "u32": "l", "s64": "q/v", "u64": "q", "p64": "q"}
DIVISIONS = {"s32": "l", "u32": "lu", "s64": "q", "u64": "qu"}
LOADS = {"u8": "ldbu", "u16": "ldwu", "s8": "ldbu", "s16": "ldwu", "s32": "ldl", "u32": "ldl", "s64": "ldq", "u64": "ldq",
         "p64": "ldq"}
STORES = {"8": "stb", "16": "stw", "32": "stl", "64": "stq"}
PARTS = {1: ("ldbu", "stb"), 2: ("ldwu", "stw"), 4: ("ldl", "stl"), 8: ("ldq", "stq")}


def temp(register):
    return f"t{int(register[1:]) + 4}"


def constant(n, d):
    """The code of a number: the shortest, by the model of constants."""
    code = []
    for name, number, base in shortest(n & MASK):
        base = base if base == "$31" else d
        code.append(f"{name} {d}, {number}({base})" if name in ("lda", "ldah") else f"{name} {base}, {number}, {d}")
    return code


def near(n, pointer):
    """The code in front of an access, and where it goes."""
    if -32768 <= n < 32768:
        return [], f"{n}({pointer})"
    return constant(n, "t0") + [f"addq {pointer}, t0, t0"], "0(t0)"


def builtin(name, d, arguments):
    if name == "putchar":
        code = [f"bis $31, {arguments[0]}, $16", "lda $0, 2($31)", "call_pal 131"]
        return code + ([f"zapnot {arguments[0]}, 1, {d}"] if d else [])
    if name == "getchar":
        return ["lda $0, 3($31)", "call_pal 131"] + ([f"bis $31, $0, {d}"] if d else [])
    if name == "abort":
        return ["lda $16, 2($31)", "call_pal 170"]
    return [f"bis $31, {arguments[0]}, $16", "lda $0, 1($31)", "call_pal 131"]


def call(names, d, callee, arguments):
    if callee not in names:
        return builtin(callee, d, arguments)
    code = [f"bis $31, {a}, ${16 + k}" if k < 6 else f"stq {a}, out{k - 6}" for k, a in enumerate(arguments)]
    registers = "".join(f", ${16 + k}" for k in range(min(len(arguments), 6)))
    code.append(f"bsr $26, {names.index(callee)}{registers}")
    return code + ([f"bis $31, $0, {d}"] if d else [])


def convert(source, to, d, a):
    if source in ("s8", "s16"):
        return [f"sext{'b' if source == 's8' else 'w'} {a}, {d}"]
    if source in ("u8", "u16"):
        return [f"zapnot {a}, {1 if source == 'u8' else 3}, {d}"]
    narrow = to in ("s32", "u32")
    if source == "u32" and not narrow:
        return [f"zapnot {a}, 15, {d}"]
    if source in ("s32", "u32") or narrow:
        return [f"addl {a}, 0, {d}"]
    return [f"bis $31, {a}, {d}"]


def code_of(names, text):
    head, _, rest = text.partition(" ")
    op, *types = head.split(".")
    ty = types[0] if types else None
    words = rest.split(", ") if rest else []
    t = [temp(w) if re.fullmatch(r"v\d+", w) else w for w in words]
    narrow = ty in ("s32", "u32")
    if op == "ldc":
        return constant(int(words[1]), t[0])
    if op == "lda":
        return [f"lda {t[0]}, {words[1]}"]
    if op == "lod":
        code, at = near(int(words[2]), t[1])
        if ty in ("s8", "s16"):
            return code + [f"{LOADS[ty]} t0, {at}", f"sext{'b' if ty == 's8' else 'w'} t0, {t[0]}"]
        return code + [f"{LOADS[ty]} {t[0]}, {at}"]
    if op == "str":
        code, at = near(int(words[1]), t[0])
        return code + [f"{STORES[ty[1:]]} {t[2]}, {at}"]
    if op == "mcpy":
        size, align = int(words[2]), int(words[3])
        load, store = PARTS[align]
        return [line for k in range(0, size, align) for line in (f"{load} t0, {k}({t[1]})", f"{store} t0, {k}({t[0]})")]
    if op == "mov":
        return [f"bis $31, {t[1]}, {t[0]}"]
    if op == "not":
        return [f"ornot $31, {t[1]}, {t[0]}"]
    if op == "neg":
        return [f"sub{CHECKED[ty]} $31, {t[1]}, {t[0]}"]
    if op in ("add", "sub", "mul"):
        return [f"{op}{CHECKED[ty]} {t[1]}, {t[2]}, {t[0]}"]
    if op in ("div", "rem"):
        return [f"bis $31, {t[1]}, $24", f"bis $31, {t[2]}, $25", f"bsr $23, __{op}{DIVISIONS[ty]}", f"bis $31, $27, {t[0]}"]
    if op in ("and", "ior", "xor"):
        return [f"{'bis' if op == 'ior' else op} {t[1]}, {t[2]}, {t[0]}"]
    if op == "asr":
        return [f"sra {t[1]}, {t[2]}, {t[0]}"]
    if op == "lsl" and narrow:
        return [f"sll {t[1]}, {t[2]}, t0", f"addl t0, 0, {t[0]}"]
    if op == "lsr" and narrow:
        return [f"zapnot {t[1]}, 15, t0", f"srl t0, {t[2]}, t0", f"addl t0, 0, {t[0]}"]
    if op in ("lsl", "lsr"):
        return [f"{'sll' if op == 'lsl' else 'srl'} {t[1]}, {t[2]}, {t[0]}"]
    if op == "seq":
        return [f"cmpeq {t[1]}, {t[2]}, {t[0]}"]
    if op == "sne":
        return [f"cmpeq {t[1]}, {t[2]}, t0", f"cmpeq t0, 0, {t[0]}"]
    if op in ("sl", "sle"):
        return [f"cmp{'' if ty in ('s32', 's64') else 'u'}{'lt' if op == 'sl' else 'le'} {t[1]}, {t[2]}, {t[0]}"]
    if op == "cvt":
        return convert(types[0], types[1], t[0], t[1])
    if op in ("btrue", "bfalse"):
        return [f"{'bne' if op == 'btrue' else 'beq'} {t[0]}, {words[1]}"]
    if op == "jmp":
        return [f"br $31, {words[0]}"]
    if op == "cal":
        return call(names, None if words[0] == "-" else t[0], words[1], t[2:])
    if op == "ret":
        return [f"bis $31, {t[0]}, $0", "ret $0"] if words else ["ret"]
    if op == "mrk":
        return ["mrk"]
    assert op == "nop", op
    return []


def known_behind(known, text):
    """What an instruction says of registers: ("zero", Z), or ("truth", T, D, A) where D says whether A is no zero."""
    op, *words = text.replace(",", "").split(" ")
    if op.startswith("ldc.") and words[1] == "0":
        return ("zero", words[0])
    if op.startswith("sne.") and known == ("zero", words[2]) and words[0] != words[1]:
        return ("truth", op[4:], words[0], words[1])
    return None


def with_test(known, text):
    """A branch on such a truth tests the value."""
    op, _, rest = text.partition(" ")
    if known and known[0] == "truth" and op in ("btrue.s32", "bfalse.s32") and rest.startswith(known[2] + ","):
        return f"{op.split('.')[0]}.{known[1]} {known[3]}{rest[len(known[2]):]}"
    return text


def parameter(k):
    return f"bis $31, ${16 + k}, t{k + 4}" if k < 6 else f"ldq t{k + 4}, in{k - 6}"


def selected(given):
    names = [line.split(" ")[1] for line in given if line.startswith("func ")]
    shown, params, number, known = [], 0, 0, None
    for line in given:
        word, _, rest = line.partition(" ")
        code = []
        if word == "func":
            shown.append(line)
        elif word == "params":
            params = int(rest)
        elif re.fullmatch(r"B\d+:", line):
            shown.append(line)
            code = [parameter(k) for k in range(params)] if line == "B0:" else []
            known = None
        elif word.isdigit():
            code = code_of(names, with_test(known, rest))
            known = known_behind(known, rest)
        for text in code:
            shown.append(f"{number} {text}")
            number += 1
    return shown


def main():
    given, is_due = [], False
    for line in sys.stdin.read().splitlines():
        if is_due and line.startswith("  "):
            continue
        is_due = False
        if not given and (not line or line.startswith("#")):
            print(line)
            continue
        print(line)
        given.append(line.removesuffix(" =>"))
        if line.endswith(" =>"):
            for text in selected(given):
                print(f"  {text}")
            given, is_due = [], True


if __name__ == "__main__":
    main()
