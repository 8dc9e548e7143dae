"""A model of the three passes that clean code over virtual registers: `local_copies`, `dead_writes` and `jump_chains`.

It goes by what is asked of each place, by last writes and by paths, and not by walks as the compiler does. A function
is a tuple of blocks, a block a tuple of instructions, an instruction its text.
"""
import re
from functools import cache

WRITERS = set('ldc lda lod mov neg not add sub mul div rem and ior xor asr lsl lsr cvt seq sne sl sle cal'.split())
NEVER_TRAP = set('ldc lda lod mov not and ior xor asr lsl lsr cvt seq sne sl sle'.split())
TRAP_IF_SIGNED = set('neg add sub mul'.split())


def parts(insn):
    """The operation of an instruction, its last type, and its operands."""
    head, _, rest = insn.partition(' ')
    op, *types = head.split('.')
    return op, types[-1] if types else '', rest.split(', ') if rest else []


def places(insn):
    """Which operands are registers that are written, and which are registers that are read."""
    op, _, operands = parts(insn)
    named = [k for k, name in enumerate(operands) if re.fullmatch(r'v\d+', name)]
    written = [0] if op in WRITERS and 0 in named else []
    return written, [k for k in named if k not in written]


def written(insn):
    """The register that an instruction writes, or None."""
    return parts(insn)[2][0] if places(insn)[0] else None


def reads(insn):
    return [parts(insn)[2][k] for k in places(insn)[1]]


def target(insn):
    """The block that an instruction may go to, or None."""
    return next((int(name[1:]) for name in parts(insn)[2] if re.fullmatch(r'B\d+', name)), None)


def with_operands(insn, change):
    """The instruction with each operand, by its place, as it is changed."""
    operands = parts(insn)[2]
    changed = ', '.join(change(k, name) for k, name in enumerate(operands))
    return f'{insn.partition(" ")[0]} {changed}' if operands else insn


# ---- local_copies

def origin(block, at, register):
    """What is read at a place for a register: what the move reads that wrote it last, unless that was written since."""
    last = max((k for k in range(at) if written(block[k]) == register), default=None)
    if last is None or parts(block[last])[0] != 'mov':
        return register
    source = origin(block, last, reads(block[last])[0])
    return register if any(written(insn) == source for insn in block[last:at]) else source


def without_copies(blocks):
    def changed(block, at):
        read = places(block[at])[1]
        return with_operands(block[at], lambda k, name: origin(block, at, name) if k in read else name)
    return tuple(tuple(changed(block, at) for at in range(len(block))) for block in blocks)


# ---- dead_writes

def successors(blocks, number):
    last = blocks[number][-1] if blocks[number] else 'nop'
    nexts = [] if target(last) is None else [target(last)]
    return nexts if parts(last)[0] in ('jmp', 'ret') else nexts + [number + 1]


def is_live_below(blocks, number, register):
    """Whether some path leads from the bottom of a block to a read of a register, with no write of it on the way."""
    seen, ahead = set(), successors(blocks, number)
    while ahead:
        block = ahead.pop()
        if block in seen:
            continue
        seen.add(block)
        first = next((i for i in blocks[block] if register in reads(i) or register == written(i)), None)
        if first is None:
            ahead += successors(blocks, block)
        elif register in reads(first):
            return True
    return False


def may_be_left_out(insn):
    op, ty, _ = parts(insn)
    return op in NEVER_TRAP or op in TRAP_IF_SIGNED and ty in ('u32', 'u64', 'p64')


def is_self_move(insn):
    return parts(insn)[0] == 'mov' and reads(insn) == [written(insn)]


def without_dead(blocks):
    @cache
    def stays(number, at):
        """An instruction stays if it may not be left out, or one that stays reads what it writes before that is written
        again, or nothing writes it again and it is live below; but a move of a register to itself goes."""
        block = blocks[number]
        if not may_be_left_out(block[at]):
            return True
        if is_self_move(block[at]):
            return False
        register = written(block[at])
        behind = [block[k] for k in range(at + 1, len(block)) if stays(number, k)]
        first = next((i for i in behind if register in reads(i) or register == written(i)), None)
        return is_live_below(blocks, number, register) if first is None else register in reads(first)
    return tuple(tuple(insn for at, insn in enumerate(block) if stays(number, at))
                 for number, block in enumerate(blocks))


# ---- jump_chains

def end(blocks, number):
    """The block to which a block leads by jumps that are the only instructions of theirs."""
    only = blocks[number][0] if len(blocks[number]) == 1 else 'nop'
    return end(blocks, target(only)) if parts(only)[0] == 'jmp' else number


def without_chains(blocks):
    def changed(insn):
        if target(insn) is None:
            return insn
        return with_operands(insn, lambda k, name: f'B{end(blocks, target(insn))}' if name[0] == 'B' else name)
    return tuple(tuple(changed(insn) for insn in block) for block in blocks)


PASSES = {'copies': without_copies, 'dead': without_dead, 'chains': without_chains}
