"""The piece of Alpha code by which a system serves an image: its start, its services and its traps.

A service of an image is `call_pal 131`, which changes no register but $0. Under Linux that word is a call of the system
with other numbers, so a branch stands in its place to a stub of its own, which keeps all registers:

    call_pal 159          the process's unique value = $16, which frees a register
    bsr $16, service
    call_pal 158          $0 = the unique value, the service's answer
    br $31, the word behind

A trap, `call_pal 170`, becomes a branch to `trap`. Of the `/v` instructions and of wrong accesses the system sends a
signal, whose handler ends the process as `msc` ends.
"""

MEMORY = {"lda": 0x08, "ldah": 0x09, "ldbu": 0x0A, "stb": 0x0E, "ldl": 0x28, "ldq": 0x29, "stq": 0x2D}
BRANCH = {"br": 0x30, "bsr": 0x34, "beq": 0x39, "blt": 0x3A, "bne": 0x3D}
OPERATE = {"subq": (0x10, 0x29), "s4addq": (0x10, 0x22), "addq": (0x10, 0x20), "cmpeq": (0x10, 0x2D), "and": (0x11, 0x00),
           "bis": (0x11, 0x20), "srl": (0x12, 0x34), "sll": (0x12, 0x39), "sra": (0x12, 0x3C), "umulh": (0x13, 0x30)}
CALLSYS, RDUNIQUE, WRUNIQUE = 0x83, 0x9E, 0x9F
EXIT, READ, WRITE, SIGALTSTACK, RT_SIGACTION = 1, 3, 4, 235, 352
SIGILL, SIGFPE, SIGBUS, SIGSEGV = 4, 8, 10, 11
SA_ONSTACK, SA_SIGINFO = 0x1, 0x40
# where the place of the signal stands in what a handler is given
CONTEXT_PC = 64

# what the piece writes: where the registers stand, by their numbers, then these
LINK, OLD16, BYTE, DIGITS, STACK, STATE = 256, 264, 272, 304, 512, 512 + 65536
# the registers that a call of the system may change, but $0 and $16
KEPT = [*range(1, 10), *range(17, 26), 27, 28]
STUB = 4


def fit(value, bits):
    """A signed number in a field of so many bits."""
    if not -(1 << bits - 1) <= value < 1 << bits - 1:
        raise ValueError("a branch does not reach")
    return value & (1 << bits) - 1


def branch(op, ra, at, target):
    """The word of a branch."""
    return BRANCH[op] << 26 | ra << 21 | fit((target - at - 4) // 4, 21)


class Piece:
    """Words with labels, from an address on."""

    def __init__(self, base):
        self.base, self.words, self.labels, self.branches = base, [], {}, []

    def here(self):
        return self.base + 4 * len(self.words)

    def label(self, name):
        self.labels[name] = self.here()

    def memory(self, op, ra, disp, rb=31):
        self.words.append(MEMORY[op] << 26 | ra << 21 | rb << 16 | fit(disp, 16))

    def operate(self, op, ra, rb, rc):
        """An operation; `rb` is a register, or a literal as a text."""
        opcode, function = OPERATE[op]
        second = int(rb) << 13 | 1 << 12 if isinstance(rb, str) else rb << 16
        self.words.append(opcode << 26 | ra << 21 | second | function << 5 | rc)

    def move(self, source, target):
        self.operate("bis", 31, source, target)

    def pal(self, function):
        self.words.append(function)

    def jump(self, rb):
        self.words.append(0x1A << 26 | 31 << 21 | rb << 16)

    def to(self, op, ra, label):
        self.branches.append((len(self.words), op, ra, label))
        self.words.append(0)

    def address(self, ra, address):
        high = (address + 32768) // 65536
        self.memory("ldah", ra, high)
        self.memory("lda", ra, address - 65536 * high, ra)

    def call(self, number, *arguments):
        """A call of the system; an argument is a number, a label, or None for what stands there."""
        for register, argument in zip(range(16, 22), arguments):
            if argument is not None:
                self.address(register, argument)
        self.memory("lda", 0, number)
        self.pal(CALLSYS)

    def quad(self, value):
        self.words += [value & 0xFFFFFFFF, value >> 32 & 0xFFFFFFFF]

    def text(self, text):
        data = text.encode() + bytes(-len(text) % 4)
        self.words += [int.from_bytes(data[k:k + 4], "little") for k in range(0, len(data), 4)]

    def done(self):
        for index, op, ra, label in self.branches:
            self.words[index] = branch(op, ra, self.base + 4 * index, self.labels[label])
        return self.words


def start(p, entry, stack_end):
    """The registers as a machine has them at the start, and the handlers of signals."""
    p.label("_start")
    p.call(SIGALTSTACK, p.labels["altstack"], 0)
    for signal in (SIGILL, SIGFPE, SIGBUS, SIGSEGV):
        p.call(RT_SIGACTION, signal, p.labels["action"], 0, 8, 0)
    p.address(30, stack_end)
    for register in range(30):
        p.move(31, register)
    p.words.append(branch("br", 31, p.here(), entry))


def service(p, state):
    """The services. $0 is free once it has said which is wanted."""
    p.label("service")
    p.memory("lda", 0, -1, 0)
    p.to("beq", 0, "exit")
    p.memory("lda", 0, -1, 0)
    p.to("beq", 0, "put")
    p.memory("lda", 0, -1, 0)
    p.to("beq", 0, "get")
    # another number: the machine is stuck at the word in front of the one to which the stub leads
    p.memory("ldl", 1, 4, 16)
    p.operate("sll", 1, "43", 1)
    p.operate("sra", 1, "41", 1)
    p.operate("addq", 16, 1, 16)
    p.memory("lda", 16, 4, 16)
    p.to("br", 31, "stuck")

    p.label("exit")
    p.pal(RDUNIQUE)
    p.operate("and", 0, "255", 16)
    p.call(EXIT)

    for name, number, descriptor in (("put", WRITE, 1), ("get", READ, 0)):
        p.label(name)
        p.address(0, state)
        for register in KEPT:
            p.memory("stq", register, 8 * register, 0)
        p.memory("stq", 16, LINK, 0)
        p.move(0, 9)
        p.pal(RDUNIQUE)
        p.memory("stq", 0, OLD16, 9)
        if name == "put":
            p.memory("stb", 0, BYTE, 9)
        p.memory("lda", 16, descriptor)
        p.memory("lda", 17, BYTE, 9)
        p.memory("lda", 18, 1)
        p.call(number)
        p.to("bne", 19, name + "_fault")
        if name == "put":
            p.to("beq", 0, "put_fault")
            p.memory("lda", 16, 2)
        else:
            p.memory("lda", 16, -1)
            p.to("beq", 0, "restore")
            p.memory("ldbu", 16, BYTE, 9)
        p.to("br", 31, "restore")

    # $16 has the answer, which goes to $0 in the stub
    p.label("restore")
    p.pal(WRUNIQUE)
    for register in KEPT:
        if register != 9:
            p.memory("ldq", register, 8 * register, 9)
    p.memory("ldq", 0, LINK, 9)
    p.memory("ldq", 16, OLD16, 9)
    p.memory("ldq", 9, 8 * 9, 9)
    p.jump(0)


def endings(p, state):
    """The ends of the process with a line for errors, as `msc` ends."""
    for name, status in (("put_fault", 73), ("get_fault", 74)):
        p.label(name)
        p.call(WRITE, 2, p.labels[name + "_line"], len(LINES[name]))
        p.call(EXIT, status)

    p.label("handler")
    p.operate("cmpeq", 16, str(SIGFPE), 1)
    p.memory("ldq", 16, CONTEXT_PC, 18)
    p.to("beq", 1, "stuck")
    p.memory("lda", 16, 3)
    p.label("trap")
    p.memory("lda", 14, 134)
    p.address(12, p.labels["trap_line"])
    p.memory("lda", 13, len(LINES["trap"]))
    p.to("br", 31, "say")
    p.label("stuck")
    p.memory("lda", 14, 139)
    p.address(12, p.labels["stuck_line"])
    p.memory("lda", 13, len(LINES["stuck"]))

    # the number $16 in digits behind the text at $12 of the length $13, and the end with the status $14
    p.label("say")
    p.address(9, state)
    p.memory("lda", 10, DIGITS + 24, 9)
    p.memory("lda", 1, 10)
    p.memory("stb", 1, 0, 10)
    p.address(2, p.labels["tenth"])
    p.memory("ldq", 2, 0, 2)
    p.label("digit")
    # a tenth of a number is the high half of its product with (2^67 + 2) / 10, moved by 3
    p.operate("umulh", 16, 2, 3)
    p.operate("srl", 3, "3", 3)
    p.operate("s4addq", 3, 3, 4)
    p.operate("addq", 4, 4, 4)
    p.operate("subq", 16, 4, 4)
    p.memory("lda", 4, 48, 4)
    p.memory("lda", 10, -1, 10)
    p.memory("stb", 4, 0, 10)
    p.move(3, 16)
    p.to("bne", 3, "digit")
    p.memory("lda", 11, DIGITS + 25, 9)
    p.operate("subq", 11, 10, 11)
    p.memory("lda", 16, 2)
    p.move(12, 17)
    p.move(13, 18)
    p.call(WRITE)
    p.memory("lda", 16, 2)
    p.move(10, 17)
    p.move(11, 18)
    p.call(WRITE)
    p.move(14, 16)
    p.call(EXIT)


LINES = {"put_fault": "msc: write\n", "get_fault": "msc: input\n", "trap": "msc: trap ", "stuck": "msc: stuck at "}


def constants(p, state):
    """What the code reads. The labels of code that it names are set by a first pass."""
    p.label("tenth")
    p.quad((2**67 + 2) // 10)
    p.label("altstack")
    p.quad(state + STACK)
    p.quad(0)
    p.quad(STATE - STACK)
    p.label("action")
    p.quad(p.labels.get("handler", 0))
    p.quad(SA_ONSTACK | SA_SIGINFO)
    p.quad(0)
    for name, line in LINES.items():
        p.label(name + "_line")
        p.text(line)


def build(base, entry, state, stack_end, sites):
    """The words of the piece at an address, its labels, and the words that stand in place of services and traps.

    `sites` are the addresses of the services and traps, each with whether it is a service.
    """
    labels = {}
    for _ in range(2):
        p = Piece(base)
        p.labels = labels
        constants(p, state)
        start(p, entry, stack_end)
        service(p, state)
        endings(p, state)
        words = {}
        p.label("stubs")
        for site, is_service in sites:
            if not is_service:
                words[site] = branch("br", 31, site, labels["trap"])
                continue
            words[site] = branch("br", 31, site, p.here())
            p.pal(WRUNIQUE)
            p.to("bsr", 16, "service")
            p.pal(RDUNIQUE)
            p.words.append(branch("br", 31, p.here(), site + 4))
    return p.done(), labels, words


def size(services):
    """The bytes of a piece with so many services."""
    sites = [(4 * k, True) for k in range(services)]
    return 4 * len(build(0, 0, 1 << 20, 1 << 20, [])[0]) + 4 * STUB * len(sites)
