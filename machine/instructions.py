"""What each instruction of x86-64 does to a machine of machine.py. Capstone decodes.

A meaning is a function of the machine: it changes registers, flags and memory, and gives the address of the next instruction.
It reads and decides before it changes anything, so that a run which stops for a decision can take the instruction again.
An instruction that has no meaning here ends the run. trials.py tries each against the processor.
"""
import capstone
from capstone import x86

from words import Stop, bits, complement, joined, left, part, parts, right, signed, wider, word

MODEL = capstone.Cs(capstone.CS_ARCH_X86, capstone.CS_MODE_64)
MODEL.detail = True

ALL = (1 << 64) - 1
RAX, RCX, RDX, RSP, RBP, RSI, RDI = 0, 1, 2, 4, 5, 6, 7

# name: number, width, lowest bit
REGISTERS = {}
for number, names in enumerate("rax eax ax al,rcx ecx cx cl,rdx edx dx dl,rbx ebx bx bl,rsp esp sp spl,rbp ebp bp bpl,"
                               "rsi esi si sil,rdi edi di dil".split(",")):
    for name, width in zip(names.split(), (64, 32, 16, 8)):
        REGISTERS[name] = number, width, 0
for number in range(8, 16):
    for suffix, width in (("", 64), ("d", 32), ("w", 16), ("b", 8)):
        REGISTERS["r%d%s" % (number, suffix)] = number, width, 0
for number, name in enumerate(("ah", "ch", "dh", "bh")):
    REGISTERS[name] = number, 8, 8
VECTORS = {"xmm%d" % number: number for number in range(16)}


class NoMeaning(Stop):
    def __init__(self, text):
        super().__init__("no meaning", text)


class Meaning:
    """What stands at an address: run does it."""

    __slots__ = "run", "size", "text", "octets"

    def __init__(self, run, size, text, octets):
        self.run, self.size, self.text, self.octets = run, size, text, octets


def decode(image, at):
    if at in image.imports:
        return Meaning(imported(image.imports[at]), 0, image.imports[at], b"")
    for start, octets, _, executed in image.segments:
        if executed and start <= at < start + len(octets):
            raw = bytes(octets[at - start:at - start + 16])
            break
    else:
        raise Stop("address", "executes at 0x%x" % at)
    found = next(MODEL.disasm(raw, at, 1), None)
    if found is None:
        raise NoMeaning(raw.hex())
    instruction = Instruction(found)
    build = MEANINGS.get(instruction.name)
    if build is None:
        raise NoMeaning(found.mnemonic + " " + found.op_str)
    kinds = " ".join(operand.kind + str(operand.n) for operand in instruction.operands)
    return Meaning(build(instruction), found.size, instruction.name + " " + kinds, bytes(found.bytes))


class Instruction:
    def __init__(self, found):
        self.name = found.mnemonic
        for prefix in ("notrack ", "bnd ", "repz ", "data16 ", "cs "):
            if self.name.startswith(prefix) and self.name.split()[-1] in ("ret", "jmp", "call", "nop", "nopw"):
                self.name = self.name.split()[-1]
        self.next = found.address + found.size
        self.operands = []
        for given in found.operands if not self.name.startswith("nop") else []:
            first = self.operands[0].n if self.operands else 64
            self.operands.append(Operand(found, given, first))


class Operand:
    """n is its width; read gives its word, write changes it."""

    def __init__(self, found, given, first):
        self.name = None
        if given.type == x86.X86_OP_IMM:
            self.kind, self.n, self.value = "constant", first, given.imm & (1 << first) - 1
            self.read = lambda m: self.value
        elif given.type == x86.X86_OP_REG:
            self.register(found.reg_name(given.reg))
        else:
            self.memory(found, given)

    def same(self, other):
        return self.name is not None and self.name == other.name

    def register(self, name):
        self.name = name
        if name in VECTORS:
            self.kind, self.n, number = "vector", 128, VECTORS[name]
            self.read = lambda m: m.vectors[number]

            def write(m, value):
                m.vectors[number] = value
        elif name in REGISTERS:
            self.kind = "register"
            number, n, low = REGISTERS[name]
            self.n, mask = n, (1 << n) - 1
            self.read = lambda m: m.registers[number]
            if n == 64:
                def write(m, value):
                    m.registers[number] = value
            elif n == 32:  # what is above becomes 0
                def write(m, value):
                    m.registers[number] = value if type(value) is int else value + (0,) * 32
            else:
                def write(m, value):
                    old = m.registers[number]
                    if type(old) is int and type(value) is int:
                        m.registers[number] = old & ~(mask << low) | value << low
                    else:
                        old = bits(old, 64)
                        m.registers[number] = word(old[:low] + bits(value, n) + old[low + n:])
            if n < 64:
                def read(m):
                    held = m.registers[number]
                    return held >> low & mask if type(held) is int else word(held[low:low + n])
                self.read = read
        else:
            raise NoMeaning("register " + str(name))
        self.write = write

    def memory(self, found, given):
        self.kind, self.n, size = "memory", 8 * given.size, given.size
        at, address = found.address + found.size, given.mem
        if address.segment:
            raise NoMeaning("a segment register")
        shift, offset = address.scale.bit_length() - 1, address.disp & ALL
        base = found.reg_name(address.base) if address.base else None
        index = found.reg_name(address.index) if address.index else None
        if base == "rip":
            if index:
                raise NoMeaning("rip with an index")
            self.indexed = self.address = lambda m: m.pointer(at + offset & ALL)
        else:
            for name in (base, index):
                if name and REGISTERS.get(name, (0, 0))[1] != 64:
                    raise NoMeaning("an address of 32 bits")
            base, index = (REGISTERS[name][0] if name else None for name in (base, index))

            def terms(m):
                b = m.registers[base] if base is not None else 0
                i = m.registers[index] if index is not None else 0
                return b, left(i, shift, 64) if shift else i

            def whole(m):
                b, i = terms(m)
                if type(b) is int and type(i) is int:
                    return b + i + offset & ALL
                return m.w.add(m.w.add(b, i, 0, 64)[0], offset, 0, 64)[0]

            def indexed(m):
                """To read from: a base, and an index that is not constant, are kept apart."""
                b, i = terms(m)
                if type(b) is int and type(i) is int:
                    return b + i + offset & ALL
                for here, other in ((b, i), (i, b)):
                    if type(here) is not int and here[20:] not in m.symbolic:
                        return m.indexed(m.w.add(other, offset, 0, 64)[0], here)
                return m.w.add(m.w.add(b, i, 0, 64)[0], offset, 0, 64)[0]
            self.address, self.indexed = whole, indexed
        self.read = lambda m: m.load(self.indexed(m), size)
        self.write = lambda m, value: m.store(self.address(m), value, size)


MEANINGS = {}


def means(*names):
    def enter(build):
        for name in names:
            MEANINGS[name] = build
        return build
    return enter


def effect(i, change):
    """The meaning that changes something and goes on."""
    following = i.next

    def run(m):
        change(m)
        return following
    return run


# Moves.


@means("nop", "nopw", "nopl", "endbr64")
def nothing(i):
    return lambda m: i.next


@means("ud2")
def trap(i):
    def run(m):
        raise Stop("trap", "ud2")
    return run


@means("mov", "movabs")
def move(i):
    to, from_ = i.operands
    read, write = from_.read, to.write
    following = i.next

    def run(m):
        write(m, read(m))
        return following
    return run


@means("movzx")
def move_wider(i):
    to, from_ = i.operands
    return effect(i, lambda m: to.write(m, wider(from_.read(m), from_.n, to.n)))


@means("movsx", "movsxd")
def move_signed(i):
    to, from_ = i.operands
    return effect(i, lambda m: to.write(m, signed(from_.read(m), from_.n, to.n)))


@means("cdqe", "cwde")
def double(i):
    half = 32 if i.name == "cdqe" else 16

    def change(m):
        m.registers[RAX] = wider(signed(part(m.registers[RAX], 0, half), half, 2 * half), 2 * half, 64)
    return effect(i, change)


@means("cqo", "cdq")
def sign_above(i):
    n = 64 if i.name == "cqo" else 32

    def change(m):
        m.registers[RDX] = wider(part(signed(part(m.registers[RAX], 0, n), n, 2 * n), n, n), n, 64)
    return effect(i, change)


@means("lea")
def address_of(i):
    to, from_ = i.operands
    return effect(i, lambda m: to.write(m, part(from_.address(m), 0, to.n)))


@means("xchg")
def exchange(i):
    a, b = i.operands

    def change(m):
        x, y = a.read(m), b.read(m)
        a.write(m, y)
        b.write(m, x)
    return effect(i, change)


@means("bswap")
def octets_reversed(i):
    a, = i.operands
    return effect(i, lambda m: a.write(m, joined(parts(a.read(m), 8, a.n)[::-1], 8)))


@means("push")
def push(i):
    a, = i.operands
    if a.n != 64:
        raise NoMeaning("push of %d bits" % a.n)
    return effect(i, lambda m: m.push(a.read(m)))


@means("pop")
def pop(i):
    a, = i.operands
    if a.n != 64:
        raise NoMeaning("pop of %d bits" % a.n)
    return effect(i, lambda m: a.write(m, m.pop()))


@means("leave")
def leave(i):
    def change(m):
        m.registers[RSP] = m.registers[RBP]
        m.registers[RBP] = m.pop()
    return effect(i, change)


# Logic and sums.


@means("xor", "and", "or", "test")
def logic(i):
    a, b = i.operands
    n, name, same = a.n, i.name, a.same(b)

    def change(m):
        x, y = a.read(m), b.read(m)
        if name == "xor":
            r = 0 if same else m.w.xor(x, y, n)
        elif name == "or":
            r = m.w.or_(x, y, n)
        else:
            r = m.w.and_(x, y, n)
        if name != "test":
            a.write(m, r)
        m.flags(0, 0, r, n)
    return effect(i, change)


@means("not")
def inverted(i):
    a, = i.operands
    return effect(i, lambda m: a.write(m, complement(a.read(m), a.n)))


@means("add", "adc")
def sum_(i):
    a, b = i.operands
    n = a.n

    def change(m):
        x, y = a.read(m), b.read(m)
        r, carry = m.w.add(x, y, m.flag("c") if i.name == "adc" else 0, n)
        a.write(m, r)
        m.flags(carry, (x, y, r, n), r, n)
    return effect(i, change)


@means("sub", "sbb", "cmp")
def difference(i):
    a, b = i.operands
    n, name = a.n, i.name

    def change(m):
        x, y = a.read(m), b.read(m)
        if name == "cmp" and type(x) is int and type(y) is int:
            r = x - y & (1 << n) - 1
            m.carry, m.overflow, m.result, m.zero_of, m.width = int(x < y), (x, y ^ (1 << n) - 1, r, n), r, r, n
            return
        r, carry = m.w.add(x, complement(y, n), m.flag("c") ^ 1 if name == "sbb" else 1, n)
        if name != "cmp":
            a.write(m, r)
        # the difference is 0 where the two are equal, which is said without its carries
        m.flags(carry ^ 1, (x, complement(y, n), r, n), r, n, None if name == "sbb" else m.w.xor(x, y, n))
    return effect(i, change)


@means("inc", "dec")
def one_more_or_less(i):
    a, = i.operands
    n, step = a.n, 1 if i.name == "inc" else (1 << a.n) - 1

    def change(m):
        x = a.read(m)
        r, _ = m.w.add(x, step, 0, n)
        a.write(m, r)
        m.flags(m.carry, (x, step, r, n), r, n)
    return effect(i, change)


@means("neg")
def negative(i):
    a, = i.operands
    n = a.n

    def change(m):
        x = a.read(m)
        r, carry = m.w.add(0, complement(x, n), 1, n)
        a.write(m, r)
        m.flags(carry ^ 1, (0, complement(x, n), r, n), r, n, x)
    return effect(i, change)


@means("imul")
def product(i):
    if len(i.operands) == 1:
        raise NoMeaning("imul of one operand")
    to, (a, b) = i.operands[0], i.operands[-2:]

    def change(m):
        r = m.w.times(a.read(m), b.read(m), to.n)
        to.write(m, r)
        m.undefined()
    return effect(i, change)


@means("mul")
def wide_product(i):
    a, = i.operands
    n = a.n
    if n < 32:
        raise NoMeaning("mul of %d bits" % n)

    def change(m):
        r = m.w.times(wider(a.read(m), n, 2 * n), wider(part(m.registers[RAX], 0, n), n, 2 * n), 2 * n)
        m.registers[RAX], m.registers[RDX] = wider(part(r, 0, n), n, 64), wider(part(r, n, n), n, 64)
        m.undefined()
    return effect(i, change)


@means("div")
def quotient(i):
    a, = i.operands
    n = a.n
    if n < 32:
        raise NoMeaning("div of %d bits" % n)

    def change(m):
        by, over = m.constant(a.read(m)), joined([part(m.registers[r], 0, n) for r in (RAX, RDX)], n)
        if type(over) is int:
            q, r = divmod(over, by) if by else (1 << n, 0)
        elif by & by - 1:
            raise Stop("not affine", "a division")
        else:
            shift = by.bit_length() - 1
            q, r = right(over, shift, 2 * n), wider(part(over, 0, shift), shift, n) if shift else 0
        if m.constant(right(q, n, 2 * n)):
            raise Stop("trap", "a division")
        m.registers[RAX], m.registers[RDX] = wider(part(q, 0, n), n, 64), wider(r, n, 64)
        m.undefined()
    return effect(i, change)


# Shifts and bits.


def count_of(m, i, operand, n):
    """A shift's count, which the processor takes modulo 32, or 64 for 64 bits."""
    count = m.constant(part(operand.read(m), 0, 6 if n == 64 else 5))
    if count > n:
        raise NoMeaning("a count above the width")
    return count


@means("shl", "sal", "shr", "sar")
def shift(i):
    a, by, n = i.operands[0], i.operands[-1], i.operands[0].n
    once = len(i.operands) == 1

    def change(m):
        count, x = 1 if once else count_of(m, i, by, n), a.read(m)
        if count == 0:
            a.write(m, x)  # a register of 32 bits still loses what is above
            return
        if i.name in ("shl", "sal"):
            r, out = left(x, count, n), part(x, n - count, 1)
        else:
            r, out = right(x, count, n) if i.name == "shr" else part(signed(x, n, 2 * n), count, n), part(x, count - 1, 1)
        a.write(m, r)
        m.flags(bits(out, 1)[0], None, r, n)
    return effect(i, change)


@means("rol", "ror")
def rotation(i):
    a, by, n = i.operands[0], i.operands[-1], i.operands[0].n
    once = len(i.operands) == 1

    def change(m):
        count, x = 1 if once else count_of(m, i, by, n), a.read(m)
        if count == 0:
            a.write(m, x)
            return
        low = n - count % n if i.name == "rol" else count % n  # the bit that comes lowest
        r = part(joined([x, x], n), low, n)
        a.write(m, r)
        m.carry, m.overflow = bits(r, n)[0 if i.name == "rol" else -1], None
    return effect(i, change)


@means("shld", "shrd")
def double_shift(i):
    a, b, by = i.operands
    n = a.n

    def change(m):
        count, x, y = count_of(m, i, by, n), a.read(m), b.read(m)
        if count == 0:
            a.write(m, x)
            return
        if i.name == "shld":
            r, out = part(joined([y, x], n), n - count, n), part(x, n - count, 1)
        else:
            r, out = part(joined([x, y], n), count, n), part(x, count - 1, 1)
        a.write(m, r)
        m.flags(bits(out, 1)[0], None, r, n)
    return effect(i, change)


@means("bt", "btc", "bts", "btr")
def bit_test(i):
    a, b = i.operands
    if a.kind == "memory":
        raise NoMeaning("a bit in memory")

    def change(m):
        at, x = m.constant(part(b.read(m), 0, a.n.bit_length() - 1)), list(bits(a.read(m), a.n))
        m.carry, m.overflow, m.result = x[at], None, None
        if i.name != "bt":
            x[at] = {"btc": x[at] ^ 1, "bts": 1, "btr": 0}[i.name]
            a.write(m, word(x))
    return effect(i, change)


@means("bsr", "bsf")
def bit_scan(i):
    to, a = i.operands
    n = a.n

    def change(m):
        x = a.read(m)
        none = m.w.zero(x)
        r = m.w.highest(x, n) if i.name == "bsr" else m.w.lowest(x, n)
        if m.w.known(m.path, none) != 0:  # of 0 no rule says what comes out
            r = m.w.select(none, m.w.fresh(n), r, n)
        to.write(m, r)
        m.undefined()
        m.zero_of = x
    return effect(i, change)


# Control.


@means("jmp")
def jump(i):
    to, = i.operands
    if to.kind == "constant":
        return lambda m: to.value
    return lambda m: m.place(to.read(m))


@means("call")
def call(i):
    to, = i.operands

    def run(m):
        at = to.value if to.kind == "constant" else m.place(to.read(m))
        m.push(m.pointer(i.next))
        return at
    return run


@means("ret")
def return_(i):
    if i.operands:
        raise NoMeaning("ret with a constant")
    return lambda m: m.place(m.pop())


CONDITIONS = "o no b ae e ne be a s ns p np l ge le g".split()


@means(*["j" + condition for condition in CONDITIONS])
def branch(i):
    condition, to, following = i.name[1:], i.operands[0].value, i.next
    return lambda m: to if m.decide(m.condition(condition)) else following


@means(*["set" + condition for condition in CONDITIONS])
def set_(i):
    a, = i.operands
    return effect(i, lambda m: a.write(m, word((m.condition(i.name[3:]),) + (0,) * 7)))


@means(*["cmov" + condition for condition in CONDITIONS])
def conditional_move(i):
    a, b = i.operands
    return effect(i, lambda m: a.write(m, m.w.select(m.condition(i.name[4:]), b.read(m), a.read(m), a.n)))


@means(*["rep %s%s" % (what, size) for what in ("stos", "movs") for size in "bwdq"])
def repeated(i):
    octets, copies = {"b": 1, "w": 2, "d": 4, "q": 8}[i.name[-1]], "movs" in i.name

    def change(m):
        for _ in range(length(m, m.registers[RCX])):
            m.store(m.registers[RDI], m.load(m.registers[RSI], octets) if copies else part(m.registers[RAX], 0, 8 * octets), octets)
            for register in (RDI, RSI) if copies else (RDI,):
                m.registers[register] = m.w.add(m.registers[register], octets, 0, 64)[0]
        m.registers[RCX] = 0
    return effect(i, change)


def length(m, w):
    if type(w) is not int or w > 1 << 20:
        raise Stop("length", "of octets that are copied or filled")
    return w


def imported(name):
    """memcpy and memset, as the C standard has them; what they may change by the convention is unknown afterwards."""
    if name not in ("memcpy", "memset"):
        raise NoMeaning("a call of " + name)

    def run(m):
        to, from_, n = m.registers[RDI], m.registers[RSI], length(m, m.registers[RDX])
        if n:
            region, at = m.find(to, n, True)
            if name == "memcpy":
                source, first = m.find(from_, n, False)
                if source is region and first < at + n and at < first + n:
                    raise Stop("address", "memcpy of octets that overlap")
                octets = parts(m.load(from_, n), 8, 8 * n)
            else:
                octets = [part(from_, 0, 8)] * n
            for k, octet in enumerate(octets):
                region.put(at + k, octet)
        following = m.place(m.pop())
        for register in (RCX, RDX, RSI, RDI, 8, 9, 10, 11):
            m.registers[register] = m.w.fresh(64)
        m.vectors = [m.w.fresh(128) for _ in range(16)]
        m.registers[RAX] = to
        m.undefined()
        return following
    return run


# Vectors of 128 bits.


def source(m, operand):
    """An operand that is a vector; in memory it has to be aligned."""
    if operand.kind == "memory" and operand.n == 128:
        aligned(m, operand)
    return operand.read(m)


def aligned(m, operand):
    if part(operand.address(m), 0, 4) != 0:
        raise Stop("trap", "an address that is not aligned")


@means("movaps", "movups", "movdqa", "movdqu", "movapd", "movupd")
def vector_move(i):
    to, from_ = i.operands
    strict = [a for a in i.operands if a.kind == "memory" and i.name in ("movaps", "movdqa", "movapd")]

    def change(m):
        for operand in strict:
            aligned(m, operand)
        to.write(m, from_.read(m))
    return effect(i, change)


@means("movq", "movd")
def low_move(i):
    to, from_ = i.operands
    n = 32 if i.name == "movd" and 64 not in (to.n, from_.n) else 64
    return effect(i, lambda m: to.write(m, wider(part(from_.read(m), 0, n), n, to.n)))


@means("movlps", "movlpd", "movhps", "movhpd")
def half_move(i):
    to, from_ = i.operands
    high = i.name.startswith("movh")

    def change(m):
        if to.kind == "memory":
            to.write(m, part(from_.read(m), 64 * high, 64))
        else:
            halves = parts(to.read(m), 64, 128)
            halves[high] = from_.read(m)
            to.write(m, joined(halves, 64))
    return effect(i, change)


@means("movsd", "movss")
def scalar_move(i):
    to, from_ = i.operands
    n = 64 if i.name == "movsd" else 32

    def change(m):
        low = part(from_.read(m), 0, n)
        if to.kind == from_.kind == "vector":
            low = word(bits(low, n) + bits(to.read(m), 128)[n:])
            to.write(m, low)
        else:
            to.write(m, wider(low, n, to.n))
    return effect(i, change)


@means("pmovmskb", "movmskps", "movmskpd")
def signs(i):
    to, from_ = i.operands
    n = {"pmovmskb": 8, "movmskps": 32, "movmskpd": 64}[i.name]
    return effect(i, lambda m: to.write(m, wider(word(bits(from_.read(m), 128)[n - 1::n]), 128 // n, to.n)))


@means("pextrw")
def lane_out(i):
    to, from_, which = i.operands
    return effect(i, lambda m: to.write(m, wider(part(from_.read(m), 16 * (which.value & 7), 16), 16, to.n)))


@means("pinsrw")
def lane_in(i):
    to, from_, which = i.operands

    def change(m):
        lanes = parts(to.read(m), 16, 128)
        lanes[which.value & 7] = part(from_.read(m), 0, 16)
        to.write(m, joined(lanes, 16))
    return effect(i, change)


def vector(*names):
    """For a function of the machine, the instruction and two vectors."""
    def enter(function):
        def build(i):
            a, b = i.operands[:2]
            if a.kind != "vector":
                raise NoMeaning(i.name)
            return effect(i, lambda m: a.write(m, function(m, i, a.read(m), source(m, b))))
        means(*names)(build)
        return function
    return enter


@vector("pxor", "xorps", "xorpd", "pand", "andps", "andpd", "por", "orps", "orpd", "pandn", "andnps", "andnpd")
def vector_logic(m, i, a, b):
    if "xor" in i.name:
        return m.w.xor(a, b, 128)
    if "andn" in i.name:
        return m.w.and_(complement(a, 128), b, 128)
    return m.w.and_(a, b, 128) if "and" in i.name else m.w.or_(a, b, 128)


WIDTHS = {"b": 8, "w": 16, "d": 32, "q": 64}


@vector(*["p%s%s" % (what, size) for what in ("add", "sub") for size in "bwdq"])
def vector_sum(m, i, a, b):
    n = WIDTHS[i.name[-1]]
    if i.name[1:4] == "sub":
        return joined([m.w.add(x, complement(y, n), 1, n)[0] for x, y in zip(parts(a, n, 128), parts(b, n, 128))], n)
    return joined([m.w.add(x, y, 0, n)[0] for x, y in zip(parts(a, n, 128), parts(b, n, 128))], n)


@vector(*["pcmp%s%s" % (what, size) for what in ("eq", "gt") for size in "bwd"])
def vector_compare(m, i, a, b):
    n, lanes = WIDTHS[i.name[-1]], []
    for x, y in zip(parts(a, n, 128), parts(b, n, 128)):
        if i.name[4:6] == "eq":
            bit = m.w.zero(m.w.xor(x, y, n))
        else:  # signed: y < x, by the carry of x + ~y with both signs inverted
            sign = 1 << n - 1
            bit = m.w.add(m.w.xor(x, sign, n), complement(m.w.xor(y, sign, n), n), 0, n)[1]
        lanes.append(word((bit,) * n))
    return joined(lanes, n)


@vector("pmaxub", "pminub")
def vector_most(m, i, a, b):
    lanes = []
    for x, y in zip(parts(a, 8, 128), parts(b, 8, 128)):
        at_least = m.w.add(x, complement(y, 8), 1, 8)[1]
        lanes.append(m.w.select(at_least, x, y, 8) if i.name == "pmaxub" else m.w.select(at_least, y, x, 8))
    return joined(lanes, 8)


@vector("psadbw")
def sum_of_differences(m, i, a, b):
    sums = [0, 0]
    for k, (x, y) in enumerate(zip(parts(a, 8, 128), parts(b, 8, 128))):
        less, at_least = m.w.add(x, complement(y, 8), 1, 8)
        more, _ = m.w.add(y, complement(x, 8), 1, 8)
        sums[k // 8] = m.w.add(sums[k // 8], wider(m.w.select(at_least, less, more, 8), 8, 64), 0, 64)[0]
    return joined(sums, 64)


@vector("pmuludq")
def vector_product(m, i, a, b):
    return joined([m.w.times(wider(part(a, at, 32), 32, 64), wider(part(b, at, 32), 32, 64), 64) for at in (0, 64)], 64)


@means(*["ps%s%s" % (what, size) for what in ("ll", "rl", "ra") for size in "wdq"])
def vector_shift(i):
    a, by = i.operands
    n, what = WIDTHS[i.name[-1]], i.name[2:4]

    def change(m):
        count = by.value & 255 if by.kind == "constant" else m.constant(part(source(m, by), 0, 64))
        lanes = []
        for x in parts(a.read(m), n, 128):
            if what == "ra":
                lanes.append(part(signed(x, n, 2 * n), min(count, n), n))
            else:
                lanes.append(left(x, count, n) if what == "ll" else right(x, count, n))
        a.write(m, joined(lanes, n))
    return effect(i, change)


@means("pslldq", "psrldq")
def vector_octets(i):
    a, by = i.operands
    count = 8 * min(by.value & 255, 16)
    move_ = left if i.name == "pslldq" else right
    return effect(i, lambda m: a.write(m, move_(a.read(m), count, 128)))


@means("pshufd", "pshuflw", "pshufhw", "shufps", "shufpd")
def shuffle(i):
    a, b, by = i.operands
    k = by.value

    def change(m):
        x, y = a.read(m), source(m, b)
        if i.name == "pshufd":
            lanes = parts(y, 32, 128)
            r = joined([lanes[k >> 2 * j & 3] for j in range(4)], 32)
        elif i.name == "shufps":
            lanes = [parts(x, 32, 128)] * 2 + [parts(y, 32, 128)] * 2
            r = joined([lanes[j][k >> 2 * j & 3] for j in range(4)], 32)
        elif i.name == "shufpd":
            r = joined([part(x, 64 * (k & 1), 64), part(y, 64 * (k >> 1 & 1), 64)], 64)
        else:
            lanes, first = parts(y, 16, 128), 0 if i.name == "pshuflw" else 4
            lanes[first:first + 4] = [lanes[first + (k >> 2 * j & 3)] for j in range(4)]
            r = joined(lanes, 16)
        a.write(m, r)
    return effect(i, change)


UNPACKED = {"punpck%s%s" % (half, size): (n, half == "h") for half in "lh" for size, n in (("bw", 8), ("wd", 16), ("dq", 32), ("qdq", 64))}
UNPACKED.update({"unpcklps": (32, 0), "unpckhps": (32, 1), "unpcklpd": (64, 0), "unpckhpd": (64, 1), "movlhps": (64, 0)})


@vector(*UNPACKED)
def unpack(m, i, a, b):
    n, high = UNPACKED[i.name]
    pairs = list(zip(parts(a, n, 128), parts(b, n, 128)))
    half = len(pairs) // 2
    return joined([lane for pair in pairs[half * high:half * high + half] for lane in pair], n)


@vector("movhlps")
def high_to_low(m, i, a, b):
    return joined([part(b, 64, 64), part(a, 64, 64)], 64)


@vector("packuswb")
def pack(m, i, a, b):
    lanes = []
    for x in parts(a, 16, 128) + parts(b, 16, 128):
        above = part(x, 8, 8)
        if above != 0:
            raise Stop("not affine", "a lane that may be above 255")
        lanes.append(part(x, 0, 8))
    return joined(lanes, 8)
