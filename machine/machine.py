"""A machine of x86-64: registers, flags and memory that hold words of an algebra, and the paths of a run.

Before a call everything is unknown, but for its arguments and the octets of the image: registers, stack and outputs hold
variables, so what comes out without them depends on none. Only the segments, the stack below the return address and the
caller's buffers are there: another address ends the run. A branch, a jump, a shift count or an address that is not constant
is a decision: a path is followed for each outcome that is possible.
"""
from words import Stop, bits, part, parts, word

import instructions

STACK, STACK_OCTETS = 0x7FF000000000, 1 << 15
BUFFERS = 0x500000000000, 0x500001000000, 0x500002000000
HOME = 0x7D0000000000  # where the call returns to
RED_ZONE = 128  # octets below the stack pointer that a function may use
RAX, RCX, RDX, RBX, RSP, RBP, RSI, RDI = range(8)
ARGUMENTS = RDI, RSI, RDX, RCX, 8, 9
KEPT = RBX, RBP, 12, 13, 14, 15
LOW = 20  # with addresses as variables, the lowest bits that are still constant


class Decision(Exception):
    """The run depends on a bit that the path does not decide."""

    def __init__(self, bit):
        self.bit = bit


class Region:
    CONSTANT, VARIABLE, UNKNOWN = 0, 1, 2  # what an octet is: a constant, bits, or what was there before the call

    def __init__(self, name, base, octets, written, kind=CONSTANT):
        self.name, self.base, self.size, self.written = name, base, len(octets), written
        self.constants, self.kinds, self.bits = bytearray(octets), bytearray([kind]) * len(octets), {}
        self.buffer = False  # whether it is one of the caller's

    def copy(self):
        new = Region.__new__(Region)
        new.__dict__.update(self.__dict__)
        new.constants, new.kinds, new.bits = bytearray(self.constants), bytearray(self.kinds), self.bits.copy()
        return new

    def put(self, at, octet):
        if type(octet) is int:
            self.constants[at], self.kinds[at] = octet, Region.CONSTANT
        else:
            self.bits[at], self.kinds[at] = octet, Region.VARIABLE

    def octet(self, at):
        """A constant, eight bits, or None where nothing was written."""
        kind = self.kinds[at]
        return self.constants[at] if kind == Region.CONSTANT else self.bits[at] if kind == Region.VARIABLE else None

    def octets(self):
        return [self.octet(at) for at in range(self.size)]


class Machine:
    def __init__(self, image, algebra, anywhere=False, offsets=(0, 0, 0), limit=20000000):
        self.image, self.w, self.offsets, self.limit = image, algebra, offsets, limit
        self.path = algebra.nothing
        self.regions, self.pages = [], {}
        self.symbolic, self.high = {}, {}  # high address bits that are variables: the address they stand for, and back
        if anywhere:
            for base in (image.base, STACK) + BUFFERS:
                high = algebra.fresh(47 - LOW) + (0,) * 17
                self.symbolic[high], self.high[base >> LOW] = base, high
        for start, octets, _, _ in image.segments:
            self.add(Region("image", start, octets, False))
        self.stack = self.add(Region("stack", STACK, bytes(STACK_OCTETS), True, Region.UNKNOWN))
        if anywhere:
            for at, target in image.pointers:
                region = self.pages[at >> 12]
                for i, octet in enumerate(parts(self.pointer(target), 8, 64)):
                    region.put(at - region.base + i, octet)
        self.registers = [algebra.fresh(64) for _ in range(16)]
        self.vectors = [algebra.fresh(128) for _ in range(16)]
        self.undefined()
        self.count, self.deepest, self.read = 0, STACK + STACK_OCTETS, set()

    def copy(self):
        new = Machine.__new__(Machine)
        new.__dict__.update(self.__dict__)
        new.registers, new.vectors = self.registers.copy(), self.vectors.copy()
        new.pages = {}
        new.regions = []
        for region in self.regions:
            held = new.add(region.copy() if region.written else region)
            if region is self.stack:
                new.stack = held
        return new

    # Memory.

    def add(self, region):
        self.regions.append(region)
        for page in range(region.base >> 12, (region.base + max(region.size, 1) + 4095) >> 12):
            self.pages[page] = region
        return region

    def buffer(self, n, name, octets, written):
        """One of the caller's buffers: octets that are read, words of 8 bits; or how many are written."""
        size = octets if written else len(octets)
        region = Region(name, BUFFERS[n] + self.offsets[n], bytes(size), written, Region.UNKNOWN)
        region.buffer = True
        for at, octet in enumerate([] if written else octets):
            region.put(at, octet)
        return self.add(region)

    def region(self, name):
        return next(region for region in self.regions if region.name == name)

    def pointer(self, address):
        """An address as the program sees it."""
        high = self.high.get(address >> LOW)
        return address if high is None else word(bits(address & (1 << LOW) - 1, LOW) + high)

    def place(self, address):
        """The reverse, for an address that is constant but for the high bits of a base."""
        if type(address) is not int:
            base, low = self.symbolic.get(address[LOW:]), part(address, 0, LOW)
            if base is not None and type(low) is int:
                return base + low
            return self.constant(address)
        if self.symbolic and address not in self.image.imports and address != HOME:
            raise Stop("address", "the constant 0x%x" % address)
        return address

    def constant(self, w):
        """The word's value, by deciding its bits."""
        if type(w) is int:
            return w
        return word([self.decide(bit) for bit in w])

    def find(self, address, n, write):
        address = self.place(address)
        region = self.pages.get(address >> 12)
        if region and not region.base <= address < region.base + region.size:  # two of them in one page
            region = next((other for other in self.regions if other.base <= address < other.base + other.size), region)
        at = address - region.base if region else -1
        if at < 0 or at + n > region.size:
            where = "past the octets %s" % region.name if region and region.buffer else "at 0x%x" % address
            raise Stop("buffer" if region and region.buffer else "address", "%s %d octets %s" % ("writes" if write else "reads", n, where))
        if write and not region.written:
            raise Stop("address", "writes to the %s" % region.name)
        if region is self.stack:
            pointer = self.place(self.registers[RSP])
            if address < pointer - RED_ZONE:
                raise Stop("address", "%d octets below the stack pointer" % (pointer - address))
            self.deepest = min(self.deepest, address)
        elif region.name == "image":
            self.read.add((address, n))
        return region, at

    @staticmethod
    def indexed(base, index):
        return Indexed(base, index)

    def load(self, address, n):
        if type(address) is Indexed:
            return self.load_indexed(address, n)
        region, at = self.find(address, n, False)
        kinds = region.kinds
        if kinds.count(0, at, at + n) == n:
            return int.from_bytes(region.constants[at:at + n], "little")
        result = ()
        for i in range(at, at + n):
            if kinds[i] == Region.UNKNOWN:
                region.put(i, self.w.fresh(8))
            result += region.bits[i] if kinds[i] else bits(region.constants[i], 8)
        return word(result)

    def load_indexed(self, address, n):
        """From a table of constants: all entries count that the path allows."""
        known = [self.w.known(self.path, bit) for bit in address.index]
        open_ = tuple([i for i, bit in enumerate(known) if bit is None])
        if len(open_) > 10:
            raise Stop("not affine", "an address of %d bits" % len(open_))
        first = self.w.add(address.base, sum((bit or 0) << i for i, bit in enumerate(known)), 0, 64)[0]
        index = [address.index[i] for i in open_]
        last = self.w.largest(self.path, index)
        span = sum((last >> j & 1) << i for j, i in enumerate(open_)) + n
        region, at = self.find(first, span, False)
        if region.kinds.count(0, at, at + span) != span:
            raise Stop("not affine", "a table that is not constant")
        table = bytes(region.constants[at:at + span])
        return self.w.look_up(table, open_, n, index)

    def store(self, address, value, n):
        region, at = self.find(address, n, True)
        if type(value) is int:
            region.constants[at:at + n] = value.to_bytes(n, "little")
            region.kinds[at:at + n] = bytes(n)
        else:
            for i in range(n):
                region.put(at + i, word(value[8 * i:8 * i + 8]))

    def push(self, value):
        pointer = self.w.add(self.registers[RSP], (1 << 64) - 8, 0, 64)[0]
        self.registers[RSP] = pointer
        self.store(pointer, value, 8)

    def pop(self):
        pointer = self.registers[RSP]
        value = self.load(pointer, 8)
        self.registers[RSP] = self.w.add(pointer, 8, 0, 64)[0]
        return value

    # Flags: carry and overflow are bits; the others are of a result. None is what no rule defines.

    def undefined(self):
        self.carry = self.overflow = self.zero_of = self.result = None
        self.width = 0

    def flags(self, carry, overflow, result, width, zero_of=None):
        self.carry, self.overflow, self.result, self.width = carry, overflow, result, width
        self.zero_of = result if zero_of is None else zero_of

    def flag(self, name):
        held = {"c": self.carry, "o": self.overflow, "z": self.zero_of, "s": self.result, "p": self.result}[name]
        if held is None:
            raise Stop("flag", "an undefined flag is used")
        if callable(held):
            held = held()
        if name == "z":
            return self.w.zero(held)
        if name == "s":
            return bits(held, self.width)[-1]
        if name == "p":
            even = 1
            for bit in bits(part(held, 0, 8), 8):
                even = self.w.xor1(even, bit)
            return even
        if name == "o" and type(held) is tuple:  # of a sum: both terms have another sign than it
            a, b, total, n = held
            x, y, s = [bits(v, n)[-1] for v in (a, b, total)]
            self.overflow = self.w.and1(self.w.xor1(x, s), self.w.xor1(y, s))
            return self.overflow
        return held

    CONDITIONS = {"o": "o", "b": "c", "e": "z", "s": "s", "p": "p", "be": "c z", "l": "s o", "le": "s o z"}
    INVERSE = {"no": "o", "ae": "b", "ne": "e", "ns": "s", "np": "p", "a": "be", "ge": "l", "g": "le"}

    def condition(self, name):
        inverted = name in self.INVERSE
        name = self.INVERSE.get(name, name)
        if name == "be":
            bit = self.w.or1(self.flag("c"), self.flag("z"))
        elif name in ("l", "le"):
            bit = self.w.xor1(self.flag("s"), self.flag("o"))
            bit = self.w.or1(bit, self.flag("z")) if name == "le" else bit
        else:
            bit = self.flag(self.CONDITIONS[name])
        return bit ^ inverted

    # Running.

    def decide(self, bit):
        if bit <= 1:
            return bit
        known = self.w.known(self.path, bit)
        if known is None:
            raise Decision(bit)
        return known

    def call(self, name, arguments, narrow=()):
        """Stands at the entry of a call, arguments from the seventh on above the return address. Of an argument whose number is in
        narrow with a width, no more bits are known."""
        for n, (register, argument) in enumerate(zip(ARGUMENTS, arguments)):
            width = dict(narrow).get(n)
            if width:
                argument = word(bits(argument, width) + self.w.fresh(64 - width))
            self.registers[register] = argument
        above = arguments[len(ARGUMENTS):]
        self.top = STACK + STACK_OCTETS - 8 * (len(above) // 2 * 2 + 1) - 16 * (len(above) % 2)  # the convention: 8 modulo 16
        self.stack.size = self.top + 8 + 8 * len(above) - STACK
        self.registers[RSP] = self.pointer(self.top)
        for n, value in enumerate([HOME] + above):
            self.store(self.pointer(self.top + 8 * n), value, 8)
        self.before = list(self.registers)
        self.at = self.image.symbols[name]

    def stack_octets(self):
        """How far below the return address the stack was used."""
        return max(0, self.top - self.deepest)

    def run(self):
        """To the call's end. A decision leaves the machine at the instruction that depends on it."""
        meanings, at = self.image.meanings, self.at
        try:
            while at != HOME:
                meaning = meanings.get(at)
                if meaning is None:
                    meaning = meanings[at] = instructions.decode(self.image, at)
                self.at = at
                self.count += 1
                if self.count > self.limit:
                    raise Stop("limit", "more than %d instructions" % self.limit)
                at = meaning.run(self)
        except Stop as stop:
            stop.text += " at " + self.image.name(self.at)
            raise
        self.at = HOME
        if self.registers[RSP] != self.w.add(self.before[RSP], 8, 0, 64)[0]:
            raise Stop("convention", "the stack pointer is not where it was")
        for n in KEPT:
            if self.registers[n] != self.before[n]:
                raise Stop("convention", "register %d is not as it was" % n)

    def paths(self, most=4096):
        """The machine at the end of each path."""
        waiting, ended = [self], 0
        while waiting:
            machine = waiting.pop()
            try:
                machine.run()
            except Decision as decision:
                if len(waiting) + ended >= most:
                    raise Stop("paths", "more than %d at %s" % (most, self.image.name(machine.at)))
                waiting += machine.both(decision.bit)
            else:
                ended += 1
                yield machine

    def both(self, bit):
        """Two machines, where a bit is 0 and where it is 1."""
        other = self.copy()
        other.path = self.w.supposing(self.path, bit, 1)
        self.path = self.w.supposing(self.path, bit, 0)
        self.count -= 1
        other.count -= 1
        return [self, other]


class Indexed:
    """An address: a base, and a word that is not constant."""

    def __init__(self, base, index):
        self.base, self.index = base, index
