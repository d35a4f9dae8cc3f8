"""The calls as the header has them, with everything that a caller may choose a variable; and what is to hold at their end."""
import maps
from drawing import Drawing
from forms import Forms, NotAffine
from machine import RAX, RDX, STACK_OCTETS, Decision, Machine, Region
from words import Stop, bits, part, wider, word

# A record's fields: where they are returned, the lowest bit and the width. OUT is a record in memory.
OUT = None
FIELDS = {
    "encode": {"number": (RAX, 0, 8)},
    "write_unit": {"number": (RAX, 0, 8)},
    "export_blocks": {"number": (RAX, 0, 8)},
    "bch_encode": {"number": (RAX, 0, 8)},
    "bch_check": {"number": (RAX, 0, 8), "mended": (RAX, 8, 8)},
    "check": {"number": (RAX, 0, 8), "broken": (RAX, 32, 32), "lowest": (RDX, 0, 32)},
    "open": {"number": (RAX, 0, 8), "lowest": (RAX, 32, 32), "octets": (RDX, 0, 64)},
    "quick": {"number": (RAX, 0, 8), "yes": (RAX, 8, 8), "evaluated": (RAX, 32, 32)},
    "step": {"number": (RAX, 0, 8), "quiet": (RAX, 8, 8), "bit": (RAX, 32, 32), "excess": (RDX, 0, 8)},
    "correct": {"number": (OUT, 0, 8), "flips": (OUT, 32, 32), "first": (OUT, 64, 32), "last": (OUT, 96, 32),
                "unlike": (OUT, 128, 32), "lowest": (OUT, 160, 32)},
}
RECORD_OCTETS = 24  # of correct's


class Unlike(Exception):
    """Something is not as it has to be."""


def octets(these):
    """Bits in the papers' order, the most significant first, as octets."""
    return [word(these[at:at + 8][::-1]) for at in range(0, len(these), 8)]


class Call:
    """A call at its entry. The given octets are variables, unless they are handed in; so is all that the machine holds."""

    def __init__(self, image, name, given, made, code=None, limit=None, algebra=None, given_bits=None, settings=None):
        """given and made: how many octets are read and written; made is None where the call writes none. A number of octets that
        is a word of bits stands for any: then there are none in the buffer."""
        settings = settings or {}
        self.name, self.w = name, algebra or Forms()
        self.m = m = Machine(image, self.w, settings.get("anywhere"), settings.get("offsets", (0, 0, 0)), settings.get("limit", 20000000))
        self.bits = list(given_bits or (self.w.fresh(8 * given) if type(given) is int else ()))
        arguments, narrow = [], []
        if name == "correct":
            arguments.append(m.pointer(m.buffer(2, "record", RECORD_OCTETS, True).base))
        if code is not None:
            narrow.append((len(arguments), 8))  # what is above an octet in a register is unknown
            arguments.append(code)
        arguments += [m.pointer(m.buffer(0, "given", octets(self.bits), False).base), given]
        if limit is not None:
            narrow.append((len(arguments), 16))
            arguments.append(limit)
        if made is not None:
            arguments += [m.pointer(m.buffer(1, "made", made if type(made) is int else 0, True).base), made]
        m.call("pandoricchia_" + name, arguments, narrow)


class End:
    """A call at the end of a path. Bits of forms are named by bit in the algebra of that path."""

    def __init__(self, call, m, drawing=None, path=None):
        """path: what was known where it was drawn."""
        self.call, self.m, self.w, self.drawing, self.path = call, m, m.w, drawing, path

    def at(self, m):
        return End(self.call, m, self.drawing, self.path)

    def bit(self, form):
        if self.drawing is None:
            return form
        known = self.call.w.known(self.path, form) if self.path else None
        return self.drawing.bit(form) if known is None else known

    def field(self, name):
        where, low, n = FIELDS[self.call.name][name]
        if where is not OUT:
            return part(self.m.registers[where], low, n)
        record = self.m.region("record").octets()[low // 8:(low + n) // 8]
        if None in record:
            raise Unlike("%s is not written" % name)
        return word([bit for octet in record for bit in bits(octet, 8)])

    def known(self, bit):
        return self.w.known(self.m.path, bit)

    def any(self, forms):
        """Whether one of some bits is 1."""
        return self.w.all1([self.bit(form) ^ 1 for form in forms]) ^ 1

    def demand(self, **fields):
        if set(fields) != set(FIELDS[self.call.name]):
            raise AssertionError("fields of %s" % self.call.name)
        for name, wanted in fields.items():
            found, n = self.field(name), FIELDS[self.call.name][name][2]
            if callable(wanted):
                same = wanted(found)
            else:
                same = all(self.w.same(self.m.path, x, y) for x, y in zip(bits(found, n), bits(wanted, n)))
            if not same:
                raise Unlike("%s is another number" % name)

    def demand_made(self, wanted):
        """The octets written are those of the forms; None: none is written."""
        if wanted is not None:
            self.demand_made_bits([self.bit(form) for form in wanted])
        elif any(octet is not None for octet in self.m.region("made").octets()):
            raise Unlike("a refused call writes")

    def demand_made_bits(self, wanted):
        found, wrong = self.m.region("made").octets(), 0
        for x, y in zip(found, octets(wanted)):
            if x is None:
                raise Unlike("an octet is not written")
            if x != y and not all(self.w.same(self.m.path, p, q) for p, q in zip(bits(x, 8), bits(y, 8))):
                wrong += sum(not self.w.same(self.m.path, p, q) for p, q in zip(bits(x, 8), bits(y, 8)))
        if wrong or len(found) * 8 != len(wanted):
            raise Unlike("%d of %d bits are other sums" % (wrong, len(wanted)))

    def cases(self, *forms):
        """The end for each value of bits that the path does not decide."""
        ends = [self]
        for form in forms:
            split = []
            for end in ends:
                bit = form(end) if callable(form) else end.bit(form)
                if end.known(bit) is None:
                    split += [end.at(side) for side in end.m.both(bit)]
                else:
                    split.append(end)
            ends = split
        return ends


def ends(call, checks=(), follow=True):
    """The ends of all paths. Where a run depends on whether one of some checks is broken, and one is, it goes on with diagrams,
    if it is followed."""
    met, waiting = {form ^ 1 for form in checks}, [End(call, call.m)]
    while waiting:
        here = waiting.pop()
        try:
            here.m.run()
        except Decision as decision:
            for side in here.m.both(decision.bit):
                these = broken(side) if here.drawing is None else None
                if these and these <= met:
                    if follow:
                        drawing = Drawing(call.w, [form for form in checks if form ^ 1 in these])
                        waiting.append(End(call, drawing.machine(side), drawing, side.path))
                else:
                    waiting.append(here.at(side))
        else:
            yield here


def broken(m):
    """The bits of which a path has just supposed that not all are 1."""
    last = m.path.supposed[-1]
    return m.w.factors.get(last ^ 1) if last & 1 else None
