"""What is shown of each call: every function here runs the machine code once over variables, and compares what comes out with
the map of maps.py. One that returns has shown it; what is not as it has to be raises."""
import maps
from calls import FIELDS, Call, End, Unlike, ends
from diagrams import Diagrams
from drawing import Drawing
from forms import Forms, NotAffine, RandomForms
from machine import STACK_OCTETS, Decision
from words import Stop, bits, left, right, wider


class Figures:
    """What a run took."""

    def __init__(self):
        self.paths = self.instructions = self.stack = 0
        self.read = set()  # of the image: addresses and how many octets

    def end(self, m):
        self.paths += 1
        self.read |= m.read
        self.instructions = max(self.instructions, m.count)
        self.stack = max(self.stack, m.stack_octets())

    def add(self, other):
        self.paths += other.paths
        self.read |= other.read
        self.instructions, self.stack = max(self.instructions, other.instructions), max(self.stack, other.stack)


# The calls that are affine from end to end.


def encode(image, settings, code):
    call = Call(image, "encode", maps.information_octets(code), maps.word_octets(code), code, settings=settings)
    figures, six, refused = Figures(), call.bits[7154:] if code == 4 else [], 0
    for end in ends(call):
        figures.end(end.m)
        if end.known(end.any(six)) is None:
            raise Unlike("a path does not know whether one of the six bits is set")
        if end.known(end.any(six)):
            end.demand(number=4)
            end.demand_made(None)
            refused += 1
        else:
            end.demand(number=0)
            end.demand_made(maps.encoded(code, call.bits))
    if code == 4 and not refused:
        raise Unlike("no path refuses")
    return figures


def affine(image, settings, name, code, given, map_, forms=None, given_bits=None):
    """A call that takes every input of a length, and gives the map."""
    forms = forms or Forms()
    given_bits = given_bits or forms.fresh(8 * given)
    wanted = map_(list(given_bits))
    call = Call(image, name, given, len(wanted) // 8, code, algebra=forms, given_bits=given_bits, settings=settings)
    figures = Figures()
    for end in ends(call):
        figures.end(end.m)
        end.demand(number=0)
        end.demand_made(wanted)
    return figures


def bch_encode(image, settings):
    return affine(image, settings, "bch_encode", None, 7, maps.bch_encoded)


def write_unit(image, settings, code, lengths):
    figures = Figures()
    for given in lengths:
        figures.add(affine(image, settings, "write_unit", code, given, lambda these: maps.unit(code, these)))
    return figures


def export_blocks(image, settings, lengths):
    figures = Figures()
    for given in lengths:
        figures.add(affine(image, settings, "export_blocks", None, given, maps.blocks))
    return figures


def export_most(image, settings):
    """The longest recording, 516,096 bits: sums of so many variables are taken as sums of random numbers."""
    return affine(image, settings, "export_blocks", None, 64512, maps.blocks, RandomForms(1))


# The calls that read checks.


def lowest(end, checks):
    """The lowest broken check, or how many there are. Where a path knows that one of the first is broken, no more are asked."""
    if end.drawing is None:
        raise Unlike("a path with a broken check is not drawn")
    first, none = [], end.m.path
    for at in range(0, len(checks), 64):
        some = [(n, end.bit(checks[n])) for n in range(at, min(at + 64, len(checks)))]
        first += [(n, bit) for n, bit in some if bit]
        none = end.w.and1(none, end.w.all1([bit ^ 1 for _, bit in some]))
        if none == 0:
            break
    result = len(checks)
    for n, bit in reversed(first):
        result = end.w.select(bit, n, result, 32)
    return result


def received(image, settings, name, code, **more):
    """A call that is given a word, and the checks of that word."""
    call = Call(image, name, maps.word_octets(code), more.pop("made", None), code, settings=settings, **more)
    return call, maps.syndrome(code, call.bits)


def held(m, checks):
    """That the checks stand in the stack, each in words of 64 bits in which all other bits are 0."""
    at, found = 0, {}
    names = {form: n for n, form in enumerate(checks)}
    for start in range(0, STACK_OCTETS, 8):
        word_ = [m.stack.octet(start + i) for i in range(8)]
        if None in word_ or all(type(octet) is int for octet in word_):
            continue
        these = [bit for octet in word_ for bit in bits(octet, 8)]
        if all(bit == 0 or bit in names for bit in these):
            found.update((names[bit], start) for bit in these if bit)
    if len(found) < len(checks):
        raise Unlike("%d of %d checks are in memory" % (len(found), len(checks)))


def to_first_decision(call, strict=False):
    """Runs until the run depends on data; strict: until something is not affine."""
    call.w.strict = strict
    try:
        call.m.run()
    except (Decision, NotAffine):
        call.w.strict = False
        return
    raise Unlike("the run does not depend on the word")


def check(image, settings, code):
    """The whole call: number, count and lowest."""
    call, checks = received(image, settings, "check", code)
    to_first_decision(call, strict=True)
    held(call.m, checks)
    drawing, figures = Drawing(call.w, checks), Figures()
    variables = list(range(len(checks)))
    for m in drawing.machine(call.m).paths():
        figures.end(m)
        end = End(call, m, drawing)
        end.demand(number=0, broken=lambda found: sorted(end.w.counted(found) or ()) == variables, lowest=lowest(end, checks))
    return figures


def quick(image, settings, code):
    """The whole call: yes or no, and how many checks were read."""
    call, checks = received(image, settings, "quick", code)
    figures = Figures()
    for end in ends(call, checks):
        figures.end(end.m)
        if end.drawing:  # one of a group's checks is broken
            end.demand(number=0, yes=0, evaluated=end.w.add(lowest(end, checks), 1, 0, 32)[0])
        elif end.known(end.any(checks)) == 0:
            end.demand(number=0, yes=1, evaluated=len(checks))
        else:
            raise Unlike("a path does not know whether a check is broken")
    return figures


def other_parity(code, these):
    """Codes 4 and 5: the bits in which a word's parity is unlike the encoder's."""
    _, _, given, unsent, zeros = maps.CODES[code]
    count = 7154 - unsent
    return [x ^ y for x, y in zip(these, maps.encoded(code, these[:count] + [0] * (8 * given - count)))][count:8176 - unsent]


def open_(image, settings, code):
    """The whole call: number, lowest and octets."""
    call, checks = received(image, settings, "open", code)
    last_two = call.bits[-2:] if code == 5 else []
    parity = other_parity(code, call.bits) if code == 5 else []
    figures = Figures()
    for path in ends(call, checks):
        figures.end(path.m)
        for end in path.cases(lambda e: e.any(checks)):
            if end.known(end.any(checks)):
                end.demand(number=9, lowest=lowest(end, checks), octets=0)
                continue
            for case in end.cases(lambda e: e.any(last_two), lambda e: e.any(parity)):
                number = 14 if case.known(case.any(last_two)) else 15 if case.known(case.any(parity)) else 0
                case.demand(number=number, lowest=len(checks), octets=0 if number else maps.information_octets(code))
    return figures


def step(image, settings, code):
    """The checks in memory, and the call on every word that has none broken."""
    call, checks = received(image, settings, "step", code, made=maps.word_octets(code))
    return quiet(call, checks, lambda end: (end.demand(number=0, quiet=1, bit=0, excess=0), end.demand_made(call.bits)))


def correct(image, settings, code):
    """The same, under every limit."""
    forms = Forms()
    call, checks = received(image, settings, "correct", code, made=maps.word_octets(code), algebra=forms, limit=forms.fresh(16))
    parity = other_parity(code, call.bits) if code > 3 else []
    written = call.bits[:-2] + [0, 0] if code == 5 else call.bits

    def at_end(path):
        for end in path.cases(lambda e: e.any(parity)):
            number = 8 if end.known(end.any(parity)) else 0
            end.demand(number=number, flips=0, first=0, last=0, unlike=0, lowest=len(checks))
            end.demand_made(None if number else written)
    return quiet(call, checks, at_end)


def quiet(call, checks, at_end):
    """Follows a run where no check is broken."""
    to_first_decision(call)
    held(call.m, checks)
    figures = Figures()
    for path in ends(call, checks, follow=False):
        figures.end(path.m)
        if path.known(path.any(checks)) != 0:
            raise Unlike("a path does not know that no check is broken")
        at_end(path)
    return figures


# The older BCH words.


def bch_check(image, settings, detect_only):
    """The whole call."""
    call = Call(image, "bch_check", 8, 8, detect_only, settings=settings)
    word_ = call.bits[:63]
    remainder = [x ^ y ^ 1 for x, y in zip(maps.bch_remainder(word_[:56]), word_[56:])]
    # the remainder of each single wrong bit: where bit i has its variable in the seven sums
    single = [[remainder[k] & word_[i] != 0 for k in range(7)] for i in range(63)]
    figures = Figures()
    for path in ends(call, remainder):
        figures.end(path.m)
        for end in path.cases(lambda e: e.any(remainder)):
            wrong = [end.w.all1([end.bit(r) ^ (not one) for r, one in zip(remainder, these)]) for these in single]
            mended = end.w.all1([bit ^ 1 for bit in wrong]) ^ 1
            if not end.known(end.any(remainder)):
                end.demand(number=0, mended=0)
                end.demand_made(word_ + [0])
            elif detect_only:
                end.demand(number=13, mended=0)
                end.demand_made(None)
            elif end.known(mended) is None:
                raise Unlike("a path does not know whether a bit can be mended")
            elif end.known(mended):
                end.demand(number=0, mended=1)
                end.demand_made_bits([end.w.xor1(end.bit(x), y) for x, y in zip(word_, wrong)] + [0])
            else:
                end.demand(number=13, mended=0)
                end.demand_made(None)
    return figures


# Refusals: code number and lengths are variables of diagrams, and the caller's buffers have no octets: a run that goes on to use
# them has taken its arguments.

CODES_OF = {"encode": (1, 2, 3, 4, 5), "check": (1, 2, 3, 4, 5), "quick": (1, 2, 3, 4, 5), "correct": (1, 2, 3, 4, 5),
            "open": (1, 2, 3, 5), "step": (1, 2, 3, 4), "write_unit": (1, 3), "bch_encode": (None,), "bch_check": (None,)}


def refusals(image, settings, name):
    """Of any code number and any lengths below 2^64: which are taken, and what the others return."""
    d = Diagrams()
    code = d.fresh(8) if None not in CODES_OF[name] else None
    both = d.fresh(128)
    given, made = both[0::2], both[1::2] if name in ("encode", "correct", "step", "write_unit", "bch_encode", "bch_check") else None
    call = Call(image, name, given, made, code if name != "bch_check" else d.fresh(1) + (0,) * 7,
                limit=d.fresh(16) if name == "correct" else None, algebra=d, settings=settings)
    return refused(call, steps_of(d, name, code, given, made))


def refused(call, steps, empty=False):
    """That a call gives the number of the first step that does not hold, and is taken where all do; empty: then there is nothing to
    read or write."""
    d, figures, waiting = call.w, Figures(), [call.m]
    taken = d.all1([holds for _, holds in steps])
    while waiting:
        m = waiting.pop()
        try:
            m.run()
        except Decision as decision:
            waiting += m.both(decision.bit)
            continue
        except Stop as stop:
            if stop.kind != "buffer":
                raise
            figures.end(m)
            if d.and1(m.path, taken ^ 1):
                raise Unlike("something is taken that is not to be")
            continue
        figures.end(m)
        if d.and1(m.path, taken) and not empty:
            raise Unlike("something is refused that is not to be")
        number = 0
        for refusal, holds in reversed(steps):
            number = d.select(holds, number, refusal, 8)
        End(call, m).demand(**{field: number if field == "number" else 0 for field in FIELDS[call.name]})
    return figures


def export_refusals(image, settings, lengths):
    """Of any number of octets above 64,512; and of any length of the output, for each of some numbers of octets."""
    figures = Figures()
    for given in [None] + list(lengths):
        d = Diagrams()
        both = d.fresh(128)
        made = both[1::2]
        call = Call(image, "export_blocks", both[0::2] if given is None else given, made, algebra=d, given_bits=(), settings=settings)
        if given is None:
            _, more = d.add(both[0::2], (1 << 64) - 64513, 0, 64)
            call.m.path, steps = more, [(20, 0)]
        else:
            steps = [(3, d.zero(d.xor(made, 512 * -(-given // 504), 64)))]
        figures.add(refused(call, steps, given == 0))
    return figures


def steps_of(d, name, code, given, made):
    """The refusals in their order: a number, and what has to hold for it not to be given."""
    def equal(w, number):
        return d.zero(d.xor(w, number, len(w)))

    def by_code(condition):
        """What has to hold of the code there is."""
        if code is None:
            return condition(None)
        return d.all1([d.or1(equal(code, c) ^ 1, condition(c)) for c in CODES_OF[name]])
    steps = []
    if code is not None:
        steps.append((1, d.all1([equal(code, c) ^ 1 for c in CODES_OF[name]]) ^ 1))
    if name == "write_unit":
        steps.append((2, d.zero(given) ^ 1))
        steps.append((3, by_code(lambda c: unit_fits(d, c, given, made))))
        return steps
    read = {"encode": maps.information_octets, "bch_encode": lambda c: 7, "bch_check": lambda c: 8}.get(name, maps.word_octets)
    steps.append((2, by_code(lambda c: equal(given, read(c)))))
    if made is not None:
        steps.append((3, by_code(lambda c: equal(made, 8 if c is None else maps.word_octets(c)))))
    return steps


def unit_fits(d, code, given, made):
    """Whether made is the length of the unit of so many octets: start, whole codeblocks, tail."""
    each, word_octets = maps.information_octets(code), maps.word_octets(code)
    count, _ = d.add(wider(given, 64, 80), each - 1, 0, 80)
    count = right(count, each.bit_length() - 1, 80)
    length, _ = d.add(left(count, word_octets.bit_length() - 1, 80), len(maps.START + maps.TAILS[code]) // 2, 0, 80)
    return d.zero(d.xor(length, wider(made, 64, 80), 80))
