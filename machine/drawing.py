"""From forms to diagrams: a run that was affine so far goes on with any functions.

A sum of variables becomes a variable of its own, unless it is a sum of such ones. So what is shown afterwards holds whatever
values these have, also where no input makes them so together; what depends on each of them alone is not lost.
"""
from diagrams import Diagrams
from words import word


class Drawing:
    def __init__(self, forms, first):
        """The forms in first become the first variables, in their order; also one that is a sum of others."""
        self.forms, self.diagrams, self.names = forms, Diagrams(), {0: 0}
        self.named = []  # the bits that are variables
        self.basis = {}  # a form under its highest variable, and a number that says which of named have it as their sum
        for form in first:
            if form & ~1 not in self.names:
                self.names[form & ~1] = self.new_bit(form & ~1, True)

    def new_bit(self, form, apart=False):
        """The bit of a sum of variables: those of named whose sum it is, or a new one."""
        rest, total = form, 0
        while rest and rest.bit_length() in self.basis:
            held, which = self.basis[rest.bit_length()]
            rest ^= held
            total ^= which
        if rest:
            self.basis[rest.bit_length()] = rest, total | 1 << len(self.named)
        if rest or apart:
            self.named += self.diagrams.fresh(1)
            return self.named[-1]
        result = 0
        for n in reversed(range(len(self.named))):  # the last variable first: each is then put above what is there
            if total >> n & 1:
                result = self.diagrams.xor1(self.named[n], result)
        return result

    def bit(self, form):
        """A form's bit."""
        constant, form = form & 1, form & ~1
        if form not in self.names:
            products = form & self.forms.product_variables
            if not products:
                self.names[form] = self.new_bit(form)
            elif form in self.forms.factors:
                self.names[form] = self.diagrams.all1([self.bit(x) for x in self.forms.factors[form]])
            else:
                total = self.bit(form ^ products)
                for variable in self.forms.variables_of(products):
                    total = self.diagrams.xor1(total, self.bit(variable))
                self.names[form] = total
        return self.names[form] ^ constant

    def word(self, w):
        return w if type(w) is int else word([self.bit(x) for x in w])

    def machine(self, m):
        """The machine over diagrams, as it stands."""
        new = m.copy()
        new.w, new.path = self.diagrams, self.diagrams.all1([self.bit(x) for x in m.path.supposed])
        for name in ("registers", "vectors", "before"):
            setattr(new, name, ListWhenRead(self, getattr(m, name)))
        new.symbolic = {self.word(high): base for high, base in m.symbolic.items()}
        new.high = {key: self.word(high) for key, high in m.high.items()}
        new.regions, new.pages = [], {}
        for region in m.regions:
            held = new.add(region.copy())
            held.bits = WhenRead(self, region.bits, {})
            if region is m.stack:
                new.stack = held
        new.carry, new.zero_of, new.result = later(self.bit, m.carry), later(self.word, m.zero_of), later(self.word, m.result)
        new.overflow = later(self.summed if type(m.overflow) is tuple else self.bit, m.overflow)
        return new

    def summed(self, overflow):
        """Two words, their sum, and the width."""
        return tuple([self.word(w) for w in overflow[:3]]) + overflow[3:]


def later(function, flag):
    """A flag is drawn when it is asked: most are not."""
    return None if flag is None else lambda: function(flag)


class ListWhenRead(list):
    """Registers, each drawn when it is read."""

    def __init__(self, drawing, words):
        super().__init__([w if type(w) is int else later(drawing.word, w) for w in words])

    def __getitem__(self, n):
        held = list.__getitem__(self, n)
        if callable(held):
            held = self[n] = held()
        return held

    def copy(self):
        new = ListWhenRead(None, [])
        new.extend(self)
        return new


class WhenRead(dict):
    """The octets of a region, each drawn when it is read."""

    def __init__(self, drawing, octets, drawn):
        super().__init__(drawn)
        self.drawing, self.octets = drawing, octets

    def __missing__(self, at):
        self[at] = self.drawing.word(self.octets[at])
        return self[at]

    def copy(self):
        return WhenRead(self.drawing, self.octets, self)
