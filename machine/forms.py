"""The algebra of affine forms: a bit is a sum modulo 2 of variables and a constant.

The number of a form has bit 0 for the constant and a bit for each variable. Equal numbers are equal functions. A product of two
forms is no form: it becomes a variable of its own, with the set of forms that it is the product of. Nothing is lost by that, but
equal functions may then have different names; so what is compared equal is equal, and what is not may be.
"""
import operator
import random

from words import Stop, Words, bits, entries, word


class NotAffine(Exception):
    """A product of two forms, where the run is to be affine."""


class Forms(Words):
    xor1 = staticmethod(operator.xor)

    def __init__(self):
        self.variables = 1
        self.products = {}  # a set of forms: the variable that is their product
        self.factors = {}  # a variable: the set
        self.product_variables = 0
        self.tables = {}  # a table that is affine: its first entry, and what each bit of its index adds
        self.strict = False

    def fresh(self, n):
        first = self.variables
        self.variables += n
        return tuple([1 << first + i for i in range(n)])

    def and1(self, x, y):
        if x <= 1:
            return y if x else 0
        if y <= 1:
            return x if y else 0
        if x == y:
            return x
        if x ^ y == 1:
            return 0
        if self.strict:
            raise NotAffine
        for u, v in ((x, y), (y, x)):
            factors = self.factors.get(u & ~1)
            if factors and v in factors:  # v · v g = v g, and v (1 + v g) = v + v g
                return u if not u & 1 else v ^ u ^ 1
            if factors and v ^ 1 in factors:  # v · (1 + v) g = 0
                return 0 if not u & 1 else v
        return self.product(self.factors.get(x, frozenset([x])) | self.factors.get(y, frozenset([y])))

    @staticmethod
    def variables_of(form):
        while form:
            top = 1 << form.bit_length() - 1
            yield top
            form ^= top

    def all1(self, these):
        these = frozenset(these) - {1}
        if 0 in these or any(x ^ 1 in these for x in these):
            return 0
        if len(these) < 2:
            return next(iter(these), 1)
        if self.strict:
            raise NotAffine
        return self.product(frozenset().union(*[self.factors.get(x, [x]) for x in these]))

    def product(self, these):
        if any(x ^ 1 in these for x in these):
            return 0
        if these not in self.products:
            new, = self.fresh(1)
            self.products[these], self.factors[new] = new, these
            self.product_variables |= new
        return self.products[these]

    def largest(self, path, index):
        """No index is larger."""
        return (1 << len(index)) - 1

    def look_up(self, table, places, n, index):
        """The entry of n octets that the index bits choose: an affine form of them, if the table is affine."""
        found = self.tables.get((table, places, n))
        if found is None:
            e = entries(table, places, n)
            if any(k & k - 1 and e[k] != e[k & k - 1] ^ e[k & -k] ^ e[0] for k in range(len(e))):
                raise Stop("not affine", "a table that is not affine in its index")
            found = self.tables[table, places, n] = e[0], [e[1 << j] ^ e[0] for j in range(len(places))]
        result = list(bits(found[0], 8 * n))
        for bit, step in zip(index, found[1]):
            for q in range(8 * n):
                if step >> q & 1:
                    result[q] ^= bit
        return word(result)

    nothing = None  # set below

    def known(self, path, bit):
        """0 or 1 if the path decides the bit, else None."""
        value = bit if bit <= 1 else self.reduced(path, bit)
        return value if value <= 1 else None

    def same(self, path, x, y):
        return x == y or self.reduced(path, x ^ y) == 0

    def reduced(self, path, form):
        """The form by what the path knows."""
        if path is self.nothing:
            return form
        form = path.by_equations(form)
        for variable in self.variables_of(form & self.product_variables):
            if variable not in path.values:
                path.values[variable] = self.product_value(path, self.factors[variable])
            value = path.values[variable]
            form ^= 0 if value is None else variable | value
        return form

    def product_value(self, path, these):
        """0 or 1, or None if the path does not decide the product."""
        rest = []
        for x in these:
            x = self.reduced(path, x)
            if x == 0:
                return 0
            if x != 1:
                rest.append(x)
        if not rest:
            return 1
        if path.refuted:  # if all of them were 1, would all of a product be that is 0?
            supposed = path.with_equations([x ^ 1 for x in rest])
            if supposed is None or any(all(supposed.by_equations(x) == 1 for x in other) for other in path.refuted):
                return 0
        return None

    def supposing(self, path, bit, value):
        """The path on which the bit has the value; it does not decide it yet."""
        bit ^= value ^ 1  # it is to be 1
        these = self.factors.get(bit & ~1)
        if these and bit & 1:
            new = Path(path.equations, path.refuted + [these])
        else:
            new = path.with_equations([x ^ 1 for x in these or [bit]])
        new.supposed = path.supposed + [bit]
        return new


class RandomForms(Forms):
    """For very many variables: each is a random number of 512 bits in place of a bit of its own, so a sum is as short. Different
    sums have the same number with a chance of 2^-512. Products are not taken."""

    def __init__(self, seed):
        super().__init__()
        self.random, self.strict = random.Random(seed), True

    def fresh(self, n):
        return tuple([self.random.getrandbits(512) << 1 for _ in range(n)])


class Path:
    """What holds on a path: linear equations, each a form that is 0 under its highest variable; and products that are 0."""

    def __init__(self, equations, refuted):
        self.equations, self.refuted = equations, refuted
        self.tops = sum(1 << top for top in equations)
        self.supposed = []  # the bits that were supposed to be 1, as they came
        self.values = {}  # products whose value was asked

    def by_equations(self, form):
        found = form & self.tops
        while found:
            top = found.bit_length() - 1
            form ^= self.equations[top]
            found = form & self.tops & (1 << top) - 1
        return form

    def with_equations(self, forms):
        """The path with further forms that are 0; None if they contradict each other."""
        new = Path(dict(self.equations), self.refuted)
        for form in forms:
            form = new.by_equations(form)
            if form == 1:
                return None
            if form:
                new.equations[form.bit_length() - 1] = form
                new.tops |= 1 << form.bit_length() - 1
        return new


Forms.nothing = Path({}, [])
