"""The algebra of decision diagrams: a bit is any function of the variables, drawn as a graph that asks them in their order.

Equal functions have equal numbers. A number is twice a node's index, and 1 more for the complement; node 0 is the constant 0.
"""
import sys

from words import Words, bits, entries, word

sys.setrecursionlimit(100000)


class Diagrams(Words):
    def __init__(self):
        self.variables = 0
        self.nodes = [(1 << 60, 0, 0)]  # variable, where it is 1, where it is 0
        self.index = {}
        self.ands, self.xors = {}, {}
        self.counts = {}  # a word that is a number of ones: the number in its place, and of which variables
        self.numbers = []  # such numbers in 64 bits

    def fresh(self, n):
        first = self.variables
        self.variables += n
        return tuple([self.node(first + i, 1, 0) for i in range(n)])

    def node(self, variable, one, zero):
        if one == zero:
            return one
        inverted = one & 1
        key = (variable, one ^ inverted, zero ^ inverted)
        found = self.index.get(key)
        if found is None:
            found = self.index[key] = 2 * len(self.nodes)
            self.nodes.append(key)
        return found ^ inverted

    def split(self, x, y):
        """The first variable of the two, and both where it is 1 and where it is 0."""
        v, x1, x0 = self.nodes[x >> 1]
        w, y1, y0 = self.nodes[y >> 1]
        if v > w:
            v, x1, x0 = w, x, x
        else:
            x1, x0 = x1 ^ x & 1, x0 ^ x & 1
        if v < w:
            y1 = y0 = y
        else:
            y1, y0 = y1 ^ y & 1, y0 ^ y & 1
        return v, x1, x0, y1, y0

    def and1(self, x, y):
        if x == y or y == 1:
            return x
        if x == 1:
            return y
        if x == 0 or y == 0 or x ^ y == 1:
            return 0
        key = (x, y) if x < y else (y, x)
        found = self.ands.get(key)
        if found is None:
            v, x1, x0, y1, y0 = self.split(x, y)
            found = self.ands[key] = self.node(v, self.and1(x1, y1), self.and1(x0, y0))
        return found

    def xor1(self, x, y):
        inverted = (x ^ y) & 1
        x, y = x & ~1, y & ~1
        if x == y:
            return inverted
        if x == 0 or y == 0:
            return x ^ y ^ inverted
        key = (x, y) if x < y else (y, x)
        found = self.xors.get(key)
        if found is None:
            v, x1, x0, y1, y0 = self.split(x, y)
            found = self.xors[key] = self.node(v, self.xor1(x1, y1), self.xor1(x0, y0))
        return found ^ inverted

    def all1(self, these):
        """The last variable first: each is then put above what is there."""
        return super().all1(sorted(these, key=lambda x: self.nodes[x >> 1][0], reverse=True))

    def largest(self, path, index):
        """The largest number that the index bits may be."""
        number = 0
        for j in reversed(range(len(index))):
            here = self.and1(path, index[j])
            path = here or path
            number |= int(here != 0) << j
        return number

    def look_up(self, table, places, n, index):
        """The entry of n octets that the index bits choose."""
        chosen = entries(table, places, n)
        for bit in index:
            chosen = [self.select(bit, one, zero, 8 * n) for zero, one in zip(chosen[::2], chosen[1::2])]
        return chosen[0]

    # The number of ones of many variables would be a diagram too large. So a summand that is such a number becomes a number of
    # its own, of which nothing is known: what holds for any number there holds for this one. Of such numbers all lowest bits
    # stand before all bits above them in the order: sums of them are small then.

    PLANE = 1 << 30

    def add(self, a, b, carry, n):
        return super().add(self.shortened(a), self.shortened(b), carry, n)

    def shortened(self, w):
        self.counted(w)
        return self.counts.get(w, (w, ()))[0]

    def counted(self, w):
        """The variables of which a word is the number of ones, or None."""
        if type(w) is int or w in self.counts:
            return () if type(w) is int else self.counts[w][1]
        summands = self.summands(w[0])
        if summands is None:
            return None
        size = len(w)
        total = self.ones([v for v in summands if v < self.PLANE], size)
        these = [v for v in summands if v < self.PLANE]
        for v in summands:
            if v >= self.PLANE:
                number, ones = self.numbers[v - self.PLANE]
                total, _ = super().add(total, word(bits(number, 64)[:size] + (0,) * (size - 64)), 0, size)
                these += ones
        if total != w or len(set(these)) < len(these) or len(these) >= 1 << size:
            return None
        k = len(self.numbers)
        number = tuple([self.node((plane + 1) * self.PLANE + k, 1, 0) for plane in range(len(these).bit_length())]) + (0,) * 64
        self.numbers.append((number[:64], these))
        self.counts[w] = number[:size], these
        return these

    def summands(self, bit):
        """The variables whose sum modulo 2 a bit is, if they are eight or more, or numbers of ones."""
        these = []
        while bit > 1:
            variable, one, zero = self.nodes[bit >> 1]
            if one ^ zero != 1 or variable >= 2 * self.PLANE:
                return None
            these.append(variable)
            bit = zero
        return these if len(these) >= 8 or these and these[-1] >= self.PLANE and len(these) > 1 else None

    def ones(self, these, n):
        """The number of ones among variables."""
        row = [bits(k, n) for k in range(len(these) + 1)]
        for variable in sorted(these, reverse=True):
            row = [tuple(map(self.node, [variable] * n, more, less)) for less, more in zip(row, row[1:])]
        return word(row[0])

    # What a path knows is a bit.

    nothing = 1

    def known(self, path, bit):
        if bit <= 1:
            return bit
        if self.and1(path, bit) == 0:
            return 0
        return 1 if self.and1(path, bit ^ 1) == 0 else None

    def supposing(self, path, bit, value):
        return self.and1(path, bit ^ value ^ 1)

    def same(self, path, x, y):
        return x == y or self.and1(path, self.xor1(x, y)) == 0
