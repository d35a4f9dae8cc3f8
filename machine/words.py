"""Words of bits that are not known.

A bit is a number. 0 and 1 are the constants; any other number is the name that an algebra gives to a function of the run's
variables, and flipping its lowest bit names the complement. A word is a number if all its bits are constants, else the tuple
of its bits, the least significant first. Two algebras stand over this: forms.py and diagrams.py.
"""


class Stop(Exception):
    """The run can't go on; kind says why in a word, text where."""

    def __init__(self, kind, text=""):
        super().__init__(kind + (": " + text if text else ""))
        self.kind, self.text = kind, text


def bits(word, n):
    return tuple([word >> i & 1 for i in range(n)]) if type(word) is int else word


def word(bits_):
    """The bits as a word: a number if all are constants."""
    if max(bits_) > 1:
        return tuple(bits_)
    number = 0
    for i, bit in enumerate(bits_):
        if bit:
            number |= 1 << i
    return number


def part(w, low, n):
    return w >> low & (1 << n) - 1 if type(w) is int else word(w[low:low + n])


def parts(w, n, total):
    return [part(w, low, n) for low in range(0, total, n)]


def joined(words, n):
    """Words of n bits side by side, the first lowest."""
    if all([type(w) is int for w in words]):
        number = 0
        for i, w in enumerate(words):
            number |= w << n * i
        return number
    return tuple([bit for w in words for bit in bits(w, n)])


def wider(w, n, to):
    """With zeros above."""
    return w if type(w) is int else w + (0,) * (to - n)


def signed(w, n, to):
    """With copies of the sign above."""
    if type(w) is int:
        return w | (1 << to) - (1 << n) if w >> n - 1 else w
    return word(w + (w[-1],) * (to - n))


def complement(w, n):
    return w ^ (1 << n) - 1 if type(w) is int else tuple([bit ^ 1 for bit in w])


def left(w, count, n):
    if count >= n:
        return 0
    return w << count & (1 << n) - 1 if type(w) is int else word((0,) * count + w[:n - count])


def right(w, count, n):
    if count >= n:
        return 0
    return w >> count if type(w) is int else word(w[count:] + (0,) * count)


def entries(table, places, n):
    """The entries of n octets of a table, for each value of an index with bits at these places."""
    result = []
    for k in range(1 << len(places)):
        at = sum((k >> j & 1) << place for j, place in enumerate(places))
        result.append(int.from_bytes(table[at:at + n], "little"))
    return result


class Words:
    """What an algebra computes with words. It brings xor1, and1 and fresh."""

    def xor(self, a, b, n):
        if type(a) is int and type(b) is int:
            return a ^ b
        return word(list(map(self.xor1, bits(a, n), bits(b, n))))

    def and_(self, a, b, n):
        if type(a) is int and type(b) is int:
            return a & b
        return word(list(map(self.and1, bits(a, n), bits(b, n))))

    def or1(self, x, y):
        return self.and1(x ^ 1, y ^ 1) ^ 1

    def or_(self, a, b, n):
        if type(a) is int and type(b) is int:
            return a | b
        return word(list(map(self.or1, bits(a, n), bits(b, n))))

    def select(self, choice, a, b, n):
        """a where the choice is 1, else b."""
        if choice <= 1:
            return a if choice else b
        return word([self.xor1(y, self.and1(choice, self.xor1(x, y))) if x != y else x for x, y in zip(bits(a, n), bits(b, n))])

    def majority(self, x, y, z):
        if x == y:
            return x
        if x ^ y == 1 or z == x or z == y:
            return z
        if x ^ z == 1:
            return y
        if y ^ z == 1:
            return x
        if y <= 1:
            x, y = y, x
        elif z <= 1:
            x, z = z, x
        return self.xor1(x, self.and1(self.xor1(x, y), self.xor1(x, z)))

    def add(self, a, b, carry, n):
        """The sum of n bits and its carry."""
        if type(a) is int and type(b) is int and carry <= 1:
            total = a + b + carry
            return total & (1 << n) - 1, total >> n
        if carry == 0 and (a == 0 or b == 0):
            return (b, 0) if a == 0 else (a, 0)
        xor, total = self.xor1, []
        for x, y in zip(bits(a, n), bits(b, n)):
            total.append(xor(xor(x, y), carry))
            carry = self.majority(x, y, carry)
        return word(total), carry

    def times(self, a, b, n):
        """The product of n bits: by a number, as sums of shifted words, in pairs; so that fields of few bits stay apart."""
        if type(b) is not int:
            a, b = b, a
        if type(a) is int:
            return a * b & (1 << n) - 1
        if type(b) is not int:
            raise Stop("not affine", "a product of two words")
        terms = [left(a, i, n) for i in range(n) if b >> i & 1] or [0]
        while len(terms) > 1:
            paired = [self.add(x, y, 0, n)[0] for x, y in zip(terms[::2], terms[1::2])]
            terms = paired + terms[len(paired) * 2:]
        return terms[0]

    def zero(self, w):
        """Whether all bits are 0."""
        if type(w) is int:
            return int(w == 0)
        return self.all1([bit ^ 1 for bit in w])

    def all1(self, these):
        result = 1
        for bit in these:
            result = self.and1(result, bit)
        return result

    def highest(self, w, n):
        """The place of the highest one of a word that is not 0."""
        return self.place(list(reversed(range(n))), w, n)

    def lowest(self, w, n):
        return self.place(list(range(n)), w, n)

    def place(self, order, w, n):
        b, before, found = bits(w, n), 1, [0] * n.bit_length()
        for i in order:
            here = self.and1(before, b[i])
            before = self.and1(before, b[i] ^ 1)
            for k in range(n.bit_length()):
                if i >> k & 1:
                    found[k] = self.xor1(found[k], here)
        return wider(word(found), n.bit_length(), n)
