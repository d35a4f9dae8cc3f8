"""What the calls must give, by the plain rules of the papers, from the printed digits.

A bit here is a sum modulo 2 of the caller's bits and a constant, kept as a number that ^ adds (forms.py): so each rule is written
as it would be for one input, and what comes out is the map for all of them. Nothing of the library is used, and no table of
the judge's: the digits are read from outside/printed.
"""
import functools
import operator
import os

PRINTED = os.path.join(os.path.dirname(os.path.dirname(os.path.abspath(__file__))), "outside", "printed")

# code: M, word octets, information octets, unsent bits before the information, zero bits after the parity
CODES = {1: (16, 16, 8, 0, 0), 2: (32, 32, 16, 0, 0), 3: (64, 64, 32, 0, 0), 4: (511, 1022, 895, 0, 0), 5: (511, 1020, 892, 18, 2)}
START = "034776C7272895B0"
TAILS = {1: "55555556AAAAAAAA5555555555555555", 3: ""}
FILL = "55"


def number_bits(number, n):
    """The n bits of a number, the most significant first."""
    return [number >> n - 1 - i & 1 for i in range(n)]


def digits(text):
    """The bits of hex digits."""
    return [bit for digit in text for bit in number_bits(int(digit, 16), 4)]


def printed(name):
    with open(os.path.join(PRINTED, name + ".txt"), encoding="utf-8") as file:
        return [line.split() for line in file if not line.startswith("#")]


def word_octets(code):
    return CODES[code][1]


def information_octets(code):
    return CODES[code][2]


# Encoding.


@functools.lru_cache(None)
def generator(m):
    """The printed rows, for each information block a row of parts of M bits. Near Earth a zero bit stands before each."""
    rows = [[digits(part) for part in line] for line in printed("generator%d" % m)]
    if m == 511:
        assert all(part[0] == 0 for row in rows for part in row)
        rows = [[part[1:] for part in row] for row in rows]
    assert all(len(part) == m for row in rows for part in row)
    return rows


@functools.lru_cache(None)
def columns(m):
    """For each parity bit, by number: which information bits it is the sum of, as a number with bit i for information bit i.

    The row of bit j of a block is the printed one with each part shifted right circularly by j: at place c it has the printed
    bit c - j. So parity bit c has just the j with a printed one at c - j."""
    sums = []
    rows = generator(m)
    for part in range(len(rows[0])):
        for c in range(m):
            total = 0
            for block, row in enumerate(rows):
                turned = [row[part][(c - j) % m] for j in range(m)]
                total |= int("".join(map(str, reversed(turned))), 2) << m * block
            sums.append(total)
    return sums


def sums(masks, bits):
    """For each mask the sum of the bits that it has."""
    zeros = next((i for i, bit in enumerate(bits) if bit), 0)
    if bits[zeros] > 1 and bits[zeros:] == [bits[zeros] << i for i in range(len(bits) - zeros)]:
        return [(mask >> zeros) * bits[zeros] for mask in masks]  # variables in their order: the sum is the mask, put in its place
    if max(bits) <= 1:  # constants
        number = sum(bit << i for i, bit in enumerate(bits))
        return [bin(mask & number).count("1") & 1 for mask in masks]
    return [functools.reduce(operator.xor, [bit for i, bit in enumerate(bits) if mask >> i & 1], 0) for mask in masks]


def encoded(code, information):
    """The bits of the word, of those of the information octets; code 4's last six are left out."""
    m, octets, _, unsent, zeros = CODES[code]
    information = information[:7154] if code == 4 else information
    word = information + sums(columns(m), [0] * unsent + information) + [0] * zeros
    assert len(word) == 8 * octets
    return word


# Checks.


@functools.lru_cache(None)
def checks(code):
    """For each check the numbers of the bits that it covers. Of code 5 these are the sent bits: the unsent ones are 0."""
    m, _, _, unsent, _ = CODES[code]
    if m == 511:
        cells = [line[1] for line in printed("parity511")]
        rows = [cells[:16], cells[16:]]
    else:
        rows = printed("parity%d" % m)
    covered = []
    for row in rows:
        blocks = [[int(s) for s in cell.split(",")] if cell != "-" else [] for cell in row]
        for i in range(m):
            places = [m * block + (i + s) % m for block, shifts in enumerate(blocks) for s in shifts]
            covered.append([place - unsent for place in places if place >= unsent])
    return covered


def syndrome(code, word):
    """The checks of a word's bits: 1 where a check is broken."""
    return [functools.reduce(operator.xor, [word[place] for place in places]) for places in checks(code)]


# Transmission units.


def randomiser(n):
    """The first n bits: bit k + 8 is the sum of bits k + 6, k + 4, k + 3, k + 2, k + 1 and k; eight ones at the start."""
    sequence = [1] * 8
    while len(sequence) < n:
        k = len(sequence) - 8
        sequence.append(sequence[k + 6] ^ sequence[k + 4] ^ sequence[k + 3] ^ sequence[k + 2] ^ sequence[k + 1] ^ sequence[k])
    return sequence[:n]


def unit(code, information):
    """Start, codeblocks and tail: the information filled up to whole codeblocks, encoded, and randomised from the first on."""
    each, filled = 8 * information_octets(code), list(information)
    while len(filled) % each:
        filled += digits(FILL)
    words = [bit for at in range(0, len(filled), each) for bit in encoded(code, filled[at:at + each])]
    return digits(START) + [bit ^ r for bit, r in zip(words, randomiser(len(words)))] + digits(TAILS[code])


# The older BCH words.


def bch_remainder(bits):
    """What is left of the bits, the highest power first, and seven zeros, divided by x^7 + x^6 + x^2 + 1."""
    held = list(bits) + [0] * 7
    for at in range(len(bits)):
        for power in (7, 6, 2, 0):
            if power < 7:
                held[at + 7 - power] ^= held[at]
    return held[-7:]


def bch_encoded(information):
    return information + [bit ^ 1 for bit in bch_remainder(information)] + [0]


# Blocks of the lab's disk.


def frame_check(bits):
    """By x^16 + x^12 + x^5 + 1 with sixteen ones at the start."""
    held = [1] * 16  # the highest power first
    for bit in bits:
        out = held[0] ^ bit
        held = held[1:] + [out]
        held[15 - 12] ^= out
        held[15 - 5] ^= out
    return held


def block(number, data):
    """Number, count, data, zeros and frame check."""
    head = number_bits(number, 32) + number_bits(len(data) // 8, 16)
    body = head + list(data) + [0] * (8 * 504 - len(data))
    return body + frame_check(body)


def blocks(octets):
    return [bit for n, at in enumerate(range(0, len(octets), 8 * 504)) for bit in block(n, octets[at:at + 8 * 504])]
