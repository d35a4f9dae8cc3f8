"""A Rattle library that tries each form of the MIR that the translator knows, written out, and what it is called with: operations of every
width on numbers at their ends, and small functions for places, structs, enums, arrays, slices and jumps. `arithmetic` makes the first
part, PLAIN is the second. The MIR lies beside a proved library alone, so each is safe as it stands, by a `requires` or a test where it has
to be; two programs call them on the same numbers, in Rattle and in C, and write one line for each function.
"""

UNSIGNED, SIGNED = ("u8", "u16", "u32", "u64"), ("i8", "i16", "i32", "i64")
BITS = {t: int(t[1:]) for t in UNSIGNED + SIGNED}


def ends(ty):
    """Numbers at the ends of a type, and a few between."""
    n = BITS[ty]
    if ty[0] == "u":
        return [0, 1, 2, 3, 7, 10, 0xA5A5A5A5A5A5A5A5 % 2 ** n, 2 ** (n - 1) - 1, 2 ** (n - 1), 2 ** n - 2, 2 ** n - 1]
    return [-2 ** (n - 1), -2 ** (n - 1) + 1, -100, -7, -2, -1, 0, 1, 2, 7, 100, 2 ** (n - 1) - 1]


def fits(ty, x):
    n = BITS[ty]
    return 0 <= x < 2 ** n if ty[0] == "u" else -2 ** (n - 1) <= x < 2 ** (n - 1)


def quotient(a, b):
    """Towards 0."""
    q = abs(a) // abs(b)
    return q if (a < 0) == (b < 0) else -q


OPERATIONS = {
    "+": lambda t, a, b: fits(t, a + b),
    "-": lambda t, a, b: fits(t, a - b),
    "*": lambda t, a, b: fits(t, a * b),
    "/": lambda t, a, b: b != 0 and fits(t, quotient(a, b)),
    "%": lambda t, a, b: b != 0 and fits(t, quotient(a, b)),
    "&": lambda t, a, b: True,
    "|": lambda t, a, b: True,
    "^": lambda t, a, b: True,
    "==": lambda t, a, b: True,
    "!=": lambda t, a, b: True,
    "<": lambda t, a, b: True,
    "<=": lambda t, a, b: True,
    ">": lambda t, a, b: True,
    ">=": lambda t, a, b: True,
}
NAMES = {"+": "add", "-": "sub", "*": "mul", "/": "div", "%": "rem", "&": "and", "|": "or", "^": "xor", "==": "eq", "!=": "ne", "<": "lt",
         "<=": "le", ">": "gt", ">=": "ge", "<<": "shl", ">>": "shr"}


def least(ty):
    return 0 if ty[0] == "u" else -2 ** (BITS[ty] - 1)


def most(ty):
    return 2 ** BITS[ty] - 1 if ty[0] == "u" else 2 ** (BITS[ty] - 1) - 1


def within(op, ty):
    """What a sum, a difference or a product asks, so that it can be had in the type."""
    if ty[0] == "u":
        return "requires { b ≤ a }" if op == "-" else "requires { a %s b < 2 ^ %d }" % (op, BITS[ty])
    low, high = (form % op for form in ("negsuc %d ≤ℤ (a %%sℤ b)" % most(ty), "(a %%sℤ b) ≤ℤ pos %d" % most(ty)))
    return "requires low { %s }\n    requires high { %s }" % (low, high)


class Made:
    """The library's functions, and each that is called with its types and rows of numbers."""

    def __init__(self):
        self.items, self.calls = [], []

    def over(self, name, result, types, params, body, rows, asks=""):
        self.items.append("pub fn %s(%s) -> %s%s {\n    %s\n}" % (
            name, ", ".join("%s: %s" % p for p in zip(params, types)), result, "\n    %s\n" % asks if asks else "", body))
        self.calls.append((name, result, types, rows))


def arithmetic():
    made = Made()
    for ty in UNSIGNED + SIGNED:
        for op, defined in OPERATIONS.items():
            rows = [(a, b) for a in ends(ty) for b in ends(ty) if defined(ty, a, b)]
            result = "bool" if NAMES[op] in ("eq", "ne", "lt", "le", "gt", "ge") else ty
            body, asks = "a %s b" % op, ""
            if op in "+-*":
                asks = within(op, ty)
            elif op in "/%":
                over = " || (a == %d && b == -1)" % least(ty) if ty[0] == "i" else ""
                body = "if b == 0%s { 0 } else { a %s b }" % (over, op)
            made.over("%s_%s" % (NAMES[op], ty), result, (ty, ty), "ab", body, rows, asks)
        for op in ("<<", ">>"):
            rows = [(a, b) for a in ends(ty) for b in (0, 1, BITS[ty] // 2, BITS[ty] - 1)]
            made.over("%s_%s" % (NAMES[op], ty), ty, (ty, "u32"), "ab", "if b < %d { a %s b } else { 0 }" % (BITS[ty], op), rows)
        made.over("not_%s" % ty, ty, (ty,), "a", "!a", [(a,) for a in ends(ty)])
        for other in UNSIGNED + SIGNED:
            rows = [(a,) for a in ends(ty) if fits(other, a)]
            tests = ["%d <= a" % least(other)] * (least(ty) < least(other)) + ["a <= %d" % most(other)] * (most(other) < most(ty))
            body = "if %s { a as %s } else { 0 }" % (" && ".join(tests), other) if tests else "a as %s" % other
            made.over("%s_as_%s" % (ty, other), other, (ty,), "a", body, rows)
        made.over("bool_as_%s" % ty, ty, ("bool",), "a", "a as %s" % ty, [(1,), (0,)])
        # an operation on a narrow number within another, where C would go on with more bits
        made.over("turned_%s" % ty, ty, (ty,), "a", "!(a << 3) >> 2", [(a,) for a in ends(ty)])
    for ty in UNSIGNED:
        for count in ("count_ones", "leading_zeros", "trailing_zeros"):
            made.over("%s_%s" % (count, ty), "u32", (ty,), "a", "%s::%s(a)" % (ty, count), [(a,) for a in ends(ty)])
    for op in ("&", "|", "^", "==", "!="):
        rows = [(a, b) for a in (1, 0) for b in (1, 0)]
        made.over("%s_bool" % NAMES[op], "bool", ("bool", "bool"), "ab", "a %s b" % op, rows)
    made.over("not_bool", "bool", ("bool",), "a", "!a", [(1,), (0,)])
    floats = [0x00000000, 0x80000000, 0x00000001, 0x80000001, 0x3F800000, 0xBF800000, 0x40490FDB, 0x7F7FFFFF, 0xFF7FFFFF, 0x7F800000, 0xFF800000]
    pairs = [(a, b) for a in floats for b in floats]
    one, two = "requires { NotNanBits binary32 a }", "requires a_float { NotNanBits binary32 a }\n    requires b_float { NotNanBits binary32 b }"
    for op in ("<", "<=", "==", "!=", ">", ">="):
        made.over("float_%s" % NAMES[op], "bool", ("u32", "u32"), "ab", "f32::from_bits(a) %s f32::from_bits(b)" % op, pairs, two)
    made.over("float_neg", "u32", ("u32",), "a", "let f = -f32::from_bits(a);\n    if f == f { f32::to_bits(f) } else { 0 }", [(a,) for a in floats], one)
    made.over("float_below", "bool", ("u32",), "a", "f32::from_bits(a) < 0.0", [(a,) for a in floats], one)
    made.over("float_beyond", "bool", ("u32",), "a", "f32::from_bits(a) < 2.5", [(a,) for a in floats], one)
    return made


# What the functions of PLAIN are called with: the name, the types and the rows.
CALLED = [("structs", ("u8", "u64"), [(200, 1027), (0, 0), (255, 2 ** 64 - 1)]), ("nests", ("u16",), [(3,), (40,), (65535,)]),
          ("wides", ("u8", "usize"), [(2, 0), (2, 198), (9, 5), (7, 199)]), ("tokens", ("u8",), [(n,) for n in range(30)]),
          ("wide_match", ("u64",), [(2 ** 64 - 1,), (2 ** 31,), (5,), (6,)]), ("signed_match", ("i16",), [(-1,), (-32768,), (7,), (0,)]),
          ("jumps", ("usize",), [(3,), (30,), (60,)]), ("in_a_loop", ("u8",), [(n,) for n in range(40)]),
          ("logic", ("u8", "u8"), [(a, b) for a in (0, 3, 4, 5, 7, 9, 251, 255) for b in (0, 3, 4, 5, 7, 9, 251, 255)]),
          ("either", ("u8", "u8"), [(a, b) for a in (0, 3, 4, 5, 7, 9, 251, 255) for b in (0, 3, 4, 5, 7, 9, 251, 255)]),
          ("slices", ("u16", "usize"), [(10, 0), (11, 1), (65535, 5), (3, 6)]), ("lent", ("u32",), [(12345,), (7,)]),
          ("grids", ("u16", "usize"), [(60, 0), (1, 1)]), ("fours", ("u8",), [(1,), (200,)]), ("others", ("usize",), [(0,), (1,), (2,)])]

PLAIN = """
fn mix(h: u64, x: u64) -> u64 {
    (h << 5) ^ (h >> 59) ^ x
}

// Structs: nested, with arrays, copied, changed in place and handed on by value.
#[derive(Clone, Copy)]
pub struct Pair {
    pub small: u8,
    pub large: u64,
}

#[derive(Clone, Copy)]
pub struct Nest {
    pub on: bool,
    pub pair: Pair,
    pub long: [u16; 5],
}

#[derive(Clone, Copy)]
pub struct Wide {
    pub a: u64,
    pub octets: [u8; 200],
    pub b: u32,
}

fn pair_of(a: u8, b: u64) -> Pair {
    Pair { small: a, large: b }
}

fn swapped(p: Pair) -> Pair {
    Pair { small: (p.large % 256) as u8, large: p.small as u64 }
}

fn changed(mut p: Pair) -> Pair {
    p.small = p.small / 2;
    p.large ^= 1;
    p
}

pub fn structs(a: u8, b: u64) -> u64 {
    let p = pair_of(a, b);
    let q = swapped(p);
    let r = changed(q);
    mix(mix(mix(mix(p.large, q.small as u64), q.large), r.large), r.small as u64)
}

fn of_nest(n: Nest) -> u64 {
    let p = n.pair;
    let l = n.long;
    let mut s = mix(p.small as u64, p.large);
    let mut i = 0;
    while i < 5 {
        s = mix(s, l[i] as u64);
        i += 1;
    }
    if n.on { s } else { 0 }
}

fn nest_of(k: u16) -> Nest {
    let mut l = [k; 5];
    l[2] = 7;
    Nest { on: k != 3, pair: pair_of(9, k as u64), long: l }
}

pub fn nests(k: u16) -> u64 {
    of_nest(nest_of(k))
}

fn filled(n: u8) -> Wide {
    let mut o = [n; 200];
    o[199] = 1;
    Wide { a: 5, octets: o, b: 6 }
}

fn moved(w: Wide, k: usize) -> Wide {
    let mut o = w.octets;
    if k < 200 {
        o[k] = 77;
    }
    Wide { a: w.b as u64, octets: o, b: (w.a % 1000) as u32 }
}

fn spoiled(mut w: Wide) -> u64 {
    w.a = 1000;
    w.octets[0] = 3;
    let o = w.octets;
    mix(w.a, o[0] as u64)
}

fn weigh(w: Wide) -> u64 {
    let o = w.octets;
    let mut s = mix(w.a, w.b as u64);
    let mut i = 0;
    while i < 200 {
        s = mix(s, o[i] as u64);
        i += 1;
    }
    s
}

pub fn wides(n: u8, k: usize) -> u64 {
    let mut w = filled(n);
    let mut h = mix(weigh(w), spoiled(w));
    h = mix(h, weigh(w));
    w = moved(w, k);
    h = mix(h, weigh(w));
    w = moved(moved(w, 198), 5);
    let v = w;
    w.a = 1;
    mix(mix(mix(h, weigh(w)), v.a), w.a)
}

// Enums.
#[derive(Clone, Copy)]
pub enum Token {
    End,
    Byte(u8),
    Run { byte: u8, times: usize },
    Both(Pair, bool),
}

fn token_of(n: u8) -> Token {
    match n {
        0 => Token::End,
        1 | 2 | 3 => Token::Byte(n * 2),
        4..=9 => Token::Run { byte: n, times: 100 },
        _ => Token::Both(pair_of(n, 5), n > 20),
    }
}

fn width(t: Token) -> usize {
    match t {
        Token::End => 0,
        Token::Byte(b) => b as usize,
        Token::Run { byte, times } => times ^ byte as usize,
        Token::Both(p, yes) => if yes { 1000 } else { p.small as usize },
    }
}

fn is_end(t: Token) -> bool {
    if let Token::End = t { true } else { false }
}

fn first_or(t: Token, other: u8) -> u8 {
    let Token::Byte(b) = t else {
        return other;
    };
    b
}

pub fn tokens(n: u8) -> u64 {
    let t = token_of(n);
    mix(mix(width(t) as u64, is_end(t) as u64), first_or(t, 3) as u64)
}

pub fn wide_match(n: u64) -> u64 {
    match n {
        0xFFFF_FFFF_FFFF_FFFF => 1,
        0x8000_0000 => 2,
        5 => 3,
        _ => 4,
    }
}

pub fn signed_match(n: i16) -> u64 {
    match n {
        -1 => 1,
        -32768 => 2,
        7 => 3,
        _ => 4,
    }
}

// Jumps.
pub fn jumps(n: usize) -> u64 {
    let mut s = 0;
    let mut i: usize = 0;
    'outer: while i < 50 {
        i += 1;
        let mut j: usize = 0;
        while j < 20 {
            j += 1;
            if j == 3 {
                continue;
            }
            if j > 6 {
                break;
            }
            if i ^ j == 20 {
                break 'outer;
            }
            if i == 2 {
                continue 'outer;
            }
            s = mix(s, (i ^ j) as u64);
        }
        if i > n {
            break;
        }
    }
    mix(s, i as u64)
}

pub fn in_a_loop(n: u8) -> u64 {
    let mut left = n;
    let mut s = 0;
    while 1 < left {
        match left % 4 {
            0 => s = mix(s, 1),
            1 => {
                left -= 1;
                continue;
            }
            2 => if left < 10 {
                break;
            },
            _ => return mix(s, 500),
        }
        s = mix(s, 10);
        left -= 2;
    }
    s
}

pub fn logic(a: u8, b: u8) -> u64 {
    let yes = (a < 5 && b < 5) || (a > 250 && (b == 3 || b == a));
    yes as u64
}

pub fn either(a: u8, b: u8) -> u64 {
    if a < 5 && b < 5 {
        return 1;
    }
    if a == 7 || b == 7 {
        return 2;
    }
    let mut n = a;
    while n > 3 && b != 9 {
        n -= 1;
    }
    n as u64
}

// Arrays, slices and references; what is read before a write, and after it.
fn bump(s: &mut [u16], k: usize) -> u16 {
    if k >= s.len() {
        return 0;
    }
    s[k] ^= 1;
    s[k]
}

fn order(s: &mut [u16]) -> u64 {
    if s.len() == 0 {
        return 0;
    }
    let before = s[0];
    let after = bump(s, 0);
    let again = if s.len() > 0 { s[0] } else { 0 };
    if s.len() > 0 {
        s[0] = before;
    }
    mix(mix(before as u64, after as u64), again as u64)
}

fn late(s: &mut [u16]) -> u16 {
    if s.len() < 2 {
        return 0;
    }
    let x = s[1] ^ s[0];
    s[1] = 9;
    s[0] = s[1] ^ 2;
    x ^ s[0] % 10
}

fn total(s: &[u16]) -> u64 {
    let mut t = 0;
    let mut i = 0;
    while i < s.len() {
        t = mix(t, s[i] as u64);
        i += 1;
    }
    t
}

fn of_middle(s: &[u16]) -> u64 {
    if s.len() < 4 {
        return 0;
    }
    let m = &s[1..4];
    mix(total(m), m.len() as u64)
}

fn put_last(s: &mut [u16]) {
    let n = s.len();
    if n > 0 {
        s[n - 1] = 11;
    }
}

pub fn slices(a: u16, k: usize) -> u64 {
    let mut s: [u16; 6] = [a, 20, 30, 40, 50, 60];
    let mut h = order(&mut s);
    h = mix(h, total(&s));
    h = mix(h, late(&mut s) as u64);
    h = mix(h, total(&s));
    h = mix(h, bump(&mut s, k) as u64);
    put_last(&mut s[2..5]);
    h = mix(h, total(&s));
    mix(mix(h, total(&s[4..])), of_middle(&s))
}

fn put_into(x: &mut u32, y: &mut u8, n: u32) {
    *x = n;
    *y = (n % 7) as u8;
    *x ^= *y as u32;
}

pub fn lent(n: u32) -> u64 {
    let mut x: u32 = 0;
    let mut y: u8 = 0;
    put_into(&mut x, &mut y, n);
    mix(x as u64, y as u64)
}

fn rows(t: &[[u16; 3]; 2], k: usize) -> u64 {
    if k >= 2 {
        return 0;
    }
    let r = t[k];
    mix(mix(r[0] as u64, t[1][2] as u64), t[0][k] as u64)
}

const GRID: [[u16; 3]; 2] = [[1, 2, 3], [4, 5, 6]];

pub fn grids(n: u16, k: usize) -> u64 {
    let mut grid = GRID;
    let h = mix(rows(&GRID, 1), rows(&GRID, k));
    grid[1][2] = n;
    mix(mix(h, rows(&grid, k)), rows(&GRID, 0))
}

fn reversed(a: [u8; 4]) -> [u8; 4] {
    [a[3], a[2], a[1], a[0]]
}

fn spoil(mut a: [u8; 4]) -> u8 {
    a[0] = 99;
    a[0] ^ a[1]
}

fn four() -> [u8; 4] {
    [4, 3, 2, 1]
}

pub fn fours(n: u8) -> u64 {
    let a: [u8; 4] = [n, 2, 3, 4];
    let b = reversed(reversed(a));
    let c = reversed(b);
    let mut h = mix(mix(spoil(c) as u64, c[0] as u64), c[3] as u64);
    let mut f = four();
    h = mix(h, f[1] as u64);
    f[1] = 8;
    mix(mix(h, f[1] as u64), four()[1] as u64)
}

const SQUARES: [u64; 12] = [0, 1, 4, 9, 16, 25, 36, 49, 64, 81, 100, 121];
const SEVENS: [i32; 40] = [-7; 40];

pub fn others(k: usize) -> u64 {
    if k >= 3 {
        return 0;
    }
    let none: [u16; 0] = [0; 0];
    let mut h = total(&none);
    let mut flags = [true; 3];
    flags[k] = false;
    h = mix(h, (flags[0] & !flags[1]) as u64);
    let mut ps = [pair_of(1, 2); 3];
    ps[1] = pair_of(7, 8);
    h = mix(mix(mix(h, ps[0].large), ps[k].large), ps[2].small as u64);
    let words: [u64; 3] = [0xFFFF_FFFF_FFFF_FFFF, 0x0123_4567_89AB_CDEF, 1 << 63];
    h = mix(h, words[0] ^ words[1] ^ words[k]);
    let signs: [i32; 3] = [-5, 6, -2147483648];
    h = mix(h, (signs[k] ^ signs[2] ^ SEVENS[k] == 3) as u64);
    mix(h, SQUARES[k])
}
"""

# The loops' invariants and measures.
LOOPS = {
    "of_nest": [("loop-i", "l.i ≤ 5", "5 - l.i")],
    "weigh": [("loop-i", "l.i ≤ 200", "200 - l.i")],
    "total": [("loop-i", "l.i ≤ length l.s", "length l.s - l.i")],
    "jumps": [("loop-j", "(l.j ≤ 20) × (l.i ≤ 50)", "20 - l.j"), ("outer", "l.i ≤ 50", "50 - l.i")],
    "in_a_loop": [("loop-left", "0 ≤ l.left", "l.left")],
    "either": [("loop-n", "0 ≤ l.n", "l.n")],
}
HEAD = """#![tactic(auto)]

ghost use Rattle.std.specs.Prelude.{◌≡◌, ◌<◌, ◌≤◌, ◌+◌, ◌*◌, ◌^◌, ◌≤ℤ◌, ◌+ℤ◌, ◌-ℤ◌, ◌*ℤ◌, pos, negsuc};
ghost use Rattle.std.specs.Float.{NotNanBits};
ghost use Rattle.std.specs.Float.Ieee.{binary32};
"""


def library():
    """The library's source, its proofs by function, and its calls."""
    made = arithmetic()
    proofs = {}
    for name, loops in LOOPS.items():
        lines = ["use Rattle.std.proofs.Common.{length, ◌-◌, ◌≤◌}", "use Rattle.forms.proofs.%s.Given as goal" % name]
        for loop, holds, measure in loops:
            lines += ["", "abbrev pub invariant-%s : goal.invariant-%s" % (loop, loop), "invariant-%s l = %s" % (loop, holds),
                      "", "abbrev pub decreases-%s : goal.decreases-%s" % (loop, loop), "decreases-%s l = %s" % (loop, measure)]
        proofs[name] = "\n".join(lines) + "\n"
    return HEAD + PLAIN + "\n" + "\n\n".join(made.items) + "\n", proofs, made.calls + [(name, "u64", types, rows) for name, types, rows in CALLED]


def program(calls):
    """A program in Rattle that calls them, each with its crate before it, and writes a line for each function: what it gave, mixed."""
    lines = ["#![tactic(auto)]", "", "use std::io;", "", "fn mix(h: u64, x: u64) -> u64 {", "    (h << 5) ^ (h >> 59) ^ x", "}", "",
             "fn bits(x: i64) -> u64 {", "    if x < 0 { !((-(x + 1)) as u64) } else { x as u64 }", "}", ""]
    for crate, name, result, types, rows in calls:
        for at, ty in enumerate(types):
            texts = [("true" if row[at] else "false") if ty == "bool" else str(row[at]) for row in rows]
            lines.append("const %s_%d: [%s; %d] = [%s];" % (name.upper(), at, ty, len(rows), ", ".join(texts)))
        call = "%s::%s(%s)" % (crate, name, ", ".join("%s_%d[i]" % (name.upper(), at) for at in range(len(types))))
        value = "bits(%s as i64)" % call if result[0] == "i" else "%s as u64" % call if result != "u64" else call
        value = value.replace(" as i64)", ")") if result == "i64" else value
        lines += ["fn all_%s() -> u64 {" % name, "    let mut h = 0;", "    let mut i = 0;", "    while i < %d {" % len(rows),
                  "        h = mix(h, %s);" % value, "        i += 1;", "    }", "    h", "}", ""]
    lines += ["fn main(rt: HostRuntime) -> io::Result<()> {"] + ['    println!(rt; "%s {}", all_%s())?;' % (c[1], c[1]) for c in calls] + ["    Ok(())", "}"]
    return "\n".join(lines) + "\n"


def main_in_c(calls):
    """The same in C, below what the translator gives for the library. A number of any sign is its bits, unsigned."""
    lines = ["#include <inttypes.h>", "#include <stdio.h>", ""]
    widths = dict(BITS, usize=64)
    for crate, name, result, types, rows in calls:
        for at, ty in enumerate(types):
            kind = "bool" if ty == "bool" else "uint%d_t" % widths[ty]
            texts = ["%d" % row[at] if ty == "bool" else "UINT%d_C(%d)" % (widths[ty], row[at] % 2 ** widths[ty]) for row in rows]
            lines.append("static const %s %s_%d[%d] = {%s};" % (kind, name.upper(), at, len(rows), ", ".join(texts)))
        call = "%s_%s(%s)" % (crate, name, ", ".join("%s_%d[i]" % (name.upper(), at) for at in range(len(types))))
        value = "(uint64_t)(int64_t)(int%d_t)%s" % (widths[result], call) if result[0] == "i" else "(uint64_t)%s" % call
        lines += ["", "static uint64_t all_%s(void)" % name, "{", "    uint64_t h = 0;", "    for (int i = 0; i < %d; i++) {" % len(rows),
                  "        h = (h << 5) ^ (h >> 59) ^ %s;" % value, "    }", "    return h;", "}", ""]
    lines += ["int main(void)", "{"] + ['    printf("%s %%" PRIu64 "\\n", all_%s());' % (c[1], c[1]) for c in calls] + ["    return 0;", "}"]
    return "\n".join(lines) + "\n"
