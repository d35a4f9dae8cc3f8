"""Two Rattle libraries that try what stands for several types: generic types and functions, traits, closures, and the functions of the
toolchain's own library that the translator takes. What is generic lies in the first, what it is used at in the second, so that an
instance's parts come from two crates.
"""

HEAD = """#![tactic(auto)]

ghost use Rattle.std.specs.Prelude.{◌≡◌, ◌<◌, ◌≤◌, ◌+◌};
"""

OCTETS = (0, 1, 2, 3, 4, 5, 6, 7, 8, 9, 20, 49, 50, 76, 77, 78, 99, 100, 101, 255)
PAIRS = [(a, b) for a in (0, 1, 5, 99, 100, 255, 256, 65535) for b in (0, 1, 5, 99, 100, 255, 256, 65535)]
# What the functions are called with: the name, the types and the rows.
CALLED = [("holds", ("u16", "u16"), PAIRS),
          ("results", ("u8",), [(n,) for n in OCTETS]),
          ("units", ("u8",), [(n,) for n in OCTETS]),
          ("options", ("u8",), [(n,) for n in OCTETS]),
          ("arrays_in_enums", ("u8",), [(n,) for n in OCTETS]),
          ("consts", ("u16",), [(n,) for n in (0, 1, 2, 99, 100, 255, 256, 65535)]),
          ("closures", ("u16", "u16"), PAIRS),
          ("traits", ("u16",), [(n,) for n in (0, 1, 2, 99, 100, 255, 256, 65535)]),
          ("comparisons", ("u16", "u16"), PAIRS),
          ("copies", ("u8",), [(n,) for n in OCTETS]),
          ("fills", ("u8",), [(n,) for n in OCTETS]),
          ("equals", ("u8", "u8"), [(a, b) for a in OCTETS for b in OCTETS]),
          ("chains", ("u8", "u8"), [(a, b) for a in OCTETS for b in OCTETS]),
          ("zips", ("u16", "u16"), PAIRS),
          ("chunks", ("u8",), [(n,) for n in OCTETS]),
          ("parts", ("u8",), [(n,) for n in OCTETS]),
          ("octets", ("u16", "u32"), [(a, b) for a in (0, 4, 5, 99, 100, 255, 256, 65535) for b in (0, 1, 6, 7, 16, 2 ** 31, 2 ** 32 - 1)]),
          ("conversions", ("u8",), [(n,) for n in OCTETS]),
          ("mutating", ("u8",), [(n,) for n in OCTETS]),
          ("points", ("u16",), [(n,) for n in (0, 1, 2, 99, 100, 255, 256, 65535)]),
          ("swaps", ("u16", "u16"), PAIRS),
          ("summed", ("u8", "u8"), [(a, b) for a in OCTETS for b in OCTETS]),
          ("readers", ("u8",), [(n,) for n in OCTETS]),
          ("nests_of_two", ("u8",), [(n,) for n in OCTETS]),
          ("wraps", ("u16", "u16"), PAIRS),
          ("selections", ("u8", "u8"), [(a, b) for a in OCTETS for b in OCTETS]),
          ("searches", ("u8", "u8"), [(a, b) for a in OCTETS for b in OCTETS]),
          ("arrays", ("u8", "u8"), [(a, b) for a in OCTETS for b in OCTETS]),
          ("moves", ("u8",), [(n,) for n in OCTETS]),
          ("ends", ("u8", "u8"), [(a, b) for a in OCTETS for b in OCTETS]),
          ("small_numbers", ("u8", "u8"), [(a, b) for a in OCTETS for b in OCTETS]),
          ("constants", ("u16",), [(n,) for n in (0, 1, 2, 99, 100, 255, 256, 65535)]),
          ("large", ("u16", "u16"), PAIRS),
          ("large_within", ("u16", "u16"), PAIRS),
          ("large_again", ("u16", "u16"), PAIRS)]

PIECES = HEAD + """
pub fn mix(h: u64, x: u64) -> u64 {
    (h << 5) ^ (h >> 59) ^ x
}

#[derive(Clone, Copy)]
pub struct Held<T> {
    pub a: T,
    pub b: T,
    pub many: [T; 3],
}

impl<T: Copy> Held<T> {
    pub fn swapped(&self) -> Held<T> {
        Held { a: self.b, b: self.a, many: self.many }
    }

    pub fn first(self) -> T {
        self.many[0]
    }
}

pub fn flat<const B: usize, const R: usize>(xs: &[[[u16; 2]; B]; R]) -> u64 {
    let mut h: u64 = 0;
    for x in xs {
        for y in x {
            h = mix(mix(h, y[0] as u64), y[1] as u64);
        }
    }
    mix(h, B as u64)
}

pub fn zeros<const N: usize>() -> [u16; N] {
    [0; N]
}

pub fn apply<F: Fn(u16) -> u16>(f: F, x: u16) -> u16
    requires { F.IsAlwaysCallable f }
{
    f(x) ^ 1
}

pub fn apply_lent<F: Fn(u16) -> u16>(f: &F, x: u16) -> u16
    requires { F.IsAlwaysCallable f.now }
{
    f(x) ^ 1
}

pub trait Area {
    const SIDES: u16;
    fn area(&self) -> u16;
    fn turned(&self) -> u16 {
        self.area() ^ 0xFF
    }
}

pub fn measured<A: Area>(a: &A) -> u64 {
    mix(mix(a.area() as u64, a.turned() as u64), A::SIDES as u64)
}

pub fn each<F: FnMut(u8)>(xs: &[u8], mut f: F)
    requires { F.IsAlwaysCallable f }
{
    for x in xs {
        f(*x);
    }
}

pub fn refused_above<E: Drop>(x: u8, n: u8, e: E) -> Result<u8, E> {
    if n < x {
        return Err(e);
    }
    Ok(x)
}
"""

GENERICS = HEAD + """
use pieces::{Area, Held, apply, apply_lent, each, flat, measured, mix, refused_above, zeros};
use std::cmp::Ordering;

#[derive(Clone, Copy, PartialEq, Eq, Debug)]
pub enum Refusal {
    Short,
    Bad(u8),
}

#[derive(Clone, Copy, PartialEq, Eq, PartialOrd, Ord, Debug, Default)]
pub struct Point {
    pub x: u16,
    pub y: u16,
}

pub fn holds(x: u16, y: u16) -> u64 {
    let p = Held { a: x, b: y, many: [x, y, 7] };
    let q = p.swapped();
    let r = Held { a: true, b: x < y, many: [x == y; 3] }.swapped();
    let s = Held { a: p, b: q, many: [p, q, q] };
    let t = s.swapped();
    let u = Held { a: Point { x, y: 1 }, b: Point { x: 2, y }, many: [Point { x: y, y: x }; 3] }.swapped();
    let h = mix(mix(q.a as u64, q.b as u64), q.many[1] as u64);
    let h = mix(mix(h, u.a.y as u64), u.first().x as u64);
    let h = mix(mix(h, r.a as u64), r.first() as u64);
    mix(mix(h, t.a.a as u64), t.many[1].b as u64)
}

fn checked(x: u8) -> Result<u8, Refusal> {
    if x > 100 { Err(Refusal::Bad(x)) } else if x == 77 { Err(Refusal::Short) } else { Ok(x) }
}

fn twice(x: u8) -> Result<u16, Refusal> {
    let y = checked(x)?;
    Ok((y as u16) << 1)
}

pub fn results(x: u8) -> u64 {
    let a = match twice(x) {
        Ok(y) => y as u64,
        Err(Refusal::Short) => 1000,
        Err(Refusal::Bad(n)) => 2000 ^ n as u64,
    };
    let b = match checked(x).map_err(|e| match e { Refusal::Short => 1, Refusal::Bad(v) => v as u16 }) {
        Ok(y) => y as u64,
        Err(n) => n as u64,
    };
    let c = checked(x).map(|y| y == 5).unwrap_or(true);
    let d = checked(x).ok().is_some();
    let e = checked(x).is_ok();
    let f = checked(x) == Ok(9);
    mix(mix(mix(mix(mix(a, b), c as u64), d as u64), e as u64), f as u64)
}

fn unit(x: u8) -> Result<(), Refusal> {
    if x > 3 {
        return Err(Refusal::Short);
    }
    Ok(())
}

fn unit_on(x: u8) -> Result<u8, Refusal> {
    unit(x)?;
    refused_above(x ^ 1, 2, Refusal::Bad(x))
}

pub fn units(x: u8) -> u64 {
    match unit_on(x) {
        Ok(y) => y as u64,
        Err(e) => mix(99, (e == Refusal::Short) as u64),
    }
}

fn low(x: u8) -> Option<u8> {
    if x < 50 { Some(x) } else { None }
}

fn lower(x: u8) -> Option<u16> {
    let y = low(x)?;
    Some((y as u16) << 2)
}

pub fn options(x: u8) -> u64 {
    let a = lower(x).unwrap_or(3) as u64;
    let b = low(x).map(|v| v > 3) == Some(true);
    let c = if let Some(v) = low(x) { v as u64 } else { 1 };
    let d = low(x).ok_or(Refusal::Short).is_err();
    let e = low(x).and_then(|v| if v == 3 { None } else { Some(v ^ 9) });
    let f = low(x).or(Some(200)).is_none();
    let g = low(x).is_some_and(|v| v == 4);
    let h = mix(mix(mix(a, b as u64), c), d as u64);
    let h = mix(h, match e { None => 5, Some(v) => v as u64 });
    mix(mix(h, f as u64), g as u64)
}

fn bytes_of(x: u8) -> Result<[u8; 4], Refusal> {
    if x == 3 { Err(Refusal::Bad(3)) } else { Ok([x, x ^ 1, 7, 9]) }
}

fn held_of(x: u8) -> Option<Held<u8>> {
    if x == 4 { None } else { Some(Held { a: x, b: 1, many: [x; 3] }) }
}

pub fn arrays_in_enums(x: u8) -> u64 {
    let a = match bytes_of(x) {
        Ok(b) => mix(b[0] as u64, b[1] as u64),
        Err(_) => 1,
    };
    let b = match held_of(x) {
        Some(h) => mix(h.a as u64, h.many[2] as u64),
        None => 2,
    };
    mix(a, b)
}

pub fn consts(x: u16) -> u64 {
    let mut z = zeros::<5>();
    z[2] = x;
    let w = zeros::<2>();
    let h = mix(flat(&[[[x, 3]; 2]; 3]), flat(&[[[1, x], [2, x], [z[2], w[0]]]]));
    mix(h, z[4] as u64)
}

pub fn closures(x: u16, k: u16) -> u64 {
    let h = mix(apply(|v| v ^ k, x) as u64, apply_lent(&|v| v & k, x) as u64);
    mix(h, apply(|v| v | 1, k) as u64)
}

#[derive(Clone, Copy)]
pub struct Square(u16);

#[derive(Clone, Copy)]
pub struct Strip<const N: usize>([u16; N]);

impl Area for Square {
    const SIDES: u16 = 4;
    fn area(&self) -> u16 {
        self.0 ^ 7
    }
}

impl<const N: usize> Area for Strip<N> {
    const SIDES: u16 = 9;
    fn area(&self) -> u16 {
        if N < 100 { N as u16 } else { 3 }
    }
    fn turned(&self) -> u16 {
        if 0 < N { self.0[0] } else { 1 }
    }
}

pub fn traits(x: u16) -> u64 {
    mix(measured(&Square(x)), measured(&Strip([x, 4, 5])))
}

pub fn comparisons(a: u16, b: u16) -> u64 {
    let p = Point { x: a, y: b };
    let q = Point { x: b, y: a };
    let h = mix(mix((p == q) as u64, (p < q) as u64), (p >= q) as u64);
    let o = match a.cmp(&b) {
        Ordering::Less => 1,
        Ordering::Equal => 2,
        Ordering::Greater => 3,
    };
    let h = mix(mix(h, o), a.min(b) as u64);
    let h = mix(mix(h, a.max(b) as u64), std::cmp::min(a, b) as u64);
    let d = Point::default();
    let least = p.min(q);
    mix(mix(h, least.x as u64), d.x as u64)
}

pub fn copies(a: u8) -> u64 {
    let from = [a, 2, 3, 4, 5, 6];
    let mut into = [9u8; 6];
    into[1..4].copy_from_slice(&from[2..5]);
    let mut words = [a as u64; 4];
    words[0..2].copy_from_slice(&[7, 8]);
    let mut points = [Point { x: 1, y: a as u16 }; 3];
    points[1..2].copy_from_slice(&[Point { x: 5, y: 6 }]);
    let mut h: u64 = 0;
    for x in into {
        h = mix(h, x as u64);
    }
    for w in &words {
        h = mix(h, *w);
    }
    for p in &points {
        h = mix(mix(h, p.x as u64), p.y as u64);
    }
    h
}

pub fn fills(a: u8) -> u64 {
    let mut into = [1u8; 5];
    into[1..4].fill(a);
    let mut words = [1u16; 5];
    words.fill(a as u16);
    let mut h: u64 = 0;
    for x in &into {
        h = mix(h, *x as u64);
    }
    for x in &words {
        h = mix(h, *x as u64);
    }
    h
}

pub fn equals(a: u8, b: u8) -> u64 {
    let x = [a, 2, 3, 4, 5, 6, 7, 8, 9, 10, 11, 12, 13, 14, 15, 16, 17, 18, 19, 20];
    let y = [b, 2, 3, 4, 5, 6, 7, 8, 9, 10, 11, 12, 13, 14, 15, 16, 17, 18, 19, a];
    let s: &[u8] = &x;
    let h = mix((x == y) as u64, (s == &y[..]) as u64);
    let h = mix(mix(h, (x[1..4] == y[1..4]) as u64), (x[2..] != y[2..]) as u64);
    let u = [a as u64, 5, 6];
    let v = [b as u64, 5, 6];
    let h = mix(mix(h, (u == v) as u64), (&u[1..] == &v[1..]) as u64);
    let p = [Point { x: a as u16, y: 1 }; 2];
    let q = [Point { x: b as u16, y: 1 }; 2];
    mix(h, (p[..] == q[..]) as u64)
}

pub fn chains(a: u8, b: u8) -> u64 {
    let x = [a, 20, 3, b, 50, 6];
    let h = mix(x.iter().all(|v| *v < 100) as u64, x.iter().any(|v| *v == 50) as u64);
    let h = mix(h, match x.iter().position(|v| *v == b) { Some(i) => i as u64, None => 77 });
    let h = mix(h, x.iter().fold(0, |s, v| mix(s, *v as u64)));
    let mut h = h;
    for v in x.iter().rev() {
        h = mix(h, *v as u64);
    }
    for v in x.iter().step_by(2) {
        h = mix(h, *v as u64);
    }
    for (i, v) in x.iter().enumerate() {
        h = mix(mix(h, *v as u64), i as u64);
    }
    for k in (0..5).rev() {
        h = mix(h, x[k] as u64);
    }
    for k in (1..6).step_by(2) {
        h = mix(h, x[k] as u64);
    }
    h
}

pub fn zips(a: u16, b: u16) -> u64 {
    let mut x = [a, 2, b, 4];
    let y = [b, 7, a];
    for (w, v) in x.iter_mut().zip(&y) {
        *w ^= *v;
    }
    for (w, v) in x.iter_mut().zip(y.iter()) {
        *w ^= *v >> 1;
    }
    for w in x.iter_mut() {
        *w ^= 1;
    }
    for w in &mut x {
        *w ^= 3;
    }
    let mut h = 0;
    for (v, w) in x.iter().zip(y.iter().rev()) {
        h = mix(mix(h, *v as u64), *w as u64);
    }
    h
}

pub fn chunks(a: u8) -> u64 {
    let mut x = [a, 2, 3, 4, 5, 6, 7, 8, 9, a];
    let mut h: u64 = 0;
    for c in x.chunks_exact(4) {
        h = mix(h, total(c));
    }
    for c in x.chunks(4) {
        h = mix(h, total(c));
    }
    for c in x.windows(3) {
        h = mix(h, total(c));
    }
    for c in x.chunks_exact_mut(5) {
        if 0 < c.len() {
            c[0] = 77;
        }
    }
    mix(h, total(&x))
}

fn total(x: &[u8]) -> u64 {
    let mut h: u64 = 0;
    for v in x {
        h = mix(h, *v as u64);
    }
    h
}

pub fn parts(a: u8) -> u64 {
    let mut x = [a, 2, 3, 4, 5, 6];
    let (l, r) = x.split_at(2);
    let mut h = mix(total(l), total(r));
    h = mix(h, match x.first() { Some(v) => *v as u64, None => 0 });
    h = mix(h, match x.last() { Some(v) => *v as u64, None => 0 });
    h = mix(h, match x.get(9) { Some(v) => *v as u64, None => 4 });
    h = mix(h, x.contains(&a) as u64);
    x.swap(1, 4);
    h = mix(h, total(&x));
    x.reverse();
    h = mix(h, total(&x));
    {
        let (l, r) = x.split_at_mut(2);
        l[0] = 1;
        r[0] = 2;
    }
    mix(h, total(&x))
}

pub fn octets(a: u16, b: u32) -> u64 {
    let x = a.to_be_bytes();
    let y = b.to_le_bytes();
    let h = mix(mix(x[0] as u64, x[1] as u64), u16::from_le_bytes(x) as u64);
    let h = mix(mix(h, y[3] as u64), u32::from_be_bytes(y) as u64);
    let h = mix(h, u64::from(a));
    let h = mix(h, match u8::try_from(a) { Ok(v) => v as u64, Err(_) => 3 });
    let h = mix(h, a.rotate_left(3) as u64);
    let h = mix(h, a.abs_diff(5) as u64);
    let h = mix(h, b.wrapping_add(0xFFFF_FFF0) as u64);
    let h = mix(h, a.saturating_sub(100) as u64);
    let h = mix(h, match a.checked_sub(100) { Some(v) => v as u64, None => 8 });
    mix(h, b.div_ceil(7) as u64)
}

pub struct Wrong(u16);

impl From<Refusal> for Wrong {
    fn from(r: Refusal) -> Wrong {
        match r {
            Refusal::Short => Wrong(1),
            Refusal::Bad(n) => Wrong(n as u16),
        }
    }
}

fn wrongly(x: u8) -> Result<u8, Wrong> {
    let y = checked(x)?;
    Ok(y ^ 3)
}

pub fn conversions(x: u8) -> u64 {
    match wrongly(x) {
        Ok(y) => y as u64,
        Err(Wrong(n)) => mix(n as u64, 6),
    }
}

pub fn mutating(a: u8) -> u64 {
    let mut h: u64 = 0;
    each(&[a, 2, 3], |x| h = mix(h, x as u64));
    h
}

pub fn points(a: u16) -> u64 {
    let ps = [Point { x: a, y: 1 }, Point { x: 2, y: a }];
    let mut h: u64 = 0;
    for p in ps.iter().rev() {
        h = mix(mix(h, p.x as u64), p.y as u64);
    }
    mix(h, ps.iter().all(|p| p.x < 100) as u64)
}

pub fn swaps(a: u16, b: u16) -> u64 {
    let mut x = a;
    let mut y = b;
    std::mem::swap(&mut x, &mut y);
    let z = std::mem::replace(&mut x, 5);
    mix(mix(x as u64, y as u64), z as u64)
}

pub fn summed(a: u8, b: u8) -> u64 {
    let x = [a, b, 7, 9];
    let n = x.iter().filter(|v| **v < 8).count();
    let m = x.iter().map(|v| *v as u64).fold(0, |s, v| mix(s, v));
    let most = x.iter().copied().max();
    let least = x.iter().min();
    let h = mix(n as u64, m);
    let h = mix(h, match most { Some(v) => v as u64, None => 0 });
    let h = mix(h, match least { Some(v) => *v as u64, None => 0 });
    let f = x.iter().find(|v| **v == 7);
    mix(h, match f { Some(v) => *v as u64, None => 1 })
}

pub struct Reader<'a> {
    pub octets: &'a [u8],
    pub at: usize,
}

impl<'a> Reader<'a> {
    fn next(&mut self) -> Option<u8> {
        if self.at < self.octets.len() {
            let x = self.octets[self.at];
            self.at += 1;
            Some(x)
        } else {
            None
        }
    }
}

pub fn readers(a: u8) -> u64 {
    let octets = [a, 3, 9];
    let mut reader = Reader { octets: &octets, at: 0 };
    let mut h = 0;
    for _ in 0..5 {
        h = mix(h, match reader.next() { Some(x) => x as u64, None => 50 });
    }
    let Reader { octets: _, at } = reader;
    mix(h, at as u64)
}

fn nested(x: u8) -> Result<Option<u8>, Refusal> {
    if x == 9 { Err(Refusal::Short) } else { Ok(low(x)) }
}

pub fn nests_of_two(x: u8) -> u64 {
    match nested(x) {
        Ok(Some(y)) => y as u64,
        Ok(None) => 1000,
        Err(Refusal::Short) => 2000,
        Err(Refusal::Bad(_)) => 3000,
    }
}

pub fn wraps(a: u16, b: u16) -> u64 {
    let (p, q) = ((a % 256) as u8, (b % 256) as u8);
    let h = mix(mix(p.wrapping_add(q) as u64, p.wrapping_sub(q) as u64), p.wrapping_mul(q) as u64);
    let h = mix(mix(mix(h, a.wrapping_add(b) as u64), a.wrapping_sub(b) as u64), a.wrapping_mul(b) as u64);
    let (r, s) = (a as u32 ^ 0xFFFF_0F00, b as u32 ^ 0xF0FF_FF00);
    let h = mix(mix(mix(h, r.wrapping_add(s) as u64), s.wrapping_sub(r) as u64), r.wrapping_mul(s) as u64);
    let (v, w) = (a as u64 ^ 0xFFFF_FFFF_FFFF_0F00, b as u64 ^ 0xF0FF_FFFF_FFFF_FF00);
    mix(mix(mix(h, v.wrapping_add(w)), w.wrapping_sub(v)), v.wrapping_mul(w))
}

pub fn selections(a: u8, b: u8) -> u64 {
    let x = [a, 3, b, 9, 8, a];
    let mut h = 0;
    for v in x.iter().take(3) {
        h = mix(h, *v as u64);
    }
    for v in x.iter().skip(3) {
        h = mix(h, *v as u64);
    }
    for v in x.iter().take_while(|v| **v < 9) {
        h = mix(h, *v as u64);
    }
    for v in x.iter().chain(x[2..].iter()) {
        h = mix(h, *v as u64);
    }
    for v in x.iter().copied() {
        h = mix(h, v as u64);
    }
    for (i, v) in x.iter().enumerate().rev() {
        h = mix(mix(h, *v as u64), i as u64);
    }
    for c in x.chunks_exact(2).rev() {
        h = mix(h, total(c));
    }
    for c in x.rchunks(4) {
        h = mix(h, total(c));
    }
    let mut words = [0u64; 2];
    for (w, c) in words.iter_mut().zip(x.chunks_exact(3)) {
        *w = total(c);
    }
    for v in [[a, b], [b, 7]].iter().flatten() {
        h = mix(h, *v as u64);
    }
    for v in [a, 3, b] {
        h = mix(h, v as u64);
    }
    mix(mix(h, words[0]), words[1])
}

pub fn searches(a: u8, b: u8) -> u64 {
    let x = [a, 3, b, 9, a, 3];
    let h = match x.iter().rposition(|v| *v == 3 || *v == b) { Some(i) => i as u64, None => 70 };
    let h = mix(h, match x.iter().enumerate().min_by_key(|p| *p.1) { Some((i, _)) => i as u64, None => 70 });
    let h = mix(h, match x.iter().last() { Some(v) => *v as u64, None => 70 });
    let h = mix(h, x.iter().filter(|v| v.is_ascii_digit()).count() as u64);
    let h = mix(h, x.iter().zip(&[b, 3, a]).all(|(v, w)| v == w) as u64);
    let h = mix(h, x.iter().map(|v| *v ^ 3).any(|v| v == 9) as u64);
    let h = mix(h, [2u16, 5, 9, 100].binary_search(&(a as u16)).is_ok() as u64);
    let h = mix(h, (x[..3] < x[3..]) as u64);
    let h = mix(h, x.starts_with(&[a, 3, a]) as u64);
    let mut it = x.iter();
    let h = mix(h, match it.next() { Some(v) => *v as u64, None => 1 });
    mix(h, match it.nth(2) { Some(v) => *v as u64, None => 1 })
}

fn four_of(x: &[u8]) -> Option<[u8; 4]> {
    match <[u8; 4]>::try_from(x) {
        Ok(y) => Some(y),
        Err(_) => None,
    }
}

pub fn arrays(a: u8, b: u8) -> u64 {
    let mut xs = [[a; 3]; 2];
    for row in xs.iter_mut() {
        for x in row.iter_mut() {
            *x ^= 1;
        }
    }
    for row in &mut xs {
        row[0] ^= 3;
    }
    let ys = xs.map(|row| row[0] ^ row[2]);
    let zs: [u8; 5] = std::array::from_fn(|_| b);
    let h = mix(mix(xs[0][1] as u64, ys[1] as u64), zs[4] as u64);
    let h = mix(h, (xs == [[b; 3]; 2]) as u64);
    let h = mix(h, match four_of(&zs[1..]) { Some(x) => total(&x), None => 0 });
    let h = mix(h, match four_of(&zs) { Some(x) => total(&x), None => 0 });
    mix(h, match zs.first_chunk::<4>() { Some(x) => u32::from_be_bytes(*x) as u64, None => 0 })
}

pub fn moves(a: u8) -> u64 {
    let mut x = [a, 2, 3, 4, 5, 6];
    x.copy_within(0..3, 2);
    let h = total(&x);
    x.copy_within(1..4, 0);
    let h = mix(h, total(&x));
    let mut pair = [a, 9];
    pair = [pair[1], pair[0]];
    let mut rows = [[a, 1], [2, a]];
    rows = [rows[1], rows[0]];
    let mut held = Held { a: a, b: 1, many: [a, 2, 3] };
    held = Held { a: held.b, b: held.a, many: [held.many[2], held.many[0], held.many[1]] };
    let lent = &mut held;
    *lent = Held { a: lent.b, b: lent.a, many: [lent.many[2], lent.many[0], lent.many[1]] };
    let h = mix(mix(h, total(&pair)), mix(total(&rows[0]), total(&rows[1])));
    mix(mix(h, held.a as u64), total(&held.many))
}

fn sum_of(xs: &[u8]) -> Option<u8> {
    let mut sum: u8 = 0;
    for x in xs {
        sum = sum.checked_add(*x)?;
    }
    Some(sum)
}

pub fn ends(a: u8, b: u8) -> u64 {
    let h = match [a, b].split_first() { Some((x, rest)) => mix(*x as u64, rest.len() as u64), None => 0 };
    let mut x = Some(a);
    let y = x.take();
    let h = mix(mix(h, y.is_some() as u64), x.is_none() as u64);
    let h = mix(h, match (a < b).then(|| b ^ 1) { Some(v) => v as u64, None => 300 });
    let h = mix(h, (low(a) == low(b)) as u64);
    mix(h, match sum_of(&[a, b, 9]) { Some(v) => v as u64, None => 300 })
}

pub fn small_numbers(a: u8, b: u8) -> u64 {
    let (x, over) = a.overflowing_add(b);
    let h = mix(mix(x as u64, over as u64), a.clamp(3, 90) as u64);
    let h = mix(mix(h, a.count_ones() as u64), (b as u32).is_power_of_two() as u64);
    let h = mix(h, a.saturating_add(b) as u64);
    mix(h, match u32::try_from(a as usize) { Ok(v) => v as u64, Err(_) => 1 })
}

fn lent_truth(x: &bool) -> u64 {
    *x as u64
}

fn lent_float(x: &f32, y: f32) -> bool {
    *x < y
}

fn lent_refusal(x: &Refusal) -> u64 {
    match x { Refusal::Short => 1000, Refusal::Bad(n) => *n as u64 }
}

fn lent_point(x: &Point) -> u64 {
    mix(x.x as u64, x.y as u64)
}

fn lent_held(x: &Held<u16>) -> u64 {
    mix(mix(x.a as u64, x.b as u64), x.many[2] as u64)
}

pub fn constants(a: u16) -> u64 {
    let h = mix(mix(lent_truth(&true), lent_float(&1.5, 2.5) as u64), lent_refusal(&Refusal::Short));
    let h = mix(mix(h, lent_refusal(&Refusal::Bad(9))), lent_point(&Point { x: 3, y: 4 }));
    let h = mix(h, lent_held(&Held { a: 5, b: 6, many: [7, 8, 9] }));
    let mut points = [Point { x: a, y: 1 }, Point { x: 2, y: a }];
    points[..1].copy_from_slice(&[Point { x: 5, y: 6 }]);
    mix(mix(h, lent_point(&points[0])), lent_point(&points[1]))
}

#[derive(Clone, Copy)]
pub struct Room {
    pub n: u64,
    pub many: [u64; 20],
}

#[derive(Clone, Copy)]
pub struct Rooms {
    pub first: Room,
    pub n: u8,
    pub second: Room,
    pub third: [Room; 2],
}

fn room_of(x: u64) -> Room {
    Room { n: x, many: [x; 20] }
}

fn room_changed(x: u64, y: u64) -> Room {
    let mut made = room_of(x);
    made.many[3] = y;
    made.n = mix(made.n, made.many[2]);
    made
}

fn room_of_two_ends(x: u64, y: u64) -> Room {
    let mut made = room_changed(x, y);
    if y < x {
        return made;
    }
    made.many[0] = mix(made.many[3], x);
    made
}

fn room_of_two(x: u64, y: u64) -> Room {
    let mut a = room_of(x);
    let mut b = room_of(y);
    a.many[1] = y;
    b.many[2] = x;
    if x < y {
        return a;
    }
    b.many[5] = a.many[1];
    b
}

fn room_of_branches(x: u64, y: u64) -> Room {
    let mut result;
    if x < y {
        result = room_of(x);
    } else if x == y {
        result = Room { n: 7, many: [y; 20] };
    } else {
        result = room_changed(y, x);
    }
    result.many[7] = mix(result.many[3], y);
    result
}

fn room_as_lent(from: &Room, x: u64) -> Room {
    if x == 5 {
        return *from;
    }
    let mut made = *from;
    made.many[19] = x;
    made
}

fn stepped(old: Room, x: u64) -> Room {
    let mut made = room_of(x);
    made.many[1] = mix(old.many[1], old.n);
    made.many[2] = mix(old.many[2], old.many[1]);
    made.n = mix(old.many[19], old.many[3]);
    made
}

fn stepped_lent(old: &Room, x: u64) -> Room {
    let mut made = room_of(x);
    made.many[1] = mix(old.many[1], old.n);
    made.many[2] = mix(old.many[2], old.many[1]);
    made.n = mix(old.many[19], old.many[3]);
    made
}

fn handed_on(old: &Room, x: u64) -> Room {
    stepped_lent(old, mix(x, 1))
}

fn filled_up(made: &mut Room, x: u64) {
    made.many[4] = x;
    made.many[5] = made.n;
}

fn room_lent_on(x: u64) -> Room {
    let mut made = room_of(x);
    filled_up(&mut made, mix(x, 2));
    let lent = &mut made;
    lent.many[6] = lent.many[4];
    made.many[7] = total_of(&made);
    made
}

fn room_counted(calls: &mut u64, x: u64) -> Room {
    *calls = mix(*calls, x);
    room_of(*calls)
}

fn total_of(made: &Room) -> u64 {
    let mut h = made.n;
    for x in &made.many {
        h = mix(h, *x);
    }
    h
}

pub fn large(a: u16, b: u16) -> u64 {
    let (x, y) = (a as u64, b as u64);
    let h = mix(total_of(&room_of(x)), total_of(&room_changed(x, y)));
    let h = mix(mix(h, total_of(&room_of_two_ends(x, y))), total_of(&room_of_two(x, y)));
    let h = mix(mix(h, total_of(&room_of_branches(x, y))), total_of(&room_lent_on(y)));
    let made = room_changed(y, x);
    let h = mix(mix(h, total_of(&handed_on(&made, x))), total_of(&stepped(made, y)));
    mix(mix(h, total_of(&room_as_lent(&made, x))), made.many[3])
}

fn rooms_of(x: u64, y: u64) -> Rooms {
    Rooms { first: room_changed(x, y), n: 3, second: room_of(y), third: [room_of_two(x, y), room_of_two(y, x)] }
}

fn rooms_changed(x: u64, y: u64) -> Rooms {
    let mut made = rooms_of(x, y);
    made.second = stepped(made.first, x);
    made.first = stepped_lent(&made.first, y);
    made.third[1] = room_changed(y, y);
    made.third[0] = stepped(made.third[1], x);
    made
}

fn room_or_none(x: u64, y: u64) -> Option<Room> {
    if x < y { None } else { Some(room_changed(x, y)) }
}

fn room_or_refusal(x: u64, y: u64) -> Result<Room, Refusal> {
    let made = room_or_none(x, y).ok_or(Refusal::Short)?;
    if made.n == 99 {
        return Err(Refusal::Bad(9));
    }
    Ok(stepped(made, y))
}

pub fn large_within(a: u16, b: u16) -> u64 {
    let (x, y) = (a as u64, b as u64);
    let made = rooms_changed(x, y);
    let h = mix(mix(total_of(&made.first), total_of(&made.second)), made.n as u64);
    let h = mix(mix(h, total_of(&made.third[0])), total_of(&made.third[1]));
    let many = [room_of(x), room_changed(x, y), room_or_none(y, x).unwrap_or(room_of(5))];
    let mut h = h;
    for one in &many {
        h = mix(h, total_of(one));
    }
    match room_or_refusal(x, y) {
        Ok(made) => mix(h, total_of(&made)),
        Err(Refusal::Short) => mix(h, 1),
        Err(Refusal::Bad(n)) => mix(h, n as u64),
    }
}

pub fn large_again(a: u16, b: u16) -> u64 {
    let (x, y) = (a as u64, b as u64);
    let mut made = room_changed(x, y);
    made = stepped(made, y);
    made = handed_on(&made, x);
    let seen = &made;
    made = stepped_lent(seen, y);
    let lent = &mut made;
    *lent = stepped(*lent, x);
    *lent = stepped_lent(lent, 3);
    let mut other = room_of(y);
    *lent = stepped(other, x);
    other = *lent;
    let mut h = total_of(lent);
    for i in 0..4u64 {
        other = stepped(other, i);
        let next = room_changed(i, other.n);
        h = mix(h, total_of(&next));
        if i == x {
            other = next;
        }
    }
    let mut calls = y;
    room_counted(&mut calls, x);
    let _ = room_counted(&mut calls, 9);
    made = room_counted(&mut calls, y);
    made.many[2] = room_counted(&mut made.many[3], y).n;
    let mut numbers = [x, y, 7];
    numbers = turned(numbers);
    let all = &mut numbers;
    *all = turned(*all);
    let three = &numbers;
    numbers = turned_lent(three);
    mix(mix(mix(h, calls), mix(total_of(&made), total_of(&other))), mix(numbers[0], mix(numbers[1], numbers[2])))
}

fn turned(old: [u64; 3]) -> [u64; 3] {
    [old[1], old[2], old[0]]
}

fn turned_lent(old: &[u64; 3]) -> [u64; 3] {
    let mut result = [old[2]; 3];
    result[1] = old[0];
    result[2] = mix(old[1], old[0]);
    result
}
"""


def files():
    """The two libraries' sources, by their paths in a repository."""
    return {"crates/pieces/src/lib.rt": PIECES, "crates/generics/src/lib.rt": GENERICS}


def calls():
    return [(name, "u64", types, rows) for name, types, rows in CALLED]
