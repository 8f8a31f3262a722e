//! The norm beside the platform's hypot, by kinds of parts.
use crate::inputs::source;
use crate::measure::{calls, unequal, Bench};
use keldysh_green::Complex64;
use shared::Xorshift;
use std::hint::black_box;

pub const COUNT: usize = 4096;

/// The least times of a call, in nanoseconds, and how many of COUNT norms differ in bits: hypot is not correctly rounded.
pub struct Kind {
    pub name: &'static str,
    pub here: f64,
    pub port: f64,
    pub differ: usize,
}

/// The exponent's field of one part, then the lowest of the other, and how many from there.
const KINDS: [(&str, u64, u64, u64); 5] = [
    ("equal size", 1023, 1023, 1),
    ("within 2^8", 1023, 1015, 9),
    ("2^9 to 2^26 apart", 1023, 997, 18),
    ("very different size", 1023, 90, 900),
    ("subnormal parts", 0, 0, 1),
];

pub fn kinds(bench: &Bench) -> Vec<Kind> {
    let mut source = source();
    let mut kinds: Vec<_> = KINDS.iter().map(|&(name, of, from, count)| (name, pairs(&mut source, of, from, count))).collect();
    kinds.push(("one part zero", pairs(&mut source, 1023, 1023, 1).into_iter().map(|(x, _)| (x, 0.0)).collect()));
    kinds.into_iter().map(|(name, parts)| kind(bench, name, &parts)).collect()
}

fn pairs(source: &mut Xorshift, of: u64, from: u64, count: u64) -> Vec<(f64, f64)> {
    let mut pair = || {
        let field = from + source.bits() % count;
        (with_field(source, of), with_field(source, field))
    };
    (0..COUNT).map(|_| pair()).collect()
}

/// A number with this exponent's field, either sign.
fn with_field(source: &mut Xorshift, field: u64) -> f64 {
    f64::from_bits(source.bits() & 0x800f_ffff_ffff_ffff | field << 52)
}

fn hypot(re: f64, im: f64) -> f64 {
    Complex64::new(re, im).norm()
}

fn kind(bench: &Bench, name: &'static str, parts: &[(f64, f64)]) -> Kind {
    let differ = unequal(&all(parts, here::norm), &all(parts, hypot));
    let [here, port] = bench.least([&mut calls(|| each(parts, here::norm)), &mut calls(|| each(parts, hypot))]);
    Kind { name, here: here / COUNT as f64, port: port / COUNT as f64, differ }
}

fn all(parts: &[(f64, f64)], norm: impl Fn(f64, f64) -> f64) -> Vec<f64> {
    parts.iter().map(|&(re, im)| norm(re, im)).collect()
}

fn each(parts: &[(f64, f64)], norm: impl Fn(f64, f64) -> f64) {
    for &(re, im) in parts {
        black_box(norm(black_box(re), black_box(im)));
    }
}
