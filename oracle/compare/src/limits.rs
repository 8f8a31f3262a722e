//! Calls on one function of 256 times and 16 orbitals, 33,554,432 numbers.
use crate::calls::{Function, FUNCTIONS};
use crate::inputs::{wrapped, Takes};
use crate::sides::Outcome;
use crate::source::{Palette, Source};
use crate::Job;

const PART: &str = "limits";

const POINTS: usize = 256;
const ORBITALS: usize = 16;
const BLOCK: usize = 2 * ORBITALS * ORBITALS;

/// Zeros but for the last block and a few numbers on and below the diagonal.
fn numbers(source: &mut Source, length: usize) -> Vec<f64> {
    let mut xs = vec![0.0; length];
    for _ in 0..4096 {
        let (t, u) = (source.below(POINTS), source.below(POINTS));
        let at = (t.max(u) * POINTS + t.min(u)) * BLOCK + source.below(BLOCK);
        xs[at] = source.number(Palette::Ordinary);
    }
    let last = (POINTS * POINTS - 1) * BLOCK;
    xs[last..last + BLOCK - 1].copy_from_slice(&source.numbers(BLOCK - 1, Palette::Ordinary));
    xs
}

/// Exact, one short and one long; then, where there is a support, something at the last place above the diagonal.
const CALLS: [&str; 4] = ["exact length", "one short", "one long", "above the diagonal"];

fn call(seed: u64, f: &Function, index: usize) -> Outcome {
    let source = &mut Source::of(seed, [PART, f.name], index as u64);
    let mut call = source.plain_call(f, (2, ORBITALS), vec![0.0, 1.0]);
    let length = [0, -1, 1, 0][index] + wrapped(POINTS, ORBITALS) as isize;
    (call.points, call.time, call.tolerance) = (POINTS, POINTS - 1, 1.0 + ORBITALS as f64);
    call.operands[0] = numbers(source, length as usize);
    if index == 3 {
        call.operands[0][((POINTS - 2) * POINTS + POINTS - 1) * BLOCK] = 0.25;
        call.tolerance = 1e-12;
    }
    (f.compare)(&call).under(CALLS[index])
}

pub fn jobs(seed: u64) -> Vec<Job> {
    let one_operand = const { &FUNCTIONS }.iter().filter(|f| f.retarded.len() == 1);
    let calls = |f: &Function| if f.takes(Takes::Time) { 3 } else { 4 };
    one_operand.map(|f| Job::of(PART, f.name, calls(f), move |index| call(seed, f, index as usize))).collect()
}
