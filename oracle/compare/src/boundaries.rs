//! Sizes around every limit, with slices of the exact lengths and with each slice one short, one long and empty.
use crate::blocks::{Operation, With, OPERATIONS};
use crate::calls::{Function, FUNCTIONS};
use crate::inputs::{wrapped, Call};
use crate::others::{identity, product_chain, zero};
use crate::sides::Outcome;
use crate::source::{Palette, Source};
use crate::Job;

const PART: &str = "boundaries";

/// The long calls come first.
const POINTS: [usize; 9] = [256, 255, 0, 1, 2, 3, 16, 257, usize::MAX];
const ORBITALS: [usize; 7] = [1, 0, 2, 15, 16, 17, usize::MAX];
const SIDES: [usize; 5] = [0, 1, 16, 17, usize::MAX];

/// The length up to which slices of the exact length are lent here: N = 256 with n = 1, N = 16 with n = 16.
const LENGTH: usize = 140_000;

/// How a slice's length is changed, and what the call is counted under.
type Change = (&'static str, fn(usize) -> usize);

const EXACT: Change = ("exact lengths", |length| length);
const CHANGES: [Change; 3] = [("one short", |length| length.saturating_sub(1)), ("one long", |length| length + 1), ("empty", |_| 0)];

/// Takes a digit off an index.
fn digit(index: &mut u64, count: usize) -> usize {
    let digit = *index % count as u64;
    *index /= count as u64;
    digit as usize
}

/// A call of these sizes without another fault, and whether its lengths are exact.
fn sized(source: &mut Source, f: &Function, points: usize, orbitals: usize) -> (Call, bool) {
    let (length, within) = (wrapped(points, orbitals), (2..=256).contains(&points) && (1..=16).contains(&orbitals));
    let sizes = if within && length <= LENGTH { (points, orbitals) } else { (2, 1) };
    let times = source.times_of_step(sizes.0, 0.1);
    let mut call = source.plain_call(f, sizes, times);
    (call.points, call.orbitals) = (points, orbitals);
    if length <= LENGTH {
        call.resize_all(f, points.min(512), length);
    }
    (call, length <= LENGTH && points.max(orbitals) < usize::MAX)
}

/// All sizes with the lengths as they are, then with one slice after another changed.
fn function(seed: u64, f: &Function, mut index: u64) -> Outcome {
    let source = &mut Source::of(seed, [PART, f.name], index);
    let (points, orbitals) = (POINTS[digit(&mut index, POINTS.len())], ORBITALS[digit(&mut index, ORBITALS.len())]);
    let (mut call, exact) = sized(source, f, points, orbitals);
    let Some(mut change) = index.checked_sub(1) else {
        return (f.compare)(&call).under(if exact { EXACT.0 } else { "other lengths" });
    };
    let (label, length) = CHANGES[digit(&mut change, CHANGES.len())];
    call.resize(f, change as usize, length);
    (f.compare)(&call).under(label)
}

/// All shapes of all blocks.
fn operation(seed: u64, f: &Operation, mut index: u64) -> Outcome {
    let source = &mut Source::of(seed, [PART, f.name], index);
    let shapes: Vec<[usize; 2]> = (f.shapes)([1; 3]).iter().map(|_| [(); 2].map(|()| SIDES[digit(&mut index, SIDES.len())])).collect();
    let mut call = source.block_call(f, &shapes, Palette::Ordinary);
    let Some(change) = index.checked_sub(1) else {
        return (f.compare)(&call).under(EXACT.0);
    };
    let (label, length) = CHANGES[change as usize];
    let numbers = &mut call.blocks[0].numbers;
    numbers.resize(length(numbers.len()), 1.0);
    (f.compare)(&call).under(label)
}

/// All sizes, with the lengths of two blocks.
fn chain(seed: u64, mut index: u64) -> Outcome {
    let source = &mut Source::of(seed, [PART, "product_chain"], index);
    let size = SIDES[digit(&mut index, SIDES.len())];
    let [a, b] = [(); 2].map(|()| {
        let mut numbers = source.block_numbers([size; 2], Palette::Ordinary).numbers;
        let (label, length) = [&[EXACT], &CHANGES[..]].concat()[digit(&mut index, 1 + CHANGES.len())];
        numbers.resize(length(numbers.len()), 1.0);
        (label, numbers)
    });
    let label = if a.0 == EXACT.0 { b.0 } else { a.0 };
    product_chain(&a.1, &b.1, size, 2).under(label)
}

pub fn jobs(seed: u64) -> Vec<Job> {
    let mut jobs = Vec::new();
    for f in const { &FUNCTIONS } {
        let count = POINTS.len() * ORBITALS.len() * (1 + CHANGES.len() * f.slices());
        jobs.push(Job::of(PART, f.name, count as u64, move |index| function(seed, f, index)));
    }
    for f in const { &OPERATIONS } {
        let shapes = SIDES.len().pow(2 * (f.shapes)([1; 3]).len() as u32);
        let count = if f.with == With::Length { shapes * (1 + CHANGES.len()) } else { shapes };
        jobs.push(Job::of(PART, f.name, count as u64, move |index| operation(seed, f, index)));
    }
    for (name, call) in [("block_zero", zero as fn(usize) -> Outcome), ("block_identity", identity)] {
        jobs.push(Job::of(PART, name, SIDES.len() as u64, move |index| call(SIDES[index as usize]).under(EXACT.0)));
    }
    jobs.push(Job::of(PART, "product_chain", (SIDES.len() * (1 + CHANGES.len()).pow(2)) as u64, move |index| chain(seed, index)));
    jobs
}
