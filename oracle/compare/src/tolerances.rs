//! Tolerances at a residual, at the number below it and at the number above.
use crate::blocks;
use crate::calls::{self, Function};
use crate::inputs::Call;
use crate::others::is_consistent;
use crate::sides::Outcome;
use crate::source::Source;
use crate::Job;

const PART: &str = "tolerances";

/// A tolerance near a residual, and what the call is counted under.
type Step = (&'static str, fn(f64) -> f64);

const STEPS: [Step; 3] = [("below", f64::next_down), ("at", |x| x), ("above", f64::next_up)];

const MEASURED: [&str; 5] =
    ["check_retarded_support", "retarded_dyson_with_tolerance", "transient_run", "particle_number", "one_body_expectation"];

/// Puts numbers above the diagonal of operands that are to be retarded, as large as the largest or less.
fn raise(source: &mut Source, f: &Function, call: &mut Call) {
    let block = 2 * call.orbitals * call.orbitals;
    for (xs, _) in call.operands.iter_mut().zip(f.retarded).filter(|(_, retarded)| **retarded) {
        let largest = xs.iter().fold(0.0, |x: f64, y| x.max(y.abs()));
        for _ in 0..source.below(4) {
            let u = 1 + source.below(call.points - 1);
            let at = (source.below(u) * call.points + u) * block + source.below(block);
            xs[at] = largest * source.pick(&[1.0, 0.75, -0.5, 1e-3, 1e-12]);
        }
    }
}

/// The residual is what the port reports by 9 or 14 to the least tolerance, then to a residual that it reported, and so on.
fn measured(seed: u64, f: &Function, index: u64) -> Outcome {
    let (label, step) = STEPS[index as usize % STEPS.len()];
    let source = &mut Source::of(seed, [PART, f.name], index / STEPS.len() as u64);
    let mut call = source.small_call(f);
    raise(source, f, &mut call);
    call.tolerance = 5e-324;
    let mut outcome = (f.compare)(&call);
    if !matches!(outcome.number, 9 | 14) {
        return outcome.under(format!("{}, no residual", f.name));
    }
    for _ in 0..source.below(4) {
        call.tolerance = outcome.part.abs();
        let next = (f.compare)(&call).and(&outcome);
        outcome = if matches!(next.number, 9 | 14) { next } else { outcome };
    }
    call.tolerance = step(outcome.part.abs());
    (f.compare)(&call).and(&outcome).under(format!("{}, {label}", f.name))
}

fn decided(answer: judge::Answer<bool>) -> &'static str {
    match answer {
        Ok(true) => "yes",
        Ok(false) => "no",
        Err(_) => "refused",
    }
}

/// The tolerance times the largest part is near the largest difference.
fn hermitian(seed: u64, index: u64) -> Outcome {
    let f = blocks::operation("block_is_hermitian");
    let (label, step) = STEPS[index as usize % STEPS.len()];
    let mut call = Source::of(seed, [PART, f.name], index / STEPS.len() as u64).small_block_call(f);
    let (size, xs) = (call.blocks[0].rows, &call.blocks[0].numbers);
    let (at, largest) = (|a: usize, b: usize| 2 * (a * size + b), |x: f64, y: &f64| x.max(y.abs()));
    let off = (0..size * size).map(|p| (at(p / size, p % size), at(p % size, p / size)));
    let off = off.flat_map(|(p, q)| [xs[p] - xs[q], xs[p + 1] + xs[q + 1]]);
    call.tolerance = step(off.fold(0.0, |x, y| largest(x, &y)) / xs.iter().fold(0.0, largest));
    let yes = judge::is_hermitian(&call.blocks[0].lent(), call.tolerance);
    (f.compare)(&call).under(format!("{}, {label}: {}", f.name, decided(yes)))
}

fn consistent(seed: u64, index: u64) -> Outcome {
    let (label, step) = STEPS[index as usize % STEPS.len()];
    let source = &mut Source::of(seed, [PART, "is_consistent"], index / STEPS.len() as u64);
    let palette = source.palette();
    let x: [f64; 7] = std::array::from_fn(|_| source.number(palette).abs());
    let tolerance = step(x.into_iter().fold(0.0, f64::max));
    let yes = judge::is_consistent(&x, tolerance);
    is_consistent(x, tolerance).under(format!("is_consistent, {label}: {}", decided(yes.answer)))
}

pub fn jobs(calls: u64, seed: u64) -> Vec<Job> {
    let measured = MEASURED.map(|name| {
        let f = calls::function(name);
        Job::of(PART, name, calls, move |index| measured(seed, f, index))
    });
    let mut jobs = Vec::from(measured);
    jobs.push(Job::of(PART, "block_is_hermitian", calls, move |index| hermitian(seed, index)));
    jobs.push(Job::of(PART, "is_consistent", calls, move |index| consistent(seed, index)));
    jobs
}
