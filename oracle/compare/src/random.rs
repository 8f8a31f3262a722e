//! Random and adversarial inputs, with faults that are drawn each by itself.
use crate::blocks::OPERATIONS;
use crate::calls::FUNCTIONS;
use crate::inputs::faults;
use crate::others::{any_chain, any_identity, any_norm, any_residuals, any_scalar, any_zero};
use crate::sides::Outcome;
use crate::source::Source;
use crate::Job;

const PART: &str = "random";

/// Draws a call's inputs and calls both sides.
type Drawn = fn(&mut Source) -> Outcome;

const OTHERS: [(&str, Drawn); 6] = [
    ("norm", any_norm),
    ("block_from_scalar", any_scalar),
    ("block_zero", any_zero),
    ("block_identity", any_identity),
    ("is_consistent", any_residuals),
    ("product_chain", any_chain),
];

pub fn jobs(calls: u64, seed: u64) -> Vec<Job> {
    let mut jobs = Vec::new();
    for f in const { &FUNCTIONS } {
        jobs.push(Job::of(PART, f.name, calls, move |index| {
            let (call, count) = Source::of(seed, [PART, f.name], index).faulty_call(f);
            (f.compare)(&call).under(faults(count))
        }));
    }
    for f in const { &OPERATIONS } {
        jobs.push(Job::of(PART, f.name, calls, move |index| {
            let (call, count) = Source::of(seed, [PART, f.name], index).faulty_block_call(f);
            (f.compare)(&call).under(faults(count))
        }));
    }
    for (name, compare) in OTHERS {
        jobs.push(Job::of(PART, name, calls, move |index| compare(&mut Source::of(seed, [PART, name], index))));
    }
    jobs
}
