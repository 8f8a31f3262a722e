//! Overflow at each stage: numbers grow step by step until the port refuses by 10, and the call is counted under where it stops.
use crate::block_inputs::BlockCall;
use crate::blocks::{self, Operation};
use crate::calls::{self, Function};
use crate::inputs::{Call, Takes};
use crate::sides::Outcome;
use crate::source::{Palette, Source};
use crate::Job;
use judge::stages::{self, Stage};

const PART: &str = "stages";

/// Where the port's work stops, on one point too.
pub type Told = fn(&Call) -> Option<Stage>;

/// Which operands grow, from call to call.
type Patterns = &'static [&'static [usize]];

const PAIR: Patterns = &[&[0], &[1], &[0, 1]];
const RUN: Patterns = &[&[0], &[0], &[0], &[0], &[1], &[2], &[0, 1], &[0, 2], &[1, 2], &[0, 1, 2]];
const OCCUPIED: Patterns = &[&[0], &[0], &[1], &[2], &[3], &[3], &[0, 3], &[0, 3], &[2, 3], &[0, 1, 2, 3]];
const LANGRETH: Patterns = &[&[0, 4], &[4], &[1, 5], &[1], &[0], &[5], &[6], &[2], &[2, 6], &[7], &[3], &[3, 7], &[2, 3, 6, 7]];
const REPORT: Patterns = &[&[0], &[1], &[0, 1], &[2], &[3], &[2, 3], &[0, 1, 2, 3]];

const FUNCTIONS: [(&str, Patterns, Told); 7] = [
    ("time_convolution", PAIR, |call| stages::time_convolution(call.points, call.orbitals, &call.times, call.operands())),
    ("causal_volterra_convolution", PAIR, |call| {
        stages::causal_volterra_convolution(call.points, call.orbitals, &call.times, call.operands())
    }),
    ("retarded_dyson_with_tolerance", PAIR, |call| stages::retarded_dyson(call.points, call.orbitals, &call.times, call.operands())),
    ("transient_run", RUN, |call| stages::transient_run(call.points, call.orbitals, &call.times, call.operands())),
    ("transient_run_occupied", OCCUPIED, |call| {
        stages::transient_run_occupied(call.points, call.orbitals, &call.times, call.operands(), &call.block.lent())
    }),
    ("langreth_product", LANGRETH, |call| stages::langreth_product(call.points, call.orbitals, &call.times, call.operands())),
    ("consistency_report", REPORT, |call| stages::consistency_report(call.points, call.orbitals, call.operands())),
];

const OPERATIONS: [&str; 5] = ["block_multiply", "block_scale", "block_add", "block_subtract", "block_trace"];

/// Observables with a trace.
const OBSERVABLES: [&str; 2] = ["particle_number", "one_body_expectation"];

/// Where the port's work on a call of this function stops.
pub fn told(name: &str) -> Told {
    let found = FUNCTIONS.iter().find(|(f, ..)| *f == name);
    found.unwrap_or_else(|| panic!("no stages of {name}")).2
}

/// Steps in which a number grows to twice its size.
pub const STEPS: i32 = 64;

/// Steps after which numbers are the largest.
const MOST: i32 = 1200 * STEPS;

/// Multiplies numbers of at most a half by 2^exponent, where the exponent is counted in steps; the largest become the largest numbers.
pub fn grown(xs: &[f64], exponent: i32) -> Vec<f64> {
    let exponent = exponent.clamp(-1000 * STEPS, 1025 * STEPS);
    let (whole, rest) = (exponent.div_euclid(STEPS), 1.0 + f64::from(exponent.rem_euclid(STEPS)) / f64::from(STEPS));
    let (half, other) = (2f64.powi(whole / 2), 2f64.powi(whole - whole / 2));
    xs.iter().map(|x| (x * half * other * rest).clamp(f64::MIN, f64::MAX)).collect()
}

/// How numbers grow: their first exponent, and what is added to it at each step.
#[derive(Clone, Copy)]
struct Growth {
    first: i32,
    step: i32,
}

impl Growth {
    fn drawn(source: &mut Source, grows: bool) -> Self {
        let first = STEPS * source.pick(&[0, 1, 2, 2, -2, -8, 100, -100]);
        Self { first, step: if grows { 1 } else { source.pick(&[0, 0, 0, -1]) } }
    }

    fn at(self, steps: i32) -> i32 {
        self.first + self.step * steps
    }
}

/// The least number of steps up to so many that satisfies this, where more satisfy it too.
fn first(most: i32, satisfies: impl Fn(i32) -> bool) -> i32 {
    let (mut low, mut high) = (0, most);
    while low < high {
        let middle = (low + high) / 2;
        (low, high) = if satisfies(middle) { (low, middle) } else { (middle + 1, high) };
    }
    low
}

/// Mostly the same, else a step before or after.
fn near(source: &mut Source, steps: i32) -> i32 {
    steps + source.pick(&[0, 0, 0, 0, 1, STEPS, -1])
}

/// The first call that is refused, or the first that is refused in the same sum as one that has grown further: larger numbers overflow in an
/// earlier sum.
fn refused(source: &mut Source, stage: impl Fn(i32) -> Option<Stage>) -> i32 {
    let steps = first(MOST, |steps| stage(steps).is_some());
    if steps == MOST || source.one_in(2) {
        return steps;
    }
    let far = steps + source.below((MOST - steps) as usize) as i32;
    let made = |steps| stage(steps).map(|[made, _]| made);
    let earlier = made(far);
    first(far, |steps| made(steps) == earlier)
}

fn function(seed: u64, f: &Function, (patterns, told): (Patterns, Told), index: u64) -> Outcome {
    let source = &mut Source::of(seed, [PART, f.name], index);
    let (sizes, step) = (source.small_sizes(), source.pick(&[0.1, 1.0, 1.0, 1.5, 2.0, 8.0, 1e100]));
    let times = source.times_of_step(sizes.0, step);
    let plain = source.plain_call(f, sizes, times);
    let pattern = source.pick(patterns);
    // A block counts as one more operand.
    let inputs = plain.operands.len() + usize::from(f.takes(Takes::Block));
    let growths: Vec<_> = (0..inputs).map(|at| Growth::drawn(source, pattern.contains(&at))).collect();
    let call = |steps| {
        let operands = plain.operands.iter().zip(&growths).map(|(xs, growth)| grown(xs, growth.at(steps)));
        let mut call = Call { operands: operands.collect(), ..plain.clone() };
        if let Some(growth) = growths.get(plain.operands.len()) {
            call.block.numbers = grown(&plain.block.numbers, growth.at(steps));
        }
        call
    };
    let steps = refused(source, |steps| told(&call(steps)));
    let call = call(near(source, steps));
    let (stage, mut outcome) = (told(&call), (f.compare)(&call));
    outcome.unequal += usize::from(stage.is_some() != (outcome.number == 10 || outcome.listed.is_some()));
    let stage = stage.map_or("none".into(), |stage| stage.join(", "));
    outcome.under(format!("{}, {stage}", f.name))
}

/// The product of an expectation overflows on both sides; a trace that is not finite is a listed difference.
fn observable(seed: u64, f: &Function, index: u64) -> Outcome {
    let source = &mut Source::of(seed, [PART, f.name], index);
    let sizes = source.small_sizes();
    let mut plain = source.plain_call(f, sizes, vec![0.0; sizes.0]);
    plain.tolerance = 1e-12;
    calls::half_real(source, &mut plain);
    let growths = [Growth::drawn(source, true), Growth::drawn(source, true)];
    let call = |steps| {
        let mut call = Call { operands: vec![grown(&plain.operands[0], growths[0].at(steps))], ..plain.clone() };
        call.block.numbers = grown(&plain.block.numbers, growths[1].at(steps));
        call
    };
    let steps = first(MOST, |steps| (f.compare)(&call(steps)).number == 10);
    let outcome = (f.compare)(&call(near(source, steps)));
    let stage = match (outcome.number, outcome.listed) {
        (10, None) => "product",
        (10, Some(_)) => "trace",
        _ => "none",
    };
    outcome.under(format!("{}, {stage}", f.name))
}

fn operation(seed: u64, f: &Operation, index: u64) -> Outcome {
    let source = &mut Source::of(seed, [PART, f.name], index);
    let mut call = source.small_block_call(f);
    call.blocks.iter_mut().for_each(|x| x.numbers = source.numbers(x.numbers.len(), Palette::Ordinary));
    call.factor = [source.number(Palette::Ordinary), source.number(Palette::Ordinary)];
    let growths = [(); 3].map(|()| Growth::drawn(source, true));
    let grown_call = |steps| {
        let numbers = call.blocks.iter().zip(&growths).map(|(x, growth)| {
            let mut x = x.clone();
            x.numbers = grown(&x.numbers, growth.at(steps));
            x
        });
        let factor = grown(&call.factor, growths[2].at(steps));
        BlockCall { blocks: numbers.collect(), factor: [factor[0], factor[1]], ..call }
    };
    let steps = first(MOST, |steps| (f.compare)(&grown_call(steps)).number == 10);
    let outcome = (f.compare)(&grown_call(near(source, steps)));
    let label = if outcome.number == 10 { f.name.to_string() } else { format!("{}, none", f.name) };
    outcome.under(label)
}

pub fn jobs(calls: u64, seed: u64) -> Vec<Job> {
    let functions = FUNCTIONS.map(|(name, patterns, told)| {
        let f = calls::function(name);
        Job::of(PART, name, calls, move |index| function(seed, f, (patterns, told), index))
    });
    let operations = OPERATIONS.map(|name| {
        let f = blocks::operation(name);
        Job::of(PART, name, calls, move |index| operation(seed, f, index))
    });
    let observables = OBSERVABLES.map(|name| {
        let f = calls::function(name);
        Job::of(PART, name, calls, move |index| observable(seed, f, index))
    });
    functions.into_iter().chain(operations).chain(observables).collect()
}
