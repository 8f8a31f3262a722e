//! The smallest inputs on which document 02 and the port part over an observable or a trace, with what is answered here, and beside each one
//! on which they do not. Two times; all numbers are +0 but for the diagonal of the density at time 0 and of the observable, or of the block.
use crate::block_inputs::{BlockCall, Numbers};
use crate::exhaustive::call_of;
use crate::inputs::wrapped;
use crate::sides::Outcome;
use crate::{blocks, calls, Job};
use judge::Listed::{self, BeforeTolerance, InfiniteTrace};

const PART: &str = "smallest";

/// 2^512, whose square overflows.
const ROOT: f64 = f64::from_bits((1023 + 512) << 52);

/// The number below 2^970, half of the largest number's last digit.
const BELOW_HALF: f64 = f64::from_bits(((1023 + 970) << 52) - 1);

struct Smallest {
    function: &'static str,
    /// The diagonal of the density, or of the block, by real and imaginary parts.
    diagonal: &'static [[f64; 2]],
    /// What the observable has on its diagonal, where there is one.
    observable: f64,
    time: usize,
    tolerance: f64,
    /// The refusal's number, 0 where there is none.
    number: u8,
    listed: Option<Listed>,
}

const NUMBER: Smallest = Smallest {
    function: "particle_number",
    diagonal: &[[0.0, 0.0]],
    observable: 0.0,
    time: 2,
    tolerance: 0.0,
    number: 8,
    listed: Some(BeforeTolerance(11)),
};
const EXPECTATION: Smallest = Smallest { function: "one_body_expectation", ..NUMBER };
const PRODUCT: Smallest =
    Smallest { diagonal: &[[ROOT, 0.0]], observable: ROOT, time: 0, listed: Some(BeforeTolerance(10)), ..EXPECTATION };

/// A trace that is not finite, and the port's answer to it.
const fn infinite(function: &'static str, diagonal: &'static [[f64; 2]], port: &'static str) -> Smallest {
    Smallest { function, diagonal, observable: 1.0, time: 0, tolerance: 0.5, number: 10, listed: Some(InfiniteTrace(port)) }
}

/// A trace that just is.
const fn finite(function: &'static str) -> Smallest {
    Smallest { number: 0, listed: None, ..infinite(function, &[[f64::MAX, 0.0], [BELOW_HALF, 0.0]], "") }
}

const REAL: &[[f64; 2]] = &[[f64::MAX, 0.0]; 2];
const IMAGINARY: &[[f64; 2]] = &[[0.0, f64::MAX]; 2];
/// The real part is infinite, and the imaginary part is above the tolerance.
const NOT_REAL: &[[f64; 2]] = &[[f64::MAX, 0.0], [f64::MAX, 1.0]];

const SMALLEST: [Smallest; 17] = [
    NUMBER,
    Smallest { tolerance: 5e-324, number: 11, listed: None, ..NUMBER },
    infinite("particle_number", REAL, "an infinite number"),
    infinite("particle_number", IMAGINARY, "14, imaginary part infinite"),
    infinite("particle_number", NOT_REAL, "14, real part infinite"),
    finite("particle_number"),
    EXPECTATION,
    Smallest { tolerance: 5e-324, number: 11, listed: None, ..EXPECTATION },
    PRODUCT,
    Smallest { tolerance: 5e-324, number: 10, listed: None, ..PRODUCT },
    infinite("one_body_expectation", REAL, "an infinite number"),
    infinite("one_body_expectation", IMAGINARY, "14, imaginary part infinite"),
    infinite("one_body_expectation", NOT_REAL, "14, real part infinite"),
    finite("one_body_expectation"),
    infinite("block_trace", REAL, "an infinite trace"),
    infinite("block_trace", IMAGINARY, "an infinite trace"),
    finite("block_trace"),
];

fn trace(x: &Smallest) -> Outcome {
    let n = x.diagonal.len();
    let mut numbers = vec![0.0; 2 * n * n];
    x.diagonal.iter().enumerate().for_each(|(a, parts)| numbers[2 * (a * n + a)..][..2].copy_from_slice(parts));
    let blocks = vec![Numbers { rows: n, columns: n, numbers }];
    (blocks::operation(x.function).compare)(&BlockCall { blocks, factor: [0.0; 2], row: 0, column: 0, tolerance: x.tolerance })
}

fn observable(x: &Smallest) -> Outcome {
    let (f, n) = (calls::function(x.function), x.diagonal.len());
    let (mut lesser, mut observable) = (vec![0.0; wrapped(2, n)], vec![0.0; 2 * n * n]);
    for (a, [re, im]) in x.diagonal.iter().enumerate() {
        let at = 2 * (a * n + a);
        // The density is -i times the lesser function.
        (lesser[at], lesser[at + 1]) = (-im, *re);
        observable[at] = x.observable;
    }
    let mut call = call_of(f, n, vec![lesser]);
    (call.block.numbers, call.time, call.tolerance) = (observable, x.time, x.tolerance);
    (f.compare)(&call)
}

fn call(x: &Smallest) -> Outcome {
    let mut outcome = if x.function == "block_trace" { trace(x) } else { observable(x) };
    outcome.unequal += usize::from((outcome.number, outcome.listed) != (x.number, x.listed));
    let listed = x.listed.map_or("as the port".into(), |listed| listed.to_string());
    outcome.under(format!("{}, {listed}", x.function))
}

pub fn jobs() -> Vec<Job> {
    let names = ["particle_number", "one_body_expectation", "block_trace"];
    let jobs = names.map(|name| {
        let inputs: Vec<_> = const { &SMALLEST }.iter().filter(|x| x.function == name).collect();
        Job::of(PART, name, inputs.len() as u64, move |index| call(inputs[index as usize]))
    });
    jobs.into()
}
