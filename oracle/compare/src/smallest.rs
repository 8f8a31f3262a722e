//! The smallest inputs on which the port refuses by 10 on one point, with what is left here, and beside each the smallest on which both refuse
//! on two points whose half step is 0. One orbital; all numbers are +0 but for a few real parts.
use crate::calls::{self, Function};
use crate::exhaustive::call_of;
use crate::inputs::{wrapped, Call};
use crate::one_point::FUNCTIONS;
use crate::sides::{same, Outcome};
use crate::stages;
use crate::Job;
use judge::{stages::ONE_POINT, Listed};

const PART: &str = "smallest";

/// 2^512, whose square overflows.
const ROOT: f64 = f64::from_bits((1023 + 512) << 52);

/// The real part of a block: slice, row, column.
type Real = (usize, usize, usize, f64);

struct Smallest {
    function: &'static str,
    sum: &'static str,
    /// On times 0 and 1: what is lent, and what the call leaves.
    one: &'static [Real],
    left: &'static [Real],
    /// Times whose first half step is 0, and what is lent on them.
    times: &'static [f64],
    two: &'static [Real],
}

const NO_STEP: &[f64] = &[0.0, 5e-324];
const FIRST: &[Real] = &[(0, 0, 0, ROOT)];
const PAIR: &[Real] = &[(0, 0, 0, ROOT), (1, 0, 0, ROOT)];
const BELOW: &[Real] = &[(0, 1, 0, ROOT), (1, 0, 0, ROOT)];

const SMALLEST: [Smallest; 7] = [
    Smallest { function: "causal_volterra_convolution", sum: "sum", one: PAIR, left: &[], times: NO_STEP, two: BELOW },
    Smallest { function: "retarded_dyson_with_tolerance", sum: "K", one: PAIR, left: FIRST, times: NO_STEP, two: BELOW },
    Smallest { function: "transient_run", sum: "K", one: PAIR, left: FIRST, times: NO_STEP, two: BELOW },
    Smallest {
        function: "transient_run",
        sum: "X",
        one: &[(0, 0, 0, ROOT), (2, 0, 0, ROOT)],
        left: FIRST,
        times: NO_STEP,
        two: &[(0, 1, 0, ROOT), (2, 0, 0, ROOT)],
    },
    Smallest {
        function: "transient_run",
        sum: "G^<",
        one: &[(0, 0, 0, ROOT), (0, 1, 1, 2.0), (2, 0, 1, ROOT)],
        left: &[(0, 0, 0, ROOT), (0, 1, 1, 2.0), (3, 0, 1, ROOT)],
        times: &[0.0, 5e-324, 1.0],
        two: &[(0, 1, 0, ROOT), (0, 2, 2, 2.0), (2, 0, 2, ROOT)],
    },
    Smallest {
        function: "langreth_product",
        sum: "retarded",
        one: &[(0, 0, 0, ROOT), (4, 0, 0, ROOT)],
        left: &[],
        times: NO_STEP,
        two: &[(0, 1, 0, ROOT), (4, 0, 0, ROOT)],
    },
    Smallest {
        function: "langreth_product",
        sum: "advanced",
        one: &[(1, 0, 0, ROOT), (5, 0, 0, ROOT)],
        left: &[],
        times: NO_STEP,
        two: &[(1, 0, 0, ROOT), (5, 0, 1, ROOT)],
    },
];

/// So many functions of one orbital with these real parts.
fn functions(points: usize, count: usize, parts: &[Real]) -> Vec<Vec<f64>> {
    let mut functions = vec![vec![0.0; wrapped(points, 1)]; count];
    parts.iter().for_each(|&(slice, t, u, x)| functions[slice][2 * (t * points + u)] = x);
    functions
}

/// What the judge has a call leave.
fn left(f: &Function, call: &Call) -> judge::Answer<Vec<Vec<f64>>> {
    let (points, times, tolerance) = (call.points, &call.times, call.tolerance);
    match f.name {
        "causal_volterra_convolution" => {
            judge::causal_volterra_convolution(points, 1, times, call.operands(), call.made()).answer.map(Vec::from)
        }
        "retarded_dyson_with_tolerance" => {
            judge::retarded_dyson_with_tolerance(points, 1, times, call.operands(), tolerance, call.made()).answer.map(Vec::from)
        }
        "transient_run" => judge::transient_run(points, 1, times, call.operands(), tolerance, call.made()).answer.map(Vec::from),
        "langreth_product" => judge::langreth_product(points, 1, times, call.operands(), call.made()).answer.map(Vec::from),
        name => panic!("no smallest input of {name}"),
    }
}

/// A call on these times, and where the port is to stop. It is accepted if that is on one point, and then leaves what is told.
fn call(x: &Smallest, times: &[f64], lent: &[Real], operation: &'static str) -> Outcome {
    let (f, points) = (calls::function(x.function), times.len());
    let operands = functions(points, f.retarded.len(), lent);
    let call = Call { points, times: times.to_vec(), ..call_of(f, 1, operands) };
    let one_point = (operation == ONE_POINT).then_some(Listed::OnePoint(x.sum));
    let as_told = match left(f, &call) {
        Ok(left) => {
            let told = functions(points, f.made, x.left);
            one_point.is_some() && left.iter().flatten().zip(told.iter().flatten()).all(|(x, y)| same(*x, *y))
        }
        Err(refused) => one_point.is_none() && refused.number == 10,
    };
    let mut outcome = (f.compare)(&call);
    let stops = stages::told(f.name)(&call) == Some([x.sum, operation]) && outcome.listed == one_point;
    outcome.unequal += usize::from(!as_told) + usize::from(!stops);
    outcome.under(format!("{}, {}, {operation}", f.name, x.sum))
}

pub fn jobs() -> Vec<Job> {
    let jobs = FUNCTIONS.map(|name| {
        let inputs: Vec<_> = const { &SMALLEST }.iter().filter(|x| x.function == name).collect();
        Job::of(PART, name, 2 * inputs.len() as u64, move |index| match (inputs[index as usize / 2], index % 2) {
            (x, 0) => call(x, &[0.0, 1.0], x.one, ONE_POINT),
            (x, _) => call(x, x.times, x.two, "product"),
        })
    });
    jobs.into()
}
