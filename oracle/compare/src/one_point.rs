//! Products on one point that overflow, which the port forms and document 02 leaves out, and products on two points whose half step is 0, which
//! both form. In each sum, with numbers that are drawn.
use crate::calls::{self, Function};
use crate::inputs::Call;
use crate::sides::Outcome;
use crate::source::Source;
use crate::stages::{grown, STEPS};
use crate::Job;
use std::collections::BTreeMap;

const PART: &str = "one point";

/// A block of a call: operand, row, column.
type Place = [usize; 3];

/// Functions with sums over one point.
pub const FUNCTIONS: [&str; 4] = ["causal_volterra_convolution", "retarded_dyson_with_tolerance", "transient_run", "langreth_product"];

/// A sum of a function, and for a time the blocks whose product in it is to overflow: two that grow, and one that is never emptied.
struct Sum {
    function: &'static str,
    name: &'static str,
    /// On one point, from the first time that has a product of numbers there.
    one: fn(usize) -> [Place; 3],
    first: usize,
    /// On the points 0 and 1, for a time past them.
    two: fn(usize) -> [Place; 3],
}

const SUMS: [Sum; 7] = [
    Sum { function: "causal_volterra_convolution", name: "sum", one: |t| diagonal([0, 1], t), first: 0, two: |_| below([0, 1]) },
    Sum { function: "retarded_dyson_with_tolerance", name: "K", one: |t| diagonal([0, 1], t), first: 0, two: |_| below([0, 1]) },
    Sum { function: "transient_run", name: "K", one: |t| diagonal([0, 1], t), first: 0, two: |_| below([0, 1]) },
    Sum { function: "transient_run", name: "X", one: |t| [[0, 0, 0], [2, t, 0], [0, 0, 0]], first: 0, two: |_| below([0, 2]) },
    Sum {
        function: "transient_run",
        name: "G^<",
        one: |t| [[0, 0, 0], [2, 0, t], [0, t, t]],
        first: 1,
        two: |t| [[0, 1, 0], [2, 0, t], [0, t, t]],
    },
    Sum { function: "langreth_product", name: "retarded", one: |t| diagonal([0, 4], t), first: 0, two: |_| below([0, 4]) },
    Sum {
        function: "langreth_product",
        name: "advanced",
        one: |t| diagonal([1, 5], t),
        first: 0,
        two: |_| [[1, 0, 0], [5, 0, 1], [1, 0, 0]],
    },
];

const fn diagonal([left, right]: [usize; 2], t: usize) -> [Place; 3] {
    [[left, t, t], [right, t, t], [left, t, t]]
}

const fn below([left, right]: [usize; 2]) -> [Place; 3] {
    [[left, 1, 0], [right, 0, 0], [left, 1, 0]]
}

/// Exponents of the first block; that of the second makes their product overflow, or just not.
const EXPONENTS: [i32; 5] = [64, 200, 512, 800, 960];

/// A call in which such products overflow, and whether they are on two points.
fn drawn(source: &mut Source, f: &Function, sum: &Sum) -> (Call, bool) {
    let (two, (points, orbitals)) = (source.one_in(4), source.small_sizes());
    let points = if two { points.max(3) } else { points };
    let times = if two {
        (0..points).map(|t| if t == 1 { 5e-324 } else { t as f64 }).collect()
    } else {
        let step = source.pick(&[0.1, 1.0, 1.0, 8.0, 5e-324]);
        source.times_of_step(points, step)
    };
    let mut call = source.plain_call(f, (points, orbitals), times);
    let (blocks, first) = if two { (sum.two, 2) } else { (sum.one, sum.first) };
    let places: Vec<_> = (0..1 + source.below(2)).map(|_| blocks(first + source.below(points - first))).collect();
    let (size, emptied) = (2 * orbitals * orbitals, source.pick(&[0, 3, 4]));
    for (operand, xs) in call.operands.iter_mut().enumerate() {
        for (at, block) in xs.chunks_mut(size).enumerate() {
            let place = [operand, at / points, at % points];
            if !places.iter().flatten().any(|x| *x == place) && source.below(4) < emptied {
                block.fill(0.0);
            }
        }
    }
    let (exponent, product) = (source.pick(&EXPONENTS), 1022 + source.below(48) as i32);
    let large: BTreeMap<_, _> = places.iter().flat_map(|[left, right, _]| [(left, exponent), (right, product - exponent)]).collect();
    for ([operand, t, u], exponent) in large {
        let at = (t * points + u) * size;
        let block = &mut call.operands[*operand][at..at + size];
        block.copy_from_slice(&grown(block, STEPS * exponent));
    }
    (call, two)
}

fn call(seed: u64, f: &Function, sum: &Sum, index: u64) -> Outcome {
    let label = format!("{}, {}", f.name, sum.name);
    let (call, two) = drawn(&mut Source::of(seed, [PART, &label], index), f, sum);
    (f.compare)(&call).under(format!("{label}, {}", if two { "two points, half step 0" } else { "one point" }))
}

fn sums_of(name: &str) -> Vec<&'static Sum> {
    const { &SUMS }.iter().filter(|sum| sum.function == name).collect()
}

/// A run's call in which such products overflow.
pub fn run(source: &mut Source) -> Call {
    let sum = source.pick(&sums_of("transient_run"));
    drawn(source, calls::function("transient_run"), sum).0
}

pub fn jobs(calls: u64, seed: u64) -> Vec<Job> {
    let jobs = FUNCTIONS.map(|name| {
        let (f, sums) = (calls::function(name), sums_of(name));
        let count = sums.len() as u64;
        Job::of(PART, name, calls * count, move |index| call(seed, f, sums[(index % count) as usize], index / count))
    });
    jobs.into()
}
