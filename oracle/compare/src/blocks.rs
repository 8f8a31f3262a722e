//! The operations on blocks: what each takes, ours and the port's.
use crate::block_inputs::BlockCall;
use crate::sides::{block_outcome, decided, judged, ours, outcome, Outcome};
use crate::source::Source;
use judge::Block;

/// What an operation takes besides its blocks.
#[derive(Clone, Copy, PartialEq)]
pub enum With {
    Nothing,
    /// A slice of numbers in place of a block.
    Length,
    Factor,
    Tolerance,
    Index,
}

pub struct Operation {
    pub name: &'static str,
    /// How many sides its blocks have in all, and the shapes that these give.
    pub sides: usize,
    pub shapes: fn([usize; 3]) -> Vec<[usize; 2]>,
    pub with: With,
    /// What some calls without a fault are to satisfy.
    pub arrange: fn(&mut Source, &mut BlockCall),
    pub compare: fn(&BlockCall) -> Outcome,
}

const fn on_one(name: &'static str, with: With, compare: fn(&BlockCall) -> Outcome) -> Operation {
    Operation { name, sides: 2, shapes: |[rows, columns, _]| vec![[rows, columns]], with, arrange: as_drawn, compare }
}

const fn on_square(name: &'static str, with: With, compare: fn(&BlockCall) -> Outcome) -> Operation {
    Operation { sides: 1, shapes: |[size, _, _]| vec![[size; 2]], ..on_one(name, with, compare) }
}

const fn on_two(name: &'static str, compare: fn(&BlockCall) -> Outcome) -> Operation {
    Operation { shapes: |[rows, columns, _]| vec![[rows, columns]; 2], ..on_one(name, With::Nothing, compare) }
}

pub const OPERATIONS: [Operation; 10] = [
    on_one("block_from_numbers", With::Length, from_numbers),
    on_one("block_adjoint", With::Nothing, adjoint),
    on_one("block_scale", With::Factor, scale),
    Operation {
        sides: 3,
        shapes: |[rows, inner, columns]| vec![[rows, inner], [inner, columns]],
        ..on_two("block_multiply", |call| pair(call, here::block_multiply, judge::multiply))
    },
    on_two("block_add", |call| pair(call, here::block_add, judge::add)),
    on_two("block_subtract", |call| pair(call, here::block_subtract, judge::subtract)),
    on_square("block_trace", With::Nothing, trace),
    on_one("block_get", With::Index, get),
    on_two("block_max_difference", max_difference),
    Operation { arrange: nearly_hermitian, ..on_square("block_is_hermitian", With::Tolerance, is_hermitian) },
];

/// The operation of this name.
pub fn operation(name: &str) -> &'static Operation {
    const { &OPERATIONS }.iter().find(|f| f.name == name).unwrap_or_else(|| panic!("no operation {name}"))
}

fn as_drawn(_: &mut Source, _: &mut BlockCall) {}

/// Half of the square blocks are Hermitian, half of those but for one part that is off by some power of two of the largest.
fn nearly_hermitian(source: &mut Source, call: &mut BlockCall) {
    let x = &mut call.blocks[0];
    let size = x.rows;
    if size != x.columns || size > 16 || size == 0 || source.one_in(2) {
        return;
    }
    let at = |a: usize, b: usize| 2 * (a * size + b);
    for (a, b) in (0..size * size).map(|p| (p / size, p % size)).filter(|(a, b)| a <= b) {
        let (re, im) = (x.numbers[at(a, b)], if a == b { 0.0 } else { x.numbers[at(a, b) + 1] });
        (x.numbers[at(a, b) + 1], x.numbers[at(b, a)], x.numbers[at(b, a) + 1]) = (im, re, -im);
    }
    if source.one_in(2) {
        let largest = x.numbers.iter().fold(0.0, |largest: f64, x| largest.max(x.abs()));
        let place = source.below(x.numbers.len());
        let off = x.numbers[place] + largest * source.pick(&[1.0, 0.5, 0.25, 1e-12, 1e-13, f64::EPSILON]);
        x.numbers[place] = if off.is_finite() { off } else { 0.0 };
    }
}

fn from_numbers(call: &BlockCall) -> Outcome {
    let x = &call.blocks[0];
    let made = |out: &mut here::Block| here::block_from_numbers(x.rows, x.columns, &x.numbers, out);
    block_outcome(made, judge::from_numbers(x.rows, x.columns, &x.numbers))
}

fn adjoint(call: &BlockCall) -> Outcome {
    let [x] = call.lent();
    block_outcome(|out| here::block_adjoint(&ours(&x), out), judge::adjoint(&x))
}

fn scale(call: &BlockCall) -> Outcome {
    let [x] = call.lent();
    block_outcome(|out| here::block_scale(&ours(&x), call.factor, out), judge::scale(&x, call.factor))
}

type Ours = fn(&here::Block, &here::Block, &mut here::Block) -> here::Answer;
type Theirs = fn(&Block, &Block) -> judge::Answer<Block>;

fn pair(call: &BlockCall, here: Ours, theirs: Theirs) -> Outcome {
    let [x, y] = call.lent();
    block_outcome(|out| here(&ours(&x), &ours(&y), out), theirs(&x, &y))
}

fn trace(call: &BlockCall) -> Outcome {
    let [x] = call.lent();
    judged(here::block_trace(&ours(&x)), judge::trace(&x), |z| z.to_vec())
}

fn get(call: &BlockCall) -> Outcome {
    let ([x], row, column) = (call.lent(), call.row, call.column);
    outcome(here::block_get(&ours(&x), row, column), judge::get(&x, row, column), |z| z.to_vec())
}

fn max_difference(call: &BlockCall) -> Outcome {
    let [x, y] = call.lent();
    outcome(here::block_max_difference(&ours(&x), &ours(&y)), judge::max_difference(&x, &y), |x| vec![x])
}

fn is_hermitian(call: &BlockCall) -> Outcome {
    let [x] = call.lent();
    outcome(here::block_is_hermitian(&ours(&x), call.tolerance), judge::is_hermitian(&x, call.tolerance), decided)
}
