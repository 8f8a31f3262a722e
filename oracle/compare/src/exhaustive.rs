//! All calls whose numbers come from a few.
use crate::block_inputs::{BlockCall, Numbers};
use crate::blocks;
use crate::calls::{self, Function};
use crate::inputs::{Call, Desk};
use crate::others::{is_consistent, norm};
use crate::sides::Outcome;
use crate::source::SPECIAL;
use crate::Job;

const PART: &str = "exhaustive";

const ZEROS: [f64; 4] = [-0.0, 0.0, 1.0, 0.5];
const SIGNS: [f64; 8] = [-0.0, 0.0, 1.0, -1.0, 0.5, 5e-324, f64::MAX, -f64::MAX];
const TOLERANCES: [f64; 4] = [0.25, 0.5, 1.0, f64::NAN];
const RESIDUALS: [f64; 5] = [0.0, 0.5, 0.75, f64::INFINITY, f64::NAN];

/// The digits of an index, as numbers of a few.
struct Digits(u64);

impl Digits {
    fn next(&mut self, of: &[f64]) -> f64 {
        let digit = self.0 % of.len() as u64;
        self.0 /= of.len() as u64;
        of[digit as usize]
    }

    fn numbers(&mut self, count: usize, of: &[f64]) -> Vec<f64> {
        (0..count).map(|_| self.next(of)).collect()
    }
}

fn count(numbers: &[(usize, usize)]) -> u64 {
    numbers.iter().map(|&(digits, of)| (of as u64).pow(digits as u32)).product()
}

/// A call on two times with these operands.
pub fn call_of(f: &Function, orbitals: usize, operands: Vec<Vec<f64>>) -> Call {
    Call {
        points: 2,
        orbitals,
        times: vec![0.0, 1.0],
        made: vec![operands[0].len(); f.made],
        operands,
        tolerance: 0.5,
        time: 0,
        bond: [0; 2],
        hopping: [1.0, 0.0],
        charge: 1.0,
        block: Numbers { rows: orbitals, columns: orbitals, numbers: vec![1.0; 2 * orbitals * orbitals] },
        desk: Desk::FIRST,
    }
}

/// All eight numbers of a function of two times and one orbital.
fn eight(f: &'static Function) -> Job {
    Job::of(PART, f.name, count(&[(8, ZEROS.len())]), move |index| {
        let xs = Digits(index).numbers(8, &ZEROS);
        (f.compare)(&call_of(f, 1, vec![xs])).under(format!("{}, eight numbers of four", f.name))
    })
}

/// The eight numbers of the first block of two orbitals.
fn first_block(f: &'static Function) -> Job {
    Job::of(PART, f.name, count(&[(8, ZEROS.len())]), move |index| {
        let xs = [Digits(index).numbers(8, &ZEROS), vec![1.0; 24]].concat();
        (f.compare)(&call_of(f, 2, vec![xs])).under(format!("{}, a block's eight numbers of four", f.name))
    })
}

/// Both operands of two times and one orbital: -0 or 1, and above the diagonal a zero of either sign.
fn two_operands(f: &'static Function) -> Job {
    Job::of(PART, f.name, count(&[(16, 2)]), move |index| {
        let digits = &mut Digits(index);
        let operands = [(); 2].map(|()| (0..8).map(|at| digits.next(if at / 2 == 1 { &[-0.0, 0.0] } else { &[-0.0, 1.0] })).collect());
        (f.compare)(&call_of(f, 1, operands.into())).under(format!("{}, sixteen numbers of two", f.name))
    })
}

fn flow(index: u64) -> Outcome {
    let (f, digits) = (calls::function("bond_flow_into"), &mut Digits(index));
    let xs = [digits.numbers(2, &SIGNS), vec![1.0; 6]].concat();
    let mut call = call_of(f, 1, vec![xs]);
    (call.hopping, call.charge) = ([digits.next(&SIGNS), digits.next(&SIGNS)], digits.next(&SIGNS));
    (f.compare)(&call).under("bond_flow_into, five numbers of eight")
}

/// Free of leads: the first column of G^R and the block that the run starts from.
fn occupied(index: u64) -> Outcome {
    let (f, digits) = (calls::function("transient_run_occupied"), &mut Digits(index));
    let free = [digits.numbers(2, &SIGNS), vec![0.0; 2], digits.numbers(2, &SIGNS), vec![1.0, 0.0]].concat();
    let mut call = call_of(f, 1, vec![free, vec![0.0; 8], vec![0.0; 8]]);
    call.block.numbers = digits.numbers(2, &SIGNS);
    (f.compare)(&call).under("transient_run_occupied, six numbers of eight")
}

fn hermitian(index: u64) -> Outcome {
    let x = Numbers { rows: 2, columns: 2, numbers: Digits(index).numbers(8, &ZEROS) };
    let call = BlockCall { blocks: vec![x], factor: [1.0, 0.0], row: 0, column: 0, tolerance: 0.5 };
    (blocks::operation("block_is_hermitian").compare)(&call).under("block_is_hermitian, eight numbers of four")
}

fn product(index: u64) -> Outcome {
    let digits = &mut Digits(index);
    let blocks = [(); 2].map(|()| Numbers { rows: 1, columns: 1, numbers: digits.numbers(2, &SIGNS) });
    let call = BlockCall { blocks: blocks.into(), factor: [1.0, 0.0], row: 0, column: 0, tolerance: 0.5 };
    (blocks::operation("block_multiply").compare)(&call).under("block_multiply, four numbers of eight")
}

fn consistent(index: u64) -> Outcome {
    let digits = &mut Digits(index);
    let tolerance = digits.next(&TOLERANCES);
    is_consistent(std::array::from_fn(|_| digits.next(&RESIDUALS)), tolerance).under("is_consistent, seven numbers of five")
}

fn norm_of_two(index: u64) -> Outcome {
    let (digits, of) = (&mut Digits(index), [&SPECIAL[..], &SIGNS, &[f64::NAN, f64::INFINITY, f64::NEG_INFINITY]].concat());
    norm(digits.next(&of), digits.next(&of)).under("norm, two numbers of twenty-three")
}

pub fn jobs() -> Vec<Job> {
    let mut jobs = vec![
        eight(calls::function("check_retarded_support")),
        first_block(calls::function("particle_number")),
        two_operands(calls::function("causal_volterra_convolution")),
        two_operands(calls::function("time_convolution")),
        two_operands(calls::function("retarded_dyson_with_tolerance")),
    ];
    jobs.push(Job::of(PART, "bond_flow_into", count(&[(5, SIGNS.len())]), flow));
    jobs.push(Job::of(PART, "transient_run_occupied", count(&[(6, SIGNS.len())]), occupied));
    jobs.push(Job::of(PART, "block_is_hermitian", count(&[(8, ZEROS.len())]), hermitian));
    jobs.push(Job::of(PART, "block_multiply", count(&[(4, SIGNS.len())]), product));
    jobs.push(Job::of(PART, "is_consistent", count(&[(7, RESIDUALS.len()), (1, TOLERANCES.len())]), consistent));
    jobs.push(Job::of(PART, "norm", count(&[(2, 23)]), norm_of_two));
    jobs
}
