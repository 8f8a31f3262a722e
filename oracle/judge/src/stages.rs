//! Where the work of a call first makes a block that is not finite: in which function or sum, by which operation. The inputs are as lines 1
//! to 9 want them. The port does not say where it stops: its sums are done again.
use crate::lines::{functions, functions_of_times, matrix};
use crate::sums::{self, Made, OnePoint, Start, Work};
use crate::Block;
use keldysh_green::TwoTimeMatrix;

pub use crate::sums::{Stage, ONE_POINT};

/// Where sums of these operands stop.
fn told<const COUNT: usize, const MADE: usize>(
    points: usize,
    orbitals: usize,
    times: &[f64],
    operands: [&[f64]; COUNT],
    sums: fn(&Work, &[TwoTimeMatrix; COUNT]) -> Made<MADE>,
) -> Option<Stage> {
    let (grid, operands) = functions_of_times(points, orbitals, times, operands, &[]).expect("lines 1 to 7");
    sums(&Work { grid, one_point: OnePoint::Formed }, &operands).err()
}

pub fn time_convolution(points: usize, orbitals: usize, times: &[f64], operands: [&[f64]; 2]) -> Option<Stage> {
    told(points, orbitals, times, operands, Work::time_convolution)
}

pub fn causal_volterra_convolution(points: usize, orbitals: usize, times: &[f64], operands: [&[f64]; 2]) -> Option<Stage> {
    told(points, orbitals, times, operands, Work::causal_volterra_convolution)
}

pub fn retarded_dyson(points: usize, orbitals: usize, times: &[f64], operands: [&[f64]; 2]) -> Option<Stage> {
    told(points, orbitals, times, operands, Work::retarded_dyson)
}

pub fn transient_run(points: usize, orbitals: usize, times: &[f64], operands: [&[f64]; 3]) -> Option<Stage> {
    told(points, orbitals, times, operands, Work::transient_run)
}

/// The port has no run that starts from a block: of this one no product is on one point.
pub fn transient_run_occupied(points: usize, orbitals: usize, times: &[f64], operands: [&[f64]; 3], g0: &Block) -> Option<Stage> {
    let (grid, operands) = functions_of_times(points, orbitals, times, operands, &[]).expect("lines 1 to 7");
    let g0 = matrix(3, g0.rows, g0.columns, g0.entries()).expect("lines 1 to 7");
    Work { grid, one_point: OnePoint::LeftOut }.transient_run_from(Start::Occupied(&g0), &operands).err()
}

pub fn langreth_product(points: usize, orbitals: usize, times: &[f64], operands: [&[f64]; 8]) -> Option<Stage> {
    told(points, orbitals, times, operands, Work::langreth_product)
}

pub fn consistency_report(points: usize, orbitals: usize, components: [&[f64]; 4]) -> Option<Stage> {
    sums::consistency_report(&functions(points, orbitals, components).expect("lines 1 to 7")).err()
}
