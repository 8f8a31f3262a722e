//! The observables, at a time in the middle.
use crate::inputs::{matrix, numbers, source, Inputs};
use crate::measure::{Bench, Times};
use here::{Answer, Block, Shape};
use keldysh_green::{Complex64, TwoTimeMatrix};
use shared::parts;
use std::hint::black_box;

/// So large that no imaginary part is refused.
const TOLERANCE: f64 = 1000.0;

pub fn density_matrix(bench: &mut Bench, points: usize, orbitals: usize) -> Times {
    let inputs = Inputs::new(points, orbitals, [false]);
    let ([lesser], time) = (inputs.built(), points / 2);
    let here = |out: &mut Block| here::density_matrix(black_box(&inputs.functions[0]), Shape::of(points, orbitals), time, out);
    let port = || keldysh_green::density_matrix(black_box(&lesser), time);
    let mut out = Block::room();
    assert_eq!(here(&mut out).number, 0);
    bench.same(&out.values[..2 * orbitals * orbitals], &parts(&port().unwrap()));
    bench.measure(|| here(&mut out), port, || inputs.built())
}

pub fn particle_number(bench: &mut Bench, points: usize, orbitals: usize) -> Times {
    let time = points / 2;
    let here = |lesser: &[f64]| here::particle_number(lesser, Shape::of(points, orbitals), time, TOLERANCE);
    observable(bench, points, orbitals, here, |lesser| keldysh_green::particle_number(lesser, time, TOLERANCE))
}

pub fn one_body_expectation(bench: &mut Bench, points: usize, orbitals: usize) -> Times {
    let (time, xs) = (points / 2, numbers(&mut source(), orbitals));
    let (block, observed) = (Block::of(orbitals, orbitals, &xs), matrix(orbitals, &xs));
    let here = |lesser: &[f64]| here::one_body_expectation(lesser, Shape::of(points, orbitals), time, &block, TOLERANCE);
    observable(bench, points, orbitals, here, |lesser| keldysh_green::one_body_expectation(lesser, time, &observed, TOLERANCE))
}

pub fn bond_flow_into(bench: &mut Bench, points: usize, orbitals: usize) -> Times {
    let (time, a, b, [re, im], charge) = (points / 2, 0, orbitals - 1, [0.25, -0.75], 1.5);
    let here = |lesser: &[f64]| here::bond_flow_into(lesser, Shape::of(points, orbitals), time, a, b, [re, im], charge);
    observable(bench, points, orbitals, here, |lesser| keldysh_green::bond_flow_into(lesser, time, a, b, Complex64::new(re, im), charge))
}

/// An observable whose value is one number.
fn observable(
    bench: &mut Bench,
    points: usize,
    orbitals: usize,
    ours: impl Fn(&[f64]) -> Result<f64, Answer>,
    theirs: impl Fn(&TwoTimeMatrix) -> keldysh_green::Result<f64>,
) -> Times {
    let inputs = Inputs::new(points, orbitals, [false]);
    let [lesser] = inputs.built();
    let here = || ours(black_box(&inputs.functions[0]));
    let port = || theirs(black_box(&lesser));
    bench.same(&[here().unwrap()], &[port().unwrap()]);
    bench.measure(here, port, || inputs.built())
}
