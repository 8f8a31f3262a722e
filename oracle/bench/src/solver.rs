//! The convolutions, the support test, Dyson and the transient run.
use crate::inputs::Inputs;
use crate::measure::{Bench, Times};
use here::{Booking, Lent, Shape};
use keldysh_green::{RealTimeGrid, TwoTimeMatrix};
use shared::numbers;
use std::hint::black_box;

pub const TOLERANCE: f64 = 1e-12;

type Ours = fn(&[f64], &[f64], &[f64], usize, usize, &mut [f64]) -> here::Answer;
type Theirs = fn(&RealTimeGrid, &TwoTimeMatrix, &TwoTimeMatrix) -> keldysh_green::Result<TwoTimeMatrix>;

pub fn time_convolution(bench: &mut Bench, points: usize, orbitals: usize) -> Times {
    convolution(bench, Inputs::new(points, orbitals, [false; 2]), here::time_convolution, keldysh_green::time_convolution)
}

pub fn causal_volterra_convolution(bench: &mut Bench, points: usize, orbitals: usize) -> Times {
    let inputs = Inputs::new(points, orbitals, [true; 2]);
    convolution(bench, inputs, here::causal_volterra_convolution, keldysh_green::causal_volterra_convolution)
}

fn convolution(bench: &mut Bench, inputs: Inputs<2>, ours: Ours, theirs: Theirs) -> Times {
    let (grid, [left, right]) = (inputs.grid(), inputs.built());
    let here = |out: &mut [f64]| {
        let [left, right] = black_box(&inputs.functions);
        ours(&inputs.times, left, right, inputs.points, inputs.orbitals, out)
    };
    let port = || theirs(&grid, black_box(&left), &right);
    let mut out = inputs.room();
    assert_eq!(here(&mut out).number, 0);
    bench.same(&out, &numbers(&port().unwrap()));
    bench.measure(|| here(&mut out), port, || (inputs.grid(), inputs.built()))
}

pub fn check_retarded_support(bench: &mut Bench, points: usize, orbitals: usize) -> Times {
    support(bench, Inputs::new(points, orbitals, [true]))
}

/// The free function of dots without damping, whose entries differ in phase alone: no entry is much smaller than the largest.
pub fn support_of_phases(bench: &mut Bench, points: usize, orbitals: usize) -> Times {
    support(bench, Inputs::phases(points, orbitals))
}

/// No number is made.
fn support(bench: &mut Bench, inputs: Inputs<1>) -> Times {
    let [function] = inputs.built();
    let here = || here::check_retarded_support(black_box(&inputs.functions[0]), inputs.points, inputs.orbitals, TOLERANCE);
    let port = || keldysh_green::kept::check_retarded_support(black_box(&function), TOLERANCE);
    assert_eq!(here().number, 0);
    port().unwrap();
    bench.measure(here, port, || inputs.built())
}

/// G, and K, which the port does not give: there it is a convolution of its own.
pub fn retarded_dyson_with_tolerance(bench: &mut Bench, points: usize, orbitals: usize) -> Times {
    let inputs = Inputs::new(points, orbitals, [true; 2]);
    let (grid, [free, self_energy]) = (inputs.grid(), inputs.built());
    let here = |retarded: &mut [f64], kernel: &mut [f64]| {
        let [free, self_energy] = black_box(&inputs.functions);
        here::retarded_dyson_with_tolerance(&inputs.times, free, self_energy, points, orbitals, TOLERANCE, retarded, kernel)
    };
    let port = || keldysh_green::retarded_dyson_with_tolerance(&grid, black_box(&free), &self_energy, TOLERANCE);
    let (mut retarded, mut kernel) = (inputs.room(), inputs.room());
    assert_eq!(here(&mut retarded, &mut kernel).number, 0);
    bench.same(&retarded, &numbers(&port().unwrap()));
    bench.same(&kernel, &numbers(&keldysh_green::causal_volterra_convolution(&grid, &free, &self_energy).unwrap()));
    bench.measure(|| here(&mut retarded, &mut kernel), port, || (inputs.grid(), inputs.built()))
}

/// G^R, G^< and X, and K alike. The port has no transient run: there it is composed of its operations.
pub fn transient_run(bench: &mut Bench, points: usize, orbitals: usize) -> Times {
    let inputs = Inputs::new(points, orbitals, [true, true, false]);
    let (grid, [free, self_energy, lesser_self_energy]) = (inputs.grid(), inputs.built());
    let here = |out: &mut [Vec<f64>; 4]| {
        let operands = black_box(&inputs.functions).each_ref().map(|xs| &xs[..]);
        let lent = Lent { times: &inputs.times, operands, shape: Shape::of(points, orbitals), tolerance: TOLERANCE };
        here::transient_run(Booking { counters: &mut [0; 8], desk: 0 }, lent, out.each_mut().map(|xs| &mut xs[..]))
    };
    let port = || shared::transient_run(&grid, black_box(&free), &self_energy, &lesser_self_energy, TOLERANCE);
    let mut out = [(); 4].map(|()| inputs.room());
    assert_eq!(here(&mut out).number, 0);
    let made = port().unwrap();
    let kernel = keldysh_green::causal_volterra_convolution(&grid, &free, &self_energy).unwrap();
    for (out, made) in out.iter().zip([&made.retarded, &made.lesser, &kernel, &made.lesser_advanced]) {
        bench.same(out, &numbers(made));
    }
    drop(made);
    bench.measure(|| here(&mut out), port, || (inputs.grid(), inputs.built()))
}
