//! The consistency report and the Langreth product.
use crate::inputs::Inputs;
use crate::measure::{Bench, Times};
use keldysh_green::{KeldyshGreen, RealTimeGrid, TwoTimeMatrix};
use shared::{numbers, residuals};
use std::hint::black_box;

/// Retarded, advanced, lesser, greater. None of the report's identities holds but retarded support.
const COMPONENTS: [bool; 4] = [true, false, false, false];

fn green(grid: RealTimeGrid, [retarded, advanced, lesser, greater]: [TwoTimeMatrix; 4]) -> KeldyshGreen {
    KeldyshGreen::try_new(grid, retarded, advanced, lesser, greater).unwrap()
}

pub fn consistency_report(bench: &mut Bench, points: usize, orbitals: usize) -> Times {
    let inputs = Inputs::new(points, orbitals, COMPONENTS);
    let build = || green(inputs.grid(), inputs.built());
    let green = build();
    let here = || here::consistency_report(black_box(&inputs.functions).each_ref().map(|xs| &xs[..]), points, orbitals);
    let port = || black_box(&green).consistency_report();
    // The port has no seventh residual.
    bench.residuals(&here().unwrap()[..6], &residuals(&port().unwrap()));
    bench.measure(here, port, build)
}

pub fn langreth_product(bench: &mut Bench, points: usize, orbitals: usize) -> Times {
    let [r, a, l, g] = COMPONENTS;
    let inputs = Inputs::new(points, orbitals, [r, a, l, g, r, a, l, g]);
    let build = || {
        let [r, a, l, g, s, b, m, h] = inputs.built();
        [green(inputs.grid(), [r, a, l, g]), green(inputs.grid(), [s, b, m, h])]
    };
    let [left, right] = build();
    let here = |out: &mut [Vec<f64>; 4]| {
        let [r, a, l, g, s, b, m, h] = black_box(&inputs.functions);
        let out = out.each_mut().map(|out| &mut out[..]);
        here::langreth_product(&inputs.times, [r, a, l, g], [s, b, m, h], points, orbitals, out)
    };
    let port = || keldysh_green::langreth_product(black_box(&left), &right);
    let mut out = [(); 4].map(|()| inputs.room());
    assert_eq!(here(&mut out).number, 0);
    let made = port().unwrap();
    for (out, made) in out.iter().zip([made.retarded(), made.advanced(), made.lesser(), made.greater()]) {
        bench.same(out, &numbers(made));
    }
    drop(made);
    bench.measure(|| here(&mut out), port, build)
}
