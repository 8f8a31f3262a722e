//! An append of the last point of N, beside the run over all N points and the questions that both ask, and both from a block beside those from nothing.
use crate::inputs::{self, Inputs};
use crate::measure::{calls, Bench};
use crate::solver::TOLERANCE;
use here::{Block, Booking, Lent, Shape};
use shared::numbers;
use std::hint::black_box;

/// The least times of a call, in nanoseconds: the run, the append, and each at a full counter, which the last of its questions refuses, so that they alone
/// are asked; and the run and the append that start from a block.
pub struct Append {
    pub run: f64,
    pub run_asked: f64,
    pub append: f64,
    pub append_asked: f64,
    pub run_occupied: f64,
    pub append_occupied: f64,
}

type Call<'a> = &'a dyn Fn(Booking, Lent, [&mut [f64]; 4]) -> here::Answer;

/// What both leave is compared with the port's run over all points, but for the lesser function from a block: run and append leave the same.
pub fn append(bench: &mut Bench, points: usize, orbitals: usize) -> Append {
    let inputs = Inputs::new(points, orbitals, [true, true, false]);
    let (all, told) = (Shape::of(points, orbitals), Shape { points: points - 1, capacity: points, orbitals });
    let g0 = Block::of(orbitals, orbitals, &inputs::numbers(&mut inputs::source(), orbitals));
    let run_occupied =
        |booking: Booking, lent: Lent, out: [&mut [f64]; 4]| here::transient_run_occupied(booking, lent, black_box(&g0), out);
    let append_occupied =
        |booking: Booking, lent: Lent, out: [&mut [f64]; 4]| here::append_point_occupied(booking, lent, black_box(&g0), out);
    let solve = |call: Call, counter: u64, shape, out: &mut [Vec<f64>; 4]| {
        let operands = black_box(&inputs.functions).each_ref().map(|xs| &xs[..]);
        let booking = Booking { counters: &mut [counter; 8], desk: 0 };
        call(booking, Lent { times: &inputs.times, operands, shape, tolerance: TOLERANCE }, out.each_mut().map(|xs| &mut xs[..]))
    };

    let (grid, [free, self_energy, lesser_self_energy]) = (inputs.grid(), inputs.built());
    let made = shared::transient_run(&grid, &free, &self_energy, &lesser_self_energy, TOLERANCE).unwrap();
    let kernel = keldysh_green::causal_volterra_convolution(&grid, &free, &self_energy).unwrap();
    let [mut ran, mut appended, mut ran_from, mut appended_from] = [(); 4].map(|()| [(); 4].map(|()| inputs.room()));
    assert_eq!(solve(&here::transient_run, 0, all, &mut ran).number, 0);
    assert_eq!(solve(&here::transient_run, 0, told, &mut appended).number, 0);
    assert_eq!(solve(&here::append_point, 0, told, &mut appended).number, 0);
    assert_eq!(solve(&run_occupied, 0, all, &mut ran_from).number, 0);
    assert_eq!(solve(&run_occupied, 0, told, &mut appended_from).number, 0);
    assert_eq!(solve(&append_occupied, 0, told, &mut appended_from).number, 0);
    for (at, made) in [&made.retarded, &made.lesser, &kernel, &made.lesser_advanced].into_iter().enumerate() {
        bench.same(&ran[at], &numbers(made));
        bench.same(&appended[at], &numbers(made));
        let due = if at == 1 { ran_from[at].clone() } else { numbers(made) };
        bench.same(&ran_from[at], &due);
        bench.same(&appended_from[at], &due);
    }
    drop((made, kernel));

    let [mut left, mut left_too] = [ran.clone(), appended.clone()];
    assert_eq!(solve(&here::transient_run, u64::MAX, all, &mut left).number, 17);
    assert_eq!(solve(&here::append_point, u64::MAX, told, &mut left_too).number, 17);
    let [run, run_asked, append, append_asked, run_occupied, append_occupied] = bench.least([
        &mut calls(|| solve(&here::transient_run, 0, all, &mut ran)),
        &mut calls(|| solve(&here::transient_run, u64::MAX, all, &mut left)),
        &mut calls(|| solve(&here::append_point, 0, told, &mut appended)),
        &mut calls(|| solve(&here::append_point, u64::MAX, told, &mut left_too)),
        &mut calls(|| solve(&run_occupied, 0, all, &mut ran_from)),
        &mut calls(|| solve(&append_occupied, 0, told, &mut appended_from)),
    ]);
    Append { run, run_asked, append, append_asked, run_occupied, append_occupied }
}

/// Products of blocks of a run over so many points, none on one point.
pub fn products(points: f64) -> f64 {
    points * (points + 1.0) * (2.0 * points + 1.0) / 6.0 + points * points * (points + 1.0) - 3.0 * points
}
