//! The calls on two-time functions: what each takes, ours and the port's.
use crate::inputs::{Call, Takes};
use crate::mirrored;
use crate::sides::{block_outcome, counted, filled, held, judged, ours, outcome, Outcome, LENT};
use crate::source::Source;
use here::{Booking, Lent, Shape};
use judge::{occupied_products, products};

/// A function that is compared.
pub struct Function {
    pub name: &'static str,
    /// Whether each operand is to be retarded.
    pub retarded: &'static [bool],
    /// How many slices it is lent for what it makes.
    pub made: usize,
    /// What it takes besides.
    pub takes: &'static [Takes],
    /// What some calls without a fault are to satisfy.
    pub arrange: fn(&mut Source, &mut Call),
    pub compare: fn(&Call) -> Outcome,
}

impl Function {
    pub fn takes(&self, what: Takes) -> bool {
        self.takes.contains(&what)
    }

    /// How many slices it is lent: times, operands, those for what it makes.
    pub fn slices(&self) -> usize {
        usize::from(self.takes(Takes::Times)) + self.retarded.len() + self.made
    }
}

const GRID: &[Takes] = &[Takes::Times];
const SOLVER: &[Takes] = &[Takes::Times, Takes::Tolerance];
const RUN: &[Takes] = &[Takes::Times, Takes::Tolerance, Takes::Session];
const OCCUPIED: &[Takes] = &[Takes::Times, Takes::Tolerance, Takes::Session, Takes::Block];

pub const FUNCTIONS: [Function; 12] = [
    Function {
        name: "consistency_report",
        retarded: &[true, false, false, false],
        made: 0,
        takes: &[],
        arrange: mirrored::components,
        compare: consistency_report,
    },
    Function {
        name: "langreth_product",
        retarded: &[true, false, false, false, true, false, false, false],
        made: 4,
        takes: GRID,
        arrange: as_drawn,
        compare: langreth_product,
    },
    Function {
        name: "time_convolution",
        retarded: &[false; 2],
        made: 1,
        takes: GRID,
        arrange: as_drawn,
        compare: |call| convolution(call, here::time_convolution, judge::time_convolution),
    },
    Function {
        name: "causal_volterra_convolution",
        retarded: &[true; 2],
        made: 1,
        takes: GRID,
        arrange: as_drawn,
        compare: |call| convolution(call, here::causal_volterra_convolution, judge::causal_volterra_convolution),
    },
    Function {
        name: "check_retarded_support",
        retarded: &[true],
        made: 0,
        takes: &[Takes::Tolerance],
        arrange: as_drawn,
        compare: check_retarded_support,
    },
    Function {
        name: "retarded_dyson_with_tolerance",
        retarded: &[true; 2],
        made: 2,
        takes: SOLVER,
        arrange: as_drawn,
        compare: retarded_dyson_with_tolerance,
    },
    Function { name: "transient_run", retarded: &[true, true, false], made: 4, takes: RUN, arrange: as_drawn, compare: transient_run },
    Function {
        name: "transient_run_occupied",
        retarded: &[true, true, false],
        made: 4,
        takes: OCCUPIED,
        arrange: as_drawn,
        compare: transient_run_occupied,
    },
    Function {
        name: "particle_number",
        retarded: &[false],
        made: 0,
        takes: &[Takes::Time, Takes::Tolerance],
        arrange: as_drawn,
        compare: particle_number,
    },
    Function {
        name: "bond_flow_into",
        retarded: &[false],
        made: 0,
        takes: &[Takes::Time, Takes::Bond],
        arrange: as_drawn,
        compare: bond_flow_into,
    },
    Function { name: "density_matrix", retarded: &[false], made: 0, takes: &[Takes::Time], arrange: as_drawn, compare: density_matrix },
    Function {
        name: "one_body_expectation",
        retarded: &[false],
        made: 0,
        takes: &[Takes::Time, Takes::Block, Takes::Tolerance],
        arrange: half_real,
        compare: one_body_expectation,
    },
];

/// The function of this name.
pub fn function(name: &str) -> &'static Function {
    const { &FUNCTIONS }.iter().find(|f| f.name == name).unwrap_or_else(|| panic!("no function {name}"))
}

fn as_drawn(_: &mut Source, _: &mut Call) {}

/// Half of the densities and observables are real.
pub fn half_real(source: &mut Source, call: &mut Call) {
    if source.one_in(2) {
        call.operands[0].iter_mut().step_by(2).for_each(|x| *x = 0.0);
        call.block.numbers.iter_mut().skip(1).step_by(2).for_each(|x| *x = 0.0);
    }
}

/// Slices to lend.
fn lent<const COUNT: usize>(lengths: [usize; COUNT]) -> [Vec<f64>; COUNT] {
    lengths.map(|length| vec![LENT; length])
}

fn consistency_report(call: &Call) -> Outcome {
    let (points, orbitals, components) = (call.points, call.orbitals, call.operands());
    let ours = here::consistency_report(components, points, orbitals);
    outcome(ours, judge::consistency_report(points, orbitals, components), |x| x.to_vec())
}

fn langreth_product(call: &Call) -> Outcome {
    let (points, orbitals, times, xs) = (call.points, call.orbitals, &call.times, call.operands());
    let mut out = lent(call.made());
    let (left, right) = ([xs[0], xs[1], xs[2], xs[3]], [xs[4], xs[5], xs[6], xs[7]]);
    let answer = here::langreth_product(times, left, right, points, orbitals, out.each_mut().map(|out| &mut out[..]));
    filled(answer, out, judge::langreth_product(points, orbitals, times, xs, call.made()))
}

type Ours = fn(&[f64], &[f64], &[f64], usize, usize, &mut [f64]) -> here::Answer;
type Theirs<T> = fn(usize, usize, &[f64], [&[f64]; 2], [usize; 1]) -> T;

fn convolution<T: Into<judge::Judged<judge::Slices<1>>>>(call: &Call, ours: Ours, theirs: Theirs<T>) -> Outcome {
    let (points, orbitals, times, [left, right]) = (call.points, call.orbitals, &call.times, call.operands());
    let [mut out] = lent(call.made());
    let answer = ours(times, left, right, points, orbitals, &mut out);
    filled(answer, [out], theirs(points, orbitals, times, [left, right], call.made()))
}

fn check_retarded_support(call: &Call) -> Outcome {
    let (points, orbitals, [xs], tolerance) = (call.points, call.orbitals, call.operands(), call.tolerance);
    let answer = here::check_retarded_support(xs, points, orbitals, tolerance);
    filled(answer, [], judge::check_retarded_support(points, orbitals, xs, tolerance).map(|()| []))
}

fn retarded_dyson_with_tolerance(call: &Call) -> Outcome {
    let (points, orbitals, times, operands, tolerance) = (call.points, call.orbitals, &call.times, call.operands(), call.tolerance);
    let [mut retarded, mut kernel] = lent(call.made());
    let [free, self_energy] = operands;
    let answer = here::retarded_dyson_with_tolerance(times, free, self_energy, points, orbitals, tolerance, &mut retarded, &mut kernel);
    let theirs = judge::retarded_dyson_with_tolerance(points, orbitals, times, operands, tolerance, call.made());
    filled(answer, [retarded, kernel], theirs)
}

/// At a desk: the counters count as eight numbers.
fn transient_run(call: &Call) -> Outcome {
    let (points, orbitals, times, operands, tolerance) = (call.points, call.orbitals, &call.times, call.operands(), call.tolerance);
    let mut made: [Vec<f64>; 4] = lent(call.made());
    let (before, count) = (call.desk.before(products(points)), products(points));
    let (mut counters, out) = (before.counters, made.each_mut().map(|xs| &mut xs[..]));
    let booking = Booking { counters: &mut counters, desk: before.desk };
    let answer = here::transient_run(booking, Lent { times, operands, shape: Shape::of(points, orbitals), tolerance }, out);
    let (theirs, left) = judge::transient_run(points, orbitals, times, operands, tolerance, call.made()).booked(before, count);
    filled(answer, made, theirs).and(&counted(&counters, &left))
}

/// The same from a block.
fn transient_run_occupied(call: &Call) -> Outcome {
    let (points, orbitals, times, operands, tolerance) = (call.points, call.orbitals, &call.times, call.operands(), call.tolerance);
    let (held_before, g0): ([Vec<f64>; 4], _) = (lent(call.made()), call.block.lent());
    let (mut made, before) = (held_before.clone(), call.desk.before(occupied_products(points)));
    let mut counters = before.counters;
    let booking = Booking { counters: &mut counters, desk: before.desk };
    let lent = Lent { times, operands, shape: Shape::of(points, orbitals), tolerance };
    let answer = here::transient_run_occupied(booking, lent, &ours(&g0), made.each_mut().map(|xs| &mut xs[..]));
    let shape = judge::Shape { points, capacity: points, orbitals };
    let theirs = judge::transient_run_occupied(before, shape, times, operands, &g0, tolerance, held_before.each_ref().map(|xs| &xs[..]));
    held(answer, &made, &counters, &theirs)
}

fn particle_number(call: &Call) -> Outcome {
    let (points, orbitals, [lesser]) = (call.points, call.orbitals, call.operands());
    let ours = here::particle_number(lesser, Shape::of(points, orbitals), call.time, call.tolerance);
    judged(ours, judge::particle_number(points, orbitals, lesser, call.time, call.tolerance), |x| vec![x])
}

fn density_matrix(call: &Call) -> Outcome {
    let (points, orbitals, [lesser]) = (call.points, call.orbitals, call.operands());
    let ours = |out: &mut here::Block| here::density_matrix(lesser, Shape::of(points, orbitals), call.time, out);
    block_outcome(ours, judge::density_matrix(points, orbitals, lesser, call.time))
}

fn one_body_expectation(call: &Call) -> Outcome {
    let (points, orbitals, [lesser], observable) = (call.points, call.orbitals, call.operands(), call.block.lent());
    let here = here::one_body_expectation(lesser, Shape::of(points, orbitals), call.time, &ours(&observable), call.tolerance);
    let theirs = judge::one_body_expectation(points, orbitals, lesser, call.time, &observable, call.tolerance);
    judged(here, theirs, |x| vec![x])
}

fn bond_flow_into(call: &Call) -> Outcome {
    let (points, orbitals, [lesser], [a, b]) = (call.points, call.orbitals, call.operands(), call.bond);
    let ours = here::bond_flow_into(lesser, Shape::of(points, orbitals), call.time, a, b, call.hopping, call.charge);
    let theirs = judge::bond_flow_into(points, orbitals, lesser, call.time, call.bond, call.hopping, call.charge);
    outcome(ours, theirs, |x| vec![x])
}
