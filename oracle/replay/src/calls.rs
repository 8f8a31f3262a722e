//! One call of the list: its inputs in the list's order, and the judge's answer.
use crate::inputs::Inputs;
use crate::text::{accepted, answered, block, booked, decided, filled, held, number, numbers, observed};
use judge::{Answer, Block, Booking, Held, Judged, Shape, Slices};

/// The answer to the function of this number.
pub fn answer(function: u64, x: &mut Inputs) -> String {
    match function {
        0 => convolution(x, judge::time_convolution),
        1 => convolution(x, judge::causal_volterra_convolution),
        2 => accepted(judge::check_retarded_support(x.points, x.orbitals, x.operands::<1>()[0], x.tolerance)),
        3 => retarded_dyson_with_tolerance(x),
        4 => retarded_dyson(x),
        5 => transient_run(x),
        6 => density_matrix(x),
        7 => particle_number(x),
        8 => one_body_expectation(x),
        9 => bond_flow_into(x),
        10 => consistency_report(x),
        11 => consistent(&x.numbers::<7>(), x.tolerance),
        12 => langreth_product(x),
        13 => number(judge::norm(x.number(), x.number())),
        14 => block(judge::from_numbers(x.place(), x.place(), x.operands::<1>()[0])),
        15 => block(judge::identity(x.place())),
        16 => block(judge::adjoint(&x.block(0))),
        17 => block(judge::scale(&x.block(0), x.numbers())),
        18 => pair(x, judge::multiply),
        19 => pair(x, judge::add),
        20 => pair(x, judge::subtract),
        21 => answered(judge::trace(&x.block(0)).agreed(), |z| numbers(&z)),
        22 => answered(judge::get(&x.block(0), x.place(), x.place()), |z| numbers(&z)),
        23 => answered(judge::max_difference(&x.block(0), &x.block(1)), number),
        24 => answered(judge::is_hermitian(&x.block(0), x.tolerance), decided),
        25 => full_weights(x),
        26 => checked_interval_weight(x),
        27 => identity_times(x),
        28 => answered(adjoint_plus_is_hermitian(x), decided),
        29 => block(judge::from_scalar(x.numbers())),
        30 => block(judge::zero(x.place())),
        31 => accepted(judge::check_times(x.points, &x.times)),
        32 => accepted(judge::check_grid(&x.times)),
        33 => half_step(x),
        34 => full_weight(x),
        35 => interval_weight(x),
        36 => held(opened_at_0(x, judge::transient_run_in_capacity)),
        37 => held(opened_at_0(x, judge::append_point)),
        38 => density_matrix_in_capacity(x),
        39 => particle_number_in_capacity(x),
        40 => one_body_expectation_in_capacity(x),
        41 => bond_flow_into_in_capacity(x),
        42 => booked(in_session(x, judge::transient_run_in_capacity)),
        43 => booked(in_session(x, judge::append_point)),
        44 => booked(occupied(x, judge::transient_run_occupied)),
        45 => booked(occupied(x, judge::append_point_occupied)),
        46 => bond_flows_into(x),
        function => panic!("no function {function}"),
    }
}

fn lengths<const COUNT: usize>(lent: &[Vec<f64>; COUNT]) -> [usize; COUNT] {
    lent.each_ref().map(|xs| xs.len())
}

/// The first of four outputs; the others are empty.
fn outputs<const COUNT: usize>(x: &mut Inputs) -> [Vec<f64>; COUNT] {
    let lent = x.lent();
    (COUNT..4).for_each(|_| assert_eq!(x.place(), 0, "the length of no output"));
    lent
}

type Convolution<T> = fn(usize, usize, &[f64], [&[f64]; 2], [usize; 1]) -> T;

fn convolution<T: Into<Judged<Slices<1>>>>(x: &mut Inputs, judged: Convolution<T>) -> String {
    let lent = outputs(x);
    filled(judged(x.points, x.orbitals, &x.times, x.operands(), lengths(&lent)), lent, x.made)
}

fn retarded_dyson_with_tolerance(x: &mut Inputs) -> String {
    let lent = outputs(x);
    let made = judge::retarded_dyson_with_tolerance(x.points, x.orbitals, &x.times, x.operands(), x.tolerance, lengths(&lent));
    filled(made, lent, x.made)
}

fn retarded_dyson(x: &mut Inputs) -> String {
    let lent = outputs(x);
    filled(judge::retarded_dyson(x.points, x.orbitals, &x.times, x.operands(), lengths(&lent)), lent, x.made)
}

fn transient_run(x: &mut Inputs) -> String {
    let lent = outputs(x);
    let made = judge::transient_run(x.points, x.orbitals, &x.times, x.operands(), x.tolerance, lengths(&lent));
    filled(made, lent, x.made)
}

fn langreth_product(x: &mut Inputs) -> String {
    let lent = outputs(x);
    filled(judge::langreth_product(x.points, x.orbitals, &x.times, x.operands(), lengths(&lent)), lent, x.made)
}

fn density_matrix(x: &mut Inputs) -> String {
    let (time, [lesser]) = (x.place(), x.operands());
    block(judge::density_matrix(x.points, x.orbitals, lesser, time))
}

fn particle_number(x: &mut Inputs) -> String {
    let (time, [lesser]) = (x.place(), x.operands());
    observed(judge::particle_number(x.points, x.orbitals, lesser, time, x.tolerance).agreed())
}

fn one_body_expectation(x: &mut Inputs) -> String {
    let (time, observable, [lesser]) = (x.place(), x.block(1), x.operands());
    observed(judge::one_body_expectation(x.points, x.orbitals, lesser, time, &observable, x.tolerance).agreed())
}

fn bond_flow_into(x: &mut Inputs) -> String {
    let (time, orbitals, hopping, charge, [lesser]) = (x.place(), [x.place(), x.place()], x.numbers(), x.number(), x.operands());
    observed(judge::bond_flow_into(x.points, x.orbitals, lesser, time, orbitals, hopping, charge))
}

/// The residuals and what they are decided to be.
fn consistency_report(x: &mut Inputs) -> String {
    let report = judge::consistency_report(x.points, x.orbitals, x.operands());
    answered(report, |report| numbers(&report) + " " + &consistent(&report, x.tolerance))
}

fn consistent(residuals: &[f64], tolerance: f64) -> String {
    answered(judge::is_consistent(residuals, tolerance).agreed(), decided)
}

fn pair(x: &mut Inputs, judged: fn(&Block, &Block) -> Answer<Block>) -> String {
    let (left, right) = (x.block(0), x.block(1));
    block(judged(&left, &right))
}

/// The block that an operation made, or the one beside its refusal.
fn made(answer: Answer<Block>) -> Block {
    answer.unwrap_or_else(|_| Block::empty())
}

fn identity_times(x: &mut Inputs) -> String {
    let unit = made(judge::identity(x.place()));
    block(judge::multiply(&unit, &x.block(0)))
}

fn adjoint_plus_is_hermitian(x: &mut Inputs) -> Answer<bool> {
    let lent = x.block(0);
    let flipped = made(judge::adjoint(&lent));
    judge::is_hermitian(&made(judge::add(&flipped, &lent)), x.tolerance)
}

fn full_weights(x: &mut Inputs) -> String {
    let lent = x.lent();
    filled(judge::full_weights(x.points, &x.times, lengths(&lent)), lent, false)
}

fn checked_interval_weight(x: &mut Inputs) -> String {
    let (point, start, end) = (x.place(), x.place(), x.place());
    answered(judge::checked_interval_weight(x.points, &x.times, point, start, end), number)
}

fn half_step(x: &mut Inputs) -> String {
    let (later, earlier) = (x.place(), x.place());
    number(judge::half_step(&x.times, later, earlier))
}

fn full_weight(x: &mut Inputs) -> String {
    let index = x.place();
    number(judge::full_weight(&x.times, index))
}

fn interval_weight(x: &mut Inputs) -> String {
    let (point, start, end) = (x.place(), x.place(), x.place());
    number(judge::interval_weight(&x.times, point, start, end))
}

/// The points and orbitals of a call, in the capacity of the next word.
fn shape(x: &mut Inputs) -> Shape {
    Shape { points: x.points, capacity: x.place(), orbitals: x.orbitals }
}

type Solve = fn(Booking, Shape, &[f64], [&[f64]; 3], f64, [&[f64]; 4]) -> Held;

/// The operands, then what the four slices hold before.
fn solved(x: &Inputs, booking: Booking, shape: Shape, judged: Solve) -> Held {
    let [free, self_energy, lesser_self_energy, retarded, lesser, kernel, lesser_advanced] = x.operands();
    let before = [retarded, lesser, kernel, lesser_advanced];
    judged(booking, shape, &x.times, [free, self_energy, lesser_self_energy], x.tolerance, before)
}

fn opened_at_0(x: &mut Inputs, judged: Solve) -> Held {
    let shape = shape(x);
    solved(x, Booking::FIRST, shape, judged)
}

/// The desk is the word after the capacity, and the session's counters are the next eight.
fn booking(x: &mut Inputs) -> Booking {
    let desk = x.place();
    Booking { desk, counters: std::array::from_fn(|_| x.word()) }
}

fn in_session(x: &mut Inputs, judged: Solve) -> Held {
    let (shape, booking) = (shape(x), booking(x));
    solved(x, booking, shape, judged)
}

type SolveFrom = fn(Booking, Shape, &[f64], [&[f64]; 3], &Block, f64, [&[f64]; 4]) -> Held;

/// The block's numbers stand between the operands and what the four slices hold before, its shape after the counters.
fn occupied(x: &mut Inputs, judged: SolveFrom) -> Held {
    let (shape, booking, g0) = (shape(x), booking(x), x.block(3));
    let [free, self_energy, lesser_self_energy, _, retarded, lesser, kernel, lesser_advanced] = x.operands();
    let before = [retarded, lesser, kernel, lesser_advanced];
    judged(booking, shape, &x.times, [free, self_energy, lesser_self_energy], &g0, x.tolerance, before)
}

fn density_matrix_in_capacity(x: &mut Inputs) -> String {
    let (shape, time, [lesser]) = (shape(x), x.place(), x.operands());
    block(judge::density_matrix_in_capacity(shape, lesser, time))
}

fn particle_number_in_capacity(x: &mut Inputs) -> String {
    let (shape, time, [lesser]) = (shape(x), x.place(), x.operands());
    observed(judge::particle_number_in_capacity(shape, lesser, time, x.tolerance).agreed())
}

fn one_body_expectation_in_capacity(x: &mut Inputs) -> String {
    let (shape, time, observable, [lesser]) = (shape(x), x.place(), x.block(1), x.operands());
    observed(judge::one_body_expectation_in_capacity(shape, lesser, time, &observable, x.tolerance).agreed())
}

fn bond_flow_into_in_capacity(x: &mut Inputs) -> String {
    let (shape, time, bond, hopping, charge) = (shape(x), x.place(), [x.place(), x.place()], x.numbers(), x.number());
    let [lesser] = x.operands();
    observed(judge::bond_flow_into_in_capacity(shape, lesser, time, bond, hopping, charge))
}

/// What is stored again and again, up to the next word's length.
fn repeated<T: Clone>(x: &mut Inputs, stored: Vec<T>) -> Vec<T> {
    stored.into_iter().cycle().take(x.place()).collect()
}

fn bond_flows_into(x: &mut Inputs) -> String {
    let whole = |numbers: &[f64]| numbers.iter().map(|number| number.to_bits() as usize).collect::<Vec<_>>();
    let [lesser, times, a, b, hoppings, factors] = x.operands().map(<[f64]>::to_vec);
    let shape = shape(x);
    let [times, a, b] = [times, a, b].map(|stored| repeated(x, whole(&stored)));
    let [hoppings, factors] = [hoppings, factors].map(|stored| repeated(x, stored));
    let ([flows], refusals) = (x.lent::<1>(), repeated(x, vec![7u8, 0, 255]));
    let queries = judge::Queries { times: &times, a: &a, b: &b, hoppings: &hoppings, factors: &factors };
    let judged = judge::bond_flows_into(shape, &lesser, &queries, [flows.len(), refusals.len()]);
    let (flows, refusals) = match &judged {
        Ok(answers) => answers.iter().copied().unzip(),
        Err(_) => (flows, refusals),
    };
    let lists = flows.into_iter().map(number).chain(refusals.iter().map(u8::to_string));
    lists.fold(accepted(judged.map(|_| ())), |text, told| text + " " + &told)
}
