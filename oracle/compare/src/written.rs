//! What a call writes beside its number goes to slices of one length each. A slice of another length for places or part is left as it was; one for anything
//! else is refused by 3.
use crate::blocks;
use crate::calls;
use crate::laid::ours_of;
use crate::sides::{self, ours, same, Outcome, LENT};
use crate::source::Source;
use crate::Job;
use here::{Lent, Shape};
use judge::{Judged, Refused, DESKS};

const PART: &str = "written";

/// What slices of places hold before a call.
const PLACE: usize = 77;

/// What lent slices hold after a call, as numbers.
type Held = Vec<Vec<f64>>;

fn numbers(places: &[usize]) -> Vec<f64> {
    places.iter().map(|&place| place as f64).collect()
}

/// What a slice of the exact length holds after a call that is lent it for numbers.
fn afterwards<const COUNT: usize>(theirs: judge::Answer<[f64; COUNT]>) -> Vec<f64> {
    match theirs {
        Ok(numbers) => numbers.to_vec(),
        Err(Refused { number: 10, .. }) => vec![0.0; COUNT],
        Err(_) => vec![LENT; COUNT],
    }
}

/// What a slice of this length is to hold: what is written, if it fits.
fn expected(length: usize, held: f64, written: Option<&[f64]>) -> Vec<f64> {
    written.filter(|written| written.len() == length).map_or_else(|| vec![held; length], <[f64]>::to_vec)
}

/// The slices `made` are those that line 3 asks: what each held, and what it holds after the call if all have their lengths. If one has not,
/// the answer is 3, unless it is 22, 1 or 2, and all are as they were. Then come places and part, which a refusal writes.
fn outcome<T>(number: u8, held: Held, made: Vec<(f64, Vec<f64>)>, theirs: impl Into<Judged<T>>) -> Outcome {
    let theirs = theirs.into();
    let (refused, listed) = (theirs.answer.err(), theirs.listed);
    let fits = made.iter().zip(&held).all(|((_, written), slice)| written.len() == slice.len());
    let earlier = refused.is_some_and(|x| matches!(x.number, 22 | 1 | 2));
    let refused = if fits || earlier { refused } else { Some(Refused::by(3)) };
    let refused_by = refused.unwrap_or(Refused::by(0));
    let places = refused.map(|x| numbers(&[x.operand, x.first, x.second]));
    let made = made.into_iter().map(|(before, written)| (before, fits.then_some(written)));
    let written = made.chain([(PLACE as f64, places), (LENT, refused.map(|x| vec![x.part]))]);
    let wanted: Held = written.zip(&held).map(|((before, written), slice)| expected(slice.len(), before, written.as_deref())).collect();
    let pairs = || held.iter().flatten().zip(wanted.iter().flatten());
    let unequal = pairs().filter(|(x, y)| !same(**x, **y)).count() + usize::from(number != refused_by.number);
    let unequal = unequal + usize::from(!theirs.agrees);
    Outcome { listed: listed.filter(|_| fits), ..Outcome::of(refused_by, 1 + pairs().count(), unequal) }
}

/// The lengths of what is written, of places and of the part: each exact, one short, one long and empty.
struct Lengths(u64);

impl Lengths {
    fn next(&mut self, exact: usize) -> usize {
        let digit = (self.0 % 4) as usize;
        self.0 /= 4;
        [exact, exact - 1, exact + 1, 0][digit]
    }

    fn places_and_part(&mut self) -> (Vec<usize>, Vec<f64>) {
        (vec![PLACE; self.next(3)], vec![LENT; self.next(1)])
    }
}

/// How often the lengths begin again, each time with other inputs.
const TURNS: u64 = 32;

fn block_trace(seed: u64, index: u64) -> Outcome {
    let (mut lengths, f) = (Lengths(index), blocks::operation("block_trace"));
    let (mut value, (mut places, mut part)) = (vec![LENT; lengths.next(2)], lengths.places_and_part());
    let (call, _) = Source::of(seed, [PART, f.name], index).faulty_block_call(f);
    let [x] = call.lent();
    let number = here::block_trace_written(&ours(&x), &mut value, &mut places, &mut part);
    let theirs = judge::trace(&x);
    outcome(number, vec![value, numbers(&places), part], vec![(LENT, afterwards(theirs.answer))], theirs)
}

fn particle_number(seed: u64, index: u64) -> Outcome {
    let (mut lengths, f) = (Lengths(index), calls::function("particle_number"));
    let (mut value, (mut places, mut part)) = (vec![LENT; lengths.next(1)], lengths.places_and_part());
    let (call, _) = Source::of(seed, [PART, f.name], index).faulty_call(f);
    let [xs] = call.operands();
    let shape = Shape::of(call.points, call.orbitals);
    let number = here::particle_number_written(xs, shape, call.time, call.tolerance, &mut value, &mut places, &mut part);
    let theirs = judge::particle_number(call.points, call.orbitals, xs, call.time, call.tolerance);
    outcome(number, vec![value, numbers(&places), part], vec![(LENT, afterwards(theirs.answer.map(|x| [x])))], theirs)
}

fn density_matrix(seed: u64, index: u64) -> Outcome {
    let (mut lengths, f) = (Lengths(index), calls::function("density_matrix"));
    let (mut sides, mut out) = (vec![PLACE; lengths.next(2)], vec![LENT; lengths.next(512)]);
    let (mut places, mut part) = lengths.places_and_part();
    let (call, _) = Source::of(seed, [PART, f.name], index).faulty_call(f);
    let [xs] = call.operands();
    let shape = Shape::of(call.points, call.orbitals);
    let number = here::density_matrix_written(xs, shape, call.time, &mut sides, &mut out, &mut places, &mut part);
    let theirs = judge::density_matrix(call.points, call.orbitals, xs, call.time);
    let block = theirs.clone().unwrap_or_else(|_| judge::Block::empty());
    let made = vec![(PLACE as f64, numbers(&[block.rows, block.columns])), (LENT, block.values.to_vec())];
    outcome(number, vec![numbers(&sides), out, numbers(&places), part], made, theirs)
}

fn consistency_report(seed: u64, index: u64) -> Outcome {
    let (mut lengths, f) = (Lengths(index), calls::function("consistency_report"));
    let (mut residuals, (mut places, mut part)) = (vec![LENT; lengths.next(7)], lengths.places_and_part());
    let (call, _) = Source::of(seed, [PART, f.name], index).faulty_call(f);
    let number = here::consistency_report_written(call.operands(), call.points, call.orbitals, &mut residuals, &mut places, &mut part);
    let theirs = judge::consistency_report(call.points, call.orbitals, call.operands());
    outcome(number, vec![residuals, numbers(&places), part], vec![(LENT, afterwards(theirs))], theirs)
}

/// Of the residuals that it reads, too, another count is 3.
fn is_consistent(index: u64) -> Outcome {
    let mut lengths = Lengths(index);
    let (mut decided, (mut places, mut part)) = (vec![PLACE as u8; lengths.next(1)], lengths.places_and_part());
    let (mut x, turn) = (vec![0.5; lengths.next(7)], lengths.0 as usize);
    let tolerance = [0.5, 0.25, 0.0, f64::NAN][turn % 4];
    if let Some(last) = x.last_mut() {
        *last = [0.5, 0.25, 0.75, f64::NAN][turn / 4 % 4];
    }
    let number = here::is_consistent_written(&x, tolerance, &mut decided, &mut places, &mut part);
    let theirs = judge::is_consistent(&x, tolerance);
    let decided = decided.into_iter().map(f64::from).collect();
    let written = theirs.answer.map_or(vec![PLACE as f64], sides::decided);
    outcome(number, vec![decided, numbers(&places), part], vec![(PLACE as f64, written)], theirs)
}

/// The flows and the refusals' numbers of a list of a few queries, half of the time of sizes that may be refused.
fn bond_flows_into(seed: u64, index: u64) -> Outcome {
    let (mut lengths, name) = (Lengths(index), "bond_flows_into");
    let source = &mut Source::of(seed, [PART, name], index);
    let count = 1 + source.below(4);
    let mut list = source.list(count);
    if source.one_in(2) {
        source.damage_laid_shape(&mut list.shape);
    }
    let (mut flows, mut refused) = (vec![LENT; lengths.next(count)], vec![PLACE as u8; lengths.next(count)]);
    let (mut places, mut part) = lengths.places_and_part();
    let shape = ours_of(list.shape);
    let number = here::bond_flows_into_written(&list.lesser, shape, list.queries(), &mut flows, &mut refused, &mut places, &mut part);
    let theirs = list.judged([count; 2]);
    let left = || vec![(LENT, PLACE as u8); count];
    let (due, due_refused): (Vec<f64>, Vec<u8>) = theirs.clone().unwrap_or_else(|_| left()).into_iter().unzip();
    let bytes = |xs: Vec<u8>| xs.into_iter().map(f64::from).collect::<Vec<_>>();
    let made = vec![(LENT, due), (PLACE as f64, bytes(due_refused))];
    outcome(number, vec![flows, bytes(refused), numbers(&places), part], made, theirs)
}

/// A call at a desk, whose session's counters are a slice of eight: the function whose inputs it takes, the points that it is told of a call's, how many
/// products it forms, and both sides; the form without a block leaves the block out.
struct Booked {
    name: &'static str,
    base: &'static str,
    told: fn(usize) -> usize,
    products: fn(usize) -> u64,
    ours: fn(here::Booking, Lent, &here::Block, [&mut [f64]; 4], &mut [usize], &mut [f64]) -> u8,
    theirs: fn(judge::Booking, judge::Shape, &[f64], [&[f64]; 3], &judge::Block, f64, [&[f64]; 4]) -> judge::Held,
}

const RUN: Booked = Booked {
    name: "transient_run",
    base: "transient_run",
    told: |points| points,
    products: judge::products,
    ours: |booking, lent, _, made, places, part| here::transient_run_written(booking, lent, made, places, part),
    theirs: |booking, shape, times, operands, _, tolerance, before| {
        judge::transient_run_in_capacity(booking, shape, times, operands, tolerance, before)
    },
};

const APPEND: Booked = Booked {
    name: "append_point",
    told: |points| points.wrapping_sub(1),
    products: judge::appended_products,
    ours: |booking, lent, _, made, places, part| here::append_point_written(booking, lent, made, places, part),
    theirs: |booking, shape, times, operands, _, tolerance, before| judge::append_point(booking, shape, times, operands, tolerance, before),
    ..RUN
};

const RUN_OCCUPIED: Booked = Booked {
    name: "transient_run_occupied",
    base: "transient_run_occupied",
    told: |points| points,
    products: judge::occupied_products,
    ours: here::transient_run_occupied_written,
    theirs: judge::transient_run_occupied,
};

const APPEND_OCCUPIED: Booked = Booked {
    name: "append_point_occupied",
    told: |points| points.wrapping_sub(1),
    products: judge::appended_occupied_products,
    ours: here::append_point_occupied_written,
    theirs: judge::append_point_occupied,
    ..RUN_OCCUPIED
};

/// Line 3 asks the counters' length alone; what they hold is compared beside the numbers, a whole word each.
fn in_session(seed: u64, x: Booked, index: u64) -> Outcome {
    let (mut lengths, f) = (Lengths(index), calls::function(x.base));
    let (length, (mut places, mut part)) = (lengths.next(DESKS), lengths.places_and_part());
    let (call, _) = Source::of(seed, [PART, x.name], index).faulty_call(f);
    let (points, capacity, orbitals, g0) = ((x.told)(call.points), call.points, call.orbitals, call.block.lent());
    let (before, held) = (call.desk.before((x.products)(points)), call.made::<4>().map(|length| vec![LENT; length]));
    let passed: Vec<u64> = before.counters.into_iter().cycle().take(length).collect();
    let (mut counters, mut made) = (passed.clone(), held.clone());
    let lent =
        Lent { times: &call.times, operands: call.operands(), shape: Shape { points, capacity, orbitals }, tolerance: call.tolerance };
    let booking = here::Booking { counters: &mut counters, desk: before.desk };
    let number = (x.ours)(booking, lent, &ours(&g0), made.each_mut().map(|xs| &mut xs[..]), &mut places, &mut part);
    let shape = judge::Shape { points, capacity, orbitals };
    let theirs = (x.theirs)(before, shape, &call.times, call.operands(), &g0, call.tolerance, held.each_ref().map(|xs| &xs[..]));
    let due = if length == DESKS { theirs.counters.to_vec() } else { passed };
    let unequal = counters.iter().zip(&due).filter(|(x, y)| x != y).count();
    let written = theirs.slices.into_iter().map(|xs| (LENT, xs));
    let slices = [vec![vec![0.0; length]], made.into(), vec![numbers(&places), part]].concat();
    let outcome = outcome(number, slices, [(0.0, vec![0.0; DESKS])].into_iter().chain(written).collect(), theirs.judged);
    outcome.and(&Outcome::of(Refused::by(0), length, unequal))
}

pub fn jobs(seed: u64) -> Vec<Job> {
    vec![
        Job::of(PART, "block_trace", 64 * TURNS, move |index| block_trace(seed, index)),
        Job::of(PART, "particle_number", 64 * TURNS, move |index| particle_number(seed, index)),
        Job::of(PART, "density_matrix", 256 * TURNS, move |index| density_matrix(seed, index)),
        Job::of(PART, "consistency_report", 64 * TURNS, move |index| consistency_report(seed, index)),
        Job::of(PART, "is_consistent", 256 * TURNS, is_consistent),
        Job::of(PART, "bond_flows_into", 256 * TURNS, move |index| bond_flows_into(seed, index)),
        Job::of(PART, RUN.name, 64 * TURNS, move |index| in_session(seed, RUN, index)),
        Job::of(PART, APPEND.name, 64 * TURNS, move |index| in_session(seed, APPEND, index)),
        Job::of(PART, RUN_OCCUPIED.name, 64 * TURNS, move |index| in_session(seed, RUN_OCCUPIED, index)),
        Job::of(PART, APPEND_OCCUPIED.name, 64 * TURNS, move |index| in_session(seed, APPEND_OCCUPIED, index)),
    ]
}
