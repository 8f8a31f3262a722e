//! Calls in a capacity, each by itself: the run and the append onto contents of any kind, at a desk, and the observables, with faults that are drawn each
//! by itself.
use crate::calls;
use crate::inputs::{faults, wrapped, Takes, VAST};
use crate::laid::{Form, Laid, Left};
use crate::sides::Outcome;
use crate::source::{Source, NOT_FINITE};
use crate::Job;
use judge::stages::Stage;
use judge::{Booking, Shape};

const PART: &str = "capacities";

/// A function in a capacity: its name, that of the function without one, and the call.
pub type Function = (&'static str, &'static str, fn(&Laid) -> Outcome);

pub const RUN: Function = ("transient_run in a capacity", "transient_run", run);
pub const APPEND: Function = ("append_point", "transient_run", append);
pub const RUN_OCCUPIED: Function = ("transient_run_occupied in a capacity", "transient_run_occupied", run);
pub const APPEND_OCCUPIED: Function = ("append_point_occupied", "transient_run_occupied", append);

/// Those at a desk of a session.
pub const BOOKED: [Function; 4] = [RUN, APPEND, RUN_OCCUPIED, APPEND_OCCUPIED];

fn appends((name, ..): Function) -> bool {
    [APPEND.0, APPEND_OCCUPIED.0].contains(&name)
}

fn form((_, base, _): Function) -> Form {
    if base == RUN_OCCUPIED.1 {
        Form::Occupied
    } else {
        Form::Empty
    }
}

const FUNCTIONS: [Function; 8] = [
    RUN,
    APPEND,
    RUN_OCCUPIED,
    APPEND_OCCUPIED,
    ("density_matrix in a capacity", "density_matrix", Laid::density_matrix),
    ("particle_number in a capacity", "particle_number", Laid::particle_number),
    ("one_body_expectation in a capacity", "one_body_expectation", Laid::one_body_expectation),
    ("bond_flow_into in a capacity", "bond_flow_into", Laid::bond_flow_into),
];

/// Counted under where its work stops, if that is told.
fn run(laid: &Laid) -> Outcome {
    let (outcome, _, stage) = laid.run(laid.call.desk.before(laid.form.products(laid.shape.points)));
    stopped(outcome, RUN_OCCUPIED.1, stage)
}

fn append(laid: &Laid) -> Outcome {
    let (outcome, _, stage) = laid.append(laid.call.desk.before(laid.form.appended_products(laid.shape.points)));
    stopped(outcome, if laid.form == Form::Empty { APPEND.0 } else { APPEND_OCCUPIED.0 }, stage)
}

fn stopped(outcome: Outcome, name: &str, stage: Option<Stage>) -> Outcome {
    match stage {
        Some(stage) => outcome.under(format!("{name}, {}", stage.join(", "))),
        None => outcome,
    }
}

impl Laid {
    /// The run or the append, booked so, and the count of its products.
    pub fn booked(&self, function: Function, booking: Booking) -> (Outcome, Left, u64) {
        if appends(function) {
            let (outcome, left, _) = self.append(booking);
            return (outcome, left, self.form.appended_products(self.shape.points));
        }
        let (outcome, left, _) = self.run(booking);
        (outcome, left, self.form.products(self.shape.points))
    }
}

impl Source {
    /// What the slices of an append hold before: at old places numbers of the call's kind or another, one in four times with a few that are not finite.
    fn contents(&mut self, shape: Shape) -> Vec<f64> {
        let (length, block) = (wrapped(shape.capacity, shape.orbitals), 2 * shape.orbitals * shape.orbitals);
        let (palette, room) = (self.palette(), self.room(length));
        let old = |at: usize| (at / block / shape.capacity).max(at / block % shape.capacity) < shape.points;
        let mut xs: Vec<f64> = (0..length).map(|at| if old(at) { self.number(palette) } else { room[at] }).collect();
        if self.one_in(4) {
            for _ in 0..1 + self.below(3) {
                let (t, u) = (self.below(shape.points), self.below(shape.points));
                xs[(t * shape.capacity + u) * block + self.below(block)] = self.pick(&NOT_FINITE);
            }
        }
        xs
    }

    /// A call in a capacity that may have faults, and how many it has.
    pub fn laid(&mut self, function: Function) -> (Laid, usize) {
        let (f, append) = (calls::function(function.1), appends(function));
        let (mut call, count) = self.faulty_contents(f);
        if append && self.one_in(2) {
            call.tolerance = self.tolerance();
        }
        let full = Shape { points: call.points, capacity: call.points + self.pick(&[0, 1, 1, 2, 5]), orbitals: call.orbitals };
        let (times, operands) = self.lent(&call, full);
        let told = Shape { points: full.points - usize::from(append), ..full };
        let before = [(); 4].map(|()| match (f.made, append) {
            (0, _) => vec![],
            (_, false) => self.room(wrapped(full.capacity, full.orbitals)),
            (_, true) => self.contents(told),
        });
        let mut laid = Laid { form: form(function), shape: told, times, operands, before, call };
        let sizes = if self.one_in(2) { 0 } else { self.damage_sizes(f.takes(Takes::Times), &mut laid) };
        (laid, count + sizes)
    }

    /// Points, orbitals and capacity that are too few, too many or past one another.
    pub fn damage_laid_shape(&mut self, shape: &mut Shape) -> usize {
        let (mut count, capacity) = (0, shape.capacity);
        if self.one_in(6) {
            shape.points = self.pick(&[&[0, 1, capacity - 1, capacity, capacity + 1, 256, 257], &VAST[..]].concat());
            count += 1;
        }
        if self.one_in(12) {
            shape.orbitals = self.pick(&[&[0, shape.orbitals + 1, 17], &VAST[..]].concat());
            count += 1;
        }
        if self.one_in(8) {
            shape.capacity = self.pick(&[&[0, 1, capacity - 1, capacity + 1, 256, 257], &VAST[..]].concat());
            count += 1;
        }
        count
    }

    /// The same, and slices of other lengths.
    fn damage_sizes(&mut self, timed: bool, laid: &mut Laid) -> usize {
        let mut count = self.damage_laid_shape(&mut laid.shape);
        if self.one_in(8) {
            let made = laid.before.iter_mut().filter(|xs| !xs.is_empty());
            let mut slices: Vec<&mut Vec<f64>> = laid.operands.iter_mut().chain(made).collect();
            if timed {
                slices.push(&mut laid.times);
            }
            let at = self.below(slices.len());
            let length = slices[at].len();
            let length = self.pick(&[length - 1, length + 1, 0, 2 * length]);
            slices[at].resize(length, 1.0);
            count += 1;
        }
        count
    }
}

pub fn jobs(calls: u64, seed: u64) -> Vec<Job> {
    let jobs = FUNCTIONS.map(|function| {
        let (name, _, compare) = function;
        Job::of(PART, name, calls, move |index| {
            let (laid, count) = Source::of(seed, [PART, name], index).laid(function);
            let outcome = compare(&laid);
            if outcome.label.is_empty() {
                outcome.under(faults(count))
            } else {
                outcome
            }
        })
    });
    jobs.into()
}
