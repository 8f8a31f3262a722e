//! Calls on slices laid out for a capacity of points (document 02, L1). Over the points' entries the answers are the port's. It has no append: the new row
//! and column are made by its operations on blocks, of what the slices hold at old places. Nor has it a run that starts from a block (L5), which is made by
//! the same operations. Runs and appends are at a desk of a session (L3, L13).
use crate::functions;
use crate::lines::{functions_of_times, lengths, matrix, refusal, require};
use crate::session::{appended_occupied_products, appended_products, occupied_products, products, Booking, Counters};
use crate::sums::{OnePoint, Stage, Start, Work};
use crate::{Answer, Block, Judged, Refused, Slices};
use keldysh_green::{kept, DenseMatrix, RealTimeGrid, TwoTimeMatrix};
use shared::{function, numbers};

/// So many points and orbitals, in slices laid out for a capacity of points: row t begins at t·capacity blocks.
#[derive(Debug, Clone, Copy, PartialEq)]
pub struct Shape {
    pub points: usize,
    pub capacity: usize,
    pub orbitals: usize,
}

impl Shape {
    fn block(&self) -> usize {
        2 * self.orbitals * self.orbitals
    }

    /// Where the block of a place begins.
    fn begin(&self, t: usize, u: usize) -> usize {
        (t * self.capacity + u) * self.block()
    }

    fn places(&self) -> impl Iterator<Item = (usize, usize)> {
        let points = self.points;
        (0..points * points).map(move |place| (place / points, place % points))
    }

    /// The points' entries, laid out for the points; those of other places are +0.
    fn entries(&self, xs: &[f64], at: impl Fn(usize, usize) -> bool) -> Vec<f64> {
        let block = self.block();
        self.places().flat_map(|(t, u)| if at(t, u) { xs[self.begin(t, u)..][..block].to_vec() } else { vec![0.0; block] }).collect()
    }

    fn within(&self, xs: &[f64]) -> Vec<f64> {
        self.entries(xs, |_, _| true)
    }

    /// A lent slice in which some places have the blocks of a function of the points.
    fn written(&self, before: &[f64], made: &[f64], at: impl Fn(usize, usize) -> bool) -> Vec<f64> {
        let mut xs = before.to_vec();
        for ((t, u), block) in self.places().zip(made.chunks(self.block())).filter(|((t, u), _)| at(*t, *u)) {
            xs[self.begin(t, u)..][..block.len()].copy_from_slice(block);
        }
        xs
    }

    /// A refusal whose position is counted among the points' entries of an operand that is lent, with its position there.
    fn lent(&self, operands: usize, refused: Refused) -> Refused {
        if refused.number != 7 || refused.operand >= operands {
            return refused;
        }
        let (row, column) = (refused.first / (self.points * self.block()), refused.first % (self.points * self.block()));
        Refused { first: self.begin(row, 0) + column, ..refused }
    }

    /// Lines 1, 2, 3 and 16: `sides` are those of a block that is lent too.
    pub(crate) fn lines(&self, times: Option<&[f64]>, operands: &[&[f64]], lent: &[usize], sides: &[usize]) -> Answer<()> {
        require(self.points >= 2 && self.orbitals >= 1 && sides.iter().all(|&n| n >= 1), 1)?;
        require(self.capacity <= 256 && self.orbitals <= 16 && sides.iter().all(|&n| n <= 16), 2)?;
        lengths(self.capacity, self.orbitals, operands, lent)?;
        require(times.is_none_or(|times| times.len() == self.capacity) && sides.iter().all(|&n| n == self.orbitals), 3)?;
        require(self.points <= self.capacity, 16)
    }
}

/// The answer to a run or an append, with the count of its products, where an append's 10 is met, and what the four slices, G^R, G^<, K, X, and the session's
/// counters hold afterwards.
pub struct Held {
    pub judged: Judged<u64>,
    pub stage: Option<Stage>,
    pub slices: Slices<4>,
    pub counters: Counters,
}

impl Held {
    fn of(
        (judged, counters): (Judged<Slices<4>>, Counters),
        count: u64,
        before: [&[f64]; 4],
        after_10: impl Fn(&[f64]) -> Vec<f64>,
    ) -> Self {
        let Judged { answer, listed, agrees } = judged;
        let slices = match &answer {
            Ok(slices) => slices.clone(),
            Err(Refused { number: 10, .. }) => before.map(after_10),
            Err(_) => before.map(<[f64]>::to_vec),
        };
        Self { judged: Judged { answer: answer.map(|_| count), listed, agrees }, stage: None, slices, counters }
    }
}

/// The port's run over the points; room stays, but for 10, after which all is +0. Operands: free propagator, retarded self-energy, Σ^<.
pub fn transient_run_in_capacity(
    booking: Booking,
    shape: Shape,
    times: &[f64],
    operands: [&[f64]; 3],
    tolerance: f64,
    before: [&[f64]; 4],
) -> Held {
    let judged = match shape.lines(Some(times), &operands, &before.map(<[f64]>::len), &[]) {
        Ok(()) => {
            let entries = operands.map(|xs| shape.within(xs));
            let lent = [entries[0].len(); 4];
            let operands = entries.each_ref().map(|xs| &xs[..]);
            functions::transient_run(shape.points, shape.orbitals, &times[..shape.points], operands, tolerance, lent)
        }
        Err(refused) => Err(refused).into(),
    };
    let laid = |made: Slices<4>| std::array::from_fn(|at| shape.written(before[at], &made[at], |_, _| true));
    let judged =
        Judged { answer: judged.answer.map(laid).map_err(|refused| shape.lent(3, refused)), listed: judged.listed, agrees: judged.agrees };
    let count = products(shape.points);
    Held::of(judged.booked(booking, count), count, before, |xs| vec![0.0; xs.len()])
}

/// Lines 1 to 9 and 16 of a call that starts from a block, or does not: 7 of the block comes after that of the functions.
fn asked(
    shape: Shape,
    times: &[f64],
    operands: [&[f64]; 3],
    g0: Option<&Block>,
    tolerance: f64,
    before: [&[f64]; 4],
) -> Answer<(RealTimeGrid, [TwoTimeMatrix; 3], Option<DenseMatrix>)> {
    let sides: Vec<usize> = g0.iter().flat_map(|x| [x.rows, x.columns]).collect();
    shape.lines(Some(times), &operands, &before.map(<[f64]>::len), &sides)?;
    let entries = operands.map(|xs| shape.within(xs));
    let operands = entries.each_ref().map(|xs| &xs[..]);
    let (grid, operands) = functions_of_times(shape.points, shape.orbitals, &times[..shape.points], operands, &[])
        .map_err(|refused| shape.lent(3, refused))?;
    let g0 = g0.map(|x| matrix(3, x.rows, x.columns, x.entries())).transpose()?;
    for (operand, xs) in operands[..2].iter().enumerate() {
        kept::check_retarded_support(xs, tolerance).map_err(|error| Refused { operand, ..refusal(error) })?;
    }
    Ok((grid, operands, g0))
}

fn start(g0: &Option<DenseMatrix>) -> Start<'_> {
    g0.as_ref().map_or(Start::Empty, Start::Occupied)
}

/// What a call leaves, or where it stops by 10, in these slices.
type Worked = Answer<Result<Slices<4>, Stage>>;

fn held_of(worked: Worked, booking: Booking, count: u64, before: [&[f64]; 4], after_10: impl Fn(&[f64]) -> Vec<f64>) -> Held {
    let (answer, stage) = match worked {
        Ok(Ok(slices)) => (Ok(slices), None),
        Ok(Err(stage)) => (Err(Refused::by(10)), Some(stage)),
        Err(refused) => (Err(refused), None),
    };
    let held = Held::of(Judged::from(answer).booked(booking, count), count, before, after_10);
    Held { stage: stage.filter(|_| held.judged.answer == Err(Refused::by(10))), ..held }
}

/// The run that starts from a block: its sums by the port's operations.
pub fn transient_run_occupied(
    booking: Booking,
    shape: Shape,
    times: &[f64],
    operands: [&[f64]; 3],
    g0: &Block,
    tolerance: f64,
    before: [&[f64]; 4],
) -> Held {
    let worked = asked(shape, times, operands, Some(g0), tolerance, before).map(|(grid, operands, g0)| {
        let made = Work { grid, one_point: OnePoint::LeftOut }.transient_run_from(start(&g0), &operands)?;
        Ok(std::array::from_fn(|at| shape.written(before[at], &numbers(&made[at]), |_, _| true)))
    });
    held_of(worked, booking, occupied_products(shape.points), before, |xs| vec![0.0; xs.len()])
}

/// The new row and column, or where they are not finite: an old entry of X, or of G^R on or below its diagonal, that is not finite is read.
fn appended(shape: Shape, times: &[f64], operands: [&[f64]; 3], g0: Option<&Block>, tolerance: f64, before: [&[f64]; 4]) -> Worked {
    let (grid, operands, g0) = asked(shape, times, operands, g0, tolerance, before)?;
    let (points, orbitals, new) = (shape.points, shape.orbitals, shape.points - 1);
    let old = |xs: &[f64], at: fn(usize, usize) -> bool| {
        let xs = shape.entries(xs, |t, u| t.max(u) < new && at(t, u));
        function(points, orbitals, &xs).map_err(|_| ["an old entry", "not finite"])
    };
    let sums = || {
        let read = [old(before[0], |t, u| t >= u)?, old(before[3], |_, _| true)?];
        let made = Work { grid, one_point: OnePoint::LeftOut }.append_point(start(&g0), new, &operands, &read)?;
        Ok(std::array::from_fn(|at| shape.written(before[at], &numbers(&made[at]), |t, u| t.max(u) == new)))
    };
    Ok(sums())
}

/// The append to the points that the shape tells, of so many products. After 10 its new row and column are +0.
fn append(booking: Booking, shape: Shape, count: u64, before: [&[f64]; 4], worked: impl FnOnce(Shape) -> Worked) -> Held {
    let new = shape.points;
    // The largest count and one more is above every capacity.
    let shape = Shape { points: new.saturating_add(1), ..shape };
    held_of(worked(shape), booking, count, before, |xs| {
        let none = vec![0.0; shape.points * shape.points * shape.block()];
        shape.written(xs, &none, |t, u| t.max(u) == new)
    })
}

pub fn append_point(booking: Booking, shape: Shape, times: &[f64], operands: [&[f64]; 3], tolerance: f64, before: [&[f64]; 4]) -> Held {
    append(booking, shape, appended_products(shape.points), before, |shape| appended(shape, times, operands, None, tolerance, before))
}

/// The same of a run that starts from a block.
pub fn append_point_occupied(
    booking: Booking,
    shape: Shape,
    times: &[f64],
    operands: [&[f64]; 3],
    g0: &Block,
    tolerance: f64,
    before: [&[f64]; 4],
) -> Held {
    let worked = |shape| appended(shape, times, operands, Some(g0), tolerance, before);
    append(booking, shape, appended_occupied_products(shape.points), before, worked)
}

/// A question to the points' entries of a lesser function.
fn of_points<T>(shape: Shape, lesser: &[f64], sides: &[usize], ask: impl FnOnce(&[f64]) -> Judged<T>) -> Judged<T> {
    match shape.lines(None, &[lesser], &[], sides) {
        Ok(()) => {
            let judged = ask(&shape.within(lesser));
            Judged { answer: judged.answer.map_err(|refused| shape.lent(1, refused)), ..judged }
        }
        Err(refused) => Err(refused).into(),
    }
}

pub fn density_matrix_in_capacity(shape: Shape, lesser: &[f64], time: usize) -> Answer<Block> {
    of_points(shape, lesser, &[], |xs| functions::density_matrix(shape.points, shape.orbitals, xs, time).into()).answer
}

pub fn particle_number_in_capacity(shape: Shape, lesser: &[f64], time: usize, tolerance: f64) -> Judged<f64> {
    of_points(shape, lesser, &[], |xs| functions::particle_number(shape.points, shape.orbitals, xs, time, tolerance))
}

pub fn one_body_expectation_in_capacity(shape: Shape, lesser: &[f64], time: usize, observable: &Block, tolerance: f64) -> Judged<f64> {
    let sides = [observable.rows, observable.columns];
    of_points(shape, lesser, &sides, |xs| functions::one_body_expectation(shape.points, shape.orbitals, xs, time, observable, tolerance))
}

/// The flow into the first of two orbitals from the other, of a hopping by its real and its imaginary part.
pub fn bond_flow_into_in_capacity(
    shape: Shape,
    lesser: &[f64],
    time: usize,
    bond: [usize; 2],
    hopping: [f64; 2],
    charge: f64,
) -> Answer<f64> {
    let ask = |xs: &[f64]| functions::bond_flow_into(shape.points, shape.orbitals, xs, time, bond, hopping, charge).into();
    of_points(shape, lesser, &[], ask).answer
}
