//! What a call is lent in slices laid out for a capacity of points. What stands beyond the points is room: numbers of any kind, which no call asks, and
//! which stay.
use crate::inputs::{wrapped, Call};
use crate::sides::{block_outcome, held, judged, ours, outcome, Outcome};
use crate::source::Source;
use judge::{Booking, Counters, Held, Shape, Slices};

/// What a run or an append starts from: nothing, or the call's block.
#[derive(Clone, Copy, PartialEq)]
pub enum Form {
    Empty,
    Occupied,
}

impl Form {
    /// Of how many products a run over so many points is.
    pub fn products(self, points: usize) -> u64 {
        match self {
            Self::Empty => judge::products(points),
            Self::Occupied => judge::occupied_products(points),
        }
    }

    /// The same of an append to so many.
    pub fn appended_products(self, points: usize) -> u64 {
        match self {
            Self::Empty => judge::appended_products(points),
            Self::Occupied => judge::appended_occupied_products(points),
        }
    }
}

#[derive(Clone)]
pub struct Laid {
    pub form: Form,
    pub shape: Shape,
    pub times: Vec<f64>,
    pub operands: Vec<Vec<f64>>,
    /// What the slices for G^R, G^<, K and X hold before.
    pub before: Slices<4>,
    /// What the call takes besides.
    pub call: Call,
}

impl Source {
    /// Numbers for room: of one kind, or a NaN with other bits each time.
    pub fn room(&mut self, count: usize) -> Vec<f64> {
        match self.below(6) {
            0 => (0..count).map(|at| f64::from_bits(0x7ff8_0000_0000_0000 | at as u64)).collect(),
            1 => [f64::INFINITY, -0.0, f64::NAN, -1.25, f64::NEG_INFINITY].into_iter().cycle().take(count).collect(),
            2 => vec![f64::INFINITY; count],
            3 => vec![f64::MAX; count],
            4 => vec![0.0; count],
            _ => {
                let palette = self.palette();
                self.numbers(count, palette)
            }
        }
    }

    /// A function of so many points laid out for a capacity: its entries up to some points, and room.
    pub fn laid_out(&mut self, xs: &[f64], points: usize, shape: Shape) -> Vec<f64> {
        let block = 2 * shape.orbitals * shape.orbitals;
        let mut laid = self.room(wrapped(shape.capacity, shape.orbitals));
        for t in 0..shape.points {
            let row = &xs[t * points * block..][..shape.points * block];
            laid[t * shape.capacity * block..][..row.len()].copy_from_slice(row);
        }
        laid
    }

    /// The times and operands of a call, as a call of some of its points is lent them.
    pub fn lent(&mut self, call: &Call, shape: Shape) -> (Vec<f64>, Vec<Vec<f64>>) {
        let operands = call.operands.iter().map(|xs| self.laid_out(xs, call.points, shape)).collect();
        let times = call.times.iter().copied().take(shape.points).chain(self.room(shape.capacity - shape.points)).collect();
        (times, operands)
    }
}

/// The shape as it is told to this side.
pub fn ours_of(shape: Shape) -> here::Shape {
    here::Shape { points: shape.points, capacity: shape.capacity, orbitals: shape.orbitals }
}

/// What the slices for G^R, G^<, K and X hold after a call, and the session's counters.
pub struct Left {
    pub slices: Slices<4>,
    pub counters: Counters,
}

impl Laid {
    fn operands<const COUNT: usize>(&self) -> [&[f64]; COUNT] {
        std::array::from_fn(|operand| &self.operands[operand][..])
    }

    /// The answer of a call here that is booked so, and what is left.
    fn solved(
        &self,
        Booking { desk, mut counters }: Booking,
        solve: impl FnOnce(here::Booking, here::Lent, &here::Block, [&mut [f64]; 4]) -> here::Answer,
    ) -> (here::Answer, Left) {
        let mut slices = self.before.clone();
        let lent = here::Lent { times: &self.times, operands: self.operands(), shape: ours_of(self.shape), tolerance: self.call.tolerance };
        let booking = here::Booking { counters: &mut counters, desk };
        let answer = solve(booking, lent, &ours(&self.call.block.lent()), slices.each_mut().map(|xs| &mut xs[..]));
        (answer, Left { slices, counters })
    }

    pub fn ran(&self, booking: Booking) -> (here::Answer, Left) {
        self.solved(booking, |booking, lent, g0, made| match self.form {
            Form::Empty => here::transient_run(booking, lent, made),
            Form::Occupied => here::transient_run_occupied(booking, lent, g0, made),
        })
    }

    pub fn appended(&self, booking: Booking) -> (here::Answer, Left) {
        self.solved(booking, |booking, lent, g0, made| match self.form {
            Form::Empty => here::append_point(booking, lent, made),
            Form::Occupied => here::append_point_occupied(booking, lent, g0, made),
        })
    }

    /// The run of the judge, begun on these slices.
    fn judged_run(&self, booking: Booking, before: &Slices<4>) -> Held {
        let (shape, times, operands, tolerance) = (self.shape, &self.times, self.operands(), self.call.tolerance);
        let before = before.each_ref().map(|xs| &xs[..]);
        match self.form {
            Form::Empty => judge::transient_run_in_capacity(booking, shape, times, operands, tolerance, before),
            Form::Occupied => judge::transient_run_occupied(booking, shape, times, operands, &self.call.block.lent(), tolerance, before),
        }
    }

    fn judged_append(&self, booking: Booking) -> Held {
        let (shape, times, operands, tolerance) = (self.shape, &self.times, self.operands(), self.call.tolerance);
        let before = self.before.each_ref().map(|xs| &xs[..]);
        match self.form {
            Form::Empty => judge::append_point(booking, shape, times, operands, tolerance, before),
            Form::Occupied => judge::append_point_occupied(booking, shape, times, operands, &self.call.block.lent(), tolerance, before),
        }
    }

    /// A run, and where its work stops, which is told of one from a block.
    pub fn run(&self, booking: Booking) -> (Outcome, Left, Option<judge::stages::Stage>) {
        let (answer, left) = self.ran(booking);
        let theirs = self.judged_run(booking, &self.before);
        (held(answer, &left.slices, &left.counters, &theirs), left, theirs.stage)
    }

    /// An append beside the port's operations on blocks, and where its work stops.
    pub fn append(&self, booking: Booking) -> (Outcome, Left, Option<judge::stages::Stage>) {
        let (answer, left) = self.appended(booking);
        let theirs = self.judged_append(booking);
        (held(answer, &left.slices, &left.counters, &theirs), left, theirs.stage)
    }

    /// What an append leaves in its slices beside the judge's run over all points, which without a block is the port's, begun on the slices before the first call of the history. Of a refused
    /// append the answer alone is compared; 17 is of the append's desk, and the run over all points is not asked it.
    pub fn whole(&self, appended: &Outcome, slices: &Slices<4>, before: &Slices<4>) -> Outcome {
        if appended.number == 17 {
            return Outcome::of(judge::Refused::by(17), 0, 0);
        }
        let shape = Shape { points: self.shape.points + 1, ..self.shape };
        let theirs = Self { shape, ..self.clone() }.judged_run(Booking::FIRST, before);
        let number = theirs.judged.answer.map_or_else(|refused| refused.number, |_| 0);
        let (listed, agrees) = (theirs.judged.listed, theirs.judged.agrees);
        let differs = usize::from(number != appended.number) + usize::from(!agrees);
        if number != 0 {
            return Outcome { listed, ..Outcome::of(judge::Refused::by(number), 1, differs) };
        }
        let pairs = || slices.iter().flatten().zip(theirs.slices.iter().flatten());
        let unequal = pairs().filter(|(x, y)| x.to_bits() != y.to_bits()).count();
        Outcome { listed, ..Outcome::of(judge::Refused::by(0), pairs().count(), unequal + differs) }
    }

    pub fn density_matrix(&self) -> Outcome {
        let ([lesser], time) = (self.operands(), self.call.time);
        let ours = |out: &mut here::Block| here::density_matrix(lesser, ours_of(self.shape), time, out);
        block_outcome(ours, judge::density_matrix_in_capacity(self.shape, lesser, time))
    }

    pub fn particle_number(&self) -> Outcome {
        let ([lesser], time, tolerance) = (self.operands(), self.call.time, self.call.tolerance);
        let ours = here::particle_number(lesser, ours_of(self.shape), time, tolerance);
        judged(ours, judge::particle_number_in_capacity(self.shape, lesser, time, tolerance), |x| vec![x])
    }

    pub fn one_body_expectation(&self) -> Outcome {
        let ([lesser], time, tolerance, observable) = (self.operands(), self.call.time, self.call.tolerance, self.call.block.lent());
        let here = here::one_body_expectation(lesser, ours_of(self.shape), time, &ours(&observable), tolerance);
        judged(here, judge::one_body_expectation_in_capacity(self.shape, lesser, time, &observable, tolerance), |x| vec![x])
    }

    pub fn bond_flow_into(&self) -> Outcome {
        let ([lesser], call) = (self.operands(), &self.call);
        let [a, b] = call.bond;
        let ours = here::bond_flow_into(lesser, ours_of(self.shape), call.time, a, b, call.hopping, call.charge);
        let theirs = judge::bond_flow_into_in_capacity(self.shape, lesser, call.time, call.bond, call.hopping, call.charge);
        outcome(ours, theirs, |x| vec![x])
    }
}
