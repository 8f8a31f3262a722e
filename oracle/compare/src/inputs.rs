//! What a call on two-time functions is lent: without a fault, and with faults that are drawn each by itself.
use crate::block_inputs::Numbers;
use crate::calls::Function;
use crate::source::{Palette, Source, NOT_FINITE};
use judge::{Booking, Counters, DESKS};

/// What a function may take besides its operands.
#[derive(Clone, Copy, PartialEq)]
pub enum Takes {
    Times,
    Tolerance,
    Time,
    /// Two orbitals, the hopping between them and the charge factor.
    Bond,
    /// That of the expectation, or the one that a run starts from.
    Block,
    Session,
}

/// What a desk's counter holds before a call.
#[derive(Clone, Copy)]
pub enum Counter {
    Of(u64),
    /// So far from the one that the call's count fills to 2^64 - 1: above 0 there is no room for it.
    Past(i64),
}

impl Counter {
    /// Before a call of so many products.
    pub fn before(self, count: u64) -> u64 {
        match self {
            Self::Of(counter) => counter,
            Self::Past(past) => (u64::MAX - count).saturating_add_signed(past),
        }
    }
}

/// The desk that a call names, what its counter holds before, and what the others' hold.
#[derive(Clone, Copy)]
pub struct Desk {
    pub number: usize,
    pub counter: Counter,
    pub others: Counters,
}

impl Desk {
    /// Desk 0 of a session that is opened at zeros.
    pub const FIRST: Self = Self { number: 0, counter: Counter::Of(0), others: [0; DESKS] };

    /// Before a call of so many products. The counter of a desk that there is not stands where the number's last bits say.
    pub fn before(self, count: u64) -> Booking {
        let mut counters = self.others;
        counters[self.number % DESKS] = self.counter.before(count);
        Booking { desk: self.number, counters }
    }
}

/// The inputs of all functions; each takes those that it names.
#[derive(Clone)]
pub struct Call {
    pub points: usize,
    pub orbitals: usize,
    pub times: Vec<f64>,
    pub operands: Vec<Vec<f64>>,
    /// The lengths of the slices lent for what is made.
    pub made: Vec<usize>,
    pub tolerance: f64,
    pub time: usize,
    pub bond: [usize; 2],
    pub hopping: [f64; 2],
    pub charge: f64,
    pub block: Numbers,
    pub desk: Desk,
}

/// The length of a function, where the product wraps as the machine's does.
pub fn wrapped(points: usize, orbitals: usize) -> usize {
    let side = points.wrapping_mul(orbitals);
    side.wrapping_mul(side).wrapping_mul(2)
}

impl Call {
    pub fn operands<const COUNT: usize>(&self) -> [&[f64]; COUNT] {
        std::array::from_fn(|operand| &self.operands[operand][..])
    }

    pub fn made<const COUNT: usize>(&self) -> [usize; COUNT] {
        std::array::from_fn(|slice| self.made[slice])
    }

    /// Changes the length of one slice that the function is lent, of times, operands and those for what it makes.
    pub fn resize(&mut self, f: &Function, slice: usize, length: impl Fn(usize) -> usize) {
        let past_times = slice.checked_sub(usize::from(f.takes(Takes::Times)));
        match past_times {
            None => self.times.resize(length(self.times.len()), 1e9),
            Some(operand) if operand < self.operands.len() => {
                let xs = &mut self.operands[operand];
                xs.resize(length(xs.len()), 1.0);
            }
            Some(place) => {
                let made = &mut self.made[place - self.operands.len()];
                *made = length(*made);
            }
        }
    }

    /// Gives all slices the lengths of other sizes.
    pub fn resize_all(&mut self, f: &Function, points: usize, function: usize) {
        for slice in 0..f.slices() {
            let times = slice == 0 && f.takes(Takes::Times);
            self.resize(f, slice, |_| if times { points } else { function });
        }
    }
}

/// What a call may have wrong, in the order in which it is done: contents, sizes, lengths.
#[derive(Clone, Copy)]
enum Fault {
    Times,
    Entry,
    Tolerance,
    Time,
    Orbital,
    Factor,
    Shape,
    Counter,
    Desk,
    Points,
    Orbitals,
    Length,
}

/// Faults, and what a function takes that can have them. The last three are of sizes and lengths.
const FAULTS: [(Fault, Option<Takes>); 12] = [
    (Fault::Times, Some(Takes::Times)),
    (Fault::Entry, None),
    (Fault::Tolerance, Some(Takes::Tolerance)),
    (Fault::Time, Some(Takes::Time)),
    (Fault::Orbital, Some(Takes::Bond)),
    (Fault::Factor, Some(Takes::Bond)),
    (Fault::Shape, Some(Takes::Block)),
    (Fault::Counter, Some(Takes::Session)),
    (Fault::Desk, Some(Takes::Session)),
    (Fault::Points, None),
    (Fault::Orbitals, None),
    (Fault::Length, None),
];

/// What a call of so many faults is counted under.
pub fn faults(count: usize) -> &'static str {
    ["no fault", "one fault", "two faults", "three faults or more"][count.min(3)]
}

/// Sizes above every limit, whose products wrap.
pub const VAST: [usize; 4] = [1 << 31, 1 << 32, 1 << 63, usize::MAX];

/// Tolerances that are refused.
pub const NO_TOLERANCE: [f64; 6] = [0.0, -0.0, -1.0, f64::INFINITY, f64::NEG_INFINITY, f64::NAN];

impl Source {
    /// All N from 2 to 6 with all n from 1 to 4 in turn, then N = 2 with an n from 5 to 16.
    pub fn small_sizes(&mut self) -> (usize, usize) {
        match self.call as usize % 21 {
            20 => (2, 5 + self.below(12)),
            turn => (2 + turn % 5, 1 + turn / 5),
        }
    }

    /// What is above the diagonal of one function in four that is to be retarded.
    fn above(&mut self, retarded: bool) -> f64 {
        match (retarded, self.one_in(4)) {
            (false, _) => 1.0,
            (true, false) => 0.0,
            (true, true) => self.pick(&[1e-13, 1e-12, 0.5, 1.0]),
        }
    }

    /// An operand with numbers of mostly this palette.
    fn operand(&mut self, (points, orbitals): (usize, usize), retarded: bool, palette: Palette) -> Vec<f64> {
        let (above, palette) = (self.above(retarded), self.mostly(palette));
        let mut xs = self.function(points, orbitals, above, palette);
        if self.one_in(16) {
            let at = self.below(xs.len());
            xs[at] = self.any();
        }
        xs
    }

    /// A call without a fault, of small sizes and any numbers.
    pub fn small_call(&mut self, f: &Function) -> Call {
        let (sizes, palette) = (self.small_sizes(), self.palette());
        let times = self.times(sizes.0);
        let operands = f.retarded.iter().map(|&retarded| self.operand(sizes, retarded, palette)).collect();
        let palette = self.mostly(palette);
        let mut call = self.call(f, sizes, times, operands, palette);
        if f.takes(Takes::Session) {
            call.desk = self.desk();
        }
        (f.arrange)(self, &mut call);
        call
    }

    /// One of the eight desks, with room for the call.
    pub fn desk(&mut self) -> Desk {
        Desk { number: self.below(DESKS), counter: self.counter(), others: self.counters() }
    }

    /// A number that no desk has: the next ones, those whose last bits or whose narrower word is a desk's, and the last.
    pub fn no_desk(&mut self) -> usize {
        let desk = self.below(DESKS);
        self.pick(&[DESKS, DESKS + desk, 256 + desk, (1 << 32) + desk, (1 << 63) + desk, usize::MAX - desk])
    }

    /// Counters that hold nothing, that are full, or each of these or near its end or anything.
    pub fn counters(&mut self) -> Counters {
        match self.below(3) {
            0 => [0; DESKS],
            1 => [u64::MAX; DESKS],
            _ => [(); DESKS].map(|()| match self.below(4) {
                0 => 0,
                1 => u64::MAX,
                2 => u64::MAX - self.below(1000) as u64,
                _ => self.bits(),
            }),
        }
    }

    /// Nothing, anything, or as much as leaves just room for the call.
    pub fn counter(&mut self) -> Counter {
        match self.below(4) {
            0 => Counter::Of(0),
            1 => Counter::Of(self.bits() >> (1 + self.below(63))),
            2 => Counter::Past(0),
            _ => Counter::Past(-(self.below(100) as i64)),
        }
    }

    /// Just no room for the call, less, or none at all.
    pub fn full_counter(&mut self) -> Counter {
        match self.below(4) {
            0 => Counter::Past(1),
            1 => Counter::Past(2 + self.below(9) as i64),
            2 => Counter::Of(u64::MAX),
            _ => Counter::Past(self.below(1 << 20) as i64 + 1),
        }
    }

    /// A call without a fault, whose numbers are from -0.5 to 0.5 and whose retarded operands are it.
    pub fn plain_call(&mut self, f: &Function, (points, orbitals): (usize, usize), times: Vec<f64>) -> Call {
        let operands = f.retarded.iter().map(|&retarded| {
            let above = if retarded { 0.0 } else { 1.0 };
            self.function(points, orbitals, above, Palette::Ordinary)
        });
        let operands = operands.collect();
        self.call(f, (points, orbitals), times, operands, Palette::Ordinary)
    }

    fn call(&mut self, f: &Function, sizes: (usize, usize), times: Vec<f64>, operands: Vec<Vec<f64>>, block: Palette) -> Call {
        let (points, orbitals) = sizes;
        Call {
            points,
            orbitals,
            times,
            operands,
            made: vec![wrapped(points, orbitals); f.made],
            tolerance: self.tolerance(),
            time: self.below(points),
            bond: [self.below(orbitals), self.below(orbitals)],
            hopping: [self.any(), self.any()],
            charge: self.any(),
            block: self.block_numbers([orbitals; 2], block),
            desk: Desk::FIRST,
        }
    }

    /// Half of the calls may have faults, and how many it has.
    pub fn faulty_call(&mut self, f: &Function) -> (Call, usize) {
        let mut call = self.small_call(f);
        let count = if self.one_in(2) { 0 } else { self.damages(f, &mut call, &FAULTS) };
        (call, count)
    }

    /// The same, with faults of contents alone.
    pub fn faulty_contents(&mut self, f: &Function) -> (Call, usize) {
        let mut call = self.small_call(f);
        let count = if self.one_in(2) { 0 } else { self.damages(f, &mut call, &FAULTS[..FAULTS.len() - 3]) };
        (call, count)
    }

    fn damages(&mut self, f: &Function, call: &mut Call, faults: &[(Fault, Option<Takes>)]) -> usize {
        let mut count = 0;
        for (fault, of) in faults {
            if of.is_none_or(|what| f.takes(what)) && self.one_in(5) {
                self.damage(f, call, *fault);
                count += 1;
            }
        }
        count
    }

    fn damage(&mut self, f: &Function, call: &mut Call, fault: Fault) {
        match fault {
            Fault::Times => self.damage_times(&mut call.times),
            Fault::Entry => self.damage_entries(f, call),
            Fault::Tolerance => call.tolerance = self.pick(&NO_TOLERANCE),
            Fault::Time => call.time = self.pick(&[call.points, call.points + 1, usize::MAX]),
            Fault::Orbital => {
                let side = self.below(2);
                call.bond[side] = self.pick(&[call.orbitals, call.orbitals + 1, usize::MAX]);
            }
            Fault::Factor => {
                let [re, im] = &mut call.hopping;
                *[re, im, &mut call.charge][self.below(3)] = self.pick(&NOT_FINITE);
            }
            Fault::Shape => self.damage_shape(&mut call.block),
            Fault::Counter => call.desk.counter = self.full_counter(),
            Fault::Desk => call.desk.number = self.no_desk(),
            Fault::Points => {
                call.points = self.pick(&[&[0, 1, 257], &VAST[..]].concat());
                self.follow(f, call);
            }
            Fault::Orbitals => {
                call.orbitals = self.pick(&[&[0, 17], &VAST[..]].concat());
                self.follow(f, call);
            }
            Fault::Length => {
                let (slice, change) = (self.below(f.slices()), self.below(4));
                call.resize(f, slice, |length| [length.saturating_sub(1), length + 1, 0, 2 * length][change]);
            }
        }
    }

    /// Half of the calls of other sizes are lent slices of the lengths that these would have, if they are short.
    fn follow(&mut self, f: &Function, call: &mut Call) {
        let length = wrapped(call.points, call.orbitals);
        if length <= 4096 && self.one_in(2) {
            call.resize_all(f, call.points.min(512), length);
        }
    }

    fn damage_times(&mut self, times: &mut [f64]) {
        let at = 1 + self.below(times.len() - 1);
        match self.below(4) {
            0 => times[at - self.below(2)] = self.pick(&NOT_FINITE),
            1 => times[at] = times[at - 1],
            2 => times.swap(at - 1, at),
            _ => {
                // A step that overflows, with times that rise before and after.
                let far = |k: usize| f64::MAX * (1.0 - k as f64 / 1024.0);
                let count = times.len();
                times.iter_mut().enumerate().for_each(|(k, time)| *time = if k < at { -far(k) } else { far(count - k) });
            }
        }
    }

    /// Up to three numbers that are not finite, in the block too.
    fn damage_entries(&mut self, f: &Function, call: &mut Call) {
        for _ in 0..1 + self.below(3) {
            let operand = self.below(f.retarded.len() + usize::from(f.takes(Takes::Block)));
            let xs = call.operands.get_mut(operand).unwrap_or(&mut call.block.numbers);
            let at = self.below(xs.len());
            xs[at] = self.pick(&NOT_FINITE);
        }
    }
}
