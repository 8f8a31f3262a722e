//! How a call is measured, and how what the sides make is compared.
use std::hint::black_box;
use std::time::{Duration, Instant};

/// In a round the sides take turns until this has passed, at least one each.
const ROUND: Duration = Duration::from_millis(200);
/// A turn has as many calls as take this long, so that the reading of the clock does not matter.
const TURN: Duration = Duration::from_micros(100);

/// The least times of a call, in nanoseconds, and of building the port's inputs, where that is apart.
pub struct Times {
    pub here: f64,
    pub port: f64,
    pub build: Option<f64>,
}

pub fn time<T>(work: impl FnOnce() -> T) -> Duration {
    let start = Instant::now();
    let made = work();
    black_box(&made);
    // What was made is dropped after the clock is read.
    start.elapsed()
}

/// A turn of so many calls.
pub fn calls<T>(mut call: impl FnMut() -> T) -> impl FnMut(usize) -> Duration {
    move |count| {
        time(|| {
            for _ in 1..count {
                black_box(&call());
            }
            call()
        })
    }
}

/// How many rounds there are, and what was compared so far.
pub struct Bench {
    rounds: u32,
    pub same: usize,
    pub residuals: usize,
    pub differ: usize,
}

impl Bench {
    pub fn new(rounds: u32) -> Self {
        Self { rounds, same: 0, residuals: 0, differ: 0 }
    }

    /// Numbers that must be the same in bits.
    pub fn same(&mut self, here: &[f64], port: &[f64]) {
        assert_eq!(unequal(here, port), 0, "numbers differ in bits");
        self.same += here.len();
    }

    /// Numbers that may differ: largest norms, which in the port are hypot's.
    pub fn residuals(&mut self, here: &[f64], port: &[f64]) {
        self.differ += unequal(here, port);
        self.residuals += here.len();
    }

    /// The times of a call of each side, and of building the port's inputs.
    pub fn measure<A, B, C>(&self, here: impl FnMut() -> A, port: impl FnMut() -> B, build: impl FnMut() -> C) -> Times {
        let [here, port, build] = self.least([&mut calls(here), &mut calls(port), &mut calls(build)]);
        Times { here, port, build: Some(build) }
    }

    /// The least time of a call of each, in nanoseconds. A turn is given its count of calls.
    pub fn least<const K: usize>(&self, mut turns: [&mut dyn FnMut(usize) -> Duration; K]) -> [f64; K] {
        let (mut counts, mut least) = ([1; K], [f64::INFINITY; K]);
        let (start, mut done) = (Instant::now(), 0);
        while done < self.rounds || start.elapsed() < self.rounds * ROUND {
            for (turn, (count, least)) in turns.iter_mut().zip(counts.iter_mut().zip(&mut least)) {
                *least = least.min(one_turn(turn, count));
            }
            done += 1;
        }
        least
    }
}

/// The time of a call. A turn that is too short is made again with twice the calls.
fn one_turn(turn: &mut dyn FnMut(usize) -> Duration, count: &mut usize) -> f64 {
    loop {
        let time = turn(*count);
        if time >= TURN {
            return time.as_nanos() as f64 / *count as f64;
        }
        *count *= 2;
    }
}

/// How many numbers differ in bits.
pub fn unequal(xs: &[f64], ys: &[f64]) -> usize {
    assert_eq!(xs.len(), ys.len());
    xs.iter().zip(ys).filter(|(x, y)| x.to_bits() != y.to_bits()).count()
}
