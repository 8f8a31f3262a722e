//! A session's counters of matrix products, one for each of eight desks (document 02, L3 and L13), which the port does not have: the count is the formula's,
//! 22 is asked before 1, and 17 after 9.
use crate::{Judged, Refused};

pub const DESKS: usize = 8;

/// What a session's counters hold, desk 0's first.
pub type Counters = [u64; DESKS];

/// The desk that a call names, and what the counters of its session hold before.
#[derive(Debug, Clone, Copy, PartialEq)]
pub struct Booking {
    pub desk: usize,
    pub counters: Counters,
}

impl Booking {
    /// Desk 0 of a session that is opened at zeros.
    pub const FIRST: Self = Self { desk: 0, counters: [0; DESKS] };
}

/// How many products of blocks a run over so many points forms; 256 are the most.
pub fn products(points: usize) -> u64 {
    let n = points.min(256) as u64;
    n * (n + 1) * (2 * n + 1) / 6 + n * n * (n + 1) - 3 * n
}

/// Those of an append to so many points: a run and its appends count like the run over all points.
pub fn appended_products(points: usize) -> u64 {
    products(points.saturating_add(1)) - products(points)
}

/// Those of a run that starts from a block: two more at each place.
pub fn occupied_products(points: usize) -> u64 {
    products(points) + 2 * (points.min(256) as u64).pow(2)
}

pub fn appended_occupied_products(points: usize) -> u64 {
    occupied_products(points.saturating_add(1)) - occupied_products(points)
}

impl<T> Judged<T> {
    /// The answer of a call of so many products that is booked so, and the counters afterwards. 22 comes before all others, 10 after 17.
    pub fn booked(self, Booking { desk, mut counters }: Booking, count: u64) -> (Self, Counters) {
        let number = self.answer.as_ref().map_or_else(|refused| refused.number, |_| 0);
        let agrees = self.agrees;
        let by = |number| Self { answer: Err(Refused::by(number)), listed: None, agrees };
        let Some(counter) = counters.get_mut(desk) else {
            return (by(22), counters);
        };
        match counter.checked_add(count) {
            None if matches!(number, 0 | 10) => (by(17), counters),
            Some(after) if number == 0 => {
                *counter = after;
                (self, counters)
            }
            _ => (self, counters),
        }
    }
}
