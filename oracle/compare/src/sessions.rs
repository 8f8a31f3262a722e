//! Sessions: the run and the append at a desk, by what the counters hold before, and lists of calls of one session, each at a desk and onto contents of its
//! own, of which the accepted ones move their desks' counters by their counts.
use crate::capacities::{self, Function, APPEND, RUN};
use crate::inputs::{Counter, Desk};
use crate::sides::{counted, Outcome};
use crate::source::Source;
use crate::Job;
use judge::{Booking, Refused, DESKS};

const PART: &str = "sessions";

type Drawn = fn(&mut Source) -> Desk;

/// The desk, what its counter holds and what the others' hold, by turns.
const BOOKED: [(&str, Drawn); 8] = [
    ("counter at 0", |source| Desk { counter: Counter::Of(0), ..source.desk() }),
    ("any counter", |source| Desk { counter: Counter::Of(source.bits() >> source.below(64)), ..source.desk() }),
    ("just room", |source| Desk { counter: Counter::Past(0), ..source.desk() }),
    ("just room, others full", |source| Desk { counter: Counter::Past(0), others: [u64::MAX; DESKS], ..source.desk() }),
    ("one product short", |source| Desk { counter: Counter::Past(1), ..source.desk() }),
    ("one short, others at 0", |source| Desk { counter: Counter::Past(1), others: [0; DESKS], ..source.desk() }),
    ("full counter", |source| Desk { counter: Counter::Of(u64::MAX), ..source.desk() }),
    ("no desk", |source| Desk { number: source.no_desk(), ..source.desk() }),
];

/// Lists of calls that start from nothing, and of calls of both forms.
const LISTS: [(&str, &[Function]); 2] = [("lists of calls", &[RUN, APPEND]), ("lists of both forms", &capacities::BOOKED)];

/// Two to nine calls, of which one in eight names no desk. From zeros the eight sum to the counts of the accepted ones.
fn list(functions: &[Function], source: &mut Source) -> Outcome {
    let mut counters = if source.one_in(2) { [0; DESKS] } else { source.counters() };
    let (mut due, mut total, mut accepted) = (counters, sum(&counters), 0);
    let mut all = Outcome::of(Refused::by(0), 0, 0);
    for _ in 0..2 + source.below(8) {
        let function = source.pick(functions);
        let (laid, _) = source.laid(function);
        let desk = if source.one_in(8) { source.no_desk() } else { source.below(DESKS) };
        let (call, left, count) = laid.booked(function, Booking { desk, counters });
        if call.number == 0 {
            due[desk] += count;
            (total, accepted) = (total + u128::from(count), accepted + 1);
        }
        counters = left.counters;
        all = Outcome { listed: call.listed.or(all.listed), ..all.and(&call) };
        source.call += 1;
    }
    let sums = Outcome::of(Refused::by(0), 1, usize::from(sum(&counters) != total));
    let label = ["none", "one", "two", "three or more"][accepted.min(3)];
    all.and(&counted(&counters, &due)).and(&sums).under(format!("{label} accepted"))
}

/// What the counters hold together.
pub fn sum(counters: &judge::Counters) -> u128 {
    counters.iter().map(|&counter| u128::from(counter)).sum()
}

/// The run and the append, counted under what the counters hold, and the lists.
pub fn jobs(calls: u64, seed: u64) -> Vec<Job> {
    let alone = capacities::BOOKED.map(|function| {
        let (name, _, compare) = function;
        Job::of(PART, name, calls, move |index| {
            let source = &mut Source::of(seed, [PART, name], index);
            let (label, desk) = BOOKED[index as usize % BOOKED.len()];
            let (mut laid, _) = source.laid(function);
            laid.call.desk = desk(source);
            compare(&laid).under(format!("{name}, {label}"))
        })
    });
    let lists = LISTS.map(|(name, functions)| {
        Job::of(PART, name, calls, move |index| {
            let outcome = list(functions, &mut Source::of(seed, [PART, name], index));
            let label = format!("{name}, {}", outcome.label);
            outcome.under(label)
        })
    });
    alone.into_iter().chain(lists).collect()
}
