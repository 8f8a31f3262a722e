//! Calls both sides on the same inputs and compares every bit of every number: `compare [CALLS] [SEED]`, CALLS for each function in the
//! random part. `compare CALLS SEED PART` makes those of one part, `compare CALLS SEED PART FUNCTION CALL` one of them. The port has the correctly rounded
//! norm in hypot's place.
mod block_inputs;
mod blocks;
mod boundaries;
mod calls;
mod capacities;
mod exhaustive;
mod flows;
mod histories;
mod inputs;
mod laid;
mod limits;
mod mirrored;
mod observed;
mod one_point;
mod others;
mod random;
mod sessions;
mod sides;
mod smallest;
mod source;
mod stages;
mod tally;
mod tolerances;
mod written;

use sides::Outcome;
use std::ops::Range;
use std::process::ExitCode;
use std::sync::atomic::{AtomicUsize, Ordering};
use std::time::Instant;
use tally::Tally;

const THREADS: usize = 2;

/// Calls of one function, each made of its index alone.
pub struct Job {
    pub part: &'static str,
    pub function: &'static str,
    pub calls: u64,
    pub call: Box<dyn Fn(u64) -> Outcome + Sync>,
}

impl Job {
    pub fn of(part: &'static str, function: &'static str, calls: u64, call: impl Fn(u64) -> Outcome + Sync + 'static) -> Self {
        Self { part, function, calls, call: Box::new(call) }
    }
}

/// All jobs, those with long calls first.
fn jobs(calls: u64, seed: u64) -> Vec<Job> {
    let parts = [
        histories::long(seed),
        limits::jobs(seed),
        boundaries::jobs(seed),
        stages::jobs(calls / 2, seed),
        one_point::jobs(calls / 8, seed),
        smallest::jobs(),
        observed::jobs(),
        tolerances::jobs(calls / 4, seed),
        exhaustive::jobs(),
        written::jobs(seed),
        histories::jobs(calls / 2, seed),
        capacities::jobs(calls, seed),
        flows::jobs(2 * calls, seed),
        sessions::jobs(calls / 4, seed),
        random::jobs(calls, seed),
    ];
    parts.into_iter().flatten().collect()
}

fn main() -> ExitCode {
    let arguments: Vec<String> = std::env::args().skip(1).collect();
    let number = |at: usize, default| arguments.get(at).map_or(default, |text| text.parse().expect("a count, a seed or an index"));
    let (calls, seed, start) = (number(0, 20_000), number(1, 1), Instant::now());
    let mut jobs = jobs(calls, seed);
    if let Some(part) = arguments.get(2) {
        jobs.retain(|job| job.part == part);
    }
    let mut tally = if let [_, _, _, function, _] = &arguments[..] {
        jobs.retain(|job| job.function == function);
        one_call(&jobs, number(4, 0))
    } else {
        run(&jobs)
    };
    tally.print(seed);
    let total = tally.total();
    println!("{} calls, {} numbers, {} differ, {} seconds", total.calls, total.numbers, total.differ, start.elapsed().as_secs());
    ExitCode::from(u8::from(total.differ != 0))
}

fn one_call(jobs: &[Job], index: u64) -> Tally {
    let mut tally = Tally::default();
    jobs.iter().for_each(|job| tally.count(job.part, job.function, index, (job.call)(index)));
    tally
}

/// Makes all calls; which thread makes a call changes nothing.
fn run(jobs: &[Job]) -> Tally {
    let (chunks, next) = (chunks(jobs), AtomicUsize::new(0));
    let work = || {
        let mut tally = Tally::default();
        while let Some((job, indices)) = chunks.get(next.fetch_add(1, Ordering::Relaxed)) {
            indices.clone().for_each(|index| tally.count(job.part, job.function, index, (job.call)(index)));
        }
        tally
    };
    std::thread::scope(|scope| {
        let threads: Vec<_> = (0..THREADS).map(|_| scope.spawn(work)).collect();
        let tallies = threads.into_iter().map(|thread| thread.join().expect("a thread that ends"));
        tallies.fold(Tally::default(), |mut all, tally| {
            all.join(tally);
            all
        })
    })
}

/// A few calls each, one where there are few.
fn chunks(jobs: &[Job]) -> Vec<(&Job, Range<u64>)> {
    let of = |job: &Job| (job.calls / 64).clamp(1, 256);
    jobs.iter()
        .flat_map(|job| (0..job.calls.div_ceil(of(job))).map(move |k| (job, k * of(job)..((k + 1) * of(job)).min(job.calls))))
        .collect()
}
