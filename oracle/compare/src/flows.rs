//! Lists of bond flows in a capacity: of a few queries, or of about as many as a list may have, of which some are refused; and faults of the whole call,
//! each drawn by itself.
use crate::inputs::{faults, VAST};
use crate::laid::ours_of;
use crate::sides::{outcome, same, Outcome};
use crate::source::{Source, NOT_FINITE};
use crate::Job;
use judge::{Answer, Refused, Shape};

const PART: &str = "lists";

/// What a call is lent.
pub struct List {
    pub shape: Shape,
    pub lesser: Vec<f64>,
    pub times: Vec<usize>,
    a: Vec<usize>,
    b: Vec<usize>,
    hoppings: Vec<f64>,
    factors: Vec<f64>,
    /// What the slices for the flows and for the refusals' numbers hold before.
    flows: Vec<f64>,
    numbers: Vec<u8>,
}

/// The flow of each query, and the number of its refusal.
type Flows = Answer<Vec<(f64, u8)>>;

impl List {
    pub fn queries(&self) -> here::Queries<'_> {
        here::Queries { times: &self.times, a: &self.a, b: &self.b, hoppings: &self.hoppings, charges: &self.factors }
    }

    /// Of slices of these lengths for the answers.
    pub fn judged(&self, outputs: [usize; 2]) -> Flows {
        let Self { times, a, b, hoppings, factors, .. } = self;
        judge::bond_flows_into(self.shape, &self.lesser, &judge::Queries { times, a, b, hoppings, factors }, outputs)
    }

    /// Both slices too, in all bits: a NaN's are free if it is a flow, and its own if it is what a refused call leaves.
    fn compared(&self, count: usize) -> Outcome {
        let (mut flows, mut numbers) = (self.flows.clone(), self.numbers.clone());
        let answer = here::bond_flows_into(&self.lesser, ours_of(self.shape), self.queries(), &mut flows, &mut numbers);
        let theirs = self.judged([flows.len(), numbers.len()]);
        let (due, refused): (Vec<f64>, Vec<u8>) = match &theirs {
            Ok(answers) => answers.iter().copied().unzip(),
            Err(_) => (self.flows.clone(), self.numbers.clone()),
        };
        let equal = |x: f64, y: f64| if theirs.is_ok() { same(x, y) } else { x.to_bits() == y.to_bits() };
        let unequal = flows.iter().zip(&due).filter(|(x, y)| !equal(**x, **y)).count();
        let unequal = unequal + numbers.iter().zip(&refused).filter(|(x, y)| x != y).count();
        let label = theirs.as_ref().map_or(faults(count), |answers| told(answers));
        let answered = outcome(if answer.number == 0 { Ok(()) } else { Err(answer) }, theirs.map(|_| ()), |()| vec![]);
        answered.and(&Outcome::of(Refused::by(0), flows.len() + numbers.len(), unequal)).under(label)
    }

    /// One of its slices.
    fn resize(&mut self, slice: usize, length: impl Fn(usize) -> usize) {
        match slice {
            0 => self.lesser.resize(length(self.lesser.len()), 1.0),
            1 => self.times.resize(length(self.times.len()), 0),
            2 => self.a.resize(length(self.a.len()), 0),
            3 => self.b.resize(length(self.b.len()), 0),
            4 => self.hoppings.resize(length(self.hoppings.len()), 1.0),
            5 => self.factors.resize(length(self.factors.len()), 1.0),
            6 => self.flows.resize(length(self.flows.len()), -1.25),
            _ => self.numbers.resize(length(self.numbers.len()), 7),
        }
    }
}

/// What an accepted list is counted under.
fn told(answers: &[(f64, u8)]) -> &'static str {
    let refused = answers.iter().filter(|(_, number)| *number != 0).count();
    match answers.len() {
        0 => "accepted, no query",
        count if refused == count => "accepted, all queries refused",
        _ if answers.iter().any(|(flow, _)| flow.is_nan()) => "accepted, a flow that is a NaN",
        _ if answers.iter().any(|(flow, _)| flow.is_infinite()) => "accepted, an infinite flow",
        _ if refused != 0 => "accepted, some queries refused",
        _ => "accepted, all flows finite",
    }
}

/// Hoppings and factors whose products overflow, or are none.
const LARGE: [f64; 4] = [f64::MAX, -f64::MAX, 1e300, 0.0];

impl Source {
    /// Adds a query. Half of them may be refused, by one question or by several.
    fn query(&mut self, list: &mut List) {
        let Shape { points, capacity, orbitals } = list.shape;
        let large = self.one_in(4);
        let mut factors = [(); 3].map(|()| if large { self.pick(&LARGE) } else { self.any() });
        let (mut time, mut bond, wrong) = (self.below(points), [(); 2].map(|()| self.below(orbitals)), self.one_in(2));
        if wrong && self.one_in(3) {
            factors[self.below(3)] = self.pick(&NOT_FINITE);
        }
        if wrong && self.one_in(3) {
            let none = [&[orbitals, orbitals + 1, 16], &VAST[..]].concat();
            bond[self.below(2)] = self.pick(&none);
        }
        if wrong && self.one_in(3) {
            time = self.pick(&[&[points, points + 1, capacity, 256], &VAST[..]].concat());
        }
        let ([a, b], [re, im, factor]) = (bond, factors);
        list.times.push(time);
        list.a.push(a);
        list.b.push(b);
        list.hoppings.extend([re, im]);
        list.factors.push(factor);
    }

    /// A list of so many queries that is not refused, unless it has too many.
    pub fn list(&mut self, count: usize) -> List {
        let (points, orbitals) = self.small_sizes();
        let most = orbitals == 1 && self.one_in(16);
        let capacity = if most { self.pick(&[255, 256]) } else { points + self.pick(&[0, 1, 1, 2, 5]) };
        let (palette, shape) = (self.palette(), Shape { points, capacity, orbitals });
        let entries = self.function(points, orbitals, 1.0, palette);
        let (lesser, flows) = (self.laid_out(&entries, points, shape), self.room(count));
        let numbers = (0..count).map(|_| self.bits() as u8).collect();
        let [times, a, b] = [(); 3].map(|()| vec![]);
        let mut list = List { shape, lesser, times, a, b, hoppings: vec![], factors: vec![], flows, numbers };
        (0..count).for_each(|_| self.query(&mut list));
        list
    }

    /// Entries that are not finite, sizes, and a slice of another length.
    fn damage_list(&mut self, list: &mut List) -> usize {
        let (mut count, Shape { points, capacity, orbitals }) = (0, list.shape);
        if self.one_in(4) {
            let block = 2 * orbitals * orbitals;
            for _ in 0..1 + self.below(3) {
                let (t, u) = (self.below(points), self.below(points));
                list.lesser[(t * capacity + u) * block + self.below(block)] = self.pick(&NOT_FINITE);
            }
            count += 1;
        }
        count += self.damage_laid_shape(&mut list.shape);
        if self.one_in(4) {
            let (slice, change) = (self.below(8), self.below(5));
            list.resize(slice, |length| [length.saturating_sub(1), length + 1, 0, 2 * length + 1, length / 2][change]);
            count += 1;
        }
        count
    }

    /// Half of the lists may have faults of the whole call.
    fn compared_list(&mut self, count: usize) -> Outcome {
        let mut list = self.list(count);
        let faults = if self.one_in(2) { 0 } else { self.damage_list(&mut list) };
        list.compared(faults + usize::from(count > 1024))
    }
}

/// A list of none to a few queries, of one to some forty one in sixteen times; and a list of about 1,024.
const LISTS: [(&str, fn(&mut Source) -> usize); 2] = [
    ("bond_flows_into", |source| if source.one_in(16) { 1 + source.below(40) } else { source.below(8) }),
    ("bond_flows_into at 1,024", |source| source.pick(&[1023, 1024, 1024, 1025, 1025, 1026, 2048])),
];

pub fn jobs(calls: u64, seed: u64) -> Vec<Job> {
    let long = calls / 32;
    let jobs = LISTS.into_iter().zip([calls - long, long]).map(|((name, queries), calls)| {
        Job::of(PART, name, calls, move |index| {
            let source = &mut Source::of(seed, [PART, name], index);
            let count = queries(source);
            source.compared_list(count)
        })
    });
    jobs.collect()
}
