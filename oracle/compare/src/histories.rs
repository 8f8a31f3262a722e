//! Histories of either form: a run in a capacity, then appends, each told the points that the call before left, all in one session, at one desk or at several. After each
//! the four slices are those of the port's own run over all points, in bits, what stood beyond the points stands there still, and the counters have more by
//! the counts of their desks' calls, together as much as the run over all points. Then the observables, asked in the capacity.
use crate::calls;
use crate::inputs::{wrapped, Call, Counter};
use crate::laid::{Form, Laid};
use crate::one_point;
use crate::sessions::sum;
use crate::sides::{counted, Outcome};
use crate::source::Source;
use crate::stages::{grown, STEPS};
use crate::Job;
use judge::{Booking, Counters, Refused, Shape, Slices, DESKS};

const PART: &str = "histories";
const LONG_PART: &str = "long histories";
/// The append of each form, the function whose inputs it takes, and the form.
const FORMS: [(&str, &str, Form); 2] =
    [("append_point", "transient_run", Form::Empty), ("append_point_occupied", "transient_run_occupied", Form::Occupied)];

const OBSERVABLES: [fn(&Laid) -> Outcome; 4] =
    [Laid::density_matrix, Laid::particle_number, Laid::one_body_expectation, Laid::bond_flow_into];

/// What a history is made of: its inputs over all points, the points of its run, the capacity, the desks that its calls name by turns, and what the counters
/// hold before the first.
struct Plan {
    form: Form,
    call: Call,
    first: usize,
    capacity: usize,
    desks: Vec<usize>,
    counters: Counters,
}

impl Plan {
    fn shape(&self, points: usize) -> Shape {
        Shape { points, capacity: self.capacity, orbitals: self.call.orbitals }
    }

    /// What a call that is told so many points, and reads so many, is lent: other room each time, and slices that hold this.
    fn lent(&self, source: &mut Source, told: usize, read: usize, before: &Slices<4>) -> Laid {
        let (times, operands) = source.lent(&self.call, self.shape(read));
        Laid { form: self.form, shape: self.shape(told), times, operands, before: before.clone(), call: self.call.clone() }
    }

    /// The observables of a lesser function of so many points, at a time that may be past them.
    fn observed(&self, source: &mut Source, points: usize, lesser: &[f64]) -> Outcome {
        let call = Call { time: source.below(points + 1), ..self.call.clone() };
        let laid = Laid {
            form: self.form,
            shape: self.shape(points),
            times: vec![],
            operands: vec![lesser.to_vec()],
            before: Default::default(),
            call,
        };
        OBSERVABLES.iter().fold(Outcome::of(Refused::by(0), 0, 0), |all, observe| all.and(&observe(&laid)))
    }

    /// What stands in the slices before the first call.
    fn begun(&self, source: &mut Source) -> Slices<4> {
        [(); 4].map(|()| source.room(wrapped(self.capacity, self.call.orbitals)))
    }

    /// The desk of the append to so many points; the run is at the first.
    fn desk(&self, points: usize) -> usize {
        self.desks[(points + 1 - self.first) % self.desks.len()]
    }

    /// The counters after the run and the appends up to so many points, and the sum of what they have more.
    fn booked(&self, points: usize, counters: &Counters) -> Outcome {
        let mut due = self.counters;
        due[self.desks[0]] += self.form.products(self.first);
        (self.first..points).for_each(|old| due[self.desk(old)] += self.form.appended_products(old));
        let more = sum(counters) == sum(&self.counters) + u128::from(self.form.products(points));
        counted(counters, &due).and(&Outcome::of(Refused::by(0), 1, usize::from(!more)))
    }

    /// Up to the first call that is refused. The tolerance of each call is its own.
    fn compared(mut self, source: &mut Source) -> Outcome {
        let before = self.begun(source);
        let booking = Booking { desk: self.desks[0], counters: self.counters };
        let (mut all, mut left, _) = self.lent(source, self.first, self.first, &before).run(booking);
        let (ran, mut points, mut lesser) = (all.number == 0, self.first, left.slices[1].clone());
        while all.number == 0 && points < self.call.points {
            self.call.tolerance = source.tolerance();
            let laid = self.lent(source, points, points + 1, &left.slices);
            let (appended, made, _) = laid.append(Booking { desk: self.desk(points), counters: left.counters });
            let whole = laid.whole(&appended, &made.slices, &before);
            let listed = whole.listed.or(all.listed);
            all = Outcome { listed, ..appended.and(&whole).and(&all) };
            left = made;
            if all.number == 0 {
                (points, lesser) = (points + 1, left.slices[1].clone());
            }
        }
        if !ran {
            let number = all.number;
            return all.under(format!("the run refused {number}"));
        }
        let appends = ["no append", "one append", "two appends", "three appends or more"][(points - self.first).min(3)];
        let label = if all.number == 0 { appends.into() } else { format!("refused {} after {appends}", all.number) };
        all.and(&self.booked(points, &left.counters)).and(&self.observed(source, points, &lesser)).under(label)
    }

    /// All the way, compared at the end alone.
    fn compared_at_the_end(self, source: &mut Source) -> Outcome {
        let before = self.begun(source);
        let booking = Booking { desk: self.desks[0], counters: self.counters };
        let (mut answer, mut left) = self.lent(source, self.first, self.first, &before).ran(booking);
        let mut last = None;
        for points in self.first..self.call.points {
            assert_eq!(answer.number, 0, "a history of ordinary numbers");
            let laid = self.lent(source, points, points + 1, &left.slices);
            (answer, left) = laid.appended(Booking { desk: self.desk(points), counters: left.counters });
            last = Some(laid);
        }
        let accepted = Outcome::of(Refused::by(answer.number), 0, 0);
        let whole = last.expect("an append").whole(&accepted, &left.slices, &before);
        let observed = self.observed(source, self.call.points, &left.slices[1]);
        let all = whole.and(&self.booked(self.call.points, &left.counters)).and(&observed);
        all.under(format!("to {} points of {} orbitals", self.call.points, self.call.orbitals))
    }
}

impl Source {
    /// Inputs of ordinary numbers or of any, of which some grow at late points until an append overflows.
    fn plan(&mut self, base: &str, form: Form) -> Plan {
        let f = calls::function(base);
        let mut call = match self.below(8) {
            0 | 1 => self.small_call(f),
            2 => one_point::run(self),
            _ => {
                let (points, orbitals) = (3 + self.below(10), 1 + self.below(4));
                let step = self.pick(&[0.1, 1.0, 1.0, 2.0, 5e-324]);
                let times = self.times_of_step(points, step);
                self.plain_call(f, (points, orbitals), times)
            }
        };
        let first = if self.one_in(2) { 2 } else { 2 + self.below(call.points - 1) };
        if self.one_in(3) {
            self.grow(&mut call, first);
        }
        let (desks, counters) = self.desks(form.products(call.points));
        Plan { form, first, capacity: call.points + self.pick(&[0, 0, 1, 2, 4]), call, desks, counters }
    }

    /// One to three desks, and the counters. Those of the desks have room for so many products, but one in six times one of them has not.
    fn desks(&mut self, count: u64) -> (Vec<usize>, Counters) {
        let desks: Vec<usize> = (0..1 + self.below(3)).map(|_| self.below(DESKS)).collect();
        let mut counters = self.counters();
        for &desk in &desks {
            counters[desk] = self.counter().before(count);
        }
        if self.one_in(6) {
            let short = Counter::Past(1 + self.below(count as usize) as i64);
            counters[self.pick(&desks)] = short.before(count);
        }
        (desks, counters)
    }

    /// Makes numbers large in some operands, at places whose larger index is late.
    fn grow(&mut self, call: &mut Call, first: usize) {
        let (block, late) = (2 * call.orbitals * call.orbitals, first + self.below(call.points - first + 1));
        let points = call.points;
        for xs in &mut call.operands {
            if self.one_in(2) {
                continue;
            }
            let exponent = STEPS * self.pick(&[100, 300, 500, 520, 700, 1000, 1020]);
            for (place, xs) in xs.chunks_mut(block).enumerate() {
                if (place / points).max(place % points) >= late {
                    let large = grown(xs, exponent);
                    xs.copy_from_slice(&large);
                }
            }
        }
    }
}

pub fn jobs(calls: u64, seed: u64) -> Vec<Job> {
    let jobs = FORMS.map(|(name, base, form)| {
        Job::of(PART, name, calls, move |index| {
            let source = &mut Source::of(seed, [PART, name], index);
            source.plan(base, form).compared(source)
        })
    });
    jobs.into()
}

/// From two points up to each size of the benchmark.
const LONG: [(usize, usize); 5] = [(256, 1), (128, 2), (64, 4), (32, 8), (16, 16)];

pub fn long(seed: u64) -> Vec<Job> {
    let jobs = FORMS.map(|(name, base, form)| {
        Job::of(LONG_PART, name, LONG.len() as u64, move |index| {
            let source = &mut Source::of(seed, [LONG_PART, name], index);
            let (points, orbitals) = LONG[index as usize];
            let times = source.times_of_step(points, 0.1);
            let mut call = source.plain_call(calls::function(base), (points, orbitals), times);
            call.tolerance = 1e-12;
            // Larger numbers overflow on so many points.
            call.operands.iter_mut().for_each(|xs| xs.iter_mut().for_each(|x| *x /= (points * orbitals) as f64));
            let capacity = if points < 256 { points + 3 } else { points };
            let (desks, counters) = (vec![7, 0, 3], [(); DESKS].map(|()| source.counter().before(form.products(points))));
            Plan { form, call, first: 2, capacity, desks, counters }.compared_at_the_end(source)
        })
    });
    jobs.into()
}
