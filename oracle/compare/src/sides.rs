//! What is compared of the two sides of a call.
use judge::{Counters, Held, Judged, Listed, Refused, Slices, DESKS};

/// What lent slices hold before a call.
pub const LENT: f64 = -7.25;

/// The number of the judge's refusal, or ours where it alone refuses, and 0 where both accept; the part that the refusal carries; how many
/// numbers are compared, and how many differ; the listed difference from the port; what the call is counted under in its part.
pub struct Outcome {
    pub number: u8,
    pub part: f64,
    pub compared: usize,
    pub unequal: usize,
    pub listed: Option<Listed>,
    pub label: String,
}

impl Outcome {
    pub fn of(refused: Refused, compared: usize, unequal: usize) -> Self {
        Self { number: refused.number, part: refused.part, compared, unequal, listed: None, label: String::new() }
    }

    pub fn under(self, label: impl Into<String>) -> Self {
        Self { label: label.into(), ..self }
    }

    /// The same call, of which more was compared.
    pub fn and(self, other: &Self) -> Self {
        Self { compared: self.compared + other.compared, unequal: self.unequal + other.unequal, ..self }
    }
}

/// Equal in bits, or both NaN, whose bits are free.
pub fn same(x: f64, y: f64) -> bool {
    x.to_bits() == y.to_bits() || x.is_nan() && y.is_nan()
}

fn refused(here: here::Answer) -> Refused {
    let here::Answer { number, operand, first, second, part } = here;
    Refused { number, operand, first, second, part }
}

/// The numbers of two answers. A refusal counts as five numbers. A call that one side alone refuses counts as one that differs.
pub fn outcome<T>(here: Result<T, here::Answer>, port: judge::Answer<T>, numbers: impl Fn(T) -> Vec<f64>) -> Outcome {
    match (here.map_err(refused), port) {
        (Ok(here), Ok(port)) => {
            let (here, port) = (numbers(here), numbers(port));
            assert_eq!(here.len(), port.len());
            let unequal = here.iter().zip(&port).filter(|(x, y)| !same(**x, **y)).count();
            Outcome::of(Refused::by(0), here.len(), unequal)
        }
        (Err(here), Err(port)) => {
            let equal = [
                here.number == port.number,
                here.operand == port.operand,
                here.first == port.first,
                here.second == port.second,
                same(here.part, port.part),
            ];
            Outcome::of(port, 5, equal.iter().filter(|x| !**x).count())
        }
        (Ok(_), Err(refused)) | (Err(refused), Ok(_)) => Outcome::of(refused, 1, 1),
    }
}

/// The same of a judged call, with its listed difference. Where what the judge did again is not the port's, one more number differs.
pub fn judged<T>(here: Result<T, here::Answer>, judged: impl Into<Judged<T>>, numbers: impl Fn(T) -> Vec<f64>) -> Outcome {
    let Judged { answer, listed, agrees } = judged.into();
    let outcome = outcome(here, answer, numbers);
    Outcome { listed, unequal: outcome.unequal + usize::from(!agrees), ..outcome }
}

/// The same of a call that was lent slices for what it makes, which after 10 hold +0 and after another refusal what they held.
pub fn filled<const COUNT: usize>(answer: here::Answer, lent: Slices<COUNT>, port: impl Into<Judged<Slices<COUNT>>>) -> Outcome {
    let made = |made: Slices<COUNT>| made.concat();
    if answer.number == 0 {
        return judged(Ok(lent), port, made);
    }
    let held: f64 = if answer.number == 10 { 0.0 } else { LENT };
    let left = lent.iter().flatten().filter(|x| !same(**x, held)).count();
    judged(Err(answer), port, made).and(&Outcome::of(Refused::by(0), lent.iter().flatten().count(), left))
}

/// A session's counters, and those that they are to be.
pub fn counted(counters: &Counters, due: &Counters) -> Outcome {
    Outcome::of(Refused::by(0), DESKS, counters.iter().zip(due).filter(|(x, y)| x != y).count())
}

/// The same of a call in a session whose slices are to hold what the judge has them hold, in all bits: what is not made is left, a NaN's bits too.
pub fn held(answer: here::Answer, slices: &Slices<4>, counters: &Counters, judged_by: &Held) -> Outcome {
    let here = if answer.number == 0 { Ok(0) } else { Err(answer) };
    let (ours, theirs) = (slices.iter().flatten(), judged_by.slices.iter().flatten());
    assert_eq!(ours.clone().count(), theirs.clone().count());
    let unequal = ours.clone().zip(theirs).filter(|(x, y)| x.to_bits() != y.to_bits()).count();
    let answered = judged(here, judged_by.judged.clone(), |_| vec![]);
    answered.and(&counted(counters, &judged_by.counters)).and(&Outcome::of(Refused::by(0), ours.count(), unequal))
}

/// A decision as a number.
pub fn decided(yes: bool) -> Vec<f64> {
    vec![f64::from(u8::from(yes))]
}

/// The block as it is lent to this side.
pub fn ours(x: &judge::Block) -> here::Block {
    here::Block { rows: x.rows, columns: x.columns, values: x.values }
}

/// The outcome of a call that makes a block: its shape and 512 numbers, +0 past its entries, and 0 by 0 and +0 throughout beside a refusal.
pub fn block_outcome(call: impl FnOnce(&mut here::Block) -> here::Answer, port: judge::Answer<judge::Block>) -> Outcome {
    let mut block = here::Block::room();
    let answer = call(&mut block);
    let told = |x: here::Block| [vec![x.rows as f64, x.columns as f64], x.values.to_vec()].concat();
    let port = port.map(|x| ours(&x));
    if answer.number == 0 {
        return outcome(Ok(block), port, told);
    }
    outcome(Err(answer), port, told).and(&outcome(Ok(block), Ok(ours(&judge::Block::empty())), told))
}
