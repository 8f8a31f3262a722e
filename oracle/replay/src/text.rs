//! Answers as the list's text has them.
use judge::{Answer, Block, Held, Judged, Refused, Slices};
use shared::Xorshift;

pub fn number(x: f64) -> String {
    if x.is_nan() {
        "nan".into()
    } else {
        format!("{:016x}", x.to_bits())
    }
}

pub fn numbers(xs: &[f64]) -> String {
    xs.iter().map(|&x| number(x)).collect::<Vec<_>>().join(" ")
}

pub fn decided(yes: bool) -> String {
    if yes { "yes" } else { "no" }.into()
}

fn refused(x: Refused) -> String {
    format!("refused {} {} {} {} {}", x.number, x.operand, x.first, x.second, number(x.part))
}

/// What an accepted call answers, or the refusal.
pub fn answered<T>(answer: Answer<T>, told: impl Fn(T) -> String) -> String {
    answer.map_or_else(refused, told)
}

/// An observable's number, its imaginary part, or another refusal.
pub fn observed(answer: Answer<f64>) -> String {
    match answer {
        Err(Refused { number: 14, part, .. }) => format!("not-real {}", number(part)),
        answer => answered(answer, number),
    }
}

fn verdict<T>(answer: &Answer<T>) -> String {
    answered(answer.as_ref().map_err(|refused| *refused), |_| "accepted".into())
}

pub fn accepted(answer: Answer<()>) -> String {
    verdict(&answer)
}

/// The block's shape and its numbers up to the last that is not +0; beside a refusal it is empty.
pub fn block(answer: Answer<Block>) -> String {
    let verdict = verdict(&answer);
    let x = answer.unwrap_or_else(|_| Block::empty());
    let length = x.values.iter().rposition(|x| x.to_bits() != 0).map_or(0, |last| last + 1);
    let shape = format!("{verdict} {} {}", x.rows, x.columns);
    x.values[..length].iter().fold(shape, |text, &x| text + " " + &number(x))
}

/// One word for many numbers.
fn digest(xs: &[f64]) -> String {
    let mut state = Xorshift(0x9e37_79b9_7f4a_7c15);
    for x in xs {
        state.0 ^= x.to_bits();
        state.bits();
    }
    format!("{:016x}", state.0)
}

/// What the slices lent for it hold after a call: what was made, +0 after 10, what they held after another refusal.
pub fn filled<const COUNT: usize>(judged: impl Into<Judged<Slices<COUNT>>>, held: Slices<COUNT>, by_digest: bool) -> String {
    let answer = judged.into().agreed();
    let verdict = verdict(&answer);
    let holds = answer.unwrap_or_else(|refused| match refused.number {
        10 => held.map(|xs| vec![0.0; xs.len()]),
        _ => held,
    });
    let told = if by_digest { digest } else { numbers };
    let slices = holds.iter().map(|xs| told(xs)).filter(|text| !text.is_empty());
    slices.fold(verdict, |text, slice| text + " " + &slice)
}

fn with_slices(verdict: String, slices: &Slices<4>) -> String {
    slices.iter().map(|xs| numbers(xs)).filter(|text| !text.is_empty()).fold(verdict, |text, slice| text + " " + &slice)
}

/// The verdict of a run or an append in a capacity, and what its four slices hold.
pub fn held(x: Held) -> String {
    with_slices(verdict(&x.judged.agreed()), &x.slices)
}

/// The same in a session: an accepted call has its count, and the counters come before the slices.
pub fn booked(x: Held) -> String {
    let verdict = answered(x.judged.agreed(), |count| format!("accepted {count}"));
    with_slices(x.counters.iter().fold(verdict, |text, counter| format!("{text} {counter}")), &x.slices)
}
