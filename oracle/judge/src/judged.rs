//! The answer to a call on which document 02 parts from the port: the port's, or document 02's with the listed difference that it is.
use crate::lines::refusal;
use crate::sums::{Made, OnePoint, Stage, Work, ONE_POINT};
use crate::{Answer, Refused};
use keldysh_green::{Complex64, RealTimeGrid, TwoTimeMatrix};
use shared::numbers;
use std::fmt::{self, Display, Formatter};

/// What a call leaves in each slice that it is lent for it.
pub type Slices<const COUNT: usize> = [Vec<f64>; COUNT];
pub type Filled<const COUNT: usize> = Answer<Slices<COUNT>>;

/// A difference from the port that document 02 makes.
#[derive(Debug, Clone, Copy, PartialEq, Eq, PartialOrd, Ord)]
pub enum Listed {
    /// The port forms a product where an interval has one point, start = end, and refuses by 10, in this sum; document 02 has none there.
    OnePoint(&'static str),
    /// The port says yes by its six residuals; the seventh, which it does not have, is above the tolerance.
    EqualTime,
    /// The port refuses an observable by this number before it asks the tolerance, which document 02 asks first: 8.
    BeforeTolerance(u8),
    /// The port answers this to a trace of which a part is not finite, which document 02 refuses by 10.
    InfiniteTrace(&'static str),
}

impl Display for Listed {
    fn fmt(&self, f: &mut Formatter) -> fmt::Result {
        match self {
            Self::OnePoint(sum) => write!(f, "10 on one point in {sum}"),
            Self::EqualTime => write!(f, "yes by six residuals"),
            Self::BeforeTolerance(number) => write!(f, "{number} before 8"),
            Self::InfiniteTrace(answer) => write!(f, "{answer}"),
        }
    }
}

#[derive(Clone)]
pub struct Judged<T> {
    /// The port's answer, or document 02's where the port has another.
    pub answer: Answer<T>,
    /// The difference, where it is document 02's.
    pub listed: Option<Listed>,
    /// Whether what the judge did again agrees with the port: the sums without products on one point answer as the port does, in all bits or
    /// by the stage at which it stops. Where the port stops on one point they are not to. Of an observable, whether the port asks the
    /// tolerance, what it refuses by before, and whether its answer is that of the trace.
    pub agrees: bool,
}

impl<T> From<Answer<T>> for Judged<T> {
    /// The port's answer to a call that document 02 leaves as it was.
    fn from(answer: Answer<T>) -> Self {
        Self { answer, listed: None, agrees: true }
    }
}

impl<T> Judged<T> {
    /// The answer, where nothing speaks against it.
    pub fn agreed(self) -> Answer<T> {
        assert!(self.agrees, "what was done again is not the port's");
        self.answer
    }
}

impl Judged<[f64; 2]> {
    /// A trace by its real and its imaginary part.
    pub(crate) fn trace(port: Answer<Complex64>) -> Self {
        match port {
            Ok(sum) if !finite(sum) => {
                Self { answer: Err(Refused::by(10)), listed: Some(Listed::InfiniteTrace("an infinite trace")), agrees: true }
            }
            port => port.map(|sum| [sum.re, sum.im]).into(),
        }
    }
}

fn finite(z: Complex64) -> bool {
    z.re.is_finite() && z.im.is_finite()
}

impl Judged<f64> {
    /// An observable whose lines 1 to 7 are asked: the port's answer, and the port's trace or what it refuses by before it has one, which
    /// is 11 or 10.
    pub(crate) fn observed(tolerance: f64, trace: Answer<Complex64>, port: Answer<f64>) -> Self {
        let tolerated = tolerance.is_finite() && tolerance > 0.0;
        let expected = match trace {
            Err(refused) => Err(refused),
            Ok(_) if !tolerated => Err(Refused::by(8)),
            Ok(sum) if sum.im.abs() > tolerance => Err(Refused { part: sum.im, ..Refused::by(14) }),
            Ok(sum) => Ok(sum.re),
        };
        let (answer, listed) = match (trace, port) {
            (Err(refused), _) if !tolerated => (Err(Refused::by(8)), Some(Listed::BeforeTolerance(refused.number))),
            (Ok(sum), Ok(_)) if !finite(sum) => (Err(Refused::by(10)), Some(Listed::InfiniteTrace("an infinite number"))),
            (Ok(sum), Err(Refused { number: 14, part, .. })) if !finite(sum) => {
                let answer = if part.is_finite() { "14, real part infinite" } else { "14, imaginary part infinite" };
                (Err(Refused::by(10)), Some(Listed::InfiniteTrace(answer)))
            }
            _ => (port, None),
        };
        Self { answer, listed, agrees: port == expected }
    }
}

impl<const COUNT: usize> Judged<Slices<COUNT>> {
    /// The port's answer to a call that its lines 8 and 9 may refuse, judged by the same sums done again.
    pub(crate) fn of<const OPERANDS: usize>(
        call: Answer<(RealTimeGrid, [TwoTimeMatrix; OPERANDS])>,
        port: impl FnOnce(&RealTimeGrid, &[TwoTimeMatrix; OPERANDS]) -> keldysh_green::Result<[TwoTimeMatrix; COUNT]>,
        sums: fn(&Work, &[TwoTimeMatrix; OPERANDS]) -> Made<COUNT>,
    ) -> Self {
        let (grid, operands) = match call {
            Ok(call) => call,
            Err(refused) => return Err(refused).into(),
        };
        let again = |one_point| sums(&Work { grid: grid.clone(), one_point }, &operands).map(|made| made.each_ref().map(numbers));
        match port(&grid, &operands) {
            Ok(made) => {
                let made = made.each_ref().map(numbers);
                let agrees = again(OnePoint::LeftOut).is_ok_and(|again| bits(&again).eq(bits(&made)));
                Self { answer: Ok(made), listed: None, agrees }
            }
            Err(error) => match refusal(error) {
                refused @ Refused { number: 10, .. } => Self::stopped(refused, again),
                refused => Err(refused).into(),
            },
        }
    }

    /// The port refuses by 10: where it stops decides.
    fn stopped(port: Refused, again: impl Fn(OnePoint) -> Result<Slices<COUNT>, Stage>) -> Self {
        let (stage, made) = (again(OnePoint::Formed).err(), again(OnePoint::LeftOut));
        match stage {
            Some([sum, ONE_POINT]) => Self { answer: made.map_err(|_| Refused::by(10)), listed: Some(Listed::OnePoint(sum)), agrees: true },
            stage => Self { answer: Err(port), listed: None, agrees: stage.is_some() && made.err() == stage },
        }
    }
}

fn bits<const COUNT: usize>(slices: &Slices<COUNT>) -> impl Iterator<Item = u64> + '_ {
    slices.iter().flatten().map(|x| x.to_bits())
}
