//! Document 01's lines 1 to 7. The port builds its values one at a time and has no limits: lines 1 to 3 are asked here, of the whole call
//! and before a value is built.
use crate::{Answer, Block, Refused};
use keldysh_green::{DenseMatrix, GreenError, KeldyshError, RealTimeGrid, TwoTimeMatrix};
use std::fmt::Debug;

pub fn require(yes: bool, number: u8) -> Answer<()> {
    if yes {
        Ok(())
    } else {
        Err(Refused::by(number))
    }
}

/// Lines 1 and 2 of N, where the call has it, and of n, rows and columns.
pub fn limits(points: Option<usize>, sides: &[usize]) -> Answer<()> {
    require(points.is_none_or(|n| n >= 2) && sides.iter().all(|&n| n >= 1), 1)?;
    require(points.is_none_or(|n| n <= 256) && sides.iter().all(|&n| n <= 16), 2)
}

/// Line 3 of functions, some of them by their lengths alone. The sizes are within the limits.
pub fn lengths(points: usize, orbitals: usize, operands: &[&[f64]], lent: &[usize]) -> Answer<()> {
    let length = 2 * (points * orbitals).pow(2);
    require(operands.iter().map(|xs| xs.len()).chain(lent.iter().copied()).all(|lent| lent == length), 3)
}

/// Lines 1 to 6 of a call on times, and on slices of N numbers by their lengths.
pub fn grid(points: usize, times: &[f64], lent: &[usize]) -> Answer<RealTimeGrid> {
    limits(Some(points), &[])?;
    require(times.len() == points && lent.iter().all(|&length| length == points), 3)?;
    RealTimeGrid::try_new(times.to_vec()).map_err(refusal)
}

/// What the port built of an operand's numbers, or line 7. Lines 1 to 3 are asked, so that it refuses what is not finite alone, and it does
/// not say which number that is.
pub fn finite<T, E: Debug>(operand: usize, xs: &[f64], built: Result<T, E>) -> Answer<T> {
    built.map_err(|error| {
        let first = xs.iter().position(|x| !x.is_finite()).unwrap_or_else(|| panic!("all numbers are finite: {error:?}"));
        Refused { operand, first, ..Refused::by(7) }
    })
}

/// Line 7 of functions.
pub fn built<const COUNT: usize>(points: usize, orbitals: usize, operands: [&[f64]; COUNT]) -> Answer<[TwoTimeMatrix; COUNT]> {
    let functions = operands.iter().enumerate().map(|(operand, xs)| finite(operand, xs, shared::function(points, orbitals, xs)));
    Ok(functions.collect::<Answer<Vec<_>>>()?.try_into().expect("one for each operand"))
}

/// Line 7 of a block.
pub fn matrix(operand: usize, rows: usize, columns: usize, numbers: &[f64]) -> Answer<DenseMatrix> {
    finite(operand, numbers, DenseMatrix::try_new(rows, columns, shared::entries(numbers)))
}

/// Lines 1 to 7 of functions alone.
pub fn functions<const COUNT: usize>(points: usize, orbitals: usize, operands: [&[f64]; COUNT]) -> Answer<[TwoTimeMatrix; COUNT]> {
    limits(Some(points), &[orbitals])?;
    lengths(points, orbitals, &operands, &[])?;
    built(points, orbitals, operands)
}

/// Lines 1 to 7 of functions of these times, and of slices lent for functions by their lengths.
pub fn functions_of_times<const COUNT: usize>(
    points: usize,
    orbitals: usize,
    times: &[f64],
    operands: [&[f64]; COUNT],
    lent: &[usize],
) -> Answer<(RealTimeGrid, [TwoTimeMatrix; COUNT])> {
    limits(Some(points), &[orbitals])?;
    lengths(points, orbitals, &operands, lent)?;
    let grid = grid(points, times, &[])?;
    Ok((grid, built(points, orbitals, operands)?))
}

/// Lines 1 to 7 of blocks, whose shapes fit or do not.
pub fn matrices<const COUNT: usize>(blocks: [&Block; COUNT], fit: bool) -> Answer<[DenseMatrix; COUNT]> {
    let sides: Vec<usize> = blocks.iter().flat_map(|x| [x.rows, x.columns]).collect();
    limits(None, &sides)?;
    require(fit, 3)?;
    let built = blocks.iter().enumerate().map(|(operand, x)| matrix(operand, x.rows, x.columns, x.entries()));
    Ok(built.collect::<Answer<Vec<_>>>()?.try_into().expect("one for each block"))
}

/// An error of the port by document 01's number, with its places. Lines 1 to 3 and 7 are asked: what is not finite was made.
pub fn refusal(error: KeldyshError) -> Refused {
    let by = Refused::by;
    match error {
        KeldyshError::NonFinite("real-time grid") => by(4),
        KeldyshError::UnorderedTimeGrid { index } => Refused { first: index, ..by(5) },
        KeldyshError::NonFinite("real-time quadrature weights") => by(6),
        KeldyshError::InvalidTolerance => by(8),
        KeldyshError::AcausalRetardedInput { name, first, second, relative_residual } => {
            Refused { operand: usize::from(name == "retarded self-energy"), first, second, part: relative_residual, ..by(9) }
        }
        KeldyshError::Matrix(_) => by(10),
        KeldyshError::IndexOutOfBounds { name: "first time argument", .. } => by(11),
        KeldyshError::IndexOutOfBounds { name: "bond orbital a" | "bond orbital b", .. } => by(12),
        KeldyshError::NonFinite("bond-current inputs") => by(13),
        KeldyshError::NonRealObservable { imaginary } => Refused { part: imaginary, ..by(14) },
        error => panic!("no number for {error:?}"),
    }
}

/// The same of an error of the port's blocks.
pub fn block_refusal(error: GreenError) -> Refused {
    match error {
        GreenError::InvalidTolerance => Refused::by(8),
        GreenError::NonFinite(_) => Refused::by(10),
        error => panic!("no number for {error:?}"),
    }
}
