//! The norm and the operations on blocks.
use crate::lines::{block_refusal, finite, limits, matrices, matrix, refusal, require};
use crate::{Answer, Judged, Refused};
use keldysh_green::{kept, Complex64, DenseMatrix};

/// 16 by 16 entries of two parts.
const NUMBERS: usize = 512;

/// A block by its rows, its columns and 512 numbers, of which the first 2·rows·columns are its entries.
#[derive(Debug, Clone, PartialEq)]
pub struct Block {
    pub rows: usize,
    pub columns: usize,
    pub values: [f64; NUMBERS],
}

impl Block {
    fn of(rows: usize, columns: usize, numbers: &[f64], past: f64) -> Self {
        let mut values = [past; NUMBERS];
        values[..numbers.len()].copy_from_slice(numbers);
        Self { rows, columns, values }
    }

    /// The block of these numbers as it is lent, with NaN past them: no call reads past its entries.
    pub fn lent(rows: usize, columns: usize, numbers: &[f64]) -> Self {
        Self::of(rows, columns, numbers, f64::NAN)
    }

    /// The block beside a refusal.
    pub fn empty() -> Self {
        Self::of(0, 0, &[], 0.0)
    }

    /// The numbers of its entries, where its shape is within the limits.
    pub(crate) fn entries(&self) -> &[f64] {
        &self.values[..2 * self.rows * self.columns]
    }
}

impl From<DenseMatrix> for Block {
    /// +0 stands past its entries.
    fn from(x: DenseMatrix) -> Self {
        Self::of(x.rows(), x.columns(), &shared::parts(&x), 0.0)
    }
}

pub fn norm(re: f64, im: f64) -> f64 {
    Complex64::new(re, im).norm()
}

pub fn from_numbers(rows: usize, columns: usize, numbers: &[f64]) -> Answer<Block> {
    limits(None, &[rows, columns])?;
    require(numbers.len() == 2 * rows * columns, 3)?;
    Ok(matrix(0, rows, columns, numbers)?.into())
}

/// The 1 by 1 block of a number, by its real and its imaginary part.
pub fn from_scalar(value: [f64; 2]) -> Answer<Block> {
    Ok(finite(0, &value, DenseMatrix::from_scalar(Complex64::new(value[0], value[1])))?.into())
}

pub fn zero(size: usize) -> Answer<Block> {
    limits(None, &[size])?;
    Ok(kept::zero(size).map_err(refusal)?.into())
}

pub fn identity(size: usize) -> Answer<Block> {
    limits(None, &[size])?;
    Ok(DenseMatrix::identity(size).map_err(block_refusal)?.into())
}

pub fn adjoint(x: &Block) -> Answer<Block> {
    let [x] = matrices([x], true)?;
    Ok(x.adjoint().into())
}

/// Each entry times a factor, by its real and its imaginary part.
pub fn scale(x: &Block, factor: [f64; 2]) -> Answer<Block> {
    let [x] = matrices([x], true)?;
    Ok(kept::scale(&x, Complex64::new(factor[0], factor[1])).map_err(refusal)?.into())
}

pub fn multiply(left: &Block, right: &Block) -> Answer<Block> {
    let [x, y] = matrices([left, right], left.columns == right.rows)?;
    Ok(x.multiply(&y).map_err(block_refusal)?.into())
}

/// Two blocks of one shape.
fn alike(left: &Block, right: &Block) -> Answer<[DenseMatrix; 2]> {
    matrices([left, right], (left.rows, left.columns) == (right.rows, right.columns))
}

pub fn add(left: &Block, right: &Block) -> Answer<Block> {
    let [x, y] = alike(left, right)?;
    Ok(kept::add(&x, &y).map_err(refusal)?.into())
}

pub fn subtract(left: &Block, right: &Block) -> Answer<Block> {
    let [x, y] = alike(left, right)?;
    Ok(x.subtract(&y).map_err(block_refusal)?.into())
}

/// The sum of the diagonal, by its real and its imaginary part.
pub fn trace(x: &Block) -> Judged<[f64; 2]> {
    Judged::trace(matrices([x], x.rows == x.columns).and_then(|[x]| x.trace().map_err(block_refusal)))
}

/// An entry, by its real and its imaginary part.
pub fn get(x: &Block, row: usize, column: usize) -> Answer<[f64; 2]> {
    let [x] = matrices([x], true)?;
    let entry = x.get(row, column).ok_or(Refused::by(12))?;
    Ok([entry.re, entry.im])
}

pub fn max_difference(left: &Block, right: &Block) -> Answer<f64> {
    let [x, y] = alike(left, right)?;
    kept::max_difference(&x, &y).map_err(refusal)
}

pub fn is_hermitian(x: &Block, tolerance: f64) -> Answer<bool> {
    let [x] = matrices([x], true)?;
    x.is_hermitian(tolerance).map_err(block_refusal)
}
