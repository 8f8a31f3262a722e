//! The operations on blocks, and a chain of products, which `crates/block_exports` exports.
use crate::{answer, decided, measured, Answer};

/// 16 by 16 entries of two parts.
const NUMBERS: usize = 512;

/// A block by its rows, its columns and 512 numbers, of which the first 2·rows·columns are its entries.
#[derive(Debug, Clone, PartialEq)]
pub struct Block {
    pub rows: usize,
    pub columns: usize,
    pub values: [f64; NUMBERS],
}

impl Block {
    /// The block that begins with these numbers, and +0 past them.
    pub fn of(rows: usize, columns: usize, numbers: &[f64]) -> Self {
        let mut values = [0.0; NUMBERS];
        values[..numbers.len()].copy_from_slice(numbers);
        Self { rows, columns, values }
    }

    /// Room for a block, which holds none.
    pub fn room() -> Self {
        Self { rows: usize::MAX, columns: usize::MAX, values: [f64::NAN; NUMBERS] }
    }
}

mod exported {
    #[link(name = "leechgrommet", kind = "static")]
    extern "C" {
        pub fn leechgrommet_product_chain(a: *const f64, a_len: usize, b: *const f64, b_len: usize, size: usize, turns: usize) -> f64;

        pub fn leechgrommet_block_from_numbers(
            rows: usize,
            columns: usize,
            numbers: *const f64,
            numbers_len: usize,
            shape: *mut usize,
            shape_len: usize,
            out: *mut f64,
            out_len: usize,
            places: *mut usize,
            places_len: usize,
            part: *mut f64,
            part_len: usize,
        ) -> u8;

        pub fn leechgrommet_block_from_scalar(
            real: f64,
            imaginary: f64,
            shape: *mut usize,
            shape_len: usize,
            out: *mut f64,
            out_len: usize,
            places: *mut usize,
            places_len: usize,
            part: *mut f64,
            part_len: usize,
        ) -> u8;

        pub fn leechgrommet_block_zero(
            size: usize,
            shape: *mut usize,
            shape_len: usize,
            out: *mut f64,
            out_len: usize,
            places: *mut usize,
            places_len: usize,
            part: *mut f64,
            part_len: usize,
        ) -> u8;

        pub fn leechgrommet_block_identity(
            size: usize,
            shape: *mut usize,
            shape_len: usize,
            out: *mut f64,
            out_len: usize,
            places: *mut usize,
            places_len: usize,
            part: *mut f64,
            part_len: usize,
        ) -> u8;

        pub fn leechgrommet_block_adjoint(
            rows: usize,
            columns: usize,
            values: *const f64,
            shape: *mut usize,
            shape_len: usize,
            out: *mut f64,
            out_len: usize,
            places: *mut usize,
            places_len: usize,
            part: *mut f64,
            part_len: usize,
        ) -> u8;

        pub fn leechgrommet_block_scale(
            rows: usize,
            columns: usize,
            values: *const f64,
            real: f64,
            imaginary: f64,
            shape: *mut usize,
            shape_len: usize,
            out: *mut f64,
            out_len: usize,
            places: *mut usize,
            places_len: usize,
            part: *mut f64,
            part_len: usize,
        ) -> u8;

        pub fn leechgrommet_block_multiply(
            left_rows: usize,
            left_columns: usize,
            left: *const f64,
            right_rows: usize,
            right_columns: usize,
            right: *const f64,
            shape: *mut usize,
            shape_len: usize,
            out: *mut f64,
            out_len: usize,
            places: *mut usize,
            places_len: usize,
            part: *mut f64,
            part_len: usize,
        ) -> u8;

        pub fn leechgrommet_block_add(
            left_rows: usize,
            left_columns: usize,
            left: *const f64,
            right_rows: usize,
            right_columns: usize,
            right: *const f64,
            shape: *mut usize,
            shape_len: usize,
            out: *mut f64,
            out_len: usize,
            places: *mut usize,
            places_len: usize,
            part: *mut f64,
            part_len: usize,
        ) -> u8;

        pub fn leechgrommet_block_subtract(
            left_rows: usize,
            left_columns: usize,
            left: *const f64,
            right_rows: usize,
            right_columns: usize,
            right: *const f64,
            shape: *mut usize,
            shape_len: usize,
            out: *mut f64,
            out_len: usize,
            places: *mut usize,
            places_len: usize,
            part: *mut f64,
            part_len: usize,
        ) -> u8;

        pub fn leechgrommet_block_trace(
            rows: usize,
            columns: usize,
            values: *const f64,
            value: *mut f64,
            value_len: usize,
            places: *mut usize,
            places_len: usize,
            part: *mut f64,
            part_len: usize,
        ) -> u8;

        pub fn leechgrommet_block_get(
            rows: usize,
            columns: usize,
            values: *const f64,
            row: usize,
            column: usize,
            value: *mut f64,
            value_len: usize,
            places: *mut usize,
            places_len: usize,
            part: *mut f64,
            part_len: usize,
        ) -> u8;

        pub fn leechgrommet_block_max_difference(
            left_rows: usize,
            left_columns: usize,
            left: *const f64,
            right_rows: usize,
            right_columns: usize,
            right: *const f64,
            value: *mut f64,
            value_len: usize,
            places: *mut usize,
            places_len: usize,
            part: *mut f64,
            part_len: usize,
        ) -> u8;

        pub fn leechgrommet_block_is_hermitian(
            rows: usize,
            columns: usize,
            values: *const f64,
            tolerance: f64,
            decided: *mut u8,
            decided_len: usize,
            places: *mut usize,
            places_len: usize,
            part: *mut f64,
            part_len: usize,
        ) -> u8;
    }
}

/// A call that is lent a block, which it fills beside a refusal too.
pub(crate) fn filled(
    out: &mut Block,
    call: impl FnOnce(&mut [usize; 2], &mut [f64; NUMBERS], &mut [usize; 3], &mut [f64; 1]) -> u8,
) -> Answer {
    let mut shape = [out.rows, out.columns];
    let answer = answer(|places, part| call(&mut shape, &mut out.values, places, part));
    [out.rows, out.columns] = shape;
    answer
}

/// The first number of a·b·..·b, `turns` products of size by size blocks; of a block that was refused it is +0.
pub fn product_chain(a: &[f64], b: &[f64], size: usize, turns: usize) -> f64 {
    unsafe { exported::leechgrommet_product_chain(a.as_ptr(), a.len(), b.as_ptr(), b.len(), size, turns) }
}

pub fn block_from_numbers(rows: usize, columns: usize, numbers: &[f64], out: &mut Block) -> Answer {
    filled(out, |shape, out, places, part| unsafe {
        exported::leechgrommet_block_from_numbers(
            rows,
            columns,
            numbers.as_ptr(),
            numbers.len(),
            shape.as_mut_ptr(),
            shape.len(),
            out.as_mut_ptr(),
            out.len(),
            places.as_mut_ptr(),
            places.len(),
            part.as_mut_ptr(),
            part.len(),
        )
    })
}

/// The 1 by 1 block of one number, by its real and its imaginary part.
pub fn block_from_scalar(value: [f64; 2], out: &mut Block) -> Answer {
    filled(out, |shape, out, places, part| unsafe {
        exported::leechgrommet_block_from_scalar(
            value[0],
            value[1],
            shape.as_mut_ptr(),
            shape.len(),
            out.as_mut_ptr(),
            out.len(),
            places.as_mut_ptr(),
            places.len(),
            part.as_mut_ptr(),
            part.len(),
        )
    })
}

/// A call on a size that makes a block.
type Sized = unsafe extern "C" fn(
    size: usize,
    shape: *mut usize,
    shape_len: usize,
    out: *mut f64,
    out_len: usize,
    places: *mut usize,
    places_len: usize,
    part: *mut f64,
    part_len: usize,
) -> u8;

fn sized(call: Sized, size: usize, out: &mut Block) -> Answer {
    filled(out, |shape, out, places, part| unsafe {
        call(
            size,
            shape.as_mut_ptr(),
            shape.len(),
            out.as_mut_ptr(),
            out.len(),
            places.as_mut_ptr(),
            places.len(),
            part.as_mut_ptr(),
            part.len(),
        )
    })
}

pub fn block_zero(size: usize, out: &mut Block) -> Answer {
    sized(exported::leechgrommet_block_zero, size, out)
}

pub fn block_identity(size: usize, out: &mut Block) -> Answer {
    sized(exported::leechgrommet_block_identity, size, out)
}

pub fn block_adjoint(x: &Block, out: &mut Block) -> Answer {
    filled(out, |shape, out, places, part| unsafe {
        exported::leechgrommet_block_adjoint(
            x.rows,
            x.columns,
            x.values.as_ptr(),
            shape.as_mut_ptr(),
            shape.len(),
            out.as_mut_ptr(),
            out.len(),
            places.as_mut_ptr(),
            places.len(),
            part.as_mut_ptr(),
            part.len(),
        )
    })
}

/// Each entry times a factor, by its real and its imaginary part.
pub fn block_scale(x: &Block, factor: [f64; 2], out: &mut Block) -> Answer {
    filled(out, |shape, out, places, part| unsafe {
        exported::leechgrommet_block_scale(
            x.rows,
            x.columns,
            x.values.as_ptr(),
            factor[0],
            factor[1],
            shape.as_mut_ptr(),
            shape.len(),
            out.as_mut_ptr(),
            out.len(),
            places.as_mut_ptr(),
            places.len(),
            part.as_mut_ptr(),
            part.len(),
        )
    })
}

/// A call on two blocks that makes a block.
type Pair = unsafe extern "C" fn(
    left_rows: usize,
    left_columns: usize,
    left: *const f64,
    right_rows: usize,
    right_columns: usize,
    right: *const f64,
    shape: *mut usize,
    shape_len: usize,
    out: *mut f64,
    out_len: usize,
    places: *mut usize,
    places_len: usize,
    part: *mut f64,
    part_len: usize,
) -> u8;

fn pair(call: Pair, left: &Block, right: &Block, out: &mut Block) -> Answer {
    filled(out, |shape, out, places, part| unsafe {
        call(
            left.rows,
            left.columns,
            left.values.as_ptr(),
            right.rows,
            right.columns,
            right.values.as_ptr(),
            shape.as_mut_ptr(),
            shape.len(),
            out.as_mut_ptr(),
            out.len(),
            places.as_mut_ptr(),
            places.len(),
            part.as_mut_ptr(),
            part.len(),
        )
    })
}

pub fn block_multiply(left: &Block, right: &Block, out: &mut Block) -> Answer {
    pair(exported::leechgrommet_block_multiply, left, right, out)
}

pub fn block_add(left: &Block, right: &Block, out: &mut Block) -> Answer {
    pair(exported::leechgrommet_block_add, left, right, out)
}

pub fn block_subtract(left: &Block, right: &Block, out: &mut Block) -> Answer {
    pair(exported::leechgrommet_block_subtract, left, right, out)
}

/// The sum of the diagonal, by its real and its imaginary part.
pub fn block_trace(x: &Block) -> Result<[f64; 2], Answer> {
    measured(|value, places, part| block_trace_written(x, value, places, part))
}

/// The same with slices of any lengths for what is written.
pub fn block_trace_written(x: &Block, value: &mut [f64], places: &mut [usize], part: &mut [f64]) -> u8 {
    unsafe {
        exported::leechgrommet_block_trace(
            x.rows,
            x.columns,
            x.values.as_ptr(),
            value.as_mut_ptr(),
            value.len(),
            places.as_mut_ptr(),
            places.len(),
            part.as_mut_ptr(),
            part.len(),
        )
    }
}

/// An entry alike.
pub fn block_get(x: &Block, row: usize, column: usize) -> Result<[f64; 2], Answer> {
    measured(|value, places, part| unsafe {
        exported::leechgrommet_block_get(
            x.rows,
            x.columns,
            x.values.as_ptr(),
            row,
            column,
            value.as_mut_ptr(),
            value.len(),
            places.as_mut_ptr(),
            places.len(),
            part.as_mut_ptr(),
            part.len(),
        )
    })
}

pub fn block_max_difference(left: &Block, right: &Block) -> Result<f64, Answer> {
    let largest = measured(|value, places, part| unsafe {
        exported::leechgrommet_block_max_difference(
            left.rows,
            left.columns,
            left.values.as_ptr(),
            right.rows,
            right.columns,
            right.values.as_ptr(),
            value.as_mut_ptr(),
            value.len(),
            places.as_mut_ptr(),
            places.len(),
            part.as_mut_ptr(),
            part.len(),
        )
    });
    largest.map(|[largest]| largest)
}

pub fn block_is_hermitian(x: &Block, tolerance: f64) -> Result<bool, Answer> {
    decided(|decided, places, part| unsafe {
        exported::leechgrommet_block_is_hermitian(
            x.rows,
            x.columns,
            x.values.as_ptr(),
            tolerance,
            decided.as_mut_ptr(),
            decided.len(),
            places.as_mut_ptr(),
            places.len(),
            part.as_mut_ptr(),
            part.len(),
        )
    })
}

#[cfg(test)]
mod tests {
    use super::*;

    const ACCEPTED: Answer = Answer::ACCEPTED;

    fn refused(answer: Answer) -> (Answer, Block) {
        (answer, Block::of(0, 0, &[]))
    }

    fn written(call: impl FnOnce(&mut Block) -> Answer) -> (Answer, Block) {
        let mut out = Block::room();
        (call(&mut out), out)
    }

    /// (1 + 2i)·i·i
    #[test]
    fn chain() {
        assert_eq!(product_chain(&[1.0, 2.0], &[0.0, 1.0], 1, 2), -1.0);
        assert_eq!(product_chain(&[1.0, 2.0], &[0.0, f64::NAN], 1, 2).to_bits(), 0);
    }

    #[test]
    fn made() {
        let row = Block::of(1, 2, &[1.0, 2.0, 3.0, 4.0]);
        assert_eq!(written(|out| block_from_numbers(1, 2, &[1.0, 2.0, 3.0, 4.0], out)), (ACCEPTED, row.clone()));
        assert_eq!(written(|out| block_from_numbers(1, 2, &[1.0, 2.0], out)), refused(Answer { number: 3, ..ACCEPTED }));
        assert_eq!(written(|out| block_from_numbers(1, 1, &[1.0, f64::NAN], out)), refused(Answer { number: 7, first: 1, ..ACCEPTED }));
        assert_eq!(written(|out| block_identity(2, out)), (ACCEPTED, Block::of(2, 2, &[1.0, 0.0, 0.0, 0.0, 0.0, 0.0, 1.0])));
        assert_eq!(written(|out| block_zero(2, out)), (ACCEPTED, Block::of(2, 2, &[])));
        assert_eq!(written(|out| block_zero(17, out)), refused(Answer { number: 2, ..ACCEPTED }));
        assert_eq!(written(|out| block_from_scalar([1.0, 2.0], out)), (ACCEPTED, Block::of(1, 1, &[1.0, 2.0])));
        assert_eq!(written(|out| block_from_scalar([1.0, f64::NAN], out)), refused(Answer { number: 7, first: 1, ..ACCEPTED }));
        assert_eq!(written(|out| block_identity(0, out)), refused(Answer { number: 1, ..ACCEPTED }));
        assert_eq!(written(|out| block_identity(17, out)), refused(Answer { number: 2, ..ACCEPTED }));
        let column = Block::of(2, 1, &[1.0, -2.0, 3.0, -4.0]);
        assert_eq!(written(|out| block_adjoint(&row, out)), (ACCEPTED, column.clone()));
        assert_eq!(written(|out| block_scale(&row, [0.0, 1.0], out)), (ACCEPTED, Block::of(1, 2, &[-2.0, 1.0, -4.0, 3.0])));
        assert_eq!(written(|out| block_scale(&row, [f64::MAX, 0.0], out)), refused(Answer { number: 10, ..ACCEPTED }));
        // |1 + 2i|² + |3 + 4i|²
        assert_eq!(written(|out| block_multiply(&row, &column, out)), (ACCEPTED, Block::of(1, 1, &[30.0, 0.0])));
        assert_eq!(written(|out| block_multiply(&row, &row, out)), refused(Answer { number: 3, ..ACCEPTED }));
        assert_eq!(written(|out| block_add(&row, &row, out)), (ACCEPTED, Block::of(1, 2, &[2.0, 4.0, 6.0, 8.0])));
        assert_eq!(written(|out| block_subtract(&row, &row, out)), (ACCEPTED, Block::of(1, 2, &[])));
        let not_finite = Block::of(1, 2, &[1.0, 1.0, 1.0, f64::INFINITY]);
        assert_eq!(written(|out| block_add(&row, &not_finite, out)), refused(Answer { number: 7, operand: 1, first: 3, ..ACCEPTED }));
        assert_eq!(written(|out| block_subtract(&row, &column, out)), refused(Answer { number: 3, ..ACCEPTED }));
    }

    #[test]
    fn measured() {
        let x = Block::of(2, 2, &[1.0, 0.0, 2.0, 3.0, 2.0, -3.0, 4.0, 0.0]);
        assert_eq!(block_trace(&x), Ok([5.0, 0.0]));
        assert_eq!(block_get(&x, 1, 0), Ok([2.0, -3.0]));
        assert_eq!(block_get(&x, 0, 2), Err(Answer { number: 12, ..ACCEPTED }));
        assert_eq!(block_max_difference(&x, &Block::of(2, 2, &[1.0, 0.0, -1.0, -1.0, 2.0, -3.0, 4.0, 0.0])), Ok(5.0));
        assert_eq!(block_is_hermitian(&x, 0.5), Ok(true));
        assert_eq!(block_is_hermitian(&Block::of(1, 2, &[0.0; 4]), 0.5), Ok(false));
        assert_eq!(block_is_hermitian(&x, 0.0), Err(Answer { number: 8, ..ACCEPTED }));
        assert_eq!(block_trace(&Block::of(1, 2, &[0.0; 4])), Err(Answer { number: 3, ..ACCEPTED }));
        assert_eq!(block_trace(&Block::of(2, 2, &[f64::MAX; 8])), Err(Answer { number: 10, ..ACCEPTED }));
    }
}
