//! The observables.
use crate::blocks::{filled, Block};
use crate::{measured, Answer, Shape};

mod exported {
    #[link(name = "leechgrommet", kind = "static")]
    extern "C" {
        pub fn leechgrommet_particle_number(
            lesser: *const f64,
            lesser_len: usize,
            points: usize,
            capacity: usize,
            orbitals: usize,
            time: usize,
            tolerance: f64,
            value: *mut f64,
            value_len: usize,
            places: *mut usize,
            places_len: usize,
            part: *mut f64,
            part_len: usize,
        ) -> u8;

        pub fn leechgrommet_bond_flow_into(
            lesser: *const f64,
            lesser_len: usize,
            points: usize,
            capacity: usize,
            orbitals: usize,
            time: usize,
            a: usize,
            b: usize,
            real: f64,
            imaginary: f64,
            charge: f64,
            value: *mut f64,
            value_len: usize,
            places: *mut usize,
            places_len: usize,
            part: *mut f64,
            part_len: usize,
        ) -> u8;

        pub fn leechgrommet_density_matrix(
            lesser: *const f64,
            lesser_len: usize,
            points: usize,
            capacity: usize,
            orbitals: usize,
            time: usize,
            shape: *mut usize,
            shape_len: usize,
            out: *mut f64,
            out_len: usize,
            places: *mut usize,
            places_len: usize,
            part: *mut f64,
            part_len: usize,
        ) -> u8;

        pub fn leechgrommet_one_body_expectation(
            lesser: *const f64,
            lesser_len: usize,
            points: usize,
            capacity: usize,
            orbitals: usize,
            time: usize,
            rows: usize,
            columns: usize,
            values: *const f64,
            tolerance: f64,
            value: *mut f64,
            value_len: usize,
            places: *mut usize,
            places_len: usize,
            part: *mut f64,
            part_len: usize,
        ) -> u8;
    }
}

/// A number, or the refusal.
fn observe(call: impl FnOnce(&mut [f64; 1], &mut [usize; 3], &mut [f64; 1]) -> u8) -> Result<f64, Answer> {
    measured(call).map(|[value]| value)
}

/// The density matrix at a time.
pub fn density_matrix(lesser: &[f64], shape: Shape, time: usize, out: &mut Block) -> Answer {
    filled(out, |sides, out, places, part| density_matrix_written(lesser, shape, time, sides, out, places, part))
}

/// The same with slices of any lengths for what is written.
#[allow(clippy::too_many_arguments)]
pub fn density_matrix_written(
    lesser: &[f64],
    shape: Shape,
    time: usize,
    sides: &mut [usize],
    out: &mut [f64],
    places: &mut [usize],
    part: &mut [f64],
) -> u8 {
    unsafe {
        exported::leechgrommet_density_matrix(
            lesser.as_ptr(),
            lesser.len(),
            shape.points,
            shape.capacity,
            shape.orbitals,
            time,
            sides.as_mut_ptr(),
            sides.len(),
            out.as_mut_ptr(),
            out.len(),
            places.as_mut_ptr(),
            places.len(),
            part.as_mut_ptr(),
            part.len(),
        )
    }
}

pub fn particle_number(lesser: &[f64], shape: Shape, time: usize, tolerance: f64) -> Result<f64, Answer> {
    observe(|value, places, part| particle_number_written(lesser, shape, time, tolerance, value, places, part))
}

/// The same with slices of any lengths for what is written.
#[allow(clippy::too_many_arguments)]
pub fn particle_number_written(
    lesser: &[f64],
    shape: Shape,
    time: usize,
    tolerance: f64,
    value: &mut [f64],
    places: &mut [usize],
    part: &mut [f64],
) -> u8 {
    unsafe {
        exported::leechgrommet_particle_number(
            lesser.as_ptr(),
            lesser.len(),
            shape.points,
            shape.capacity,
            shape.orbitals,
            time,
            tolerance,
            value.as_mut_ptr(),
            value.len(),
            places.as_mut_ptr(),
            places.len(),
            part.as_mut_ptr(),
            part.len(),
        )
    }
}

/// The expectation of a one-body matrix.
pub fn one_body_expectation(lesser: &[f64], shape: Shape, time: usize, observable: &Block, tolerance: f64) -> Result<f64, Answer> {
    observe(|value, places, part| unsafe {
        exported::leechgrommet_one_body_expectation(
            lesser.as_ptr(),
            lesser.len(),
            shape.points,
            shape.capacity,
            shape.orbitals,
            time,
            observable.rows,
            observable.columns,
            observable.values.as_ptr(),
            tolerance,
            value.as_mut_ptr(),
            value.len(),
            places.as_mut_ptr(),
            places.len(),
            part.as_mut_ptr(),
            part.len(),
        )
    })
}

/// The flow into orbital a from b, of a hopping by its real and its imaginary part.
#[allow(clippy::too_many_arguments)]
pub fn bond_flow_into(
    lesser: &[f64],
    shape: Shape,
    time: usize,
    a: usize,
    b: usize,
    hopping: [f64; 2],
    charge: f64,
) -> Result<f64, Answer> {
    observe(|value, places, part| unsafe {
        exported::leechgrommet_bond_flow_into(
            lesser.as_ptr(),
            lesser.len(),
            shape.points,
            shape.capacity,
            shape.orbitals,
            time,
            a,
            b,
            hopping[0],
            hopping[1],
            charge,
            value.as_mut_ptr(),
            value.len(),
            places.as_mut_ptr(),
            places.len(),
            part.as_mut_ptr(),
            part.len(),
        )
    })
}

#[cfg(test)]
mod tests {
    use super::{bond_flow_into, density_matrix, one_body_expectation, particle_number};
    use crate::{Answer, Block, Shape};

    const ACCEPTED: Answer = Answer::ACCEPTED;
    const ONE: Shape = Shape { points: 2, capacity: 2, orbitals: 1 };

    #[test]
    fn observables() {
        let lesser = [0.0, 1.0, 0.0, 0.0, 0.0, 0.0, 2.0, 3.0];
        assert_eq!(particle_number(&lesser, ONE, 0, 0.5), Ok(1.0));
        assert_eq!(particle_number(&lesser, ONE, 1, 0.5), Err(Answer { number: 14, part: -2.0, ..ACCEPTED }));
        assert_eq!(particle_number(&lesser, ONE, 2, 0.5), Err(Answer { number: 11, ..ACCEPTED }));
        assert_eq!(particle_number(&lesser, ONE, 2, 0.0), Err(Answer { number: 8, ..ACCEPTED }));
        // The sum of two largest occupations.
        let full: [f64; 32] = std::array::from_fn(|at| if at == 1 || at == 7 { f64::MAX } else { 0.0 });
        assert_eq!(particle_number(&full, Shape::of(2, 2), 0, 0.5), Err(Answer { number: 10, ..ACCEPTED }));
        // 2·3·Im(i·(3 − 2i))
        assert_eq!(bond_flow_into(&lesser, ONE, 1, 0, 0, [0.0, 1.0], 3.0), Ok(18.0));
        assert_eq!(bond_flow_into(&lesser, ONE, 1, 0, 1, [0.0, 1.0], 3.0), Err(Answer { number: 12, ..ACCEPTED }));
    }

    #[test]
    fn density() {
        let lesser = [0.0, 1.0, 0.0, 0.0, 0.0, 0.0, 2.0, 3.0];
        let mut out = Block::room();
        assert_eq!(density_matrix(&lesser, ONE, 1, &mut out), ACCEPTED);
        assert_eq!(out, Block::of(1, 1, &[3.0, -2.0]));
        assert_eq!(density_matrix(&lesser, ONE, 2, &mut out), Answer { number: 11, ..ACCEPTED });
        assert_eq!(out, Block::of(0, 0, &[]));
    }

    #[test]
    fn expectation() {
        let lesser = [0.0, 1.0, 0.0, 0.0, 0.0, 0.0, 2.0, 3.0];
        let observe = |time, observable: &Block| one_body_expectation(&lesser, ONE, time, observable, 0.5);
        assert_eq!(observe(0, &Block::of(1, 1, &[4.0, 0.0])), Ok(4.0));
        // 4·(3 − 2i)
        assert_eq!(observe(1, &Block::of(1, 1, &[4.0, 0.0])), Err(Answer { number: 14, part: -8.0, ..ACCEPTED }));
        assert_eq!(observe(0, &Block::of(1, 2, &[4.0; 4])), Err(Answer { number: 3, ..ACCEPTED }));
        assert_eq!(observe(0, &Block::of(1, 1, &[4.0, f64::NAN])), Err(Answer { number: 7, operand: 1, first: 1, ..ACCEPTED }));
        assert_eq!(observe(1, &Block::of(1, 1, &[f64::MAX, 0.0])), Err(Answer { number: 10, ..ACCEPTED }));
        let refused = one_body_expectation(&lesser, ONE, 1, &Block::of(1, 1, &[f64::MAX, 0.0]), 0.0);
        assert_eq!(refused, Err(Answer { number: 8, ..ACCEPTED }));
    }
}
