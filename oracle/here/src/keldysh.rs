//! The calls on all four components: retarded, advanced, lesser, greater, in this order.
use crate::{answer, decided, measured, Answer};

mod exported {
    #[link(name = "leechgrommet", kind = "static")]
    extern "C" {
        pub fn leechgrommet_consistency_report(
            retarded: *const f64,
            retarded_len: usize,
            advanced: *const f64,
            advanced_len: usize,
            lesser: *const f64,
            lesser_len: usize,
            greater: *const f64,
            greater_len: usize,
            points: usize,
            orbitals: usize,
            residuals: *mut f64,
            residuals_len: usize,
            places: *mut usize,
            places_len: usize,
            part: *mut f64,
            part_len: usize,
        ) -> u8;

        pub fn leechgrommet_is_consistent(
            residuals: *const f64,
            residuals_len: usize,
            tolerance: f64,
            decided: *mut u8,
            decided_len: usize,
            places: *mut usize,
            places_len: usize,
            part: *mut f64,
            part_len: usize,
        ) -> u8;

        pub fn leechgrommet_langreth_product(
            times: *const f64,
            times_len: usize,
            left_retarded: *const f64,
            left_retarded_len: usize,
            left_advanced: *const f64,
            left_advanced_len: usize,
            left_lesser: *const f64,
            left_lesser_len: usize,
            left_greater: *const f64,
            left_greater_len: usize,
            right_retarded: *const f64,
            right_retarded_len: usize,
            right_advanced: *const f64,
            right_advanced_len: usize,
            right_lesser: *const f64,
            right_lesser_len: usize,
            right_greater: *const f64,
            right_greater_len: usize,
            points: usize,
            orbitals: usize,
            retarded: *mut f64,
            retarded_len: usize,
            advanced: *mut f64,
            advanced_len: usize,
            lesser: *mut f64,
            lesser_len: usize,
            greater: *mut f64,
            greater_len: usize,
            places: *mut usize,
            places_len: usize,
            part: *mut f64,
            part_len: usize,
        ) -> u8;
    }
}

/// The seven residuals: retarded and advanced causality, advanced adjoint, lesser and greater anti-Hermiticity, spectral identity, equal-time
/// rule.
pub fn consistency_report(components: [&[f64]; 4], points: usize, orbitals: usize) -> Result<[f64; 7], Answer> {
    measured(|residuals, places, part| consistency_report_written(components, points, orbitals, residuals, places, part))
}

/// The same with slices of any lengths for what is written.
pub fn consistency_report_written(
    components: [&[f64]; 4],
    points: usize,
    orbitals: usize,
    residuals: &mut [f64],
    places: &mut [usize],
    part: &mut [f64],
) -> u8 {
    let [retarded, advanced, lesser, greater] = components;
    unsafe {
        exported::leechgrommet_consistency_report(
            retarded.as_ptr(),
            retarded.len(),
            advanced.as_ptr(),
            advanced.len(),
            lesser.as_ptr(),
            lesser.len(),
            greater.as_ptr(),
            greater.len(),
            points,
            orbitals,
            residuals.as_mut_ptr(),
            residuals.len(),
            places.as_mut_ptr(),
            places.len(),
            part.as_mut_ptr(),
            part.len(),
        )
    }
}

/// Whether seven residuals, in the report's order, are at most the tolerance.
pub fn is_consistent(residuals: &[f64], tolerance: f64) -> Result<bool, Answer> {
    decided(|decided, places, part| is_consistent_written(residuals, tolerance, decided, places, part))
}

/// The same with slices of any lengths for what is written.
pub fn is_consistent_written(residuals: &[f64], tolerance: f64, decided: &mut [u8], places: &mut [usize], part: &mut [f64]) -> u8 {
    unsafe {
        exported::leechgrommet_is_consistent(
            residuals.as_ptr(),
            residuals.len(),
            tolerance,
            decided.as_mut_ptr(),
            decided.len(),
            places.as_mut_ptr(),
            places.len(),
            part.as_mut_ptr(),
            part.len(),
        )
    }
}

pub fn langreth_product(
    times: &[f64],
    left: [&[f64]; 4],
    right: [&[f64]; 4],
    points: usize,
    orbitals: usize,
    out: [&mut [f64]; 4],
) -> Answer {
    let [retarded, advanced, lesser, greater] = out;
    answer(|places, part| unsafe {
        exported::leechgrommet_langreth_product(
            times.as_ptr(),
            times.len(),
            left[0].as_ptr(),
            left[0].len(),
            left[1].as_ptr(),
            left[1].len(),
            left[2].as_ptr(),
            left[2].len(),
            left[3].as_ptr(),
            left[3].len(),
            right[0].as_ptr(),
            right[0].len(),
            right[1].as_ptr(),
            right[1].len(),
            right[2].as_ptr(),
            right[2].len(),
            right[3].as_ptr(),
            right[3].len(),
            points,
            orbitals,
            retarded.as_mut_ptr(),
            retarded.len(),
            advanced.as_mut_ptr(),
            advanced.len(),
            lesser.as_mut_ptr(),
            lesser.len(),
            greater.as_mut_ptr(),
            greater.len(),
            places.as_mut_ptr(),
            places.len(),
            part.as_mut_ptr(),
            part.len(),
        )
    })
}

#[cfg(test)]
mod tests {
    use super::{consistency_report, is_consistent, langreth_product};
    use crate::Answer;

    const ACCEPTED: Answer = Answer::ACCEPTED;

    #[test]
    fn report() {
        // G^R is 3 + 4i at (0,1), G^A i at (1,0), G^< 2 at (0,0), G^> -5i at (1,1).
        let retarded = [0.0, 0.0, 3.0, 4.0, 0.0, 0.0, 0.0, 0.0];
        let advanced = [0.0, 0.0, 0.0, 0.0, 0.0, 1.0, 0.0, 0.0];
        let lesser = [2.0, 0.0, 0.0, 0.0, 0.0, 0.0, 0.0, 0.0];
        let mut greater = [0.0, 0.0, 0.0, 0.0, 0.0, 0.0, 0.0, -5.0];
        let residuals = consistency_report([&retarded, &advanced, &lesser, &greater], 2, 1);
        // |i - (3 - 4i)| is the root of 34, and |-5i - (-i)| is 4.
        assert_eq!(residuals, Ok([5.0, 1.0, 34f64.sqrt(), 4.0, 0.0, 5.0, 4.0]));
        greater[6] = f64::NAN;
        let refused = consistency_report([&retarded, &advanced, &lesser, &greater], 2, 1);
        assert_eq!(refused, Err(Answer { number: 7, operand: 3, first: 6, ..ACCEPTED }));
        let refused = consistency_report([&[f64::MAX; 8], &[-f64::MAX; 8], &lesser, &lesser], 2, 1);
        assert_eq!(refused, Err(Answer { number: 10, ..ACCEPTED }));
    }

    #[test]
    fn consistent() {
        assert_eq!(is_consistent(&[0.5; 7], 0.5), Ok(true));
        assert_eq!(is_consistent(&[0.5, 0.5, 0.5, 0.5, 0.5, 0.75, 0.5], 0.5), Ok(false));
        assert_eq!(is_consistent(&[0.5, 0.5, 0.5, 0.5, 0.5, 0.5, 0.75], 0.5), Ok(false));
        assert_eq!(is_consistent(&[f64::NAN, 0.0, 0.0, 0.0, 0.0, 0.0, 0.0], 0.5), Ok(false));
        assert_eq!(is_consistent(&[0.0; 7], 0.0), Err(Answer { number: 8, ..ACCEPTED }));
        assert_eq!(is_consistent(&[0.0; 6], 0.0), Err(Answer { number: 3, ..ACCEPTED }));
    }

    #[test]
    fn langreth() {
        let (times, ones) = ([0.0, 1.0], [1.0, 0.0, 1.0, 0.0, 1.0, 0.0, 1.0, 0.0]);
        let mut out = [[5.0; 8]; 4];
        let mut product = |right: &[f64]| {
            let [retarded, advanced, lesser, greater] = &mut out;
            langreth_product(&times, [&ones; 4], [&ones, &ones, &ones, right], 2, 1, [retarded, advanced, lesser, greater])
        };
        assert_eq!(product(&[f64::INFINITY; 8]), Answer { number: 7, operand: 7, ..ACCEPTED });
        assert_eq!(product(&ones), ACCEPTED);
        assert_eq!(out[0], [0.0, 0.0, 0.0, 0.0, 1.0, 0.0, 0.0, 0.0]);
        assert_eq!(out[1], [0.0, 0.0, 1.0, 0.0, 0.0, 0.0, 0.0, 0.0]);
        assert_eq!(out[2], [2.0, 0.0, 2.0, 0.0, 2.0, 0.0, 2.0, 0.0]);
        assert_eq!(out[3], out[2]);
    }
}
