//! Lists of bond flows.
use crate::{answer, Answer, Shape};

mod exported {
    #[link(name = "leechgrommet", kind = "static")]
    extern "C" {
        pub fn leechgrommet_bond_flows_into(
            lesser: *const f64,
            lesser_len: usize,
            points: usize,
            capacity: usize,
            orbitals: usize,
            times: *const usize,
            times_len: usize,
            a: *const usize,
            a_len: usize,
            b: *const usize,
            b_len: usize,
            hoppings: *const f64,
            hoppings_len: usize,
            charges: *const f64,
            charges_len: usize,
            flows: *mut f64,
            flows_len: usize,
            numbers: *mut u8,
            numbers_len: usize,
            places: *mut usize,
            places_len: usize,
            part: *mut f64,
            part_len: usize,
        ) -> u8;
    }
}

/// The queries, slice by slice; a hopping has two numbers.
#[derive(Debug, Clone, Copy)]
pub struct Queries<'a> {
    pub times: &'a [usize],
    pub a: &'a [usize],
    pub b: &'a [usize],
    pub hoppings: &'a [f64],
    pub charges: &'a [f64],
}

/// The flows, and the numbers of the queries' refusals.
pub fn bond_flows_into(lesser: &[f64], shape: Shape, queries: Queries, flows: &mut [f64], numbers: &mut [u8]) -> Answer {
    answer(|places, part| bond_flows_into_written(lesser, shape, queries, flows, numbers, places, part))
}

/// The same with slices of any lengths for places and part.
pub fn bond_flows_into_written(
    lesser: &[f64],
    shape: Shape,
    queries: Queries,
    flows: &mut [f64],
    numbers: &mut [u8],
    places: &mut [usize],
    part: &mut [f64],
) -> u8 {
    let Queries { times, a, b, hoppings, charges } = queries;
    unsafe {
        exported::leechgrommet_bond_flows_into(
            lesser.as_ptr(),
            lesser.len(),
            shape.points,
            shape.capacity,
            shape.orbitals,
            times.as_ptr(),
            times.len(),
            a.as_ptr(),
            a.len(),
            b.as_ptr(),
            b.len(),
            hoppings.as_ptr(),
            hoppings.len(),
            charges.as_ptr(),
            charges.len(),
            flows.as_mut_ptr(),
            flows.len(),
            numbers.as_mut_ptr(),
            numbers.len(),
            places.as_mut_ptr(),
            places.len(),
            part.as_mut_ptr(),
            part.len(),
        )
    }
}

#[cfg(test)]
mod tests {
    use super::{bond_flows_into, Queries};
    use crate::{Answer, Shape};

    const ACCEPTED: Answer = Answer::ACCEPTED;

    #[test]
    fn list() {
        let lesser = [0.0, 1.0, 0.0, 0.0, 0.0, 0.0, 2.0, 3.0];
        let (mut flows, mut numbers, shape) = ([-7.25; 4], [7; 4], Shape::of(2, 1));
        let hoppings = [0.0, 1.0, 0.0, 1.0, 0.0, 1.0, 0.0, f64::INFINITY];
        let queries = Queries { times: &[1, 2, 1, 2], a: &[0; 4], b: &[0, 0, 1, 1], hoppings: &hoppings, charges: &[3.0; 4] };
        // 2·3·Im(i·(3 − 2i))
        assert_eq!(bond_flows_into(&lesser, shape, queries, &mut flows, &mut numbers), ACCEPTED);
        assert_eq!((flows, numbers), ([18.0, 0.0, 0.0, 0.0], [0, 11, 12, 13]));
        let mut kept = [-7.25; 4];
        let refused = bond_flows_into(&lesser, shape, queries, &mut kept, &mut numbers[..3]);
        assert_eq!((refused, kept), (Answer { number: 3, ..ACCEPTED }, [-7.25; 4]));
        let refused = bond_flows_into(&lesser, Shape { points: 3, ..shape }, queries, &mut kept, &mut numbers);
        assert_eq!((refused, kept), (Answer { number: 16, ..ACCEPTED }, [-7.25; 4]));
    }

    #[test]
    fn no_query() {
        let queries = Queries { times: &[], a: &[], b: &[], hoppings: &[], charges: &[] };
        assert_eq!(bond_flows_into(&[0.0; 8], Shape::of(2, 1), queries, &mut [], &mut []), ACCEPTED);
        let entry = Answer { number: 7, ..ACCEPTED };
        assert_eq!(bond_flows_into(&[f64::NAN; 8], Shape::of(2, 1), queries, &mut [], &mut []), entry);
    }
}
