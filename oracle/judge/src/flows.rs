//! A list of bond flows (document 02, L6). The port has none: lines 1, 2, 3, 16 and 18 of the whole call are asked here, 7 and the answer to each query are
//! the port's.
use crate::capacity::{bond_flow_into_in_capacity, Shape};
use crate::lines::require;
use crate::Answer;

/// The queries, slice by slice; the hoppings have two numbers each.
pub struct Queries<'a> {
    pub times: &'a [usize],
    pub a: &'a [usize],
    pub b: &'a [usize],
    pub hoppings: &'a [f64],
    pub factors: &'a [f64],
}

const MOST: usize = 1024;

/// Each flow, +0 on a refusal, with the refusal's number, 0 if there is none; `outputs` are the lengths of the two slices.
pub fn bond_flows_into(shape: Shape, lesser: &[f64], queries: &Queries, outputs: [usize; 2]) -> Answer<Vec<(f64, u8)>> {
    let Queries { times, a, b, hoppings, factors } = *queries;
    let count = times.len();
    let sizes = shape.lines(None, &[lesser], &[], &[]);
    if let Err(refused) = sizes {
        if refused.number < 3 {
            return Err(refused);
        }
    }
    require([a.len(), b.len(), factors.len(), outputs[0], outputs[1]] == [count; 5] && hoppings.len() == 2 * count, 3)?;
    sizes?;
    require(count <= MOST, 18)?;
    bond_flow_into_in_capacity(shape, lesser, 0, [0, 0], [0.0, 0.0], 0.0)?;
    let single = |k: usize| bond_flow_into_in_capacity(shape, lesser, times[k], [a[k], b[k]], [hoppings[2 * k], hoppings[2 * k + 1]], factors[k]);
    Ok((0..count).map(|k| single(k).map_or_else(|refused| (0.0, refused.number), |flow| (flow, 0))).collect())
}
