//! The port's answer to a call, by document 01's numbers, but for the differences of document 02 that `Judged` tells. A call may have more
//! than one fault: it is refused by the first line, in document 01's order, whose answer is no. The port has the correctly rounded norm in
//! hypot's place.
mod blocks;
mod capacity;
mod flows;
mod functions;
mod judged;
mod lines;
mod session;
pub mod stages;
mod sums;

pub use blocks::{add, adjoint, from_numbers, from_scalar, get, identity, is_hermitian, max_difference, multiply, norm, scale, subtract};
pub use blocks::{trace, zero, Block};
pub use capacity::{append_point, transient_run_in_capacity, Held, Shape};
pub use capacity::{append_point_occupied, transient_run_occupied};
pub use capacity::{bond_flow_into_in_capacity, density_matrix_in_capacity, one_body_expectation_in_capacity, particle_number_in_capacity};
pub use flows::{bond_flows_into, Queries};
pub use functions::{bond_flow_into, density_matrix, one_body_expectation, particle_number};
pub use functions::{causal_volterra_convolution, checked_interval_weight, consistency_report, full_weights, is_consistent, langreth_product};
pub use functions::{check_retarded_support, retarded_dyson, retarded_dyson_with_tolerance, time_convolution, transient_run};
pub use functions::{check_grid, check_times, full_weight, half_step, interval_weight};
pub use judged::{Filled, Judged, Listed, Slices};
pub use session::{appended_occupied_products, appended_products, occupied_products, products, Booking, Counters, DESKS};

/// A refusal: its number and its places, which are 0 where its line has none.
#[derive(Debug, Clone, Copy, PartialEq)]
pub struct Refused {
    pub number: u8,
    pub operand: usize,
    pub first: usize,
    pub second: usize,
    pub part: f64,
}

impl Refused {
    /// A refusal without places.
    pub const fn by(number: u8) -> Self {
        Self { number, operand: 0, first: 0, second: 0, part: 0.0 }
    }
}

/// What the port makes, or its refusal.
pub type Answer<T> = Result<T, Refused>;
