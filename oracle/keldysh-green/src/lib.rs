//! The port's keldysh-green.
mod error {
    include!(concat!(env!("PORT"), "/src--keldysh-green--src--error.rs.txt"));
}
mod grid {
    include!(concat!(env!("PORT"), "/src--keldysh-green--src--grid.rs.txt"));
}
mod keldysh {
    include!(concat!(env!("PORT"), "/src--keldysh-green--src--keldysh.rs.txt"));

    /// What Dyson asks of the free propagator.
    pub fn check_retarded_support(function: &TwoTimeMatrix, tolerance: f64) -> Result<()> {
        validate_tolerance(tolerance)?;
        validate_retarded_support(function, "free retarded propagator", tolerance)
    }

    /// The sum of left(t, s)·right(s, u) over s from start to end, by the weights of that interval.
    pub fn interval_sum(
        grid: &RealTimeGrid,
        left: &TwoTimeMatrix,
        right: &TwoTimeMatrix,
        [t, u]: [usize; 2],
        [start, end]: [usize; 2],
    ) -> Result<DenseMatrix> {
        weighted_product_sum(grid, left, right, t, u, start, end, true)
    }
}
mod matrix_ops {
    include!(concat!(env!("PORT"), "/src--keldysh-green--src--matrix_ops.rs.txt"));
}
mod observables {
    include!(concat!(env!("PORT"), "/src--keldysh-green--src--observables.rs.txt"));
}

pub use cluster_green::{Complex64, DenseMatrix, GreenError};
pub use error::KeldyshError;
pub use grid::RealTimeGrid;
pub use keldysh::{
    causal_volterra_convolution, langreth_product, retarded_dyson, retarded_dyson_with_tolerance, time_convolution, ConsistencyReport,
    KeldyshGreen, TwoTimeMatrix,
};
pub use observables::{bond_flow_into, density_matrix, one_body_expectation, particle_number};
pub type Result<T> = std::result::Result<T, KeldyshError>;

/// What the port keeps to itself: operations on blocks, the weight of a point in an interval, the sum over an interval, the support test.
pub mod kept {
    pub use crate::keldysh::{check_retarded_support, interval_sum};
    use crate::{matrix_ops, Complex64, DenseMatrix, RealTimeGrid, Result};

    pub fn zero(size: usize) -> Result<DenseMatrix> {
        matrix_ops::zero(size)
    }

    pub fn add(left: &DenseMatrix, right: &DenseMatrix) -> Result<DenseMatrix> {
        matrix_ops::add(left, right)
    }

    pub fn scale(x: &DenseMatrix, factor: Complex64) -> Result<DenseMatrix> {
        matrix_ops::scale(x, factor)
    }

    pub fn max_difference(left: &DenseMatrix, right: &DenseMatrix) -> Result<f64> {
        matrix_ops::max_difference(left, right)
    }

    pub fn interval_weight(grid: &RealTimeGrid, point: usize, start: usize, end: usize) -> f64 {
        grid.interval_weight(point, start, end)
    }
}
