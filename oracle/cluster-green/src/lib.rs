//! The port's cluster-green, without green.rs.
// What green.rs alone uses.
#![allow(dead_code)]
mod error {
    include!(concat!(env!("PORT"), "/src--cluster-green--src--error.rs.txt"));
}
mod matrix {
    include!(concat!(env!("PORT"), "/src--cluster-green--src--matrix.rs.txt"));
}

pub use error::GreenError;
pub use matrix::DenseMatrix;
pub use num_complex::Complex64;
pub type Result<T> = std::result::Result<T, GreenError>;
