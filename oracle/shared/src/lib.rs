//! What the other crates share: the port's functions of flat numbers, and numbers without a pattern.
mod transient;

use keldysh_green::{Complex64, ConsistencyReport, DenseMatrix, Result, TwoTimeMatrix};
pub use transient::{transient_run, Transient};

/// Numbers without a pattern, the same in each run. The state is not 0.
pub struct Xorshift(pub u64);

impl Xorshift {
    pub fn bits(&mut self) -> u64 {
        self.0 ^= self.0 << 13;
        self.0 ^= self.0 >> 7;
        self.0 ^= self.0 << 17;
        self.0
    }

    /// From -0.5 to 0.5.
    pub fn centred(&mut self) -> f64 {
        (self.bits() >> 11) as f64 / (1u64 << 53) as f64 - 0.5
    }
}

/// The entries of which these are the parts.
pub fn entries(numbers: &[f64]) -> Vec<Complex64> {
    numbers.chunks(2).map(|z| Complex64::new(z[0], z[1])).collect()
}

/// The parts of a block's entries.
pub fn parts(x: &DenseMatrix) -> Vec<f64> {
    x.as_slice().iter().flat_map(|z| [z.re, z.im]).collect()
}

/// The port's function of the same numbers, block by block.
pub fn function(points: usize, orbitals: usize, xs: &[f64]) -> Result<TwoTimeMatrix> {
    let blocks = xs.chunks(2 * orbitals * orbitals).map(|block| Ok(DenseMatrix::try_new(orbitals, orbitals, entries(block))?));
    TwoTimeMatrix::try_new(points, orbitals, blocks.collect::<Result<_>>()?)
}

/// The numbers of which the port's function is made.
pub fn numbers(f: &TwoTimeMatrix) -> Vec<f64> {
    let n = f.time_points();
    (0..n * n).flat_map(|p| parts(f.get(p / n, p % n).unwrap())).collect()
}

/// A report's residuals in its order.
pub fn residuals(x: &ConsistencyReport) -> [f64; 6] {
    [
        x.retarded_causality,
        x.advanced_causality,
        x.advanced_adjoint,
        x.lesser_antihermiticity,
        x.greater_antihermiticity,
        x.spectral_identity,
    ]
}
