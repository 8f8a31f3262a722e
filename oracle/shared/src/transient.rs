//! The transient run composed of the port's operations: its Dyson, its adjoint, its sum over an interval.
use keldysh_green::{kept::interval_sum, retarded_dyson_with_tolerance, RealTimeGrid, Result, TwoTimeMatrix};

/// G^R, G^< and X.
pub struct Transient {
    pub retarded: TwoTimeMatrix,
    pub lesser: TwoTimeMatrix,
    pub lesser_advanced: TwoTimeMatrix,
}

/// X(t,t') sums Σ^<(t,s)·G^A(s,t') to t', then G^<(t,t') sums G^R(t,s)·X(s,t') to t. G^A(s,t') is the adjoint of G^R(t',s).
pub fn transient_run(
    grid: &RealTimeGrid,
    free: &TwoTimeMatrix,
    self_energy: &TwoTimeMatrix,
    lesser_self_energy: &TwoTimeMatrix,
    tolerance: f64,
) -> Result<Transient> {
    let (points, orbitals) = (grid.len(), free.orbitals());
    let retarded = retarded_dyson_with_tolerance(grid, free, self_energy, tolerance)?;
    let advanced = TwoTimeMatrix::try_from_fn(points, orbitals, |s, u| Ok(retarded.get(u, s)?.adjoint()))?;
    let lesser_advanced = TwoTimeMatrix::try_from_fn(points, orbitals, |t, u| interval_sum(grid, lesser_self_energy, &advanced, [t, u], [0, u]))?;
    let lesser = TwoTimeMatrix::try_from_fn(points, orbitals, |t, u| interval_sum(grid, &retarded, &lesser_advanced, [t, u], [0, t]))?;
    Ok(Transient { retarded, lesser, lesser_advanced })
}
