//! The calls on times and on two-time functions. Slices lent for what is made, the scratch too, are given by their lengths.
use crate::lines::{built, functions, functions_of_times, grid, lengths, limits, matrix, refusal, require};
use crate::sums::Work;
use crate::{Answer, Block, Filled, Judged, Listed, Refused, Slices};
use keldysh_green::{kept, Complex64, ConsistencyReport, DenseMatrix, KeldyshGreen, RealTimeGrid, TwoTimeMatrix};
use shared::{numbers, residuals};

pub fn full_weights(points: usize, times: &[f64], lent: [usize; 1]) -> Filled<1> {
    Ok([grid(points, times, &lent)?.weights().to_vec()])
}

pub fn checked_interval_weight(points: usize, times: &[f64], point: usize, start: usize, end: usize) -> Answer<f64> {
    let grid = grid(points, times, &[])?;
    // The port has no such refusal, and may read past the times.
    require(end < points, 11)?;
    Ok(kept::interval_weight(&grid, point, start, end))
}

/// Whether the times are a grid of N points.
pub fn check_times(points: usize, times: &[f64]) -> Answer<()> {
    grid(points, times, &[]).map(|_| ())
}

/// Lines 4 to 6 of two times or more.
pub fn check_grid(times: &[f64]) -> Answer<()> {
    RealTimeGrid::try_new(times.to_vec()).map(|_| ()).map_err(refusal)
}

/// The weight of one of a grid's points, a NaN past them: the port has none.
pub fn full_weight(times: &[f64], index: usize) -> f64 {
    let grid = RealTimeGrid::try_new(times.to_vec()).expect("a grid");
    grid.weights().get(index).copied().unwrap_or(f64::NAN)
}

/// The weight of a point in an interval that may end past the times. Where a time past the end is asked for it is a NaN: the port would
/// read past the times.
pub fn interval_weight(times: &[f64], point: usize, start: usize, end: usize) -> f64 {
    let grid = RealTimeGrid::try_new(times.to_vec()).expect("a grid");
    let inside = start < end && (start..=end).contains(&point);
    if inside && times.len() <= end.min(point.saturating_add(1)) {
        return f64::NAN;
    }
    kept::interval_weight(&grid, point, start, end)
}

/// Half the time from one point to another, a NaN where one lies past the times. The port has no such function.
pub fn half_step(times: &[f64], later: usize, earlier: usize) -> f64 {
    let time = |index| times.get(index).copied().unwrap_or(f64::NAN);
    0.5 * (time(later) - time(earlier))
}

/// Times for a call that is lent none: no answer of it depends on them.
fn any_times(points: usize) -> Vec<f64> {
    (0..points).map(|t| t as f64).collect()
}

pub fn time_convolution(points: usize, orbitals: usize, times: &[f64], operands: [&[f64]; 2], lent: [usize; 1]) -> Filled<1> {
    let (grid, [left, right]) = functions_of_times(points, orbitals, times, operands, &lent)?;
    Ok([numbers(&keldysh_green::time_convolution(&grid, &left, &right).map_err(refusal)?)])
}

pub fn causal_volterra_convolution(
    points: usize,
    orbitals: usize,
    times: &[f64],
    operands: [&[f64]; 2],
    lent: [usize; 1],
) -> Judged<Slices<1>> {
    let port =
        |grid: &RealTimeGrid, [left, right]: &[TwoTimeMatrix; 2]| Ok([keldysh_green::causal_volterra_convolution(grid, left, right)?]);
    Judged::of(functions_of_times(points, orbitals, times, operands, &lent), port, Work::causal_volterra_convolution)
}

pub fn check_retarded_support(points: usize, orbitals: usize, xs: &[f64], tolerance: f64) -> Answer<()> {
    let [xs] = functions(points, orbitals, [xs])?;
    kept::check_retarded_support(&xs, tolerance).map_err(refusal)
}

/// G, and K in the scratch.
fn dyson(
    points: usize,
    orbitals: usize,
    times: &[f64],
    operands: [&[f64]; 2],
    lent: [usize; 2],
    solve: impl Fn(&RealTimeGrid, &TwoTimeMatrix, &TwoTimeMatrix) -> keldysh_green::Result<TwoTimeMatrix>,
) -> Judged<Slices<2>> {
    let port = |grid: &RealTimeGrid, [free, self_energy]: &[TwoTimeMatrix; 2]| {
        Ok([solve(grid, free, self_energy)?, keldysh_green::causal_volterra_convolution(grid, free, self_energy)?])
    };
    Judged::of(functions_of_times(points, orbitals, times, operands, &lent), port, Work::retarded_dyson)
}

/// Operands: free propagator, self-energy.
pub fn retarded_dyson(points: usize, orbitals: usize, times: &[f64], operands: [&[f64]; 2], lent: [usize; 2]) -> Judged<Slices<2>> {
    dyson(points, orbitals, times, operands, lent, keldysh_green::retarded_dyson)
}

/// Operands: free propagator, self-energy.
pub fn retarded_dyson_with_tolerance(
    points: usize,
    orbitals: usize,
    times: &[f64],
    operands: [&[f64]; 2],
    tolerance: f64,
    lent: [usize; 2],
) -> Judged<Slices<2>> {
    dyson(points, orbitals, times, operands, lent, |grid, free, self_energy| {
        keldysh_green::retarded_dyson_with_tolerance(grid, free, self_energy, tolerance)
    })
}

/// G^R, G^<, K, X. Operands: free propagator, retarded self-energy, Σ^<.
pub fn transient_run(
    points: usize,
    orbitals: usize,
    times: &[f64],
    operands: [&[f64]; 3],
    tolerance: f64,
    lent: [usize; 4],
) -> Judged<Slices<4>> {
    let port = |grid: &RealTimeGrid, [free, self_energy, lesser_self_energy]: &[TwoTimeMatrix; 3]| {
        let made = shared::transient_run(grid, free, self_energy, lesser_self_energy, tolerance)?;
        let kernel = keldysh_green::causal_volterra_convolution(grid, free, self_energy)?;
        Ok([made.retarded, made.lesser, kernel, made.lesser_advanced])
    };
    Judged::of(functions_of_times(points, orbitals, times, operands, &lent), port, Work::transient_run)
}

pub fn density_matrix(points: usize, orbitals: usize, lesser: &[f64], time: usize) -> Answer<Block> {
    let [lesser] = functions(points, orbitals, [lesser])?;
    Ok(keldysh_green::density_matrix(&lesser, time).map_err(refusal)?.into())
}

pub fn particle_number(points: usize, orbitals: usize, lesser: &[f64], time: usize, tolerance: f64) -> Judged<f64> {
    match functions(points, orbitals, [lesser]) {
        Ok([lesser]) => {
            let trace = keldysh_green::density_matrix(&lesser, time).and_then(|density| Ok(density.trace()?));
            let port = keldysh_green::particle_number(&lesser, time, tolerance);
            Judged::observed(tolerance, trace.map_err(refusal), port.map_err(refusal))
        }
        Err(refused) => Err(refused).into(),
    }
}

/// Lines 1 to 7 of a lesser function and a block of n rows and columns.
fn with_observable(points: usize, orbitals: usize, lesser: &[f64], observable: &Block) -> Answer<(TwoTimeMatrix, DenseMatrix)> {
    let (rows, columns) = (observable.rows, observable.columns);
    limits(Some(points), &[orbitals, rows, columns])?;
    lengths(points, orbitals, &[lesser], &[])?;
    require((rows, columns) == (orbitals, orbitals), 3)?;
    let [lesser] = built(points, orbitals, [lesser])?;
    Ok((lesser, matrix(1, rows, columns, observable.entries())?))
}

pub fn one_body_expectation(
    points: usize,
    orbitals: usize,
    lesser: &[f64],
    time: usize,
    observable: &Block,
    tolerance: f64,
) -> Judged<f64> {
    match with_observable(points, orbitals, lesser, observable) {
        Ok((lesser, observable)) => {
            let density = keldysh_green::density_matrix(&lesser, time);
            let trace = density.and_then(|density| Ok(observable.multiply(&density)?.trace()?));
            let port = keldysh_green::one_body_expectation(&lesser, time, &observable, tolerance);
            Judged::observed(tolerance, trace.map_err(refusal), port.map_err(refusal))
        }
        Err(refused) => Err(refused).into(),
    }
}

/// The flow into the first of two orbitals from the other, of a hopping by its real and its imaginary part.
pub fn bond_flow_into(
    points: usize,
    orbitals: usize,
    lesser: &[f64],
    time: usize,
    [a, b]: [usize; 2],
    hopping: [f64; 2],
    charge: f64,
) -> Answer<f64> {
    let [lesser] = functions(points, orbitals, [lesser])?;
    keldysh_green::bond_flow_into(&lesser, time, a, b, Complex64::new(hopping[0], hopping[1]), charge).map_err(refusal)
}

/// The port's function of four components: retarded, advanced, lesser, greater.
fn green(grid: &RealTimeGrid, [retarded, advanced, lesser, greater]: [TwoTimeMatrix; 4]) -> keldysh_green::Result<KeldyshGreen> {
    KeldyshGreen::try_new(grid.clone(), retarded, advanced, lesser, greater)
}

/// The largest violation of the equal-time rule, that G^> - G^< at (t,t) is -i times the identity. The port has none: it is made by the
/// port's difference of blocks and largest norm of a difference.
fn equal_time(x: &KeldyshGreen) -> keldysh_green::Result<f64> {
    let n = x.greater().orbitals();
    let rule = (0..n * n).map(|at| Complex64::new(0.0, if at / n == at % n { -1.0 } else { 0.0 }));
    let rule = DenseMatrix::try_new(n, n, rule.collect())?;
    (0..x.grid().len()).try_fold(0.0, |largest: f64, t| {
        let difference = x.greater().get(t, t)?.subtract(x.lesser().get(t, t)?)?;
        Ok(largest.max(kept::max_difference(&difference, &rule)?))
    })
}

/// The seven residuals in the report's order: the port's six, then that of the equal-time rule.
pub fn consistency_report(points: usize, orbitals: usize, components: [&[f64]; 4]) -> Answer<[f64; 7]> {
    let components = functions(points, orbitals, components)?;
    let grid = grid(points, &any_times(points), &[])?;
    let green = green(&grid, components).map_err(refusal)?;
    let [a, b, c, d, e, f] = residuals(&green.consistency_report().map_err(refusal)?);
    Ok([a, b, c, d, e, f, equal_time(&green).map_err(refusal)?])
}

/// Whether seven residuals, in the report's order, are at most the tolerance: the port decides over its six. Another count is 3.
pub fn is_consistent(x: &[f64], tolerance: f64) -> Judged<bool> {
    let Ok(x) = <[f64; 7]>::try_from(x) else {
        return Err(Refused::by(3)).into();
    };
    let report = ConsistencyReport {
        retarded_causality: x[0],
        advanced_causality: x[1],
        advanced_adjoint: x[2],
        lesser_antihermiticity: x[3],
        greater_antihermiticity: x[4],
        spectral_identity: x[5],
    };
    let (port, within) = (report.is_consistent(tolerance).map_err(refusal), x[6] <= tolerance);
    let listed = (port == Ok(true) && !within).then_some(Listed::EqualTime);
    Judged { answer: port.map(|yes| yes && within), listed, agrees: true }
}

/// The four components. Operands: those of the left function, then those of the right.
pub fn langreth_product(points: usize, orbitals: usize, times: &[f64], operands: [&[f64]; 8], lent: [usize; 4]) -> Judged<Slices<4>> {
    let port = |grid: &RealTimeGrid, operands: &[TwoTimeMatrix; 8]| {
        let [a, b, c, d, e, f, g, h] = operands.clone();
        let made = keldysh_green::langreth_product(&green(grid, [a, b, c, d])?, &green(grid, [e, f, g, h])?)?;
        Ok([made.retarded(), made.advanced(), made.lesser(), made.greater()].map(Clone::clone))
    };
    Judged::of(functions_of_times(points, orbitals, times, operands, &lent), port, Work::langreth_product)
}
