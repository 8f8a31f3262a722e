//! The inputs, the same in each run and for each function of a size, and the port's values of them.
use keldysh_green::{Complex64, DenseMatrix, RealTimeGrid, TwoTimeMatrix};
use shared::Xorshift;

const SEED: u64 = 0x9e37_79b9_7f4a_7c15;

pub fn source() -> Xorshift {
    Xorshift(SEED)
}

/// Times and some two-time functions.
pub struct Inputs<const K: usize> {
    pub points: usize,
    pub orbitals: usize,
    pub times: Vec<f64>,
    pub functions: [Vec<f64>; K],
}

impl<const K: usize> Inputs<K> {
    pub fn new(points: usize, orbitals: usize, retarded: [bool; K]) -> Self {
        let mut source = source();
        let times = times(&mut source, points);
        let functions = retarded.map(|retarded| function(&mut source, points, orbitals, retarded));
        Self { points, orbitals, times, functions }
    }

    pub fn grid(&self) -> RealTimeGrid {
        RealTimeGrid::try_new(self.times.clone()).unwrap()
    }

    /// The port's functions, by its own way to build one.
    pub fn built(&self) -> [TwoTimeMatrix; K] {
        let (points, orbitals, block) = (self.points, self.orbitals, 2 * self.orbitals * self.orbitals);
        self.functions.each_ref().map(|xs| {
            let at = |t, u| Ok(matrix(orbitals, &xs[block * (t * points + u)..][..block]));
            TwoTimeMatrix::try_from_fn(points, orbitals, at).unwrap()
        })
    }

    /// Room for a function.
    pub fn room(&self) -> Vec<f64> {
        vec![1.0; self.functions[0].len()]
    }
}

impl Inputs<1> {
    /// −i·e^{−iε(t−u)} on and below the diagonal, with an energy ε for each place of a block.
    pub fn phases(points: usize, orbitals: usize) -> Self {
        let times = times(&mut source(), points);
        let energy = |place: usize| 1.0 + 0.37 * place as f64;
        let mut xs = Vec::new();
        for (t, u) in (0..points * points).map(|place| (place / points, place % points)) {
            let angle = |place| energy(place) * (times[t] - times[u]);
            let entry = |place| if t < u { [0.0; 2] } else { [-f64::sin(angle(place)), -f64::cos(angle(place))] };
            xs.extend((0..orbitals * orbitals).flat_map(entry));
        }
        Self { points, orbitals, times, functions: [xs] }
    }
}

/// Rising times with unequal steps.
fn times(source: &mut Xorshift, points: usize) -> Vec<f64> {
    let mut time = 0.0;
    let next = |_| {
        time += 0.1 + 0.1 * (source.centred() + 0.5);
        time
    };
    (0..points).map(next).collect()
}

/// A retarded function is +0 above the diagonal.
fn function(source: &mut Xorshift, points: usize, orbitals: usize, retarded: bool) -> Vec<f64> {
    let block = 2 * orbitals * orbitals;
    let mut xs = Vec::new();
    for (t, u) in (0..points * points).map(|place| (place / points, place % points)) {
        xs.extend((0..block).map(|_| if retarded && t < u { 0.0 } else { source.centred() }));
    }
    xs
}

/// The numbers of a square block.
pub fn numbers(source: &mut Xorshift, size: usize) -> Vec<f64> {
    (0..2 * size * size).map(|_| source.centred()).collect()
}

/// The port's block of these numbers.
pub fn matrix(size: usize, numbers: &[f64]) -> DenseMatrix {
    let values = numbers.chunks_exact(2).map(|z| Complex64::new(z[0], z[1])).collect();
    DenseMatrix::try_new(size, size, values).unwrap()
}
