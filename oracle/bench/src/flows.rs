//! A list of 100 bond flows in one call, beside one flow, each in a call of its own.
use crate::inputs::{self, Inputs};
use crate::measure::{calls, Bench};
use here::{Queries, Shape};
use keldysh_green::Complex64;
use std::hint::black_box;

pub const COUNT: usize = 100;

/// The least times of a call, in nanoseconds: the list, one flow, the port's flows one after the other, and the building of the port's function.
pub struct Flows {
    pub list: f64,
    pub single: f64,
    pub port: f64,
    pub build: f64,
}

/// The queries are spread over the times and orbitals.
pub fn flows(bench: &mut Bench, points: usize, orbitals: usize) -> Flows {
    let (inputs, shape) = (Inputs::new(points, orbitals, [false]), Shape::of(points, orbitals));
    let mut source = inputs::source();
    let times: Vec<usize> = (0..COUNT).map(|k| (k * 37 + 5) % points).collect();
    let [a, b] = [3, 5].map(|step| (0..COUNT).map(|k| k * step % orbitals).collect::<Vec<_>>());
    let (hoppings, charges) = (numbers(&mut source, 2 * COUNT), numbers(&mut source, COUNT));
    let queries = Queries { times: &times, a: &a, b: &b, hoppings: &hoppings, charges: &charges };
    let (mut flows, mut refused) = (vec![1.0; COUNT], vec![1; COUNT]);

    let [lesser] = inputs.built();
    let hopping = |k: usize| [hoppings[2 * k], hoppings[2 * k + 1]];
    let single =
        |k: usize| here::bond_flow_into(black_box(&inputs.functions[0]), shape, times[k], a[k], b[k], hopping(k), charges[k]).unwrap();
    let theirs = |k: usize| {
        let [re, im] = hopping(k);
        keldysh_green::bond_flow_into(black_box(&lesser), times[k], a[k], b[k], Complex64::new(re, im), charges[k]).unwrap()
    };
    let list = |flows: &mut [f64], refused: &mut [u8]| {
        here::bond_flows_into(black_box(&inputs.functions[0]), shape, black_box(queries), flows, refused)
    };
    let port = || (0..COUNT).map(theirs).sum::<f64>();

    assert_eq!(list(&mut flows, &mut refused).number, 0);
    assert_eq!(refused, [0; COUNT]);
    bench.same(&flows, &(0..COUNT).map(theirs).collect::<Vec<_>>());
    bench.same(&flows, &(0..COUNT).map(single).collect::<Vec<_>>());
    let [list, single, port] =
        bench.least([&mut calls(|| list(&mut flows, &mut refused)), &mut calls(|| single(COUNT / 2)), &mut calls(port)]);
    // Apart: it pushes the numbers out of the caches, which the turn after it would pay.
    let [build] = bench.least([&mut calls(|| inputs.built())]);
    Flows { list, single, port, build }
}

fn numbers(source: &mut shared::Xorshift, count: usize) -> Vec<f64> {
    (0..count).map(|_| source.centred()).collect()
}
