//! The operations on blocks of size by size entries.
use crate::inputs::{matrix, numbers, source};
use crate::measure::{calls, time, Bench, Times};
use here::{Answer, Block};
use keldysh_green::{kept, Complex64, DenseMatrix};
use shared::parts;
use std::hint::black_box;

/// As many products are compared before a chain is measured.
const COMPARED: usize = 64;

/// A chain x ← x·y within one call. Each side makes its two blocks first; the first number of the last product is compared.
pub fn chain(bench: &mut Bench, size: usize) -> Times {
    let (x, y) = (numbers(&mut source(), size), permutation(size));
    let here = |count| here::product_chain(black_box(&x), &y, size, count);
    let port = |count| {
        let (x, y) = (matrix(size, black_box(&x)), matrix(size, &y));
        (0..count).fold(x, |x, _| x.multiply(&y).unwrap())
    };
    bench.same(&[here(COMPARED)], &parts(&port(COMPARED))[..1]);
    let [here, port] = bench.least([&mut |count| time(|| here(count)), &mut |count| time(|| port(count))]);
    Times { here, port, build: None }
}

/// A permutation with the phases 1, i, -1, -i: a chain of products keeps its size.
fn permutation(size: usize) -> Vec<f64> {
    let mut y = vec![0.0; 2 * size * size];
    for row in 0..size {
        let place = 2 * (row * size + (row * 5 + 3) % size);
        [y[place], y[place + 1]] = [[1.0, 0.0], [0.0, 1.0], [-1.0, 0.0], [0.0, -1.0]][row % 4];
    }
    y
}

pub fn from_numbers(bench: &mut Bench, size: usize) -> Times {
    let xs = numbers(&mut source(), size);
    let here = |out: &mut Block| here::block_from_numbers(size, size, black_box(&xs), out);
    let port = || matrix(size, black_box(&xs));
    let mut out = Block::room();
    same(bench, here(&mut out), &out, port());
    let [here, port] = bench.least([&mut calls(|| here(&mut out)), &mut calls(port)]);
    Times { here, port, build: None }
}

pub fn multiply(bench: &mut Bench, size: usize) -> Times {
    operation(bench, size, two(size), |[x, y], out| here::block_multiply(x, y, out), |[x, y]| x.multiply(y).unwrap(), same)
}

pub fn add(bench: &mut Bench, size: usize) -> Times {
    operation(bench, size, two(size), |[x, y], out| here::block_add(x, y, out), |[x, y]| kept::add(x, y).unwrap(), same)
}

pub fn subtract(bench: &mut Bench, size: usize) -> Times {
    operation(bench, size, two(size), |[x, y], out| here::block_subtract(x, y, out), |[x, y]| x.subtract(y).unwrap(), same)
}

pub fn scale(bench: &mut Bench, size: usize) -> Times {
    let [re, im] = [0.25, -0.75];
    let port = |[x]: [&DenseMatrix; 1]| kept::scale(x, Complex64::new(re, im)).unwrap();
    operation(bench, size, one(size), |[x], out| here::block_scale(x, [re, im], out), port, same)
}

pub fn adjoint(bench: &mut Bench, size: usize) -> Times {
    operation(bench, size, one(size), |[x], out| here::block_adjoint(x, out), |[x]| x.adjoint(), same)
}

pub fn trace(bench: &mut Bench, size: usize) -> Times {
    let compare = |bench: &mut Bench, here: Result<[f64; 2], _>, _: &_, port: Complex64| bench.same(&here.unwrap(), &[port.re, port.im]);
    operation(bench, size, one(size), |[x], _| here::block_trace(x), |[x]| x.trace().unwrap(), compare)
}

pub fn max_difference(bench: &mut Bench, size: usize) -> Times {
    let compare = |bench: &mut Bench, here: Result<f64, _>, _: &_, port| bench.residuals(&[here.unwrap()], &[port]);
    let port = |[x, y]: [&DenseMatrix; 2]| kept::max_difference(x, y).unwrap();
    operation(bench, size, two(size), |[x, y], _| here::block_max_difference(x, y), port, compare)
}

/// Of a Hermitian block, so that every entry is asked.
pub fn is_hermitian(bench: &mut Bench, size: usize) -> Times {
    let tolerance = 1e-12;
    let compare = |_: &mut Bench, here: Result<bool, _>, _: &_, port: bool| assert!(here.unwrap() && port);
    let port = |[x]: [&DenseMatrix; 1]| x.is_hermitian(tolerance).unwrap();
    operation(bench, size, [hermitian(size)], |[x], _| here::block_is_hermitian(x, tolerance), port, compare)
}

fn hermitian(size: usize) -> Vec<f64> {
    let mut xs = numbers(&mut source(), size);
    let at = |a, b| 2 * (a * size + b);
    for (a, b) in (0..size * size).map(|place| (place / size, place % size)).filter(|(a, b)| a <= b) {
        let (re, im) = (xs[at(a, b)], if a == b { 0.0 } else { xs[at(a, b) + 1] });
        (xs[at(a, b) + 1], xs[at(b, a)], xs[at(b, a) + 1]) = (im, re, -im);
    }
    xs
}

fn one(size: usize) -> [Vec<f64>; 1] {
    [numbers(&mut source(), size)]
}

fn two(size: usize) -> [Vec<f64>; 2] {
    let mut source = source();
    [(); 2].map(|()| numbers(&mut source, size))
}

/// A call on K blocks, which is lent one, and how what both sides make is compared.
fn operation<const K: usize, A, B>(
    bench: &mut Bench,
    size: usize,
    operands: [Vec<f64>; K],
    ours: impl Fn([&Block; K], &mut Block) -> A,
    theirs: impl Fn([&DenseMatrix; K]) -> B,
    compare: impl FnOnce(&mut Bench, A, &Block, B),
) -> Times {
    let lent = operands.each_ref().map(|xs| Block::of(size, size, xs));
    let build = || operands.each_ref().map(|xs| matrix(size, black_box(xs)));
    let built = build();
    let here = |out: &mut Block| ours(black_box(lent.each_ref()), out);
    let port = || theirs(black_box(built.each_ref()));
    let mut out = Block::room();
    let answer = here(&mut out);
    compare(bench, answer, &out, port());
    bench.measure(|| here(&mut out), port, build)
}

fn same(bench: &mut Bench, answer: Answer, block: &Block, port: DenseMatrix) {
    assert_eq!((answer.number, block.rows, block.columns), (0, port.rows(), port.columns()));
    let entries = parts(&port);
    bench.same(&block.values[..entries.len()], &entries);
}
