//! What the export crates export beside the port's source, on the same inputs in one run, and the norm beside hypot. `bench/run` builds and
//! runs it: `bench [NAME]..` writes the tables of docs/BENCHMARKS.md, of these functions alone where some are named. The environment's ROUNDS
//! is the count of rounds (default 5).
mod appends;
mod blocks;
mod flows;
mod inputs;
mod keldysh;
mod measure;
mod norm;
mod observables;
mod solver;
mod table;

use measure::{Bench, Times};
use std::process::ExitCode;
use table::{Row, Unit};

const SIZES: [(usize, usize); 5] = [(256, 1), (128, 2), (64, 4), (32, 8), (16, 16)];

/// Compares both sides at N times and n orbitals, then measures.
type Function = fn(&mut Bench, usize, usize) -> Times;
/// The same of a block's size.
type Operation = fn(&mut Bench, usize) -> Times;

const FUNCTIONS: [(&str, Function); 12] = [
    ("time_convolution", solver::time_convolution),
    ("causal_volterra_convolution", solver::causal_volterra_convolution),
    ("check_retarded_support", solver::check_retarded_support),
    ("check_retarded_support, like moduli", solver::support_of_phases),
    ("retarded_dyson_with_tolerance", solver::retarded_dyson_with_tolerance),
    ("transient_run", solver::transient_run),
    ("density_matrix", observables::density_matrix),
    ("particle_number", observables::particle_number),
    ("one_body_expectation", observables::one_body_expectation),
    ("bond_flow_into", observables::bond_flow_into),
    ("consistency_report", keldysh::consistency_report),
    ("langreth_product", keldysh::langreth_product),
];

const OPERATIONS: [(&str, Operation); 10] = [
    ("product_chain", blocks::chain),
    ("block_multiply", blocks::multiply),
    ("block_add", blocks::add),
    ("block_subtract", blocks::subtract),
    ("block_scale", blocks::scale),
    ("block_adjoint", blocks::adjoint),
    ("block_trace", blocks::trace),
    ("block_max_difference", blocks::max_difference),
    ("block_is_hermitian", blocks::is_hermitian),
    ("block_from_numbers", blocks::from_numbers),
];

const APPEND: &str = "append_point";
const FLOWS: &str = "bond_flows_into";

const MILLISECONDS: Unit = ("milliseconds", 1e6);
const NANOSECONDS: Unit = ("nanoseconds", 1.0);

fn main() -> ExitCode {
    let unknown: Vec<String> = std::env::args().skip(1).filter(|name| !known(name)).collect();
    if !unknown.is_empty() {
        eprintln!("no function is called {}", unknown.join(", "));
        return ExitCode::FAILURE;
    }
    let rounds = std::env::var("ROUNDS").map_or(5, |text| text.parse().expect("ROUNDS, a count"));
    let mut bench = Bench::new(rounds);
    let functions = rows(&FUNCTIONS, |function, (points, orbitals)| function(&mut bench, points, orbitals));
    let operations = rows(&OPERATIONS, |operation, (_, orbitals)| operation(&mut bench, orbitals));
    let appends = if named(APPEND) { appended(&mut bench) } else { vec![] };
    let flows = if named(FLOWS) { lists(&mut bench) } else { vec![] };
    let kinds = if named("norm") { norm::kinds(&bench) } else { vec![] };

    let Bench { same, residuals, differ, .. } = bench;
    println!("Rounds: {rounds}. All {same} numbers made are the same in bits.");
    println!("Of {residuals} residuals and largest differences, which are norms, {differ} differ in bits, by hypot.\n");
    table::functions("Functions of two times, by (N, n)", SIZES.map(|size| format!("{size:?}")), MILLISECONDS, &functions);
    table::terms(SIZES.map(|size| format!("{size:?}")), &functions, multiply_adds);
    table::appends(SIZES, &appends);
    table::flows(SIZES, &flows);
    table::functions("Operations on n by n blocks", SIZES.map(|(_, orbitals)| format!("n = {orbitals}")), NANOSECONDS, &operations);
    table::norms(&kinds);
    ExitCode::SUCCESS
}

/// An append at each size.
fn appended(bench: &mut Bench) -> Vec<appends::Append> {
    eprintln!("{APPEND}");
    SIZES.iter().map(|&(points, orbitals)| appends::append(bench, points, orbitals)).collect()
}

/// A list of bond flows at each size.
fn lists(bench: &mut Bench) -> Vec<flows::Flows> {
    eprintln!("{FLOWS}");
    SIZES.iter().map(|&(points, orbitals)| flows::flows(bench, points, orbitals)).collect()
}

/// How many complex multiply-adds the sums of a function make at each size: products of blocks by n³, with those over one point,
/// which the Rust alone makes.
fn multiply_adds(name: &str) -> Option<[f64; 5]> {
    let products: fn(f64) -> f64 = match name {
        "time_convolution" => |points| points * points * points,
        "causal_volterra_convolution" => |points| points * (points + 1.0) * (points + 2.0) / 6.0,
        "retarded_dyson_with_tolerance" => |points| points * (points + 1.0) * (2.0 * points + 1.0) / 6.0,
        "transient_run" => |points| points * (points + 1.0) * (2.0 * points + 1.0) / 6.0 + points * points * (points + 1.0),
        _ => return None,
    };
    Some(SIZES.map(|(points, orbitals)| products(points as f64) * (orbitals as f64).powi(3)))
}

/// Whether something of this name can be measured.
fn known(name: &str) -> bool {
    ["norm", APPEND, FLOWS].contains(&name)
        || FUNCTIONS.iter().any(|(known, _)| *known == name)
        || OPERATIONS.iter().any(|(known, _)| *known == name)
}

/// Whether the arguments name it, or none.
fn named(name: &str) -> bool {
    std::env::args().len() == 1 || std::env::args().skip(1).any(|argument| argument == name)
}

/// A row of each that is named.
fn rows<F: Copy>(functions: &[(&'static str, F)], mut times: impl FnMut(F, (usize, usize)) -> Times) -> Vec<Row> {
    let named = functions.iter().filter(|(name, _)| named(name));
    let row = |&(name, function)| {
        eprintln!("{name}");
        Row { name, times: SIZES.map(|size| times(function, size)) }
    };
    named.map(row).collect()
}
