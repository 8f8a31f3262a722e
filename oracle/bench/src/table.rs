//! The tables, in Markdown.
use crate::appends::{products, Append};
use crate::flows::{Flows, COUNT as FLOWS};
use crate::measure::Times;
use crate::norm::{Kind, COUNT};

/// A function's times at each size.
pub struct Row {
    pub name: &'static str,
    pub times: [Times; 5],
}

/// A unit of time, and its nanoseconds.
pub type Unit = (&'static str, f64);

/// The ratios, those with the building of the port's inputs, and the times here.
pub fn functions(title: &str, sizes: [String; 5], (unit, size): Unit, rows: &[Row]) {
    if rows.is_empty() {
        return;
    }
    println!("### {title}\n\nRatio of a call here to the port's call:\n");
    table(&sizes, rows, |times| Some(ratio(times.here / times.port)));
    println!("Ratio of a call here to the building of the port's inputs from the same numbers and the port's call:\n");
    table(&sizes, rows, |times| times.build.map(|build| ratio(times.here / (build + times.port))));
    println!("Time of a call here, in {unit}:\n");
    table(&sizes, rows, |times| Some(significant(times.here / size)));
}

/// Nanoseconds of a call for each complex multiply-add of its sums, here and with the port's beside it.
pub fn terms(sizes: [String; 5], rows: &[Row], counts: impl Fn(&str) -> Option<[f64; 5]>) {
    let sums: Vec<(&Row, [f64; 5])> = rows.iter().filter_map(|row| Some((row, counts(row.name)?))).collect();
    if sums.is_empty() {
        return;
    }
    println!("Nanoseconds a complex multiply-add of the sums (terms · n³), the call's questions included; in brackets the port's:\n");
    head("function", &sizes);
    for (row, counts) in sums {
        let cells: Vec<String> = row.times.iter().zip(counts).map(|(times, count)| format!("{} ({})", significant(times.here / count), significant(times.port / count))).collect();
        line(&format!("`{}`", row.name), &cells);
    }
    println!();
}

/// A row has no place in a table in which it has no cells.
fn table(sizes: &[String; 5], rows: &[Row], cell: impl Fn(&Times) -> Option<String>) {
    head("function", sizes);
    for row in rows {
        if let Some(cells) = row.times.iter().map(&cell).collect::<Option<Vec<_>>>() {
            line(&format!("`{}`", row.name), &cells);
        }
    }
    println!();
}

/// An append beside the run over all points: times in milliseconds, and of the append's work, its time and its products, that part of the run's; both from a
/// block beside those from nothing.
pub fn appends(sizes: [(usize, usize); 5], appends: &[Append]) {
    if appends.is_empty() {
        return;
    }
    println!("### An append of the last point, beside the run over all points, by (N, n)\n");
    println!("Milliseconds of a call; its questions are those of a call that the last of them refuses, and its work is the rest:\n");
    head("call", &sizes.map(|size| format!("{size:?}")));
    let milliseconds = |name: &str, time: fn(&Append) -> f64| {
        line(name, &appends.iter().map(|x| significant(time(x) / 1e6)).collect::<Vec<_>>());
    };
    milliseconds("`transient_run`", |x| x.run);
    milliseconds("its questions", |x| x.run_asked);
    milliseconds("`append_point`", |x| x.append);
    milliseconds("its questions", |x| x.append_asked);
    milliseconds("`transient_run_occupied`", |x| x.run_occupied);
    milliseconds("`append_point_occupied`", |x| x.append_occupied);
    let parts = |name: &str, part: &dyn Fn(usize, &Append) -> f64| {
        line(name, &appends.iter().enumerate().map(|(at, x)| format!("1/{}", significant(part(at, x)))).collect::<Vec<_>>());
    };
    parts("the append, of the run", &|_, x| x.run / x.append);
    parts("the append's work, of the run's", &|_, x| (x.run - x.run_asked) / (x.append - x.append_asked));
    parts("its products, of the run's", &|at, _| {
        let points = sizes[at].0 as f64;
        products(points) / (products(points) - products(points - 1.0))
    });
    let ratios = |name: &str, of: fn(&Append) -> f64| line(name, &appends.iter().map(|x| ratio(of(x))).collect::<Vec<_>>());
    ratios("the run from a block, to the run", |x| x.run_occupied / x.run);
    ratios("the append from a block, to the append", |x| x.append_occupied / x.append);
    println!();
}

/// A list beside one flow of it: times in microseconds, and the list's beside that of one flow, of as many one by one, and of the port's with the building.
pub fn flows(sizes: [(usize, usize); 5], flows: &[Flows]) {
    if flows.is_empty() {
        return;
    }
    println!("### A list of {FLOWS} bond flows, beside one, by (N, n)\n");
    println!("Microseconds of a call:\n");
    head("call", &sizes.map(|size| format!("{size:?}")));
    let row = |name: &str, cell: &dyn Fn(&Flows) -> String| line(name, &flows.iter().map(cell).collect::<Vec<_>>());
    row(&format!("`bond_flows_into`, {FLOWS} queries"), &|x| significant(x.list / 1e3));
    row("`bond_flow_into`", &|x| significant(x.single / 1e3));
    row(&format!("the port's `bond_flow_into`, {FLOWS} calls"), &|x| significant(x.port / 1e3));
    row("the list, to one flow", &|x| ratio(x.list / x.single));
    row(&format!("the list, of {FLOWS} calls of `bond_flow_into`"), &|x| format!("1/{}", significant(FLOWS as f64 * x.single / x.list)));
    row("the list, to the building of the port's function and its calls", &|x| ratio(x.list / (x.build + x.port)));
    println!();
}

pub fn norms(kinds: &[Kind]) {
    if kinds.is_empty() {
        return;
    }
    println!("### The norm, beside the platform's hypot\n");
    let differ = format!("differ in bits, of {COUNT}");
    head("parts", &["ratio", "ns a call here", "ns a call of hypot", &differ].map(String::from));
    for kind in kinds {
        line(kind.name, &[ratio(kind.here / kind.port), significant(kind.here), significant(kind.port), kind.differ.to_string()]);
    }
    println!();
}

fn head(first: &str, cells: &[String]) {
    line(first, cells);
    println!("|---|{}", "---:|".repeat(cells.len()));
}

fn line(first: &str, cells: &[String]) {
    println!("| {first} | {} |", cells.join(" | "));
}

fn ratio(x: f64) -> String {
    if x < 10.0 {
        format!("{x:.2}")
    } else {
        format!("{x:.0}")
    }
}

/// Three digits, or all before the point.
fn significant(x: f64) -> String {
    let decimals = (2 - x.log10().floor() as i32).max(0) as usize;
    format!("{x:.decimals$}")
}
