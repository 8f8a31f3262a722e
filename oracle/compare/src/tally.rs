//! What is counted, and how it is printed.
use crate::sides::Outcome;
use judge::Listed;
use std::collections::BTreeMap;

/// One line of a table.
#[derive(Default)]
pub struct Row {
    pub calls: u64,
    pub numbers: usize,
    pub differ: usize,
    /// Calls by the number of their refusal, 0 where they are accepted.
    answers: BTreeMap<u8, u64>,
}

impl Row {
    fn count(&mut self, outcome: &Outcome) {
        self.calls += 1;
        self.numbers += outcome.compared;
        self.differ += outcome.unequal;
        *self.answers.entry(outcome.number).or_default() += 1;
    }

    fn join(&mut self, other: Self) {
        self.calls += other.calls;
        self.numbers += other.numbers;
        self.differ += other.differ;
        for (number, calls) in other.answers {
            *self.answers.entry(number).or_default() += calls;
        }
    }

    fn print(&self, name: &str) {
        let accepted = self.answers.get(&0).unwrap_or(&0);
        let refused = self.answers.iter().filter(|(number, _)| **number != 0).map(|(number, calls)| format!("{number}: {calls}"));
        let refused: Vec<_> = refused.collect();
        println!("{name:<56} {:>8} {accepted:>8} {:>12} {:>6}  {}", self.calls, self.numbers, self.differ, refused.join(", "));
    }
}

/// A call in which something differs.
#[derive(PartialEq, Eq, PartialOrd, Ord)]
pub struct Difference {
    pub part: &'static str,
    pub function: &'static str,
    pub index: u64,
    told: String,
}

#[derive(Default)]
pub struct Tally {
    functions: BTreeMap<&'static str, Row>,
    parts: BTreeMap<(&'static str, String), Row>,
    /// Calls in which document 02 parts from the port, by function and difference.
    listed: BTreeMap<(&'static str, Listed), Row>,
    differences: Vec<Difference>,
}

impl Tally {
    pub fn count(&mut self, part: &'static str, function: &'static str, index: u64, outcome: Outcome) {
        self.functions.entry(function).or_default().count(&outcome);
        if outcome.unequal != 0 {
            let listed = outcome.listed.map_or(String::new(), |listed| format!(", the port: {listed}"));
            let told = format!("{} of {} differ, refusal {}{listed}", outcome.unequal, outcome.compared, outcome.number);
            self.differences.push(Difference { part, function, index, told });
        }
        self.parts.entry((part, String::new())).or_default().count(&outcome);
        if !outcome.label.is_empty() {
            let row = self.parts.entry((part, outcome.label.clone())).or_default();
            row.count(&outcome);
        }
        if let Some(listed) = outcome.listed {
            self.listed.entry((function, listed)).or_default().count(&outcome);
        }
    }

    pub fn join(&mut self, other: Self) {
        for (name, row) in other.functions {
            self.functions.entry(name).or_default().join(row);
        }
        for (name, row) in other.parts {
            self.parts.entry(name).or_default().join(row);
        }
        for (name, row) in other.listed {
            self.listed.entry(name).or_default().join(row);
        }
        self.differences.extend(other.differences);
    }

    /// All calls.
    pub fn total(self) -> Row {
        let mut total = Row::default();
        self.functions.into_values().for_each(|row| total.join(row));
        total
    }

    /// A table by function, one by part and what its calls are counted under, one of the listed differences, and the calls that differ.
    pub fn print(&mut self, seed: u64) {
        let heading =
            |of: &str| println!("{of:<56} {:>8} {:>8} {:>12} {:>6}  refused, by number", "calls", "accepted", "numbers", "differ");
        heading("function");
        self.functions.iter().for_each(|(name, row)| row.print(name));
        println!();
        heading("part");
        for ((part, label), row) in &self.parts {
            row.print(&if label.is_empty() { part.to_string() } else { format!("  {label}") });
        }
        println!();
        heading("listed difference: the port");
        self.listed.iter().for_each(|((function, listed), row)| row.print(&format!("{function}, {listed}")));
        println!();
        self.differences.sort();
        for Difference { part, function, index, told } in &self.differences {
            println!("differs: seed {seed}, part {part}, function {function}, call {index}: {told}");
        }
    }
}
