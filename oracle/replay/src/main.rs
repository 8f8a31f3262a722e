//! The judge's answers to a list of calls: reads what `crates/replay` reads from standard input, and prints what that prints.
mod calls;
mod inputs;
mod text;

use inputs::{Inputs, Words};
use std::io::{BufWriter, Write};

fn main() -> std::io::Result<()> {
    let list = std::io::read_to_string(std::io::stdin())?;
    let mut words = Words::of(&list);
    let mut out = BufWriter::new(std::io::stdout().lock());
    let mut index = 0;
    while let Some(function) = words.next() {
        let mut inputs = Inputs::of(&mut words, function >= 64);
        writeln!(out, "{index} {}", calls::answer(function % 64, &mut inputs))?;
        index += 1;
    }
    out.flush()
}
