//! Runs a script from the standard input through the library, and writes its answers: as `ordup run`.

use std::io::{self, BufRead, Write};

fn main() -> Result<(), Box<dyn std::error::Error>> {
    let (mut store, mut line, mut answers) = (ordup::Store::new()?, Vec::new(), Vec::new());
    let (mut input, mut output) = (io::stdin().lock(), io::BufWriter::new(io::stdout().lock()));
    while input.read_until(b'\n', &mut line)? > 0 {
        store.run(&line, &mut answers)?;
        output.write_all(&answers)?;
        line.clear();
        answers.clear();
    }
    Ok(output.flush()?)
}
