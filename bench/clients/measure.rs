//! measure FILE LINES: runs the lines of a file, so many by each call. Where LINES is 0 the updates of the file are made by methods, and
//! the answer to `show a` comes after them. Writes the answers, and on standard error the seconds that the calls took.

use ordup::{Change, Store};
use std::io::Write;
use std::time::Instant;

/// Each update is of five lines: `propose add:x:1`, `settle`, `send a`, `apply a`, `report a`.
fn by_methods(store: &mut Store, updates: usize) -> Result<(), ordup::Error> {
    for _ in 0..updates {
        store.propose(&[("x", Change::Add(1))])?;
        store.settle()?;
        store.send("a")?;
        store.apply("a")?;
        store.report("a")?;
    }
    Ok(())
}

fn main() -> Result<(), Box<dyn std::error::Error>> {
    let words: Vec<String> = std::env::args().collect();
    let (text, lines) = (std::fs::read(&words[1])?, words[2].parse::<usize>()?);
    let (mut store, mut answers) = (Store::new()?, Vec::with_capacity(1 << 24));
    if lines == 0 {
        let (setup, updates) = std::str::from_utf8(&text)?.split_once("propose").ok_or("there is no update")?;
        store.run(setup.as_bytes(), &mut Vec::new())?;
        let start = Instant::now();
        by_methods(&mut store, 1 + updates.matches("propose").count())?;
        eprintln!("{:.6}", start.elapsed().as_secs_f64());
        store.run(b"show a", &mut answers)?;
        return Ok(std::io::stdout().write_all(&answers)?);
    }
    let start = Instant::now();
    let mut rest = &text[..];
    while !rest.is_empty() {
        let ends = rest.iter().enumerate().filter(|(_, byte)| **byte == b'\n').map(|(at, _)| at + 1);
        let (some, more) = rest.split_at(ends.take(lines).last().unwrap_or(rest.len()));
        store.run(some, &mut answers)?;
        rest = more;
    }
    eprintln!("{:.6}", start.elapsed().as_secs_f64());
    Ok(std::io::stdout().write_all(&answers)?)
}
