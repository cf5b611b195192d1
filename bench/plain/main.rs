//! What `ordup run`, `ordup record SITE`, `ordup check` and `ordup threads CLIENTS` do, in
//! plain Rust, as a mark to measure them against.
//!
//! Reads a script, a record or a plan on standard input, and answers on standard output, byte for
//! byte as ordup does, but for records with quotes. It is written for speed, and nothing of it is
//! proved. It keeps what ordup keeps: the log with the changes of each update and how far each moved
//! its object, the values of each site, what it had reported when that changed, how far its objects
//! have moved, and its rounds with their windows. It sets no limit to the bytes of its input.
//!
//! Lines are looked at eight bytes at a time, once; only a refused line is searched for bytes that no
//! line may have. A line allocates nothing but what the store keeps. For each limit of a site it keeps
//! what is left of the amount, and for each object a list of its limits, so a settlement costs by the
//! changes of the update. A read takes the distance of two running sums. For a plan the store lies
//! under one lock, and what each site holds under one of its own; a queue leads from one to the other,
//! with an atomic number of what was applied. At the end the log is applied again for each site.
//!
//! - `main`: reads in large pieces, and holds at most one unended line.
//! - `words`: the words, numbers and changes of a line.
//! - `names`: a hash table of names.
//! - `store`: the commands, and what is declared.
//! - `updates`: the log, the sites' events and settlements.
//! - `queries`: queries.
//! - `lag`: what each limit of a site has left.
//! - `answers`: refusals, and the one buffer of the answers.
//! - `record`: the rows of a site's record, from the store.
//! - `rows`: a record, from its rows.
//! - `check`: the verdict on a record.
//! - `plan`: a plan, from its lines.
//! - `threads`: callers and appliers in threads of their own.
//! - `queue`, beside this folder: the queue to a site's applier.

mod answers;
mod check;
mod lag;
mod names;
mod plan;
mod queries;
#[path = "../queue.rs"]
mod queue;
mod record;
mod rows;
mod store;
mod threads;
mod updates;
mod words;

use std::io::{self, Read, Write};
use std::process::ExitCode;

use answers::{answer, put, Out, Refusal};
use store::Store;
use words::{Word, Words, BEHIND, LONGEST_LINE};

const PIECE: usize = 128 * 1024;

/// Answers the lines at the front of a text, up to a place where a line has ended.
fn lines(store: &mut Store, text: &[u8], end: usize, out: &mut Out, output: &mut impl Write) -> io::Result<()> {
    let mut start = 0;
    while start < end {
        let mut words = Words::new(text, start);
        start = match store.line(&mut words, out) {
            Ok(()) => words.place() + 1,
            Err(refusal) => not_accepted(text, start, refusal, out),
        };
        if out.len() >= PIECE {
            out.write_to(output)?;
        }
    }
    Ok(())
}

/// Answers a line that was not accepted, and gives the place of the next one.
#[cold]
fn not_accepted(text: &[u8], start: usize, refusal: Refusal, out: &mut Out) -> usize {
    let line = line_at(text, start);
    if let Some(refusal) = refusal_of(line, refusal) {
        out.refuse(refusal);
    }
    start + line.len() + 1
}

/// The bytes from a place up to the end of the line.
fn line_at(text: &[u8], start: usize) -> &[u8] {
    let length = text[start..].iter().position(|&byte| byte == b'\n').expect("each line is ended");
    &text[start..start + length]
}

/// What a line that was not accepted is refused, or nothing where it is skipped. What was
/// accepted had only good bytes, since each word of it is known or is a name or a number;
/// so only here the bytes of a line are looked at.
fn refusal_of(line: &[u8], refusal: Refusal) -> Option<Refusal> {
    if line.len() > LONGEST_LINE {
        Some(Refusal::Syntax)
    } else if line.first() == Some(&b'#') {
        None
    } else if line.iter().any(|byte| !(0x20..=0x7E).contains(byte)) {
        Some(Refusal::Syntax)
    } else if line.iter().all(|&byte| byte == b' ') {
        None
    } else {
        Some(refusal)
    }
}

/// Gives what takes lines the pieces of a text, each up to a place where a line has ended. The second argument of it is
/// that place. A line that is too long comes as one of `LONGEST_LINE + 1` bytes.
fn pieces(input: &mut impl Read, mut take: impl FnMut(&[u8], usize) -> io::Result<()>) -> io::Result<()> {
    let mut piece = vec![0; PIECE + LONGEST_LINE + BEHIND];
    let most = piece.len() - BEHIND;
    let too_long = [vec![b'x'; LONGEST_LINE + 1], vec![b'\n'; 1 + BEHIND]].concat();
    // The unended line at the front of the piece. Of one that is too long nothing is held.
    let mut held = 0;
    let mut is_too_long = false;
    loop {
        let end = match input.read(&mut piece[held..most]) {
            Ok(0) => break,
            Ok(count) => held + count,
            Err(error) if error.kind() == io::ErrorKind::Interrupted => continue,
            Err(error) => return Err(error),
        };
        let mut front = 0;
        if is_too_long {
            let Some(length) = piece[..end].iter().position(|&byte| byte == b'\n') else { continue };
            take(&too_long, LONGEST_LINE + 2)?;
            front = length + 1;
        }
        let ended = piece[front..end].iter().rposition(|&byte| byte == b'\n').map_or(0, |last| last + 1);
        take(&piece[front..], ended)?;
        let unended = front + ended..end;
        is_too_long = unended.len() > LONGEST_LINE;
        held = if is_too_long { 0 } else { unended.len() };
        piece.copy_within(unended.start..unended.start + held, 0);
    }
    if is_too_long {
        take(&too_long, LONGEST_LINE + 2)?;
    } else if held > 0 {
        piece[held] = b'\n';
        take(&piece, held + 1)?;
    }
    Ok(())
}

/// Answers a script, and gives the store that it leaves.
fn run(input: &mut impl Read, output: &mut impl Write) -> io::Result<Store> {
    let mut store = Store::new();
    let mut out = Out::new(PIECE);
    pieces(input, |text, end| lines(&mut store, text, end, &mut out, output))?;
    out.write_to(output)?;
    output.flush()?;
    Ok(store)
}

/// Prints the record of a site after a script.
fn record(site: &str, input: &mut impl Read, output: &mut impl Write) -> io::Result<ExitCode> {
    let store = run(input, &mut io::sink())?;
    let refused = match store.find_site(Word::new(site.as_bytes())) {
        Ok(site) => {
            let mut out = Out::new(PIECE);
            store.record(site, PIECE, &mut out, output)?;
            out.write_to(output)?;
            output.flush()?;
            return Ok(ExitCode::SUCCESS);
        }
        Err(refused) => refused,
    };
    let mut out = Out::new(0);
    out.refuse(refused);
    out.write_to(&mut io::stderr())?;
    Ok(ExitCode::from(if store.is_started { 2 } else { 3 }))
}

/// Prints the verdict on a record.
fn check(input: &mut impl Read, output: &mut impl Write) -> io::Result<ExitCode> {
    let mut reader = rows::Reader::new();
    pieces(input, |text, end| reader.lines(&text[..end]))?;
    let record = reader.end()?;
    let mut out = Out::new(0);
    let status = match check::check(record) {
        Ok(rounds) => {
            let _: Result<(), Refusal> = answer!(out, b"yes ", rounds);
            ExitCode::SUCCESS
        }
        Err((row, reason)) => {
            writeln!(output, "no {row} {reason}")?;
            ExitCode::from(1)
        }
    };
    out.write_to(output)?;
    output.flush()?;
    Ok(status)
}

/// Proposes the sets of a plan by so many callers, and prints what has become of them.
fn threads(callers: usize, input: &mut impl Read, output: &mut impl Write) -> io::Result<ExitCode> {
    let mut reader = plan::Reader::new();
    pieces(input, |text, end| reader.lines(text, end))?;
    let (store, cells, counts) = threads::run(reader.end()?, callers);
    if !(0..cells.len()).all(|site| threads::agrees(&store, site, &cells[site])) {
        eprintln!("refused 27 Mixed");
        return Ok(ExitCode::from(1));
    }
    let mut out = Out::new(PIECE);
    put!(out, b"log ", store.log.len(), b"\nrefused ", counts.refused, b"\npending ", counts.pending, b"\n");
    for (site, cell) in store.sites.iter().zip(&cells) {
        put!(out, b"site ", site.name, b" applied ", cell.applied, b" rounds ", site.rounds.len());
        for (&object, held) in store.objects.words().iter().zip(&cell.held) {
            put!(out, b" ", object, b"=", held.value);
        }
        put!(out, b"\n");
        out.write_from(PIECE, output)?;
    }
    for site in &store.sites {
        put!(out, b"certified ", site.name, b" ", site.rounds.len(), b"\n");
    }
    out.write_to(output)?;
    output.flush()?;
    Ok(ExitCode::SUCCESS)
}

/// How many callers a word asks for.
fn callers(word: &str) -> Option<usize> {
    word.parse().ok().filter(|callers| (1..=16).contains(callers))
}

fn wrong_words() -> ExitCode {
    eprintln!("usage: plain run, plain record SITE, plain check or plain threads CLIENTS");
    ExitCode::from(2)
}

fn main() -> ExitCode {
    let words: Vec<String> = std::env::args().skip(1).collect();
    let words: Vec<&str> = words.iter().map(String::as_str).collect();
    let (input, output) = (&mut io::stdin().lock(), &mut io::stdout().lock());
    let done = match words[..] {
        ["run"] => run(input, output).map(|_| ExitCode::SUCCESS),
        ["record", site] => record(site, input, output),
        ["check"] => check(input, output),
        ["threads", clients] => match callers(clients) {
            Some(callers) => threads(callers, input, output),
            None => return wrong_words(),
        },
        _ => return wrong_words(),
    };
    done.unwrap_or_else(|error| {
        if error.kind() == io::ErrorKind::InvalidData {
            eprintln!("malformed {error}");
            return ExitCode::from(3);
        }
        eprintln!("plain: {error}");
        ExitCode::FAILURE
    })
}
