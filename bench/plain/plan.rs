//! A plan, from its lines: what is declared, a start, and the sets that are to be proposed.

use std::io;

use crate::answers::{Out, Refusal};
use crate::store::{Store, PROPOSE};
use crate::updates::{read_set, Log};
use crate::words::Words;
use crate::{line_at, refusal_of};

pub struct Plan {
    /// A store that is started.
    pub store: Store,
    /// The sets, none of which is proposed yet.
    pub sets: Log,
}

pub struct Reader {
    plan: Plan,
    lines: usize,
    /// The answers to declarations, which nobody reads.
    out: Out,
}

impl Reader {
    pub fn new() -> Reader {
        Reader { plan: Plan { store: Store::new(), sets: Log::new() }, lines: 0, out: Out::new(0) }
    }

    fn malformed(&self) -> io::Error {
        io::Error::new(io::ErrorKind::InvalidData, self.lines.to_string())
    }

    /// Reads the lines at the front of a text, up to a place where a line has ended.
    pub fn lines(&mut self, text: &[u8], end: usize) -> io::Result<()> {
        let mut start = 0;
        while start < end {
            self.lines += 1;
            let mut words = Words::new(text, start);
            start = match self.line(&mut words) {
                Ok(()) => words.place() + 1,
                Err(refusal) => {
                    let line = line_at(text, start);
                    if refusal_of(line, refusal).is_some() {
                        return Err(self.malformed());
                    }
                    start + line.len() + 1
                }
            };
        }
        Ok(())
    }

    /// Before the start a store takes declarations alone.
    fn line(&mut self, words: &mut Words) -> Result<(), Refusal> {
        let Plan { store, sets } = &mut self.plan;
        if store.is_started {
            Refusal::Syntax.when(words.word()?.short_key() != PROPOSE)?;
            read_set(&store.objects, true, words, &mut sets.changes)?;
            sets.ends.push(sets.changes.len() as u32);
            return Ok(());
        }
        self.out.clear();
        store.line(words, &mut self.out)
    }

    /// The plan, where it has a start.
    pub fn end(mut self) -> io::Result<Plan> {
        self.lines += 1;
        if self.plan.store.is_started {
            Ok(self.plan)
        } else {
            Err(self.malformed())
        }
    }
}
