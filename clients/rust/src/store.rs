//! A store, and what it is asked in text.

use crate::answer::{Answer, SeriesVerdict, Verdict};
use crate::error::{Error, Refused};
use crate::sys::script::{self, Script, DONE, MALFORMED, MORE, NOT_STARTED, NOT_YET, NO_MEMORY, TOO_LONG, UNKNOWN_SITE, VERSION};
use std::sync::{Mutex, MutexGuard, PoisonError};
use std::{mem, str};

/// How many bytes an answer may have at first. There is more room where one is longer.
const ROOM: usize = 512;

/// How many bytes a verdict has at most.
const VERDICT: usize = 64;

/// How many bytes a line may have, without its line feed.
const MOST_BYTES: usize = 4096;

/// An answer, or a refusal.
pub type Outcome = Result<Answer, Refused>;

/// A store in this process. It is closed when it is dropped.
///
/// It may go from thread to thread. Where several threads call one store, they share a [`SharedStore`].
pub struct Store {
    script: Script,
    /// The line of a command, and its answer: the next ones have their room.
    line: Vec<u8>,
    answer: Vec<u8>,
}

impl Store {
    /// A store before its first line. The error is `NoMemory`, or `Unknown` if the library has another version than this
    /// crate.
    pub fn new() -> Result<Store, Error> {
        let mut script = Script::none();
        match script::version() {
            VERSION => {}
            version => return Err(Error::Unknown(version)),
        }
        match script.open() {
            DONE => Ok(Store { script, line: Vec::new(), answer: Vec::new() }),
            status => Err(fault(status)),
        }
    }

    /// Answers the lines of a text, and adds the answers to `answers`: the same bytes as `ordup run` reads and writes. The last line
    /// needs no line feed.
    ///
    /// Where memory is refused the answers to the lines that were taken are added, and the error says which these are.
    ///
    /// ```
    /// let mut store = ordup::Store::new()?;
    /// let mut answers = Vec::new();
    /// store.run(b"object tea 40\nsite south 2\n\n# no answer\nstart", &mut answers)?;
    /// assert_eq!(answers, b"ok object tea\nok site south\nok start\n");
    /// # Ok::<(), ordup::Error>(())
    /// ```
    pub fn run(&mut self, text: &[u8], answers: &mut Vec<u8>) -> Result<(), Error> {
        let (mut rest, mut outcome) = (text, Ok(()));
        loop {
            if answers.try_reserve(ROOM).is_err() {
                return outcome.and(Err(Error::NoMemory { taken: text.len() - rest.len() }));
            }
            let mut taken = 0;
            let status = self.script.run(rest, &mut taken, answers);
            rest = &rest[taken..];
            match status {
                DONE => return outcome,
                MORE => {}
                NO_MEMORY => outcome = Err(Error::NoMemory { taken: text.len() - rest.len() }),
                status => return outcome.and(Err(fault(status))),
            }
            // All lines that can be taken were. The rest of their answers comes.
            rest = &[];
        }
    }

    /// Answers one command, as it is.
    ///
    /// ```
    /// use ordup::{Answer, Error, Store};
    /// let mut store = Store::new()?;
    /// assert_eq!(store.command("object tea 40")?, Answer::Declared { kind: "object".into(), name: "tea".into() });
    /// assert!(matches!(store.command("object tea 1"), Err(Error::Refused(refused)) if refused.name == "NameTaken"));
    /// # Ok::<(), Error>(())
    /// ```
    pub fn command(&mut self, line: &str) -> Result<Answer, Error> {
        if !is_command(line) {
            return Err(Error::BadLine(line.to_string()));
        }
        self.ask(line, |_| ())
    }

    /// Answers the command of this word, and of those that are put behind it.
    pub(crate) fn ask(&mut self, command: &str, put: impl FnOnce(&mut Vec<u8>)) -> Result<Answer, Error> {
        let (mut line, mut answer) = (mem::take(&mut self.line), mem::take(&mut self.answer));
        line.clear();
        line.extend_from_slice(command.as_bytes());
        put(&mut line);
        answer.clear();
        let outcome = self.answered(&line, &mut answer);
        (self.line, self.answer) = (line, answer);
        outcome
    }

    fn answered(&mut self, line: &[u8], answer: &mut Vec<u8>) -> Result<Answer, Error> {
        if line.len() > MOST_BYTES {
            return Err(Error::BadLine(String::from_utf8_lossy(line).into_owned()));
        }
        self.run(line, answer)?;
        let text = answer.strip_suffix(b"\n").and_then(|text| str::from_utf8(text).ok());
        Ok(text.and_then(Answer::parse).ok_or_else(|| Error::BadAnswer(String::from_utf8_lossy(answer).into_owned()))??)
    }

    /// Answers many commands, and adds their answers to `outcomes`. A refusal is one of these. Where one of the lines would have no
    /// answer, or is more than a line, no command is asked.
    ///
    /// Where memory is refused the answers to the commands that were taken are added.
    pub fn commands<L: AsRef<str>>(&mut self, lines: impl IntoIterator<Item = L>, outcomes: &mut Vec<Outcome>) -> Result<(), Error> {
        let mut text = Vec::new();
        for line in lines {
            let line = line.as_ref();
            if !is_command(line) {
                return Err(Error::BadLine(line.to_string()));
            }
            text.extend_from_slice(line.as_bytes());
            text.push(b'\n');
        }
        let mut answers = Vec::with_capacity(ROOM);
        let outcome = self.run(&text, &mut answers);
        let taken = match outcome {
            Err(Error::NoMemory { taken }) => &text[..taken],
            _ => &text[..],
        };
        let (count, answers) = (taken.iter().filter(|byte| **byte == b'\n').count(), text_of(answers)?);
        let parsed: Option<Vec<_>> = answers.lines().map(Answer::parse).collect();
        outcomes.extend(parsed.filter(|parsed| parsed.len() == count).ok_or(Error::BadAnswer(answers))?);
        outcome
    }

    /// The record of a site, for an auditor: as `ordup record` prints it. The store is as it was.
    ///
    /// The error is `NotStarted`, `UnknownSite` or `NoMemory`.
    pub fn record(&mut self, site: &str) -> Result<String, Error> {
        given(65_536, |room, written| self.script.record(site, room, written))
    }

    /// The declarations of the successor, which begins with what this store ends with, once all updates are acknowledged: as
    /// `ordup next` prints them. The store is as it was.
    ///
    /// The error is `NotStarted`, `NotYet` or `NoMemory`.
    pub fn next_declarations(&mut self) -> Result<String, Error> {
        given(65_536, |room, written| self.script.next(room, written))
    }
}

/// Checks a record, as `ordup check` does. It needs no store. The error is `TooLong` for more than 8 GiB, or `NoMemory`.
///
/// ```
/// use ordup::{check, Verdict};
/// let record = "ordup,1,a,1\nobject,1,x,0\nlimit,1,object:x,5\nchange,1,1,add:x:4\n";
/// assert_eq!(check(record.as_bytes())?, Verdict::Yes { rounds: 0 });
/// assert_eq!(check(&record.as_bytes()[..40])?, Verdict::Malformed { row: 3 });
/// # Ok::<(), ordup::Error>(())
/// ```
pub fn check(record: &[u8]) -> Result<Verdict, Error> {
    let text = given(VERDICT, |room, written| script::check(record, room, written))?;
    Verdict::parse(text.trim_end()).ok_or(Error::BadAnswer(text))
}

/// Checks the records of a site, one after another, of a store and of those that go on from it, as `ordup check --series` does. It
/// needs no store. The only error is `NoMemory`.
///
/// ```
/// use ordup::{check_series, SeriesVerdict};
/// let first = "ordup,1,a,1\nobject,1,x,0\nchange,1,1,add:x:4\n";
/// let series = [first, "ordup,1,a,0\nobject,1,x,4\n"].concat();
/// assert_eq!(check_series(series.as_bytes())?, SeriesVerdict::Yes { rounds: 0 });
/// let series = [first, "ordup,1,a,0\nobject,1,x,5\n"].concat();
/// assert_eq!(check_series(series.as_bytes())?, SeriesVerdict::No { record: 2, row: 2, reason: "NotNext".into() });
/// # Ok::<(), ordup::Error>(())
/// ```
pub fn check_series(records: &[u8]) -> Result<SeriesVerdict, Error> {
    let text = given(VERDICT, |room, written| script::check_series(records, room, written))?;
    SeriesVerdict::parse(text.trim_end()).ok_or(Error::BadAnswer(text))
}

/// What a call writes, which says how much room it needs.
fn given(room: usize, mut call: impl FnMut(&mut [u8], &mut usize) -> u32) -> Result<String, Error> {
    let (mut text, mut written) = (Vec::new(), room);
    loop {
        text.try_reserve_exact(written).map_err(|_| Error::NoMemory { taken: 0 })?;
        text.resize(written, 0);
        match call(&mut text, &mut written) {
            DONE | MALFORMED => break,
            MORE => text.clear(),
            status => return Err(fault(status)),
        }
    }
    text.truncate(written);
    text_of(text)
}

fn text_of(bytes: Vec<u8>) -> Result<String, Error> {
    String::from_utf8(bytes).map_err(|fault| Error::BadAnswer(String::from_utf8_lossy(fault.as_bytes()).into_owned()))
}

fn fault(status: u32) -> Error {
    match status {
        NO_MEMORY => Error::NoMemory { taken: 0 },
        NOT_STARTED => Error::NotStarted,
        UNKNOWN_SITE => Error::UnknownSite,
        TOO_LONG => Error::TooLong,
        NOT_YET => Error::NotYet,
        status => Error::Unknown(status),
    }
}

/// Whether a text is one line that has an answer.
fn is_command(line: &str) -> bool {
    let is_printed = line.bytes().all(|byte| (b' '..=b'~').contains(&byte));
    is_printed && line.len() <= MOST_BYTES && !line.starts_with('#') && line.bytes().any(|byte| byte != b' ')
}

/// A store that threads share: it has a lock around it, since the library has none.
///
/// ```
/// use ordup::{SharedStore, Store};
/// let shared = SharedStore::from(Store::new()?);
/// shared.lock().commands(["object sold 0", "site south 2", "start"], &mut Vec::new())?;
/// std::thread::scope(|scope| {
///     for _ in 0..4 {
///         scope.spawn(|| shared.lock().command("propose add:sold:1").unwrap());
///     }
/// });
/// assert_eq!(shared.lock().propose(&[("sold", ordup::Change::Add(1))])?, 5);
/// # Ok::<(), ordup::Error>(())
/// ```
pub struct SharedStore(Mutex<Store>);

impl SharedStore {
    /// The store, for this thread alone until the guard is dropped. No command of another thread comes between those by one guard.
    pub fn lock(&self) -> MutexGuard<'_, Store> {
        // A thread that panicked with the guard was in no call of the library, so the store is whole.
        self.0.lock().unwrap_or_else(PoisonError::into_inner)
    }
}

impl From<Store> for SharedStore {
    fn from(store: Store) -> SharedStore {
        SharedStore(Mutex::new(store))
    }
}
