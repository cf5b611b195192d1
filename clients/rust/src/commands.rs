//! A method for each command.

use crate::answer::{Answer, Certified, Ended, Read, Settled, Shown};
use crate::error::Error;
use crate::store::Store;
use std::fmt;
use std::io::Write;

/// A change of an object: what its value becomes. The changes of one update all read the values before it.
#[derive(Clone, Copy, Debug, PartialEq, Eq)]
pub enum Change<'a> {
    /// The value and this number.
    Add(i64),
    /// This number.
    Set(i64),
    /// The value times this number.
    Mul(i64),
    /// The greater one of the value and this number.
    Max(i64),
    /// The lesser one of the value and this number.
    Min(i64),
    /// The value of another object.
    Take(&'a str),
}

impl<'a> Change<'a> {
    /// The other object that it names.
    fn other(&self) -> Option<&'a str> {
        match self {
            Change::Take(other) => Some(other),
            _ => None,
        }
    }
}

/// What a limit weighs of an update.
#[derive(Clone, Copy, Debug, PartialEq, Eq)]
pub enum Scope<'a> {
    /// How far it moves the value of an object.
    Object(&'a str),
    /// How far it moves the values of a group's members, in sum.
    Group(&'a str),
    /// How far it moves all values, in sum.
    All,
    /// 1.
    Count,
}

impl<'a> Scope<'a> {
    /// The object or the group that it names.
    fn name(&self) -> Option<&'a str> {
        match self {
            Scope::Object(name) | Scope::Group(name) => Some(name),
            Scope::All | Scope::Count => None,
        }
    }
}

impl fmt::Display for Scope<'_> {
    fn fmt(&self, f: &mut fmt::Formatter<'_>) -> fmt::Result {
        match self {
            Scope::Object(name) => write!(f, "object {name}"),
            Scope::Group(name) => write!(f, "group {name}"),
            Scope::All => f.write_str("all"),
            Scope::Count => f.write_str("count"),
        }
    }
}

/// What a command has behind its first word. A space comes before each word.
trait Words {
    fn put(&self, line: &mut Vec<u8>);
}

impl Words for &str {
    fn put(&self, line: &mut Vec<u8>) {
        line.push(b' ');
        line.extend_from_slice(self.as_bytes());
    }
}

impl Words for i64 {
    fn put(&self, line: &mut Vec<u8>) {
        add(line, format_args!(" {self}"));
    }
}

impl Words for u64 {
    fn put(&self, line: &mut Vec<u8>) {
        add(line, format_args!(" {self}"));
    }
}

impl Words for Scope<'_> {
    fn put(&self, line: &mut Vec<u8>) {
        add(line, format_args!(" {self}"));
    }
}

impl Words for (&str, Change<'_>) {
    fn put(&self, line: &mut Vec<u8>) {
        let (object, change) = self;
        match change {
            Change::Add(n) => add(line, format_args!(" add:{object}:{n}")),
            Change::Set(n) => add(line, format_args!(" set:{object}:{n}")),
            Change::Mul(n) => add(line, format_args!(" mul:{object}:{n}")),
            Change::Max(n) => add(line, format_args!(" max:{object}:{n}")),
            Change::Min(n) => add(line, format_args!(" min:{object}:{n}")),
            Change::Take(other) => add(line, format_args!(" take:{object}:{other}")),
        }
    }
}

impl<T: Words> Words for &[T] {
    fn put(&self, line: &mut Vec<u8>) {
        self.iter().for_each(|it| it.put(line));
    }
}

fn add(line: &mut Vec<u8>, text: fmt::Arguments<'_>) {
    line.write_fmt(text).expect("a vector takes all that is written");
}

/// Whether a text has the form of a name.
fn is_name(text: &str) -> bool {
    let is_part = |byte: u8| byte.is_ascii_lowercase() || byte.is_ascii_digit() || byte == b'_';
    text.len() <= 16 && text.bytes().all(is_part) && text.bytes().next().map_or(false, |byte| byte.is_ascii_lowercase())
}

/// Sees that all of these are names: a text that holds a space or a line feed would make another command.
fn named<'a>(names: impl IntoIterator<Item = &'a str>) -> Result<(), Error> {
    match names.into_iter().find(|name| !is_name(name)) {
        Some(text) => Err(Error::BadLine(text.to_string())),
        None => Ok(()),
    }
}

/// Asks the command of these words, and gives what the answer has. An answer of another kind is a `BadAnswer`.
macro_rules! ask {
    ($store:expr, $kind:pat => $given:expr, $command:literal $(, $words:expr)*) => {
        match $store.ask($command, |_line| { $(Words::put(&$words, _line);)* })? {
            $kind => Ok($given),
            other => Err(Error::BadAnswer(format!("{other:?}"))),
        }
    };
}

/// A method for each command of docs/FORMATS.md. A refusal is [`Error::Refused`], and after it all is as before; the last line of a method
/// names those that it may have. A text that has not the form of a name (1 to 16 of a to z, 0 to 9 and _, from a letter on) is
/// [`Error::BadLine`], and the store is not asked. Where memory is refused the command did not happen: [`Error::NoMemory`].
impl Store {
    /// Declares an object with its initial value, from -1,000,000,000 to 1,000,000,000. There are at most 256 objects.
    ///
    /// Refused `AlreadyStarted`, `NameTaken`, `OutOfRange` or `TooMany`.
    pub fn object(&mut self, name: &str, value: i64) -> Result<(), Error> {
        named([name])?;
        ask!(self, Answer::Declared { .. } => (), "object", name, value)
    }

    /// Declares a group of 1 to 64 objects, which a limit weighs together. There are at most 32 groups.
    ///
    /// Refused `AlreadyStarted`, `NameTaken`, `UnknownObject`, `TooMany`, `Empty` or `Repeated`.
    pub fn group(&mut self, name: &str, members: &[&str]) -> Result<(), Error> {
        named([name].into_iter().chain(members.iter().copied()))?;
        ask!(self, Answer::Declared { .. } => (), "group", name, members)
    }

    /// Declares a site. Its feed holds up to `capacity` updates that it has not applied, 1 to 1,024. There are at most 16 sites.
    ///
    /// Refused `AlreadyStarted`, `NameTaken`, `OutOfRange` or `TooMany`.
    pub fn site(&mut self, name: &str, capacity: u64) -> Result<(), Error> {
        named([name])?;
        ask!(self, Answer::Declared { .. } => (), "site", name, capacity)
    }

    /// Gives a site a limit, before the start: the acknowledged updates that it has not applied never weigh more than `amount` on
    /// the scope, 0 to 10^18. A site has at most 64 limits, each on a scope of its own.
    ///
    /// Refused `AlreadyStarted`, `UnknownObject`, `UnknownGroup`, `UnknownSite`, `OutOfRange`, `TooMany` or `Repeated`.
    pub fn limit(&mut self, site: &str, scope: Scope<'_>, amount: u64) -> Result<(), Error> {
        named([site].into_iter().chain(scope.name()))?;
        ask!(self, Answer::Declared { .. } => (), "limit", site, scope, amount)
    }

    /// Starts the store. The log is empty, and each site has the initial values. Declarations come before it, all else after it.
    ///
    /// Refused `AlreadyStarted` or `Empty`.
    pub fn start(&mut self) -> Result<(), Error> {
        ask!(self, Answer::Started => (), "start")
    }

    /// Proposes one update of 1 to 64 changes on distinct objects, all of which happen at once or not at all, and gives its place
    /// in the log, 1 to 1,000,000. Each number, and each value after the update, is from -1,000,000,000 to 1,000,000,000.
    ///
    /// Refused `NotStarted`, `UnknownObject`, `OutOfRange`, `TooMany`, `Empty`, `Repeated` or `LogFull`.
    pub fn propose(&mut self, changes: &[(&str, Change<'_>)]) -> Result<u64, Error> {
        named(changes.iter().flat_map(|(name, change)| [Some(*name), change.other()]).flatten())?;
        ask!(self, Answer::Proposed { place } => place, "propose", changes)
    }

    /// Puts the first update that was not sent to a site into its feed, acknowledged or not, and gives its place.
    ///
    /// Refused `NotStarted`, `UnknownSite`, `NothingToSend` or `FeedFull`.
    pub fn send(&mut self, site: &str) -> Result<u64, Error> {
        named([site])?;
        ask!(self, Answer::Sent { place, .. } => place, "send", site)
    }

    /// Has a site apply the next update of its feed, and gives its place.
    ///
    /// Refused `NotStarted`, `UnknownSite` or `NothingToApply`.
    pub fn apply(&mut self, site: &str) -> Result<u64, Error> {
        named([site])?;
        ask!(self, Answer::Applied { place, .. } => place, "apply", site)
    }

    /// Tells the primary how many updates a site has applied, and gives that number. The primary goes by it until the next report.
    ///
    /// Refused `NotStarted` or `UnknownSite`.
    pub fn report(&mut self, site: &str) -> Result<u64, Error> {
        named([site])?;
        ask!(self, Answer::Reported { applied, .. } => applied, "report", site)
    }

    /// Asks the primary to acknowledge the head, which is the first update that is not acknowledged, and says what became of it.
    ///
    /// Refused `NotStarted` or `NothingToSettle`.
    pub fn settle(&mut self) -> Result<Settled, Error> {
        ask!(self, Answer::Settled(settled) => settled, "settle")
    }

    /// Begins a query at a site, and gives its reference: how many updates are acknowledged now. Its reads may import at most
    /// `limit` in sum, 0 to 10^18, in the unit of the values. At most 64 queries are open at a time.
    ///
    /// Refused `NotStarted`, `UnknownSite`, `OutOfRange`, `TooMany` or `QueryOpen`.
    pub fn begin(&mut self, query: &str, site: &str, limit: u64) -> Result<u64, Error> {
        named([query, site])?;
        ask!(self, Answer::Begun { place, .. } => place, "begin", query, site, limit)
    }

    /// Reads an object by a query, at the query's site.
    ///
    /// Refused `NotStarted`, `UnknownObject`, `UnknownQuery`, `TooMany` or `OverImport`.
    pub fn read(&mut self, query: &str, object: &str) -> Result<Read, Error> {
        named([query, object])?;
        ask!(self, Answer::Read(read) => read, "read", query, object)
    }

    /// Ends a query, and gives the sum of what it read. Its name is free again.
    ///
    /// Refused `NotStarted` or `UnknownQuery`.
    pub fn end(&mut self, query: &str) -> Result<Ended, Error> {
        named([query])?;
        ask!(self, Answer::Ended(ended) => ended, "end", query)
    }

    /// Ends a query without its sum. Its name is free again.
    ///
    /// Refused `NotStarted` or `UnknownQuery`.
    pub fn abandon(&mut self, query: &str) -> Result<(), Error> {
        named([query])?;
        ask!(self, Answer::Abandoned { .. } => (), "abandon", query)
    }

    /// Shows how far a site is, and its values.
    ///
    /// Refused `NotStarted` or `UnknownSite`.
    pub fn show(&mut self, site: &str) -> Result<Shown, Error> {
        named([site])?;
        ask!(self, Answer::Shown(shown) => shown, "show", site)
    }

    /// Shows that the forced rounds of a site are the fewest. The answer has a window for each of them, so it may be long.
    ///
    /// Refused `NotStarted` or `UnknownSite`.
    pub fn certify(&mut self, site: &str) -> Result<Certified, Error> {
        named([site])?;
        ask!(self, Answer::Certified(certified) => certified, "certify", site)
    }

    /// Changes a limit of a site while the store runs, or gives it one, and gives the place of the head, from which on it is in
    /// force. The scope and the amount are those of `limit`. A second change of the same scope before the head is acknowledged
    /// replaces the first.
    ///
    /// Refused `NotStarted`, `UnknownObject`, `UnknownGroup`, `UnknownSite`, `OutOfRange`, `TooMany`, `HeadPending` or `LagOver`.
    pub fn relimit(&mut self, site: &str, scope: Scope<'_>, amount: u64) -> Result<u64, Error> {
        named([site].into_iter().chain(scope.name()))?;
        ask!(self, Answer::Relimited { place, .. } => place, "relimit", site, scope, amount)
    }
}
