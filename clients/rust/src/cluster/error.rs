//! Why a call of a cluster was not done.

use crate::sys::cluster::{DONE, REFUSED};
use std::fmt;

/// Why a call of a cluster was not done. What it would have changed is then as it was, unless a variant says something else.
#[derive(Clone, Copy, Debug, PartialEq, Eq)]
#[non_exhaustive]
pub enum Error {
    /// The site has applied so many updates, which are fewer than the session has seen.
    Behind { applied: u64 },
    /// The update with this number is **numbered and stands**, but was not acknowledged in this time. `settle` waits for it.
    NotYet { number: u64 },
    /// Not all updates are acknowledged, or not all are sent to each site.
    Unfinished,
    /// The condition with this index is not met, and those before it are. Nothing was numbered.
    Unmet { index: usize },
    /// The cluster was stopped. Nothing was numbered.
    Stopped,
    /// A site does not hold the serial result of the updates that it applied: a bug of ordup, or a fault of the memory.
    Mixed,
    /// Memory was refused, or a thread, or a lock.
    NoMemory,
    /// The call was refused.
    Refused(Refusal),
    /// The library returned this status, which this crate does not know.
    Unknown(u32),
}

impl fmt::Display for Error {
    fn fmt(&self, f: &mut fmt::Formatter<'_>) -> fmt::Result {
        match self {
            Error::Behind { applied } => write!(f, "the site has applied {applied} updates, fewer than the session has seen"),
            Error::NotYet { number } => write!(f, "update {number} is numbered, and not acknowledged yet"),
            Error::Unfinished => f.write_str("an update is not acknowledged yet, or not sent"),
            Error::Unmet { index } => write!(f, "condition {index} is not met"),
            Error::Stopped => f.write_str("the cluster is stopped"),
            Error::Mixed => f.write_str("a site does not agree with the log"),
            Error::NoMemory => f.write_str("memory was refused"),
            Error::Refused(refusal) => refusal.fmt(f),
            Error::Unknown(status) => write!(f, "the library is another version: it returned {status}"),
        }
    }
}

impl std::error::Error for Error {}

/// The answer to a call that returned this status.
pub(super) fn done(status: u32) -> Result<(), Error> {
    match status {
        DONE => Ok(()),
        status => Err(fault(status)),
    }
}

/// Why a call was not done that returned this status. `NotYet`, `Behind` and `Unmet` need more, which their calls know.
pub(super) fn fault(status: u32) -> Error {
    match status {
        NOT_YET => Error::Unfinished,
        STOPPED => Error::Stopped,
        NO_MEMORY => Error::NoMemory,
        MIXED => Error::Mixed,
        status => match status.checked_sub(REFUSED).and_then(Refusal::of) {
            Some(refusal) => Error::Refused(refusal),
            None => Error::Unknown(status),
        },
    }
}

pub(super) const BEHIND: u32 = REFUSED + 21;
pub(super) const NOT_YET: u32 = REFUSED + 22;
const STOPPED: u32 = REFUSED + 23;
const NO_MEMORY: u32 = REFUSED + 26;
const MIXED: u32 = REFUSED + 27;

macro_rules! refusals {
    ($($(#[$doc:meta])* $name:ident = $number:literal,)*) => {
        /// A refusal, with its number and its name in docs/FORMATS.md.
        #[derive(Clone, Copy, Debug, PartialEq, Eq, Hash)]
        #[non_exhaustive]
        pub enum Refusal {
            $($(#[$doc])* $name = $number,)*
        }

        impl Refusal {
            /// Its name, as `UnknownObject`.
            pub fn name(self) -> &'static str {
                match self {
                    $(Refusal::$name => stringify!($name),)*
                }
            }

            fn of(number: u32) -> Option<Refusal> {
                match number {
                    $($number => Some(Refusal::$name),)*
                    _ => None,
                }
            }
        }
    };
}

refusals! {
    /// There is no such operation.
    Syntax = 1,
    /// The text is no name: a letter, and then at most 15 letters, digits and `_`, all small.
    BadName = 4,
    /// Another one of its kind has this name.
    NameTaken = 5,
    /// There is no such object, also one that `take` reads or a condition is on.
    UnknownObject = 6,
    /// There is no such group.
    UnknownGroup = 7,
    /// There is no such site.
    UnknownSite = 8,
    /// A number is outside the range of its use, or a value would be; or no update has this number.
    OutOfRange = 9,
    /// A size would be passed.
    TooMany = 10,
    /// There is no object, no site, no member or no change.
    Empty = 11,
    /// An object comes twice, or the site has a limit on this scope.
    Repeated = 12,
    /// The log has all the updates that it may have, or too many came before it. A successor goes on.
    LogFull = 13,
    /// The read would import more than the query may.
    OverImport = 20,
    /// An update waits for sites, so no limit changes now.
    HeadPending = 24,
    /// The site lags by more than this limit now.
    LagOver = 25,
}

impl Refusal {
    /// Its number, as 6.
    pub fn number(self) -> u32 {
        self as u32
    }
}

impl fmt::Display for Refusal {
    fn fmt(&self, f: &mut fmt::Formatter<'_>) -> fmt::Result {
        write!(f, "refused {} {}", self.number(), self.name())
    }
}
