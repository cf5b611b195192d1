//! Why a call was not done.

use std::fmt;

/// The store's answer `refused NUMBER NAME`. After it all is as before. docs/FORMATS.md has the numbers, 1 to 26, and their names.
#[derive(Clone, Debug, PartialEq, Eq)]
pub struct Refused {
    pub number: u32,
    pub name: String,
}

impl fmt::Display for Refused {
    fn fmt(&self, f: &mut fmt::Formatter<'_>) -> fmt::Result {
        write!(f, "refused {} {}", self.number, self.name)
    }
}

impl std::error::Error for Refused {}

/// Why a call was not done.
#[derive(Clone, Debug, PartialEq, Eq)]
#[non_exhaustive]
pub enum Error {
    /// The store refused the command.
    Refused(Refused),
    /// This text is no command, or no name. The store was not asked.
    BadLine(String),
    /// Memory was refused, and nothing is lost. The lines in the first `taken` bytes of the text were taken. The rest of it may be
    /// given again.
    NoMemory { taken: usize },
    /// There is no record, and no successor: no `start` was accepted.
    NotStarted,
    /// There is no record of this site: it is not declared.
    UnknownSite,
    /// The text has more bytes than a record may have.
    TooLong,
    /// There is no successor yet: an update is not acknowledged.
    NotYet,
    /// This answer is none to the command. So the library is another one.
    BadAnswer(String),
    /// The library has this version, or returned this status, which this crate does not know.
    Unknown(u32),
}

impl fmt::Display for Error {
    fn fmt(&self, f: &mut fmt::Formatter<'_>) -> fmt::Result {
        match self {
            Error::Refused(refused) => refused.fmt(f),
            Error::BadLine(text) => write!(f, "{text:?} is no command, or no name"),
            Error::NoMemory { .. } => f.write_str("memory was refused"),
            Error::NotStarted => f.write_str("the store is not started"),
            Error::UnknownSite => f.write_str("there is no such site"),
            Error::TooLong => f.write_str("the record is too long"),
            Error::NotYet => f.write_str("an update is not acknowledged yet"),
            Error::BadAnswer(text) => write!(f, "{text:?} is no answer to the command"),
            Error::Unknown(number) => write!(f, "the library is another version: {number}"),
        }
    }
}

impl std::error::Error for Error {}

impl From<Refused> for Error {
    fn from(refused: Refused) -> Error {
        Error::Refused(refused)
    }
}
