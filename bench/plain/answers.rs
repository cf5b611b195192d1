//! Refusals, and the one buffer of the answers.

use std::io::{self, Write};

use crate::words::{Word, LONGEST_NAME};

/// No answer but a certificate has more bytes: the longest one shows 256 values.
const LONGEST_ANSWER: usize = 16 * 1024;

#[derive(Clone, Copy)]
pub enum Refusal {
    Syntax,
    NotStarted,
    AlreadyStarted,
    BadName,
    NameTaken,
    UnknownObject,
    UnknownGroup,
    UnknownSite,
    OutOfRange,
    TooMany,
    Empty,
    Repeated,
    LogFull,
    NothingToSend,
    FeedFull,
    NothingToApply,
    NothingToSettle,
    UnknownQuery,
    QueryOpen,
    OverImport,
    HeadPending,
    LagOver,
}

impl Refusal {
    #[inline]
    pub fn when(self, applies: bool) -> Result<(), Refusal> {
        if applies {
            return Err(self);
        }
        Ok(())
    }

    fn answer(self) -> &'static [u8] {
        match self {
            Refusal::Syntax => b"refused 1 Syntax\n",
            Refusal::NotStarted => b"refused 2 NotStarted\n",
            Refusal::AlreadyStarted => b"refused 3 AlreadyStarted\n",
            Refusal::BadName => b"refused 4 BadName\n",
            Refusal::NameTaken => b"refused 5 NameTaken\n",
            Refusal::UnknownObject => b"refused 6 UnknownObject\n",
            Refusal::UnknownGroup => b"refused 7 UnknownGroup\n",
            Refusal::UnknownSite => b"refused 8 UnknownSite\n",
            Refusal::OutOfRange => b"refused 9 OutOfRange\n",
            Refusal::TooMany => b"refused 10 TooMany\n",
            Refusal::Empty => b"refused 11 Empty\n",
            Refusal::Repeated => b"refused 12 Repeated\n",
            Refusal::LogFull => b"refused 13 LogFull\n",
            Refusal::NothingToSend => b"refused 14 NothingToSend\n",
            Refusal::FeedFull => b"refused 15 FeedFull\n",
            Refusal::NothingToApply => b"refused 16 NothingToApply\n",
            Refusal::NothingToSettle => b"refused 17 NothingToSettle\n",
            Refusal::UnknownQuery => b"refused 18 UnknownQuery\n",
            Refusal::QueryOpen => b"refused 19 QueryOpen\n",
            Refusal::OverImport => b"refused 20 OverImport\n",
            Refusal::HeadPending => b"refused 24 HeadPending\n",
            Refusal::LagOver => b"refused 25 LagOver\n",
        }
    }
}

/// Answers that are not yet written. They are put into bytes that are there already.
pub struct Out {
    bytes: Vec<u8>,
    end: usize,
}

impl Out {
    /// Has spare capacity for one more answer while fewer than so many bytes are unwritten.
    pub fn new(unwritten: usize) -> Out {
        Out { bytes: vec![0; unwritten + LONGEST_ANSWER], end: 0 }
    }

    pub fn len(&self) -> usize {
        self.end
    }

    /// Reserves so many bytes more than an answer has.
    pub fn reserve(&mut self, more: usize) {
        let wanted = self.end + more + LONGEST_ANSWER;
        if self.bytes.len() < wanted {
            self.bytes.resize(wanted, 0);
        }
    }

    /// Drops what is unwritten.
    pub fn clear(&mut self) {
        self.end = 0;
    }

    pub fn write_to(&mut self, output: &mut impl Write) -> io::Result<()> {
        output.write_all(&self.bytes[..self.end])?;
        self.end = 0;
        Ok(())
    }

    /// Writes what is unwritten, where it has so many bytes.
    pub fn write_from(&mut self, most: usize, output: &mut impl Write) -> io::Result<()> {
        if self.end >= most {
            self.write_to(output)?;
        }
        Ok(())
    }

    pub fn refuse(&mut self, refusal: Refusal) {
        let answer = refusal.answer();
        self.bytes[self.end..][..answer.len()].copy_from_slice(answer);
        self.end += answer.len();
    }

    #[inline]
    pub fn put(&mut self, part: impl Part) {
        part.put(self);
    }
}

/// A part of an answer.
pub trait Part {
    fn put(self, out: &mut Out);
}

impl<const LENGTH: usize> Part for &[u8; LENGTH] {
    #[inline]
    fn put(self, out: &mut Out) {
        out.bytes[out.end..out.end + LENGTH].copy_from_slice(self);
        out.end += LENGTH;
    }
}

impl Part for &[u8] {
    fn put(self, out: &mut Out) {
        out.bytes[out.end..out.end + self.len()].copy_from_slice(self);
        out.end += self.len();
    }
}

/// All bytes of the name's key are copied, also those that it does not fill.
impl Part for Word {
    #[inline]
    fn put(self, out: &mut Out) {
        out.bytes[out.end..out.end + LONGEST_NAME].copy_from_slice(&self.key.to_le_bytes());
        out.end += self.length;
    }
}

const EIGHT_DIGITS: u64 = 100_000_000;

/// The digits of a number below `EIGHT_DIGITS`, a byte for each, the first one lowest. They
/// are parted in the middle three times, all parts at once. A part of four digits is
/// divided by 100, and one of two by 10, by a product and a shift.
#[inline]
fn digits(number: u64) -> u64 {
    let fours = number / 10_000 | number % 10_000 << 32;
    let hundreds = (fours * 10_486 >> 20) & 0x0000_007F_0000_007F;
    let twos = hundreds | (fours - hundreds * 100) << 16;
    let tens = (twos * 103 >> 10) & 0x000F_000F_000F_000F;
    tens | (twos - tens * 10) << 8
}

impl Part for u64 {
    /// Eight bytes are put, also where there are fewer digits.
    #[inline]
    fn put(self, out: &mut Out) {
        let mut digits = digits(self % EIGHT_DIGITS);
        let mut zeros = 0;
        if self < EIGHT_DIGITS {
            // The last digit is put also where it is 0.
            zeros = (digits | 1 << 56).trailing_zeros() / 8;
            digits >>= 8 * zeros;
        } else {
            put_front(self / EIGHT_DIGITS, out);
        }
        let digits = digits | 0x3030_3030_3030_3030;
        out.bytes[out.end..out.end + 8].copy_from_slice(&digits.to_le_bytes());
        out.end += 8 - zeros as usize;
    }
}

#[cold]
fn put_front(number: u64, out: &mut Out) {
    out.put(number);
}

impl Part for usize {
    #[inline]
    fn put(self, out: &mut Out) {
        out.put(self as u64);
    }
}

impl Part for i64 {
    #[inline]
    fn put(self, out: &mut Out) {
        if self < 0 {
            out.put(b"-");
        }
        out.put(self.unsigned_abs());
    }
}

/// Puts parts of an answer.
macro_rules! put {
    ($out:expr, $($part:expr),+) => {{ $($out.put($part);)+ }};
}

/// Puts the last parts of an answer and its end, and is Ok.
macro_rules! answer {
    ($out:expr $(, $part:expr)*) => {{
        $($out.put($part);)*
        $out.put(b"\n");
        Ok(())
    }};
}

pub(crate) use {answer, put};
