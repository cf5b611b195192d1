//! The words, numbers and changes of a line.

use crate::answers::Refusal;

pub const LONGEST_LINE: usize = 4096;
pub const LONGEST_NAME: usize = 16;
/// So many bytes of a text behind its last line can be read. They mean nothing.
pub const BEHIND: usize = 8;
const MOST_DIGITS: usize = 19;

/// A word of at most 16 bytes, the first one lowest, filled up with zeros, which no
/// word has. The key of a longer word is `NO_NAME`.
#[derive(Clone, Copy)]
pub struct Word {
    pub key: u128,
    pub length: usize,
}

const NO_NAME: u128 = u128::MAX;

impl Word {
    pub fn new(bytes: &[u8]) -> Word {
        let mut key = [0; LONGEST_NAME];
        let Some(front) = key.get_mut(..bytes.len()) else {
            return Word { key: NO_NAME, length: bytes.len() };
        };
        front.copy_from_slice(bytes);
        Word { key: u128::from_le_bytes(key), length: bytes.len() }
    }

    /// The key of a word of at most 8 bytes; of a longer one 0, which is no word's.
    #[inline]
    pub fn short_key(self) -> u64 {
        u64::try_from(self.key).unwrap_or(0)
    }

    pub fn is_name(self) -> bool {
        if self.length == 0 || self.length > LONGEST_NAME {
            return false;
        }
        let bytes = self.key.to_le_bytes();
        bytes[0].is_ascii_lowercase()
            && bytes[..self.length].iter().all(|byte| matches!(byte, b'a'..=b'z' | b'0'..=b'9' | b'_'))
    }
}

/// The key of a word of at most 8 bytes that is known beforehand.
pub const fn key(word: &[u8]) -> u64 {
    let mut key = 0;
    let mut at = word.len();
    while at > 0 {
        at -= 1;
        key = key << 8 | word[at] as u64;
    }
    key
}

#[derive(Clone, Copy, PartialEq, Eq)]
#[repr(u8)]
pub enum Kind {
    Add,
    Set,
    Mul,
    Max,
    Min,
    Take,
}

pub enum Operand {
    Number(i64),
    Object(Word),
}

pub struct ReadChange {
    pub kind: Kind,
    pub object: Word,
    pub operand: Operand,
}

const EACH: u64 = u64::MAX / 255;

/// Of eight bytes, the lowest bit of the answer that is set lies in the first byte which
/// is a space, an LF or another byte not above the space.
#[inline]
fn ends(eight: u64) -> u64 {
    eight.wrapping_sub(EACH * 0x21) & !eight & EACH << 7
}

/// As `ends`, and a colon ends a word too.
#[inline]
fn ends_or_colons(eight: u64) -> u64 {
    let zero_for_colon = eight ^ EACH * b':' as u64;
    ends(eight) | zero_for_colon.wrapping_sub(EACH) & !zero_for_colon & EACH << 7
}

/// Reads a line of a text from left to right. The line is ended by an LF, so words end
/// before it or at it.
pub struct Words<'a> {
    text: &'a [u8],
    start: usize,
    at: usize,
}

impl<'a> Words<'a> {
    #[inline]
    pub fn new(text: &'a [u8], start: usize) -> Words<'a> {
        Words { text, start, at: start }
    }

    /// Where it has come to: after `end` the line's LF.
    #[inline]
    pub fn place(&self) -> usize {
        self.at
    }

    #[inline]
    fn eight(&self, at: usize) -> u64 {
        let eight = self.text[at..at + 8].try_into().expect("these are eight bytes");
        u64::from_le_bytes(eight)
    }

    #[inline]
    fn skip_spaces(&mut self) {
        while self.text[self.at] == b' ' {
            self.at += 1;
        }
    }

    /// Goes on to what ends a word, and gives the bytes before it, which may be none.
    #[inline]
    fn before(&mut self, ends: impl Fn(u64) -> u64) -> Word {
        let low = self.eight(self.at);
        let found = ends(low);
        if found != 0 {
            let length = found.trailing_zeros() / 8;
            self.at += length as usize;
            return Word { key: u128::from(low & !(u64::MAX << (8 * length))), length: length as usize };
        }
        self.long_before(low, ends)
    }

    #[inline(never)]
    fn long_before(&mut self, low: u64, ends: impl Fn(u64) -> u64) -> Word {
        let high = self.eight(self.at + 8);
        let mut length = 8;
        let found = loop {
            let found = ends(self.eight(self.at + length));
            if found != 0 {
                break found;
            }
            length += 8;
        };
        length += found.trailing_zeros() as usize / 8;
        self.at += length;
        let both = u128::from(high) << 64 | u128::from(low);
        let key = match length {
            ..LONGEST_NAME => both & !(u128::MAX << (8 * length)),
            LONGEST_NAME => both,
            _ => NO_NAME,
        };
        Word { key, length }
    }

    #[inline]
    pub fn word(&mut self) -> Result<Word, Refusal> {
        self.skip_spaces();
        let word = self.before(ends);
        if word.length == 0 {
            return Err(Refusal::Syntax);
        }
        Ok(word)
    }

    #[inline]
    pub fn number(&mut self) -> Result<i64, Refusal> {
        self.skip_spaces();
        self.number_here()
    }

    /// Reads a number up to the end of its word. One that is well formed and fits no
    /// `i64` becomes the nearest that does, which is far out of every range.
    #[inline]
    fn number_here(&mut self) -> Result<i64, Refusal> {
        let is_negative = self.text[self.at] == b'-';
        self.at += usize::from(is_negative);
        let first = self.at;
        let mut size: u64 = 0;
        loop {
            let digit = self.text[self.at].wrapping_sub(b'0');
            if digit > 9 {
                break;
            }
            size = size.wrapping_mul(10).wrapping_add(u64::from(digit));
            self.at += 1;
        }
        let length = self.at - first;
        let is_zero_led = self.text[first] == b'0' && (length > 1 || is_negative);
        let is_ended = matches!(self.text[self.at], b' ' | b'\n');
        if !(1..=MOST_DIGITS).contains(&length) || is_zero_led || !is_ended {
            return Err(Refusal::Syntax);
        }
        let size = i64::try_from(size).unwrap_or(i64::MAX);
        Ok(if is_negative { -size } else { size })
    }

    /// The next change, or none at the end of the line.
    #[inline]
    pub fn change(&mut self) -> Result<Option<ReadChange>, Refusal> {
        self.skip_spaces();
        if self.text[self.at] == b'\n' {
            return Ok(None);
        }
        let front = self.eight(self.at).to_le_bytes();
        let (kind, length) = match &front {
            [b'a', b'd', b'd', b':', ..] => (Kind::Add, 4),
            [b's', b'e', b't', b':', ..] => (Kind::Set, 4),
            [b'm', b'u', b'l', b':', ..] => (Kind::Mul, 4),
            [b'm', b'a', b'x', b':', ..] => (Kind::Max, 4),
            [b'm', b'i', b'n', b':', ..] => (Kind::Min, 4),
            [b't', b'a', b'k', b'e', b':', ..] => (Kind::Take, 5),
            _ => return Err(Refusal::Syntax),
        };
        self.at += length;
        let object = self.before(ends_or_colons);
        if object.length == 0 || self.text[self.at] != b':' {
            return Err(Refusal::Syntax);
        }
        self.at += 1;
        let operand = if kind == Kind::Take {
            let source = self.before(ends_or_colons);
            if source.length == 0 || self.text[self.at] == b':' {
                return Err(Refusal::Syntax);
            }
            Operand::Object(source)
        } else {
            Operand::Number(self.number_here()?)
        };
        Ok(Some(ReadChange { kind, object, operand }))
    }

    /// Whether spaces alone are left of the line.
    #[inline]
    pub fn is_at_end(&mut self) -> bool {
        self.skip_spaces();
        self.text[self.at] == b'\n'
    }

    /// Refuses a line that has one more word, or too many bytes.
    #[inline]
    pub fn end(&mut self) -> Result<(), Refusal> {
        if self.is_at_end() && self.at - self.start <= LONGEST_LINE {
            Ok(())
        } else {
            Err(Refusal::Syntax)
        }
    }
}
