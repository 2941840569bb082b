//! The fields of a stream, one after the other.

use super::found::Padded;
use crate::reader::{Reply, Setting};

/// What a field gives; its place is that of the record around it.
pub type Field<T> = Result<T, Reply>;

/// The greatest Decimal.
const DECIMAL_TOP: u128 = (1 << 96) - 1;

/// The ticks of the years 1 to 9999: so many days, each with its ticks.
const TICKS: u64 = 3_652_059 * 864_000_000_000;

pub struct Cursor<'a> {
    rest: &'a [u8],
    bytes: usize,
    setting: Setting,
    /// In the order of the stream.
    padded: Vec<Padded>,
}

impl<'a> Cursor<'a> {
    pub fn new(stream: &'a [u8], setting: Setting) -> Cursor<'a> {
        Cursor { rest: stream, bytes: stream.len(), setting, padded: Vec::new() }
    }

    /// The padded prefixes that were passed.
    pub fn into_padded(self) -> Vec<Padded> {
        self.padded
    }

    #[inline]
    pub fn place(&self) -> usize {
        self.bytes - self.rest.len()
    }

    pub fn is_at_end(&self) -> bool {
        self.rest.is_empty()
    }

    #[inline]
    pub fn array<const N: usize>(&mut self) -> Field<&'a [u8; N]> {
        let (bytes, rest) = self.rest.split_first_chunk().ok_or(Reply::CutShort)?;
        self.rest = rest;
        Ok(bytes)
    }

    #[inline]
    fn bytes(&mut self, count: usize) -> Field<&'a [u8]> {
        let (bytes, rest) = self.rest.split_at_checked(count).ok_or(Reply::CutShort)?;
        self.rest = rest;
        Ok(bytes)
    }

    #[inline]
    pub fn byte(&mut self) -> Field<u8> {
        self.array().map(|&[byte]| byte)
    }

    #[inline]
    pub fn int32(&mut self) -> Field<i32> {
        self.array().map(|&bytes| i32::from_le_bytes(bytes))
    }

    /// A count or length: negative ones are refused.
    pub fn count(&mut self) -> Field<u32> {
        u32::try_from(self.int32()?).map_err(|_| Reply::BadCount)
    }

    #[inline]
    pub fn positive_id(&mut self) -> Field<i32> {
        match self.int32()? {
            id @ 1.. => Ok(id),
            _ => Err(Reply::BadId),
        }
    }

    #[inline]
    fn prefix(&mut self) -> Field<usize> {
        match self.byte()? {
            length @ 0..=0x7F => Ok(usize::from(length)),
            first => self.longer_prefix(first),
        }
    }

    /// A last byte of 0 is padding.
    fn longer_prefix(&mut self, first: u8) -> Field<usize> {
        let place = self.place() - 1;
        let mut length = usize::from(first & 0x7F);
        for group in 1..5 {
            let byte = self.byte()?;
            if (group == 4 && byte > 7) || (byte == 0 && self.setting == Setting::Strict) {
                return Err(Reply::BadLength);
            }
            length |= usize::from(byte & 0x7F) << (7 * group);
            if byte == 0 {
                self.padded.push(Padded { place, end: self.place(), length });
            }
            if byte < 0x80 {
                break;
            }
        }
        Ok(length)
    }

    #[inline]
    pub fn text(&mut self) -> Field<&'a [u8]> {
        let length = self.prefix()?;
        let text = self.bytes(length)?;
        match std::str::from_utf8(text) {
            Ok(_) => Ok(text),
            Err(_) => Err(Reply::BadText),
        }
    }

    pub fn texts(&mut self, count: u32) -> Field<()> {
        (0..count).try_for_each(|_| self.text().map(drop))
    }

    pub fn primitive_code(&mut self) -> Field<u8> {
        match self.byte()? {
            code @ (1..=3 | 5..=16) => Ok(code),
            _ => Err(Reply::BadType),
        }
    }

    /// A bad one comes before a later missing one.
    pub fn type_bytes(&mut self, count: usize) -> Field<&'a [u8]> {
        let there = &self.rest[..count.min(self.rest.len())];
        if there.iter().any(|&byte| byte > 7) {
            return Err(Reply::BadType);
        }
        self.bytes(count)
    }

    /// One value, a Decimal's prefix included.
    #[inline]
    pub fn value(&mut self, code: u8) -> Field<()> {
        match size(code) {
            0 => self.judged_value(code),
            size => self.bytes(size).map(drop),
        }
    }

    fn judged_value(&mut self, code: u8) -> Field<()> {
        let is_good = match code {
            1 => self.byte()? <= 1,
            3 => self.is_char()?,
            5 => {
                let length = self.prefix()?;
                is_decimal(self.bytes(length)?)
            }
            _ => is_date_time(self.array()?),
        };
        judge(is_good)
    }

    fn is_char(&mut self) -> Field<bool> {
        let size = match self.rest.first().ok_or(Reply::CutShort)? {
            0x00..=0x7F => 1,
            0xC2..=0xDF => 2,
            0xE0..=0xEF => 3,
            0xF0..=0xF4 => 4,
            _ => return Ok(false),
        };
        Ok(std::str::from_utf8(self.bytes(size)?).is_ok())
    }

    /// The items of an array: a bad one comes before a later missing one.
    pub fn items(&mut self, code: u8, count: usize) -> Field<()> {
        match code {
            1 => {
                let there = &self.rest[..count.min(self.rest.len())];
                judge(there.iter().all(|&byte| byte <= 1))?;
                self.bytes(count).map(drop)
            }
            3 | 5 | 13 => (0..count).try_for_each(|_| self.judged_value(code)),
            _ => self.bytes(count * size(code)).map(drop),
        }
    }
}

/// Bytes of a value that may be any, else 0.
#[inline]
fn size(code: u8) -> usize {
    match code {
        2 | 10 => 1,
        7 | 14 => 2,
        8 | 11 | 15 => 4,
        6 | 9 | 12 | 16 => 8,
        _ => 0,
    }
}

fn judge(is_good: bool) -> Field<()> {
    match is_good {
        true => Ok(()),
        false => Err(Reply::BadValue),
    }
}

/// The kind is 0 to 2, and below it is a tick of the years 1 to 9999.
fn is_date_time(bytes: &[u8; 8]) -> bool {
    let bits = u64::from_le_bytes(*bytes);
    bits < 3 << 62 && bits & (u64::MAX >> 2) < TICKS
}

fn is_decimal(text: &[u8]) -> bool {
    let unsigned = text.strip_prefix(b"-").unwrap_or(text);
    let (whole, rest) = unsigned.split_at(digits(unsigned));
    let fraction = match rest {
        [] => rest,
        [b'.', fraction @ ..] if !fraction.is_empty() && digits(fraction) == fraction.len() => {
            fraction
        }
        _ => return false,
    };
    let digit =
        |value: u128, digit: &u8| value.saturating_mul(10).saturating_add(u128::from(digit - b'0'));
    let value = whole.iter().fold(0, digit);
    let in_range = value < DECIMAL_TOP
        || (value == DECIMAL_TOP && fraction.iter().all(|&digit| digit == b'0'));
    !whole.is_empty() && in_range
}

/// How many digits stand in front.
fn digits(text: &[u8]) -> usize {
    text.iter().take_while(|byte| byte.is_ascii_digit()).count()
}
