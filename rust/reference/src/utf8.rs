//! Strings: the bytes before a zero, which request 7 wants well formed, and their
//! code points.

use std::ops::RangeInclusive;

/// What the bytes of a sequence after the first are, where no row says less.
const TAIL: RangeInclusive<u8> = 0x80..=0xbf;

/// The Unicode Standard's table of well-formed UTF-8 byte sequences (3-7), row by
/// row: what the first byte may be, the second, and so on. No sequence is the
/// front of another.
const WELL_FORMED: [&[RangeInclusive<u8>]; 9] = [
    &[0x00..=0x7f],
    &[0xc2..=0xdf, TAIL],
    &[0xe0..=0xe0, 0xa0..=0xbf, TAIL],
    &[0xe1..=0xec, TAIL, TAIL],
    &[0xed..=0xed, 0x80..=0x9f, TAIL],
    &[0xee..=0xef, TAIL, TAIL],
    &[0xf0..=0xf0, 0x90..=0xbf, TAIL, TAIL],
    &[0xf1..=0xf3, TAIL, TAIL, TAIL],
    &[0xf4..=0xf4, 0x80..=0x8f, TAIL, TAIL],
];

/// The length of the sequence at the front, or None when no row has it.
fn sequence(bytes: &[u8]) -> Option<usize> {
    let fits = |row: &&&[RangeInclusive<u8>]| {
        row.len() <= bytes.len() && row.iter().zip(bytes).all(|(range, byte)| range.contains(byte))
    };
    WELL_FORMED.iter().find(fits).map(|row| row.len())
}

/// How many code points the bytes are, or None when they aren't well formed: a
/// string is so when it is one sequence of the table after another.
pub fn code_points(bytes: &[u8]) -> Option<usize> {
    let mut ahead = bytes;
    let mut points = 0;
    while !ahead.is_empty() {
        ahead = &ahead[sequence(ahead)?..];
        points += 1;
    }
    Some(points)
}

/// A string that is well formed.
#[derive(Clone, Copy, Debug, PartialEq, Eq, Hash)]
pub struct Text<'a> {
    /// The bytes before its zero.
    pub bytes: &'a [u8],
    /// "A lookup also tells how many code points there are."
    pub points: usize,
}

impl<'a> Text<'a> {
    /// The bytes and their code points, or None when they aren't well formed.
    pub(crate) fn of(bytes: &'a [u8]) -> Option<Text<'a>> {
        Some(Text { bytes, points: code_points(bytes)? })
    }
}

/// The bytes before the first zero at o or later. None when there is no such zero.
pub(crate) fn bytes_at(table: &[u8], o: u32) -> Option<&[u8]> {
    let from_o = table.get(o as usize..)?;
    let length = from_o.iter().position(|byte| *byte == 0)?;
    Some(&from_o[..length])
}

/// What a reference to a place comes to.
#[derive(Clone, Copy, Debug, PartialEq, Eq)]
pub(crate) enum Reference {
    /// No zero stands there or later, or the place isn't inside.
    NoZero,
    /// The bytes before the zero aren't well formed.
    IllFormed,
    Good,
}

/// What a reference to each place of a string table or part comes to.
pub(crate) struct References(Vec<Reference>);

impl References {
    /// One pass from the end does for all places, however many references share a
    /// long string: the bytes from a place to its zero are well formed exactly
    /// when a sequence stands there and those after it are well formed.
    pub(crate) fn of(table: &[u8]) -> References {
        let mut to = vec![Reference::NoZero; table.len()];
        let mut zero_ahead = false;
        for o in (0..table.len()).rev() {
            if table[o] == 0 {
                zero_ahead = true;
                to[o] = Reference::Good;
            } else if zero_ahead {
                // No sequence passes the zero: none but its own row has one.
                to[o] = sequence(&table[o..]).map_or(Reference::IllFormed, |n| to[o + n]);
            }
        }
        References(to)
    }

    pub(crate) fn to(&self, o: u32) -> Reference {
        self.0.get(o as usize).copied().unwrap_or(Reference::NoZero)
    }
}
