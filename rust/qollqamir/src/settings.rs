//! Settings files: what a title takes in, with a history.

use crate::{judged, raw, value, Refusal};

/// A row of a settings file.
#[repr(C)] // Rows are handed to the writer as numbers, three a row.
#[derive(Clone, Copy, Debug, PartialEq, Eq, Hash)]
pub struct SettingsRow {
    /// The version from which on it holds; rows never have a lower one than the row before.
    pub version: u32,
    /// [`Settings::LEAST_EDITION`], [`Settings::GREATEST_LENGTH`] or [`Settings::PRIVATE_ALLOWED`].
    pub key: u32,
    /// Its value, in the key's range.
    pub value: u32,
}

/// An accepted settings file.
///
/// ```
/// use qollqamir::{write_settings, Refusal, Settings, SettingsRow};
///
/// let first = SettingsRow { version: 5, key: Settings::LEAST_EDITION, value: 1 };
/// let second = SettingsRow { version: 9, key: Settings::LEAST_EDITION, value: 3 };
/// let mut file = [0; 16];
/// let len = write_settings(&[first, second], &mut file)?;
///
/// let settings = Settings::read(&file[..len])?;
/// assert!(settings.rows().eq([first, second]));
/// assert_eq!(settings.value(Settings::LEAST_EDITION, 8), Some(1));
/// assert_eq!(settings.value(Settings::LEAST_EDITION, 4), None);
/// // Byte 4 has the version of the second row.
/// file[4] = 4;
/// assert_eq!(Settings::read(&file[..len]).unwrap_err(), Refusal { number: 59, place: 4 });
/// # Ok::<(), Refusal>(())
/// ```
#[derive(Clone, Copy, Debug, PartialEq, Eq)]
pub struct Settings<'a> {
    bytes: &'a [u8],
    rows: usize,
    first: usize,
}

impl<'a> Settings<'a> {
    /// The key of the least edition for release, 0 to 3.
    pub const LEAST_EDITION: u32 = 1;
    /// The key of the greatest container length, any number.
    pub const GREATEST_LENGTH: u32 = 2;
    /// The key of whether PRIV is allowed, 0 or 1.
    pub const PRIVATE_ALLOWED: u32 = 3;
    /// The most rows that a file has.
    pub const MOST_ROWS: usize = 512;
    /// The length of the longest file that is accepted.
    pub const LONGEST: usize = 2 + 11 * Self::MOST_ROWS;

    /// Judges a settings file. The earliest byte decides, which is the refusal's place: 53 (a number's long form), 54 (4,294,967,296 or
    /// more, or a fifth group with its high bit set), 55 (the file ends before the number does), 56 (more than 512 rows, place 0), 57 (an
    /// unknown key), 58 (a value out of its key's range), 59 (a version below the one before), 60 (bytes after the last row).
    pub fn read(bytes: &'a [u8]) -> Result<Self, Refusal> {
        let raw::Settings { verdict, rows, first } = raw::settings_read(bytes);
        judged(verdict)?;
        Ok(Settings { bytes, rows, first })
    }

    /// The file's bytes.
    pub fn bytes(&self) -> &'a [u8] {
        self.bytes
    }

    /// Row `i`, or 26. The file is walked over anew; to list the rows, use [`Settings::rows`].
    pub fn row(&self, i: usize) -> Result<SettingsRow, Refusal> {
        let raw::SettingRow { verdict, version, key, value } = raw::settings_row(self.bytes, i);
        judged(verdict)?;
        Ok(row_of(version, key, value))
    }

    /// The rows in order. The file was judged once; each step takes the same short time.
    pub fn rows(&self) -> SettingsRows<'a> {
        SettingsRows { bytes: self.bytes, left: self.rows, at: self.first, last: 0 }
    }

    /// The value of a key at a version: that of the last row with the key and a version of at most this one. `None` where there is no such
    /// row, so for a key other than the three. Found in one walk over the file.
    pub fn value(&self, key: u32, version: u32) -> Option<u32> {
        let answer = raw::settings_value(self.bytes, key, version);
        judged(answer.verdict).expect("an accepted file is accepted again");
        value(answer.setting)
    }
}

// 32 bits of the file, in a place of 64.
fn row_of(version: u32, key: u32, value: usize) -> SettingsRow {
    SettingsRow { version, key, value: value as u32 }
}

/// The rows of an accepted settings file, in order.
#[derive(Clone, Debug)]
pub struct SettingsRows<'a> {
    bytes: &'a [u8],
    left: usize,
    at: usize,
    last: u32,
}

impl Iterator for SettingsRows<'_> {
    type Item = SettingsRow;

    fn next(&mut self) -> Option<SettingsRow> {
        self.left = self.left.checked_sub(1)?;
        let raw::SettingRowAlone { verdict, version, key, value, end } = raw::settings_row_alone(self.bytes, self.at, self.last);
        judged(verdict).expect("a row of an accepted file is accepted by itself");
        (self.at, self.last) = (end, version);
        Some(row_of(version, key, value))
    }

    fn size_hint(&self) -> (usize, Option<usize>) {
        (self.left, Some(self.left))
    }
}

impl ExactSizeIterator for SettingsRows<'_> {}

/// Writes a settings file to the front of `out` and answers its length. Refusals: what [`Settings::read`] would give for the result, with
/// that place, then 28 where `out` is shorter ([`Settings::LONGEST`] is enough). On a refusal `out` keeps every byte, and bytes past the
/// result keep their contents.
pub fn write_settings(rows: &[SettingsRow], out: &mut [u8]) -> Result<usize, Refusal> {
    let written = raw::write_settings_rows(rows, out);
    judged(written.verdict)?;
    Ok(written.len)
}
