//! House settings: a row count, then rows of version, key and value.

use crate::write::deliver;
use crate::{refusal, refusal_at, show, Refusal};
use std::ops::RangeInclusive;

/// The greatest number of rows.
const MOST_ROWS: u32 = 512;

/// The greatest number of groups in a number.
const MOST_GROUPS: usize = 5;

/// Set on all groups of a number but the last.
const MORE: u8 = 0x80;

/// The keys, their names in the program's lines, and what their values may be.
const KEYS: [(u32, &str, RangeInclusive<u32>); 3] = [
    (1, "least_edition", 0..=3),
    (2, "greatest_length", 0..=u32::MAX),
    (3, "private_allowed", 0..=1),
];

/// A row of a settings file.
#[derive(Clone, Copy, Debug, PartialEq, Eq)]
pub struct SettingsRow {
    pub version: u32,
    pub key: u32,
    pub value: u32,
}

/// An accepted settings file.
#[derive(Clone, Debug, PartialEq, Eq)]
pub struct Settings {
    pub rows: Vec<SettingsRow>,
}

impl Settings {
    /// A row, or 26 where there is none.
    pub fn row(&self, i: usize) -> Result<SettingsRow, Refusal> {
        self.rows.get(i).copied().ok_or(refusal(26))
    }

    /// "The value at version v is that of the last row with the key and a version of at
    /// most v, else unset." No row has a key other than 1 to 3, so that one is unset.
    pub fn value(&self, key: u32, version: u32) -> Option<u32> {
        let row = self.rows.iter().rev().find(|row| row.key == key && row.version <= version);
        row.map(|row| row.value)
    }
}

/// The number that begins at `at`, and where it ends: 53, 54, 55, all at `at`.
fn number(bytes: &[u8], at: usize) -> Result<(u32, usize), Refusal> {
    let groups = &bytes[at..];
    let Some(last) = groups.iter().take(MOST_GROUPS).position(|group| group & MORE == 0) else {
        // With a fifth group the high bit there decides, whatever follows it.
        return Err(refusal_at(if groups.len() < MOST_GROUPS { 55 } else { 54 }, at));
    };
    if last > 0 && groups[last] == 0 {
        return Err(refusal_at(53, at));
    }
    let add = |number: u64, group: &u8| number << 7 | u64::from(group & !MORE);
    let number = groups[..=last].iter().rev().fold(0, add);
    let number = u32::try_from(number).map_err(|_| refusal_at(54, at))?;
    Ok((number, at + last + 1))
}

/// A settings file. Of each number 53 to 55 are looked at first and then its own
/// rule: 56 of the count, 59 of a version, 57 of a key, 58 of a value. 60 is last.
pub fn settings(bytes: &[u8]) -> Result<Settings, Refusal> {
    let (count, mut at) = number(bytes, 0)?;
    if count > MOST_ROWS {
        return Err(refusal(56));
    }
    let mut rows = Vec::new();
    // No version is below 0, so the first may be any.
    let mut before = 0;
    for _ in 0..count {
        let (version, key_at) = number(bytes, at)?;
        if version < before {
            return Err(refusal_at(59, at));
        }
        let (key, value_at) = number(bytes, key_at)?;
        let known = KEYS.iter().find(|(known, _, _)| *known == key);
        let (_, _, range) = known.ok_or(refusal_at(57, key_at))?;
        let (value, end) = number(bytes, value_at)?;
        if !range.contains(&value) {
            return Err(refusal_at(58, value_at));
        }
        rows.push(SettingsRow { version, key, value });
        before = version;
        at = end;
    }
    if at < bytes.len() {
        return Err(refusal_at(60, at));
    }
    Ok(Settings { rows })
}

/// Writes a settings file to the front of `out` and answers its length. `numbers` has
/// version, key and value of each row. Refusals in order: 27, what reading the result
/// would give, 28. When it refuses, `out` is as it was.
pub fn write_settings(numbers: &[u32], out: &mut [u8]) -> Result<usize, Refusal> {
    if numbers.len() % 3 != 0 {
        return Err(refusal(27));
    }
    let mut made = Vec::new();
    put_number(&mut made, numbers.len() as u64 / 3);
    for number in numbers {
        put_number(&mut made, u64::from(*number));
    }
    settings(&made)?;
    deliver(&made, out)
}

/// Appends a number in its shortest form.
fn put_number(made: &mut Vec<u8>, mut number: u64) {
    while number >= u64::from(MORE) {
        made.push(number as u8 | MORE);
        number >>= 7;
    }
    made.push(number as u8);
}

/// The lines for a settings file, and the values at a version; every line ends with
/// a line feed.
pub fn show_settings(bytes: &[u8], version: u32) -> String {
    let settings = match settings(bytes) {
        Err(refusal) => return format!("{refusal}\n"),
        Ok(settings) => settings,
    };
    let mut text = format!("rows {}\n", settings.rows.len());
    for (i, row) in settings.rows.iter().enumerate() {
        let SettingsRow { version, key, value } = row;
        text.push_str(&format!("row {i} version {version} key {key} value {value}\n"));
    }
    for (key, name, _) in KEYS {
        text.push_str(&format!("{name} {}\n", show::value(settings.value(key, version))));
    }
    text
}
