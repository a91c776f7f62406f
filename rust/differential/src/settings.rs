//! The calls on settings files against the independent reader, answer by answer; what must hold of the answers among themselves; and what
//! files, rows and questions a run came by.

use qollqamir::raw;
use reference::{Refusal, Settings, SettingsRow};

use crate::compare::{delivered, field, refusal_of, same, verdict_of, Call, Check, Hits, Mismatch};
use crate::entries::{at_least, circumstances, each};
use crate::faults::{walk, Faults, Number, READER, WRITER};
use crate::random::Random;
use crate::rows::{self, ends, greatest, File, Row, MOST};
use crate::LONGEST;

/// What the reference says of a file.
type Read = Result<Settings, Refusal>;

/// One file looked at from every side, or rows written.
pub fn case(seed: u64, number: u64, hits: &mut Hits) -> Check {
    // Other numbers than the container of the same case draws.
    let random = &mut Random::new(!seed, number);
    let make = match random.below(32) {
        0..=7 => return right(random, hits),
        8 => return cuts(random, hits),
        9..=12 => return write_case(random, hits),
        13..=16 => rows::one_fault,
        17..=20 => rows::at_one_byte,
        21..=26 => rows::in_two,
        27 | 28 => rows::miscounted,
        29 | 30 => rows::damaged,
        _ => rows::any_bytes,
    };
    let bytes = make(random);
    file(random, &bytes, hits).map(drop)
}

/// A right file: as its rows were given; with a row more; and its rows written.
fn right(random: &mut Random, hits: &mut Hits) -> Check {
    let rows = rows::rows(random);
    let bytes = File::of(&rows).bytes;
    let given = Settings { rows: rows.iter().map(|row| row_from(*row)).collect() };
    same!(bytes, file(random, &bytes, hits)?, Ok(given), "rows of a right file");
    hits.settings.right(&rows);
    history(random, &rows, &bytes, hits)
}

/// A file of a few rows, cut at each byte.
fn cuts(random: &mut Random, hits: &mut Hits) -> Check {
    let rows = rows::rows(random);
    let bytes = File::of(&rows[..rows.len().min(4)]).bytes;
    (0..bytes.len()).try_for_each(|len| read(&bytes[..len], hits).map(drop))?;
    let len = random.below(bytes.len());
    file(random, &bytes[..len], hits).map(drop)
}

fn row_from([version, key, value]: Row) -> SettingsRow {
    SettingsRow { version, key, value }
}

fn numbers_of(row: SettingsRow) -> Row {
    [row.version, row.key, row.value]
}

fn safe_of(row: SettingsRow) -> qollqamir::SettingsRow {
    qollqamir::SettingsRow { version: row.version, key: row.key, value: row.value }
}

/// The plain record of a row. Beside a refusal all is 0.
fn row_of(answer: Result<SettingsRow, Refusal>) -> raw::SettingRow {
    let [version, key, value] = answer.map_or([0; 3], numbers_of);
    raw::SettingRow { verdict: verdict_of(&answer), version, key, value: value as usize }
}

fn alone_of(answer: Result<(SettingsRow, usize), Refusal>) -> raw::SettingRowAlone {
    let ([version, key, value], end) = answer.map_or(([0; 3], 0), |(row, end)| (numbers_of(row), end));
    raw::SettingRowAlone { verdict: verdict_of(&answer), version, key, value: value as usize, end }
}

fn value_of(answer: Result<Option<u32>, Refusal>) -> raw::Setting {
    raw::Setting { verdict: verdict_of(&answer), setting: field(answer.unwrap_or(None)) }
}

/// The row at a place by itself: the second row of a file in which the bytes from there on follow a row of version `last`. What is left
/// over after it tells where it ends.
fn alone(bytes: &[u8], at: usize, last: u32) -> Result<(SettingsRow, usize), Refusal> {
    let mut file = File::of(&[[last, 2, 0]]).bytes;
    file[0] = 2;
    let front = file.len();
    file.extend_from_slice(bytes.get(at..).unwrap_or(&[]));
    let second = |len: usize| reference::settings(&file[..len]).map(|settings| (settings.rows[1], at + len - front));
    match second(file.len()) {
        Err(Refusal { number: 60, place }) => second(place),
        answer => answer.map_err(|refusal| Refusal { place: at + (refusal.place - front), ..refusal }),
    }
}

/// The verdict on a file, its number of rows, and where they begin.
fn read(bytes: &[u8], hits: &mut Hits) -> Result<Read, Mismatch> {
    let expected = compared(bytes)?;
    let verdict = verdict_of(&expected);
    hits.note(Call::Settings, verdict);
    // The walk on which what follows rests comes to the same.
    let (number, told, at) = walk(bytes);
    let place = if [0, 56].contains(&number) { 0 } else { at };
    same!(bytes, (verdict.number, verdict.place), (number, place), "walk");
    hits.settings.refused(bytes, verdict, at);
    if let Some(told) = told {
        hits.settings.read.note(verdict, &told);
        hits.settings.told(bytes, verdict, &told.number, told.own);
    }
    Ok(expected)
}

fn compared(bytes: &[u8]) -> Result<Read, Mismatch> {
    let expected = reference::settings(bytes);
    let got = raw::settings_read(bytes);
    let (rows, first) = expected.as_ref().map_or((0, 0), |settings| (settings.rows.len(), Number::at(bytes, 0).end()));
    same!(bytes, got, raw::Settings { verdict: verdict_of(&expected), rows, first }, "settings_read");
    Ok(expected)
}

/// All calls on any bytes.
fn file(random: &mut Random, bytes: &[u8], hits: &mut Hits) -> Result<Read, Mismatch> {
    let expected = read(bytes, hits)?;
    for i in asked_rows(random, &expected) {
        let answer = expected.as_ref().map_err(|refusal| *refusal).and_then(|settings| settings.row(i));
        let got = raw::settings_row(bytes, i);
        hits.note(Call::SettingRow, got.verdict);
        same!(bytes, got, row_of(answer), "settings_row {i}");
        if let Ok(settings) = &expected {
            hits.settings.row(settings.rows.len(), i);
        }
    }
    let starts = in_turn(bytes, &expected, hits)?;
    for (at, last) in asked_places(random, bytes, &expected, &starts) {
        let answer = alone(bytes, at, last);
        let got = raw::settings_row_alone(bytes, at, last);
        hits.note(Call::RowAlone, got.verdict);
        same!(bytes, got, alone_of(answer), "settings_row_alone {at} {last}");
        hits.settings.alone(bytes, verdict_of(&expected), at, last, &got);
    }
    values(random, bytes, &expected, hits)?;
    safe(random, bytes, &expected)?;
    if let Ok(settings) = &expected {
        again(random, bytes, settings, hits)?;
    }
    Ok(expected)
}

/// The rows to ask for: at and past the last, and where a number of fewer bits would be another's.
fn asked_rows(random: &mut Random, expected: &Read) -> Vec<usize> {
    let Ok(settings) = expected else {
        return vec![0, random.pick(&[1, 2, MOST, usize::MAX])];
    };
    let count = settings.rows.len();
    let any = random.below(count.max(1));
    let low_bits = random.pick(&[1 << 8, 1 << 16, 1 << 32, 1 << 63]) + any;
    vec![0, count.saturating_sub(1), count, any, low_bits, usize::MAX]
}

/// The rows by themselves, from the first on: they are the file's, up to its end or to what it is refused for. Answers where they begin,
/// each with the version before.
fn in_turn(bytes: &[u8], expected: &Read, hits: &mut Hits) -> Result<Vec<(usize, u32)>, Mismatch> {
    let count = Number::at(bytes, 0);
    let mut starts = Vec::new();
    if count.form().is_some() || count.value > MOST as u64 {
        return Ok(starts);
    }
    let (mut at, mut last) = (count.end(), 0);
    for i in 0..count.value as usize {
        starts.push((at, last));
        let got = raw::settings_row_alone(bytes, at, last);
        hits.note(Call::RowAlone, got.verdict);
        if got.verdict.number != 0 {
            let refusal = expected.as_ref().map(|_| (row_from([0; 3]), 0)).map_err(|refusal| *refusal);
            same!(bytes, got, alone_of(refusal), "row {i} by itself, refused");
            return Ok(starts);
        }
        if let Ok(settings) = expected {
            same!(bytes, got, alone_of(Ok((settings.rows[i], got.end))), "row {i} by itself");
        }
        (at, last) = (got.end, got.version);
    }
    let left_over = Refusal { number: 60, place: at };
    same!(bytes, (at, expected.as_ref().err().copied()), (at, (at != bytes.len()).then_some(left_over)), "end of the rows by themselves");
    starts.push((at, last));
    Ok(starts)
}

/// Where to ask for a row by itself, and after which version: where rows begin, inside numbers, at and past the end.
fn asked_places(random: &mut Random, bytes: &[u8], expected: &Read, starts: &[(usize, u32)]) -> Vec<(usize, u32)> {
    let len = bytes.len();
    let any = random.below(len + 2);
    let past = random.pick(&[len, len, len + 1, len + (1 << 32), usize::MAX, usize::MAX - 1]);
    let place = expected.as_ref().err().map_or(0, |refusal| refusal.place);
    let mut asked: Vec<_> = [any, past, place + random.below(2)].map(|at| (at, random.pick(&[0, 0, 1, u32::MAX]))).to_vec();
    if !starts.is_empty() {
        let (at, before) = random.pick(starts);
        let own = Number::at(bytes, at).value as u32;
        let any = rows::number(random);
        let last = random.pick(&[0, before, own, own, own.saturating_add(1), own.saturating_sub(1), any]);
        asked.push((at, last));
    }
    asked
}

/// Rows of a long list to look at: the first, the last and some.
fn some<T: Copy>(random: &mut Random, rows: &[T]) -> Vec<T> {
    match rows {
        [first, .., last] if rows.len() > 3 => vec![*first, random.pick(rows), random.pick(rows), *last],
        _ => rows.to_vec(),
    }
}

/// Versions to ask for: below, at and above those of the rows, and the greatest.
fn asked_versions(random: &mut Random, rows: &[SettingsRow]) -> Vec<u32> {
    let around = |row: SettingsRow| [row.version.saturating_sub(1), row.version, row.version.saturating_add(1)];
    let mut versions: Vec<u32> = some(random, rows).into_iter().flat_map(around).collect();
    versions.extend([u32::MAX, rows::number(random)]);
    versions.sort_unstable();
    versions.dedup();
    versions
}

/// A key that is none, mostly one whose low bits are a key's.
fn no_key(random: &mut Random) -> u32 {
    let any = random.next() as u32 | 4;
    let low = 1 + random.below(3) as u32;
    random.pick(&[0, 4, 4, 5, low + 128, low + 256, low + 65_536, low + (1 << 31), u32::MAX, any])
}

/// The values of the keys at versions.
fn values(random: &mut Random, bytes: &[u8], expected: &Read, hits: &mut Hits) -> Check {
    let Ok(settings) = expected else {
        let none = no_key(random);
        for key in [1 + random.below(3) as u32, none] {
            let version = random.pick(&[0, 1, u32::MAX]);
            value(bytes, expected, key, version, hits)?;
        }
        return Ok(());
    };
    let versions = asked_versions(random, &settings.rows);
    for version in &versions {
        for key in 1..=3 {
            value(bytes, expected, key, *version, hits)?;
        }
    }
    for key in [0, 4, no_key(random)] {
        let version = random.pick(&versions);
        value(bytes, expected, key, random.pick(&[version, u32::MAX]), hits)?;
    }
    Ok(())
}

fn value(bytes: &[u8], expected: &Read, key: u32, version: u32, hits: &mut Hits) -> Check {
    let answer = expected.as_ref().map(|settings| settings.value(key, version)).map_err(|refusal| *refusal);
    let got = raw::settings_value(bytes, key, version);
    hits.note(Call::Setting, got.verdict);
    same!(bytes, got, value_of(answer), "settings_value {key} {version}");
    if let Ok(settings) = expected {
        hits.settings.value(&settings.rows, key, version);
    }
    Ok(())
}

/// The safe file shows what the reference does, of the same bytes.
fn safe(random: &mut Random, bytes: &[u8], expected: &Read) -> Check {
    let safe = qollqamir::Settings::read(bytes).map_err(refusal_of);
    let answer = expected.as_ref().map(|_| bytes.as_ptr_range()).map_err(|refusal| *refusal);
    same!(bytes, safe.map(|safe| safe.bytes().as_ptr_range()), answer, "safe settings");
    let (Ok(safe), Ok(settings)) = (safe, expected) else {
        return Ok(());
    };
    let listed: Vec<_> = safe.rows().collect();
    same!(bytes, listed, settings.rows.iter().map(|row| safe_of(*row)).collect::<Vec<_>>(), "safe rows");
    same!(bytes, safe.rows().len(), listed.len(), "safe number of rows");
    let count = listed.len();
    for i in [random.below(count + 1), count, usize::MAX] {
        same!(bytes, safe.row(i).map_err(refusal_of), settings.row(i).map(safe_of), "safe row {i}");
    }
    let key = random.below(5) as u32;
    for version in [rows::number(random), settings.rows.last().map_or(0, |row| row.version)] {
        same!(bytes, safe.value(key, version), settings.value(key, version), "safe value {key} {version}");
    }
    Ok(())
}

/// An accepted file's rows, written, are its bytes.
fn again(random: &mut Random, bytes: &[u8], settings: &Settings, hits: &mut Hits) -> Check {
    let rows: Vec<Row> = settings.rows.iter().map(|row| numbers_of(*row)).collect();
    let more = random.below(3);
    let room = random.bytes(bytes.len() + more);
    let written = write(rows.as_flattened(), &room, hits)?;
    same!(bytes, written.as_deref(), Ok(bytes), "an accepted file written again");
    Ok(())
}

/// A last row with a version above all others changes no answer for a version below it.
fn history(random: &mut Random, rows: &[Row], bytes: &[u8], hits: &mut Hits) -> Check {
    let Some(row) = rows::later(random, rows) else {
        return Ok(());
    };
    let more = File::of(&[rows, &[row]].concat()).bytes;
    let expected = read(&more, hits)?;
    hits.settings.later(rows, row);
    if rows.len() == MOST {
        same!(more, expected, Err(Refusal { number: 56, place: 0 }), "one row too many");
        return Ok(());
    }
    same!(more, expected.is_ok(), true, "a row with a version above all others");
    let [version, own, set] = row;
    let before: Vec<SettingsRow> = rows.iter().map(|row| row_from(*row)).collect();
    let mut versions = asked_versions(random, &before);
    versions.extend(version.checked_sub(1));
    versions.retain(|asked| *asked < version);
    let none = no_key(random);
    for asked in versions {
        for key in [1, 2, 3, none] {
            let (old, new) = (raw::settings_value(bytes, key, asked), raw::settings_value(&more, key, asked));
            same!(more, new, old, "value {key} {asked} with a later row");
            hits.settings.stayed(old.setting.set != 0);
        }
    }
    let now = raw::settings_value(&more, own, version);
    same!(more, now, value_of(Ok(Some(set))), "value {own} {version} of a later row");
    hits.settings.changed(raw::settings_value(bytes, own, version) != now);
    Ok(())
}

/// Bytes on either side of the writer's room that are not its own.
const BESIDE: usize = 8;

/// The writer on both sides: the same verdict and length, and the same whole buffer.
fn write(numbers: &[u32], room: &[u8], hits: &mut Hits) -> Result<Result<Vec<u8>, u8>, Mismatch> {
    let mut theirs = room.to_vec();
    let expected = reference::write_settings(numbers, &mut theirs);
    let given: Vec<u8> = numbers.iter().flat_map(|number| number.to_le_bytes()).collect();
    let whole = raw::Written { verdict: verdict_of(&expected), len: *expected.as_ref().unwrap_or(&0) };
    let ours = beside(&given, room, |out| raw::write_settings(numbers, out), whole, "write_settings")?;
    hits.note(Call::WriteRows, whole.verdict);
    if let (rows, []) = numbers.as_chunks() {
        let rows: Vec<_> = rows.iter().map(|row| safe_of(row_from(*row))).collect();
        let by_rows = beside(&given, room, |out| raw::write_settings_rows(&rows, out), whole, "write_settings_rows")?;
        same!(given, by_rows, ours, "what write_settings_rows left");
        let safe = |out: &mut [u8]| qollqamir::write_settings(&rows, out).map_err(refusal_of);
        let by_safe = beside(&given, room, safe, expected, "safe write_settings")?;
        same!(given, by_safe, ours, "what the safe write_settings left");
    }
    delivered(&given, &ours, &theirs, room, expected)
}

/// A writer's answer, and what it left of its room; it touches no byte beside that.
fn beside<T: PartialEq + std::fmt::Debug>(
    given: &[u8],
    room: &[u8],
    writer: impl FnOnce(&mut [u8]) -> T,
    expected: T,
    what: &str,
) -> Result<Vec<u8>, Mismatch> {
    let fence = [0xa5; BESIDE];
    let mut all = [&fence, room, &fence].concat();
    let inner = BESIDE..BESIDE + room.len();
    same!(given, writer(&mut all[inner.clone()]), expected, "{what} of {} numbers into {}", given.len() / 4, room.len());
    same!(given, [&all[..inner.start], &all[inner.end..]], [&fence, &fence], "bytes beside the room of {what}");
    all.truncate(inner.end);
    Ok(all.split_off(BESIDE))
}

/// Rows that are right or break a rule, whole or not, into outputs of every kind.
fn write_case(random: &mut Random, hits: &mut Hits) -> Check {
    let rows = rows::any_rows(random);
    // What it would write.
    let file = File::of(&rows).bytes;
    let verdict = verdict_of(&read(&file, hits)?);
    let told = walk(&file).1;
    let len = file.len();
    for room in [len, len - 1, len + 1 + random.below(9), random.below(len), 0] {
        let room = random.bytes(room);
        let number = match verdict.number {
            0 if room.len() < len => 28,
            number => number,
        };
        let written = write(rows.as_flattened(), &room, hits)?;
        same!(file, written.as_ref().map_err(|number| usize::from(*number)), if number == 0 { Ok(&file) } else { Err(number) }, "written");
        hits.settings.written(&rows, len, room.len(), number, told.is_some());
    }
    if let Some(told) = &told {
        hits.settings.written.note(verdict, told);
    }
    let mut numbers = rows.into_flattened();
    let few = numbers.len() < 3;
    for _ in 0..1 + random.below(2) {
        if few || random.one_in(2) {
            numbers.push(rows::number(random));
        } else {
            numbers.pop();
        }
        let room = random.pick(&[0, len, len + 12]);
        let room = random.bytes(room);
        let written = write(&numbers, &room, hits)?;
        if !numbers.len().is_multiple_of(3) {
            same!(file, written, Err(27), "written, not whole rows");
            hits.settings.not_whole(numbers.len(), told.is_some(), room.is_empty());
        }
    }
    Ok(())
}

/// The bytes of which all short files are made, and those of which all forms of a number.
const SHORT: [u8; 9] = [0, 1, 2, 3, 4, 0x7f, 0x80, 0x81, 0xff];
const FORMS: [u8; 10] = [0, 1, 0x0f, 0x10, 0x7f, 0x80, 0x81, 0x8f, 0x90, 0xff];

/// Files that every run looks at: all short ones, all forms of a number in each place, and long ones.
pub fn fixed(seed: u64) -> Check {
    // Not counted: what a run must have come by is to come of the files made at random.
    let hits = &mut Hits::default();
    (0..=6).try_for_each(|len| every(&[], &SHORT, len))?;
    for front in [&[][..], &[1], &[1, 0], &[1, 0, 1], &[1, 0, 2], &[2, 0x80, 1, 2, 0]] {
        (1..=5).try_for_each(|len| every(front, &FORMS, len))?;
    }
    let random = &mut Random::new(!seed, u64::MAX);
    for count in [0, 1, 3, MOST] {
        let short = File::of(&vec![[7, 2, 128]; count]).bytes;
        for len in [65_535, 65_536, 65_537, 1 << 20] {
            for byte in [0, 0x80, 0xff] {
                let mut bytes = short.clone();
                bytes.resize(len, byte);
                file(random, &bytes, hits).map(drop)?;
            }
        }
        let mut bytes = short;
        bytes.resize(LONGEST + 1, 1);
        read(&bytes, hits).map(drop)?;
    }
    for byte in [0x80, 0xff] {
        file(random, &[byte; 65_537], hits).map(drop)?;
    }
    Ok(())
}

/// All files of a front and so many of these bytes.
fn every(front: &[u8], of: &[u8], len: usize) -> Check {
    let mut bytes = [front, &vec![0; len]].concat();
    for number in 0..of.len().pow(len as u32) {
        let mut left = number;
        for byte in &mut bytes[front.len()..] {
            *byte = of[left % of.len()];
            left /= of.len();
        }
        compared(&bytes).map(drop)?;
    }
    Ok(())
}

circumstances! {
    /// What files, rows and questions there were.
    Kind, KINDS:
    NoRow: 500 "no row, accepted",
    OneRow: 1000 "1 row, accepted",
    FewRows: 10_000 "2 to 6 rows, accepted",
    ManyRows: 1000 "7 to 126 rows, accepted",
    LastOfOneGroup: 20 "127 rows, accepted",
    FirstOfTwoGroups: 20 "128 rows, accepted",
    OneBelowMost: 20 "511 rows, accepted",
    MostRows: 20 "512 rows, accepted",
    EqualVersions: 20_000 "two rows of one version, accepted",
    NextVersion: 20_000 "a version one above the one before, accepted",
    FarVersion: 10_000 "a version 65,536 or more above the one before, accepted",
    LeastEdition0: 5000 "key 1 with 0",
    LeastEdition3: 20_000 "key 1 with 3",
    Length0: 5000 "key 2 with 0",
    LengthMost: 5000 "key 2 with 4294967295",
    Private0: 5000 "key 3 with 0",
    Private1: 20_000 "key 3 with 1",
    Empty: 2000 "55 of an empty file",
    Exactly: 100 "54 of 4294967296",
    LargeZero: 1000 "54 of a fifth high bit, where a last group of 0 follows",
    LargeRight: 2000 "54 of a number that is right in its low 32 bits",
    LongRight: 5000 "53 of a number that is right but for its form",
    LongZero: 500 "53 of a zero",
    CutRight: 5000 "55 of a number whose groups so far are right",
    OneTooMany: 200 "56 of 513",
    TooManyCut: 200 "56 where the file is cut after the count",
    TooManyShort: 1000 "56 where some of the rows stand",
    TooManyWhole: 50 "56 where all rows stand",
    OverNone: 200 "60 after no row",
    OverOne: 200 "60 after one row",
    OverSome: 1000 "60 after several rows",
    OverMost: 20 "60 after 512 rows",
    OverByte: 500 "60 of one byte",
    OverRow: 500 "60 of what is a row",
    OverLong: 20 "60 in a file of more than 65,536 bytes",
    RowFirst: 20_000 "row 0",
    RowLast: 10_000 "the last of several rows",
    RowLastOfMost: 20 "the last of 512 rows",
    RowOnePast: 10_000 "26 for one past the last row",
    RowOnePastNone: 2000 "26 for row 0 of none",
    RowOnePastMost: 20 "26 for row 512",
    RowGreatest: 10_000 "26 for the greatest number",
    RowLowByte: 10_000 "26 for a number that is a row's in its low 8 bits",
    RowLowHalf: 10_000 "26 for a number that is a row's in its low 16 bits",
    RowLowWord: 5000 "26 for a number that is a row's in its low 32 bits",
    AloneAtEnd: 20_000 "a row by itself at the file's end, 55",
    AlonePastEnd: 20_000 "a row by itself past the file's end, 55",
    AloneGreatest: 5000 "a row by itself at the greatest place, 55",
    AloneInside: 5000 "a row by itself that begins inside a number, accepted",
    AloneBefore: 10_000 "a row by itself, accepted where the file is refused for another",
    AloneOther: 50_000 "a row by itself, refused with another number or place than the file",
    AloneFalls: 5000 "a row by itself, one below the version before it, 59",
    AloneEqual: 5000 "a row by itself, of the version before it, accepted",
    UnsetNoRow: 100_000 "a key of no row, unset",
    UnsetBelow: 50_000 "a key of which all rows are later, unset",
    UnsetZero: 10_000 "key 0, unset",
    UnsetFour: 10_000 "key 4, unset",
    UnsetLowBits: 2000 "a key that is a row's in its low 7, 8 or 16 bits, unset",
    LastOfSeveral: 20_000 "the last of several rows of a key, not the value of the first",
    AtVersion: 20_000 "a value by a row of that very version, not the value of the version before",
    BeforeLater: 20_000 "a value before a later row of the key that has another",
    LastOfEqual: 5000 "a value by the last of two rows of a key and version that differ",
    BelowOthers: 50_000 "a value by a row that rows of other keys follow",
    GreatestVersion: 20_000 "a value at version 4294967295",
    WrittenExact: 2000 "written, with room for it and no more",
    WrittenMore: 2000 "written, with more room",
    WrittenNone: 500 "written, no row",
    WrittenMost: 20 "written, 512 rows",
    OneShort: 2000 "28 with one byte too few",
    NoRoom: 2000 "28 with no room",
    FaultNoRoom: 2000 "56 to 59 of the writer with no room",
    Write513: 100 "56 of the writer for 513 rows",
    Write600: 50 "56 of the writer for 600 rows",
    WriteManyFault: 200 "56 of the writer where a row breaks a rule too",
    NotWholeOne: 500 "27 for one number",
    NotWholeTwo: 500 "27 for two numbers",
    NotWholeOneMore: 2000 "27 for rows and one number",
    NotWholeTwoMore: 2000 "27 for rows and two numbers",
    NotWholeFault: 5000 "27 where a row breaks a rule too",
    NotWholeNoRoom: 2000 "27 with no room",
    LaterEdition: 2000 "a later row of key 1",
    LaterLength: 2000 "a later row of key 2",
    LaterPrivate: 2000 "a later row of key 3",
    LaterFirst: 500 "a later row, where there was none",
    LaterNext: 5000 "a later row, its version one above the last",
    LaterGreatest: 2000 "a later row of version 4294967295",
    LaterTooMany: 10 "a later row after 512, 56",
    StayedSet: 100_000 "a set value that stayed below a later row",
    StayedUnset: 200_000 "an unset value that stayed below a later row",
    Changed: 10_000 "a value that changed at a later row's version",
}

/// How often each of the circumstances came; how often versions and values, in that order, were the least and the greatest of one to five
/// groups; and which faults were told, read and written.
pub struct Notes {
    kinds: [u64; KINDS.len()],
    ends: [[[u64; 2]; 5]; 2],
    read: Faults,
    written: Faults,
}

impl Default for Notes {
    fn default() -> Notes {
        Notes { kinds: [0; KINDS.len()], ends: Default::default(), read: Faults::default(), written: Faults::default() }
    }
}

impl Notes {
    fn saw(&mut self, kind: Kind, is: bool) {
        self.kinds[kind as usize] += u64::from(is);
    }

    /// Notes the rows of a file that is accepted.
    fn right(&mut self, rows: &[Row]) {
        self.saw(
            match rows.len() {
                0 => Kind::NoRow,
                1 => Kind::OneRow,
                127 => Kind::LastOfOneGroup,
                128 => Kind::FirstOfTwoGroups,
                511 => Kind::OneBelowMost,
                MOST => Kind::MostRows,
                2..=6 => Kind::FewRows,
                _ => Kind::ManyRows,
            },
            true,
        );
        for two in rows.windows(2) {
            let step = two[1][0] - two[0][0];
            self.saw(Kind::EqualVersions, step == 0);
            self.saw(Kind::NextVersion, step == 1);
            self.saw(Kind::FarVersion, step >= 65_536);
        }
        for [version, key, value] in rows.iter().copied() {
            let [none, most] = match key {
                1 => [Kind::LeastEdition0, Kind::LeastEdition3],
                2 => [Kind::Length0, Kind::LengthMost],
                _ => [Kind::Private0, Kind::Private1],
            };
            self.saw(none, value == 0);
            self.saw(most, Some(value) == greatest(key.into()));
            for (noted, number) in self.ends.iter_mut().zip([version, value]) {
                for (groups, counts) in noted.iter_mut().enumerate() {
                    counts.iter_mut().zip(ends(groups + 1)).for_each(|(count, end)| *count += u64::from(number == end));
                }
            }
        }
    }

    /// Notes what a file was refused for, where that has to do with the whole of it; `at` is where the walk ended.
    fn refused(&mut self, bytes: &[u8], verdict: raw::Verdict, at: usize) {
        let count = Number::at(bytes, 0);
        let left = bytes.len() - at;
        match verdict.number {
            55 => self.saw(Kind::Empty, bytes.is_empty()),
            56 => {
                // Every group that ends stands for a number.
                let numbers = bytes.iter().filter(|group| **group < 0x80).count() as u64;
                self.saw(Kind::OneTooMany, count.value == 513);
                self.saw(Kind::TooManyCut, bytes.len() == count.end());
                self.saw(Kind::TooManyShort, numbers > 3 && numbers <= 3 * count.value);
                self.saw(Kind::TooManyWhole, numbers == 1 + 3 * count.value);
            }
            60 => {
                let after = match count.value as usize {
                    0 => Kind::OverNone,
                    1 => Kind::OverOne,
                    MOST => Kind::OverMost,
                    _ => Kind::OverSome,
                };
                self.saw(after, true);
                self.saw(Kind::OverByte, left == 1);
                self.saw(Kind::OverRow, alone(bytes, at, 0).is_ok_and(|(_, end)| end == bytes.len()));
                self.saw(Kind::OverLong, bytes.len() > 65_536);
            }
            _ => (),
        }
    }

    /// Notes a number that was refused.
    fn told(&mut self, bytes: &[u8], verdict: raw::Verdict, number: &Number, own: Option<usize>) {
        match verdict.number {
            53 => {
                self.saw(Kind::LongRight, own.is_none());
                self.saw(Kind::LongZero, number.value == 0);
            }
            54 => {
                self.saw(Kind::Exactly, number.ends && number.groups == 5 && number.value == 1 << 32);
                self.saw(Kind::LargeZero, number.groups == 6 && number.last == 0);
                // The same number in 32 bits would do.
                let mut low = bytes[..number.at].to_vec();
                rows::put(&mut low, number.value as u32);
                self.saw(Kind::LargeRight, number.ends && reference::settings(&low).err().is_none_or(|refusal| refusal.place > number.at));
            }
            55 => self.saw(Kind::CutRight, number.groups > 0 && own.is_none()),
            _ => (),
        }
    }

    /// Notes a row that an accepted file was asked for.
    fn row(&mut self, count: usize, i: usize) {
        let low = |bits: u32| i >> bits != 0 && i % (1 << bits) < count;
        self.saw(Kind::RowFirst, i == 0 && count > 0);
        self.saw(Kind::RowLast, i + 1 == count && count > 1);
        self.saw(Kind::RowLastOfMost, i + 1 == count && count == MOST);
        self.saw(Kind::RowOnePast, i == count && count > 0);
        self.saw(Kind::RowOnePastNone, i == count && count == 0);
        self.saw(Kind::RowOnePastMost, i == count && count == MOST);
        self.saw(Kind::RowGreatest, i == usize::MAX);
        self.saw(Kind::RowLowByte, low(8) && i >= count);
        self.saw(Kind::RowLowHalf, low(16));
        self.saw(Kind::RowLowWord, low(32));
    }

    /// Notes a row that was asked for by itself, beside what is said of the whole.
    fn alone(&mut self, bytes: &[u8], whole: raw::Verdict, at: usize, last: u32, got: &raw::SettingRowAlone) {
        let accepted = got.verdict.number == 0;
        let inside = at > 0 && bytes.get(at - 1).is_some_and(|group| *group >= 0x80);
        self.saw(Kind::AloneAtEnd, at == bytes.len());
        self.saw(Kind::AlonePastEnd, at > bytes.len() && at < usize::MAX);
        self.saw(Kind::AloneGreatest, at == usize::MAX);
        self.saw(Kind::AloneInside, accepted && inside);
        self.saw(Kind::AloneBefore, accepted && ![0, 60].contains(&whole.number));
        self.saw(Kind::AloneOther, !accepted && whole.number != 0 && got.verdict != whole);
        let version = Number::at(bytes, at).value;
        self.saw(Kind::AloneFalls, got.verdict.number == 59 && version + 1 == last.into());
        self.saw(Kind::AloneEqual, accepted && last > 0 && got.version == last);
    }

    /// Notes a value that an accepted file was asked for.
    fn value(&mut self, rows: &[SettingsRow], key: u32, version: u32) {
        let of = |key: u32| rows.iter().filter(move |row| row.key == key);
        let Some(first) = of(key).next() else {
            let low = |bits: u32| key >> bits != 0 && of(key % (1 << bits)).next().is_some();
            self.saw(Kind::UnsetNoRow, (1..=3).contains(&key));
            self.saw(Kind::UnsetZero, key == 0);
            self.saw(Kind::UnsetFour, key == 4);
            self.saw(Kind::UnsetLowBits, low(7) || low(8) || low(16));
            return;
        };
        let reached = rows.partition_point(|row| row.version <= version);
        let Some(at) = rows[..reached].iter().rposition(|row| row.key == key) else {
            self.saw(Kind::UnsetBelow, true);
            return;
        };
        let own = rows[at];
        let below = rows.iter().rfind(|row| row.key == key && row.version < version);
        let earlier = rows[..at].iter().rfind(|row| row.key == key);
        self.saw(Kind::LastOfSeveral, first.value != own.value);
        self.saw(Kind::AtVersion, own.version == version && below.is_none_or(|row| row.value != own.value));
        self.saw(Kind::BeforeLater, rows[at + 1..].iter().any(|row| row.key == key && row.value != own.value));
        self.saw(Kind::LastOfEqual, earlier.is_some_and(|row| row.version == own.version && row.value != own.value));
        self.saw(Kind::BelowOthers, at + 1 < reached);
        self.saw(Kind::GreatestVersion, version == u32::MAX);
    }

    /// Notes what the writer did with whole rows.
    fn written(&mut self, rows: &[Row], len: usize, room: usize, number: usize, faulty: bool) {
        match number {
            0 => {
                self.saw(Kind::WrittenExact, room == len);
                self.saw(Kind::WrittenMore, room > len);
                self.saw(Kind::WrittenNone, rows.is_empty());
                self.saw(Kind::WrittenMost, rows.len() == MOST);
            }
            28 => {
                self.saw(Kind::OneShort, room + 1 == len);
                self.saw(Kind::NoRoom, room == 0);
            }
            _ => self.saw(Kind::FaultNoRoom, faulty && room == 0),
        }
        if number == 56 {
            let falls = rows.windows(2).any(|two| two[1][0] < two[0][0]);
            let out = |row: &Row| greatest(row[1].into()).is_none_or(|greatest| row[2] > greatest);
            self.saw(Kind::Write513, rows.len() == 513);
            self.saw(Kind::Write600, rows.len() == 600);
            self.saw(Kind::WriteManyFault, falls || rows.iter().any(out));
        }
    }

    /// Notes numbers that aren't whole rows.
    fn not_whole(&mut self, numbers: usize, faulty: bool, no_room: bool) {
        self.saw(
            match (numbers, numbers % 3) {
                (1, _) => Kind::NotWholeOne,
                (2, _) => Kind::NotWholeTwo,
                (_, 1) => Kind::NotWholeOneMore,
                _ => Kind::NotWholeTwoMore,
            },
            true,
        );
        self.saw(Kind::NotWholeFault, faulty);
        self.saw(Kind::NotWholeNoRoom, no_room);
    }

    /// Notes a row that came after others.
    fn later(&mut self, rows: &[Row], [version, key, _]: Row) {
        self.saw([Kind::LaterEdition, Kind::LaterLength, Kind::LaterPrivate][key as usize - 1], true);
        self.saw(Kind::LaterFirst, rows.is_empty());
        self.saw(Kind::LaterNext, rows.last().is_some_and(|last| last[0] + 1 == version));
        self.saw(Kind::LaterGreatest, version == u32::MAX);
        self.saw(Kind::LaterTooMany, rows.len() == MOST);
    }

    fn stayed(&mut self, set: bool) {
        self.saw(if set { Kind::StayedSet } else { Kind::StayedUnset }, true);
    }

    fn changed(&mut self, is: bool) {
        self.saw(Kind::Changed, is);
    }

    fn ends_summary(&self, missed: &mut Vec<String>) {
        for (what, noted) in ["versions", "values"].iter().zip(self.ends) {
            print!("{what}, the least and greatest of 1 to 5 groups:");
            for (groups, [least, greatest]) in noted.into_iter().enumerate() {
                print!(" {least} {greatest},");
                at_least(&format!("{what} at the ends of {} groups", groups + 1), least.min(greatest), 1000, missed);
            }
            println!();
        }
    }
}

/// So often a call gives each number at least, and at so many places those that have one.
const GIVEN: [(Call, u64, u64); 5] = [
    (Call::Settings, 2000, 100),
    (Call::Setting, 3000, 80),
    (Call::SettingRow, 3000, 80),
    (Call::RowAlone, 5000, 150),
    (Call::WriteRows, 400, 60),
];

/// Prints what the settings files of a run were, and adds what came less often than it must.
pub fn summary(hits: &Hits, missed: &mut Vec<String>) {
    GIVEN.into_iter().for_each(|(call, least, places)| hits.given(call, least, places, missed));
    let notes = &hits.settings;
    notes.read.summary(&READER, missed);
    notes.written.summary(&WRITER, missed);
    notes.ends_summary(missed);
    each(KINDS, &notes.kinds, missed);
}
