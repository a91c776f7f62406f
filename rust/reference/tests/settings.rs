//! Settings files: the reader, the writer, the text, and the program around it.

mod common;
#[path = "common/programs.rs"]
mod programs;
use common::settings::*;
use common::*;
use programs::*;
use reference::{settings, show_settings, write_settings, Refusal, Settings, SettingsRow};

/// The rows of an accepted file as numbers.
fn read(bytes: &[u8]) -> Result<Vec<[u32; 3]>, Refusal> {
    let rows = settings(bytes)?.rows;
    Ok(rows.iter().map(|row| [row.version, row.key, row.value]).collect())
}

/// What the writer makes of the numbers, with room enough.
fn written(numbers: &[u32]) -> Result<Vec<u8>, Refusal> {
    let mut out = vec![0xee; 5 * numbers.len() + 10];
    let length = write_settings(numbers, &mut out)?;
    assert!(out[length..].iter().all(|byte| *byte == 0xee));
    out.truncate(length);
    Ok(out)
}

/// The least and the greatest number of each of one to five groups, with their bytes.
const EDGES: [(u32, &[u8]); 10] = [
    (0, &[0]),
    (0x7f, &[0x7f]),
    (0x80, &[0x80, 1]),
    (0x3fff, &[0xff, 0x7f]),
    (0x4000, &[0x80, 0x80, 1]),
    (0x1f_ffff, &[0xff, 0xff, 0x7f]),
    (0x20_0000, &[0x80, 0x80, 0x80, 1]),
    (0xfff_ffff, &[0xff, 0xff, 0xff, 0x7f]),
    (0x1000_0000, &[0x80, 0x80, 0x80, 0x80, 1]),
    (u32::MAX, &[0xff, 0xff, 0xff, 0xff, 0x0f]),
];

#[test]
fn numbers_of_every_length() {
    for (version, version_bytes) in EDGES {
        for (value, value_bytes) in EDGES {
            let bytes = [&[1], version_bytes, &[2], value_bytes].concat();
            assert_eq!(read(&bytes), Ok(vec![[version, 2, value]]));
            assert_eq!(written(&[version, 2, value]), Ok(bytes));
        }
    }
    // Least group first.
    assert_eq!(read(&[1, 0x81, 0x82, 0x83, 0x84, 5, 2, 0xac, 2]), Ok(vec![[0x5080_c101, 2, 300]]));
}

/// A file of three rows of version 7 whose number i has these bytes, and where it begins.
fn with_form(i: usize, form: &[u8]) -> (Pieces, usize) {
    let mut pieces = Pieces::of(&[[7, 1, 3], [7, 2, 5], [7, 3, 1]]);
    pieces.forms[i] = form.to_vec();
    let place = pieces.place(i);
    (pieces, place)
}

#[test]
fn long_forms() {
    for i in 0..10 {
        // Whatever the number is, one that would be another fault or none.
        for (number, least) in EDGES {
            for count in least.len() + 1..=5 {
                let (pieces, place) = with_form(i, &groups(u64::from(number), count));
                assert_eq!(read(&pieces.bytes()), refused(53, place), "{number} in {count}");
            }
        }
        for form in [&[0x80, 0][..], &[0x83, 0], &[0x80, 0x80, 0], &[0x80, 0x80, 0x80, 0x80, 0]] {
            let (mut pieces, place) = with_form(i, form);
            assert_eq!(read(&pieces.bytes()), refused(53, place));
            pieces.forms.truncate(i + 1);
            assert_eq!(read(&pieces.bytes()), refused(53, place));
        }
    }
    // A zero may stand before the last group.
    assert_eq!(read(&[1, 0x80, 0x80, 1, 2, 0]), Ok(vec![[0x4000, 2, 0]]));
}

#[test]
fn too_large() {
    let forms = [
        &[0x80, 0x80, 0x80, 0x80, 0x10][..],
        &[0xff, 0xff, 0xff, 0xff, 0x10],
        &[0x81, 0x80, 0x80, 0x80, 0x10],
        &[0x80, 0x80, 0x80, 0x80, 0x20],
        &[0x80, 0x80, 0x80, 0x80, 0x40],
        &[0xff, 0xff, 0xff, 0xff, 0x7f],
        // A fifth group with its high bit: six groups, of which the last may be 0, or
        // any number of them.
        &[0x80, 0x80, 0x80, 0x80, 0x80, 0],
        &[0x81, 0x80, 0x80, 0x80, 0x80, 0],
        &[0x80, 0x80, 0x80, 0x80, 0x8f, 0],
        &[0x80, 0x80, 0x80, 0x80, 0x80, 1],
        &[0x80, 0x80, 0x80, 0x80, 0x80],
        &[0xff, 0xff, 0xff, 0xff, 0xff],
        &[0xff; 6],
        &[0x80; 40],
    ];
    for i in 0..10 {
        for form in forms {
            let (mut pieces, place) = with_form(i, form);
            assert_eq!(read(&pieces.bytes()), refused(54, place), "{form:x?} at {i}");
            // Where the file ends there, too.
            pieces.forms.truncate(i + 1);
            assert_eq!(read(&pieces.bytes()), refused(54, place), "{form:x?} at {i}");
        }
        // The greatest fifth group: too many rows, a version that those after it fall
        // from, an unknown key, a value.
        let (pieces, place) = with_form(i, &[0xff, 0xff, 0xff, 0xff, 0x0f]);
        let expected = match (i, role(i)) {
            (_, Role::Count) => refused(56, 0),
            (1 | 4, _) => refused(59, pieces.place(i + 3)),
            (_, Role::Version) => Ok(vec![[7, 1, 3], [7, 2, 5], [u32::MAX, 3, 1]]),
            (_, Role::Key) => refused(57, place),
            (6, _) => Ok(vec![[7, 1, 3], [7, 2, u32::MAX], [7, 3, 1]]),
            _ => refused(58, place),
        };
        assert_eq!(read(&pieces.bytes()), expected, "at {i}");
    }
}

#[test]
fn cut_at_every_byte() {
    let mut random = Random(0x1234_5678_9abc_def1);
    let mut files = vec![Pieces::of(&[]), Pieces::of(&[[u32::MAX, 2, u32::MAX]])];
    for count in [2, 5, 130, 512] {
        files.push(Pieces::of(&good_rows(&mut random, count)));
    }
    for pieces in files {
        let bytes = pieces.bytes();
        assert!(settings(&bytes).is_ok());
        for (i, form) in pieces.forms.iter().enumerate() {
            let place = pieces.place(i);
            for kept in 0..form.len() {
                assert_eq!(read(&bytes[..place + kept]), refused(55, place));
            }
        }
    }
    assert_eq!(read(&[]), refused(55, 0));
    // Up to four groups, all with their high bit.
    for i in 0..10 {
        for kept in 0..=4 {
            let (mut pieces, place) = with_form(i, &[0x80, 0xff, 0x81, 0x80][..kept]);
            pieces.forms.truncate(i + 1);
            assert_eq!(read(&pieces.bytes()), refused(55, place));
        }
    }
}

#[test]
fn row_counts() {
    assert_eq!(read(&[0]), Ok(vec![]));
    assert_eq!(read(&[1, 0, 1, 0]), Ok(vec![[0, 1, 0]]));
    let rows = |count| [shortest(count), [9, 3, 1].repeat(count as usize)].concat();
    for count in [2, 127, 128, 511, 512] {
        assert_eq!(read(&rows(count)), Ok(vec![[9, 3, 1]; count as usize]));
    }
    for count in [513, 514, 640, 1024, 66_048] {
        assert_eq!(read(&rows(count)), refused(56, 0));
    }
    // Whatever follows: nothing, a cut number, a long form, bytes left over.
    for count in [513, 514, 1 << 16, (1 << 16) + 1, 1 << 31, (1 << 32) - 1] {
        for more in [&[][..], &[0x80], &[0x80, 0], &[0xff; 6], &[5, 0, 0], &[0; 1539], &[0; 1540]] {
            assert_eq!(read(&[&shortest(count), more].concat()), refused(56, 0));
        }
    }
    // More rows than the count has, and fewer.
    let bytes = rows(512);
    assert_eq!(read(&[&shortest(511), &bytes[2..]].concat()), refused(60, 2 + 3 * 511));
    assert_eq!(read(&bytes[..bytes.len() - 3]), refused(55, bytes.len() - 3));
}

#[test]
fn versions_never_fall() {
    let greatest = u32::MAX;
    for versions in [[0, 0, 0], [7, 7, 7], [0, 1, 2], [5, 5, 6], [127, 128, 128], [0, 0, greatest]]
    {
        let rows = versions.map(|version| [version, 3, 0]);
        assert_eq!(read(&file(&rows)), Ok(rows.to_vec()));
    }
    for before in [1, 2, 127, 128, 129, 0x4000, 0x1000_0000, greatest] {
        for version in [before - 1, before / 2, 0] {
            for i in 1..4 {
                let mut rows = [[before, 3, 0]; 4];
                rows[i][0] = version;
                let pieces = Pieces::of(&rows);
                let place = pieces.place(1 + 3 * i);
                assert_eq!(read(&pieces.bytes()), refused(59, place), "{before} {version}");
                let equal = [[version, 3, 0]; 4];
                assert_eq!(read(&file(&equal)), Ok(equal.to_vec()));
            }
        }
    }
    // Held against the one before, not the greatest or the first.
    assert_eq!(read(&file(&[[1, 3, 0], [9, 3, 0], [8, 3, 0]])), refused(59, 7));
    // All keys have one row of versions.
    assert_eq!(read(&file(&[[2, 1, 0], [1, 3, 0]])), refused(59, 4));
}

#[test]
fn keys_and_their_ranges() {
    let values = [0, 1, 2, 3, 4, 5, 127, 128, 256, 257, 1 << 16, 1 << 31, u32::MAX];
    for key in [0, 1, 2, 3, 4, 5, 127, 128, 129, 257, 258, 259, 1 << 16, 1 << 31 | 1, u32::MAX] {
        for value in values {
            let most = match key {
                1 => Some(3),
                2 => Some(u32::MAX),
                3 => Some(1),
                _ => None,
            };
            for rows in [vec![[6, key, value]], vec![[5, 2, 300], [6, key, value], [6, 1, 0]]] {
                let pieces = Pieces::of(&rows);
                let i = if rows.len() == 1 { 2 } else { 5 };
                let expected = match most {
                    None => refused(57, pieces.place(i)),
                    Some(most) if value > most => refused(58, pieces.place(i + 1)),
                    Some(_) => Ok(rows),
                };
                assert_eq!(read(&pieces.bytes()), expected, "key {key} value {value}");
            }
        }
    }
}

#[test]
fn bytes_left_over() {
    for rows in [vec![], vec![[5, 1, 2]], vec![[5, 1, 2], [300, 2, 70_000]], vec![[0, 3, 0]; 512]] {
        let bytes = file(&rows);
        assert_eq!(read(&bytes), Ok(rows));
        for more in [&[0][..], &[1], &[0x80], &[0x80, 0], &[0xff; 5], &[9, 9, 9], &[0; 70_000]] {
            assert_eq!(read(&[&bytes, more].concat()), refused(60, bytes.len()));
        }
    }
}

/// Files with rows enough for every fault, and none with a version of 0.
fn rows_to_spoil(random: &mut Random) -> Vec<[u32; 3]> {
    let count = 3 + random.below(3);
    let mut rows = good_rows(random, count);
    rows.iter_mut().for_each(|row| row[0] = row[0].saturating_add(1));
    rows
}

#[test]
fn two_faults_of_one_number() {
    let mut random = Random(0x0ff5_e7ed_1234_9876);
    let mut seen = std::collections::BTreeSet::new();
    for _ in 0..300 {
        let rows = rows_to_spoil(&mut random);
        for i in 0..=3 * rows.len() {
            let pieces = Pieces::of(&rows);
            let own: Vec<u8> = pieces.faults(i).into_iter().filter(|fault| *fault > 55).collect();
            for second in own {
                for first in 53..=55 {
                    let mut pieces = pieces.clone();
                    let alone = pieces.spoil(&mut random, i, second);
                    assert_eq!(read(&pieces.bytes()), Err(alone));
                    let expected = pieces.spoil(&mut random, i, first);
                    assert_eq!(read(&pieces.bytes()), Err(expected));
                    seen.insert((first, second));
                }
            }
        }
    }
    let all = (53..=55).flat_map(|first| (56..=59).map(move |second| (first, second)));
    assert_eq!(seen, all.collect());
    // 54 and 55: the fifth group is there, its number goes on, and the file ends.
    assert_eq!(read(&[0x80; 4]), refused(55, 0));
    assert_eq!(read(&[0x80; 5]), refused(54, 0));
    // 53 and 54: a sixth group of 0 doesn't make it long, a fifth does.
    assert_eq!(read(&[0x80, 0x80, 0x80, 0x80, 0]), refused(53, 0));
    assert_eq!(read(&[0x80, 0x80, 0x80, 0x80, 0x80, 0]), refused(54, 0));
    // 53 and 56, 54 and 56: 513 in three groups, 2^32 + 513.
    assert_eq!(read(&[0x81, 0x84, 0]), refused(53, 0));
    assert_eq!(read(&[0x81, 0x84, 0x80, 0x80, 0x10]), refused(54, 0));
    // 55 and 56: above 512 without the groups that are missing.
    assert_eq!(read(&[0x81, 0x84]), refused(55, 0));
}

#[test]
fn faults_of_neighbours() {
    let mut random = Random(0x77aa_0c3d_52e1_9b86);
    let mut seen = std::collections::BTreeSet::new();
    for _ in 0..300 {
        let rows = rows_to_spoil(&mut random);
        for i in 0..=3 * rows.len() {
            let pieces = Pieces::of(&rows);
            for first in pieces.faults(i) {
                for second in pieces.faults(i + 1) {
                    // The later number first, since the other may take its key away.
                    let mut pieces = pieces.clone();
                    let alone = pieces.spoil(&mut random, i + 1, second);
                    assert_eq!(read(&pieces.bytes()), Err(alone));
                    let expected = pieces.spoil(&mut random, i, first);
                    assert_eq!(read(&pieces.bytes()), Err(expected));
                    seen.insert((role(i), first, second));
                }
            }
        }
    }
    // Four of a count and three of a first version; four of any other and four.
    assert_eq!(seen.iter().filter(|(role, _, _)| *role == Role::Count).count(), 4 * 3);
    for role in [Role::Version, Role::Key] {
        assert_eq!(seen.iter().filter(|(of, _, _)| *of == role).count(), 4 * 4);
    }
    // A value has a version after it, or what is left over.
    assert_eq!(seen.iter().filter(|(role, _, _)| *role == Role::Value).count(), 4 * 5);
}

/// A number, its end and its refusal by the table: of all faults that it has the one
/// that stands first there. `own` says whether it breaks the rule of its role.
fn judged(bytes: &[u8], at: usize, own: impl Fn(u64) -> Option<u8>) -> Result<(u32, usize), u8> {
    let high = bytes[at..].iter().take_while(|byte| **byte >= 0x80).count();
    let cut = at + high == bytes.len();
    let count = if cut { high } else { high + 1 };
    let five = bytes[at..at + count].iter().take(5).enumerate();
    let number: u64 = five.map(|(i, byte)| u64::from(byte % 0x80) * 0x80u64.pow(i as u32)).sum();
    let mut faults: Vec<u8> = own(number).into_iter().collect();
    if cut {
        faults.push(55);
    }
    if high >= 5 || number >= 1 << 32 {
        faults.push(54);
    }
    if (2..=5).contains(&count) && bytes[at + count - 1] == 0 {
        faults.push(53);
    }
    match faults.iter().min() {
        Some(fault) => Err(*fault),
        None => Ok((number as u32, at + count)),
    }
}

/// The whole file by the table.
fn by_the_table(bytes: &[u8]) -> Result<Vec<[u32; 3]>, Refusal> {
    let mut at = 0;
    let mut next = |own: &dyn Fn(u64) -> Option<u8>| {
        let number;
        (number, at) = judged(bytes, at, own).map_err(|number| Refusal { number, place: at })?;
        Ok((number, at))
    };
    let (count, mut end) = next(&|count| (count > 512).then_some(56))?;
    let mut rows: Vec<[u32; 3]> = Vec::new();
    for _ in 0..count {
        let before = rows.last().map(|row| u64::from(row[0]));
        let (version, _) = next(&|version| (Some(version) < before).then_some(59))?;
        let (key, _) = next(&|key| (key == 0 || key > 3).then_some(57))?;
        let most = [3, u64::MAX, 1][key as usize - 1];
        let (value, value_end) = next(&|value| (value > most).then_some(58))?;
        rows.push([version, key, value]);
        end = value_end;
    }
    if end < bytes.len() {
        return refused(60, end);
    }
    Ok(rows)
}

#[test]
fn every_short_file() {
    // All files of up to six of these bytes, and after a good row again.
    let letters = [0, 1, 2, 3, 4, 0x0f, 0x10, 0x80, 0x81, 0xff];
    let mut numbers = std::collections::BTreeMap::new();
    for front in [&[][..], &[2, 3, 2, 0x80, 1]] {
        for length in 0..=6 {
            for mut word in 0..10usize.pow(length) {
                let mut bytes = front.to_vec();
                for _ in 0..length {
                    bytes.push(letters[word % 10]);
                    word /= 10;
                }
                let answer = read(&bytes);
                assert_eq!(answer, by_the_table(&bytes), "{bytes:x?}");
                *numbers.entry(answer.err().map(|refusal| refusal.number)).or_insert(0) += 1;
            }
        }
    }
    assert!(numbers.len() == 9, "{numbers:?}");
}

#[test]
fn damaged_files() {
    let mut random = Random(0xfeed_beef_0000_1717);
    let mut numbers = std::collections::BTreeMap::new();
    for _ in 0..60_000 {
        let count = random.pick(&[0, 1, 2, 3, 5, 8, 20]);
        let mut pieces = Pieces::of(&good_rows(&mut random, count));
        if random.one_in(3) {
            let i = random.below(pieces.numbers.len() + 1);
            let faults = pieces.faults(i);
            let fault = random.pick(&faults);
            pieces.spoil(&mut random, i, fault);
        }
        let mut bytes = pieces.bytes();
        if !random.one_in(4) {
            damage_file(&mut random, &mut bytes);
        }
        let answer = read(&bytes);
        assert_eq!(answer, by_the_table(&bytes), "{bytes:x?}");
        *numbers.entry(answer.err().map(|refusal| refusal.number)).or_insert(0) += 1;
    }
    assert!(numbers.len() == 9 && numbers.values().all(|n| *n > 500), "{numbers:?}");
}

#[test]
fn rows_by_number() {
    let rows = [[5, 1, 2], [5, 3, 1], [9, 1, 0]];
    let accepted = settings(&file(&rows)).unwrap();
    for (i, numbers) in rows.into_iter().enumerate() {
        assert_eq!(accepted.row(i), Ok(row(numbers)));
    }
    for i in [3, 4, 512, usize::MAX] {
        assert_eq!(accepted.row(i), refused(26, 0));
    }
    assert_eq!(settings(&[0]).unwrap().row(0), refused(26, 0));
    assert_eq!(accepted.rows[0], SettingsRow { version: 5, key: 1, value: 2 });
}

/// Row after row, each takes the place of what was there.
fn replayed(rows: &[[u32; 3]], key: u32, version: u32) -> Option<u32> {
    let mut value = None;
    for row in rows.iter().take_while(|row| row[0] <= version).filter(|row| row[1] == key) {
        value = Some(row[2]);
    }
    value
}

#[test]
fn the_value_at_a_version() {
    let rows = [[5, 1, 3], [5, 2, 70], [7, 1, 2], [7, 1, 0], [7, 2, 0], [9, 1, 1], [9, 1, 3]];
    let accepted = settings(&file(&rows)).unwrap();
    // Unset is -1 here; a value of 0 isn't.
    let at = |key, version| accepted.value(key, version).map_or(-1, i64::from);
    let of = |key| [0, 4, 5, 6, 7, 8, 9, 10, u32::MAX].map(|version| at(key, version));
    assert_eq!(of(1), [-1, -1, 3, 3, 0, 0, 3, 3, 3]);
    assert_eq!(of(2), [-1, -1, 70, 70, 0, 0, 0, 0, 0]);
    for key in [3, 0, 4, 5, 257, u32::MAX] {
        assert_eq!(of(key), [-1; 9], "key {key}");
    }
    // At the ends of what a version can be.
    let accepted = settings(&file(&[[0, 3, 1], [u32::MAX, 3, 0]])).unwrap();
    let values = [0, 1, u32::MAX - 1, u32::MAX].map(|version| accepted.value(3, version));
    assert_eq!(values, [Some(1), Some(1), Some(1), Some(0)]);
    // No rows, no values.
    let empty = settings(&[0]).unwrap();
    assert!((0..5).all(|key| empty.value(key, u32::MAX).is_none()));
}

#[test]
fn values_of_any_file() {
    let mut random = Random(0x0bad_cafe_1357_2468);
    for _ in 0..2_000 {
        let count = random.pick(&[0, 1, 2, 5, 30]);
        let rows = good_rows(&mut random, count);
        let accepted = settings(&file(&rows)).unwrap();
        let mut versions = vec![0, u32::MAX, any_number(&mut random)];
        for row in &rows {
            versions.extend([row[0].saturating_sub(1), row[0], row[0].saturating_add(1)]);
        }
        for key in 0..=4 {
            for version in &versions {
                let value = accepted.value(key, *version);
                assert_eq!(value, replayed(&rows, key, *version));
            }
        }
        // A last row above all others changes nothing below it.
        let last = rows.last().map_or(0, |row| row[0]);
        let Some(above) = last.checked_add(1 + random.below(3) as u32) else {
            continue;
        };
        let added = [above, random.pick(&[1, 2, 3]), random.below(2) as u32];
        let longer = settings(&file(&[rows, vec![added]].concat())).unwrap();
        for key in 0..=4 {
            for version in versions.iter().copied().filter(|version| *version < above) {
                assert_eq!(longer.value(key, version), accepted.value(key, version));
            }
        }
        assert_eq!(longer.value(added[1], above), Some(added[2]));
    }
}

#[test]
fn the_writers_rows_are_whole() {
    let mut out = [0xee; 64];
    for length in [1, 2, 4, 5, 7, 8, 1537, 1538, 1540] {
        // Whatever the numbers are, and however little room there is.
        assert_eq!(write_settings(&vec![9; length], &mut out), refused(27, 0));
        assert_eq!(write_settings(&vec![1; length], &mut []), refused(27, 0));
    }
    assert_eq!(out, [0xee; 64]);
    assert_eq!(written(&[]), Ok(vec![0]));
    assert_eq!(written(&[300, 2, 0x4000]), Ok(vec![1, 0xac, 2, 2, 0x80, 0x80, 1]));
}

#[test]
fn the_writer_refuses_what_reading_would() {
    // Places are those of the result.
    assert_eq!(written(&[300, 4, 0]), refused(57, 3));
    assert_eq!(written(&[300, 0, 0]), refused(57, 3));
    assert_eq!(written(&[300, 1, 4]), refused(58, 4));
    assert_eq!(written(&[300, 3, 2]), refused(58, 4));
    assert_eq!(written(&[300, 2, 300, 299, 2, 0]), refused(59, 6));
    assert_eq!(written(&[300, 2, 300, 300, 2, 300, 0, 9, 9]), refused(59, 11));
    assert_eq!(written(&[3, 9, 9, 0, 2, 0]), refused(57, 2));
    // The numbers' own faults don't matter where there are too many.
    for numbers in [[0, 1, 0].repeat(513), [9; 3 * 513].to_vec(), [0, 2, 0].repeat(70_000)] {
        assert_eq!(written(&numbers), refused(56, 0));
        assert_eq!(write_settings(&numbers, &mut []), refused(56, 0));
    }
    assert_eq!(written(&[0, 1, 0].repeat(512)).unwrap().len(), 2 + 3 * 512);
    // From 128 rows on the count has two bytes.
    let mut numbers = [0, 1, 0].repeat(128);
    numbers[3 * 127 + 2] = 4;
    assert_eq!(written(&numbers), refused(58, 2 + 3 * 127 + 2));
    assert_eq!(written(&numbers[3..]), refused(58, 1 + 3 * 126 + 2));
}

#[test]
fn the_writers_room() {
    let numbers = [300, 2, u32::MAX, 300, 1, 3];
    let bytes = written(&numbers).unwrap();
    assert_eq!(bytes.len(), 13);
    for room in 0..30 {
        let mut out = vec![0xee; room];
        if room < bytes.len() {
            assert_eq!(write_settings(&numbers, &mut out), refused(28, 0));
            assert_eq!(out, vec![0xee; room]);
        } else {
            assert_eq!(write_settings(&numbers, &mut out), Ok(bytes.len()));
            assert_eq!(out[..13], bytes);
            assert_eq!(out[13..], vec![0xee; room - 13]);
        }
        // What reading would give comes before 28.
        let mut out = vec![0xee; room];
        assert_eq!(write_settings(&[300, 2, 5, 299, 1, 3], &mut out), refused(59, 5));
        assert_eq!(out, vec![0xee; room]);
    }
    assert_eq!(write_settings(&[], &mut []), refused(28, 0));
}

#[test]
fn round_trips() {
    let mut random = Random(0x2468_1357_aaaa_5555);
    let (mut accepted, mut refused) = (0, 0);
    for _ in 0..20_000 {
        let count = random.pick(&[0, 1, 2, 3, 5, 8, 60]);
        let mut rows = good_rows(&mut random, count);
        for row in &mut rows {
            if random.one_in(40) {
                row[random.below(3)] = any_number(&mut random);
            }
        }
        let numbers = rows.concat();
        let bytes = file(&rows);
        match written(&numbers) {
            Ok(made) => {
                accepted += 1;
                assert_eq!(made, bytes);
                assert_eq!(read(&made), Ok(rows));
            }
            Err(refusal) => {
                refused += 1;
                assert_eq!(read(&bytes), Err(refusal));
                let mut out = vec![0xee; bytes.len()];
                assert_eq!(write_settings(&numbers, &mut out), Err(refusal));
                assert_eq!(out, vec![0xee; bytes.len()]);
            }
        }
        // An accepted file, read and written again, is the same.
        let mut damaged = bytes;
        damage_file(&mut random, &mut damaged);
        if let Ok(rows) = read(&damaged) {
            assert_eq!(written(&rows.concat()), Ok(damaged));
        }
    }
    assert!(accepted > 5_000 && refused > 3_000, "{accepted} accepted, {refused} refused");
    let longest = [u32::MAX, 2, u32::MAX].repeat(512);
    let bytes = written(&longest).unwrap();
    assert_eq!(bytes.len(), 2 + 11 * 512);
    assert_eq!(read(&bytes).unwrap().concat(), longest);
}

#[test]
fn the_text() {
    let bytes = file(&[[5, 1, 2], [5, 2, u32::MAX], [300, 1, 0], [u32::MAX, 3, 0]]);
    let rows = "rows 4
row 0 version 5 key 1 value 2
row 1 version 5 key 2 value 4294967295
row 2 version 300 key 1 value 0
row 3 version 4294967295 key 3 value 0
";
    for (version, values) in [
        (0, ["unset", "unset", "unset"]),
        (4, ["unset", "unset", "unset"]),
        (5, ["2", "4294967295", "unset"]),
        (299, ["2", "4294967295", "unset"]),
        (300, ["0", "4294967295", "unset"]),
        (u32::MAX - 1, ["0", "4294967295", "unset"]),
        (u32::MAX, ["0", "4294967295", "0"]),
    ] {
        let [edition, length, private] = values;
        let expected = format!(
            "{rows}least_edition {edition}\ngreatest_length {length}\nprivate_allowed {private}\n"
        );
        assert_eq!(show_settings(&bytes, version), expected);
    }
    let none = "rows 0\nleast_edition unset\ngreatest_length unset\nprivate_allowed unset\n";
    assert_eq!(show_settings(&[0], 7), none);
    assert_eq!(show_settings(&[], 7), "refused 55 0\n");
    assert_eq!(show_settings(&[1, 5, 1, 4, 0], 7), "refused 58 3\n");
    assert_eq!(
        show_settings(&[&bytes[..], &[0]].concat(), 7),
        format!("refused 60 {}\n", bytes.len())
    );
    // No limit here; that is the program's.
    assert_eq!(show_settings(&[0; 65_537], 0), "refused 60 1\n");
}

fn run(arguments: &[&str]) -> (String, i32) {
    run_program(env!("CARGO_BIN_EXE_reference-settings"), arguments)
}

#[test]
fn the_program() {
    let bytes = file(&[[5, 1, 2], [5, 2, u32::MAX], [300, 1, 0], [u32::MAX, 3, 1]]);
    let accepted = Temporary::new("settings", &bytes);
    for version in [0, 4, 5, 300, u32::MAX] {
        let printed = run(&[&version.to_string(), accepted.path()]);
        assert_eq!(printed, (show_settings(&bytes, version), 0));
    }
    let zeros = "0".repeat(500);
    for (word, version) in [("005", 5), ("00004294967295", u32::MAX), (&zeros, 0)] {
        let printed = run(&[word, accepted.path()]);
        assert_eq!(printed, (show_settings(&bytes, version), 0), "{word}");
    }
    let long = format!("{zeros}300");
    assert_eq!(run(&[&long, accepted.path()]), (show_settings(&bytes, 300), 0));
    let refused = Temporary::new("settings-refused", &bytes[..bytes.len() - 1]);
    let line = (format!("refused 55 {}\n", bytes.len() - 1), 0);
    assert_eq!(run(&["5", refused.path()]), line);
    let empty = Temporary::new("settings-empty", &[]);
    assert_eq!(run(&["5", empty.path()]), ("refused 55 0\n".into(), 0));
}

#[test]
fn the_programs_words() {
    let file = Temporary::new("settings-words", &[0]);
    let usage = ("usage: settings VERSION FILE\n".to_string(), 2);
    assert_eq!(run(&[]), usage);
    assert_eq!(run(&["3"]), usage);
    assert_eq!(run(&[file.path()]), usage);
    assert_eq!(run(&["3", file.path(), "more"]), usage);
    let vast = "9".repeat(300);
    for word in [
        "",
        " ",
        "three",
        "-1",
        "-0",
        "+1",
        " 1",
        "1 ",
        "1\n",
        "0x1",
        "1.0",
        "1e3",
        "1_000",
        "1,000",
        "\u{0663}",
        "4294967296",
        "04294967296",
        "8589934592",
        "18446744073709551617",
        &vast,
    ] {
        assert_eq!(run(&[word, file.path()]), usage, "{word}");
        // Before the file is looked at.
        assert_eq!(run(&[word, "missing"]), usage, "{word}");
    }
    let missing = format!("{}-missing", file.path());
    assert_eq!(run(&["3", &missing]), ("cannot open\n".into(), 2));
    assert_eq!(run(&["3", ""]), ("cannot open\n".into(), 2));
    assert_eq!(run(&["3", env!("CARGO_TARGET_TMPDIR")]), ("cannot open\n".into(), 2));
}

#[cfg(unix)]
#[test]
fn a_word_that_is_no_text() {
    use std::ffi::OsStr;
    use std::os::unix::ffi::OsStrExt;
    let file = Temporary::new("settings-no-text", &[0]);
    let words = [OsStr::from_bytes(b"1\xff"), OsStr::new(file.path())];
    let printed = run_program(env!("CARGO_BIN_EXE_reference-settings"), &words);
    assert_eq!(printed, ("usage: settings VERSION FILE\n".into(), 2));
}

#[test]
fn the_programs_limit() {
    // No accepted file is near it.
    let mut bytes = file(&[[5, 1, 2]]);
    bytes.resize(65_536, 0);
    let longest = Temporary::new("settings-longest", &bytes);
    assert_eq!(run(&["5", longest.path()]), ("refused 60 4\n".into(), 0));
    bytes.push(0);
    let longer = Temporary::new("settings-too-long", &bytes);
    assert_eq!(run(&["5", longer.path()]), ("too long\n".into(), 0));
    assert_eq!(run(&["x", longer.path()]), ("usage: settings VERSION FILE\n".into(), 2));
    let vast = Temporary::new("settings-vast", &[0xff; 1_000_000]);
    assert_eq!(run(&["5", vast.path()]), ("too long\n".into(), 0));
}

#[test]
fn settings_are_plain_values() {
    let one = settings(&[1, 5, 1, 2]).unwrap();
    assert_eq!(one, Settings { rows: vec![row([5, 1, 2])] });
    assert_eq!(one.clone(), one);
}
