//! How many pairs of names the table reader compares (request 12).

mod common;
use common::*;
use reference::{open, open_default, open_psv0, table, table_with_pairs, Refusal, LONGEST};
use std::collections::BTreeMap;

/// A name of its own for each number.
fn name(number: usize) -> [u8; 4] {
    [b'P', b'0' + (number / 100) as u8, b'0' + (number / 10 % 10) as u8, b'0' + (number % 10) as u8]
}

fn different(count: usize) -> Vec<[u8; 4]> {
    (0..count).map(name).collect()
}

/// A container of empty parts with these names.
fn of(names: &[[u8; 4]]) -> Vec<u8> {
    let parts: Vec<(&[u8; 4], &[u8])> = names.iter().map(|name| (name, &[][..])).collect();
    container(&parts)
}

/// Names in a row, four letters each, apart by blanks.
fn listed(names: &str) -> Vec<[u8; 4]> {
    names.split(' ').map(|name| name.as_bytes().try_into().expect("four letters")).collect()
}

/// How many parts there are, or the refusal, and beside it the pairs. What `table` gives
/// is the answer.
fn counted(bytes: &[u8]) -> (Result<usize, Refusal>, u64) {
    let (answer, pairs) = table_with_pairs(bytes);
    assert_eq!(table(bytes), answer);
    (answer.map(|parts| parts.len()), pairs)
}

/// The same by the request's words: all pairs, "for each part in turn, the earlier ones in
/// order", up to the first match that isn't a PRIV with a PRIV.
fn by_the_rule(names: &[[u8; 4]]) -> (Result<usize, Refusal>, u64) {
    let pairs: Vec<(usize, usize)> =
        (0..names.len()).flat_map(|k| (0..k).map(move |j| (k, j))).collect();
    let matches = |(k, j): &(usize, usize)| names[*k] == names[*j] && names[*k] != *b"PRIV";
    match pairs.iter().position(matches) {
        Some(i) => (refused(9, pairs[i].0), i as u64 + 1),
        None => (Ok(names.len()), pairs.len() as u64),
    }
}

#[test]
fn tables_that_pass() {
    for (count, pairs) in [(0, 0), (1, 0), (2, 1), (3, 3), (4, 6), (8, 28), (95, 4_465)] {
        assert_eq!(counted(&of(&different(count))), (Ok(count), pairs));
    }
    assert_eq!(counted(&of(&different(96))), (Ok(96), 4_560));
    for count in 1..=96 {
        let pairs = (count * (count - 1) / 2) as u64;
        assert_eq!(counted(&of(&different(count))), (Ok(count), pairs), "{count} parts");
    }
}

#[test]
fn a_match_at_every_distance() {
    for count in [2, 12, 96] {
        let mut before = 0;
        for k in 0..count {
            for j in 0..k {
                let mut names = different(count);
                names[k] = names[j];
                let expected = (k * (k - 1) / 2 + j + 1) as u64;
                assert_eq!(counted(&of(&names)), (refused(9, k), expected), "{j} and {k}");
                // Each match is met one pair later than the one before it.
                assert_eq!(expected, before + 1);
                before = expected;
            }
        }
        assert_eq!(before, (count * (count - 1) / 2) as u64);
    }
    // The first pair that there is, and the last.
    let mut names = different(96);
    names[1] = names[0];
    assert_eq!(counted(&of(&names)), (refused(9, 1), 1));
    let mut names = different(96);
    names[95] = names[94];
    assert_eq!(counted(&of(&names)), (refused(9, 95), 4_560));
}

#[test]
fn several_matches() {
    for (names, place, pairs) in [
        // The first part that has one, whichever it matches.
        ("AAAA AAAA AAAA AAAA", 1, 1),
        ("AAAA BBBB BBBB AAAA", 2, 3),
        ("AAAA BBBB AAAA BBBB", 2, 2),
        ("AAAA BBBB CCCC CCCC BBBB AAAA", 3, 6),
        ("AAAA BBBB CCCC AAAA BBBB CCCC", 3, 4),
        ("AAAA BBBB CCCC BBBB BBBB BBBB", 3, 5),
        ("AAAA BBBB CCCC DDDD EEEE CCCC DDDD EEEE", 5, 13),
        ("AAAA BBBB CCCC DDDD EEEE EEEE CCCC AAAA", 5, 15),
    ] {
        let names = listed(names);
        assert_eq!(counted(&of(&names)), (refused(9, place), pairs), "{names:?}");
        // Nothing after that part is counted: it may be gone, or anything.
        let mut others = names[..=place].to_vec();
        assert_eq!(counted(&of(&others)), (refused(9, place), pairs));
        others.extend(vec![names[place]; 20]);
        others.extend(different(40));
        assert_eq!(counted(&of(&others)), (refused(9, place), pairs));
        // Without it all pairs before it are.
        let expected = (place * (place - 1) / 2) as u64;
        assert_eq!(counted(&of(&names[..place])), (Ok(place), expected));
    }
}

#[test]
fn private_parts_count_and_do_not_stop_the_walk() {
    for (count, pairs) in [(1, 0), (2, 1), (3, 3), (8, 28), (95, 4_465), (96, 4_560)] {
        assert_eq!(counted(&of(&vec![*b"PRIV"; count])), (Ok(count), pairs));
    }
    assert_eq!(counted(&of(&listed("PRIV DXIL PRIV PRIV priv PRIV"))), (Ok(6), 15));
    // Two of 96, wherever they are.
    for k in 0..96 {
        for j in 0..k {
            let mut names = different(96);
            (names[j], names[k]) = (*b"PRIV", *b"PRIV");
            assert_eq!(counted(&of(&names)), (Ok(96), 4_560), "{j} and {k}");
        }
    }
}

#[test]
fn private_parts_around_a_match() {
    for (names, place, pairs) in [
        // Before both, between them, after both.
        ("PRIV DXIL DXIL", 2, 3),
        ("PRIV PRIV DXIL DXIL", 3, 6),
        ("PRIV PRIV PRIV DXIL DXIL", 4, 10),
        ("DXIL PRIV DXIL", 2, 2),
        ("DXIL PRIV PRIV DXIL", 3, 4),
        ("DXIL PRIV PRIV PRIV DXIL", 4, 7),
        ("DXIL DXIL PRIV PRIV", 1, 1),
        // In several of these places.
        ("PRIV DXIL PRIV DXIL PRIV", 3, 5),
        ("PRIV DXIL PRIV PSV0 PRIV PSV0 DXIL", 5, 14),
        ("PRIV DXIL PRIV PSV0 PRIV DXIL PSV0", 5, 12),
        ("PRIV PRIV HASH PRIV STAT PRIV PRIV STAT HASH", 7, 26),
        // Names near it stop the walk.
        ("priv priv", 1, 1),
        ("PRIV priv PRIV priv", 3, 5),
        ("VIRP PRIV PRIV VIRP PRIV", 3, 4),
        ("PRI\0 PRIV PRI\0 PRIV", 2, 2),
        ("PRIv PRIV PRIw PRIV PRIw", 4, 9),
    ] {
        let names = listed(names);
        assert_eq!(counted(&of(&names)), (refused(9, place), pairs), "{names:?}");
    }
    // A match at every distance, with a PRIV in every other place: its own matches don't
    // change where the walk ends.
    for k in 0..96 {
        for j in 0..k {
            let mut names = vec![*b"PRIV"; 96];
            (names[j], names[k]) = (*b"DXIL", *b"DXIL");
            let expected = (k * (k - 1) / 2 + j + 1) as u64;
            assert_eq!(counted(&of(&names)), (refused(9, k), expected), "{j} and {k}");
        }
    }
}

#[test]
fn every_short_list_of_names() {
    let names = [*b"PRIV", *b"DXIL", *b"PSV0", *b"priv"];
    let (mut accepted, mut refusals) = (0, 0);
    for count in 0..=7 {
        for number in 0..4_usize.pow(count) {
            let list: Vec<[u8; 4]> =
                (0..count).map(|i| names[number / 4_usize.pow(i) % 4]).collect();
            let expected = by_the_rule(&list);
            assert_eq!(counted(&of(&list)), expected, "{list:?}");
            *if expected.0.is_ok() { &mut accepted } else { &mut refusals } += 1;
        }
    }
    // Of n names those that aren't PRIV are different: with k of them, n over k times 1, 3,
    // 6 and 6 lists.
    assert_eq!((accepted, refusals), (8 + 3 * 28 + 6 * 56 + 6 * 70, 21_845 - 848));
}

/// Names that match at the first pair, in a table that is right.
fn alike(count: usize) -> Vec<u8> {
    let mut names = different(count);
    names[1] = names[0];
    let bytes = of(&names);
    assert_eq!(counted(&bytes), (refused(9, 1), 1));
    bytes
}

#[test]
fn none_beside_1_to_7() {
    // In tables that would pass, and in one that would give 9.
    for mut bytes in [of(&different(8)), alike(8), of(&[*b"PRIV"; 8])] {
        for length in [0, 1, 31] {
            assert_eq!(counted(&bytes[..length]), (refused(1, 0), 0));
        }
        let mut longer = bytes.clone();
        longer.resize(LONGEST, 0);
        put4(&mut longer, 24, LONGEST as u32);
        assert_eq!(counted(&longer), counted(&bytes));
        longer.push(0);
        put4(&mut longer, 24, LONGEST as u32 + 1);
        assert_eq!(counted(&longer), (refused(2, 0), 0));
        for at in 0..4 {
            bytes[at] ^= 0x20;
            assert_eq!(counted(&bytes), (refused(3, 0), 0));
            bytes[at] ^= 0x20;
        }
        for at in 20..24 {
            bytes[at] ^= 2;
            assert_eq!(counted(&bytes), (refused(4, 0), 0));
            bytes[at] ^= 2;
        }
        let length = bytes.len() as u32;
        for stated in [0, length - 1, length + 1, u32::MAX] {
            put4(&mut bytes, 24, stated);
            assert_eq!(counted(&bytes), (refused(5, 0), 0));
        }
        put4(&mut bytes, 24, length);
        for count in [97, 1 << 16, u32::MAX] {
            put4(&mut bytes, 28, count);
            assert_eq!(counted(&bytes), (refused(6, 0), 0));
        }
        for count in [96, 25] {
            put4(&mut bytes, 28, count);
            assert_eq!(counted(&bytes), (refused(7, 0), 0));
        }
        // The table has room for so many, but the parts stand in it.
        put4(&mut bytes, 28, 24);
        assert_eq!(counted(&bytes), (refused(8, 0), 0));
    }
    // 97 parts, whatever their names.
    assert_eq!(counted(&of(&different(97))), (refused(6, 0), 0));
    assert_eq!(counted(&of(&[*b"PRIV"; 97])), (refused(6, 0), 0));
    assert_eq!(counted(&of(&[*b"DXIL"; 97])), (refused(6, 0), 0));
}

#[test]
fn none_beside_8() {
    // At every part of 96, also after names that match, and by each of its reasons.
    for names in [different(96), vec![*b"PRIV"; 96], vec![*b"DXIL"; 96]] {
        let right = of(&names);
        let length = right.len() as u32;
        for i in 0..96 {
            let offset = 32 + 4 * 96 + 8 * i;
            for early in [0, offset as u32 - 1] {
                let mut bytes = right.clone();
                put4(&mut bytes, 32 + 4 * i, early);
                assert_eq!(counted(&bytes), (refused(8, i), 0), "part {i} at {early}");
            }
            for late in [length - 7, length, u32::MAX] {
                let mut bytes = right.clone();
                put4(&mut bytes, 32 + 4 * i, late);
                assert_eq!(counted(&bytes), (refused(8, i), 0), "part {i} at {late}");
            }
            for size in [length - offset as u32 - 7, u32::MAX] {
                let mut bytes = right.clone();
                put4(&mut bytes, offset + 4, size);
                assert_eq!(counted(&bytes), (refused(8, i), 0), "part {i} of {size} bytes");
            }
        }
    }
}

#[test]
fn an_8_with_an_equal_name() {
    // The part that is too long has a name that stood earlier: without the fault it is 9.
    for (names, place, pairs) in [
        ("AAAA AAAA", 1, 1),
        ("AAAA BBBB BBBB", 2, 3),
        ("PRIV AAAA PRIV BBBB AAAA", 4, 8),
        ("AAAA BBBB CCCC DDDD AAAA", 4, 7),
    ] {
        let mut bytes = of(&listed(names));
        assert_eq!(counted(&bytes), (refused(9, place), pairs), "{names}");
        let size = bytes.len() - 4;
        put4(&mut bytes, size, 1);
        assert_eq!(counted(&bytes), (refused(8, place), 0), "{names}");
        // Its header lies inside the data of the part before.
        put4(&mut bytes, size, 0);
        put4(&mut bytes, size - 8, 1);
        assert_eq!(counted(&bytes), (refused(8, place), 0), "{names}");
    }
    // A part between the two that match, and one after them.
    for (names, pairs) in [("AAAA BBBB AAAA", 2), ("AAAA AAAA BBBB", 1)] {
        let mut bytes = of(&listed(names));
        let bad = if pairs == 1 { 2 } else { 1 };
        assert_eq!(counted(&bytes), (refused(9, 3 - bad), pairs));
        put4(&mut bytes, 32 + 4 * bad, 3);
        assert_eq!(counted(&bytes), (refused(8, bad), 0));
    }
}

#[test]
fn one_check_after_another() {
    // Everything wrong at once, then mended in the order of the table.
    let mut bytes = of(&listed("PRIV AAAA PRIV AAAA BBBB"));
    let length = bytes.len() as u32;
    bytes[0] = b'd';
    bytes[20] = 2;
    put4(&mut bytes, 24, length + 1);
    put4(&mut bytes, 28, 97);
    put4(&mut bytes, 48, 1);
    assert_eq!(counted(&bytes[..31]), (refused(1, 0), 0));
    assert_eq!(counted(&bytes), (refused(3, 0), 0));
    bytes[0] = b'D';
    assert_eq!(counted(&bytes), (refused(4, 0), 0));
    bytes[20] = 1;
    assert_eq!(counted(&bytes), (refused(5, 0), 0));
    put4(&mut bytes, 24, length);
    assert_eq!(counted(&bytes), (refused(6, 0), 0));
    put4(&mut bytes, 28, 96);
    assert_eq!(counted(&bytes), (refused(7, 0), 0));
    put4(&mut bytes, 28, 5);
    assert_eq!(counted(&bytes), (refused(8, 4), 0));
    put4(&mut bytes, 48, 52 + 8 * 4);
    assert_eq!(counted(&bytes), (refused(9, 3), 5));
    bytes[52 + 8 * 3] = b'B';
    assert_eq!(counted(&bytes), (Ok(5), 10));
}

#[test]
fn what_an_opening_keeps() {
    let psv0 = box_c().bytes();
    let mut parts: Vec<(&[u8; 4], &[u8])> = vec![(b"DXIL", b"code"), (b"PSV0", &psv0)];
    assert_eq!(open_default(&container(&parts)).unwrap().pairs, 1);
    parts.extend([(b"PRIV", &b"one"[..]), (b"HASH", b""), (b"PRIV", b"two")]);
    let bytes = container(&parts);
    for edition in 0..=3 {
        let opening = open(&bytes, edition).unwrap();
        assert_eq!((opening.parts.len(), opening.pairs), (5, 10));
        // Looking a part up compares names, too, and isn't the table reader's.
        assert!(opening.part_occurrence(*b"PRIV", 1).is_ok());
        assert_eq!(opening.pairs, 10);
    }
    // There is no table where PSV0 data is opened alone.
    assert_eq!(open_psv0(&psv0, 3).unwrap().pairs, 0);
}

#[test]
fn the_rule_over_many_tables() {
    let mut random = Random(0x12a5_c0de_4560_0096);
    let mut reached: BTreeMap<u8, usize> = BTreeMap::new();
    let (mut accepted, mut several) = (0, 0);
    for _ in 0..40_000 {
        let count = random.pick(&[0, 1, 2, 3, 4, 5, 8, 13, 40, 96]);
        let private = random.pick(&[0, 2, 5]);
        // The fewer other names there are, the sooner two match.
        let others = random.pick(&[3, 20, 1_000, usize::MAX]);
        let names: Vec<[u8; 4]> = (0..count)
            .map(|i| match random.below(8) {
                chance if chance < private => *b"PRIV",
                _ if others == usize::MAX => name(i),
                _ => name(random.below(others)),
            })
            .collect();
        let data = random.bytes(9);
        let parts: Vec<(&[u8; 4], &[u8])> =
            names.iter().map(|name| (name, &data[..random.below(10)])).collect();
        let mut bytes = spread(&parts, || vec![0xee; random.pick(&[0, 0, 1, 4])]);
        // Neither gaps nor data are anything to it.
        assert_eq!(counted(&bytes), by_the_rule(&names));

        damage(&mut random, &mut bytes);
        let (answer, pairs) = table_with_pairs(&bytes);
        assert_eq!(table(&bytes), answer);
        match answer {
            Err(refusal) if refusal.number < 9 => {
                *reached.entry(refusal.number).or_default() += 1;
                assert_eq!(pairs, 0, "{refusal}");
                continue;
            }
            Err(refusal) => {
                *reached.entry(refusal.number).or_default() += 1;
                let k = refusal.place as u64;
                assert!(k * (k - 1) / 2 < pairs && pairs <= k * (k + 1) / 2);
            }
            Ok(parts) => {
                accepted += 1;
                several += usize::from(parts.iter().any(|part| part.occurrence > 0));
                let n = parts.len() as u64;
                assert_eq!(pairs, n * n.saturating_sub(1) / 2);
            }
        }
        // The names as they stand there now.
        let number = |at: usize| u32::from_le_bytes(bytes[at..at + 4].try_into().unwrap()) as usize;
        let names: Vec<[u8; 4]> = (0..number(28))
            .map(|i| number(32 + 4 * i))
            .map(|at| bytes[at..at + 4].try_into().unwrap())
            .collect();
        assert_eq!(counted(&bytes), by_the_rule(&names));
        assert!(pairs <= 4_560);
    }
    assert!(accepted > 10_000, "{accepted} accepted");
    assert!(several > 4_000, "{several} with several private parts");
    for number in [1, 3, 4, 5, 6, 7, 8, 9] {
        assert!(reached.contains_key(&number), "{number} in {reached:?}");
    }
    assert!(reached[&8] > 1_000 && reached[&9] > 5_000, "{reached:?}");
}
