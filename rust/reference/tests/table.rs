//! The part table: refusals 1 to 9, the known names, parts by name, several private
//! parts, and gaps.

mod common;
use common::*;
use reference::{
    after_last_part, find, find_occurrence, known, may_repeat, table, table_part,
    table_part_occurrence, KNOWN, LONGEST,
};

fn name(number: usize) -> [u8; 4] {
    [b'P', b'0' + (number / 100) as u8, b'0' + (number / 10 % 10) as u8, b'0' + (number % 10) as u8]
}

/// A container of so many empty parts with different names.
fn many(count: usize) -> Vec<u8> {
    let names: Vec<[u8; 4]> = (0..count).map(name).collect();
    let parts: Vec<(&[u8; 4], &[u8])> = names.iter().map(|name| (name, &[][..])).collect();
    container(&parts)
}

/// Two parts of 4 and 3 bytes: headers at 40 and 52, 63 bytes in all.
fn two() -> Vec<u8> {
    let bytes = container(&[(b"DXIL", b"code"), (b"priv", b"xyz")]);
    assert_eq!(bytes.len(), 63);
    bytes
}

#[test]
fn too_short() {
    let bytes = container(&[]);
    assert_eq!(bytes.len(), 32);
    for length in 0..32 {
        assert_eq!(table(&bytes[..length]), refused(1, 0), "{length} bytes");
    }
    assert_eq!(table(&bytes), Ok(vec![]));
}

#[test]
fn too_long() {
    let mut bytes = container(&[(b"ABCD", b"")]);
    bytes.resize(LONGEST, 7);
    put4(&mut bytes, 24, LONGEST as u32);
    assert_eq!(table(&bytes), Ok(vec![part(b"ABCD", 36, 0, 0, 0)]));
    assert_eq!(after_last_part(&bytes).map(<[u8]>::len), Ok(16_777_172));
    bytes.push(7);
    put4(&mut bytes, 24, LONGEST as u32 + 1);
    assert_eq!(table(&bytes), refused(2, 0));
    bytes[0] = 0;
    assert_eq!(table(&bytes), refused(2, 0), "2 comes before 3");
}

#[test]
fn magic_and_version() {
    for at in 0..4 {
        let mut bytes = two();
        bytes[at] ^= 0x20;
        bytes[20] = 9;
        assert_eq!(table(&bytes), refused(3, 0), "magic byte {at}");
    }
    for (at, value) in [(20, 0), (20, 2), (21, 1), (22, 1), (23, 1)] {
        let mut bytes = two();
        bytes[at] = value;
        put4(&mut bytes, 24, 0);
        assert_eq!(table(&bytes), refused(4, 0), "byte {at} as {value}");
    }
}

#[test]
fn the_digest_is_not_judged() {
    let mut bytes = two();
    let before = table(&bytes);
    assert!(before.is_ok());
    for byte in &mut bytes[4..20] {
        *byte = !*byte;
    }
    assert_eq!(table(&bytes), before);
}

#[test]
fn file_size_field() {
    for stated in [0, 62, 64, 63 + 256, 63 | 1 << 31, u32::MAX] {
        let mut bytes = two();
        put4(&mut bytes, 24, stated);
        put4(&mut bytes, 28, 97);
        assert_eq!(table(&bytes), refused(5, 0), "stated {stated}");
    }
    let mut bytes = two();
    bytes.push(0);
    assert_eq!(table(&bytes), refused(5, 0));
    bytes.truncate(62);
    assert_eq!(table(&bytes), refused(5, 0));
}

#[test]
fn number_of_parts() {
    let parts = table(&many(96)).unwrap();
    assert_eq!(parts.len(), 96);
    for (i, entry) in parts.iter().enumerate() {
        assert_eq!(*entry, part(&name(i), 32 + 4 * 96 + 8 * i, 0, 0, 0));
    }
    assert_eq!(table(&many(97)), refused(6, 0));
    for count in [97, 1 << 30, u32::MAX] {
        let mut bytes = container(&[]);
        put4(&mut bytes, 28, count);
        assert_eq!(table(&bytes), refused(6, 0), "6 comes before 7, {count} parts");
    }
}

#[test]
fn offset_table_past_the_end() {
    let mut bytes = container(&[]);
    put4(&mut bytes, 28, 1);
    assert_eq!(table(&bytes), refused(7, 0));
    for length in 33..36 {
        bytes.resize(length, 0);
        put4(&mut bytes, 24, length as u32);
        assert_eq!(table(&bytes), refused(7, 0), "{length} bytes");
    }
    bytes.resize(36, 0);
    put4(&mut bytes, 24, 36);
    assert_eq!(table(&bytes), refused(8, 0), "the table fits, its part starts too early");
    put4(&mut bytes, 28, 96);
    assert_eq!(table(&bytes), refused(7, 0));
    let mut bytes = many(96);
    bytes.truncate(32 + 4 * 96 - 1);
    put4(&mut bytes, 24, 32 + 4 * 96 - 1);
    assert_eq!(table(&bytes), refused(7, 0));
}

#[test]
fn parts_that_start_too_early() {
    for offset in [0, 31, 32, 36, 39] {
        let mut bytes = two();
        put4(&mut bytes, 32, offset);
        assert_eq!(table(&bytes), refused(8, 0), "the first part at {offset}");
    }
    for offset in [0, 39, 40, 44, 48, 51] {
        let mut bytes = two();
        put4(&mut bytes, 36, offset);
        assert_eq!(table(&bytes), refused(8, 1), "the second part at {offset}");
    }
}

#[test]
fn parts_past_the_end() {
    // The header of the last part may end with the file.
    for (offset, expected) in [(55, true), (56, false), (62, false), (63, false)] {
        let mut bytes = two();
        put4(&mut bytes, 36, offset);
        if expected {
            put4(&mut bytes, offset as usize + 4, 0);
        }
        assert_eq!(table(&bytes).is_ok(), expected, "the second part at {offset}");
        if !expected {
            assert_eq!(table(&bytes), refused(8, 1));
        }
    }
    for offset in [u32::MAX, u32::MAX - 7, u32::MAX - 8] {
        let mut bytes = two();
        put4(&mut bytes, 32, offset);
        assert_eq!(table(&bytes), refused(8, 0), "the first part at {offset}");
    }
    for size in [4, 5, 1 << 31, u32::MAX - 59, u32::MAX] {
        let mut bytes = two();
        put4(&mut bytes, 56, size);
        assert_eq!(table(&bytes), refused(8, 1), "the second part's size {size}");
    }
    let mut bytes = two();
    put4(&mut bytes, 44, 16);
    assert_eq!(table(&bytes), refused(8, 0), "the data of the first pass the end");
    put4(&mut bytes, 44, 15);
    assert_eq!(table(&bytes), refused(8, 1), "they end with the file, the second overlaps");
    put4(&mut bytes, 44, 5);
    assert_eq!(table(&bytes), refused(8, 1), "an overlap of one byte");
}

#[test]
fn the_first_bad_part_is_named() {
    for bad in [0, 1, 47, 94, 95] {
        let mut bytes = many(96);
        for i in bad..96 {
            put4(&mut bytes, 32 + 4 * i, 3);
        }
        assert_eq!(table(&bytes), refused(8, bad));
    }
}

#[test]
fn gaps_and_alignment() {
    // A gap after the table, one between the parts, and one after the last.
    let mut bytes = vec![0xee; 80];
    bytes[..40].copy_from_slice(&container(&[(b"????", b""), (b"????", b"")])[..40]);
    put4(&mut bytes, 24, 80);
    put4(&mut bytes, 32, 41);
    put4(&mut bytes, 36, 59);
    bytes[41..45].copy_from_slice(b"AAAA");
    put4(&mut bytes, 45, 7);
    bytes[59..63].copy_from_slice(&[0, 255, b'\n', b' ']);
    put4(&mut bytes, 63, 2);
    let parts = table(&bytes).unwrap();
    assert_eq!(parts[0], part(b"AAAA", 41, 7, 0, 1));
    assert_eq!(parts[1], part(&[0, 255, b'\n', b' '], 59, 2, 0, 3));
    assert_eq!(parts[0].data(&bytes), &[0xee; 7]);
    assert_eq!(after_last_part(&bytes), Ok(&[0xee; 11][..]));
    // A part may start where the one before it ends.
    put4(&mut bytes, 45, 10);
    let parts = table(&bytes).unwrap();
    assert_eq!((parts[0].size, parts[0].gap, parts[1].gap), (10, 1, 0));
    put4(&mut bytes, 45, 11);
    assert_eq!(table(&bytes), refused(8, 1));
}

#[test]
fn names_twice() {
    let bytes = container(&[(b"AAAA", b""), (b"BBBB", b""), (b"CCCC", b""), (b"BBBB", b"x")]);
    assert_eq!(table(&bytes), refused(9, 3), "the later of the two");
    let bytes = container(&[(b"AAAA", b""), (b"BBBB", b""), (b"BBBB", b""), (b"AAAA", b"")]);
    assert_eq!(table(&bytes), refused(9, 2), "the first part whose name stood earlier");
    let bytes = container(&[(b"AAAA", b""), (b"AAAA", b""), (b"AAAA", b"")]);
    assert_eq!(table(&bytes), refused(9, 1));
    let bytes = container(&[(b"AAAA", b""), (b"aAAA", b""), (b"AAAa", b"")]);
    assert_eq!(table(&bytes).unwrap().len(), 3, "case tells names apart");
    let mut bytes = many(96);
    let first = 32 + 4 * 96;
    bytes.copy_within(first..first + 4, first + 8 * 95);
    assert_eq!(table(&bytes), refused(9, 95));
    // 8 is checked for all parts before 9 for any.
    let mut bytes = container(&[(b"AAAA", b""), (b"AAAA", b""), (b"CCCC", b"")]);
    put4(&mut bytes, 40, 0);
    assert_eq!(table(&bytes), refused(8, 2));
}

#[test]
fn order_of_refusals() {
    // Everything wrong at once, then mended in the order of the table.
    let mut bytes = container(&[(b"AAAA", b""), (b"AAAA", b"")]);
    let length = bytes.len() as u32;
    bytes[0] = b'd';
    bytes[20] = 2;
    put4(&mut bytes, 24, length + 1);
    put4(&mut bytes, 28, 97);
    put4(&mut bytes, 36, 1);
    assert_eq!(table(&bytes[..31]), refused(1, 0));
    assert_eq!(table(&bytes), refused(3, 0));
    bytes[0] = b'D';
    assert_eq!(table(&bytes), refused(4, 0));
    bytes[20] = 1;
    assert_eq!(table(&bytes), refused(5, 0));
    put4(&mut bytes, 24, length);
    assert_eq!(table(&bytes), refused(6, 0));
    put4(&mut bytes, 28, 96);
    assert_eq!(table(&bytes), refused(7, 0));
    put4(&mut bytes, 28, 2);
    assert_eq!(table(&bytes), refused(8, 1));
    put4(&mut bytes, 36, 48);
    assert_eq!(table(&bytes), refused(9, 1));
    bytes[48] = b'B';
    assert_eq!(table(&bytes).unwrap().len(), 2);
}

#[test]
fn known_names() {
    let list = "DXIL HASH ILDB ILDN ISG1 ISGN OSG1 OSG5 OSGN PCSG PDBI PRIV PSG1 PSV0 RDAT RDEF \
                RTS0 SFI0 SHDR SHEX DXBC SRCI STAT VERS";
    let mut count = 0;
    for name in list.split_whitespace() {
        assert!(known(name.as_bytes().try_into().unwrap()), "{name}");
        count += 1;
    }
    assert_eq!((count, KNOWN.len()), (24, 24));
    for name in [*b"dxil", *b"PSV1", *b"LIXD", [0; 4], *b"DXI\0", *b"HSAH", [255; 4]] {
        assert!(!known(name), "{name:?}");
    }
}

#[test]
fn parts_by_name() {
    let bytes = two();
    assert_eq!(table_part(&bytes, *b"DXIL"), Ok((0, &b"code"[..])));
    assert_eq!(table_part(&bytes, *b"priv"), Ok((1, &b"xyz"[..])));
    assert_eq!(table_part(&bytes, *b"PRIV"), refused(26, 0));
    assert_eq!(table_part(&bytes[..31], *b"DXIL"), refused(1, 0));
    let twice = container(&[(b"AAAA", b""), (b"AAAA", b"")]);
    assert_eq!(table_part(&twice, *b"BBBB"), refused(9, 1), "the table's refusal comes first");
    assert_eq!(table_part(&container(&[]), *b"DXIL"), refused(26, 0));
}

#[test]
fn the_names_that_may_repeat() {
    assert!(may_repeat(*b"PRIV"));
    for name in KNOWN.into_iter().filter(|name| name != b"PRIV") {
        assert!(!may_repeat(name), "{name:?}");
    }
    // Every name that one bit tells from it, and others near it.
    for bit in 0..32 {
        assert!(!may_repeat((u32::from_le_bytes(*b"PRIV") ^ 1 << bit).to_le_bytes()));
    }
    for name in [*b"priv", *b"VIRP", *b"PRI\0", *b"PRIv", [0; 4], [255; 4]] {
        assert!(!may_repeat(name), "{name:?}");
    }
}

#[test]
fn private_parts_repeat() {
    // Headers at 44, 56 and 65; 75 bytes in all.
    let bytes = container(&[(b"PRIV", b"note"), (b"PRIV", b"x"), (b"PRIV", b"yz")]);
    assert_eq!(bytes.len(), 75);
    let expected =
        [part(b"PRIV", 44, 4, 0, 0), part(b"PRIV", 56, 1, 1, 0), part(b"PRIV", 65, 2, 2, 0)];
    assert_eq!(table(&bytes).unwrap(), expected);
    // Among others, first, last and in a row.
    let bytes = container(&[
        (b"PRIV", b""),
        (b"DXIL", b""),
        (b"priv", b""),
        (b"PRIV", b""),
        (b"PRIV", b""),
        (b"PSV0", b""),
        (b"PRIV", b""),
    ]);
    let occurrences: Vec<u64> = table(&bytes).unwrap().iter().map(|part| part.occurrence).collect();
    assert_eq!(occurrences, [0, 0, 0, 1, 2, 0, 3]);
    // Equal data, too.
    let bytes = container(&[(b"PRIV", b"same"), (b"PRIV", b"same")]);
    assert_eq!(table(&bytes).unwrap().len(), 2);
}

#[test]
fn other_names_still_may_not() {
    type Names<'a> = &'a [&'a [u8; 4]];
    let cases: [(Names, usize); 16] = [
        (&[b"DXIL", b"DXIL"], 1),
        (&[b"PRIV", b"DXIL", b"DXIL"], 2),
        (&[b"PRIV", b"PRIV", b"DXIL", b"DXIL"], 3),
        (&[b"DXIL", b"PRIV", b"PRIV", b"PRIV", b"DXIL"], 4),
        (&[b"DXIL", b"DXIL", b"PRIV", b"PRIV"], 1),
        (&[b"DXIL", b"PRIV", b"DXIL", b"PRIV"], 2),
        (&[b"PRIV", b"DXIL", b"PRIV", b"PSV0", b"PRIV", b"PSV0", b"DXIL"], 5),
        (&[b"PRIV", b"DXIL", b"PRIV", b"PSV0", b"PRIV", b"DXIL", b"PSV0"], 5),
        // Names near it.
        (&[b"priv", b"priv"], 1),
        (&[b"PRI\0", b"PRI\0"], 1),
        (&[b"PRIV", b"priv", b"PRIV", b"priv"], 3),
        (&[b"PRI\0", b"PRIV", b"PRIV", b"PRI\0"], 3),
        (&[b"VIRP", b"PRIV", b"VIRP", b"PRIV"], 2),
        (&[b"PRIv", b"PRIV", b"PRIV", b"PRIv", b"PRIv"], 3),
        (&[b"\0\0\0\0", b"PRIV", b"PRIV", b"\0\0\0\0"], 3),
        (&[b"PRIV", b"PRIV", b"PRIV", b"PRIV", b"HASH", b"STAT", b"HASH", b"STAT"], 6),
    ];
    for (names, place) in cases {
        let parts: Vec<(&[u8; 4], &[u8])> = names.iter().map(|name| (*name, &b"x"[..])).collect();
        assert_eq!(table(&container(&parts)), refused(9, place), "{names:?}");
        assert_eq!(after_last_part(&container(&parts)), refused(9, place));
        // Without the part there and those after it nothing stood earlier.
        assert_eq!(table(&container(&parts[..place])).unwrap().len(), place);
    }
    // 8 is still checked for all parts before 9 for any.
    let mut bytes = container(&[
        (b"PRIV", b""),
        (b"DXIL", b""),
        (b"DXIL", b""),
        (b"PRIV", b""),
        (b"A\0\0A", b""),
    ]);
    assert_eq!(table(&bytes), refused(9, 2));
    put4(&mut bytes, 48, 0);
    assert_eq!(table(&bytes), refused(8, 4));
    put4(&mut bytes, 32, 51);
    assert_eq!(table(&bytes), refused(8, 0));
}

#[test]
fn most_private_parts() {
    let parts: Vec<(&[u8; 4], &[u8])> = vec![(b"PRIV", b"abc"); 97];
    let bytes = container(&parts[..96]);
    let entries = table(&bytes).unwrap();
    assert_eq!(entries.len(), 96);
    assert_eq!(entries[0], part(b"PRIV", 416, 3, 0, 0));
    assert_eq!(entries[1], part(b"PRIV", 427, 3, 1, 0));
    assert_eq!(entries[95], part(b"PRIV", 1461, 3, 95, 0));
    assert_eq!(bytes.len(), 1472);
    assert_eq!(table_part_occurrence(&bytes, *b"PRIV", 95), Ok((95, &b"abc"[..])));
    assert_eq!(table_part_occurrence(&bytes, *b"PRIV", 96), refused(26, 0));
    assert_eq!(table(&container(&parts)), refused(6, 0));
    assert_eq!(table_part_occurrence(&container(&parts), *b"PRIV", 0), refused(6, 0));
    // The last of 96 bears another name, and its own stood earlier.
    let mut others = parts[..96].to_vec();
    others[95].0 = b"DXIL";
    assert_eq!(table(&container(&others)).unwrap()[95], part(b"DXIL", 1461, 3, 0, 0));
    others[0].0 = b"DXIL";
    assert_eq!(table(&container(&others)), refused(9, 95));
    others[95].0 = b"PRIV";
    assert_eq!(table(&container(&others)).unwrap()[95].occurrence, 94);
}

#[test]
fn gaps_before_headers() {
    // The offset table ends at 52, the last part at 1,100 of 1,107 bytes.
    let bytes = gapped(
        &[
            (1, b"PRIV", b"a"),
            (0, b"DXIL", b""),
            (1000, b"PRIV", b""),
            (1, b"PRIV", b""),
            (0, b"PSV0", b"12345"),
        ],
        7,
    );
    assert_eq!(bytes.len(), 1107);
    let expected = [
        part(b"PRIV", 53, 1, 0, 1),
        part(b"DXIL", 62, 0, 0, 0),
        part(b"PRIV", 1070, 0, 1, 1000),
        part(b"PRIV", 1079, 0, 2, 1),
        part(b"PSV0", 1087, 5, 0, 0),
    ];
    assert_eq!(table(&bytes).unwrap(), expected);
    assert_eq!(after_last_part(&bytes), Ok(&[0xee; 7][..]));
    // 32, the offset table, gaps, headers, data, and what is left.
    assert_eq!(32 + 20 + (1 + 1000 + 1) + 5 * 8 + (1 + 5) + 7, 1107);
}

#[test]
fn the_gap_before_the_first_part() {
    // It is counted from 32 + 4n.
    for (gap, at) in [(0, 36), (1, 37), (4, 40), (60, 96)] {
        let bytes = gapped(&[(gap, b"PRIV", b"")], 0);
        assert_eq!(table(&bytes).unwrap(), [part(b"PRIV", at, 0, 0, gap)]);
        assert_eq!(after_last_part(&bytes), Ok(&[][..]));
    }
    let two = gapped(&[(3, b"AAAA", b"xy"), (2, b"BBBB", b"")], 1);
    assert_eq!(table(&two).unwrap(), [part(b"AAAA", 43, 2, 0, 3), part(b"BBBB", 55, 0, 0, 2)]);
    assert_eq!(after_last_part(&two), Ok(&[0xee][..]));
    let names: Vec<[u8; 4]> = (0..96).map(name).collect();
    let all: Vec<(usize, &[u8; 4], &[u8])> = names.iter().map(|name| (9, name, &[][..])).collect();
    let parts = table(&gapped(&all, 0)).unwrap();
    assert_eq!(parts[0], part(&name(0), 425, 0, 0, 9));
    assert_eq!(parts[95], part(&name(95), 425 + 95 * 17, 0, 0, 9));
    // The longest one that there is.
    let bytes = gapped(&[(16_777_172, b"PRIV", b"")], 0);
    assert_eq!(bytes.len(), LONGEST);
    assert_eq!(table(&bytes).unwrap(), [part(b"PRIV", 16_777_208, 0, 0, 16_777_172)]);
}

#[test]
fn no_part_and_bytes_after() {
    assert_eq!(after_last_part(&container(&[])), Ok(&[][..]));
    for after in [1, 4, 1000] {
        let bytes = gapped(&[], after);
        assert_eq!(bytes.len(), 32 + after);
        assert_eq!(table(&bytes), Ok(vec![]));
        assert_eq!(after_last_part(&bytes), Ok(&bytes[32..]));
        assert_eq!(table_part_occurrence(&bytes, *b"PRIV", 0), refused(26, 0));
    }
    // One part that has all bytes.
    let bytes = container(&[(b"PRIV", b"all of them")]);
    assert_eq!(after_last_part(&bytes), Ok(&[][..]));
    assert_eq!(after_last_part(&bytes[..31]), refused(1, 0));
    assert_eq!(after_last_part(&bytes[..32]), refused(5, 0));
}

#[test]
fn parts_by_name_and_occurrence() {
    let bytes = gapped(
        &[
            (0, b"DXIL", b"code"),
            (1, b"PRIV", b"first"),
            (5, b"PRIV", b"second"),
            (0, b"priv", b"small"),
            (0, b"PRIV", b""),
        ],
        3,
    );
    let of = |name, occurrence| table_part_occurrence(&bytes, name, occurrence);
    assert_eq!(of(*b"PRIV", 0), Ok((1, &b"first"[..])));
    assert_eq!(of(*b"PRIV", 1), Ok((2, &b"second"[..])));
    assert_eq!(of(*b"PRIV", 2), Ok((4, &b""[..])));
    assert_eq!(of(*b"DXIL", 0), Ok((0, &b"code"[..])));
    assert_eq!(of(*b"priv", 0), Ok((3, &b"small"[..])));
    assert_eq!(table_part(&bytes, *b"PRIV"), of(*b"PRIV", 0), "the first is meant");
    assert_eq!(table_part(&bytes, *b"DXIL"), of(*b"DXIL", 0));
    // Past the last, and such as would be right at 8, 16 or 32 bits.
    for more in [1 << 8, 1 << 16, 1 << 32, 1 << 63] {
        for low in 0..4 {
            assert_eq!(of(*b"PRIV", more + low), refused(26, 0));
        }
        assert_eq!(of(*b"DXIL", more), refused(26, 0));
    }
    assert_eq!(of(*b"PRIV", 3), refused(26, 0));
    assert_eq!(of(*b"PRIV", u64::MAX), refused(26, 0));
    for name in [*b"DXIL", *b"priv", *b"PSV0"] {
        assert_eq!(of(name, 1), refused(26, 0), "{name:?}");
        assert_eq!(of(name, u64::MAX), refused(26, 0), "{name:?}");
    }
    let parts = table(&bytes).unwrap();
    assert_eq!(find(&parts, *b"PRIV"), Some(1));
    assert_eq!(find_occurrence(&parts, *b"PRIV", 2), Some(4));
    assert_eq!(find_occurrence(&parts, *b"PRIV", 3), None);
    // The table's refusal comes first.
    let twice = container(&[(b"PRIV", b""), (b"DXIL", b""), (b"PRIV", b""), (b"DXIL", b"")]);
    for occurrence in [0, 1, 2, u64::MAX] {
        assert_eq!(table_part_occurrence(&twice, *b"PRIV", occurrence), refused(9, 3));
    }
    let mut bytes = bytes.clone();
    bytes[0] = b'd';
    assert_eq!(table_part_occurrence(&bytes, *b"PRIV", 9), refused(3, 0));
}

/// A made-up part: the gap before it, its name and its data.
type Made = (usize, [u8; 4], Vec<u8>);

/// So many parts, of which none, some or most are private; at times one of the
/// others has a name that stood earlier.
fn made_parts(random: &mut Random, count: usize) -> Vec<Made> {
    let private = random.pick(&[0, 2, 4, 7]);
    let repeats = random.one_in(3);
    (0..count)
        .map(|i| {
            let name = match random.below(8) {
                chance if chance < private => *b"PRIV",
                7 if repeats => random.pick(&[*b"priv", *b"PRI\0", *b"DXIL", name(0)]),
                _ => name(i),
            };
            let gap = random.pick(&[0, 0, 0, 1, 1, 2, 3, 4, 13, 257]);
            let size = random.pick(&[0, 0, 1, 3, 4, 8, 300]);
            (gap, name, random.bytes(size))
        })
        .collect()
}

#[test]
fn entries_lookups_and_sums_of_many_tables() {
    let mut random = Random(0x8a5e_11ed_0ff5_e701);
    let (mut accepted, mut refusals, mut several) = (0, 0, 0);
    for _ in 0..20_000 {
        let count = random.pick(&[0, 1, 2, 2, 3, 4, 5, 8, 13, 40, 96]);
        let made = made_parts(&mut random, count);
        let after = random.pick(&[0, 0, 1, 2, 5, 100]);
        let listed: Vec<(usize, &[u8; 4], &[u8])> =
            made.iter().map(|(gap, name, data)| (*gap, name, &data[..])).collect();
        let bytes = gapped(&listed, after);
        let answer = table(&bytes);

        let stood =
            |i: &usize| made[*i].1 != *b"PRIV" && made[..*i].iter().any(|m| m.1 == made[*i].1);
        if let Some(place) = (0..count).find(stood) {
            refusals += 1;
            assert_eq!(answer, refused(9, place));
            assert_eq!(after_last_part(&bytes), refused(9, place));
            assert_eq!(table_part_occurrence(&bytes, *b"PRIV", 0), refused(9, place));
            continue;
        }
        accepted += 1;
        let parts = answer.unwrap();
        let mut expected = Vec::new();
        let (mut privates, mut at) = (0, 32 + 4 * count);
        for (gap, name, data) in &made {
            let occurrence = if name == b"PRIV" { privates } else { 0 };
            privates += u64::from(name == b"PRIV");
            expected.push(part(name, at + gap, data.len(), occurrence, *gap));
            at += gap + 8 + data.len();
        }
        assert_eq!(parts, expected);
        several += usize::from(privates > 1);

        let rest = after_last_part(&bytes).unwrap();
        assert_eq!(rest, vec![0xee; after]);
        let taken: usize = parts.iter().map(|part| part.gap + 8 + part.size).sum();
        assert_eq!(32 + 4 * count + taken + rest.len(), bytes.len());

        for (i, (_, name, data)) in made.iter().enumerate() {
            let occurrence = parts[i].occurrence;
            let found = table_part_occurrence(&bytes, *name, occurrence);
            assert_eq!(found, Ok((i, &data[..])));
            if name != b"PRIV" {
                assert_eq!(table_part_occurrence(&bytes, *name, 1), refused(26, 0));
            }
        }
        for occurrence in [privates, privates + 1, u64::MAX] {
            assert_eq!(table_part_occurrence(&bytes, *b"PRIV", occurrence), refused(26, 0));
        }
    }
    assert!(accepted > 12_000 && refusals > 1_000, "{accepted} accepted, {refusals} refused");
    assert!(several > 6_000, "{several} with several private parts");
}
