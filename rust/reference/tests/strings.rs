//! Request 7, "Strings must be UTF-8": the table of well-formed sequences, in
//! element names (22), the entry name (24) and signature names (52), read and
//! written; the code points that lookups tell; the order of checks.

mod common;
use common::*;
use reference::{
    code_points, first_difference, inspect, open, open_psv0, plain, show, signature,
    signature_element, signature_report, write_psv0, Refusal, SignaturePart, Text,
};

/// PSV0 data of edition 3 with three elements, two inputs and one output, whose
/// names are at these places of the strings, and the entry name at the last.
fn named(strings: &[u8], names: [u32; 3], entry_name: u32) -> Psv0 {
    let mut psv0 = Psv0::of_size(52);
    psv0.runtime[28..30].copy_from_slice(&[2, 1]);
    put4(&mut psv0.runtime, 48, entry_name);
    psv0.strings = strings.to_vec();
    psv0.strings.resize(strings.len().next_multiple_of(4), 0);
    psv0.elements = names.iter().flat_map(|name| element(*name, 0, [0; 8])).collect();
    psv0
}

/// Data of a signature part whose elements have their names at these places of
/// the strings after them; none for no name.
fn signature_data(strings: &[u8], names: &[Option<u32>]) -> Vec<u8> {
    let start = 8 + 32 * names.len() as u32;
    let mut data = words(&[names.len() as u32, 8]);
    for name in names {
        data.extend(words(&[0, name.map_or(0, |name| start + name), 0, 0, 0, 0, 0, 0]));
    }
    data.extend_from_slice(strings);
    data
}

/// What the writer answers to the sections; a refusal leaves the output as it was.
fn written(psv0: &Psv0) -> Result<Vec<u8>, Refusal> {
    let mut out = vec![0x5a; psv0.bytes().len() + 3];
    let answer = write_psv0(
        3,
        &psv0.runtime,
        &psv0.resources,
        &psv0.strings,
        &words(&psv0.indices),
        &psv0.elements,
        &psv0.masks,
        &mut out,
    );
    match answer {
        Err(refusal) => {
            assert!(out.iter().all(|byte| *byte == 0x5a));
            Err(refusal)
        }
        Ok(length) => {
            out.truncate(length);
            Ok(out)
        }
    }
}

/// What one of three elements, asked for by its name, the entry name and one of
/// three signature elements come to where their reference leads to `at`.
fn lookups(
    strings: &[u8],
    at: u32,
    mut is: impl FnMut(Result<Text, Refusal>, Result<Text, Refusal>, Result<Text, Refusal>),
) {
    // An empty string at the end, for the others.
    let mut strings = strings.to_vec();
    strings.resize(strings.len().next_multiple_of(4) + 4, 0);
    let empty = strings.len() as u32 - 1;

    let elements = named(&strings, [empty, at, empty], empty);
    let data = elements.bytes();
    let bytes = shader(&data);
    let by = |edition: usize| open(&bytes, edition).and_then(|opening| opening.string(1));
    assert_eq!(by(0), refused(26, 0), "what isn't read isn't judged");
    for edition in 1..=3 {
        assert_eq!(by(edition), by(1));
        assert_eq!(open_psv0(&data, edition).and_then(|alone| alone.string(1)), by(1));
        // The small program names edition 1.
        let answer = answer(by(1)).map_or_else(|r| r.to_string(), |()| "accepted 3 2".into());
        assert!(inspect(&bytes).starts_with(answer.as_bytes()));
    }
    assert_eq!(answer(written(&elements)), answer(by(1)));
    assert_eq!(plain(&data), by(1).is_ok());

    let entry = named(&strings, [empty; 3], at);
    let entry_data = entry.bytes();
    let entry_bytes = shader(&entry_data);
    let entry_by = |edition| open(&entry_bytes, edition).and_then(|opening| opening.entry_name());
    for edition in 0..3 {
        assert_eq!(entry_by(edition), refused(26, 0), "unset, and its string not judged");
    }
    assert_eq!(open_psv0(&entry_data, 3).and_then(|alone| alone.entry_name()), entry_by(3));
    assert!(inspect(&entry_bytes).starts_with(b"accepted 3 2\n"));
    assert_eq!(answer(written(&entry)), answer(entry_by(3)));
    assert_eq!(plain(&entry_data), entry_by(3).is_ok());

    let data = signature_data(&strings, &[Some(empty), Some(at), None]);
    let alone = signature(&data).and_then(|read| read.name(1));
    let psv0 = box_c().bytes();
    let (code, psv0) = ((b"DXIL", &b"code"[..]), (b"PSV0", &psv0[..]));
    let bytes = container(&[code, (b"PSG1", &data), psv0, (b"OSG1", &data), (b"ISG1", &data)]);
    for part in SignaturePart::ALL {
        for edition in 0..=3 {
            let report = signature_report(&bytes, edition, part);
            assert_eq!(report.and_then(|read| read.name(1)), alone);
            let difference = answer(first_difference(&bytes, edition, part));
            assert_eq!(difference, answer(alone));
        }
    }
    let element = signature_element(&data, 1);
    assert_eq!(element.map(|element| element.name.expect("it has one")), alone);
    assert_eq!(signature_element(&data, 0).unwrap().name, Some(text(b"")));
    assert_eq!(signature_element(&data, 2).unwrap().name, None);
    is(by(1), entry_by(3), alone);
}

/// The bytes are good as each kind of string, with so many code points.
fn good(bytes: &[u8], points: usize) {
    assert_eq!(code_points(bytes), Some(points), "{bytes:x?}");
    let mut strings = bytes.to_vec();
    strings.push(0);
    lookups(&strings, 0, |element, entry, signature| {
        let expected = Ok(Text { bytes, points });
        assert_eq!((element, entry, signature), (expected, expected, expected));
    });
}

/// The reference is good by all but this request, and refused as each kind of string.
fn bad_at(strings: &[u8], at: u32) {
    lookups(strings, at, |element, entry, signature| {
        let expected = (refused(22, 1), refused(24, 0), refused(52, 1));
        assert_eq!((element, entry, signature), expected, "{strings:x?} at {at}");
    });
}

/// The bytes are bad as each kind of string, with letters around them too.
fn bad(bytes: &[u8]) {
    assert_eq!(code_points(bytes), None, "{bytes:x?}");
    for (before, after) in [("", ""), ("main", ""), ("", "main"), ("\u{e9}", "\u{20ac}")] {
        let strings = [before.as_bytes(), bytes, after.as_bytes(), b"\0"].concat();
        bad_at(&strings, 0);
    }
}

/// The bytes are what the standard library says they are.
fn as_elsewhere(bytes: &[u8]) -> bool {
    match std::str::from_utf8(bytes) {
        Ok(text) => good(bytes, text.chars().count()),
        Err(_) => bad(bytes),
    }
    std::str::from_utf8(bytes).is_ok()
}

/// Sequences with each byte at one of the two ends of its range in the row.
fn ends(row: &[std::ops::RangeInclusive<u8>]) -> Vec<Vec<u8>> {
    row.iter().fold(vec![Vec::new()], |fronts, range| {
        let with = |front: &Vec<u8>, byte: u8| [&front[..], &[byte]].concat();
        let ends = [*range.start(), *range.end()];
        fronts.iter().flat_map(|front| ends.map(|end| with(front, end))).collect()
    })
}

#[test]
fn every_row_at_both_ends() {
    for row in ROWS {
        for bytes in ends(row) {
            // A zero ends a string, and is a code point elsewhere.
            if bytes == [0] {
                assert_eq!(code_points(&bytes), Some(1));
                continue;
            }
            good(&bytes, 1);
            good(&bytes.repeat(3), 3);
            good(&[b"a", &bytes[..], b"bc"].concat(), 4);
        }
    }
    good(b"\x01", 1);
}

#[test]
fn one_past_each_end() {
    let mut other_rows = 0;
    for row in ROWS {
        for bytes in ends(row) {
            for (at, range) in row.iter().enumerate() {
                let past = [range.start().checked_sub(1), range.end().checked_add(1)];
                for byte in past.into_iter().flatten() {
                    let mut bytes = bytes.clone();
                    bytes[at] = byte;
                    if bytes.contains(&0) {
                        continue;
                    }
                    let good = as_elsewhere(&bytes);
                    // Another first byte may be the neighbour row's.
                    assert!(!good || at == 0, "{bytes:x?}");
                    other_rows += usize::from(good);
                }
            }
        }
    }
    // E0 to E1, E1 to E0, EC to ED, ED to EC and EE, EE to ED, F0 to F1, F1 to
    // F0, F3 to F4, F4 to F3: that first byte with its old second and later ones.
    assert!(other_rows > 40, "{other_rows} of another row");
}

#[test]
fn ill_formed() {
    for bytes in ILL_FORMED {
        bad(bytes);
    }
    good(b"", 0);
}

#[test]
fn cut_sequences() {
    for row in &ROWS[1..] {
        for bytes in ends(row) {
            for length in 1..bytes.len() {
                bad(&bytes[..length]);
                bad(&[b"name", &bytes[..length]].concat());
                bad(&[&bytes[..length], &bytes].concat());
            }
        }
    }
}

#[test]
fn into_the_middle_of_a_sequence() {
    for row in &ROWS[1..] {
        for bytes in ends(row) {
            let strings = [b"ab", &bytes[..], b"c\0"].concat();
            for at in 0..strings.len() {
                if (3..2 + bytes.len()).contains(&at) {
                    bad_at(&strings, at as u32);
                    continue;
                }
                let expected = Ok(text(&strings[at..strings.len() - 1]));
                lookups(&strings, at as u32, |element, entry, signature| {
                    assert_eq!((element, entry, signature), (expected, expected, expected));
                });
            }
        }
    }
}

#[test]
fn only_what_a_reference_leads_to() {
    // From the reference on, up to its zero.
    for ill in ILL_FORMED {
        let strings = [ill, b"\0main\0", ill, b"\0"].concat();
        let at = ill.len() as u32 + 1;
        lookups(&strings, at, |element, entry, signature| {
            let expected = Ok(text(b"main"));
            assert_eq!((element, entry, signature), (expected, expected, expected));
        });
        bad_at(&strings, 0);
        bad_at(&strings, at + 5);
    }
    // The fault is before the reference, in the same string.
    bad_at(b"\xff\xc3\xa9\0", 0);
    lookups(b"\xff\xc3\xa9\0", 1, |element, entry, signature| {
        let expected = Ok(Text { bytes: b"\xc3\xa9", points: 1 });
        assert_eq!((element, entry, signature), (expected, expected, expected));
    });
    // Bytes after the last zero, which no reference leads to.
    let psv0 = named(b"A\0\xff\xff", [0, 0, 1], 0);
    assert_eq!(open_psv0(&psv0.bytes(), 3).unwrap().string(1), Ok(text(b"A")));
    let data = signature_data(b"A\0\xff", &[Some(0), Some(1)]);
    assert_eq!(signature(&data).unwrap().name(0), Ok(text(b"A")));
    // No names at all.
    assert_eq!(answer(signature(&signature_data(b"\xff\0\xff", &[None, None]))), Ok(()));
    // An offset of 0 is no name, also where the count isn't well formed.
    for count in [0x80, 0xc3, 0xff, 0x1ff] {
        let data = signature_data(b"A\0", &vec![None; count]);
        assert_eq!(signature(&data).unwrap().name(count - 1), refused(26, 0));
        assert_eq!(signature_element(&data, 0).unwrap().name, None);
    }
}

#[test]
fn every_code_point() {
    let mut buffer = [0; 4];
    for point in 0..=0x10_ffff {
        if let Some(letter) = char::from_u32(point) {
            assert_eq!(code_points(letter.encode_utf8(&mut buffer).as_bytes()), Some(1));
        } else {
            let last = 0x80 | (point & 0x3f) as u8;
            let surrogate = [0xed, 0x80 | (point >> 6 & 0x3f) as u8, last];
            assert_eq!(code_points(&surrogate), None, "U+{point:04X}");
        }
    }
    // Above the last, in the form they would have.
    for point in 0x11_0000..0x20_0000u32 {
        let tail = |shift: u32| 0x80 | (point >> shift & 0x3f) as u8;
        let bytes = [0xf0 | (point >> 18) as u8, tail(12), tail(6), tail(0)];
        assert_eq!(code_points(&bytes), None, "{point:x}");
    }
}

#[test]
fn noncharacters_and_the_byte_order_mark() {
    let mut all = String::new();
    let planes = (0..=16).flat_map(|plane| [plane << 16 | 0xfffe, plane << 16 | 0xffff]);
    // Private use and unassigned ones, too.
    for point in planes.chain(0xfdd0..=0xfdef).chain([0xfeff, 0xe000, 0xf_0000, 0x378]) {
        let letter = char::from_u32(point).expect("it is no surrogate");
        good(letter.to_string().as_bytes(), 1);
        all.push(letter);
    }
    good(all.as_bytes(), 34 + 32 + 4);
    good("\u{feff}main".as_bytes(), 5);
    good("main\u{feff}\u{feff}".as_bytes(), 6);
    // What looks like one letter may be several points: a joined one, a flag, é.
    good("\u{1f469}\u{200d}\u{1f680}".as_bytes(), 3);
    good("\u{1f1f5}\u{1f1ea}e\u{301}".as_bytes(), 4);
}

/// The count is the standard library's, or neither takes the bytes.
fn same_count(bytes: &[u8]) {
    let elsewhere = std::str::from_utf8(bytes).ok().map(|text| text.chars().count());
    assert_eq!(code_points(bytes), elsewhere, "{bytes:x?}");
}

#[test]
fn all_short_strings() {
    same_count(&[]);
    for number in 0..1u32 << 24 {
        let bytes = number.to_be_bytes();
        same_count(&bytes[1..]);
        if number < 1 << 16 {
            same_count(&bytes[2..]);
        }
        if number < 1 << 8 {
            same_count(&bytes[3..]);
        }
    }
}

#[test]
fn strings_of_four_bytes() {
    // All first and second bytes, with third and fourth ones around every end.
    let edges = [0, 0x41, 0x7f, 0x80, 0x8f, 0x90, 0xa0, 0xbf, 0xc0, 0xc2, 0xe0, 0xf0, 0xff];
    for front in 0..=0xffff_u16 {
        let [first, second] = front.to_be_bytes();
        for third in edges {
            for fourth in edges {
                same_count(&[first, second, third, fourth]);
            }
        }
    }
}

#[test]
fn any_bytes() {
    let mut random = Random(0x07f8_07f8_1234_4321);
    let mut counts = [0; 2];
    for _ in 0..20_000 {
        let length = 4 + 4 * random.below(6);
        let table = strings(&mut random, length, b"ab");
        let at = random.below(table.len());
        let end = at + table[at..].iter().position(|byte| *byte == 0).expect("the last is one");
        let name = &table[at..end];
        same_count(name);
        match std::str::from_utf8(name) {
            Err(_) => bad_at(&table, at as u32),
            Ok(_) => lookups(&table, at as u32, |element, entry, signature| {
                let expected = Ok(text(name));
                assert_eq!((element, entry, signature), (expected, expected, expected));
            }),
        }
        counts[usize::from(std::str::from_utf8(name).is_ok())] += 1;
    }
    assert!(counts.iter().all(|count| *count > 2_000), "{counts:?}");
}

#[test]
fn the_order_of_22_23_and_24() {
    // An ill-formed string at 0, one without a zero at 8, a good one at 4.
    let strings = b"\xc3ab\0abc\0\xff\xff\xff\xff";
    let good = 4;
    for bad in [0, 8, 12, u32::MAX] {
        let is = |names: [u32; 3], indices: [u32; 3], entry_name: u32, number, place| {
            let mut psv0 = named(strings, names, entry_name);
            for (e, i) in indices.iter().enumerate() {
                put4(&mut psv0.elements, 16 * e + 4, *i);
            }
            for edition in 1..=3 {
                let expected = match number {
                    24 if edition < 3 => Ok(()),
                    _ => refused(number, place),
                };
                assert_eq!(answer(open_psv0(&psv0.bytes(), edition)), expected);
            }
            assert_eq!(written(&psv0), refused(number, place));
        };
        // Element by element, 22 first.
        is([bad, good, good], [9, 0, 0], good, 22, 0);
        is([good, bad, good], [0, 9, 9], good, 22, 1);
        is([good, bad, bad], [9, 0, 0], good, 23, 0);
        is([good, good, bad], [0, 9, 0], good, 23, 1);
        is([good, bad, bad], [0, 0, 0], good, 22, 1);
        is([good, good, bad], [0, 0, 0], good, 22, 2);
        // Then 24.
        is([good, good, bad], [0, 0, 0], bad, 22, 2);
        is([good, good, good], [0, 0, 9], bad, 23, 2);
        is([good, good, good], [0, 0, 0], bad, 24, 0);
    }
    // One that is good by its place and one that isn't: the first counts.
    for names in [[0, u32::MAX, 4], [u32::MAX, 0, 4]] {
        let psv0 = named(strings, names, good);
        assert_eq!(answer(open_psv0(&psv0.bytes(), 1)), refused(22, 0));
    }
}

#[test]
fn the_order_of_45_and_52() {
    // Ill formed at 0, good at 3, without a zero at 8 (and ill formed) and 9.
    let strings = b"\xc3a\0abc\0\0\xffx";
    let (ill, fine, open_end) = (Some(0), Some(3), Some(8));
    let is = |names: &[Option<u32>], number, place| {
        assert_eq!(signature(&signature_data(strings, names)), refused(number, place));
    };
    for past in [open_end, Some(9), Some(10), Some(1 << 30)] {
        is(&[past], 45, 0);
        // The earlier element's counts, whichever it is.
        is(&[ill, past], 52, 0);
        is(&[past, ill], 45, 0);
        is(&[fine, None, ill, past], 52, 2);
        is(&[None, fine, past, ill, ill], 45, 2);
        is(&[fine, ill, past, ill], 52, 1);
    }
    for first in 0..5 {
        let mut names = [fine; 5];
        names[first..].fill(ill);
        is(&names, 52, first);
        let mut names = [None; 5];
        names[first] = ill;
        is(&names, 52, first);
        // By itself each is judged alone.
        let data = signature_data(strings, &names);
        for i in 0..5 {
            let expected = if i == first { refused(52, i) } else { Ok(()) };
            assert_eq!(answer(signature_element(&data, i)), expected);
        }
    }
    // 44 before both.
    let mut data = signature_data(strings, &[ill, open_end]);
    put4(&mut data, 0, 3);
    assert_eq!(signature(&data), refused(44, 0));
    assert_eq!(signature_element(&data, 0), refused(52, 0));
    assert_eq!(signature_element(&data, 1), refused(45, 1));
    assert_eq!(signature_element(&data, 3), refused(26, 0));
}

#[test]
fn refusals_of_opening_come_before_52() {
    let data = signature_data(b"\xff\0", &[Some(0)]);
    let by = |psv0: &Psv0, edition| {
        let psv0 = psv0.bytes();
        let bytes = container(&[(b"ISG1", &data), (b"DXIL", b"code"), (b"PSV0", &psv0)]);
        let report = answer(signature_report(&bytes, edition, SignaturePart::Input));
        assert_eq!(answer(first_difference(&bytes, edition, SignaturePart::Input)), report);
        report
    };
    let mut psv0 = named(b"\0\xff\0\0", [0, 1, 0], 1);
    assert_eq!(by(&psv0, 4), refused(25, 0));
    assert_eq!(by(&psv0, 3), refused(22, 1));
    assert_eq!(by(&psv0, 0), refused(52, 0));
    psv0.elements[16] = 0;
    assert_eq!(by(&psv0, 3), refused(24, 0));
    assert_eq!(by(&psv0, 2), refused(52, 0));
}

#[test]
fn the_writer() {
    let mut psv0 = named("\0m\u{e4}in\0\u{1d11e}\0".as_bytes(), [1, 7, 0], 1);
    let data = written(&psv0).unwrap();
    assert_eq!(data, psv0.bytes());
    let opening = open_psv0(&data, 3).unwrap();
    assert_eq!(opening.entry_name(), Ok(Text { bytes: "m\u{e4}in".as_bytes(), points: 4 }));
    assert_eq!(opening.string(1), Ok(Text { bytes: "\u{1d11e}".as_bytes(), points: 1 }));
    // 28 comes after them.
    let short = |psv0: &Psv0| {
        let mut out = [0x5a; 3];
        let answer = write_psv0(
            3,
            &psv0.runtime,
            &psv0.resources,
            &psv0.strings,
            &[],
            &psv0.elements,
            &psv0.masks,
            &mut out,
        );
        assert_eq!(out, [0x5a; 3]);
        answer
    };
    assert_eq!(short(&psv0), refused(28, 0));
    psv0.runtime[48] = 3;
    assert_eq!(written(&psv0), refused(24, 0));
    assert_eq!(short(&psv0), refused(24, 0));
    psv0.elements[16] = 8;
    assert_eq!(written(&psv0), refused(22, 1));
    assert_eq!(short(&psv0), refused(22, 1));
    // 16 and 27 come before them.
    psv0.runtime[25] = 2;
    assert_eq!(written(&psv0), refused(16, 0));
    psv0.strings.pop();
    assert_eq!(written(&psv0), refused(27, 0));
}

#[test]
fn lookups_and_show_tell_the_points() {
    let strings = "\u{e9}t\u{e9}\0\u{20ac}\0".as_bytes();
    let psv0 = named(strings, [0, 6, 2], 0).bytes();
    let names = signature_data(strings, &[Some(0), Some(6), None, Some(5)]);
    let bytes = container(&[(b"DXIL", b"code"), (b"PSV0", &psv0), (b"ISG1", &names)]);
    let opening = open(&bytes, 3).unwrap();
    let points = |answer: Result<Text, Refusal>| answer.map(|text| text.points);
    assert_eq!(points(opening.entry_name()), Ok(3));
    assert_eq!([0, 1, 2].map(|i| points(opening.string(i))), [Ok(3), Ok(1), Ok(2)]);
    let text = show(&bytes, 3);
    for line in [
        r#"entry_name "\xc3\xa9t\xc3\xa9" points 3"#,
        r#"element 0 name "\xc3\xa9t\xc3\xa9" points 3 indices []"#,
        r#"element 1 name "\xe2\x82\xac" points 1 indices []"#,
        r#"element 2 name "t\xc3\xa9" points 2 indices []"#,
        r#"signature ISG1 0 name "\xc3\xa9t\xc3\xa9" points 3 name_offset 136 index 0"#,
        r#"signature ISG1 1 name "\xe2\x82\xac" points 1 name_offset 142 index 0"#,
        r#"signature ISG1 2 name unset name_offset 0 index 0"#,
        r#"signature ISG1 3 name "" points 0 name_offset 141 index 0"#,
    ] {
        assert!(text.contains(&format!("\n{line}")), "{line}");
    }
    // Unset where the string is: no points.
    for edition in 0..3 {
        assert_eq!(open(&bytes, edition).unwrap().entry_name(), refused(26, 0));
        assert!(show(&bytes, edition).contains("\nentry_name unset\n"));
    }
    assert_eq!(open(&bytes, 0).unwrap().string(0), refused(26, 0));
    // Refusals.
    let bad = signature_data(b"\0\xc3\0", &[Some(0), Some(1)]);
    let bytes = container(&[(b"DXIL", b"code"), (b"PSV0", &psv0), (b"OSG1", &bad)]);
    assert!(show(&bytes, 3).contains("\nsignature OSG1 refused 52 1\n"));
    let psv0 = named(strings, [0, 6, 1], 1).bytes();
    assert_eq!(show(&shader(&psv0), 3), "refused 22 2\n");
    let psv0 = named(strings, [0, 6, 2], 1).bytes();
    assert_eq!(show(&shader(&psv0), 3), "refused 24 0\n");
}

#[test]
fn names_compared_with_psv0s() {
    // A composed and a decomposed é are different bytes.
    let strings = "\u{e9}\0e\u{301}\0".as_bytes();
    for (name, expected) in [(0, None), (3, Some(0))] {
        let psv0 = named(strings, [0, 0, 3], 0).bytes();
        let data = signature_data(strings, &[Some(name)]);
        let bytes = container(&[(b"DXIL", b"code"), (b"PSV0", &psv0), (b"ISG1", &data)]);
        assert_eq!(first_difference(&bytes, 3, SignaturePart::Input), Ok(expected));
    }
}

#[test]
fn long_strings_shared_by_many() {
    // 262,144 names, each at another place of 8 MB of text.
    let text = "\u{1d11e}\u{20ac}\u{e9}a".repeat((8 << 20) / 10);
    let starts: Vec<u32> = text.char_indices().map(|(at, _)| at as u32).collect();
    let mut strings = text.clone().into_bytes();
    strings.push(0);
    let count = 262_144;
    let names: Vec<Option<u32>> = starts[..count].iter().copied().map(Some).collect();
    let mut data = signature_data(&strings, &names);
    let read = signature(&data).unwrap();
    for i in [0, 1, 1000, count - 1] {
        assert_eq!(read.name(i).unwrap().points, starts.len() - i);
    }
    // The last letter is at fault for all; then the first of the first alone.
    let length = data.len();
    data[length - 2] = 0x80;
    assert_eq!(signature(&data), refused(52, 0));
    data[length - 2] = b'a';
    data[8 + 32 * count] = 0xff;
    assert_eq!(signature(&data), refused(52, 0));
    assert_eq!(answer(signature_element(&data, 1)), Ok(()));

    // As many elements as there can be, in the longest table.
    let mut psv0 = Psv0::of_size(52);
    psv0.runtime[28..31].fill(255);
    psv0.strings = "\u{20ac}".repeat(5_000_000).into_bytes();
    psv0.strings.resize(15_000_004, 0);
    psv0.elements = (0..765).flat_map(|e| element(3 * e, 0, [0; 8])).collect();
    assert_eq!(open_psv0(&psv0.bytes(), 3).unwrap().string(764).unwrap().points, 5_000_000 - 764);
    put4(&mut psv0.elements, 16 * 764, 4);
    assert_eq!(answer(open_psv0(&psv0.bytes(), 3)), refused(22, 764));
    psv0.strings[14_999_999] = b'a';
    assert_eq!(answer(open_psv0(&psv0.bytes(), 3)), refused(22, 0));
}
