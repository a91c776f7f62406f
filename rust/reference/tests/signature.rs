//! The signature parts: refusals 43 to 45 and 52, fields, names, an element by itself,
//! the report on a container, and the names beside those of PSV0.

mod common;
use common::*;
use reference::{
    first_difference, open, signature, signature_element, signature_report, table_part,
    SignatureElement, SignaturePart,
};
use std::collections::BTreeMap;
use std::path::Path;

const PARTS: [SignaturePart; 3] = SignaturePart::ALL;

/// An element with the name offset; its other fields differ from one another.
fn record(name: u32) -> Vec<u8> {
    let mut record = words(&[1, name, 3, 4, 5, 6]);
    record.extend_from_slice(&[7, 8, 0xc3, 0xa9]);
    record.extend(words(&[9]));
    record
}

/// Data with a header of count and offset, and then any bytes.
fn data(count: u32, offset: u32, rest: &[u8]) -> Vec<u8> {
    let mut data = words(&[count, offset]);
    data.extend_from_slice(rest);
    data
}

/// Data with elements of these name offsets right after the header, and then
/// the strings.
fn named(names: &[u32], strings: &[u8]) -> Vec<u8> {
    let mut rest: Vec<u8> = names.iter().flat_map(|name| record(*name)).collect();
    rest.extend_from_slice(strings);
    data(names.len() as u32, 8, &rest)
}

/// Data whose elements have these names, or none.
fn with_names(names: &[Option<&[u8]>]) -> Vec<u8> {
    let mut offsets = Vec::new();
    let mut strings = Vec::new();
    for name in names {
        offsets.push(0);
        if let Some(name) = name {
            offsets.pop();
            offsets.push((8 + 32 * names.len() + strings.len()) as u32);
            strings.extend_from_slice(name);
            strings.push(0);
        }
    }
    named(&offsets, &strings)
}

/// A container that opens, with the data as each of the three parts.
fn with(data: &[u8], psv0: &Psv0) -> Vec<u8> {
    let psv0 = psv0.bytes();
    container(&[
        (b"DXIL", b"code"),
        (b"ISG1", data),
        (b"PSV0", &psv0),
        (b"PSG1", data),
        (b"OSG1", data),
    ])
}

/// The refusal is the same alone and in a container, which still opens.
fn refuses(data: &[u8], number: u8, place: usize) {
    assert_eq!(signature(data), refused(number, place), "alone");
    let bytes = with(data, &box_c());
    for edition in 0..=3 {
        assert_eq!(answer(open(&bytes, edition)), Ok(()));
        for part in PARTS {
            assert_eq!(signature_report(&bytes, edition, part), refused(number, place));
            assert_eq!(first_difference(&bytes, edition, part), refused(number, place));
        }
    }
}

/// Accepted, alone and in a container, with these names; each element is the
/// same by itself.
fn accepts(data: &[u8], names: &[Option<&[u8]>]) {
    let alone = signature(data).expect("accepted alone");
    assert_eq!(alone.count, names.len());
    for (i, name) in names.iter().enumerate() {
        let element = alone.element(i).unwrap();
        assert_eq!(element.name, name.map(text), "element {i}");
        assert_eq!(alone.name(i), name.map_or(refused(26, 0), |name| Ok(text(name))));
        assert_eq!(signature_element(data, i), Ok(element));
        if let Some(name) = name {
            let view = data[element.name_offset as usize..].as_ptr();
            assert_eq!(element.name.unwrap().bytes.as_ptr(), view, "a view of the data");
            assert_eq!(data[element.name_offset as usize + name.len()], 0);
        }
    }
    for i in [names.len(), names.len() + 1, 1 << 27, 1 << 32, usize::MAX] {
        assert_eq!(alone.element(i), refused(26, 0));
        assert_eq!(alone.name(i), refused(26, 0));
        assert_eq!(signature_element(data, i), refused(26, 0));
    }
    let bytes = with(data, &box_c());
    for edition in 0..=3 {
        for part in PARTS {
            let report = signature_report(&bytes, edition, part).expect("accepted in a container");
            assert_eq!(report.count, names.len());
            for i in 0..=names.len() {
                assert_eq!(report.element(i), alone.element(i));
                assert_eq!(report.name(i), alone.name(i));
            }
        }
    }
}

#[test]
fn under_8_bytes() {
    let whole = named(&[u32::MAX], b"");
    for length in 0..8 {
        refuses(&whole[..length], 43, 0);
        refuses(&[0; 8][..length], 43, 0);
        for i in [0, 1, usize::MAX] {
            assert_eq!(signature_element(&whole[..length], i), refused(43, 0));
        }
    }
    accepts(&[0; 8], &[]);
    refuses(&whole[..8], 44, 0);
}

#[test]
fn no_elements() {
    for length in [8, 9, 40, 300] {
        let rest = vec![0xff; length - 8];
        for offset in [0, 1, 7, 8, length - 1, length] {
            accepts(&data(0, offset as u32, &rest), &[]);
        }
        for offset in [length as u32 + 1, length as u32 + 32, 1 << 27, 1 << 31, u32::MAX] {
            refuses(&data(0, offset, &rest), 44, 0);
            // By itself an element that isn't there is 26 before that.
            assert_eq!(signature_element(&data(0, offset, &rest), 0), refused(26, 0));
        }
    }
}

#[test]
fn the_end_of_the_elements() {
    for count in [1, 2, 3, 9] {
        for length in [32 * count + 8, 32 * count + 9, 32 * count + 100] {
            let rest = vec![0; length - 8];
            let last = (length - 32 * count) as u32;
            for offset in [8, last - 1, last] {
                accepts(&data(count as u32, offset, &rest), &vec![None; count]);
            }
            for offset in [last + 1, last + 2, last + 31, last + 32, u32::MAX] {
                refuses(&data(count as u32, offset, &rest), 44, 0);
            }
            refuses(&data(count as u32 + 1, last, &rest), 44, 0);
            // One element more, with one byte too few and with just enough.
            refuses(&data(count as u32 + 1, last.saturating_sub(31), &rest), 44, 0);
            if last >= 32 {
                accepts(&data(count as u32 + 1, last - 32, &rest), &vec![None; count + 1]);
            }
            accepts(&data(count as u32 - 1, last, &rest), &vec![None; count - 1]);
            // One byte less, at the end.
            refuses(&data(count as u32, last, &rest)[..length - 1], 44, 0);
        }
    }
}

#[test]
fn no_sum_or_product_wraps() {
    // 32 x count is 2^32, 2^32 + 32, 2^33, 2^36, 2^37 - 32 and its like; at 32
    // bits these would be small.
    for count in [1 << 27, (1 << 27) + 1, 1 << 28, 1 << 31, (31 << 27) + 1, u32::MAX - 1, u32::MAX]
    {
        for offset in [0, 8, 31, 32, 40, 64, 1 << 31, u32::MAX - 31, u32::MAX - 7, u32::MAX] {
            for length in [8, 40, 300] {
                refuses(&data(count, offset, &vec![0; length - 8]), 44, 0);
            }
        }
    }
    // The sum is 2^32 - 1, 2^32 and a little more; 2^37 and a little less.
    for (count, offset) in [
        (1, u32::MAX - 32),
        (1, u32::MAX - 31),
        (1, u32::MAX - 30),
        (1, u32::MAX - 23),
        (1, u32::MAX),
        (2, u32::MAX - 55),
        ((1 << 27) - 1, 31),
        ((1 << 27) - 1, 32),
        ((1 << 27) - 1, 40),
        (u32::MAX, 31),
        (u32::MAX, 32),
        (u32::MAX, 40),
    ] {
        for length in [8, 40, 300] {
            refuses(&data(count, offset, &vec![0; length - 8]), 44, 0);
        }
    }
}

#[test]
fn an_offset_below_8() {
    // The element has the header's bytes for its own.
    for offset in 0..8 {
        let zeros = data(1, offset, &[0; 40]);
        let element = signature(&zeros).unwrap().element(0).unwrap();
        let number = |at: usize| {
            let at = offset as usize + at;
            (0..4).map(|k| u32::from(zeros[at + k]) << (8 * k)).sum::<u32>()
        };
        assert_eq!((element.stream, element.name_offset), (number(0), number(4)));
        accepts(&zeros, &[element.name.map(|name| name.bytes)]);
        refuses(&data(1, offset, &[0; 40])[..offset as usize + 31], 44, 0);
    }
    // At 0 the stream is the count, and the name offset the first offset: 0.
    let whole = data(1, 0, &[2; 24]);
    let element = signature(&whole).unwrap().element(0).unwrap();
    assert_eq!((element.stream, element.name_offset, element.name), (1, 0, None));
    // At 4 the name offset is the four bytes after the header.
    let mut whole = data(1, 4, &[2; 28]);
    put4(&mut whole, 8, 35);
    refuses(&whole, 45, 0);
    whole[35] = 0;
    accepts(&whole, &[Some(b"")]);
}

#[test]
fn every_field() {
    let bytes: Vec<u8> = (1..=32).collect();
    let mut whole = data(1, 11, b"abc");
    whole.extend_from_slice(&bytes);
    put4(&mut whole, 11 + 4, 43);
    whole.extend_from_slice(b"Name\0");
    let expected = SignatureElement {
        stream: 0x0403_0201,
        name_offset: 43,
        index: 0x0c0b_0a09,
        system_value: 0x100f_0e0d,
        component: 0x1413_1211,
        register: 0x1817_1615,
        mask: 0x19,
        exclusive_mask: 0x1a,
        precision: 0x201f_1e1d,
        name: Some(text(b"Name")),
    };
    assert_eq!(signature(&whole).unwrap().element(0), Ok(expected));
    accepts(&whole, &[Some(b"Name")]);
    // The unused bytes are left out.
    for at in [26, 27] {
        whole[11 + at] ^= 255;
        assert_eq!(signature_element(&whole, 0), Ok(expected), "byte {at}");
    }
    // Nothing but the name is judged: the greatest numbers are shown.
    let mut whole = data(2, 8, &[255; 64]);
    put4(&mut whole, 12, 0);
    put4(&mut whole, 44, 0);
    let greatest = SignatureElement {
        stream: u32::MAX,
        name_offset: 0,
        index: u32::MAX,
        system_value: u32::MAX,
        component: u32::MAX,
        register: u32::MAX,
        mask: 255,
        exclusive_mask: 255,
        precision: u32::MAX,
        name: None,
    };
    for i in 0..2 {
        assert_eq!(signature(&whole).unwrap().element(i), Ok(greatest));
    }
    accepts(&whole, &[None, None]);
}

#[test]
fn the_end_of_a_name() {
    // The zero is the last byte.
    let whole = named(&[40], b"POSITION\0");
    accepts(&whole, &[Some(b"POSITION")]);
    // Without it, or with the name past it, there is none.
    refuses(&whole[..whole.len() - 1], 45, 0);
    for length in 41..whole.len() {
        refuses(&whole[..length], 45, 0);
    }
    refuses(&whole[..40], 45, 0);
    let at = |name: u32, strings: &[u8]| named(&[name], strings);
    // At the last byte: an empty name when it is zero.
    accepts(&at(48, b"POSITION\0"), &[Some(b"")]);
    accepts(&at(47, b"POSITION\0"), &[Some(b"N")]);
    accepts(&at(48, b"POSITION\0x"), &[Some(b"")]);
    accepts(&at(49, b"POSITION\0x\0"), &[Some(b"x")]);
    refuses(&at(49, b"POSITION\0x"), 45, 0);
    refuses(&at(50, b"POSITION\0xyz"), 45, 0);
    // At the length and past it, up to the greatest.
    for name in [49, 50, 81, 1 << 16, 1 << 31, u32::MAX - 7, u32::MAX] {
        refuses(&at(name, b"POSITION\0"), 45, 0);
    }
    // The first of several zeros ends it.
    accepts(&at(40, b"A\0B\0\0"), &[Some(b"A")]);
    accepts(&at(42, b"A\0B\0\0"), &[Some(b"B")]);
    // Any byte of ASCII but zero is of the name.
    let all: Vec<u8> = (1..128).collect();
    let mut strings = all.clone();
    strings.push(0);
    accepts(&at(40, &strings), &[Some(&all)]);
}

#[test]
fn no_name_and_an_empty_one() {
    accepts(&named(&[0, 136, 0, 138], b"A\0\0"), &[None, Some(b"A"), None, Some(b"")]);
    // No zero is needed where there is no name.
    let mut whole = data(1, 8, &[255; 40]);
    put4(&mut whole, 12, 0);
    accepts(&whole, &[None]);
}

#[test]
fn a_name_in_the_header_or_an_element() {
    // Bytes 1 to 3 are zeros of the count, 4 the offset, 5 to 7 its zeros.
    for (name, expected) in [
        (1, &b""[..]),
        (2, b""),
        (3, b""),
        (4, b"\x08"),
        (5, b""),
        (7, b""),
        (8, b"\x01"),
        (9, b""),
        // The name offset itself.
        (12, b"\x0c"),
        (16, b"\x03"),
        (28, b"\x06"),
        // The masks, the unused bytes and the precision.
        (32, b"\x07\x08\xc3\xa9\x09"),
        (34, b"\xc3\xa9\x09"),
        (36, b"\x09"),
        (39, b""),
    ] {
        let mut whole = named(&[name], b"");
        accepts(&whole, &[Some(expected)]);
        // With no zero after it in the part, a name there is bad too.
        if name >= 37 {
            whole[name as usize..].fill(1);
            refuses(&whole, 45, 0);
        }
    }
    // In the middle of a sequence.
    refuses(&named(&[35], b""), 52, 0);
    // From an element into the strings.
    let mut whole = data(1, 8, &[1; 33]);
    put4(&mut whole, 12, 16);
    whole[40] = 0;
    accepts(&whole, &[Some(&[1; 24])]);
    // In the element after it and the one before it.
    accepts(&named(&[40 + 8, 8 + 20], b""), &[Some(b"\x03"), Some(b"\x06")]);
}

#[test]
fn the_first_bad_name() {
    for count in [1, 2, 3, 8] {
        let good = 8 + 32 * count as u32;
        for bad in [good + 2, good + 3, good + 4, u32::MAX] {
            for first in 0..count {
                // From that one on, all of them are bad; then that one alone.
                let mut names = vec![good; count];
                names[first..].fill(bad);
                refuses(&named(&names, b"A\0bc"), 45, first);
                let mut names = vec![0; count];
                names[first] = bad;
                let whole = named(&names, b"A\0bc");
                refuses(&whole, 45, first);
                for i in 0..count {
                    let element = signature_element(&whole, i);
                    if i == first {
                        assert_eq!(element, refused(45, i));
                    } else {
                        assert_eq!(element.unwrap().name, None);
                    }
                }
            }
        }
        accepts(&named(&vec![good; count], b"A\0bc"), &vec![Some(&b"A"[..]); count]);
    }
}

#[test]
fn the_order_of_refusals() {
    // 44 before 45, also where the first elements are inside.
    let whole = named(&[u32::MAX, u32::MAX, u32::MAX], b"");
    refuses(&whole, 45, 0);
    refuses(&whole[..whole.len() - 1], 44, 0);
    refuses(&whole[..40], 44, 0);
    refuses(&whole[..8], 44, 0);
    refuses(&whole[..7], 43, 0);
}

#[test]
fn an_element_by_itself() {
    // Three elements, the second with a bad name, the third cut.
    let mut whole = named(&[1, u32::MAX, 1], b"");
    whole.pop();
    assert_eq!(signature(&whole), refused(44, 0));
    assert_eq!(signature_element(&whole, 0).unwrap().name, Some(text(b"")));
    assert_eq!(signature_element(&whole, 1), refused(45, 1));
    assert_eq!(signature_element(&whole, 2), refused(44, 0));
    assert_eq!(signature_element(&whole, 3), refused(26, 0));
    assert_eq!(signature_element(&whole, usize::MAX), refused(26, 0));
    assert_eq!(signature_element(&whole[..7], 3), refused(43, 0));
    // 44 before its own 45: the name offset is inside, the element isn't.
    let cut = &named(&[u32::MAX], b"")[..39];
    assert_eq!(signature_element(cut, 0), refused(44, 0));
    // Its own 32 bytes, at both edges.
    for i in 0..5usize {
        for length in 8..200 {
            let whole = data(u32::MAX, 9, &vec![0; length - 8]);
            let expected = if 9 + 32 * i + 32 <= length { Ok(()) } else { refused(44, 0) };
            assert_eq!(answer(signature_element(&whole, i)), expected);
        }
    }
    // No place wraps: at 32 bits these would be at 8 or 0.
    for (offset, i) in [
        (8, 1usize << 27),
        (0, 1 << 27),
        (8, (1 << 27) + 1),
        (8, 1 << 31),
        (8, 31 << 27),
        (u32::MAX - 31, 1),
        (u32::MAX - 31, 0),
        (u32::MAX - 23, 0),
        (u32::MAX, 0),
        (u32::MAX, u32::MAX as usize - 1),
        (8, u32::MAX as usize - 1),
    ] {
        assert_eq!(signature_element(&data(u32::MAX, offset, &[0; 300]), i), refused(44, 0));
    }
    // The greatest count has no element of its own number.
    let most = data(u32::MAX, 8, &[0; 300]);
    for i in [u32::MAX as usize, 1 << 32, (1 << 32) + 1, usize::MAX] {
        assert_eq!(signature_element(&most, i), refused(26, 0));
    }
    assert_eq!(answer(signature_element(&most, 0)), Ok(()));
}

#[test]
fn one_long_string_for_all() {
    // 262,144 elements in 8 MB, all of whose names are one string of 8 MB.
    let count = 262_144;
    let at = 8 + 32 * count as u32;
    let mut whole = named(&vec![at; count], &vec![b'x'; 8 << 20]);
    assert_eq!(signature(&whole), refused(45, 0));
    *whole.last_mut().unwrap() = 0;
    let read = signature(&whole).unwrap();
    assert_eq!(read.count, count);
    let name = read.name(count - 1).unwrap();
    assert_eq!((name.bytes.len(), name.points), ((8 << 20) - 1, (8 << 20) - 1));
    put4(&mut whole, 8 + 32 * (count - 1) + 4, at + (8 << 20));
    assert_eq!(signature(&whole), refused(45, count - 1));
}

/// PSV0 data of edition 1 whose three lists have these names.
fn lists(names: [&[&[u8]]; 3]) -> Psv0 {
    let mut psv0 = Psv0::of_size(36);
    for (list, names) in names.iter().enumerate() {
        psv0.runtime[28 + list] = names.len() as u8;
        for name in *names {
            let at = psv0.strings.len() as u32;
            psv0.strings.extend_from_slice(name);
            psv0.strings.push(0);
            psv0.elements.extend(element(at, 0, [0; 8]));
        }
    }
    psv0.strings.resize(psv0.strings.len().next_multiple_of(4), 0);
    psv0
}

/// The difference of a part with these names from such PSV0 data, at edition 1
/// and then at 0.
fn differences(
    part: SignaturePart,
    names: &[Option<&[u8]>],
    psv0: [&[&[u8]]; 3],
) -> (Option<usize>, Option<usize>) {
    let bytes = with(&with_names(names), &lists(psv0));
    let at = |edition| first_difference(&bytes, edition, part).unwrap();
    assert_eq!(at(1), at(3));
    (at(1), at(0))
}

#[test]
fn the_name_beside() {
    // A list for each part; the other two have the same number of other names.
    for (list, part) in PARTS.into_iter().enumerate() {
        let with_list = |names: &[Option<&[u8]>], beside: &[&[u8]]| {
            let others = vec![&b"other"[..]; beside.len()];
            let mut psv0 = [&others[..]; 3];
            psv0[list] = beside;
            differences(part, names, psv0)
        };
        let (a, ab, b, empty) = (&b"A"[..], &b"AB"[..], &b"B"[..], &b""[..]);
        // Equal, a prefix, longer, different, empty.
        for ours in [a, ab, b, empty, b"a", b"A\xc3\xbf"] {
            for theirs in [a, ab, b, empty, b"a", b"A\xc3\xbf"] {
                let expected = if ours == theirs { None } else { Some(0) };
                assert_eq!(with_list(&[Some(ours)], &[theirs]), (expected, Some(0)));
            }
            assert_eq!(with_list(&[None], &[ours]), (None, None));
        }
        // The first, the second, the last.
        let names = [Some(a), Some(b), Some(ab)];
        assert_eq!(with_list(&names, &[a, b, ab]), (None, Some(0)));
        assert_eq!(with_list(&names, &[b, b, b]).0, Some(0));
        assert_eq!(with_list(&names, &[a, a, a]).0, Some(1));
        assert_eq!(with_list(&names, &[a, b, b]).0, Some(2));
        // PSV0's list longer, shorter, empty.
        assert_eq!(with_list(&names, &[a, b, ab, b]).0, None);
        assert_eq!(with_list(&names, &[a, b]).0, Some(2));
        assert_eq!(with_list(&names, &[a]).0, Some(1));
        assert_eq!(with_list(&names, &[]).0, Some(0));
        // An empty name past the list is missing, too.
        assert_eq!(with_list(&[Some(empty)], &[]), (Some(0), Some(0)));
        // Without a name an element is passed over, and keeps its number.
        assert_eq!(with_list(&[None, Some(b)], &[a, b]), (None, Some(1)));
        assert_eq!(with_list(&[None, Some(b)], &[b, a]), (Some(1), Some(1)));
        assert_eq!(with_list(&[None, None, Some(b)], &[a]), (Some(2), Some(2)));
        assert_eq!(with_list(&[None, None, None], &[]), (None, None));
        assert_eq!(with_list(&[Some(a), None, None], &[a]), (None, Some(0)));
        // No elements.
        assert_eq!(with_list(&[], &[]), (None, None));
        assert_eq!(with_list(&[], &[a, b]), (None, None));
    }
}

#[test]
fn numbers_within_the_list() {
    let names = [&b"A"[..], b"B", b"C", b"D", b"E", b"F"];
    let psv0 = [&names[0..1], &names[1..3], &names[3..6]];
    for (list, part) in PARTS.into_iter().enumerate() {
        let own: Vec<Option<&[u8]>> = psv0[list].iter().copied().map(Some).collect();
        for other in PARTS {
            let expected = if other == part { None } else { Some(0) };
            assert_eq!(differences(other, &own, psv0).0, expected);
        }
        // What follows in PSV0 is of the next list.
        let more: Vec<Option<&[u8]>> = own.iter().copied().chain([Some(&b"B"[..])]).collect();
        assert_eq!(differences(part, &more, psv0).0, Some(own.len()));
    }
    let all: Vec<Option<&[u8]>> = names.iter().copied().map(Some).collect();
    assert_eq!(differences(SignaturePart::Input, &all, psv0).0, Some(1));
    assert_eq!(differences(SignaturePart::Input, &all, [&names, &[], &[]]).0, None);
    assert_eq!(differences(SignaturePart::Output, &all, [&[], &names, &[]]).0, None);
    assert_eq!(differences(SignaturePart::Patch, &all, [&[], &[], &names]).0, None);
    assert_eq!(differences(SignaturePart::Patch, &all, [&[], &names, &[]]).0, Some(0));
}

#[test]
fn more_than_a_list_can_have() {
    // PSV0's lists have 255 elements at most.
    let names = vec![&b"N"[..]; 255];
    for count in [254, 255, 256, 257, 600] {
        let ours = vec![Some(&b"N"[..]); count];
        let expected = if count > 255 { Some(255) } else { None };
        for part in PARTS {
            assert_eq!(differences(part, &ours, [&names, &names, &names]), (expected, Some(0)));
        }
    }
}

#[test]
fn wider_psv0_elements() {
    let beside = lists([&[b"A", b"B"], &[b"C"], &[]]).wider_elements(24);
    let bytes = with(&with_names(&[Some(b"A"), Some(b"B")]), &beside);
    assert_eq!(first_difference(&bytes, 1, SignaturePart::Input), Ok(None));
    let bytes = with(&with_names(&[Some(b"C")]), &beside);
    assert_eq!(first_difference(&bytes, 1, SignaturePart::Output), Ok(None));
}

#[test]
fn a_file_of_edition_zero() {
    for size in [24, 28, 32] {
        let bytes = with(&with_names(&[None, Some(b"A")]), &Psv0::of_size(size));
        for edition in 0..=3 {
            for part in PARTS {
                assert_eq!(
                    signature_report(&bytes, edition, part).unwrap().name(1),
                    Ok(text(b"A"))
                );
                assert_eq!(first_difference(&bytes, edition, part), Ok(Some(1)));
            }
        }
    }
}

#[test]
fn an_absent_part() {
    let psv0 = box_c().bytes();
    let data = with_names(&[Some(b"A")]);
    for present in 0..8 {
        let mut parts: Vec<(&[u8; 4], &[u8])> = vec![(b"DXIL", b"code"), (b"PSV0", &psv0)];
        // Names of older signature parts aren't these.
        parts.extend([(b"ISGN", &data[..]), (b"OSG5", &data), (b"PCSG", &data)]);
        let names = [b"ISG1", b"OSG1", b"PSG1"];
        parts.extend((0..3).filter(|i| present >> i & 1 == 1).map(|i| (names[i], &data[..])));
        let bytes = container(&parts);
        for (i, part) in PARTS.into_iter().enumerate() {
            assert_eq!(&part.name(), names[i]);
            let expected = if present >> i & 1 == 1 { Ok(()) } else { refused(26, 0) };
            for edition in 0..=3 {
                assert_eq!(answer(signature_report(&bytes, edition, part)), expected);
                assert_eq!(answer(first_difference(&bytes, edition, part)), expected);
            }
        }
    }
}

#[test]
fn refusals_of_opening_come_first() {
    let psv0 = box_c().bytes();
    let bad = named(&[u32::MAX], b"");
    for data in [&with_names(&[Some(b"A")])[..], b"short", &bad[..39], &bad] {
        let is = |bytes: &[u8], edition, number, place| {
            for part in PARTS {
                assert_eq!(signature_report(bytes, edition, part), refused(number, place));
                assert_eq!(first_difference(bytes, edition, part), refused(number, place));
            }
        };
        let bytes = with(data, &box_c());
        is(&bytes, 4, 25, 0);
        is(&bytes, usize::MAX, 25, 0);
        is(&bytes[..31], 3, 1, 0);
        is(&bytes[..40], 3, 5, 0);
        let code = (b"DXIL", &b"code"[..]);
        let (isg1, osg1, psg1) = ((b"ISG1", data), (b"OSG1", data), (b"PSG1", data));
        let is_of = |parts: &[(&[u8; 4], &[u8])], number, place| {
            is(&container(parts), 3, number, place);
        };
        is_of(&[code, isg1, osg1, psg1, (b"PSV0", &psv0), code], 9, 5);
        is_of(&[isg1, osg1, psg1, (b"PSV0", &psv0)], 10, 0);
        is_of(&[isg1, osg1, psg1, (b"DXIL", b""), (b"PSV0", &psv0)], 10, 0);
        is_of(&[code, isg1, osg1, psg1], 11, 0);
        is_of(&[code, isg1, osg1, psg1, (b"PSV0", b"")], 12, 0);
        is_of(&[code], 11, 0);
        // At the edition that was asked for.
        let mut psv0 = box_c();
        psv0.runtime[48] = 8;
        is(&with(data, &psv0), 3, 24, 0);
        let alone = answer(signature(data));
        for part in PARTS {
            assert_eq!(answer(signature_report(&with(data, &psv0), 2, part)), alone);
        }
        let mut psv0 = hull();
        put4(&mut psv0.elements, 16, u32::MAX);
        is(&with(data, &psv0), 1, 22, 1);
        for part in PARTS {
            assert_eq!(answer(first_difference(&with(data, &psv0), 0, part)), alone);
        }
    }
}

#[test]
fn the_part_ends_before_the_file() {
    // A zero after the part's end isn't the part's.
    let data = with_names(&[Some(b"NAME")]);
    let psv0 = box_c().bytes();
    let cut = &data[..data.len() - 1];
    let bytes = container(&[(b"DXIL", b"code"), (b"ISG1", cut), (b"PSV0", &psv0)]);
    assert_eq!(signature_report(&bytes, 3, SignaturePart::Input), refused(45, 0));
    let mut bytes = container(&[(b"DXIL", b"code"), (b"PSV0", &psv0), (b"ISG1", cut)]);
    bytes.push(0);
    let length = bytes.len() as u32;
    put4(&mut bytes, 24, length);
    assert_eq!(signature_report(&bytes, 3, SignaturePart::Input), refused(45, 0));
}

/// The rules once more, name by name, with numbers that can't wrap.
fn expected(data: &[u8]) -> Result<Vec<Option<&[u8]>>, (u8, usize)> {
    let number = |at: u128| (0..4).map(|k| u128::from(data[at as usize + k]) << (8 * k)).sum();
    if data.len() < 8 {
        return Err((43, 0));
    }
    let (count, offset): (u128, u128) = (number(0), number(4));
    if offset + 32 * count > data.len() as u128 {
        return Err((44, 0));
    }
    (0..count)
        .map(|i| {
            let name: u128 = number(offset + 32 * i + 4);
            if name == 0 {
                return Ok(None);
            }
            let end = (name..data.len() as u128).find(|at| data[*at as usize] == 0);
            let end = end.ok_or((45, i as usize))?;
            let name = &data[name as usize..end as usize];
            std::str::from_utf8(name).or(Err((52, i as usize)))?;
            Ok(Some(name))
        })
        .collect()
}

#[test]
fn any_bytes_get_one_answer() {
    let mut random = Random(0x1122_3344_5566_7788);
    let mut reached: BTreeMap<u8, usize> = BTreeMap::new();
    let mut longer = 0;
    for _ in 0..200_000 {
        let length = if random.one_in(16) { random.below(9) } else { random.below(160) };
        let mut data = strings(&mut random, length, b"abc");
        // At times without a zero at the end.
        if length > 0 && random.one_in(2) {
            data[length - 1] = b'x';
        }
        if length >= 8 {
            let count = random.pick(&[0, 1, 2, 3, 3, 4]);
            let left = (length as u32).wrapping_sub(32 * count);
            let near = random.below(12) as u32;
            let offset = random.pick(&[0, 8, 8, near, left, left, left.wrapping_add(1), u32::MAX]);
            let greatest = random.pick(&[1 << 27, u32::MAX]);
            put4(&mut data, 0, if random.one_in(16) { greatest } else { count });
            put4(&mut data, 4, offset);
            for i in 0..count as usize {
                let at = (offset as usize).saturating_add(32 * i + 4);
                if at + 4 <= length && at >= 8 {
                    let inside = random.below(length + 2) as u32;
                    let name = random.pick(&[0, 1, 4, inside, inside, inside, length as u32 - 1]);
                    put4(&mut data, at, if random.one_in(50) { u32::MAX } else { name });
                }
            }
        }
        let read = signature(&data);
        let which = match expected(&data) {
            Err((number, place)) => {
                assert_eq!(read, refused(number, place));
                number
            }
            Ok(names) => {
                let read = read.unwrap();
                assert_eq!(read.count, names.len());
                for (i, name) in names.iter().enumerate() {
                    let element = read.element(i).unwrap();
                    assert_eq!(element.name, name.map(text));
                    assert_eq!(read.name(i).ok(), name.map(text));
                    assert_eq!(signature_element(&data, i), Ok(element));
                    longer += usize::from(name.is_some_and(|name| text(name).points < name.len()));
                }
                assert_eq!(read.element(names.len()), refused(26, 0));
                assert_eq!(signature_element(&data, names.len()), refused(26, 0));
                0
            }
        };
        *reached.entry(which).or_default() += 1;
        if which == 45 || which == 52 {
            let place = read.unwrap_err().place;
            assert_eq!(signature_element(&data, place), refused(which, place));
            for i in 0..place {
                assert_eq!(answer(signature_element(&data, i)), Ok(()));
            }
        }
    }
    assert!(reached.keys().eq(&[0, 43, 44, 45, 52]), "{reached:?}");
    assert!(reached.values().all(|count| *count > 2_000), "{reached:?}");
    assert!(longer > 2_000, "{longer} names with fewer code points than bytes");
}

#[test]
fn malformed_signatures_of_llvm() {
    // Ten elements, of which one fits; one element whose offset is the strings'.
    let directory = Path::new(env!("CARGO_MANIFEST_DIR")).join("../../tests/vectors/llvm");
    for (number, first) in [(0, Ok(Some(text(b"AAA")))), (1, refused(44, 0))] {
        let file = format!("llvm19_unit_MalformedSignature_{number}_refit.bin");
        let bytes = std::fs::read(directory.join(file)).expect("the vectors are there");
        // Without a DXIL part it doesn't open, but it has a table.
        assert_eq!(signature_report(&bytes, 3, SignaturePart::Input), refused(10, 0));
        let (_, data) = table_part(&bytes, *b"ISG1").unwrap();
        assert_eq!(signature(data), refused(44, 0));
        assert_eq!(signature_element(data, 0).map(|element| element.name), first);
    }
}

#[test]
fn real_shaders() {
    let directory = Path::new(env!("CARGO_MANIFEST_DIR")).join("../../tests/vectors/real");
    let mut shaders = 0;
    for entry in std::fs::read_dir(directory).expect("the vectors are there") {
        let path = entry.unwrap().path();
        let file = path.file_name().unwrap().to_str().unwrap().to_string();
        let bytes = std::fs::read(&path).unwrap();
        if file.contains("RootSig") {
            for part in PARTS {
                assert_eq!(signature_report(&bytes, 3, part), refused(10, 0), "{file}");
            }
            continue;
        }
        // What a compiler names, and how: PSV0 has an empty name for each SV_.
        let (inputs, outputs) = if file.contains("VertexShader") {
            (&["POSITION", "TEXCOORD", "COLOR"][..], &["SV_Position", "TEXCOORD", "COLOR"][..])
        } else {
            (&["SV_Position", "TEXCOORD", "COLOR"][..], &["SV_Target"][..])
        };
        for edition in 0..=3 {
            for (part, names) in PARTS.into_iter().zip([inputs, outputs]) {
                let report = signature_report(&bytes, edition, part).unwrap();
                assert_eq!(report.count, names.len());
                for (i, name) in names.iter().enumerate() {
                    assert_eq!(report.name(i), Ok(text(name.as_bytes())), "{file}");
                    let element = report.element(i).unwrap();
                    assert_eq!((element.index, element.component), (0, 3), "{file}");
                    assert_eq!(element.register as usize, i, "{file}");
                    assert_eq!(element.system_value == 0, !name.starts_with("SV_"), "{file}");
                }
                let equal = edition > 0 && !names[0].starts_with("SV_");
                let expected = if equal { None } else { Some(0) };
                assert_eq!(first_difference(&bytes, edition, part), Ok(expected), "{file}");
            }
            let patch = signature_report(&bytes, edition, SignaturePart::Patch);
            assert_eq!(patch, refused(26, 0), "{file}");
        }
        shaders += 1;
    }
    assert_eq!(shaders, 7);
}
