//! Openings: the boxes of document 01, refusals 10 to 25, fields and queries.

mod common;
use common::*;
use reference::{
    open, open_default, open_psv0, open_psv0_default, plain, Element, Opening, Resource, Runtime,
    LONGEST,
};
use std::path::Path;

fn opened(psv0: &Psv0, edition: usize, check: impl Fn(&Opening)) {
    let data = psv0.bytes();
    check(&open_psv0(&data, edition).expect("PSV0 alone is accepted"));
    let file = shader(&data);
    check(&open(&file, edition).expect("the container is accepted"));
}

/// The refusal of PSV0 data is the same alone and in a container.
fn refuses(data: &[u8], edition: usize, number: u8, place: usize) {
    assert_eq!(answer(open_psv0(data, edition)), refused(number, place), "alone");
    assert_eq!(answer(open(&shader(data), edition)), refused(number, place), "in a container");
}

fn accepts(data: &[u8], edition: usize) {
    assert_eq!(answer(open_psv0(data, edition)), Ok(()), "alone");
    assert_eq!(answer(open(&shader(data), edition)), Ok(()), "in a container");
}

// The boxes.

#[test]
fn box_m_is_accepted() {
    let bytes = shader(&box_m().bytes());
    assert_eq!(bytes.len(), 92);
    for edition in 0..=3 {
        let opening = open(&bytes, edition).unwrap();
        assert_eq!((opening.file_edition, opening.edition_read), (0, 0));
        assert_eq!(opening.parts, [part(b"DXIL", 40, 4, 0, 0), part(b"PSV0", 52, 32, 0, 0)]);
    }
}

#[test]
fn box_c_shows_main() {
    let bytes = shader(&box_c().bytes());
    assert_eq!(bytes.len(), 136);
    let opening = open(&bytes, 3).unwrap();
    assert_eq!((opening.file_edition, opening.edition_read), (3, 3));
    assert_eq!(opening.entry_name(), Ok(text(b"main")));
    assert_eq!(opening.runtime.stage, Some(5));
    assert_eq!(opening.runtime.entry_name_offset, Some(1));
    let opening = open(&bytes, 1).unwrap();
    assert_eq!((opening.file_edition, opening.edition_read), (3, 1));
    assert_eq!(opening.entry_name(), refused(26, 0));
    assert_eq!(opening.runtime.entry_name_offset, None);
}

#[test]
fn box_c_with_other_offsets() {
    let mut psv0 = box_c();
    psv0.runtime[48] = 5;
    opened(&psv0, 3, |opening| assert_eq!(opening.entry_name(), Ok(text(b""))));
    psv0.runtime[48] = 0;
    opened(&psv0, 3, |opening| assert_eq!(opening.entry_name(), Ok(text(b""))));
    psv0.runtime[48] = 3;
    opened(&psv0, 3, |opening| assert_eq!(opening.entry_name(), Ok(text(b"in"))));
    psv0.runtime[48] = 7;
    opened(&psv0, 3, |opening| assert_eq!(opening.entry_name(), Ok(text(b""))));
    psv0.runtime[48] = 8;
    refuses(&psv0.bytes(), 3, 24, 0);
    for edition in 0..3 {
        accepts(&psv0.bytes(), edition);
    }
    put4(&mut psv0.runtime, 48, u32::MAX);
    refuses(&psv0.bytes(), 3, 24, 0);
}

#[test]
fn box_c_with_a_longer_record() {
    let mut psv0 = box_c();
    psv0.runtime.extend_from_slice(&[9; 4]);
    assert_eq!(shader(&psv0.bytes()).len(), 140);
    opened(&psv0, 3, |opening| {
        assert_eq!(opening.file_edition, 3);
        assert_eq!(opening.entry_name(), Ok(text(b"main")));
        assert_eq!(opening.handed.runtime.len(), 52);
        assert_eq!(opening.layout.runtime_size, 56);
    });
}

#[test]
fn box_m_with_other_sizes() {
    opened(&Psv0::of_size(28), 3, |opening| {
        assert_eq!((opening.file_edition, opening.edition_read), (0, 0));
        assert_eq!(opening.handed.runtime.len(), 24);
    });
    for size in [0u32, 4, 20, 21, 23, 25, 26, 27, 30, 53, u32::MAX, u32::MAX - 1] {
        let mut data = Psv0::of_size(28).bytes();
        put4(&mut data, 0, size);
        refuses(&data, 3, 12, 0);
    }
}

#[test]
fn box_of_mask_words() {
    // w(8) = 1 and w(9) = 2 as mask 0; v0 = 9 and u = 3 give mask 5 24 words.
    for (v0, u, view, through) in [(8, 0, 1, 0), (9, 0, 2, 0), (9, 3, 2, 24), (1, 1, 1, 4)] {
        let mut psv0 = Psv0::of_size(36);
        psv0.runtime[25] = 1;
        psv0.runtime[31] = u;
        psv0.runtime[32] = v0;
        psv0.masks = vec![1; 4 * (view + through)];
        opened(&psv0, 1, |opening| {
            assert_eq!(opening.mask(0).unwrap().len(), 4 * view);
            assert_eq!(opening.mask(5).unwrap().len(), 4 * through);
            assert_eq!(opening.handed.masks.len(), 4 * (view + through));
        });
    }
}

#[test]
fn boxes_of_the_container() {
    let bytes = shader(&box_m().bytes());
    assert_eq!(answer(open(&bytes[..31], 3)), refused(1, 0));
    let empty = container(&[(b"DXIL", b""), (b"PSV0", &box_m().bytes())]);
    assert_eq!(answer(open(&empty, 3)), refused(10, 0));
    for (count, expected) in [(96, Ok(())), (97, refused(6, 0))] {
        let psv0 = box_m().bytes();
        let names: Vec<[u8; 4]> = (0..count - 2).map(|i| [b'A', b'A', b'A', i as u8]).collect();
        let mut parts: Vec<(&[u8; 4], &[u8])> = names.iter().map(|name| (name, &[][..])).collect();
        parts.push((b"PSV0", &psv0));
        parts.push((b"DXIL", b"code"));
        assert_eq!(answer(open(&container(&parts), 3)), expected, "{count} parts");
    }
}

// Refusals in order.

#[test]
fn an_edition_above_three_comes_first() {
    for edition in [4, 5, 256, usize::MAX] {
        assert_eq!(answer(open(&[], edition)), refused(25, 0));
        assert_eq!(answer(open_psv0(&[], edition)), refused(25, 0));
        assert_eq!(answer(open(&shader(&box_m().bytes()), edition)), refused(25, 0));
    }
    assert_eq!(answer(open_psv0(&vec![0; LONGEST + 1], 4)), refused(25, 0));
}

#[test]
fn no_edition_is_edition_three() {
    // The file's edition still bounds it.
    for (size, edition) in [(24, 0), (36, 1), (48, 2), (52, 3), (56, 3)] {
        let mut psv0 = Psv0::of_size(size);
        psv0.strings = vec![0; 4];
        let data = psv0.bytes();
        assert_eq!(open_psv0_default(&data).unwrap().edition_read, edition);
        assert_eq!(open_default(&shader(&data)).unwrap().edition_read, edition);
    }
    assert_eq!(answer(open_default(&[])), refused(1, 0));
    assert_eq!(answer(open_psv0_default(&[])), refused(12, 0));
    // What edition 1 leaves unset: the entry name, kind and flags.
    let data = hull().bytes();
    let file = shader(&data);
    for opening in [open_psv0_default(&data).unwrap(), open_default(&file).unwrap()] {
        assert_eq!(opening.entry_name(), Ok(text(b"main")));
        let resource = opening.resource(1).unwrap();
        assert_eq!((resource.kind, resource.flags), (Some(50), Some(60)));
    }
}

#[test]
fn box_c_where_no_edition_is_named() {
    let mut psv0 = box_c();
    let bytes = shader(&psv0.bytes());
    let opening = open_default(&bytes).unwrap();
    assert_eq!((opening.file_edition, opening.edition_read), (3, 3));
    assert_eq!(opening.entry_name(), Ok(text(b"main")));
    // Who relied on edition 1 has to name it now.
    psv0.runtime[48] = 8;
    let data = psv0.bytes();
    let bytes = shader(&data);
    assert_eq!(answer(open_default(&bytes)), refused(24, 0));
    assert_eq!(answer(open_psv0_default(&data)), refused(24, 0));
    accepts(&data, 1);
    let opening = open(&bytes, 1).unwrap();
    assert_eq!((opening.file_edition, opening.edition_read), (3, 1));
    assert_eq!(opening.entry_name(), refused(26, 0));
}

#[test]
fn psv0_alone_too_long() {
    let mut data = box_m().bytes();
    data.resize(LONGEST, 0);
    assert_eq!(answer(open_psv0(&data, 0)), Ok(()));
    data.resize(LONGEST + 1, 0);
    assert_eq!(answer(open_psv0(&data, 0)), refused(2, 0));
    put4(&mut data, 0, 0);
    assert_eq!(answer(open_psv0(&data, 3)), refused(2, 0), "2 comes before 12");
}

#[test]
fn the_table_is_refused_as_by_the_table_reader() {
    let good = shader(&box_m().bytes());
    let mut bytes = good.clone();
    bytes[0] = 0;
    assert_eq!(answer(open(&bytes, 0)), refused(3, 0));
    let mut bytes = good.clone();
    put4(&mut bytes, 36, 51);
    assert_eq!(answer(open(&bytes, 2)), refused(8, 1));
    let twice = container(&[(b"DXIL", b"code"), (b"PSV0", b""), (b"PSV0", b"")]);
    assert_eq!(answer(open(&twice, 1)), refused(9, 2));
}

#[test]
fn the_two_parts_that_must_be_there() {
    let psv0 = box_m().bytes();
    assert_eq!(answer(open(&container(&[]), 3)), refused(10, 0));
    assert_eq!(answer(open(&container(&[(b"PSV0", &psv0)]), 3)), refused(10, 0));
    assert_eq!(answer(open(&container(&[(b"ILDB", b"code"), (b"PSV0", b"")]), 3)), refused(10, 0));
    assert_eq!(answer(open(&container(&[(b"DXIL", b"c")]), 3)), refused(11, 0));
    assert_eq!(answer(open(&container(&[(b"DXIL", b"")]), 3)), refused(10, 0));
    assert_eq!(answer(open(&container(&[(b"PSV0", &psv0), (b"DXIL", b"c")]), 3)), Ok(()));
    assert_eq!(answer(open(&container(&[(b"PSV0", b""), (b"DXIL", b"c")]), 3)), refused(12, 0));
}

#[test]
fn runtime_record_that_does_not_fit() {
    for length in 0..4 {
        refuses(&vec![24; length], 3, 12, 0);
    }
    let data = Psv0::of_size(52).bytes();
    for length in 4..56 {
        refuses(&data[..length], 0, 13, 0);
    }
    refuses(&data[..56], 0, 14, 0);
    refuses(&words(&[0xffff_fffc, 0, 0, 0, 0, 0, 0, 0]), 3, 13, 0);
    refuses(&words(&[24]), 3, 13, 0);
}

#[test]
fn editions_by_size() {
    let sizes = [(24, 0), (28, 0), (32, 0), (36, 1), (40, 1), (44, 1), (48, 2), (52, 3), (64, 3)];
    for (size, file) in sizes {
        let mut psv0 = Psv0::of_size(size);
        psv0.strings = vec![0; 4];
        for edition in 0..=3 {
            opened(&psv0, edition, |opening| {
                assert_eq!(opening.file_edition, file, "size {size}");
                assert_eq!(opening.edition_read, edition.min(file), "size {size}");
            });
        }
    }
}

#[test]
fn resources_that_do_not_fit() {
    let mut psv0 = Psv0::of_size(24);
    for size in [16, 20, 24, 28, 64] {
        psv0.resource_size = size;
        psv0.resources = vec![1; 3 * size as usize];
        let data = psv0.bytes();
        accepts(&data, 3);
        for length in 28..data.len() {
            refuses(&data[..length], 3, 14, 0);
        }
    }
    for size in [0, 4, 8, 12, 15, 17, 18, 22, 26, u32::MAX] {
        psv0.resource_size = 64;
        psv0.resources = vec![1; 64];
        let mut data = psv0.bytes();
        put4(&mut data, 32, size);
        refuses(&data, 3, 14, 0);
    }
    // Counts and sizes whose product passes 2^32 or 2^63.
    for (count, size) in [(1 << 28, 16), (1 << 30, 16), (u32::MAX, 0xffff_fffc), (1 << 31, 1 << 31)]
    {
        let mut data = psv0.bytes();
        put4(&mut data, 28, count);
        put4(&mut data, 32, size);
        refuses(&data, 3, 14, 0);
    }
}

#[test]
fn a_size_without_resources_is_not_there() {
    // With R = 0 the next number is T already.
    let mut data = words(&[36, 0, 0, 0, 0, 0, 0, 0, 0, 0]);
    data.extend_from_slice(&words(&[0, 4, 0, 0]));
    let opening = open_psv0(&data, 1).unwrap();
    assert_eq!(opening.resource_count(), 0);
    assert_eq!(opening.string_length(), Some(4));
    assert_eq!(opening.layout.end, data.len());
}

#[test]
fn stages_view_ids_and_streams() {
    let mut psv0 = Psv0::of_size(36);
    for stage in 0..=255u8 {
        psv0.runtime[24] = stage;
        if stage <= 15 {
            accepts(&psv0.bytes(), 1);
        } else {
            refuses(&psv0.bytes(), 1, 15, 0);
        }
        accepts(&psv0.bytes(), 0);
    }
    psv0.runtime[24] = 15;
    for view in 0..=255u8 {
        psv0.runtime[25] = view;
        if view <= 1 {
            accepts(&psv0.bytes(), 1);
        } else {
            refuses(&psv0.bytes(), 1, 16, 0);
        }
    }
    psv0.runtime[25] = 0;
    for stage in 0..=15 {
        for stream in 0..4 {
            let mut psv0 = psv0.clone();
            psv0.runtime[24] = stage;
            psv0.runtime[32 + stream] = 1;
            if stage == 2 || stream == 0 {
                accepts(&psv0.bytes(), 1);
            } else {
                refuses(&psv0.bytes(), 1, 17, 0);
            }
            accepts(&psv0.bytes(), 0);
        }
    }
}

#[test]
fn string_table_that_does_not_fit() {
    let mut psv0 = Psv0::of_size(36);
    psv0.strings = vec![b'a'; 8];
    let at = psv0.strings_at();
    let data = psv0.bytes();
    accepts(&data, 1);
    for length in at..at + 12 {
        refuses(&data[..length], 1, 18, 0);
        accepts(&data[..length], 0);
    }
    for length in at + 12..data.len() {
        refuses(&data[..length], 1, 19, 0);
    }
    for t in [1, 2, 3, 5, 7, 9, 16, 1 << 31, 0xffff_fffc, u32::MAX] {
        let mut data = psv0.bytes();
        put4(&mut data, at, t);
        refuses(&data, 1, 18, 0);
    }
    // 12 bytes of strings take in N, which then isn't there.
    let mut data = psv0.bytes();
    put4(&mut data, at, 12);
    refuses(&data, 1, 19, 0);
}

#[test]
fn index_table_that_does_not_fit() {
    let mut psv0 = Psv0::of_size(36);
    psv0.indices = vec![5, 5, 5];
    let at = psv0.indices_at();
    let data = psv0.bytes();
    accepts(&data, 1);
    for length in at..data.len() {
        refuses(&data[..length], 1, 19, 0);
    }
    for n in [4, 1 << 30, (1 << 30) + 3, 1 << 31, u32::MAX] {
        let mut data = psv0.bytes();
        put4(&mut data, at, n);
        refuses(&data, 1, 19, 0);
    }
}

#[test]
fn elements_that_do_not_fit() {
    for size in [16, 20, 24, 40] {
        for lists in [[2, 0, 0], [0, 2, 0], [0, 0, 2], [1, 1, 0]] {
            let mut psv0 = Psv0::of_size(36);
            psv0.runtime[28..31].copy_from_slice(&lists);
            psv0.strings = vec![0; 4];
            psv0.element_size = size;
            psv0.elements = vec![0; 2 * size as usize];
            let at = psv0.elements_at();
            let data = psv0.bytes();
            accepts(&data, 1);
            for length in at..data.len() {
                refuses(&data[..length], 1, 20, 0);
            }
            for wrong in [0, 12, 15, 17, 18, size + 4, u32::MAX, 0xffff_fffc] {
                let mut data = psv0.bytes();
                put4(&mut data, at, wrong);
                refuses(&data, 1, 20, 0);
            }
        }
    }
    // The sum of the three counts is not cut to one byte.
    let mut psv0 = Psv0::of_size(36);
    psv0.runtime[28..31].copy_from_slice(&[255; 3]);
    psv0.strings = vec![0; 4];
    psv0.elements = vec![0; 16 * 765];
    opened(&psv0, 1, |opening| {
        assert_eq!(opening.element_count(), Some(765));
        assert!(opening.element(764).is_ok());
        assert_eq!(opening.element(765), refused(26, 0));
    });
    psv0.elements.truncate(16 * 764);
    refuses(&psv0.bytes(), 1, 20, 0);
}

/// The masks' lengths in words by a table written out by hand.
#[test]
fn masks_by_stage() {
    // v = 9, 17, 1, 8; u = 2; p = 10. w: 2, 3, 1, 1; w(p) = 2.
    for stage in 0..=15u8 {
        for view in 0..=1u8 {
            let mut psv0 = Psv0::of_size(36);
            let streams = if stage == 2 { [9, 17, 1, 8] } else { [9, 0, 0, 0] };
            psv0.runtime[24] = stage;
            psv0.runtime[25] = view;
            psv0.runtime[26] = 10;
            psv0.runtime[31] = 2;
            psv0.runtime[32..36].copy_from_slice(&streams);
            let mut expected = [0; 11];
            let w = if stage == 2 { [2, 3, 1, 1] } else { [2, 0, 0, 0] };
            for stream in 0..4 {
                if view == 1 {
                    expected[stream] = w[stream];
                }
                expected[5 + stream] = w[stream] * 8;
            }
            if view == 1 && (stage == 3 || stage == 13) {
                expected[4] = 2;
            }
            if stage == 3 {
                expected[9] = 2 * 2 * 4;
            }
            if stage == 4 {
                expected[10] = 2 * 10 * 4;
            }
            let total: usize = expected.iter().sum();
            psv0.masks = (0..4 * total).map(|i| (i * 7) as u8).collect();
            opened(&psv0, 1, |opening| {
                let mut at = 0;
                for (number, words) in expected.iter().enumerate() {
                    let mask = &psv0.masks[at..at + 4 * words];
                    assert_eq!(opening.mask(number), Ok(mask), "stage {stage} mask {number}");
                    at += 4 * words;
                }
                assert_eq!(opening.handed.masks, &psv0.masks[..]);
                for number in [11, 12, usize::MAX] {
                    assert_eq!(opening.mask(number), refused(26, 0));
                }
            });
            let at = psv0.elements_at();
            let data = psv0.bytes();
            for length in at..data.len() {
                assert_eq!(answer(open_psv0(&data[..length], 1)), refused(21, 0));
            }
            accepts(&data, 1);
        }
    }
}

#[test]
fn byte_26_counts_only_in_its_stages() {
    // A vertex shader with something at 26 has neither p nor a hull mask.
    let mut psv0 = Psv0::of_size(36);
    psv0.runtime[24..28].copy_from_slice(&[1, 1, 200, 3]);
    psv0.runtime[31] = 4;
    opened(&psv0, 1, |opening| {
        assert_eq!(opening.runtime.patch_vectors, None);
        assert_eq!(opening.runtime.max_vertex_count, None);
        assert_eq!(opening.runtime.mesh_topology, None);
        assert_eq!(opening.mask(4), Ok(&[][..]));
        assert_eq!(opening.mask(9), Ok(&[][..]));
    });
}

#[test]
fn references_element_by_element() {
    let good = hull();
    let count = 3;
    for bad in 0..count {
        // A bad name, then a bad index, then both: 22 before 23 in one element.
        let mut psv0 = good.clone();
        put4(&mut psv0.elements, 16 * bad, 16);
        refuses(&psv0.bytes(), 1, 22, bad);
        let mut psv0 = good.clone();
        put4(&mut psv0.elements, 16 * bad + 4, 7);
        refuses(&psv0.bytes(), 1, 23, bad);
        put4(&mut psv0.elements, 16 * bad, u32::MAX);
        refuses(&psv0.bytes(), 1, 22, bad);
        accepts(&psv0.bytes(), 0);
        // A later bad name doesn't come before an earlier bad index.
        if bad + 1 < count {
            let mut psv0 = good.clone();
            put4(&mut psv0.elements, 16 * bad + 4, u32::MAX);
            put4(&mut psv0.elements, 16 * (bad + 1), u32::MAX);
            refuses(&psv0.bytes(), 2, 23, bad);
        }
        // A bad entry name comes after them all.
        let mut psv0 = good.clone();
        put4(&mut psv0.elements, 16 * bad + 4, u32::MAX);
        put4(&mut psv0.runtime, 48, u32::MAX);
        refuses(&psv0.bytes(), 3, 23, bad);
    }
}

#[test]
fn references_at_their_bounds() {
    let mut psv0 = Psv0::of_size(52);
    psv0.runtime[28] = 1;
    psv0.strings = b"ab\0cdefg".to_vec();
    psv0.elements = vec![0; 16];
    let expected: [Option<&[u8]>; 9] =
        [Some(b"ab"), Some(b"b"), Some(b""), None, None, None, None, None, None];
    for (o, string) in expected.iter().enumerate() {
        psv0.elements[0] = o as u8;
        match string {
            Some(string) => {
                opened(&psv0, 1, |opening| assert_eq!(opening.string(0), Ok(text(string))))
            }
            None => refuses(&psv0.bytes(), 1, 22, 0),
        }
    }
    // The same for the entry name.
    psv0.elements[0] = 0;
    for (o, string) in expected.iter().enumerate() {
        psv0.runtime[48] = o as u8;
        match string {
            Some(string) => {
                opened(&psv0, 3, |opening| assert_eq!(opening.entry_name(), Ok(text(string))))
            }
            None => refuses(&psv0.bytes(), 3, 24, 0),
        }
    }
    // No table, no good reference.
    psv0.strings.clear();
    refuses(&psv0.bytes(), 1, 22, 0);
    psv0.runtime[28] = 0;
    psv0.elements.clear();
    psv0.runtime[48] = 0;
    refuses(&psv0.bytes(), 3, 24, 0);
    accepts(&psv0.bytes(), 2);
    // A table without a zero is fine where nothing points into it.
    let mut psv0 = Psv0::of_size(48);
    psv0.strings = b"abcd".to_vec();
    accepts(&psv0.bytes(), 3);
}

#[test]
fn index_arrays_by_hand() {
    let mut psv0 = Psv0::of_size(36);
    psv0.runtime[28] = 1;
    psv0.strings = vec![0; 4];
    // Small numbers too: none of them counts anything.
    psv0.indices = vec![5, 3, 9, 1, 0, u32::MAX];
    let expected: [(u32, u8, Option<&[u32]>); 17] = [
        (0, 0, Some(&[])),
        (0, 1, Some(&[5])),
        (0, 2, Some(&[5, 3])),
        (0, 6, Some(&[5, 3, 9, 1, 0, u32::MAX])),
        (0, 7, None),
        (1, 4, Some(&[3, 9, 1, 0])),
        (2, 1, Some(&[9])),
        (2, 4, Some(&[9, 1, 0, u32::MAX])),
        (2, 5, None),
        (3, 2, Some(&[1, 0])),
        (4, 1, Some(&[0])),
        (4, 2, Some(&[0, u32::MAX])),
        (5, 0, Some(&[])),
        (5, 1, Some(&[u32::MAX])),
        (5, 2, None),
        (6, 0, Some(&[])),
        (7, 0, None),
    ];
    for (i, rows, array) in expected {
        psv0.elements = element(0, i, [rows, 0, 0, 0, 0, 0, 0, 0]);
        match array {
            Some(array) => opened(&psv0, 1, |opening| {
                assert_eq!(opening.array(0), Ok(array.to_vec()), "{i} {rows}");
                assert_eq!(opening.array_bytes(0), Ok(&words(array)[..]), "{i} {rows}");
            }),
            None => refuses(&psv0.bytes(), 1, 23, 0),
        }
    }
    // The table of a real shader: one number, 0, for every element of one row.
    psv0.indices = vec![0];
    psv0.elements = element(0, 0, [1, 0, 0, 0, 0, 0, 0, 0]);
    opened(&psv0, 1, |opening| assert_eq!(opening.array(0), Ok(vec![0])));
}

#[test]
fn index_arrays_at_every_edge_and_place() {
    for (n, i, rows, good) in INDEX_EDGES {
        for place in 0..5 {
            for size in [16, 20, 32] {
                let psv0 = with_reference(n, place, i, rows).wider_elements(size);
                accepts(&psv0.bytes(), 0);
                for edition in 1..=3 {
                    if !good {
                        refuses(&psv0.bytes(), edition, 23, place);
                        continue;
                    }
                    opened(&psv0, edition, |opening| {
                        assert_eq!(opening.element(place).unwrap().rows, u32::from(rows));
                        for (e, array) in arrays_of(n, place, i, rows).iter().enumerate() {
                            assert_eq!(opening.array(e).as_ref(), Ok(array));
                            assert_eq!(opening.array_bytes(e), Ok(&words(array)[..]));
                        }
                        assert_eq!(opening.array(5), refused(26, 0));
                    });
                }
            }
        }
    }
}

#[test]
fn index_arrays_may_share_numbers() {
    // One twice, one inside another, three that overlap, two side by side, and
    // empty ones inside and at the end.
    let arrays: [(u32, u8, &[u32]); 10] = [
        (0, 5, &[40, 0, 2, 1, 50]),
        (0, 5, &[40, 0, 2, 1, 50]),
        (1, 3, &[0, 2, 1]),
        (0, 2, &[40, 0]),
        (2, 3, &[2, 1, 50]),
        (1, 2, &[0, 2]),
        (3, 1, &[1]),
        (4, 1, &[50]),
        (2, 0, &[]),
        (5, 0, &[]),
    ];
    let mut psv0 = Psv0::of_size(36);
    psv0.runtime[28..31].copy_from_slice(&[5, 0, 5]);
    psv0.strings = vec![0; 4];
    psv0.indices = vec![40, 0, 2, 1, 50];
    for (i, rows, _) in arrays {
        psv0.elements.extend(element(0, i, [rows, 7, 7, 7, 7, 7, 7, 7]));
    }
    for size in [16, 20, 24, 64] {
        opened(&psv0.wider_elements(size), 1, |opening| {
            for (e, (_, _, array)) in arrays.iter().enumerate() {
                assert_eq!(opening.array(e), Ok(array.to_vec()), "element {e}");
            }
        });
    }
}

#[test]
fn bad_index_references_among_most_elements() {
    let mut psv0 = Psv0::of_size(36);
    psv0.runtime[28..31].copy_from_slice(&[255; 3]);
    psv0.strings = vec![0; 4];
    psv0.indices = (0..255).collect();
    psv0.elements = element(0, 0, [255, 0, 0, 0, 0, 0, 0, 0]).repeat(765);
    opened(&psv0, 1, |opening| {
        for e in 0..765 {
            assert_eq!(opening.array(e), Ok((0..255).collect()));
        }
    });
    // The place counts over all three lists, and is that of the first.
    for bad in [764, 510, 509, 382, 255, 254, 1, 0] {
        put4(&mut psv0.elements, 16 * bad + 4, 1);
        refuses(&psv0.bytes(), 1, 23, bad);
    }
}

#[test]
fn index_arrays_of_other_makers() {
    let vectors = Path::new(env!("CARGO_MANIFEST_DIR")).join("../../tests/vectors");
    let arrays = |path: &Path| {
        let bytes = std::fs::read(path).expect("the vector is there");
        let opening = open(&bytes, 3).expect("it opens");
        let count = opening.element_count().unwrap();
        (0..count).map(|i| opening.array(i).unwrap()).collect::<Vec<_>>()
    };
    let mut elements = 0;
    for entry in std::fs::read_dir(vectors.join("real")).expect("the vectors are there") {
        let path = entry.unwrap().path();
        if path.to_str().unwrap().contains("Shader_") {
            let shown = arrays(&path);
            assert_eq!(shown, vec![vec![0]; shown.len()], "{path:?}");
            elements += shown.len();
        }
    }
    assert_eq!(elements, 32);
    let shown = arrays(&vectors.join("llvm/llvm19_yaml_GeometryMaskVectors_refit.bin"));
    assert_eq!(shown, [[0], [2], [3], [0], [0]]);
    // Three of these begin at the same number.
    let shown = arrays(&vectors.join("llvm/llvm19_yaml_DomainMaskVectors_numbers.bin"));
    let expected: [&[u32]; 6] = [&[0], &[0], &[0, 1, 2, 3], &[0, 1], &[0], &[0, 1, 2]];
    assert_eq!(shown, expected);
}

#[test]
fn order_of_refusals() {
    // All wrong at once; each step mends the one that was named.
    let mut psv0 = hull();
    psv0.runtime[24] = 16;
    psv0.runtime[25] = 2;
    psv0.runtime[33] = 1;
    put4(&mut psv0.elements, 16, 99);
    put4(&mut psv0.elements, 20, 99);
    put4(&mut psv0.runtime, 48, 99);
    let resources = 4 + 52;
    let strings = psv0.strings_at();
    let indices = psv0.indices_at();
    let elements = psv0.elements_at();
    let mut data = psv0.bytes();
    data.truncate(data.len() - 1);
    put4(&mut data, 0, 54);
    put4(&mut data, resources + 4, 17);
    put4(&mut data, strings, 3);
    put4(&mut data, indices, 1 << 20);
    put4(&mut data, elements, 18);
    let runtime = 4;
    refuses(&data[..3], 3, 12, 0);
    refuses(&data, 3, 12, 0);
    put4(&mut data, 0, 1 << 20);
    refuses(&data, 3, 13, 0);
    put4(&mut data, 0, 52);
    refuses(&data, 3, 14, 0);
    put4(&mut data, resources + 4, 24);
    refuses(&data, 3, 15, 0);
    data[runtime + 24] = 3;
    refuses(&data, 3, 16, 0);
    data[runtime + 25] = 1;
    refuses(&data, 3, 17, 0);
    data[runtime + 33] = 0;
    refuses(&data, 3, 18, 0);
    put4(&mut data, strings, 16);
    refuses(&data, 3, 19, 0);
    put4(&mut data, indices, 6);
    refuses(&data, 3, 20, 0);
    put4(&mut data, elements, 16);
    refuses(&data, 3, 21, 0);
    data.push(0);
    refuses(&data, 3, 22, 1);
    put4(&mut data, elements + 4 + 16, 0);
    refuses(&data, 3, 23, 1);
    put4(&mut data, elements + 4 + 20, 6);
    refuses(&data, 3, 24, 0);
    accepts(&data, 2);
    put4(&mut data, runtime + 48, 0);
    accepts(&data, 3);
}

// Fields and queries.

#[test]
fn fields_by_edition() {
    let whole = Runtime {
        stage_info: [
            0xa0, 0xa1, 0xa2, 0xa3, 0xa4, 0xa5, 0xa6, 0xa7, 0xa8, 0xa9, 0xaa, 0xab, 0xac, 0xad,
            0xae, 0xaf,
        ],
        minimum_wave_lanes: Some(4),
        maximum_wave_lanes: Some(0xffff_ffff),
        stage: Some(3),
        uses_view_id: Some(1),
        max_vertex_count: None,
        patch_vectors: Some(9),
        mesh_topology: None,
        input_elements: Some(1),
        output_elements: Some(1),
        patch_elements: Some(1),
        input_vectors: Some(3),
        output_vectors: [Some(9), Some(0), Some(0), Some(0)],
        threads: [None; 3],
        entry_name_offset: Some(1),
    };
    opened(&hull(), 3, |opening| assert_eq!(opening.runtime, whole));
    let second = Runtime { entry_name_offset: None, ..whole };
    opened(&hull(), 2, |opening| assert_eq!(opening.runtime, second));
    opened(&hull(), 1, |opening| assert_eq!(opening.runtime, second));
    let zeroth = Runtime {
        stage_info: whole.stage_info,
        minimum_wave_lanes: whole.minimum_wave_lanes,
        maximum_wave_lanes: whole.maximum_wave_lanes,
        ..Runtime::default()
    };
    opened(&hull(), 0, |opening| assert_eq!(opening.runtime, zeroth));
}

#[test]
fn fields_by_stage() {
    for stage in 0..=15u8 {
        let mut psv0 = Psv0::of_size(52);
        psv0.strings = vec![0; 4];
        psv0.runtime[24] = stage;
        psv0.runtime[26] = 0x34;
        psv0.runtime[27] = 0x12;
        put4(&mut psv0.runtime, 36, 1);
        put4(&mut psv0.runtime, 40, 0x0203_0405);
        put4(&mut psv0.runtime, 44, u32::MAX);
        for edition in 0..=3 {
            opened(&psv0, edition, |opening| {
                let runtime = &opening.runtime;
                let at_least =
                    |least: usize, stages: &[u8]| edition >= least && stages.contains(&stage);
                let first = at_least(1, &[2]).then_some(0x1234);
                assert_eq!(runtime.max_vertex_count, first);
                let patch = at_least(1, &[3, 4, 13]).then_some(0x34);
                assert_eq!(runtime.patch_vectors, patch);
                let topology = at_least(1, &[13]).then_some(0x12);
                assert_eq!(runtime.mesh_topology, topology);
                let threads = if at_least(2, &[5, 13, 14]) {
                    [Some(1), Some(0x0203_0405), Some(u32::MAX)]
                } else {
                    [None; 3]
                };
                assert_eq!(runtime.threads, threads);
                assert_eq!(runtime.entry_name_offset, (edition == 3).then_some(0));
                assert_eq!(runtime.stage, (edition > 0).then_some(u32::from(stage)));
            });
        }
    }
}

#[test]
fn resource_records_are_stepped_by_the_stated_size() {
    for size in [16usize, 20, 24, 28, 36] {
        let mut psv0 = Psv0::of_size(52);
        psv0.strings = vec![0; 4];
        psv0.resource_size = size as u32;
        for r in 0..3u32 {
            let mut record = words(&[r, r + 10, r + 20, u32::MAX - r, r + 40, r + 50, 77, 88, 99]);
            record.truncate(size);
            psv0.resources.extend(record);
        }
        for edition in 0..=3 {
            opened(&psv0, edition, |opening| {
                let long = size >= 24 && edition >= 2;
                assert_eq!(opening.resource_count(), 3);
                for r in 0..3u32 {
                    let expected = Resource {
                        resource_type: r,
                        space: r + 10,
                        lower: r + 20,
                        upper: u32::MAX - r,
                        kind: long.then_some(r + 40),
                        flags: long.then_some(r + 50),
                    };
                    assert_eq!(opening.resource(r as usize), Ok(expected));
                }
                assert_eq!(opening.resource(3), refused(26, 0));
                assert_eq!(opening.resource(usize::MAX), refused(26, 0));
                assert_eq!(opening.handed.resources, &psv0.resources[..]);
            });
        }
    }
    // The file's edition bounds the edition read: 24 bytes, but edition 1.
    let mut psv0 = Psv0::of_size(44);
    psv0.resources = vec![1; 24];
    opened(&psv0, 3, |opening| {
        assert_eq!(opening.resource(0).unwrap().kind, None);
        assert_eq!(opening.resource(0).unwrap().flags, None);
    });
}

#[test]
fn element_records_are_stepped_by_the_stated_size() {
    for size in [16usize, 20, 32] {
        let psv0 = hull().wider_elements(size);
        for edition in 1..=3 {
            opened(&psv0, edition, |opening| {
                assert_eq!(opening.element_count(), Some(3));
                let first = Element {
                    name_offset: 6,
                    index_reference: 1,
                    rows: 3,
                    start_row: 2,
                    columns: 3,
                    start_column: 2,
                    allocated: 1,
                    semantic: 4,
                    component: 5,
                    interpolation: 6,
                    dynamic_mask: 15,
                    stream: 3,
                    reserved: 7,
                };
                assert_eq!(opening.element(0), Ok(first));
                let second = opening.element(1).unwrap();
                assert_eq!((second.columns, second.start_column, second.allocated), (4, 1, 0));
                assert_eq!((second.dynamic_mask, second.stream, second.reserved), (1, 2, 0));
                let third = opening.element(2).unwrap();
                assert_eq!((third.rows, third.start_row, third.reserved), (3, 255, 255));
                assert_eq!((third.columns, third.start_column, third.allocated), (15, 3, 1));
                assert_eq!(opening.string(0), Ok(text(b"POS")));
                assert_eq!(opening.string(1), Ok(text(b"B")));
                assert_eq!(opening.string(2), Ok(text(b"")));
                assert_eq!(opening.array(0), Ok(vec![71, 72, 73]));
                assert_eq!(opening.array(1), Ok(vec![]));
                assert_eq!(opening.array(2), Ok(vec![73, 74, 75]));
                assert_eq!(opening.element(3), refused(26, 0));
                assert_eq!(opening.string(3), refused(26, 0));
                assert_eq!(opening.array(3), refused(26, 0));
                assert_eq!(opening.array_bytes(3), refused(26, 0));
                assert_eq!(opening.layout.element_size, Some(size));
                assert_eq!(opening.handed.elements, &psv0.elements[..]);
            });
        }
    }
}

#[test]
fn edition_zero_shows_no_later_section() {
    opened(&hull(), 0, |opening| {
        assert_eq!((opening.file_edition, opening.edition_read), (3, 0));
        assert_eq!(opening.string_length(), None);
        assert_eq!(opening.index_count(), None);
        assert_eq!(opening.element_count(), None);
        assert_eq!(opening.resource_count(), 2);
        for number in 0..12 {
            assert_eq!(opening.mask(number), refused(26, 0));
        }
        assert_eq!(opening.element(0), refused(26, 0));
        assert_eq!(opening.string(0), refused(26, 0));
        assert_eq!(opening.array(0), refused(26, 0));
        assert_eq!(opening.entry_name(), refused(26, 0));
        assert_eq!(opening.handed.runtime, &hull().runtime[..24]);
        assert_eq!(opening.handed.resources, &hull().resources[..]);
        let empty = [
            opening.handed.strings,
            opening.handed.indices,
            opening.handed.elements,
            opening.handed.masks,
        ];
        assert_eq!(empty, [&[][..]; 4]);
    });
}

#[test]
fn handed_bytes_by_edition() {
    let psv0 = hull();
    for (edition, size) in [(1, 36), (2, 48), (3, 52)] {
        opened(&psv0, edition, |opening| {
            assert_eq!(opening.handed.runtime, &psv0.runtime[..size]);
            assert_eq!(opening.handed.resources, &psv0.resources[..]);
            assert_eq!(opening.handed.strings, &psv0.strings[..]);
            assert_eq!(opening.handed.indices, &words(&psv0.indices)[..]);
            assert_eq!(opening.handed.elements, &psv0.elements[..]);
            assert_eq!(opening.handed.masks, &psv0.masks[..]);
            assert_eq!(opening.string_length(), Some(16));
            assert_eq!(opening.index_count(), Some(6));
            assert_eq!(opening.layout.end, psv0.bytes().len());
        });
    }
}

#[test]
fn bytes_after_the_last_section_are_ignored() {
    for mut psv0 in [box_m(), box_c(), hull()] {
        let end = psv0.bytes().len();
        for length in 0..9 {
            psv0.after = vec![0xff; length];
            for edition in 0..=3 {
                opened(&psv0, edition, |opening| {
                    assert!(opening.layout.end <= end);
                    assert_eq!(opening.layout.end == end, edition > 0 || end == 32);
                });
            }
        }
    }
}

#[test]
fn parts_of_an_opening() {
    let data = hull().bytes();
    let bytes = container(&[(b"VERS", b"v"), (b"PSV0", &data), (b"DXIL", b"code")]);
    let opening = open(&bytes, 2).unwrap();
    assert_eq!(opening.part(*b"VERS"), Ok((0, &b"v"[..])));
    assert_eq!(opening.part(*b"PSV0"), Ok((1, &data[..])));
    assert_eq!(opening.part(*b"DXIL"), Ok((2, &b"code"[..])));
    assert_eq!(opening.part(*b"HASH"), refused(26, 0));
    // PSV0 data alone has no parts.
    let opening = open_psv0(&data, 2).unwrap();
    assert!(opening.parts.is_empty());
    assert_eq!(opening.part(*b"PSV0"), refused(26, 0));
    assert_eq!(opening.part_occurrence(*b"PSV0", 0), refused(26, 0));
    assert_eq!(opening.part_occurrence(*b"PRIV", u64::MAX), refused(26, 0));
}

#[test]
fn several_private_parts_of_an_opening() {
    let data = hull().bytes();
    let bytes = container(&[
        (b"PRIV", b"first"),
        (b"PSV0", &data),
        (b"priv", b"other"),
        (b"PRIV", b""),
        (b"DXIL", b"code"),
        (b"PRIV", b"third"),
    ]);
    for edition in 0..=3 {
        let opening = open(&bytes, edition).unwrap();
        assert_eq!(opening.part(*b"PRIV"), Ok((0, &b"first"[..])), "the first is meant");
        assert_eq!(opening.part_occurrence(*b"PRIV", 0), Ok((0, &b"first"[..])));
        assert_eq!(opening.part_occurrence(*b"PRIV", 1), Ok((3, &b""[..])));
        assert_eq!(opening.part_occurrence(*b"PRIV", 2), Ok((5, &b"third"[..])));
        assert_eq!(opening.part_occurrence(*b"PSV0", 0), Ok((1, &data[..])));
        assert_eq!(opening.part_occurrence(*b"priv", 0), Ok((2, &b"other"[..])));
        // Past the last, and such as would be right at 8 or 32 bits.
        for occurrence in [3, 4, 256, 1 << 32, (1 << 32) + 2, 1 << 63, u64::MAX] {
            assert_eq!(opening.part_occurrence(*b"PRIV", occurrence), refused(26, 0));
        }
        for name in [*b"DXIL", *b"PSV0", *b"priv", *b"HASH"] {
            for occurrence in [1, 2, 1 << 32, u64::MAX] {
                assert_eq!(opening.part_occurrence(name, occurrence), refused(26, 0));
            }
        }
    }
    // A name that stood earlier is still nothing to open beside them.
    let twice = container(&[(b"PRIV", b""), (b"PSV0", &data), (b"PRIV", b""), (b"PSV0", &data)]);
    assert_eq!(answer(open(&twice, 3)), refused(9, 3));
    // 10 and 11 come next.
    let private = container(&[(b"PRIV", b"x"), (b"PRIV", b"y")]);
    assert_eq!(answer(open(&private, 3)), refused(10, 0));
    let code = container(&[(b"PRIV", b"x"), (b"DXIL", b"code"), (b"PRIV", b"y")]);
    assert_eq!(answer(open(&code, 3)), refused(11, 0));
}

#[test]
fn plain_form() {
    for psv0 in [box_m(), box_c(), hull()] {
        assert!(plain(&psv0.bytes()));
        let mut longer = psv0.clone();
        longer.runtime.extend_from_slice(&[0; 4]);
        assert!(!plain(&longer.bytes()), "S is no edition's size");
        let mut more = psv0.clone();
        more.after = vec![0];
        assert!(!plain(&more.bytes()), "something follows");
        let data = psv0.bytes();
        assert!(!plain(&data[..data.len() - 1]), "refused");
    }
    for (runtime, good) in [(24, 16), (36, 16), (48, 24), (52, 24)] {
        for size in [16, 20, 24, 28] {
            let mut psv0 = Psv0::of_size(runtime);
            psv0.strings = vec![0; 4];
            psv0.resource_size = size;
            psv0.resources = vec![0; 2 * size as usize];
            assert_eq!(plain(&psv0.bytes()), size == good, "{runtime} and {size}");
        }
    }
    for size in [16usize, 20] {
        let mut psv0 = Psv0::of_size(36);
        psv0.runtime[28] = 1;
        psv0.strings = vec![0; 4];
        psv0.element_size = size as u32;
        psv0.elements = vec![0; size];
        assert_eq!(plain(&psv0.bytes()), size == 16);
    }
    // Reader 3 must accept it, not only reader 2.
    let mut psv0 = box_c();
    psv0.runtime[48] = 8;
    assert!(open_psv0(&psv0.bytes(), 2).is_ok());
    assert!(!plain(&psv0.bytes()));
    assert!(!plain(&[]));
}
