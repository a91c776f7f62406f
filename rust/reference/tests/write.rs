//! The PSV0 writer and the assembler: orders of refusals, what they write, and
//! what they leave alone.

mod common;
use common::*;
use reference::{
    after_last_part, assemble, open, open_psv0, plain, table, table_part, table_part_occurrence,
    write_psv0, Refusal, LONGEST,
};

/// The writer's arguments.
#[derive(Clone)]
struct Write {
    edition: usize,
    runtime: Vec<u8>,
    resources: Vec<u8>,
    strings: Vec<u8>,
    indices: Vec<u8>,
    elements: Vec<u8>,
    masks: Vec<u8>,
}

impl Write {
    fn of(edition: usize, psv0: &Psv0) -> Write {
        Write {
            edition,
            runtime: psv0.runtime.clone(),
            resources: psv0.resources.clone(),
            strings: psv0.strings.clone(),
            indices: words(&psv0.indices),
            elements: psv0.elements.clone(),
            masks: psv0.masks.clone(),
        }
    }

    fn to(&self, out: &mut [u8]) -> Result<usize, Refusal> {
        write_psv0(
            self.edition,
            &self.runtime,
            &self.resources,
            &self.strings,
            &self.indices,
            &self.elements,
            &self.masks,
            out,
        )
    }

    /// The refusal, which must leave every byte of an output long enough, or
    /// of one too short, as it was.
    #[track_caller]
    fn refuses(&self, number: u8, place: usize) {
        for length in [0, 8, 4096] {
            let mut out = vec![0x5a; length];
            assert_eq!(self.to(&mut out), refused(number, place));
            assert!(out.iter().all(|byte| *byte == 0x5a));
        }
    }

    /// The bytes written; what follows them must be as it was.
    #[track_caller]
    fn writes(&self) -> Vec<u8> {
        let mut out = vec![0x5a; 4096];
        let length = self.to(&mut out).unwrap();
        assert!(out[length..].iter().all(|byte| *byte == 0x5a));
        let mut exact = vec![0xa5; length];
        assert_eq!(self.to(&mut exact), Ok(length));
        out.truncate(length);
        assert_eq!(out, exact);
        let mut short = vec![0x5a; length - 1];
        assert_eq!(self.to(&mut short), refused(28, 0));
        assert!(short.iter().all(|byte| *byte == 0x5a));
        out
    }
}

#[test]
fn writes_what_the_layout_says() {
    assert_eq!(Write::of(0, &box_m()).writes(), box_m().bytes());
    assert_eq!(Write::of(3, &box_c()).writes(), box_c().bytes());
    assert_eq!(Write::of(3, &hull()).writes(), hull().bytes());
    assert!(plain(&hull().bytes()));
    // By hand: edition 0 with one resource.
    let mut psv0 = Psv0::of_size(24);
    psv0.resources = words(&[1, 2, 3, 4]);
    let written = Write::of(0, &psv0).writes();
    assert_eq!(written, words(&[24, 0, 0, 0, 0, 0, 0, 1, 16, 1, 2, 3, 4]));
    // Edition 1, nothing in any section.
    let written = Write::of(1, &Psv0::of_size(36)).writes();
    assert_eq!(written, words(&[36, 0, 0, 0, 0, 0, 0, 0, 0, 0, 0, 0, 0]));
}

#[test]
fn editions_one_and_two() {
    for (edition, size, record) in [(1, 36, 16), (2, 48, 24)] {
        let mut psv0 = hull();
        psv0.runtime.truncate(size);
        psv0.resource_size = record;
        psv0.resources = (0..2 * record).map(|i| i as u8).collect();
        let written = Write::of(edition, &psv0).writes();
        assert_eq!(written, psv0.bytes());
        assert!(plain(&written));
        let opening = open_psv0(&written, 3).unwrap();
        assert_eq!((opening.file_edition, opening.edition_read), (edition, edition));
        assert_eq!(opening.resource_count(), 2);
    }
}

#[test]
fn read_and_written_again() {
    for psv0 in [box_m(), box_c(), hull()] {
        let data = psv0.bytes();
        let opening = open_psv0(&data, 3).unwrap();
        let handed = opening.handed;
        let mut out = vec![0; data.len()];
        let written = write_psv0(
            opening.file_edition,
            handed.runtime,
            handed.resources,
            handed.strings,
            handed.indices,
            handed.elements,
            handed.masks,
            &mut out,
        );
        assert_eq!(written, Ok(data.len()));
        assert_eq!(out, data);
    }
}

#[test]
fn an_edition_above_three_comes_first() {
    for edition in [4, usize::MAX] {
        let mut write = Write::of(edition, &hull());
        write.refuses(25, 0);
        write.runtime.clear();
        write.strings.push(1);
        write.refuses(25, 0);
    }
}

#[test]
fn wrong_lengths() {
    let good = Write::of(3, &hull());
    good.writes();
    for length in [0, 24, 36, 48, 51, 53, 56] {
        let mut write = good.clone();
        write.runtime.resize(length, 0);
        write.refuses(27, 0);
    }
    for edition in 0..3 {
        let mut write = good.clone();
        write.edition = edition;
        write.refuses(27, 0);
    }
    for length in [1, 16, 20, 23, 25, 32, 40, 47, 49] {
        let mut write = good.clone();
        write.resources.resize(length, 0);
        write.refuses(27, 0);
    }
    for length in [0, 24, 48, 72] {
        let mut write = good.clone();
        write.resources.resize(length, 0);
        write.writes();
    }
    for more in [1, 2, 3] {
        let mut write = good.clone();
        write.strings.resize(16 + more, 0);
        write.refuses(27, 0);
        let mut write = good.clone();
        write.indices.resize(24 + more, 0);
        write.refuses(27, 0);
    }
    for length in [0, 16, 32, 47, 49, 64, 3 * 20] {
        let mut write = good.clone();
        write.elements.resize(length, 0);
        write.refuses(27, 0);
    }
    let total = good.masks.len();
    for length in [0, 4, total - 4, total - 1, total + 1, total + 4] {
        let mut write = good.clone();
        write.masks.resize(length, 0);
        write.refuses(27, 0);
    }
}

#[test]
fn edition_zero_takes_only_resources() {
    let good = Write::of(0, &box_m());
    for section in 0..4 {
        let mut write = good.clone();
        let bytes = match section {
            0 => &mut write.strings,
            1 => &mut write.indices,
            2 => &mut write.elements,
            _ => &mut write.masks,
        };
        *bytes = vec![0; 16];
        write.refuses(27, 0);
    }
    for (length, fine) in [(16, true), (32, true), (48, true), (24, false), (15, false)] {
        let mut write = good.clone();
        write.resources = vec![3; length];
        if fine {
            assert_eq!(write.writes().len(), 32 + 4 + length);
        } else {
            write.refuses(27, 0);
        }
    }
}

#[test]
fn the_mask_total_before_the_judging() {
    // UsesViewID 2 brings no view masks, and other streams count in any stage.
    let mut psv0 = Psv0::of_size(36);
    psv0.runtime[25] = 2;
    psv0.runtime[31] = 1;
    psv0.runtime[32..36].copy_from_slice(&[1, 0, 0, 9]);
    for words in 0..20 {
        let mut write = Write::of(1, &psv0);
        write.masks = vec![0; 4 * words];
        if words == 4 + 8 {
            write.refuses(16, 0);
        } else {
            write.refuses(27, 0);
        }
    }
    psv0.runtime[25] = 1;
    psv0.masks = vec![0; 4 * (1 + 2 + 4 + 8)];
    Write::of(1, &psv0).refuses(17, 0);
    psv0.runtime[24] = 200;
    Write::of(1, &psv0).refuses(15, 0);
    psv0.runtime[24] = 2;
    Write::of(1, &psv0).writes();
}

#[test]
fn too_long() {
    // 4 + 24 + 4 + 4 bytes and records of 16 leave 12 bytes to the limit.
    let record = vec![0; 24];
    let most = (LONGEST - 36) / 16 * 16;
    let mut out = vec![0x5a; LONGEST + 64];
    let length = write_psv0(0, &record, &vec![1; most], &[], &[], &[], &[], &mut out).unwrap();
    assert_eq!(length, LONGEST - 12);
    assert_eq!(open_psv0(&out[..length], 3).unwrap().resource_count(), most / 16);
    assert!(out[length..].iter().all(|byte| *byte == 0x5a));
    let mut out = vec![0x5a; 64];
    let refusal = write_psv0(0, &record, &vec![1; most + 16], &[], &[], &[], &[], &mut out);
    assert_eq!(refusal, refused(2, 0));
    assert_eq!(out, vec![0x5a; 64]);
    // With strings the limit is met exactly. 2 comes after 27 and before 15.
    let mut record = vec![0; 36];
    let most = LONGEST - (4 + 36 + 4 + 4 + 4);
    let mut out = vec![0x5a; LONGEST];
    let strings = vec![1; most + 4];
    let mut try_with = |record: &[u8], strings: &[u8]| {
        write_psv0(1, record, &[], strings, &[], &[], &[], &mut out)
    };
    assert_eq!(try_with(&record, &strings[..most]), Ok(LONGEST));
    assert_eq!(try_with(&record, &strings), refused(2, 0));
    record[24] = 16;
    assert_eq!(try_with(&record, &strings), refused(2, 0));
    assert_eq!(try_with(&record, &strings[..most]), refused(15, 0));
    assert_eq!(try_with(&record, &strings[..most + 3]), refused(27, 0));
    assert_eq!(try_with(&record[..32], &strings), refused(27, 0));
}

#[test]
fn judged_as_by_reader_three() {
    let good = Write::of(3, &hull());
    let mut write = good.clone();
    write.runtime[33] = 1;
    write.masks.resize(write.masks.len() + 4 * (1 + 3 * 4), 0);
    write.refuses(17, 0);
    for i in 0..3 {
        let mut write = good.clone();
        put4(&mut write.elements, 16 * i, 16);
        write.refuses(22, i);
        let mut write = good.clone();
        put4(&mut write.elements, 16 * i + 4, 7);
        put4(&mut write.runtime, 48, 16);
        write.refuses(23, i);
    }
    let mut write = good.clone();
    put4(&mut write.runtime, 48, 16);
    write.refuses(24, 0);
    // In edition 2 there is no entry name to judge.
    write.edition = 2;
    write.runtime.truncate(48);
    write.writes();
}

#[test]
fn index_references_at_every_edge_and_place() {
    for (n, i, rows, good) in INDEX_EDGES {
        for place in 0..5 {
            let mut psv0 = with_reference(n, place, i, rows);
            for (edition, size) in [(3, 52), (2, 48), (1, 36)] {
                psv0.runtime.truncate(size);
                let write = Write::of(edition, &psv0);
                if !good {
                    write.refuses(23, place);
                    continue;
                }
                let written = write.writes();
                assert_eq!(written, psv0.bytes());
                assert!(plain(&written));
                let opening = open_psv0(&written, 3).unwrap();
                for (e, array) in arrays_of(n, place, i, rows).iter().enumerate() {
                    assert_eq!(opening.array(e).as_ref(), Ok(array));
                }
            }
        }
    }
}

#[test]
fn the_first_bad_index_reference() {
    let mut write = Write::of(3, &with_reference(6, 4, 7, 0));
    write.refuses(23, 4);
    // One row more, then one number fewer than the whole table takes.
    write.elements[16 * 2 + 8] = 7;
    write.refuses(23, 2);
    write.indices.truncate(4 * 5);
    write.refuses(23, 0);
    write.indices.clear();
    write.refuses(23, 0);
    // 27 comes before it, and so does 22 for the same element.
    let mut other = write.clone();
    other.indices.push(0);
    other.refuses(27, 0);
    put4(&mut write.elements, 16, 4);
    write.refuses(23, 0);
    put4(&mut write.elements, 0, 4);
    write.refuses(22, 0);
}

#[test]
fn order_of_the_writers_refusals() {
    let mut write = Write::of(9, &hull());
    write.strings.push(b'a');
    put4(&mut write.elements, 0, 99);
    put4(&mut write.elements, 4, 99);
    put4(&mut write.runtime, 48, 99);
    write.refuses(25, 0);
    write.edition = 3;
    write.refuses(27, 0);
    write.strings.pop();
    write.refuses(22, 0);
    put4(&mut write.elements, 0, 0);
    write.refuses(23, 0);
    put4(&mut write.elements, 4, 0);
    write.refuses(24, 0);
    put4(&mut write.runtime, 48, 0);
    let mut out = [0x5a; 8];
    assert_eq!(write.to(&mut out), refused(28, 0));
    assert_eq!(out, [0x5a; 8]);
    write.writes();
}

// The assembler.

fn assembled(names: &[u8], sizes: &[u32], data: &[u8]) -> Vec<u8> {
    let mut out = vec![0x5a; 4096];
    let digest: Vec<u8> = (1..17).collect();
    let length = assemble(names, sizes, data, &digest, &mut out).unwrap();
    assert!(out[length..].iter().all(|byte| *byte == 0x5a));
    let mut exact = vec![0; length];
    assert_eq!(assemble(names, sizes, data, &digest, &mut exact), Ok(length));
    out.truncate(length);
    assert_eq!(out, exact);
    let mut short = vec![0x5a; length - 1];
    assert_eq!(assemble(names, sizes, data, &digest, &mut short), refused(28, 0));
    assert!(short.iter().all(|byte| *byte == 0x5a));
    out
}

#[track_caller]
fn not_assembled(
    names: &[u8],
    sizes: &[u32],
    data: &[u8],
    digest: &[u8],
    number: u8,
    place: usize,
) {
    for length in [0, 4096] {
        let mut out = vec![0x5a; length];
        let answer = assemble(names, sizes, data, digest, &mut out);
        assert_eq!(answer, refused(number, place));
        assert!(out.iter().all(|byte| *byte == 0x5a));
    }
}

#[test]
fn a_container_by_hand() {
    let bytes = assembled(b"AAAABBBBCCCC", &[1, 0, 2], b"xyz");
    let mut expected = b"DXBC".to_vec();
    expected.extend(1..17);
    expected.extend([1, 0, 0, 0]);
    // Headers at 44 and, after a byte of data and three of filler, at 56 and 64.
    expected.extend(words(&[74, 3, 44, 56, 64]));
    expected.extend(b"AAAA\x01\0\0\0x\0\0\0");
    expected.extend(b"BBBB\0\0\0\0");
    expected.extend(b"CCCC\x02\0\0\0yz");
    assert_eq!(bytes, expected);
    let parts = table(&bytes).unwrap();
    let seen: Vec<_> = parts.iter().map(|part| (part.name, part.data(&bytes))).collect();
    assert_eq!(seen, [(*b"AAAA", &b"x"[..]), (*b"BBBB", b""), (*b"CCCC", b"yz")]);
}

#[test]
fn containers_without_parts_and_with_most() {
    let bytes = assembled(b"", &[], b"");
    assert_eq!(bytes.len(), 32);
    assert_eq!(table(&bytes), Ok(vec![]));
    let names: Vec<u8> = (0..96).flat_map(|i| [b'A', b'B', b'C', i]).collect();
    let bytes = assembled(&names, &[3; 96], &[9; 3 * 96]);
    let parts = table(&bytes).unwrap();
    assert_eq!(parts.len(), 96);
    for (i, part) in parts.iter().enumerate() {
        assert_eq!(part.offset, 32 + 4 * 96 + 12 * i);
        assert_eq!(part.data(&bytes), &[9; 3]);
    }
    assert_eq!(bytes.len(), 32 + 4 * 96 + 12 * 96 - 1, "no filler after the last part");
}

#[test]
fn private_parts_by_hand() {
    let bytes = assembled(b"PRIVDXILPRIVPRIV", &[1, 0, 2, 0], b"xyz");
    let mut expected = b"DXBC".to_vec();
    expected.extend(1..17);
    expected.extend([1, 0, 0, 0]);
    // Three bytes of filler after the first part, two after the third.
    expected.extend(words(&[88, 4, 48, 60, 68, 80]));
    expected.extend(b"PRIV\x01\0\0\0x\0\0\0");
    expected.extend(b"DXIL\0\0\0\0");
    expected.extend(b"PRIV\x02\0\0\0yz\0\0");
    expected.extend(b"PRIV\0\0\0\0");
    assert_eq!(bytes, expected);
    let entries = [
        part(b"PRIV", 48, 1, 0, 0),
        part(b"DXIL", 60, 0, 0, 3),
        part(b"PRIV", 68, 2, 1, 0),
        part(b"PRIV", 80, 0, 2, 2),
    ];
    assert_eq!(table(&bytes).unwrap(), entries);
    assert_eq!(after_last_part(&bytes), Ok(&[][..]), "the file ends with the last part");
    // Each is found again by its number.
    assert_eq!(table_part(&bytes, *b"PRIV"), Ok((0, &b"x"[..])));
    for (occurrence, found) in [(0, (0, &b"x"[..])), (1, (2, b"yz")), (2, (3, b""))] {
        assert_eq!(table_part_occurrence(&bytes, *b"PRIV", occurrence), Ok(found));
    }
    assert_eq!(table_part_occurrence(&bytes, *b"PRIV", 3), refused(26, 0));
}

#[test]
fn most_private_parts_assembled() {
    // Part i has i bytes that say so.
    let sizes: Vec<u32> = (0..96).collect();
    let data: Vec<u8> = (0..96).flat_map(|i| vec![i; usize::from(i)]).collect();
    let mut out = vec![0x5a; 8192];
    let length = assemble(&b"PRIV".repeat(96), &sizes, &data, &[7; 16], &mut out).unwrap();
    let bytes = &out[..length];
    for i in 0..96u8 {
        let found = table_part_occurrence(bytes, *b"PRIV", u64::from(i));
        assert_eq!(found, Ok((usize::from(i), &vec![i; usize::from(i)][..])));
    }
    assert_eq!(table_part_occurrence(bytes, *b"PRIV", 96), refused(26, 0));
    // Filler is gaps: of four parts in a row 0, 3, 2 and 1 bytes follow, and none the last.
    let gaps: Vec<usize> = table(bytes).unwrap().iter().map(|part| part.gap).collect();
    assert_eq!(gaps[..6], [0, 0, 3, 2, 1, 0]);
    assert_eq!(gaps.iter().sum::<usize>(), 24 * (3 + 2 + 1) - 1);
    assert_eq!(length, 32 + 4 * 96 + 143 + 8 * 96 + 4560);
}

#[test]
fn boxes_assembled() {
    let psv0 = box_m().bytes();
    let data = [b"code".to_vec(), psv0].concat();
    let bytes = assembled(b"DXILPSV0", &[4, 32], &data);
    assert_eq!(bytes.len(), 92);
    let opening = open(&bytes, 3).unwrap();
    assert_eq!((opening.parts[0].offset, opening.parts[1].offset), (40, 52));
}

#[test]
fn the_assemblers_lengths() {
    let digest = [0; 16];
    not_assembled(b"AAA", &[1], b"x", &digest, 27, 0);
    not_assembled(b"AAAAB", &[1], b"x", &digest, 27, 0);
    not_assembled(b"AAAABBBB", &[1], b"x", &digest, 27, 0);
    not_assembled(b"", &[1], b"x", &digest, 27, 0);
    not_assembled(b"AAAA", &[], b"", &digest, 27, 0);
    not_assembled(b"AAAA", &[1], b"x", &digest[..15], 27, 0);
    not_assembled(b"AAAA", &[1], b"x", &[0; 17], 27, 0);
    not_assembled(b"AAAA", &[1], b"", &digest, 27, 0);
    not_assembled(b"AAAA", &[1], b"xy", &digest, 27, 0);
    not_assembled(b"", &[], b"x", &digest, 27, 0);
    // Sums that would come out right at 32 bits.
    not_assembled(b"AAAABBBB", &[u32::MAX, 2], b"x", &digest, 27, 0);
    not_assembled(b"AAAABBBB", &[1 << 31, 1 << 31], b"", &digest, 27, 0);
}

#[test]
fn order_of_the_assemblers_refusals() {
    let digest = [0; 16];
    let names = [b'A'; 4 * 97];
    not_assembled(&names, &[1; 97], &[0; 96], &digest, 27, 0);
    not_assembled(&names, &[1; 97], &[0; 97], &digest, 6, 0);
    not_assembled(&names[..4 * 96], &[1; 96], &[0; 96], &digest, 9, 1);
    not_assembled(b"AAAABBBBCCCCBBBBAAAA", &[0; 5], b"", &digest, 9, 3);
    let long = vec![0; LONGEST];
    let sizes = [LONGEST as u32, 0];
    not_assembled(b"AAAAAAAA", &sizes, &long, &digest, 9, 1);
    not_assembled(b"AAAABBBB", &sizes, &long, &digest, 2, 0);
    // Private parts pass 9, and nothing else of the order.
    let private = b"PRIV".repeat(97);
    not_assembled(&private, &[1; 97], &[0; 96], &digest, 27, 0);
    not_assembled(&private, &[1; 97], &[0; 97], &digest, 6, 0);
    not_assembled(&private[..8], &sizes, &long, &digest, 2, 0);
    assert_eq!(assemble(&private[..8], &[0; 2], b"", &digest, &mut [0; 55]), refused(28, 0));
    assert_eq!(assemble(&private[..8], &[0; 2], b"", &digest, &mut [0; 56]), Ok(56));
}

#[test]
fn names_that_the_assembler_refuses() {
    let digest = [0; 16];
    let cases: [(&[u8], usize); 8] = [
        (b"DXILDXIL", 1),
        (b"PRIVPRIVDXILDXIL", 3),
        (b"DXILPRIVPRIVPRIVDXIL", 4),
        (b"PRIVDXILPRIVPSV0PSV0DXIL", 4),
        (b"privpriv", 1),
        (b"PRI\0PRIVPRI\0PRIV", 2),
        (b"PRIVprivPRIVpriv", 3),
        (b"VIRPPRIVPRIVVIRP", 3),
    ];
    for (names, place) in cases {
        let sizes = vec![1; names.len() / 4];
        let data = vec![b'x'; names.len() / 4];
        not_assembled(names, &sizes, &data, &digest, 9, place);
        // Without the part there and those after it nothing stood earlier.
        assembled(&names[..4 * place], &sizes[..place], &data[..place]);
    }
}

#[test]
fn the_longest_container() {
    let digest = [0; 16];
    let most = LONGEST - 44;
    let data = vec![7; most + 1];
    let mut out = vec![0x5a; LONGEST];
    let length = assemble(b"AAAA", &[most as u32], &data[..most], &digest, &mut out);
    assert_eq!(length, Ok(LONGEST));
    assert_eq!(table(&out).unwrap()[0].size, most);
    let mut out = vec![0x5a; 8];
    let longer = assemble(b"AAAA", &[most as u32 + 1], &data, &digest, &mut out);
    assert_eq!(longer, refused(2, 0));
    let exact = assemble(b"AAAA", &[most as u32], &data[..most], &digest, &mut out);
    assert_eq!(exact, refused(28, 0));
    assert_eq!(out, [0x5a; 8]);
    // Filler counts towards the file: 48 + 1 + 3 + 8 bytes before the second.
    let most = LONGEST - 60;
    let data = vec![7; most + 2];
    let mut out = vec![0; LONGEST];
    let length = assemble(b"AAAABBBB", &[1, most as u32], &data[..most + 1], &digest, &mut out);
    assert_eq!(length, Ok(LONGEST));
    let longer = assemble(b"AAAABBBB", &[1, most as u32 + 1], &data, &digest, &mut out);
    assert_eq!(longer, refused(2, 0));
}
