//! The boxes M and C of document 01 through the safe calls, the program header, the signature parts, the root signature, the strings,
//! several private parts, the settings files, the figures and the pairs of names of document 02, and the last field of every struct.

use qollqamir::*;

fn refused<T>(number: u8, place: usize) -> Result<T, Refusal> {
    Err(Refusal { number, place })
}

fn text(text: &str) -> Text<'_> {
    Text { bytes: text.as_bytes(), text, points: text.chars().count() }
}

/// A container of a DXIL part, whose data are a multiple of 4 bytes long, and a PSV0 part.
fn shader_of(dxil: &[u8], psv0: &[u8]) -> Vec<u8> {
    let mut out = vec![0xee; 56 + dxil.len() + psv0.len()];
    let data = [dxil, psv0].concat();
    let len = assemble(b"DXILPSV0", &[dxil.len() as u32, psv0.len() as u32], &data, &[7; 16], &mut out).unwrap();
    assert_eq!(len, out.len());
    out
}

fn shader(psv0: &[u8]) -> Vec<u8> {
    shader_of(b"code", psv0)
}

fn psv0_m(stated: u8, s: usize) -> Vec<u8> {
    let mut psv0 = vec![0; 4 + s + 4];
    psv0[0] = stated;
    psv0
}

fn box_m(stated: u8, s: usize) -> Vec<u8> {
    shader(&psv0_m(stated, s))
}

fn box_c(s: usize, offset: u8) -> Vec<u8> {
    shader(&psv0_c(s, offset))
}

fn psv0_c(s: usize, offset: u8) -> Vec<u8> {
    let mut psv0 = vec![0; 4 + s];
    psv0[0] = s as u8;
    psv0[4 + 24] = 5;
    psv0[4 + 44] = 9;
    psv0[4 + 48] = offset;
    psv0.extend_from_slice(&[0, 0, 0, 0, 8, 0, 0, 0]);
    psv0.extend_from_slice(b"\0main\0\0\0");
    psv0.extend_from_slice(&[0; 4]);
    psv0
}

/// DXIL data of version 6.10 with bitcode of version 252.11: 24 bytes of headers and 8 after them.
fn dxil(stage: u16, offset: u32, size: u32) -> Vec<u8> {
    let mut data = b"\x6a\xe1..\x78\x56\x34\x12DXIL\x0b\xfc\xe2\xe3..........bit...".to_vec();
    data[2..4].copy_from_slice(&stage.to_le_bytes());
    data[16..20].copy_from_slice(&offset.to_le_bytes());
    data[20..24].copy_from_slice(&size.to_le_bytes());
    data
}

#[test]
fn box_m_is_accepted_as_edition_0() {
    let bytes = box_m(24, 24);
    assert_eq!(bytes.len(), 92);
    let entries = table(&bytes).unwrap();
    let shown: Vec<_> = entries.iter().map(|e| (&e.part.name, e.part.offset, e.part.data.len(), e.occurrence, e.gap)).collect();
    assert_eq!(shown, [(b"DXIL", 40, 4, 0, 0), (b"PSV0", 52, 32, 0, 0)]);
    let psv0 = entries[1].part;
    for edition in 0..=3 {
        let m = Container::open(&bytes, edition).unwrap();
        assert_eq!((m.part_count(), m.edition(), m.file_edition(), m.edition_read()), (2, edition, 0, 0));
        assert_eq!(m.part(*b"PSV0"), Ok(psv0));
        assert_eq!(m.part(*b"HASH"), refused(26, 0));
        assert_eq!(m.runtime().minimum_wave_lanes, Some(0));
        assert_eq!(m.runtime().stage, None);
        assert_eq!(m.runtime().entry_name_offset, None);
        assert_eq!(m.lengths(), Lengths { resources: Some(0), strings: None, indices: None, elements: None });
        assert_eq!(m.stage_union(), [0; 16]);
        assert_eq!(m.entry_name(), refused(26, 0));
        assert_eq!(m.mask(0), refused(26, 0));
        assert_eq!(m.resource(0), refused(26, 0));
        assert_eq!(m.sections(), Sections { runtime: &[0; 24], ..Sections::default() });
        let alone = Psv0::open(psv0.data, edition).unwrap();
        assert_eq!(alone.runtime(), m.runtime());
    }
    assert_eq!(Container::open(&bytes, 4), refused(25, 0));
    assert_eq!(Container::open(&bytes[..31], 0), refused(1, 0));
    assert_eq!(table(&bytes[..91]), refused(5, 0));
    compares(&bytes, 1);
    compares(&bytes[..91], 0);
}

#[test]
fn other_sizes_of_m() {
    let longer = box_m(28, 28);
    assert_eq!(Container::open(&longer, 3).unwrap().file_edition(), 0);
    assert_eq!(Container::open(&box_m(26, 28), 3), refused(12, 0));
    assert_eq!(Container::open(&box_m(20, 24), 3), refused(12, 0));
    assert_eq!(Container::open(&box_m(32, 24), 3), refused(13, 0));
}

#[test]
fn box_c_has_an_entry_name() {
    let bytes = box_c(52, 1);
    assert_eq!(bytes.len(), 136);
    let c = Container::open(&bytes, 3).unwrap();
    assert_eq!(c.entry_name(), Ok(text("main")));
    assert_eq!(c.runtime().threads, [Some(0), Some(0), Some(9)]);
    assert_eq!(c.runtime().entry_name_offset, Some(1));
    assert_eq!(c.lengths(), Lengths { resources: Some(0), strings: Some(8), indices: Some(0), elements: Some(0) });
    assert_eq!(c.mask(10), Ok(&[][..]));
    assert_eq!(c.mask(11), refused(26, 0));
    let newest = Container::open_default(&bytes).unwrap();
    assert_eq!((newest.edition(), newest.edition_read(), newest.file_edition()), (3, 3, 3));
    assert_eq!(newest, c);
    assert_eq!(newest.entry_name(), Ok(text("main")));
    assert_eq!(Container::open(&bytes, 1).unwrap().entry_name(), refused(26, 0));

    assert_eq!(Container::open(&box_c(52, 5), 3).unwrap().entry_name(), Ok(text("")));
    assert_eq!(Container::open(&box_c(52, 8), 3), refused(24, 0));
    assert_eq!(Container::open_default(&box_c(52, 8)), refused(24, 0));
    for edition in 0..=2 {
        assert_eq!(Container::open(&box_c(52, 8), edition).unwrap().edition_read(), edition);
    }
    assert_eq!(Container::open(&box_c(56, 1), 3).unwrap().entry_name(), Ok(text("main")));
}

#[test]
fn last_fields() {
    // Two resources, one element, no vectors, so no masks.
    let mut runtime = [0; 52];
    runtime[24] = 13;
    runtime[28] = 1;
    let resources: Vec<u8> = (0..48).collect();
    // The element's array is its one row, the last number of the index table.
    let indices = *b"firstnumber!last";
    let mut elements = [0; 16];
    elements[4] = 3;
    elements[8] = 1;
    elements[15] = 0x99;
    let given =
        Sections { runtime: &runtime, resources: &resources, strings: b"A\0\0\0", indices: &indices, elements: &elements, masks: &[] };
    let mut out = [0xee; 256];
    assert_eq!(write_psv0(3, given, &mut out[..8]), refused(28, 0));
    assert_eq!(write_psv0(4, given, &mut out), refused(25, 0));
    assert_eq!(write_psv0(2, given, &mut out), refused(27, 0));
    let mut bad = elements;
    bad[8] = 2;
    assert_eq!(write_psv0(3, Sections { elements: &bad, ..given }, &mut out), refused(23, 0));
    assert_eq!(out, [0xee; 256]);
    let len = write_psv0(3, given, &mut out).unwrap();
    assert!(out[len..].iter().all(|byte| *byte == 0xee));

    let psv0 = Psv0::open(&out[..len], 3).unwrap();
    assert_eq!(psv0.sections(), given);
    let resource = psv0.resource(1).unwrap();
    assert_eq!((resource.binding_type, resource.flags), (Some(0x1b1a_1918), Some(0x2f2e_2d2c)));
    assert_eq!(psv0.resource(2), refused(26, 0));
    assert_eq!(psv0.element(0).unwrap().reserved, Some(0x99));
    assert_eq!(psv0.element_string(0), Ok(text("A")));
    assert_eq!(psv0.element_array(0), Ok(&b"last"[..]));
    assert_eq!(psv0.element_array(1), refused(26, 0));
    assert_eq!(psv0.lengths().elements, Some(1));
    assert_eq!(psv0.runtime().entry_name_offset, Some(0));
}

#[test]
fn names_and_refused_assemblies() {
    assert!(known(*b"VERS") && known(*b"DXBC") && !known(*b"dxil"));
    let mut out = [0xee; 64];
    assert_eq!(assemble(b"AAAAAAAA", &[0, 0], &[], &[0; 16], &mut out), refused(9, 1));
    assert_eq!(assemble(b"AAAA", &[0], &[], &[0; 15], &mut out), refused(27, 0));
    assert_eq!(assemble(b"AAAA", &[0], &[], &[0; 16], &mut out[..43]), refused(28, 0));
    assert_eq!(out, [0xee; 64]);
    assert_eq!(assemble(b"AAAA", &[0], &[], &[0; 16], &mut out), Ok(44));
    assert_eq!(table_part(&out[..44], *b"AAAA").unwrap().offset, 36);
    assert_eq!(Refusal { number: 8, place: 3 }.to_string(), "refused 8 3");
}

const PRIV: [u8; 4] = *b"PRIV";

/// What the table shows of a part that is laid out by hand, and its data.
struct Laid<'a> {
    name: &'a [u8; 4],
    gap: usize,
    offset: usize,
    occurrence: usize,
    data: &'a [u8],
}

fn laid<'a>(name: &'a [u8; 4], gap: usize, offset: usize, occurrence: usize, data: &'a [u8]) -> Laid<'a> {
    Laid { name, gap, offset, occurrence, data }
}

/// Lays out parts by their gaps and data, with bytes after the last one.
fn lay_out(parts: &[Laid<'_>], after: usize) -> Vec<u8> {
    let mut bytes = vec![0; 32 + 4 * parts.len()];
    bytes[..4].copy_from_slice(b"DXBC");
    bytes[20] = 1;
    bytes[28] = parts.len() as u8;
    for (i, part) in parts.iter().enumerate() {
        bytes.resize(bytes.len() + part.gap, 0xcc);
        let offset = bytes.len() as u32;
        put4(&mut bytes, 32 + 4 * i, offset);
        bytes.extend_from_slice(part.name);
        bytes.extend_from_slice(&(part.data.len() as u32).to_le_bytes());
        bytes.extend_from_slice(part.data);
    }
    bytes.resize(bytes.len() + after, 0xcc);
    let len = bytes.len() as u32;
    put4(&mut bytes, 24, len);
    bytes
}

/// The table shows these parts, and every query finds each by its name and occurrence, the first one without, and none past the last; the
/// sum is the length. The container is asked at every edition where it opens.
fn shows_parts(bytes: &[u8], parts: &[Laid<'_>], after: usize) {
    let expected: Vec<Entry<'_>> = parts
        .iter()
        .enumerate()
        .map(|(number, &Laid { name, gap, offset, occurrence, data })| {
            let part = Part { name: *name, number, offset, data };
            Entry { part, occurrence, gap }
        })
        .collect();
    let entries = table(bytes).unwrap();
    assert_eq!(entries, expected);
    assert!(entries.iter().all(|e| e.part.data.as_ptr() == bytes[e.part.offset + 8..].as_ptr()));
    let taken: usize = entries.iter().map(|e| e.gap + 8 + e.part.data.len()).sum();
    assert_eq!(32 + 4 * entries.len() + taken + after, bytes.len());
    compares(bytes, (0..parts.len()).sum());

    let containers: Vec<_> = (0..=3).filter_map(|edition| Container::open(bytes, edition).ok()).collect();
    for name in parts.iter().map(|part| *part.name).chain([PRIV, *b"HASH", *b"priv"]) {
        let named: Vec<_> = expected.iter().copied().filter(|e| e.part.name == name).collect();
        assert!(table_parts(bytes, name).unwrap().eq(named.iter().copied()));
        let first = named.first().map(|e| e.part).ok_or(Refusal { number: 26, place: 0 });
        assert_eq!(table_part(bytes, name), first);
        let past = [named.len(), named.len() + 1, 96, 1 << 32, (1 << 32) + 1, usize::MAX];
        for (i, entry) in named.iter().enumerate() {
            assert_eq!(entry.occurrence, i);
            assert_eq!(table_part_occurrence(bytes, name, i), Ok(entry.part));
        }
        for occurrence in past {
            assert_eq!(table_part_occurrence(bytes, name, occurrence), refused(26, 0));
        }
        for container in &containers {
            assert!(container.parts(name).eq(named.iter().copied()));
            assert_eq!(container.part(name), first);
            for (i, entry) in named.iter().enumerate() {
                assert_eq!(container.part_occurrence(name, i), Ok(entry.part));
            }
            for occurrence in past {
                assert_eq!(container.part_occurrence(name, occurrence), refused(26, 0));
            }
        }
    }
}

#[test]
fn several_private_parts_are_shown() {
    let m = psv0_m(24, 24);
    // No bytes, one and seven before headers, two after the last part.
    let two =
        [laid(b"DXIL", 0, 48, 0, b"code"), laid(&PRIV, 1, 61, 0, b"one"), laid(b"PSV0", 0, 72, 0, &m), laid(&PRIV, 7, 119, 1, b"other")];
    let bytes = lay_out(&two, 2);
    assert_eq!(bytes.len(), 134);
    shows_parts(&bytes, &two, 2);
    let container = Container::open_default(&bytes).unwrap();
    assert_eq!(container.part_count(), 4);
    assert_eq!(container.part(PRIV).unwrap().data, b"one");
    assert_eq!(container.part_occurrence(PRIV, 1).unwrap().data, b"other");
    assert_eq!(container.part_occurrence(PRIV, 2), refused(26, 0));
    assert_eq!(container.part_occurrence(*b"DXIL", 1), refused(26, 0));
    let shown = raw::table(&bytes);
    assert_eq!((&shown.occurrences[..4], &shown.gaps[..4]), (&[0, 0, 0, 1][..], &[0, 1, 0, 7][..]));
    assert!([shown.names, shown.offsets, shown.sizes, shown.occurrences, shown.gaps].iter().all(|numbers| numbers[4..] == [0; 92]));
    // What is handed out are parts of the bytes, which outlive the container.
    let notes = Container::open(&bytes, 0).unwrap().parts(PRIV);
    assert_eq!(notes.map(|entry| (entry.part.number, entry.part.data)).collect::<Vec<_>>(), [(1, &b"one"[..]), (3, b"other")]);

    // The first part is private and empty, and many bytes lie before the last private one.
    let three = [
        laid(&PRIV, 4, 60, 0, b""),
        laid(b"DXIL", 0, 68, 0, b"code"),
        laid(&PRIV, 0, 80, 1, b"no"),
        laid(b"PSV0", 1, 91, 0, &m),
        laid(&PRIV, 300, 431, 2, b"t"),
        laid(b"VERS", 0, 440, 0, b"verses"),
    ];
    let bytes = lay_out(&three, 0);
    assert_eq!(bytes.len(), 454);
    assert_eq!(Container::open(&bytes, 3).unwrap().parts(PRIV).count(), 3);
    shows_parts(&bytes, &three, 0);
    assert_eq!(raw::part_occurrence(&bytes, 4, &PRIV, 0).verdict, raw::Verdict { number: 25, place: 0 });
    assert_eq!(raw::part_occurrence(&bytes, 3, &PRIV, 2).size, 1);
    assert_eq!(raw::table_part_occurrence(&bytes, &PRIV, 1).size, 2);

    // Private parts alone, which don't open, and no part at all.
    let alone = [laid(&PRIV, 0, 40, 0, b"a"), laid(&PRIV, 0, 49, 1, b"bc")];
    shows_parts(&lay_out(&alone, 0), &alone, 0);
    assert_eq!(raw::part_occurrence(&lay_out(&alone, 0), 3, &PRIV, 1).verdict, raw::Verdict { number: 10, place: 0 });
    for after in [0, 1, 400] {
        shows_parts(&lay_out(&[], after), &[], after);
    }
}

#[test]
fn any_other_name_stands_once() {
    for other in [b"DXIL", b"PSV0", b"HASH", b"priv", b"PRIW", b"QRIV", b"PRI\0"] {
        let mut parts = [&PRIV, other, &PRIV, other, &PRIV].map(|name| laid(name, 2, 0, 0, b"data"));
        let bytes = lay_out(&parts, 1);
        assert_eq!(table(&bytes), refused(9, 3));
        assert!(table_parts(&bytes, PRIV).is_err_and(|refusal| refusal == Refusal { number: 9, place: 3 }));
        for name in [PRIV, *other] {
            assert_eq!(table_part(&bytes, name), refused(9, 3));
            assert_eq!(table_part_occurrence(&bytes, name, 1), refused(9, 3));
            assert_eq!(raw::part_occurrence(&bytes, 3, &name, 1).verdict, raw::Verdict { number: 9, place: 3 });
        }
        assert_eq!(Container::open(&bytes, 3), refused(9, 3));
        // One pair for the second part, two for the third, two for the fourth, which matches the second.
        compares(&bytes, 5);
        // Beside a refusal nothing is shown.
        let nothing = [0; 96];
        let shown = raw::table(&bytes);
        assert_eq!((shown.count, shown.names, shown.offsets), (0, nothing, nothing));
        assert_eq!((shown.sizes, shown.occurrences, shown.gaps), (nothing, nothing, nothing));

        let mut out = [0xee; 256];
        let names = [PRIV, *other, PRIV, *other, PRIV].concat();
        assert_eq!(assemble(&names, &[1, 0, 2, 3, 1], b"dataabc", &[7; 16], &mut out), refused(9, 3));
        assert_eq!(out, [0xee; 256]);
        parts[1].name = &PRIV;
        let entries: Vec<_> = table(&lay_out(&parts, 1)).unwrap().iter().map(|e| (e.part.name, e.occurrence)).collect();
        assert_eq!(entries, [(PRIV, 0), (PRIV, 1), (PRIV, 2), (*other, 0), (PRIV, 3)]);
    }
}

#[test]
fn private_parts_are_assembled_and_found_again() {
    let m = psv0_m(24, 24);
    // Parts start at multiples of 4.
    let parts = [
        laid(&PRIV, 0, 56, 0, b"abc"),
        laid(b"DXIL", 1, 68, 0, b"code"),
        laid(&PRIV, 0, 80, 1, b"de"),
        laid(b"PSV0", 2, 92, 0, &m),
        laid(&PRIV, 0, 132, 2, b"fghij"),
        laid(&PRIV, 3, 148, 3, b"k"),
    ];
    let sizes = parts.each_ref().map(|part| part.data.len() as u32);
    let data = parts.each_ref().map(|part| part.data).concat();
    let mut out = [0xee; 200];
    assert_eq!(assemble(b"PRIVDXILPRIVPSV0PRIVDXIL", &sizes, &data, &[7; 16], &mut out), refused(9, 5));
    assert_eq!(assemble(b"PRIVDXILPRIVPSV0PRIVPRIV", &sizes, &data, &[7; 16], &mut out[..156]), refused(28, 0));
    assert_eq!(out, [0xee; 200]);
    assert_eq!(assemble(b"PRIVDXILPRIVPSV0PRIVPRIV", &sizes, &data, &[7; 16], &mut out), Ok(157));
    assert_eq!(out[157..], [0xee; 43]);
    assert_eq!(Container::open(&out[..157], 3).unwrap().parts(PRIV).count(), 4);
    shows_parts(&out[..157], &parts, 0);
}

#[test]
fn private_parts_up_to_the_greatest_number() {
    // Of one byte each: three bytes lie before every header but the first. The last entry of every array.
    let data: Vec<u8> = (0..97).collect();
    let mut out = [0xee; 2048];
    assert_eq!(assemble(&PRIV.repeat(97), &[1; 97], &data, &[7; 16], &mut out), refused(6, 0));
    let len = assemble(&PRIV.repeat(96), &[1; 96], &data[..96], &[7; 16], &mut out).unwrap();
    let bytes = &out[..len];
    let parts: Vec<_> = (0..96).map(|i| laid(&PRIV, if i == 0 { 0 } else { 3 }, 416 + 12 * i, i, &data[i..=i])).collect();
    shows_parts(bytes, &parts, 0);
    assert_eq!(table_part_occurrence(bytes, PRIV, 95).unwrap().data, [95]);
    assert_eq!(table_part_occurrence(bytes, PRIV, 96), refused(26, 0));
    let shown = raw::table(bytes);
    assert_eq!((shown.names[95].to_le_bytes(), shown.offsets[95], shown.sizes[95]), (PRIV, 416 + 12 * 95, 1));
    assert_eq!((shown.occurrences[0], shown.occurrences[95], shown.gaps[0], shown.gaps[95]), (0, 95, 0, 3));
    // Another name twice, far apart.
    let names = [&b"DXIL"[..], &PRIV.repeat(94), b"DXIL"].concat();
    assert_eq!(assemble(&names, &[1; 96], &data[..96], &[7; 16], &mut out), refused(9, 95));
}

/// So many pairs of names are compared; but for them both calls on the table show the same, beside a refusal too.
fn compares(bytes: &[u8], pairs: usize) {
    assert_eq!(table_counted(bytes), CountedTable { table: table(bytes), pairs });
    let shown = raw::table(bytes);
    assert_eq!(shown.pairs, raw::Field { set: 0, value: 0 });
    assert_eq!(raw::table_counted(bytes), raw::Parts { pairs: raw::Field { set: 1, value: pairs as u32 }, ..shown });
}

/// A container of parts without data, end to end. Each byte stands for another name, P for PRIV.
fn named(letters: &[u8]) -> Vec<u8> {
    let names: Vec<_> = letters.iter().map(|&letter| if letter == b'P' { PRIV } else { [b'N', b'O', b'.', letter] }).collect();
    lay_out(&names.iter().map(|name| laid(name, 0, 0, 0, b"")).collect::<Vec<_>>(), 0)
}

#[test]
fn pairs_of_names_are_counted() {
    let many: Vec<u8> = (100..196).collect();
    let passing: [(&[u8], usize); 9] = [
        (b"", 0),
        (b"a", 0),
        (b"ab", 1),
        (b"abcdefgh", 28),
        (&many, 4560),
        (b"PP", 1),
        (b"PPPPPPPP", 28),
        (b"PaPbPc", 15),
        (&[b'P'; 96], 4560),
    ];
    for (letters, pairs) in passing {
        let bytes = named(letters);
        let counted = table_counted(&bytes);
        assert_eq!((counted.table.unwrap().len(), counted.pairs), (letters.len(), pairs));
        compares(&bytes, pairs);
    }

    // The match counts and ends the count; of several, that of the first part that has one, with the first that it matches. A PRIV compared
    // with a PRIV counts and ends nothing.
    let twice: [(&[u8], usize, usize); 14] = [
        (b"aa", 1, 1),
        (b"aba", 2, 2),
        (b"abb", 2, 3),
        (b"abcdefga", 7, 22),
        (b"abcdefgg", 7, 28),
        (b"aaaa", 1, 1),
        (b"abab", 2, 2),
        (b"abba", 2, 3),
        (b"abcbcb", 3, 5),
        (b"PPaa", 3, 6),
        (b"aPPa", 3, 4),
        (b"aaPP", 1, 1),
        (b"PaPaP", 3, 5),
        (b"PPPaPPPaPPP", 7, 25),
    ];
    for (letters, place, pairs) in twice {
        let bytes = named(letters);
        assert_eq!(table_counted(&bytes), CountedTable { table: refused(9, place), pairs });
        compares(&bytes, pairs);
    }
    // A name one bit away from PRIV doesn't match it, and may not stand again.
    for bit in 0..32 {
        let near = (u32::from_le_bytes(PRIV) ^ 1 << bit).to_le_bytes();
        let mut parts = [&PRIV, &near, &PRIV, &PRIV].map(|name| laid(name, 0, 0, 0, b""));
        compares(&lay_out(&parts, 0), 6);
        parts[2].name = &near;
        assert_eq!(table_counted(&lay_out(&parts, 0)), CountedTable { table: refused(9, 2), pairs: 3 });
    }
    // The one match of 96 parts, of other names and private.
    for (j, k, pairs) in [(0, 1, 1), (0, 95, 4466), (94, 95, 4560), (40, 70, 2456), (0, 94, 4372), (93, 94, 4465)] {
        for mut letters in [many.clone(), vec![b'P'; 96]] {
            letters[j] = b'a';
            letters[k] = b'a';
            let bytes = named(&letters);
            assert_eq!(table_counted(&bytes), CountedTable { table: refused(9, k), pairs });
            compares(&bytes, pairs);
        }
    }
}

#[test]
fn no_pairs_are_compared_before_9() {
    // Three parts of one name, at 44, 52 and 60, end to end.
    let bytes = named(b"aaa");
    assert_eq!(bytes.len(), 68);
    compares(&bytes, 1);
    let mut longer = changed(bytes.clone(), 24, 16_777_217);
    longer.resize(16_777_217, 0);
    let faults = [
        (vec![], 1, 0),
        (bytes[..31].to_vec(), 1, 0),
        (longer, 2, 0),
        (changed(bytes.clone(), 0, 0), 3, 0),
        (changed(bytes.clone(), 20, 2), 4, 0),
        (changed(bytes.clone(), 24, 69), 5, 0),
        (bytes[..67].to_vec(), 5, 0),
        (changed(bytes.clone(), 28, 97), 6, 0),
        (changed(bytes.clone(), 28, 10), 7, 0),
        (changed(bytes.clone(), 32, 43), 8, 0),
        (changed(bytes.clone(), 48, 17), 8, 0),
        (changed(bytes.clone(), 36, 51), 8, 1),
        (changed(bytes.clone(), 56, 9), 8, 1),
        (changed(bytes.clone(), 40, 59), 8, 2),
        (changed(bytes.clone(), 64, 1), 8, 2),
    ];
    for (bytes, number, place) in faults {
        assert_eq!(table_counted(&bytes), CountedTable { table: refused(number, place), pairs: 0 });
        compares(&bytes, 0);
    }
}

#[test]
fn a_program_header_is_shown_with_both_stages() {
    for (stage, beside) in [(5, Stages::Equal), (6, Stages::Different), (261, Stages::Different)] {
        let data = dxil(stage, 18, 3);
        let header = ProgramHeader {
            version_major: 6,
            version_minor: 10,
            stage: stage.into(),
            words: 0x1234_5678,
            bitcode_major: 252,
            bitcode_minor: 11,
            bitcode_offset: 18,
            bitcode_size: 3,
        };
        assert_eq!(dxil_program(&data), Ok(Program { header, bitcode: b"bit" }));
        let (c, m) = (shader_of(&data, &psv0_c(52, 1)), shader_of(&data, &psv0_m(24, 24)));
        for edition in 0..=3 {
            let report = Container::open(&c, edition).unwrap().program().unwrap();
            let (psv0_stage, stages) = if edition == 0 { (None, Stages::Unset) } else { (Some(5), beside) };
            assert_eq!(report, ProgramReport { header, bitcode: b"bit", psv0_stage, stages });
            assert_eq!(report.bitcode.as_ptr(), c[48 + 26..].as_ptr());
            // A file of edition 0 shows no stage to any reader.
            let report = Container::open(&m, edition).unwrap().program();
            assert_eq!(report, Ok(ProgramReport { header, bitcode: b"bit", psv0_stage: None, stages: Stages::Unset }));
        }
    }
    // An offset below 16 is not judged, and the bitcode may end where the data do.
    assert_eq!(dxil_program(&dxil(5, 0, 4)).unwrap().bitcode, b"DXIL");
    assert_eq!(dxil_program(&dxil(5, 16, 8)).unwrap().bitcode, b"..bit...");
    assert_eq!(dxil_program(&dxil(5, 24, 0)).unwrap().bitcode, b"");
}

#[test]
fn a_program_header_is_refused() {
    let refuses = |data: &[u8], number| {
        assert_eq!(dxil_program(data), refused(number, 0));
        let bytes = shader_of(data, &psv0_c(52, 1));
        for edition in 0..=3 {
            assert_eq!(Container::open(&bytes, edition).unwrap().program(), refused(number, 0));
        }
    };
    refuses(b"code", 40);
    refuses(&dxil(5, 16, 8)[..20], 40);
    assert_eq!(dxil_program(&[]), refused(40, 0));
    assert_eq!(dxil_program(&dxil(5, 16, 0)[..23]), refused(40, 0));
    assert!(dxil_program(&dxil(5, 16, 0)[..24]).is_ok());
    for at in 8..12 {
        let mut data = dxil(5, 16, 9);
        data[at] ^= 1;
        refuses(&data, 41);
    }
    // One above the length, and sums that 32 bits would take back inside the data.
    for (offset, size) in [(16, 9), (25, 0), (u32::MAX, 25), (25, u32::MAX), (16, u32::MAX - 23), (u32::MAX, u32::MAX)] {
        refuses(&dxil(5, offset, size), 42);
    }
}

/// Signature data: elements from byte 8 on, whose bytes are numbered but for the name offsets, then strings.
fn sg1(names: &[u32], strings: &[u8]) -> Vec<u8> {
    let mut data = [(names.len() as u32).to_le_bytes(), 8u32.to_le_bytes()].concat();
    data.extend((0..32 * names.len()).map(|i| 0x10 + i as u8));
    for (i, name) in names.iter().enumerate() {
        data[12 + 32 * i..16 + 32 * i].copy_from_slice(&name.to_le_bytes());
    }
    data.extend_from_slice(strings);
    data
}

fn put4(data: &mut [u8], at: usize, number: u32) {
    data[at..at + 4].copy_from_slice(&number.to_le_bytes());
}

/// PSV0 data of edition 3 with the names A and BC in the input list, BC in the output list, an empty one and A in the patch list.
fn psv0_s() -> Vec<u8> {
    let mut runtime = [0; 52];
    runtime[24] = 13;
    runtime[28..31].copy_from_slice(&[2, 1, 2]);
    let mut elements = [0; 5 * 16];
    for (i, name) in [1, 3, 3, 0, 1].into_iter().enumerate() {
        elements[16 * i] = name;
    }
    let given = Sections { runtime: &runtime, strings: b"\0A\0BC\0\0\0", elements: &elements, ..Sections::default() };
    let mut out = [0; 256];
    let len = write_psv0(3, given, &mut out).unwrap();
    out[..len].to_vec()
}

/// A container of a DXIL part, a PSV0 part and a signature part, whose data are its last bytes.
fn with(psv0: &[u8], part: SignaturePart, data: &[u8]) -> Vec<u8> {
    with_part(psv0, part.name(), data)
}

/// The same with a part of any name.
fn with_part(psv0: &[u8], part: [u8; 4], data: &[u8]) -> Vec<u8> {
    let names = [*b"DXIL", *b"PSV0", part].concat();
    let all = [b"code", psv0, data].concat();
    let mut out = vec![0xee; 100 + all.len()];
    let len = assemble(&names, &[4, psv0.len() as u32, data.len() as u32], &all, &[7; 16], &mut out).unwrap();
    out.truncate(len);
    out
}

#[test]
fn a_signature_is_shown_with_its_names() {
    let data = sg1(&[104, 0, 106], b"A\0BC\0");
    let signature = Signature::read(&data).unwrap();
    assert_eq!((signature.count(), signature.data()), (3, &data[..]));
    let element = SignatureElement {
        stream: 0x5352_5150,
        name_offset: 106,
        index: 0x5b5a_5958,
        system_value: 0x5f5e_5d5c,
        component_type: 0x6362_6160,
        register_number: 0x6766_6564,
        mask: 0x68,
        exclusive_mask: 0x69,
        precision: 0x6f6e_6d6c,
        name: Some(text("BC")),
    };
    assert_eq!(signature.element(2), Ok(element));
    assert_eq!(sg1_element_alone(&data, 2), Ok(element));
    assert_eq!(signature.element(3), refused(26, 0));
    assert_eq!(signature.name(0), Ok(text("A")));
    assert_eq!(signature.name(1), refused(26, 0));
    assert_eq!(signature.name(3), refused(26, 0));
    // The last field of the record of the plain call.
    assert_eq!(raw::sg1_element(&data, 2).name_points, 2);
    assert_eq!(
        raw::sg1_name(&data, 2),
        raw::Span { verdict: raw::Verdict { number: 0, place: 0 }, start: 106, len: 2, is_string: 1, points: 2 }
    );

    let mut elements = signature.elements();
    assert_eq!(elements.len(), 3);
    assert_eq!(elements.clone().map(|e| e.name).collect::<Vec<_>>(), [Some(text("A")), None, Some(text("BC"))]);
    assert_eq!(elements.nth(1).map(|e| e.mask), Some(0x48));
    assert_eq!(elements.next(), Some(element));
    assert_eq!((elements.next(), elements.next(), elements.len()), (None, None, 0));
    assert_eq!(signature.into_iter().count(), 3);

    for part in SignaturePart::ALL {
        let bytes = with(&psv0_s(), part, &data);
        let start = bytes.len() - data.len();
        for edition in 0..=3 {
            let container = Container::open(&bytes, edition).unwrap();
            let report = container.signature(part).unwrap();
            assert_eq!(report, qollqamir::signature(&bytes, edition, part).unwrap());
            assert_eq!((report, report.data().as_ptr()), (signature, bytes[start..].as_ptr()));
            assert!(report.elements().eq(signature.elements()));
            assert_eq!(report.name(2).unwrap().bytes.as_ptr(), bytes[start + 106..].as_ptr());
            assert_eq!(raw::signature(&bytes, edition, part as u32).len, data.len());
            assert_eq!(raw::signature_element(&bytes, edition, part as u32, 2).name_start, start + 106);
            assert_eq!(raw::signature_name(&bytes, edition, part as u32, 2).start, start + 106);
            for other in SignaturePart::ALL.into_iter().filter(|other| *other != part) {
                assert_eq!(container.signature(other), refused(26, 0));
                assert_eq!(container.first_difference(other), refused(26, 0));
            }
            assert_eq!(raw::signature(&bytes, edition, 3).verdict, raw::Verdict { number: 26, place: 0 });
        }
        assert_eq!(qollqamir::signature(&bytes, 4, part), refused(25, 0));
        assert_eq!(first_difference(&bytes, 4, part), refused(25, 0));
    }
}

#[test]
fn a_signature_is_refused() {
    let refuses = |data: &[u8], number, place| {
        assert_eq!(Signature::read(data), refused(number, place));
        for part in SignaturePart::ALL {
            let bytes = with(&psv0_s(), part, data);
            for edition in 0..=3 {
                let container = Container::open(&bytes, edition).unwrap();
                assert_eq!(container.signature(part), refused(number, place));
                assert_eq!(container.first_difference(part), refused(number, place));
            }
        }
    };
    let good = sg1(&[0, 0, 0], b"");
    for len in 0..8 {
        refuses(&good[..len], 43, 0);
        assert_eq!(sg1_element_alone(&good[..len], 0), refused(43, 0));
    }
    // One above the length, and sums that 32 bits would take back inside the data.
    assert_eq!(Signature::read(&good).unwrap().count(), 3);
    refuses(&good[..103], 44, 0);
    for (count, offset) in [(3, 9), (4, 8), (0, 105), (1 << 27, 8), ((1 << 27) + 3, 8), (3, u32::MAX - 95), (u32::MAX, u32::MAX)] {
        let mut data = good.clone();
        put4(&mut data, 0, count);
        put4(&mut data, 4, offset);
        refuses(&data, 44, 0);
    }
    let mut none = good.clone();
    put4(&mut none, 0, 0);
    put4(&mut none, 4, 104);
    assert_eq!(Signature::read(&none).unwrap().elements().next(), None);

    // The last zero is at 105; an empty name is a name, and a name may start in the header or in an element.
    let mut data = sg1(&[105, 1, 4], b"A\0BC");
    let names: Vec<_> = Signature::read(&data).unwrap().into_iter().map(|e| e.name).collect();
    assert_eq!(names, [Some(text("")), Some(text("")), Some(text("\x08"))]);
    for (i, name) in [(2, 106), (1, 108), (0, u32::MAX)] {
        put4(&mut data, 12 + 32 * i, name);
        refuses(&data, 45, i);
        assert_eq!(sg1_element_alone(&data, i), refused(45, i));
    }
    // By itself an element is good whatever the others are; 26 comes first, then its own bytes.
    put4(&mut data, 44, 104);
    refuses(&data, 45, 0);
    assert_eq!(sg1_element_alone(&data, 1).unwrap().name, Some(text("A")));
    put4(&mut data, 0, 4);
    refuses(&data, 44, 0);
    assert_eq!(sg1_element_alone(&data, 1).unwrap().name, Some(text("A")));
    assert_eq!(sg1_element_alone(&data, 3), refused(44, 0));
    assert_eq!(sg1_element_alone(&data, 4), refused(26, 0));

    // The refusals of opening come first: with a wrong entry name only reader 3 doesn't open the container.
    let bytes = with(&psv0_c(52, 8), SignaturePart::Input, b"short");
    for (edition, input, output) in [(2, 43, 26), (3, 24, 24)] {
        assert_eq!(qollqamir::signature(&bytes, edition, SignaturePart::Input), refused(input, 0));
        assert_eq!(qollqamir::signature(&bytes, edition, SignaturePart::Output), refused(output, 0));
        assert_eq!(first_difference(&bytes, edition, SignaturePart::Input), refused(input, 0));
        assert_eq!(first_difference(&bytes, edition, SignaturePart::Output), refused(output, 0));
    }
}

#[test]
fn strings_are_utf_8() {
    // The entry name: two bytes that are one code point, the middle of them, and bytes that no row of the table has.
    let entry = |name: &[u8], offset: usize| {
        let mut psv0 = psv0_c(52, 1 + offset as u8);
        let start = psv0.len() - 12;
        psv0[start + 1..start + 7].fill(0);
        psv0[start + 1..start + 1 + name.len()].copy_from_slice(name);
        shader(&psv0)
    };
    for name in ["\u{e9}", "a\u{20ac}", "\u{10ffff}z", "\u{feff}", "\u{ffff}", "\u{d7ff}", "\u{e000}"] {
        let bytes = entry(name.as_bytes(), 0);
        let container = Container::open(&bytes, 3).unwrap();
        assert_eq!(container.entry_name(), Ok(text(name)));
        assert_eq!(container.entry_name().unwrap().to_string(), name);
    }
    assert_eq!(Container::open(&entry("\u{e9}".as_bytes(), 1), 3), refused(24, 0));
    for name in [&b"\x80"[..], b"\xed\xa0\x80", b"\xe0\x80\x80", b"\xf4\x90\x80\x80", b"\xc3", b"a\xf0\x9f\x98"] {
        assert_eq!(Container::open(&entry(name, 0), 3), refused(24, 0));
        for edition in 0..=2 {
            assert!(Container::open(&entry(name, 0), edition).is_ok());
        }
        // Bytes that no reference leads to are not judged.
        assert!(Container::open(&entry(&[name, b"\0"].concat(), name.len() + 1), 3).is_ok());

        // The second of three elements; 45 of the third comes after.
        let names = [b"A\0", name, b"\0"].concat();
        let data = sg1(&[104, 106, 104 + names.len() as u32], &names);
        assert_eq!(Signature::read(&data), refused(52, 1));
        assert_eq!(sg1_element_alone(&data, 0).unwrap().name, Some(text("A")));
        assert_eq!(sg1_element_alone(&data, 1), refused(52, 1));
        assert_eq!(sg1_element_alone(&data, 2), refused(45, 2));
        assert_eq!(qollqamir::signature(&with(&psv0_s(), SignaturePart::Patch, &data), 3, SignaturePart::Patch), refused(52, 1));
        assert_eq!(Signature::read(&sg1(&[104 + names.len() as u32, 106, 0], &names)), refused(45, 0));
    }
    let data = sg1(&[104], "\0".as_bytes());
    assert_eq!(Signature::read(&data).unwrap_err().number, 45);
    let names = "\u{e9}\u{20ac}\0";
    let data = sg1(&[40, 42, 0], names.as_bytes());
    assert_eq!(Signature::read(&data).map(|signature| signature.count()), Ok(3));

    // An element's name, as it is written and read; 22 comes before 23 and 24.
    let mut runtime = [0; 52];
    (runtime[24], runtime[28], runtime[48]) = (1, 2, 4);
    let strings = "\u{e9}\0A\0\0\0\0".as_bytes();
    let mut out = [0; 256];
    let mut written = |name, index| {
        let mut elements = [0; 32];
        (elements[16], elements[20]) = (name, index);
        write_psv0(3, Sections { runtime: &runtime, strings, elements: &elements, ..Sections::default() }, &mut out)
    };
    assert_eq!(written(1, 1), refused(22, 1));
    assert_eq!(written(0, 1), refused(23, 1));
    let len = written(0, 0).unwrap();
    let psv0 = Psv0::open(&out[..len], 3).unwrap();
    assert_eq!((psv0.element_string(0), psv0.element_string(1)), (Ok(text("\u{e9}")), Ok(text("\u{e9}"))));
    assert_eq!(psv0.entry_name(), Ok(text("")));
    let union = raw::psv0_view(&out[..len], 3, 0, 0);
    assert_eq!((union.start, union.len, union.is_string, union.points), (4, 16, 0, 0));
}

#[test]
fn long_tables_are_judged_alike() {
    // Lengths at which the reader takes another way: letters of two bytes up to a zero at the very end, the entry name at different places.
    for len in [28, 32, 36, 252, 256, 260, 4092, 4096, 4100, 262140, 262144, 262148, 524288] {
        let mut table = "\u{e9}".repeat(len / 2 - 2).into_bytes();
        table.extend_from_slice(b"abc\0");
        let psv0 = |offset: usize, table: &[u8]| {
            let mut psv0 = [&52u32.to_le_bytes()[..], &[0; 52], &[0; 4], &(len as u32).to_le_bytes(), table, &[0; 4]].concat();
            psv0[4 + 24] = 1;
            psv0[4 + 48..4 + 52].copy_from_slice(&(offset as u32).to_le_bytes());
            psv0
        };
        let edges = [2, 30, 32, 34, 254, 256, 4094, 4096, 262142, 262144, len - 8, len - 6, len - 4];
        for offset in edges.into_iter().filter(|offset| *offset <= len - 4) {
            let good = psv0(offset, &table);
            let name = Psv0::open(&good, 3).unwrap().entry_name().unwrap();
            assert_eq!((name.bytes.len(), name.points), (len - 1 - offset, (len - 4 - offset) / 2 + 3), "{len} {offset}");
            if offset < len - 4 {
                assert_eq!(Psv0::open(&psv0(offset + 1, &table), 3), refused(24, 0), "{len} {offset}");
            }
            // A fault at the very end, which is in another block than most references.
            let mut fault = table.clone();
            fault[len - 2] = 0xff;
            assert_eq!(Psv0::open(&psv0(offset, &fault), 3), refused(24, 0), "{len} {offset}");
            // A fault before the reference doesn't count.
            if offset > 2 {
                let mut fault = table.clone();
                fault[0] = b'a';
                assert_eq!(Psv0::open(&psv0(offset, &fault), 3).unwrap().entry_name(), Ok(name), "{len} {offset}");
            }
        }
    }
}

#[test]
fn a_signature_is_held_against_psv0() {
    // The strings start at 8 + 32 for each element.
    let (a, bc, b, bcd, empty) = (0, 2, 5, 7, 1);
    let differs = |part, names: &[Option<u32>], first| {
        let base = 8 + 32 * names.len() as u32;
        let offsets: Vec<u32> = names.iter().map(|name| name.map_or(0, |place| base + place)).collect();
        let data = sg1(&offsets, b"A\0BC\0B\0BCD\0");
        let named = names.iter().position(Option::is_some);
        let (s, m) = (with(&psv0_s(), part, &data), with(&psv0_m(24, 24), part, &data));
        for edition in 0..=3 {
            // Without lists, at edition read 0, the first name is missing there.
            let expected = if edition == 0 { named } else { first };
            assert_eq!(first_difference(&s, edition, part), Ok(expected), "{part:?} {names:?}");
            assert_eq!(Container::open(&s, edition).unwrap().first_difference(part), Ok(expected));
            assert_eq!(first_difference(&m, edition, part), Ok(named));
        }
    };
    let (input, output, patch) = (SignaturePart::Input, SignaturePart::Output, SignaturePart::Patch);
    differs(input, &[], None);
    differs(input, &[None, None, None], None);
    differs(input, &[Some(a), Some(bc)], None);
    differs(input, &[None, Some(bc), None], None);
    differs(input, &[Some(bc), Some(bc)], Some(0));
    differs(input, &[Some(a), Some(b)], Some(1));
    differs(input, &[Some(a), Some(bcd)], Some(1));
    differs(input, &[None, Some(empty)], Some(1));
    differs(input, &[Some(a), Some(bc), Some(empty)], Some(2));
    differs(output, &[Some(bc)], None);
    differs(output, &[Some(a)], Some(0));
    differs(output, &[Some(bc), Some(bc)], Some(1));
    differs(patch, &[Some(empty), Some(a)], None);
    differs(patch, &[Some(a), Some(a)], Some(0));
    differs(patch, &[Some(empty), Some(bc)], Some(1));
}

/// Root signature data of 192 bytes in version 1 or 2: a table of two ranges, constants, a descriptor and a static sampler, whose own bytes
/// are at 24, 36, 48 and 140; the parameters' data are at 60, 68 and 80, the ranges from 92 on.
fn rts0(version: u32, lods: [u32; 3]) -> Vec<u8> {
    let header = [version, 3, 24, 1, 140, 0x9090_9090];
    let parameters = [0, 5, 60, 1, 6, 68, 4, 7, 80];
    let data = [2, 92, 21, 22, 23, 31, 32, 33];
    let ranges = [41, 42, 43, 44, 45, 46, 51, 52, 53, 54, 55, u32::MAX];
    let sampler = [1, 2, 3, 4, lods[0], 6, 7, 8, lods[1], lods[2], 11, 12, 13];
    [&header[..], &parameters, &data, &ranges, &sampler].concat().into_iter().flat_map(u32::to_le_bytes).collect()
}

/// The bits of a sampler's three levels of detail.
fn lods_of(item: RootItem) -> [u32; 3] {
    match item {
        RootItem::Sampler { lod_bias, least_lod, greatest_lod, .. } => [lod_bias, least_lod, greatest_lod].map(f32::to_bits),
        other => panic!("{other:?} is no sampler"),
    }
}

#[test]
fn a_root_signature_is_shown() {
    let table = RootItem::Table { visibility: 5, ranges: 2, offset: 92 };
    let constants = RootItem::Constants { visibility: 6, register: 21, space: 22, count: 23 };
    let descriptor = |flags| RootItem::Descriptor { parameter_type: 4, visibility: 7, register: 31, space: 32, flags };
    let sampler = RootItem::Sampler {
        filter: 1,
        address_u: 2,
        address_v: 3,
        address_w: 4,
        lod_bias: 1.5,
        anisotropy: 6,
        comparison: 7,
        border: 8,
        least_lod: -2.0,
        greatest_lod: f32::MAX,
        register: 11,
        space: 12,
        visibility: 13,
    };
    let range = |[range_type, descriptors, base_register, space]: [u32; 4], flags, offset| RootRange {
        range_type,
        descriptors,
        base_register,
        space,
        flags,
        offset,
    };
    // In 1.1 the flags stand before the offset; 1.0 has none.
    let versions = [
        (1, descriptor(None), [range([41, 42, 43, 44], None, 45), range([46, 51, 52, 53], None, 54)]),
        (2, descriptor(Some(33)), [range([41, 42, 43, 44], Some(45), 46), range([51, 52, 53, 54], Some(55), u32::MAX)]),
    ];
    for (version, descriptor, ranges) in versions {
        let data = rts0(version, [1.5f32.to_bits(), (-2f32).to_bits(), f32::MAX.to_bits()]);
        let root = RootSignature::read(&data).unwrap();
        assert_eq!((root.version(), root.parameters(), root.samplers(), root.flags()), (version, 3, 1, 0x9090_9090));
        assert_eq!(root.data(), data);
        let items = [table, constants, descriptor, sampler];
        assert_eq!((root.items().len(), root.items().collect::<Vec<_>>()), (4, items.to_vec()));
        assert_eq!((root.ranges(0).len(), root.ranges(0).collect::<Vec<_>>()), (2, ranges.to_vec()));
        for (i, item) in items.into_iter().enumerate() {
            assert_eq!((root.item(i), rts0_item_alone(&data, i)), (Ok(item), Ok(item)));
            if i > 0 {
                assert_eq!((root.ranges(i).len(), root.range(i, 0)), (0, refused(26, 0)));
            }
        }
        assert_eq!((root.item(4), root.range(0, 2), root.range(4, 0)), (refused(26, 0), refused(26, 0), refused(26, 0)));
        assert_eq!(root.ranges(usize::MAX).next(), None);

        // Of a container, at every edition. The last fields of the structs.
        let bytes = with_part(&psv0_m(24, 24), *b"RTS0", &data);
        let start = bytes.len() - data.len();
        for edition in 0..=3 {
            let report = Container::open(&bytes, edition).unwrap().root_signature().unwrap();
            assert_eq!((report, report.data().as_ptr()), (root, bytes[start..].as_ptr()));
            assert_eq!(raw::root_signature(&bytes, edition).len, data.len());
            assert_eq!(raw::root_item(&bytes, edition, 3).greatest_lod, f32::MAX.to_bits());
            assert_eq!(raw::root_range(&bytes, edition, 0, 1).offset, ranges[1].offset as usize);
        }
        assert_eq!(raw::rts0_read(&data).flags, 0x9090_9090);
        assert_eq!(raw::rts0_item(&data, 3).greatest_lod, f32::MAX.to_bits());
        assert_eq!(raw::rts0_range(&data, 0, 1).offset, ranges[1].offset as usize);
        assert_eq!(root_signature(&bytes, 4), refused(25, 0));
        assert_eq!(root_signature(&box_m(24, 24), 3), refused(26, 0));
    }
}

#[test]
fn floats_have_the_files_bits() {
    let patterns = [
        0x7fc0_0000,
        0xffc0_0000,
        0x7fff_ffff,
        0xffd2_3456,
        0x7f80_0001,
        0xff80_0001,
        0x7fa0_0000,
        0xffbf_ffff,
        0x7f80_0000,
        0xff80_0000,
        0,
        0x8000_0000,
        1,
        0x807f_ffff,
        0x0080_0000,
        0x3f80_0000,
        0xc123_4567,
        0x7f7f_ffff,
    ];
    for lods in patterns.windows(3).map(|three| [three[0], three[1], three[2]]) {
        let data = rts0(2, lods);
        let bytes = with_part(&psv0_m(24, 24), *b"RTS0", &data);
        let root = root_signature(&bytes, 3).unwrap();
        assert_eq!(lods_of(root.item(3).unwrap()), lods);
        assert_eq!(lods_of(root.items().last().unwrap()), lods);
        assert_eq!(lods_of(rts0_item_alone(&data, 3).unwrap()), lods);
    }
}

#[test]
fn a_root_signature_is_refused() {
    let refuses = |data: &[u8], number, place| {
        assert_eq!(RootSignature::read(data), refused(number, place));
        let bytes = with_part(&psv0_m(24, 24), *b"RTS0", data);
        for edition in 0..=3 {
            assert_eq!(root_signature(&bytes, edition), refused(number, place));
            assert_eq!(Container::open(&bytes, edition).unwrap().root_signature(), refused(number, place));
        }
    };
    let changed = |changes: &[(usize, u32)]| {
        let mut data = rts0(2, [0; 3]);
        for (at, number) in changes {
            put4(&mut data, *at, *number);
        }
        data
    };
    refuses(&rts0(2, [0; 3])[..23], 46, 0);
    refuses(&rts0(0, [0; 3]), 47, 0);
    refuses(&rts0(3, [0; 3]), 47, 0);
    // A parameter's own bytes, its type (also where its data are outside), its data, its ranges' end, exactly; a sampler after the parameters.
    refuses(&changed(&[(8, 181)]), 48, 0);
    refuses(&changed(&[(36, 5), (44, u32::MAX)]), 49, 1);
    refuses(&changed(&[(44, 181)]), 50, 1);
    refuses(&changed(&[(64, 145)]), 51, 0);
    refuses(&changed(&[(60, 178_956_971), (64, 0)]), 51, 0);
    refuses(&changed(&[(60, 0), (64, 193)]), 51, 0);
    refuses(&changed(&[(16, 141)]), 48, 3);
    // Counts near 2^32: item 3 is read from byte 60 on, item 4 has the number at 72 for its type.
    refuses(&changed(&[(4, u32::MAX), (12, u32::MAX)]), 49, 4);
    assert!(RootSignature::read(&changed(&[(60, 0), (64, 192)])).is_ok());
    assert!(RootSignature::read(&changed(&[(44, 180), (64, 144)])).is_ok());
    // By itself an item is good whatever the others are.
    let data = changed(&[(36, 5)]);
    refuses(&data, 49, 1);
    assert_eq!(rts0_item_alone(&data, 0), Ok(RootItem::Table { visibility: 5, ranges: 2, offset: 92 }));
    assert_eq!(rts0_item_alone(&data, 1), refused(49, 1));
    assert_eq!(rts0_range_alone(&data, 0, 1).unwrap().offset, u32::MAX);
    assert_eq!(rts0_range_alone(&data, 0, 2), refused(26, 0));
    assert_eq!(rts0_range_alone(&data, 1, 0), refused(49, 1));
    assert_eq!(rts0_range_alone(&data, 2, 0), refused(26, 0));

    // The refusals of opening come first: without a DXIL part 10.
    let mut alone = vec![0; 300];
    let len = assemble(b"RTS0", &[192], &rts0(2, [0; 3]), &[7; 16], &mut alone).unwrap();
    assert_eq!(root_signature(&alone[..len], 3), refused(10, 0));
    assert!(RootSignature::read(table_part(&alone[..len], *b"RTS0").unwrap().data).is_ok());
    let bytes = with_part(&psv0_c(52, 8), *b"RTS0", b"short");
    assert_eq!((root_signature(&bytes, 2), root_signature(&bytes, 3)), (refused(46, 0), refused(24, 0)));
}

fn row(version: u32, key: u32, value: u32) -> SettingsRow {
    SettingsRow { version, key, value }
}

/// A number in the groups of a settings file.
fn groups(mut number: u32) -> Vec<u8> {
    let mut bytes = vec![];
    while number >= 0x80 {
        bytes.push(number as u8 | 0x80);
        number >>= 7;
    }
    bytes.push(number as u8);
    bytes
}

/// The settings file of these rows, good or not.
fn settings_of(rows: &[SettingsRow]) -> Vec<u8> {
    let numbers = rows.iter().flat_map(|row| [row.version, row.key, row.value]);
    std::iter::once(rows.len() as u32).chain(numbers).flat_map(groups).collect()
}

/// The writer writes the file of these rows, with room for it and not with a byte less; it is read back, row by row and as a list.
fn settings_are_shown(rows: &[SettingsRow]) -> Vec<u8> {
    let file = settings_of(rows);
    let mut out = [0xee; Settings::LONGEST + 1];
    assert_eq!(write_settings(rows, &mut out[..file.len() - 1]), refused(28, 0));
    assert_eq!(write_settings(rows, &mut []), refused(28, 0));
    assert!(out.iter().all(|byte| *byte == 0xee));
    assert_eq!(write_settings(rows, &mut out), Ok(file.len()));
    assert_eq!(out[..file.len()], file);
    assert!(out[file.len()..].iter().all(|byte| *byte == 0xee));
    assert_eq!(write_settings(rows, &mut out[..file.len()]), Ok(file.len()));

    let settings = Settings::read(&file).unwrap();
    assert_eq!((settings.bytes(), settings.bytes().as_ptr()), (&file[..], file.as_ptr()));
    assert!(settings.rows().eq(rows.iter().copied()));
    // The exact length, at each step and past the end.
    let mut listed = settings.rows();
    for (i, row) in rows.iter().enumerate() {
        assert_eq!((listed.len(), listed.size_hint()), (rows.len() - i, (rows.len() - i, Some(rows.len() - i))));
        assert_eq!((listed.next(), settings.row(i)), (Some(*row), Ok(*row)));
    }
    assert_eq!((listed.len(), listed.next(), listed.next(), listed.len()), (0, None, None, 0));
    for i in [rows.len(), rows.len() + 1, 512, 1 << 32, usize::MAX] {
        assert_eq!(settings.row(i), refused(26, 0));
    }
    // The last row with the key and a version of at most this one.
    let near = |row: &SettingsRow| [row.version.wrapping_sub(1), row.version, row.version.wrapping_add(1)];
    for at in rows.iter().flat_map(near).take(60).chain([0, u32::MAX]) {
        for key in [0, 1, 2, 3, 4, 257, u32::MAX] {
            let last = rows.iter().rfind(|row| row.key == key && row.version <= at);
            assert_eq!(settings.value(key, at), last.map(|row| row.value), "{key} {at}");
        }
    }
    file
}

#[test]
fn settings_are_written_and_read() {
    assert_eq!((Settings::LEAST_EDITION, Settings::GREATEST_LENGTH, Settings::PRIVATE_ALLOWED), (1, 2, 3));
    assert_eq!(settings_are_shown(&[]), [0]);
    let rows = [row(300, 3, 1), row(70_000, 2, u32::MAX), row(70_000, 1, 3), row(70_000, 1, 0), row(u32::MAX, 3, 0)];
    let file = settings_are_shown(&rows);
    assert_eq!(file[..14], *b"\x05\xac\x02\x03\x01\xf0\xa2\x04\x02\xff\xff\xff\xff\x0f");
    let settings = Settings::read(&file).unwrap();
    assert_eq!((settings.value(3, 299), settings.value(3, 300)), (None, Some(1)));
    assert_eq!((settings.value(3, u32::MAX - 1), settings.value(3, u32::MAX)), (Some(1), Some(0)));
    assert_eq!((settings.value(1, 69_999), settings.value(1, 70_000)), (None, Some(0)));
    assert_eq!((settings.value(2, 69_999), settings.value(2, 70_000)), (None, Some(u32::MAX)));
    assert_eq!((settings.value(0, 70_000), settings.value(4, 70_000)), (None, None));
    // What is handed out outlives the settings.
    let listed = Settings::read(&file).unwrap().rows();
    assert_eq!(listed.collect::<Vec<_>>(), rows);

    // The last fields of the structs, and nothing beside a refusal.
    let read = raw::settings_read(&file);
    assert_eq!((read.rows, read.first), (5, 1));
    let raw::SettingRow { version, key, value, .. } = raw::settings_row(&file, 1);
    assert_eq!((version, key, value), (70_000, 2, u32::MAX as usize));
    let raw::SettingRowAlone { version, key, value, end, .. } = raw::settings_row_alone(&file, 5, 300);
    assert_eq!((version, key, value, end), (70_000, 2, u32::MAX as usize, 14));
    let setting = raw::settings_value(&file, 2, 70_000).setting;
    assert_eq!((setting.set, setting.value), (1, u32::MAX));
    let none = |number, place| raw::SettingRowAlone { verdict: raw::Verdict { number, place }, version: 0, key: 0, value: 0, end: 0 };
    assert_eq!(raw::settings_row_alone(&file, 5, 70_001), none(59, 5));
    assert_eq!(raw::settings_row_alone(&file, 8, 0), none(57, 9));
    for at in [file.len(), file.len() + 1, 1 << 32, usize::MAX] {
        assert_eq!(raw::settings_row_alone(&file, at, 0), none(55, at));
    }
    // Unset, whatever other rows have.
    let unset = raw::settings_value(b"\x02\x05\x02\x07\x09\x01\x03", 1, 8);
    assert_eq!((unset.verdict.number, unset.setting.set, unset.setting.value), (0, 0, 0));
}

#[test]
fn settings_up_to_the_greatest_number_of_rows() {
    for count in [1, 2, 127, 128, 511, 512] {
        let shortest: Vec<_> = (0..count).map(|i| row(0, 1 + i % 3, i % 2)).collect();
        let longest: Vec<_> = (0..count).map(|i| row(u32::MAX - 600 + i, 2, u32::MAX - i)).collect();
        settings_are_shown(&shortest);
        let file = settings_are_shown(&longest);
        assert_eq!(file.len() == Settings::LONGEST, count as usize == Settings::MOST_ROWS);
        assert_eq!(raw::settings_read(&file).first, if count < 128 { 1 } else { 2 });
    }
    let mut out = [0xee; 6000];
    let mut rows = vec![row(0, 3, 0); 513];
    assert_eq!(write_settings(&rows, &mut out), refused(56, 0));
    assert_eq!(Settings::read(&settings_of(&rows)), refused(56, 0));
    assert_eq!(Settings::read(b"\x81\x04"), refused(56, 0));
    assert_eq!(Settings::read(b"\x80\x04"), refused(55, 2));
    // A fault in them comes after the count; in the last of 512 it doesn't.
    rows[511].key = 4;
    assert_eq!(write_settings(&rows, &mut out), refused(56, 0));
    assert_eq!(write_settings(&rows[..512], &mut out), refused(57, 2 + 3 * 511 + 1));
    assert_eq!(out, [0xee; 6000]);
}

#[test]
fn settings_are_refused() {
    let refuses = |file: &[u8], number, place| {
        assert_eq!(Settings::read(file), refused(number, place), "{file:x?}");
        // Beside the refusal nothing is shown.
        let verdict = raw::Verdict { number: number.into(), place };
        assert_eq!(raw::settings_read(file), raw::Settings { verdict, rows: 0, first: 0 });
        for i in [0, 1, usize::MAX] {
            assert_eq!(raw::settings_row(file, i), raw::SettingRow { verdict, version: 0, key: 0, value: 0 });
        }
        for key in 0..=4 {
            assert_eq!(raw::settings_value(file, key, u32::MAX), raw::Setting { verdict, setting: raw::Field { set: 0, value: 0 } });
        }
    };
    // A number at each place: long, too large, cut.
    for before in [&b""[..], b"\x01", b"\x01\x05", b"\x01\x05\x02", b"\x02\x05\x02\x07", b"\x02\x05\x02\x07\x85\x01\x03"] {
        let with = |form: &[u8], after: &[u8]| [before, form, after].concat();
        for after in [&b""[..], b"\x00", b"\x80", b"\x02\x07"] {
            for form in [&b"\x80\x00"[..], b"\xff\x00", b"\x81\x80\x00", b"\x80\x80\x80\x00", b"\xff\xff\xff\xff\x00"] {
                refuses(&with(form, after), 53, before.len());
            }
            for form in [b"\x80\x80\x80\x80\x10", b"\xff\xff\xff\xff\x7f", b"\x80\x80\x80\x80\x80", b"\xff\xff\xff\xff\x8f"] {
                refuses(&with(form, after), 54, before.len());
            }
        }
        for form in [&b""[..], b"\x80", b"\xff\xff", b"\x80\x80\x80", b"\xff\xff\xff\xff"] {
            refuses(&with(form, b""), 55, before.len());
        }
    }
    refuses(b"\x00\x00", 60, 1);
    refuses(b"\x01\x05\x01\x03\x80", 60, 4);
    // The earlier place: 58 before 59, 57 before 58, 59 before 57 and 60.
    refuses(b"\x02\x05\x01\x04\x04\x01\x03", 58, 3);
    refuses(b"\x01\x05\x04\x80\x00", 57, 2);
    refuses(b"\x02\x05\x01\x03\x04\x04\x03\x00", 59, 4);

    // Rows that are not good, with the place that the number has in the file; the writer leaves the output.
    let good = [row(300, 3, 1), row(70_000, 2, u32::MAX), row(70_000, 1, 3)];
    settings_are_shown(&good);
    let faults = [
        (0, row(300, 0, 1), 57, 3),
        (0, row(300, 4, 1), 57, 3),
        (0, row(300, 3, 2), 58, 4),
        (1, row(299, 2, 0), 59, 5),
        (1, row(299, 4, 0), 59, 5),
        (1, row(300, 257, 0), 57, 7),
        (2, row(69_999, 1, 3), 59, 14),
        (2, row(70_000, 1, 4), 58, 18),
        (2, row(70_000, 1, 256), 58, 18),
        (2, row(70_000, 3, u32::MAX), 58, 18),
    ];
    for (i, bad, number, place) in faults {
        let mut rows = good;
        rows[i] = bad;
        refuses(&settings_of(&rows), number, place);
        let mut out = [0xee; 64];
        assert_eq!(write_settings(&rows, &mut out), refused(number, place));
        assert_eq!(write_settings(&rows, &mut []), refused(number, place));
        assert_eq!(raw::write_settings_rows(&rows, &mut out).len, 0);
        assert_eq!(out, [0xee; 64]);
    }

    // Numbers that aren't whole rows, which the safe call can't be handed.
    let numbers = [5, 1, 3, 5, 4];
    let mut out = [0xee; 64];
    for len in [1, 2, 4, 5] {
        let written = raw::write_settings(&numbers[..len], &mut out);
        assert_eq!((written.verdict, written.len), (raw::Verdict { number: 27, place: 0 }, 0));
    }
    assert_eq!(out, [0xee; 64]);
    let written = raw::write_settings(&numbers[..3], &mut out);
    assert_eq!((written.verdict, written.len), (raw::Verdict { number: 0, place: 0 }, 4));
    assert_eq!(out[..5], *b"\x01\x05\x01\x03\xee");
}

/// PSV0 data with a runtime record of `s` bytes, more than 24, a number where edition 1 has the stage, and four empty strings.
fn psv0_stage(s: usize, stage: u8) -> Vec<u8> {
    let mut psv0 = vec![0; 4 + s + 16];
    psv0[0] = s as u8;
    psv0[4 + 24] = stage;
    psv0[4 + s + 4] = 4;
    psv0
}

/// A container with a number put in.
fn changed(mut bytes: Vec<u8>, at: usize, number: u32) -> Vec<u8> {
    put4(&mut bytes, at, number);
    bytes
}

/// The box M with bytes after it, up to the greatest length.
fn longest() -> Vec<u8> {
    let mut bytes = box_m(24, 24);
    bytes.resize(16_777_216, 0xcc);
    changed(bytes, 24, 16_777_216)
}

/// A list whose figures are worked out below.
fn worked() -> [Vec<u8>; 13] {
    [
        box_m(24, 24),                        // 92 bytes, edition 0
        box_c(52, 1),                         // 136, edition 3, stage 5
        box_c(52, 8),                         // the same; 24 at edition 3
        vec![],                               // 1
        changed(box_m(24, 24), 36, 51),       // 92; 8 at part 1
        shader(&psv0_s()),                    // 220, edition 3, stage 13
        shader(&psv0_stage(36, 0)),           // 116, edition 1, stage 0
        shader(&psv0_stage(48, 15)),          // 128, edition 2, stage 15
        shader(&psv0_stage(36, 16)),          // 116, edition 1; 15 but at edition 0
        box_c(56, 1),                         // 140, edition 3, stage 5
        shader_of(&[7; 44], &psv0_m(24, 24)), // 132, edition 0
        changed(shader(&psv0_s()), 188, 8),   // 220, edition 3; 22 at element 3 but at edition 0
        shader(&psv0_stage(32, 5)),           // 112, edition 0, where the 5 is no stage
    ]
}

/// The figures of that list at an edition.
fn worked_figures(edition: Edition) -> Figures {
    let (refusals, stages) = match edition {
        0 => (&[1, 8][..], &[][..]),
        1 | 2 => (&[1, 8, 15, 22][..], &[(0, 1), (5, 3), (13, 1), (15, 1)][..]),
        3 => (&[1, 8, 15, 22, 24][..], &[(0, 1), (5, 2), (13, 1), (15, 1)][..]),
        _ => return Figures { opened: 13, refused: 13, refusals: counts(&[(25, 13)]), ..Figures::start(edition) },
    };
    let refusals: Vec<(usize, u16)> = refusals.iter().map(|number| (*number, 1)).collect();
    Figures {
        edition,
        bytes: [1548, 1212, 1212, 1076][edition],
        opened: 13,
        accepted: [11, 9, 9, 8][edition],
        refused: [2, 4, 4, 5][edition],
        refusals: counts(&refusals),
        editions: [[3, 2, 1, 5], [3, 1, 1, 4], [3, 1, 1, 4], [3, 1, 1, 3]][edition],
        stages: counts(stages),
        unset: [11, 3, 3, 3][edition],
    }
}

/// What opening the containers of that list at an edition gives.
fn worked_answers(edition: Edition) -> [Added; 13] {
    let mut answers = [ACCEPTED; 13];
    (answers[3], answers[4]) = (counted(1, 0), counted(8, 1));
    if edition > 0 {
        (answers[8], answers[11]) = (counted(15, 0), counted(22, 3));
    }
    if edition == 3 {
        answers[2] = counted(24, 0);
    }
    if edition > 3 {
        answers = [counted(25, 0); 13];
    }
    answers
}

const ACCEPTED: Added = Added::Counted(Ok(()));

fn counted(number: u8, place: usize) -> Added {
    Added::Counted(refused(number, place))
}

/// Counts of which these are set.
fn counts<const N: usize>(set: &[(usize, u16)]) -> [u16; N] {
    let mut counts = [0; N];
    for (i, count) in set {
        counts[*i] = *count;
    }
    counts
}

/// The 52 counts of figures, in the order of the fields.
fn counts_of(figures: &Figures) -> [u16; 52] {
    let Figures { opened, accepted, refused, refusals, editions, stages, unset, .. } = figures;
    [&[*opened, *accepted, *refused][..], refusals, editions, stages, &[*unset]].concat().try_into().unwrap()
}

fn with_counts(edition: Edition, bytes: u64, counts: [u16; 52]) -> Figures {
    Figures {
        edition,
        bytes,
        opened: counts[0],
        accepted: counts[1],
        refused: counts[2],
        refusals: counts[3..31].try_into().unwrap(),
        editions: counts[31..35].try_into().unwrap(),
        stages: counts[35..51].try_into().unwrap(),
        unset: counts[51],
    }
}

/// Figures that no list gives, every count another number, in the ways 0 and 1; any two of one edition join.
fn made_up(edition: Edition, way: u16) -> Figures {
    let count = |k| 0x1101 + 0x0203 * k + way * (0x0102 + k);
    with_counts(edition, 0x0123_4567_89ab_cdef + u64::from(way), std::array::from_fn(|k| count(k as u16)))
}

/// Editions to count at; two above 3 are two editions.
const EDITIONS: [Edition; 9] = [0, 1, 2, 3, 4, 5, 256, 1 << 32, usize::MAX];

/// One container more by the rules, from what opening it shows.
fn ruled_add(figures: &mut Figures, bytes: &[u8]) -> Added {
    if figures.opened == 65_535 {
        return Added::Full;
    }
    let one_more = |count: &mut u16| *count = count.saturating_add(1);
    let opening = Container::open(bytes, figures.edition);
    one_more(&mut figures.opened);
    match &opening {
        Ok(container) => {
            one_more(&mut figures.accepted);
            one_more(&mut figures.editions[container.file_edition()]);
            one_more(match container.runtime().stage {
                Some(stage) => &mut figures.stages[stage as usize],
                None => &mut figures.unset,
            });
            figures.bytes = figures.bytes.saturating_add(bytes.len() as u64);
        }
        Err(refusal) => {
            one_more(&mut figures.refused);
            one_more(&mut figures.refusals[usize::from(refusal.number)]);
        }
    }
    Added::Counted(opening.map(|_| ()))
}

fn ruled_join(figures: &mut Figures, more: &Figures) -> Joined {
    if figures.edition != more.edition {
        return Joined::OtherEdition;
    }
    if u32::from(figures.opened) + u32::from(more.opened) > 65_535 {
        return Joined::Full;
    }
    let (counts, more_counts) = (counts_of(figures), counts_of(more));
    let bytes = figures.bytes.saturating_add(more.bytes);
    *figures = with_counts(figures.edition, bytes, std::array::from_fn(|k| counts[k].saturating_add(more_counts[k])));
    Joined::Joined
}

/// The safe and the plain call, both by the rules.
fn add(figures: &mut Figures, bytes: &[u8]) -> Added {
    let mut ruled = *figures;
    let expected = ruled_add(&mut ruled, bytes);
    let (answer, number, place) = match expected {
        Added::Counted(Ok(())) => (0, 0, 0),
        Added::Counted(Err(refusal)) => (0, usize::from(refusal.number), refusal.place),
        Added::Full => (1, 0, 0),
    };
    let plain = raw::FiguresAdded { answer, verdict: raw::Verdict { number, place }, figures: ruled };
    assert_eq!(raw::figures_add(*figures, bytes), plain);
    assert_eq!((figures.add(bytes), *figures), (expected, ruled));
    expected
}

fn join(figures: &mut Figures, more: &Figures) -> Joined {
    let mut ruled = *figures;
    let expected = ruled_join(&mut ruled, more);
    let answer = match expected {
        Joined::Joined => 0,
        Joined::Full => 1,
        Joined::OtherEdition => 2,
    };
    assert_eq!(raw::figures_join(*figures, *more), raw::FiguresJoined { answer, figures: ruled });
    assert_eq!((figures.join(more), *figures), (expected, ruled));
    expected
}

/// The figures of a list, all of which is counted.
fn figures_of<'a>(edition: Edition, files: impl IntoIterator<Item = &'a Vec<u8>>) -> Figures {
    let mut figures = Figures::start(edition);
    for file in files {
        assert_ne!(add(&mut figures, file), Added::Full);
    }
    figures
}

/// Figures joined one after the other.
fn joined(list: &[Figures]) -> Figures {
    let mut all = list[0];
    for more in &list[1..] {
        assert_eq!(join(&mut all, more), Joined::Joined);
    }
    all
}

/// A container by itself gives these figures, and raises made-up ones by them, up to the greatest number of each count and of the sum.
fn counts_as(bytes: &[u8], one: Figures) {
    let raised = |mut figures: Figures| {
        assert_ne!(add(&mut figures, bytes), Added::Full);
        figures
    };
    assert_eq!(raised(Figures::start(one.edition)), one);
    for (k, number) in (1..52).flat_map(|k| [65_533, 65_534, 65_535].map(|number| (k, number))) {
        let mut numbers = counts_of(&made_up(one.edition, 0));
        numbers[k] = number;
        let after = raised(with_counts(one.edition, 7, numbers));
        assert_eq!(counts_of(&after)[k], number.saturating_add(counts_of(&one)[k]), "{k}");
    }
    let len = bytes.len() as u64;
    for room in [0, 1, len.saturating_sub(1), len, len + 1, u64::MAX] {
        let after = raised(Figures { bytes: u64::MAX - room, ..made_up(one.edition, 0) });
        assert_eq!(after.bytes, (u64::MAX - room).saturating_add(one.bytes));
    }
}

#[test]
fn figures_of_a_worked_list() {
    assert_eq!(Figures::MOST, 65_535);
    let list = worked();
    for edition in EDITIONS {
        assert_eq!(Figures::start(edition), with_counts(edition, 0, [0; 52]));
        assert_eq!(raw::figures_start(edition), Figures::start(edition));
        let mut figures = Figures::start(edition);
        let answers = list.each_ref().map(|file| add(&mut figures, file));
        assert_eq!((answers, figures), (worked_answers(edition), worked_figures(edition)));
        assert_eq!(figures_of(edition, list.iter().rev()), figures);
        // Every way to split the list in three.
        for (first, second) in (0..=13).flat_map(|second| (0..=second).map(move |first| (first, second))) {
            let [a, b, c] = [&list[..first], &list[first..second], &list[second..]].map(|list| figures_of(edition, list));
            assert_eq!([joined(&[a, b, c]), joined(&[c, a, b]), joined(&[a, joined(&[b, c])])], [figures; 3]);
        }
    }
    // Six of them in every order: the digits of the number say which of the rest is next.
    let six = [1, 2, 3, 4, 6, 7].map(|i| &list[i]);
    let in_order = figures_of(1, six);
    assert_eq!((in_order.accepted, in_order.refused, in_order.bytes), (4, 2, 516));
    for number in 0..720 {
        let mut rest = six.to_vec();
        let order = (1..=6).rev().scan(number, |digits, count| {
            let next = rest.remove(*digits % count);
            *digits /= count;
            Some(next)
        });
        assert_eq!(figures_of(1, order), in_order, "{number}");
    }
}

#[test]
fn figures_count_the_files_edition_and_the_stage_read() {
    let sizes = [(28, 0), (32, 0), (36, 1), (44, 1), (48, 2), (52, 3), (56, 3), (100, 3)];
    for edition in 0..=3 {
        let mut all = Figures::start(edition);
        for (s, file_edition) in sizes {
            for stage in 0..16 {
                let bytes = shader(&psv0_stage(s, stage));
                let mut expected = Figures { opened: 1, accepted: 1, bytes: 80 + s as u64, ..Figures::start(edition) };
                expected.editions[file_edition] = 1;
                *(if edition.min(file_edition) == 0 { &mut expected.unset } else { &mut expected.stages[usize::from(stage)] }) = 1;
                counts_as(&bytes, expected);
                assert_eq!(add(&mut all, &bytes), ACCEPTED);
            }
        }
        let (stages, unset) = if edition == 0 { ([0; 16], 128) } else { ([6; 16], 32) };
        let start = Figures::start(edition);
        let expected = Figures { opened: 128, accepted: 128, bytes: 16_576, editions: [32, 32, 16, 48], stages, unset, ..start };
        assert_eq!(all, expected);
    }
}

/// A number put into the container of the names A and BC, and what reader 3 then gives; at 52 the name DXIL and none.
const FAULTS: [(usize, u32, u8, usize); 22] = [
    (0, 0, 3, 0),
    (20, 2, 4, 0),
    (24, 221, 5, 0),
    (28, 97, 6, 0),
    (28, 96, 7, 0),
    (36, 51, 8, 1),
    (52, 0x4c49_5844, 9, 1),
    (40, 0, 10, 0),
    (52, 0, 11, 0),
    (60, 26, 12, 0),
    (60, 400, 13, 0),
    (116, 1, 14, 0),
    (88, 16, 15, 0),
    (88, 0x020d, 16, 0),
    (96, 0x0100, 17, 0),
    (120, 7, 18, 0),
    (132, 1000, 19, 0),
    (136, 15, 20, 0),
    (88, 0x0001_010d, 21, 0),
    (188, 8, 22, 3),
    (212, 1, 23, 4),
    (112, 8, 24, 0),
];

/// What such a container gives at an edition, and its figures: 15 to 23 are judged from edition 1 on, 24 at 3, and at 4 nothing is.
fn with_fault(edition: Edition, number: u8, place: usize) -> (Added, Figures) {
    let mut one = Figures { opened: 1, ..Figures::start(edition) };
    if number < 15 || (edition > 0 && number < 24) || edition >= 3 {
        let (number, place) = if edition > 3 { (25, 0) } else { (number, place) };
        one.refused = 1;
        one.refusals[usize::from(number)] = 1;
        return (counted(number, place), one);
    }
    (one.accepted, one.bytes, one.editions[3]) = (1, 220, 1);
    *(if edition == 0 { &mut one.unset } else { &mut one.stages[13] }) = 1;
    (ACCEPTED, one)
}

#[test]
fn figures_count_every_refusal() {
    let good = shader(&psv0_s());
    assert_eq!((good.len(), Container::open(&good, 3).unwrap().runtime().stage), (220, Some(13)));
    let longer = changed([&longest()[..], &[0]].concat(), 24, 16_777_217);
    let mut files = vec![(good[..31].to_vec(), 1, 0), (longer, 2, 0)];
    files.extend(FAULTS.map(|(at, fault, number, place)| (changed(good.clone(), at, fault), number, place)));
    for edition in 0..=4 {
        let mut all = Figures::start(edition);
        for (bytes, number, place) in &files {
            let (answer, one) = with_fault(edition, *number, *place);
            counts_as(bytes, one);
            assert_eq!(add(&mut all, bytes), answer);
        }
        // The numbers from 1 on, once each.
        let last = [14, 23, 23, 24, 0][edition];
        let once: Vec<_> = (1..=last).map(|number| (number, 1)).chain((edition == 4).then_some((25, 24))).collect();
        let accepted = [10, 1, 1, 0, 0][edition];
        let expected = Figures {
            edition,
            bytes: 220 * u64::from(accepted),
            opened: 24,
            accepted,
            refused: 24 - accepted,
            refusals: counts(&once),
            editions: [0, 0, 0, accepted],
            stages: counts(&[(13, [0, 1, 1, 0, 0][edition])]),
            unset: [10, 0, 0, 0, 0][edition],
        };
        assert_eq!(all, expected);
    }
}

#[test]
fn figures_are_full_after_65_535_containers() {
    let list = worked();
    let longest = longest();
    let [mut listed, mut long, mut nothing] = [1, 3, 0].map(Figures::start);
    for i in 1..=65_537 {
        let file = &list[(i - 1) % 13];
        let before = [listed, long, nothing];
        let answers = [add(&mut listed, file), add(&mut long, &longest), add(&mut nothing, &[])];
        if i <= 65_535 {
            assert_eq!(answers, [worked_answers(1)[(i - 1) % 13], ACCEPTED, counted(1, 0)]);
            assert_eq!([listed, long, nothing].map(|figures| usize::from(figures.opened)), [i; 3]);
        } else {
            assert_eq!((answers, [listed, long, nothing]), ([Added::Full; 3], before));
        }
    }
    // The list 5041 times and two containers of it more.
    let expected = Figures {
        edition: 1,
        bytes: 5041 * 1212 + 92 + 136,
        opened: 65_535,
        accepted: 45_371,
        refused: 20_164,
        refusals: counts(&[(1, 5041), (8, 5041), (15, 5041), (22, 5041)]),
        editions: [15_124, 5041, 5041, 20_165],
        stages: counts(&[(0, 5041), (5, 15_124), (13, 5041), (15, 5041)]),
        unset: 15_124,
    };
    assert_eq!(listed, expected);
    let [opened, accepted, refused, unset] = [65_535; 4];
    let editions = [65_535, 0, 0, 0];
    assert_eq!(long, Figures { opened, accepted, bytes: 1_099_494_850_560, editions, unset, ..Figures::start(3) });
    assert_eq!(nothing, Figures { opened, refused, refusals: counts(&[(1, 65_535)]), ..Figures::start(0) });
    // Full figures join none that have one, and any that have none.
    let one = figures_of(1, [&list[3]]);
    assert_eq!((join(&mut listed, &one), join(&mut listed, &Figures::start(1)), listed), (Joined::Full, Joined::Joined, expected));
}

#[test]
fn made_up_figures_stay_at_the_greatest_numbers() {
    let list = worked();
    for edition in EDITIONS {
        for file in &list {
            // The number opened alone decides; what an opening never gives is kept.
            for opened in 65_533..=65_535 {
                let mut figures = Figures { opened, ..made_up(edition, 0) };
                let before = figures;
                let full = add(&mut figures, file) == Added::Full;
                assert_eq!((full, full), (opened == 65_535, figures == before));
                let kept = |figures: &Figures| [0, 26, 27].map(|number| figures.refusals[number]);
                assert_eq!((kept(&figures), figures.edition), (kept(&before), edition));
                let mut only_opened = Figures { opened, ..Figures::start(edition) };
                assert_eq!(add(&mut only_opened, file) == Added::Full, full);
                let mut all_others = Figures { opened, ..with_counts(edition, u64::MAX, [65_535; 52]) };
                assert_eq!(add(&mut all_others, file) == Added::Full, full);
                assert_eq!(all_others, Figures { opened: opened.saturating_add(1), ..with_counts(edition, u64::MAX, [65_535; 52]) });
            }
        }
    }
    let pairs = [
        (65_535, 0, 65_535),
        (0, 65_535, 65_535),
        (65_534, 1, 65_535),
        (65_533, 1, 65_534),
        (65_535, 1, 65_535),
        (1, 65_535, 65_535),
        (65_534, 2, 65_535),
        (32_768, 32_768, 65_535),
        (65_535, 65_535, 65_535),
        (255, 1, 256),
    ];
    for (k, (first, second, sum)) in (1..52).flat_map(|k| pairs.map(|pair| (k, pair))) {
        let [mut a, mut b] = [0, 1].map(|way| counts_of(&made_up(2, way)));
        (a[k], b[k]) = (first, second);
        let mut figures = with_counts(2, 7, a);
        assert_eq!((join(&mut figures, &with_counts(2, 8, b)), counts_of(&figures)[k]), (Joined::Joined, sum), "{k}");
        assert_eq!(figures.bytes, 15);
    }
    let half = 1 << 63;
    let sums = [
        (u64::MAX, 0, u64::MAX),
        (0, u64::MAX, u64::MAX),
        (u64::MAX, 1, u64::MAX),
        (1, u64::MAX, u64::MAX),
        (u64::MAX - 1, 1, u64::MAX),
        (u64::MAX - 2, 1, u64::MAX - 1),
        (half, half, u64::MAX),
        (half - 1, half, u64::MAX),
        (u64::MAX, u64::MAX, u64::MAX),
        (0xffff_ffff, 1, 1 << 32),
    ];
    for (first, second, bytes) in sums {
        let mut figures = Figures { bytes: first, ..made_up(0, 0) };
        assert_eq!((join(&mut figures, &Figures { bytes: second, ..made_up(0, 1) }), figures.bytes), (Joined::Joined, bytes));
    }
}

#[test]
fn figures_are_joined() {
    // The editions are looked at first, then the sum of the numbers opened.
    let pairs = [
        (0, 0, Joined::Joined),
        (0, 65_535, Joined::Joined),
        (65_535, 0, Joined::Joined),
        (1, 65_534, Joined::Joined),
        (65_534, 1, Joined::Joined),
        (32_767, 32_768, Joined::Joined),
        (1, 65_535, Joined::Full),
        (65_535, 1, Joined::Full),
        (2, 65_534, Joined::Full),
        (32_768, 32_768, Joined::Full),
        (65_535, 65_535, Joined::Full),
    ];
    for (edition, other) in EDITIONS.iter().flat_map(|edition| EDITIONS.map(|other| (*edition, other))) {
        for (opened, more_opened, answer) in pairs {
            let first = Figures { opened, ..made_up(edition, 0) };
            let more = Figures { opened: more_opened, ..made_up(other, 1) };
            let mut figures = first;
            let answer = if edition == other { answer } else { Joined::OtherEdition };
            assert_eq!(join(&mut figures, &more), answer);
            if answer != Joined::Joined {
                assert_eq!(figures, first);
            } else {
                let mut other_way = more;
                assert_eq!((join(&mut other_way, &first), other_way), (Joined::Joined, figures));
            }
        }
    }
    // Every count is summed, those that an opening never raises too. The last fields of the structs.
    let mut both = made_up(3, 0);
    assert_eq!(both.join(&made_up(3, 1)), Joined::Joined);
    let expected = std::array::from_fn(|k| (2 * (0x1101 + 0x0203 * k) + 0x0102 + k) as u16);
    assert_eq!(both, with_counts(3, 0x0246_8acf_1357_9bdf, expected));
    let unset = 2 * (0x1101 + 0x0203 * 51) + 0x0102 + 51;
    assert_eq!(raw::figures_join(made_up(3, 0), made_up(3, 1)).figures.unset, unset);
    assert_eq!(raw::figures_add(both, &worked()[0]).figures.unset, unset + 1);
    assert_eq!(raw::figures_add(both, &[]).verdict, raw::Verdict { number: 1, place: 0 });
    let full = Figures { opened: 65_535, ..both };
    assert_eq!(raw::figures_add(full, &[]), raw::FiguresAdded { answer: 1, verdict: raw::Verdict { number: 0, place: 0 }, figures: full });
    assert_eq!(raw::figures_start(3).unset, 0);
    // The worked list twice.
    let mut twice = worked_figures(3);
    assert_eq!(twice.join(&worked_figures(3)), Joined::Joined);
    let expected = Figures {
        edition: 3,
        bytes: 2152,
        opened: 26,
        accepted: 16,
        refused: 10,
        refusals: counts(&[(1, 2), (8, 2), (15, 2), (22, 2), (24, 2)]),
        editions: [6, 2, 2, 6],
        stages: counts(&[(0, 2), (5, 4), (13, 2), (15, 2)]),
        unset: 6,
    };
    assert_eq!(twice, expected);
}
