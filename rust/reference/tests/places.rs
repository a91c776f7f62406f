//! The record of places: its numbers, and the queries that take it with any bytes.

mod common;
use common::*;
use reference::{
    open, open_psv0, Element, Lengths, Opening, Places, Refusal, Resource, Runtime, Section, Text,
};
use std::collections::BTreeMap;

/// A view with its place in the bytes; an empty one has a place, too.
#[derive(Clone, Copy, Debug, PartialEq, Eq)]
struct View<'a>(usize, &'a [u8]);

fn view<'a>(bytes: &'a [u8], part: &'a [u8]) -> View<'a> {
    View(part.as_ptr() as usize - bytes.as_ptr() as usize, part)
}

type Answer<T> = Result<T, Refusal>;

/// All that can be asked, of the first few records and of some that are far away.
#[derive(Debug, PartialEq)]
struct Answers<'a> {
    runtime: Answer<Runtime>,
    union: Answer<View<'a>>,
    lengths: Lengths,
    resources: Vec<Answer<Resource>>,
    elements: Vec<Answer<Element>>,
    strings: Vec<Answer<(View<'a>, usize)>>,
    arrays: Vec<Answer<View<'a>>>,
    numbers: Vec<Answer<Vec<u32>>>,
    entry_name: Answer<(View<'a>, usize)>,
    masks: Vec<Answer<View<'a>>>,
    sections: Vec<Answer<&'a [u8]>>,
}

const FAR: [usize; 6] =
    [255, 1 << 20, u32::MAX as usize - 1, u32::MAX as usize, 1 << 32, usize::MAX];

fn asked() -> impl Iterator<Item = usize> {
    (0..8).chain(FAR)
}

fn masks_asked() -> impl Iterator<Item = usize> {
    (0..13).chain(FAR)
}

/// What the record and the bytes answer.
fn recorded<'a>(places: &Places, bytes: &'a [u8]) -> Answers<'a> {
    let named = |text: Text<'a>| (view(bytes, text.bytes), text.points);
    let seen = |part: &'a [u8]| view(bytes, part);
    Answers {
        runtime: places.runtime_info(bytes),
        union: places.stage_union(bytes).map(seen),
        lengths: places.lengths(),
        resources: asked().map(|i| places.resource(bytes, i)).collect(),
        elements: asked().map(|i| places.element(bytes, i)).collect(),
        strings: asked().map(|i| places.string(bytes, i).map(named)).collect(),
        arrays: asked().map(|i| places.array_bytes(bytes, i).map(seen)).collect(),
        numbers: asked().map(|i| places.array(bytes, i)).collect(),
        entry_name: places.entry_name(bytes).map(named),
        masks: masks_asked().map(|m| places.mask(bytes, m).map(seen)).collect(),
        sections: Section::ALL.map(|section| places.section(bytes, section)).to_vec(),
    }
}

/// What the opening of the bytes answers.
fn fresh<'a>(opening: &Opening<'a>, bytes: &'a [u8]) -> Answers<'a> {
    let named = |text: Text<'a>| (view(bytes, text.bytes), text.points);
    let seen = |part: &'a [u8]| view(bytes, part);
    let handed = opening.handed;
    Answers {
        runtime: Ok(opening.runtime),
        union: Ok(view(bytes, &handed.runtime[..16])),
        lengths: Lengths {
            resources: opening.resource_count(),
            strings: opening.string_length(),
            indices: opening.index_count(),
            elements: opening.element_count(),
        },
        resources: asked().map(|i| opening.resource(i)).collect(),
        elements: asked().map(|i| opening.element(i)).collect(),
        strings: asked().map(|i| opening.string(i).map(named)).collect(),
        arrays: asked().map(|i| opening.array_bytes(i).map(seen)).collect(),
        numbers: asked().map(|i| opening.array(i)).collect(),
        entry_name: opening.entry_name().map(named),
        masks: masks_asked().map(|m| opening.mask(m).map(seen)).collect(),
        sections: vec![
            Ok(handed.runtime),
            Ok(handed.resources),
            Ok(handed.strings),
            Ok(handed.indices),
            Ok(handed.elements),
            Ok(handed.masks),
        ],
    }
}

/// The rules once more, over the 25 numbers as they are counted, with sums of 128 bits.
struct Rules<'a> {
    n: [u128; 25],
    bytes: &'a [u8],
}

impl<'a> Rules<'a> {
    fn need(&self, place: u128, count: u128) -> Answer<View<'a>> {
        if place + count > self.bytes.len() as u128 {
            return refused(29, 0);
        }
        Ok(View(place as usize, &self.bytes[place as usize..][..count as usize]))
    }

    fn number(&self, at: usize, size: usize) -> u32 {
        (0..size).map(|i| u32::from(self.bytes[at + i]) << (8 * i)).sum()
    }

    fn runtime_view(&self) -> Answer<View<'a>> {
        let size = match self.n[0] {
            0 => 24,
            1 => 36,
            2 => 48,
            _ => 52,
        };
        self.need(self.n[1], size)
    }

    fn runtime(&self) -> Answer<Runtime> {
        let View(at, record) = self.runtime_view()?;
        let (edition, stage) = (self.n[0], self.n[2]);
        let field =
            |on: bool, offset: usize, size: usize| on.then(|| self.number(at + offset, size));
        let later = edition >= 1;
        let patch = later && (stage == 3 || stage == 4 || stage == 13);
        let threads = edition >= 2 && (stage == 5 || stage == 13 || stage == 14);
        Ok(Runtime {
            stage_info: record[..16].try_into().unwrap(),
            minimum_wave_lanes: field(true, 16, 4),
            maximum_wave_lanes: field(true, 20, 4),
            stage: field(later, 24, 1),
            uses_view_id: field(later, 25, 1),
            max_vertex_count: field(later && stage == 2, 26, 2),
            patch_vectors: field(patch, 26, 1),
            mesh_topology: field(later && stage == 13, 27, 1),
            input_elements: field(later, 28, 1),
            output_elements: field(later, 29, 1),
            patch_elements: field(later, 30, 1),
            input_vectors: field(later, 31, 1),
            output_vectors: [32, 33, 34, 35].map(|offset| field(later, offset, 1)),
            threads: [36, 40, 44].map(|offset| field(threads, offset, 4)),
            entry_name_offset: field(edition >= 3, 48, 4),
        })
    }

    fn resource(&self, i: u128) -> Answer<Resource> {
        if i >= self.n[4] {
            return refused(26, 0);
        }
        let long = self.n[0] >= 2 && self.n[5] >= 24;
        let View(at, _) = self.need(self.n[3] + i * self.n[5], if long { 24 } else { 16 })?;
        Ok(Resource {
            resource_type: self.number(at, 4),
            space: self.number(at + 4, 4),
            lower: self.number(at + 8, 4),
            upper: self.number(at + 12, 4),
            kind: long.then(|| self.number(at + 16, 4)),
            flags: long.then(|| self.number(at + 20, 4)),
        })
    }

    fn element_at(&self, i: u128) -> Answer<usize> {
        if self.n[0] == 0 || i >= self.n[11] {
            return refused(26, 0);
        }
        self.need(self.n[10] + i * self.n[12], 16).map(|View(at, _)| at)
    }

    fn element(&self, i: u128) -> Answer<Element> {
        let at = self.element_at(i)?;
        let bits = |at: usize, from: u32, count: u32| {
            (0..count).map(|k| (self.number(at, 1) >> (from + k) & 1) << k).sum()
        };
        Ok(Element {
            name_offset: self.number(at, 4),
            index_reference: self.number(at + 4, 4),
            rows: self.number(at + 8, 1),
            start_row: self.number(at + 9, 1),
            columns: bits(at + 10, 0, 4),
            start_column: bits(at + 10, 4, 2),
            allocated: bits(at + 10, 6, 1),
            semantic: self.number(at + 11, 1),
            component: self.number(at + 12, 1),
            interpolation: self.number(at + 13, 1),
            dynamic_mask: bits(at + 14, 0, 4),
            stream: bits(at + 14, 4, 2),
            reserved: self.number(at + 15, 1),
        })
    }

    fn string_at(&self, o: u32) -> Answer<(View<'a>, usize)> {
        let View(at, table) = self.need(self.n[6], self.n[7])?;
        let o = o as usize;
        let zero = (o..table.len()).find(|k| table[*k] == 0);
        let string = zero.map(|zero| &table[o..zero]).ok_or(Refusal { number: 29, place: 0 })?;
        match std::str::from_utf8(string) {
            Err(_) => refused(29, 0),
            Ok(letters) => Ok((View(at + o, string), letters.chars().count())),
        }
    }

    fn string(&self, i: u128) -> Answer<(View<'a>, usize)> {
        let at = self.element_at(i)?;
        self.string_at(self.number(at, 4))
    }

    fn array(&self, i: u128) -> Answer<View<'a>> {
        let at = self.element_at(i)?;
        let View(table, _) = self.need(self.n[8], 4 * self.n[9])?;
        let from = u128::from(self.number(at + 4, 4));
        let rows = u128::from(self.bytes[at + 8]);
        if from + rows > self.n[9] {
            return refused(29, 0);
        }
        self.need(table as u128 + 4 * from, 4 * rows)
    }

    fn numbers(&self, i: u128) -> Answer<Vec<u32>> {
        let View(at, array) = self.array(i)?;
        Ok((0..array.len() / 4).map(|k| self.number(at + 4 * k, 4)).collect())
    }

    fn entry_name(&self) -> Answer<(View<'a>, usize)> {
        if self.n[0] < 3 {
            return refused(26, 0);
        }
        let View(at, _) = self.runtime_view()?;
        self.string_at(self.number(at + 48, 4))
    }

    fn mask(&self, m: u128) -> Answer<View<'a>> {
        if self.n[0] == 0 || m > 10 {
            return refused(26, 0);
        }
        let m = 14 + m as usize;
        let before: u128 = self.n[14..m].iter().sum();
        self.need(self.n[13] + 4 * before, 4 * self.n[m])
    }

    fn section(&self, section: usize) -> Answer<&'a [u8]> {
        if section > 1 && self.n[0] == 0 {
            return Ok(b"");
        }
        let n = &self.n;
        let stretch = match section {
            0 => self.runtime_view(),
            1 => self.need(n[3], n[4] * n[5]),
            2 => self.need(n[6], n[7]),
            3 => self.need(n[8], 4 * n[9]),
            4 => self.need(n[10], n[11] * n[12]),
            _ => self.need(n[13], 4 * n[14..].iter().sum::<u128>()),
        };
        stretch.map(|View(_, bytes)| bytes)
    }

    fn answers(&self) -> Answers<'a> {
        let length = |number: usize| (self.n[0] > 0).then_some(self.n[number] as usize);
        let asked = || asked().map(|i| i as u128);
        Answers {
            runtime: self.runtime(),
            union: self.runtime_view().map(|View(at, record)| View(at, &record[..16])),
            lengths: Lengths {
                resources: self.n[4] as usize,
                strings: length(7),
                indices: length(9),
                elements: length(11),
            },
            resources: asked().map(|i| self.resource(i)).collect(),
            elements: asked().map(|i| self.element(i)).collect(),
            strings: asked().map(|i| self.string(i)).collect(),
            arrays: asked().map(|i| self.array(i)).collect(),
            numbers: asked().map(|i| self.numbers(i)).collect(),
            entry_name: self.entry_name(),
            masks: masks_asked().map(|m| self.mask(m as u128)).collect(),
            sections: (0..6).map(|section| self.section(section)).collect(),
        }
    }
}

fn rules<'a>(places: &Places, bytes: &'a [u8]) -> Answers<'a> {
    Rules { n: places.numbers().map(u128::from), bytes }.answers()
}

/// The answers, which must be what the rules say.
#[track_caller]
fn checked<'a>(places: &Places, bytes: &'a [u8]) -> Answers<'a> {
    let answers = recorded(places, bytes);
    assert_eq!(answers, rules(places, bytes), "{places:?} on {} bytes", bytes.len());
    answers
}

/// The record of PSV0 data alone, which must be accepted.
#[track_caller]
fn places_of(data: &[u8], edition: usize) -> Places {
    open_psv0(data, edition).unwrap().places
}

/// The record of `hull` by itself, by hand.
const HULL: Places = Places {
    edition: 3,
    runtime: 4,
    stage: 3,
    resources: 64,
    resource_count: 2,
    resource_size: 24,
    strings: 116,
    string_bytes: 16,
    indices: 136,
    index_count: 6,
    elements: 164,
    element_count: 3,
    element_size: 16,
    masks: 212,
    mask_words: [2, 0, 0, 0, 2, 24, 0, 0, 0, 24, 0],
};

#[test]
fn the_numbers() {
    let data = hull().bytes();
    assert_eq!(data.len(), 420);
    for edition in 1..=3 {
        let expected = Places { edition: edition as u32, ..HULL };
        assert_eq!(places_of(&data, edition), expected);
    }
    let nothing = Places::default();
    let expected =
        Places { runtime: 4, resources: 64, resource_count: 2, resource_size: 24, ..nothing };
    assert_eq!(places_of(&data, 0), expected);

    // Edition 0 with no resources: their place is right after R.
    let expected = Places { runtime: 4, resources: 32, ..nothing };
    for edition in 0..=3 {
        assert_eq!(places_of(&box_m().bytes(), edition), expected);
    }
    // Neither resources, indices nor elements, and no masks at the end of the data.
    let expected = Places {
        edition: 3,
        runtime: 4,
        stage: 5,
        resources: 60,
        strings: 64,
        string_bytes: 8,
        indices: 76,
        elements: 76,
        masks: 76,
        ..nothing
    };
    assert_eq!(places_of(&box_c().bytes(), 3), expected);
}

#[test]
fn in_a_container_places_are_file_offsets() {
    let moved = |places: Places, by: u32| {
        let mut numbers = places.numbers();
        let later: &[usize] = if places.edition == 0 { &[] } else { &[6, 8, 10, 13] };
        for at in [1, 3].iter().chain(later) {
            numbers[*at] += by;
        }
        Places::from_numbers(numbers)
    };
    for data in [box_m(), box_c(), hull()].map(|psv0| psv0.bytes()) {
        let (code, psv0) = ((b"DXIL", &b"code"[..]), (b"PSV0", &data[..]));
        let parts = [(3, b"HASH", &b"12345"[..]), (1, code.0, code.1), (2, psv0.0, psv0.1)];
        // The data begin at 60; after a part, without one; and after gaps.
        let listed = [
            (60, shader(&data)),
            (48, container(&[psv0, code])),
            (44 + 3 + 13 + 1 + 12 + 2 + 8, gapped(&parts, 5)),
        ];
        for (at, bytes) in listed {
            assert_eq!(&bytes[at..at + data.len()], data);
            for edition in 0..=3 {
                let alone = places_of(&data, edition);
                let opening = open(&bytes, edition).unwrap();
                assert_eq!(opening.places, moved(alone, at as u32));
                assert_eq!(checked(&opening.places, &bytes), fresh(&opening, &bytes));
            }
        }
    }
}

#[test]
fn the_stated_sizes_and_the_edition_read() {
    // S above 52, records wider than they need to be, and bytes after the last section.
    let mut psv0 = hull().wider_elements(20);
    psv0.runtime.resize(60, 0xdd);
    psv0.resource_size = 28;
    psv0.resources = vec![1; 56];
    psv0.after = vec![2; 7];
    let data = psv0.bytes();
    let expected = Places {
        resources: 72,
        resource_size: 28,
        strings: 132,
        indices: 152,
        elements: 180,
        element_size: 20,
        masks: 240,
        ..HULL
    };
    assert_eq!(places_of(&data, 3), expected);
    // A file of edition 1 read as 3, with an index table and no elements.
    let mut psv0 = Psv0::of_size(40);
    psv0.runtime[24] = 15;
    psv0.indices = vec![7, 8];
    let expected = Places {
        edition: 1,
        runtime: 4,
        stage: 15,
        resources: 48,
        strings: 52,
        indices: 56,
        index_count: 2,
        elements: 64,
        masks: 64,
        ..Places::default()
    };
    assert_eq!(places_of(&psv0.bytes(), 3), expected);
    // The same file read as 0 has no stage.
    let expected = Places { runtime: 4, resources: 48, ..Places::default() };
    assert_eq!(places_of(&psv0.bytes(), 0), expected);
}

#[test]
fn the_masks_of_each_kind() {
    let of = |stage: u8, view_id: u8, p: u8, u: u8, v: [u8; 4]| {
        let mut psv0 = Psv0::of_size(36);
        psv0.runtime[24..28].copy_from_slice(&[stage, view_id, p, 0]);
        psv0.runtime[31] = u;
        psv0.runtime[32..36].copy_from_slice(&v);
        psv0.masks = vec![0; 4 * mask_total(&psv0.runtime)];
        places_of(&psv0.bytes(), 1).mask_words
    };
    assert_eq!(of(2, 1, 9, 3, [1, 8, 9, 17]), [1, 1, 2, 3, 0, 12, 12, 24, 36, 0, 0]);
    assert_eq!(of(2, 0, 9, 3, [1, 8, 9, 17]), [0, 0, 0, 0, 0, 12, 12, 24, 36, 0, 0]);
    assert_eq!(of(3, 1, 17, 2, [9, 0, 0, 0]), [2, 0, 0, 0, 3, 16, 0, 0, 0, 24, 0]);
    assert_eq!(of(4, 1, 17, 2, [9, 0, 0, 0]), [2, 0, 0, 0, 0, 16, 0, 0, 0, 0, 136]);
    assert_eq!(of(13, 1, 17, 0, [9, 0, 0, 0]), [2, 0, 0, 0, 3, 0, 0, 0, 0, 0, 0]);
    // Byte 26 of a vertex shader is no count.
    assert_eq!(of(1, 1, 17, 2, [9, 0, 0, 0]), [2, 0, 0, 0, 0, 16, 0, 0, 0, 0, 0]);
}

#[test]
fn numbers_there_and_back() {
    let numbers: [u32; 25] = std::array::from_fn(|i| 100 + i as u32);
    let places = Places::from_numbers(numbers);
    assert_eq!(places.numbers(), numbers);
    let expected = Places {
        edition: 100,
        runtime: 101,
        stage: 102,
        resources: 103,
        resource_count: 104,
        resource_size: 105,
        strings: 106,
        string_bytes: 107,
        indices: 108,
        index_count: 109,
        elements: 110,
        element_count: 111,
        element_size: 112,
        masks: 113,
        mask_words: [114, 115, 116, 117, 118, 119, 120, 121, 122, 123, 124],
    };
    assert_eq!(places, expected);
}

#[test]
fn what_hull_answers() {
    let data = hull().bytes();
    let answers = checked(&HULL, &data);
    assert_eq!(answers, fresh(&open_psv0(&data, 3).unwrap(), &data));
    assert_eq!(answers.union, Ok(View(4, &data[4..20])));
    assert_eq!(answers.resources[1].unwrap().kind, Some(50));
    assert_eq!(answers.resources[2], refused(26, 0));
    assert_eq!(answers.strings[0], Ok((View(122, b"POS"), 3)));
    assert_eq!(answers.strings[1], Ok((View(126, b"B"), 1)));
    assert_eq!(answers.strings[2], Ok((View(116, b""), 0)));
    assert_eq!(answers.strings[3], refused(26, 0));
    assert_eq!(answers.numbers[0], Ok(vec![71, 72, 73]));
    assert_eq!(answers.arrays[1], Ok(View(160, b"")));
    assert_eq!(answers.entry_name, Ok((View(117, b"main"), 4)));
    assert_eq!(answers.masks[4], Ok(View(220, &data[220..228])));
    assert_eq!(answers.masks[10], Ok(View(420, b"")));
    assert_eq!(answers.masks[11], refused(26, 0));
    assert_eq!(answers.sections[5], Ok(&data[212..]));
}

#[test]
fn every_answer_is_the_fresh_one() {
    let mut random = Random(0x0b5e_55ed_0b5e_55ed);
    let mut reached = [0; 4];
    for _ in 0..20_000 {
        let psv0 = made(&mut random);
        let data = psv0.bytes();
        let gaps: Vec<usize> = (0..4).map(|_| random.pick(&[0, 0, 1, 4, 6])).collect();
        let bytes = gapped(
            &[(gaps[0], b"DXIL", b"code"), (gaps[1], b"PSV0", &data), (gaps[2], b"PRIV", b"x")],
            gaps[3],
        );
        for edition in 0..=4 {
            for (bytes, opening) in
                [(&data, open_psv0(&data, edition)), (&bytes, open(&bytes, edition))]
            {
                // A refused opening has no record.
                let Ok(opening) = opening else { continue };
                let places = opening.places;
                assert_eq!(places.edition as usize, opening.edition_read);
                assert_eq!(checked(&places, bytes), fresh(&opening, bytes));
                reached[opening.edition_read] += 1;
            }
        }
    }
    assert!(reached.iter().all(|count| *count > 1000), "{reached:?}");
}

#[test]
fn what_the_record_decides_comes_before_the_bytes() {
    // No byte at all, and places past every end.
    let far = Places {
        runtime: u32::MAX,
        resources: u32::MAX,
        strings: u32::MAX,
        indices: u32::MAX,
        elements: u32::MAX,
        masks: u32::MAX,
        ..HULL
    };
    for places in [HULL, far] {
        for bytes in [&b""[..], b"DXBC", &[0; 100]] {
            let bytes = if places == far { bytes } else { b"" };
            let answers = checked(&places, bytes);
            assert_eq!(answers.runtime, refused(29, 0));
            assert_eq!(answers.union, refused(29, 0));
            for i in 0..2 {
                assert_eq!(answers.resources[i], refused(29, 0));
            }
            for i in 0..3 {
                assert_eq!(answers.elements[i], refused(29, 0));
                assert_eq!(answers.strings[i], refused(29, 0));
                assert_eq!(answers.arrays[i], refused(29, 0));
            }
            assert_eq!(answers.entry_name, refused(29, 0));
            assert!(answers.masks[..11].iter().all(|mask| *mask == refused(29, 0)));
            assert!(answers.sections.iter().all(|section| *section == refused(29, 0)));
            // Past the counts it is 26 all the same.
            assert!(answers.resources[2..].iter().all(|answer| *answer == refused(26, 0)));
            assert!(answers.elements[3..].iter().all(|answer| *answer == refused(26, 0)));
            assert!(answers.strings[3..].iter().all(|answer| *answer == refused(26, 0)));
            assert!(answers.arrays[3..].iter().all(|answer| *answer == refused(26, 0)));
            assert!(answers.masks[11..].iter().all(|answer| *answer == refused(26, 0)));
            // Lengths need no bytes.
            let lengths =
                Lengths { resources: 2, strings: Some(16), indices: Some(6), elements: Some(3) };
            assert_eq!(answers.lengths, lengths);
        }
    }
}

#[test]
fn the_recorded_edition_decides() {
    let data = hull().bytes();
    // Edition 0: all of sections 3 to 6 is unset, whatever else is recorded.
    for bytes in [&data[..], b""] {
        let answers = checked(&Places { edition: 0, ..HULL }, bytes);
        assert!(answers.elements.iter().all(|answer| *answer == refused(26, 0)));
        assert!(answers.strings.iter().all(|answer| *answer == refused(26, 0)));
        assert!(answers.arrays.iter().all(|answer| *answer == refused(26, 0)));
        assert!(answers.masks.iter().all(|answer| *answer == refused(26, 0)));
        assert_eq!(answers.entry_name, refused(26, 0));
        assert!(answers.sections[2..].iter().all(|section| *section == Ok(b"")));
        let lengths = Lengths { resources: 2, strings: None, indices: None, elements: None };
        assert_eq!(answers.lengths, lengths);
        let expected = if bytes.is_empty() { refused(29, 0) } else { Ok(&data[4..28]) };
        assert_eq!(answers.sections[0], expected);
        let expected = if bytes.is_empty() { refused(29, 0) } else { Ok(&data[64..112]) };
        assert_eq!(answers.sections[1], expected);
    }
    // The runtime record of each edition, at its end and one byte short.
    for (edition, size) in [(0, 24), (1, 36), (2, 48), (3, 52), (4, 52), (u32::MAX, 52)] {
        let places = Places { edition, ..HULL };
        let answers = checked(&places, &data[..4 + size]);
        assert_eq!(answers.sections[0], Ok(&data[4..4 + size]));
        assert_eq!(answers.union, Ok(View(4, &data[4..20])));
        let runtime = answers.runtime.unwrap();
        assert_eq!(runtime.minimum_wave_lanes, Some(4));
        assert_eq!(runtime.stage, (edition >= 1).then_some(3));
        assert_eq!(runtime.entry_name_offset, (edition >= 3).then_some(1));
        let answers = checked(&places, &data[..4 + size - 1]);
        assert_eq!(answers.runtime, refused(29, 0));
        assert_eq!(answers.union, refused(29, 0), "its bytes are there, the record isn't");
        assert_eq!(answers.sections[0], refused(29, 0));
    }
    // Above 3 counts as 3.
    for edition in [4, 5, 255, 256, u32::MAX] {
        assert_eq!(checked(&Places { edition, ..HULL }, &data), checked(&HULL, &data));
    }
    // Only 3 has an entry name, with its bytes there or not.
    for edition in 0..3 {
        for bytes in [&data[..], b""] {
            assert_eq!(Places { edition, ..HULL }.entry_name(bytes), refused(26, 0));
        }
    }
}

#[test]
fn the_recorded_stage_against_the_byte() {
    let mut data = hull().bytes();
    data[4 + 26..4 + 28].copy_from_slice(&[0x34, 0x12]);
    for shown in [0, 2, 3, 5, 13, 16, 255] {
        data[4 + 24] = shown;
        for stage in (0..20).chain([255, 256 + 13, 1 << 24 | 2, u32::MAX]) {
            for edition in 0..=4 {
                let places = Places { edition, stage, ..HULL };
                let runtime = checked(&places, &data).runtime.unwrap();
                let later = edition >= 1;
                assert_eq!(runtime.stage, later.then_some(u32::from(shown)));
                let vertices = (later && stage == 2).then_some(0x1234);
                assert_eq!(runtime.max_vertex_count, vertices);
                let patch = (later && [3, 4, 13].contains(&stage)).then_some(0x34);
                assert_eq!(runtime.patch_vectors, patch);
                assert_eq!(runtime.mesh_topology, (later && stage == 13).then_some(0x12));
                let threads = edition >= 2 && [5, 13, 14].contains(&stage);
                assert_eq!(runtime.threads, [64, 0, 0].map(|n| threads.then_some(n)));
            }
        }
    }
}

#[test]
fn resources_at_their_edges() {
    let data = hull().bytes();
    // Record 1 is at 88.
    for (edition, size, need, i) in [
        (0, 24, 16, 1),
        (1, 24, 16, 1),
        (2, 24, 24, 1),
        (3, 24, 24, 1),
        (9, 24, 24, 1),
        (3, 23, 16, 1),
        (3, 16, 16, 1),
        (3, 25, 24, 1),
        // Sizes that no file states; records may overlap.
        (3, 0, 16, 1),
        (3, 1, 16, 1),
        (1, 0, 16, 7),
        (2, 28, 24, 7),
    ] {
        let places = Places { edition, resource_size: size, resource_count: 8, ..HULL };
        let at = 64 + i * size as usize;
        let whole = &data[..at + need];
        let resource = checked(&places, whole).resources[i].unwrap();
        assert_eq!(resource.kind.is_some(), need == 24);
        assert_eq!(resource.flags.is_some(), need == 24);
        assert_eq!(resource.resource_type.to_le_bytes(), data[at..at + 4]);
        let short = &data[..at + need - 1];
        assert_eq!(checked(&places, short).resources[i], refused(29, 0));
    }
    // 26 is for the count: none, one and the most there can be.
    let places = Places { resource_count: 0, ..HULL };
    assert!(checked(&places, &data).resources.iter().all(|r| *r == refused(26, 0)));
    let places = Places { resource_count: u32::MAX, resource_size: 0, ..HULL };
    let greatest = u32::MAX as usize - 1;
    assert_eq!(places.resource(&data, greatest), places.resource(&data, 0));
    assert!(places.resource(&data, 0).is_ok());
    assert_eq!(places.resource(&data, greatest + 1), refused(26, 0));
    assert_eq!(places.resource(&data, greatest + 2), refused(26, 0));
}

#[test]
fn elements_strings_and_arrays_at_their_edges() {
    let data = hull().bytes();
    let last = 164 + 2 * 16;
    let answers = checked(&HULL, &data[..last + 16]);
    assert_eq!(answers.elements[2].unwrap().index_reference, 3);
    assert_eq!(answers.strings[2], Ok((View(116, b""), 0)));
    assert_eq!(answers.numbers[2], Ok(vec![73, 74, 75]));
    let answers = checked(&HULL, &data[..last + 15]);
    assert_eq!(answers.elements[2], refused(29, 0));
    assert_eq!(answers.strings[2], refused(29, 0));
    assert_eq!(answers.arrays[2], refused(29, 0));
    assert!(answers.elements[1].is_ok() && answers.strings[1].is_ok());
    // Elements before the tables, so that the tables are what is cut.
    let mut bytes = hull().elements;
    bytes.extend_from_slice(&hull().strings);
    bytes.extend_from_slice(&words(&hull().indices));
    let places = Places { elements: 0, strings: 48, indices: 64, ..HULL };
    let answers = checked(&places, &bytes);
    assert_eq!(answers.strings[0], Ok((View(54, b"POS"), 3)));
    assert_eq!(answers.numbers[0], Ok(vec![71, 72, 73]));
    // The array of element 0 ends at 80, and the empty one of element 1 has no bytes;
    // they need all of the index table.
    for length in 64..88 {
        let answers = checked(&places, &bytes[..length]);
        assert!(answers.strings[..3].iter().all(|string| string.is_ok()));
        assert!(answers.elements[..3].iter().all(|element| element.is_ok()));
        assert!(answers.arrays[..3].iter().all(|array| *array == refused(29, 0)));
    }
    // The string of element 2 is a zero at the table's front; it needs the whole table.
    for length in 48..64 {
        let answers = checked(&places, &bytes[..length]);
        assert!(answers.strings[..3].iter().all(|string| *string == refused(29, 0)));
    }
}

#[test]
fn strings_need_the_whole_recorded_table_and_end_inside() {
    // Element, then the strings.
    let mut bytes = element(1, 0, [0; 8]);
    bytes.extend_from_slice(b"\0caf\xc3\xa9\0\xa9\0\xff");
    let bytes = &bytes[..];
    let places = Places {
        edition: 1,
        elements: 0,
        element_count: 1,
        element_size: 16,
        strings: 16,
        ..Places::default()
    };
    let of = |string_bytes: u32| {
        let places = Places { string_bytes, ..places };
        checked(&places, bytes).strings[0]
    };
    // The zero is the seventh byte; ten there are, and no more.
    for string_bytes in 0..7 {
        assert_eq!(of(string_bytes), refused(29, 0));
    }
    for string_bytes in 7..=10 {
        assert_eq!(of(string_bytes), Ok((View(17, "caf\u{e9}".as_bytes()), 4)));
    }
    for string_bytes in [11, 12, 1 << 31, u32::MAX - 15, u32::MAX] {
        assert_eq!(of(string_bytes), refused(29, 0));
    }
    // References by the element's number: in the middle of a letter, to the end, past it.
    for (o, expected) in [
        (0, Ok((View(16, &b""[..]), 0))),
        (3, Ok((View(19, "f\u{e9}".as_bytes()), 2))),
        (4, Ok((View(20, "\u{e9}".as_bytes()), 1))),
        (5, refused(29, 0)),
        (6, Ok((View(22, &b""[..]), 0))),
        (7, refused(29, 0)),
        (8, Ok((View(24, &b""[..]), 0))),
        (9, refused(29, 0)),
        (10, refused(29, 0)),
        (11, refused(29, 0)),
        (u32::MAX, refused(29, 0)),
    ] {
        let mut bytes = bytes.to_vec();
        put4(&mut bytes, 0, o);
        let places = Places { string_bytes: 10, ..places };
        assert_eq!(checked(&places, &bytes).strings[0], expected, "a reference to {o}");
        // The same as an entry name, at the end of a record of 52 bytes.
        let mut bytes = vec![9; 48];
        bytes.extend_from_slice(&words(&[o]));
        bytes.extend_from_slice(b"\0caf\xc3\xa9\0\xa9\0\xff");
        let places = Places { edition: 3, strings: 52, string_bytes: 10, ..Places::default() };
        let moved = expected.map(|(View(at, string), points)| (View(at + 36, string), points));
        assert_eq!(checked(&places, &bytes).entry_name, moved);
        assert_eq!(checked(&places, &bytes[..61]).entry_name, refused(29, 0));
    }
    // A table of no bytes at the end has no string, and one past the end neither.
    for strings in [25, 26, 27] {
        let places = Places { strings, string_bytes: 0, ..places };
        assert_eq!(checked(&places, bytes).strings[0], refused(29, 0));
        let inside = strings <= 26;
        let section = places.section(bytes, Section::Strings);
        assert_eq!(section, if inside { Ok(&b""[..]) } else { refused(29, 0) });
    }
}

#[test]
fn the_entry_name_needs_the_record_and_the_table() {
    let data = box_c().bytes();
    let places = places_of(&data, 3);
    assert_eq!(places.entry_name(&data), Ok(text(b"main")));
    // The table is 64 to 72.
    assert_eq!(places.entry_name(&data[..72]), Ok(text(b"main")));
    assert_eq!(places.entry_name(&data[..71]), refused(29, 0));
    // The record at the end of the bytes: its last number is the reference.
    let mut bytes = b"\0main\0\0\0".to_vec();
    bytes.extend_from_slice(&box_c().runtime);
    let places = Places { runtime: 8, strings: 0, ..places };
    assert_eq!(checked(&places, &bytes).entry_name, Ok((View(1, b"main"), 4)));
    assert_eq!(checked(&places, &bytes[..59]).entry_name, refused(29, 0));
    assert_eq!(checked(&Places { runtime: 9, ..places }, &bytes).entry_name, refused(29, 0));
}

#[test]
fn index_references_at_their_edges() {
    for (n, i, rows, good) in INDEX_EDGES {
        let psv0 = with_reference(n, 1, i, rows);
        let data = psv0.bytes();
        // Made up, as the opening refuses some of these.
        let at = psv0.elements_at() as u32;
        let places = Places {
            edition: 1,
            indices: at - 4 * n,
            index_count: n,
            elements: at + 4,
            element_count: 5,
            element_size: 16,
            ..Places::default()
        };
        let answers = checked(&places, &data);
        match good {
            true => assert_eq!(answers.numbers[1], Ok(arrays_of(n, 1, i, rows).remove(1))),
            false => assert_eq!(answers.numbers[1], refused(29, 0), "{n} {i} {rows}"),
        }
        assert!(answers.numbers[0].is_ok() && answers.numbers[2].is_ok());
    }
}

#[test]
fn a_mask_needs_its_own_words_alone() {
    let data = hull().bytes();
    // Masks 0, 4, 5 and 9 end at 220, 228, 324 and 420.
    for length in 212..=420 {
        let answers = checked(&HULL, &data[..length]);
        for (m, end) in [(0, 220), (4, 228), (5, 324), (9, 420)] {
            assert_eq!(answers.masks[m].is_ok(), length >= end, "mask {m} of {length} bytes");
        }
        // Empty ones are where they would stand.
        for (m, at) in [(1, 220), (2, 220), (3, 220), (6, 324), (7, 324), (8, 324), (10, 420)] {
            let expected = if length >= at { Ok(View(at, &b""[..])) } else { refused(29, 0) };
            assert_eq!(answers.masks[m], expected);
        }
        // All of them together are the section.
        assert_eq!(answers.sections[5].is_ok(), length == 420);
    }
    // One that is made up doesn't spoil those before it, and those after it are past the
    // end, empty or not.
    let mut places = HULL;
    places.mask_words[5] = u32::MAX;
    let answers = checked(&places, &data);
    for m in 0..5 {
        assert!(answers.masks[m].is_ok());
    }
    for m in 5..11 {
        assert_eq!(answers.masks[m], refused(29, 0));
    }
    // Sums that wrap at 32 bits: 4 * 2^30 is 2^32, and 2^32 words are.
    for many in [&[1 << 30][..], &[1 << 31, 1 << 31], &[u32::MAX, 1], &[u32::MAX; 10]] {
        let mut mask_words = [0; 11];
        mask_words[..many.len()].copy_from_slice(many);
        mask_words[many.len()] = 1;
        let places = Places { mask_words, ..HULL };
        let answers = checked(&places, &data);
        assert!(answers.masks[..11].iter().all(|mask| *mask == refused(29, 0)));
        assert_eq!(answers.sections[5], refused(29, 0));
    }
}

#[test]
fn sections_at_their_edges() {
    let data = hull().bytes();
    // Where each section begins and ends.
    let stretches = [(4, 56), (64, 112), (116, 132), (136, 160), (164, 212), (212, 420)];
    for (section, (start, end)) in Section::ALL.into_iter().zip(stretches) {
        assert_eq!(HULL.section(&data, section), Ok(&data[start..end]));
        assert_eq!(HULL.section(&data[..end], section), Ok(&data[start..end]));
        assert_eq!(HULL.section(&data[..end - 1], section), refused(29, 0));
        assert_eq!(HULL.section(b"", section), refused(29, 0));
    }
    // No bytes at the end lie inside, and one past it they don't.
    for (at, expected) in [(420, Ok(&b""[..])), (421, refused(29, 0)), (u32::MAX, refused(29, 0))] {
        let places = Places {
            edition: 1,
            resources: at,
            strings: at,
            indices: at,
            elements: at,
            masks: at,
            ..Places::default()
        };
        let answers = checked(&places, &data);
        assert!(answers.sections[1..].iter().all(|section| *section == expected));
        assert!(answers.masks[..11].iter().all(|mask| mask.is_ok() == expected.is_ok()));
        // The resources are there in edition 0, too.
        let answers = checked(&Places { edition: 0, ..places }, &data);
        assert_eq!(answers.sections[1], expected);
        assert!(answers.sections[2..].iter().all(|section| *section == Ok(b"")));
    }
    // Many records of no bytes, and no records of many.
    let places = Places {
        resource_count: u32::MAX,
        resource_size: 0,
        element_count: 0,
        element_size: u32::MAX,
        ..HULL
    };
    let answers = checked(&places, &data);
    assert_eq!(answers.sections[1], Ok(&b""[..]));
    assert_eq!(answers.sections[4], Ok(&b""[..]));
    assert_eq!(answers.lengths.resources, 4_294_967_295);
    assert_eq!(answers.lengths.elements, Some(0));
}

#[test]
fn huge_numbers_never_wrap() {
    let data = hull().bytes();
    let most = Places::from_numbers([u32::MAX; 25]);
    for bytes in [&data[..], b"", &[0; 64]] {
        let answers = checked(&most, bytes);
        assert_eq!(answers.runtime, refused(29, 0));
        assert!(answers.sections.iter().all(|section| *section == refused(29, 0)));
        assert_eq!(answers.resources[0], refused(29, 0));
        assert_eq!(most.resource(bytes, u32::MAX as usize - 1), refused(29, 0));
        assert_eq!(most.element(bytes, u32::MAX as usize - 1), refused(29, 0));
        assert_eq!(most.resource(bytes, u32::MAX as usize), refused(26, 0));
        assert_eq!(answers.lengths.strings, Some(4_294_967_295));
    }
    // Products that wrap at 32 bits into the records: 65,536 records of 65,536 bytes.
    for (size, i) in [(1 << 16, 1 << 16), (1 << 31, 2), (1 << 28, 16), (u32::MAX, 1 << 31)] {
        let places = Places {
            resource_count: u32::MAX,
            resource_size: size,
            element_count: u32::MAX,
            element_size: size,
            ..HULL
        };
        assert!(places.resource(&data, 0).is_ok() && places.element(&data, 0).is_ok());
        assert_eq!(places.resource(&data, i), refused(29, 0));
        assert_eq!(places.element(&data, i), refused(29, 0));
        assert_eq!(places.string(&data, i), refused(29, 0));
        assert_eq!(places.array(&data, i), refused(29, 0));
        checked(&places, &data);
    }
    // A place and a size that wrap together.
    let places = Places { strings: u32::MAX - 7, string_bytes: 16, ..HULL };
    assert_eq!(checked(&places, &data).strings[2], refused(29, 0));
    for index_count in [1 << 30, (1 << 30) + 6, 3 << 30, u32::MAX] {
        let places = Places { index_count, ..HULL };
        assert_eq!(checked(&places, &data).arrays[0], refused(29, 0));
    }
}

#[test]
fn records_of_other_files_and_changed_ones() {
    let mut random = Random(0x7ac3_51de_ca5e_0001);
    let mut reached: BTreeMap<(&str, u8), usize> = BTreeMap::new();
    let mut before = (HULL, hull().bytes());
    for _ in 0..60_000 {
        let psv0 = made(&mut random);
        let data = psv0.bytes();
        let mut bytes = if random.one_in(2) { data } else { shader(&data) };
        let edition = random.below(4);
        let opened = open(&bytes, edition).or_else(|_| open_psv0(&bytes, edition));
        let own = opened.map(|opening| opening.places).ok();
        let mut numbers = match random.below(8) {
            // Another file's, or any numbers.
            0 => before.0.numbers(),
            1 => std::array::from_fn(|_| random.pick(&[0, 1, 2, 4, 16, 24, 40, 64, 100])),
            2 => std::array::from_fn(|_| random.next() as u32 >> random.below(32)),
            _ => own.unwrap_or(before.0).numbers(),
        };
        for _ in 0..random.pick(&[0, 0, 1, 1, 2, 6]) {
            let number = &mut numbers[random.below(25)];
            *number = match random.below(6) {
                0 => number.wrapping_add(random.pick(&[1, 4, 16, 24])),
                1 => number.wrapping_sub(random.pick(&[1, 4, 16, 24])),
                2 => *number ^ 1 << random.below(32),
                3 => random.pick(&[0, 1, 3, 4, 13, 1 << 30, 1 << 31, u32::MAX]),
                4 => bytes.len() as u32,
                _ => random.below(bytes.len() + 1) as u32,
            };
        }
        let places = Places::from_numbers(numbers);
        damage(&mut random, &mut bytes);
        let answers = checked(&places, &bytes);
        checked(&places, &before.1);
        let mut count = |what, number| *reached.entry((what, number)).or_default() += 1;
        let number = |refusal: Option<Refusal>| refusal.map_or(0, |refusal| refusal.number);
        count("runtime", number(answers.runtime.err()));
        count("resource", number(answers.resources[0].err()));
        count("element", number(answers.elements[0].err()));
        count("string", number(answers.strings[0].err()));
        count("array", number(answers.arrays[0].err()));
        count("entry", number(answers.entry_name.err()));
        count("mask", number(answers.masks[5].err()));
        count("section", number(answers.sections[2].err()));
        before = (places, bytes);
    }
    for what in ["resource", "element", "string", "array", "entry", "mask"] {
        for number in [0, 26, 29] {
            let count = reached.get(&(what, number)).copied().unwrap_or(0);
            assert!(count > 500, "{what} {number}: {count}");
        }
    }
    assert!(reached[&("runtime", 29)] > 500 && reached[&("section", 29)] > 500);
    assert!(!reached.contains_key(&("runtime", 26)) && !reached.contains_key(&("section", 26)));
}
