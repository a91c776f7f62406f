//! The section places of document 02 through the safe calls: places of hand-made data, queries by them on the bytes they were made from and on
//! any others, and replacing. What is expected is worked out here by the papers' rules.

use qollqamir::*;

fn refused<T>(number: u8) -> Result<T, Refusal> {
    Err(Refusal { number, place: 0 })
}

fn get4(bytes: &[u8], at: usize) -> u32 {
    u32::from_le_bytes(bytes[at..at + 4].try_into().unwrap())
}

fn put4(bytes: &mut [u8], at: usize, number: u32) {
    bytes[at..at + 4].copy_from_slice(&number.to_le_bytes());
}

/// Every number 0, as beside a refusal.
const NO_PLACES: Places = places(0, 0, 0, [0; 3], [0; 2], [0; 2], [0; 3], 0, [0; 11]);

/// Edition, runtime record, stage; place, count and size of resources; of strings and indices place and count; of elements as of resources; the
/// masks' place and words.
#[allow(clippy::too_many_arguments)]
const fn places(
    edition: u32,
    runtime: u32,
    stage: u32,
    [resources, resource_count, resource_size]: [u32; 3],
    [strings, string_bytes]: [u32; 2],
    [indices, index_count]: [u32; 2],
    [elements, element_count, element_size]: [u32; 3],
    masks: u32,
    mask_words: [u32; 11],
) -> Places {
    Places {
        edition,
        runtime,
        stage,
        resources,
        resource_count,
        resource_size,
        strings,
        string_bytes,
        indices,
        index_count,
        elements,
        element_count,
        element_size,
        masks,
        mask_words,
    }
}

/// Some bytes, no two alike in a row.
fn filler(n: usize) -> Vec<u8> {
    (0..n).map(|i| (0x41 + 7 * i) as u8).collect()
}

/// PSV0 data: a runtime record of `s` bytes with bytes 24 to 35 given, R, T, N and E records and numbers, of these sizes.
struct Shape {
    s: u32,
    guide: [u8; 12],
    resources: (u32, u32),
    strings: &'static [u8],
    indices: u32,
    element_size: u32,
    /// Their places, worked out by hand.
    places: Places,
    len: usize,
    plain: bool,
}

/// Editions 0 to 3, of the least sizes and of greater ones; each mask has words in one of them.
fn shapes() -> [Shape; 8] {
    let none = [0; 11];
    [
        Shape {
            s: 24,
            guide: [0; 12],
            resources: (0, 0),
            strings: b"",
            indices: 0,
            element_size: 0,
            places: places(0, 4, 0, [32, 0, 0], [0; 2], [0; 2], [0; 3], 0, none),
            len: 32,
            plain: true,
        },
        Shape {
            s: 32,
            guide: [0; 12],
            resources: (2, 20),
            strings: b"",
            indices: 0,
            element_size: 0,
            places: places(0, 4, 0, [44, 2, 20], [0; 2], [0; 2], [0; 3], 0, none),
            len: 84,
            plain: false,
        },
        // A vertex shader of edition 1.
        Shape {
            s: 36,
            guide: [1, 0, 9, 9, 1, 0, 0, 0, 0, 0, 0, 0],
            resources: (1, 16),
            strings: b"\0AB\0",
            indices: 2,
            element_size: 16,
            places: places(1, 4, 1, [48, 1, 16], [68, 4], [76, 2], [88, 1, 16], 104, none),
            len: 104,
            plain: true,
        },
        // A geometry shader of edition 1 with all four streams and without resources.
        Shape {
            s: 44,
            guide: [2, 1, 3, 1, 1, 1, 0, 2, 1, 9, 17, 25],
            resources: (0, 0),
            strings: b"\0AB\0CD\0\0",
            indices: 3,
            element_size: 20,
            places: places(1, 4, 2, [52, 0, 0], [56, 8], [68, 3], [84, 2, 20], 124, [1, 2, 3, 4, 0, 8, 16, 24, 32, 0, 0]),
            len: 484,
            plain: false,
        },
        // A domain shader of edition 2, with resources too short for a kind.
        Shape {
            s: 48,
            guide: [4, 0, 5, 0, 0, 0, 1, 3, 9, 0, 0, 0],
            resources: (1, 20),
            strings: b"A\0\0\0",
            indices: 0,
            element_size: 16,
            places: places(2, 4, 4, [60, 1, 20], [84, 4], [92, 0], [96, 1, 16], 112, [0, 0, 0, 0, 0, 24, 0, 0, 0, 0, 40]),
            len: 368,
            plain: false,
        },
        // A hull shader of edition 3, all records longer than they need be.
        Shape {
            s: 60,
            guide: [3, 1, 9, 0, 2, 0, 1, 3, 17, 0, 0, 0],
            resources: (2, 28),
            strings: b"ABC\0EFG\0\xc3\xa9z\0",
            indices: 4,
            element_size: 24,
            places: places(3, 4, 3, [72, 2, 28], [132, 12], [148, 4], [168, 3, 24], 240, [3, 0, 0, 0, 2, 36, 0, 0, 0, 24, 0]),
            len: 500,
            plain: false,
        },
        // A mesh shader of edition 3 in plain form.
        Shape {
            s: 52,
            guide: [13, 1, 17, 2, 1, 1, 1, 1, 1, 0, 0, 0],
            resources: (2, 24),
            strings: b"\0AB\0",
            indices: 3,
            element_size: 16,
            places: places(3, 4, 13, [64, 2, 24], [116, 4], [124, 3], [140, 3, 16], 188, [1, 0, 0, 0, 3, 4, 0, 0, 0, 0, 0]),
            len: 220,
            plain: true,
        },
        // A compute shader of edition 3 with empty lists.
        Shape {
            s: 52,
            guide: [5, 0, 0, 0, 0, 0, 0, 0, 0, 0, 0, 0],
            resources: (0, 0),
            strings: b"\0\0\0\0",
            indices: 0,
            element_size: 0,
            places: places(3, 4, 5, [60, 0, 0], [64, 4], [72, 0], [72, 0, 0], 72, none),
            len: 72,
            plain: true,
        },
    ]
}

impl Shape {
    fn data(&self) -> Vec<u8> {
        let mut data = filler(4 + self.s as usize);
        put4(&mut data, 0, self.s);
        if self.s >= 36 {
            data[28..40].copy_from_slice(&self.guide);
        }
        if self.s >= 52 {
            put4(&mut data, 52, self.strings.len() as u32 - 4);
        }
        let push = |data: &mut Vec<u8>, number: u32| data.extend_from_slice(&number.to_le_bytes());
        let (count, size) = self.resources;
        push(&mut data, count);
        if count > 0 {
            push(&mut data, size);
        }
        data.extend(filler((count * size) as usize));
        if self.s < 36 {
            return data;
        }
        push(&mut data, self.strings.len() as u32);
        data.extend_from_slice(self.strings);
        push(&mut data, self.indices);
        data.extend(filler(4 * self.indices as usize));
        let elements: u32 = self.guide[4..7].iter().map(|n| u32::from(*n)).sum();
        if elements > 0 {
            push(&mut data, self.element_size);
        }
        for i in 0..elements {
            // As many rows as the element's number, at the end of the table.
            let mut record = filler(self.element_size as usize);
            put4(&mut record, 0, i);
            put4(&mut record, 4, self.indices - i);
            record[8] = i as u8;
            data.extend(record);
        }
        data.extend(filler(self.places.mask_words.iter().map(|n| 4 * *n as usize).sum()));
        data
    }

    /// The places at an edition, counted from `at` bytes before the data.
    fn places_at(&self, edition: Edition, at: usize) -> Places {
        let (at, p) = (at as u32, self.places);
        if edition == 0 || p.edition == 0 {
            return Places {
                runtime: at + p.runtime,
                resources: at + p.resources,
                resource_count: p.resource_count,
                resource_size: p.resource_size,
                ..NO_PLACES
            };
        }
        Places {
            edition: p.edition.min(edition as u32),
            runtime: at + p.runtime,
            resources: at + p.resources,
            strings: at + p.strings,
            indices: at + p.indices,
            elements: at + p.elements,
            masks: at + p.masks,
            ..p
        }
    }
}

/// Names, sizes, data and gaps before the headers.
type Parts<'a> = &'a [(&'a [u8; 4], &'a [u8], usize)];

fn lay_out(parts: Parts<'_>, after: usize) -> Vec<u8> {
    let mut out = b"DXBC0123456789abcdef\x01\0\0\0????".to_vec();
    out.extend_from_slice(&(parts.len() as u32).to_le_bytes());
    out.resize(32 + 4 * parts.len(), 0);
    for (i, (name, data, gap)) in parts.iter().enumerate() {
        out.extend(filler(*gap));
        let offset = out.len() as u32;
        put4(&mut out, 32 + 4 * i, offset);
        out.extend_from_slice(*name);
        out.extend_from_slice(&(data.len() as u32).to_le_bytes());
        out.extend_from_slice(data);
    }
    out.extend(filler(after));
    let len = out.len() as u32;
    put4(&mut out, 24, len);
    out
}

/// A container with these data first, in the middle and last, and the byte where they start.
fn containers(data: &[u8]) -> [(Vec<u8>, usize, usize); 4] {
    [
        (lay_out(&[(b"PSV0", data, 0), (b"DXIL", b"code", 2)], 0), 48, 2),
        (lay_out(&[(b"PSV0", data, 3), (b"PRIV", b"one", 1), (b"DXIL", b"code", 0)], 5), 55, 3),
        (lay_out(&[(b"PRIV", b"one", 1), (b"DXIL", b"code", 2), (b"PSV0", data, 0), (b"PRIV", b"other", 6)], 9), 82, 4),
        (lay_out(&[(b"PRIV", b"one", 1), (b"DXIL", b"code", 2), (b"PRIV", b"other", 6), (b"PSV0", data, 3)], 0), 104, 4),
    ]
}

// ---- the rules

fn inside(bytes: &[u8], at: u64, n: u64) -> Result<&[u8], Refusal> {
    let end = u128::from(at) + u128::from(n);
    if end > bytes.len() as u128 {
        return refused(29);
    }
    Ok(&bytes[at as usize..end as usize])
}

fn runtime_bytes(b: &[u8], p: Places) -> Result<&[u8], Refusal> {
    inside(b, p.runtime.into(), [24, 36, 48, 52][p.edition.min(3) as usize])
}

fn ruled_runtime(b: &[u8], p: Places) -> Result<Runtime, Refusal> {
    let r = runtime_bytes(b, p)?;
    let one = |at: usize, has: bool| (p.edition >= 1 && has).then(|| u32::from(r[at]));
    let number = |at: usize, need: u32, has: bool| (p.edition >= need && has).then(|| get4(r, at));
    let threads = [5, 13, 14].contains(&p.stage);
    Ok(Runtime {
        minimum_wave_lanes: number(16, 0, true),
        maximum_wave_lanes: number(20, 0, true),
        stage: one(24, true),
        uses_view_id: one(25, true),
        max_vertex_count: (p.edition >= 1 && p.stage == 2).then(|| u32::from(r[26]) + 256 * u32::from(r[27])),
        patch_vectors: one(26, [3, 4, 13].contains(&p.stage)),
        mesh_topology: one(27, p.stage == 13),
        input_elements: one(28, true),
        output_elements: one(29, true),
        patch_elements: one(30, true),
        input_vectors: one(31, true),
        output_vectors: [one(32, true), one(33, true), one(34, true), one(35, true)],
        threads: [number(36, 2, threads), number(40, 2, threads), number(44, 2, threads)],
        entry_name_offset: number(48, 3, true),
    })
}

fn ruled_lengths(p: Places) -> Lengths {
    let later = |n: u32| (p.edition >= 1).then_some(n);
    Lengths {
        resources: Some(p.resource_count),
        strings: later(p.string_bytes),
        indices: later(p.index_count),
        elements: later(p.element_count),
    }
}

fn ruled_resource(b: &[u8], p: Places, i: usize) -> Result<Resource, Refusal> {
    if i as u64 >= p.resource_count.into() {
        return refused(26);
    }
    let late = p.edition >= 2 && p.resource_size >= 24;
    let r = inside(b, u64::from(p.resources) + i as u64 * u64::from(p.resource_size), if late { 24 } else { 16 })?;
    Ok(Resource {
        binding_type: Some(get4(r, 0)),
        space: Some(get4(r, 4)),
        lower_bound: Some(get4(r, 8)),
        upper_bound: Some(get4(r, 12)),
        kind: late.then(|| get4(r, 16)),
        flags: late.then(|| get4(r, 20)),
    })
}

fn element_bytes(b: &[u8], p: Places, i: usize) -> Result<&[u8], Refusal> {
    if p.edition == 0 || i as u64 >= p.element_count.into() {
        return refused(26);
    }
    inside(b, u64::from(p.elements) + i as u64 * u64::from(p.element_size), 16)
}

fn ruled_element(b: &[u8], p: Places, i: usize) -> Result<Element, Refusal> {
    let r = element_bytes(b, p, i)?;
    let byte = |at: usize| Some(u32::from(r[at]));
    Ok(Element {
        name_offset: Some(get4(r, 0)),
        index_reference: Some(get4(r, 4)),
        rows: byte(8),
        start_row: byte(9),
        columns: Some(u32::from(r[10] & 15)),
        start_column: Some(u32::from(r[10] >> 4 & 3)),
        allocated: Some(u32::from(r[10] >> 6 & 1)),
        semantic_kind: byte(11),
        component_type: byte(12),
        interpolation: byte(13),
        dynamic_mask: Some(u32::from(r[14] & 15)),
        stream: Some(u32::from(r[14] >> 4 & 3)),
        reserved: byte(15),
    })
}

fn ruled_string(b: &[u8], p: Places, o: u32) -> Result<Text<'_>, Refusal> {
    let table = inside(b, p.strings.into(), p.string_bytes.into())?;
    let bytes = table.get(o as usize..).and_then(|rest| Some(&rest[..rest.iter().position(|byte| *byte == 0)?]));
    match bytes.map(|bytes| (bytes, std::str::from_utf8(bytes))) {
        Some((bytes, Ok(text))) => Ok(Text { bytes, text, points: text.chars().count() }),
        _ => refused(29),
    }
}

fn ruled_array(b: &[u8], p: Places, i: usize) -> Result<&[u8], Refusal> {
    let r = element_bytes(b, p, i)?;
    let table = inside(b, p.indices.into(), u64::from(p.index_count) * 4)?;
    inside(table, u64::from(get4(r, 4)) * 4, u64::from(r[8]) * 4)
}

fn ruled_entry_name(b: &[u8], p: Places) -> Result<Text<'_>, Refusal> {
    if p.edition < 3 {
        return refused(26);
    }
    ruled_string(b, p, get4(runtime_bytes(b, p)?, 48))
}

fn words(p: Places, n: usize) -> u64 {
    p.mask_words[..n].iter().map(|n| u64::from(*n)).sum()
}

fn ruled_mask(b: &[u8], p: Places, m: usize) -> Result<&[u8], Refusal> {
    if p.edition == 0 || m > 10 {
        return refused(26);
    }
    inside(b, u64::from(p.masks) + 4 * words(p, m), 4 * u64::from(p.mask_words[m]))
}

fn ruled_section(b: &[u8], p: Places, section: u32) -> Result<&[u8], Refusal> {
    let times = |count: u32, size: u32| u64::from(count) * u64::from(size);
    match section {
        0 => runtime_bytes(b, p),
        1 => inside(b, p.resources.into(), times(p.resource_count, p.resource_size)),
        2..=5 if p.edition == 0 => Ok(&[]),
        2 => inside(b, p.strings.into(), p.string_bytes.into()),
        3 => inside(b, p.indices.into(), times(p.index_count, 4)),
        4 => inside(b, p.elements.into(), times(p.element_count, p.element_size)),
        5 => inside(b, p.masks.into(), 4 * words(p, 11)),
        _ => refused(26),
    }
}

fn ruled_sections(b: &[u8], p: Places) -> Result<Sections<'_>, Refusal> {
    let section = |number| ruled_section(b, p, number);
    Ok(Sections {
        runtime: section(0)?,
        resources: section(1)?,
        strings: section(2)?,
        indices: section(3)?,
        elements: section(4)?,
        masks: section(5)?,
    })
}

// ---- queries

const NUMBERS: [usize; 9] = [0, 1, 2, 3, 10, 11, u32::MAX as usize - 1, 1 << 32, usize::MAX];

fn field(value: Option<u32>) -> raw::Field {
    raw::Field { set: value.is_some().into(), value: value.unwrap_or(0) }
}

fn verdict<T>(answer: &Result<T, Refusal>) -> raw::Verdict {
    raw::Verdict { number: answer.as_ref().err().map_or(0, |refusal| refusal.number.into()), place: 0 }
}

/// A span as the rules have it; where it starts is left open where it is empty and accepted, but inside the bytes.
fn same_span(bytes: &[u8], got: raw::Span, expected: Result<&[u8], Refusal>, points: Option<usize>) {
    let shown = expected.unwrap_or(&[]);
    let start = if shown.is_empty() { got.start } else { shown.as_ptr() as usize - bytes.as_ptr() as usize };
    assert!(start <= bytes.len() && (expected.is_ok() || start == 0));
    let is_string = points.is_some().into();
    assert_eq!(got, raw::Span { verdict: verdict(&expected), start, len: shown.len(), is_string, points: points.unwrap_or(0) });
}

/// Every query by places gives what the rules give, through the safe calls and the plain ones, zeros beside a refusal too.
fn by_rules(b: &[u8], p: Places) {
    let placed = Placed::new(b, p);
    assert_eq!((placed.bytes(), placed.places()), (b, p));

    let runtime = ruled_runtime(b, p);
    assert_eq!(placed.runtime(), runtime);
    let of = |value: fn(&Runtime) -> Option<u32>| field(runtime.as_ref().ok().and_then(value));
    let info = raw::Info {
        verdict: verdict(&runtime),
        minimum_wave_lanes: of(|r| r.minimum_wave_lanes),
        maximum_wave_lanes: of(|r| r.maximum_wave_lanes),
        stage: of(|r| r.stage),
        uses_view_id: of(|r| r.uses_view_id),
        max_vertex_count: of(|r| r.max_vertex_count),
        patch_vectors: of(|r| r.patch_vectors),
        mesh_topology: of(|r| r.mesh_topology),
        input_elements: of(|r| r.input_elements),
        output_elements: of(|r| r.output_elements),
        patch_elements: of(|r| r.patch_elements),
        input_vectors: of(|r| r.input_vectors),
        output_vectors: [
            of(|r| r.output_vectors[0]),
            of(|r| r.output_vectors[1]),
            of(|r| r.output_vectors[2]),
            of(|r| r.output_vectors[3]),
        ],
        threads: [of(|r| r.threads[0]), of(|r| r.threads[1]), of(|r| r.threads[2])],
        entry_name_offset: of(|r| r.entry_name_offset),
    };
    assert_eq!(raw::places_runtime_info(b, p), info);

    let lengths = ruled_lengths(p);
    assert_eq!(placed.lengths(), lengths);
    let Lengths { resources, strings, indices, elements } = lengths;
    assert_eq!(
        raw::places_lengths(b, p),
        raw::Lengths {
            verdict: raw::Verdict { number: 0, place: 0 },
            resources: field(resources),
            strings: field(strings),
            indices: field(indices),
            elements: field(elements),
        }
    );

    for i in NUMBERS {
        let resource = ruled_resource(b, p, i);
        assert_eq!(placed.resource(i), resource);
        let of = |value: fn(&Resource) -> Option<u32>| field(resource.as_ref().ok().and_then(value));
        let record = raw::Resource {
            verdict: verdict(&resource),
            binding_type: of(|r| r.binding_type),
            space: of(|r| r.space),
            lower_bound: of(|r| r.lower_bound),
            upper_bound: of(|r| r.upper_bound),
            kind: of(|r| r.kind),
            flags: of(|r| r.flags),
        };
        assert_eq!(raw::places_resource(b, p, i), record);

        let element = ruled_element(b, p, i);
        assert_eq!(placed.element(i), element);
        let of = |value: fn(&Element) -> Option<u32>| field(element.as_ref().ok().and_then(value));
        let record = raw::Element {
            verdict: verdict(&element),
            name_offset: of(|r| r.name_offset),
            index_reference: of(|r| r.index_reference),
            rows: of(|r| r.rows),
            start_row: of(|r| r.start_row),
            columns: of(|r| r.columns),
            start_column: of(|r| r.start_column),
            allocated: of(|r| r.allocated),
            semantic_kind: of(|r| r.semantic_kind),
            component_type: of(|r| r.component_type),
            interpolation: of(|r| r.interpolation),
            dynamic_mask: of(|r| r.dynamic_mask),
            stream: of(|r| r.stream),
            reserved: of(|r| r.reserved),
        };
        assert_eq!(raw::places_element(b, p, i), record);

        let string = element_bytes(b, p, i).and_then(|r| ruled_string(b, p, get4(r, 0)));
        assert_eq!(placed.element_string(i), string);
        same_span(b, raw::places_view(b, p, 1, i), string.map(|text| text.bytes), string.ok().map(|text| text.points));
        assert_eq!(placed.element_array(i), ruled_array(b, p, i));
        same_span(b, raw::places_view(b, p, 2, i), ruled_array(b, p, i), None);
    }
    for m in (0..12).chain([usize::MAX]) {
        assert_eq!(placed.mask(m), ruled_mask(b, p, m));
        same_span(b, raw::places_view(b, p, 4, m), ruled_mask(b, p, m), None);
    }
    let union = runtime_bytes(b, p).map(|r| &r[..16]);
    assert_eq!(placed.stage_union(), union);
    same_span(b, raw::places_view(b, p, 0, 9), union, None);
    let name = ruled_entry_name(b, p);
    assert_eq!(placed.entry_name(), name);
    same_span(b, raw::places_view(b, p, 3, 9), name.map(|text| text.bytes), name.ok().map(|text| text.points));
    assert_eq!(placed.sections(), ruled_sections(b, p));
    for section in (0..7).chain([u32::MAX]) {
        same_span(b, raw::places_section(b, p, section), ruled_section(b, p, section), None);
    }
    for kind in [5, 6, u32::MAX] {
        same_span(b, raw::places_view(b, p, kind, 0), refused(26), None);
    }
}

/// Two spans of the same bytes, but for the start of an empty one.
fn same_stretch(a: raw::Span, b: raw::Span) {
    let start = if a.len == 0 { a.start } else { b.start };
    assert_eq!(a, raw::Span { start, ..b });
}

/// The opened bytes, the queries on the bytes alone and those by their places answer alike.
macro_rules! same_as_fresh {
    ($opened:expr, $bytes:expr, $edition:expr, $info:ident, $resource:ident, $element:ident, $lengths:ident, $view:ident, $section:ident) => {{
        let (opened, b, edition): (_, &[u8], Edition) = ($opened, $bytes, $edition);
        let p = opened.places();
        let placed = Placed::new(opened.bytes(), p);
        assert_eq!((opened.bytes(), opened.edition(), opened.edition_read()), (b, edition, p.edition as usize));
        assert_eq!(raw::places_runtime_info(b, p), raw::$info(b, edition));
        assert_eq!(raw::places_lengths(b, p), raw::$lengths(b, edition));
        assert_eq!(Ok(opened.runtime()), placed.runtime());
        assert_eq!(opened.lengths(), placed.lengths());
        assert_eq!(Ok(opened.stage_union()), placed.stage_union());
        assert_eq!(Ok(opened.sections()), placed.sections());
        assert_eq!(opened.entry_name(), placed.entry_name());
        for i in NUMBERS {
            assert_eq!(raw::places_resource(b, p, i), raw::$resource(b, edition, i));
            assert_eq!(raw::places_element(b, p, i), raw::$element(b, edition, i));
            assert_eq!(opened.resource(i), placed.resource(i));
            assert_eq!(opened.element(i), placed.element(i));
            assert_eq!(opened.element_string(i), placed.element_string(i));
            assert_eq!(opened.element_array(i), placed.element_array(i));
            assert_eq!(opened.mask(i), placed.mask(i));
            for kind in 0..6 {
                same_stretch(raw::places_view(b, p, kind, i), raw::$view(b, edition, kind, i));
            }
        }
        for section in 0..7 {
            same_stretch(raw::places_section(b, p, section), raw::$section(b, edition, section));
        }
    }};
}

fn container_is_fresh(container: Container<'_>, bytes: &[u8], edition: Edition) {
    same_as_fresh!(container, bytes, edition, runtime_info, resource, element, lengths, view, section);
}

fn psv0_is_fresh(psv0: Psv0<'_>, bytes: &[u8], edition: Edition) {
    same_as_fresh!(psv0, bytes, edition, psv0_runtime_info, psv0_resource, psv0_element, psv0_lengths, psv0_view, psv0_section);
}

fn opened(number: usize, place: usize, parts: usize, file_edition: u32, places: Places) -> raw::Opened {
    raw::Opened { verdict: raw::Verdict { number, place }, parts: parts as u32, file_edition, edition_read: places.edition, places }
}

#[test]
fn openings_hand_back_the_places() {
    for shape in shapes() {
        let mut data = shape.data();
        assert_eq!(data.len(), shape.len);
        for edition in 0..=3 {
            for (bytes, at, parts) in containers(&data) {
                let expected = shape.places_at(edition, at);
                assert_eq!(raw::open_places(&bytes, edition), opened(0, 0, parts, shape.places.edition, expected));
                let container = Container::open(&bytes, edition).unwrap();
                assert_eq!(container.places(), expected);
                assert_eq!((container.part_count(), container.file_edition()), (parts, shape.places.edition as usize));
                assert_eq!(container.edition_read(), edition.min(shape.places.edition as usize));
                container_is_fresh(container, &bytes, edition);
                by_rules(&bytes, expected);

                // Beside a refusal there are zeros.
                let cut = &bytes[..bytes.len() - 1];
                assert_eq!(raw::open_places(cut, edition), opened(5, 0, 0, 0, NO_PLACES));
                assert_eq!(raw::open_places(&bytes, 4), opened(25, 0, 0, 0, NO_PLACES));
            }
            let expected = shape.places_at(edition, 0);
            assert_eq!(raw::psv0_open_places(&data, edition), opened(0, 0, 0, shape.places.edition, expected));
            let psv0 = Psv0::open(&data, edition).unwrap();
            assert_eq!((psv0.places(), psv0.file_edition()), (expected, shape.places.edition as usize));
            psv0_is_fresh(psv0, &data, edition);
            by_rules(&data, expected);
            assert_eq!(raw::psv0_open_places(&data[..3], edition), opened(12, 0, 0, 0, NO_PLACES));
            assert_eq!(raw::psv0_open_places(&data, 5), opened(25, 0, 0, 0, NO_PLACES));
        }
        // Bytes after the last section don't count.
        data.extend_from_slice(b"...");
        assert_eq!(Psv0::open(&data, 3).unwrap().places(), shape.places);
    }
    // A refusal with a place: the name of element 1 of the hull shader.
    let mut data = shapes()[5].data();
    put4(&mut data, 192, 12);
    assert_eq!(raw::psv0_open_places(&data, 3), opened(22, 1, 0, 0, NO_PLACES));
    assert_eq!(raw::open_places(&containers(&data)[2].0, 1), opened(22, 1, 0, 0, NO_PLACES));
}

#[test]
fn any_bytes_get_an_answer() {
    for shape in shapes() {
        let data = shape.data();
        // Cut at every byte; 26 and lengths need none of them.
        for n in 0..=data.len() {
            by_rules(&data[..n], shape.places);
        }
        // Each byte another.
        for at in 0..data.len() {
            let mut other = data.clone();
            other[at] ^= 0xff;
            by_rules(&other, shape.places);
        }
    }
    // What each query needs of the hull shader, in plain numbers.
    let (data, p) = (shapes()[5].data(), shapes()[5].places);
    let ends = |end: usize, query: fn(Placed<'_>) -> Option<Refusal>| {
        assert_eq!(query(Placed::new(&data[..end], p)), None);
        assert_eq!(query(Placed::new(&data[..end - 1], p)), Some(Refusal { number: 29, place: 0 }));
    };
    ends(56, |placed| placed.runtime().err());
    ends(56, |placed| placed.stage_union().err());
    ends(124, |placed| placed.resource(1).err());
    ends(232, |placed| placed.element(2).err());
    ends(208, |placed| placed.element_string(1).err());
    ends(208, |placed| placed.element_array(1).err());
    ends(144, |placed| placed.entry_name().err());
    ends(252, |placed| placed.mask(0).err());
    ends(404, |placed| placed.mask(5).err());
    ends(500, |placed| placed.mask(9).err());
    ends(500, |placed| placed.sections().err());
    assert_eq!(Placed::new(&[], p).resource(2), refused(26));
    assert_eq!(Placed::new(&[], p).mask(11), refused(26));
    assert_eq!(Placed::new(&[], p).lengths().elements, Some(3));
}

#[test]
fn made_up_places_get_an_answer() {
    // Numbers that wrapped if they were summed in 32 bits.
    let great = [0, 1, 23, 24, 0x1_0000, 0x4000_0000, 0x8000_0000, 0xffff_fff0, u32::MAX];
    for shape in shapes() {
        let data = shape.data();
        let p = shape.places;
        for number in great.into_iter().chain([shape.len as u32 - 52, shape.len as u32 - 16, shape.len as u32]) {
            let mut list = vec![
                Places { edition: number, ..p },
                Places { runtime: number, ..p },
                Places { stage: number, ..p },
                Places { resources: number, ..p },
                Places { resource_count: number, ..p },
                Places { resource_size: number, ..p },
                Places { resource_count: u32::MAX, resource_size: number, ..p },
                Places { strings: number, ..p },
                Places { string_bytes: number, ..p },
                Places { indices: number, ..p },
                Places { index_count: number, ..p },
                Places { index_count: 0x4000_0000 + p.index_count, ..p },
                Places { elements: number, ..p },
                Places { element_count: number, ..p },
                Places { element_size: number, ..p },
                Places { element_count: u32::MAX, element_size: number, ..p },
                Places { masks: number, ..p },
                Places { mask_words: [number; 11], ..p },
                places(number, number, number, [number; 3], [number; 2], [number; 2], [number; 3], number, [number; 11]),
            ];
            for m in 0..11 {
                let mut mask_words = p.mask_words;
                mask_words[m] = number;
                list.push(Places { mask_words, ..p });
            }
            for p in list {
                by_rules(&data, p);
                by_rules(&[], p);
            }
        }
        // Every recorded edition and stage; none counts by its low bits.
        for edition in 0..=5 {
            for stage in (0..=17).chain([256 + 2, 256 + 3, 256 + 5, 0x1_000d]) {
                by_rules(&data, Places { edition, stage, ..p });
            }
        }
    }
    // The recorded stage decides; the stage that is shown is that of the byte.
    let runtime = Placed::new(&shapes()[7].data(), Places { stage: 13, ..shapes()[7].places }).runtime().unwrap();
    assert_eq!((runtime.stage, runtime.patch_vectors, runtime.max_vertex_count), (Some(5), Some(0), None));
    // Masks of 2^32 bytes, and records at 2^32 bytes past their first.
    let p = Places { mask_words: [0x4000_0000, 1, 0, 0, 0, 0, 0, 0, 0, 0, 0], ..shapes()[6].places };
    let p = Places { resource_count: u32::MAX, resource_size: 0x1_0000, element_count: u32::MAX, element_size: 0x1_0000, ..p };
    let data = shapes()[6].data();
    let placed = Placed::new(&data, p);
    assert_eq!((placed.mask(0), placed.mask(1)), (refused(29), refused(29)));
    assert_eq!((placed.resource(0x1_0000), placed.element(0x1_0000)), (refused(29), refused(29)));
    assert_eq!((placed.resource(u32::MAX as usize), placed.element(1 << 32)), (refused(26), refused(26)));
    assert!(placed.resource(0).is_ok() && placed.element(0).is_ok());
}

#[test]
fn references_are_judged() {
    let shape = &shapes()[5];
    let mut data = shape.data();
    // The table is ABC, EFG and U+E9 with a z, each with a zero.
    for (o, says) in
        [(0, Some("ABC")), (6, Some("G")), (7, Some("")), (8, Some("\u{e9}z")), (9, None), (11, Some("")), (12, None), (u32::MAX, None)]
    {
        put4(&mut data, 168, o);
        put4(&mut data, 52, o);
        let placed = Placed::new(&data, shape.places);
        for name in [placed.element_string(0), placed.entry_name()] {
            assert_eq!(name.ok().map(|text| (text.text, text.points)), says.map(|text| (text, text.chars().count())));
            assert_eq!(name.err(), says.map_or(Some(Refusal { number: 29, place: 0 }), |_| None));
        }
        by_rules(&data, shape.places);
    }
    for (i, rows, good) in
        [(0, 4, true), (0, 5, false), (4, 0, true), (4, 1, false), (5, 0, false), (u32::MAX, 1, false), (0x4000_0000, 0, false)]
    {
        put4(&mut data, 172, i);
        data[176] = rows;
        let array = Placed::new(&data, shape.places).element_array(0);
        assert_eq!(array, if good { Ok(&data[148 + 4 * i as usize..][..4 * rows as usize]) } else { refused(29) });
        by_rules(&data, shape.places);
    }
    // No zero up to the table's end, though one stands after it.
    put4(&mut data, 168, 8);
    data[143] = b'!';
    data[144] = 0;
    assert_eq!(Placed::new(&data, shape.places).element_string(0), refused(29));
}

// ---- replacing

fn replaced(number: usize, place: usize) -> raw::Replaced {
    raw::Replaced { verdict: raw::Verdict { number, place }, len: 0, places: NO_PLACES }
}

#[test]
fn psv0_data_are_replaced() {
    for old in shapes() {
        for new in shapes() {
            let part = new.data();
            for ((bytes, at, _), (expected, _, _)) in containers(&old.data()).into_iter().zip(containers(&part)) {
                for edition in 0..=3 {
                    let container = Container::open(&bytes, edition).unwrap();
                    let mut out = vec![0xee; expected.len() + 3];
                    if !new.plain {
                        assert_eq!(container.replace_psv0(&part, &mut out), refused(27));
                        assert_eq!(raw::replace_psv0(&bytes, edition, &part, &mut []), replaced(27, 0));
                        assert!(out.iter().all(|byte| *byte == 0xee));
                        continue;
                    }
                    let room = expected.len() - 1;
                    assert_eq!(container.replace_psv0(&part, &mut out[..room]), refused(28));
                    assert_eq!(raw::replace_psv0(&bytes, edition, &part, &mut out[..room]), replaced(28, 0));
                    assert_eq!(replace_psv0(&bytes, edition, &part, &mut []), refused(28));
                    assert!(out.iter().all(|byte| *byte == 0xee));

                    let places = new.places_at(edition, at);
                    let answer = Replaced { len: expected.len(), places };
                    assert_eq!(replace_psv0(&bytes, edition, &part, &mut out[..expected.len()]), Ok(answer));
                    assert_eq!(out[..expected.len()], expected);
                    out.fill(0xee);
                    assert_eq!(container.replace_psv0(&part, &mut out), Ok(answer));
                    let (result, rest) = out.split_at(answer.len);
                    assert_eq!((result, rest), (&expected[..], &[0xee; 3][..]));
                    let raw = raw::Replaced { len: answer.len as u32, places, ..replaced(0, 0) };
                    assert_eq!(raw::replace_psv0(&bytes, edition, &part, &mut vec![0; answer.len]), raw);

                    let again = Container::open(result, edition).unwrap();
                    assert_eq!(again.places(), answer.places);
                    container_is_fresh(again, result, edition);
                    assert_eq!(Placed::new(result, answer.places).sections(), Ok(again.sections()));
                }
            }
        }
    }
}

/// As many parts as there may be: every offset after the PSV0 data moves, and none before.
#[test]
fn psv0_data_are_replaced_among_96_parts() {
    let (old, new) = (&shapes()[5], &shapes()[6]);
    let (data, part) = (old.data(), new.data());
    for number in [0, 1, 47, 94, 95] {
        let laid = |psv0: &[u8]| {
            let mut parts: Vec<(&[u8; 4], &[u8], usize)> = (0..96).map(|i| (b"PRIV", &b"abc"[..i % 4], i % 3)).collect();
            parts[usize::from(number == 0)] = (b"DXIL", b"code", 0);
            parts[number] = (b"PSV0", psv0, 1);
            lay_out(&parts, 2)
        };
        let (bytes, expected) = (laid(&data), laid(&part));
        let mut out = vec![0xee; expected.len() + 1];
        let answer = Container::open(&bytes, 3).unwrap().replace_psv0(&part, &mut out).unwrap();
        let at = get4(&bytes, 32 + 4 * number) as usize + 8;
        assert_eq!(answer, Replaced { len: expected.len(), places: new.places_at(3, at) });
        assert_eq!((&out[..answer.len], out[answer.len]), (&expected[..], 0xee));
        container_is_fresh(Container::open(&out[..answer.len], 3).unwrap(), &expected, 3);
    }
}

#[test]
fn replacing_is_refused_in_order() {
    let shape = &shapes()[7];
    let m = shapes()[0].data();
    let numbers = [25, 3, 12, 27, 2, 28];
    let mut out = vec![0xee; 16_777_216];
    for after in [16_777_216 - 40 - 92, 16_777_216 - 39 - 92] {
        let mut bytes = lay_out(&[(b"DXIL", b"code", 0), (b"PSV0", &m, 0)], after);
        let long = bytes.len() + 40 > 16_777_216;
        for set in (0..32).map(|set: usize| (set & 15) | usize::from(long) << 4 | (set & 16) << 1) {
            let mut part = shape.data();
            bytes[0] = if set & 2 == 0 { b'D' } else { b'X' };
            put4(&mut part, 0, if set & 4 == 0 { 52 } else { 26 });
            part.resize(shape.len + (set >> 3 & 1), 0);
            let room = bytes.len() + 40 - (set >> 5 & 1);
            let room = room.min(out.len());
            let edition = if set & 1 == 0 { 3 } else { 4 };
            let answer = replace_psv0(&bytes, edition, &part, &mut out[..room]);
            let Some(first) = (0..6).find(|fault| set >> fault & 1 == 1) else {
                assert_eq!(answer, Ok(Replaced { len: 16_777_216, places: shape.places_at(3, 60) }));
                assert!(out[60..132] == shape.data()[..] && out[132..] == bytes[92..]);
                out.fill(0xee);
                continue;
            };
            assert_eq!(answer, refused(numbers[first]));
            assert!(out[..256].iter().chain(&out[16_777_000..]).all(|byte| *byte == 0xee));
        }
    }
    assert!(out.iter().all(|byte| *byte == 0xee));

    // The edition comes before everything else.
    assert_eq!(replace_psv0(&[], 4, &[], &mut []), refused(25));
    assert_eq!(replace_psv0(&[], 3, &[], &mut []), refused(1));
    // Reader 3 judges the part whatever the edition: an element's name, with its place, and the entry name.
    let plain = &shapes()[6];
    let bytes = lay_out(&[(b"DXIL", b"code", 0), (b"PSV0", &plain.data(), 0)], 0);
    for (at, number, place) in [(140 + 16, 22, 1), (140 + 32 + 4, 23, 2), (52, 24, 0)] {
        let mut part = plain.data();
        put4(&mut part, at, 4);
        for edition in 0..=3 {
            let container = Container::open(&bytes, edition).unwrap();
            assert_eq!(container.replace_psv0(&part, &mut out), Err(Refusal { number, place }));
            assert_eq!(raw::replace_psv0(&bytes, edition, &part, &mut out), replaced(number.into(), place));
        }
    }
    assert!(out[..1000].iter().all(|byte| *byte == 0xee));
}
