//! Opening a container and its PSV0 data, and the queries on an opening.

use crate::utf8::{bytes_at, Reference, References};
use crate::{
    find, find_occurrence, number2, number4, refusal, refusal_at, table_with_pairs, Part, Places,
    Refusal, Text, DEFAULT_EDITION, EDITION_SIZES, LEAST_RECORD, LONGEST, LONG_RESOURCE, MASKS,
    NEWEST,
};

const GEOMETRY: u32 = 2;
const HULL: u32 = 3;
const DOMAIN: u32 = 4;
const COMPUTE: u32 = 5;
const MESH: u32 = 13;
const AMPLIFICATION: u32 = 14;
const LAST_STAGE: u32 = 15;

/// What is still ahead in the PSV0 data. It only ever gets shorter.
struct Cursor<'a> {
    ahead: &'a [u8],
    /// Where that begins in the bytes that were opened.
    at: usize,
}

impl<'a> Cursor<'a> {
    /// The next `count` bytes, if there are so many.
    fn take(&mut self, count: u64) -> Option<&'a [u8]> {
        if count > self.ahead.len() as u64 {
            return None;
        }
        let (taken, ahead) = self.ahead.split_at(count as usize);
        self.ahead = ahead;
        self.at += taken.len();
        Some(taken)
    }

    /// Where it stands, as a record of places has it: no bytes that are read are longer
    /// than 2^24.
    fn place(&self) -> u32 {
        self.at as u32
    }

    /// The next four bytes as a number.
    fn number(&mut self) -> Option<u32> {
        self.take(4).map(|bytes| number4(bytes, 0))
    }

    /// A record table of `count` records: nothing at all when there are none,
    /// otherwise a stated record size and then the records.
    fn records(&mut self, count: u32) -> Option<Records<'a>> {
        if count == 0 {
            return Some(Records { bytes: self.take(0)?, count: 0, size: None });
        }
        let size = self.number()?;
        if size % 4 != 0 || (size as usize) < LEAST_RECORD {
            return None;
        }
        // Both factors are below 2^32, so the product is exact.
        let bytes = self.take(u64::from(count) * u64::from(size))?;
        Some(Records { bytes, count: count as usize, size: Some(size as usize) })
    }
}

/// The records of a section, stepped by their stated size.
#[derive(Clone, Copy, Debug)]
struct Records<'a> {
    bytes: &'a [u8],
    count: usize,
    size: Option<usize>,
}

impl<'a> Records<'a> {
    fn get(&self, i: usize) -> Option<&'a [u8]> {
        let size = self.size?;
        if i >= self.count {
            return None;
        }
        Some(&self.bytes[i * size..(i + 1) * size])
    }

    /// Where the records begin, when the cursor stands at their end, and their size.
    /// Where there are none, that is where the record size would have stood, and 0.
    fn place_and_size(&self, end: &Cursor) -> (u32, u32) {
        (end.place() - self.bytes.len() as u32, self.size.unwrap_or(0) as u32)
    }

    fn each(&self) -> impl Iterator<Item = &'a [u8]> {
        // Without a size there are no bytes to step over.
        self.bytes.chunks_exact(self.size.unwrap_or(LEAST_RECORD))
    }
}

/// The fields of the runtime record; a field outside its stage or edition is
/// `None`.
#[derive(Clone, Copy, Debug, Default, PartialEq, Eq)]
pub struct Runtime {
    /// The stage union, bytes 0 to 15 as they stand.
    pub stage_info: [u8; 16],
    pub minimum_wave_lanes: Option<u32>,
    pub maximum_wave_lanes: Option<u32>,
    pub stage: Option<u32>,
    pub uses_view_id: Option<u32>,
    pub max_vertex_count: Option<u32>,
    /// Patch constant or primitive vectors.
    pub patch_vectors: Option<u32>,
    pub mesh_topology: Option<u32>,
    pub input_elements: Option<u32>,
    pub output_elements: Option<u32>,
    /// Patch constant or primitive elements.
    pub patch_elements: Option<u32>,
    pub input_vectors: Option<u32>,
    /// Of streams 0 to 3.
    pub output_vectors: [Option<u32>; 4],
    /// X, Y, Z.
    pub threads: [Option<u32>; 3],
    pub entry_name_offset: Option<u32>,
}

impl Runtime {
    /// The fields of a record that is at least as long as the edition's size.
    pub(crate) fn read(record: &[u8], edition: usize) -> Runtime {
        // Edition 0 has no stage, and no field of it depends on one.
        let stage = if edition == 0 { 0 } else { u32::from(record[24]) };
        Runtime::read_as(record, edition, stage)
    }

    /// The same where the stage that decides which fields are set is told. The one that
    /// is shown is the record's all the same.
    pub(crate) fn read_as(record: &[u8], edition: usize, stage: u32) -> Runtime {
        let mut runtime = Runtime::default();
        runtime.stage_info.copy_from_slice(&record[0..16]);
        runtime.minimum_wave_lanes = Some(number4(record, 16));
        runtime.maximum_wave_lanes = Some(number4(record, 20));
        if edition == 0 {
            return runtime;
        }

        let byte = |at: usize| Some(u32::from(record[at]));
        runtime.stage = byte(24);
        runtime.uses_view_id = byte(25);
        if stage == GEOMETRY {
            runtime.max_vertex_count = Some(number2(record, 26));
        }
        if stage == HULL || stage == DOMAIN || stage == MESH {
            runtime.patch_vectors = byte(26);
        }
        if stage == MESH {
            runtime.mesh_topology = byte(27);
        }
        runtime.input_elements = byte(28);
        runtime.output_elements = byte(29);
        runtime.patch_elements = byte(30);
        runtime.input_vectors = byte(31);
        runtime.output_vectors = [byte(32), byte(33), byte(34), byte(35)];

        if edition >= 2 && (stage == COMPUTE || stage == MESH || stage == AMPLIFICATION) {
            runtime.threads = [36, 40, 44].map(|at| Some(number4(record, at)));
        }
        if edition >= 3 {
            runtime.entry_name_offset = Some(number4(record, 48));
        }
        runtime
    }

    /// E, the number of elements in all (0 where the counts are unset).
    pub(crate) fn element_count(&self) -> u32 {
        self.input_elements.unwrap_or(0)
            + self.output_elements.unwrap_or(0)
            + self.patch_elements.unwrap_or(0)
    }

    /// The length in words of masks 0 to 10 (all 0 for edition 0).
    ///
    /// Each length is at most 32 * 255 * 4.
    pub(crate) fn mask_words(&self) -> [u32; MASKS] {
        let mut words = [0; MASKS];
        let w = |vectors: u32| (vectors + 7) / 8;
        let v = self.output_vectors.map(|vectors| vectors.unwrap_or(0));
        let u = self.input_vectors.unwrap_or(0);
        let p = self.patch_vectors.unwrap_or(0);
        if self.uses_view_id == Some(1) {
            for stream in 0..4 {
                words[stream] = w(v[stream]);
            }
            if self.stage == Some(HULL) || self.stage == Some(MESH) {
                words[4] = w(p);
            }
        }
        for stream in 0..4 {
            words[5 + stream] = w(v[stream]) * u * 4;
        }
        if self.stage == Some(HULL) {
            words[9] = w(p) * u * 4;
        }
        if self.stage == Some(DOMAIN) {
            words[10] = w(v[0]) * p * 4;
        }
        words
    }
}

/// A resource record.
#[derive(Clone, Copy, Debug, PartialEq, Eq)]
pub struct Resource {
    pub resource_type: u32,
    pub space: u32,
    pub lower: u32,
    pub upper: u32,
    /// Set when the record is long enough and the edition read at least 2.
    pub kind: Option<u32>,
    /// As `kind`.
    pub flags: Option<u32>,
}

impl Resource {
    /// The fields of a record; one that is `long` has a kind and flags.
    pub(crate) fn read(record: &[u8], long: bool) -> Resource {
        Resource {
            resource_type: number4(record, 0),
            space: number4(record, 4),
            lower: number4(record, 8),
            upper: number4(record, 12),
            kind: long.then(|| number4(record, 16)),
            flags: long.then(|| number4(record, 20)),
        }
    }
}

/// An element record, spare bits apart.
#[derive(Clone, Copy, Debug, PartialEq, Eq)]
pub struct Element {
    pub name_offset: u32,
    /// Where the index array starts in the index table.
    pub index_reference: u32,
    /// The number of rows, and of the numbers in the index array.
    pub rows: u32,
    pub start_row: u32,
    pub columns: u32,
    pub start_column: u32,
    pub allocated: u32,
    pub semantic: u32,
    pub component: u32,
    pub interpolation: u32,
    pub dynamic_mask: u32,
    pub stream: u32,
    pub reserved: u32,
}

impl Element {
    pub(crate) fn read(record: &[u8]) -> Element {
        let byte = |at: usize| u32::from(record[at]);
        Element {
            name_offset: number4(record, 0),
            index_reference: number4(record, 4),
            rows: byte(8),
            start_row: byte(9),
            columns: byte(10) & 15,
            start_column: byte(10) >> 4 & 3,
            allocated: byte(10) >> 6 & 1,
            semantic: byte(11),
            component: byte(12),
            interpolation: byte(13),
            dynamic_mask: byte(14) & 15,
            stream: byte(14) >> 4 & 3,
            reserved: byte(15),
        }
    }
}

/// The bytes handed out for writing again: the runtime record up to the
/// edition read, and each section without its counts and sizes. A section that
/// is unset hands out none.
#[derive(Clone, Copy, Debug, PartialEq, Eq)]
pub struct Handed<'a> {
    pub runtime: &'a [u8],
    pub resources: &'a [u8],
    pub strings: &'a [u8],
    pub indices: &'a [u8],
    pub elements: &'a [u8],
    pub masks: &'a [u8],
}

/// Sizes the file states, and where the last section that was read ends.
#[derive(Clone, Copy, Debug, PartialEq, Eq)]
pub struct Layout {
    /// S.
    pub runtime_size: usize,
    /// The size of a resource record, if there is one.
    pub resource_size: Option<usize>,
    /// The size of an element record, if there is one and it was read.
    pub element_size: Option<usize>,
    /// The length of the PSV0 data up to the end of the last section read.
    pub end: usize,
}

/// Sections 3 to 6.
#[derive(Clone, Copy, Debug)]
struct Later<'a> {
    strings: &'a [u8],
    indices: &'a [u8],
    elements: Records<'a>,
    all_masks: &'a [u8],
    masks: [&'a [u8]; MASKS],
}

/// An accepted container, or accepted PSV0 data, read by one edition.
#[derive(Clone, Debug)]
pub struct Opening<'a> {
    container: &'a [u8],
    /// The container's parts; none when PSV0 data was opened alone.
    pub parts: Vec<Part>,
    /// How many pairs of names the table reader compared (request 12); 0 when PSV0 data
    /// was opened alone.
    pub pairs: u64,
    /// The greatest edition whose size is at most S.
    pub file_edition: usize,
    /// The lesser of that and the edition asked for.
    pub edition_read: usize,
    pub runtime: Runtime,
    pub handed: Handed<'a>,
    pub layout: Layout,
    /// Where the sections stand in the bytes that were opened (request 11).
    pub places: Places,
    resources: Records<'a>,
    later: Option<Later<'a>>,
}

/// Opens a whole container: 25, 1 to 9, 10, 11, 12 to 24.
pub fn open(bytes: &[u8], edition: usize) -> Result<Opening<'_>, Refusal> {
    if edition > NEWEST {
        return Err(refusal(25));
    }
    let (parts, pairs) = table_with_pairs(bytes);
    let parts = parts?;
    match find(&parts, *b"DXIL") {
        Some(i) if parts[i].size > 0 => (),
        _ => return Err(refusal(10)),
    }
    let i = find(&parts, *b"PSV0").ok_or(refusal(11))?;
    let mut opening = read(parts[i].data(bytes), parts[i].data_at(), edition)?;
    opening.container = bytes;
    opening.parts = parts;
    opening.pairs = pairs;
    Ok(opening)
}

/// Opens a container where no edition is named, as edition 3 (request 5).
pub fn open_default(bytes: &[u8]) -> Result<Opening<'_>, Refusal> {
    open(bytes, DEFAULT_EDITION)
}

/// Opens PSV0 data alone: 25, 2, 12 to 24.
pub fn open_psv0(data: &[u8], edition: usize) -> Result<Opening<'_>, Refusal> {
    if edition > NEWEST {
        return Err(refusal(25));
    }
    if data.len() > LONGEST {
        return Err(refusal(2));
    }
    read(data, 0, edition)
}

/// Opens PSV0 data alone where no edition is named, as edition 3 (request 5).
pub fn open_psv0_default(data: &[u8]) -> Result<Opening<'_>, Refusal> {
    open_psv0(data, DEFAULT_EDITION)
}

/// The sections of PSV0 data in turn: 12 to 24. The data begin at `start` of the bytes
/// that were opened.
fn read(data: &[u8], start: usize, edition: usize) -> Result<Opening<'_>, Refusal> {
    let mut cursor = Cursor { ahead: data, at: start };
    // What isn't read stays 0.
    let mut places = Places::default();

    // Section 1.
    let size = cursor.number().ok_or(refusal(12))? as usize;
    if size % 4 != 0 || size < EDITION_SIZES[0] {
        return Err(refusal(12));
    }
    places.runtime = cursor.place();
    let record = cursor.take(size as u64).ok_or(refusal(13))?;
    let mut file_edition = 0;
    while file_edition < NEWEST && EDITION_SIZES[file_edition + 1] <= size {
        file_edition += 1;
    }
    let edition_read = edition.min(file_edition);
    let record = &record[..EDITION_SIZES[edition_read]];
    let runtime = Runtime::read(record, edition_read);
    places.edition = edition_read as u32;
    places.stage = runtime.stage.unwrap_or(0);

    // Section 2.
    let count = cursor.number().ok_or(refusal(14))?;
    let resources = cursor.records(count).ok_or(refusal(14))?;
    (places.resources, places.resource_size) = resources.place_and_size(&cursor);
    places.resource_count = count;

    // Sections 3 to 6.
    let later = match edition_read {
        0 => None,
        _ => Some(read_later(&mut cursor, &runtime, &mut places)?),
    };

    Ok(Opening {
        container: &[],
        parts: Vec::new(),
        pairs: 0,
        file_edition,
        edition_read,
        runtime,
        handed: Handed {
            runtime: record,
            resources: resources.bytes,
            strings: later.map_or(&[], |later| later.strings),
            indices: later.map_or(&[], |later| later.indices),
            elements: later.map_or(&[], |later| later.elements.bytes),
            masks: later.map_or(&[], |later| later.all_masks),
        },
        layout: Layout {
            runtime_size: size,
            resource_size: resources.size,
            element_size: later.and_then(|later| later.elements.size),
            end: data.len() - cursor.ahead.len(),
        },
        places,
        resources,
        later,
    })
}

/// What follows the resources in edition 1 and later: 15 to 24.
fn read_later<'a>(
    cursor: &mut Cursor<'a>,
    runtime: &Runtime,
    places: &mut Places,
) -> Result<Later<'a>, Refusal> {
    let stage = runtime.stage.unwrap_or(0);
    if stage > LAST_STAGE {
        return Err(refusal(15));
    }
    if runtime.uses_view_id.unwrap_or(0) > 1 {
        return Err(refusal(16));
    }
    let more_streams = runtime.output_vectors[1..].iter().any(|v| v.unwrap_or(0) > 0);
    if stage != GEOMETRY && more_streams {
        return Err(refusal(17));
    }

    // Section 3.
    let length = cursor.number().ok_or(refusal(18))?;
    if length % 4 != 0 {
        return Err(refusal(18));
    }
    places.strings = cursor.place();
    places.string_bytes = length;
    let strings = cursor.take(u64::from(length)).ok_or(refusal(18))?;

    // Section 4.
    let count = cursor.number().ok_or(refusal(19))?;
    places.indices = cursor.place();
    places.index_count = count;
    let indices = cursor.take(4 * u64::from(count)).ok_or(refusal(19))?;

    // Section 5.
    let elements = cursor.records(runtime.element_count()).ok_or(refusal(20))?;
    (places.elements, places.element_size) = elements.place_and_size(cursor);
    places.element_count = runtime.element_count();

    // Section 6.
    let before = cursor.ahead;
    places.masks = cursor.place();
    places.mask_words = runtime.mask_words();
    let mut masks: [&[u8]; MASKS] = [&[]; MASKS];
    for (mask, words) in masks.iter_mut().zip(places.mask_words) {
        *mask = cursor.take(4 * u64::from(words)).ok_or(refusal(21))?;
    }
    let all_masks = &before[..before.len() - cursor.ahead.len()];

    // The references. Request 7: "A string reference is now good only when the
    // bytes before its zero are well formed [...] 22 and 24 widen accordingly in
    // reader and writer; the order of checks stays."
    let references = References::of(strings);
    let good_string = |o: u32| references.to(o) == Reference::Good;
    for (i, record) in elements.each().enumerate() {
        let element = Element::read(record);
        if !good_string(element.name_offset) {
            return Err(refusal_at(22, i));
        }
        if array_of(indices, &element).is_none() {
            return Err(refusal_at(23, i));
        }
    }
    if let Some(o) = runtime.entry_name_offset {
        if !good_string(o) {
            return Err(refusal(24));
        }
    }

    Ok(Later { strings, indices, elements, all_masks, masks })
}

/// The bytes of an element's index array, or None when its reference i isn't
/// good. Request 2: "the element's rows field is the count and the reference
/// points at the first index. So: good when i plus rows is at most N; rows 0
/// gives an empty array and i may equal N." The judging and the queries both
/// come here, and the writer through the judging.
pub(crate) fn array_of<'a>(indices: &'a [u8], element: &Element) -> Option<&'a [u8]> {
    let n = (indices.len() / 4) as u64;
    // 32-bit numbers held in 64 bits, so the sum is exact.
    let i = u64::from(element.index_reference);
    let end = i + u64::from(element.rows);
    if end > n {
        return None;
    }
    Some(&indices[4 * i as usize..4 * end as usize])
}

/// The queries. Those that can miss answer 26.
impl<'a> Opening<'a> {
    /// The first part of that name in the container: its number and data.
    pub fn part(&self, name: [u8; 4]) -> Result<(usize, &'a [u8]), Refusal> {
        self.part_occurrence(name, 0)
    }

    /// The same of the part of that name and occurrence (request 8).
    pub fn part_occurrence(
        &self,
        name: [u8; 4],
        occurrence: u64,
    ) -> Result<(usize, &'a [u8]), Refusal> {
        let i = find_occurrence(&self.parts, name, occurrence).ok_or(refusal(26))?;
        Ok((i, self.parts[i].data(self.container)))
    }

    /// R, which every edition reads.
    pub fn resource_count(&self) -> usize {
        self.resources.count
    }

    /// T in bytes.
    pub fn string_length(&self) -> Option<usize> {
        self.later.map(|later| later.strings.len())
    }

    /// N in numbers.
    pub fn index_count(&self) -> Option<usize> {
        self.later.map(|later| later.indices.len() / 4)
    }

    /// E, over all three lists.
    pub fn element_count(&self) -> Option<usize> {
        self.later.map(|later| later.elements.count)
    }

    /// A resource record.
    pub fn resource(&self, i: usize) -> Result<Resource, Refusal> {
        let record = self.resources.get(i).ok_or(refusal(26))?;
        let long = record.len() >= LONG_RESOURCE && self.edition_read >= 2;
        Ok(Resource::read(record, long))
    }

    /// An element record, numbered over all E.
    pub fn element(&self, i: usize) -> Result<Element, Refusal> {
        let later = self.later.ok_or(refusal(26))?;
        let record = later.elements.get(i).ok_or(refusal(26))?;
        Ok(Element::read(record))
    }

    /// The name of an element.
    pub fn string(&self, i: usize) -> Result<Text<'a>, Refusal> {
        Text::of(self.string_bytes(i)?).ok_or(refusal(26))
    }

    /// The bytes of the name of an element.
    pub(crate) fn string_bytes(&self, i: usize) -> Result<&'a [u8], Refusal> {
        let later = self.later.ok_or(refusal(26))?;
        let element = self.element(i)?;
        bytes_at(later.strings, element.name_offset).ok_or(refusal(26))
    }

    /// The bytes of the index array of an element.
    pub fn array_bytes(&self, i: usize) -> Result<&'a [u8], Refusal> {
        let later = self.later.ok_or(refusal(26))?;
        let element = self.element(i)?;
        array_of(later.indices, &element).ok_or(refusal(26))
    }

    /// The numbers of the index array of an element.
    pub fn array(&self, i: usize) -> Result<Vec<u32>, Refusal> {
        let bytes = self.array_bytes(i)?;
        Ok(bytes.chunks_exact(4).map(|four| number4(four, 0)).collect())
    }

    /// The entry name.
    pub fn entry_name(&self) -> Result<Text<'a>, Refusal> {
        let later = self.later.ok_or(refusal(26))?;
        let o = self.runtime.entry_name_offset.ok_or(refusal(26))?;
        bytes_at(later.strings, o).and_then(Text::of).ok_or(refusal(26))
    }

    /// The bytes of a mask; one that isn't there is empty.
    pub fn mask(&self, number: usize) -> Result<&'a [u8], Refusal> {
        let later = self.later.ok_or(refusal(26))?;
        later.masks.get(number).copied().ok_or(refusal(26))
    }
}
