//! The record of where an opening found the sections, and the PSV0 queries that take it
//! with the bytes. Neither needs to belong to the other, or to anything: both may be made
//! up, and every query answers.

use crate::psv0::array_of;
use crate::utf8::bytes_at;
use crate::{
    number4, refusal, Element, Refusal, Resource, Runtime, Text, EDITION_SIZES, LEAST_RECORD,
    LONG_RESOURCE, MASKS, NEWEST,
};

/// Request 11: "a record of the places and sizes of the sections and of what decides 26
/// and list lengths". Plain data of 25 numbers. Places are counted in the bytes that were
/// opened, a container or PSV0 data alone; that of a section is its first byte after its
/// counts and sizes.
#[derive(Clone, Copy, Debug, Default, PartialEq, Eq, Hash)]
pub struct Places {
    /// The edition read. In a made-up record, any above 3 counts as 3.
    pub edition: u32,
    /// Of the runtime record, after S.
    pub runtime: u32,
    /// It decides which of the fields that depend on a stage are set. 0 for edition 0.
    pub stage: u32,
    /// Right after R where there are no resources.
    pub resources: u32,
    pub resource_count: u32,
    /// 0 where there are no resources.
    pub resource_size: u32,
    // What follows is of sections 3 to 6, and 0 for edition 0.
    pub strings: u32,
    pub string_bytes: u32,
    pub indices: u32,
    pub index_count: u32,
    /// Right after the index table where there are no elements.
    pub elements: u32,
    pub element_count: u32,
    /// 0 where there are no elements.
    pub element_size: u32,
    pub masks: u32,
    /// Of masks 0 to 10, which stand one after another. (With `MASKS` in place of 11, rustc
    /// 1.95 fails on closures of other crates that take this field.)
    pub mask_words: [u32; 11],
}

/// The lengths of the lists; those of sections that are unset are `None`.
#[derive(Clone, Copy, Debug, PartialEq, Eq)]
pub struct Lengths {
    pub resources: usize,
    /// T in bytes.
    pub strings: Option<usize>,
    /// N in numbers.
    pub indices: Option<usize>,
    /// E, over all three lists.
    pub elements: Option<usize>,
}

/// What bytes are handed out of, for writing again.
#[derive(Clone, Copy, Debug, PartialEq, Eq)]
pub enum Section {
    Runtime,
    Resources,
    Strings,
    Indices,
    Elements,
    Masks,
}

impl Section {
    /// In the order in which they stand.
    pub const ALL: [Section; 6] = [
        Section::Runtime,
        Section::Resources,
        Section::Strings,
        Section::Indices,
        Section::Elements,
        Section::Masks,
    ];
}

/// The `count` bytes at a place, or 29 where they don't all lie inside. No bytes have to
/// lie inside, too: their place may be the end, and not pass it.
fn inside(bytes: &[u8], place: u64, count: u64) -> Result<&[u8], Refusal> {
    // A sum that 64 bits can't hold is past every end.
    let end = place.checked_add(count).filter(|end| *end <= bytes.len() as u64);
    let end = end.ok_or(refusal(29))?;
    Ok(&bytes[place as usize..end as usize])
}

/// Where record i of a list begins. All three are below 2^32, so this is exact.
fn record_at(list: u32, i: usize, size: u32) -> u64 {
    u64::from(list) + i as u64 * u64::from(size)
}

/// The queries. The record alone decides 26; then 29 is given where something that the
/// query needs doesn't lie inside the bytes, or a reference on its way isn't good.
/// Otherwise they read at the recorded places. Every view is a part of the bytes.
impl Places {
    /// The 25 numbers in the order of the fields.
    pub fn numbers(&self) -> [u32; 25] {
        let mut numbers = [0; 25];
        numbers[..14].copy_from_slice(&[
            self.edition,
            self.runtime,
            self.stage,
            self.resources,
            self.resource_count,
            self.resource_size,
            self.strings,
            self.string_bytes,
            self.indices,
            self.index_count,
            self.elements,
            self.element_count,
            self.element_size,
            self.masks,
        ]);
        numbers[14..].copy_from_slice(&self.mask_words);
        numbers
    }

    /// The record of such numbers; any will do.
    pub fn from_numbers(numbers: [u32; 25]) -> Places {
        let mut mask_words = [0; MASKS];
        mask_words.copy_from_slice(&numbers[14..]);
        Places {
            edition: numbers[0],
            runtime: numbers[1],
            stage: numbers[2],
            resources: numbers[3],
            resource_count: numbers[4],
            resource_size: numbers[5],
            strings: numbers[6],
            string_bytes: numbers[7],
            indices: numbers[8],
            index_count: numbers[9],
            elements: numbers[10],
            element_count: numbers[11],
            element_size: numbers[12],
            masks: numbers[13],
            mask_words,
        }
    }

    /// The edition that the queries go by.
    fn edition(&self) -> usize {
        (self.edition as usize).min(NEWEST)
    }

    /// The runtime record up to that edition: 29.
    fn runtime_record<'a>(&self, bytes: &'a [u8]) -> Result<&'a [u8], Refusal> {
        inside(bytes, u64::from(self.runtime), EDITION_SIZES[self.edition()] as u64)
    }

    /// The whole string table: 29.
    fn string_table<'a>(&self, bytes: &'a [u8]) -> Result<&'a [u8], Refusal> {
        inside(bytes, u64::from(self.strings), u64::from(self.string_bytes))
    }

    /// The whole index table: 29.
    fn index_table<'a>(&self, bytes: &'a [u8]) -> Result<&'a [u8], Refusal> {
        inside(bytes, u64::from(self.indices), 4 * u64::from(self.index_count))
    }

    /// The string that a reference leads to, if it is good: 29.
    fn string_at<'a>(&self, bytes: &'a [u8], o: u32) -> Result<Text<'a>, Refusal> {
        let table = self.string_table(bytes)?;
        bytes_at(table, o).and_then(Text::of).ok_or(refusal(29))
    }

    /// The fields of the runtime record: 29. Which of them are set is up to the recorded
    /// edition and stage; the stage that is shown is the byte that stands there.
    pub fn runtime_info(&self, bytes: &[u8]) -> Result<Runtime, Refusal> {
        Ok(Runtime::read_as(self.runtime_record(bytes)?, self.edition(), self.stage))
    }

    /// The 16 bytes of the stage union. They need the whole runtime record: 29.
    pub fn stage_union<'a>(&self, bytes: &'a [u8]) -> Result<&'a [u8], Refusal> {
        Ok(&self.runtime_record(bytes)?[..16])
    }

    /// The lengths of the lists, by the record alone.
    pub fn lengths(&self) -> Lengths {
        let later = |length: u32| (self.edition() > 0).then_some(length as usize);
        Lengths {
            resources: self.resource_count as usize,
            strings: later(self.string_bytes),
            indices: later(self.index_count),
            elements: later(self.element_count),
        }
    }

    /// A resource record: 26, 29. It needs as many bytes as it shows, whatever size is
    /// recorded.
    pub fn resource(&self, bytes: &[u8], i: usize) -> Result<Resource, Refusal> {
        if i >= self.resource_count as usize {
            return Err(refusal(26));
        }
        let long = self.edition() >= 2 && self.resource_size as usize >= LONG_RESOURCE;
        let need = if long { LONG_RESOURCE } else { LEAST_RECORD };
        let at = record_at(self.resources, i, self.resource_size);
        Ok(Resource::read(inside(bytes, at, need as u64)?, long))
    }

    /// An element record, numbered over all three lists: 26, 29.
    pub fn element(&self, bytes: &[u8], i: usize) -> Result<Element, Refusal> {
        if self.edition() == 0 || i >= self.element_count as usize {
            return Err(refusal(26));
        }
        let at = record_at(self.elements, i, self.element_size);
        Ok(Element::read(inside(bytes, at, LEAST_RECORD as u64)?))
    }

    /// The name of an element: 26, 29.
    pub fn string<'a>(&self, bytes: &'a [u8], i: usize) -> Result<Text<'a>, Refusal> {
        let element = self.element(bytes, i)?;
        self.string_at(bytes, element.name_offset)
    }

    /// The bytes of the index array of an element: 26, 29.
    pub fn array_bytes<'a>(&self, bytes: &'a [u8], i: usize) -> Result<&'a [u8], Refusal> {
        let element = self.element(bytes, i)?;
        array_of(self.index_table(bytes)?, &element).ok_or(refusal(29))
    }

    /// The numbers of the index array of an element: 26, 29.
    pub fn array(&self, bytes: &[u8], i: usize) -> Result<Vec<u32>, Refusal> {
        let array = self.array_bytes(bytes, i)?;
        Ok(array.chunks_exact(4).map(|four| number4(four, 0)).collect())
    }

    /// The entry name: 26, 29.
    pub fn entry_name<'a>(&self, bytes: &'a [u8]) -> Result<Text<'a>, Refusal> {
        if self.edition() < 3 {
            return Err(refusal(26));
        }
        let o = number4(self.runtime_record(bytes)?, 48);
        self.string_at(bytes, o)
    }

    /// The bytes of a mask: 26, 29. It needs its own words and no others.
    pub fn mask<'a>(&self, bytes: &'a [u8], number: usize) -> Result<&'a [u8], Refusal> {
        if self.edition() == 0 || number >= MASKS {
            return Err(refusal(26));
        }
        let at = u64::from(self.masks) + 4 * words(&self.mask_words[..number]);
        inside(bytes, at, 4 * u64::from(self.mask_words[number]))
    }

    /// The bytes handed out of a section, without its counts and sizes: 29. One that is
    /// unset hands out none, wherever it is recorded.
    pub fn section<'a>(&self, bytes: &'a [u8], section: Section) -> Result<&'a [u8], Refusal> {
        let records = |at: u32, count: u32, size: u32| {
            inside(bytes, u64::from(at), u64::from(count) * u64::from(size))
        };
        match section {
            Section::Runtime => self.runtime_record(bytes),
            Section::Resources => records(self.resources, self.resource_count, self.resource_size),
            _ if self.edition() == 0 => Ok(&bytes[..0]),
            Section::Strings => self.string_table(bytes),
            Section::Indices => self.index_table(bytes),
            Section::Elements => records(self.elements, self.element_count, self.element_size),
            Section::Masks => inside(bytes, u64::from(self.masks), 4 * words(&self.mask_words)),
        }
    }
}

/// The sum of at most eleven lengths, which 64 bits hold.
fn words(lengths: &[u32]) -> u64 {
    lengths.iter().map(|length| u64::from(*length)).sum()
}
