//! The root signature, part RTS0: its parameters and static samplers as items in
//! one numbering, and the ranges of its tables.

use crate::{number4, open, refusal, refusal_at, Opening, Refusal};

/// The length of the header.
const HEADER: usize = 24;

/// The length of a parameter's own bytes: type, visibility, data offset.
const PARAMETER: u64 = 12;

/// The length of a static sampler.
const SAMPLER: u64 = 52;

/// The data of a table: its range count and the offset of its ranges.
const TABLE: u64 = 8;

/// The data of constants.
const CONSTANTS: u64 = 12;

/// A parameter or a static sampler. Types, visibilities, filters and flags are
/// shown as they stand in the file.
#[derive(Clone, Copy, Debug, PartialEq)]
pub enum RootItem {
    Constants {
        visibility: u32,
        register: u32,
        space: u32,
        count: u32,
    },
    Descriptor {
        /// The parameter's type, 2 to 4.
        kind: u32,
        visibility: u32,
        register: u32,
        space: u32,
        /// Unset in 1.0.
        flags: Option<u32>,
    },
    Table {
        visibility: u32,
        /// How many ranges it has.
        ranges: u32,
        /// Where the ranges start in the part's data.
        offset: u32,
    },
    Sampler {
        filter: u32,
        address_u: u32,
        address_v: u32,
        address_w: u32,
        /// This and the two below have the file's bits, whatever they are.
        lod_bias: f32,
        anisotropy: u32,
        comparison: u32,
        border: u32,
        least_lod: f32,
        greatest_lod: f32,
        register: u32,
        space: u32,
        visibility: u32,
    },
}

/// A range of a table.
#[derive(Clone, Copy, Debug, PartialEq, Eq)]
pub struct RootRange {
    pub kind: u32,
    pub descriptors: u32,
    pub register: u32,
    pub space: u32,
    /// Unset in 1.0.
    pub flags: Option<u32>,
    /// In descriptors from the table's start.
    pub offset: u32,
}

/// The accepted data of a root signature.
#[derive(Clone, Copy, Debug, PartialEq, Eq)]
pub struct RootSignature<'a> {
    /// 1 is 1.0, 2 is 1.1.
    pub version: u32,
    /// How many parameters there are; they are the first items.
    pub parameters: u32,
    /// How many static samplers there are; they are the items after them.
    pub samplers: u32,
    pub flags: u32,
    data: &'a [u8],
    parameters_offset: u32,
    samplers_offset: u32,
}

impl<'a> RootSignature<'a> {
    /// The header: 46 and 47. No item has been judged.
    fn header(data: &'a [u8]) -> Result<RootSignature<'a>, Refusal> {
        if data.len() < HEADER {
            return Err(refusal(46));
        }
        let version = word(data, 0);
        if version != 1 && version != 2 {
            return Err(refusal(47));
        }
        Ok(RootSignature {
            version,
            parameters: word(data, 1),
            parameters_offset: word(data, 2),
            samplers: word(data, 3),
            samplers_offset: word(data, 4),
            flags: word(data, 5),
            data,
        })
    }

    /// How many items there are.
    fn items(&self) -> u64 {
        u64::from(self.parameters) + u64::from(self.samplers)
    }

    /// An item, or 26 where there is none. Before the items have been judged, 48 to
    /// 51 for this one.
    pub fn item(&self, i: usize) -> Result<RootItem, Refusal> {
        let i = i as u64;
        if i >= self.items() {
            return Err(refusal(26));
        }
        let parameters = u64::from(self.parameters);
        let item = if i < parameters { self.parameter(i) } else { self.sampler(i - parameters) };
        item.map_err(|number| refusal_at(number, i as usize))
    }

    /// A range of a table, or 26 where the item is no table or has no such range.
    /// Otherwise as the item.
    pub fn range(&self, i: usize, j: usize) -> Result<RootRange, Refusal> {
        match self.item(i)? {
            RootItem::Table { ranges, offset, .. } if (j as u64) < u64::from(ranges) => {
                let at = u64::from(offset) + self.range_size() * j as u64;
                let bytes = self.stretch(at, self.range_size());
                Ok(self.read_range(bytes.expect("the ranges' end was judged")))
            }
            _ => Err(refusal(26)),
        }
    }

    /// A parameter, or the number of the first check that fails: 48 to 51.
    fn parameter(&self, i: u64) -> Result<RootItem, u8> {
        let at = u64::from(self.parameters_offset) + PARAMETER * i;
        let own = self.stretch(at, PARAMETER).ok_or(48)?;
        let (kind, visibility, offset) = (word(own, 0), word(own, 1), word(own, 2));
        let size = match kind {
            0 => TABLE,
            1 => CONSTANTS,
            2..=4 => self.descriptor_size(),
            _ => return Err(49),
        };
        let data = self.stretch(u64::from(offset), size).ok_or(50)?;
        match kind {
            0 => self.table(visibility, data),
            1 => Ok(RootItem::Constants {
                visibility,
                register: word(data, 0),
                space: word(data, 1),
                count: word(data, 2),
            }),
            _ => Ok(RootItem::Descriptor {
                kind,
                visibility,
                register: word(data, 0),
                space: word(data, 1),
                flags: self.has_flags().then(|| word(data, 2)),
            }),
        }
    }

    /// A table from its data: 51.
    fn table(&self, visibility: u32, data: &[u8]) -> Result<RootItem, u8> {
        let (ranges, offset) = (word(data, 0), word(data, 1));
        let size = self.range_size() * u64::from(ranges);
        self.stretch(u64::from(offset), size).ok_or(51)?;
        Ok(RootItem::Table { visibility, ranges, offset })
    }

    /// A static sampler by its number among them: 48.
    fn sampler(&self, j: u64) -> Result<RootItem, u8> {
        let at = u64::from(self.samplers_offset) + SAMPLER * j;
        let own = self.stretch(at, SAMPLER).ok_or(48)?;
        let float = |i: usize| f32::from_bits(word(own, i));
        Ok(RootItem::Sampler {
            filter: word(own, 0),
            address_u: word(own, 1),
            address_v: word(own, 2),
            address_w: word(own, 3),
            lod_bias: float(4),
            anisotropy: word(own, 5),
            comparison: word(own, 6),
            border: word(own, 7),
            least_lod: float(8),
            greatest_lod: float(9),
            register: word(own, 10),
            space: word(own, 11),
            visibility: word(own, 12),
        })
    }

    /// A range from its bytes. In 1.1 the flags stand before the offset.
    fn read_range(&self, bytes: &[u8]) -> RootRange {
        RootRange {
            kind: word(bytes, 0),
            descriptors: word(bytes, 1),
            register: word(bytes, 2),
            space: word(bytes, 3),
            flags: self.has_flags().then(|| word(bytes, 4)),
            offset: word(bytes, if self.has_flags() { 5 } else { 4 }),
        }
    }

    /// Whether descriptors and ranges have flags, a number more: in 1.1.
    fn has_flags(&self) -> bool {
        self.version == 2
    }

    fn descriptor_size(&self) -> u64 {
        if self.has_flags() {
            12
        } else {
            8
        }
    }

    fn range_size(&self) -> u64 {
        if self.has_flags() {
            24
        } else {
            20
        }
    }

    /// The bytes from `at` on, if they are inside the data. 32-bit numbers are
    /// held in 64 bits, so that sums and products with them are exact.
    fn stretch(&self, at: u64, length: u64) -> Option<&'a [u8]> {
        let inside = at + length <= self.data.len() as u64;
        inside.then(|| &self.data[at as usize..(at + length) as usize])
    }
}

/// The number of four bytes after `i` others.
fn word(bytes: &[u8], i: usize) -> u32 {
    number4(bytes, 4 * i)
}

/// The data of a root signature alone: 46, 47, then 48 to 51 for the first bad
/// item. The first item outside ends it, so the counts don't decide how long it
/// takes.
pub fn root_signature(data: &[u8]) -> Result<RootSignature<'_>, Refusal> {
    let signature = RootSignature::header(data)?;
    for i in 0..signature.items() {
        signature.item(i as usize)?;
    }
    Ok(signature)
}

/// An item by itself, whatever the others are: 46, 47, 26, then 48 to 51 for it
/// alone.
pub fn root_item(data: &[u8], i: usize) -> Result<RootItem, Refusal> {
    RootSignature::header(data)?.item(i)
}

/// A range of an item by itself: as the item, then 26.
pub fn root_range(data: &[u8], i: usize, j: usize) -> Result<RootRange, Refusal> {
    RootSignature::header(data)?.range(i, j)
}

/// The report on a container: what opening it refuses (25, 1 to 24), then 26,
/// then 46 to 51.
pub fn root_report(bytes: &[u8], edition: usize) -> Result<RootSignature<'_>, Refusal> {
    report(&open(bytes, edition)?)
}

/// The report on a container that was opened.
pub(crate) fn report<'a>(opening: &Opening<'a>) -> Result<RootSignature<'a>, Refusal> {
    let (_, data) = opening.part(*b"RTS0")?;
    root_signature(data)
}
