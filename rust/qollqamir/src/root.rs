//! The root signature, part RTS0.

use crate::{judged, raw, shown, value, Edition, Refusal};

/// An item of a root signature, as it stands: a parameter or a static sampler.
#[allow(missing_docs)]
#[derive(Clone, Copy, Debug, PartialEq)]
pub enum RootItem {
    /// A parameter of type 1.
    Constants { visibility: u32, register: u32, space: u32, count: u32 },
    /// A parameter of type 2 to 4.
    Descriptor {
        parameter_type: u32,
        visibility: u32,
        register: u32,
        space: u32,
        /// `None` in 1.0.
        flags: Option<u32>,
    },
    /// A parameter of type 0.
    Table {
        visibility: u32,
        /// How many ranges it has.
        ranges: u32,
        /// Where they start in the part's data.
        offset: u32,
    },
    /// A static sampler. The three floats have the bits of the file, whatever they are (a NaN's too, so compare `to_bits()`).
    Sampler {
        filter: u32,
        address_u: u32,
        address_v: u32,
        address_w: u32,
        lod_bias: f32,
        anisotropy: u32,
        comparison: u32,
        border: u32,
        least_lod: f32,
        greatest_lod: f32,
        register: u32,
        space: u32,
        visibility: u32,
    },
}

/// A range of a table, as it stands.
#[allow(missing_docs)]
#[derive(Clone, Copy, Debug, PartialEq, Eq)]
pub struct RootRange {
    pub range_type: u32,
    pub descriptors: u32,
    pub base_register: u32,
    pub space: u32,
    /// `None` in 1.0.
    pub flags: Option<u32>,
    /// In descriptors from the table's start; `u32::MAX` where the range follows the one before it.
    pub offset: u32,
}

fn item_of(record: raw::RootRecord) -> Result<RootItem, Refusal> {
    judged(record.verdict)?;
    let raw::RootRecord { visibility, register_number: register, space, .. } = record;
    Ok(match value(record.parameter_type) {
        Some(0) => RootItem::Table { visibility, ranges: record.ranges, offset: record.ranges_offset },
        Some(1) => RootItem::Constants { visibility, register, space, count: record.count },
        Some(parameter_type) => RootItem::Descriptor { parameter_type, visibility, register, space, flags: value(record.flags) },
        None => RootItem::Sampler {
            filter: record.filter,
            address_u: record.address_u,
            address_v: record.address_v,
            address_w: record.address_w,
            lod_bias: f32::from_bits(record.lod_bias),
            anisotropy: record.anisotropy,
            comparison: record.comparison,
            border: record.border,
            least_lod: f32::from_bits(record.least_lod),
            greatest_lod: f32::from_bits(record.greatest_lod),
            register,
            space,
            visibility,
        },
    })
}

fn range_of(record: raw::RangeRecord) -> Result<RootRange, Refusal> {
    judged(record.verdict)?;
    Ok(RootRange {
        range_type: record.range_type,
        descriptors: record.descriptors,
        base_register: record.base_register,
        space: record.space,
        flags: value(record.flags),
        // 32 bits of the file, in a place of 64.
        offset: record.offset as u32,
    })
}

/// The accepted data of a root signature: every item, its data and its ranges lie inside.
///
/// ```
/// use qollqamir::{Refusal, RootItem, RootSignature};
///
/// // Version 1.0 with one parameter at byte 24, constants, whose data are at byte 36.
/// let mut data = [0; 48];
/// (data[0], data[4], data[8], data[24], data[32]) = (1, 1, 24, 1, 36);
/// (data[36], data[40], data[44]) = (5, 6, 7);
///
/// let root = RootSignature::read(&data)?;
/// let items: Vec<_> = root.items().collect();
/// assert_eq!(items, [RootItem::Constants { visibility: 0, register: 5, space: 6, count: 7 }]);
/// assert_eq!(RootSignature::read(&data[..47]).unwrap_err(), Refusal { number: 50, place: 0 });
/// # Ok::<(), Refusal>(())
/// ```
#[derive(Clone, Copy, Debug, PartialEq, Eq)]
pub struct RootSignature<'a> {
    data: &'a [u8],
    version: u32,
    parameters: u32,
    samplers: u32,
    flags: u32,
}

impl<'a> RootSignature<'a> {
    /// Judges the data of a part RTS0 alone. Refusals in order: 46 (under 24 bytes), 47 (a version other than 1 and 2), then of the first bad
    /// item, its number as place: 48 (its own bytes), 49 (its type), 50 (its data), 51 (its ranges' end). Takes time in proportion to the
    /// data at most, whatever their counts.
    pub fn read(data: &'a [u8]) -> Result<Self, Refusal> {
        let raw::RootData { verdict, version, parameters, samplers, flags } = raw::rts0_read(data);
        judged(verdict)?;
        Ok(RootSignature { data, version, parameters, samplers, flags })
    }

    /// The part's data.
    pub fn data(&self) -> &'a [u8] {
        self.data
    }

    /// 1 for version 1.0, 2 for 1.1.
    pub fn version(&self) -> u32 {
        self.version
    }

    /// The number of parameters, which are the first items.
    pub fn parameters(&self) -> u32 {
        self.parameters
    }

    /// The number of static samplers, which are the items after them.
    pub fn samplers(&self) -> u32 {
        self.samplers
    }

    /// The header's flags.
    pub fn flags(&self) -> u32 {
        self.flags
    }

    /// Item `i`, or 26. The data are not judged anew.
    pub fn item(&self, i: usize) -> Result<RootItem, Refusal> {
        rts0_item_alone(self.data, i)
    }

    /// Range `j` of item `i`, or 26 where the item is no table or has no such range. The data are not judged anew.
    pub fn range(&self, i: usize, j: usize) -> Result<RootRange, Refusal> {
        rts0_range_alone(self.data, i, j)
    }

    /// The items in order. The data were judged once; each step takes the same short time.
    pub fn items(&self) -> impl ExactSizeIterator<Item = RootItem> + 'a {
        let root = *self;
        listed(root.parameters as usize + root.samplers as usize, move |i| root.item(i))
    }

    /// The ranges of item `i` in order: none where it is no table. The data were judged once; each step takes the same short time. Tables may
    /// share ranges, so to list all ranges of hostile data can take as long as their tables times their length.
    pub fn ranges(&self, i: usize) -> impl ExactSizeIterator<Item = RootRange> + 'a {
        let root = *self;
        let count = match root.item(i) {
            Ok(RootItem::Table { ranges, .. }) => ranges as usize,
            _ => 0,
        };
        listed(count, move |j| root.range(i, j))
    }
}

/// What accepted data list, looked up one by one.
fn listed<T>(count: usize, get: impl Fn(usize) -> Result<T, Refusal>) -> impl ExactSizeIterator<Item = T> {
    (0..count).map(move |i| get(i).expect("what accepted data list is accepted by itself"))
}

/// Item `i` of the data of a part RTS0 by itself, whatever the others are. Refusals in order: 46, 47, 26, then 48 to 51 of its own. Where
/// [`RootSignature::read`] accepts the data, this is their item `i`.
pub fn rts0_item_alone(data: &[u8], i: usize) -> Result<RootItem, Refusal> {
    item_of(raw::rts0_item_alone(data, i))
}

/// Range `j` of item `i` by itself, whatever the other items are: refusals as of [`rts0_item_alone`], then 26 where the item is no table or has
/// no such range.
pub fn rts0_range_alone(data: &[u8], i: usize, j: usize) -> Result<RootRange, Refusal> {
    range_of(raw::rts0_range_alone(data, i, j))
}

/// The report on a container's root signature at an edition: what [`Container::open`](crate::Container::open) refuses, 26 where there is no
/// part RTS0, then 46 to 51 as [`RootSignature::read`] gives them. A container with that part alone gives 10; read its data by
/// [`table`](fn@crate::table) and [`RootSignature::read`].
pub fn root_signature(bytes: &[u8], edition: Edition) -> Result<RootSignature<'_>, Refusal> {
    let raw::RootReport { verdict, version, parameters, samplers, flags, start, len } = raw::root_signature(bytes, edition);
    Ok(RootSignature { data: shown(bytes, verdict, start, len)?, version, parameters, samplers, flags })
}
