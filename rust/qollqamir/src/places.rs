//! Queries by places that were kept, on any bytes, and replacing a container's PSV0 part.
use crate::{
    element_of, judged, lengths_of, raw, resource_of, runtime_of, texted, viewed, Edition, Element, Lengths, Places, Refusal, Resource,
    Runtime, Sections, Text, ELEMENT_ARRAY, ELEMENT_STRING, ENTRY_NAME, MASK, STAGE_UNION,
};

/// Bytes and places that belong together, or not: any bytes and any places get an answer. For the bytes that the places were made from, each is what
/// the opened container answers, and nothing is opened again. Otherwise 26 and lengths go by the places alone, and a query gives 29 where what it
/// needs doesn't lie inside the bytes or a reference on its way isn't good.
///
/// ```
/// use qollqamir::{Placed, Psv0, Refusal};
///
/// let mut data = [0; 32];
/// data[0] = 24;
/// let places = Psv0::open(&data, 3)?.places();
///
/// data[20] = 7;
/// let placed = Placed::new(&data, places);
/// assert_eq!(placed.runtime()?.minimum_wave_lanes, Some(7));
/// assert_eq!(placed.resource(0).unwrap_err(), Refusal { number: 26, place: 0 });
/// assert_eq!(Placed::new(&data[..27], places).runtime().unwrap_err(), Refusal { number: 29, place: 0 });
/// # Ok::<(), Refusal>(())
/// ```
#[derive(Clone, Copy, Debug, PartialEq, Eq)]
pub struct Placed<'a> {
    bytes: &'a [u8],
    places: Places,
}

impl<'a> Placed<'a> {
    /// Bytes with places, whatever they are.
    pub fn new(bytes: &'a [u8], places: Places) -> Self {
        Placed { bytes, places }
    }

    /// The bytes.
    pub fn bytes(&self) -> &'a [u8] {
        self.bytes
    }

    /// The places.
    pub fn places(&self) -> Places {
        self.places
    }

    /// The fields of the runtime record, or 29. The recorded edition and stage decide which are set.
    pub fn runtime(&self) -> Result<Runtime, Refusal> {
        let info = raw::places_runtime_info(self.bytes, self.places);
        judged(info.verdict)?;
        Ok(runtime_of(info))
    }

    /// The lists' lengths, by the places alone.
    pub fn lengths(&self) -> Lengths {
        lengths_of(raw::places_lengths(self.bytes, self.places))
    }

    /// Resource record `i`, or 26, or 29.
    pub fn resource(&self, i: usize) -> Result<Resource, Refusal> {
        resource_of(raw::places_resource(self.bytes, self.places, i))
    }

    /// Element record `i`, numbered over all three lists, or 26, or 29.
    pub fn element(&self, i: usize) -> Result<Element, Refusal> {
        element_of(raw::places_element(self.bytes, self.places, i))
    }

    /// The stage union, 16 bytes as they stand, or 29.
    pub fn stage_union(&self) -> Result<&'a [u8], Refusal> {
        self.view(STAGE_UNION, 0)
    }

    /// The name of element `i`, or 26, or 29.
    pub fn element_string(&self, i: usize) -> Result<Text<'a>, Refusal> {
        self.text(ELEMENT_STRING, i)
    }

    /// The bytes of the index array of element `i`, or 26, or 29.
    pub fn element_array(&self, i: usize) -> Result<&'a [u8], Refusal> {
        self.view(ELEMENT_ARRAY, i)
    }

    /// The entry name, or 26, or 29.
    pub fn entry_name(&self) -> Result<Text<'a>, Refusal> {
        self.text(ENTRY_NAME, 0)
    }

    /// The bytes of mask `number`, 0 to 10, or 26, or 29.
    pub fn mask(&self, number: usize) -> Result<&'a [u8], Refusal> {
        self.view(MASK, number)
    }

    /// The bytes of every section for writing again, or 29 where one of them isn't inside the bytes.
    pub fn sections(&self) -> Result<Sections<'a>, Refusal> {
        let section = |number| viewed(self.bytes, raw::places_section(self.bytes, self.places, number));
        Ok(Sections {
            runtime: section(0)?,
            resources: section(1)?,
            strings: section(2)?,
            indices: section(3)?,
            elements: section(4)?,
            masks: section(5)?,
        })
    }

    fn text(&self, kind: u32, number: usize) -> Result<Text<'a>, Refusal> {
        texted(self.bytes, raw::places_view(self.bytes, self.places, kind, number))
    }

    fn view(&self, kind: u32, number: usize) -> Result<&'a [u8], Refusal> {
        viewed(self.bytes, raw::places_view(self.bytes, self.places, kind, number))
    }
}

/// A container with other PSV0 data at the front of an output.
#[derive(Clone, Copy, Debug, PartialEq, Eq)]
pub struct Replaced {
    /// Its length.
    pub len: usize,
    /// The places of its PSV0 sections, those of an opening of it at the edition that was asked for.
    pub places: Places,
}

/// Writes a container with other PSV0 data, in plain form, in the place of its own to the front of `out`. Every byte outside them is kept but the
/// file size, the part's size and the offsets of the parts after it; what follows moves, and nothing is aligned anew. Refusals in order: those of
/// opening at the edition (25, 1 to 24), those of reader 3 for the part (2, 12 to 24), 27 where it isn't plain, 2 for a result that is too long, 28. A
/// refusal leaves `out` as it was; bytes past the result stay.
///
/// ```
/// use qollqamir::{assemble, replace_psv0, Container, Placed};
///
/// let mut psv0 = [0; 32];
/// psv0[0] = 24;
/// let data = [b"code", &psv0[..]].concat();
/// let mut bytes = [0; 128];
/// let len = assemble(b"DXILPSV0", &[4, 32], &data, &[0; 16], &mut bytes)?;
///
/// psv0[20] = 7;
/// let mut out = [0; 128];
/// let replaced = replace_psv0(&bytes[..len], 3, &psv0, &mut out)?;
/// let result = &out[..replaced.len];
/// assert_eq!(Container::open(result, 3)?.places(), replaced.places);
/// assert_eq!(Placed::new(result, replaced.places).runtime()?.minimum_wave_lanes, Some(7));
/// # Ok::<(), qollqamir::Refusal>(())
/// ```
pub fn replace_psv0(bytes: &[u8], edition: Edition, part: &[u8], out: &mut [u8]) -> Result<Replaced, Refusal> {
    let raw::Replaced { verdict, len, places } = raw::replace_psv0(bytes, edition, part, out);
    judged(verdict)?;
    Ok(Replaced { len: len as usize, places })
}
