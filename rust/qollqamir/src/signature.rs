//! The signature parts ISG1, OSG1 and PSG1.

use std::iter::FusedIterator;
use std::ops::Range;

use crate::{judged, raw, shown, Edition, Refusal, Text};

/// One of the three signature parts. Each has a list of PSV0 elements beside it.
#[derive(Clone, Copy, Debug, PartialEq, Eq, Hash)]
pub enum SignaturePart {
    /// ISG1, beside the input elements.
    Input = 0,
    /// OSG1, beside the output elements.
    Output = 1,
    /// PSG1, beside the patch constant or primitive elements.
    Patch = 2,
}

impl SignaturePart {
    /// All three, in the order of PSV0's lists.
    pub const ALL: [SignaturePart; 3] = [SignaturePart::Input, SignaturePart::Output, SignaturePart::Patch];

    /// The part's name.
    pub fn name(self) -> [u8; 4] {
        match self {
            SignaturePart::Input => *b"ISG1",
            SignaturePart::Output => *b"OSG1",
            SignaturePart::Patch => *b"PSG1",
        }
    }
}

/// An element of a signature part, as it stands.
#[allow(missing_docs)]
#[derive(Clone, Copy, Debug, PartialEq, Eq)]
pub struct SignatureElement<'a> {
    pub stream: u32,
    /// From the start of the part's data; 0 is no name.
    pub name_offset: u32,
    pub index: u32,
    pub system_value: u32,
    pub component_type: u32,
    pub register_number: u32,
    pub mask: u32,
    pub exclusive_mask: u32,
    pub precision: u32,
    /// An empty name is a name.
    pub name: Option<Text<'a>>,
}

/// An element, whose name is a stretch of the bytes.
fn element_of(bytes: &[u8], record: raw::SignatureRecord) -> Result<SignatureElement<'_>, Refusal> {
    let name = shown(bytes, record.verdict, record.name_start, record.name_len)?;
    Ok(SignatureElement {
        stream: record.stream,
        name_offset: record.name_offset,
        index: record.index,
        system_value: record.system_value,
        component_type: record.component_type,
        register_number: record.register_number,
        mask: record.mask,
        exclusive_mask: record.exclusive_mask,
        precision: record.precision,
        name: (record.named != 0).then(|| Text::of(name, record.name_points)),
    })
}

/// The accepted data of a signature part: every element and every name lies inside.
///
/// ```
/// use qollqamir::{Refusal, Signature};
///
/// // Two elements from byte 8 on; the first has a name, at byte 72.
/// let mut data = [0; 76];
/// (data[0], data[4], data[12]) = (2, 8, 72);
/// data[72..75].copy_from_slice(b"POS");
///
/// let signature = Signature::read(&data)?;
/// let names: Vec<_> = signature.elements().map(|element| element.name.map(|name| name.text)).collect();
/// assert_eq!(names, [Some("POS"), None]);
/// assert_eq!(Signature::read(&data[..75]).unwrap_err(), Refusal { number: 45, place: 0 });
/// # Ok::<(), Refusal>(())
/// ```
#[derive(Clone, Copy, Debug, PartialEq, Eq)]
pub struct Signature<'a> {
    data: &'a [u8],
    count: usize,
}

impl<'a> Signature<'a> {
    /// Judges the data of a part ISG1, OSG1 or PSG1 alone. Refusals in order: 43 (under 8 bytes), 44 (offset + 32 x count is above their
    /// length), then element by element, its number as place, 45 (its name has no zero byte at its end inside them) and 52 (the bytes before
    /// that zero aren't well-formed UTF-8).
    pub fn read(data: &'a [u8]) -> Result<Self, Refusal> {
        let raw::SignatureData { verdict, count } = raw::sg1_read(data);
        judged(verdict)?;
        Ok(Signature { data, count })
    }

    /// The part's data, of which the names are parts.
    pub fn data(&self) -> &'a [u8] {
        self.data
    }

    /// The number of elements.
    pub fn count(&self) -> usize {
        self.count
    }

    /// Element `i`, or 26. The data are not judged anew.
    pub fn element(&self, i: usize) -> Result<SignatureElement<'a>, Refusal> {
        sg1_element_alone(self.data, i)
    }

    /// The name of element `i`, or 26 where there is no such element or it has none.
    pub fn name(&self, i: usize) -> Result<Text<'a>, Refusal> {
        self.element(i)?.name.ok_or(Refusal { number: 26, place: 0 })
    }

    /// The elements in order.
    pub fn elements(&self) -> Elements<'a> {
        Elements { signature: *self, numbers: 0..self.count }
    }
}

impl<'a> IntoIterator for Signature<'a> {
    type Item = SignatureElement<'a>;
    type IntoIter = Elements<'a>;

    fn into_iter(self) -> Elements<'a> {
        self.elements()
    }
}

/// The elements of a [`Signature`]. The whole was judged once; each step looks at one element and reads its name to the zero. Names may
/// share bytes, so hostile data can take as long as their count times their length.
#[derive(Clone, Debug)]
pub struct Elements<'a> {
    signature: Signature<'a>,
    numbers: Range<usize>,
}

impl<'a> Elements<'a> {
    fn shown(&self, i: usize) -> SignatureElement<'a> {
        self.signature.element(i).expect("an element of accepted data is accepted by itself")
    }
}

impl<'a> Iterator for Elements<'a> {
    type Item = SignatureElement<'a>;

    fn next(&mut self) -> Option<SignatureElement<'a>> {
        let i = self.numbers.next()?;
        Some(self.shown(i))
    }

    fn size_hint(&self) -> (usize, Option<usize>) {
        self.numbers.size_hint()
    }

    // The elements in between are not looked at.
    fn nth(&mut self, n: usize) -> Option<SignatureElement<'a>> {
        let i = self.numbers.nth(n)?;
        Some(self.shown(i))
    }
}

impl ExactSizeIterator for Elements<'_> {}

impl FusedIterator for Elements<'_> {}

/// Element `i` of the data of a signature part by itself, whatever the others are. Refusals in order: 43, 26, 44 of its own 32 bytes, 45 and
/// 52 of its own name. Where [`Signature::read`] accepts the data, this is their element `i`.
pub fn sg1_element_alone(data: &[u8], i: usize) -> Result<SignatureElement<'_>, Refusal> {
    element_of(data, raw::sg1_element_alone(data, i))
}

/// The report on a container's signature part at an edition: what [`Container::open`](crate::Container::open) refuses, 26 where the part is
/// absent, then 43 to 45 and 52 as [`Signature::read`] gives them. Its names are parts of the container.
pub fn signature(bytes: &[u8], edition: Edition, part: SignaturePart) -> Result<Signature<'_>, Refusal> {
    let raw::SignatureReport { verdict, count, start, len } = raw::signature(bytes, edition, part as u32);
    Ok(Signature { data: shown(bytes, verdict, start, len)?, count })
}

/// The number of the first named element of a signature part whose name is not that of the PSV0 element of the same list and number, or
/// that has no element beside it: the list is shorter, or the edition read is 0. Refusals as of [`signature`](fn@signature).
///
/// Compilers leave the PSV0 name of a system value empty, so most real shaders report element 0.
pub fn first_difference(bytes: &[u8], edition: Edition, part: SignaturePart) -> Result<Option<usize>, Refusal> {
    let raw::Difference { verdict, found, number } = raw::signature_difference(bytes, edition, part as u32);
    judged(verdict)?;
    Ok((found != 0).then_some(number))
}
