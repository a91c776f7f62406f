//! The signature parts ISG1, OSG1 and PSG1, and their names beside PSV0's.

use crate::utf8::{bytes_at, Reference, References};
use crate::{number4, open, refusal, refusal_at, Opening, Refusal, Runtime, Text};
use std::ops::Range;

/// The length of the header: the element count and the first element's offset.
const HEADER: usize = 8;

/// The length of an element.
const ELEMENT: usize = 32;

/// Which of the three parts. All are read alike; each has its own list of PSV0
/// elements beside it.
#[derive(Clone, Copy, Debug, PartialEq, Eq, Hash)]
pub enum SignaturePart {
    Input,
    Output,
    /// Patch constant or primitive.
    Patch,
}

impl SignaturePart {
    /// In the order of PSV0's lists.
    pub const ALL: [SignaturePart; 3] =
        [SignaturePart::Input, SignaturePart::Output, SignaturePart::Patch];

    /// The part's name.
    pub fn name(self) -> [u8; 4] {
        match self {
            SignaturePart::Input => *b"ISG1",
            SignaturePart::Output => *b"OSG1",
            SignaturePart::Patch => *b"PSG1",
        }
    }

    /// The numbers over all E of the elements in its PSV0 list. There are none
    /// where the counts are unset.
    pub fn list(self, runtime: &Runtime) -> Range<usize> {
        let number = |count: Option<u32>| count.unwrap_or(0) as usize;
        let input = number(runtime.input_elements);
        let output = input + number(runtime.output_elements);
        let patch = output + number(runtime.patch_elements);
        match self {
            SignaturePart::Input => 0..input,
            SignaturePart::Output => input..output,
            SignaturePart::Patch => output..patch,
        }
    }
}

/// An element of a signature part, its two unused bytes apart.
#[derive(Clone, Copy, Debug, PartialEq, Eq)]
pub struct SignatureElement<'a> {
    pub stream: u32,
    /// From the header's start; 0 is no name.
    pub name_offset: u32,
    pub index: u32,
    pub system_value: u32,
    pub component: u32,
    pub register: u32,
    pub mask: u32,
    pub exclusive_mask: u32,
    pub precision: u32,
    /// An empty name is a name.
    pub name: Option<Text<'a>>,
}

impl<'a> SignatureElement<'a> {
    /// Element i, whose 32 bytes start at `at` and lie inside: 45, 52.
    fn read(data: &'a [u8], at: usize, i: usize) -> Result<SignatureElement<'a>, Refusal> {
        let name_offset = number4(data, at + 4);
        let name = match name_offset {
            0 => None,
            o => {
                let bytes = bytes_at(data, o).ok_or(refusal_at(45, i))?;
                Some(Text::of(bytes).ok_or(refusal_at(52, i))?)
            }
        };
        Ok(SignatureElement {
            stream: number4(data, at),
            name_offset,
            index: number4(data, at + 8),
            system_value: number4(data, at + 12),
            component: number4(data, at + 16),
            register: number4(data, at + 20),
            mask: u32::from(data[at + 24]),
            exclusive_mask: u32::from(data[at + 25]),
            precision: number4(data, at + 28),
            name,
        })
    }
}

/// The accepted data of a signature part.
#[derive(Clone, Copy, Debug, PartialEq, Eq)]
pub struct Signature<'a> {
    /// The number of elements.
    pub count: usize,
    data: &'a [u8],
    /// Where the first element starts.
    first: usize,
}

impl<'a> Signature<'a> {
    /// An element, or 26 where there is none.
    pub fn element(&self, i: usize) -> Result<SignatureElement<'a>, Refusal> {
        if i >= self.count {
            return Err(refusal(26));
        }
        let element = SignatureElement::read(self.data, self.first + ELEMENT * i, i);
        Ok(element.expect("its name was judged good"))
    }

    /// The name of an element, or 26 where there is none.
    pub fn name(&self, i: usize) -> Result<Text<'a>, Refusal> {
        self.element(i)?.name.ok_or(refusal(26))
    }

    /// The bytes of the name of an element that is there.
    fn name_bytes(&self, i: usize) -> Option<&'a [u8]> {
        match name_offset(self.data, self.first, i) {
            0 => None,
            o => bytes_at(self.data, o),
        }
    }
}

/// The name offset of element i, which lies inside.
fn name_offset(data: &[u8], first: usize, i: usize) -> u32 {
    number4(data, first + ELEMENT * i + 4)
}

/// The element count and the first element's offset: 43. 32-bit numbers held in
/// 64 bits, so that sums and products with them are exact.
fn header(data: &[u8]) -> Result<(u64, u64), Refusal> {
    if data.len() < HEADER {
        return Err(refusal(43));
    }
    Ok((u64::from(number4(data, 0)), u64::from(number4(data, 4))))
}

/// The data of a signature part alone: 43, 44, then element by element 45 and 52.
/// Request 7: "The signature names of Ask 3 follow the same rule, under 52 with
/// 45's place, checked next for that element."
pub fn signature(data: &[u8]) -> Result<Signature<'_>, Refusal> {
    let (count, first) = header(data)?;
    if first + ELEMENT as u64 * count > data.len() as u64 {
        return Err(refusal(44));
    }
    let (count, first) = (count as usize, first as usize);
    let references = References::of(data);
    for i in 0..count {
        let o = name_offset(data, first, i);
        match references.to(o) {
            // No name at all.
            _ if o == 0 => (),
            Reference::NoZero => return Err(refusal_at(45, i)),
            Reference::IllFormed => return Err(refusal_at(52, i)),
            Reference::Good => (),
        }
    }
    Ok(Signature { count, data, first })
}

/// An element by itself, whatever the others are: 43, 26, 44 for its own bytes,
/// 45 and 52 for its own name.
pub fn signature_element(data: &[u8], i: usize) -> Result<SignatureElement<'_>, Refusal> {
    let (count, first) = header(data)?;
    if i as u64 >= count {
        return Err(refusal(26));
    }
    let at = first + ELEMENT as u64 * i as u64;
    if at + ELEMENT as u64 > data.len() as u64 {
        return Err(refusal(44));
    }
    SignatureElement::read(data, at as usize, i)
}

/// The report on a part of a container: what opening it refuses (25, 1 to 24),
/// then 26, then 43 to 45 and 52.
pub fn signature_report(
    bytes: &[u8],
    edition: usize,
    part: SignaturePart,
) -> Result<Signature<'_>, Refusal> {
    report(&open(bytes, edition)?, part)
}

/// The report on a part of a container that was opened.
pub(crate) fn report<'a>(
    opening: &Opening<'a>,
    part: SignaturePart,
) -> Result<Signature<'a>, Refusal> {
    let (_, data) = opening.part(part.name())?;
    signature(data)
}

/// The number of the first named element whose name isn't that of the PSV0
/// element of the same list and number, or which has none beside it. Refusals
/// as in the report.
pub fn first_difference(
    bytes: &[u8],
    edition: usize,
    part: SignaturePart,
) -> Result<Option<usize>, Refusal> {
    let opening = open(bytes, edition)?;
    Ok(difference(&opening, part, &report(&opening, part)?))
}

/// The same of a container that was opened, and the part's data in it.
pub(crate) fn difference(
    opening: &Opening,
    part: SignaturePart,
    signature: &Signature,
) -> Option<usize> {
    let list = part.list(&opening.runtime);
    (0..signature.count).find(|i| match (signature.name_bytes(*i), list.clone().nth(*i)) {
        // Without a name there is nothing to compare.
        (None, _) => false,
        (Some(_), None) => true,
        (Some(name), Some(beside)) => opening.string_bytes(beside) != Ok(name),
    })
}
