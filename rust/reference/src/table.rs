//! The container's header and part table.

use crate::{number2, number4, refusal, refusal_at, Refusal, LONGEST, MOST_PARTS};

/// The 24 part names of document 001.
pub const KNOWN: [[u8; 4]; 24] = [
    *b"DXIL", *b"HASH", *b"ILDB", *b"ILDN", *b"ISG1", *b"ISGN", *b"OSG1", *b"OSG5", *b"OSGN",
    *b"PCSG", *b"PDBI", *b"PRIV", *b"PSG1", *b"PSV0", *b"RDAT", *b"RDEF", *b"RTS0", *b"SFI0",
    *b"SHDR", *b"SHEX", *b"DXBC", *b"SRCI", *b"STAT", *b"VERS",
];

/// Whether the name is one of the 24.
pub fn known(name: [u8; 4]) -> bool {
    KNOWN.contains(&name)
}

/// Request 8: "PRIV may repeat; every other name still may not". The table reader
/// and the assembler both come here for 9.
pub fn may_repeat(name: [u8; 4]) -> bool {
    name == *b"PRIV"
}

/// The length of the header; the offset table follows it.
pub(crate) const HEADER: usize = 32;

/// The length of a part header; the data follow it.
const PART_HEADER: usize = 8;

/// One part: its name, where its header starts, and how many data bytes follow
/// the header; then how many earlier parts bear its name, and how many gap bytes lie
/// before its header.
#[derive(Clone, Copy, Debug, PartialEq, Eq)]
pub struct Part {
    pub name: [u8; 4],
    pub offset: usize,
    pub size: usize,
    /// 0 for every name that may not repeat. Of the type that a query takes.
    pub occurrence: u64,
    /// Counted from the end of the part before it, or of the offset table.
    pub gap: usize,
}

impl Part {
    /// Where the part's data begin.
    pub(crate) fn data_at(&self) -> usize {
        self.offset + PART_HEADER
    }

    /// Where the part's data end.
    pub fn end(&self) -> usize {
        self.data_at() + self.size
    }

    /// The part's data within the container it was read from.
    pub fn data<'a>(&self, container: &'a [u8]) -> &'a [u8] {
        &container[self.data_at()..self.end()]
    }
}

/// The part table of a container, or its refusal (1 to 9).
pub fn table(bytes: &[u8]) -> Result<Vec<Part>, Refusal> {
    table_with_pairs(bytes).0
}

/// The same, and "beside its answer or refusal, how many pairs of names it compared"
/// (request 12).
pub fn table_with_pairs(bytes: &[u8]) -> (Result<Vec<Part>, Refusal>, u64) {
    // The number "is 0 when a check before 9 refuses": no names are compared for those.
    let mut pairs = 0;
    let answer = entries(bytes).and_then(|parts| with_occurrences(parts, &mut pairs));
    (answer, pairs)
}

/// The entries before any name is compared: 1 to 8.
fn entries(bytes: &[u8]) -> Result<Vec<Part>, Refusal> {
    if bytes.len() < HEADER {
        return Err(refusal(1));
    }
    if bytes.len() > LONGEST {
        return Err(refusal(2));
    }
    if &bytes[0..4] != b"DXBC" {
        return Err(refusal(3));
    }
    if number2(bytes, 20) != 1 || number2(bytes, 22) != 0 {
        return Err(refusal(4));
    }
    // All sums below are of 32-bit numbers held in 64 bits, so none wraps.
    let length = bytes.len() as u64;
    if u64::from(number4(bytes, 24)) != length {
        return Err(refusal(5));
    }
    let count = number4(bytes, 28) as usize;
    if count > MOST_PARTS {
        return Err(refusal(6));
    }
    let table_end = HEADER + 4 * count;
    if table_end > bytes.len() {
        return Err(refusal(7));
    }

    let mut parts: Vec<Part> = Vec::with_capacity(count);
    let mut earliest = table_end as u64;
    for i in 0..count {
        let offset = u64::from(number4(bytes, HEADER + 4 * i));
        if offset < earliest || offset + PART_HEADER as u64 > length {
            return Err(refusal_at(8, i));
        }
        let gap = (offset - earliest) as usize;
        let offset = offset as usize;
        let size = u64::from(number4(bytes, offset + 4));
        let end = (offset + PART_HEADER) as u64 + size;
        if end > length {
            return Err(refusal_at(8, i));
        }
        parts.push(Part {
            name: [bytes[offset], bytes[offset + 1], bytes[offset + 2], bytes[offset + 3]],
            offset,
            size: size as usize,
            // Names are for later: 8 is checked for all parts before 9 for any.
            occurrence: 0,
            gap,
        });
        earliest = end;
    }
    Ok(parts)
}

/// The entries with their occurrences: 9. Request 12: "for each part in turn, the earlier
/// ones in order". At most 96 names, so comparing each with those before it is cheap.
fn with_occurrences(mut parts: Vec<Part>, pairs: &mut u64) -> Result<Vec<Part>, Refusal> {
    for i in 0..parts.len() {
        let earlier = parts[..i].iter().map(|part| part.name);
        let occurrence = occurrence(earlier, parts[i].name, pairs);
        parts[i].occurrence = occurrence.ok_or(refusal_at(9, i))?;
    }
    Ok(parts)
}

/// How many of the earlier names are this one, or None where there is such a name
/// and it may not repeat. Each earlier name is looked at once, and `pairs` goes up by one
/// as it is compared. Request 12: "a match ends the count" and is in it; "A PRIV compared
/// with a PRIV counts but doesn't stop the walk."
pub(crate) fn occurrence(
    earlier: impl Iterator<Item = [u8; 4]>,
    name: [u8; 4],
    pairs: &mut u64,
) -> Option<u64> {
    let mut count = 0;
    for other in earlier {
        *pairs += 1;
        if other == name {
            if !may_repeat(name) {
                return None;
            }
            count += 1;
        }
    }
    Some(count)
}

/// The number of the first part of that name.
pub fn find(parts: &[Part], name: [u8; 4]) -> Option<usize> {
    find_occurrence(parts, name, 0)
}

/// The number of the part of that name and occurrence.
pub fn find_occurrence(parts: &[Part], name: [u8; 4], occurrence: u64) -> Option<usize> {
    parts.iter().position(|part| part.name == name && part.occurrence == occurrence)
}

/// The first part of that name from the table alone: its number and data (1 to 9,
/// 26).
pub fn table_part(bytes: &[u8], name: [u8; 4]) -> Result<(usize, &[u8]), Refusal> {
    table_part_occurrence(bytes, name, 0)
}

/// The same of the part of that name and occurrence. Request 8: "A query by name
/// takes that first number too; without it the first part is meant."
pub fn table_part_occurrence(
    bytes: &[u8],
    name: [u8; 4],
    occurrence: u64,
) -> Result<(usize, &[u8]), Refusal> {
    let parts = table(bytes)?;
    let i = find_occurrence(&parts, name, occurrence).ok_or(refusal(26))?;
    Ok((i, parts[i].data(bytes)))
}

/// The bytes after the last part; with no part, after the offset table (1 to 9). Of
/// an accepted table, these, the header, the offset table, the gaps, and the part
/// headers and data sum to the file's length.
pub fn after_last_part(bytes: &[u8]) -> Result<&[u8], Refusal> {
    // An offset table of no part has no bytes.
    let end = table(bytes)?.last().map_or(HEADER, Part::end);
    Ok(&bytes[end..])
}
