//! The PSV0 writer, the container assembler, and plain form.

use crate::table::occurrence;
use crate::{
    open_psv0, refusal, refusal_at, Refusal, Runtime, EDITION_SIZES, LEAST_RECORD, LONGEST,
    LONG_RESOURCE, MOST_PARTS, NEWEST,
};

/// The size of the resource records that the writer takes.
fn resource_size(edition: usize) -> usize {
    if edition < 2 {
        LEAST_RECORD
    } else {
        LONG_RESOURCE
    }
}

/// Writes PSV0 data of an edition to the front of `out` and answers its length.
/// Refusals in order: 25, 27, 2, 15 to 24 as reader 3 would answer, 28. When it
/// refuses, `out` is as it was.
#[allow(clippy::too_many_arguments)]
pub fn write_psv0(
    edition: usize,
    runtime: &[u8],
    resources: &[u8],
    strings: &[u8],
    indices: &[u8],
    elements: &[u8],
    masks: &[u8],
    out: &mut [u8],
) -> Result<usize, Refusal> {
    if edition > NEWEST {
        return Err(refusal(25));
    }

    if runtime.len() != EDITION_SIZES[edition] || resources.len() % resource_size(edition) != 0 {
        return Err(refusal(27));
    }
    // In edition 0 all counts are unset and these come to 0.
    let fields = Runtime::read(runtime, edition);
    let element_bytes = LEAST_RECORD * fields.element_count() as usize;
    let mask_bytes = 4 * fields.mask_words().iter().sum::<u32>() as usize;
    if elements.len() != element_bytes || masks.len() != mask_bytes {
        return Err(refusal(27));
    }
    if strings.len() % 4 != 0 || indices.len() % 4 != 0 {
        return Err(refusal(27));
    }
    if edition == 0 && !(strings.is_empty() && indices.is_empty()) {
        return Err(refusal(27));
    }

    // S and R, and for each of the other sections its counts and sizes.
    let mut length = 4 + runtime.len() as u64 + 4;
    if !resources.is_empty() {
        length += 4 + resources.len() as u64;
    }
    if edition > 0 {
        length += 4 + strings.len() as u64;
        length += 4 + indices.len() as u64;
        if !elements.is_empty() {
            length += 4 + elements.len() as u64;
        }
        length += masks.len() as u64;
    }
    if length > LONGEST as u64 {
        return Err(refusal(2));
    }

    // The result is made apart and read before `out` is touched. It is at most
    // 2^24 bytes, so every count fits its four bytes.
    let mut made = Vec::with_capacity(length as usize);
    put_number(&mut made, runtime.len());
    made.extend_from_slice(runtime);
    put_number(&mut made, resources.len() / resource_size(edition));
    if !resources.is_empty() {
        put_number(&mut made, resource_size(edition));
        made.extend_from_slice(resources);
    }
    if edition > 0 {
        put_number(&mut made, strings.len());
        made.extend_from_slice(strings);
        put_number(&mut made, indices.len() / 4);
        made.extend_from_slice(indices);
        if !elements.is_empty() {
            put_number(&mut made, LEAST_RECORD);
            made.extend_from_slice(elements);
        }
        made.extend_from_slice(masks);
    }
    open_psv0(&made, NEWEST)?;

    deliver(&made, out)
}

/// Writes a container to the front of `out` and answers its length. There are
/// as many parts as sizes; `names` has four bytes for each, `data` the data of
/// all parts end to end. Refusals in order: 27, 6, 9, 2, 28. When it refuses,
/// `out` is as it was.
pub fn assemble(
    names: &[u8],
    sizes: &[u32],
    data: &[u8],
    digest: &[u8],
    out: &mut [u8],
) -> Result<usize, Refusal> {
    let count = sizes.len();
    let total: u64 = sizes.iter().map(|size| u64::from(*size)).sum();
    if names.len() as u64 != 4 * count as u64 || digest.len() != 16 || total != data.len() as u64 {
        return Err(refusal(27));
    }
    if count > MOST_PARTS {
        return Err(refusal(6));
    }
    let names: Vec<[u8; 4]> =
        names.chunks_exact(4).map(|name| [name[0], name[1], name[2], name[3]]).collect();
    for (i, name) in names.iter().enumerate() {
        // Request 12 asks the table reader alone how many pairs it compared.
        if occurrence(names[..i].iter().copied(), *name, &mut 0).is_none() {
            return Err(refusal_at(9, i));
        }
    }

    // Where each part's header starts, and where the last part's data end.
    let mut offsets = Vec::with_capacity(count);
    let mut end = 32 + 4 * count as u64;
    for size in sizes {
        let offset = end.next_multiple_of(4);
        offsets.push(offset);
        end = offset + 8 + u64::from(*size);
    }
    if end > LONGEST as u64 {
        return Err(refusal(2));
    }

    let mut made = Vec::with_capacity(end as usize);
    made.extend_from_slice(b"DXBC");
    made.extend_from_slice(digest);
    made.extend_from_slice(&[1, 0, 0, 0]);
    put_number(&mut made, end as usize);
    put_number(&mut made, count);
    for offset in &offsets {
        put_number(&mut made, *offset as usize);
    }
    let mut data = data;
    for i in 0..count {
        let (part, others) = data.split_at(sizes[i] as usize);
        data = others;
        made.resize(offsets[i] as usize, 0);
        made.extend_from_slice(&names[i]);
        put_number(&mut made, part.len());
        made.extend_from_slice(part);
    }
    deliver(&made, out)
}

/// Appends a number of four bytes; the callers' numbers are at most 2^24.
fn put_number(made: &mut Vec<u8>, number: usize) {
    made.extend_from_slice(&(number as u32).to_le_bytes());
}

/// Copies the result to the front of `out`, or refuses (28) if it is longer.
pub(crate) fn deliver(made: &[u8], out: &mut [u8]) -> Result<usize, Refusal> {
    match out.get_mut(..made.len()) {
        None => Err(refusal(28)),
        Some(front) => {
            front.copy_from_slice(made);
            Ok(made.len())
        }
    }
}

/// Whether PSV0 data is in plain form: reader 3 accepts it, S is an edition's
/// size, the records have the writer's sizes (where there are records), and
/// nothing follows the last section.
pub fn plain(data: &[u8]) -> bool {
    let Ok(opening) = open_psv0(data, NEWEST) else {
        return false;
    };
    let edition = opening.file_edition;
    let layout = opening.layout;
    layout.runtime_size == EDITION_SIZES[edition]
        && (layout.resource_size.is_none() || layout.resource_size == Some(resource_size(edition)))
        && (layout.element_size.is_none() || layout.element_size == Some(LEAST_RECORD))
        && layout.end == data.len()
}
