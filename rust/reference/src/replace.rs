//! Replacing the PSV0 data of a container.

use crate::table::HEADER;
use crate::{find, open, open_psv0, plain, refusal, Places, Refusal, LONGEST, NEWEST};

/// The container with `new` as its PSV0 data, and the record of its opening at the same
/// edition. `room` is the length of the output that is lent for the result. Request 11:
/// it "keeps every byte outside it but the sizes and offsets, and moves what follows", so
/// digest, gaps and what follows the last part stay, and nothing is aligned again.
///
/// Refusals in order: those of opening the bytes (25, 1 to 24); those of reader 3 on the
/// new data (2, 12 to 24); 27 where these aren't in plain form; 2 where the result would
/// be too long; 28 where it is longer than the room.
pub fn replace_psv0(
    bytes: &[u8],
    edition: usize,
    new: &[u8],
    room: usize,
) -> Result<(Vec<u8>, Places), Refusal> {
    let parts = open(bytes, edition)?.parts;
    open_psv0(new, NEWEST)?;
    if !plain(new) {
        return Err(refusal(27));
    }

    // An accepted container has one PSV0 part, as that name may not repeat.
    let i = find(&parts, *b"PSV0").ok_or(refusal(11))?;
    let old = parts[i];
    // The old data lie inside the bytes, and neither length is above 2^24.
    let length = bytes.len() - old.size + new.len();
    if length > LONGEST {
        return Err(refusal(2));
    }
    if length > room {
        return Err(refusal(28));
    }

    let mut made = Vec::with_capacity(length);
    made.extend_from_slice(&bytes[..old.data_at()]);
    made.extend_from_slice(new);
    made.extend_from_slice(&bytes[old.end()..]);
    // All the fields that follow stand before the new data, where nothing has moved.
    set_number(&mut made, 24, length);
    set_number(&mut made, old.offset + 4, new.len());
    for (k, part) in parts.iter().enumerate().skip(i + 1) {
        // It starts at or after the old data's end.
        set_number(&mut made, HEADER + 4 * k, part.offset - old.size + new.len());
    }

    // What reader 3 accepts every older one does (demand 3), so this refuses nothing.
    let places = open(&made, edition)?.places;
    Ok((made, places))
}

/// Overwrites a number of four bytes; the numbers here are at most 2^24.
fn set_number(made: &mut [u8], at: usize, number: usize) {
    made[at..at + 4].copy_from_slice(&(number as u32).to_le_bytes());
}
