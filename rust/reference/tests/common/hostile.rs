//! Builders for containers such as the small program meets, right and wrong.

use super::*;
use reference::{may_repeat, open, open_psv0, table, KNOWN, MOST_PARTS, NEWEST};

/// Every number that edition 1 gives for at most 65,536 bytes.
pub const NUMBERS: [u8; 22] =
    [1, 3, 4, 5, 6, 7, 8, 9, 10, 11, 12, 13, 14, 15, 16, 17, 18, 19, 20, 21, 22, 23];

/// A container's parts, in order.
pub type Parts = Vec<([u8; 4], Vec<u8>)>;

/// A container that every edition accepts.
pub fn good(random: &mut Random) -> Vec<u8> {
    let data = good_psv0(random).bytes();
    let parts = around(random, data);
    laid_out(random, &parts)
}

/// A container that edition 3 refuses for its entry name and edition 1 accepts.
pub fn bad_entry_name(random: &mut Random) -> Vec<u8> {
    loop {
        let mut psv0 = good_psv0(random);
        if psv0.runtime.len() < 52 {
            continue;
        }
        let length = psv0.strings.len();
        let offset = match random.below(12) {
            // The table's end, and past it.
            0..=2 => length,
            3 => length + 1 + random.below(300),
            4 => u32::MAX as usize - random.below(5),
            // Inside the table by the lower bytes alone.
            5 => random.below(length + 1) + random.pick(&[1 << 8, 1 << 16, 1 << 24, 1 << 31]),
            // No zero at the end of the table.
            6 if length > 0 => {
                let from = random.below(length);
                psv0.strings[from..].fill(b'x');
                from + random.below(length - from)
            }
            // No table at all.
            7 => {
                psv0.strings.clear();
                0
            }
            // A string that isn't well formed.
            _ => ill_formed_place(random, &mut psv0.strings),
        };
        put4(&mut psv0.runtime, 48, offset as u32);
        let data = psv0.bytes();
        // An element's name may have gone with the end of the table.
        if answer(open_psv0(&data, 3)) == refused(24, 0) && open_psv0(&data, 1).is_ok() {
            let parts = around(random, data);
            return laid_out(random, &parts);
        }
    }
}

/// A container that edition 1 refuses with the number.
pub fn aimed(random: &mut Random, number: u8) -> Vec<u8> {
    // What is spoilt may be right by chance, or something else be wrong before.
    for _ in 0..1000 {
        let psv0 = good_psv0(random);
        let data = if number < 12 { psv0.bytes() } else { bad_psv0(random, psv0, number) };
        let mut parts = around(random, data);
        spoil_parts(random, &mut parts, number);
        let mut bytes = laid_out(random, &parts);
        if number < 9 {
            spoil_table(random, &mut bytes, number);
        }
        if open(&bytes, 1).is_err_and(|refusal| refusal.number == number) {
            return bytes;
        }
    }
    panic!("{number} can't be reached");
}

/// A container with several faults, with a few bytes changed, or both.
pub fn anyhow(random: &mut Random) -> Vec<u8> {
    let mut bytes = match random.below(4) {
        0 => good(random),
        1 => bad_entry_name(random),
        _ => {
            let number = random.pick(&NUMBERS);
            aimed(random, number)
        }
    };
    damage(random, &mut bytes);
    damage(random, &mut bytes);
    bytes
}

/// The container with more bytes at its end, at times as data of its last part.
pub fn stretched(random: &mut Random, mut bytes: Vec<u8>, length: usize) -> Vec<u8> {
    let last = *table(&bytes).expect("its table is right").last().expect("it has parts");
    assert!(bytes.len() < length);
    let more = length - bytes.len();
    bytes.extend(random.bytes(more));
    put4(&mut bytes, 24, length as u32);
    if random.one_in(2) {
        put4(&mut bytes, last.offset + 4, (length - last.offset - 8) as u32);
    }
    bytes
}

/// PSV0 data that every edition accepts.
pub fn good_psv0(random: &mut Random) -> Psv0 {
    loop {
        let mut psv0 = match random.below(12) {
            0 => box_m(),
            1 => box_c(),
            2 => hull(),
            3 => {
                let (n, i, rows, _) = random.pick(&INDEX_EDGES);
                with_reference(n, random.below(5), i, rows)
            }
            4 => large(random),
            _ => made(random),
        };
        if random.one_in(8) {
            let more = 4 * random.below(20);
            psv0.runtime.extend(random.bytes(more));
        }
        if !psv0.elements.is_empty() && random.one_in(8) {
            psv0 = psv0.wider_elements(psv0.element_size as usize + 4 * random.below(5));
        }
        // Some of these are bad, and a longer runtime record has more fields.
        let data = psv0.bytes();
        if (0..=NEWEST).all(|edition| open_psv0(&data, edition).is_ok()) {
            return psv0;
        }
    }
}

/// Long tables: many strings, numbers, elements and mask words.
fn large(random: &mut Random) -> Psv0 {
    let mut psv0 = Psv0::of_size(random.pick(&[36, 48, 52, 56]));
    psv0.runtime[24..28].copy_from_slice(&[random.pick(&[2, 3, 4, 13]), 1, 40, 3]);
    for at in 28..31 {
        psv0.runtime[at] = random.pick(&[0, 100, 255]);
    }
    psv0.runtime[31..33].copy_from_slice(&[random.pick(&[1, 31, 32]), random.pick(&[8, 9, 128])]);
    let records = random.pick(&[0, 1, 100]);
    psv0.resources = random.bytes(24 * records);
    let length = 4 * (1 + random.below(1000));
    psv0.strings = strings(random, length, b"abcXYZ_9");
    let good = good_places(&psv0.strings);
    let count = random.below(1000);
    psv0.indices = (0..count).map(|_| random.next() as u32).collect();
    let elements: usize = psv0.runtime[28..31].iter().map(|n| usize::from(*n)).sum();
    for _ in 0..elements {
        let i = random.below(count + 1);
        let rows = random.below((count - i).min(255) + 1) as u8;
        let name = random.pick(&good) as u32;
        psv0.elements.extend(element(name, i as u32, [rows, 0, 0x41, 0, 3, 2, 0, 0]));
    }
    psv0.masks = random.bytes(4 * mask_total(&psv0.runtime));
    psv0
}

/// Names that print as others do, or nearly as a known one.
const NEAR: [[u8; 4]; 14] = [
    *b"priv",
    *b"PRI\0",
    *b"dxil",
    *b"psv0",
    *b"PSV1",
    *b"DXI\0",
    *b"????",
    *b"    ",
    *b"\0\0\0\0",
    *b"\xff\xff\xff\xff",
    *b"A\nB\n",
    *b"!~\x20\x7f",
    *b"\x80SV0",
    *b"0VSP",
];

/// DXIL and PSV0, and other parts of all sorts among them.
pub fn around(random: &mut Random, psv0: Vec<u8>) -> Parts {
    let length = 1 + random.below(30);
    let code = if random.one_in(2) { dxil(5, b"bitcode") } else { random.bytes(length) };
    let mut parts: Parts = vec![(*b"DXIL", code), (*b"PSV0", psv0)];
    let more = match random.below(24) {
        0..=3 => 0,
        4..=21 => random.below(9),
        22 => random.below(MOST_PARTS - 1),
        _ => MOST_PARTS - 2,
    };
    let private = match random.below(40) {
        0..=29 => 0,
        30..=38 => 2 + random.below(5),
        _ => MOST_PARTS - 2,
    };
    add_private_parts(random, &mut parts, private);
    let more = more.min(MOST_PARTS - parts.len());
    add_parts(random, &mut parts, more);
    parts
}

/// So many private parts more, each at any place.
fn add_private_parts(random: &mut Random, parts: &mut Parts, more: usize) {
    for _ in 0..more {
        add_part(random, parts, *b"PRIV");
    }
}

/// A part more at any place.
fn add_part(random: &mut Random, parts: &mut Parts, name: [u8; 4]) {
    let length = random.pick(&[0, 0, 1, 3, 4, 8, 21]);
    let at = random.below(parts.len() + 1);
    parts.insert(at, (name, random.bytes(length)));
}

/// So many parts more, each at any place.
fn add_parts(random: &mut Random, parts: &mut Parts, more: usize) {
    let all = parts.len() + more;
    while parts.len() < all {
        let name = match random.below(4) {
            0 => random.pick(&KNOWN),
            1 => random.pick(&NEAR),
            2 => [b'P', b'0' + random.below(10) as u8, random.pick(b"abcXYZ_!~"), b'.'],
            _ => {
                let any = random.bytes(4);
                [any[0], any[1], any[2], any[3]]
            }
        };
        if may_repeat(name) || parts.iter().all(|part| part.0 != name) {
            add_part(random, parts, name);
        }
    }
}

/// The container of these parts, half of the time with gaps.
pub fn laid_out(random: &mut Random, parts: &Parts) -> Vec<u8> {
    let parts: Vec<(&[u8; 4], &[u8])> =
        parts.iter().map(|(name, data)| (name, &data[..])).collect();
    let gaps = random.one_in(2);
    spread(&parts, || {
        let length = if gaps { random.pick(&[0, 0, 0, 1, 2, 3, 4, 13]) } else { 0 };
        random.bytes(length)
    })
}

/// 6 and 9 to 11, where there is something to spoil.
fn spoil_parts(random: &mut Random, parts: &mut Parts, number: u8) {
    let find = |name: &[u8; 4]| parts.iter().position(|part| part.0 == *name).expect("it is there");
    match number {
        6 => {
            let more = MOST_PARTS + 1 - parts.len();
            add_parts(random, parts, more);
        }
        9 => {
            let room = MOST_PARTS.saturating_sub(parts.len() + 1);
            let private = random.pick(&[0, 0, 2, 3]).min(room);
            add_private_parts(random, parts, private);
            let (from, to) = (random.below(parts.len()), random.below(parts.len()));
            parts[to].0 = parts[from].0;
            if from == to || random.one_in(3) {
                let at = random.below(parts.len() + 1);
                parts.insert(at, parts[from].clone());
            }
        }
        10 if random.one_in(2) => {
            let i = find(b"DXIL");
            parts[i].1.clear();
        }
        10 | 11 => {
            let i = find(if number == 10 { b"DXIL" } else { b"PSV0" });
            if random.one_in(2) {
                parts.remove(i);
            } else {
                // One bit of the name.
                parts[i].0[random.below(4)] ^= 1 << random.below(8);
            }
        }
        _ => (),
    }
}

/// 1 and 3 to 8, in a container that is right.
fn spoil_table(random: &mut Random, bytes: &mut Vec<u8>, number: u8) {
    let count = u32::from_le_bytes([bytes[28], bytes[29], bytes[30], bytes[31]]) as usize;
    let length = bytes.len();
    match number {
        1 => bytes.truncate(random.pick(&[0, 1, 4, 24, 28, 30, 31, 31])),
        3 => bytes[random.below(4)] ^= 1 << random.below(8),
        4 => bytes[20 + random.below(4)] ^= 1 << random.below(8),
        5 => match random.below(3) {
            0 => bytes.truncate(32 + random.below(length - 32)),
            1 => bytes.extend_from_slice(&[0; 3][..1 + random.below(3)]),
            _ => {
                let wrong = [0, 32, length - 1, length + 1, length | 1 << 16, length | 1 << 31];
                put4(bytes, 24, random.pick(&wrong) as u32);
            }
        },
        6 if random.one_in(3) => {
            let wrong = [97, 98, 256, 1 << 30, 1 << 31, u32::MAX];
            put4(bytes, 28, random.pick(&wrong));
        }
        7 => {
            // The table is cut, or more parts are stated than have room.
            let stated = if random.one_in(2) { count } else { MOST_PARTS };
            put4(bytes, 28, stated as u32);
            bytes.truncate(32 + random.below(4 * stated));
            let length = bytes.len() as u32;
            put4(bytes, 24, length);
        }
        8 => {
            let parts = table(bytes).expect("it is right");
            // At times several parts: the first counts.
            for _ in 0..random.pick(&[1, 1, 2, 3]) {
                spoil_part(random, bytes, &parts);
            }
        }
        _ => (),
    }
}

/// 8: one of the parts too early or too long.
fn spoil_part(random: &mut Random, bytes: &mut [u8], parts: &[Part]) {
    let length = bytes.len();
    let i = random.below(parts.len());
    let (start, size) = (parts[i].offset, parts[i].size);
    let (at, size_at) = (32 + 4 * i, start + 4);
    let left = length - start - 8;
    match random.below(8) {
        // Inside the table or the part before.
        0 => put4(bytes, at, random.below(32 + 4 * parts.len()) as u32),
        1 => put4(bytes, at, (start - 1 - random.below(8)) as u32),
        2 if i > 0 => put4(bytes, at, parts[i - 1].offset as u32),
        // The header past the end.
        3 => put4(bytes, at, (length - random.below(8)) as u32),
        4 => put4(bytes, at, u32::MAX - random.below(16) as u32),
        // The data past the end, at times by a sum that wraps.
        5 => put4(bytes, size_at, (left + 1 + random.below(3)) as u32),
        6 => put4(bytes, size_at, u32::MAX - random.below(start + 16) as u32),
        // The data past the start of the next.
        _ => put4(bytes, size_at, (size + 1 + random.below(40)) as u32),
    }
}

/// 12 to 23: the data of the PSV0 part, most likely with that fault.
fn bad_psv0(random: &mut Random, mut psv0: Psv0, number: u8) -> Vec<u8> {
    // A fault of the later sections needs some; the next one may have them.
    if number >= 15 && psv0.runtime.len() < 36 {
        return psv0.bytes();
    }
    // Where the sections start: each number from 12 to 14 and 18 to 21 is what a
    // cut inside one of them gives.
    let starts = [
        0,
        4,
        4 + psv0.runtime.len(),
        psv0.strings_at(),
        psv0.indices_at(),
        psv0.elements_at(),
        psv0.bytes().len() - psv0.after.len() - psv0.masks.len(),
        psv0.bytes().len() - psv0.after.len(),
    ];
    let section = match number {
        12..=14 => Some(usize::from(number) - 12),
        18..=21 => Some(usize::from(number) - 15),
        _ => None,
    };
    if let Some(section) = section {
        let (start, end) = (starts[section], starts[section + 1]);
        if start < end && random.one_in(3) {
            let mut data = psv0.bytes();
            data.truncate(start + random.below(end - start));
            return data;
        }
    }

    let elements = psv0.elements.len() / psv0.element_size as usize;
    match number {
        15 => psv0.runtime[24] = 16 + random.below(240) as u8,
        16 => psv0.runtime[25] = 2 + random.below(254) as u8,
        17 => {
            psv0.runtime[24] = random.pick(&[0, 1, 3, 4, 5, 13, 15]);
            psv0.runtime[33 + random.below(3)] = 1 + random.below(255) as u8;
        }
        21 => {
            let at = random.pick(&[26, 31, 32]);
            psv0.runtime[at] = psv0.runtime[at].saturating_add(1 + random.below(90) as u8);
        }
        22 | 23 if elements > 0 && !random.one_in(6) => {
            // At times several, and the other reference too: the first counts.
            for _ in 0..=random.below(3) {
                let at = random.below(elements) * psv0.element_size as usize;
                if (number == 22) != random.one_in(6) {
                    if random.one_in(2) {
                        let place = ill_formed_place(random, &mut psv0.strings) as u32;
                        put4(&mut psv0.elements, at, place);
                        continue;
                    }
                    let length = psv0.strings.len() as u32;
                    let wrong = [length, length + 1, length | 1 << 16, 1 << 31, u32::MAX];
                    put4(&mut psv0.elements, at, random.pick(&wrong));
                } else {
                    let (_, i, rows, _) = random.pick(&INDEX_EDGES);
                    put4(&mut psv0.elements, at + 4, i);
                    psv0.elements[at + 8] = rows;
                }
            }
        }
        23 => {
            let (n, i, rows, _) = random.pick(&INDEX_EDGES);
            return with_reference(n, random.below(5), i, rows).bytes();
        }
        _ => (),
    }

    let mut data = psv0.bytes();
    let length = data.len() as u32;
    // Sizes that no record has, and counts whose product with 4 or 16 is past the
    // end or wraps.
    let sizes = [0, 1, 4, 12, 15, 17, 18, 22, 25, 1 << 31 | 17, u32::MAX];
    let vast = [length, length | 1 << 16, 1 << 28, 1 << 30, 1 << 31, u32::MAX];
    match number {
        12 => put4(&mut data, 0, random.pick(&[0, 4, 20, 22, 23, 25, 26, 27, 53, 54, u32::MAX])),
        13 => put4(&mut data, 0, random.pick(&[length, length + 4, 1 << 31, u32::MAX]) / 4 * 4),
        14 if psv0.resources.is_empty() || random.one_in(2) => {
            put4(&mut data, starts[2], random.pick(&vast));
        }
        14 => put4(&mut data, starts[2] + 4, random.pick(&sizes)),
        18 if random.one_in(2) => put4(&mut data, starts[3], random.pick(&vast) / 4 * 4),
        18 => put4(&mut data, starts[3], psv0.strings.len() as u32 + random.pick(&[1, 2, 3])),
        19 => put4(&mut data, starts[4], random.pick(&vast)),
        20 if elements > 0 => put4(&mut data, starts[5], random.pick(&sizes)),
        _ => (),
    }
    data
}
