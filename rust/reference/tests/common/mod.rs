//! Builders for containers, PSV0 data and settings files, right and wrong, and a
//! small generator of repeatable numbers.
#![allow(dead_code)]

pub mod hostile;
pub mod settings;

use reference::{Part, Refusal, Text};
use std::ops::RangeInclusive;
use std::path::PathBuf;

/// A refusal as the tests write it.
pub fn refused<T>(number: u8, place: usize) -> Result<T, Refusal> {
    Err(Refusal { number, place })
}

/// Only the refusal of an answer, for comparing answers whose values can't be.
pub fn answer<T>(result: Result<T, Refusal>) -> Result<(), Refusal> {
    result.map(|_| ())
}

/// The bytes as a lookup gives them; the code points are the standard library's.
pub fn text(bytes: &[u8]) -> Text<'_> {
    let points = std::str::from_utf8(bytes).expect("they are well formed").chars().count();
    Text { bytes, points }
}

pub fn put4(bytes: &mut [u8], at: usize, number: u32) {
    bytes[at..at + 4].copy_from_slice(&number.to_le_bytes());
}

pub fn words(numbers: &[u32]) -> Vec<u8> {
    numbers.iter().flat_map(|number| number.to_le_bytes()).collect()
}

/// A container with its parts one after another, nothing between them.
pub fn container(parts: &[(&[u8; 4], &[u8])]) -> Vec<u8> {
    spread(parts, Vec::new)
}

/// The same with gaps: `gap` gives the bytes before each part in turn, then
/// those after the last.
pub fn spread(parts: &[(&[u8; 4], &[u8])], mut gap: impl FnMut() -> Vec<u8>) -> Vec<u8> {
    let start = 32 + 4 * parts.len();
    let mut offsets = Vec::new();
    let mut body = Vec::new();
    for (name, data) in parts {
        body.extend(gap());
        offsets.push((start + body.len()) as u32);
        body.extend_from_slice(*name);
        body.extend_from_slice(&(data.len() as u32).to_le_bytes());
        body.extend_from_slice(data);
    }
    body.extend(gap());
    let mut bytes = Vec::new();
    bytes.extend_from_slice(b"DXBC");
    bytes.extend_from_slice(&[0xd1; 16]);
    bytes.extend_from_slice(&[1, 0, 0, 0]);
    bytes.extend_from_slice(&((start + body.len()) as u32).to_le_bytes());
    bytes.extend_from_slice(&(parts.len() as u32).to_le_bytes());
    bytes.extend_from_slice(&words(&offsets));
    bytes.extend_from_slice(&body);
    bytes
}

/// The same with so many gap bytes before each part, and so many after the last.
pub fn gapped(parts: &[(usize, &[u8; 4], &[u8])], after: usize) -> Vec<u8> {
    let listed: Vec<(&[u8; 4], &[u8])> =
        parts.iter().map(|(_, name, data)| (*name, *data)).collect();
    let mut gaps = parts.iter().map(|(gap, _, _)| *gap).chain([after]);
    spread(&listed, || vec![0xee; gaps.next().expect("one for each part, and one")])
}

/// An entry of the part table.
pub fn part(name: &[u8; 4], offset: usize, size: usize, occurrence: u64, gap: usize) -> Part {
    Part { name: *name, offset, size, occurrence, gap }
}

/// A DXIL part of four bytes and the PSV0 data.
pub fn shader(psv0: &[u8]) -> Vec<u8> {
    container(&[(b"DXIL", b"code"), (b"PSV0", psv0)])
}

/// DXIL data: version 6.5, bitcode version 1.7, the bitcode right after the
/// headers.
pub fn dxil(stage: u16, bitcode: &[u8]) -> Vec<u8> {
    let mut data = vec![0x65, 0];
    data.extend_from_slice(&stage.to_le_bytes());
    data.extend_from_slice(&words(&[(24 + bitcode.len()).div_ceil(4) as u32]));
    data.extend_from_slice(b"DXIL");
    data.extend_from_slice(&[7, 1, 0, 0]);
    data.extend_from_slice(&words(&[16, bitcode.len() as u32]));
    data.extend_from_slice(bitcode);
    data
}

/// PSV0 data in pieces. Sections 3 to 6 are written when the runtime record
/// has them, that is from 36 bytes on.
#[derive(Clone, Debug, Default)]
pub struct Psv0 {
    pub runtime: Vec<u8>,
    pub resource_size: u32,
    pub resources: Vec<u8>,
    pub strings: Vec<u8>,
    pub indices: Vec<u32>,
    pub element_size: u32,
    pub elements: Vec<u8>,
    pub masks: Vec<u8>,
    pub after: Vec<u8>,
}

impl Psv0 {
    /// All zeros but the sizes of records.
    pub fn of_size(size: usize) -> Psv0 {
        Psv0 { runtime: vec![0; size], resource_size: 24, element_size: 16, ..Psv0::default() }
    }

    pub fn bytes(&self) -> Vec<u8> {
        let mut bytes = words(&[self.runtime.len() as u32]);
        bytes.extend_from_slice(&self.runtime);
        let count = self.resources.len() / self.resource_size as usize;
        bytes.extend_from_slice(&words(&[count as u32]));
        if count > 0 {
            bytes.extend_from_slice(&words(&[self.resource_size]));
            bytes.extend_from_slice(&self.resources);
        }
        if self.runtime.len() >= 36 {
            bytes.extend_from_slice(&words(&[self.strings.len() as u32]));
            bytes.extend_from_slice(&self.strings);
            bytes.extend_from_slice(&words(&[self.indices.len() as u32]));
            bytes.extend_from_slice(&words(&self.indices));
            if !self.elements.is_empty() {
                bytes.extend_from_slice(&words(&[self.element_size]));
                bytes.extend_from_slice(&self.elements);
            }
            bytes.extend_from_slice(&self.masks);
        }
        bytes.extend_from_slice(&self.after);
        bytes
    }

    /// The same with element records of `size` bytes, the added ones 0xcc.
    pub fn wider_elements(&self, size: usize) -> Psv0 {
        let mut psv0 = self.clone();
        psv0.elements.clear();
        for record in self.elements.chunks(self.element_size as usize) {
            psv0.elements.extend_from_slice(record);
            psv0.elements.resize(psv0.elements.len() + size - record.len(), 0xcc);
        }
        psv0.element_size = size as u32;
        psv0
    }

    /// Where the string table's length stands.
    pub fn strings_at(&self) -> usize {
        let resources = if self.resources.is_empty() { 0 } else { 4 + self.resources.len() };
        4 + self.runtime.len() + 4 + resources
    }

    /// Where the index table's count stands.
    pub fn indices_at(&self) -> usize {
        self.strings_at() + 4 + self.strings.len()
    }

    /// Where the elements' record size stands, or else the masks.
    pub fn elements_at(&self) -> usize {
        self.indices_at() + 4 + 4 * self.indices.len()
    }
}

/// The box M: PSV0 data of edition 0 without resources.
pub fn box_m() -> Psv0 {
    Psv0::of_size(24)
}

/// The box C: a compute shader of edition 3 with an entry name.
pub fn box_c() -> Psv0 {
    let mut psv0 = Psv0::of_size(52);
    psv0.runtime[24] = 5;
    psv0.runtime[48] = 1;
    psv0.strings = b"\0main\0\0\0".to_vec();
    psv0
}

/// An element record of 16 bytes.
pub fn element(name: u32, indices: u32, bytes: [u8; 8]) -> Vec<u8> {
    let mut record = words(&[name, indices]);
    record.extend_from_slice(&bytes);
    record
}

/// A hull shader of edition 3 that has something in every section: resources
/// of 24 bytes, three elements, masks 0, 4, 5 and 9. In plain form.
pub fn hull() -> Psv0 {
    let mut psv0 = Psv0::of_size(52);
    for at in 0..16 {
        psv0.runtime[at] = 0xa0 + at as u8;
    }
    put4(&mut psv0.runtime, 16, 4);
    put4(&mut psv0.runtime, 20, 0xffff_ffff);
    // Stage 3, view id, p = 9 and a byte that only a mesh shader has; one
    // element of each list; u = 3; v0 = 9.
    psv0.runtime[24..36].copy_from_slice(&[3, 1, 9, 0x77, 1, 1, 1, 3, 9, 0, 0, 0]);
    put4(&mut psv0.runtime, 36, 64);
    put4(&mut psv0.runtime, 48, 1);
    psv0.resources = words(&[1, 2, 3, 4, 5, 6, 10, 20, 30, 40, 50, 60]);
    psv0.strings = b"\0main\0POS\0B\0\0".to_vec();
    psv0.strings.resize(16, 0);
    // The first and the last array share 73; the second is empty, at the end.
    psv0.indices = vec![70, 71, 72, 73, 74, 75];
    psv0.elements = element(6, 1, [3, 2, 0xe3, 4, 5, 6, 0xff, 7]);
    psv0.elements.extend(element(10, 6, [0, 0, 0x14, 0, 0, 0, 0x21, 0]));
    psv0.elements.extend(element(0, 3, [3, 255, 255, 255, 255, 255, 255, 255]));
    // w(9) = 2 words for masks 0 and 4, 2 * 3 * 4 = 24 for masks 5 and 9.
    psv0.masks = (0..4 * (2 + 2 + 24 + 24)).map(|i| i as u8).collect();
    psv0
}

/// Index references at the edges of the rule: N, i, rows, and whether i + rows
/// is at most N.
pub const INDEX_EDGES: [(u32, u32, u8, bool); 47] = [
    // No number in the table.
    (0, 0, 0, true),
    (0, 1, 0, false),
    (0, 0, 1, false),
    (0, u32::MAX, 0, false),
    (0, u32::MAX, 1, false),
    // One, as in real shaders.
    (1, 0, 1, true),
    (1, 0, 2, false),
    (1, 1, 1, false),
    (1, 1, 0, true),
    (1, 2, 0, false),
    // The sum N, then N + 1.
    (6, 0, 6, true),
    (6, 0, 7, false),
    (6, 1, 5, true),
    (6, 1, 6, false),
    (6, 3, 3, true),
    (6, 3, 4, false),
    (6, 5, 1, true),
    (6, 5, 2, false),
    (6, 6, 1, false),
    // Rows 0: i inside, N, then N + 1.
    (6, 0, 0, true),
    (6, 5, 0, true),
    (6, 6, 0, true),
    (6, 7, 0, false),
    // The most rows.
    (254, 0, 255, false),
    (255, 0, 255, true),
    (255, 1, 255, false),
    (300, 45, 255, true),
    (300, 46, 255, false),
    // References above one byte.
    (300, 256, 44, true),
    (300, 256, 45, false),
    (300, 299, 1, true),
    (300, 300, 0, true),
    (300, 300, 1, false),
    (300, 301, 0, false),
    // Sums just below 2^32, and such as wrap at 32 bits to 0, 1, 6 and 254.
    (6, u32::MAX, 0, false),
    (6, u32::MAX - 255, 255, false),
    (6, u32::MAX, 1, false),
    (6, u32::MAX - 254, 255, false),
    (6, u32::MAX, 2, false),
    (6, u32::MAX, 7, false),
    (300, u32::MAX, 255, false),
    // References whose bytes, at 4i, wrap into the table.
    (6, 1 << 30, 0, false),
    (6, 1 << 30, 1, false),
    (6, (1 << 30) + 6, 0, false),
    (6, 1 << 31, 6, false),
    (6, 3 << 30, 1, false),
    (6, u32::MAX / 2, 0, false),
];

/// Five elements, two inputs, two outputs and one more. Number `place` has the
/// reference and rows, the others as much of the table as they can. No number
/// of the table is small enough for a count or a place in it.
pub fn with_reference(n: u32, place: usize, i: u32, rows: u8) -> Psv0 {
    let mut psv0 = Psv0::of_size(52);
    psv0.runtime[28..31].copy_from_slice(&[2, 2, 1]);
    psv0.strings = vec![0; 4];
    psv0.indices = (0..n).map(|k| 0x9000_0000 + k).collect();
    for e in 0..5 {
        let (i, rows) = if e == place { (i, rows) } else { (0, n.min(255) as u8) };
        psv0.elements.extend(element(0, i, [rows, 255, 255, 255, 255, 255, 255, 255]));
    }
    psv0
}

/// What the elements of `with_reference` show, where the reference is good.
pub fn arrays_of(n: u32, place: usize, i: u32, rows: u8) -> Vec<Vec<u32>> {
    let first = 0x9000_0000;
    let whole: Vec<u32> = (first..first + n.min(255)).collect();
    let mut arrays = vec![whole; 5];
    arrays[place] = (first + i..first + i + u32::from(rows)).collect();
    arrays
}

const TAIL: RangeInclusive<u8> = 0x80..=0xbf;

/// The table of well-formed UTF-8 byte sequences once more.
pub const ROWS: [&[RangeInclusive<u8>]; 9] = [
    &[0x00..=0x7f],
    &[0xc2..=0xdf, TAIL],
    &[0xe0..=0xe0, 0xa0..=0xbf, TAIL],
    &[0xe1..=0xec, TAIL, TAIL],
    &[0xed..=0xed, 0x80..=0x9f, TAIL],
    &[0xee..=0xef, TAIL, TAIL],
    &[0xf0..=0xf0, 0x90..=0xbf, TAIL, TAIL],
    &[0xf1..=0xf3, TAIL, TAIL, TAIL],
    &[0xf4..=0xf4, 0x80..=0x8f, TAIL, TAIL],
];

/// Strings that aren't well formed, alone and with others around them.
pub const ILL_FORMED: [&[u8]; 36] = [
    // A byte that continues, with nothing before it.
    b"\x80",
    b"\xbf",
    b"a\x80",
    b"\xc3\xa9\xa9",
    b"\xe2\x82\xac\x80",
    b"\xf0\x9d\x84\x9e\x9e",
    // Bytes that no row has.
    b"\xc0",
    b"\xc1",
    b"\xf5",
    b"\xf8\x88\x80\x80\x80",
    b"\xfc\x84\x80\x80\x80\x80",
    b"\xfe",
    b"\xff",
    b"\xf5\x80\x80\x80",
    // Sequences cut before the zero, and before another.
    b"\xc3",
    b"\xe2",
    b"\xe2\x82",
    b"\xf0",
    b"\xf0\x9d",
    b"\xf0\x9d\x84",
    b"main\xc3",
    b"\xc3a",
    b"\xe2\x82a",
    b"\xf0\x9d\x84\xc3\xa9",
    // Overlong: U+0000, U+002F, U+007F, U+07FF and U+FFFF in more bytes.
    b"\xc0\x80",
    b"\xc0\xaf",
    b"\xc1\xbf",
    b"\xe0\x80\xaf",
    b"\xe0\x9f\xbf",
    b"\xf0\x8f\xbf\xbf",
    // Surrogates: U+D800, U+DFFF, and a pair as in CESU-8.
    b"\xed\xa0\x80",
    b"\xed\xbf\xbf",
    b"\xed\xa0\xb4\xed\xb4\x9e",
    // Above U+10FFFF.
    b"\xf4\x90\x80\x80",
    b"\xf4\xbf\xbf\xbf",
    // As UTF-16 has it.
    b"\xff\xfeA",
];

/// Repeatable numbers (xorshift with a multiplication at the end).
pub struct Random(pub u64);

impl Random {
    pub fn next(&mut self) -> u64 {
        self.0 ^= self.0 >> 12;
        self.0 ^= self.0 << 25;
        self.0 ^= self.0 >> 27;
        self.0.wrapping_mul(0x2545_f491_4f6c_dd1d)
    }

    pub fn below(&mut self, bound: usize) -> usize {
        (self.next() >> 16) as usize % bound
    }

    pub fn one_in(&mut self, bound: usize) -> bool {
        self.below(bound) == 0
    }

    pub fn bytes(&mut self, count: usize) -> Vec<u8> {
        (0..count).map(|_| self.below(256) as u8).collect()
    }

    pub fn pick<T: Copy>(&mut self, from: &[T]) -> T {
        from[self.below(from.len())]
    }
}

/// A byte that the range has, mostly one of its ends.
fn byte_of(random: &mut Random, range: &RangeInclusive<u8>) -> u8 {
    let any = range.start() + random.below(range.len()) as u8;
    random.pick(&[*range.start(), *range.end(), any])
}

/// A sequence of some row but the first.
pub fn multibyte(random: &mut Random) -> Vec<u8> {
    let row = random.pick(&ROWS[1..]);
    row.iter().map(|range| byte_of(random, range)).collect()
}

/// Strings of so many bytes with a zero at their end: letters, zeros and sequences
/// of several bytes, and at times something that isn't well formed.
pub fn strings(random: &mut Random, length: usize, letters: &[u8]) -> Vec<u8> {
    let mut strings = Vec::new();
    while strings.len() < length {
        match random.below(24) {
            0 => strings.extend_from_slice(random.pick(&ILL_FORMED)),
            1..=5 => strings.extend(multibyte(random)),
            6..=9 => strings.push(0),
            _ => strings.push(random.pick(letters)),
        }
    }
    strings.truncate(length);
    if let Some(last) = strings.last_mut() {
        *last = 0;
    }
    strings
}

/// The places that a good reference may have, by the standard library.
pub fn good_places(strings: &[u8]) -> Vec<usize> {
    let good = |o: &usize| {
        let length = strings[*o..].iter().position(|byte| *byte == 0);
        length.is_some_and(|length| std::str::from_utf8(&strings[*o..o + length]).is_ok())
    };
    (0..strings.len()).filter(good).collect()
}

/// A place from which a string isn't well formed, at times one that is added.
pub fn ill_formed_place(random: &mut Random, strings: &mut Vec<u8>) -> usize {
    let last_zero = strings.iter().rposition(|byte| *byte == 0).unwrap_or(0);
    let good = good_places(strings);
    let bad: Vec<usize> = (0..last_zero).filter(|o| good.binary_search(o).is_err()).collect();
    if !bad.is_empty() && random.one_in(2) {
        return random.pick(&bad);
    }
    let at = strings.len();
    for _ in 0..random.below(4) {
        strings.extend_from_slice(random.pick(&[b"a", &b"main"[..], "\u{e9}".as_bytes()]));
    }
    strings.extend_from_slice(random.pick(&ILL_FORMED));
    strings.resize((strings.len() + 1).next_multiple_of(4), 0);
    at
}

/// PSV0 data that is mostly right.
pub fn made(random: &mut Random) -> Psv0 {
    let size = random.pick(&[24, 24, 28, 32, 36, 36, 40, 48, 48, 52, 52, 52, 56, 60]);
    let mut psv0 = Psv0::of_size(size);
    psv0.runtime = random.bytes(size);
    psv0.resource_size = random.pick(&[16, 16, 20, 24, 24, 28]);
    let count = random.pick(&[0, 0, 1, 2, 3]);
    psv0.resources = random.bytes(count * psv0.resource_size as usize);
    if size >= 36 {
        let stage = if random.one_in(60) { 16 } else { random.pick(&[1, 2, 3, 4, 5, 13, 14, 15]) };
        psv0.runtime[24] = stage;
        psv0.runtime[25] = if random.one_in(60) { 2 } else { random.below(2) as u8 };
        psv0.runtime[26] = random.pick(&[0, 1, 8, 9]);
        for at in 28..31 {
            psv0.runtime[at] = random.pick(&[0, 0, 1, 2]);
        }
        psv0.runtime[31] = random.pick(&[0, 1, 2]);
        psv0.runtime[32] = random.pick(&[0, 1, 8, 9]);
        for at in 33..36 {
            let some = stage == 2 || random.one_in(100);
            psv0.runtime[at] = if some { random.pick(&[0, 1, 9]) } else { 0 };
        }
        let length = 4 * random.pick(&[1, 2, 4, 8]);
        psv0.strings = strings(random, length, b"\0ab");
        if random.one_in(20) {
            psv0.strings[length - 1] = random.pick(b"ab\x80\xc3");
        }
        let good = good_places(&psv0.strings);
        // Mostly a good place, at times any, or the end of the table.
        let place = |random: &mut Random, odds: usize| match random.below(odds) {
            0 => length,
            1 | 2 => random.below(length),
            _ if good.is_empty() => 0,
            _ => random.pick(&good),
        };
        let count = random.pick(&[0, 1, 2, 6]);
        psv0.indices = (0..count).map(|_| random.pick(&[0, 1, 2, u32::MAX])).collect();
        let elements: usize = psv0.runtime[28..31].iter().map(|n| usize::from(*n)).sum();
        psv0.element_size = random.pick(&[16, 16, 16, 20, 32]);
        for _ in 0..elements {
            let mut record = words(&[place(random, 60) as u32]);
            // Any stretch of the table, at times one too far or one too long.
            let i = random.below(count + 1);
            let rows = random.below(count - i + 1) + usize::from(random.one_in(24));
            record.extend(words(&[(i + usize::from(random.one_in(24))) as u32]));
            record.push(rows as u8);
            record.extend(random.bytes(psv0.element_size as usize - 9));
            psv0.elements.extend(record);
        }
        psv0.masks = random.bytes(4 * mask_total(&psv0.runtime));
        if size >= 52 {
            let entry_name = place(random, 40) as u32;
            put4(&mut psv0.runtime, 48, entry_name);
        }
    }
    if random.one_in(4) {
        let length = random.below(9);
        psv0.after = random.bytes(length);
    }
    psv0
}

/// The words of all masks, counted once more.
pub fn mask_total(runtime: &[u8]) -> usize {
    let byte = |at: usize| usize::from(runtime[at]);
    let w = |vectors: usize| vectors.div_ceil(8);
    let stage = byte(24);
    let p = if [3, 4, 13].contains(&stage) { byte(26) } else { 0 };
    let u = byte(31);
    let outputs: usize = (32..36).map(|at| w(byte(at))).sum();
    let view = byte(25) == 1;
    let mut total = outputs * u * 4;
    total += if view { outputs } else { 0 };
    total += if view && (stage == 3 || stage == 13) { w(p) } else { 0 };
    total += if stage == 3 { w(p) * u * 4 } else { 0 };
    total += if stage == 4 { w(byte(32)) * p * 4 } else { 0 };
    total
}

/// Damage of one of several kinds, or none.
pub fn damage(random: &mut Random, bytes: &mut Vec<u8>) {
    let kind = random.below(8);
    if bytes.is_empty() || kind > 4 {
        return;
    }
    for _ in 0..=random.below(3) {
        let at = random.below(bytes.len());
        match kind {
            0 => bytes[at] = random.below(256) as u8,
            1 => bytes[at] ^= 1 << random.below(8),
            2 => {
                let at = at / 4 * 4;
                if at + 4 <= bytes.len() {
                    let numbers = [0, 1, 4, 16, 24, 97, 1 << 31, u32::MAX, u32::MAX - 3];
                    put4(bytes, at, random.pick(&numbers));
                }
            }
            3 => bytes.truncate(at.max(1)),
            _ => bytes.push(random.below(256) as u8),
        }
    }
    // Mostly the size field is mended, so that 5 doesn't hide all else.
    if bytes.len() >= 32 && !random.one_in(10) {
        let length = bytes.len() as u32;
        put4(bytes, 24, length);
    }
}

/// The words of an example that writes files: a directory, which is made, and how
/// many (`default` where it isn't said). None, and a line, where they are others.
pub fn directory_and_count(example: &str, default: usize) -> Option<(PathBuf, usize)> {
    let mut words = std::env::args_os().skip(1);
    let directory = words.next().map(PathBuf::from);
    let count = match words.next() {
        None => Some(default),
        Some(count) => count.to_str().and_then(|count| count.parse().ok()),
    };
    let (Some(directory), Some(count), None) = (directory, count, words.next()) else {
        println!("usage: {example} DIRECTORY [COUNT]");
        return None;
    };
    std::fs::create_dir_all(&directory).expect("the directory can be made");
    Some((directory, count))
}
