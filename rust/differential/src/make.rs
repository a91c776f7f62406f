//! Containers, PSV0, DXIL, signature and root signature data, made at random: right ones, ones with a flaw in one place, and damaged bytes.

use reference::SignaturePart;

use crate::random::Random;
use crate::strings::Sections;
use crate::{repeats, text};

pub const SIZES: [usize; 4] = [24, 36, 48, 52];

pub fn get4(bytes: &[u8], at: usize) -> u32 {
    u32::from_le_bytes(bytes[at..at + 4].try_into().unwrap())
}

pub fn put4(bytes: &mut [u8], at: usize, number: u32) {
    bytes[at..at + 4].copy_from_slice(&number.to_le_bytes());
}

fn push4(bytes: &mut Vec<u8>, number: usize) {
    bytes.extend_from_slice(&(number as u32).to_le_bytes());
}

/// The file's edition for a runtime record of `size` bytes.
pub fn edition_of(size: usize) -> usize {
    SIZES.iter().rposition(|least| *least <= size).unwrap_or(0)
}

/// PSV0 data in pieces. Sections 3 to 6 are there where the runtime record has 36 bytes or more.
#[derive(Clone, Debug)]
pub struct Pieces {
    pub runtime: Vec<u8>,
    pub resource_size: usize,
    pub resources: Vec<u8>,
    pub strings: Vec<u8>,
    pub indices: Vec<u8>,
    pub element_size: usize,
    pub elements: Vec<u8>,
    pub masks: Vec<u8>,
    pub after: Vec<u8>,
}

/// The number of mask words that a runtime record of edition 1 or more calls for.
pub fn mask_words(runtime: &[u8]) -> usize {
    let w = |v: u8| usize::from(v).div_ceil(8);
    let stage = runtime[24];
    let p = if [3, 4, 13].contains(&stage) { runtime[26] } else { 0 };
    let u = usize::from(runtime[31]);
    let v = &runtime[32..36];
    let mut words: usize = v.iter().map(|v| w(*v) * u * 4).sum();
    if runtime[25] == 1 {
        words += v.iter().map(|v| w(*v)).sum::<usize>();
        if stage == 3 || stage == 13 {
            words += w(p);
        }
    }
    if stage == 3 {
        words += w(p) * u * 4;
    }
    if stage == 4 {
        words += w(v[0]) * usize::from(p) * 4;
    }
    words
}

/// A count: mostly few, now and then many.
fn count(random: &mut Random, few: usize, many: usize) -> usize {
    match random.below(200) {
        0 => random.below(many + 1),
        1 => many,
        2..=60 => 0,
        _ => random.below(few + 1),
    }
}

impl Pieces {
    /// PSV0 data that every reader accepts.
    pub fn valid(random: &mut Random) -> Pieces {
        let size = random.pick(&[24, 24, 28, 32, 36, 36, 40, 44, 48, 48, 52, 52, 52, 52, 56, 60, 100]);
        Pieces::valid_of(random, size)
    }

    pub fn valid_of(random: &mut Random, size: usize) -> Pieces {
        let mut runtime = random.bytes(size);
        let mut pieces = Pieces {
            runtime: Vec::new(),
            resource_size: random.pick(&[16, 16, 20, 24, 24, 24, 28, 36]),
            resources: Vec::new(),
            strings: Vec::new(),
            indices: Vec::new(),
            element_size: random.pick(&[16, 16, 16, 20, 24, 40]),
            elements: Vec::new(),
            masks: Vec::new(),
            after: Vec::new(),
        };
        let resources = count(random, 3, 60);
        pieces.resources = random.bytes(resources * pieces.resource_size);
        if random.one_in(4) {
            let after = random.below(40);
            pieces.after = random.bytes(after);
        }
        if size < 36 {
            pieces.runtime = runtime;
            return pieces;
        }

        // Stages with rules of their own come more often; vectors are few, or the masks would be all there is.
        let stage = random.pick(&[0, 1, 2, 2, 2, 3, 3, 3, 4, 4, 4, 5, 5, 6, 7, 8, 9, 10, 11, 12, 13, 13, 13, 14, 15]);
        runtime[24] = stage;
        runtime[25] = random.below(2) as u8;
        if !random.one_in(100) {
            runtime[26] = random.pick(&[0, 1, 7, 8, 9, 16, 17, 31]);
        }
        for elements in &mut runtime[28..31] {
            *elements = count(random, 3, 255) as u8;
        }
        runtime[31] = count(random, 3, 255) as u8;
        for (stream, vectors) in runtime[32..36].iter_mut().enumerate() {
            let some = match random.below(300) {
                0 => 255,
                1..=100 => 0,
                _ => random.pick(&[1, 7, 8, 9, 16, 17, 30]),
            };
            *vectors = if stream == 0 || stage == 2 { some } else { 0 };
        }

        let elements: usize = runtime[28..31].iter().map(|count| usize::from(*count)).sum();
        // Strings, with a last zero where one is needed.
        let words = count(random, 6, 300).max(usize::from(elements > 0 || size >= 52));
        pieces.strings = strings(random, 4 * words);
        if words > 0 && pieces.strings.iter().all(|byte| *byte != 0) {
            let at = random.below(4 * words);
            pieces.strings[at] = 0;
        }
        // Numbers, some of them small enough to be taken for counts.
        for _ in 0..count(random, 12, 600) {
            let number = if random.one_in(2) { random.below(6) } else { random.next() as usize };
            push4(&mut pieces.indices, number);
        }
        for _ in 0..elements {
            let mut record = random.bytes(pieces.element_size);
            let name = pieces.good_string(random);
            put4(&mut record, 0, name);
            let (index, rows) = pieces.good_index(random);
            put4(&mut record, 4, index);
            record[8] = rows;
            pieces.elements.extend_from_slice(&record);
        }
        if size >= 52 {
            let name = pieces.good_string(random);
            put4(&mut runtime, 48, name);
        }
        pieces.masks = random.bytes(4 * mask_words(&runtime));
        pieces.runtime = runtime;
        pieces
    }

    /// PSV0 data in plain form.
    pub fn plain(random: &mut Random) -> Pieces {
        let edition = random.below(4);
        let mut pieces = Pieces::valid_of(random, SIZES[edition]);
        let size = if edition < 2 { 16 } else { 24 };
        pieces.resources = pieces.stretched(&pieces.resources, pieces.resource_size, size, random);
        pieces.resource_size = size;
        pieces.elements = pieces.stretched(&pieces.elements, pieces.element_size, 16, random);
        pieces.element_size = 16;
        pieces.after.clear();
        pieces
    }

    fn good_string(&self, random: &mut Random) -> u32 {
        let last = last_zero(&self.strings);
        text::good_place(random, &self.strings, last) as u32
    }

    /// PSV0 data in plain form around strings: elements that refer to them, of edition 3 where there is an entry name. Now and then an index
    /// reference isn't good.
    pub fn around(random: &mut Random, strings: &[u8], names: &[usize], entry: Option<usize>) -> Pieces {
        let edition = if entry.is_some() { 3 } else { 1 + random.below(2) };
        let mut runtime = random.bytes(SIZES[edition]);
        // No vectors, so no masks.
        runtime[24..36].fill(0);
        runtime[24] = random.below(16) as u8;
        runtime[25] = random.below(2) as u8;
        let list = random.below(3);
        for i in 0..names.len() {
            runtime[28 + (list + i) % 3] += 1;
        }
        if let Some(at) = entry {
            put4(&mut runtime, 48, at as u32);
        }
        let mut pieces = Pieces {
            runtime,
            resource_size: 24,
            resources: Vec::new(),
            strings: strings.to_vec(),
            indices: Vec::new(),
            element_size: 16,
            elements: Vec::new(),
            masks: Vec::new(),
            after: Vec::new(),
        };
        let count = random.below(4);
        pieces.indices = random.bytes(4 * count);
        for name in names {
            let mut record = random.bytes(16);
            put4(&mut record, 0, *name as u32);
            let (index, rows) = pieces.good_index(random);
            put4(&mut record, 4, index + if random.one_in(12) { 5 } else { 0 });
            record[8] = rows;
            pieces.elements.extend_from_slice(&record);
        }
        pieces
    }

    /// The same with longer elements.
    pub fn widened(&self, random: &mut Random) -> Pieces {
        let mut wide = self.clone();
        wide.element_size = random.pick(&[16, 20, 24, 28, 40]);
        wide.elements = self.stretched(&self.elements, self.element_size, wide.element_size, random);
        wide
    }

    /// What the strings are judged by.
    pub fn judged(&self) -> Sections<'_> {
        Sections {
            runtime: &self.runtime,
            strings: &self.strings,
            indices: &self.indices,
            elements: &self.elements,
            size: self.element_size,
        }
    }

    /// A good index reference and its rows, often up to the end of the table.
    fn good_index(&self, random: &mut Random) -> (u32, u8) {
        let n = self.indices.len() / 4;
        let rows = random.pick(&[0, 0, 1, 1, 2, 3, 255]).min(n);
        let last = n - rows;
        let index = if random.one_in(3) { last } else { random.below(last + 1) };
        (index as u32, rows as u8)
    }

    /// Records of another size, cut or with random bytes added.
    pub fn stretched(&self, records: &[u8], from: usize, to: usize, random: &mut Random) -> Vec<u8> {
        let mut made = Vec::new();
        for record in records.chunks_exact(from) {
            made.extend_from_slice(&record[..from.min(to)]);
            made.extend_from_slice(&random.bytes(to.saturating_sub(from)));
        }
        made
    }

    /// The bytes, and where each number that rules over others stands.
    pub fn bytes(&self) -> (Vec<u8>, Vec<usize>) {
        let mut bytes = Vec::new();
        let mut fields = vec![0];
        push4(&mut bytes, self.runtime.len());
        bytes.extend_from_slice(&self.runtime);
        fields.push(bytes.len());
        push4(&mut bytes, self.resources.len() / self.resource_size);
        if !self.resources.is_empty() {
            fields.push(bytes.len());
            push4(&mut bytes, self.resource_size);
            bytes.extend_from_slice(&self.resources);
        }
        if self.runtime.len() >= 36 {
            fields.extend([28, 32, 36]);
            fields.push(bytes.len());
            push4(&mut bytes, self.strings.len());
            bytes.extend_from_slice(&self.strings);
            fields.push(bytes.len());
            push4(&mut bytes, self.indices.len() / 4);
            bytes.extend_from_slice(&self.indices);
            if !self.elements.is_empty() {
                fields.push(bytes.len());
                push4(&mut bytes, self.element_size);
                for record in self.elements.chunks_exact(self.element_size) {
                    fields.push(bytes.len());
                    fields.push(bytes.len() + 4);
                    fields.push(bytes.len() + 8);
                    bytes.extend_from_slice(record);
                }
            }
            bytes.extend_from_slice(&self.masks);
        }
        if self.runtime.len() >= 52 {
            fields.push(52);
        }
        bytes.extend_from_slice(&self.after);
        (bytes, fields)
    }

    /// The sections as the writer takes them.
    pub fn sections(&self) -> [&[u8]; 6] {
        [&self.runtime, &self.resources, &self.strings, &self.indices, &self.elements, &self.masks]
    }

    /// Breaks one rule that the bytes of a section can break, keeping lengths in agreement.
    pub fn flaw(&mut self, random: &mut Random) {
        let later = self.runtime.len() >= 36;
        let elements = self.elements.len() / self.element_size;
        match random.below(13) {
            0 if later => self.runtime[24] = random.pick(&[16, 17, 128, 255]),
            1 if later => self.runtime[25] = random.pick(&[2, 3, 128, 255]),
            2 if later => {
                if self.runtime[24] == 2 {
                    self.runtime[24] = random.pick(&[0, 1, 3, 4, 13]);
                }
                self.runtime[33 + random.below(3)] = random.pick(&[1, 8, 9]);
            }
            3 if self.runtime.len() >= 52 => {
                let o = self.bad_string(random);
                put4(&mut self.runtime, 48, o);
            }
            4 | 5 if elements > 0 => {
                let o = self.bad_string(random);
                let at = random.below(elements) * self.element_size;
                put4(&mut self.elements, at, o);
            }
            6 | 7 if elements > 0 => {
                let n = (self.indices.len() / 4) as u32;
                let rows = random.pick(&[0, 0, 1, 2, 255]);
                // One past the last good reference, then others further on; with the last of them the sum with the rows is 2^32.
                let past = (n + 1).saturating_sub(rows);
                let i = random.pick(&[past, past, n + 1, u32::MAX, u32::MAX - 255, rows.max(1).wrapping_neg()]);
                let at = random.below(elements) * self.element_size;
                put4(&mut self.elements, at + 4, i);
                self.elements[at + 8] = rows as u8;
            }
            // Rows to the end of the table, to one past it, or as many as there can be.
            8 if elements > 0 => {
                let at = random.below(elements) * self.element_size;
                let left = (self.indices.len() / 4).saturating_sub(get4(&self.elements, at + 4) as usize);
                self.elements[at + 8] = random.pick(&[left, left + 1, 255]).min(255) as u8;
            }
            9 if !self.strings.is_empty() => {
                let from = random.below(self.strings.len());
                self.strings[from..].iter_mut().for_each(|byte| *byte |= 1);
            }
            // Text with a fault, which some names may have, or none; often at a name's start.
            10..=12 if !self.strings.is_empty() => {
                let mut from = random.below(self.strings.len());
                if elements > 0 && random.one_in(2) {
                    from = get4(&self.elements, random.below(elements) * self.element_size) as usize;
                }
                if let Some(strings) = self.strings.get_mut(from..) {
                    let end = strings.len().min(1 + random.below(16));
                    text::spoil(random, &mut strings[..end]);
                }
            }
            _ => return,
        }
        if later {
            self.masks.resize(4 * mask_words(&self.runtime), 0x5a);
        }
    }

    fn bad_string(&self, random: &mut Random) -> u32 {
        let t = self.strings.len() as u32;
        let after = self.strings.iter().rposition(|byte| *byte == 0).map_or(0, |zero| zero as u32 + 1);
        random.pick(&[t, t, after, t + 1, t + 4, u32::MAX, 0x8000_0000])
    }
}

/// Strings and zeros: of letters, or of text.
fn strings(random: &mut Random, len: usize) -> Vec<u8> {
    if random.one_in(2) {
        return random.bytes(len).into_iter().map(|byte| if byte < 70 { 0 } else { b'A' + byte % 26 }).collect();
    }
    let mut strings = Vec::new();
    while strings.len() < len {
        let word = random.below(12).min(len - strings.len());
        strings.extend(text::text(random, word));
        strings.push(0);
    }
    strings.truncate(len);
    strings
}

/// DXIL data, never empty: mostly with a program header, whose stage is often the one given, and bitcode that ends with the data or near
/// their end; now and then a few bytes of junk.
pub fn dxil(random: &mut Random, stage: u8) -> Vec<u8> {
    if random.one_in(4) {
        let len = 1 + random.below(8);
        return random.bytes(len);
    }
    let len = if random.one_in(6) { random.pick(&[20, 22, 23, 23, 24, 24, 25]) } else { 24 + random.below(40) };
    let mut data = random.bytes(len.max(24));
    // The stage given, ones that differ from it in one of their two bytes, any other.
    let (stage, any) = (u16::from(stage), random.next() as u16);
    let stage = random.pick(&[stage, stage, stage, stage ^ 1, stage + 256, any & 0xff00 | stage, any & 15, any]);
    data[2..4].copy_from_slice(&stage.to_le_bytes());
    data[8..12].copy_from_slice(b"DXIL");
    if random.one_in(12) {
        data[8 + random.below(4)] ^= 1 << random.below(8);
    }
    // With `left` for its size the bitcode ends with the data or, where the offset is past them, 2^32 bytes after that.
    let room = data.len() as u32 - 8;
    let offset = match random.below(12) {
        0 => random.pick(&[room, room + 1, u32::MAX, u32::MAX - 7, u32::MAX - 15, 1 << 31]),
        1 | 2 => random.below(room as usize + 1) as u32,
        3 => random.below(16) as u32,
        _ => 16,
    };
    let left = room.wrapping_sub(offset);
    let size = match random.below(12) {
        0 => random.pick(&[0, u32::MAX, u32::MAX - 7, 1 << 31, offset.wrapping_neg(), offset.wrapping_neg().wrapping_sub(8)]),
        1 => left.wrapping_add(1),
        2 => left.wrapping_sub(1),
        3 => random.below(len) as u32,
        _ => left,
    };
    put4(&mut data, 16, offset);
    put4(&mut data, 20, size);
    data.truncate(len);
    data
}

/// A few letters or some text, or none.
pub fn word(random: &mut Random) -> Vec<u8> {
    let len = random.below(5);
    if random.one_in(3) {
        return text::text(random, 2 * len);
    }
    random.bytes(len).iter().map(|byte| b'A' + byte % 26).collect()
}

/// A name that is nearly the one given.
fn other(random: &mut Random, name: &[u8]) -> Vec<u8> {
    let mut other = name.to_vec();
    match random.below(6) {
        0 => {
            other.pop();
        }
        1 => other.push(b'Z'),
        2 => other.clear(),
        3 if !name.is_empty() => other[random.below(name.len())] ^= 1,
        4 if !name.is_empty() => {
            // Another of as many code points.
            let chars = std::str::from_utf8(name).map_or(0, |text| text.chars().count());
            other = "\u{e9}".repeat(chars).into_bytes();
        }
        _ => other = word(random),
    }
    // Up to the first byte that is no text.
    let end = std::str::from_utf8(&other).map_or_else(|fault| fault.valid_up_to(), str::len);
    other.truncate(end);
    other
}

/// Right signature data beside the names in a list of PSV0, and where the ruling numbers stand. Mostly each element has the name beside it,
/// or none, but for one.
pub fn signature(random: &mut Random, beside: &[Vec<u8>]) -> (Vec<u8>, Vec<usize>) {
    let count = match random.below(8) {
        0 => random.below(6),
        1 => beside.len() + 1 + random.below(3),
        2 => random.below(beside.len() + 1),
        _ => beside.len(),
    };
    let odd = random.below(2 * count + 1);
    let names: Vec<Option<Vec<u8>>> = (0..count)
        .map(|i| match beside.get(i) {
            _ if random.one_in(6) => None,
            Some(name) if i != odd => Some(name.clone()),
            Some(name) => Some(other(random, name)),
            None if random.one_in(2) => None,
            None => Some(word(random)),
        })
        .collect();

    // The strings stand after the elements or before them; the same one may serve several.
    let gap = if random.one_in(4) { random.below(9) } else { 0 };
    let start = 8 + gap;
    let behind = !random.one_in(3);
    let at = if behind { start + 32 * count } else { start };
    let mut strings: Vec<u8> = Vec::new();
    let mut offsets = Vec::new();
    for name in names {
        offsets.push(name.map_or(0, |mut name| {
            name.push(0);
            let known = strings.windows(name.len()).position(|string| string == name);
            let place = known.filter(|_| !random.one_in(3)).unwrap_or(strings.len());
            if place == strings.len() {
                strings.extend_from_slice(&name);
            }
            at + place
        }));
    }
    if random.one_in(3) {
        let more = random.below(5);
        strings.extend(random.bytes(more).iter().map(|byte| byte | 1));
    }
    let first = if behind { start } else { start + strings.len() };
    let mut data = vec![0; 8];
    data.extend_from_slice(&random.bytes(gap));
    let elements = random.bytes(32 * count);
    data.extend_from_slice(if behind { &elements } else { &strings });
    data.extend_from_slice(if behind { &strings } else { &elements });
    put4(&mut data, 0, count as u32);
    put4(&mut data, 4, first as u32);
    let mut fields = vec![0, 4];
    for (i, offset) in offsets.into_iter().enumerate() {
        fields.push(first + 32 * i + 4);
        put4(&mut data, first + 32 * i + 4, offset as u32);
    }
    // A name may stand anywhere up to the last zero.
    let last = last_zero(&data);
    if count > 0 && random.one_in(4) {
        let own = first + 32 * random.below(count);
        let place = if random.one_in(2) { last } else { inner_place(random, &mut data, first, count) };
        put4(&mut data, own + 4, place.min(last) as u32);
        if !text::good(&data, place.min(last)) {
            put4(&mut data, own + 4, last as u32);
        }
    }
    (data, fields)
}

/// A place for a name in the header or in the elements, some of whose bytes are made text.
fn inner_place(random: &mut Random, data: &mut [u8], first: usize, count: usize) -> usize {
    if random.one_in(3) {
        return 1 + random.below(7);
    }
    let place = first + random.below(32 * count);
    let within = (place - first) % 32;
    if within >= 8 {
        // Up to the next element, its stream or the low byte of its name offset.
        let room = (32 - within + random.pick(&[0, 0, 4])).min(first + 32 * count - place);
        let len = random.below(room + 1);
        let text = text::text(random, len);
        data[place..place + len].copy_from_slice(&text);
        if len < 32 - within {
            data[place + len] = 0;
        }
    }
    place
}

fn last_zero(data: &[u8]) -> usize {
    data.iter().rposition(|byte| *byte == 0).unwrap_or(0)
}

/// Makes a table signature data: a header, and elements whose names stand at the given places.
pub fn signature_around(random: &mut Random, table: &mut [u8], first: usize, names: &[usize]) {
    put4(table, 0, names.len() as u32);
    put4(table, 4, first as u32);
    let plain = random.one_in(2);
    for (i, name) in names.iter().enumerate() {
        let own = first + 32 * i;
        table[own..own + 32].copy_from_slice(&random.bytes(32));
        if plain {
            table[own..own + 32].iter_mut().for_each(|byte| *byte &= 0x7f);
        }
        put4(table, own + 4, *name as u32);
    }
}

/// Brings records of `size` bytes, whose count and offset stand at two places, to the end of the data or past it.
fn list_flaw(random: &mut Random, data: &mut [u8], [count_at, offset_at]: [usize; 2], size: u32) {
    let len = data.len() as u32;
    let (count, first) = (get4(data, count_at), get4(data, offset_at));
    let records = size.wrapping_mul(count);
    match random.below(7) {
        // The records end with the data or one byte past them.
        0 => put4(data, offset_at, len.wrapping_sub(records).wrapping_add(random.below(2) as u32)),
        1 => {
            put4(data, count_at, 0);
            put4(data, offset_at, len + random.below(2) as u32);
        }
        2 => {
            let most = u32::MAX / size;
            put4(data, count_at, random.pick(&[count.wrapping_add(1), len.wrapping_sub(first) / size + 1, most, most + 1, u32::MAX]));
        }
        // size x count at 2^32 or past it, with the offset as it was or one from which 32 bits would come to the end of the data.
        3 | 4 => {
            // For this count, and for each multiple of it, 32 bits come to 0.
            let whole = 1_u32 << (32 - size.trailing_zeros());
            let counts =
                [whole, whole + 1, whole.wrapping_add(count), (2 * whole).wrapping_add(count), count.wrapping_sub(whole), u32::MAX];
            let count = random.pick(&counts);
            put4(data, count_at, count);
            if random.one_in(2) {
                put4(data, offset_at, len.wrapping_sub(count.wrapping_mul(size)).wrapping_sub(random.below(3) as u32));
            }
        }
        // An offset near 2^32.
        5 => put4(data, offset_at, (random.below(len as usize + 2) as u32).wrapping_sub(records)),
        _ => put4(data, offset_at, random.pick(&[u32::MAX, size.wrapping_neg(), 1 << 31, len, len + 1, 0, 4])),
    }
}

/// Breaks a rule of right signature data, or comes near it.
pub fn signature_flaw(random: &mut Random, data: &mut Vec<u8>) {
    let len = data.len() as u32;
    let (count, first) = (get4(data, 0), get4(data, 4));
    match random.below(16) {
        0 => data.truncate(random.below(9)),
        1..=7 => list_flaw(random, data, [0, 4], 32),
        8 => {
            let from = random.below(data.len() - 7) + 8;
            data[from..].iter_mut().for_each(|byte| *byte |= 1);
        }
        9..=11 if count > 0 => {
            let after = last_zero(data) as u32 + 1;
            for _ in 0..1 + random.below(2) {
                let i = one_of(random, count);
                let name = random.pick(&[after, after, len, len, len + 1, u32::MAX, 1 << 31]);
                put4(data, (first + 32 * i) as usize + 4, name);
            }
        }
        // A fault at a name's start, or a name anywhere.
        12.. if count > 0 => {
            for _ in 0..1 + random.below(2) {
                let own = (first + 32 * one_of(random, count)) as usize + 4;
                let name = get4(data, own) as usize;
                if name < 8 || random.one_in(3) {
                    let any = 1 + random.below(data.len()) as u32;
                    put4(data, own, any);
                } else if let Some(names) = data.get_mut(name..) {
                    let end = names.len().min(1 + random.below(8));
                    text::spoil(random, &mut names[..end]);
                }
            }
        }
        _ => (),
    }
}

/// The first, a middle, the last or any of `count` records.
fn one_of(random: &mut Random, count: u32) -> u32 {
    let any = random.below(count as usize) as u32;
    random.pick(&[0, count / 2, count - 1, any])
}

/// The size of a root signature's header, of a parameter and of a static sampler.
pub const ROOT_HEADER: usize = 24;
pub const PARAMETER: usize = 12;
pub const SAMPLER: usize = 52;

/// The size of the data of a parameter of a type.
pub fn data_size(version: usize, kind: usize) -> usize {
    match kind {
        0 => 8,
        1 => 12,
        _ => 4 + 4 * version,
    }
}

pub fn range_size(version: usize) -> usize {
    16 + 4 * version
}

/// The numbers below `count` in any order.
pub fn order(random: &mut Random, count: usize) -> Vec<usize> {
    let mut order = Vec::new();
    for i in 0..count {
        order.insert(random.below(i + 1), i);
    }
    order
}

/// Places for stretches of the given lengths after `start`, in any order, and their end.
fn spread(random: &mut Random, start: usize, lengths: &[usize]) -> (Vec<usize>, usize) {
    let mut places = vec![0; lengths.len()];
    let mut end = start;
    for i in order(random, lengths.len()) {
        if random.one_in(8) {
            end += random.below(9);
        }
        places[i] = end;
        end += lengths[i];
    }
    (places, end)
}

/// The bits of a float, often of one that some reader would change: a NaN of either kind, an infinity, -0, a subnormal number.
fn float(random: &mut Random) -> u32 {
    let any = random.next() as u32;
    let sign = any & 1 << 31;
    match random.below(8) {
        0 => sign,
        1 => sign | 0x7f80_0000,
        2 => any | 0x7fc0_0000,
        3 => any & !0x0040_0000 | 0x7f80_0001,
        4 => any & !0x7f80_0000 | 1,
        5 => sign | random.pick(&[0.25_f32, 1.0, f32::MAX]).to_bits(),
        _ => any,
    }
}

/// Right root signature data, and where the ruling numbers stand. Lists, parameters' data and ranges stand anywhere; some are shared.
pub fn root(random: &mut Random) -> (Vec<u8>, Vec<usize>) {
    let version = 1 + random.below(2);
    let (parameters, samplers) = (count(random, 4, 40), count(random, 3, 20));
    let types: Vec<usize> = (0..parameters).map(|_| random.pick(&[0, 0, 0, 1, 2, 3, 4])).collect();
    let ranges: Vec<usize> = types.iter().map(|kind| if *kind == 0 { count(random, 3, 12) } else { 0 }).collect();
    let mut lengths = vec![PARAMETER * parameters, SAMPLER * samplers];
    lengths.extend(types.iter().map(|kind| data_size(version, *kind)));
    lengths.extend(ranges.iter().map(|ranges| range_size(version) * ranges));
    let (places, mut end) = spread(random, ROOT_HEADER, &lengths);
    if random.one_in(4) {
        end += random.below(9);
    }

    let mut data = random.bytes(end);
    for (i, number) in [version, parameters, places[0], samplers, places[1]].into_iter().enumerate() {
        put4(&mut data, 4 * i, number as u32);
    }
    let (mut fields, mut offsets) = (vec![0, 4, 8, 12, 16], vec![8, 16]);
    for (i, kind) in types.into_iter().enumerate() {
        let (own, at, first) = (places[0] + PARAMETER * i, places[2 + i], places[2 + parameters + i]);
        put4(&mut data, own, kind as u32);
        put4(&mut data, own + 8, at as u32);
        fields.extend([own, own + 8]);
        offsets.push(own + 8);
        if kind == 0 {
            put4(&mut data, at, ranges[i] as u32);
            put4(&mut data, at + 4, first as u32);
            fields.extend([at, at + 4]);
            offsets.push(at + 4);
        }
        // Ranges that follow the one before them.
        for end in (1..=ranges[i]).map(|count| first + range_size(version) * count) {
            if random.one_in(4) {
                put4(&mut data, end - 4, u32::MAX);
            }
        }
    }
    for at in (0..samplers).map(|j| places[1] + SAMPLER * j) {
        for float_at in [16, 32, 36] {
            put4(&mut data, at + float_at, float(random));
        }
    }
    // Another's place or any other, where the data stay right.
    for _ in 0..random.below(4) {
        let at = random.pick(&offsets);
        let other = get4(&data, random.pick(&offsets));
        let places = [other, other, random.below(end + 1) as u32, random.below(ROOT_HEADER) as u32];
        let place = random.pick(&places);
        let before = get4(&data, at);
        put4(&mut data, at, place);
        if reference::root_signature(&data).is_err() {
            put4(&mut data, at, before);
        }
    }
    (data, fields)
}

/// Breaks a rule of right root signature data, or comes near it; now and then at several items.
pub fn root_flaw(random: &mut Random, data: &mut Vec<u8>) {
    let flaw = random.below(12);
    match flaw {
        0 => data.truncate(random.below(ROOT_HEADER + 1)),
        1 => put4(data, 0, random.pick(&[0, 3, 257, 258, 1 << 16 | 1, 2 << 24, u32::MAX])),
        _ => {
            for _ in 0..random.below(2) + usize::from(flaw >= 6) {
                parameter_flaw(random, data);
            }
            if flaw < 6 {
                list_flaw(random, data, [4, 8], PARAMETER as u32);
            }
            if (4..8).contains(&flaw) {
                list_flaw(random, data, [12, 16], SAMPLER as u32);
            }
        }
    }
}

/// Brings a parameter's type, its data or its ranges to an edge or past it.
fn parameter_flaw(random: &mut Random, data: &mut [u8]) {
    let (version, count, len) = (get4(data, 0) as usize, get4(data, 4), data.len());
    if count == 0 {
        return;
    }
    let own = get4(data, 8) as usize + PARAMETER * one_of(random, count) as usize;
    // An earlier flaw may have struck the header.
    if own + PARAMETER > len || ![1, 2].contains(&version) {
        return;
    }
    match random.below(8) {
        // No type; its data may be outside too.
        0 | 1 => {
            put4(data, own, random.pick(&[5, 5, 6, 256, 258, 1 << 16, 1 << 31, u32::MAX]));
            if random.one_in(2) {
                put4(data, own + 8, random.pick(&[len as u32, u32::MAX]));
            }
        }
        // Data that end with the whole, one byte past it, or where 32 bits would take the end back inside.
        2..=4 => {
            let kind = random.below(5);
            let (size, some) = (data_size(version, kind), random.below(len + 1));
            let places =
                [len.wrapping_sub(size), len.wrapping_sub(size), (len + 1).wrapping_sub(size), some.wrapping_sub(size), len, 1 << 31];
            put4(data, own, kind as u32);
            put4(data, own + 8, random.pick(&places) as u32);
        }
        _ => {
            let at = get4(data, own + 8) as usize;
            if at + data_size(version, 0) <= len {
                put4(data, own, 0);
                list_flaw(random, data, [at, at + 4], range_size(version) as u32);
            }
        }
    }
}

/// The names in each of PSV0's lists.
fn listed(psv0: &[u8]) -> [Vec<Vec<u8>>; 3] {
    let opening = reference::open_psv0(psv0, 1);
    SignaturePart::ALL.map(|part| match &opening {
        Ok(opening) => part.list(&opening.runtime).filter_map(|i| opening.string(i).ok()).map(|name| name.bytes.to_vec()).collect(),
        Err(_) => Vec::new(),
    })
}

/// Data that are mostly right, now and then flawed or damaged.
fn flawed(random: &mut Random, flaw: fn(&mut Random, &mut Vec<u8>), right: impl FnOnce(&mut Random) -> (Vec<u8>, Vec<usize>)) -> Vec<u8> {
    let (mut data, fields) = right(random);
    match random.below(12) {
        0..=2 => flaw(random, &mut data),
        3 => damage(random, &mut data, &fields),
        _ => (),
    }
    data
}

/// The parts of a container, in order.
pub type Parts = Vec<([u8; 4], Vec<u8>)>;

/// Parts of which one is DXIL and one PSV0; of some several are PRIV.
pub fn parts(random: &mut Random, psv0: &[u8]) -> Parts {
    let others = match random.below(400) {
        0 => 94,
        1 => random.below(95),
        2..=200 => 0,
        _ => random.below(5),
    };
    let mut parts: Parts = Vec::new();
    for _ in 0..others {
        let mut name: [u8; 4] = if random.one_in(2) { random.pick(&reference::KNOWN) } else { (random.next() as u32).to_le_bytes() };
        while name == *b"DXIL" || name == *b"PSV0" || parts.iter().any(|part| part.0 == name) {
            name = (random.next() as u32).to_le_bytes();
        }
        let len = random.below(9);
        parts.push((name, random.bytes(len)));
    }
    // All of these, DXIL and PSV0 are at most 96.
    let mut more: Parts = Vec::new();
    if others <= 90 && random.one_in(3) {
        for (part, beside) in SignaturePart::ALL.into_iter().zip(listed(psv0)) {
            if random.one_in(2) {
                more.push((part.name(), flawed(random, signature_flaw, |random| signature(random, &beside))));
            }
        }
    }
    if others <= 90 && random.one_in(5) {
        more.push((*b"RTS0", flawed(random, root_flaw, root)));
    }
    for part in more {
        if parts.iter().all(|other| other.0 != part.0) {
            let at = random.below(parts.len() + 1);
            parts.insert(at, part);
        }
    }
    // PSV0's stage stands at byte 24 of the runtime record, from edition 1 on.
    let stage = psv0.get(28).copied().unwrap_or(0);
    let at = random.below(parts.len() + 1);
    parts.insert(at, (*b"DXIL", dxil(random, stage)));
    let at = if random.one_in(2) { parts.len() } else { random.below(parts.len() + 1) };
    parts.insert(at, (*b"PSV0", psv0.to_vec()));
    if random.one_in(4) {
        repeats::scatter(random, &mut parts);
    }
    parts
}

/// A container, with gaps and bytes at its end now and then, and where its ruling numbers stand.
pub fn container(random: &mut Random, parts: &[([u8; 4], Vec<u8>)]) -> (Vec<u8>, Vec<usize>) {
    spaced(random, parts, |random| if random.one_in(6) { random.below(9) } else { 0 })
}

/// The same with gaps of the lengths that are given, one by one; the bytes at the end are the last.
pub fn spaced(random: &mut Random, parts: &[([u8; 4], Vec<u8>)], gap: fn(&mut Random) -> usize) -> (Vec<u8>, Vec<usize>) {
    let mut bytes = b"DXBC".to_vec();
    bytes.extend_from_slice(&random.bytes(16));
    bytes.extend_from_slice(&[1, 0, 0, 0, 0, 0, 0, 0]);
    push4(&mut bytes, parts.len());
    let mut fields = vec![0, 20, 24, 28];
    bytes.resize(32 + 4 * parts.len(), 0);
    for (i, (name, data)) in parts.iter().enumerate() {
        let len = gap(random);
        fill(random, &mut bytes, len);
        let at = bytes.len();
        put4(&mut bytes, 32 + 4 * i, at as u32);
        fields.extend([32 + 4 * i, at, at + 4]);
        bytes.extend_from_slice(name);
        push4(&mut bytes, data.len());
        bytes.extend_from_slice(data);
    }
    let len = gap(random);
    fill(random, &mut bytes, len);
    let len = bytes.len() as u32;
    put4(&mut bytes, 24, len);
    (bytes, fields)
}

/// Adds the bytes of a gap: any, or ones that look like parts.
fn fill(random: &mut Random, bytes: &mut Vec<u8>, len: usize) {
    let end = bytes.len() + len;
    if random.one_in(4) {
        while bytes.len() < end {
            bytes.extend_from_slice(b"PRIV\0\0\0\0");
        }
        bytes.truncate(end);
    } else {
        bytes.extend_from_slice(&random.bytes(len));
    }
}

/// Changes bytes, words, ruling numbers or stretches in one or several places.
pub fn damage(random: &mut Random, bytes: &mut [u8], fields: &[usize]) {
    let times = if random.one_in(2) { 1 } else { 1 + random.below(6) };
    for _ in 0..times {
        if bytes.len() < 4 {
            return;
        }
        match random.below(8) {
            0 => {
                let at = random.below(bytes.len());
                bytes[at] = random.next() as u8;
            }
            1 => {
                let at = random.below(bytes.len());
                bytes[at] = random.pick(&[0, 1, 2, 15, 16, 127, 128, 255]);
            }
            2 => {
                let at = random.below(bytes.len());
                bytes[at] ^= 1 << random.below(8);
            }
            3 => {
                let at = random.below(bytes.len() / 4) * 4;
                edge(random, bytes, at);
            }
            4 => {
                let len = 1 + random.below(12.min(bytes.len()));
                let from = random.below(bytes.len() - len + 1);
                let to = random.below(bytes.len() - len + 1);
                bytes.copy_within(from..from + len, to);
            }
            _ => {
                let at = random.pick(fields);
                if at + 4 <= bytes.len() {
                    edge(random, bytes, at);
                }
            }
        }
    }
}

/// Sets a word to a number at the edge of something.
fn edge(random: &mut Random, bytes: &mut [u8], at: usize) {
    let old = get4(bytes, at);
    let len = bytes.len() as u32;
    let number = match random.below(12) {
        0 => old.wrapping_add(1),
        1 => old.wrapping_sub(1),
        2 => old.wrapping_add(4),
        3 => old.wrapping_sub(4),
        4 => len.wrapping_sub(random.below(16) as u32),
        5 => len.wrapping_sub(at as u32 + 4 + random.below(3) as u32),
        6 => u32::MAX - random.below(9) as u32,
        7 => random.pick(&[0x7fff_ffff, 0x8000_0000, 0x4000_0000, 0x1000_0000, 0x0100_0000]),
        8 => random.pick(&[0, 1, 3, 4, 8, 12, 15, 16, 17, 20, 24, 28, 36, 48, 52, 96, 97]),
        9 => random.next() as u32,
        10 => old ^ 1 << random.below(32),
        _ => random.below(64) as u32,
    };
    put4(bytes, at, number);
}

/// Cuts bytes off, or adds some.
pub fn resize(random: &mut Random, bytes: &mut Vec<u8>) {
    if random.one_in(3) {
        let more = 1 + random.below(12);
        bytes.extend_from_slice(&random.bytes(more));
    } else if random.one_in(2) {
        let less = 1 + random.below(12);
        bytes.truncate(bytes.len().saturating_sub(less));
    } else {
        let len = random.below(bytes.len() + 1);
        bytes.truncate(len);
    }
}

/// A right container around PSV0 data.
pub fn around(random: &mut Random, psv0: &[u8]) -> Vec<u8> {
    let parts = parts(random, psv0);
    container(random, &parts).0
}

/// Any bytes, of which some begin as a container does.
pub fn any_bytes(random: &mut Random) -> Vec<u8> {
    let len = random.below(160);
    let mut bytes = random.bytes(len);
    if random.one_in(2) && len >= 32 {
        bytes[..4].copy_from_slice(b"DXBC");
        bytes[20..24].copy_from_slice(&[1, 0, 0, 0]);
        put4(&mut bytes, 24, len as u32);
        put4(&mut bytes, 28, random.pick(&[0, 1, 2, 3, 96]));
    }
    bytes
}

/// Damaged, cut or lengthened PSV0 data.
pub fn damaged_psv0(random: &mut Random) -> Vec<u8> {
    let (mut psv0, fields) = Pieces::valid(random).bytes();
    if random.one_in(4) {
        resize(random, &mut psv0);
    } else {
        damage(random, &mut psv0, &fields);
    }
    psv0
}

/// A damaged container, of some of which a part has another's name, is gone or is empty.
pub fn damaged_container(random: &mut Random) -> Vec<u8> {
    let psv0 = Pieces::valid(random).bytes().0;
    let mut parts = parts(random, &psv0);
    match random.below(8) {
        0 => {
            let (from, to) = (random.below(parts.len()), random.below(parts.len()));
            parts[to].0 = parts[from].0;
        }
        1 => {
            let gone = random.below(parts.len());
            parts.remove(gone);
        }
        2 => {
            let gone = random.below(parts.len());
            parts[gone].1.clear();
        }
        _ => (),
    }
    let (mut bytes, fields) = container(random, &parts);
    if !random.one_in(4) {
        damage(random, &mut bytes, &fields);
    }
    bytes
}

/// A container that was cut or lengthened, with or without a size field that follows.
pub fn resized_container(random: &mut Random) -> Vec<u8> {
    let psv0 = Pieces::valid(random).bytes().0;
    let mut bytes = around(random, &psv0);
    resize(random, &mut bytes);
    if random.one_in(2) && bytes.len() >= 28 {
        let len = bytes.len() as u32;
        put4(&mut bytes, 24, len);
    }
    bytes
}
