//! Text, bytes that are nearly text, and tables in which one string is under test, made at random.

use crate::random::Random;

/// The Unicode Standard's table of well-formed UTF-8 byte sequences (3-7): of each row the first and the last value of each byte. A zero
/// ends a string, so the first row starts at 01.
pub const ROWS: [&[[u8; 2]]; 9] = [
    &[[0x01, 0x7f]],
    &[[0xc2, 0xdf], TAIL],
    &[[0xe0, 0xe0], [0xa0, 0xbf], TAIL],
    &[[0xe1, 0xec], TAIL, TAIL],
    &[[0xed, 0xed], [0x80, 0x9f], TAIL],
    &[[0xee, 0xef], TAIL, TAIL],
    &[[0xf0, 0xf0], [0x90, 0xbf], TAIL, TAIL],
    &[[0xf1, 0xf3], TAIL, TAIL, TAIL],
    &[[0xf4, 0xf4], [0x80, 0x8f], TAIL, TAIL],
];

const TAIL: [u8; 2] = [0x80, 0xbf];

/// The values at the ends of a range: one before it, its first, its last, one after it.
pub fn ends([first, last]: [u8; 2]) -> [u8; 4] {
    [first - 1, first, last, last + 1]
}

/// Whether a byte is one that follows a lead byte.
pub fn follows(byte: u8) -> bool {
    (TAIL[0]..=TAIL[1]).contains(&byte)
}

fn within(random: &mut Random, [first, last]: [u8; 2]) -> u8 {
    let any = first + random.below(usize::from(last - first) + 1) as u8;
    random.pick(&[first, last, any, any])
}

fn tail(random: &mut Random, len: usize) -> Vec<u8> {
    (0..len).map(|_| within(random, TAIL)).collect()
}

/// A sequence of a row.
fn of_row(random: &mut Random, row: usize) -> Vec<u8> {
    ROWS[row].iter().map(|range| within(random, *range)).collect()
}

/// A sequence of a row in which one byte is at an end of its range or one past it.
fn specimen(random: &mut Random, row: usize, byte: usize, end: usize) -> Vec<u8> {
    let mut made = of_row(random, row);
    made[byte] = ends(ROWS[row][byte])[end];
    made
}

/// A specimen of any row. One before the first row is the zero, which no string has.
fn any_specimen(random: &mut Random) -> Vec<u8> {
    let row = random.below(ROWS.len());
    let byte = random.below(ROWS[row].len());
    let end = if row == 0 { 1 + random.below(3) } else { random.below(4) };
    specimen(random, row, byte, end)
}

/// A well-formed sequence of some bytes, 1 to 4.
fn sequence(random: &mut Random, len: usize) -> Vec<u8> {
    let rows: &[usize] = match len {
        1 => &[0],
        2 => &[1],
        3 => &[2, 3, 4, 5],
        _ => &[6, 7, 8],
    };
    let row = random.pick(rows);
    of_row(random, row)
}

/// Well-formed text of so many bytes, without a zero: letters, sequences of one length, or a mixture.
pub fn text(random: &mut Random, len: usize) -> Vec<u8> {
    let lengths: &[usize] = random.pick(&[&[1][..], &[2], &[3], &[4], &[1, 2, 3, 4], &[1, 1, 1, 1, 1, 1, 1, 2], &[1, 4]]);
    let mut made = Vec::with_capacity(len);
    while made.len() < len {
        let next = random.pick(lengths).min(len - made.len());
        if next == 1 {
            made.push(b'A' + random.below(26) as u8);
        } else {
            made.extend(sequence(random, next));
        }
    }
    made
}

/// The start of a sequence, so many bytes of it.
fn cut(random: &mut Random, len: usize) -> Vec<u8> {
    let whole = len + 1 + random.below(4 - len);
    let mut made = sequence(random, whole);
    made.truncate(len);
    made
}

fn of_char(number: u32) -> Vec<u8> {
    char::from_u32(number).map_or(Vec::new(), |char| char.to_string().into_bytes())
}

/// Half of a surrogate pair as three bytes.
fn surrogate(random: &mut Random, low: bool) -> Vec<u8> {
    let second = if low { [0xb0, 0xbf] } else { [0xa0, 0xaf] };
    vec![0xed, within(random, second), within(random, TAIL)]
}

/// A lead byte of some range, and so many bytes that follow.
fn led(random: &mut Random, lead: [u8; 2], second: [u8; 2], more: usize) -> Vec<u8> {
    let mut made = vec![within(random, lead), within(random, second)];
    made.extend(tail(random, more));
    made
}

/// Bytes that no text has: a zero in a string is not among them. Mostly there is one fault, and text may follow.
fn fault(random: &mut Random) -> Vec<u8> {
    match random.below(14) {
        0 => {
            let len = 1 + random.below(3);
            cut(random, len)
        }
        1 => {
            let low = random.one_in(2);
            surrogate(random, low)
        }
        2 => [surrogate(random, false), surrogate(random, true)].concat(),
        3 => random.pick(&[&[0xc0, 0x80][..], &[0xc1, 0xbf], &[0xe0, 0x80, 0x80], &[0xf0, 0x80, 0x80, 0x80]]).to_vec(),
        4 => led(random, [0xc0, 0xc1], TAIL, 0),
        5 => led(random, [0xe0, 0xe0], [0x80, 0x9f], 1),
        6 => led(random, [0xf0, 0xf0], [0x80, 0x8f], 2),
        7 => led(random, [0xf4, 0xf4], [0x90, 0xbf], 2),
        8 => led(random, [0xf5, 0xf7], TAIL, 2),
        9 => led(random, [0xf8, 0xfb], TAIL, 3),
        10 => led(random, [0xfc, 0xfd], TAIL, 4),
        11 => vec![random.pick(&[0xfe, 0xff])],
        12 => {
            let len = 1 + random.below(8);
            tail(random, len)
        }
        _ => {
            let row = 1 + random.below(8);
            let byte = random.below(ROWS[row].len());
            let end = 3 * random.below(2);
            let made = specimen(random, row, byte, end);
            // One past a row may be in the next.
            if std::str::from_utf8(&made).is_ok() {
                vec![0x80]
            } else {
                made
            }
        }
    }
}

/// Text that some reader would take for none: noncharacters and U+FEFF.
fn peculiar(random: &mut Random) -> Vec<u8> {
    let plane = 1 + random.below(16) as u32;
    let last = random.below(2) as u32;
    let among = 0xfdd0 + random.below(32) as u32;
    of_char(random.pick(&[among, 0xfdd0, 0xfdef, 0xfffe + last, plane << 16 | 0xfffe | last, 0x10_ffff, 0xfeff, 0xfeff, 0xfffd]))
}

/// Any piece: of the table of sequences at an end of a range, peculiar or faulty.
fn piece(random: &mut Random) -> Vec<u8> {
    match random.below(8) {
        0..=3 => any_specimen(random),
        4 => peculiar(random),
        5 => {
            let len = 1 + random.below(4);
            sequence(random, len)
        }
        _ => fault(random),
    }
}

/// Puts a fault somewhere into bytes.
pub fn spoil(random: &mut Random, bytes: &mut [u8]) {
    let fault = fault(random);
    let from = random.below(bytes.len().max(1));
    bytes[from..].iter_mut().zip(fault).for_each(|(byte, new)| *byte = new);
}

/// The bytes up to the zero of a string at a place, where there is one.
pub fn string_at(table: &[u8], at: usize) -> Option<&[u8]> {
    let ahead = table.get(at..)?;
    let len = ahead.iter().position(|byte| *byte == 0)?;
    Some(&ahead[..len])
}

/// Whether a reference to a place is good.
pub fn good(table: &[u8], at: usize) -> bool {
    string_at(table, at).is_some_and(|string| std::str::from_utf8(string).is_ok())
}

/// A place from which on a string is good, where some zero stands at `last`.
pub fn good_place(random: &mut Random, table: &[u8], last: usize) -> usize {
    if random.one_in(4) {
        return last;
    }
    (0..8).map(|_| random.below(last + 1)).find(|at| good(table, *at)).unwrap_or(last)
}

/// Where blocks of bytes are counted from: the table's start, its end, or the string's start.
#[derive(Clone, Copy, Debug, PartialEq, Eq)]
pub enum Origin {
    Table,
    End,
    String,
}

/// Blocks of some bytes, between which strings lie in some way.
#[derive(Clone, Copy, Debug, PartialEq, Eq)]
pub struct Blocks {
    pub size: usize,
    pub origin: Origin,
}

pub const BLOCKS: [Blocks; 6] = [
    Blocks { size: 32, origin: Origin::Table },
    Blocks { size: 64, origin: Origin::Table },
    Blocks { size: 256, origin: Origin::Table },
    Blocks { size: 64, origin: Origin::End },
    Blocks { size: 64, origin: Origin::String },
    Blocks { size: 256, origin: Origin::String },
];

/// A table of which one string is under test, and where a zero stands: mostly the one at its end.
pub struct Table {
    pub bytes: Vec<u8>,
    pub at: usize,
    pub zero: usize,
}

impl Table {
    /// Takes every zero from the string on; another stays where there is one before it.
    fn endless(&mut self) {
        self.bytes[self.at..].iter_mut().filter(|byte| **byte == 0).for_each(|byte| *byte = b'Z');
        self.zero = self.bytes.iter().rposition(|byte| *byte == 0).unwrap_or(self.zero);
    }
}

/// What a table must leave free at its front and at its back, and what its length is a multiple of.
pub struct Frame {
    pub front: usize,
    pub back: usize,
    pub unit: usize,
}

/// A piece in a string: how many of its bytes stand before a block's edge, and how many bytes of text before and after it.
struct Plan {
    piece: Vec<u8>,
    phase: usize,
    before: usize,
    after: usize,
}

/// How far it is to a string's end from a piece in it: nothing, a little, within a block or through blocks.
fn way(random: &mut Random, size: usize) -> usize {
    match random.below(8) {
        0..=2 => 0,
        3 | 4 => 1 + random.below(8),
        5 | 6 => random.below(size),
        _ => random.below(3 * size),
    }
}

/// Pieces that lie beside an edge in the ways that a reader by blocks must take care of.
fn plan(random: &mut Random, size: usize) -> Plan {
    let (mut before, mut after) = (way(random, size), way(random, size));
    let (piece, phase) = match random.below(12) {
        // A sequence over the edge; one that breaks past it.
        0 | 1 => {
            let len = 2 + random.below(3);
            (sequence(random, len), 1 + random.below(len - 1))
        }
        2 => {
            let row = 1 + random.below(8);
            let phase = 1 + random.below(ROWS[row].len() - 1);
            let byte = phase + random.below(ROWS[row].len() - phase);
            let end = random.pick(&[0, 3]);
            (specimen(random, row, byte, end), phase)
        }
        // A cut sequence before the edge or over it.
        3 | 4 => {
            let len = 1 + random.below(3);
            after = 0;
            let phase = if random.one_in(2) { len } else { 1 + random.below(len) };
            (cut(random, len), phase)
        }
        // Bytes that follow, at the edge, with a lead byte before them or none.
        5 | 6 => {
            let len = 1 + random.below(8);
            let mut piece = if random.one_in(2) { vec![random.pick(&[0xc3, 0xe1, 0xf1])] } else { Vec::new() };
            let phase = piece.len();
            piece.extend(tail(random, len));
            (piece, phase)
        }
        // A string that starts at the edge or one byte before it, or whose zero stands so.
        7 => {
            before = 0;
            (piece(random), random.below(2))
        }
        8 => {
            after = 0;
            let piece = piece(random);
            let phase = piece.len() + random.below(2);
            (piece, phase)
        }
        // Through several blocks, with a fault or a peculiar piece in the first, in the last or between.
        9 | 10 => {
            let far = 2 * size + random.below(size);
            (before, after) = random.pick(&[(far, after % size), (before % size, far), (far, far)]);
            let piece = piece(random);
            let phase = random.below(piece.len() + 2);
            (piece, phase)
        }
        _ => {
            let piece = piece(random);
            let phase = random.below(piece.len() + 2);
            (piece, phase)
        }
    };
    Plan { piece, phase, before, after }
}

/// A length of a table that is at least so long: mostly not much longer, now and then where a reader may change its way.
fn table_length(random: &mut Random, least: usize, unit: usize) -> usize {
    let length = match random.below(160) {
        0..=7 => random.pick(&[4092, 4096, 4100, 4095, 4097]),
        8 | 9 => 5000 + random.below(3000),
        10 if random.one_in(8) => 5000 + random.below(65_000),
        11..=29 => least.next_multiple_of(random.pick(&[32, 64, 256])) + random.pick(&[0, 0, 1, 4]),
        _ => least + random.below(40),
    };
    length.max(least).next_multiple_of(unit)
}

/// Bytes beside the string under test: zeros, words of letters, of text or of anything, or no zero at all.
fn filler(random: &mut Random, len: usize) -> Vec<u8> {
    let style = random.below(8);
    let mut made = Vec::with_capacity(len + 64);
    while made.len() < len {
        let word = random.below(24);
        match style {
            0 => made.resize(len, 0),
            1 => made.resize(len, b'A'),
            2 => made.extend(random.bytes(64)),
            3..=5 => made.extend((0..word).map(|i| b'a' + (i % 26) as u8)),
            6 => made.extend(text(random, word)),
            _ => made.extend(piece(random)),
        }
        if style >= 3 && !random.one_in(4) {
            made.push(0);
        }
    }
    made.truncate(len);
    made
}

/// A short table of letters and zeros with a string that has one byte above 7F in it, or none. All places in it are below 128.
fn plain_table(random: &mut Random, frame: &Frame) -> Table {
    let length = 120 + frame.unit;
    let zero = frame.front + random.below(length - frame.back - frame.front);
    let at = frame.front + random.below(zero - frame.front + 1);
    let mut bytes: Vec<u8> = random.bytes(length).into_iter().map(|byte| if byte < 16 { 0 } else { b'A' + byte % 26 }).collect();
    bytes[at..zero].iter_mut().filter(|byte| **byte == 0).for_each(|byte| *byte = b'Z');
    bytes[zero] = 0;
    if at < zero && random.one_in(2) {
        let place = random.below(zero - at);
        bytes[at + random.pick(&[place, zero - at - 1])] |= 0x80;
    }
    let mut table = Table { bytes, at, zero };
    if random.one_in(4) {
        table.endless();
    }
    table
}

/// A table with a string that has a piece in it, beside an edge.
pub fn table(random: &mut Random, frame: &Frame) -> Table {
    if frame.front + frame.back < 100 && random.one_in(16) {
        return plain_table(random, frame);
    }
    let Blocks { size, origin } = random.pick(&BLOCKS);
    let Plan { piece, phase, mut before, after } = plan(random, size);
    if origin == Origin::String {
        // The string itself starts at whole blocks before the edge.
        before = (before + phase).next_multiple_of(size).max(size) - phase;
    }
    let string = before + piece.len() + after + 1;
    let length = table_length(random, frame.front + string + phase + frame.back + 2 * size, frame.unit);
    // Where the string may start, and how many bytes it has up to the edge.
    let (first, last) = (frame.front, length - frame.back - string);
    let to_edge = before + phase;
    let at = match origin {
        Origin::String => first + random.below(last - first + 1),
        Origin::Table => edge(random, first + to_edge, last + to_edge, 0, size) - to_edge,
        Origin::End => edge(random, first + to_edge, last + to_edge, length % size, size) - to_edge,
    };

    let mut bytes = filler(random, length);
    let mut put = |from: usize, new: &[u8]| bytes[from..from + new.len()].copy_from_slice(new);
    let zero = at + string - 1;
    put(at, &text(random, before));
    put(at + before, &piece);
    put(at + before + piece.len(), &text(random, after));
    put(zero, &[0]);
    // What stands before the string: a zero, or what makes it the rest of another, good or faulty.
    let lead = match random.below(4) {
        0 => vec![0],
        1 => fault(random),
        2 => text(random, 5),
        _ => Vec::new(),
    };
    if lead.len() <= at - first {
        put(at - lead.len(), &lead);
    }
    strayed(random, Table { bytes, at, zero }, at + before, piece.len())
}

/// The first, the last or any place from one up to another that is `rest` past a multiple of a size. There is one.
fn edge(random: &mut Random, from: usize, to: usize, rest: usize, size: usize) -> usize {
    let first = from + (size + rest - from % size) % size;
    let count = (to - first) / size + 1;
    let any = random.below(count);
    first + size * random.pick(&[0, any, count - 1])
}

/// The table as it is, or with its reference into the piece or right after it, or without a zero from there on.
fn strayed(random: &mut Random, mut table: Table, piece: usize, len: usize) -> Table {
    match random.below(24) {
        0..=3 => table.at = piece + random.below(len + 1),
        4 => table.endless(),
        _ => (),
    }
    table
}
