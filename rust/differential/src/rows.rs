//! Settings files, and rows for their writer, made at random: right ones, and ones with a fault in one number or in two.

use crate::random::Random;

/// Version, key and value.
pub type Row = [u32; 3];

/// So many rows a file has at most.
pub const MOST: usize = 512;

/// So many groups a number has at most.
const GROUPS: usize = 5;

/// Set on all groups of a number but the last.
const MORE: u8 = 0x80;

/// What a number of a file is.
#[derive(Clone, Copy, Debug, PartialEq, Eq)]
pub enum Field {
    Count,
    Version,
    Key,
    Value,
}

/// What number `i` of a file is: the count is the first.
pub fn field_of(i: usize) -> Field {
    match i % 3 {
        _ if i == 0 => Field::Count,
        1 => Field::Version,
        2 => Field::Key,
        _ => Field::Value,
    }
}

/// The greatest value that a key takes, if it is one.
pub fn greatest(key: u64) -> Option<u32> {
    match key {
        1 => Some(3),
        2 => Some(u32::MAX),
        3 => Some(1),
        _ => None,
    }
}

/// The least and the greatest number of so many groups.
pub fn ends(groups: usize) -> [u32; 2] {
    let least = if groups == 1 { 0 } else { 1 << (7 * (groups - 1)) };
    let greatest = (1_u64 << (7 * groups)) - 1;
    [least, greatest.min(u32::MAX.into()) as u32]
}

/// A number of one to five groups: the least or the greatest of so many, or any.
pub fn number(random: &mut Random) -> u32 {
    let [least, greatest] = ends(1 + random.below(GROUPS));
    let any = least + random.below((greatest - least) as usize + 1) as u32;
    random.pick(&[least, greatest, any, any])
}

/// So many groups of a number, its low ones, all with the high bit set.
fn open_groups(number: u64, groups: usize) -> Vec<u8> {
    (0..groups).map(|i| (number >> (7 * i)) as u8 | MORE).collect()
}

/// A number in so many groups, or in more where it needs them: then the last is not 0.
fn in_groups(number: u64, groups: usize) -> Vec<u8> {
    let needed = (1..10).find(|groups| number >> (7 * groups) == 0).unwrap_or(10);
    let mut bytes = open_groups(number, groups.max(needed));
    bytes.last_mut().into_iter().for_each(|last| *last &= !MORE);
    bytes
}

/// Appends a number in its shortest form.
pub fn put(bytes: &mut Vec<u8>, number: u32) {
    let mut left = number;
    while left >= MORE.into() {
        bytes.push(left as u8 | MORE);
        left >>= 7;
    }
    bytes.push(left as u8);
}

/// A value that a key takes: 0, the greatest, or any.
fn value(random: &mut Random, key: u32) -> u32 {
    let any = number(random);
    let greatest = greatest(key.into()).unwrap_or(u32::MAX);
    random.pick(&[0, greatest, any, any, any]).min(greatest)
}

/// How many rows: mostly few, now and then as many as there can be.
fn how_many(random: &mut Random) -> usize {
    match random.below(1024) {
        0..=3 => random.pick(&[MOST - 1, MOST]),
        4 => random.below(MOST + 1),
        5..=14 => 126 + random.below(4),
        15..=78 => 7 + random.below(30),
        79..=142 => 0,
        143..=270 => 1,
        _ => 2 + random.below(5),
    }
}

/// Right rows.
pub fn rows(random: &mut Random) -> Vec<Row> {
    let count = how_many(random);
    let mut rows = of_versions(random, count);
    let own = (random.one_in(4)).then_some(1 + random.below(3) as u32);
    for row in &mut rows {
        row[1] = own.unwrap_or(1 + random.below(3) as u32);
        row[2] = value(random, row[1]);
    }
    rows
}

/// Rows whose versions never fall: equal ones, ones that rise by one, by large steps, or anyhow.
fn of_versions(random: &mut Random, count: usize) -> Vec<Row> {
    let mut versions: Vec<u32> = match random.below(4) {
        0 => vec![number(random); count],
        1 => {
            let first = number(random);
            (0..count as u32).map(|i| first.saturating_add(i)).collect()
        }
        2 => {
            let mut version = random.below(3) as u32;
            let next = |_| {
                let now = version;
                version = version.saturating_add(random.pick(&[0, 1, 1, 2, 128, 70_000, 0x1000_0000]));
                now
            };
            (0..count).map(next).collect()
        }
        _ => (0..count).map(|_| number(random)).collect(),
    };
    versions.sort_unstable();
    versions.into_iter().map(|version| [version, 0, 0]).collect()
}

/// A last row with a version above all others, if one can be.
pub fn later(random: &mut Random, rows: &[Row]) -> Option<Row> {
    let least = match rows.last() {
        Some(row) => row[0].checked_add(1)?,
        None => 0,
    };
    let any = least + random.below((u32::MAX - least) as usize + 1) as u32;
    let key = 1 + random.below(3) as u32;
    Some([random.pick(&[least, least, any, any, u32::MAX]), key, value(random, key)])
}

/// A number that breaks the rule of number `i` of these rows, if one does: too many rows, a version below the one before, an unknown key, a
/// value out of its key's range.
fn wrong(random: &mut Random, rows: &[Row], i: usize) -> Option<u32> {
    let any = number(random);
    let row = i.saturating_sub(1) / 3;
    match field_of(i) {
        Field::Count => {
            let many = random.pick(&[513, 514, 600, 1024, 16_383, 16_384, 65_536, 65_537, u32::MAX, any]);
            Some(many.max(MOST as u32 + 1))
        }
        Field::Version => {
            let before = rows[row.checked_sub(1)?][0].checked_sub(1)?;
            Some(random.pick(&[before, 0, any, any, any & before]).min(before))
        }
        Field::Key => {
            let key = random.pick(&[0, 4, 5, 127, 128, 129, 257, 65_538, u32::MAX, any, any, any]);
            Some(if greatest(key.into()).is_some() { 4 } else { key })
        }
        Field::Value => {
            // Of an unknown key, as of key 1.
            let least = greatest(rows[row][1].into()).unwrap_or(3).checked_add(1)?;
            Some(random.pick(&[least, least + 1, 128, 256, u32::MAX, any, any, any]).max(least))
        }
    }
}

/// Lets number `i` of these rows break its rule, where it can: no version is below the first.
fn ready(random: &mut Random, rows: &mut [Row], i: usize) {
    let row = i.saturating_sub(1) / 3;
    match field_of(i) {
        Field::Version if row > 0 && rows[row - 1][0] == 0 => {
            let more = number(random).max(1);
            rows[row - 1..].iter_mut().for_each(|row| row[0] = row[0].saturating_add(more));
        }
        Field::Value if rows[row][1] == 2 => {
            rows[row][1] = random.pick(&[1, 3]);
            rows[row][2] = random.below(2) as u32;
        }
        _ => (),
    }
}

/// What is wrong with a number: its form is long, too large or cut, or it breaks its own rule.
#[derive(Clone, Copy, Debug, PartialEq, Eq)]
pub enum Fault {
    Long,
    Large,
    Cut,
    Own,
}

const FAULTS: [Fault; 4] = [Fault::Long, Fault::Large, Fault::Cut, Fault::Own];

/// A settings file, and where each of its numbers begins; last, where the last one ends.
#[derive(Clone, Debug)]
pub struct File {
    pub bytes: Vec<u8>,
    starts: Vec<usize>,
}

impl File {
    pub fn of(rows: &[Row]) -> File {
        let mut file = File { bytes: Vec::with_capacity(3 + 11 * rows.len()), starts: Vec::with_capacity(2 + 3 * rows.len()) };
        for number in std::iter::once(&(rows.len() as u32)).chain(rows.as_flattened()) {
            file.starts.push(file.bytes.len());
            put(&mut file.bytes, *number);
        }
        file.starts.push(file.bytes.len());
        file
    }

    /// Puts other bytes in the place of number `i`.
    fn replace(&mut self, i: usize, with: &[u8]) {
        let (from, to) = (self.starts[i], self.starts[i + 1]);
        self.bytes.splice(from..to, with.iter().copied());
        self.starts[i + 1..].iter_mut().for_each(|start| *start = *start - to + from + with.len());
    }

    /// Lets the file end with these bytes, in the place of number `i`.
    fn end(&mut self, i: usize, with: &[u8]) {
        self.bytes.truncate(self.starts[i]);
        self.bytes.extend_from_slice(with);
        self.starts.truncate(i + 1);
        self.starts.push(self.bytes.len());
    }

    /// Plants a fault in number `i`, of a form that holds `number`.
    fn plant(&mut self, random: &mut Random, i: usize, fault: Fault, number: u32) {
        let needed = in_groups(number.into(), 1).len();
        match fault {
            Fault::Own => self.replace(i, &in_groups(number.into(), 1)),
            Fault::Long => {
                // In fewer than five groups, so that one of zeros can follow.
                let small = number & 0x0fff_ffff;
                let least = in_groups(small.into(), 1).len() + 1;
                self.replace(i, &in_groups(small.into(), least + random.below(GROUPS + 1 - least)));
            }
            Fault::Large if random.one_in(2) => {
                let above = 1 + random.below(7) as u64;
                let low = if random.one_in(8) { 0 } else { number };
                self.replace(i, &in_groups(above << 32 | u64::from(low), GROUPS));
            }
            Fault::Large => {
                let mut groups = open_groups(number.into(), GROUPS);
                match random.below(4) {
                    0 => self.end(i, &groups),
                    1 => {
                        groups.push(random.pick(&[MORE, 0xff, 0x81]));
                        self.end(i, &groups);
                    }
                    _ => {
                        groups.push(random.pick(&[0, 0, 1, 0x7f]));
                        self.replace(i, &groups);
                    }
                }
            }
            Fault::Cut => {
                let groups = if random.one_in(2) { needed.min(GROUPS - 1) } else { random.below(GROUPS) };
                self.end(i, &open_groups(number.into(), groups));
            }
        }
    }
}

/// A number of a file of some rows: of each kind as often, of the first row, the last or any; the count now and then.
fn any_place(random: &mut Random, rows: usize) -> usize {
    if rows == 0 || random.one_in(6) {
        return 0;
    }
    let any = random.below(rows);
    let row = random.pick(&[0, any, any, rows - 1]);
    1 + 3 * row + random.below(3)
}

/// What number `i` is to hold: what stands there, or what breaks its rule, of few bits if one is found.
fn held(random: &mut Random, rows: &[Row], i: usize, breaks: bool, few: bool) -> u32 {
    let there = if i == 0 { rows.len() as u32 } else { rows.as_flattened()[i - 1] };
    let mut held = there;
    for _ in 0..4 {
        held = wrong(random, rows, i).filter(|_| breaks).unwrap_or(there);
        if !few || held < 1 << 28 {
            break;
        }
    }
    held
}

/// A file with faults in these numbers, of which none follows a cut one.
fn with_faults(random: &mut Random, rows: &mut [Row], faults: &[(usize, Fault, bool)]) -> Vec<u8> {
    for (i, fault, also) in faults {
        if *fault == Fault::Own || *also {
            ready(random, rows, *i);
        }
    }
    let mut file = File::of(rows);
    // The last first: a fault may end the file.
    for (i, fault, also) in faults.iter().rev() {
        // A long form and a cut one hold 28 bits.
        let few = [Fault::Long, Fault::Cut].contains(fault);
        let number = held(random, rows, *i, *also || *fault == Fault::Own, few);
        file.plant(random, *i, *fault, number);
    }
    file.bytes
}

/// A file with a fault in one number, and with nothing else wrong.
pub fn one_fault(random: &mut Random) -> Vec<u8> {
    let mut rows = rows(random);
    let i = any_place(random, rows.len());
    let fault = random.pick(&FAULTS);
    with_faults(random, &mut rows, &[(i, fault, false)])
}

/// A file with two faults in one number: of its form, and of its rule.
pub fn at_one_byte(random: &mut Random) -> Vec<u8> {
    let mut rows = rows(random);
    let i = any_place(random, rows.len());
    let form = random.pick(&[Fault::Long, Fault::Large, Fault::Cut]);
    with_faults(random, &mut rows, &[(i, form, true)])
}

/// A file with faults in two numbers: mostly side by side, of which the second may be what is left over.
pub fn in_two(random: &mut Random) -> Vec<u8> {
    let mut rows = rows(random);
    if rows.is_empty() {
        rows.push([number(random), 2, 0]);
    }
    let last = 3 * rows.len();
    let i = any_place(random, rows.len());
    let first = random.pick(&[Fault::Long, Fault::Large, Fault::Own]);
    if i == last {
        let also = random.one_in(3);
        let mut bytes = with_faults(random, &mut rows, &[(i, first, also)]);
        bytes.extend_from_slice(&left_over(random));
        return bytes;
    }
    let next = if random.one_in(6) { i + 1 + random.below(last - i) } else { i + 1 };
    let second = random.pick(&FAULTS);
    let (also, also_second) = (random.one_in(4), random.one_in(4));
    with_faults(random, &mut rows, &[(i, first, also), (next, second, also_second)])
}

/// Bytes after a last row: any, or what looks like one more; now and then more than the program takes.
fn left_over(random: &mut Random) -> Vec<u8> {
    match random.below(4) {
        _ if random.one_in(64) => vec![random.next() as u8; 65_530 + random.below(12)],
        0 => vec![random.pick(&[0, 1, 0x7f, MORE, 0xff])],
        1 => File::of(&[[number(random), 2, number(random)]]).bytes.split_off(1),
        _ => {
            let len = 1 + random.below(9);
            random.bytes(len)
        }
    }
}

/// A file whose count isn't that of its rows, or with bytes after its last row.
pub fn miscounted(random: &mut Random) -> Vec<u8> {
    let mut rows = rows(random);
    if random.one_in(64) {
        lengthen(&mut rows, MOST);
    }
    let mut file = File::of(&rows);
    let len = rows.len();
    match random.below(4) {
        0 | 1 => file.bytes.extend_from_slice(&left_over(random)),
        2 => {
            let any = random.below(MOST);
            let other = random.pick(&[0, 1, len + 1, len.saturating_sub(1), MOST, MOST + 1, any]);
            file.replace(0, &in_groups(other as u64, 1));
        }
        _ => {
            // More than 512, and perhaps cut.
            let count = held(random, &rows, 0, true, false);
            file.replace(0, &in_groups(count.into(), 1));
            let kept = random.below(file.bytes.len() + 1);
            file.bytes.truncate(random.pick(&[kept, file.starts[1], usize::MAX]));
        }
    }
    file.bytes
}

/// A file of which some bytes are others, are gone or came beside.
pub fn damaged(random: &mut Random) -> Vec<u8> {
    let mut bytes = File::of(&rows(random)).bytes;
    for _ in 0..1 + random.below(3) {
        let at = random.below(bytes.len());
        let edge = random.pick(&[0, 1, 3, 4, 0x0f, 0x10, 0x7f, MORE, 0x81, 0x8f, 0xff]);
        match random.below(8) {
            0 | 1 => bytes[at] ^= 1 << random.below(8),
            2 => bytes[at] ^= MORE,
            3 => bytes[at] = random.next() as u8,
            4 => bytes[at] = edge,
            5 => bytes.insert(at, edge),
            6 => bytes.truncate(at + 1),
            _ if bytes.len() > 1 => {
                bytes.remove(at);
            }
            _ => (),
        }
    }
    bytes
}

/// Any bytes: all alike likely, or such as numbers are made of.
pub fn any_bytes(random: &mut Random) -> Vec<u8> {
    let len = random.below(32);
    let mut bytes = random.bytes(len);
    match random.below(3) {
        0 => (),
        1 => bytes.iter_mut().for_each(|byte| *byte = [0, 1, 2, 3, 4, 5, 0x7f, MORE, 0x81, 0xff][usize::from(*byte % 10)]),
        _ => bytes.iter_mut().for_each(|byte| *byte %= 4),
    }
    if random.one_in(2) && len > 0 {
        bytes[0] = 1 + random.below(3) as u8;
    }
    bytes
}

/// Rows for the writer: right, with one or two numbers that break their rule, or too many.
pub fn any_rows(random: &mut Random) -> Vec<Row> {
    let mut rows = rows(random);
    for _ in 0..random.pick(&[0, 1, 1, 2]) {
        let i = any_place(random, rows.len());
        break_rule(random, &mut rows, i);
        if random.one_in(2) && i < 3 * rows.len() {
            break_rule(random, &mut rows, i + 1);
        }
    }
    if random.one_in(64) {
        lengthen(&mut rows, random.pick(&[MOST, MOST, MOST + 1, MOST + 1, 600, 1000]));
    }
    rows
}

/// So many rows, by the last again and again.
fn lengthen(rows: &mut Vec<Row>, count: usize) {
    let last = rows.last().copied().unwrap_or([0, 2, 0]);
    rows.resize(count, last);
}

fn break_rule(random: &mut Random, rows: &mut [Row], i: usize) {
    if i == 0 {
        return;
    }
    ready(random, rows, i);
    if let Some(number) = wrong(random, rows, i) {
        rows.as_flattened_mut()[i - 1] = number;
    }
}
