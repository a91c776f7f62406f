//! Places that no opening kept, and bytes to ask by them, made at random.

use crate::make::{self, SIZES};
use crate::random::Random;

/// The numbers of places, in their order.
pub type Numbers = [u32; 25];

/// Where some of the numbers stand.
pub const EDITION: usize = 0;
pub const RUNTIME: usize = 1;
pub const STAGE: usize = 2;
pub const RESOURCES: usize = 3;
pub const STRINGS: usize = 6;
pub const INDICES: usize = 8;
pub const ELEMENTS: usize = 10;
pub const MASKS: usize = 13;
pub const WORDS: usize = 14;

/// How places came about.
#[derive(Clone, Copy, Debug, PartialEq, Eq)]
pub enum Way {
    Kept,
    Bit,
    Near,
    Edge,
    Power,
    Most,
    Swapped,
    Foreign,
    Beyond,
    Stage,
    Words,
    Fitted,
    Any,
}

pub const WAYS: [(Way, &str); 13] = [
    (Way::Kept, "kept"),
    (Way::Bit, "with bits turned"),
    (Way::Near, "with a small change"),
    (Way::Edge, "with a number at an edge"),
    (Way::Power, "with a power of two"),
    (Way::Most, "with a number near 2^32"),
    (Way::Swapped, "with numbers swapped"),
    (Way::Foreign, "of another file"),
    (Way::Beyond, "of an edition above 3"),
    (Way::Stage, "of another stage"),
    (Way::Words, "with other mask words"),
    (Way::Fitted, "fitted to the length"),
    (Way::Any, "of any numbers"),
];

/// The bytes that are asked.
#[derive(Clone, Copy, Debug)]
pub enum Over {
    Same,
    Damaged,
    Cut,
    Longer,
    Foreign,
    Empty,
}

pub const OVERS: [(Over, &str); 6] = [
    (Over::Same, "the same bytes"),
    (Over::Damaged, "damaged bytes"),
    (Over::Cut, "bytes cut off"),
    (Over::Longer, "more bytes"),
    (Over::Foreign, "another file"),
    (Over::Empty, "no bytes"),
];

impl Way {
    /// Whether the numbers are so, beside those that were kept, those of another file and the length.
    pub fn holds(self, numbers: &Numbers, own: &Numbers, foreign: &Numbers, len: usize) -> bool {
        let changed: Vec<usize> = (0..25).filter(|i| numbers[*i] != own[*i]).collect();
        let some = |is: &dyn Fn(usize) -> bool| changed.iter().any(|i| is(*i));
        let all = |is: &dyn Fn(usize) -> bool| some(&|_| true) && changed.iter().all(|i| is(*i));
        let sorted = |numbers: &Numbers| {
            let mut sorted = *numbers;
            sorted.sort_unstable();
            sorted
        };
        let near = |number: u32, other: u32, by: u32| number.wrapping_sub(other).wrapping_add(by) <= 2 * by;
        match self {
            Way::Kept => changed.is_empty(),
            Way::Bit => some(&|i| (numbers[i] ^ own[i]).is_power_of_two()),
            Way::Near => some(&|i| near(numbers[i], own[i], 24)),
            Way::Edge => some(&|i| [0, 1, len as u32, len as u32 + 1, (len as u32).wrapping_sub(1)].contains(&numbers[i])),
            Way::Power => some(&|i| [0, 1, u32::MAX].map(|by| numbers[i].wrapping_add(by)).iter().any(|number| number.is_power_of_two())),
            Way::Most => some(&|i| numbers[i] > u32::MAX - 64),
            Way::Swapped => some(&|_| true) && sorted(numbers) == sorted(own),
            Way::Foreign => some(&|_| true) && numbers == foreign,
            Way::Beyond => all(&|i| i == EDITION && numbers[i] > 3),
            Way::Stage => all(&|i| i == STAGE),
            Way::Words => all(&|i| i >= WORDS),
            Way::Fitted => some(&|i| i != EDITION),
            Way::Any => changed.len() > 8,
        }
    }
}

impl Over {
    /// Whether the bytes are so, beside those that were opened and another file.
    pub fn holds(self, bytes: &[u8], own: &[u8], foreign: &[u8]) -> bool {
        match self {
            Over::Same => bytes == own,
            Over::Damaged => bytes.len() == own.len() && bytes != own,
            Over::Cut => bytes.len() < own.len() && own.starts_with(bytes),
            Over::Longer => bytes.len() > own.len() && bytes.starts_with(own),
            Over::Foreign => bytes == foreign && bytes != own,
            Over::Empty => bytes.is_empty(),
        }
    }
}

/// Bytes that are nearly the ones that were opened, or not at all.
pub fn bytes(random: &mut Random, own: &[u8], numbers: &Numbers, foreign: &[u8]) -> (Over, Vec<u8>) {
    let mut bytes = own.to_vec();
    let over = random.pick(&[Over::Same, Over::Same, Over::Same, Over::Damaged, Over::Cut, Over::Longer, Over::Foreign, Over::Empty]);
    match over {
        Over::Same => (),
        Over::Damaged if random.one_in(2) => refer(random, &mut bytes, numbers),
        Over::Damaged => {
            let fields: Vec<usize> = (0..bytes.len() / 4).map(|i| 4 * i).collect();
            (0..1 + random.below(6)).for_each(|_| make::damage(random, &mut bytes, &fields));
        }
        Over::Cut => {
            let left = bytes.len().saturating_sub(1 + random.below(12));
            let any = random.below(own.len().max(1));
            bytes.truncate(random.pick(&[left, any]));
        }
        Over::Longer => {
            let more = 1 + random.below(60);
            bytes.extend_from_slice(&random.bytes(more));
        }
        Over::Foreign => bytes = foreign.to_vec(),
        Over::Empty => bytes.clear(),
    }
    (over, bytes)
}

/// Sets a reference, of an element or of the entry name, beside the end of its table or near 2^32; or spoils the strings.
fn refer(random: &mut Random, bytes: &mut [u8], numbers: &Numbers) {
    let (t, n) = (numbers[STRINGS + 1], numbers[INDICES + 1]);
    let name = random.pick(&[t, t, t.wrapping_sub(1), t.wrapping_add(1), u32::MAX, 0]);
    let element = u64::from(numbers[ELEMENTS]) + random.next() % u64::from(numbers[ELEMENTS + 1]).max(1) * u64::from(numbers[ELEMENTS + 2]);
    let (element, entry) = (element as usize, numbers[RUNTIME] as usize + 48);
    let strings = numbers[STRINGS] as usize;
    match random.below(8) {
        0 if entry + 4 <= bytes.len() => make::put4(bytes, entry, name),
        1 if element + 16 <= bytes.len() => make::put4(bytes, element, name),
        2..=5 if element + 16 <= bytes.len() => {
            let rows = random.pick(&[0, 0, 1, 2, 255]);
            let past = n.wrapping_add(1).wrapping_sub(rows);
            make::put4(bytes, element + 4, random.pick(&[n, n.wrapping_add(1), past, past.wrapping_sub(1), rows.wrapping_neg(), u32::MAX]));
            bytes[element + 8] = rows as u8;
        }
        _ if strings + t as usize <= bytes.len() => {
            // No text from some byte on, or no zero.
            let from = strings + random.below(t as usize + 1);
            let turn: fn(&mut u8) = random.pick(&[|byte| *byte |= u8::from(*byte != 0) << 7, |byte| *byte |= 1]);
            bytes[from..strings + t as usize].iter_mut().for_each(turn);
        }
        _ => (),
    }
}

/// Places to ask bytes of this length by: those that were kept, changed, or others.
pub fn places(random: &mut Random, own: &Numbers, foreign: &Numbers, len: usize) -> (Way, Numbers) {
    let mut numbers = *own;
    let (way, _) = if random.one_in(3) { (Way::Fitted, "") } else { random.pick(&WAYS) };
    match way {
        Way::Kept => (),
        Way::Bit => (0..1 + random.below(3)).for_each(|_| numbers[random.below(25)] ^= 1 << random.below(32)),
        Way::Near => {
            for _ in 0..1 + random.below(3) {
                let by = random.pick(&[1, 2, 4, 8, 16, 24]);
                let at = random.below(25);
                numbers[at] = if random.one_in(2) { numbers[at].wrapping_add(by) } else { numbers[at].wrapping_sub(by) };
            }
        }
        Way::Edge => (0..1 + random.below(3)).for_each(|_| numbers[random.below(25)] = edge(random, len)),
        Way::Power => (0..1 + random.below(2)).for_each(|_| numbers[random.below(25)] = power(random)),
        Way::Most => numbers[random.below(25)] = u32::MAX - random.pick(&[0, 0, 0, 1, 3, 15, 16, 51]),
        Way::Swapped => numbers.swap(random.below(25), random.below(25)),
        Way::Foreign => numbers = *foreign,
        Way::Beyond => numbers[EDITION] = beyond(random),
        Way::Stage => {
            let low = random.below(16) as u32;
            numbers[STAGE] = random.pick(&[low, low, low, low, 16, 17, 255, 256 + low, 65_536 + low, 1 << 31 | low, u32::MAX]);
        }
        Way::Words => {
            for _ in 0..1 + random.below(11) {
                let few = random.below(5) as u32;
                numbers[WORDS + random.below(11)] = random.pick(&[0, 1, few, few, len as u32 / 4, 1 << 30, 1 << 31, u32::MAX]);
            }
        }
        Way::Fitted => fit(random, &mut numbers, len as u64),
        Way::Any => {
            for number in &mut numbers {
                let (any, inside) = (random.next() as u32, random.below(len + 1) as u32);
                *number = random.pick(&[0, 1, inside, inside, inside, inside, any, u32::MAX]);
            }
            if random.one_in(2) {
                numbers[EDITION] = random.below(4) as u32;
            }
        }
    }
    (way, numbers)
}

/// An edition above 3, of which some are 0 to 3 in their low bits.
fn beyond(random: &mut Random) -> u32 {
    let low = random.below(4) as u32;
    random.pick(&[4, 4, 5, 6, 7, 255, 256 + low, 65_536 + low, 1 << 31 | low, u32::MAX])
}

/// A number beside nothing, one of everything, the length or a quarter of it.
fn edge(random: &mut Random, len: usize) -> u32 {
    let (len, back) = (len as u32, random.below(60) as u32);
    random.pick(&[0, 0, 1, 1, len, len, len + 1, len.wrapping_sub(1), len.wrapping_sub(back), len / 4, len / 4 + 1, len / 16])
}

fn power(random: &mut Random) -> u32 {
    let power = 1 << random.below(32);
    random.pick(&[power, power, power - 1, power + 1])
}

/// An end beside that of the bytes, past it, or below what has to lie before it, so that 32 bits would take the end back inside.
fn end(random: &mut Random, len: u64, need: u64) -> u64 {
    let low = random.next() % need.clamp(1, len.max(1));
    random.pick(&[len, len, len, len + 1, len + 1, len.saturating_sub(1), len + need + 1, low, low])
}

/// A place from which `need` bytes end beside the end of the bytes.
fn before(random: &mut Random, len: u64, need: u64) -> u32 {
    end(random, len, need).wrapping_sub(need) as u32
}

/// A count of items of some bytes from a place on, to the end of the bytes or near it; or so many that 32 bits would take their end back.
fn filling(random: &mut Random, len: u64, place: u32, size: u32) -> u32 {
    let count = len.saturating_sub(place.into()) as u32 / size;
    let far = if size == 1 { place.wrapping_neg() } else { u32::MAX / size + 1 + count };
    random.pick(&[count, count, count + 1, count.saturating_sub(1), far])
}

/// A size for records: right ones, ones that are too short, and any.
fn size(random: &mut Random) -> u32 {
    let power = power(random);
    random.pick(&[16, 16, 20, 23, 24, 24, 25, 28, 0, 1, 4, 15, power])
}

/// Fits one section to the end of the bytes, of places of any edition.
fn fit(random: &mut Random, numbers: &mut Numbers, len: u64) {
    if random.one_in(2) {
        numbers[EDITION] = random.pick(&[0, 1, 1, 2, 2, 3, 3, 4]);
    }
    let edition = (numbers[EDITION] as usize).min(3);
    match random.below(10) {
        0 => numbers[RUNTIME] = before(random, len, SIZES[edition] as u64),
        1 | 2 => record(random, numbers, RESOURCES, len),
        3 | 4 => record(random, numbers, ELEMENTS, len),
        5 => list(random, numbers, STRINGS, 1, len),
        6 => list(random, numbers, INDICES, 4, len),
        7 | 8 => mask(random, numbers, len),
        _ => {
            // A whole list of records, or of none.
            let at = random.pick(&[RESOURCES, ELEMENTS]);
            numbers[at + 1] = random.pick(&[0, 0, 1, 2, 3, numbers[at + 1]]);
            numbers[at + 2] = size(random);
            numbers[at] = before(random, len, u64::from(numbers[at + 1]) * u64::from(numbers[at + 2]));
        }
    }
}

/// Fits one record of a list, of which there may be as many as can be.
fn record(random: &mut Random, numbers: &mut Numbers, at: usize, len: u64) {
    numbers[at + 2] = size(random);
    if random.one_in(2) {
        numbers[at + 1] = random.pick(&[1, 2, 3, 5, u32::MAX]);
    }
    let long = at == RESOURCES && numbers[EDITION] > 1 && numbers[at + 2] >= 24;
    let i = u64::from(numbers[at + 1].saturating_sub(1));
    let i = random.pick(&[0, i, i / 2]);
    numbers[at] = before(random, len, i * u64::from(numbers[at + 2]) + if long { 24 } else { 16 });
}

/// Fits a table by its place or its length, or makes it empty.
fn list(random: &mut Random, numbers: &mut Numbers, at: usize, size: u32, len: u64) {
    match random.below(4) {
        0 => {
            numbers[at + 1] = 0;
            numbers[at] = before(random, len, 0);
        }
        1 | 2 => numbers[at] = before(random, len, u64::from(size) * u64::from(numbers[at + 1])),
        _ => numbers[at + 1] = filling(random, len, numbers[at], size),
    }
}

/// Fits a mask by the masks' place or by its words.
fn mask(random: &mut Random, numbers: &mut Numbers, len: u64) {
    let (k, few) = (random.below(11), random.below(3) as u32);
    if random.one_in(3) {
        numbers[WORDS + k] = few;
    }
    // All of the masks, or those up to one.
    let last = random.pick(&[k, k, 10]);
    let words = |numbers: &Numbers| numbers[WORDS..=WORDS + last].iter().map(|words| u64::from(*words)).sum::<u64>();
    if random.one_in(2) {
        numbers[MASKS] = before(random, len, 4 * words(numbers));
    } else {
        let own = u64::from(numbers[WORDS + k]);
        let place = u64::from(numbers[MASKS]) + 4 * words(numbers).saturating_sub(own);
        numbers[WORDS + k] = filling(random, len, place.min(len) as u32, 4);
    }
}
