//! Builders for settings files, right and wrong.

use super::Random;
use reference::{Refusal, SettingsRow};

/// A row as version, key and value.
pub fn row([version, key, value]: [u32; 3]) -> SettingsRow {
    SettingsRow { version, key, value }
}

/// A number in so many groups, which may be more than it needs.
pub fn groups(number: u64, count: usize) -> Vec<u8> {
    let group = |i: usize| (number >> (7 * i)) as u8 & 0x7f;
    (0..count).map(|i| if i + 1 < count { group(i) | 0x80 } else { group(i) }).collect()
}

/// How many groups a number needs.
pub fn least_groups(number: u64) -> usize {
    (1..).find(|count| number < 1 << (7 * count)).expect("some count is enough")
}

/// A number's one good form.
pub fn shortest(number: u64) -> Vec<u8> {
    groups(number, least_groups(number))
}

/// The file of these rows.
pub fn file(rows: &[[u32; 3]]) -> Vec<u8> {
    Pieces::of(rows).bytes()
}

/// What a number of a file stands for.
#[derive(Clone, Copy, Debug, PartialEq, Eq, PartialOrd, Ord)]
pub enum Role {
    Count,
    Version,
    Key,
    Value,
}

/// What number i stands for; the count is number 0.
pub fn role(i: usize) -> Role {
    match i.checked_sub(1).map(|i| i % 3) {
        None => Role::Count,
        Some(0) => Role::Version,
        Some(1) => Role::Key,
        Some(_) => Role::Value,
    }
}

/// A settings file in pieces.
#[derive(Clone, Debug)]
pub struct Pieces {
    /// The count, then the numbers of the rows.
    pub numbers: Vec<u32>,
    /// The bytes of each of them.
    pub forms: Vec<Vec<u8>>,
    /// Those after the last row.
    pub after: Vec<u8>,
}

impl Pieces {
    pub fn of(rows: &[[u32; 3]]) -> Pieces {
        let mut numbers = vec![rows.len() as u32];
        numbers.extend(rows.iter().flatten());
        let forms = numbers.iter().map(|number| shortest(u64::from(*number))).collect();
        Pieces { numbers, forms, after: Vec::new() }
    }

    pub fn bytes(&self) -> Vec<u8> {
        [self.forms.concat(), self.after.clone()].concat()
    }

    /// Where number i begins; with i one past the last, what is left over.
    pub fn place(&self, i: usize) -> usize {
        self.forms[..i].iter().map(Vec::len).sum()
    }

    pub fn put(&mut self, i: usize, number: u32) {
        self.numbers[i] = number;
        self.forms[i] = shortest(u64::from(number));
    }

    /// The faults that number i can have, or that what follows the last can.
    pub fn faults(&self, i: usize) -> Vec<u8> {
        if i == self.numbers.len() {
            return vec![60];
        }
        let own = match role(i) {
            Role::Count => Some(56),
            // It can fall if there is one before, above 0.
            Role::Version => (i > 1 && self.numbers[i - 3] > 0).then_some(59),
            Role::Key => Some(57),
            Role::Value => Some(58),
        };
        [53, 54, 55].into_iter().chain(own).collect()
    }

    /// Gives number i a fault that it can have, and answers where that is. A fault in
    /// the form leaves the number what it is, as far as it can.
    pub fn spoil(&mut self, random: &mut Random, i: usize, fault: u8) -> Refusal {
        let number = self.numbers.get(i).copied().map_or(0, u64::from);
        match fault {
            53 => {
                let most = number.min((1 << 28) - 1);
                let least = least_groups(most) + 1;
                let count = least + random.below(6 - least);
                self.forms[i] = groups(most, count);
            }
            54 => {
                let above = 1 + random.below(7) as u64;
                self.forms[i] = match random.below(3) {
                    // Five groups hold 35 bits.
                    0 => groups(number + (above << 32), 5),
                    // A fifth group with its high bit, and a last one or none.
                    1 => groups(number, 6),
                    _ => groups(number, 6)[..5].to_vec(),
                };
            }
            55 => {
                let kept = random.below(5);
                self.forms[i] = groups(number, 6)[..kept].to_vec();
                self.numbers.truncate(i + 1);
                self.forms.truncate(i + 1);
                self.after.clear();
            }
            56 => {
                let counts = [513, 514, 1 << 9 | 1 << 7, 1 << 10, 1 << 16, 1 << 31, u32::MAX];
                self.put(0, random.pick(&counts));
            }
            57 => {
                // Some are 1, 2 or 3 by their lower bits alone.
                let keys =
                    [0, 4, 5, 127, 129, 258, 1 << 14 | 3, 1 << 16 | 1, 1 << 31 | 2, u32::MAX];
                self.put(i, random.pick(&keys));
            }
            58 => {
                let [key, least] = random.pick(&[[1, 4], [3, 2]]);
                self.put(i - 1, key);
                let value = random.pick(&[0, 1, 124, 128, 256, 1 << 16, 1 << 28, u32::MAX - 4]);
                self.put(i, least + value);
            }
            59 => {
                let before = self.numbers[i - 3];
                let any = random.below(before as usize) as u32;
                self.put(i, random.pick(&[before - 1, any, 0]));
            }
            60 => {
                // At times what would be a row, or a number with a fault.
                let more = random.pick(&[&b"\0"[..], b"\x01\x01\x01", b"\x80", b"\x80\0"]);
                let count = 1 + random.below(9);
                self.after = if random.one_in(2) { more.to_vec() } else { random.bytes(count) };
            }
            _ => panic!("no fault of a settings file"),
        }
        Refusal { number: fault, place: self.place(i) }
    }
}

/// Any number, of any length in groups alike, at times the least or greatest of it.
pub fn any_number(random: &mut Random) -> u32 {
    let count = 1 + random.below(5);
    let least: u64 = if count == 1 { 0 } else { 1 << (7 * (count - 1)) };
    let end = (1u64 << (7 * count)).min(1 << 32);
    let any = least + random.next() % (end - least);
    random.pick(&[least, end - 1, any, any]) as u32
}

/// So many rows that the reader accepts.
pub fn good_rows(random: &mut Random, count: usize) -> Vec<[u32; 3]> {
    let mut version = random.pick(&[0, 0, 1, 2, 5, 120, 1 << 14, 1 << 28, u32::MAX - 500]);
    // Versions that often stay, or that soon have many groups.
    let steps = random.pick(&[[0, 0, 1], [0, 1, 2], [1, 1, 9], [0, 100, 40_000]]);
    let mut rows = Vec::new();
    for _ in 0..count {
        let value = match random.below(3) {
            0 => [1, random.below(4) as u32],
            1 => [2, any_number(random)],
            _ => [3, random.below(2) as u32],
        };
        rows.push([version, value[0], value[1]]);
        version = version.saturating_add(random.pick(&steps));
    }
    rows
}

/// A few bytes changed, taken away or put in, or the file cut or lengthened.
pub fn damage_file(random: &mut Random, bytes: &mut Vec<u8>) {
    let kind = random.below(6);
    for _ in 0..=random.below(3) {
        let at = random.below(bytes.len() + 1);
        // Small numbers and high bits matter most.
        let byte = random.pick(&[0, 1, 2, 3, 4, 0x10, 0x7f, 0x80, 0x81, 0xff]);
        match kind {
            0 if at < bytes.len() => bytes[at] = byte,
            1 if at < bytes.len() => bytes[at] ^= 1 << random.below(8),
            2 if at < bytes.len() => drop(bytes.remove(at)),
            3 => bytes.insert(at, byte),
            4 => bytes.truncate(at),
            _ => bytes.push(byte),
        }
    }
}
