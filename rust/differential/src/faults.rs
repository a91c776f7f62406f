//! Which faults of settings files a run came by: in which number, of how many groups, in which row, and beside which other.

use qollqamir::raw;

use crate::entries::at_least;
use crate::rows::{field_of, greatest, Field, MOST};

/// The first refusal's number; the others follow it, and the last is that of what is left over.
const FIRST: usize = 53;
const LEFT_OVER: usize = 60;

/// The refusals that name a number of the file.
const NUMBERS: usize = LEFT_OVER - FIRST;

const FIELDS: [&str; 4] = ["the row count", "a version", "a key", "a value"];

/// A number as it stands in a file, read on past what is wrong with it.
#[derive(Clone, Copy, Debug)]
pub struct Number {
    pub at: usize,
    /// With the last, which has no high bit, where there is one.
    pub groups: usize,
    pub ends: bool,
    /// Of its first five groups.
    pub value: u64,
    /// The last group, 0 where there is none.
    pub last: u8,
}

impl Number {
    pub fn at(bytes: &[u8], at: usize) -> Number {
        let own = bytes.get(at..).unwrap_or(&[]);
        let open = own.iter().take_while(|group| **group >= 0x80).count();
        let groups = own.len().min(open + 1);
        let add = |value: u64, group: &u8| value << 7 | u64::from(group & 0x7f);
        let value = own[..groups.min(5)].iter().rev().fold(0, add);
        Number { at, groups, ends: open < own.len(), value, last: own[..groups].last().copied().unwrap_or(0) }
    }

    /// Where the next one begins.
    pub fn end(&self) -> usize {
        self.at + self.groups
    }

    /// What is wrong with its form.
    pub fn form(&self) -> Option<usize> {
        match self.groups {
            0..=4 if !self.ends => Some(55),
            2..=5 if self.ends && self.last == 0 => Some(53),
            5 if !self.ends || self.value >> 32 != 0 => Some(54),
            6.. => Some(54),
            _ => None,
        }
    }

    /// Which rule it breaks, taken as a number of 32 bits where its form has more.
    fn own(&self, field: Field, around: &Around) -> Option<usize> {
        let (breaks, number) = match field {
            Field::Count => (self.value > MOST as u64, 56),
            Field::Version => ((self.value as u32) < around.before, 59),
            Field::Key => (greatest(self.value).is_none(), 57),
            Field::Value => (self.value > around.greatest.into() && around.greatest < u32::MAX, 58),
        };
        (self.groups > 0 && breaks).then_some(number)
    }

    /// How it is counted: by its groups; of one too large, apart from a fifth group with its high bit set, before more bytes or at the end.
    fn slot(&self) -> usize {
        match self.groups {
            5.. if !self.ends && self.groups == 5 => 7,
            groups => groups.min(6),
        }
    }
}

const SLOTS: [&str; 8] =
    ["no group", "1 group", "2 groups", "3 groups", "4 groups", "5 groups", "a fifth high bit before more", "a fifth high bit at the end"];

/// What the numbers of a row are judged by: the version before, and what the key's values may be.
struct Around {
    before: u32,
    greatest: u32,
}

impl Around {
    fn of(before: u64, key: u64) -> Around {
        // An unknown key's values are judged as key 1's.
        Around { before: before as u32, greatest: greatest(key & 0xffff_ffff).unwrap_or(3) }
    }
}

/// The first row, a middle one, the last, where there are several.
const ZONES: [&str; 3] = ["first row", "a middle row", "last row"];

/// What is wrong with the first of two numbers side by side: 53, 54 or its own rule.
const EARLIER: usize = 3;
/// And with the second: 53 to 55, its own rule, or it is left over.
const LATER: usize = 5;

fn earlier_slot(number: usize) -> Option<usize> {
    match number {
        55 => None,
        53 | 54 => Some(number - FIRST),
        _ => Some(2),
    }
}

/// Who told faults, and how often each comes at least in a run: by groups, by the row, at one byte with another, in two numbers side by
/// side.
pub struct Teller {
    name: &'static str,
    groups: u64,
    zones: u64,
    at_one_byte: u64,
    side_by_side: u64,
}

pub const READER: Teller = Teller { name: "read", groups: 100, zones: 500, at_one_byte: 500, side_by_side: 100 };
/// A writer makes no fault of a form.
pub const WRITER: Teller = Teller { name: "written", groups: 50, zones: 300, at_one_byte: 0, side_by_side: 500 };

/// How often a fault came, by the number told.
#[derive(Default)]
pub struct Faults {
    groups: [[[u64; SLOTS.len()]; FIELDS.len()]; NUMBERS],
    zones: [[[u64; ZONES.len()]; FIELDS.len()]; NUMBERS],
    /// 53 to 55 told where the number's own rule would be broken too.
    at_one_byte: [[u64; FIELDS.len()]; 3],
    /// By the first of the two.
    side_by_side: [[[u64; LATER]; EARLIER]; FIELDS.len()],
}

/// A fault that was told, with what stands around it.
pub struct Told {
    pub number: Number,
    pub field: Field,
    /// The refusal of its own rule, where that is broken.
    pub own: Option<usize>,
    /// The row it is in, and how many there are by the count.
    pub row: usize,
    pub rows: u64,
    /// What is wrong with the next number, or 60.
    pub next: Option<usize>,
}

/// What a walk over a file comes to first: a fault and its number, or where the last row ends.
pub fn walk(bytes: &[u8]) -> (usize, Option<Told>, usize) {
    let count = Number::at(bytes, 0);
    let (mut around, mut version) = (Around::of(0, 1), 0);
    let mut number = count;
    let rows = if count.form().is_none() { count.value } else { 0 };
    for i in 0.. {
        let field = field_of(i);
        let (form, own) = (number.form(), number.own(field, &around));
        match field {
            Field::Version => version = number.value,
            Field::Key => around = Around::of(around.before.into(), number.value),
            Field::Value => around = Around::of(version, 1),
            Field::Count => (),
        }
        let last = i as u64 == 3 * count.value;
        if let Some(told) = form.or(own) {
            let next = match () {
                _ if !number.ends || i == 0 && last => None,
                _ if last => (number.end() < bytes.len()).then_some(LEFT_OVER),
                _ => {
                    let next = Number::at(bytes, number.end());
                    next.form().or(next.own(field_of(i + 1), &around))
                }
            };
            return (told, Some(Told { number, field, own, row: i.saturating_sub(1) / 3, rows: count.value, next }), number.at);
        }
        if i as u64 == 3 * rows {
            break;
        }
        number = Number::at(bytes, number.end());
    }
    let left = number.end() < bytes.len();
    (if left { LEFT_OVER } else { 0 }, None, number.end())
}

impl Faults {
    /// Notes what a call told, by what the walk came to.
    pub fn note(&mut self, verdict: raw::Verdict, told: &Told) {
        let (which, field) = (verdict.number - FIRST, told.field as usize);
        self.groups[which][field][told.number.slot()] += 1;
        if told.field != Field::Count && told.rows > 1 {
            let zone = if told.row == 0 { 0 } else { 1 + usize::from(told.row as u64 + 1 == told.rows) };
            self.zones[which][field][zone] += 1;
        }
        if which < 3 && told.own.is_some() {
            self.at_one_byte[which][field] += 1;
        }
        if let (Some(earlier), Some(next)) = (earlier_slot(verdict.number), told.next) {
            let later = match next {
                53..=55 => next - FIRST,
                LEFT_OVER => 4,
                _ => 3,
            };
            self.side_by_side[field][earlier][later] += 1;
        }
    }

    /// Prints how often each came, and adds those that came less often than they must.
    pub fn summary(&self, teller: &Teller, missed: &mut Vec<String>) {
        for (which, field, slots) in own_slots(teller) {
            let what = format!("{} of {} ({})", which + FIRST, FIELDS[field], teller.name);
            print!("{what}:");
            for slot in slots {
                noted(&what, SLOTS[slot], self.groups[which][field][slot], teller.groups, missed);
            }
            // No version is below the first.
            let none = if field == Field::Count as usize { ZONES.len() } else { usize::from(which + FIRST == 59) };
            for (zone, count) in ZONES.iter().zip(self.zones[which][field]).skip(none) {
                noted(&what, zone, count, teller.zones, missed);
            }
            println!();
        }
        for (which, counts) in self.at_one_byte.iter().enumerate().filter(|_| teller.forms()) {
            let what = format!("{} at one byte with", which + FIRST);
            print!("{what}:");
            for (own, count) in OWN.iter().zip(counts) {
                noted(&what, &own.to_string(), *count, teller.at_one_byte, missed);
            }
            println!();
        }
        // A count breaks its rule before a version's form, not before its rule.
        for (field, counts) in self.side_by_side.iter().enumerate().skip(usize::from(!teller.forms())) {
            let what = format!("{} and the next number ({})", FIELDS[field], teller.name);
            let next = if field == Field::Value as usize { Field::Version as usize } else { field + 1 };
            print!("{what}:");
            for (earlier, counts) in [53, 54, OWN[field]].into_iter().zip(counts) {
                for (later, count) in [53, 54, 55, OWN[next], LEFT_OVER].into_iter().zip(counts) {
                    if teller.tells(field, earlier, later) {
                        noted(&what, &format!("{earlier} before {later}"), *count, teller.side_by_side, missed);
                    }
                }
            }
            println!();
        }
    }
}

fn noted(what: &str, which: &str, count: u64, least: u64, missed: &mut Vec<String>) {
    print!(" {which} {count},");
    at_least(&format!("{what}, {which}"), count, least, missed);
}

/// The refusal of each field's own rule.
const OWN: [usize; 4] = [56, 59, 57, 58];

impl Teller {
    fn forms(&self) -> bool {
        self.at_one_byte > 0
    }

    /// Whether there are two such faults side by side.
    fn tells(&self, field: usize, earlier: usize, later: usize) -> bool {
        match later {
            53..=55 => self.forms(),
            LEFT_OVER => self.forms() && field == Field::Value as usize,
            // No version is below the first, which follows the count.
            _ => field != Field::Count as usize && (self.forms() || earlier == OWN[field]),
        }
    }
}

/// In which numbers, and of how many groups, each refusal is told.
fn own_slots(teller: &Teller) -> Vec<(usize, usize, Vec<usize>)> {
    let mut all = Vec::new();
    if teller.forms() {
        for (which, slots) in [(0, vec![2, 3, 4, 5]), (1, vec![5, 6, 7]), (2, vec![0, 1, 2, 3, 4])] {
            all.extend((0..FIELDS.len()).map(|field| (which, field, slots.clone())));
        }
    }
    for (field, number) in OWN.into_iter().enumerate() {
        let slots = match field {
            0 if !teller.forms() => vec![2],
            0 => vec![2, 3, 4, 5],
            _ => vec![1, 2, 3, 4, 5],
        };
        all.push((number - FIRST, field, slots));
    }
    all
}
