//! `cargo run --release --example hostile DIRECTORY [COUNT]` writes 3,000 (or
//! COUNT) made-up containers of at most 66,000 bytes for the small program. Of
//! ten, four are such as every edition accepts, two have an entry name that
//! edition 3 refuses and edition 1 passes, three are refused with a number that
//! was aimed at (1 and 3 to 23 in turn), and one is damaged anyhow. Many strings
//! have letters of several bytes, and 22 and 24 are given for ill-formed ones, too.
//! Many have several PRIV parts, some that give 9 for another name among them. It
//! prints how many there are of each answer.

#[path = "../tests/common/mod.rs"]
mod common;
use common::hostile::*;
use common::*;
use reference::{find_occurrence, open, table, KNOWN, LONGEST_READ, MOST_PARTS, NEWEST};
use std::collections::BTreeMap;

fn main() {
    let Some((directory, count)) = directory_and_count("hostile", 3000) else {
        return;
    };
    let mut random = Random(0x5eed_0f0d_dba1_1abe);
    let mut counts = Counts::default();
    let mut aims = NUMBERS.iter().cycle();
    for number in 0..count {
        let bytes = match number % 10 {
            0 | 5 => bad_entry_name(&mut random),
            2 | 6 | 8 => aimed(&mut random, *aims.next().expect("they never end")),
            4 => anyhow(&mut random),
            _ => good(&mut random),
        };
        // The limit is met by good containers and bad entry names.
        let bytes = match number % 100 {
            31 | 50 => stretched(&mut random, bytes, LONGEST_READ),
            33 | 55 => stretched(&mut random, bytes, LONGEST_READ + 1),
            37 => stretched(&mut random, bytes, LONGEST_READ - 1),
            39 => stretched(&mut random, bytes, 66_000),
            _ => bytes,
        };
        counts.add(&bytes);
        let path = directory.join(format!("{number:04}.bin"));
        std::fs::write(path, bytes).expect("the file can be written");
    }
    counts.print();
    assert!(10 * counts.entry_name >= count, "a tenth that edition 3 alone refuses");
    assert!(3 * counts.every_edition >= count - count % 10, "a third that every edition accepts");
    if count >= 300 {
        assert!(counts.ill_formed.iter().all(|number| *number > 0), "22 and 24 for such strings");
        assert!(20 * counts.longer >= count, "a twentieth with letters of several bytes");
        assert!(20 * counts.several >= count, "a twentieth with several private parts");
        assert!(counts.beside > 0, "9 for another name beside several private parts");
    }
}

/// How many containers there are of each kind. Those that the small program
/// takes for too long are in no other count.
#[derive(Default)]
struct Counts {
    /// By the answers of editions 3 and 1, refusals' numbers or nothing.
    answers: BTreeMap<[Option<u8>; 2], usize>,
    every_edition: usize,
    /// Edition 3 gives 24, edition 1 accepts.
    entry_name: usize,
    too_long: usize,
    longest: usize,
    most_parts: usize,
    unknown: usize,
    odd: usize,
    gaps: usize,
    /// Edition 3 accepts, and a string has fewer code points than bytes.
    longer: usize,
    /// Edition 3 gives 22 or 24 for a string that isn't well formed.
    ill_formed: [usize; 2],
    /// Edition 1 accepts, and there are several private parts.
    several: usize,
    /// 9 for another name, and there are several private parts.
    beside: usize,
}

impl Counts {
    fn add(&mut self, bytes: &[u8]) {
        assert!(bytes.len() <= 66_000);
        if bytes.len() > LONGEST_READ {
            self.too_long += 1;
            return;
        }
        let by = |edition| open(bytes, edition).err().map(|refusal| refusal.number);
        let [newest, one] = [by(NEWEST), by(1)];
        // Nothing but the entry name comes between them.
        assert!(newest == one || newest == Some(24) && one.is_none());
        *self.answers.entry([newest, one]).or_default() += 1;
        self.every_edition += usize::from((0..=NEWEST).all(|edition| by(edition).is_none()));
        self.entry_name += usize::from(newest == Some(24) && one.is_none());
        self.longer += usize::from(has_longer(bytes));
        for (count, number) in self.ill_formed.iter_mut().zip([22, 24]) {
            *count += usize::from(newest == Some(number) && is_ill_formed(bytes));
        }
        self.beside += usize::from(one == Some(9) && private_parts(bytes) > 1);
        if one.is_some() {
            return;
        }
        let parts = table(bytes).expect("it was opened");
        let any_name = |test: fn(&[u8; 4]) -> bool| parts.iter().any(|part| test(&part.name));
        let listed = 32 + 4 * parts.len();
        let filled: usize = parts.iter().map(|part| 8 + part.size).sum();
        self.longest += usize::from(bytes.len() == LONGEST_READ);
        self.most_parts += usize::from(parts.len() == MOST_PARTS);
        self.unknown += usize::from(any_name(|name| !KNOWN.contains(name)));
        self.odd += usize::from(any_name(|name| !name.iter().all(u8::is_ascii_graphic)));
        self.gaps += usize::from(listed + filled < bytes.len());
        self.several += usize::from(find_occurrence(&parts, *b"PRIV", 1).is_some());
    }

    fn print(&self) {
        let word = |answer: &Option<u8>| match answer {
            None => String::from("accepted"),
            Some(number) => format!("refused {number}"),
        };
        for ([newest, one], count) in &self.answers {
            println!("edition 3 {}, edition 1 {}: {count}", word(newest), word(one));
        }
        println!("too long: {}", self.too_long);
        println!("every edition accepts: {}", self.every_edition);
        println!(
            "of those that edition 1 accepts: {} of 65,536 bytes, {} of 96 parts, {} with gaps, \
             {} with unknown names, {} with odd bytes in a name",
            self.longest, self.most_parts, self.gaps, self.unknown, self.odd
        );
        let [element, entry] = self.ill_formed;
        println!(
            "edition 3 accepts and a string has letters of several bytes: {}; refuses a string that \
             isn't well formed: {element} with 22, {entry} with 24",
            self.longer
        );
        println!(
            "several PRIV parts: edition 1 accepts {}, {} refused with 9 for another name",
            self.several, self.beside
        );
    }
}

/// How many private parts there are in a container that passes 8.
fn private_parts(bytes: &[u8]) -> usize {
    let number = |at: usize| u32::from_le_bytes(bytes[at..at + 4].try_into().unwrap()) as usize;
    (0..number(28)).filter(|i| bytes[number(32 + 4 * i)..].starts_with(b"PRIV")).count()
}

/// Whether edition 3 shows a string of fewer code points than bytes.
fn has_longer(bytes: &[u8]) -> bool {
    open(bytes, NEWEST).is_ok_and(|opening| {
        let names = (0..opening.element_count().unwrap_or(0)).map(|i| opening.string(i));
        let mut texts = names.chain([opening.entry_name()]).flatten();
        texts.any(|text| text.points < text.bytes.len())
    })
}

/// Whether a container that edition 3 refuses with 22 or 24 gets another answer
/// with letters in place of all bytes of its strings outside ASCII.
fn is_ill_formed(bytes: &[u8]) -> bool {
    // Edition 0 reads up to the string table.
    let opening = open(bytes, 0).expect("22 and 24 are of later editions");
    let (i, data) = opening.part(*b"PSV0").expect("it was opened");
    let at = opening.layout.end;
    let length = u32::from_le_bytes(data[at..at + 4].try_into().unwrap()) as usize;
    let start = opening.parts[i].offset + 8 + at + 4;
    let mut letters = bytes.to_vec();
    for byte in &mut letters[start..start + length] {
        if !byte.is_ascii() {
            *byte = b'x';
        }
    }
    answer(open(&letters, NEWEST)) != answer(open(bytes, NEWEST))
}
