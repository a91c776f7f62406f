//! `cargo run --release --example settings DIRECTORY [COUNT]` writes 400 (or COUNT)
//! made-up settings files. Of ten, three are accepted, with no, one, few, many or 512
//! rows; three are refused with a number that was aimed at (53 to 60 in turn) and have
//! no other fault; one has two faults in one number, one in two neighbours, and two are
//! damaged anyhow. A few are at the programs' limit or past it. It prints how many
//! there are of each answer.

#[path = "../tests/common/mod.rs"]
mod common;
use common::settings::*;
use common::*;
use reference::{settings, Refusal, LONGEST_READ};
use std::collections::{BTreeMap, BTreeSet};

fn main() {
    let Some((directory, count)) = directory_and_count("settings", 400) else {
        return;
    };
    let mut random = Random(0x9e37_79b9_7f4a_7c15);
    let mut counts = Counts::default();
    let mut aims = (53..=60).cycle();
    for number in 0..count {
        let bytes = match number % 10 {
            0 | 3 | 6 => good(&mut random).bytes(),
            1 | 4 | 8 => aimed(&mut random, aims.next().expect("they never end")),
            2 => two_of_one(&mut random),
            5 => two_neighbours(&mut random),
            _ => anyhow(&mut random),
        };
        let bytes = match number % 100 {
            30 => stretched(&mut random, bytes, LONGEST_READ),
            60 => stretched(&mut random, bytes, LONGEST_READ + 1),
            65 => stretched(&mut random, bytes, 70_000),
            _ => bytes,
        };
        counts.add(&bytes);
        let path = directory.join(format!("{number:04}.bin"));
        std::fs::write(path, bytes).expect("the file can be written");
    }
    counts.print();
    if count >= 400 {
        counts.check(count);
    }
}

/// How many files there are of each kind. Those that the program takes for too long
/// are in no other count.
#[derive(Default)]
struct Counts {
    /// By the number of rows.
    accepted: BTreeMap<usize, usize>,
    /// By number and place.
    refused: BTreeMap<(u8, usize), usize>,
    too_long: usize,
}

impl Counts {
    fn add(&mut self, bytes: &[u8]) {
        if bytes.len() > LONGEST_READ {
            self.too_long += 1;
            return;
        }
        match settings(bytes) {
            Ok(settings) => *self.accepted.entry(settings.rows.len()).or_default() += 1,
            Err(Refusal { number, place }) => {
                *self.refused.entry((number, place)).or_default() += 1
            }
        }
    }

    /// How many were refused with the number, and at how many places.
    fn refused(&self, number: u8) -> (usize, usize) {
        let with: Vec<usize> =
            self.refused.iter().filter(|((n, _), _)| *n == number).map(|(_, n)| *n).collect();
        (with.iter().sum(), with.len())
    }

    fn print(&self) {
        let rows = |count| self.accepted.get(&count).copied().unwrap_or(0);
        println!(
            "accepted: {}, {} of no row, {} of one, {} of 512",
            self.accepted.values().sum::<usize>(),
            rows(0),
            rows(1),
            rows(512)
        );
        for number in 53..=60 {
            let (files, places) = self.refused(number);
            println!("refused {number}: {files}, places: {places}");
        }
        println!("too long: {}", self.too_long);
    }

    fn check(&self, count: usize) {
        let accepted: usize = self.accepted.values().sum();
        assert!(4 * accepted > count, "a quarter accepted");
        let rows: BTreeSet<usize> = self.accepted.keys().copied().collect();
        assert!(rows.is_superset(&BTreeSet::from([0, 1, 512])) && rows.len() > 20, "{rows:?}");
        for number in 53..=60 {
            let (files, places) = self.refused(number);
            assert!(40 * files >= count, "a fortieth with {number}");
            // The count alone gives 56.
            assert!(places == 1 && number == 56 || places > 10, "places of {number}");
        }
    }
}

/// A file that is accepted.
fn good(random: &mut Random) -> Pieces {
    let count = match random.below(8) {
        0 => 0,
        1 => 1,
        2..=4 => 2 + random.below(9),
        5 | 6 => 10 + random.below(502),
        _ => 512,
    };
    let rows = good_rows(random, count);
    Pieces::of(&rows)
}

/// A number of the file, mostly any, at times one of the first or last.
fn any_place(random: &mut Random, pieces: &Pieces) -> usize {
    let count = pieces.numbers.len() + 1;
    match random.below(4) {
        0 => random.below(count.min(8)),
        1 => count - 1 - random.below(count.min(5)),
        _ => random.below(count),
    }
}

/// A file with this fault alone.
fn aimed(random: &mut Random, number: u8) -> Vec<u8> {
    loop {
        let mut pieces = good(random);
        let i = any_place(random, &pieces);
        if pieces.faults(i).contains(&number) {
            let refusal = pieces.spoil(random, i, number);
            return refused_so(&pieces, refusal);
        }
    }
}

/// A file with a number that breaks its own rule (56 to 59) and another as well.
fn two_of_one(random: &mut Random) -> Vec<u8> {
    loop {
        let mut pieces = good(random);
        let i = any_place(random, &pieces);
        let faults = pieces.faults(i);
        if let [53, 54, 55, own] = faults[..] {
            pieces.spoil(random, i, own);
            let first = random.pick(&[53, 54, 55]);
            let refusal = pieces.spoil(random, i, first);
            return refused_so(&pieces, refusal);
        }
    }
}

/// A file with faults in two numbers next to each other, or in the last number and
/// bytes after it.
fn two_neighbours(random: &mut Random) -> Vec<u8> {
    let mut pieces = good(random);
    let i = any_place(random, &pieces).min(pieces.numbers.len() - 1);
    let [first, second] = [i, i + 1].map(|i| {
        let faults = pieces.faults(i);
        random.pick(&faults)
    });
    // The later number first, since the other may take its key away.
    pieces.spoil(random, i + 1, second);
    let refusal = pieces.spoil(random, i, first);
    refused_so(&pieces, refusal)
}

/// The bytes, which are refused with this number at this place.
fn refused_so(pieces: &Pieces, refusal: Refusal) -> Vec<u8> {
    let bytes = pieces.bytes();
    assert_eq!(settings(&bytes), Err(refusal));
    bytes
}

/// Any of these with a few bytes changed, cut off or added.
fn anyhow(random: &mut Random) -> Vec<u8> {
    let mut bytes = match random.below(4) {
        0 => two_of_one(random),
        1 => two_neighbours(random),
        _ => good(random).bytes(),
    };
    damage_file(random, &mut bytes);
    damage_file(random, &mut bytes);
    bytes
}

/// The file with more bytes at its end.
fn stretched(random: &mut Random, mut bytes: Vec<u8>, length: usize) -> Vec<u8> {
    let more = length - bytes.len();
    bytes.extend(random.bytes(more));
    bytes
}
