//! How many pairs of names the table reader compares, against the independent reader, against the formulas and against what is known of a
//! table by how it was made; and which matches, PRIV parts and refusals a run came by.

use std::collections::BTreeSet;
use std::mem::take;

use qollqamir::{raw, CountedTable};
use reference::{Part, Refusal};

use crate::compare::{self, field, parts_of, refusal_of, same, same_table, verdict_of, Call, Check, Hits, Mismatch};
use crate::entries::{at_least, circumstances, entries_of, first_repeat, is_priv, names_in, privates};
use crate::make::{self, get4, order, put4, Parts};
use crate::random::Random;
use crate::repeats::{other, MOST, PRIV};
use crate::LONGEST;

/// One case in so many makes a table whose number is known, so that a run stays short.
const EVERY: u64 = 16;

/// All pairs of so many names.
const fn all(count: usize) -> u64 {
    (count * count.saturating_sub(1) / 2) as u64
}

const _: () = assert!(all(MOST) == 4560);

/// The pairs up to part `k` and part `j`, which match: all of the parts before `k`, then `k` with those up to `j`.
const fn up_to(k: usize, j: usize) -> u64 {
    all(k) + j as u64 + 1
}

fn set(pairs: u64) -> raw::Field {
    field(u32::try_from(pairs).ok())
}

/// The plain calls show the reference's table or refusal; the one that counts its number beside it, the other none.
fn same_tables(bytes: &[u8], [plain, counted]: [&raw::Parts; 2], expected: &Result<Vec<Part>, Refusal>, pairs: u64) -> Check {
    let table = parts_of(expected);
    same_table(bytes, plain, &table, "table")?;
    same_table(bytes, counted, &raw::Parts { pairs: set(pairs), ..table }, "counted table")
}

/// The safe call that counts shows both.
fn same_safe(bytes: &[u8], safe: &CountedTable, expected: &Result<Vec<Part>, Refusal>, pairs: u64) -> Check {
    let entries = expected.as_ref().map(|parts| entries_of(bytes, parts)).map_err(|refusal| *refusal);
    let table = safe.table.as_ref().map_err(|refusal| refusal_of(*refusal));
    same!(bytes, table, entries.as_ref().map_err(|refusal| *refusal), "safe counted table");
    same!(bytes, safe.pairs as u64, pairs, "pairs of the safe counted table");
    Ok(())
}

/// The calls that read a table, on any bytes: the answer of the one that doesn't count, and the reference's.
pub fn table(bytes: &[u8], hits: &mut Hits) -> Result<(raw::Parts, Result<Vec<Part>, Refusal>), Mismatch> {
    let (expected, pairs) = reference::table_with_pairs(bytes);
    let (plain, counted) = (raw::table(bytes), raw::table_counted(bytes));
    same_tables(bytes, [&plain, &counted], &expected, pairs)?;
    same_safe(bytes, &qollqamir::table_counted(bytes), &expected, pairs)?;
    same!(bytes, counted.pairs, set(by_formula(bytes, verdict_of(&expected))), "pairs by the formula");
    hits.note(Call::Table, plain.verdict);
    hits.note(Call::Counted, counted.verdict);
    hits.pairs.met.table(bytes, &counted);
    Ok((plain, expected))
}

/// The number of a verdict, from the names as they stand in the bytes.
fn by_formula(bytes: &[u8], raw::Verdict { number, place }: raw::Verdict) -> u64 {
    match number {
        0 => all(get4(bytes, 28) as usize),
        9 => {
            let names = names_in(bytes, place + 1);
            names.iter().position(|name| *name == names[place]).map_or(0, |first| up_to(place, first))
        }
        _ => 0,
    }
}

/// Names of parts, and the first two in the walk that match, by how they were made: the later one's number and the earlier one's.
struct Made {
    names: Vec<[u8; 4]>,
    first: Option<(usize, usize)>,
}

impl Made {
    fn verdict(&self) -> raw::Verdict {
        self.first.map_or(raw::Verdict { number: 0, place: 0 }, |(k, _)| raw::Verdict { number: 9, place: k })
    }

    fn pairs(&self) -> u64 {
        self.first.map_or(all(self.names.len()), |(k, j)| up_to(k, j))
    }
}

/// A name that isn't PRIV and isn't among the names; often it is one of them, or PRIV, but for a bit.
fn fresh(random: &mut Random, names: &[[u8; 4]]) -> [u8; 4] {
    loop {
        let mut name = match random.below(8) {
            0..=3 if !names.is_empty() => random.pick(names),
            0..=4 => PRIV,
            5 => other(random),
            _ => (random.next() as u32).to_le_bytes(),
        };
        if name == PRIV || names.contains(&name) {
            name[random.below(4)] ^= 1 << random.below(8);
        }
        if name != PRIV && !names.contains(&name) {
            return name;
        }
    }
}

/// In how many names one is PRIV: none, some, every other one, all that can be.
const SHARES: [usize; 6] = [0, 0, 8, 3, 2, 1];

fn some(random: &mut Random, share: usize) -> bool {
    share > 0 && random.one_in(share)
}

/// Names that pass: no two are the same but for PRIV, which is one in `share` of them, or with 0 none.
fn passing(random: &mut Random, count: usize, share: usize) -> Made {
    let mut names = Vec::new();
    for _ in 0..count {
        let name = if some(random, share) { PRIV } else { fresh(random, &names) };
        names.push(name);
    }
    Made { names, first: None }
}

/// Names of which part `k` is the first that has an earlier one's name, which is part `j`'s. Of those that follow more may match.
fn matching(random: &mut Random, k: usize, j: usize, share: usize) -> Made {
    let mut names = passing(random, k, share).names;
    if names[j] == PRIV {
        names[j] = fresh(random, &names);
    }
    names.push(names[j]);
    let count = k + 1 + random.below(MOST - k);
    let (count, more) = (random.pick(&[k + 1, count, MOST]), random.one_in(2));
    while names.len() < count {
        let name = match random.below(4) {
            0 if more => names[j],
            1 if more => random.pick(&names),
            _ if some(random, share) => PRIV,
            _ => fresh(random, &names),
        };
        names.push(name);
    }
    Made { names, first: Some((k, j)) }
}

/// PRIV parts before, between and after two of another name.
fn between(name: [u8; 4], [before, between, after]: [usize; 3]) -> Made {
    let mut names = vec![PRIV; before + between + after + 2];
    let (k, j) = (before + between + 1, before);
    (names[j], names[k]) = (name, name);
    Made { names, first: Some((k, j)) }
}

/// Names of any of these kinds.
fn any(random: &mut Random) -> Made {
    let share = random.pick(&SHARES);
    match random.below(8) {
        0 => {
            let count = random.below(MOST + 1);
            let count = random.pick(&[count, MOST]);
            passing(random, count, share)
        }
        1 => {
            let count = random.below(MOST - 1);
            let before = random.below(count + 1);
            let middle = random.below(count - before + 1);
            between(fresh(random, &[]), [before, middle, count - before - middle])
        }
        _ => {
            let k = 1 + random.below(MOST - 1);
            let j = random.below(k);
            matching(random, k, j, share)
        }
    }
}

/// A container of small parts, some of whose data are a name, with small gaps or none.
fn container(random: &mut Random, names: &[[u8; 4]]) -> Vec<u8> {
    let mut data = || match random.below(8) {
        0 => random.pick(names).to_vec(),
        1..=3 => {
            let len = 1 + random.below(3);
            random.bytes(len)
        }
        _ => Vec::new(),
    };
    let parts: Parts = names.iter().map(|name| (*name, data())).collect();
    let gap: fn(&mut Random) -> usize = if random.one_in(2) { |_| 0 } else { |random| random.below(3) };
    make::spaced(random, &parts, gap).0
}

/// A container of names, whose verdict and number are known.
fn whole(random: &mut Random, made: &Made, hits: &mut Hits) -> Check {
    let bytes = container(random, &made.names);
    known(random, &bytes, made.verdict(), made.pairs(), hits)
}

/// The calls on a table whose verdict and number are known by how it was made; now and then all calls on a table.
fn known(random: &mut Random, bytes: &[u8], verdict: raw::Verdict, pairs: u64, hits: &mut Hits) -> Check {
    let counted = raw::table_counted(bytes);
    same!(bytes, (counted.verdict, counted.pairs), (verdict, set(pairs)), "verdict and pairs by how a table was made");
    if random.one_in(16) && bytes.len() < LONGEST {
        return compare::table(random, bytes, hits);
    }
    table(bytes, hits).map(drop)
}

/// Bytes that a check from 1 to 7 refuses, whatever the names are.
fn spoilt(random: &mut Random, made: &Made, number: usize) -> Vec<u8> {
    let mut names = made.names.clone();
    match number {
        6 if random.one_in(2) => names.resize(MOST + 1, PRIV),
        // So few that the offset table of 96 would not fit.
        7 => names.truncate(16),
        _ => (),
    }
    let mut bytes = container(random, &names);
    let (len, bit) = (bytes.len(), 1 << random.below(8));
    match number {
        1 => bytes.truncate(random.below(32)),
        2 => {
            bytes.resize(LONGEST + 1, 7);
            put4(&mut bytes, 24, LONGEST as u32 + 1);
        }
        3 => bytes[random.below(4)] ^= bit,
        4 => bytes[20 + random.below(4)] ^= bit,
        5 => {
            let other = len ^ 1 << random.below(32);
            let size = random.pick(&[len - 1, len + 1, other, 0]);
            put4(&mut bytes, 24, size as u32);
        }
        6 if names.len() <= MOST => put4(&mut bytes, 28, random.pick(&[97, 98, 128, 256, 65_536 + 2, 1 << 31, u32::MAX])),
        7 => {
            let least = (len - 32) / 4 + 1;
            put4(&mut bytes, 28, (least + random.below(MOST + 1 - least)) as u32);
        }
        _ => (),
    }
    bytes
}

/// Where the part before one ends, or, before the first, the offset table.
fn end_before(bytes: &[u8], part: usize) -> usize {
    if part == 0 {
        return 32 + 4 * get4(bytes, 28) as usize;
    }
    let before = get4(bytes, 28 + 4 * part) as usize;
    before + 8 + get4(bytes, before + 4) as usize
}

/// Makes a part start before the one before it ends, or its header go past the end, or its data.
fn put_outside(random: &mut Random, bytes: &mut [u8], part: usize) {
    let (at, len) = (32 + 4 * part, bytes.len() as u32);
    let offset = get4(bytes, at);
    match random.below(3) {
        0 => {
            let before = end_before(bytes, part) as u32;
            put4(bytes, at, random.pick(&[before - 1, before - 1, 32, 0]));
        }
        1 => put4(bytes, at, random.pick(&[len - 7, len, u32::MAX - 7, u32::MAX])),
        _ => put4(bytes, offset as usize + 4, random.pick(&[len - offset - 7, len - offset - 7, 1 << 31, u32::MAX - 7, u32::MAX])),
    }
}

/// How often each check from 1 to 7 is made to refuse. The files that 2 refuses are long.
const TIMES: usize = 64;
const LONG_TIMES: usize = 4;

/// The tables of every run: a match of each two of 96 parts; PRIV parts alone and around a match; tables that pass; every refusal before 9.
pub fn fixed(seed: u64, hits: &mut Hits) -> Check {
    let random = &mut Random::new(seed, 1 << 60);
    // Counted apart: what a run must have come by elsewhere is not to come of these.
    let apart = &mut Hits::default();
    for (k, j) in (1..MOST).flat_map(|k| (0..k).map(move |j| (k, j))) {
        let share = random.pick(&SHARES);
        let made = matching(random, k, j, share);
        whole(random, &made, apart)?;
    }
    passed(random, apart)?;
    around(random, apart)?;
    before_nine(random, apart)?;
    hits.pairs.made = take(&mut apart.pairs.met);
    wrong_answers(random, hits)
}

/// Tables of every count that pass, with no PRIV part, with some, and of PRIV parts alone; and all names that are PRIV but for a bit.
fn passed(random: &mut Random, hits: &mut Hits) -> Check {
    for count in 0..=MOST {
        for share in [0, 3, 1] {
            let made = passing(random, count, share);
            whole(random, &made, hits)?;
        }
    }
    for share in SHARES.into_iter().cycle().take(32) {
        let made = passing(random, MOST, share);
        whole(random, &made, hits)?;
    }
    for _ in 0..8 {
        let names = order(random, MOST).into_iter().map(|i| if i < 32 { near(i) } else { PRIV }).collect();
        whole(random, &Made { names, first: None }, hits)?;
    }
    Ok(())
}

/// PRIV but for a bit.
fn near(bit: usize) -> [u8; 4] {
    (u32::from_le_bytes(PRIV) ^ 1 << bit).to_le_bytes()
}

/// So many PRIV parts before, between and after a match: few, half of all, as many as there can be.
fn arrangements() -> impl Iterator<Item = [usize; 3]> {
    let some = [0, 1, 2, 3, 31, 47, 92, 93, 94];
    let all = some.into_iter().flat_map(move |before| some.map(|middle| some.map(|after| [before, middle, after])));
    all.flatten().filter(|places| places.iter().sum::<usize>() <= MOST - 2)
}

/// And before, between and after two of a name that is PRIV but for a bit.
const NEAR_PLACES: [[usize; 3]; 5] = [[0, 0, 1], [0, 1, 0], [1, 0, 0], [2, 3, 2], [60, 20, 14]];

/// PRIV parts before, between and after a match, as many as there can be and fewer; of every name that is PRIV but for a bit, too.
fn around(random: &mut Random, hits: &mut Hits) -> Check {
    for places in arrangements() {
        let made = between(fresh(random, &[]), places);
        whole(random, &made, hits)?;
    }
    for name in (0..32).map(near) {
        for places in NEAR_PLACES {
            whole(random, &between(name, places), hits)?;
        }
        let mut names = vec![PRIV; 1 + random.below(12)];
        names.insert(random.below(names.len() + 1), name);
        whole(random, &Made { names, first: None }, hits)?;
    }
    Ok(())
}

/// Refusals 1 to 8, each with no pair, also where names match: 8 at every part, before a match and after it.
fn before_nine(random: &mut Random, hits: &mut Hits) -> Check {
    for number in 1..8 {
        for i in 0..if number == 2 { LONG_TIMES } else { TIMES } {
            let made = if i % 4 == 0 { passing(random, 12, 2) } else { early(random) };
            let bytes = spoilt(random, &made, number);
            known(random, &bytes, raw::Verdict { number, place: 0 }, 0, hits)?;
        }
    }
    for place in 0..MOST {
        for i in 0..9 {
            let share = random.pick(&SHARES);
            // A match before the part, at any place, or none.
            let k = match i {
                0..=3 if place > 1 => 1 + random.below(place - 1),
                _ => 1 + random.below(MOST - 1),
            };
            let j = random.below(k);
            let mut names = if i < 8 { matching(random, k, j, share).names } else { passing(random, place + 1, share).names };
            while names.len() <= place {
                names.push(fresh(random, &names));
            }
            let mut bytes = container(random, &names);
            put_outside(random, &mut bytes, place);
            known(random, &bytes, raw::Verdict { number: 8, place }, 0, hits)?;
        }
    }
    Ok(())
}

/// Names of which two among the first sixteen match.
fn early(random: &mut Random) -> Made {
    let k = 1 + random.below(15);
    let (j, share) = (random.below(k), random.pick(&SHARES));
    matching(random, k, j, share)
}

/// A table whose number is known, or which a check before 9 refuses.
pub fn case(seed: u64, number: u64, hits: &mut Hits) -> Check {
    if !number.is_multiple_of(EVERY) {
        return Ok(());
    }
    // Other numbers than any other of the case draws.
    let random = &mut Random::new(seed, number ^ 1 << 59);
    let made = any(random);
    match random.pick(&[0, 0, 0, 0, 0, 0, 0, 1, 3, 4, 5, 6, 7, 8, 8]) {
        8 if !made.names.is_empty() => {
            let place = random.below(made.names.len());
            let mut bytes = container(random, &made.names);
            put_outside(random, &mut bytes, place);
            known(random, &bytes, raw::Verdict { number: 8, place }, 0, hits)
        }
        0 | 8 => whole(random, &made, hits),
        number => {
            let bytes = spoilt(random, &made, number);
            known(random, &bytes, raw::Verdict { number, place: 0 }, 0, hits)
        }
    }
}

/// The words of a table's record; a number of 64 bits has two.
const WORDS: usize = 8 + 5 * MOST;

/// Changes bits of one word.
fn make_wrong(parts: &mut raw::Parts, word: usize, bits: u32) {
    let long = (bits as usize) << (32 * (word % 2));
    match word {
        0 | 1 => parts.verdict.number ^= long,
        2 | 3 => parts.verdict.place ^= long,
        4 | 5 => parts.count ^= long,
        6 => parts.pairs.set ^= bits,
        7 => parts.pairs.value ^= bits,
        _ => {
            let lists = [&mut parts.names, &mut parts.offsets, &mut parts.sizes, &mut parts.occurrences, &mut parts.gaps];
            let (list, i) = ((word - 8) / MOST, (word - 8) % MOST);
            lists[list][i] ^= bits;
        }
    }
}

/// Answers that are made wrong in one word, or safe ones in their number or their entries: the comparison must tell each.
fn wrong_answers(random: &mut Random, hits: &mut Hits) -> Check {
    let full = passing(random, MOST, 3);
    let (first, last, middle) = (matching(random, 1, 0, 0), matching(random, MOST - 1, MOST - 2, 8), early(random));
    for made in [passing(random, 0, 0), full, first, last, middle] {
        let bytes = container(random, &made.names);
        wrong_each(random, &bytes, hits)?;
        if !made.names.is_empty() {
            let bytes = spoilt(random, &made, 5);
            wrong_each(random, &bytes, hits)?;
        }
    }
    Ok(())
}

fn wrong_each(random: &mut Random, bytes: &[u8], hits: &mut Hits) -> Check {
    let (expected, pairs) = reference::table_with_pairs(bytes);
    let (plain, counted, safe) = (raw::table(bytes), raw::table_counted(bytes), qollqamir::table_counted(bytes));
    same_tables(bytes, [&plain, &counted], &expected, pairs)?;
    same_safe(bytes, &safe, &expected, pairs)?;
    let mut told = |check: Check, what: std::fmt::Arguments| -> Check {
        hits.pairs.wrong += 1;
        same!(bytes, check.is_err(), true, "whether {what}, made wrong, is told");
        Ok(())
    };
    for word in 0..WORDS {
        for bits in [1, 1 << random.below(32), 1 << 31, u32::MAX] {
            let wrong = [plain, counted].map(|mut parts| {
                make_wrong(&mut parts, word, bits);
                parts
            });
            told(same_tables(bytes, [&wrong[0], &counted], &expected, pairs), format_args!("word {word} of the table"))?;
            told(same_tables(bytes, [&plain, &wrong[1]], &expected, pairs), format_args!("word {word} of the counted table"))?;
        }
    }
    let mut wrong = [0, 1, 12, 31, 32, 63].map(|bit| CountedTable { pairs: safe.pairs ^ 1 << bit, ..safe.clone() }).to_vec();
    let table = if safe.table.is_ok() { Err(qollqamir::Refusal { number: 9, place: 0 }) } else { Ok(Vec::new()) };
    wrong.push(CountedTable { table, ..safe });
    let mut other = safe;
    if let Ok([.., last]) = other.table.as_deref_mut() {
        last.gap ^= 1;
        wrong.push(other);
    }
    for safe in wrong {
        told(same_safe(bytes, &safe, &expected, pairs), format_args!("the safe counted table"))?;
    }
    Ok(())
}

circumstances! {
    /// What else tables were, those of every run and others.
    Kind, KINDS:
    NoPart: 3 "no part, no pair",
    OnePart: 3 "one part, no pair",
    Most: 12 "96 parts that pass, none of them several times, 4,560 pairs",
    MostPriv: 22 "96 parts that pass, several of them PRIV and others too, 4,560 pairs",
    AllPriv: 6 "96 PRIV parts, 4,560 pairs",
    FewerPriv: 150 "several PRIV parts, less than 96 parts, that pass",
    BitPassed: 100 "a name that is an earlier one's but for a bit, in a table that passes",
    FirstPair: 10 "9 for the first pair",
    LastPair: 1 "9 for the last pair of 96 parts",
    PrivCompared: 1000 "9 after a PRIV part was compared with a PRIV part",
    PrivBefore: 1000 "9 with several PRIV parts before both",
    PrivBetween: 1000 "9 with several PRIV parts between the two",
    PrivAfter: 1000 "9 with several PRIV parts after both",
    PrivThree: 200 "9 with several PRIV parts before, between and after",
    PrivRest: 40 "9 for two of 96 parts, all others PRIV",
    BitBefore: 500 "9 after a name that is the same but for a bit",
    Thrice: 800 "9 for a name that stands a third time",
    Another: 600 "9 before another name that repeats",
    Shorter: 350 "9 before a match of two parts that are nearer to each other",
    Earlier: 350 "9 before a match with an earlier part",
    SixAll: 14 "6 for 97 parts, of which all lie inside",
    EightAfter: 300 "8 after a match",
    EightBefore: 50 "8 before a match",
    EightPriv: 200 "8 after several PRIV parts",
    EightLast: 3 "8 for the last of 96 parts after a match",
    EightStart: 80 "8 after a match, for a part that starts before the end of the one before it",
    EightHeader: 80 "8 after a match, for a header past the end",
    EightData: 80 "8 after a match, for data past the end",
}

/// What tables came to: of 9 the parts that matched, by the later and the earlier one, and the numbers that were told; how many parts
/// there were where all pairs were told; how often 1 to 8 were told with no pair, where no two names match and where two do; at which parts
/// 8; for which names that are PRIV but for a bit, beside PRIV, 9 was not told, and was; and how many PRIV parts stood before, between and
/// after two of a name where there was no other part, of any name and of those.
struct Counts {
    matches: Vec<[u64; MOST]>,
    told: BTreeSet<u32>,
    passed: [u64; MOST + 1],
    numbers: [[u64; 2]; 8],
    eights: [u64; MOST],
    bits: [[u64; 32]; 2],
    around: BTreeSet<[usize; 3]>,
    near: BTreeSet<([usize; 3], usize)>,
    kinds: [u64; KINDS.len()],
}

impl Default for Counts {
    fn default() -> Counts {
        Counts {
            matches: vec![[0; MOST]; MOST],
            told: BTreeSet::new(),
            passed: [0; MOST + 1],
            numbers: [[0; 2]; 8],
            eights: [0; MOST],
            bits: [[0; 32]; 2],
            around: BTreeSet::new(),
            near: BTreeSet::new(),
            kinds: [0; KINDS.len()],
        }
    }
}

/// Of the tables of every run, and of all others; and how many answers were made wrong.
#[derive(Default)]
pub struct Notes {
    made: Counts,
    met: Counts,
    wrong: u64,
}

/// Whether two names differ in one bit.
fn but_for_a_bit(name: [u8; 4], other: &[u8; 4]) -> bool {
    (u32::from_le_bytes(name) ^ u32::from_le_bytes(*other)).is_power_of_two()
}

/// The bit but for which a name is PRIV.
fn bit_of(name: [u8; 4]) -> Option<usize> {
    (0..32).find(|bit| near(*bit) == name)
}

/// Whether a name is one of others, PRIV apart, but for a bit.
fn near_one_of(name: [u8; 4], others: &[[u8; 4]]) -> bool {
    others.iter().any(|other| !is_priv(other) && but_for_a_bit(name, other))
}

impl Counts {
    fn saw(&mut self, kind: Kind, is: bool) {
        self.kinds[kind as usize] += u64::from(is);
    }

    /// Notes a table that was read, by what was told and the names in the bytes.
    fn table(&mut self, bytes: &[u8], table: &raw::Parts) {
        let raw::Verdict { number, place } = table.verdict;
        let count = bytes.get(28..32).map_or(0, |count| get4(count, 0) as usize);
        let names = names_in(bytes, count.min(MOST + 1));
        match (number, table.pairs) {
            (0, raw::Field { set: 1, value }) if u64::from(value) == all(count) => self.passed(&names),
            (9, raw::Field { set: 1, value }) => {
                self.told.insert(value);
                self.matched(&names, place);
            }
            (1..9, raw::Field { set: 1, value: 0 }) => {
                let first = first_repeat(&names);
                self.numbers[number - 1][usize::from(first.is_some())] += 1;
                self.saw(Kind::SixAll, number == 6 && names.len() == MOST + 1);
                if number == 8 {
                    self.eight(bytes, &names, place, first);
                }
            }
            _ => (),
        }
    }

    fn passed(&mut self, names: &[[u8; 4]]) {
        let (count, privates) = (names.len(), privates(names));
        self.passed[count] += 1;
        self.saw(Kind::NoPart, count == 0);
        self.saw(Kind::OnePart, count == 1);
        self.saw(Kind::Most, count == MOST && privates < 2);
        self.saw(Kind::MostPriv, count == MOST && privates > 1 && privates < MOST);
        self.saw(Kind::AllPriv, privates == MOST);
        self.saw(Kind::FewerPriv, count < MOST && privates > 1);
        self.saw(Kind::BitPassed, (1..count).any(|i| !is_priv(&names[i]) && near_one_of(names[i], &names[..i])));
        if privates > 0 {
            names.iter().for_each(|name| self.bit(0, *name));
        }
    }

    /// Notes the part of 9 and the first that has its name.
    fn matched(&mut self, names: &[[u8; 4]], k: usize) {
        let (name, count) = (names[k], names.len());
        let j = names.iter().position(|other| *other == name).unwrap_or(0);
        self.matches[k][j] += 1;
        let (before, middle, later) = (privates(&names[..j]), privates(&names[j..k]), privates(&names[k..]));
        self.saw(Kind::FirstPair, k == 1);
        self.saw(Kind::LastPair, (k, j) == (MOST - 1, MOST - 2));
        self.saw(Kind::PrivCompared, before + middle > 1);
        self.saw(Kind::PrivBefore, before > 1);
        self.saw(Kind::PrivBetween, middle > 1);
        self.saw(Kind::PrivAfter, later > 1);
        self.saw(Kind::PrivThree, before > 1 && middle > 1 && later > 1);
        if before + middle + later + 2 == count {
            self.around.insert([before, middle, later]);
            if let Some(bit) = bit_of(name) {
                self.near.insert(([before, middle, later], bit));
            }
            self.saw(Kind::PrivRest, count == MOST);
        }
        self.saw(Kind::BitBefore, near_one_of(name, &names[..k]));
        self.saw(Kind::Thrice, names[k + 1..].contains(&name));
        // The later matches, each with the first part that has the name.
        let mut others = Vec::new();
        for i in (k + 1..count).filter(|i| !is_priv(&names[*i])) {
            let first = names.iter().position(|other| *other == names[i]).unwrap_or(i);
            others.extend((first < i).then_some((i, first)));
        }
        self.saw(Kind::Another, others.iter().any(|(i, _)| names[*i] != name));
        self.saw(Kind::Shorter, others.iter().any(|(i, first)| i - first < k - j));
        self.saw(Kind::Earlier, others.iter().any(|(_, first)| *first < j));
        if before + middle > 0 {
            self.bit(1, name);
        }
    }

    fn bit(&mut self, which: usize, name: [u8; 4]) {
        if let Some(bit) = bit_of(name) {
            self.bits[which][bit] += 1;
        }
    }

    /// Notes the part of 8 and the first that has an earlier one's name, among the names that lie inside.
    fn eight(&mut self, bytes: &[u8], names: &[[u8; 4]], place: usize, first: Option<usize>) {
        let after = first.is_some_and(|first| first < place);
        let offset = get4(bytes, 32 + 4 * place) as usize;
        let why = match offset {
            _ if offset < end_before(bytes, place) => Kind::EightStart,
            _ if offset + 8 > bytes.len() => Kind::EightHeader,
            _ => Kind::EightData,
        };
        self.saw(why, after);
        self.eights[place] += 1;
        self.saw(Kind::EightAfter, after);
        self.saw(Kind::EightBefore, first.is_some_and(|first| first > place));
        self.saw(Kind::EightPriv, privates(&names[..place.min(names.len())]) > 1);
        self.saw(Kind::EightLast, after && place + 1 == MOST);
    }

    /// How often 9 came at each distance, at each later part and with each earlier one.
    fn distances(&self) -> [Vec<u64>; 3] {
        let mut counts = [vec![0; MOST], vec![0; MOST], vec![0; MOST - 1]];
        for k in 1..MOST {
            for j in 0..k {
                for (counts, i) in counts.iter_mut().zip([k - j, k, j]) {
                    counts[i] += self.matches[k][j];
                }
            }
        }
        counts
    }
}

/// How often 1 to 8 are told at least with no pair in the tables of every run, where no two names match and where two do, and among other
/// tables. In a file that 1 refuses there are no names, and no other table that 2 refuses has two that match.
const OF_NUMBER: [[u64; 2]; 8] = [[TIMES as u64, 0], [1, 3], [16, 48], [16, 48], [16, 48], [16, 48], [16, 48], [96, 400]];
const OF_OTHERS: [[u64; 2]; 8] = [[1500, 0], [5, 0], [3000, 500], [1500, 500], [4000, 500], [900, 400], [900, 70], [8000, 2500]];

/// How often each of several comes at least, or how many of them come at all.
enum Least {
    Each(fn(usize) -> u64),
    AtAll(u64),
}

/// Prints of several, from one on, how many came and how often the rarest, and adds what came less often than it must.
fn each_of(what: &str, from: usize, counts: &[u64], least: Least, missed: &mut Vec<String>) {
    let all = from..counts.len();
    let came = all.clone().filter(|i| counts[*i] > 0).count();
    let rarest = all.clone().min_by_key(|i| counts[*i]).unwrap_or(from);
    println!("{what} {from} to {}: {came} came, the rarest, {rarest}, {} times", counts.len() - 1, counts[rarest]);
    match least {
        Least::Each(least) => all.for_each(|i| at_least(&format!("{what} {i}"), counts[i], least(i), missed)),
        Least::AtAll(least) => at_least(&format!("another {what}"), came as u64, least, missed),
    }
}

/// Prints what tables a run's numbers were told of, and adds what came less often than it must.
pub fn summary(hits: &Hits, missed: &mut Vec<String>) {
    let Notes { made, met, wrong } = &hits.pairs;
    for (of, counts, every) in [("tables of every run", made, true), ("other tables", met, false)] {
        let mut each = |what: &str, from: usize, counts: &[u64], least: fn(usize) -> u64, at_all: u64| {
            let least = if every { Least::Each(least) } else { Least::AtAll(at_all) };
            each_of(&format!("{of}, {what}"), from, counts, least, missed);
        };
        let [distances, later, earlier] = counts.distances();
        each("9 at distance", 1, &distances, |distance| (MOST - distance) as u64, 80);
        each("9 at part", 1, &later, |k| k as u64, 80);
        each("9 for the name of part", 0, &earlier, |j| (MOST - 1 - j) as u64, 70);
        each("8 at part", 0, &counts.eights, |_| 9, 80);
        each("all pairs of a number of parts,", 0, &counts.passed, |_| 3, 80);
        each("no 9 for PRIV but for bit", 0, &counts.bits[0], |_| 9, 32);
        each("9 for PRIV but for bit", 0, &counts.bits[1], |_| 4, 32);
        let told = counts.told.len() as u64;
        println!("{of}, numbers beside 9: {told} (to {})", counts.told.last().unwrap_or(&0));
        at_least(&format!("{of}, another number beside 9"), told, if every { all(MOST) } else { 2000 }, missed);
        let (ways, came) = (arrangements().count(), arrangements().filter(|places| counts.around.contains(places)).count());
        println!("{of}, 9 among PRIV parts alone: {} ways, {came} of {ways}", counts.around.len());
        at_least(&format!("{of}, another way of 9 among PRIV parts alone"), came as u64, if every { ways as u64 } else { 40 }, missed);
        if every {
            // All other parts are on one side.
            for places in [[MOST - 2, 0, 0], [0, MOST - 2, 0], [0, 0, MOST - 2]] {
                at_least(&format!("{of}, 9 with {places:?} PRIV parts"), counts.around.contains(&places).into(), 1, missed);
            }
            for places in NEAR_PLACES {
                let bits = (0..32).filter(|bit| counts.near.contains(&(places, *bit))).count();
                println!("{of}, 9 for PRIV but for each of {bits} bits, with {places:?} PRIV parts before, between and after");
                at_least(&format!("{of}, 9 for PRIV but for another bit, with {places:?} PRIV parts"), bits as u64, 32, missed);
            }
        }
        print!("{of}, no pair, where no names match and where some do:");
        for (i, (count, least)) in counts.numbers.iter().zip(if every { OF_NUMBER } else { OF_OTHERS }).enumerate() {
            let [other, matching] = count;
            print!(" {} {other} and {matching},", i + 1);
            at_least(&format!("{of}, no pair beside {}, where no names match", i + 1), *other, least[0], missed);
            at_least(&format!("{of}, no pair beside {}, where some do", i + 1), *matching, least[1], missed);
        }
        println!();
    }
    for ((what, least), (made, met)) in KINDS.iter().zip(made.kinds.iter().zip(met.kinds)) {
        println!("{what}: tables of every run {made}, other tables {met}");
        at_least(&format!("{what}, tables of every run"), *made, *least, missed);
        at_least(&format!("{what}, other tables"), met, *least, missed);
    }
    println!("answers made wrong, each told: {wrong}");
    at_least("an answer made wrong", *wrong, 9 * 2 * 4 * WORDS as u64, missed);
}
