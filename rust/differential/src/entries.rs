//! What the entries of a part table show beside name, offset and size, and the queries that take an occurrence, against the independent
//! reader; and what names, gaps and queries a run came by.

use std::collections::BTreeSet;

use qollqamir::raw;
use reference::{Opening, Part, Refusal};

use crate::compare::{found_of, refusal_of, same, Call, Check, Hits};
use crate::make::{get4, Parts};
use crate::random::Random;
use crate::repeats::{other, MOST, NEAR, PRIV};

/// The sum, lookups by name and occurrence, and the safe calls, on any bytes whose table was compared.
pub fn table(random: &mut Random, bytes: &[u8], got: &raw::Parts, expected: &Result<Vec<Part>, Refusal>, hits: &mut Hits) -> Check {
    if got.verdict.number == 0 {
        sum(bytes, got)?;
    }
    if [0, 9].contains(&got.verdict.number) {
        let names = names_in(bytes, get4(bytes, 28) as usize);
        same!(bytes, (got.verdict.number == 9).then_some(got.verdict.place), first_repeat(&names), "first name that repeats");
    }
    for (name, occurrence) in asked(random, expected.as_deref().unwrap_or(&[])) {
        lookup(bytes, expected, name, occurrence, hits)?;
    }
    safe_table(random, bytes, expected, hits)?;
    hits.entries.table(bytes, got);
    Ok(())
}

/// One lookup in the part table, by the plain and the safe call. Without a number it is by 0.
fn lookup(bytes: &[u8], expected: &Result<Vec<Part>, Refusal>, name: [u8; 4], occurrence: usize, hits: &mut Hits) -> Check {
    let parts = expected.as_deref().unwrap_or(&[]);
    let answer = reference::table_part_occurrence(bytes, name, occurrence as u64);
    let got = raw::table_part_occurrence(bytes, &name, occurrence);
    hits.note(Call::TablePart, got.verdict);
    same!(bytes, got, found_of(bytes, answer), "table_part_occurrence {name:?} {occurrence}");
    let safe = qollqamir::table_part_occurrence(bytes, name, occurrence).map_err(refusal_of);
    same!(bytes, safe, answer.map(|(i, _)| part_of(bytes, parts, i)), "safe table_part_occurrence {name:?} {occurrence}");
    let number = answer.ok().map(|(i, _)| i);
    same!(bytes, number, reference::find_occurrence(parts, name, occurrence as u64), "number of {name:?} {occurrence}");
    if occurrence == 0 {
        same!(bytes, raw::table_part(bytes, &name), got, "table_part {name:?} and its first occurrence");
        same!(bytes, qollqamir::table_part(bytes, name).map_err(refusal_of), safe, "safe table_part {name:?}");
        same!(bytes, number, reference::find(parts, name), "number of the first {name:?}");
    }
    if expected.is_ok() {
        same!(bytes, number.is_some(), occurrence < count_of(parts, name), "whether {name:?} {occurrence} is there");
        hits.entries.lookup(By::Table, parts, name, occurrence);
    }
    Ok(())
}

/// The header, the offset table, the gaps, the parts and the bytes after them are the whole file, by the numbers that the table shows.
fn sum(bytes: &[u8], table: &raw::Parts) -> Check {
    let after = bytes.len() - end_of(table);
    let spans = table.gaps.iter().zip(&table.sizes).take(table.count);
    let parts: usize = spans.map(|(gap, size)| *gap as usize + 8 + *size as usize).sum();
    same!(bytes, 32 + 4 * table.count + parts + after, bytes.len(), "sum");
    same!(bytes, Ok(after), reference::after_last_part(bytes).map(<[u8]>::len), "bytes after the last part");
    Ok(())
}

/// Where the last part of a table ends, or, with no part, the offset table.
fn end_of(table: &raw::Parts) -> usize {
    match table.count {
        0 => 32,
        n => table.offsets[n - 1] as usize + 8 + table.sizes[n - 1] as usize,
    }
}

/// Part `i` of those that the reference read, as the safe calls show it.
fn part_of<'a>(bytes: &'a [u8], parts: &[Part], i: usize) -> qollqamir::Part<'a> {
    qollqamir::Part { name: parts[i].name, number: i, offset: parts[i].offset, data: parts[i].data(bytes) }
}

fn entry_of<'a>(bytes: &'a [u8], parts: &[Part], i: usize) -> qollqamir::Entry<'a> {
    qollqamir::Entry { part: part_of(bytes, parts, i), occurrence: parts[i].occurrence as usize, gap: parts[i].gap }
}

pub fn entries_of<'a>(bytes: &'a [u8], parts: &[Part]) -> Vec<qollqamir::Entry<'a>> {
    (0..parts.len()).map(|i| entry_of(bytes, parts, i)).collect()
}

/// The safe table shows every entry, and the parts with a name in turn.
fn safe_table(random: &mut Random, bytes: &[u8], expected: &Result<Vec<Part>, Refusal>, hits: &mut Hits) -> Check {
    let safe = qollqamir::table(bytes).map_err(refusal_of);
    same!(bytes, safe, expected.as_ref().map(|parts| entries_of(bytes, parts)).map_err(|refusal| *refusal), "safe table");
    for name in [PRIV, any_name(random, expected.as_deref().unwrap_or(&[]))] {
        let listed = qollqamir::table_parts(bytes, name).map_err(refusal_of);
        match (listed, expected) {
            (Ok(listed), Ok(parts)) => {
                let listed: Vec<_> = listed.collect();
                in_turn(bytes, name, &listed, parts, |i| qollqamir::table_part_occurrence(bytes, name, i))?;
                hits.entries.turn(By::Table, name, listed.len());
            }
            (listed, expected) => {
                same!(bytes, listed.err(), expected.as_ref().err().copied(), "safe parts {name:?}");
            }
        }
    }
    Ok(())
}

/// Of the parts with a name, entry `i` is what the lookup finds by the number `i`, and there are as many as the reference has.
fn in_turn<'a>(
    bytes: &'a [u8],
    name: [u8; 4],
    listed: &[qollqamir::Entry<'a>],
    parts: &[Part],
    find: impl Fn(usize) -> Result<qollqamir::Part<'a>, qollqamir::Refusal>,
) -> Check {
    for (i, entry) in listed.iter().enumerate() {
        same!(bytes, Ok(entry.part), find(i).map_err(refusal_of), "safe parts {name:?} and lookup {i}");
        same!(bytes, entry.occurrence, i, "occurrence of safe parts {name:?}");
    }
    let expected: Vec<_> = entries_of(bytes, parts).into_iter().filter(|entry| entry.part.name == name).collect();
    same!(bytes, listed, &expected[..], "safe parts {name:?}");
    same!(bytes, find(listed.len()).map_err(refusal_of), Err(Refusal { number: 26, place: 0 }), "lookup past safe parts {name:?}");
    Ok(())
}

/// A name to ask for: one of the container's, or another.
fn any_name(random: &mut Random, parts: &[Part]) -> [u8; 4] {
    if parts.is_empty() || random.one_in(2) {
        other(random)
    } else {
        random.pick(parts).name
    }
}

/// What to ask for: PRIV, a name that an opening asks for and any, each by numbers at and past its last occurrence.
fn asked(random: &mut Random, parts: &[Part]) -> Vec<([u8; 4], usize)> {
    let mut asked = Vec::new();
    for name in [PRIV, random.pick(&[*b"DXIL", *b"PSV0"]), any_name(random, parts)] {
        asked.extend(occurrences(random, name, parts).into_iter().map(|occurrence| (name, occurrence)));
    }
    asked
}

fn occurrences(random: &mut Random, name: [u8; 4], parts: &[Part]) -> Vec<usize> {
    let count = count_of(parts, name);
    let mut numbers = vec![0, count];
    if count > 1 {
        numbers.extend([count - 1, random.below(count)]);
    }
    // Numbers that another way of counting, or of fewer bits, would take for one that is there.
    let (before, privates) = before(parts, name);
    let low_bits = random.pick(&[1 << 8, 1 << 16, 1 << 32, 1 << 63]) + random.below(count.max(1));
    let any = random.below(MOST);
    numbers.push(random.pick(&[1, before, privates, count + 1, any, low_bits, low_bits, usize::MAX]));
    numbers
}

fn count_of(parts: &[Part], name: [u8; 4]) -> usize {
    parts.iter().filter(|part| part.name == name).count()
}

/// How many parts stand before the first with a name, and how many of them are PRIV.
fn before(parts: &[Part], name: [u8; 4]) -> (usize, usize) {
    let first = parts.iter().position(|part| part.name == name).unwrap_or(0);
    (first, count_of(&parts[..first], PRIV))
}

/// The container's query by name and occurrence, at one edition.
pub fn query(random: &mut Random, bytes: &[u8], edition: usize, opening: &Result<Opening, Refusal>, hits: &mut Hits) -> Check {
    let parts = reference::table(bytes).unwrap_or_default();
    for (name, occurrence) in asked(random, &parts) {
        let answer = opening.as_ref().map_err(|refusal| *refusal).and_then(|o| o.part_occurrence(name, occurrence as u64));
        let got = raw::part_occurrence(bytes, edition, &name, occurrence);
        hits.note(Call::Part, got.verdict);
        same!(bytes, got, found_of(bytes, answer), "part_occurrence {edition} {name:?} {occurrence}");
        if occurrence == 0 {
            same!(bytes, raw::part(bytes, edition, &name), got, "part {edition} {name:?} and its first occurrence");
        }
        match opening {
            Ok(_) => {
                same!(bytes, answer.is_ok(), occurrence < count_of(&parts, name), "whether part {name:?} {occurrence} is there");
                hits.entries.lookup(By::Container, &parts, name, occurrence);
            }
            Err(refusal) => hits.entries.refused(&parts, *refusal, name, occurrence),
        }
    }
    match opening {
        Ok(_) => hits.entries.order(&parts),
        Err(Refusal { number: 9, .. }) => hits.entries.nine_opening(bytes),
        Err(_) => (),
    }
    Ok(())
}

/// The safe container's query, and its parts with a name in turn.
pub fn wrapped(bytes: &[u8], safe: &qollqamir::Container, opening: &Opening, hits: &mut Hits) -> Check {
    let last = opening.parts.last().map_or(PRIV, |part| part.name);
    same!(bytes, qollqamir::table_counted(bytes).pairs as u64, opening.pairs, "pairs of an opening");
    for name in [PRIV, *b"DXIL", last, NEAR[0]] {
        let listed: Vec<_> = safe.parts(name).collect();
        in_turn(bytes, name, &listed, &opening.parts, |i| safe.part_occurrence(name, i))?;
        same!(bytes, safe.part(name), safe.part_occurrence(name, 0), "safe part {name:?} and its first occurrence");
        hits.entries.turn(By::Container, name, listed.len());
    }
    Ok(())
}

/// What the assembler is given for each part: its name, how many earlier ones bear it, and its data.
fn given<'a>(names: &'a [u8], sizes: &'a [u32], data: &'a [u8]) -> Vec<([u8; 4], usize, &'a [u8])> {
    let names = listed_names(names);
    let mut left = data;
    let occurrence = |i: usize| names[..i].iter().filter(|name| **name == names[i]).count();
    let parts = sizes.iter().enumerate().map(|(i, size)| {
        let (own, others) = left.split_at(*size as usize);
        left = others;
        (names[i], occurrence(i), own)
    });
    parts.collect()
}

fn listed_names(names: &[u8]) -> Vec<[u8; 4]> {
    names.chunks_exact(4).map(|name| [name[0], name[1], name[2], name[3]]).collect()
}

/// Each part of an assembled container is found again by its name and occurrence, with its own data; and no more PRIV parts.
pub fn found_again(made: &[u8], names: &[u8], sizes: &[u32], data: &[u8], hits: &mut Hits) -> Check {
    let given = given(names, sizes, data);
    for (i, (name, occurrence, own)) in given.iter().enumerate() {
        let found = raw::table_part_occurrence(made, name, *occurrence);
        same!(made, (found.verdict.number, found.number, found.size), (0, i, own.len()), "assembled part {name:?} {occurrence}");
        same!(made, made[found.offset + 8..][..found.size], **own, "data of assembled part {name:?} {occurrence}");
    }
    let privates = given.iter().filter(|(name, ..)| *name == PRIV).count();
    same!(made, raw::table_part_occurrence(made, &PRIV, privates).verdict.number, 26, "assembled PRIV part past the last");
    hits.entries.made(made, privates);
    Ok(())
}

/// Declares circumstances, the words for them, and how often each comes at least in a run.
macro_rules! circumstances {
    ($(#[$doc:meta])* $type:ident, $words:ident: $($name:ident: $least:literal $what:literal,)*) => {
        $(#[$doc])*
        #[derive(Clone, Copy, Debug)]
        enum $type {
            $($name,)*
        }

        const $words: &[(&str, u64)] = &[$(($what, $least),)*];
    };
}
pub(crate) use circumstances;

/// Who judged names, or answered a query.
#[derive(Clone, Copy, Debug)]
pub enum By {
    Table,
    Container,
    Assembler,
}

const WHO: [&str; 3] = ["table", "container", "assembler"];

/// How often something came, by who answered.
type Counts = [u64; WHO.len()];

circumstances! {
    /// Which names the table and the assembler judged.
    Names, NAMES:
    Two: 1000 "2 PRIV parts",
    Several: 1000 "3 to 95 PRIV parts",
    All: 30 "96 PRIV parts and no other",
    AmongAll: 80 "several PRIV parts among 96",
    First: 1000 "several PRIV parts, of which one is the first part",
    Last: 1000 "several PRIV parts, of which one is the last part",
    Apart: 1000 "another part between PRIV parts",
    Adjacent: 2000 "PRIV parts side by side",
    OnceNear: 1000 "priv, PRIW or PRI\\0 once, beside several PRIV parts",
    TooMany: 60 "6 for 97 PRIV parts",
    NineBefore: 400 "9 before several PRIV parts",
    NineBetween: 1000 "9 between PRIV parts",
    NineAfter: 1000 "9 after several PRIV parts",
    NineFollows: 500 "9 for a name right after itself, beside several PRIV parts",
    NineOver: 500 "9 for a name that last stood before several PRIV parts",
    NineDxil: 250 "9 for DXIL beside several PRIV parts",
    NinePsv0: 250 "9 for PSV0 beside several PRIV parts",
    NineLower: 250 "9 for priv beside several PRIV parts",
    NineNext: 250 "9 for PRIW beside several PRIV parts",
    NineZero: 250 "9 for PRI\\0 beside several PRIV parts",
    NineBit: 250 "9 for another name that is PRIV but for a bit, beside several PRIV parts",
    NineKnown: 250 "9 for another known name beside several PRIV parts",
    NineUnknown: 250 "9 for another unknown name beside several PRIV parts",
    NineFirst: 500 "9 for the first of two names that repeat, beside several PRIV parts",
    NineThrice: 500 "9 for a name that stands a third time, beside several PRIV parts",
    NineAtLast: 40 "9 for the last of 96 parts, beside several PRIV parts",
}

circumstances! {
    /// Which data the PRIV parts had.
    Data, DATA:
    Empty: 1000 "no data of a PRIV part, beside others",
    EmptyAll: 60 "no data of any of several PRIV parts",
    Equal: 600 "equal data of two PRIV parts",
    Different: 2000 "different data of two PRIV parts",
}

circumstances! {
    /// What the table and the container were asked for, where they were accepted.
    Lookup, LOOKUPS:
    First: 10_000 "the first of several PRIV parts",
    Middle: 5000 "a middle one of several PRIV parts",
    Last: 10_000 "the last of several PRIV parts",
    LastOfAll: 300 "the last of several PRIV parts among 96",
    OnePast: 10_000 "26 for one past the last of several PRIV parts",
    OnePastAll: 300 "26 for one past the last of several PRIV parts among 96",
    OnePastOne: 400 "26 for 1 of one PRIV part",
    TwoPast: 1000 "26 for two past the last of several PRIV parts",
    LowByte: 2000 "26 for a number that is a PRIV part's in its low 8 bits",
    LowHalf: 2000 "26 for a number that is a PRIV part's in its low 16 bits",
    LowWord: 1000 "26 for a number that is a PRIV part's in its low 32 bits",
    Greatest: 1000 "26 for the greatest number, beside several PRIV parts",
    Other: 8000 "another name that is there, beside several PRIV parts",
    OtherSecond: 8000 "26 for 1 of another name that is there, beside several PRIV parts",
    OtherPlace: 1000 "26 for another name by how many parts stand before it",
    OtherPrivates: 900 "26 for another name by how many PRIV parts stand before it",
    Absent: 10_000 "26 for an absent name, beside several PRIV parts",
    AbsentSecond: 1000 "26 for 1 of an absent name, beside several PRIV parts",
    AbsentNear: 4000 "26 for priv, PRIW or PRI\\0 where it is absent, beside several PRIV parts",
    NoPriv: 10_000 "26 for PRIV where it is absent",
    Single: 400 "the one PRIV part",
    Dxil: 3000 "DXIL beside several PRIV parts",
    Psv0: 3000 "PSV0 beside several PRIV parts",
    DxilSecond: 4000 "26 for 1 of DXIL, beside several PRIV parts",
    Psv0Second: 4000 "26 for 1 of PSV0, beside several PRIV parts",
}

circumstances! {
    /// What else the calls came by.
    Kind, KINDS:
    EightAfterRepeat: 200 "8 where a name that may not repeat does so earlier",
    EightAfterPriv: 1000 "8 after several PRIV parts",
    NineOpening: 500 "9 for opening a container of several PRIV parts",
    OpeningBefore26: 10_000 "10 to 24 for a part that the table lacks",
    OpeningBeforePart: 10_000 "10 to 24 for one of several PRIV parts that the table has",
    EditionBefore26: 10_000 "25 for a part that the table lacks",
    EditionBeforePart: 10_000 "25 for one of several PRIV parts that the table has",
    LengthsBeforeNine: 1000 "27 of several PRIV parts, assembled, where a name that may not repeat does so",
    Lengths: 2000 "27 of several PRIV parts, assembled",
    Room: 2000 "28 of several PRIV parts, assembled",
    Long: 1 "2 of several PRIV parts, assembled",
    TurnTable: 10_000 "several PRIV parts of a table in turn",
    TurnTableNone: 10_000 "no part of a table in turn",
    TurnContainer: 2000 "several PRIV parts of a container in turn",
    TurnContainerNone: 5000 "no part of a container in turn",
    Filler1: 5000 "one byte of filler before a PRIV part, assembled",
    Filler2: 5000 "two bytes of filler before a PRIV part, assembled",
    Filler3: 5000 "three bytes of filler before a PRIV part, assembled",
    Again: 300 "several PRIV parts of a container, assembled again",
    Agreed: 900 "several PRIV parts on which all readers agree",
    AgreedOlder: 400 "several PRIV parts that reader 0 finds and reader 3 refuses",
    AgreedRefused: 200 "several PRIV parts that all readers refuse alike",
}

/// Where gaps lay, in tables that were accepted.
#[derive(Clone, Copy, Debug)]
enum Space {
    BeforeFirst,
    BeforePriv,
    BeforeOther,
    AfterLast,
    AfterNone,
}

const SPACES: [&str; 5] = [
    "before the first part",
    "before a later PRIV part",
    "before another later part",
    "after the last part",
    "after the offset table, with no part",
];

/// How long gaps were, and how often each comes at least, wherever it lies.
const LENGTHS: [(&str, u64); 4] = [("none", 800), ("one byte", 200), ("16 and more", 70), ("65,536 and more", 5)];

fn length(len: usize) -> Option<usize> {
    match len {
        0 | 1 => Some(len),
        2..=15 => None,
        16..=0xffff => Some(2),
        _ => Some(3),
    }
}

/// Before, between and after the PRIV parts.
const ZONES: [&str; 3] = ["before", "between", "after"];

/// So many places of 9 beside several PRIV parts come at least.
const PLACES: u64 = 60;

/// How often each of the circumstances came; where 9 was told by the table and by the assembler, beside several PRIV parts; how DXIL and
/// PSV0 lay beside the PRIV parts of containers that opened, which of them first; and how many widenings had several, by reader.
pub struct Notes {
    names: [Counts; NAMES.len()],
    data: [Counts; DATA.len()],
    lookups: [Counts; LOOKUPS.len()],
    kinds: [u64; KINDS.len()],
    spaces: [[u64; LENGTHS.len()]; SPACES.len()],
    places: [BTreeSet<usize>; WHO.len()],
    orders: [[[u64; 2]; ZONES.len()]; ZONES.len()],
    widenings: [u64; 4],
}

impl Default for Notes {
    fn default() -> Notes {
        Notes {
            names: [[0; WHO.len()]; NAMES.len()],
            data: [[0; WHO.len()]; DATA.len()],
            lookups: [[0; WHO.len()]; LOOKUPS.len()],
            kinds: [0; KINDS.len()],
            spaces: Default::default(),
            places: Default::default(),
            orders: Default::default(),
            widenings: [0; 4],
        }
    }
}

pub fn is_priv(name: &[u8; 4]) -> bool {
    *name == PRIV
}

pub fn privates(names: &[[u8; 4]]) -> usize {
    names.iter().filter(|name| is_priv(name)).count()
}

/// The first place of a name other than PRIV that stood earlier.
pub fn first_repeat(names: &[[u8; 4]]) -> Option<usize> {
    (0..names.len()).find(|i| !is_priv(&names[*i]) && names[..*i].contains(&names[*i]))
}

/// The names of the first parts, so far as they lie inside.
pub fn names_in(bytes: &[u8], count: usize) -> Vec<[u8; 4]> {
    let name = |i: usize| {
        let at = bytes.get(32 + 4 * i..36 + 4 * i).map(|offset| get4(offset, 0) as usize)?;
        bytes.get(at..at.checked_add(4)?)?.try_into().ok()
    };
    (0..count).map_while(name).collect()
}

/// Whether a place is before, between or after the PRIV parts.
fn zone(names: &[[u8; 4]], place: usize) -> usize {
    usize::from(names[..place].iter().any(is_priv)) + usize::from(!names[place..].iter().any(is_priv))
}

impl Notes {
    fn saw(&mut self, kind: Kind, is: bool) {
        self.kinds[kind as usize] += u64::from(is);
    }

    /// Notes a table that was read.
    fn table(&mut self, bytes: &[u8], table: &raw::Parts) {
        let raw::Verdict { number, place } = table.verdict;
        match number {
            0 => self.spaces(bytes, table),
            8 => {
                let names = names_in(bytes, place);
                self.saw(Kind::EightAfterRepeat, first_repeat(&names).is_some());
                self.saw(Kind::EightAfterPriv, privates(&names) > 1);
            }
            _ => (),
        }
        if [0, 6, 9].contains(&number) {
            let names = names_in(bytes, (get4(bytes, 28) as usize).min(MOST + 1));
            self.names(By::Table, &names, table.verdict);
        }
        if number == 0 {
            self.data(By::Table, bytes, table);
        }
    }

    /// Notes names that the table or the assembler judged.
    fn names(&mut self, by: By, names: &[[u8; 4]], verdict: raw::Verdict) {
        let count = privates(names);
        if count < 2 {
            return;
        }
        let mut saw = |what: Names, is: bool| self.names[what as usize][by as usize] += u64::from(is);
        match verdict.number {
            0 => {
                saw(Names::Two, count == 2);
                saw(Names::Several, (3..MOST).contains(&count));
                saw(Names::All, count == MOST);
                saw(Names::AmongAll, count < MOST && names.len() == MOST);
                saw(Names::First, is_priv(&names[0]));
                saw(Names::Last, is_priv(&names[names.len() - 1]));
                saw(Names::Apart, (0..names.len()).any(|i| !is_priv(&names[i]) && zone(names, i) == 1));
                saw(Names::Adjacent, names.windows(2).any(|two| is_priv(&two[0]) && is_priv(&two[1])));
                saw(Names::OnceNear, names.iter().any(|name| NEAR.contains(name)));
            }
            6 => saw(Names::TooMany, count == MOST + 1 && names.len() == count),
            9 => self.nine(by, names, verdict.place),
            _ => (),
        }
    }

    /// Notes the place of 9 among names of which several are PRIV.
    fn nine(&mut self, by: By, names: &[[u8; 4]], place: usize) {
        self.places[by as usize].insert(place);
        let mut saw = |what: Names, is: bool| self.names[what as usize][by as usize] += u64::from(is);
        let name = names[place];
        let earlier = names[..place].iter().rposition(|other| *other == name).unwrap_or(0);
        saw([Names::NineBefore, Names::NineBetween, Names::NineAfter][zone(names, place)], true);
        saw(Names::NineFollows, earlier + 1 == place);
        saw(Names::NineOver, privates(&names[earlier..place]) > 1);
        let bits: u32 = name.iter().zip(&PRIV).map(|(a, b)| (a ^ b).count_ones()).sum();
        saw(
            match &name {
                b"DXIL" => Names::NineDxil,
                b"PSV0" => Names::NinePsv0,
                b"priv" => Names::NineLower,
                b"PRIW" => Names::NineNext,
                b"PRI\0" => Names::NineZero,
                _ if bits == 1 => Names::NineBit,
                _ if reference::known(name) => Names::NineKnown,
                _ => Names::NineUnknown,
            },
            true,
        );
        let later = &names[place + 1..];
        let another = |(i, other): (usize, &[u8; 4])| !is_priv(other) && *other != name && names[..=place + i].contains(other);
        saw(Names::NineFirst, later.iter().enumerate().any(another));
        saw(Names::NineThrice, later.contains(&name));
        saw(Names::NineAtLast, place + 1 == MOST);
    }

    /// Notes the data of several PRIV parts, in a table that was read.
    fn data(&mut self, by: By, bytes: &[u8], table: &raw::Parts) {
        let own = (0..table.count).filter(|i| table.names[*i] == u32::from_le_bytes(PRIV));
        let own: Vec<&[u8]> = own.map(|i| &bytes[table.offsets[i] as usize + 8..][..table.sizes[i] as usize]).collect();
        if own.len() < 2 {
            return;
        }
        let mut saw = |what: Data, is: bool| self.data[what as usize][by as usize] += u64::from(is);
        let empty = own.iter().filter(|data| data.is_empty()).count();
        let distinct: BTreeSet<_> = own.iter().filter(|data| !data.is_empty()).collect();
        saw(Data::Empty, empty > 0 && empty < own.len());
        saw(Data::EmptyAll, empty == own.len());
        saw(Data::Equal, distinct.len() < own.len() - empty);
        saw(Data::Different, distinct.len() > 1);
    }

    /// Notes the gaps of a table that was read, and the bytes after its last part.
    fn spaces(&mut self, bytes: &[u8], table: &raw::Parts) {
        let mut saw = |space: Space, len: usize| {
            if let Some(length) = length(len) {
                self.spaces[space as usize][length] += 1;
            }
        };
        for i in 0..table.count {
            let space = match table.names[i].to_le_bytes() {
                _ if i == 0 => Space::BeforeFirst,
                PRIV => Space::BeforePriv,
                _ => Space::BeforeOther,
            };
            saw(space, table.gaps[i] as usize);
        }
        saw(if table.count == 0 { Space::AfterNone } else { Space::AfterLast }, bytes.len() - end_of(table));
    }

    /// Notes what a table or a container that is accepted was asked for.
    fn lookup(&mut self, by: By, parts: &[Part], name: [u8; 4], occurrence: usize) {
        let mut saw = |what: Lookup, is: bool| self.lookups[what as usize][by as usize] += u64::from(is);
        let (count, privates) = (count_of(parts, name), count_of(parts, PRIV));
        let all = parts.len() == MOST;
        let low = |bits: u32| occurrence >> bits != 0 && occurrence % (1 << bits) < count;
        if is_priv(&name) {
            saw(Lookup::NoPriv, count == 0);
            saw(Lookup::Single, count == 1 && occurrence == 0);
            saw(Lookup::OnePastOne, count == 1 && occurrence == 1);
        }
        if privates < 2 {
            return;
        }
        if is_priv(&name) {
            saw(Lookup::First, occurrence == 0);
            saw(Lookup::Middle, occurrence > 0 && occurrence + 1 < count);
            saw(Lookup::Last, occurrence + 1 == count);
            saw(Lookup::LastOfAll, occurrence + 1 == count && all);
            saw(Lookup::OnePast, occurrence == count);
            saw(Lookup::OnePastAll, occurrence == count && all);
            saw(Lookup::TwoPast, occurrence == count + 1);
            saw(Lookup::LowByte, low(8));
            saw(Lookup::LowHalf, low(16));
            saw(Lookup::LowWord, low(32));
            saw(Lookup::Greatest, occurrence == usize::MAX);
            return;
        }
        if count == 0 {
            saw(Lookup::Absent, occurrence == 0);
            saw(Lookup::AbsentSecond, occurrence == 1);
            saw(Lookup::AbsentNear, NEAR.contains(&name));
            return;
        }
        let (place, privates) = before(parts, name);
        saw(Lookup::Other, occurrence == 0);
        saw(Lookup::OtherSecond, occurrence == 1);
        saw(Lookup::OtherPlace, occurrence > 1 && occurrence == place);
        saw(Lookup::OtherPrivates, occurrence > 1 && occurrence == privates);
        saw(Lookup::Dxil, name == *b"DXIL" && occurrence == 0);
        saw(Lookup::Psv0, name == *b"PSV0" && occurrence == 0);
        saw(Lookup::DxilSecond, name == *b"DXIL" && occurrence == 1);
        saw(Lookup::Psv0Second, name == *b"PSV0" && occurrence == 1);
    }

    /// Notes what was asked for of a container that an opening refuses though it has a table.
    fn refused(&mut self, parts: &[Part], refusal: Refusal, name: [u8; 4], occurrence: usize) {
        let there = is_priv(&name) && count_of(parts, PRIV) > 1 && occurrence < count_of(parts, PRIV);
        let lacks = !parts.is_empty() && occurrence >= count_of(parts, name);
        let edition = refusal.number == 25;
        self.saw(if edition { Kind::EditionBeforePart } else { Kind::OpeningBeforePart }, there);
        self.saw(if edition { Kind::EditionBefore26 } else { Kind::OpeningBefore26 }, lacks);
    }

    /// Notes an opening that was refused by the names.
    fn nine_opening(&mut self, bytes: &[u8]) {
        let names = names_in(bytes, (get4(bytes, 28) as usize).min(MOST));
        self.saw(Kind::NineOpening, privates(&names) > 1);
    }

    /// Notes how DXIL and PSV0 lie beside several PRIV parts, in a container that opens.
    fn order(&mut self, parts: &[Part]) {
        let names: Vec<[u8; 4]> = parts.iter().map(|part| part.name).collect();
        let place = |name: &[u8; 4]| names.iter().position(|other| other == name);
        if let (Some(dxil), Some(psv0), true) = (place(b"DXIL"), place(b"PSV0"), privates(&names) > 1) {
            self.orders[zone(&names, dxil)][zone(&names, psv0)][usize::from(psv0 < dxil)] += 1;
        }
    }

    /// Notes the parts of a name that came in turn.
    fn turn(&mut self, by: By, name: [u8; 4], count: usize) {
        let [several, none] = match by {
            By::Table => [Kind::TurnTable, Kind::TurnTableNone],
            _ => [Kind::TurnContainer, Kind::TurnContainerNone],
        };
        self.saw(several, name == PRIV && count > 1);
        self.saw(none, count == 0);
    }

    /// Notes what the assembler said of parts.
    pub fn assembled(&mut self, names: &[u8], verdict: raw::Verdict) {
        let names = listed_names(names);
        let several = privates(&names) > 1;
        self.names(By::Assembler, &names, verdict);
        self.saw(Kind::LengthsBeforeNine, several && verdict.number == 27 && first_repeat(&names).is_some());
        self.saw(Kind::Lengths, several && verdict.number == 27);
        self.saw(Kind::Room, several && verdict.number == 28);
        self.saw(Kind::Long, several && verdict.number == 2);
    }

    /// Notes a container that was assembled.
    fn made(&mut self, made: &[u8], privates: usize) {
        if privates < 2 {
            return;
        }
        let table = raw::table(made);
        self.data(By::Assembler, made, &table);
        for i in (1..table.count).filter(|i| table.names[*i].to_le_bytes() == PRIV) {
            for (kind, len) in [(Kind::Filler1, 1), (Kind::Filler2, 2), (Kind::Filler3, 3)] {
                self.saw(kind, table.gaps[i] == len);
            }
        }
    }

    /// Notes parts that were read of a container and assembled again.
    pub fn again(&mut self, parts: &[Part]) {
        self.saw(Kind::Again, count_of(parts, PRIV) > 1);
    }

    /// Notes several PRIV parts on which the readers agree, by which of them open the container.
    pub fn agreed(&mut self, openings: &[raw::Opening; 4]) {
        let opens = openings.map(|opening| opening.verdict.number == 0);
        self.saw(Kind::Agreed, opens[3]);
        self.saw(Kind::AgreedOlder, opens[0] && !opens[3]);
        self.saw(Kind::AgreedRefused, !opens[0]);
    }

    /// Notes a widening for a reader.
    pub fn widening(&mut self, parts: &Parts, reader: usize) {
        let several = parts.iter().filter(|part| part.0 == PRIV).count() > 1;
        self.widenings[reader] += u64::from(several);
    }

    /// Prints how often each came, and adds those that came less often than they must.
    pub fn summary(&self, missed: &mut Vec<String>) {
        by_two(NAMES, &self.names, By::Assembler, missed);
        by_two(DATA, &self.data, By::Assembler, missed);
        by_two(LOOKUPS, &self.lookups, By::Container, missed);
        each(KINDS, &self.kinds, missed);
        for (what, counts) in SPACES.iter().zip(self.spaces) {
            print!("bytes {what}:");
            for ((len, least), count) in LENGTHS.iter().zip(counts) {
                print!(" {len} {count}");
                at_least(&format!("bytes {what}, {len}"), count, *least, missed);
            }
            println!();
        }
        for by in [By::Table, By::Assembler] {
            let (who, places) = (WHO[by as usize], &self.places[by as usize]);
            println!("places of 9 beside several PRIV parts: {who} {} (to {})", places.len(), places.last().unwrap_or(&0));
            at_least(&format!("places of 9 beside several PRIV parts ({who})"), places.len() as u64, PLACES, missed);
        }
        self.orders_summary(missed);
        println!("widenings with several PRIV parts for readers 0 to 3: {:?}", self.widenings);
        self.widenings.iter().for_each(|count| at_least("widenings with several PRIV parts for each reader", *count, 100, missed));
    }

    fn orders_summary(&self, missed: &mut Vec<String>) {
        for (i, dxil) in ZONES.iter().enumerate() {
            for (j, psv0) in ZONES.iter().enumerate() {
                let [first, second] = self.orders[i][j];
                let what = format!("DXIL {dxil} and PSV0 {psv0} several PRIV parts");
                println!("{what}: DXIL first {first}, PSV0 first {second}");
                // Of two in different stretches, one is the first.
                if i <= j {
                    at_least(&format!("{what}, DXIL first"), first, 200, missed);
                }
                if j <= i {
                    at_least(&format!("{what}, PSV0 first"), second, 200, missed);
                }
            }
        }
    }
}

/// Prints how often each came, by the table and by another.
fn by_two(words: &[(&str, u64)], counts: &[Counts], other: By, missed: &mut Vec<String>) {
    for ((what, least), counts) in words.iter().zip(counts) {
        print!("{what}:");
        for by in [By::Table, other] {
            let (who, count) = (WHO[by as usize], counts[by as usize]);
            print!(" {who} {count}");
            at_least(&format!("{what} ({who})"), count, *least, missed);
        }
        println!();
    }
}

/// Prints how often each came.
pub fn each(words: &[(&str, u64)], counts: &[u64], missed: &mut Vec<String>) {
    for ((what, least), count) in words.iter().zip(counts) {
        println!("{what}: {count}");
        at_least(what, *count, *least, missed);
    }
}

pub fn at_least(what: &str, count: u64, least: u64, missed: &mut Vec<String>) {
    if count < least {
        missed.push(format!("{least} times {what}"));
    }
}
