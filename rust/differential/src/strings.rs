//! What the strings were that the calls judged: of which bytes, where they lay, and which of several faults was told.

use qollqamir::raw;

use crate::compare::{same, Check};
use crate::make::get4;
use crate::text::{ends, follows, good, string_at, Blocks, Origin, BLOCKS, ROWS};

/// The strings, by who judged them.
#[derive(Clone, Copy, Debug)]
enum Kind {
    Element,
    Entry,
    ElementWritten,
    EntryWritten,
    Name,
}

const KINDS: [&str; 5] = ["element's name", "entry name", "element's name written", "entry name written", "signature's name"];

/// Whether sections were read or written.
#[derive(Clone, Copy, Debug)]
pub enum Way {
    Read,
    Written,
}

/// Declares circumstances, and the words for them.
macro_rules! circumstances {
    ($(#[$doc:meta])* $type:ident, $words:ident: $($name:ident: $what:literal,)*) => {
        $(#[$doc])*
        #[derive(Clone, Copy, Debug)]
        enum $type {
            $($name,)*
        }

        const $words: &[&str] = &[$($what,)*];
    };
}

circumstances! {
    /// What a string was by itself, and in what table.
    Was, WAS:
    PlainTable: "accepted, in a table without a byte above 7F",
    Letters: "accepted, no byte above 7F beside others",
    Empty: "accepted, empty beside bytes above 7F",
    Mixed: "accepted, sequences of one to four bytes",
    AmongNoncharacters: "accepted, one of U+FDD0 to U+FDEF",
    LastOfPlane: "accepted, U+FFFE or U+FFFF",
    LastOfLaterPlane: "accepted, a noncharacter past U+FFFF",
    Replacement: "accepted, U+FFFD",
    MarkFirst: "accepted, U+FEFF first",
    MarkLater: "accepted, U+FEFF later",
    RestOfText: "accepted, the rest of a longer string",
    RestAfterFault: "accepted, the rest after a fault",
    Unreferenced: "accepted, where no reference leads to an ill-formed string",
    AfterLastZero: "accepted, where bytes above 7F stand after the last zero",
    Cut1Of2: "cut after 1 byte of 2",
    Cut1Of3: "cut after 1 byte of 3",
    Cut2Of3: "cut after 2 bytes of 3",
    Cut1Of4: "cut after 1 byte of 4",
    Cut2Of4: "cut after 2 bytes of 4",
    Cut3Of4: "cut after 3 bytes of 4",
    Inside1: "1 byte into a sequence",
    Inside2: "2 bytes into a sequence",
    Inside3: "3 bytes into a sequence",
    InsideNext: "inside a sequence, of which the string from its start is accepted",
    FaultFirst: "the faulty byte first",
    FaultMiddle: "the faulty byte in the middle",
    FaultLast: "the faulty byte last",
    Faults: "a second fault after the first",
    HighSurrogate: "a high surrogate",
    LowSurrogate: "a low surrogate",
    Surrogates: "both surrogates of a pair",
    Zero: "a zero as two bytes",
    Overlong2: "one byte as two",
    Overlong3: "two bytes as three",
    Overlong4: "three bytes as four",
    Above: "past U+10FFFF, from F4",
    AboveLead: "past U+10FFFF, from F5 to F7",
    Five: "a sequence of five bytes",
    Six: "a sequence of six bytes",
    NoLead: "FE or FF",
    Follows: "a byte that follows, without a lead byte",
    NoZeroPlain: "no zero, in a table without a byte above 7F",
    NoZero: "no zero, in a table of up to 4096 bytes",
    NoZeroLong: "no zero, in a longer table",
    Short: "accepted, with bytes above 7F, in a table of up to 4096 bytes",
    ShortIll: "ill-formed, in a table of up to 4096 bytes",
    Long: "accepted, with bytes above 7F, in a longer table",
    LongIll: "ill-formed, in a longer table",
    FarInLong: "accepted, with bytes above 7F, past byte 4096",
    FarInLongIll: "ill-formed, past byte 4096",
    Over5000: "accepted, with bytes above 7F, in a table of more than 5000 bytes",
    IllOver5000: "ill-formed, in a table of more than 5000 bytes",
    LongString: "accepted, with bytes above 7F, longer than 512 bytes",
    LongStringIll: "ill-formed, longer than 512 bytes",
    At4092: "accepted, with bytes above 7F, in a table of 4092 bytes",
    Ill4092: "ill-formed, in a table of 4092 bytes",
    At4096: "accepted, with bytes above 7F, in a table of 4096 bytes",
    Ill4096: "ill-formed, in a table of 4096 bytes",
    At4100: "accepted, with bytes above 7F, in a table of 4100 bytes",
    Ill4100: "ill-formed, in a table of 4100 bytes",
    Whole32: "ill-formed, in a table of whole blocks of 32 bytes",
    Whole256: "ill-formed, in a table of whole blocks of 256 bytes",
    Past32: "ill-formed, in a table that goes some bytes past such a block of 32",
    OnlyHigh: "the faulty byte the only one above 7F",
    OnlyHighInRest: "the faulty byte the only one above 7F, in the table's last block of 64, which isn't whole",
}

circumstances! {
    /// How a string lay beside the edge of a block.
    Lay, LAYS:
    Over1Of2: "accepted, 1 byte of a sequence of 2 before it",
    Over1Of3: "accepted, 1 byte of a sequence of 3 before it",
    Over2Of3: "accepted, 2 bytes of a sequence of 3 before it",
    Over1Of4: "accepted, 1 byte of a sequence of 4 before it",
    Over2Of4: "accepted, 2 bytes of a sequence of 4 before it",
    Over3Of4: "accepted, 3 bytes of a sequence of 4 before it",
    StartsAt: "accepted, from it on",
    StartsBefore: "accepted, from one byte before it on",
    ZeroAt: "accepted, the zero right after it",
    ZeroBefore: "accepted, the zero right before it",
    Through: "accepted, over three of them",
    IllStartsAt: "ill-formed, from it on",
    IllStartsBefore: "ill-formed, from one byte before it on",
    IllZeroAt: "ill-formed, the zero right after it",
    IllZeroBefore: "ill-formed, the zero right before it",
    FaultAt: "the faulty byte right after it",
    FaultBefore: "the faulty byte right before it",
    Broken1: "a sequence that breaks past it, 1 byte before it",
    Broken2: "a sequence that breaks past it, 2 bytes before it",
    Broken3: "a sequence that breaks past it, 3 bytes before it",
    CutAt1: "a sequence that is cut by a zero right after it, 1 byte before it",
    CutAt2: "a sequence that is cut by a zero right after it, 2 bytes before it",
    CutAt3: "a sequence that is cut by a zero right after it, 3 bytes before it",
    CutPast: "a sequence over it that is cut",
    Run1: "ill-formed by 1 byte 80..BF right after it",
    Run2: "ill-formed by 2 bytes 80..BF right after it",
    Run3: "ill-formed by 3 bytes 80..BF right after it",
    Run4: "ill-formed by 4 bytes 80..BF right after it",
    Run5: "ill-formed by 5 bytes 80..BF right after it",
    Run6: "ill-formed by 6 bytes 80..BF right after it",
    Run7: "ill-formed by 7 bytes 80..BF right after it",
    Run8: "ill-formed by 8 bytes 80..BF right after it",
    FaultInFirst: "over two or more of them, the fault before the first",
    FaultBetween: "over two or more of them, the fault between",
    FaultInLast: "over two or more of them, the fault after the last",
}

const CUT: [Was; 6] = [Was::Cut1Of2, Was::Cut1Of3, Was::Cut2Of3, Was::Cut1Of4, Was::Cut2Of4, Was::Cut3Of4];
const INSIDE: [Was; 3] = [Was::Inside1, Was::Inside2, Was::Inside3];
const OVER: [Lay; 6] = [Lay::Over1Of2, Lay::Over1Of3, Lay::Over2Of3, Lay::Over1Of4, Lay::Over2Of4, Lay::Over3Of4];
const BROKEN: [Lay; 3] = [Lay::Broken1, Lay::Broken2, Lay::Broken3];
const CUT_AT: [Lay; 3] = [Lay::CutAt1, Lay::CutAt2, Lay::CutAt3];
const RUN: [Lay; 8] = [Lay::Run1, Lay::Run2, Lay::Run3, Lay::Run4, Lay::Run5, Lay::Run6, Lay::Run7, Lay::Run8];

const AT_START: [Lay; 4] = [Lay::StartsAt, Lay::StartsBefore, Lay::IllStartsAt, Lay::IllStartsBefore];

/// Which of six circumstances it is that tells of so many bytes of so many, 2 to 4.
fn part_of(bytes: usize, whole: usize) -> usize {
    (whole - 2) * (whole - 1) / 2 + bytes - 1
}

circumstances! {
    /// Which of several faults PSV0 told, where the strings among them have a zero.
    Order, ORDERS:
    IllFirst: "22 at element 0 of several",
    IllMiddle: "22 at a middle element",
    IllLast: "22 at the last element of several",
    IllBeforeIll: "22 before an element that would give it too",
    IllBeforeNoZero: "22 before an element whose string has no zero",
    NoZeroBeforeIll: "22 of a string without a zero before an ill-formed one",
    IllBesideIndex: "22 of an element that would give 23 too",
    IllBeforeIndex: "22 before an element that would give 23",
    IndexBeforeIll: "23 before an element that would give 22",
    IllBeforeEntry: "22 where the entry name would give 24",
    IndexBeforeEntry: "23 where the entry name would give 24",
    Entry: "24",
    EntryBesideNoElement: "24 where there are no elements",
    EntryShared: "22 of the string that is the entry name too",
}

/// How often each of the circumstances came: of the ends of the ranges of each byte of each row, of what the strings were, of how they lay
/// beside which blocks, each by kind, and of orders by way.
pub struct Notes {
    ends: [[[[u64; KINDS.len()]; 4]; 4]; ROWS.len()],
    was: [[u64; KINDS.len()]; WAS.len()],
    lays: [[[u64; KINDS.len()]; LAYS.len()]; BLOCKS.len()],
    orders: [[u64; 2]; ORDERS.len()],
}

impl Default for Notes {
    fn default() -> Notes {
        Notes {
            ends: Default::default(),
            was: [[0; KINDS.len()]; WAS.len()],
            lays: [[[0; KINDS.len()]; LAYS.len()]; BLOCKS.len()],
            orders: [[0; 2]; ORDERS.len()],
        }
    }
}

/// Where a string is no text, by places of its table: the sequence that is none, and the byte that breaks it, its zero where it is cut.
#[derive(Clone, Copy)]
struct Fault {
    start: usize,
    byte: usize,
}

fn fault_in(table: &[u8], at: usize, zero: usize) -> Option<Fault> {
    let error = std::str::from_utf8(&table[at..zero]).err()?;
    let start = at + error.valid_up_to();
    let byte = match error.error_len() {
        None => zero,
        // Either no sequence starts so, or the bytes that fit stand before the one that doesn't.
        Some(len) if (0xc2..=0xf4).contains(&table[start]) => start + len,
        Some(_) => start,
    };
    Some(Fault { start, byte })
}

/// The string at a place of a table, up to its zero.
struct Judged<'a> {
    table: &'a [u8],
    at: usize,
    zero: usize,
    fault: Option<Fault>,
}

impl<'a> Judged<'a> {
    fn bytes(&self) -> &'a [u8] {
        &self.table[self.at..self.zero]
    }
}

impl Notes {
    fn was(&mut self, kind: Kind, what: Was, is: bool) {
        self.was[what as usize][kind as usize] += u64::from(is);
    }

    /// Notes a string that a call judged, which is one reference's of a table.
    fn string(&mut self, kind: Kind, table: &[u8], at: usize) {
        let plain_table = table.is_ascii();
        let Some(string) = string_at(table, at) else {
            self.was(kind, Was::NoZeroPlain, plain_table);
            self.was(kind, Was::NoZero, !plain_table && table.len() <= 4096);
            self.was(kind, Was::NoZeroLong, !plain_table && table.len() > 4096);
            return;
        };
        if plain_table {
            // A reader need not look at its strings.
            self.was(kind, Was::PlainTable, !string.is_empty());
            return;
        }
        let zero = at + string.len();
        let judged = Judged { table, at, zero, fault: fault_in(table, at, zero) };
        match judged.fault {
            None => self.accepted(kind, &judged),
            Some(fault) => self.refused(kind, &judged, fault),
        }
        for (blocks, lays) in BLOCKS.iter().zip(&mut self.lays) {
            note_lay(&judged, *blocks, |lay, is| lays[lay as usize][kind as usize] += u64::from(is));
        }
        self.ends(kind, &judged);
    }

    fn accepted(&mut self, kind: Kind, judged: &Judged) {
        let Judged { table, at, zero, .. } = *judged;
        let string = judged.bytes();
        let plain = string.is_ascii();
        self.was(kind, Was::Letters, plain && !string.is_empty());
        self.was(kind, Was::Empty, string.is_empty());
        let before = table[..at].iter().rposition(|byte| *byte == 0).map_or(0, |zero| zero + 1);
        if before < at {
            let whole = std::str::from_utf8(&table[before..zero]).is_ok();
            self.was(kind, Was::RestOfText, whole && !plain);
            self.was(kind, Was::RestAfterFault, !whole && !string.is_empty());
        }
        if plain {
            return;
        }
        let long = table.len() > 4096;
        self.was(kind, Was::Short, !long);
        self.was(kind, Was::Long, long);
        self.was(kind, Was::FarInLong, at > 4096);
        self.was(kind, Was::Over5000, table.len() > 5000);
        self.was(kind, Was::LongString, string.len() > 512);
        self.was(kind, Was::At4092, table.len() == 4092);
        self.was(kind, Was::At4096, table.len() == 4096);
        self.was(kind, Was::At4100, table.len() == 4100);
        let mut lengths = [false; 5];
        for (i, char) in std::str::from_utf8(string).unwrap_or("").chars().enumerate() {
            lengths[char.len_utf8()] = true;
            let number = u32::from(char);
            self.was(kind, Was::AmongNoncharacters, (0xfdd0..=0xfdef).contains(&number));
            self.was(kind, Was::LastOfPlane, number == 0xfffe || number == 0xffff);
            self.was(kind, Was::LastOfLaterPlane, number > 0xffff && number & 0xfffe == 0xfffe);
            self.was(kind, Was::Replacement, number == 0xfffd);
            self.was(kind, Was::MarkFirst, number == 0xfeff && i == 0);
            self.was(kind, Was::MarkLater, number == 0xfeff && i > 0);
        }
        self.was(kind, Was::Mixed, lengths[1..] == [true; 4]);
    }

    fn refused(&mut self, kind: Kind, judged: &Judged, fault: Fault) {
        let Judged { table, at, zero, .. } = *judged;
        let Fault { start, byte } = fault;
        let sequence = &table[start..zero];
        if byte == zero {
            let whole = match sequence[0] {
                0xc2..=0xdf => 2,
                0xe0..=0xef => 3,
                _ => 4,
            };
            self.was(kind, CUT[part_of(sequence.len(), whole)], true);
        } else {
            self.was(kind, Was::FaultFirst, byte == at && at + 1 < zero);
            self.was(kind, Was::FaultMiddle, byte > at && byte + 1 < zero);
            self.was(kind, Was::FaultLast, byte > at && byte + 1 == zero);
        }
        if let Some(lead) = lead_before(table, at) {
            self.was(kind, INSIDE[at - lead - 1], true);
            self.was(kind, Was::InsideNext, good(table, lead));
        }
        let rest = (start + 1..zero).find(|next| !follows(table[*next])).unwrap_or(zero);
        self.was(kind, Was::Faults, std::str::from_utf8(&table[rest..zero]).is_err());
        self.form(kind, sequence);

        let long = table.len() > 4096;
        self.was(kind, Was::ShortIll, !long);
        self.was(kind, Was::LongIll, long);
        self.was(kind, Was::FarInLongIll, start > 4096);
        self.was(kind, Was::IllOver5000, table.len() > 5000);
        self.was(kind, Was::LongStringIll, zero - at > 512);
        self.was(kind, Was::Ill4092, table.len() == 4092);
        self.was(kind, Was::Ill4096, table.len() == 4096);
        self.was(kind, Was::Ill4100, table.len() == 4100);
        self.was(kind, Was::Whole32, table.len() % 32 == 0);
        self.was(kind, Was::Whole256, table.len() % 256 == 0);
        self.was(kind, Was::Past32, table.len() % 32 < 5 && table.len() % 32 > 0);
        let mut high = table.iter().enumerate().filter(|(_, byte)| !byte.is_ascii());
        let only = high.next().is_some_and(|(first, _)| first == start) && high.next().is_none();
        self.was(kind, Was::OnlyHigh, only);
        self.was(kind, Was::OnlyHighInRest, only && table.len() % 64 > 0 && start >= table.len() / 64 * 64);
    }

    /// What a sequence that is none would be to some other reader.
    fn form(&mut self, kind: Kind, sequence: &[u8]) {
        let tail = sequence[1..].iter().take_while(|byte| follows(**byte)).count();
        let second = sequence.get(1).copied().unwrap_or(0);
        let surrogate = sequence[0] == 0xed && second >= 0xa0 && tail == 2;
        self.was(kind, Was::HighSurrogate, surrogate && second < 0xb0);
        self.was(kind, Was::LowSurrogate, surrogate && second >= 0xb0);
        let pair = surrogate && second < 0xb0 && matches!(sequence.get(3..5), Some([0xed, 0xb0..=0xbf]));
        self.was(kind, Was::Surrogates, pair);
        self.was(kind, Was::Zero, sequence.starts_with(&[0xc0, 0x80]));
        self.was(kind, Was::Overlong2, matches!(sequence[0], 0xc0 | 0xc1) && tail == 1);
        self.was(kind, Was::Overlong3, sequence[0] == 0xe0 && second < 0xa0 && tail == 2);
        self.was(kind, Was::Overlong4, sequence[0] == 0xf0 && second < 0x90 && tail == 3);
        self.was(kind, Was::Above, sequence[0] == 0xf4 && second > 0x8f && tail == 3);
        self.was(kind, Was::AboveLead, matches!(sequence[0], 0xf5..=0xf7) && tail == 3);
        self.was(kind, Was::Five, matches!(sequence[0], 0xf8..=0xfb) && tail == 4);
        self.was(kind, Was::Six, matches!(sequence[0], 0xfc | 0xfd) && tail == 5);
        self.was(kind, Was::NoLead, sequence[0] >= 0xfe);
        self.was(kind, Was::Follows, follows(sequence[0]));
    }

    /// Notes the ends of ranges that decided: all of a string that is text; of another those at its fault, where there is one alone.
    fn ends(&mut self, kind: Kind, judged: &Judged) {
        let string = judged.bytes();
        if string.len() > 512 {
            return;
        }
        let fault = judged.fault;
        let text = fault.map_or(string.len(), |fault| fault.start - judged.at);
        // A sequence that is none may start with a shorter one.
        let from = if fault.is_some() { text.saturating_sub(3) } else { 0 };
        let starts = (from..text).filter(|i| !follows(string[*i])).chain(fault.map(|_| text));
        // In text, what doesn't start with a byte that follows is text.
        let text_from = |at: usize| match fault {
            None => string.get(at).is_none_or(|byte| !follows(*byte)),
            Some(_) => std::str::from_utf8(&string[at..]).is_ok(),
        };
        for i in starts {
            self.ends_at(kind, &string[i..], |len| text_from(i + len));
        }
    }

    /// Notes the rows of which a sequence would be but for one byte, where text follows.
    fn ends_at(&mut self, kind: Kind, ahead: &[u8], text_from: impl Fn(usize) -> bool) {
        for (row, seen) in ROWS.iter().zip(&mut self.ends) {
            let out = |i: usize| !(row[i][0]..=row[i][1]).contains(&ahead[i]);
            if ahead.len() < row.len() || (0..row.len()).filter(|i| out(*i)).count() > 1 || !text_from(row.len()) {
                continue;
            }
            for i in 0..row.len() {
                if (0..row.len()).any(|other| other != i && out(other)) {
                    continue;
                }
                for (end, value) in ends(row[i]).into_iter().enumerate() {
                    seen[i][end][kind as usize] += u64::from(ahead[i] == value);
                }
            }
        }
    }

    /// Prints how often each came, and adds those that never did.
    pub fn summary(&self, missed: &mut Vec<String>) {
        println!("strings, by kind: {}", KINDS.join(", "));
        self.ends_summary(missed);
        for (what, counts) in WAS.iter().zip(&self.was) {
            println!("{what}: {counts:?}");
            never(what, counts, missed);
        }
        self.lays_summary(missed);
        for (what, [read, written]) in ORDERS.iter().zip(self.orders) {
            println!("of strings that have a zero, {what}: read {read}, written {written}");
            if read == 0 || written == 0 {
                missed.push(format!("of strings that have a zero, {what}"));
            }
        }
    }

    fn ends_summary(&self, missed: &mut Vec<String>) {
        for (row, seen) in ROWS.iter().zip(&self.ends) {
            let words: Vec<String> = row.iter().map(|[first, last]| format!("{first:02X}..{last:02X}")).collect();
            let words = words.join(" ");
            for (i, range) in row.iter().enumerate() {
                print!("{words} but for byte {}:", i + 1);
                let mut values: Vec<_> = ends(*range).into_iter().zip(&seen[i]).filter(|(value, _)| *value != 0).collect();
                // The first and the last may be one.
                values.dedup();
                for (value, counts) in values {
                    print!(" {value:02X} {counts:?}");
                    never(&format!("{words} with {value:02X} for byte {}", i + 1), counts, missed);
                }
                println!();
            }
        }
    }

    fn lays_summary(&self, missed: &mut Vec<String>) {
        let blocks = BLOCKS.map(|Blocks { size, origin }| format!("of {size} from {}", origin_words(origin)));
        println!("strings beside an edge of blocks, the least of the kinds for blocks {}", blocks.join(", "));
        for (i, what) in LAYS.iter().enumerate() {
            let least = self.lays.map(|lays| lays[i].into_iter().min().unwrap_or(0));
            println!("{what}: {least:?}");
            for ((blocks, words), lays) in BLOCKS.iter().zip(&blocks).zip(&self.lays) {
                // A string starts at no edge that is counted from its start.
                let none = blocks.origin == Origin::String && AT_START.iter().any(|lay| *lay as usize == i);
                if !none {
                    never(&format!("{what}, blocks {words}"), &lays[i], missed);
                }
            }
        }
    }
}

/// Adds the kinds for which something never came.
fn never(what: &str, counts: &[u64], missed: &mut Vec<String>) {
    for (kind, _) in KINDS.iter().zip(counts).filter(|(_, count)| **count == 0) {
        missed.push(format!("{what} ({kind})"));
    }
}

fn origin_words(origin: Origin) -> &'static str {
    match origin {
        Origin::Table => "the table's start",
        Origin::End => "the table's end",
        Origin::String => "the string's start",
    }
}

/// The lead byte of the sequence in whose middle a place stands, where there is one.
fn lead_before(table: &[u8], at: usize) -> Option<usize> {
    let lead = (at.saturating_sub(3)..at).rev().find(|place| !follows(table[*place]))?;
    (lead + 2..=lead + 4).find(|end| *end > at && table.get(lead..*end).is_some_and(is_sequence)).map(|_| lead)
}

/// Whether bytes are one sequence.
fn is_sequence(bytes: &[u8]) -> bool {
    std::str::from_utf8(bytes).is_ok_and(|text| text.chars().count() == 1)
}

/// Notes how a string lies beside the edges of blocks.
fn note_lay(judged: &Judged, blocks: Blocks, mut saw: impl FnMut(Lay, bool)) {
    let Judged { table, at, zero, fault } = *judged;
    let size = blocks.size;
    // The edges from the string's start up to one past its zero.
    let rest = match blocks.origin {
        Origin::Table => 0,
        Origin::End => table.len() % size,
        Origin::String => at % size,
    };
    let mut first = at + (size + rest - at % size) % size;
    if first == 0 || (first == at && blocks.origin == Origin::String) {
        first += size;
    }
    let over = |from: usize, to: usize| (first..=to).step_by(size).filter(|edge| *edge > from).count();
    match fault {
        None => saw(Lay::Through, !judged.bytes().is_ascii() && over(at, zero) >= 3),
        Some(fault) => {
            let (before, after) = (over(at, fault.start), over(fault.start, zero));
            saw(Lay::FaultInFirst, before == 0 && after >= 2);
            saw(Lay::FaultBetween, before > 0 && after > 0);
            saw(Lay::FaultInLast, before >= 2 && after == 0);
        }
    }
    for edge in (first..=zero + 1).step_by(size) {
        match fault {
            None => {
                saw(Lay::StartsAt, at == edge);
                saw(Lay::StartsBefore, at + 1 == edge);
                saw(Lay::ZeroAt, zero == edge);
                saw(Lay::ZeroBefore, zero + 1 == edge);
                let lead = (edge < zero && follows(table[edge])).then(|| lead_before(table, edge)).flatten();
                if let Some(lead) = lead.filter(|lead| *lead >= at) {
                    let len = 1 + table[lead + 1..zero].iter().take_while(|byte| follows(**byte)).count();
                    saw(OVER[part_of(edge - lead, len)], true);
                }
            }
            Some(Fault { start, byte }) => {
                saw(Lay::IllStartsAt, at == edge);
                saw(Lay::IllStartsBefore, at + 1 == edge);
                saw(Lay::IllZeroAt, zero == edge);
                saw(Lay::IllZeroBefore, zero + 1 == edge);
                saw(Lay::FaultAt, byte == edge && byte < zero);
                saw(Lay::FaultBefore, byte + 1 == edge && byte < zero);
                saw(Lay::CutPast, byte == zero && start < edge && edge < zero);
                if start < edge && edge - start <= 3 {
                    let before = edge - start - 1;
                    saw(BROKEN[before], byte >= edge && byte < zero);
                    saw(CUT_AT[before], byte == zero && edge == zero);
                }
                if edge < zero {
                    let run = table[edge..zero].iter().take_while(|byte| follows(**byte)).count();
                    let breaks = (edge..=edge + run).contains(&byte);
                    saw(RUN[run.clamp(1, 8) - 1], breaks && (1..=8).contains(&run));
                }
            }
        }
    }
}

/// Of an accepted list the strings of so many elements are noted.
const NOTED: usize = 6;

/// The sections of PSV0 data in which strings are referred to, with elements of `size` bytes.
pub struct Sections<'a> {
    pub runtime: &'a [u8],
    pub strings: &'a [u8],
    pub indices: &'a [u8],
    pub elements: &'a [u8],
    pub size: usize,
}

impl Sections<'_> {
    fn names(&self) -> Vec<usize> {
        self.elements.chunks_exact(self.size).map(|element| get4(element, 0) as usize).collect()
    }

    /// Where the entry name stands, which the record has from edition 3 on.
    fn entry(&self) -> Option<usize> {
        (self.runtime.len() >= 52).then(|| get4(self.runtime, 48) as usize)
    }

    /// Whether an element's index reference isn't good.
    fn off_index(&self, i: usize) -> bool {
        let element = &self.elements[i * self.size..];
        u64::from(get4(element, 4)) + u64::from(element[8]) > self.indices.len() as u64 / 4
    }

    fn no_zero(&self, at: usize) -> bool {
        string_at(self.strings, at).is_none()
    }

    /// Whether a string has a zero and is no text.
    fn ill(&self, at: usize) -> bool {
        !self.no_zero(at) && !good(self.strings, at)
    }
}

impl Notes {
    /// Notes what reader 3 or the writer said of the strings of sections.
    pub fn sections(&mut self, sections: &Sections, verdict: raw::Verdict, way: Way) {
        if sections.runtime.len() < 36 {
            return;
        }
        let [element, entry] = match way {
            Way::Read => [Kind::Element, Kind::Entry],
            Way::Written => [Kind::ElementWritten, Kind::EntryWritten],
        };
        let (names, entry_name) = (sections.names(), sections.entry());
        match (verdict.number, entry_name) {
            (0, _) => {
                names.iter().take(NOTED).for_each(|at| self.string(element, sections.strings, *at));
                entry_name.into_iter().for_each(|at| self.string(entry, sections.strings, at));
                if !names.is_empty() {
                    self.beside(element, sections.strings, &names);
                }
                if let Some(at) = entry_name {
                    self.beside(entry, sections.strings, &[&names[..], &[at]].concat());
                }
            }
            (22, _) => self.string(element, sections.strings, names[verdict.place]),
            (24, Some(at)) => self.string(entry, sections.strings, at),
            _ => (),
        }
        if [22, 23, 24].contains(&verdict.number) {
            self.order(sections, verdict, way);
        }
    }

    /// Which of several faults was told.
    fn order(&mut self, sections: &Sections, verdict: raw::Verdict, way: Way) {
        let mut saw = |what: Order, is: bool| self.orders[what as usize][way as usize] += u64::from(is);
        let (names, entry) = (sections.names(), sections.entry());
        let ill_entry = entry.is_some_and(|at| sections.ill(at));
        if verdict.number == 24 {
            saw(Order::Entry, ill_entry);
            saw(Order::EntryBesideNoElement, ill_entry && names.is_empty());
            return;
        }
        let (place, last) = (verdict.place, names.len() - 1);
        let later = place + 1..names.len().min(place + 1 + NOTED);
        let later_ill = later.clone().any(|i| sections.ill(names[i]));
        if verdict.number == 23 {
            saw(Order::IndexBeforeIll, later_ill);
            saw(Order::IndexBeforeEntry, ill_entry);
        } else if sections.ill(names[place]) {
            saw(Order::IllFirst, place == 0 && last > 0);
            saw(Order::IllMiddle, place > 0 && place < last);
            saw(Order::IllLast, place > 0 && place == last);
            saw(Order::IllBeforeIll, later_ill);
            saw(Order::IllBeforeNoZero, later.clone().any(|i| sections.no_zero(names[i])));
            saw(Order::IllBesideIndex, sections.off_index(place));
            saw(Order::IllBeforeIndex, later.clone().any(|i| sections.off_index(i)));
            saw(Order::IllBeforeEntry, ill_entry);
            saw(Order::EntryShared, entry == Some(names[place]));
        } else {
            saw(Order::NoZeroBeforeIll, later_ill);
        }
    }

    /// What stands beside the strings of a table that are all accepted.
    fn beside(&mut self, kind: Kind, table: &[u8], references: &[usize]) {
        if table.is_ascii() {
            return;
        }
        let last = table.iter().rposition(|byte| *byte == 0).map_or(0, |zero| zero + 1);
        self.was(kind, Was::AfterLastZero, !table[last..].is_ascii());
        let mut from = 0;
        let alone = table[..last].split(|byte| *byte == 0).any(|string| {
            let to = from + string.len();
            let alone = std::str::from_utf8(string).is_err() && !references.iter().any(|at| (from..=to).contains(at));
            from = to + 1;
            alone
        });
        self.was(kind, Was::Unreferenced, alone);
    }

    /// Notes the name of signature data that was told to be bad.
    pub fn bad_name(&mut self, data: &[u8], at: usize) {
        self.string(Kind::Name, data, at);
    }

    /// Notes the names of signature data, all of them, that were accepted.
    pub fn names(&mut self, data: &[u8], names: &[usize]) {
        names.iter().take(NOTED).for_each(|at| self.string(Kind::Name, data, *at));
        if !names.is_empty() {
            self.beside(Kind::Name, data, names);
        }
    }
}

/// Whether the entry name of a container that edition 2 reads has a zero.
pub fn ends_entry_name(bytes: &[u8]) -> bool {
    let Ok(opening) = reference::open(bytes, 2) else {
        return false;
    };
    opening.part(*b"PSV0").is_ok_and(|(_, psv0)| string_at(opening.handed.strings, get4(psv0, 52) as usize).is_some())
}

/// The independent reader counts the code points as the standard library counts characters.
pub fn agreed(table: &[u8], at: usize) -> Check {
    if let Some(string) = string_at(table, at) {
        let chars = std::str::from_utf8(string).ok().map(|text| text.chars().count());
        same!(string, chars, reference::code_points(string), "the standard library in the library's place");
    }
    Ok(())
}
