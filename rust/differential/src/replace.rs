//! Other PSV0 data put in the place of a container's own, against the independent writer and against what the library shows of the result; and
//! what containers, data, rooms and answers a run came by.

use qollqamir::raw;
use reference::Refusal;

use crate::compare::{delivered, refusal_of, same, verdict_of, Call, Check, Hits, Mismatch, NUMBERS};
use crate::entries::{at_least, circumstances, each};
use crate::make::{self, Parts, Pieces, SIZES};
use crate::places::{self, places_of, NOWHERE};
use crate::random::Random;
use crate::{lists, repeats, LONGEST};

/// One case in so many replaces, so that a run stays short.
const EVERY: u64 = 16;

const PSV0: [u8; 4] = *b"PSV0";

/// A container whose PSV0 part stands anywhere, with gaps, several PRIV parts and bytes after the last; or one that may be refused.
fn container(random: &mut Random) -> Vec<u8> {
    if random.one_in(4) {
        return lists::container(random);
    }
    let mut pieces = if random.one_in(2) { Pieces::plain(random) } else { Pieces::valid(random) };
    if random.one_in(8) {
        pieces.flaw(random);
    }
    let mut parts: Parts = make::parts(random, &pieces.bytes().0);
    if let Some(at) = parts.iter().position(|part| part.0 == PSV0) {
        let psv0 = parts.remove(at);
        let any = random.below(parts.len() + 1);
        let at = random.pick(&[0, any, any, parts.len()]);
        parts.insert(at, psv0);
    }
    if random.one_in(2) {
        repeats::container(random, &parts).0
    } else {
        make::container(random, &parts).0
    }
}

/// Data in plain form but for one thing: the runtime record's size, that of the resources or elements, or bytes at the end.
fn unplain(random: &mut Random) -> Vec<u8> {
    let mut pieces = Pieces::plain(random);
    match random.below(4) {
        0 => {
            let more = if pieces.runtime.len() == SIZES[3] { 4 * (1 + random.below(6)) } else { random.pick(&[4, 8]) };
            if pieces.runtime.len() + more < SIZES[1] || pieces.runtime.len() > SIZES[0] && pieces.runtime.len() + more != SIZES[3] {
                pieces.runtime.extend_from_slice(&random.bytes(more));
            }
        }
        1 if !pieces.resources.is_empty() => {
            let size = random.pick(&[16, 20, 24, 28]);
            pieces.resources = pieces.stretched(&pieces.resources, pieces.resource_size, size, random);
            pieces.resource_size = size;
        }
        2 if !pieces.elements.is_empty() => {
            let size = random.pick(&[20, 24, 40]);
            pieces.elements = pieces.stretched(&pieces.elements, 16, size, random);
            pieces.element_size = size;
        }
        _ => {
            let after = 1 + random.below(9);
            pieces.after = random.bytes(after);
        }
    }
    pieces.bytes().0
}

/// The data to put in: plain, the container's own, its own but for a few bytes, not plain, flawed or damaged.
fn part(random: &mut Random, bytes: &[u8]) -> Vec<u8> {
    let own = reference::table_part(bytes, PSV0).map_or(Vec::new(), |(_, data)| data.to_vec());
    match random.below(24) {
        0 | 1 => own,
        2 | 3 => {
            // Bytes of the stage union and of the wave lanes, which nothing rules over.
            let mut other = own;
            if other.len() >= 28 {
                (0..4).for_each(|_| other[4 + random.below(24)] = random.next() as u8);
            }
            other
        }
        4..=13 => Pieces::plain(random).bytes().0,
        14..=16 => unplain(random),
        17 => Pieces::valid(random).bytes().0,
        18..=20 => {
            let mut pieces = if random.one_in(2) { Pieces::plain(random) } else { Pieces::valid(random) };
            pieces.flaw(random);
            pieces.bytes().0
        }
        21 | 22 => make::damaged_psv0(random),
        _ => {
            let len = random.below(60);
            random.bytes(len)
        }
    }
}

fn hex(bytes: &[u8]) -> String {
    bytes.iter().take(8192).map(|byte| format!("{byte:02x}")).collect()
}

/// Replacing on both sides: the same verdict, length and places, and the same whole buffer.
fn replaced(
    bytes: &[u8],
    edition: usize,
    new: &[u8],
    before: &[u8],
    hits: &mut Hits,
) -> Result<Option<(Vec<u8>, reference::Places)>, Mismatch> {
    let (mut ours, mut theirs) = (before.to_vec(), before.to_vec());
    let got = raw::replace_psv0(bytes, edition, new, &mut ours);
    let expected = reference::replace_psv0(bytes, edition, new, before.len());
    let verdict = verdict_of(&expected);
    hits.note(Call::Replace, got.verdict);
    let answer = match &expected {
        Ok((made, places)) => raw::Replaced { verdict, len: made.len() as u32, places: places_of(places) },
        Err(_) => raw::Replaced { verdict, len: 0, places: NOWHERE },
    };
    same!(bytes, got, answer, "replace_psv0 {edition} into {} by {}", before.len(), hex(new));
    if let Ok((made, _)) = &expected {
        theirs[..made.len()].copy_from_slice(made);
    }
    delivered(bytes, &ours, &theirs, before, expected.as_ref().map(|(made, _)| made.len()).map_err(|refusal| *refusal)).map(drop)?;
    hits.replaced.answer(bytes, edition, new, before.len(), &expected);
    Ok(expected.ok())
}

/// The safe calls do the same.
fn safely(bytes: &[u8], edition: usize, new: &[u8], before: &[u8]) -> Check {
    let expected = reference::replace_psv0(bytes, edition, new, before.len());
    let shown = |answer: Result<qollqamir::Replaced, qollqamir::Refusal>| answer.map(|r| (r.len, r.places)).map_err(refusal_of);
    let answer = expected.as_ref().map(|(made, places)| (made.len(), places_of(places))).map_err(|refusal| *refusal);
    let mut theirs = before.to_vec();
    if let Ok((made, _)) = &expected {
        theirs[..made.len()].copy_from_slice(made);
    }
    let mut ours = before.to_vec();
    same!(bytes, shown(qollqamir::replace_psv0(bytes, edition, new, &mut ours)), answer, "safe replace_psv0 {edition} by {}", hex(new));
    same!(bytes, ours == theirs, true, "output of the safe replace_psv0 {edition} by {}", hex(new));
    if let Ok(container) = qollqamir::Container::open(bytes, edition) {
        let mut ours = before.to_vec();
        same!(bytes, shown(container.replace_psv0(new, &mut ours)), answer, "replace_psv0 of an opened container by {}", hex(new));
        same!(bytes, ours == theirs, true, "output of replace_psv0 of an opened container by {}", hex(new));
    }
    Ok(())
}

/// What the library shows of a result: the new data, all else as it was, and the same places when it is opened.
fn looked_at(bytes: &[u8], edition: usize, new: &[u8], made: &[u8], places: &reference::Places) -> Check {
    let opened = raw::open_places(made, edition);
    same!(made, (opened.verdict.number, opened.places), (0, places_of(places)), "places of a result that is opened at {edition}");
    let whole = raw::psv0_open_places(new, 3);
    same!(made, opened.file_edition, whole.file_edition, "the file's edition of a result");
    let found = raw::part(made, edition, &PSV0);
    same!(made, made[found.offset + 8..][..found.size], *new, "the PSV0 data of a result");

    let (old, table) = (raw::table(bytes), raw::table(made));
    let more = made.len() as i64 - bytes.len() as i64;
    same!(made, (table.verdict.number, table.count), (0, old.count), "the table of a result");
    same!(made, raw::table_counted(made).pairs, raw::table_counted(bytes).pairs, "pairs of a result");
    same!(
        made,
        (table.names, table.occurrences, table.gaps),
        (old.names, old.occurrences, old.gaps),
        "names, occurrences and gaps of a result"
    );
    for i in 0..old.count {
        let (from, to) = (old.offsets[i] as usize, table.offsets[i] as usize);
        let moved = if i > found.number { more } else { 0 };
        same!(made, to as i64, from as i64 + moved, "offset of part {i} of a result");
        if i != found.number {
            let data = &bytes[from..][..8 + old.sizes[i] as usize];
            same!(made, made[to..][..8 + table.sizes[i] as usize], *data, "part {i} of a result");
        }
    }
    // All before the new data but the sizes and offsets, and all after it.
    let own = found.offset + 8;
    let fields = |bytes: &[u8]| {
        let mut front = bytes[..own].to_vec();
        make::put4(&mut front, 24, 0);
        make::put4(&mut front, own - 4, 0);
        (found.number + 1..old.count).for_each(|i| make::put4(&mut front, 32 + 4 * i, 0));
        front
    };
    same!(made, fields(made), fields(bytes), "what stands before the data of a result");
    let size = old.sizes[found.number] as usize;
    same!(made, made[own + new.len()..] == bytes[own + size..], true, "what stands after the data of a result");
    Ok(())
}

/// A container whose PSV0 data are replaced, with every room.
fn rooms(random: &mut Random, bytes: &[u8], edition: usize, new: &[u8], hits: &mut Hits) -> Check {
    let size = reference::table_part(bytes, PSV0).map_or(0, |(_, data)| data.len());
    let len = bytes.len() - size + new.len();
    let more = 1 + random.below(40);
    let before = random.bytes(len + more);
    let Some((made, places)) = replaced(bytes, edition, new, &before, hits)? else {
        for room in [0, random.below(len + 1)] {
            replaced(bytes, edition, new, &before[..room], hits).map(drop)?;
        }
        if random.one_in(4) {
            safely(bytes, edition, new, &before)?;
        }
        return Ok(());
    };
    same!(made, made.len(), len, "length of a result");
    looked_at(bytes, edition, new, &made, &places)?;
    for room in [len, len - 1, 0, random.below(len)] {
        replaced(bytes, edition, new, &before[..room], hits).map(drop)?;
    }
    if random.one_in(4) {
        let room = random.pick(&[len, len, len + more, len - 1]);
        safely(bytes, edition, new, &before[..room])?;
        places::of_result(random, &made, edition, &places, hits)?;
    }
    // The same once more changes nothing; the old data, where they are plain, give back the old bytes. Neither is noted.
    let kept = hits.replaced.clone();
    let again = replaced(&made, edition, new, &before, hits)?;
    same!(made, again.is_some_and(|(again, _)| again == made), true, "a result of the same data once more");
    let old = reference::table_part(bytes, PSV0).map_or(&[][..], |(_, data)| data);
    let back = reference::plain(old);
    if back {
        let room = random.bytes(bytes.len());
        let back = replaced(&made, edition, old, &room, hits)?;
        same!(made, back.is_some_and(|(back, _)| back == bytes), true, "the old data put back");
    }
    hits.replaced = kept;
    hits.replaced.saw(Kind::Back, back);
    Ok(())
}

/// A container, and some data for it.
pub fn case(seed: u64, number: u64, hits: &mut Hits) -> Check {
    if !number.is_multiple_of(EVERY) {
        return Ok(());
    }
    // Other numbers than anything else of the case draws.
    let random = &mut Random::new(seed, number ^ 1 << 61);
    let bytes = container(random);
    for _ in 0..2 {
        let edition = lists::edition(random);
        let new = part(random, &bytes);
        rooms(random, &bytes, edition, &new, hits)?;
    }
    Ok(())
}

/// PSV0 data in plain form, of edition 0 with so many resources.
fn small(resources: usize) -> Vec<u8> {
    let mut pieces = Pieces::plain(&mut Random::new(0, 0));
    pieces.runtime = vec![7; SIZES[0]];
    pieces.resource_size = 16;
    pieces.resources = vec![7; 16 * resources];
    pieces.bytes().0
}

/// Results of the greatest length and past it, and data that are too long.
pub fn fixed(seed: u64, hits: &mut Hits) -> Check {
    let random = &mut Random::new(seed, 1 << 61);
    let out = vec![9; LONGEST];
    let new = [0, 1, 2].map(small);
    let code = (*b"DXIL", b"code".to_vec());
    for (i, less) in [0, 20, 36].into_iter().enumerate() {
        // The long part stands after the PSV0 part or before it, or is what follows the last.
        let mut parts = vec![code.clone(), (PSV0, new[0].clone())];
        let narrow = make::spaced(random, &parts, |_| 0).0.len();
        let long = LONGEST - less - narrow;
        let mut bytes = match i {
            2 => make::spaced(random, &parts, |_| 0).0,
            _ => {
                parts.insert(2 * i, (repeats::PRIV, vec![5; long - 12]));
                make::spaced(random, &parts, |_| 0).0
            }
        };
        bytes.resize(LONGEST - less, 3);
        make::put4(&mut bytes, 24, (LONGEST - less) as u32);
        let edition = random.below(4);
        for data in &new {
            let len = bytes.len() - new[0].len() + data.len();
            if let Some((made, places)) = replaced(&bytes, edition, data, &out[..len.min(LONGEST)], hits)? {
                looked_at(&bytes, edition, data, &made, &places)?;
            }
            replaced(&bytes, edition, data, &[], hits).map(drop)?;
            if len >= LONGEST {
                replaced(&bytes, edition, data, &out[..LONGEST - 1], hits).map(drop)?;
            }
        }
        if i == 0 {
            // Data of the greatest length, in plain form and not, and one byte more; then a container of one byte more.
            let mut runtime = vec![0; SIZES[1]];
            runtime[24] = 1;
            let mut pieces = Pieces { runtime, strings: vec![0; LONGEST - 52], ..Pieces::plain(random) };
            (pieces.resources, pieces.indices, pieces.elements, pieces.masks) = Default::default();
            let mut data = pieces.bytes().0;
            replaced(&bytes, edition, &data, &[], hits).map(drop)?;
            data[40 + 4] -= 4;
            replaced(&bytes, edition, &data, &[], hits).map(drop)?;
            data.push(0);
            replaced(&bytes, edition, &data, &[], hits).map(drop)?;
            bytes.push(0);
            make::put4(&mut bytes, 24, LONGEST as u32 + 1);
            replaced(&bytes, edition, &data, &[], hits).map(drop)?;
            replaced(&bytes, edition, &new[0], &[], hits).map(drop)?;
        }
    }
    Ok(())
}

circumstances! {
    /// What containers, data and rooms there were.
    Kind, KINDS:
    First: 6100 "replaced, PSV0 the first of several parts",
    Middle: 3800 "replaced, PSV0 a middle part",
    Last: 7300 "replaced, PSV0 the last of several parts",
    Longer: 6500 "replaced by longer data",
    Shorter: 7900 "replaced by shorter data",
    Other: 1600 "replaced by other data of the same length",
    Same: 1300 "replaced by the same data",
    Back: 5000 "the old data put back",
    GapBefore: 4600 "replaced, with a gap before the PSV0 part",
    GapAfter: 2700 "replaced, with a gap after the PSV0 part",
    After: 4700 "replaced, with bytes after the last part",
    Unaligned: 8100 "replaced, with a part after it that isn't at a multiple of 4",
    Privates: 4300 "replaced among several PRIV parts",
    PrivatesMoved: 2200 "replaced before several PRIV parts",
    NotPlain: 7300 "replaced where the old data aren't plain",
    Ill: 470 "replaced where edition 3 refuses the old data",
    Exact: 8700 "replaced with room for it alone",
    OneLess: 8700 "28 for a result, with room for a byte less",
    NoRoom: 8700 "28 for a result, with no room",
    OpeningFirst: 6200 "the opening's number where the data are refused or not plain too",
    OpeningRoomless: 4800 "the opening's number with no room",
    PartRoomless: 2700 "the data's number with no room",
    PartAlone: 1800 "the data's number where the edition that is asked for accepts them",
    UnplainRoomless: 4300 "27 with no room",
    UnplainRuntime: 2200 "27 by the runtime record's size alone",
    UnplainResource: 1500 "27 by the resources' size alone",
    UnplainElement: 1800 "27 by the elements' size alone",
    UnplainEnd: 3300 "27 by bytes at the end alone",
    UnplainLong: 1 "27 where the result would be too long",
    Longest: 3 "a result of 16,777,216 bytes",
    TooLong: 3 "2 for a result that is too long",
    TooLongRoomless: 3 "2 for a result that is too long, with no room",
}

/// So often at least each number of an opening was given for the container and for the data; and each edition of a result at each that was
/// asked for. 2 comes of long ones alone.
const OF_NUMBER: [u64; 2] = [20, 50];
const OF_FLAW: u64 = 350;
const OF_EDITION: u64 = 500;

/// How often each of the circumstances came, and each number of the container's opening and of the data's; and what was put in, by its
/// edition and the one that was asked for.
#[derive(Clone)]
pub struct Notes {
    kinds: [u64; KINDS.len()],
    told: [[u64; NUMBERS]; 2],
    editions: [[u64; 4]; 4],
}

impl Default for Notes {
    fn default() -> Notes {
        Notes { kinds: [0; KINDS.len()], told: [[0; NUMBERS]; 2], editions: [[0; 4]; 4] }
    }
}

impl Notes {
    fn saw(&mut self, kind: Kind, is: bool) {
        self.kinds[kind as usize] += u64::from(is);
    }

    fn answer(&mut self, bytes: &[u8], edition: usize, new: &[u8], room: usize, answer: &Result<(Vec<u8>, reference::Places), Refusal>) {
        let (opening, part) = (raw::open(bytes, edition).verdict.number, raw::psv0_open(new, 3).verdict.number);
        let number = verdict_of(answer).number;
        if opening != 0 {
            self.told[0][number] += 1;
            self.saw(Kind::OpeningFirst, part != opening && !reference::plain(new));
            self.saw(Kind::OpeningRoomless, room == 0);
            return;
        }
        let Ok(parts) = reference::table(bytes) else {
            return;
        };
        let at = parts.iter().position(|part| part.name == PSV0).unwrap_or(0);
        let old = parts[at].data(bytes);
        let len = bytes.len() - old.len() + new.len();
        match number {
            27 => self.unplain(new, room, len),
            2 if part == 0 => self.saw(if room == 0 { Kind::TooLongRoomless } else { Kind::TooLong }, true),
            28 => {
                self.saw(Kind::OneLess, room + 1 == len);
                self.saw(Kind::NoRoom, room == 0);
            }
            0 => {
                self.put_in(edition, new, old);
                self.saw(Kind::Exact, room == len);
                self.saw(Kind::Longest, len == LONGEST);
                self.stood(bytes, &parts, at);
                self.saw(Kind::Ill, reference::open(bytes, 3).is_err());
            }
            _ => {
                self.told[1][number] += 1;
                self.saw(Kind::PartRoomless, room == 0);
                self.saw(Kind::PartAlone, raw::psv0_open(new, edition).verdict.number == 0);
            }
        }
    }

    /// Notes the data that were put in, and those in whose place.
    fn put_in(&mut self, edition: usize, new: &[u8], old: &[u8]) {
        self.editions[raw::psv0_open(new, 3).file_edition][edition] += 1;
        self.saw(Kind::Longer, new.len() > old.len());
        self.saw(Kind::Shorter, new.len() < old.len());
        self.saw(if new == old { Kind::Same } else { Kind::Other }, new.len() == old.len());
        self.saw(Kind::NotPlain, !reference::plain(old));
    }

    /// Notes where the PSV0 part stood.
    fn stood(&mut self, bytes: &[u8], parts: &[reference::Part], at: usize) {
        let last = parts.len() - 1;
        self.saw(Kind::First, at == 0);
        self.saw(Kind::Middle, at > 0 && at < last);
        self.saw(Kind::Last, at == last);
        let after = &parts[at + 1..];
        self.saw(Kind::GapBefore, parts[at].gap > 0);
        self.saw(Kind::GapAfter, after.first().is_some_and(|part| part.gap > 0));
        self.saw(Kind::After, parts[last].end() < bytes.len());
        self.saw(Kind::Unaligned, after.iter().any(|part| part.offset % 4 != 0));
        let privates = |parts: &[reference::Part]| parts.iter().filter(|part| part.name == repeats::PRIV).count() > 1;
        self.saw(Kind::Privates, privates(parts));
        self.saw(Kind::PrivatesMoved, privates(after));
    }

    /// Notes why data that are right aren't plain.
    fn unplain(&mut self, new: &[u8], room: usize, len: usize) {
        self.saw(Kind::UnplainRoomless, room == 0);
        self.saw(Kind::UnplainLong, len > LONGEST);
        let Ok(opening) = reference::open_psv0(new, 3) else {
            return;
        };
        let (edition, layout) = (opening.file_edition, opening.layout);
        let size = if edition < 2 { 16 } else { 24 };
        let why = [
            layout.runtime_size != SIZES[edition],
            layout.resource_size.is_some_and(|stated| stated != size),
            layout.element_size.is_some_and(|stated| stated != 16),
            layout.end != new.len(),
        ];
        for (i, kind) in [Kind::UnplainRuntime, Kind::UnplainResource, Kind::UnplainElement, Kind::UnplainEnd].into_iter().enumerate() {
            self.saw(kind, why.iter().enumerate().all(|(j, is)| *is == (i == j)));
        }
    }
}

/// How often a number of the container or of the data comes at least: those that flaws in the data give come more often.
fn least_of(i: usize, number: usize) -> u64 {
    match number {
        2 => 1,
        15 | 16 | 17 | 22 | 23 | 24 if i == 1 => OF_FLAW,
        _ => OF_NUMBER[i],
    }
}

/// Prints what was replaced in a run and what was refused, and adds what came less often than it must.
pub fn summary(hits: &Hits, missed: &mut Vec<String>) {
    let notes = &hits.replaced;
    for (i, (what, least)) in [("the container", 1), ("the data", 12)].into_iter().enumerate() {
        print!("numbers of {what} by replace:");
        for number in (least..26).chain([2]).filter(|number| i == 0 || *number < 25) {
            let count = notes.told[i][number];
            print!(" {number}: {count},");
            at_least(&format!("{number} of {what} by replace"), count, least_of(i, number), missed);
        }
        println!();
    }
    for (edition, counts) in notes.editions.iter().enumerate() {
        println!("data of edition {edition} put in at editions 0 to 3: {counts:?}");
        counts.iter().for_each(|count| at_least(&format!("data of edition {edition} put in at each edition"), *count, OF_EDITION, missed));
    }
    each(KINDS, &notes.kinds, missed);
}
