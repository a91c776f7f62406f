//! Openings that keep their places, and queries by places that were kept or made up, against the independent reader and against the library's
//! queries on the bytes; and what places, bytes and answers a run came by.

use qollqamir::{raw, Placed};
use reference::{Opening, Places, Refusal, Section, Text};

use crate::compare::{
    element_of, field, numbers, refusal_of, resource_of, runtime_of, same, same_text, span_of, verdict_of, Call, Check, Hits, Mismatch,
    Reader, ARRAY, CALLS, CONTAINER, ENTRY_NAME, LONG, MASK, PSV0, STAGE_UNION, STRING,
};
use crate::entries::{at_least, circumstances, each};
use crate::lists;
use crate::make::{self, get4, Pieces, SIZES};
use crate::random::Random;
use crate::records::{self, Numbers, Over, Way, OVERS, WAYS};

/// One case in so many asks by places, so that a run stays short.
const EVERY: u64 = 16;

/// So many places are made up in such a case, each for bytes of its own.
const ROUNDS: usize = 6;

/// The places beside a refusal.
pub const NOWHERE: raw::Places = plain_of([0; 25]);

const fn plain_of(n: Numbers) -> raw::Places {
    raw::Places {
        edition: n[0],
        runtime: n[1],
        stage: n[2],
        resources: n[3],
        resource_count: n[4],
        resource_size: n[5],
        strings: n[6],
        string_bytes: n[7],
        indices: n[8],
        index_count: n[9],
        elements: n[10],
        element_count: n[11],
        element_size: n[12],
        masks: n[13],
        mask_words: [n[14], n[15], n[16], n[17], n[18], n[19], n[20], n[21], n[22], n[23], n[24]],
    }
}

/// The reference's places as the library hands them out.
pub fn places_of(theirs: &Places) -> raw::Places {
    plain_of(theirs.numbers())
}

fn opened_of(answer: &Result<Opening, Refusal>) -> raw::Opened {
    let verdict = verdict_of(answer);
    match answer {
        Ok(o) => raw::Opened {
            verdict,
            parts: o.parts.len() as u32,
            file_edition: o.file_edition as u32,
            edition_read: o.edition_read as u32,
            places: places_of(&o.places),
        },
        Err(_) => raw::Opened { verdict, parts: 0, file_edition: 0, edition_read: 0, places: NOWHERE },
    }
}

/// An opening that keeps its places.
pub fn opened(reader: &Reader, bytes: &[u8], edition: usize, expected: &Result<Opening, Refusal>, hits: &mut Hits) -> Check {
    let got = (reader.open_places)(bytes, edition);
    hits.note(reader.kept, got.verdict);
    same!(bytes, got, opened_of(expected), "{} open_places {edition}", reader.name);
    Ok(())
}

/// The safe types keep the same places.
fn safely(reader: &Reader, bytes: &[u8], edition: usize, expected: Result<&Opening, Refusal>) -> Check {
    let places = match reader.call {
        Call::Open => qollqamir::Container::open(bytes, edition).map(|container| container.places()),
        _ => qollqamir::Psv0::open(bytes, edition).map(|psv0| psv0.places()),
    };
    same!(bytes, places.map_err(refusal_of), expected.map(|opening| places_of(&opening.places)), "safe places {edition}");
    Ok(())
}

/// One in some of the bytes that are read is asked by the places of its opening. No number of the case's own is drawn.
pub fn at_times(reader: &Reader, bytes: &[u8], edition: usize, opening: &Opening, hits: &mut Hits) -> Check {
    safely(reader, bytes, edition, Ok(opening))?;
    let random = &mut Random::new(bytes.len() as u64, bytes.iter().map(|byte| u64::from(*byte)).sum());
    if bytes.len() > 65_536 || !random.one_in(8) {
        return Ok(());
    }
    // Not noted: what a run must have come by is to come of the cases below.
    let kept = hits.placed.clone();
    own(random, reader, bytes, edition, &opening.places, hits)?;
    hits.placed = kept;
    Ok(())
}

/// A query that takes places.
#[derive(Clone, Copy, Debug)]
enum Query {
    Info,
    Union(usize),
    Resource(usize),
    Element(usize),
    String(usize),
    Array(usize),
    EntryName(usize),
    Mask(usize),
    View(u32),
    Section(u32),
}

/// What a query answers, as the library hands it out.
#[derive(Clone, Copy, Debug, PartialEq, Eq)]
enum Answer {
    Info(raw::Info),
    Resource(raw::Resource),
    Element(raw::Element),
    Span(raw::Span),
}

impl Answer {
    fn verdict(&self) -> raw::Verdict {
        match self {
            Answer::Info(info) => info.verdict,
            Answer::Resource(record) => record.verdict,
            Answer::Element(record) => record.verdict,
            Answer::Span(span) => span.verdict,
        }
    }
}

/// The refusal of what isn't there.
const ABSENT: Refusal = Refusal { number: 26, place: 0 };

impl Query {
    /// The call that is counted; those of a view that there is not are counted by none.
    fn call(self) -> Option<Call> {
        Some(match self {
            Query::Info => Call::PlacedInfo,
            Query::Union(_) => Call::PlacedUnion,
            Query::Resource(_) => Call::PlacedResource,
            Query::Element(_) => Call::PlacedElement,
            Query::String(_) => Call::PlacedString,
            Query::Array(_) => Call::PlacedArray,
            Query::EntryName(_) => Call::PlacedEntryName,
            Query::Mask(_) => Call::PlacedMask,
            Query::Section(_) => Call::PlacedSection,
            Query::View(_) => return None,
        })
    }

    /// By places, in the library.
    fn ours(self, bytes: &[u8], places: raw::Places) -> Answer {
        let view = |kind, number| Answer::Span(raw::places_view(bytes, places, kind, number));
        match self {
            Query::Info => Answer::Info(raw::places_runtime_info(bytes, places)),
            Query::Union(any) => view(STAGE_UNION, any),
            Query::Resource(i) => Answer::Resource(raw::places_resource(bytes, places, i)),
            Query::Element(i) => Answer::Element(raw::places_element(bytes, places, i)),
            Query::String(i) => view(STRING, i),
            Query::Array(i) => view(ARRAY, i),
            Query::EntryName(any) => view(ENTRY_NAME, any),
            Query::Mask(number) => view(MASK, number),
            Query::View(kind) => view(kind, 0),
            Query::Section(section) => Answer::Span(raw::places_section(bytes, places, section)),
        }
    }

    /// On the bytes alone, in the library.
    fn fresh(self, reader: &Reader, bytes: &[u8], edition: usize) -> Answer {
        let view = |kind, number| Answer::Span((reader.view)(bytes, edition, kind, number));
        match self {
            Query::Info => Answer::Info((reader.info)(bytes, edition)),
            Query::Union(any) => view(STAGE_UNION, any),
            Query::Resource(i) => Answer::Resource((reader.resource)(bytes, edition, i)),
            Query::Element(i) => Answer::Element((reader.element)(bytes, edition, i)),
            Query::String(i) => view(STRING, i),
            Query::Array(i) => view(ARRAY, i),
            Query::EntryName(any) => view(ENTRY_NAME, any),
            Query::Mask(number) => view(MASK, number),
            Query::View(kind) => view(kind, 0),
            Query::Section(section) => Answer::Span((reader.section)(bytes, edition, section)),
        }
    }

    /// By places, in the reference.
    fn theirs(self, bytes: &[u8], places: &Places) -> Answer {
        let view = |view: Result<&[u8], Refusal>| Answer::Span(span_of(bytes, view, None));
        let text = |text: Result<Text, Refusal>| {
            Answer::Span(span_of(bytes, text.map(|text| text.bytes), Some(text.map_or(0, |text| text.points))))
        };
        match self {
            Query::Info => Answer::Info(runtime_of(places.runtime_info(bytes))),
            Query::Union(_) => view(places.stage_union(bytes)),
            Query::Resource(i) => Answer::Resource(resource_of(places.resource(bytes, i))),
            Query::Element(i) => Answer::Element(element_of(places.element(bytes, i))),
            Query::String(i) => text(places.string(bytes, i)),
            Query::Array(i) => view(places.array_bytes(bytes, i)),
            Query::EntryName(_) => text(places.entry_name(bytes)),
            Query::Mask(number) => view(places.mask(bytes, number)),
            Query::View(_) => view(Err(ABSENT)),
            Query::Section(section) => match Section::ALL.get(section as usize) {
                Some(section) => view(places.section(bytes, *section)),
                None => view(Err(ABSENT)),
            },
        }
    }
}

/// A number whose low 32 bits are those of one that is there.
fn low_bits(random: &mut Random, count: usize) -> usize {
    (1 << random.pick(&[32, 32, 33, 63])) | random.below(count.max(1))
}

/// The numbers to ask for in a list that is recorded at a place, with a count and a record size, for bytes of this length: those of any list,
/// one that is another in its low bits, and those whose records stand at the bytes' end.
fn asked(random: &mut Random, [place, count, size]: [u32; 3], len: usize, need: usize) -> Vec<usize> {
    let mut asked = numbers(random, count as usize);
    if count > 6 {
        asked.drain(2..6);
    }
    asked.push(low_bits(random, count as usize));
    let last = len.saturating_sub(place as usize + need) / (size as usize).max(1);
    if last < count as usize {
        asked.extend([last, last + 1]);
    }
    if count > 1 << 16 {
        // Far ones, among them such that 32 bits would take back to the place.
        asked.extend([(1 << 32) / (size as usize).max(1), count as usize / 2]);
    }
    asked
}

/// The queries for places and bytes.
fn queries(random: &mut Random, places: &raw::Places, len: usize) -> Vec<Query> {
    let any = random.next() as usize;
    let mut all = vec![Query::Info, Query::Union(any), Query::EntryName(any), Query::View(random.pick(&[5, 6, 255, 256, u32::MAX]))];
    let long = places.edition > 1 && places.resource_size >= 24;
    let list = [places.resources, places.resource_count, places.resource_size];
    all.extend(asked(random, list, len, if long { 24 } else { 16 }).into_iter().map(Query::Resource));
    let list = [places.elements, places.element_count, places.element_size];
    for i in asked(random, list, len, 16) {
        all.extend([Query::Element(i), Query::String(i), Query::Array(i)]);
    }
    all.extend((0..=11).chain([random.pick(&[12, 255, 256, usize::MAX, 1 << 32, 1 << 32 | 5])]).map(Query::Mask));
    all.extend((0..=6).chain([random.pick(&[7, 256, u32::MAX])]).map(Query::Section));
    all
}

fn lengths_of(theirs: &Places) -> raw::Lengths {
    let length = |length: Option<usize>| field(length.map(|length| length as u32));
    let reference::Lengths { resources, strings, indices, elements } = theirs.lengths();
    let verdict = raw::Verdict { number: 0, place: 0 };
    raw::Lengths {
        verdict,
        resources: length(Some(resources)),
        strings: length(strings),
        indices: length(indices),
        elements: length(elements),
    }
}

/// Every query by places, against the reference; answers how many were accepted, gave 26 and gave 29.
fn by_places(random: &mut Random, bytes: &[u8], theirs: &Places, hits: &mut Hits) -> Result<[u64; 3], Mismatch> {
    let places = places_of(theirs);
    let mut counts = [0; 3];
    same!(bytes, raw::places_lengths(bytes, places), lengths_of(theirs), "lengths by {:?}", theirs.numbers());
    for query in queries(random, &places, bytes.len()) {
        let (got, expected) = (query.ours(bytes, places), query.theirs(bytes, theirs));
        same!(bytes, got, expected, "{query:?} by {:?}", theirs.numbers());
        let verdict = got.verdict();
        counts[match verdict.number {
            0 => 0,
            26 => 1,
            _ => 2,
        }] += 1;
        if let Some(call) = query.call() {
            hits.note(call, verdict);
        }
        let told = hits.placed.query(bytes, &places, query);
        same!(bytes, verdict.number, told, "number of {query:?} by what it needs, by {:?}", theirs.numbers());
    }
    if random.one_in(4) {
        placed(bytes, theirs)?;
    }
    Ok(counts)
}

/// The places of an opening, on its bytes: every answer by them is also the one without them.
fn own(random: &mut Random, reader: &Reader, bytes: &[u8], edition: usize, theirs: &Places, hits: &mut Hits) -> Check {
    let places = places_of(theirs);
    by_places(random, bytes, theirs, hits).map(drop)?;
    same!(bytes, raw::places_lengths(bytes, places), (reader.lengths)(bytes, edition), "fresh lengths {edition}");
    for query in queries(random, &places, bytes.len()) {
        let (got, mut expected) = (query.ours(bytes, places), query.fresh(reader, bytes, edition));
        // The start of an empty view is left free.
        if let (Answer::Span(got), Answer::Span(expected)) = (got, &mut expected) {
            if expected.verdict.number == 0 && expected.len == 0 {
                expected.start = got.start;
            }
        }
        same!(bytes, got, expected, "{} {query:?} by places and fresh {edition}", reader.name);
    }
    Ok(())
}

/// What a safe record shows, as the plain one.
macro_rules! shown {
    ($type:ident, $safe:expr, [$($field:ident)*] [$($list:ident)*]) => {
        $safe.map(|safe| {
            let verdict = raw::Verdict { number: 0, place: 0 };
            raw::$type { verdict, $($field: field(safe.$field),)* $($list: safe.$list.map(field),)* }
        })
    };
}

/// The safe calls by places show what the reference does.
fn placed(bytes: &[u8], theirs: &Places) -> Check {
    let safe = Placed::new(bytes, places_of(theirs));
    let by = theirs.numbers();
    same!(bytes, (safe.bytes(), safe.places()), (bytes, places_of(theirs)), "what was placed by {by:?}");
    let info = shown!(
        Info,
        safe.runtime().map_err(refusal_of),
        [minimum_wave_lanes maximum_wave_lanes stage uses_view_id max_vertex_count patch_vectors mesh_topology input_elements output_elements
            patch_elements input_vectors entry_name_offset] [output_vectors threads]
    );
    same!(bytes, info, theirs.runtime_info(bytes).map(|runtime| runtime_of(Ok(runtime))), "safe info by {by:?}");
    let lengths = Ok::<_, Refusal>(safe.lengths());
    same!(bytes, shown!(Lengths, lengths, [resources strings indices elements] []), Ok(lengths_of(theirs)), "safe lengths by {by:?}");
    same!(bytes, safe.stage_union().map_err(refusal_of), theirs.stage_union(bytes), "safe stage union by {by:?}");
    same_text(bytes, safe.entry_name(), theirs.entry_name(bytes), format_args!("safe entry name by {by:?}"))?;
    let past = [theirs.resource_count as usize, theirs.element_count as usize];
    for i in (0..LONG / 2).chain(past).chain([10, 11]) {
        let got = shown!(Resource, safe.resource(i).map_err(refusal_of), [binding_type space lower_bound upper_bound kind flags] []);
        same!(bytes, got, theirs.resource(bytes, i).map(|record| resource_of(Ok(record))), "safe resource {i} by {by:?}");
        let got = shown!(
            Element,
            safe.element(i).map_err(refusal_of),
            [name_offset index_reference rows start_row columns start_column allocated semantic_kind component_type interpolation dynamic_mask
                stream reserved] []
        );
        same!(bytes, got, theirs.element(bytes, i).map(|record| element_of(Ok(record))), "safe element {i} by {by:?}");
        same_text(bytes, safe.element_string(i), theirs.string(bytes, i), format_args!("safe string {i} by {by:?}"))?;
        same!(bytes, safe.element_array(i).map_err(refusal_of), theirs.array_bytes(bytes, i), "safe array {i} by {by:?}");
        same!(bytes, safe.mask(i).map_err(refusal_of), theirs.mask(bytes, i), "safe mask {i} by {by:?}");
    }
    let got = safe.sections().map(|s| vec![s.runtime, s.resources, s.strings, s.indices, s.elements, s.masks]).map_err(refusal_of);
    let expected: Result<Vec<&[u8]>, Refusal> = Section::ALL.into_iter().map(|section| theirs.section(bytes, section)).collect();
    same!(bytes, got, expected, "safe sections by {by:?}");
    Ok(())
}

/// A container or PSV0 data, mostly one that opens.
fn file(random: &mut Random) -> (&'static Reader, Vec<u8>) {
    if random.one_in(2) {
        return (&CONTAINER, lists::container(random));
    }
    let psv0 = match random.below(8) {
        0 => make::damaged_psv0(random),
        1 => {
            let mut pieces = Pieces::valid(random);
            pieces.flaw(random);
            pieces.bytes().0
        }
        2 => Pieces::plain(random).bytes().0,
        _ => Pieces::valid(random).bytes().0,
    };
    (&PSV0, psv0)
}

/// A file that opens, and the places of its opening.
fn kept(random: &mut Random) -> (Vec<u8>, Places) {
    let size = random.pick(&[24, 36, 48, 52, 52, 60]);
    let psv0 = Pieces::valid_of(random, size).bytes().0;
    let edition = random.pick(&[0, 1, 2, 3, 3]);
    if random.one_in(2) {
        let bytes = make::around(random, &psv0);
        let places = reference::open(&bytes, edition).map(|opening| opening.places).unwrap_or_default();
        return (bytes, places);
    }
    let places = reference::open_psv0(&psv0, edition).map(|opening| opening.places).unwrap_or_default();
    (psv0, places)
}

/// A file asked by its own places, and made-up places on it and on other bytes.
pub fn case(seed: u64, number: u64, hits: &mut Hits) -> Check {
    if !number.is_multiple_of(EVERY) {
        return Ok(());
    }
    // Other numbers than the container and the list of any case draw.
    let random = &mut Random::new(seed, number ^ 1 << 62);
    let (reader, bytes) = file(random);
    let mut places = None;
    for edition in [4, 0, 1, 2, 3] {
        let expected = (reader.reference)(&bytes, edition);
        opened(reader, &bytes, edition, &expected, hits)?;
        safely(reader, &bytes, edition, expected.as_ref().map_err(|refusal| *refusal))?;
        if let Ok(opening) = expected {
            if random.one_in(3) {
                own(random, reader, &bytes, edition, &opening.places, hits)?;
                hits.placed.saw(if matches!(reader.call, Call::Open) { Kind::OwnContainer } else { Kind::OwnPsv0 }, true);
            }
            places = if places.is_some() && random.one_in(2) { places } else { Some(opening.places) };
        }
    }
    // Bytes that don't open are asked by another's places, or by none.
    let (foreign, others) = kept(random);
    let own = places.unwrap_or(if random.one_in(2) { others } else { Places::default() });
    for _ in 0..ROUNDS {
        let opened = &bytes;
        let (over, bytes) = records::bytes(random, opened, &own.numbers(), &foreign);
        let (way, numbers) = records::places(random, &own.numbers(), &others.numbers(), bytes.len());
        let theirs = Places::from_numbers(numbers);
        same!(bytes, theirs.numbers(), numbers, "numbers of places");
        let counts = by_places(random, &bytes, &theirs, hits)?;
        if way.holds(&numbers, &own.numbers(), &others.numbers(), bytes.len()) && over.holds(&bytes, opened, &foreign) {
            hits.placed.round(way, over, counts);
        }
    }
    Ok(())
}

/// What has to lie inside the bytes, and for which query.
#[derive(Clone, Copy)]
enum Need {
    Info,
    Union,
    EntryRecord,
    Short,
    Long,
    Element,
    StringElement,
    ArrayElement,
    StringTable,
    EntryTable,
    IndexTable,
    Mask,
    Runtime,
    Resources,
    Strings,
    Indices,
    Elements,
    Masks,
}

/// The needs, and how often each fits so at least; 0 where it can't be of no bytes.
const NEEDS: [(&str, [u64; FITS.len()]); 18] = [
    ("the runtime record, for the info", [770, 510, 9600, 1100, 0, 0]),
    ("the runtime record, for the stage union", [770, 510, 9600, 1100, 0, 0]),
    ("the runtime record, for the entry name", [200, 120, 2500, 390, 0, 0]),
    ("a resource of 16 bytes", [3700, 1500, 30_000, 5000, 0, 0]),
    ("a resource of 24 bytes", [600, 240, 13_000, 1900, 0, 0]),
    ("an element", [6500, 1500, 54_000, 5600, 0, 0]),
    ("an element, for its string", [6500, 1500, 54_000, 5600, 0, 0]),
    ("an element, for its array", [6500, 1500, 54_000, 5600, 0, 0]),
    ("the string table, for an element's", [820, 480, 1600, 1500, 220, 390]),
    ("the string table, for the entry name", [120, 64, 420, 220, 70, 100]),
    ("the index table, for an element's", [540, 240, 1500, 1100, 430, 880]),
    ("a mask", [6400, 260, 36_000, 4800, 86_000, 120_000]),
    ("the runtime record, as a section", [770, 510, 9600, 1100, 0, 0]),
    ("the resources", [2500, 230, 6500, 1300, 3100, 6100]),
    ("the strings", [340, 200, 6500, 680, 1100, 530]),
    ("the indices", [570, 98, 4700, 520, 1400, 2700]),
    ("the elements", [3900, 160, 6900, 980, 1400, 1500]),
    ("the masks", [5800, 200, 6500, 1800, 4800, 3000]),
];

/// How what has to lie inside did or did not.
const FITS: [&str; 6] =
    ["to the end", "to one past it", "from past it", "past it, where 32 bits would take it back", "empty at the end", "empty past it"];

circumstances! {
    /// What no number tells.
    Kind, KINDS:
    OwnContainer: 4500 "a container by its own places",
    OwnPsv0: 6000 "PSV0 data by its own places",
    StringAtLength: 390 "29 for a string at the table's length",
    StringPast: 17_000 "29 for a string past the table",
    StringNoZero: 1900 "29 for a string without a zero",
    StringIll: 560 "29 for a string that is no text",
    StringGood: 75_000 "a string, accepted",
    EntryAtLength: 450 "29 for an entry name at the table's length",
    EntryPast: 5000 "29 for an entry name past the table",
    EntryNoZero: 300 "29 for an entry name without a zero",
    EntryIll: 160 "29 for an entry name that is no text",
    EntryGood: 6400 "an entry name, accepted",
    ArrayOnePast: 150 "29 for an array to one number past the table",
    ArrayPast: 17_000 "29 for an array that starts past the table",
    ArrayEmptyAt: 32_000 "an empty array at the table's end",
    ArrayEmptyOnePast: 160 "29 for an empty array one past the table's end",
    ArrayWraps: 160 "29 for an array that 32 bits would take back inside the table",
    ResourceAbsent: 120_000 "26 for a resource that is outside too",
    ElementAbsent: 400_000 "26 for an element that is outside too",
    ElementUnset: 48_000 "26 for an element below the count, at edition 0",
    EntryUnset0: 28_000 "26 for the entry name at edition 0",
    EntryUnset1: 16_000 "26 for the entry name at edition 1",
    EntryUnset2: 12_000 "26 for the entry name at edition 2",
    EntryUnsetOutside: 10_000 "26 for the entry name where the runtime record is outside",
    MaskUnset: 18_000 "26 for a mask of some words, at edition 0",
    SectionUnset: 11_000 "no bytes of a section outside the bytes, at edition 0",
    ResourceLowBits: 56_000 "26 for a resource whose number is another's in its low 32 bits",
    ElementLowBits: 150_000 "26 for an element whose number is another's in its low 32 bits",
    ResourceFar: 410 "a resource from number 2^31 on",
    ElementFar: 490 "an element from number 2^31 on",
    ResourceLess: 7700 "a resource of a recorded size under 16",
    ElementLess: 13_000 "an element of a recorded size under 16",
    ResourceBetween: 8800 "a resource of a recorded size of 16 to 23, at edition 2 or more",
    ResourceOlder: 23_000 "a resource of a recorded size of 24 or more, at edition 0 or 1",
    MaskBeforeOutside: 31_000 "a mask before one that is outside",
    MaskWordsWrap: 12_000 "29 for a mask after words that 32 bits would take back",
    Beyond: 1200 "an entry name at an edition above 3",
    BeyondLowBits: 190 "an entry name at an edition that is 0 to 2 in its low 8 or 16 bits",
    StageOther: 10_000 "the info by a stage that is not the one in the record",
    StageBeyond: 2200 "the info by a stage above 15",
    StageLowByte: 87 "the info by a stage that is that of the record in its low byte alone",
    AnyFits: 93 "no 29 by places of any numbers",
}

/// The info was shown by so many recorded stages 0 to 15 each at least, and at so many editions each.
const OF_STAGE: u64 = 500;
const OF_EDITION: u64 = 5000;

/// So often at least each kind of places met each kind of bytes, and so often it was accepted, gave 26 and 29.
const ROUND: u64 = 150;
const ANSWERS: [u64; 3] = [10_000, 20_000, 8000];

/// Each call by places gave each of its numbers so often at least, and each opening with places each of its own.
const OF_NUMBER: u64 = 3000;
const OF_OPENING: u64 = 800;

/// How often each need fitted so; each of the circumstances; by which stages and at which editions the info was shown; and how often places
/// met bytes, with the answers.
#[derive(Clone)]
pub struct Notes {
    fits: [[u64; FITS.len()]; NEEDS.len()],
    kinds: [u64; KINDS.len()],
    stages: [u64; 16],
    editions: [u64; 4],
    rounds: [[u64; OVERS.len()]; WAYS.len()],
    answers: [[u64; 3]; WAYS.len()],
    overs: [[u64; 3]; OVERS.len()],
}

impl Default for Notes {
    fn default() -> Notes {
        Notes {
            fits: [[0; FITS.len()]; NEEDS.len()],
            kinds: [0; KINDS.len()],
            stages: [0; 16],
            editions: [0; 4],
            rounds: [[0; OVERS.len()]; WAYS.len()],
            answers: [[0; 3]; WAYS.len()],
            overs: [[0; 3]; OVERS.len()],
        }
    }
}

/// Bytes from a place on, exactly.
type Stretch = (u128, u128);

/// Whether a stretch ends with the bytes or before.
fn within((at, count): Stretch, bytes: &[u8]) -> bool {
    at + count <= bytes.len() as u128
}

/// Where record i of a list stands.
fn record(list: u32, i: usize, size: u32) -> u128 {
    u128::from(list) + i as u128 * u128::from(size)
}

fn sum(words: &[u32]) -> u128 {
    words.iter().map(|words| u128::from(*words)).sum()
}

impl Notes {
    fn saw(&mut self, kind: Kind, is: bool) {
        self.kinds[kind as usize] += u64::from(is);
    }

    /// Notes how a stretch that a query needs fitted, and answers whether it lies inside.
    fn need(&mut self, need: Need, (at, count): Stretch, bytes: &[u8]) -> bool {
        let (end, len) = (at + count, bytes.len() as u128);
        let fit = match count {
            0 if at == len => 4,
            0 if at > len => 5,
            _ if end < len => return true,
            _ if end == len => 0,
            _ if end == len + 1 => 1,
            _ if end >> 32 != 0 && end % (1 << 32) <= len => 3,
            _ if at > len => 2,
            _ => return false,
        };
        self.fits[need as usize][fit] += 1;
        end <= len
    }

    /// Notes what a query came by, and answers the number that it must give by its needs, one after the other.
    fn query(&mut self, bytes: &[u8], p: &raw::Places, query: Query) -> usize {
        let edition = p.edition.min(3) as usize;
        let told = |inside: bool| if inside { 0 } else { 29 };
        let runtime = (u128::from(p.runtime), SIZES[edition] as u128);
        let strings = (u128::from(p.strings), u128::from(p.string_bytes));
        let indices = (u128::from(p.indices), 4 * u128::from(p.index_count));
        match query {
            Query::Info => {
                let inside = self.need(Need::Info, runtime, bytes);
                if inside {
                    self.info(bytes, p, edition);
                }
                told(inside)
            }
            Query::Union(_) => told(self.need(Need::Union, runtime, bytes)),
            Query::Resource(i) => {
                let long = edition > 1 && p.resource_size > 23;
                let own = (record(p.resources, i, p.resource_size), if long { 24 } else { 16 });
                if i >= p.resource_count as usize {
                    self.saw(Kind::ResourceAbsent, !within(own, bytes));
                    self.saw(Kind::ResourceLowBits, i >> 32 != 0 && i % (1 << 32) < p.resource_count as usize);
                    return 26;
                }
                let inside = self.need(if long { Need::Long } else { Need::Short }, own, bytes);
                self.saw(Kind::ResourceFar, inside && i >> 31 != 0);
                self.saw(Kind::ResourceLess, inside && p.resource_size < 16);
                self.saw(Kind::ResourceBetween, inside && edition > 1 && (16..24).contains(&p.resource_size));
                self.saw(Kind::ResourceOlder, inside && edition < 2 && p.resource_size > 23);
                told(inside)
            }
            Query::Element(i) | Query::String(i) | Query::Array(i) => {
                let own = (record(p.elements, i, p.element_size), 16);
                if edition == 0 || i >= p.element_count as usize {
                    self.saw(Kind::ElementAbsent, !within(own, bytes));
                    self.saw(Kind::ElementUnset, i < p.element_count as usize);
                    self.saw(Kind::ElementLowBits, edition > 0 && i >> 32 != 0 && i % (1 << 32) < p.element_count as usize);
                    return 26;
                }
                let need = match query {
                    Query::Element(_) => Need::Element,
                    Query::String(_) => Need::StringElement,
                    _ => Need::ArrayElement,
                };
                if !self.need(need, own, bytes) {
                    return 29;
                }
                self.saw(Kind::ElementFar, i >> 31 != 0);
                self.saw(Kind::ElementLess, p.element_size < 16);
                let at = own.0 as usize;
                match query {
                    Query::Element(_) => 0,
                    Query::String(_) if !self.need(Need::StringTable, strings, bytes) => 29,
                    Query::String(_) => {
                        use Kind::{StringAtLength, StringGood, StringIll, StringNoZero, StringPast};
                        let kinds = [StringAtLength, StringPast, StringNoZero, StringIll, StringGood];
                        self.string(&bytes[strings.0 as usize..][..strings.1 as usize], get4(bytes, at), kinds)
                    }
                    _ if !self.need(Need::IndexTable, indices, bytes) => 29,
                    _ => self.array(p.index_count.into(), get4(bytes, at + 4).into(), bytes[at + 8].into()),
                }
            }
            Query::EntryName(_) => {
                if edition < 3 {
                    self.saw([Kind::EntryUnset0, Kind::EntryUnset1, Kind::EntryUnset2][edition], true);
                    self.saw(Kind::EntryUnsetOutside, !within(runtime, bytes));
                    return 26;
                }
                if !self.need(Need::EntryRecord, runtime, bytes) || !self.need(Need::EntryTable, strings, bytes) {
                    return 29;
                }
                use Kind::{EntryAtLength, EntryGood, EntryIll, EntryNoZero, EntryPast};
                let kinds = [EntryAtLength, EntryPast, EntryNoZero, EntryIll, EntryGood];
                let at = get4(bytes, runtime.0 as usize + 48);
                let told = self.string(&bytes[strings.0 as usize..][..strings.1 as usize], at, kinds);
                self.saw(Kind::Beyond, told == 0 && p.edition > 3);
                self.saw(Kind::BeyondLowBits, told == 0 && p.edition > 3 && p.edition % 256 < 3 && p.edition % 65_536 / 256 < 2);
                told
            }
            Query::Mask(i) => {
                if edition == 0 || i > 10 {
                    self.saw(Kind::MaskUnset, p.mask_words.get(i).is_some_and(|words| *words > 0));
                    return 26;
                }
                let before = u128::from(p.masks) + 4 * sum(&p.mask_words[..i]);
                let inside = self.need(Need::Mask, (before, 4 * u128::from(p.mask_words[i])), bytes);
                self.saw(Kind::MaskBeforeOutside, inside && !within((p.masks.into(), 4 * sum(&p.mask_words)), bytes));
                self.saw(Kind::MaskWordsWrap, before >> 32 != 0 && before % (1 << 32) <= bytes.len() as u128);
                told(inside)
            }
            Query::View(_) => 26,
            Query::Section(section) => {
                let stretches = [
                    (Need::Runtime, runtime),
                    (Need::Resources, (p.resources.into(), u128::from(p.resource_count) * u128::from(p.resource_size))),
                    (Need::Strings, strings),
                    (Need::Indices, indices),
                    (Need::Elements, (p.elements.into(), u128::from(p.element_count) * u128::from(p.element_size))),
                    (Need::Masks, (p.masks.into(), 4 * sum(&p.mask_words))),
                ];
                let Some((need, stretch)) = stretches.get(section as usize) else {
                    return 26;
                };
                if section > 1 && edition == 0 {
                    self.saw(Kind::SectionUnset, !within(*stretch, bytes));
                    return 0;
                }
                told(self.need(*need, *stretch, bytes))
            }
        }
    }

    fn info(&mut self, bytes: &[u8], p: &raw::Places, edition: usize) {
        self.editions[edition] += 1;
        if edition == 0 {
            return;
        }
        let shown = u32::from(bytes[p.runtime as usize + 24]);
        if let Some(count) = self.stages.get_mut(p.stage as usize) {
            *count += 1;
        }
        self.saw(Kind::StageOther, p.stage != shown && p.stage < 16);
        self.saw(Kind::StageBeyond, p.stage > 15);
        self.saw(Kind::StageLowByte, p.stage != shown && p.stage % 256 == shown);
    }

    /// Notes a string of a table that lies inside: at its length, past it, without a zero, no text, good.
    fn string(&mut self, table: &[u8], at: u32, [length, past, zero, ill, good]: [Kind; 5]) -> usize {
        let at = at as usize;
        let rest = table.get(at..).unwrap_or(&[]);
        let end = rest.iter().position(|byte| *byte == 0);
        let kind = match end {
            _ if at == table.len() => length,
            _ if at > table.len() => past,
            None => zero,
            Some(end) if std::str::from_utf8(&rest[..end]).is_err() => ill,
            Some(_) => {
                self.saw(good, true);
                return 0;
            }
        };
        self.saw(kind, true);
        29
    }

    /// Notes an array of a table of n numbers that lies inside.
    fn array(&mut self, n: u64, at: u64, rows: u64) -> usize {
        let end = at + rows;
        self.saw(Kind::ArrayOnePast, rows > 0 && end == n + 1);
        self.saw(Kind::ArrayPast, at > n);
        self.saw(Kind::ArrayEmptyAt, rows == 0 && at == n);
        self.saw(Kind::ArrayEmptyOnePast, rows == 0 && at == n + 1);
        self.saw(Kind::ArrayWraps, end >> 32 != 0 && end % (1 << 32) <= n);
        if end <= n {
            0
        } else {
            29
        }
    }

    /// Notes places and bytes that met, and how many queries were accepted, gave 26 and gave 29.
    fn round(&mut self, way: Way, over: Over, counts: [u64; 3]) {
        self.rounds[way as usize][over as usize] += 1;
        for (i, count) in counts.into_iter().enumerate() {
            self.answers[way as usize][i] += count;
            self.overs[over as usize][i] += count;
        }
        self.saw(Kind::AnyFits, way == Way::Any && counts[2] == 0);
    }
}

/// Prints what places, bytes and answers a run came by, and adds what came less often than it must.
pub fn summary(hits: &Hits, missed: &mut Vec<String>) {
    use Call::*;
    for call in
        [PlacedInfo, PlacedUnion, PlacedResource, PlacedElement, PlacedString, PlacedArray, PlacedEntryName, PlacedMask, PlacedSection]
    {
        hits.given(call, OF_NUMBER, 0, missed);
        at_least(&format!("{} accepted", CALLS[call as usize].0), hits.counts[call as usize][0], OF_NUMBER, missed);
    }
    for call in [OpenPlaces, Psv0Places] {
        let (name, can) = CALLS[call as usize];
        // 2 comes of long ones alone.
        for number in can.iter().filter(|number| **number != 2) {
            at_least(&format!("{number} by {name}"), hits.counts[call as usize][usize::from(*number)], OF_OPENING, missed);
        }
    }
    let notes = &hits.placed;
    for ((what, least), counts) in NEEDS.iter().zip(&notes.fits) {
        print!("{what}:");
        for ((fit, least), count) in FITS.iter().zip(least).zip(counts).filter(|((_, least), _)| **least > 0) {
            print!(" {fit} {count},");
            at_least(&format!("{what} {fit}"), *count, *least, missed);
        }
        println!();
    }
    println!("info by places of stages 0 to 15: {:?}, at editions 0 to 3: {:?}", notes.stages, notes.editions);
    notes.stages.iter().for_each(|count| at_least("info by places of each stage", *count, OF_STAGE, missed));
    notes.editions.iter().for_each(|count| at_least("info by places at each edition", *count, OF_EDITION, missed));
    for (((_, what), rounds), answers) in WAYS.iter().zip(&notes.rounds).zip(&notes.answers) {
        println!("places {what}, over each kind of bytes: {rounds:?}, accepted, 26 and 29: {answers:?}");
        for ((_, over), count) in OVERS.iter().zip(rounds) {
            at_least(&format!("places {what} over {over}"), *count, ROUND, missed);
        }
        for ((answer, least), count) in ["accepted", "26", "29"].iter().zip(ANSWERS).zip(answers) {
            at_least(&format!("{answer} by places {what}"), *count, least, missed);
        }
    }
    for ((_, over), answers) in OVERS.iter().zip(&notes.overs) {
        println!("{over} by places, accepted, 26 and 29: {answers:?}");
        for ((answer, least), count) in ["accepted", "26", "29"].iter().zip(ANSWERS).zip(answers) {
            at_least(&format!("{answer} by places over {over}"), *count, least, missed);
        }
    }
    each(KINDS, &notes.kinds, missed);
}

/// Queries by the places of an accepted result.
pub fn of_result(random: &mut Random, bytes: &[u8], edition: usize, theirs: &Places, hits: &mut Hits) -> Check {
    own(random, &CONTAINER, bytes, edition, theirs, hits)
}
