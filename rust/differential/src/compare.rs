//! Every call of the library against the independent reader, answer by answer.

use std::array::from_fn;
use std::collections::BTreeSet;
use std::fmt::Debug;

use qollqamir::raw;
use reference::{Opening, Program, ProgramReport, Refusal, Text};

use crate::entries::at_least;
use crate::make::get4;
use crate::random::Random;
use crate::strings::{ends_entry_name, Notes, Sections, Way};
use crate::{entries, figures, pairs, places, replace, roots, settings, signatures};

/// A difference, and the bytes it was seen on.
#[derive(Debug)]
pub struct Mismatch {
    pub what: String,
    pub bytes: Vec<u8>,
}

pub type Check = Result<(), Mismatch>;

/// Fails where two answers differ.
macro_rules! same {
    ($bytes:expr, $got:expr, $expected:expr, $($what:tt)+) => {{
        let (got, expected) = (&$got, &$expected);
        if got != expected {
            return Err($crate::compare::Mismatch {
                what: format!("{}: library {:?}, reference {:?}", format_args!($($what)+), got, expected),
                bytes: $bytes.to_vec(),
            });
        }
    }};
}
pub(crate) use same;

/// The calls that are counted apart.
#[derive(Clone, Copy)]
pub enum Call {
    Table,
    Counted,
    TablePart,
    Part,
    Open,
    Default,
    Psv0,
    Query,
    Write,
    Assemble,
    Program,
    Dxil,
    Signature,
    Element,
    Name,
    Difference,
    Sg1,
    Sg1Element,
    Sg1Alone,
    Sg1Name,
    Root,
    RootItem,
    RootRange,
    Rts0,
    Rts0Item,
    ItemAlone,
    Rts0Range,
    RangeAlone,
    Settings,
    Setting,
    SettingRow,
    RowAlone,
    WriteRows,
    Add,
    OpenPlaces,
    Psv0Places,
    PlacedInfo,
    PlacedUnion,
    PlacedResource,
    PlacedElement,
    PlacedString,
    PlacedArray,
    PlacedEntryName,
    PlacedMask,
    PlacedSection,
    Replace,
}

/// The numbers of opening a container at an edition, and more.
macro_rules! opening_and {
    ($($more:literal),*) => {
        &[1, 2, 3, 4, 5, 6, 7, 8, 9, 10, 11, 12, 13, 14, 15, 16, 17, 18, 19, 20, 21, 22, 23, 24, 25 $(, $more)*]
    };
}

/// The numbers of the calls on a container's signature parts, and of those on its root signature.
const REPORTED: &[u8] = opening_and!(26, 43, 44, 45, 52);
const ROOTED: &[u8] = opening_and!(26, 46, 47, 48, 49, 50, 51);

/// The calls, and the numbers that each can give.
pub const CALLS: [(&str, &[u8]); 46] = [
    ("table", &[1, 2, 3, 4, 5, 6, 7, 8, 9]),
    ("counted", &[1, 2, 3, 4, 5, 6, 7, 8, 9]),
    ("table part", &[1, 2, 3, 4, 5, 6, 7, 8, 9, 26]),
    ("part", opening_and!(26)),
    ("open", opening_and!()),
    ("default", &[1, 2, 3, 4, 5, 6, 7, 8, 9, 10, 11, 12, 13, 14, 15, 16, 17, 18, 19, 20, 21, 22, 23, 24]),
    ("psv0", &[2, 12, 13, 14, 15, 16, 17, 18, 19, 20, 21, 22, 23, 24, 25]),
    ("query", &[26]),
    ("write", &[2, 15, 16, 17, 22, 23, 24, 25, 27, 28]),
    ("assemble", &[2, 6, 9, 27, 28]),
    ("program", opening_and!(40, 41, 42)),
    ("dxil", &[40, 41, 42]),
    ("signature", REPORTED),
    ("element", REPORTED),
    ("name", REPORTED),
    ("difference", REPORTED),
    ("sg1", &[43, 44, 45, 52]),
    ("sg1 element", &[26, 43, 44, 45, 52]),
    ("sg1 alone", &[26, 43, 44, 45, 52]),
    ("sg1 name", &[26, 43, 44, 45, 52]),
    ("root", ROOTED),
    ("root item", ROOTED),
    ("root range", ROOTED),
    ("rts0", &[46, 47, 48, 49, 50, 51]),
    ("rts0 item", &[26, 46, 47, 48, 49, 50, 51]),
    ("item alone", &[26, 46, 47, 48, 49, 50, 51]),
    ("rts0 range", &[26, 46, 47, 48, 49, 50, 51]),
    ("range alone", &[26, 46, 47, 48, 49, 50, 51]),
    ("settings", &[53, 54, 55, 56, 57, 58, 59, 60]),
    ("setting", &[53, 54, 55, 56, 57, 58, 59, 60]),
    ("setting row", &[26, 53, 54, 55, 56, 57, 58, 59, 60]),
    ("row alone", &[53, 54, 55, 57, 58, 59]),
    ("write rows", &[27, 28, 56, 57, 58, 59]),
    ("add", opening_and!()),
    ("places", opening_and!()),
    ("psv0 places", &[2, 12, 13, 14, 15, 16, 17, 18, 19, 20, 21, 22, 23, 24, 25]),
    ("at info", &[29]),
    ("at union", &[29]),
    ("at resource", &[26, 29]),
    ("at element", &[26, 29]),
    ("at string", &[26, 29]),
    ("at array", &[26, 29]),
    ("at entry", &[26, 29]),
    ("at mask", &[26, 29]),
    ("at section", &[26, 29]),
    ("replace", opening_and!(27, 28)),
];

/// The greatest number of documents 01 and 02 is below this.
pub const NUMBERS: usize = 61;

/// The numbers that have a place.
pub const PLACED: [u8; 17] = [8, 9, 22, 23, 45, 48, 49, 50, 51, 52, 53, 54, 55, 57, 58, 59, 60];

/// So many places of a number are kept: of items by themselves there would be millions.
const PLACES: usize = 1024;

/// Declares what a run must have come by, and the words for it.
macro_rules! seen {
    ($(#[$doc:meta])* $($name:ident: $what:literal,)*) => {
        $(#[$doc])*
        #[derive(Clone, Copy)]
        pub enum Seen {
            $($name,)*
        }

        pub const SEEN: &[&str] = &[$($what,)*];
    };
}

seen! {
    /// What no number tells: a file that edition 1 reads refused where none is named; how the stages compared and where the bitcode of
    /// DXIL data alone ended; of signature data, why 26 was given, where elements and names stood, which of two bad names was told, and how
    /// names compared with PSV0's; of root signature data, why 26 was given, where items, their data and ranges stood, what floats were
    /// shown, and what was asked for by itself beside another that is bad.
    NewestAlone: "24 where no edition is named and edition 1 accepts",
    NewestAloneIll: "24 where no edition is named, edition 1 accepts and the entry name has a zero",
    Unset: "stages unset",
    Equal: "stages equal",
    Different: "stages different",
    LowByte: "stages equal in the low byte alone",
    AtEnd: "bitcode to the end of the data",
    OnePast: "bitcode to one byte past the data",
    Wraps: "bitcode that 32 bits would take back inside the data",
    AbsentPart: "26 for an absent signature part",
    NoSuchPart: "26 for a part number above 2",
    PastCount: "26 for an element past the count, in a container",
    PastCountData: "26 for an element past the count, of data",
    PastCountAlone: "26 for an element past the count, by itself, where the whole gives 44",
    UnsetName: "26 for an unset name, in a container",
    UnsetNameData: "26 for an unset name, of data",
    ElementsInHeader: "elements that start in the header, accepted",
    ElementsAtEnd: "elements to the end of the data, not 44",
    ElementsOnePast: "elements to one byte past the data, 44",
    NoneAtEnd: "no elements, at the end of the data, accepted",
    NonePast: "no elements, one byte past the data, 44",
    ProductPast: "32 x count of 2^32 or more, 44",
    ProductWraps: "32 x count of 2^32 or more that 32 bits would take back inside the data, 44",
    SumWraps: "an offset from which 32 bits would take the elements back inside the data, 44",
    BadFirst: "45 at element 0 of several",
    BadMiddle: "45 at a middle element",
    BadLast: "45 at the last element of several",
    BadAtLength: "a name at the length of the data, 45",
    BadAfterZero: "a name right after the last zero, 45",
    IllFirst: "52 at element 0 of several",
    IllMiddle: "52 at a middle element",
    IllLast: "52 at the last element of several",
    BadBeforeIll: "45 before an element whose name is ill-formed",
    IllBeforeBad: "52 before an element whose name has no zero",
    BadTwiceOver: "45 before an element that would give it too",
    IllTwice: "52 before an element that would give it too",
    UnsetBeforeIll: "52 after an element without a name",
    UnsetAtIll: "no name, where the bytes from the header's start are ill-formed, accepted",
    OpeningBeforeIll: "22 or 24 where a signature part would give 52",
    AloneBeside45: "an element by itself, accepted where another's name is bad",
    AloneBeside52: "an element by itself, accepted where another's name is ill-formed",
    AloneBeside44: "an element by itself, accepted where another is outside the data",
    Alone44: "an element by itself, whose own bytes are outside the data, 44",
    Alone45: "an element by itself, whose own name is bad, 45",
    Alone52: "an element by itself, whose own name is ill-formed, 52",
    AloneOther: "an element by itself, refused with another number or place than the whole",
    EmptyName: "an empty name",
    NameInHeader: "a name in the header",
    NameInElement: "a name in an element",
    IllInElement: "an ill-formed name in an element, 52",
    Ill4097: "52 in data of 4097 bytes",
    OverElements: "a name of some bytes that goes past an element's end",
    OverOffset: "a name of some bytes in which a name offset stands",
    NameAtLast: "a name at the last byte",
    SharedName: "a name of two elements",
    NoDifference: "no difference, with names that were compared",
    FirstDifference: "a difference at element 0",
    LaterDifference: "a difference at a later element",
    MissingBeside: "a difference by a missing PSV0 element, at edition read 1 or more",
    MissingAtZero: "a difference at edition read 0",
    EqualInput: "equal names compared, ISG1",
    EqualOutput: "equal names compared, OSG1",
    EqualPatch: "equal names compared, PSG1",
    EqualEmpty: "empty names on both sides",
    EmptyBeside: "a name beside an empty one of PSV0",
    BesideEmpty: "an empty name beside one of PSV0",
    PrefixOfPsv0: "a name that PSV0's begins with and goes on",
    PrefixByPsv0: "a name that begins with PSV0's and goes on",
    SameLength: "a name of the same length as PSV0's that differs",
    EqualText: "equal names compared, with a byte above 7F",
    CutText: "a name that PSV0's begins with up to a sequence",
    OtherLastByte: "a name that differs from PSV0's in a byte that follows a lead byte",
    SamePoints: "a name of as many code points as PSV0's and another length",
    AbsentRoot: "26 for an absent root signature",
    ItemPast: "26 for an item past the count, in a container",
    NoTable: "26 for a range of no table, in a container",
    RangePast: "26 for a range past the count, in a container",
    ItemPastData: "26 for an item past the count, of data",
    ParameterNoTableData: "26 for a range of a parameter that is no table, of data",
    SamplerNoTableData: "26 for a range of a sampler, of data",
    RangePastData: "26 for a range past the count, of data",
    ItemPastAlone: "26 for an item past the count, by itself, where the whole is refused",
    NoTableAlone: "26 for a range of no table, by itself, where the whole is refused",
    RangePastAlone: "26 for a range past the count, by itself, where the whole is refused",
    ItemLowBits: "26 for an item whose number is another's in its low 32 bits",
    RangeLowBits: "26 for a range whose number is another's in its low 32 bits",
    VersionLowByte: "47 for a version that is right in its low byte",
    OwnParameter: "48 of a parameter",
    OwnSampler: "48 of a sampler after parameters",
    OwnOnePast: "48 of a parameter that ends one byte past the data",
    OwnSamplerOnePast: "48 of a sampler that ends one byte past the data",
    OwnWraps: "48 of a parameter that 32 bits would take back inside the data",
    OwnSamplerWraps: "48 of a sampler that 32 bits would take back inside the data",
    ManyParameters: "48 where 12 x count is 2^32 or more",
    ManySamplers: "48 where 52 x count is 2^32 or more",
    TypeFive: "49 for type 5",
    TypeLowByte: "49 for a type that is right in its low byte",
    TypeGreatest: "49 for type 4294967295",
    TypeOutside: "49 where the data are outside too",
    DataOnePastTable: "50 of a table's data that end one byte past the whole",
    DataOnePastConstants: "50 of constants that end one byte past the whole",
    DataOnePastDescriptor: "50 of a descriptor of 1.0 that ends one byte past the whole",
    DataOnePastFlags: "50 of a descriptor of 1.1 that ends one byte past the whole",
    DataWraps: "50 of data that 32 bits would take back inside the whole",
    RangesOnePast: "51 of ranges that end one byte past the data, in 1.0",
    RangesOnePastFlags: "51 of ranges that end one byte past the data, in 1.1",
    NoRangesPast: "51 of no ranges, one byte past the data",
    RangesProduct: "51 where size x count is 2^32 or more",
    RangesProductWraps: "51 where size x count is 2^32 or more and 32 bits would take the end back inside the data",
    RangesSumWraps: "51 where 32 bits would take the sum back inside the data",
    RootBadFirst: "a bad item, the first of several",
    RootBadMiddle: "a bad item, a middle one",
    RootBadLast: "a bad item, the last of several",
    LastParameterBad: "a bad item, the last parameter before samplers",
    FirstSamplerBad: "a bad item, the first sampler after parameters",
    LaterOutside: "a bad item before one outside the data",
    LaterCheckFirst: "a bad item before one that fails an earlier check, 49 or 50",
    BadTwice: "a bad item before one that fails the same check",
    NoParametersPast: "no parameters, past the data, accepted",
    NoSamplersPast: "no samplers, past the data, accepted",
    ParameterAtEnd: "a parameter that ends with the data, accepted",
    SamplerAtEnd: "a sampler that ends with the data, accepted",
    ParameterInHeader: "a parameter in the header, accepted",
    SamplerInHeader: "a sampler in the header, accepted",
    DataAtEndTable: "a table's data that end with the whole, accepted",
    DataAtEndConstants: "constants that end with the whole, accepted",
    DataAtEndDescriptor: "a descriptor of 1.0 that ends with the whole, accepted",
    DataAtEndFlags: "a descriptor of 1.1 that ends with the whole, accepted",
    RangesAtEnd: "ranges that end with the data, accepted, in 1.0",
    RangesAtEndFlags: "ranges that end with the data, accepted, in 1.1",
    NoRangesAtEnd: "no ranges, at the end of the data, accepted",
    SharedData: "data of two parameters",
    SharedRanges: "ranges of two tables",
    Table0: "a table of 1.0",
    Constants0: "constants of 1.0",
    Cbv0: "a descriptor of type 2 of 1.0",
    Srv0: "a descriptor of type 3 of 1.0",
    Uav0: "a descriptor of type 4 of 1.0",
    Sampler0: "a sampler of 1.0",
    Table1: "a table of 1.1",
    Constants1: "constants of 1.1",
    Cbv1: "a descriptor of type 2 of 1.1",
    Srv1: "a descriptor of type 3 of 1.1",
    Uav1: "a descriptor of type 4 of 1.1",
    Sampler1: "a sampler of 1.1",
    LaterRange0: "a range after the first, of 1.0",
    LaterRange1: "a range after the first, of 1.1",
    FollowingRange: "a range that follows the one before it",
    QuietNan: "a quiet NaN",
    NegativeQuietNan: "a quiet NaN with its sign set",
    SignallingNan: "a signalling NaN",
    NegativeSignallingNan: "a signalling NaN with its sign set",
    Infinity: "an infinity",
    NegativeInfinity: "an infinity with its sign set",
    NegativeZero: "a zero with its sign set",
    Subnormal: "a subnormal number",
    NegativeSubnormal: "a subnormal number with its sign set",
    AloneBeside48: "an item by itself, accepted where the whole gives 48",
    AloneBeside49: "an item by itself, accepted where the whole gives 49",
    AloneBeside50: "an item by itself, accepted where the whole gives 50",
    AloneBeside51: "an item by itself, accepted where the whole gives 51",
    RangeBesideBad: "a range by itself, accepted where another item is bad",
    AloneWraps: "a parameter by itself, whose place 32 bits would take back inside the data, 48",
    AloneSamplerWraps: "a sampler by itself, whose place 32 bits would take back inside the data, 48",
    AlonePast32: "a sampler by itself, accepted as item 2^32 or a later one",
}

/// Where index references stood, beside an index table of N numbers, that a reading or a writer answered for.
#[derive(Clone, Copy)]
enum Edge {
    AtFirst,
    AtMiddle,
    AtLast,
    EmptyAtN,
    EmptyPastN,
    OnePast,
    Most,
    MostPast,
    Near,
}

pub const EDGES: [&str; 9] = [
    "23 at element 0 of several",
    "23 at a middle element",
    "23 at the last element of several",
    "rows 0 at N, accepted",
    "rows 0 at N + 1, 23",
    "an array to one number past N, 23",
    "rows 255, accepted",
    "rows 255, 23",
    "a reference from which 32 bits would take the rows back to 0 or past it, 23",
];

/// How often each call gave each verdict (0: it accepted), and at which places; how often each of `SEEN` came, and of `EDGES` in a
/// reading and in a writer; what the strings, the tables' entries and pairs of names, the settings files, the figures and the places were, and
/// what was replaced.
pub struct Hits {
    pub counts: [[u64; NUMBERS]; CALLS.len()],
    pub places: [[BTreeSet<usize>; NUMBERS]; CALLS.len()],
    pub seen: [u64; SEEN.len()],
    pub edges_read: [u64; EDGES.len()],
    pub edges_written: [u64; EDGES.len()],
    pub strings: Notes,
    pub entries: entries::Notes,
    pub pairs: pairs::Notes,
    pub settings: settings::Notes,
    pub figures: figures::Notes,
    pub placed: places::Notes,
    pub replaced: replace::Notes,
}

impl Default for Hits {
    fn default() -> Hits {
        Hits {
            counts: [[0; NUMBERS]; CALLS.len()],
            places: from_fn(|_| from_fn(|_| BTreeSet::new())),
            seen: [0; SEEN.len()],
            edges_read: [0; EDGES.len()],
            edges_written: [0; EDGES.len()],
            strings: Notes::default(),
            entries: entries::Notes::default(),
            pairs: pairs::Notes::default(),
            settings: settings::Notes::default(),
            figures: figures::Notes::default(),
            placed: places::Notes::default(),
            replaced: replace::Notes::default(),
        }
    }
}

/// Notes the edges among the elements, `size` bytes each, of which a call said so.
pub fn index_edges(indices: &[u8], elements: &[u8], size: usize, verdict: raw::Verdict, seen: &mut [u64; EDGES.len()]) {
    let n = indices.len() as u64 / 4;
    let records: Vec<(u64, u64)> = elements.chunks_exact(size).map(|e| (get4(e, 4).into(), e[8].into())).collect();
    let mut saw = |edge: Edge, is: bool| seen[edge as usize] += u64::from(is);
    match verdict.number {
        0 => {
            for (index, rows) in records {
                saw(Edge::EmptyAtN, rows == 0 && index == n);
                saw(Edge::Most, rows == 255);
            }
        }
        23 => {
            let (place, last) = (verdict.place, records.len() - 1);
            saw(Edge::AtFirst, place == 0 && last > 0);
            saw(Edge::AtMiddle, place > 0 && place < last);
            saw(Edge::AtLast, place > 0 && place == last);
            let (index, rows) = records[place];
            saw(Edge::EmptyPastN, rows == 0 && index == n + 1);
            saw(Edge::OnePast, rows > 0 && index + rows == n + 1);
            saw(Edge::MostPast, rows == 255);
            saw(Edge::Near, index + rows >= 1 << 32);
        }
        _ => (),
    }
}

impl Hits {
    pub fn note(&mut self, call: Call, verdict: raw::Verdict) {
        let number = verdict.number;
        self.counts[call as usize][number] += 1;
        let places = &mut self.places[call as usize][number];
        if PLACED.contains(&(number as u8)) && places.len() < PLACES {
            places.insert(verdict.place);
        }
    }

    /// Adds the numbers that a call gave less often than it must, or at fewer places.
    pub fn given(&self, call: Call, least: u64, places: u64, missed: &mut Vec<String>) {
        let call = call as usize;
        let (name, can) = CALLS[call];
        for number in can.iter().map(|number| usize::from(*number)) {
            at_least(&format!("{number} by {name}"), self.counts[call][number], least, missed);
            if PLACED.contains(&(number as u8)) {
                at_least(&format!("another place of {number} by {name}"), self.places[call][number].len() as u64, places, missed);
            }
        }
    }

    pub fn saw(&mut self, what: Seen) {
        self.saw_if(what, true);
    }

    pub fn saw_if(&mut self, what: Seen, is: bool) {
        self.seen[what as usize] += u64::from(is);
    }
}

pub fn verdict_of<T>(answer: &Result<T, Refusal>) -> raw::Verdict {
    match answer {
        Ok(_) => raw::Verdict { number: 0, place: 0 },
        Err(refusal) => raw::Verdict { number: refusal.number.into(), place: refusal.place },
    }
}

pub fn field(value: Option<u32>) -> raw::Field {
    raw::Field { set: value.is_some().into(), value: value.unwrap_or(0) }
}

/// A table without the pairs of names, which are unset.
pub fn parts_of(answer: &Result<Vec<reference::Part>, Refusal>) -> raw::Parts {
    let none = [0; 96];
    let (verdict, pairs) = (verdict_of(answer), field(None));
    let mut parts = raw::Parts { verdict, count: 0, pairs, names: none, offsets: none, sizes: none, occurrences: none, gaps: none };
    for part in answer.as_deref().unwrap_or(&[]) {
        parts.names[parts.count] = u32::from_le_bytes(part.name);
        parts.offsets[parts.count] = part.offset as u32;
        parts.sizes[parts.count] = part.size as u32;
        parts.occurrences[parts.count] = part.occurrence as u32;
        parts.gaps[parts.count] = part.gap as u32;
        parts.count += 1;
    }
    parts
}

/// Where a view lies in the bytes.
pub fn start_in(bytes: &[u8], view: &[u8]) -> usize {
    view.as_ptr() as usize - bytes.as_ptr() as usize
}

pub fn found_of(bytes: &[u8], answer: Result<(usize, &[u8]), Refusal>) -> raw::Found {
    let verdict = verdict_of(&answer);
    match answer {
        Ok((number, data)) => raw::Found { verdict, number, offset: start_in(bytes, data) - 8, size: data.len() },
        Err(_) => raw::Found { verdict, number: 0, offset: 0, size: 0 },
    }
}

fn opening_of(answer: &Result<Opening, Refusal>) -> raw::Opening {
    let verdict = verdict_of(answer);
    match answer {
        Ok(o) => raw::Opening { verdict, parts: o.parts.len(), file_edition: o.file_edition, edition_read: o.edition_read },
        Err(_) => raw::Opening { verdict, parts: 0, file_edition: 0, edition_read: 0 },
    }
}

fn info_of(answer: &Result<Opening, Refusal>) -> raw::Info {
    runtime_of(answer.as_ref().map(|opening| opening.runtime).map_err(|refusal| *refusal))
}

pub fn runtime_of(answer: Result<reference::Runtime, Refusal>) -> raw::Info {
    let r = answer.unwrap_or_default();
    raw::Info {
        verdict: verdict_of(&answer),
        minimum_wave_lanes: field(r.minimum_wave_lanes),
        maximum_wave_lanes: field(r.maximum_wave_lanes),
        stage: field(r.stage),
        uses_view_id: field(r.uses_view_id),
        max_vertex_count: field(r.max_vertex_count),
        patch_vectors: field(r.patch_vectors),
        mesh_topology: field(r.mesh_topology),
        input_elements: field(r.input_elements),
        output_elements: field(r.output_elements),
        patch_elements: field(r.patch_elements),
        input_vectors: field(r.input_vectors),
        output_vectors: r.output_vectors.map(field),
        threads: r.threads.map(field),
        entry_name_offset: field(r.entry_name_offset),
    }
}

fn lengths_of(answer: &Result<Opening, Refusal>) -> raw::Lengths {
    let length = |of: fn(&Opening) -> Option<usize>| field(answer.as_ref().ok().and_then(of).map(|length| length as u32));
    raw::Lengths {
        verdict: verdict_of(answer),
        resources: length(|o| Some(o.resource_count())),
        strings: length(|o| o.string_length()),
        indices: length(|o| o.index_count()),
        elements: length(|o| o.element_count()),
    }
}

pub fn resource_of(answer: Result<reference::Resource, Refusal>) -> raw::Resource {
    let verdict = verdict_of(&answer);
    let of = |get: fn(reference::Resource) -> Option<u32>| field(answer.ok().and_then(get));
    raw::Resource {
        verdict,
        binding_type: of(|r| Some(r.resource_type)),
        space: of(|r| Some(r.space)),
        lower_bound: of(|r| Some(r.lower)),
        upper_bound: of(|r| Some(r.upper)),
        kind: of(|r| r.kind),
        flags: of(|r| r.flags),
    }
}

pub fn element_of(answer: Result<reference::Element, Refusal>) -> raw::Element {
    let verdict = verdict_of(&answer);
    let of = |get: fn(reference::Element) -> u32| field(answer.ok().map(get));
    raw::Element {
        verdict,
        name_offset: of(|e| e.name_offset),
        index_reference: of(|e| e.index_reference),
        rows: of(|e| e.rows),
        start_row: of(|e| e.start_row),
        columns: of(|e| e.columns),
        start_column: of(|e| e.start_column),
        allocated: of(|e| e.allocated),
        semantic_kind: of(|e| e.semantic),
        component_type: of(|e| e.component),
        interpolation: of(|e| e.interpolation),
        dynamic_mask: of(|e| e.dynamic_mask),
        stream: of(|e| e.stream),
        reserved: of(|e| e.reserved),
    }
}

const NO_HEADER: raw::ProgramHeader = raw::ProgramHeader {
    version_major: 0,
    version_minor: 0,
    stage: 0,
    words: 0,
    bitcode_major: 0,
    bitcode_minor: 0,
    bitcode_offset: 0,
    bitcode_size: 0,
};

fn header_of(program: &Program) -> raw::ProgramHeader {
    raw::ProgramHeader {
        version_major: program.major,
        version_minor: program.minor,
        stage: program.stage,
        words: program.words,
        bitcode_major: program.bitcode_major,
        bitcode_minor: program.bitcode_minor,
        bitcode_offset: program.bitcode_offset,
        bitcode_size: program.bitcode_size,
    }
}

fn program_of(answer: &Result<Program, Refusal>) -> raw::ProgramData {
    let verdict = verdict_of(answer);
    match answer {
        Ok(p) => raw::ProgramData { verdict, header: header_of(p), start: p.bitcode_at, len: p.bitcode.len() },
        Err(_) => raw::ProgramData { verdict, header: NO_HEADER, start: 0, len: 0 },
    }
}

/// The stages as the plain and as the safe call show them.
fn stages_of(stages: reference::Stages) -> (usize, qollqamir::Stages) {
    match stages {
        reference::Stages::Unset => (0, qollqamir::Stages::Unset),
        reference::Stages::Equal => (1, qollqamir::Stages::Equal),
        reference::Stages::Different => (2, qollqamir::Stages::Different),
    }
}

fn report_of(answer: &Result<ProgramReport, Refusal>) -> raw::ProgramReport {
    let verdict = verdict_of(answer);
    match answer {
        Ok(r) => raw::ProgramReport {
            verdict,
            header: header_of(&r.program),
            start: r.bitcode_at,
            len: r.program.bitcode.len(),
            psv0_stage: field(r.psv0_stage),
            stages: stages_of(r.stages).0,
        },
        Err(_) => raw::ProgramReport { verdict, header: NO_HEADER, start: 0, len: 0, psv0_stage: field(None), stages: 0 },
    }
}

/// The span of a view, or of a string with its code points. Beside a refusal all is 0.
pub fn span_of(bytes: &[u8], view: Result<&[u8], Refusal>, points: Option<usize>) -> raw::Span {
    let verdict = verdict_of(&view);
    let of = |number: usize| if view.is_ok() { number } else { 0 };
    raw::Span {
        verdict,
        start: view.map_or(0, |view| start_in(bytes, view)),
        len: view.map_or(0, <[u8]>::len),
        is_string: of(points.is_some().into()),
        points: of(points.unwrap_or(0)),
    }
}

/// The start of an empty view is left free, but for the bytes' end.
fn same_span(bytes: &[u8], got: raw::Span, expected: raw::Span, what: std::fmt::Arguments) -> Check {
    let empty = expected.verdict.number == 0 && expected.len == 0;
    if empty {
        same!(bytes, got.start <= bytes.len(), true, "{what}, start inside");
    }
    let start = if empty { got.start } else { expected.start };
    same!(bytes, got, raw::Span { start, ..expected }, "{what}");
    Ok(())
}

/// A span must show the bytes of the view, where they stand, and is no string.
fn span(bytes: &[u8], got: raw::Span, expected: Result<&[u8], Refusal>, what: std::fmt::Arguments) -> Check {
    same_span(bytes, got, span_of(bytes, expected, None), what)
}

/// A string's span must show its bytes, where they stand, and its code points.
fn string(bytes: &[u8], got: raw::Span, expected: Result<Text, Refusal>, what: std::fmt::Arguments) -> Check {
    let points = expected.map_or(0, |text| text.points);
    same_span(bytes, got, span_of(bytes, expected.map(|text| text.bytes), Some(points)), what)
}

/// A string as the safe calls show it. One that `str` would not take is shown as none.
pub fn safe_text(text: Text) -> qollqamir::Text {
    qollqamir::Text { bytes: text.bytes, text: std::str::from_utf8(text.bytes).unwrap_or("no text"), points: text.points }
}

/// The safe calls show a string's bytes where they stand, the same as text, and its code points.
pub fn same_text(
    bytes: &[u8],
    got: Result<qollqamir::Text, qollqamir::Refusal>,
    expected: Result<Text, Refusal>,
    what: std::fmt::Arguments,
) -> Check {
    let got = got.map_err(refusal_of);
    same!(bytes, got, expected.map(safe_text), "{what}");
    if let (Ok(got), Ok(expected)) = (got, expected) {
        same!(bytes, got.text.chars().count(), expected.points, "{what}, characters");
        same!(bytes, got.bytes.is_empty() || got.bytes.as_ptr() == expected.bytes.as_ptr(), true, "{what}, place");
    }
    Ok(())
}

/// The reading calls of containers, or of PSV0 data alone.
pub struct Reader {
    pub name: &'static str,
    pub call: Call,
    pub reference: for<'a> fn(&'a [u8], usize) -> Result<Opening<'a>, Refusal>,
    pub open: fn(&[u8], usize) -> raw::Opening,
    pub kept: Call,
    pub open_places: fn(&[u8], usize) -> raw::Opened,
    pub info: fn(&[u8], usize) -> raw::Info,
    pub lengths: fn(&[u8], usize) -> raw::Lengths,
    pub resource: fn(&[u8], usize, usize) -> raw::Resource,
    pub element: fn(&[u8], usize, usize) -> raw::Element,
    pub view: fn(&[u8], usize, u32, usize) -> raw::Span,
    pub section: fn(&[u8], usize, u32) -> raw::Span,
}

pub const CONTAINER: Reader = Reader {
    name: "container",
    call: Call::Open,
    reference: reference::open,
    open: raw::open,
    kept: Call::OpenPlaces,
    open_places: raw::open_places,
    info: raw::runtime_info,
    lengths: raw::lengths,
    resource: raw::resource,
    element: raw::element,
    view: raw::view,
    section: raw::section,
};

pub const PSV0: Reader = Reader {
    name: "psv0",
    call: Call::Psv0,
    reference: reference::open_psv0,
    open: raw::psv0_open,
    kept: Call::Psv0Places,
    open_places: raw::psv0_open_places,
    info: raw::psv0_runtime_info,
    lengths: raw::psv0_lengths,
    resource: raw::psv0_resource,
    element: raw::psv0_element,
    view: raw::psv0_view,
    section: raw::psv0_section,
};

pub const STAGE_UNION: u32 = 0;
pub const STRING: u32 = 1;
pub const ARRAY: u32 = 2;
pub const ENTRY_NAME: u32 = 3;
pub const MASK: u32 = 4;

/// The numbers to ask for in a list of `count`: all of a short one, some of a long one, and some past the end.
pub fn numbers(random: &mut Random, count: usize) -> Vec<usize> {
    let mut numbers: Vec<usize> = (0..count.min(6)).collect();
    if count > 6 {
        numbers.push(count - 1);
        numbers.extend((0..4).map(|_| random.below(count)));
    }
    numbers.push(count);
    numbers.push(random.pick(&[count + 1, usize::MAX, 1 << 32, 1 << 28, usize::MAX / 16 + 1]));
    numbers
}

/// All of a table is compared, entries past the count too. Of a difference the verdict, the number or the entry is told.
pub fn same_table(bytes: &[u8], got: &raw::Parts, expected: &raw::Parts, what: &str) -> Check {
    if got == expected {
        return Ok(());
    }
    same!(bytes, got.verdict, expected.verdict, "{what}");
    same!(bytes, got.count, expected.count, "count of the {what}");
    same!(bytes, got.pairs, expected.pairs, "pairs of the {what}");
    for i in 0..96 {
        let entry = |t: &raw::Parts| [t.names[i], t.offsets[i], t.sizes[i], t.occurrences[i], t.gaps[i]];
        same!(bytes, entry(got), entry(expected), "name, offset, size, occurrence and gap of entry {i} of the {what}");
    }
    same!(bytes, got, expected, "{what}");
    Ok(())
}

/// The table calls on any bytes.
pub fn table(random: &mut Random, bytes: &[u8], hits: &mut Hits) -> Check {
    let (got, expected) = pairs::table(bytes, hits)?;
    for name in names(random, expected.as_deref().unwrap_or(&[])) {
        let got = raw::table_part(bytes, &name);
        hits.note(Call::Query, got.verdict);
        same!(bytes, got, found_of(bytes, reference::table_part(bytes, name)), "table_part {name:?}");
        same!(bytes, raw::known(&name), reference::known(name), "known {name:?}");
    }
    entries::table(random, bytes, &got, &expected, hits)
}

/// Names to ask for: the two that matter, one of the container's, one that is hardly there.
fn names(random: &mut Random, parts: &[reference::Part]) -> Vec<[u8; 4]> {
    let mut names = vec![*b"DXIL", *b"PSV0", random.pick(&reference::KNOWN), (random.next() as u32).to_le_bytes()];
    if !parts.is_empty() {
        names.push(random.pick(parts).name);
    }
    names
}

/// Opening and every query, at one edition.
pub fn reading(random: &mut Random, reader: &Reader, bytes: &[u8], edition: usize, hits: &mut Hits) -> Check {
    let name = reader.name;
    let expected = (reader.reference)(bytes, edition);
    let got = (reader.open)(bytes, edition);
    hits.note(reader.call, got.verdict);
    same!(bytes, got, opening_of(&expected), "{name} open {edition}");
    places::opened(reader, bytes, edition, &expected, hits)?;
    if matches!(reader.call, Call::Open) {
        if edition == reference::DEFAULT_EDITION {
            let got = raw::open_default(bytes);
            hits.note(Call::Default, got.verdict);
            same!(bytes, got, opening_of(&expected), "open_default");
            if got.verdict.number == 24 && raw::open(bytes, 1).verdict.number == 0 {
                hits.saw(Seen::NewestAlone);
                hits.saw_if(Seen::NewestAloneIll, ends_entry_name(bytes));
            }
        }
        let parts = expected.as_ref().map(|opening| &opening.parts[..]).unwrap_or(&[]);
        for name in names(random, parts) {
            let answer = expected.as_ref().map_err(|refusal| *refusal).and_then(|o| o.part(name));
            let got = raw::part(bytes, edition, &name);
            hits.note(Call::Query, got.verdict);
            same!(bytes, got, found_of(bytes, answer), "part {edition} {name:?}");
        }
        entries::query(random, bytes, edition, &expected, hits)?;
        program(bytes, edition, hits)?;
        signatures::reports(random, bytes, edition, &expected, hits)?;
        roots::reports(random, bytes, edition, &expected, hits)?;
    }
    same!(bytes, (reader.info)(bytes, edition), info_of(&expected), "{name} info {edition}");
    same!(bytes, (reader.lengths)(bytes, edition), lengths_of(&expected), "{name} lengths {edition}");

    let opening = match &expected {
        Ok(opening) => opening,
        Err(refusal) => return refused(random, reader, bytes, edition, *refusal),
    };
    for i in numbers(random, opening.resource_count()) {
        let got = (reader.resource)(bytes, edition, i);
        hits.note(Call::Query, got.verdict);
        same!(bytes, got, resource_of(opening.resource(i)), "{name} resource {edition} {i}");
    }
    for i in numbers(random, opening.element_count().unwrap_or(0)) {
        let got = (reader.element)(bytes, edition, i);
        hits.note(Call::Query, got.verdict);
        same!(bytes, got, element_of(opening.element(i)), "{name} element {edition} {i}");
        let got = (reader.view)(bytes, edition, STRING, i);
        hits.note(Call::Query, got.verdict);
        string(bytes, got, opening.string(i), format_args!("{name} string {edition} {i}"))?;
        let got = (reader.view)(bytes, edition, ARRAY, i);
        hits.note(Call::Query, got.verdict);
        span(bytes, got, opening.array_bytes(i), format_args!("{name} array {edition} {i}"))?;
    }
    for i in (0..=11).chain([random.pick(&[12, 255, 256, usize::MAX, 1 << 32])]) {
        let got = (reader.view)(bytes, edition, MASK, i);
        hits.note(Call::Query, got.verdict);
        span(bytes, got, opening.mask(i), format_args!("{name} mask {edition} {i}"))?;
    }
    let any = random.next() as usize;
    let got = (reader.view)(bytes, edition, ENTRY_NAME, any);
    hits.note(Call::Query, got.verdict);
    string(bytes, got, opening.entry_name(), format_args!("{name} entry name {edition}"))?;
    // The reference keeps a copy of the stage union; the record that it hands out is where it stands.
    same!(bytes, opening.handed.runtime[..16], opening.runtime.stage_info, "{name} stage union copy");
    let got = (reader.view)(bytes, edition, STAGE_UNION, any);
    span(bytes, got, Ok(&opening.handed.runtime[..16]), format_args!("{name} stage union {edition}"))?;
    let kind = random.pick(&[5, 6, 255, 256, u32::MAX]);
    let missing = Err(Refusal { number: 26, place: 0 });
    span(bytes, (reader.view)(bytes, edition, kind, 0), missing, format_args!("{name} view {edition} {kind}"))?;

    let h = &opening.handed;
    for (i, expected) in [h.runtime, h.resources, h.strings, h.indices, h.elements, h.masks].into_iter().enumerate() {
        let got = (reader.section)(bytes, edition, i as u32);
        span(bytes, got, Ok(expected), format_args!("{name} section {edition} {i}"))?;
    }
    let section = random.pick(&[6, 7, 256, u32::MAX]);
    span(bytes, (reader.section)(bytes, edition, section), missing, format_args!("{name} section {edition} {section}"))?;
    if random.one_in(8) {
        wrapped(reader, bytes, edition, opening, hits)?;
        places::at_times(reader, bytes, edition, opening, hits)?;
    }
    Ok(())
}

/// Opening and the strings alone, at one edition.
pub fn texts(reader: &Reader, bytes: &[u8], edition: usize, hits: &mut Hits) -> Check {
    let name = reader.name;
    let expected = (reader.reference)(bytes, edition);
    let got = (reader.open)(bytes, edition);
    hits.note(reader.call, got.verdict);
    same!(bytes, got, opening_of(&expected), "{name} open {edition}, strings");
    let Ok(opening) = expected else {
        return Ok(());
    };
    for i in 0..opening.element_count().unwrap_or(0).min(LONG) {
        let got = (reader.view)(bytes, edition, STRING, i);
        string(bytes, got, opening.string(i), format_args!("{name} string {edition} {i}, strings"))?;
    }
    let got = (reader.view)(bytes, edition, ENTRY_NAME, 0);
    string(bytes, got, opening.entry_name(), format_args!("{name} entry name {edition}, strings"))
}

/// The report on a container's program, at one edition.
fn program(bytes: &[u8], edition: usize, hits: &mut Hits) -> Check {
    let expected = reference::program_report(bytes, edition);
    let got = raw::program(bytes, edition);
    hits.note(Call::Program, got.verdict);
    same!(bytes, got, report_of(&expected), "program {edition}");
    if let Ok(report) = expected {
        hits.saw(match report.stages {
            reference::Stages::Unset => Seen::Unset,
            reference::Stages::Equal => Seen::Equal,
            reference::Stages::Different => Seen::Different,
        });
        let stage = report.program.stage;
        if report.psv0_stage.is_some_and(|other| other != stage && other == stage % 256) {
            hits.saw(Seen::LowByte);
        }
    }
    Ok(())
}

/// DXIL data alone, by the plain and the safe call.
pub fn dxil(data: &[u8], hits: &mut Hits) -> Check {
    let expected = reference::program(data);
    let got = raw::dxil_program(data);
    hits.note(Call::Dxil, got.verdict);
    same!(data, got, program_of(&expected), "dxil");
    let safe = qollqamir::dxil_program(data).map(|p| (p.header, p.bitcode)).map_err(refusal_of);
    same!(data, safe, expected.map(|p| (header_of(&p), p.bitcode)), "safe dxil");
    if [0, 42].contains(&got.verdict.number) {
        let (offset, size) = (get4(data, 16), get4(data, 20));
        let end = 8 + u64::from(offset) + u64::from(size);
        let len = data.len() as u64;
        if end == len {
            hits.saw(Seen::AtEnd);
        } else if end == len + 1 {
            hits.saw(Seen::OnePast);
        } else if end > len && end % (1 << 32) <= len {
            hits.saw(Seen::Wraps);
        }
    }
    Ok(())
}

/// Queries on bytes that don't open give what opening gives.
fn refused(random: &mut Random, reader: &Reader, bytes: &[u8], edition: usize, refusal: Refusal) -> Check {
    let name = reader.name;
    let i = random.pick(&[0, 0, 1, 11, usize::MAX]);
    same!(bytes, (reader.resource)(bytes, edition, i), resource_of(Err(refusal)), "{name} refused resource {edition}");
    same!(bytes, (reader.element)(bytes, edition, i), element_of(Err(refusal)), "{name} refused element {edition}");
    let kind = random.below(6) as u32;
    let got = (reader.view)(bytes, edition, kind, i);
    span(bytes, got, Err(refusal), format_args!("{name} refused view {edition} {kind}"))?;
    let section = random.below(7) as u32;
    let got = (reader.section)(bytes, edition, section);
    span(bytes, got, Err(refusal), format_args!("{name} refused section {edition} {section}"))
}

pub fn refusal_of(refusal: qollqamir::Refusal) -> Refusal {
    Refusal { number: refusal.number, place: refusal.place }
}

/// Lists longer than this are compared up to it through the safe calls.
pub const LONG: usize = 8;

/// What a safe list gives in turn is what the reference has under each number.
pub fn in_turn<T: PartialEq + Debug>(
    bytes: &[u8],
    mut list: impl ExactSizeIterator<Item = T>,
    count: usize,
    get: impl Fn(usize) -> Result<T, Refusal>,
    what: &str,
) -> Check {
    same!(bytes, list.len(), count, "safe list, {what}");
    for i in 0..count.min(LONG) {
        same!(bytes, list.next().ok_or(Refusal { number: 26, place: 0 }), get(i), "safe list, {what} {i}");
    }
    if count <= LONG {
        same!(bytes, list.next(), None, "end of a safe list, {what}");
    }
    Ok(())
}

/// The safe types show what the plain calls show.
fn wrapped(reader: &Reader, bytes: &[u8], edition: usize, opening: &Opening, hits: &mut Hits) -> Check {
    let refusal = refusal_of;
    macro_rules! shown {
        ($open:expr) => {{
            let safe = $open
                .map_err(refusal)
                .map_err(|refusal| Mismatch { what: format!("safe open {edition}: {refusal}"), bytes: bytes.to_vec() })?;
            same!(bytes, (safe.file_edition(), safe.edition_read()), (opening.file_edition, opening.edition_read), "safe editions");
            same!(bytes, safe.stage_union(), &opening.runtime.stage_info[..], "safe stage union");
            same_text(bytes, safe.entry_name(), opening.entry_name(), format_args!("safe entry name"))?;
            same!(bytes, safe.runtime().entry_name_offset, opening.runtime.entry_name_offset, "safe entry name offset");
            same!(bytes, safe.runtime().threads, opening.runtime.threads, "safe threads");
            same!(bytes, safe.lengths().elements.map(|e| e as usize), opening.element_count(), "safe element count");
            for i in 0..4 {
                same!(bytes, safe.mask(3 * i).map_err(refusal), opening.mask(3 * i), "safe mask {}", 3 * i);
                same_text(bytes, safe.element_string(i), opening.string(i), format_args!("safe string {i}"))?;
                same!(bytes, safe.element_array(i).map_err(refusal), opening.array_bytes(i), "safe array {i}");
                let got = safe.resource(i).map(|r| r.flags).map_err(refusal);
                same!(bytes, got, opening.resource(i).map(|r| r.flags), "safe resource {i}");
                let got = safe.element(i).map(|e| e.reserved).map_err(refusal);
                same!(bytes, got, opening.element(i).map(|e| Some(e.reserved)), "safe element {i}");
            }
            let (s, h) = (safe.sections(), opening.handed);
            let sections = [s.runtime, s.resources, s.strings, s.indices, s.elements, s.masks];
            same!(bytes, sections, [h.runtime, h.resources, h.strings, h.indices, h.elements, h.masks], "safe sections");
            safe
        }};
    }
    if !matches!(reader.call, Call::Open) {
        shown!(qollqamir::Psv0::open(bytes, edition));
        return Ok(());
    }
    let safe = shown!(qollqamir::Container::open(bytes, edition));
    let report = safe.program().map(|r| (r.header, r.bitcode, r.psv0_stage, r.stages)).map_err(refusal);
    let expected = reference::program_report(bytes, edition);
    let expected = expected.map(|r| (header_of(&r.program), r.program.bitcode, r.psv0_stage, stages_of(r.stages).1));
    same!(bytes, report, expected, "safe program {edition}");
    entries::wrapped(bytes, &safe, opening, hits)?;
    signatures::wrapped(bytes, edition, &safe)?;
    roots::wrapped(bytes, edition, &safe)
}

/// A writer's call on both sides: the same verdict and length, and the same whole buffer.
pub fn write(edition: usize, sections: [&[u8]; 6], out: &[u8], hits: &mut Hits) -> Result<Result<Vec<u8>, u8>, Mismatch> {
    let (mut ours, mut theirs) = (out.to_vec(), out.to_vec());
    let got = raw::write_psv0(edition, sections, &mut ours);
    let [runtime, resources, strings, indices, elements, masks] = sections;
    let expected = reference::write_psv0(edition, runtime, resources, strings, indices, elements, masks, &mut theirs);
    hits.note(Call::Write, got.verdict);
    index_edges(indices, elements, 16, got.verdict, &mut hits.edges_written);
    hits.strings.sections(&Sections { runtime, strings, indices, elements, size: 16 }, got.verdict, Way::Written);
    let all = sections.concat();
    let lengths = sections.map(<[u8]>::len);
    let expected_written = raw::Written { verdict: verdict_of(&expected), len: *expected.as_ref().unwrap_or(&0) };
    same!(all, got, expected_written, "write {edition} {lengths:?} into {}", out.len());
    delivered(&all, &ours, &theirs, out, expected)
}

pub fn assemble(
    names: &[u8],
    sizes: &[u32],
    data: &[u8],
    digest: &[u8],
    out: &[u8],
    hits: &mut Hits,
) -> Result<Result<Vec<u8>, u8>, Mismatch> {
    let (mut ours, mut theirs) = (out.to_vec(), out.to_vec());
    let got = raw::assemble(names, sizes, data, digest, &mut ours);
    let expected = reference::assemble(names, sizes, data, digest, &mut theirs);
    hits.note(Call::Assemble, got.verdict);
    let expected_written = raw::Written { verdict: verdict_of(&expected), len: *expected.as_ref().unwrap_or(&0) };
    same!(data, got, expected_written, "assemble {names:?} {sizes:?} digest {} into {}", digest.len(), out.len());
    hits.entries.assembled(names, got.verdict);
    let made = delivered(data, &ours, &theirs, out, expected)?;
    if let Ok(made) = &made {
        entries::found_again(made, names, sizes, data, hits)?;
    }
    Ok(made)
}

/// The same whole buffer on both sides: nothing of it changed by a refusal, nor past a result.
pub fn delivered(
    given: &[u8],
    ours: &[u8],
    theirs: &[u8],
    before: &[u8],
    answer: Result<usize, Refusal>,
) -> Result<Result<Vec<u8>, u8>, Mismatch> {
    let differs = |what: &str| Mismatch { what: what.to_string(), bytes: given.to_vec() };
    if ours != theirs {
        return Err(differs("the output buffers differ"));
    }
    match answer {
        Ok(len) if ours[len..] != before[len..] => Err(differs("bytes past the result changed")),
        Ok(len) => Ok(Ok(ours[..len].to_vec())),
        Err(_) if ours != before => Err(differs("a refused writer changed its output")),
        Err(refusal) => Ok(Err(refusal.number)),
    }
}

/// What the library shows of PSV0 at an edition, in a fixed order, with the same list lengths for all editions compared.
pub fn shown(reader: &Reader, bytes: &[u8], edition: usize, resources: usize, elements: usize) -> Vec<Option<Vec<u8>>> {
    let mut all = Vec::new();
    let put = |all: &mut Vec<Option<Vec<u8>>>, fields: &[raw::Field]| {
        all.extend(fields.iter().map(|f| (f.set != 0).then(|| f.value.to_le_bytes().to_vec())));
    };
    // The code points follow a string's bytes.
    let view = |all: &mut Vec<Option<Vec<u8>>>, kind, number| {
        let span = (reader.view)(bytes, edition, kind, number);
        let is = span.verdict.number == 0;
        all.push(is.then(|| bytes[span.start..span.start + span.len].to_vec()));
        all.push(is.then(|| [span.is_string, span.points].map(usize::to_le_bytes).concat()));
    };
    let i = (reader.info)(bytes, edition);
    put(
        &mut all,
        &[
            i.minimum_wave_lanes,
            i.maximum_wave_lanes,
            i.stage,
            i.uses_view_id,
            i.max_vertex_count,
            i.patch_vectors,
            i.mesh_topology,
            i.input_elements,
            i.output_elements,
            i.patch_elements,
            i.input_vectors,
            i.entry_name_offset,
        ],
    );
    put(&mut all, &i.output_vectors);
    put(&mut all, &i.threads);
    let l = (reader.lengths)(bytes, edition);
    put(&mut all, &[l.resources, l.strings, l.indices, l.elements]);
    view(&mut all, STAGE_UNION, 0);
    view(&mut all, ENTRY_NAME, 0);
    for number in 0..11 {
        view(&mut all, MASK, number);
    }
    for number in 0..resources {
        let r = (reader.resource)(bytes, edition, number);
        put(&mut all, &[r.binding_type, r.space, r.lower_bound, r.upper_bound, r.kind, r.flags]);
    }
    for number in 0..elements {
        let e = (reader.element)(bytes, edition, number);
        put(
            &mut all,
            &[
                e.name_offset,
                e.index_reference,
                e.rows,
                e.start_row,
                e.columns,
                e.start_column,
                e.allocated,
                e.semantic_kind,
                e.component_type,
                e.interpolation,
                e.dynamic_mask,
                e.stream,
                e.reserved,
            ],
        );
        view(&mut all, STRING, number);
        view(&mut all, ARRAY, number);
    }
    all
}
