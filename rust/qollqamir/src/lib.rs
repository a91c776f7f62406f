//! Safe calls to the proved reader and writer of DirectX shader containers and their PSV0 part, and to the readers of the DXIL part's
//! header, of the signature parts and of the root signature; to the reader and writer of settings files; and to figures over a list of
//! containers.
//!
//! Any bytes get an answer: the value, or a [`Refusal`] with a number of documents 01 and 02 and a place. Views are slices of the bytes
//! handed in. A value that the file's edition or stage lacks is `None`. A string is a [`Text`]: its bytes, the same as `&str`, and its code
//! points.
//!
//! ```
//! use qollqamir::{assemble, write_psv0, Container, Sections};
//!
//! let mut psv0 = [0; 64];
//! let runtime = [0; 24];
//! let len = write_psv0(0, Sections { runtime: &runtime, ..Sections::default() }, &mut psv0)?;
//!
//! let data = [b"code", &psv0[..len]].concat();
//! let mut out = [0; 128];
//! let len = assemble(b"DXILPSV0", &[4, len as u32], &data, &[0; 16], &mut out)?;
//!
//! let container = Container::open(&out[..len], 3)?;
//! assert_eq!(container.file_edition(), 0);
//! assert_eq!(container.part(*b"DXIL")?.data, b"code");
//! assert_eq!(container.runtime().stage, None);
//! assert_eq!(Container::open(&out[..31], 3).unwrap_err().to_string(), "refused 1 0");
//! # Ok::<(), qollqamir::Refusal>(())
//! ```
#![deny(unsafe_code)]
#![warn(missing_docs)]

mod calls;
mod figures;
mod places;
mod root;
mod settings;
mod signature;

pub use figures::{Added, Joined};
pub use places::{replace_psv0, Placed, Replaced};
pub use root::{root_signature, rts0_item_alone, rts0_range_alone, RootItem, RootRange, RootSignature};
pub use settings::{write_settings, Settings, SettingsRow, SettingsRows};
pub use signature::{first_difference, sg1_element_alone, signature, Elements, Signature, SignatureElement, SignaturePart};

// Nothing in them can be unset, so they are shown as the calls give them.
pub use calls::{Figures, Places, ProgramHeader};

/// The library's calls as the C header has them: plain structs that, but for figures, begin with a verdict.
pub mod raw {
    pub use crate::calls::*;
}

/// The edition of a reader or of what is written, 0 to 3; any other is refused with 25.
pub type Edition = usize;

/// The edition that [`Container::open_default`] reads as, since none is named: the newest.
pub const DEFAULT_EDITION: Edition = 3;

/// A refusal: a number of documents 01 and 02, and a place (a part, an element, an item or a byte where the number has one, otherwise 0).
#[derive(Clone, Copy, Debug, PartialEq, Eq, Hash)]
pub struct Refusal {
    /// 1 to 29, or 40 to 60.
    pub number: u8,
    /// The part, element, item or byte, from 0.
    pub place: usize,
}

impl std::fmt::Display for Refusal {
    fn fmt(&self, f: &mut std::fmt::Formatter<'_>) -> std::fmt::Result {
        write!(f, "refused {} {}", self.number, self.place)
    }
}

impl std::error::Error for Refusal {}

/// One part of a container.
#[derive(Clone, Copy, Debug, PartialEq, Eq)]
pub struct Part<'a> {
    /// Its name.
    pub name: [u8; 4],
    /// Its number in the table, from 0.
    pub number: usize,
    /// Where its header starts; the data start 8 bytes later.
    pub offset: usize,
    /// Its data.
    pub data: &'a [u8],
}

/// An entry of the part table.
#[derive(Clone, Copy, Debug, PartialEq, Eq)]
pub struct Entry<'a> {
    /// The part.
    pub part: Part<'a>,
    /// How many earlier parts bear its name; 0 for every name but PRIV, which alone may repeat.
    pub occurrence: usize,
    /// How many bytes lie before its header, after the part before it or, for the first, after the offset table.
    pub gap: usize,
}

/// A part table, or its refusal, 1 to 9, and beside it how many pairs of names its reader compared.
#[derive(Clone, Debug, PartialEq, Eq)]
pub struct CountedTable<'a> {
    /// What [`table`] gives.
    pub table: Result<Vec<Entry<'a>>, Refusal>,
    /// For each part in turn, the earlier ones in order, up to and with the first match; a PRIV compared with a PRIV counts and isn't a match.
    /// 0 beside 1 to 8, and n(n - 1)/2 for a table of n parts that is accepted, so 4,560 at most.
    pub pairs: usize,
}

/// A string of the file, without its zero. The reader accepts well-formed UTF-8 alone, by the Unicode Standard's table, which is what `str` asks for.
#[derive(Clone, Copy, Debug, PartialEq, Eq, Hash)]
pub struct Text<'a> {
    /// Its bytes, a part of those that were handed in.
    pub bytes: &'a [u8],
    /// The same as text.
    pub text: &'a str,
    /// Its number of code points, as the reader counted them.
    pub points: usize,
}

impl<'a> Text<'a> {
    fn of(bytes: &'a [u8], points: usize) -> Self {
        let text = std::str::from_utf8(bytes).expect("a string that is shown is well formed");
        Text { bytes, text, points }
    }
}

impl std::fmt::Display for Text<'_> {
    fn fmt(&self, f: &mut std::fmt::Formatter<'_>) -> std::fmt::Result {
        f.write_str(self.text)
    }
}

/// The fields of the runtime record; the stage union is [`Container::stage_union`].
#[allow(missing_docs)]
#[derive(Clone, Copy, Debug, PartialEq, Eq)]
pub struct Runtime {
    pub minimum_wave_lanes: Option<u32>,
    pub maximum_wave_lanes: Option<u32>,
    pub stage: Option<u32>,
    pub uses_view_id: Option<u32>,
    pub max_vertex_count: Option<u32>,
    /// Patch constant or primitive vectors.
    pub patch_vectors: Option<u32>,
    pub mesh_topology: Option<u32>,
    pub input_elements: Option<u32>,
    pub output_elements: Option<u32>,
    /// Patch constant or primitive elements.
    pub patch_elements: Option<u32>,
    pub input_vectors: Option<u32>,
    /// Of streams 0 to 3.
    pub output_vectors: [Option<u32>; 4],
    /// X, Y, Z.
    pub threads: [Option<u32>; 3],
    pub entry_name_offset: Option<u32>,
}

/// A resource binding's record.
#[allow(missing_docs)]
#[derive(Clone, Copy, Debug, PartialEq, Eq)]
pub struct Resource {
    pub binding_type: Option<u32>,
    pub space: Option<u32>,
    pub lower_bound: Option<u32>,
    pub upper_bound: Option<u32>,
    pub kind: Option<u32>,
    pub flags: Option<u32>,
}

/// The record of a signature element in PSV0.
#[allow(missing_docs)]
#[derive(Clone, Copy, Debug, PartialEq, Eq)]
pub struct Element {
    pub name_offset: Option<u32>,
    pub index_reference: Option<u32>,
    pub rows: Option<u32>,
    pub start_row: Option<u32>,
    pub columns: Option<u32>,
    pub start_column: Option<u32>,
    pub allocated: Option<u32>,
    pub semantic_kind: Option<u32>,
    pub component_type: Option<u32>,
    pub interpolation: Option<u32>,
    pub dynamic_mask: Option<u32>,
    pub stream: Option<u32>,
    pub reserved: Option<u32>,
}

/// The lists' lengths.
#[derive(Clone, Copy, Debug, PartialEq, Eq)]
pub struct Lengths {
    /// R, in records.
    pub resources: Option<u32>,
    /// T, in bytes.
    pub strings: Option<u32>,
    /// N, in numbers.
    pub indices: Option<u32>,
    /// E, over all three lists.
    pub elements: Option<u32>,
}

/// The bytes of each section, as [`write_psv0`] takes them and an opening hands them out: no counts or sizes.
#[derive(Clone, Copy, Debug, Default, PartialEq, Eq)]
pub struct Sections<'a> {
    /// The runtime record, of the edition's size.
    pub runtime: &'a [u8],
    /// Resource records, of 16 bytes for editions 0 and 1, else 24, when written.
    pub resources: &'a [u8],
    /// The string table.
    pub strings: &'a [u8],
    /// The index table, four bytes a number.
    pub indices: &'a [u8],
    /// Element records, of 16 bytes when written.
    pub elements: &'a [u8],
    /// The masks' words.
    pub masks: &'a [u8],
}

/// How the program header's stage compares with PSV0's, as numbers.
#[derive(Clone, Copy, Debug, PartialEq, Eq, Hash)]
pub enum Stages {
    /// The same.
    Equal,
    /// Not the same.
    Different,
    /// PSV0 shows no stage.
    Unset,
}

/// The data of a DXIL part.
#[derive(Clone, Copy, Debug, PartialEq, Eq)]
pub struct Program<'a> {
    /// The fields of the program header and of the bitcode header in it.
    pub header: ProgramHeader,
    /// A part of the data that were handed in.
    pub bitcode: &'a [u8],
}

/// The report on a container's DXIL part.
#[derive(Clone, Copy, Debug, PartialEq, Eq)]
pub struct ProgramReport<'a> {
    /// The fields of the program header and of the bitcode header in it.
    pub header: ProgramHeader,
    /// A part of the container.
    pub bitcode: &'a [u8],
    /// The stage that PSV0 shows at the edition.
    pub psv0_stage: Option<u32>,
    /// The header's stage beside it.
    pub stages: Stages,
}

fn judged(verdict: raw::Verdict) -> Result<(), Refusal> {
    match u8::try_from(verdict.number).expect("the numbers are 1 to 29 and 40 to 60") {
        0 => Ok(()),
        number => Err(Refusal { number, place: verdict.place }),
    }
}

fn value(field: raw::Field) -> Option<u32> {
    (field.set != 0).then_some(field.value)
}

fn shown(bytes: &[u8], verdict: raw::Verdict, start: usize, len: usize) -> Result<&[u8], Refusal> {
    judged(verdict)?;
    Ok(&bytes[start..start + len])
}

fn viewed(bytes: &[u8], span: raw::Span) -> Result<&[u8], Refusal> {
    shown(bytes, span.verdict, span.start, span.len)
}

fn texted(bytes: &[u8], span: raw::Span) -> Result<Text<'_>, Refusal> {
    Ok(Text::of(viewed(bytes, span)?, span.points))
}

fn found(bytes: &[u8], name: [u8; 4], part: raw::Found) -> Result<Part<'_>, Refusal> {
    judged(part.verdict)?;
    let start = part.offset + 8;
    Ok(Part { name, number: part.number, offset: part.offset, data: &bytes[start..start + part.size] })
}

fn runtime_of(info: raw::Info) -> Runtime {
    Runtime {
        minimum_wave_lanes: value(info.minimum_wave_lanes),
        maximum_wave_lanes: value(info.maximum_wave_lanes),
        stage: value(info.stage),
        uses_view_id: value(info.uses_view_id),
        max_vertex_count: value(info.max_vertex_count),
        patch_vectors: value(info.patch_vectors),
        mesh_topology: value(info.mesh_topology),
        input_elements: value(info.input_elements),
        output_elements: value(info.output_elements),
        patch_elements: value(info.patch_elements),
        input_vectors: value(info.input_vectors),
        output_vectors: info.output_vectors.map(value),
        threads: info.threads.map(value),
        entry_name_offset: value(info.entry_name_offset),
    }
}

fn resource_of(record: raw::Resource) -> Result<Resource, Refusal> {
    judged(record.verdict)?;
    Ok(Resource {
        binding_type: value(record.binding_type),
        space: value(record.space),
        lower_bound: value(record.lower_bound),
        upper_bound: value(record.upper_bound),
        kind: value(record.kind),
        flags: value(record.flags),
    })
}

fn element_of(record: raw::Element) -> Result<Element, Refusal> {
    judged(record.verdict)?;
    Ok(Element {
        name_offset: value(record.name_offset),
        index_reference: value(record.index_reference),
        rows: value(record.rows),
        start_row: value(record.start_row),
        columns: value(record.columns),
        start_column: value(record.start_column),
        allocated: value(record.allocated),
        semantic_kind: value(record.semantic_kind),
        component_type: value(record.component_type),
        interpolation: value(record.interpolation),
        dynamic_mask: value(record.dynamic_mask),
        stream: value(record.stream),
        reserved: value(record.reserved),
    })
}

fn lengths_of(lengths: raw::Lengths) -> Lengths {
    Lengths {
        resources: value(lengths.resources),
        strings: value(lengths.strings),
        indices: value(lengths.indices),
        elements: value(lengths.elements),
    }
}

/// The part table alone: refusals 1 to 9.
pub fn table(bytes: &[u8]) -> Result<Vec<Entry<'_>>, Refusal> {
    entries(bytes, raw::table(bytes))
}

/// The part table alone, and how many pairs of names were compared for it. With many parts [`table`], which doesn't count, is faster: it compares
/// each name with all earlier ones, several at once.
///
/// ```
/// use qollqamir::{assemble, table_counted};
///
/// let mut out = [0; 128];
/// let len = assemble(b"PRIVSFI0PRIV", &[1, 0, 2], b"abb", &[0; 16], &mut out)?;
///
/// let counted = table_counted(&out[..len]);
/// assert_eq!((counted.table?.len(), counted.pairs), (3, 3));
/// # Ok::<(), qollqamir::Refusal>(())
/// ```
pub fn table_counted(bytes: &[u8]) -> CountedTable<'_> {
    let parts = raw::table_counted(bytes);
    CountedTable { table: entries(bytes, parts), pairs: parts.pairs.value as usize }
}

fn entries(bytes: &[u8], parts: raw::Parts) -> Result<Vec<Entry<'_>>, Refusal> {
    judged(parts.verdict)?;
    Ok((0..parts.count)
        .map(|number| {
            let offset = parts.offsets[number] as usize;
            let data = &bytes[offset + 8..][..parts.sizes[number] as usize];
            let part = Part { name: parts.names[number].to_le_bytes(), number, offset, data };
            Entry { part, occurrence: parts.occurrences[number] as usize, gap: parts.gaps[number] as usize }
        })
        .collect())
}

/// The parts with a name, in their order, from one reading of the part table alone: refusals 1 to 9. Of several PRIV parts, entry i is what
/// [`table_part_occurrence`] finds by the number i.
///
/// ```
/// use qollqamir::{assemble, table_parts};
///
/// let mut out = [0; 128];
/// let len = assemble(b"PRIVSFI0PRIV", &[1, 0, 2], b"abb", &[0; 16], &mut out)?;
///
/// let notes: Vec<_> = table_parts(&out[..len], *b"PRIV")?.map(|entry| entry.part.data).collect();
/// assert_eq!(notes, [&b"a"[..], b"bb"]);
/// # Ok::<(), qollqamir::Refusal>(())
/// ```
pub fn table_parts(bytes: &[u8], name: [u8; 4]) -> Result<impl Iterator<Item = Entry<'_>>, Refusal> {
    Ok(table(bytes)?.into_iter().filter(move |entry| entry.part.name == name))
}

/// The first part with a name, from the part table alone: refusals 1 to 9, then 26.
pub fn table_part(bytes: &[u8], name: [u8; 4]) -> Result<Part<'_>, Refusal> {
    found(bytes, name, raw::table_part(bytes, &name))
}

/// The part with a name and an occurrence, from the part table alone: refusals 1 to 9, then 26, also where the number is too great.
pub fn table_part_occurrence(bytes: &[u8], name: [u8; 4], occurrence: usize) -> Result<Part<'_>, Refusal> {
    found(bytes, name, raw::table_part_occurrence(bytes, &name, occurrence))
}

/// Whether a name is one of the 24 known ones.
pub fn known(name: [u8; 4]) -> bool {
    raw::known(&name)
}

/// The program header and the bitcode, of the data of a DXIL part alone. Refusals in order: 40 (under 24 bytes), 41 (a wrong mark), 42 (the
/// bitcode ends past the data). Nothing else is judged, so an offset below 16 shows bytes of the headers.
///
/// ```
/// use qollqamir::{dxil_program, Refusal};
///
/// let data = b"\x65\0\x05\0\x07\0\0\0DXIL\x07\x01\0\0\x10\0\0\0\x04\0\0\0code";
/// let program = dxil_program(data)?;
/// assert_eq!((program.header.version_major, program.header.version_minor, program.header.stage), (6, 5, 5));
/// assert_eq!(program.bitcode, b"code");
/// assert_eq!(dxil_program(&data[..27]).unwrap_err(), Refusal { number: 42, place: 0 });
/// # Ok::<(), Refusal>(())
/// ```
pub fn dxil_program(data: &[u8]) -> Result<Program<'_>, Refusal> {
    let raw::ProgramData { verdict, header, start, len } = raw::dxil_program(data);
    Ok(Program { header, bitcode: shown(data, verdict, start, len)? })
}

/// Writes PSV0 data in plain form to the front of `out` and answers its length. Refusals in order: 25, 27, 2, 15 to 24, 28. A refusal
/// leaves `out` as it was; bytes past the result stay.
pub fn write_psv0(edition: Edition, sections: Sections<'_>, out: &mut [u8]) -> Result<usize, Refusal> {
    let Sections { runtime, resources, strings, indices, elements, masks } = sections;
    let written = raw::write_psv0(edition, [runtime, resources, strings, indices, elements, masks], out);
    judged(written.verdict)?;
    Ok(written.len)
}

/// Assembles a container at the front of `out` and answers its length. `names` has four bytes a part, `data` the parts' data end to end.
/// PRIV may stand more than once. Refusals in order: 27, 6, 9, 2, 28. A refusal leaves `out` as it was; bytes past the result stay.
pub fn assemble(names: &[u8], sizes: &[u32], data: &[u8], digest: &[u8], out: &mut [u8]) -> Result<usize, Refusal> {
    let written = raw::assemble(names, sizes, data, digest, out);
    judged(written.verdict)?;
    Ok(written.len)
}

const STAGE_UNION: u32 = 0;
const ELEMENT_STRING: u32 = 1;
const ELEMENT_ARRAY: u32 = 2;
const ENTRY_NAME: u32 = 3;
const MASK: u32 = 4;

const STAGES_EQUAL: usize = 1;
const STAGES_DIFFERENT: usize = 2;

/// The queries that an opened container and opened PSV0 data share: each goes by the places that the opening handed back, and opens nothing again.
macro_rules! queries {
    () => {
        /// The bytes that were opened.
        pub fn bytes(&self) -> &'a [u8] {
            self.bytes
        }

        /// The edition that was asked for.
        pub fn edition(&self) -> Edition {
            self.edition
        }

        /// The greatest edition whose size is at most that of the runtime record.
        pub fn file_edition(&self) -> Edition {
            self.file_edition
        }

        /// The lesser of the file's edition and the one asked for.
        pub fn edition_read(&self) -> Edition {
            self.places.edition as Edition
        }

        /// The places of the sections, to keep beside the bytes: [`Placed::new`] takes both.
        pub fn places(&self) -> Places {
            self.places
        }

        /// The fields of the runtime record.
        pub fn runtime(&self) -> Runtime {
            runtime_of(raw::places_runtime_info(self.bytes, self.places))
        }

        /// The lists' lengths.
        pub fn lengths(&self) -> Lengths {
            lengths_of(raw::places_lengths(self.bytes, self.places))
        }

        /// Resource record `i`, or 26.
        pub fn resource(&self, i: usize) -> Result<Resource, Refusal> {
            resource_of(raw::places_resource(self.bytes, self.places, i))
        }

        /// Element record `i`, numbered over all three lists, or 26.
        pub fn element(&self, i: usize) -> Result<Element, Refusal> {
            element_of(raw::places_element(self.bytes, self.places, i))
        }

        /// The stage union, 16 bytes as they stand.
        pub fn stage_union(&self) -> &'a [u8] {
            self.view(STAGE_UNION, 0).unwrap_or(&[])
        }

        /// The name of element `i`, or 26.
        pub fn element_string(&self, i: usize) -> Result<Text<'a>, Refusal> {
            self.text(ELEMENT_STRING, i)
        }

        /// The bytes of the index array of element `i`, four a number and as many numbers as it has rows, or 26.
        pub fn element_array(&self, i: usize) -> Result<&'a [u8], Refusal> {
            self.view(ELEMENT_ARRAY, i)
        }

        /// The entry name, or 26 where it is unset.
        pub fn entry_name(&self) -> Result<Text<'a>, Refusal> {
            self.text(ENTRY_NAME, 0)
        }

        /// The bytes of mask `number`, 0 to 10, or 26; one that isn't there is empty.
        pub fn mask(&self, number: usize) -> Result<&'a [u8], Refusal> {
            self.view(MASK, number)
        }

        /// The bytes of every section for writing again; none of one that is unset.
        pub fn sections(&self) -> Sections<'a> {
            let section = |number| viewed(self.bytes, raw::places_section(self.bytes, self.places, number)).unwrap_or(&[]);
            Sections {
                runtime: section(0),
                resources: section(1),
                strings: section(2),
                indices: section(3),
                elements: section(4),
                masks: section(5),
            }
        }

        fn text(&self, kind: u32, number: usize) -> Result<Text<'a>, Refusal> {
            texted(self.bytes, raw::places_view(self.bytes, self.places, kind, number))
        }

        fn view(&self, kind: u32, number: usize) -> Result<&'a [u8], Refusal> {
            viewed(self.bytes, raw::places_view(self.bytes, self.places, kind, number))
        }
    };
}

/// A container that a reader of one edition accepts.
///
/// ```
/// use qollqamir::{Container, Refusal};
///
/// assert_eq!(Container::open(b"DXBC", 3).unwrap_err(), Refusal { number: 1, place: 0 });
/// assert_eq!(Container::open(b"DXBC", 4).unwrap_err(), Refusal { number: 25, place: 0 });
/// ```
#[derive(Clone, Copy, Debug, PartialEq, Eq)]
pub struct Container<'a> {
    bytes: &'a [u8],
    edition: Edition,
    part_count: usize,
    file_edition: Edition,
    places: Places,
}

impl<'a> Container<'a> {
    /// Opens a container, and keeps the places of its PSV0 sections, so that many queries cost one opening. Refusals in order: 25, 1 to 24.
    pub fn open(bytes: &'a [u8], edition: Edition) -> Result<Self, Refusal> {
        let raw::Opened { verdict, parts, file_edition, places, .. } = raw::open_places(bytes, edition);
        judged(verdict)?;
        Ok(Container { bytes, edition, part_count: parts as usize, file_edition: file_edition as Edition, places })
    }

    /// Opens a container where no edition is named: at [`DEFAULT_EDITION`], the newest.
    ///
    /// Edition 3 alone gives 24: the file is of edition 3 and the reference of its entry name isn't good. To read such a file without its
    /// entry name, name an older edition; every older one accepts it.
    ///
    /// ```
    /// # use qollqamir::{Container, Refusal};
    /// fn with_or_without_entry_name(bytes: &[u8]) -> Result<Container<'_>, Refusal> {
    ///     match Container::open_default(bytes) {
    ///         Err(Refusal { number: 24, .. }) => Container::open(bytes, 2),
    ///         opened => opened,
    ///     }
    /// }
    /// # assert_eq!(with_or_without_entry_name(b"DXBC").unwrap_err().number, 1);
    /// ```
    pub fn open_default(bytes: &'a [u8]) -> Result<Self, Refusal> {
        Self::open(bytes, DEFAULT_EDITION)
    }

    /// The number of parts.
    pub fn part_count(&self) -> usize {
        self.part_count
    }

    /// The first part with a name, or 26.
    pub fn part(&self, name: [u8; 4]) -> Result<Part<'a>, Refusal> {
        found(self.bytes, name, raw::part(self.bytes, self.edition, &name))
    }

    /// The part with a name and an occurrence, or 26, also where the number is too great.
    pub fn part_occurrence(&self, name: [u8; 4], occurrence: usize) -> Result<Part<'a>, Refusal> {
        found(self.bytes, name, raw::part_occurrence(self.bytes, self.edition, &name, occurrence))
    }

    /// The parts with a name, in their order, from one reading of the part table.
    pub fn parts(&self, name: [u8; 4]) -> impl Iterator<Item = Entry<'a>> {
        // What opens has a table that passes, so the other arm is never taken.
        table_parts(self.bytes, name).into_iter().flatten()
    }

    /// The report on the DXIL part: 40 to 42 as [`dxil_program`] gives them.
    pub fn program(&self) -> Result<ProgramReport<'a>, Refusal> {
        let raw::ProgramReport { verdict, header, start, len, psv0_stage, stages } = raw::program(self.bytes, self.edition);
        let bitcode = shown(self.bytes, verdict, start, len)?;
        let stages = match stages {
            STAGES_EQUAL => Stages::Equal,
            STAGES_DIFFERENT => Stages::Different,
            _ => Stages::Unset,
        };
        Ok(ProgramReport { header, bitcode, psv0_stage: value(psv0_stage), stages })
    }

    /// The report on a signature part: 26 where it is absent, then 43 to 45 and 52, as [`signature`](fn@signature) gives them.
    pub fn signature(&self, part: SignaturePart) -> Result<Signature<'a>, Refusal> {
        signature(self.bytes, self.edition, part)
    }

    /// The number of the first named element of a signature part whose name is not PSV0's, as [`first_difference`] gives it.
    pub fn first_difference(&self, part: SignaturePart) -> Result<Option<usize>, Refusal> {
        first_difference(self.bytes, self.edition, part)
    }

    /// The report on the root signature: 26 where there is none, then 46 to 51, as [`root_signature`] gives them.
    pub fn root_signature(&self) -> Result<RootSignature<'a>, Refusal> {
        root_signature(self.bytes, self.edition)
    }

    /// This container with other PSV0 data, in plain form, in the place of its own, as [`replace_psv0`] writes it at this edition.
    pub fn replace_psv0(&self, part: &[u8], out: &mut [u8]) -> Result<Replaced, Refusal> {
        replace_psv0(self.bytes, self.edition, part, out)
    }

    queries!();
}

/// PSV0 data alone that a reader of one edition accepts.
///
/// ```
/// use qollqamir::Psv0;
///
/// let mut data = [0; 32];
/// data[0] = 24;
/// let psv0 = Psv0::open(&data, 3)?;
/// assert_eq!(psv0.edition_read(), 0);
/// assert_eq!(psv0.lengths().resources, Some(0));
/// assert_eq!(psv0.lengths().elements, None);
/// # Ok::<(), qollqamir::Refusal>(())
/// ```
#[derive(Clone, Copy, Debug, PartialEq, Eq)]
pub struct Psv0<'a> {
    bytes: &'a [u8],
    edition: Edition,
    file_edition: Edition,
    places: Places,
}

impl<'a> Psv0<'a> {
    /// Opens PSV0 data, and keeps the places of its sections, so that many queries cost one opening. Refusals in order: 25, 2, 12 to 24.
    pub fn open(bytes: &'a [u8], edition: Edition) -> Result<Self, Refusal> {
        let raw::Opened { verdict, file_edition, places, .. } = raw::psv0_open_places(bytes, edition);
        judged(verdict)?;
        Ok(Psv0 { bytes, edition, file_edition: file_edition as Edition, places })
    }

    queries!();
}
