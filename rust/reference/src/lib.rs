//! A reader and writer of DirectX containers and their PSV0 part, a reader of the
//! DXIL part's header, of the signature parts and of the root signature, a reader and
//! writer of settings files, and counts over a list of containers, written from
//! documents 000, 001 and 01 and requests 1 to 3 and 5 to 12 of 02 alone. It is a second
//! opinion: every rule stands here as directly as it can be said, so that another reader
//! can be held against it.
//!
//! * [`table`] reads the part table (refusals 1 to 9), [`table_with_pairs`] also tells how
//!   many pairs of names it compared, [`table_part`] and [`table_part_occurrence`] read
//!   one part of it (26), [`after_last_part`] what follows.
//! * [`open`] opens a whole container, [`open_psv0`] PSV0 data alone; both give
//!   an [`Opening`], whose methods are the queries (refusal 26).
//! * [`Places`] is the record of an opening's places and sizes. Its methods are the PSV0
//!   queries once more, on any bytes (refusals 26 and 29).
//! * [`program`] reads the header of DXIL data (refusals 40 to 42), and
//!   [`program_report`] that of a container, with both stages.
//! * [`signature`] reads the data of a signature part (refusals 43 to 45 and
//!   52), [`signature_element`] one element of it by itself, [`signature_report`] a
//!   part of a container; [`first_difference`] compares its names with PSV0's.
//! * [`code_points`] counts those of a string, or says that it isn't well-formed
//!   UTF-8. Names are handed out as [`Text`], which has the count.
//! * [`root_signature`] reads the data of RTS0 (refusals 46 to 51), [`root_item`]
//!   and [`root_range`] one item or range of it by itself, [`root_report`] that of
//!   a container.
//! * [`write_psv0`] and [`assemble`] write, and [`plain`] says whether PSV0 data
//!   has the form in which the writer would write it. [`replace_psv0`] puts such data
//!   in the place of a container's PSV0 data.
//! * [`show`] prints all that an opening and the reports show, and [`inspect`]
//!   what the small program does: the part table, or the refusal.
//! * [`settings`] reads a settings file (refusals 53 to 60) and gives [`Settings`],
//!   whose methods are the queries (26), [`write_settings`] writes one, and
//!   [`show_settings`] prints one with its values at a version.
//! * [`Figures`] counts what the openings of a list of containers gave, and
//!   [`show_figures`] prints the figures of a list of files.

#![forbid(unsafe_code)]
// Sizes are judged with the words of the papers: `% 4`, `(v + 7) / 8`.
#![allow(clippy::manual_div_ceil, clippy::manual_is_multiple_of)]

mod figures;
mod inspect;
mod places;
mod program;
mod psv0;
mod replace;
mod root;
mod settings;
mod show;
mod signature;
mod table;
mod utf8;
mod write;

pub use figures::{show_figures, Added, Figures, Joined};
pub use inspect::inspect;
pub use places::{Lengths, Places, Section};
pub use program::{program, program_report, Program, ProgramReport, Stages};
pub use psv0::{
    open, open_default, open_psv0, open_psv0_default, Element, Handed, Layout, Opening, Resource,
    Runtime,
};
pub use replace::replace_psv0;
pub use root::{
    root_item, root_range, root_report, root_signature, RootItem, RootRange, RootSignature,
};
pub use settings::{settings, show_settings, write_settings, Settings, SettingsRow};
pub use show::show;
pub use signature::{
    first_difference, signature, signature_element, signature_report, Signature, SignatureElement,
    SignaturePart,
};
pub use table::{
    after_last_part, find, find_occurrence, known, may_repeat, table, table_part,
    table_part_occurrence, table_with_pairs, Part, KNOWN,
};
pub use utf8::{code_points, Text};
pub use write::{assemble, plain, write_psv0};

/// The greatest length of a container, and of PSV0 data read or written alone.
pub const LONGEST: usize = 16_777_216;

/// The longest file that the programs read; a longer one is `too long`.
pub const LONGEST_READ: usize = 65_536;

/// The greatest number of parts a container lists.
pub const MOST_PARTS: usize = 96;

/// The size of the runtime record in each edition.
pub const EDITION_SIZES: [usize; 4] = [24, 36, 48, 52];

/// The newest edition a reader or the writer can be asked for.
pub const NEWEST: usize = EDITION_SIZES.len() - 1;

/// Request 5: "An opening that names no edition now reads as edition 3".
pub const DEFAULT_EDITION: usize = 3;

/// The number of masks; they are numbered from 0.
pub const MASKS: usize = 11;

/// The smallest size a resource or element record may state.
pub(crate) const LEAST_RECORD: usize = 16;

/// A resource record from this size on has a kind and flags.
pub(crate) const LONG_RESOURCE: usize = 24;

/// The answer to bytes, queries or sections that break a rule: the number in
/// the table of refusals, and the place (a part, an element or an item, in a settings
/// file a byte, otherwise 0).
#[derive(Clone, Copy, Debug, PartialEq, Eq, Hash)]
pub struct Refusal {
    pub number: u8,
    pub place: usize,
}

impl std::fmt::Display for Refusal {
    fn fmt(&self, f: &mut std::fmt::Formatter<'_>) -> std::fmt::Result {
        write!(f, "refused {} {}", self.number, self.place)
    }
}

impl std::error::Error for Refusal {}

/// A refusal whose place is 0.
pub(crate) fn refusal(number: u8) -> Refusal {
    Refusal { number, place: 0 }
}

/// A refusal at a part, element, item or byte.
pub(crate) fn refusal_at(number: u8, place: usize) -> Refusal {
    Refusal { number, place }
}

/// The two-byte number at `at`, which must lie inside.
pub(crate) fn number2(bytes: &[u8], at: usize) -> u32 {
    u32::from(u16::from_le_bytes([bytes[at], bytes[at + 1]]))
}

/// The four-byte number at `at`, which must lie inside.
pub(crate) fn number4(bytes: &[u8], at: usize) -> u32 {
    u32::from_le_bytes([bytes[at], bytes[at + 1], bytes[at + 2], bytes[at + 3]])
}
