//! The functions of the archive and a safe call for each. This is the only module with unsafe code. The structs and declarations are those
//! of `include/qollqamir.h`; nothing checks that they agree, so the tests look at the last field of each.
#![allow(unsafe_code, missing_docs)]

use crate::SettingsRow;
use std::mem::size_of;

/// Declares structs of the header. None has padding: its size is the sum of the sizes of its fields.
macro_rules! structs {
    ($($(#[$doc:meta])* $name:ident { $($(#[$field_doc:meta])* $field:ident: $type:ty,)* })*) => {
        $($(#[$doc])*
        #[repr(C)]
        #[derive(Clone, Copy, Debug, PartialEq, Eq)]
        pub struct $name {
            $($(#[$field_doc])* pub $field: $type,)*
        }

        const _: () = assert!(size_of::<$name>() == 0 $(+ size_of::<$type>())*, concat!(stringify!($name), " has padding"));)*
    };
}

structs! {
    /// A verdict: the refusal's number, 0 where the call accepts, and its place.
    Verdict {
        number: usize,
        place: usize,
    }

    /// A value: 1 where it is set, 0 where it is not, and its number, 0 where it is not.
    Field {
        set: u32,
        value: u32,
    }

    /// A part table; entries from `count` on are 0. `pairs` is set by `table_counted` alone.
    Parts {
        verdict: Verdict,
        count: usize,
        pairs: Field,
        names: [u32; 96],
        offsets: [u32; 96],
        sizes: [u32; 96],
        occurrences: [u32; 96],
        gaps: [u32; 96],
    }

    /// A part: its number, the offset of its header and its data size.
    Found {
        verdict: Verdict,
        number: usize,
        offset: usize,
        size: usize,
    }

    /// An opening: the number of parts, the file's edition and the edition read.
    Opening {
        verdict: Verdict,
        parts: usize,
        file_edition: usize,
        edition_read: usize,
    }

    /// What an opening keeps of PSV0, for queries by places: the edition read; of each section the place of its first byte after its
    /// counts and sizes, its count and its record size; of the masks the place of the first and the 4-byte words of each; and the stage. Places count from
    /// the first byte that was opened. A list without records has record size 0; at edition read 0 the stage and sections 3 to 6 have zeros. Plain
    /// data to keep, copy and compare; any numbers may stand in it.
    Places {
        /// The edition read.
        edition: u32,
        /// Where the runtime record stands, which has the size of its edition.
        runtime: u32,
        /// Where the first resource record stands.
        resources: u32,
        /// How many there are.
        resource_count: u32,
        /// Their stated size.
        resource_size: u32,
        /// Where the string table stands.
        strings: u32,
        /// Its length.
        string_bytes: u32,
        /// Where the index table stands.
        indices: u32,
        /// How many numbers it has.
        index_count: u32,
        /// Where the first element record stands.
        elements: u32,
        /// How many there are, over all three lists.
        element_count: u32,
        /// Their stated size.
        element_size: u32,
        /// Where mask 0 stands.
        masks: u32,
        /// The words of masks 0 to 10.
        mask_words: [u32; 11],
        /// The stage, which decides what fields of the runtime record are set.
        stage: u32,
    }

    /// An opening with its places: the number of parts, the file's edition and the edition read.
    Opened {
        verdict: Verdict,
        parts: u32,
        file_edition: u32,
        edition_read: u32,
        places: Places,
    }

    /// A container with other PSV0 data: its length, 0 beside a refusal, and the places of its PSV0 sections.
    Replaced {
        verdict: Verdict,
        len: u32,
        places: Places,
    }

    /// The fields of the runtime record.
    Info {
        verdict: Verdict,
        minimum_wave_lanes: Field,
        maximum_wave_lanes: Field,
        stage: Field,
        uses_view_id: Field,
        max_vertex_count: Field,
        patch_vectors: Field,
        mesh_topology: Field,
        input_elements: Field,
        output_elements: Field,
        patch_elements: Field,
        input_vectors: Field,
        output_vectors: [Field; 4],
        threads: [Field; 3],
        entry_name_offset: Field,
    }

    /// A resource binding's record.
    Resource {
        verdict: Verdict,
        binding_type: Field,
        space: Field,
        lower_bound: Field,
        upper_bound: Field,
        kind: Field,
        flags: Field,
    }

    /// The record of a signature element in PSV0.
    Element {
        verdict: Verdict,
        name_offset: Field,
        index_reference: Field,
        rows: Field,
        start_row: Field,
        columns: Field,
        start_column: Field,
        allocated: Field,
        semantic_kind: Field,
        component_type: Field,
        interpolation: Field,
        dynamic_mask: Field,
        stream: Field,
        reserved: Field,
    }

    /// The lists' lengths: R, T in bytes, N and E.
    Lengths {
        verdict: Verdict,
        resources: Field,
        strings: Field,
        indices: Field,
        elements: Field,
    }

    /// A stretch of the bytes that were handed in.
    Span {
        verdict: Verdict,
        start: usize,
        len: usize,
        is_string: usize,
        points: usize,
    }

    /// What a writer did: the length of its result, 0 beside a refusal.
    Written {
        verdict: Verdict,
        len: usize,
    }

    /// The fields of the program header of a DXIL part and of the bitcode header in it, as they stand. `words` is the size in 4-byte units;
    /// the bitcode's offset counts from the bitcode header's start, byte 8 of the data.
    ProgramHeader {
        version_major: u32,
        version_minor: u32,
        stage: u32,
        words: u32,
        bitcode_major: u32,
        bitcode_minor: u32,
        bitcode_offset: u32,
        bitcode_size: u32,
    }

    /// The data of a DXIL part: the header's fields, and the bitcode as a stretch of the data.
    ProgramData {
        verdict: Verdict,
        header: ProgramHeader,
        start: usize,
        len: usize,
    }

    /// The report on a container's DXIL part: the header's fields, the bitcode as a stretch of the container, the stage that PSV0 shows,
    /// and how the header's compares with it: 0 unset, 1 equal, 2 different.
    ProgramReport {
        verdict: Verdict,
        header: ProgramHeader,
        start: usize,
        len: usize,
        psv0_stage: Field,
        stages: usize,
    }

    /// The data of a part ISG1, OSG1 or PSG1: the number of elements.
    SignatureData {
        verdict: Verdict,
        count: usize,
    }

    /// The report on a container's signature part: the number of elements, and the part's data as a stretch of the container.
    SignatureReport {
        verdict: Verdict,
        count: usize,
        start: usize,
        len: usize,
    }

    /// An element of a signature part, as it stands. `named` is 1 where it has a name, 0 where it has none; the name is a stretch of the
    /// bytes that were handed in.
    SignatureRecord {
        verdict: Verdict,
        stream: u32,
        name_offset: u32,
        index: u32,
        system_value: u32,
        component_type: u32,
        register_number: u32,
        mask: u32,
        exclusive_mask: u32,
        precision: u32,
        named: u32,
        name_start: usize,
        name_len: usize,
        name_points: usize,
    }

    /// The first element that differs: 1 and its number, 0 and 0 where there is none.
    Difference {
        verdict: Verdict,
        found: usize,
        number: usize,
    }

    /// The header of a root signature: its version, its counts of parameters and static samplers, and its flags.
    RootData {
        verdict: Verdict,
        version: u32,
        parameters: u32,
        samplers: u32,
        flags: u32,
    }

    /// The report on a container's root signature: its header, and the part's data as a stretch of the container.
    RootReport {
        verdict: Verdict,
        version: u32,
        parameters: u32,
        samplers: u32,
        flags: u32,
        start: usize,
        len: usize,
    }

    /// An item of a root signature. `parameter_type` is 0 for a table, 1 for constants, 2 to 4 for a descriptor, and unset for a static
    /// sampler. What its kind lacks is 0 and unset. The three levels of detail are the file's bits.
    RootRecord {
        verdict: Verdict,
        parameter_type: Field,
        visibility: u32,
        register_number: u32,
        space: u32,
        count: u32,
        ranges: u32,
        ranges_offset: u32,
        flags: Field,
        filter: u32,
        address_u: u32,
        address_v: u32,
        address_w: u32,
        lod_bias: u32,
        anisotropy: u32,
        comparison: u32,
        border: u32,
        least_lod: u32,
        greatest_lod: u32,
    }

    /// A range of a table.
    RangeRecord {
        verdict: Verdict,
        range_type: u32,
        descriptors: u32,
        base_register: u32,
        space: u32,
        flags: Field,
        offset: usize,
    }

    /// A settings file: its number of rows, and where the first begins.
    Settings {
        verdict: Verdict,
        rows: usize,
        first: usize,
    }

    /// A row of a settings file.
    SettingRow {
        verdict: Verdict,
        version: u32,
        key: u32,
        value: usize,
    }

    /// A row of a settings file by itself, and where it ends.
    SettingRowAlone {
        verdict: Verdict,
        version: u32,
        key: u32,
        value: usize,
        end: usize,
    }

    /// The value of a key at a version.
    Setting {
        verdict: Verdict,
        setting: Field,
    }

    /// Figures over a list of containers, opened one by one at one edition. Plain data: whatever numbers it holds, the calls answer.
    Figures {
        /// The edition that they were started at.
        edition: usize,
        /// The sum of the accepted lengths.
        bytes: u64,
        /// How many were opened, at most 65,535.
        opened: u16,
        /// How many of them were accepted.
        accepted: u16,
        /// How many of them were refused.
        refused: u16,
        /// By refusal number, for the refused ones. An opening gives 1 to 25; 0, 26 and 27 stay 0.
        refusals: [u16; 28],
        /// By the file's edition, for the accepted ones.
        editions: [u16; 4],
        /// By the stage that the reading shows, for the accepted ones.
        stages: [u16; 16],
        /// How many accepted ones show no stage.
        unset: u16,
    }

    /// Figures with one container more: 0 and the verdict of its opening, or 1 and zeros where they are full.
    FiguresAdded {
        answer: usize,
        verdict: Verdict,
        figures: Figures,
    }

    /// Two figures joined: 0; or the first as it was, with 1 where there is no room and 2 where their editions differ.
    FiguresJoined {
        answer: usize,
        figures: Figures,
    }
}

mod archive {
    use super::*;

    extern "C" {
        pub fn qollqamir_table(bytes: *const u8, len: usize) -> Parts;
        pub fn qollqamir_table_counted(bytes: *const u8, len: usize) -> Parts;
        pub fn qollqamir_table_part(bytes: *const u8, len: usize, name: *const u8) -> Found;
        pub fn qollqamir_table_part_occurrence(bytes: *const u8, len: usize, name: *const u8, occurrence: usize) -> Found;
        pub fn qollqamir_known(name: *const u8) -> bool;
        pub fn qollqamir_open(bytes: *const u8, len: usize, edition: usize) -> Opening;
        pub fn qollqamir_open_default(bytes: *const u8, len: usize) -> Opening;
        pub fn qollqamir_part(bytes: *const u8, len: usize, edition: usize, name: *const u8) -> Found;
        pub fn qollqamir_part_occurrence(bytes: *const u8, len: usize, edition: usize, name: *const u8, occurrence: usize) -> Found;
        pub fn qollqamir_runtime_info(bytes: *const u8, len: usize, edition: usize) -> Info;
        pub fn qollqamir_resource(bytes: *const u8, len: usize, edition: usize, i: usize) -> Resource;
        pub fn qollqamir_element(bytes: *const u8, len: usize, edition: usize, i: usize) -> Element;
        pub fn qollqamir_lengths(bytes: *const u8, len: usize, edition: usize) -> Lengths;
        pub fn qollqamir_view(bytes: *const u8, len: usize, edition: usize, kind: u32, number: usize) -> Span;
        pub fn qollqamir_section(bytes: *const u8, len: usize, edition: usize, section: u32) -> Span;
        pub fn qollqamir_psv0_open(data: *const u8, len: usize, edition: usize) -> Opening;
        pub fn qollqamir_psv0_runtime_info(data: *const u8, len: usize, edition: usize) -> Info;
        pub fn qollqamir_psv0_resource(data: *const u8, len: usize, edition: usize, i: usize) -> Resource;
        pub fn qollqamir_psv0_element(data: *const u8, len: usize, edition: usize, i: usize) -> Element;
        pub fn qollqamir_psv0_lengths(data: *const u8, len: usize, edition: usize) -> Lengths;
        pub fn qollqamir_psv0_view(data: *const u8, len: usize, edition: usize, kind: u32, number: usize) -> Span;
        pub fn qollqamir_psv0_section(data: *const u8, len: usize, edition: usize, section: u32) -> Span;
        pub fn qollqamir_open_places(bytes: *const u8, len: usize, edition: usize) -> Opened;
        pub fn qollqamir_psv0_open_places(data: *const u8, len: usize, edition: usize) -> Opened;
        pub fn qollqamir_places_runtime_info(bytes: *const u8, len: usize, places: Places) -> Info;
        pub fn qollqamir_places_resource(bytes: *const u8, len: usize, places: Places, i: usize) -> Resource;
        pub fn qollqamir_places_element(bytes: *const u8, len: usize, places: Places, i: usize) -> Element;
        pub fn qollqamir_places_lengths(bytes: *const u8, len: usize, places: Places) -> Lengths;
        pub fn qollqamir_places_view(bytes: *const u8, len: usize, places: Places, kind: u32, number: usize) -> Span;
        pub fn qollqamir_places_section(bytes: *const u8, len: usize, places: Places, section: u32) -> Span;
        pub fn qollqamir_dxil_program(data: *const u8, len: usize) -> ProgramData;
        pub fn qollqamir_program(bytes: *const u8, len: usize, edition: usize) -> ProgramReport;
        pub fn qollqamir_sg1_read(data: *const u8, len: usize) -> SignatureData;
        pub fn qollqamir_sg1_element(data: *const u8, len: usize, i: usize) -> SignatureRecord;
        pub fn qollqamir_sg1_element_alone(data: *const u8, len: usize, i: usize) -> SignatureRecord;
        pub fn qollqamir_sg1_name(data: *const u8, len: usize, i: usize) -> Span;
        pub fn qollqamir_signature(bytes: *const u8, len: usize, edition: usize, part: u32) -> SignatureReport;
        pub fn qollqamir_signature_element(bytes: *const u8, len: usize, edition: usize, part: u32, i: usize) -> SignatureRecord;
        pub fn qollqamir_signature_name(bytes: *const u8, len: usize, edition: usize, part: u32, i: usize) -> Span;
        pub fn qollqamir_signature_difference(bytes: *const u8, len: usize, edition: usize, part: u32) -> Difference;
        pub fn qollqamir_rts0_read(data: *const u8, len: usize) -> RootData;
        pub fn qollqamir_rts0_item(data: *const u8, len: usize, i: usize) -> RootRecord;
        pub fn qollqamir_rts0_item_alone(data: *const u8, len: usize, i: usize) -> RootRecord;
        pub fn qollqamir_rts0_range(data: *const u8, len: usize, i: usize, j: usize) -> RangeRecord;
        pub fn qollqamir_rts0_range_alone(data: *const u8, len: usize, i: usize, j: usize) -> RangeRecord;
        pub fn qollqamir_root_signature(bytes: *const u8, len: usize, edition: usize) -> RootReport;
        pub fn qollqamir_root_item(bytes: *const u8, len: usize, edition: usize, i: usize) -> RootRecord;
        pub fn qollqamir_root_range(bytes: *const u8, len: usize, edition: usize, i: usize, j: usize) -> RangeRecord;
        pub fn qollqamir_settings_read(bytes: *const u8, len: usize) -> Settings;
        pub fn qollqamir_settings_row(bytes: *const u8, len: usize, i: usize) -> SettingRow;
        pub fn qollqamir_settings_value(bytes: *const u8, len: usize, key: u32, version: u32) -> Setting;
        pub fn qollqamir_settings_row_alone(bytes: *const u8, len: usize, at: usize, last: u32) -> SettingRowAlone;
        pub fn qollqamir_write_psv0(
            edition: usize,
            runtime: *const u8,
            runtime_len: usize,
            resources: *const u8,
            resources_len: usize,
            strings: *const u8,
            strings_len: usize,
            indices: *const u8,
            indices_len: usize,
            elements: *const u8,
            elements_len: usize,
            masks: *const u8,
            masks_len: usize,
            out: *mut u8,
            out_len: usize,
        ) -> Written;
        pub fn qollqamir_assemble(
            names: *const u8,
            names_len: usize,
            sizes: *const u32,
            sizes_len: usize,
            data: *const u8,
            data_len: usize,
            digest: *const u8,
            digest_len: usize,
            out: *mut u8,
            out_len: usize,
        ) -> Written;
        pub fn qollqamir_replace_psv0(
            bytes: *const u8,
            len: usize,
            edition: usize,
            part: *const u8,
            part_len: usize,
            out: *mut u8,
            out_len: usize,
        ) -> Replaced;
        pub fn qollqamir_write_settings(rows: *const u32, rows_len: usize, out: *mut u8, out_len: usize) -> Written;
        pub fn qollqamir_figures_start(edition: usize) -> Figures;
        pub fn qollqamir_figures_add(figures: Figures, bytes: *const u8, len: usize) -> FiguresAdded;
        pub fn qollqamir_figures_join(figures: Figures, more: Figures) -> FiguresJoined;
    }
}

// SAFETY, of every call below: the archive's functions have no requirement beyond valid memory, and promise an answer for any bytes. Each
// pointer comes with the length of its own slice (a name with its four bytes), which stays borrowed during the call; the library reads and
// writes nothing else and keeps no pointer. `out` is borrowed mutably, so it overlaps no other slice. The answers are structs of numbers;
// the `bool` of `qollqamir_known` is 0 or 1.

macro_rules! readers {
    ($($(#[$doc:meta])* $call:ident => $function:ident($($argument:ident: $type:ty),*) -> $answer:ty;)*) => {
        $($(#[$doc])*
        pub fn $call(bytes: &[u8] $(, $argument: $type)*) -> $answer {
            // SAFETY: as said above.
            unsafe { archive::$function(bytes.as_ptr(), bytes.len() $(, $argument)*) }
        })*
    };
}

readers! {
    /// The part table alone: 1 to 9.
    table => qollqamir_table() -> Parts;
    /// The same, with the pairs of names that it compared.
    table_counted => qollqamir_table_counted() -> Parts;
    /// Opens a container: 25, 1 to 24.
    open => qollqamir_open(edition: usize) -> Opening;
    /// Opens a container at edition 3, the newest.
    open_default => qollqamir_open_default() -> Opening;
    /// The fields of the runtime record.
    runtime_info => qollqamir_runtime_info(edition: usize) -> Info;
    /// Resource record `i`, or 26.
    resource => qollqamir_resource(edition: usize, i: usize) -> Resource;
    /// Element record `i`, or 26.
    element => qollqamir_element(edition: usize, i: usize) -> Element;
    /// The lists' lengths.
    lengths => qollqamir_lengths(edition: usize) -> Lengths;
    /// A view by its kind and number, or 26.
    view => qollqamir_view(edition: usize, kind: u32, number: usize) -> Span;
    /// The bytes of a section for writing again, or 26.
    section => qollqamir_section(edition: usize, section: u32) -> Span;
    /// Opens PSV0 data alone: 25, 2, 12 to 24.
    psv0_open => qollqamir_psv0_open(edition: usize) -> Opening;
    /// As [`runtime_info`], of PSV0 data alone.
    psv0_runtime_info => qollqamir_psv0_runtime_info(edition: usize) -> Info;
    /// As [`resource`], of PSV0 data alone.
    psv0_resource => qollqamir_psv0_resource(edition: usize, i: usize) -> Resource;
    /// As [`element`], of PSV0 data alone.
    psv0_element => qollqamir_psv0_element(edition: usize, i: usize) -> Element;
    /// As [`lengths`], of PSV0 data alone.
    psv0_lengths => qollqamir_psv0_lengths(edition: usize) -> Lengths;
    /// As [`view`], of PSV0 data alone.
    psv0_view => qollqamir_psv0_view(edition: usize, kind: u32, number: usize) -> Span;
    /// As [`section`], of PSV0 data alone.
    psv0_section => qollqamir_psv0_section(edition: usize, section: u32) -> Span;
    /// As [`open`], with the places of the PSV0 sections.
    open_places => qollqamir_open_places(edition: usize) -> Opened;
    /// As [`psv0_open`], with the places of the sections.
    psv0_open_places => qollqamir_psv0_open_places(edition: usize) -> Opened;
    /// The fields of the runtime record by places, or 29.
    places_runtime_info => qollqamir_places_runtime_info(places: Places) -> Info;
    /// Resource record `i` by places, or 26, or 29.
    places_resource => qollqamir_places_resource(places: Places, i: usize) -> Resource;
    /// Element record `i` by places, or 26, or 29.
    places_element => qollqamir_places_element(places: Places, i: usize) -> Element;
    /// The lists' lengths by places; the bytes aren't looked at.
    places_lengths => qollqamir_places_lengths(places: Places) -> Lengths;
    /// A view by its kind and number and places, or 26, or 29.
    places_view => qollqamir_places_view(places: Places, kind: u32, number: usize) -> Span;
    /// The bytes of a section by places, or 26, or 29.
    places_section => qollqamir_places_section(places: Places, section: u32) -> Span;
    /// The program header and the bitcode, of the data of a DXIL part alone: 40 to 42.
    dxil_program => qollqamir_dxil_program() -> ProgramData;
    /// The report on a container's DXIL part: 25, 1 to 24, 40 to 42.
    program => qollqamir_program(edition: usize) -> ProgramReport;
    /// The data of a part ISG1, OSG1 or PSG1 alone: 43 to 45 and 52.
    sg1_read => qollqamir_sg1_read() -> SignatureData;
    /// Element `i` of such data: 43 to 45 and 52, 26.
    sg1_element => qollqamir_sg1_element(i: usize) -> SignatureRecord;
    /// Element `i` of such data by itself: 43, 26, 44 of its own bytes, 45 and 52 of its own name.
    sg1_element_alone => qollqamir_sg1_element_alone(i: usize) -> SignatureRecord;
    /// The name of element `i` of such data: 43 to 45 and 52, 26.
    sg1_name => qollqamir_sg1_name(i: usize) -> Span;
    /// The report on a container's signature part, 0 ISG1, 1 OSG1, 2 PSG1: 25, 1 to 24, 26, 43 to 45 and 52.
    signature => qollqamir_signature(edition: usize, part: u32) -> SignatureReport;
    /// Element `i` of the part, its name as a stretch of the container: those of [`signature`], then 26.
    signature_element => qollqamir_signature_element(edition: usize, part: u32, i: usize) -> SignatureRecord;
    /// The name of element `i` of the part, a stretch of the container: those of [`signature`], then 26.
    signature_name => qollqamir_signature_name(edition: usize, part: u32, i: usize) -> Span;
    /// The first named element of the part whose name is not that of the PSV0 element beside it: those of [`signature`].
    signature_difference => qollqamir_signature_difference(edition: usize, part: u32) -> Difference;
    /// The data of a part RTS0 alone: 46 to 51.
    rts0_read => qollqamir_rts0_read() -> RootData;
    /// Item `i` of such data: 46 to 51, 26.
    rts0_item => qollqamir_rts0_item(i: usize) -> RootRecord;
    /// Item `i` of such data by itself: 46, 47, 26, then 48 to 51 of its own.
    rts0_item_alone => qollqamir_rts0_item_alone(i: usize) -> RootRecord;
    /// Range `j` of item `i` of such data: 46 to 51, 26.
    rts0_range => qollqamir_rts0_range(i: usize, j: usize) -> RangeRecord;
    /// Range `j` of item `i` of such data by itself: those of [`rts0_item_alone`], then 26.
    rts0_range_alone => qollqamir_rts0_range_alone(i: usize, j: usize) -> RangeRecord;
    /// The report on a container's root signature: 25, 1 to 24, 26, 46 to 51.
    root_signature => qollqamir_root_signature(edition: usize) -> RootReport;
    /// Item `i` of it: those of [`root_signature`], then 26.
    root_item => qollqamir_root_item(edition: usize, i: usize) -> RootRecord;
    /// Range `j` of item `i` of it: those of [`root_signature`], then 26.
    root_range => qollqamir_root_range(edition: usize, i: usize, j: usize) -> RangeRecord;
    /// A settings file: 53 to 60.
    settings_read => qollqamir_settings_read() -> Settings;
    /// Row `i` of it: 53 to 60, 26.
    settings_row => qollqamir_settings_row(i: usize) -> SettingRow;
    /// The value of a key at a version: 53 to 60.
    settings_value => qollqamir_settings_value(key: u32, version: u32) -> Setting;
    /// The row at a byte by itself, after a row of version `last`: 53 to 55 and 57 to 59 of its own.
    settings_row_alone => qollqamir_settings_row_alone(at: usize, last: u32) -> SettingRowAlone;
}

/// The first part with a name, from the table alone: 1 to 9, 26.
pub fn table_part(bytes: &[u8], name: &[u8; 4]) -> Found {
    // SAFETY: as said above.
    unsafe { archive::qollqamir_table_part(bytes.as_ptr(), bytes.len(), name.as_ptr()) }
}

/// The part with a name and an occurrence, from the table alone: 1 to 9, 26.
pub fn table_part_occurrence(bytes: &[u8], name: &[u8; 4], occurrence: usize) -> Found {
    // SAFETY: as said above.
    unsafe { archive::qollqamir_table_part_occurrence(bytes.as_ptr(), bytes.len(), name.as_ptr(), occurrence) }
}

/// Whether a name is one of the 24 that are known.
pub fn known(name: &[u8; 4]) -> bool {
    // SAFETY: as said above.
    unsafe { archive::qollqamir_known(name.as_ptr()) }
}

/// The first part with a name, of a container that opens at an edition, or 26.
pub fn part(bytes: &[u8], edition: usize, name: &[u8; 4]) -> Found {
    // SAFETY: as said above.
    unsafe { archive::qollqamir_part(bytes.as_ptr(), bytes.len(), edition, name.as_ptr()) }
}

/// The part with a name and an occurrence, of a container that opens at an edition, or 26.
pub fn part_occurrence(bytes: &[u8], edition: usize, name: &[u8; 4], occurrence: usize) -> Found {
    // SAFETY: as said above.
    unsafe { archive::qollqamir_part_occurrence(bytes.as_ptr(), bytes.len(), edition, name.as_ptr(), occurrence) }
}

/// Writes PSV0 data from the bytes of its six sections: 25, 27, 2, 15 to 24, 28.
pub fn write_psv0(edition: usize, sections: [&[u8]; 6], out: &mut [u8]) -> Written {
    let [runtime, resources, strings, indices, elements, masks] = sections;
    // SAFETY: as said above.
    unsafe {
        archive::qollqamir_write_psv0(
            edition,
            runtime.as_ptr(),
            runtime.len(),
            resources.as_ptr(),
            resources.len(),
            strings.as_ptr(),
            strings.len(),
            indices.as_ptr(),
            indices.len(),
            elements.as_ptr(),
            elements.len(),
            masks.as_ptr(),
            masks.len(),
            out.as_mut_ptr(),
            out.len(),
        )
    }
}

/// Assembles a container: 27, 6, 9, 2, 28.
pub fn assemble(names: &[u8], sizes: &[u32], data: &[u8], digest: &[u8], out: &mut [u8]) -> Written {
    // SAFETY: as said above.
    unsafe {
        archive::qollqamir_assemble(
            names.as_ptr(),
            names.len(),
            sizes.as_ptr(),
            sizes.len(),
            data.as_ptr(),
            data.len(),
            digest.as_ptr(),
            digest.len(),
            out.as_mut_ptr(),
            out.len(),
        )
    }
}

/// A container with other PSV0 data: 25, 1 to 24; 2, 12 to 24, 27 of the part; 2; 28.
pub fn replace_psv0(bytes: &[u8], edition: usize, part: &[u8], out: &mut [u8]) -> Replaced {
    // SAFETY: as said above.
    unsafe { archive::qollqamir_replace_psv0(bytes.as_ptr(), bytes.len(), edition, part.as_ptr(), part.len(), out.as_mut_ptr(), out.len()) }
}

/// Writes a settings file from rows as numbers, three a row: 27, 54, 56 to 59, 28.
pub fn write_settings(rows: &[u32], out: &mut [u8]) -> Written {
    // SAFETY: as said above.
    unsafe { archive::qollqamir_write_settings(rows.as_ptr(), rows.len(), out.as_mut_ptr(), out.len()) }
}

const _: () = assert!(size_of::<SettingsRow>() == 3 * size_of::<u32>(), "a row is not its three numbers");

/// As [`write_settings`], from whole rows, which are not copied.
pub fn write_settings_rows(rows: &[SettingsRow], out: &mut [u8]) -> Written {
    // SAFETY: as said above; a row is its three numbers in order, so these are 3 x rows.len() numbers. They stand in memory, so the
    // product doesn't wrap.
    unsafe { archive::qollqamir_write_settings(rows.as_ptr().cast(), 3 * rows.len(), out.as_mut_ptr(), out.len()) }
}

/// Figures of no container, at an edition.
pub fn figures_start(edition: usize) -> Figures {
    // SAFETY: as said above.
    unsafe { archive::qollqamir_figures_start(edition) }
}

/// Figures with one container more, opened at their edition.
pub fn figures_add(figures: Figures, bytes: &[u8]) -> FiguresAdded {
    // SAFETY: as said above.
    unsafe { archive::qollqamir_figures_add(figures, bytes.as_ptr(), bytes.len()) }
}

/// Two figures joined.
pub fn figures_join(figures: Figures, more: Figures) -> FiguresJoined {
    // SAFETY: as said above.
    unsafe { archive::qollqamir_figures_join(figures, more) }
}
