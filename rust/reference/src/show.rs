//! All that an opening, its queries and the reports on its program, its signature
//! parts and its root signature show, one item a line.

use crate::{known, open, program, root, signature};
use crate::{Opening, Part, RootItem, RootSignature, SignaturePart, Stages, Text};
use std::fmt::Write;

/// The lines for a container at an edition; every line ends with a line feed.
pub fn show(bytes: &[u8], edition: usize) -> String {
    match open(bytes, edition) {
        Err(refusal) => format!("{refusal}\n"),
        Ok(opening) => {
            let mut text = String::new();
            lines(&opening, &mut text).expect("a string takes all that is written to it");
            text
        }
    }
}

fn lines(opening: &Opening, text: &mut String) -> std::fmt::Result {
    writeln!(text, "edition {} read {}", opening.file_edition, opening.edition_read)?;
    writeln!(text, "parts {}", opening.parts.len())?;
    writeln!(text, "pairs {}", opening.pairs)?;
    for (i, part) in opening.parts.iter().enumerate() {
        let (occurrence, gap) = (part.occurrence, part.gap);
        writeln!(text, "part {i} {} occurrence {occurrence} gap {gap}", part_line(part))?;
    }

    let runtime = &opening.runtime;
    writeln!(text, "stage_info {}", hex(&runtime.stage_info))?;
    let fields = [
        ("minimum_wave_lanes", runtime.minimum_wave_lanes),
        ("maximum_wave_lanes", runtime.maximum_wave_lanes),
        ("stage", runtime.stage),
        ("uses_view_id", runtime.uses_view_id),
        ("max_vertex_count", runtime.max_vertex_count),
        ("patch_vectors", runtime.patch_vectors),
        ("mesh_topology", runtime.mesh_topology),
        ("input_elements", runtime.input_elements),
        ("output_elements", runtime.output_elements),
        ("patch_elements", runtime.patch_elements),
        ("input_vectors", runtime.input_vectors),
        ("output_vectors_0", runtime.output_vectors[0]),
        ("output_vectors_1", runtime.output_vectors[1]),
        ("output_vectors_2", runtime.output_vectors[2]),
        ("output_vectors_3", runtime.output_vectors[3]),
        ("threads_x", runtime.threads[0]),
        ("threads_y", runtime.threads[1]),
        ("threads_z", runtime.threads[2]),
        ("entry_name_offset", runtime.entry_name_offset),
    ];
    for (field, number) in fields {
        writeln!(text, "{field} {}", value(number))?;
    }
    writeln!(text, "entry_name {}", value(opening.entry_name().ok().map(string)))?;

    writeln!(text, "resources {}", opening.resource_count())?;
    for i in 0..opening.resource_count() {
        let r = opening.resource(i).expect("every record below the count is there");
        writeln!(
            text,
            "resource {i} type {} space {} lower {} upper {} kind {} flags {}",
            r.resource_type,
            r.space,
            r.lower,
            r.upper,
            value(r.kind),
            value(r.flags),
        )?;
    }

    writeln!(text, "strings {}", value(opening.string_length()))?;
    writeln!(text, "indices {}", value(opening.index_count()))?;
    writeln!(text, "elements {}", value(opening.element_count()))?;
    for i in 0..opening.element_count().unwrap_or(0) {
        let e = opening.element(i).expect("every element below the count is there");
        let name = opening.string(i).expect("its name was judged good");
        let array = opening.array(i).expect("its array was judged good");
        let numbers: Vec<String> = array.iter().map(u32::to_string).collect();
        write!(text, "element {i} name {} indices [{}]", string(name), numbers.join(" "))?;
        let fields = [
            ("name_offset", e.name_offset),
            ("index_reference", e.index_reference),
            ("rows", e.rows),
            ("start_row", e.start_row),
            ("columns", e.columns),
            ("start_column", e.start_column),
            ("allocated", e.allocated),
            ("semantic", e.semantic),
            ("component", e.component),
            ("interpolation", e.interpolation),
            ("dynamic_mask", e.dynamic_mask),
            ("stream", e.stream),
            ("reserved", e.reserved),
        ];
        for (field, number) in fields {
            write!(text, " {field} {number}")?;
        }
        writeln!(text)?;
    }

    for number in 0..crate::MASKS {
        let words = match opening.mask(number) {
            Err(_) => String::from("unset"),
            Ok([]) => String::from("empty"),
            Ok(bytes) => hex(bytes),
        };
        writeln!(text, "mask {number} {words}")?;
    }
    program_lines(opening, text)?;
    for part in SignaturePart::ALL {
        signature_lines(opening, part, text)?;
    }
    root_lines(opening, text)
}

/// The program header, or its refusal.
fn program_lines(opening: &Opening, text: &mut String) -> std::fmt::Result {
    let report = match program::report(opening) {
        Err(refusal) => return writeln!(text, "program {refusal}"),
        Ok(report) => report,
    };
    let p = &report.program;
    writeln!(text, "program version {} {} stage {} words {}", p.major, p.minor, p.stage, p.words)?;
    writeln!(
        text,
        "bitcode version {} {} offset {} size {}",
        p.bitcode_major, p.bitcode_minor, p.bitcode_offset, p.bitcode_size
    )?;
    let stages = match report.stages {
        Stages::Equal => "equal",
        Stages::Different => "different",
        Stages::Unset => "unset",
    };
    writeln!(text, "stages {stages}")
}

/// A signature part and its first difference from PSV0, or its refusal. Each
/// line names the part.
fn signature_lines(opening: &Opening, part: SignaturePart, text: &mut String) -> std::fmt::Result {
    let head = format!("signature {}", name(part.name()));
    let signature = match signature::report(opening, part) {
        Err(refusal) => return writeln!(text, "{head} {refusal}"),
        Ok(signature) => signature,
    };
    writeln!(text, "{head} elements {}", signature.count)?;
    for i in 0..signature.count {
        let e = signature.element(i).expect("every element below the count is there");
        write!(text, "{head} {i} name {}", value(e.name.map(string)))?;
        let fields = [
            ("name_offset", e.name_offset),
            ("index", e.index),
            ("stream", e.stream),
            ("system_value", e.system_value),
            ("component", e.component),
            ("register", e.register),
            ("mask", e.mask),
            ("exclusive_mask", e.exclusive_mask),
            ("precision", e.precision),
        ];
        for (field, number) in fields {
            write!(text, " {field} {number}")?;
        }
        writeln!(text)?;
    }
    let first = match signature::difference(opening, part, &signature) {
        Some(i) => i.to_string(),
        None => String::from("none"),
    };
    writeln!(text, "{head} first_difference {first}")
}

/// The root signature and its items, or its refusal.
fn root_lines(opening: &Opening, text: &mut String) -> std::fmt::Result {
    let root = match root::report(opening) {
        Err(refusal) => return writeln!(text, "root_signature {refusal}"),
        Ok(root) => root,
    };
    writeln!(
        text,
        "root_signature version {} parameters {} samplers {} flags {}",
        root.version, root.parameters, root.samplers, root.flags
    )?;
    for i in 0..root.parameters as usize + root.samplers as usize {
        item_lines(&root, i, text)?;
    }
    Ok(())
}

/// An item, and the ranges of a table after it.
fn item_lines(root: &RootSignature, i: usize, text: &mut String) -> std::fmt::Result {
    match root.item(i).expect("every item below the counts is there") {
        RootItem::Constants { visibility, register, space, count } => writeln!(
            text,
            "item {i} constants visibility {visibility} register {register} space {space} \
             count {count}"
        ),
        RootItem::Descriptor { kind, visibility, register, space, flags } => writeln!(
            text,
            "item {i} descriptor type {kind} visibility {visibility} register {register} \
             space {space} flags {}",
            value(flags)
        ),
        RootItem::Table { visibility, ranges, .. } => {
            writeln!(text, "item {i} table visibility {visibility} ranges {ranges}")?;
            (0..ranges as usize).try_for_each(|j| range_line(root, i, j, text))
        }
        RootItem::Sampler {
            filter,
            address_u,
            address_v,
            address_w,
            lod_bias,
            anisotropy,
            comparison,
            border,
            least_lod,
            greatest_lod,
            register,
            space,
            visibility,
        } => writeln!(
            text,
            "item {i} sampler filter {filter} address_u {address_u} address_v {address_v} \
             address_w {address_w} lod_bias {} anisotropy {anisotropy} comparison {comparison} \
             border {border} least_lod {} greatest_lod {} register {register} space {space} \
             visibility {visibility}",
            bits(lod_bias),
            bits(least_lod),
            bits(greatest_lod)
        ),
    }
}

fn range_line(root: &RootSignature, i: usize, j: usize, text: &mut String) -> std::fmt::Result {
    let r = root.range(i, j).expect("every range below the count is there");
    writeln!(
        text,
        "item {i} range {j} type {} descriptors {} register {} space {} flags {} offset {}",
        r.kind,
        r.descriptors,
        r.register,
        r.space,
        value(r.flags),
        r.offset
    )
}

/// The bits of a float as eight lower-case hex digits.
fn bits(float: f32) -> String {
    format!("{:08x}", float.to_bits())
}

/// A part as both programs list it: name, header offset, size, and whether the
/// name is one of the 24.
pub(crate) fn part_line(part: &Part) -> String {
    let mark = if known(part.name) { "known" } else { "unknown" };
    format!("{} {} {} {mark}", name(part.name), part.offset, part.size)
}

/// A number or other text, or `unset`.
pub(crate) fn value<T: std::fmt::Display>(number: Option<T>) -> String {
    match number {
        Some(number) => number.to_string(),
        None => String::from("unset"),
    }
}

/// A part's name; bytes outside 33 to 126 as `?`.
fn name(bytes: [u8; 4]) -> String {
    bytes
        .iter()
        .map(|byte| if (33..=126).contains(byte) { char::from(*byte) } else { '?' })
        .collect()
}

/// Two lower-case hex digits a byte.
fn hex(bytes: &[u8]) -> String {
    let mut text = String::with_capacity(2 * bytes.len());
    for byte in bytes {
        for digit in [byte >> 4, byte & 15] {
            text.push(char::from(b"0123456789abcdef"[usize::from(digit)]));
        }
    }
    text
}

/// A string that is set: its bytes, and its code points.
fn string(text: Text) -> String {
    format!("{} points {}", quoted(text.bytes), text.points)
}

/// Bytes in double quotes; those from 32 to 126 but `"` and `\` as they are, any
/// other as `\x` and its two digits.
fn quoted(bytes: &[u8]) -> String {
    let mut text = String::with_capacity(bytes.len() + 2);
    text.push('"');
    for byte in bytes {
        match byte {
            b'"' | b'\\' => text.push_str(&format!("\\x{byte:02x}")),
            32..=126 => text.push(char::from(*byte)),
            _ => text.push_str(&format!("\\x{byte:02x}")),
        }
    }
    text.push('"');
    text
}
