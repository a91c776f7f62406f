//! What must hold of the library's answers among themselves: older and newer editions, widenings, round trips.

use std::fmt::Debug;

use qollqamir::raw;

use crate::compare::{assemble, same, shown, write, Check, Hits, Mismatch, Reader, CONTAINER, PSV0};
use crate::make::{container, edition_of, get4, Parts, Pieces, SIZES};
use crate::random::Random;
use crate::repeats::PRIV;

/// Lists longer than this are compared up to it.
const LONG: usize = 24;

fn list_lengths(reader: &Reader, bytes: &[u8], edition: usize) -> (usize, usize) {
    let lengths = (reader.lengths)(bytes, edition);
    ((lengths.resources.value as usize).min(LONG), (lengths.elements.value as usize).min(LONG))
}

/// An older reader's refusal is the newer one's; what the older shows set, the newer shows the same.
pub fn editions(reader: &Reader, bytes: &[u8]) -> Check {
    let verdicts = [0, 1, 2, 3].map(|edition| (reader.open)(bytes, edition).verdict);
    for newer in 1..4 {
        let older = newer - 1;
        if verdicts[older].number != 0 {
            same!(bytes, verdicts[newer], verdicts[older], "{} editions {older} and {newer}", reader.name);
        }
    }
    let Some(newest) = (0..4).rev().find(|edition| verdicts[*edition].number == 0) else {
        return Ok(());
    };
    let (resources, elements) = list_lengths(reader, bytes, newest);
    let values: Vec<_> = (0..=newest).map(|edition| shown(reader, bytes, edition, resources, elements)).collect();
    for newer in 1..=newest {
        for (i, (old, new)) in values[newer - 1].iter().zip(&values[newer]).enumerate() {
            if old.is_some() {
                same!(bytes, new, old, "{} value {i} of editions {} and {newer}", reader.name, newer - 1);
            }
        }
    }
    Ok(())
}

/// A report but for its stages, with the bitcode's bytes in the place of where they lie.
fn reported<'a>(bytes: &'a [u8], report: &raw::ProgramReport) -> (raw::Verdict, raw::ProgramHeader, &'a [u8]) {
    (report.verdict, report.header, &bytes[report.start..report.start + report.len])
}

/// Where the newer reader opens the bytes, both report the same verdict, header and bitcode, and a stage that the older shows is the
/// newer's; what the newer's report accepts, the older's accepts. Where the older doesn't open them, the newer's report gives its refusal.
pub fn programs(bytes: &[u8]) -> Check {
    for newer in 1..4 {
        let older = newer - 1;
        let (old, new) = (raw::program(bytes, older), raw::program(bytes, newer));
        let opened = raw::open(bytes, older).verdict;
        if opened.number != 0 {
            same!(bytes, new.verdict, opened, "programs of editions {older} and {newer}, refused by opening");
        }
        if new.verdict.number == 0 {
            same!(bytes, old.verdict.number, 0, "programs of editions {older} and {newer}, accepted");
        }
        if raw::open(bytes, newer).verdict.number != 0 {
            continue;
        }
        same!(bytes, reported(bytes, &new), reported(bytes, &old), "programs of editions {older} and {newer}");
        if old.psv0_stage.set != 0 {
            same!(bytes, (new.psv0_stage, new.stages), (old.psv0_stage, old.stages), "stages of editions {older} and {newer}");
        }
    }
    Ok(())
}

/// Where the newer of two readers opens the bytes, both report the same; where the older doesn't, the newer's report gives its refusal.
fn agree<T: PartialEq + Debug>(
    bytes: &[u8],
    openings: &[raw::Opening; 4],
    reports: &[(raw::Verdict, T); 4],
    what: std::fmt::Arguments,
) -> Check {
    for newer in 1..4 {
        let older = newer - 1;
        if openings[older].verdict.number != 0 {
            same!(bytes, reports[newer].0, openings[older].verdict, "{what} of editions {older} and {newer}, refused by opening");
        }
        if openings[newer].verdict.number == 0 {
            same!(bytes, reports[newer], reports[older], "{what} of editions {older} and {newer}");
        }
    }
    Ok(())
}

/// Of so many elements of a signature part the names are compared.
const NAMES: usize = 3;

/// A report on a signature part with the data's bytes in the place of where they lie, and the first names with their code points.
#[derive(Debug, PartialEq)]
struct Signature<'a> {
    count: usize,
    data: &'a [u8],
    names: Vec<(u32, &'a [u8], usize)>,
}

fn signature(bytes: &[u8], edition: usize, part: u32) -> (raw::Verdict, Signature<'_>) {
    let raw::SignatureReport { verdict, count, start, len } = raw::signature(bytes, edition, part);
    let names = (0..count.min(NAMES)).map(|i| raw::signature_element(bytes, edition, part, i));
    let names = names.map(|e| (e.named, &bytes[e.name_start..e.name_start + e.name_len], e.name_points)).collect();
    (verdict, Signature { count, data: &bytes[start..start + len], names })
}

/// The report on the root signature, likewise.
fn root(bytes: &[u8], edition: usize) -> (raw::Verdict, ([u32; 4], &[u8])) {
    let raw::RootReport { verdict, version, parameters, samplers, flags, start, len } = raw::root_signature(bytes, edition);
    (verdict, ([version, parameters, samplers, flags], &bytes[start..start + len]))
}

/// Readers agree on a signature part, its names' code points among the rest, and on its first difference where both read edition 1 or more.
/// An element by itself is what the report shows.
pub fn signatures(bytes: &[u8], openings: &[raw::Opening; 4]) -> Check {
    for part in 0..3 {
        let reports = [0, 1, 2, 3].map(|edition| signature(bytes, edition, part));
        agree(bytes, openings, &reports, format_args!("signatures {part}"))?;
        let differences = [0, 1, 2, 3].map(|edition| raw::signature_difference(bytes, edition, part));
        for newer in 1..4 {
            let older = newer - 1;
            if openings[older].verdict.number != 0 {
                same!(bytes, differences[newer].verdict, openings[older].verdict, "differences {part} of {older} and {newer}, refused");
            } else if openings[newer].verdict.number == 0 && openings[older].edition_read > 0 {
                same!(bytes, differences[newer], differences[older], "differences {part} of editions {older} and {newer}");
            }
        }
        let Signature { count, data, .. } = reports[0].1;
        let start = raw::signature(bytes, 0, part).start;
        for i in 0..count.min(LONG) {
            let mut alone = raw::sg1_element_alone(data, i);
            if alone.named != 0 {
                alone.name_start += start;
            }
            same!(bytes, alone, raw::signature_element(bytes, 0, part, i), "element {i} of part {part} by itself");
        }
    }
    Ok(())
}

/// Readers agree on the root signature. An item and a range by themselves are what the report shows.
pub fn roots(bytes: &[u8], openings: &[raw::Opening; 4]) -> Check {
    let reports = [0, 1, 2, 3].map(|edition| root(bytes, edition));
    agree(bytes, openings, &reports, format_args!("root signatures"))?;
    let (_, ([_, parameters, samplers, _], data)) = reports[0];
    for i in 0..(parameters as usize + samplers as usize).min(LONG) {
        let alone = raw::rts0_item_alone(data, i);
        same!(bytes, alone, raw::root_item(bytes, 0, i), "item {i} by itself");
        if alone.ranges > 0 {
            let last = alone.ranges as usize - 1;
            same!(bytes, raw::rts0_range_alone(data, i, last), raw::root_range(bytes, 0, i, last), "range {last} of item {i} by itself");
        }
    }
    Ok(())
}

/// Readers agree on the PRIV parts, each by its occurrence, and on one past the last. Answers are those of an opening where it refuses.
pub fn privates(bytes: &[u8], openings: &[raw::Opening; 4], hits: &mut Hits) -> Check {
    let table = raw::table(bytes);
    let count = table.names.iter().filter(|name| name.to_le_bytes() == PRIV).count();
    for occurrence in 0..=count {
        let found = [0, 1, 2, 3].map(|edition| raw::part_occurrence(bytes, edition, &PRIV, occurrence));
        let reports = found.map(|found| (found.verdict, found));
        agree(bytes, openings, &reports, format_args!("PRIV part {occurrence}"))?;
    }
    if count > 1 {
        hits.entries.agreed(openings);
    }
    Ok(())
}

/// Every part of a widening but PSV0 is found by its name and occurrence as in the narrow container, and has the same data; one past the
/// last PRIV part there is none.
fn kept(bytes: &[u8], widened: &[u8], parts: &Parts, k: usize) -> Check {
    let occurrence = |i: usize| parts[..i].iter().filter(|part| part.0 == parts[i].0).count();
    for (i, (name, data)) in parts.iter().enumerate() {
        let occurrence = occurrence(i);
        for container in [bytes, widened] {
            let found = raw::part_occurrence(container, k, name, occurrence);
            same!(container, (found.verdict.number, found.number), (0, i), "part {name:?} {occurrence} of a widening at {k}");
            let shown = &container[found.offset + 8..][..found.size];
            same!(container, shown == data || name == b"PSV0", true, "data of part {name:?} {occurrence} of a widening at {k}");
        }
    }
    same!(widened, raw::table_counted(widened).pairs, raw::table_counted(bytes).pairs, "pairs of a widening at {k}");
    let count = parts.iter().filter(|part| part.0 == PRIV).count();
    for container in [bytes, widened] {
        let past = raw::part_occurrence(container, k, &PRIV, count).verdict;
        same!(container, past, raw::Verdict { number: 26, place: 0 }, "PRIV part {count} of a widening at {k}");
    }
    Ok(())
}

/// Makes a widening of pieces that reader `k` accepts, and looks whether the same is shown. Answers whether there was one to make.
pub fn widening(random: &mut Random, pieces: &Pieces, parts: &Parts, bytes: &[u8], k: usize) -> Result<bool, Mismatch> {
    if raw::open(bytes, k).verdict.number != 0 || pieces.runtime.len() < SIZES[k] {
        return Ok(false);
    }
    let mut wide = pieces.clone();
    let more = 4 * random.below(8);
    wide.runtime.extend_from_slice(&random.bytes(more));
    if pieces.resource_size >= 24 || k < 2 {
        wide.resource_size += 4 * random.below(5);
        wide.resources = pieces.stretched(&pieces.resources, pieces.resource_size, wide.resource_size, random);
    }
    if k > 0 {
        wide.element_size += 4 * random.below(5);
        wide.elements = pieces.stretched(&pieces.elements, pieces.element_size, wide.element_size, random);
    }
    if random.one_in(2) {
        let after = random.below(40);
        wide.after = random.bytes(after);
    }
    let mut psv0 = wide.bytes().0;
    if edition_of(pieces.runtime.len()) == 0 || (k == 0 && random.one_in(2)) {
        // Reader 0 stops after the resources, and where the narrow record had no later sections the wide one may have none either.
        let mut first = wide.clone();
        first.runtime.truncate(32);
        first.after.clear();
        let end = first.bytes().0.len() - first.runtime.len() + wide.runtime.len();
        psv0.truncate(end);
        psv0.extend_from_slice(&wide.after);
    }
    let wide_parts: Parts = parts.iter().map(|(name, data)| (*name, if name == b"PSV0" { psv0.clone() } else { data.clone() })).collect();
    let widened = container(random, &wide_parts).0;
    same!(widened, raw::open(&widened, k).verdict, raw::open(bytes, k).verdict, "widening at {k}");
    let (resources, elements) = list_lengths(&CONTAINER, bytes, k);
    let narrow = shown(&CONTAINER, bytes, k, resources, elements);
    same!(widened, shown(&CONTAINER, &widened, k, resources, elements), narrow, "shown of a widening at {k}");
    let (narrow, wide) = (raw::program(bytes, k), raw::program(&widened, k));
    same!(widened, reported(&widened, &wide), reported(bytes, &narrow), "program of a widening at {k}");
    same!(widened, (wide.psv0_stage, wide.stages), (narrow.psv0_stage, narrow.stages), "stages of a widening at {k}");
    for part in 0..3 {
        same!(widened, signature(&widened, k, part), signature(bytes, k, part), "signature {part} of a widening at {k}");
        let differences = (raw::signature_difference(&widened, k, part), raw::signature_difference(bytes, k, part));
        same!(widened, differences.0, differences.1, "difference {part} of a widening at {k}");
    }
    same!(widened, root(&widened, k), root(bytes, k), "root signature of a widening at {k}");
    kept(bytes, &widened, parts, k)?;
    Ok(true)
}

/// The sections that an opening hands out.
fn handed<'a>(reader: &Reader, bytes: &'a [u8], edition: usize) -> [&'a [u8]; 6] {
    [0, 1, 2, 3, 4, 5].map(|section| {
        let span = (reader.section)(bytes, edition, section);
        &bytes[span.start..span.start + span.len]
    })
}

/// Hands out, writes, assembles, opens, hands out and writes again. Answers whether the PSV0 data was in plain form.
pub fn round_trip(random: &mut Random, psv0: &[u8], edition: usize, hits: &mut Hits) -> Result<bool, Mismatch> {
    let opening = raw::psv0_open(psv0, edition);
    if opening.verdict.number != 0 {
        return Ok(false);
    }
    let sections = handed(&PSV0, psv0, edition);
    let read = opening.edition_read;
    let room = random.bytes(psv0.len() + 64);
    let plain = reference::plain(psv0);
    let written = match write(read, sections, &room, hits)? {
        Ok(written) => written,
        Err(number) => {
            same!(psv0, plain && edition == 3, false, "plain form is written again, refused {number}");
            return Ok(false);
        }
    };
    if plain && edition == 3 {
        same!(psv0, written[..], *psv0, "plain form written again");
    }
    same!(written, reference::plain(&written), true, "a writer's result is in plain form");

    let data = [b"code".as_slice(), &written].concat();
    let sizes = [4, written.len() as u32];
    let room = random.bytes(data.len() + 100);
    let Ok(made) = assemble(b"DXILPSV0", &sizes, &data, &random.bytes(16), &room, hits)? else {
        return Err(Mismatch { what: "assembly refused".to_string(), bytes: data });
    };
    let opening = raw::open(&made, 3);
    same!(made, (opening.verdict.number, opening.parts), (0, 2), "an assembled container opens");
    same!(made, (opening.file_edition, opening.edition_read), (read, read), "an assembled container's editions");
    same!(made, handed(&CONTAINER, &made, 3), sections, "an assembled container hands out what was given");
    let Ok(again) = write(read, handed(&CONTAINER, &made, 3), &random.bytes(written.len()), hits)? else {
        return Err(Mismatch { what: "second writing refused".to_string(), bytes: made });
    };
    same!(made, again, written, "written twice");
    Ok(plain)
}

/// The parts of a container, in order, where it has a table.
pub fn reassembled(random: &mut Random, bytes: &[u8], hits: &mut Hits) -> Check {
    let Ok(parts) = reference::table(bytes) else {
        return Ok(());
    };
    let names: Vec<u8> = parts.iter().flat_map(|part| part.name).collect();
    let sizes: Vec<u32> = parts.iter().map(|part| part.size as u32).collect();
    let data: Vec<u8> = parts.iter().flat_map(|part| part.data(bytes)).copied().collect();
    let room = random.bytes(bytes.len() + 4 * parts.len() + 8);
    let Ok(made) = assemble(&names, &sizes, &data, &bytes[4..20], &room, hits)? else {
        return Err(Mismatch { what: "assembling an accepted table again is refused".to_string(), bytes: bytes.to_vec() });
    };
    same!(made, made[4..20], bytes[4..20], "digest");
    let table = raw::table(&made);
    same!(made, (table.verdict.number, table.count), (0, parts.len()), "table of an assembled container");
    same!(made, raw::table_counted(&made).pairs, raw::table_counted(bytes).pairs, "pairs of an assembled container");
    let mut end = 32 + 4 * parts.len();
    for (i, part) in parts.iter().enumerate() {
        let offset = end.next_multiple_of(4);
        same!(made, made[end..offset].iter().all(|byte| *byte == 0), true, "filler before part {i}");
        let entry = (table.names[i], table.offsets[i] as usize, table.sizes[i] as usize);
        same!(made, entry, (u32::from_le_bytes(part.name), offset, part.size), "part {i}");
        let numbers = (u64::from(table.occurrences[i]), table.gaps[i] as usize);
        same!(made, numbers, (part.occurrence, offset - end), "occurrence and gap of part {i}");
        end = offset + 8 + part.size;
        same!(made, made[offset + 8..end], *part.data(bytes), "data of part {i}");
    }
    same!(made, (made.len(), get4(&made, 24) as usize), (end, end), "length");
    hits.entries.again(&parts);
    Ok(())
}
