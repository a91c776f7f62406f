//! `cargo run --release --example samples DIRECTORY [COUNT]` writes 3,000 (or
//! COUNT) made-up containers of all editions and eight stages, for
//! `compare-obj2yaml`. Reader 3 accepts them, but for some whose one fault is an
//! element's name or an entry name that isn't well formed (22 and 24). Index arrays
//! are any stretches of the table, and numbers that LLVM names are among those it
//! knows, so that LLVM reads them too; half of the string tables have letters of
//! several bytes. Of the signature parts some have names (52 among them) or sizes that
//! LLVM or the reader refuses, and some have a number without a name; so have some of
//! the root signatures, of both versions and with every kind of item. Half have PRIV
//! parts, most of these several, and of these half gaps.

#[path = "../tests/common/mod.rs"]
mod common;
use common::*;
use reference::{find_occurrence, signature_report, SignaturePart};
use std::collections::{BTreeMap, BTreeSet};

fn main() {
    let Some((directory, count)) = directory_and_count("samples", 3000) else {
        return;
    };
    let mut random = Random(0x1357_9bdf_2468_ace0);
    // Numbers of their own, which leave the other parts what they are without.
    let mut signatures = Random(0x0f1e_2d3c_4b5a_6978);
    let mut roots = Random(0x7856_3412_f0de_bc9a);
    let mut texts = Random(0x2b84_e1c9_5f30_77d6);
    let mut private = Random(0x61d0_93a7_c85e_4f2b);
    let mut kinds = BTreeMap::new();
    let (mut several, mut gaps) = (0, BTreeSet::new());
    for number in 0..count {
        let parts = sample(&mut random, &mut signatures, &mut roots, &mut texts);
        let bytes = with_private_parts(&mut private, parts);
        count_strings(&bytes, &mut kinds);
        let parts = reference::table(&bytes).expect("its table is right");
        several += usize::from(find_occurrence(&parts, *b"PRIV", 1).is_some());
        gaps.extend(parts.iter().filter(|part| part.occurrence > 0).map(|part| part.gap));
        let path = directory.join(format!("{number:04}.bin"));
        std::fs::write(path, bytes).expect("the file can be written");
    }
    if count >= 300 {
        assert_eq!(kinds.keys().collect::<Vec<_>>(), [&22, &24, &52, &LONGER]);
        assert!(6 * kinds[&LONGER] > count, "a sixth with letters of several bytes: {kinds:?}");
        assert!(4 * several > count, "a quarter with several private parts: {several}");
        assert!(gaps.is_superset(&BTreeSet::from([0, 1, 13])), "between them: {gaps:?}");
    }
}

/// A container's parts, in order.
type Parts = Vec<([u8; 4], Vec<u8>)>;

/// Stands for an accepted container with a string of fewer code points than bytes.
const LONGER: u8 = 0xff;

/// Counts a container by what it is to request 7.
fn count_strings(bytes: &[u8], kinds: &mut BTreeMap<u8, usize>) {
    let opening = match reference::open(bytes, 3) {
        Ok(opening) => opening,
        Err(refusal) => {
            assert!(refusal.number == 22 || refusal.number == 24);
            *kinds.entry(refusal.number).or_default() += 1;
            return;
        }
    };
    let names = (0..opening.element_count().unwrap_or(0)).map(|i| opening.string(i));
    if names.chain([opening.entry_name()]).flatten().any(|text| text.points < text.bytes.len()) {
        *kinds.entry(LONGER).or_default() += 1;
    }
    for part in SignaturePart::ALL {
        if signature_report(bytes, 3, part).is_err_and(|refusal| refusal.number == 52) {
            *kinds.entry(52).or_default() += 1;
        }
    }
}

/// The container of these parts, half of the time with private ones at any place.
fn with_private_parts(random: &mut Random, mut parts: Parts) -> Vec<u8> {
    let count = random.pick(&[0, 0, 0, 0, 0, 0, 1, 2, 2, 3, 3, 6]);
    for _ in 0..count {
        let length = random.pick(&[0, 1, 3, 4, 4, 8, 20]);
        let at = random.below(parts.len() + 1);
        parts.insert(at, (*b"PRIV", random.bytes(length)));
    }
    let gaps = count > 0 && random.one_in(2);
    let parts: Vec<(&[u8; 4], &[u8])> =
        parts.iter().map(|(name, data)| (name, &data[..])).collect();
    spread(&parts, || {
        let length = if gaps { random.pick(&[0, 0, 0, 1, 4, 4, 13, 40]) } else { 0 };
        random.bytes(length)
    })
}

fn sample(
    random: &mut Random,
    signatures: &mut Random,
    roots: &mut Random,
    texts: &mut Random,
) -> Parts {
    let stage = random.pick(&[0u8, 1, 2, 3, 4, 5, 13, 14]);
    let size = random.pick(&[24, 28, 36, 40, 48, 52, 52, 56]);
    let mut psv0 = Psv0::of_size(size);
    psv0.runtime = random.bytes(size);
    let sizes: &[u32] = if size < 48 { &[16, 16, 24] } else { &[16, 24, 24, 28] };
    psv0.resource_size = random.pick(sizes);
    for _ in 0..random.below(4) {
        let mut record = words(&[random.below(10) as u32]);
        record.extend(random.bytes(12));
        if psv0.resource_size >= 24 {
            record.extend(words(&[random.below(19) as u32, random.below(2) as u32]));
        }
        record.extend(random.bytes(psv0.resource_size as usize - record.len()));
        psv0.resources.extend(record);
    }
    if size >= 36 {
        later_sections(random, texts, stage, &mut psv0);
    }
    if random.one_in(4) {
        psv0.after = random.bytes(4);
    }
    // The program header that LLVM wants: version, stage, size in words, magic,
    // DXIL version, where the code starts and how long it is.
    let mut dxil = vec![0u8; 24];
    dxil[0] = 0x60;
    dxil[2] = stage;
    dxil[4] = 6;
    dxil[8..12].copy_from_slice(b"DXIL");
    dxil[13] = 1;
    dxil[16] = 16;
    let good = psv0.bytes();
    let opening = reference::open_psv0(&good, 3).expect("accepted");
    if size >= 36 && texts.one_in(16) {
        spoil_string(texts, &mut psv0);
    }
    let mut parts = vec![(*b"DXIL", dxil), (*b"PSV0", psv0.bytes())];
    for part in SignaturePart::ALL {
        if !signatures.one_in(4) {
            let list = part.list(&opening.runtime);
            let names: Vec<&[u8]> = list.map(|i| opening.string(i).expect("good").bytes).collect();
            parts.push((part.name(), signature(signatures, texts, &names)));
        }
    }
    if !roots.one_in(4) {
        parts.push((*b"RTS0", root(roots)));
    }
    parts
}

/// An element's name or the entry name that isn't well formed, and no other fault.
fn spoil_string(random: &mut Random, psv0: &mut Psv0) {
    let at = ill_formed_place(random, &mut psv0.strings) as u32;
    let elements = psv0.elements.len() / psv0.element_size as usize;
    if psv0.runtime.len() >= 52 && random.one_in(2) {
        put4(&mut psv0.runtime, 48, at);
    } else if elements > 0 {
        put4(&mut psv0.elements, random.below(elements) * psv0.element_size as usize, at);
    }
}

/// The data of a signature part, most names as in PSV0's list.
fn signature(random: &mut Random, texts: &mut Random, names: &[&[u8]]) -> Vec<u8> {
    let count = random.below(5);
    let gap = random.pick(&[0, 0, 0, 1, 4]);
    let end = 8 + gap + 32 * count;
    let mut data = words(&[count as u32, 8 + gap as u32]);
    data.extend(random.bytes(gap));
    let mut strings = Vec::new();
    for i in 0..count {
        let at = (end + strings.len()) as u32;
        match names.get(i) {
            Some(name) if !random.one_in(8) => strings.extend_from_slice(name),
            _ => {
                strings.extend((0..random.below(4)).map(|_| random.pick(b"abcXYZ_9")));
                match texts.below(24) {
                    0 => strings.extend_from_slice(texts.pick(&ILL_FORMED)),
                    1..=8 => strings.extend(multibyte(texts)),
                    _ => {}
                }
            }
        }
        strings.push(0);
        let any = (random.next() >> 32) as u32;
        // The numbers that LLVM has names for, and at times any.
        let mut number = |last: u32, more: &[u32]| {
            let known: Vec<u32> = (0..=last).chain(more.iter().copied()).collect();
            if random.one_in(32) {
                random.below(256) as u32
            } else {
                random.pick(&known)
            }
        };
        let system_value = number(16, &[23, 24, 25, 64, 65, 66, 67, 68, 69, 70]);
        let (component, precision) = (number(9, &[]), number(5, &[0xf0, 0xf1]));
        data.extend(words(&[any % 4, at, any, system_value, component, any >> 7]));
        data.extend(random.bytes(4));
        data.extend(words(&[precision]));
    }
    data.extend(strings);
    if count > 0 && random.one_in(4) {
        spoil(random, &mut data, count, end);
    }
    data
}

/// One field or the length as LLVM or the reader doesn't take it.
fn spoil(random: &mut Random, data: &mut Vec<u8>, count: usize, end: usize) {
    let length = data.len() as u32;
    let name_at = end - 32 * (1 + random.below(count)) + 4;
    match random.below(8) {
        0 => put4(data, name_at, 0),
        1 => put4(data, name_at, 1 + random.below(end - 1) as u32),
        2 => put4(data, name_at, length),
        3 => put4(data, name_at, length + 1 + random.below(9) as u32),
        4 => {
            // Only the last name has lost its zero.
            data.pop();
            data.extend_from_slice(b"ab");
        }
        5 => put4(data, 4, length - 32 * count as u32 + 1),
        6 => put4(data, 0, 1 << 27 | count as u32),
        _ if random.one_in(2) => data.truncate(random.below(8)),
        _ => data.truncate(random.below(end)),
    }
}

/// The data of a root signature as compilers lay it out: parameters, their data
/// with the ranges of each table after it, samplers. At times something is
/// elsewhere, or not as LLVM or the reader takes it.
fn root(random: &mut Random) -> Vec<u8> {
    let version = random.pick(&[1u32, 2]);
    let (parameters, samplers) = (random.below(6), random.below(3));
    let sampler_bytes: Vec<u8> = (0..samplers).flat_map(|_| sampler(random)).collect();
    let samplers_first = random.one_in(24);
    let mut rest = if samplers_first { sampler_bytes.clone() } else { Vec::new() };
    let gap = random.pick(&[0, 0, 0, 1, 4]);
    rest.extend(random.bytes(gap));
    let start = 24 + 12 * parameters;
    let mut headers = Vec::new();
    for _ in 0..parameters {
        let kind = random.below(5) as u32;
        let at = (start + rest.len()) as u32;
        headers.extend(words(&[kind, known(random, 0..8), at]));
        rest.extend(parameter(random, version, kind, at));
    }
    let samplers_at = if samplers_first { start } else { start + rest.len() };
    if !samplers_first {
        rest.extend(sampler_bytes);
    }
    let numbers = [version, parameters as u32, 24, samplers as u32, samplers_at as u32];
    let mut data = words(&numbers);
    data.extend(words(&[flags(random, 0xfff)]));
    data.extend(headers);
    data.extend(rest);
    if random.one_in(4) {
        spoil_root(random, &mut data);
    }
    data
}

/// The data of a parameter of that type at that place.
fn parameter(random: &mut Random, version: u32, kind: u32, at: u32) -> Vec<u8> {
    match kind {
        0 => table(random, version, at),
        1 => random.bytes(12),
        _ => {
            let mut data = random.bytes(8);
            if version == 2 {
                data.extend(words(&[flags(random, 0xe)]));
            }
            data
        }
    }
}

/// The data of a table at that place, and its ranges. At times the ranges are
/// said to be what stands before them.
fn table(random: &mut Random, version: u32, at: u32) -> Vec<u8> {
    let count = random.below(4);
    let first = if random.one_in(24) { at - 20 } else { at + 8 };
    let mut data = words(&[count as u32, first]);
    for _ in 0..count {
        data.extend(words(&[known(random, 0..4)]));
        data.extend(random.bytes(12));
        if version == 2 {
            data.extend(words(&[flags(random, 0x1_000f)]));
        }
        let any = random.below(1 << 32) as u32;
        data.extend(words(&[random.pick(&[u32::MAX, 0, any])]));
    }
    data
}

/// A static sampler.
fn sampler(random: &mut Random) -> Vec<u8> {
    let filters = [0, 1, 4, 5, 0x10, 0x11, 0x14, 0x15, 0x55];
    let filter = random.pick(&filters) | (random.below(4) as u32) << 7;
    let mut data = words(&[filter, known(random, 1..6), known(random, 1..6), known(random, 1..6)]);
    data.extend(words(&[float(random)]));
    data.extend(random.bytes(4));
    data.extend(words(&[known(random, 1..9), known(random, 0..5), float(random), float(random)]));
    data.extend(random.bytes(8));
    data.extend(words(&[known(random, 0..8)]));
    data
}

/// A number that LLVM has a name for, and at times the next or any.
fn known(random: &mut Random, names: std::ops::Range<u32>) -> u32 {
    let any = random.below(1 << 32) as u32;
    if random.one_in(200) {
        return random.pick(&[names.end, any]);
    }
    names.start + any % (names.end - names.start)
}

/// Flags of which LLVM knows these, and at times any.
fn flags(random: &mut Random, names: u32) -> u32 {
    let any = random.below(1 << 32) as u32;
    if random.one_in(32) {
        any
    } else {
        any & names
    }
}

/// The bits of a float: zeros, ones, subnormals, infinities, NaNs of both kinds,
/// of both signs, and any.
fn float(random: &mut Random) -> u32 {
    let any = random.below(1 << 32) as u32;
    let bits =
        [0, 0x3f80_0000, 1, 0x007f_ffff, 0x7f7f_ffff, 0x7f80_0000, 0x7fa0_0001, 0x7fc0_0000, any];
    random.pick(&bits) ^ (any & 1) << 31
}

/// One field or the length of a root signature as LLVM or the reader doesn't take
/// it.
fn spoil_root(random: &mut Random, data: &mut Vec<u8>) {
    let number = |data: &[u8], at: usize| u32::from_le_bytes(data[at..at + 4].try_into().unwrap());
    let length = data.len();
    let count = number(data, 4);
    let parameters: Vec<usize> = (0..count as usize).map(|i| 24 + 12 * i).collect();
    let tables: Vec<usize> =
        parameters.iter().copied().filter(|at| number(data, *at) == 0).collect();
    match random.below(9) {
        0 => put4(data, 0, random.pick(&[0, 3, 4, u32::MAX])),
        1 => put4(data, 4, random.pick(&[count + 1, u32::MAX])),
        2 => put4(data, 12, random.pick(&[3, 1 << 28, u32::MAX])),
        3 => put4(data, 16, (length - random.below(52)) as u32),
        4 => data.truncate(random.below(24)),
        5 => data.truncate(24 + random.below(length - 23)),
        6 | 7 if !tables.is_empty() => {
            // Its range count or their offset.
            let at = number(data, random.pick(&tables) + 8) as usize + random.pick(&[0, 4, 4]);
            put4(data, at, random.pick(&[5, length as u32, length as u32 + 1, u32::MAX]));
        }
        8 if count > 0 => put4(data, random.pick(&parameters), random.pick(&[5, 6, u32::MAX])),
        _ if count > 0 => {
            let edges = [length - 12, length - 11, length - 8, length - 7, length];
            put4(data, random.pick(&parameters) + 8, random.pick(&edges) as u32);
        }
        _ => {}
    }
}

fn later_sections(random: &mut Random, texts: &mut Random, stage: u8, psv0: &mut Psv0) {
    let runtime = &mut psv0.runtime;
    runtime[24] = stage;
    runtime[25] = random.below(2) as u8;
    runtime[26] = random.pick(&[0, 1, 8, 9, 17]);
    for count in &mut runtime[28..32] {
        *count = random.below(4) as u8;
    }
    runtime[32] = random.pick(&[0, 1, 8, 9, 17]);
    for vectors in &mut runtime[33..36] {
        *vectors = if stage == 2 { random.pick(&[0, 1, 9]) } else { 0 };
    }
    psv0.strings = (0..16).map(|_| random.pick(b"\0abcXYZ_9")).collect();
    psv0.strings[15] = 0;
    if texts.one_in(2) {
        let length = 16 + 4 * texts.below(9);
        psv0.strings = strings(texts, length, b"abcXYZ_9");
    }
    let good = good_places(&psv0.strings);
    // At times a table that has room for the most rows.
    let count = if random.one_in(8) { 255 + random.below(46) } else { random.below(13) };
    psv0.indices = (0..count).map(|_| (random.next() >> 32) as u32).collect();
    let elements: usize = psv0.runtime[28..31].iter().map(|count| usize::from(*count)).sum();
    psv0.element_size = random.pick(&[16, 16, 20]);
    for _ in 0..elements {
        // i + rows is at most N, and at times N itself: rows 0 at i = N, too.
        let i = random.below(count + 1);
        let most = (count - i).min(255);
        let rows = if random.one_in(4) { most } else { random.below(most + 1) };
        let mut record = words(&[random.pick(&good) as u32, i as u32]);
        record.push(rows as u8);
        // Start row, columns and so on, semantic, component, interpolation,
        // dynamic mask and stream, reserved.
        for bound in [256, 256, 31, 10, 9, 256, 256] {
            record.push(random.below(bound) as u8);
        }
        record.extend(random.bytes(psv0.element_size as usize - 16));
        psv0.elements.extend(record);
    }
    if psv0.runtime.len() >= 52 {
        put4(&mut psv0.runtime, 48, random.pick(&good) as u32);
    }
    // More than any of these has, then as much as the reader takes.
    psv0.masks = random.bytes(64 * 1024);
    let bytes = psv0.bytes();
    let length = reference::open_psv0(&bytes, 3).expect("accepted").handed.masks.len();
    psv0.masks.truncate(length);
}
