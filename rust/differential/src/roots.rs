//! The calls on root signature data and on a container's root signature against the independent reader, answer by answer.

use std::ops::Range;

use qollqamir::raw;
use reference::{Opening, Refusal, RootItem, RootRange, RootSignature};

use crate::compare::{field, in_turn, numbers, refusal_of, same, start_in, verdict_of, Call, Check, Hits, Seen, LONG};
use crate::make::{data_size, get4, range_size, PARAMETER, ROOT_HEADER, SAMPLER};
use crate::random::Random;

const NO_ITEM: raw::RootRecord = raw::RootRecord {
    verdict: raw::Verdict { number: 0, place: 0 },
    parameter_type: raw::Field { set: 0, value: 0 },
    visibility: 0,
    register_number: 0,
    space: 0,
    count: 0,
    ranges: 0,
    ranges_offset: 0,
    flags: raw::Field { set: 0, value: 0 },
    filter: 0,
    address_u: 0,
    address_v: 0,
    address_w: 0,
    lod_bias: 0,
    anisotropy: 0,
    comparison: 0,
    border: 0,
    least_lod: 0,
    greatest_lod: 0,
};

/// The plain record of an item: what its kind lacks is 0 and unset, and floats are bits.
fn record_of(answer: Result<RootItem, Refusal>) -> raw::RootRecord {
    let verdict = verdict_of(&answer);
    let Ok(item) = answer else {
        return raw::RootRecord { verdict, ..NO_ITEM };
    };
    match item {
        RootItem::Constants { visibility, register, space, count } => {
            raw::RootRecord { parameter_type: field(Some(1)), visibility, register_number: register, space, count, ..NO_ITEM }
        }
        RootItem::Descriptor { kind, visibility, register, space, flags } => raw::RootRecord {
            parameter_type: field(Some(kind)),
            visibility,
            register_number: register,
            space,
            flags: field(flags),
            ..NO_ITEM
        },
        RootItem::Table { visibility, ranges, offset } => {
            raw::RootRecord { parameter_type: field(Some(0)), visibility, ranges, ranges_offset: offset, ..NO_ITEM }
        }
        RootItem::Sampler {
            filter,
            address_u,
            address_v,
            address_w,
            lod_bias,
            anisotropy,
            comparison,
            border,
            least_lod,
            greatest_lod,
            register,
            space,
            visibility,
        } => raw::RootRecord {
            visibility,
            register_number: register,
            space,
            filter,
            address_u,
            address_v,
            address_w,
            lod_bias: lod_bias.to_bits(),
            anisotropy,
            comparison,
            border,
            least_lod: least_lod.to_bits(),
            greatest_lod: greatest_lod.to_bits(),
            ..NO_ITEM
        },
    }
}

fn safe_of(item: RootItem) -> qollqamir::RootItem {
    match item {
        RootItem::Constants { visibility, register, space, count } => qollqamir::RootItem::Constants { visibility, register, space, count },
        RootItem::Descriptor { kind, visibility, register, space, flags } => {
            qollqamir::RootItem::Descriptor { parameter_type: kind, visibility, register, space, flags }
        }
        RootItem::Table { visibility, ranges, offset } => qollqamir::RootItem::Table { visibility, ranges, offset },
        RootItem::Sampler {
            filter,
            address_u,
            address_v,
            address_w,
            lod_bias,
            anisotropy,
            comparison,
            border,
            least_lod,
            greatest_lod,
            register,
            space,
            visibility,
        } => qollqamir::RootItem::Sampler {
            filter,
            address_u,
            address_v,
            address_w,
            lod_bias,
            anisotropy,
            comparison,
            border,
            least_lod,
            greatest_lod,
            register,
            space,
            visibility,
        },
    }
}

/// A safe item with its floats taken out, and their bits: a NaN is not equal to itself, and -0 is to 0.
fn by_bits(mut item: qollqamir::RootItem) -> (qollqamir::RootItem, [u32; 3]) {
    let mut bits = [0; 3];
    if let qollqamir::RootItem::Sampler { lod_bias, least_lod, greatest_lod, .. } = &mut item {
        bits = [lod_bias, least_lod, greatest_lod].map(|float| std::mem::take(float).to_bits());
    }
    (item, bits)
}

fn safe_bits(item: RootItem) -> (qollqamir::RootItem, [u32; 3]) {
    by_bits(safe_of(item))
}

fn range_of(answer: Result<RootRange, Refusal>) -> raw::RangeRecord {
    let verdict = verdict_of(&answer);
    let r = answer.ok();
    let of = |get: fn(RootRange) -> u32| r.map_or(0, get);
    raw::RangeRecord {
        verdict,
        range_type: of(|r| r.kind),
        descriptors: of(|r| r.descriptors),
        base_register: of(|r| r.register),
        space: of(|r| r.space),
        flags: field(r.and_then(|r| r.flags)),
        offset: of(|r| r.offset) as usize,
    }
}

fn safe_range(range: RootRange) -> qollqamir::RootRange {
    qollqamir::RootRange {
        range_type: range.kind,
        descriptors: range.descriptors,
        base_register: range.register,
        space: range.space,
        flags: range.flags,
        offset: range.offset,
    }
}

fn items(root: &RootSignature) -> usize {
    root.parameters as usize + root.samplers as usize
}

/// How many ranges an item has.
fn ranges(item: Result<RootItem, Refusal>) -> usize {
    match item {
        Ok(RootItem::Table { ranges, .. }) => ranges as usize,
        _ => 0,
    }
}

/// The safe root signature shows what the reference does, of the same stretch of bytes.
fn same_root(bytes: &[u8], safe: Result<qollqamir::RootSignature, Refusal>, expected: Result<(RootSignature, &[u8]), Refusal>) -> Check {
    let header = safe.map(|s| (s.version(), s.parameters(), s.samplers(), s.flags(), s.data().as_ptr_range()));
    let answer = expected.map(|(e, data)| (e.version, e.parameters, e.samplers, e.flags, data.as_ptr_range()));
    same!(bytes, header, answer, "safe root signature");
    let (Ok(safe), Ok((expected, _))) = (safe, expected) else {
        return Ok(());
    };
    let count = items(&expected);
    in_turn(bytes, safe.items().map(by_bits), count, |i| expected.item(i).map(safe_bits), "items")?;
    for i in (0..count.min(LONG)).chain([count]) {
        let item = expected.item(i);
        same!(bytes, safe.item(i).map(by_bits).map_err(refusal_of), item.map(safe_bits), "safe item {i}");
        let last = ranges(item);
        in_turn(bytes, safe.ranges(i), last, |j| expected.range(i, j).map(safe_range), "ranges")?;
        for j in [0, last] {
            same!(bytes, safe.range(i, j).map_err(refusal_of), expected.range(i, j).map(safe_range), "safe range {i} {j}");
        }
    }
    Ok(())
}

/// The numbers of right headers, held in 64 bits.
#[derive(Clone, Copy)]
struct Header {
    version: usize,
    parameters: u64,
    first: u64,
    samplers: u64,
    first_sampler: u64,
    len: u64,
}

impl Header {
    fn of(data: &[u8]) -> Option<Header> {
        let number = |i: usize| get4(data, 4 * i);
        (data.len() >= ROOT_HEADER && [1, 2].contains(&number(0))).then(|| Header {
            version: number(0) as usize,
            parameters: number(1).into(),
            first: number(2).into(),
            samplers: number(3).into(),
            first_sampler: number(4).into(),
            len: data.len() as u64,
        })
    }

    fn items(&self) -> u64 {
        self.parameters + self.samplers
    }

    /// Where an item's own bytes stand, exactly.
    fn own(&self, i: u64) -> Range<u64> {
        match i.checked_sub(self.parameters) {
            None => stretch(self.first + PARAMETER as u64 * i, PARAMETER),
            Some(j) => stretch(self.first_sampler + SAMPLER as u64 * j, SAMPLER),
        }
    }

    /// The type of a parameter whose own bytes are inside, and where its data stand if it is one.
    fn data(&self, data: &[u8], i: u64) -> (u32, Range<u64>) {
        let own = self.own(i).start as usize;
        let kind = get4(data, own);
        (kind, stretch(get4(data, own + 8).into(), data_size(self.version, kind as usize)))
    }

    /// Whether 32 bits would take the end of a stretch that is outside back inside.
    fn wraps(&self, stretch: &Range<u64>) -> bool {
        stretch.end >= 1 << 32 && stretch.end % (1 << 32) <= self.len
    }
}

fn stretch(start: u64, size: usize) -> Range<u64> {
    start..start + size as u64
}

/// The items to ask for: of both lists, around the bad one, and those whose place 32 bits would take back to the start.
fn asked(random: &mut Random, header: &Header, verdict: raw::Verdict) -> Vec<usize> {
    let parameters = header.parameters as usize;
    let mut asked = numbers(random, header.items() as usize);
    if header.items() > 6 {
        asked.extend([parameters.saturating_sub(1), parameters, parameters + 1]);
    }
    if verdict.number != 0 {
        asked.extend([verdict.place, verdict.place + 1]);
    }
    for (before, count, first, size) in
        [(0, header.parameters, header.first, PARAMETER), (parameters, header.samplers, header.first_sampler, SAMPLER)]
    {
        let back = ((1 << 32) - first as usize) / size + 1 + random.below(3);
        if (back as u64) < count {
            asked.push(before + back);
        }
    }
    asked
}

/// The ranges to ask for.
fn asked_ranges(random: &mut Random, item: Result<RootItem, Refusal>) -> Vec<usize> {
    match item {
        Ok(RootItem::Table { ranges, .. }) => {
            let count = ranges as usize;
            let past = random.pick(&[count + 1, usize::MAX, 1 << 32, usize::MAX / 16 + 1]);
            vec![0, count.saturating_sub(1), random.below(count + 1), count, past]
        }
        _ => vec![random.pick(&[0, 0, 1, usize::MAX, 1 << 32])],
    }
}

fn data_of(answer: Result<RootSignature, Refusal>) -> raw::RootData {
    let verdict = verdict_of(&answer);
    let of = |get: fn(RootSignature) -> u32| answer.map_or(0, get);
    raw::RootData {
        verdict,
        version: of(|r| r.version),
        parameters: of(|r| r.parameters),
        samplers: of(|r| r.samplers),
        flags: of(|r| r.flags),
    }
}

/// The calls on root signature data alone, plain and safe.
pub fn data(random: &mut Random, data: &[u8], hits: &mut Hits) -> Check {
    let expected = reference::root_signature(data);
    let got = raw::rts0_read(data);
    hits.note(Call::Rts0, got.verdict);
    same!(data, got, data_of(expected), "rts0");
    same_root(data, qollqamir::RootSignature::read(data).map_err(refusal_of), expected.map(|root| (root, data)))?;

    let header = Header::of(data);
    let asked = match &header {
        Some(header) => asked(random, header, got.verdict),
        None => vec![random.pick(&[0, 0, 1, usize::MAX])],
    };
    for i in asked {
        let item = expected.and_then(|root| root.item(i));
        let got = raw::rts0_item(data, i);
        hits.note(Call::Rts0Item, got.verdict);
        same!(data, got, record_of(item), "rts0 item {i}");
        let alone = reference::root_item(data, i);
        let got = raw::rts0_item_alone(data, i);
        hits.note(Call::ItemAlone, got.verdict);
        same!(data, got, record_of(alone), "rts0 item alone {i}");
        let safe = qollqamir::rts0_item_alone(data, i).map(by_bits).map_err(refusal_of);
        same!(data, safe, alone.map(safe_bits), "safe item alone {i}");
        if expected.is_ok() {
            same!(data, record_of(alone), record_of(item), "item alone and whole {i}");
        }
        if let Some(header) = &header {
            note_item(header, i, expected, alone, hits);
        }
        for j in asked_ranges(random, alone) {
            let range = expected.and_then(|root| root.range(i, j));
            let got = raw::rts0_range(data, i, j);
            hits.note(Call::Rts0Range, got.verdict);
            same!(data, got, range_of(range), "rts0 range {i} {j}");
            let range_alone = reference::root_range(data, i, j);
            let got = raw::rts0_range_alone(data, i, j);
            hits.note(Call::RangeAlone, got.verdict);
            same!(data, got, range_of(range_alone), "rts0 range alone {i} {j}");
            let safe = qollqamir::rts0_range_alone(data, i, j).map_err(refusal_of);
            same!(data, safe, range_alone.map(safe_range), "safe range alone {i} {j}");
            if expected.is_ok() {
                same!(data, range_alone, range, "range alone and whole {i} {j}");
            }
            note_range(expected, alone, j, range_alone, hits);
        }
    }
    match (header, expected) {
        (Some(header), Ok(root)) => note_accepted(data, &header, root, hits),
        (Some(header), Err(refusal)) => note_refused(data, &header, refusal, hits),
        (None, Err(Refusal { number: 47, .. })) => hits.saw_if(Seen::VersionLowByte, [1, 2].contains(&data[0])),
        _ => (),
    }
    Ok(())
}

/// What one number came by, by itself.
fn note_item(header: &Header, i: usize, whole: Result<RootSignature, Refusal>, alone: Result<RootItem, Refusal>, hits: &mut Hits) {
    let i = i as u64;
    match (whole, alone) {
        (Ok(_), Err(Refusal { number: 26, .. })) => {
            hits.saw(Seen::ItemPastData);
            hits.saw_if(Seen::ItemLowBits, i >= 1 << 32 && i % (1 << 32) < header.items());
        }
        (Err(_), Err(Refusal { number: 26, .. })) => hits.saw(Seen::ItemPastAlone),
        (Err(bad), Ok(_)) => {
            hits.saw([Seen::AloneBeside48, Seen::AloneBeside49, Seen::AloneBeside50, Seen::AloneBeside51][usize::from(bad.number) - 48]);
            hits.saw_if(Seen::AlonePast32, i >= 1 << 32);
        }
        (_, Err(Refusal { number: 48, .. })) => {
            let own = header.own(i);
            let seen = if i < header.parameters { Seen::AloneWraps } else { Seen::AloneSamplerWraps };
            hits.saw_if(seen, own.start >= 1 << 32 && header.wraps(&own));
        }
        _ => (),
    }
}

/// Why a range was not there, and where it stood where it was.
fn note_range(
    whole: Result<RootSignature, Refusal>,
    item: Result<RootItem, Refusal>,
    j: usize,
    range: Result<RootRange, Refusal>,
    hits: &mut Hits,
) {
    let Ok(item) = item else {
        return;
    };
    let is_table = matches!(item, RootItem::Table { .. });
    match (whole, range) {
        (Ok(_), Err(_)) if is_table => {
            hits.saw(Seen::RangePastData);
            hits.saw_if(Seen::RangeLowBits, j >= 1 << 32 && j % (1 << 32) < ranges(Ok(item)));
        }
        (Ok(_), Err(_)) if matches!(item, RootItem::Sampler { .. }) => hits.saw(Seen::SamplerNoTableData),
        (Ok(_), Err(_)) => hits.saw(Seen::ParameterNoTableData),
        (Err(_), Err(_)) => hits.saw(if is_table { Seen::RangePastAlone } else { Seen::NoTableAlone }),
        (Ok(root), Ok(range)) => {
            hits.saw_if([Seen::LaterRange0, Seen::LaterRange1][root.version as usize - 1], j > 0);
            hits.saw_if(Seen::FollowingRange, range.offset == u32::MAX);
        }
        (Err(_), Ok(_)) => hits.saw(Seen::RangeBesideBad),
    }
}

/// Which check the first bad item failed, and how near it came.
fn note_refused(data: &[u8], header: &Header, refusal: Refusal, hits: &mut Hits) {
    let (i, len, version) = (refusal.place as u64, header.len, header.version);
    let mut saw = |what, is| hits.saw_if(what, is);
    match refusal.number {
        48 => {
            let own = header.own(i);
            let (count, size) = if i < header.parameters { (header.parameters, PARAMETER) } else { (header.samplers, SAMPLER) };
            let [is, past, wraps, many] = if i < header.parameters {
                [Seen::OwnParameter, Seen::OwnOnePast, Seen::OwnWraps, Seen::ManyParameters]
            } else {
                [Seen::OwnSampler, Seen::OwnSamplerOnePast, Seen::OwnSamplerWraps, Seen::ManySamplers]
            };
            saw(is, i < header.parameters || header.parameters > 0);
            saw(past, own.end == len + 1);
            saw(wraps, header.wraps(&own));
            saw(many, count * size as u64 >= 1 << 32);
        }
        49 => {
            let (kind, stretch) = header.data(data, i);
            saw(Seen::TypeFive, kind == 5);
            saw(Seen::TypeLowByte, kind % 256 <= 4);
            saw(Seen::TypeGreatest, kind == u32::MAX);
            saw(Seen::TypeOutside, stretch.start >= len);
        }
        50 => {
            let (kind, stretch) = header.data(data, i);
            let past = [Seen::DataOnePastTable, Seen::DataOnePastConstants, Seen::DataOnePastDescriptor, Seen::DataOnePastFlags];
            saw(past[sort(version, kind)], stretch.end == len + 1);
            saw(Seen::DataWraps, header.wraps(&stretch));
        }
        51 => {
            let at = header.data(data, i).1.start as usize;
            let product = range_size(version) as u64 * u64::from(get4(data, at));
            let ranges = stretch(get4(data, at + 4).into(), product as usize);
            saw([Seen::RangesOnePast, Seen::RangesOnePastFlags][version - 1], product > 0 && ranges.end == len + 1);
            saw(Seen::NoRangesPast, product == 0 && ranges.end == len + 1);
            saw(Seen::RangesProduct, product >= 1 << 32);
            saw(Seen::RangesProductWraps, product >= 1 << 32 && header.wraps(&ranges));
            saw(Seen::RangesSumWraps, product < 1 << 32 && header.wraps(&ranges));
        }
        _ => (),
    }

    let (items, parameters) = (header.items(), header.parameters);
    saw(Seen::RootBadFirst, i == 0 && items > 1);
    saw(Seen::RootBadMiddle, i > 0 && i + 1 < items);
    saw(Seen::RootBadLast, i > 0 && i + 1 == items);
    saw(Seen::LastParameterBad, i + 1 == parameters && header.samplers > 0);
    saw(Seen::FirstSamplerBad, parameters > 0 && i == parameters);
    for later in (i + 1..items).take(LONG).chain((i.max(parameters) + 1..items).take(1)) {
        if let Err(other) = reference::root_item(data, later as usize) {
            saw(Seen::LaterOutside, other.number == 48 && refusal.number > 48);
            saw(Seen::LaterCheckFirst, (49..refusal.number).contains(&other.number));
            saw(Seen::BadTwice, other.number == refusal.number);
        }
    }
}

/// A parameter's sort by the size of its data: a table, constants, a descriptor without or with flags.
fn sort(version: usize, kind: u32) -> usize {
    match kind {
        0 | 1 => kind as usize,
        _ => 1 + version,
    }
}

/// What accepted items were, and where they, their data and their ranges stood.
fn note_accepted(data: &[u8], header: &Header, root: RootSignature, hits: &mut Hits) {
    let (len, version) = (header.len, header.version);
    let mut saw = |what, is| hits.saw_if(what, is);
    saw(Seen::NoParametersPast, header.parameters == 0 && header.first > len);
    saw(Seen::NoSamplersPast, header.samplers == 0 && header.first_sampler > len);
    let kinds = [
        [Seen::Table0, Seen::Constants0, Seen::Cbv0, Seen::Srv0, Seen::Uav0, Seen::Sampler0],
        [Seen::Table1, Seen::Constants1, Seen::Cbv1, Seen::Srv1, Seen::Uav1, Seen::Sampler1],
    ][version - 1];
    let (mut all_data, mut all_ranges): (Vec<Range<u64>>, Vec<Range<u64>>) = Default::default();
    for i in 0..header.items().min(LONG as u64) {
        let own = header.own(i);
        let item = root.item(i as usize);
        if let Ok(RootItem::Sampler { lod_bias, least_lod, greatest_lod, .. }) = item {
            saw(kinds[5], true);
            saw(Seen::SamplerAtEnd, own.end == len);
            saw(Seen::SamplerInHeader, own.start < ROOT_HEADER as u64);
            for seen in [lod_bias, least_lod, greatest_lod].into_iter().filter_map(float_seen) {
                saw(seen, true);
            }
            continue;
        }
        let (kind, held) = header.data(data, i);
        saw(kinds[kind as usize], true);
        saw(Seen::ParameterAtEnd, own.end == len);
        saw(Seen::ParameterInHeader, own.start < ROOT_HEADER as u64);
        let at_end = [Seen::DataAtEndTable, Seen::DataAtEndConstants, Seen::DataAtEndDescriptor, Seen::DataAtEndFlags];
        saw(at_end[sort(version, kind)], held.end == len);
        saw(Seen::SharedData, overlaps(&all_data, &held));
        all_data.push(held);
        if let Ok(RootItem::Table { ranges, offset, .. }) = item {
            let stretch = stretch(offset.into(), range_size(version) * ranges as usize);
            saw([Seen::RangesAtEnd, Seen::RangesAtEndFlags][version - 1], ranges > 0 && stretch.end == len);
            saw(Seen::NoRangesAtEnd, ranges == 0 && stretch.end == len);
            saw(Seen::SharedRanges, overlaps(&all_ranges, &stretch));
            all_ranges.push(stretch);
        }
    }
}

/// Whether a stretch has bytes of one before it.
fn overlaps(before: &[Range<u64>], stretch: &Range<u64>) -> bool {
    before.iter().any(|other| other.start.max(stretch.start) < other.end.min(stretch.end))
}

/// What a float is, if that is worth a count.
fn float_seen(float: f32) -> Option<Seen> {
    let bits = float.to_bits();
    let of = |[positive, negative]: [Seen; 2]| Some(if bits >> 31 == 0 { positive } else { negative });
    match (bits >> 23 & 255, bits << 9) {
        (255, 0) => of([Seen::Infinity, Seen::NegativeInfinity]),
        (255, fraction) if fraction >> 31 == 1 => of([Seen::QuietNan, Seen::NegativeQuietNan]),
        (255, _) => of([Seen::SignallingNan, Seen::NegativeSignallingNan]),
        (0, 0) => (bits != 0).then_some(Seen::NegativeZero),
        (0, _) => of([Seen::Subnormal, Seen::NegativeSubnormal]),
        _ => None,
    }
}

fn report_of(bytes: &[u8], answer: Result<(RootSignature, &[u8]), Refusal>) -> raw::RootReport {
    let raw::RootData { verdict, version, parameters, samplers, flags } = data_of(answer.map(|(root, _)| root));
    let (start, len) = answer.map_or((0, 0), |(_, data)| (start_in(bytes, data), data.len()));
    raw::RootReport { verdict, version, parameters, samplers, flags, start, len }
}

/// The reference's report, and the part's data.
fn reported(bytes: &[u8], edition: usize) -> Result<(RootSignature<'_>, &[u8]), Refusal> {
    let root = reference::root_report(bytes, edition)?;
    Ok((root, reference::table_part(bytes, *b"RTS0")?.1))
}

/// The report on a container's root signature at one edition, some of its items and some of their ranges.
pub fn reports(random: &mut Random, bytes: &[u8], edition: usize, opening: &Result<Opening, Refusal>, hits: &mut Hits) -> Check {
    let expected = reported(bytes, edition);
    let got = raw::root_signature(bytes, edition);
    hits.note(Call::Root, got.verdict);
    same!(bytes, got, report_of(bytes, expected), "root signature {edition}");
    let absent = opening.as_ref().is_ok_and(|opening| opening.part(*b"RTS0").is_err());
    hits.saw_if(Seen::AbsentRoot, absent);

    let count = expected.map_or(0, |(root, _)| items(&root));
    let past = random.pick(&[count, count, count + 1, usize::MAX, 1 << 32]);
    let asked = match expected {
        Ok(_) => vec![random.below(count + 1), random.below(count + 1), past],
        // What is refused at edition 1 or 2 is mostly refused at 0 and 3, and the report has said so.
        Err(_) if [1, 2].contains(&edition) && !random.one_in(4) => Vec::new(),
        Err(_) => vec![past],
    };
    for i in asked {
        let item = expected.and_then(|(root, _)| root.item(i));
        let got = raw::root_item(bytes, edition, i);
        hits.note(Call::RootItem, got.verdict);
        same!(bytes, got, record_of(item), "root item {edition} {i}");
        let j = match ranges(item) {
            0 => random.pick(&[0, 1, usize::MAX]),
            ranges => random.below(ranges + 1),
        };
        let range = expected.and_then(|(root, _)| root.range(i, j));
        let got = raw::root_range(bytes, edition, i, j);
        hits.note(Call::RootRange, got.verdict);
        same!(bytes, got, range_of(range), "root range {edition} {i} {j}");
        match (item, range) {
            (Err(_), _) => hits.saw_if(Seen::ItemPast, expected.is_ok()),
            (Ok(RootItem::Table { .. }), Err(_)) => hits.saw(Seen::RangePast),
            (Ok(_), Err(_)) => hits.saw(Seen::NoTable),
            _ => (),
        }
    }
    Ok(())
}

/// The safe calls show what the plain ones show.
pub fn wrapped(bytes: &[u8], edition: usize, safe: &qollqamir::Container) -> Check {
    same_root(bytes, safe.root_signature().map_err(refusal_of), reported(bytes, edition))
}
