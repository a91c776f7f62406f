//! The calls on signature data and on a container's signature parts against the independent reader, answer by answer.

use qollqamir::raw;
use reference::{Opening, Refusal, Signature, SignatureElement, SignaturePart, Text};

use crate::compare::{
    in_turn, numbers, refusal_of, safe_text, same, same_text, span_of, start_in, verdict_of, Call, Check, Hits, Seen, LONG,
};
use crate::make::get4;
use crate::random::Random;
use crate::text::{follows, good, string_at};

fn record_of(bytes: &[u8], answer: Result<SignatureElement, Refusal>) -> raw::SignatureRecord {
    let verdict = verdict_of(&answer);
    let e = answer.ok();
    let of = |get: fn(SignatureElement) -> u32| e.map_or(0, get);
    let name = e.and_then(|e| e.name);
    raw::SignatureRecord {
        verdict,
        stream: of(|e| e.stream),
        name_offset: of(|e| e.name_offset),
        index: of(|e| e.index),
        system_value: of(|e| e.system_value),
        component_type: of(|e| e.component),
        register_number: of(|e| e.register),
        mask: of(|e| e.mask),
        exclusive_mask: of(|e| e.exclusive_mask),
        precision: of(|e| e.precision),
        named: name.is_some().into(),
        name_start: name.map_or(0, |name| start_in(bytes, name.bytes)),
        name_len: name.map_or(0, |name| name.bytes.len()),
        name_points: name.map_or(0, |name| name.points),
    }
}

/// A name as a view, whose start is told even where it is empty.
fn view_of(bytes: &[u8], answer: Result<Text, Refusal>) -> raw::Span {
    span_of(bytes, answer.map(|name| name.bytes), Some(answer.map_or(0, |name| name.points)))
}

fn safe_of(element: SignatureElement) -> qollqamir::SignatureElement {
    qollqamir::SignatureElement {
        stream: element.stream,
        name_offset: element.name_offset,
        index: element.index,
        system_value: element.system_value,
        component_type: element.component,
        register_number: element.register,
        mask: element.mask,
        exclusive_mask: element.exclusive_mask,
        precision: element.precision,
        name: element.name.map(safe_text),
    }
}

/// The safe signature shows what the reference does.
fn same_signature(bytes: &[u8], safe: Result<qollqamir::Signature, Refusal>, expected: Result<Signature, Refusal>) -> Check {
    same!(bytes, safe.map(|s| s.count()), expected.map(|s| s.count), "safe signature");
    let (Ok(safe), Ok(expected)) = (safe, expected) else {
        return Ok(());
    };
    in_turn(bytes, safe.elements(), expected.count, |i| expected.element(i).map(safe_of), "elements")?;
    for i in 0..expected.count.min(LONG) {
        same!(bytes, safe.element(i).map_err(refusal_of), expected.element(i).map(safe_of), "safe element {i}");
        same_text(bytes, safe.name(i), expected.name(i), format_args!("safe name {i}"))?;
        let places = (safe.name(i).map(|name| name.bytes.as_ptr()).ok(), expected.name(i).map(|name| name.bytes.as_ptr()).ok());
        same!(bytes, places.0, places.1, "place of safe name {i}");
    }
    let last = expected.count;
    same!(bytes, safe.element(last).map_err(refusal_of), expected.element(last).map(safe_of), "safe element {last}");
    Ok(())
}

/// The calls on signature data alone, plain and safe.
pub fn data(random: &mut Random, data: &[u8], hits: &mut Hits) -> Check {
    let expected = reference::signature(data);
    let got = raw::sg1_read(data);
    hits.note(Call::Sg1, got.verdict);
    let count = expected.map_or(0, |s| s.count);
    same!(data, got, raw::SignatureData { verdict: verdict_of(&expected), count }, "sg1");
    same_signature(data, qollqamir::Signature::read(data).map_err(refusal_of), expected)?;

    // By itself an element may be good where the whole is not.
    let stated = if data.len() < 8 { 0 } else { get4(data, 0) as usize };
    let mut asked = numbers(random, stated);
    if [45, 52].contains(&got.verdict.number) {
        asked.push(got.verdict.place);
    }
    for i in asked {
        let element = expected.and_then(|s| s.element(i));
        let got = raw::sg1_element(data, i);
        hits.note(Call::Sg1Element, got.verdict);
        same!(data, got, record_of(data, element), "sg1 element {i}");
        let got = raw::sg1_name(data, i);
        hits.note(Call::Sg1Name, got.verdict);
        same!(data, got, view_of(data, expected.and_then(|s| s.name(i))), "sg1 name {i}");
        let alone = reference::signature_element(data, i);
        let got = raw::sg1_element_alone(data, i);
        hits.note(Call::Sg1Alone, got.verdict);
        same!(data, got, record_of(data, alone), "sg1 alone {i}");
        same!(data, qollqamir::sg1_element_alone(data, i).map_err(refusal_of), alone.map(safe_of), "safe alone {i}");
        if expected.is_ok() {
            same!(data, alone, element, "alone and whole {i}");
        }
        note_element(expected, element, alone, hits);
    }
    if data.len() >= 8 {
        note_data(data, expected, hits);
    }
    Ok(())
}

/// The whole of long data and one element.
pub fn long_data(data: &[u8], i: usize, hits: &mut Hits) -> Check {
    let expected = reference::signature(data);
    let got = raw::sg1_read(data);
    hits.note(Call::Sg1, got.verdict);
    let count = expected.map_or(0, |s| s.count);
    same!(data, got, raw::SignatureData { verdict: verdict_of(&expected), count }, "sg1, long");
    same!(data, raw::sg1_element(data, i), record_of(data, expected.and_then(|s| s.element(i))), "sg1 element {i}, long");
    same!(data, raw::sg1_element_alone(data, i), record_of(data, reference::signature_element(data, i)), "sg1 alone {i}, long");
    note_data(data, expected, hits);
    Ok(())
}

/// What one number came by, of the whole and by itself.
fn note_element(
    whole: Result<Signature, Refusal>,
    element: Result<SignatureElement, Refusal>,
    alone: Result<SignatureElement, Refusal>,
    hits: &mut Hits,
) {
    let number = |refusal: Refusal| refusal.number;
    if let (Err(whole), Err(alone)) = (whole, alone) {
        hits.saw_if(Seen::AloneOther, [45, 52].contains(&whole.number) && [45, 52].contains(&alone.number) && whole != alone);
    }
    match (whole.map_err(number), element.map_err(number), alone.map_err(number)) {
        (Ok(_), Err(26), _) => hits.saw(Seen::PastCountData),
        (Ok(_), Ok(element), _) if element.name.is_none() => hits.saw(Seen::UnsetNameData),
        (Err(44), _, Err(26)) => hits.saw(Seen::PastCountAlone),
        (Err(44), _, Ok(_)) => hits.saw(Seen::AloneBeside44),
        (Err(45), _, Ok(_)) => hits.saw(Seen::AloneBeside45),
        (Err(52), _, Ok(_)) => hits.saw(Seen::AloneBeside52),
        (_, _, Err(44)) => hits.saw(Seen::Alone44),
        (_, _, Err(45)) => hits.saw(Seen::Alone45),
        (_, _, Err(52)) => hits.saw(Seen::Alone52),
        _ => (),
    }
}

/// Data that have a header: their elements' count, start and end.
struct Header<'a> {
    data: &'a [u8],
    count: u64,
    first: u64,
    end: u64,
}

impl<'a> Header<'a> {
    fn of(data: &'a [u8]) -> Header<'a> {
        let (count, first) = (u64::from(get4(data, 0)), u64::from(get4(data, 4)));
        Header { data, count, first, end: first + 32 * count }
    }

    /// The name offset of an element that lies inside.
    fn name(&self, i: u64) -> u64 {
        u64::from(get4(self.data, (self.first + 32 * i + 4) as usize))
    }
}

/// Where the elements and the names of data with a header stood.
fn note_data(data: &[u8], answer: Result<Signature, Refusal>, hits: &mut Hits) {
    let header = Header::of(data);
    match answer {
        Err(Refusal { number: 44, .. }) => note_outside(&header, hits),
        Err(Refusal { number: 45, place }) => note_bad(&header, place as u64, hits),
        Err(Refusal { number: 52, place }) => note_ill(&header, place as u64, hits),
        Ok(_) => note_good(&header, hits),
        _ => (),
    }
}

fn note_outside(header: &Header, hits: &mut Hits) {
    let &Header { data, count, end, .. } = header;
    let len = data.len() as u64;
    let wraps = end % (1 << 32) <= len;
    hits.saw_if(Seen::ElementsOnePast, count > 0 && end == len + 1);
    hits.saw_if(Seen::NonePast, count == 0 && end == len + 1);
    hits.saw_if(Seen::ProductPast, count >= 1 << 27);
    hits.saw_if(Seen::ProductWraps, count >= 1 << 27 && wraps);
    hits.saw_if(Seen::SumWraps, count < 1 << 27 && wraps);
}

/// Whether elements after a place, of the next few, have a name without a zero and one that is ill-formed.
fn later(header: &Header, place: u64) -> (bool, bool) {
    let names: Vec<usize> = (place + 1..header.count).take(8).map(|i| header.name(i) as usize).filter(|o| *o != 0).collect();
    let no_zero = |o: &usize| string_at(header.data, *o).is_none();
    (names.iter().any(no_zero), names.iter().any(|o| !no_zero(o) && !good(header.data, *o)))
}

fn note_bad(header: &Header, place: u64, hits: &mut Hits) {
    let &Header { data, count, end, .. } = header;
    let (len, name) = (data.len() as u64, header.name(place));
    hits.saw_if(Seen::ElementsAtEnd, end == len);
    hits.saw_if(Seen::BadFirst, place == 0 && count > 1);
    hits.saw_if(Seen::BadMiddle, place > 0 && place + 1 < count);
    hits.saw_if(Seen::BadLast, place > 0 && place + 1 == count);
    hits.saw_if(Seen::BadAtLength, name == len);
    let zero = data.iter().rposition(|byte| *byte == 0).map_or(0, |zero| zero as u64);
    hits.saw_if(Seen::BadAfterZero, zero + 1 < len && name == zero + 1);
    let (no_zero, ill) = later(header, place);
    hits.saw_if(Seen::BadTwiceOver, no_zero);
    hits.saw_if(Seen::BadBeforeIll, ill);
    hits.strings.bad_name(data, name as usize);
}

fn note_ill(header: &Header, place: u64, hits: &mut Hits) {
    let &Header { data, count, first, end } = header;
    let name = header.name(place);
    hits.saw_if(Seen::ElementsAtEnd, end == data.len() as u64);
    hits.saw_if(Seen::IllFirst, place == 0 && count > 1);
    hits.saw_if(Seen::IllMiddle, place > 0 && place + 1 < count);
    hits.saw_if(Seen::IllLast, place > 0 && place + 1 == count);
    hits.saw_if(Seen::IllInElement, (first..end).contains(&name));
    hits.saw_if(Seen::Ill4097, data.len() == 4097);
    hits.saw_if(Seen::UnsetBeforeIll, (place.saturating_sub(8)..place).any(|i| header.name(i) == 0));
    let (no_zero, ill) = later(header, place);
    hits.saw_if(Seen::IllBeforeBad, no_zero);
    hits.saw_if(Seen::IllTwice, ill);
    hits.strings.bad_name(data, name as usize);
}

fn note_good(header: &Header, hits: &mut Hits) {
    let &Header { data, count, first, end } = header;
    let len = data.len() as u64;
    hits.saw_if(Seen::ElementsInHeader, count > 0 && first < 8);
    hits.saw_if(Seen::ElementsAtEnd, count > 0 && end == len);
    hits.saw_if(Seen::NoneAtEnd, count == 0 && end == len);
    let names: Vec<u64> = (0..count.min(8)).map(|i| header.name(i)).filter(|o| *o != 0).collect();
    hits.saw_if(Seen::UnsetAtIll, (names.len() as u64) < count.min(8) && !good(data, 0));
    for (i, o) in names.iter().enumerate() {
        let name_len = string_at(data, *o as usize).map_or(0, |name| name.len() as u64);
        hits.saw_if(Seen::EmptyName, name_len == 0);
        hits.saw_if(Seen::NameInHeader, *o < 8);
        hits.saw_if(Seen::NameAtLast, *o == len - 1);
        hits.saw_if(Seen::SharedName, names[..i].contains(o));
        if (first..end).contains(o) {
            // How far into the element it starts, and how far past a name offset.
            let (into, past) = ((o - first) % 32, (o - first + 28) % 32);
            hits.saw(Seen::NameInElement);
            hits.saw_if(Seen::OverElements, into + name_len > 32);
            hits.saw_if(Seen::OverOffset, past >= 4 && past + name_len > 32);
        }
    }
    if count <= 512 {
        let all: Vec<usize> = (0..count).map(|i| header.name(i) as usize).filter(|o| *o != 0).collect();
        hits.strings.names(data, &all);
    }
}

fn report_of(bytes: &[u8], answer: Result<(usize, &[u8]), Refusal>) -> raw::SignatureReport {
    let verdict = verdict_of(&answer);
    match answer {
        Ok((count, data)) => raw::SignatureReport { verdict, count, start: start_in(bytes, data), len: data.len() },
        Err(_) => raw::SignatureReport { verdict, count: 0, start: 0, len: 0 },
    }
}

fn difference_of(answer: Result<Option<usize>, Refusal>) -> raw::Difference {
    let first = answer.unwrap_or(None);
    raw::Difference { verdict: verdict_of(&answer), found: first.is_some().into(), number: first.unwrap_or(0) }
}

/// The reports on a container's signature parts at one edition: on all that it has, on another, and by a number that names none.
pub fn reports(random: &mut Random, bytes: &[u8], edition: usize, opening: &Result<Opening, Refusal>, hits: &mut Hits) -> Check {
    let other = random.pick(&SignaturePart::ALL);
    for part in SignaturePart::ALL {
        if part == other || opening.as_ref().is_ok_and(|opening| opening.part(part.name()).is_ok()) {
            report(random, bytes, edition, part, opening, hits)?;
        }
    }

    let part = random.pick(&[3, 3, 4, 255, 256, 1 << 31, u32::MAX]);
    let refusal = opening.as_ref().err().copied().unwrap_or(Refusal { number: 26, place: 0 });
    let i = random.below(3);
    same!(bytes, raw::signature(bytes, edition, part), report_of(bytes, Err(refusal)), "signature {edition} {part}");
    same!(bytes, raw::signature_difference(bytes, edition, part), difference_of(Err(refusal)), "difference {edition} {part}");
    same!(bytes, raw::signature_element(bytes, edition, part, i), record_of(bytes, Err(refusal)), "element {edition} {part} {i}");
    same!(bytes, raw::signature_name(bytes, edition, part, i), view_of(bytes, Err(refusal)), "name {edition} {part} {i}");
    if opening.is_ok() {
        hits.saw(Seen::NoSuchPart);
    }
    Ok(())
}

fn report(
    random: &mut Random,
    bytes: &[u8],
    edition: usize,
    part: SignaturePart,
    opening: &Result<Opening, Refusal>,
    hits: &mut Hits,
) -> Check {
    let number = part as u32;
    let expected = reference::signature_report(bytes, edition, part);
    let data = opening.as_ref().map_err(|refusal| *refusal).and_then(|opening| opening.part(part.name()));
    let got = raw::signature(bytes, edition, number);
    hits.note(Call::Signature, got.verdict);
    let stretch = expected.and_then(|signature| Ok((signature.count, data?.1)));
    same!(bytes, got, report_of(bytes, stretch), "signature {edition} {part:?}");

    let asked = match expected {
        Ok(signature) => numbers(random, signature.count),
        Err(_) => vec![random.pick(&[0, 0, 1, usize::MAX])],
    };
    for i in asked {
        let element = expected.and_then(|signature| signature.element(i));
        let got = raw::signature_element(bytes, edition, number, i);
        hits.note(Call::Element, got.verdict);
        same!(bytes, got, record_of(bytes, element), "element {edition} {part:?} {i}");
        let got = raw::signature_name(bytes, edition, number, i);
        hits.note(Call::Name, got.verdict);
        same!(bytes, got, view_of(bytes, expected.and_then(|signature| signature.name(i))), "name {edition} {part:?} {i}");
        if expected.is_ok() && element.is_err() {
            hits.saw(Seen::PastCount);
        }
        if element.is_ok_and(|element| element.name.is_none()) {
            hits.saw(Seen::UnsetName);
        }
    }

    let first = reference::first_difference(bytes, edition, part);
    let got = raw::signature_difference(bytes, edition, number);
    hits.note(Call::Difference, got.verdict);
    same!(bytes, got, difference_of(first), "difference {edition} {part:?}");
    match (opening, expected, first) {
        (Ok(opening), Ok(signature), Ok(first)) => note_names(opening, part, &signature, first, hits),
        (Ok(opening), ..) if opening.part(part.name()).is_err() => hits.saw(Seen::AbsentPart),
        (Err(refusal), ..) if [22, 24].contains(&refusal.number) => {
            let data = reference::table_part(bytes, part.name());
            let ill = data.and_then(|(_, data)| reference::signature(data)).is_err_and(|refusal| refusal.number == 52);
            hits.saw_if(Seen::OpeningBeforeIll, ill);
        }
        _ => (),
    }
    Ok(())
}

/// How the names compared with PSV0's, up to the first that differs.
fn note_names(opening: &Opening, part: SignaturePart, signature: &Signature, first: Option<usize>, hits: &mut Hits) {
    let list = part.list(&opening.runtime);
    let mut equal = 0;
    for i in 0..first.map_or(signature.count, |first| first + 1) {
        let Ok(name) = signature.name(i) else {
            continue;
        };
        let beside = list.clone().nth(i).and_then(|number| opening.string(number).ok());
        note_texts(name, beside, hits);
        let (name, beside) = (name.bytes, beside.map(|beside| beside.bytes));
        hits.saw(match beside {
            None if opening.edition_read == 0 => Seen::MissingAtZero,
            None => Seen::MissingBeside,
            Some([]) if name.is_empty() => Seen::EqualEmpty,
            Some([]) => Seen::EmptyBeside,
            Some(_) if name.is_empty() => Seen::BesideEmpty,
            Some(beside) if beside == name => [Seen::EqualInput, Seen::EqualOutput, Seen::EqualPatch][part as usize],
            Some(beside) if beside.starts_with(name) => Seen::PrefixOfPsv0,
            Some(beside) if name.starts_with(beside) => Seen::PrefixByPsv0,
            Some(beside) if name.len() == beside.len() => Seen::SameLength,
            Some(_) => continue,
        });
        equal += usize::from(beside == Some(name));
    }
    match first {
        None if equal > 0 => hits.saw(Seen::NoDifference),
        None => (),
        Some(0) => hits.saw(Seen::FirstDifference),
        Some(_) => hits.saw(Seen::LaterDifference),
    }
}

/// How a name that is not all letters compared with the one beside it.
fn note_texts(name: Text, beside: Option<Text>, hits: &mut Hits) {
    let Some(beside) = beside.filter(|beside| !beside.bytes.is_ascii()) else {
        return;
    };
    hits.saw_if(Seen::EqualText, name == beside);
    let same = name.bytes.iter().zip(beside.bytes).take_while(|(a, b)| a == b).count();
    hits.saw_if(Seen::CutText, same == name.bytes.len() && beside.bytes.get(same).is_some_and(|byte| *byte > 0x7f));
    let both = name.bytes.get(same).zip(beside.bytes.get(same));
    hits.saw_if(Seen::OtherLastByte, both.is_some_and(|(a, b)| follows(*a) && follows(*b)));
    hits.saw_if(Seen::SamePoints, name.points == beside.points && name.bytes.len() != beside.bytes.len());
}

/// The safe calls show what the plain ones show.
pub fn wrapped(bytes: &[u8], edition: usize, safe: &qollqamir::Container) -> Check {
    for (part, wrapped) in SignaturePart::ALL.into_iter().zip(qollqamir::SignaturePart::ALL) {
        same!(bytes, wrapped.name(), part.name(), "safe name of a part");
        same_signature(bytes, safe.signature(wrapped).map_err(refusal_of), reference::signature_report(bytes, edition, part))?;
        let first = safe.first_difference(wrapped).map_err(refusal_of);
        same!(bytes, first, reference::first_difference(bytes, edition, part), "safe difference {edition} {part:?}");
    }
    Ok(())
}
