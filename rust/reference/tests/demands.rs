//! The demands on made-up containers, right, wrong and damaged. The numbers
//! are repeatable; every count that a run reaches is asserted to be real.

mod common;
use common::*;
use reference::{
    after_last_part, assemble, open, open_psv0, plain, show, table, table_part_occurrence,
    write_psv0, Refusal,
};
use std::collections::BTreeMap;

/// A container around the data, at times with more parts or fewer.
fn around(random: &mut Random, psv0: &[u8]) -> Vec<u8> {
    let code: &[u8] = if random.one_in(60) { b"" } else { b"code" };
    let mut parts: Vec<(&[u8; 4], &[u8])> = vec![(b"DXIL", code)];
    if !random.one_in(60) {
        parts.push((b"PSV0", psv0));
    }
    if random.one_in(3) {
        parts.push((b"HASH", b"abc"));
    }
    if random.one_in(60) {
        parts.push((b"DXIL", b""));
    }
    for _ in 0..random.pick(&[0, 0, 0, 1, 2, 3]) {
        parts.insert(random.below(parts.len() + 1), (b"PRIV", b"note"));
    }
    if random.one_in(2) {
        parts.reverse();
    }
    let gaps = random.one_in(3);
    spread(&parts, || vec![0xee; if gaps { random.pick(&[0, 1, 4, 6]) } else { 0 }])
}

/// The values of a text of `show` by their names. An unset one is left out, and
/// so are the editions.
fn values(text: &str) -> BTreeMap<String, String> {
    let mut values = BTreeMap::new();
    for line in text.lines().skip(1) {
        // A quoted string or a list is one word.
        let mut parts: Vec<String> = Vec::new();
        let (mut quoted, mut listed) = (false, false);
        let mut word = String::new();
        for letter in line.chars() {
            quoted ^= letter == '"';
            listed = !quoted && (letter == '[' || listed && letter != ']');
            if letter == ' ' && !quoted && !listed {
                parts.push(std::mem::take(&mut word));
            } else {
                word.push(letter);
            }
        }
        parts.push(word);
        let several = ["part", "resource", "element", "mask"].contains(&parts[0].as_str());
        let (title, fields) = if several { parts.split_at(2) } else { parts.split_at(1) };
        let title = title.join(" ");
        if ["resource", "element"].contains(&parts[0].as_str()) {
            for pair in fields.chunks(2) {
                values.insert(format!("{title} {}", pair[0]), pair[1].clone());
            }
        } else {
            values.insert(title, fields.join(" "));
        }
    }
    values.retain(|_, value| value != "unset");
    values
}

#[test]
fn older_and_newer_readers() {
    let mut random = Random(0x1234_5678_9abc_def1);
    let mut reached: BTreeMap<u8, usize> = BTreeMap::new();
    let (mut accepted, mut differing) = (0, 0);
    for _ in 0..60_000 {
        let psv0 = made(&mut random).bytes();
        let mut bytes = around(&mut random, &psv0);
        damage(&mut random, &mut bytes);
        let answers: Vec<Result<(), Refusal>> =
            (0..4).map(|edition| answer(open(&bytes, edition))).collect();
        let shown: Vec<_> = (0..4).map(|edition| values(&show(&bytes, edition))).collect();
        for answer in &answers {
            match answer {
                Ok(()) => accepted += 1,
                Err(refusal) => *reached.entry(refusal.number).or_default() += 1,
            }
        }
        if let Err(refusal) = table(&bytes) {
            assert_eq!(answers, vec![Err(refusal); 4]);
        }
        for newer in 1..4 {
            for older in 0..newer {
                if answers[older].is_err() {
                    assert_eq!(answers[newer], answers[older]);
                }
                if answers[newer].is_ok() {
                    assert!(answers[older].is_ok());
                    for (name, value) in &shown[older] {
                        assert_eq!(shown[newer].get(name), Some(value), "{name}");
                    }
                    differing += usize::from(shown[newer].len() > shown[older].len());
                }
            }
        }
    }
    assert!(accepted > 20_000, "{accepted} accepted");
    assert!(differing > 5_000, "{differing} pairs where the newer shows more");
    for number in
        [1, 3, 4, 5, 6, 7, 8, 9, 10, 11, 12, 13, 14, 15, 16, 17, 18, 19, 20, 21, 22, 23, 24]
    {
        assert!(reached.contains_key(&number), "{number} in {reached:?}");
    }
}

#[test]
fn accepted_data_is_what_the_layout_puts_there() {
    let mut random = Random(0xfeed_beef_0bad_cafe);
    let (mut accepted, mut whole, mut empty, mut longer) = (0, 0, 0, 0);
    for _ in 0..40_000 {
        let mut data = made(&mut random).bytes();
        if random.one_in(3) {
            let at = random.below(data.len());
            data[at] = random.pick(&[0, 1, 2, 16, 255]);
        }
        let edition = random.below(4);
        let Ok(opening) = open_psv0(&data, edition) else {
            continue;
        };
        accepted += 1;
        // Every section starts where the one before it ends.
        let number = |at: usize| u32::from_le_bytes(data[at..at + 4].try_into().unwrap()) as usize;
        let handed = &opening.handed;
        let size = number(0);
        assert_eq!(handed.runtime, &data[4..4 + [24, 36, 48, 52][opening.edition_read]]);
        let mut at = 4 + size;
        assert_eq!(opening.resource_count(), number(at));
        at += 4;
        if opening.resource_count() > 0 {
            let record = number(at);
            at += 4;
            let end = at + opening.resource_count() * record;
            assert_eq!(handed.resources, &data[at..end]);
            at = end;
        }
        if opening.edition_read == 0 {
            assert_eq!(opening.layout.end, at);
            continue;
        }
        let t = number(at);
        assert_eq!(opening.string_length(), Some(t));
        assert_eq!(handed.strings, &data[at + 4..at + 4 + t]);
        let strings = at + 4;
        at += 4 + t;
        let n = number(at);
        assert_eq!(opening.index_count(), Some(n));
        assert_eq!(handed.indices, &data[at + 4..at + 4 + 4 * n]);
        let indices = at + 4;
        at += 4 + 4 * n;
        let e: usize = data[4 + 28..4 + 31].iter().map(|count| usize::from(*count)).sum();
        assert_eq!(opening.element_count(), Some(e));
        if e > 0 {
            let record = number(at);
            at += 4;
            for i in 0..e {
                let o = number(at + i * record);
                assert!(o < t);
                let string = &data[strings + o..strings + t];
                let end = string.iter().position(|byte| *byte == 0).expect("a zero at o or later");
                assert_eq!(opening.string(i), Ok(text(&string[..end])));
                longer += usize::from(text(&string[..end]).points < end);
                let r = number(at + i * record + 4);
                let rows = usize::from(data[at + i * record + 8]);
                assert!(r + rows <= n);
                let array: Vec<u32> =
                    (r..r + rows).map(|j| number(indices + 4 * j) as u32).collect();
                whole += usize::from(rows > 1 && r + rows == n);
                empty += usize::from(rows == 0 && r == n);
                assert_eq!(opening.array(i), Ok(array));
            }
            assert_eq!(handed.elements, &data[at..at + e * record]);
            at += e * record;
        }
        let total = 4 * mask_total(handed.runtime);
        assert_eq!(handed.masks, &data[at..at + total]);
        let masks: Vec<u8> = (0..11).flat_map(|m| opening.mask(m).unwrap().to_vec()).collect();
        assert_eq!(masks, handed.masks);
        assert_eq!(opening.layout.end, at + total);
    }
    assert!(accepted > 20_000, "{accepted} accepted");
    assert!(whole > 2_000, "{whole} arrays of several numbers end with the table");
    assert!(empty > 2_000, "{empty} empty arrays at the table's end");
    assert!(longer > 2_000, "{longer} names with fewer code points than bytes");
}

#[test]
fn plain_data_is_written_again() {
    let mut random = Random(0x0dd0_1234_cafe_0001);
    let (mut yes, mut no) = (0, 0);
    for _ in 0..40_000 {
        let mut psv0 = made(&mut random);
        if random.one_in(2) {
            psv0.after.clear();
        }
        let data = psv0.bytes();
        let Ok(opening) = open_psv0(&data, 3) else {
            assert!(!plain(&data));
            continue;
        };
        let h = opening.handed;
        let mut out = vec![0x5a; data.len() + 64];
        let written = write_psv0(
            opening.file_edition,
            h.runtime,
            h.resources,
            h.strings,
            h.indices,
            h.elements,
            h.masks,
            &mut out,
        );
        // Plain data comes out the same, and no other data does.
        let same = written.is_ok_and(|length| out[..length] == data[..]);
        assert_eq!(plain(&data), same);
        if same {
            yes += 1;
            assert!(out[data.len()..].iter().all(|byte| *byte == 0x5a));
        } else {
            no += 1;
        }
    }
    assert!(yes > 2_000 && no > 2_000, "{yes} plain, {no} not");
}

#[test]
fn what_the_writer_accepts_reads_back() {
    let mut random = Random(0x7777_1111_2222_0003);
    let mut reached: BTreeMap<u8, usize> = BTreeMap::new();
    let mut written = 0;
    for _ in 0..40_000 {
        let mut psv0 = made(&mut random);
        let edition = if random.one_in(50) { 4 } else { random.below(4) };
        if edition < 4 && !random.one_in(10) {
            psv0.runtime.resize([24, 36, 48, 52][edition], 0);
        }
        let record = if edition < 2 { 16 } else { 24 };
        if !random.one_in(10) {
            let whole = psv0.resources.len() / record * record;
            psv0.resources.truncate(whole);
        }
        if edition == 0 && !random.one_in(10) {
            psv0.strings.clear();
            psv0.indices.clear();
            psv0.elements.clear();
            psv0.masks.clear();
        }
        let indices = words(&psv0.indices);
        let length = random.pick(&[0, 64, 4096, 4096, 4096]);
        let before = random.bytes(length);
        let mut out = before.clone();
        let answer = write_psv0(
            edition,
            &psv0.runtime,
            &psv0.resources,
            &psv0.strings,
            &indices,
            &psv0.elements,
            &psv0.masks,
            &mut out,
        );
        match answer {
            Err(refusal) => {
                assert_eq!(out, before, "a refusal leaves every byte");
                *reached.entry(refusal.number).or_default() += 1;
            }
            Ok(length) => {
                written += 1;
                assert_eq!(out[length..], before[length..]);
                assert!(plain(&out[..length]));
                let opening = open_psv0(&out[..length], 3).unwrap();
                assert_eq!((opening.file_edition, opening.edition_read), (edition, edition));
                assert_eq!(opening.handed.runtime, &psv0.runtime[..]);
                assert_eq!(opening.handed.resources, &psv0.resources[..]);
                assert_eq!(opening.handed.strings, &psv0.strings[..]);
                assert_eq!(opening.handed.indices, &indices[..]);
                assert_eq!(opening.handed.elements, &psv0.elements[..]);
                assert_eq!(opening.handed.masks, &psv0.masks[..]);
            }
        }
    }
    assert!(written > 5_000, "{written} written");
    for number in [15, 16, 17, 22, 23, 24, 25, 27, 28] {
        assert!(reached.contains_key(&number), "{number} in {reached:?}");
    }
    assert!(reached.keys().all(|number| ![18, 19, 20, 21].contains(number)));
}

#[test]
fn assembled_containers_read_back() {
    let mut random = Random(0x0b0b_0c0c_0d0d_0e0e);
    let (mut assembled, mut several) = (0, 0);
    for _ in 0..4_000 {
        let count = random.below(9);
        let names: Vec<u8> = (0..count)
            .flat_map(|_| match random.below(3) {
                0 => *b"PRIV",
                _ => [b'A', b'B', random.pick(b"abc\0"), random.pick(b"xyzuvw")],
            })
            .collect();
        let sizes: Vec<u32> = (0..count).map(|_| random.below(11) as u32).collect();
        let total: u32 = sizes.iter().sum();
        let data = random.bytes(total as usize);
        let digest = random.bytes(16);
        let mut out = vec![0x5a; 512];
        let twice = (0..count).find(|i| {
            let name = &names[4 * i..4 * i + 4];
            name != b"PRIV" && (0..*i).any(|j| &names[4 * j..4 * j + 4] == name)
        });
        let answer = assemble(&names, &sizes, &data, &digest, &mut out);
        if let Some(i) = twice {
            assert_eq!(answer, refused(9, i));
            assert_eq!(out, vec![0x5a; 512]);
            continue;
        }
        assembled += 1;
        let length = answer.unwrap();
        assert!(out[length..].iter().all(|byte| *byte == 0x5a));
        let bytes = &out[..length];
        assert_eq!(&bytes[4..20], &digest[..]);
        let parts = table(bytes).unwrap();
        assert_eq!(parts.len(), count);
        let mut from = 0;
        let mut end = 32 + 4 * count;
        let mut private = 0;
        for (i, part) in parts.iter().enumerate() {
            assert_eq!(part.name, names[4 * i..4 * i + 4]);
            let to = from + sizes[i] as usize;
            assert_eq!(part.data(bytes), &data[from..to]);
            assert_eq!(part.offset % 4, 0);
            assert!(part.offset - end < 4, "as early as possible");
            assert_eq!(part.gap, part.offset - end, "filler is a gap");
            assert!(bytes[end..part.offset].iter().all(|byte| *byte == 0));
            // Each is found again by its number, with its own data.
            let earlier = if part.name == *b"PRIV" { private } else { 0 };
            private += u64::from(part.name == *b"PRIV");
            assert_eq!(part.occurrence, earlier);
            let found = table_part_occurrence(bytes, part.name, earlier);
            assert_eq!(found, Ok((i, &data[from..to])));
            from = to;
            end = part.offset + 8 + part.size;
        }
        assert_eq!(end, length);
        assert_eq!(table_part_occurrence(bytes, *b"PRIV", private), refused(26, 0));
        several += usize::from(private > 1);
    }
    assert!(assembled > 1_000, "{assembled} assembled");
    assert!(several > 500, "{several} with several private parts");
}

#[test]
fn every_byte_is_counted_once() {
    let mut random = Random(0x0808_5e7e_a1c0_4a7d);
    let (mut accepted, mut several, mut gaps) = (0, 0, 0);
    for _ in 0..40_000 {
        let psv0 = made(&mut random).bytes();
        let mut bytes = around(&mut random, &psv0);
        damage(&mut random, &mut bytes);
        let Ok(parts) = table(&bytes) else {
            continue;
        };
        accepted += 1;
        // What the layout has at each place, and each byte marked by what has it.
        let number = |at: usize| u32::from_le_bytes(bytes[at..at + 4].try_into().unwrap()) as usize;
        let mut owners = vec![0; bytes.len()];
        owners[..32 + 4 * parts.len()].fill(1);
        let mut private = 0;
        for (i, part) in parts.iter().enumerate() {
            let at = number(32 + 4 * i);
            assert_eq!((part.offset, part.size), (at, number(at + 4)));
            assert_eq!(part.name, bytes[at..at + 4]);
            assert_eq!(part.occurrence, if part.name == *b"PRIV" { private } else { 0 });
            private += u64::from(part.name == *b"PRIV");
            for owner in &mut owners[at - part.gap..at + 8 + part.size] {
                assert_eq!(std::mem::replace(owner, 1), 0, "no byte is counted twice");
            }
            gaps += usize::from(part.gap > 0);
        }
        let rest = after_last_part(&bytes).unwrap().len();
        let taken = bytes.len() - rest;
        assert!(owners[..taken].iter().all(|owner| *owner == 1), "no byte is left out");
        assert!(owners[taken..].iter().all(|owner| *owner == 0));
        several += usize::from(private > 1);
    }
    assert!(accepted > 20_000, "{accepted} accepted");
    assert!(several > 5_000, "{several} with several private parts");
    assert!(gaps > 20_000, "{gaps} gaps");
}

/// `records` with the same number of bytes added at the end of each.
fn widened(random: &mut Random, records: &[u8], size: usize, more: usize) -> Vec<u8> {
    let mut wide = Vec::new();
    for record in records.chunks(size) {
        wide.extend_from_slice(record);
        wide.extend(random.bytes(more));
    }
    wide
}

#[test]
fn widenings_show_the_same() {
    let mut random = Random(0x5eed_5eed_5eed_5eed);
    let mut compared = 0;
    for _ in 0..60_000 {
        let edition = random.below(4);
        let mut psv0 = made(&mut random);
        if psv0.runtime.len() < [24, 36, 48, 52][edition] {
            continue;
        }
        // Its own parts stay, the private ones too; gaps may change.
        let around = |random: &mut Random, data: &[u8]| {
            let parts: [(&[u8; 4], &[u8]); 4] =
                [(b"PRIV", b"one"), (b"DXIL", b"code"), (b"PSV0", data), (b"PRIV", b"two")];
            spread(&parts, || vec![0xee; random.pick(&[0, 0, 1, 8])])
        };
        let narrow = around(&mut random, &psv0.bytes());
        if open(&narrow, edition).is_err() {
            continue;
        }
        // What the reader doesn't read becomes anything at all.
        let more = 4 * random.below(4);
        let extra = random.bytes(more);
        psv0.runtime.extend(extra);
        if psv0.resource_size >= 24 || edition < 2 {
            let more = 4 * random.below(4);
            let size = psv0.resource_size as usize;
            psv0.resources = widened(&mut random, &psv0.resources, size, more);
            psv0.resource_size += more as u32;
        }
        if edition > 0 {
            let more = 4 * random.below(4);
            let size = psv0.element_size as usize;
            psv0.elements = widened(&mut random, &psv0.elements, size, more);
            psv0.element_size += more as u32;
        }
        psv0.after.clear();
        let mut data = psv0.bytes();
        let end = open_psv0(&data, edition).unwrap().layout.end;
        data.truncate(end);
        let length = random.below(20);
        data.extend(random.bytes(length));
        let wide = around(&mut random, &data);
        let mut before = values(&show(&narrow, edition));
        let mut after = values(&show(&wide, edition));
        assert_ne!(after.len(), 0);
        for shown in [&mut before, &mut after] {
            shown.retain(|name, _| !name.starts_with("part "));
        }
        assert_eq!(before, after);
        compared += 1;
    }
    assert!(compared > 20_000, "{compared} compared");
}

#[test]
fn any_bytes_get_an_answer() {
    let mut random = Random(0xabcd_ef01_2345_6789);
    for _ in 0..20_000 {
        let length = random.below(200);
        let bytes = random.bytes(length);
        for edition in 0..5 {
            let alone = answer(open_psv0(&bytes, edition));
            if let Err(refusal) = alone {
                assert!([12, 13, 14, 15, 16, 17, 18, 19, 20, 21, 22, 23, 24, 25]
                    .contains(&refusal.number));
                assert!(refusal.place == 0 || [22, 23].contains(&refusal.number));
            }
            assert_eq!(alone.is_err() && edition == 4, edition == 4);
            let whole = answer(open(&bytes, edition));
            let expected = if edition == 4 {
                25
            } else if length < 32 {
                1
            } else {
                3
            };
            assert_eq!(whole, refused(expected, 0));
        }
    }
}
