//! Replacing PSV0 data: what is kept, what moves, and the order of the refusals.

mod common;
use common::*;
use reference::{
    after_last_part, open, open_psv0, plain, replace_psv0, table, Places, Refusal, LONGEST, NEWEST,
};
use std::collections::BTreeMap;

/// The result, which must be one that the exact room is enough for and no less, and whose
/// record is that of its opening.
#[track_caller]
fn replaced(bytes: &[u8], edition: usize, new: &[u8]) -> Vec<u8> {
    let (made, places) = replace_psv0(bytes, edition, new, usize::MAX).unwrap();
    assert_eq!(places, open(&made, edition).unwrap().places);
    assert_eq!(replace_psv0(bytes, edition, new, made.len()), Ok((made.clone(), places)));
    for room in [0, 31, made.len() - 1] {
        assert_eq!(replace_psv0(bytes, edition, new, room), refused(28, 0));
    }
    made
}

/// The refusal, which no room changes.
#[track_caller]
fn refuses(bytes: &[u8], edition: usize, new: &[u8], number: u8, place: usize) {
    for room in [0, 100, bytes.len(), 2 * LONGEST, usize::MAX] {
        assert_eq!(replace_psv0(bytes, edition, new, room), refused(number, place));
    }
}

/// Plain data of 76 + 4n bytes: `box_c` with n more words of strings.
fn longer(words: usize) -> Vec<u8> {
    let mut psv0 = box_c();
    psv0.strings.resize(8 + 4 * words, 0);
    psv0.bytes()
}

#[test]
fn by_hand() {
    // M's PSV0 data by C's: 32 bytes at 60 become 76, so that 92 become 136.
    let bytes = shader(&box_m().bytes());
    assert_eq!(bytes.len(), 92);
    let new = box_c().bytes();
    let made = replaced(&bytes, 3, &new);
    let mut expected = bytes[..60].to_vec();
    put4(&mut expected, 24, 136);
    put4(&mut expected, 56, 76);
    expected.extend_from_slice(&new);
    assert_eq!(made, expected);
    let (_, places) = replace_psv0(&bytes, 3, &new, 136).unwrap();
    let expected = Places {
        edition: 3,
        runtime: 64,
        stage: 5,
        resources: 120,
        strings: 124,
        string_bytes: 8,
        indices: 136,
        elements: 136,
        masks: 136,
        ..Places::default()
    };
    assert_eq!(places, expected);
    // The record is of the edition that was named.
    let (_, places) = replace_psv0(&bytes, 0, &new, 136).unwrap();
    assert_eq!(places, Places { runtime: 64, resources: 120, ..Places::default() });
    // And back.
    assert_eq!(replaced(&made, 3, &box_m().bytes()), bytes);
}

#[test]
fn parts_gaps_and_trailing_bytes() {
    let news = [box_m().bytes(), box_c().bytes(), hull().bytes(), longer(9)];
    let olds = [box_m().bytes(), box_c().bytes(), longer(9), {
        // The old data need not be plain.
        let mut psv0 = hull().wider_elements(20);
        psv0.after = vec![1, 2, 3];
        psv0.runtime.resize(56, 0);
        psv0.bytes()
    }];
    let (mut longer, mut shorter, mut equal) = (0, 0, 0);
    for old in &olds {
        for new in &news {
            // PSV0 first, in the middle and last, with parts of no bytes around it.
            let with = |psv0: &[u8], place: usize, gap: usize, after: usize| {
                let mut parts: Vec<(usize, &[u8; 4], &[u8])> = vec![
                    (gap, b"PRIV", b"one"),
                    (0, b"DXIL", b"code"),
                    (gap, b"HASH", b""),
                    (2 * gap, b"PRIV", b"three"),
                ];
                parts.insert(place, (gap, b"PSV0", psv0));
                let mut bytes = gapped(&parts, after);
                for (i, byte) in bytes[4..20].iter_mut().enumerate() {
                    *byte = i as u8;
                }
                bytes
            };
            for place in 0..=4 {
                for (gap, after) in [(0, 0), (1, 0), (0, 7), (3, 5), (4, 1)] {
                    let bytes = with(old, place, gap, after);
                    for edition in 0..=3 {
                        // A container built with the new data has the same gaps.
                        assert_eq!(replaced(&bytes, edition, new), with(new, place, gap, after));
                    }
                }
            }
            match new.len().cmp(&old.len()) {
                std::cmp::Ordering::Greater => longer += 1,
                std::cmp::Ordering::Less => shorter += 1,
                std::cmp::Ordering::Equal => equal += 1,
            }
        }
    }
    assert!(longer > 3 && shorter > 3 && equal > 2);
}

#[test]
fn equal_lengths_and_the_same_part() {
    let data = hull().bytes();
    let bytes = gapped(&[(1, b"PSV0", &data), (2, b"DXIL", b"code")], 3);
    for edition in 0..=3 {
        assert_eq!(replaced(&bytes, edition, &data), bytes);
    }
    // Another of the same length changes its own bytes and nothing else.
    let mut psv0 = hull();
    psv0.runtime[0] = 0;
    psv0.masks[207] ^= 0xff;
    let new = psv0.bytes();
    let made = replaced(&bytes, 3, &new);
    let changed: Vec<usize> = (0..bytes.len()).filter(|at| made[*at] != bytes[*at]).collect();
    // The data begin at 40 + 1 + 8.
    assert_eq!(changed, [49 + 4, 49 + 419]);
}

#[test]
fn the_new_part_is_judged_by_reader_three() {
    // Whatever the edition: a bad entry name (24), which reader 2 would pass.
    let bytes = shader(&box_m().bytes());
    let mut psv0 = box_c();
    psv0.runtime[48] = 8;
    for edition in 0..=3 {
        refuses(&bytes, edition, &psv0.bytes(), 24, 0);
    }
    // 22 and 23 with their places, 12 to 21 and 27 likewise.
    let mut named = hull();
    put4(&mut named.elements, 16, 16);
    let mut indexed = hull();
    put4(&mut indexed.elements, 36, 4);
    let mut staged = hull();
    staged.runtime[24] = 16;
    let mut cut = hull();
    cut.masks.pop();
    for edition in 0..=3 {
        refuses(&bytes, edition, &named.bytes(), 22, 1);
        refuses(&bytes, edition, &indexed.bytes(), 23, 2);
        refuses(&bytes, edition, &staged.bytes(), 15, 0);
        refuses(&bytes, edition, &cut.bytes(), 21, 0);
        refuses(&bytes, edition, b"", 12, 0);
        refuses(&bytes, edition, &words(&[24]), 13, 0);
        refuses(&bytes, edition, &box_m().bytes()[..31], 14, 0);
    }
    // The old one by the named edition: what 3 refuses 1 may replace.
    let bytes = shader(&psv0.bytes());
    for edition in 0..3 {
        assert_eq!(replaced(&bytes, edition, &box_m().bytes()), shader(&box_m().bytes()));
    }
    refuses(&bytes, 3, &box_m().bytes(), 24, 0);
}

#[test]
fn plain_form() {
    let bytes = shader(&hull().bytes());
    let of = |change: &dyn Fn(&mut Psv0), size: usize| {
        let mut psv0 = hull();
        psv0.runtime.truncate(size);
        psv0.resource_size = if size < 48 { 16 } else { 24 };
        psv0.resources = vec![7; 2 * psv0.resource_size as usize];
        if size < 36 {
            psv0.strings.clear();
        }
        change(&mut psv0);
        psv0.bytes()
    };
    let resources = |size: u32| {
        move |psv0: &mut Psv0| {
            psv0.resource_size = size;
            psv0.resources = vec![7; 2 * size as usize];
        }
    };
    for size in [24, 36, 48, 52] {
        let good = of(&|_| (), size);
        assert_eq!(replaced(&bytes, 3, &good), shader(&good));
        // Without resources there is no size to be wrong.
        let none = of(&|psv0| psv0.resources.clear(), size);
        assert_eq!(replaced(&bytes, 3, &none), shader(&none));
        let mut wrong: Vec<Vec<u8>> = Vec::new();
        // S that isn't an edition's size.
        if size != 48 {
            wrong.push(of(&|psv0| psv0.runtime.resize(size + 4, 0), size));
        }
        wrong.push(of(&resources(if size < 48 { 24 } else { 16 }), size));
        wrong.push(of(&resources(20), size));
        wrong.push(of(&resources(28), size));
        // Bytes after the last section.
        for after in [1, 4, 100] {
            wrong.push(of(&|psv0| psv0.after = vec![0; after], size));
        }
        if size >= 36 {
            wrong.push(of(&|psv0| *psv0 = psv0.wider_elements(20), size));
        }
        for new in wrong {
            assert!(open_psv0(&new, NEWEST).is_ok());
            for edition in 0..=3 {
                refuses(&bytes, edition, &new, 27, 0);
            }
        }
    }
}

#[test]
fn the_order_of_refusals() {
    let good = shader(&hull().bytes());
    // Data that reader 3 refuses, and such as aren't plain.
    let mut refused_data = hull();
    refused_data.runtime[24] = 16;
    refused_data.after = vec![0];
    let refused_data = refused_data.bytes();
    let mut not_plain = hull();
    not_plain.after = vec![0];
    let not_plain = not_plain.bytes();
    let news = [&refused_data[..], &not_plain, &hull().bytes(), b""];

    // 25, then the opening's, before all that is wrong with the new data.
    let bad_magic = {
        let mut bytes = good.clone();
        bytes[0] = 0;
        bytes
    };
    let bad_stage = shader(&refused_data);
    let no_psv0 = container(&[(b"DXIL", b"code")]);
    let no_dxil = container(&[(b"PSV0", &hull().bytes())]);
    let twice = container(&[(b"DXIL", b"code"), (b"PSV0", b""), (b"PSV0", b"")]);
    for new in news {
        for edition in [4, usize::MAX] {
            refuses(&bad_magic, edition, new, 25, 0);
            refuses(&good, edition, new, 25, 0);
        }
        for edition in 0..=3 {
            refuses(b"", edition, new, 1, 0);
            refuses(&bad_magic, edition, new, 3, 0);
            refuses(&good[..good.len() - 1], edition, new, 5, 0);
            refuses(&twice, edition, new, 9, 2);
            refuses(&no_dxil, edition, new, 10, 0);
            refuses(&no_psv0, edition, new, 11, 0);
            if edition > 0 {
                refuses(&bad_stage, edition, new, 15, 0);
            }
        }
    }
    // Then reader 3's, before 27: these data aren't plain, either.
    refuses(&good, 3, &refused_data, 15, 0);
    refuses(&good, 3, &not_plain, 27, 0);
}

#[test]
fn too_long() {
    let code = shader(&box_m().bytes());
    assert_eq!(code.len(), 92);
    // The result of `longer(n)` has 76 + 4n data bytes after 60 others.
    let most = (LONGEST - 60 - 76) / 4;
    let fits = longer(most);
    let (made, places) = replace_psv0(&code, 3, &fits, LONGEST).unwrap();
    assert_eq!(made.len(), LONGEST);
    assert_eq!(places.string_bytes as usize, 8 + 4 * most);
    assert_eq!(replace_psv0(&code, 3, &fits, LONGEST - 1), refused(28, 0));
    let mut one_more = code.clone();
    one_more.push(0);
    put4(&mut one_more, 24, 93);
    // 2 comes before 28, and whatever the room is.
    refuses(&one_more, 3, &fits, 2, 0);
    refuses(&code, 3, &longer(most + 1), 2, 0);
    // 27 comes before that 2.
    let mut not_plain = longer(most + 1);
    not_plain.push(0);
    assert!(open_psv0(&not_plain, 3).is_ok());
    refuses(&code, 3, &not_plain, 27, 0);
    // Data that are too long by themselves are reader 3's 2, before 12 and 27.
    let longest = longer((LONGEST - 76) / 4);
    assert_eq!(longest.len(), LONGEST);
    assert!(plain(&longest));
    refuses(&code, 3, &longest, 2, 0);
    let mut longest = longest;
    longest.push(0);
    refuses(&code, 3, &longest, 2, 0);
    longest[0] = 1;
    refuses(&code, 3, &longest, 2, 0);
    longest.pop();
    refuses(&code, 3, &longest, 12, 0);
    // From the longest container there is, shorter and equal ones still go.
    assert_eq!(replaced(&made, 3, &box_m().bytes()), code);
    assert_eq!(replace_psv0(&made, 3, &fits, LONGEST), Ok((made.clone(), places)));
}

#[test]
fn made_up_containers() {
    let mut random = Random(0x5e1f_0f5e_1f0f_5e1f);
    let mut reached: BTreeMap<u8, usize> = BTreeMap::new();
    let mut done = 0;
    for _ in 0..40_000 {
        let psv0 = made(&mut random).bytes();
        let mut parts: Vec<(&[u8; 4], &[u8])> = vec![(b"DXIL", b"code"), (b"PSV0", &psv0)];
        for _ in 0..random.below(3) {
            parts.insert(random.below(parts.len() + 1), (b"PRIV", b"note"));
        }
        if random.one_in(2) {
            parts.reverse();
        }
        let mut bytes = spread(&parts, || vec![0xee; random.pick(&[0, 0, 1, 6])]);
        if random.one_in(4) {
            damage(&mut random, &mut bytes);
        }
        let mut new = made(&mut random);
        if !random.one_in(3) {
            // Mostly in plain form.
            new.after.clear();
            let size = [24, 36, 48, 52].into_iter().rfind(|size| *size <= new.runtime.len());
            new.runtime.truncate(size.unwrap());
            let record = if new.runtime.len() < 48 { 16 } else { 24 };
            new.resources = random.bytes(new.resources.len() / new.resource_size as usize * record);
            new.resource_size = record as u32;
            if new.element_size > 16 {
                let size = new.element_size as usize;
                new.elements = new.elements.chunks(size).flat_map(|e| e[..16].to_vec()).collect();
                new.element_size = 16;
            }
        }
        let mut new = new.bytes();
        if random.one_in(8) {
            damage(&mut random, &mut new);
        }
        let edition = random.pick(&[0, 1, 2, 3, 3, 4]);
        let room = random.pick(&[0, bytes.len(), bytes.len() + 64, 4096, 4096, 4096]);

        let expected = expected(&bytes, edition, &new, room);
        let result = replace_psv0(&bytes, edition, &new, room);
        match &result {
            Err(refusal) => {
                assert_eq!(Err(*refusal), expected);
                *reached.entry(refusal.number).or_default() += 1;
            }
            Ok((made, places)) => {
                assert_eq!(Ok(made.len()), expected);
                assert_eq!(*places, open(made, edition).unwrap().places);
                done += 1;
                let (old, now) = (table(&bytes).unwrap(), table(made).unwrap());
                assert_eq!(old.len(), now.len());
                assert_eq!(made[..24], bytes[..24], "magic, digest, version");
                for (old, now) in old.iter().zip(&now) {
                    assert_eq!((old.name, old.gap), (now.name, now.gap));
                    assert_eq!(old.occurrence, now.occurrence);
                    let before = |bytes: &[u8], at: usize| bytes[at - old.gap..at].to_vec();
                    assert_eq!(before(&bytes, old.offset), before(made, now.offset));
                    let is_new = old.name == *b"PSV0";
                    assert_eq!(now.data(made), if is_new { &new } else { old.data(&bytes) });
                }
                assert_eq!(after_last_part(made), after_last_part(&bytes));
            }
        }
    }
    assert!(done > 3000, "{done}");
    for number in [5, 8, 12, 14, 15, 16, 22, 23, 24, 25, 27, 28] {
        assert!(reached.get(&number).is_some_and(|count| *count > 20), "{number} {reached:?}");
    }
}

/// The length of the result or the refusal, by the steps as they are listed.
fn expected(bytes: &[u8], edition: usize, new: &[u8], room: usize) -> Result<usize, Refusal> {
    let opening = open(bytes, edition)?;
    open_psv0(new, 3)?;
    let (_, old) = opening.part(*b"PSV0")?;
    let length = bytes.len() - old.len() + new.len();
    match (plain(new), length <= LONGEST, length <= room) {
        (false, _, _) => refused(27, 0),
        (_, false, _) => refused(2, 0),
        (_, _, false) => refused(28, 0),
        _ => Ok(length),
    }
}
