//! The night's figures: counting, joining, the text, and the program around it.

mod common;
#[path = "common/programs.rs"]
mod programs;
use common::hostile::*;
use common::*;
use programs::*;
use reference::{open, show, show_figures, Added, Figures, Joined, Refusal};
use std::cell::RefCell;
use std::collections::BTreeMap;
use std::io::{self, Write};

/// The greatest number of openings.
const MOST: u16 = 65_535;

const ACCEPTED: Added = Added::Counted(Ok(()));

fn counted(number: u8, place: usize) -> Added {
    Added::Counted(Err(Refusal { number, place }))
}

/// The box M of 92 bytes, of edition 0.
fn m() -> Vec<u8> {
    shader(&box_m().bytes())
}

/// The box C of 136 bytes, of edition 3 and stage 5.
fn c() -> Vec<u8> {
    shader(&box_c().bytes())
}

/// PSV0 data with a runtime record of this size and a stage, and nothing else.
fn of_stage(size: usize, stage: u8) -> Vec<u8> {
    let mut psv0 = Psv0::of_size(size);
    psv0.runtime[24] = stage;
    shader(&psv0.bytes())
}

/// The container with other bytes after its last part, up to the length.
fn of_length(mut bytes: Vec<u8>, length: usize) -> Vec<u8> {
    bytes.resize(length, 0xee);
    put4(&mut bytes, 24, length as u32);
    bytes
}

/// The box M with a second part that starts a byte early.
fn early() -> Vec<u8> {
    let mut bytes = m();
    put4(&mut bytes, 36, 51);
    bytes
}

/// A list for which the counts are worked out below.
fn worked() -> Vec<Vec<u8>> {
    let mut bad_name = box_c();
    bad_name.runtime[48] = 8;
    let mut longer = box_c();
    longer.runtime.resize(56, 0xff);
    vec![
        m(),                       // 92 bytes, edition 0
        c(),                       // 136, edition 3, stage 5
        shader(&bad_name.bytes()), // 136, the same; 24 at edition 3
        Vec::new(),                // 1
        early(),                   // 8 at part 1
        shader(&hull().bytes()),   // 480, edition 3, stage 3
        of_stage(36, 0),           // 112, edition 1, stage 0
        of_stage(48, 15),          // 124, edition 2, stage 15
        of_stage(36, 16),          // 112, edition 1; 15 but at edition 0
        shader(&longer.bytes()),   // 140, edition 3, stage 5
    ]
}

/// The figures of a list, from empty ones.
fn figures_of<B: AsRef<[u8]>>(files: &[B], edition: usize) -> Figures {
    let mut figures = Figures::start(edition);
    for file in files {
        assert!(matches!(figures.add(file.as_ref()), Added::Counted(_)));
    }
    figures
}

#[test]
fn empty_figures() {
    for edition in [0, 1, 2, 3, 4, usize::MAX] {
        let empty = Figures {
            edition,
            opened: 0,
            accepted: 0,
            refused: 0,
            refusals: [0; 28],
            editions: [0; 4],
            stages: [0; 16],
            unset: 0,
            bytes: 0,
        };
        assert_eq!(Figures::start(edition), empty);
    }
}

#[test]
fn a_worked_list() {
    let at_0 = Figures {
        opened: 10,
        accepted: 8,
        refused: 2,
        editions: [1, 2, 1, 4],
        unset: 8,
        bytes: 1332,
        ..Figures::start(0)
    };
    let mut expected = [0, 1, 2, 3].map(|_| at_0.clone());
    for (edition, figures) in expected.iter_mut().enumerate() {
        figures.edition = edition;
        figures.refusals[1] = 1;
        figures.refusals[8] = 1;
        if edition == 0 {
            continue;
        }
        // Stage 16 is seen, and M alone shows none.
        figures.accepted = 7;
        figures.refused = 3;
        figures.refusals[15] = 1;
        figures.editions[1] = 1;
        figures.unset = 1;
        figures.bytes = 1220;
        for (stage, count) in [(0, 1), (3, 1), (5, 3), (15, 1)] {
            figures.stages[stage] = count;
        }
    }
    // The entry name is seen.
    let at_3 = &mut expected[3];
    at_3.accepted = 6;
    at_3.refused = 4;
    at_3.refusals[24] = 1;
    at_3.editions[3] = 3;
    at_3.stages[5] = 2;
    at_3.bytes = 1084;
    for (edition, expected) in expected.iter().enumerate() {
        assert_eq!(figures_of(&worked(), edition), *expected, "edition {edition}");
    }
}

#[test]
fn the_answers_are_those_of_the_opening() {
    let files = worked();
    let mut figures = Figures::start(1);
    let answers: Vec<Added> = files.iter().map(|file| figures.add(file)).collect();
    let mut expected = [ACCEPTED; 10];
    expected[3] = counted(1, 0);
    expected[4] = counted(8, 1);
    expected[8] = counted(15, 0);
    assert_eq!(answers, expected);
    for edition in 0..6 {
        let mut figures = Figures::start(edition);
        for (i, file) in files.iter().enumerate() {
            assert_eq!(figures.add(file), Added::Counted(answer(open(file, edition))));
            assert_eq!(usize::from(figures.opened), i + 1);
        }
    }
}

#[test]
fn the_files_edition_is_counted() {
    // A file of each edition at each edition named.
    for (size, file) in [(24, 0), (32, 0), (36, 1), (44, 1), (48, 2), (52, 3), (56, 3), (400, 3)] {
        let mut psv0 = Psv0::of_size(size);
        psv0.strings = vec![0; 4];
        let bytes = shader(&psv0.bytes());
        for edition in 0..=3 {
            let mut expected = [0; 4];
            expected[file] = 1;
            assert_eq!(figures_of(&[&bytes], edition).editions, expected, "S = {size}");
        }
    }
}

#[test]
fn the_stage_is_that_of_the_reading() {
    for size in [36, 48, 52] {
        for stage in 0..=15 {
            let mut psv0 = Psv0::of_size(size);
            psv0.runtime[24] = stage;
            psv0.strings = vec![0; 4];
            let bytes = shader(&psv0.bytes());
            for edition in 1..=3 {
                let mut expected = [0; 16];
                expected[usize::from(stage)] = 1;
                let figures = figures_of(&[&bytes], edition);
                assert_eq!((figures.stages, figures.unset), (expected, 0));
            }
            // Edition 0 has no stage, whatever the file has.
            let figures = figures_of(&[&bytes], 0);
            assert_eq!((figures.stages, figures.unset), ([0; 16], 1));
        }
        // Nor does it judge one.
        let bytes = of_stage(size, 255);
        let figures = figures_of(&[&bytes], 0);
        assert_eq!((figures.accepted, figures.unset), (1, 1));
        assert_eq!(figures_of(&[&bytes], 1).refusals[15], 1);
    }
    // A file of edition 0 shows none to any.
    for edition in 0..=3 {
        let figures = figures_of(&[m()], edition);
        assert_eq!((figures.stages, figures.unset), ([0; 16], 1));
    }
}

#[test]
fn accepted_lengths_alone_are_summed() {
    let files = [m(), early(), of_length(m(), 5000), vec![0; 60_000], of_length(early(), 7000)];
    let figures = figures_of(&files, 1);
    assert_eq!((figures.accepted, figures.refused, figures.bytes), (2, 3, 5092));
    // The file is counted whole, with what follows its parts.
    assert_eq!(figures_of(&[of_length(c(), 137)], 3).bytes, 137);
}

#[test]
fn the_longest_containers() {
    let longest = of_length(m(), 16_777_216);
    let mut figures = Figures::start(3);
    assert_eq!(figures.add(&[&longest[..], &[0]].concat()), counted(2, 0));
    // Sums above 2^32, up to the greatest there can be.
    for _ in 1..MOST {
        assert_eq!(figures.add(&longest), ACCEPTED);
    }
    assert_eq!(figures.refusals[2], 1);
    assert_eq!(figures.bytes, 16_777_216 * 65_534);
    assert_eq!(figures.add(&longest), Added::Full);
    assert_eq!(figures.bytes, 16_777_216 * 65_534);
}

#[test]
fn editions_above_three() {
    for edition in [4, 5, 255, 256, 1 << 16, usize::MAX] {
        let figures = figures_of(&worked(), edition);
        let mut expected = Figures { opened: 10, refused: 10, ..Figures::start(edition) };
        expected.refusals[25] = 10;
        assert_eq!(figures, expected);
        assert_eq!(figures.clone().add(&[]), counted(25, 0), "before 1");
        assert_eq!(figures.text(), "opened 10 accepted 0 refused 10 bytes 0\nrefusal 25 10\n");
    }
}

/// Containers of all sorts.
fn mixed(random: &mut Random, count: usize) -> Vec<Vec<u8>> {
    let mut files = Vec::new();
    for i in 0..count {
        files.push(match i % 6 {
            0 => bad_entry_name(random),
            1 | 2 => {
                let number = random.pick(&NUMBERS);
                aimed(random, number)
            }
            3 => anyhow(random),
            _ => good(random),
        });
    }
    files
}

/// The text for a list, worked out from what `show` prints for each of its files. The
/// lines are in order by their kind and number, where that of unset is the greatest.
fn by_the_text(files: &[Vec<u8>], edition: usize) -> String {
    let mut counts: BTreeMap<(u8, u32, String), usize> = BTreeMap::new();
    let (mut accepted, mut bytes) = (0, 0);
    for file in files {
        let shown = show(file, edition);
        let mut count = |rank: u8, name: &str, value: &str| {
            let number = value.parse().unwrap_or(u32::MAX);
            *counts.entry((rank, number, format!("{name} {value}"))).or_default() += 1;
        };
        let after = |start: &str| {
            let line = shown.lines().find_map(|line| line.strip_prefix(start));
            line.expect("it is shown").split(' ').next().unwrap()
        };
        if shown.starts_with("refused ") {
            count(0, "refusal", after("refused "));
            continue;
        }
        accepted += 1;
        bytes += file.len();
        count(1, "edition", after("edition "));
        count(2, "stage", after("stage "));
    }
    let opened = files.len();
    let refused = opened - accepted;
    let mut text = format!("opened {opened} accepted {accepted} refused {refused} bytes {bytes}\n");
    for ((_, _, name), count) in counts {
        text.push_str(&format!("{name} {count}\n"));
    }
    text
}

/// What holds of figures that were counted.
fn check_sums(figures: &Figures) {
    let sum = |counts: &[u16]| counts.iter().map(|count| u32::from(*count)).sum::<u32>();
    let [opened, accepted, refused, unset] =
        [figures.opened, figures.accepted, figures.refused, figures.unset].map(u32::from);
    assert_eq!(accepted + refused, opened);
    assert_eq!(sum(&figures.refusals), refused);
    assert_eq!(sum(&figures.editions), accepted);
    assert_eq!(sum(&figures.stages) + unset, accepted);
    for number in [0, 26, 27] {
        assert_eq!(figures.refusals[number], 0);
    }
}

#[test]
fn each_count_is_the_number_of_such_openings() {
    let mut random = Random(0x51d3_77aa_90fe_c24b);
    let files = mixed(&mut random, 600);
    for edition in 0..6 {
        let figures = figures_of(&files, edition);
        assert_eq!(figures.text(), by_the_text(&files, edition), "edition {edition}");
        check_sums(&figures);
        for count in [1, 2, 7, 100] {
            let figures = figures_of(&files[..count], edition);
            assert_eq!(figures.text(), by_the_text(&files[..count], edition));
            check_sums(&figures);
        }
    }
    // Nothing that is counted tells edition 2 from 1.
    let figures = figures_of(&files, 1);
    assert_eq!(figures_of(&files, 2), Figures { edition: 2, ..figures.clone() });
    // They have what is to be counted.
    assert!(NUMBERS.iter().all(|number| figures.refusals[usize::from(*number)] > 0));
    assert!(figures.editions.iter().all(|count| *count > 0) && figures.unset > 0);
    assert!(figures.stages.iter().filter(|count| **count > 0).count() > 7);
    assert!(figures_of(&files, 3).refusals[24] > 0);
}

/// One of the orders of the items; below the factorial of their count each number has
/// another.
fn order<T: Copy>(items: &[T], mut number: usize) -> Vec<T> {
    let mut left = items.to_vec();
    let mut order = Vec::new();
    while !left.is_empty() {
        order.push(left.remove(number % left.len()));
        number /= left.len() + 1;
    }
    order
}

#[test]
fn any_order_of_files() {
    let files = worked();
    for edition in 0..=4 {
        // With one of them twice.
        let list = [0, 1, 3, 4, 6, 8, 1].map(|i| &files[i]);
        let expected = figures_of(&list, edition);
        for number in 0..5040 {
            assert_eq!(figures_of(&order(&list, number), edition), expected);
        }
    }
    let mut random = Random(0x0dd0_0f0d_1234_5678);
    let mut files = mixed(&mut random, 200);
    let expected = [0, 1, 2, 3].map(|edition| figures_of(&files, edition));
    for _ in 0..20 {
        for i in (1..files.len()).rev() {
            files.swap(i, random.below(i + 1));
        }
        assert_eq!([0, 1, 2, 3].map(|edition| figures_of(&files, edition)), expected);
    }
}

#[test]
fn splits_join_again() {
    let mut random = Random(0x7171_beef_0a0b_0c0d);
    let mut files = mixed(&mut random, 50);
    files.extend(worked());
    for edition in 0..=4 {
        let whole = figures_of(&files, edition);
        // At every place, both ways round, an empty piece too.
        for at in 0..=files.len() {
            let (left, right) = files.split_at(at);
            let (left, right) = (figures_of(left, edition), figures_of(right, edition));
            for (first, second) in [(&left, &right), (&right, &left)] {
                let mut joined = first.clone();
                let kept = second.clone();
                assert_eq!(joined.join(second), Joined::Joined);
                assert_eq!(joined, whole);
                assert_eq!(*second, kept);
            }
        }
        // Dealt out to five, joined from the last on.
        let mut pieces = vec![Vec::new(); 5];
        for file in &files {
            pieces[random.below(5)].push(file);
        }
        let mut joined = Figures::start(edition);
        for piece in pieces.iter().rev() {
            assert_eq!(joined.join(&figures_of(piece, edition)), Joined::Joined);
        }
        assert_eq!(joined, whole);
        // What is joined goes on as if it had been counted.
        assert_eq!(joined.add(&c()), Added::Counted(answer(open(&c(), edition))));
        files.push(c());
        assert_eq!(joined, figures_of(&files, edition));
        files.pop();
    }
}

#[test]
fn full_at_65535() {
    for (bytes, edition) in [(m(), 1), (c(), 3), (Vec::new(), 1), (c(), 4)] {
        let once = figures_of(&[&bytes], edition);
        let answer = Figures::start(edition).add(&bytes);
        let mut figures = Figures::start(edition);
        for opened in 1..=MOST {
            assert_eq!(figures.add(&bytes), answer);
            assert_eq!(figures.opened, opened);
        }
        let full = figures.clone();
        check_sums(&full);
        let times = |count: u16| count * MOST;
        assert_eq!(full.accepted, times(once.accepted));
        assert_eq!(full.refused, times(once.refused));
        assert_eq!(full.refusals, once.refusals.map(times));
        assert_eq!(full.editions, once.editions.map(times));
        assert_eq!(full.stages, once.stages.map(times));
        assert_eq!(full.unset, times(once.unset));
        assert_eq!(full.bytes, once.bytes * u64::from(MOST));
        // 65,536 and 65,537, with such as would be counted elsewhere.
        for more in [&bytes[..], &m(), &c(), &[], &early()] {
            assert_eq!(figures.add(more), Added::Full);
            assert_eq!(figures, full);
        }
    }
}

#[test]
fn the_last_that_is_counted() {
    let files = worked();
    let mut figures = Figures::start(1);
    for i in 0..65_534 {
        assert!(matches!(figures.add(&files[i % 10]), Added::Counted(_)));
    }
    // Ten make 1,220 bytes; 65,534 are 6,553 times the list and its first four.
    assert_eq!(figures.opened, 65_534);
    assert_eq!(figures.accepted, 6553 * 7 + 3);
    assert_eq!(figures.bytes, 6553 * 1220 + 364);
    for (last, answer) in [(&files[4], counted(8, 1)), (&files[5], ACCEPTED)] {
        let mut figures = figures.clone();
        assert_eq!(figures.add(last), answer);
        assert_eq!(figures.opened, MOST);
        check_sums(&figures);
        let full = figures.clone();
        assert_eq!([0, 4].map(|i| figures.add(&files[i])), [Added::Full; 2]);
        assert_eq!(figures, full);
    }
}

#[test]
fn joined_up_to_65535() {
    let opened = |opened: u16| Figures { opened, accepted: 3, unset: 3, ..Figures::start(1) };
    for (first, second, fits) in [
        (65_534, 1, true),
        (1, 65_534, true),
        (65_535, 0, true),
        (0, 65_535, true),
        (32_767, 32_768, true),
        (32_768, 32_768, false),
        (65_535, 1, false),
        (1, 65_535, false),
        (65_534, 2, false),
        (65_535, 65_535, false),
    ] {
        let mut joined = opened(first);
        let expected = match fits {
            true => Figures { accepted: 6, unset: 6, ..opened(MOST) },
            false => opened(first),
        };
        let answer = if fits { Joined::Joined } else { Joined::Full };
        assert_eq!(joined.join(&opened(second)), answer, "{first} and {second}");
        assert_eq!(joined, expected);
    }
    // Full with the last of them.
    let mut joined = opened(65_534);
    joined.join(&opened(1));
    assert_eq!(joined.add(&m()), Added::Full);
}

#[test]
fn other_editions_do_not_join() {
    let editions = [0, 1, 2, 3, 4, 5, 256, 257, usize::MAX];
    for first in editions {
        for second in editions {
            let (left, right) = (figures_of(&worked(), first), figures_of(&[m()], second));
            let mut joined = left.clone();
            if first == second {
                assert_eq!(joined.join(&right), Joined::Joined);
                assert_eq!(joined.opened, 11);
                continue;
            }
            assert_eq!(joined.join(&right), Joined::OtherEdition);
            assert_eq!(joined, left);
            // Empty ones neither, and this is said before full.
            assert_eq!(joined.join(&Figures::start(second)), Joined::OtherEdition);
            let mut full = Figures { opened: MOST, ..Figures::start(first) };
            assert_eq!(full.join(&right), Joined::OtherEdition);
            assert_eq!(full, Figures { opened: MOST, ..Figures::start(first) });
        }
    }
}

/// Figures at edition 1 whose counts are made up: number 0 is opened, then all of the
/// others in order. The bytes are another matter.
fn made_up(count: impl Fn(u16) -> u16) -> Figures {
    let counts: Vec<u16> = (0..52).map(count).collect();
    Figures {
        edition: 1,
        opened: counts[0],
        accepted: counts[1],
        refused: counts[2],
        refusals: counts[3..31].try_into().unwrap(),
        editions: counts[31..35].try_into().unwrap(),
        stages: counts[35..51].try_into().unwrap(),
        unset: counts[51],
        bytes: 0,
    }
}

#[test]
fn each_count_is_summed_with_its_own() {
    let mut joined = made_up(|i| i + 1);
    assert_eq!(joined.join(&made_up(|i| 1000 * (i + 1))), Joined::Joined);
    assert_eq!(joined, made_up(|i| 1001 * (i + 1)));
    for only in 0..52 {
        for (first, second) in [(0, 7), (7, 0), (40_000, 20_000)] {
            let mut joined = made_up(|i| if i == only { first } else { 0 });
            joined.join(&made_up(|i| if i == only { second } else { 0 }));
            assert_eq!(joined, made_up(|i| if i == only { first + second } else { 0 }));
        }
    }
    let with = |bytes: u64| Figures { bytes, ..Figures::start(1) };
    let mut joined = with(1 << 40);
    joined.join(&with(700));
    assert_eq!(joined, with((1 << 40) + 700));
}

#[test]
fn made_up_figures_stop_at_the_greatest() {
    // All but the opened ones are at their end, one before it or two.
    for left in [0, 1, 2] {
        let count = |i: u16| if i == 0 { 65_533 } else { MOST - left };
        let expected = made_up(|i| if i == 0 { 65_534 } else { MOST - left });
        for (file, answer) in [(m(), ACCEPTED), (c(), ACCEPTED), (early(), counted(8, 1))] {
            let mut figures = made_up(count);
            assert_eq!(figures.add(&file), answer);
            let mut expected = expected.clone();
            let raised = if left == 0 { MOST } else { MOST - left + 1 };
            if answer == ACCEPTED {
                let edition_0 = file.len() == 92;
                expected.accepted = raised;
                expected.editions[if edition_0 { 0 } else { 3 }] = raised;
                *(if edition_0 { &mut expected.unset } else { &mut expected.stages[5] }) = raised;
                expected.bytes = file.len() as u64;
            } else {
                expected.refused = raised;
                expected.refusals[8] = raised;
            }
            assert_eq!(figures, expected);
        }
        for more in [0, 1, 2, 3, MOST] {
            let mut joined = made_up(|i| if i == 0 { 0 } else { MOST - left });
            let other = made_up(|i| if i == 0 { 0 } else { more });
            assert_eq!(joined.join(&other), Joined::Joined);
            let sum = (MOST - left).saturating_add(more);
            assert_eq!(joined, made_up(|i| if i == 0 { 0 } else { sum }));
        }
    }
}

#[test]
fn made_up_bytes_stop_at_the_greatest() {
    for (before, after) in [
        (u64::MAX - 93, u64::MAX - 1),
        (u64::MAX - 92, u64::MAX),
        (u64::MAX - 91, u64::MAX),
        (u64::MAX, u64::MAX),
        (1 << 63, (1 << 63) + 92),
    ] {
        let mut figures = Figures { bytes: before, ..Figures::start(1) };
        assert_eq!(figures.add(&m()), ACCEPTED);
        assert_eq!(figures.bytes, after);
        let mut joined = Figures { bytes: before, ..Figures::start(1) };
        let other = Figures { bytes: 92, ..Figures::start(1) };
        assert_eq!(joined.join(&other), Joined::Joined);
        assert_eq!(joined.bytes, after);
    }
}

#[test]
fn opened_alone_says_what_is_full() {
    // Nothing but the number opened, and everything but it.
    let mut figures = Figures { opened: MOST, ..Figures::start(1) };
    assert_eq!(figures.add(&m()), Added::Full);
    assert_eq!(figures, Figures { opened: MOST, ..Figures::start(1) });
    let mut figures = made_up(|i| if i == 0 { 0 } else { MOST });
    assert_eq!(figures.add(&m()), ACCEPTED);
    assert_eq!((figures.opened, figures.accepted), (1, MOST));
    // The edition may be anyone's, too.
    let mut figures = Figures { edition: 9, ..made_up(|_| 4) };
    assert_eq!(figures.add(&m()), counted(25, 0));
    let mut expected = Figures { edition: 9, opened: 5, refused: 5, ..made_up(|_| 4) };
    expected.refusals[25] = 5;
    assert_eq!(figures, expected);
}

#[test]
fn lines_of_figures() {
    let nothing = "opened 0 accepted 0 refused 0 bytes 0\nnothing was opened\n";
    for edition in [0, 1, 3, 4] {
        assert_eq!(Figures::start(edition).text(), nothing);
    }
    assert_eq!(
        figures_of(&worked(), 3).text(),
        "opened 10 accepted 6 refused 4 bytes 1084
refusal 1 1
refusal 8 1
refusal 15 1
refusal 24 1
edition 0 1
edition 1 1
edition 2 1
edition 3 3
stage 0 1
stage 3 1
stage 5 2
stage 15 1
stage unset 1
"
    );
    // All counts there are, in their order.
    let figures = Figures { bytes: u64::MAX, ..made_up(|i| 101 + i) };
    let mut expected =
        String::from("opened 101 accepted 102 refused 103 bytes 18446744073709551615\n");
    for (word, numbers, first) in [("refusal", 28, 104), ("edition", 4, 132), ("stage", 16, 136)] {
        for number in 0..numbers {
            expected.push_str(&format!("{word} {number} {}\n", first + number));
        }
    }
    expected.push_str("stage unset 152\n");
    assert_eq!(figures.text(), expected);
    // Each of them alone.
    for (only, line) in expected.lines().skip(1).enumerate() {
        let only = 3 + only as u16;
        let figures = made_up(|i| if i == only { 101 + i } else { u16::from(i == 0) });
        assert_eq!(figures.text(), format!("opened 1 accepted 0 refused 0 bytes 0\n{line}\n"));
    }
    // The number opened says whether there are any.
    let figures = made_up(|i| if i == 0 { 0 } else { 7 });
    assert_eq!(figures.text(), "opened 0 accepted 7 refused 7 bytes 0\nnothing was opened\n");
}

fn cannot<T>() -> io::Result<T> {
    Err(io::Error::from(io::ErrorKind::NotFound))
}

/// The program's text for files of these bytes; None is one that can't be read.
fn printed<'a>(files: impl IntoIterator<Item = Option<&'a [u8]>>) -> String {
    let mut out = Vec::new();
    let files = files.into_iter().map(|file| file.map_or_else(cannot, Ok));
    show_figures(files, &mut out).expect("a vector takes all that is written to it");
    String::from_utf8(out).expect("all that is printed is ASCII")
}

#[test]
fn the_requests_example() {
    let three = of_length(c(), 175);
    let early = early();
    let files = [&three[..], &three, &early, &three, &three];
    let expected = "opened 5 accepted 4 refused 1 bytes 700
refusal 8 1
edition 3 4
stage 5 4
";
    assert_eq!(printed(files.map(Some)), expected);
    let zero = of_length(m(), 175);
    let files = [&zero[..], &zero, &early, &zero, &zero];
    let expected = expected.replace("edition 3", "edition 0").replace("stage 5", "stage unset");
    assert_eq!(printed(files.map(Some)), expected);
}

#[test]
fn nothing_was_opened() {
    let end = "opened 0 accepted 0 refused 0 bytes 0\nnothing was opened\n";
    assert_eq!(printed([]), end);
    assert_eq!(printed([None]), format!("cannot open 0\n{end}"));
    let too_long = vec![0; 65_537];
    let expected = format!("cannot open 0\ntoo long 1\ncannot open 2\n{end}");
    assert_eq!(printed([None, Some(&too_long[..]), None]), expected);
    // A refused one was opened.
    let expected = "opened 1 accepted 0 refused 1 bytes 0\nrefusal 1 1\n";
    assert_eq!(printed([Some(&[][..])]), expected);
}

#[test]
fn the_text_names_edition_one() {
    let files = worked();
    let expected = figures_of(&files, 1).text();
    assert!(expected.starts_with("opened 10 accepted 7 refused 3 bytes 1220\nrefusal 1 1\n"));
    assert_eq!(printed(files.iter().map(|file| Some(&file[..]))), expected);
}

#[test]
fn uncounted_files_have_their_numbers() {
    let (m, c, early) = (m(), c(), early());
    let longest = of_length(m.clone(), 65_536);
    let too_long = of_length(m.clone(), 65_537);
    let files = [&m[..], &too_long, &early, &longest, &c].map(Some);
    let files = [&files[..], &[None, Some(&[0; 70_000][..]), None, Some(&m)]].concat();
    assert_eq!(
        printed(files),
        "too long 1
cannot open 5
too long 6
cannot open 7
opened 5 accepted 4 refused 1 bytes 65856
refusal 8 1
edition 0 3
edition 3 1
stage 5 1
stage unset 3
"
    );
}

#[test]
fn the_limit_of_a_file() {
    for length in [65_535, 65_536] {
        let expected =
            format!("opened 1 accepted 1 refused 0 bytes {length}\nedition 0 1\nstage unset 1\n");
        assert_eq!(printed([Some(&of_length(m(), length)[..])]), expected);
    }
    let end = "opened 0 accepted 0 refused 0 bytes 0\nnothing was opened\n";
    for length in [65_537, 65_538, 16_777_217] {
        assert_eq!(printed([Some(&of_length(m(), length)[..])]), format!("too long 0\n{end}"));
    }
    // Whatever the bytes are, and not what their size field says.
    assert_eq!(
        printed([Some(&[0; 65_536][..])]),
        "opened 1 accepted 0 refused 1 bytes 0\nrefusal 3 1\n"
    );
    let mut bytes = of_length(m(), 65_537);
    put4(&mut bytes, 24, 65_536);
    assert_eq!(printed([Some(&bytes[..])]), format!("too long 0\n{end}"));
}

#[test]
fn the_text_when_full() {
    let (m, early, too_long) = (m(), early(), vec![0; 65_537]);
    // So many openings, with others among them that don't count.
    for count in [65_534, 65_535, 65_536, 65_537] {
        let opened: usize = std::cmp::min(count, 65_535);
        let mut files = vec![Some(&m[..]); count];
        files[0] = Some(&early);
        files.insert(3, None);
        files.insert(4, Some(&too_long));
        let mut expected = String::from("cannot open 3\ntoo long 4\n");
        for i in 65_535..count {
            expected.push_str(&format!("full {}\n", i + 2));
        }
        // The others come first after the last opening, too.
        files.extend([None, Some(&too_long[..])]);
        expected.push_str(&format!("cannot open {}\ntoo long {}\n", count + 2, count + 3));
        let accepted = opened - 1;
        expected.push_str(&format!(
            "opened {opened} accepted {accepted} refused 1 bytes {}\nrefusal 8 1\n\
             edition 0 {accepted}\nstage unset {accepted}\n",
            92 * accepted
        ));
        assert_eq!(printed(files), expected, "{count} openings");
    }
    // What it would have been answered doesn't matter.
    let files = vec![Some(&m[..]); 65_535];
    let files = files.into_iter().chain([Some(&[][..]), Some(&early), Some(&m)]);
    let expected = "full 65535\nfull 65536\nfull 65537
opened 65535 accepted 65535 refused 0 bytes 6029220
edition 0 65535
stage unset 65535
";
    assert_eq!(printed(files), expected);
}

/// A writer whose text can be looked at in between.
struct Shared<'a>(&'a RefCell<Vec<u8>>);

impl Write for Shared<'_> {
    fn write(&mut self, bytes: &[u8]) -> io::Result<usize> {
        self.0.borrow_mut().write(bytes)
    }

    fn flush(&mut self) -> io::Result<()> {
        Ok(())
    }
}

#[test]
fn lines_come_as_files_are_met() {
    let (text, m, too_long) = (RefCell::new(Vec::new()), m(), vec![0; 65_537]);
    let lists = [None, Some(&m[..]), Some(&too_long), Some(&m), None];
    let before = [
        "",
        "cannot open 0\n",
        "cannot open 0\n",
        "cannot open 0\ntoo long 2\n",
        "cannot open 0\ntoo long 2\n",
    ];
    let files = lists.into_iter().zip(before).map(|(file, before)| {
        assert_eq!(text.borrow()[..], *before.as_bytes());
        file.map_or_else(cannot, Ok)
    });
    show_figures(files, &mut Shared(&text)).unwrap();
    let text = String::from_utf8(text.take()).unwrap();
    assert!(text.starts_with("cannot open 0\ntoo long 2\ncannot open 4\nopened 2 accepted 2 "));
}

#[test]
fn a_writer_that_fails() {
    // In the first line, at the last byte, and nowhere.
    for file in [None, Some(m())] {
        let length = printed([file.as_deref()]).len();
        for room in [0, 5, length - 1, length] {
            let mut space = vec![0; room];
            let files = [file.as_deref().map_or_else(cannot, Ok)];
            assert_eq!(show_figures(files, &mut &mut space[..]).is_ok(), room == length);
        }
    }
}

fn run(names: &[&str]) -> (String, i32) {
    run_program(env!("CARGO_BIN_EXE_reference-figures"), names)
}

#[test]
fn the_program() {
    let end = "opened 0 accepted 0 refused 0 bytes 0\nnothing was opened\n";
    assert_eq!(run(&[]), (end.into(), 0));
    // No word is anything but a name.
    for name in ["", "-", "--", "--help", "-h", "1", "no such file"] {
        assert_eq!(run(&[name]), (format!("cannot open 0\n{end}"), 0), "{name}");
    }
    // A directory can be opened, but not read.
    let directory = env!("CARGO_TARGET_TMPDIR");
    assert_eq!(run(&[directory]), (format!("cannot open 0\n{end}"), 0));
    let files: Vec<Temporary> = worked()
        .iter()
        .enumerate()
        .map(|(i, bytes)| Temporary::new(&format!("figures-{i}"), bytes))
        .collect();
    let names: Vec<&str> = files.iter().map(Temporary::path).collect();
    assert_eq!(run(&names), (figures_of(&worked(), 1).text(), 0));
    // A name may stand several times, and each counts.
    assert_eq!(
        run(&[names[1], directory, names[1], "", names[4], names[1], names[1]]),
        (
            "cannot open 1
cannot open 3
opened 5 accepted 4 refused 1 bytes 544
refusal 8 1
edition 3 4
stage 5 4
"
            .into(),
            0
        )
    );
}

#[test]
fn the_programs_limit() {
    let longest = Temporary::new("figures-longest", &of_length(m(), 65_536));
    let longer = Temporary::new("figures-too-long", &of_length(m(), 65_537));
    let vast = Temporary::new("figures-vast", &vec![0; 1_000_000]);
    let empty = Temporary::new("figures-empty", &[]);
    assert_eq!(
        run(&[longest.path(), longer.path(), empty.path(), vast.path(), longest.path()]),
        (
            "too long 1
too long 3
opened 3 accepted 2 refused 1 bytes 131072
refusal 1 1
edition 0 2
stage unset 2
"
            .into(),
            0
        )
    );
}

#[cfg(unix)]
#[test]
fn a_name_that_is_no_text() {
    use std::ffi::OsStr;
    use std::os::unix::ffi::OsStrExt;
    let file = Temporary::new("figures-no-text", &m());
    let odd = [file.path().as_bytes(), b"\xff\n\x80"].concat();
    let odd = OsStr::from_bytes(&odd);
    std::fs::rename(file.path(), odd).unwrap();
    let printed = run_program(env!("CARGO_BIN_EXE_reference-figures"), &[odd, OsStr::new("\n")]);
    std::fs::remove_file(odd).unwrap();
    let expected = "cannot open 1
opened 1 accepted 1 refused 0 bytes 92
edition 0 1
stage unset 1
";
    assert_eq!(printed, (expected.into(), 0));
}

/// What the program prints for 65,540 names: one that can't be opened, 65,535 that are
/// counted, a directory, one that is too long, and two more.
#[cfg(unix)]
#[test]
fn more_names_than_are_counted() {
    let folder = std::path::Path::new(env!("CARGO_TARGET_TMPDIR"));
    let folder = folder.join(format!("figures-full-{}", std::process::id()));
    std::fs::create_dir_all(&folder).unwrap();
    for (name, bytes) in [("m", m()), ("e", early()), ("l", vec![0; 65_537])] {
        std::fs::write(folder.join(name), bytes).unwrap();
    }
    // Short names, since a command line has a limit as well.
    let mut names = vec!["m"; 65_540];
    names[0] = "x";
    names[65_535] = "e";
    names[65_536] = ".";
    names[65_537] = "l";
    names[65_539] = "e";
    let program = env!("CARGO_BIN_EXE_reference-figures");
    let output =
        std::process::Command::new(program).args(&names).current_dir(&folder).output().unwrap();
    std::fs::remove_dir_all(&folder).unwrap();
    assert!(output.stderr.is_empty());
    assert_eq!(output.status.code(), Some(0));
    let expected = "cannot open 0
cannot open 65536
too long 65537
full 65538
full 65539
opened 65535 accepted 65534 refused 1 bytes 6029128
refusal 8 1
edition 0 65534
stage unset 65534
";
    assert_eq!(String::from_utf8(output.stdout).unwrap(), expected);
}

#[cfg(target_os = "linux")]
#[test]
fn output_that_cannot_be_written() {
    let full = std::fs::OpenOptions::new().write(true).open("/dev/full").unwrap();
    let program = env!("CARGO_BIN_EXE_reference-figures");
    let status = std::process::Command::new(program).stdout(full).status().unwrap();
    assert_eq!(status.code(), Some(1));
}
