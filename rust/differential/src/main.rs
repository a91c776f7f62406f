//! Holds the compiled library against the independent reader on containers, places, settings files and lists of containers made at random.
//!
//!     differential [--cases N] [--seed S] [--only CASE]
//!
//! The first difference ends the run: it is printed with its seed and case, and its bytes are kept in a file.

mod compare;
mod demands;
mod entries;
mod faults;
mod figures;
mod lists;
mod make;
mod pairs;
mod places;
mod random;
mod records;
mod repeats;
mod replace;
mod roots;
mod rows;
mod settings;
mod signatures;
mod strings;
mod text;

use std::panic::{catch_unwind, AssertUnwindSafe};
use std::process::ExitCode;
use std::time::Instant;

use compare::{Call, Check, Hits, Mismatch, CALLS, CONTAINER, EDGES, NUMBERS, PLACED, PSV0, SEEN};
use make::{Parts, Pieces, SIZES};
use random::Random;
use strings::Way;
use text::{Frame, Table};

const LONGEST: usize = 16_777_216;

/// How often the checks with a condition were made.
#[derive(Default)]
struct Done {
    hits: Hits,
    accepted: [u64; 4],
    widenings: [u64; 4],
    plain: u64,
    round_trips: u64,
}

struct Arguments {
    cases: u64,
    seed: u64,
    only: Option<u64>,
}

fn arguments() -> Result<Arguments, String> {
    let mut arguments = Arguments { cases: 300_000, seed: 20_240_601, only: None };
    let mut words = std::env::args().skip(1);
    while let Some(word) = words.next() {
        let number = words.next().and_then(|number| number.parse().ok());
        let number = number.ok_or(format!("{word} needs a number"))?;
        match word.as_str() {
            "--cases" => arguments.cases = number,
            "--seed" => arguments.seed = number,
            "--only" => arguments.only = Some(number),
            _ => return Err("usage: differential [--cases N] [--seed S] [--only CASE]".to_string()),
        }
    }
    Ok(arguments)
}

fn main() -> ExitCode {
    let Arguments { cases, seed, only } = match arguments() {
        Ok(arguments) => arguments,
        Err(message) => {
            eprintln!("{message}");
            return ExitCode::from(2);
        }
    };
    println!("differential: {cases} cases, seed {seed}");
    let vectors = vectors();
    let start = Instant::now();
    let mut done = Done::default();
    let numbers = match only {
        Some(case) => case..case + 1,
        None => 0..cases,
    };
    if only.is_none() {
        if let Err(mismatch) = longest(&mut done.hits) {
            return report(seed, "the longest inputs", mismatch);
        }
        if let Err(mismatch) = pairs::fixed(seed, &mut done.hits) {
            return report(seed, "the tables of every run", mismatch);
        }
        if let Err(mismatch) = settings::fixed(seed) {
            return report(seed, "the settings files of every run", mismatch);
        }
        if let Err(mismatch) = figures::fixed(seed, &mut done.hits) {
            return report(seed, "the long lists of every run", mismatch);
        }
        if let Err(mismatch) = replace::fixed(seed, &mut done.hits) {
            return report(seed, "the long results of every run", mismatch);
        }
    }
    for number in numbers {
        let all = || {
            case(seed, number, &vectors, &mut done)?;
            pairs::case(seed, number, &mut done.hits)?;
            settings::case(seed, number, &mut done.hits)?;
            figures::case(seed, number, &mut done.hits)?;
            places::case(seed, number, &mut done.hits)?;
            replace::case(seed, number, &mut done.hits)
        };
        let outcome = catch_unwind(AssertUnwindSafe(all));
        let outcome = outcome.unwrap_or_else(|_| Err(Mismatch { what: "a panic".to_string(), bytes: Vec::new() }));
        if let Err(mismatch) = outcome {
            return report(seed, &format!("case {number}"), mismatch);
        }
    }
    let missed = summary(&done);
    println!("{:.1} seconds", start.elapsed().as_secs_f64());
    if only.is_none() && !missed.is_empty() {
        println!("never hit: {}", missed.join(", "));
        return ExitCode::FAILURE;
    }
    println!("differential: {cases} cases, no difference");
    ExitCode::SUCCESS
}

fn report(seed: u64, case: &str, mismatch: Mismatch) -> ExitCode {
    println!("MISMATCH: seed {seed}, {case}: {}", mismatch.what);
    let folder = concat!(env!("CARGO_MANIFEST_DIR"), "/../target");
    let file = std::path::Path::new(folder).join("differential-mismatch.bin");
    match std::fs::write(&file, &mismatch.bytes) {
        Ok(()) => println!("its {} bytes are in {}", mismatch.bytes.len(), file.display()),
        Err(error) => println!("its bytes can't be kept: {error}"),
    }
    ExitCode::FAILURE
}

/// Prints how often each number was given, and answers which of those that a call can give were not.
fn summary(done: &Done) -> Vec<String> {
    let mut missed = Vec::new();
    // Ten calls to a line.
    for (calls, counts) in CALLS.chunks(10).zip(done.hits.counts.chunks(10)) {
        print!("number  ");
        for (name, _) in calls {
            print!("{name:>12}");
        }
        println!();
        for number in 0..NUMBERS {
            if number != 0 && !calls.iter().any(|(_, can)| can.contains(&(number as u8))) {
                continue;
            }
            print!("{:>6}  ", if number == 0 { "ok".to_string() } else { number.to_string() });
            for ((name, can), counts) in calls.iter().zip(counts) {
                let count = counts[number];
                print!("{count:>12}");
                if count == 0 && (number == 0 || can.contains(&(number as u8))) {
                    missed.push(format!("{number} by {name}"));
                }
            }
            println!();
        }
    }
    for number in PLACED {
        print!("places of {number}:");
        for (call, (name, can)) in CALLS.iter().enumerate() {
            if can.contains(&number) {
                let places = &done.hits.places[call][usize::from(number)];
                print!(" {name} {} (to {})", places.len(), places.last().unwrap_or(&0));
                if places.len() < 3 {
                    missed.push(format!("three places of {number} by {name}"));
                }
            }
        }
        println!();
    }
    for (what, count) in SEEN.iter().zip(done.hits.seen) {
        println!("{what}: {count}");
        if count == 0 {
            missed.push(what.to_string());
        }
    }
    for (what, (read, written)) in EDGES.iter().zip(done.hits.edges_read.iter().zip(done.hits.edges_written)) {
        println!("{what}: read {read}, written {written}");
        if *read == 0 || written == 0 {
            missed.push(what.to_string());
        }
    }
    done.hits.strings.summary(&mut missed);
    done.hits.entries.summary(&mut missed);
    pairs::summary(&done.hits, &mut missed);
    settings::summary(&done.hits, &mut missed);
    figures::summary(&done.hits, &mut missed);
    places::summary(&done.hits, &mut missed);
    replace::summary(&done.hits, &mut missed);
    println!("containers accepted by readers 0 to 3: {:?}", done.accepted);
    println!("widenings for readers 0 to 3: {:?}", done.widenings);
    println!("round trips: {}, of them from plain form {}", done.round_trips, done.plain);
    for (what, count) in [
        ("a container accepted by each reader", done.accepted.iter().min()),
        ("a widening for each reader", done.widenings.iter().min()),
        ("a round trip", Some(&done.round_trips)),
        ("plain form", Some(&done.plain)),
    ] {
        if count == Some(&0) {
            missed.push(what.to_string());
        }
    }
    missed
}

/// The short ones among the outside vectors, if they are there.
fn vectors() -> Vec<Vec<u8>> {
    let mut files = Vec::new();
    for folder in ["llvm", "real"] {
        let folder = format!("{}/../../tests/vectors/{folder}", env!("CARGO_MANIFEST_DIR"));
        let entries = std::fs::read_dir(folder).into_iter().flatten().flatten();
        files.extend(entries.map(|entry| entry.path()));
    }
    files.sort();
    files.iter().filter_map(|file| std::fs::read(file).ok()).filter(|bytes| bytes.len() <= 8192).collect()
}

/// One container or PSV0 data, or both, looked at from every side.
fn case(seed: u64, number: u64, vectors: &[Vec<u8>], done: &mut Done) -> Check {
    let random = &mut Random::new(seed, number);
    match random.below(122) {
        0..=3 => {
            let bytes = make::any_bytes(random);
            container_case(random, &bytes, done)?;
            compare::dxil(&bytes, &mut done.hits)?;
            signatures::data(random, &bytes, &mut done.hits)?;
            roots::data(random, &bytes, &mut done.hits)?;
            psv0_case(random, &bytes, done)
        }
        4..=7 if !vectors.is_empty() => {
            let mut bytes = vectors[random.below(vectors.len())].clone();
            let fields = [0, 20, 24, 28, 32, 36];
            match random.below(4) {
                0 => (),
                1 => make::resize(random, &mut bytes),
                _ => make::damage(random, &mut bytes, &fields),
            }
            container_case(random, &bytes, done)
        }
        4..=29 => valid(random, done),
        // Flaws in PSV0 data, in a container that is right.
        30..=44 => {
            let mut pieces = Pieces::valid(random);
            pieces.flaw(random);
            let psv0 = pieces.bytes().0;
            within(random, &psv0, done)?;
            note_edges(&pieces, &psv0, done);
            Ok(())
        }
        // Damaged PSV0 data, in a container that is right.
        45..=69 => {
            let psv0 = make::damaged_psv0(random);
            within(random, &psv0, done)
        }
        70..=84 => {
            let bytes = make::damaged_container(random);
            container_case(random, &bytes, done)
        }
        85..=89 => {
            let bytes = make::resized_container(random);
            container_case(random, &bytes, done)
        }
        90..=95 => write_case(random, done),
        96..=99 => assemble_case(random, done),
        100 | 101 => dxil_case(random, done),
        102 | 103 => signature_case(random, done),
        104 | 105 => root_case(random, done),
        106..=113 => text_case(random, done),
        _ => repeat_case(random, done),
    }
}

/// A right container: everything above, widenings, round trips.
fn valid(random: &mut Random, done: &mut Done) -> Check {
    let pieces = if random.one_in(3) { Pieces::plain(random) } else { Pieces::valid(random) };
    let psv0 = pieces.bytes().0;
    let parts = make::parts(random, &psv0);
    let bytes = make::container(random, &parts).0;
    container_case(random, &bytes, done)?;
    for k in 0..4 {
        if qollqamir::raw::open(&bytes, k).verdict.number != 0 {
            return Err(Mismatch { what: format!("a right container is refused at {k}"), bytes });
        }
    }
    let k = random.below(4);
    if demands::widening(random, &pieces, &parts, &bytes, k)? {
        done.widenings[k] += 1;
        done.hits.entries.widening(&parts, k);
    }
    if random.one_in(4) {
        demands::reassembled(random, &bytes, &mut done.hits)?;
    }
    if random.one_in(3) {
        psv0_case(random, &psv0, done)?;
    }
    note_edges(&pieces, &psv0, done);
    Ok(())
}

/// What reader 3 came by among the references of PSV0 data that was made of pieces.
fn note_edges(pieces: &Pieces, psv0: &[u8], done: &mut Done) {
    let verdict = qollqamir::raw::psv0_open(psv0, 3).verdict;
    compare::index_edges(&pieces.indices, &pieces.elements, pieces.element_size, verdict, &mut done.hits.edges_read);
    done.hits.strings.sections(&pieces.judged(), verdict, Way::Read);
}

/// PSV0 data alone, and in a container.
fn within(random: &mut Random, psv0: &[u8], done: &mut Done) -> Check {
    let bytes = make::around(random, psv0);
    container_case(random, &bytes, done)?;
    psv0_case(random, psv0, done)
}

/// All calls on a container, at every edition and one that there is not.
fn container_case(random: &mut Random, bytes: &[u8], done: &mut Done) -> Check {
    compare::table(random, bytes, &mut done.hits)?;
    for edition in 0..4 {
        compare::reading(random, &CONTAINER, bytes, edition, &mut done.hits)?;
        if qollqamir::raw::open(bytes, edition).verdict.number == 0 {
            done.accepted[edition] += 1;
        }
    }
    let beyond = random.pick(&[4, 4, 5, 255, 256, usize::MAX, 1 << 32]);
    compare::reading(random, &CONTAINER, bytes, beyond, &mut done.hits)?;
    if random.one_in(3) {
        demands::editions(&CONTAINER, bytes)?;
        demands::programs(bytes)?;
        let openings = [0, 1, 2, 3].map(|edition| qollqamir::raw::open(bytes, edition));
        demands::signatures(bytes, &openings)?;
        demands::roots(bytes, &openings)?;
        demands::privates(bytes, &openings, &mut done.hits)?;
    }
    if let Ok((_, data)) = reference::table_part(bytes, *b"DXIL") {
        compare::dxil(data, &mut done.hits)?;
    }
    for part in reference::SignaturePart::ALL {
        if let Ok((_, data)) = reference::table_part(bytes, part.name()) {
            signatures::data(random, data, &mut done.hits)?;
        }
    }
    if let Ok((_, data)) = reference::table_part(bytes, *b"RTS0") {
        roots::data(random, data, &mut done.hits)?;
    }
    Ok(())
}

/// DXIL data alone: as made, damaged, cut or lengthened.
fn dxil_case(random: &mut Random, done: &mut Done) -> Check {
    for _ in 0..8 {
        let stage = random.below(16) as u8;
        let mut data = make::dxil(random, stage);
        compare::dxil(&data, &mut done.hits)?;
        if random.one_in(2) {
            make::damage(random, &mut data, &[0, 8, 16, 20]);
        } else {
            make::resize(random, &mut data);
        }
        compare::dxil(&data, &mut done.hits)?;
    }
    Ok(())
}

/// Signature data alone.
fn signature_case(random: &mut Random, done: &mut Done) -> Check {
    for _ in 0..4 {
        let count = random.below(6);
        let beside: Vec<Vec<u8>> = (0..count).map(|_| make::word(random)).collect();
        let made = make::signature(random, &beside);
        alone_case(random, made, make::signature_flaw, signatures::data, done)?;
    }
    Ok(())
}

/// Root signature data alone.
fn root_case(random: &mut Random, done: &mut Done) -> Check {
    for _ in 0..4 {
        let made = make::root(random);
        alone_case(random, made, make::root_flaw, roots::data, done)?;
    }
    Ok(())
}

/// A string under test as an element's name, as the entry name and as a name in a signature part; read, written and read back.
fn text_case(random: &mut Random, done: &mut Done) -> Check {
    let table = text::table(random, &Frame { front: 0, back: 0, unit: 4 });
    let count = 1 + random.below(4);
    let names = references(random, &table, count);
    let entry = other_reference(random, &table);
    let entry = (!random.one_in(3)).then_some(entry);
    let pieces = Pieces::around(random, &table.bytes, &names, entry);
    named_case(random, &pieces, done)?;
    let good = vec![table.zero; random.below(3)];
    let pieces = Pieces::around(random, &table.bytes, &good, Some(table.at));
    named_case(random, &pieces, done)?;
    signed_case(random, done)?;
    strings::agreed(&table.bytes, table.at)
}

/// A reference beside the one under test: mostly a good one.
fn other_reference(random: &mut Random, table: &Table) -> usize {
    let any = random.below(table.bytes.len());
    let good = text::good_place(random, &table.bytes, table.zero);
    random.pick(&[table.zero, table.zero, good, good, good, table.at, any, table.bytes.len()])
}

/// References into a table, of which one is under test.
fn references(random: &mut Random, table: &Table, count: usize) -> Vec<usize> {
    let own = random.below(count);
    (0..count).map(|i| if i == own { table.at } else { other_reference(random, table) }).collect()
}

/// PSV0 data in plain form whose strings are under test: written, read back, read with other sizes, and in a container.
fn named_case(random: &mut Random, pieces: &Pieces, done: &mut Done) -> Check {
    let edition = make::edition_of(pieces.runtime.len());
    let len = pieces.bytes().0.len();
    let more = random.below(9);
    let room = random.bytes(len + more);
    if let Ok(written) = compare::write(edition, pieces.sections(), &room, &mut done.hits)? {
        compare::texts(&PSV0, &written, 3, &mut done.hits)?;
    }
    let wide = pieces.widened(random);
    let psv0 = wide.bytes().0;
    note_edges(&wide, &psv0, done);
    for edition in [1 + random.below(2), 3] {
        compare::texts(&PSV0, &psv0, edition, &mut done.hits)?;
    }
    if len > 2048 {
        return Ok(());
    }
    match random.below(8) {
        0 => within(random, &psv0, done),
        1 => psv0_case(random, &psv0, done),
        _ => Ok(()),
    }
}

/// Signature data with a name under test, alone and in a container.
fn signed_case(random: &mut Random, done: &mut Done) -> Check {
    let count = if random.one_in(64) { 120 + random.below(30) } else { 1 + random.below(4) };
    let gap = 8 + random.below(33);
    let behind = random.one_in(2);
    let frame = Frame { front: gap + if behind { 0 } else { 32 * count }, back: if behind { 32 * count } else { 0 }, unit: 1 };
    let mut table = text::table(random, &frame);
    let first = if behind { table.bytes.len() - 32 * count } else { gap };
    let mut names = references(random, &table, count);
    for name in &mut names {
        if random.one_in(6) {
            *name = 0;
        }
    }
    make::signature_around(random, &mut table.bytes, first, &names);
    signatures::data(random, &table.bytes, &mut done.hits)?;
    if table.bytes.len() > 2048 || !random.one_in(4) {
        return Ok(());
    }
    let mut pieces = Pieces::valid(random);
    if random.one_in(3) {
        pieces.flaw(random);
    }
    let mut parts = make::parts(random, &pieces.bytes().0);
    let part = random.pick(&reference::SignaturePart::ALL).name();
    parts.retain(|other| other.0 != part);
    parts.push((part, table.bytes));
    let bytes = make::container(random, &parts).0;
    container_case(random, &bytes, done)
}

/// A part's data alone: as made, with a flaw, damaged, cut or lengthened.
fn alone_case(
    random: &mut Random,
    (data, fields): (Vec<u8>, Vec<usize>),
    flaw: fn(&mut Random, &mut Vec<u8>),
    compare: fn(&mut Random, &[u8], &mut Hits) -> Check,
    done: &mut Done,
) -> Check {
    compare(random, &data, &mut done.hits)?;
    let mut flawed = data.clone();
    flaw(random, &mut flawed);
    compare(random, &flawed, &mut done.hits)?;
    let mut damaged = data;
    if random.one_in(2) {
        make::damage(random, &mut damaged, &fields);
    } else {
        make::resize(random, &mut damaged);
    }
    compare(random, &damaged, &mut done.hits)
}

/// All calls on PSV0 data alone, and round trips.
fn psv0_case(random: &mut Random, psv0: &[u8], done: &mut Done) -> Check {
    for edition in 0..4 {
        compare::reading(random, &PSV0, psv0, edition, &mut done.hits)?;
    }
    let beyond = random.pick(&[4, 4, 5, 255, 256, usize::MAX, 1 << 32]);
    compare::reading(random, &PSV0, psv0, beyond, &mut done.hits)?;
    if random.one_in(3) {
        demands::editions(&PSV0, psv0)?;
    }
    let edition = if random.one_in(2) { 3 } else { random.below(3) };
    let before = done.hits.counts[Call::Assemble as usize][0];
    done.plain += u64::from(demands::round_trip(random, psv0, edition, &mut done.hits)?);
    done.round_trips += u64::from(done.hits.counts[Call::Assemble as usize][0] > before);
    Ok(())
}

/// The PSV0 writer on sections that are right, flawed, or of a wrong length, into outputs of every kind.
fn write_case(random: &mut Random, done: &mut Done) -> Check {
    let mut pieces = Pieces::plain(random);
    let mut edition = SIZES.iter().position(|size| *size == pieces.runtime.len()).unwrap();
    for _ in 0..4 {
        if random.one_in(2) {
            pieces.flaw(random);
        }
        let mut sections = pieces.sections().map(<[u8]>::to_vec);
        if random.one_in(3) {
            let section = random.below(6);
            let change = random.pick(&[1, 2, 4, 8, 16, 24]);
            let len = sections[section].len();
            if random.one_in(2) {
                sections[section].resize(len + change, 0);
            } else {
                sections[section].truncate(len.saturating_sub(change));
            }
        }
        if random.one_in(8) {
            edition = random.pick(&[0, 1, 2, 3, 4, 255, usize::MAX]);
        }
        let given = [0, 1, 2, 3, 4, 5].map(|section| &sections[section][..]);
        let all: usize = given.iter().map(|section| section.len()).sum();
        let room = random.bytes(all + 64);
        let needed = match compare::write(edition, given, &room, &mut done.hits)? {
            Ok(written) => written.len(),
            Err(_) => all,
        };
        for room in [needed, needed.saturating_sub(1), random.below(needed + 9), 0] {
            let room = random.bytes(room);
            compare::write(edition, given, &room, &mut done.hits).map(drop)?;
        }
    }
    Ok(())
}

/// Names for the assembler, of some of which several are PRIV.
fn any_names(random: &mut Random) -> Vec<u8> {
    if random.one_in(3) {
        return repeats::names(random).concat();
    }
    let count = match random.below(20) {
        0 => random.pick(&[95, 96, 97, 98]),
        1 => random.below(97),
        _ => random.below(6),
    };
    random.bytes(4 * count)
}

/// The assembler on parts that are right or break a rule.
fn assemble_case(random: &mut Random, done: &mut Done) -> Check {
    for _ in 0..4 {
        let mut names = any_names(random);
        let count = names.len() / 4;
        let mut sizes: Vec<u32> = (0..count).map(|_| random.below(12) as u32).collect();
        let len: usize = sizes.iter().sum::<u32>() as usize;
        let mut data = random.bytes(len);
        let mut digest = random.bytes(16);
        match random.below(12) {
            0 if count > 1 => {
                let (from, to) = (random.below(count), random.below(count));
                names.copy_within(4 * from..4 * from + 4, 4 * to);
            }
            1 if count > 0 => {
                let at = random.below(count);
                sizes[at] = random.pick(&[u32::MAX, 0x8000_0000, sizes[at] + 1, sizes[at].wrapping_sub(1)]);
            }
            2 => {
                let len = random.pick(&[0, 1, 15, 17, 32]);
                digest = random.bytes(len);
            }
            3 => make::resize(random, &mut names),
            4 => make::resize(random, &mut data),
            // Sizes whose sum is the data's length but for a multiple of 2^32.
            5 if count > 1 => {
                sizes[0] = u32::MAX - (len as u32 - sizes[0] - sizes[1]);
                sizes[1] = 1 + len as u32;
            }
            6 if count > 0 => {
                sizes.pop();
            }
            _ => (),
        }
        let room = random.bytes(len + 16 * count + 64);
        let needed = match compare::assemble(&names, &sizes, &data, &digest, &room, &mut done.hits)? {
            Ok(made) => made.len(),
            Err(_) => len,
        };
        for room in [needed, needed.saturating_sub(1), random.below(needed + 9), 0] {
            let room = random.bytes(room);
            compare::assemble(&names, &sizes, &data, &digest, &room, &mut done.hits).map(drop)?;
        }
    }
    Ok(())
}

/// Tables in which names repeat, or with no part: as made, damaged, cut or lengthened, and assembled; now and then all calls on them.
fn repeat_case(random: &mut Random, done: &mut Done) -> Check {
    for _ in 0..2 {
        let names = if random.one_in(8) { Vec::new() } else { repeats::names(random) };
        let parts = repeats::filled(random, &names);
        let (bytes, fields) = repeats::container(random, &parts);
        compare::table(random, &bytes, &mut done.hits)?;
        if bytes.len() < 4096 && random.one_in(8) {
            container_case(random, &bytes, done)?;
        }
        let mut damaged = bytes;
        if random.one_in(4) {
            make::resize(random, &mut damaged);
            let len = damaged.len() as u32;
            if len >= 28 {
                make::put4(&mut damaged, 24, len);
            }
        } else {
            make::damage(random, &mut damaged, &fields);
        }
        compare::table(random, &damaged, &mut done.hits)?;
        assembled_case(random, &parts, done)?;
    }
    Ok(())
}

/// Parts assembled, with room for them or a byte less, and the table of the result.
fn assembled_case(random: &mut Random, parts: &Parts, done: &mut Done) -> Check {
    let names: Vec<u8> = parts.iter().flat_map(|part| part.0).collect();
    let sizes: Vec<u32> = parts.iter().map(|part| part.1.len() as u32).collect();
    let data: Vec<u8> = parts.iter().flat_map(|part| part.1.clone()).collect();
    let room = random.bytes(data.len() + 16 * parts.len() + 64);
    let digest = random.bytes(16);
    let Ok(made) = compare::assemble(&names, &sizes, &data, &digest, &room, &mut done.hits)? else {
        return Ok(());
    };
    compare::assemble(&names, &sizes, &data, &digest, &room[..made.len() - 1], &mut done.hits).map(drop)?;
    compare::table(random, &made, &mut done.hits)
}

/// Inputs and results of the greatest length, and one byte or word more.
fn longest(hits: &mut Hits) -> Check {
    let random = &mut Random::new(1, 1);
    let psv0 = Pieces::valid_of(random, 52).bytes().0;
    let mut program = b"\x65\0\x05\0\x07\0\0\0DXIL\x07\x01\0\0\x10\0\0\0\x04\0\0\0code".to_vec();
    let names = [*b"ISG1", *b"OSG1", *b"PSG1"].map(|name| (name, make::signature(random, &[b"POSITION".to_vec()]).0));
    let mut parts = vec![(*b"DXIL", program.clone()), (*b"PSV0", psv0.clone())];
    parts.extend(names);
    parts.push((*b"RTS0", make::root(random).0));
    let mut bytes = make::container(random, &parts).0;
    for len in [LONGEST, LONGEST + 1] {
        bytes.resize(len, 0);
        make::put4(&mut bytes, 24, len as u32);
        compare::table(random, &bytes, hits)?;
        for edition in [0, 3, 4] {
            compare::reading(random, &CONTAINER, &bytes, edition, hits)?;
        }
    }
    let mut data = psv0;
    for len in [LONGEST, LONGEST + 1] {
        data.resize(len, 0);
        for edition in [0, 3, 4] {
            compare::reading(random, &PSV0, &data, edition, hits)?;
        }
    }
    // DXIL data alone may be longer than a container.
    program.resize(LONGEST + 9, 0);
    for size in [LONGEST - 15, LONGEST - 14] {
        make::put4(&mut program, 20, size as u32);
        compare::dxil(&program, hits)?;
    }
    // Signature data too: elements to their end, of which the last has a name at the last byte, then at the length; one byte past it.
    let count = LONGEST / 32 + 1;
    let mut elements = vec![0; 8 + 32 * count];
    let len = elements.len();
    make::put4(&mut elements, 0, count as u32);
    for (first, name) in [(8, len - 1), (8, len), (9, 0)] {
        make::put4(&mut elements, 4, first);
        make::put4(&mut elements, len - 28, name as u32);
        signatures::data(random, &elements, hits)?;
    }
    roots_far(random, hits)?;
    long_strings(random, hits)?;
    privates_far(random, hits)?;
    // 52 bytes beside the strings of edition 1; 44 beside the data of one part.
    let mut runtime = [0; 36];
    runtime[24] = 1;
    for strings in [LONGEST - 52, LONGEST - 48] {
        compare::write(1, [&runtime, &[], &data[..strings], &[], &[], &[]], &data[..LONGEST], hits).map(drop)?;
    }
    for size in [LONGEST - 44, LONGEST - 43] {
        compare::assemble(b"PRIV", &[size as u32], &data[..size], &[7; 16], &data[..LONGEST], hits).map(drop)?;
    }
    Ok(())
}

/// Strings in long tables, and in one that makes the longest PSV0 data: through the whole table, from everywhere in it, into a sequence,
/// with a fault at the end.
fn long_strings(random: &mut Random, hits: &mut Hits) -> Check {
    // 600 elements and the rest of PSV0 data of edition 3, with up to three numbers in the index table.
    let beside = 4 + 52 + 4 + 4 + 4 + 12 + 4 + 16 * 600;
    for len in [70_000, LONGEST - beside] {
        let mut table = "\u{20ac}".repeat(len / 3).into_bytes();
        table.resize(len, 0);
        // The last zero, and the last sequence's first byte.
        let (zero, last) = (len - 1, len - 6 - (len - 6) % 3);
        table[last + 3..].fill(b'A');
        table[zero] = 0;
        let all: Vec<usize> = (0..600).map(|_| 3 * random.below(len / 3 - 2)).collect();
        long_names(random, &table, &[0, last, all[0]], 0, hits)?;
        long_names(random, &table, &[0, last, all[0] + 1, 1], 1, hits)?;
        long_names(random, &table, &all, all[1] + 2, hits)?;
        table[last + 2] = b'A';
        long_names(random, &table, &[zero, last + 3], 0, hits)?;
        long_names(random, &table, &[last + 3, 0], 0, hits)?;
    }
    // Names of signature data alone, which may be longer than a container: over that edge, past it, with a fault past it.
    let edge = LONGEST;
    let mut data = vec![b'A'; edge + 600];
    let text = "\u{1d11e}".repeat(100).into_bytes();
    data[edge - 201..edge - 201 + text.len()].copy_from_slice(&text);
    data[edge + 599] = 0;
    let names = [edge - 201, edge - 1, edge + 3, edge + 200, edge + 599, 200];
    make::signature_around(random, &mut data, 8, &names);
    for (name, fault) in [(names[0], false), (edge - 2, false), (edge + 4, false), (names[0], true)] {
        make::put4(&mut data, 12 + 32, name as u32);
        if fault {
            data[edge + 198] = b'A';
        }
        signatures::long_data(&data, 1, hits)?;
    }
    Ok(())
}

/// PSV0 data with a long string table, read and written.
fn long_names(random: &mut Random, table: &[u8], names: &[usize], entry: usize, hits: &mut Hits) -> Check {
    let mut pieces = Pieces::around(random, table, names, Some(entry));
    pieces.elements.chunks_exact_mut(16).for_each(|element| element[4..9].fill(0));
    let psv0 = pieces.bytes().0;
    compare::texts(&PSV0, &psv0, 3, hits)?;
    hits.strings.sections(&pieces.judged(), qollqamir::raw::psv0_open(&psv0, 3).verdict, Way::Read);
    compare::write(3, pieces.sections(), &vec![7; psv0.len()], hits).map(drop)
}

/// Several PRIV parts in files of the greatest length and one byte more, most of it a gap or the data of one part, wherever it lies; and such
/// files with no part.
fn privates_far(random: &mut Random, hits: &mut Hits) -> Check {
    let parts: Parts = [*b"PRIV", *b"HASH", *b"PRIV", *b"PRIV"].map(|name| (name, vec![7; 3])).to_vec();
    let front = 32 + 4 * parts.len();
    let narrow = make::spaced(random, &parts, |_| 0).0;
    for len in [LONGEST, LONGEST + 1] {
        let more = len - narrow.len();
        for i in 0..=parts.len() {
            // The parts from i on move.
            let at = front + 11 * i;
            let mut bytes = narrow[..at].to_vec();
            bytes.resize(at + more, 9);
            bytes.extend_from_slice(&narrow[at..]);
            make::put4(&mut bytes, 24, len as u32);
            for moved in i..parts.len() {
                make::put4(&mut bytes, 32 + 4 * moved, (front + 11 * moved + more) as u32);
            }
            compare::table(random, &bytes, hits)?;
            // The same bytes as data of the part before.
            if i > 0 {
                make::put4(&mut bytes, at - 7, (3 + more) as u32);
                compare::table(random, &bytes, hits)?;
            }
        }
        let mut none = make::spaced(random, &Parts::new(), |_| 0).0;
        none.resize(len, 9);
        make::put4(&mut none, 24, len as u32);
        compare::table(random, &none, hits)?;
        // Two PRIV parts of an even length, assembled.
        let size = (LONGEST - 56) / 2;
        let (sizes, data) = ([size as u32, (size + len - LONGEST) as u32], vec![5; 2 * size + len - LONGEST]);
        compare::assemble(b"PRIVPRIV", &sizes, &data, &[7; 16], &none, hits).map(drop)?;
    }
    Ok(())
}

/// Root signature data alone, longer than a container or with more items than 16 bits count.
fn roots_far(random: &mut Random, hits: &mut Hits) -> Check {
    let header = |data: &mut [u8], numbers: [usize; 5]| {
        numbers.into_iter().enumerate().for_each(|(i, number)| make::put4(data, 4 * i, number as u32));
    };
    // Parameters, then samplers, to the end and to one byte past it. The parameters are tables whose data are the first 8 bytes.
    let mut data = vec![0; LONGEST + 9];
    let len = data.len();
    for past in [0, 1] {
        header(&mut data, [1, 2, len - 24 + past, 0, 0]);
        roots::data(random, &data, hits)?;
        header(&mut data, [2, 1, 24, 2, len - 104 + past]);
        roots::data(random, &data, hits)?;
    }
    // A table whose ranges end so.
    for past in [0, 1] {
        header(&mut data, [2, 1, 24, 0, 0]);
        make::put4(&mut data, 32, 36);
        make::put4(&mut data, 36, ((len - 44) / 24) as u32);
        make::put4(&mut data, 40, (len - (len - 44) / 24 * 24 + past) as u32);
        roots::data(random, &data, hits)?;
    }
    // Constants, all of the first 12 bytes; the last is bad by its type, then by its place.
    let count = 70_000;
    let mut data = vec![0; 24 + 12 * count];
    data[24..].iter_mut().step_by(12).for_each(|kind| *kind = 1);
    for (past, kind) in [(0, 1), (0, 5), (12, 1)] {
        header(&mut data, [1, count, 24 + past, 0, 0]);
        make::put4(&mut data, 12 + 12 * count, kind);
        roots::data(random, &data, hits)?;
    }
    Ok(())
}
