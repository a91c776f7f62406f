//! `cargo run --release --example figures DIRECTORY [COUNT]` writes 400 (or COUNT)
//! made-up files for the program of the night's figures. Of ten, two show the stages 0
//! to 15 in turn, two are such as every edition accepts, one has an entry name that
//! edition 3 refuses and edition 1 passes, three are refused with a number that was aimed
//! at (1 and 3 to 23 in turn), one is damaged anyhow, and one is empty. One file is of
//! 65,536 bytes, one of 65,537. It prints the figures at each edition; those at edition 1
//! are what the program ends with when it is given all of the files.

#[path = "../tests/common/mod.rs"]
mod common;
use common::hostile::*;
use common::*;
use reference::{open_psv0, Figures, LONGEST_READ};

/// The numbers of the two files at the limit.
const LONGEST_FILE: usize = 3;
const TOO_LONG_FILE: usize = 13;

fn main() {
    let Some((directory, count)) = directory_and_count("figures", 400) else {
        return;
    };
    let mut random = Random(0x0b5e_55ed_0ddb_a115);
    let mut figures = [0, 1, 2, 3].map(Figures::start);
    let mut aims = NUMBERS.iter().cycle();
    let mut stages = (0..16).cycle();
    for number in 0..count {
        let bytes = match number % 10 {
            0 | 5 => of_stage(&mut random, stages.next().expect("they never end")),
            1 | 4 | 8 => aimed(&mut random, *aims.next().expect("they never end")),
            2 => bad_entry_name(&mut random),
            6 => anyhow(&mut random),
            9 => Vec::new(),
            _ => good(&mut random),
        };
        let bytes = match number {
            LONGEST_FILE => stretched(&mut random, bytes, LONGEST_READ),
            TOO_LONG_FILE => stretched(&mut random, bytes, LONGEST_READ + 1),
            _ => bytes,
        };
        // As the program does, which doesn't count what is too long.
        if bytes.len() <= LONGEST_READ {
            for figures in &mut figures {
                figures.add(&bytes);
            }
        }
        // So many digits that 65,537 names are in order.
        let path = directory.join(format!("{number:05}.bin"));
        std::fs::write(path, bytes).expect("the file can be written");
    }
    for figures in &figures {
        print!("at edition {}\n{}", figures.edition, figures.text());
    }
    if count >= 400 {
        check(&figures);
    }
}

/// A container that edition 1 accepts with this stage.
fn of_stage(random: &mut Random, stage: u8) -> Vec<u8> {
    loop {
        let mut psv0 = good_psv0(random);
        if psv0.runtime.len() < 36 {
            continue;
        }
        psv0.runtime[24] = stage;
        // It may have masks or streams that the stage hasn't.
        let data = psv0.bytes();
        if open_psv0(&data, 1).is_ok() {
            let parts = around(random, data);
            return laid_out(random, &parts);
        }
    }
}

/// Every answer that there can be is among them.
fn check([at_0, at_1, _, at_3]: &[Figures; 4]) {
    for number in NUMBERS {
        assert!(at_1.refusals[usize::from(number)] > 0, "none refused with {number}");
    }
    assert!(at_1.editions.iter().all(|count| *count > 0), "an edition is missing");
    assert!(at_1.stages.iter().all(|count| *count > 0), "a stage is missing");
    assert!(at_1.unset > 0 && at_0.unset == at_0.accepted, "stages that are unset");
    assert!(at_3.refusals[24] > 0, "none refused with 24 at edition 3");
}
