//! The program header of the DXIL part: refusals 40 to 42, fields, the bitcode,
//! and the two stages.

mod common;
use common::*;
use reference::{open, program, program_report, show, Program, Stages};
use std::path::Path;

/// A container with the DXIL and PSV0 data.
fn with(data: &[u8], psv0: &Psv0) -> Vec<u8> {
    container(&[(b"DXIL", data), (b"PSV0", &psv0.bytes())])
}

/// PSV0 data of edition 1 with the stage.
fn of_stage(stage: u8) -> Psv0 {
    let mut psv0 = Psv0::of_size(36);
    psv0.runtime[24] = stage;
    psv0
}

/// DXIL data of the length, with these as offset and size of the bitcode.
fn reaching(length: usize, offset: u32, size: u32) -> Vec<u8> {
    let mut data = dxil(5, &[]);
    data.extend((24..length).map(|at| at as u8));
    put4(&mut data, 16, offset);
    put4(&mut data, 20, size);
    assert_eq!(data.len(), length);
    data
}

/// The refusal is the same alone and in a container, which still opens.
fn refuses(data: &[u8], number: u8) {
    assert_eq!(program(data), refused(number, 0), "alone");
    for psv0 in [box_m(), box_c()] {
        let bytes = with(data, &psv0);
        for edition in 0..=3 {
            assert_eq!(answer(open(&bytes, edition)), Ok(()));
            assert_eq!(program_report(&bytes, edition), refused(number, 0), "in a container");
        }
    }
}

/// The bitcode is that stretch of the data, alone and in a container.
fn accepts(data: &[u8], from: usize, to: usize) {
    let alone = program(data).expect("accepted alone");
    assert_eq!((alone.bitcode_at, alone.bitcode), (from, &data[from..to]));
    assert_eq!(alone.bitcode.as_ptr(), data[from..].as_ptr(), "a view of the data");
    for psv0 in [box_m(), box_c()] {
        let bytes = with(data, &psv0);
        for edition in 0..=3 {
            let report = program_report(&bytes, edition).expect("accepted in a container");
            assert_eq!(report.program, alone);
            assert_eq!(report.bitcode_at, 48 + from);
            let view = report.program.bitcode;
            assert_eq!(view.as_ptr(), bytes[48 + from..].as_ptr(), "a view of the container");
        }
    }
}

#[test]
fn under_24_bytes() {
    let data = dxil(5, b"bitcode");
    let mut wrong = data.clone();
    wrong[8] = 0;
    put4(&mut wrong, 16, u32::MAX);
    assert_eq!(program(&[]), refused(40, 0));
    for length in 1..24 {
        refuses(&data[..length], 40);
        refuses(&wrong[..length], 40);
    }
    accepts(&dxil(5, &[]), 24, 24);
    refuses(&data[..24], 42);
    refuses(&wrong[..24], 41);
}

#[test]
fn the_mark() {
    for at in 8..12 {
        let right = dxil(5, b"bitcode");
        for byte in 0..=255 {
            let mut data = right.clone();
            data[at] = byte;
            if byte == right[at] {
                accepts(&data, 24, 31);
            } else {
                assert_eq!(program(&data), refused(41, 0), "byte {at} as {byte}");
            }
        }
        let mut data = right.clone();
        data[at] ^= 0x20;
        refuses(&data, 41);
        put4(&mut data, 20, u32::MAX);
        refuses(&data, 41);
    }
    for mark in [b"LIXD", b"DXBC", b"dxil", b"\0\0\0\0"] {
        let mut data = dxil(5, b"bitcode");
        data[8..12].copy_from_slice(mark);
        refuses(&data, 41);
    }
}

#[test]
fn the_end_of_the_bitcode() {
    // At the length, and one above it by either field.
    for length in [24, 25, 31, 40, 300] {
        let rest = length as u32 - 8;
        for offset in [0, 1, 15, 16, rest - 1, rest] {
            let size = rest - offset;
            accepts(&reaching(length, offset, size), 8 + offset as usize, length);
            refuses(&reaching(length, offset, size + 1), 42);
            refuses(&reaching(length, offset + 1, size), 42);
            if size > 0 {
                let to = length - 1;
                accepts(&reaching(length, offset, size - 1), 8 + offset as usize, to);
            }
        }
        accepts(&reaching(length, rest, 0), length, length);
        refuses(&reaching(length, rest + 1, 0), 42);
    }
    // No sum wraps: 8 + offset, offset + size, and all three.
    for (offset, size) in [
        (u32::MAX, 0),
        (u32::MAX, 1),
        (u32::MAX, u32::MAX),
        (0, u32::MAX),
        (16, u32::MAX),
        (16, u32::MAX - 7),
        (16, u32::MAX - 15),
        (16, u32::MAX - 23),
        (u32::MAX - 7, 0),
        (u32::MAX - 7, 16),
        (u32::MAX - 15, 16),
        (u32::MAX - 15, 24),
        (1 << 31, 1 << 31),
        ((1 << 31) + 16, 1 << 31),
        ((1 << 31) - 8, 1 << 31),
        (1 << 31, 0),
        (0, 1 << 31),
    ] {
        for length in [24, 40, 300] {
            refuses(&reaching(length, offset, size), 42);
        }
    }
}

#[test]
fn an_offset_inside_the_header() {
    for offset in 0..16 {
        let from = 8 + offset as usize;
        accepts(&reaching(40, offset, 7), from, from + 7);
    }
    let data = reaching(24, 0, 4);
    assert_eq!(program(&data).unwrap().bitcode, b"DXIL");
}

#[test]
fn every_field() {
    let data = b"\x6a\xe1\x05\x01\x78\x56\x34\x12DXIL\x0b\xfc\xe2\xe3\x12\0\0\0\x03\0\0\0..bit..";
    let expected = Program {
        major: 6,
        minor: 10,
        stage: 261,
        words: 0x1234_5678,
        bitcode_major: 252,
        bitcode_minor: 11,
        bitcode_offset: 18,
        bitcode_size: 3,
        bitcode_at: 26,
        bitcode: b"bit",
    };
    assert_eq!(program(data), Ok(expected));
    let report = program_report(&with(data, &box_c()), 3).map(|report| {
        (report.program == expected, report.bitcode_at, report.psv0_stage, report.stages)
    });
    assert_eq!(report, Ok((true, 48 + 26, Some(5), Stages::Different)));
    for version in 0..=255 {
        let mut data = *data;
        data[0] = version;
        let (major, minor) = (u32::from(version) / 16, u32::from(version) % 16);
        assert_eq!(program(&data), Ok(Program { major, minor, ..expected }));
    }
    // The unused bytes are left out.
    for at in [1, 14, 15] {
        let mut data = *data;
        data[at] ^= 255;
        assert_eq!(program(&data), Ok(expected), "byte {at}");
    }
    // The size in words is shown, whatever it is.
    for words in [0, 1, 6, 7, 8, 1 << 30, u32::MAX] {
        let mut data = *data;
        put4(&mut data, 4, words);
        assert_eq!(program(&data), Ok(Program { words, ..expected }));
    }
}

#[test]
fn stages_side_by_side() {
    for psv0_stage in 0..=15u8 {
        let mut newer = Psv0::of_size(52);
        newer.runtime[24] = psv0_stage;
        newer.strings = vec![0; 4];
        for psv0 in [of_stage(psv0_stage), newer] {
            let near = (0..=16).chain([255, 261, 0x0500, 0x0505, 0xff05, u16::MAX]);
            for stage in near.chain([256 + u16::from(psv0_stage)]) {
                let bytes = with(&dxil(stage, b"bitcode"), &psv0);
                for edition in 0..=3 {
                    let report = program_report(&bytes, edition).unwrap();
                    assert_eq!(report.program.stage, u32::from(stage));
                    let expected = if edition == 0 {
                        (None, Stages::Unset)
                    } else if stage == u16::from(psv0_stage) {
                        (Some(u32::from(psv0_stage)), Stages::Equal)
                    } else {
                        (Some(u32::from(psv0_stage)), Stages::Different)
                    };
                    assert_eq!((report.psv0_stage, report.stages), expected);
                }
            }
        }
    }
}

#[test]
fn a_stage_of_two_bytes() {
    let stages = |stage| program_report(&with(&dxil(stage, &[]), &of_stage(5)), 1).unwrap().stages;
    assert_eq!(stages(5), Stages::Equal);
    assert_eq!(stages(261), Stages::Different);
    assert_eq!(stages(5 << 8), Stages::Different);
}

#[test]
fn a_file_of_edition_zero() {
    for size in [24, 28, 32] {
        for stage in [0, 5, 261] {
            let bytes = with(&dxil(stage, b"bitcode"), &Psv0::of_size(size));
            for edition in 0..=3 {
                let report = program_report(&bytes, edition).unwrap();
                assert_eq!(report.program.stage, u32::from(stage));
                assert_eq!((report.psv0_stage, report.stages), (None, Stages::Unset));
            }
        }
    }
}

#[test]
fn refusals_of_opening_come_first() {
    let report = |bytes: &[u8], edition| answer(program_report(bytes, edition));
    let psv0 = box_c().bytes();
    let mut marked = dxil(5, &[]);
    marked[8] = 0;
    for data in [&dxil(5, &[])[..], b"short", &marked, &reaching(24, 16, 1)] {
        assert_eq!(report(&with(data, &box_c()), 4), refused(25, 0));
        assert_eq!(report(&with(data, &box_c()), usize::MAX), refused(25, 0));
        assert_eq!(report(&with(data, &box_c())[..31], 3), refused(1, 0));
        assert_eq!(report(&with(data, &box_c())[..40], 3), refused(5, 0));
        let twice = container(&[(b"DXIL", data), (b"PSV0", &psv0), (b"DXIL", data)]);
        assert_eq!(report(&twice, 3), refused(9, 2));
        assert_eq!(report(&container(&[(b"DXIL", data)]), 3), refused(11, 0));
        assert_eq!(report(&container(&[(b"DXIL", data), (b"PSV0", b"")]), 3), refused(12, 0));
        assert_eq!(report(&with(data, &of_stage(16)), 1), refused(15, 0));
        assert_eq!(report(&with(data, &of_stage(16)), 0), answer(program(data)));
        let mut psv0 = box_c();
        psv0.runtime[48] = 8;
        assert_eq!(report(&with(data, &psv0), 3), refused(24, 0));
        assert_eq!(report(&with(data, &psv0), 2), answer(program(data)));
        let mut psv0 = hull();
        put4(&mut psv0.elements, 16, u32::MAX);
        assert_eq!(report(&with(data, &psv0), 3), refused(22, 1));
    }
    assert_eq!(report(&container(&[(b"PSV0", &psv0)]), 3), refused(10, 0));
    assert_eq!(report(&with(&[], &box_c()), 3), refused(10, 0));
}

#[test]
fn where_the_part_lies() {
    // The DXIL part last, a gap before it, bytes after it.
    let data = dxil(3, b"bitcode");
    let psv0 = hull().bytes();
    let mut bytes = container(&[(b"HASH", b"abc"), (b"PSV0", &psv0), (b"DXIL", &data)]);
    let part = bytes.split_off(bytes.len() - 8 - data.len());
    bytes.extend_from_slice(b"a gap");
    let at = bytes.len();
    put4(&mut bytes, 40, at as u32);
    bytes.extend_from_slice(&part);
    bytes.extend_from_slice(b"bitcode");
    let length = bytes.len() as u32;
    put4(&mut bytes, 24, length);
    let report = program_report(&bytes, 3).unwrap();
    assert_eq!(report.bitcode_at, at + 8 + 24);
    assert_eq!(report.program.bitcode_at, 24);
    assert_eq!(report.program.bitcode, b"bitcode");
    assert_eq!(report.program.bitcode.as_ptr(), bytes[at + 8 + 24..].as_ptr());
    assert_eq!(report.stages, Stages::Equal);
    // The bytes after the part aren't the part's.
    put4(&mut bytes, at + 8 + 20, 8);
    assert_eq!(program_report(&bytes, 3), refused(42, 0));
}

#[test]
fn any_bytes_get_one_answer() {
    let mut random = Random(0x2468_ace0_1357_9bdf);
    let mut reached = [0; 4];
    for _ in 0..200_000 {
        let length = random.pick(&[0, 8, 16, 20, 24, 24]) + random.below(40);
        let mut data = random.bytes(length);
        if length >= 12 && !random.one_in(8) {
            data[8..12].copy_from_slice(b"DXIL");
        }
        if length >= 24 && !random.one_in(8) {
            let small = random.below(length) as u32;
            let offset = random.pick(&[0, 8, 15, 16, 16, small, u32::MAX, u32::MAX - 7]);
            put4(&mut data, 16, offset);
            let left = (length as u32 - 8).wrapping_sub(offset);
            let size = random.pick(&[0, 1, small, left, left, left.wrapping_add(1), u32::MAX]);
            put4(&mut data, 20, size);
        }
        let number = |at: usize| (0..4).map(|i| u128::from(data[at + i]) << (8 * i)).sum::<u128>();
        let expected = if length < 24 {
            40
        } else if data[8..12] != [0x44, 0x58, 0x49, 0x4c] {
            41
        } else if 8 + number(16) + number(20) > length as u128 {
            42
        } else {
            0
        };
        match program(&data) {
            Err(refusal) => assert_eq!((refusal.number, refusal.place), (expected, 0)),
            Ok(program) => {
                assert_eq!(expected, 0);
                let from = 8 + number(16) as usize;
                assert_eq!(program.bitcode_at, from);
                assert_eq!(program.bitcode, &data[from..from + number(20) as usize]);
                assert_eq!(u128::from(program.words), number(4));
                assert_eq!(u128::from(program.stage), number(2) % 65_536);
                assert_eq!(program.major * 16 + program.minor, u32::from(data[0]));
                assert_eq!(
                    program.bitcode_major * 256 + program.bitcode_minor,
                    u32::from(data[13]) * 256 + u32::from(data[12])
                );
            }
        }
        reached[usize::from(expected.max(39) - 39)] += 1;
    }
    assert!(reached.iter().all(|count| *count > 2_000), "{reached:?}");
}

#[test]
fn real_shaders() {
    let directory = Path::new(env!("CARGO_MANIFEST_DIR")).join("../../tests/vectors/real");
    let (mut shaders, mut others) = (0, 0);
    for entry in std::fs::read_dir(directory).expect("the vectors are there") {
        let path = entry.unwrap().path();
        let name = path.file_name().unwrap().to_str().unwrap().to_string();
        let bytes = std::fs::read(&path).unwrap();
        if name.contains("RootSig") {
            for edition in 0..=3 {
                assert_eq!(program_report(&bytes, edition), refused(10, 0), "{name}");
                assert_eq!(show(&bytes, edition), "refused 10 0\n");
            }
            others += 1;
            continue;
        }
        let stage = u32::from(name.contains("VertexShader"));
        for edition in 0..=3 {
            let opening = open(&bytes, edition).unwrap();
            let (_, data) = opening.part(*b"DXIL").unwrap();
            let report = program_report(&bytes, edition).unwrap();
            let p = report.program;
            assert_eq!(program(data), Ok(p));
            assert_eq!((p.major, p.minor, p.stage), (6, 0, stage), "{name}");
            assert_eq!((p.bitcode_major, p.bitcode_minor), (1, 0), "{name}");
            assert_eq!(4 * p.words as usize, data.len(), "{name}");
            assert_eq!(p.bitcode_offset, 16, "{name}");
            assert_eq!(p.bitcode_size as usize, data.len() - 24, "{name}");
            // The mark that LLVM's bitcode begins with.
            assert_eq!(&p.bitcode[..4], b"BC\xc0\xde", "{name}");
            let view = &bytes[report.bitcode_at..report.bitcode_at + p.bitcode.len()];
            assert_eq!((view, view.as_ptr()), (p.bitcode, p.bitcode.as_ptr()), "{name}");
            assert_eq!(report.psv0_stage, opening.runtime.stage);
            let expected = if edition == 0 {
                (None, Stages::Unset, "unset")
            } else {
                (Some(stage), Stages::Equal, "equal")
            };
            assert_eq!((report.psv0_stage, report.stages), (expected.0, expected.1), "{name}");
            let lines = format!(
                "\nprogram version 6 0 stage {stage} words {}\n\
                 bitcode version 1 0 offset 16 size {}\nstages {}\nsignature ISG1 ",
                data.len() / 4,
                data.len() - 24,
                expected.2
            );
            assert!(show(&bytes, edition).contains(&lines), "{name}");
        }
        shaders += 1;
    }
    assert_eq!((shaders, others), (7, 2));
}
