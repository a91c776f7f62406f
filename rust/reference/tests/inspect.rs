//! The lines of the small program.

mod common;
use common::*;
use reference::{inspect, open, open_default, show, KNOWN};
use std::io::Write;
use std::process::{Command, Stdio};

fn printed(bytes: &[u8]) -> String {
    String::from_utf8(inspect(bytes)).expect("all that is printed is ASCII")
}

/// What is printed for the data beside a DXIL part.
fn of_psv0(data: &[u8]) -> String {
    printed(&shader(data))
}

#[test]
fn box_m() {
    let expected = "accepted 0 2\nDXIL 40 4 known\nPSV0 52 32 known\n";
    assert_eq!(of_psv0(&common::box_m().bytes()), expected);
}

#[test]
fn box_c() {
    let expected = "accepted 3 2\nDXIL 40 4 known\nPSV0 52 76 known\n";
    let mut psv0 = common::box_c();
    assert_eq!(of_psv0(&psv0.bytes()), expected);
    // No entry name is bad to edition 1.
    for offset in [0, 5, 7, 8, 9, 1 << 31, u32::MAX] {
        put4(&mut psv0.runtime, 48, offset);
        let bytes = shader(&psv0.bytes());
        assert_eq!(printed(&bytes), expected, "name offset {offset}");
        let at_three = if offset < 8 { Ok(()) } else { refused(24, 0) };
        assert_eq!(answer(open(&bytes, 3)), at_three);
        assert_eq!(answer(open_default(&bytes)), at_three);
    }
    // Nor is one without a string table.
    psv0.strings.clear();
    assert_eq!(of_psv0(&psv0.bytes()), expected.replace("76", "68"));
    assert_eq!(answer(open_default(&shader(&psv0.bytes()))), refused(24, 0));
}

#[test]
fn the_edition_is_the_files() {
    for (size, edition) in [(24, 0), (32, 0), (36, 1), (44, 1), (48, 2), (52, 3), (56, 3)] {
        let data = Psv0::of_size(size).bytes();
        let expected =
            format!("accepted {edition} 2\nDXIL 40 4 known\nPSV0 52 {} known\n", data.len());
        assert_eq!(of_psv0(&data), expected);
    }
}

#[test]
fn refusals_of_the_table() {
    assert_eq!(printed(&[]), "refused 1 0\n");
    let good = shader(&common::box_m().bytes());
    assert_eq!(printed(&good[..31]), "refused 1 0\n");
    assert_eq!(printed(&good[..32]), "refused 5 0\n");
    let with = |at: usize, number: u32| {
        let mut bytes = good.clone();
        put4(&mut bytes, at, number);
        printed(&bytes)
    };
    assert_eq!(with(0, 0), "refused 3 0\n");
    assert_eq!(with(20, 0), "refused 4 0\n");
    assert_eq!(with(24, 93), "refused 5 0\n");
    assert_eq!(with(28, 97), "refused 6 0\n");
    assert_eq!(with(28, 96), "refused 7 0\n");
    assert_eq!(with(32, 39), "refused 8 0\n");
    assert_eq!(with(36, 51), "refused 8 1\n");
    assert_eq!(with(56, 33), "refused 8 1\n");
    let twice = container(&[(b"AAAA", b""), (b"DXIL", b"x"), (b"BBBB", b""), (b"AAAA", b"")]);
    assert_eq!(printed(&twice), "refused 9 3\n");
    let twice = container(&[(b"PRIV", b"one"), (b"AAAA", b""), (b"PRIV", b"two"), (b"AAAA", b"")]);
    assert_eq!(printed(&twice), "refused 9 3\n");
    let twice = container(&[(b"PRIV", b"one"), (b"PRIV", b"two")]);
    assert_eq!(printed(&twice), "refused 10 0\n", "a second PRIV is no fault");
}

#[test]
fn several_private_parts() {
    // Neither how many stood earlier nor the gaps are printed.
    let psv0 = common::box_m().bytes();
    let bytes = gapped(
        &[
            (1, b"PRIV", b"one"),
            (0, b"PSV0", &psv0),
            (7, b"PRIV", b""),
            (0, b"DXIL", b"code"),
            (0, b"PRIV", b"three"),
        ],
        9,
    );
    let expected = "accepted 0 5
PRIV 53 3 known
PSV0 64 32 known
PRIV 111 0 known
DXIL 119 4 known
PRIV 131 5 known
";
    assert_eq!(printed(&bytes), expected);
    // As many as there may be, and one more.
    for count in [96, 97] {
        let mut parts: Vec<(&[u8; 4], &[u8])> = vec![(b"PRIV", b"abc"); count - 2];
        parts.extend([(b"DXIL", &b"code"[..]), (b"PSV0", &psv0)]);
        let text = printed(&container(&parts));
        if count == 97 {
            assert_eq!(text, "refused 6 0\n");
            continue;
        }
        let lines: Vec<&str> = text.lines().collect();
        assert_eq!(lines.len(), 97);
        assert_eq!(lines[..2], ["accepted 0 96", "PRIV 416 3 known"]);
        assert_eq!(lines[94..], ["PRIV 1439 3 known", "DXIL 1450 4 known", "PSV0 1462 32 known"]);
    }
}

#[test]
fn refusals_of_the_opening() {
    let psv0 = common::box_m().bytes();
    assert_eq!(printed(&container(&[])), "refused 10 0\n");
    assert_eq!(printed(&container(&[(b"PSV0", &psv0)])), "refused 10 0\n");
    assert_eq!(printed(&container(&[(b"PSV0", &psv0), (b"DXIL", b"")])), "refused 10 0\n");
    assert_eq!(printed(&container(&[(b"psv0", &psv0), (b"DXIL", b"x")])), "refused 11 0\n");
    for (size, number) in [(20, 12), (26, 12), (32, 13)] {
        let mut data = psv0.clone();
        put4(&mut data, 0, size);
        assert_eq!(of_psv0(&data), format!("refused {number} 0\n"), "S = {size}");
    }
    assert_eq!(of_psv0(&psv0[..28]), "refused 14 0\n");

    // Edition 1 judges what edition 0 passes over.
    for (at, value, number) in [(24, 16, 15), (25, 2, 16), (33, 1, 17), (28, 1, 20)] {
        let mut psv0 = Psv0::of_size(36);
        psv0.runtime[at] = value;
        let bytes = shader(&psv0.bytes());
        assert_eq!(answer(open(&bytes, 0)), Ok(()));
        assert_eq!(printed(&bytes), format!("refused {number} 0\n"), "byte {at}");
    }
    let hull = hull();
    let with = |at: usize, number: u32| {
        let mut data = hull.bytes();
        put4(&mut data, at, number);
        of_psv0(&data)
    };
    assert_eq!(with(hull.strings_at(), 15), "refused 18 0\n");
    assert_eq!(with(hull.indices_at(), u32::MAX), "refused 19 0\n");
    assert_eq!(with(hull.elements_at(), 12), "refused 20 0\n");
    let data = hull.bytes();
    assert_eq!(of_psv0(&data[..data.len() - 1]), "refused 21 0\n");
}

#[test]
fn refusals_at_an_element() {
    for place in 0..3 {
        let mut psv0 = hull();
        put4(&mut psv0.elements, 16 * place, 16);
        assert_eq!(of_psv0(&psv0.bytes()), format!("refused 22 {place}\n"));
        let mut psv0 = hull();
        put4(&mut psv0.elements, 16 * place + 4, 7);
        assert_eq!(of_psv0(&psv0.bytes()), format!("refused 23 {place}\n"));
        // 22 first, and before 24, which this edition doesn't look for.
        put4(&mut psv0.elements, 16 * place, 16);
        psv0.runtime[48] = 16;
        assert_eq!(of_psv0(&psv0.bytes()), format!("refused 22 {place}\n"));
    }
}

#[test]
fn names() {
    let psv0 = common::box_m().bytes();
    let bytes = container(&[
        (b"\x20!~\x7f", b""),
        (b"PSV0", &psv0),
        (b"\0\n\x80\xff", b"abc"),
        (b"psv0", b""),
        (b"\x1fDX\x21", b"x"),
        (b"DXIL", b"code"),
        (b"????", b""),
    ]);
    assert_eq!(
        printed(&bytes),
        "accepted 0 7
?!~? 60 0 unknown
PSV0 68 32 known
???? 108 3 unknown
psv0 119 0 unknown
?DX! 127 1 unknown
DXIL 136 4 known
???? 148 0 unknown
"
    );
    // Every byte of a name by itself.
    for byte in 0..=255u8 {
        let name = [b'a', byte, b'z', b'0'];
        let bytes = container(&[(b"DXIL", b"code"), (&name, b""), (b"PSV0", &psv0)]);
        let shown = if (33..=126).contains(&byte) { char::from(byte) } else { '?' };
        let line = format!("\na{shown}z0 56 0 unknown\n");
        assert!(printed(&bytes).contains(&line), "byte {byte}");
    }
}

#[test]
fn known_names() {
    let psv0 = common::box_m().bytes();
    let parts: Vec<(&[u8; 4], &[u8])> = KNOWN.iter().map(|name| (name, &psv0[..])).collect();
    let text = printed(&container(&parts));
    let mut lines = text.lines();
    assert_eq!(lines.next(), Some("accepted 0 24"));
    for (i, name) in KNOWN.iter().enumerate() {
        let name = std::str::from_utf8(name).unwrap();
        let expected = format!("{name} {} 32 known", 32 + 4 * 24 + 40 * i);
        assert_eq!(lines.next(), Some(&expected[..]));
    }
    assert_eq!(lines.next(), None);
}

#[test]
fn most_parts_and_gaps() {
    let psv0 = common::box_m().bytes();
    for count in [96, 97] {
        let names: Vec<[u8; 4]> = (2..count).map(|i| [b'#', i as u8, 200, b'.']).collect();
        let mut parts: Vec<(&[u8; 4], &[u8])> = vec![(b"DXIL", b"code"), (b"PSV0", &psv0)];
        parts.extend(names.iter().map(|name| (name, &b"abc"[..])));
        let text = printed(&spread(&parts, || vec![0xee; 5]));
        if count == 97 {
            assert_eq!(text, "refused 6 0\n");
            continue;
        }
        let lines: Vec<&str> = text.lines().collect();
        assert_eq!(lines.len(), 97);
        assert_eq!(lines[..3], ["accepted 0 96", "DXIL 421 4 known", "PSV0 438 32 known"]);
        assert_eq!(lines[3], "#??. 483 3 unknown");
        assert_eq!(lines[96], format!("#_?. {} 3 unknown", 483 + 16 * 93));
    }
}

#[test]
fn as_the_other_program_at_edition_one() {
    let mut random = Random(0x0123_4567_89ab_cdef);
    let (mut accepted, mut refused, mut several) = (0, 0, 0);
    for _ in 0..20_000 {
        let psv0 = made(&mut random).bytes();
        let mut parts: Vec<(&[u8; 4], &[u8])> = vec![(b"DXIL", b"code"), (b"PSV0", &psv0)];
        for _ in 0..random.pick(&[0, 0, 1, 2, 3]) {
            parts.insert(random.below(parts.len() + 1), (b"PRIV", b"note"));
        }
        let mut bytes = spread(&parts, || vec![0xee; random.pick(&[0, 0, 1, 6])]);
        damage(&mut random, &mut bytes);
        let text = show(&bytes, 1);
        if text.starts_with("refused ") {
            refused += 1;
            assert_eq!(printed(&bytes), text);
            continue;
        }
        accepted += 1;
        several += usize::from(text.contains(" PRIV ") && text.contains(" occurrence 1 gap "));
        let lines: Vec<&str> = text.lines().collect();
        let edition = lines[0].split(' ').nth(1).unwrap();
        let count = lines[1].strip_prefix("parts ").unwrap();
        let mut expected = format!("accepted {edition} {count}\n");
        for line in lines.iter().filter(|line| line.starts_with("part ")) {
            let entry = line.splitn(3, ' ').nth(2).unwrap();
            expected.push_str(entry.split_once(" occurrence ").unwrap().0);
            expected.push('\n');
        }
        assert_eq!(printed(&bytes), expected);
    }
    assert!(accepted > 5_000 && refused > 2_000, "{accepted} accepted, {refused} refused");
    assert!(several > 2_000, "{several} with several private parts");
}

/// The box M followed by other bytes up to the length.
fn of_length(length: usize) -> Vec<u8> {
    let mut bytes = shader(&common::box_m().bytes());
    bytes.resize(length, 0xee);
    put4(&mut bytes, 24, length as u32);
    bytes
}

#[test]
fn the_limit() {
    let box_m = of_psv0(&common::box_m().bytes());
    assert_eq!(printed(&of_length(65_535)), box_m);
    assert_eq!(printed(&of_length(65_536)), box_m);
    assert_eq!(printed(&of_length(65_537)), "too long\n");
    // Whatever the bytes are.
    assert_eq!(printed(&[0; 65_536]), "refused 3 0\n");
    assert_eq!(printed(&[0; 65_537]), "too long\n");
    assert_eq!(printed(&vec![0; 16_777_217]), "too long\n");
    let mut bytes = of_length(65_537);
    put4(&mut bytes, 24, 65_536);
    assert_eq!(printed(&bytes[..65_536]), box_m);
    assert_eq!(printed(&bytes), "too long\n");
}

fn run(input: &[u8]) -> (Vec<u8>, i32) {
    let mut child = Command::new(env!("CARGO_BIN_EXE_reference-inspect"))
        .stdin(Stdio::piped())
        .stdout(Stdio::piped())
        .stderr(Stdio::piped())
        .spawn()
        .unwrap();
    // The program need not read what is past its limit.
    let wrote = child.stdin.take().unwrap().write_all(input);
    assert!(wrote.is_ok() || input.len() > 65_537);
    let output = child.wait_with_output().unwrap();
    assert!(output.stderr.is_empty());
    (output.stdout, output.status.code().unwrap())
}

#[test]
fn the_program() {
    let mut bad_name = common::box_c();
    bad_name.runtime[48] = 8;
    let inputs = [
        Vec::new(),
        shader(&common::box_m().bytes()),
        shader(&common::box_c().bytes()),
        shader(&bad_name.bytes()),
        shader(&hull().bytes()),
        container(&[(b"PRIV", b""), (b"PRIV", b"")]),
        of_length(65_536),
        of_length(65_537),
        of_length(1_000_000),
    ];
    for input in inputs {
        assert_eq!(run(&input), (inspect(&input), 0), "{} bytes", input.len());
    }
    assert_eq!(run(&[]).0, b"refused 1 0\n");
    assert_eq!(run(&of_length(65_537)).0, b"too long\n");
}
