//! The lines of `show`, and the program around them.

mod common;
#[path = "common/programs.rs"]
mod programs;
use common::*;
use programs::*;
use reference::show;

const UNSET_MASKS: &str = "mask 0 unset
mask 1 unset
mask 2 unset
mask 3 unset
mask 4 unset
mask 5 unset
mask 6 unset
mask 7 unset
mask 8 unset
mask 9 unset
mask 10 unset
";

/// The lines of a container without signature parts and root signature.
const NO_SIGNATURES: &str = "signature ISG1 refused 26 0
signature OSG1 refused 26 0
signature PSG1 refused 26 0
root_signature refused 26 0
";

#[test]
fn edition_zero() {
    let expected = format!(
        "edition 0 read 0
parts 2
pairs 1
part 0 DXIL 40 4 known occurrence 0 gap 0
part 1 PSV0 52 32 known occurrence 0 gap 0
stage_info 00000000000000000000000000000000
minimum_wave_lanes 0
maximum_wave_lanes 0
stage unset
uses_view_id unset
max_vertex_count unset
patch_vectors unset
mesh_topology unset
input_elements unset
output_elements unset
patch_elements unset
input_vectors unset
output_vectors_0 unset
output_vectors_1 unset
output_vectors_2 unset
output_vectors_3 unset
threads_x unset
threads_y unset
threads_z unset
entry_name_offset unset
entry_name unset
resources 0
strings unset
indices unset
elements unset
{UNSET_MASKS}program refused 40 0
{NO_SIGNATURES}"
    );
    for edition in 0..=3 {
        assert_eq!(show(&shader(&box_m().bytes()), edition), expected);
    }
}

/// Data of an ISG1 and a PSG1 part for the hull shader, whose one input is
/// `POS`, and whose one patch element has an empty name. The unused bytes are
/// 0xee.
fn signatures() -> (Vec<u8>, Vec<u8>) {
    let record = |name: u32| {
        let mut record = words(&[1, name, 2, 3, 4, 5]);
        record.extend_from_slice(&[6, 7, 0xee, 0xee, 8, 0, 0, 0]);
        record
    };
    let mut greatest = vec![0xff; 32];
    put4(&mut greatest, 4, 0);
    let mut inputs = words(&[3, 8]);
    inputs.extend([record(104), greatest, record(106)].concat());
    inputs.extend_from_slice(b"POS\0");
    let mut others = words(&[2, 8]);
    others.extend([record(75), record(0)].concat());
    others.extend_from_slice(b"xyz\0");
    (inputs, others)
}

#[test]
fn everything() {
    let data = hull().bytes();
    let code = dxil(3, b"bit");
    let (inputs, others) = signatures();
    let bytes = container(&[
        (b"\x20\x7f!~", b""),
        (b"DXIL", &code),
        (b"PSV0", &data),
        (b"OSG1", b"seven b"),
        (b"PSG1", &others),
        (b"ISG1", &inputs),
    ]);
    let mask = |from: usize, words: usize| -> String {
        hull().masks[from..from + 4 * words].iter().map(|byte| format!("{byte:02x}")).collect()
    };
    let psv0 = data.len();
    let expected = format!(
        "edition 3 read 3
parts 6
pairs 15
part 0 ??!~ 56 0 unknown occurrence 0 gap 0
part 1 DXIL 64 27 known occurrence 0 gap 0
part 2 PSV0 99 {psv0} known occurrence 0 gap 0
part 3 OSG1 {} 7 known occurrence 0 gap 0
part 4 PSG1 {} 76 known occurrence 0 gap 0
part 5 ISG1 {} 108 known occurrence 0 gap 0
stage_info a0a1a2a3a4a5a6a7a8a9aaabacadaeaf
minimum_wave_lanes 4
maximum_wave_lanes 4294967295
stage 3
uses_view_id 1
max_vertex_count unset
patch_vectors 9
mesh_topology unset
input_elements 1
output_elements 1
patch_elements 1
input_vectors 3
output_vectors_0 9
output_vectors_1 0
output_vectors_2 0
output_vectors_3 0
threads_x unset
threads_y unset
threads_z unset
entry_name_offset 1
entry_name \"main\" points 4
resources 2
resource 0 type 1 space 2 lower 3 upper 4 kind 5 flags 6
resource 1 type 10 space 20 lower 30 upper 40 kind 50 flags 60
strings 16
indices 6
elements 3
element 0 name \"POS\" points 3 indices [71 72 73] name_offset 6 index_reference 1 rows 3 start_row 2 columns 3 \
start_column 2 allocated 1 semantic 4 component 5 interpolation 6 dynamic_mask 15 stream 3 reserved 7
element 1 name \"B\" points 1 indices [] name_offset 10 index_reference 6 rows 0 start_row 0 columns 4 \
start_column 1 allocated 0 semantic 0 component 0 interpolation 0 dynamic_mask 1 stream 2 reserved 0
element 2 name \"\" points 0 indices [73 74 75] name_offset 0 index_reference 3 rows 3 start_row 255 columns 15 \
start_column 3 allocated 1 semantic 255 component 255 interpolation 255 dynamic_mask 15 stream 3 \
reserved 255
mask 0 {}
mask 1 empty
mask 2 empty
mask 3 empty
mask 4 {}
mask 5 {}
mask 6 empty
mask 7 empty
mask 8 empty
mask 9 {}
mask 10 empty
program version 6 5 stage 3 words 7
bitcode version 1 7 offset 16 size 3
stages equal
signature ISG1 elements 3
signature ISG1 0 name \"POS\" points 3 name_offset 104 index 2 stream 1 system_value 3 component 4 register 5 \
mask 6 exclusive_mask 7 precision 8
signature ISG1 1 name unset name_offset 0 index 4294967295 stream 4294967295 system_value 4294967295 \
component 4294967295 register 4294967295 mask 255 exclusive_mask 255 precision 4294967295
signature ISG1 2 name \"S\" points 1 name_offset 106 index 2 stream 1 system_value 3 component 4 register 5 \
mask 6 exclusive_mask 7 precision 8
signature ISG1 first_difference 2
signature OSG1 refused 43 0
signature PSG1 elements 2
signature PSG1 0 name \"\" points 0 name_offset 75 index 2 stream 1 system_value 3 component 4 register 5 \
mask 6 exclusive_mask 7 precision 8
signature PSG1 1 name unset name_offset 0 index 2 stream 1 system_value 3 component 4 register 5 \
mask 6 exclusive_mask 7 precision 8
signature PSG1 first_difference none
root_signature refused 26 0
",
        107 + psv0,
        107 + psv0 + 15,
        107 + psv0 + 15 + 84,
        mask(0, 2),
        mask(8, 2),
        mask(16, 24),
        mask(112, 24),
    );
    assert_eq!(show(&bytes, 3), expected);
    // Reader 1 differs in the entry name and the resources' later fields alone.
    let first = expected
        .replace("read 3", "read 1")
        .replace("entry_name_offset 1", "entry_name_offset unset")
        .replace("entry_name \"main\" points 4", "entry_name unset")
        .replace("kind 5 flags 6\n", "kind unset flags unset\n")
        .replace("kind 50 flags 60\n", "kind unset flags unset\n");
    assert_eq!(show(&bytes, 1), first);
    // For reader 0 every name is missing in PSV0.
    let shown = show(&bytes, 0);
    assert!(shown.contains("\nsignature ISG1 first_difference 0\nsignature OSG1 refused 43 0\n"));
    assert!(shown.ends_with("\nsignature PSG1 first_difference 0\nroot_signature refused 26 0\n"));
}

#[test]
fn private_parts_and_gaps() {
    let psv0 = box_m().bytes();
    let bytes = gapped(
        &[
            (2, b"PRIV", b"notes"),
            (0, b"DXIL", b"code"),
            (1, b"PRIV", b""),
            (0, b"priv", b""),
            (13, b"PSV0", &psv0),
            (0, b"PRIV", b"xy"),
        ],
        5,
    );
    let lines = "edition 0 read 0
parts 6
pairs 15
part 0 PRIV 58 5 known occurrence 0 gap 2
part 1 DXIL 71 4 known occurrence 0 gap 0
part 2 PRIV 84 0 known occurrence 1 gap 1
part 3 priv 92 0 unknown occurrence 0 gap 0
part 4 PSV0 113 32 known occurrence 0 gap 13
part 5 PRIV 153 2 known occurrence 2 gap 0
";
    // What follows is as without the other parts.
    let without = show(&shader(&psv0), 3);
    let rest = &without[without.find("stage_info ").unwrap()..];
    for edition in 0..=3 {
        assert_eq!(show(&bytes, edition), format!("{lines}{rest}"));
    }
    let twice = container(&[(b"PRIV", b""), (b"DXIL", b"x"), (b"PRIV", b""), (b"DXIL", b"x")]);
    assert_eq!(show(&twice, 3), "refused 9 3\n");
}

#[test]
fn pairs_of_names() {
    let psv0 = box_m().bytes();
    let with = |more: &[&[u8; 4]]| {
        let mut parts: Vec<(&[u8; 4], &[u8])> = vec![(b"DXIL", b"code"), (b"PSV0", &psv0)];
        parts.extend(more.iter().map(|name| (*name, &b""[..])));
        container(&parts)
    };
    // Two parts and the private ones, each compared with all before it.
    for (private, pairs) in [(0, 1), (1, 3), (2, 6), (6, 28), (93, 4_465), (94, 4_560)] {
        let bytes = with(&vec![b"PRIV"; private]);
        let parts = private + 2;
        let at = 32 + 4 * parts;
        for edition in 0..=3 {
            let text = show(&bytes, edition);
            let expected = format!(
                "edition 0 read 0\nparts {parts}\npairs {pairs}\n\
                 part 0 DXIL {at} 4 known occurrence 0 gap 0\n"
            );
            assert!(text.starts_with(&expected), "{text}");
            assert_eq!(text.matches("pairs ").count(), 1);
        }
    }
    // Beside a refusal the number isn't shown.
    assert_eq!(show(&with(&[b"PRIV", b"PSV0"]), 3), "refused 9 3\n");
    assert_eq!(show(&with(&vec![b"PRIV"; 95]), 3), "refused 6 0\n");
}

/// What follows the line of mask 10, up to the signature parts.
fn after_masks(bytes: &[u8], edition: usize) -> String {
    let text = show(bytes, edition);
    let (_, rest) = text.split_once("\nmask 10 ").expect("it opens");
    let rest = rest.split_once('\n').unwrap().1;
    rest.strip_suffix(NO_SIGNATURES).expect("none has a signature part").to_string()
}

#[test]
fn the_program_header() {
    // The greatest numbers, with an offset inside the header.
    let mut code = dxil(5, b"bitcode");
    code[0] = 0xf0;
    put4(&mut code, 4, u32::MAX);
    code[12..14].copy_from_slice(&[255, 254]);
    put4(&mut code, 16, 3);
    put4(&mut code, 20, 20);
    let with = |code: &[u8], psv0: &Psv0| container(&[(b"DXIL", code), (b"PSV0", &psv0.bytes())]);
    let header = "program version 15 0 stage 5 words 4294967295
bitcode version 254 255 offset 3 size 20
";
    for edition in 0..=3 {
        let stages = if edition == 0 { "unset" } else { "equal" };
        let expected = format!("{header}stages {stages}\n");
        assert_eq!(after_masks(&with(&code, &box_c()), edition), expected);
        let expected = format!("{header}stages unset\n");
        assert_eq!(after_masks(&with(&code, &box_m()), edition), expected);
    }
    code[3] = 1;
    let expected = header.replace("stage 5", "stage 261") + "stages different\n";
    assert_eq!(after_masks(&with(&code, &box_c()), 1), expected);
    put4(&mut code, 20, 21);
    assert_eq!(after_masks(&with(&code, &box_c()), 1), "program refused 42 0\n");
    code[8] = b'd';
    assert_eq!(after_masks(&with(&code, &box_c()), 1), "program refused 41 0\n");
    assert_eq!(after_masks(&with(&code[..23], &box_c()), 1), "program refused 40 0\n");
    assert_eq!(show(&with(&[], &box_c()), 1), "refused 10 0\n");
}

#[test]
fn the_signature_parts() {
    let psv0 = box_c().bytes();
    let lines = |parts: [Option<&[u8]>; 3]| {
        let names = [b"ISG1", b"OSG1", b"PSG1"];
        let mut all: Vec<(&[u8; 4], &[u8])> = vec![(b"PSV0", &psv0), (b"DXIL", b"code")];
        all.extend((0..3).rev().filter_map(|i| parts[i].map(|data| (names[i], data))));
        let text = show(&container(&all), 3);
        text.split_once("\nprogram refused 40 0\n").unwrap().1.to_string()
    };
    assert_eq!(lines([None; 3]), NO_SIGNATURES);
    let empty = words(&[0, 8]);
    let mut bad = words(&[2, 8]);
    bad.extend(vec![0; 64]);
    put4(&mut bad, 44, 72);
    assert_eq!(
        lines([Some(&empty), Some(&bad[..71]), Some(&bad)]),
        "signature ISG1 elements 0
signature ISG1 first_difference none
signature OSG1 refused 44 0
signature PSG1 refused 45 1
root_signature refused 26 0
"
    );
    assert_eq!(
        lines([Some(&empty[..7]), None, Some(&empty)]),
        "signature ISG1 refused 43 0
signature OSG1 refused 26 0
signature PSG1 elements 0
signature PSG1 first_difference none
root_signature refused 26 0
"
    );
    // Names are quoted as strings are.
    let mut quoted = words(&[1, 8]);
    quoted.extend(vec![0; 32]);
    put4(&mut quoted, 12, 40);
    quoted.extend_from_slice(b" ~\"\\a\x1f\x7f\xc2\x80\xe2\x82\xac\n\0\0\0");
    assert_eq!(
        lines([None, Some(&quoted), None]),
        r#"signature ISG1 refused 26 0
signature OSG1 elements 1
signature OSG1 0 name " ~\x22\x5ca\x1f\x7f\xc2\x80\xe2\x82\xac\x0a" points 10 name_offset 40 index 0 stream 0 system_value 0 component 0 register 0 mask 0 exclusive_mask 0 precision 0
signature OSG1 first_difference 0
signature PSG1 refused 26 0
root_signature refused 26 0
"#
    );
}

#[test]
fn strings_are_quoted() {
    let mut psv0 = box_c();
    psv0.strings = b" ~\"\\a\x1f\x7f\xc2\x80\xe2\x82\xac\n\0\0\0".to_vec();
    psv0.runtime[48] = 0;
    let text = show(&shader(&psv0.bytes()), 3);
    let line = text.lines().find(|line| line.starts_with("entry_name ")).unwrap();
    assert_eq!(line, r#"entry_name " ~\x22\x5ca\x1f\x7f\xc2\x80\xe2\x82\xac\x0a" points 10"#);
}

#[test]
fn refusals_are_one_line() {
    assert_eq!(show(&[], 1), "refused 1 0\n");
    assert_eq!(show(&[], 4), "refused 25 0\n");
    let mut bytes = shader(&box_m().bytes());
    put4(&mut bytes, 36, 0);
    assert_eq!(show(&bytes, 0), "refused 8 1\n");
}

fn run(arguments: &[&str]) -> (String, i32) {
    run_program(env!("CARGO_BIN_EXE_reference-show"), arguments)
}

#[test]
fn the_program() {
    let bytes = shader(&hull().bytes());
    let file = Temporary::new("hull", &bytes);
    for edition in 0..=3 {
        let printed = run(&[&edition.to_string(), file.path()]);
        assert_eq!(printed, (show(&bytes, edition), 0));
    }
    assert_eq!(run(&["4", file.path()]), ("refused 25 0\n".into(), 0));
    let vast = "99999999999999999999999999";
    assert_eq!(run(&[vast, file.path()]), ("refused 25 0\n".into(), 0));
    let usage = ("usage: show EDITION FILE\n".to_string(), 2);
    assert_eq!(run(&[]), usage);
    assert_eq!(run(&["3"]), usage);
    assert_eq!(run(&["3", file.path(), "more"]), usage);
    assert_eq!(run(&["three", file.path()]), usage);
    assert_eq!(run(&["-1", file.path()]), usage);
    assert_eq!(run(&["+1", file.path()]), usage);
    assert_eq!(run(&["", file.path()]), usage);
    let missing = format!("{}-missing", file.path());
    assert_eq!(run(&["3", &missing]), ("cannot open\n".into(), 2));
    assert_eq!(run(&["3", env!("CARGO_TARGET_TMPDIR")]), ("cannot open\n".into(), 2));
}

#[test]
fn the_programs_limit() {
    let mut bytes = shader(&box_m().bytes());
    bytes.resize(65_536, 0);
    put4(&mut bytes, 24, 65_536);
    let file = Temporary::new("longest", &bytes);
    assert_eq!(run(&["3", file.path()]), (show(&bytes, 3), 0));
    assert!(show(&bytes, 3).starts_with("edition 0 read 0\n"));
    bytes.push(0);
    let file = Temporary::new("too-long", &bytes);
    assert_eq!(run(&["3", file.path()]), ("too long\n".into(), 0));
    let file = Temporary::new("empty", &[]);
    assert_eq!(run(&["3", file.path()]), ("refused 1 0\n".into(), 0));
}
