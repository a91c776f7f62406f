//! What the programs share: reading up to the limit, and the lines of those that take
//! a number and a file.
// The small program and that of the figures only read.
#![allow(dead_code)]

use reference::LONGEST_READ;
use std::ffi::{OsStr, OsString};
use std::fs::File;
use std::io::{self, Read, Write};
use std::process::ExitCode;

/// All bytes, but of a source that is too long no more than shows that it is.
pub fn read(source: impl Read) -> io::Result<Vec<u8>> {
    let mut bytes = Vec::new();
    source.take(LONGEST_READ as u64 + 1).read_to_end(&mut bytes)?;
    Ok(bytes)
}

/// Runs a program whose words are a number and a file. `number` takes decimal digits,
/// at least one; `show` gives the text for the file's bytes and the number.
pub fn run<N>(
    usage: &str,
    number: impl Fn(&str) -> Option<N>,
    show: impl Fn(&[u8], N) -> String,
) -> ExitCode {
    let words: Vec<OsString> = std::env::args_os().skip(1).collect();
    let (text, status) = answer(&words, usage, number, show);
    match io::stdout().write_all(text.as_bytes()) {
        Ok(()) => ExitCode::from(status),
        Err(_) => ExitCode::FAILURE,
    }
}

/// What is printed, and the exit status: 2 if no file could be read, else 0.
fn answer<N>(
    words: &[OsString],
    usage: &str,
    number: impl Fn(&str) -> Option<N>,
    show: impl Fn(&[u8], N) -> String,
) -> (String, u8) {
    let usage = (format!("usage: {usage}\n"), 2);
    let [first, file] = words else {
        return usage;
    };
    let Some(number) = digits(first).and_then(number) else {
        return usage;
    };
    match File::open(file).and_then(read) {
        Err(_) => (String::from("cannot open\n"), 2),
        Ok(bytes) if bytes.len() > LONGEST_READ => (String::from("too long\n"), 0),
        Ok(bytes) => (show(&bytes, number), 0),
    }
}

/// The word, if it is decimal digits and at least one.
fn digits(word: &OsStr) -> Option<&str> {
    let word = word.to_str()?;
    let good = !word.is_empty() && word.bytes().all(|byte| byte.is_ascii_digit());
    good.then_some(word)
}
