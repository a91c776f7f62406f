//! `reference-inspect` prints the part table of the container on standard input,
//! or its refusal.

#![forbid(unsafe_code)]

mod common;
use reference::inspect;
use std::io::{self, Write};
use std::process::ExitCode;

fn main() -> ExitCode {
    let read = common::read(io::stdin().lock());
    match read.and_then(|bytes| io::stdout().write_all(&inspect(&bytes))) {
        Ok(()) => ExitCode::SUCCESS,
        Err(_) => ExitCode::FAILURE,
    }
}
