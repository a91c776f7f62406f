//! `reference-figures FILE..` opens the files one by one and prints the figures.

#![forbid(unsafe_code)]

mod common;
use std::fs::File;
use std::io::{self, BufWriter, Write};
use std::process::ExitCode;

fn main() -> ExitCode {
    // One file after another: there may be tens of thousands.
    let files = std::env::args_os().skip(1).map(|name| File::open(name).and_then(common::read));
    let mut out = BufWriter::new(io::stdout().lock());
    let shown = reference::show_figures(files, &mut out);
    match shown.and_then(|()| out.flush()) {
        Ok(()) => ExitCode::SUCCESS,
        Err(_) => ExitCode::FAILURE,
    }
}
