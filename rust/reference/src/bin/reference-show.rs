//! `reference-show EDITION FILE` prints what an opening of the file shows.

#![forbid(unsafe_code)]

mod common;
use std::process::ExitCode;

fn main() -> ExitCode {
    // One too great for the type stays too great for any edition.
    let edition = |digits: &str| Some(digits.parse().unwrap_or(usize::MAX));
    common::run("show EDITION FILE", edition, reference::show)
}
