//! `reference-settings VERSION FILE` prints the rows of a settings file and the values
//! at the version.

#![forbid(unsafe_code)]

mod common;
use std::process::ExitCode;

fn main() -> ExitCode {
    // A version is below 4,294,967,296; anything else is no version.
    let version = |digits: &str| digits.parse().ok();
    common::run("settings VERSION FILE", version, reference::show_settings)
}
