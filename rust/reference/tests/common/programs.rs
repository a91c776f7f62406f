//! Running a program on files made for it.

use std::ffi::OsStr;
use std::path::PathBuf;
use std::process::Command;

/// A file of the given bytes, removed again at the end.
pub struct Temporary(PathBuf);

impl Temporary {
    pub fn new(name: &str, bytes: &[u8]) -> Temporary {
        let directory = PathBuf::from(env!("CARGO_TARGET_TMPDIR"));
        let path = directory.join(format!("{name}-{}", std::process::id()));
        std::fs::write(&path, bytes).unwrap();
        Temporary(path)
    }

    pub fn path(&self) -> &str {
        self.0.to_str().unwrap()
    }
}

impl Drop for Temporary {
    fn drop(&mut self) {
        let _ = std::fs::remove_file(&self.0);
    }
}

/// What a program prints, and its exit status.
pub fn run_program<S: AsRef<OsStr>>(program: &str, arguments: &[S]) -> (String, i32) {
    let output = Command::new(program).args(arguments).output().unwrap();
    assert!(output.stderr.is_empty());
    (String::from_utf8(output.stdout).unwrap(), output.status.code().unwrap())
}
