//! Findings to standard output, trouble of the program itself to standard error.

use std::fs::File;
use std::io::{self, Write};
use std::os::fd::AsFd;

/// Standard output as a plain file: what cannot be written is an error each time, also
/// where it is open for reading alone, which the standard library passes over.
pub struct Output(File);

impl Output {
    pub fn standard() -> io::Result<Output> {
        let copy = io::stdout().as_fd().try_clone_to_owned()?;
        Ok(Output(File::from(copy)))
    }

    pub fn write(&mut self, text: &str) -> io::Result<()> {
        self.0.write_all(text.as_bytes())
    }
}

/// Says what is wrong. Nothing can be done where that cannot be written.
pub fn trouble(problem: &str) {
    let _ = writeln!(io::stderr(), "upload: {}", problem.trim_end());
}
