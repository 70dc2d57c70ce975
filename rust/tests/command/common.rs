//! Runs the program, and makes files for it.

use std::ffi::OsStr;
use std::fs;
use std::io::Write;
use std::path::{Path, PathBuf};
use std::process::{Command, Output, Stdio};

pub const PROGRAM: &str = env!("CARGO_BIN_EXE_upload");

/// How a run ended and what it wrote.
#[derive(Debug, PartialEq, Eq)]
pub struct Ran {
    pub status: i32,
    pub out: String,
    pub err: String,
}

impl From<Output> for Ran {
    fn from(output: Output) -> Ran {
        Ran {
            status: output.status.code().expect("no signal ends it"),
            out: String::from_utf8(output.stdout).expect("what it says is UTF-8"),
            err: String::from_utf8(output.stderr).expect("what it says is UTF-8"),
        }
    }
}

/// The program in the root of the repository.
pub fn program<S: AsRef<OsStr>>(words: &[S]) -> Command {
    let mut command = Command::new(PROGRAM);
    command.args(words).current_dir(root()).stdin(Stdio::null());
    command
}

pub fn upload<S: AsRef<OsStr>>(words: &[S]) -> Ran {
    program(words).output().unwrap().into()
}

/// Runs it with this as standard input.
pub fn piped<S: AsRef<OsStr>>(words: &[S], input: impl AsRef<[u8]>) -> Ran {
    let mut command = program(words);
    command.stdin(Stdio::piped());
    command.stdout(Stdio::piped()).stderr(Stdio::piped());
    let mut child = command.spawn().unwrap();
    // it need not read all of it
    let _ = child.stdin.take().unwrap().write_all(input.as_ref());
    child.wait_with_output().unwrap().into()
}

/// What it says of a body, on standard output alone.
pub fn says(body: impl AsRef<[u8]>) -> String {
    let ran = piped(&["-"], body);
    assert_eq!((ran.status, ran.err.as_str()), (1, ""), "{}", ran.out);
    ran.out
}

pub fn root() -> PathBuf {
    Path::new(env!("CARGO_MANIFEST_DIR"))
        .parent()
        .unwrap()
        .to_path_buf()
}

/// An empty directory for a test.
pub fn folder(name: &str) -> PathBuf {
    let folder = Path::new(env!("CARGO_TARGET_TMPDIR")).join(name);
    let _ = fs::remove_dir_all(&folder);
    fs::create_dir_all(&folder).unwrap();
    folder
}

/// A file in the directory of a test.
pub fn file(folder: &Path, name: impl AsRef<OsStr>, text: impl AsRef<[u8]>) -> PathBuf {
    let path = folder.join(Path::new(name.as_ref()));
    fs::write(&path, text).unwrap();
    path
}
