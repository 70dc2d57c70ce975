//! Finds libfalzheod.a and has it linked.
//!
//! FALZHEOD_LIB_DIR is the absolute path of its directory. Without it the archive is the
//! repository's own, target/staticlib, which `tools/archive` writes: it is made where it
//! is missing, and again where a source under crates/ is newer.

use std::io;
use std::path::{Path, PathBuf};
use std::process::Command;
use std::time::SystemTime;

const ARCHIVE: &str = "libfalzheod.a";
const DIRECTORY: &str = "FALZHEOD_LIB_DIR";

fn main() {
    println!("cargo:rerun-if-changed=build.rs");
    println!("cargo:rerun-if-env-changed={DIRECTORY}");
    only_for_x86_64_linux();
    let directory = match std::env::var_os(DIRECTORY) {
        Some(directory) => given(PathBuf::from(directory)),
        None => own(),
    };
    let archive = directory.join(ARCHIVE);
    println!("cargo:rerun-if-changed={}", archive.display());
    println!("cargo:rustc-link-search=native={}", directory.display());
    println!("cargo:rustc-link-lib=static=falzheod");
}

/// The archive has code for one platform.
fn only_for_x86_64_linux() {
    let is = |name: &str, wanted: &str| std::env::var(name).is_ok_and(|value| value == wanted);
    let taken = is("CARGO_CFG_TARGET_ARCH", "x86_64")
        && is("CARGO_CFG_TARGET_OS", "linux")
        && is("CARGO_CFG_TARGET_POINTER_WIDTH", "64");
    if !taken {
        let target = std::env::var("TARGET").unwrap_or_default();
        stop(&format!(
            "the library is for x86-64 Linux alone, and the target is {target}"
        ));
    }
}

/// The directory that the caller named: it has to have the archive.
fn given(directory: PathBuf) -> PathBuf {
    if !directory.join(ARCHIVE).is_file() {
        stop(&format!(
            "{DIRECTORY} is {}, and no {ARCHIVE} is there",
            directory.display()
        ));
    }
    directory
}

/// The repository's directory: the archive is made where it is missing or too old.
fn own() -> PathBuf {
    let package = std::env::var_os("CARGO_MANIFEST_DIR").expect("cargo sets it");
    let root = Path::new(&package)
        .parent()
        .expect("the package stands in the repository");
    let crates = root.join("crates");
    // a new crate has its line there
    println!(
        "cargo:rerun-if-changed={}",
        root.join("crates.txt").display()
    );
    match sources(&crates) {
        Ok(folders) => {
            for folder in folders {
                println!("cargo:rerun-if-changed={}", folder.display());
            }
        }
        Err(error) => stop(&format!("{} is not read: {error}", crates.display())),
    }
    let directory = root.join("target").join("staticlib");
    let archive = directory.join(ARCHIVE);
    if let Some(why) = is_to_be_made(&archive, &crates) {
        make(root, why);
    }
    if !archive.is_file() {
        stop(&format!("tools/archive wrote no {}", archive.display()));
    }
    directory
}

/// The folders of the crates, but for those that rt writes to.
fn sources(crates: &Path) -> io::Result<Vec<PathBuf>> {
    let mut folders = Vec::new();
    for of_crate in folders_of(crates)? {
        for folder in folders_of(&of_crate)? {
            if !folder.ends_with("out") {
                folders.push(folder);
            }
        }
    }
    Ok(folders)
}

fn folders_of(directory: &Path) -> io::Result<Vec<PathBuf>> {
    let mut folders = Vec::new();
    for entry in directory.read_dir()? {
        let entry = entry?;
        if entry.file_type()?.is_dir() {
            folders.push(entry.path());
        }
    }
    Ok(folders)
}

/// Why the archive has to be made, if it has to.
fn is_to_be_made(archive: &Path, crates: &Path) -> Option<&'static str> {
    let Ok(made) = archive.metadata().and_then(|about| about.modified()) else {
        return Some("is not in target/staticlib");
    };
    let changed = sources(crates).and_then(|folders| {
        let mut newest = SystemTime::UNIX_EPOCH;
        for folder in &folders {
            newest = newest.max(self::newest(folder)?);
        }
        Ok(newest)
    });
    match changed {
        Ok(changed) if changed <= made => None,
        Ok(_) => Some("is older than crates/"),
        Err(error) => stop(&format!("{} is not read: {error}", crates.display())),
    }
}

/// When the file of a directory that was changed last was changed.
fn newest(directory: &Path) -> io::Result<SystemTime> {
    let mut newest = SystemTime::UNIX_EPOCH;
    for entry in directory.read_dir()? {
        let entry = entry?;
        let changed = if entry.file_type()?.is_dir() {
            self::newest(&entry.path())?
        } else {
            entry.metadata()?.modified()?
        };
        newest = newest.max(changed);
    }
    Ok(newest)
}

fn make(root: &Path, why: &str) {
    match Command::new(root.join("tools/archive")).output() {
        Err(error) => stop(&format!(
            "{ARCHIVE} {why} and tools/archive could not be run ({error}): \
             run `tools/archive` in the repository, or set {DIRECTORY}"
        )),
        Ok(done) if !done.status.success() => stop(&format!(
            "{ARCHIVE} {why}, and `tools/archive` failed:\n{}{}",
            String::from_utf8_lossy(&done.stdout),
            String::from_utf8_lossy(&done.stderr)
        )),
        Ok(_) => {}
    }
}

fn stop(problem: &str) -> ! {
    eprintln!("falzheod: {problem}");
    std::process::exit(1);
}
