//! `upload`: is an upload well-formed, and if not, where? And what does a sheet read of it?
//!
//! help.txt is what `upload --help` says. The status is 0 only where every file is whole.

#![forbid(unsafe_code)]

mod arguments;
mod entries;
mod excerpt;
mod files;
mod finding;
mod json;
mod output;
mod references;
mod sheet;
mod sheet_bytes;
mod status;
mod table;
mod text;
mod visible;

use arguments::{Format, Job};
use entries::Level;
use falzheod::Checker;
use files::Source;
use finding::Finding;
use output::{trouble, Output};
use sheet::Sheets;
use status::Status;
use std::process::ExitCode;

const HELP: &str = include_str!("help.txt");

fn main() -> ExitCode {
    let words = std::env::args_os().skip(1).collect();
    let status = match arguments::parse(words) {
        Ok(job) => done(job),
        Err(wrong) => {
            trouble(&format!("{wrong}\n{}", arguments::USAGE));
            Status::Trouble
        }
    };
    ExitCode::from(status.number())
}

/// Does the job, unless its output cannot be written.
fn done(job: Job) -> Status {
    let result = Output::standard().and_then(|mut output| match job {
        Job::Help => output.write(HELP).map(|()| Status::Whole),
        Job::Text(text, format) => references::show(&text, format, &mut output),
        Job::SheetBytes(source) => sheet_bytes::show_bytes(&source, &mut output),
        Job::SheetText(hex, kind) => sheet_bytes::show_text(&hex, &kind, &mut output),
        Job::Files(files) => show_files(&files, &mut output),
    });
    result.unwrap_or_else(|error| {
        // whoever closed the pipe wants to hear no more
        if error.kind() != std::io::ErrorKind::BrokenPipe {
            trouble(&format!("standard output: {error}"));
        }
        Status::Trouble
    })
}

/// Tells of each file; the worst of them is the status.
fn show_files(job: &arguments::Files, output: &mut Output) -> std::io::Result<Status> {
    let sheets = match job.sheet.as_ref().map(Sheets::read).transpose() {
        Ok(sheets) => sheets,
        Err(problem) => {
            trouble(&problem);
            return Ok(Status::Trouble);
        }
    };
    let mut checker = Checker::new();
    let mut worst = Status::Whole;
    for source in &job.files {
        let status = match files::read(source) {
            Ok(body) => {
                let (said, status) = told(job, source, &body, sheets.as_ref(), &mut checker);
                output.write(&said)?;
                status
            }
            Err(error) => {
                trouble(&format!("{}: {error}", source.shown()));
                Status::Trouble
            }
        };
        worst = worst.max(status);
    }
    Ok(worst)
}

/// What is told of one file, and its status.
fn told(
    job: &arguments::Files,
    source: &Source,
    body: &[u8],
    sheets: Option<&Sheets>,
    checker: &mut Checker,
) -> (String, Status) {
    let checked = checker.check(body);
    let finding = Finding::of(body, &checked);
    let level = match (&checked, sheets) {
        (Ok(upload), Some(sheets)) => Some(Level::root(upload, sheets, job.deep)),
        _ => None,
    };
    let status = match &level {
        _ if !finding.passes() => Status::Refused,
        Some(level) if !level.is_whole() => Status::Refused,
        _ => Status::Whole,
    };
    let said = match job.format {
        Format::Text => text::told(source, body, &finding, level.as_ref()),
        Format::Json if sheets.is_some() => json::read(source, body, &finding, level.as_ref()),
        Format::Json => json::checked(source, &finding),
    };
    (said, status)
}
