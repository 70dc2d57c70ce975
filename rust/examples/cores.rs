//! Reads an upload of tree cores and shows them, or says where it is broken.
//!
//!     cargo run --features xmlparser --example cores -- ../samples/cores.xml

use falzheod::{import, Entry, Member, Reading, Settings, StructSheet};
use std::error::Error;
use std::process::ExitCode;

fn main() -> ExitCode {
    match shown() {
        Ok(lines) => {
            println!("{}", lines.join("\n"));
            ExitCode::SUCCESS
        }
        Err(problem) => {
            eprintln!("cores: {problem}");
            ExitCode::FAILURE
        }
    }
}

fn shown() -> Result<Vec<String>, Box<dyn Error>> {
    let file = std::env::args().nth(1).ok_or("usage: cores FILE.xml")?;
    let body = std::fs::read(file)?;
    let upload = StructSheet::builder("upload")
        .member(Member::new("team").attribute())
        .member(Member::new("core").flattened().aggregate())
        .build()?;
    let core = StructSheet::builder("core")
        .member(Member::new("id").attribute())
        .member(Member::new("species").attribute())
        .member(Member::new("bark"))
        .build()?;
    let settings = Settings::default().enforce_strictness(true);
    // all pieces are read before anything is shown
    import(&body, &upload, &settings, |entries| {
        let mut lines = Vec::new();
        for entry in entries {
            let Entry::Group { group, .. } = entry else {
                lines.push(format!("team {}", entry.as_str().unwrap_or("?")));
                continue;
            };
            for piece in group.pieces() {
                let piece = piece.upload();
                let reading = piece.read_struct(&core, &settings);
                lines.push(format!("core {}", words(&reading)?));
            }
        }
        Ok(lines)
    })?
}

/// The texts of a core; one that could not be read refuses the others with it.
fn words(reading: &Reading<'_>) -> Result<String, Box<dyn Error>> {
    let words = reading.finished()?.map(|entry| {
        let word = entry.as_str().map(String::from);
        word.ok_or(format!("member {} of a core is not read", entry.member()))
    });
    Ok(words.collect::<Result<Vec<_>, _>>()?.join(", "))
}
