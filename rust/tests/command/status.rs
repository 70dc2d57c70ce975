//! Status and streams: what passes, what is refused, and what is trouble.

use crate::common::{file, folder, piped, program, upload, Ran};
use std::ffi::OsStr;
use std::fs::{self, File};
use std::io::Write;
use std::os::unix::ffi::OsStrExt;
use std::process::{Command, Stdio};

/// Nothing on standard output, and something on standard error.
fn is_trouble(ran: &Ran, said: &str) {
    assert_eq!((ran.status, ran.out.as_str()), (2, ""), "{}", ran.err);
    assert!(ran.err.starts_with("upload: "), "{}", ran.err);
    assert!(ran.err.contains(said), "{}", ran.err);
    assert!(!ran.err.contains("panicked"), "{}", ran.err);
}

#[test]
fn an_upload_that_passes() {
    let ran = upload(&["samples/cores.xml"]);
    let said = "samples/cores.xml: passes: 246 tokens, 2943 bytes\n";
    assert_eq!(
        (ran.status, ran.out.as_str(), ran.err.as_str()),
        (0, said, "")
    );
}

#[test]
fn an_upload_that_is_cut_short() {
    let ran = upload(&["samples/cores-cut.xml"]);
    assert_eq!((ran.status, ran.err.as_str()), (1, ""));
    let said = "samples/cores-cut.xml:30:34: the body ends where <m:rings> is open, \
                since line 30, column 3\n";
    assert!(ran.out.starts_with(said), "{}", ran.out);
}

#[test]
fn no_false_passes() {
    for (body, said) in [
        (&b""[..], "-: the body is empty\n"),
        (b"<u>L\xC3", "-:1:5: not UTF-8 at byte 4\n"),
        (b"\xFF\xFE<\0a\0/\0>\0", "-:1:1: not UTF-8 at byte 0\n"),
        (b"\x89PNG\r\n\x1A\n", "-:1:1: not UTF-8 at byte 0\n"),
        (b" \n", "-:2:1: the body ends without an element\n"),
        (b"<!-- c -->", "-:1:11: the body ends without an element\n"),
    ] {
        let ran = piped(&["-"], body);
        assert_eq!((ran.status, ran.err.as_str()), (1, ""));
        assert!(ran.out.starts_with(said), "{}", ran.out);
    }
}

#[test]
fn the_worst_of_several_files() {
    let (whole, cut) = ("samples/cores.xml", "samples/cores-cut.xml");
    let lines = |ran: &Ran| {
        let told = |line: &&str| line.starts_with("samples/");
        ran.out.lines().filter(told).count()
    };
    let ran = upload(&[whole, whole]);
    assert_eq!((ran.status, lines(&ran)), (0, 2));
    let ran = upload(&[whole, cut, whole]);
    assert_eq!((ran.status, lines(&ran)), (1, 3));
    // trouble with one keeps none of the others back
    let ran = upload(&["samples/none.xml", cut, whole]);
    assert_eq!((ran.status, lines(&ran)), (2, 2));
    assert!(
        ran.err
            .starts_with("upload: samples/none.xml: No such file"),
        "{}",
        ran.err
    );
    assert_eq!(ran.err.lines().count(), 1);
}

#[test]
fn wrong_use() {
    let sample = "samples/cores.xml";
    for (words, said) in [
        (&[][..], "no file is named"),
        (&["--"], "no file is named"),
        (&["--nothing", sample], "unknown option --nothing"),
        (&["-x"], "unknown option -x"),
        (&["--format"], "--format wants a word behind it"),
        (
            &["--format", "xml", sample],
            "--format is text or json, not xml",
        ),
        (
            &["--format=json", "--format=text", sample],
            "--format is given twice",
        ),
        (&["--deep", sample], "--deep wants a --sheet"),
        (&["--deep=no", sample], "take no value"),
        (&["-", "-"], "standard input is read once"),
        (&["--sheet", "-", "-"], "standard input is read once"),
        (&["--text", "a", sample], "samples/cores.xml is too much"),
        (
            &["--text", "a", "--sheet", "b"],
            "--sheet and --deep are for files",
        ),
        (&["--text", "a", "--sheet-bytes", "b"], "each for itself"),
        (&["--sheet-text", "00"], "--sheet-text 00 wants a kind"),
        (
            &["--format", "json", "--sheet-bytes", "b"],
            "--format is for files",
        ),
    ] {
        let ran = upload(words);
        is_trouble(&ran, said);
        assert!(ran.err.contains("\nusage: upload "), "{words:?}");
    }
}

#[test]
fn help_is_a_finding() {
    for word in ["--help", "-h"] {
        let ran = upload(&[word]);
        assert_eq!((ran.status, ran.err.as_str()), (0, ""));
        assert!(ran.out.contains("--sheet-text HEX"), "{}", ran.out);
        assert!(ran.out.lines().all(|line| line.len() <= 100));
    }
}

#[test]
fn files_that_cannot_be_read() {
    is_trouble(&upload(&["none.xml"]), "none.xml: No such file");
    is_trouble(&upload(&["samples"]), "samples: Is a directory");
    is_trouble(&upload(&[""]), ": No such file");
    let input = File::open("/").unwrap();
    let ran: Ran = program(&["-"]).stdin(input).output().unwrap().into();
    is_trouble(&ran, "-: Is a directory");
    is_trouble(
        &upload(&["--sheet", "none", "samples/cores.xml"]),
        "none: No such file",
    );
}

#[test]
fn output_that_cannot_be_written() {
    for words in [&["samples/cores.xml"][..], &["--help"], &["--text", "a"]] {
        let full = File::options().write(true).open("/dev/full").unwrap();
        let ran: Ran = program(words).stdout(full).output().unwrap().into();
        is_trouble(&ran, "standard output: No space left on device");
    }
    // a stream that is open for reading alone
    let shut = File::open("/dev/null").unwrap();
    let ran: Ran = program(&["samples/cores.xml"])
        .stdout(shut)
        .output()
        .unwrap()
        .into();
    is_trouble(&ran, "standard output: Bad file descriptor");
}

#[test]
fn trouble_that_cannot_be_written() {
    let full = File::options().write(true).open("/dev/full").unwrap();
    let ran: Ran = program(&["--nothing"])
        .stderr(full)
        .output()
        .unwrap()
        .into();
    assert_eq!((ran.status, ran.out.as_str()), (2, ""));
}

#[test]
fn a_closed_pipe_is_no_success_and_no_noise() {
    let mut command = program(&["-", "samples/cores.xml"]);
    command.stdin(Stdio::piped());
    command.stdout(Stdio::piped()).stderr(Stdio::piped());
    let mut child = command.spawn().unwrap();
    // it waits for its input until the reader is gone
    drop(child.stdout.take());
    child.stdin.take().unwrap().write_all(b"<a/>").unwrap();
    let ran: Ran = child.wait_with_output().unwrap().into();
    assert_eq!((ran.status, ran.err.as_str()), (2, ""));
}

#[test]
fn standard_input_and_its_name() {
    assert_eq!(piped(&["-"], "<a/>").out, "-: passes: 2 tokens, 4 bytes\n");
    assert_eq!(piped(&["--", "-"], "<a/>").status, 0);
    let ran = piped(&["samples/cores.xml", "-"], "<a>");
    assert_eq!((ran.status, ran.out.lines().count()), (1, 4));
}

#[test]
fn a_fifo_is_read_once() {
    let fifo = folder("fifo").join("pipe.xml");
    assert!(Command::new("mkfifo")
        .arg(&fifo)
        .status()
        .unwrap()
        .success());
    let writer = {
        let fifo = fifo.clone();
        std::thread::spawn(move || fs::write(fifo, "<a>\n</b>").unwrap())
    };
    let ran = upload(&[&fifo]);
    writer.join().unwrap();
    assert_eq!(ran.status, 1);
    assert!(
        ran.out.contains("pipe.xml:2:1: the end tag </b>"),
        "{}",
        ran.out
    );
    assert!(ran.out.contains("  1 | <a>\n"), "{}", ran.out);
}

#[test]
fn any_file_name() {
    let folder = folder("names");
    let odd = OsStr::from_bytes(b"L\xE4rche.xml");
    for name in [
        OsStr::new("-x"),
        OsStr::new("--format"),
        OsStr::new("a b.xml"),
        OsStr::new("a&b;.xml"),
        OsStr::new("new\nline\x1B[31m.xml"),
        OsStr::new("µ 年.xml"),
        odd,
    ] {
        file(&folder, name, "<a/>");
        let words = [OsStr::new("--"), name];
        let ran: Ran = program(&words)
            .current_dir(&folder)
            .output()
            .unwrap()
            .into();
        assert_eq!((ran.status, ran.out.lines().count()), (0, 1), "{ran:?}");
        assert!(!ran.out.contains('\x1B'), "{ran:?}");
        assert_eq!(upload(&[folder.join(name)]).status, 0);
    }
    file(&folder, "-", "<a/>");
    for word in ["./-", "./-x", "./--format"] {
        let ran: Ran = program(&[word])
            .current_dir(&folder)
            .output()
            .unwrap()
            .into();
        assert_eq!(ran.out, format!("{word}: passes: 2 tokens, 4 bytes\n"));
    }
    let ran: Ran = program(&[odd])
        .current_dir(&folder)
        .output()
        .unwrap()
        .into();
    assert_eq!(ran.out, "L\u{FFFD}rche.xml: passes: 2 tokens, 4 bytes\n");
}

#[test]
fn an_input_without_end() {
    let ran = upload(&["/dev/zero"]);
    assert_eq!(ran.status, 1);
    assert!(
        ran.out
            .starts_with("/dev/zero:1:65537: more than 65,536 bytes\n"),
        "{}",
        ran.out
    );
    is_trouble(
        &upload(&["--sheet", "/dev/zero", "samples/cores.xml"]),
        "so no sheet",
    );
}

#[test]
fn references_of_a_text() {
    let ran = upload(&["--text", "a &lt; b &#xB5;"]);
    let said = "references: valid\nunescaped: a < b µ\n";
    assert_eq!(
        (ran.status, ran.out.as_str(), ran.err.as_str()),
        (0, said, "")
    );
    let ran = upload(&["--text", "&#+65;"]);
    let said: Vec<&str> = ran.out.lines().collect();
    let invalid = "references: not valid: line 1, column 1: a reference is bad";
    assert_eq!((ran.status, said[0], said[3]), (1, invalid, "unescaped: A"));
    let ran = upload(&["--text=a & b"]);
    let said: Vec<&str> = ran.out.lines().collect();
    let invalid = "references: not valid: line 1, column 3: a reference is bad";
    let refused = "unescaped: refused: line 1, column 3: a reference is bad";
    assert_eq!((ran.status, said[0], said[3]), (1, invalid, refused));
    // a text that looks like a file or an option is a text
    assert_eq!(upload(&["--text", "samples/cores.xml"]).status, 0);
    assert_eq!(
        upload(&["--text", "--help"]).out,
        "references: valid\nunescaped: --help\n"
    );
    let said = upload(&["--text", "&#27;[2J"]).out;
    assert!(said.ends_with("\nunescaped: \u{241B}[2J\n"), "{said}");
}
