//! All of an upload or nothing of it: `import` on the sample upload, cut at every byte.
#![cfg(feature = "xmlparser")]

use falzheod::{check, import, CheckError, Checker, Entry, ImportError, Limit, ListSheet};
use falzheod::{Member, Refusal, Settings, StructSheet};

const UPLOAD: &[u8] = include_bytes!("../../samples/cores.xml");
const CUT: &[u8] = include_bytes!("../../samples/cores-cut.xml");

fn upload_sheet() -> StructSheet {
    StructSheet::builder("upload")
        .member(Member::new("team").attribute())
        .member(Member::new("cores").attribute())
        .member(Member::new("site").aggregate())
        .member(Member::new("core").flattened().aggregate())
        .build()
        .unwrap()
}

fn strict() -> Settings {
    Settings::default().enforce_strictness(true)
}

/// Where the root ends: a cut from here on is whole.
fn whole_from() -> usize {
    let end = b"</d:upload>";
    let found = UPLOAD.windows(end.len()).position(|part| part == end);
    found.unwrap() + end.len()
}

#[test]
fn nothing_is_handed_on_at_any_cut() {
    let (sheet, settings) = (upload_sheet(), strict());
    let mut checker = Checker::new();
    for length in 0..=UPLOAD.len() {
        let mut handed_on = 0;
        let result = checker.import(&UPLOAD[..length], &sheet, &settings, |entries| {
            handed_on += entries.len();
        });
        if length < whole_from() {
            assert_eq!(handed_on, 0, "cut at {length}");
            let error = result.expect_err("a cut is refused");
            assert!(matches!(error, ImportError::Check(_)), "cut at {length}");
        } else {
            assert_eq!(result, Ok(()), "cut at {length}");
            assert_eq!(handed_on, 4, "cut at {length}");
        }
    }
}

/// The same where the old service would have handed each core on as it was met.
#[test]
fn nothing_is_handed_on_at_any_cut_without_strict_reading() {
    let list = ListSheet::builder().build().unwrap();
    let lenient = Settings::default();
    let mut checker = Checker::new();
    for length in (0..whole_from()).step_by(7) {
        let cut = &UPLOAD[..length];
        let result = checker.import(cut, &list, &lenient, |_| unreachable!());
        assert!(result.is_err(), "cut at {length}");
    }
}

#[test]
fn the_whole_upload_is_read() {
    let sheet = upload_sheet();
    let settings = strict();
    let core = StructSheet::builder("core")
        .member(Member::new("id").attribute())
        .member(Member::new("unit").xml_name("m:unit").attribute())
        .member(Member::new("bark"))
        .build()
        .unwrap();
    let seen = import(UPLOAD, &sheet, &settings, |entries| {
        let mut seen = Vec::new();
        for entry in entries {
            match entry {
                Entry::Text { member, text, .. } => {
                    seen.push(format!("{member} {}", text.as_str().unwrap()));
                }
                Entry::Piece { piece, .. } => {
                    let remark = piece.upload();
                    let remark = remark.find("remark").unwrap().whole_text().unwrap();
                    seen.push(remark.as_str().unwrap().to_string());
                }
                Entry::Group { group, .. } => {
                    for piece in group.pieces() {
                        let upload = piece.upload();
                        let reading = upload.read_struct(&core, &settings);
                        assert_eq!(reading.refusal(), None);
                        let texts = reading.entries().map(|e| e.as_str().unwrap().to_string());
                        seen.push(texts.collect::<Vec<_>>().join(" "));
                    }
                }
                Entry::Failed { .. } => unreachable!(),
            }
        }
        seen
    });
    assert_eq!(
        seen.unwrap(),
        [
            "0 north slope",
            "1 5",
            "Scree & bedrock; slope > 35°, snow until June.",
            "17 µm whole",
            "18 µm lost",
            "19 µm whole",
            "20 µm ",
            "21 µm whole",
        ]
    );
}

#[test]
fn the_sample_that_is_cut() {
    let error = import(CUT, &upload_sheet(), &strict(), |_| ()).unwrap_err();
    assert_eq!(
        error.to_string(),
        "line 30, column 34: the body ends where <m:rings> is open, since line 30, column 3"
    );
}

#[test]
fn a_refused_reading_hands_nothing_on() {
    let sheet = StructSheet::builder("cores").build().unwrap();
    let refused = import(UPLOAD, &sheet, &strict(), |_| ());
    assert_eq!(refused, Err(ImportError::Read(Refusal::RootName)));
    let words = refused.unwrap_err().to_string();
    let expected = "well-formed, but not read: the root has another name than the sheet says";
    assert_eq!(words, expected);
    // a list of strings is refused at its last item, and the first is not handed on
    let list = ListSheet::builder().build().unwrap();
    let body = b"<u><s>one</s><s><b/></s></u>";
    let strings = falzheod::Sheet::StringList(&list);
    let refused = import(body, strings, &strict(), |_| unreachable!());
    assert_eq!(
        refused,
        Err::<(), _>(ImportError::Read(Refusal::ElementInText))
    );
}

/// Not even the members beside it.
#[test]
fn a_scalar_that_fails_hands_nothing_on() {
    let sheet = StructSheet::builder("core")
        .member(Member::new("id").attribute())
        .member(Member::new("bark"))
        .build()
        .unwrap();
    let body = b"<core id='17'><bark><b/>whole</bark></core>";
    let refused = import(body, &sheet, &strict(), |_| unreachable!());
    let failed = ImportError::Failed {
        member: 1,
        refusal: Refusal::ElementInText,
    };
    let words = failed.to_string();
    assert_eq!(refused, Err::<(), _>(failed));
    let expected = "well-formed, but member 1 is not read: an element stands where text is wanted";
    assert_eq!(words, expected);
}

#[test]
fn bodies_past_a_limit_hand_nothing_on() {
    let list = ListSheet::builder().build().unwrap();
    let long = format!("<u>{}</u>", "<b/>".repeat(20_000));
    let refused = import(long.as_bytes(), &list, &strict(), |_| ());
    let Err(ImportError::Check(CheckError::TooLarge { limit, .. })) = refused else {
        panic!("{refused:?}");
    };
    assert_eq!(limit, Limit::Bytes);
}

#[test]
fn a_checker_is_used_again() {
    let mut checker = Checker::new();
    assert!(checker.check(UPLOAD).is_ok());
    assert!(checker.check(b"<a>").is_err());
    assert_eq!(checker.check(b"<a/>"), check(b"<a/>"));
    assert_eq!(checker.check(UPLOAD), check(UPLOAD));
}
