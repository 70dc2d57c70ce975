//! The check of one question to a reading: the static library beside the model
//! (src/reader.rs), always, and beside the Rust, where it can be asked. The places, of a
//! 7 and of an entry of kind 4 whose number is 7, are left out beside the Rust, which
//! knows none; and its groups, which it keeps in a hash map, are compared as a set.

use crate::calls::{self, Answer, Caller};
use crate::model;
use crate::reader::{self, Asked, Kind, Refused, Room, Told};
use crate::rules::{self, Lent};
use crate::sheets::Structure;
use oracle::hex::hex;
use std::fmt::Debug;

/// Entries for every row and every member, and text bytes for every attribute that
/// every member may ask for.
pub fn enough(lent: Lent<'_>) -> Room {
    Room {
        entries: lent.numbers.len() / 8 + 128,
        bytes: 66 * lent.body.len() + 64 * 17,
    }
}

/// "A reading is strict when validate_document stands and shape depth on the call is 0."
pub fn is_strict(flags: u32, depth: u32) -> bool {
    flags & 1 != 0 && depth == 0
}

/// A question that all who were asked answer alike.
#[derive(Clone, Copy, Debug, Default)]
pub struct Compared {
    /// 0, or why it is refused.
    pub number: u32,
    pub entries: usize,
    /// Entries of kind 4 whose number is 7.
    pub bad_references: usize,
    /// The Rust was asked, not the model alone.
    pub rust: bool,
    pub strict: bool,
    /// Alike but for the unwrapped piece, which by design is longer in the Rust.
    pub longer_root: bool,
    /// With room enough.
    pub groups: usize,
    /// In less room: 10 at a group, with one before it written.
    pub groups_kept: usize,
    /// In less room: 10 at a group, where one after it would fit.
    pub groups_barred: usize,
}

/// What differs is told in words.
pub type Outcome = Result<Compared, String>;

#[derive(Default)]
pub struct Asker {
    caller: Caller,
}

impl Asker {
    /// With room enough. `tokens` says that the table is the tokenizer's, so that the
    /// Rust can be asked.
    pub fn reading(
        &mut self,
        kind: Kind,
        lent: Lent<'_>,
        asked: Asked<'_>,
        tokens: bool,
    ) -> Outcome {
        let told = self.beside_model(kind, lent, asked, enough(lent))?;
        let compared = Compared {
            number: told.number,
            entries: told.entries.len(),
            bad_references: bad_references(&told),
            strict: is_strict(asked.flags, asked.depth),
            groups: told.entries.iter().filter(|entry| is_group(entry)).count(),
            ..Compared::default()
        };
        if !tokens || told.number == 1 && rules::answer(lent).number == 1 {
            return Ok(compared);
        }
        beside_rust(kind, lent.body, asked, &told, compared)
    }

    /// The same in less room: a byte too few for the longest group, just enough, one less
    /// of each, and a share of each.
    pub fn in_less_room(
        &mut self,
        kind: Kind,
        lent: Lent<'_>,
        asked: Asked<'_>,
        share: usize,
    ) -> Outcome {
        let most = reader::read(kind, lent, asked, enough(lent));
        let (entries, bytes) = (most.entries.len(), most.texts.len());
        let mut rooms = vec![
            (entries, bytes),
            (entries.saturating_sub(1), bytes),
            (entries, bytes.saturating_sub(1)),
            (share % (entries + 1), bytes),
            (entries, share % (bytes + 1)),
        ];
        rooms.splice(..0, short_of_a_group(&most).map(|bytes| (entries, bytes)));
        let mut compared = Compared {
            strict: is_strict(asked.flags, asked.depth),
            ..Compared::default()
        };
        for (entries, bytes) in rooms {
            let told = self
                .beside_model(kind, lent, asked, Room { entries, bytes })
                .map_err(|problem| {
                    format!("in room for {entries} entries and {bytes} bytes {problem}")
                })?;
            compared.number = told.number;
            compared.entries = told.entries.len();
            compared.bad_references = bad_references(&told);
            if told.number == 10 {
                compared.groups_kept += usize::from(is_kept(&most, &told));
                compared.groups_barred += usize::from(is_barred(&most, &told, entries, bytes));
            }
        }
        Ok(compared)
    }

    fn beside_model(
        &mut self,
        kind: Kind,
        lent: Lent<'_>,
        asked: Asked<'_>,
        room: Room,
    ) -> Result<Told, String> {
        let told = self.caller.read(kind, lent, asked, room)?;
        let expected = reader::read(kind, lent, asked, room);
        if told != expected {
            return Err(format!("is {told:?}, the model says {expected:?}"));
        }
        if !places_may_be_told(lent.body, &told) {
            return Err(format!("tells a place of no `&`, or of no 7: {told:?}"));
        }
        Ok(told)
    }

    /// Boolean, integer and string of a body.
    pub fn scalars(
        &mut self,
        lent: Lent<'_>,
        flags: u32,
        depth: u32,
        tokens: bool,
    ) -> [Outcome; 3] {
        let text = reader::scalar(lent, flags, depth);
        let asked = |word| {
            let question = format!("{word} {} {} {depth} 128", hex(lent.body), flags & 7);
            (tokens && text != Err(1.into())).then_some(question)
        };
        let text = &text;
        let value = text.as_deref().map_err(|refused| *refused);
        let outcomes = [
            one(
                lent.body,
                calls::boolean(lent, flags, depth),
                value.and_then(reader::boolean),
                asked("bool"),
                bool::to_string,
            ),
            one(
                lent.body,
                calls::integer(lent, flags, depth),
                value.and_then(reader::integer),
                asked("int"),
                i32::to_string,
            ),
            one(
                lent.body,
                in_two_rooms(text, |room| self.caller.string(lent, flags, depth, room)),
                text.clone(),
                asked("string"),
                |text| hex(text),
            ),
        ];
        let strict = is_strict(flags, depth);
        outcomes.map(|outcome| outcome.map(|compared| Compared { strict, ..compared }))
    }

    /// The same of a text.
    pub fn text_scalars(&mut self, text: &[u8]) -> [Outcome; 3] {
        let asked = |word| {
            let question = format!("{word} {}", hex(text));
            std::str::from_utf8(text).is_ok().then_some(question)
        };
        let whole = Ok(text.to_vec());
        [
            one(
                text,
                calls::text_boolean(text),
                reader::boolean(text),
                asked("textbool"),
                bool::to_string,
            ),
            one(
                text,
                calls::text_integer(text),
                reader::integer(text),
                asked("textint"),
                i32::to_string,
            ),
            one(
                text,
                in_two_rooms(&whole, |room| self.caller.text_string(text, room)),
                whole.clone(),
                asked("textstring"),
                |text| hex(text),
            ),
        ]
    }

    pub fn find(&mut self, lent: Lent<'_>, name: &[u8], tokens: bool) -> Outcome {
        let expected = reader::find(lent, name);
        let asked = tokens && expected != Err(1.into()) && std::str::from_utf8(name).is_ok();
        one(
            lent.body,
            calls::find(lent, name),
            expected,
            asked.then(|| format!("find {} {}", hex(lent.body), hex(name))),
            |(start, length)| format!("{start} {length}"),
        )
    }

    /// The whole text: the Rust has none.
    pub fn whole_text(&mut self, lent: Lent<'_>) -> Outcome {
        let expected = reader::whole_text(lent);
        let got = in_two_rooms(&expected, |room| self.caller.whole_text(lent, room));
        one(lent.body, got, expected, None, |text| hex(text))
    }
}

/// The answer in room for what is expected; in one byte less it has to be 10.
fn in_two_rooms(
    expected: &Result<Vec<u8>, Refused>,
    mut call: impl FnMut(usize) -> Answer<Vec<u8>>,
) -> Answer<Vec<u8>> {
    let room = expected.as_ref().map_or(0, Vec::len);
    if room > 0 && call(room - 1)? != Err(10.into()) {
        return Err("no 10 in room that is too short".to_string());
    }
    call(room)
}

/// A call about a body or a text that gives one value, beside the model's, and beside the
/// Rust's answer to `question`, in which a value is `written`.
fn one<T: PartialEq + Debug>(
    about: &[u8],
    got: Answer<T>,
    expected: Result<T, Refused>,
    question: Option<String>,
    written: impl FnOnce(&T) -> String,
) -> Outcome {
    let got = got?;
    if got != expected {
        return Err(format!("is {got:?}, the model says {expected:?}"));
    }
    let (number, ours) = match &got {
        Ok(value) => (0, format!("ok {}", written(value))),
        Err(Refused { number, place }) if model::may_be_told(about, *number == 7, *place) => {
            (*number, format!("refuse {number}"))
        }
        Err(refused) => return Err(format!("tells a place of no `&`, or of no 7: {refused:?}")),
    };
    if let Some(question) = &question {
        let rust = oracle::answer(question);
        if ours != rust {
            return Err(format!("is {ours}, the Rust {rust}"));
        }
    }
    Ok(Compared {
        number,
        rust: question.is_some(),
        ..Compared::default()
    })
}

fn beside_rust(
    kind: Kind,
    body: &[u8],
    asked: Asked<'_>,
    told: &Told,
    compared: Compared,
) -> Outcome {
    let rust = oracle::answer(&format!(
        "{} {} {} {} {} {}",
        kind.word(),
        hex(body),
        hex(asked.sheet),
        asked.flags & 7,
        asked.depth,
        asked.max_depth
    ));
    if rust == "bad name" {
        // a name that is not UTF-8, which the Rust cannot hold
        return Ok(compared);
    }
    let compared = Compared {
        rust: true,
        ..compared
    };
    // a refused string list shows none of its entries in the Rust
    let ours = if kind == Kind::Strings && told.number != 0 {
        format!("refuse {}", told.number)
    } else {
        line(told)
    };
    if ours == rust {
        return Ok(compared);
    }
    if kind == Kind::Struct && !compared.strict && is_longer_root(asked.sheet, &ours, &rust) {
        return Ok(Compared {
            longer_root: true,
            ..compared
        });
    }
    Err(format!("is {ours}, the Rust {rust}"))
}

fn is_group(entry: &[u32; 6]) -> bool {
    entry[0] == 3
}

/// A byte too few for the longest group.
fn short_of_a_group(most: &Told) -> Option<usize> {
    let groups = most.entries.iter().filter(|entry| is_group(entry));
    let [.., start, len] = groups.max_by_key(|group| group[5])?;
    Some((start + len - 1) as usize)
}

/// The first entry that has no room is a group, and so is the one before it.
fn is_kept(most: &Told, told: &Told) -> bool {
    let without_room = most.entries.get(told.entries.len());
    without_room.is_some_and(is_group) && told.entries.last().is_some_and(is_group)
}

/// It is a group, and one after it would fit.
fn is_barred(most: &Told, told: &Told, entries: usize, bytes: usize) -> bool {
    let mut left = most.entries[told.entries.len()..].iter();
    let (room, fits) = (bytes - told.texts.len(), told.entries.len() < entries);
    left.next().is_some_and(is_group) && fits && left.any(|group| group[5] as usize <= room)
}

fn is_bad_reference(entry: &[u32; 6]) -> bool {
    entry[0] == 4 && entry[4] == 7
}

fn bad_references(told: &Told) -> usize {
    let entries = told.entries.iter();
    entries.filter(|entry| is_bad_reference(entry)).count()
}

/// The place beside the number, and the length field of each entry of kind 4.
fn places_may_be_told(body: &[u8], told: &Told) -> bool {
    let mut failed = told.entries.iter().filter(|entry| entry[0] == 4);
    failed.all(|entry| model::may_be_told(body, is_bad_reference(entry), entry[5] as usize))
        && model::may_be_told(body, told.number == 7, told.place)
}

/// An answer as the oracle writes it: the groups, which come last, as a set, by member.
/// (That they come so in the library's answer is the model's to test.)
fn line(told: &Told) -> String {
    let mut line = match told.number {
        0 => "ok".to_string(),
        number => format!("refuse {number}"),
    };
    let mut entries = told.entries.clone();
    if let Some(first) = entries.iter().position(is_group) {
        entries[first..].sort_by_key(|entry| entry[1]);
    }
    for [kind, member, key_start, key_len, start, len] in entries {
        let part = |start: u32, len: u32| hex(&told.texts[start as usize..(start + len) as usize]);
        let key = part(key_start, key_len);
        line += &match kind {
            1 | 3 => format!(" {kind},{member},{key},{}", part(start, len)),
            2 => format!(" 2,{member},{key},{start},{len}"),
            _ => format!(" {kind},{member},{key},{start}"),
        };
    }
    line
}

/// "the root element alone, even where the Rust takes in what stands before or after
/// it": one piece of an unwrapped sheet, alike but for a greater length in the Rust.
fn is_longer_root(sheet: &[u8], ours: &str, rust: &str) -> bool {
    let length = |line: &str| {
        let (before, length) = line.rsplit_once(',')?;
        Some((before.to_string(), length.parse::<usize>().ok()?))
    };
    let (Some(ours), Some(rust)) = (length(ours), length(rust)) else {
        return false;
    };
    let alike = ours.0 == rust.0 && ours.0.starts_with("ok 2,");
    Structure::of(sheet).is_some_and(|sheet| sheet.unwrapped) && alike && ours.1 < rust.1
}
