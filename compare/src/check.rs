//! The check of one text: the static library's answers, all of them and every
//! byte lent, beside what is expected. The place of a 7 stands beside the model alone,
//! of every text: the Rust knows none.

use crate::model::{self, Places};
use falzheod::sys;
use std::borrow::Cow;

const FINISHED: u32 = 0;
const REFERENCE: u32 = 7;
const NO_ROOM: u32 = 10;

/// What stands in memory around a text. A library that looks past either end
/// finds what would change its answer.
const BEFORE: &[u8] = b"&#x";
const BEHIND: &[u8] = b"1;lt;&";

/// Bytes behind `out` that are not lent, watched all the same.
const GUARD: usize = 32;

/// The answers for one text.
#[derive(PartialEq)]
pub struct Expected<'t> {
    validate: u32,
    unescape: Result<Cow<'t, [u8]>, u32>,
}

impl Expected<'_> {
    /// What the Rust answers.
    pub fn of_rust(text: &str) -> Expected<'_> {
        let unescape = match oracle::unescape(text) {
            Ok(Cow::Borrowed(result)) => Ok(Cow::Borrowed(result.as_bytes())),
            Ok(Cow::Owned(result)) => Ok(Cow::Owned(result.into_bytes())),
            Err(error) => Err(error.number()),
        };
        let validate = match oracle::validate_references(text) {
            Ok(()) => FINISHED,
            Err(error) => error.number(),
        };
        Expected { validate, unescape }
    }

    /// What document 01 says.
    pub fn of_model(text: &[u8]) -> Expected<'static> {
        Expected {
            validate: if model::validate(text) {
                FINISHED
            } else {
                REFERENCE
            },
            unescape: model::unescape(text).map(Cow::Owned).ok_or(REFERENCE),
        }
    }
}

/// How many texts were checked, and what was to come of them.
#[derive(Clone, Copy, Default)]
pub struct Counts {
    pub texts: u64,
    /// Texts that unescape was to take.
    pub taken: u64,
    /// Texts that validate was to take.
    pub valid: u64,
    /// Texts that fail both, at two places.
    pub apart: u64,
}

impl Counts {
    fn add(&mut self, expected: &Expected<'_>, places: Places) {
        self.texts += 1;
        self.taken += u64::from(expected.unescape.is_ok());
        self.valid += u64::from(expected.validate == FINISHED);
        let both = places.unescape.is_some();
        self.apart += u64::from(both && places.unescape != places.validate);
    }

    pub fn merge(&mut self, other: &Counts) {
        self.texts += other.texts;
        self.taken += other.taken;
        self.valid += other.valid;
        self.apart += other.apart;
    }
}

/// Holds the memory that is lent, for one text after the other.
#[derive(Default)]
pub struct Checker {
    lent: Vec<u8>,
    out: Vec<u8>,
    pattern: Vec<u8>,
    pub counts: Counts,
}

impl Checker {
    /// What differs for a text that the Rust can be asked about, if anything.
    pub fn beside_rust(&mut self, text: &str, extra: usize) -> Option<String> {
        self.beside(text.as_bytes(), &Expected::of_rust(text), extra)
    }

    /// The same for any bytes: beside the model, and where the text is UTF-8
    /// beside the Rust, which the model has to agree with.
    pub fn beside_both(&mut self, text: &[u8], extra: usize) -> Option<String> {
        let model = Expected::of_model(text);
        match std::str::from_utf8(text) {
            Ok(text) if Expected::of_rust(text) != model => {
                Some("the model and the Rust differ".to_string())
            }
            _ => self.beside(text, &model, extra),
        }
    }

    fn beside(&mut self, text: &[u8], expected: &Expected<'_>, extra: usize) -> Option<String> {
        let places = model::places(text);
        self.counts.add(expected, places);
        if places.validate.is_some() != (expected.validate == REFERENCE)
            || places.unescape.is_some() != expected.unescape.is_err()
        {
            return Some("the model has a place without a 7, or a 7 without a place".to_string());
        }
        self.lend(text);
        if let Some(problem) = self.validate(expected.validate, places.validate) {
            return Some(format!("validate {problem}"));
        }
        let utf8 = std::str::from_utf8(text).is_ok();
        if falzheod::is_utf8(self.text()) != utf8 {
            return Some(format!("is_utf8 is not {utf8}"));
        }
        match &expected.unescape {
            Ok(result) => {
                let just = result.len();
                let less = just.checked_sub(1);
                less.and_then(|room| self.unescape(room, (NO_ROOM, None), b""))
                    .or_else(|| self.unescape(just, (FINISHED, None), result))
                    .or_else(|| self.unescape(just + extra, (FINISHED, None), result))
            }
            Err(number) => self
                .unescape(0, (*number, places.unescape), b"")
                .or_else(|| self.unescape(text.len() + extra, (*number, places.unescape), b"")),
        }
    }

    fn lend(&mut self, text: &[u8]) {
        self.lent.clear();
        self.lent.extend_from_slice(BEFORE);
        self.lent.extend_from_slice(text);
        self.lent.extend_from_slice(BEHIND);
    }

    fn text(&self) -> &[u8] {
        &self.lent[BEFORE.len()..self.lent.len() - BEHIND.len()]
    }

    fn validate(&self, number: u32, place: Option<usize>) -> Option<String> {
        let text = self.text();
        // not 0: that it becomes 0 has to show
        let mut told = usize::MAX;
        // SAFETY: pointers to a live slice, with its length, and to a variable.
        let got =
            unsafe { sys::falzheod_validate_references(text.as_ptr(), text.len(), &mut told) };
        differs(text, (got, told), (number, place))
    }

    /// One call with `room` bytes lent. `written` is what has to stand at the
    /// front of `out` afterwards; all bytes behind it keep the pattern.
    fn unescape(
        &mut self,
        room: usize,
        expected: (u32, Option<usize>),
        written: &[u8],
    ) -> Option<String> {
        let watched = room + GUARD;
        while self.pattern.len() < watched {
            // differs from byte to byte, so that moved bytes show
            self.pattern
                .push((self.pattern.len() as u8).wrapping_mul(37) ^ 0xA5);
        }
        self.out.clear();
        self.out.extend_from_slice(&self.pattern[..watched]);
        // not 0: that a refusal sets them to 0 has to show
        let (mut length, mut place) = (usize::MAX, usize::MAX);
        let out = self.out.as_mut_ptr();
        let text = self.text();
        let (start, size) = (text.as_ptr(), text.len());
        // SAFETY: pointers to live memory of the lengths given; nothing overlaps.
        let got =
            unsafe { sys::falzheod_unescape(start, size, out, room, &mut length, &mut place) };
        let problem = if let Some(problem) = differs(text, (got, place), expected) {
            problem
        } else if length != written.len() {
            format!("says length {length}, not {}", written.len())
        } else if &self.out[..length] != written {
            "wrote other bytes".to_string()
        } else if self.out[length..] != self.pattern[length..watched] {
            "wrote behind its result".to_string()
        } else {
            return None;
        };
        Some(format!("unescape with room for {room} {problem}"))
    }
}

/// What differs in a number and a place that were told of a text.
fn differs(text: &[u8], told: (u32, usize), expected: (u32, Option<usize>)) -> Option<String> {
    let ((number, place), (wanted, at)) = (told, expected);
    if number != wanted {
        Some(format!("is {number}, not {wanted}"))
    } else if place != at.unwrap_or(0) {
        Some(format!("tells the place {place}, not {at:?}"))
    } else if !model::may_be_told(text, number == REFERENCE, place) {
        Some(format!("tells the place {place} of no `&`"))
    } else {
        None
    }
}
