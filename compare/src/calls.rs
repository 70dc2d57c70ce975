//! Calls of the static library's readings, with memory around what is lent that must
//! stay as it is, and what is lent filled with marks, so that each number and byte
//! that is not to be written shows when it is.

use crate::reader::{Asked, Kind, Refused, Room, Told};
use crate::rules::Lent;
use falzheod::sys;

/// What stands around and in a buffer before a call.
const MARK: u32 = 0xA5C3_96E1;
const BYTE: u8 = 0xA7;
const BORDER: usize = 8;

/// What a call that gives one value answers, or what it did that it must not.
pub type Answer<T> = Result<Result<T, Refused>, String>;

/// Holds the memory that is lent, for one call after the other.
#[derive(Default)]
pub struct Caller {
    entries: Vec<u32>,
    texts: Vec<u8>,
}

impl Caller {
    /// The answer of a reading, or what it did that it must not.
    pub fn read(
        &mut self,
        kind: Kind,
        lent: Lent<'_>,
        asked: Asked<'_>,
        room: Room,
    ) -> Result<Told, String> {
        // any length is room for its sixth part
        let numbers = room.entries * 6 + (lent.body.len() + room.bytes) % 6;
        self.lend(numbers, room.bytes);
        let (told, count, length) = self.called(kind, lent, asked);
        if count > room.entries || length > room.bytes {
            return Err(format!(
                "says {count} entries and {length} bytes in {room:?}"
            ));
        }
        self.kept(count * 6, length)?;
        let entries = self.entries[BORDER..][..count * 6].chunks(6);
        Ok(Told {
            number: told.number,
            place: told.place,
            entries: entries
                .map(|entry| entry.try_into().expect("six"))
                .collect(),
            texts: self.texts[BORDER..][..length].to_vec(),
        })
    }

    /// What is told, and how many entries and text bytes are said to be written. A
    /// structure and a list have no place.
    fn called(&mut self, kind: Kind, lent: Lent<'_>, asked: Asked<'_>) -> (Refused, usize, usize) {
        let (mut count, mut length) = (usize::MAX, usize::MAX);
        macro_rules! call {
            ($function:ident $(, $place:ident)?) => {
                // SAFETY: pointers to live memory of the lengths given; nothing overlaps.
                unsafe {
                    sys::$function(
                        lent.body.as_ptr(),
                        lent.body.len(),
                        lent.numbers.as_ptr(),
                        lent.numbers.len(),
                        lent.end,
                        asked.sheet.as_ptr(),
                        asked.sheet.len(),
                        asked.flags,
                        asked.max_depth,
                        asked.depth,
                        self.entries[BORDER..].as_mut_ptr(),
                        self.entries.len() - 2 * BORDER,
                        self.texts[BORDER..].as_mut_ptr(),
                        self.texts.len() - 2 * BORDER,
                        &mut count,
                        &mut length,
                        $($place,)?
                    )
                }
            };
        }
        let told = match kind {
            Kind::Struct => call!(falzheod_read_struct).into(),
            Kind::List => call!(falzheod_read_list).into(),
            Kind::Map => placed(|place| call!(falzheod_read_map, place)),
            Kind::Strings => placed(|place| call!(falzheod_read_string_list, place)),
        };
        (told, count, length)
    }

    /// The string of a body.
    pub fn string(
        &mut self,
        lent: Lent<'_>,
        flags: u32,
        depth: u32,
        room: usize,
    ) -> Answer<Vec<u8>> {
        self.filled(room, |out, length| {
            // SAFETY: as above.
            placed(|place| unsafe {
                sys::falzheod_read_string(
                    lent.body.as_ptr(),
                    lent.body.len(),
                    lent.numbers.as_ptr(),
                    lent.numbers.len(),
                    lent.end,
                    flags,
                    depth,
                    out,
                    room,
                    length,
                    place,
                )
            })
        })
    }

    /// The whole text of a body.
    pub fn whole_text(&mut self, lent: Lent<'_>, room: usize) -> Answer<Vec<u8>> {
        self.filled(room, |out, length| {
            // SAFETY: as above.
            unsafe {
                sys::falzheod_whole_text(
                    lent.body.as_ptr(),
                    lent.body.len(),
                    lent.numbers.as_ptr(),
                    lent.numbers.len(),
                    lent.end,
                    out,
                    room,
                    length,
                )
            }
            .into()
        })
    }

    /// A text as a string.
    pub fn text_string(&mut self, text: &[u8], room: usize) -> Answer<Vec<u8>> {
        self.filled(room, |out, length| {
            // SAFETY: as above.
            unsafe { sys::falzheod_text_string(text.as_ptr(), text.len(), out, room, length) }
                .into()
        })
    }

    /// A call that writes to the front of one buffer.
    fn filled(
        &mut self,
        room: usize,
        call: impl FnOnce(*mut u8, &mut usize) -> Refused,
    ) -> Answer<Vec<u8>> {
        self.lend(0, room);
        let mut length = usize::MAX;
        let told = call(self.texts[BORDER..].as_mut_ptr(), &mut length);
        if length > room || told.number != 0 && length != 0 {
            return Err(format!("says {length} bytes in room for {room}"));
        }
        self.kept(0, length)?;
        given(told, self.texts[BORDER..][..length].to_vec())
    }

    fn lend(&mut self, numbers: usize, bytes: usize) {
        self.entries.clear();
        self.entries.resize(numbers + 2 * BORDER, MARK);
        self.texts.clear();
        self.texts.resize(bytes + 2 * BORDER, BYTE);
    }

    /// All but what is said to be written is as it was.
    fn kept(&self, numbers: usize, bytes: usize) -> Result<(), String> {
        let around = |written: usize, all: usize| (0..BORDER).chain(BORDER + written..all);
        let entries = around(numbers, self.entries.len()).all(|at| self.entries[at] == MARK);
        let texts = around(bytes, self.texts.len()).all(|at| self.texts[at] == BYTE);
        if entries && texts {
            Ok(())
        } else {
            Err("wrote where it is not said to".to_string())
        }
    }
}

/// What a call tells that is lent a place. It is not 0 before: that it becomes 0 has to
/// show.
fn placed(call: impl FnOnce(&mut usize) -> u32) -> Refused {
    let mut place = usize::MAX;
    let number = call(&mut place);
    Refused { number, place }
}

/// The value where the number is 0, and then no place is told.
fn given<T>(told: Refused, value: T) -> Answer<T> {
    match told {
        Refused { number: 0, place } if place != 0 => Err(format!("finishes at place {place}")),
        Refused { number: 0, .. } => Ok(Ok(value)),
        refused => Ok(Err(refused)),
    }
}

/// A scalar's value is left alone by a refusal, and set else.
fn valued<T: Copy + PartialEq>(mark: T, call: impl FnOnce(&mut T) -> Refused) -> Answer<T> {
    let mut value = mark;
    let told = call(&mut value);
    if told.number != 0 && value != mark {
        return Err("a refusal that sets the value".to_string());
    }
    given(told, value)
}

pub fn boolean(lent: Lent<'_>, flags: u32, depth: u32) -> Answer<bool> {
    let read = valued(MARK, |value| {
        // SAFETY: as above.
        placed(|place| unsafe {
            sys::falzheod_read_boolean(
                lent.body.as_ptr(),
                lent.body.len(),
                lent.numbers.as_ptr(),
                lent.numbers.len(),
                lent.end,
                flags,
                depth,
                value,
                place,
            )
        })
    });
    yes_or_no(read?)
}

pub fn integer(lent: Lent<'_>, flags: u32, depth: u32) -> Answer<i32> {
    valued(MARK as i32, |value| {
        // SAFETY: as above.
        placed(|place| unsafe {
            sys::falzheod_read_integer(
                lent.body.as_ptr(),
                lent.body.len(),
                lent.numbers.as_ptr(),
                lent.numbers.len(),
                lent.end,
                flags,
                depth,
                value,
                place,
            )
        })
    })
}

pub fn text_boolean(text: &[u8]) -> Answer<bool> {
    // SAFETY: as above.
    yes_or_no(valued(MARK, |value| {
        unsafe { sys::falzheod_text_boolean(text.as_ptr(), text.len(), value) }.into()
    })?)
}

pub fn text_integer(text: &[u8]) -> Answer<i32> {
    // SAFETY: as above.
    valued(MARK as i32, |value| {
        unsafe { sys::falzheod_text_integer(text.as_ptr(), text.len(), value) }.into()
    })
}

fn yes_or_no(read: Result<u32, Refused>) -> Answer<bool> {
    match read {
        Ok(value @ 0..=1) => Ok(Ok(value == 1)),
        Ok(value) => Err(format!("a boolean {value}")),
        Err(refused) => Ok(Err(refused)),
    }
}

/// Start and length, or the number.
pub fn find(lent: Lent<'_>, name: &[u8]) -> Answer<(usize, usize)> {
    let (mut start, mut length) = (usize::MAX, usize::MAX);
    // SAFETY: as above.
    let number = unsafe {
        sys::falzheod_find(
            lent.body.as_ptr(),
            lent.body.len(),
            lent.numbers.as_ptr(),
            lent.numbers.len(),
            lent.end,
            name.as_ptr(),
            name.len(),
            &mut start,
            &mut length,
        )
    };
    match number {
        0 => Ok(Ok((start, length))),
        _ if (start, length) != (0, 0) => Err("a refusal with a part".to_string()),
        number => Ok(Err(number.into())),
    }
}
