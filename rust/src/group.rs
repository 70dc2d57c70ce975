//! A group: all elements of a flattened member, as pieces and as an upload.

use crate::row::{children, kind};
use crate::{lent, CheckError, Piece, Row, Sheet, Upload};
use std::fmt;

/// The tags around the siblings of a group.
const OPEN: &[u8] = b"<__flat>";
const CLOSE: &[u8] = b"</__flat>";

/// How many bytes they have.
pub(crate) const FLAT: usize = OPEN.len() + CLOSE.len();

/// All elements of a flattened member: `<__flat>`, the siblings, `</__flat>`.
///
/// These bytes stand nowhere in the upload, but each sibling does. So nothing is tokenized
/// again here either: [`pieces`](Group::pieces) are the siblings as they stand in the
/// upload, and [`upload`](Group::upload) has their rows, for a list or map reading of the
/// whole group.
///
/// ```
/// # #[cfg(feature = "xmlparser")] {
/// use falzheod::{check, Entry, Member, Settings, StructSheet};
///
/// let sheet = StructSheet::builder("core")
///     .member(Member::new("ring").flattened().aggregate())
///     .build()?;
/// let upload = check(b"<core><ring>9</ring> <ring>7</ring></core>")?;
/// let reading = upload.read_struct(&sheet, &Settings::default());
/// let Some(Entry::Group { group, .. }) = reading.entries().next() else { panic!() };
/// assert_eq!(group.bytes(), b"<__flat><ring>9</ring><ring>7</ring></__flat>");
/// assert_eq!(group.pieces().len(), 2);
/// # }
/// # Ok::<(), Box<dyn std::error::Error>>(())
/// ```
#[derive(Clone, Copy)]
pub struct Group<'r> {
    upload: &'r Upload<'r>,
    bytes: &'r [u8],
    siblings: &'r [(u32, u32)],
}

impl<'r> Group<'r> {
    pub(crate) fn of(upload: &'r Upload<'r>, bytes: &'r [u8], siblings: &'r [(u32, u32)]) -> Self {
        let group = Group {
            upload,
            bytes,
            siblings,
        };
        debug_assert_eq!(
            bytes.len(),
            FLAT + group.pieces().map(|p| p.range().len()).sum::<usize>()
        );
        group
    }

    /// Its bytes, with the tags around them.
    ///
    /// ```
    /// # #[cfg(feature = "xmlparser")] {
    /// # use falzheod::{check, Entry, Member, Settings, StructSheet};
    /// # let n = Member::new("n").flattened().aggregate();
    /// let sheet = StructSheet::builder("r").member(n).build()?;
    /// let upload = check(b"<r><n>1</n><n>2</n></r>")?;
    /// let reading = upload.read_struct(&sheet, &Settings::default());
    /// let Some(Entry::Group { group, .. }) = reading.entries().next() else { panic!() };
    /// assert_eq!(group.bytes().len(), 33);
    /// # }
    /// # Ok::<(), Box<dyn std::error::Error>>(())
    /// ```
    pub fn bytes(&self) -> &'r [u8] {
        self.bytes
    }

    /// The siblings as pieces of the upload, in its order. As items of a list that the
    /// group stands for they are two shape levels deeper.
    ///
    /// ```
    /// # #[cfg(feature = "xmlparser")] {
    /// # use falzheod::{check, Entry, Member, Settings, StructSheet};
    /// # let n = Member::new("n").flattened().aggregate();
    /// let sheet = StructSheet::builder("r").member(n).build()?;
    /// let upload = check(b"<r><n>1</n><n>2</n></r>")?;
    /// let reading = upload.read_struct(&sheet, &Settings::default());
    /// let Some(Entry::Group { group, .. }) = reading.entries().next() else { panic!() };
    /// let second = group.pieces().nth(1).unwrap().upload();
    /// assert_eq!((second.body(), second.depth()), (&b"<n>2</n>"[..], 2));
    /// # }
    /// # Ok::<(), Box<dyn std::error::Error>>(())
    /// ```
    pub fn pieces(&self) -> impl ExactSizeIterator<Item = Piece<'r>> + 'r {
        let upload = self.upload;
        self.siblings
            .iter()
            .map(move |place| Piece::of(upload, *place, 2))
    }

    /// The group as an upload, one shape level deeper, to be read as a list or a map. Its
    /// rows are those of the siblings, and the drain tests them again, since the bytes
    /// are new. It is refused where it has more than 65,536 bytes, which an upload with
    /// short tags around it may just reach.
    ///
    /// ```
    /// # #[cfg(feature = "xmlparser")] {
    /// # use falzheod::{check, Entry, ListSheet, Member, Settings, StructSheet};
    /// # let n = Member::new("n").flattened().aggregate();
    /// let sheet = StructSheet::builder("r").member(n).build()?;
    /// let upload = check(b"<r><n>1</n><n>2</n></r>")?;
    /// let reading = upload.read_struct(&sheet, &Settings::default());
    /// let Some(Entry::Group { group, .. }) = reading.entries().next() else { panic!() };
    /// let list = ListSheet::builder().build()?;
    /// let group = group.upload()?;
    /// let numbers = group.read_string_list(&list, &Settings::default());
    /// let texts: Vec<_> = numbers.entries().map(|e| e.as_str().unwrap().to_string()).collect();
    /// assert_eq!(texts, ["1", "2"]);
    /// # }
    /// # Ok::<(), Box<dyn std::error::Error>>(())
    /// ```
    pub fn upload(&self) -> Result<Upload<'r>, CheckError> {
        let (open, close) = (OPEN.len() as u32, CLOSE.len() as u32);
        let end = self.bytes.len() as u32;
        let name = |kind: u32, local_start: u32, position: u32| Row {
            kind,
            local_start,
            local_len: open - 2,
            position,
            ..Row::default()
        };
        let tag_end = Row {
            kind: kind::OPEN,
            position: open,
            ..Row::default()
        };
        let mut rows = vec![name(kind::START, 1, open - 1), tag_end];
        let mut place = open;
        for piece in self.pieces() {
            rows.extend(piece.rows_at(place));
            place += piece.bytes().len() as u32;
        }
        rows.push(name(kind::CLOSE, end - close + 2, end));
        let upload = Upload::of_table(self.bytes, rows, end)?;
        Ok(upload.at_depth(self.upload.depth().saturating_add(1)))
    }
}

impl fmt::Debug for Group<'_> {
    fn fmt(&self, f: &mut fmt::Formatter<'_>) -> fmt::Result {
        write!(f, "Group({:?})", String::from_utf8_lossy(self.bytes))
    }
}

/// The places of the siblings of each group: the children whose local name the group's
/// member asks for. A child is of the first member that asks for its name, so all children
/// of one name are of one member.
pub(crate) fn siblings(
    upload: &Upload<'_>,
    sheet: Sheet<'_>,
    entries: &[lent::Entry],
) -> Vec<Vec<(u32, u32)>> {
    let groups: Vec<_> = entries
        .iter()
        .filter(|entry| entry.kind == lent::kind::GROUP)
        .collect();
    if groups.is_empty() {
        return Vec::new();
    }
    let body = upload.body();
    let children = children(upload.rows());
    let of_member = |entry: &&lent::Entry| {
        let name = sheet.members()[entry.member as usize].asked();
        let named = children.iter().filter(|child| child[0].local(body) == name);
        let places = named.map(|child| {
            let start = child[0].tag_start(body) as u32;
            (start, child[child.len() - 1].position - start)
        });
        places.collect()
    };
    groups.iter().map(of_member).collect()
}
