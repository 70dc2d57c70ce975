//! The readings of an upload, in buffers that suffice.

use crate::group::{siblings, FLAT};
use crate::row::{kind, root_tag};
use crate::sys::Shape;
use crate::{lent, ListSheet, MapSheet, Member, Piece, Reading, Refusal, Settings};
use crate::{Sheet, StructSheet, Text, Upload};

/// Room that suffices for every reading of an upload by a sheet, in entries and in bytes.
///
/// An attribute member writes at most one entry: the text of one of the root's attributes,
/// which is no longer than that attribute's value, since unescaping lengthens nothing.
/// Several members may ask for the same attribute. Every other entry comes from an element
/// of its own: a child, an item, an entry of a map, the root; and a group from one child or
/// more, which give no other. Texts of children, keys, values and siblings are parts of the
/// body that do not overlap, so together they are no longer than it; a group has its two
/// tags besides.
fn enough(upload: &Upload<'_>, sheet: Sheet<'_>) -> (usize, usize) {
    let (rows, members) = (upload.rows(), sheet.members());
    let count = |what: fn(&Member) -> bool| members.iter().filter(|m| what(m)).count();
    let attributes = count(Member::is_attribute);
    let groups = count(|member| member.is_flattened() && member.is_aggregate());
    let longest = root_tag(rows).iter().map(|row| row.value_len).max();
    let elements = rows.iter().filter(|row| row.kind == kind::START).count();
    (
        attributes + elements,
        attributes * longest.unwrap_or(0) as usize + upload.body().len() + groups * FLAT,
    )
}

impl Upload<'_> {
    /// Reads the upload by a sheet of any kind.
    ///
    /// Since the upload passed the drain and the sheet is not broken, the reading is
    /// refused only with [`Refusal::Depth`], [`Refusal::RootName`] (structures) and
    /// [`Refusal::ElementInText`] (maps and lists of strings). Room is never wanting.
    ///
    /// ```
    /// # #[cfg(feature = "xmlparser")] {
    /// # use falzheod::{check, ListSheet, Settings, Sheet};
    /// let list = ListSheet::builder().build()?;
    /// let upload = check(b"<u><s>a &amp; b</s></u>")?;
    /// let strings = upload.read(Sheet::StringList(&list), &Settings::default());
    /// assert_eq!(strings.entries().next().unwrap().as_str(), Some("a & b"));
    /// # }
    /// # Ok::<(), Box<dyn std::error::Error>>(())
    /// ```
    pub fn read<'s>(&self, sheet: impl Into<Sheet<'s>>, settings: &Settings) -> Reading<'_> {
        let sheet = sheet.into();
        let shape = match sheet {
            Sheet::Struct(_) => Shape::Struct,
            Sheet::List(_) => Shape::List,
            Sheet::StringList(_) => Shape::StringList,
            Sheet::Map(_) => Shape::Map,
        };
        let (most_entries, most_bytes) = enough(self, sheet);
        let mut entries = vec![lent::Entry::default(); most_entries];
        let mut texts = vec![0; most_bytes];
        let (lent, bytes, depth) = (self.lent(), sheet.as_bytes(), self.depth());
        let read = lent::read(
            shape,
            lent,
            bytes,
            *settings,
            depth,
            &mut entries,
            &mut texts,
        );
        let (written, refusal) = match read {
            Ok(written) => (written, None),
            Err(refused) => (refused.written, Some(refused.refusal)),
        };
        debug_assert_ne!(refusal, Some(Refusal::NoRoom));
        entries.truncate(written.count);
        texts.truncate(written.length);
        Reading {
            upload: self,
            refusal,
            is_map: matches!(shape, Shape::Map),
            groups: siblings(self, sheet, &entries),
            entries,
            texts,
        }
    }

    /// Reads a structure: attribute members in sheet order, children in body order, then
    /// the groups by rising member index.
    ///
    /// ```
    /// # #[cfg(feature = "xmlparser")] {
    /// use falzheod::{check, Member, Refusal, Settings, StructSheet};
    ///
    /// let sheet = StructSheet::builder("core")
    ///     .member(Member::new("bark"))
    ///     .member(Member::new("id").attribute())
    ///     .build()?;
    /// let settings = Settings::default().enforce_strictness(true);
    /// let upload = check(b"<core id='17'><bark>whole</bark></core>")?;
    /// let reading = upload.read_struct(&sheet, &settings);
    /// let texts: Vec<_> = reading.entries().map(|e| (e.member(), e.bytes().to_vec())).collect();
    /// assert_eq!(texts, [(1, b"17".to_vec()), (0, b"whole".to_vec())]);
    ///
    /// let other = check(b"<cores/>")?;
    /// assert_eq!(other.read_struct(&sheet, &settings).refusal(), Some(Refusal::RootName));
    /// # }
    /// # Ok::<(), Box<dyn std::error::Error>>(())
    /// ```
    pub fn read_struct(&self, sheet: &StructSheet, settings: &Settings) -> Reading<'_> {
        self.read(sheet, settings)
    }

    /// Reads a list: each item a piece.
    ///
    /// ```
    /// # #[cfg(feature = "xmlparser")] {
    /// use falzheod::{check, Entry, ListSheet, Settings};
    ///
    /// let list = ListSheet::builder().item("core").build()?;
    /// let upload = check(b"<cores><core/><note/></cores>")?;
    /// let settings = Settings { strict_collection_element_names: true, ..Settings::default() };
    /// assert_eq!(upload.read_list(&list, &settings).entries().len(), 1);
    /// assert_eq!(upload.read_list(&list, &Settings::default()).entries().len(), 2);
    /// # }
    /// # Ok::<(), Box<dyn std::error::Error>>(())
    /// ```
    pub fn read_list(&self, sheet: &ListSheet, settings: &Settings) -> Reading<'_> {
        self.read(Sheet::List(sheet), settings)
    }

    /// Reads a list of strings: each item a text.
    ///
    /// ```
    /// # #[cfg(feature = "xmlparser")] {
    /// # use falzheod::{check, ListSheet, Settings};
    /// let list = ListSheet::builder().build()?;
    /// let upload = check(b"<species><s>larch</s><s>pine</s></species>")?;
    /// let reading = upload.read_string_list(&list, &Settings::default());
    /// let texts: Vec<_> = reading.entries().map(|e| e.bytes().to_vec()).collect();
    /// assert_eq!(texts, [&b"larch"[..], b"pine"]);
    /// # }
    /// # Ok::<(), Box<dyn std::error::Error>>(())
    /// ```
    pub fn read_string_list(&self, sheet: &ListSheet, settings: &Settings) -> Reading<'_> {
        self.read(Sheet::StringList(sheet), settings)
    }

    /// Reads a map: each entry its key and a text, or a piece where values are aggregates.
    ///
    /// ```
    /// # #[cfg(feature = "xmlparser")] {
    /// # use falzheod::{check, Entry, MapSheet, Settings};
    /// let map = MapSheet::builder().key_xml_name("year").value_xml_name("width").build()?;
    /// let upload = check(b"<m><e><year>1911</year><width>1480</width></e></m>")?;
    /// let reading = upload.read_map(&map, &Settings::default());
    /// let Some(Entry::Text { key: Some(key), text, .. }) = reading.entries().next() else {
    ///     panic!()
    /// };
    /// assert_eq!((key.integer()?, text.integer()?), (1911, 1480));
    /// # }
    /// # Ok::<(), Box<dyn std::error::Error>>(())
    /// ```
    pub fn read_map(&self, sheet: &MapSheet, settings: &Settings) -> Reading<'_> {
        self.read(sheet, settings)
    }

    /// Reads the first text of the root as a boolean: `true` or `false`, nothing trimmed.
    ///
    /// ```
    /// # #[cfg(feature = "xmlparser")] {
    /// # use falzheod::{check, Refusal, Settings};
    /// let settings = Settings::default();
    /// assert_eq!(check(b"<bark>true</bark>")?.read_boolean(&settings), Ok(true));
    /// assert_eq!(check(b"<bark>lost</bark>")?.read_boolean(&settings), Err(Refusal::NotBoolean));
    /// # }
    /// # Ok::<(), falzheod::CheckError>(())
    /// ```
    pub fn read_boolean(&self, settings: &Settings) -> Result<bool, Refusal> {
        lent::read_boolean(self.lent(), *settings, self.depth())
    }

    /// Reads the first text of the root as an integer of 32 bits, nothing trimmed.
    ///
    /// ```
    /// # #[cfg(feature = "xmlparser")] {
    /// # use falzheod::{check, Refusal, Settings};
    /// let settings = Settings::default();
    /// assert_eq!(check(b"<w>1480</w>")?.read_integer(&settings), Ok(1480));
    /// assert_eq!(check(b"<w>1480.5</w>")?.read_integer(&settings), Err(Refusal::NotInteger));
    /// # }
    /// # Ok::<(), falzheod::CheckError>(())
    /// ```
    pub fn read_integer(&self, settings: &Settings) -> Result<i32, Refusal> {
        lent::read_integer(self.lent(), *settings, self.depth())
    }

    /// Reads the first text of the root, unescaped.
    ///
    /// ```
    /// # #[cfg(feature = "xmlparser")] {
    /// # use falzheod::{check, Settings};
    /// let text = check(b"<note>bark &amp; pith</note>")?.read_string(&Settings::default())?;
    /// assert_eq!(text.as_str(), Ok("bark & pith"));
    /// # }
    /// # Ok::<(), Box<dyn std::error::Error>>(())
    /// ```
    pub fn read_string(&self, settings: &Settings) -> Result<Text<'static>, Refusal> {
        self.text(|out| lent::read_string(self.lent(), *settings, self.depth(), out))
    }

    /// Joins all texts that stand directly in the root, unescaped; an element in it is
    /// refused.
    ///
    /// ```
    /// # #[cfg(feature = "xmlparser")] {
    /// # use falzheod::{check, Refusal};
    /// let text = check(b"<note>bark <!-- c -->&amp; pith</note>")?.whole_text()?;
    /// assert_eq!(text.as_str(), Ok("bark & pith"));
    /// let inside = check(b"<note>bark <b/></note>")?.whole_text();
    /// assert_eq!(inside, Err(Refusal::ElementInText));
    /// # }
    /// # Ok::<(), Box<dyn std::error::Error>>(())
    /// ```
    pub fn whole_text(&self) -> Result<Text<'static>, Refusal> {
        self.text(|out| lent::whole_text(self.lent(), out))
    }

    /// A text of the body, which is never longer than the body.
    fn text(
        &self,
        read: impl FnOnce(&mut [u8]) -> Result<usize, Refusal>,
    ) -> Result<Text<'static>, Refusal> {
        let mut out = vec![0; self.body().len()];
        let length = read(&mut out)?;
        out.truncate(length);
        Ok(Text::from(out))
    }

    /// The element that has this local name, as an upload: this one if the root has it,
    /// else the root's first child that has it, one shape level deeper.
    ///
    /// ```
    /// # #[cfg(feature = "xmlparser")] {
    /// # use falzheod::check;
    /// let upload = check(b"<d:upload><d:site code='LAE-3'/><d:core/></d:upload>")?;
    /// assert_eq!(upload.find("site").unwrap().body(), b"<d:site code='LAE-3'/>");
    /// assert_eq!(upload.find("upload").as_ref(), Some(&upload));
    /// assert_eq!(upload.find("bark"), None);
    /// # }
    /// # Ok::<(), falzheod::CheckError>(())
    /// ```
    pub fn find(&self, name: impl AsRef<[u8]>) -> Option<Upload<'_>> {
        let part = lent::find(self.lent(), name.as_ref()).ok()?;
        if part.len() == self.body().len() {
            return Some(self.again());
        }
        let start = part.as_ptr() as usize - self.body().as_ptr() as usize;
        Some(Piece::of(self, (start as u32, part.len() as u32), 1).upload())
    }
}
