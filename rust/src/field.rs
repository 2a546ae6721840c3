//! A field of a node, and its texts.
#![forbid(unsafe_code)]

use crate::boundary::{self, FieldNumbers, NoText};
use crate::{Asked, Kind, Place, Refusal, Sheet, Verdict};
use std::fmt;
use std::iter::FusedIterator;

/// The room that a text is first given; most have less than half of it.
const FIRST_ROOM: usize = 512;

/// A field of a node: a slot or a group.
#[derive(Clone, Copy)]
pub struct Field<'a, 's> {
    sheet: &'a Sheet<'s>,
    /// The number of its node, from 0.
    node: usize,
    numbers: FieldNumbers,
    place: Place,
    name: &'s str,
    kind: Kind,
}

impl<'s> Field<'_, 's> {
    /// Its name, as the sheet has it: ASCII letters, digits and underscores, and letters with accents from U+00C0 to U+00FF.
    pub fn name(&self) -> &'s str {
        self.name
    }

    /// Its name in snake case, which stands in the names of its accessors. As in capnpc, every capital that does not
    /// come first has an underscore in front, and only ASCII letters are lowered.
    ///
    /// ```
    /// # use kitlubas::{padded, Sheet};
    /// let bytes = padded("R ::capnp\nN 7 0 0 1 0 0 0 bed\nF 3 65535 1 0 isFree\nT 1 0 0 0\nV 1 1\nG 8 65535 étatÄ\n");
    /// let sheet = Sheet::admit(&bytes)?;
    /// let names: Vec<String> = sheet.nodes().flat_map(|node| node.fields()).map(|field| field.styled_name()).collect();
    /// assert_eq!(names, ["is_free", "état_Ä"]);
    /// # Ok::<(), kitlubas::Refusal>(())
    /// ```
    pub fn styled_name(&self) -> String {
        boundary::snake(self.name)
    }

    /// Whether it is a group or a slot, and of what kind.
    pub fn kind(&self) -> Kind {
        self.kind
    }

    /// Its place among the fields of its node.
    pub fn place(&self) -> Place {
        self.place
    }

    /// Whether its setter and its getters agree, of a slot with bits: a Bool, a number or an enum. A Void, a pointer and a group
    /// have none.
    ///
    /// ```
    /// # use kitlubas::{padded, Sheet, Verdict};
    /// // The status of a bed: its default is 2, reserved, and its explicit flag was left out.
    /// let bytes = padded(
    ///     "R ::capnp\nN 7 0 0 1 0 0 0 bed\nF 4 65535 0 0 status\nT 15 9 0 0\nV 15 2\n\
    ///      F 3 65535 1 0 isFree\nT 1 0 0 0\nV 1 1\nF 0 65535 0 0 ward\nT 12 0 0 0\nV 12 0\n\
    ///      N 9 0 0 0 0 0 0 Status\n",
    /// );
    /// let sheet = Sheet::admit(&bytes)?;
    /// let verdicts: Vec<_> = sheet.nodes().flat_map(|node| node.fields()).map(|field| field.verdict()).collect();
    /// assert_eq!(verdicts, [Some(Verdict::CombinedWithDefault), Some(Verdict::Agree), None]);
    /// # Ok::<(), kitlubas::Refusal>(())
    /// ```
    pub fn verdict(&self) -> Option<Verdict> {
        boundary::verdict(self.sheet.parts(), self.node, &self.numbers).map(Verdict::of)
    }

    /// The text of a request, whatever its length: refusals 21 and 22 can't come.
    ///
    /// ```
    /// # use kitlubas::{padded, Leaf, Request, Sheet};
    /// let bytes = padded("R ::capnp\nN 7 0 0 1 0 0 0 bed\nF 0 65535 0 0 ward\nT 12 0 0 0\nV 12 0\n");
    /// let sheet = Sheet::admit(&bytes)?;
    /// for field in sheet.nodes().flat_map(|node| node.fields()) {
    ///     assert_eq!(field.text(Request::TypeText(Leaf::Owned))?, "::capnp::text::Owned");
    /// }
    /// # Ok::<(), kitlubas::Refusal>(())
    /// ```
    pub fn text(&self, request: impl Into<Asked>) -> Result<String, Refusal> {
        self.text_of(request.into())
    }

    /// The text of what is asked.
    fn text_of(&self, asked: Asked) -> Result<String, Refusal> {
        let mut text = Vec::with_capacity(FIRST_ROOM);
        self.write_text_of(asked, &mut text)?;
        text.shrink_to_fit();
        Ok(String::from_utf8(text).expect("every text is UTF-8"))
    }

    /// Puts the text of a request behind what `out` holds, for a caller who collects many. A refusal leaves `out` as it
    /// was.
    ///
    /// ```
    /// # use kitlubas::{padded, Request, Sheet};
    /// let bytes = padded(
    ///     "R ::capnp\nN 7 0 0 1 0 0 0 bed\n\
    ///      F 3 65535 1 0 isFree\nT 1 0 0 0\nV 1 1\nF 1 65535 0 0 rank\nT 7 0 0 0\nV 7 0\n",
    /// );
    /// let sheet = Sheet::admit(&bytes)?;
    /// let mut setters = Vec::new();
    /// for field in sheet.nodes().flat_map(|node| node.fields()) {
    ///     field.write_text(Request::Setter, &mut setters)?;
    /// }
    /// let setters = String::from_utf8(setters).expect("texts are UTF-8");
    /// assert_eq!(setters.matches("pub fn set_").count(), 2);
    /// # Ok::<(), kitlubas::Refusal>(())
    /// ```
    pub fn write_text(&self, request: impl Into<Asked>, out: &mut Vec<u8>) -> Result<(), Refusal> {
        self.write_text_of(request.into(), out)
    }

    /// Puts the text of what is asked behind what `out` holds.
    fn write_text_of(&self, asked: Asked, out: &mut Vec<u8>) -> Result<(), Refusal> {
        let start = out.len();
        let mut text = self.text_behind(asked, out, start, FIRST_ROOM);
        if let Err(NoText { refusal: Refusal { number: Refusal::NO_ROOM, .. }, length }) = text {
            text = self.text_behind(asked, out, start, length);
        }
        out.truncate(start + text.as_ref().map_or(0, |length| *length));
        text.map(|_| ()).map_err(|none| none.refusal)
    }

    /// The length of the text, which is put from `start` on into this much room.
    fn text_behind(&self, asked: Asked, out: &mut Vec<u8>, start: usize, room: usize) -> Result<usize, NoText> {
        out.resize(start + room, 0);
        boundary::text(self.sheet.parts(), self.node, &self.numbers, asked, &mut out[start..])
    }
}

impl fmt::Debug for Field<'_, '_> {
    fn fmt(&self, f: &mut fmt::Formatter<'_>) -> fmt::Result {
        let mut field = f.debug_struct("Field");
        field.field("place", &self.place).field("name", &self.name).field("kind", &self.kind);
        field.finish_non_exhaustive()
    }
}

/// The fields of a node, one after the other.
#[derive(Clone, Debug)]
pub struct Fields<'a, 's> {
    sheet: &'a Sheet<'s>,
    node: usize,
    at: usize,
    place: Place,
}

impl<'a, 's> Fields<'a, 's> {
    /// The fields of the node with a number, of which the first stands at a position of the sheet.
    pub(crate) fn new(sheet: &'a Sheet<'s>, node: usize, at: usize) -> Fields<'a, 's> {
        Fields { sheet, node, at, place: Place(0) }
    }
}

impl<'a, 's> Iterator for Fields<'a, 's> {
    type Item = Field<'a, 's>;

    fn next(&mut self) -> Option<Field<'a, 's>> {
        let row = boundary::field(self.sheet.bytes(), self.at)?;
        let Fields { sheet, node, place, .. } = *self;
        self.at = row.next;
        self.place = Place(place.0 + 1);
        let (name, kind) = (sheet.word(row.name), Kind::of(row.kind));
        Some(Field { sheet, node, numbers: row.numbers, place, name, kind })
    }
}

impl FusedIterator for Fields<'_, '_> {}
