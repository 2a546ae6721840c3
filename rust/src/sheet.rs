//! A sheet that was admitted, and its nodes.
#![forbid(unsafe_code)]

use crate::{boundary, Asked, Field, Fields, NodeId, Place, Refusal};
use std::fmt;
use std::iter::FusedIterator;
use std::ops::Range;

/// A sheet that was admitted, once: its bytes, which it borrows, and the index of its nodes, by which everything is
/// found. From it come the nodes, their fields and every text.
///
/// ```
/// use kitlubas::{padded, NodeId, Place, Request, Sheet};
///
/// let bytes = padded("R ::capnp\nN 7 0 0 1 0 0 0 bed\nF 3 65535 1 0 isFree\nT 1 0 0 0\nV 1 1\n");
/// let sheet = Sheet::admit(&bytes)?;
/// for node in sheet.nodes() {
///     println!("node {} is {}", node.id(), node.module());
///     for field in node.fields() {
///         println!("its field {} is {}, of kind {:?}", field.place(), field.name(), field.kind());
///     }
/// }
///
/// let setter = sheet.text(NodeId(7), Place(0), Request::Setter)?;
/// assert!(setter.contains("self.builder.set_bool_field_mask(3, value, true);"));
/// # Ok::<(), kitlubas::Refusal>(())
/// ```
#[derive(Clone)]
pub struct Sheet<'s> {
    bytes: &'s [u8],
    index: Box<[u64]>,
}

impl<'s> Sheet<'s> {
    /// The sheet that these bytes are, or the refusal of its first bad line, or refusal 1 for one that is too long.
    pub fn admit(bytes: &'s [u8]) -> Result<Sheet<'s>, Refusal> {
        let mut index = vec![0; boundary::index_size(bytes.len())].into_boxed_slice();
        boundary::index(bytes, &mut index)?;
        Ok(Sheet { bytes, index })
    }

    /// The bytes of the sheet.
    pub fn bytes(&self) -> &'s [u8] {
        self.bytes
    }

    /// The nodes, in the order of the sheet.
    pub fn nodes(&self) -> Nodes<'_, 's> {
        Nodes { sheet: self, number: 0 }
    }

    /// The node with an id.
    pub fn node(&self, id: NodeId) -> Option<Node<'_, 's>> {
        self.nodes().find(|node| node.id() == id)
    }

    /// The text of a request for the field at a place of a node, whatever its length: refusals 21 and 22 can't come.
    ///
    /// ```
    /// # use kitlubas::{padded, NodeId, Place, Request, Sheet};
    /// let bytes = padded("R ::capnp\nN 7 0 0 1 0 0 0 bed\nF 3 65535 1 0 isFree\nT 1 0 0 0\nV 1 1\n");
    /// let sheet = Sheet::admit(&bytes)?;
    /// assert!(sheet.text(NodeId(7), Place(0), Request::Setter).is_ok());
    /// // There is no second field.
    /// assert_eq!(sheet.text(NodeId(7), Place(1), Request::Setter).unwrap_err().number, 15);
    /// # Ok::<(), kitlubas::Refusal>(())
    /// ```
    pub fn text(&self, node: NodeId, place: Place, request: impl Into<Asked>) -> Result<String, Refusal> {
        let field = self.node(node).and_then(|node| node.field(place));
        field.ok_or(Refusal::NOT_THERE)?.text(request)
    }

    /// Writes the text of a request for the field at a place of a node into `buf` from `fill` on, and gives the new fill
    /// count, which is just past the text. Every other byte of `buf` stays as it was, and after a refusal all stay.
    ///
    /// ```
    /// # use kitlubas::{padded, NodeId, Place, Request, Sheet, Side};
    /// let bytes = padded("R ::capnp\nN 7 0 0 1 0 0 0 bed\nF 0 65535 0 0 ward\nT 12 0 0 0\nV 12 0\n");
    /// let sheet = Sheet::admit(&bytes)?;
    /// let haser = |side| Request::Haser { side };
    /// let mut buf = [0; 200];
    /// let first = sheet.answer(NodeId(7), Place(0), haser(Side::Reader), &mut buf, 0)?;
    /// let second = sheet.answer(NodeId(7), Place(0), haser(Side::Builder), &mut buf, first)?;
    /// assert!(buf[..first].ends_with(b"{\n    !self.reader.get_pointer_field(0).is_null()\n}\n"));
    /// assert!(buf[first..second].ends_with(b"{\n    !self.builder.is_pointer_field_null(0)\n}\n"));
    /// # Ok::<(), kitlubas::Refusal>(())
    /// ```
    pub fn answer(
        &self,
        node: NodeId,
        place: Place,
        request: impl Into<Asked>,
        buf: &mut [u8],
        fill: usize,
    ) -> Result<usize, Refusal> {
        boundary::answer_in(self.parts(), node, place, request.into(), buf, fill)
    }

    /// The bytes and their index, as the boundary takes them.
    pub(crate) fn parts(&self) -> (&'s [u8], &[u64]) {
        (self.bytes, &self.index)
    }

    /// A name or a module that the library found in the sheet. It is UTF-8, since the sheet was admitted.
    pub(crate) fn word(&self, at: Range<usize>) -> &'s str {
        std::str::from_utf8(&self.bytes[at]).expect("the words of an admitted sheet are UTF-8")
    }
}

impl fmt::Debug for Sheet<'_> {
    fn fmt(&self, f: &mut fmt::Formatter<'_>) -> fmt::Result {
        f.debug_list().entries(self.nodes()).finish()
    }
}

/// A node of a sheet.
#[derive(Clone, Copy)]
pub struct Node<'a, 's> {
    sheet: &'a Sheet<'s>,
    /// From 0, among the nodes of the sheet.
    number: usize,
    id: NodeId,
    module: &'s str,
    /// Where its first field stands.
    fields: usize,
}

impl<'a, 's> Node<'a, 's> {
    /// Its id.
    pub fn id(&self) -> NodeId {
        self.id
    }

    /// The path of its Rust module, as the sheet has it.
    pub fn module(&self) -> &'s str {
        self.module
    }

    /// Its slots and groups, in the order of the sheet.
    pub fn fields(&self) -> Fields<'a, 's> {
        Fields::new(self.sheet, self.number, self.fields)
    }

    /// The field at a place.
    pub fn field(&self, place: Place) -> Option<Field<'a, 's>> {
        self.fields().nth(usize::try_from(place.0).ok()?)
    }
}

impl fmt::Debug for Node<'_, '_> {
    fn fmt(&self, f: &mut fmt::Formatter<'_>) -> fmt::Result {
        f.debug_struct("Node").field("id", &self.id).field("module", &self.module).finish_non_exhaustive()
    }
}

/// The nodes of a sheet, one after the other.
#[derive(Clone, Debug)]
pub struct Nodes<'a, 's> {
    sheet: &'a Sheet<'s>,
    number: usize,
}

impl<'a, 's> Iterator for Nodes<'a, 's> {
    type Item = Node<'a, 's>;

    fn next(&mut self) -> Option<Node<'a, 's>> {
        let row = boundary::node(self.sheet.parts(), self.number)?;
        let (sheet, number) = (self.sheet, self.number);
        self.number += 1;
        Some(Node { sheet, number, id: row.id, module: sheet.word(row.module), fields: row.fields })
    }
}

impl FusedIterator for Nodes<'_, '_> {}
