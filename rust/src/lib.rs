//! Slot accessors from schema sheets: the part of capnpc that writes getters, setters, hasers and group zeroing.
//!
//! A sheet describes the nodes and fields of a schema, one line each. [`Sheet::admit`] says whether bytes are a sheet;
//! from a sheet come its [`Node`]s, from a node its [`Field`]s, and from a field the text of each [`Request`].
//! [`Sheet::answer`] writes a text into a buffer of the caller's instead, and [`answer`] does so in one call, from bytes.
//! All of them take anything: whole, torn or empty sheets, any node, any place, any buffer and any fill count. What can't
//! be answered is a [`Refusal`] with a number and a sentence, and a refusal changes no byte of the buffer. That of a bad line
//! has the line and the column, and says what is expected there. Nothing panics and nothing has to be checked first.
//!
//! The work is done by a static library in which every function is proved to meet its contract; this crate only calls
//! it. The text is capnpc's, byte for byte, but for [`Request::PairedSetter`]'s, which has a mask of its own; at a [`Level`],
//! which [`Request::at`] gives, each of its lines begins with four spaces for each step. Calls have no state, may run on any
//! number of threads, and get along with a stack of 64 KB.
//!
//! # Examples
//!
//! A bed with one flag, `isFree`, whose default is true. [`padded`] puts the numbers of a short sheet into the 21
//! columns that a sheet has.
//!
//! ```
//! use kitlubas::{padded, Form, NodeId, Place, Request, Sheet, Side};
//!
//! let bytes = padded(
//!     "R ::capnp\n\
//!      N 7 0 0 1 0 0 0 bed\n\
//!      F 3 65535 1 0 isFree\n\
//!      T 1 0 0 0\n\
//!      V 1 1\n",
//! );
//! let sheet = Sheet::admit(&bytes)?;
//!
//! // Node 7, and of its fields the first.
//! let setter = sheet.text(NodeId(7), Place(0), Request::Setter)?;
//! assert_eq!(
//!     setter,
//!     "#[inline]\n\
//!      pub fn set_is_free(&mut self, value: bool)  {\n    \
//!          self.builder.set_bool_field_mask(3, value, true);\n\
//!      }\n"
//! );
//!
//! let getter = Request::Getter { side: Side::Reader, form: Form::Plain };
//! let getter = sheet.text(NodeId(7), Place(0), getter)?;
//! assert_eq!(getter, "bool\nself.reader.get_bool_field_mask(3, true)\n");
//! # Ok::<(), kitlubas::Refusal>(())
//! ```
//!
//! All the slots of a sheet, with their types:
//!
//! ```
//! use kitlubas::{padded, Kind, Leaf, Lifetime, Refusal, Request, Sheet};
//!
//! fn slots(bytes: &[u8]) -> Result<Vec<String>, Refusal> {
//!     let sheet = Sheet::admit(bytes)?;
//!     let mut slots = Vec::new();
//!     for node in sheet.nodes() {
//!         for field in node.fields().filter(|field| field.kind() != Kind::Group) {
//!             let typ = field.text(Request::TypeText(Leaf::Reader(Lifetime::A)))?;
//!             slots.push(format!("{}.{}: {typ}", node.module(), field.name()));
//!         }
//!     }
//!     Ok(slots)
//! }
//!
//! let bytes = padded(
//!     "R ::capnp\n\
//!      N 7 0 0 1 0 0 0 bed\n\
//!      F 3 65535 1 0 isFree\nT 1 0 0 0\nV 1 1\n\
//!      F 0 65535 0 0 wards\nT 14 0 0 0\nT 12 0 0 0\nV 14 0\n",
//! );
//! assert_eq!(slots(&bytes)?, ["bed.isFree: bool", "bed.wards: ::capnp::text_list::Reader<'a>"]);
//! # Ok::<(), kitlubas::Refusal>(())
//! ```
//!
//! All accessors of a node, written into a file. A getter's text begins with its result type, and ends with the
//! declaration of its default where it has one; what stands around these, and around the lines that zero a group, is the
//! caller's.
//!
//! ```
//! use kitlubas::{padded, Field, Form, Kind, Node, Refusal, Request, Sheet, Side};
//!
//! /// A getter as a function, and the declaration of its default.
//! fn getter(field: &Field<'_, '_>, side: Side) -> Result<(String, String), Refusal> {
//!     let text = field.text(Request::Getter { side, form: Form::Function })?;
//!     let (result, code) = text.split_once('\n').expect("a result type ends with a newline");
//!     let (code, default) = code.split_at(code.find("pub(crate) static DEFAULT_").unwrap_or(code.len()));
//!     let function = format!("#[inline]\npub fn get_{}(self) {result} {{\n{code}}}\n", field.styled_name());
//!     Ok((function, default.to_string()))
//! }
//!
//! fn accessors(node: Node<'_, '_>) -> Result<String, Refusal> {
//!     let (mut reader, mut builder, mut defaults) = (String::new(), String::new(), String::new());
//!     for field in node.fields() {
//!         if field.kind() == Kind::Group {
//!             let lines = field.text(Request::Zeroing)?;
//!             builder += &format!("#[inline]\npub fn zero_{}(&mut self) {{\n{lines}}}\n", field.styled_name());
//!             continue;
//!         }
//!         let (function, default) = getter(&field, Side::Reader)?;
//!         reader += &function;
//!         reader += &field.text(Request::Haser { side: Side::Reader })?;
//!         builder += &getter(&field, Side::Builder)?.0;
//!         builder += &field.text(Request::Setter)?;
//!         builder += &field.text(Request::Haser { side: Side::Builder })?;
//!         defaults += &default;
//!     }
//!     Ok(format!(
//!         "impl<'a> Reader<'a> {{\n{reader}}}\nimpl<'a> Builder<'a> {{\n{builder}}}\nmod _private {{\n{defaults}}}\n"
//!     ))
//! }
//!
//! let bytes = padded(
//!     "R ::capnp\n\
//!      N 7 0 0 1 0 0 0 bed\n\
//!      F 3 65535 1 0 isFree\nT 1 0 0 0\nV 1 1\n\
//!      F 0 65535 1 0 wardName\nT 12 0 0 0\nV 12 0\nW 146028888065\nW 6579554\n\
//!      G 8 65535 stay\n\
//!      N 8 7 0 1 0 0 0 bed::stay\n\
//!      F 1 65535 0 0 nights\nT 7 0 0 0\nV 7 0\n",
//! );
//! let sheet = Sheet::admit(&bytes)?;
//! let node = sheet.nodes().next().ok_or("a sheet has a node")?;
//! let path = std::env::temp_dir().join(format!("bed_accessors_{}.rs", std::process::id()));
//! std::fs::write(&path, accessors(node)?)?;
//! let file = std::fs::read_to_string(&path)?;
//! # std::fs::remove_file(&path)?;
//! let count = |what: &str| file.matches(what).count();
//! assert_eq!((count("pub fn get_"), count("pub fn set_"), count("pub fn has_"), count("pub fn zero_")), (4, 2, 2, 1));
//! assert!(file.contains("pub fn get_is_free(self) -> bool {\nself.reader.get_bool_field_mask(3, true)\n}\n"));
//! assert!(file.contains("pub fn zero_stay(&mut self) {\nself.builder.set_data_field::<u16>(1, 0u16);\n}\n"));
//! assert!(file.contains("mod _private {\npub(crate) static DEFAULT_WARD_NAME: [::capnp::Word; 2] = ["));
//! # Ok::<(), Box<dyn std::error::Error>>(())
//! ```
//!
//! A setter and a haser at level 2, inside a module and its `impl`.
//!
//! ```
//! use kitlubas::{padded, Level, NodeId, Place, Request, Sheet, Side};
//!
//! let bytes = padded(
//!     "R ::capnp\n\
//!      N 7 0 0 1 0 0 0 bed\n\
//!      F 3 65535 1 0 isFree\nT 1 0 0 0\nV 1 1\n\
//!      F 0 65535 0 0 ward\nT 12 0 0 0\nV 12 0\n",
//! );
//! let sheet = Sheet::admit(&bytes)?;
//! let inside = Level::new(2).ok_or("2 is a level")?;
//! let setter = sheet.text(NodeId(7), Place(0), Request::Setter.at(inside))?;
//! let haser = sheet.text(NodeId(7), Place(1), Request::Haser { side: Side::Builder }.at(inside))?;
//! let module = format!("pub mod bed {{\n    impl Builder<'_> {{\n{setter}{haser}    }}\n}}\n");
//! let lines = [
//!     "pub mod bed {",
//!     "    impl Builder<'_> {",
//!     "        #[inline]",
//!     "        pub fn set_is_free(&mut self, value: bool)  {",
//!     "            self.builder.set_bool_field_mask(3, value, true);",
//!     "        }",
//!     "        #[inline]",
//!     "        pub fn has_ward(&self) -> bool {",
//!     "            !self.builder.is_pointer_field_null(0)",
//!     "        }",
//!     "    }",
//!     "}",
//! ];
//! assert!(module.lines().eq(lines));
//! # Ok::<(), Box<dyn std::error::Error>>(())
//! ```
//!
//! # Before a release
//!
//! What was set is not always what is read: [`Field::verdict`] says of each slot with bits whether its present setter and its
//! getters agree. Every slot of a sheet whose setter and getters disagree, each with the text of [`Request::PairedSetter`]:
//!
//! ```
//! use kitlubas::{padded, Refusal, Request, Sheet};
//!
//! fn disagreeing(bytes: &[u8]) -> Result<Vec<String>, Refusal> {
//!     let sheet = Sheet::admit(bytes)?;
//!     let mut slots = Vec::new();
//!     for node in sheet.nodes() {
//!         for field in node.fields() {
//!             if let Some(verdict) = field.verdict().filter(|verdict| verdict.disagrees()) {
//!                 let paired = field.text(Request::PairedSetter)?;
//!                 slots.push(format!("{}.{}: {verdict}\n{paired}", node.module(), field.name()));
//!             }
//!         }
//!     }
//!     Ok(slots)
//! }
//!
//! // A bed with a Bool, whose default is true, and a status, whose default is 2, reserved. A schema editor left out the
//! // explicit flag of the status: a getter reads 0, free, where 2 was set.
//! let bytes = padded(
//!     "R ::capnp\n\
//!      N 7 0 0 1 0 0 0 bed\n\
//!      F 3 65535 1 0 isFree\nT 1 0 0 0\nV 1 1\n\
//!      F 4 65535 0 0 status\nT 15 9 0 0\nV 15 2\n\
//!      N 9 0 0 0 0 0 0 Status\n",
//! );
//! let slots = disagreeing(&bytes)?;
//! for slot in &slots {
//!     println!("{slot}");
//! }
//! let status = "bed.status: combined with the default\n\
//!     #[inline]\n\
//!     pub fn set_status(&mut self, value: Status)  {\n    \
//!         self.builder.set_data_field_mask::<u16>(4, value as u16, 2);\n\
//!     }\n";
//! assert_eq!(slots, [status]);
//! # Ok::<(), Refusal>(())
//! ```
//!
//! # Building
//!
//! The archive is the one that `tools/build exports` writes to `target/staticlib/libexports.a` in the repository, or
//! the file that the variable `KITLUBAS_LIB` names at build time.

#![deny(missing_docs, unsafe_code, unsafe_op_in_unsafe_fn)]

mod address;
mod boundary;
mod expected;
mod field;
mod kind;
mod level;
mod padded;
mod refusal;
mod request;
mod sheet;
mod verdict;

pub use address::{NodeId, Place};
pub use field::{Field, Fields};
pub use kind::Kind;
pub use level::Level;
pub use padded::padded;
pub use refusal::Refusal;
pub use request::{Asked, Form, Leaf, Lifetime, Request, Side};
pub use sheet::{Node, Nodes, Sheet};
pub use verdict::Verdict;

/// Whether these bytes are a sheet: else the refusal of its first bad line, or refusal 1 for one that is too long.
/// [`Sheet::admit`] is the same for a caller who goes on to ask for texts.
pub fn admit(sheet: &[u8]) -> Result<(), Refusal> {
    boundary::admit(sheet)
}

/// Writes the text of one request into `buf`, as [`Sheet::answer`] does, straight from bytes and without memory of its
/// own: they are admitted again by each call. A fill count above the buffer's length is refused first, then the sheet.
pub fn answer(
    sheet: &[u8],
    node: NodeId,
    place: Place,
    request: impl Into<Asked>,
    buf: &mut [u8],
    fill: usize,
) -> Result<usize, Refusal> {
    boundary::answer(sheet, node, place, request.into(), buf, fill)
}

/// The text of one request, however long it is: [`Sheet::text`], straight from bytes.
pub fn text(sheet: &[u8], node: NodeId, place: Place, request: impl Into<Asked>) -> Result<String, Refusal> {
    Sheet::admit(sheet)?.text(node, place, request)
}
