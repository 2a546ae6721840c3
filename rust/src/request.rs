//! What can be asked of a field, and the numbers that requests and leaves have at the boundary.
#![forbid(unsafe_code)]

use crate::Level;

/// What is asked of a field. Of a slot everything but a zeroing can be asked, of a group a zeroing only; what can't be
/// asked is refused by 15.
#[derive(Clone, Copy, Debug, PartialEq, Eq, Hash)]
#[non_exhaustive]
pub enum Request {
    /// The text of the slot's type at a leaf, without a newline at its end.
    TypeText(Leaf),
    /// The slot's getter: its result type, a newline, its code, and the declaration of its default if it has one.
    Getter {
        /// Whose method it is.
        side: Side,
        /// What it is written for.
        form: Form,
    },
    /// The slot's setter, and its initializer if it has one.
    Setter,
    /// The test whether the slot is there. A slot that is no pointer has none: its text is an empty line.
    Haser {
        /// Whose method it is.
        side: Side,
    },
    /// The lines that set everything in a group to zero.
    Zeroing,
    /// The paired setter: its mask is taken by the getter's rule, so that a generated getter reads what was set, whatever the
    /// default. As ever, the record has to be long enough for it, and its bits clear of its union's tag.
    ///
    /// Its function has the name of [`Request::Setter`]'s; the mask differs in three cases alone: a float with the default -0.0
    /// and an enum with a default other than 0 but without its flag are masked, and an enum with its flag and the default 0 is
    /// not. A pointer or a Void has the present setter, and so has, refusals too, a slot whose default is not of its type.
    ///
    /// ```
    /// # use kitlubas::{padded, NodeId, Place, Request, Sheet};
    /// // The status of a bed: its default is 2, reserved, and its explicit flag was left out.
    /// let bytes = padded(
    ///     "R ::capnp\nN 7 0 0 1 0 0 0 bed\nF 4 65535 0 0 status\nT 15 9 0 0\nV 15 2\n\
    ///      N 9 0 0 0 0 0 0 Status\n",
    /// );
    /// let sheet = Sheet::admit(&bytes)?;
    /// let setter = sheet.text(NodeId(7), Place(0), Request::Setter)?;
    /// assert!(setter.contains("self.builder.set_data_field::<u16>(4, value as u16);"));
    /// let paired = sheet.text(NodeId(7), Place(0), Request::PairedSetter)?;
    /// assert!(paired.contains("self.builder.set_data_field_mask::<u16>(4, value as u16, 2);"));
    /// # Ok::<(), kitlubas::Refusal>(())
    /// ```
    PairedSetter,
}

/// The struct that an accessor is a method of.
#[derive(Clone, Copy, Debug, PartialEq, Eq, Hash)]
pub enum Side {
    /// `Reader`, whose member is `reader`.
    Reader,
    /// `Builder`, whose member is `builder`.
    Builder,
}

/// What a getter is written for.
#[derive(Clone, Copy, Debug, PartialEq, Eq, Hash)]
pub enum Form {
    /// The body of a function: an arrow stands before the result type, and a Void slot has neither type nor code.
    Function,
    /// An expression, as in the arms of a union's `which`: the result type stands alone.
    Plain,
}

/// What a type's text names of the type: capnpc's `Leaf`.
#[derive(Clone, Copy, Debug, PartialEq, Eq, Hash)]
#[non_exhaustive]
pub enum Leaf {
    /// `Reader` with a lifetime.
    Reader(Lifetime),
    /// `Builder` with a lifetime.
    Builder(Lifetime),
    /// `Owned`.
    Owned,
    /// `Client`.
    Client,
    /// `Server`.
    Server,
    /// `ServerDispatch`.
    ServerDispatch,
    /// `Pipeline`.
    Pipeline,
    /// `get_type`.
    GetType,
}

/// A lifetime that a type's text can have.
#[derive(Clone, Copy, Debug, PartialEq, Eq, Hash)]
pub enum Lifetime {
    /// `'a`.
    A,
    /// `'_`.
    Anonymous,
}

/// A request and the level of indentation of its text. Whatever takes one takes a request as well, which is then asked at
/// level 0.
///
/// ```
/// use kitlubas::{Asked, Level, Request};
///
/// assert_eq!(Asked::from(Request::Setter), Request::Setter.at(Level::default()));
/// ```
#[derive(Clone, Copy, Debug, PartialEq, Eq, Hash)]
#[non_exhaustive]
pub struct Asked {
    /// What is asked.
    pub request: Request,
    /// How far the lines of the text are moved in.
    pub level: Level,
}

impl From<Request> for Asked {
    fn from(request: Request) -> Asked {
        request.at(Level::default())
    }
}

impl Request {
    /// This request at a level of indentation. Where a text has no lines, as the haser of a slot that is no pointer and the
    /// zeroing of nothing, it is one newline at every level.
    pub fn at(self, level: Level) -> Asked {
        Asked { request: self, level }
    }

    /// The request's number at the boundary.
    pub(crate) fn number(self) -> u64 {
        match self {
            Request::TypeText(_) => 0,
            Request::Getter { side: Side::Reader, form: Form::Plain } => 1,
            Request::Getter { side: Side::Builder, form: Form::Plain } => 2,
            Request::Getter { side: Side::Reader, form: Form::Function } => 3,
            Request::Getter { side: Side::Builder, form: Form::Function } => 4,
            Request::Setter => 5,
            Request::Haser { side: Side::Reader } => 6,
            Request::Haser { side: Side::Builder } => 7,
            Request::Zeroing => 8,
            Request::PairedSetter => 9,
        }
    }

    /// The leaf's number, which goes beside the request's; 0 where no leaf is asked.
    pub(crate) fn leaf(self) -> u64 {
        match self {
            Request::TypeText(leaf) => leaf.number(),
            _ => 0,
        }
    }
}

impl Leaf {
    fn number(self) -> u64 {
        match self {
            Leaf::Reader(Lifetime::A) => 0,
            Leaf::Builder(Lifetime::A) => 1,
            Leaf::Reader(Lifetime::Anonymous) => 2,
            Leaf::Builder(Lifetime::Anonymous) => 3,
            Leaf::Owned => 4,
            Leaf::Client => 5,
            Leaf::Server => 6,
            Leaf::ServerDispatch => 7,
            Leaf::Pipeline => 8,
            Leaf::GetType => 9,
        }
    }
}
