//! Requests answered by capnpc's own functions, with the refusals of documents 01 and 02 in their order; the paired setter by
//! the paragraph of request N9.

use crate::codegen::{exact, getter_text, FormattedText, GeneratorContext};
use crate::codegen_types::{Leaf, RustTypeInfo};
use crate::context::context;
use crate::paired::paired_setter;
use crate::schema_capnp::{field, type_};
use crate::sheet::read::{read, Refusal};
use crate::sheet::{Field, Group, Node, Sheet, Slot};
use crate::standins::refusal::caught;

#[derive(Clone, Copy, Debug, PartialEq)]
pub enum Request {
    /// A type's text at a leaf's number.
    Type {
        leaf: u64,
    },
    Getter {
        reader: bool,
        function: bool,
    },
    Setter,
    /// The setter whose mask is taken by the getter's rule, of request N9.
    PairedSetter,
    Haser {
        reader: bool,
    },
    Zero,
}

impl Request {
    /// Every request but types' texts.
    pub const PARTS: [Request; 9] = [
        Request::Getter { reader: true, function: false },
        Request::Getter { reader: false, function: false },
        Request::Getter { reader: true, function: true },
        Request::Getter { reader: false, function: true },
        Request::Setter,
        Request::PairedSetter,
        Request::Haser { reader: true },
        Request::Haser { reader: false },
        Request::Zero,
    ];
}

/// What a request gives, before its lines are moved in to a level of indentation.
pub enum Written {
    /// A type's text, which has no newline.
    Type(String),
    /// The result type of a getter, and the trees of lines behind it; the tree of any other accessor.
    Lines { result_type: Option<String>, trees: Vec<FormattedText> },
}

impl Written {
    fn tree(tree: FormattedText) -> Written {
        Written::Lines { result_type: None, trees: vec![tree] }
    }

    /// The text at a level.
    pub fn at(&self, level: usize) -> String {
        let margin = " ".repeat(4 * level);
        match self {
            Written::Type(text) => margin + text,
            Written::Lines { result_type, trees } => {
                let result = result_type.as_ref().map_or(String::new(), |text| margin + text + "\n");
                result + &trees.iter().map(|tree| stringify_at(tree, level)).collect::<String>()
            }
        }
    }
}

/// capnpc's `stringify`; at a level above 0 its `to_lines` begins at that level.
pub fn stringify_at(tree: &FormattedText, level: usize) -> String {
    match level {
        0 => exact::stringify(tree),
        _ => exact::to_lines(tree, level).join("\n") + "\n",
    }
}

/// Where a text goes: its level of indentation, and its fill count.
#[derive(Clone, Copy)]
pub struct State {
    pub fill: usize,
    pub level: usize,
}

impl State {
    /// A fill count at level 0.
    pub fn flat(fill: usize) -> State {
        State { fill, level: 0 }
    }

    /// 21 and then 36, over a buffer of so many bytes.
    pub fn allowed(self, size: usize) -> Result<(), Refusal> {
        match self {
            State { fill, .. } if fill > size => Err(Refusal::nowhere(21)),
            State { level, .. } if level > 8 => Err(Refusal::nowhere(36)),
            _ => Ok(()),
        }
    }
}

/// The text of a request over whole sheet bytes, put into `buffer` at a state: the new fill count, or a refusal that
/// leaves the buffer as it was.
pub fn answer(
    bytes: &[u8],
    node: u64,
    place: u64,
    request: Request,
    state: State,
    buffer: &mut [u8],
) -> Result<usize, Refusal> {
    state.allowed(buffer.len())?;
    let sheet = read(bytes)?;
    let written = written(&sheet, &context(&sheet), node, place, request).map_err(Refusal::nowhere)?;
    put(&written.at(state.level), state.fill, buffer)
}

/// The text put at `fill`, which is not past the buffer's end.
pub fn put(text: &str, fill: usize, buffer: &mut [u8]) -> Result<usize, Refusal> {
    let free = &mut buffer[fill..];
    if text.len() > free.len() {
        return Err(Refusal::nowhere(22));
    }
    free[..text.len()].copy_from_slice(text.as_bytes());
    Ok(fill + text.len())
}

/// What a request on an admitted sheet gives, or its refusal's number.
pub fn written(sheet: &Sheet, ctx: &GeneratorContext, node: u64, place: u64, request: Request) -> Result<Written, u64> {
    let node = sheet.nodes.iter().find(|candidate| candidate.id == node).ok_or(15u64)?;
    let place = usize::try_from(place).map_err(|_| 15u64)?;
    written_of_field(ctx, node, node.fields.get(place).ok_or(15u64)?, request)
}

/// The text of a request on a field of a node, at level 0.
pub fn text_of_field(ctx: &GeneratorContext, node: &Node, field: &Field, request: Request) -> Result<String, u64> {
    written_of_field(ctx, node, field, request).map(|written| written.at(0))
}

fn written_of_field(ctx: &GeneratorContext, node: &Node, field: &Field, request: Request) -> Result<Written, u64> {
    match (field, request) {
        (Field::Slot(slot), Request::Type { leaf }) => type_text(ctx, slot, leaf),
        (Field::Slot(_), Request::Getter { reader, function }) => getter(ctx, field, reader, function),
        (Field::Slot(_), Request::Setter) => setter(ctx, node, field).map(Written::tree),
        (Field::Slot(slot), Request::PairedSetter) => {
            setter(ctx, node, field).map(|setter| Written::tree(paired_setter(slot, setter)))
        }
        (Field::Slot(_), Request::Haser { reader }) => haser(node, field, reader),
        (Field::Group(group), Request::Zero) => zero(ctx, group),
        _ => Err(15),
    }
}

fn leaf_of(number: u64) -> Option<Leaf> {
    let leaves = [
        Leaf::Reader("'a"),
        Leaf::Builder("'a"),
        Leaf::Reader("'_"),
        Leaf::Builder("'_"),
        Leaf::Owned,
        Leaf::Client,
        Leaf::Server,
        Leaf::ServerDispatch,
        Leaf::Pipeline,
        Leaf::GetType,
    ];
    leaves.get(usize::try_from(number).ok()?).copied()
}

fn type_text(ctx: &GeneratorContext, slot: &Slot, leaf: u64) -> Result<Written, u64> {
    let leaf = leaf_of(leaf).ok_or(15u64)?;
    caught(|| type_::Reader(&slot.typ).type_string(ctx, leaf)).map(Written::Type)
}

fn getter(ctx: &GeneratorContext, field: &Field, reader: bool, function: bool) -> Result<Written, u64> {
    let (result_type, code, declaration) = caught(|| getter_text(ctx, &field::Reader(field), reader, function))?;
    let trees = [code].into_iter().chain(declaration).collect();
    Ok(Written::Lines { result_type: Some(result_type), trees })
}

fn setter(ctx: &GeneratorContext, node: &Node, field: &Field) -> Result<FormattedText, u64> {
    let styled_name = exact::camel_to_snake_case(field.name());
    caught(|| exact::generate_setter(ctx, node.tag_offset, &styled_name, &field::Reader(field)))
}

fn haser(node: &Node, field: &Field, reader: bool) -> Result<Written, u64> {
    let styled_name = exact::camel_to_snake_case(field.name());
    let haser = || exact::generate_haser(node.tag_offset, &styled_name, &field::Reader(field), reader);
    caught(haser).map(Written::tree)
}

fn zero(ctx: &GeneratorContext, group: &Group) -> Result<Written, u64> {
    caught(|| exact::zero_fields_of_group(ctx, group.id)).map(Written::tree)
}
