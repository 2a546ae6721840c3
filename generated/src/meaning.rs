//! What an accessor's text does to a record, from the text's bytes alone: crates/meaning/specs says it, in the same order
//! (`Reading`, then `Meaning`). The calls that are read run through the static library of the record crate.

use crate::record;

/// A place in the data section, with the offset that is written in the call.
#[derive(Clone, Copy, Debug, PartialEq)]
pub enum Place {
    Bool(u32),
    Data { width: u32, offset: u32 },
}

impl Place {
    /// Its bytes, from the first to the one behind the last.
    fn bytes(self) -> (u64, u64) {
        let (width, at) = match self {
            Place::Bool(offset) => (1, u64::from(offset) / 8),
            Place::Data { width, offset } => (u64::from(width), u64::from(offset) * u64::from(width)),
        };
        (at, at + width)
    }

    pub fn is_inside(self, section: &[u8]) -> bool {
        self.bytes().1 <= section.len() as u64
    }

    /// Whether the section has some of its bytes, and not all.
    pub fn is_split(self, section: &[u8]) -> bool {
        !self.is_inside(section) && self.bytes().0 < section.len() as u64
    }
}

/// What is set: the accessor's `value`, or a constant.
#[derive(Clone, Copy, Debug, PartialEq)]
pub enum Arg {
    Value,
    Constant(u64),
}

/// A line that writes.
#[derive(Clone, Copy, Debug, PartialEq)]
pub enum Op {
    Set { place: Place, arg: Arg, mask: Option<u64> },
    Clear(u32),
}

impl Op {
    /// Whether all that it writes is inside the record.
    pub fn is_inside(self, section: &[u8], pointers: &[u8]) -> bool {
        match self {
            Op::Set { place, .. } => place.is_inside(section),
            Op::Clear(pointer) => (pointer as usize) < pointers.len(),
        }
    }
}

/// The get of a getter.
#[derive(Clone, Copy, Debug, PartialEq)]
pub struct Get {
    pub place: Place,
    pub mask: Option<u64>,
}

/// The tests of a haser.
#[derive(Clone, Copy, Debug, PartialEq)]
pub struct Has {
    pub tag: Option<(u32, u16)>,
    pub pointer: u32,
}

impl Has {
    fn tag_place(self) -> Option<Place> {
        self.tag.map(|(offset, _)| Place::Data { width: 2, offset })
    }

    /// Whether the record has its pointer and, in a union, its tag.
    pub fn is_inside(self, section: &[u8], pointers: &[u8]) -> bool {
        self.tag_place().is_none_or(|tag| tag.is_inside(section)) && (self.pointer as usize) < pointers.len()
    }

    /// Whether the section has one byte of its tag.
    pub fn is_split(self, section: &[u8]) -> bool {
        self.tag_place().is_some_and(|tag| tag.is_split(section))
    }
}

// ---- reading

/// The numeric types: name, bytes, and whether it is signed or a float.
const TYPES: [(&str, u32, bool, bool); 10] = [
    ("i8", 1, true, false),
    ("u8", 1, false, false),
    ("i16", 2, true, false),
    ("u16", 2, false, false),
    ("i32", 4, true, false),
    ("u32", 4, false, false),
    ("f32", 4, false, true),
    ("i64", 8, true, false),
    ("u64", 8, false, false),
    ("f64", 8, false, true),
];

#[derive(Clone, Copy)]
struct Num {
    name: &'static str,
    width: u32,
    is_signed: bool,
    is_float: bool,
}

impl Num {
    /// The bits of a number that is written with its sign; none where they do not fit.
    fn bits(self, number: i128) -> Option<u64> {
        let size = 1i128 << (8 * self.width);
        let (low, high) = if self.is_signed { (-size / 2, size / 2) } else { (0, size) };
        (low <= number && number < high).then_some(number.rem_euclid(size) as u64)
    }
}

/// The rest of a line.
#[derive(Clone, Copy)]
struct Rest<'t>(&'t str);

impl<'t> Rest<'t> {
    fn lit(&mut self, bytes: &str) -> Option<()> {
        self.0 = self.0.strip_prefix(bytes)?;
        Some(())
    }

    fn end(&self) -> Option<()> {
        self.0.is_empty().then_some(())
    }

    fn number(&mut self) -> Option<i128> {
        let digits = self.0.len() - self.0.trim_start_matches(|c: char| c.is_ascii_digit()).len();
        let (number, rest) = self.0.split_at(digits);
        self.0 = rest;
        number.parse().ok()
    }

    fn signed_number(&mut self) -> Option<i128> {
        match self.lit("-") {
            Some(()) => self.number().map(|n| -n),
            None => self.number(),
        }
    }

    fn offset(&mut self) -> Option<u32> {
        self.number()?.try_into().ok()
    }

    fn type_name(&mut self) -> Option<Num> {
        let &(name, width, is_signed, is_float) = TYPES.iter().find(|typ| self.0.starts_with(typ.0))?;
        self.lit(name)?;
        Some(Num { name, width, is_signed, is_float })
    }

    fn truth(&mut self) -> Option<u64> {
        match self.lit("true") {
            Some(()) => Some(1),
            None => self.lit("false").map(|()| 0),
        }
    }

    /// A mask as a get writes it; a set writes an ending behind a float's bits.
    fn mask(&mut self, typ: Num, of_set: bool) -> Option<u64> {
        let bits = typ.bits(self.signed_number()?)?;
        if of_set && typ.is_float {
            self.lit(if typ.width == 4 { "u32" } else { "u64" })?;
        }
        Some(bits)
    }

    /// What is set: `value`, for an enum `value as u16`, or a constant with or without the type behind it.
    fn data_arg(&mut self, typ: Num) -> Option<Arg> {
        if self.lit("value").is_some() {
            if typ.name == "u16" {
                let _ = self.lit(" as u16");
            }
            return Some(Arg::Value);
        }
        let bits = typ.bits(self.number()?)?;
        let _ = self.lit(typ.name);
        (!typ.is_float || bits == 0).then_some(Arg::Constant(bits))
    }

    fn bool_arg(&mut self) -> Option<Arg> {
        match self.lit("value") {
            Some(()) => Some(Arg::Value),
            None => self.truth().map(Arg::Constant),
        }
    }

    fn member(&mut self) -> Option<()> {
        self.lit("reader.").or_else(|| self.lit("builder."))
    }

    fn is_masked(&mut self) -> bool {
        self.lit("_mask").is_some()
    }
}

/// A line that writes, whole.
fn op(line: &str) -> Option<Op> {
    let mut rest = Rest(line);
    rest.lit("self.builder.")?;
    let op = if rest.lit("reborrow().get_pointer_field(").is_some() {
        let pointer = rest.offset()?;
        rest.lit(").clear();")?;
        Op::Clear(pointer)
    } else if rest.lit("set_bool_field").is_some() {
        set_bool(&mut rest)?
    } else {
        rest.lit("set_data_field")?;
        set_data(&mut rest)?
    };
    rest.end()?;
    Some(op)
}

fn set_bool(rest: &mut Rest) -> Option<Op> {
    let is_masked = rest.is_masked();
    rest.lit("(")?;
    let place = Place::Bool(rest.offset()?);
    rest.lit(", ")?;
    let arg = rest.bool_arg()?;
    let mut mask = None;
    if is_masked {
        rest.lit(", ")?;
        mask = Some(rest.truth()?);
    }
    rest.lit(");")?;
    Some(Op::Set { place, arg, mask })
}

fn set_data(rest: &mut Rest) -> Option<Op> {
    let is_masked = rest.is_masked();
    rest.lit("::<")?;
    let typ = rest.type_name()?;
    rest.lit(">(")?;
    let place = Place::Data { width: typ.width, offset: rest.offset()? };
    rest.lit(", ")?;
    let arg = rest.data_arg(typ)?;
    let mut mask = None;
    if is_masked {
        rest.lit(", ")?;
        mask = Some(rest.mask(typ, true)?);
    }
    rest.lit(");")?;
    Some(Op::Set { place, arg, mask })
}

/// A get at the front of a text.
fn get(text: &str) -> Option<Get> {
    let mut rest = Rest(text);
    rest.lit("self.")?;
    rest.member()?;
    if rest.lit("get_bool_field").is_some() {
        let is_masked = rest.is_masked();
        rest.lit("(")?;
        let place = Place::Bool(rest.offset()?);
        let mask = if is_masked { rest.lit(", ").and_then(|()| rest.truth()).map(Some)? } else { None };
        rest.lit(")")?;
        return Some(Get { place, mask });
    }
    rest.lit("get_data_field")?;
    let is_masked = rest.is_masked();
    rest.lit("::<")?;
    let typ = rest.type_name()?;
    rest.lit(">(")?;
    let place = Place::Data { width: typ.width, offset: rest.offset()? };
    let mask = if is_masked { rest.lit(", ").and_then(|()| rest.mask(typ, false)).map(Some)? } else { None };
    rest.lit(")")?;
    Some(Get { place, mask })
}

fn tag_test(line: &str) -> Option<(u32, u16)> {
    let mut rest = Rest(line);
    rest.lit("if self.")?;
    rest.member()?;
    rest.lit("get_data_field::<u16>(")?;
    let offset = rest.offset()?;
    rest.lit(") != ")?;
    let member = rest.number()?.try_into().ok()?;
    rest.lit(" { return false; }")?;
    rest.end()?;
    Some((offset, member))
}

fn null_test(line: &str) -> Option<u32> {
    let mut rest = Rest(line);
    let behind = match rest.lit("!self.reader.get_pointer_field(") {
        Some(()) => ").is_null()",
        None => rest.lit("!self.builder.is_pointer_field_null(").map(|()| ")")?,
    };
    let pointer = rest.offset()?;
    rest.lit(behind)?;
    rest.end()?;
    Some(pointer)
}

// ---- texts

/// The lines between the first two and the last, without the spaces in front.
fn inner(text: &str) -> Option<Vec<&str>> {
    let lines: Vec<&str> = text.lines().map(str::trim_start).collect();
    let end = lines.len().checked_sub(1)?;
    lines.get(2..end).map(<[&str]>::to_vec)
}

/// The lines that a setter runs; none where one of them has no meaning.
pub fn setter(text: &str) -> Option<Vec<Op>> {
    inner(text)?.into_iter().filter(|line| !line.is_empty()).map(op).collect()
}

/// The lines of a pointer slot's setter and initializer that have a meaning: those that set the tag.
pub fn tag_lines(text: &str) -> Vec<Op> {
    let mut ops: Vec<Op> = text.lines().filter_map(|line| op(line.trim_start())).collect();
    ops.dedup();
    ops
}

pub fn zeroing(text: &str) -> Option<Vec<Op>> {
    text.lines().map(str::trim_start).filter(|line| !line.is_empty()).map(op).collect()
}

/// The single get below line 1, whatever stands around it.
pub fn getter(text: &str) -> Option<Get> {
    let (_, code) = text.split_once('\n')?;
    let mut gets = code.lines().flat_map(|line| (0..line.len()).filter_map(|at| get(&line[at..])));
    let single = gets.next()?;
    gets.next().is_none().then_some(single)
}

pub fn haser(text: &str) -> Option<Has> {
    match inner(text)?[..] {
        [null] => Some(Has { tag: None, pointer: null_test(null)? }),
        [tag, null] => Some(Has { tag: Some(tag_test(tag)?), pointer: null_test(null)? }),
        _ => None,
    }
}

// ---- running, on data bytes and a byte for each pointer, which is 0 where the pointer is null

/// Whether every line has a meaning, and only then all of them are done; `value` is the setter's, where there is one.
pub fn run(ops: &[Op], value: Option<u64>, section: &mut [u8], pointers: &mut [u8]) -> bool {
    let (mut data, mut flags) = (section.to_vec(), pointers.to_vec());
    let has_meaning = ops.iter().all(|op| match *op {
        Op::Clear(pointer) => record::clear(&mut flags, pointer),
        Op::Set { place, arg: Arg::Value, mask } => value.is_some_and(|bits| set(place, bits, mask, &mut data)),
        Op::Set { place, arg: Arg::Constant(bits), mask } => set(place, bits, mask, &mut data),
    });
    if has_meaning {
        section.copy_from_slice(&data);
        pointers.copy_from_slice(&flags);
    }
    has_meaning
}

fn set(place: Place, bits: u64, mask: Option<u64>, section: &mut [u8]) -> bool {
    match place {
        Place::Bool(offset) => record::set_bool(section, offset, bits != 0, mask.map(|m| m != 0)),
        Place::Data { width, offset } => record::set_data(section, width, offset, bits, mask),
    }
}

impl Get {
    /// The value: what is not wholly inside the section reads as zero bits, under the mask.
    pub fn run(self, section: &[u8]) -> u64 {
        match self.place {
            Place::Bool(offset) => record::get_bool(section, offset, self.mask.map(|m| m != 0)) as u64,
            Place::Data { width, offset } => {
                record::get_data(section, width, offset, self.mask).expect("a numeric type has this width")
            }
        }
    }
}

impl Has {
    pub fn run(self, section: &[u8], pointers: &[u8]) -> bool {
        self.tag.is_none_or(|(offset, member)| record::tag_is(section, offset, member))
            && !record::is_pointer_null(pointers, self.pointer)
    }
}
