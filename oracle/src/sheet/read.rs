//! Sheets read as document 01 says ('The sheet', 'Refusals from the input'), with the readings of its open points, as request N2
//! says of the names of fields, and as request N5 says of the place of a fault.

use super::{
    has_words, value_width, Binding, Field, Group, Node, Scope, Sheet, Slot, Type, Value, MAX_BYTES, MAX_LEVEL,
    MAX_NODES, MAX_WORDS,
};
use std::collections::HashSet;

/// A refusal's number, and its line and its column, in bytes, both from 1, or both 0 where no line is named.
#[derive(Clone, Copy, Debug, PartialEq, Eq)]
pub struct Refusal {
    pub number: u64,
    pub line: u64,
    pub column: u64,
}

impl Refusal {
    /// A refusal that names no line.
    pub fn nowhere(number: u64) -> Refusal {
        Refusal { number, line: 0, column: 0 }
    }

    /// A letter that may not stand there, a line without its byte 10, or a sheet that ends too soon.
    pub fn misplaced(line: u64) -> Refusal {
        Refusal { number: 2, line, column: 1 }
    }

    /// An id that an earlier line of the same letter has.
    pub fn doubled(line: u64) -> Refusal {
        Refusal { number: 3, line, column: 2 }
    }

    /// A type of a 17th level.
    pub fn too_deep(line: u64) -> Refusal {
        Refusal { number: 4, line, column: 1 }
    }

    /// A bad number whose 21 columns begin at this one.
    pub fn bad_number(line: u64, column: u64) -> Refusal {
        Refusal { number: 16, line, column }
    }

    /// A bad text, a missing space or surplus bytes.
    pub fn bad_text(line: u64, column: u64) -> Refusal {
        Refusal { number: 17, line, column }
    }
}

/// The tree of an admitted sheet, or its first bad line.
pub fn read(bytes: &[u8]) -> Result<Sheet, Refusal> {
    if bytes.len() > MAX_BYTES {
        return Err(Refusal::nowhere(1));
    }
    let mut reader = Reader { rest: bytes, line: 1, node_ids: HashSet::new(), group_ids: HashSet::new() };
    reader.sheet()
}

/// What is still to be read, and the number of its first line.
struct Reader<'a> {
    rest: &'a [u8],
    line: u64,
    node_ids: HashSet<u64>,
    group_ids: HashSet<u64>,
}

type Read<T> = Result<T, Refusal>;

impl<'a> Reader<'a> {
    fn sheet(&mut self) -> Read<Sheet> {
        let root = self.row(b'R')?.text(is_root)?;
        let mut nodes = vec![self.node()?];
        while !self.rest.is_empty() {
            if nodes.len() == MAX_NODES {
                return Err(Refusal::misplaced(self.line));
            }
            nodes.push(self.node()?);
        }
        Ok(Sheet { root, nodes })
    }

    fn node(&mut self) -> Read<Node> {
        let mut row = self.row(b'N')?;
        let mut node = Node {
            id: row.id()?,
            parent: row.number()?,
            scope_id: row.number()?,
            is_struct: row.flag()?,
            generic: row.flag()?,
            tag_count: row.narrow()?,
            tag_offset: row.narrow()?,
            module: row.text(is_module)?,
            parameters: Vec::new(),
            fields: Vec::new(),
        };
        if !self.node_ids.insert(node.id) {
            return Err(Refusal::doubled(row.line));
        }
        while self.letter() == Some(b'P') {
            node.parameters.push(self.row(b'P')?.text(is_name)?);
        }
        loop {
            match self.letter() {
                Some(b'F') => node.fields.push(Field::Slot(self.slot()?)),
                Some(b'G') => node.fields.push(Field::Group(self.group()?)),
                _ => return Ok(node),
            }
        }
    }

    fn group(&mut self) -> Read<Group> {
        let mut row = self.row(b'G')?;
        let group = Group { id: row.id()?, discriminant: row.narrow()?, name: row.text(is_field_name)? };
        if !self.group_ids.insert(group.id) {
            return Err(Refusal::doubled(row.line));
        }
        Ok(group)
    }

    fn slot(&mut self) -> Read<Slot> {
        let mut row = self.row(b'F')?;
        let offset = row.narrow()?;
        let discriminant = row.narrow()?;
        let explicit = row.flag()?;
        let option = row.flag()?;
        let name = row.text(is_field_name)?;
        let typ = self.typ(1)?;
        let value = self.value()?;
        let words = if explicit && has_words(value.kind) { self.words()? } else { Vec::new() };
        Ok(Slot { offset, discriminant, explicit, option, name, typ, value, words })
    }

    fn value(&mut self) -> Read<Value> {
        let mut row = self.row(b'V')?;
        let kind = row.kind()?;
        let width = value_width(kind);
        let bits = row.number_if(|bits| width == 64 || bits >> width == 0)?;
        row.end()?;
        Ok(Value { kind, bits })
    }

    /// One to 255 words; the line after the last belongs to what follows, unless it is a 256th.
    fn words(&mut self) -> Read<Vec<u64>> {
        let mut words = vec![self.word()?];
        while self.letter() == Some(b'W') {
            if words.len() == MAX_WORDS {
                return Err(Refusal::misplaced(self.line));
            }
            words.push(self.word()?);
        }
        Ok(words)
    }

    fn word(&mut self) -> Read<u64> {
        let mut row = self.row(b'W')?;
        let word = row.number()?;
        row.end()?;
        Ok(word)
    }

    fn typ(&mut self, level: usize) -> Read<Type> {
        let mut row = self.row(b'T')?;
        let kind = row.kind()?;
        let is_node = (15..=17).contains(&kind);
        let a = row.number_if(|a| a == 0 || is_node || (kind == 18 && a == 1))?;
        let is_parameter = kind == 18 && a == 1;
        let b = row.number_if(|b| b == 0 || is_node || is_parameter)?;
        let c = row.number_if(|c| c == 0 || (is_parameter && c <= 65_535))?;
        row.end()?;
        if level > MAX_LEVEL {
            return Err(Refusal::too_deep(row.line));
        }
        Ok(match kind {
            14 => Type::List(Box::new(self.typ(level + 1)?)),
            15 => Type::Enum(a, self.scopes(b, level)?),
            16 => Type::Struct(a, self.scopes(b, level)?),
            17 => Type::Interface(a, self.scopes(b, level)?),
            18 if is_parameter => Type::Parameter { scope_id: b, index: c as u16 },
            18 => Type::AnyPointer,
            _ => Type::Plain(kind),
        })
    }

    /// The scopes of a type at `level`. The count may be far more than there are lines.
    fn scopes(&mut self, count: u64, level: usize) -> Read<Vec<Scope>> {
        let mut scopes = Vec::new();
        for _ in 0..count {
            scopes.push(self.scope(level)?);
        }
        Ok(scopes)
    }

    fn scope(&mut self, level: usize) -> Read<Scope> {
        let mut row = self.row(b'S')?;
        let id = row.number()?;
        let binds = row.flag()?;
        let count = row.number_if(|count| binds || count == 0)?;
        row.end()?;
        if !binds {
            return Ok(Scope { id, bindings: None });
        }
        let mut bindings = Vec::new();
        for _ in 0..count {
            bindings.push(self.binding(level + 1)?);
        }
        Ok(Scope { id, bindings: Some(bindings) })
    }

    fn binding(&mut self, level: usize) -> Read<Binding> {
        if self.letter() == Some(b'U') {
            self.row(b'U')?.end()?;
            return Ok(Binding::Unbound);
        }
        Ok(Binding::Type(self.typ(level)?))
    }

    /// The line that is next, which must have this letter and its byte 10; its letter is read.
    fn row(&mut self, letter: u8) -> Read<Row<'a>> {
        let misplaced = Refusal::misplaced(self.line);
        let end = self.rest.iter().position(|&byte| byte == b'\n').ok_or(misplaced)?;
        let rest = self.rest[..end].strip_prefix(&[letter]).ok_or(misplaced)?;
        let row = Row { rest, line: self.line, column: 2 };
        self.rest = &self.rest[end + 1..];
        self.line += 1;
        Ok(row)
    }

    fn letter(&self) -> Option<u8> {
        self.rest.first().copied()
    }
}

/// A line that is read from left to right: what is left of it, and the column where that begins.
struct Row<'a> {
    rest: &'a [u8],
    line: u64,
    column: u64,
}

impl Row<'_> {
    fn number(&mut self) -> Read<u64> {
        self.number_if(|_| true)
    }

    /// The number in the next 21 columns, where it may be this one.
    fn number_if(&mut self, may_be: impl Fn(u64) -> bool) -> Read<u64> {
        let number = self.rest.get(..21).and_then(column_number).filter(|&number| may_be(number));
        let number = number.ok_or(Refusal::bad_number(self.line, self.column))?;
        self.rest = &self.rest[21..];
        self.column += 21;
        Ok(number)
    }

    fn id(&mut self) -> Read<u64> {
        self.number_if(|id| id != 0)
    }

    fn flag(&mut self) -> Read<bool> {
        Ok(self.number_if(|flag| flag <= 1)? == 1)
    }

    fn kind(&mut self) -> Read<u8> {
        Ok(self.number_if(|kind| kind <= 18)? as u8)
    }

    /// A number of 16 or 32 bits.
    fn narrow<T: TryFrom<u64>>(&mut self) -> Read<T> {
        let refusal = Refusal::bad_number(self.line, self.column);
        T::try_from(self.number()?).map_err(|_| refusal)
    }

    /// One space and the text, which is the rest of the line.
    fn text(&mut self, is_text: fn(&str) -> bool) -> Read<String> {
        let text = self.rest.strip_prefix(b" ").ok_or(Refusal::bad_text(self.line, self.column))?;
        let text = str::from_utf8(text).ok().filter(|text| is_text(text));
        Ok(text.ok_or(Refusal::bad_text(self.line, self.column + 1))?.to_string())
    }

    /// Nothing more stands on the line.
    fn end(&self) -> Read<()> {
        if self.rest.is_empty() {
            Ok(())
        } else {
            Err(Refusal::bad_text(self.line, self.column))
        }
    }
}

/// The number in 21 columns: spaces, then digits with no leading zero, below 2 to the 64.
fn column_number(column: &[u8]) -> Option<u64> {
    let spaces = column.iter().take_while(|&&byte| byte == b' ').count();
    let digits = &column[spaces..];
    if digits.is_empty() || !digits.iter().all(u8::is_ascii_digit) || (digits[0] == b'0' && digits.len() > 1) {
        return None;
    }
    let digit = |total: u64, byte: &u8| total.checked_mul(10)?.checked_add(u64::from(byte - b'0'));
    digits.iter().try_fold(0, digit)
}

/// The name of a parameter.
fn is_name(text: &str) -> bool {
    is_field_name(text) && text.is_ascii()
}

/// The name of a field: 1 to 64 bytes, and no digit first.
fn is_field_name(text: &str) -> bool {
    (1..=64).contains(&text.len())
        && text.chars().all(|c| c.is_ascii_alphanumeric() || c == '_' || is_accented(c))
        && !text.starts_with(|c: char| c.is_ascii_digit())
}

/// The letters of request N2: U+00C0 to U+00FF without the signs U+00D7 and U+00F7.
pub fn is_accented(c: char) -> bool {
    matches!(c, '\u{c0}'..='\u{d6}' | '\u{d8}'..='\u{f6}' | '\u{f8}'..='\u{ff}')
}

fn is_root(text: &str) -> bool {
    (1..=64).contains(&text.len()) && text.bytes().all(|byte| byte.is_ascii_graphic())
}

fn is_module(text: &str) -> bool {
    (1..=128).contains(&text.len()) && text.bytes().all(|byte| byte.is_ascii_graphic())
}
