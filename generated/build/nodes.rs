//! The nodes of a sheet in its short form, as far as the program needs to know them beside the texts.

/// The kind of a slot whose type has not been read.
const NO_KIND: u64 = u64::MAX;

pub struct Node {
    pub id: u64,
    pub module: String,
    pub is_struct: bool,
    pub parameters: Vec<String>,
    /// The offset of the union's tag, where there is a union.
    pub tag: Option<u64>,
    pub fields: Vec<Field>,
}

pub enum Field {
    Slot(Slot),
    Group { id: u64, name: String },
}

pub struct Slot {
    pub name: String,
    pub kind: u64,
    /// Of kind 18: whether it is a type parameter.
    pub is_parameter: bool,
    pub offset: u64,
    pub discriminant: u64,
    pub explicit: bool,
    pub option: bool,
    pub bits: u64,
    pub words: Vec<u64>,
}

impl Node {
    /// The last part of the module, which is the name of the Rust module.
    pub fn name(&self) -> &str {
        self.module.rsplit("::").next().expect("a path has a last part")
    }

    pub fn slots(&self) -> impl Iterator<Item = &Slot> {
        self.fields.iter().filter_map(|field| if let Field::Slot(slot) = field { Some(slot) } else { None })
    }

    /// The bits of the data section and the pointers that the slots and the tag reach to.
    pub fn reach(&self) -> (u64, u64) {
        let tag = self.tag.map(|offset| 16 * (offset + 1));
        let data = self.slots().map(|slot| slot.width() * (slot.offset + 1)).chain(tag).max().unwrap_or(0);
        let pointers = self.slots().filter(|slot| slot.is_pointer()).map(|slot| slot.offset + 1).max().unwrap_or(0);
        (data, pointers)
    }
}

impl Slot {
    /// How many bits of the data section it has.
    pub fn width(&self) -> u64 {
        match self.kind {
            1 => 1,
            2 | 6 => 8,
            3 | 7 | 15 => 16,
            4 | 8 | 10 => 32,
            5 | 9 | 11 => 64,
            _ => 0,
        }
    }

    pub fn is_pointer(&self) -> bool {
        self.kind >= 12 && self.kind != 15
    }
}

pub fn read(short: &str) -> Vec<Node> {
    let mut nodes: Vec<Node> = Vec::new();
    for line in short.lines() {
        let line = Line(line.split(' ').collect());
        match line.0[0] {
            "N" => nodes.push(line.node()),
            "P" => last(&mut nodes).parameters.push(line.text()),
            "G" => last(&mut nodes).fields.push(Field::Group { id: line.number(1), name: line.text() }),
            "F" => last(&mut nodes).fields.push(Field::Slot(line.slot())),
            "T" => line.typ(last_slot(&mut nodes)),
            "V" => last_slot(&mut nodes).bits = line.number(2),
            "W" => last_slot(&mut nodes).words.push(line.number(1)),
            _ => {}
        }
    }
    nodes
}

fn last(nodes: &mut [Node]) -> &mut Node {
    nodes.last_mut().expect("an N line stands first")
}

fn last_slot(nodes: &mut [Node]) -> &mut Slot {
    match last(nodes).fields.last_mut() {
        Some(Field::Slot(slot)) => slot,
        _ => panic!("an F line stands first"),
    }
}

/// The words of a line.
struct Line<'s>(Vec<&'s str>);

impl Line<'_> {
    fn number(&self, at: usize) -> u64 {
        self.0[at].parse().unwrap_or_else(|_| panic!("a number is wanted: {:?}", self.0))
    }

    fn text(&self) -> String {
        self.0[self.0.len() - 1].to_string()
    }

    fn node(&self) -> Node {
        Node {
            id: self.number(1),
            module: self.text(),
            is_struct: self.number(4) == 1,
            parameters: Vec::new(),
            tag: if self.number(6) == 0 { None } else { Some(self.number(7)) },
            fields: Vec::new(),
        }
    }

    /// A slot whose type and value are to follow.
    fn slot(&self) -> Slot {
        Slot {
            name: self.text(),
            kind: NO_KIND,
            is_parameter: false,
            offset: self.number(1),
            discriminant: self.number(2),
            explicit: self.number(3) == 1,
            option: self.number(4) == 1,
            bits: 0,
            words: Vec::new(),
        }
    }

    /// The first T of a slot is that of its type; the others are inside it.
    fn typ(&self, slot: &mut Slot) {
        if slot.kind == NO_KIND {
            slot.kind = self.number(1);
            slot.is_parameter = slot.kind == 18 && self.number(2) == 1;
        }
    }
}
