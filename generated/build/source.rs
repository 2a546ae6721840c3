//! The Rust file: for each sheet a module, in it a module for each struct node, in it the accessors' texts as Kitlubas
//! gives them, with what capnpc writes around them, and a table of them. The texts are moved in as far as they stand there.

use crate::nodes::{self, Field, Node, Slot};
use crate::rows;
use kitlubas::{padded, Form, Leaf, Level, Lifetime, NodeId, Place, Request, Side};

struct Sheet<'s> {
    name: &'s str,
    admitted: kitlubas::Sheet<'s>,
    nodes: Vec<Node>,
}

/// What is asked of one slot.
pub struct Texts {
    /// By side, reader first, and form, function first.
    pub getters: [[String; 2]; 2],
    pub setter: String,
    /// A slot without bits has none but the present one.
    pub paired: Option<String>,
    pub hasers: [String; 2],
    pub owned: String,
    /// Reader and Builder with 'a and '_; an interface has none.
    pub types: Vec<String>,
}

/// In a sheet's module, a node's in it, and an `impl` in that.
const LEVEL: u8 = 3;

const SIDES: [Side; 2] = [Side::Reader, Side::Builder];
const FORMS: [Form; 2] = [Form::Function, Form::Plain];
const LEAVES: [Leaf; 4] = [
    Leaf::Reader(Lifetime::A),
    Leaf::Builder(Lifetime::A),
    Leaf::Reader(Lifetime::Anonymous),
    Leaf::Builder(Lifetime::Anonymous),
];

pub fn file(sheets: &[(String, String)]) -> String {
    let mut file = String::new();
    let mut families = String::new();
    for (name, short) in sheets {
        let bytes = padded(short);
        let admitted = kitlubas::Sheet::admit(&bytes).unwrap_or_else(|refusal| panic!("{name}: {refusal}"));
        file += &Sheet { name, admitted, nodes: nodes::read(short) }.module();
        families += &format!("{name}::FAMILY, ");
    }
    file + &format!("pub const FAMILIES: &[crate::slots::Family] = &[{families}];\n")
}

impl Sheet<'_> {
    /// The text of a request. A sheet of this program is one that everything can be asked of.
    fn ask(&self, node: &Node, place: usize, request: Request) -> String {
        let level = Level::new(LEVEL).expect("it is at most 8");
        let text = self.admitted.text(NodeId(node.id), Place(place as u64), request.at(level));
        text.unwrap_or_else(|refusal| panic!("{}, node {}, field {place}, {request:?}: {refusal}", self.name, node.id))
    }

    /// The name of a field as it stands in the names of its accessors.
    fn styled_name(&self, node: &Node, place: usize) -> String {
        let field = self.admitted.node(NodeId(node.id)).and_then(|node| node.field(Place(place as u64)));
        field.expect("the sheet has this field").styled_name()
    }

    fn texts(&self, node: &Node, place: usize, slot: &Slot) -> Texts {
        let getter = |side| FORMS.map(|form| self.ask(node, place, Request::Getter { side, form }));
        let typ = |leaf| self.ask(node, place, Request::TypeText(leaf));
        let is_interface = slot.kind == 17;
        let [setter, paired] = [Request::Setter, Request::PairedSetter].map(|request| self.ask(node, place, request));
        let has_bits = slot.width() > 0;
        assert!(has_bits || paired == setter, "{} has no bits and a paired setter of its own", slot.name);
        Texts {
            getters: SIDES.map(getter),
            setter,
            paired: has_bits.then_some(paired),
            hasers: SIDES.map(|side| self.ask(node, place, Request::Haser { side })),
            owned: typ(if is_interface { Leaf::Client } else { Leaf::Owned }),
            types: LEAVES.into_iter().filter(|_| !is_interface).map(typ).collect(),
        }
    }

    fn module(&self) -> String {
        let family = self.family();
        let mut modules = String::new();
        for node in self.nodes.iter().filter(|node| node.is_struct) {
            let is_in_family = family.iter().any(|(member, _)| member.id == node.id);
            let size = if is_in_family { self.size(&family) } else { words(node.reach()) };
            modules += &self.node_module(node, size);
        }
        let (data, pointers) = self.size(&family);
        let members: String = family.iter().map(|(node, path)| rows::member(node, path)).collect();
        format!(
            "pub mod {name} {{\n{modules}pub const FAMILY: crate::slots::Family = crate::slots::Family {{ \
             name: {name:?}, data: {data}, pointers: {pointers}, nodes: &[{members}] }};\n}}\n",
            name = self.name
        )
    }

    /// The nodes whose accessors work on one record: the first node and its groups, with the names that lead there.
    fn family(&self) -> Vec<(&Node, String)> {
        let mut family = vec![(&self.nodes[0], String::new())];
        let mut at = 0;
        while at < family.len() {
            let (node, path) = (family[at].0, family[at].1.clone());
            for field in &node.fields {
                if let Field::Group { id, name } = field {
                    let inner = self.nodes.iter().find(|node| node.id == *id).expect("a group's node is in the sheet");
                    family.push((inner, format!("{path}{name}.")));
                }
            }
            at += 1;
        }
        family
    }

    /// Room for all that is reached, and a word and a pointer behind, which must never change.
    fn size(&self, family: &[(&Node, String)]) -> (u64, u64) {
        let reach = family.iter().map(|(node, _)| node.reach());
        let (data, pointers) = reach.fold((0, 0), |most, reach| (most.0.max(reach.0), most.1.max(reach.1)));
        let (data, pointers) = words((data, pointers));
        (data + 1, pointers + 1)
    }

    fn node_module(&self, node: &Node, (data, pointers): (u64, u64)) -> String {
        let (mut reader, mut builder, mut private) = (String::new(), String::new(), String::new());
        let mut paired = String::new();
        let mut table = rows::Table::new(node);
        for (place, field) in node.fields.iter().enumerate() {
            let styled_name = self.styled_name(node, place);
            let Field::Slot(slot) = field else {
                let lines = self.ask(node, place, Request::Zeroing);
                builder += &format!("pub fn zero_{styled_name}(&mut self) {{\n{lines}}}\n");
                table.group(&styled_name, field, &lines);
                continue;
            };
            let texts = self.texts(node, place, slot);
            reader += &members(&styled_name, &texts.getters[0], &texts.hasers[0]);
            builder += &members(&styled_name, &texts.getters[1], &texts.hasers[1]);
            builder += &texts.setter;
            paired += texts.paired.as_deref().unwrap_or_default();
            builder += &format!("pub fn types_{styled_name}({}) {{}}\n", arguments(&texts));
            private += declaration(&texts);
            table.slot(&styled_name, slot, &texts);
        }
        let (parameters, impl_start) = generics(node);
        format!(
            "pub mod {name} {{\ncrate::structs!([{parameters}], {data}, {pointers});\n\
             {impl_start} Reader<'a, {parameters}> {{\n{reader}}}\n\
             {impl_start} Builder<'a, {parameters}> {{\n{builder}}}\n\
             {impl_start} Paired<'a, {parameters}> {{\n{paired}}}\n\
             pub mod _private {{\n{private}}}\n{table}}}\n",
            name = node.name(),
            table = table.finish()
        )
    }
}

/// The type parameters, and what an `impl` for a lifetime and for them begins with.
fn generics(node: &Node) -> (String, String) {
    let bounds: String =
        node.parameters.iter().map(|name| format!("{name}: for<'x> ::capnp::traits::Owned<'x> + 'static, ")).collect();
    (node.parameters.join(", "), format!("impl<'a, {bounds}>"))
}

/// Words of data and pointers.
fn words((bits, pointers): (u64, u64)) -> (u64, u64) {
    (bits.div_ceil(64), pointers)
}

/// A getter's result type, code and declaration of a default.
fn parts(getter: &str) -> (&str, &str, &str) {
    let (typ, rest) = getter.split_once('\n').expect("a getter's first line is its type");
    let is_declared = |line: &&str| line.trim_start().starts_with("pub(crate) static ");
    let code: usize = rest.split_inclusive('\n').take_while(|line| !is_declared(line)).map(str::len).sum();
    (typ, &rest[..code], &rest[code..])
}

/// The getters and the haser as methods: as capnpc writes a function, and the other form inside one.
fn members(styled_name: &str, getters: &[String; 2], haser: &str) -> String {
    let (typ, code, _) = parts(&getters[0]);
    let (plain_type, plain_code, _) = parts(&getters[1]);
    format!(
        "#[inline]\npub fn get_{styled_name}(self) {typ} {{\n{code}}}\n\
         #[inline]\npub fn plain_{styled_name}(self) -> {plain_type} {{\n{plain_code}}}\n{haser}"
    )
}

/// The types as arguments of a function that does nothing.
fn arguments(texts: &Texts) -> String {
    texts.types.iter().chain([&texts.owned]).map(|typ| format!("_: {typ}, ")).collect()
}

/// The declaration of a default, which every getter of the slot gives.
fn declaration(texts: &Texts) -> &str {
    let mut all = texts.getters.iter().flatten().map(|getter| parts(getter).2);
    let first = all.next().expect("there are getters");
    assert!(all.all(|other| other == first), "getters of one slot declare different defaults");
    first
}
