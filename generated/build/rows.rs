//! The rows of the tables that the program runs through: for each slot what the sheet says of it, the texts, and
//! functions that call the compiled accessors.

use crate::nodes::{Field, Node, Slot};
use crate::source::Texts;

/// The tables of one node.
pub struct Table<'n> {
    node: &'n Node,
    /// `Reader`, `Builder` and `Paired` with a type for each type parameter.
    structs: [String; 3],
    slots: String,
    pointers: String,
    groups: String,
}

/// A node of a family.
pub fn member(node: &Node, path: &str) -> String {
    let name = node.name();
    format!(
        "crate::slots::Node {{ id: {}, path: {path:?}, slots: {name}::SLOTS, pointers: {name}::POINTERS, \
         groups: {name}::GROUPS }}, ",
        node.id
    )
}

impl<'n> Table<'n> {
    pub fn new(node: &'n Node) -> Table<'n> {
        let arguments = "::capnp::text::Owned, ".repeat(node.parameters.len());
        let structs = ["Reader", "Builder", "Paired"].map(|name| format!("{name}::<'_, {arguments}>"));
        Table { node, structs, slots: String::new(), pointers: String::new(), groups: String::new() }
    }

    pub fn slot(&mut self, styled_name: &str, slot: &Slot, texts: &Texts) {
        let tag = match slot.discriminant {
            65535 => "None".to_string(),
            value => format!("Some(({}, {value}))", self.node.tag.expect("a member's node has a union")),
        };
        let head = format!("name: {:?}, kind: {}, offset: {}, tag: {tag}", slot.name, slot.kind, slot.offset);
        if slot.is_pointer() {
            self.pointers += &self.pointer_row(head, styled_name, slot, texts);
        } else {
            self.slots += &self.data_row(head, styled_name, slot, texts);
        }
    }

    pub fn group(&mut self, styled_name: &str, group: &Field, text: &str) {
        let Field::Group { id, name } = group else { return };
        let zero = format!("|b| {}::from(b).zero_{styled_name}()", self.structs[1]);
        self.groups += &format!("crate::slots::Group {{ name: {name:?}, id: {id}, text: {text:?}, zero: {zero} }}, ");
    }

    pub fn finish(self) -> String {
        format!(
            "pub const SLOTS: &[crate::slots::Slot] = &[{}];\n\
             pub const POINTERS: &[crate::slots::PointerSlot] = &[{}];\n\
             pub const GROUPS: &[crate::slots::Group] = &[{}];\n",
            self.slots, self.pointers, self.groups
        )
    }

    /// The two getters of a side, whose answers `shown` turns into what can be compared.
    fn getters(&self, side: usize, styled_name: &str, texts: &Texts, shown: &str) -> String {
        let row = |form: usize, method: &str| {
            let run = format!("|s| {shown}({}::from(s).{method}_{styled_name}())", self.structs[side]);
            accessor(&texts.getters[side][form], &run)
        };
        format!("[{}, {}]", row(0, "get"), row(1, "plain"))
    }

    fn data_row(&self, head: String, styled_name: &str, slot: &Slot, texts: &Texts) -> String {
        let paired = texts.paired.as_ref().map(|text| setter(text, &self.structs[2]));
        assert_eq!(texts.hasers, ["\n", "\n"], "a slot that is no pointer has no haser");
        format!(
            "crate::slots::Slot {{ {head}, default: {}, explicit: {}, readers: {}, builders: {}, setter: {}, paired: {} }}, ",
            slot.bits,
            slot.explicit,
            self.getters(0, styled_name, texts, "crate::values::Bits::bits"),
            self.getters(1, styled_name, texts, "crate::values::Bits::bits"),
            setter(&texts.setter, &self.structs[1]),
            paired.map_or("None".into(), |paired| format!("Some({paired})"))
        )
    }

    fn pointer_row(&self, head: String, styled_name: &str, slot: &Slot, texts: &Texts) -> String {
        let has = |side: usize| {
            let name = function(&texts.hasers[side], "has_").expect("a pointer slot has hasers");
            accessor(&texts.hasers[side], &format!("|s| {}::from(s).{name}()", self.structs[side]))
        };
        format!(
            "crate::slots::PointerSlot {{ {head}, readers: {}, builders: {}, setter: {:?}, set: {}, init: {}, \
             has_reader: {}, has_builder: {}, default: {} }}, ",
            self.getters(0, styled_name, texts, "crate::samples::Show::show"),
            self.getters(1, styled_name, texts, "crate::samples::Show::show"),
            texts.setter,
            self.set(slot, texts),
            self.init(slot, texts),
            has(0),
            has(1),
            self.default(slot, texts)
        )
    }

    /// The type whose values the slot is set to: of AnyPointer and of a type parameter a Text.
    fn sample<'t>(&self, slot: &Slot, texts: &'t Texts) -> &'t str {
        if slot.kind == 18 {
            "::capnp::text::Owned"
        } else {
            &texts.owned
        }
    }

    /// A function that sets the slot to the value of a seed, and gives the value as it is shown.
    fn set(&self, slot: &Slot, texts: &Texts) -> String {
        let builder = &self.structs[1];
        if slot.kind == 17 {
            let name = function(&texts.setter, "set_").expect("an interface slot has a setter");
            return format!("|s, seed| crate::service::with(seed, |value| {builder}::from(s).{name}(value))");
        }
        // An AnyPointer has no setter: what its initializer gives is set.
        let call = match function(&texts.setter, "set_") {
            Some(name) => format!("{builder}::from(s).{name}(value)"),
            None => {
                let name = function(&texts.setter, "init_").expect("an AnyPointer slot has an initializer");
                format!("{builder}::from(s).{name}().set_as(value)")
            }
        };
        let sample = self.sample(slot, texts);
        format!("|s, seed| crate::samples::with::<{sample}>(seed, |value| crate::samples::Done::done({call}))")
    }

    /// A function that calls the initializer, for a size where it takes one, and shows what it gives.
    fn init(&self, slot: &Slot, texts: &Texts) -> String {
        let builder = format!("{}::from(s)", self.structs[1]);
        let call = match [function(&texts.setter, "init_"), function(&texts.setter, "initn_")] {
            [None, _] => return "None".into(),
            [Some(name), Some(sized)] => {
                format!("if size == 0 {{ {builder}.{name}() }} else {{ {builder}.{sized}(size) }}")
            }
            [Some(name), None] if matches!(slot.kind, 12..=14) => format!("{builder}.{name}(size)"),
            [Some(name), None] => format!("{builder}.{name}()"),
        };
        let size = if call.contains("size") { "size" } else { "_size" };
        format!("Some(|s, {size}| crate::samples::Show::show({call}))")
    }

    /// A function that shows what a getter gives where the pointer is null: the default is read from its words by the
    /// runtime alone.
    fn default(&self, slot: &Slot, texts: &Texts) -> String {
        match (slot.kind, slot.is_parameter) {
            _ if slot.option => "crate::samples::none".into(),
            (17, _) => "crate::service::absent".into(),
            (18, false) => "|| crate::samples::default::<::capnp::any_pointer::Owned>(&[])".into(),
            _ => format!("|| crate::samples::default::<{}>(&{:?})", self.sample(slot, texts), slot.words),
        }
    }
}

fn accessor(text: &str, run: &str) -> String {
    format!("crate::slots::Accessor {{ text: {text:?}, run: {run} }}")
}

/// A data slot's setter, which is a method of a struct.
fn setter(text: &str, of: &str) -> String {
    let name = function(text, "set_").expect("a data slot has a setter");
    let run = format!(
        "|s, bits| {{ let value = crate::values::Value::of_bits(bits); {of}::from(s).{name}(value); \
         crate::values::Bits::bits(value) }}"
    );
    accessor(text, &run)
}

/// The name of the function of a text that begins so.
fn function<'t>(text: &'t str, prefix: &str) -> Option<&'t str> {
    let names = text.split("pub fn ").skip(1).filter_map(|rest| rest.split('(').next());
    names.into_iter().find(|name| name.starts_with(prefix))
}
