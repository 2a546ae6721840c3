//! The paired setter, written down from the paragraph of request N9: capnpc's own setter of the slot, but for three sorts of
//! defaults, with which the line that sets the value is another. The Rattle code has no part in it.

use crate::codegen::FormattedText::{self, Branch, Indent, Line};
use crate::sheet::{Field, Slot, ENUM, FLOAT32, FLOAT64};

/// The defaults, all of the slot's own type, with which the paired setter is not capnpc's.
#[derive(Clone, Copy, Debug, PartialEq, Eq)]
pub enum Apart {
    /// A float's -0.0: capnpc's setter is plain.
    NegativeZero,
    /// An enum's default other than 0 without its flag: capnpc's setter is plain.
    FlaglessEnum,
    /// An enum's default 0 with its flag: capnpc's setter is masked.
    FlaggedZero,
}

impl Apart {
    pub const ALL: [Apart; 3] = [Apart::NegativeZero, Apart::FlaglessEnum, Apart::FlaggedZero];

    /// Which of them a field has.
    pub fn of_field(field: &Field) -> Option<Apart> {
        match field {
            Field::Slot(slot) => Apart::of_slot(slot),
            Field::Group(_) => None,
        }
    }

    fn of_slot(slot: &Slot) -> Option<Apart> {
        let kind = slot.typ.kind();
        if slot.value.kind != kind {
            return None;
        }
        match (kind, slot.value.bits, slot.explicit) {
            (FLOAT32, 0x8000_0000, _) | (FLOAT64, 0x8000_0000_0000_0000, _) => Some(Apart::NegativeZero),
            (ENUM, 1.., false) => Some(Apart::FlaglessEnum),
            (ENUM, 0, true) => Some(Apart::FlaggedZero),
            _ => None,
        }
    }

    /// The line by which capnpc's setter sets the value, and the one that takes its place.
    fn lines(self, slot: &Slot) -> (String, String) {
        let offset = slot.offset;
        let (typ, value, mask) = match slot.typ.kind() {
            FLOAT32 => ("f32", "value", "2147483648u32".to_string()),
            FLOAT64 => ("f64", "value", "9223372036854775808u64".to_string()),
            _ => ("u16", "value as u16", slot.value.bits.to_string()),
        };
        let plain = format!("self.builder.set_data_field::<{typ}>({offset}, {value});");
        let masked = format!("self.builder.set_data_field_mask::<{typ}>({offset}, {value}, {mask});");
        match self {
            Apart::NegativeZero | Apart::FlaglessEnum => (plain, masked),
            Apart::FlaggedZero => (masked, plain),
        }
    }
}

/// The paired setter of a slot, of which capnpc's setter is given.
pub fn paired_setter(slot: &Slot, mut setter: FormattedText) -> FormattedText {
    if let Some(apart) = Apart::of_slot(slot) {
        let (present, paired) = apart.lines(slot);
        let count = replace(&mut setter, &present, &paired);
        assert_eq!(count, 1, "capnpc's setter of {} has not one line `{present}`", slot.name);
    }
    setter
}

/// Puts one line in place of another, wherever that stands, and says how often it did.
fn replace(tree: &mut FormattedText, line: &str, other: &str) -> usize {
    match tree {
        Line(text) if text == line => {
            *text = other.to_string();
            1
        }
        Indent(inner) => replace(inner, line, other),
        Branch(parts) => parts.iter_mut().map(|part| replace(part, line, other)).sum(),
        _ => 0,
    }
}
