//! Whether the present setter and the getters of a slot agree, told from capnpc's own texts: by the masks that stand in them.

use crate::answer::{text_of_field, Request};
use crate::codegen::GeneratorContext;
use crate::sheet::{value_width, Field, Node, Slot, ENUM, FLOAT32, FLOAT64};

#[derive(Clone, Copy, Debug, PartialEq, Eq)]
pub enum Verdict {
    Agree,
    /// A float is read with its sign flipped.
    SignFlipped,
    /// An enum is read combined with its default by exclusive or.
    CombinedWithDefault,
    /// The setter or one of the getters is refused.
    NotBothGenerated,
}

impl Verdict {
    pub const ALL: [Verdict; 4] =
        [Verdict::Agree, Verdict::SignFlipped, Verdict::CombinedWithDefault, Verdict::NotBothGenerated];

    /// Whether another value is read than was set.
    pub fn disagrees(self) -> bool {
        matches!(self, Verdict::SignFlipped | Verdict::CombinedWithDefault)
    }

    /// What the program `verdicts` prints of it.
    pub fn words(self) -> &'static str {
        match self {
            Verdict::Agree => "agree",
            Verdict::SignFlipped => "sign flipped",
            Verdict::CombinedWithDefault => "combined with the default",
            Verdict::NotBothGenerated => "not both generated",
        }
    }
}

/// The getters of both sides in both forms.
const GETTERS: [Request; 4] = [
    Request::Getter { reader: true, function: false },
    Request::Getter { reader: false, function: false },
    Request::Getter { reader: true, function: true },
    Request::Getter { reader: false, function: true },
];

/// The verdict of a field; none where it is no slot with bits.
pub fn verdict(ctx: &GeneratorContext, node: &Node, field: &Field) -> Option<Verdict> {
    match field {
        Field::Slot(slot) if value_width(slot.typ.kind()) > 0 => {
            let masks = masks(ctx, node, field);
            Some(masks.map_or(Verdict::NotBothGenerated, |(set, get)| of_masks(slot, set, get)))
        }
        _ => None,
    }
}

/// The mask of the setter and that of the getters; none where one of these is refused.
fn masks(ctx: &GeneratorContext, node: &Node, field: &Field) -> Option<(i128, i128)> {
    let text = |request| text_of_field(ctx, node, field, request).ok();
    let setter = text(Request::Setter)?;
    let getters: Vec<String> = GETTERS.into_iter().map(text).collect::<Option<_>>()?;
    // The last line but one of a setter sets the value; the second of a getter, below its type, gets it.
    let set = mask(setter.lines().nth_back(1));
    let gets = getters.iter().map(|getter| mask(getter.lines().nth(1))).collect::<Vec<i128>>();
    assert!(gets.iter().all(|&get| get == gets[0]), "the getters of {} have different masks", field.name());
    Some((set, gets[0]))
}

/// The mask that a line's call is given, its last argument; 0 where it is given none.
fn mask(line: Option<&str>) -> i128 {
    let line = line.expect("every setter and getter has this line");
    let Some((_, call)) = line.split_once("_field_mask") else {
        return 0;
    };
    let arguments = call.split_once(')').map_or(call, |(arguments, _)| arguments);
    let last = arguments.rsplit(", ").next().unwrap_or_default();
    let digits = last.strip_suffix("u32").or(last.strip_suffix("u64")).unwrap_or(last);
    match digits {
        "true" => 1,
        _ => digits.parse().unwrap_or_else(|error| panic!("`{line}` has no mask: {error}")),
    }
}

/// What is read of what was set, by the two masks: they are one, or are a float's sign apart, or an enum's default.
fn of_masks(slot: &Slot, set: i128, get: i128) -> Verdict {
    match (slot.typ.kind(), set ^ get) {
        (_, 0) => Verdict::Agree,
        (FLOAT32, 0x8000_0000) | (FLOAT64, 0x8000_0000_0000_0000) => Verdict::SignFlipped,
        (ENUM, bits) if bits == i128::from(slot.value.bits) => Verdict::CombinedWithDefault,
        _ => panic!("{} is set with the mask {set} and read with {get}", slot.name),
    }
}
