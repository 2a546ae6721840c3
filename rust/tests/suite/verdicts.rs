//! Verdicts: whether the setter and the getters of a slot agree.

use crate::common::{example_sheets, masks, sheet};
use kitlubas::{Field, Kind, Sheet, Verdict};
use std::collections::HashSet;

/// Slots of one node, each by its lines, and what is said of it.
const SLOTS: [(&str, Option<Verdict>); 23] = [
    ("F 3 65535 1 0 isFree\nT 1 0 0 0\nV 1 1\n", Some(Verdict::Agree)),
    ("F 4 65535 0 0 isClean\nT 1 0 0 0\nV 1 0\n", Some(Verdict::Agree)),
    ("F 2 65535 0 0 rank\nT 2 0 0 0\nV 2 251\n", Some(Verdict::Agree)),
    // Reserved is 2: without its flag, with it, and free, which is 0, with and without it.
    ("F 4 65535 0 0 status\nT 15 9 0 0\nV 15 2\n", Some(Verdict::CombinedWithDefault)),
    ("F 5 65535 1 0 planned\nT 15 9 0 0\nV 15 2\n", Some(Verdict::Agree)),
    ("F 6 65535 1 0 before\nT 15 9 0 0\nV 15 0\n", Some(Verdict::Agree)),
    ("F 7 65535 0 0 after\nT 15 9 0 0\nV 15 0\n", Some(Verdict::Agree)),
    // -0.0, of which the flag is not looked at, 1.5 and 0.0.
    ("F 4 65535 1 0 heat\nT 10 0 0 0\nV 10 2147483648\n", Some(Verdict::SignFlipped)),
    ("F 3 65535 0 0 cold\nT 11 0 0 0\nV 11 9223372036854775808\n", Some(Verdict::SignFlipped)),
    ("F 5 65535 1 0 weight\nT 10 0 0 0\nV 10 1069547520\n", Some(Verdict::Agree)),
    ("F 6 65535 0 0 height\nT 11 0 0 0\nV 11 0\n", Some(Verdict::Agree)),
    // The bits of -0.0 in a number that is no float.
    ("F 7 65535 1 0 code\nT 8 0 0 0\nV 8 2147483648\n", Some(Verdict::Agree)),
    // No getter: a default of another type, and options that are no pointers, one with -0.0. No setter: a default that is no
    // number, and an explicit one that is no enum. Neither: a node that is not there.
    ("F 8 65535 0 0 odd\nT 1 0 0 0\nV 2 3\n", Some(Verdict::NotBothGenerated)),
    ("F 9 65535 0 1 maybe\nT 15 9 0 0\nV 15 2\n", Some(Verdict::NotBothGenerated)),
    ("F 8 65535 1 1 draught\nT 10 0 0 0\nV 10 2147483648\n", Some(Verdict::NotBothGenerated)),
    ("F 10 65535 0 0 none\nT 1 0 0 0\nV 0 0\n", Some(Verdict::NotBothGenerated)),
    ("F 8 65535 1 0 other\nT 15 9 0 0\nV 7 2\n", Some(Verdict::NotBothGenerated)),
    ("F 9 65535 0 0 lost\nT 15 99 0 0\nV 15 0\n", Some(Verdict::NotBothGenerated)),
    ("F 0 65535 0 0 nothing\nT 0 0 0 0\nV 0 0\n", None),
    ("F 0 65535 1 0 wardName\nT 12 0 0 0\nV 12 0\nW 146028888065\nW 6579554\n", None),
    ("F 1 65535 0 0 nextBed\nT 16 7 0 0\nV 16 0\n", None),
    ("F 2 65535 0 0 plan\nT 18 0 0 0\nV 18 0\n", None),
    ("G 8 65535 stay\n", None),
];

#[test]
fn worked_slots() {
    let slots: String = SLOTS.iter().map(|row| row.0).collect();
    let bytes = sheet(&format!("R ::capnp\nN 7 0 0 1 0 0 0 bed\n{slots}N 9 0 0 0 0 0 0 Status\n"));
    let admitted = Sheet::admit(&bytes).expect("it is a sheet");
    let fields: Vec<Field> = admitted.nodes().flat_map(|node| node.fields()).collect();
    assert_eq!(fields.len(), SLOTS.len());
    for (field, (lines, verdict)) in fields.iter().zip(SLOTS) {
        assert_eq!(field.verdict(), verdict, "{lines}");
        assert_eq!(has_bits(field.kind()).then(|| by_texts(field)), verdict, "{lines}");
    }
}

/// In a union a slot has the same verdict: the tag is another's bits.
#[test]
fn worked_slots_of_a_union() {
    for (lines, verdict) in SLOTS {
        let bytes = sheet(&format!(
            "R ::capnp\nN 7 0 0 1 0 2 40 bed\n{}N 9 0 0 0 0 0 0 Status\n",
            lines.replace(" 65535 ", " 1 ")
        ));
        let admitted = Sheet::admit(&bytes).expect("it is a sheet");
        let told: Vec<_> = admitted.nodes().flat_map(|node| node.fields()).map(|field| field.verdict()).collect();
        assert_eq!(told, [verdict], "{lines}");
    }
}

/// Whether a field is a slot with bits.
fn has_bits(kind: Kind) -> bool {
    use Kind::{Bool, Enum, Float32, Float64, Int16, Int32, Int64, Int8, Uint16, Uint32, Uint64, Uint8};
    matches!(kind, Bool | Int8 | Int16 | Int32 | Int64 | Uint8 | Uint16 | Uint32 | Uint64 | Float32 | Float64 | Enum)
}

/// What the texts themselves say: whether all are there, and if so, whether their masks are one.
fn by_texts(field: &Field<'_, '_>) -> Verdict {
    let Some([setter, getter]) = masks(field) else { return Verdict::NotBothGenerated };
    match field.kind() {
        _ if setter == getter => Verdict::Agree,
        Kind::Enum => Verdict::CombinedWithDefault,
        _ => Verdict::SignFlipped,
    }
}

/// Every field of the example sheets has a verdict exactly where it is a slot with bits, and then the one that its texts show.
#[test]
fn every_field_of_the_examples() {
    let mut told = HashSet::new();
    for (name, bytes) in example_sheets() {
        let admitted = Sheet::admit(&bytes).expect("an example sheet that is admitted");
        for field in admitted.nodes().flat_map(|node| node.fields()) {
            let expected = has_bits(field.kind()).then(|| by_texts(&field));
            assert_eq!(field.verdict(), expected, "{name}: {}", field.name());
            told.insert(expected);
        }
    }
    assert!([None, Some(Verdict::Agree), Some(Verdict::CombinedWithDefault)].iter().all(|said| told.contains(said)));
}

#[test]
fn verdicts_in_words() {
    let words = [
        (Verdict::Agree, "agree", false),
        (Verdict::SignFlipped, "sign flipped", true),
        (Verdict::CombinedWithDefault, "combined with the default", true),
        (Verdict::NotBothGenerated, "not both generated", false),
    ];
    for (verdict, phrase, disagrees) in words {
        assert_eq!((verdict.to_string().as_str(), verdict.disagrees()), (phrase, disagrees));
    }
}
