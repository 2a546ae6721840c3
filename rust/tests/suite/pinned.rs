//! The numbers of requests and leaves, each by the text that it must give, written out here, and those of verdicts, each by a
//! slot that must have it; asked through the crate and, with the number that the header has, of the library itself.

use crate::common::{ask, file, sheet};
use crate::header::heads::constants;
use crate::raw;
use kitlubas::{Form, Leaf, Lifetime, Request, Sheet, Side, Verdict};
use std::collections::HashSet;
use std::fs;

/// A bed with a slot of a struct type, of which all the texts but the paired setter differ from each other, a group, and a
/// status without its flag, of which the paired setter is another than the present one.
const BED: &str = "\
R ::capnp
N 7 0 0 1 0 0 0 bed
F 1 65535 0 0 nextBed
T 16 7 0 0
V 16 0
G 8 65535 stay
F 4 65535 0 0 status
T 15 9 0 0
V 15 2
N 8 7 0 1 0 0 0 bed::stay
F 4 65535 0 0 nights
T 7 0 0 0
V 7 0
N 9 0 0 0 0 0 0 Status
";

/// The requests but types' texts: the name of the number in the header, the request, the field's place, the text.
const REQUESTS: [(&str, Request, u64, &str); 9] = [
    (
        "KITLUBAS_GETTER_READER",
        Request::Getter { side: Side::Reader, form: Form::Plain },
        0,
        "::capnp::Result<bed::Reader<'a>>\n\
         ::capnp::traits::FromPointerReader::get_from_pointer(&self.reader.get_pointer_field(1), ::core::option::Option::None)\n",
    ),
    (
        "KITLUBAS_GETTER_BUILDER",
        Request::Getter { side: Side::Builder, form: Form::Plain },
        0,
        "::capnp::Result<bed::Builder<'a>>\n\
         ::capnp::traits::FromPointerBuilder::get_from_pointer(self.builder.get_pointer_field(1), ::core::option::Option::None)\n",
    ),
    (
        "KITLUBAS_GETTER_READER_FUNCTION",
        Request::Getter { side: Side::Reader, form: Form::Function },
        0,
        "-> ::capnp::Result<bed::Reader<'a>>\n\
         ::capnp::traits::FromPointerReader::get_from_pointer(&self.reader.get_pointer_field(1), ::core::option::Option::None)\n",
    ),
    (
        "KITLUBAS_GETTER_BUILDER_FUNCTION",
        Request::Getter { side: Side::Builder, form: Form::Function },
        0,
        "-> ::capnp::Result<bed::Builder<'a>>\n\
         ::capnp::traits::FromPointerBuilder::get_from_pointer(self.builder.get_pointer_field(1), ::core::option::Option::None)\n",
    ),
    (
        "KITLUBAS_SETTER",
        Request::Setter,
        0,
        "#[inline]\n\
         pub fn set_next_bed(&mut self, value: bed::Reader<'_>) -> ::capnp::Result<()> {\n    \
         ::capnp::traits::SetterInput::set_pointer_builder(self.builder.reborrow().get_pointer_field(1), value, false)\n\
         }\n\
         #[inline]\n\
         pub fn init_next_bed(self, ) -> bed::Builder<'a> {\n    \
         ::capnp::traits::FromPointerBuilder::init_pointer(self.builder.get_pointer_field(1), 0)\n\
         }\n",
    ),
    (
        "KITLUBAS_HASER_READER",
        Request::Haser { side: Side::Reader },
        0,
        "#[inline]\npub fn has_next_bed(&self) -> bool {\n    !self.reader.get_pointer_field(1).is_null()\n}\n",
    ),
    (
        "KITLUBAS_HASER_BUILDER",
        Request::Haser { side: Side::Builder },
        0,
        "#[inline]\npub fn has_next_bed(&self) -> bool {\n    !self.builder.is_pointer_field_null(1)\n}\n",
    ),
    ("KITLUBAS_ZEROING", Request::Zeroing, 1, "self.builder.set_data_field::<u16>(4, 0u16);\n"),
    (
        "KITLUBAS_PAIRED_SETTER",
        Request::PairedSetter,
        2,
        "#[inline]\n\
         pub fn set_status(&mut self, value: Status)  {\n    \
         self.builder.set_data_field_mask::<u16>(4, value as u16, 2);\n\
         }\n",
    ),
];

/// The leaves: the name of the number in the header, the leaf, the text of the slot's type.
const LEAVES: [(&str, Leaf, &str); 10] = [
    ("KITLUBAS_READER_A", Leaf::Reader(Lifetime::A), "bed::Reader<'a>"),
    ("KITLUBAS_BUILDER_A", Leaf::Builder(Lifetime::A), "bed::Builder<'a>"),
    ("KITLUBAS_READER_ANONYMOUS", Leaf::Reader(Lifetime::Anonymous), "bed::Reader<'_>"),
    ("KITLUBAS_BUILDER_ANONYMOUS", Leaf::Builder(Lifetime::Anonymous), "bed::Builder<'_>"),
    ("KITLUBAS_OWNED", Leaf::Owned, "bed::Owned"),
    ("KITLUBAS_CLIENT", Leaf::Client, "bed::Client"),
    ("KITLUBAS_SERVER", Leaf::Server, "bed::Server"),
    ("KITLUBAS_SERVER_DISPATCH", Leaf::ServerDispatch, "bed::ServerDispatch::<_T>"),
    ("KITLUBAS_PIPELINE", Leaf::Pipeline, "bed::Pipeline"),
    ("KITLUBAS_GET_TYPE", Leaf::GetType, "bed::get_type::"),
];

/// The verdicts: the name of the number in the header, the verdict, and the lines of a slot.
const VERDICTS: [(&str, Verdict, &str); 4] = [
    ("KITLUBAS_AGREE", Verdict::Agree, "F 3 65535 1 0 isFree\nT 1 0 0 0\nV 1 1\n"),
    ("KITLUBAS_SIGN_FLIPPED", Verdict::SignFlipped, "F 1 65535 1 0 heat\nT 10 0 0 0\nV 10 2147483648\n"),
    ("KITLUBAS_COMBINED_WITH_DEFAULT", Verdict::CombinedWithDefault, "F 4 65535 0 0 status\nT 15 7 0 0\nV 15 2\n"),
    ("KITLUBAS_NOT_BOTH_GENERATED", Verdict::NotBothGenerated, "F 3 65535 1 0 odd\nT 1 0 0 0\nV 2 3\n"),
];

#[test]
fn every_request_by_its_text() {
    let bed = sheet(BED);
    for (name, request, place, text) in REQUESTS {
        assert_eq!(ask(&bed, (7, place), request, 2000, 0), Ok(text.into()), "{name}");
    }
}

#[test]
fn every_leaf_by_its_text() {
    let bed = sheet(BED);
    for (name, leaf, text) in LEAVES {
        assert_eq!(ask(&bed, (7, 0), Request::TypeText(leaf), 2000, 0), Ok(text.into()), "{name}");
    }
}

/// No two texts are the same, so that no number passes for another.
#[test]
fn all_texts_differ() {
    let texts: HashSet<&str> = REQUESTS.iter().map(|row| row.3).chain(LEAVES.iter().map(|row| row.2)).collect();
    assert_eq!(texts.len(), REQUESTS.len() + LEAVES.len());
}

/// The header's constants are the size of a field, those of the three tables and the number of a type's text, ask for the same
/// texts, and tell the same verdicts.
#[test]
fn the_numbers_of_the_header() {
    let numbers = constants(&fs::read_to_string(file("crates/exports/kitlubas.h")).expect("the header can be read"));
    assert_eq!(numbers.len(), 2 + REQUESTS.len() + LEAVES.len() + VERDICTS.len());
    assert_eq!(numbers["KITLUBAS_FIELD_SIZE"], raw::FIELD_SIZE as u64);
    let bed = sheet(BED);
    for (name, _, place, text) in REQUESTS {
        assert_eq!(raw::text(&bed, (7, place), numbers[name], 0), Ok(text.into()), "{name}");
    }
    for (name, _, text) in LEAVES {
        assert_eq!(raw::text(&bed, (7, 0), numbers["KITLUBAS_TYPE_TEXT"], numbers[name]), Ok(text.into()), "{name}");
    }
    for (name, verdict, slot) in VERDICTS {
        let bytes = sheet(&format!("R ::capnp\nN 7 0 0 1 0 0 0 bed\n{slot}"));
        let admitted = Sheet::admit(&bytes).expect("it is a sheet");
        let told: Vec<_> = admitted.nodes().flat_map(|node| node.fields()).map(|field| field.verdict()).collect();
        assert_eq!(told, [Some(verdict)], "{name}");
        assert_eq!(raw::verdict(&bytes), (0, numbers[name]), "{name}");
    }
}
