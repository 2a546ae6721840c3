//! Example sheets: the texts that the format's description shows, and a text for every field of a larger sheet.

use crate::common::{ask, requests, sheet, text, PLACES, WARD};
use kitlubas::{admit, Form, Leaf, Lifetime, Request, Side};

const READER: Request = Request::Getter { side: Side::Reader, form: Form::Plain };

fn lines(short: &str, place: u64, request: Request) -> Vec<String> {
    let text = text(&sheet(short), (7, place), request).expect("the request is answered");
    text.split('\n').map(String::from).collect()
}

#[test]
fn the_first_example() {
    let bed = "R ::capnp\nN 7 0 0 1 0 0 0 bed\nF 3 65535 1 0 isFree\nT 1 0 0 0\nV 1 1\n";
    assert_eq!(admit(&sheet(bed)), Ok(()));
    assert_eq!(lines(bed, 0, READER), ["bool", "self.reader.get_bool_field_mask(3, true)", ""]);
    let builder = Request::Getter { side: Side::Builder, form: Form::Function };
    assert_eq!(lines(bed, 0, builder), ["-> bool", "self.builder.get_bool_field_mask(3, true)", ""]);
    let setter = [
        "#[inline]",
        "pub fn set_is_free(&mut self, value: bool)  {",
        "    self.builder.set_bool_field_mask(3, value, true);",
        "}",
        "",
    ];
    assert_eq!(lines(bed, 0, Request::Setter), setter);
    assert_eq!(lines(bed, 0, Request::Haser { side: Side::Reader }), ["", ""]);
}

#[test]
fn an_int8_of_minus_five_is_masked_on_both_ways() {
    assert_eq!(lines(WARD, 1, READER)[1], "self.reader.get_data_field_mask::<i8>(2, -5)");
    assert_eq!(lines(WARD, 1, Request::Setter)[2], "    self.builder.set_data_field_mask::<i8>(2, value, -5);");
}

#[test]
fn a_float_of_minus_zero_is_masked_by_its_getter_alone() {
    assert_eq!(lines(WARD, 2, READER)[1], "self.reader.get_data_field_mask::<f32>(1, 2147483648)");
    let setter = lines(WARD, 2, Request::Setter);
    assert_eq!(setter[2], "    self.builder.set_data_field::<u16>(2, 0);");
    assert_eq!(setter[3], "    self.builder.set_data_field::<f32>(1, value);");
}

#[test]
fn an_enum_without_its_flag_is_masked_by_its_getter_alone() {
    let getter = "::core::convert::TryFrom::try_from(self.reader.get_data_field_mask::<u16>(4, 2))";
    assert_eq!(lines(WARD, 3, READER)[1], getter);
    assert_eq!(lines(WARD, 3, Request::Setter)[3], "    self.builder.set_data_field::<u16>(4, value as u16);");
}

#[test]
fn a_default_of_a_pointer_is_declared_below_its_getter() {
    let getter = lines(WARD, 4, READER);
    assert_eq!(getter[0], "::capnp::Result<Option<::capnp::text::Reader<'a>>>");
    assert_eq!(getter[6], "pub(crate) static DEFAULT_WARD_NAME: [::capnp::Word; 2] = [");
    assert_eq!(getter[7], "    ::capnp::word(1, 0, 0, 0, 2, 1, 0, 0),");
}

#[test]
fn leaves_of_a_type() {
    let leaf = |leaf| lines(WARD, 5, Request::TypeText(leaf)).concat();
    let list = "::capnp::struct_list::";
    assert_eq!(leaf(Leaf::Reader(Lifetime::A)), format!("{list}Reader<'a,ward_capnp::bed::Owned<Plan>>"));
    assert_eq!(leaf(Leaf::Builder(Lifetime::Anonymous)), format!("{list}Builder<'_,ward_capnp::bed::Owned<Plan>>"));
    assert_eq!(leaf(Leaf::Owned), format!("{list}Owned<ward_capnp::bed::Owned<Plan>>"));
}

/// Each request on each field is a text, or 7 where a type parameter has no such leaf. That `text` and a buffer with
/// enough room agree shows that growing loses nothing.
#[test]
fn every_request_on_every_field() {
    let ward = sheet(WARD);
    let (mut answered, mut refused) = (0, 0);
    for place in 0..PLACES {
        for request in requests() {
            let whole = text(&ward, (7, place), request);
            assert_eq!(whole, ask(&ward, (7, place), request, 65_536, 11));
            match whole {
                Ok(_) => answered += 1,
                Err(refusal) => {
                    assert_eq!((place, refusal), (6, (7, None)), "{request:?}");
                    refused += 1;
                }
            }
        }
    }
    assert_eq!((answered, refused), (8 * 18 - 4, 4));
}

/// A text that is longer than the room that is tried first.
#[test]
fn a_long_text_grows_its_buffer() {
    let mut short = String::from("R ::capnp\nN 7 0 0 1 0 0 0 bed\nF 0 65535 1 0 plan\nT 13 0 0 0\nV 13 0\n");
    short += &"W 18446744073709551615\n".repeat(255);
    let getter = text(&sheet(&short), (7, 0), READER).expect("the request is answered");
    assert_eq!(getter.matches("::capnp::word(255, 255, 255, 255, 255, 255, 255, 255),").count(), 255);
    assert!(getter.len() > 3 * 4096);
}
