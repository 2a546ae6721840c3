//! The paired setter: the present one, with the mask that the slot's getters have.

use crate::common::{ask, example_sheets, levels, masks, sheet, text, Told};
use kitlubas::{Field, Kind, Request, Sheet};

/// A sheet whose node 7 has one slot.
fn slot(lines: &str) -> Vec<u8> {
    sheet(&format!("R ::capnp\nN 7 0 0 1 0 0 0 bed\n{lines}N 9 0 0 0 0 0 0 Status\n"))
}

/// A setter of the slot, or the number of its refusal.
fn setter(lines: &str, request: Request) -> Result<String, Told> {
    ask(&slot(lines), (7, 0), request, 1000, 3)
}

/// The line that sets the slot, in its present setter and in its paired one.
fn both(lines: &str) -> [String; 2] {
    [Request::Setter, Request::PairedSetter].map(|request| {
        let text = setter(lines, request).expect("there is a setter");
        let lines: Vec<&str> = text.lines().collect();
        assert!(lines.len() == 4 && lines[1].starts_with("pub fn set_") && lines[3] == "}", "{text}");
        lines[2].trim_start().to_string()
    })
}

#[test]
fn an_enum_is_masked_by_its_number() {
    let plain = "self.builder.set_data_field::<u16>(4, value as u16);";
    let masked = |mask: &str| format!("self.builder.set_data_field_mask::<u16>(4, value as u16, {mask});");
    let status = |explicit: u64, bits: u64| format!("F 4 65535 {explicit} 0 status\nT 15 9 0 0\nV 15 {bits}\n");
    for (bits, mask) in [(1, "1"), (2, "2"), (65_535, "65535")] {
        assert_eq!(both(&status(0, bits)), [plain.to_string(), masked(mask)]);
        assert_eq!(both(&status(1, bits)), [masked(mask), masked(mask)]);
    }
    assert_eq!(both(&status(0, 0)), [plain, plain]);
    assert_eq!(both(&status(1, 0)), [masked("0"), plain.to_string()]);
}

/// -0.0 is masked; the bits of a float have their ending, and the flag is not looked at.
#[test]
fn a_float_is_masked_by_its_bits() {
    for explicit in [0, 1] {
        let heat = |bits: u64| both(&format!("F 1 65535 {explicit} 0 heat\nT 10 0 0 0\nV 10 {bits}\n"));
        let plain = "self.builder.set_data_field::<f32>(1, value);";
        let masked = |mask: &str| format!("self.builder.set_data_field_mask::<f32>(1, value, {mask});");
        assert_eq!(heat(1 << 31), [plain.to_string(), masked("2147483648u32")]);
        assert_eq!(heat(0x3fc0_0000), [masked("1069547520u32"), masked("1069547520u32")]);
        assert_eq!(heat(0), [plain, plain]);
        let cold = |bits: u64| both(&format!("F 1 65535 {explicit} 0 cold\nT 11 0 0 0\nV 11 {bits}\n"));
        let plain = "self.builder.set_data_field::<f64>(1, value);";
        let masked = |mask: &str| format!("self.builder.set_data_field_mask::<f64>(1, value, {mask});");
        assert_eq!(cold(1 << 63), [plain.to_string(), masked("9223372036854775808u64")]);
        assert_eq!(cold(1), [masked("1u64"), masked("1u64")]);
        assert_eq!(cold(0), [plain, plain]);
    }
}

#[test]
fn a_bool_and_an_integer_are_masked_as_they_were() {
    let line = "self.builder.set_bool_field_mask(3, value, true);";
    assert_eq!(both("F 3 65535 1 0 isFree\nT 1 0 0 0\nV 1 1\n"), [line, line]);
    let line = "self.builder.set_bool_field(3, value);";
    assert_eq!(both("F 3 65535 1 0 isFree\nT 1 0 0 0\nV 1 0\n"), [line, line]);
    let line = "self.builder.set_data_field_mask::<i8>(2, value, -5);";
    assert_eq!(both("F 2 65535 0 0 rank\nT 2 0 0 0\nV 2 251\n"), [line, line]);
    let line = "self.builder.set_data_field_mask::<u64>(2, value, 9223372036854775808);";
    assert_eq!(both("F 2 65535 0 0 code\nT 9 0 0 0\nV 9 9223372036854775808\n"), [line, line]);
}

/// A slot of a union sets its tag first; an option, which refuses the getter, leaves the paired mask as it is.
#[test]
fn a_union_and_an_option() {
    let status =
        sheet("R ::capnp\nN 7 0 0 1 0 2 3 bed\nF 4 1 0 1 status\nT 15 9 0 0\nV 15 2\nN 9 0 0 0 0 0 0 Status\n");
    let expected = "#[inline]\npub fn set_status(&mut self, value: Status)  {\n    \
        self.builder.set_data_field::<u16>(3, 1);\n    \
        self.builder.set_data_field_mask::<u16>(4, value as u16, 2);\n}\n";
    assert_eq!(text(&status, (7, 0), Request::PairedSetter), Ok(expected.into()));
}

/// A default that is not of the slot's type is looked at as the present setter does: texts, flags and refusals.
#[test]
fn a_default_of_another_type_has_the_present_answer() {
    for (typ, default) in [(1, 2), (2, 1), (7, 15), (10, 11), (11, 10), (15, 7), (15, 10), (1, 0), (5, 12), (10, 15)] {
        for explicit in [0, 1] {
            let id = if typ == 15 { 9 } else { 0 };
            let bits = u64::from(default != 0 && default != 12);
            let lines = format!("F 1 65535 {explicit} 0 odd\nT {typ} {id} 0 0\nV {default} {bits}\n");
            assert_eq!(setter(&lines, Request::PairedSetter), setter(&lines, Request::Setter), "{lines}");
        }
    }
    let refused = |number: u64| Err((number, None));
    assert_eq!(setter("F 3 65535 0 0 odd\nT 1 0 0 0\nV 0 0\n", Request::PairedSetter), refused(11));
    assert_eq!(setter("F 4 65535 1 0 odd\nT 15 9 0 0\nV 7 2\n", Request::PairedSetter), refused(12));
    assert_eq!(setter("F 4 65535 0 0 lost\nT 15 99 0 0\nV 15 2\n", Request::PairedSetter), refused(5));
    assert_eq!(setter("G 8 65535 stay\n", Request::PairedSetter), refused(15));
}

/// The present setter with another mask in its call; without one where it is 0.
fn with_mask(present: &str, field: &Field<'_, '_>, mask: &str) -> String {
    let is_set = |line: &str| line.contains("_field") && line.contains(", value");
    let moved = |line: &str| {
        let (call, rest) = line.split_once('(').expect("a call has arguments");
        let call = call.replace("_mask", "");
        let value = if field.kind() == Kind::Enum { "value as u16" } else { "value" };
        let (offset, _) = rest.split_once(", ").expect("an offset stands before the value");
        if mask == "0" {
            return format!("{call}({offset}, {value});\n");
        }
        let ending = match field.kind() {
            Kind::Float32 => "u32",
            Kind::Float64 => "u64",
            _ => "",
        };
        format!("{}({offset}, {value}, {mask}{ending});\n", call.replace("_field", "_field_mask"))
    };
    present.split_inclusive('\n').map(|line| if is_set(line) { moved(line) } else { line.into() }).collect()
}

/// In every example sheet, at every level: with generated getters the paired setter is the present one with their mask, and
/// what has no bits has the present answer.
#[test]
fn every_field_of_the_examples() {
    let mut other = 0;
    for (name, bytes) in example_sheets() {
        let admitted = Sheet::admit(&bytes).expect("an example sheet that is admitted");
        for field in admitted.nodes().flat_map(|node| node.fields()) {
            for level in levels() {
                let [present, paired] =
                    [Request::Setter, Request::PairedSetter].map(|request| field.text(request.at(level)));
                other += u64::from(present != paired);
                match (field.verdict(), masks(&field)) {
                    (None, _) => assert_eq!(paired, present, "{name}: {}", field.name()),
                    (Some(_), Some([_, getter])) => {
                        let present = present.expect("there is a setter");
                        assert_eq!(paired, Ok(with_mask(&present, &field, &getter)), "{name}: {}", field.name());
                    }
                    (Some(_), None) => panic!("{name}: {} has not both setter and getters", field.name()),
                }
            }
        }
    }
    assert!(other > 0, "every paired setter was the present one");
}
