//! The zeroing of groups: its lines, its refusals and its bounds.

use crate::common::{ask, sheet, text, Told};
use kitlubas::Request;

fn zeroing(short: &str) -> Result<String, Told> {
    text(&sheet(short), (7, 0), Request::Zeroing)
}

fn refused(number: u64) -> Result<String, Told> {
    Err((number, None))
}

/// A bed whose first field is a group, and the group's node with these fields.
fn bed(group: &str, fields: &str) -> String {
    format!("R ::capnp\nN 7 0 0 1 0 0 0 bed\nG 9 65535 plan\n{group}\n{fields}")
}

const PLAN: &str = "N 9 7 7 1 0 0 0 bed::plan";

/// Equal lines are written once; the tag's line and a u16's stay beside each other.
#[test]
fn the_lines_of_a_group() {
    let fields = "F 4 65535 0 0 rank\nT 7 0 0 0\nV 7 0\nF 4 65535 0 0 status\nT 15 7 0 0\nV 15 0\n\
        F 9 65535 0 0 isFree\nT 1 0 0 0\nV 1 0\nF 1 65535 0 0 ward\nT 12 0 0 0\nV 12 0\n";
    let expected = "self.builder.set_data_field::<u16>(4, 0);\nself.builder.set_data_field::<u16>(4, 0u16);\n\
        self.builder.set_bool_field(9, false);\nself.builder.reborrow().get_pointer_field(1).clear();\n";
    assert_eq!(zeroing(&bed("N 9 7 7 1 0 2 4 bed::plan", fields)), Ok(expected.into()));
}

#[test]
fn a_group_without_fields_is_one_newline() {
    assert_eq!(zeroing(&bed(PLAN, "")), Ok("\n".into()));
}

#[test]
fn number_4_a_17th_level_of_groups() {
    let groups = |count: u64| -> String {
        (0..count).map(|i| format!("N {} 7 7 1 0 0 0 bed\nG {} 65535 plan\n", 9 + i, 10 + i)).collect()
    };
    let deep = |count| format!("R ::capnp\nN 7 0 0 1 0 0 0 bed\nG 9 65535 plan\n{}", groups(count));
    let last = |count: u64| format!("{}N {} 7 7 1 0 0 0 bed\n", deep(count), 9 + count);
    assert_eq!(zeroing(&last(15)), Ok("\n".into()));
    assert_eq!(zeroing(&last(16)), refused(4));
}

#[test]
fn number_5_a_group_whose_node_is_not_there() {
    assert_eq!(zeroing("R ::capnp\nN 7 0 0 1 0 0 0 bed\nG 9 65535 plan\n"), refused(5));
}

#[test]
fn number_14_a_group_whose_node_is_no_struct() {
    assert_eq!(zeroing(&bed("N 9 7 7 0 0 0 0 bed::plan", "")), refused(14));
}

/// A text that is just as long as the free part fits, and one byte less is 22.
#[test]
fn the_fill_count_at_its_bounds() {
    let bytes = sheet(&bed(PLAN, "F 9 65535 0 0 isFree\nT 1 0 0 0\nV 1 0\n"));
    let whole = text(&bytes, (7, 0), Request::Zeroing).expect("the zeroing is answered");
    let ask = |length| ask(&bytes, (7, 0), Request::Zeroing, length, 5);
    assert_eq!(ask(5 + whole.len()), Ok(whole.clone()));
    assert_eq!(ask(5 + whole.len() - 1), refused(22));
    assert_eq!(ask(4), refused(21));
}
