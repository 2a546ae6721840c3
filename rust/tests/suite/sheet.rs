//! A sheet that was admitted: its nodes, their fields, and texts from a field.

use crate::common::{ask, requests, sheet, told, PLACES, WARD};
use kitlubas::{Form, Kind, NodeId, Place, Refusal, Request, Sheet, Side};
use std::thread;

const GETTER: Request = Request::Getter { side: Side::Reader, form: Form::Plain };

/// The modules of a sheet, which outlive what was admitted.
fn modules(bytes: &[u8]) -> Result<Vec<(NodeId, &str)>, Refusal> {
    let sheet = Sheet::admit(bytes)?;
    Ok(sheet.nodes().map(|node| (node.id(), node.module())).collect())
}

#[test]
fn the_nodes_of_a_sheet() {
    let ward = sheet(WARD);
    let expected = [(NodeId(7), "ward_capnp::bed"), (NodeId(9), "ward_capnp::Status")];
    assert_eq!(modules(&ward), Ok(expected.to_vec()));
    assert_eq!(modules(b"").map_err(told), Err((2, Some((1, 1)))));
    let admitted = Sheet::admit(&ward).expect("it is a sheet");
    assert_eq!(admitted.bytes(), ward);
    assert_eq!(admitted.node(NodeId(9)).map(|node| node.module()), Some("ward_capnp::Status"));
    assert!(admitted.node(NodeId(8)).is_none());
    let mut nodes = admitted.nodes();
    assert_eq!((nodes.by_ref().count(), nodes.next().is_none()), (2, true));
}

#[test]
fn the_fields_of_a_node() {
    let ward = sheet(WARD);
    let admitted = Sheet::admit(&ward).expect("it is a sheet");
    let node = admitted.node(NodeId(7)).expect("there is a node 7");
    let fields: Vec<_> = node.fields().map(|field| (field.place().0, field.name(), field.kind())).collect();
    let expected = [
        (0, "isFree", Kind::Bool),
        (1, "rank", Kind::Int8),
        (2, "weight", Kind::Float32),
        (3, "status", Kind::Enum),
        (4, "wardName", Kind::Text),
        (5, "beds", Kind::List),
        (6, "plan", Kind::AnyPointer),
        (7, "nothing", Kind::Void),
    ];
    assert_eq!(fields, expected);
    assert_eq!(node.field(Place(4)).map(|field| field.styled_name()), Some("ward_name".into()));
    assert!(node.field(Place(PLACES)).is_none() && node.field(Place(u64::MAX)).is_none());
    let mut fields = node.fields();
    assert_eq!((fields.by_ref().count(), fields.next().is_none()), (8, true));
    // An enum's node has none, and the fields of a node end where the next node begins.
    assert_eq!(admitted.node(NodeId(9)).map(|node| node.fields().count()), Some(0));
}

/// A name of 64 bytes, all of them capitals, has 127 in snake case, and stands so in its accessors.
#[test]
fn the_longest_name() {
    let bytes = sheet(&format!("R ::capnp\nN 7 0 0 1 0 0 0 bed\nF 0 65535 0 0 {}\nT 1 0 0 0\nV 1 0\n", "A".repeat(64)));
    let admitted = Sheet::admit(&bytes).expect("it is a sheet");
    let field = admitted.nodes().next().and_then(|node| node.field(Place(0))).expect("there is a field");
    let styled = vec!["a"; 64].join("_");
    assert_eq!((field.name().len(), field.styled_name()), (64, styled.clone()));
    assert!(field.text(Request::Setter).is_ok_and(|setter| setter.contains(&format!("pub fn set_{styled}(&mut self"))));
}

/// Each kind by the number that its T line has; a group has none.
#[test]
fn every_kind() {
    let types: String = (0..=18).map(|kind| format!("F 0 65535 0 0 f{kind}\n{}V {kind} 0\n", typ(kind))).collect();
    let bytes = sheet(&format!("R ::capnp\nN 7 0 0 1 0 0 0 bed\n{types}G 9 65535 group\n"));
    let admitted = Sheet::admit(&bytes).expect("it is a sheet");
    let kinds: Vec<Kind> = admitted.nodes().flat_map(|node| node.fields()).map(|field| field.kind()).collect();
    let expected = [
        Kind::Void,
        Kind::Bool,
        Kind::Int8,
        Kind::Int16,
        Kind::Int32,
        Kind::Int64,
        Kind::Uint8,
        Kind::Uint16,
        Kind::Uint32,
        Kind::Uint64,
        Kind::Float32,
        Kind::Float64,
        Kind::Text,
        Kind::Data,
        Kind::List,
        Kind::Enum,
        Kind::Struct,
        Kind::Interface,
        Kind::AnyPointer,
        Kind::Group,
    ];
    assert_eq!(kinds, expected);
}

/// The rows of a type of some kind; a list's elements are Bools, and a node is node 7.
fn typ(kind: u64) -> String {
    match kind {
        14 => "T 14 0 0 0\nT 1 0 0 0\n".into(),
        15..=17 => format!("T {kind} 7 0 0\n"),
        _ => format!("T {kind} 0 0 0\n"),
    }
}

/// From a field, from the sheet and from bytes comes one text, in every node.
#[test]
fn texts_from_every_side() {
    let bytes = sheet(&format!("{WARD}F 1 65535 1 0 isLast\nT 1 0 0 0\nV 1 1\nG 7 65535 again\n"));
    let admitted = Sheet::admit(&bytes).expect("it is a sheet");
    let mut texts = 0;
    for node in admitted.nodes() {
        for field in node.fields() {
            for request in requests().into_iter().chain([Request::Zeroing]) {
                let text = field.text(request).map_err(told);
                texts += usize::from(text.is_ok());
                assert_eq!(text, ask(&bytes, (node.id().0, field.place().0), request, 65_536, 0), "{request:?}");
                assert_eq!(text, admitted.text(node.id(), field.place(), request).map_err(told));
            }
        }
    }
    assert_eq!(texts, 8 * 18 - 4 + 18 + 1);
}

/// Texts are put one behind the other, short ones and long ones, and a refusal leaves what is there.
#[test]
fn texts_behind_each_other() {
    let mut short = String::from("R ::capnp\nN 7 0 0 1 0 0 0 bed\nF 3 65535 1 0 isFree\nT 1 0 0 0\nV 1 1\n");
    short += "F 0 65535 1 0 plan\nT 13 0 0 0\nV 13 0\n";
    short += &"W 18446744073709551615\n".repeat(255);
    let bytes = sheet(&short);
    let admitted = Sheet::admit(&bytes).expect("it is a sheet");
    let fields: Vec<_> = admitted.nodes().flat_map(|node| node.fields()).collect();
    let mut out = b"start".to_vec();
    for field in &fields {
        field.write_text(GETTER, &mut out).expect("there is a getter");
    }
    let before = out.clone();
    assert_eq!(fields[0].write_text(Request::Zeroing, &mut out).map_err(told), Err((15, None)));
    assert_eq!(out, before);
    fields[0].write_text(Request::Setter, &mut out).expect("there is a setter");
    let whole: String = [(0, GETTER), (1, GETTER), (0, Request::Setter)]
        .iter()
        .map(|(place, request)| admitted.text(NodeId(7), Place(*place), *request).expect("there is a text"))
        .collect();
    assert!(whole.len() > 65_536 / 5);
    assert_eq!(String::from_utf8(out).expect("texts are UTF-8"), format!("start{whole}"));
}

/// A text is as long as the room that is tried first, a byte shorter or longer.
#[test]
fn texts_around_the_first_room() {
    for module in 1..=128 {
        let short = format!("R ::capnp\nN 7 0 0 1 1 0 0 {}\nP Plan\n", "m".repeat(module));
        let brands = "T 16 7 1 0\nS 7 1 1\n".repeat(4);
        let bytes = sheet(&format!("{short}F 0 65535 0 0 plan\n{brands}T 12 0 0 0\nV 16 0\n"));
        for request in requests() {
            let text = ask(&bytes, (7, 0), request, 65_536, 0).expect("there is a text");
            let mut out = Vec::new();
            let admitted = Sheet::admit(&bytes).expect("it is a sheet");
            let field = admitted.nodes().next().and_then(|node| node.field(Place(0))).expect("there is a field");
            field.write_text(request, &mut out).expect("there is a text");
            assert_eq!(out, text.as_bytes());
        }
    }
}

/// One sheet, asked by several threads at once.
#[test]
fn threads_share_a_sheet() {
    let ward = sheet(WARD);
    let admitted = Sheet::admit(&ward).expect("it is a sheet");
    let all = || -> Vec<_> {
        let fields = admitted.nodes().flat_map(|node| node.fields());
        fields.flat_map(|field| requests().into_iter().map(move |request| field.text(request))).collect()
    };
    let expected = all();
    thread::scope(|scope| {
        let threads: Vec<_> = (0..4).map(|_| scope.spawn(all)).collect();
        threads.into_iter().for_each(|thread| assert_eq!(thread.join().expect("it ends"), expected));
    });
}
