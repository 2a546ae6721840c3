//! Order of lines, doubled ids, counts, levels and the size of a sheet.

use super::lines::whole;
use super::{Bounds, Lines};
use crate::sheet::read::Refusal;
use crate::sheet::{MAX_BYTES, MAX_NODES, MAX_WORDS};

pub fn add(bounds: &mut Bounds) {
    starts(bounds);
    letters(bounds);
    bad_letters(bounds);
    words(bounds);
    doubles(bounds);
    nodes(bounds);
    levels(bounds);
    sizes(bounds);
}

fn starts(bounds: &mut Bounds) {
    bounds.refused("empty", &Lines::new(), Refusal::misplaced(1));
    bounds.refused("an empty line", &Lines(vec![Vec::new()]), Refusal::misplaced(1));
    bounds.refused("no R", &Lines(whole().0[1..].to_vec()), Refusal::misplaced(1));
    bounds.refused("two R", &Lines::new().text('R', &[], "a").text('R', &[], "a"), Refusal::misplaced(2));
    bounds.refused("R at the end", &whole().text('R', &[], "a"), Refusal::misplaced(20));
    bounds.refused("an empty line at the end", &whole().and(&Lines(vec![Vec::new()])), Refusal::misplaced(20));
    bounds.bytes("a byte at the end".into(), [whole().bytes(), vec![b'N']].concat(), Some(Refusal::misplaced(20)));
    bounds.passes("a node alone", &Lines::start());
}

/// Each letter after each beginning of a sheet: what may follow passes, or ends too soon, and the rest is bad.
fn letters(bounds: &mut Bounds) {
    for (name, beginning, follow) in beginnings() {
        for letter in "RNPFGTSUVW".chars() {
            let next = beginning.next();
            let lines = beginning.clone().and(&one_line(letter));
            let name = format!("{letter} after {name}");
            match letter {
                _ if !follow.contains(letter) => bounds.refused(name, &lines, Refusal::misplaced(next)),
                // A binding is followed by the slot's V, and a slot, a type or a scope is not whole.
                'F' | 'T' | 'S' | 'U' => bounds.refused(name, &lines, Refusal::misplaced(next + 1)),
                _ => bounds.passes(name, &lines),
            }
        }
    }
}

/// The beginnings of sheets, each with the letters that may follow.
pub fn beginnings() -> [(&'static str, Lines, &'static str); 15] {
    let field = Lines::slot().typ([0, 0, 0, 0]).void_value();
    let words = Lines::start().text('F', &[0, 65535, 1, 0], "ward").typ([13, 0, 0, 0]).plain('V', &[13, 0]);
    let branded = Lines::slot().typ([16, 7, 1, 0]);
    let bound = bound_one();
    [
        ("R", Lines::new().text('R', &[], "::capnp"), "N"),
        ("N", Lines::start(), "NPFG"),
        ("P", Lines::start().text('P', &[], "T"), "NPFG"),
        ("F", Lines::slot(), "T"),
        ("a list's T", Lines::slot().typ([14, 0, 0, 0]), "T"),
        ("a branded T", branded.clone(), "S"),
        ("S that inherits", branded.plain('S', &[7, 0, 0]), "V"),
        ("S that binds", bound.clone(), "TU"),
        ("U", bound.clone().plain('U', &[]), "V"),
        ("a binding's T", bound.typ([0, 0, 0, 0]), "V"),
        ("T", Lines::slot().typ([0, 0, 0, 0]), "V"),
        ("V", field, "NFG"),
        ("V with words", words.clone(), "W"),
        ("W", words.plain('W', &[1]), "WNFG"),
        ("G", Lines::start().text('G', &[9, 65535], "place"), "NFG"),
    ]
}

/// A line that may not stand there is refused by its letter, whatever else is bad in it.
fn bad_letters(bounds: &mut Bounds) {
    let field = Lines::slot().typ([0, 0, 0, 0]).void_value();
    bounds.refused("P after V, without its name", &field.clone().plain('P', &[]), Refusal::misplaced(6));
    bounds.refused("W after V, with surplus bytes", &field.text('W', &[1], "x"), Refusal::misplaced(6));
    bounds.refused("T after N, of no kind", &Lines::start().typ([19, 0, 0, 0]), Refusal::misplaced(3));
    bounds.refused("R after N, without its root", &Lines::start().plain('R', &[]), Refusal::misplaced(3));
    // These may stand there, and are told by their own faults.
    bounds.refused("P after N, without its name", &Lines::start().plain('P', &[]), Refusal::bad_text(3, 2));
    bounds.refused("N after N, without its numbers", &Lines::start().plain('N', &[]), Refusal::bad_number(3, 2));
    bounds.refused("U with a number", &bound_one().plain('U', &[1]), Refusal::bad_text(6, 2));
    bounds.refused("T as a binding, of no kind", &bound_one().typ([19, 0, 0, 0]), Refusal::bad_number(6, 2));
}

/// A slot whose type has one scope with one binding, which is to follow as line 6.
fn bound_one() -> Lines {
    Lines::slot().typ([16, 7, 1, 0]).plain('S', &[7, 1, 1])
}

/// A well-formed line of each letter.
pub fn one_line(letter: char) -> Lines {
    let lines = Lines::new();
    match letter {
        'R' => lines.text('R', &[], "::capnp"),
        'N' => lines.text('N', &[70, 0, 0, 1, 0, 0, 0], "other"),
        'P' => lines.text('P', &[], "U"),
        'F' => lines.text('F', &[0, 65535, 0, 0], "next"),
        'G' => lines.text('G', &[90, 65535], "next"),
        'T' => lines.typ([0, 0, 0, 0]),
        'S' => lines.plain('S', &[7, 0, 0]),
        'U' => lines.plain('U', &[]),
        'V' => lines.void_value(),
        _ => lines.plain('W', &[1]),
    }
}

/// Words stand exactly when explicit is 1 and the value, not the type, is of a kind that has them.
fn words(bounds: &mut Bounds) {
    for kind in 0..19u64 {
        let has = [12, 13, 14, 16].contains(&kind);
        for explicit in [0, 1] {
            for (typ, typ_name) in [(0, "Void"), (12, "Text")] {
                let slot = Lines::start().text('F', &[0, 65535, explicit, 0], "ward").typ([typ, 0, 0, 0]);
                let slot = slot.plain('V', &[kind, 0]);
                let name = format!("{typ_name} slot, V kind {kind}, explicit {explicit}");
                let with = slot.clone().plain('W', &[1]);
                if has && explicit == 1 {
                    bounds.passes(format!("{name}, one W"), &with);
                    bounds.refused(format!("{name}, no W"), &slot, Refusal::misplaced(6));
                } else {
                    bounds.refused(format!("{name}, one W"), &with, Refusal::misplaced(6));
                    bounds.passes(format!("{name}, no W"), &slot);
                }
            }
        }
    }
    let slot = Lines::start().text('F', &[0, 65535, 1, 0], "ward").typ([12, 0, 0, 0]).plain('V', &[12, 0]);
    let full = (0..MAX_WORDS as u64).fold(slot, |lines, word| lines.plain('W', &[word]));
    bounds.passes("255 W", &full);
    bounds.passes("255 W and a G", &full.clone().text('G', &[9, 1], "place"));
    bounds.refused("256 W", &full.clone().plain('W', &[1]), Refusal::misplaced(261));
    bounds.refused("257 W", &full.clone().plain('W', &[1]).plain('W', &[1]), Refusal::misplaced(261));
    bounds.refused("a 256th W without its number", &full.plain('W', &[]), Refusal::misplaced(261));
}

fn doubles(bounds: &mut Bounds) {
    let node = |id: u64| Lines::new().text('N', &[id, 0, 0, 0, 0, 0, 0], "other");
    let group = |id: u64| Lines::new().text('G', &[id, 65535], "place");
    bounds.refused("an id on a second N", &Lines::start().and(&node(7)), Refusal::doubled(3));
    bounds.refused(
        "an id on a third N",
        &Lines::start().and(&node(8)).and(&node(7)).and(&node(8)),
        Refusal::doubled(4),
    );
    bounds.refused("an id on a second G", &Lines::start().and(&group(9)).and(&group(9)), Refusal::doubled(4));
    let across = Lines::start().and(&group(9)).and(&node(8)).and(&group(9));
    bounds.refused("an id on a second G of another node", &across, Refusal::doubled(5));
    bounds.passes("an id on an N and on a G", &Lines::start().and(&group(7)).and(&node(9)));
    let mut bad = Lines::start().and(&node(7));
    bad.0[2].push(b' ');
    bounds.refused("an id on a second N that is bad", &bad, Refusal::bad_text(3, 150));
    let mut torn = Lines::start().and(&group(9)).and(&group(9)).bytes();
    torn.pop();
    bounds.bytes("an id on a second G that is torn".into(), torn, Some(Refusal::misplaced(4)));
    let late = Lines::start().and(&node(7)).and(&Lines(vec![Vec::new()]));
    bounds.refused("a double before a bad line", &late, Refusal::doubled(3));
    let names = Lines::start().text('P', &[], "T").text('P', &[], "T").and(&group(9)).text('G', &[10, 65535], "place");
    bounds.passes("names twice", &names);
    let scopes = Lines::slot().typ([16, 7, 2, 0]).plain('S', &[7, 0, 0]).plain('S', &[7, 0, 0]).void_value();
    bounds.passes("a scope twice", &scopes);
}

fn nodes(bounds: &mut Bounds) {
    let many = |count: usize| {
        let root = Lines::new().text('R', &[], "::capnp");
        (1..=count as u64).fold(root, |lines, id| lines.text('N', &[id, 0, 0, 1, 0, 0, 0], "bed"))
    };
    bounds.passes("64 nodes", &many(MAX_NODES));
    bounds.refused("65 nodes", &many(MAX_NODES + 1), Refusal::misplaced(66));
    bounds.refused("66 nodes", &many(MAX_NODES + 2), Refusal::misplaced(66));
    bounds.refused("a 65th node without its numbers", &many(MAX_NODES).plain('N', &[]), Refusal::misplaced(66));
    bounds.refused(
        "a 65th node with a double id",
        &many(MAX_NODES).text('N', &[1, 0, 0, 1, 0, 0, 0], "bed"),
        Refusal::misplaced(66),
    );
    bounds.passes("64 nodes and a field", &many(MAX_NODES).text('G', &[9, 65535], "place"));
}

/// One level more: a list, a scope that binds one type, or one whose second binding goes on.
type Step = fn(Lines) -> Lines;

fn levels(bounds: &mut Bounds) {
    let list: Step = |lines| lines.typ([14, 0, 0, 0]);
    let bind: Step = |lines| lines.typ([16, 7, 1, 0]).plain('S', &[7, 1, 1]);
    let of_enum: Step = |lines| lines.typ([15, 0, 1, 0]).plain('S', &[0, 1, 1]);
    let second: Step = |lines| lines.typ([17, 5, 1, 0]).plain('S', &[6, 1, 2]).plain('U', &[]);
    let mixed: Step = |lines| {
        if lines.next() % 2 == 0 {
            lines.typ([14, 0, 0, 0])
        } else {
            lines.typ([16, 7, 2, 0]).plain('S', &[3, 0, 0]).plain('S', &[7, 1, 1])
        }
    };
    for (name, step) in [
        ("lists", list),
        ("bindings", bind),
        ("enums' bindings", of_enum),
        ("second bindings", second),
        ("mixed", mixed),
    ] {
        // The slot's own type is level 1, so n steps put the next type at level n + 1.
        let down = |steps: usize| (0..steps).fold(Lines::slot(), |lines, _| step(lines));
        bounds.passes(format!("{name} to level 16"), &down(15).typ([0, 0, 0, 0]).void_value());
        let past = down(16);
        let line = past.next();
        bounds.refused(
            format!("{name} to level 17"),
            &past.clone().typ([0, 0, 0, 0]).void_value(),
            Refusal::too_deep(line),
        );
        bounds.refused(
            format!("{name} to level 17, then bad"),
            &past.clone().typ([0, 0, 0, 0]),
            Refusal::too_deep(line),
        );
        bounds.refused(
            format!("{name} to level 17, badly written"),
            &past.clone().typ([19, 0, 0, 0]),
            Refusal::bad_number(line, 2),
        );
        bounds.refused(format!("{name} to level 17, missing"), &past, Refusal::misplaced(line));
        bounds.refused(format!("{name}, V for level 17"), &past.clone().void_value(), Refusal::misplaced(line));
        let mut torn = past.typ([0, 0, 0, 0]).bytes();
        torn.pop();
        bounds.bytes(format!("{name} to level 17, torn"), torn, Some(Refusal::misplaced(line)));
    }
    let unbound = (0..16).fold(Lines::slot(), |lines, _| bind(lines)).plain('U', &[]).void_value();
    bounds.passes("U in place of level 17", &unbound);
    let wide = Lines::slot().typ([16, 7, 1, 0]).plain('S', &[7, 1, 40]);
    let wide = (0..40).fold(wide, |lines, _| lines.typ([14, 0, 0, 0]).typ([0, 0, 0, 0])).void_value();
    bounds.passes("40 bindings side by side", &wide);
}

fn sizes(bounds: &mut Bounds) {
    for (size, expected) in [(MAX_BYTES - 1, None), (MAX_BYTES, None), (MAX_BYTES + 1, Some(Refusal::nowhere(1)))] {
        bounds.bytes(format!("{size} bytes"), sized(size), expected);
    }
    let junk = vec![b'x'; MAX_BYTES + 1];
    bounds.bytes("65537 bytes of junk".into(), junk.clone(), Some(Refusal::nowhere(1)));
    bounds.bytes("65536 bytes of junk".into(), junk[1..].to_vec(), Some(Refusal::misplaced(1)));
    bounds.bytes("65536 bytes 10".into(), vec![b'\n'; MAX_BYTES], Some(Refusal::misplaced(1)));
}

/// A valid sheet of exactly this size: parameters, the last of them short enough.
fn sized(size: usize) -> Vec<u8> {
    let mut bytes = Lines::start().bytes();
    while bytes.len() < size {
        // A line is P, a space, a name and byte 10; what is left must stay 0 or room for the shortest.
        let left = size - bytes.len();
        let line = match left {
            4..=67 => left,
            68..=70 => 64,
            _ => 67,
        };
        bytes.extend(b"P ");
        bytes.resize(bytes.len() + line - 3, b'n');
        bytes.push(b'\n');
    }
    bytes
}
