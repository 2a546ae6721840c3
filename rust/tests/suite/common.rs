//! What the tests share: a sheet with a field of each shape, the example sheets, every request, the masks of texts, random
//! numbers, and an asking that looks at every byte of the buffer.

use kitlubas::{
    admit, answer, padded, Asked, Field, Form, Leaf, Level, Lifetime, NodeId, Place, Refusal, Request, Sheet, Side,
};
use std::fs;
use std::path::PathBuf;

/// A ward with its beds: data slots with and without defaults, pointers, a union and a type parameter.
pub const WARD: &str = "\
R ::capnp
N 7 0 0 1 1 3 2 ward_capnp::bed
P Plan
F 3 65535 1 0 isFree
T 1 0 0 0
V 1 1
F 2 65535 1 0 rank
T 2 0 0 0
V 2 251
F 1 0 1 0 weight
T 10 0 0 0
V 10 2147483648
F 4 1 0 0 status
T 15 9 0 0
V 15 2
F 0 65535 1 1 wardName
T 12 0 0 0
V 12 0
W 1108101562369
W 6579554
F 1 2 0 0 beds
T 14 0 0 0
T 16 7 1 0
S 7 1 1
T 18 1 7 0
V 14 0
F 2 65535 0 0 plan
T 18 1 7 0
V 18 0
F 0 65535 0 0 nothing
T 0 0 0 0
V 0 0
N 9 7 7 0 0 0 0 ward_capnp::Status
";

/// How many fields node 7 of `WARD` has.
pub const PLACES: u64 = 8;

pub fn sheet(short: &str) -> Vec<u8> {
    padded(short)
}

/// A file of the repository.
pub fn file(path: &str) -> PathBuf {
    PathBuf::from(env!("CARGO_MANIFEST_DIR")).join("..").join(path)
}

/// The example sheets that are admitted, by their names.
pub fn example_sheets() -> Vec<(String, Vec<u8>)> {
    let entries = fs::read_dir(file("examples")).expect("the examples can be listed");
    let paths = entries.map(|entry| entry.expect("the examples can be listed").path());
    let sheets = paths.filter(|path| path.extension().is_some_and(|extension| extension == "sheet"));
    let read = |path: PathBuf| (path.display().to_string(), fs::read(&path).expect("an example can be read"));
    let admitted: Vec<_> = sheets.map(read).filter(|(_, bytes)| admit(bytes).is_ok()).collect();
    assert!(admitted.len() > 6);
    admitted
}

/// A refusal by its number, and by its line and its column, which come together.
pub type Told = (u64, Option<(usize, usize)>);

pub fn told(refusal: Refusal) -> Told {
    assert_eq!(refusal.line.is_some(), refusal.column.is_some(), "{refusal:?}");
    (refusal.number, refusal.line.zip(refusal.column))
}

/// The text of a request, straight from bytes.
pub fn text(sheet: &[u8], (node, place): (u64, u64), request: impl Into<Asked>) -> Result<String, Told> {
    kitlubas::text(sheet, NodeId(node), Place(place), request).map_err(told)
}

/// Every request but the zeroing.
pub fn requests() -> Vec<Request> {
    let mut all = vec![Request::Setter, Request::PairedSetter];
    for side in [Side::Reader, Side::Builder] {
        all.push(Request::Haser { side });
        all.extend([Form::Function, Form::Plain].map(|form| Request::Getter { side, form }));
    }
    for lifetime in [Lifetime::A, Lifetime::Anonymous] {
        all.extend([Leaf::Reader(lifetime), Leaf::Builder(lifetime)].map(Request::TypeText));
    }
    let bare = [Leaf::Owned, Leaf::Client, Leaf::Server, Leaf::ServerDispatch, Leaf::Pipeline, Leaf::GetType];
    all.extend(bare.map(Request::TypeText));
    all
}

/// The masks of a slot's setter and of its getters, where all of them have a text.
pub fn masks(field: &Field<'_, '_>) -> Option<[String; 2]> {
    let setter = mask(&field.text(Request::Setter).ok()?);
    let sides = [Side::Reader, Side::Builder];
    let mut requests = sides.iter().flat_map(|&side| [Form::Function, Form::Plain].map(|form| (side, form)));
    let getter = |(side, form)| field.text(Request::Getter { side, form }).ok().map(|text| mask(&text));
    let first = getter(requests.next()?)?;
    for request in requests {
        assert_eq!(getter(request)?, first, "getters of one slot have different masks");
    }
    Some([setter, first])
}

/// The mask of the call in a text, without the ending of a float's bits; no mask is one of 0.
fn mask(text: &str) -> String {
    let Some((_, call)) = text.split_once("_field_mask") else { return "0".into() };
    let arguments = call.split(')').next().unwrap_or_default();
    let mask = arguments.rsplit(", ").next().unwrap_or_default();
    mask.trim_end_matches("u32").trim_end_matches("u64").into()
}

/// Every level, from 0 on.
pub fn levels() -> impl Iterator<Item = Level> {
    (0..=u8::MAX).map_while(Level::new)
}

/// Bytes among which a changed one shows.
fn pattern(length: usize) -> Vec<u8> {
    (0..length).map(|at| (at * 37 + 129) as u8).collect()
}

/// Asks with a buffer of this length, and holds every byte outside the text against what stood there before; and the
/// answer over the sheet's index against it.
pub fn ask(
    sheet: &[u8],
    (node, place): (u64, u64),
    request: impl Into<Asked>,
    length: usize,
    fill: usize,
) -> Result<String, Told> {
    let (node, place, asked) = (NodeId(node), Place(place), request.into());
    let before = pattern(length);
    let mut buf = before.clone();
    let answered = answer(sheet, node, place, asked, &mut buf, fill);
    let text = answered.map(|after| {
        assert!(fill < after && after <= length, "fill count {fill} became {after} of {length}");
        assert_eq!(buf[..fill], before[..fill], "a byte before the text changed");
        assert_eq!(buf[after..], before[after..], "a byte behind the text changed");
        String::from_utf8(buf[fill..after].to_vec()).expect("texts are UTF-8")
    });
    if let Err(refusal) = text {
        assert_eq!(buf, before, "{refusal} changed the buffer");
    }
    let admitted = Sheet::admit(sheet);
    assert_eq!(admitted.as_ref().map(|_| ()).map_err(|refusal| *refusal), admit(sheet));
    if let Ok(admitted) = admitted {
        let mut again = before;
        assert_eq!(admitted.answer(node, place, asked, &mut again, fill), answered);
        assert_eq!(again, buf, "the index left another buffer");
        same_text(&admitted.text(node, place, asked), &text, length.saturating_sub(fill));
    }
    text.map_err(told)
}

/// Holds a text with as much room as it takes against an answer with so much room.
fn same_text(whole: &Result<String, Refusal>, answer: &Result<String, Refusal>, room: usize) {
    match answer {
        Err(refusal) if refusal.number == 21 => {}
        Err(refusal) if refusal.number == 22 => assert!(room < whole.as_ref().expect("there is a text").len()),
        answer => assert_eq!(whole, answer),
    }
}

/// Random numbers from a seed (xorshift64*).
pub struct Random(pub u64);

impl Random {
    pub fn next(&mut self) -> u64 {
        self.0 ^= self.0 >> 12;
        self.0 ^= self.0 << 25;
        self.0 ^= self.0 >> 27;
        self.0.wrapping_mul(0x2545_F491_4F6C_DD1D)
    }

    pub fn below(&mut self, bound: usize) -> usize {
        ((self.next() >> 16) % bound as u64) as usize
    }
}
