//! Names as capnpc makes them, and names to try.

use crate::codegen::{exact, getter_text};
use crate::context::context;
use crate::random::Random;
use crate::schema_capnp::field;
use crate::sheet::read::is_accented;
use crate::sheet::{Field, Sheet, Slot, Type, Value};

/// The ASCII bytes of a sheet's names.
pub const ALPHABET: &[u8] = b"abcdefghijklmnopqrstuvwxyzABCDEFGHIJKLMNOPQRSTUVWXYZ0123456789_";

/// The letters with accents that the names of fields have too: the 30 that Unicode calls upper case, and the 32 others.
pub const ACCENTED_CAPITALS: &str = "ÀÁÂÃÄÅÆÇÈÉÊËÌÍÎÏÐÑÒÓÔÕÖØÙÚÛÜÝÞ";
pub const ACCENTED_SMALL: &str = "ßàáâãäåæçèéêëìíîïðñòóôõöøùúûüýþÿ";

/// What stands after the name in the declaration of a default of one zero word.
const AFTER_NAME: &str = ": [::capnp::Word; 1] = [\n    ::capnp::word(0, 0, 0, 0, 0, 0, 0, 0),\n];\n";

/// The name of a field's default: `getter_text` makes it on its way, so it is taken from the declaration that
/// `getter_text` gives for a Text slot of that name.
pub fn default_name(name: &str) -> String {
    let sheet = Sheet::of(Vec::new());
    let slot = Slot {
        offset: 0,
        discriminant: field::NO_DISCRIMINANT,
        explicit: true,
        option: false,
        name: name.to_string(),
        typ: Type::Plain(12),
        value: Value { kind: 12, bits: 0 },
        words: vec![0],
    };
    let getter = getter_text(&context(&sheet), &field::Reader(&Field::Slot(slot)), true, true);
    let (_, _, declaration) = getter.expect("a Text slot with a Text default has a getter");
    let declaration = exact::stringify(&declaration.expect("an explicit default is declared"));
    let name = declaration.strip_prefix("pub(crate) static ").and_then(|rest| rest.strip_suffix(AFTER_NAME));
    name.expect("the declaration begins with its name").to_string()
}

/// The name that these bytes are, if the name helpers take it: at most 64 bytes, any of ASCII and letters with accents.
pub fn taken(bytes: &[u8]) -> Option<&str> {
    let name = str::from_utf8(bytes).ok().filter(|name| name.len() <= 64)?;
    name.chars().all(|c| c.is_ascii() || is_accented(c)).then_some(name)
}

/// All the letters with accents.
pub fn accented_letters() -> Vec<char> {
    ACCENTED_CAPITALS.chars().chain(ACCENTED_SMALL.chars()).collect()
}

/// Every name of one and two characters, with and without accents.
pub fn short() -> Vec<String> {
    let all: Vec<char> = ALPHABET.iter().map(|&byte| byte as char).chain(accented_letters()).collect();
    let one = all.iter().map(char::to_string);
    let two = all.iter().flat_map(|a| all.iter().map(move |b| format!("{a}{b}")));
    one.chain(two).collect()
}

/// Names with accents: capitals and small letters first, last and between ASCII letters, beside underscores and before a
/// digit; all capitals and all small letters with accents in a row; names of 64 bytes, two of which have 126 bytes in
/// snake case.
pub fn accents_at_bounds() -> Vec<String> {
    let mut names: Vec<String> = ["Ä", "é", "aÄ", "Äa", "ÄÄ", "_Ä", "Ä_", "__É", "É9", "aÉB", "aßB", "ÖØöø", "étatÄ"]
        .into_iter()
        .chain(["möbelÄnderung", "Übergabe", "straßeNr", ACCENTED_CAPITALS, ACCENTED_SMALL])
        .map(String::from)
        .collect();
    names.extend(["Ä", "ÿ"].map(|letter| letter.repeat(32)));
    names.extend(["a", "A"].iter().flat_map(|ascii| {
        let many = ascii.repeat(62);
        [format!("É{many}"), format!("{many}É"), format!("{many}ß")]
    }));
    names
}

/// Every keyword, with each of its letters changed in case, and with something before and after it.
pub fn keywords() -> Vec<String> {
    let mut names = Vec::new();
    for keyword in exact::RUST_KEYWORDS {
        names.push(keyword.to_string());
        names.extend([format!("{keyword}_"), format!("_{keyword}"), format!("{keyword}s"), keyword[1..].to_string()]);
        names.push(keyword[..keyword.len() - 1].to_string());
        names.push(keyword.to_ascii_uppercase());
        for at in 0..keyword.len() {
            let mut bytes = keyword.as_bytes().to_vec();
            bytes[at] = bytes[at].to_ascii_uppercase();
            names.push(String::from_utf8(bytes).expect("a keyword is ASCII"));
        }
    }
    names
}

/// An ASCII name of the given length; the capitals come in runs as well as singly.
pub fn random(random: &mut Random, length: usize) -> String {
    let capitals = b"ABCDEFGHIJKLMNOPQRSTUVWXYZ";
    match random.below(4) {
        0 => random.text(capitals, length),
        1 => random.text(b"aB_c9D", length),
        _ => random.text(ALPHABET, length),
    }
}

/// A name of the given length in bytes, in which letters with accents stand among the others.
pub fn accented(random: &mut Random, length: usize) -> String {
    let letters = accented_letters();
    let mut name = String::new();
    while name.len() < length {
        let is_ascii = name.len() + 1 == length || random.once_in(2);
        name.push(if is_ascii { *random.pick(ALPHABET) as char } else { *random.pick(&letters) });
    }
    name
}

/// A name with accents in which a byte is changed, added or missing, or which is cut or too long.
pub fn damaged(random: &mut Random) -> Vec<u8> {
    let length = random.between(1, 64);
    let mut bytes = accented(random, length).into_bytes();
    let at = random.between(0, length - 1);
    match random.below(5) {
        0 => bytes[at] = random.between(128, 255) as u8,
        1 => bytes.insert(at, random.between(128, 255) as u8),
        2 => drop(bytes.remove(at)),
        3 => bytes.truncate(at),
        _ => bytes.extend(accented(random, 65 - length).bytes()),
    }
    bytes
}
