//! The cutter finds the end of an item whatever its strings, characters and comments hold.

#[path = "../build/cut.rs"]
mod cut;

const SOURCE: &str = r##"//! A file.
use other::thing;

/// Braces that match nothing.
#[inline]
fn open<'a>(text: &'a str) -> String {
    // an opening { in a comment
    let quote = '{';
    let escaped = '\'';
    format!("{text} {{ \" {{ \\") + r#"}"}"# + &quote.to_string()
}

fn opened() {}

const TABLE: &[&str] = &["a;", "b}"];

macro_rules! made(
    ($x:ident) => ( format!("}", $x) )
);

struct Unit;
"##;

#[test]
fn an_item_ends_at_its_own_brace() {
    let item = cut::item(SOURCE, "fn open<").unwrap();
    assert!(item.starts_with("/// Braces that match nothing.\n#[inline]\nfn open<'a>"));
    assert!(item.ends_with("&quote.to_string()\n}"));
    assert_eq!(cut::item(SOURCE, "fn opened(").unwrap(), "fn opened() {}");
}

#[test]
fn an_item_without_braces_ends_at_its_semicolon() {
    assert_eq!(cut::item(SOURCE, "const TABLE").unwrap(), "const TABLE: &[&str] = &[\"a;\", \"b}\"];");
    assert_eq!(cut::item(SOURCE, "struct Unit").unwrap(), "struct Unit;");
    assert!(cut::item(SOURCE, "macro_rules! made(").unwrap().ends_with("\n);"));
}

#[test]
fn a_header_names_exactly_one_item() {
    assert!(cut::item(SOURCE, "fn absent(").is_err());
    assert!(cut::item(SOURCE, "fn open").is_err());
}
