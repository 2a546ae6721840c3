//! What a sheet's line has at a column, in words for people: by the line's letter, and in the order of its columns.
#![forbid(unsafe_code)]

/// What is expected of a number whose 21 columns begin at this one.
pub fn number(letter: u8, column: usize) -> &'static str {
    match (letter, column) {
        (b'N', 2) => "the node's id, a number of 64 bits that is not 0",
        (b'N', 23) => "the parent's id, a number of 64 bits, 0 for none",
        (b'N', 44) => "the scope id, a number of 64 bits",
        (b'N', 65) => "1 for a struct or 0 for another node",
        (b'N', 86) => "1 for a generic node or 0 for another",
        (b'N', 107) => "the tag count, a number of 16 bits",
        (b'N', 128) => "the tag offset, a number of 32 bits",
        (b'F', 2) => "the offset, a number of 32 bits",
        (b'F' | b'G', 23) => "the discriminant value, a number of 16 bits, 65535 for none",
        (b'F', 44) => "1 for an explicit default or 0",
        (b'F', 65) => "1 for an option or 0",
        (b'G', 2) => "the group's id, a number of 64 bits that is not 0",
        (b'T', 2) => "the type's kind, a number from 0 to 18",
        (b'T', 23) => "a, which is a node's id for the kinds 15 to 17, 0 or 1 for kind 18, and 0 for others",
        (b'T', 44) => {
            "b, which is the number of S lines for the kinds 15 to 17, a parameter's scope id, and 0 for others"
        }
        (b'T', 65) => "c, which is a parameter's index, a number of 16 bits, and 0 for others",
        (b'S', 2) => "the scope id, a number of 64 bits",
        (b'S', 23) => "0 to inherit or 1 to bind",
        (b'S', 44) => "the number of bindings, which is 0 for a scope that inherits",
        (b'V', 2) => "the default's kind, a number from 0 to 18",
        (b'V', 23) => "the default's bits, a number of at most the width of its kind, 0 where that has none",
        (b'W', 2) => "a word, a number of 64 bits",
        _ => "a number",
    }
}

/// What is expected of a text or of the space before it, at its column, or behind the last number of a line without a text.
pub fn text(letter: u8, column: usize) -> &'static str {
    match (letter, column) {
        (b'R', 2) => "one space before the root",
        (b'R', 3) => "the root: 1 to 64 bytes from 33 to 126",
        (b'N', 149) => "one space before the module",
        (b'N', 150) => "the module: 1 to 128 bytes from 33 to 126",
        (b'P', 2) => "one space before the parameter's name",
        (b'P', 3) => "the parameter's name: 1 to 64 ASCII letters, digits or underscores, not digit first",
        (b'F', 86) | (b'G', 44) => "one space before the field's name",
        (b'F', 87) | (b'G', 45) => {
            "the field's name: 1 to 64 bytes, ASCII letters, digits, underscores or letters from U+00C0 to U+00FF \
             in UTF-8 but not U+00D7 or U+00F7, not digit first"
        }
        _ => "nothing more on this line",
    }
}
