//! Cuts items out of a Rust source by name: from the line that begins with the item's header to the brace, or the
//! semicolon, that ends it. Strings, characters and comments are stepped over, since capnpc's format strings hold
//! braces that match nothing.

/// The item of `source` whose first line begins with `header`, with the attributes and doc comments above it.
/// A header must name exactly one item, so that a changed source is noticed and not guessed at.
pub fn item<'s>(source: &'s str, header: &str) -> Result<&'s str, String> {
    let starts: Vec<usize> = line_starts(source).filter(|&at| source[at..].starts_with(header)).collect();
    match starts[..] {
        [start] => {
            let end = item_end(source, start).ok_or_else(|| format!("`{header}` has no end"))?;
            Ok(&source[with_attributes(source, start)..end])
        }
        _ => Err(format!("`{header}` begins {} lines instead of one", starts.len())),
    }
}

fn line_starts(source: &str) -> impl Iterator<Item = usize> + '_ {
    std::iter::once(0).chain(source.match_indices('\n').map(|(at, _)| at + 1))
}

/// The start of the run of attribute and doc comment lines that ends right above `start`.
fn with_attributes(source: &str, start: usize) -> usize {
    let mut first = start;
    while let Some(above) = source[..first].strip_suffix('\n') {
        let line = above.rfind('\n').map_or(0, |at| at + 1);
        let text = above[line..].trim_start();
        if !text.starts_with("#[") && !text.starts_with("///") {
            break;
        }
        first = line;
    }
    first
}

/// Just past the `}` that closes the item's outermost brace, or past its `;` outside every bracket.
fn item_end(source: &str, start: usize) -> Option<usize> {
    let bytes = source.as_bytes();
    let mut depth = 0usize;
    let mut at = start;
    while at < bytes.len() {
        let next = token_end(bytes, at);
        match bytes[at] {
            b'(' | b'[' | b'{' => depth += 1,
            b')' | b']' | b'}' => {
                depth = depth.checked_sub(1)?;
                if depth == 0 && bytes[at] == b'}' {
                    return Some(next);
                }
            }
            b';' if depth == 0 => return Some(next),
            _ => {}
        }
        at = next;
    }
    None
}

/// Just past the string, character, comment or single byte at `at`.
fn token_end(bytes: &[u8], at: usize) -> usize {
    let rest = &bytes[at..];
    match rest {
        [b'/', b'/', ..] => at + until(rest, b"\n"),
        [b'/', b'*', ..] => at + 2 + until(&rest[2..], b"*/"),
        [b'r', b'"' | b'#', ..] if at == 0 || !is_word(bytes[at - 1]) => at + raw_string(rest),
        [b'"', ..] => at + quoted(rest, b'"'),
        // A quote is a character's if it closes after one character or an escape; otherwise it is a lifetime's.
        [b'\'', b'\\', ..] | [b'\'', _, b'\'', ..] => at + quoted(rest, b'\''),
        _ => at + 1,
    }
}

fn is_word(byte: u8) -> bool {
    byte.is_ascii_alphanumeric() || byte == b'_'
}

/// The length up to and including the first `end`, or all.
fn until(rest: &[u8], end: &[u8]) -> usize {
    rest.windows(end.len()).position(|part| part == end).map_or(rest.len(), |at| at + end.len())
}

/// The length of a string or character with its quotes; a backslash hides the byte after it.
fn quoted(rest: &[u8], quote: u8) -> usize {
    let mut at = 1;
    while at < rest.len() {
        match rest[at] {
            b'\\' => at += 2,
            byte if byte == quote => return at + 1,
            _ => at += 1,
        }
    }
    rest.len()
}

/// The length of `r"..."` or `r#"..."#`; of `r#word`, of which only the hash is stepped over, 2.
fn raw_string(rest: &[u8]) -> usize {
    let hashes = rest[1..].iter().take_while(|&&byte| byte == b'#').count();
    if rest.get(1 + hashes) != Some(&b'"') {
        return 1 + hashes;
    }
    let mut end = vec![b'"'];
    end.resize(1 + hashes, b'#');
    let open = 2 + hashes;
    open + until(&rest[open..], &end)
}
