//! Heads of exported functions, read from C, from Rust and from Rattle. Types are noted in Rust's way.

use std::collections::BTreeMap;

/// The parameters by name and type, and the type of the result.
#[derive(Clone, Debug, PartialEq)]
pub struct Head {
    pub parameters: Vec<(String, String)>,
    pub result: String,
}

/// Heads by the functions' names.
pub type Heads = BTreeMap<String, Head>;

/// What every exported function's name begins with.
const PREFIX: &str = "kitlubas_";

/// The heads that a header declares.
pub fn of_c(source: &str) -> Heads {
    let mut heads = Heads::new();
    for statement in without_comments(source).split([';', '{', '}']) {
        let Some((start, parameters)) = statement.split_once('(') else { continue };
        let Some((result, name)) = start.rsplit_once(|c: char| c.is_whitespace()) else { continue };
        if name.starts_with(PREFIX) {
            let parameters = parameters.trim().strip_suffix(')').expect("a declaration ends after its parameters");
            let parameters = parts(parameters).map(c_parameter).collect();
            heads.insert(name.to_string(), Head { parameters, result: c_type(result) });
        }
    }
    heads
}

/// The constants that a header numbers.
pub fn constants(source: &str) -> BTreeMap<String, u64> {
    let source = without_comments(source);
    let numbered = source.split([',', '{', '}']).filter_map(|part| part.split_once('='));
    numbered
        .map(|(name, number)| (name.trim().to_string(), number.trim().parse().expect("a constant's number")))
        .collect()
}

/// A header without its comments and the lines of its preprocessor.
fn without_comments(source: &str) -> String {
    let mut kept = String::new();
    let mut rest = source;
    while let Some((before, after)) = rest.split_once("/*") {
        kept += before;
        rest = after.split_once("*/").expect("a comment ends").1;
    }
    kept += rest;
    kept.lines().filter(|line| !line.starts_with('#')).collect::<Vec<_>>().join("\n")
}

fn c_parameter(parameter: &str) -> (String, String) {
    let at = parameter.rfind([' ', '*']).expect("a parameter has a type and a name") + 1;
    (parameter[at..].to_string(), c_type(&parameter[..at]))
}

fn c_type(typ: &str) -> String {
    let typ = typ.trim();
    let Some(target) = typ.strip_suffix('*') else { return number_type(typ).to_string() };
    match target.trim().strip_prefix("const ") {
        Some(target) => format!("*const {}", number_type(target)),
        None => format!("*mut {}", number_type(target.trim())),
    }
}

fn number_type(typ: &str) -> &str {
    match typ {
        "uint8_t" => "u8",
        "uint16_t" => "u16",
        "uint32_t" => "u32",
        "uint64_t" => "u64",
        "size_t" => "usize",
        "bool" => "bool",
        _ => panic!("a type that no exported function has: {typ}"),
    }
}

/// The heads that Rust declares.
pub fn of_rust(source: &str) -> Heads {
    rust_heads(source, "pub fn ", |name, typ| vec![(name.to_string(), typ.to_string())])
}

/// The heads that Rattle defines: a slice is passed as its address and its length.
pub fn of_rattle(source: &str) -> Heads {
    rust_heads(source, "pub extern \"C\" fn ", |name, typ| {
        let slice = |typ: &str, element: &str| {
            vec![(name.to_string(), format!("{typ} {element}")), (format!("{name}_len"), "usize".into())]
        };
        let element = |start: &str| typ.strip_prefix(start)?.strip_suffix(']');
        match (element("&mut ["), element("&["), typ.strip_prefix("&mut ")) {
            (Some(element), _, _) => slice("*mut", element),
            (_, Some(element), _) => slice("*const", element),
            (_, _, Some(target)) => vec![(name.to_string(), format!("*mut {target}"))],
            _ => vec![(name.to_string(), typ.to_string())],
        }
    })
}

/// The heads of the exported functions that begin with these words; `passed` says what a parameter is passed as.
fn rust_heads(source: &str, start: &str, passed: impl Fn(&str, &str) -> Vec<(String, String)>) -> Heads {
    let source: String = source.lines().map(|line| line.split("//").next().unwrap_or_default()).collect();
    let mut heads = Heads::new();
    for rest in source.split(start).skip(1).filter(|rest| rest.starts_with(PREFIX)) {
        let (name, rest) = rest.split_once('(').expect("a name stands before the parameters");
        let (parameters, rest) = rest.split_once(')').expect("the parameters end");
        let rest = rest.trim_start().strip_prefix("->").expect("every exported function has a result").trim_start();
        let result = rest.split([' ', ';', '{']).next().expect("there is a first word");
        let pair = |parameter: &'_ str| {
            let (name, typ) = parameter.split_once(": ").expect("a parameter has a name and a type");
            passed(name, typ)
        };
        let parameters = parts(parameters).flat_map(pair).collect();
        heads.insert(name.to_string(), Head { parameters, result: result.to_string() });
    }
    heads
}

/// What stands between commas.
fn parts(list: &str) -> impl Iterator<Item = &str> {
    list.split(',').map(str::trim).filter(|part| !part.is_empty())
}
