//! The library's calls are declared three times: where they are proved, in the C header, and in the Rust wrapper. All
//! three are read as text and compared: the calls, their parameters' names and types in order, and what they answer.

use std::collections::BTreeMap;
use std::fs;
use std::process::exit;

const PROVED: &str = "crates/hemmuzhan_c/src";
const HEADER: &str = "include/hemmuzhan.h";
const WRAPPER: &str = "bindings/rust/src/sys.rs";

/// Each call with its parameters, as the wrapper writes them, and at last its answer.
type Calls = BTreeMap<String, Vec<String>>;

fn read(file: &str) -> String {
    fs::read_to_string(file).unwrap_or_else(|error| panic!("cannot read {file}: {error}"))
}

/// The declarations in a source: what stands before each name, the name, its parameters, and what stands behind.
fn declared<'a>(source: &'a str, before: &'a str) -> impl Iterator<Item = (&'a str, Vec<&'a str>, &'a str)> {
    source.split(before).skip(1).filter(|rest| rest.starts_with("hemmuzhan_")).map(|rest| {
        let (name, rest) = rest.split_once('(').expect("a parameter list");
        let (parameters, rest) = rest.split_once(')').expect("the end of a parameter list");
        (name, parameters.split(',').map(str::trim).filter(|p| !p.is_empty()).collect(), rest)
    })
}

fn answer(behind: &str) -> String {
    let answer = behind.trim_start().strip_prefix("->").expect("an answer's type").trim_start();
    answer.chars().take_while(|c| c.is_alphanumeric()).collect()
}

/// A list goes over as its address and its length: of bytes, or of places.
fn proved_parameter(parameter: &str) -> Vec<String> {
    let (name, kind) = parameter.split_once(": ").expect("a name and a type");
    let (pointer, lent) = match (kind.strip_prefix("&mut "), kind.strip_prefix('&')) {
        (Some(lent), _) => ("*mut", lent),
        (None, Some(lent)) => ("*const", lent),
        (None, None) => return vec![parameter.to_string()],
    };
    match lent.strip_prefix('[').and_then(|list| list.strip_suffix(']')) {
        Some("u8") => vec![format!("{name}: {pointer} u8"), format!("{name}_length: usize")],
        Some(item) => vec![format!("{name}: {pointer} {item}"), format!("{name}_places: usize")],
        None => vec![format!("{name}: {pointer} {lent}")],
    }
}

fn proved() -> Calls {
    let mut calls = Calls::new();
    for file in fs::read_dir(PROVED).expect("the library's sources") {
        let file = file.expect("a source").path();
        let source = read(file.to_str().expect("a file's name"));
        for (name, parameters, behind) in declared(&source, "pub extern \"C\" fn ") {
            let mut all: Vec<String> = parameters.into_iter().flat_map(proved_parameter).collect();
            all.push(answer(behind));
            calls.insert(name.to_string(), all);
        }
    }
    calls
}

fn rust_type(c: &str) -> &str {
    match c {
        "size_t" => "usize",
        "uint8_t" => "u8",
        "uint16_t" => "u16",
        "uint64_t" => "u64",
        _ => c,
    }
}

fn header_parameter(parameter: &str) -> String {
    let words: Vec<&str> = parameter.split_whitespace().collect();
    match words[..] {
        ["const", kind, name] => format!("{}: *const {}", name.trim_start_matches('*'), rust_type(kind)),
        [kind, name] if name.starts_with('*') => format!("{}: *mut {}", &name[1..], rust_type(kind)),
        [kind, name] => format!("{name}: {}", rust_type(kind)),
        _ => parameter.to_string(),
    }
}

fn header() -> Calls {
    let source = read(HEADER);
    let one = |(name, parameters, _): (&str, Vec<&str>, &str)| {
        let mut all: Vec<String> = parameters.into_iter().map(header_parameter).collect();
        all.push("u8".to_string());
        (name.to_string(), all)
    };
    declared(&source, "\nuint8_t ").map(one).collect()
}

fn wrapper() -> Calls {
    let source = read(WRAPPER);
    let one = |(name, parameters, behind): (&str, Vec<&str>, &str)| {
        let mut all: Vec<String> = parameters.into_iter().map(str::to_string).collect();
        all.push(answer(behind));
        (name.to_string(), all)
    };
    declared(&source, "pub fn ").map(one).collect()
}

pub fn compare() {
    let proved = proved();
    for (file, calls) in [(HEADER, header()), (WRAPPER, wrapper())] {
        if calls != proved {
            println!("compare-library: {file} declares\n{calls:#?}\nwhere {PROVED} has\n{proved:#?}");
            exit(1)
        }
    }
    println!("compare-library: header, wrapper and proved source declare the same {} calls", proved.len());
}
