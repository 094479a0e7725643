//! The calls and constants are declared here as include/vayemuku.h declares them.

use std::collections::BTreeMap;
use vayemuku_sys::{vayemuku_default_bins, Call};

/// The types of a call's parameters, in order, and of what it returns.
type Types = (Vec<String>, String);

/// The text of the header.
const HEADER: &str = include_str!("../../../include/vayemuku.h");

/// The header without comments and lines of the preprocessor.
fn header() -> String {
    let mut bare = String::new();
    for part in HEADER.split("/*") {
        bare.push_str(part.split_once("*/").map_or(part, |(_, after)| after));
    }
    bare.lines().filter(|line| !line.starts_with('#')).collect::<Vec<_>>().join(" ")
}

/// A C type in Rust; a parameter's name may follow it.
fn in_rust(declared: &str) -> String {
    let words: Vec<&str> = declared.split_whitespace().collect();
    let (constant, words) = match words.as_slice() {
        ["const", rest @ ..] => (true, rest),
        rest => (false, rest),
    };
    let name = words[1..].concat();
    let plain = match words[0] {
        "float" => "f32",
        "double" => "f64",
        "int32_t" => "i32",
        "uint32_t" => "u32",
        "uint64_t" => "u64",
        "size_t" => "usize",
        other => panic!("{other} in {declared}"),
    };
    let pointer = if constant { "*const" } else { "*mut" };
    match (name.starts_with('*'), name.matches("[20]").count()) {
        (false, 0) => plain.to_string(),
        (true, 0) | (false, 1) => format!("{pointer} {plain}"),
        (false, 2) => format!("{pointer} [{plain}; 20]"),
        _ => panic!("{declared}"),
    }
}

/// The calls of the header.
fn of_header() -> BTreeMap<String, Types> {
    let mut calls = BTreeMap::new();
    for declared in header().split(';').filter(|part| part.contains("vayemuku_")) {
        let (before, parameters) = declared.split_once('(').unwrap();
        // an opening brace comes before the first
        let (returned, name) = before.rsplit_once(' ').unwrap();
        let returned = returned.rsplit('{').next().unwrap();
        let parameters = parameters.trim_end().strip_suffix(')').unwrap();
        let types = parameters.split(',').filter(|parameter| parameter.trim() != "void").map(in_rust).collect();
        calls.insert(name.to_string(), (types, in_rust(returned)));
    }
    calls
}

/// The calls of declared.rs.
fn of_declared() -> BTreeMap<String, Types> {
    let mut calls = BTreeMap::new();
    for declared in include_str!("../src/declared.rs").split("fn vayemuku_").skip(1) {
        let (name, rest) = declared.split_once('(').unwrap();
        let (parameters, rest) = rest.split_once(") -> ").unwrap();
        let returned = rest.split_once(';').unwrap().0;
        let parameters = parameters.split(',').map(str::trim).filter(|parameter| !parameter.is_empty());
        let types = parameters.map(|parameter| parameter.split_once(": ").unwrap().1.to_string()).collect();
        calls.insert(format!("vayemuku_{name}"), (types, returned.to_string()));
    }
    calls
}

/// The constants of the header, with their values.
fn constants_of_header() -> BTreeMap<String, u64> {
    let mut constants = BTreeMap::new();
    for defined in HEADER.lines().filter_map(|line| line.strip_prefix("#define ")) {
        match defined.split_whitespace().collect::<Vec<_>>()[..] {
            // the include guard has no value
            ["VAYEMUKU_H"] => {}
            [name, value] => {
                constants.insert(name.to_string(), value.trim_end_matches('u').parse().unwrap());
            }
            _ => panic!("{defined}"),
        }
    }
    constants
}

/// The constants of declared.rs, with their values.
fn constants_of_declared() -> BTreeMap<String, u64> {
    let mut constants = BTreeMap::new();
    for declared in include_str!("../src/declared.rs").split("pub const VAYEMUKU_").skip(1) {
        let (name, rest) = declared.split_once(": ").unwrap();
        let value = rest.split_once(" = ").unwrap().1.split_once(';').unwrap().0;
        constants.insert(format!("VAYEMUKU_{name}"), value.replace('_', "").parse().unwrap());
    }
    constants
}

#[test]
fn constants_are_the_headers() {
    let header = constants_of_header();
    assert!(header.len() >= 2, "{}", header.len());
    assert_eq!(constants_of_declared(), header);
}

/// The call is proved to give the number of a fresh builder.
#[test]
fn the_bins_of_the_header_are_the_builders() {
    assert_eq!(constants_of_header()["VAYEMUKU_BINS"], vayemuku_default_bins() as u64);
}

#[test]
fn declarations_are_the_headers() {
    let (header, declared) = (of_header(), of_declared());
    assert!(header.len() >= 39, "{}", header.len());
    for (name, types) in &header {
        assert_eq!(declared.get(name), Some(types), "{name}");
    }
    assert_eq!(declared.keys().collect::<Vec<_>>(), header.keys().collect::<Vec<_>>());
}

#[test]
fn the_calls_that_can_refuse_are_those_of_the_header() {
    // such a call returns a number and writes its results elsewhere
    let refuses = |(types, returned): &Types| returned == "u32" && types.iter().any(|one| one.starts_with("*mut"));
    let header = of_header();
    let wanted: Vec<&str> = header.iter().filter(|(_, types)| refuses(types)).map(|(name, _)| name.as_str()).collect();
    let mut names: Vec<&str> = Call::ALL.iter().map(|call| call.name()).collect();
    names.sort();
    assert_eq!(names, wanted);
}
