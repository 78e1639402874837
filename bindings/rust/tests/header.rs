//! The C header says the same numbers, words and version as this crate.

use deruvain::{byte, raw, Class, Kind, Refusal, LARGEST_N, LARGEST_NODES, LARGEST_RECORD, VERSION};
use std::collections::HashMap;
use std::path::PathBuf;
use std::process::Command;

fn file(path: &str) -> String {
    let path = PathBuf::from(env!("CARGO_MANIFEST_DIR")).join("../..").join(path);
    std::fs::read_to_string(&path).unwrap_or_else(|error| panic!("{}: {error}", path.display()))
}

/// What the header's macros and enumerators are, by their names without DERUVAIN_.
fn names() -> HashMap<String, String> {
    let header = file("bindings/c/deruvain.h");
    let mut names = HashMap::new();
    for line in header.lines() {
        let words: Vec<&str> = line.split_whitespace().collect();
        let named = match words[..] {
            ["#define", name, value, ..] => Some((name, value)),
            [name, "=", value, ..] => Some((name, value)),
            _ => None,
        };
        if let Some((name, value)) = named.and_then(|(name, value)| Some((name.strip_prefix("DERUVAIN_")?, value))) {
            names.insert(name.to_string(), value.trim_matches(&[',', '"'][..]).to_string());
        }
    }
    names
}

/// The header's name of an enumerator: NOT_BORNE_OUT for NotBorneOut.
fn upper(name: &str) -> String {
    let mut upper = String::new();
    for letter in name.chars() {
        if letter.is_uppercase() && !upper.is_empty() {
            upper.push('_');
        }
        upper.extend(letter.to_uppercase());
    }
    upper
}

/// The name of a refusal, from `refused by 8 (NotBorneOut): ..`.
fn name_of(refusal: Refusal) -> String {
    let said = format!("{refusal:?}");
    said[said.find('(').unwrap() + 1..said.find(')').unwrap()].to_string()
}

#[test]
fn one_version() {
    assert_eq!(file("VERSION").trim_end(), VERSION, "the file VERSION and bindings/rust/Cargo.toml");
    assert_eq!(names()["VERSION"], VERSION, "bindings/c/deruvain.h and bindings/rust/Cargo.toml");
    let command = PathBuf::from(env!("CARGO_MANIFEST_DIR")).join("../../deruvain");
    let said = Command::new(command).arg("--version").output().expect("the script deruvain runs").stdout;
    assert_eq!(String::from_utf8_lossy(&said), format!("deruvain {VERSION}\n"), "./deruvain --version");
}

#[test]
fn the_largest_cube() {
    let names = names();
    let expected = [("N", LARGEST_N as usize), ("NODES", LARGEST_NODES), ("RECORD", LARGEST_RECORD)];
    for (name, value) in expected {
        assert_eq!(names[&format!("LARGEST_{name}")], value.to_string());
    }
}

#[test]
fn the_status_bytes() {
    let names = names();
    let expected = [
        ("SILENT", byte::SILENT),
        ("HEARD", byte::HEARD),
        ("OLDEST_WORKING", byte::OLDEST_WORKING),
        ("FIRST_LATE", byte::FIRST_LATE),
        ("OLDEST_LATE", byte::OLDEST_LATE),
        ("DOWN", byte::DOWN),
        ("EMPTY", byte::EMPTY),
    ];
    for (name, value) in expected {
        assert_eq!(names[&format!("BYTE_{name}")], value.to_string());
    }
    assert_eq!(names.keys().filter(|name| name.starts_with("BYTE_")).count(), expected.len());
}

#[test]
fn the_classes_and_kinds() {
    let names = names();
    for byte in 0..=255 {
        let name = format!("CLASS_{}", upper(&format!("{:?}", Class::of(byte))));
        assert_eq!(names[&name], raw::class(byte).to_string());
    }
    for number in 0..4 {
        let kind = Kind::try_from(number).unwrap();
        assert_eq!(names[&upper(&format!("{kind:?}"))], number.to_string());
        assert_eq!(u32::from(kind), number);
    }
    assert!(Kind::try_from(4).is_err());
}

#[test]
fn the_refusals() {
    let (names, header) = (names(), file("bindings/c/deruvain.h"));
    assert_eq!(names["ACCEPTED"], "0");
    assert_eq!(names.keys().filter(|name| name.starts_with("REFUSED_")).count(), Refusal::ALL.len());
    let text = header.split_whitespace().collect::<Vec<&str>>().join(" ");
    for &refusal in Refusal::ALL {
        assert_eq!(names[&format!("REFUSED_{}", upper(&name_of(refusal)))], refusal.number().to_string());
        let case = format!("case {}: return \"{refusal}\";", refusal.number());
        assert!(text.contains(&case), "the header has no {case}");
    }
}
