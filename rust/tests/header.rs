//! Compares the faults of `src/refused.rs` with those of `kobdzila.h`, as texts.
//!
//! The header is the repository's, or that of the variable `KOBDZILA_HEADER`. The crate alone has none to compare with.

use std::collections::BTreeMap;
use std::path::Path;

const REFUSED: &str = include_str!("../src/refused.rs");

/// The lines of the header's `enum kob_fault`; `None` if there is no header.
fn faults() -> Option<String> {
    let name = std::env::var("KOBDZILA_HEADER")
        .unwrap_or_else(|_| concat!(env!("CARGO_MANIFEST_DIR"), "/../include/kobdzila.h").to_string());
    if !Path::new(&name).exists() {
        eprintln!("there is no {name} to compare with");
        return None;
    }
    let text = std::fs::read_to_string(&name).unwrap();
    let faults = text.split("enum kob_fault {").nth(1).unwrap();
    Some(faults.split("};").next().unwrap().to_string())
}

/// The names and numbers of lines such as `NAME = 1,`.
fn numbered(lines: &str) -> BTreeMap<&str, u32> {
    let number_of = |rest: &str| rest.trim_start().split([',', ' ']).next()?.trim().parse().ok();
    lines
        .lines()
        .filter_map(|line| line.split_once('='))
        .filter_map(|(name, rest)| Some((name.trim(), number_of(rest)?)))
        .collect()
}

/// KOB_PO_NOT_UTF8 as PoNotUtf8.
fn variant(constant: &str) -> String {
    let words = constant.trim_start_matches("KOB_").split('_');
    words
        .map(|word| format!("{}{}", &word[..1], word[1..].to_lowercase()))
        .collect()
}

#[test]
fn faults_are_those_of_the_header() {
    let faults = match faults() {
        Some(faults) => faults,
        None => return,
    };
    let mut wanted: BTreeMap<String, u32> = numbered(&faults)
        .into_iter()
        .map(|(name, number)| (variant(name), number))
        .collect();
    assert_eq!(wanted.remove("NoFault"), Some(0));
    let table = REFUSED
        .split("\nfaults! {")
        .nth(1)
        .unwrap()
        .split("\n}")
        .next()
        .unwrap();
    let ours = numbered(table)
        .into_iter()
        .map(|(name, number)| (name.to_string(), number))
        .collect();
    assert_eq!(wanted, ours);
}
