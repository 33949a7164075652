//! Compares the declarations of `src/lib.rs` with `kobdzila.h`, as texts: the crate declares each function, struct and
//! constant of the header, and no others, with the same names and types.
//!
//! The header is the repository's, or that of the variable `KOBDZILA_HEADER`. The crate alone has none to compare with.

use std::collections::{BTreeMap, BTreeSet};
use std::path::Path;

const SYS: &str = include_str!("../src/lib.rs");

/// The header, without its comments and lines of the preprocessor; `None` if there is none.
fn header() -> Option<String> {
    let name = std::env::var("KOBDZILA_HEADER")
        .unwrap_or_else(|_| concat!(env!("CARGO_MANIFEST_DIR"), "/../../include/kobdzila.h").to_string());
    if !Path::new(&name).exists() {
        eprintln!("there is no {name} to compare with");
        return None;
    }
    let mut text = std::fs::read_to_string(&name).unwrap();
    while let Some(start) = text.find("/*") {
        let end = start + text[start..].find("*/").expect("a comment isn't closed") + 2;
        text.replace_range(start..end, " ");
    }
    let code = text
        .lines()
        .filter(|it| !it.starts_with('#') && !it.starts_with("extern"));
    Some(code.collect::<Vec<_>>().join("\n"))
}

/// The text between `start` and the next `end` after it, for each `start`.
fn between<'a>(text: &'a str, start: &'a str, end: &'a str) -> impl Iterator<Item = &'a str> {
    text.split(start)
        .skip(1)
        .map(move |rest| rest.split(end).next().unwrap_or(""))
}

/// A C declarator as (name, Rust type): `const kob_set *set` is (set, *const kob_set).
fn declared(words: &str) -> (String, String) {
    let start = words.trim_end().rfind([' ', '*']).map_or(0, |it| it + 1);
    let (kind, name) = words.trim_end().split_at(start);
    (name.to_string(), rust_type(kind))
}

/// The type of Rust that is a type of C, of those that the header has.
fn rust_type(c: &str) -> String {
    let is_const = c.trim_start().starts_with("const ");
    let bare = c.replace('*', " ").replace("const ", "");
    let bare = bare.split_whitespace().collect::<Vec<_>>().join(" ");
    let name = match bare.as_str() {
        "char" => "c_char",
        "void" => "c_void",
        "int" => "c_int",
        "unsigned" => "c_uint",
        "unsigned long long" => "c_ulonglong",
        name if name.starts_with("enum ") => "c_uint",
        "size_t" => "usize",
        other => other,
    };
    match (c.contains('*'), is_const) {
        (false, _) => name.to_string(),
        (true, true) => format!("*const {name}"),
        (true, false) => format!("*mut {name}"),
    }
}

/// The functions of the header, each as Rust declares it, without blanks.
fn functions_of_c(header: &str) -> BTreeMap<String, String> {
    let outside = header
        .split('}')
        .map(|it| it.split('{').next().unwrap_or(""))
        .collect::<String>();
    let mut found = BTreeMap::new();
    for declaration in outside.split(';').filter(|it| it.contains('(')) {
        let (head, rest) = declaration.split_once('(').unwrap();
        let words = rest.trim_end().trim_end_matches(')');
        let (name, result) = declared(&head.replace('\n', " "));
        let words: Vec<String> = words
            .split(',')
            .filter(|it| it.trim() != "void")
            .map(|it| declared(&it.replace('\n', " ")))
            .map(|(name, kind)| format!("{name}: {kind}"))
            .collect();
        let result = if result == "c_void" {
            String::new()
        } else {
            format!(" -> {result}")
        };
        found.insert(
            name.clone(),
            squeezed(&format!("fn {name}({}){result}", words.join(", "))),
        );
    }
    found
}

/// A text without blanks, and without the comma after the last item of a list.
fn squeezed(text: &str) -> String {
    let text: String = text.split_whitespace().collect();
    text.replace(",)", ")")
}

#[test]
fn functions_are_those_of_the_header() {
    let header = match header() {
        Some(header) => header,
        None => return,
    };
    let wanted = functions_of_c(&header);
    assert!(wanted.len() >= 60, "the header has only {:?}", wanted.keys());
    let block = between(SYS, "extern \"C\" {", "\n}").next().unwrap();
    let declared: BTreeSet<String> = block
        .split(';')
        .map(|it| squeezed(it).trim_start_matches("pub").to_string())
        .filter(|it| !it.is_empty())
        .collect();
    assert_eq!(declared, wanted.into_values().collect());
}

/// A field by its declarator of C, which is a name or `name[LENGTH]`, and the type before it.
fn field(declarator: &str, kind: &str) -> String {
    match declarator.split_once('[') {
        Some((name, length)) => format!("{name}: [{kind}; {}]", length.trim_end_matches(']')),
        None => format!("{declarator}: {kind}"),
    }
}

/// The fields of a struct of the header, each with its type of Rust: `kob_text a, b;` is two.
fn fields_of_c(body: &str) -> String {
    let mut fields = Vec::new();
    for line in body.split(';').filter(|it| !it.trim().is_empty()) {
        let mut names = line.split(',');
        let (first, kind) = declared(&names.next().unwrap().replace('\n', " "));
        fields.push(field(&first, &kind));
        fields.extend(names.map(|name| field(name.trim(), &kind)));
    }
    squeezed(&fields.join(","))
}

#[test]
fn structs_are_those_of_the_header() {
    let header = match header() {
        Some(header) => header,
        None => return,
    };
    let wanted: BTreeMap<&str, &str> = header
        .split("typedef struct")
        .filter_map(|it| it.split_once('{'))
        .filter(|(head, _)| !head.contains(';'))
        .filter_map(|(_, it)| it.split_once('}'))
        .map(|(body, rest)| (rest.split(';').next().unwrap().trim(), body))
        .collect();
    assert!(wanted.len() >= 7, "{wanted:?}");
    let ours = between(SYS, "#[derive(Clone, Copy, Debug)]\npub struct ", " {");
    assert_eq!(ours.collect::<BTreeSet<_>>(), wanted.keys().copied().collect());
    for (name, body) in wanted {
        let start = format!("#[repr(C)]\n#[derive(Clone, Copy, Debug)]\npub struct {name} {{");
        let ours = between(SYS, &start, "}").next().unwrap_or("").replace("pub ", "");
        assert_eq!(squeezed(&ours).trim_end_matches(','), fields_of_c(body), "{name}");
    }
}

/// The constants of the header's enums.
fn constants_of_c(header: &str) -> BTreeMap<&str, u32> {
    let mut found = BTreeMap::new();
    for body in header.split("enum ").filter_map(|it| it.split_once('{')) {
        if body.0.trim().split(' ').count() != 1 {
            continue;
        }
        let mut next = 0;
        for constant in body
            .1
            .split('}')
            .next()
            .unwrap()
            .split(',')
            .filter(|it| !it.trim().is_empty())
        {
            let (name, number) = constant.split_once('=').unwrap_or((constant, ""));
            next = number.trim().parse().unwrap_or(next);
            found.insert(name.trim(), next);
            next += 1;
        }
    }
    found
}

#[test]
fn constants_are_those_of_the_header() {
    let header = match header() {
        Some(header) => header,
        None => return,
    };
    let wanted = constants_of_c(&header);
    let ours: BTreeMap<&str, u32> = between(SYS, "pub const ", ";")
        .map(|it| it.split_once(": c_uint = ").unwrap())
        .map(|(name, number)| (name, number.parse().unwrap()))
        .collect();
    assert!(ours.len() >= 87, "{ours:?}");
    assert_eq!(ours, wanted);
}
