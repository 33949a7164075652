//! A PO text of the plainest kind: enough for tests of borrows.

use crate::{
    KOB_PO_BAD_ESCAPE, KOB_PO_BAD_ORDER, KOB_PO_BAD_WORD, KOB_PO_DUPLICATE, KOB_PO_NOT_UTF8, KOB_PO_OPEN_STRING,
};

/// A message, each of whose strings is an allocation of its own.
#[derive(Clone, Default)]
pub struct Entry {
    pub context: Option<Box<str>>,
    pub msgid: Box<str>,
    pub plural: Option<Box<str>>,
    pub forms: Vec<Box<str>>,
}

/// A fault, and its line.
pub type Fault = (u32, u32);

pub fn entries_of(bytes: &[u8], keeps_fuzzy: bool) -> Result<Vec<Entry>, Fault> {
    let text = std::str::from_utf8(bytes).map_err(|_| (KOB_PO_NOT_UTF8, 1))?;
    let (mut entries, mut entry, mut is_fuzzy, mut is_open) = (Vec::new(), Entry::default(), false, false);
    let mut last: Option<Part> = None;
    for (line, number) in text.lines().zip(1..) {
        let line = line.trim();
        let begins = line.starts_with("msgctxt") || line.starts_with("msgid \"");
        if begins && !entry.forms.is_empty() {
            finish(&mut entries, &mut entry, is_fuzzy && !keeps_fuzzy, number - 1)?;
            (is_fuzzy, is_open, last) = (false, false, None);
        }
        match line.split_once(' ').unwrap_or((line, "")) {
            ("", _) => {}
            (word, rest) if word.starts_with('#') => is_fuzzy |= rest.contains("fuzzy"),
            (word, rest) if word.starts_with("msg") => {
                let part = part_of(word).ok_or((KOB_PO_BAD_WORD, number))?;
                if part == Part::Msgid && is_open {
                    return Err((KOB_PO_BAD_ORDER, number));
                }
                is_open |= part == Part::Msgid;
                put(&mut entry, part, true, &string(rest, number)?);
                last = Some(part);
            }
            _ if line.starts_with('"') => {
                let part = last.ok_or((KOB_PO_BAD_ORDER, number))?;
                put(&mut entry, part, false, &string(line, number)?);
            }
            _ => return Err((KOB_PO_BAD_WORD, number)),
        }
    }
    if is_open {
        let line = text.lines().count() as u32;
        if entry.forms.is_empty() {
            return Err((KOB_PO_BAD_ORDER, line));
        }
        finish(&mut entries, &mut entry, is_fuzzy && !keeps_fuzzy, line)?;
    }
    entries.sort_by(|one, other| key(one).cmp(&key(other)));
    Ok(entries)
}

#[derive(Clone, Copy, PartialEq, Eq)]
enum Part {
    Context,
    Msgid,
    Plural,
    Form,
}

fn part_of(word: &str) -> Option<Part> {
    match word {
        "msgctxt" => Some(Part::Context),
        "msgid" => Some(Part::Msgid),
        "msgid_plural" => Some(Part::Plural),
        _ if word.starts_with("msgstr") => Some(Part::Form),
        _ => None,
    }
}

/// Adds the first string of a part, or another one.
fn put(entry: &mut Entry, part: Part, is_first: bool, text: &str) {
    let joined = |old: Option<&str>| format!("{}{text}", old.unwrap_or("")).into_boxed_str();
    match part {
        Part::Context => entry.context = Some(joined(entry.context.as_deref())),
        Part::Msgid => entry.msgid = joined(Some(&entry.msgid)),
        Part::Plural => entry.plural = Some(joined(entry.plural.as_deref())),
        Part::Form if is_first => entry.forms.push(joined(None)),
        Part::Form => {
            let form = entry.forms.pop();
            entry.forms.push(joined(form.as_deref()));
        }
    }
}

/// The text of a string in quotes.
fn string(text: &str, line: u32) -> Result<String, Fault> {
    let inner = text.strip_prefix('"').and_then(|it| it.strip_suffix('"'));
    let (mut out, mut rest) = (String::new(), inner.ok_or((KOB_PO_OPEN_STRING, line))?.chars());
    while let Some(character) = rest.next() {
        out.push(match character {
            '\\' => match rest.next() {
                Some('n') => '\n',
                Some('t') => '\t',
                Some(other @ ('"' | '\\')) => other,
                _ => return Err((KOB_PO_BAD_ESCAPE, line)),
            },
            other => other,
        });
    }
    Ok(out)
}

fn finish(entries: &mut Vec<Entry>, entry: &mut Entry, is_dropped: bool, line: u32) -> Result<(), Fault> {
    let entry = std::mem::take(entry);
    if entries.iter().any(|it| key(it) == key(&entry)) {
        return Err((KOB_PO_DUPLICATE, line));
    }
    let is_translated = entry.forms.iter().any(|it| !it.is_empty());
    if is_translated && (!is_dropped || entry.msgid.is_empty()) {
        entries.push(entry);
    }
    Ok(())
}

/// What entries are sorted by.
pub fn key(entry: &Entry) -> Vec<u8> {
    let context = entry
        .context
        .as_ref()
        .map_or_else(String::new, |it| format!("{it}\u{4}"));
    format!("{context}{}", entry.msgid).into_bytes()
}
