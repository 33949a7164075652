//! Tests of the crate against the library. With Miri, which can't call it, those that the stand-in of `kobdzila-sys`
//! answers.

mod entries;
#[cfg(not(miri))]
mod files;
mod generic;
mod lookups;
#[cfg(feature = "macros")]
mod messages;
#[cfg(not(miri))]
mod plural_rules;
mod publishing;
#[cfg(not(miri))]
mod refusals;
#[cfg(all(feature = "session", not(miri)))]
mod sessions;
mod sets;
mod stores;
mod threads;
#[cfg(all(feature = "watch", not(miri)))]
mod watches;

use kobdzila::{Catalogue, Options};

/// The catalogue of a PO text that has to be accepted.
fn compiled(text: &str) -> Catalogue {
    let options = Options::new().checked(true);
    Catalogue::from_po(text.as_bytes(), options).unwrap_or_else(|why| panic!("line {:?}: {why}", why.line()))
}

/// Six messages in French: plain, plural, both in contexts, one whose translation is its msgid's, and the header.
const GARDEN: &str = r#"
msgid ""
msgstr "Content-Type: text/plain; charset=UTF-8\n"
"Plural-Forms: nplurals=2; plural=n>1;\n"

msgid "Winter"
msgstr "Hiver"

msgid "tomato"
msgid_plural "tomatoes"
msgstr[0] "tomate"
msgstr[1] "tomates"

msgctxt "menu"
msgid "Open"
msgstr "Ouvrir"

msgctxt ""
msgid "Open"
msgstr "Ouvert"

msgctxt "bed"
msgid "row"
msgid_plural "rows"
msgstr[0] "rangée"
msgstr[1] "rangées"
"#;
