//! Looks up translations in GNU gettext's MO and PO files, through libkobdzila, whose core is formally verified.
//!
//! ```
//! use kobdzila::{Catalogue, Options};
//!
//! let po = br#"
//! msgid ""
//! msgstr "Plural-Forms: nplurals=2; plural=n>1;\n"
//!
//! msgid "Winter"
//! msgstr "Hiver"
//!
//! msgid "tomato"
//! msgid_plural "tomatoes"
//! msgstr[0] "tomate"
//! msgstr[1] "tomates"
//! "#;
//! let fr = Catalogue::from_po(po, Options::new())?;
//! assert_eq!(fr.gettext("Winter"), "Hiver");
//! assert_eq!(fr.ngettext("tomato", "tomatoes", 3), "tomates");
//! # Ok::<(), kobdzila::Refused>(())
//! ```
//!
//! - [`Catalogue`]: the messages of one file. It is immutable, and cloning it only increments a reference count.
//! - [`Set`]: catalogues for several text domains and languages. Its look-ups are methods of [`Languages`], a list of
//!   languages in one of its domains.
//! - [`Lookup`] and [`Catalogues`]: traits for code that doesn't care which of these provides its translations.
//! - [`Question`]: a message in a context, or its plural form for a number.
//! - [`Store`]: a set whose catalogues are replaced while threads use it. Each thread has a [`Reader`], which enters a
//!   [`Snapshot`].
//! - [`Refused`]: why a file, a PO text or a name was refused, with the line of a PO text.
//!
//! # Features
//!
//! | Feature | What it adds |
//! | --- | --- |
//! | `static`, on by default | `libkobdzila.a` becomes part of your program. Without it the program loads `libkobdzila.so.0` |
//! | `macros` | [`t!`], [`tn!`], [`tp!`] and [`tnp!`]: messages with named arguments |
//! | `languages` | [`Preferences`]: the languages of the environment, or of an Accept-Language header |
//! | `watch` | [`Watch`]: reloads a folder's catalogues when they change |
//! | `session` | [`Session`]: a client of the program catsession, for a store in a process of its own |
//!
//! None of them adds a dependency.
//!
//! The library compiles and reads files, keeps them in memory and finds messages; this crate borrows its strings and
//! copies none. The proofs cover the library's core only: this crate and its calls into C are tested.
//!
//! # Linking
//!
//! The build script of `kobdzila-sys` asks `pkg-config` for libkobdzila. If the environment variable `KOBDZILA_LIB_DIR`
//! is set, it uses the library in that folder. The library runs on 64-bit Linux.

#![deny(missing_docs)]
#![deny(unsafe_code)]
#![deny(unsafe_op_in_unsafe_fn)]
#![deny(clippy::missing_errors_doc)]
#![deny(clippy::undocumented_unsafe_blocks)]

mod catalogue;
mod entries;
mod languages;
mod lookup;
#[cfg(feature = "macros")]
#[doc(hidden)]
pub mod messages;
mod names;
#[cfg(feature = "languages")]
mod preferences;
mod question;
mod reader;
mod refused;
#[cfg(feature = "session")]
mod session;
mod set;
mod store;
#[allow(unsafe_code)]
mod sys;
#[cfg(feature = "watch")]
mod watch;

pub use catalogue::{Catalogue, Format, Options};
pub use entries::{Entries, Entry, Forms};
pub use languages::{Languages, OwnedLanguages};
pub use lookup::{Catalogues, Lookup};
#[cfg(feature = "macros")]
pub use messages::{report_mismatches, set_texts, Mismatch};
pub use names::{Domain, Name};
#[cfg(feature = "languages")]
pub use preferences::Preferences;
pub use question::Question;
pub use reader::{Notice, Reader, Snapshot, WrongStore};
pub use refused::{Fault, Refused};
#[cfg(feature = "session")]
pub use session::{Answer, Ask, LoadRefusal, Session, SessionError};
pub use set::Set;
pub use store::{PublishError, Store};
#[cfg(feature = "watch")]
pub use watch::{FileRefused, Watch, WatchOptions};

/// Compiles the example of the README as a test.
#[cfg(all(doctest, feature = "macros", feature = "languages"))]
#[doc = include_str!("../README.md")]
struct Readme;

/// Returns the version of the loaded library. Its major version is that of this crate; the rest may be newer.
///
/// ```
/// assert!(kobdzila::version().starts_with("0."));
/// ```
pub fn version() -> &'static str {
    sys::version()
}
