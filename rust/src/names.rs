//! Text domains, and the names of catalogues in a set.

use std::fmt;

use crate::refused::Refused;
use crate::sys;

/// A text domain, such as the name of a program: which of a set's catalogues are searched.
///
/// It is a type of its own so that a domain and a locale can't be swapped. A program usually has one, as a constant:
///
/// ```
/// use kobdzila::{Catalogue, Domain, Options, Set};
///
/// const GARDEN: Domain<'static> = Domain("garden");
///
/// let fr = Catalogue::from_po(b"msgid \"Winter\"\nmsgstr \"Hiver\"\n", Options::new())?;
/// let set = Set::new().with(GARDEN, "fr", &fr)?;
/// assert_eq!(set.languages(GARDEN, "fr_CA:de").gettext("Winter"), "Hiver");
/// # Ok::<(), kobdzila::Refused>(())
/// ```
///
/// ```compile_fail,E0308
/// kobdzila::Set::new().languages("fr_CA:de", "garden"); // error: no domain
/// ```
///
/// Any text may be one. A call that adds a catalogue refuses one that isn't a name, and a look-up finds nothing in it.
#[derive(Clone, Copy, Debug, PartialEq, Eq, PartialOrd, Ord, Hash)]
pub struct Domain<'a>(pub &'a str);

impl fmt::Display for Domain<'_> {
    /// Writes the text.
    fn fmt(&self, f: &mut fmt::Formatter<'_>) -> fmt::Result {
        f.write_str(self.0)
    }
}

/// The text domain and the locale of a catalogue, each of them checked: what a set collects catalogues by.
///
/// ```
/// use kobdzila::{Catalogue, Domain, Name, Options, Refused, Set};
///
/// let texts = [("fr", "Hiver"), ("sv", "Vinter")];
/// let set = texts
///     .iter()
///     .map(|(locale, winter)| {
///         let po = format!("msgid \"Winter\"\nmsgstr \"{winter}\"\n");
///         let catalogue = Catalogue::from_po(po.as_bytes(), Options::new())?;
///         Ok((Name::new(Domain("garden"), locale)?, catalogue))
///     })
///     .collect::<Result<Set, Refused>>()?;
/// assert_eq!(set.languages(Domain("garden"), "sv").gettext("Winter"), "Vinter");
/// # Ok::<(), Refused>(())
/// ```
#[derive(Clone, Copy, Debug, PartialEq, Eq, PartialOrd, Ord, Hash)]
pub struct Name<'a> {
    domain: Domain<'a>,
    locale: &'a str,
}

/// The most bytes of a text domain or a locale.
const MOST_BYTES: usize = 64;

impl<'a> Name<'a> {
    /// Returns the name of the catalogue for a text domain and a locale.
    ///
    /// # Errors
    ///
    /// [`Fault::BadName`](crate::Fault::BadName) unless each is 1 to 64 letters, digits and `_ - . @ +`.
    ///
    /// ```
    /// use kobdzila::{Domain, Fault, Name};
    ///
    /// assert!(Name::new(Domain("garden"), "sr@latin").is_ok());
    /// assert_eq!(Name::new(Domain("garden/beds"), "fr").unwrap_err().fault(), Fault::BadName);
    /// ```
    pub fn new(domain: Domain<'a>, locale: &'a str) -> Result<Name<'a>, Refused> {
        if is_name(domain.0) && is_name(locale) {
            Ok(Name { domain, locale })
        } else {
            Err(sys::Refusal::bad_name().into())
        }
    }

    /// Returns the text domain.
    ///
    /// ```
    /// # use kobdzila::{Domain, Name};
    /// assert_eq!(Name::new(Domain("garden"), "fr")?.domain(), Domain("garden"));
    /// # Ok::<(), kobdzila::Refused>(())
    /// ```
    pub fn domain(&self) -> Domain<'a> {
        self.domain
    }

    /// Returns the locale.
    ///
    /// ```
    /// # use kobdzila::{Domain, Name};
    /// assert_eq!(Name::new(Domain("garden"), "fr")?.locale(), "fr");
    /// # Ok::<(), kobdzila::Refused>(())
    /// ```
    pub fn locale(&self) -> &'a str {
        self.locale
    }
}

fn is_name(text: &str) -> bool {
    let is_allowed = |it: u8| it.is_ascii_alphanumeric() || b"_-.@+".contains(&it);
    (1..=MOST_BYTES).contains(&text.len()) && text.bytes().all(is_allowed)
}
