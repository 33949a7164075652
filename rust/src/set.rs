//! Sets of catalogues, for several text domains and languages.

use std::alloc::{handle_alloc_error, Layout};
use std::fmt;
use std::path::Path;

use crate::catalogue::{name_of, Catalogue};
use crate::languages::{Languages, OwnedLanguages};
use crate::names::{Domain, Name};
use crate::question::Question;
use crate::refused::Refused;
use crate::sys;

/// Catalogues, each for a text domain and a locale.
///
/// A set never changes: [`with`](Set::with) returns a new one, which shares all its other catalogues with the old one.
/// Cloning a set increments a reference count. To replace catalogues while threads use them, use a
/// [`Store`](crate::Store).
///
/// ```
/// use kobdzila::{Catalogue, Domain, Options, Set};
///
/// let fr = Catalogue::from_po(b"msgid \"Winter\"\nmsgstr \"Hiver\"\n", Options::new())?;
/// let set = Set::new().with(Domain("garden"), "fr", &fr)?;
/// assert_eq!(set.languages(Domain("garden"), "fr_CA:de").gettext("Winter"), "Hiver");
/// # Ok::<(), kobdzila::Refused>(())
/// ```
///
/// # Look-ups
///
/// [`languages`](Set::languages) resolves a list of locales, separated by `:` as in the environment variable
/// `LANGUAGE`; the look-ups are methods of what it returns. The first locale whose catalogue has the message provides
/// the translation and the plural rule. `fr_CA` also stands for `fr` after it, and `C` and `POSIX` end the list. An
/// answer borrows the set:
///
/// ```compile_fail,E0505
/// let set = kobdzila::Set::new();
/// let answer = set.languages(kobdzila::Domain("garden"), "fr").gettext("Winter");
/// drop(set);
/// println!("{answer}"); // error: `answer` may be a string of the set
/// ```
///
/// A domain or a list of languages that no catalogue can have, such as an empty one or one with a NUL, finds nothing.
#[derive(Clone)]
#[must_use = "a set never changes: `with` and `with_installed` return another"]
pub struct Set(sys::Set);

impl Set {
    /// Returns an empty set.
    ///
    /// If memory runs out, it ends the program, as [`Box::new`] does.
    ///
    /// ```
    /// assert_eq!(kobdzila::Set::new().version(), 0);
    /// ```
    pub fn new() -> Set {
        match sys::Set::new() {
            Some(set) => Set(set),
            None => handle_alloc_error(Layout::new::<usize>()),
        }
    }

    /// Returns a new set with `catalogue` for `domain` and `locale`, in place of any other there. This set is
    /// unchanged.
    ///
    /// # Errors
    ///
    /// [`Fault::BadName`](crate::Fault::BadName) and [`Fault::Memory`](crate::Fault::Memory).
    ///
    /// ```
    /// use kobdzila::{Catalogue, Domain, Fault, Options, Set};
    ///
    /// let fr = Catalogue::from_po(b"msgid \"Winter\"\nmsgstr \"Hiver\"\n", Options::new())?;
    /// let set = Set::new().with(Domain("garden"), "fr", &fr)?;
    /// assert_eq!(set.languages(Domain("garden"), "sv:fr_CA").gettext("Winter"), "Hiver");
    /// assert_eq!(set.with(Domain("garden/beds"), "fr", &fr).unwrap_err().fault(), Fault::BadName);
    /// # Ok::<(), kobdzila::Refused>(())
    /// ```
    pub fn with(&self, domain: Domain<'_>, locale: &str, catalogue: &Catalogue) -> Result<Set, Refused> {
        Ok(Set(self.0.with(domain.0, locale, catalogue.handle())?))
    }

    /// Like [`with`](Set::with), with the catalogue of the MO file `FOLDER/LOCALE/LC_MESSAGES/DOMAIN.mo`, which is
    /// where catalogues are installed.
    ///
    /// # Errors
    ///
    /// Those of [`with`](Set::with) and of [`Catalogue::open`]. The names `.` and `..` are
    /// [`Fault::BadName`](crate::Fault::BadName) here.
    ///
    /// ```
    /// use kobdzila::{Domain, Fault, Set};
    ///
    /// let refused = Set::new().with_installed("no/such/folder", Domain("garden"), "fr").unwrap_err();
    /// assert_eq!(refused.fault(), Fault::Unreadable);
    /// ```
    pub fn with_installed(&self, folder: impl AsRef<Path>, domain: Domain<'_>, locale: &str) -> Result<Set, Refused> {
        let folder = name_of(folder.as_ref())?;
        Ok(Set(self.0.with_installed(&folder, domain.0, locale)?))
    }

    /// Returns the number of catalogues added from an empty set to this one, including replaced ones.
    ///
    /// ```
    /// use kobdzila::{Catalogue, Domain, Options, Set};
    ///
    /// let empty = Catalogue::from_po(b"", Options::new())?;
    /// let set = Set::new().with(Domain("garden"), "fr", &empty)?.with(Domain("garden"), "fr", &empty)?;
    /// assert_eq!(set.version(), 2);
    /// # Ok::<(), kobdzila::Refused>(())
    /// ```
    pub fn version(&self) -> u64 {
        self.0.version()
    }

    /// Resolves a list of languages once, for several look-ups.
    ///
    /// ```
    /// use kobdzila::{Catalogue, Domain, Options, Set};
    ///
    /// let fr = Catalogue::from_po(b"msgid \"Winter\"\nmsgstr \"Hiver\"\n", Options::new())?;
    /// let set = Set::new().with(Domain("garden"), "fr", &fr)?;
    /// let list = set.languages(Domain("garden"), "sv:fr");
    /// assert_eq!(list.gettext("Winter"), "Hiver");
    /// # Ok::<(), kobdzila::Refused>(())
    /// ```
    #[inline]
    pub fn languages<'a>(&'a self, domain: Domain<'a>, languages: &'a str) -> Languages<'a> {
        Languages(self.0.languages([domain.0, languages]))
    }

    /// Returns the translation of one message, if there is one. For several of them [`languages`](Set::languages) is
    /// faster, since it resolves the list once.
    ///
    /// ```
    /// use kobdzila::{Catalogue, Domain, Options, Question, Set};
    ///
    /// let fr = Catalogue::from_po(b"msgid \"Winter\"\nmsgstr \"Hiver\"\n", Options::new())?;
    /// let set = Set::new().with(Domain("garden"), "fr", &fr)?;
    /// assert_eq!(set.find(Domain("garden"), "de:fr", "Winter"), Some("Hiver"));
    /// assert_eq!(set.find(Domain("garden"), "de:fr", Question::new("Winter").context("bed")), None);
    /// # Ok::<(), kobdzila::Refused>(())
    /// ```
    #[inline]
    pub fn find<'q>(&self, domain: Domain<'_>, languages: &str, question: impl Into<Question<'q>>) -> Option<&str> {
        self.0.find([domain.0, languages], &question.into())
    }

    /// Returns the look-ups of a list of languages in a text domain, together with the set.
    ///
    /// ```
    /// use kobdzila::{Domain, Lookup, Set};
    ///
    /// let texts = Set::new().into_languages(Domain("garden"), "fr_CA:de");
    /// assert_eq!(texts.gettext("Winter"), "Winter");
    /// ```
    #[must_use]
    pub fn into_languages(self, domain: Domain<'_>, languages: &str) -> OwnedLanguages {
        OwnedLanguages {
            set: self,
            domain: domain.0.into(),
            languages: languages.into(),
        }
    }
}

impl Default for Set {
    fn default() -> Set {
        Set::new()
    }
}

/// Adds the catalogues in order, so the last one of a name stays.
///
/// If memory runs out, it ends the program, as [`Vec::extend`] does.
impl<'a> Extend<(Name<'a>, Catalogue)> for Set {
    fn extend<I: IntoIterator<Item = (Name<'a>, Catalogue)>>(&mut self, catalogues: I) {
        for (name, catalogue) in catalogues {
            match self.with(name.domain(), name.locale(), &catalogue) {
                Ok(set) => *self = set,
                // (a name was checked, so it can only be the memory)
                Err(_) => handle_alloc_error(Layout::new::<usize>()),
            }
        }
    }
}

impl<'a> FromIterator<(Name<'a>, Catalogue)> for Set {
    fn from_iter<I: IntoIterator<Item = (Name<'a>, Catalogue)>>(catalogues: I) -> Set {
        let mut set = Set::new();
        set.extend(catalogues);
        set
    }
}

impl fmt::Debug for Set {
    fn fmt(&self, f: &mut fmt::Formatter<'_>) -> fmt::Result {
        f.debug_struct("Set").field("version", &self.version()).finish()
    }
}
