//! Resolved lists of languages.

use std::fmt;

use crate::lookup::{look_ups, Lookup};
use crate::names::Domain;
use crate::question::Question;
use crate::set::Set;
use crate::sys;

/// A list of languages, resolved once in a text domain of a set, for many look-ups.
///
/// [`Set::languages`](crate::Set::languages) and [`Snapshot::languages`](crate::Snapshot::languages) make it. The
/// answers are those of the set with this domain and list. A call is faster, since it doesn't have to find the
/// catalogues. If the list names more than 16 catalogues of the set, each call resolves it again.
///
/// ```
/// use kobdzila::{Catalogue, Domain, Options, Set};
///
/// let fr = Catalogue::from_po(b"msgid \"Winter\"\nmsgstr \"Hiver\"\n", Options::new())?;
/// let set = Set::new().with(Domain("garden"), "fr", &fr)?;
/// let list = set.languages(Domain("garden"), "de:fr_CA");
/// assert_eq!(list.gettext("Winter"), "Hiver");
/// assert_eq!(list.gettext("Summer"), "Summer");
/// # Ok::<(), kobdzila::Refused>(())
/// ```
///
/// It borrows the set and both strings, and allocates nothing. An answer also borrows them:
///
/// ```compile_fail,E0505
/// let set = kobdzila::Set::new();
/// let list = set.languages(kobdzila::Domain("garden"), "fr");
/// drop(set);
/// println!("{}", list.gettext("Winter")); // error: the list borrows the set
/// ```
#[derive(Clone, Copy)]
pub struct Languages<'a>(pub(crate) sys::Languages<'a>);

impl<'a> Languages<'a> {
    look_ups! {
        [] [&self] self,
        "# use kobdzila::{Catalogue, Domain, Format, Options, Set};
# let fr = Catalogue::open(\"examples/fr.po\", Format::Po(Options::new()))?;
# let set = Set::new().with(Domain(\"garden\"), \"fr\", &fr)?;
# let fr = set.languages(Domain(\"garden\"), \"fr\");"
    }

    /// Returns the translation of a message, or the requested plural form, if there is one.
    ///
    /// ```
    /// # use kobdzila::{Domain, Question, Set};
    /// let set = Set::new();
    /// let list = set.languages(Domain("garden"), "fr");
    /// assert_eq!(list.find("Winter"), None);
    /// assert_eq!(list.find(Question::new("row").context("bed").number(2)), None);
    /// ```
    #[inline]
    pub fn find<'q>(&self, question: impl Into<Question<'q>>) -> Option<&'a str> {
        self.0.find(&question.into())
    }

    /// Returns the answers to several questions, in their order, as
    /// [`Catalogue::find_many`](crate::Catalogue::find_many) does.
    ///
    /// ```
    /// use kobdzila::{Catalogue, Domain, Options, Question, Set};
    ///
    /// let fr = Catalogue::from_po(b"msgid \"Winter\"\nmsgstr \"Hiver\"\n", Options::new())?;
    /// let set = Set::new().with(Domain("garden"), "fr", &fr)?;
    /// let list = set.languages(Domain("garden"), "de:fr");
    /// let answers = list.find_many(&[Question::new("Summer"), Question::new("Winter")]);
    /// assert_eq!(answers, [None, Some("Hiver")]);
    /// # Ok::<(), kobdzila::Refused>(())
    /// ```
    pub fn find_many(&self, questions: &[Question<'_>]) -> Vec<Option<&'a str>> {
        self.0.find_many(questions)
    }
}

impl fmt::Debug for Languages<'_> {
    fn fmt(&self, f: &mut fmt::Formatter<'_>) -> fmt::Result {
        f.debug_struct("Languages").finish_non_exhaustive()
    }
}

/// A list of languages in a text domain of a set, with the set: what a program keeps for its own messages.
///
/// [`Set::into_languages`](crate::Set::into_languages) makes it. It borrows nothing, may be sent and shared, and has
/// the look-ups of the trait [`Lookup`]. Each of them resolves the list; [`as_languages`](OwnedLanguages::as_languages)
/// resolves it once for several.
///
/// ```
/// use kobdzila::{Catalogue, Domain, Lookup, Options, Set};
///
/// let fr = Catalogue::from_po(b"msgid \"Winter\"\nmsgstr \"Hiver\"\n", Options::new())?;
/// let texts = Set::new().with(Domain("garden"), "fr", &fr)?.into_languages(Domain("garden"), "de:fr_CA");
/// std::thread::spawn(move || assert_eq!(texts.gettext("Winter"), "Hiver")).join().unwrap();
/// # Ok::<(), kobdzila::Refused>(())
/// ```
#[derive(Clone, Debug)]
pub struct OwnedLanguages {
    pub(crate) set: Set,
    pub(crate) domain: Box<str>,
    pub(crate) languages: Box<str>,
}

impl OwnedLanguages {
    /// Resolves the list once, for many look-ups.
    ///
    /// ```
    /// # use kobdzila::{Domain, Set};
    /// let texts = Set::new().into_languages(Domain("garden"), "fr");
    /// assert_eq!(texts.as_languages().gettext("Winter"), "Winter");
    /// ```
    #[inline]
    pub fn as_languages(&self) -> Languages<'_> {
        self.set.languages(Domain(&self.domain), &self.languages)
    }
}

impl Lookup for OwnedLanguages {
    #[inline]
    fn find(&self, question: Question<'_>) -> Option<&str> {
        self.set.find(Domain(&self.domain), &self.languages, question)
    }

    fn find_many(&self, questions: &[Question<'_>]) -> Vec<Option<&str>> {
        self.as_languages().find_many(questions)
    }
}
