//! What all look-ups have in common.

use std::rc::Rc;
use std::sync::Arc;

use crate::catalogue::Catalogue;
use crate::languages::Languages;
use crate::names::Domain;
use crate::question::Question;
use crate::reader::Snapshot;
use crate::set::Set;

/// Translations to look up in: a [`Catalogue`](crate::Catalogue), or a list of [`Languages`] of a
/// [`Set`](crate::Set) or a [`Snapshot`](crate::Snapshot).
///
/// Code that is generic over it doesn't care where its translations come from, and its tests need only a catalogue:
///
/// ```
/// use kobdzila::{Catalogue, Domain, Lookup, Options, Store};
///
/// fn page(texts: &impl Lookup, beds: u64) -> String {
///     format!("{}: {beds} {}", texts.gettext("Winter"), texts.ngettext("bed", "beds", beds))
/// }
///
/// let po = b"msgid \"bed\"\nmsgid_plural \"beds\"\nmsgstr[0] \"massif\"\nmsgstr[1] \"massifs\"\n";
/// let fr = Catalogue::from_po(po, Options::new())?;
/// assert_eq!(page(&fr, 2), "Winter: 2 massifs");
///
/// let store = Store::new();
/// store.load(Domain("garden"), "fr", &fr)?;
/// store.publish()?;
/// let mut reader = store.reader()?;
/// let now = reader.enter();
/// assert_eq!(page(&now.languages(Domain("garden"), "fr_CA"), 1), "Winter: 1 massif");
/// # Ok::<(), Box<dyn std::error::Error>>(())
/// ```
///
/// The trait is object-safe. It is also implemented by references, boxes and counted pointers to translations, and by
/// [`Option`], with which a program runs without a catalogue:
///
/// ```
/// use kobdzila::{Catalogue, Format, Lookup};
///
/// let texts: Box<dyn Lookup> = Box::new(Catalogue::open("no/such/file.mo", Format::Mo).ok());
/// assert_eq!(texts.gettext("Winter"), "Winter");
/// ```
///
/// The methods of [`Catalogue`](crate::Catalogue) and [`Languages`] have the same names and results, and need no import
/// of this trait. Those of `Languages` return strings that live as long as the set.
pub trait Lookup {
    /// Returns the translation of a message, or the requested plural form, if there is one. It is empty if the `msgstr`
    /// is.
    ///
    /// ```
    /// use kobdzila::{Catalogue, Lookup, Options, Question};
    ///
    /// fn has(texts: &dyn Lookup, msgid: &str) -> bool {
    ///     texts.find(Question::new(msgid)).is_some()
    /// }
    ///
    /// let fr = Catalogue::from_po(b"msgid \"Winter\"\nmsgstr \"Hiver\"\n", Options::new())?;
    /// assert!(has(&fr, "Winter") && !has(&fr, "Summer"));
    /// # Ok::<(), kobdzila::Refused>(())
    /// ```
    fn find(&self, question: Question<'_>) -> Option<&str>;

    /// Returns the answers to several questions, in their order, each as [`find`](Lookup::find) returns it. In a large
    /// catalogue this is faster than single calls.
    ///
    /// ```
    /// use kobdzila::{Catalogue, Lookup, Options, Question};
    ///
    /// fn count(texts: &dyn Lookup, menu: &[Question<'_>]) -> usize {
    ///     texts.find_many(menu).into_iter().flatten().count()
    /// }
    ///
    /// let fr = Catalogue::from_po(b"msgid \"Winter\"\nmsgstr \"Hiver\"\n", Options::new())?;
    /// assert_eq!(count(&fr, &[Question::new("Winter"), Question::new("Summer")]), 1);
    /// # Ok::<(), kobdzila::Refused>(())
    /// ```
    fn find_many(&self, questions: &[Question<'_>]) -> Vec<Option<&str>> {
        questions.iter().map(|it| self.find(*it)).collect()
    }

    /// Returns the translation of `msgid`, or `msgid` itself if there is none.
    ///
    /// ```
    /// fn title(texts: &dyn kobdzila::Lookup) -> &str {
    ///     texts.gettext("Winter")
    /// }
    /// # assert_eq!(title(&None::<kobdzila::Catalogue>), "Winter");
    /// ```
    #[inline]
    fn gettext<'a>(&'a self, msgid: &'a str) -> &'a str {
        self.find(Question::new(msgid)).unwrap_or(msgid)
    }

    /// Returns the translation of `msgid` in `context`, or `msgid` itself if there is none.
    ///
    /// ```
    /// fn button(texts: &dyn kobdzila::Lookup) -> &str {
    ///     texts.pgettext("menu", "Open")
    /// }
    /// # assert_eq!(button(&None::<kobdzila::Catalogue>), "Open");
    /// ```
    #[inline]
    fn pgettext<'a>(&'a self, context: &str, msgid: &'a str) -> &'a str {
        self.find(Question::new(msgid).context(context)).unwrap_or(msgid)
    }

    /// Returns the plural form for `n`. If there is no translation, it is `msgid` if `n` is 1, and `plural` otherwise.
    ///
    /// ```
    /// fn rows(texts: &dyn kobdzila::Lookup, n: u64) -> &str {
    ///     texts.ngettext("row", "rows", n)
    /// }
    /// # assert_eq!(rows(&None::<kobdzila::Catalogue>, 2), "rows");
    /// ```
    #[inline]
    fn ngettext<'a>(&'a self, msgid: &'a str, plural: &'a str, n: u64) -> &'a str {
        let found = self.find(Question::new(msgid).number(n));
        found.unwrap_or(if n == 1 { msgid } else { plural })
    }

    /// Like [`ngettext`](Lookup::ngettext), for a message in `context`.
    ///
    /// ```
    /// fn rows(texts: &dyn kobdzila::Lookup, n: u64) -> &str {
    ///     texts.npgettext("bed", "row", "rows", n)
    /// }
    /// # assert_eq!(rows(&None::<kobdzila::Catalogue>, 1), "row");
    /// ```
    #[inline]
    fn npgettext<'a>(&'a self, context: &str, msgid: &'a str, plural: &'a str, n: u64) -> &'a str {
        let found = self.find(Question::new(msgid).context(context).number(n));
        found.unwrap_or(if n == 1 { msgid } else { plural })
    }
}

/// `Lookup` for types that have its methods themselves.
macro_rules! lookup_by_methods {
    ($($texts:ty),+) => {
        $(impl Lookup for $texts {
            #[inline]
            fn find(&self, question: Question<'_>) -> Option<&str> {
                self.find(question)
            }

            fn find_many(&self, questions: &[Question<'_>]) -> Vec<Option<&str>> {
                self.find_many(questions)
            }
        })+
    };
}

lookup_by_methods!(Catalogue, Languages<'_>);

/// Translations through a pointer to some.
macro_rules! through_pointers {
    ($($pointer:ty),+) => {
        $(impl<T: Lookup + ?Sized> Lookup for $pointer {
            #[inline]
            fn find(&self, question: Question<'_>) -> Option<&str> {
                (**self).find(question)
            }

            fn find_many(&self, questions: &[Question<'_>]) -> Vec<Option<&str>> {
                (**self).find_many(questions)
            }
        })+
    };
}

through_pointers!(&T, Box<T>, Rc<T>, Arc<T>);

impl<T: Lookup> Lookup for Option<T> {
    #[inline]
    fn find(&self, question: Question<'_>) -> Option<&str> {
        self.as_ref()?.find(question)
    }

    fn find_many(&self, questions: &[Question<'_>]) -> Vec<Option<&str>> {
        match self {
            Some(texts) => texts.find_many(questions),
            None => vec![None; questions.len()],
        }
    }
}

/// Catalogues for several text domains and languages: a [`Set`](crate::Set) or a [`Snapshot`](crate::Snapshot).
///
/// It is for code that chooses the languages itself, such as a request handler: a server passes it the snapshot of the
/// request, and a test a set.
///
/// ```
/// use kobdzila::{Catalogue, Catalogues, Domain, Options, Set};
///
/// fn answer(catalogues: &impl Catalogues, languages: &str) -> String {
///     let texts = catalogues.languages(Domain("garden"), languages);
///     format!("{} (version {})", texts.gettext("Winter"), catalogues.version())
/// }
///
/// let fr = Catalogue::from_po(b"msgid \"Winter\"\nmsgstr \"Hiver\"\n", Options::new())?;
/// let set = Set::new().with(Domain("garden"), "fr", &fr)?;
/// assert_eq!(answer(&set, "sv:fr"), "Hiver (version 1)");
/// # Ok::<(), kobdzila::Refused>(())
/// ```
pub trait Catalogues {
    /// Returns the number of catalogues added or loaded up to this version, including replaced ones.
    ///
    /// ```
    /// use kobdzila::{Catalogues, Set};
    ///
    /// fn is_newer(one: &dyn Catalogues, other: &dyn Catalogues) -> bool {
    ///     one.version() > other.version()
    /// }
    /// assert!(!is_newer(&Set::new(), &Set::new()));
    /// ```
    fn version(&self) -> u64;

    /// Returns the translation of one message in a text domain, if a language of the list has one. For several messages
    /// [`languages`](Catalogues::languages) is faster.
    ///
    /// ```
    /// use kobdzila::{Catalogues, Domain, Question, Set};
    ///
    /// fn title(catalogues: &dyn Catalogues) -> &str {
    ///     catalogues.find(Domain("garden"), "fr_CA:de", Question::new("Winter")).unwrap_or("Winter")
    /// }
    /// assert_eq!(title(&Set::new()), "Winter");
    /// ```
    fn find(&self, domain: Domain<'_>, languages: &str, question: Question<'_>) -> Option<&str>;

    /// Resolves a list of languages once, for several look-ups.
    ///
    /// ```
    /// use kobdzila::{Catalogues, Domain, Set};
    ///
    /// fn title(catalogues: &dyn Catalogues) -> String {
    ///     catalogues.languages(Domain("garden"), "fr_CA:de").gettext("Winter").to_owned()
    /// }
    /// assert_eq!(title(&Set::new()), "Winter");
    /// ```
    fn languages<'a>(&'a self, domain: Domain<'a>, languages: &'a str) -> Languages<'a>;
}

/// `Catalogues` for types that have its methods themselves.
macro_rules! catalogues_by_methods {
    ($($set:ty),+) => {
        $(impl Catalogues for $set {
            fn version(&self) -> u64 {
                self.version()
            }

            #[inline]
            fn find(&self, domain: Domain<'_>, languages: &str, question: Question<'_>) -> Option<&str> {
                self.find(domain, languages, question)
            }

            fn languages<'a>(&'a self, domain: Domain<'a>, languages: &'a str) -> Languages<'a> {
                self.languages(domain, languages)
            }
        })+
    };
}

catalogues_by_methods!(Set, Snapshot<'_>);

/// The look-ups of a type, by its method `find`, written once for each lifetime of the answers.
macro_rules! look_ups {
    ([$($generics:tt)*] [$($receiver:tt)*] $this:ident, $fr:literal) => {
        /// Returns the translation of `msgid`, or `msgid` itself if there is none.
        ///
        /// ```
        #[doc = $fr]
        /// assert_eq!(fr.gettext("Winter"), "Hiver");
        /// assert_eq!(fr.gettext("Summer"), "Summer");
        /// # Ok::<(), kobdzila::Refused>(())
        /// ```
        #[inline]
        pub fn gettext $($generics)* ($($receiver)*, msgid: &'a str) -> &'a str {
            $this.find(msgid).unwrap_or(msgid)
        }

        /// Returns the translation of `msgid` in `context`, or `msgid` itself if there is none.
        ///
        /// ```
        #[doc = $fr]
        /// assert_eq!(fr.pgettext("menu", "Open"), "Ouvrir");
        /// assert_eq!(fr.pgettext("door", "Open"), "Open");
        /// # Ok::<(), kobdzila::Refused>(())
        /// ```
        #[inline]
        pub fn pgettext $($generics)* ($($receiver)*, context: &str, msgid: &'a str) -> &'a str {
            $this.find(Question::new(msgid).context(context)).unwrap_or(msgid)
        }

        /// Returns the plural form for `n`, which the rule in the header of the message's catalogue chooses. If there
        /// is no translation, it is `msgid` if `n` is 1, and `plural` otherwise.
        ///
        /// ```
        #[doc = $fr]
        /// assert_eq!(fr.ngettext("tomato", "tomatoes", 0), "tomate");
        /// assert_eq!(fr.ngettext("tomato", "tomatoes", 3), "tomates");
        /// assert_eq!(fr.ngettext("pea", "peas", 3), "peas");
        /// # Ok::<(), kobdzila::Refused>(())
        /// ```
        #[inline]
        pub fn ngettext $($generics)* ($($receiver)*, msgid: &'a str, plural: &'a str, n: u64) -> &'a str {
            let found = $this.find(Question::new(msgid).number(n));
            found.unwrap_or(if n == 1 { msgid } else { plural })
        }

        /// Like `ngettext`, for a message in `context`.
        ///
        /// ```
        #[doc = $fr]
        /// assert_eq!(fr.npgettext("bed", "row", "rows", 2), "rangs");
        /// assert_eq!(fr.npgettext("table", "row", "rows", 2), "rows");
        /// # Ok::<(), kobdzila::Refused>(())
        /// ```
        #[inline]
        pub fn npgettext $($generics)* (
            $($receiver)*,
            context: &str,
            msgid: &'a str,
            plural: &'a str,
            n: u64,
        ) -> &'a str {
            let found = $this.find(Question::new(msgid).context(context).number(n));
            found.unwrap_or(if n == 1 { msgid } else { plural })
        }
    };
}

pub(crate) use look_ups;
