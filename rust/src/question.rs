//! What is looked up.

/// A message to look up: a msgid, an optional context, and a number for a plural form.
///
/// Wherever a `Question` is expected, a msgid alone works:
///
/// ```
/// use kobdzila::{Catalogue, Options, Question};
///
/// let po = b"msgctxt \"bed\"\nmsgid \"row\"\nmsgid_plural \"rows\"\nmsgstr[0] \"rang\"\nmsgstr[1] \"rangs\"\n";
/// let fr = Catalogue::from_po(po, Options::new())?;
/// assert_eq!(fr.find(Question::new("row").context("bed").number(2)), Some("rangs"));
/// assert_eq!(fr.find("row"), None);
/// # Ok::<(), kobdzila::Refused>(())
/// ```
#[derive(Clone, Copy, Debug, PartialEq, Eq, Hash)]
pub struct Question<'a> {
    pub(crate) msgid: &'a str,
    pub(crate) context: Option<&'a str>,
    pub(crate) number: Option<u64>,
}

impl<'a> Question<'a> {
    /// Returns the question for a message without a context, and for its first form.
    ///
    /// ```
    /// use kobdzila::Question;
    ///
    /// const WINTER: Question<'static> = Question::new("Winter");
    /// assert_eq!(WINTER, Question::from("Winter"));
    /// ```
    #[inline]
    #[must_use]
    pub const fn new(msgid: &'a str) -> Question<'a> {
        Question {
            msgid,
            context: None,
            number: None,
        }
    }

    /// Returns the question for the message in this context. An empty context differs from none.
    ///
    /// ```
    /// use kobdzila::Question;
    ///
    /// assert_ne!(Question::new("Open").context(""), Question::new("Open"));
    /// ```
    #[inline]
    #[must_use]
    pub const fn context(self, context: &'a str) -> Question<'a> {
        Question {
            context: Some(context),
            ..self
        }
    }

    /// Returns the question for the plural form that the catalogue's plural rule chooses for `number`.
    ///
    /// ```
    /// use kobdzila::Question;
    ///
    /// assert_ne!(Question::new("row").number(1), Question::new("row"));
    /// ```
    #[inline]
    #[must_use]
    pub const fn number(self, number: u64) -> Question<'a> {
        Question {
            number: Some(number),
            ..self
        }
    }
}

impl<'a> From<&'a str> for Question<'a> {
    #[inline]
    fn from(msgid: &'a str) -> Question<'a> {
        Question::new(msgid)
    }
}

impl<'a> From<&'a String> for Question<'a> {
    #[inline]
    fn from(msgid: &'a String) -> Question<'a> {
        Question::new(msgid)
    }
}
