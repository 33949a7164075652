//! The entries of a catalogue, and their forms.

use std::fmt;
use std::iter::FusedIterator;
use std::ops::Range;

use crate::sys;

/// The entries of a catalogue, in ascending order of their keys' bytes: what [`Catalogue::entries`] returns.
///
/// [`Catalogue::entries`]: crate::Catalogue::entries
///
/// ```
/// use kobdzila::{Catalogue, Options};
///
/// let po = b"msgid \"b\"\nmsgstr \"x\"\nmsgid \"a\"\nmsgstr \"y\"\n";
/// let catalogue = Catalogue::from_po(po, Options::new())?;
/// assert_eq!(catalogue.entries().len(), 2);
/// assert_eq!(catalogue.entries().next_back().map(|entry| entry.msgid()), Some("b"));
/// # Ok::<(), kobdzila::Refused>(())
/// ```
#[derive(Clone)]
pub struct Entries<'a> {
    catalogue: &'a sys::Catalogue,
    indexes: Range<usize>,
}

impl<'a> Entries<'a> {
    pub(crate) fn new(catalogue: &'a sys::Catalogue) -> Entries<'a> {
        Entries {
            catalogue,
            indexes: 0..catalogue.count(),
        }
    }

    fn entry(&self, index: usize) -> Option<Entry<'a>> {
        let strings = self.catalogue.entry_at(index)?;
        Some(Entry {
            catalogue: self.catalogue,
            index,
            strings,
        })
    }
}

impl<'a> Iterator for Entries<'a> {
    type Item = Entry<'a>;

    fn next(&mut self) -> Option<Entry<'a>> {
        self.indexes.next().and_then(|index| self.entry(index))
    }

    fn size_hint(&self) -> (usize, Option<usize>) {
        self.indexes.size_hint()
    }

    fn nth(&mut self, n: usize) -> Option<Entry<'a>> {
        self.indexes.nth(n).and_then(|index| self.entry(index))
    }
}

impl DoubleEndedIterator for Entries<'_> {
    fn next_back(&mut self) -> Option<Self::Item> {
        self.indexes.next_back().and_then(|index| self.entry(index))
    }
}

impl ExactSizeIterator for Entries<'_> {}
impl FusedIterator for Entries<'_> {}

impl fmt::Debug for Entries<'_> {
    fn fmt(&self, f: &mut fmt::Formatter<'_>) -> fmt::Result {
        f.debug_list().entries(self.clone()).finish()
    }
}

/// A message of a catalogue, with its translation. Its strings are the catalogue's own:
///
/// ```compile_fail,E0505
/// # let po = b"msgid \"Winter\"\nmsgstr \"Hiver\"\n";
/// # let fr = kobdzila::Catalogue::from_po(po, kobdzila::Options::new()).unwrap();
/// let entry = fr.entries().next().unwrap();
/// drop(fr);
/// println!("{}", entry.msgid()); // error: the entry is the catalogue's
/// ```
///
/// ```
/// use kobdzila::{Catalogue, Options};
///
/// let po = b"msgctxt \"bed\"\nmsgid \"row\"\nmsgid_plural \"rows\"\nmsgstr[0] \"rang\"\nmsgstr[1] \"rangs\"\n";
/// let fr = Catalogue::from_po(po, Options::new())?;
/// for entry in &fr {
///     assert_eq!(entry.context(), Some("bed"));
///     assert_eq!(entry.msgid(), "row");
///     assert_eq!(entry.plural(), Some("rows"));
///     assert_eq!(entry.forms().collect::<Vec<_>>(), ["rang", "rangs"]);
/// }
/// # Ok::<(), kobdzila::Refused>(())
/// ```
#[derive(Clone, Copy)]
pub struct Entry<'a> {
    catalogue: &'a sys::Catalogue,
    index: usize,
    strings: sys::EntryStrings<'a>,
}

impl<'a> Entry<'a> {
    /// Returns the context, if the message has one. It may be empty.
    ///
    /// ```
    /// # let po = b"msgid \"Winter\"\nmsgstr \"Hiver\"\n";
    /// # let fr = kobdzila::Catalogue::from_po(po, kobdzila::Options::new())?;
    /// assert_eq!(fr.entries().next().unwrap().context(), None);
    /// # Ok::<(), kobdzila::Refused>(())
    /// ```
    pub fn context(&self) -> Option<&'a str> {
        self.strings.context
    }

    /// Returns the msgid. That of the header is empty.
    ///
    /// ```
    /// # let po = b"msgid \"Winter\"\nmsgstr \"Hiver\"\n";
    /// # let fr = kobdzila::Catalogue::from_po(po, kobdzila::Options::new())?;
    /// assert_eq!(fr.entries().next().unwrap().msgid(), "Winter");
    /// # Ok::<(), kobdzila::Refused>(())
    /// ```
    pub fn msgid(&self) -> &'a str {
        self.strings.msgid
    }

    /// Returns the msgid_plural, if the message has one.
    ///
    /// ```
    /// # let po = b"msgid \"Winter\"\nmsgstr \"Hiver\"\n";
    /// # let fr = kobdzila::Catalogue::from_po(po, kobdzila::Options::new())?;
    /// assert_eq!(fr.entries().next().unwrap().plural(), None);
    /// # Ok::<(), kobdzila::Refused>(())
    /// ```
    pub fn plural(&self) -> Option<&'a str> {
        self.strings.plural
    }

    /// Returns the translation: one form for each value of the plural rule, and a single form for a message without a
    /// plural.
    ///
    /// ```
    /// # let po = b"msgid \"Winter\"\nmsgstr \"Hiver\"\n";
    /// # let fr = kobdzila::Catalogue::from_po(po, kobdzila::Options::new())?;
    /// let entry = fr.entries().next().unwrap();
    /// assert_eq!(entry.forms().collect::<Vec<_>>(), ["Hiver"]);
    /// # Ok::<(), kobdzila::Refused>(())
    /// ```
    pub fn forms(&self) -> Forms<'a> {
        Forms {
            catalogue: self.catalogue,
            entry: self.index,
            indexes: 0..self.strings.forms,
        }
    }
}

impl fmt::Debug for Entry<'_> {
    fn fmt(&self, f: &mut fmt::Formatter<'_>) -> fmt::Result {
        f.debug_struct("Entry")
            .field("context", &self.context())
            .field("msgid", &self.msgid())
            .field("plural", &self.plural())
            .field("forms", &self.forms())
            .finish()
    }
}

/// The forms of an entry, at least one: what [`Entry::forms`] returns.
///
/// ```
/// # let po = b"msgid \"Winter\"\nmsgstr \"Hiver\"\n";
/// # let fr = kobdzila::Catalogue::from_po(po, kobdzila::Options::new())?;
/// let forms = fr.entries().next().unwrap().forms();
/// assert_eq!(forms.len(), 1);
/// assert_eq!(format!("{forms:?}"), r#"["Hiver"]"#);
/// # Ok::<(), kobdzila::Refused>(())
/// ```
#[derive(Clone)]
pub struct Forms<'a> {
    catalogue: &'a sys::Catalogue,
    entry: usize,
    indexes: Range<usize>,
}

impl<'a> Forms<'a> {
    fn form(&self, index: usize) -> Option<&'a str> {
        self.catalogue.form_at(self.entry, index)
    }
}

impl<'a> Iterator for Forms<'a> {
    type Item = &'a str;

    fn next(&mut self) -> Option<&'a str> {
        self.indexes.next().and_then(|index| self.form(index))
    }

    fn size_hint(&self) -> (usize, Option<usize>) {
        self.indexes.size_hint()
    }
}

impl DoubleEndedIterator for Forms<'_> {
    fn next_back(&mut self) -> Option<Self::Item> {
        self.indexes.next_back().and_then(|index| self.form(index))
    }
}

impl ExactSizeIterator for Forms<'_> {}
impl FusedIterator for Forms<'_> {}

impl fmt::Debug for Forms<'_> {
    fn fmt(&self, f: &mut fmt::Formatter<'_>) -> fmt::Result {
        f.debug_list().entries(self.clone()).finish()
    }
}
