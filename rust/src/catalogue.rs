//! A catalogue: how it is opened, and its look-ups.

use std::ffi::CString;
use std::fmt;
use std::os::unix::ffi::OsStrExt;
use std::path::Path;

use crate::entries::Entries;
use crate::lookup::look_ups;
use crate::question::Question;
use crate::refused::Refused;
use crate::sys;

/// How to compile a PO text. The default runs no checks and drops fuzzy messages.
///
/// ```
/// use kobdzila::{Catalogue, Options};
///
/// let text = b"#, fuzzy\nmsgid \"Winter\"\nmsgstr \"Hiver\"\n";
/// let without = Catalogue::from_po(text, Options::new())?;
/// assert_eq!(without.gettext("Winter"), "Winter");
/// let with = Catalogue::from_po(text, Options::new().use_fuzzy(true))?;
/// assert_eq!(with.gettext("Winter"), "Hiver");
/// # Ok::<(), kobdzila::Refused>(())
/// ```
#[derive(Clone, Copy, Debug, Default, PartialEq, Eq, Hash)]
pub struct Options {
    checked: bool,
    use_fuzzy: bool,
}

impl Options {
    /// Returns the default: no checks, and no fuzzy messages.
    ///
    /// ```
    /// assert_eq!(kobdzila::Options::new(), kobdzila::Options::default());
    /// ```
    pub fn new() -> Options {
        Options::default()
    }

    /// Sets whether to run the checks of `msgfmt -c`.
    ///
    /// ```
    /// use kobdzila::{Catalogue, Fault, Options};
    ///
    /// let text = b"msgid \"Winter\\n\"\nmsgstr \"Hiver\"\n";
    /// assert!(Catalogue::from_po(text, Options::new()).is_ok());
    /// let refused = Catalogue::from_po(text, Options::new().checked(true)).unwrap_err();
    /// assert_eq!(refused.fault(), Fault::PoNewlineMismatch);
    /// ```
    #[must_use]
    pub fn checked(self, checked: bool) -> Options {
        Options { checked, ..self }
    }

    /// Sets whether to keep fuzzy messages, as `msgfmt -f` does.
    ///
    /// ```
    /// use kobdzila::{Catalogue, Options};
    ///
    /// let text = b"#, fuzzy\nmsgid \"Winter\"\nmsgstr \"Hiver\"\n";
    /// assert_eq!(Catalogue::from_po(text, Options::new().use_fuzzy(true))?.len(), 1);
    /// # Ok::<(), kobdzila::Refused>(())
    /// ```
    #[must_use]
    pub fn use_fuzzy(self, use_fuzzy: bool) -> Options {
        Options { use_fuzzy, ..self }
    }

    /// The letters for these options in the scripts of catsession.
    #[cfg(feature = "session")]
    pub(crate) fn letters(self) -> &'static str {
        match (self.checked, self.use_fuzzy) {
            (false, false) => "-",
            (true, false) => "c",
            (false, true) => "f",
            (true, true) => "cf",
        }
    }

    fn flags(self) -> u32 {
        let checked = if self.checked { sys::KOB_CHECKED } else { 0 };
        let use_fuzzy = if self.use_fuzzy { sys::KOB_USE_FUZZY } else { 0 };
        checked | use_fuzzy
    }
}

/// The format of a file that [`Catalogue::open`] reads.
///
/// ```
/// use kobdzila::{Format, Options};
///
/// let format = if "fr.po".ends_with(".po") { Format::Po(Options::new()) } else { Format::Mo };
/// assert_eq!(format, Format::Po(Options::default()));
/// ```
#[derive(Clone, Copy, Debug, PartialEq, Eq, Hash)]
#[non_exhaustive]
pub enum Format {
    /// An MO file, which programs install.
    Mo,
    /// A PO file, which translators write. It is compiled with these options.
    Po(Options),
}

/// The messages of an MO file or a PO text.
///
/// A catalogue never changes. Cloning it increments a reference count, in a few nanoseconds, and copies no message. Any
/// number of threads may use one catalogue at once.
///
/// # Look-ups
///
/// `gettext` and the three methods named after it return the translation, or the string that you passed if there is
/// none. `find` and `find_many` return `None` then. The result borrows the catalogue, and for `gettext` also your
/// string:
///
/// ```compile_fail,E0505
/// # let po = b"msgid \"Winter\"\nmsgstr \"Hiver\"\n";
/// # let fr = kobdzila::Catalogue::from_po(po, kobdzila::Options::new()).unwrap();
/// let answer = fr.gettext("Winter");
/// drop(fr);
/// println!("{answer}"); // error: `answer` is a string of the catalogue
/// ```
///
/// ```compile_fail,E0597
/// # let po = b"msgid \"Winter\"\nmsgstr \"Hiver\"\n";
/// # let fr = kobdzila::Catalogue::from_po(po, kobdzila::Options::new()).unwrap();
/// let answer = {
///     let msgid = String::from("Winter");
///     fr.gettext(&msgid)
/// };
/// println!("{answer}"); // error: `answer` may be `msgid` itself
/// ```
///
/// The result of `find` belongs to the catalogue, so the msgid may be dropped:
///
/// ```
/// # let po = b"msgid \"Winter\"\nmsgstr \"Hiver\"\n";
/// # let fr = kobdzila::Catalogue::from_po(po, kobdzila::Options::new()).unwrap();
/// let answer = {
///     let msgid = String::from("Winter");
///     fr.find(&msgid)
/// };
/// assert_eq!(answer, Some("Hiver"));
/// ```
///
/// A msgid is any `str`. No message has one with a NUL, so that finds nothing. As in C, a msgid with a byte 4
/// (`"menu\u{4}Open"`) finds the message after that byte in the context before it.
///
/// # Processes and signals
///
/// Don't call the library from a signal handler, nor in the forked child of a process that had several threads.
#[derive(Clone)]
pub struct Catalogue(sys::Catalogue);

impl Catalogue {
    /// Opens an MO file from its bytes, which are copied.
    ///
    /// # Errors
    ///
    /// The file isn't valid: a [`Fault`](crate::Fault) whose name begins with `Mo`. Or
    /// [`Fault::Memory`](crate::Fault::Memory).
    ///
    /// ```
    /// use kobdzila::{Catalogue, Fault, Options};
    ///
    /// let fr = Catalogue::from_po(b"msgid \"Winter\"\nmsgstr \"Hiver\"\n", Options::new())?;
    /// let again = Catalogue::from_mo(fr.mo_file())?;
    /// assert_eq!(again.gettext("Winter"), "Hiver");
    ///
    /// let refused = Catalogue::from_mo(b"no MO file, but long enough for one").unwrap_err();
    /// assert_eq!(refused.fault(), Fault::MoMagic);
    /// # Ok::<(), kobdzila::Refused>(())
    /// ```
    pub fn from_mo(bytes: &[u8]) -> Result<Catalogue, Refused> {
        Ok(Catalogue(sys::Catalogue::from_mo(bytes)?))
    }

    /// Compiles a PO text. If its header names another charset than UTF-8, such as ISO-8859-1, it is decoded.
    ///
    /// # Errors
    ///
    /// The text isn't valid, or with [`Options::checked`] fails a check: a [`Fault`](crate::Fault) whose name begins with
    /// `Po`, in most cases with a line. Or [`Fault::Memory`](crate::Fault::Memory).
    ///
    /// ```
    /// use kobdzila::{Catalogue, Options};
    ///
    /// let text = "msgid \"Winter\"\nmsgstr \"Hiver\"\n";
    /// let fr = Catalogue::from_po(text.as_bytes(), Options::new().checked(true))?;
    /// assert_eq!(fr.gettext("Winter"), "Hiver");
    ///
    /// let header = b"msgid \"\"\nmsgstr \"Content-Type: text/plain; charset=ISO-8859-1\\n\"\n";
    /// let text = [&header[..], b"msgid \"Summer\"\nmsgstr \"\xc9t\xe9\"\n"].concat();
    /// assert_eq!(Catalogue::from_po(&text, Options::new())?.gettext("Summer"), "Été");
    /// # Ok::<(), kobdzila::Refused>(())
    /// ```
    pub fn from_po(text: &[u8], options: Options) -> Result<Catalogue, Refused> {
        Ok(Catalogue(sys::Catalogue::from_po(text, options.flags())?))
    }

    /// Opens a file.
    ///
    /// A regular file is read up to the size that it has when it is opened. A FIFO, a device and the like are read to
    /// their end, up to the size limit of the format; a FIFO that no writer has open counts as empty.
    ///
    /// # Errors
    ///
    /// Those of [`from_mo`](Catalogue::from_mo) or [`from_po`](Catalogue::from_po), and
    /// [`Fault::Unreadable`](crate::Fault::Unreadable), whose source is the system's error.
    ///
    /// ```
    /// use std::error::Error;
    /// use kobdzila::{Catalogue, Fault, Format};
    ///
    /// let refused = Catalogue::open("no/such/file.mo", Format::Mo).unwrap_err();
    /// assert_eq!(refused.fault(), Fault::Unreadable);
    /// let cause = refused.source().and_then(|it| it.downcast_ref::<std::io::Error>());
    /// assert_eq!(cause.map(|it| it.kind()), Some(std::io::ErrorKind::NotFound));
    /// ```
    pub fn open(path: impl AsRef<Path>, format: Format) -> Result<Catalogue, Refused> {
        let name = name_of(path.as_ref())?;
        let (kind, options) = match format {
            Format::Mo => (sys::KOB_MO, 0),
            Format::Po(options) => (sys::KOB_PO, options.flags()),
        };
        Ok(Catalogue(sys::Catalogue::open(&name, kind, options)?))
    }

    look_ups! {
        [<'a>] [&'a self] self,
        "# let fr = kobdzila::Catalogue::open(\"examples/fr.po\", kobdzila::Format::Po(Default::default()))?;"
    }

    /// Returns the translation of a message, or the requested plural form, if there is one. It is empty if the `msgstr`
    /// is.
    ///
    /// ```
    /// use kobdzila::{Catalogue, Options, Question};
    ///
    /// let po = b"msgid \"Winter\"\nmsgstr \"Hiver\"\nmsgctxt \"menu\"\nmsgid \"Open\"\nmsgstr \"Ouvrir\"\n";
    /// let fr = Catalogue::from_po(po, Options::new())?;
    /// assert_eq!(fr.find("Winter"), Some("Hiver"));
    /// assert_eq!(fr.find("Summer"), None);
    /// assert_eq!(fr.find(Question::new("Open").context("menu")), Some("Ouvrir"));
    /// # Ok::<(), kobdzila::Refused>(())
    /// ```
    #[inline]
    pub fn find<'q>(&self, question: impl Into<Question<'q>>) -> Option<&str> {
        self.0.find(&question.into())
    }

    /// Returns the answers to several questions, in their order, each as [`find`](Catalogue::find) returns it.
    ///
    /// In a catalogue of tens of thousands of messages this is faster than one call for each, since the processor waits
    /// for the memory of several messages at once. In a small one it makes single calls. It allocates only the list of
    /// answers.
    ///
    /// ```
    /// use kobdzila::{Catalogue, Options, Question};
    ///
    /// let po = b"msgid \"Winter\"\nmsgstr \"Hiver\"\nmsgid \"row\"\nmsgid_plural \"rows\"\nmsgstr[0] \"rang\"\n";
    /// let fr = Catalogue::from_po(po, Options::new())?;
    /// let page = [Question::new("Winter"), Question::new("row").number(1), Question::new("Summer")];
    /// assert_eq!(fr.find_many(&page), [Some("Hiver"), Some("rang"), None]);
    /// # Ok::<(), kobdzila::Refused>(())
    /// ```
    pub fn find_many(&self, questions: &[Question<'_>]) -> Vec<Option<&str>> {
        self.0.find_many(questions)
    }

    /// Returns the number of entries, including the header.
    ///
    /// ```
    /// # let po = b"msgid \"Winter\"\nmsgstr \"Hiver\"\n";
    /// # let fr = kobdzila::Catalogue::from_po(po, kobdzila::Options::new())?;
    /// assert_eq!(fr.len(), fr.entries().count());
    /// # Ok::<(), kobdzila::Refused>(())
    /// ```
    pub fn len(&self) -> usize {
        self.0.count()
    }

    /// Returns whether there are no entries, not even a header.
    ///
    /// ```
    /// assert!(kobdzila::Catalogue::from_po(b"", kobdzila::Options::new())?.is_empty());
    /// # Ok::<(), kobdzila::Refused>(())
    /// ```
    pub fn is_empty(&self) -> bool {
        self.len() == 0
    }

    /// Returns the entries, including the header, in ascending order of their keys' bytes.
    ///
    /// ```
    /// use kobdzila::{Catalogue, Options};
    ///
    /// let po = b"msgid \"b\"\nmsgstr \"x\"\nmsgid \"a\"\nmsgstr \"y\"\n";
    /// let catalogue = Catalogue::from_po(po, Options::new())?;
    /// let msgids: Vec<&str> = catalogue.entries().map(|entry| entry.msgid()).collect();
    /// assert_eq!(msgids, ["a", "b"]);
    /// # Ok::<(), kobdzila::Refused>(())
    /// ```
    pub fn entries(&self) -> Entries<'_> {
        Entries::new(&self.0)
    }

    /// Returns the catalogue as the bytes of an MO file, whichever format it was opened from. It is of revision 0.0, but
    /// for a PO text with system-dependent strings such as `%<PRIu64>`.
    ///
    /// ```
    /// # let po = b"msgid \"Winter\"\nmsgstr \"Hiver\"\n";
    /// # let fr = kobdzila::Catalogue::from_po(po, kobdzila::Options::new())?;
    /// assert_eq!(fr.mo_file()[..4], 0x950412de_u32.to_le_bytes());
    /// # Ok::<(), kobdzila::Refused>(())
    /// ```
    pub fn mo_file(&self) -> &[u8] {
        self.0.mo_file()
    }

    pub(crate) fn handle(&self) -> &sys::Catalogue {
        &self.0
    }
}

impl fmt::Debug for Catalogue {
    fn fmt(&self, f: &mut fmt::Formatter<'_>) -> fmt::Result {
        f.debug_struct("Catalogue").field("entries", &self.len()).finish()
    }
}

impl<'a> IntoIterator for &'a Catalogue {
    type Item = crate::Entry<'a>;
    type IntoIter = Entries<'a>;

    fn into_iter(self) -> Entries<'a> {
        self.entries()
    }
}

/// A path as C takes it; one with a NUL names no file.
pub(crate) fn name_of(path: &Path) -> Result<CString, Refused> {
    CString::new(path.as_os_str().as_bytes()).map_err(|_| sys::Refusal::name_with_nul().into())
}
