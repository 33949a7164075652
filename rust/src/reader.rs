//! Readers of a live store, the snapshots that they enter, and notices.

use std::error::Error;
use std::fmt;

use crate::languages::Languages;
use crate::names::Domain;
use crate::question::Question;
use crate::sys;

/// One thread's access to a [`Store`](crate::Store).
///
/// [`enter`](Reader::enter) returns a [`Snapshot`] of the newest version, which doesn't change until the reader enters
/// again. Enter once for each request, so that the whole response is of one version. Entering allocates nothing, never
/// blocks and can't fail. A reader's versions never decrease.
///
/// ```
/// use kobdzila::{Catalogue, Domain, Options, Store};
///
/// let store = Store::new();
/// let mut reader = store.reader()?;
/// assert_eq!(reader.enter().languages(Domain("garden"), "fr").gettext("Winter"), "Winter");
/// let fr = Catalogue::from_po(b"msgid \"Winter\"\nmsgstr \"Hiver\"\n", Options::new())?;
/// store.load(Domain("garden"), "fr", &fr)?;
/// store.publish()?;
/// assert_eq!(reader.enter().languages(Domain("garden"), "fr").gettext("Winter"), "Hiver");
/// # Ok::<(), Box<dyn std::error::Error>>(())
/// ```
///
/// A reader makes one visit at a time, so two snapshots of one reader don't compile:
///
/// ```compile_fail,E0499
/// # let store = kobdzila::Store::new();
/// # let mut reader = store.reader().unwrap();
/// let (first, second) = (reader.enter(), reader.enter()); // error: the reader is in its first visit
/// assert!(first.version() <= second.version());
/// ```
///
/// A reader may be moved to another thread, but not shared; give each thread a reader of its own:
///
/// ```compile_fail,E0277
/// # let store = kobdzila::Store::new();
/// # let reader = store.reader().unwrap();
/// std::thread::scope(|scope| {
///     scope.spawn(|| reader.version()); // error: `Reader` isn't `Sync`
/// });
/// ```
///
/// A reader keeps the set of its last visit alive, so let a reader that may be idle for long
/// [`leave`](Reader::leave), and drop one that has no more requests.
pub struct Reader(pub(crate) sys::Reader);

impl Reader {
    /// Enters the newest version.
    ///
    /// ```
    /// let store = kobdzila::Store::new();
    /// let mut reader = store.reader()?;
    /// let now = reader.enter();
    /// assert_eq!(now.languages(kobdzila::Domain("garden"), "fr").ngettext("row", "rows", 2), "rows");
    /// # Ok::<(), kobdzila::Refused>(())
    /// ```
    #[inline]
    pub fn enter(&mut self) -> Snapshot<'_> {
        Snapshot(self.0.enter())
    }

    /// Enters the newest version, which is never older than the version of `notice`.
    ///
    /// # Errors
    ///
    /// The notice is of another store than the reader, which stays in the version that it entered last.
    ///
    /// ```
    /// use kobdzila::Store;
    ///
    /// let (store, other) = (Store::new(), Store::new());
    /// let mut reader = store.reader()?;
    /// assert!(reader.enter_after(&store.notice()?).is_ok());
    /// assert!(reader.enter_after(&other.notice()?).is_err());
    /// # Ok::<(), kobdzila::Refused>(())
    /// ```
    #[inline]
    pub fn enter_after(&mut self, notice: &Notice) -> Result<Snapshot<'_>, WrongStore> {
        self.0.enter_after(&notice.0).map(Snapshot).ok_or(WrongStore)
    }

    /// Leaves the version that was entered last, so that the reader keeps no set alive until it enters again.
    ///
    /// It never blocks, and frees nothing: the next [`publish`](crate::Store::publish) or
    /// [`retained`](crate::Store::retained) frees a replaced set that all readers have left, and so does the thread of
    /// a watch from time to time. Entering again takes a little longer, as after a publish. Dropping a [`Snapshot`]
    /// doesn't leave, since its answers live as long as the visit.
    ///
    /// ```
    /// # let empty = kobdzila::Catalogue::from_po(b"", kobdzila::Options::new())?;
    /// # let store = kobdzila::Store::new();
    /// let mut reader = store.reader()?;
    /// reader.enter();
    /// store.load(kobdzila::Domain("garden"), "fr", &empty)?;
    /// store.publish()?;
    /// assert_eq!(store.retained(), 1); // the reader is still in version 0
    /// reader.leave();
    /// assert_eq!(store.retained(), 0);
    /// # Ok::<(), Box<dyn std::error::Error>>(())
    /// ```
    ///
    /// ```compile_fail,E0499
    /// # let store = kobdzila::Store::new();
    /// # let mut reader = store.reader().unwrap();
    /// let now = reader.enter();
    /// reader.leave(); // error: the snapshot is used below
    /// println!("{}", now.version());
    /// ```
    pub fn leave(&mut self) {
        self.0.leave();
    }

    /// Returns the version that was entered last. A new reader starts in the one that is published when it is made.
    ///
    /// ```
    /// use kobdzila::{Catalogue, Domain, Options, Store};
    ///
    /// let store = Store::new();
    /// let mut reader = store.reader()?;
    /// store.load(Domain("garden"), "fr", &Catalogue::from_po(b"", Options::new())?)?;
    /// store.publish()?;
    /// assert_eq!(reader.version(), 0);
    /// reader.enter();
    /// assert_eq!(reader.version(), 1);
    /// # Ok::<(), Box<dyn std::error::Error>>(())
    /// ```
    pub fn version(&self) -> u64 {
        self.0.version()
    }
}

impl fmt::Debug for Reader {
    fn fmt(&self, f: &mut fmt::Formatter<'_>) -> fmt::Result {
        f.debug_struct("Reader").field("version", &self.version()).finish()
    }
}

/// Proof that a version was published, to be passed to another thread.
///
/// A thread that receives a notice, and enters after it, is guaranteed to see the publish:
///
/// ```
/// use kobdzila::{Catalogue, Domain, Notice, Options, Store};
/// use std::sync::mpsc;
/// use std::thread;
///
/// let store = Store::new();
/// let mut reader = store.reader()?;
/// let (sender, receiver) = mpsc::channel::<Notice>();
/// let printer = thread::spawn(move || {
///     let now = reader.enter_after(&receiver.recv().unwrap()).unwrap();
///     assert_eq!(now.languages(Domain("garden"), "fr").gettext("Winter"), "Hiver");
/// });
/// let fr = Catalogue::from_po(b"msgid \"Winter\"\nmsgstr \"Hiver\"\n", Options::new())?;
/// store.load(Domain("garden"), "fr", &fr)?;
/// store.publish()?;
/// sender.send(store.notice()?)?;
/// printer.join().unwrap();
/// # Ok::<(), Box<dyn std::error::Error>>(())
/// ```
///
/// A notice is used by one thread at a time. Make one for each thread that you notify:
///
/// ```compile_fail,E0277
/// # let store = kobdzila::Store::new();
/// # let mut reader = store.reader().unwrap();
/// let notice = store.notice().unwrap();
/// std::thread::scope(|scope| {
///     scope.spawn(|| reader.enter_after(&notice).is_ok()); // error: `Notice` isn't `Sync`
/// });
/// ```
pub struct Notice(pub(crate) sys::Notice);

impl fmt::Debug for Notice {
    fn fmt(&self, f: &mut fmt::Formatter<'_>) -> fmt::Result {
        f.debug_struct("Notice").finish_non_exhaustive()
    }
}

/// A [`Reader::enter_after`] that was given a notice of another store.
///
/// ```
/// use kobdzila::{Store, WrongStore};
///
/// let (store, other) = (Store::new(), Store::new());
/// let mut reader = store.reader()?;
/// assert_eq!(reader.enter_after(&other.notice()?).err(), Some(WrongStore));
/// # Ok::<(), kobdzila::Refused>(())
/// ```
#[derive(Clone, Copy, Debug, PartialEq, Eq)]
pub struct WrongStore;

impl fmt::Display for WrongStore {
    fn fmt(&self, f: &mut fmt::Formatter<'_>) -> fmt::Result {
        f.write_str("the notice is of another store than the reader")
    }
}

impl Error for WrongStore {}

/// The catalogues of one version of a store, entered by a [`Reader`].
///
/// Look up through [`languages`](Snapshot::languages), as for a [`Set`](crate::Set#look-ups). A snapshot never changes,
/// whatever is published meanwhile. It and its answers are borrowed from the reader, so they end before the reader
/// enters again or is dropped:
///
/// ```compile_fail,E0499
/// # let store = kobdzila::Store::new();
/// # let mut reader = store.reader().unwrap();
/// let now = reader.enter();
/// let list = now.languages(kobdzila::Domain("garden"), "fr");
/// let answer = list.gettext("Winter");
/// reader.enter(); // error: `answer` may be a string of the first visit
/// println!("{answer}");
/// ```
///
/// ```compile_fail,E0505
/// # let store = kobdzila::Store::new();
/// # let mut reader = store.reader().unwrap();
/// let now = reader.enter();
/// drop(reader);
/// println!("{}", now.version()); // error: the snapshot borrows the reader
/// ```
///
/// To keep an answer for longer, copy it with `to_owned()`. The store itself may be dropped while there are snapshots.
///
/// Like its reader, a snapshot may be moved to another thread, but not shared:
///
/// ```compile_fail,E0277
/// # let store = kobdzila::Store::new();
/// # let mut reader = store.reader().unwrap();
/// let now = reader.enter();
/// std::thread::scope(|scope| {
///     scope.spawn(|| now.version()); // error: `Snapshot` isn't `Sync`
/// });
/// ```
///
/// Its answers are plain `&str`s, which threads may share.
pub struct Snapshot<'a>(sys::Snapshot<'a>);

impl<'a> Snapshot<'a> {
    /// Returns the version: the number of loads published up to this snapshot.
    ///
    /// ```
    /// # let store = kobdzila::Store::new();
    /// # let empty = kobdzila::Catalogue::from_po(b"", kobdzila::Options::new())?;
    /// # let mut reader = store.reader()?;
    /// # use kobdzila::Domain;
    /// store.load(Domain("garden"), "fr", &empty)?;
    /// store.load(Domain("garden"), "de", &empty)?;
    /// store.publish()?;
    /// assert_eq!(reader.enter().version(), 2);
    /// # Ok::<(), Box<dyn std::error::Error>>(())
    /// ```
    pub fn version(&self) -> u64 {
        self.0.version()
    }

    /// Resolves a list of languages once, for many look-ups, such as those of one request. The list and its answers
    /// borrow the snapshot.
    ///
    /// ```
    /// # let fr = kobdzila::Catalogue::from_po(b"msgid \"Winter\"\nmsgstr \"Hiver\"\n", kobdzila::Options::new())?;
    /// # let store = kobdzila::Store::new();
    /// # use kobdzila::Domain;
    /// # store.load(Domain("garden"), "fr", &fr)?;
    /// # store.publish()?;
    /// # let mut reader = store.reader()?;
    /// let now = reader.enter();
    /// let list = now.languages(Domain("garden"), "sv:fr");
    /// assert_eq!(list.gettext("Winter"), "Hiver");
    /// # Ok::<(), Box<dyn std::error::Error>>(())
    /// ```
    #[inline]
    pub fn languages<'b>(&'b self, domain: Domain<'b>, languages: &'b str) -> Languages<'b> {
        Languages(self.0.languages([domain.0, languages]))
    }

    /// Returns the translation of one message, if there is one. For several of them [`languages`](Snapshot::languages)
    /// is faster, since it resolves the list once. The answer lives as long as the visit, which ends when the reader
    /// enters again or leaves.
    ///
    /// ```
    /// use kobdzila::{Domain, Reader};
    ///
    /// fn title(reader: &mut Reader) -> &str {
    ///     reader.enter().find(Domain("garden"), "fr", "Winter").unwrap_or("Winter")
    /// }
    /// # let store = kobdzila::Store::new();
    /// # assert_eq!(title(&mut store.reader().unwrap()), "Winter");
    /// ```
    #[inline]
    pub fn find<'q>(&self, domain: Domain<'_>, languages: &str, question: impl Into<Question<'q>>) -> Option<&'a str> {
        self.0.find([domain.0, languages], &question.into())
    }

    /// Resolves a list of languages once, and consumes the snapshot. Its answers live as long as the visit.
    ///
    /// ```
    /// use kobdzila::{Domain, Reader};
    ///
    /// fn title(reader: &mut Reader) -> &str {
    ///     reader.enter().into_languages(Domain("garden"), "fr").gettext("Winter")
    /// }
    /// # let store = kobdzila::Store::new();
    /// # assert_eq!(title(&mut store.reader().unwrap()), "Winter");
    /// ```
    #[inline]
    #[must_use]
    pub fn into_languages(self, domain: Domain<'a>, languages: &'a str) -> Languages<'a> {
        Languages(self.0.into_languages([domain.0, languages]))
    }
}

impl fmt::Debug for Snapshot<'_> {
    fn fmt(&self, f: &mut fmt::Formatter<'_>) -> fmt::Result {
        f.debug_struct("Snapshot").field("version", &self.version()).finish()
    }
}
