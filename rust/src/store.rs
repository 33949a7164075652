//! Live stores: sets of catalogues that are replaced while threads use them.

use std::alloc::{handle_alloc_error, Layout};
use std::error::Error;
use std::fmt;

use crate::catalogue::Catalogue;
use crate::names::Domain;
use crate::reader::{Notice, Reader};
use crate::refused::Refused;
use crate::sys;

/// A set of catalogues that is replaced while threads use it.
///
/// [`load`](Store::load) adds catalogues, which nobody sees until [`publish`](Store::publish) shows all of them in one
/// step. Each thread that looks up messages has a [`Reader`] of its own. Readers never block, neither on a publish nor
/// on each other, and a publish never waits for readers.
///
/// ```
/// use kobdzila::{Catalogue, Domain, Options, Refused, Store};
/// use std::thread;
///
/// let store = Store::new();
/// let fr = Catalogue::from_po(b"msgid \"Winter\"\nmsgstr \"Hiver\"\n", Options::new())?;
/// store.load(Domain("garden"), "fr", &fr)?;
/// store.publish()?;
/// thread::scope(|scope| {
///     for _ in 0..4 {
///         let mut reader = store.reader()?;
///         scope.spawn(move || {
///             let now = reader.enter(); // what a thread does for each request
///             assert_eq!(now.languages(Domain("garden"), "fr_CA:de").gettext("Winter"), "Hiver");
///         });
///     }
///     Ok::<(), Refused>(())
/// })?;
/// # Ok::<(), Box<dyn std::error::Error>>(())
/// ```
///
/// Any number of threads may use one store, by reference or in an [`Arc`](std::sync::Arc). A lock in the store orders
/// their calls; readers don't take it to enter or to look up. The store may be dropped before its readers and notices:
/// the readers keep working, in the version that was published last.
///
/// The text domain and the locale of a catalogue, and the list of languages of a look-up, are those of a
/// [`Set`](crate::Set#look-ups).
pub struct Store(sys::Store);

impl Store {
    /// Returns a store that has published the empty set, at version 0.
    ///
    /// If memory runs out, it ends the program, as [`Box::new`] does.
    ///
    /// ```
    /// assert_eq!(kobdzila::Store::new().version(), 0);
    /// ```
    pub fn new() -> Store {
        match sys::Store::new() {
            Some(store) => Store(store),
            None => handle_alloc_error(Layout::new::<usize>()),
        }
    }

    /// Adds a pending load: from the next publish on, `catalogue` is the one for `domain` and `locale`, in place of any
    /// other there. The store shares the catalogue, so yours may be dropped.
    ///
    /// # Errors
    ///
    /// [`Fault::BadName`](crate::Fault::BadName), [`Fault::Memory`](crate::Fault::Memory) and, after 2^58 - 1 loads,
    /// [`Fault::VersionsSpent`](crate::Fault::VersionsSpent). A refused load changes nothing.
    ///
    /// ```
    /// use kobdzila::{Catalogue, Domain, Fault, Options, Store};
    ///
    /// let store = Store::new();
    /// let fr = Catalogue::from_po(b"msgid \"Winter\"\nmsgstr \"Hiver\"\n", Options::new())?;
    /// store.load(Domain("garden"), "fr", &fr)?;
    /// assert_eq!(store.load(Domain("garden/beds"), "fr", &fr).unwrap_err().fault(), Fault::BadName);
    /// assert_eq!((store.pending(), store.version()), (1, 0));
    /// # Ok::<(), kobdzila::Refused>(())
    /// ```
    pub fn load(&self, domain: Domain<'_>, locale: &str, catalogue: &Catalogue) -> Result<(), Refused> {
        Ok(self.0.load(domain.0, locale, catalogue.handle())?)
    }

    /// Publishes all pending loads in one step, and returns the new version. A reader sees all of them or none. If no
    /// load is pending, it changes nothing and returns the current version.
    ///
    /// # Errors
    ///
    /// Memory ran out, or the store was busy. The loads are still pending, and you can publish again.
    ///
    /// ```
    /// use kobdzila::{Catalogue, Domain, Options, Store};
    ///
    /// let store = Store::new();
    /// let empty = Catalogue::from_po(b"", Options::new())?;
    /// store.load(Domain("garden"), "fr", &empty)?;
    /// store.load(Domain("garden"), "de", &empty)?;
    /// assert_eq!(store.publish()?, 2);
    /// assert_eq!(store.publish()?, 2);
    /// # Ok::<(), Box<dyn std::error::Error>>(())
    /// ```
    pub fn publish(&self) -> Result<u64, PublishError> {
        self.0.publish().ok_or(PublishError)
    }

    /// Returns the version that is published: the number of loads published so far.
    ///
    /// ```
    /// use kobdzila::{Catalogue, Domain, Options, Store};
    ///
    /// let store = Store::new();
    /// store.load(Domain("garden"), "fr", &Catalogue::from_po(b"", Options::new())?)?;
    /// store.publish()?;
    /// assert_eq!(store.version(), 1);
    /// # Ok::<(), Box<dyn std::error::Error>>(())
    /// ```
    pub fn version(&self) -> u64 {
        self.0.version()
    }

    /// Returns the number of loads that the next publish will show.
    ///
    /// ```
    /// use kobdzila::{Catalogue, Domain, Options, Store};
    ///
    /// let store = Store::new();
    /// store.load(Domain("garden"), "fr", &Catalogue::from_po(b"", Options::new())?)?;
    /// assert_eq!(store.pending(), 1);
    /// # Ok::<(), kobdzila::Refused>(())
    /// ```
    pub fn pending(&self) -> u64 {
        self.0.pending()
    }

    /// Frees the replaced sets that no reader is in, and returns how many are left: those that some reader is in.
    ///
    /// A publish frees such sets as well. A reader has one set at a time, that of its last visit, until it
    /// [leaves](Reader::leave). If the number grows, you keep more and more readers that neither enter nor leave.
    ///
    /// ```
    /// assert_eq!(kobdzila::Store::new().retained(), 0);
    /// ```
    pub fn retained(&self) -> usize {
        self.0.retained()
    }

    /// Returns a notice of the version that is published now, for [`Reader::enter_after`].
    ///
    /// # Errors
    ///
    /// [`Fault::Memory`](crate::Fault::Memory).
    ///
    /// ```
    /// let store = kobdzila::Store::new();
    /// let mut reader = store.reader()?;
    /// let notice = store.notice()?;
    /// assert!(reader.enter_after(&notice).is_ok());
    /// # Ok::<(), kobdzila::Refused>(())
    /// ```
    pub fn notice(&self) -> Result<Notice, Refused> {
        Ok(Notice(self.0.notice()?))
    }

    /// Returns a new reader. Make one for each thread, as many as you want.
    ///
    /// # Errors
    ///
    /// [`Fault::Memory`](crate::Fault::Memory).
    ///
    /// ```
    /// let store = kobdzila::Store::new();
    /// let reader = store.reader()?;
    /// assert_eq!(reader.version(), store.version());
    /// # Ok::<(), kobdzila::Refused>(())
    /// ```
    pub fn reader(&self) -> Result<Reader, Refused> {
        Ok(Reader(self.0.reader()?))
    }
}

impl Default for Store {
    fn default() -> Store {
        Store::new()
    }
}

impl fmt::Debug for Store {
    fn fmt(&self, f: &mut fmt::Formatter<'_>) -> fmt::Result {
        f.debug_struct("Store")
            .field("version", &self.version())
            .field("pending", &self.pending())
            .finish()
    }
}

/// The error of a [`Store::publish`] that published nothing, since memory ran out or the store was busy.
///
/// All loads are still pending, and you can publish again. A store is busy if some 60 readers were all interrupted at
/// the same point of entering, a few instructions long.
///
/// ```
/// use kobdzila::{PublishError, Store};
///
/// /// Publishes, and logs a failure: the next publish shows these loads.
/// fn publish(store: &Store) -> Option<u64> {
///     let log = |why: PublishError| eprintln!("{} loads: {why}", store.pending());
///     store.publish().map_err(log).ok()
/// }
///
/// assert_eq!(publish(&Store::new()), Some(0));
/// ```
#[derive(Clone, Copy, Debug, PartialEq, Eq)]
#[non_exhaustive]
pub struct PublishError;

impl fmt::Display for PublishError {
    fn fmt(&self, f: &mut fmt::Formatter<'_>) -> fmt::Result {
        f.write_str("not published: out of memory, or the store is busy")
    }
}

impl Error for PublishError {}

#[cfg(test)]
mod tests {
    use super::PublishError;
    use std::error::Error;

    #[test]
    fn a_failed_publish_is_an_error_for_all_threads() {
        let why: Box<dyn Error + Send + Sync> = Box::new(PublishError);
        assert_eq!(why.to_string(), "not published: out of memory, or the store is busy");
    }
}
