//! A thread that loads the catalogues of a folder into a store, and reloads them when they change.

use std::collections::hash_map::RandomState;
use std::collections::{HashMap, HashSet};
use std::env;
use std::error::Error;
use std::ffi::{OsStr, OsString};
use std::fmt;
use std::fs;
use std::hash::{BuildHasher, Hash, Hasher};
use std::io::{self, Write};
use std::os::unix::fs::MetadataExt;
use std::os::unix::net::UnixStream;
use std::panic::{catch_unwind, AssertUnwindSafe};
use std::path::{Path, PathBuf};
use std::sync::{Arc, Mutex, MutexGuard};
use std::thread::{self, JoinHandle};
use std::time::{Duration, Instant, SystemTime};

use crate::catalogue::{Catalogue, Options};
use crate::names::Domain;
use crate::refused::{Fault, Refused};
use crate::store::Store;
use crate::sys::inotify::{self, Changes};
use crate::sys::Refusal;

/// How long a file that keeps changing delays the others.
const PATIENCE: Duration = Duration::from_secs(5);
/// How long to wait for a written file to be closed: `truncate` closes none.
const LONGEST_WRITE: Duration = Duration::from_secs(60);
/// How often to look if the system doesn't report changes.
const UNREPORTED: Duration = Duration::from_secs(1);
/// How far apart two changes may be that get the same times: FAT keeps them in steps of two seconds.
const COARSEST: Duration = Duration::from_secs(2);

/// The most bytes of an MO file and of a PO file: a larger one is refused, and isn't read for that.
const MO_BYTES: u64 = 268_435_456;
const PO_BYTES: u64 = 67_108_864;

/// Loads the catalogues of a folder into a store, and reloads them when they change:
/// `FOLDER/LOCALE/LC_MESSAGES/DOMAIN.mo` and `.po`.
///
/// ```
/// use kobdzila::{Domain, Store, WatchOptions};
/// use std::fs;
/// use std::sync::Arc;
/// use std::time::{Duration, Instant};
///
/// # let folder = std::env::temp_dir().join(format!("kobdzila-watch-{}", std::process::id()));
/// let messages = folder.join("fr/LC_MESSAGES");
/// fs::create_dir_all(&messages)?;
/// fs::write(messages.join("garden.po"), "msgid \"Winter\"\nmsgstr \"Hiver\"\n")?;
///
/// let store = Arc::new(Store::new());
/// let watch = WatchOptions::new(&folder).start(&store)?;
/// assert_eq!(store.version(), 1);
///
/// fs::write(messages.join("garden.po"), "msgid \"Winter\"\nmsgstr \"L'hiver\"\n")?;
/// let end = Instant::now() + Duration::from_secs(60);
/// while store.version() < 2 && Instant::now() < end {
///     std::thread::sleep(Duration::from_millis(5));
/// }
/// let mut reader = store.reader()?;
/// assert_eq!(reader.enter().languages(Domain("garden"), "fr").gettext("Winter"), "L'hiver");
/// watch.stop();
/// # fs::remove_dir_all(&folder)?;
/// # Ok::<(), Box<dyn std::error::Error>>(())
/// ```
///
/// The catalogues that are there are loaded and published before [`start`](WatchOptions::start) returns. From then on a
/// thread waits for changes, which the system reports (inotify), and publishes those that arrive together in one step.
/// A file counts as complete once nobody is writing it and two checks find the same size and times. If there are both
/// an MO file and a PO file, the one that was modified last is used. A file that is removed stays loaded.
///
/// A file that is refused is reported once, by its absolute path; the translations loaded before stay. One that can't be
/// read, or for which there is no memory, is tried again at each check. File errors never stop the thread, nor does a
/// panic in your function or a change of the working directory. Dropping the watch stops it.
#[derive(Debug)]
#[must_use = "dropping a watch stops it"]
pub struct Watch {
    looking: Arc<Mutex<Looking>>,
    end: UnixStream,
    thread: Option<JoinHandle<()>>,
}

impl Watch {
    /// Checks for changes now, and returns the version that was published, or `None` if nothing has changed.
    ///
    /// ```
    /// # use kobdzila::{Store, WatchOptions};
    /// # let folder = std::env::temp_dir().join(format!("kobdzila-look-{}", std::process::id()));
    /// # std::fs::create_dir_all(folder.join("fr/LC_MESSAGES"))?;
    /// let store = std::sync::Arc::new(Store::new());
    /// let watch = WatchOptions::new(&folder).start(&store)?;
    /// assert_eq!(watch.look(), None);
    /// std::fs::write(folder.join("fr/LC_MESSAGES/garden.po"), "msgid \"Winter\"\nmsgstr \"Hiver\"\n")?;
    /// watch.look();
    /// assert_eq!(store.version(), 1);
    /// # std::fs::remove_dir_all(&folder)?;
    /// # Ok::<(), Box<dyn std::error::Error>>(())
    /// ```
    pub fn look(&self) -> Option<u64> {
        locked(&self.looking).look()
    }

    /// Stops the thread, and waits until it has ended. The store keeps what was loaded.
    ///
    /// ```
    /// # use kobdzila::{Store, WatchOptions};
    /// let store = std::sync::Arc::new(Store::new());
    /// let watch = WatchOptions::new(std::env::temp_dir()).start(&store)?;
    /// watch.stop();
    /// # Ok::<(), std::io::Error>(())
    /// ```
    pub fn stop(self) {}
}

impl Drop for Watch {
    fn drop(&mut self) {
        // (the thread has the other end until it ends, so this can't fail)
        let _ = self.end.write_all(b"e");
        if let Some(thread) = self.thread.take() {
            // (a watch that is dropped by its own callback can't wait for itself)
            if thread.thread().id() != thread::current().id() {
                let _ = thread.join();
            }
        }
    }
}

/// How to watch a folder: the builder of a [`Watch`].
///
/// ```
/// use kobdzila::{Options, Store, WatchOptions};
/// use std::time::Duration;
///
/// let store = std::sync::Arc::new(Store::new());
/// let watch = WatchOptions::new(std::env::temp_dir())
///     .domains(["garden"])
///     .options(Options::new().checked(true))
///     .settle(Duration::from_millis(200))
///     .start(&store)?;
/// # Ok::<(), std::io::Error>(())
/// ```
#[must_use]
pub struct WatchOptions {
    folder: PathBuf,
    domains: Option<HashSet<String>>,
    options: Options,
    settle: Duration,
    every: Duration,
    accepts_empty: bool,
    refused: Report,
}

type Report = Box<dyn FnMut(&FileRefused) + Send>;

impl WatchOptions {
    /// Returns the options for a folder, with the defaults that the methods below describe.
    ///
    /// ```
    /// let options = kobdzila::WatchOptions::new("/usr/share/locale");
    /// assert!(format!("{options:?}").contains("/usr/share/locale"));
    /// ```
    pub fn new(folder: impl Into<PathBuf>) -> WatchOptions {
        WatchOptions {
            folder: folder.into(),
            domains: None,
            options: Options::new(),
            settle: Duration::from_millis(100),
            every: Duration::from_secs(10),
            accepts_empty: false,
            refused: Box::new(print),
        }
    }

    /// Limits the text domains. The default is all of them.
    ///
    /// ```
    /// # let options = kobdzila::WatchOptions::new("locale");
    /// let options = options.domains(["garden", "orchard"]);
    /// ```
    pub fn domains<T: Into<String>>(mut self, domains: impl IntoIterator<Item = T>) -> WatchOptions {
        self.domains = Some(domains.into_iter().map(Into::into).collect());
        self
    }

    /// Sets how to compile PO files. The default runs no checks and drops fuzzy messages.
    ///
    /// ```
    /// # let options = kobdzila::WatchOptions::new("locale");
    /// let options = options.options(kobdzila::Options::new().checked(true));
    /// ```
    pub fn options(mut self, options: Options) -> WatchOptions {
        self.options = options;
        self
    }

    /// Sets how long a file must be unchanged before it is loaded. Changes within this time of each other become one
    /// publish. The default is 100 milliseconds.
    ///
    /// ```
    /// # let options = kobdzila::WatchOptions::new("locale");
    /// let options = options.settle(std::time::Duration::from_millis(20));
    /// ```
    pub fn settle(mut self, settle: Duration) -> WatchOptions {
        self.settle = settle;
        self
    }

    /// Sets how often to check even if the system reports no change, as for a folder of another machine. The default is
    /// 10 seconds. If the system reports no changes at all, it is at most a second.
    ///
    /// ```
    /// # let options = kobdzila::WatchOptions::new("locale");
    /// let options = options.every(std::time::Duration::from_secs(60));
    /// ```
    pub fn every(mut self, every: Duration) -> WatchOptions {
        self.every = every;
        self
    }

    /// Sets whether a file without messages may replace one that has some. By default it is refused, since it is more
    /// likely a mistake, such as a shell's `>`.
    ///
    /// ```
    /// # let options = kobdzila::WatchOptions::new("locale");
    /// let options = options.accept_empty(true);
    /// ```
    pub fn accept_empty(mut self, accepts: bool) -> WatchOptions {
        self.accepts_empty = accepts;
        self
    }

    /// Sets the function to call with each file that is refused. By default the refusal is printed to standard error.
    ///
    /// The first calls come from [`start`](WatchOptions::start), and later ones from the thread of the watch.
    ///
    /// ```
    /// # let options = kobdzila::WatchOptions::new("locale");
    /// let options = options.refused(|file| eprintln!("not loaded: {file}"));
    /// ```
    pub fn refused(mut self, report: impl FnMut(&FileRefused) + Send + 'static) -> WatchOptions {
        self.refused = Box::new(report);
        self
    }

    /// Loads and publishes the folder's catalogues, and starts the thread that reloads them when they change.
    ///
    /// # Errors
    ///
    /// The folder can't be read, or the system has no thread or no descriptor left.
    ///
    /// ```
    /// use kobdzila::{Store, WatchOptions};
    ///
    /// let store = std::sync::Arc::new(Store::new());
    /// let why = WatchOptions::new("no/such/folder").start(&store).unwrap_err();
    /// assert_eq!(why.kind(), std::io::ErrorKind::NotFound);
    /// ```
    pub fn start(mut self, store: &Arc<Store>) -> io::Result<Watch> {
        fs::read_dir(&self.folder)?;
        // (a server may change its working directory)
        if self.folder.is_relative() {
            self.folder = env::current_dir()?.join(self.folder);
        }
        let (end, ends) = UnixStream::pair()?;
        let changes = Changes::new().ok().map(Arc::new);
        let mut looking = Looking {
            store: Arc::clone(store),
            how: self,
            changes: changes.clone(),
            is_reported: true,
            writing: HashMap::new(),
            seen: HashMap::new(),
            is_pending: false,
            hashes: RandomState::new(),
            ends: ends.try_clone()?,
        };
        looking.look();
        let looking = Arc::new(Mutex::new(looking));
        let shared = Arc::clone(&looking);
        let thread = thread::Builder::new()
            .name("kobdzila watches".to_string())
            .spawn(move || run(&shared, changes.as_deref(), &ends))?;
        Ok(Watch {
            looking,
            end,
            thread: Some(thread),
        })
    }
}

impl fmt::Debug for WatchOptions {
    fn fmt(&self, f: &mut fmt::Formatter<'_>) -> fmt::Result {
        f.debug_struct("WatchOptions")
            .field("folder", &self.folder)
            .field("domains", &self.domains)
            .finish_non_exhaustive()
    }
}

/// A file of a watched folder that was refused.
///
/// It displays as a line that an editor can jump to, such as `fr.po:3: duplicate message`.
///
/// ```
/// # use kobdzila::{Fault, Store, WatchOptions};
/// # let folder = std::env::temp_dir().join(format!("kobdzila-refused-{}", std::process::id()));
/// # std::fs::create_dir_all(folder.join("fr/LC_MESSAGES"))?;
/// # let store = std::sync::Arc::new(Store::new());
/// std::fs::write(folder.join("fr/LC_MESSAGES/garden.po"), "msgid \"Winter\n")?;
/// let _watch = WatchOptions::new(&folder)
///     .refused(|file| {
///         assert!(file.path().ends_with("fr/LC_MESSAGES/garden.po"));
///         assert_eq!((file.line(), file.fault()), (Some(1), Some(Fault::PoOpenString)));
///     })
///     .start(&store)?;
/// # std::fs::remove_dir_all(&folder)?;
/// # Ok::<(), std::io::Error>(())
/// ```
#[derive(Debug)]
pub struct FileRefused {
    path: PathBuf,
    why: Option<Refused>,
}

impl FileRefused {
    /// Returns the path of the file.
    ///
    /// ```
    /// fn name(file: &kobdzila::FileRefused) -> Option<&str> {
    ///     file.path().file_name()?.to_str()
    /// }
    /// ```
    pub fn path(&self) -> &Path {
        &self.path
    }

    /// Returns the reason; `None` if the file is refused only for having no messages.
    ///
    /// ```
    /// fn is_out_of_memory(file: &kobdzila::FileRefused) -> bool {
    ///     file.fault() == Some(kobdzila::Fault::Memory)
    /// }
    /// ```
    pub fn fault(&self) -> Option<Fault> {
        self.why.as_ref().map(Refused::fault)
    }

    /// Returns the line of the PO text, from 1, if the reason has one.
    ///
    /// ```
    /// fn place(file: &kobdzila::FileRefused) -> String {
    ///     format!("{}:{}", file.path().display(), file.line().unwrap_or(1))
    /// }
    /// ```
    pub fn line(&self) -> Option<u32> {
        self.why.as_ref().and_then(Refused::line)
    }
}

impl fmt::Display for FileRefused {
    fn fmt(&self, f: &mut fmt::Formatter<'_>) -> fmt::Result {
        write!(f, "{}:", self.path.display())?;
        if let Some(line) = self.line() {
            write!(f, "{line}:")?;
        }
        match &self.why {
            Some(why) => write!(f, " {why}"),
            None => write!(f, " no message, in place of a catalogue that has some"),
        }
    }
}

impl Error for FileRefused {
    fn source(&self) -> Option<&(dyn Error + 'static)> {
        self.why.as_ref().and_then(Error::source)
    }
}

/// Prints a refusal with its cause, such as `fr.po: file not readable: Permission denied (os error 13)`.
fn print(file: &FileRefused) {
    let cause = file.source().map_or_else(String::new, |it| format!(": {it}"));
    // (`eprintln!` panics if nobody reads standard error any more)
    drop(writeln!(io::stderr(), "{file}{cause}"));
}

/// What changes when a file does.
#[derive(Clone, Copy, Debug, PartialEq, Eq)]
struct Stamp {
    modified: (i64, i64),
    changed: (i64, i64),
    size: u64,
    number: u64,
}

impl Stamp {
    /// Whether the file has changed so lately that a further change may get the same times.
    fn is_recent(&self) -> bool {
        let now = SystemTime::now().duration_since(SystemTime::UNIX_EPOCH);
        let changed = Duration::from_secs(self.changed.0.try_into().unwrap_or(0));
        now.unwrap_or_default().saturating_sub(changed) <= COARSEST
    }
}

/// A file that was looked at. One that couldn't be read, or for which memory ran out, has no hash, and one that was
/// refused isn't loaded.
#[derive(Clone, Copy, Debug)]
struct Seen {
    stamp: Stamp,
    hash: Option<u64>,
    /// Whether it had changed so lately that a further change may leave the stamp as it is.
    is_recent: bool,
    has_messages: bool,
    is_loaded: bool,
}

impl Seen {
    /// Whether the file, with this stamp now, has changed or may have, or wasn't refused for what it has.
    fn is_to_be_loaded(&self, stamp: Stamp) -> bool {
        self.stamp != stamp || self.is_recent || self.hash.is_none()
    }
}

/// What the thread and `look` share.
struct Looking {
    store: Arc<Store>,
    how: WatchOptions,
    changes: Option<Arc<Changes>>,
    /// Whether all folders are reported.
    is_reported: bool,
    /// The files that somebody is writing, by the number under which their folder is reported and by their names, with
    /// the time of the last write. A folder keeps its number when it is renamed, and has one for all of its paths.
    writing: HashMap<(i32, OsString), Instant>,
    /// What was loaded or refused.
    seen: HashMap<PathBuf, Seen>,
    /// Whether a publish failed, so that its loads are still pending.
    is_pending: bool,
    hashes: RandomState,
    ends: UnixStream,
}

impl fmt::Debug for Looking {
    fn fmt(&self, f: &mut fmt::Formatter<'_>) -> fmt::Result {
        f.debug_struct("Looking")
            .field("how", &self.how)
            .field("files", &self.seen.len())
            .finish_non_exhaustive()
    }
}

fn locked(looking: &Mutex<Looking>) -> MutexGuard<'_, Looking> {
    looking.lock().unwrap_or_else(|it| it.into_inner())
}

/// Checks whenever something has changed, until it is told to stop.
fn run(looking: &Mutex<Looking>, changes: Option<&Changes>, ends: &UnixStream) {
    loop {
        let (time, settle) = {
            let looking = locked(looking);
            (looking.pause(), looking.how.settle)
        };
        let is_end = match changes {
            Some(changes) => changes.wait(ends, time),
            None => inotify::wait_for(ends, time),
        };
        if is_end {
            return;
        }
        let _ = catch_unwind(AssertUnwindSafe(|| {
            let mut looking = locked(looking);
            looking.look();
            looking.store.retained(); // (this frees what no reader is in any more)
        }));
        // (a folder in which other files change all the time isn't checked all the time)
        if inotify::wait_for(ends, settle) {
            return;
        }
    }
}

impl Looking {
    fn pause(&self) -> Duration {
        if self.is_reported && self.changes.is_some() {
            self.how.every
        } else {
            self.how.every.min(UNREPORTED)
        }
    }

    fn look(&mut self) -> Option<u64> {
        let changed = self.steady();
        let is_loaded = !changed.is_empty() && self.load(changed);
        if !is_loaded && !self.is_pending {
            return None;
        }
        let published = self.store.publish();
        self.is_pending = published.is_err();
        published.ok()
    }

    /// The files that have changed, once they are complete, so that all of them are one publish.
    fn steady(&mut self) -> HashMap<PathBuf, Stamp> {
        let mut before = self.changed();
        let end = Instant::now() + PATIENCE;
        while !before.is_empty() && !inotify::wait_for(&self.ends, self.how.settle) {
            let after = self.changed();
            let is_over = Instant::now() > end;
            let is_steady = after.iter().all(|(path, stamp)| before.get(path) == Some(stamp));
            if is_steady || is_over {
                return after
                    .into_iter()
                    .filter(|(path, stamp)| before.get(path) == Some(stamp))
                    .collect();
            }
            before = after;
        }
        HashMap::new()
    }

    fn changed(&mut self) -> HashMap<PathBuf, Stamp> {
        self.take_changes();
        let mut found = HashMap::new();
        for (folder, path) in self.paths() {
            if self.is_being_written(folder, &path) {
                continue;
            }
            match stamp_of(&path) {
                Some(stamp) if self.seen.get(&path).map_or(true, |it| it.is_to_be_loaded(stamp)) => {
                    found.insert(path, stamp);
                }
                _ => {}
            }
        }
        found
    }

    /// Notes which files are being written, of those that the system has reported.
    fn take_changes(&mut self) {
        let writing = &mut self.writing;
        let changes = match &self.changes {
            Some(changes) => changes,
            None => return,
        };
        changes.read(|change| {
            let file = (change.folder, change.name.to_os_string());
            if change.mask & inotify::IN_Q_OVERFLOW != 0 {
                writing.clear();
            } else if change.mask & inotify::IN_IGNORED != 0 {
                writing.retain(|(folder, _), _| *folder != change.folder);
            } else if change.mask & inotify::IN_MODIFY != 0 {
                writing.insert(file, Instant::now());
            } else if change.mask & !(inotify::IN_ATTRIB | inotify::IN_CREATE) != 0 {
                writing.remove(&file);
            }
        });
    }

    /// Whether somebody is writing a file of the folder with this number.
    fn is_being_written(&self, folder: Option<i32>, path: &Path) -> bool {
        let file = folder.and_then(|it| Some((it, path.file_name()?.to_os_string())));
        let last = file.and_then(|it| self.writing.get(&it));
        last.map_or(false, |it| it.elapsed() < LONGEST_WRITE)
    }

    /// The files that are catalogues by their names, each with the number of its folder. Their folders are reported from
    /// now on.
    fn paths(&mut self) -> Vec<(Option<i32>, PathBuf)> {
        let mut paths = Vec::new();
        let top = self.how.folder.clone();
        self.is_reported = true;
        self.report(&top);
        for locale in listed(&top).filter(|it| it.is_dir()) {
            self.report(&locale);
            let folder = locale.join("LC_MESSAGES");
            if folder.is_dir() {
                let number = self.report(&folder);
                let wanted = listed(&folder).filter(|it| self.is_wanted(it));
                paths.extend(wanted.map(|it| (number, it)));
            }
        }
        paths
    }

    /// Has the system report this folder, and returns the number under which it does. If it doesn't, not all folders are
    /// reported.
    fn report(&mut self, folder: &Path) -> Option<i32> {
        match self.changes.as_ref()?.add(folder) {
            Ok(number) => Some(number),
            Err(why) => {
                // (a folder that is gone has nothing to report)
                self.is_reported &= why.kind() == io::ErrorKind::NotFound;
                None
            }
        }
    }

    fn is_wanted(&self, path: &Path) -> bool {
        let end = path.extension().and_then(OsStr::to_str);
        let stem = path.file_stem().and_then(OsStr::to_str).unwrap_or("");
        let is_named = |domains: &HashSet<String>| domains.contains(stem);
        matches!(end, Some("mo" | "po")) && !stem.starts_with('.') && self.how.domains.as_ref().map_or(true, is_named)
    }

    /// Loads these files, the one that was modified last at the end, and returns whether one was.
    fn load(&mut self, changed: HashMap<PathBuf, Stamp>) -> bool {
        let mut files: Vec<(PathBuf, Stamp)> = changed.into_iter().collect();
        files.sort_by(|(path, stamp), (other, later)| {
            let key = |path: &Path, stamp: &Stamp| (stamp.modified, is_mo(path), path.to_path_buf());
            key(path, stamp).cmp(&key(other, later))
        });
        let mut is_loaded = false;
        for (path, stamp) in files {
            if self.load_file(path.clone(), stamp) {
                is_loaded = true;
                if let Some((later, its)) = self.later(&path, stamp) {
                    // (as one that is new: the store shows the other one now)
                    self.seen.remove(&later);
                    self.load_file(later, its);
                }
            }
        }
        is_loaded
    }

    /// The file of the other format, if it is loaded and was modified after this one: the one to show.
    fn later(&self, path: &Path, stamp: Stamp) -> Option<(PathBuf, Stamp)> {
        let other = other_format(path);
        let its = self.seen.get(&other).filter(|it| it.is_loaded)?.stamp;
        let is_later = (its.modified, is_mo(&other)) > (stamp.modified, is_mo(path));
        (is_later && stamp_of(&other) == Some(its)).then_some((other, its))
    }

    /// Loads a file. One that has changed once more is looked at next time.
    fn load_file(&mut self, path: PathBuf, stamp: Stamp) -> bool {
        let mut seen = Seen {
            stamp,
            hash: None,
            is_recent: stamp.is_recent(),
            has_messages: self.has_messages(&path),
            is_loaded: false,
        };
        if stamp.size > if is_mo(&path) { MO_BYTES } else { PO_BYTES } {
            let why = Refusal::too_large(is_mo(&path));
            return self.refuse(path, seen, Some(why.into()));
        }
        let read = fs::read(&path);
        if stamp_of(&path) != Some(stamp) {
            return false;
        }
        let bytes = match read {
            Ok(bytes) => bytes,
            Err(why) => return self.refuse(path, seen, Some(Refusal::unreadable(why).into())),
        };
        let mut hasher = self.hashes.build_hasher();
        bytes.hash(&mut hasher);
        seen.hash = Some(hasher.finish());
        if self.is_shown(&path, &seen) {
            seen.is_loaded = self.seen.get(&path).map_or(false, |it| it.is_loaded);
            self.seen.insert(path, seen);
            return false;
        }
        let catalogue = match self.opened(&path, &bytes) {
            Ok(catalogue) => catalogue,
            Err(why) => return self.refuse(path, seen, Some(why)),
        };
        let has_messages = catalogue.entries().any(|it| !it.msgid().is_empty());
        if seen.has_messages && !has_messages && !self.how.accepts_empty {
            return self.refuse(path, seen, None);
        }
        if let Err(why) = self.store.load(Domain(&named(&path, 1)), &named(&path, 3), &catalogue) {
            return self.refuse(path, seen, Some(why));
        }
        seen.has_messages = has_messages;
        seen.is_loaded = true;
        self.seen.insert(path, seen);
        true
    }

    fn opened(&self, path: &Path, bytes: &[u8]) -> Result<Catalogue, Refused> {
        if is_mo(path) {
            Catalogue::from_mo(bytes)
        } else {
            Catalogue::from_po(bytes, self.how.options)
        }
    }

    /// Whether the store has messages from this file, or from that of the other format.
    fn has_messages(&self, path: &Path) -> bool {
        let has = |path: &Path| self.seen.get(path).map_or(false, |it| it.has_messages);
        has(path) || has(&other_format(path))
    }

    /// Whether the file has the bytes that it had, and no file of the other format was loaded after it.
    fn is_shown(&self, path: &Path, now: &Seen) -> bool {
        let before = self.seen.get(path).filter(|it| it.hash == now.hash);
        before.map_or(false, |it| {
            it.stamp == now.stamp || !self.seen.contains_key(&other_format(path))
        })
    }

    fn refuse(&mut self, path: PathBuf, mut seen: Seen, why: Option<Refused>) -> bool {
        let file = FileRefused { path, why };
        if file.fault() == Some(Fault::Memory) {
            seen.hash = None;
        }
        let before = self.seen.insert(file.path.clone(), seen);
        if seen.hash.is_none() && before.map_or(false, |it| it.hash.is_none() && it.stamp == seen.stamp) {
            return false; // (it was reported when it was tried before)
        }
        let report = &mut self.how.refused;
        let _ = catch_unwind(AssertUnwindSafe(|| report(&file)));
        false
    }
}

fn is_mo(path: &Path) -> bool {
    path.extension() == Some(OsStr::new("mo"))
}

fn other_format(path: &Path) -> PathBuf {
    path.with_extension(if is_mo(path) { "po" } else { "mo" })
}

/// The text domain, which is the last part of the path, or the locale, which is the last but two. One that isn't UTF-8
/// is no name.
fn named(path: &Path, from_end: usize) -> String {
    let part = path.iter().rev().nth(from_end - 1).map(Path::new);
    let part = if from_end == 1 {
        part.and_then(Path::file_stem)
    } else {
        part.map(Path::as_os_str)
    };
    part.and_then(OsStr::to_str).unwrap_or("").to_string()
}

/// The paths in a folder, or none if it can't be read.
fn listed(folder: &Path) -> impl Iterator<Item = PathBuf> {
    fs::read_dir(folder).into_iter().flatten().flatten().map(|it| it.path())
}

/// A regular file's stamp, or `None` if there is no such file.
fn stamp_of(path: &Path) -> Option<Stamp> {
    let status = fs::metadata(path).ok().filter(fs::Metadata::is_file)?;
    Some(Stamp {
        modified: (status.mtime(), status.mtime_nsec()),
        changed: (status.ctime(), status.ctime_nsec()),
        size: status.size(),
        number: status.ino(),
    })
}
