//! A safe handle for each type of the C library.
//!
//! All calls of `kobdzila-sys` are here, and with them the `unsafe` code of this crate; `sys/inotify.rs` has the calls
//! of the C library's own. A safety comment that cites the header means its words, which the manual pages repeat.

use std::ffi::{CStr, CString};
use std::io;
use std::marker::PhantomData;
use std::os::raw::c_ulonglong;
use std::ptr::{self, NonNull};
use std::slice;

use kobdzila_sys::*;
pub use kobdzila_sys::{KOB_CHECKED, KOB_MO, KOB_PO, KOB_USE_FUZZY};

use crate::question::Question;

#[cfg(feature = "watch")]
pub mod inotify;

/// Why the library refused a call. `file` is what errno said, if a file couldn't be read.
pub struct Refusal {
    pub fault: u32,
    pub line: u32,
    pub file: Option<io::Error>,
}

impl Refusal {
    fn without_line(fault: u32) -> Refusal {
        Refusal {
            fault,
            line: 0,
            file: None,
        }
    }

    pub fn bad_name() -> Refusal {
        Refusal::without_line(KOB_BAD_NAME)
    }

    /// The result of a function that returns NULL only if memory runs out.
    pub fn memory() -> Refusal {
        Refusal::without_line(KOB_MEMORY)
    }

    /// What the library says of a file that couldn't be read for this reason.
    pub fn unreadable(why: io::Error) -> Refusal {
        Refusal {
            fault: KOB_UNREADABLE,
            line: 0,
            file: Some(why),
        }
    }

    /// What the library says of an MO file, or of a PO file, that has more bytes than one may have.
    #[cfg(feature = "watch")]
    pub fn too_large(is_mo: bool) -> Refusal {
        Refusal::without_line(if is_mo { KOB_MO_TOO_LARGE } else { KOB_PO_TOO_LARGE })
    }

    /// What the library says of a file whose name it can't be given, since it contains a NUL.
    pub fn name_with_nul() -> Refusal {
        Refusal::unreadable(io::Error::from(io::ErrorKind::InvalidInput))
    }
}

/// No reason yet: what a call may write to.
const NO_REFUSAL: kob_refusal = kob_refusal {
    fault: KOB_NO_FAULT,
    line: 0,
};

/// The reason with its cause. Nothing that could change errno may have run since the call that stored it.
fn with_cause(why: kob_refusal) -> Refusal {
    Refusal {
        fault: why.fault,
        line: why.line,
        file: (why.fault == KOB_UNREADABLE).then(io::Error::last_os_error),
    }
}

/// What `call` returns, or why it returned NULL. `call` has to be one of the functions that store the reason then.
fn returned<T>(call: impl FnOnce(*mut kob_refusal) -> *mut T) -> Result<NonNull<T>, Refusal> {
    let mut why = NO_REFUSAL;
    NonNull::new(call(&mut why)).ok_or_else(|| with_cause(why))
}

const NO_TEXT: kob_text = kob_text {
    at: ptr::null(),
    len: 0,
};

#[inline]
fn text(text: &str) -> kob_text {
    kob_text {
        at: text.as_ptr().cast(),
        len: text.len(),
    }
}

/// The bytes that the library returned, if there are any.
///
/// # Safety
///
/// The library returned this text, and the catalogue or set that it belongs to lives for `'a`.
#[inline]
unsafe fn bytes_of<'a>(returned: kob_text) -> Option<&'a [u8]> {
    if returned.at.is_null() {
        return None;
    }
    // SAFETY: the header: a string that is returned is valid until its catalogue or set is freed, and is never changed.
    // The caller keeps that alive for 'a.
    Some(unsafe { slice::from_raw_parts(returned.at.cast(), returned.len) })
}

/// The text that the library returned, if there is one.
///
/// # Safety
///
/// As for [`bytes_of`], and it isn't the text of `kob_mo_file`.
#[inline]
unsafe fn str_of<'a>(returned: kob_text) -> Option<&'a str> {
    // SAFETY: what this function asks for.
    let bytes = unsafe { bytes_of(returned) }?;
    debug_assert!(std::str::from_utf8(bytes).is_ok());
    // SAFETY: the header: strings are UTF-8. Files with others are refused as KOB_MO_BAD_TEXT and KOB_PO_NOT_UTF8.
    Some(unsafe { std::str::from_utf8_unchecked(bytes) })
}

/// A question for C. It has the addresses of the texts and of the number, so `question` has to outlive it.
#[inline]
fn asked(question: &Question<'_>) -> kob_question {
    kob_question {
        context: question.context.map_or(NO_TEXT, text),
        msgid: text(question.msgid),
        n: question
            .number
            .as_ref()
            .map_or(ptr::null(), |n| n as *const c_ulonglong),
    }
}

/// How many questions the library looks up at once.
const BLOCK: usize = 32;

/// The answers to questions, in their order.
///
/// # Safety
///
/// `call` stores as many texts as it is given questions, and the catalogue or set that these belong to lives for `'a`.
unsafe fn answers<'a>(
    questions: &[Question<'_>],
    call: impl Fn(*const kob_question, usize, *mut kob_text),
) -> Vec<Option<&'a str>> {
    const NONE: kob_question = kob_question {
        context: NO_TEXT,
        msgid: NO_TEXT,
        n: ptr::null(),
    };
    let mut answers = Vec::with_capacity(questions.len());
    let (mut block, mut found) = ([NONE; BLOCK], [NO_TEXT; BLOCK]);
    for some in questions.chunks(BLOCK) {
        for (slot, question) in block.iter_mut().zip(some) {
            *slot = asked(question);
        }
        call(block.as_ptr(), some.len(), found.as_mut_ptr());
        // SAFETY: what this function asks for.
        answers.extend(found[..some.len()].iter().map(|it| unsafe { str_of(*it) }));
    }
    answers
}

/// The version of the library that was loaded.
pub fn version() -> &'static str {
    // SAFETY: the function has no condition, and its string is static and terminated by NUL.
    let version = unsafe { CStr::from_ptr(kob_version()) };
    version.to_str().unwrap_or("")
}

/// The library's description of a fault.
pub fn fault_text(fault: u32) -> &'static str {
    // SAFETY: the function takes any number, and its string is static and terminated by NUL.
    let text = unsafe { CStr::from_ptr(kob_fault_text(fault)) };
    text.to_str().unwrap_or("")
}

/// One reference to a catalogue.
pub struct Catalogue(NonNull<kob_catalogue>);

// SAFETY: the header: any number of threads may use one catalogue at once. The reference count is atomic, and the last
// reference may be dropped by any thread.
unsafe impl Send for Catalogue {}
// SAFETY: as for Send: a shared reference allows look-ups and `clone` alone.
unsafe impl Sync for Catalogue {}

impl Clone for Catalogue {
    fn clone(&self) -> Catalogue {
        // SAFETY: `self` has a reference, so the catalogue is alive; the new reference is the result's.
        unsafe { kob_retain(self.0.as_ptr()) };
        Catalogue(self.0)
    }
}

impl Drop for Catalogue {
    fn drop(&mut self) {
        // SAFETY: this drops the reference that `self` has, once. No string of the catalogue outlives `self`, as each
        // borrows it.
        unsafe { kob_release(self.0.as_ptr()) }
    }
}

/// The strings of an entry, and how many forms it has.
#[derive(Clone, Copy)]
pub struct EntryStrings<'a> {
    pub context: Option<&'a str>,
    pub msgid: &'a str,
    pub plural: Option<&'a str>,
    pub forms: usize,
}

impl Catalogue {
    pub fn from_mo(bytes: &[u8]) -> Result<Catalogue, Refusal> {
        // SAFETY: the bytes are `len` readable bytes, which the library copies, and `why` may be written to.
        returned(|why| unsafe { kob_open_mo(bytes.as_ptr().cast(), bytes.len(), why) }).map(Catalogue)
    }

    pub fn from_po(bytes: &[u8], options: u32) -> Result<Catalogue, Refusal> {
        // SAFETY: as for `from_mo`; `options` may be any number.
        returned(|why| unsafe { kob_open_po(bytes.as_ptr().cast(), bytes.len(), options, why) }).map(Catalogue)
    }

    /// Opens a file, where `kind` is `KOB_MO` or `KOB_PO`.
    pub fn open(name: &CStr, kind: u32, options: u32) -> Result<Catalogue, Refusal> {
        // SAFETY: the name is terminated by NUL, and `why` may be written to.
        returned(|why| unsafe { kob_open_file(name.as_ptr(), kind, options, why) }).map(Catalogue)
    }

    #[inline]
    pub fn find(&self, question: &Question<'_>) -> Option<&str> {
        let asked = asked(question);
        // SAFETY: `self` keeps the catalogue alive; the texts and the number are readable until the call returns.
        let found = unsafe { kob_find(self.0.as_ptr(), asked.context, asked.msgid, asked.n) };
        // SAFETY: the text belongs to the catalogue, which the result borrows.
        unsafe { str_of(found) }
    }

    pub fn find_many(&self, questions: &[Question<'_>]) -> Vec<Option<&str>> {
        // SAFETY: `self` keeps the catalogue alive, and the result borrows it. The texts and numbers are readable until
        // the call returns, and it stores `count` answers.
        unsafe {
            answers(questions, |asked, count, found| {
                kob_find_many(self.0.as_ptr(), asked, count, found)
            })
        }
    }

    pub fn count(&self) -> usize {
        // SAFETY: `self` keeps the catalogue alive.
        unsafe { kob_count(self.0.as_ptr()) }
    }

    pub fn entry_at(&self, index: usize) -> Option<EntryStrings<'_>> {
        let mut entry = kob_entry {
            context: NO_TEXT,
            msgid: NO_TEXT,
            plural: NO_TEXT,
            forms: 0,
        };
        // SAFETY: `self` keeps the catalogue alive, any index may be asked for, and `entry` may be written to.
        if unsafe { kob_entry_at(self.0.as_ptr(), index, &mut entry) } == 0 {
            return None;
        }
        // SAFETY: the texts belong to the catalogue, which the result borrows.
        let [context, msgid, plural] = [entry.context, entry.msgid, entry.plural].map(|it| unsafe { str_of(it) });
        Some(EntryStrings {
            context,
            msgid: msgid.unwrap_or(""),
            plural,
            forms: entry.forms,
        })
    }

    pub fn form_at(&self, index: usize, form: usize) -> Option<&str> {
        // SAFETY: `self` keeps the catalogue alive, and any two indexes may be asked for.
        let found = unsafe { kob_form_at(self.0.as_ptr(), index, form) };
        // SAFETY: the text belongs to the catalogue, which the result borrows.
        unsafe { str_of(found) }
    }

    pub fn mo_file(&self) -> &[u8] {
        // SAFETY: `self` keeps the catalogue alive.
        let file = unsafe { kob_mo_file(self.0.as_ptr()) };
        // SAFETY: the bytes belong to the catalogue, which the result borrows.
        unsafe { bytes_of(file) }.unwrap_or(&[])
    }
}

/// One reference to a set of catalogues.
pub struct Set(NonNull<kob_set>);

// SAFETY: a set is immutable and counts its references atomically, as a catalogue does.
unsafe impl Send for Set {}
// SAFETY: as for Send.
unsafe impl Sync for Set {}

impl Clone for Set {
    fn clone(&self) -> Set {
        // SAFETY: `self` has a reference, so the set is alive; the new reference is the result's.
        unsafe { kob_set_retain(self.0.as_ptr()) };
        Set(self.0)
    }
}

impl Drop for Set {
    fn drop(&mut self) {
        // SAFETY: this drops the reference that `self` has, once, and no string of the set outlives `self`.
        unsafe { kob_set_release(self.0.as_ptr()) }
    }
}

/// The domain and the locale of a catalogue, for C. One with a NUL is no name.
fn names(domain: &str, locale: &str) -> Result<(CString, CString), Refusal> {
    match (CString::new(domain), CString::new(locale)) {
        (Ok(domain), Ok(locale)) => Ok((domain, locale)),
        _ => Err(Refusal::bad_name()),
    }
}

impl Set {
    /// An empty set; `None` if memory runs out.
    pub fn new() -> Option<Set> {
        // SAFETY: the function has no condition.
        NonNull::new(unsafe { kob_set_new() }).map(Set)
    }

    pub fn with(&self, domain: &str, locale: &str, catalogue: &Catalogue) -> Result<Set, Refusal> {
        let (domain, locale) = names(domain, locale)?;
        let (set, catalogue) = (self.0.as_ptr(), catalogue.0.as_ptr());
        // SAFETY: both handles are alive, and the new set takes references of its own; the names are terminated by NUL,
        // and `why` may be written to.
        returned(|why| unsafe { kob_set_with(set, domain.as_ptr(), locale.as_ptr(), catalogue, why) }).map(Set)
    }

    pub fn with_installed(&self, folder: &CStr, domain: &str, locale: &str) -> Result<Set, Refusal> {
        let (domain, locale) = names(domain, locale)?;
        let set = self.0.as_ptr();
        // SAFETY: as for `with`; the folder is terminated by NUL as well.
        returned(|why| unsafe { kob_set_open(set, folder.as_ptr(), domain.as_ptr(), locale.as_ptr(), why) }).map(Set)
    }

    pub fn version(&self) -> u64 {
        // SAFETY: `self` keeps the set alive.
        unsafe { kob_set_version(self.0.as_ptr()) }
    }

    #[inline]
    pub fn find(&self, names: [&str; 2], question: &Question<'_>) -> Option<&str> {
        // SAFETY: `self` keeps the set alive, and the result borrows it.
        unsafe { find_in(self.0.as_ptr(), names, question) }
    }

    #[inline]
    pub fn languages<'a>(&'a self, names: [&'a str; 2]) -> Languages<'a> {
        // SAFETY: `self` keeps the set alive, and the result borrows it.
        unsafe { Languages::new(self.0.as_ptr(), names) }
    }
}

/// Looks up in a set, in a text domain and a list of languages.
///
/// # Safety
///
/// The set is valid, and so are its answers for `'a`.
#[inline]
unsafe fn find_in<'a>(set: *const kob_set, names: [&str; 2], question: &Question<'_>) -> Option<&'a str> {
    let ([domain, languages], asked) = (names.map(text), asked(question));
    // SAFETY: the set is valid; the texts and the number are readable until the call returns.
    let found = unsafe { kob_set_find(set, domain, languages, asked.context, asked.msgid, asked.n) };
    // SAFETY: the text belongs to a catalogue of the set, whose answers are valid for 'a.
    unsafe { str_of(found) }
}

/// A list of languages that was looked at once in a set. It borrows the set and its two texts for 'a. It has a pointer,
/// so it is neither Send nor Sync: a look-up in a set that a reader lends is a call of the reader.
#[derive(Clone, Copy)]
pub struct Languages<'a> {
    list: kob_languages,
    set: PhantomData<&'a str>,
}

impl<'a> Languages<'a> {
    /// Looks at a list.
    ///
    /// # Safety
    ///
    /// The set is valid for `'a`, and so are its answers.
    #[inline]
    unsafe fn new(set: *const kob_set, names: [&'a str; 2]) -> Languages<'a> {
        let [domain, languages] = names.map(text);
        Languages {
            // SAFETY: the set is valid, and the texts are readable for 'a.
            list: unsafe { kob_set_languages(set, domain, languages) },
            set: PhantomData,
        }
    }

    #[inline]
    pub fn find(&self, question: &Question<'_>) -> Option<&'a str> {
        let asked = asked(question);
        // SAFETY: the set and the list's texts are valid for 'a; the other texts and the number are readable until the
        // call returns.
        let found = unsafe { kob_languages_find(&self.list, asked.context, asked.msgid, asked.n) };
        // SAFETY: the text belongs to a catalogue of the set, whose answers are valid for 'a.
        unsafe { str_of(found) }
    }

    pub fn find_many(&self, questions: &[Question<'_>]) -> Vec<Option<&'a str>> {
        // SAFETY: the set, its answers and the list's texts are valid for 'a. The questions' texts and numbers are
        // readable until the call returns, and it stores `count` answers.
        unsafe {
            answers(questions, |asked, count, found| {
                kob_languages_find_many(&self.list, asked, count, found)
            })
        }
    }
}

/// A live store.
pub struct Store(NonNull<kob_store>);

// SAFETY: the header: any number of threads may use one store at once. So any of them may free it, once no other does.
unsafe impl Send for Store {}
// SAFETY: as for Send. A lock of the store's own puts the calls of several threads in order.
unsafe impl Sync for Store {}

impl Drop for Store {
    fn drop(&mut self) {
        // SAFETY: this frees the store once, and no call is using it, as each borrows it. Its readers and notices may
        // be freed before or after it.
        unsafe { kob_store_free(self.0.as_ptr()) }
    }
}

impl Store {
    /// A store that has published the empty set; `None` if memory runs out.
    pub fn new() -> Option<Store> {
        // SAFETY: the function has no condition.
        NonNull::new(unsafe { kob_store_new() }).map(Store)
    }

    pub fn load(&self, domain: &str, locale: &str, catalogue: &Catalogue) -> Result<(), Refusal> {
        let (domain, locale) = names(domain, locale)?;
        let (store, catalogue) = (self.0.as_ptr(), catalogue.0.as_ptr());
        let mut why = NO_REFUSAL;
        // SAFETY: both handles are alive, and the store shares the catalogue; the names are terminated by NUL, and
        // `why` may be written to.
        let loaded = unsafe { kob_store_load(store, domain.as_ptr(), locale.as_ptr(), catalogue, &mut why) };
        if loaded == 0 {
            return Err(with_cause(why));
        }
        Ok(())
    }

    /// The version that is published then; `None` if memory ran out, or the store was busy.
    pub fn publish(&self) -> Option<u64> {
        let mut version = 0;
        // SAFETY: `self` keeps the store alive, and `version` may be written to.
        let published = unsafe { kob_store_publish(self.0.as_ptr(), &mut version) };
        (published != 0).then_some(version)
    }

    pub fn version(&self) -> u64 {
        // SAFETY: `self` keeps the store alive.
        unsafe { kob_store_version(self.0.as_ptr()) }
    }

    pub fn pending(&self) -> u64 {
        // SAFETY: `self` keeps the store alive.
        unsafe { kob_store_pending(self.0.as_ptr()) }
    }

    pub fn retained(&self) -> usize {
        // SAFETY: `self` keeps the store alive.
        unsafe { kob_store_retained(self.0.as_ptr()) }
    }

    /// A notice of what is published; refused only if memory runs out.
    pub fn notice(&self) -> Result<Notice, Refusal> {
        // SAFETY: `self` keeps the store alive.
        let notice = NonNull::new(unsafe { kob_store_notice(self.0.as_ptr()) });
        notice.map(Notice).ok_or_else(Refusal::memory)
    }

    /// A reader that has entered what is published; refused only if memory runs out.
    pub fn reader(&self) -> Result<Reader, Refusal> {
        // SAFETY: `self` keeps the store alive.
        let reader = NonNull::new(unsafe { kob_store_reader(self.0.as_ptr()) });
        reader.map(Reader).ok_or_else(Refusal::memory)
    }
}

/// Proof that a version was published.
pub struct Notice(NonNull<kob_notice>);

// SAFETY: the header: a notice may be passed to another thread. It is in one call at a time, so it isn't Sync.
unsafe impl Send for Notice {}

impl Drop for Notice {
    fn drop(&mut self) {
        // SAFETY: this frees the notice once, and no call is using it. Its store needn't live any more.
        unsafe { kob_notice_free(self.0.as_ptr()) }
    }
}

/// One thread's access to a live store.
pub struct Reader(NonNull<kob_reader>);

// SAFETY: the header: a reader may move between threads. It is in one call at a time, so it isn't Sync.
unsafe impl Send for Reader {}

impl Drop for Reader {
    fn drop(&mut self) {
        // SAFETY: this frees the reader once. No snapshot outlives `self`, as each borrows it, so neither a call nor an
        // answer is using it. Its store needn't live any more.
        unsafe { kob_reader_free(self.0.as_ptr()) }
    }
}

impl Reader {
    #[inline]
    pub fn enter(&mut self) -> Snapshot<'_> {
        // SAFETY: `self` keeps the reader alive. No snapshot of an earlier entry is left, since it would borrow `self`,
        // and so no answer of one.
        let set = unsafe { kob_reader_enter(self.0.as_ptr()) };
        Snapshot {
            set,
            reader: PhantomData,
        }
    }

    /// An entry that isn't older than the notice; `None` if the notice is of another store.
    #[inline]
    pub fn enter_after(&mut self, notice: &Notice) -> Option<Snapshot<'_>> {
        // SAFETY: as for `enter`; the notice is alive too, and in no other call, as it isn't Sync.
        let set = unsafe { kob_reader_enter_after(self.0.as_ptr(), notice.0.as_ptr()) };
        (!set.is_null()).then_some(Snapshot {
            set,
            reader: PhantomData,
        })
    }

    pub fn leave(&mut self) {
        // SAFETY: `self` keeps the reader alive. No snapshot of an entry is left, since it would borrow `self`, and so
        // no answer of one.
        unsafe { kob_reader_leave(self.0.as_ptr()) }
    }

    pub fn version(&self) -> u64 {
        // SAFETY: `self` keeps the reader alive.
        unsafe { kob_reader_version(self.0.as_ptr()) }
    }
}

/// The set that a reader has entered, for as long as it borrows the reader. The set isn't null.
pub struct Snapshot<'a> {
    set: *const kob_set,
    reader: PhantomData<&'a mut Reader>,
}

// SAFETY: a snapshot is the only access to its reader, which may move between threads. A look-up is a call of the
// reader, so a snapshot isn't Sync either.
unsafe impl Send for Snapshot<'_> {}

impl<'a> Snapshot<'a> {
    pub fn version(&self) -> u64 {
        // SAFETY: the header: the set is valid until its reader's next entry or end, and neither comes within 'a.
        unsafe { kob_set_version(self.set) }
    }

    #[inline]
    pub fn find(&self, names: [&str; 2], question: &Question<'_>) -> Option<&'a str> {
        // SAFETY: the header: the set and its answers are valid until its reader's next entry or end, and neither comes
        // within 'a.
        unsafe { find_in(self.set, names, question) }
    }

    /// A list in index of the snapshot. A list isn't Send, so no other thread uses the reader until it is gone.
    #[inline]
    pub fn into_languages(self, names: [&'a str; 2]) -> Languages<'a> {
        // SAFETY: the header: the set and its answers are valid until its reader's next entry or end, and neither comes
        // within 'a.
        unsafe { Languages::new(self.set, names) }
    }

    /// A list, which borrows the snapshot: so neither is used in another thread at the same time.
    #[inline]
    pub fn languages<'b>(&'b self, names: [&'b str; 2]) -> Languages<'b> {
        // SAFETY: the header: the set and its answers are valid until its reader's next entry or end, and neither comes
        // within 'a, which is longer than 'b.
        unsafe { Languages::new(self.set, names) }
    }
}
