//! The calls of libkobdzila that the crate `kobdzila` makes, in Rust, for Miri: it can't call C.
//!
//! Each string is an allocation of its own, and what a reader lends is copied at each entry and freed at the next one.
//! So an answer that outlives its catalogue or its entry is a use after free, which Miri reports. A look-up in what a
//! reader lends writes to the reader without a lock, so that two threads which look up there are a data race. It reads
//! only the plainest PO files, and no MO files. The plural rule is `n != 1`, or `n > 1` if the header says so.

use std::collections::BTreeMap;
use std::ffi::CStr;
use std::os::raw::{c_char, c_int, c_uint, c_ulonglong, c_void};
use std::ptr;
use std::slice;
use std::sync::atomic::{AtomicUsize, Ordering};
use std::sync::{Arc, Mutex};

use crate::*;

mod po;
use po::Entry;

const NONE: kob_text = kob_text {
    at: ptr::null(),
    len: 0,
};

/// What a `kob_catalogue` is here.
struct Catalogue {
    references: AtomicUsize,
    entries: Vec<Entry>,
    is_french: bool,
    file: Box<[u8]>,
}

/// What a `kob_set` is here. One that a reader lends has a number that its look-ups write to.
#[derive(Clone, Default)]
struct Set {
    catalogues: BTreeMap<(String, String), Arc<Catalogue>>,
    version: u64,
}

struct HeldSet {
    references: AtomicUsize,
    set: Set,
    calls: Option<*mut u64>,
}

#[derive(Default)]
struct State {
    published: Set,
    pending: Vec<(String, String, Arc<Catalogue>)>,
}

/// What a `kob_store` is here.
struct Store(Arc<Mutex<State>>);

/// What a `kob_notice` is here.
struct Notice(Arc<Mutex<State>>);

/// What a `kob_reader` is here.
struct Reader {
    state: Arc<Mutex<State>>,
    lent: *mut HeldSet,
    calls: *mut u64,
}

impl Catalogue {
    fn new(entries: Vec<Entry>) -> Catalogue {
        let is_french = entries
            .iter()
            .any(|it| it.msgid.is_empty() && it.forms[0].contains("n>1"));
        Catalogue {
            references: AtomicUsize::new(1),
            entries,
            is_french,
            file: 0x9504_12de_u32.to_le_bytes().into_iter().chain([0; 24]).collect(),
        }
    }

    fn copied(&self) -> Arc<Catalogue> {
        Arc::new(Catalogue::new(self.entries.clone()))
    }

    fn find(&self, context: Option<&str>, msgid: &str, n: Option<u64>) -> Option<&str> {
        let (context, msgid) = match (context, msgid.split_once('\u{4}')) {
            (None, Some((context, msgid))) => (Some(context), msgid),
            _ => (context, msgid),
        };
        let is_it = |it: &&Entry| it.context.as_deref() == context && &*it.msgid == msgid;
        let forms = &self.entries.iter().find(is_it)?.forms;
        let is_many = n.map_or(false, |n| if self.is_french { n > 1 } else { n != 1 });
        forms
            .get(usize::from(is_many))
            .or_else(|| forms.first())
            .map(|it| &**it)
    }
}

fn text_of(found: Option<&str>) -> kob_text {
    found.map_or(NONE, |it| kob_text {
        at: it.as_ptr().cast(),
        len: it.len(),
    })
}

/// # Safety
///
/// The text is readable UTF-8, for as long as the result is used.
unsafe fn str_of<'a>(text: kob_text) -> Option<&'a str> {
    if text.at.is_null() {
        return None;
    }
    // SAFETY: what this function asks for.
    unsafe { std::str::from_utf8(slice::from_raw_parts(text.at.cast(), text.len)).ok() }
}

/// # Safety
///
/// The name is terminated by NUL.
unsafe fn name_of(name: *const c_char) -> Option<String> {
    // SAFETY: what this function asks for.
    let name = unsafe { CStr::from_ptr(name) }.to_str().ok()?;
    let is_allowed = |it: u8| it.is_ascii_alphanumeric() || b"_-.@+".contains(&it);
    ((1..=64).contains(&name.len()) && name.bytes().all(is_allowed)).then(|| name.to_string())
}

unsafe fn refuse<T>(why: *mut kob_refusal, fault: c_uint, line: c_uint) -> *mut T {
    // SAFETY: `why` may be written to.
    unsafe { *why = kob_refusal { fault, line } };
    ptr::null_mut()
}

pub unsafe fn kob_version() -> *const c_char {
    b"0.2.0\0".as_ptr().cast()
}

pub unsafe fn kob_fault_text(fault: c_uint) -> *const c_char {
    let text: &[u8] = match fault {
        KOB_PO_DUPLICATE => b"duplicate message\0",
        KOB_BAD_NAME => b"not a name\0",
        KOB_UNREADABLE => b"file not readable\0",
        _ => b"refused\0",
    };
    text.as_ptr().cast()
}

pub unsafe fn kob_open_mo(_bytes: *const c_void, len: usize, why: *mut kob_refusal) -> *mut kob_catalogue {
    let fault = if len < 28 { KOB_MO_SHORT } else { KOB_MO_MAGIC };
    // SAFETY: as for the caller.
    unsafe { refuse(why, fault, 0) }
}

pub unsafe fn kob_open_po(
    bytes: *const c_void,
    len: usize,
    options: c_uint,
    why: *mut kob_refusal,
) -> *mut kob_catalogue {
    // SAFETY: the bytes are readable.
    let bytes = unsafe { slice::from_raw_parts(bytes.cast(), len) };
    match po::entries_of(bytes, options & KOB_USE_FUZZY != 0) {
        Ok(entries) => Box::into_raw(Box::new(Catalogue::new(entries))).cast(),
        // SAFETY: as for the caller.
        Err((fault, line)) => unsafe { refuse(why, fault, line) },
    }
}

pub unsafe fn kob_open_file(
    _name: *const c_char,
    _kind: c_uint,
    _options: c_uint,
    why: *mut kob_refusal,
) -> *mut kob_catalogue {
    // SAFETY: as for the caller.
    unsafe { refuse(why, KOB_UNREADABLE, 0) }
}

pub unsafe fn kob_retain(catalogue: *mut kob_catalogue) -> *mut kob_catalogue {
    // SAFETY: the caller has a reference.
    let held = unsafe { &*catalogue.cast::<Catalogue>() };
    held.references.fetch_add(1, Ordering::Relaxed);
    catalogue
}

pub unsafe fn kob_release(catalogue: *mut kob_catalogue) {
    // SAFETY: the caller has a reference, and drops it.
    if unsafe { &*catalogue.cast::<Catalogue>() }
        .references
        .fetch_sub(1, Ordering::AcqRel)
        == 1
    {
        // SAFETY: it was the last one.
        drop(unsafe { Box::from_raw(catalogue.cast::<Catalogue>()) });
    }
}

pub unsafe fn kob_find(
    catalogue: *const kob_catalogue,
    context: kob_text,
    msgid: kob_text,
    n: *const c_ulonglong,
) -> kob_text {
    // SAFETY: the catalogue is alive, and the texts and the number are readable.
    unsafe {
        let catalogue = &*catalogue.cast::<Catalogue>();
        text_of(catalogue.find(str_of(context), str_of(msgid).unwrap_or(""), n.as_ref().copied()))
    }
}

pub unsafe fn kob_find_many(
    catalogue: *const kob_catalogue,
    questions: *const kob_question,
    count: usize,
    answers: *mut kob_text,
) {
    for i in 0..count {
        // SAFETY: there are `count` of both.
        unsafe {
            let it = &*questions.add(i);
            *answers.add(i) = kob_find(catalogue, it.context, it.msgid, it.n);
        }
    }
}

pub unsafe fn kob_count(catalogue: *const kob_catalogue) -> usize {
    // SAFETY: the catalogue is alive.
    unsafe { &*catalogue.cast::<Catalogue>() }.entries.len()
}

pub unsafe fn kob_entry_at(catalogue: *const kob_catalogue, index: usize, entry: *mut kob_entry) -> c_int {
    // SAFETY: the catalogue is alive.
    let entries = unsafe { &(*catalogue.cast::<Catalogue>()).entries };
    let found = match entries.get(index) {
        Some(found) => found,
        None => return 0,
    };
    // SAFETY: `entry` may be written to.
    unsafe {
        *entry = kob_entry {
            context: text_of(found.context.as_deref()),
            msgid: text_of(Some(&found.msgid)),
            plural: text_of(found.plural.as_deref()),
            forms: found.forms.len(),
        };
    }
    1
}

pub unsafe fn kob_form_at(catalogue: *const kob_catalogue, index: usize, form: usize) -> kob_text {
    // SAFETY: the catalogue is alive.
    let entries = unsafe { &(*catalogue.cast::<Catalogue>()).entries };
    text_of(entries.get(index).and_then(|it| it.forms.get(form)).map(|it| &**it))
}

pub unsafe fn kob_mo_file(catalogue: *const kob_catalogue) -> kob_text {
    // SAFETY: the catalogue is alive.
    let file = unsafe { &(*catalogue.cast::<Catalogue>()).file };
    kob_text {
        at: file.as_ptr().cast(),
        len: file.len(),
    }
}

fn held(set: Set, calls: Option<*mut u64>) -> *mut HeldSet {
    Box::into_raw(Box::new(HeldSet {
        references: AtomicUsize::new(1),
        set,
        calls,
    }))
}

pub unsafe fn kob_set_new() -> *mut kob_set {
    held(Set::default(), None).cast()
}

pub unsafe fn kob_set_with(
    set: *const kob_set,
    domain: *const c_char,
    locale: *const c_char,
    catalogue: *const kob_catalogue,
    why: *mut kob_refusal,
) -> *mut kob_set {
    // SAFETY: both handles are alive, and the names are terminated by NUL.
    unsafe {
        let name = name_of(domain).zip(name_of(locale));
        let name = match name {
            Some(name) => name,
            None => return refuse(why, KOB_BAD_NAME, 0),
        };
        let mut set = (*set.cast::<HeldSet>()).set.clone();
        set.catalogues.insert(name, (*catalogue.cast::<Catalogue>()).copied());
        set.version += 1;
        held(set, None).cast()
    }
}

pub unsafe fn kob_set_open(
    _set: *const kob_set,
    _folder: *const c_char,
    _domain: *const c_char,
    _locale: *const c_char,
    why: *mut kob_refusal,
) -> *mut kob_set {
    // SAFETY: as for the caller.
    unsafe { refuse(why, KOB_UNREADABLE, 0) }
}

pub unsafe fn kob_set_retain(set: *mut kob_set) -> *mut kob_set {
    // SAFETY: the caller has a reference.
    unsafe { &*set.cast::<HeldSet>() }
        .references
        .fetch_add(1, Ordering::Relaxed);
    set
}

pub unsafe fn kob_set_release(set: *mut kob_set) {
    // SAFETY: the caller has a reference, and drops it.
    if unsafe { &*set.cast::<HeldSet>() }
        .references
        .fetch_sub(1, Ordering::AcqRel)
        == 1
    {
        // SAFETY: it was the last one.
        drop(unsafe { Box::from_raw(set.cast::<HeldSet>()) });
    }
}

pub unsafe fn kob_set_version(set: *const kob_set) -> c_ulonglong {
    // SAFETY: the set is alive.
    unsafe { &*set.cast::<HeldSet>() }.set.version
}

pub unsafe fn kob_set_languages(set: *const kob_set, domain: kob_text, languages: kob_text) -> kob_languages {
    kob_languages {
        set,
        domain,
        languages,
        count: 17,
        places: [0; 16],
    }
}

pub unsafe fn kob_languages_find(
    list: *const kob_languages,
    context: kob_text,
    msgid: kob_text,
    n: *const c_ulonglong,
) -> kob_text {
    // SAFETY: the list, its set and its texts are alive, and the other texts and the number are readable.
    unsafe {
        let held = &*(*list).set.cast::<HeldSet>();
        if let Some(calls) = held.calls {
            *calls += 1;
        }
        let domain = str_of((*list).domain).unwrap_or("");
        let (context, msgid, n) = (str_of(context), str_of(msgid).unwrap_or(""), n.as_ref().copied());
        for locale in locales_of(str_of((*list).languages).unwrap_or("")) {
            let catalogue = held.set.catalogues.get(&(domain.to_string(), locale));
            if let Some(found) = catalogue.and_then(|it| it.find(context, msgid, n)) {
                return text_of(Some(found));
            }
        }
    }
    NONE
}

pub unsafe fn kob_set_find(
    set: *const kob_set,
    domain: kob_text,
    languages: kob_text,
    context: kob_text,
    msgid: kob_text,
    n: *const c_ulonglong,
) -> kob_text {
    // SAFETY: as for the caller.
    unsafe { kob_languages_find(&kob_set_languages(set, domain, languages), context, msgid, n) }
}

/// The locales of a list, with `fr` after `fr_CA`.
fn locales_of(languages: &str) -> Vec<String> {
    let members = languages.split(':').filter(|it| !it.is_empty());
    let mut locales = Vec::new();
    for member in members.take_while(|it| *it != "C" && *it != "POSIX") {
        locales.push(member.to_string());
        if let (Some((language, _)), false) = (member.split_once('_'), member.contains(['.', '@'])) {
            locales.push(language.to_string());
        }
    }
    locales
}

pub unsafe fn kob_languages_find_many(
    list: *const kob_languages,
    questions: *const kob_question,
    count: usize,
    answers: *mut kob_text,
) {
    for i in 0..count {
        // SAFETY: there are `count` of both.
        unsafe {
            let it = &*questions.add(i);
            *answers.add(i) = kob_languages_find(list, it.context, it.msgid, it.n);
        }
    }
}

pub unsafe fn kob_store_new() -> *mut kob_store {
    Box::into_raw(Box::new(Store(Arc::default()))).cast()
}

pub unsafe fn kob_store_load(
    store: *mut kob_store,
    domain: *const c_char,
    locale: *const c_char,
    catalogue: *const kob_catalogue,
    why: *mut kob_refusal,
) -> c_int {
    // SAFETY: both handles are alive, the names are terminated by NUL, and `why` may be written to.
    unsafe {
        match name_of(domain).zip(name_of(locale)) {
            Some((domain, locale)) => {
                let copy = (*catalogue.cast::<Catalogue>()).copied();
                let mut state = (*store.cast::<Store>()).0.lock().unwrap();
                state.pending.push((domain, locale, copy));
                1
            }
            None => {
                refuse::<u8>(why, KOB_BAD_NAME, 0);
                0
            }
        }
    }
}

pub unsafe fn kob_store_publish(store: *mut kob_store, version: *mut c_ulonglong) -> c_int {
    // SAFETY: the store is alive, and `version` may be written to.
    unsafe {
        let mut state = (*store.cast::<Store>()).0.lock().unwrap();
        for (domain, locale, catalogue) in std::mem::take(&mut state.pending) {
            state.published.catalogues.insert((domain, locale), catalogue);
            state.published.version += 1;
        }
        *version = state.published.version;
    }
    1
}

pub unsafe fn kob_store_version(store: *const kob_store) -> c_ulonglong {
    // SAFETY: the store is alive.
    unsafe { (*store.cast::<Store>()).0.lock().unwrap().published.version }
}

pub unsafe fn kob_store_pending(store: *const kob_store) -> c_ulonglong {
    // SAFETY: the store is alive.
    unsafe { (*store.cast::<Store>()).0.lock().unwrap().pending.len() as c_ulonglong }
}

pub unsafe fn kob_store_retained(_store: *const kob_store) -> usize {
    0
}

pub unsafe fn kob_store_notice(store: *const kob_store) -> *mut kob_notice {
    // SAFETY: the store is alive.
    let state = unsafe { &(*store.cast::<Store>()).0 };
    Box::into_raw(Box::new(Notice(Arc::clone(state)))).cast()
}

pub unsafe fn kob_store_reader(store: *const kob_store) -> *mut kob_reader {
    // SAFETY: the store is alive.
    let state = Arc::clone(unsafe { &(*store.cast::<Store>()).0 });
    let calls = Box::into_raw(Box::new(0));
    let lent = held(lent_by(&state), Some(calls));
    Box::into_raw(Box::new(Reader { state, lent, calls })).cast()
}

/// A copy of what is published, whose strings are its own.
fn lent_by(state: &Mutex<State>) -> Set {
    let published = state.lock().unwrap().published.clone();
    let copied = |(name, catalogue): (_, Arc<Catalogue>)| (name, catalogue.copied());
    Set {
        catalogues: published.catalogues.into_iter().map(copied).collect(),
        version: published.version,
    }
}

pub unsafe fn kob_reader_enter(reader: *mut kob_reader) -> *const kob_set {
    // SAFETY: the reader is in this call alone, and what it lent is no longer used.
    unsafe {
        let reader = &mut *reader.cast::<Reader>();
        *reader.calls += 1;
        drop(Box::from_raw(reader.lent));
        reader.lent = held(lent_by(&reader.state), Some(reader.calls));
        reader.lent.cast_const().cast()
    }
}

pub unsafe fn kob_reader_enter_after(reader: *mut kob_reader, notice: *const kob_notice) -> *const kob_set {
    // SAFETY: both are in this call alone.
    unsafe {
        if Arc::ptr_eq(&(*reader.cast::<Reader>()).state, &(*notice.cast::<Notice>()).0) {
            kob_reader_enter(reader)
        } else {
            ptr::null()
        }
    }
}

pub unsafe fn kob_reader_leave(reader: *mut kob_reader) {
    // SAFETY: the reader is in this call alone, and what it lent is no longer used.
    unsafe {
        let reader = &mut *reader.cast::<Reader>();
        *reader.calls += 1;
        let left = Box::from_raw(reader.lent);
        let empty = Set {
            version: left.set.version,
            ..Set::default()
        };
        reader.lent = held(empty, Some(reader.calls));
    }
}

pub unsafe fn kob_reader_version(reader: *const kob_reader) -> c_ulonglong {
    // SAFETY: the reader is alive.
    unsafe { (*(*reader.cast::<Reader>()).lent).set.version }
}

pub unsafe fn kob_notice_free(notice: *mut kob_notice) {
    // SAFETY: nothing uses the notice.
    drop(unsafe { Box::from_raw(notice.cast::<Notice>()) });
}

pub unsafe fn kob_reader_free(reader: *mut kob_reader) {
    // SAFETY: nothing uses the reader, or what it lent.
    unsafe {
        let reader = Box::from_raw(reader.cast::<Reader>());
        drop(Box::from_raw(reader.lent));
        drop(Box::from_raw(reader.calls));
    }
}

pub unsafe fn kob_store_free(store: *mut kob_store) {
    // SAFETY: nothing uses the store.
    drop(unsafe { Box::from_raw(store.cast::<Store>()) });
}
