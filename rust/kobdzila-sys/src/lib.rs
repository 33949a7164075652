//! The functions of `kobdzila.h`, the header of libkobdzila, as Rust declares them.
//!
//! The header and the manual pages from kobdzila(3) on say what each function does, who owns what it returns, and what
//! a caller must ensure. The names are those of C, and an enum of C is a number here: a newer library may return one
//! that this crate doesn't know. The crate `kobdzila` is a safe interface over it.
//!
//! ```
//! use kobdzila_sys::{kob_find, kob_open_po, kob_release, kob_refusal, kob_text};
//! use std::ptr;
//!
//! let po = "msgid \"Winter\"\nmsgstr \"Hiver\"\n";
//! let mut why = kob_refusal { fault: 0, line: 0 };
//! // SAFETY: the text is readable, and `why` may be written to.
//! let fr = unsafe { kob_open_po(po.as_ptr().cast(), po.len(), 0, &mut why) };
//! assert!(!fr.is_null(), "fault {} in line {}", why.fault, why.line);
//! let msgid = kob_text { at: "Winter".as_ptr().cast(), len: 6 };
//! let none = kob_text { at: ptr::null(), len: 0 };
//! // SAFETY: the catalogue is open, and the answer is read before it is released.
//! unsafe {
//!     let found = kob_find(fr, none, msgid, ptr::null());
//!     assert_eq!(std::slice::from_raw_parts(found.at.cast::<u8>(), found.len), b"Hiver");
//!     kob_release(fr);
//! }
//! ```
//!
//! # Linking
//!
//! The build script links `libkobdzila.a` from the folder in the variable `KOBDZILA_LIB_DIR`, or from the one that
//! pkg-config reports. Without the feature `static`, which is on by default, it links the shared library.

#![allow(non_camel_case_types)]

#[cfg(not(all(target_os = "linux", target_pointer_width = "64")))]
compile_error!(
    "libkobdzila runs on 64-bit Linux; build for such a target, or leave out the crates kobdzila and kobdzila-sys"
);

use std::marker::PhantomData;
use std::os::raw::{c_char, c_uint, c_ulonglong};
#[cfg(not(miri))]
use std::os::raw::{c_int, c_void};

#[cfg(miri)]
mod stand_in;
#[cfg(miri)]
pub use stand_in::*;

pub const KOB_NO_FAULT: c_uint = 0;
pub const KOB_MO_TOO_LARGE: c_uint = 1;
pub const KOB_MO_SHORT: c_uint = 2;
pub const KOB_MO_MAGIC: c_uint = 3;
pub const KOB_MO_REVISION: c_uint = 4;
pub const KOB_MO_BOUNDS: c_uint = 5;
pub const KOB_MO_NO_NUL: c_uint = 6;
pub const KOB_MO_BAD_TEXT: c_uint = 7;
pub const KOB_MO_FORMS: c_uint = 8;
pub const KOB_MO_ORDER: c_uint = 9;
pub const KOB_MO_CHARSET: c_uint = 10;
pub const KOB_MO_SWOLLEN: c_uint = 11;
pub const KOB_MEMORY: c_uint = 12;
pub const KOB_MO_DEPENDENT_TABLES: c_uint = 13;
pub const KOB_MO_DEPENDENT_SEGMENT: c_uint = 14;
pub const KOB_MO_DEPENDENT_DESCRIPTOR: c_uint = 15;
pub const KOB_MO_DEPENDENT_SEGMENT_NUMBER: c_uint = 16;
pub const KOB_MO_DEPENDENT_TEXT: c_uint = 17;
pub const KOB_MO_DEPENDENT_OPEN_TEXT: c_uint = 18;
pub const KOB_MO_DEPENDENT_SWOLLEN: c_uint = 19;
pub const KOB_MO_NO_CHARACTER: c_uint = 20;
pub const KOB_PO_TOO_LARGE: c_uint = 101;
pub const KOB_PO_NOT_UTF8: c_uint = 102;
pub const KOB_PO_BAD_ESCAPE: c_uint = 103;
pub const KOB_PO_OPEN_STRING: c_uint = 104;
pub const KOB_PO_BAD_WORD: c_uint = 105;
pub const KOB_PO_BAD_TEXT: c_uint = 106;
pub const KOB_PO_BAD_ORDER: c_uint = 107;
pub const KOB_PO_BAD_INDEX: c_uint = 108;
pub const KOB_PO_DUPLICATE: c_uint = 109;
pub const KOB_PO_CHARSET: c_uint = 110;
pub const KOB_PO_SYSTEM_DEPENDENT: c_uint = 111;
pub const KOB_PO_NO_RULE: c_uint = 112;
pub const KOB_PO_BAD_RULE: c_uint = 113;
pub const KOB_PO_FORM_COUNT: c_uint = 114;
pub const KOB_PO_PLURAL_RANGE: c_uint = 115;
pub const KOB_PO_FORMAT_MISMATCH: c_uint = 116;
pub const KOB_PO_NEWLINE_MISMATCH: c_uint = 117;
pub const KOB_PO_NO_CHARACTER: c_uint = 119;
pub const KOB_PO_NOT_READ_BACK: c_uint = 120;
pub const KOB_UNREADABLE: c_uint = 201;
pub const KOB_BAD_NAME: c_uint = 202;
pub const KOB_VERSIONS_SPENT: c_uint = 204;
pub const KOB_CHECKED: c_uint = 1;
pub const KOB_USE_FUZZY: c_uint = 2;
pub const KOB_STRICT: c_uint = 4;
pub const KOB_WITHOUT_INDEX: c_uint = 8;
pub const KOB_MO: c_uint = 0;
pub const KOB_PO: c_uint = 1;
pub const KOB_ESCAPED: c_uint = 1;
pub const KOB_OBJC_FORMAT: c_uint = 0;
pub const KOB_CXX_FORMAT: c_uint = 1;
pub const KOB_PYTHON_FORMAT: c_uint = 2;
pub const KOB_PYTHON_BRACE_FORMAT: c_uint = 3;
pub const KOB_JAVA_FORMAT: c_uint = 4;
pub const KOB_JAVA_PRINTF_FORMAT: c_uint = 5;
pub const KOB_CSHARP_FORMAT: c_uint = 6;
pub const KOB_JAVASCRIPT_FORMAT: c_uint = 7;
pub const KOB_SCHEME_FORMAT: c_uint = 8;
pub const KOB_LISP_FORMAT: c_uint = 9;
pub const KOB_ELISP_FORMAT: c_uint = 10;
pub const KOB_LIBREP_FORMAT: c_uint = 11;
pub const KOB_RUST_FORMAT: c_uint = 12;
pub const KOB_GO_FORMAT: c_uint = 13;
pub const KOB_RUBY_FORMAT: c_uint = 14;
pub const KOB_SH_FORMAT: c_uint = 15;
pub const KOB_SH_PRINTF_FORMAT: c_uint = 16;
pub const KOB_AWK_FORMAT: c_uint = 17;
pub const KOB_LUA_FORMAT: c_uint = 18;
pub const KOB_OBJECT_PASCAL_FORMAT: c_uint = 19;
pub const KOB_MODULA2_FORMAT: c_uint = 20;
pub const KOB_D_FORMAT: c_uint = 21;
pub const KOB_OCAML_FORMAT: c_uint = 22;
pub const KOB_SMALLTALK_FORMAT: c_uint = 23;
pub const KOB_QT_FORMAT: c_uint = 24;
pub const KOB_QT_PLURAL_FORMAT: c_uint = 25;
pub const KOB_KDE_FORMAT: c_uint = 26;
pub const KOB_KDE_KUIT_FORMAT: c_uint = 27;
pub const KOB_BOOST_FORMAT: c_uint = 28;
pub const KOB_TCL_FORMAT: c_uint = 29;
pub const KOB_PERL_FORMAT: c_uint = 30;
pub const KOB_PERL_BRACE_FORMAT: c_uint = 31;
pub const KOB_PHP_FORMAT: c_uint = 32;
pub const KOB_GCC_INTERNAL_FORMAT: c_uint = 33;
pub const KOB_GFC_INTERNAL_FORMAT: c_uint = 34;
pub const KOB_YCP_FORMAT: c_uint = 35;
pub const KOB_FORMAT_INVALID: c_uint = 0;
pub const KOB_FORMAT_ARGUMENTS: c_uint = 1;
pub const KOB_FORMAT_UNREAD: c_uint = 2;

/// Declares opaque types of C: their sizes aren't known to Rust, and only the library makes and frees them.
macro_rules! opaque {
    ($($(#[$documentation:meta])* $name:ident;)+) => {
        $(
            $(#[$documentation])*
            #[repr(C)]
            pub struct $name {
                _opaque: [u8; 0],
                _not_sent: PhantomData<*mut u8>,
            }
        )+
    };
}

opaque! {
    /// A catalogue, opened by [`kob_open_mo`], [`kob_open_po`] or [`kob_open_file`].
    kob_catalogue;
    /// A set of catalogues, which never changes.
    kob_set;
    /// A live store.
    kob_store;
    /// A reader of a live store.
    kob_reader;
    /// A notice of what was published in a live store.
    kob_notice;
    /// The PO text of a catalogue, or a PO text in UTF-8.
    kob_po_file;
    /// The faults of the formats in a PO text.
    kob_format_faults;
}

#[repr(C)]
#[derive(Clone, Copy, Debug)]
pub struct kob_refusal {
    pub fault: c_uint,
    pub line: c_uint,
}

#[repr(C)]
#[derive(Clone, Copy, Debug)]
pub struct kob_text {
    pub at: *const c_char,
    pub len: usize,
}

#[repr(C)]
#[derive(Clone, Copy, Debug)]
pub struct kob_entry {
    pub context: kob_text,
    pub msgid: kob_text,
    pub plural: kob_text,
    pub forms: usize,
}

#[repr(C)]
#[derive(Clone, Copy, Debug)]
pub struct kob_counts {
    pub translated: usize,
    pub fuzzy: usize,
    pub untranslated: usize,
}

#[repr(C)]
#[derive(Clone, Copy, Debug)]
pub struct kob_languages {
    pub set: *const kob_set,
    pub domain: kob_text,
    pub languages: kob_text,
    pub count: c_uint,
    pub places: [c_uint; 16],
}

#[repr(C)]
#[derive(Clone, Copy, Debug)]
pub struct kob_question {
    pub context: kob_text,
    pub msgid: kob_text,
    pub n: *const c_ulonglong,
}

#[repr(C)]
#[derive(Clone, Copy, Debug)]
pub struct kob_format_fault {
    pub line: c_uint,
    pub language: c_uint,
    pub form: c_uint,
    pub difference: c_uint,
}

#[cfg(not(miri))]
extern "C" {
    pub fn kob_version() -> *const c_char;
    pub fn kob_fault_text(fault: c_uint) -> *const c_char;
    pub fn kob_open_mo(bytes: *const c_void, len: usize, why: *mut kob_refusal) -> *mut kob_catalogue;
    pub fn kob_open_po(bytes: *const c_void, len: usize, options: c_uint, why: *mut kob_refusal) -> *mut kob_catalogue;
    pub fn kob_open_file(
        name: *const c_char,
        kind: c_uint,
        options: c_uint,
        why: *mut kob_refusal,
    ) -> *mut kob_catalogue;
    pub fn kob_retain(catalogue: *mut kob_catalogue) -> *mut kob_catalogue;
    pub fn kob_release(catalogue: *mut kob_catalogue);
    pub fn kob_gettext(catalogue: *const kob_catalogue, msgid: *const c_char) -> *const c_char;
    pub fn kob_pgettext(catalogue: *const kob_catalogue, context: *const c_char, msgid: *const c_char)
        -> *const c_char;
    pub fn kob_ngettext(
        catalogue: *const kob_catalogue,
        msgid: *const c_char,
        plural: *const c_char,
        n: c_ulonglong,
    ) -> *const c_char;
    pub fn kob_npgettext(
        catalogue: *const kob_catalogue,
        context: *const c_char,
        msgid: *const c_char,
        plural: *const c_char,
        n: c_ulonglong,
    ) -> *const c_char;
    pub fn kob_find(
        catalogue: *const kob_catalogue,
        context: kob_text,
        msgid: kob_text,
        n: *const c_ulonglong,
    ) -> kob_text;
    pub fn kob_find_many(
        catalogue: *const kob_catalogue,
        questions: *const kob_question,
        count: usize,
        answers: *mut kob_text,
    );
    pub fn kob_count(catalogue: *const kob_catalogue) -> usize;
    pub fn kob_entry_at(catalogue: *const kob_catalogue, index: usize, entry: *mut kob_entry) -> c_int;
    pub fn kob_form_at(catalogue: *const kob_catalogue, index: usize, form: usize) -> kob_text;
    pub fn kob_statistics(catalogue: *const kob_catalogue, counts: *mut kob_counts);
    pub fn kob_mo_file(catalogue: *const kob_catalogue) -> kob_text;
    pub fn kob_write_po(catalogue: *const kob_catalogue, options: c_uint) -> *mut kob_po_file;
    pub fn kob_recode_po(bytes: *const c_void, len: usize, why: *mut kob_refusal) -> *mut kob_po_file;
    pub fn kob_po_text(file: *const kob_po_file) -> kob_text;
    pub fn kob_po_free(file: *mut kob_po_file);
    pub fn kob_check_formats(
        bytes: *const c_void,
        len: usize,
        options: c_uint,
        why: *mut kob_refusal,
    ) -> *mut kob_format_faults;
    pub fn kob_format_fault_count(faults: *const kob_format_faults) -> usize;
    pub fn kob_format_fault_at(faults: *const kob_format_faults, index: usize, fault: *mut kob_format_fault) -> c_int;
    pub fn kob_format_faults_free(faults: *mut kob_format_faults);
    pub fn kob_set_new() -> *mut kob_set;
    pub fn kob_set_with(
        set: *const kob_set,
        domain: *const c_char,
        locale: *const c_char,
        catalogue: *const kob_catalogue,
        why: *mut kob_refusal,
    ) -> *mut kob_set;
    pub fn kob_set_open(
        set: *const kob_set,
        folder: *const c_char,
        domain: *const c_char,
        locale: *const c_char,
        why: *mut kob_refusal,
    ) -> *mut kob_set;
    pub fn kob_set_retain(set: *mut kob_set) -> *mut kob_set;
    pub fn kob_set_release(set: *mut kob_set);
    pub fn kob_set_version(set: *const kob_set) -> c_ulonglong;
    pub fn kob_set_gettext(
        set: *const kob_set,
        domain: *const c_char,
        languages: *const c_char,
        msgid: *const c_char,
    ) -> *const c_char;
    pub fn kob_set_pgettext(
        set: *const kob_set,
        domain: *const c_char,
        languages: *const c_char,
        context: *const c_char,
        msgid: *const c_char,
    ) -> *const c_char;
    pub fn kob_set_ngettext(
        set: *const kob_set,
        domain: *const c_char,
        languages: *const c_char,
        msgid: *const c_char,
        plural: *const c_char,
        n: c_ulonglong,
    ) -> *const c_char;
    pub fn kob_set_npgettext(
        set: *const kob_set,
        domain: *const c_char,
        languages: *const c_char,
        context: *const c_char,
        msgid: *const c_char,
        plural: *const c_char,
        n: c_ulonglong,
    ) -> *const c_char;
    pub fn kob_set_find(
        set: *const kob_set,
        domain: kob_text,
        languages: kob_text,
        context: kob_text,
        msgid: kob_text,
        n: *const c_ulonglong,
    ) -> kob_text;
    pub fn kob_set_find_many(
        set: *const kob_set,
        domain: kob_text,
        languages: kob_text,
        questions: *const kob_question,
        count: usize,
        answers: *mut kob_text,
    );
    pub fn kob_set_languages(set: *const kob_set, domain: kob_text, languages: kob_text) -> kob_languages;
    pub fn kob_languages_gettext(list: *const kob_languages, msgid: *const c_char) -> *const c_char;
    pub fn kob_languages_pgettext(
        list: *const kob_languages,
        context: *const c_char,
        msgid: *const c_char,
    ) -> *const c_char;
    pub fn kob_languages_ngettext(
        list: *const kob_languages,
        msgid: *const c_char,
        plural: *const c_char,
        n: c_ulonglong,
    ) -> *const c_char;
    pub fn kob_languages_npgettext(
        list: *const kob_languages,
        context: *const c_char,
        msgid: *const c_char,
        plural: *const c_char,
        n: c_ulonglong,
    ) -> *const c_char;
    pub fn kob_languages_find(
        list: *const kob_languages,
        context: kob_text,
        msgid: kob_text,
        n: *const c_ulonglong,
    ) -> kob_text;
    pub fn kob_languages_find_many(
        list: *const kob_languages,
        questions: *const kob_question,
        count: usize,
        answers: *mut kob_text,
    );
    pub fn kob_store_new() -> *mut kob_store;
    pub fn kob_store_load(
        store: *mut kob_store,
        domain: *const c_char,
        locale: *const c_char,
        catalogue: *const kob_catalogue,
        why: *mut kob_refusal,
    ) -> c_int;
    pub fn kob_store_publish(store: *mut kob_store, version: *mut c_ulonglong) -> c_int;
    pub fn kob_store_version(store: *const kob_store) -> c_ulonglong;
    pub fn kob_store_pending(store: *const kob_store) -> c_ulonglong;
    pub fn kob_store_retained(store: *const kob_store) -> usize;
    pub fn kob_store_notice(store: *const kob_store) -> *mut kob_notice;
    pub fn kob_store_reader(store: *const kob_store) -> *mut kob_reader;
    pub fn kob_reader_enter(reader: *mut kob_reader) -> *const kob_set;
    pub fn kob_reader_enter_after(reader: *mut kob_reader, notice: *const kob_notice) -> *const kob_set;
    pub fn kob_reader_leave(reader: *mut kob_reader);
    pub fn kob_reader_version(reader: *const kob_reader) -> c_ulonglong;
    pub fn kob_notice_free(notice: *mut kob_notice);
    pub fn kob_reader_free(reader: *mut kob_reader);
    pub fn kob_store_free(store: *mut kob_store);
}
