//! How often the crate itself allocates. (The look-ups of the library allocate nothing, which its own tests show)

use kobdzila::{Catalogue, Domain, Lookup, Options, Question, Set, Store};
use std::alloc::{GlobalAlloc, Layout, System};
use std::cell::Cell;

/// Counts the allocations of each thread, as tests run side by side.
struct Counting;

thread_local! {
    static COUNT: Cell<usize> = const { Cell::new(0) };
}

// SAFETY: each call is that of `System`. The counter needs no allocation, and has nothing to drop at a thread's end.
unsafe impl GlobalAlloc for Counting {
    unsafe fn alloc(&self, layout: Layout) -> *mut u8 {
        COUNT.with(|it| it.set(it.get() + 1));
        System.alloc(layout)
    }

    unsafe fn realloc(&self, block: *mut u8, layout: Layout, size: usize) -> *mut u8 {
        COUNT.with(|it| it.set(it.get() + 1));
        System.realloc(block, layout, size)
    }

    unsafe fn dealloc(&self, block: *mut u8, layout: Layout) {
        System.dealloc(block, layout);
    }
}

#[global_allocator]
static COUNTING: Counting = Counting;

/// What a call returns, and how often it allocated.
fn counted<T>(call: impl FnOnce() -> T) -> (T, usize) {
    let before = COUNT.with(Cell::get);
    let result = call();
    (result, COUNT.with(Cell::get) - before)
}

const GARDEN: Domain<'static> = Domain("garden");

fn french() -> Catalogue {
    let po =
        b"msgid \"Winter\"\nmsgstr \"Hiver\"\nmsgid \"{n} row\"\nmsgid_plural \"{n} rows\"\nmsgstr[0] \"{n} rang\"\n";
    Catalogue::from_po(po, Options::new()).unwrap()
}

/// Each look-up once; the answers are borrowed.
fn look_up(texts: &impl Lookup) -> usize {
    let answers = [
        texts.gettext("Winter"),
        texts.gettext("Summer"),
        texts.pgettext("menu", "Open"),
        texts.ngettext("{n} row", "{n} rows", 2),
        texts.npgettext("bed", "row", "rows", 2),
    ];
    answers.iter().map(|it| it.len()).sum()
}

#[test]
fn the_counter_counts() {
    assert_eq!(counted(|| Box::new(1)).1, 1);
    assert_eq!(counted(|| 1).1, 0);
}

#[test]
fn a_look_up_allocates_nothing() {
    let fr = french();
    assert_eq!(counted(|| look_up(&fr)).1, 0);
    let set = Set::new().with(GARDEN, "fr", &fr).unwrap();
    assert_eq!(counted(|| look_up(&set.languages(GARDEN, "de:fr_CA"))).1, 0);
    assert_eq!(counted(|| set.find(GARDEN, "de:fr_CA", "Winter")), (Some("Hiver"), 0));
    assert_eq!(counted(|| fr.clone()).1, 0);
    assert_eq!(
        counted(|| fr.entries().map(|it| it.forms().count()).sum::<usize>()).1,
        0
    );
}

#[test]
fn an_entry_allocates_nothing() {
    let store = Store::new();
    store.load(GARDEN, "fr", &french()).unwrap();
    store.publish().unwrap();
    let mut reader = store.reader().unwrap();
    store.load(GARDEN, "fr", &french()).unwrap();
    store.publish().unwrap();
    let count = counted(|| look_up(&reader.enter().into_languages(GARDEN, "fr"))).1;
    assert_eq!((count, reader.version()), (0, 2));
}

#[test]
fn many_look_ups_allocate_their_list() {
    let fr = french();
    let set = Set::new().with(GARDEN, "fr", &fr).unwrap();
    let list = set.languages(GARDEN, "fr");
    for len in [1, 31, 32, 33, 1000] {
        let questions = vec![Question::new("Winter"); len];
        let (answers, count) = counted(|| fr.find_many(&questions));
        assert_eq!((answers, count), (vec![Some("Hiver"); len], 1));
        assert_eq!(counted(|| list.find_many(&questions)).1, 1);
    }
    assert_eq!(counted(|| fr.find_many(&[])).1, 0);
}

#[test]
#[cfg(feature = "macros")]
fn a_text_without_arguments_allocates_itself() {
    let fr = french();
    assert_eq!(counted(|| kobdzila::t!(fr; "Winter")), ("Hiver".to_string(), 1));
    assert_eq!(counted(|| kobdzila::t!("Winter")), ("Winter".to_string(), 1));
    // (the number is as long as its placeholder, so the text has room for it)
    let text = counted(|| kobdzila::tn!(fr; "{n} row", "{n} rows", 200));
    assert_eq!(text, ("200 rang".to_string(), 1));
}
