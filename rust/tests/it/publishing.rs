//! Threads that look up while others publish.

use crate::compiled;
use kobdzila::{Domain, Notice, Reader, Snapshot, Store};
use std::sync::atomic::{AtomicBool, AtomicU64, Ordering};
use std::sync::mpsc::{channel, Receiver, Sender};
use std::thread;

const PUBLISHES: u64 = 200;

/// The catalogue whose one text is its number.
fn load(store: &Store, domain: &str, locale: &str, number: u64) {
    let catalogue = compiled(&format!("msgid \"number\"\nmsgstr \"{number}\"\n"));
    store.load(Domain(domain), locale, &catalogue).unwrap();
}

fn number_of(now: &Snapshot<'_>, domain: &str, locale: &str) -> u64 {
    now.languages(Domain(domain), locale)
        .find("number")
        .map_or(0, |it| it.parse().unwrap())
}

/// A store in which one thread publishes two catalogues at once, over and over, both with the number of the publish.
struct Published {
    store: Store,
    /// A version whose publish has returned.
    known: AtomicU64,
    is_done: AtomicBool,
}

impl Published {
    fn new() -> Published {
        let published = Published {
            store: Store::new(),
            known: AtomicU64::new(0),
            is_done: AtomicBool::new(false),
        };
        published.publish(1);
        published
    }

    fn publish(&self, number: u64) {
        load(&self.store, "garden", "fr", number);
        load(&self.store, "garden", "de", number);
        assert_eq!(self.store.publish(), Ok(2 * number));
        self.known.store(2 * number, Ordering::Release);
    }

    fn publish_all(&self, notices: &Sender<(u64, Notice)>) {
        for number in 2..=PUBLISHES {
            self.publish(number);
            notices.send((2 * number, self.store.notice().unwrap())).unwrap();
        }
        self.is_done.store(true, Ordering::Relaxed);
    }
}

/// Both texts are of one publish, that of the snapshot's version, which isn't older than `seen`. The result is it.
fn check(now: &Snapshot<'_>, seen: u64) -> u64 {
    let [fr, de] = ["fr", "de"].map(|locale| number_of(now, "garden", locale));
    assert_eq!(fr, de, "half a publish");
    assert_eq!(2 * fr, now.version());
    assert!(now.version() >= seen, "version {} after {seen}", now.version());
    now.version()
}

/// Enters until all is published. Each eighth snapshot is checked again a while later.
fn ask(published: &Published, mut reader: Reader) -> u64 {
    let (mut seen, mut entries) = (reader.version(), 0);
    while !published.is_done.load(Ordering::Relaxed) {
        seen = seen.max(published.known.load(Ordering::Acquire));
        let now = reader.enter();
        seen = check(&now, seen);
        entries += 1;
        if entries % 8 == 0 {
            let text = now.languages(Domain("garden"), "fr").gettext("number");
            thread::yield_now();
            assert_eq!(check(&now, seen), seen);
            assert_eq!(text.parse(), Ok(seen / 2));
        }
    }
    check(&reader.enter(), 2 * PUBLISHES)
}

/// Makes a reader anew for each entry.
fn ask_anew(published: &Published) -> u64 {
    let mut seen = 0;
    while !published.is_done.load(Ordering::Relaxed) {
        seen = check(&published.store.reader().unwrap().enter(), seen);
        thread::yield_now();
    }
    seen
}

/// Enters after each notice. The results are how many there were, and the last version.
fn ask_after(notices: Receiver<(u64, Notice)>, mut reader: Reader) -> u64 {
    let (mut seen, mut count) = (0, 1);
    for (version, notice) in notices {
        seen = check(&reader.enter_after(&notice).unwrap(), seen.max(version));
        count += 1;
    }
    assert_eq!(count, PUBLISHES);
    seen
}

#[test]
fn versions_never_fall_and_publishes_are_seen_whole() {
    let published = Published::new();
    let (sender, receiver) = channel();
    let ends: Vec<u64> = thread::scope(|scope| {
        let reader = || published.store.reader().unwrap();
        let [first, second, noticed] = [reader(), reader(), reader()];
        let threads = [
            scope.spawn(|| ask(&published, first)),
            scope.spawn(|| ask(&published, second)),
            scope.spawn(move || ask_after(receiver, noticed)),
        ];
        scope.spawn(|| ask_anew(&published));
        published.publish_all(&sender);
        drop(sender);
        threads.into_iter().map(|it| it.join().unwrap()).collect()
    });
    assert_eq!(ends, [2 * PUBLISHES; 3]);
}

#[test]
fn several_threads_publish() {
    let store = Store::new();
    let mut reader = store.reader().unwrap();
    thread::scope(|scope| {
        for domain in ["garden", "orchard", "meadow"] {
            let store = &store;
            scope.spawn(move || {
                let mut own = store.reader().unwrap();
                for number in 1..=PUBLISHES / 4 {
                    load(store, domain, "fr", number);
                    let version = store.publish().unwrap();
                    let now = own.enter();
                    assert!(now.version() >= version && version >= number);
                    assert_eq!(number_of(&now, domain, "fr"), number);
                }
            });
        }
    });
    assert_eq!((store.version(), store.pending()), (3 * (PUBLISHES / 4), 0));
    let now = reader.enter();
    let numbers = ["garden", "orchard", "meadow"].map(|domain| number_of(&now, domain, "fr"));
    assert_eq!(numbers, [PUBLISHES / 4; 3]);
}

#[test]
fn handles_move_between_threads() {
    let store = Store::new();
    load(&store, "garden", "fr", 7);
    store.publish().unwrap();
    let (mut reader, notice) = (store.reader().unwrap(), store.notice().unwrap());
    let mut reader = thread::spawn(move || {
        let version = reader.enter_after(&notice).unwrap().version();
        assert_eq!(version, 1);
        drop(store);
        reader
    })
    .join()
    .unwrap();
    let now = reader.enter();
    let answer = thread::scope(|scope| {
        scope
            .spawn(move || now.into_languages(Domain("garden"), "fr").gettext("number"))
            .join()
    });
    assert_eq!(answer.unwrap(), "7");
    thread::spawn(move || drop(reader)).join().unwrap();
}
