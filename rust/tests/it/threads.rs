use crate::{compiled, GARDEN};
use kobdzila::{
    Catalogue, Domain, Entries, Entry, Fault, Format, Forms, Name, Notice, Options, OwnedLanguages, PublishError,
    Question, Reader, Refused, Set, Snapshot, Store, WrongStore,
};
use std::sync::atomic::{AtomicBool, Ordering};
use std::sync::RwLock;
use std::thread;

#[test]
fn types_that_may_be_sent_and_shared() {
    fn is_sent_and_shared<T: Send + Sync>() {}
    is_sent_and_shared::<Catalogue>();
    is_sent_and_shared::<Set>();
    is_sent_and_shared::<OwnedLanguages>();
    is_sent_and_shared::<Entries<'_>>();
    is_sent_and_shared::<Entry<'_>>();
    is_sent_and_shared::<Forms<'_>>();
    is_sent_and_shared::<Store>();
    is_sent_and_shared::<PublishError>();
    is_sent_and_shared::<WrongStore>();
    is_sent_and_shared::<Refused>();
    is_sent_and_shared::<(Domain<'_>, Name<'_>, Question<'_>)>();
    is_sent_and_shared::<(Format, Fault, Options)>();
}

#[test]
#[cfg(all(feature = "languages", feature = "macros"))]
fn preferences_and_mismatches_may_be_sent_and_shared() {
    fn is_sent_and_shared<T: Send + Sync>() {}
    is_sent_and_shared::<(kobdzila::Preferences, kobdzila::Mismatch)>();
}

#[test]
#[cfg(all(feature = "session", feature = "watch"))]
fn sessions_and_watches_may_be_sent_and_shared() {
    use kobdzila::{Answer, Ask, FileRefused, LoadRefusal, Session, SessionError, Watch, WatchOptions};
    fn is_sent_and_shared<T: Send + Sync>() {}
    is_sent_and_shared::<(Session, SessionError, LoadRefusal)>();
    is_sent_and_shared::<(Ask, Answer)>();
    is_sent_and_shared::<(Watch, FileRefused)>();
    // (it has a function that is called by one thread)
    fn is_sent<T: Send>() {}
    is_sent::<WatchOptions>();
}

// (that they aren't shared is an example of each that doesn't compile)
#[test]
fn types_that_may_be_sent() {
    fn is_sent<T: Send>() {}
    is_sent::<Reader>();
    is_sent::<Snapshot<'_>>();
    is_sent::<Notice>();
}

#[test]
fn threads_look_up_in_one_catalogue() {
    let fr = compiled(GARDEN);
    let found: usize = thread::scope(|scope| {
        let threads: Vec<_> = (0..4)
            .map(|_| scope.spawn(|| (0..1000).filter(|_| fr.gettext("Winter") == "Hiver").count()))
            .collect();
        threads.into_iter().map(|it| it.join().unwrap()).sum()
    });
    assert_eq!(found, 4000);
}

#[test]
fn the_last_reference_is_dropped_by_any_thread() {
    let fr = compiled(GARDEN);
    let threads: Vec<_> = (0..4)
        .map(|_| fr.clone())
        .map(|fr| thread::spawn(move || fr.gettext("Winter") == "Hiver"))
        .collect();
    drop(fr);
    assert!(threads.into_iter().all(|it| it.join().unwrap()));
}

#[test]
fn sets_are_exchanged_while_threads_look_up() {
    let fr = compiled(GARDEN);
    let current = RwLock::new(Set::new().with(Domain("garden"), "fr", &fr).unwrap());
    let now = || current.read().unwrap().clone();
    let done = AtomicBool::new(false);
    thread::scope(|scope| {
        let ask = || {
            let mut seen = 0;
            while !done.load(Ordering::Relaxed) {
                let set = now();
                assert!(set.version() >= seen);
                seen = set.version();
                assert_eq!(set.languages(Domain("garden"), "fr").gettext("Winter"), "Hiver");
            }
        };
        for _ in 0..3 {
            scope.spawn(ask);
        }
        for _ in 0..500 {
            let next = now().with(Domain("garden"), "fr", &fr).unwrap();
            *current.write().unwrap() = next;
        }
        done.store(true, Ordering::Relaxed);
    });
    assert_eq!(now().version(), 501);
}
