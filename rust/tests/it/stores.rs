use crate::{compiled, GARDEN};
use kobdzila::{Catalogue, Domain, Fault, Notice, Question, Reader, Store, WrongStore};

fn message(msgid: &str, msgstr: &str) -> Catalogue {
    compiled(&format!("msgid \"{msgid}\"\nmsgstr \"{msgstr}\"\n"))
}

/// Publishes a catalogue that translates `Winter` into French as `text`.
fn show(store: &Store, text: &str) -> u64 {
    store.load(Domain("garden"), "fr", &message("Winter", text)).unwrap();
    store.publish().unwrap()
}

/// The text that an entry finds, and the entry's version.
fn winter(reader: &mut Reader) -> (&str, u64) {
    let now = reader.enter();
    let version = now.version();
    (now.into_languages(Domain("garden"), "fr").gettext("Winter"), version)
}

#[test]
fn loads_are_pending_until_a_publish_shows_all_of_them() {
    let store = Store::default();
    let mut reader = store.reader().unwrap();
    assert_eq!((store.version(), store.pending(), store.retained()), (0, 0, 0));
    assert_eq!(store.publish(), Ok(0));
    store.load(Domain("garden"), "fr", &message("Winter", "Hiver")).unwrap();
    store
        .load(Domain("garden"), "de", &message("Winter", "Winterzeit"))
        .unwrap();
    assert_eq!((store.version(), store.pending()), (0, 2));
    assert_eq!(winter(&mut reader), ("Winter", 0));
    assert_eq!(store.publish(), Ok(2));
    assert_eq!((store.version(), store.pending()), (2, 0));
    let now = reader.enter();
    assert_eq!(now.languages(Domain("garden"), "fr").gettext("Winter"), "Hiver");
    assert_eq!(now.languages(Domain("garden"), "de").gettext("Winter"), "Winterzeit");
    assert_eq!(now.version(), 2);
    assert_eq!((reader.version(), store.publish()), (2, Ok(2)));
}

#[test]
fn a_load_replaces_one_catalogue() {
    let store = Store::new();
    store
        .load(Domain("garden"), "de", &message("Winter", "Winterzeit"))
        .unwrap();
    show(&store, "Hiver");
    assert_eq!(show(&store, "L'hiver"), 3);
    let mut reader = store.reader().unwrap();
    assert_eq!(reader.version(), 3);
    let now = reader.enter();
    assert_eq!(now.languages(Domain("garden"), "fr").gettext("Winter"), "L'hiver");
    assert_eq!(now.languages(Domain("garden"), "de").gettext("Winter"), "Winterzeit");
}

#[test]
fn the_last_of_two_pending_loads_counts() {
    let store = Store::new();
    let mut reader = store.reader().unwrap();
    store.load(Domain("garden"), "fr", &message("Winter", "Hiver")).unwrap();
    assert_eq!(show(&store, "L'hiver"), 2);
    assert_eq!(winter(&mut reader), ("L'hiver", 2));
}

#[test]
#[cfg_attr(miri, ignore)]
fn names_that_are_not_valid_are_refused_and_change_nothing() {
    let store = Store::new();
    let fr = compiled(GARDEN);
    store.load(Domain("garden"), "fr", &fr).unwrap();
    let long = "a".repeat(65);
    for name in ["", "a b", "a/b", "é", "garden\0", "\0", &long] {
        for refused in [
            store.load(Domain(name), "de", &fr),
            store.load(Domain("garden"), name, &fr),
        ] {
            let refused = refused.unwrap_err();
            assert_eq!((refused.fault(), refused.line()), (Fault::BadName, None));
        }
    }
    assert_eq!((store.version(), store.pending()), (0, 1));
    assert_eq!(store.publish(), Ok(1));
    assert_eq!(winter(&mut store.reader().unwrap()), ("Hiver", 1));
    assert_eq!(Fault::VersionsSpent.to_string(), "no more versions");
}

#[test]
fn a_snapshot_has_each_look_up() {
    let store = Store::new();
    store.load(Domain("garden"), "fr", &compiled(GARDEN)).unwrap();
    store
        .load(Domain("garden"), "de", &message("Winter", "Winterzeit"))
        .unwrap();
    store.publish().unwrap();
    let mut reader = store.reader().unwrap();
    let now = reader.enter();
    assert_eq!(
        now.languages(Domain("garden"), "sv:de:fr").gettext("Winter"),
        "Winterzeit"
    );
    assert_eq!(
        now.languages(Domain("garden"), "de:fr").pgettext("menu", "Open"),
        "Ouvrir"
    );
    assert_eq!(
        now.languages(Domain("garden"), "de:fr")
            .ngettext("tomato", "tomatoes", 0),
        "tomate"
    );
    assert_eq!(
        now.languages(Domain("garden"), "fr_CA")
            .npgettext("bed", "row", "rows", 2),
        "rangées"
    );
    assert_eq!(now.languages(Domain("garden"), "fr").find("Winter"), Some("Hiver"));
    let fr = now.into_languages(Domain("garden"), "fr");
    assert_eq!(fr.find(Question::new("Open").context("")), Some("Ouvert"));
    assert_eq!(fr.find(Question::new("tomato").number(2)), Some("tomates"));
    assert_eq!(fr.find(Question::new("row").context("bed").number(1)), Some("rangée"));
}

#[test]
fn missing_messages_are_the_callers_texts() {
    let store = Store::new();
    store.load(Domain("garden"), "fr", &compiled(GARDEN)).unwrap();
    store.publish().unwrap();
    let mut reader = store.reader().unwrap();
    let msgid = String::from("Summer");
    let now = reader.enter();
    assert!(std::ptr::eq(
        now.languages(Domain("garden"), "fr").gettext(&msgid),
        msgid.as_str()
    ));
    assert_eq!(now.languages(Domain("garden"), "C:fr").gettext("Winter"), "Winter");
    assert_eq!(now.languages(Domain("other"), "fr").gettext("Winter"), "Winter");
    assert_eq!(now.languages(Domain("garden"), "fr").pgettext("door", "Open"), "Open");
    assert_eq!(now.languages(Domain("garden"), "fr").ngettext("pea", "peas", 1), "pea");
    assert_eq!(now.languages(Domain("garden"), "fr").ngettext("pea", "peas", 0), "peas");
    assert_eq!(
        now.languages(Domain("garden"), "").npgettext("bed", "row", "rows", 1),
        "row"
    );
    assert_eq!(
        now.languages(Domain("garden"), "").npgettext("bed", "row", "rows", 2),
        "rows"
    );
    assert_eq!(now.languages(Domain("garden"), "fr").find("Open"), None);
    assert_eq!(now.languages(Domain("garden\0"), "fr").find("Winter"), None);
    assert_eq!(now.languages(Domain("garden"), "fr\0").find("Winter"), None);
    assert_eq!(now.languages(Domain("garden"), "fr").find("Winter\0"), None);
    let fr = now.into_languages(Domain("garden"), "fr");
    assert_eq!(fr.find(Question::new("Winter").context("menu")), None);
    assert_eq!(fr.find(Question::new("pea").number(2)), None);
    assert_eq!(fr.find(Question::new("row").context("menu").number(2)), None);
}

#[test]
fn an_entry_stays_as_it_was() {
    let store = Store::new();
    show(&store, "one");
    let mut reader = store.reader().unwrap();
    let now = reader.enter();
    let answer = now.languages(Domain("garden"), "fr").gettext("Winter");
    for _ in 0..20 {
        show(&store, "two");
    }
    assert_eq!((now.version(), answer), (1, "one"));
    assert_eq!(now.languages(Domain("garden"), "fr").gettext("Winter"), "one");
    assert_eq!(winter(&mut reader), ("two", 21));
    assert_eq!(reader.version(), 21);
}

#[test]
fn an_answer_lasts_as_long_as_the_visit() {
    let store = Store::new();
    show(&store, "one");
    let mut reader = store.reader().unwrap();
    let answer = reader.enter().into_languages(Domain("garden"), "fr").gettext("Winter");
    assert_eq!(answer, "one");
    let answer = reader.enter().find(Domain("garden"), "fr", "Winter").unwrap();
    drop(store);
    assert_eq!(answer, "one");
}

#[test]
#[cfg_attr(miri, ignore)]
fn a_reader_keeps_one_set() {
    let store = Store::new();
    show(&store, "one");
    let mut reader = store.reader().unwrap();
    let (answer, _) = winter(&mut reader);
    for _ in 0..100 {
        show(&store, "two");
    }
    assert_eq!(answer, "one");
    assert_eq!(store.retained(), 1);
    reader.enter();
    assert_eq!(store.retained(), 0);
}

#[test]
#[cfg_attr(miri, ignore)]
fn readers_that_leave_keep_no_set() {
    let store = Store::new();
    let mut readers: Vec<_> = (0..20).map(|_| store.reader().unwrap()).collect();
    for reader in &mut readers {
        show(&store, "one");
        reader.enter();
    }
    show(&store, "two");
    assert_eq!(store.retained(), 20);
    readers.iter_mut().for_each(Reader::leave);
    assert_eq!(store.retained(), 0);
    assert_eq!(winter(&mut readers[0]), ("two", 21));
}

#[test]
fn a_reader_that_leaves_enters_no_older_version() {
    let store = Store::new();
    let mut reader = store.reader().unwrap();
    show(&store, "one");
    assert_eq!(winter(&mut reader), ("one", 1));
    reader.leave();
    reader.leave();
    assert_eq!(reader.version(), 1);
    assert_eq!(winter(&mut reader), ("one", 1));
    reader.leave();
    show(&store, "two");
    let notice = store.notice().unwrap();
    assert_eq!(reader.enter_after(&notice).unwrap().version(), 2);
    reader.leave();
    assert_eq!(
        reader.enter_after(&Store::new().notice().unwrap()).err(),
        Some(WrongStore)
    );
    drop(store);
    assert_eq!(winter(&mut reader), ("two", 2));
    reader.leave();
}

#[test]
fn an_entry_after_a_notice_is_not_older() {
    let store = Store::new();
    let mut reader = store.reader().unwrap();
    show(&store, "one");
    let first = store.notice().unwrap();
    show(&store, "two");
    let second = store.notice().unwrap();
    assert_eq!(reader.enter_after(&second).unwrap().version(), 2);
    assert_eq!(reader.enter_after(&first).unwrap().version(), 2);
    show(&store, "three");
    let now = reader.enter_after(&first).unwrap();
    assert_eq!(now.languages(Domain("garden"), "fr").gettext("Winter"), "three");
    drop(store);
    assert_eq!(reader.enter_after(&second).unwrap().version(), 3);
}

#[test]
fn a_notice_of_another_store_is_refused() {
    let (store, other) = (Store::new(), Store::new());
    show(&store, "one");
    let mut reader = store.reader().unwrap();
    show(&store, "two");
    show(&other, "other");
    let notice = other.notice().unwrap();
    let refused = reader.enter_after(&notice).unwrap_err();
    assert_eq!(refused, WrongStore);
    assert_eq!(refused.to_string(), "the notice is of another store than the reader");
    assert_eq!(reader.version(), 1);
    drop(other);
    assert!(reader.enter_after(&notice).is_err());
    // (a store that may lie where the other one did)
    let later = Store::new();
    assert!(later.reader().unwrap().enter_after(&notice).is_err());
    assert_eq!(winter(&mut reader), ("two", 2));
}

enum Handle {
    Store { _kept: Store },
    Notice { _kept: Notice },
    Reader(Reader),
}

/// A store, a notice and two readers: one in the version before the newest, one in the newest.
fn handles() -> Vec<Handle> {
    let store = Store::new();
    show(&store, "one");
    let mut readers = [store.reader().unwrap(), store.reader().unwrap()];
    show(&store, "two");
    readers[1].enter();
    let notice = store.notice().unwrap();
    let mut handles = vec![Handle::Store { _kept: store }, Handle::Notice { _kept: notice }];
    handles.extend(readers.map(Handle::Reader));
    handles
}

#[test]
fn handles_are_dropped_in_each_of_the_24_orders() {
    for order in 0..24 {
        let (mut left, mut rest) = (handles(), order);
        while !left.is_empty() {
            let place = rest % left.len();
            rest /= left.len();
            drop(left.swap_remove(place));
            for handle in &mut left {
                if let Handle::Reader(reader) = handle {
                    assert_eq!(winter(reader), ("two", 2));
                }
            }
        }
    }
}

#[test]
fn a_thousand_readers() {
    let store = Store::new();
    show(&store, "one");
    let mut readers: Vec<Reader> = (0..1000).map(|_| store.reader().unwrap()).collect();
    show(&store, "two");
    assert!(readers.iter_mut().all(|reader| winter(reader) == ("two", 2)));
}

#[test]
fn debug_shows_the_versions() {
    let store = Store::new();
    show(&store, "one");
    store
        .load(Domain("garden"), "de", &message("Winter", "Winterzeit"))
        .unwrap();
    let mut reader = store.reader().unwrap();
    assert_eq!(format!("{store:?}"), "Store { version: 1, pending: 1 }");
    assert_eq!(format!("{reader:?}"), "Reader { version: 1 }");
    assert_eq!(format!("{:?}", reader.enter()), "Snapshot { version: 1 }");
    assert_eq!(format!("{:?}", store.notice().unwrap()), "Notice { .. }");
}
