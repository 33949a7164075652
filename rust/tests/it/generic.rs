//! Code over the traits gets the answers of the methods, from whatever has look-ups.

use crate::{compiled, GARDEN};
use kobdzila::{Catalogue, Catalogues, Domain, Lookup, Question, Set, Store};
use std::rc::Rc;
use std::sync::Arc;

/// Each look-up once, found and not found.
fn answers(texts: &dyn Lookup) -> Vec<String> {
    let found = [
        texts.gettext("Winter"),
        texts.gettext("Summer"),
        texts.pgettext("menu", "Open"),
        texts.pgettext("door", "Open"),
        texts.ngettext("tomato", "tomatoes", 2),
        texts.ngettext("pea", "peas", 1),
        texts.npgettext("bed", "row", "rows", 1),
        texts.npgettext("table", "row", "rows", 0),
    ];
    let questions = [
        Question::new("Winter"),
        Question::new("Summer"),
        Question::new("row").context("bed").number(2),
    ];
    let many = texts.find_many(&questions);
    assert!(questions.iter().zip(&many).all(|(it, found)| texts.find(*it) == *found));
    let many = many.into_iter().map(|it| it.unwrap_or("none"));
    found.into_iter().chain(many).map(str::to_string).collect()
}

const FRENCH: [&str; 11] = [
    "Hiver", "Summer", "Ouvrir", "Open", "tomates", "pea", "rangée", "rows", "Hiver", "none", "rangées",
];
const NONE: [&str; 11] = [
    "Winter", "Summer", "Open", "Open", "tomatoes", "pea", "row", "rows", "none", "none", "none",
];

fn answers_in(catalogues: &impl Catalogues, languages: &str) -> (Vec<String>, u64) {
    let list = catalogues.languages(Domain("garden"), languages);
    for question in [
        Question::new("Winter"),
        Question::new("Summer"),
        Question::new("row").context("bed").number(2),
    ] {
        assert_eq!(
            catalogues.find(Domain("garden"), languages, question),
            list.find(question)
        );
    }
    (answers(&list), catalogues.version())
}

#[test]
fn all_that_has_look_ups_answers_alike() {
    let fr = compiled(GARDEN);
    assert_eq!(answers(&fr), FRENCH);
    assert_eq!(answers(&Arc::new(fr.clone())), FRENCH);
    assert_eq!(answers(&Rc::new(fr.clone())), FRENCH);
    let boxed: Box<dyn Lookup> = Box::new(Some(fr.clone()));
    assert_eq!(answers(&boxed), FRENCH);
    assert_eq!(answers(&None::<Catalogue>), NONE);

    let set = Set::new().with(Domain("garden"), "fr", &fr).unwrap();
    assert_eq!(answers_in(&set, "de:fr_CA"), (FRENCH.map(String::from).to_vec(), 1));
    assert_eq!(answers_in(&set, "de").0, NONE);
    let owned = set.into_languages(Domain("garden"), "de:fr_CA");
    assert_eq!(answers(&owned), FRENCH);
    assert_eq!(answers(&owned.clone().as_languages()), FRENCH);

    let store = Store::new();
    store.load(Domain("garden"), "fr", &fr).unwrap();
    store.publish().unwrap();
    let mut reader = store.reader().unwrap();
    assert_eq!(
        answers_in(&reader.enter(), "fr"),
        (FRENCH.map(String::from).to_vec(), 1)
    );
    assert_eq!(answers(&reader.enter().into_languages(Domain("garden"), "fr")), FRENCH);
}
