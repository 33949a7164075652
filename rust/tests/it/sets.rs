use crate::{compiled, GARDEN};
use kobdzila::{Catalogue, Domain, Fault, Name, Options, Question, Refused, Set};

fn message(msgid: &str, msgstr: &str) -> kobdzila::Catalogue {
    compiled(&format!("msgid \"{msgid}\"\nmsgstr \"{msgstr}\"\n"))
}

fn garden() -> Set {
    let (fr, de) = (compiled(GARDEN), message("Winter", "Winterzeit"));
    let set = Set::new().with(Domain("garden"), "fr", &fr).unwrap();
    set.with(Domain("garden"), "de", &de).unwrap()
}

#[test]
fn the_first_language_that_has_the_message_answers() {
    let set = garden();
    assert_eq!(set.languages(Domain("garden"), "de:fr").gettext("Winter"), "Winterzeit");
    assert_eq!(set.languages(Domain("garden"), "fr:de").gettext("Winter"), "Hiver");
    assert_eq!(set.languages(Domain("garden"), "sv::fr_CA").gettext("Winter"), "Hiver");
    assert_eq!(
        set.languages(Domain("garden"), "de:fr").pgettext("menu", "Open"),
        "Ouvrir"
    );
    assert_eq!(
        set.languages(Domain("garden"), "de:fr")
            .ngettext("tomato", "tomatoes", 0),
        "tomate"
    );
    assert_eq!(
        set.languages(Domain("garden"), "de:fr")
            .npgettext("bed", "row", "rows", 2),
        "rangées"
    );
}

#[test]
fn a_list_may_name_more_than_sixteen_catalogues() {
    let mut set = garden();
    let mut names = String::new();
    for number in 0..17 {
        let locale = format!("l{number}");
        let catalogue = message(&format!("Bed {number}"), &locale);
        set = set.with(Domain("garden"), &locale, &catalogue).unwrap();
        names += &format!("{locale}:");
    }
    names += "fr";
    let list = set.languages(Domain("garden"), &names);
    assert_eq!((list.gettext("Bed 0"), list.gettext("Bed 16")), ("l0", "l16"));
    assert_eq!((list.gettext("Winter"), list.gettext("Bed 17")), ("Hiver", "Bed 17"));
}

#[test]
fn missing_messages_are_the_callers_texts() {
    let set = garden();
    assert_eq!(set.languages(Domain("garden"), "C:fr").gettext("Winter"), "Winter");
    assert_eq!(set.languages(Domain("other"), "fr").gettext("Winter"), "Winter");
    assert_eq!(set.languages(Domain("garden"), "fr").pgettext("door", "Open"), "Open");
    assert_eq!(set.languages(Domain("garden"), "fr").ngettext("pea", "peas", 1), "pea");
    assert_eq!(
        set.languages(Domain("garden"), "").npgettext("bed", "row", "rows", 2),
        "rows"
    );
    assert_eq!(set.languages(Domain("garden"), "fr").find("Summer"), None);
    let fr = set.languages(Domain("garden"), "fr");
    assert_eq!(fr.find(Question::new("Open").context("")), Some("Ouvert"));
    assert_eq!(fr.find(Question::new("tomato").number(2)), Some("tomates"));
    assert_eq!(fr.find(Question::new("row").context("bed").number(1)), Some("rangée"));
}

#[test]
#[cfg_attr(miri, ignore)]
fn a_nul_is_in_no_name_and_no_message() {
    let set = garden();
    assert_eq!(set.languages(Domain("garden\0"), "fr").find("Winter"), None);
    assert_eq!(set.languages(Domain("garden"), "fr\0").find("Winter"), None);
    assert_eq!(set.languages(Domain("garden"), "fr").find("Winter\0"), None);
    let fr = compiled(GARDEN);
    for (domain, locale) in [("garden\0x", "fr"), ("garden", "fr\0x"), ("", "fr"), ("garden", "f/r")] {
        assert_eq!(
            set.with(Domain(domain), locale, &fr).unwrap_err().fault(),
            Fault::BadName
        );
        assert_eq!(
            set.with_installed(".", Domain(domain), locale).unwrap_err().fault(),
            Fault::BadName
        );
    }
    assert_eq!(
        set.with_installed("a\0b", Domain("garden"), "fr").unwrap_err().fault(),
        Fault::Unreadable
    );
}

#[test]
fn a_name_is_what_a_set_takes() {
    let fr = compiled(GARDEN);
    let long = "a".repeat(64);
    let mut texts: Vec<String> = (0..256_u32).filter_map(char::from_u32).map(String::from).collect();
    texts.extend(["", "fr_CA.UTF-8@euro+x", "é", &long, &format!("{long}a")].map(String::from));
    for text in &texts {
        let (domain, garden) = (Domain(text), Domain("garden"));
        assert_eq!(
            Name::new(domain, "fr").is_ok(),
            Set::new().with(domain, "fr", &fr).is_ok(),
            "{text:?}"
        );
        assert_eq!(
            Name::new(garden, text).is_ok(),
            Set::new().with(garden, text, &fr).is_ok(),
            "{text:?}"
        );
    }
}

#[test]
fn a_set_collects_catalogues() {
    let texts = [("fr", "Hiver"), ("de", "Winterzeit"), ("fr", "L'hiver")];
    let named = |(locale, text)| (Name::new(Domain("garden"), locale).unwrap(), message("Winter", text));
    let mut set: Set = texts.into_iter().map(named).collect();
    assert_eq!(set.version(), 3);
    assert_eq!(set.languages(Domain("garden"), "fr").gettext("Winter"), "L'hiver");
    set.extend([named(("sv", "Vinter"))]);
    assert_eq!(set.languages(Domain("garden"), "sv:de").gettext("Winter"), "Vinter");
    assert_eq!(set.languages(Domain("garden"), "de").gettext("Winter"), "Winterzeit");

    let opened = |text: &str| Catalogue::from_po(text.as_bytes(), Options::new());
    let files = [("fr", ""), ("de", "msgid")];
    let refused = files
        .iter()
        .map(|(locale, text)| Ok((Name::new(Domain("garden"), locale)?, opened(text)?)))
        .collect::<Result<Set, Refused>>()
        .unwrap_err();
    assert_eq!(refused.line(), Some(1));
}

#[test]
fn with_leaves_the_set_as_it_was() {
    let before = garden();
    let after = before
        .with(Domain("garden"), "fr", &message("Winter", "L'hiver"))
        .unwrap();
    assert_eq!((before.version(), after.version()), (2, 3));
    assert_eq!(before.languages(Domain("garden"), "fr").gettext("Winter"), "Hiver");
    assert_eq!(after.languages(Domain("garden"), "fr").gettext("Winter"), "L'hiver");
    assert_eq!(after.languages(Domain("garden"), "de").gettext("Winter"), "Winterzeit");
    drop(before);
    assert_eq!(
        after.clone().languages(Domain("garden"), "de").gettext("Winter"),
        "Winterzeit"
    );
}

#[test]
fn an_empty_set_finds_nothing() {
    let set = Set::default();
    assert_eq!(
        (set.version(), set.languages(Domain("garden"), "fr").gettext("Winter")),
        (0, "Winter")
    );
    assert_eq!(format!("{set:?}"), "Set { version: 0 }");
}
