use crate::{compiled, GARDEN};
use kobdzila::{Catalogue, Options, Question};

#[test]
fn messages_are_translated() {
    let fr = compiled(GARDEN);
    assert_eq!(fr.gettext("Winter"), "Hiver");
    assert_eq!(fr.pgettext("menu", "Open"), "Ouvrir");
    assert_eq!(fr.ngettext("tomato", "tomatoes", 0), "tomate");
    assert_eq!(fr.ngettext("tomato", "tomatoes", 2), "tomates");
    assert_eq!(fr.npgettext("bed", "row", "rows", 1), "rangée");
    assert_eq!(fr.npgettext("bed", "row", "rows", u64::MAX), "rangées");
    assert!(fr.gettext("").starts_with("Content-Type: "));
}

#[test]
fn missing_messages_are_the_callers_texts() {
    let fr = compiled(GARDEN);
    let msgid = String::from("Summer");
    assert!(std::ptr::eq(fr.gettext(&msgid), msgid.as_str()));
    assert_eq!(fr.pgettext("door", "Open"), "Open");
    assert_eq!(fr.ngettext("pea", "peas", 1), "pea");
    assert_eq!(fr.ngettext("pea", "peas", 0), "peas");
    assert_eq!(fr.npgettext("table", "row", "rows", 1), "row");
    assert_eq!(fr.npgettext("table", "row", "rows", 3), "rows");
}

#[test]
fn find_tells_a_missing_message_from_one_that_is_its_own_translation() {
    let catalogue = compiled("msgid \"OK\"\nmsgstr \"OK\"\n");
    assert_eq!(catalogue.find("OK"), Some("OK"));
    assert_eq!(catalogue.find("Cancel"), None);
    assert_eq!(catalogue.gettext("OK"), catalogue.gettext("OK"));
}

#[test]
fn the_empty_context_is_not_no_context() {
    let fr = compiled(GARDEN);
    assert_eq!(fr.find(Question::new("Open").context("")), Some("Ouvert"));
    assert_eq!(fr.find("Open"), None);
    assert_eq!(fr.find(Question::new("Winter").context("")), None);
}

#[test]
fn the_plural_plays_no_part_in_a_look_up() {
    let fr = compiled(GARDEN);
    assert_eq!(fr.gettext("tomato"), "tomate");
    assert_eq!(fr.ngettext("tomato", "other", 2), "tomates");
    assert_eq!(fr.find(Question::new("Winter").number(2)), Some("Hiver"));
    assert_eq!(fr.find("tomatoes"), None);
}

#[test]
fn no_message_has_a_nul() {
    let fr = compiled(GARDEN);
    assert_eq!(fr.gettext("Winter\0"), "Winter\0");
    assert_eq!(fr.find("Winter\0"), None);
    assert_eq!(fr.find("\0"), None);
    assert_eq!(fr.find("\0Winter"), None);
    // (an MO file has the msgid and the plural with a NUL between them)
    assert_eq!(fr.find("tomato\0tomatoes"), None);
    assert_eq!(fr.find(Question::new("tomato\0tomatoes").number(2)), None);
    assert_eq!(fr.find(Question::new("Open").context("menu\0")), None);
    assert_eq!(fr.find(Question::new("Open").context("menu\0menu")), None);
    assert_eq!(fr.ngettext("tomato\0", "tomatoes\0", 2), "tomatoes\0");
}

#[test]
fn byte_4_joins_a_context_and_a_msgid() {
    let fr = compiled(GARDEN);
    assert_eq!(fr.gettext("menu\u{4}Open"), "Ouvrir");
    assert_eq!(fr.find("menu\u{4}"), None);
    assert_eq!(fr.find(Question::new("").context("menu\u{4}Open")), None);
}

#[test]
fn texts_need_no_nul_after_them() {
    let fr = compiled(GARDEN);
    let words = "Wintertomato";
    assert_eq!(fr.gettext(&words[..6]), "Hiver");
    assert_eq!(fr.ngettext(&words[6..], &words[6..], 2), "tomates");
    assert_eq!(fr.find(&words[..0]), fr.find(""));
}

#[test]
fn a_clone_is_the_same_catalogue_and_outlives_the_first() {
    let fr = compiled(GARDEN);
    let other = fr.clone();
    assert!(std::ptr::eq(fr.gettext("Winter"), other.gettext("Winter")));
    drop(fr);
    assert_eq!(other.gettext("Winter"), "Hiver");
}

#[test]
fn the_bytes_are_copied() {
    let mut text = GARDEN.as_bytes().to_vec();
    let fr = Catalogue::from_po(&text, Options::new()).unwrap();
    text.fill(b'x');
    drop(text);
    assert_eq!(fr.gettext("Winter"), "Hiver");
}

#[test]
fn the_version_is_that_of_the_crate_or_later() {
    let [library, package] = [kobdzila::version(), env!("CARGO_PKG_VERSION")].map(|version| {
        let numbers: Vec<u32> = version.split('.').map(|it| it.parse().unwrap()).collect();
        numbers
    });
    assert_eq!(library[0], package[0]);
    assert!(library >= package);
}

#[test]
fn many_at_once_are_as_one_by_one() {
    let fr = compiled(GARDEN);
    let asked = [
        Question::new("Winter"),
        Question::new("Open").context("menu"),
        Question::new("Open").context(""),
        Question::new("Open"),
        Question::new("tomato").number(2),
        Question::new("row").context("bed").number(1),
        Question::new("Summer").number(2),
    ];
    let wanted = [
        Some("Hiver"),
        Some("Ouvrir"),
        Some("Ouvert"),
        None,
        Some("tomates"),
        Some("rangée"),
        None,
    ];
    assert_eq!(fr.find_many(&asked), wanted);
    assert_eq!(fr.find_many(&[]), []);
    // (more than the library looks up at once)
    let pages: Vec<Question<'_>> = asked.iter().copied().cycle().take(7 * 13).collect();
    assert!(fr.find_many(&pages).chunks(7).all(|page| page == wanted));
}
