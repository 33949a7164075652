use crate::{compiled, GARDEN};
use kobdzila::{Catalogue, Entry, Question};

/// The strings of an entry, with the forms in one line.
fn shown(entry: Entry<'_>) -> (Option<&str>, &str, Option<&str>, String) {
    let forms: Vec<&str> = entry.forms().collect();
    (entry.context(), entry.msgid(), entry.plural(), forms.join("|"))
}

#[test]
fn entries_come_in_the_order_of_their_keys() {
    let fr = compiled(GARDEN);
    let mut found: Vec<_> = fr.entries().map(shown).collect();
    let header = found.remove(0);
    assert_eq!((header.0, header.1, header.2), (None, "", None));
    assert_eq!(
        found,
        [
            (Some(""), "Open", None, "Ouvert".into()),
            (None, "Winter", None, "Hiver".into()),
            (Some("bed"), "row", Some("rows"), "rangée|rangées".into()),
            (Some("menu"), "Open", None, "Ouvrir".into()),
            (None, "tomato", Some("tomatoes"), "tomate|tomates".into()),
        ]
    );
}

#[test]
fn the_iterators_know_their_length_and_run_both_ways() {
    let fr = compiled(GARDEN);
    let mut entries = fr.entries();
    assert_eq!((entries.len(), fr.len()), (6, 6));
    assert_eq!(entries.next_back().map(|it| it.msgid()), Some("tomato"));
    assert_eq!(entries.nth(1).map(|it| it.msgid()), Some("Open"));
    assert_eq!(entries.len(), 3);
    assert_eq!(entries.by_ref().count(), 3);
    assert!(entries.next().is_none() && entries.next_back().is_none());

    let tomato = fr.entries().next_back().unwrap();
    assert_eq!(tomato.forms().rev().collect::<Vec<_>>(), ["tomates", "tomate"]);
    assert_eq!(tomato.forms().len(), 2);
}

#[test]
fn each_entry_is_found() {
    let fr = compiled(GARDEN);
    for entry in &fr {
        let question = Question::new(entry.msgid());
        let found = fr.find(entry.context().map_or(question, |it| question.context(it)));
        assert_eq!(found, entry.forms().next());
    }
}

#[test]
fn strings_live_as_long_as_the_catalogue() {
    let fr = compiled(GARDEN);
    let first = {
        let entry = fr.entries().nth(2).unwrap();
        (entry.msgid(), entry.forms().next().unwrap())
    };
    assert_eq!(first, ("Winter", "Hiver"));
}

#[test]
#[cfg_attr(miri, ignore)]
fn the_mo_file_is_the_same_catalogue() {
    let fr = compiled(GARDEN);
    let again = Catalogue::from_mo(fr.mo_file()).unwrap();
    assert!(fr.entries().map(shown).eq(again.entries().map(shown)));
    assert_eq!(again.mo_file(), fr.mo_file());
}

#[test]
fn an_empty_catalogue_has_no_entry() {
    let empty = compiled("");
    assert!(empty.is_empty());
    assert_eq!(empty.entries().len(), 0);
    assert!(empty.entries().next().is_none());
    assert_eq!(empty.mo_file().len(), 28);
}

#[test]
fn debug_shows_what_a_reader_of_a_log_wants() {
    let fr = compiled("msgid \"Winter\"\nmsgstr \"Hiver\"\n");
    assert_eq!(format!("{fr:?}"), "Catalogue { entries: 1 }");
    let entry = "Entry { context: None, msgid: \"Winter\", plural: None, forms: [\"Hiver\"] }";
    assert_eq!(format!("{:?}", fr.entries()), format!("[{entry}]"));
}
