//! Tests with the program that `KOBDZILA_CATSESSION` names. Without this variable they take the one on the PATH; if there
//! is none, they do nothing, and say so.

use crate::{compiled, GARDEN};
use kobdzila::{Ask, Domain, Options, Session, SessionError};
use std::thread;

const DOMAIN: Domain<'static> = Domain("garden");

fn session() -> Option<Session> {
    if let Some(program) = std::env::var_os("KOBDZILA_CATSESSION") {
        return Some(Session::with_program(&program).unwrap_or_else(|why| panic!("{program:?}: {why}")));
    }
    let session = Session::new();
    if let Err(why) = &session {
        eprintln!("catsession: {why}");
    }
    session.ok()
}

macro_rules! session {
    () => {
        match session() {
            Some(session) => session,
            None => return,
        }
    };
}

#[test]
fn answers_are_those_of_the_version_that_was_published() {
    let session = session!();
    assert_eq!(session.gettext(DOMAIN, "fr", "Winter").unwrap().text(), "Winter");
    session
        .load_po(DOMAIN, "fr", GARDEN.as_bytes(), Options::new().checked(true))
        .unwrap();
    session
        .load_mo(
            DOMAIN,
            "de",
            compiled("msgid \"Winter\"\nmsgstr \"Winterzeit\"").mo_file(),
        )
        .unwrap();
    assert_eq!(session.gettext(DOMAIN, "fr", "Winter").unwrap().version(), 0);
    assert_eq!(session.publish().unwrap(), 2);
    let page = [
        Ask::gettext("Winter"),
        Ask::pgettext("menu", "Open"),
        Ask::ngettext("tomato", "tomatoes", 2),
        Ask::npgettext("bed", "row", "rows", 1),
        Ask::ngettext("pea", "peas", 2),
    ];
    let answers = session.ask(DOMAIN, "fr_CA:de", &page).unwrap();
    let texts: Vec<&str> = answers.iter().map(|it| it.text()).collect();
    assert_eq!(texts, ["Hiver", "Ouvrir", "tomates", "rangée", "peas"]);
    assert!(answers.iter().all(|it| it.version() == 2));
    assert_eq!(
        session.ngettext(DOMAIN, "de", "Winter", "x", 1).unwrap().to_string(),
        "Winterzeit"
    );
}

#[test]
fn texts_may_have_any_character() {
    let session = session!();
    let po = "msgid \"a\\tb\\nc\\\\d\"\nmsgstr \"\\\\\\\\n\\t\\n\u{85}\"\n";
    session.load_po(DOMAIN, "fr", po.as_bytes(), Options::new()).unwrap();
    session.publish().unwrap();
    assert_eq!(
        session.gettext(DOMAIN, "fr", "a\tb\nc\\d").unwrap().text(),
        "\\\\n\t\n\u{85}"
    );
    for text in ["", "\\", "\\n", "\n", "\t\t", "é\\", "x\\ny\n"] {
        assert_eq!(session.gettext(DOMAIN, "fr", text).unwrap().text(), text);
    }
}

#[test]
fn refused_loads_are_listed_and_the_others_are_published() {
    let session = session!();
    session
        .load_po(
            DOMAIN,
            "fr",
            b"msgid \"a\"\nmsgstr \"x\"\nmsgid \"a\"\nmsgstr \"y\"",
            Options::new(),
        )
        .unwrap();
    session
        .load_po(
            DOMAIN,
            "de",
            b"msgid \"Winter\"\nmsgstr \"Winterzeit\"\n",
            Options::new(),
        )
        .unwrap();
    session.load_po(DOMAIN, "s v", b"", Options::new()).unwrap();
    session.load_mo(DOMAIN, "es", b"no MO file").unwrap();
    let why = session.publish().unwrap_err();
    match &why {
        SessionError::Refused { version, refusals } => {
            let found: Vec<_> = refusals
                .iter()
                .map(|it| (it.locale.as_str(), it.number, it.line))
                .collect();
            assert_eq!(*version, 1);
            assert_eq!(found[..2], [("fr", Some(9), Some(3)), ("s v", None, None)]);
            assert_eq!((found[2].0, found[2].2), ("es", None));
        }
        other => panic!("{other}"),
    }
    assert!(why.to_string().starts_with("garden in fr: refused, number 9, line 3; "));
    assert_eq!(session.gettext(DOMAIN, "de", "Winter").unwrap().text(), "Winterzeit");
    assert_eq!(session.publish().unwrap(), 1);
}

#[test]
fn what_cannot_be_sent_changes_nothing() {
    let session = session!();
    let is_unsendable = |it: Result<(), SessionError>| matches!(it, Err(SessionError::Unsendable(_)));
    assert!(is_unsendable(session.load_po(
        Domain("a\tb"),
        "fr",
        b"",
        Options::new()
    )));
    assert!(is_unsendable(session.load_mo(DOMAIN, "a\nb", b"")));
    assert!(is_unsendable(session.load_po(DOMAIN, "fr", b"\xff", Options::new())));
    assert!(is_unsendable(session.load_mo(DOMAIN, "fr", &vec![0; 34_000_000])));
    assert!(is_unsendable(session.gettext(DOMAIN, "f\nr", "x").map(|_| ())));
    assert_eq!(session.publish().unwrap(), 0);
}

#[test]
fn threads_share_a_session() {
    let session = session!();
    session
        .load_po(DOMAIN, "fr", GARDEN.as_bytes(), Options::new())
        .unwrap();
    session.publish().unwrap();
    thread::scope(|scope| {
        for thread in 0..4 {
            let session = &session;
            scope.spawn(move || {
                for number in 0..100 {
                    let text = format!("{thread} {number}");
                    assert_eq!(session.gettext(DOMAIN, "fr", &text).unwrap().text(), text);
                    assert_eq!(session.gettext(DOMAIN, "fr", "Winter").unwrap().text(), "Hiver");
                }
            });
        }
    });
}

#[test]
fn a_process_that_has_ended_says_so() {
    let session = Session::with_program("/bin/false").unwrap();
    for _ in 0..2 {
        let why = session.gettext(DOMAIN, "fr", "Winter").unwrap_err();
        assert!(matches!(&why, SessionError::Ended(_)), "{why}");
    }
}

#[test]
fn a_program_that_is_missing_is_an_error_with_its_source() {
    let why = Session::with_program("/no/such/program").unwrap_err();
    assert!(std::error::Error::source(&why).is_some());
}
