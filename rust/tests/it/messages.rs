use crate::compiled;
use kobdzila::{report_mismatches, t, tn, tnp, tp, Catalogue, Domain, Mismatch, Set};
use std::cell::Cell;
use std::fmt;
use std::sync::Mutex;

/// The macros mean the macro of the standard library.
#[allow(unused_macros)]
macro_rules! stringify {
    ($($name:tt)*) => {
        "no name"
    };
}

/// Messages with arguments: right ones, and some whose placeholders differ from those of the message.
fn texts() -> Catalogue {
    compiled(
        r#"
msgid ""
msgstr "Content-Type: text/plain; charset=UTF-8\n"
"Plural-Forms: nplurals=2; plural=n>1;\n"

msgid "{name} planted {what}."
msgstr "{what} : planté par {name}. ({name})"

msgid "A brace: {{ and }}"
msgstr "Une accolade : {{ et }} ({{}})"

msgid "Lost {name}"
msgstr "Perdu"

msgid "Gone {name}"
msgstr "Parti"

msgid "Other {name}"
msgstr "Autre {nom}"

msgid "Open {name}"
msgstr "Ouvert {name"

msgid "Spec {name}"
msgstr "Format {name:>5}"

msgid "Closed {name}"
msgstr "Fermé {name} }"

msgid "{n} tomato in {where}"
msgid_plural "{n} tomatoes in {where}"
msgstr[0] "une tomate dans {where}"
msgstr[1] "{n} tomates dans {where}"

msgid "{n} pea in {where}"
msgid_plural "{n} peas in {where}"
msgstr[0] "un petit pois"
msgstr[1] "{n} petits pois dans {where}"

msgctxt "menu"
msgid "Open"
msgstr "Ouvrir"

msgctxt "bed"
msgid "{n} row"
msgid_plural "{n} rows"
msgstr[0] "{n} rangée"
msgstr[1] "{n} rangées"
"#,
    )
}

#[test]
fn arguments_are_put_where_the_translation_names_them() {
    let (fr, name) = (texts(), "Ada");
    assert_eq!(
        t!(fr; "{name} planted {what}.", what = "tomates", name),
        "tomates : planté par Ada. (Ada)"
    );
    assert_eq!(t!(fr; "A brace: {{ and }}"), "Une accolade : { et } ({})");
    assert_eq!(t!(fr; "Not there: {name} {{}}", name = 2.5), "Not there: 2.5 {}");
    assert_eq!(
        t!(&fr; "Not there: {name}", name = format_args!("{:.1}", 2.55),),
        "Not there: 2.5"
    );
    assert_eq!(tp!(fr; "menu", "Open"), "Ouvrir");
    assert_eq!(tp!(fr; "door", "Open {what}", what = '1'), "Open 1");
    assert_eq!(t!("{name} planted {what}.", name, what = 3), "Ada planted 3.");
    assert_eq!(tp!("menu", "Open"), "Open");
}

#[test]
fn an_argument_is_no_format() {
    let fr = texts();
    let text = t!(fr; "{name} planted {what}.", name = "{what}", what = "{{name}}");
    assert_eq!(text, "{{name}} : planté par {what}. ({what})");
}

#[test]
fn plural_forms_are_those_of_the_catalogue() {
    let fr = texts();
    let tomatoes = |n: usize| tn!(fr; "{n} tomato in {where}", "{n} tomatoes in {where}", n, where = "A");
    assert_eq!(
        [0, 1, 2].map(tomatoes),
        ["une tomate dans A", "une tomate dans A", "2 tomates dans A"]
    );
    assert_eq!(tnp!(fr; "bed", "{n} row", "{n} rows", 1_u8), "1 rangée");
    assert_eq!(tnp!(fr; "bed", "{n} row", "{n} rows", -3), "-3 rangées");
    assert_eq!(tnp!(fr; "bed", "{n} row", "{n} rows", -1_i64), "-1 rangée");
    assert_eq!(tn!(fr; "{n} bean", "{n} beans", 1), "1 bean");
    assert_eq!(tn!("one bean", "{n} beans", 1_u32), "one bean");
    assert_eq!(
        tnp!("bed", "{n} bean", "{n} beans", u64::MAX),
        "18446744073709551615 beans"
    );
}

#[test]
fn each_argument_is_evaluated_once() {
    let (fr, count) = (texts(), Cell::new(0));
    let next = || {
        count.set(count.get() + 1);
        count.get()
    };
    // (no message of the test below: a process reports a mismatch once, and that test wants to see it)
    assert_eq!(t!(fr; "Gone {name}", name = next()), "Gone 1");
    assert_eq!(tnp!(fr; "bed", "{n} row", "{n} rows", next()), "2 rangées");
}

#[test]
fn arguments_may_have_any_name_that_is_in_scope() {
    // (these are names of the macros as well)
    const WANTED: &str = "spade";
    let (n, number, texts) = (7, 8, texts());
    assert_eq!(t!("{it} is wanted", it = WANTED), "spade is wanted");
    assert_eq!(
        tn!(texts; "{n} of {all} {it}", "{n} of {all} {it}s", WANTED.len(), all = n + number, it = WANTED),
        "5 of 15 spades"
    );
}

#[test]
fn texts_may_be_in_texts() {
    let fr = texts();
    let open = t!(fr; "Not there: {name}", name = tp!(fr; "menu", "Open"));
    assert_eq!(open, "Not there: Ouvrir");
    struct Nested;
    impl fmt::Display for Nested {
        fn fmt(&self, f: &mut fmt::Formatter<'_>) -> fmt::Result {
            f.write_str(&t!("Inside"))
        }
    }
    assert_eq!(t!("Outside: {nested}", nested = Nested), "Outside: Inside");
}

#[test]
fn a_name_may_have_any_letter() {
    let größe = 3;
    assert_eq!(t!("{größe} m", größe), "3 m");
    let fr = compiled("msgid \"{größe} m\"\nmsgstr \"{größe} mètres\"\n");
    assert_eq!(t!(fr; "{größe} m", größe), "3 mètres");
}

static REPORTS: Mutex<Vec<String>> = Mutex::new(Vec::new());

fn keep(mismatch: &Mismatch) {
    REPORTS.lock().unwrap().push(mismatch.to_string());
}

#[test]
fn a_translation_with_other_placeholders_is_never_used_and_reported_once() {
    report_mismatches(keep);
    let (fr, name) = (texts(), "Ada");
    for _ in 0..3 {
        assert_eq!(t!(fr; "Lost {name}", name), "Lost Ada");
        assert_eq!(t!(fr; "Other {name}", name), "Other Ada");
        assert_eq!(t!(fr; "Open {name}", name), "Open Ada");
        assert_eq!(t!(fr; "Spec {name}", name), "Spec Ada");
        assert_eq!(t!(fr; "Closed {name}", name), "Closed Ada");
        let pea = |n: u64| tn!(fr; "{n} pea in {where}", "{n} peas in {where}", n, where = "A");
        assert_eq!([1, 2].map(pea), ["1 pea in A", "2 petits pois dans A"]);
    }
    let reports = REPORTS.lock().unwrap();
    for translation in [
        "Perdu",
        "Autre {nom}",
        "Ouvert {name",
        "Format {name:>5}",
        "Fermé {name} }",
        "un petit pois",
    ] {
        let is_it = |it: &&String| it.ends_with(&format!(": {translation:?}"));
        assert_eq!(reports.iter().filter(is_it).count(), 1, "{translation}: {reports:?}");
    }
    let first = "not used, as its placeholders differ from those of \"Lost {name}\": \"Perdu\"";
    assert!(reports.contains(&first.to_string()));
}

#[test]
fn any_look_ups_will_do() {
    let set = Set::new().with(Domain("garden"), "fr", &texts()).unwrap();
    let list = set.languages(Domain("garden"), "fr");
    assert_eq!(tp!(list; "menu", "Open"), "Ouvrir");
    assert_eq!(tp!(set.languages(Domain("garden"), "de"); "menu", "Open"), "Open");
    fn open(texts: &dyn kobdzila::Lookup) -> String {
        tp!(texts; "menu", "Open")
    }
    assert_eq!(open(&Some(texts())), "Ouvrir");
}
