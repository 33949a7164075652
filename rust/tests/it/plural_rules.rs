//! Rules that other libraries get wrong: operators that they group to the wrong side, and divisions by zero.

use crate::compiled;
use kobdzila::{Catalogue, Options};

const FORMS: [&str; 4] = ["zero", "one", "two", "three"];

/// A catalogue with four forms, which this rule chooses.
fn ruled_by(rule: &str) -> Catalogue {
    let forms: String = FORMS
        .iter()
        .enumerate()
        .map(|(i, form)| format!("msgstr[{i}] \"{form}\"\n"))
        .collect();
    let text = format!(
        "msgid \"\"\nmsgstr \"Plural-Forms: nplurals=4; plural={rule};\\n\"\nmsgid \"a\"\nmsgid_plural \"b\"\n{forms}"
    );
    Catalogue::from_po(text.as_bytes(), Options::new()).unwrap()
}

/// Compares the forms for 0 to 200 with the value of the same rule in Rust; `None` is a division by zero.
fn is_rule(rule: &str, value: impl Fn(u64) -> Option<u64>) {
    let catalogue = ruled_by(rule);
    for n in 0..=200 {
        let form = value(n).and_then(|it| FORMS.get(it as usize)).unwrap_or(&FORMS[0]);
        assert_eq!(catalogue.ngettext("a", "b", n), *form, "{rule} at {n}");
    }
}

#[test]
fn conditionals_group_to_the_right() {
    is_rule("n==1 ? 0 : n%10==1 ? 1 : 2", |n| {
        Some(if n == 1 {
            0
        } else if n % 10 == 1 {
            1
        } else {
            2
        })
    });
    is_rule("n==1 ? n==2 ? 3 : 0 : 1", |n| Some(u64::from(n != 1)));
}

#[test]
fn remainders_group_to_the_left() {
    is_rule("n%10%4", |n| Some(n % 10 % 4));
    is_rule("n%100/10%4", |n| Some(n % 100 / 10 % 4));
}

#[test]
fn differences_group_to_the_left() {
    is_rule("n>100 ? 100-1-98 : 0", |n| Some(u64::from(n > 100)));
}

#[test]
fn comparisons_come_before_equality() {
    is_rule("1<n==1", |n| Some(u64::from((1 < n) == (1 == 1))));
    is_rule("n==1<1", |n| Some(u64::from(n == 0)));
    is_rule("0<n<2", |_| Some(1));
}

#[test]
fn not_comes_before_everything() {
    is_rule("!n+1", |n| Some(u64::from(n == 0) + 1));
    is_rule("!!n", |n| Some(u64::from(n != 0)));
}

#[test]
fn a_division_by_zero_is_the_first_form() {
    is_rule("7%n", |n| 7_u64.checked_rem(n));
    is_rule("3/n", |n| 3_u64.checked_div(n));
    is_rule("1+1/n", |n| 1_u64.checked_div(n).map(|it| 1 + it));
}

#[test]
fn what_is_not_needed_has_no_division_by_zero() {
    is_rule("n && 1/n", |n| Some(u64::from(n == 1)));
    is_rule("!n || 1/n", |n| Some(u64::from(n <= 1)));
    is_rule("n ? 1/n : 2", |n| Some(1_u64.checked_div(n).unwrap_or(2)));
}

#[test]
fn a_value_that_is_no_form_is_the_first_form() {
    is_rule("n", Some);
    is_rule("0-1", |_| None);
    assert_eq!(ruled_by("n").ngettext("a", "b", u64::MAX), "zero");
}

#[test]
fn numbers_have_64_bits() {
    let catalogue = ruled_by("n==18446744073709551615 ? 3 : n>4294967296 ? 2 : 1");
    assert_eq!(catalogue.ngettext("a", "b", u64::MAX), "three");
    assert_eq!(catalogue.ngettext("a", "b", u64::from(u32::MAX) + 2), "two");
    assert_eq!(catalogue.ngettext("a", "b", u64::from(u32::MAX) + 1), "one");
}

#[test]
fn without_a_rule_one_is_the_first_form_and_all_others_the_second() {
    let plain = "msgid \"a\"\nmsgid_plural \"b\"\nmsgstr[0] \"one\"\nmsgstr[1] \"many\"\n";
    let catalogue = Catalogue::from_po(plain.as_bytes(), Options::new()).unwrap();
    assert_eq!(
        [0, 1, 2].map(|n| catalogue.ngettext("a", "b", n)),
        ["many", "one", "many"]
    );
}

#[test]
fn the_rules_of_languages() {
    let ru = compiled(concat!(
        "msgid \"\"\nmsgstr \"Plural-Forms: nplurals=3; plural=",
        "n%10==1 && n%100!=11 ? 0 : n%10>=2 && n%10<=4 && (n%100<10 || n%100>=20) ? 1 : 2;\\n\"\n",
        "msgid \"file\"\nmsgid_plural \"files\"\nmsgstr[0] \"файл\"\nmsgstr[1] \"файла\"\nmsgstr[2] \"файлов\"\n",
    ));
    let asked = [0, 1, 2, 5, 11, 21, 22, 111].map(|n| ru.ngettext("file", "files", n));
    let wanted = ["файлов", "файл", "файла", "файлов", "файлов", "файл", "файла", "файлов"];
    assert_eq!(asked, wanted);
}
