//! A program for a terminal, in the user's language: `LANGUAGE=fr cargo run --example greeter --features
//! languages,macros -- FOLDER Ada 3`. The folder has catalogues as `FOLDER/fr/LC_MESSAGES/greeter.mo`.

use std::path::Path;

use kobdzila::{set_texts, t, tn, Domain, Fault, OwnedLanguages, Preferences, Refused, Set};

const GREETER: Domain<'static> = Domain("greeter");

fn main() -> Result<(), Box<dyn std::error::Error>> {
    let words: Vec<String> = std::env::args().skip(1).collect();
    let [folder, name, beds] = <[String; 3]>::try_from(words).map_err(|_| "usage: greeter FOLDER NAME BEDS")?;
    set_texts(texts(Path::new(&folder))?);
    let beds: u64 = beds.parse()?;
    println!("{}", t!("Hello, {name}!", name));
    println!(
        "{}",
        tn!("There is {n} bed to water.", "There are {n} beds to water.", beds)
    );
    Ok(())
}

/// The catalogues that are installed for the languages of the environment.
fn texts(folder: &Path) -> Result<OwnedLanguages, Refused> {
    let languages = Preferences::of_environment().list();
    let mut set = Set::new();
    for locale in languages.split(':') {
        match set.with_installed(folder, GREETER, locale) {
            Ok(more) => set = more,
            // (there is none for this locale, or it is no locale)
            Err(refused) if [Fault::Unreadable, Fault::BadName].contains(&refused.fault()) => {}
            Err(refused) => return Err(refused),
        }
    }
    Ok(set.into_languages(GREETER, &languages))
}
