use crate::{compiled, GARDEN};
use kobdzila::{Catalogue, Domain, Fault, Format, Options, Set};
use std::error::Error;
use std::ffi::OsStr;
use std::io::ErrorKind;
use std::os::unix::ffi::OsStrExt;
use std::path::{Path, PathBuf};
use std::{fs, io};

/// A folder of this test's own, removed at the end.
struct Folder(PathBuf);

impl Folder {
    fn new(name: &str) -> Folder {
        let path = std::env::temp_dir().join(format!("kobdzila-{}-{name}", std::process::id()));
        fs::create_dir_all(&path).unwrap();
        Folder(path)
    }
}

impl Drop for Folder {
    fn drop(&mut self) {
        let _ = fs::remove_dir_all(&self.0);
    }
}

fn refused_with(path: impl AsRef<Path>) -> ErrorKind {
    let refused = Catalogue::open(path, Format::Mo).unwrap_err();
    assert_eq!((refused.fault(), refused.line()), (Fault::Unreadable, None));
    assert_eq!(refused.to_string(), "file not readable");
    let cause = refused.source().unwrap().downcast_ref::<io::Error>().unwrap();
    cause.kind()
}

#[test]
fn files_of_both_formats() {
    let folder = Folder::new("formats");
    let (po, mo) = (folder.0.join("fr.po"), folder.0.join("fr.mo"));
    fs::write(&po, GARDEN).unwrap();
    fs::write(&mo, compiled(GARDEN).mo_file()).unwrap();
    let compiled = Catalogue::open(&po, Format::Po(Options::new().checked(true))).unwrap();
    let read = Catalogue::open(&mo, Format::Mo).unwrap();
    assert_eq!(compiled.mo_file(), read.mo_file());
    let refused = Catalogue::open(&po, Format::Mo).unwrap_err();
    assert_eq!(refused.fault(), Fault::MoMagic);
    assert!(refused.source().is_none());
    assert_eq!(
        Catalogue::open(&mo, Format::Po(Options::new())).unwrap_err().fault(),
        Fault::PoNotUtf8
    );
}

#[test]
fn files_that_cannot_be_read() {
    let folder = Folder::new("unreadable");
    assert_eq!(refused_with(folder.0.join("none.mo")), ErrorKind::NotFound);
    assert_eq!(refused_with("a\0b"), ErrorKind::InvalidInput);
    refused_with(&folder.0);
}

#[test]
fn names_that_are_not_utf8() {
    let folder = Folder::new("names");
    let name = folder.0.join(OsStr::from_bytes(b"\xe9t\xe9.po"));
    fs::write(&name, GARDEN).unwrap();
    let fr = Catalogue::open(&name, Format::Po(Options::new())).unwrap();
    assert_eq!(fr.gettext("Winter"), "Hiver");
}

#[test]
fn installed_catalogues() {
    let folder = Folder::new("installed");
    let messages = folder.0.join("fr/LC_MESSAGES");
    fs::create_dir_all(&messages).unwrap();
    fs::write(messages.join("garden.mo"), compiled(GARDEN).mo_file()).unwrap();
    let set = Set::new().with_installed(&folder.0, Domain("garden"), "fr").unwrap();
    assert_eq!(set.languages(Domain("garden"), "fr").gettext("Winter"), "Hiver");
    let refused = set.with_installed(&folder.0, Domain("garden"), "de").unwrap_err();
    assert_eq!(refused.fault(), Fault::Unreadable);
    assert!(refused.source().is_some());
    assert_eq!(
        set.with_installed(&folder.0, Domain(".."), "fr").unwrap_err().fault(),
        Fault::BadName
    );
}
