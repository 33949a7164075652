//! Compiles PO files with all checks, and prints what is wrong with them: `cargo run --example check_po -- fr.po de.po`.

use std::error::Error;
use std::path::{Path, PathBuf};
use std::process::ExitCode;

use kobdzila::{Catalogue, Format, Options, Refused};

fn main() -> ExitCode {
    let mut status = ExitCode::SUCCESS;
    for file in std::env::args_os().skip(1).map(PathBuf::from) {
        match Catalogue::open(&file, Format::Po(Options::new().checked(true))) {
            Ok(catalogue) => println!("{}: {} entries", file.display(), catalogue.len()),
            Err(refused) => {
                eprintln!("{}", message(&file, &refused));
                status = ExitCode::FAILURE;
            }
        }
    }
    status
}

/// `fr.po:3: duplicate message`, which an editor can jump to; without a line, the cause if there is one.
fn message(file: &Path, refused: &Refused) -> String {
    let file = file.display();
    match (refused.line(), refused.source()) {
        (Some(line), _) => format!("{file}:{line}: {refused}"),
        (None, Some(cause)) => format!("{file}: {refused}: {cause}"),
        (None, None) => format!("{file}: {refused}"),
    }
}
