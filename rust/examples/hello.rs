//! Looks up a message and a plural in French: `cargo run --example hello`.
use kobdzila::{Catalogue, Options, Refused};

fn main() -> Result<(), Refused> {
    let fr = Catalogue::from_po(include_bytes!("fr.po"), Options::new())?;
    println!("{}", fr.gettext("Winter"));
    println!("3 {}", fr.ngettext("tomato", "tomatoes", 3));
    Ok(())
}
