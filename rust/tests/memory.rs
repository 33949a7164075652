//! Loads, publishes, enters and watches, and prints which of these calls found no memory. `tests/rust/rust.sh` of the
//! repository refuses this program one request for memory after another; without that it prints nothing.

use kobdzila::{Catalogue, Domain, Fault, Options, Refused, Store};

/// What the call returns. If memory runs out, it is called again, and then has to succeed.
fn twice<T>(name: &str, call: impl Fn() -> Result<T, Refused>) -> T {
    call().unwrap_or_else(|refused| {
        assert_eq!(refused.fault(), Fault::Memory);
        println!("{name}: {refused}");
        call().unwrap()
    })
}

fn main() {
    let po = b"msgid \"Winter\"\nmsgstr \"Hiver\"\n";
    let fr = twice("catalogue", || Catalogue::from_po(po, Options::new()));
    let store = Store::new();
    twice("load", || store.load(Domain("garden"), "fr", &fr));
    assert_eq!((store.version(), store.pending()), (0, 1));
    if let Err(why) = store.publish() {
        println!("publish: {why}");
        assert_eq!((store.version(), store.pending()), (0, 1));
        assert_eq!(store.publish(), Ok(1));
    }
    let mut reader = twice("reader", || store.reader());
    let notice = twice("notice", || store.notice());
    let now = reader.enter_after(&notice).unwrap();
    assert_eq!(now.version(), 1);
    assert_eq!(now.languages(Domain("garden"), "fr").gettext("Winter"), "Hiver");
    #[cfg(feature = "watch")]
    watch(po).unwrap();
}

/// Watches a folder: a file that was refused without memory is loaded by the next look, though it is as it was.
#[cfg(feature = "watch")]
fn watch(po: &[u8]) -> std::io::Result<()> {
    use kobdzila::{FileRefused, WatchOptions};
    use std::{error::Error, fs, path::Path, sync::Arc, time::Duration};
    let folder = Path::new(env!("CARGO_TARGET_TMPDIR")).join("memory");
    fs::create_dir_all(folder.join("fr/LC_MESSAGES"))?;
    fs::write(folder.join("fr/LC_MESSAGES/garden.po"), po)?;
    let report = |file: &FileRefused| match file.source() {
        Some(cause) => println!("watch: {cause}"),
        None => println!("watch: {}", file.fault().unwrap()),
    };
    let start = || {
        let store = Arc::new(Store::new());
        let options = WatchOptions::new(&folder).settle(Duration::from_millis(1));
        options.refused(report).start(&store).map(|watch| (store, watch))
    };
    let (store, watch) = start().or_else(|_| start())?;
    watch.look();
    assert_eq!(store.version(), 1);
    Ok(())
}
