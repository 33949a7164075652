use crate::{compiled, GARDEN};
use kobdzila::{Domain, Fault, FileRefused, Store, Watch, WatchOptions};
use std::env;
use std::fs::{self, File};
use std::io::Write;
use std::os::unix::fs::symlink;
use std::path::{Path, PathBuf};
use std::process::Command;
use std::sync::{Arc, Mutex};
use std::thread;
use std::time::{Duration, Instant};

/// A folder that is watched, what its store shows, and what was refused.
struct Garden {
    folder: PathBuf,
    store: Arc<Store>,
    refused: Arc<Mutex<Vec<String>>>,
}

impl Garden {
    fn new(name: &str) -> Garden {
        let folder = std::env::temp_dir().join(format!("kobdzila-{}-watch-{name}", std::process::id()));
        let _ = fs::remove_dir_all(&folder);
        fs::create_dir_all(folder.join("fr/LC_MESSAGES")).unwrap();
        Garden {
            folder,
            store: Arc::default(),
            refused: Arc::default(),
        }
    }

    fn options(&self) -> WatchOptions {
        let refused = Arc::clone(&self.refused);
        let keep = move |file: &FileRefused| refused.lock().unwrap().push(file.to_string());
        WatchOptions::new(&self.folder)
            .settle(Duration::from_millis(20))
            .refused(keep)
    }

    fn watch(&self) -> Watch {
        self.options().start(&self.store).unwrap()
    }

    fn path(&self, name: &str) -> PathBuf {
        self.folder.join(name)
    }

    fn write(&self, name: &str, text: impl AsRef<[u8]>) {
        fs::write(self.path(name), text).unwrap();
    }

    fn winter(&self, locale: &str) -> String {
        let mut reader = self.store.reader().unwrap();
        let now = reader.enter();
        now.languages(Domain("garden"), locale).gettext("Winter").to_string()
    }

    fn refused(&self) -> Vec<String> {
        let start = format!("{}/", self.folder.display());
        self.refused
            .lock()
            .unwrap()
            .iter()
            .map(|it| it.replace(&start, ""))
            .collect()
    }
}

impl Drop for Garden {
    fn drop(&mut self) {
        let _ = fs::remove_dir_all(&self.folder);
    }
}

/// Waits for this to be so, for up to a minute.
fn comes(what: &str, mut is_so: impl FnMut() -> bool) {
    let end = Instant::now() + Duration::from_secs(60);
    while !is_so() {
        assert!(Instant::now() < end, "after a minute: not {what}");
        thread::sleep(Duration::from_millis(2));
    }
}

fn winter(text: &str) -> String {
    format!("msgid \"Winter\"\nmsgstr \"{text}\"\n")
}

const PO: &str = "fr/LC_MESSAGES/garden.po";
const MO: &str = "fr/LC_MESSAGES/garden.mo";

#[test]
fn what_is_there_is_shown_at_once_and_changes_follow() {
    let garden = Garden::new("changes");
    garden.write(MO, compiled(GARDEN).mo_file());
    garden.write("fr/LC_MESSAGES/notes.txt", "no catalogue");
    garden.write("fr/LC_MESSAGES/.garden.po", "an editor's own file");
    let watch = garden.watch();
    assert_eq!((garden.store.version(), garden.winter("fr")), (1, "Hiver".into()));
    garden.write(MO, compiled(&winter("one")).mo_file());
    comes("one", || garden.winter("fr") == "one");
    // (a locale, and its folder, that come later)
    fs::create_dir_all(garden.path("de/LC_MESSAGES")).unwrap();
    garden.write("de/LC_MESSAGES/garden.po", winter("Winterzeit"));
    comes("Winterzeit", || garden.winter("de") == "Winterzeit");
    // (a file that takes the place of another one, as editors write)
    garden.write("new", winter("two"));
    fs::rename(garden.path("new"), garden.path(PO)).unwrap();
    comes("two", || garden.winter("fr") == "two");
    fs::remove_file(garden.path(PO)).unwrap();
    assert_eq!(watch.look(), None);
    assert_eq!(garden.winter("fr"), "two");
    assert_eq!(garden.refused(), [""; 0]);
}

#[test]
fn files_that_come_together_are_one_publish() {
    const LOCALES: [&str; 3] = ["fr", "de", "sv"];
    let garden = Garden::new("together");
    let (mut reader, settle) = (garden.store.reader().unwrap(), Duration::from_millis(400));
    let po = |locale: &str| format!("{locale}/LC_MESSAGES/garden.po");
    for locale in LOCALES {
        fs::create_dir_all(garden.path(&po(locale)).parent().unwrap()).unwrap();
    }
    let _watch = garden.options().settle(settle).start(&garden.store).unwrap();
    // (on a busy machine a file may come too late for the others, or the watch lose its patience of five seconds. Then
    // they come once more)
    for number in 0..100 {
        let (before, start) = (reader.enter().version(), Instant::now());
        for locale in LOCALES {
            // (moved from outside, so that the watch looks at the first one while the others are missing)
            let new = garden.folder.with_extension("new");
            fs::write(&new, winter(&format!("{locale} {number}"))).unwrap();
            fs::rename(&new, garden.path(&po(locale))).unwrap();
            thread::sleep(Duration::from_millis(50));
        }
        let written = start.elapsed();
        comes("a publish", || reader.enter().version() > before);
        if written < settle && start.elapsed() < Duration::from_secs(4) {
            assert_eq!(reader.version(), before + 3);
            return;
        }
        comes("all three files", || reader.enter().version() == before + 3);
    }
    panic!("a hundred times too slow");
}

/// Writes a locale's file piece by piece, over a catalogue that says `one`: nothing is published before it is closed.
fn write_slowly(garden: &Garden, watch: &Watch, locale: &str) {
    let before = garden.store.version();
    let text = winter("two") + "msgid \"Summer\"\nmsgstr \"ete\"\n";
    let mut file = File::create(garden.path(&format!("{locale}/LC_MESSAGES/garden.po"))).unwrap();
    for part in text.as_bytes().chunks(20) {
        file.write_all(part).unwrap();
        // (longer than a file has to stay as it is)
        thread::sleep(Duration::from_millis(60));
        assert_eq!(watch.look(), None);
        assert_eq!((garden.store.version(), garden.winter(locale)), (before, "one".into()));
    }
    drop(file);
    comes("two", || garden.winter(locale) == "two");
    assert_eq!(garden.refused().len(), 0);
}

#[test]
fn a_file_that_is_being_written_is_not_loaded() {
    let garden = Garden::new("writing");
    garden.write(PO, winter("one"));
    let watch = garden.watch();
    write_slowly(&garden, &watch, "fr");
    assert_eq!(garden.store.version(), 2);
}

#[test]
fn nor_is_one_while_another_folder_goes() {
    let garden = Garden::new("another-goes");
    garden.write(PO, winter("one"));
    fs::create_dir_all(garden.path("de/LC_MESSAGES")).unwrap();
    let watch = garden.watch();
    let mut file = File::create(garden.path(PO)).unwrap();
    file.write_all(winter("two").as_bytes()).unwrap();
    fs::remove_dir_all(garden.path("de")).unwrap();
    assert_eq!((watch.look(), garden.winter("fr")), (None, "one".into()));
    drop(file);
    comes("two", || garden.winter("fr") == "two");
}

#[test]
fn one_that_changes_all_the_time_delays_the_others_for_some_seconds() {
    let garden = Garden::new("restless");
    garden.write(PO, winter("one"));
    let _watch = garden.watch();
    let (start, mut number) = (Instant::now(), 0);
    while garden.winter("fr") == "one" && start.elapsed() < Duration::from_secs(60) {
        number += 1;
        garden.write("new", winter(&number.to_string()));
        fs::rename(garden.path("new"), garden.path("fr/LC_MESSAGES/orchard.po")).unwrap();
        if number == 1 {
            garden.write(PO, winter("two"));
        }
        thread::sleep(Duration::from_millis(2));
    }
    assert_eq!(garden.winter("fr"), "two");
}

#[test]
fn nor_is_one_in_a_folder_that_was_renamed() {
    let garden = Garden::new("renamed");
    fs::create_dir_all(garden.path("de.new/LC_MESSAGES")).unwrap();
    garden.write("de.new/LC_MESSAGES/garden.po", winter("one"));
    let watch = garden.watch();
    fs::rename(garden.path("de.new"), garden.path("de")).unwrap();
    comes("one", || garden.winter("de") == "one");
    write_slowly(&garden, &watch, "de");
    assert_eq!(garden.store.version(), 3);
}

#[test]
fn nor_is_one_in_a_folder_that_has_two_names() {
    let garden = Garden::new("two-names");
    garden.write(PO, winter("one"));
    symlink("fr", garden.path("fr_FR")).unwrap();
    let watch = garden.watch();
    write_slowly(&garden, &watch, "fr");
    comes("two", || garden.winter("fr_FR") == "two");
    assert_eq!(garden.store.version(), 4);
}

#[test]
fn a_file_that_is_refused_is_reported_once_and_changes_nothing() {
    let garden = Garden::new("refused");
    garden.write(PO, winter("one"));
    garden.write("fr/LC_MESSAGES/no name.po", winter("x"));
    let watch = garden.watch();
    garden.write(PO, "msgid \"Winter\"\n\nmsgstr panier\n");
    comes("refused", || garden.refused().len() == 2);
    watch.look();
    watch.look();
    assert_eq!(
        garden.refused(),
        [
            "fr/LC_MESSAGES/no name.po: not a text domain or locale".to_string(),
            format!("{PO}:3: {}", Fault::PoBadWord),
        ]
        .map(|it| if it.contains("no name") {
            format!("fr/LC_MESSAGES/no name.po: {}", Fault::BadName)
        } else {
            it
        })
    );
    assert_eq!((garden.store.version(), garden.winter("fr")), (1, "one".into()));
    garden.write(PO, winter("two"));
    comes("two", || garden.winter("fr") == "two");
}

/// The variable with which a test calls itself as a program: the folder to watch.
const WATCHED: &str = "KOBDZILA_WATCHED";

/// What this test prints to standard error as a program with this folder. It ends well.
fn printed_by(test: &str, folder: &Path) -> String {
    let mut program = Command::new(env::current_exe().unwrap());
    let said = program.args(["--exact", test]).env(WATCHED, folder).output().unwrap();
    let text = String::from_utf8_lossy(&said.stderr).into_owned();
    assert!(said.status.success(), "{text}{}", String::from_utf8_lossy(&said.stdout));
    text
}

#[test]
fn a_refusal_is_printed_with_its_cause() {
    if let Some(folder) = env::var_os(WATCHED) {
        drop(WatchOptions::new(folder).start(&Arc::default()).unwrap());
        return;
    }
    let garden = Garden::new("printed");
    // (a file that even root can't read: nothing is at the address 0)
    symlink("/proc/self/mem", garden.path(PO)).unwrap();
    let line = format!(
        "{}: file not readable: Input/output error (os error 5)\n",
        garden.path(PO).display()
    );
    let name = "watches::a_refusal_is_printed_with_its_cause";
    assert_eq!(printed_by(name, &garden.folder), line);
}

#[test]
fn a_relative_folder_stays_the_same_one() {
    if let Some(folder) = env::var_os(WATCHED) {
        let store = Arc::new(Store::new());
        env::set_current_dir(&folder).unwrap();
        let watch = WatchOptions::new(".").start(&store).unwrap();
        env::set_current_dir("/").unwrap();
        fs::write(Path::new(&folder).join(PO), winter("one")).unwrap();
        comes("one", || watch.look().is_some() || store.version() == 1);
        return;
    }
    let garden = Garden::new("relative");
    printed_by("watches::a_relative_folder_stays_the_same_one", &garden.folder);
}

#[test]
fn a_file_that_is_too_large_is_not_read() {
    let garden = Garden::new("large");
    // (a byte more than there may be, and far more than there is memory: a file of holes)
    for (name, size) in [(PO, 1 << 40), (MO, (1 << 28) + 1)] {
        File::create(garden.path(name)).unwrap().set_len(size).unwrap();
    }
    let _watch = garden.watch();
    let mut refused = garden.refused();
    refused.sort();
    let wanted = [(MO, Fault::MoTooLarge), (PO, Fault::PoTooLarge)];
    assert_eq!(refused, wanted.map(|(name, fault)| format!("{name}: {fault}")));
}

#[test]
fn a_file_that_is_removed_meanwhile_is_not_refused() {
    let garden = Garden::new("meanwhile");
    garden.write(PO, "msgid");
    thread::sleep(Duration::from_millis(20));
    let later = garden.path("fr/LC_MESSAGES/orchard.po");
    fs::write(&later, winter("one")).unwrap();
    let refused = Arc::clone(&garden.refused);
    let options = garden.options().refused(move |file| {
        refused.lock().unwrap().push(file.to_string());
        let _ = fs::remove_file(&later);
    });
    let _watch = options.start(&garden.store).unwrap();
    assert_eq!(garden.refused().len(), 1, "{:?}", garden.refused());
}

#[test]
fn a_file_without_a_message_replaces_none() {
    let garden = Garden::new("empty");
    garden.write(PO, winter("one"));
    let watch = garden.watch();
    garden.write(PO, "");
    comes("refused", || garden.refused().len() == 1);
    assert_eq!(garden.winter("fr"), "one");
    assert_eq!(
        garden.refused(),
        [format!("{PO}: no message, in place of a catalogue that has some")]
    );
    drop(watch);
    let accepting = Garden::new("accepting");
    accepting.write(PO, winter("one"));
    let _watch = accepting.options().accept_empty(true).start(&accepting.store).unwrap();
    accepting.write(PO, "");
    comes("no text", || accepting.winter("fr") == "Winter");
}

#[test]
fn nor_after_a_file_that_cannot_be_read() {
    let garden = Garden::new("unreadable");
    garden.write(PO, winter("one"));
    let _watch = garden.watch();
    symlink("/proc/self/mem", garden.path("new")).unwrap();
    fs::rename(garden.path("new"), garden.path(PO)).unwrap();
    comes("refused", || !garden.refused().is_empty());
    garden.write("new", "");
    fs::rename(garden.path("new"), garden.path(PO)).unwrap();
    let is_refused = || garden.refused().iter().any(|it| it.contains("no message"));
    comes("refused again", || is_refused() || garden.store.version() > 1);
    assert_eq!((garden.store.version(), garden.winter("fr")), (1, "one".into()));
}

#[test]
fn of_an_mo_file_and_a_po_file_the_later_one_is_shown() {
    let garden = Garden::new("both");
    garden.write(MO, compiled(&winter("mo")).mo_file());
    thread::sleep(Duration::from_millis(20));
    garden.write(PO, winter("po"));
    let watch = garden.watch();
    assert_eq!((garden.winter("fr"), garden.store.version()), ("po".into(), 2));
    assert_eq!((watch.look(), garden.store.version()), (None, 2));
    garden.write(MO, compiled(&winter("mo")).mo_file());
    comes("mo", || garden.winter("fr") == "mo");
    drop(watch);
}

#[test]
fn a_file_that_comes_with_an_earlier_time_is_not_the_later_one() {
    let garden = Garden::new("earlier");
    for name in ["old", "older"] {
        garden.write(name, winter(name));
    }
    thread::sleep(Duration::from_millis(20));
    garden.write(MO, compiled(&winter("mo")).mo_file());
    let watch = garden.watch();
    // (as `rsync -a` and `mv` bring a file)
    fs::rename(garden.path("old"), garden.path(PO)).unwrap();
    watch.look();
    assert_eq!(garden.winter("fr"), "mo");
    garden.write(PO, winter("po"));
    comes("po", || garden.winter("fr") == "po");
    fs::rename(garden.path("older"), garden.path(PO)).unwrap();
    watch.look();
    assert_eq!(garden.winter("fr"), "mo");
}

#[test]
fn the_same_bytes_are_no_change() {
    let garden = Garden::new("same");
    garden.write(PO, winter("one"));
    let watch = garden.watch();
    garden.write(PO, winter("one"));
    assert_eq!(watch.look(), None);
    assert_eq!(garden.store.version(), 1);
}

/// (`tests/rust/rust.sh` of the repository also runs it where times are whole seconds)
#[test]
fn a_file_may_change_several_times_within_a_second() {
    let garden = Garden::new("second");
    garden.write(PO, winter("0"));
    let _watch = garden.watch();
    for text in ["1", "2", "3", "4"] {
        garden.write(PO, winter(text));
        comes(text, || garden.winter("fr") == text);
    }
}

#[test]
fn other_bytes_are_a_change_even_with_the_size_and_time_of_the_old_ones() {
    let garden = Garden::new("time");
    garden.write(PO, winter("one"));
    let touch = |like: &str, name: &str| {
        let (like, name) = (garden.path(like), garden.path(name));
        let status = Command::new("touch").arg("-r").args([like, name]).status();
        assert!(status.unwrap().success());
    };
    garden.write("like", "");
    touch(PO, "like");
    // (time enough to set the time back before the file is read)
    let settle = Duration::from_millis(400);
    let _watch = garden.options().settle(settle).start(&garden.store).unwrap();
    garden.write(PO, winter("two"));
    touch("like", PO);
    comes("two", || garden.winter("fr") == "two");
}

#[test]
fn a_change_that_is_not_reported_is_found_within_a_second() {
    // (tests/rust/rust.sh of the repository runs this where the system reports none)
    let garden = Garden::new("unreported");
    garden.write(PO, winter("one"));
    let hour = Duration::from_secs(3600);
    let _watch = garden.options().every(hour).start(&garden.store).unwrap();
    garden.write(PO, winter("two"));
    comes("two", || garden.winter("fr") == "two");
}

#[test]
fn programs_that_are_started_have_no_descriptor_of_it() {
    let garden = Garden::new("descriptors");
    let _watch = garden.watch();
    let list = Command::new("ls").args(["-l", "/proc/self/fd"]).output().unwrap();
    assert!(!String::from_utf8_lossy(&list.stdout).contains("inotify"));
}

#[test]
fn a_watch_may_be_dropped_by_its_own_function() {
    let garden = Garden::new("own");
    let own: Arc<Mutex<Option<Watch>>> = Arc::default();
    let (dropped, is_dropped) = (Arc::clone(&own), Arc::new(Mutex::new(false)));
    let flag = Arc::clone(&is_dropped);
    let drop_it = move |_: &FileRefused| {
        drop(dropped.lock().unwrap().take());
        *flag.lock().unwrap() = true;
    };
    *own.lock().unwrap() = Some(garden.options().refused(drop_it).start(&garden.store).unwrap());
    garden.write(PO, "msgid");
    comes("dropped", || *is_dropped.lock().unwrap());
    assert!(own.lock().unwrap().is_none());
}

#[test]
fn a_panic_of_the_function_ends_nothing() {
    let garden = Garden::new("panic");
    garden.write(PO, "msgid");
    let options = WatchOptions::new(&garden.folder).settle(Duration::from_millis(20));
    let _watch = options.refused(|file| panic!("{file}")).start(&garden.store).unwrap();
    garden.write(PO, winter("one"));
    comes("one", || garden.winter("fr") == "one");
    garden.write(PO, "msgid");
    thread::sleep(Duration::from_millis(100));
    garden.write(PO, winter("two"));
    comes("two", || garden.winter("fr") == "two");
}

#[test]
fn a_folder_that_goes_and_comes_back() {
    let garden = Garden::new("gone");
    garden.write(PO, winter("one"));
    let _watch = garden
        .options()
        .every(Duration::from_millis(100))
        .start(&garden.store)
        .unwrap();
    fs::remove_dir_all(&garden.folder).unwrap();
    thread::sleep(Duration::from_millis(150));
    assert_eq!(garden.winter("fr"), "one");
    fs::create_dir_all(garden.path("fr/LC_MESSAGES")).unwrap();
    garden.write(PO, winter("two"));
    comes("two", || garden.winter("fr") == "two");
}

#[test]
fn only_the_domains_that_are_wanted() {
    let garden = Garden::new("domains");
    garden.write(PO, winter("one"));
    garden.write("fr/LC_MESSAGES/orchard.po", "msgid");
    let _watch = garden.options().domains(["garden"]).start(&garden.store).unwrap();
    assert_eq!((garden.store.version(), garden.refused().len()), (1, 0));
}

#[test]
fn no_text_is_torn_while_files_are_replaced() {
    let garden = Garden::new("torn");
    garden.write(PO, winter("0 0"));
    let _watch = garden
        .options()
        .settle(Duration::from_millis(1))
        .start(&garden.store)
        .unwrap();
    let mut last = String::new();
    for number in 1..=30 {
        garden.write("new", winter(&format!("{number} {number}")));
        fs::rename(garden.path("new"), garden.path(PO)).unwrap();
        comes("the next text", || {
            let text = garden.winter("fr");
            let (one, other) = text.split_once(' ').unwrap();
            assert_eq!(one, other);
            last = text;
            last == format!("{number} {number}")
        });
    }
    assert_eq!(garden.refused().len(), 0);
}
