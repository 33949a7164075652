//! A server whose pages are in the language of the request, while translators replace its catalogues.
//!
//!     garden-server FOLDER ADDRESS [THREADS]
//!
//! FOLDER has a catalogue FOLDER/LOCALE/LC_MESSAGES/garden.po or .mo for each language. A file that is written or moved
//! there is shown at once; one that is refused is printed, and the texts before it stay. The page /3 is about 3 tomatoes.

use std::error::Error;
use std::fs;
use std::io::{self, Cursor};
use std::sync::Arc;
use std::thread;

use kobdzila::{t, tn, Domain, Lookup, Preferences, Reader, Store, WatchOptions};
use tiny_http::{Header, Request, Response, Server};

const GARDEN: Domain<'static> = Domain("garden");
/// The language of the messages in this program.
const SOURCE: &str = "en";

fn main() -> Result<(), Box<dyn Error + Send + Sync>> {
    let words: Vec<String> = std::env::args().skip(1).collect();
    let (folder, address) = match &words[..] {
        [folder, address, ..] => (folder, address),
        _ => return Err("usage: garden-server FOLDER ADDRESS [THREADS]".into()),
    };
    let threads: usize = words.get(2).map_or(Ok(4), |it| it.parse())?;
    let store = Arc::new(Store::new());
    let _watch = WatchOptions::new(folder).domains([GARDEN.0]).start(&store)?;
    let languages = Arc::new(languages_of(folder)?);
    let server = Arc::new(Server::http(address)?);
    println!("http://{}/", server.server_addr());
    let mut serving = Vec::new();
    for _ in 0..threads {
        // (each thread has a reader of its own)
        let mut reader = store.reader()?;
        let (server, languages) = (Arc::clone(&server), Arc::clone(&languages));
        serving.push(thread::spawn(move || {
            while let Ok(request) = server.recv() {
                if let Err(why) = answer(request, &mut reader, &languages) {
                    eprintln!("a client has gone: {why}");
                }
            }
        }));
    }
    for thread in serving {
        thread.join().map_err(|_| "a thread has ended")?;
    }
    Ok(())
}

/// The languages that there are: those of the folder, and that of the messages.
fn languages_of(folder: &str) -> io::Result<Vec<String>> {
    let mut languages = vec![SOURCE.to_string()];
    for locale in fs::read_dir(folder)? {
        languages.extend(locale?.file_name().into_string());
    }
    Ok(languages)
}

/// Answers a request from one version of the catalogues, in one language.
fn answer(request: Request, reader: &mut Reader, languages: &[String]) -> io::Result<()> {
    let now = reader.enter();
    let accepted = header(&request, "Accept-Language");
    let there_are: Vec<&str> = languages.iter().map(String::as_str).collect();
    let language = Preferences::of_header(&accepted).choose(&there_are).unwrap_or(SOURCE);
    let response = match number(request.url()) {
        Some(n) => page(&now.languages(GARDEN, language), language, now.version(), n).with_status_code(200),
        None => Response::from_string("there are pages such as /3\n").with_status_code(404),
    };
    // (the answer to another reader's request may be in another language: RFC 9110, section 12.5.5)
    let response = response.with_header(field("Vary", "Accept-Language"));
    request.respond(response)
}

/// A page about `n` tomatoes.
fn page(texts: &impl Lookup, language: &str, version: u64, n: u64) -> Response<Cursor<Vec<u8>>> {
    let tag = language.replace('_', "-");
    let title = escaped(texts.gettext("The garden in winter"));
    let tomatoes = escaped(&tn!(texts; "{n} tomato is left.", "{n} tomatoes are left.", n));
    let note = escaped(&t!(texts; "Texts of version {version}", version));
    let html = format!(
        "<!DOCTYPE html>\n<html lang=\"{tag}\">\n<meta charset=\"utf-8\">\n<title>{title}</title>\n\
         <h1>{title}</h1>\n<p>{tomatoes}</p>\n<p>{note}</p>\n</html>\n"
    );
    Response::from_string(html)
        .with_header(field("Content-Type", "text/html; charset=utf-8"))
        .with_header(field("Content-Language", &tag))
}

/// The number of `/3`; that of `/` is 1.
fn number(path: &str) -> Option<u64> {
    match path.strip_prefix('/')? {
        "" => Some(1),
        digits => digits.parse().ok(),
    }
}

/// The value of a header, which may have come in several lines.
fn header(request: &Request, name: &'static str) -> String {
    let lines = request.headers().iter().filter(|it| it.field.equiv(name));
    lines.map(|it| it.value.as_str()).collect::<Vec<_>>().join(",")
}

/// A header of the answer. (a locale is ASCII, as is all else that is written here)
fn field(name: &str, value: &str) -> Header {
    Header::from_bytes(name, value).expect("a header in ASCII")
}

/// A text in HTML. Translations come from people who may not know that `<` means something here.
fn escaped(text: &str) -> String {
    text.replace('&', "&amp;").replace('<', "&lt;").replace('>', "&gt;")
}
