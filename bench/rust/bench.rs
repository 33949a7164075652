//! Look-ups and openings from Rust, next to those of bench.c from C. Run by bench/rust/run.
//!
//!     bench_rust FILE.mo FILE.ids ROUNDS
//!
//! It prints the picoseconds of a look-up, the nanoseconds of the fastest opening, the picoseconds of an entry of a
//! reader with nothing new and one look-up in it, those of a look-up in a list of languages, and the sum of the first
//! bytes of the answers. The look-ups are those of the traits `Lookup` and `Catalogues`.

use std::error::Error;
use std::time::{Duration, Instant};

use kobdzila::{Catalogue, Catalogues, Domain, Lookup, Question, Refused, Set, Store};

const OPENINGS: usize = 40;
const BENCH: Domain<'static> = Domain("bench");

fn main() -> Result<(), Box<dyn Error>> {
    let words: Vec<String> = std::env::args().skip(1).collect();
    let [file, ids, rounds] =
        <[String; 3]>::try_from(words).map_err(|_| "usage: bench_rust FILE.mo FILE.ids ROUNDS")?;
    let (mo, ids) = (std::fs::read(file)?, std::fs::read_to_string(ids)?);
    let work = Work {
        msgids: ids.lines().collect(),
        rounds: rounds.parse()?,
    };
    let (catalogue, fastest) = opened(&mo)?;
    let (look_up, sum) = look_ups(&catalogue, &work);
    let (entry, sum_of_entries) = entries(&catalogue, &work)?;
    let set = Set::new().with(BENCH, "fr", &catalogue)?;
    let (listed, sum_of_list) = look_ups(&set.languages(BENCH, "fr"), &work);
    let (fastest, sum) = (fastest.as_nanos(), sum + sum_of_entries + sum_of_list);
    println!("{look_up:.0} {fastest} {entry:.0} {listed:.0} {sum}");
    Ok(())
}

/// What is looked up, over and over.
struct Work<'a> {
    msgids: Vec<&'a str>,
    rounds: u64,
}

impl Work<'_> {
    /// The picoseconds of each look-up since `start`.
    fn each_since(&self, start: Instant) -> f64 {
        start.elapsed().as_secs_f64() * 1e12 / (self.rounds as f64 * self.msgids.len() as f64)
    }
}

/// The time of a look-up, and the sum of the answers' first bytes.
fn look_ups(texts: &impl Lookup, work: &Work<'_>) -> (f64, u64) {
    let (start, mut sum) = (Instant::now(), 0);
    for _ in 0..work.rounds {
        for msgid in &work.msgids {
            sum += u64::from(texts.gettext(msgid).as_bytes()[0]);
        }
    }
    (work.each_since(start), sum)
}

/// The time of an entry and a look-up, in a store that has published the catalogue, and the sum.
fn entries(catalogue: &Catalogue, work: &Work<'_>) -> Result<(f64, u64), Box<dyn Error>> {
    let store = Store::new();
    store.load(BENCH, "fr", catalogue)?;
    store.publish()?;
    let mut reader = store.reader()?;
    let (start, mut sum) = (Instant::now(), 0);
    for _ in 0..work.rounds {
        for msgid in &work.msgids {
            sum += u64::from(first(&reader.enter(), msgid));
        }
    }
    Ok((work.each_since(start), sum))
}

/// The first byte of an answer.
fn first(catalogues: &impl Catalogues, msgid: &str) -> u8 {
    let found = catalogues.find(BENCH, "fr", Question::new(msgid));
    found.unwrap_or(msgid).as_bytes()[0]
}

/// Opens the bytes several times, and keeps the last catalogue.
fn opened(mo: &[u8]) -> Result<(Catalogue, Duration), Refused> {
    let mut catalogue = Catalogue::from_mo(mo)?;
    let mut fastest = Duration::MAX;
    for _ in 0..OPENINGS {
        drop(catalogue);
        let start = Instant::now();
        catalogue = Catalogue::from_mo(mo)?;
        fastest = fastest.min(start.elapsed());
    }
    Ok((catalogue, fastest))
}
