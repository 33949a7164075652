//! Messages with named arguments: the macros `t!`, `tn!`, `tp!` and `tnp!`, and what they expand to.

use std::collections::hash_map::DefaultHasher;
use std::fmt::{self, Display, Write};
use std::hash::{Hash, Hasher};
use std::io::{self, Write as _};
use std::sync::{Arc, Mutex, RwLock};

use crate::lookup::Lookup;
use crate::question::Question;

/// Returns the translation of a message with its arguments inserted, as a [`String`].
///
/// A message names its arguments in braces; `{{` and `}}` are literal braces. An argument is anything that implements
/// [`Display`]; `name` alone is short for `name = name`. The translations come before a semicolon:
///
/// ```
/// use kobdzila::{t, Catalogue, Options};
///
/// let po = b"msgid \"{name} planted {what}.\"\nmsgstr \"{what} : plant\xc3\xa9 par {name}.\"\n";
/// let fr = Catalogue::from_po(po, Options::new())?;
/// let name = "Ada";
/// assert_eq!(t!(fr; "{name} planted {what}.", name, what = "tomatoes"), "tomatoes : planté par Ada.");
/// assert_eq!(t!(fr; "Hello, {name}!", name), "Hello, Ada!");
/// # Ok::<(), kobdzila::Refused>(())
/// ```
///
/// Without them, the macro uses those passed to [`set_texts`]:
///
/// ```
/// assert_eq!(kobdzila::t!("Hello, {name}!", name = "Ada"), "Hello, Ada!");
/// ```
///
/// A missing argument doesn't compile, and neither does one that the message doesn't name:
///
/// ```compile_fail,E0080
/// kobdzila::t!("Hello, {name}!", nmae = "Ada");
/// ```
///
/// ```compile_fail,E0080
/// kobdzila::t!("Hello!", name = "Ada");
/// ```
///
/// A translation whose placeholders differ from those of its message is never used: the message itself takes its place,
/// and the mismatch is reported once ([`report_mismatches`]).
///
/// The message is a literal, so that xgettext can extract it. xgettext 0.24 and later knows Rust, and finds it by the
/// keyword `t!`: `xgettext --language=Rust --keyword='t!' src/*.rs`.
#[macro_export]
macro_rules! t {
    ($msgid:literal $($arguments:tt)*) => {
        $crate::__text!({} [$msgid] [$msgid] {} $($arguments)*)
    };
    ($texts:expr; $msgid:literal $($arguments:tt)*) => {
        $crate::__text!({$texts} [$msgid] [$msgid] {} $($arguments)*)
    };
}

/// Returns the plural form of a message for a number, with its arguments inserted. The number is the argument `n`.
///
/// ```
/// use kobdzila::{tn, Catalogue, Options};
///
/// let po = b"msgid \"{n} tomato\"\nmsgid_plural \"{n} tomatoes\"\nmsgstr[0] \"une tomate\"\nmsgstr[1] \"{n} tomates\"\n";
/// let fr = Catalogue::from_po(po, Options::new())?;
/// assert_eq!(tn!(fr; "{n} tomato", "{n} tomatoes", 1), "une tomate");
/// assert_eq!(tn!(fr; "{n} tomato", "{n} tomatoes", 3), "3 tomates");
/// assert_eq!(tn!(fr; "{n} pea in {where}", "{n} peas in {where}", 3, where = "bed 2"), "3 peas in bed 2");
/// # Ok::<(), kobdzila::Refused>(())
/// ```
///
/// The number may be of any integer type up to 64 bits; the plural form for -3 is that for 3. A form may omit `{n}`, as
/// the one for 1 does above. Everything else is as for [`t!`]. The keyword of xgettext is `tn!:1,2`.
///
/// The number is shown as it is, so another argument `n` doesn't compile:
///
/// ```compile_fail,E0080
/// kobdzila::tn!("{n} tomato", "{n} tomatoes", 1_000, n = "1,000");
/// ```
#[macro_export]
macro_rules! tn {
    ($msgid:literal, $plural:literal, $n:expr $(, $($arguments:tt)*)?) => {
        $crate::__text!({} [$msgid, $plural, $n] [$msgid] {} $(, $($arguments)*)?)
    };
    ($texts:expr; $msgid:literal, $plural:literal, $n:expr $(, $($arguments:tt)*)?) => {
        $crate::__text!({$texts} [$msgid, $plural, $n] [$msgid] {} $(, $($arguments)*)?)
    };
}

/// Like [`t!`], for a message in a context, which comes first.
///
/// ```
/// use kobdzila::{tp, Catalogue, Options};
///
/// let po = b"msgctxt \"menu\"\nmsgid \"Open {file}\"\nmsgstr \"Ouvrir {file}\"\n";
/// let fr = Catalogue::from_po(po, Options::new())?;
/// assert_eq!(tp!(fr; "menu", "Open {file}", file = "fr.po"), "Ouvrir fr.po");
/// # Ok::<(), kobdzila::Refused>(())
/// ```
///
/// The keyword of xgettext is `tp!:1c,2`.
#[macro_export]
macro_rules! tp {
    ($context:literal, $msgid:literal $($arguments:tt)*) => {
        $crate::__text!({} [$msgid] [$msgid, $context] {} $($arguments)*)
    };
    ($texts:expr; $context:literal, $msgid:literal $($arguments:tt)*) => {
        $crate::__text!({$texts} [$msgid] [$msgid, $context] {} $($arguments)*)
    };
}

/// Like [`tn!`], for a message in a context, which comes first.
///
/// ```
/// use kobdzila::{tnp, Catalogue, Options};
///
/// let po = b"msgctxt \"bed\"\nmsgid \"{n} row\"\nmsgid_plural \"{n} rows\"\nmsgstr[0] \"{n} rang\"\nmsgstr[1] \"{n} rangs\"\n";
/// let fr = Catalogue::from_po(po, Options::new())?;
/// assert_eq!(tnp!(fr; "bed", "{n} row", "{n} rows", 2), "2 rangs");
/// # Ok::<(), kobdzila::Refused>(())
/// ```
///
/// The keyword of xgettext is `tnp!:1c,2,3`.
#[macro_export]
macro_rules! tnp {
    ($context:literal, $msgid:literal, $plural:literal, $n:expr $(, $($arguments:tt)*)?) => {
        $crate::__text!({} [$msgid, $plural, $n] [$msgid, $context] {} $(, $($arguments)*)?)
    };
    ($texts:expr; $context:literal, $msgid:literal, $plural:literal, $n:expr $(, $($arguments:tt)*)?) => {
        $crate::__text!({$texts} [$msgid, $plural, $n] [$msgid, $context] {} $(, $($arguments)*)?)
    };
}

/// Collects the arguments, and then calls `text`.
#[doc(hidden)]
#[macro_export]
macro_rules! __text {
    // (the arguments: `name = value`, or a name alone)
    ($texts:tt $forms:tt $asked:tt {$($done:tt)*} , $name:ident = $value:expr $(, $($rest:tt)*)?) => {
        $crate::__text!($texts $forms $asked {$($done)* $name = $value;} $(, $($rest)*)?)
    };
    ($texts:tt $forms:tt $asked:tt {$($done:tt)*} , $name:ident $(, $($rest:tt)*)?) => {
        $crate::__text!($texts $forms $asked {$($done)* $name = $name;} $(, $($rest)*)?)
    };
    ({$($texts:expr)?} [$msgid:literal] $asked:tt {$($name:ident = $value:expr;)*} $(,)?) => {{
        $crate::messages::text(
            $crate::__texts!($($texts)?),
            &$crate::messages::Message {
                question: $crate::__question!($asked),
                original: $msgid,
                wanted: $crate::__wanted!($msgid, [$($name)*], ""),
                optional: 0,
            },
            &[$((::std::stringify!($name), &$value as &dyn ::std::fmt::Display)),*],
        )
    }};
    ({$($texts:expr)?} [$msgid:literal, $plural:literal, $n:expr] $asked:tt {$($name:ident = $value:expr;)*} $(,)?) => {{
        let n = $n;
        let number = $crate::messages::Number::number(&n);
        $crate::messages::text(
            $crate::__texts!($($texts)?),
            &$crate::messages::Message {
                question: $crate::__question!($asked).number(number),
                original: if number == 1 { $msgid } else { $plural },
                wanted: !1
                    & ($crate::__wanted!($msgid, [n $($name)*], "n")
                        | $crate::__wanted!($plural, [n $($name)*], "n")),
                optional: 1,
            },
            &[
                ("n", &n as &dyn ::std::fmt::Display),
                $((::std::stringify!($name), &$value as &dyn ::std::fmt::Display)),*
            ],
        )
    }};
}

/// The arguments that a message names, as bits. (The constant is in a block of its own, where no argument is evaluated:
/// one may be a constant of the same name)
#[doc(hidden)]
#[macro_export]
macro_rules! __wanted {
    ($message:literal, [$($name:ident)*], $optional:literal) => {{
        const WANTED: u64 = $crate::messages::placeholders($message, &[$(::std::stringify!($name)),*], $optional);
        WANTED
    }};
}

#[doc(hidden)]
#[macro_export]
macro_rules! __texts {
    () => {
        ::std::option::Option::None
    };
    ($texts:expr) => {
        ::std::option::Option::Some(&$texts as &dyn $crate::Lookup)
    };
}

#[doc(hidden)]
#[macro_export]
macro_rules! __question {
    ([$msgid:literal]) => {
        $crate::Question::new($msgid)
    };
    ([$msgid:literal, $context:literal]) => {
        $crate::Question::new($msgid).context($context)
    };
}

/// A number that chooses a plural form.
pub trait Number: Copy + Display {
    /// The number without its sign.
    fn number(&self) -> u64;
}

macro_rules! numbers {
    ($($unsigned:ty, $signed:ty;)+) => {
        $(impl Number for $unsigned {
            fn number(&self) -> u64 {
                *self as u64
            }
        }

        impl Number for $signed {
            fn number(&self) -> u64 {
                self.unsigned_abs() as u64
            }
        })+
    };
}

numbers! { u8, i8; u16, i16; u32, i32; u64, i64; usize, isize; }

/// What is looked up, and which placeholders a translation has to have: bit i is argument i.
pub struct Message<'a> {
    pub question: Question<'a>,
    pub original: &'a str,
    pub wanted: u64,
    pub optional: u64,
}

/// The arguments that a message names, as bits. Evaluated while the program is compiled, where a panic is an error: each
/// placeholder has to be one of `names`, and each of these, but for `optional`, in the message.
pub const fn placeholders(message: &str, names: &[&str], optional: &str) -> u64 {
    assert!(names.len() <= 64, "a message has at most 64 arguments");
    let bytes = message.as_bytes();
    let (mut found, mut at) = (0, 0);
    while at < bytes.len() {
        let doubled = at + 1 < bytes.len() && bytes[at + 1] == bytes[at];
        match bytes[at] {
            b'{' | b'}' if doubled => at += 2,
            b'{' => {
                let end = name_end(bytes, at + 1);
                found |= bit_of(bytes, at + 1, end, names);
                at = end + 1;
            }
            b'}' => panic!("a closing brace without an opening one: write }}}} for a brace"),
            _ => at += 1,
        }
    }
    let mut i = 0;
    while i < names.len() {
        // (the number is the first one: a further argument of its name would never be shown)
        let is_number = i == 0 && is_same(names[i].as_bytes(), 0, names[i].len(), optional.as_bytes());
        assert!(
            found & (1 << i) != 0 || is_number,
            "an argument that the message doesn't name, or a second one of its name"
        );
        i += 1;
    }
    found
}

/// The index of the brace that ends the name at `start`.
const fn name_end(bytes: &[u8], start: usize) -> usize {
    let mut end = start;
    // (a name may have any letter, as in Rust; one that is none has no argument)
    while end < bytes.len() && (bytes[end] == b'_' || bytes[end].is_ascii_alphanumeric() || !bytes[end].is_ascii()) {
        end += 1;
    }
    assert!(
        end > start && end < bytes.len() && bytes[end] == b'}',
        "a placeholder is a name in braces: write {{{{ for a brace"
    );
    end
}

/// The bit of the name at `start` to `end`.
const fn bit_of(bytes: &[u8], start: usize, end: usize, names: &[&str]) -> u64 {
    let mut i = 0;
    while i < names.len() {
        if is_same(bytes, start, end, names[i].as_bytes()) {
            return 1 << i;
        }
        i += 1;
    }
    panic!("a placeholder for which there is no argument")
}

/// Whether the bytes from `start` to `end` are these.
const fn is_same(bytes: &[u8], start: usize, end: usize, name: &[u8]) -> bool {
    if end - start != name.len() {
        return false;
    }
    let mut i = 0;
    while i < name.len() {
        if bytes[start + i] != name[i] {
            return false;
        }
        i += 1;
    }
    true
}

/// The translation of a message with its arguments: one look-up, in the program's translations if there are no `texts`,
/// and one pass over the text.
pub fn text(texts: Option<&dyn Lookup>, message: &Message<'_>, arguments: &[(&str, &dyn Display)]) -> String {
    match texts {
        Some(texts) => text_of(texts, message, arguments),
        None => {
            // (an argument may ask for a text itself, so the lock isn't held meanwhile)
            let texts = TEXTS.read().unwrap_or_else(|it| it.into_inner()).clone();
            text_of(&texts, message, arguments)
        }
    }
}

fn text_of(texts: &dyn Lookup, message: &Message<'_>, arguments: &[(&str, &dyn Display)]) -> String {
    let mut out = String::new();
    if let Some(translation) = texts.find(message.question) {
        let found = put(&mut out, translation, arguments);
        if found.map_or(false, |it| it & !message.optional == message.wanted & !message.optional) {
            return out;
        }
        report(message.original, translation);
        out.clear();
    }
    // (this text was checked while the program was compiled)
    let _ = put(&mut out, message.original, arguments);
    out
}

/// Writes a text with its arguments, and returns the bits of those that it named; `None` if it named another one, or
/// isn't well-formed.
fn put(out: &mut String, text: &str, arguments: &[(&str, &dyn Display)]) -> Option<u64> {
    let (mut found, mut rest) = (0, text);
    out.reserve(text.len());
    while let Some(at) = rest.find(['{', '}']) {
        let (before, brace) = rest.split_at(at);
        out.push_str(before);
        if brace.starts_with("{{") || brace.starts_with("}}") {
            out.push_str(&brace[..1]);
            rest = &brace[2..];
            continue;
        }
        let (name, after) = brace.strip_prefix('{')?.split_once('}')?;
        let number = arguments.iter().position(|(it, _)| *it == name)?;
        found |= 1 << number;
        // (a `String` takes all that is written; an argument that fails to write itself is left as it is)
        let _ = write!(out, "{}", arguments[number].1);
        rest = after;
    }
    out.push_str(rest);
    Some(found)
}

/// A translation whose placeholders differ from those of its message, so that it isn't used.
///
/// ```
/// kobdzila::report_mismatches(|mismatch| eprintln!("translators: {mismatch}"));
/// ```
#[derive(Clone, Debug, PartialEq, Eq)]
#[non_exhaustive]
pub struct Mismatch {
    /// The message: the msgid, or the msgid_plural.
    pub message: String,
    /// The translation.
    pub translation: String,
}

impl Display for Mismatch {
    fn fmt(&self, f: &mut fmt::Formatter<'_>) -> fmt::Result {
        let Mismatch { message, translation } = self;
        write!(
            f,
            "not used, as its placeholders differ from those of {message:?}: {translation:?}"
        )
    }
}

/// What [`report_mismatches`] was given.
static REPORT: RwLock<Option<fn(&Mismatch)>> = RwLock::new(None);

/// The hashes of what was reported, at most `MOST_REPORTS`.
static REPORTED: Mutex<Vec<u64>> = Mutex::new(Vec::new());
const MOST_REPORTS: usize = 1000;

/// Sets the function to call for a translation that [`t!`] and its variants don't use, since its placeholders differ
/// from those of its message. It is called once for each such translation, at most 1,000 times in all. By default the
/// mismatch is printed to standard error.
///
/// ```
/// use kobdzila::{t, Catalogue, Options};
/// use std::sync::atomic::{AtomicUsize, Ordering};
///
/// static COUNT: AtomicUsize = AtomicUsize::new(0);
/// kobdzila::report_mismatches(|mismatch| {
///     assert_eq!(mismatch.translation, "Bonjour, {nom} !");
///     COUNT.fetch_add(1, Ordering::Relaxed);
/// });
/// let po = b"msgid \"Hello, {name}!\"\nmsgstr \"Bonjour, {nom} !\"\n";
/// let fr = Catalogue::from_po(po, Options::new())?;
/// for _ in 0..3 {
///     assert_eq!(t!(fr; "Hello, {name}!", name = "Ada"), "Hello, Ada!");
/// }
/// assert_eq!(COUNT.load(Ordering::Relaxed), 1);
/// # Ok::<(), kobdzila::Refused>(())
/// ```
pub fn report_mismatches(report: fn(&Mismatch)) {
    *REPORT.write().unwrap_or_else(|it| it.into_inner()) = Some(report);
}

fn report(message: &str, translation: &str) {
    let mut hasher = DefaultHasher::new();
    (message, translation).hash(&mut hasher);
    let hash = hasher.finish();
    {
        let mut reported = REPORTED.lock().unwrap_or_else(|it| it.into_inner());
        match reported.binary_search(&hash) {
            Err(index) if reported.len() < MOST_REPORTS => reported.insert(index, hash),
            _ => return,
        }
    }
    let mismatch = Mismatch {
        message: message.to_string(),
        translation: translation.to_string(),
    };
    let report = *REPORT.read().unwrap_or_else(|it| it.into_inner());
    match report {
        Some(report) => report(&mismatch),
        // (`eprintln!` panics if nobody reads standard error any more)
        None => drop(writeln!(io::stderr(), "{mismatch}")),
    }
}

/// What [`set_texts`] was given.
static TEXTS: RwLock<Option<Arc<dyn Lookup + Send + Sync>>> = RwLock::new(None);

/// Sets the translations of the program, which [`t!`] and its variants use unless they are passed others. Call it when
/// the program starts; until then, every message is its own translation.
///
/// ```
/// use kobdzila::{set_texts, t, Catalogue, Options};
///
/// let po = b"msgid \"Hello, {name}!\"\nmsgstr \"Bonjour, {name} !\"\n";
/// set_texts(Catalogue::from_po(po, Options::new())?);
/// assert_eq!(t!("Hello, {name}!", name = "Ada"), "Bonjour, Ada !");
/// # Ok::<(), kobdzila::Refused>(())
/// ```
///
/// [`Set::into_languages`](crate::Set::into_languages) makes one of a set and the user's languages. A server that
/// answers in several languages passes each call the translations of its request instead.
pub fn set_texts(texts: impl Lookup + Send + Sync + 'static) {
    let before = TEXTS
        .write()
        .unwrap_or_else(|it| it.into_inner())
        .replace(Arc::new(texts));
    // (once the lock is free: whatever ends with them may use the new ones)
    drop(before);
}

#[cfg(test)]
mod tests {
    use crate::{set_texts, Catalogue, Lookup, Question};
    use std::sync::{mpsc, Mutex};
    use std::thread;
    use std::time::Duration;

    /// Translations whose last word is a message of the program.
    struct Parting(Mutex<mpsc::Sender<String>>);

    impl Lookup for Parting {
        fn find(&self, _question: Question<'_>) -> Option<&str> {
            None
        }
    }

    impl Drop for Parting {
        fn drop(&mut self) {
            let _ = self.0.lock().unwrap().send(t!("Bye"));
        }
    }

    #[test]
    fn translations_that_are_replaced_may_use_the_new_ones() {
        let (sender, receiver) = mpsc::channel();
        thread::spawn(move || {
            set_texts(Parting(Mutex::new(sender)));
            set_texts(None::<Catalogue>);
        });
        assert_eq!(receiver.recv_timeout(Duration::from_secs(60)), Ok("Bye".to_string()));
    }
}
