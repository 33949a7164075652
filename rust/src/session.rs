//! A client of the program catsession.

use std::error::Error;
use std::ffi::OsStr;
use std::fmt;
use std::io::{self, BufRead, BufReader, Read, Write};
use std::process::{Child, ChildStdin, ChildStdout, Command, Stdio};
use std::sync::{Mutex, MutexGuard};

use crate::catalogue::Options;
use crate::names::Domain;
use crate::refused::Fault;

/// The most bytes of a round, without the line that ends it.
const MOST_BYTES: usize = 67_108_864 - GO.len();
const GO: &str = "go\n";

/// A catsession process, which answers from a store of its own while catalogues are replaced.
///
/// Use a [`Store`](crate::Store) unless you want the whole store proved, down to the program: a question to another
/// process takes some 10 microseconds. Any number of threads may use one session, in turn.
///
/// ```no_run
/// use kobdzila::{Domain, Options, Session};
///
/// const GARDEN: Domain<'static> = Domain("garden");
///
/// let session = Session::new()?; // catsession on the PATH
/// session.load_po(GARDEN, "fr", b"msgid \"Winter\"\nmsgstr \"Hiver\"\n", Options::new())?;
/// assert_eq!(session.publish()?, 1);
/// let answer = session.gettext(GARDEN, "fr_CA:de", "Winter")?;
/// assert_eq!((answer.text(), answer.version()), ("Hiver", 1));
/// # Ok::<(), kobdzila::SessionError>(())
/// ```
///
/// Dropping a session ends the process.
#[derive(Debug)]
pub struct Session(Mutex<Process>);

/// A question to a session: one of gettext's four calls.
///
/// ```
/// use kobdzila::Ask;
///
/// let page = [Ask::gettext("Winter"), Ask::npgettext("bed", "row", "rows", 3)];
/// assert_eq!(page.len(), 2);
/// ```
#[derive(Clone, Debug, PartialEq, Eq, Hash)]
pub struct Ask(String);

impl Ask {
    /// Asks for the translation of `msgid`.
    ///
    /// ```
    /// assert_ne!(kobdzila::Ask::gettext("Winter"), kobdzila::Ask::gettext("Summer"));
    /// ```
    pub fn gettext(msgid: &str) -> Ask {
        Ask(format!("gettext\t{}", Escaped(msgid)))
    }

    /// Asks for the translation of `msgid` in `context`.
    ///
    /// ```
    /// assert_ne!(kobdzila::Ask::pgettext("menu", "Open"), kobdzila::Ask::pgettext("door", "Open"));
    /// ```
    pub fn pgettext(context: &str, msgid: &str) -> Ask {
        Ask(format!("pgettext\t{}\t{}", Escaped(context), Escaped(msgid)))
    }

    /// Asks for the plural form for `n`.
    ///
    /// ```
    /// assert_ne!(kobdzila::Ask::ngettext("row", "rows", 1), kobdzila::Ask::ngettext("row", "rows", 2));
    /// ```
    pub fn ngettext(msgid: &str, plural: &str, n: u64) -> Ask {
        Ask(format!("ngettext\t{}\t{}\t{n}", Escaped(msgid), Escaped(plural)))
    }

    /// Asks for the plural form for `n` of a message in `context`.
    ///
    /// ```
    /// let row = kobdzila::Ask::npgettext("bed", "row", "rows", 1);
    /// assert_ne!(row, kobdzila::Ask::ngettext("row", "rows", 1));
    /// ```
    pub fn npgettext(context: &str, msgid: &str, plural: &str, n: u64) -> Ask {
        let (context, msgid, plural) = (Escaped(context), Escaped(msgid), Escaped(plural));
        Ask(format!("npgettext\t{context}\t{msgid}\t{plural}\t{n}"))
    }
}

/// An answer of a session, and its version.
///
/// ```no_run
/// # use kobdzila::{Domain, Session};
/// let answer = Session::new()?.gettext(Domain("garden"), "fr", "Winter")?;
/// assert_eq!(answer.to_string(), answer.text());
/// # Ok::<(), kobdzila::SessionError>(())
/// ```
#[derive(Clone, Debug, PartialEq, Eq, Hash)]
pub struct Answer {
    version: u64,
    text: String,
}

impl Answer {
    /// Returns the number of loads that were published.
    ///
    /// ```no_run
    /// # use kobdzila::{Domain, Session};
    /// assert_eq!(Session::new()?.gettext(Domain("garden"), "fr", "Winter")?.version(), 0);
    /// # Ok::<(), kobdzila::SessionError>(())
    /// ```
    pub fn version(&self) -> u64 {
        self.version
    }

    /// Returns the translation, or the msgid (or plural) that was passed if there is none.
    ///
    /// ```no_run
    /// # use kobdzila::{Domain, Session};
    /// assert_eq!(Session::new()?.gettext(Domain("garden"), "fr", "Winter")?.text(), "Winter");
    /// # Ok::<(), kobdzila::SessionError>(())
    /// ```
    pub fn text(&self) -> &str {
        &self.text
    }
}

impl fmt::Display for Answer {
    fn fmt(&self, f: &mut fmt::Formatter<'_>) -> fmt::Result {
        f.write_str(&self.text)
    }
}

/// A load that [`Session::publish`] reports as refused.
///
/// ```no_run
/// # use kobdzila::{Domain, Session, SessionError};
/// # let session = Session::new()?;
/// if let Err(SessionError::Refused { refusals, .. }) = session.publish() {
///     for refusal in refusals {
///         eprintln!("{refusal}");
///     }
/// }
/// # Ok::<(), kobdzila::SessionError>(())
/// ```
#[derive(Clone, Debug, PartialEq, Eq)]
#[non_exhaustive]
pub struct LoadRefusal {
    /// The text domain of the load.
    pub domain: String,
    /// Its locale.
    pub locale: String,
    /// The number of the refusal, as in the documents "PO files" and "MO files"; `None` if the domain or the locale
    /// isn't a name.
    pub number: Option<u32>,
    /// The line of a PO text, if the refusal has one.
    pub line: Option<u32>,
}

impl fmt::Display for LoadRefusal {
    fn fmt(&self, f: &mut fmt::Formatter<'_>) -> fmt::Result {
        let LoadRefusal {
            domain,
            locale,
            number,
            line,
        } = self;
        write!(f, "{domain} in {locale}: ")?;
        match number {
            Some(number) => write!(f, "refused, number {number}")?,
            None => write!(f, "{}", Fault::BadName)?,
        }
        line.map_or(Ok(()), |it| write!(f, ", line {it}"))
    }
}

/// Why a call of a [`Session`] failed.
///
/// ```
/// use kobdzila::{Session, SessionError};
///
/// let why = Session::with_program("/no/such/catsession").unwrap_err();
/// assert!(matches!(why, SessionError::Io(_)));
/// ```
#[derive(Debug)]
#[non_exhaustive]
pub enum SessionError {
    /// The program couldn't be started, or a pipe failed.
    Io(io::Error),
    /// The process has ended. The text is what it wrote to standard error.
    Ended(String),
    /// A name has a tab or an LF, a PO text isn't UTF-8, or a round would have more than 67,108,864 bytes.
    /// Nothing was sent.
    Unsendable(&'static str),
    /// Some loads were refused. The others are published.
    Refused {
        /// The version that is published now.
        version: u64,
        /// What was refused, in the order of the loads.
        refusals: Vec<LoadRefusal>,
    },
}

impl fmt::Display for SessionError {
    fn fmt(&self, f: &mut fmt::Formatter<'_>) -> fmt::Result {
        match self {
            SessionError::Io(_) => f.write_str("catsession can't be started or reached"),
            SessionError::Ended(said) => write!(f, "catsession has ended: {said}"),
            SessionError::Unsendable(why) => f.write_str(why),
            SessionError::Refused { refusals, .. } => {
                let texts: Vec<String> = refusals.iter().map(LoadRefusal::to_string).collect();
                f.write_str(&texts.join("; "))
            }
        }
    }
}

impl Error for SessionError {
    fn source(&self) -> Option<&(dyn Error + 'static)> {
        match self {
            SessionError::Io(why) => Some(why),
            _ => None,
        }
    }
}

impl From<io::Error> for SessionError {
    fn from(why: io::Error) -> SessionError {
        SessionError::Io(why)
    }
}

/// The process, and what was loaded for the next publish.
#[derive(Debug)]
struct Process {
    child: Child,
    to: Option<ChildStdin>,
    from: BufReader<ChildStdout>,
    loads: Vec<(String, String)>,
    lines: Vec<u8>,
    ended: Option<String>,
}

impl Session {
    /// Starts the program `catsession`, which has to be on the PATH.
    ///
    /// # Errors
    ///
    /// [`SessionError::Io`] if it can't be started.
    ///
    /// ```no_run
    /// let session = kobdzila::Session::new()?;
    /// # Ok::<(), kobdzila::SessionError>(())
    /// ```
    pub fn new() -> Result<Session, SessionError> {
        Session::with_program("catsession")
    }

    /// Starts the program with this name or path.
    ///
    /// # Errors
    ///
    /// [`SessionError::Io`] if it can't be started.
    ///
    /// ```
    /// assert!(kobdzila::Session::with_program("/no/such/catsession").is_err());
    /// ```
    pub fn with_program(program: impl AsRef<OsStr>) -> Result<Session, SessionError> {
        let mut child = Command::new(program)
            .args(["--workers", "1"])
            .stdin(Stdio::piped())
            .stdout(Stdio::piped())
            .stderr(Stdio::piped())
            .spawn()?;
        let (to, from) = (child.stdin.take(), child.stdout.take());
        let from = from.ok_or_else(|| io::Error::from(io::ErrorKind::BrokenPipe))?;
        Ok(Session(Mutex::new(Process {
            child,
            to,
            from: BufReader::new(from),
            loads: Vec::new(),
            lines: Vec::new(),
            ended: None,
        })))
    }

    /// Keeps a PO text for the next publish.
    ///
    /// # Errors
    ///
    /// [`SessionError::Unsendable`]. The contents are checked when they are published.
    ///
    /// ```no_run
    /// # use kobdzila::{Domain, Options, Session};
    /// # let session = Session::new()?;
    /// session.load_po(Domain("garden"), "fr", &std::fs::read("fr.po")?, Options::new().checked(true))?;
    /// # Ok::<(), kobdzila::SessionError>(())
    /// ```
    pub fn load_po(&self, domain: Domain<'_>, locale: &str, po: &[u8], options: Options) -> Result<(), SessionError> {
        check_size(po.len())?;
        if std::str::from_utf8(po).is_err() {
            return Err(SessionError::Unsendable("a PO text that isn't UTF-8"));
        }
        let is_closed = po.is_empty() || po.ends_with(b"\n");
        let count = po.iter().filter(|it| **it == b'\n').count() + usize::from(!is_closed);
        let letters = options.letters();
        let mut lines = format!(
            "load\t{}\t{}\t{letters}\t{count}\n",
            sendable(domain.0)?,
            sendable(locale)?
        )
        .into_bytes();
        lines.extend_from_slice(po);
        if !is_closed {
            lines.push(b'\n');
        }
        self.locked().keep(domain, locale, &lines)
    }

    /// Keeps an MO file for the next publish.
    ///
    /// # Errors
    ///
    /// [`SessionError::Unsendable`].
    ///
    /// ```no_run
    /// # use kobdzila::{Domain, Session};
    /// # let session = Session::new()?;
    /// session.load_mo(Domain("garden"), "fr", &std::fs::read("fr.mo")?)?;
    /// # Ok::<(), kobdzila::SessionError>(())
    /// ```
    pub fn load_mo(&self, domain: Domain<'_>, locale: &str, mo: &[u8]) -> Result<(), SessionError> {
        const DIGITS: &[u8] = b"0123456789abcdef";
        check_size(mo.len().saturating_mul(2))?;
        let mut lines = format!("loadmo\t{}\t{}\t", sendable(domain.0)?, sendable(locale)?).into_bytes();
        lines.extend(
            mo.iter()
                .flat_map(|it| [DIGITS[usize::from(it >> 4)], DIGITS[usize::from(it & 15)]]),
        );
        lines.push(b'\n');
        self.locked().keep(domain, locale, &lines)
    }

    /// Publishes the loads that were kept, in one step, and returns the version: the number of loads published so far.
    ///
    /// # Errors
    ///
    /// [`SessionError::Refused`] lists the loads that were refused; the others are published.
    ///
    /// ```no_run
    /// # use kobdzila::Session;
    /// assert_eq!(Session::new()?.publish()?, 0);
    /// # Ok::<(), kobdzila::SessionError>(())
    /// ```
    pub fn publish(&self) -> Result<u64, SessionError> {
        let mut process = self.locked();
        let loads = std::mem::take(&mut process.loads);
        let lines = std::mem::take(&mut process.lines);
        let mut said = process.play(&lines, loads.len() + 1)?;
        let version = number(said.pop().as_ref(), 1);
        let refusals: Vec<LoadRefusal> = loads.into_iter().zip(&said).filter_map(refusal).collect();
        if refusals.is_empty() {
            Ok(version)
        } else {
            Err(SessionError::Refused { version, refusals })
        }
    }

    /// Returns the answers to several questions, all of one version.
    ///
    /// # Errors
    ///
    /// [`SessionError::Unsendable`], and the errors of a process that has ended.
    ///
    /// ```no_run
    /// # use kobdzila::{Ask, Domain, Session};
    /// # let session = Session::new()?;
    /// let page = [Ask::gettext("Winter"), Ask::ngettext("tomato", "tomatoes", 3)];
    /// for answer in session.ask(Domain("garden"), "fr_CA:de", &page)? {
    ///     println!("{answer}");
    /// }
    /// # Ok::<(), kobdzila::SessionError>(())
    /// ```
    pub fn ask(&self, domain: Domain<'_>, languages: &str, questions: &[Ask]) -> Result<Vec<Answer>, SessionError> {
        let head = format!("ask\t0\t{}\t{}\t", sendable(domain.0)?, sendable(languages)?);
        let lines: String = questions
            .iter()
            .map(|Ask(question)| format!("{head}{question}\n"))
            .collect();
        check_size(lines.len())?;
        let said = self.locked().play(lines.as_bytes(), questions.len() + 1)?;
        let answer = |fields: &Vec<String>| Answer {
            version: number(Some(fields), 1),
            text: fields.get(2).map_or_else(String::new, |it| unescaped(it)),
        };
        Ok(said[1..].iter().map(answer).collect())
    }

    /// Returns the translation of `msgid`.
    ///
    /// # Errors
    ///
    /// Those of [`ask`](Session::ask).
    ///
    /// ```no_run
    /// # use kobdzila::{Domain, Session};
    /// println!("{}", Session::new()?.gettext(Domain("garden"), "fr", "Winter")?);
    /// # Ok::<(), kobdzila::SessionError>(())
    /// ```
    pub fn gettext(&self, domain: Domain<'_>, languages: &str, msgid: &str) -> Result<Answer, SessionError> {
        self.ask_one(domain, languages, Ask::gettext(msgid))
    }

    /// Returns the plural form for `n`. For a message in a context use [`ask`](Session::ask).
    ///
    /// # Errors
    ///
    /// Those of [`ask`](Session::ask).
    ///
    /// ```no_run
    /// # use kobdzila::{Domain, Session};
    /// println!("{}", Session::new()?.ngettext(Domain("garden"), "fr", "row", "rows", 2)?);
    /// # Ok::<(), kobdzila::SessionError>(())
    /// ```
    pub fn ngettext(
        &self,
        domain: Domain<'_>,
        languages: &str,
        msgid: &str,
        plural: &str,
        n: u64,
    ) -> Result<Answer, SessionError> {
        self.ask_one(domain, languages, Ask::ngettext(msgid, plural, n))
    }

    fn ask_one(&self, domain: Domain<'_>, languages: &str, question: Ask) -> Result<Answer, SessionError> {
        let mut answers = self.ask(domain, languages, &[question])?;
        answers.pop().ok_or_else(|| SessionError::Ended(String::new()))
    }

    fn locked(&self) -> MutexGuard<'_, Process> {
        self.0.lock().unwrap_or_else(|it| it.into_inner())
    }
}

impl Process {
    fn keep(&mut self, domain: Domain<'_>, locale: &str, lines: &[u8]) -> Result<(), SessionError> {
        check_size(self.lines.len() + lines.len())?;
        self.lines.extend_from_slice(lines);
        self.loads.push((domain.0.to_string(), locale.to_string()));
        Ok(())
    }

    /// Sends a round, and returns the fields of the `count` lines that it writes.
    fn play(&mut self, lines: &[u8], count: usize) -> Result<Vec<Vec<String>>, SessionError> {
        if let Some(said) = &self.ended {
            return Err(SessionError::Ended(said.clone()));
        }
        match self.exchange(lines, count) {
            Ok(said) if said.len() == count => Ok(said),
            // (a round without all of its answers can't be recovered)
            Ok(_) => Err(SessionError::Ended(self.end())),
            Err(why) if why.kind() == io::ErrorKind::BrokenPipe => Err(SessionError::Ended(self.end())),
            Err(why) => {
                self.end();
                Err(SessionError::Io(why))
            }
        }
    }

    fn exchange(&mut self, lines: &[u8], count: usize) -> io::Result<Vec<Vec<String>>> {
        let to = self.to.as_mut().ok_or(io::ErrorKind::BrokenPipe)?;
        to.write_all(lines)?;
        to.write_all(GO.as_bytes())?;
        let mut said = Vec::new();
        for _ in 0..count {
            let mut line = String::new();
            self.from.read_line(&mut line)?;
            match line.strip_suffix('\n') {
                Some(line) => said.push(line.split('\t').map(str::to_string).collect()),
                None => break,
            }
        }
        Ok(said)
    }

    /// Ends the process, and returns what it wrote to standard error.
    fn end(&mut self) -> String {
        self.to = None;
        let _ = self.child.kill();
        let mut said = String::new();
        if let Some(mut errors) = self.child.stderr.take() {
            let _ = errors.read_to_string(&mut said);
        }
        let _ = self.child.wait();
        let said = said.trim_end().to_string();
        self.ended = Some(said.clone());
        said
    }
}

impl Drop for Process {
    fn drop(&mut self) {
        self.to = None;
        let _ = self.child.kill();
        let _ = self.child.wait();
    }
}

fn check_size(len: usize) -> Result<(), SessionError> {
    if len > MOST_BYTES {
        return Err(SessionError::Unsendable("more than 67,108,864 bytes for one round"));
    }
    Ok(())
}

/// A name as a field of a line.
fn sendable(name: &str) -> Result<&str, SessionError> {
    if name.contains(['\t', '\n']) {
        return Err(SessionError::Unsendable("a tab or an LF in a name"));
    }
    Ok(name)
}

/// A field of a line as a number. The program writes no others.
fn number(fields: Option<&Vec<String>>, index: usize) -> u64 {
    fields.and_then(|it| it.get(index)?.parse().ok()).unwrap_or(0)
}

/// What a line says of a load that was refused.
fn refusal(((domain, locale), fields): ((String, String), &Vec<String>)) -> Option<LoadRefusal> {
    let field = |index: usize| fields.get(index)?.parse().ok();
    fields.first().filter(|it| it.starts_with("refused"))?;
    Some(LoadRefusal {
        domain,
        locale,
        number: field(1),
        line: field(2),
    })
}

/// A text as a field of a line.
struct Escaped<'a>(&'a str);

impl fmt::Display for Escaped<'_> {
    fn fmt(&self, f: &mut fmt::Formatter<'_>) -> fmt::Result {
        for part in self.0.split_inclusive(['\\', '\n', '\t']) {
            match part.char_indices().next_back() {
                Some((at, '\\')) => write!(f, "{}\\\\", &part[..at])?,
                Some((at, '\n')) => write!(f, "{}\\n", &part[..at])?,
                Some((at, '\t')) => write!(f, "{}\\t", &part[..at])?,
                _ => f.write_str(part)?,
            }
        }
        Ok(())
    }
}

/// The text of a field.
fn unescaped(field: &str) -> String {
    let (mut text, mut rest) = (String::with_capacity(field.len()), field.chars());
    while let Some(character) = rest.next() {
        text.push(match character {
            '\\' => match rest.next() {
                Some('n') => '\n',
                Some('t') => '\t',
                other => other.unwrap_or('\\'),
            },
            other => other,
        });
    }
    text
}
