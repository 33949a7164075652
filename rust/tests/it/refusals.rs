use kobdzila::{Catalogue, Fault, Options, Question};
use std::error::Error;

const PLURAL: &str = "msgid \"a\"\nmsgid_plural \"b\"\nmsgstr[0] \"c\"\n";

fn ruled(rule: &str) -> String {
    format!("msgid \"\"\nmsgstr \"Plural-Forms: {rule}\\n\"\n{PLURAL}")
}

/// The text is refused for this reason, at this line.
fn refuses_po(text: &[u8], fault: Fault, line: Option<u32>, message: &str) {
    let refused = Catalogue::from_po(text, Options::new().checked(true)).unwrap_err();
    assert_eq!((refused.fault(), refused.line()), (fault, line));
    assert_eq!(refused.to_string(), message);
    assert_eq!(fault.to_string(), message);
    assert!(refused.source().is_none());
}

#[test]
fn each_reason_of_a_po_text() {
    use Fault::*;
    let texts: [(&str, Fault, u32, &str); 14] = [
        ("msgid \"a\"\nmsgstr \"\\q\"\n", PoBadEscape, 2, "bad escape"),
        ("msgid \"a\nmsgstr \"x\"\n", PoOpenString, 1, "string not closed"),
        ("word\n", PoBadWord, 1, "unknown word"),
        ("msgid \"\\004\"\nmsgstr \"x\"\n", PoBadText, 1, "bad text"),
        ("msgstr \"x\"\n", PoBadOrder, 1, "out of order"),
        (
            "msgid \"a\"\nmsgid_plural \"b\"\nmsgstr[1] \"x\"\n",
            PoBadIndex,
            3,
            "wrong plural index",
        ),
        (
            "msgid \"a\"\nmsgstr \"x\"\nmsgid \"a\"\nmsgstr \"y\"\n",
            PoDuplicate,
            3,
            "duplicate message",
        ),
        (
            "msgid \"\"\nmsgstr \"charset=EUC-TW\\n\"\n",
            PoCharset,
            1,
            "unsupported charset",
        ),
        (PLURAL, PoNoRule, 1, "plural message without a rule"),
        (&ruled("nplurals=1; plural=;"), PoBadRule, 1, "unreadable plural rule"),
        (
            &ruled("nplurals=2; plural=n>1;"),
            PoFormCount,
            3,
            "wrong number of plural forms",
        ),
        (&ruled("nplurals=1; plural=n>1;"), PoPluralRange, 1, "plural rule fails"),
        (
            "#, c-format\nmsgid \"%d\"\nmsgstr \"%s\"\n",
            PoFormatMismatch,
            2,
            "format arguments differ",
        ),
        (
            "msgid \"a\\n\"\nmsgstr \"b\"\n",
            PoNewlineMismatch,
            1,
            "newlines differ",
        ),
    ];
    for (text, fault, line, message) in texts {
        refuses_po(text.as_bytes(), fault, Some(line), message);
    }
    refuses_po(b"\xff", PoNotUtf8, Some(1), "not UTF-8");
    refuses_po(&vec![b'\n'; 67_108_865], PoTooLarge, None, "file too large");
}

/// An MO file of entries with these originals and translations.
fn mo_file(entries: &[(&[u8], &[u8])]) -> Vec<u8> {
    let count = entries.len() as u32;
    let mut strings = Vec::new();
    let mut words = vec![0x950412de, 0, count, 28, 28 + 8 * count, 0, 28 + 16 * count];
    let originals = entries.iter().map(|it| it.0);
    for string in originals.chain(entries.iter().map(|it| it.1)) {
        words.extend([string.len() as u32, 28 + 16 * count + strings.len() as u32]);
        strings.extend_from_slice(string);
        strings.push(0);
    }
    let words = words.into_iter().flat_map(u32::to_le_bytes);
    words.chain(strings).collect()
}

fn refuses_mo(file: &[u8], fault: Fault, message: &str) {
    let refused = Catalogue::from_mo(file).unwrap_err();
    assert_eq!((refused.fault(), refused.line()), (fault, None));
    assert_eq!(refused.to_string(), message);
}

/// The MO file of one entry, with one word of it changed.
fn refuses_changed(offset: usize, word: u32, fault: Fault, message: &str) {
    let mut file = mo_file(&[(b"a", b"b")]);
    assert!(Catalogue::from_mo(&file).is_ok());
    file[offset..offset + 4].copy_from_slice(&word.to_le_bytes());
    refuses_mo(&file, fault, message);
}

#[test]
fn each_reason_of_an_mo_file() {
    refuses_mo(b"", Fault::MoShort, "file too short");
    refuses_mo(&[0; 27], Fault::MoShort, "file too short");
    refuses_changed(0, 1, Fault::MoMagic, "not an MO file");
    refuses_changed(4, 2, Fault::MoRevision, "unknown revision");
    refuses_changed(4, 1, Fault::MoDependentTables, "system-dependent tables out of bounds");
    refuses_changed(32, 1000, Fault::MoBounds, "out of bounds");
    refuses_changed(28, 0, Fault::MoNoNul, "string not closed");
    refuses_mo(&mo_file(&[(b"\xff", b"b")]), Fault::MoBadText, "bad text");
    refuses_mo(&mo_file(&[(b"a", b"b\0c")]), Fault::MoForms, "wrong plural forms");
    refuses_mo(
        &mo_file(&[(b"b", b"c"), (b"a", b"d")]),
        Fault::MoOrder,
        "keys out of order",
    );
    refuses_mo(
        &mo_file(&[(b"", b"charset=EUC-TW\n")]),
        Fault::MoCharset,
        "unsupported charset",
    );
    refuses_mo(
        &mo_file(&[(b"", b"charset=CP1252\n"), (b"a", b"\x81")]),
        Fault::MoNoCharacter,
        "byte without a character",
    );
}

#[test]
fn mo_file_in_another_charset() {
    let file = mo_file(&[(b"", b"charset=KOI8-R\n"), (b"a", b"\xc4\xc1")]);
    assert_eq!(Catalogue::from_mo(&file).unwrap().gettext("a"), "да");
}

/// What GNU msgfmt writes of a message and of one with `%<PRIu64>`, which has revision 0.1.
const SYSTEM_DEPENDENT: [u32; 35] = [
    0x950412de, 1, 1, 48, 56, 5, 64, 1, 84, 1, 92, 96, 1, 140, 1, 142, 1, 0, 0, 0, 0, 7, 144, 100, 120, 151, 3, 0, 1,
    !0, 155, 1, 0, 3, !0,
];

#[test]
fn strings_that_depend_on_the_system() {
    let mut file: Vec<u8> = SYSTEM_DEPENDENT.iter().flat_map(|word| word.to_le_bytes()).collect();
    file.extend(b"s\0S\0PRIu64\0n %\0% N\0");
    let catalogue = Catalogue::from_mo(&file).unwrap();
    assert_eq!(catalogue.gettext("n %lu"), "%lu N");
    assert_eq!(catalogue.gettext("s"), "S");
    let text = b"msgid \"s\"\nmsgstr \"S\"\n#, c-format\nmsgid \"n %<PRIu64>\"\nmsgstr \"%<PRIu64> N\"\n";
    let compiled = Catalogue::from_po(text, Options::new()).unwrap();
    assert_eq!(compiled.mo_file(), file);
    assert_eq!(compiled.gettext("n %lu"), "%lu N");
    file[84] = 0;
    refuses_mo(&file, Fault::MoDependentSegment, "bad segment");
}

#[test]
fn an_mo_file_that_is_too_large() {
    refuses_mo(&vec![0; 268_435_457], Fault::MoTooLarge, "file too large");
}

#[test]
fn a_small_mo_file_of_a_map_that_is_too_large() {
    // 300 entries that share one translation of a million bytes
    let (count, long) = (300_u32, 1_000_000_u32);
    let [translations, at] = [28 + 8 * count, 28 + 16 * count];
    let words = [0x950412de, 0, count, 28, translations, 0, at];
    let originals = (0..count).flat_map(|i| [3, at + 4 * i]);
    let shared = (0..count).flat_map(|_| [long, at + 4 * count]);
    let words = words.into_iter().chain(originals).chain(shared);
    let mut file: Vec<u8> = words.flat_map(u32::to_le_bytes).collect();
    file.extend((0..count).flat_map(|i| format!("{i:03}\0").into_bytes()));
    file.extend((0..long).map(|_| b'x').chain([0]));
    refuses_mo(&file, Fault::MoSwollen, "map too large");
}

#[test]
fn offsets_that_lead_out_of_the_file() {
    for offset in [0x7fff_ff00, 0x0010_0000, u32::MAX, 52] {
        refuses_changed(40, offset, Fault::MoBounds, "out of bounds");
    }
}

/// Asks for all that a catalogue has: its strings are UTF-8, and each message is found.
fn is_whole(catalogue: &Catalogue) {
    let is_utf8 = |text: &str| std::str::from_utf8(text.as_bytes()).is_ok();
    for entry in catalogue {
        let strings = [entry.context(), Some(entry.msgid()), entry.plural()];
        assert!(strings.into_iter().flatten().chain(entry.forms()).all(is_utf8));
        let question = Question::new(entry.msgid()).number(2);
        let found = catalogue.find(entry.context().map_or(question, |it| question.context(it)));
        assert!(entry.forms().any(|form| Some(form) == found));
    }
}

#[test]
fn a_changed_file_is_refused_or_read_as_a_whole() {
    let header = b"Plural-Forms: nplurals=2; plural=n>1;\n".as_slice();
    let plural = ("\u{4}née\0nées".as_bytes(), "é\0à".as_bytes());
    let file = mo_file(&[(b"", header), plural, (b"c\x04d", b"e")]);
    let mut read = 0;
    for offset in 0..file.len() {
        for bit in 0..8 {
            let mut changed = file.clone();
            changed[offset] ^= 1 << bit;
            if let Ok(catalogue) = Catalogue::from_mo(&changed) {
                is_whole(&catalogue);
                read += 1;
            }
        }
        assert!(Catalogue::from_mo(&file[..offset]).is_err());
    }
    assert!(read > 100);
}

#[test]
fn a_refusal_is_an_error_for_all_threads() {
    fn is_error<E: Error + Send + Sync + 'static>() {}
    is_error::<kobdzila::Refused>();
}
