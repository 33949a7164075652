//! Which languages a user or a request prefers, and which of the available ones that selects.

use std::env;

/// The languages that a user prefers, best one first: those of the environment, or of a request's Accept-Language
/// header.
///
/// A server [chooses](Preferences::choose) one of its languages for each page, by the lookup of RFC 4647, so that no
/// page is in two languages:
///
/// ```
/// use kobdzila::Preferences;
///
/// let there_are = ["en", "fr", "pt_BR", "zh_Hans", "zh_Hant"];
/// let choose = |header: &str| Preferences::of_header(header).choose(&there_are).unwrap_or("en");
/// assert_eq!(choose("de, fr-CH;q=0.8, en;q=0.5"), "fr");
/// assert_eq!(choose("zh-TW, zh;q=0.9"), "zh_Hant");
/// assert_eq!(choose("de"), "en");
/// ```
///
/// A program for a terminal uses the [list](Preferences::list) of the environment:
///
/// ```
/// use kobdzila::{Domain, Lookup, Preferences, Set};
///
/// let texts = Set::new().into_languages(Domain("garden"), &Preferences::of_environment().list());
/// assert_eq!(texts.gettext("Winter"), "Winter");
/// ```
#[derive(Clone, Debug, Default, PartialEq, Eq, Hash)]
pub struct Preferences {
    tags: Vec<String>,
}

/// What is read of a header, which a stranger has written. A longer one is cut before its last comma.
const MOST_BYTES: usize = 500;
const MOST_LANGUAGES: usize = 20;

/// The likely script of a language, for those whose script decides what a reader can read: CLDR, likelySubtags.xml.
const SCRIPTS: &[(&str, &str)] = &[
    ("arab", "ar bal ckb fa glk ks lrc mzn ps sd ug ur"),
    ("armi", "arc"),
    ("cyrl", "kk ky mn sr tg tt"),
    ("guru", "pa"),
    ("hans", "zh"),
    ("hant", "yue"),
    ("hebr", "he iw ji yi"),
    ("latn", "az bs ha ku ms uz"),
    ("nkoo", "nqo"),
    ("syrc", "syr"),
    ("thaa", "dv"),
];

/// The likely script in the countries where it differs.
const SCRIPTS_IN: &[(&str, &str, &str)] = &[
    ("az", "arab", "iq ir"),
    ("az", "cyrl", "ru"),
    ("ha", "arab", "cm sd"),
    ("kk", "arab", "af cn ir mn"),
    ("ku", "arab", "lb"),
    ("ky", "arab", "cn"),
    ("ky", "latn", "tr"),
    ("mn", "mong", "cn"),
    ("ms", "arab", "cc"),
    ("pa", "arab", "pk"),
    ("sd", "deva", "in"),
    ("sr", "latn", "me ro ru tr"),
    ("tg", "arab", "pk"),
    ("ug", "cyrl", "kz mn"),
    ("uz", "arab", "af"),
    ("uz", "cyrl", "cn"),
    ("yue", "hans", "cn"),
    ("zh", "hant", "au bn gb gf hk id mo pa pf ph sr th tw us vn"),
];

/// The likely country of a language in a script.
const COUNTRIES: &[(&str, &str, &str)] = &[("sr", "latn", "rs"), ("zh", "hans", "cn"), ("zh", "hant", "tw")];

/// The modifiers that name a script in the names of locales.
const MODIFIERS: &[(&str, &str)] = &[
    ("arabic", "arab"),
    ("cyrillic", "cyrl"),
    ("devanagari", "deva"),
    ("iqtelif", "latn"),
    ("latin", "latn"),
];

impl Preferences {
    /// Returns these languages as preferences, best one first: language tags such as `pt-BR`, or names of locales such
    /// as `pt_BR`.
    ///
    /// ```
    /// use kobdzila::Preferences;
    ///
    /// assert_eq!(Preferences::new(["fr_CA", "de"]).list(), "fr_CA:fr:de");
    /// ```
    pub fn new<T: Into<String>>(tags: impl IntoIterator<Item = T>) -> Preferences {
        Preferences {
            tags: tags.into_iter().map(Into::into).collect(),
        }
    }

    /// Returns the languages of an Accept-Language header (RFC 9110, section 12.5.4), those with the greatest weight
    /// first. `*` and malformed parts are skipped. At most 500 bytes and 20 languages are read.
    ///
    /// ```
    /// use kobdzila::Preferences;
    ///
    /// let wanted = Preferences::of_header("da, en-GB;q=0.8, en;q=0.7, fr;q=0");
    /// assert!(wanted.tags().eq(["da", "en-GB", "en"]));
    /// ```
    pub fn of_header(header: &str) -> Preferences {
        let mut wanted: Vec<(u32, &str)> = cut(header)
            .split(',')
            .filter_map(weighted)
            .filter(|(weight, _)| *weight > 0)
            .take(MOST_LANGUAGES)
            .collect();
        // (a stable sort: languages of one weight stay in the order of the header)
        wanted.sort_by_key(|(weight, _)| u32::MAX - weight);
        Preferences::new(wanted.into_iter().map(|(_, tag)| tag))
    }

    /// Returns the languages of the environment: those of the variable `LANGUAGE`, or else that of the first of
    /// `LC_ALL`, `LC_MESSAGES` and `LANG` that isn't empty. If that is `C` or `POSIX`, or if all are empty, `LANGUAGE`
    /// isn't read, and there is no language (GNU gettext manual, "The LANGUAGE variable"). So it is for `C` with a
    /// codeset, such as `C.UTF-8`, as in GNU gettext from 0.22 and glibc from 2.39 on.
    ///
    /// ```
    /// use kobdzila::Preferences;
    ///
    /// std::env::set_var("LC_ALL", "fr_CA.UTF-8");
    /// std::env::set_var("LANGUAGE", "sv:fr_CA");
    /// assert_eq!(Preferences::of_environment().list(), "sv:fr_CA:fr");
    /// for locale in ["C", "C.UTF-8", "POSIX"] {
    ///     std::env::set_var("LC_ALL", locale);
    ///     assert_eq!(Preferences::of_environment().list(), "");
    /// }
    /// ```
    pub fn of_environment() -> Preferences {
        let value = |name| env::var(name).ok().filter(|it| !it.is_empty());
        let locale = ["LC_ALL", "LC_MESSAGES", "LANG"].into_iter().find_map(value);
        match locale {
            Some(locale) if !is_untranslated(&locale) => {
                let list = value("LANGUAGE").unwrap_or(locale);
                Preferences::new(list.split(':').filter(|it| !it.is_empty()))
            }
            _ => Preferences::default(),
        }
    }

    /// Returns the languages, best one first.
    ///
    /// ```
    /// use kobdzila::Preferences;
    ///
    /// assert_eq!(Preferences::of_header("de, en;q=0.5").tags().next_back(), Some("en"));
    /// ```
    pub fn tags(&self) -> impl DoubleEndedIterator<Item = &str> + ExactSizeIterator + '_ {
        self.tags.iter().map(String::as_str)
    }

    /// Returns the best of these languages for the user, by the lookup of RFC 4647 (section 3.4): each preferred
    /// language is shortened from its end until it is an available one. `None` if none is; a program then uses its own
    /// language.
    ///
    /// The available ones may be names of locales or tags: `zh_Hant_TW`, `zh-Hant-TW`, `sr@latin`, `pt_BR.UTF-8`. List
    /// the language of your msgids among them. A script that isn't named is the likely one by CLDR, so that `zh-TW`
    /// finds `zh_Hant`, and `zh-Hant` finds `zh_TW`.
    ///
    /// ```
    /// use kobdzila::Preferences;
    ///
    /// let choose = |header: &str, there_are| Preferences::of_header(header).choose(there_are);
    /// assert_eq!(choose("sr-Latn-RS, sr;q=0.9", &["sr", "sr@latin"]), Some("sr@latin"));
    /// assert_eq!(choose("pt-PT", &["en", "pt_BR"]), None);
    /// ```
    pub fn choose<'a>(&self, there_are: &[&'a str]) -> Option<&'a str> {
        let mut names: Vec<(String, &'a str)> = there_are
            .iter()
            .filter_map(|name| Some((tag_of(name)?, *name)))
            .collect();
        // (of two names of one language the shorter one counts)
        names.sort_by_key(|(_, name)| (name.len(), *name));
        let named = |wanted: &String| names.iter().find(|(tag, _)| tag == wanted);
        let likely = |wanted: &String| names.iter().find(|(tag, _)| with_script(tag) == *wanted);
        let wanted = self.tags.iter().filter_map(|tag| tag_of(tag));
        wanted
            .filter_map(|tag| {
                let found = candidates(&tag).iter().find_map(named);
                let written = || shorter(&with_script(&tag)).into_iter().chain([with_country(&tag)]);
                found.or_else(|| written().find_map(|it| likely(&it)))
            })
            .map(|(_, name)| *name)
            .next()
    }

    /// Returns the languages as a list for [`Set::languages`](crate::Set::languages): the names of each language's
    /// locales, separated by colons.
    ///
    /// ```
    /// use kobdzila::Preferences;
    ///
    /// let list = |tag| Preferences::new([tag]).list();
    /// assert_eq!(list("pt-BR"), "pt-BR:pt_BR:pt");
    /// assert_eq!(list("sr_RS.UTF-8@latin"), "sr_RS.UTF-8@latin:sr_RS@latin:sr@latin:sr_RS:sr");
    /// assert_eq!(list("zh-Hant"), "zh-Hant:zh_Hant:zh_TW:zh");
    /// ```
    pub fn list(&self) -> String {
        let mut names: Vec<String> = Vec::new();
        for name in self.tags.iter().flat_map(|tag| names_of(tag)) {
            if !names.contains(&name) {
                names.push(name);
            }
        }
        names.join(":")
    }
}

/// Whether a locale is that of the program's own texts.
fn is_untranslated(locale: &str) -> bool {
    locale == "POSIX" || locale.split('.').next() == Some("C")
}

/// The part of a header that is read.
fn cut(header: &str) -> &str {
    if header.len() <= MOST_BYTES {
        return header;
    }
    let comma = header.as_bytes()[..MOST_BYTES].iter().rposition(|it| *it == b',');
    &header[..comma.unwrap_or(0)]
}

/// The weight of a part of a header in thousandths, and its language; `None` if it breaks the rules.
fn weighted(part: &str) -> Option<(u32, &str)> {
    let (tag, weight) = match part.split_once(';') {
        Some((tag, parameter)) => (tag, thousandths(parameter)?),
        None => (part, 1000),
    };
    let tag = tag.trim_matches([' ', '\t'].as_slice());
    is_tag(tag).then_some((weight, tag))
}

/// The value of `q=0.25`, of up to three digits and at most 1.
fn thousandths(parameter: &str) -> Option<u32> {
    let parameter = parameter.trim_matches([' ', '\t'].as_slice());
    let value = parameter.strip_prefix("q=").or_else(|| parameter.strip_prefix("Q="))?;
    let (whole, digits) = value.split_once('.').unwrap_or((value, ""));
    let is_number = digits.len() <= 3 && digits.bytes().all(|it| it.is_ascii_digit());
    let thousandths: u32 = format!("{digits:0<3}").parse().ok()?;
    match whole {
        "0" if is_number => Some(thousandths),
        "1" if is_number && thousandths == 0 => Some(1000),
        _ => None,
    }
}

/// Whether this is a language of a header: letters, and then subtags of 1 to 8 letters and digits. Some clients write
/// the names of locales.
fn is_tag(tag: &str) -> bool {
    let is_subtag = |it: &str| (1..=8).contains(&it.len()) && it.bytes().all(|it| it.is_ascii_alphanumeric());
    let first = tag.split(['-', '_'].as_slice()).next().unwrap_or("");
    first.bytes().all(|it| it.is_ascii_alphabetic()) && tag.split(['-', '_'].as_slice()).all(is_subtag)
}

/// The language tag of a locale's name, in lower case: `sr-latn` for `sr@latin`; `None` if it names no language.
fn tag_of(name: &str) -> Option<String> {
    let (name, modifier) = name.split_once('@').unwrap_or((name, ""));
    let name = name
        .split('.')
        .next()
        .unwrap_or("")
        .to_ascii_lowercase()
        .replace('_', "-");
    if !is_tag(&name) || name == "c" || name == "posix" {
        return None;
    }
    let modifier = modifier.to_ascii_lowercase();
    let script = MODIFIERS
        .iter()
        .find(|(it, _)| *it == modifier)
        .map(|(_, script)| *script);
    Some(match script {
        Some(script) if written_script(&name).is_none() => with(&name, script),
        None if is_variant(&modifier) && name.split('-').all(|it| it != modifier) => format!("{name}-{modifier}"),
        _ => name,
    })
}

/// Whether the modifier of a locale is a variant of its language. (`euro` isn't: it tells a currency)
fn is_variant(modifier: &str) -> bool {
    let is_long = (5..=8).contains(&modifier.len()) || modifier.len() == 4 && modifier.as_bytes()[0].is_ascii_digit();
    is_long && modifier != "preeuro" && modifier.bytes().all(|it| it.is_ascii_alphanumeric())
}

/// A tag with this script after its language.
fn with(tag: &str, script: &str) -> String {
    let (language, rest) = tag
        .split_once('-')
        .map_or((tag, None), |(language, rest)| (language, Some(rest)));
    rest.map_or_else(
        || format!("{language}-{script}"),
        |rest| format!("{language}-{script}-{rest}"),
    )
}

/// The script that a tag names: four letters, after the language and its extensions of three.
fn written_script(tag: &str) -> Option<&str> {
    let is_alphabetic = |it: &str| it.bytes().all(|it| it.is_ascii_alphabetic());
    let mut subtags = tag
        .split('-')
        .skip(1)
        .skip_while(|it| it.len() == 3 && is_alphabetic(it));
    subtags.next().filter(|it| it.len() == 4 && is_alphabetic(it))
}

/// The script of a tag: the one that it names, or the likely one.
fn script_of(tag: &str) -> Option<&str> {
    let language = tag.split('-').next().unwrap_or("");
    let is_country = |it: &&str| {
        it.len() == 2 && it.bytes().all(|it| it.is_ascii_alphabetic())
            || it.len() == 3 && it.bytes().all(|it| it.is_ascii_digit())
    };
    let country = tag
        .split('-')
        .skip(1)
        .take_while(|it| it.len() > 1)
        .find(is_country)
        .unwrap_or("");
    let has = |list: &str, wanted: &str| list.split(' ').any(|it| it == wanted);
    let there = SCRIPTS_IN
        .iter()
        .find(|(it, _, countries)| *it == language && has(countries, country));
    let anywhere = || {
        SCRIPTS
            .iter()
            .find(|(_, languages)| has(languages, language))
            .map(|(it, _)| *it)
    };
    written_script(tag).or_else(|| there.map(|(_, it, _)| *it).or_else(anywhere))
}

/// A tag with its likely script, if it names none and one is known.
fn with_script(tag: &str) -> String {
    match script_of(tag) {
        Some(script) if written_script(tag).is_none() => with(tag, script),
        _ => tag.to_string(),
    }
}

/// A tag of a language and a script with the likely country, if one is known.
fn with_country(tag: &str) -> String {
    let country = COUNTRIES
        .iter()
        .find(|(language, script, _)| tag == format!("{language}-{script}"));
    country.map_or_else(|| tag.to_string(), |(_, _, it)| format!("{tag}-{it}"))
}

/// A tag, and what is left of it step by step (RFC 4647, section 3.4): a subtag of one letter only introduces others.
fn shorter(tag: &str) -> Vec<String> {
    let (mut subtags, mut found) = (tag.split('-').collect::<Vec<&str>>(), Vec::new());
    while !subtags.is_empty() {
        found.push(subtags.join("-"));
        subtags.pop();
        while subtags.last().map_or(false, |it| it.len() == 1) {
            subtags.pop();
        }
    }
    found
}

/// The tags that answer a preferred language, the nearest one first: those of RFC 4647, and those with its likely
/// script. One that isn't the usual script of its language comes before the bare language: for `zh-TW`, `zh-hant` comes
/// before `zh`.
fn candidates(tag: &str) -> Vec<String> {
    let mut found = shorter(tag);
    let language = tag.split('-').next().unwrap_or("");
    if written_script(tag).is_none() && script_of(tag).is_some() {
        let written = shorter(&with_script(tag)).into_iter().filter(|it| it != language);
        let index = if script_of(tag) == script_of(language) {
            found.len()
        } else {
            found.len() - 1
        };
        found.splice(index..index, written);
    }
    found
}

/// The names that a language's locales may have, the nearest one first.
fn names_of(name: &str) -> Vec<String> {
    let tag = match tag_of(name) {
        Some(tag) => tag,
        // (as it is: `C` and `POSIX` end a list)
        None => return vec![name.to_string()],
    };
    let mut names = vec![name.to_string()];
    let script = written_script(&tag);
    let language = tag.split('-').next().unwrap_or("");
    let rest = || {
        tag.split('-')
            .skip(1)
            .take_while(|it| it.len() > 1)
            .filter(|it| Some(*it) != script)
    };
    let mut country = rest().find(|it| matches!(it.len(), 2 | 3)).map(str::to_ascii_uppercase);
    let mut modifier = rest().find(|it| it.len() > 3);
    if let Some(script) = script {
        if !name.contains('@') {
            names.push(format!(
                "{language}_{}{}",
                script[..1].to_ascii_uppercase(),
                &script[1..]
            ));
        }
        modifier = MODIFIERS
            .iter()
            .rev()
            .find(|(_, it)| *it == script)
            .map(|(it, _)| *it)
            .or(modifier);
        let likely = || {
            COUNTRIES
                .iter()
                .filter(|it| it.0 != "sr")
                .find(|it| (it.0, it.1) == (language, script))
        };
        country = country.or_else(|| likely().map(|it| it.2.to_ascii_uppercase()));
    }
    let territory = country.map(|it| format!("{language}_{it}"));
    if let Some(modifier) = modifier {
        names.extend(territory.iter().map(|it| format!("{it}@{modifier}")));
        names.push(format!("{language}@{modifier}"));
    }
    names.extend(territory);
    names.push(language.to_string());
    names
}

#[cfg(test)]
mod tests {
    use super::Preferences;

    /// Headers, the available languages, and the answer of RFC 4647, section 3.4. The repository has a longer table,
    /// which Python also uses (`tests/python/negotiation.tsv`).
    const CHOICES: &[(&str, &[&str], Option<&str>)] = &[
        (
            "fr-CH, fr;q=0.9, en;q=0.8, de;q=0.7, *;q=0.5",
            &["de", "fr_CH"],
            Some("fr_CH"),
        ),
        ("en-US, en;q=0.9, fr;q=0.8", &["en_GB", "fr"], Some("fr")),
        ("zh-TW, en;q=0.5", &["zh_Hans", "en"], Some("en")),
        ("zh-TW", &["zh"], Some("zh")),
        ("sr-Cyrl-RS", &["sr@latin", "sr"], Some("sr")),
        ("de-Latn-DE", &["de_AT", "de"], Some("de")),
        ("de;q=0.001, fr;q=0.01", &["de", "fr"], Some("fr")),
        ("de-x-mine-own", &["de_x_mine", "de"], Some("de_x_mine")),
        ("en-a-bbb-x-ccc", &["en"], Some("en")),
        ("de:fr", &["fr"], None),
        ("", &["fr"], None),
        ("fr", &["fr.UTF-8"], Some("fr.UTF-8")),
        ("fr", &["C", "fr@euro"], Some("fr@euro")),
    ];

    #[test]
    fn one_language_is_chosen_as_rfc_4647_looks_it_up() {
        let file = concat!(env!("CARGO_MANIFEST_DIR"), "/../tests/python/negotiation.tsv");
        let table = std::fs::read_to_string(file).unwrap_or_else(|why| {
            eprintln!("{file}: {why}");
            String::new()
        });
        let rows = table.lines().filter(|it| !it.starts_with('#')).map(|row| {
            let fields: Vec<&str> = row.split('\t').collect();
            (
                fields[0],
                fields[1].split(' ').collect(),
                Some(fields[2]).filter(|it| *it != "-"),
            )
        });
        let own = CHOICES
            .iter()
            .map(|(header, there_are, wanted)| (*header, there_are.to_vec(), *wanted));
        for (header, there_are, wanted) in rows.chain(own) {
            let chosen = Preferences::of_header(header).choose(&there_are);
            assert_eq!(chosen, wanted, "{header} of {there_are:?}");
        }
    }

    #[test]
    fn a_long_header_is_cut() {
        let header = "de-AT, ".repeat(10_000) + "fr";
        assert_eq!(Preferences::of_header(&header).tags().len(), 20);
        assert_eq!(Preferences::of_header(&"a".repeat(501)).tags().len(), 0);
        let cut = format!("fr, {}, de", "x".repeat(500));
        assert!(Preferences::of_header(&cut).tags().eq(["fr"]));
        assert_eq!(Preferences::of_header(&"é,".repeat(400)).tags().len(), 0);
        let whole = format!("fr,{}de", " ".repeat(495));
        assert!(Preferences::of_header(&whole).tags().eq(["fr", "de"]));
        assert!(Preferences::of_header(&(whole + "x")).tags().eq(["fr"]));
        assert!(Preferences::of_header(&("de;q=0,".repeat(20) + "fr")).tags().eq(["fr"]));
    }

    #[test]
    fn a_list_has_the_names_that_locales_have() {
        for (tag, names) in [
            ("pt-BR", "pt-BR:pt_BR:pt"),
            ("sr-Latn-RS", "sr-Latn-RS:sr_Latn:sr_RS@latin:sr@latin:sr_RS:sr"),
            ("sr-Latn", "sr-Latn:sr_Latn:sr@latin:sr"),
            ("fr_CA.UTF-8", "fr_CA.UTF-8:fr_CA:fr"),
            ("zh-Hans", "zh-Hans:zh_Hans:zh_CN:zh"),
            ("ca_ES@valencia", "ca_ES@valencia:ca@valencia:ca_ES:ca"),
            ("de-DE-u-co-phonebk", "de-DE-u-co-phonebk:de_DE:de"),
            ("C", "C"),
        ] {
            assert_eq!(Preferences::new([tag]).list(), names);
        }
    }
}
