#!/usr/bin/env python3
"""Compares libkobdzila-intl.so with the C library alone: one program, one environment, with the library put before it
and without. Then what it answers by itself. Run by tests/intl/intl_answers.sh.

    intl_answers.py ROOM ASK LIBRARY [SANITIZED]

ROOM: a folder for files; ASK: tests/intl/ask_gettext.c, compiled; LIBRARY: the path of libkobdzila-intl.so; SANITIZED: ASK once
more, linked with a library that has AddressSanitizer and UndefinedBehaviorSanitizer, which must answer the same.

ROOM/locales has the locales of the cases. It prints `wrong: ..` for each answer that is neither the C library's nor
the one that a row of docs/internals/decisions/intl/differences-from-glibc.md gives, and how many there were.
"""
import itertools
import os
import random
import struct
import subprocess
import sys
from dataclasses import dataclass, field
from pathlib import Path

Entries = dict[bytes, bytes]
UTF8 = b"Content-Type: text/plain; charset=UTF-8\nPlural-Forms: nplurals=2; plural=n>1;\n"
SPELLINGS = ("UTF-8", "utf8", "UTF8", "utf-8", "Utf_8")
PATIENCE = 60 * int(os.environ.get("SLOWER", "1"))  # seconds


def mo(entries: Entries, header: bytes | None = UTF8, order: str = "<", revision: int = 0) -> bytes:
    """An MO file without a hash table."""
    pairs = sorted(({b"": header} if header is not None else {}) | entries) if entries or header is not None else []
    texts = {b"": header or b""} | entries
    at, table, strings = 28 + 16 * len(pairs), b"", b""
    for text in [*pairs, *(texts[key] for key in pairs)]:
        table += struct.pack(order + "II", len(text), at + len(strings))
        strings += text + b"\0"
    words = (0x950412DE, revision, len(pairs), 28, 28 + 8 * len(pairs), 0, at)
    return struct.pack(order + "7I", *words) + table + strings


def install(folder: Path, locale: str, domain: str, data: bytes, category: str = "LC_MESSAGES") -> None:
    path = folder / locale / category / f"{domain}.mo"
    path.parent.mkdir(parents=True, exist_ok=True)
    path.write_bytes(data)


@dataclass
class Case:
    """What is asked, in which environment. `ours`: the answers with the library, if a row says that they may differ.
    The C library alone isn't asked then."""

    words: list[str]
    environment: dict[str, str] = field(default_factory=dict)
    ours: list[str] | None = None


@dataclass
class Comparing:
    room: Path
    ask: str
    library: str
    sanitized: str | None
    compared: int = 0
    own: int = 0
    wrong: int = 0

    def run(self, case: Case, library: bool, program: str | None = None) -> list[str]:
        known = {"LC_ALL": "C.UTF-8", "LOCPATH": str(self.room / "locales"), "PATH": os.environ["PATH"]}
        known |= {name: os.environ[name] for name in ("QEMU_LD_PREFIX",) if name in os.environ}  # (an emulator's)
        known |= case.environment
        environment = {name: value for name, value in known.items() if value != "-"}
        if library:
            environment["LD_PRELOAD"] = self.library
        # (locales of its own the program never frees)
        environment["ASAN_OPTIONS"] = "detect_leaks=0"
        done = subprocess.run([program or self.ask, *case.words], env=environment, capture_output=True, cwd=self.room,
                              timeout=PATIENCE)
        said = done.stdout.decode() + done.stderr.decode()
        return [*said.splitlines(), f"status {done.returncode}"]

    def compare(self, case: Case) -> None:
        ours = self.run(case, True)
        wanted = self.run(case, False) if case.ours is None else [*case.ours, "status 0"]
        if case.ours is None:
            self.compared += len(ours) - 1
        else:
            self.own += len(ours) - 1
        self.expect(case, ours, wanted)
        self.look_closely(case, ours)

    def expect(self, case: Case, said: list[str], wanted: list[str]) -> None:
        if said != wanted:
            self.wrong += 1
            if self.wrong <= 5:
                print(f"wrong: {case.environment} {' '.join(case.words)[:300]}: {said} and not {wanted}")

    def look_closely(self, case: Case, ours: list[str]) -> None:
        if self.sanitized:
            self.expect(case, self.run(case, False, self.sanitized), ours)


def names_of(language: str, territory: str, codeset: str, modifier: str) -> list[str]:
    """The folders of a locale's name in their order, as "Locale Names" of the GNU gettext manual names its parts."""
    normalized = "".join(c for c in codeset.lower() if c.isalnum())
    codesets = [part for part in dict.fromkeys(("." + codeset, "." + normalized)) if codeset] + [""]
    modifiers = ["@" + modifier, ""] if modifier else [""]
    territories = ["_" + territory, ""] if territory else [""]
    return [language + t + c + m for m, t, c in itertools.product(modifiers, territories, codesets)]


def spelled_cases(folder: Path) -> list[Case]:
    """For each spelling of a name: a domain that is in one folder alone, and one that is in this and all later ones."""
    cases = []
    for territory, codeset, modifier in itertools.product(("", "RS"), ("", *SPELLINGS, "8859-2"), ("", "latin")):
        folders = names_of("sr", territory, codeset, modifier)
        words = []
        for number, name in enumerate(folders):
            for kind, later in (("only", [name]), ("from", folders[number:])):
                domain = f"{kind}_{number}_{territory}_{codeset}_{modifier}"
                for place in later:
                    install(folder, place, domain, mo({b"where": place.encode()}))
                words += ["bind", domain, str(folder), "ask", domain, "where"]
        cases.append(Case(words, {"LANGUAGE": folders[0]}))
        if codeset in ("", "UTF-8", "utf8"):
            cases.append(Case(words, {"LC_ALL": folders[0]}))
    return cases


def odd_names(folder: Path) -> list[Case]:
    """Names of odd shapes."""
    for place in ("fr", "fr_FR", "@x", "fr@x", "fr.x", ".x", "_FR", "de/at"):
        install(folder, place, "odd", mo({b"where": place.encode()}))
    names = ("fr_", "fr_@x", "fr.", "fr.@x", "fr@", "fr_FR.", "@x", ".x", "_FR", "fr@x@y", "fr.x.y", "fr_FR_x", "..",
             ".", "/", "../fr", "fr/../fr", "de/at", "de/at_x", f"{folder}/fr", "fr" * 2500, "fr_" + "F" * 5000, "\xe9",
             "fr fr", "FR", "french", "French", "SWEDISH", "bokmal", "japanese", "C_FR", "C.UTF-8", "POSIX.x", "c")
    words = ["bind", "odd", str(folder), "ask", "odd", "where"]
    return [Case(words, {"LANGUAGE": name}) for name in names] + [
        Case(words, {"LC_ALL": name}) for name in names if len(name) < 200]


def lists(folder: Path) -> list[Case]:
    for place, entries in (("fr", {b"a": b"fr a", b"b": b"fr b"}), ("de", {b"b": b"de b", b"c": b"de c"}),
                           ("fr_CA", {b"a": b"fr_CA a"}), ("pl", {b"a": b""})):
        install(folder, place, "app", mo(entries))
    values = ("fr", "fr:de", "de:fr", "fr_CA:de", "xx:fr", "xx_YY.utf8@z:fr", "C:fr", "fr:C:de", "POSIX:fr",
              "de:POSIX:fr", "::fr::de::", ":", "", "-", "fr:fr", "fr_CA.UTF-8:de_DE.UTF-8@euro", "pl:fr", " fr", "fr ",
              "fr;de")
    words = ["bind", "app", str(folder), "domain", "app"]
    for msgid in ("a", "b", "c", "d", ""):
        words += ["ask", "-", msgid]
    cases = [Case(words, {"LANGUAGE": value}) for value in values]
    locales = ("C", "POSIX", "-", "", "xx_XX", "fr_FR.UTF-8", "fr_FR", "C.UTF-8", "fr_FR.utf8")
    return cases + [
        Case(words, {"LC_ALL": locale, "LANGUAGE": value}) for locale in locales for value in ("fr:de", "-")]


def domains(folder: Path) -> list[Case]:
    """Domains that are bound, bound again and not bound; relative folders; odd domains."""
    french = {"LANGUAGE": "fr"}
    other = folder / "other"
    install(other, "fr", "app", mo({b"a": b"other a"}))
    install(folder, "fr", "sub/app", mo({b"a": b"sub a"}))
    install(folder, "fr", "..", mo({b"a": b"dots a"}))
    install(folder, "fr", "app", mo({b"a": b"time a"}), "LC_TIME")
    bound, ask = ["bind", "app", str(folder)], ["ask", "app", "a"]
    relative = folder.name
    cases = [
        [*bound, *ask], [*ask, *bound, *ask], [*bound, *ask, "bind", "app", str(other), *ask, *bound, *ask],
        ["bind", "app", "-", *ask, *bound, "bind", "app", "-"], ["bind", "", str(folder), "ask", "", "a"],
        ["bind", "-", str(folder)], ["domain", "-", "domain", "app", "domain", "-", *bound, "ask", "-", "a"],
        ["domain", "", *bound, "ask", "-", "a", "domain", "app", "ask", "-", "a", "domain", "", "ask", "-", "a"],
        ["bind", "app", relative, *ask, "chdir", "/", "ask", "app", "b"], ["bind", "app", "", *ask],
        ["bind", "app", relative, "chdir", relative, "ask", "app", "a", "chdir", "..", "ask", "app", "b"],
        ["bind", "app", "other", "chdir", relative, *ask], ["bind", "app", f"{folder}/", *ask],
        ["bind", "sub/app", str(folder), "ask", "sub/app", "a"], ["bind", "..", str(folder), "ask", "..", "a"],
        ["bind", "../../de/LC_MESSAGES/app", str(folder), "ask", "../../de/LC_MESSAGES/app", "c"],
        ["bind", "a" * 5000, str(folder), "ask", "a" * 5000, "a"], ["bind", "app", "/" + "a" * 5000, *ask],
        [*bound, "of", "2", "app", "a"], [*bound, "of", "5", "app", "a"], [*bound, "of", "3", "app", "a"],
        [*bound, "of", "6", "app", "a"], [*bound, "of", "99", "app", "a"], [*bound, "of", "-1", "app", "a"],
        [*bound, "ask", "app", "-"], ["ask", "bash", "unknown"], ["ask", "-", "unknown"],
        [*bound, "null", "app", "2", "null", "app", "1", "null", "-", "0"],
        [*bound, "locale", "C", *ask, "locale", "C.UTF-8", *ask, "messages", "C", *ask, "messages", "fr_FR.UTF-8",
         *ask],
    ]
    return [Case(case, french) for case in cases]


def plurals(folder: Path) -> list[Case]:
    polish = b"Content-Type: text/plain; charset=UTF-8\nPlural-Forms: nplurals=3; plural=n==1 ? 0 : n%10>=2 && " \
             b"n%10<=4 && (n%100<10 || n%100>=20) ? 1 : 2;\n"
    bad = b"Plural-Forms: nplurals=2; plural=;\n"
    for domain, header in (("pl", polish), ("none", b"X: y\n"), ("headless", None), ("bad", bad)):
        install(folder, "fr", domain, mo({b"file\0files": b"zero\0one\0two", b"a": b"b"}, header))
    words = []
    for domain in ("pl", "none", "headless", "bad", "missing"):
        words += ["bind", domain, str(folder)]
        for n in ("0", "1", "2", "5", "22", "112", "4294967297", "18446744073709551615"):
            words += ["plural", domain, n]
        words += ["ask", domain, "file"]
    environments = ({"LANGUAGE": "fr"}, {"LC_ALL": "fr_FR.UTF-8"}, {"LC_ALL": "C", "LANGUAGE": "fr"})
    return [Case(words, environment) for environment in environments]


def codesets(folder: Path) -> list[Case]:
    install(folder, "fr", "uni", mo({b"a": "é“…\u0142".encode(), b"b": b"plain", "\xe9".encode(): b"c"}))
    install(folder, "de", "uni", mo({b"a": b"de a"}))
    words = ["bind", "uni", str(folder), "ask", "uni", "a", "ask", "uni", "b", "ask", "uni", "none", "ask", "uni",
             "\xe9", "plural", "uni", "2"]
    cases = []
    for codeset in ("-", "UTF-8", "utf8", "ISO-8859-1", "ASCII", "KOI8-R", "nonsense", ""):
        cases.append(Case(["codeset", "uni", codeset, *words], {"LANGUAGE": "fr:de"}))
        cases.append(Case(words, {"LANGUAGE": "fr:de", "OUTPUT_CHARSET": codeset}))
    for locale in ("fr_FR.ISO-8859-1", "fr_FR.UTF-8"):
        cases.append(Case(words, {"LC_ALL": locale, "LANGUAGE": "fr"}))
        cases.append(Case(words, {"LC_ALL": locale}))
        bound = ["codeset", "uni", "UTF-8", *words, "codeset", "uni", "-"]
        cases.append(Case(bound, {"LC_ALL": locale, "LANGUAGE": "fr"}))
    return cases


def threads(folder: Path) -> list[Case]:
    ask = ["ask", "app", "a", "ask", "uni", "a"]
    bound = ["bind", "app", str(folder), "bind", "uni", str(folder)]
    names = ("C", "fr_FR.UTF-8", "fr_FR.ISO-8859-1", "fr_FR", "sr_RS.UTF-8@latin", "C.UTF-8")
    return [Case([*bound, "thread", "uselocale", name, *ask, "uselocale", "-", *ask], {"LC_ALL": process} | more)
            for name in names for process in ("C", "fr_FR.UTF-8", "C.UTF-8") for more in ({}, {"LANGUAGE": "fr:de"})]


def changes(folder: Path) -> list[Case]:
    """A locale, a codeset or a domain is changed between questions that were asked before."""
    bound = ["bind", "app", str(folder), "bind", "uni", str(folder), "domain", "app"]
    ask = ["ask", "app", "a", "ask", "-", "a", "ask", "app", "b", "ask", "app", "none", "plural", "app", "2"]
    other = ["bind", "app", str(folder / "other")]
    cases = [
        [*bound, *ask, "uselocale", "C", *ask, "uselocale", "C.UTF-8", *ask, "uselocale", "-", *ask],
        [*bound, *ask, "messages", "C", *ask, "messages", "C.UTF-8", *ask, "locale", "C", *ask],
        [*bound, *ask, "domain", "uni", *ask, "domain", "nobody", *ask, "domain", "app", *ask],
        [*bound, *ask, *other, *ask, *bound, *ask, "bind", "app", "-", *ask],
        [*bound, *ask, "of", "2", "app", "a", "of", "5", "app", "a", *ask],
        [*bound, *ask, "codeset", "app", "ISO-8859-1", *ask, "codeset", "app", "UTF-8", *ask],
        [*bound, *ask, "thread", *ask, "uselocale", "C.UTF-8", *ask, "uselocale", "C", *ask],
    ]
    for number in range(20):
        install(folder, "fr", f"many{number}", mo({b"a": f"{number}".encode()}))
    many = [word for number in [*range(20), *range(20)]
            for word in ("bind", f"many{number}", str(folder), "ask", f"many{number}", "a")]
    again = [word for number in range(20) for word in ("ask", f"many{number}", "a")]
    return [Case(case, {"LANGUAGE": "fr:de"}) for case in [*cases, [*many, *again, *again]]]


def replaced_files(folder: Path) -> list[Case]:
    """A catalogue's file is replaced, spoiled, removed or made while the program runs: it is looked at when a folder
    was bound to the domain once more. docs/internals/decisions/intl/differences-from-glibc.md has the row."""
    one, two, six, bad = (folder / f"{name}.mo" for name in ("one", "two", "six", "bad"))
    place = folder / "fr/LC_MESSAGES/new.mo"
    one.write_bytes(mo({b"a": b"one"}))
    six.write_bytes(mo({b"a": b"six"}))
    two.write_bytes(mo({b"a": b"two", b"b": b"b of two"}))
    bad.write_bytes(one.read_bytes()[:40])
    install(folder, "fr", "accent", mo({b"a": "é".encode()}))
    install(folder, "fr", "copied", one.read_bytes())
    copied = str(folder / "fr/LC_MESSAGES/copied.mo")
    bind, ask, accent = ["bind", "new", str(folder)], ["ask", "new", "a"], ["ask", "accent", "a"]
    bind_copied, ask_copied = ["bind", "copied", str(folder)], ["ask", "copied", "a"]
    begin = ["put", str(one), str(place), *bind, *ask]
    bound = f"{folder} 77"
    french = {"LANGUAGE": "fr"}
    return [
        Case([*begin, "put", str(two), str(place), *ask, "bind", "new", "-", *ask, "bind", "app", str(folder), *ask,
              *bind, *ask, "ask", "new", "b", "first", "thread", *ask], french,
             [bound, "one 77", "one 77", bound, "one 77", bound, "one 77", bound, "two 77", "b of two 77", "one 77",
              "two 77"]),
        Case([*begin, "put", str(bad), str(place), *ask, *bind, *ask, "put", str(two), str(place), *bind, *ask, "first"],
             french, [bound, "one 77", "one 77", bound, "a 77", bound, "two 77", "one 77"]),
        Case([*begin, "remove", str(place), *ask, *bind, *ask, "put", str(one), str(place), *ask, *bind, *ask, "first"],
             french, [bound, "one 77", "one 77", bound, "a 77", "a 77", bound, "one 77", "one 77"]),
        Case([*begin, "put", str(two), str(place), "descriptors", "3", *bind, *ask, *ask, "descriptors", "9", *ask],
             french, [bound, "one 77", bound, "one 77", "one 77", "two 77"]),
        Case([*begin, *["put", str(two), str(place), *bind, *ask, "put", str(one), str(place), *bind, *ask] * 20, "first"],
             french, [bound, "one 77", *[bound, "two 77", bound, "one 77"] * 20, "one 77"]),
        Case(["rewrite", str(one), copied, *bind_copied, *ask_copied, "rewrite", str(six), copied, *ask_copied,
              *bind_copied, *ask_copied, "first"], french, [bound, "one 77", "one 77", bound, "six 77", "one 77"]),
        Case(["bind", "accent", str(folder), *accent, "env", "OUTPUT_CHARSET", "ISO-8859-1", *accent,
              "env", "OUTPUT_CHARSET", "", *accent], french,
             [bound, "\\xc3\\xa9 77", "\\xe9 77", "\\xc3\\xa9 77"]),
    ]


def other_files(folder: Path) -> list[Case]:
    """Files that aren't there, or are no catalogues, and those that the C library reads and libkobdzila doesn't."""
    latin = UTF8.replace(b"UTF-8", b"ISO-8859-1")
    whole = mo({b"a": b"b"})
    files = {
        "short": whole[:20], "empty": b"", "magic": b"x" + whole[1:], "byte_order": mo({b"a": b"swapped"}, order=">"),
        "latin": mo({b"a": b"\xe9"}, latin), "unknown": mo({b"a": b"b"}, UTF8.replace(b"UTF-8", b"CHARSET")),
        "latin_bytes": mo({b"a": b"\xe9"}), "no_header": mo({b"a": b"\xe9"}, None),
        "ascii": mo({b"a": "é".encode()}, UTF8.replace(b"UTF-8", b"ASCII")),
        "us_ascii": mo({b"a": b"b"}, UTF8.replace(b"UTF-8", b"US-ASCII")),
        "forms": mo({b"a": b"b\0c", b"c\0d\0e": b"x\0y"}),
        "revision_2": mo({b"a": b"b"}, revision=0x20000), "revision_1": mo({b"a": b"b"}, revision=0x10000),
        "lower": mo({b"a": "é".encode()}, UTF8.replace(b"UTF-8", b"utf-8")), "tiny": mo({}, b""),
        "nothing": mo({}, None),
        "marks": mo({b"a": b"b"}, UTF8.replace(b"UTF-8", b"UTF-8;")),
        "latin_swapped": mo({b"a": b"\xe9", b"file\0files": b"one\0\xe9"}, latin, ">"),
        "latin_forms": mo({b"a": b"\xe9\0c", b"c\0d\0e": b"x\0\xe9", b"file\0files\0more": b"one"}, latin),
        "byte_4": mo({b"a": b"b", b"c": b"\4x", b"c\4d\4e": b"f"}), "header_forms": mo({b"a": b"b"}, UTF8 + b"\0more"),
        "late_header": mo({b"\1": b"x", b"a": b"b"}, None), "two_charsets": mo({b"a": b"\xe9"}, latin + UTF8),
    }
    cases = []
    for domain, data in files.items():
        install(folder, "fr", domain, data)
        install(folder, "de", domain, mo({b"a": b"de a", b"c": b"de c"}))
        words = ["bind", domain, str(folder), "ask", domain, "a", "ask", domain, "c", "ask", domain, ""]
        words += ["plural", domain, "2", "ask", domain, "c\4d\4e", "ask", domain, "d", "plural", domain, "1"]
        cases += [Case(words, {"LANGUAGE": language}) for language in ("fr", "fr:de", "de:fr")]
        cases.append(Case(words, {"LANGUAGE": "fr", "LC_ALL": "fr_FR.ISO-8859-1"}))
    (folder / "fr/LC_MESSAGES/folder.mo").mkdir(exist_ok=True)
    cases.append(Case(["bind", "folder", str(folder), "ask", "folder", "a"], {"LANGUAGE": "fr"}))
    return cases


def system_strings(folder: Path) -> list[Case]:
    """A file of minor revision 1, whose strings have parts that depend on the system; GNU msgfmt makes it."""
    po = folder / "system.po"
    po.write_text('msgid ""\nmsgstr "Content-Type: text/plain; charset=UTF-8\\n"\n'
                  '#, c-format\nmsgid "size %<PRIu64>"\nmsgstr "taille %<PRIu64>"\nmsgid "a"\nmsgstr "b"\n')
    gnu = subprocess.run(["tools/gnu-msgfmt"], capture_output=True, text=True).stdout.strip()
    target = folder / "fr/LC_MESSAGES/system.mo"
    if not gnu or subprocess.run([gnu, "-o", str(target), str(po)]).returncode:
        return []
    words = ["bind", "system", str(folder), "ask", "system", "size %lu", "ask", "system", "a"]
    return [Case(words, {"LANGUAGE": language}) for language in ("fr", "de:fr", "fr:de")]


def has_alias(name: str) -> bool:
    aliases = Path("/usr/share/locale/locale.alias")
    return aliases.exists() and any(line.split()[:1] == [name] for line in aliases.read_text("latin-1").splitlines())


def known_differences(folder: Path) -> list[Case]:
    """Each one has its row in docs/internals/decisions/intl/differences-from-glibc.md."""
    install(folder, "fr_FR.utf8", "second", mo({b"a": b"utf8 a", b"b": b"utf8 b"}))
    install(folder, "fr", "", mo({b"a": b"no name"}))
    install(folder, "fr", "order", mo_falling())
    bound = f"{folder} 77"
    return [
        Case(["bind", "second", str(folder), "ask", "second", "a", "ask", "second", "b"], {"LANGUAGE": "fr_FR.UTF-8"},
             [bound, "utf8 a 77", "utf8 b 77"]),
        Case(["bind", "app", str(folder), "ask", "app", "b", "env", "LANGUAGE", "de", "ask", "app", "b"],
             {"LANGUAGE": "fr"}, [bound, "fr b 77", "de b 77"]),
        Case(["bind", "order", str(folder), "ask", "order", "a", "ask", "order", "b", "ask", "order", "c"],
             {"LANGUAGE": "fr"}, [bound, "x 77", "y 77", "z 77"]),
        *unordered_files(folder, bound),
        *[Case(["bind", "app", str(folder), "descriptors", "3", "ask", "app", "a", "descriptors", "9", "ask", "app", "a"],
               {"LANGUAGE": language}, [bound, "a 77", "fr a 77"])
          for language in ("fr", "french") if language == "fr" or has_alias(language)],
    ]


def unordered_files(folder: Path, bound: str) -> list[Case]:
    """Files as `pybabel compile` writes them: by msgid and then by context. In the last one a key is there twice."""
    cases = []
    for charset, letter, again in (("UTF-8", "é", b""), ("ISO-8859-1", "é", b""), ("SHIFT_JIS", "日", b""),
                                   ("UTF-8", "é", b"Undo")):
        domain = f"unordered-{charset}{again.decode()}"
        texts = {"File": "Fichier", "noun\4Save": letter, "Undo": "Annuler", "a\4Zoom": "zoom",
                 "file\0files": f"un\0{letter}"}
        entries = {key.encode(): text.encode(charset) for key, text in texts.items()}
        install(folder, "fr", domain, unordered(entries, UTF8.replace(b"UTF-8", charset.encode()), again))
        words = ["bind", domain, str(folder), "plural", domain, "1", "plural", domain, "2"]
        for msgid in ("File", "noun\4Save", "Undo", "a\4Zoom", "Zoom"):
            words += ["ask", domain, msgid]
        wanted = ["un", escaped(letter), "Fichier", escaped(letter), "Annuler", "zoom", "Zoom"]
        cases.append(Case(words, {"LANGUAGE": "fr"}, [bound, *(f"{text} 77" for text in wanted)]))
    return cases


def unordered(entries: Entries, header: bytes, again: bytes) -> bytes:
    """A file whose rows are in the order of the entries, and after them the key `again`, if any, once more."""
    rows = [(b"", header), *entries.items(), *([(again, b"again")] if again else [])]
    at, table, strings = 28 + 16 * len(rows), b"", b""
    for text in [*(key for key, _ in rows), *(text for _, text in rows)]:
        table += struct.pack("<II", len(text), at + len(strings))
        strings += text + b"\0"
    return struct.pack("<7I", 0x950412DE, 0, len(rows), 28, 28 + 8 * len(rows), 0, at) + table + strings


def with_words(data: bytes, words: dict[int, int]) -> bytes:
    changed = bytearray(data)
    for at, word in words.items():
        changed[at : at + 4] = struct.pack("<I", word)
    return bytes(changed)


def hashed(entries: Entries, header: bytes, table: list[int]) -> bytes:
    """The file with this hash table behind its strings."""
    data = mo(entries, header)
    data += bytes(-len(data) % 4)
    return with_words(data, {20: len(table), 24: len(data)}) + struct.pack(f"<{len(table)}I", *table)


CHARSETS = {"ISO-8859-1": "é ½", "ISO-8859-2": "łódź", "ISO-8859-15": "50 €", "KOI8-R": "привет", "CP1251": "«да»",
            "EUC-JP": "日本", "SHIFT_JIS": "日本", "GB18030": "中文", "BIG5": "中文", "ISO-2022-JP": "日本", "UTF-8": "ž “q”",
            "utf8": "é", "latin1": "é", "L1": "é", "ASCII": "plain", "US-ASCII": "é", "CHARSET": "plain", "X" * 64: "x",
            "": "é", "ISO-8859-1//IGNORE": "é", "UTF-8;": "é"}
WANTED = ("UTF-8", "ISO-8859-1", "ISO-8859-2", "ISO-8859-15", "KOI8-R", "ASCII", "EUC-JP", "latin1", "ISO-2022-JP", "",
          "ISO-8859-1//TRANSLIT", "ISO-8859-1/", "nonsense", "utf8//")


def charsets(folder: Path) -> list[Case]:
    """Catalogues in each of the charsets that GNU gettext names for PO files, wanted in each of some codesets: with bytes
    that aren't valid in them, msgids and contexts that aren't ASCII, and a message of which a single form can't be
    converted."""
    cases = []
    for number, (charset, text) in enumerate(CHARSETS.items()):
        python = charset.split("/")[0].rstrip(";") or "UTF-8"
        known = python not in ("CHARSET", "X" * 64, "ASCII", "US-ASCII")
        encoded = text.encode(python if known else "UTF-8")
        header = UTF8.replace(b"UTF-8", charset.encode())
        entries = {b"a": encoded, b"bad": b"x\xff\xfey", b"menu\4file": encoded + b"!", b"empty": b"",
                   b"file\0files": b"one\0" + encoded, encoded: b"by " + encoded}
        install(folder, "fr", f"charset{number}", mo(entries, header))
        install(folder, "de", f"charset{number}", mo({b"bad": b"good", b"a": b"de a"}))
        msgid = os.fsdecode(encoded)
        words = ["bind", f"charset{number}", str(folder)]
        for asked in ("a", "bad", "menu\4file", "empty", msgid, "none", ""):
            words += ["ask", f"charset{number}", asked]
        for n in ("0", "1", "2"):
            words += ["plural", f"charset{number}", n]
        for codeset in WANTED:
            cases.append(Case(["codeset", f"charset{number}", codeset, *words], {"LANGUAGE": "fr:de"}))
        cases.append(Case(words, {"LANGUAGE": "fr:de", "LC_ALL": "fr_FR.ISO-8859-1"}))
    return cases


SINGLE_BYTE = [*(f"ISO-8859-{n}" for n in (1, 2, 3, 4, 5, 6, 7, 8, 9, 13, 14, 15, 16)), "KOI8-R", "KOI8-U", "KOI8-T", "TIS-620",
               *(f"CP{n}" for n in (850, 866, 874, 1250, 1251, 1252, 1253, 1254, 1255, 1256, 1257, 1258)), "l2", "cyrillic"]


def byte_texts(charset: str) -> Entries:
    """A message for each byte from 0x80 on that is a character."""
    found = {}
    for byte in range(0x80, 0x100):
        try:
            bytes([byte]).decode(charset)
        except UnicodeDecodeError:
            continue
        found[b"%02x" % byte] = bytes([byte])
    return found


def single_bytes(folder: Path) -> list[Case]:
    """Each byte of the charsets that libkobdzila decodes, wanted in UTF-8, in the catalogue's charset and in another. Then
    without a file descriptor for a module of iconv(3): a program in UTF-8 needs none."""
    cases = []
    for charset in SINGLE_BYTE:
        entries, domain = byte_texts(charset), f"bytes-{charset}"
        header = UTF8.replace(b"UTF-8", charset.encode()) + b"X-Team: " + min(entries.values()) + b"\n"
        install(folder, "fr", domain, mo(entries | {b"file\0files": b"one\0" + max(entries.values())}, header))
        words = ["bind", domain, str(folder)]
        for msgid in (*entries, b"", b"file"):
            words += ["ask", domain, msgid.decode()]
        words += ["plural", domain, "1", "plural", domain, "2"] * 2
        cases += [Case(["codeset", domain, codeset, *words], {"LANGUAGE": "fr"})
                  for codeset in ("UTF-8", charset, "ISO-8859-1", "KOI8-R", "EUC-JP")]
        cases.append(Case(words, {"LANGUAGE": "fr", "OUTPUT_CHARSET": charset}))
        if charset not in ("CP1255", "CP1258", "TIS-620"):  # (Python's TIS-620 has bytes that iconv's hasn't)
            byte = max(entries)
            cases.append(Case(["bind", domain, str(folder), "ask", domain, "none", "descriptors", "3", "ask", domain,
                               byte.decode()], {"LANGUAGE": "fr"},
                              [f"{folder} 77", "none 77", escaped(entries[byte].decode(charset)) + " 77"]))
    return cases


SEVERAL_BYTES = ("EUC-JP", "EUC-KR", "BIG5", "GB2312", "GBK")
# Bytes of BIG5 whose code points other bytes also have.
DOUBLES = [b"\xa2\xcc", b"\xa2\xce", b"\xf9\xe9", b"\xf9\xf9", b"\xf9\xfd"]


def iconv(text: bytes, *options: str) -> bytes:
    return subprocess.run(["iconv", *options], input=text, capture_output=True, check=False).stdout


def several_bytes(folder: Path) -> list[Case]:
    """All characters of the charsets of several bytes that libkobdzila decodes, wanted in UTF-8, in the catalogue's charset
    and in others; and a catalogue with a character that is cut off."""
    cases = []
    every = "".join(chr(c) for c in range(0xA0, 0x10000) if not 0xD800 <= c < 0xE000).encode()
    for charset in SEVERAL_BYTES:
        text = iconv(iconv(every, "-c", "-f", "UTF-8", "-t", charset), "-f", charset, "-t", "UTF-8").decode()
        lines = "\n".join(text[i:i + 200] for i in range(0, len(text), 200)).encode()
        texts = iconv(lines, "-f", "UTF-8", "-t", charset).split(b"\n") + (DOUBLES if charset == "BIG5" else [])
        entries = {b"%d" % number: line for number, line in enumerate(texts)}
        header = UTF8.replace(b"UTF-8", charset.encode())
        install(folder, "fr", f"wide-{charset}", mo(entries, header))
        install(folder, "fr", f"cut-{charset}", mo({b"0": texts[0], b"1": texts[0] + texts[0][:1]}, header))
        for domain, asked in ((f"wide-{charset}", entries), (f"cut-{charset}", {b"0": b"", b"1": b""})):
            words = ["bind", domain, str(folder)]
            for msgid in (*asked, b""):
                words += ["ask", domain, msgid.decode()]
            cases += [Case(["codeset", domain, codeset, *words], {"LANGUAGE": "fr"})
                      for codeset in ("UTF-8", charset, "EUC-JP", "GB18030")]
    return cases


def escaped(text: str) -> str:
    """As ask_gettext.c prints it."""
    return "".join(f"\\x{byte:02x}" for byte in text.encode())


def system_charsets(folder: Path) -> list[Case]:
    """A file of minor revision 1 in Latin-1, and one in UTF-8, wanted in other codesets. Its parts are all of <inttypes.h>;
    one message has an unknown part, which no system has a value for, and one is there without parts as well."""
    names = [f"PRI{letter}{size}" for letter in "dioxuX" for size in ("8", "16", "32", "64", "LEAST8", "LEAST16", "LEAST32",
             "LEAST64", "FAST8", "FAST16", "FAST32", "FAST64", "MAX", "PTR")] + ["I", "PRIq8", "PRI", "PRId65"]
    cases = []
    for domain, charset, accent in (("sys1", b"ISO-8859-1", b"\xe9"), ("sys8", b"UTF-8", "é".encode())):
        header = UTF8.replace(b"UTF-8", charset)
        strings = [([b"%", name, b" of\0"], [b"taille ", accent, b" %", name, b"\0"]) for name in names]
        strings += [([b"both\0"], [b"with parts\0"]), ([b"%", "PRIu64", b" file\0%", "PRIu64", b" files\0"],
                                                      [b"un\0%", "PRIu64", b" deux\0"])]
        install(folder, "fr", domain, mo_with_parts({b"": header, b"both": b"alone", b"a": accent}, names, strings))
        asked = [f"%{d} of" for d in ("hhd", "hd", "d", "ld", "hhi", "li", "lo", "lu", "lx", "lX", "u", "I", "PRIq8", "")]
        words = ["bind", domain, str(folder)]
        for msgid in (*asked, "both", "a", "none", "%lu file"):
            words += ["ask", domain, msgid]
        cases += [Case(["codeset", domain, codeset, *words], {"LANGUAGE": "fr"}) for codeset in WANTED]
    return cases


def hash_string(text: bytes) -> int:
    """hashpjw, as the GNU C library's hash tables have it (glibc, include/hash-string.h)."""
    value = 0
    for byte in text:
        value = (value << 4) + byte
        value ^= value >> 24 & 0xF0
        value &= 0x0FFFFFFF
    return value


def mo_with_parts(static: Entries, names: list[str], strings: list[tuple[list[bytes | str], list[bytes | str]]]) -> bytes:
    """An MO file of revision 0.1 whose strings have parts: bytes, and names of system-dependent segments."""
    pairs, size = sorted(static), 997
    table = [0] * size
    for number, key in enumerate(pairs):
        value = hash_string(key)
        at, step = value % size, 1 + value % (size - 2)
        while table[at]:
            at = (at + step) % size
        table[at] = number + 1
    at = 48 + 16 * len(pairs)
    descriptors, body = b"", b""
    for text in [*pairs, *(static[key] for key in pairs)]:
        descriptors += struct.pack("<II", len(text), at + len(body))
        body += text + b"\0"
    body += bytes(-len(body) % 4)
    hashed_at = at + len(body)
    body += struct.pack(f"<{size}I", *table)
    name_at = {}
    for name in dict.fromkeys(names):
        name_at[name] = at + len(body)
        body += name.encode() + b"\0"
    body += bytes(-len(body) % 4)
    names_at = at + len(body)
    body += b"".join(struct.pack("<II", len(name) + 1, name_at[name]) for name in names)
    places: tuple[list[int], list[int]] = ([], [])
    for pair in strings:
        for side, parts in zip(places, pair):
            texts_at = at + len(body)
            body += b"".join(part for part in parts if isinstance(part, bytes))
            body += bytes(-len(body) % 4)
            side.append(at + len(body))
            body += struct.pack("<I", texts_at) + segments(parts, names)
    tables_at = at + len(body)
    body += struct.pack(f"<{2 * len(strings)}I", *places[0], *places[1])
    words = (0x950412DE, 1, len(pairs), 48, 48 + 8 * len(pairs), size, hashed_at, len(names), names_at, len(strings),
             tables_at, tables_at + 4 * len(strings))
    return struct.pack("<12I", *words) + descriptors + body


def segments(parts: list[bytes | str], names: list[str]) -> bytes:
    pairs, length = b"", 0
    for part in parts:
        if isinstance(part, bytes):
            length += len(part)
        else:
            pairs += struct.pack("<II", length, names.index(part))
            length = 0
    return pairs + struct.pack("<II", length, 0xFFFFFFFF)


def hostile_files(folder: Path) -> list[Case]:
    """Files for which the C library reads outside of the file, searches without end or ends by a signal. Some of them are
    no catalogues; of others the hash table isn't used, or the plural rule is none."""
    latin = UTF8.replace(b"UTF-8", b"ISO-8859-1")
    entries = {b"a": b"b", b"c": b"d", b"file\0files": b"one\0two"}
    far = 0x7FFFFFF0
    files = {
        "originals": with_words(mo(entries), {12: far}), "translations": with_words(mo(entries), {16: far}),
        "string": with_words(mo(entries), {32: far}), "count": with_words(mo(entries), {8: far}),
        "cut": mo(entries)[:70], "no_nul": mo(entries).replace(b"b\0", b"bb"),
        "revision": with_words(mo(entries), {4: 1, 20: 3, 24: far}),
        "system": with_words(mo(entries), {4: 1, 20: 3, 24: 0, 28: 5, 32: far, 36: 5, 40: far, 44: far}),
        "name": mo(entries, UTF8.replace(b"UTF-8", b"X" * 20_000_000)),
        "name_65": mo(entries, UTF8.replace(b"UTF-8", b"X" * 65)), "latin_far": with_words(mo(entries, latin), {12: far}),
    }
    # (also: a UTF-8 file that is wanted in another codeset, and one whose parts are a million)
    served = {
        f"{name}_{kind}": data for kind, header in (("latin", latin), ("utf8", UTF8)) for name, data in {
            "hash_table": with_words(mo(entries, header), {20: 101, 24: far}),
            "full": hashed(entries, header, [1, 2, 3, 1, 2]), "even": hashed(entries, header, [0, 1, 2, 3]),
            "place": hashed(entries, header, [0, 900000, 900000, 900000, 900000]),
            "terms": mo(entries, header.replace(b"plural=n>1", b"plural=n" + b"+n" * 400_000)),
            "depth": mo(entries, header.replace(b"plural=n>1", b"plural=" + b"(" * 200_000 + b"n" + b")" * 200_000)),
            "marks": mo(entries, header.replace(b"plural=n>1", b"plural=" + b"!" * 900_000 + b"n")),
            "divided": mo(entries, header.replace(b"plural=n>1", b"plural=n/0")),
            "remainder": mo(entries, header.replace(b"plural=n>1", b"plural=n%(n-n)")),
            "parts": mo_with_parts({b"": header, **entries}, ["PRIu64"] * 1_000_000, []),
        }.items()
    }
    first_form = ("divided", "remainder")
    cases = []
    for domain, data in (files | served).items():
        install(folder, "fr", domain, data)
        install(folder, "de", domain, mo({b"a": b"de a"}))
        install(folder, "pl", domain, mo({b"a": "pl é".encode()}, latin))
        words, bound = ["bind", domain, str(folder), "ask", domain, "a", "ask", domain, "missing"], f"{folder} 77"
        is_served, latin_locale = domain in served, {"LANGUAGE": "fr", "LC_ALL": "fr_FR.ISO-8859-1"}
        # (in the charset ISO-8859-1 the text of `pl` is `pl Ã©`)
        answers = (("fr", "a"), ("fr:de", "de a"), ("fr:pl:de", "pl \\xc3\\x83\\xc2\\xa9"))
        for language, answer in answers:
            cases.append(Case(words, {"LANGUAGE": language}, [bound, f"{'b' if is_served else answer} 77", "missing 77"]))
        plural = "files" if not is_served else "one" if domain.split("_")[0] in first_form else "two"
        cases.append(Case([*words, "plural", domain, "2"], latin_locale,
                          [bound, "b 77" if is_served else "a 77", "missing 77", f"{plural} 77"]))
    (folder / "fr/LC_MESSAGES/large.mo").write_bytes(mo(entries))
    os.truncate(folder / "fr/LC_MESSAGES/large.mo", 268_435_457)
    cases.append(Case(["bind", "large", str(folder), "ask", "large", "a"], {"LANGUAGE": "fr"}, [f"{folder} 77", "a 77"]))
    return cases


def mutated_files(folder: Path) -> list[Case]:
    """Files that go on to the C library, with some words and bytes changed: each question must come back. The files are
    whole pages, so that no memory lies behind their last byte."""
    chance, cases = random.Random(2), []
    latin, entries = UTF8.replace(b"UTF-8", b"ISO-8859-1"), {b"a": b"b", b"c": "dé".encode(), b"e\0f": b"g\0h"}
    bases = [hashed(entries, latin, [0, 3, 1, 0, 2]), mo(entries, latin), mo(entries, UTF8.replace(b"UTF-8", b"ASCII"))]
    system = folder / "fr/LC_MESSAGES/system.mo"
    if system.exists():
        bases += [system.read_bytes()] * 3
    for number in range(20):
        words: list[str] = []
        for each in range(100):
            base = bases[each % len(bases)]
            data = bytearray(bytes(-len(base) % 4096) if each % 2 else b"")
            data = bytearray(base) + data
            for _ in range(chance.randint(1, 3)):
                at = chance.randrange(min(len(base), 400)) & ~3
                old = struct.unpack_from("<I", data, at)[0] if at + 4 <= len(data) else 0
                new = chance.choice((0, 1, 2, 3, 5, 7, len(base), len(data), len(data) - 4, 0xFFFFFFFF, 0x7FFFFFFF,
                                     old + 4, old ^ 1))
                data[at : at + 4] = struct.pack("<I", new & 0xFFFFFFFF)
            domain = f"m{number}_{each}"
            install(folder, "fr", domain, bytes(data[: len(data) & ~4095 if each % 2 else len(data)]))
            words += ["bind", domain, str(folder), "ask", domain, "size %lu", "ask", domain, "a", "plural", domain, "2"]
        cases.append(Case([*words, "ask", "none", "the end"], {"LANGUAGE": "fr"}))
    return cases


def mo_falling() -> bytes:
    """Keys that don't rise: a binary search finds none but the one in the middle."""
    data = bytearray(mo({b"a": b"x", b"b": b"y", b"c": b"z"}, None))
    data[28:36], data[44:52] = data[44:52], data[28:36]
    data[52:60], data[68:76] = data[68:76], data[52:60]
    return bytes(data)


def main() -> None:
    room = Path(sys.argv[1])
    comparing = Comparing(room, sys.argv[2], sys.argv[3], sys.argv[4] if len(sys.argv) > 4 else None)
    folder = room / "messages"
    folder.mkdir()
    parts = (spelled_cases, odd_names, lists, domains, plurals, codesets, threads, changes, replaced_files, other_files,
             system_strings, charsets, single_bytes, several_bytes, system_charsets, known_differences, hostile_files)
    for part in parts:
        for case in part(folder):
            comparing.compare(case)
    for case in mutated_files(folder):
        said = comparing.run(case, True)
        if said[-2:] != ["the end 77", "status 0"]:
            print(f"wrong: a file that was mutated for the C library: {said[-3:]}")
            comparing.wrong += 1
        comparing.look_closely(case, said)
    print(f"{comparing.compared} answers as the C library's, {comparing.own} as documented, {comparing.wrong} wrong")


if __name__ == "__main__":
    main()
