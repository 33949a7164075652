#!/usr/bin/env python3
"""Compares what the documents, the man pages, the completions and the help say of kinds, numbers, texts, options and
limits with the code. Prints a line `ok documents: NAME` or `FAILED documents: NAME: WHY` for each rule.

    tests/project/documents.py [FOLDER [MSGFMT [CATSESSION]]]

FOLDER is the top of the repository. MSGFMT and CATSESSION are the built programs, whose help is then looked at as well.
"""
import argparse
import gzip
import importlib
import re
import subprocess
import sys
import types
from pathlib import Path

from document_programs import (
    COMPLETION, DRIVER_PAGE, TROUBLES, completed, options_in, options_of_programs_in_c, options_of_the_driver,
    reasons_of_the_driver, texts_of_programs_in_c, variables_of_the_environment, warnings_of_the_driver)
from document_text import (
    TOP, anchors, boxes_outside, differences, links, page, pages, paragraphs, plain, read, rows, section)

PROGRAM = sys.argv[2] if len(sys.argv) > 2 else None
SESSION = sys.argv[3] if len(sys.argv) > 3 else None
PO = "docs/reference/po.md"
HEADERS = "docs/reference/headers.md"
MO = "docs/reference/mo.md"
LOOK_UPS = "docs/reference/look-ups.md"
COMMAND = "docs/reference/msgfmt.md"
SCRIPT_PAGE = "docs/reference/scripts.md"
ARCHITECTURE = "docs/internals/architecture.md"
CRATES = "docs/internals/crates/*.md"
MSGFMT_PAGE = "docs/man/msgfmt.1"
CATSERVE_PAGE = "docs/man/catserve.1"
SESSION_PAGE = "docs/man/catsession.1"
LIBRARY_PAGES = sorted(str(path.relative_to(TOP)) for path in TOP.glob("docs/man/*.3"))
DECISIONS = "docs/internals/decisions/README.md"
MIGRATING = "docs/guide/migrating.md"
HEADER = "include/kobdzila.h"
MANUAL = Path("/usr/share/info/gettext.info.gz")  # of GNU gettext, in Debian's package of that name
LEAST_LIMIT = 20_000_000  # a number of the documents from here on is one of the limits


def variants(path, enum):
    """The variants of an enum of faults: each name with its text, which is an attribute or the arm of a match."""
    code = read(path)
    body = re.search(rf"pub enum {enum} \{{(.*?)^\}}", code, re.M | re.S)[1]
    if found := re.findall(r'#\[error\("([^"]*)"\)\]\s*(\w+)', body):
        return found
    arms = re.findall(rf'^\s*{enum}::(\w+)(\(_\))? => "([^"]*)",$', code, re.M)
    texts = {name: text + (" {0}" if field else "") for name, field, text in arms}
    return [(texts.get(name, ""), name) for name in re.findall(r"^\s*(\w+)(?:\(\w+\))?,$", body, re.M)]


def kinds(path, enum):
    """The variants with their numbers, from 1, without running out of memory: {number: (name, text)}."""
    found = [(name, text) for text, name in variants(path, enum) if name != "Memory"]
    return dict(enumerate(found, 1))


LOADS = ("crates/po_checks/src/fault.rt", "LoadKind")
RECODED = ("crates/any_charset/src/fault.rt", "TextFault")
WRITTEN = ("crates/dependent_files/src/fault.rt", "FileFault")
TEXTS = ("crates/po_text/src/fault.rt", "PoKind")
FILES = ("crates/mo_file/src/fault.rt", "MoFault")
DEPENDENT = ("crates/mo_segments/src/fault.rt", "DependentFault")
REVISED = ("crates/mo_revisions/src/fault.rt", "AnyMoFault")
RECODED_FILE = ("crates/mo_charsets/src/fault.rt", "RecodedFault")
SCRIPTS = ("crates/script_text/src/fault.rt", "ScriptKind")


def numbered(text):
    """The rows of a table of refusals: each number with its kind, in the order of the page, each once."""
    found = [(int(row[0]), row[1].split("(")[0]) for row in rows(text) if row[0].strip().isdigit()]
    return list(dict.fromkeys(found))


def kinds_of_texts():
    """the kinds of refusal of a PO text, with their numbers"""
    wanted = [(number, name) for number, (name, _) in kinds(*LOADS).items()]
    here = numbered(section(PO, "Refusals of a text")) + numbered(section(PO, "What compile keeps and refuses"))
    first = [(number, name) for number, (name, _) in kinds(*TEXTS).items()]
    return differences(PO, here, wanted) + differences(TEXTS[0], wanted[: len(first)], first)


def kinds_of_files():
    """the kinds of refusal of an MO file, with their numbers"""
    wanted = [(number, name) for number, (name, _) in kinds(*FILES).items()]
    return differences(MO, numbered(section(MO, "The file that is read")), wanted)


def kinds_of_scripts():
    """the kinds of fault of a script, with their numbers and texts"""
    wanted = {number: text for number, (_, text) in kinds(*SCRIPTS).items()}
    wanted[len(wanted) + 1] = dict((name, text) for text, name in variants(*SCRIPTS))["Memory"]
    table = [row for row in rows(section(SCRIPT_PAGE, "Scripts of loads and look-ups")) if row[0].isdigit()]
    found = {int(row[k]): row[k + 1] for row in table for k in range(0, len(row) - 1, 2) if row[k].isdigit()}
    missing = [f"{number} {text}" for number, text in wanted.items() if not says(page(CATSERVE_PAGE), number, text)]
    return differences(SCRIPT_PAGE, found, wanted) + ([f"{CATSERVE_PAGE} has not: {missing}"] if missing else [])


def texts_of_trouble():
    """the page of troubles has each text of msgfmt, of a session and of the library"""
    texts = {re.sub(r" \{.*", "", text) for _, text in kinds(*LOADS).values()}
    command = read(COMMAND)
    texts |= set(re.findall(r"`msgfmt: (no input file given|bad command line|out of memory)`", command))
    library = read("c/library/kobdzila.c").partition("const char *kob_fault_text(")[2].partition("\n}")[0]
    texts |= set(re.findall(r'"([^"]*)"', library)) - {"no fault", "unknown fault"}
    page = read(TROUBLES)
    missing = sorted(it for it in texts if f"`{it}" not in page)
    return [f"{TROUBLES} has not: {missing}"] if missing else []


def says(text, number, words):
    """A page has this number with these words, in a list or a table."""
    return re.search(rf"(?<![\w,]){number}[ ;:]\s*{re.escape(words)}", text) is not None


def texts_of_kinds():
    """the texts of the kinds of refusal"""
    wanted = {name: re.sub(r"\{0\}", "N", text) for name, text in kinds(*LOADS).values()}
    found = {}
    for row in rows(section(COMMAND, "Its steps")):
        for name, text in zip(row[::2], row[1::2]):
            if text.startswith("`"):
                found[name.split("(")[0]] = text.strip("`")
    first = dict(kinds(*TEXTS).values())
    return differences(COMMAND, found, wanted) + differences(TEXTS[0], first, {name: wanted[name] for name in first})


def faults_of_the_header():
    """the faults of the C library, with their numbers and texts"""
    wanted = {}
    for front, first, faults in (("MO", 0, kinds(*FILES)), ("PO", 100, kinds(*LOADS))):
        for number, (name, text) in faults.items():
            constant = re.sub(r"(?<!^)(?=[A-Z])", "_", name.split("(")[0]).upper().replace("U_T_F", "UTF")
            wanted[f"KOB_{front}_{constant}"] = (first + number, re.sub(r" at \{0\}", "", text))
    revised = [("Tables", dict((name, text) for text, name in variants(*REVISED))["Tables"]), *kinds(*DEPENDENT).values()]
    code = read("crates/c_answers/src/numbers.rt")
    numbers = {name: int(number) for name, number in re.findall(r" (DEPENDENT_\w+): u32 = (\d+);", code)}
    for name, text in revised:
        constant = "DEPENDENT_" + re.sub(r"(?<!^)(?=[A-Z])", "_", name).upper()
        wanted[f"KOB_MO_{constant}"] = (numbers[constant], text)
    text = next(text for text, name in variants(*RECODED) if name == "NoCharacter")
    number = re.search(r" NO_CHARACTER: u32 = (\d+);", code)[1]
    wanted["KOB_PO_NO_CHARACTER"] = (int(number), text.removeprefix("line {0}: "))
    text = next(text for text, name in variants(*WRITTEN) if name == "NotReadBack")
    wanted["KOB_PO_NOT_READ_BACK"] = (int(re.search(r" NOT_READ_BACK: u32 = (\d+);", code)[1]), text)
    text = next(text for text, name in variants(*RECODED_FILE) if name == "NoCharacter")
    wanted["KOB_MO_NO_CHARACTER"] = (int(re.search(r"MO_NO_CHARACTER: u32 = (\d+);", code)[1]), text)
    found = {name: int(number) for name, number in re.findall(r"(KOB_[MP]O_\w+) = (\d+)", read(HEADER))}
    lists = re.findall(r"const (?:mo|po)\[\] = \{(.*?)\};", read("c/library/kobdzila.c"), re.S)
    texts = [text for words in lists for text in re.findall(r'"([^"]*)"', words)]
    texts += re.findall(r'case KOB_[MP]O_\w+: return "([^"]*)"', read("c/library/kobdzila.c"))
    told = [text for _, text in sorted(wanted.values())]
    return differences(HEADER, found, {name: number for name, (number, _) in wanted.items()}) + differences(
        "c/library/kobdzila.c", [text for text in texts if text not in ("no fault", "out of memory")], told)


def functions_of_the_library():
    """the functions of the C library: header, man page whose synopsis has each, version script; no page names others"""
    code = re.sub(r"/\*.*?\*/", " ", read(HEADER), flags=re.S)
    wanted = set(re.findall(r"\b(kob_\w+)\(", code))
    synopsis, text = ("".join(parts) for parts in zip(*(read(name).split(".SH DESCRIPTION") for name in LIBRARY_PAGES)))
    described = {it for it in re.findall(r"\bkob_\w+", text) if it in wanted}
    # (the look-ups in a set are described as those in a catalogue)
    described |= {it for it in wanted if it.startswith("kob_set_") and it.replace("_set_", "_") in described}
    listed = set(re.findall(r"^    (kob_\w+);", read("c/library/kobdzila.map"), re.M))
    named = {it for path in pages() for it in re.findall(r"\bkob_\w+", path.read_text(encoding="utf-8"))}
    strange = sorted(named - set(re.findall(r"\bkob_\w+", read(HEADER) + read("examples/cmake/KobCompile.cmake"))))
    return (differences("docs/man, the synopses", sorted(re.findall(r"(kob_\w+)\(", synopsis)), sorted(wanted))
            + differences("docs/man", described, wanted) + differences("c/library/kobdzila.map", listed, wanted)
            + [f"{HEADER} has no {it}" for it in strange])


def keyword(name, first):
    """The option of xgettext for a call: its name, and the numbers of its context, msgid and plural from the first."""
    letters = re.search(r"([np]*)gettext$", name)[1]
    numbers = [f"{first}c", str(first + 1)] if "p" in letters else [str(first)]
    numbers += [str(first + len(numbers))] if "n" in letters else []
    return f"-k{name}" + (f":{','.join(numbers)}" if numbers != ["1"] else "")


def keywords_of_xgettext():
    """the guide has the option of xgettext for each call with a msgid: those of C by the header, and Python's"""
    code = re.sub(r"/\*.*?\*/", " ", read(HEADER), flags=re.S)
    calls = re.findall(r"\b(kob_\w*gettext)\(([^;]*?)\b(?:context|msgid)\b", code)
    wanted = {keyword(name, before.count(",") + 1) for name, before in calls}
    names = re.findall(r'^    "((?:d|lazy_)?[np]*gettext)",$', read("python/src/kobdzila/__init__.py"), re.M)
    known = {"gettext", "ngettext", "dgettext", "dngettext"}  # by xgettext
    wanted |= {keyword(name, 2 if name.startswith("d") else 1) for name in names if name not in known}
    found = set(re.findall(r"-k\w+[:\w,]*", section(MIGRATING, "Extracting messages"))) - {"-k_", "-kN_"}
    return differences(MIGRATING, found, wanted)


def parser_of_the_fleet():
    """The parser of kob-fleet, without the package around it, which needs its extension."""
    for name in ("kobdzila", "kobdzila.fleet"):
        sys.modules[name] = types.ModuleType(name)
        sys.modules[name].__path__ = [str(TOP / "python/src" / name.replace(".", "/"))]
    sys.modules["kobdzila._kobdzila"] = types.SimpleNamespace(version="")
    return importlib.import_module("kobdzila.fleet._command").parser()


def options_of_the_fleet():
    """the commands and options of kob-fleet: code, completions"""
    parser = parser_of_the_fleet()
    commands = next(it.choices for it in parser._actions if isinstance(it, argparse._SubParsersAction))
    listed = set(re.findall(r"^kob-fleet (\w+):", read(COMPLETION), re.M))
    found = differences(f"{COMPLETION}, the commands of kob-fleet", listed, set(commands))
    for name, own in {"kob-fleet": parser, **{f"kob-fleet {it}": commands[it] for it in commands if it in listed}}.items():
        for with_value in (False, True):
            wanted = {option for it in own._actions for option in it.option_strings if it.nargs != 0 or not with_value}
            found += differences(f"{COMPLETION}, {name}", completed(name, with_value), wanted)
    return found


def lines_of_the_command():
    """the lines of the error output"""
    source = read("crates/msgfmt_steps/src/texts.rt") + read("crates/msgfmt_steps/src/steps.rt")
    lines = {re.sub(r" \{\w+\}", "", text) for text in re.findall(r'"(msgfmt: [^"]*)"', source)}
    here = " ".join(read(COMMAND).split())
    found = {re.sub(r" (NAME|FILE|-)$", "", text) for text in re.findall(r"`(msgfmt: [^`]*)`", here)}
    warning = re.search(r"(warning: header field '\{field\}' missing)", source)[1].replace("{field}", "FIELD")
    lacking = [name for name, text in ((COMMAND, here), (MSGFMT_PAGE, page(MSGFMT_PAGE))) if warning not in text]
    return differences(COMMAND, found, lines) + [f"{name} has not: {warning}" for name in lacking]


def tabs_of_pages():
    """after a table, which has tab stops of its own, a man page restores the usual ones before an example with tabs"""
    wrong = []
    for path in sorted(TOP.glob("docs/man/*")):
        before, *examples = re.split(r"^\.EX$", path.read_text(encoding="utf-8"), flags=re.M)
        for example in examples:
            if "\n.TE\n" in before and "\n.DT\n" not in before and "\t" in example.partition("\n.EE\n")[0]:
                wrong.append(f"{path.name}: no .DT before an example with tabs")
            before += example
    return wrong


def fields_of_a_header():
    """the fields that a header is expected to have"""
    names = re.search(r"FIELD_NAMES.*?=(.*?);", read("crates/po_header/src/fields.rt"), re.S)[1]
    wanted = re.findall(r'"([\w-]+)"', names)
    listed = re.search(r"expected to have are, in this order:(.*?)\.\n", read(HEADERS), re.S)[1]
    return differences(HEADERS, re.findall(r"`([\w-]+)`", listed), wanted)


def parts_of_the_manual():
    """what the reference cites of the GNU gettext manual for a format is the part about its flag"""
    if not MANUAL.exists():
        return []
    manual = gzip.decompress(MANUAL.read_bytes()).decode()
    titles = dict(re.findall(r"^File: .*Node: ([a-z-]+-format),.*\n\n[\d.]+ (.+)$", manual, re.M))
    cited = [(row[0].strip("`"), row[4].strip('"')) for row in rows(read("docs/reference/formats.md")) if len(row) > 4]
    for path in sorted(TOP.glob("docs/reference/*.md")):
        text = " ".join(path.read_text(encoding="utf-8").split())
        cited += re.findall(r'A text flagged `([\w-]+)` .{,150}?GNU gettext manual, "([^"]+)"', text)
    return [f"{flag} has {titles[flag]!r} and not {it!r}" for flag, it in cited if it != titles.get(flag, it)]


def options_of_the_code():
    """The options: their long names with their letters, and help's."""
    source = read("crates/msgfmt_words/src/words.rt")
    found = {name: letter for name, letter in re.findall(r'letter_flag\(\s*alloc,\s*"([\w-]+)",\s*\'(\w)\'', source)}
    found |= {name: "" for name in re.findall(r'(?<!letter_)flag\(\s*alloc,\s*"([\w-]+)"', source)}
    found |= {name: letter for letter, name in re.findall(r"\.short\('(\w)'\)\s*\.long\(\"([\w-]+)\"\)", source)}
    return {f"--{name}" for name in found} | {f"-{letter}" for letter in found.values() if letter} | {"--help", "-h"}


def help_of(program):
    return subprocess.run([program, "--help"], capture_output=True, text=True, check=False).stdout


def options():
    """the options of msgfmt: rules, man page, completions, help"""
    wanted = options_of_the_code()
    usage = re.search(r"((?:^    .*\n)+)", read(COMMAND), re.M)[1]
    manual = re.search(r"^\.SH OPTIONS\n(.*?)^\.PP\nOptions may", read(MSGFMT_PAGE), re.M | re.S)[1].replace("\\-", "-")
    heads = " ".join(re.findall(r"^\.TP\n\.BR? (.*)$", manual, re.M))
    found = [(COMMAND, usage), (MSGFMT_PAGE, heads), (COMPLETION, " ".join(completed("msgfmt")))]
    if PROGRAM:
        found.append(("the help", " ".join(re.findall(r"^ +(-.*?)(?:  |$)", help_of(PROGRAM), re.M))))
    short = re.search(r"^\.SH SYNOPSIS\n(.*?)^\.SH", read(MSGFMT_PAGE), re.M | re.S)[1].replace("\\-", "-")
    strange = sorted(options_in(short) - wanted)
    return [why for name, text in found for why in differences(name, options_in(text), wanted)] + (
        [f"{MSGFMT_PAGE}, its synopsis: {strange}"] if strange else []
    )


def usage_of_a_session():
    """The options of catsession, as its section shows them."""
    return options_in(re.search(r"((?:^    .*\n)+)", section(SCRIPT_PAGE, "A session"), re.M)[1])


def options_of_a_session():
    """the options of catsession: rules, man page, completions, help"""
    wanted, manual = usage_of_a_session(), read(SESSION_PAGE).replace("\\-", "-")
    short = re.search(r"^\.SH SYNOPSIS\n(.*?)^\.SH", manual, re.M | re.S)[1]
    heads = " ".join(re.findall(r"^\.TP\n\.BI?R? (.*)$", manual.split(".SH EXIT")[0], re.M))
    found = [(f"{SESSION_PAGE}, its synopsis", short), (SESSION_PAGE, heads),
             (COMPLETION, " ".join(completed("catsession")))]
    if SESSION:
        found.append(("the help of catsession", help_of(SESSION)))
    if named := re.findall(r'"(--?[A-Za-z]+)"', code_of_a_session()):
        found.append(("the code of catsession", " ".join(named)))
    return [why for name, text in found for why in differences(name, options_in(text), wanted)]


def code_of_a_session():
    """All code of the crate catsession, without its tests."""
    files = sorted((TOP / "crates/catsession/src").glob("*.rt"))
    return "\n".join(path.read_text(encoding="utf-8") for path in files if path.name != "tests.rt")


def faults_of_a_session():
    """the texts of the faults of catsession"""
    table = rows(section(SCRIPT_PAGE, "A session"))
    texts = {cell.strip("`") for row in table for cell in row if cell.startswith("`")}
    manual = re.search(r"^\.TS\n.*?^\.TE$", read(SESSION_PAGE).replace("\\-", "-"), re.M | re.S)[0]
    here = {line.split(";")[0] for line in manual.splitlines()[3:-1]}
    words = {"a word is not UTF-8", "unknown word WORD", "--workers takes a number from 1 to 16"}
    numbers = len(kinds(*SCRIPTS)) + 1
    code = code_of_a_session()
    pages = {SCRIPT_PAGE: " ".join(section(SCRIPT_PAGE, "A session").split()), SESSION_PAGE: page(SESSION_PAGE)}
    return (
        differences(SESSION_PAGE, here, texts)
        + ([f"{SCRIPT_PAGE}: {len(texts)} texts, and {numbers} kinds of fault"] if len(texts) != numbers else [])
        + [f"{name} has not: {text}" for name, said in pages.items() for text in sorted(words) if text not in said]
        + [f"the code has not: {text}" for text in sorted(texts | words)
           if code and text.removesuffix(" WORD") not in code]
    )


def words_of_scripts():
    """the words that begin a line of a script"""
    wanted = set(re.findall(r'^\s*"(\w+)" => (?:read_\w+\(|\{)', read("crates/script_text/src/command.rt"), re.M))
    wanted -= {"gettext", "pgettext", "ngettext", "npgettext"}
    table = rows(section(SCRIPT_PAGE, "Scripts of loads and look-ups"))
    found = {row[0].split("`")[1] for row in table if row[0].startswith("`")}
    manual = set(re.findall(r"^\.TP\n\.B (\w+)", read(CATSERVE_PAGE).split(".SH EXIT")[0], re.M))
    return differences(SCRIPT_PAGE, found, wanted) + differences(CATSERVE_PAGE, manual, wanted)


def constant(path, name):
    return int(re.search(rf"const {name}: \w+ = ([\d_]+);", read(path))[1].replace("_", ""))


def limits():
    """the limits"""
    text = constant("crates/po_text/src/open.rt", "MAX_TEXT")
    file = constant("crates/mo_image/src/layout.rt", "MAX_LEN")
    rule = constant("crates/po_header/src/lib.rt", "EXPRESSION_LIMIT")
    name = constant("crates/live_set/src/name.rt", "NAME_LIMIT")
    readers = constant("crates/live_versions/src/store.rt", "MOST_READERS")
    workers = constant("crates/script_text/src/field.rt", "MOST_WORKERS")
    places = (
        (PO, f"A text has at most {text:,} bytes"),
        (COMMAND, f"INPUT is read, at most {text + 1:,} bytes of it"),
        (SCRIPT_PAGE, f"A script is UTF-8, has at most {text:,} bytes"),
        (MO, f"and it has at most {file:,} bytes"),
        (HEADERS, f"and has at most {rule:,} bytes. Its tokens"),
        (LOOK_UPS, f"has 1 to {name} bytes, each an ASCII letter"),
        (SCRIPT_PAGE, f"use `count` worker threads, 1 to {workers} "),
        (MSGFMT_PAGE, f"a PO text;{text:,} bytes"),
        (MSGFMT_PAGE, f"an MO file;{file:,} bytes"),
        (MSGFMT_PAGE, f"expression;{rule:,} bytes"),
        (CATSERVE_PAGE, f"A script is UTF-8 and has at most {text:,} bytes"),
        (CATSERVE_PAGE, f"A script has at most {text:,} bytes, an MO file {file:,}, a name"),
        (CATSERVE_PAGE, f"a name of a domain or locale {name} letters"),
        (CATSERVE_PAGE, f"Set the number of worker threads, 1 to {workers};"),
        (CATSERVE_PAGE, f"There are 1 to {workers} workers"),
        (SCRIPT_PAGE, f"A round has at most {text:,} bytes"),
        (SCRIPT_PAGE, f"`catsession: --workers takes a number from 1 to {workers}`"),
        (SESSION_PAGE, f"A round has at most {text:,} bytes, an MO file {file:,}."),
        (SESSION_PAGE, f"Use N worker threads, 1 to {workers};"),
        (SESSION_PAGE, f"--workers takes a number from 1 to {workers}"),
        (SESSION_PAGE, f"There are 1 to {workers} workers"),
        ("examples/python/session.py", f"MOST_LINES = {text:_} - "),
        ("docs/guide/rattle-store.md", f"one publisher and 1 to {readers} readers"),
        ("README.md", f"from 1 to {readers} threads"),
    )
    wrong = [f"{place} has not: {words}" for place, words in places if words not in plain(place)]
    allowed = {text, text + 1, file}
    guides = [str(path.relative_to(TOP)) for path in sorted(TOP.glob("docs/guide/*.md"))]
    for place in (PO, HEADERS, MO, LOOK_UPS, COMMAND, SCRIPT_PAGE, MSGFMT_PAGE, CATSERVE_PAGE, SESSION_PAGE,
                  DRIVER_PAGE, *LIBRARY_PAGES, "SECURITY.md", *guides):
        numbers = {int(it.replace(",", "")) for it in re.findall(r"\d{1,3}(?:,\d{3})+", plain(place))}
        wrong += [f"{place}: {it:,} is no limit" for it in sorted(numbers) if it >= LEAST_LIMIT and it not in allowed]
    return wrong


def links_lead_somewhere():
    """each link leads to a file, and to a heading of it"""
    wrong = []
    for path in pages():
        for it, target, anchor in links(path):
            if not target.exists() or (anchor and anchor not in anchors(target.read_text(encoding="utf-8"))):
                wrong.append(f"{path.relative_to(TOP)}: {it}")
    return wrong


def pages_are_linked():
    """README leads to each page, by way of others, and docs/index.md or the index of decisions lists it"""
    todo, reached = [(TOP / "README.md").resolve()], set()
    while todo:
        path = todo.pop()
        if path not in reached:
            reached.add(path)
            todo += [target for _, target, _ in links(path) if target.suffix == ".md" and target.exists()]
    listed = {target for name in ("docs/index.md", DECISIONS) for _, target, _ in links(TOP / name)}
    listed.add((TOP / "docs/index.md").resolve())
    hidden = [path for path in pages() if path.resolve() not in reached and path.parent.name != ".github"]
    hidden += [path for path in TOP.glob("docs/**/*.md") if path.resolve() not in listed]
    return [f"{path.relative_to(TOP)}" for path in hidden]


MOST_CLICKS = 2


def clicks():
    """each question of a stranger has an answer within two clicks, each of which is a link of the page before it"""
    page, wrong = TOP / "docs/internals/questions.md", []
    for question, path in rows(page.read_text(encoding="utf-8"))[2:]:
        here, places = (TOP / "README.md").resolve(), re.findall(r"\]\(([^)]+)\)", path)
        if not places or len(places) > MOST_CLICKS:
            wrong.append(f"{question} takes {len(places)} clicks")
        for place in places:
            there = (page.parent / place.partition("#")[0]).resolve()
            if there != here and there not in [target for _, target, _ in links(here)]:
                wrong.append(f"{question} {here.name} doesn't link to {there.name}")
            here = there
    return wrong


MOST_LINES_OF_README = 110
MOST_LINES_OF_A_PAGE = 250
MOST_COLUMNS = 120


def pages_are_compact():
    """README has at most 110 lines, a page 250 unless it is a reference, and no line but a table's 120 columns"""
    quoted = TOP / "docs/internals/statement.md"  # (its definitions are the sources')
    count = len(read("README.md").splitlines())
    wrong = [f"README.md: {count} lines"] if count > MOST_LINES_OF_README else []
    for path in sorted([*TOP.glob("docs/*/*.md"), *TOP.glob(CRATES)]):
        count = len(path.read_text(encoding="utf-8").splitlines())
        if path.parent.name != "reference" and count > MOST_LINES_OF_A_PAGE and path != quoted:
            wrong.append(f"{path.relative_to(TOP)}: {count} lines")
    for path in pages():
        for number, line in enumerate(path.read_text(encoding="utf-8").splitlines(), 1):
            if len(line) > MOST_COLUMNS and not line.lstrip().startswith("|"):
                wrong.append(f"{path.relative_to(TOP)}:{number}")
    return wrong


def pages_say_for_whom():
    """each page of docs/ says in its first line for whom it is"""
    first = re.compile(r"# [^\n]+\n\n\*For ")
    return [str(path.relative_to(TOP)) for path in sorted(TOP.glob("docs/**/*.md"))
            if not first.match(path.read_text(encoding="utf-8"))]


def reference_stands_alone():
    """the pages of docs/reference link to each other alone, since they are installed without the others"""
    return [f"{path.name}: {it}" for path in sorted(TOP.glob("docs/reference/*.md")) for it, target, _ in links(path)
            if target.parent != path.parent.resolve()]


def places():
    """each path in backquotes leads to something"""
    wrong = []
    for path in pages():
        named = re.findall(r"`((?:crates|tests|tools|examples|bench|docs|c|include|packaging)/[\w./-]+)`",
                           path.read_text(encoding="utf-8"))
        missing = [Path(it) for it in named if not (TOP / it).exists()]
        wrong += [f"{path.name}: {it}" for it in missing if not {"NAME", "out"} & set(it.parts)]
    return wrong


def examples_are_shown():
    """a guide, the README or a man page names each example"""
    text = "".join(read(path) for path in ("README.md", *(it.relative_to(TOP) for it in TOP.glob("docs/[gm]*/*"))))
    missing = [path.name for path in sorted((TOP / "examples").iterdir()) if f"examples/{path.stem}" not in text]
    return [f"no page has examples/{it}" for it in missing]


def pictures():
    """each picture is what tools/pictures draws, and none is cut off at its edges"""
    run = subprocess.run([TOP / "tools/pictures", "--check"], capture_output=True, text=True, check=False)
    cut = [f"{path.name} cuts off {boxes}" for path in sorted(TOP.glob("docs/images/*.svg")) if (boxes := boxes_outside(path))]
    return [*run.stdout.splitlines(), *run.stderr.splitlines()[-1:], *cut]


def glossary():
    """each word of the glossary has one line, with a file that is there and has the word"""
    wrong = []
    for row in rows(read("docs/internals/glossary.md")):
        named = re.fullmatch(r"`([\w./-]+)`", row[-1])
        if row[0] in ("Word", "---"):
            continue
        if len(row) != 3 or not named or not (TOP / named[1]).is_file():
            wrong.append(f"no file: {row[0]}")
            continue
        words = [word.strip("`() ").lower() for word in re.split(r", | \(", row[0])]
        if not any(word in read(named[1]).lower() for word in words):
            wrong.append(f"{named[1]} hasn't: {row[0]}")
    return wrong


def names_of_pages():
    """each page of docs/ that a source, a script or a man page names is there"""
    wrong = []
    for pattern in ("crates/*/src/*.rt", "crates/*/specs/*.antt", "c/**/*.[ch]", "include/*", "tests/**/*", "tools/*",
                    "bench/**/*", "examples/**/*", "packaging/**/*", "docs/man/*", "Makefile", ".ci/*"):
        for path in sorted(TOP.glob(pattern)):
            if path.is_file() and path.name != "documents.sh" and "driver" not in path.parts:
                text = path.read_text(encoding="utf-8", errors="replace").replace("\\-", "-")
                named = re.findall(r"(?<![\w/.*])(docs/[\w./-]+\.md)", text)
                named += [f"docs/{it}" for it in re.findall(r"/doc/kobdzila/([\w./-]+\.md)", text)]
                wrong += [f"{path.relative_to(TOP)}: {it}" for it in named if not (TOP / it).exists()]
    return wrong


def crates_are_listed():
    """each crate has its place in the list of what is proved, the map of the code and the table of times"""
    names = set(re.findall(r"^([a-z]\w*)", read("crates.txt"), re.M))
    listed = ("docs/internals/proofs.md", ARCHITECTURE, "docs/internals/gate.md")
    return [f"{page} has not: {name}" for page in listed for name in sorted(names) if f"`{name}`" not in read(page)]


def tests_are_listed():
    """tests/README.md says for each crate and each folder of sources which tests to run"""
    crates, named = re.findall(r"^([a-z]\w*)", read("crates.txt"), re.M), set()
    changed = "\n".join(row[0] for row in rows(read("tests/README.md")))
    for first, last in re.findall(r"`crates/(\w+)`(?: to `crates/(\w+)`)?", changed):
        named.update(crates[crates.index(first) : crates.index(last or first) + 1])
    folders = [*TOP.glob("c/*/"), *(TOP / it for it in ("bench", "examples", "fuzz", "include", "packaging", "python",
                                                        "rust", "tools"))]
    lacking = [f"crates/{it}" for it in crates if it not in named]
    return lacking + [str(it) for it in sorted(it.relative_to(TOP) for it in folders) if f"`{it}/`" not in changed]


def definitions_are_listed():
    """each file of definitions is named on the page of its layer, and the private ones as private"""
    text = "\n".join(path.read_text(encoding="utf-8") for path in sorted(TOP.glob(CRATES)))
    parts = re.findall(r"^## (.+?)\n(.*?)(?=^#{1,2} |\Z)", text, re.M | re.S)
    wrong = []
    for path in sorted(TOP.glob("crates/*/specs/*.antt")):
        crate, name = path.parts[-3], path.stem
        if name == "Lib":
            continue
        text = " ".join(part for head, part in parts if crate in re.split(r"[ ,]+", head))
        told = [sentence for sentence in re.split(r"(?<=\.)\s", text) if f"`{name}`" in sentence]
        private = any(re.search(r"\bprivate\.$", sentence) for sentence in told)
        if not told or private != path.read_text(encoding="utf-8").startswith("-- Private: "):
            wrong.append(f"{crate}: {name}")
    return wrong


MOST_LINES = 25  # of a crate's README


def crates_have_readmes():
    """each crate with definitions has a README of at most 25 lines that names those that aren't private"""
    names = set(re.findall(r"^([a-z]\w*)", read("crates.txt"), re.M))
    wrong = []
    for crate in sorted({path.parent for part in ("specs", "README.md") for path in TOP.glob(f"crates/*/{part}")}):
        path = crate / "README.md"
        text = path.read_text(encoding="utf-8") if path.is_file() else ""
        if crate.name not in names:
            wrong.append(f"{crate.name} isn't in crates.txt")
        if not text.startswith(f"# {crate.name}\n\n"):
            wrong.append(f"{crate.name} has no README with its name as the title")
        if (count := len(text.splitlines())) > MOST_LINES:
            wrong.append(f"{crate.name} has {count} lines")
        for file in sorted(crate.glob("specs/*.antt")):
            private = file.stem == "Lib" or file.read_text(encoding="utf-8").startswith("-- Private: ")
            if not private and f"`specs/{file.name}`" not in text:
                wrong.append(f"{crate.name} lacks specs/{file.name}")
    return wrong


def names_in_readmes():
    """each file, crate and item of code in backquotes in the README of a crate exists"""
    known = set(re.findall(r"[a-z]\w*", re.sub(r"^#.*$", "", read("crates.txt"), flags=re.M)))
    wrong = []
    for path in sorted(TOP.glob("crates/*/README.md")):
        crate = path.parent
        files = [*crate.glob("src/**/*.rt"), *crate.glob("specs/*.antt")]
        words = known.union(*(re.findall(r"\w+", file.read_text(encoding="utf-8")) for file in files))
        for it in re.findall(r"`([^`]*)`", path.read_text(encoding="utf-8")):
            if re.fullmatch(r"[\w.-]+(?:/[\w.-]+)+", it):
                found = ((crate if it.startswith(("src/", "specs/")) else TOP) / it).exists()
            else:
                found = not re.fullmatch(r"\w+(?:::\w+)*", it) or words.issuperset(it.split("::"))
            if not found:
                wrong.append(f"{crate.name}: {it}")
    return wrong


SOURCES = ("crates", "c", "include", "python", "rust", "tests", "tools", "bench", "fuzz", "examples", "packaging")
APART = {"out", "target", "corpus", "documents.sh"}  # what was made, and the test of this file
NAMES_OF_OTHERS = {"for_each_mut", "linux_x86_64"}  # the kit's and pip's


def names_in_internals():
    """each name with `_` in backquotes in docs/internals is in the sources"""
    known, wrong = set(NAMES_OF_OTHERS), []
    for path in (path for folder in SOURCES for path in (TOP / folder).rglob("*") if not APART & set(path.parts)):
        known.update((path.name, path.stem))
        if path.is_file():
            known.update(re.findall(r"\w+_\w+", path.read_text(encoding="utf-8", errors="replace")))
    for path in sorted(TOP.glob("docs/internals/**/*.md")):
        for it in re.findall(r"`([^`\s]+)`", path.read_text(encoding="utf-8")):
            wrong += [f"{path.name}: {name}" for name in re.findall(r"(?<![\w.])[a-z]\w*_\w+", it) if name not in known]
    return wrong


def promise():
    """each page that quotes the promise quotes it word for word"""
    quoted = {str(path.relative_to(TOP)): " ".join(words.replace("\n>", " ").split()) for path in pages()
              for words in re.findall(r"^> (For every list.*?)(?=\n\n)", path.read_text(encoding="utf-8"), re.M | re.S)}
    places = ("README.md", "docs/internals/proofs.md")
    lacking = [f"{name} has not the promise" for name in places if name not in quoted]
    return lacking + ([f"it differs in {sorted(quoted)}"] if len(set(quoted.values())) > 1 else [])


def functions_that_wait():
    """the functions that may wait are those whose signatures say so"""
    waits = re.compile(r"^ *pub fn (\w+)\s*<[^(]*\bWait\b", re.M)
    wanted = {name for path in sorted(TOP.glob("crates/*/src/*.rt")) if (path.parent.parent / "must-fail").is_dir()
              for name in waits.findall(path.read_text(encoding="utf-8"))}
    listed = re.search(r"public\s+functions\s+may\s+wait:(.*?), so\s+the", read("docs/internals/proofs.md"), re.S)[1]
    found = {name.split("::")[-1] for name in re.findall(r"`([\w:]+)`(?! of)", re.sub(r"of `\w+`", "", listed))}
    return differences("docs/internals/proofs.md", found, wanted)


MOST_WORDS = 35  # of a sentence


def sentences():
    """no sentence has more than 35 words"""
    end = re.compile(r'(?:(?<=[.!?])|(?<=[.!?]\*\*)|(?<=[.!?][)"]))\s+(?=[^a-z])')
    wrong = []
    for path in pages():
        for line, paragraph in paragraphs(path.read_text(encoding="utf-8")):
            counts = [len(sentence.split()) for sentence in end.split(paragraph)]
            wrong += [f"{path.name}:{line}: {count} words" for count in counts if count > MOST_WORDS]
    return wrong


def reports_can_arrive():
    """SECURITY.md names no address that receives no mail (RFC 2606), and says which versions get fixes, and when"""
    text, address = read("SECURITY.md"), r"[\w.+-]+@[\w.-]+\.(?:example|invalid|localhost|test)\b"
    wrong = [f"{it} receives no mail" for it in re.findall(address, text)]
    wanted = ("## Reporting a vulnerability", "### Which versions get fixes", "### How a fix and an advisory are made")
    wrong += [f"no heading {it!r}" for it in wanted if f"\n{it}\n" not in text]
    if not re.search(r"^\| within .* \| an answer", text, re.MULTILINE):
        wrong.append("it doesn't say when we answer")
    return wrong


def lines_of_c():
    """SECURITY.md says how many lines of C there are, to a twentieth"""
    parts = (("c/library", "c/machine", "c/intl"), ("c/driver", "c/compile", "c/unfmt"), ("python/src",))
    told = [int(it.replace(",", "")) for it in re.findall(r"about ([\d,]+) lines", " ".join(read("SECURITY.md").split()))]
    files = [[path for folder in folders for path in (TOP / folder).glob("*.[ch]")] for folders in parts]
    counts = [sum(len(path.read_text(encoding="utf-8").splitlines()) for path in part) for part in files]
    close = len(told) == len(counts) and all(abs(it - count) * 20 <= count for it, count in zip(told, counts))
    return [] if close else differences("SECURITY.md", told, counts)


RULES = (
    kinds_of_texts,
    kinds_of_files,
    kinds_of_scripts,
    texts_of_trouble,
    texts_of_programs_in_c,
    texts_of_kinds,
    faults_of_the_header,
    functions_of_the_library,
    keywords_of_xgettext,
    options_of_the_driver,
    options_of_the_fleet,
    options_of_programs_in_c,
    reasons_of_the_driver,
    warnings_of_the_driver,
    variables_of_the_environment,
    lines_of_the_command,
    tabs_of_pages,
    fields_of_a_header,
    parts_of_the_manual,
    options,
    options_of_a_session,
    faults_of_a_session,
    words_of_scripts,
    limits,
    links_lead_somewhere,
    pages_are_linked,
    clicks,
    pages_are_compact,
    pages_say_for_whom,
    reference_stands_alone,
    places,
    examples_are_shown,
    glossary,
    pictures,
    names_of_pages,
    crates_are_listed,
    tests_are_listed,
    definitions_are_listed,
    crates_have_readmes,
    names_in_readmes,
    names_in_internals,
    promise,
    functions_that_wait,
    sentences,
    reports_can_arrive,
    lines_of_c,
)


def main():
    for rule in RULES:
        try:
            wrong = rule()
        except (TypeError, AttributeError, KeyError) as error:
            wrong = [f"a place that it looks for is not there ({error!r})"]
        if wrong:
            print(f"FAILED documents: {rule.__doc__}: {'; '.join(wrong)[:400]}")
        else:
            print(f"ok documents: {rule.__doc__}")


if __name__ == "__main__":
    main()
