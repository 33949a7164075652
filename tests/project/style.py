#!/usr/bin/env python3
"""Rules for the sources that neither the prover nor the formatter looks at, over the files that git tracks. Prints a
line for each rule, which names the first findings.

    tests/project/style.py          a line for each rule
    tests/project/style.py --all    a line for each finding as well
"""
import re
import subprocess
import sys
from collections import defaultdict
from pathlib import Path

MOST_COLUMNS = 120
NAMED = 4  # findings that the line of a rule names

# Files of specs/ that two crates may both have: the crates use the name for the same thing.
SHARED_NAMES = (
    "Laws",  # the laws of a crate's own words
    "Pairs",  # mo_file gives on what mo_image says
    "Tables",
)

PRIVATE = "-- Private: "
MOST_WORDS = 35  # of the sentence that opens a file of specs/

# Crates whose definitions follow a standard, and those of their files that define this project's own terms.
ON_A_STANDARD = ("c_signature", "mo_file", "mo_image", "mo_tables", "po_checks", "po_header", "po_text", "po_writing")
OWN_WORDS = {
    ("po_checks", "Found"),
    ("po_checks", "Headers"),
    ("po_checks", "Refusal"),
    ("po_text", "Faults"),
    ("po_text", "Lawful"),
    ("po_text", "Progress"),
    ("po_text", "Views"),
}
# The parts of the GNU gettext manual that are cited, by the names that `info gettext NAME` and its pages have.
PARTS = (
    "Ambiguities",
    "Boost Format Strings",
    "C# Format Strings",
    "Contexts",
    "GCC internal Format Strings",
    "GFC internal Format Strings",
    "Header Entry",
    "Interface to gettext",
    "Lisp Format Strings",
    "Locale Names",
    "Locating Catalogs",
    "Java Format Strings",
    "JavaScript Format Strings",
    "KDE Format Strings",
    "Lua Format Strings",
    "MO Files",
    "Object Pascal Format Strings",
    "Objective C Format Strings",
    "PHP Format Strings",
    "PO Files",
    "Perl Format Strings",
    "Plural forms",
    "Python Format Strings",
    "Qt Format Strings",
    "Ruby Format Strings",
    "Scheme Format Strings",
    "Shell Format Strings",
    "Smalltalk Format Strings",
    "Tcl Format Strings",
    "The LANGUAGE variable",
    "Triggering",
    "YCP Format Strings",
    "awk Format Strings",
    "c-format",
    "librep Format Strings",
    "msgfmt Invocation",
    "msgunfmt Invocation",
)
MANUAL = re.compile(r'GNU gettext manual, ((?:"[^"]+"(?:: [^;)"]+)?(?:; )?)+)')
C_STANDARD = re.compile(r"C standard, [67]\.\d")
SPECS = re.compile(r"crates/(\w+)/specs/(\w+)\.antt")
IMPORT = re.compile(r"^ *ghost use Rattle\.(\w+)\.specs\.(\w+)(?:\.\{([^}]*)\}| as (\w+)|);", re.M)
PUBLIC_FUNCTION = re.compile(r"^( *)pub (?:const |unsafe )*fn (\w+)", re.M)
CLAUSE = re.compile(r"^ *(?:requires|ensures)\b", re.M)
WORD = re.compile(r"[^\s(){}\[\],;.]+")
GLOSSARY, CHANGELOG = Path("docs/internals/glossary.md"), Path("CHANGELOG.md")
RETIRED = re.compile(r"^- ([^:]+): say ", re.M)
PATH_OF_A_MACHINE = re.compile(r"(?<![\w.*}])/(?:work|opt|farm|home|root)/")
CITATION = re.compile(
    r"\[paper\]|\bpaper (?:says|wants|asks)\b|\b(?:rung|row|request|requirement|demand) (?:no\. ?)?[0-9]+", re.I
)


def tracked(*patterns):
    listed = subprocess.run(["git", "ls-files", "-z", *patterns], capture_output=True, check=True).stdout
    return [Path(name) for name in listed.decode().split("\0") if name and Path(name).is_file()]


def specs():
    """The files of specs/ with their crate and name, without those that only list the others."""
    for path in tracked("crates/*/specs/*.antt"):
        found = SPECS.fullmatch(str(path))
        if found and found[2] != "Lib":
            yield path, found[1], found[2]


def read(path):
    return path.read_text(encoding="utf-8")


def first_line(path):
    return read(path).split("\n", 1)[0]


def head(path):
    """The comment that opens a file of specs/, as one line."""
    lines = []
    for line in read(path).split("\n"):
        if not line.startswith("-- "):
            break
        lines.append(line[3:])
    return " ".join(lines)


def comments(path):
    """The comments of a source, each run of lines as one text, with the line on which it begins."""
    mark, found, words, first = "--" if path.suffix == ".antt" else "//", [], [], 0
    for number, line in enumerate([*read(path).split("\n"), ""], 1):
        bare = line.strip()
        if bare.startswith(mark):
            first = first if words else number
            words.append(bare.lstrip("-/! "))
        elif words:
            found.append((first, " ".join(words)))
            words = []
    return found


# --- the rules: each gives what it finds --------------------------------------------------------------------------


def files_without_sentence():
    """each file of specs/ opens with one sentence that says what it defines"""
    return [str(path) for path, _, _ in specs() if not is_sentence(head(path).removeprefix(PRIVATE[3:]))]


def is_sentence(text):
    """One sentence, beside what stands in brackets: a citation, or an example."""
    words = re.sub(r"\([^()]*\)", "", text)
    ends = words.endswith(".") and not re.search(r"[.!?] [A-Z`]", words)
    return ends and len(words.split()) <= MOST_WORDS


def files_without_section():
    """a file of definitions that stand on a standard opens with the section"""
    findings = []
    for path, crate, name in specs():
        if crate in ON_A_STANDARD and (crate, name) not in OWN_WORDS and not first_line(path).startswith(PRIVATE):
            text = head(path)
            if not (MANUAL.search(text) or C_STANDARD.search(text)):
                findings.append(str(path))
    return findings


def other_words_for_standards():
    """a standard is cited in one wording, by a part that it has"""
    findings = []
    for path in tracked("crates/*/specs/*.antt", "crates/*/src/*.rt"):
        for number, text in comments(path):
            cited = [part for found in MANUAL.finditer(text) for part in re.findall(r'"([^"]+)"', found[1])]
            wrong = [part for part in cited if part not in PARTS]
            if len(re.findall(r"\bmanual, ?\"", text)) != len(MANUAL.findall(text)):
                wrong.append("the GNU gettext manual in other words")
            if len(re.findall(r"C standard,? [67]\.", text)) != len(C_STANDARD.findall(text)):
                wrong.append("the C standard in other words")
            findings += [f"{path}:{number}: {it}" for it in wrong]
    return findings


def other_words_for_private():
    """a file of private definitions begins with `-- Private: `"""
    lines = {path: first_line(path) for path, _, _ in specs()}
    return [str(path) for path, line in lines.items() if line.startswith("-- Private") and not line.startswith(PRIVATE)]


def private_words_in_public_clauses():
    """no public clause names a private definition"""
    private = {(crate, name) for path, crate, name in specs() if first_line(path).startswith(PRIVATE)}
    findings = []
    for path in tracked("crates/*/src/*.rt"):
        text = read(path)
        words = private_words(text, private)
        for function, clauses in public_clauses(text):
            findings += [f"{path} {function}: {word}" for word in sorted(words & set(WORD.findall(clauses)))]
    return findings


def private_words(text, private):
    """The names that a file imports from private files of specs/."""
    words = set()
    for crate, name, listed, other in IMPORT.findall(text):
        if (crate, name) in private:
            parts = [part.strip() for part in listed.split(",") if part.strip()]
            words |= {part.split(" as ")[-1] for part in parts} or {other or name}
    return words


def public_clauses(text):
    """Each public function with the text of its clauses: from the first one to the line that opens the body."""
    for head in PUBLIC_FUNCTION.finditer(text):
        body = re.compile(rf"^{head[1]}(?:\{{|\S.*\{{$|\S.*;$)", re.M).search(text, head.end())
        signature = text[head.start() : body.start() if body else len(text)]
        if clause := CLAUSE.search(signature):
            yield head[2], signature[clause.start() :]


def names_of_two_files():
    """no two crates have a file of specs/ with one name"""
    crates = defaultdict(list)
    for _, crate, name in specs():
        crates[name].append(crate)
    return [
        f"{name} ({', '.join(sorted(owners))})"
        for name, owners in sorted(crates.items())
        if len(owners) > 1 and name not in SHARED_NAMES
    ]


def wide_lines(part):
    """Lines that are too wide, but for attributes, which `rt fmt` puts on one line."""
    findings = []
    for path in tracked(f"crates/*/{part}/*.rt", f"crates/*/{part}/*.antt"):
        for number, line in enumerate(read(path).split("\n"), 1):
            if len(line) > MOST_COLUMNS and not line.lstrip().startswith("#["):
                findings.append(f"{path}:{number}")
    return findings


def wide_lines_of_code():
    """no line of src/ is wider than 120 columns"""
    return wide_lines("src")


def wide_lines_of_definitions():
    """no line of specs/ is wider than 120 columns"""
    return wide_lines("specs")


def wide_lines_of_proofs():
    """no line of proofs/ is wider than 120 columns"""
    return wide_lines("proofs")


def texts(*but):
    """Each tracked file that is UTF-8, but for the file that has the patterns, and these."""
    for path in tracked():
        if path not in (Path("tests/project/style.py"), *but):
            try:
                yield path, read(path)
            except UnicodeDecodeError:
                pass


def found_in_texts(pattern, *but):
    findings = []
    for path, text in texts(*but):
        for number, line in enumerate(text.split("\n"), 1):
            if found := pattern.search(line):
                findings.append(f"{path}:{number}: {found[0]}")
    return findings


def paths_of_a_machine():
    """no file names a path of one machine"""
    return found_in_texts(PATH_OF_A_MACHINE)


def citations():
    """no file cites a paper or a demand"""
    return found_in_texts(CITATION)


def retired_words():
    """no file has a word that the glossary has retired"""
    _, _, listed = read(GLOSSARY).partition("\n## Retired words\n")
    words = [word for line in RETIRED.findall(listed) for word in line.split(", ")]
    return found_in_texts(re.compile(rf"\b(?:{'|'.join(map(re.escape, words))})\b"), GLOSSARY, CHANGELOG)


RULES = (
    files_without_sentence,
    files_without_section,
    other_words_for_standards,
    other_words_for_private,
    private_words_in_public_clauses,
    names_of_two_files,
    wide_lines_of_code,
    wide_lines_of_definitions,
    wide_lines_of_proofs,
    paths_of_a_machine,
    citations,
    retired_words,
)


def main():
    for rule in RULES:
        findings = rule()
        if not findings:
            print(f"ok style: {rule.__doc__}")
            continue
        more = f"; and {len(findings) - NAMED} more" if len(findings) > NAMED else ""
        print(f"FAILED style: {rule.__doc__}: {'; '.join(findings[:NAMED])}{more}")
        if "--all" in sys.argv:
            print("".join(f"    {it}\n" for it in findings), end="")


if __name__ == "__main__":
    main()
