#!/usr/bin/env python3
"""Compares the rows of tests/library/formats with what kob_check_formats of libkobdzila finds, or GNU msgfmt. Run by
tests/library/formats.sh.

    formats.py library LIBRARY FILE..   LIBRARY is the path of the shared library
    formats.py gnu MSGFMT FILE..

A file LANGUAGE.txt is about LANGUAGE-format. Empty lines and those that begin with # count for nothing. Any other line
is a row, with one tab between its columns: what is found, msgid, and msgstr.

    ok          %s %d   %2$d %1$s
    arguments   %s %d   %s          ok
    invalid     x       %

The texts stand there as between the quotes of a PO file, with its escapes. What is found is `ok`, `invalid` (msgstr is
no format), `arguments` (it is one, but its arguments don't agree with those of msgid) or `unread` (it is a format that
Kobdzila doesn't read; what GNU msgfmt says of it isn't compared). Each row is also asked as a plural form that only the
number 1 has, which may leave arguments out; a fourth column says what is found of that, if it is something else.

Nothing is compared with a msgid that is no format. So a text that is to be read has another one as its msgid.
"""

import ctypes
import re
import subprocess
import sys
from collections.abc import Callable, Iterator
from pathlib import Path
from tempfile import TemporaryDirectory
from typing import NamedTuple, Protocol

HEADER = r"""msgid ""
msgstr ""
"Project-Id-Version: x\n"
"PO-Revision-Date: x\n"
"Last-Translator: x\n"
"Language-Team: x\n"
"Language: en\n"
"MIME-Version: 1.0\n"
"Content-Type: text/plain; charset=UTF-8\n"
"Content-Transfer-Encoding: 8bit\n"
"Plural-Forms: nplurals=2; plural=n != 1;\n"
"""
DIFFERENCES = ("invalid", "arguments", "unread")  # by their numbers in kobdzila.h
LANGUAGE = re.compile(r"\bKOB_(\w+)_FORMAT = (\d+)")  # in kobdzila.h
SAID = re.compile(r"^[^\n:]*:(\d+): (?!warning: )(.*)$", re.M)  # by GNU msgfmt of an entry
FORM = re.compile(r"'msgstr\[(\d+)\]'")
JUDGED_BY = "0.21"  # the version of GNU msgfmt that gave the rows
NAMED = 5  # rows that the line of a language names


class Row(NamedTuple):
    place: str
    found: str
    original: str
    translation: str
    few: str  # what is found of the translation as a plural form for few numbers


class Entry(NamedTuple):
    """A row as an entry of a PO text."""

    place: str
    line: int  # of its msgstr
    wanted: str


class Found(NamedTuple):
    """A form that isn't accepted, and why."""

    language: str
    line: int
    form: int
    difference: str


class Judge(Protocol):
    """Something that checks formats."""

    name: str
    reads_all: bool  # what Kobdzila leaves unread as well

    def find(self, language: str, text: str) -> set[Found]: ...


def rows_of(path: Path) -> list[Row]:
    rows = []
    for number, line in enumerate(path.read_text(encoding="utf-8").split("\n"), 1):
        if line and not line.startswith("#"):
            found, *texts = line.split("\t")
            few = texts[2] if len(texts) == 3 else found
            if len(texts) not in (2, 3) or not {found, few} <= {"ok", *DIFFERENCES}:
                sys.exit(f"{path}:{number} is no row: {line!r}")
            rows.append(Row(f"{path.name}:{number}", found, texts[0], texts[1], few))
    return rows + long_rows(path.stem)


def long_rows(language: str) -> list[Row]:
    """Rows whose msgid has thousands of directives."""
    numbers, strings = "%1 %2 " * 10_000, "%s " * 10_000
    names = "".join(f"%(a{number})s " for number in range(10_000))
    rows = {
        "kde": [("ok", numbers, "%2 %1", "ok"), ("arguments", numbers, "%3 %2 %1", "arguments")],
        "php": [("arguments", strings, "%10000$s", "ok"), ("arguments", strings, "%10001$s", "arguments")],
        "python": [("ok", names, f"{names}.", "ok"), ("arguments", names, "%(a5)s", "ok")],
    }
    return [Row(f"{language}, long row {number}", *row) for number, row in enumerate(rows.get(language, []), 1)]


def text_of(language: str, rows: list[Row]) -> tuple[str, list[Entry]]:
    """The PO text that has each row as two entries, without a plural and with one; and these."""
    lines, entries = HEADER.split("\n"), []
    for row in rows:
        lines += [f"#, {language}-format", f'msgctxt "{row.place}"', f'msgid "{row.original}"']
        lines.append(f'msgstr "{row.translation}"')
        entries.append(Entry(row.place, len(lines), row.found))
        lines += ["", f"#, {language}-format", f'msgctxt "{row.place}, plural"', f'msgid "{row.original}"']
        lines += [f'msgid_plural "{row.original}"', f'msgstr[0] "{row.translation}"']
        entries.append(Entry(f"{row.place}, plural", len(lines), row.few))
        lines += [f'msgstr[1] "{row.original}"', ""]
    return "\n".join(lines), entries


class Refusal(ctypes.Structure):
    """kob_refusal"""

    _fields_ = [("fault", ctypes.c_int), ("line", ctypes.c_uint)]


class Fault(ctypes.Structure):
    """kob_format_fault"""

    _fields_ = [("line", ctypes.c_uint), ("language", ctypes.c_int)]
    _fields_ += [("form", ctypes.c_uint), ("difference", ctypes.c_int)]


class Library:
    """libkobdzila."""

    name = "the C library"
    reads_all = False

    def __init__(self, path: str) -> None:
        header = Path("include/kobdzila.h").read_text(encoding="utf-8")
        self.languages = {int(number): name.lower().replace("_", "-") for name, number in LANGUAGE.findall(header)}
        self.calls = ctypes.CDLL(path)
        self.calls.kob_check_formats.argtypes = [ctypes.c_char_p, ctypes.c_size_t, ctypes.c_uint, ctypes.c_void_p]
        self.calls.kob_check_formats.restype = ctypes.c_void_p
        self.calls.kob_format_fault_count.argtypes = [ctypes.c_void_p]
        self.calls.kob_format_fault_count.restype = ctypes.c_size_t
        self.calls.kob_format_fault_at.argtypes = [ctypes.c_void_p, ctypes.c_size_t, ctypes.c_void_p]
        self.calls.kob_format_faults_free.argtypes = [ctypes.c_void_p]

    def find(self, language: str, text: str) -> set[Found]:
        why, data = Refusal(), text.encode()
        faults = self.calls.kob_check_formats(data, len(data), 0, ctypes.byref(why))
        if faults is None:
            sys.exit(f"the text of {language}-format is refused: line {why.line}, fault {why.fault}")
        found = set(self.each(faults))
        self.calls.kob_format_faults_free(faults)
        return found

    def each(self, faults: int) -> Iterator[Found]:
        fault = Fault()
        for index in range(self.calls.kob_format_fault_count(faults)):
            self.calls.kob_format_fault_at(faults, index, ctypes.byref(fault))
            yield Found(self.languages[fault.language], fault.line, fault.form, DIFFERENCES[fault.difference])


class Gnu:
    """GNU msgfmt, which says the first fault of an entry alone."""

    reads_all = True

    def __init__(self, program: str) -> None:
        said = subprocess.run([program, "--version"], capture_output=True, text=True, check=True).stdout
        self.program, self.version = program, said.split("\n", 1)[0].rpartition(" ")[2]
        self.name = f"GNU msgfmt {self.version}"

    def find(self, language: str, text: str) -> set[Found]:
        with TemporaryDirectory() as room:
            path = Path(room, "in.po")
            path.write_text(text, encoding="utf-8")
            command = [self.program, "-c", "-o", "/dev/null", str(path)]
            said = subprocess.run(command, capture_output=True, check=False).stderr.decode(errors="replace")
        found: dict[int, Found] = {}
        for line, words in SAID.findall(said):
            form = FORM.search(words)
            difference = "invalid" if "is not a valid" in words else "arguments"
            found.setdefault(int(line), Found(language, int(line), int(form[1]) if form else 0, difference))
        return set(found.values())


def differences(language: str, entries: list[Entry], found: set[Found]) -> list[str]:
    """How what is found differs from what the entries want."""
    wanted = {Found(language, it.line, 0, it.wanted) for it in entries if it.wanted != "ok"}
    by_line = {it.line: it for it in entries}
    said = []
    for line in sorted({it.line for it in wanted ^ found}):
        got = [f"{it.difference} in msgstr[{it.form}] ({it.language})" for it in found if it.line == line]
        place = f"{by_line[line].place} is {by_line[line].wanted}" if line in by_line else f"line {line} has no row"
        said.append(f"{place}, and not {', '.join(got) or 'ok'}")
    return said


def compare(judge: Judge, paths: list[Path]) -> bool:
    """Prints a line for each file whose rows differ, and one that counts the others. Whether none differs."""
    is_well, languages, count = True, 0, 0
    for path in paths:
        text, entries = text_of(path.stem, rows_of(path))
        left = {it.line for it in entries if judge.reads_all and it.wanted == "unread"}
        entries = [it for it in entries if it.line not in left]
        found = {it for it in judge.find(path.stem, text) if it.line not in left}
        if judge.reads_all and not found:
            print(f"skipped formats, {judge.name}, {path.stem}: it finds nothing in this language")
        elif said := differences(path.stem, entries, found):
            word = "FAILED" if JUDGED_BY in judge.name or not judge.reads_all else "skipped"
            is_well = is_well and word == "skipped"
            print(f"{word} formats, {judge.name}, {path.stem}: {len(said)} rows differ: {'; '.join(said[:NAMED])}")
        else:
            languages, count = languages + 1, count + len(entries)
    if languages:
        print(f"ok formats, {judge.name}: {count} entries in {languages} languages")
    return is_well


def main(words: list[str]) -> int:
    judges: dict[str, Callable[[str], Judge]] = {"library": Library, "gnu": Gnu}
    if len(words) < 3 or words[0] not in judges:
        sys.exit(__doc__)
    return 0 if compare(judges[words[0]](words[1]), [Path(word) for word in words[2:]]) else 1


if __name__ == "__main__":
    sys.exit(main(sys.argv[1:]))
