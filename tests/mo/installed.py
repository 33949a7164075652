#!/usr/bin/env python3
"""Compares libkobdzila's answers from MO files where they are installed with those of glibc and of Python's gettext. Run
by tests/mo/installed.sh.

    installed.py EVERY FOLDER..    each EVERY-th MO file below the folders

Every message of a file is asked of libkobdzila; of glibc by dcgettext in the file's own language, from the place where
it is installed; and of Python's gettext, if this reads the file. A message with a plural is asked with many numbers. The
keys are those of a reader of its own, and of Python's catalogue.

Prints a line `refused: ..` for each file in a charset that stays with glibc (NOT_DECODED), a line `wrong: ..` for each
other refusal, for a file in such a charset that is opened, and for each difference, and at the end what was compared.

It needs LIBKOBDZILA, the library's path, and examples/python and tests/intl on the path of Python.
"""
from __future__ import annotations

import ctypes
import gettext
import io
import multiprocessing
import os
import re
import struct
import sys
import tempfile
from collections import Counter
from pathlib import Path
from typing import Iterable

import kobdzila_ctypes as kobdzila
from revisions import Glibc, differences_of, read, revision_of

# Charsets of several bytes, which libkobdzila doesn't decode (docs/reference/headers.md): their files stay with glibc.
NOT_DECODED = {"CP932"}
NUMBERS = [*range(31), 100, 101, 102, 111, 112, 1000, 1_000_000]
OF_A_PROCESS = 100  # files, since glibc keeps all that it has read
NAMED = 3  # differences of a file that are printed


class Installed(Glibc):
    """glibc's answers from files at ROOT/LANGUAGE/LC_MESSAGES/DOMAIN.mo, in LANGUAGE; from a copy of another file."""

    def __init__(self, folder: Path):
        super().__init__(folder)
        self.changes = ctypes.c_int.in_dll(self.libc, "_nl_msg_cat_cntr")
        self.path = Path()

    def domain(self, data: bytes) -> bytes:
        language, category = self.path.parts[-3:-1]
        is_in_place = category == "LC_MESSAGES" and language not in ("C", "POSIX")
        self.libc.setenv(b"LANGUAGE", language.encode() if is_in_place else b"xx", 1)
        self.changes.value += 1  # (glibc has kept what it found in the last language)
        if not is_in_place:
            return super().domain(data)
        name = self.path.stem.encode()
        self.libc.bindtextdomain(name, str(self.path.parents[2]).encode())
        self.libc.bind_textdomain_codeset(name, b"UTF-8")
        return name


def of_python(data: bytes, counts: Counter[str]) -> gettext.GNUTranslations | None:
    """The catalogue of Python's gettext; None if it doesn't read the file."""
    try:
        return gettext.GNUTranslations(io.BytesIO(data))
    except (LookupError, OSError, UnicodeDecodeError, ValueError) as error:
        counts[f"not read by Python, {type(error).__name__}"] += 1
        return None


def unlike_python(ours: kobdzila.Translations, python: gettext.GNUTranslations, may_lack: bool) -> Iterable[str]:
    """The messages that libkobdzila and Python look up to different texts, and the keys that one of both lacks. Python
    reads nothing of a file that depends on the system (`may_lack`), and gives the msgid for a plural form that is not in
    the file, where glibc gives the first form."""
    forms = python._catalog
    theirs = {key if isinstance(key, str) else key[0] for key in forms}
    for context, msgid, plural, _ in ours.entries():
        key = msgid if context is None else f"{context}\4{msgid}"
        if key not in theirs:
            if not may_lack:
                yield f"{key!r}: not in Python's catalogue"
            continue
        theirs.remove(key)
        named = () if context is None else (context,)
        if plural is None:
            found = ours.pgettext(*named, msgid) if named else ours.gettext(msgid)
            if key and found != forms[key]:  # (the header was compared with glibc's, and may name another charset)
                yield f"{key!r}: {found!r}, and Python {forms[key]!r}"
            continue
        ask = ours.npgettext if named else ours.ngettext
        for n in NUMBERS:
            wanted = forms.get((key, python.plural(n)))
            found = ask(*named, msgid, plural, n)
            if wanted is not None and found != wanted:
                yield f"{key!r} with {n}: {found!r}, and Python {wanted!r}"
    yield from (f"{key!r}: only in Python's catalogue" for key in theirs)


def charset_named(data: bytes) -> str:
    """The charset that the header names, in capital letters; nothing if it names none or the file is damaged."""
    try:
        found = re.search(rb"charset=([^ \t\n]*)", read(data).get(b"", b""))
    except struct.error:
        found = None
    return found[1].decode("latin-1").upper() if found else ""


def look_at(path: Path, glibc: Installed, counts: Counter[str]) -> Iterable[str]:
    """The lines to print of a file."""
    data = path.read_bytes()
    charset = charset_named(data)
    counts["files"] += 1
    try:
        ours = kobdzila.Translations(data)
    except kobdzila.Refused as refusal:
        how = "refused" if charset in NOT_DECODED else "wrong"
        counts[f"refused, {charset or refusal}"] += 1
        yield f"{how}: {path}: charset {charset}, {refusal}"
        return
    glibc.path = path
    wrong = [f"charset {charset} is opened: no longer NOT_DECODED"] if charset in NOT_DECODED else []
    wrong += differences_of(ours, data, glibc, counts)
    python = of_python(data, counts)
    if python:
        counts["files read by Python"] += 1
        wrong += unlike_python(ours, python, may_lack=revision_of(data) & 0xFFFF != 0)
    yield from (f"wrong: {path}: {it[:300]}" for it in wrong[:NAMED])


def look_at_all(paths: list[Path]) -> tuple[Counter[str], list[str]]:
    """The counts, and the lines to print, of some files."""
    counts: Counter[str] = Counter()
    with tempfile.TemporaryDirectory() as folder:
        glibc = Installed(Path(folder))
        lines = [line for path in paths for line in look_at(path, glibc, counts)]
    return counts, lines


def installed(folders: list[str], every: int) -> list[Path]:
    found = {path for folder in folders for path in Path(folder).rglob("*.mo") if path.is_file() and not path.is_symlink()}
    return sorted(found)[::every]


def main(words: list[str]) -> None:
    paths = installed(words[1:], int(words[0]))
    parts = [paths[at:at + OF_A_PROCESS] for at in range(0, len(paths), OF_A_PROCESS)]
    counts: Counter[str] = Counter()
    with multiprocessing.Pool(len(os.sched_getaffinity(0)), maxtasksperchild=1) as pool:
        for found, lines in pool.imap(look_at_all, parts):
            counts += found
            for line in lines:
                print(line)
    print(", ".join(f"{number} {what}" for what, number in sorted(counts.items())))


if __name__ == "__main__":
    main(sys.argv[1:])
