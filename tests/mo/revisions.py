#!/usr/bin/env python3
"""Compares libkobdzila's reading of MO files of the revisions 0.0, 0.1, 1.0 and 1.1 with glibc's. Run by
tests/mo/revisions.sh.

    revisions.py made COUNT         COUNT generated PO texts, compiled by GNU msgfmt (its path is in GNU_MSGFMT)
    revisions.py installed FILE..   these files
    revisions.py faults             files with each fault of the system-dependent part

Each message of a file that opens is asked of glibc by dcgettext, or by dcngettext with 0 to 30 if it has a plural. The
keys and texts are also those of a reader that is written here after GNU msgfmt's files. It needs LIBKOBDZILA, the
library's path, and examples/python and tests/intl on the path of Python.
"""
from __future__ import annotations

import codecs
import ctypes
import os
import random
import re
import struct
import subprocess
import sys
import tempfile
from collections import Counter
from pathlib import Path

import kobdzila_ctypes as kobdzila
from intl_answers import Entries, mo, mo_with_parts

# What a macro of <inttypes.h> stands for on x86-64 Linux, before its letter.
SIZES = {"8": "", "16": "", "32": "", "64": "l", "LEAST8": "", "LEAST16": "", "LEAST32": "", "LEAST64": "l", "FAST8": "",
         "FAST16": "l", "FAST32": "l", "FAST64": "l", "MAX": "l", "PTR": "l"}
MACROS = {f"PRI{letter}{size}".encode(): f"{SIZES[size]}{letter}".encode() for letter in "diouxX" for size in SIZES}
VALUES = {**MACROS, b"I": b"I"}
LAST = 0xFFFFFFFF
HEADER = b"Content-Type: text/plain; charset=UTF-8\nPlural-Forms: nplurals=2; plural=(n != 1);\n"
STRICT = 4
LC_MESSAGES, LC_ALL = 5, 6


def order_of(data: bytes) -> str:
    return "<" if data[:4] == b"\xde\x12\x04\x95" else ">"


def revision_of(data: bytes) -> int:
    return struct.unpack_from(f"{order_of(data)}I", data, 4)[0]


# ---- a reader of its own


def read(data: bytes) -> dict[bytes, bytes]:
    """The texts of a sound file by their keys: context, byte 4 and msgid. The first message of a key counts."""

    def word(at: int) -> int:
        return struct.unpack_from(f"{order_of(data)}I", data, at)[0]

    def string(row: int) -> bytes:
        return data[word(row + 4):word(row + 4) + word(row)]

    def pieced(at: int) -> bytes | None:
        source, text, is_known = word(at), b"", True
        while True:
            size, segment = word(at + 4), word(at + 8)
            text, source, at = text + data[source:source + size], source + size, at + 8
            if segment == LAST:
                return text[:-1] if is_known else None
            value = VALUES.get(string(word(32) + 8 * segment)[:-1])
            text, is_known = text + (value or b""), is_known and value is not None

    found = {string(word(12) + 8 * i).split(b"\0")[0]: string(word(16) + 8 * i) for i in range(word(8))}
    for i in range(word(36) if revision_of(data) & 0xFFFF else 0):
        key, text = pieced(word(word(40) + 4 * i)), pieced(word(word(44) + 4 * i))
        if key is not None and text is not None:
            found.setdefault(key.split(b"\0")[0], text)
    return found


# ---- glibc


def charset_of(texts: dict[bytes, bytes]) -> str:
    """The charset that the header names, if texts in it have to be decoded; otherwise UTF-8."""
    found = re.search(rb"charset=([^ \t\n]*)", texts.get(b"", b""))
    try:
        name = found[1].decode() if found else ""
        return name if name and codecs.lookup(name).name not in ("utf-8", "ascii") else "UTF-8"
    except LookupError:
        return "UTF-8"


def renamed(header: bytes, charset: str) -> bytes:
    return header.replace(f"charset={charset}".encode(), b"charset=UTF-8", 1)


def in_utf8(texts: dict[bytes, bytes], charset: str) -> dict[bytes, bytes]:
    """The texts and keys decoded from the charset, and the header's with UTF-8 as its charset."""
    decoded = {key.decode(charset).encode(): text.decode(charset).encode() for key, text in texts.items()}
    return {key: text if key else renamed(text, charset) for key, text in decoded.items()}


class Glibc:
    """glibc's answers from files, each of which becomes a text domain."""

    def __init__(self, folder: Path):
        self.folder, self.number = folder / "xx" / "LC_MESSAGES", 0
        self.folder.mkdir(parents=True)
        self.root = str(folder).encode()
        self.libc = ctypes.CDLL(None)
        self.libc.dcgettext.restype = self.libc.dcngettext.restype = ctypes.c_void_p
        self.libc.dcngettext.argtypes = [ctypes.c_char_p] * 3 + [ctypes.c_ulong, ctypes.c_int]
        self.libc.setenv(b"LANGUAGE", b"xx", 1)
        self.libc.setlocale(LC_ALL, b"C.UTF-8")

    def domain(self, data: bytes) -> bytes:
        self.number += 1
        name = f"domain{self.number}"
        (self.folder / f"{name}.mo").write_bytes(data)
        self.libc.bindtextdomain(name.encode(), self.root)
        self.libc.bind_textdomain_codeset(name.encode(), b"UTF-8")
        return name.encode()

    def text(self, domain: bytes, key: bytes) -> bytes | None:
        asked = ctypes.create_string_buffer(key)
        at = self.libc.dcgettext(domain, asked, LC_MESSAGES)
        return None if at == ctypes.addressof(asked) else ctypes.string_at(at)

    def counted(self, domain: bytes, key: bytes, plural: bytes, n: int) -> bytes:
        return ctypes.string_at(self.libc.dcngettext(domain, key, plural, n, LC_MESSAGES))


# ---- comparing


def differences(data: bytes, glibc: Glibc, counts: Counter[str]) -> list[str]:
    """What differs between libkobdzila's catalogue of a file, the reader above and glibc; nothing of a file that is
    refused."""
    try:
        return differences_of(kobdzila.Translations(data), data, glibc, counts)
    except kobdzila.Refused as refusal:
        counts[f"refused: {refusal}"] += 1
        return []


def differences_of(ours: kobdzila.Translations, data: bytes, glibc: Glibc, counts: Counter[str]) -> list[str]:
    revision = revision_of(data)
    counts[f"of revision {revision >> 16}.{revision & 0xFFFF}"] += 1
    domain, wrong, mine, texts = glibc.domain(data), [], {}, read(data)
    charset = charset_of(texts)
    for context, msgid, plural, forms in ours.entries():
        key = b"" if context is None else context.encode() + b"\4"
        key += msgid.encode()
        mine[key] = "\0".join(forms).encode()
        counts["messages"] += 1
        theirs = glibc.text(domain, key.decode().encode(charset))
        if not key and theirs is not None:
            theirs = renamed(theirs, charset)
        if theirs != forms[0].encode():
            wrong.append(f"{key!r}: {forms[0]!r}, and glibc {theirs!r}")
        for n in range(31) if plural is not None and msgid else ():
            text = ours.ngettext(msgid, plural, n) if context is None else ours.npgettext(context, msgid, plural, n)
            if glibc.counted(domain, key.decode().encode(charset), plural.encode(), n) != text.encode():
                wrong.append(f"{key!r} with {n}: {text!r}")
    if mine != (texts if charset == "UTF-8" else in_utf8(texts, charset)):
        wrong.append("other texts than by the reader in Python")
    return wrong


def compare(files: list[tuple[str, bytes]], folder: Path) -> Counter[str]:
    glibc, counts = Glibc(folder), Counter()
    for name, data in files:
        for line in differences(data, glibc, counts)[:3]:
            print(f"wrong: {name}: {line}")
    return counts


# ---- generated files


def quoted(text: bytes) -> bytes:
    for byte, escape in ((b"\\", b"\\\\"), (b'"', b'\\"'), (b"\n", b"\\n")):
        text = text.replace(byte, escape)
    return b'"' + text + b'"'


def text_of(chance: random.Random, is_translation: bool) -> bytes:
    """Words, some of which have a macro; a translation may have the flag I."""
    flags = [b"", b"-", b"08", *([b"I"] if is_translation else [])]
    words = [b"a", b"Bytes ", "\u017elu\u0165 ".encode(), b" ", b"%%", b"%d", b"%.3f", b"p\nq", b"<PRIu64>", b'"']
    macros = [b"%" + chance.choice(flags) + b"<" + name + b">" for name in chance.sample(list(MACROS), 4)]
    return b"".join(chance.choice(macros + words) for _ in range(chance.randint(1, 5)))


def po_text(chance: random.Random) -> bytes:
    """A PO text with system-dependent messages among others, contexts and plurals."""
    lines, seen = [b'msgid ""\nmsgstr ' + quoted(HEADER)], set()
    for _ in range(chance.randint(1, 12)):
        context = chance.choice([None, None, None, b"menu", b"\xc3\xa9"])
        msgid, plural = text_of(chance, False), text_of(chance, False) if chance.random() < 0.3 else None
        if (context, msgid) in seen:
            continue
        seen.add((context, msgid))
        lines.append(b"#, c-format" if chance.random() < 0.8 else b"#. plain")
        lines += [b"msgctxt " + quoted(context)] if context is not None else []
        lines.append(b"msgid " + quoted(msgid))
        if plural is None:
            lines.append(b"msgstr " + quoted(text_of(chance, True)))
        else:
            lines.append(b"msgid_plural " + quoted(plural))
            lines += [b"msgstr[%d] %s" % (k, quoted(text_of(chance, True))) for k in range(2)]
    return b"\n".join(lines) + b"\n"


def made(count: int, folder: Path) -> list[tuple[str, bytes]]:
    files = []
    for seed in range(count):
        chance = random.Random(seed)
        text, order, align = po_text(chance), chance.choice(["little", "big"]), chance.choice(["1", "4"])
        done = subprocess.run([os.environ["GNU_MSGFMT"], "--endianness", order, "-a", align, "-o", folder / "made.mo", "-"],
                              input=text, capture_output=True, check=True)
        files.append((f"seed {seed} {done.stderr.decode()}", (folder / "made.mo").read_bytes()))
    return files


# ---- faults

STATIC: Entries = {b"": HEADER, b"a": b"b"}
# The descriptors follow the static strings, the header's table of originals is at word 10.
WITH_PARTS = mo_with_parts(STATIC, ["PRIu64"], [([b"%", "PRIu64", b" files\0"], [b"%", "PRIu64", b" fichiers\0"])])


def with_words(data: bytes, words: dict[int, int]) -> bytes:
    changed = bytearray(data)
    for at, word in words.items():
        struct.pack_into("<I", changed, at, word)
    return bytes(changed)


def word_of(data: bytes, at: int) -> int:
    return struct.unpack_from("<I", data, at)[0]


def is_opened(data: bytes) -> dict[str, str] | int:
    """The first forms by their msgids, or the number of the fault."""
    try:
        return {msgid: forms[0] for _, msgid, _, forms in kobdzila.Translations(data).entries()}
    except kobdzila.Refused as refusal:
        return refusal.fault


def strict_fault(data: bytes, folder: Path) -> int:
    """The fault of a file that is opened with KOB_STRICT; 0 if there is none."""
    (folder / "strict.mo").write_bytes(data)
    library, refusal = ctypes.CDLL(kobdzila.LIBRARY), (ctypes.c_uint * 2)()
    library.kob_open_file.restype = ctypes.c_void_p
    library.kob_release.argtypes = [ctypes.c_void_p]
    library.kob_release(library.kob_open_file(str(folder / "strict.mo").encode(), 0, STRICT, refusal))
    return refusal[0]


def swollen() -> bytes:
    """300 messages that share a text of a million bytes."""
    text, key = b"x" * 1_000_000 + b"\0", [b"%", "PRIu64", b"\0"]
    data = mo_with_parts(STATIC, ["PRIu64"], [(key, [text])] + [(key, [b"%\0"])] * 299)
    shared = word_of(data, word_of(data, 44))
    return with_words(data, {word_of(data, 44) + 4 * i: shared for i in range(300)})


def faults(folder: Path) -> list[tuple[str, object, object]]:
    """What was asked, what the answer is, and what it has to be."""
    segment, original = word_of(WITH_PARTS, 32), word_of(WITH_PARTS, word_of(WITH_PARTS, 40))
    size, whole = len(WITH_PARTS), {"": HEADER.decode(), "a": "b", "%lu files": "%lu fichiers"}
    static = {name: text for name, text in whole.items() if "%" not in name}
    unknown = WITH_PARTS.replace(b"PRIu64\0", b"PRIu63\0")
    twice = [([b"%", name, b" files\0"], [text + b"\0"]) for name, text in (("PRIu64", b"one"), ("PRIuMAX", b"two"))]
    one_key = mo_with_parts(STATIC, ["PRIu64", "PRIuMAX"], twice)
    also_static = mo_with_parts({**STATIC, b"%lu files": b"static"}, ["PRIu64", "PRIuMAX"], twice)
    changed = [
        ("the whole file", {}, whole), ("revision 1.1", {4: 0x10001}, whole), ("revision 1.0", {4: 0x10000}, static),
        ("revision 0.2", {4: 2}, 4), ("revision 2.0", {4: 0x20000}, 4), ("no segments' table", {28: size}, 13),
        ("no originals", {40: size}, 13), ("no translations", {44: size - 3}, 13), ("an empty segment", {segment: 0}, 14),
        ("a segment without NUL", {segment: 6}, 14), ("a segment past the end", {segment + 4: size - 6}, 14),
        ("a descriptor past the end", {word_of(WITH_PARTS, 40): size - 11}, 15),
        ("a segment that isn't there", {original + 8: 1}, 16), ("a piece past the end", {original + 4: size}, 17),
        ("a last piece without NUL", {original + 12: 6}, 18), ("an empty last piece", {original + 12: 0}, 18),
    ]
    found = [(name, is_opened(with_words(WITH_PARTS, words)), wanted) for name, words, wanted in changed]
    return found + [
        ("a header of 44 bytes", is_opened(with_words(bytes(44), {0: 0x950412DE, 4: 1})), 13),
        ("an unknown segment", is_opened(unknown), static),
        ("one key twice", is_opened(one_key), {**static, "%lu files": "one"}),
        ("one key, also static", is_opened(also_static), {**static, "%lu files": "static"}),
        ("texts of 300 megabytes", is_opened(swollen()), 19),
        ("static keys that fall", is_opened(with_words(mo({b"a": b"x", b"b": b"y"}, None, revision=0x10000), {
            28 + 4: 28 + 34, 28 + 12: 28 + 32})), 9),
        ("KOB_STRICT, revision 0.1", strict_fault(WITH_PARTS, folder), 4),
        ("KOB_STRICT, revision 0.0", strict_fault(mo(STATIC, HEADER), folder), 0),
    ]


# ---- what is run


def told(counts: Counter[str]) -> str:
    return ", ".join(f"{number} {what}" for what, number in sorted(counts.items()))


def main(words: list[str]) -> None:
    with tempfile.TemporaryDirectory() as name:
        folder = Path(name)
        if words[0] == "faults":
            answers = faults(folder)
            for what, found, wanted in answers:
                if found != wanted:
                    print(f"wrong: {what}: {found}, and not {wanted}")
            print(f"{len(answers)} files")
        elif words[0] == "made":
            print(told(compare(made(int(words[1]), folder), folder)))
        else:
            print(told(compare([(it, Path(it).read_bytes()) for it in words[1:]], folder)))


if __name__ == "__main__":
    main(sys.argv[1:])
