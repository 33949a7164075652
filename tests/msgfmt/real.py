#!/usr/bin/env python3
"""Compiles the PO files below folders by bin/msgfmt-or-gnu on its own, and by GNU msgfmt: what it would leave to GNU
msgfmt and for which reason, and whether status and MO file are the same. Run by hand:

    tests/msgfmt/real.py FOLDER ..
    tests/msgfmt/real.py --options='-c -f' --options=--check-format FOLDER ..
    tests/msgfmt/real.py --most 80 FOLDER ..

Without --options each file is compiled with each line of BUILDS, which are the options of build systems. With --most N
at most N files of each folder are taken, from its beginning to its end at equal distances. The driver
(DRIVER=PATH names another one) has no GNU msgfmt on its PATH. Prints two tables of Markdown, for each set of options how
many files were left to GNU msgfmt for a reason, and how the results compare; then a line for each file whose results
differ without such a reason, and the status is 1. GNU msgfmt is that of tools/gnu-msgfmt, and msgconv lies beside it.
"""
from __future__ import annotations

import argparse
import os
import re
import struct
import subprocess
import sys
import tempfile
from collections import Counter
from concurrent.futures import ThreadPoolExecutor
from pathlib import Path
from typing import NamedTuple

TOP = Path(__file__).resolve().parents[2]
DRIVER = os.environ.get("DRIVER", str(TOP / "bin/msgfmt-or-gnu"))
# Plain makefiles, CMake and Meson; rules for one file; Django; po/Makefile.in.in; vim. The last is of no build that was seen.
BUILDS = ("", "-c", "--check-format", "-c --statistics --verbose", "-v", "-f")
DATE = re.compile(rb'^"POT-Creation-Date:(?:[^"\\]|\\[^n])*\\n"\r*\n', re.M)
CHARSET = re.compile(rb"charset=(?:utf-?8|(?:us-)?ascii)(?=\\n)", re.I)
REVISION, ENTRIES, DEPENDENT = slice(4, 8), slice(8, 12), slice(36, 40)  # the places of words in an MO file
NOBODY = "/bin/false"  # in the place of GNU msgfmt, so that the log has the reason
SAME, DIFFERENT = "the same bytes", "DIFFERENT"


class Answer(NamedTuple):
    status: int
    made: bytes
    said: str


class Compared(NamedTuple):
    """What became of one file with one set of options: the reason for GNU msgfmt, or ``; and how the results compare."""

    path: Path
    reason: str
    result: str
    detail: str = ""


def run(program: str, options: str, name: str | Path, text: bytes | None = None, **more: str) -> Answer:
    """Compiles a file, or the text as standard input; the MO file comes from standard output."""
    environment = {"LC_ALL": "C.UTF-8", "PATH": "/nonexistent", **more}
    done = subprocess.run([program, *options.split(), "--no-hash", "-o", "-", str(name)], input=text, env=environment,
                          capture_output=True, timeout=120)
    return Answer(done.returncode, done.stdout, done.stderr.decode(errors="replace").strip())


def reason_of(options: str, path: Path) -> str:
    """Why the driver runs GNU msgfmt, or nothing if it doesn't."""
    with tempfile.NamedTemporaryFile() as log:
        run(DRIVER, options, path, GNU_MSGFMT=NOBODY, MSGFMT_OR_GNU_LOG=log.name)
        lines = [it.split("\t") for it in Path(log.name).read_text(errors="replace").splitlines()]
    return next((fields[2] for fields in lines if fields[0] == "GNU"), "")


def in_utf8(gnu: str, text: bytes) -> bytes | None:
    """The text converted by msgconv."""
    words = [str(Path(gnu).with_name("msgconv")), "-t", "UTF-8", "--force-po", "-"]
    done = subprocess.run(words, input=text, capture_output=True, env={"LC_ALL": "C.UTF-8"}, timeout=120)
    return done.stdout if done.returncode == 0 else None


def static_texts(made: bytes) -> dict[bytes, bytes]:
    """The texts of an MO file that don't depend on the system, by their keys."""
    count, keys, texts = struct.unpack_from("<III", made, 8)
    tables = [struct.iter_unpack("<II", made[at:at + 8 * count]) for at in (keys, texts)]
    return dict(zip(*([made[at:at + size] for size, at in table] for table in tables)))


def has_more_texts(theirs: bytes, ours: bytes) -> bool:
    """Whether an MO file with as many system-dependent strings has all static texts of another, and more of them."""
    if any(made[REVISION] != b"\1\0\0\0" for made in (theirs, ours)) or theirs[DEPENDENT] != ours[DEPENDENT]:
        return False
    return static_texts(theirs).items() > static_texts(ours).items()


def files_compared(gnu: str, options: str, text: bytes, ours: Answer, theirs: Answer) -> str:
    """How two MO files compare. GNU's lacks the field POT-Creation-Date, and before 0.22 keeps the charset. Since 0.23
    it says UTF-8 for other spellings and for ASCII, and has the texts that macros expand to on some systems."""
    if ours.made == theirs.made:
        return SAME
    if ours.made[ENTRIES] == bytes(4) and not theirs.made:
        return "nothing is translated: GNU's writes no file"
    if theirs.made[REVISION] == b"\1\0\1\0" != ours.made[REVISION]:
        return "GNU's is of revision 1.1, for the flag I"
    undated = DATE.sub(b"", text, count=1)
    made = run(DRIVER, options, "-", undated).made
    if made == theirs.made:
        return "the same but for POT-Creation-Date"
    named = run(DRIVER, options, "-", CHARSET.sub(b"charset=UTF-8", undated, count=1)).made
    if named == theirs.made:
        return "the same but for the charset's name"
    if has_more_texts(theirs.made, named):
        return "GNU's also has the expansions of macros"
    converted = in_utf8(gnu, undated)
    if converted and made == run(gnu, options, "-", converted).made:
        return "the same in UTF-8"
    return DIFFERENT


def statistics(answer: Answer) -> str:
    """The line of the statistics, without the file's name that comes before it with -v."""
    found = re.search(r"(?:\d+ [a-z ]+(?:, |\.$))+$", answer.said.splitlines()[-1]) if answer.said else None
    return found[0] if found else ""


def compare(gnu: str, options: str, path: Path) -> Compared:
    ours, theirs = run(DRIVER, options, path), run(gnu, options, path)
    reason = reason_of(options, path)
    if ours.status and theirs.status:
        return Compared(path, reason, "refused by both")
    if ours.status or theirs.status:
        who, said = ("the driver", ours.said) if ours.status else ("GNU's", theirs.said)
        return Compared(path, reason, f"refused by {who} alone", said)
    result = files_compared(gnu, options, path.read_bytes(), ours, theirs)
    if result != DIFFERENT and statistics(ours) != statistics(theirs):
        return Compared(path, reason, "other statistics", f"{ours.said} and not {theirs.said}")
    return Compared(path, reason, result)


def table(title: str, columns: list[tuple[str, Counter[str]]]) -> None:
    names = sorted(set().union(*(counts for _, counts in columns)), key=lambda it: (-max(c[it] for _, c in columns), it))
    print(f"| {title} | {' | '.join(f'`{options}`' if options else 'no option' for options, _ in columns)} |")
    print(f"| --- |{' --- |' * len(columns)}")
    for name in names:
        print(f"| {name} | {' | '.join(str(counts[name]) for _, counts in columns)} |")
    print()


def is_unexpected(it: Compared) -> bool:
    """Nothing that the driver leaves to GNU msgfmt explains the result."""
    return it.result in (DIFFERENT, "other statistics") or (not it.reason and "alone" in it.result)


def left_to_gnu(found: list[Compared]) -> Counter[str]:
    """Why files were left to GNU msgfmt, and whether this compiles them."""
    refused = ("refused by both", "refused by GNU's alone")
    return Counter(f"GNU's {'refuses' if it.result in refused else 'compiles'} it: {it.reason}" for it in found if it.reason)


def results_of(found: list[Compared]) -> Counter[str]:
    return Counter(f"left to GNU's, and without it {it.result}" if it.reason else it.result for it in found)


def files_below(folder: Path, most: int) -> list[Path]:
    """The PO files below a folder, at most `most` of them."""
    found = sorted(it for it in folder.rglob("*.po") if it.is_file() and not it.is_symlink())
    return found[:: -(-len(found) // most) or 1] if most else found


def main() -> int:
    parser = argparse.ArgumentParser()
    parser.add_argument("--most", type=int, default=0)
    parser.add_argument("--options", action="append")
    parser.add_argument("folders", nargs="+", type=Path)
    words = parser.parse_args()
    gnu = subprocess.run([TOP / "tools/gnu-msgfmt"], capture_output=True, text=True, check=True).stdout.strip()
    paths = sorted({it for folder in words.folders for it in files_below(folder, words.most)})
    builds = words.options or BUILDS
    with ThreadPoolExecutor(os.cpu_count()) as pool:
        found = [(options, list(pool.map(lambda path: compare(gnu, options, path), paths))) for options in builds]
    print(f"{len(paths)} PO files\n")
    table("Left to GNU msgfmt", [(options, left_to_gnu(each)) for options, each in found])
    table("Compared with GNU msgfmt", [(options, results_of(each)) for options, each in found])
    unexpected = [(options, it) for options, each in found for it in each if is_unexpected(it)]
    for options, it in unexpected:
        print(f"`{options}` {it.path}: {it.result}, {it.reason or '-'}: {it.detail[:300]!r}")
    return 1 if unexpected else 0


if __name__ == "__main__":
    sys.exit(main())
