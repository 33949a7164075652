#!/usr/bin/env python3
"""Compiles each PO file below a folder by two programs, with -c and without, and sorts every difference by its reason.

    compare.py OURS GNU FOLDER REASONS SUMMARY

OURS and GNU are the paths of the two programs. REASONS is the table of known reasons; the head of
tests/msgfmt/packages/reasons says what its columns are. Prints a line `ok` or `FAILED` for each level, one `FAILED` for each
difference that has no known reason, and writes SUMMARY, a table of Markdown.
"""
import os
import re
import subprocess
import sys
from collections import Counter
from concurrent.futures import ThreadPoolExecutor
from pathlib import Path

DATE = re.compile(rb'^"POT-Creation-Date:(?:[^"\\]|\\[^n])*\\n"\r*\n', re.M)
REFUSAL = re.compile(r":\d+: (?!warning: )(.*)\Z", re.S)
NUMBER = re.compile(r"(?<=fails at )\d+")
REVISION = slice(4, 8)  # where an MO file has it
COUNT = slice(8, 12)  # and the number of its entries
REFUSES = "refuses: "
LEVELS = ("", "-c")
NAMED = 20  # unknown differences that are printed
SAME = "the same bytes"
BOTH_REFUSE = "refused by both"


# (QEMU_LD_PREFIX is an emulator's)
ENVIRONMENT = {"LC_ALL": "C.UTF-8", **{name: os.environ[name] for name in ("QEMU_LD_PREFIX",) if name in os.environ}}


def run(program, level, text):
    """What a program answers to a PO text: its status, the MO file, the error output."""
    words = [program, *filter(None, [level]), "--no-hash", "-o", "-", "-"]
    done = subprocess.run(words, input=text, capture_output=True, env=ENVIRONMENT)
    return done.returncode, done.stdout, done.stderr.decode(errors="replace").strip()


def our_answer(program, level, text):
    """`compiles` and the MO file, or the text of the refusal."""
    status, made, said = run(program, level, text)
    if status == 0:
        return "compiles", made
    found = REFUSAL.search(said)
    return (NUMBER.sub("N", found[1]) if found else f"status {status}: {said}"), b""


def gnu_answer(program, level, text):
    """`compiles` and the MO file, `writes nothing`, or `refuses: ` with what it says."""
    status, made, said = run(program, level, text)
    if status != 0:
        return REFUSES + said, b""
    return ("compiles" if made else "writes nothing"), made


def compare(ours, gnu, level, text):
    """The answers of both, as the first two columns of the table of reasons have them; None where they are the same."""
    answer, made = our_answer(ours, level, text)
    other, wanted = gnu_answer(gnu, level, text)
    if answer == other == "compiles" and made != wanted:
        if wanted[REVISION] != bytes(4):
            answer = "revision"
        elif our_answer(ours, level, DATE.sub(b"", text, count=1)) == ("compiles", wanted):
            answer = "date"
        else:
            answer = "other bytes"
    elif answer == other == "compiles":
        return None
    elif answer == "compiles" and made[COUNT] == bytes(4):
        answer = "empty"
    return answer, other


def known_reasons(path):
    """The rows of the table: the two answers, the expression, the reason."""
    rows = []
    for line in path.read_text(encoding="utf-8").splitlines():
        if line and not line.startswith("#"):
            ours, gnu, pattern, reason = line.split("\t")
            rows.append((ours, gnu, re.compile(pattern.encode(), re.M), reason))
    return rows


def reason_of(answers, text, rows):
    """How the summary names a file's answers; None where no reason is known."""
    if answers is None:
        return SAME
    answer, other = answers
    if other.startswith(REFUSES) and answer not in ("compiles", "empty"):
        return BOTH_REFUSE
    for ours, gnu, pattern, reason in rows:
        if answer == ours and is_said(gnu, other) and pattern.search(text):
            return reason
    return None


def is_said(gnu, other):
    """An answer of GNU msgfmt is the one of a row."""
    if gnu.startswith(REFUSES):
        return other.startswith(REFUSES) and re.search(gnu[len(REFUSES) :], other[len(REFUSES) :]) is not None
    return gnu == other


def look_at(ours, gnu, path, rows):
    """The answers to one PO file, and their reason, at each level."""
    text = path.read_bytes()
    found = []
    for level in LEVELS:
        answers = compare(ours, gnu, level, text)
        found.append((answers, reason_of(answers, text, rows)))
    return path, found


def judge(level, column, folder, looked):
    """Prints the result of a level; gives its counts by reason."""
    name = f"packages, {level or 'without -c'}"
    counts = Counter(found[column][1] or "unknown" for _, found in looked)
    unknown = [(path, found[column][0]) for path, found in looked if found[column][1] is None]
    for path, (answer, other) in unknown[:NAMED]:
        print(f"FAILED {name}, {path.relative_to(folder)}: ours: {answer}; GNU's: {other[:200]!r}")
    if len(unknown) > NAMED:
        print(f"FAILED {name}: {len(unknown) - NAMED} more without a known reason")
    if not unknown:
        print(f"ok {name}: {len(looked)} PO files, no difference without a known reason")
    return counts


def table(folder, looked, counts):
    """The summary, as a table of Markdown."""
    reasons = sorted(set().union(*counts), key=lambda it: (it != SAME, -counts[0][it], it))
    packages = {path.relative_to(folder).parts[0] for path, _ in looked}
    lines = [f"{len(looked)} PO files of {len(packages)} packages.", ""]
    lines += ["| Compared with GNU msgfmt | without `-c` | with `-c` |", "| --- | --- | --- |"]
    lines += [f"| {it} | {' | '.join(str(count[it]) for count in counts)} |" for it in reasons]
    return "\n".join(lines) + "\n"


def main():
    ours, gnu, folder, reasons, summary = sys.argv[1:]
    folder = Path(folder)
    rows = known_reasons(Path(reasons))
    paths = sorted(path for path in folder.rglob("*.po") if path.is_file())
    if not paths:
        print(f"FAILED packages: no PO files in {folder}")
        return
    with ThreadPoolExecutor(max_workers=max(1, (os.cpu_count() or 2) // 2)) as pool:
        looked = list(pool.map(lambda path: look_at(ours, gnu, path, rows), paths))
    counts = [judge(level, column, folder, looked) for column, level in enumerate(LEVELS)]
    Path(summary).write_text(table(folder, looked, counts), encoding="utf-8")


if __name__ == "__main__":
    main()
