#!/usr/bin/env python3
"""Compares PROGRAM with tests/msgfmt/plain.py on the texts of tests/msgfmt/plain_texts.py, each with and without -f: the exit
status, the bytes on standard output and the line on the error output must be the same. Prints a line for each group.

    tests/msgfmt/plain_compare.py PROGRAM
"""
import os
import subprocess
import sys
from collections import Counter
from concurrent.futures import ThreadPoolExecutor

import plain
import plain_texts

PATIENCE = 60 * int(os.environ.get("SLOWER", "1"))  # seconds
RANDOM_TEXTS = 8000
FEWEST = 50  # of the random texts that end in each way
WAYS = (
    "not UTF-8",
    "bad escape",
    "string not closed",
    "unknown word",
    "bad text",
    "out of order",
    "wrong plural index",
    "duplicate message",
    "unsupported charset",
)


def answer_of_program(text, words):
    line = [sys.argv[1], *words, "-o", "-", "-"]
    run = subprocess.run(line, input=text, capture_output=True, timeout=PATIENCE, check=False)
    return run.returncode, run.stdout, run.stderr


def answer_of_plain(text, words):
    try:
        return 0, plain.compile_po(text, "-f" in words), b""
    except plain.Fault as fault:
        return 1, b"", f"{fault}\n".encode()


def shown(answer):
    status, out, error = answer
    return f"status {status}, {error!r}, {len(out)} bytes {out[:400]!r}"


def difference(text):
    """How the two differ on a text, or None."""
    for words in ([], ["-f"]):
        program, plainly = answer_of_program(text, words), answer_of_plain(text, words)
        if program != plainly:
            return f"{text[:2000]!r} {words}: the program {shown(program)}; the plain reading {shown(plainly)}"
    return None


def compare(name, texts, more=""):
    with ThreadPoolExecutor(4) as pool:
        differences = [it for it in pool.map(difference, texts) if it]
    for it in differences[:5]:
        print(f"FAILED plain {name}: {it}")
    if not differences:
        print(f"ok plain {name} ({len(texts)} texts{more})", flush=True)


def way(text):
    """How a text ends in the plain reading: 'compiled', or why it is refused."""
    try:
        plain.compile_po(text, False)
        return "compiled"
    except plain.Fault as fault:
        return fault.why


def check_worked():
    """The plain reading gives what the tables say."""
    for text, messages in plain_texts.COMPILED:
        check_one(text, (0, plain.mo_file(messages), b""))
    for text, line, why in plain_texts.REFUSED:
        check_one(text, (1, b"", f"-:{line}: {why}\n".encode()))


def check_one(text, wanted):
    got = answer_of_plain(text, [])
    if got != wanted:
        print(f"FAILED plain reading of a worked text: {text[:2000]!r}: {shown(got)}; not {shown(wanted)}")


def check_random(texts):
    """Enough random texts end in each way; says how many do."""
    ways = Counter(map(way, texts))
    rare = [it for it in ("compiled", *WAYS) if ways[it] < FEWEST]
    if rare:
        print(f"FAILED plain random texts: fewer than {FEWEST} of them end so: {', '.join(rare)}")
    refused = ", ".join(f"{ways[it]} {it}" for it in WAYS)
    return f": {ways['compiled']} compiled, {len(texts) - ways['compiled']} refused: {refused}"


def main():
    check_worked()
    compare("worked texts that compile", [text for text, _ in plain_texts.COMPILED])
    compare("worked texts that are refused", [text for text, _, _ in plain_texts.REFUSED])
    for name, text in plain_texts.WHOLE.items():
        compare(f"each front of {name}", plain_texts.fronts(text))
    texts = plain_texts.random_texts(RANDOM_TEXTS)
    compare("random texts", texts, check_random(texts))


if __name__ == "__main__":
    main()
