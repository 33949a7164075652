#!/usr/bin/env python3
"""Writes a script of 1,000 loads and 100,000 questions in 100 rounds, of about BYTES bytes, always the same one.

    bench/scripts/make_script.py BYTES > FILE          the script
    bench/scripts/make_script.py BYTES --loads > FILE  its loads alone, in as many rounds: no worker is asked

The texts are those of bench/make_po.py, each of its own seed. One question in four has a number; one in ten asks
for a message that no text has.
"""
import subprocess
import sys
from pathlib import Path
from random import Random

LOADS, QUESTIONS, ROUNDS, LOCALES = 1000, 100_000, 100, 20
TEXTS = 20


def main():
    size = int(sys.argv[1]) // LOADS
    asks = "--loads" not in sys.argv
    make_po = Path(__file__).parent.parent / "make_po.py"
    texts, keys = [], ["no such message"]
    for seed in range(TEXTS):
        text = subprocess.run([sys.executable, make_po, str(size), str(seed)], stdout=subprocess.PIPE, check=True).stdout
        texts.append(text)
        # the msgids of one line without an escape
        keys += [line[7:-1].decode() for line in text.split(b"\n") if line.startswith(b'msgid "') and len(line) > 8 and b"\\" not in line]
    random, out = Random(1), sys.stdout.buffer
    for turn in range(ROUNDS):
        for load in range(LOADS // ROUNDS):
            text = texts[random.randrange(TEXTS)]
            out.write(b"load\tapp\tl%d\t-\t%d\n" % (random.randrange(LOCALES), text.count(b"\n")) + text)
        for question in range(QUESTIONS // ROUNDS if asks else 0):
            key = keys[random.randrange(len(keys))] if random.randrange(10) else keys[0]
            call = f"ngettext\t{key}\tothers\t{question}" if question % 4 == 0 else f"gettext\t{key}"
            out.write(f"ask\t{question % 2}\tapp\tl{random.randrange(LOCALES)}\t{call}\n".encode())
        out.write(b"go\n")


main()
