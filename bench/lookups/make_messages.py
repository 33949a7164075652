#!/usr/bin/env python3
"""Writes a PO file of N messages and the list of their msgids in another order, always the same ones for the same N.

    bench/lookups/make_messages.py N PO IDS

The msgids are words and short sentences, as those of programs are; a number in each makes it unique.
"""
import sys
from random import Random

WORDS = """file folder window document page line column word text image message account user password network server
connection address printer screen button menu option setting value name title list item entry table field key size
open close save load read write print send receive copy move remove delete add insert change replace find search
cannot could not the a this every no is are was has been with without into from for to of in on at by""".split()


def main():
    count, po_name, ids_name = int(sys.argv[1]), sys.argv[2], sys.argv[3]
    random = Random(count)
    ids = []
    for number in range(count):
        words = [random.choice(WORDS) for _ in range(random.randrange(1, 9))]
        words.insert(random.randrange(len(words) + 1), str(number))
        ids.append(" ".join(words))
    with open(po_name, "w") as po:
        po.write('msgid ""\nmsgstr "Content-Type: text/plain; charset=UTF-8\\n"\n')
        for text in ids:
            po.write(f'\nmsgid "{text}"\nmsgstr "{text[::-1]}"\n')
    random.shuffle(ids)
    with open(ids_name, "w") as out:
        out.write("".join(text + "\n" for text in ids))


main()
