#!/usr/bin/env python3
"""Writes MO files for bench/mo: bench/mo/make_mo.py KIND NUMBER FILE.

    messages BYTES    messages of some 60 bytes, about BYTES bytes in all
    foreign BYTES     the same messages, high byte first, and the translations before the originals
    forms N           one message with N empty forms
"""
import struct
import sys


def write(name, pairs, byte_order="<", sides=(0, 1)):
    """The MO file of originals (side 0) and translations (side 1) that stand in order."""
    count = len(pairs)
    tables = [bytearray(), bytearray()]
    pool = bytearray()
    start = 28 + 16 * count
    for side in sides:
        for pair in pairs:
            tables[side] += struct.pack(byte_order + "II", len(pair[side]), start + len(pool))
            pool += pair[side] + b"\0"
    with open(name, "wb") as out:
        out.write(struct.pack(byte_order + "7I", 0x950412DE, 0, count, 28, 28 + 8 * count, 0, start))
        out.write(tables[0] + tables[1] + pool)


def main():
    kind, number, name = sys.argv[1], int(sys.argv[2]), sys.argv[3]
    if kind == "forms":
        write(name, [(b"a\0b", b"\0" * (number - 1))])
        return
    texts = ["The file %09d could not be opened.", "Datei %09d lässt sich nicht öffnen. Файл не открыт."]
    size = 18 + sum(len(text.encode()) + 7 for text in texts)
    pairs = [tuple((text % i).encode() for text in texts) for i in range(number // size)]
    if kind == "foreign":
        write(name, pairs, byte_order=">", sides=(1, 0))
    else:
        write(name, pairs)


main()
