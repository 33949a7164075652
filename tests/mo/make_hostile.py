#!/usr/bin/env python3
"""Writes large MO files of hostile shapes, whose strings mostly overlap, and says what they must be answered with.

    tests/mo/make_hostile.py                      prints the names of the shapes
    tests/mo/make_hostile.py SHAPE BYTES FILE     writes a file of about BYTES bytes, and prints its answer: 'read' and the
                                               number of its entries, or the number of its refusal in docs/reference/mo.md

The shape `tiny_entries` has four times as many bytes. The seed is fixed, so each file is the same each time.
"""
import array
import random
import sys

BAD_TEXT, FORMS, ORDER, SWOLLEN = (f"refusal {number}" for number in (7, 8, 9, 11))
KEY = 8  # bytes that a key of seven digits takes, with its NUL


def words(numbers):
    """Words of 32 bits, low byte first."""
    held = array.array("I", numbers)
    if sys.byteorder != "little":
        held.byteswap()
    return held.tobytes()


def table(rows):
    """The lengths and the places of strings."""
    return words(number for row in rows for number in row)


def mo(originals, translations, strings):
    """The parts of the file of these rows and strings, which stand behind the tables."""
    originals, translations = table(originals), table(translations)
    count = len(originals) // 8
    head = words([0x950412DE, 0, count, 28, 28 + 8 * count, 0, strings_start(count)])
    return [head, originals, translations, *strings]


def strings_start(count):
    return 28 + 16 * count


def numbered(count):
    """Keys of seven digits in rising order, and the rows that name them as the first strings of a file."""
    keys = bytearray()
    for i in range(count):
        keys += b"%07d\0" % i
    return keys, [(KEY - 1, place) for place in key_places(count)]


def key_places(count):
    start = strings_start(count)
    return range(start, start + KEY * count, KEY)


def room(count, size):
    """Where the strings behind numbered keys begin, and how many bytes there are for them."""
    start = strings_start(count) + KEY * count
    return start, size - start


def endings(count, step):
    """The rows of what a text of count * step bytes ends with, each longer by `step` than the one before."""
    end = strings_start(count) + count * step
    return [(step * k, end - step * k) for k in range(1, count + 1)]


def text_of_endings(count, step):
    return [b"a" * (count * step), b"\0"]


# --- the shapes: each gives the parts of a file and its answer ------------------------------------------------------


def alternating_rows(size):
    count = size // 300
    keys, originals = numbered(count)
    start, left = room(count, size)
    length = left // 2 - 1
    translations = [(length, start + i % 2 * (length + 1)) for i in range(count)]
    return mo(originals, translations, [keys, b"x" * length, b"\0", b"y" * length, b"\0"]), SWOLLEN


def endings_of_one_text(size):
    count = 5000
    step = (size - strings_start(count)) // count
    rows = endings(count, step)
    return mo(rows, rows, text_of_endings(count, step)), SWOLLEN


def as_many_endings_as_fit(size):
    count = size // 17
    rows = endings(count, 1)
    return mo(rows, rows, text_of_endings(count, 1)), SWOLLEN


def on_one_text(size):
    """A sixtieth as many rows as bytes, all on one text of characters of two bytes."""
    count = size // 60
    keys, originals = numbered(count)
    start, left = room(count, size)
    length = (left - 1) // 2 * 2
    return originals, [(length, start)] * count, keys, "é".encode() * (length // 2)


def rows_on_one_text(size):
    originals, translations, keys, text = on_one_text(size)
    return mo(originals, translations, [keys, text, b"\0"]), SWOLLEN


def wrong_text_at_the_end(size):
    originals, translations, keys, text = on_one_text(size)
    return mo(originals, translations, [keys, text[:-1] + b"\xff", b"\0"]), BAD_TEXT


def nul_too_many_at_the_end(size):
    originals, translations, keys, text = on_one_text(size)
    return mo(originals, translations, [keys, text[:-2] + b"\0x", b"\0"]), FORMS


def wrong_order_at_the_end(size):
    originals, translations, keys, text = on_one_text(size)
    originals[-1], originals[-2] = originals[-2], originals[-1]
    return mo(originals, translations, [keys, text, b"\0"]), ORDER


def wrong_order_of_endings(size):
    count = 5000
    step = (size - strings_start(count)) // count
    rows = endings(count, step)
    rows[-1], rows[-2] = rows[-2], rows[-1]
    return mo(rows, rows, text_of_endings(count, step)), ORDER


def shuffled_originals(size):
    """Originals that end one text, which begin at places picked at random."""
    count = min(10_000, size // 100)
    start = strings_start(count)
    length = size - start - 1
    rows = [(n, start + length - n) for n in sorted(random.Random(1).sample(range(1, length), count))]
    return mo(rows, rows, [b"a" * length, b"\0"]), SWOLLEN


def shuffled_translations(size):
    """Translations that end one text, in no order."""
    count = size // 150
    keys, originals = numbered(count)
    start, left = room(count, size)
    length = (left - 1) // 2 * 2
    picked = random.Random(1)
    places = [2 * picked.randrange(length // 2) for _ in range(count)]
    translations = [(length - place, start + place) for place in places]
    return mo(originals, translations, [keys, "é".encode() * (length // 2), b"\0"]), SWOLLEN


# keys of one letter in two texts, taken from either by turns: each claim's keys have a distance of their own
def two_texts_by_turns(size):
    count = 10000
    start = strings_start(count)
    length = (size - start) // 2 - 1
    step = length // count
    originals = []
    for i in range(count):
        key = (i + 1) * step - i * i % step
        end = start + length if i % 2 else start + 2 * length + 1
        originals.append((key, end - key))
    text = b"a" * length + b"\0"
    return mo(originals, originals, [text, text]), "refusal 11"


def irregular_copies(size):
    """Copies of one random text, with gaps between them of which no two are alike, and all ends of the whole as keys. At
    each offset in the copies one chain of keys stands in every s-th copy, so that each pair of copies is compared once
    and no comparison answers for another. The work grows as size ** (4 / 3)."""
    picked = random.Random(5)
    letters = bytes(range(33, 127))
    length = round(size ** (2 / 3))
    count = int(size / length * 0.93)
    copied = bytes(picked.choices(letters, k=length))
    text, starts = bytearray(), []
    for copy in range(count):
        starts.append(len(text))
        # (two bytes after each copy, in rising order, so that the keys of a chain rise)
        text += copied + bytes([40 + copy // 80, 40 + copy % 80])
        text += bytes(picked.choices(letters, k=picked.randrange(1, 4000)))
    chains = [range(first, count, step) for step in range(1, count) for first in range(step) if first + step < count]
    offsets = sorted(range(min(len(chains), length * 3 // 5)), key=lambda offset: copied[offset : offset + 24])
    keys = [starts[copy] + offset for chain, offset in zip(chains, offsets) for copy in chain]
    start = strings_start(len(keys))
    rows = [(len(text) - place, start + place) for place in keys]
    return mo(rows, [(0, start + len(text))] * len(keys), [text, b"\0"]), SWOLLEN


def tiny_entries(size):
    count = size // 6
    keys, originals = numbered(count)
    translations = ((0, place + KEY - 1) for place in key_places(count))
    return mo(originals, translations, [keys]), f"read {count}"


SHAPES = (
    alternating_rows,
    endings_of_one_text,
    as_many_endings_as_fit,
    rows_on_one_text,
    shuffled_originals,
    shuffled_translations,
    wrong_text_at_the_end,
    nul_too_many_at_the_end,
    wrong_order_at_the_end,
    wrong_order_of_endings,
    two_texts_by_turns,
    irregular_copies,
    tiny_entries,
)


def main():
    if len(sys.argv) == 1:
        print("\n".join(it.__name__ for it in SHAPES))
        return
    shape, size, name = sys.argv[1], int(sys.argv[2]), sys.argv[3]
    parts, answer = {it.__name__: it for it in SHAPES}[shape](size)
    with open(name, "wb") as out:
        out.writelines(parts)
    print(answer)


main()
