#!/usr/bin/env python3
"""Writes a large PO text of an unusual shape, and the MO file that it must compile to.

    tests/msgfmt/make_shape.py                    prints the names of the shapes
    tests/msgfmt/make_shape.py SHAPE PO MO        writes the text to the file PO, and the MO file to the file MO
"""
import struct
import sys


def mo(entries):
    """The MO file without a hash table of pairs (original, translation), which are in order."""
    texts = [it for it, _ in entries] + [it for _, it in entries]
    words, at = [0x950412DE, 0, len(entries), 28, 28 + 8 * len(entries), 0, 28 + 16 * len(entries)], 28 + 16 * len(entries)
    for it in texts:
        words += [len(it), at]
        at += len(it) + 1
    return struct.pack(f"<{len(words)}I", *words) + b"".join(it + b"\0" for it in texts)


def entry(original, translation):
    return f'msgid "{original}"\nmsgstr "{translation}"\n'


def many_strings():
    return 'msgid "a"' + ' ""' * 5_000_000 + '\nmsgstr "x"\n', [(b"a", b"x")]


def many_escapes():
    return entry("a", r"\n\303\251" * 2_000_000), [(b"a", b"\n\xc3\xa9" * 2_000_000)]


def many_forms():
    forms = "".join(f'msgstr[{i}] "x"\n' for i in range(1_000_000))
    return 'msgid "a"\nmsgid_plural "b"\n' + forms, [(b"a\0b", b"\0".join([b"x"] * 1_000_000))]


def many_flags():
    return "#, fuzzy, no-c-format\n" * 700_000 + "#~ end\n" + entry("a", "x"), [(b"a", b"x")]


def one_long_string():
    return entry("a" * 16_000_000, "x"), [(b"a" * 16_000_000, b"x")]


def one_long_comment():
    return "#" * 16_000_000 + "\n" + "\r\t\v" * 1_000_000 + entry("a", "x"), [(b"a", b"x")]


def falling_keys():
    keys = [f"{i:07}" for i in range(400_000)]
    return "".join(entry(it, "x") for it in reversed(keys)), [(it.encode(), b"x") for it in keys]


def keys_that_differ_late():
    keys = ["a" * 8000 + f"{i:04}" for i in range(2000)]
    return "".join(entry(it, "x") for it in reversed(keys)), [(it.encode(), b"x") for it in keys]


def untranslated_entries():
    return "".join(entry(i, "") for i in range(600_000)), []


SHAPES = {
    it.__name__: it
    for it in (
        many_strings,
        many_escapes,
        many_forms,
        many_flags,
        one_long_string,
        one_long_comment,
        falling_keys,
        keys_that_differ_late,
        untranslated_entries,
    )
}


def main(arguments):
    if not arguments:
        print(*SHAPES, sep="\n")
        return
    shape, po, compiled = arguments
    text, entries = SHAPES[shape]()
    with open(po, "w", encoding="utf-8", newline="") as out:
        out.write(text)
    with open(compiled, "wb") as out:
        out.write(mo(entries))


if __name__ == "__main__":
    main(sys.argv[1:])
