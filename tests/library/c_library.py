#!/usr/bin/env python3
"""Compares libkobdzila with other readers of MO files. Run by tests/library/c_library.sh.

    c_library.py installed FILE..      each key and each plural at 0 to 30, beside Python's own gettext
    c_library.py mutate FILE FOLDER N  writes N files, each FILE with some bytes changed
    c_library.py script FILE..         a script for catserve that loads these files

`installed` needs LIBKOBDZILA, the library's path, and examples/python on the path of Python.
"""
import gettext
import random
import sys
from pathlib import Path


def differences(theirs, ours):
    """How many look-ups there are, and the first few that differ. Python's gettext has no system-dependent strings."""
    asked, wrong, known = 0, [], keys_of(theirs)
    for context, msgid, plural, _forms in ours.entries():
        if not msgid or key_of(context, msgid) not in known:
            continue
        calls = [("gettext", (msgid,))] if context is None else [("pgettext", (context, msgid))]
        if plural is not None:
            name = "ngettext" if context is None else "npgettext"
            front = () if context is None else (context,)
            # (of a form that isn't in the file Python makes the msgid, and glibc the first form)
            calls = [(name, front + (msgid, plural, n)) for n in range(31)
                     if (key_of(context, msgid), theirs.plural(n)) in theirs._catalog]
        for name, words in calls:
            asked += 1
            if getattr(theirs, name)(*words) != getattr(ours, name)(*words):
                wrong.append(f"{name}{words}")
    return asked, wrong


def key_of(context, msgid):
    return msgid if context is None else f"{context}\x04{msgid}"


def keys_of(theirs):
    return {key[0] if isinstance(key, tuple) else key for key in theirs._catalog} - {""}


def installed(names):
    import kobdzila_ctypes as kobdzila
    files = asked = refused = 0
    for name in names:
        data = Path(name).read_bytes()
        try:
            ours = kobdzila.Translations(data)
        except kobdzila.Refused as refusal:
            refused += 1
            # (text that isn't UTF-8, keys out of order, another charset)
            if refusal.fault not in (7, 9, 10):
                print(f"wrong: {name} is refused: {refusal}")
            continue
        try:
            with open(name, "rb") as opened:
                theirs = gettext.GNUTranslations(opened)
        except (ValueError, UnicodeDecodeError, OSError):
            continue
        count, wrong = differences(theirs, ours)
        mine = {key_of(context, id) for context, id, _plural, _forms in ours.entries()} - {""}
        if keys_of(theirs) != mine and (data[4:8] == bytes(4) or not keys_of(theirs) < mine):
            wrong.append("other keys")
        for line in wrong[:3]:
            print(f"wrong: {name}: {line}")
        files, asked = files + 1, asked + count
    print(f"{files} catalogues, {asked} look-ups, {refused} catalogues refused")


def mutate(name, folder, count):
    whole = Path(name).read_bytes()
    chance = random.Random(1)
    for number in range(count):
        data = bytearray(whole)
        for _ in range(chance.randint(1, 4)):
            # (most changes hit the header and the tables)
            at = chance.randrange(len(data)) if chance.random() < 0.3 else chance.randrange(min(len(data), 1200))
            data[at] = chance.choice((0, 1, 4, 255, chance.randrange(256)))
        if chance.random() < 0.2:
            del data[chance.randrange(len(data)):]
        Path(folder, f"{number:05}").write_bytes(bytes(data))


def script(names):
    for name in names:
        print(f"loadmo\tapp\tfr\t{Path(name).read_bytes().hex()}")


if __name__ == "__main__":
    what, words = sys.argv[1], sys.argv[2:]
    if what == "installed":
        installed(words or [line.strip() for line in sys.stdin])
    elif what == "mutate":
        mutate(words[0], words[1], int(words[2]))
    else:
        script(words or [line.strip() for line in sys.stdin])
