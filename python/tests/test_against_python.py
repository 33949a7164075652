"""Installed and mutated catalogues: the same texts as Python's own gettext wherever both read the file."""
from __future__ import annotations

import gettext
import io
import random
import re
import unittest
from pathlib import Path
from typing import Any

import kobdzila
from texts import ARABIC, FRENCH

INSTALLED, MUTATED = 300, 1_000
NUMBERS = [*range(31), 100, 101, 111, 1000, 10**6 + 1, 2**64 + 3, -1]


def read_by_python(data: bytes) -> gettext.GNUTranslations | None:
    try:
        return gettext.GNUTranslations(io.BytesIO(data))
    except Exception:  # noqa: BLE001 (struct.error, KeyError, LookupError, ValueError, ..)
        return None


def read(data: bytes) -> kobdzila.GNUTranslations | None:
    """The catalogue, or None if it is refused. Each refusal is an OSError."""
    try:
        return kobdzila.GNUTranslations(data)
    except OSError:
        return None


def form_count(translations: Any) -> float:
    """How many values of the rule count for both readers. A damaged header may have a rule for one of them alone.

    kobdzila takes the first form for a value that isn't below nplurals, and finds the rule in any line of the header.
    """
    header = translations._catalog.get("", "")
    found = re.search(r"nplurals=[ \t]*(\d+)", header)
    if "plural=" not in header.replace("nplurals=", ""):
        return float("inf")
    return int(found[1]) if found and "plural=" in translations.info().get("plural-forms", "") else 0


def differences(theirs: Any, ours: kobdzila.GNUTranslations) -> list[str]:
    """The look-ups that differ, of every message of Python's catalogue."""
    wrong: list[str] = []
    forms = form_count(theirs)

    def compare(call: str, *words: object) -> None:
        wanted, got = getattr(theirs, call)(*words), getattr(ours, call)(*words)
        if words == ("",) and wanted != got:  # (the header of converted texts names UTF-8)
            wanted = wanted.replace(f"charset={theirs.charset()}", "charset=UTF-8", 1)
        if wanted != got:
            wrong.append(f"{call}{words}: {got!r} and not {wanted!r}")

    for key in theirs._catalog:
        whole = key[0] if isinstance(key, tuple) else key
        context, mark, msgid = whole.partition("\x04")
        name, words = ("p", (context, msgid)) if mark else ("", (whole,))
        if isinstance(key, str):
            compare(f"{name}gettext", *words)
        elif key[1] == 0:
            for n in NUMBERS:
                value = theirs.plural(n)
                if value < forms and (whole, value) in theirs._catalog:
                    compare(f"n{name}gettext" if mark else "ngettext", *words, "plural", n)
    return wrong


def mutated(chance: random.Random, whole: bytes) -> bytes:
    """Some bytes are others: in half of the files letters of the texts, in the others any bytes, or the end is gone."""
    data = bytearray(whole)
    in_texts = chance.random() < 0.5
    first = 28 + 16 * int.from_bytes(whole[8:12], "little") if in_texts else 0
    for _ in range(chance.randint(1, 3)):
        value = chance.randrange(32, 127) if in_texts else chance.choice((0, 1, 4, 255, chance.randrange(256)))
        data[chance.randrange(first, len(data))] = value
    if not in_texts and chance.random() < 0.1:
        del data[chance.randrange(len(data)):]
    return bytes(data)


class AgainstPythonTest(unittest.TestCase):
    def test_installed(self) -> None:
        names = sorted(Path("/usr/share/locale").glob("*/LC_MESSAGES/*.mo"))
        if not names:
            self.skipTest("no installed catalogues")
        chosen = names[:: max(1, len(names) // INSTALLED)][:INSTALLED]
        by_library = 0
        for name in chosen:
            data = name.read_bytes()
            theirs, ours = read_by_python(data), read(data)
            if theirs is not None:
                assert ours is not None, name
                self.assertEqual(differences(theirs, ours)[:3], [], name)
                self.assertEqual((ours.info(), ours.charset()), (theirs.info(), theirs.charset()), name)
                by_library += ours.count > 0
        print(f"{len(chosen)} installed catalogues, {by_library} of them by the library")

    def test_mutated(self) -> None:
        chance, both, refused = random.Random(1), 0, 0
        whole = [kobdzila.Catalogue.from_po(text.encode()).mo_file() for text in (FRENCH, ARABIC)]
        for number in range(MUTATED):
            data = mutated(chance, whole[number % 2])
            theirs, ours = read_by_python(data), read(data)
            refused += ours is None
            if ours is not None:
                ours.gettext("basket"), ours.ngettext("%d file", "", 3), ours.info(), ours.forms("x")
                self.assertEqual(len(list(ours.entries())), ours.count)
            if theirs is not None and ours is not None:
                both += 1
                self.assertEqual(differences(theirs, ours)[:3], [], f"mutation {number}")
        self.assertGreater(min(both, refused), 50)
        print(f"{MUTATED} mutated catalogues, {both} read by both, {refused} refused")


if __name__ == "__main__":
    unittest.main()
