"""Catalogues for the tests."""
from __future__ import annotations

import kobdzila

HEADER = r"""
msgid ""
msgstr ""
"Language: fr\n"
"Content-Type: text/plain; charset=UTF-8\n"
"Plural-Forms: nplurals=2; plural=n>1;\n"
"""
FRENCH = HEADER + r"""
msgid "basket"
msgstr "panier"

msgctxt "verb"
msgid "order"
msgstr "commander"

msgid "%d file"
msgid_plural "%d files"
msgstr[0] "%d fichier supprimé"
msgstr[1] "%d fichiers supprimés"

msgctxt "menu"
msgid "%d item"
msgid_plural "%d items"
msgstr[0] "%d article"
msgstr[1] "%d articles"
"""
# the form of 1 isn't the first one, and the first entry doesn't have every form
ARABIC = r"""
msgid ""
msgstr "Content-Type: text/plain; charset=UTF-8\nPlural-Forms: nplurals=3; plural=n==0 ? 0 : n==1 ? 1 : 2;\n"

msgid "%d file"
msgid_plural "%d files"
msgstr[0] "none"
msgstr[1] "one"
msgstr[2] "many"

msgid "!short"
msgid_plural "!shorts"
msgstr[0] "a"
msgstr[1] "b"
"""


def french() -> kobdzila.Catalogue:
    return kobdzila.Catalogue.from_po(FRENCH.encode())


def mo(*pairs: tuple[bytes, bytes], revision: int = 0) -> bytes:
    """An MO file of originals and translations as they are given."""
    def word(*numbers: int) -> bytes:
        return b"".join(it.to_bytes(4, "little") for it in numbers)

    count, at, tables, texts = len(pairs), 28 + 16 * len(pairs), [b"", b""], b""
    for side in (0, 1):
        for pair in pairs:
            tables[side] += word(len(pair[side]), at + len(texts))
            texts += pair[side] + b"\0"
    return word(0x950412DE, revision, count, 28, 28 + 8 * count, 0, at) + tables[0] + tables[1] + texts
