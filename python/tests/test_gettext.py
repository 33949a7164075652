"""The functions and the class of the standard module gettext, and files that only Python reads."""
from __future__ import annotations

import builtins
import copy
import gettext
import io
import os
import tempfile
import unittest
from pathlib import Path
from typing import Any
from unittest import mock

import kobdzila
from kobdzila import GNUTranslations
from texts import FRENCH, HEADER, mo

CANADIAN = HEADER + 'msgid "basket"\nmsgstr "panier d\'ici"\n'


def installed(room: str) -> None:
    """Write the catalogues of the text domain `shop` for fr, fr_CA and de, and a broken one for pl."""
    french = kobdzila.Catalogue.from_po(FRENCH.encode()).mo_file()
    files = {
        "fr": french,
        "fr_CA": kobdzila.Catalogue.from_po(CANADIAN.encode()).mo_file(),
        "pl": french[:-20],
        "de": mo((b"", b"Content-Type: text/plain; charset=ISO-8859-1\n"), (b"basket", b"K\xf6rbchen")),
    }
    for locale, data in files.items():
        folder = Path(room, locale, "LC_MESSAGES")
        folder.mkdir(parents=True)
        (folder / "shop.mo").write_bytes(data)


class FunctionsTest(unittest.TestCase):
    def setUp(self) -> None:
        room = tempfile.TemporaryDirectory()
        self.addCleanup(room.cleanup)
        self.room = room.name
        installed(self.room)

    def test_translation(self) -> None:
        it = kobdzila.translation("shop", self.room, ["fr_CA"])
        self.assertIsInstance(it, GNUTranslations)
        self.assertEqual((it.gettext("basket"), it.pgettext("verb", "order")), ("panier d'ici", "commander"))
        self.assertEqual(kobdzila.translation("shop", self.room, ["fr"]).gettext("basket"), "panier")
        two = kobdzila.translation("shop", self.room, ["de", "fr"])
        self.assertEqual((two.gettext("basket"), two.ngettext("%d file", "", 2)), ("Körbchen", "%d fichiers supprimés"))
        # (the files are read once, but a fallback is that of one translation)
        again = kobdzila.translation("shop", self.room, ["de"])
        self.assertEqual(again.pgettext("verb", "order"), "order")

    def test_missing(self) -> None:
        with self.assertRaises(FileNotFoundError):
            kobdzila.translation("shop", self.room, ["sv"])
        it = kobdzila.translation("shop", self.room, ["sv"], fallback=True)
        self.assertIs(type(it), gettext.NullTranslations)

    def test_class(self) -> None:
        class Mine(GNUTranslations):
            pass

        self.assertIsInstance(kobdzila.translation("shop", self.room, ["fr"], class_=Mine), Mine)
        theirs = kobdzila.translation("shop", self.room, ["fr"], class_=gettext.GNUTranslations)
        self.assertIs(type(theirs), gettext.GNUTranslations)

    def test_broken(self) -> None:
        with self.assertRaises(OSError) as caught:
            kobdzila.translation("shop", self.room, ["pl"])
        self.assertEqual(caught.exception.strerror, "File is corrupt")
        self.assertEqual(caught.exception.filename, os.path.join(self.room, "pl", "LC_MESSAGES", "shop.mo"))
        self.assertIsInstance(caught.exception.__cause__, kobdzila.Refused)

    def test_environment(self) -> None:
        kobdzila.bindtextdomain("shop", self.room)
        self.assertEqual(kobdzila.bindtextdomain("shop"), self.room)
        for name in ("LANGUAGE", "LC_ALL", "LC_MESSAGES", "LANG"):
            with mock.patch.dict(os.environ, {name: "fr_CA:de"}, clear=True):
                self.assertEqual(kobdzila.dgettext("shop", "basket"), "panier d'ici")
                self.assertEqual(kobdzila.dngettext("shop", "%d file", "", 2), "%d fichiers supprimés")
                self.assertEqual(kobdzila.dpgettext("shop", "verb", "order"), "commander")
                self.assertEqual(kobdzila.dnpgettext("shop", "menu", "%d item", "", 2), "%d articles")
                self.assertEqual(kobdzila.gettext("basket"), "basket")
                self.assertEqual(kobdzila.textdomain("shop"), "shop")
                self.assertEqual(kobdzila.gettext("basket"), "panier d'ici")
                self.assertEqual(kobdzila.ngettext("%d file", "", 2), "%d fichiers supprimés")
                self.assertEqual(kobdzila.pgettext("verb", "order"), "commander")
                self.assertEqual(kobdzila.npgettext("menu", "%d item", "", 1), "%d article")
                kobdzila.textdomain("messages")
        with mock.patch.dict(os.environ, {"LANGUAGE": "C"}, clear=True):
            self.assertEqual(kobdzila.dgettext("shop", "basket"), "basket")

    def test_path(self) -> None:
        kobdzila.bindtextdomain("shop", Path(self.room))
        with mock.patch.dict(os.environ, {"LANGUAGE": "fr_CA:de"}, clear=True):
            self.assertEqual(kobdzila.dgettext("shop", "basket"), "panier d'ici")
            self.assertEqual(kobdzila.dpgettext("shop", "verb", "order"), "commander")

    def test_install(self) -> None:
        with mock.patch.dict(builtins.__dict__), mock.patch.dict(os.environ, {"LANGUAGE": "fr"}):
            kobdzila.install("shop", self.room, names=["ngettext", "other"])
            installed: dict[str, Any] = vars(builtins)
            self.assertEqual(installed["_"]("basket"), "panier")
            self.assertEqual(installed["ngettext"]("%d file", "", 2), "%d fichiers supprimés")
            self.assertFalse(hasattr(builtins, "other"))


class ClassTest(unittest.TestCase):
    def test_sources(self) -> None:
        data = kobdzila.Catalogue.from_po(FRENCH.encode()).mo_file()
        with tempfile.NamedTemporaryFile(suffix=".mo") as file:
            file.write(data)
            file.flush()
            for source in (data, bytearray(data), io.BytesIO(data), file.name, Path(file.name)):
                self.assertEqual(GNUTranslations(source).gettext("basket"), "panier")

    def test_read_by_python(self) -> None:
        """Other charsets, other revisions: what Python's reader answers."""
        header = (b"", b"Content-Type: text/plain; charset=Shift_JIS\nPlural-Forms: nplurals=2; plural=n>1;\n")
        files = [
            mo(header, (b"a\0b", b"\xa4\xa2\0\xa4\xa4"), (b"c\x04d", b"\xa4\xa6")),
            mo((b"a", b"b"), revision=1),
            mo((b"a", b"b"), revision=2),
        ]
        for data in files:
            theirs, ours = gettext.GNUTranslations(io.BytesIO(data)), GNUTranslations(data)
            for it in (ours, copy.copy(ours)):
                self.assertEqual((it.info(), it.charset()), (theirs.info(), theirs.charset()))
                self.assertEqual(it.gettext("a"), theirs.gettext("a"))
                self.assertEqual(it.pgettext("c", "d"), theirs.pgettext("c", "d"))
                for n in (0, 1, 2, -1, 2**70):
                    self.assertEqual(it.ngettext("a", "b", n), theirs.ngettext("a", "b", n))
            fallback: Any = kobdzila.Catalogue.from_po(b'msgid "cart"\nmsgstr "chariot"\n')
            ours.add_fallback(fallback)
            self.assertEqual(ours.gettext("cart"), "chariot")

    def test_refused(self) -> None:
        """A file that neither reads is an OSError with its name."""
        for data in (b"", b"x" * 40, mo((b"a", b"\xff")), mo((b"a", b"b"), revision=5 << 16), mo((b"a\0b\0c", b"x"))):
            file = io.BytesIO(data)
            file.name = "some.mo"
            with self.assertRaises(OSError) as caught:
                GNUTranslations(file)
            self.assertEqual(caught.exception.filename, "some.mo")
            self.assertTrue(caught.exception.strerror)

    def test_memory(self) -> None:
        with mock.patch.object(gettext, "GNUTranslations", side_effect=MemoryError), self.assertRaises(MemoryError):
            GNUTranslations(mo((b"a", b"b"), revision=1))

    def test_header(self) -> None:
        text = r'''msgid ""
msgstr "Content-Type: text/plain; charset=UTF-8\n#-#-#-#-#  a.po  #-#-#-#-#\nX: a\n b\n\nno colon\nY:\n: z\n z\n"
'''
        data = kobdzila.Catalogue.from_po(text.encode()).mo_file()
        theirs, ours = gettext.GNUTranslations(io.BytesIO(data)), GNUTranslations(data)
        self.assertEqual((ours.info(), ours.charset()), (theirs.info(), theirs.charset()))


if __name__ == "__main__":
    unittest.main()
