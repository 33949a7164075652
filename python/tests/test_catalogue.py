"""The type of the extension: opening, refusals, look-ups with every kind of argument, fallbacks, memory."""
from __future__ import annotations

import copy
import gc
import gettext
import importlib
import io
import os
import pickle
import random
import resource
import sys
import tempfile
import unittest
import warnings
import weakref
from collections.abc import Callable
from pathlib import Path
from typing import Any

import kobdzila
from common import OPENS, SANITIZED, assert_no_leak, failures_of, in_threads, needs_freed_memory, needs_testcapi
from kobdzila import Catalogue, Fault, GNUTranslations, Refused, _kobdzila
from texts import ARABIC, FRENCH, HEADER, french, mo

# PO texts and the refusal of each: its fault and line
REFUSED_TEXTS = [
    (b"# \xff", Fault.PO_NOT_UTF8, 1),
    (b'msgid "\\y"\nmsgstr ""', Fault.PO_BAD_ESCAPE, 1),
    (b'msgid "x\nmsgstr ""', Fault.PO_OPEN_STRING, 1),
    (b"\n\nmessage", Fault.PO_BAD_WORD, 3),
    (b'msgid "a\\000b"\nmsgstr "x"', Fault.PO_BAD_TEXT, 1),
    (b'msgstr "x"', Fault.PO_BAD_ORDER, 1),
    (b'msgid "a"\nmsgid_plural "b"\nmsgstr[1] "x"', Fault.PO_BAD_INDEX, 3),
    (b'msgid "a"\nmsgstr "x"\nmsgid "a"\nmsgstr "y"', Fault.PO_DUPLICATE, 3),
    (b'msgid ""\nmsgstr "charset=EUC-TW"', Fault.PO_CHARSET, 1),
]
CHECKED_TEXTS = [
    (b'msgid "a"\nmsgid_plural "b"\nmsgstr[0] "x"', Fault.PO_NO_RULE),
    (b'msgid ""\nmsgstr "nplurals=2; plural=x"\nmsgid "a"\nmsgid_plural "b"\nmsgstr[0] "x"', Fault.PO_BAD_RULE),
    (HEADER.encode() + b'msgid "a"\nmsgid_plural "b"\nmsgstr[0] "x"', Fault.PO_FORM_COUNT),
    (b'msgid ""\nmsgstr "nplurals=1; plural=n"', Fault.PO_PLURAL_RANGE),
    (b'#, c-format\nmsgid "%d"\nmsgstr "%s"', Fault.PO_FORMAT_MISMATCH),
    (b'msgid "a\\n"\nmsgstr "x"', Fault.PO_NEWLINE_MISMATCH),
]
WHOLE = mo((b"", b"charset=UTF-8"), (b"hi", b"salut"))
REFUSED_FILES = [
    (b"", Fault.MO_SHORT),
    (b"x" * 28, Fault.MO_MAGIC),
    (mo((b"a", b"x"), revision=2 << 16), Fault.MO_REVISION),
    (WHOLE[:50], Fault.MO_BOUNDS),
    (WHOLE[:-1] + b"x", Fault.MO_NO_NUL),
    (mo((b"a", b"\xff")), Fault.MO_BAD_TEXT),
    (mo((b"a", b"x\0y")), Fault.MO_FORMS),
    (mo((b"", b"charset=EUC-TW")), Fault.MO_CHARSET),
    (mo((b"", b"charset=CP1252"), (b"a", b"\x81")), Fault.MO_NO_CHARACTER),
]

# What GNU msgfmt writes of a message and of one with %<PRIu64>, which has revision 0.1.
SYSTEM_DEPENDENT = bytes.fromhex(
    "de1204950100000001000000300000003800000005000000400000000100000054000000010000005c00000060000000"
    "010000008c000000010000008e0000000100000000000000000000000000000000000000070000009000000064000000"
    "7800000097000000030000000000000001000000ffffffff9b000000010000000000000003000000ffffffff73005300"
    "505249753634006e20250025204e00"
)
# The text that it writes this file of.
SYSTEM_TEXT = b'msgid "s"\nmsgstr "S"\n#, c-format\nmsgid "n %<PRIu64>"\nmsgstr "%<PRIu64> N"\n'
# What GNU msgfmt writes of a message with the flag I, which has revision 1.1.
DIGITS_TEXT = b'#, c-format\nmsgid "%d"\nmsgstr "%Id"\n'
DIGITS = bytes.fromhex(
    "de120495010001000000000030000000300000000300000030000000010000003c000000010000004400000048000000"
    "000000000000000000000000020000006c0000004c000000580000006e00000003000000ffffffff7100000001000000"
    "0000000002000000ffffffff4900256400256400"
)
FORMS = 25


def forms_file(text: str) -> bytes:
    """An MO file of 20 messages with FORMS forms, each of which begins with the text."""
    header = f'msgid ""\nmsgstr "Plural-Forms: nplurals={FORMS}; plural=n%{FORMS};\\n"\n'
    forms = "".join(f'msgstr[{form}] "{text} {form}"\n' for form in range(FORMS))
    entries = "".join(f'\nmsgid "m{number}"\nmsgid_plural "p"\n{forms}' for number in range(20))
    return Catalogue.from_po((header + entries).encode()).mo_file()


class OpeningTest(unittest.TestCase):
    def test_system_dependent(self) -> None:
        catalogue = Catalogue.from_mo(SYSTEM_DEPENDENT)
        self.assertEqual((catalogue.gettext("n %lu"), catalogue.gettext("s")), ("%lu N", "S"))
        self.assertEqual(GNUTranslations(SYSTEM_DEPENDENT).gettext("n %lu"), "%lu N")
        with self.assertRaises(Refused) as caught:
            Catalogue.from_mo(SYSTEM_DEPENDENT[:28] + b"\xff" + SYSTEM_DEPENDENT[29:])
        self.assertEqual(caught.exception.fault, Fault.MO_DEPENDENT_TABLES)

    def test_text_with_macros(self) -> None:
        catalogue = Catalogue.from_po(SYSTEM_TEXT, checked=True)
        self.assertEqual(catalogue.mo_file(), SYSTEM_DEPENDENT)
        self.assertEqual((catalogue.gettext("n %lu"), catalogue.gettext("s")), ("%lu N", "S"))
        with self.assertRaises(Refused) as caught:
            Catalogue.from_po(SYSTEM_TEXT.replace(b"%<PRIu64> N", b"%<PRId64> N"), checked=True)
        self.assertEqual(caught.exception.fault, Fault.PO_FORMAT_MISMATCH)

    def test_text_with_digits(self) -> None:
        catalogue = Catalogue.from_po(DIGITS_TEXT, checked=True)
        self.assertEqual((catalogue.mo_file(), catalogue.gettext("%d")), (DIGITS, "%Id"))
        plain = Catalogue.from_po(DIGITS_TEXT.replace(b"#, c-format", b"#, no-c-format"))
        self.assertEqual((plain.mo_file()[4:8], plain.gettext("%d")), (bytes(4), "%Id"))

    def test_formats(self) -> None:
        file = french().mo_file()
        for data in (file, bytearray(file), memoryview(file)):
            self.assertEqual(Catalogue.from_mo(data).gettext("basket"), "panier")
        self.assertEqual(Catalogue.from_po(memoryview(FRENCH.encode())).mo_file(), file)
        self.assertEqual(GNUTranslations.from_po(FRENCH.encode()).gettext("basket"), "panier")

    def test_files(self) -> None:
        with tempfile.TemporaryDirectory() as room:
            for name, data in ((b"\xff.po", FRENCH.encode()), (b"b.mo", french().mo_file()), (b"c", FRENCH.encode())):
                path = os.fsdecode(os.path.join(os.fsencode(room), name))
                Path(path).write_bytes(data)
                po = True if name == b"c" else None
                self.assertEqual(Catalogue.open(path, po).gettext("basket"), "panier")
                self.assertEqual(Catalogue.open(Path(path), po=po).gettext("basket"), "panier")
            with self.assertRaises(Refused) as caught:
                Catalogue.open(os.path.join(room, "c"))
            self.assertEqual(caught.exception.fault, Fault.MO_MAGIC)
            for missing, wanted in ((f"{room}/none.mo", FileNotFoundError), (f"{room}", IsADirectoryError)):
                with self.assertRaises(wanted) as failed:
                    Catalogue.open(missing)
                self.assertEqual(failed.exception.filename, missing)

    def test_refused_texts(self) -> None:
        for text, fault, line in REFUSED_TEXTS:
            with self.assertRaises(Refused, msg=str(text)) as caught:
                Catalogue.from_po(text)
            self.assertEqual((caught.exception.fault, caught.exception.line), (fault, line))
            self.assertIn(caught.exception.text, str(caught.exception))
        for text, fault in CHECKED_TEXTS:
            Catalogue.from_po(text)
            with self.assertRaises(Refused, msg=str(text)) as caught:
                Catalogue.from_po(text, checked=True)
            self.assertEqual(caught.exception.fault, fault)

    def test_fuzzy(self) -> None:
        text = b'#, fuzzy\nmsgid "a"\nmsgstr "x"\n'
        self.assertEqual(Catalogue.from_po(text).gettext("a"), "a")
        self.assertEqual(Catalogue.from_po(text, False, True).gettext("a"), "x")
        one: Any = 1
        self.assertEqual(Catalogue.from_po(text, use_fuzzy=one).gettext("a"), "x")

    def test_refused_files(self) -> None:
        for data, fault in REFUSED_FILES:
            with self.assertRaises(Refused) as caught:
                Catalogue.from_mo(data)
            self.assertEqual((caught.exception.fault, caught.exception.line), (fault, 0))

    def test_wrong_arguments(self) -> None:
        made: Any = Catalogue  # (mypy would refuse these calls)
        text: Any = french()
        calls: list[Callable[[], object]] = [
            lambda: made("fr.mo"),
            lambda: made.from_mo("text"),
            lambda: made.from_mo([1, 2]),
            lambda: made.from_mo(3),
            lambda: made.from_mo(),
            lambda: made.from_po(),
            lambda: made.from_po(b"", True, False, True),
            lambda: made.from_po(b"", none=True),
            lambda: made.from_po(b"", data=b""),
            lambda: made.open(),
            lambda: made.open(3),
            lambda: text.gettext(),
            lambda: text.gettext("a", "b"),
            lambda: text.gettext(text="a"),
            lambda: text.ngettext("a", "b"),
            lambda: text.ngettext("a", "b", msgid1="c"),
            lambda: text._entry("a"),
            lambda: text._entry(),
        ]
        for number, call in enumerate(calls):
            with self.assertRaises(TypeError, msg=str(number)):
                call()
        with self.assertRaises(ValueError):
            Catalogue.open("a\0b")
        with self.assertRaises(IndexError):
            french()._entry(99)
        for index in (-1, 2**70):
            with self.assertRaises(OverflowError):
                french()._entry(index)

    @unittest.skipIf(SANITIZED, "limits of memory don't suit AddressSanitizer")
    def test_memory_error(self) -> None:
        # (a child, since a limit of the address space holds for the whole process)
        child = os.fork()
        if child == 0:
            status = 1
            try:
                data = b"#" * 60_000_000
                size = int(Path("/proc/self/statm").read_text().split()[0]) * resource.getpagesize()
                text = b'msgid "a"\nmsgstr "' + b"x" * 30_000_000 + b'"\n'
                resource.setrlimit(resource.RLIMIT_AS, (size + 45_000_000, -1))
                Catalogue.from_po(text)
            except MemoryError:
                status = 0
            except BaseException:
                status = 2
            os._exit(status)
            del data
        self.assertEqual(os.waitstatus_to_exitcode(os.waitpid(child, 0)[1]), 0)

    @needs_testcapi
    def test_each_allocation(self) -> None:
        """Each allocation of Python's in a call fails in turn: MemoryError, or the right answer, and all goes on.

        The calls are those of the extension, since Python's compiler and its functions don't survive everywhere.
        """
        file, po, last = french().mo_file(), FRENCH.encode(), french()
        last._fallback = kobdzila.NullTranslations()
        last.plural(2)

        def is_well() -> bool:
            it = GNUTranslations(file)
            texts = (it.gettext("basket"), it.ngettext("%d file", n=2, msgid2=""), it.pgettext("verb", "order"),
                     it.gettext("é" * 9), last.ngettext("%d file", "", -1), last.gettext("none"), last.gettext("\ud800"))
            copied, again = it._share(), Catalogue.from_po(po, checked=True)
            listed = again.count, copied._entry(2)[3], again.mo_file() == file
            return texts[:3] == ("panier", "%d fichiers supprimés", "commander") and listed == (5, ("panier",), True)

        def refused() -> bool:
            try:
                Catalogue.from_mo(b"")
            except Refused as refusal:
                return refusal.fault is Fault.MO_SHORT
            return False

        self.assertGreater(failures_of(self, is_well, 400) + failures_of(self, refused, 400), 20)


class LookUpTest(unittest.TestCase):
    def test_calls(self) -> None:
        it = french()
        self.assertEqual(it.gettext("basket"), "panier")
        self.assertEqual(it.gettext(message="basket"), "panier")
        self.assertEqual(it.pgettext("verb", "order"), "commander")
        self.assertEqual(it.pgettext(message="order", context="verb"), "commander")
        self.assertEqual(it.gettext("verb\x04order"), "commander")
        for n, text in ((0, "%d fichier supprimé"), (1, "%d fichier supprimé"), (2, "%d fichiers supprimés")):
            self.assertEqual(it.ngettext("%d file", "%d files", n), text)
            self.assertEqual(it.ngettext(n=n, msgid2="x", msgid1="%d file"), text)
        self.assertEqual(it.npgettext("menu", "%d item", "%d items", 2), "%d articles")
        self.assertEqual(it.gettext("%d file"), "%d fichier supprimé")
        self.assertTrue(it.gettext("").startswith("Language: fr\n"))

    def test_not_found(self) -> None:
        it, message, plural = french(), "no such message", "no such messages"
        self.assertIs(it.gettext(message), message)
        self.assertIs(it.pgettext("verb", message), message)
        self.assertIs(it.pgettext("noun", "order"), "order")
        self.assertIs(it.ngettext(message, plural, 1), message)
        self.assertIs(it.ngettext(message, plural, 0), plural)
        self.assertIs(it.npgettext("menu", message, plural, 1), message)

    def test_strange_texts(self) -> None:
        it: Any = french()
        for text in ("bas\0ket", "basket\0", "%d file\0%d files", "\ud800", "basket\udfff", "a" * 10**5, "\U0010ffff"):
            self.assertIs(it.gettext(text), text)
            self.assertIs(it.pgettext("verb", text), text)
            self.assertIs(it.pgettext(text, "order"), "order")
            self.assertIs(it.ngettext(text, "p", 1), text)
            self.assertIs(it.ngettext("s", text, 2**80), text)
        for other in (None, 5, b"basket", ("basket",)):
            self.assertIs(it.gettext(other), other)
            self.assertIs(it.pgettext(other, "order"), "order")

        class Text(str):
            pass

        self.assertEqual(it.gettext(Text("basket")), "panier")

    def test_numbers(self) -> None:
        """Every n answers as Python's own gettext does."""
        theirs, ours = gettext.GNUTranslations(), GNUTranslations.from_po(FRENCH.encode())
        with tempfile.TemporaryFile() as file:
            file.write(ours.mo_file())
            file.seek(0)
            theirs = gettext.GNUTranslations(file)
        numbers = [-(2**70), -5, -1, 0, True, False, 127, 128, 255, 256, 2**63, 2**64 - 1, 2**64, 2**64 + 1, 10**100]
        for n in numbers:
            for words in (("%d file", "%d files", n), ("none", "nones", n)):
                self.assertEqual(ours.ngettext(*words), theirs.ngettext(*words), n)
        others: list[Any] = [0.5, 1.0, 1.5, 2.0]
        for n in others:
            for words in (("%d file", "%d files", n), ("none", "nones", n)):
                with warnings.catch_warnings():
                    warnings.simplefilter("ignore")
                    wanted = theirs.ngettext(*words)
                with self.assertWarns(DeprecationWarning) as caught:
                    self.assertEqual(ours.ngettext(*words), wanted)
                self.assertEqual(caught.filename, __file__)
        others = [None, "1", [], 1j]
        for n in others:
            for translations in (theirs, ours):
                with self.assertRaises(TypeError):
                    translations.ngettext("%d file", "%d files", n)

    def test_numbers_with_index(self) -> None:
        """A number such as NumPy's, which stands for an int, gets the answer and the warnings of Python's gettext."""
        class Number:
            def __init__(self, value: int) -> None:
                self.value = value

            def __index__(self) -> int:
                return self.value

            def __round__(self) -> int:
                return self.value

            def __gt__(self, other: int) -> bool:
                return self.value > other

        ours = GNUTranslations.from_po(FRENCH.encode())
        theirs = gettext.GNUTranslations(io.BytesIO(ours.mo_file()))
        for value in (0, 1, 2):
            for words in (("%d file", "%d files"), ("none", "nones")):
                said = []
                for it in (theirs, ours):
                    with warnings.catch_warnings(record=True) as caught:
                        warnings.simplefilter("always")
                        number: Any = Number(value)
                        said.append((it.ngettext(*words, number), [str(warning.message) for warning in caught]))
                self.assertEqual(said[0], said[1], (words, value))
        if sys.version_info >= (3, 13):
            one: Any = Number(1)
            for module in (gettext, kobdzila):
                self.assertEqual(module.dngettext("none", "one", "many", one), "one")

    def test_form_of_one(self) -> None:
        it = Catalogue.from_po(ARABIC.encode())
        self.assertEqual([it.ngettext("%d file", "", n) for n in (0, 1, 2, 200, 2**70)], ["none", "one", *["many"] * 3])
        self.assertEqual(it.gettext("%d file"), "one")
        # (a form that an entry doesn't have is its first one)
        self.assertEqual([it.ngettext("!short", "", n) for n in (0, 1, 2, 200, 2**70)], ["a", "b", "a", "a", "a"])
        alone = Catalogue.from_po(ARABIC.replace("msgstr[2]", "#").encode())
        self.assertEqual([alone.ngettext("%d file", "", n) for n in (0, 1, 2, 1)], ["none", "one", "none", "one"])

    def test_many_answers(self) -> None:
        """More messages than a catalogue keeps answers of."""
        text = HEADER + "".join(f'msgid "m{k}"\nmsgstr "é{k}"\n' for k in range(10_000))
        it = Catalogue.from_po(text.encode())
        for k in [*range(10_000), *range(0, 10_000, 7), *range(500), *range(500)]:
            self.assertEqual(it.gettext(f"m{k}"), f"é{k}")

    def test_lasting_answers(self) -> None:
        """A program that goes through more messages than a catalogue keeps answers of is returned the same objects."""
        count = 9_000
        text = HEADER + "".join(f'msgid "m{k}"\nmsgstr "é{k}"\n' for k in range(count))
        it, messages = Catalogue.from_po(text.encode()), [f"m{k}" for k in range(count)]
        for _ in range(6):
            answers = [it.gettext(message) for message in messages]
        self.assertEqual(answers, [f"é{k}" for k in range(count)])
        same = sum(it.gettext(message) is answer for message, answer in zip(messages, answers))
        self.assertGreater(same, count * 0.9)

    def test_recent_answers(self) -> None:
        """Calls with the same objects, many of whose answers share a place among those that a catalogue keeps."""
        text = "".join(f'msgctxt "c{k}"\nmsgid "a"\nmsgstr "a{k}"\n' for k in range(300))
        forms = "".join(f'msgstr[{form}] "%d {form}"\n' for form in range(6))
        text += "".join(f'msgid "m{k}"\nmsgid_plural "p"\n{forms.replace("%d", str(k))}' for k in range(300))
        rule = "nplurals=6; plural=n<5 ? n : 5;"
        it = Catalogue.from_po(HEADER.replace("nplurals=2; plural=n>1;", rule).encode() + text.encode())
        contexts, messages = [f"c{k}" for k in range(300)], [f"m{k}" for k in range(300)]
        for _ in range(3):
            for k in range(300):
                for other in (k, k // 2, k):
                    self.assertEqual(it.pgettext(contexts[other], "a"), f"a{other}")
                for form in (0, 1, 2, 3, 4, 5, 9, 4, 3, 2, 1, 0):
                    self.assertEqual(it.ngettext(messages[k], "p", form), f"{k} {min(form, 5)}")

    def test_empty(self) -> None:
        it = GNUTranslations()
        self.assertEqual((it.gettext("a"), it.ngettext("a", "b", 2), it.ngettext("a", "b", -1)), ("a", "b", "b"))
        self.assertEqual((it.count, list(it.entries()), it.info(), it.charset()), (0, [], {}, None))
        with self.assertRaises(ValueError):
            it.mo_file()

    def test_threads(self) -> None:
        it, wrong = french(), []

        def ask() -> None:
            for n in range(20_000):
                text = it.ngettext("%d file", "%d files", n % 300)
                if text != ("%d fichiers supprimés" if n % 300 > 1 else "%d fichier supprimé"):
                    wrong.append(n)

        in_threads(*[ask] * 4)
        self.assertEqual(wrong, [])


class ListingTest(unittest.TestCase):
    def test_entries(self) -> None:
        entries = list(french().entries())
        self.assertEqual(len(entries), french().count)
        self.assertIn(("menu", "%d item", "%d items", ("%d article", "%d articles")), entries)
        self.assertEqual(entries[0].msgid, "")
        keys = [it.msgid if it.context is None else f"{it.context}\x04{it.msgid}" for it in entries]
        self.assertEqual(keys, sorted(keys))

    def test_forms(self) -> None:
        it = french()
        for entry in it.entries():
            self.assertEqual(it.forms(entry.msgid, entry.context), entry.forms)
        self.assertEqual((it.forms("none"), it.forms("order"), it.forms("zzz", "zzz")), ((), (), ()))

    def test_header(self) -> None:
        it = french()
        self.assertEqual(it.info()["language"], "fr")
        self.assertEqual(it.charset(), "UTF-8")
        self.assertEqual([it.plural(n) for n in range(4)], [0, 0, 1, 1])


class ObjectTest(unittest.TestCase):
    def test_fallback(self) -> None:
        class Loud(gettext.NullTranslations):
            def gettext(self, message: str) -> str:
                return message.upper()

            def npgettext(self, context: str, msgid1: str, msgid2: str, n: int) -> str:
                return f"{context} {msgid2} {n}"

        it = GNUTranslations.from_po(FRENCH.encode())
        it.add_fallback(Loud())
        self.assertEqual((it.gettext("basket"), it.gettext("cart")), ("panier", "CART"))
        self.assertEqual(it.npgettext("c", "a", "b", 2), "c b 2")
        self.assertEqual(it.npgettext("c", "a", "b", -2), "c b -2")
        self.assertEqual((it.ngettext("a", "b", 2), it.pgettext("c", "a")), ("b", "a"))
        fallback: Any = french()
        it.add_fallback(fallback)
        self.assertEqual(it.gettext("cart"), "CART")

        class Failing(gettext.NullTranslations):
            def gettext(self, message: str) -> str:
                raise KeyError(message)

        other = GNUTranslations()
        other.add_fallback(Failing())
        with self.assertRaises(KeyError):
            other.gettext("a")

    def test_subclass(self) -> None:
        class Mine(GNUTranslations):
            def gettext(self, message: str) -> str:
                return f"<{super().gettext(message)}>"

        it = Mine(french().mo_file())
        self.assertEqual(it.gettext("basket"), "<panier>")
        self.assertIsInstance(it, gettext.NullTranslations)
        self.assertIsInstance(copy.copy(it), Mine)
        self.assertEqual(copy.copy(it).gettext("basket"), "<panier>")

    def test_copy(self) -> None:
        it = GNUTranslations(french().mo_file())
        other = copy.copy(it)
        fallback: Any = Catalogue.from_po(b'msgid "cart"\nmsgstr "chariot"\n')
        other.add_fallback(fallback)
        self.assertEqual((it.gettext("cart"), other.gettext("cart")), ("cart", "chariot"))
        self.assertEqual(other.gettext("basket"), "panier")

    def test_cycle(self) -> None:
        it = GNUTranslations(french().mo_file())
        it._fallback = it
        gone = weakref.ref(it)
        del it
        gc.collect()
        self.assertIsNone(gone())

    def test_reopened(self) -> None:
        it = french()
        self.assertEqual(it.gettext("basket"), "panier")
        it._read_mo(Catalogue.from_po(b'msgid "basket"\nmsgstr "Korb"\n').mo_file())
        self.assertEqual((it.gettext("basket"), it.gettext("order")), ("Korb", "order"))
        with self.assertRaises(Refused):
            it._read_mo(b"")
        self.assertEqual(it.gettext("basket"), "Korb")

    def test_reopened_while_it_is_listed(self) -> None:
        """A finalizer opens another file while an entry is read: the entry is of one of the two files, and is whole."""
        files = [forms_file(name) for name in ("fff", "a longer text")]
        opened, numbers = 0, random.Random(4)
        it: Any = GNUTranslations(files[0])

        class Opens:
            me: object

            def __del__(self) -> None:
                nonlocal opened
                opened += 1
                it.__init__(files[opened % 2])

        whole = {tuple(f"{name} {form}" for form in range(FORMS)) for name in ("fff", "a longer text")}
        self.addCleanup(gc.set_threshold, *gc.get_threshold())
        for number in range(5_000):
            cycle = Opens()
            cycle.me = cycle
            del cycle
            gc.set_threshold(numbers.randrange(1, 12))
            self.assertIn(it._entry(1 + number % 20)[3], whole)
        self.assertGreater(opened, 100)

    def test_references(self) -> None:
        """Objects and calls keep no references to their types and arguments."""
        message, plural = "".join(("no", "ne")), "".join(("no", "nes"))
        it, counted = french(), (Catalogue, GNUTranslations, type(None), message, plural)
        before = [sys.getrefcount(one) for one in counted]
        for _ in range(1000):
            other = GNUTranslations(it.mo_file())
            other.gettext(message), other.ngettext(message, plural, 2), other.ngettext(message, plural, -2)
            other.pgettext(message, message), other.npgettext(context=message, msgid1=message, msgid2=plural, n=1)
            other._fallback = None
            copy.copy(other)
        del other
        for one, count in zip(counted, before):
            self.assertLess(abs(sys.getrefcount(one) - count), 100, one)

    @unittest.skipIf(sys.version_info < (3, 12), "no interpreters with a lock of their own before Python 3.12")
    def test_interpreters(self) -> None:
        interpreters = importlib.import_module("_interpreters" if sys.version_info >= (3, 13) else "_xxsubinterpreters")
        code = f"""if True:
            import kobdzila
            it = kobdzila.Catalogue.from_po({FRENCH.encode()!r})
            assert it.gettext("basket") == "panier" and it.ngettext("%d file", "", -1) != ""
            try:
                it.from_mo(b"")
            except kobdzila.Refused:
                pass
        """
        for _ in range(3):
            number = interpreters.create()
            try:
                self.assertIsNone(interpreters.run_string(number, code))
            finally:
                interpreters.destroy(number)

    def test_pickle(self) -> None:
        with self.assertRaises(TypeError):
            pickle.dumps(french())

    def test_other_type(self) -> None:
        with self.assertRaises(TypeError):
            object.__new__(Catalogue)

    def test_version(self) -> None:
        self.assertRegex(kobdzila.__version__, r"^\d+\.\d+\.\d+$")

    @needs_freed_memory
    def test_leaks(self) -> None:
        """Opening, refusing, copying and looking up leave no memory."""
        file, bad = french().mo_file(), [data for data, _ in REFUSED_FILES]
        lasting = french()

        def round_of(number: int) -> None:
            lasting._fallback = gettext.NullTranslations()
            lasting.gettext("".join(("bas", "ket")))  # a new object each time
            it = GNUTranslations(file)
            it.gettext("basket"), it.ngettext("%d file", "", 5), it.gettext(f"none {number}"), it.gettext("\ud800")
            if number % 10 == 0:
                it.add_fallback(copy.copy(it))
                it.ngettext("%d file", "", -1), it.forms("order", "verb"), it.info(), it.gettext("cart")
                try:
                    Catalogue.from_mo(bad[number // 10 % len(bad)])
                except Refused:
                    pass

        assert_no_leak(self, round_of, OPENS)


class ChainTest(unittest.TestCase):
    def test_long_chain_of_fallbacks(self) -> None:
        """Freeing one takes no stack for each of its catalogues: it overflowed at some 100,000."""
        child = os.fork()  # (it keeps much memory, and may crash)
        if child == 0:
            mo, last = kobdzila.compile_po(b'msgid "a"\nmsgstr "b"\n'), None
            for _ in range(300_000):
                catalogue = _kobdzila.Catalogue.from_mo(mo)
                if last is not None:
                    catalogue._fallback = last
                last = catalogue
            del catalogue
            last = None
            os._exit(0)
        self.assertEqual(os.waitstatus_to_exitcode(os.waitpid(child, 0)[1]), 0)


if __name__ == "__main__":
    unittest.main()
