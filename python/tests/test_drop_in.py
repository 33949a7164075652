"""In place of the standard module: messages that aren't str, the attribute `_catalog`, the names that programs reach for.

The expected values are those of the standard module.
"""
from __future__ import annotations

import copy
import decimal
import enum
import functools
import gettext
import io
import operator
import os
import pickle
import subprocess
import sys
import tempfile
import threading
import unittest
import warnings
from collections.abc import Callable
from pathlib import Path
from typing import Any, Literal
from unittest import mock

import kobdzila
from kobdzila import Catalogue, GNUTranslations, Snapshot, Store
from texts import HEADER, mo

PO = HEADER + r"""
msgid "basket"
msgstr "panier"

msgid "%d file"
msgid_plural "%d files"
msgstr[0] "%d fichier"
msgstr[1] "%d fichiers"

msgctxt "verb"
msgid "order"
msgstr "commander"

msgctxt "None"
msgid "order"
msgstr "ordre"

msgctxt "5"
msgid "order"
msgstr "cinq"

msgctxt "menu"
msgid "%d item"
msgid_plural "%d items"
msgstr[0] "%d article"
msgstr[1] "%d articles"
"""
FILE = Catalogue.from_po(PO.encode()).mo_file()


class Lazy:
    """A text like those of frameworks: it hashes and compares as a str."""

    def __init__(self, text: str) -> None:
        self.text = text

    def __str__(self) -> str:
        return self.text

    def __hash__(self) -> int:
        return hash(self.text)

    def __eq__(self, other: object) -> bool:
        return self.text == other


class Odd(str):
    """A str with a text of its own, which counts where the standard module formats a key."""

    def __str__(self) -> str:
        return "verb"


class Name(str, enum.Enum):
    BASKET = "basket"


class Broken:
    def __str__(self) -> str:
        raise LookupError("no text")

    def __hash__(self) -> int:
        return 1


def readers() -> list[Any]:
    """The standard class, ours, and a snapshot, with the same catalogue."""
    store = Store("shop")
    store.load("shop", "fr", FILE)
    store.publish()
    return [gettext.GNUTranslations(io.BytesIO(FILE)), GNUTranslations(FILE), store.snapshot("fr")]


def said(work: Callable[[], object], of_warnings: Literal["ignore", "error"] = "ignore") -> object:
    """What a call answers, or the exception that it raises."""
    try:
        with warnings.catch_warnings():
            warnings.simplefilter(of_warnings)
            return work()
    except Exception as fault:
        return type(fault), str(fault)


def slots(base: Any) -> Any:
    """A class with attributes in slots."""
    class Slots(base):  # type: ignore[misc]
        __slots__ = ("lines", "none", "__private")

        def __init__(self, fp: Any) -> None:
            super().__init__(fp)
            self.lines, self.__private = [1], 2
            setattr(self, "own", 3)

        def seen(self) -> object:
            return self.lines, self.__private, self.own, hasattr(self, "none")

    return Slots


def state(base: Any) -> Any:
    """A class with an attribute that can't be copied."""
    class State(base):  # type: ignore[misc]
        def __init__(self, fp: Any) -> None:
            super().__init__(fp)
            self.lock, self.own = threading.Lock(), 3

        def __getstate__(self) -> Any:
            return {name: value for name, value in vars(self).items() if name != "lock"}

        def seen(self) -> object:
            return vars(self).get("lock") is not None, self.own, vars(self).get("was_set")

    return State


def both(base: Any) -> Any:
    """A class like that of `state`, with a method that sets the copied state."""
    class Both(state(base)):  # type: ignore[misc]
        def __setstate__(self, values: Any) -> None:
            self.__dict__.update(values, was_set=True)

    return Both


class Shouts(gettext.NullTranslations):
    def gettext(self, message: str) -> str:
        return message.upper()


class Own(GNUTranslations):
    def gettext(self, message: str) -> str:
        return f"<{super().gettext(message)}>"


class Theirs(gettext.GNUTranslations):
    def gettext(self, message: str) -> str:
        return f"<{super().gettext(message)}>"


def counting(self: Any, n: int) -> int:
    return 1


def rule(self: Any) -> Any:
    return lambda n: 0 if n == 7 else 1


def set_aside(self: Any, value: Any) -> None:
    self.aside = value


class KeysTest(unittest.TestCase):
    def test_messages(self) -> None:
        theirs, *ours = readers()
        messages = ["basket", "no", "", Lazy("basket"), Lazy("no"), Name.BASKET, Odd("basket"), None, 5, b"basket", 1.5,
                    ("basket",), ["basket"], {}, "verb\x04order", "\ud800", Lazy("\ud800")]
        contexts = ["verb", None, 5, Lazy("verb"), Odd("no"), b"verb", ["verb"]]
        for it in ours:
            for message in messages:
                self.assertEqual(said(lambda: it.gettext(message)), said(lambda: theirs.gettext(message)), message)
            for context in contexts:
                for message in ("order", Lazy("order"), Odd("order"), None, 5, "no"):
                    self.assertEqual(said(lambda: it.pgettext(context, message)),
                                     said(lambda: theirs.pgettext(context, message)), (context, message))

    def test_numbers(self) -> None:
        theirs, *ours = readers()
        for it in ours:
            for message in ("%d file", Lazy("%d file"), "no", Lazy("no"), None, b"%d file"):
                for n in (0, 1, 2, -1, -2, 2**64, 2.0, 1.5, None, "2", True):
                    self.assertEqual(said(lambda: it.ngettext(message, "more", n)),
                                     said(lambda: theirs.ngettext(message, "more", n)), (message, n))
                    for context in ("menu", Lazy("menu"), None):
                        words = context, "%d item", "more", n
                        self.assertEqual(said(lambda: it.npgettext(*words)), said(lambda: theirs.npgettext(*words)), words)

    def test_numbers_without_rule(self) -> None:
        """The rule of a file without one takes anything, and warns of nothing; in a chain, each rule is asked."""
        plain = mo((b"", b"Content-Type: text/plain; charset=UTF-8\n"), (b"a\0b", b"x\0y"), (b"c\x04a\0b", b"v\0w"))
        for chain in ([plain], [plain, FILE], [FILE, plain]):
            store = Store("shop")
            for number, file in enumerate(chain):
                store.load("shop", f"l{number}", file)
            store.publish()
            ours: list[Any] = [GNUTranslations(chain[0]), store.snapshot([f"l{it}" for it in range(len(chain))])]
            theirs: Any = gettext.GNUTranslations(io.BytesIO(chain[0]))
            for file in chain[1:]:
                theirs.add_fallback(gettext.GNUTranslations(io.BytesIO(file)))
                ours[0].add_fallback(GNUTranslations(file))
            for it in ours:
                for n in (1, 2, -1, "2", None, b"1", [], 1j, 1.0, 2.0, 1.5, decimal.Decimal(2)):
                    for message in ("a", "no", None):
                        self.assertEqual(said(lambda: it.ngettext(message, "more", n), "error"),
                                         said(lambda: theirs.ngettext(message, "more", n), "error"), (message, n))
                        self.assertEqual(said(lambda: it.npgettext("c", message, "more", n), "error"),
                                         said(lambda: theirs.npgettext("c", message, "more", n), "error"), n)

    def test_exceptions(self) -> None:
        for it in readers()[1:]:
            calls: list[Callable[[], object]] = [
                lambda: it.gettext(Broken()), lambda: it.pgettext(Broken(), "order"),
                lambda: it.npgettext("menu", Broken(), "", 1), lambda: it.ngettext(Broken(), "", -1)]
            for call in calls:
                with self.assertRaises(LookupError):
                    call()

    def test_reopened_by_a_method(self) -> None:
        """A message whose methods open another file in the catalogue's place, or close the snapshot."""
        other = Catalogue.from_po(b'msgid "basket"\nmsgstr "Korb"\n').mo_file()

        class Opens(Lazy):
            def __hash__(self) -> int:
                work()
                return super().__hash__()

        ours, snapshot = readers()[1:]
        work: Callable[[], object] = lambda: ours.__init__(other)  # noqa: E731
        self.assertEqual(ours.gettext(Opens("basket")), "Korb")
        work = snapshot.close
        with self.assertRaises(ValueError):
            snapshot.gettext(Opens("basket"))


class CatalogTest(unittest.TestCase):
    def test_as_theirs(self) -> None:
        theirs, ours, _ = readers()
        self.assertEqual(dict(ours._catalog), theirs._catalog)
        self.assertEqual(ours._catalog.copy(), theirs._catalog)
        self.assertEqual((len(ours._catalog), bool(ours._catalog)), (len(theirs._catalog), True))
        self.assertEqual(set(ours._catalog), set(theirs._catalog))
        self.assertEqual(dict(ours._catalog.items()), theirs._catalog)
        more = {"more": "plus", "basket": "sac"}
        self.assertEqual((ours._catalog | more, more | ours._catalog), (theirs._catalog | more, more | theirs._catalog))
        self.assertEqual((ours._catalog | ours._catalog, repr(ours._catalog)), (theirs._catalog, repr(theirs._catalog)))
        for key in ("basket", ("%d file", 1), ("%d file", 2), "%d file", ("basket", 0), "verb\x04order", 5, None, (), ""):
            self.assertEqual(ours._catalog.get(key, "none"), theirs._catalog.get(key, "none"), key)
            self.assertEqual(key in ours._catalog, key in theirs._catalog, key)
        self.assertEqual(ours.count, 7)  # (and none of this has changed it)

    def test_changed(self) -> None:
        """Who changes the texts, or sets others, is answered by them, as with the standard class."""
        changes: list[Callable[[Any], object]] = [
            lambda it: it._catalog.update({"basket": "corbeille", ("%d file", 1): "%d fiches"}),
            lambda it: it._catalog.__setitem__("basket", "corbeille"),
            lambda it: it._catalog.__delitem__("basket"),
            lambda it: setattr(it, "_catalog", operator.ior(it._catalog, {"basket": "corbeille"})),
            lambda it: setattr(it, "_catalog", operator.ior(it._catalog, {})),
            lambda it: setattr(it, "_catalog", {"basket": "corbeille"}),
            lambda it: it._catalog.clear()]
        for change in changes:
            theirs, ours, _ = readers()
            fallback = gettext.GNUTranslations(io.BytesIO(Catalogue.from_po(b'msgid "cart"\nmsgstr "chariot"\n').mo_file()))
            for it in (theirs, ours):
                change(it)
                it.add_fallback(fallback)
            for it in (ours, copy.copy(ours), copy.deepcopy(ours)):
                for message in ("basket", "cart", "no"):
                    self.assertEqual(it.gettext(message), theirs.gettext(message))
                self.assertEqual(it.pgettext("verb", "order"), theirs.pgettext("verb", "order"))
                for n in (1, 2, -1):
                    self.assertEqual(it.ngettext("%d file", "more", n), theirs.ngettext("%d file", "more", n))
                    words = "menu", "%d item", "more", n
                    self.assertEqual(it.npgettext(*words), theirs.npgettext(*words))
                self.assertEqual(dict(it._catalog), theirs._catalog)
            ours.__init__(FILE)
            self.assertEqual((ours.gettext("basket"), ours.ngettext("%d file", "", 2)), ("panier", "%d fichiers"))

    def test_kept(self) -> None:
        """A mapping that somebody has kept goes on with what is changed through it."""
        ours = GNUTranslations(FILE)
        kept = ours._catalog
        kept["basket"] = "corbeille"
        self.assertEqual((ours.gettext("basket"), kept["basket"], len(kept)), ("corbeille", "corbeille", 9))
        del kept["basket"]
        self.assertEqual((ours.gettext("basket"), "basket" in kept, kept.get("verb\x04order")),
                         ("basket", False, "commander"))

    def test_copied(self) -> None:
        """A copy of the mapping is a dict of its own, as with the standard class."""
        ways: list[Callable[[Any], Any]] = [copy.copy, copy.deepcopy, lambda it: pickle.loads(pickle.dumps(it))]
        for way in ways:
            theirs, ours, _ = readers()
            for _ in range(2):
                copied = way(ours._catalog)
                self.assertEqual((type(copied), copied), (dict, way(theirs._catalog)))
                copied["basket"] = "corbeille"
                self.assertEqual((ours.gettext("basket"), ours._catalog["basket"]), ("panier", "panier"))
                ours._catalog["added"] = theirs._catalog["added"] = "ajouté"  # (a dict from now on)

    def test_subclasses(self) -> None:
        """Subclasses of both classes, as programs write them, see the same."""
        def numbered(base: Any) -> Any:
            class Numbered(base):  # type: ignore[misc]
                def _parse(self, fp: Any) -> None:
                    super()._parse(fp)
                    self.number = len(self._catalog)
                    self._catalog["added"] = "ajouté"

            return Numbered(io.BytesIO(FILE))

        theirs, ours = numbered(gettext.GNUTranslations), numbered(GNUTranslations)
        self.assertEqual((ours.number, ours.gettext("added")), (theirs.number, theirs.gettext("added")))
        self.assertIsInstance(ours, gettext.GNUTranslations)

    def test_overridden(self) -> None:
        """The rule of plurals, the form of a context and the fallback, as programs or their classes set them."""
        def parsed(self: Any, fp: Any) -> None:
            bases[type(self)]._parse(self, fp)
            self.plural = lambda n: 1

        other = gettext.GNUTranslations(io.BytesIO(Catalogue.from_po(b'msgid "cart"\nmsgstr "chariot"\n').mo_file()))
        classes: list[dict[str, Any]] = [
            {}, {"plural": counting}, {"plural": property(rule, set_aside)}, {"_parse": parsed}, {"CONTEXT": "%s!%s"},
            {"_fallback": property(lambda self: other, set_aside)}, {"plural": functools.cached_property(rule)}]
        bases: dict[type, Any] = {}
        for names in classes:
            made: list[Any] = []
            for base in (gettext.GNUTranslations, GNUTranslations):
                class_ = type("Own", (base,), dict(names))
                bases[class_] = base
                it = class_(io.BytesIO(FILE))
                if "_fallback" not in names:
                    it.add_fallback(other)
                made += [it, copy.copy(it)]
                made[-1].plural = lambda n: 0 if n == 5 else 1
            for theirs, ours in zip(made[:2], made[2:]):
                for n in (0, 1, 2, 5, 7, -1):
                    self.assertEqual(ours.plural(n), theirs.plural(n), (names, n))
                    words = "menu", "%d item", "more", n
                    self.assertEqual(ours.npgettext(*words), theirs.npgettext(*words), (names, n))
                    files = "%d file", "more", n
                    self.assertEqual(ours.ngettext(*files), theirs.ngettext(*files), (names, n))
                self.assertEqual((ours.pgettext("verb", "order"), ours.gettext("cart")),
                                 (theirs.pgettext("verb", "order"), theirs.gettext("cart")), names)
        with self.assertRaises(AttributeError):
            setattr(Catalogue.from_mo(FILE), "plural", counting)

    def test_opened_again(self) -> None:
        other = Catalogue.from_po(b'msgid ""\nmsgstr "Language: de\\nPlural-Forms: nplurals=1; plural=0;\\n"\n').mo_file()
        for it in readers()[:2]:
            self.assertEqual((it.info()["language"], it.plural(2)), ("fr", 1))
            it.__init__(io.BytesIO(other))
            self.assertEqual((it.info()["language"], it.plural(2)), ("de", 0))

    def test_copies(self) -> None:
        ours = GNUTranslations(FILE)
        ours.add_fallback(GNUTranslations(Catalogue.from_po(b'msgid "cart"\nmsgstr "chariot"\n').mo_file()))
        deep = copy.deepcopy(ours)
        self.assertEqual((deep.gettext("basket"), deep.gettext("cart"), deep.info()["language"]), ("panier", "chariot", "fr"))
        self.assertIsNot(deep._fallback, ours._fallback)
        ours._fallback.__init__(FILE)
        self.assertEqual((ours.gettext("cart"), deep.gettext("cart")), ("cart", "chariot"))
        self.assertEqual(copy.deepcopy(Catalogue.from_mo(FILE)).gettext("basket"), "panier")

    def test_states(self) -> None:
        """A class's slots, and its methods for the state of a copy, count, also in what `translation` returns."""
        with tempfile.TemporaryDirectory() as room:
            path = Path(room, "fr", "LC_MESSAGES", "shop.mo")
            path.parent.mkdir(parents=True)
            path.write_bytes(FILE)
            for made in (slots, state, both):
                seen = []
                for module in (gettext, kobdzila):
                    it = module.translation("shop", room, ["fr"], made(module.GNUTranslations))
                    seen.append([it.seen(), copy.copy(it).seen(), copy.deepcopy(it).seen(), it.gettext("basket")])
                self.assertEqual(seen[0], seen[1], made)


class OrderTest(unittest.TestCase):
    def test_out_of_order(self) -> None:
        """A file whose keys are out of order, in either byte order, answers as the standard class does."""
        pairs = [(b"", b"Content-Type: text/plain; charset=UTF-8\nPlural-Forms: nplurals=2; plural=n>1;\n"),
                 (b"x\0xs", b"un\0deux"), (b"b", b"B"), (b"a", b"A"), (b"ab", b"AB"), (b"c\x04a", b"CA"), (b"a", b"last"),
                 (b"", b"Content-Type: text/plain; charset=UTF-8\nPlural-Forms: nplurals=2; plural=n>1;\n")]
        little = mo(*pairs)
        words = [little[at:at + 4] for at in range(0, 28 + 16 * len(pairs), 4)]
        big = b"".join(word[::-1] for word in words) + little[28 + 16 * len(pairs):]
        for data in (little, big):
            theirs: Any = gettext.GNUTranslations(io.BytesIO(data))
            ours = GNUTranslations(data)
            self.assertEqual(dict(ours._catalog), theirs._catalog)
            self.assertEqual((ours.gettext("a"), ours.gettext("ab"), ours.pgettext("c", "a")), ("last", "AB", "CA"))
            self.assertEqual([ours.ngettext("x", "xs", n) for n in (1, 2)], ["un", "deux"])
            with tempfile.NamedTemporaryFile(suffix=".mo") as file:
                file.write(data)
                file.flush()
                self.assertEqual(Catalogue.open(file.name).gettext("a"), "last")
            store = Store("shop")
            store.load("shop", "fr", data)
            store.publish()
            self.assertEqual(store.snapshot("fr").gettext("b"), "B")

    def test_damaged(self) -> None:
        """What else is wrong with such a file is still refused."""
        data = mo((b"b", b"x"), (b"a", b"y"))
        for end in range(len(data) - 1):
            with self.assertRaises(kobdzila.Refused):
                Catalogue.from_mo(data[:end])
        with self.assertRaises(kobdzila.Refused):
            Catalogue.from_mo(mo((b"b", b"\xff"), (b"a", b"y")))


class ModuleTest(unittest.TestCase):
    def test_domain(self) -> None:
        """The text domain and its folder are the standard module's, so argparse and optparse speak the same language."""
        program = """
import sys
sys.path[:0] = sys.argv[1].split("|")
import kobdzila as gettext
gettext.bindtextdomain("app", sys.argv[2])
gettext.textdomain("app")
import argparse, optparse, gettext as standard
print(argparse.ArgumentParser(prog="x").format_help())
print(optparse.OptionParser(prog="x").format_help())
print(standard.gettext("usage: "), gettext.textdomain(), gettext.bindtextdomain("app") == sys.argv[2])
standard.textdomain("other")
print(gettext.textdomain(), gettext.gettext("usage: "), gettext._current_domain)
gettext._current_domain = "app"
print(standard.textdomain(), gettext.gettext("usage: "), gettext._localedirs is standard._localedirs)
"""
        text = ('msgid "usage: "\nmsgstr "utilisation : "\n\nmsgid "show this help message and exit"\n'
                'msgstr "affiche cette aide"\n')
        with tempfile.TemporaryDirectory() as room:
            folder = Path(room, "fr", "LC_MESSAGES")
            folder.mkdir(parents=True)
            (folder / "app.mo").write_bytes(Catalogue.from_po(text.encode()).mo_file())
            done = subprocess.run([sys.executable, "-c", program, "|".join(sys.path), room], capture_output=True, text=True,
                                  env={**os.environ, "LANGUAGE": "fr", "PYTHONUTF8": "1"})
        self.assertEqual((done.returncode, done.stderr), (0, ""))
        self.assertEqual(done.stdout.count("affiche cette aide"), 2)
        self.assertIn("utilisation : x [-h]", done.stdout)
        self.assertEqual(done.stdout.splitlines()[-3:],
                         ["utilisation :  app True", "other usage:  other", "app utilisation :  True"])

    def test_names(self) -> None:
        """What the standard module has, and programs reach for."""
        package: Any = kobdzila  # (a type checker knows the public names alone)
        for name in ("_expand_lang", "c2py", "_localedirs", "_translations", "_default_localedir", "_current_domain"):
            self.assertTrue(hasattr(kobdzila, name), name)
        with self.assertRaises(AttributeError):
            package._no_such_name
        with self.assertRaises(AttributeError):
            package.os
        self.assertLessEqual({*gettext.__all__} - {"lgettext", "ldgettext", "lngettext", "ldngettext",
                                                   "bind_textdomain_codeset"}, {*kobdzila.__all__})
        for name in kobdzila.__all__:
            getattr(kobdzila, name)
        self.assertLessEqual({*kobdzila.__all__}, {*dir(kobdzila)})
        kept, package._translations = package._translations, {}
        try:
            self.assertIs(kobdzila._gettext._translations, package._translations)
        finally:
            package._translations = kept

    def test_patched(self) -> None:
        """What a program sets in the module, the functions of the module use, until it is taken back."""
        with tempfile.TemporaryDirectory() as room:
            path = Path(room, "fr", "LC_MESSAGES", "patched.mo")
            path.parent.mkdir(parents=True)
            path.write_bytes(FILE)
            for module, own in ((gettext, Theirs), (kobdzila, Own)):
                def answers() -> list[object]:
                    made = module.translation("patched", languages=["fr"], fallback=True)
                    return [made.gettext("basket"), module.dgettext("patched", "basket"), module.gettext("basket"),
                            module.dngettext("patched", "%d file", "more", 2), module.find("patched", languages=["x"])]

                def patched(**names: Any) -> list[object]:
                    with mock.patch.multiple(module, **names):
                        return answers()

                with mock.patch.dict(os.environ, {"LANGUAGE": "fr"}):
                    plain = answers()
                    self.assertEqual(plain, ["basket"] * 3 + ["more", None])
                    found = patched(_default_localedir=room)
                    self.assertEqual(found, ["panier", "panier", "basket", "%d fichiers", None])
                    self.assertEqual(patched(_default_localedir=room, _expand_lang=lambda it: ["fr"])[4], str(path))
                    found = patched(_default_localedir=room, GNUTranslations=own)
                    self.assertEqual(found[:3], ["<panier>", "<panier>", "basket"])
                    self.assertEqual(patched(_default_localedir=room, _current_domain="patched")[2], "panier")
                    self.assertEqual(patched(translation=lambda *_, **__: Shouts())[:3], ["BASKET"] * 3)
                    self.assertEqual(patched(dgettext=lambda domain, text: domain)[1:3], ["patched", "messages"])
                    self.assertEqual(patched(NullTranslations=Shouts)[0], "BASKET")
                    self.assertEqual(patched(_translations={}), plain)
                    self.assertEqual(answers(), plain)
        package: Any = kobdzila
        with self.assertRaises(AttributeError):
            del package.nothing

    def test_import(self) -> None:
        """`import kobdzila` reads none of the modules that only some programs need."""
        # (what a .pth file of the installation has imported already doesn't count)
        program = ("import sys; sys.path[:0] = sys.argv[1].split('|'); before = set(sys.modules); import kobdzila;"
                   " print(*set(sys.modules) - before)")
        done = subprocess.run([sys.executable, "-I", "-c", program, "|".join(sys.path)], capture_output=True, text=True)
        read = set(done.stdout.split())
        self.assertIn("kobdzila._catalogue", read)
        self.assertEqual(read & {"kobdzila._session", "kobdzila._watch", "kobdzila._web", "subprocess", "logging", "asyncio",
                                 "threading", "pathlib"}, set())


class LazyTest(unittest.TestCase):
    def test_texts(self) -> None:
        lazy = [kobdzila.lazy_gettext("basket"), kobdzila.lazy_pgettext("verb", "order"),
                kobdzila.lazy_ngettext("%d file", "%d files", 2), kobdzila.lazy_ngettext("%d file", "%d files", 1),
                kobdzila.lazy_npgettext("menu", "%d item", "%d items", 2), kobdzila.lazy_npgettext("menu", "%d item", "", 1)]
        self.assertEqual([str(it) for it in lazy], ["basket", "order", "%d files", "%d file", "%d items", "%d item"])
        with kobdzila.using(readers()[2]) as texts:
            self.assertEqual([str(it) for it in lazy], ["panier", "commander", "%d fichiers", "%d fichier", "%d articles",
                                                        "%d article"])
            basket = lazy[0]
            self.assertEqual((f"{basket:>8}", basket + "!", "le " + basket, basket.upper(), len(basket), basket[0], "n" in basket),
                             ("  panier", "panier!", "le panier", "PANIER", 6, "p", True))
            keys: dict[object, int] = {basket: 1}
            self.assertEqual((lazy[2] % 3, keys["panier"], basket == "panier", basket == lazy[0], "".join(basket)),
                             ("3 fichiers", 1, True, True, "panier"))
            self.assertEqual(sorted([basket, lazy[1]])[0], "commander")
            for other in ("a", "panier", "z"):
                for compare in (operator.lt, operator.le, operator.gt, operator.ge, operator.eq, operator.ne):
                    expected = compare("panier", other), compare(other, "panier")
                    self.assertEqual((compare(basket, other), compare(other, basket)), expected, (compare, other))
            self.assertIs(kobdzila.current_snapshot.get(), texts)
        self.assertEqual(str(basket), "basket")
        with self.assertRaises(ValueError):
            texts.gettext("basket")  # (which the end of the `with` has closed)

    def test_operators(self) -> None:
        """A lazy text takes what a str takes, and refuses what a str refuses."""
        def results(it: Any) -> list[object]:
            works: list[Callable[[Any, Any], object]] = [
                operator.add, operator.mul, operator.lt, operator.le, operator.gt, operator.ge, operator.eq,
                operator.ne, lambda one, two: two * one, lambda one, two: two + one]
            return [said(lambda: work(it, other)) for other in (5, None, b"a", ["a"], "z", 2) for work in works]

        lazy = kobdzila.lazy_gettext("basket")
        for ours, theirs in zip(results(lazy), results("basket")):
            if isinstance(ours, tuple) and isinstance(theirs, tuple):
                self.assertIs(ours[0], theirs[0])
            else:
                self.assertEqual(ours, theirs)
        self.assertEqual((2 * lazy, lazy * 2, lazy + lazy), ("basketbasket",) * 3)
        self.assertFalse(lazy < lazy)
        for protocol in range(pickle.HIGHEST_PROTOCOL + 1):
            again = pickle.loads(pickle.dumps(kobdzila.lazy_npgettext("a", "b", "c", 2), protocol))
            self.assertIs(type(again), kobdzila.LazyText)
            self.assertEqual((repr(again), str(again)), ("lazy_npgettext('a', 'b', 'c', 2)", "c"))
        self.assertEqual(repr(copy.deepcopy(lazy)), repr(lazy))

    def test_translations(self) -> None:
        """By default they are those of the context; any object with the four methods works."""
        snapshot = readers()[2]
        current = kobdzila.LazyTranslations()
        with self.assertRaises(LookupError):
            current.gettext("basket")

        class Own(Snapshot):
            def gettext(self, message: str) -> str:
                return message.upper()

        store = Store("shop")
        store.load("shop", "fr", FILE)
        store.publish()
        with kobdzila.using(snapshot):
            for _ in range(3):
                self.assertEqual((current.gettext("basket"), current.pgettext("verb", "order")), ("panier", "commander"))
                self.assertEqual(current.ngettext("%d file", "%d files", n=2), "%d fichiers")
                self.assertEqual(current.npgettext("menu", "%d item", "", 2), "%d articles")
        for made, answer in ((snapshot.__class__(store, "shop", "fr"), "panier"), (Own(store, "shop", "fr"), "BASKET"),
                             (GNUTranslations(FILE), "panier"), (gettext.NullTranslations(), "basket")):
            current.current = lambda: made
            self.assertEqual((current.gettext("basket"), current.gettext(message="basket")), (answer, answer))
        current.current = lambda: 1 // 0
        with self.assertRaises(ZeroDivisionError):
            current.gettext("basket")
        current.current = lambda: snapshot
        for words in ((), ("a", "b")):
            with self.assertRaises(TypeError):
                current.gettext(*words)
        del current.current
        with self.assertRaises(AttributeError):
            current.gettext("basket")


if __name__ == "__main__":
    unittest.main()
