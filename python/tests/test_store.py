"""The live store: loads, publishes and snapshots; languages; threads."""
from __future__ import annotations

import contextlib
import copy
import gc
import gettext
import io
import os
import pickle
import sys
import threading
import time
import unittest
import warnings
from collections.abc import Callable
from pathlib import Path
from typing import Any

import kobdzila
from common import OPENS, SANITIZED, assert_no_leak, failures_of, in_threads
from common import allocated, needs_freed_memory, needs_mallinfo, needs_testcapi
from kobdzila import Catalogue, Fault, Refused, Store
from kobdzila import accepted
from kobdzila._languages import answer_of, names_of
from kobdzila._negotiation import Site
from test_catalogue import CHECKED_TEXTS, REFUSED_FILES, REFUSED_TEXTS
from texts import ARABIC, FRENCH, french


def text_of(**messages: str) -> bytes:
    """A PO text of these messages."""
    return "".join(f'msgid "{msgid}"\nmsgstr "{text}"\n\n' for msgid, text in messages.items()).encode()


def store_with(*loads: tuple[str, str, Any]) -> Store:
    store = Store("shop")
    for load in loads:
        store.load(*load)
    store.publish()
    return store


class LoadTest(unittest.TestCase):
    def test_formats(self) -> None:
        po, mo = FRENCH.encode(), french().mo_file()
        for data in (po, mo, bytearray(po), memoryview(mo), french(), kobdzila.GNUTranslations(mo)):
            self.assertEqual(store_with(("shop", "fr", data)).snapshot("fr").gettext("basket"), "panier")
        other_order = mo[3::-1] + mo[4:]  # (the magic number tells the format, even of a file that is no catalogue)
        with self.assertRaises(Refused) as caught:
            Store().load("shop", "fr", other_order)
        self.assertLess(caught.exception.fault, Fault.PO_TOO_LARGE)

    def test_versions(self) -> None:
        store = Store("shop")
        self.assertEqual((store.version, store.pending, store.publish(), store.retained), (0, 0, 0, 0))
        for number in range(1, 4):
            store.load("shop", "fr", text_of(basket=f"panier {number}"))
            self.assertEqual((store.version, store.pending), (0, number))
        self.assertEqual(store.snapshot("fr").gettext("basket"), "basket")
        self.assertEqual((store.publish(), store.version, store.pending), (3, 3, 0))
        with store.snapshot("fr") as texts:
            self.assertEqual((texts.gettext("basket"), texts.version), ("panier 3", 3))
        self.assertEqual(store.publish(), 3)

    def test_refusals(self) -> None:
        store = store_with(("shop", "fr", FRENCH.encode()))
        store.load("shop", "de", text_of(basket="Korb"))
        for data, fault, line in REFUSED_TEXTS:
            with self.assertRaises(Refused, msg=str(data)) as caught:
                store.load("shop", "fr", data)
            self.assertEqual((caught.exception.fault, caught.exception.line), (fault, line))
        for data, fault in CHECKED_TEXTS:
            with self.assertRaises(Refused, msg=str(data)) as caught:
                store.load("shop", "fr", data, checked=True)
            self.assertEqual(caught.exception.fault, fault)
        for data, fault in REFUSED_FILES:
            if len(data) > 28 and fault is not Fault.MO_MAGIC:
                with self.assertRaises(Refused, msg=str(data)) as caught:
                    store.load("shop", "fr", data)
                self.assertEqual((caught.exception.fault, caught.exception.line), (fault, 0))
        self.assertEqual((store.version, store.pending), (1, 1))
        self.assertEqual(store.publish(), 2)
        self.assertEqual(store.snapshot("fr").gettext("basket"), "panier")

    def test_names(self) -> None:
        store, catalogue = Store(), french()
        for name in ("", "a b", "a/b", "a\0", "shop\0x", "é", "\ud800", "x" * 65):
            for load in ((name, "fr", catalogue), ("shop", name, catalogue)):
                with self.assertRaises(Refused, msg=repr(name)) as caught:
                    store.load(*load)
                self.assertEqual((caught.exception.fault, caught.exception.line), (Fault.BAD_NAME, 0))
        self.assertEqual(store.pending, 0)
        store.load("a-Z_0.@+", "x" * 64, catalogue)
        self.assertEqual(store.publish(), 1)

    def test_wrong_arguments(self) -> None:
        store: Any = store_with(("shop", "fr", FRENCH.encode()))
        texts = store.snapshot("fr")
        snapshot: Any = kobdzila.Snapshot
        calls: list[Callable[[], object]] = [
            lambda: store.load("shop", "fr"),
            lambda: store.load("shop", "fr", "text"),
            lambda: store.load("shop", "fr", None),
            lambda: store.load(b"shop", "fr", b""),
            lambda: store.load("shop", 1, b""),
            lambda: store.load("shop", "fr", Catalogue()),
            lambda: store._load("shop", "fr", store),
            lambda: store._load("shop", "fr"),
            lambda: store.snapshot(3),
            lambda: store.snapshot("fr", 3),
            lambda: snapshot(),
            lambda: snapshot(store, "shop"),
            lambda: snapshot(texts, "shop", "fr"),
            lambda: snapshot(store, "shop", 3),
            lambda: snapshot(store, "shop", languages="fr"),
            lambda: texts.gettext(),
            lambda: texts.gettext("a", "b"),
            lambda: texts.dgettext("basket"),
            lambda: texts.ngettext("a", "b"),
            lambda: texts.gettext(text="a"),
            lambda: texts.ngettext("a", "b", "2"),
            lambda: texts.ngettext("%d file", "b", None),
            lambda: texts.find("shop", "fr", "basket", None, "x"),
        ]
        for number, call in enumerate(calls):
            with self.assertRaises(TypeError, msg=str(number)):
                call()
        others: list[Any] = ["fr.po", Path("fr.po"), 5]
        for other in others:
            said = f"bytes-like object is required, not '{type(other).__name__}'"
            self.assertRaisesRegex(TypeError, said, store.load, "shop", "fr", other)
            self.assertRaisesRegex(TypeError, said, kobdzila.compile_po, other)
        for n in (-1, 2**64):
            with self.assertRaises(OverflowError):
                texts.find("shop", "fr", "basket", None, n)
        self.assertEqual(texts.gettext("basket"), "panier")


class LookUpTest(unittest.TestCase):
    def test_calls(self) -> None:
        other = text_of(basket="corbeille")
        texts = store_with(("shop", "fr", FRENCH.encode()), ("mail", "fr", other)).snapshot("fr")
        self.assertEqual(texts.gettext("basket"), "panier")
        self.assertEqual(texts.gettext(message="basket"), "panier")
        self.assertEqual(texts.pgettext("verb", "order"), "commander")
        self.assertEqual(texts.ngettext("%d file", "%d files", 2), "%d fichiers supprimés")
        self.assertEqual(texts.ngettext(n=1, msgid2="x", msgid1="%d file"), "%d fichier supprimé")
        self.assertEqual(texts.npgettext("menu", "%d item", "%d items", 2), "%d articles")
        self.assertEqual(texts.dgettext("mail", "basket"), "corbeille")
        self.assertEqual(texts.dpgettext("shop", "verb", "order"), "commander")
        self.assertEqual(texts.dpgettext("mail", "verb", "order"), "order")
        self.assertEqual(texts.dngettext("shop", "%d file", "%d files", 2), "%d fichiers supprimés")
        self.assertEqual(texts.dngettext("mail", "%d file", "%d files", 2), "%d files")
        named: dict[str, Any] = {"domain": "shop", "context": "menu", "msgid1": "%d item", "msgid2": "", "n": 1}
        self.assertEqual(texts.dnpgettext(**named), "%d article")
        self.assertEqual(texts.find("mail", "de:fr", "basket"), "corbeille")
        self.assertEqual(texts.find("shop", "fr", "%d item", "menu", 7), "%d articles")
        self.assertIsNone(texts.find("shop", "de", "basket"))
        self.assertEqual((texts.domain, texts.languages, texts.language), ("shop", "fr", "fr"))
        self.assertEqual(texts.info()["plural-forms"], "nplurals=2; plural=n>1;")
        self.assertEqual((texts.info("none"), texts.info("mail")), ({}, {}))

    def test_not_found(self) -> None:
        texts: Any = store_with(("shop", "fr", FRENCH.encode())).snapshot("fr")
        message, plural = "no such", "no such ones"
        self.assertIs(texts.gettext(message), message)
        self.assertIs(texts.pgettext("noun", message), message)
        self.assertIs(texts.ngettext(message, plural, 1), message)
        self.assertIs(texts.npgettext("verb", message, plural, 0), plural)
        self.assertIs(texts.dgettext("sh\ud800p", message), message)
        for text in ("bas\0ket", "\ud800", "a" * 10**5, None, 5, b"basket"):
            self.assertIs(texts.gettext(text), text)
            self.assertIs(texts.pgettext(text, message), message)
            self.assertIs(texts.ngettext("s", text, 2), text)

    def test_numbers(self) -> None:
        """Each n is answered as Python's own gettext does."""
        for po in (FRENCH, ARABIC):
            mo = Catalogue.from_po(po.encode()).mo_file()
            theirs, ours = gettext.GNUTranslations(io.BytesIO(mo)), store_with(("shop", "fr", mo)).snapshot("fr")
            for n in (-(2**70), -5, -1, 0, True, 1, 2, 127, 128, 2**63, 2**64 - 1, 2**64, 2**64 + 1, 10**100):
                for words in (("%d file", "%d files", n), ("none", "nones", n)):
                    self.assertEqual(ours.ngettext(*words), theirs.ngettext(*words), n)
            numbers: list[Any] = [0.5, 1.0, 2.0]
            for n in numbers:
                with warnings.catch_warnings():
                    warnings.simplefilter("ignore")
                    wanted = theirs.ngettext("%d file", "%d files", n)
                with self.assertWarns(DeprecationWarning):
                    self.assertEqual(ours.ngettext("%d file", "%d files", n), wanted)
        # (as in Python 3.11 and later, and in a Catalogue)
        self.assertEqual((ours.gettext("%d file"), ours.npgettext("c", "a", "b", -1)), ("one", "b"))

    def test_order_of_languages(self) -> None:
        """The first language that has the message answers, by its own plural rule."""
        texts = store_with(
            ("shop", "ar", ARABIC.encode()), ("shop", "fr", FRENCH.encode()), ("shop", "de", text_of(order="bestellen"))
        )
        mixed = texts.snapshot("de:ar:fr")
        self.assertEqual([mixed.ngettext("%d file", "", n) for n in (0, 1, 2)], ["none", "one", "many"])
        self.assertEqual((mixed.gettext("basket"), mixed.gettext("order")), ("panier", "bestellen"))
        # (the German text has no header, so the Arabic one's name is the first)
        self.assertEqual((mixed.language, texts.snapshot("sv").language), ("ar", None))


class SnapshotTest(unittest.TestCase):
    def test_one_version(self) -> None:
        store = store_with(("shop", "fr", text_of(a="a1", b="b1")))
        with store.snapshot("fr") as texts:
            first = texts.gettext("a")
            store.load("shop", "fr", text_of(a="a2", b="b2"))
            self.assertEqual(store.publish(), 2)
            self.assertEqual((first, texts.gettext("b"), texts.version), ("a1", "b1", 1))
        with store.snapshot("fr") as texts:
            self.assertEqual((texts.gettext("a"), texts.version), ("a2", 2))

    def test_nested(self) -> None:
        """Snapshots of one thread that overlap each keep their own version."""
        store, held = Store("shop"), []
        for number in range(1, 101):
            store.load("shop", "fr", text_of(a=f"a{number}"))
            self.assertEqual(store.publish(), number)
            held.append(store.snapshot("fr"))
        for turn in (held[::3], held[1::3], held[2::3]):
            for texts in turn:
                self.assertEqual(texts.gettext("a"), f"a{texts.version}")
                texts.close()
            left = [it for it in held if is_open(it)]
            self.assertEqual([it.gettext("a") for it in left], [f"a{it.version}" for it in left])

    def test_closed(self) -> None:
        texts = store_with(("shop", "fr", FRENCH.encode())).snapshot("fr")
        with texts as same:
            self.assertIs(same, texts)
        texts.close()
        calls: list[Callable[[], object]] = [
            lambda: texts.gettext("basket"), lambda: texts.ngettext("%d file", "", -1), lambda: texts.version,
            lambda: texts.find("shop", "fr", "basket"), lambda: texts.language]
        for call in calls:
            with self.assertRaises(ValueError):
                call()
        self.assertEqual((texts.domain, texts.languages), ("shop", "fr"))

    def test_outlives_the_store(self) -> None:
        texts = store_with(("shop", "fr", FRENCH.encode())).snapshot("fr")
        gc.collect()
        self.assertEqual(texts.gettext("basket"), "panier")

    def test_replaced_versions_are_freed(self) -> None:
        """Neither closed nor forgotten snapshots, nor readers that wait for the next one, keep replaced catalogues."""
        store = Store("shop")
        for number in range(200):
            with store.snapshot("fr"), store.snapshot("fr"):
                store.snapshot("fr").gettext("a")
                store.load("shop", "fr", text_of(a=f"a{number}"))
                store.publish()
                self.assertEqual(store.retained, 1)
            self.assertEqual(store.retained, 0)
        many = []
        for number in range(200):
            many.append(store.snapshot("fr"))
            store.load("shop", "fr", text_of(a=f"a{number}"))
            store.publish()
        self.assertEqual(store.retained, 200)
        for texts in many:
            texts.close()
        self.assertEqual(store.retained, 0)
        kept = store.snapshot("fr")
        for _ in range(3):
            store.load("shop", "fr", text_of(a="last"))
            store.publish()
        self.assertEqual((store.retained, kept.gettext("a")), (1, "a199"))

    @needs_mallinfo
    def test_memory_of_closed_snapshots(self) -> None:
        """Once the snapshots of 20 versions are closed, a look at the store frees all of their memory."""
        store = Store("shop")
        large = b"".join(b'msgid "m%d"\nmsgstr "%0200d"\n\n' % (number, number) for number in range(10000))
        store.load("shop", "fr", large)
        store.publish()
        before = allocated()
        many = []
        for _ in range(20):
            store.load("shop", "fr", large)
            store.publish()
            many.append(store.snapshot("fr"))
        store.load("shop", "fr", large)
        store.publish()
        self.assertGreater(allocated() - before, 20 * len(large) // 2)
        for texts in many:
            texts.close()
        self.assertEqual(store.retained, 0)
        self.assertLess(allocated() - before, len(large) // 2)

    def test_at_least(self) -> None:
        store = store_with(("shop", "fr", text_of(a="a1")))
        self.assertEqual(store.snapshot("fr", at_least=1).version, 1)
        begun = time.monotonic()
        for within in (0.0, 0.2):
            with self.assertRaisesRegex(TimeoutError, "version 1, and 2"):
                store.snapshot("fr", at_least=2, within=within)
        self.assertGreaterEqual(time.monotonic() - begun, 0.2)
        seen = []

        def publish() -> None:
            time.sleep(0.1)
            store.load("shop", "fr", text_of(a="a2"))
            store.publish()

        in_threads(publish, lambda: seen.append(store.snapshot("fr", at_least=2, within=30).gettext("a")))
        self.assertEqual(seen, ["a2"])

    def test_copies(self) -> None:
        store = store_with(("shop", "fr", FRENCH.encode()))
        for it in (store, store.snapshot("fr")):
            ways: list[Callable[[object], object]] = [copy.copy, copy.deepcopy, pickle.dumps]
            for copied in ways:
                with self.assertRaises(TypeError):
                    copied(it)

    def test_references(self) -> None:
        domain, message = "".join(("sh", "op")), "".join(("no", "ne"))
        store = store_with(("shop", "fr", FRENCH.encode()))
        counted = (Store, kobdzila.Snapshot, store, domain, message)
        before = [sys.getrefcount(one) for one in counted]
        for _ in range(1000):
            with store.snapshot("fr", domain) as texts:
                texts.gettext(message), texts.dnpgettext(domain, message, message, message, 3), texts.info()
                texts.ngettext(message, message, -2), texts.find(domain, "fr", message, message)
            Store()
            with contextlib.suppress(Refused):
                store.load(domain, "a b", french())
        del texts
        for one, count in zip(counted, before):
            self.assertLess(abs(sys.getrefcount(one) - count), 100, one)

    @needs_testcapi
    def test_each_allocation(self) -> None:
        """Each allocation of Python's in a call fails in turn: MemoryError, or the right answer, and all goes on."""
        store, catalogue = store_with(("shop", "fr", FRENCH.encode())), french()

        def is_well() -> bool:
            texts = kobdzila.Snapshot(store, "shop", "fr")
            other = kobdzila._kobdzila.Store()
            other._load("shop", "fr", catalogue)
            said = (texts.gettext("basket"), texts.dngettext("shop", "%d file", "", 2), texts.find("shop", "de", "x"))
            texts.close()
            return said == ("panier", "%d fichiers supprimés", None) and (other._publish(), other.pending) == (1, 0)

        self.assertGreater(failures_of(self, is_well, 100), 2)

    @needs_freed_memory
    def test_leaks(self) -> None:
        store, mo = Store("shop"), french().mo_file()

        def round_of(number: int) -> None:
            with store.snapshot(f"fr-{number % 50:02}, en;q=0.5") as texts:
                texts.gettext("basket"), texts.gettext(f"none {number}"), texts.ngettext("%d file", "", -number)
                if number % 5 == 0:
                    store.load("shop", "fr", mo)
                    store.publish()
            if number % 50 == 0:
                other = Store()
                other.load("shop", "fr", mo)
                with contextlib.suppress(Refused):
                    other.load("shop", "", mo)

        assert_no_leak(self, round_of, OPENS // 4)


def is_open(texts: kobdzila.Snapshot) -> bool:
    with contextlib.suppress(ValueError):
        return texts.version >= 0
    return False


class LanguagesTest(unittest.TestCase):
    def test_headers(self) -> None:
        """RFC 9110, section 12.5.4 has the first two; the weights are those of section 12.4.2."""
        for header, tags in (
            ("da, en-gb;q=0.8, en;q=0.7", ["da", "en-gb", "en"]),
            ("en-GB;q=0.8,da", ["da", "en-GB"]),
            ("fr;q=0.5, de;q=0.50, sv;q=1.000, it", ["sv", "it", "fr", "de"]),
            ("fr;q=0, de;q=0.000, it;q=0.001", ["it"]),
            ("fr ; Q=0.9 ,\tde", ["de", "fr"]),
            ("*, fr;q=0.1, *;q=0.5", ["fr"]),
            ("fr;q=2, de;q=nan, it;q=-1, sv;q=1.5, da;q=0.1234, x y, é, no;level=1, fi;", []),
            (",,fr,", ["fr"]),
            ("", []),
            (",".join(f"a{it}" for it in "abcdefghijklmnopqrstuv"), [f"a{it}" for it in "abcdefghijklmnopqrst"]),
        ):
            self.assertEqual(accepted(header), tags, header)

    def test_names(self) -> None:
        for tag, names in (
            ("fr", "fr"),
            ("pt-BR", "pt-BR pt_BR pt"),
            ("PT-br", "PT-br pt_BR pt"),
            ("es-419", "es-419 es_419 es"),
            ("sr-Latn", "sr-Latn sr@latin sr"),
            ("zh-Hant", "zh-Hant zh_Hant zh_TW zh"),
            ("zh-Hant-HK", "zh-Hant-HK zh_Hant zh_HK zh"),
            ("ca-valencia", "ca-valencia ca@valencia ca"),
            ("de-DE-u-co-phonebk", "de-DE-u-co-phonebk de_DE de"),
            ("fr_CA", "fr_CA fr"),
            ("fr_FR.UTF-8@euro", "fr_FR.UTF-8@euro fr_FR@euro fr@euro fr_FR fr"),
            ("C", "C"),
        ):
            self.assertEqual(names_of(tag), names.split(), tag)

    def test_lists(self) -> None:
        """A list is taken as LANGUAGE is: each message is looked up in all of it."""
        for languages, locales in (
            ("fr_CA:de", "fr_CA:fr:de"),
            (["fr_CA", "de", "fr"], "fr_CA:fr:de"),
            (iter(["pt-BR"]), "pt-BR:pt_BR:pt"),
            (":sv::C:de", "sv:C:de"),
            ("en:fr", "en:fr"),
            ([], ""),
        ):
            self.assertEqual(answer_of(languages).locales, locales)

    def test_one(self) -> None:
        """A header, or the name of a language, has one language of those that the site has."""
        site = Site(["de", "fr", "fr_CA", "pt_BR", "x_own"], "en")
        for languages, locales in (
            ("de, en-US;q=0.9, fr;q=0.5", "de"),
            ("en-US, fr;q=0.5", "en"),
            ("fr-CA, de", "fr_CA:fr"),
            ("fr_CA.UTF-8", "fr_CA:fr"),
            ("PT-br", "pt_BR:pt"),
            ("x_own", "x_own:x_OWN:x"),
            ("sv, it;q=0.5", "en"),
            ("sv_SE", "sv_SE:sv"),  # (another text domain may have it)
            ("", "en"),
        ):
            self.assertEqual(answer_of(languages, site, None, "en").locales, locales)
        self.assertEqual(answer_of("sv_SE", site, "pt_BR", "en"), ("pt_BR:pt", "pt-BR"))
        self.assertEqual(answer_of("", site, "de", "en"), ("de", "de"))
        self.assertEqual(answer_of("sv, it;q=0.5", Site(["de"])), ("", None))

    def test_environment(self) -> None:
        before = {name: os.environ.pop(name, None) for name in ("LANGUAGE", "LC_ALL", "LC_MESSAGES", "LANG")}
        try:
            self.assertEqual(answer_of(None).locales, "")
            for name, value, locales in (("LANG", "de_DE.UTF-8", "de_DE.UTF-8:de_DE:de"), ("LC_ALL", "C", "C"),
                                         ("LANGUAGE", "fr:de", "fr:de")):
                os.environ[name] = value
                self.assertEqual(answer_of(None).locales, locales)
            self.assertEqual(store_with(("shop", "fr", FRENCH.encode())).snapshot().gettext("basket"), "panier")
        finally:
            os.environ.update({name: old for name, old in before.items() if old is not None})
            for name in [name for name, old in before.items() if old is None]:
                os.environ.pop(name, None)

    def test_requests(self) -> None:
        letters = {"fr": "f", "pt_BR": "b", "pt": "p"}
        store = store_with(*(("shop", locale, text_of(a=letter)) for locale, letter in letters.items()))
        for header, text in (("fr-CA", "f"), ("pt-BR, fr;q=0.5", "b"), ("pt-PT", "p"), ("sv, fr;q=0.5, pt;q=0.8", "p"),
                             ("en-US,en;q=0.9,fr;q=0.8", "a"), ("sv", "a"), ("", "a"), ("fr;q=0, pt;q=0.1", "p")):
            self.assertEqual(store.snapshot(header).gettext("a"), text, header)


def interrupted(work: Callable[[], object], moment: int) -> bool:
    """Raise KeyboardInterrupt at a moment of the work, of those at which Python runs signal handlers: a function of
    Python's is entered, or one in C has returned. Return whether the work came to that moment."""
    left = moment

    def count(frame: object, event: str, argument: object) -> None:
        nonlocal left
        left -= event in ("call", "c_return")
        if left == 0:
            raise KeyboardInterrupt

    try:
        sys.setprofile(count)
        work()
    except KeyboardInterrupt:
        pass
    finally:
        sys.setprofile(None)
    return left <= 0


def is_free(store: Store) -> bool:
    """Return whether another thread can publish."""
    thread = threading.Thread(target=store.publish, daemon=True)
    thread.start()
    thread.join(5)
    return not thread.is_alive()


class ThreadsTest(unittest.TestCase):
    def test_readers_and_publishers(self) -> None:
        """Two publishers, each with texts of its own for two domains, and readers that compare them."""
        store, end, count = Store("shop"), time.monotonic() + (6 if SANITIZED else 2), [0]
        wrong: list[object] = []

        def publish(locale: str) -> None:
            number = 0
            while time.monotonic() < end:
                number += 1
                store._publish_all([(domain, locale, Catalogue.from_po(text_of(a=f"{number}"))) for domain in "xy"])

        def read() -> None:
            last, before = 0, {"fr": 0, "de": 0}
            while time.monotonic() < end:
                shown = store.version
                with store.snapshot("fr") as outer, store.snapshot("de") as inner:
                    for texts in (outer, inner, outer):
                        pair = texts.dgettext("x", "a"), texts.dgettext("y", "a")
                        number = int(pair[0]) if pair[0] != "a" else 0
                        if pair[0] != pair[1] or number < before[texts.languages]:
                            wrong.append((pair, before, texts.version))
                        before[texts.languages] = number
                    if not shown <= outer.version <= inner.version or outer.version < last or outer.version % 2:
                        wrong.append((shown, outer.version, inner.version, last))
                    last = outer.version
                    count[0] += 1

        in_threads(lambda: publish("fr"), lambda: publish("de"), read, read, read, read)
        self.assertEqual(wrong[:3], [])
        self.assertGreater(count[0], 100)
        self.assertGreater(store.version, 20)

    def test_shared_snapshot(self) -> None:
        """Threads that share a snapshot, and close it under each other, get its answers or ValueError."""
        store, wrong = store_with(("shop", "fr", FRENCH.encode())), []
        for _ in range(20):
            texts = store.snapshot("fr")

            def ask(texts: kobdzila.Snapshot = texts) -> None:
                try:
                    for n in range(3000):
                        if texts.ngettext("%d file", "", n) not in ("%d fichier supprimé", "%d fichiers supprimés"):
                            wrong.append(n)
                    texts.close()
                except ValueError:
                    pass

            in_threads(*[ask] * 4)
        self.assertEqual(wrong, [])

    def test_interrupted(self) -> None:
        """Wherever a signal handler raises an exception, no lock stays held: other threads publish afterwards."""
        store = store_with(("shop", "fr", FRENCH.encode()))
        for work in (store.publish, lambda: store.load("shop", "de", FRENCH.encode()),
                     lambda: store._publish_all([("shop", "fr", french())])):
            moment = 1
            while interrupted(work, moment):
                self.assertTrue(is_free(store), (work, moment))
                moment += 1
            self.assertGreater(moment, 4)

    def test_others_run_while_it_loads(self) -> None:
        """A load releases the interpreter's lock: a clock in another thread ticks while a large text is compiled."""
        text = b"".join(b'msgid "message %d"\nmsgstr "%s"\n\n' % (k, b"x" * 60) for k in range(300_000))
        store, ticks, loading = Store(), [], threading.Event()

        def tick() -> None:
            loading.wait()
            while loading.is_set():
                ticks.append(time.monotonic())
                time.sleep(0.001)

        thread = threading.Thread(target=tick)
        thread.start()
        loading.set()
        begun = time.monotonic()
        store.load("shop", "fr", text)
        ended = time.monotonic()
        loading.clear()
        thread.join()
        during = [it for it in ticks if begun + 0.01 < it < ended - 0.01]
        self.assertGreater(len(during), 4, f"{len(ticks)} ticks in {ended - begun} s")


if __name__ == "__main__":
    unittest.main()
