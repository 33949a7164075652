"""Jinja2, Flask, Babel and Sphinx, if they are installed."""
from __future__ import annotations

import importlib.util
import io
import os
import subprocess
import sys
import tempfile
import unittest
import warnings
from collections.abc import Callable
from datetime import date
from pathlib import Path
from typing import Any
from unittest import mock

import kobdzila
from texts import FRENCH

TOP = Path(__file__).parents[2]
EXAMPLE = TOP / "examples" / "flask" / "shop.py"
PAGE = TOP / "docs" / "guide" / "python-frameworks.md"
SHOP = FRENCH + r"""
msgid "%(num)s file"
msgid_plural "%(num)s files"
msgstr[0] "%(num)s fichier"
msgstr[1] "%(num)s fichiers"
"""
TEMPLATE = "{% trans %}basket{% endtrans %} {% trans num=n %}{{ num }} file{% pluralize %}{{ num }} files{% endtrans %}"
OLD_STYLE = "{{ ngettext('%d file', '%d files', n) % n }} {{ pgettext('verb', 'order') }}"

# an application before the changes that the page lists
APPLICATION = """\
import gettext

from flask import Flask, g, render_template_string, request

LANGUAGES = ["de", "en", "fr"]
app = Flask(__name__)
translations = {name: gettext.translation("shop", "locale", [name], fallback=True) for name in LANGUAGES}
app.jinja_env.add_extension("jinja2.ext.i18n")
app.jinja_env.install_gettext_callables(
    lambda message: g.texts.gettext(message), lambda one, many, n: g.texts.ngettext(one, many, n), newstyle=True)


@app.before_request
def choose():
    g.texts = translations[request.accept_languages.best_match(LANGUAGES, "en")]


@app.get("/<int:n>")
def page(n):
    return g.texts.gettext("basket") + " " + render_template_string(TEMPLATE, n=n)
"""


def changed(text: str, difference: str) -> str:
    """The text with the changes of a diff without line numbers, whose lines it has in their order."""
    lines, index = text.splitlines(), 0
    for line in filter(None, difference.splitlines()):
        if line[0] == "+":
            lines.insert(index, line[1:])
        else:
            index = lines.index(line[1:], index)
        if line[0] == "-":
            del lines[index]
        else:
            index += 1
    return "\n".join(lines)


def there(name: str) -> bool:
    return importlib.util.find_spec(name) is not None


@unittest.skipUnless(there("jinja2"), "no Jinja2")
class JinjaTest(unittest.TestCase):
    def test_both_styles(self) -> None:
        from jinja2 import Environment

        for newstyle in (True, False):
            environment: Any = Environment(extensions=["jinja2.ext.i18n"])
            translations = kobdzila.GNUTranslations.from_po(SHOP.encode())
            environment.install_gettext_translations(translations, newstyle=newstyle)
            for n, text in ((1, "panier 1 fichier"), (2, "panier 2 fichiers")):
                self.assertEqual(environment.from_string(TEMPLATE).render(n=n), text)
        self.assertEqual(environment.from_string(OLD_STYLE).render(n=5), "5 fichiers supprimés commander")

    def test_snapshots(self) -> None:
        """Both styles of calls look up in the snapshot of the moment, and a template is compiled once."""
        from jinja2 import Environment

        store = kobdzila.Store("shop")
        store.load("shop", "fr", SHOP.encode())
        store.publish()
        for newstyle in (True, False):
            environment: Any = Environment(extensions=["jinja2.ext.i18n"])
            snapshots = [store.snapshot("fr")]
            current = kobdzila.LazyTranslations(lambda: snapshots[-1])
            environment.install_gettext_translations(current, newstyle=newstyle)
            page, old = environment.from_string(TEMPLATE), environment.from_string("{{ pgettext('verb', 'order') }}")
            self.assertEqual((page.render(n=2), old.render()), ("panier 2 fichiers", "commander"))
            store.load("shop", "fr", SHOP.replace("panier", "corbeille").encode())
            store.publish()
            self.assertEqual(page.render(n=1), "panier 1 fichier")
            snapshots.append(store.snapshot("fr"))
            self.assertEqual(page.render(n=1), "corbeille 1 fichier")
            snapshots.append(store.snapshot("sv"))
            self.assertEqual((page.render(n=1), old.render()), ("basket 1 file", "order"))
            store.load("shop", "fr", SHOP.encode())
            store.publish()
        environment.install_gettext_translations(store.snapshot("fr"))
        self.assertEqual(environment.from_string(OLD_STYLE).render(n=5), "5 fichiers supprimés commander")

    def test_lazy_texts(self) -> None:
        """A lazy text is escaped once, or not at all where it is marked as safe, as the str is that it stands for."""
        from jinja2 import Environment

        markupsafe: Any = importlib.import_module("markupsafe")
        markup, text = markupsafe.Markup, "I accept the <a href='/terms'>terms</a> & \"more\""
        page = Environment(autoescape=True).from_string("{{ it }}|{{ it|safe }}|{{ it|e }}|{{ '<b>%s</b>'|safe % it }}")
        works: list[Callable[[Any], object]] = [
            lambda it: page.render(it=it), markup, markupsafe.escape, lambda it: markup("<b>%s</b>") % it,
            lambda it: markup("<b>{}</b>").format(it), lambda it: markup("<b>") + it, lambda it: it + markup("<b>"),
            lambda it: markup(",").join([it, it])]
        for number, work in enumerate(works):
            self.assertEqual(work(kobdzila.lazy_gettext(text)), work(text), number)


@unittest.skipUnless(there("flask"), "no Flask")
class FlaskTest(unittest.TestCase):
    def test_example(self) -> None:
        spec = importlib.util.spec_from_file_location("flask_shop", EXAMPLE)
        assert spec and spec.loader
        module = importlib.util.module_from_spec(spec)
        spec.loader.exec_module(module)
        with tempfile.TemporaryDirectory() as room:
            folder = Path(room, "fr", "LC_MESSAGES")
            folder.mkdir(parents=True)
            (folder / "shop.mo").write_bytes(kobdzila.Catalogue.from_po(SHOP.encode()).mo_file())
            client = module.create_app(room).test_client()
            for accepted, text, lang in (("fr-CA, de", "panier: 3 fichiers", "fr"), ("fr", "panier: 3 fichiers", "fr"),
                                         ("de, fr;q=0.5", "panier: 3 fichiers", "fr"), ("sv", "basket: 3 files", "en"),
                                         ("en, fr;q=0.9", "basket: 3 files", "en")):
                page = client.get("/3", headers={"Accept-Language": accepted})
                self.assertIn(f"<main>{text}</main>", page.text, accepted)
                self.assertIn(f'<html lang="{lang}" dir="ltr">', page.text)
                self.assertEqual((page.headers["Vary"], page.headers["Content-Language"]), ("Accept-Language", lang))

    def test_going_over(self) -> None:
        """The application of someone who makes the five changes of the page."""
        difference = PAGE.read_text(encoding="utf-8").partition("```diff\n")[2].partition("```")[0]
        self.assertEqual(difference.count("\n+"), 5)
        own: dict[str, Any] = {"TEMPLATE": TEMPLATE, "__name__": "shop"}
        watches: list[kobdzila.Watch] = []
        before, watch = os.getcwd(), kobdzila.Store.watch
        with tempfile.TemporaryDirectory() as room, \
                mock.patch.object(kobdzila.Store, "watch", lambda *words: watches.append(watch(*words))):
            file = Path(room, "locale", "fr", "LC_MESSAGES", "shop.mo")
            file.parent.mkdir(parents=True)
            file.write_bytes(kobdzila.Catalogue.from_po(SHOP.encode()).mo_file())
            os.chdir(room)
            try:
                for text in (APPLICATION, changed(APPLICATION, difference)):
                    exec(text, own)
                    client = own["app"].test_client()
                    for accepted, page in (("fr", "panier panier 2 fichiers"), ("sv", "basket basket 2 files"),
                                           ("en, fr;q=0.5", "basket basket 2 files")):
                        self.assertEqual(client.get("/2", headers={"Accept-Language": accepted}).text, page, accepted)
                own["store"].load("shop", "fr", SHOP.replace("panier", "corbeille").encode())
                own["store"].publish()
                self.assertEqual(client.get("/1", headers={"Accept-Language": "fr"}).text,
                                 "corbeille corbeille 1 fichier")
            finally:
                os.chdir(before)
                for it in watches:
                    it.stop()

    def test_middleware(self) -> None:
        from flask import Flask, render_template_string, request

        store = kobdzila.Store("shop")
        store.load("shop", "fr", SHOP.encode())
        store.publish()
        app: Any = Flask(__name__)
        kept: list[kobdzila.Snapshot] = []
        app.wsgi_app = kobdzila.WSGIMiddleware(app.wsgi_app, store)
        app.jinja_env.add_extension("jinja2.ext.i18n")
        texts = kobdzila.LazyTranslations(lambda: request.environ["kobdzila.snapshot"])
        app.jinja_env.install_gettext_translations(texts, newstyle=True)

        def page(n: int) -> str:
            kept.append(request.environ["kobdzila.snapshot"])
            return str(render_template_string(TEMPLATE, n=n))

        app.get("/<int:n>")(page)
        client = app.test_client()
        self.assertEqual(client.get("/2", headers={"Accept-Language": "fr-CA"}).text, "panier 2 fichiers")
        self.assertEqual(client.get("/2", headers={"Accept-Language": "en, fr;q=0.5"}).text, "basket 2 files")
        store.load("shop", "fr", SHOP.replace("panier", "corbeille").encode())
        store.publish()
        with client.get("/1", headers={"Accept-Language": "fr"}) as answer:
            self.assertEqual(answer.text, "corbeille 1 fichier")
        with self.assertRaises(ValueError):
            kept[-1].gettext("basket")


@unittest.skipUnless(there("babel"), "no Babel")
class BabelTest(unittest.TestCase):
    def test_negotiated(self) -> None:
        """A snapshot of the locale that Babel chooses, in which it also formats."""
        from babel import Locale
        from babel.dates import format_date
        from babel.numbers import format_decimal

        store = kobdzila.Store("shop")
        store.load("shop", "fr", SHOP.encode())
        store.load("shop", "pt_BR", SHOP.replace("Language: fr", "Language: pt_BR").replace("panier", "cesta").encode())
        store.publish()
        for preferred, text, number in ((["fr_CA", "pt_BR"], "panier", "1,5"), (["pt_BR", "fr"], "cesta", "1,5"),
                                        (["sv", "da"], "basket", "1.5")):
            chosen = Locale.negotiate(preferred, ["de", "fr", "pt_BR"]) or "en"
            with store.snapshot(str(chosen)) as texts:
                self.assertEqual(texts.gettext("basket"), text, preferred)
                self.assertEqual(format_decimal(1.5, locale=texts.language or "en"), number, preferred)
        self.assertIsNone(Locale.negotiate(["sv"], ["fr"]))
        self.assertEqual(format_date(date(2026, 3, 1), locale=store.snapshot("fr-CA").language or ""), "1 mars 2026")

    def test_in_place_of_its_translations(self) -> None:
        """What Babel's Translations.load returns, and what kobdzila.translation does."""
        from babel import Locale
        from babel.support import Translations

        with tempfile.TemporaryDirectory() as room:
            folder = Path(room, "fr", "LC_MESSAGES")
            folder.mkdir(parents=True)
            (folder / "shop.mo").write_bytes(kobdzila.Catalogue.from_po(SHOP.encode()).mo_file())
            for locale in ("fr", "sv"):
                chosen = Locale.parse(locale)
                theirs = Translations.load(room, [chosen], "shop")
                ours = kobdzila.translation("shop", room, [str(chosen)], fallback=True)
                for it in ("basket", "order"):
                    self.assertEqual(ours.gettext(it), theirs.gettext(it))
                    self.assertEqual(ours.pgettext("verb", it), theirs.pgettext("verb", it))
                for n in (0, 1, 2, 200):
                    self.assertEqual(ours.ngettext("%d file", "%d files", n), theirs.ngettext("%d file", "%d files", n))
                    words = "menu", "%d item", "%d items", n
                    self.assertEqual(ours.npgettext(*words), theirs.npgettext(*words))

    def test_among_its_translations(self) -> None:
        from babel.support import Translations

        own = kobdzila.Catalogue.from_po(b'msgid "cart"\nmsgstr "chariot"\n').mo_file()
        theirs: Any = Translations(io.BytesIO(own), "shop")
        ours: Any = kobdzila.GNUTranslations.from_po(SHOP.encode())
        theirs.add_fallback(ours)
        self.assertEqual((theirs.gettext("cart"), theirs.gettext("basket")), ("chariot", "panier"))
        self.assertEqual(theirs.npgettext("menu", "%d item", "", 2), "%d articles")
        theirs = Translations(io.BytesIO(own), "shop")
        theirs.merge(ours)
        theirs.plural = ours.plural  # (which merge leaves as it is)
        self.assertEqual((theirs.gettext("cart"), theirs.gettext("basket")), ("chariot", "panier"))
        self.assertEqual(theirs.upgettext("verb", "order"), "commander")
        self.assertEqual(theirs.unpgettext("menu", "%d item", "", 2), "%d articles")

        ours, theirs = kobdzila.GNUTranslations.from_po(SHOP.encode()), Translations(io.BytesIO(own), "cart")
        ours.add_fallback(theirs)
        self.assertEqual((ours.gettext("cart"), ours.gettext("basket")), ("chariot", "panier"))
        ours, theirs = kobdzila.GNUTranslations.from_po(SHOP.encode()), Translations(io.BytesIO(own), "cart")
        ours.domain = "shop"
        theirs.add(ours)
        self.assertEqual((theirs.dgettext("shop", "basket"), theirs.gettext("basket")), ("panier", "basket"))
        self.assertEqual(theirs.dgettext("shop", "cart"), "chariot")

    def test_its_files(self) -> None:
        """Files that `pybabel compile` writes. With contexts their keys are out of order."""
        with warnings.catch_warnings():
            warnings.simplefilter("ignore")  # (of the module cgi, which Babel 2.10 imports)
            from babel.messages.mofile import write_mo
            from babel.messages.pofile import read_po

        for text in (SHOP.replace("msgctxt", "#"), SHOP):
            file = io.BytesIO()
            write_mo(file, read_po(io.BytesIO(text.encode()), locale="fr"))
            ours = kobdzila.GNUTranslations(file.getvalue())
            self.assertEqual((ours.gettext("basket"), ours.count), ("panier", 6))
            self.assertEqual(ours.ngettext("%d file", "%d files", 2), "%d fichiers supprimés")
        self.assertEqual(ours.npgettext("menu", "%d item", "", 2), "%d articles")
        store = kobdzila.Store("shop")
        store.load("shop", "fr", file.getvalue())
        store.publish()
        self.assertEqual(store.snapshot("fr").pgettext("verb", "order"), "commander")


# runs Sphinx, for `ours` with the package in place of the module gettext, and says how many catalogues the package opened
SPHINX = """
import sys, kobdzila
if sys.argv.pop(1) == "ours":
    sys.modules["gettext"] = kobdzila
from sphinx.cmd.build import main
status = main(sys.argv[1:])
print(len(kobdzila._gettext._translations))
sys.exit(status)
"""
DOCUMENT = {
    "conf.py": 'project = "shop"\nlanguage = "fr"\nlocale_dirs = ["locale"]\n',
    "index.rst": "Baskets\n=======\n\nA basket.\n\n.. note:: Two files.\n",
    "locale/fr/LC_MESSAGES/index.po": SHOP + 'msgid "Baskets"\nmsgstr "Paniers"\n\nmsgid "A basket."\nmsgstr "Un panier."\n',
}


@unittest.skipUnless(there("sphinx"), "no Sphinx")
class SphinxTest(unittest.TestCase):
    def test_pages(self) -> None:
        """A document in French has the same pages, in its own texts and in those of Sphinx."""
        with tempfile.TemporaryDirectory() as name:
            room, pages = Path(name), []
            for path, text in DOCUMENT.items():
                (room / path).parent.mkdir(parents=True, exist_ok=True)
                (room / path).write_text(text, encoding="utf-8")
            for which, opened in (("theirs", 0), ("ours", 2)):
                words = [sys.executable, "-W", "ignore", "-c", SPHINX, which, "-q", "-E", "-b", "html", name, f"{name}/{which}"]
                done = subprocess.run(words, env={**os.environ, "SOURCE_DATE_EPOCH": "0"}, capture_output=True, text=True,
                                      check=False)
                self.assertEqual((done.returncode, done.stderr), (0, ""))
                self.assertGreaterEqual(int(done.stdout), opened)
                made = sorted((room / which).glob("*.html"))
                pages.append({it.name: it.read_text(encoding="utf-8") for it in made})
        self.assertEqual(pages[0], pages[1])
        for text in ("<h1>Paniers", "Un panier.", "Note", "Recherche"):
            self.assertIn(text, pages[1]["index.html"])


if __name__ == "__main__":
    unittest.main()
