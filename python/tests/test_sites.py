"""Sites of Django and of Flask-Babel whose texts come from a live store."""
from __future__ import annotations

import importlib.util
import subprocess
import sys
import tempfile
import unittest
from pathlib import Path

import kobdzila
from texts import HEADER

PO = HEADER + r"""
msgid "basket"
msgstr "{0}"

msgctxt "verb"
msgid "order"
msgstr "{0} verb"

msgid "%(n)s file"
msgid_plural "%(n)s files"
msgstr[0] "{0} %(n)s fichier"
msgstr[1] "{0} %(n)s fichiers"
"""

# a site whose settings have the two lines of the guide
SITE = r'''
import asyncio, os, signal, sys, time
from contextvars import copy_context
from pathlib import Path
from threading import Event, Thread
from unittest import mock

sys.path[:0] = sys.argv[1].split("|")
import django
from django.apps import AppConfig
from django.conf import settings

FOLDER = Path(sys.argv[2])


class Early(AppConfig):
    """An application that is ready before kobdzila.django, and looks something up."""

    name, path = __name__, sys.argv[2]

    def ready(self):
        assert gettext("early") == "early"


settings.configure(
    SECRET_KEY="x", ALLOWED_HOSTS=["*"], ROOT_URLCONF=__name__, USE_I18N=True, USE_TZ=True, LANGUAGE_CODE="en",
    INSTALLED_APPS=[f"{__name__}.Early", "kobdzila.django"], LOCALE_PATHS=[str(FOLDER), str(FOLDER / "none")],
    KOBDZILA_WATCH={"every": 0.02, "settle": 0.01},
    MIDDLEWARE=["django.middleware.locale.LocaleMiddleware"],
    TEMPLATES=[{"BACKEND": "django.template.backends.django.DjangoTemplates"}])
from django.utils.translation import gettext
django.setup()

from django.core.handlers.asgi import ASGIHandler
from django.core.signals import request_started
from django.http import HttpResponse
from django.template import engines
from django.test import AsyncClient, Client
from django.urls import path
from django.utils import translation
from django.utils.translation import gettext_lazy, ngettext, npgettext, pgettext

import kobdzila

TITLE = gettext_lazy("basket")
OWN = kobdzila.lazy_gettext("basket"), kobdzila.lazy_pgettext("verb", "order"), kobdzila.lazy_ngettext("a", "%(n)s", 2)
TEMPLATE = engines["django"].from_string(
    "{% load i18n %}{% trans 'basket' %}|{% blocktrans count n=n %}{{ n }} file{% plural %}{{ n }} files{% endblocktrans %}")


def put(name):
    text = PO.replace("{0}", name)
    (FOLDER / "fr" / "LC_MESSAGES" / "new").write_text(text, encoding="utf-8")
    os.replace(FOLDER / "fr" / "LC_MESSAGES" / "new", FOLDER / "fr" / "LC_MESSAGES" / "django.po")


def until(what):
    end = time.monotonic() + 60
    while not what():
        assert time.monotonic() < end, "it didn't come to that in time"
        time.sleep(0.01)


def page(request):
    before = gettext("basket")
    if request.GET.get("put"):
        put(request.GET["put"])
        with translation.override("de"):
            assert gettext("basket") == "basket", gettext("basket")
        from kobdzila.django import _live
        until(lambda: _live.stores()[0].snapshot("fr", "django").gettext("basket") == request.GET["put"])
        translation.activate("fr")
    texts = [before, gettext("basket"), str(TITLE), pgettext("verb", "order"), ngettext("%(n)s file", "%(n)s files", 2),
             npgettext("none", "%(n)s file", "%(n)s files", 1), ngettext("%(n)s file", "%(n)s files", -1),
             gettext("Yes"), gettext("nothing of it"), TEMPLATE.render({"n": 3}), " ".join(map(str, OWN))]
    return HttpResponse("\n".join(texts))


async def coroutine(request):
    return page(request)


async def later(request):
    before = str(OWN[0])
    await asyncio.sleep(0.01)
    return HttpResponse(f"{before} {OWN[0]} {gettext('basket')}")


async def leaves(request):
    """Leave a task that goes on after the request."""
    async def goes_on():
        with translation.override("fr"):
            while gettext("basket") == "cabas":
                await asyncio.sleep(0.01)

    LEFT.append(asyncio.create_task(goes_on()))
    return HttpResponse(gettext("basket"))


LEFT = []
urlpatterns = [path("", page), path("coroutine", coroutine), path("later", later), path("leaves", leaves)]
PO = sys.argv[3]


def get(accepted, **words):
    return Client().get("/", words, HTTP_ACCEPT_LANGUAGE=accepted).content.decode().split("\n")


async def asgi(path, query=""):
    """The body of what an ASGI server gets for a request in French."""
    messages, sent = [{"type": "http.request", "body": b""}], []

    async def receive():
        return messages.pop() if messages else await asyncio.Event().wait()  # (this one doesn't hang up)

    async def send(message):
        sent.append(message.get("body", b""))

    await ASGIHandler()({"type": "http", "method": "GET", "path": path, "query_string": query.encode(),
                         "headers": [(b"accept-language", b"fr")]}, receive, send)
    return b"".join(sent).decode()


def send_apart():
    """Let the receivers of a signal run in a context of their own under ASGI, as they do since Django 5.0."""
    send = request_started.send
    request_started.send = lambda **words: copy_context().run(send, **words) if "scope" in words else send(**words)


def french(name):
    return [name, name, name, name + " verb", name + " %(n)s fichiers", name + " %(n)s fichier", name + " %(n)s fichier",
            "Oui", "nothing of it", name + "|" + name + " 3 fichiers", name + " " + name + " verb %(n)s"]


put("panier")
(FOLDER / "en" / "LC_MESSAGES").mkdir(parents=True)
(FOLDER / "en" / "LC_MESSAGES" / "django.po").write_text('msgid "early"\nmsgstr "late"\n', encoding="utf-8")
# a process that is forked while a thread makes the stores makes its own
from kobdzila.django import _live
making, forked, made = Event(), Event(), _live._made
with mock.patch.object(_live, "_made", lambda: (making.set(), forked.wait(60), made())[2]):
    thread = Thread(target=_live.stores)
    thread.start()
    making.wait(60)
    child = os.fork()
    if not child:
        signal.alarm(20)
        forked.set()
        os._exit(len(_live.stores()))
    forked.set()
    thread.join()
assert os.waitpid(child, 0)[1] == 1 << 8, "a forked process has no stores"
assert str(OWN[0]) == "basket"  # (as for a command, which has the default language)
assert gettext("early") == "late", "the default language isn't that of the stores"
# a migration has the call that makes a lazy text, and reads as the same text
from django.db.migrations.writer import MigrationWriter
for own in OWN:
    written, imports = MigrationWriter.serialize(own)
    assert written.startswith("kobdzila.lazy_") and imports == {"import kobdzila"}, written
    assert repr(eval(written)) == repr(own), written
assert get("fr-CA, de") == french("panier"), get("fr-CA, de")


async def both():
    pages = await asyncio.gather(*(AsyncClient().get("/later", ACCEPT_LANGUAGE=it) for it in ("fr", "en")))
    assert [it.content.decode() for it in pages] == ["panier panier panier", "basket basket basket"], pages


asyncio.run(both())
assert get("en")[:2] == ["basket", "basket"] and get("de")[7] == "Ja"
# what Django calls the catalogue is one of its class, with the texts that aren't of the store: a change of one counts
from django.utils.translation import trans_real
with translation.override("fr"):
    own = trans_real.catalog()
    assert isinstance(own, trans_real.DjangoTranslation) and own.language() == "fr" and repr(own).startswith("<live <Dj")
    assert own._catalog["Yes"] == "Oui" and "basket" not in own._catalog and own.gettext("basket") == "panier"
    own._catalog.update(type("More", (), {"_catalog": {"new": "nouveau"}, "plural": own.plural}))
    assert gettext("new") == "nouveau", gettext("new")
# a request has one version, whatever is published meanwhile, and another language in between
assert get("fr", put="corbeille") == french("panier"), "a request has two versions"
assert get("fr") == french("corbeille"), "the next request has the older version"
# and so has one of an ASGI server, for a view in a thread and for one in the loop
from kobdzila.django import _live
answers = ASGIHandler.__call__
_live.start()
assert ASGIHandler.__call__ is answers, "what is started twice is in place once"
now = "corbeille"
for _ in range(2):
    for at, name in (("/", "panier"), ("/coroutine", "sac")):
        assert asyncio.run(asgi(at, f"put={name}")).split("\n") == french(now), f"{at} has two versions"
        now = name
    send_apart()
# outside of requests each text is of the newest version
with translation.override("fr"):
    put("cabas")
    until(lambda: gettext("basket") == "cabas")
    assert str(TITLE) == "cabas"


async def leave():
    assert await asgi("/leaves") == "cabas"
    put("sac")
    await asyncio.wait_for(LEFT.pop(), 60)


asyncio.run(leave())
assert get("fr") == french("sac")
# other settings, as tests have them
from django.test.utils import override_settings
store = kobdzila.Store("django")
store.load("django", "fr", PO.replace("{0}", "store").encode())
store.publish()
with override_settings(KOBDZILA_STORE=store, LOCALE_PATHS=[]):
    assert get("fr") == french("store"), get("fr")
    store.load("django", "fr", PO.replace("{0}", "again").encode())
    store.publish()
    assert get("fr") == french("again")
assert get("fr") == french("sac")
print("well")
'''

# a Flask-Babel application with the three lines of the guide; `later` lets Flask-Babel 2 be as later ones are
FLASK = r'''
import datetime, os, sys, time
from functools import cached_property
from pathlib import Path
from threading import Barrier, Lock, Thread
from unittest import mock

sys.path[:0] = sys.argv[1].split("|")
FOLDER, PO, IS_LATER = Path(sys.argv[2]), sys.argv[3], "later" in sys.argv
import warnings
warnings.simplefilter("ignore")  # (of the module cgi, which Babel 2.10 imports)
import flask_babel
from flask import (
    Flask, copy_current_request_context, current_app, flash, has_request_context, jsonify, render_template_string, request)
from flask_babel import Babel, force_locale, gettext, lazy_gettext, ngettext, npgettext, pgettext
import kobdzila, kobdzila.flask


def locale():
    return request.accept_languages.best_match(["en", "fr", "pt_BR"]) if has_request_context() else "fr"


class Configuration:
    """The extension since Flask-Babel 3, with what the functions of Flask-Babel 2 look for in it."""

    def __init__(self, instance, default_domain):
        self.instance, self.default_domain = instance, default_domain

    def __getattr__(self, name):
        return getattr(self.instance, name)


class Later(Babel):
    """The extension of Flask-Babel 2 as a later one is: it is found in a configuration, and its domain needs an
    application context."""

    def init_app(self, app):
        super().init_app(app)
        app.extensions["babel"] = Configuration(self, app.config["BABEL_DOMAIN"])

    @property
    def domain(self):
        return current_app.extensions["babel"].default_domain

    @cached_property
    def domain_instance(self):
        return flask_babel.Domain(domain=self.domain)


def listed(self, directories=None, domain="messages"):
    made(self, directories, domain)
    self.domain = domain.split(";")


app = Flask(__name__)
app.secret_key = "x"
if IS_LATER:
    app.config["BABEL_DOMAIN"] = "messages;others"
if not hasattr(Babel, "localeselector"):
    Babel(app, locale_selector=locale)
elif IS_LATER:
    made, flask_babel.Domain.__init__ = flask_babel.Domain.__init__, listed
    Later(app).localeselector(locale)
else:
    Babel(app).localeselector(locale)
store = kobdzila.Store("messages")
kobdzila.flask.init_app(app, store)
TITLE = lazy_gettext("basket")
OWN = kobdzila.lazy_gettext("basket"), kobdzila.lazy_pgettext("verb", "order"), kobdzila.lazy_ngettext("a", "b", 2)


@app.before_request
def early():
    if request.args.get("early"):
        return " ".join(map(str, OWN))


@app.get("/")
def page():
    before = gettext("basket")
    if request.args.get("put"):
        load("fr", request.args["put"])
    with force_locale("pt_BR"):
        other = f"{gettext('basket')} {OWN[0]}"
    texts = [before, gettext("basket"), str(TITLE), pgettext("verb", "order"), ngettext("%(n)s file", "%(n)s files", 2, n=2),
             npgettext("none", "%(n)s file", "%(n)s files", 1, n=1), ngettext("%(n)s file", "%(n)s files", -1, n=-1), other,
             render_template_string("{{ _('basket') }}|{% trans n=n %}{{ n }} file{% pluralize %}{{ n }} files{% endtrans %}",
                                    n=3), " ".join(map(str, OWN))]
    return "\n".join(texts)


def in_threads(work, count):
    """Do some work in threads that have copies of the request's context."""
    threads = [Thread(target=copy_current_request_context(work)) for _ in range(count)]
    for thread in threads:
        thread.start()
    for thread in threads:
        thread.join()


@app.get("/threads")
def threads():
    texts, seen = flask_babel.get_translations(), []
    for name in ("one", "two"):
        in_threads(lambda: seen.append(gettext("basket")), 1)
        load("fr", name)
    return " ".join([*seen, gettext("basket"), texts.gettext("basket")])


@app.get("/json")
def as_json():
    flash(OWN[0])
    return jsonify(text=OWN[0], day=datetime.date(2026, 3, 1))


@app.get("/flashed")
def flashed():
    return render_template_string("{% for it in get_flashed_messages() %}{{ it }}{% endfor %}")


@app.get("/at-once")
def at_once():
    """Two threads are the first to look up. Each makes a snapshot, of another version, before the other has kept its own."""
    seen, made, turn, both = [], store.snapshot, Lock(), Barrier(2)

    def slowly(*words):
        with turn:
            found = made(*words)
            load("fr", "three")
        both.wait(60)
        return found

    with mock.patch.object(store, "snapshot", slowly):
        in_threads(lambda: seen.append(gettext("basket")), 2)
    return " ".join([*seen, gettext("basket")])


def load(locale, name):
    store.load("messages", locale, PO.replace("{0}", name).encode())
    store.publish()


def get(accepted, **words):
    return app.test_client().get("/", query_string=words, headers={"Accept-Language": accepted}).text.split("\n")


def french(name):
    return [name, name, name, name + " verb", name + " 2 fichiers", "1 file", name + " -1 fichier", "cesta cesta",
            name + "|" + name + " 3 fichiers", name + " " + name + " verb b"]


load("fr", "panier")
load("pt", "cesta")
assert str(OWN[0]) == "basket"
assert get("fr") == french("panier"), get("fr")
assert get("fr", early="1") == ["panier panier verb b"], get("fr", early="1")
assert get("fr", put="corbeille") == french("panier"), "a request has two versions"
assert get("fr") == french("corbeille"), get("fr")
assert get("en")[:3] == ["basket"] * 3
assert get("pt-BR")[:3] == ["cesta"] * 3
with app.app_context():
    assert gettext("basket") == "corbeille"
for path in ("/threads", "/at-once"):
    answer = app.test_client().get(path, headers={"Accept-Language": "fr"}).text
    assert len(set(answer.split())) == 1, f"{path} has two versions: {answer}"
    assert store.retained == 0, f"{path} leaves a snapshot"
# a lazy text is JSON, also in a session, and no markup
load("fr", "l'<b>")
client = app.test_client()
answer = client.get("/json", headers={"Accept-Language": "fr"}).json
assert answer == {"text": "l'<b>", "day": "Sun, 01 Mar 2026 00:00:00 GMT"}, answer
assert client.get("/flashed").text == "l&#39;&lt;b&gt;"
load("fr", "corbeille")
# the whole interface of Babel's translations
from babel.support import NullTranslations
with app.test_request_context(headers={"Accept-Language": "fr"}):
    texts = (getattr(app.extensions["babel"], "instance", app.extensions["babel"]).domain_instance).get_translations()
    assert isinstance(texts, NullTranslations) and texts.domain == "messages" and texts.files == []
    assert texts.info()["language"] == "fr" and texts.charset() == "UTF-8" and texts.plural(2) == 1, texts.info()
    assert texts.dgettext("messages", "basket") == texts.udgettext("messages", "basket") == "corbeille"
    assert texts.dnpgettext("messages", "none", "a", "b", 2) == "b"
    more = 'msgid "new"\nmsgstr "nouveau"\nmsgid "x"\nmsgid_plural "y"\nmsgstr[0] "z"\n'
    more = kobdzila.Catalogue.from_po(more.encode())
    texts.add_fallback(kobdzila.GNUTranslations(more.mo_file()))
    assert (texts.gettext("new"), texts.ngettext("x", "y", 1), texts.gettext("basket")) == ("nouveau", "z", "corbeille")
    assert (texts.pgettext("c", "new"), texts.npgettext("c", "x", "y", 2), texts.gettext("no")) == ("new", "y", "no")
other = Flask("other")
try:
    kobdzila.flask.init_app(other, store)
except RuntimeError as fault:
    assert "Babel(app)" in str(fault)
else:
    raise AssertionError
print("well")
'''


def there(*names: str) -> bool:
    return all(importlib.util.find_spec(name) for name in names)


class SitesTest(unittest.TestCase):
    def play(self, program: str, *words: str) -> None:
        with tempfile.TemporaryDirectory() as room:
            (Path(room) / "fr" / "LC_MESSAGES").mkdir(parents=True)
            command = [sys.executable, "-c", program, "|".join(sys.path), room, PO, *words]
            done = subprocess.run(command, capture_output=True, text=True)
        self.assertEqual((done.stdout, done.returncode), ("well\n", 0), done.stderr)

    @unittest.skipUnless(there("django"), "no Django")
    def test_django(self) -> None:
        self.play(SITE)

    @unittest.skipUnless(there("flask", "flask_babel"), "no Flask-Babel")
    def test_flask_babel(self) -> None:
        self.play(FLASK)

    @unittest.skipUnless(there("flask", "flask_babel"), "no Flask-Babel")
    def test_later_flask_babel(self) -> None:
        self.play(FLASK, "later")


if __name__ == "__main__":
    unittest.main()
